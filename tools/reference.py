#!/usr/bin/env python3
"""The rules once more, in plain Python, written from docs/ and apart from the proved code.

usage: tools/reference.py ranges|nominal|narrowings < SHEET

It serves to compare with: it is slow and nothing is proved of it.
"""
import sys

LIMIT = 2147483647
OPEN = None


class Refused(Exception):
    pass


def number(b):
    return int.from_bytes(b, "big")


def count(b):
    return int.from_bytes(b, "big", signed=True)


# ---- the sheet
def is_count(z):
    return -LIMIT <= z <= LIMIT


def read(sheet, places=64):
    if len(sheet) > 4096:
        raise Refused(1, 4096, "SHEET")
    variables, tolerance, rows = [], None, []
    state, at = "start", 0
    follows = {
        ("start", 1): "variables", ("variables", 1): "variables", ("variables", 4): "tolerance",
        ("tolerance", 2): "row", ("row", 3): "terms", ("terms", 3): "terms", ("terms", 2): "row", ("terms", 9): "end",
    }
    while state != "end":
        place, left = at, sheet[at:]
        if len(left) < 3 or len(left) - 3 < left[1] * 256 + left[2]:
            raise Refused(2, place, "FIELD")
        tag, length = left[0], left[1] * 256 + left[2]
        content = left[3:3 + length]
        lengths = {1: range(13, 21), 4: (4,), 2: (5, 9), 3: (4 + len(variables),), 9: (0,)}
        if tag not in lengths:
            raise Refused(3, place, "FIELD")
        if length not in lengths[tag]:
            raise Refused(5, place, "FIELD")
        if (state, tag) not in follows:
            raise Refused(4, place, "SHEET")
        state = follows[state, tag]
        if tag == 1:
            if len(variables) == 8:
                raise Refused(7, place, "SHEET")
            lo, hi, nominal, name = count(content[:4]), count(content[4:8]), count(content[8:12]), content[12:]
            good = all(map(is_count, (lo, hi, nominal))) and lo <= nominal <= hi
            if not good or any(not (65 <= b <= 90 or 48 <= b <= 57) for b in name):
                raise Refused(6, place, "SHEET")
            if name in [v[0] for v in variables]:
                raise Refused(8, place, "SHEET")
            variables.append((name, lo, hi, nominal))
        elif tag == 4:
            tolerance = number(content)
            if not 1 <= tolerance <= LIMIT:
                raise Refused(6, place, "SHEET")
        elif tag == 2:
            if len(rows) == 16:
                raise Refused(7, place, "SHEET")
            kind, ends = content[0], [count(content[i:i + 4]) for i in range(1, length, 4)]
            if kind not in ((1, 2) if length == 5 else (3,)) or not all(map(is_count, ends)) or ends != sorted(ends):
                raise Refused(6, place, "SHEET")
            rows.append((kind, ends, []))
        elif tag == 3:
            if len(rows[-1][2]) == 12:
                raise Refused(7, place, "SHEET")
            c, exponents = count(content[:4]), list(content[4:])
            if not is_count(c) or sum(exponents) > 4:
                raise Refused(6, place, "SHEET")
            rows[-1][2].append((c, exponents))
        at = place + 3 + length
    if at < len(sheet):
        raise Refused(10, at, "SHEET")
    if len(rows) > places or sum(len(r[2]) for r in rows) > places:
        raise Refused(9, len(sheet), "SHEET")
    return variables, tolerance, rows


# ---- spans
def span(lo, hi):
    return (lo, hi) if -LIMIT <= lo and hi <= LIMIT else OPEN


def plus(s, t):
    return OPEN if s is OPEN or t is OPEN else span(s[0] + t[0], s[1] + t[1])


def minus(s, t):
    return OPEN if s is OPEN or t is OPEN else span(s[0] - t[1], s[1] - t[0])


def times(s, t):
    if s is OPEN or t is OPEN:
        return OPEN
    corners = [a * b for a in s for b in t]
    return span(min(corners) // 65536, -(-max(corners) // 65536))


def over(s, t):
    if s is OPEN or t is OPEN or t[0] <= 0 <= t[1]:
        return OPEN
    return span(min(a * 65536 // c for a in s for c in t), max(-(-a * 65536 // c) for a in s for c in t))


def power(s, k):
    all_ = (65536, 65536)
    for _ in range(k):
        all_ = times(all_, s)
    return all_


def term(t, box):
    all_ = (t[0], t[0])
    for s, e in zip(box, t[1]):
        all_ = times(all_, power(s, e))
    return all_


def total(terms, box):
    all_ = (0, 0)
    for t in terms:
        all_ = plus(all_, term(t, box))
    return all_


def judged(row, s):
    if s is OPEN:
        return "unsure"
    kind, ends = row[0], row[1]
    lo = ends[0] if kind != 2 else -10 ** 30
    hi = ends[-1] if kind != 1 else 10 ** 30
    if lo <= s[0] and s[1] <= hi:
        return "met"
    return "broken" if s[1] < lo or hi < s[0] else "unsure"


# ---- contractors: none, or a box
def row_test(rows, box):
    return None if any(judged(r, total(r[2], box)) == "broken" for r in rows) else box


def gauss_seidel(rows, box):
    box = list(box)
    for kind, ends, terms in rows:
        for j in range(len(box)):
            with_j = [(c, e[:j] + [e[j] - 1] + e[j + 1:]) for c, e in terms if e[j] > 0]
            if not with_j:
                continue
            whole = total(terms, box)
            if kind == 3:
                target = (ends[0], ends[1])
            elif whole is OPEN:
                target = OPEN
            else:
                target = (ends[0], whole[1]) if kind == 1 else (whole[0], ends[0])
                if target[0] > target[1]:
                    return None
            rest = total([t for t in terms if t[1][j] == 0], box)
            new = over(minus(target, rest), total(with_j, box))
            if new is not OPEN:
                lo, hi = max(box[j][0], new[0]), min(box[j][1], new[1])
                if lo > hi:
                    return None
                box[j] = (lo, hi)
    return box


def then(first, second):
    def both(rows, box):
        box = first(rows, box)
        return None if box is None else second(rows, box)
    return both


def until(most, inner):
    def again(rows, box):
        for _ in range(min(16, max(1, most))):
            new = inner(rows, box)
            if new is None or new == box:
                return new
            box = new
        return box
    return again


SOLVER = until(4, then(row_test, gauss_seidel))


# ---- the run
def solve(variables, tolerance, rows, places=64, limit=10000):
    pending, feasible, undecided, steps = [[(v[1], v[2]) for v in variables]], [], [], 0
    while True:
        if not pending:
            return feasible, undecided, pending, steps, 22
        if steps == limit:
            return feasible, undecided, pending, steps, 23
        taken = pending.pop()
        box = SOLVER(rows, list(taken))
        words = [] if box is None else [judged(r, total(r[2], box)) for r in rows]
        if box is None or "broken" in words:
            pass
        elif all(w == "met" for w in words):
            if len(feasible) == places:
                return feasible, undecided, pending + [taken], steps, 25
            feasible.append(box)
        else:
            widths = [hi - lo for lo, hi in box]
            j = widths.index(max(widths))
            if widths[j] > tolerance and places - len(pending) >= 2:
                lo, hi = box[j]
                middle = (lo + hi) // 2
                pending.append(box[:j] + [(middle, hi)] + box[j + 1:])
                pending.append(box[:j] + [(lo, middle)] + box[j + 1:])
            else:
                if len(undecided) == places:
                    return feasible, undecided, pending + [taken], steps, 26
                undecided.append((box, "CROWDED" if widths[j] > tolerance else "SMALL"))
        steps += 1


# ---- reports
def ranges_of(names, box):
    return "".join(" %s=%d..%d" % (n, lo, hi) for n, (lo, hi) in zip(names, box))


def ranges(variables, tolerance, rows):
    names = [v[0].decode() for v in variables]
    feasible, undecided, pending, steps, stop = solve(variables, tolerance, rows)
    verdict = "SOME" if feasible else "UNFINISHED" if pending else "UNSURE" if undecided else "NONE"
    print("VERDICT %s STEPS %d STOP %d" % (verdict, steps, stop))
    for box in feasible:
        print("F" + ranges_of(names, box))
    for box, cause in undecided:
        print("U" + ranges_of(names, box) + " " + cause)
    for box in pending:
        print("P" + ranges_of(names, box))


def nominal(variables, tolerance, rows):
    box = [(v[1], v[2]) for v in variables]
    inside = [v[3] for v in variables]
    for i, (_, _, terms) in enumerate(rows, 1):
        s = total(terms, box)
        value = 0
        for c, exponents in terms:
            t = c
            for x, e in zip(inside, exponents):
                p = 65536
                for _ in range(e):
                    p = p * x // 65536
                t = t * p // 65536
            value += t
        print("R %d OPEN" % i if s is OPEN else "R %d %d..%d %d" % (i, s[0], s[1], value))


def narrowings(variables, tolerance, rows):
    names = [v[0].decode() for v in variables]
    start = [(v[1], v[2]) for v in variables]
    steps = (("row test", row_test), ("pass", gauss_seidel), ("then", then(row_test, gauss_seidel)), ("until", SOLVER))
    for name, contractor in steps:
        box = contractor(rows, list(start))
        print(name + ":" + (" NONE" if box is None else ranges_of(names, box)))


def main():
    sheet = sys.stdin.buffer.read(4097)
    try:
        {"ranges": ranges, "nominal": nominal, "narrowings": narrowings}[sys.argv[1]](*read(sheet))
    except Refused as r:
        print("REFUSED %d AT %d IN %s" % r.args)
        sys.exit(1)


main()
