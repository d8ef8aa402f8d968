#!/usr/bin/env python3
"""Brings the repository's own names in specs/, proofs/ and clauses to snake case, as the library spells its own.

usage: tools/respell.py        (once, at the top of the repository, after the port script)

A definition, lemma, record field or constructor that specs/ or a lemma file of proofs/ declares loses its dashes and
inner capitals: `with-span` becomes `with_span`, `floorBy` becomes `floor_by`. Names of goals and of steps of the code
(what follows `goal.` or `c.` in a function's answers) belong to the checker and stay; so do the words of comments,
but for names in backquotes. docs/ and README.md get the new names in backquotes too.
"""
import glob
import re

CAPITALS = {"floorBy": "floor_by", "ceilBy": "ceil_by", "atMost?": "at_most?", "true-T": "true_t"}
SIGNATURE = re.compile(r"^\s*(?:(?:abbrev|unfoldable|pub|data|record|ruleset)\s+)*([^\s:(){}]+)\s*:(?!=)")
TOKEN = re.compile(r"(?<![\w'?-])[A-Za-z][\w'?-]*")


def lemma_files():
    yield from glob.glob("crates/*/specs/**/*.antt", recursive=True)
    yield from glob.glob("crates/*/proofs/*.antt")


def new_name(name):
    for old, new in CAPITALS.items():
        name = name.replace(old, new)
    name = re.sub(r"leZ", "le_z", name)
    name = re.sub(r"ofZ", "of_z", name)
    return name.replace("-", "_")


def declared():
    names, fields = {}, set()
    for path in lemma_files():
        inside = False
        for line in open(path, encoding="utf-8"):
            if line.startswith("--"):
                continue
            if re.match(r"(pub )?(record|data) ", line):
                inside = True
            elif line[:1].strip():
                inside = False
            m = SIGNATURE.match(line)
            if m and not m[1].startswith("returns-") and (re.search(r"\w-\w", m[1]) or new_name(m[1]) != m[1]):
                if m[1][0].islower():
                    names[m[1]] = new_name(m[1])
                    if inside and line[:1] == " ":
                        fields.add(m[1])
    names["terms-below"] = "terms_below"
    return names, fields


def from_std(text):
    words = set()
    for m in re.finditer(r"use (?:Rattle\.std|Prim|mathlib|logic|native)[^\s{]*\.\{([^}]*)\}", text):
        words |= {w.strip().split(" as ")[0] for w in m[1].split(",")}
    return words


def turn(part, names, fields, answers, keep):
    def one(m):
        word = m[0]
        if word not in names or word in keep:
            return word
        if answers and m.start() and part[m.start() - 1] == "." and word not in fields:
            # behind a dot in a function's answers a goal or a step is named, unless the dot follows a module
            if not re.search(r"(?:^|[^\w.])(?:Rattle\.|[A-Z])[\w.+-]*\.$", part[: m.start()]):
                return word
        return names[word]

    return TOKEN.sub(one, part)


def turn_line(line, mark, names, fields, answers, keep):
    m = re.search(r'(^|\s)' + mark, line)
    code, comment = (line[: m.start()], line[m.start():]) if m else (line, "")
    code = "".join(p if i % 2 else turn(p, names, fields, answers, keep) for i, p in enumerate(re.split(r'("(?:[^"\\]|\\.)*")', code)))
    comment = re.sub(r"`[^`]*`", lambda q: turn(q[0], names, fields, False, keep), comment)
    return code + comment


def main():
    names, fields = declared()
    files = [(p, "--") for p in glob.glob("crates/*/**/*.antt", recursive=True)]
    files += [(p, "//") for p in glob.glob("crates/*/src/*.rt")]
    for path, mark in sorted(files):
        if "/out/" in path:
            continue
        text = open(path, encoding="utf-8").read()
        keep = from_std(text)
        answers = path.endswith(("Answers.antt", "Invariants.antt"))
        new = "".join(turn_line(l, mark, names, fields, answers, keep) for l in text.splitlines(keepends=True))
        if new != text:
            open(path, "w", encoding="utf-8").write(new)
    for path in ["README.md"] + sorted(glob.glob("docs/*.md")):
        text = open(path, encoding="utf-8").read()
        new = re.sub(r"`[^`\n]*`", lambda q: turn(q[0], names, fields, False, set()), text)
        if new != text:
            open(path, "w", encoding="utf-8").write(new)


main()
