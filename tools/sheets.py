"""Writes sheets (docs/SHEET.md); it checks nothing, so it writes wrong ones too. No script uses it yet."""

ONE = 65536
LARGEST = 2147483647


def field(tag, content, length=None):
    length = len(content) if length is None else length
    return bytes([tag]) + (length % 65536).to_bytes(2, "big") + content


def number(value):
    return (value % (1 << 32)).to_bytes(4, "big")


def variable(name, lo, hi, nominal=None):
    nominal = (lo + hi) // 2 if nominal is None else nominal
    return field(1, number(lo) + number(hi) + number(nominal) + name)


def tolerance(value):
    return field(4, number(value))


def at_least(lo):
    return field(2, b"\1" + number(lo))


def at_most(hi):
    return field(2, b"\2" + number(hi))


def between(lo, hi):
    return field(2, b"\3" + number(lo) + number(hi))


def term(coefficient, exponents):
    return field(3, number(coefficient) + bytes(exponents))


END = field(9, b"")
