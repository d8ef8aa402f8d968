#!/usr/bin/env python3
"""The expected output of the program `vectors`, from outputs that independent programs gave.

usage: tools/expected.py FOLDER > crates/vectors/stdout

FOLDER has, for each NAME, NAME.sheet and NAME.nominal and NAME.ranges as those programs
printed them. Only the numbers of variables, rows, terms and bytes of an accepted sheet are
counted here, from the fields of the sheet itself.
"""
import pathlib
import sys


def counted(sheet):
    """How many variable, row and term fields the sheet has, and its length."""
    at, tags = 0, []
    while at < len(sheet):
        tags.append(sheet[at])
        at += 3 + sheet[at + 1] * 256 + sheet[at + 2]
    return tags.count(1), tags.count(2), tags.count(3), len(sheet)


def main():
    folder = pathlib.Path(sys.argv[1])
    for sheet in sorted(folder.glob("*.sheet")):
        nominal = sheet.with_suffix(".nominal").read_text()
        print("==", sheet.stem)
        if nominal.startswith("REFUSED"):
            print(nominal, end="")
            continue
        print("ACCEPTED VARIABLES %d ROWS %d TERMS %d BYTES %d" % counted(sheet.read_bytes()))
        print(nominal, end="")


main()
