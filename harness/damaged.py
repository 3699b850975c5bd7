"""Writes the damaged tables of the programs `published` and `replay`, each from the table that it stands beside, to crates/PROGRAM/data/damaged:

  python3 harness/damaged.py published | replay      harness/tables.py and harness/replay do it too

A damaged table has a few pieces of its table as they are, and then each again once for every digit of its answers, with that digit changed; once for every
answer of bytes, with a zero more; and once for every line of a text, without it. A comparison that does not look at something counts too few differences.
"""
import os
import re
import sys

import sheet

# The pieces of each table, the first that fits, with the answers as groups; those that are bytes or a line have a name.
PIECES = {
    "published": {
        "opcodes": [r"00 86 (.) (..)", r"00 01 (-) --"],
        "codes": [r"36 1 (..) (..)", r"36 0 (-)- --"],
        "postbytes": [r"99 (.) (.) (.) (.) (....)", r"87 (-) - - - ----"],
        "negatives": [r"8C (.) (.) (.) (.) (....)", r"87 (-) - - - ----"],
        "pushes": [r"34 E5 (....)", r"35 E5 (....)", r"36 E5 (....)", r"37 E5 (....)"],
        "lists": [r"6 3 75.----- (..)", r"5 1 5------- (-)-"],
        "capstone": [r"A684123400 (.) (..) (.)", r"0184123400 0 (-)- -", r"1F84123400 2 89 (x)"],
    },
    "replay": {
        "builds": [r">.*\nf.{13}(-.)", r">.*\nf.{13}(?P<bytes>\w{11})", r">.*\nf.{13}(?P<bytes>\w{5})\nk.{13}(?P<bytes_kept>\w{7})"],
        "texts": [r"o.*\n..\n=\n:(?P<line>.*)\n:(?P<line_of_end>.*)\n\.", r"o.*\n....\nrD7\n=(..)\n:.*\n:.*\n\."],
        "labels": [r"0000FFFF.{24}(.{16})"],
        "segments": [r"n\na(?!0000).{4}(..)\nq.{4}(.{8})"],
        "evaluations": [r"z\n(?:[nl].*\n)+\?.{8}(-.)", r"z\n(?:[nl].*\n)+r.*\n\?.{8}(.{10})\nr.*\n>.*\ne(?P<bytes>\w+)"],
    },
}


def other(character):
    """The next digit, in its case; a digit for the dash of what is not there, and a dash for a mark."""
    for digits in ("0123456789ABCDEF0", "0123456789abcdef0"):
        if character in digits:
            return digits[digits.index(character) + 1]
    return "1" if character == "-" else "-"


def damages(pattern, piece):
    found = re.fullmatch(pattern, piece)
    names = {number: name for name, number in found.re.groupindex.items()}
    for number in range(1, found.re.groups + 1):
        first, last = found.span(number)
        for at in range(first, last):
            yield piece[:at] + other(piece[at]) + piece[at + 1 :]
        if names.get(number, "").startswith("bytes"):
            yield piece[:last] + "00" + piece[last:]
        if names.get(number, "").startswith("line"):
            yield piece[: first - 1] + piece[last + 1 :]  # its colon and its end go too


def write(program):
    data = os.path.join(sheet.ROOT, "crates", program, "data")
    os.makedirs(os.path.join(data, "damaged"), exist_ok=True)
    for name, patterns in PIECES[program].items():
        with open(os.path.join(data, name)) as table:
            text = table.read()
        pieces = [re.search(f"^{pattern}$", text, re.M).group(0) for pattern in patterns]
        damaged = [damage for pattern, piece in zip(patterns, pieces) for damage in damages(pattern, piece)]
        with open(os.path.join(data, "damaged", name), "w") as out:
            out.writelines(piece + "\n" for piece in pieces + damaged)
        print(f"crates/{program}/data/damaged/{name}: {len(pieces)} pieces, {len(damaged)} damages")


if __name__ == "__main__":
    if sys.argv[1:] not in (["published"], ["replay"]):
        sys.exit(__doc__)
    write(sys.argv[1])
