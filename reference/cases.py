#!/usr/bin/env python3
"""Test cases for the reader: texts with the first line of their report, worked out by hand from
docs/TEXT.md and docs/REFUSALS.md (line_cases.py, misspelled_cases.py and scheme_cases.py).

    cases.py    checks every case against the reference program annex.py

answers.py writes the texts of CASES, with their whole reports, into the files of a program.
The name of a case begins with the number of the refusal, or with `ok` for an accepted text.
"""

import sys

sys.dont_write_bytecode = True
import annex  # noqa: E402
from line_cases import COUNTS, FORMS, LINES, LONG_CASES, ORDER            # noqa: E402
from misspelled_cases import MISSPELLED                                   # noqa: E402
from scheme_cases import ACCEPTED, ENDS, MOSTS, NAMES, RANKS              # noqa: E402

CASES = LINES + ORDER + COUNTS + FORMS + MISSPELLED + ACCEPTED + MOSTS + NAMES + RANKS + ENDS


def differing(cases, program, end):
    """How many cases there are in which the program does not print what is expected; shows them."""
    count = 0
    for name, text, expected in cases:
        printed = program(text)
        if printed != expected + end:
            count += 1
            print(f"{name}: expected {expected!r}, the reference prints {printed!r}")
    return count


def check_names(cases):
    """Names are unique, and those of refusals begin with the number."""
    assert len({name for name, _, _ in cases}) == len(cases), "two cases share a name"
    for name, _, expected in cases:
        number = expected.split()[1] if expected.startswith("refused") else "ok"
        assert name.split()[0] == number, f"the name of {name!r} begins with another number"


def main():
    check_names(CASES + LONG_CASES)
    count = differing(CASES + LONG_CASES, annex.head, "\n")
    if count:
        sys.exit(f"{count} cases differ")
    print(f"{len(CASES)} cases and {len(LONG_CASES)} long cases, all as expected")


if __name__ == "__main__":
    main()
