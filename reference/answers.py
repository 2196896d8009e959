#!/usr/bin/env python3
"""Test cases for the answers to queries: texts with their whole report. The reports of ANSWER_CASES are worked out by
hand from docs/MODEL.md and docs/ANNEX.md (policy_answers.py and search_answers.py), those of TAKEN_CASES are taken
from the reference program annex.py.

    answers.py                        checks every case against the reference program
    answers.py --files [DIRECTORY]    and then writes the files stdin and stdout into DIRECTORY
                                      (default: crates/annex_cases)

The files hold CASES of cases.py, ANSWER_CASES and TAKEN_CASES. stdin has for each text its length in decimal,
byte 10, the text, byte 10; stdout has the reports one after the other. Of the report of a text of cases.py the first
line is the one expected there, and the answers to its queries are those of the reference program.
"""

import sys
from pathlib import Path

sys.dont_write_bytecode = True
import annex  # noqa: E402
from cases import CASES, check_names, differing            # noqa: E402
from policy_answers import ACTIONS, PLAIN, PREDICATES      # noqa: E402
from search_answers import LIMITS, SEARCHES, SHIPPED       # noqa: E402
from taken import TAKEN_CASES                              # noqa: E402

ROOT = Path(__file__).resolve().parent.parent

ANSWER_CASES = PLAIN + PREDICATES + ACTIONS + SEARCHES + LIMITS + SHIPPED


def whole(text, first):
    """The report about a text of cases.py, which begins with this line."""
    return first + "\n" + "".join(annex.annex(text).splitlines(keepends=True)[1:])


def write_files(directory):
    cases = [(text, whole(text, first)) for _, text, first in CASES]
    cases += [(text, report) for _, text, report in ANSWER_CASES + TAKEN_CASES]
    stdin = b"".join(b"%d\n%b\n" % (len(text), text) for text, _ in cases)
    stdout = "".join(report for _, report in cases)
    directory.mkdir(exist_ok=True)
    (directory / "stdin").write_bytes(stdin)
    (directory / "stdout").write_text(stdout)
    print(f"{directory}: {len(cases)} texts, stdin of {len(stdin)} bytes, stdout of {len(stdout)} bytes")


def main(arguments):
    check_names(CASES)
    names = [name for name, _, _ in ANSWER_CASES + TAKEN_CASES]
    assert len(set(names)) == len(names), "two cases share a name"
    count = differing(ANSWER_CASES + TAKEN_CASES, annex.annex, "") + differing(CASES, annex.head, "\n")
    if count:
        sys.exit(f"{count} reports differ")
    print(f"{len(ANSWER_CASES)} reports by hand and {len(TAKEN_CASES)} taken ones, all as expected")
    if arguments:
        write_files(Path(arguments[1]) if len(arguments) == 2 else ROOT / "crates/annex_cases")


if __name__ == "__main__":
    if sys.argv[1:2] not in ([], ["--files"]) or len(sys.argv) > 3:
        sys.exit(__doc__)
    main(sys.argv[1:])
