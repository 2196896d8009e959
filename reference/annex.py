#!/usr/bin/env python3
"""Reference program for `annex`: reads a scheme text from standard input and prints the report.

    annex.py < TEXT            the whole report
    annex.py --head < TEXT     its first line only: `scheme N M` or the refusal of the text

It is written from the pages in docs/ alone: this file from ANNEX.md, text.py from TEXT.md and REFUSALS.md,
model.py from MODEL.md. It is meant to be easy to compare with them, not to be fast.
"""

import sys

sys.dont_write_bytecode = True
from model import Refused, analyse  # noqa: E402
from text import MOST_BYTES, read   # noqa: E402

TABLE_ENTRIES = 4_096


def answer(scheme, system, query):
    """The lines printed for a query."""
    try:
        outcome = analyse(system, query, TABLE_ENTRIES)
    except Refused as refusal:
        return [str(refusal)]
    subject, object_, right = query
    verdict = "never" if outcome.witness is None else "leak"
    lines = [f"{verdict} {scheme.objects[subject]} {scheme.objects[object_]} {scheme.rights[right]} "
             f"{len(outcome.found)} {outcome.tried}"]
    for move in outcome.witness or []:
        policy, subject, object_ = system.parts_of(move)
        lines.append(f"by {scheme.policies[policy].name} {scheme.objects[subject]} {scheme.objects[object_]}")
    return lines


def report(data, queries):
    """The report about a text, with the answers to its queries or without them."""
    try:
        scheme = read(data)
    except Refused as refusal:
        return f"{refusal}\n"
    system = scheme.system()
    lines = [f"scheme {system.states} {system.moves}"]
    for query in scheme.queries if queries else []:
        lines += answer(scheme, system, query)
    return "".join(line + "\n" for line in lines)


def annex(data: bytes) -> str:
    """The whole report about a text."""
    return report(data, queries=True)


def head(data: bytes) -> str:
    """The first line of the report."""
    return report(data, queries=False)


def main(arguments):
    if arguments not in ([], ["--head"]):
        sys.exit("usage: annex.py [--head] < TEXT")
    data = sys.stdin.buffer.read(MOST_BYTES + 1)
    sys.stdout.write(head(data) if arguments else annex(data))


if __name__ == "__main__":
    main(sys.argv[1:])
