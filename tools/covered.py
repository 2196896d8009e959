#!/usr/bin/env python3
"""Prints which functions have no planted bug, and which public functions and loops have no must-fail edit.

    tools/covered.py [CRATE..]        of these crates, or of all that have must-fail edits

A bug (tools/bugs/) or an edit (must-fail/) counts for the function in whose text its OLD stands. Public are `pub`
functions and those that implement a trait. A loop is `for`, `while`, `loop`, or a call that goes over items; it counts
with its function. Tests, and functions of a trait that have no body, do not count.
"""
import glob
import os
import re
import sys

import plant

FUNCTION = re.compile(r"^([ \t]*)((?:pub(?:\(crate\))? )?)(?:const )?(?:unsafe )?(?:extern \"C\" )?fn (\w+)", re.M)
BLOCK = re.compile(r"^(?:impl|pub trait|trait)\b.*", re.M)
ITERATES = re.compile(r"\b(?:for [\w()&, ]+ in|while|loop)\b|\.(?:find|position|any|all)\(\s*\||\.(?:fold|count|collect|extend|contains|fill)\(\s*(?:\||\)|&|\d)")


class Function:
    def __init__(self, path, name, public, begin, end, text):
        self.path, self.name, self.public, self.begin, self.end = path, name, public, begin, end
        self.loops = bool(ITERATES.search(text))
        self.bugs = self.edits = 0


def functions_of(path, source):
    """The functions of a file, each with the part of the text from its name to where its body ends."""
    found = []
    for match in FUNCTION.finditer(source):
        indent, visible, name = match.groups()
        blocks = BLOCK.findall(source[:match.start()]) if indent else []
        if blocks and "trait " in blocks[-1]:
            continue
        public = visible == "pub " or bool(blocks and " for " in blocks[-1])
        end = source.find("\n" + indent + "}", match.end())
        found.append(Function(path, name, public, match.start(), end, source[match.end():end]))
    return found


def edits_of(crate):
    return sorted(glob.glob("crates/%s/must-fail/*.edit" % crate))


def places_of(edits):
    """File and OLD of each pair of each of these must-fail edits."""
    for name in edits:
        path = None
        for line in open(name, encoding="utf-8").read().splitlines():
            if line.startswith("file: "):
                path = "%s/%s" % (name.split("/must-fail/")[0], line[len("file: "):])
            elif line.startswith("old: "):
                yield path, line[len("old: "):]


def is_in(function, source, old):
    return source.count(old) == 1 and function.begin <= source.index(old) <= function.end


def look(crate):
    sources = {path: open(path, encoding="utf-8").read() for path in sorted(glob.glob("crates/%s/src/**/*.rt" % crate, recursive=True))
               if not path.endswith("tests.rt")}
    functions = [f for path, source in sources.items() for f in functions_of(path, source)]
    bugs = list(plant.bugs_of(crate)) if os.path.exists(os.path.join(plant.LISTS, crate + ".txt")) else []
    edits = edits_of(crate)
    places = list(places_of(edits))
    for f in functions:
        source = sources[f.path]
        f.bugs = sum(path == f.path and is_bug and is_in(f, source, old) for path, old, _, is_bug in bugs)
        f.edits = sum(path == f.path and is_in(f, source, old) for path, old in places)
    print("%s: %d functions, %d bugs, %d must-fail edits" % (crate, len(functions), sum(b[3] for b in bugs), len(edits)))
    for f in functions:
        wants = []
        if not f.bugs:
            wants.append("no bug")
        if not f.edits and (f.public or f.loops):
            wants.append("no edit (%s)" % ", ".join(["public"] * f.public + ["loop"] * f.loops))
        if wants:
            print("  %s %s: %s" % (f.path, f.name, "; ".join(wants)))


if __name__ == "__main__":
    for name in sys.argv[1:] or sorted({path.split("/")[1] for path in glob.glob("crates/*/must-fail")}):
        look(name)
