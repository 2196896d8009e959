#!/usr/bin/env python3
"""Lists the places in crates/*/src where an older form of the language may stand.

    tools/places.py [ROOT] [HEADING]

ROOT is the top of a checkout (default: .). Under each heading stand candidates, `FILE:LINE  TEXT`, and their count; which of
them are places is judged by a reader. HEADING, a part of a heading's text, prints that heading alone.
Comments, `ghost use` lines and imports do not count.
"""
import collections
import glob
import re
import sys

KEYWORDS = set("""as break const continue else enum false fn for if impl in let loop match mod move mut pub ref return self Self
struct trait true type unreachable use where while Some None Ok Err Option Result bool""".split())


def code_of(line):
    line = re.sub(r"//.*", "", line).rstrip()
    return "" if re.match(r"\s*(ghost use|use|pub use|mod|pub mod)\b", line) else line


def files(root):
    for path in sorted(glob.glob(root + "/crates/*/src/**/*.rt", recursive=True)):
        lines = [code_of(line) for line in open(path, encoding="utf-8")]
        yield path[len(root) + 1:], lines


def functions(root):
    """Each function: file, line, name, parameters, clauses, body."""
    for path, lines in files(root):
        text = "\n".join(lines)
        for found in re.finditer(r"\bfn (\w+)", text):
            opened = text.find("{", found.end())
            stop = text.find(";", found.end())
            head_end = found.end()
            clauses = []
            while True:
                clause = re.compile(r"\s*(?:requires|ensures)\*?(?: (\w+))? \{").search(text, head_end)
                brace = text.find("{", head_end)
                if clause is None or clause.end() - 1 != brace:
                    break
                depth, at = 1, clause.end()
                while depth:
                    depth += {"{": 1, "}": -1}.get(text[at], 0)
                    at += 1
                clauses.append((clause.group(0).split()[0].rstrip("*"), text[clause.end():at - 1].strip()))
                head_end = at
            opened = text.find("{", head_end)
            stop = text.find(";", head_end)
            if opened < 0 or (0 <= stop < opened and not clauses):
                continue
            if 0 <= stop < opened and text[head_end:stop].strip() == "":
                continue
            depth, at = 1, opened + 1
            while depth and at < len(text):
                depth += {"{": 1, "}": -1}.get(text[at], 0)
                at += 1
            signature = text[found.start():opened].split("requires")[0].split("ensures")[0]
            yield path, text.count("\n", 0, found.start()) + 1, found.group(1), signature, clauses, text[opened:at]


def lines_with(root, pattern, unless=None):
    for path, lines in files(root):
        for number, line in enumerate(lines, 1):
            if re.search(pattern, line) and not (unless and re.search(unless, line)):
                yield "%s:%d  %s" % (path, number, line.strip())


def parameters(signature):
    inside = signature[signature.find("(") + 1:]
    depth, at = 1, 0
    while depth and at < len(inside):
        depth += {"(": 1, ")": -1}.get(inside[at], 0)
        at += 1
    inside = re.sub(r"\s+", " ", inside[:at - 1])
    parts, depth, last = [], 0, 0
    for i, c in enumerate(inside):
        depth += {"<": 1, "(": 1, "[": 1, ">": -1, ")": -1, "]": -1}.get(c, 0)
        if c == "," and depth == 0:
            parts.append(inside[last:i].strip())
            last = i + 1
    parts.append(inside[last:].strip())
    return [p.replace("mut ", "") if p.startswith("mut ") else p for p in parts if p and "self" not in p.split(":")[0]]


def shape(body):
    """The body with names, numbers and texts left out, but for key words and operators."""
    body = re.sub(r'b?"[^"]*"|b?\'[^\']\'', "T", body)
    tokens = re.findall(r"\w+|[^\s\w]", body)
    return " ".join(t if t in KEYWORDS or not re.match(r"\w", t) else ("N" if t[0].isdigit() else "I") for t in tokens)


def twins(root):
    groups = collections.defaultdict(list)
    for path, line, name, signature, clauses, body in functions(root):
        if len(body.split()) > 3:
            groups[shape(body)].append("%s:%d  %s" % (path, line, name))
    for members in groups.values():
        if len(members) > 1:
            yield " | ".join(members)


def together(root):
    pairs = collections.defaultdict(set)
    for path, line, name, signature, clauses, body in functions(root):
        given = sorted(set(re.sub(r"&'\w+ ", "&", p) for p in parameters(signature)))
        for i, a in enumerate(given):
            for b in given[i + 1:]:
                pairs[path.split("/")[1], a, b].add(name)
    for (crate, a, b), names in sorted(pairs.items()):
        if len(names) > 2:
            yield "%s  (%s, %s) in %d: %s" % (crate, a, b, len(names), ", ".join(sorted(names)))


def facts(root):
    where = collections.defaultdict(set)
    for path, line, name, signature, clauses, body in functions(root):
        for kind, clause in clauses:
            named = re.match(r"[A-Z]\w+", clause)
            if kind == "requires" and named:
                where[path.split("/")[1], named.group(0) + " .."].add(name)
            for fact in re.split(r"[()]", clause):
                fact = re.sub(r"\s+", " ", fact).strip()
                fact = re.sub(r"\.(old|new|now|entry)\b", "", fact)
                if re.search(r"[≤<]|^[A-Z]\w+ ", fact) and "≡" not in fact and not fact.startswith("Appended"):
                    where[path.split("/")[1], fact].add(name)
    for (crate, fact), names in sorted(where.items()):
        if len(names) > 2:
            yield "%s  {%s} in %d: %s" % (crate, fact, len(names), ", ".join(sorted(names)))


def flags(root):
    for path, line, name, signature, clauses, body in functions(root):
        if "&mut" in signature and re.search(r"-> bool\s*$", signature.strip()):
            yield "%s:%d  %s answers a flag" % (path, line, name)


def codes(root):
    for path, line, name, signature, clauses, body in functions(root):
        if re.search(r"-> u(8|16|32)\s*$", signature.strip()) and re.match(r"\{\s*match self|\{\s*match \w+ \{\s*\w+::", body):
            yield "%s:%d  %s answers a number for a case" % (path, line, name)


HEADINGS = [
    ("1 enums", lambda root: lines_with(root, r"\benum \w+")),
    ("1 flags that say whether a change was made", flags),
    ("1 numbers for cases", codes),
    ("2 functions of one shape", twins),
    ("3 while loops", lambda root: lines_with(root, r"^\s*while ")),
    ("3 for over a range", lambda root: lines_with(root, r"^\s*for \w+ in .*\.\.")),
    ("3 for with enumerate", lambda root: lines_with(root, r"^\s*for .*enumerate")),
    ("3 for that only looks for an element", lambda root: searches(root)),
    ("4 clone, comparison, printing and conversion by hand", lambda root: lines_with(root, r"impl.*\b(Clone|Copy|PartialEq|Eq|Ord|Debug|Display|From<.*>|TryFrom<.*>)\b.* for ")),
    ("4 order and equality by hand", lambda root: lines_with(root, r"fn (rank|last_rank|is_word|eq|same|less)\b")),
    ("5 parameters together in three functions or more", together),
    ("5 facts in the contracts of three functions or more", facts),
    ("6 arrays", lambda root: lines_with(root, r"\[[^\[\];]+; [^\]]+\]", r"vec!")),
    ("6 indexing", lambda root: lines_with(root, r"\w\[[a-z]\w*( as usize)?\]")),
    ("7 function pointers and dyn", lambda root: lines_with(root, r"\bdyn \w|: fn\(")),
    ("7 closures", lambda root: lines_with(root, r"[(,=] ?\|[\w&*, ()]*\|")),
]


def searches(root):
    for path, line, name, signature, clauses, body in functions(root):
        if re.search(r"\bfor ", body) and re.search(r"return (Some\(\w+( as u32)?\)|true|false|None);", body):
            yield "%s:%d  %s" % (path, line, name)


def main():
    arguments = sys.argv[1:]
    root = arguments[0].rstrip("/") if arguments else "."
    wanted = arguments[1] if len(arguments) > 1 else ""
    for heading, find in HEADINGS:
        if wanted in heading:
            found = list(find(root))
            print("%s: %d" % (heading, len(found)))
            for place in found:
                print("    " + place)


if __name__ == "__main__":
    main()
