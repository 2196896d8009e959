#!/usr/bin/env python3
"""Respells the repository's own definitions, fields, lemmas and variables as the present Rattle spells them: snake case for functions, lemmas,
fields and variables, upper camel case for types.

    tools/respell.py [--list]

It runs at the top of the repository, once, after the toolchain's port.py, and not on a tree that it has turned (it would break `first_kind`
of crates/text); --list prints old and new names and writes nothing.
A name is turned if a file of specs/ or proofs/ declares it. Names that Rattle makes (declared at a type `goal.x` or `given.x`) and names
imported from a library keep their spelling. Behind a dot only fields turn. In .rt files the names turn in clauses and ghost items, which
alone can hold them; in documents only between backquotes. Strings stay.
"""
import os
import re
import sys

WORD = re.compile(r'[^\s(){}.;,@"«»\\`]+')
NAME = r"[^\s(){}.;,@\"«»:\\]+"
MARKS = r"(?:(?:pub|abbrev|unfoldable|pattern|axiom|infixl?r?) )*"
# where the plain spelling would fall together with another name of the repository
CHOSEN = {"last-room": "last_room_lem", "sizes-of": "sizes_of_lem", "with-code": "with_code_lem", "systemOf": "scheme_system", "isState": "state_fits"}
CHOSEN_IN = {"crates/text/proofs/Firsts.antt": {"first_kind": "first_kind_lem"}}


def files(*endings):
    for top in ("crates",):
        for folder, dirs, names in os.walk(top):
            dirs[:] = sorted(d for d in dirs if d != "out")
            for n in sorted(names):
                if n.endswith(endings):
                    yield os.path.join(folder, n)


def read(path):
    with open(path, encoding="utf-8") as f:
        return f.read()


def uncommented(text):
    return re.sub(r'(?m)(?<![^\s(){};,])--[^\n]*', "", text)


def is_own(path):
    m = re.match(r"Rattle\.(\w+)\.(specs|proofs)\b", path)
    return bool(m) and os.path.isdir(os.path.join("crates", m[1]))


def declared():
    """The names that the files declare, those of types, of fields, and the names that stay."""
    names, types, fields, stay = {}, set(), set(), set()
    for path in files(".antt"):
        text = uncommented(read(path))
        for m in re.finditer(r"(?m)^\s*(?:pub )?use ([^\s{]+)\.\{([^}]*)\}", text):
            if not is_own(m[1]):
                stay |= set(re.split(r"[,\s]+", m[2])) - {"as"}
        inside, record_at = None, 0
        for line in text.split("\n"):
            if not line.strip():
                continue
            indent = len(line) - len(line.lstrip())
            if inside and indent <= record_at:
                inside = None
            m = re.match(rf"\s*(?:pub )?(record|data) ({NAME})", line)
            if m:
                names.setdefault(m[2], path)
                types.add(m[2])
                inside, record_at = m[1], indent
                continue
            m = re.match(rf"\s*{MARKS}((?:{NAME} +)+): (.*)", line)
            if m and not line.strip().startswith(("use ", "module ", "let ")):
                for n in m[1].split():
                    if re.match(r"(goal|given|need)\.", m[2].strip()):
                        stay.add(n)
                        continue
                    names.setdefault(n, path)
                    if inside == "record":
                        fields.add(n)
                    if re.search(r"Type 0$", m[2].strip()):
                        types.add(n)
        # variables: binders, patterns of `let`, λ
        for m in re.finditer(rf"[({{]((?:{NAME} +)+): ", text):
            for n in m[1].split():
                names.setdefault(n, path)
        for m in re.finditer(rf"(?<![^\s(]){'let'} ({NAME})(?= [:=])", text):
            names.setdefault(m[1], path)
        for m in re.finditer(rf"λ ((?:{NAME} *)+)\.", text):
            for n in m[1].split():
                names.setdefault(n, path)
    for path in files(".antt", ".rt"):
        for m in re.finditer(rf" as ({NAME})", uncommented(read(path))):
            names.setdefault(m[1], path)
        # the patterns of a clause
        for m in re.finditer(rf"(?m)^ *{NAME}((?: +{NAME})+) =(?= |$)", text):
            for n in m[1].split():
                names.setdefault(n, path)
    for path in files(".rt"):
        for m in re.finditer(r"ghost use ([^\s{]+)\.\{([^}]*)\}", read(path)):
            if not is_own(m[1]):
                stay |= set(re.split(r"[,\s]+", m[2])) - {"as"}
    return names, types, fields, stay


def spelled(name, is_type):
    if is_type:
        return "".join(p[:1].upper() + p[1:] for p in name.split("-"))
    head = re.sub(r"(?<=[a-z0-9])(?=[A-Z])", "_", name.replace("-", "_"))
    return head.lower()


def table():
    names, types, fields, stay = declared()
    rows = {}
    for n in sorted(names):
        if n in stay or not re.match(r"[A-Za-z]", n):
            continue
        if n in types:
            new = spelled(n, True) if "-" in n else n
        elif "-" in n or re.search(r"[a-z0-9][A-Z]", n):
            new = spelled(n, False)
        else:
            continue
        new = CHOSEN.get(n, new)
        if new != n:
            rows[n] = new
    return rows, fields


def aliases(text):
    """The names under which a file has whole modules of the repository."""
    return {m[2] for m in re.finditer(r"(?m)^\s*(?:ghost )?use ([^\s{;]+) as (\w+)", text) if is_own(m[1]) and not m[1].endswith((".Goals", ".Given"))}


def turn_words(text, rows, fields, modules=()):
    def one(m):
        word = m[0]
        if word not in rows:
            bare = word.rstrip("'")
            if bare in rows and bare != word:
                word = bare
            else:
                return m[0]
        if text[m.start() - 1 : m.start()] == "." and word not in fields:
            if re.split(r"[\s(){}.;,]", text[max(0, m.start() - 40) : m.start() - 1])[-1] not in modules:
                return m[0]
        return rows[word] + m[0][len(word) :]

    return WORD.sub(one, text)


def turn_code(text, rows, fields, comment, modules):
    """Code turns, comments only between backquotes, and strings stay."""
    out, at = [], 0
    for m in re.finditer(rf'"(?:[^"\\\n]|\\.)*"|(?<![^\s(){{}};,]){comment}[^\n]*', text):
        out.append(turn_words(text[at : m.start()], rows, fields, modules))
        piece = m[0]
        if not piece.startswith('"'):
            piece = re.sub(r"`[^`\n]*`", lambda s: turn_words(s[0], rows, fields), piece)
        out.append(piece)
        at = m.end()
    out.append(turn_words(text[at:], rows, fields, modules))
    return "".join(out)


def main():
    rows, fields = table()
    if "--list" in sys.argv[1:]:
        for old, new in rows.items():
            print(old, new, "field" if old in fields else "")
        return
    for path in list(files(".antt", ".rt")):
        text = read(path)
        here = rows | CHOSEN_IN.get(path.replace(os.sep, "/"), {})
        new = turn_code(text, here, fields, "--" if path.endswith(".antt") else "//", aliases(text))
        if new != text:
            with open(path, "w", encoding="utf-8") as f:
                f.write(new)
    documents = ["README.md"] + sorted(os.path.join("docs", n) for n in os.listdir("docs") if n.endswith(".md"))
    for path in documents:
        text = read(path)
        new = re.sub(r"`[^`\n]*`", lambda s: turn_words(s[0], rows, fields | set(rows)), text)
        if new != text:
            with open(path, "w", encoding="utf-8") as f:
                f.write(new)


if __name__ == "__main__":
    main()
