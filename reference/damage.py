"""Faults put into the lines of a text (valid.py).

Each function damages the lines, at line i where it can, and gives back the line at which a further fault may be put.
"""

from valid import COMPARISONS, NAMES, accepted, number


def unknown_or_out_of_order(rng, lines, i):
    way = rng.randrange(5)
    if way == 0:
        lines[i][:1] = [rng.choice([b"foo", b"Attr", b"-", b"7", b"s.a", b"=", b"attrs", b"set", b"#", b"destroy"])]
        return i
    if way == 1:
        j = rng.randint(0, len(lines))
        lines.insert(j, list(lines[i]))
        return j
    if way == 2:
        lines.append(list(lines[i]))
        return len(lines) - 1
    if way == 3:
        j = rng.randrange(len(lines))
        lines[i], lines[j] = lines[j], lines[i]
        return max(i, j)
    lines.insert(i, list(rng.choice([[b"if", b"s.a", b"=", b"0"], [b"do", b"destroy", b"o"], [b"attr", b"q", b"2"],
                                     [b"right", b"q"], [b"policy", b"q", b"r"], [b"object", b"q", b"0"]])))
    return i


def count(rng, lines, i):
    if rng.random() < 0.5 and len(lines[i]) > 1:
        del lines[i][rng.randrange(1, len(lines[i]))]
    else:
        lines[i].insert(rng.randint(1, max(1, len(lines[i]))), rng.choice(NAMES + [b"0", b"-", b"="]))
    return i


def put(rng, lines, i, words):
    """One of the words in place of a word of line i, not the first."""
    if len(lines[i]) > 1:
        lines[i][rng.randrange(1, len(lines[i]))] = rng.choice(words)
    return i


def almost(kind, index):
    """Words that are almost of a form allowed there, or of one allowed elsewhere, or just of one allowed there."""
    if (kind, index) in ((b"if", 1), (b"do", 1)):
        return b"s. o. x.a s.A S.a s.9 s.a.b .a so.a s:a s a 0 destroy s.abcdefghijklmno".split()
    if (kind, index) in ((b"if", 2), (b"do", 2)):
        return b"== =< => ! - null set to add sub is Null s o x 0".split() + COMPARISONS
    if (kind, index) == (b"attr", 2) or kind in (b"if", b"do") or kind == b"object" and index > 1:
        return b"- - -- -1 +1 0 00 01 255 256 999 1000 4294967296 00000000000000001 x null s. s.a o.a s.A".split()
    return b"A aB 9a _a a-b a.b - 0 s.a = ~ abcdefghijklmno abcdefghijklmnop abcdefghijklmnopq".split()


def form(rng, lines, i):
    """A word of another form: an almost right one, or one of the text's own."""
    if len(lines[i]) < 2:
        return i
    index = rng.randrange(1, len(lines[i]))
    words = almost(lines[i][0], index) if rng.random() < 0.7 else [rng.choice(line) for line in lines if line]
    lines[i][index] = rng.choice(words)
    return i


def long_word(rng, lines, i):
    for _ in range(rng.choice([1, 1, 2])):
        word = rng.choice([b"a", b"0", b"s.a", b"~"]) * 40
        lines[i].insert(rng.randint(0, len(lines[i])), word[:rng.choice([17, 18, 18, 18, 19, 40])])
    return i


def same_name(rng, lines, i):
    """A new name that a line of the kind has used."""
    kinds = [b"attr", b"right", b"object", b"policy"]
    if lines[i][:1] == [] or lines[i][0] not in kinds or len(lines[i]) < 2:
        i = rng.choice([j for j, line in enumerate(lines) if len(line) > 1 and line[0] in kinds] or [i])
    if len(lines[i]) > 1:
        others = [line for line in lines[:i] if len(line) > 1 and line[0] == lines[i][0]]
        if others:
            lines[i][1] = rng.choice(others)[1]
        else:
            lines.insert(i + 1, list(lines[i]))
            i += 1
    return i


def other_name(rng, lines, i):
    """A name that may not be declared."""
    if lines[i] and lines[i][0] in (b"if", b"do"):
        return put(rng, lines, i, [b"s.q", b"o.q9", b"s.abcdefghijklmno", b"o.role", b"s.s"])
    return put(rng, lines, i, [b"q", b"q9", b"role", b"left", b"abcdefghijklmno", b"x", b"y"])


def value(rng, lines, i):
    """A size next to its bounds, or a value next to the size of its attribute, in place of a number or a null sign."""
    if not lines[i] or lines[i][0] not in (b"attr", b"object"):
        i = rng.choice([j for j, line in enumerate(lines) if line and line[0] in (b"attr", b"object")] or [i])
    sizes = [int(line[2]) for line in lines if len(line) > 2 and line[0] == b"attr" and line[2].isdigit()]
    places = [j for j, word in enumerate(lines[i]) if j > 0 and (word.isdigit() or word == b"-")]
    if not places:
        return i
    j = rng.choice(places)
    if lines[i][0] == b"object" and 2 <= j < len(sizes) + 2:
        size = min(sizes[j - 2], 254)
        lines[i][j] = number(rng.choice([max(size - 1, 0), size, size, size + 1, 255]))
    else:
        lines[i][j] = number(rng.choice([0, 0, 1, 2, 41, 250, 251, 251, 255]))
    return i


def above_the_most(rng, lines, i):
    """Lines of one kind up to the most or one more, with new names."""
    kind, most = rng.choice([(b"attr", 4), (b"right", 16), (b"object", 8), (b"policy", 32), (b"if", 6), (b"do", 6),
                             (b"query", 16)])
    of_kind = [j for j, line in enumerate(lines) if line and line[0] == kind]
    if not of_kind:
        return i
    last = rng.choice(of_kind) if kind in (b"if", b"do") else of_kind[-1]
    there = 1 if kind in (b"if", b"do") else len(of_kind)
    for k in range(most - there + rng.choice([0, 1, 1, 1])):
        line = list(lines[last])
        if kind not in (b"if", b"do", b"query") and len(line) > 1:
            line[1] = b"n%d" % k
        lines.insert(last + 1, line)
        last += 1
    if kind == b"attr":
        for line in lines:
            if line and line[0] == b"object":
                line += [b"-"] * (last + 1 - len(of_kind))
    return last


def kind_left_out(rng, lines, i):
    kinds = rng.choice([[b"attr"], [b"right"], [b"object"], [b"policy", b"if", b"do"], [b"policy"], [b"query"],
                        [b"right", b"policy", b"if", b"do", b"query"], [b"object", b"policy", b"if", b"do", b"query"]])
    lines[:] = [line for line in lines if not line or line[0] not in kinds] or [[]]
    if kinds == [b"attr"]:
        lines[:] = [line[:2] if line[:1] == [b"object"] else line for line in lines if line[:1] not in ([b"if"], [b"do"])]
    return rng.randrange(len(lines)) if lines else 0


def large(rng, lines, i):
    """Large sizes, so that N is above its bound."""
    for line in lines:
        if line and line[0] == b"attr" and len(line) == 3:
            line[2] = rng.choice([line[2], b"250", b"249", b"100", b"31"])
    return i


def other_line(rng, lines, i):
    way = rng.randrange(3)
    if way == 0 and len(lines) > 1:
        del lines[i]
        return min(i, len(lines) - 1)
    if way == 1:
        lines.insert(i, [])
        return i + 1
    lines[i] = [rng.choice(NAMES + [b"0", b"-", b"=", b"s.a"]) for _ in range(rng.randint(1, 5))]
    return i


DAMAGES = [unknown_or_out_of_order, unknown_or_out_of_order, count, form, form, form, form, long_word, same_name,
           other_name, other_name, value, value, above_the_most, above_the_most, kind_left_out, kind_left_out, large,
           other_line]


def damaged(rng):
    lines = accepted(rng)
    i = rng.randrange(len(lines))
    for _ in range(rng.choice([1, 1, 1, 2, 2, 3])):
        i = rng.choice(DAMAGES)(rng, lines, i)
        if not lines:
            lines.append([])
        if rng.random() < 0.3 or i >= len(lines):
            i = rng.randrange(len(lines))
    return lines
