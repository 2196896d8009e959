"""Random scheme texts without a fault, as lists of lines, a line being a list of words (bytes).

The reference program is used only to make policies that can be applied one after the other.
"""

import model
import text as text_reader

KEY_WORDS = b"attr right object policy if do query null set to add sub destroy s o".split()
NAMES = KEY_WORDS + b"a b c x y z ann bob car cab m1 role left drive load r_2 a0 ab abc zz_9 abcdefghijklmno".split()
COMPARISONS = b"= != < <= > >=".split()
# sizes and counts of objects with N next to 4,096 and to 1,048,576, and far above
SHAPES = [([62], 2), ([63], 2), ([14], 3), ([15], 3), ([2, 4], 3), ([6], 4), ([7], 4), ([2, 20], 2), ([1], 7), ([1], 8),
          ([1, 1, 1, 1], 2), ([1, 1], 5), ([2, 10, 30], 2), ([31, 31], 2), ([74, 10, 30, 40], 1), ([63, 63, 15, 15], 1),
          ([30], 4), ([31], 4), ([2, 4], 5), ([2, 5], 5), ([1, 1], 8), ([4], 8), ([14, 16], 4), ([62, 64], 8),
          ([250], 1), ([250, 15], 1), ([250, 250, 15], 1), ([250, 250, 16], 1), ([250] * 4, 1), ([250] * 4, 8)]


def number(n):
    return str(n).encode()


def states(sizes, objects):
    base = 1
    for k in sizes:
        base *= k + 1
    return (base + 1) ** objects


def often(rng, usual, most):
    """A count: mostly a small one, now and then up to the most."""
    return rng.randint(0, most) if rng.random() < 0.03 else rng.randint(0, usual)


# ---------------------------------------------------------------- accepted texts

def shape(rng):
    """Sizes of the attributes and a count of objects, mostly with few states."""
    bound = rng.choice([60, 400, 1000, 4096, 4096, 4096, 4096, 1048576])
    while True:
        sizes = [rng.choice([1, 1, 2, 2, 3, 3, 4, 5, 7, 12, 40]) for _ in range(rng.choice([1, 1, 2, 2, 2, 3, 4]))]
        objects = rng.choice([1, 2, 2, 2, 2, 2, 2, 3, 3, 3, 3, 3, 4, 4, 5, 6])
        if states(sizes, objects) <= bound:
            return sizes, objects


def distinct(rng, count):
    names = rng.sample(NAMES, min(count, len(NAMES)))
    return names + [b"n%d" % i for i in range(count - len(names))]


def term(rng, attributes):
    return rng.choice([b"s.", b"o."]) + rng.choice(attributes)


def predicate(rng, attributes, sizes):
    left = term(rng, attributes)
    if rng.random() < 0.15:
        return [b"if", left, rng.choice([b"null", b"set"])]
    size = sizes[attributes.index(left[2:])]
    right = (term(rng, attributes) if rng.random() < 0.25
             else number(rng.choice([0, rng.randrange(size), rng.randrange(size), size - 1, size, 255])))
    return [b"if", left, rng.choice(COMPARISONS + [b"=", b"="]), right]


def action(rng, attributes, sizes):
    if rng.random() < 0.06:
        return [b"do", b"destroy", rng.choice([b"s", b"o"])]
    left = term(rng, attributes)
    size = sizes[attributes.index(left[2:])]
    if rng.random() < 0.6:
        return [b"do", left, rng.choice([b"add", b"sub"]), number(rng.choice([1, 1, 1, 1, 1, 2, 0, rng.randrange(256)]))]
    source = rng.choice([number(rng.randrange(size)), number(rng.randrange(size)), term(rng, attributes),
                         term(rng, attributes), b"-", number(rng.choice([size - 1, size, 255]))])
    return [b"do", left, b"to", source]


class Path:
    """A state that the policies made so far can lead to, so that further ones can be made to fit it."""

    def __init__(self, lines):
        self.scheme = text_reader.Scheme()
        for line in lines:
            text_reader.declare([text_reader.Word(word.decode(), 0) for word in line], self.scheme)
        self.state = self.scheme.values

    def choose_pair(self, rng):
        there = [i for i, values in enumerate(self.state) if values is not None]
        if len(there) < 2:
            self.state = self.scheme.values
            there = range(len(self.state))
        subject, object_ = rng.sample(there, 2) if len(there) > 1 else (0, 0)
        self.parties = {"s": subject, "o": object_}
        return subject, object_

    def words(self, line):
        first, *rest = [word.decode() for word in line[1:]]
        if first == "destroy":
            return [first, *rest]
        return [text_reader.operand(first, self.scheme), rest[0],
                *(text_reader.operand(word, self.scheme) for word in rest[1:])]

    def fits(self, line):
        """2 if the predicate holds in the state and not in the start state, 1 if it holds in both, else 0."""
        predicate = self.words(line)
        if not model.holds(self.state, self.parties, predicate):
            return 0
        return 1 if model.holds(self.scheme.values, self.parties, predicate) else 2

    def follows(self, lines):
        """Whether all these actions succeed; if so, their result is the state from now on."""
        state = self.state
        try:
            for line in lines:
                state = model.act(state, self.parties, self.words(line), self.scheme.sizes)
        except model.Failed:
            return False
        self.state = state
        return True


def policies(rng, lines, attributes, sizes, rights, many):
    """The lines of some policies, and the permissions for which they were made."""
    path = Path(lines)
    made, uses = [], []
    for name in distinct(rng, 32 if many else often(rng, 8, 16)):
        pair = path.choose_pair(rng)
        right = rng.choice(rights)
        uses.append((*pair, right))
        made.append([b"policy", name, right])
        tries = rng.choice([1, 12, 12, 12, 12])
        for _ in range(6 if many else often(rng, 3, 6)):
            made.append(max([predicate(rng, attributes, sizes) for _ in range(tries)], key=path.fits))
        for _ in range(tries):
            actions = [action(rng, attributes, sizes) for _ in range(6 if many else often(rng, 3, 6))]
            if path.follows(actions):
                break
        made += actions
        if rng.random() < 0.05 and len(actions) < 5:
            party = rng.choice([b"s", b"o"])
            made += [[b"do", b"destroy", party], rng.choice([[b"do", b"destroy", party], action(rng, attributes, sizes)])]
    return made, uses


def accepted(rng, given=None, many=False):
    """The lines of a text without a fault (but for 25, if the shape given has so many states)."""
    sizes, objects = given or shape(rng)
    attributes = distinct(rng, len(sizes))
    rights = distinct(rng, 16 if many else rng.choice([1, 2, 4, 8]))
    things = distinct(rng, objects)
    lines = [[b"attr", name, number(k)] for name, k in zip(attributes, sizes)]
    lines += [[b"right", name] for name in rights]
    nulls = rng.choice([0, 0.2, 0.5])
    for name in things:
        values = [b"-" if rng.random() < nulls else number(rng.randrange(k)) for k in sizes]
        lines.append([b"object", name] + values)
    made, uses = policies(rng, lines, attributes, sizes, rights, many)
    lines += made
    for _ in range(16 if many else often(rng, 4, 16)):
        if uses and rng.random() < 0.6:
            subject, object_, right = rng.choice(uses[-3:])
            lines.append([b"query", things[subject], things[object_], right])
        else:
            lines.append([b"query", *rng.choices(things, k=2), rng.choice(rights)])
    return lines


def counting(rng):
    """Lines of a text in which y counts in two digits, a and b, so that a witness can be long."""
    a, b = rng.choice([(2, 20), (3, 14), (5, 9), (6, 8), (8, 6), (20, 2)])
    x, y = rng.choice([(b"- -", b"0 0"), (b"0 -", b"0 0"), (b"- -", b"1 0"), (b"0 0", b"0 0")])
    goal = [rng.randrange(a), rng.randrange(b)]
    rows = [b"attr a %d" % a, b"attr b %d" % b, b"right tick", b"right goal", b"object x " + x, b"object y " + y,
            b"policy up tick", rng.choice([b"if s.a null", b"if o.a < %d" % (a - 1), b"if o.b set"]), b"do o.a add 1",
            b"policy carry tick", b"if o.a = %d" % (a - 1), b"do o.a to 0", b"do o.b add 1",
            b"policy goal goal", b"if o.a = %d" % goal[0], b"if o.b %b %d" % (rng.choice(COMPARISONS), goal[1]),
            b"query x y goal", b"query y x goal", b"query x y tick", b"query x x goal"]
    return [row.split() for row in rows]
