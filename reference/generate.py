"""Random scheme texts: accepted ones, damaged ones, and texts at the limits.

`text(rng)` gives one of any kind, `KINDS[kind](rng)` one of a kind.
"""

from damage import damaged
from valid import COMPARISONS, KEY_WORDS, NAMES, SHAPES, accepted, counting


def words_by_chance(rng):
    """Lines of words that have little to do with one another."""
    words = NAMES + COMPARISONS + [b"0", b"1", b"2", b"-", b"s.a", b"o.a", b"s.b"]
    return [[rng.choice(KEY_WORDS[:7])] + rng.choices(words, k=rng.randint(0, 4)) for _ in range(rng.randint(0, 8))]


# ---------------------------------------------------------------- from lines to bytes

def written(rng, lines):
    """The bytes of the lines, mostly with single spaces."""
    wide = rng.random() < 0.2
    blank = rng.random() < 0.1

    def space(least):
        return b" " * (rng.randint(least, 3) if wide else least)

    rows = []
    for line in lines:
        rows.append(space(0) + b"".join(word + space(1) for word in line[:-1]) + b"".join(line[-1:]) + space(0))
        if blank and rng.random() < 0.3:
            rows.append(space(0))
    return b"\n".join(rows) + rng.choice([b"\n", b"\n", b"\n", b"", b"\n\n", b"\n "])


def other_bytes(rng, data):
    """One to three bytes changed, put in or left out."""
    data = bytearray(data)
    for _ in range(rng.choice([1, 1, 2, 3])):
        i = rng.randint(0, len(data))
        byte = rng.choice([0, 9, 11, 13, 31, 127, 128, 255, 10, 32, 32, 33, 126, 45, 46, rng.randrange(256),
                           rng.randrange(33, 127), rng.randrange(33, 127)])
        data[i:i + rng.randint(0, 1)] = rng.choice([bytes([byte]), bytes([byte]), bytes([byte]), b""])
    return bytes(data)


def long_text(rng, data):
    """The text brought to about 65,535 bytes."""
    filler = rng.choice([b" ", b"\n", b" \n", b"a ", b"a\n", b"query", b"\x00", b"attr a 2\n"])
    length = rng.choice([65535, 65535, 65536, 65537, 70000])
    rest = (filler * 70000)[:max(0, length - len(data))]
    return rng.choice([data + rest, rest + data])


# ---------------------------------------------------------------- kinds of texts

def with_faults(rng):
    data = written(rng, damaged(rng))
    return other_bytes(rng, data) if rng.random() < 0.1 else data


def full(rng):
    """Sixteen rights and queries, and as many policies, predicates and actions as there may be."""
    return written(rng, accepted(rng, given=rng.choice([([1], 2), ([2], 2), ([1, 1, 1, 1], 1)]), many=True))


KINDS = {  # how a text of each kind is made
    "accepted": lambda rng: written(rng, accepted(rng)),
    "damaged": with_faults,
    "damaged bytes": lambda rng: other_bytes(rng, written(rng, accepted(rng))),
    "counting": lambda rng: written(rng, counting(rng)),                                     # long witnesses
    "many states": lambda rng: written(rng, accepted(rng, given=rng.choice(SHAPES))),        # next to a bound, or above
    "full": full,
    "words by chance": lambda rng: written(rng, words_by_chance(rng)),
    "bytes by chance": lambda rng: bytes(rng.choices(range(256), k=rng.randint(0, 20))),
    "longest": lambda rng: long_text(rng, written(rng, accepted(rng))),                      # about 65,535 bytes
}
# up to which number below 1 a kind is chosen
CHOSEN = [(0.40, "accepted"), (0.82, "damaged"), (0.88, "damaged bytes"), (0.91, "counting"), (0.94, "many states"),
          (0.95, "full"), (0.97, "words by chance"), (0.98, "bytes by chance"), (1, "longest")]


def text(rng):
    chance = rng.random()
    return KINDS[next(kind for bound, kind in CHOSEN if chance < bound)](rng)
