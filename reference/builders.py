"""What the tables of cases are built of: short texts to begin with, and lines repeated with numbers."""

SMALL = b"attr a 1\nright r\nobject x 0\n"                        # 3 lines, N = 3
A = b"attr a 2\nright r\nobject x 0\nobject y -\n"                # 4 lines, N = 4 * 4 = 16, n = 2
P = A + b"policy p r\n"                                           # 5 lines, M = 4
AB = b"attr a 2\nattr b 3\nright r\n"                             # 3 lines, two attributes of sizes 2 and 3
OB = AB + b"object x 0 0\nobject y 1 -\n"                         # 5 lines, N = (1 + 3 * 4) ** 2 = 169
PB = OB + b"policy p r\n"                                         # 6 lines, M = 4
W15, W16, W17, W18 = (b"abcdefghijklmnopqr"[:n] for n in (15, 16, 17, 18))


def numbered(form, count):
    """The form repeated, with 0, 1, 2 ... for %, and with a line end if it has none."""
    form = form.removesuffix(b"\n") + b"\n"
    return b"".join(form.replace(b"%", b"%d" % i) for i in range(count))


def attributes(*sizes):
    return b"".join(b"attr a%d %d\n" % (i, k) for i, k in enumerate(sizes))


def scheme(sizes, objects):
    """A text of len(sizes) + 1 + objects lines, all values 0."""
    return attributes(*sizes) + b"right r\n" + numbered(b"object o%" + b" 0" * len(sizes), objects)
