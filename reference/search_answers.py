"""Cases of docs/MODEL.md about searches, limits and the shipped examples: name, text, whole report, worked out by hand."""

from pathlib import Path

from builders import numbered, scheme

EXAMPLES = Path(__file__).resolve().parent.parent / "examples"

# ---------------------------------------------------------------- chains and searches

# w holds 0; an object that holds null takes the number of one that holds a number, plus 1, and destroys it. For each
# state: who holds the number, and who is there besides. From the start three states (x, y or z holds 1), from each of
# them two (six in all), and then the last one destroys: x, y or z alone, three states.
TORCH = (b"attr a 4\nright r\nright t\nobject w 0\nobject x -\nobject y -\nobject z -\npolicy p r\nif s.a null\n"
         b"if o.a set\ndo s.a to o.a\ndo s.a add 1\ndo destroy o\npolicy u t\nif s.a null\nif o.a = 2\n")

# a counts from 0 to 11 in y; policy u at 11
COUNTER = b"attr a 12\nright r\nright t\nobject x -\nobject y 0\npolicy p r\ndo o.a add 1\npolicy u t\nif o.a = 11\n"

# x and y count together from 0 0 to 29 29, y fast; c is set in x only
DIGITS = (b"attr a 30\nattr c 1\nright tick\nright goal\nobject x 0 0\nobject y 0 -\n"
          b"policy up tick\nif s.c set\ndo o.a add 1\n"
          b"policy carry tick\nif s.c set\nif o.a = 29\ndo o.a to 0\ndo s.a add 1\n"
          b"policy end goal\nif s.c set\nif s.a = 29\nif o.a = 29\n")


def reaching_all(names, sizes, objects):
    """A text in which every state can be reached, and a question of which the answer is never."""
    text = b"".join(b"attr %b %d\n" % (name, k) for name, k in zip(names, sizes)) + b"right r\n"
    text += numbered(b"object o%" + b" 0" * len(names), objects)
    for name in names:
        text += (b"policy rise_%b r\ndo o.%b add 1\npolicy zero_%b r\ndo o.%b to 0\npolicy null_%b r\ndo o.%b to -\n"
                 % ((name,) * 6))
    return text + b"policy fell r\ndo destroy o\npolicy both r\ndo destroy s\ndo destroy o\nquery o0 o0 r\n"


SEARCHES = [
    # p is move 4 * s + o of 32, u is 16 more. Taken: the start; x, y and z with the number; then the first of the six,
    # y holds 2 and z is there: p on z and y lists the eleventh state, and u on z and y is move 30.
    ("a chain of destroyed objects", TORCH + b"query z y t\nquery w x t\n",
     "scheme 1296 32\nleak z y t 11 159\nby p x w\nby p y x\nby u z y\nnever w x t 13 416\n"),
    # y fells x, or z fells y: y and z, x and z; then z fells y
    ("destroy in either order", b"attr a 3\nright r\nobject x 0\nobject y 1\nobject z 2\npolicy f r\nif s.a = 1\n"
     b"if o.a = 0\ndo destroy o\npolicy g r\nif s.a = 2\nif o.a = 1\ndo destroy o\n"
     b"query x y r\nquery z y r\nquery y x r\n",
     "scheme 125 18\nnever x y r 4 72\nleak z y r 2 17\nby g z y\nleak y x r 1 4\nby f y x\n"),
    # each on each, the subject is destroyed: 8 subsets of three objects, all but the empty one
    ("every subject destroys itself", b"attr a 1\nright r\n" + numbered(b"object o% 0", 3)
     + b"policy p r\ndo destroy s\nquery o0 o0 r\n", "scheme 27 9\nnever o0 o0 r 7 63\n"),
    # twelve states, each taken with 8 moves, the last with 6
    ("a witness of twelve moves", COUNTER + b"query x y t\nquery y x t\n",
     "scheme 196 8\nleak x y t 12 94\n" + "by p x y\n" * 11 + "by u x y\nnever y x t 12 96\n"),
    ("long, short, never, and again", COUNTER + b"query x y t\nquery x y r\nquery y x t\nquery x y t\nquery x y r\n",
     "scheme 196 8\n" + ("leak x y t 12 94\n" + "by p x y\n" * 11 + "by u x y\nleak x y r 1 2\nby p x y\n")
     + "never y x t 12 96\n" + ("leak x y t 12 94\n" + "by p x y\n" * 11 + "by u x y\nleak x y r 1 2\nby p x y\n")),
    # in the start p, move 1 of 12, lists a = 1 and q, move 5, lists a = 11; then p lists a = 2; then u, move 9
    ("the shortest way, not that of the lowest moves",
     COUNTER.replace(b"policy u", b"policy q r\nif o.a = 0\ndo o.a to 11\npolicy u") + b"query x y t\n",
     "scheme 196 12\nleak x y t 4 34\nby q x y\nby u x y\n"),
    # 900 states in one chain, each taken with 12 moves, the last with 10
    ("a witness of 900 moves", DIGITS + b"query x y goal\nquery y x tick\n",
     "scheme 3969 12\nleak x y goal 900 10798\n" + ("by up x y\n" * 29 + "by carry x y\n") * 29 + "by up x y\n" * 29
     + "by end x y\nnever y x tick 900 10800\n"),
    # 62 * 62 pairs of values
    ("never with 3844 states", b"attr a 62\nright r\nright t\nobject x 0\nobject y 0\npolicy p r\ndo o.a add 1\n"
     b"query x y t\n", "scheme 4096 4\nnever x y t 3844 15376\n"),
    ("all of 16 states", reaching_all([b"a"], [2], 2), "scheme 16 20\nnever o0 o0 r 16 320\n"),
    ("all of 4096 states, two objects", reaching_all([b"a", b"b", b"c"], [2, 2, 6], 2),
     "scheme 4096 44\nnever o0 o0 r 4096 180224\n"),
    ("all of 4096 states, four objects", reaching_all([b"a"], [6], 4), "scheme 4096 80\nnever o0 o0 r 4096 327680\n"),
]

# ---------------------------------------------------------------- limits

# subject, object, right
ASKED = [(0, 1, 0), (0, 6, 0), (0, 1, 1), (0, 6, 15), (1, 0, 0), (6, 5, 15), (6, 0, 0), (3, 3, 7),
         (5, 6, 14), (1, 2, 3), (4, 0, 8), (0, 1, 0), (2, 6, 5), (6, 6, 15), (0, 0, 0), (0, 2, 0)]


def token():
    """7 objects (8 have above 4,096 states), 32 policies of 6 + 6, 16 rights, 16 queries. Object 0 has a token, the
    number 0, and by every policy the subject gives it to the object: 7 states, of 32 * 49 = 1568 moves each. Policy 0
    lists them all from the start, in the order of the objects; the token goes to i by move i, and then policy k on i
    and j is move 49 * k + 7 * i + j."""
    text = b"attr a 1\n" + numbered(b"right r%", 16) + b"object o0 0\n" + numbered(b"object o% -", 7)[12:]
    for p in range(32):
        text += (b"policy p%d r%d\nif s.a set\nif s.a = 0\nif s.a <= 0\nif s.a >= 0\nif s.a < 1\nif o.a null\n"
                 b"do o.a to 0\ndo o.a add 0\ndo o.a sub 0\ndo o.a to s.a\ndo s.a to o.a\ndo s.a to -\n" % (p, p % 16))
    report = "scheme 2187 1568\n"
    for i, j, k in ASKED:
        text += b"query o%d o%d r%d\n" % (i, j, k)
        if i == j:
            report += f"never o{i} o{j} r{k} 7 {7 * 1568}\n"
        else:
            found = j if (i, k) == (0, 0) else 7     # policy 0 in the start: the states before j are listed
            report += f"leak o{i} o{j} r{k} {found} {i * 1568 + 49 * k + 7 * i + j + 1}\n"
            report += (f"by p0 o0 o{i}\n" if i else "") + f"by p{k} o{i} o{j}\n"
    return text, report


def clock():
    """2 objects (3 have above 4,096 states) with 4 attributes, 32 policies of 6 + 6, 16 rights, 16 queries. y counts in
    two digits, c (null, 0, 1) and d (0 to 3); policy i from 0 to 10 is for time i and leads to the next, the policies
    from 11 on are for time 11 and stay there. So there are 12 states in a chain, of 128 moves each."""
    text = b"attr a 1\nattr b 1\nattr c 2\nattr d 4\n" + numbered(b"right r%", 16)
    text += b"object x 0 - 1 3\nobject y - 0 - 0\n"
    report = "scheme 3721 128\n"                    # B = 1 + 2 * 2 * 3 * 5 = 61
    tests, sources = [b"null", b"= 0", b"= 1"], [b"-", b"0", b"1"]
    for i in range(32):
        time, after = min(i, 11), min(i + 1, 11)
        text += b"policy p%d r%d\nif s.a = 0\nif s.b null\nif o.a null\nif o.b set\nif o.c %b\nif o.d = %d\n" % (
            i, i % 16, tests[time // 4], time % 4)
        text += b"do o.d to %d\ndo o.c to %b\ndo s.a to s.a\ndo s.b to o.a\ndo s.c to 1\ndo s.d to 3\n" % (
            after % 4, sources[after // 4])
    for k in range(16):
        text += b"query x y r%d\n" % k
        time = min(k, 11)
        report += f"leak x y r{k} {time + 1} {128 * time + 4 * k + 2}\n"
        report += "".join(f"by p{i} x y\n" for i in range(time)) + f"by p{k} x y\n"
    return text, report


ONE = b"policy p r\nquery o0 o0 r\n"
MOST_POLICIES = numbered(b"policy p% r15\n" + b"if s.a0 = o.a0\n" * 6 + b"do o.a0 to s.a0\n" * 6, 32)

LIMITS = [
    ("seven objects, all else but the attributes at its most", *token()),
    ("four attributes, all else but the objects at its most", *clock()),
    ("eight objects, all else but the attributes at its most", b"attr a0 1\n" + numbered(b"right r%", 16)
     + numbered(b"object o% 0", 8) + MOST_POLICIES + b"query o0 o7 r15\n" * 16,
     "scheme 6561 2048\n" + "refused 31 0 0\n" * 16),
    ("four attributes and four objects, all else at its most",
     numbered(b"attr a% 1", 4) + numbered(b"right r%", 16) + numbered(b"object o% 0 - 0 -", 4) + MOST_POLICIES
     + b"query o0 o3 r15\n" * 16, "scheme 83521 512\n" + "refused 31 0 0\n" * 16),
    ("N 4095", scheme([22, 177], 1) + ONE, "scheme 4095 1\nnever o0 o0 r 1 1\n"),
    ("N 4096, one object", scheme([20, 194], 1) + ONE, "scheme 4096 1\nnever o0 o0 r 1 1\n"),
    ("N 4097", scheme([31, 127], 1) + ONE, "scheme 4097 1\nrefused 31 0 0\n"),
    ("N 3969", scheme([61], 2) + b"policy p r\nquery o0 o1 r\n", "scheme 3969 4\nleak o0 o1 r 1 2\nby p o0 o1\n"),
    ("N 4096", scheme([62], 2) + b"query o0 o1 r\n", "scheme 4096 0\nnever o0 o1 r 1 0\n"),
    ("N 4096, leak", scheme([62], 2) + b"policy p r\nquery o0 o1 r\n", "scheme 4096 4\nleak o0 o1 r 1 2\nby p o0 o1\n"),
    ("N above 4096", scheme([63], 2) + b"policy p r\nquery o0 o1 r\nquery o1 o0 r\n",
     "scheme 4225 4\nrefused 31 0 0\nrefused 31 0 0\n"),
    ("N 1048573", scheme([20, 218, 227], 1) + ONE, "scheme 1048573 1\nrefused 31 0 0\n"),
    ("N 1048576", scheme([2, 10, 30], 2) + ONE, "scheme 1048576 4\nrefused 31 0 0\n"),
    ("N 1048576, one object", scheme([30, 164, 204], 1) + ONE, "scheme 1048576 1\nrefused 31 0 0\n"),
    ("N 1048577", scheme([63, 127, 127], 1) + ONE, "refused 25 8 1\n"),
    ("N 1050625", scheme([31, 31], 2) + ONE, "refused 25 8 1\n"),
]

SHIPPED = [
    ("example meter", (EXAMPLES / "meter.scheme").read_bytes(),
     "scheme 169 8\nleak ann m1 load 2 14\nby drive ann m1\nby refill ann m1\nnever m1 ann load 3 24\n"),
    ("example fleet", (EXAMPLES / "fleet.scheme").read_bytes(),
     "scheme 4096 27\nleak dora cab load 4 39\nby drive ann cab\nby refill dora cab\n"
     "leak ann cab load 8 150\nby drive ann cab\nby handover dora ann\nby refill ann cab\n"
     "leak ann dora duty 6 76\nby handover dora ann\nby handover ann dora\n"
     "never cab dora drive 8 216\nnever ann cab duty 8 216\n"),
    ("example retired", (EXAMPLES / "retired.scheme").read_bytes(),
     "scheme 1000 36\nleak ann car drive 1 6\nby drive ann car\n"
     "leak olga car keep 3 48\nby drive ann car\nby service olga car\n"
     "leak ann olga quit 2 31\nby resign ann olga\n"
     "never olga ann quit 6 216\nnever ann car keep 6 216\n"),
]
