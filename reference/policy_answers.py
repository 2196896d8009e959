"""Cases of docs/MODEL.md about predicates and actions: name, text, whole report, worked out by hand."""

from builders import A, P, SMALL, W15, numbered

# In T there are x with a = 0, y with a = 1 and policy p for right r; p on x and y is move 1, on y and x move 2.
T = b"attr a 3\nright r\nright t\nobject x 0\nobject y 1\npolicy p r\n"      # N = 5 ** 2 = 25
NEVER = "scheme 25 4\nnever x y r 1 4\n"
LEAK = "scheme 25 4\nleak x y r 1 2\nby p x y\n"
Q = b"query x y r\n"

# LATER is the report about a text in which at first p can be applied to x and y only, and then u, which is move 5:
# found is 2, and tried is 8 + 6.
LATER = "scheme 25 8\nleak x y t 2 14\nby p x y\nby u x y\n"


def then(actions, predicates):
    """Policy p with these actions, which needs the values of the start; policy u for right t, with these predicates."""
    return T + b"if s.a = 0\nif o.a = 1\n" + actions + b"policy u t\n" + predicates + b"query x y t\n"


PLAIN = [  # no policy, or one without actions
    ("no query", T, "scheme 25 4\n"),
    ("refused", b"attr a 0\n", "refused 22 1 8\n"),
    ("no policy", A + Q, "scheme 16 0\nnever x y r 1 0\n"),
    ("no predicate, no action", T + Q, LEAK),
    ("the other way round", T + b"query y x r\n", "scheme 25 4\nleak y x r 1 3\nby p y x\n"),
    ("an object on itself", T + b"query x x r\n", "scheme 25 4\nnever x x r 1 4\n"),
    ("the last object on itself", T + b"query y y r\n", "scheme 25 4\nnever y y r 1 4\n"),
    ("another right", T + b"query x y t\n", "scheme 25 4\nnever x y t 1 4\n"),
    ("one object", SMALL + b"policy p r\nquery x x r\n", "scheme 3 1\nnever x x r 1 1\n"),
    ("every predicate must hold", T + b"if s.a = 0\nif o.a = 1\nif s.a = 1\n" + Q, NEVER),
    ("the lower policy is the witness", T + b"policy u r\n" + Q, "scheme 25 8\nleak x y r 1 2\nby p x y\n"),
    ("the enabled policy is the witness", T + b"if s.a = 1\npolicy u r\n" + b"if o.a = 1\n" + Q,
     "scheme 25 8\nleak x y r 1 6\nby u x y\n"),
    ("four ways of one right", T + b"query x x r\nquery x y r\nquery y x r\nquery y y r\n",
     "scheme 25 4\nnever x x r 1 4\nleak x y r 1 2\nby p x y\nleak y x r 1 3\nby p y x\nnever y y r 1 4\n"),
    ("a query repeated", T + Q * 3 + b"query x y t\n" + Q + b"query x y t\n",
     LEAK + LEAK[12:] * 2 + "never x y t 1 4\n" + LEAK[12:] + "never x y t 1 4\n"),
    # 3 objects: p is moves 0 to 8, and p on o2 and o1 is move 7
    ("the last enabled move", b"attr a 1\nright r\n" + numbered(b"object o% 0", 3) + b"policy p r\nquery o2 o1 r\n",
     "scheme 27 9\nleak o2 o1 r 1 8\nby p o2 o1\n"),
    ("longest names", b"attr %b 1\nright %b\nobject %b 0\nobject b%b 0\npolicy c%b %b\nif s.%b = o.%b\n" %
     (W15, W15, W15, W15[:14], W15[:14], W15, W15, W15) + b"query %b b%b %b\n" % (W15, W15[:14], W15),
     "scheme 9 4\nleak abcdefghijklmno babcdefghijklmn abcdefghijklmno 1 2\n"
     "by cabcdefghijklmn abcdefghijklmno babcdefghijklmn\n"),
    ("key words as names", b"attr null 1\nright by\nright never\nobject s -\nobject o 0\npolicy leak by\n"
     b"if s.null null\nif o.null set\npolicy query never\nif s.null set\nif o.null null\n"
     b"query s o by\nquery s o never\nquery o s never\n",
     "scheme 9 8\nleak s o by 1 2\nby leak s o\nnever s o never 1 8\nleak o s never 1 7\nby query o s\n"),
    ("one name in every kind", b"attr a 1\nright a\nobject a 0\npolicy a a\nif s.a = o.a\nquery a a a\n",
     "scheme 3 1\nnever a a a 1 1\n"),
    ("spaces, blank lines, no final line end",
     b"\n" + T.replace(b" ", b"   ") + b"  \n  if   s.a  =  0  \n\n   query  x    y  r  \n query x x r",
     LEAK + "never x x r 1 4\n"),
]

# ---------------------------------------------------------------- predicates

# Objects x and y with values, and with a null each; N = 51 ** 2.
VALUES = b"attr a 4\nattr b 4\nattr n 1\n" + numbered(b"right r%", 16) + b"object x 1 2 -\nobject y 2 2 -\n"


def table(rows):
    """Sixteen policies, one for each right, with the predicates of these rows; asks whether x has each right on y.
    Nothing changes, so one state is found; policy i on x and y is move 4 * i + 1 of 64."""
    text, report = VALUES, "scheme 2601 64\n"
    for i, (predicates, holds) in enumerate(rows):
        text += b"policy p%d r%d\n" % (i, i) + predicates
        report += f"leak x y r{i} 1 {4 * i + 2}\nby p{i} x y\n" if holds else f"never x y r{i} 1 64\n"
    return text + numbered(b"query x y r%", 16), report


# two sides and their values, and with which of = != < <= > >= between them a predicate holds
COMPARED = [
    (b"s.a", b"o.a", "0 1  1 1  0 0"),      # 1, 2
    (b"o.a", b"s.a", "0 1  0 0  1 1"),      # 2, 1
    (b"s.a", b"s.b", "0 1  1 1  0 0"),      # 1, 2
    (b"o.a", b"o.b", "1 0  0 1  0 1"),      # 2, 2
    (b"s.b", b"o.a", "1 0  0 1  0 1"),      # 2, 2
    (b"o.b", b"s.a", "0 1  0 0  1 1"),      # 2, 1
    (b"s.a", b"s.a", "1 0  0 1  0 1"),      # 1, 1
    (b"s.a", b"0", "0 1  0 0  1 1"),        # 1, 0
    (b"s.a", b"1", "1 0  0 1  0 1"),        # 1, 1
    (b"o.b", b"3", "0 1  1 1  0 0"),        # 2, 3
    (b"o.b", b"255", "0 1  1 1  0 0"),      # 2, 255
    (b"s.n", b"o.a", "0 0  0 0  0 0"),      # null, 2
    (b"o.b", b"s.n", "0 0  0 0  0 0"),      # 2, null
    (b"s.n", b"o.n", "0 0  0 0  0 0"),      # null, null
    (b"o.n", b"o.n", "0 0  0 0  0 0"),      # null, null
    (b"s.n", b"0", "0 0  0 0  0 0"),        # null, 0
]


def compared(column, operator):
    return table([(b"if %b %b %b\n" % (left, operator, right), holds.split()[column] == "1")
                  for left, right, holds in COMPARED])


PREDICATES = [
    ("=", *compared(0, b"=")),
    ("!=", *compared(1, b"!=")),
    ("<", *compared(2, b"<")),
    ("<=", *compared(3, b"<=")),
    (">", *compared(4, b">")),
    (">=", *compared(5, b">=")),
    ("tests, alone and after others", *table([
        (b"if s.a null\n", False), (b"if s.n null\n", True), (b"if o.a null\n", False), (b"if o.n null\n", True),
        (b"if s.a set\n", True), (b"if s.n set\n", False), (b"if o.a set\n", True), (b"if o.n set\n", False),
        (b"if s.a set\nif s.n null\n", True), (b"if s.a set\nif s.n set\n", False),
        (b"if o.n set\nif s.a set\n", False), (b"if o.n null\nif o.b = 2\n", True),
        (b"if s.a = 1\nif s.n null\nif o.n null\nif o.b set\nif s.b = o.b\nif o.a > s.a\n", True),
        (b"if s.a = 1\nif s.n null\nif o.n null\nif o.b set\nif s.b = o.b\nif o.a < s.a\n", False),
        (b"if s.a != 1\nif s.n null\nif o.n null\nif o.b set\nif s.b = o.b\nif o.a > s.a\n", False),
        (b"", True)])),
    ("= holds", T + b"if s.a = 0\n" + Q, LEAK),
    ("= fails", T + b"if s.a = o.a\n" + Q, NEVER),
    ("!= holds", T + b"if s.a != o.a\n" + Q, LEAK),
    ("!= fails", T + b"if o.a != 1\n" + Q, NEVER),
    ("< holds", T + b"if s.a < o.a\n" + Q, LEAK),
    ("< fails", T + b"if s.a < 0\n" + Q, NEVER),
    ("<= holds", T + b"if s.a <= 0\n" + Q, LEAK),
    ("<= fails", T + b"if o.a <= s.a\n" + Q, NEVER),
    ("> holds", T + b"if o.a > s.a\n" + Q, LEAK),
    ("> fails", T + b"if o.a > 1\n" + Q, NEVER),
    (">= holds", T + b"if o.a >= 1\n" + Q, LEAK),
    (">= fails", T + b"if s.a >= o.a\n" + Q, NEVER),
    ("a number above the size compares", T + b"if s.a < 255\nif s.a != 3\n" + Q, LEAK),
    ("null = null is false", P.replace(b"x 0", b"x -") + b"if s.a = o.a\n" + Q, "scheme 16 4\nnever x y r 1 4\n"),
    ("null != 0 is false", P + b"if o.a != 0\n" + Q, "scheme 16 4\nnever x y r 1 4\n"),
    ("0 != null is false", P + b"if s.a != o.a\n" + Q, "scheme 16 4\nnever x y r 1 4\n"),
    ("null <= 255 is false", P + b"if o.a <= 255\n" + Q, "scheme 16 4\nnever x y r 1 4\n"),
    ("null holds", P + b"if o.a null\n" + Q, "scheme 16 4\nleak x y r 1 2\nby p x y\n"),
    ("null fails", P + b"if s.a null\n" + Q, "scheme 16 4\nnever x y r 1 4\n"),
    ("set holds", P + b"if s.a set\n" + Q, "scheme 16 4\nleak x y r 1 2\nby p x y\n"),
    ("set fails", P + b"if o.a set\n" + Q, "scheme 16 4\nnever x y r 1 4\n"),
    # each object's line has its null in another place
    ("a null in each place of an object line",
     b"attr a 2\nattr b 2\nattr c 2\nright r\nobject x - 0 1\nobject y 1 0 -\npolicy p r\nif s.a null\nif s.b = 0\n"
     b"if s.c = 1\nif o.a = 1\nif o.b = 0\nif o.c null\n" + Q + b"query y x r\n",
     "scheme 784 4\nleak x y r 1 2\nby p x y\nnever y x r 1 4\n"),
    ("all nulls", b"attr a 2\nattr b 2\nright r\nobject x - -\nobject y - -\npolicy p r\nif s.a null\nif s.b null\n"
     b"if o.a null\nif o.b null\n" + Q, "scheme 100 4\nleak x y r 1 2\nby p x y\n"),
]

# ---------------------------------------------------------------- actions

ACTIONS = [
    # in this case and in "add beyond", p can be applied to y and x, once: found is 2
    ("sub is not clamped", T + b"do s.a sub 1\n" + Q, "scheme 25 4\nnever x y r 2 8\n"),
    ("sub to 0", T + b"do o.a sub 1\n" + Q, LEAK),
    ("sub 255 does not wrap", T + b"do o.a sub 255\n" + Q, NEVER),
    ("sub 0 at 0", T + b"do s.a sub 0\n" + Q, LEAK),
    ("add to the last value", T + b"do o.a add 1\n" + Q, LEAK),
    ("add 0 at the last value", T.replace(b"y 1", b"y 2") + b"do o.a add 0\n" + Q, LEAK),
    ("add beyond", T + b"do o.a add 2\n" + Q, "scheme 25 4\nnever x y r 2 8\n"),
    ("add 255", T + b"do o.a add 255\n" + Q, NEVER),
    # 61 + 255 is 60 in eight bits; y on x: 0 + 255
    ("add 255 at a large value does not wrap",
     b"attr a 62\nright r\nobject x 0\nobject y 61\npolicy p r\ndo o.a add 255\n" + Q,
     "scheme 4096 4\nnever x y r 1 4\n"),
    ("add 0 to null", P + b"do o.a add 0\n" + Q, "scheme 16 4\nnever x y r 1 4\n"),
    ("sub 0 from null", P + b"do o.a sub 0\n" + Q, "scheme 16 4\nnever x y r 1 4\n"),
    ("to below the size", T + b"do s.a to 2\n" + Q, LEAK),
    ("to at the size", T + b"do s.a to 3\n" + Q, NEVER),
    ("to 255", T + b"do s.a to 255\n" + Q, NEVER),
    ("to null, where it is null", P + b"do o.a to -\n" + Q, "scheme 16 4\nleak x y r 1 2\nby p x y\n"),
    ("a later action fails", T + b"do s.a to 2\ndo s.a add 1\n" + Q, NEVER),
    ("an earlier action fails", T + b"do s.a to 3\ndo s.a to 0\n" + Q, NEVER),
    ("the last of six actions fails", T + b"do s.a to 2\n" * 5 + b"do o.a to 3\n" + Q, NEVER),
    ("to a value at the target's size",
     b"attr a 2\nattr b 3\nright r\nobject x 0 2\nobject y - -\npolicy p r\ndo s.a to s.b\n" + Q,
     "scheme 169 4\nnever x y r 1 4\n"),
    # y on x: null is given to y.a, where it is
    ("to a value below the target's size, from a larger attribute",
     b"attr a 2\nattr b 3\nright r\nobject x 0 1\nobject y - -\npolicy p r\ndo s.a to s.b\n" + Q,
     "scheme 169 4\nleak x y r 1 2\nby p x y\n"),
    ("to from a smaller attribute", b"attr a 2\nattr b 3\nright r\nright t\nobject x 1 2\nobject y - -\npolicy p r\n"
     b"if s.b = 2\ndo s.b to s.a\npolicy u t\nif s.b = 1\nif s.a = 1\nquery x y t\n",
     "scheme 169 8\nleak x y t 2 14\nby p x y\nby u x y\n"),
    # p leads from the start to the start: found is 1
    ("self-assignment of a value", T + b"do s.a to s.a\ndo o.a to o.a\nquery x x r\n" + Q,
     "scheme 25 4\nnever x x r 1 4\nleak x y r 1 2\nby p x y\n"),
    ("self-assignment of null", P + b"do s.a to s.a\ndo o.a to o.a\nquery x x r\n" + Q,
     "scheme 16 4\nnever x x r 1 4\nleak x y r 1 2\nby p x y\n"),
    ("self-assignment of the last value", T.replace(b"x 0", b"x 2") + b"do s.a to s.a\nquery y y r\n" + Q,
     "scheme 25 4\nnever y y r 1 4\nleak x y r 1 2\nby p x y\n"),
    ("destroy and self-assignment", T + b"do destroy s\ndo s.a to s.a\n" + Q, NEVER),
    ("destroy and read", T + b"do destroy o\ndo s.a to o.a\n" + Q, NEVER),
    ("destroy and update", T + b"do destroy o\ndo o.a to 0\n" + Q, NEVER),
    ("destroy and update to null", T + b"do destroy s\ndo s.a to -\n" + Q, NEVER),
    ("destroy and add 0", T + b"do destroy s\ndo s.a add 0\n" + Q, NEVER),
    ("destroy and sub 0", T + b"do destroy o\ndo o.a sub 0\n" + Q, NEVER),
    ("destroy twice", T + b"do destroy o\ndo destroy o\n" + Q, NEVER),
    ("destroy the subject twice", T + b"do destroy s\ndo destroy s\n" + Q, NEVER),
    ("destroy both", T + b"do destroy o\ndo destroy s\n" + Q, LEAK),
    ("destroy one, update the other", T + b"do destroy o\ndo s.a add 1\n" + Q, LEAK),
    ("destroy the subject, update the object", T + b"do destroy s\ndo o.a add 1\n" + Q, LEAK),
    ("read, then destroy", T + b"do s.a to o.a\ndo destroy o\n" + Q, LEAK),
    ("each action reads what was written", then(b"do s.a to o.a\ndo o.a to s.a\n", b"if s.a = 1\nif o.a = 1\n"), LATER),
    ("to null", then(b"do o.a to -\n", b"if o.a null\nif s.a = 0\n"), LATER),
    ("to a null term", b"attr a 2\nattr b 2\nright r\nright t\nobject x 0 -\nobject y 1 1\npolicy p r\nif s.a = 0\n"
     b"if o.b set\ndo o.b to s.b\npolicy u t\nif o.b null\nif o.a = 1\nif s.a = 0\nquery x y t\n",
     "scheme 100 8\nleak x y t 2 14\nby p x y\nby u x y\n"),
    ("a null written is read", then(b"do o.a to -\ndo s.a to o.a\ndo o.a to 2\n", b"if s.a null\nif o.a = 2\n"), LATER),
    ("add to a null written", T + b"do o.a to -\ndo o.a add 1\n" + Q, NEVER),
    ("a number in place of a null, then add", then(b"do o.a to -\ndo o.a to 0\ndo o.a add 2\n", b"if o.a = 2\n"),
     LATER),
    ("add", then(b"do o.a add 1\n", b"if o.a = 2\n"), LATER),
    ("sub", then(b"do o.a sub 1\n", b"if o.a = 0\nif s.a = 0\n"), LATER),
    ("add and sub again",
     then(b"do o.a sub 1\ndo s.a add 2\ndo s.a sub 1\ndo o.a add 2\n", b"if s.a = 1\nif o.a = 2\n"), LATER),
    # y on x has the same result, so that there is one next state; u on y and x is enabled at first
    ("swap over a spare attribute", b"attr a 3\nattr b 3\nright r\nright t\nobject x 0 -\nobject y 1 -\npolicy p r\n"
     b"do s.b to s.a\ndo s.a to o.a\ndo o.a to s.b\ndo s.b to -\npolicy u t\nif s.a = 1\nif o.a = 0\nif s.b null\n"
     b"query x y t\n", "scheme 289 8\nleak x y t 2 14\nby p x y\nby u x y\n"),
    # p on x and y alone; u and v see every value: u on x and y is move 10 of 27, v on z and y move 25
    ("an update leaves the rest", b"attr a 2\nattr b 2\nright r\nright t\nobject x 0 1\nobject y 1 0\nobject z 1 1\n"
     b"policy p r\nif s.a = 0\nif o.b = 0\ndo o.a to -\npolicy u t\nif s.a = 0\nif s.b = 1\nif o.a null\nif o.b = 0\n"
     b"policy v t\nif s.a = 1\nif s.b = 1\nif o.a null\nif o.b = 0\nquery x y t\nquery z y t\n",
     "scheme 1000 27\nleak x y t 2 38\nby p x y\nby u x y\nleak z y t 2 53\nby p x y\nby v z y\n"),
    ("after destroy nothing is granted", then(b"do destroy o\n", b"if s.a = 0\nif o.a != 1\n"),
     "scheme 25 8\nnever x y t 2 16\n"),
]
