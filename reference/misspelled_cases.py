"""Cases of docs/TEXT.md about misspelled words: key words, terms, operators, numbers and names that are nearly right, each
in more than one line or place: name, text, first line of its report, worked out by hand."""

from builders import A, AB, P, W16

FIRST_WORDS = [
    ("10 atr", b"atr a 2\n", "refused 10 1 1"),
    ("10 atr below an attribute", b"attr a 2\n atr b 2\n", "refused 10 2 2"),
    ("10 Attr below an attribute", b"attr a 2\n  Attr b 2\n", "refused 10 2 3"),
    ("10 attrs below an attribute", b"attr a 2\nattrs b 2\n", "refused 10 2 1"),
    ("10 attribute", b"attribute a 2\n", "refused 10 1 1"),
    ("10 rights", b"attr a 2\nrights r\n", "refused 10 2 1"),
    ("10 Right below a right", b"attr a 2\nright r\n Right q\n", "refused 10 3 2"),
    ("10 rigth", b"attr a 2\nrigth r\n", "refused 10 2 1"),
    ("10 objects", b"attr a 2\nright r\nobjects x 0\n", "refused 10 3 1"),
    ("10 Object below an object", A + b" Object z 0\n", "refused 10 5 2"),
    ("10 obj", A + b"obj z 0\n", "refused 10 5 1"),
    ("10 policies", A + b"policies p r\n", "refused 10 5 1"),
    ("10 Policy", A + b"  Policy p r\n", "refused 10 5 3"),
    ("10 polic below a policy", P + b"polic q r\n", "refused 10 6 1"),
    ("10 iff", P + b"iff s.a = 0\n", "refused 10 6 1"),
    ("10 If below an if", P + b"if s.a = 0\n If s.a = 0\n", "refused 10 7 2"),
    ("10 does", P + b"does s.a to 0\n", "refused 10 6 1"),
    ("10 Do below a do", P + b"do s.a to 0\n Do s.a to 0\n", "refused 10 7 2"),
    ("10 queries", A + b"queries x y r\n", "refused 10 5 1"),
    ("10 Query below a query", A + b"query x y r\n  Query y x r\n", "refused 10 6 3"),
    ("10 querry", P + b"querry x y r\n", "refused 10 6 1"),
]

KEY_WORDS = [
    ("12 nul", P + b"if s.a nul\n", "refused 12 6 8"),
    ("12 nulls, after more spaces", P + b"if  o.a  nulls\n", "refused 12 6 10"),
    ("12 NULL in the second if", P + b"if s.a null\nif o.a NULL\n", "refused 12 7 8"),
    ("12 se", P + b"if o.a se\n", "refused 12 6 8"),
    ("12 sets in the second if", P + b"if s.a set\nif o.a sets\n", "refused 12 7 8"),
    ("12 Set", P + b"if s.a Set\n", "refused 12 6 8"),
    ("12 too", P + b"do s.a too 0\n", "refused 12 6 8"),
    ("12 too and a term", P + b"if s.a set\ndo o.a too s.a\n", "refused 12 7 8"),
    ("12 To and a null sign", P + b"do o.a To -\n", "refused 12 6 8"),
    ("12 ad", P + b"do s.a ad 1\n", "refused 12 6 8"),
    ("12 ad in the second do", P + b"do s.a to 0\ndo  o.a ad 1\n", "refused 12 7 9"),
    ("12 adds", P + b"do s.a adds 1\n", "refused 12 6 8"),
    ("12 subs", P + b"do s.a subs 1\n", "refused 12 6 8"),
    ("12 su in the second do", P + b"do destroy s\ndo o.a su 1\n", "refused 12 7 8"),
    ("12 SUB", P + b" do o.a SUB 1\n", "refused 12 6 9"),
    ("12 destroyed", P + b"do destroyed s\n", "refused 12 6 4"),
    ("12 destroys in the second do", P + b"do s.a to 0\ndo destroys o\n", "refused 12 7 4"),
    ("12 Destroy", P + b" do Destroy o\n", "refused 12 6 5"),
    ("12 destroy so", P + b"do destroy so\n", "refused 12 6 12"),
    ("12 destroy O in the second do", P + b"do destroy s\ndo destroy O\n", "refused 12 7 12"),
    ("12 destroy subject", P + b"do destroy subject\n", "refused 12 6 12"),
]

TERMS = [
    ("12 operand x.a", P + b"if s.a = x.a\n", "refused 12 6 10"),
    ("12 operand s.", P + b"if s.a != s.\n", "refused 12 6 11"),
    ("12 operand S.a in the second if", P + b"if s.a set\nif o.a < S.a\n", "refused 12 7 10"),
    ("12 target x.a", P + b"do x.a to 0\n", "refused 12 6 4"),
    ("12 target s.", P + b"do s. add 1\n", "refused 12 6 4"),
    ("12 target O.a", P + b"do O.a sub 1\n", "refused 12 6 4"),
    ("12 source x.a", P + b"do s.a to x.a\n", "refused 12 6 11"),
    ("12 source o.A in the second do", P + b"do s.a to -\ndo s.a to o.A\n", "refused 12 7 11"),
    ("12 source without a dot", P + b"do o.a to sa\n", "refused 12 6 11"),
    ("12 tested x.a", P + b"if x.a set\n", "refused 12 6 4"),
]

OPERATORS = [
    ("12 =>", P + b"if s.a => 0\n", "refused 12 6 8"),
    ("12 => and a term", P + b"if s.a >= 0\nif o.a => s.a\n", "refused 12 7 8"),
    ("12 <>", P + b"if s.a <> 0\n", "refused 12 6 8"),
    ("12 <> and a term", P + b"if s.a set\nif  o.a <> s.a\n", "refused 12 7 9"),
    ("12 == and a term", P + b"if s.a = 0\nif o.a == s.a\n", "refused 12 7 8"),
    ("12 =< in the second if", P + b"if s.a <= 0\nif s.a =< 0\n", "refused 12 7 8"),
    ("12 =!", P + b"if s.a =! 0\n", "refused 12 6 8"),
    ("12 !==, after more spaces", P + b"if  s.a  !==  0\n", "refused 12 6 10"),
    ("12 >>", P + b"if o.a >> 0\n", "refused 12 6 8"),
    ("12 a null sign twice", P + b"do s.a to --\n", "refused 12 6 11"),
]

NAMES_AND_NUMBERS = [
    ("12 object value 00", AB + b"object x 00 0\n", "refused 12 4 10"),
    ("12 operand 01", P + b"if o.a > 01\n", "refused 12 6 10"),
    ("12 amount 007", P + b"do s.a add 007\n", "refused 12 6 12"),
    ("12 source 0x1", P + b"do s.a to 0x1\n", "refused 12 6 11"),
    ("12 right name with a digit first", b"attr a 2\nright 2r\n", "refused 12 2 7"),
    ("12 object name with a capital", b"attr a 2\nright r\nobject xY 0\n", "refused 12 3 8"),
    ("12 policy name with _ first", A + b"policy _p r\n", "refused 12 5 8"),
    ("12 right name of 16 bytes", b"attr a 2\nright " + W16 + b"\n", "refused 12 2 7"),
    ("12 object name of 16 bytes", b"attr a 2\nright r\nobject " + W16 + b" 0\n", "refused 12 3 8"),
    ("12 policy name of 16 bytes", A + b"policy " + W16 + b" r\n", "refused 12 5 8"),
    ("12 policy's right of 16 bytes", A + b"policy p " + W16 + b"\n", "refused 12 5 10"),
    ("12 query's subject of 16 bytes", A + b"query " + W16 + b" y r\n", "refused 12 5 7"),
]

MISSPELLED = FIRST_WORDS + KEY_WORDS + TERMS + OPERATORS + NAMES_AND_NUMBERS
