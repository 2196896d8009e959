"""Reads a scheme text: docs/TEXT.md and docs/REFUSALS.md, "Faults of a text".

The tables MOST, BEFORE, ROLES, FORMS and CHOICES are those of TEXT.md. `check_line` ranks the faults of a line.
"""

from dataclasses import dataclass, field
from model import MOST_STATES, Policy, Refused, System, Term

MOST_BYTES = 65_535       # of a text
MOST_WORD = 17            # bytes of a word
MOST_NAME = 15            # bytes of a name
MOST_SIZE = 250           # of an attribute


@dataclass
class Scheme:
    """The scheme record; a new one is bare."""

    attributes: list = field(default_factory=list)   # names
    sizes: list = field(default_factory=list)        # by attribute
    rights: list = field(default_factory=list)       # names
    objects: list = field(default_factory=list)      # names
    values: list = field(default_factory=list)       # by object: in the start state, a list of numbers or None (null)
    policies: list = field(default_factory=list)     # model.Policy
    queries: list = field(default_factory=list)      # (subject, object, right), numbers

    def system(self):
        """The protection system that it means."""
        return System(self.sizes, self.values, self.policies, len(self.rights))


# ---------------------------------------------------------------- bytes, lines, words

@dataclass
class Word:
    text: str
    place: int                # of its first byte in the line, from 1


def lines_of(data):
    """The lines: byte 10 ends one; a last one without it counts if it is not empty."""
    lines = data.split(b"\n")
    if lines[-1] == b"":
        lines.pop()
    return lines


def words_of(line, number):
    """The words of a line, with their places. Faults 1, then 2."""
    for i, byte in enumerate(line):
        if not 32 <= byte <= 126:
            raise Refused(1, number, i + 1)
    words = []
    start = None                                     # where the present word begins
    for i, byte in enumerate(line + b" "):
        if byte != 32 and start is None:
            start = i
        elif byte == 32 and start is not None:
            words.append(Word(line[start:i].decode("ascii"), start + 1))
            start = None
    for word in words:
        if len(word.text) > MOST_WORD:
            raise Refused(2, number, word.place)
    return words


# ---------------------------------------------------------------- forms of words

LETTERS = "abcdefghijklmnopqrstuvwxyz"
DIGITS = "0123456789"
NUMBERS = {str(i) for i in range(256)}               # without leading zeros
OPERATORS = ["=", "!=", "<", "<=", ">", ">="]


def is_name(text):
    return (1 <= len(text) <= MOST_NAME and text[0] in LETTERS
            and all(c in LETTERS + DIGITS + "_" for c in text))


def is_term(text):
    return text[:2] in ("s.", "o.") and is_name(text[2:])


def form(text):
    if is_name(text):
        return "name"
    if text in NUMBERS:
        return "number"
    if is_term(text):
        return "term"
    if text in OPERATORS:
        return "operator"
    if text == "-":
        return "-"
    return "other"


# ---------------------------------------------------------------- kinds of lines, their order and limits

# how many lines of a kind there may be; of `if` and `do`, in one policy
MOST = {"attr": 4, "right": 16, "object": 8, "policy": 32, "if": 6, "do": 6, "query": 16}

# for each kind, the kinds of which the last line before it (skipped ones aside) may be; None: there is none
BEFORE = {
    "attr": [None, "attr"],
    "right": [None, "attr", "right"],
    "object": [None, "attr", "right", "object"],
    "policy": [None, "attr", "right", "object", "policy", "if", "do"],
    "if": ["policy", "if"],
    "do": ["policy", "if", "do"],
    "query": [None, "attr", "right", "object", "policy", "if", "do", "query"],
}


def declared(kind, scheme):
    """What lines of this kind have declared; for `if` and `do`, in the last policy."""
    if kind == "if":
        return scheme.policies[-1].predicates
    if kind == "do":
        return scheme.policies[-1].actions
    return {"attr": scheme.attributes, "right": scheme.rights, "object": scheme.objects,
            "policy": scheme.policies, "query": scheme.queries}[kind]


# ---------------------------------------------------------------- words of a line

# by kind and count of words, the roles of word 2, 3, 4; those of an `object` line are in roles_of
ROLES = {
    ("attr", 3): ["new name", "size"],
    ("right", 2): ["new name"],
    ("policy", 3): ["new name", "right"],
    ("if", 3): ["term", "test"],
    ("if", 4): ["term", "comparison", "operand"],
    ("do", 3): ["destroy", "party"],
    ("do", 4): ["term", "verb", "source or amount"],
    ("query", 4): ["object", "object", "right"],
}

# by role, the forms of words allowed ...
FORMS = {
    "new name": ["name"],
    "size": ["number"],
    "value": ["number", "-"],
    "right": ["name"],
    "object": ["name"],
    "term": ["term"],
    "comparison": ["operator"],
    "operand": ["term", "number"],
    "source": ["term", "number", "-"],
    "amount": ["number"],
}
# ... or the very words allowed
CHOICES = {
    "test": ["null", "set"],
    "destroy": ["destroy"],
    "party": ["s", "o"],
    "verb": ["to", "add", "sub"],
}


def roles_of(kind, words, scheme):
    """The roles of the words after the first; None if this kind of line does not have this count."""
    if kind == "object":
        values = len(scheme.attributes)
        return ["new name"] + values * ["value"] if len(words) == values + 2 else None
    roles = ROLES.get((kind, len(words)))
    if (kind, len(words)) == ("do", 4):              # if word 3 is no verb, it is at fault before word 4
        return roles[:2] + ["source" if words[2].text == "to" else "amount"]
    return roles


def allowed(role, text):
    return text in CHOICES[role] if role in CHOICES else form(text) in FORMS[role]


def name_or_value_fault(kind, role, index, text, scheme):
    """20, 21 or 22 if the word in this role (index 0 is word 2) is at fault, else None."""
    if role == "new name":
        used = [policy.name for policy in scheme.policies] if kind == "policy" else declared(kind, scheme)
        return 20 if text in used else None
    if role == "right":
        return None if text in scheme.rights else 21
    if role == "object":
        return None if text in scheme.objects else 21
    if role in ("term", "operand", "source") and is_term(text):
        return None if text[2:] in scheme.attributes else 21
    if role == "size":
        return None if 1 <= int(text) <= MOST_SIZE else 22
    if role == "value" and text != "-":
        return None if int(text) < scheme.sizes[index - 1] else 22
    return None


def check_line(words, number, before, scheme):
    """The faults 10, 11, 12, 23, then 20 to 22 of a line with words, in the order of rank."""
    kind, first = words[0].text, words[0].place
    if kind not in MOST or before not in BEFORE[kind]:
        raise Refused(10, number, first)
    roles = roles_of(kind, words, scheme)
    if roles is None:
        raise Refused(11, number, first)
    for role, word in zip(roles, words[1:]):
        if not allowed(role, word.text):
            raise Refused(12, number, word.place)
    if len(declared(kind, scheme)) >= MOST[kind]:
        raise Refused(23, number, first)
    for index, (role, word) in enumerate(zip(roles, words[1:])):
        fault = name_or_value_fault(kind, role, index, word.text, scheme)
        if fault is not None:
            raise Refused(fault, number, word.place)


# ---------------------------------------------------------------- what an accepted line declares

def operand(text, scheme):
    """What a word stands for: a term, a number, or None for null."""
    if is_term(text):
        return Term(text[0], scheme.attributes.index(text[2:]))
    return None if text == "-" else int(text)


def declare(words, scheme):
    kind, *rest = [word.text for word in words]
    if kind == "attr":
        scheme.attributes.append(rest[0])
        scheme.sizes.append(int(rest[1]))
    elif kind == "right":
        scheme.rights.append(rest[0])
    elif kind == "object":
        scheme.objects.append(rest[0])
        scheme.values.append([operand(text, scheme) for text in rest[1:]])
    elif kind == "policy":
        scheme.policies.append(Policy(rest[0], scheme.rights.index(rest[1])))
    elif kind == "if":
        right_side = [operand(text, scheme) for text in rest[2:]]          # none for a test
        scheme.policies[-1].predicates.append((operand(rest[0], scheme), rest[1], *right_side))
    elif kind == "do" and len(rest) == 2:
        scheme.policies[-1].actions.append(("destroy", rest[1]))
    elif kind == "do":
        scheme.policies[-1].actions.append((operand(rest[0], scheme), rest[1], operand(rest[2], scheme)))
    elif kind == "query":
        scheme.queries.append((scheme.objects.index(rest[0]), scheme.objects.index(rest[1]),
                               scheme.rights.index(rest[2])))


# ---------------------------------------------------------------- the whole text

def read(data):
    """The scheme that a text declares, or its refusal."""
    if len(data) > MOST_BYTES:
        raise Refused(4)
    scheme = Scheme()
    before = None
    lines = lines_of(data)
    for number, line in enumerate(lines, start=1):
        words = words_of(line, number)
        if words:
            check_line(words, number, before, scheme)
            declare(words, scheme)
            before = words[0].text
    if not (scheme.attributes and scheme.rights and scheme.objects):
        raise Refused(24, len(lines) + 1, 1)
    if scheme.system().states > MOST_STATES:
        raise Refused(25, len(lines) + 1, 1)
    return scheme
