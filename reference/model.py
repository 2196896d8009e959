"""Schemes as protection systems, and the analysis: docs/MODEL.md."""

from dataclasses import dataclass, field

MOST_STATES = 1_048_576   # of a protection system


class Refused(Exception):
    """A refusal: its number, and its line and place, 0 and 0 where there is none."""

    def __init__(self, number, line=0, place=0):
        super().__init__(number, line, place)
        self.number, self.line, self.place = number, line, place

    def __str__(self):
        return f"refused {self.number} {self.line} {self.place}"


# ---------------------------------------------------------------- policies

@dataclass
class Term:
    party: str                # "s" or "o"
    attribute: int


@dataclass
class Policy:
    """An operand is a Term, a number, or None for null."""

    name: str
    right: int
    predicates: list = field(default_factory=list)   # (term, "null" or "set") or (term, comparison, operand)
    actions: list = field(default_factory=list)      # (term, verb, operand) or ("destroy", party)


# A state is a list with, for each object, None if it is absent, or the list of its values, None for null.
# `parties` gives the objects to which a policy is applied: {"s": subject, "o": object}.


class Failed(Exception):
    """An action fails."""


def value_of(state, parties, operand):
    """The present value of an operand, or None for null; fails for a term of an absent object."""
    if not isinstance(operand, Term):
        return operand
    values = state[parties[operand.party]]
    if values is None:
        raise Failed
    return values[operand.attribute]


def holds(state, parties, predicate):
    left = value_of(state, parties, predicate[0])
    if predicate[1] == "null":
        return left is None
    if predicate[1] == "set":
        return left is not None
    right = value_of(state, parties, predicate[2])
    if left is None or right is None:
        return False
    return {"=": left == right, "!=": left != right, "<": left < right,
            "<=": left <= right, ">": left > right, ">=": left >= right}[predicate[1]]


def act(state, parties, action, sizes):
    """The state that an action leaves; the one given is not changed."""
    after = [None if values is None else list(values) for values in state]
    if action[0] == "destroy":
        if state[parties[action[1]]] is None:
            raise Failed
        after[parties[action[1]]] = None
        return after
    target, verb, operand = action
    present = value_of(state, parties, target)
    if verb == "to":
        result = value_of(state, parties, operand)
    else:
        if present is None:
            raise Failed
        result = present + operand if verb == "add" else present - operand
    if result is not None and not 0 <= result < sizes[target.attribute]:
        raise Failed
    after[parties[target.party]][target.attribute] = result
    return after


def apply(policy, state, subject, object_, sizes):
    """The state that a policy applied to two objects leads to, or None if there is no step."""
    if subject == object_ or state[subject] is None or state[object_] is None:
        return None
    parties = {"s": subject, "o": object_}
    if not all(holds(state, parties, predicate) for predicate in policy.predicates):
        return None
    try:
        for action in policy.actions:
            state = act(state, parties, action, sizes)
    except Failed:
        return None
    return state


# ---------------------------------------------------------------- a scheme as a protection system

def product(factors):
    result = 1
    for factor in factors:
        result *= factor
    return result


class System:
    """The protection system of a scheme: numbers of states and moves, steps, labels."""

    def __init__(self, sizes, values, policies, rights):
        self.sizes = sizes
        self.policies = policies
        self.weights = [product(k + 1 for k in sizes[:a]) for a in range(len(sizes))]
        self.base = 1 + product(k + 1 for k in sizes)
        self.objects = len(values)
        self.rights = rights
        self.states = self.base ** self.objects
        self.moves = self.objects ** 2 * len(policies)
        self.start = self.number_of(values)
        self.rows = {}                               # the steps of the states asked for so far

    def code_of(self, values):
        if values is None:
            return 0
        parts = [0 if value is None else value + 1 for value in values]
        return 1 + sum(part * weight for part, weight in zip(parts, self.weights))

    def values_of(self, code):
        if code == 0:
            return None
        parts = [(code - 1) // weight % (k + 1) for weight, k in zip(self.weights, self.sizes)]
        return [None if part == 0 else part - 1 for part in parts]

    def number_of(self, state):
        return sum(self.code_of(values) * self.base ** i for i, values in enumerate(state))

    def state_of(self, number):
        return [self.values_of(number // self.base ** i % self.base) for i in range(self.objects)]

    def parts_of(self, move):
        """Policy, subject and object of a move."""
        n = self.objects
        return move // (n * n), move // n % n, move % n

    def label(self, move):
        policy, subject, object_ = self.parts_of(move)
        return subject, object_, self.policies[policy].right

    def step(self, number, move):
        """The next state, or None."""
        if number not in self.rows:
            self.rows[number] = self.row(number)
        return self.rows[number][move]

    def row(self, number):
        """The steps of a state, move by move."""
        state = self.state_of(number)
        row = []
        for move in range(self.moves):
            policy, subject, object_ = self.parts_of(move)
            after = apply(self.policies[policy], state, subject, object_, self.sizes)
            row.append(None if after is None else self.number_of(after))
        return row


# ---------------------------------------------------------------- the analysis

@dataclass
class Answer:
    witness: list             # of moves; None for never
    found: list               # records: state, parent place, move
    tried: int


def analyse(system, q, entries):
    """The analysis of permission q with three tables of so many entries, for any object with the
    members states, start, moves, objects, rights, step and label."""
    subject, object_, right = q
    if not (subject < system.objects and object_ < system.objects and right < system.rights):
        raise Refused(30)
    if entries < system.states:
        raise Refused(31)
    found = [(system.start, 0, 0)]
    listed = {system.start}
    tried = 0
    place = 0
    while place < len(found):
        state = found[place][0]
        for move in range(system.moves):
            tried += 1
            after = system.step(state, move)
            if after is None:
                continue
            if system.label(move) == q:
                return Answer(recorded(found, place) + [move], found, tried)
            if after not in listed:
                listed.add(after)
                found.append((after, place, move))
        place += 1
    return Answer(None, found, tried)


def recorded(found, place):
    """The moves recorded along the parents from the start to the state at a place."""
    moves = []
    while place != 0:
        _, parent, move = found[place]
        moves.insert(0, move)
        place = parent
    return moves
