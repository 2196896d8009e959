#!/usr/bin/env python3
"""Table systems, lock lists, analysis and monitor, by the rules in docs/. It takes nothing from the
code that it is compared with, but has the same author.

Makes the cases of crates/table_cases and what the program must print:

    reference/tables.py cases  > crates/table_cases/stdin
    reference/tables.py answer < crates/table_cases/stdin > crates/table_cases/stdout

And compares the program with these rules on random cases, after `rt run` in crates/table_cases has built it:

    reference/tables.py compare COUNT SEED [MOST STATES]
"""
import random
import subprocess
import sys
from collections import namedtuple

MOST_STATES, MOST_MOVES, MOST_COUNT, MOST_LOCKS = 1048576, 4096, 255, 16
SEED = 20261117

Table = namedtuple("Table", "states moves objects rights start labels entries")
BARE = Table(1, 0, 0, 0, 0, [], [])


def table_refusal(t):
    """The first refusal that applies to a table's numbers, or None."""
    if not (1 <= t.states <= MOST_STATES and t.moves <= MOST_MOVES
            and t.objects <= MOST_COUNT and t.rights <= MOST_COUNT):
        return [40]
    if len(t.labels) != 3 * t.moves or len(t.entries) != t.states * t.moves:
        return [41]
    if t.start >= t.states:
        return [42]
    for m in range(t.moves):
        s, o, r = t.labels[3 * m:3 * m + 3]
        if s >= t.objects or o >= t.objects or r >= t.rights:
            return [43, m]
    for place, entry in enumerate(t.entries):
        if entry > t.states:
            return [44, place]
    return None


class System:
    """A table under lists of locked permissions."""

    def __init__(self, table):
        self.table = table
        self.lists = []

    def within(self, p):
        return p[0] < self.table.objects and p[1] < self.table.objects and p[2] < self.table.rights

    def label(self, m):
        return tuple(self.table.labels[3 * m:3 * m + 3]) if m < self.table.moves else None

    def step(self, s, m):
        if s >= self.table.states or m >= self.table.moves:
            return None
        if any(self.label(m) in locks for locks in self.lists):
            return None
        entry = self.table.entries[s * self.table.moves + m]
        return entry - 1 if entry else None

    def lock(self, locks, p):
        if not self.within(p):
            return "refused 51"
        if p in locks:
            return "locked %d" % len(locks)
        if len(locks) == MOST_LOCKS:
            return "refused 50"
        locks.append(p)
        return "locked %d" % len(locks)


def search(system, q):
    """(leak or never, list of (state, parent, move), tried, witness)"""
    found = [(system.table.start, 0, 0)]
    listed = {system.table.start}
    tried = 0
    place = 0
    while place < len(found):
        for m in range(system.table.moves):
            tried += 1
            t = system.step(found[place][0], m)
            if t is None:
                continue
            if system.label(m) == q:
                way = [m]
                at = place
                while at != 0:
                    way.append(found[at][2])
                    at = found[at][1]
                return "leak", found, tried, way[::-1]
            if t not in listed:
                listed.add(t)
                found.append((t, place, m))
        place += 1
    return "never", found, tried, []


def analyse(system, q, marks_len, found_len, witness_len):
    marks = [1000 + i for i in range(marks_len)]
    records = [(3000 + i, 4000 + i, 5000 + i) for i in range(found_len)]
    witness = [2000 + i for i in range(witness_len)]
    way = None
    if not system.within(q):
        head = "refused 30"
    elif min(marks_len, found_len, witness_len) < system.table.states:
        head = "refused 31"
    else:
        verdict, found, tried, moves = search(system, q)
        places = {state: i for i, (state, _, _) in enumerate(found)}
        marks[:system.table.states] = [places.get(s, -1) + 1 for s in range(system.table.states)]
        records[:len(found)] = found
        witness[:len(moves)] = moves
        head = "%s %d %d" % (verdict, len(found), tried)
        if verdict == "leak":
            head += " %d" % len(moves)
            way = moves
    out = [head, " ".join(["marks"] + [str(x) for x in marks]),
           " ".join(["found"] + ["%d/%d/%d" % r for r in records]),
           " ".join(["witness"] + [str(x) for x in witness])]
    if way is not None:
        state = system.table.start
        for m in way:
            state = system.step(state, m)
        out.append("replayed to %d" % state)
    return out


class Monitor:
    def __init__(self, system):
        self.system = system
        self.state = system.table.start

    def enforce(self, m):
        if m >= self.system.table.moves:
            return "refused 60"
        t = self.system.step(self.state, m)
        if t is None:
            return "refused 61"
        self.state = t
        return "granted %d" % m

    def lowest(self, p):
        for m in range(self.system.table.moves):
            if self.system.label(m) == p and self.system.step(self.state, m) is not None:
                return m
        return None

    def request(self, p):
        if not self.system.within(p):
            return "refused 62"
        m = self.lowest(p)
        return "refused 61" if m is None else self.enforce(m)

    def may(self, p):
        if not self.system.within(p):
            return "refused 62"
        return "no" if self.lowest(p) is None else "yes"


def new_fill():
    return {"table": None, "labels": [], "entries": []}


def new_case():
    return {"fills": [new_fill()], "inner": [], "outer": [], "asked": []}


def answer(lines):
    """The lines of a filling come in any order, and what none of them gives is empty or 0. Each line `table` but the
    first begins another filling; a case with more than one hands them in one after another."""
    case = new_case()
    for line in lines:
        word, *rest = line.split()
        numbers = [int(x) for x in rest]
        if word == "end":
            yield from answer_case(case)
            case = new_case()
        elif word == "table":
            if case["fills"][-1]["table"] is not None:
                case["fills"].append(new_fill())
            case["fills"][-1]["table"] = numbers
        elif word in ("labels", "entries"):
            case["fills"][-1][word] = numbers
        elif word in ("inner", "outer"):
            case[word].append(tuple(numbers))
        else:
            case["asked"].append((word, numbers))


def answer_case(case):
    """What is asked is asked of the table before each further filling, and at the end under the locks."""
    table = BARE
    for i, given in enumerate(case["fills"]):
        if i > 0:
            yield from ask(System(table), case["asked"])
        counts = ((given["table"] or []) + [0] * 5)[:5]
        offered = Table(*counts, given["labels"], given["entries"])
        refusal = table_refusal(offered)
        if refusal:
            yield " ".join(["refused"] + [str(x) for x in refusal])
        else:
            yield "filled"
            table = offered
    system = System(table)
    for name in ("inner", "outer"):
        locks = []
        system.lists.append(locks)
        for p in case[name]:
            yield system.lock(locks, p)
    yield from ask(system, case["asked"])


def ask(system, asked):
    monitor = Monitor(system)
    for word, n in asked:
        if word == "query":
            yield from analyse(system, tuple(n[:3]), *n[3:6])
        elif word == "enforce":
            yield monitor.enforce(n[0])
        elif word == "request":
            yield monitor.request(tuple(n))
        elif word == "may":
            yield monitor.may(tuple(n))
        elif word == "state":
            yield "state %d" % monitor.state
        elif word == "restart":
            monitor.state = system.table.start


def show_case(counts, labels, entries, inner=(), outer=(), asked=(), later=()):
    def line(word, numbers):
        return " ".join([word] + [str(x) for x in numbers])
    for numbers in [(counts, labels, entries)] + list(later):
        for word, given in zip(("table", "labels", "entries"), numbers):
            yield line(word, given)
    for p in inner:
        yield line("inner", p)
    for p in outer:
        yield line("outer", p)
    for word, numbers in asked:
        yield line(word, numbers)
    yield "end"


def fixed_cases():
    """The smallest leak, every refusal, and nested lock lists."""
    two = ([2, 1, 2, 1, 0], [0, 1, 0], [2, 0])
    q, back = (0, 1, 0), (1, 0, 0)
    calls = [("state", ()), ("may", q), ("may", back), ("may", (2, 0, 0)), ("request", (0, 1, 1)), ("enforce", (1,)),
             ("enforce", (0,)), ("state", ()), ("may", q), ("request", q), ("enforce", (0,)), ("restart", ()), ("state", ()),
             ("request", q), ("state", ())]
    asked = [("query", q + (5, 4, 3)), ("query", back + (2, 2, 2)), ("query", (2, 0, 0, 5, 5, 5)), ("query", (0, 2, 0, 1, 1, 1)),
             ("query", (0, 0, 1, 5, 5, 5)), ("query", q + (1, 5, 5)), ("query", q + (5, 1, 5)), ("query", q + (5, 5, 1))]
    yield show_case(*two, asked=asked + calls)
    # locked below, above, and out of the counts
    yield show_case(*two, inner=[q, q, (2, 0, 0), back], asked=[("query", q + (3, 3, 3))] + calls)
    yield show_case(*two, outer=[back, q], asked=[("query", q + (3, 3, 3))] + calls)
    # seventeen locks, and one of the sixteen again
    many = [(s, o, 0) for s in range(5) for o in range(4)][:17]
    yield show_case([1, 1, 5, 1, 0], [4, 3, 0], [1], inner=many + [many[0], (5, 0, 0)], outer=[(4, 3, 0)],
                    asked=[("query", (4, 3, 0, 1, 1, 1)), ("enforce", (0,))])
    # counts
    yield show_case([0, 0, 0, 0, 0], [], [], asked=[("query", (0, 0, 0, 2, 2, 2)), ("state", ()), ("enforce", (0,))])
    yield show_case([1048577, 0, 0, 0, 0], [], [])
    yield show_case([1048576, 0, 255, 255, 1048575], [], [], asked=[("state", ())])
    yield show_case([1, 4097, 1, 1, 0], [], [])
    yield show_case([1, 0, 256, 0, 0], [], [])
    yield show_case([1, 0, 0, 256, 0], [], [])
    # lengths, start, labels, entries, and which comes first
    yield show_case([2, 1, 2, 1, 2], [0, 1, 0, 0], [2, 0])
    yield show_case([2, 1, 2, 1, 2], [0, 2, 0], [2, 0, 0])
    yield show_case([2, 1, 2, 1, 2], [0, 2, 0], [3, 0])
    yield show_case([2, 2, 2, 1, 1], [0, 1, 0, 0, 1, 1], [3, 0, 3, 0])
    yield show_case([2, 2, 2, 1, 1], [2, 1, 0, 0, 1, 1], [0, 0, 0, 0])
    yield show_case([2, 2, 2, 1, 1], [0, 1, 0, 0, 2, 0], [0, 0, 0, 0])
    yield show_case([2, 2, 2, 1, 1], [0, 1, 0, 0, 1, 0], [2, 1, 0, 3])
    yield show_case([2, 2, 2, 1, 1], [0, 1, 0, 0, 1, 0], [2, 1, 0, 2], asked=[("query", (0, 1, 0, 2, 2, 2))])
    # a start other than 0, and a restart to it
    yield show_case([3, 1, 1, 1, 2], [0, 0, 0], [2, 3, 1],
                    asked=[("query", (0, 0, 0, 4, 4, 4)), ("enforce", (0,)), ("state", ()), ("restart", ()), ("state", ())])
    # a chain whose witness has eleven moves
    yield show_case([12, 2, 2, 2, 0], [0, 1, 0, 1, 0, 1], [x for i in range(12) for x in (i + 2 if i < 10 else 0, 1 if i == 10 else 0)],
                    asked=[("query", (1, 0, 1, 13, 14, 15)), ("query", (0, 1, 1, 12, 12, 12))])


    yield from more_fixed_cases()


def more_fixed_cases():
    """Numbers handed in again, the most moves, and ranks of refusals."""
    # three states and two moves of one label; each state has steps of its own, so that no other order of the
    # entries gives the same
    three = ([3, 2, 2, 2, 1], [0, 1, 1, 0, 1, 1], [0, 3, 3, 1, 2, 0])
    q = (0, 1, 1)
    asked = [("state", ()), ("request", q), ("state", ()), ("may", q), ("request", q), ("state", ()), ("enforce", (1,)), ("state", ()),
             ("enforce", (0,)), ("may", q), ("request", q), ("state", ()), ("enforce", (1,)), ("enforce", (2,)), ("restart", ()), ("state", ()),
             ("query", q + (3, 3, 3)), ("query", (1, 0, 0, 4, 4, 4))]
    yield show_case(*three, asked=asked)
    yield show_case(*three, inner=[(1, 0, 1)], outer=[q], asked=asked)
    # refused after it was accepted, by each refusal, and accepted again
    for later in (([3, 4097, 2, 2, 1], [], []), ([3, 2, 2, 2, 1], [0, 1, 1], [0, 3, 3, 1, 2, 0]), ([3, 2, 2, 2, 3], three[1], three[2]),
                  ([3, 2, 2, 1, 2], three[1], three[2]), ([3, 2, 2, 2, 0], three[1], [0, 3, 3, 1, 2, 4])):
        yield show_case(*three, asked=asked[:6] + asked[16:], later=[later])
    yield show_case([2, 1, 2, 1, 2], [0, 1, 0], [2, 0], asked=asked[:6] + asked[16:], later=[three])
    yield show_case(*three, asked=asked[:6] + asked[16:], later=[([2, 1, 2, 2, 0], [1, 0, 1], [2, 0]), ([2, 1, 2, 2, 2], [1, 0, 1], [2, 0])])
    # as many moves as there may be: the last one alone is enabled
    yield show_case([1, 4096, 1, 1, 0], [0] * 3 * 4096, [0] * 4095 + [1],
                    asked=[("may", (0, 0, 0)), ("request", (0, 0, 0)), ("enforce", (4095,)), ("enforce", (4094,)), ("enforce", (4096,)),
                           ("query", (0, 0, 0, 1, 1, 1))])
    # out of the counts ranks before a short table, whichever number and whichever table it is
    short = [(tables, p) for tables in ((2, 3, 3), (3, 2, 3), (3, 3, 2), (0, 0, 0)) for p in ((2, 1, 1), (0, 2, 1), (0, 1, 2), (1, 1, 1))]
    yield show_case(*three, asked=[("query", p + tables) for tables, p in short])
    # out of the counts ranks before a full list, and so does a permission that is on it
    many = [(s, o, 0) for s in range(4) for o in range(4)]
    yield show_case([1, 1, 4, 1, 0], [3, 3, 0], [1], inner=many + [(4, 0, 0), (0, 4, 0), (0, 0, 1), (3, 3, 0), (0, 0, 0)],
                    outer=[(0, 0, 1)] + many[1:] + [(0, 0, 0), (2, 2, 0), (4, 4, 4)], asked=[("may", (3, 3, 0)), ("enforce", (0,))])
    # labels and entries before the table, and no table at all
    yield ["labels 0 1 0", "entries 2 0", "table 2 1 2 1 0", "query 0 1 0 2 2 2", "state", "end"]
    yield ["query 0 0 0 1 1 1", "state", "end"]
    yield ["end"]


def damage(rng, labels, entries, states):
    """Spoils one number, or drops one."""
    numbers = rng.choice([labels, entries])
    place = rng.randrange(len(numbers))
    if rng.random() < 0.2:
        del numbers[place]
    else:
        numbers[place] = states + rng.randint(0, 2)


def random_cases(count, seed=SEED, most=9):
    rng = random.Random(seed)
    for _ in range(count):
        states, moves = rng.randint(1, most), rng.randint(0, 7)
        objects, rights = rng.randint(1, 3), rng.randint(1, 2)
        density = rng.choice([0.2, 0.5, 0.9])

        def permission(slack):
            return (rng.randrange(objects + slack), rng.randrange(objects + slack), rng.randrange(rights + slack))
        labels = [x for _ in range(moves) for x in permission(0)]
        entries = [rng.randint(1, states) if rng.random() < density else 0 for _ in range(states * moves)]
        if moves and seed != SEED and rng.random() < 0.1:
            damage(rng, labels, entries, states)
        inner = [permission(0) for _ in range(rng.choice([0, 0, 1, 2]))]
        outer = [permission(0) for _ in range(rng.choice([0, 0, 1]))]
        asked = []
        for _ in range(3):
            asked.append(("query", permission(0) + tuple(states + rng.randint(0, 3) for _ in range(3))))
        for _ in range(8):
            word = rng.choice(["enforce", "enforce", "request", "may", "state", "restart"])
            asked.append((word, {"enforce": (rng.randrange(moves + 1),), "request": permission(1 if rng.random() < 0.2 else 0),
                                 "may": permission(1 if rng.random() < 0.2 else 0), "state": (), "restart": ()}[word]))
        yield show_case([states, moves, objects, rights, rng.randrange(states)], labels, entries, inner, outer, asked)


def compare(count, seed, most):
    """Stops at the first hundred cases, of at most so many states, of which the program prints something else."""
    for begun in range(0, count, 100):
        text = "".join("\n".join(case) + "\n" for case in random_cases(100, seed + begun, most))
        printed = subprocess.run(["crates/table_cases/out/table_cases"], input=text, capture_output=True, text=True, check=True).stdout
        if printed != "".join(line + "\n" for line in answer(text.splitlines())):
            sys.exit("differs on the cases with seed %d" % (seed + begun))
    print("%d cases of at most %d states, no difference" % (count, most))


def main():
    if sys.argv[1:2] == ["compare"] and len(sys.argv) in (4, 5):
        compare(int(sys.argv[2]), int(sys.argv[3]), int((sys.argv[4:] or ["40"])[0]))
    elif sys.argv[1:] == ["cases"]:
        for case in list(fixed_cases()) + list(random_cases(48)):
            print("\n".join(case))
    elif sys.argv[1:] == ["answer"]:
        for line in answer(sys.stdin.read().splitlines()):
            print(line)
    else:
        sys.exit(__doc__)


if __name__ == "__main__":
    main()
