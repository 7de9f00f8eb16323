"""Least facts about programs, and the constraints that facts break.

    p, system, facts = least_facts(source, rows)      rows are those of a profile, parted by blanks, as "level,low,1 int,4,"
    p.funcs[0]["body"], system.flow.points, system.keys, facts.whole, facts.at[0].cells ..
    system.first_broken(facts)        None, or (rule, point, have, need) as texts

What the facts are is said at the class Facts, and what points are at the class Point. The constraints are stated here as lists of
needs, each of which is a place in the facts and what has to be there; least facts are what comes of giving everything its need,
round after round, from facts that say nothing."""
import sys

from abstract import MIRRORED, OPPOSITE, Vals, Values
from c_types import Target
from linked import Linked, Refused
from lowered import Source
from lowering import lower, qualifiers
from meaning import children, expressions
from places import NULL, Set, listing
from typed_units import written

sys.setrecursionlimit(100000)
MOST_TRACKED = 128
UNREACHED = object()
COMPARISONS = ("lt", "le", "gt", "ge", "eq", "ne")


# ---- programs

class Settings:
    def __init__(self, rows):
        self.target, self.levels, self.handlers = {}, {}, []
        for row in rows.split():
            key, first, second = row.split(",")
            if key == "level":
                self.levels[first] = int(second)
            elif key == "handler":
                self.handlers.append(first)
            else:
                self.target[{"int": "int_bytes", "pointer": "pointer_bytes", "align": "align"}[key]] = int(first)


def lowered(source, rows=""):
    """The lowered program of a source; of several, ` <> ` stands between them. Its functions are `funcs`, whose bodies are lists of
    statements as meaning.py has them, its objects `objects`, and so on (traces.py). Where the source is refused, Refused is raised."""
    settings = Settings(rows)
    texts = [written(t) for t in source.split(" <> ")]
    p = Source(Linked(texts, settings.handlers, Target(**settings.target)), settings)
    p.funcs = lower(p)
    p.handlers = [i for i, f in enumerate(p.funcs) if f["kind"] or f["name"] in settings.handlers]
    return p


def least_facts(source, rows="", domain=Vals):
    """The lowered program of a source, its points and constraints, and its least facts."""
    p = lowered(source, rows)
    system = System(p, domain)
    return p, system, system.least()


# ---- points

class Point:
    """A statement, or a function's exit (`statement` is None): its function, the points that come next, ascending, and of an `if` or a
    `switch` what leads to which, as pairs of a side and a point."""

    def __init__(self, func, statement):
        self.func, self.statement, self.next, self.sides, self.lists = func, statement, [], [], []


class Flow:
    """All points, function by function in the order of the text, the exit last; `first` and `exit` by function."""

    def __init__(self, p):
        self.points, self.first, self.exit, self.number_of = [], [], [], {}
        for func, f in enumerate(p.funcs):
            self.first.append(len(self.points))
            numbers = self.numbered(func, f["body"])
            self.exit.append(len(self.points))
            self.points.append(Point(func, None))
            self.link(numbers, self.exit[func], None, None)

    def numbered(self, func, statements):
        """The numbers of the points of a list; those of inner lists stand at the points."""
        numbers = []
        for s in statements:
            numbers.append(len(self.points))
            point = Point(func, s)
            self.points.append(point)
            self.number_of[id(s)] = numbers[-1]
            inner = [s[2], s[3]] if s[0] == "if" else [s[2]] if s[0] == "while" else [body for _, body in s[2]] if s[0] == "switch" else []
            point.lists = [self.numbered(func, x) for x in inner]
        return numbers

    def link(self, numbers, behind, leave, again):
        """`behind` comes after the list, `leave` after its loop or switch, and `again` is its loop."""
        for n, follower in zip(numbers, [*numbers[1:], behind]):
            point = self.points[n]
            self.points[n].next = sorted(set(self.targets(point, n, follower, leave, again)))

    def targets(self, point, n, follower, leave, again):
        kind, lists = point.statement[0], point.lists
        start = lambda numbers, other: numbers[0] if numbers else other
        if kind == "if":
            for x in lists:
                self.link(x, follower, leave, again)
            point.sides = [(True, start(lists[0], follower)), (False, start(lists[1], follower))]
            return [to for _, to in point.sides]
        if kind == "while":
            self.link(lists[0], n, follower, n)
            return [start(lists[0], n)]
        if kind == "switch":
            starts = [follower]
            for x in reversed(lists):
                self.link(x, starts[0], follower, again)
                starts.insert(0, start(x, starts[0]))
            labelled = [(label, to) for (labels, _), to in zip(point.statement[2], starts) for label in labels]
            if "default" not in [label for label, _ in labelled]:
                labelled.append(("default", follower))
            point.sides = [(label if label == "default" else int(label), to) for label, to in labelled]
            return [to for _, to in point.sides] + starts[:-1]
        if kind in ("break", "continue"):
            return [leave if kind == "break" else again]
        return [self.exit[point.func] if kind == "return" else follower]


# ---- facts

class Known:
    """What is known at a point: whether the flag may be off and on, the sets of the function's registers and of the tracked cells, in
    order, and the pairs (register, cell), by these orders, that are equal."""

    def __init__(self, off, on, locals, cells, same):
        self.off, self.on, self.locals, self.cells, self.same = off, on, list(locals), list(cells), set(same)

    def copy(self):
        return Known(self.off, self.on, self.locals, self.cells, self.same)


class Facts:
    """Lists by key: `whole`, `handler_reads`, `handler_writes`, `read_levels`, `write_levels`; by function: `results`, `by_main`,
    `by_handler`, `levels`, `from_`; by point: `at`, with a Known or None. Sets of levels are numbers. Sets of integers are those of
    the domain, sets of addresses those of places.py."""

    def __init__(self, system):
        p, d = system.p, system.d
        keys, funcs = len(system.keys), len(p.funcs)
        self.whole = [Set() if system.key_type(k)["shape"][0] == "ptr" else d.none for k in system.keys]
        self.results = [Set() if f["result"]["shape"][0] == "ptr" else d.none for f in p.funcs]
        self.by_main, self.by_handler = [False] * funcs, [False] * funcs
        self.levels, self.from_ = [0] * funcs, [0] * funcs
        self.handler_reads, self.handler_writes = [False] * keys, [False] * keys
        self.read_levels, self.write_levels = [0] * keys, [0] * keys
        self.at = [None] * len(system.flow.points)

    def copy(self):
        other = object.__new__(Facts)
        for name, part in vars(self).items():
            setattr(other, name, [x.copy() if isinstance(x, Known) else x for x in part])
        return other


LISTS = {"main": "by_main", "handler": "by_handler", "levels": "levels", "from": "from_", "reads": "handler_reads",
         "writes": "handler_writes", "read_levels": "read_levels", "write_levels": "write_levels", "whole": "whole", "result": "results"}


# ---- the constraints

class System:
    def __init__(self, p, domain):
        self.p, self.d, self.flow = p, domain, Flow(p)
        self.values = [Values(p, i, domain) for i in range(len(p.funcs))]
        self.registers = [sorted(v.body.registers) for v in self.values]
        self.keys = self.all_keys()
        self.key_number = {k: i for i, k in enumerate(self.keys)}
        taken = self.taken()
        self.firsts = [list(self.first_values(i)) for i in range(len(p.objects))]
        self.tracked = [i for i, (_, t, _) in enumerate(p.objects) if t["shape"][0] in ("int", "ptr") and qualifiers(t) == (False, False)
                        and i not in taken][:MOST_TRACKED]

    # ---- keys and cells

    def all_keys(self):
        p = self.p
        keys = [("object", i) for i, (_, t, _) in enumerate(p.objects) if are_scalars(t)]
        keys += [("local", i, k) for i, f in enumerate(p.funcs) for k, (_, t) in enumerate(f["locals"])
                 if are_scalars(t) and k not in self.registers[i]]
        return keys + [("member", i, k) for i, (_, members) in enumerate(p.structures) for k, (_, t) in enumerate(members) if are_scalars(t)]

    def key_type(self, key):
        """Of the scalars of a key."""
        t = self.p.objects[key[1]][1] if key[0] == "object" else self.p.funcs[key[1]]["locals"][key[2]][1] if key[0] == "local" \
            else self.p.structures[key[1]][1][key[2]][1]
        while t["shape"][0] == "array":
            t = t["shape"][1]
        return t

    def taken(self):
        """The static objects whose addresses the text takes, in a body or in a first value."""
        found = {int(leaf.split(":")[1]) for _, _, leaves in self.p.objects for leaf in leaves if leaf.startswith("at:")}
        for f in self.p.funcs:
            for e in expressions(f["body"]):
                found |= taken_in(e)
        return found

    def cell_number(self, place):
        return self.tracked.index(place[1]) if place[0] == "static" and place[1] in self.tracked else None

    # ---- first values

    def first_value(self, leaf):
        head, *rest = leaf.split(":")
        if head == "null":
            return Set([NULL])
        if head == "func":
            return Set([("f", int(rest[0]))])
        if head != "at":
            return self.d.hull([int(head)])
        path = tuple((w[0], int(w[1:])) for w in (rest[3].split(",") if len(rest) > 3 else []))
        return Set([("at", ("o", int(rest[0])), path, int(rest[1]), int(rest[2]))])

    def first_values(self, number):
        """The key of each scalar of a static object, with its first value."""
        _, t, leaves = self.p.objects[number]
        for i, (path, u) in enumerate(self.p.scalars(t)):
            key = self.values[0].key_of(("at", ("o", number), path, 0, 1))
            yield key, self.first_value(leaves[i] if leaves else "null" if u["shape"][0] == "ptr" else "0")

    # ---- what statements access

    def known(self, facts, n):
        """The sets of the registers at a point, by the numbers of locals."""
        return dict(zip(self.registers[self.flow.points[n].func], facts.at[n].locals))

    def value(self, facts, n, e):
        return self.values[self.flow.points[n].func].value(e, self.known(facts, n))

    def named(self, facts, n, place):
        """The numbers of the keys that a place may name, ascending."""
        found = self.values[self.flow.points[n].func].keys(place, self.known(facts, n))
        return sorted(self.key_number[k] for k in found)

    def read(self, facts, n, place):
        v = self.values[self.flow.points[n].func]
        cell = self.cell_number(place)
        if cell is not None:
            return facts.at[n].cells[cell]
        if place[0] == "device":
            return v.whole(self.p.devices[place[1]][1])
        found = v.none_of(v.body.value_type(place))
        for k in self.named(facts, n, place):
            found = v.join(found, facts.whole[k])
        return found

    def is_register(self, n, place):
        return place[0] == "local" and place[1] in self.registers[self.flow.points[n].func]

    def assignment(self, n):
        """The place and the right side of an assignment, or None."""
        s = self.flow.points[n].statement
        return s[1][1:] if s and s[0] == "do" and s[1][0] == "assign" else None

    def call(self, n):
        """The callee, the arguments and the position of the result's register, if there is one; or None."""
        s = self.flow.points[n].statement
        if not s or s[0] != "do":
            return None
        e = s[1][2] if s[1][0] == "assign" else s[1]
        return None if e[0] != "call" else (e[1], e[2], self.position(n, s[1][1]) if s[1][0] == "assign" else None)

    def position(self, n, place):
        return self.registers[self.flow.points[n].func].index(place[1])

    def callees(self, facts, n):
        return sorted(a[1] for a in self.value(facts, n, self.call(n)[0]).members if a[0] == "f")

    # ---- levels (the level of a handler is what the profile says, else 0)

    def level(self, h):
        return self.p.levels.get(self.p.funcs[h]["name"], 0)

    def may_enter(self, running, level):
        """A handler of a level over a function that runs at some levels: at 0 always, else above the least of these."""
        return level == 0 or any(running >> l & 1 for l in range(level))

    # ---- rule by rule: pairs of a place in the facts and what it has to have

    def needs(self, rule, n, facts):
        return list(getattr(self, f"rule_{rule}")(n, facts))

    def constraints(self):
        """All constraints in order; the point of the first rule is a key here."""
        yield from ((1, k) for k, key in enumerate(self.keys) if key[0] != "local")
        for n in range(len(self.flow.points)):
            yield from ((rule, n) for rule in range(2, 11))

    def rule_1(self, k, facts):
        found = None
        for values in self.firsts:
            for key, first in values:
                if key == self.keys[k]:
                    found = first if found is None else self.values[0].join(found, first)
        if found is not None:
            yield ("whole", k), found

    def arrival(self, to, fact):
        """What is needed of a point where such a fact comes."""
        yield ("flag", to), (fact.off, fact.on)
        yield from ((("local", to, r), s) for r, s in enumerate(fact.locals))
        yield from ((("cell", to, j), s) for j, s in enumerate(fact.cells))
        yield ("same", to), fact.same

    def entry(self, func, off, on, cells, given=()):
        f = self.p.funcs[func]
        locals = [self.values[func].none_of(f["locals"][i][1]) for i in self.registers[func]]
        for i, s in given:
            locals[self.registers[func].index(i)] = s
        return self.arrival(self.flow.first[func], Known(off, on, locals, cells, ()))

    def rule_2(self, n, facts):
        if n != self.flow.first[self.p.main]:
            return
        yield ("main", self.p.main), True
        yield ("levels", self.p.main), 1
        yield from self.entry(self.p.main, True, False, [self.firsts[i][0][1] for i in self.tracked])

    def rule_3(self, n, facts):
        if facts.at[n] is None or self.call(n) is not None:
            return
        for to in self.flow.points[n].next:
            fact = self.after(n, to, facts)
            if fact is not None:
                yield from self.arrival(to, fact)

    def rule_4(self, n, facts):
        if facts.at[n] is None or self.assignment(n) is None or self.call(n) is not None:
            return
        place, e = self.assignment(n)
        if e[0] == "intrinsic" or self.is_register(n, place):
            return
        found = self.value(facts, n, e)
        yield from ((("whole", k), found) for k in self.named(facts, n, place))

    def rule_5(self, n, facts):
        func = self.flow.points[n].func
        if facts.at[n] is None or self.assignment(n) is None or self.call(n) is not None or not facts.by_handler[func]:
            return
        place, e = self.assignment(n)
        reads = self.named(facts, n, e[1]) if e[0] == "load" and not self.is_register(n, e[1]) else []
        writes = [] if self.is_register(n, place) else self.named(facts, n, place)
        yield from ((("reads", k), True) for k in reads)
        yield from ((("writes", k), True) for k in writes)
        yield from ((("read_levels", k), facts.from_[func]) for k in reads)
        yield from ((("write_levels", k), facts.from_[func]) for k in writes)

    def rule_6(self, n, facts):
        if facts.at[n] is None or self.call(n) is None:
            return
        here, func, args = facts.at[n], self.flow.points[n].func, self.call(n)[1]
        given = [self.value(facts, n, a) for a in args]
        for g in self.callees(facts, n):
            yield ("main", g), facts.by_main[func]
            yield ("handler", g), facts.by_handler[func]
            yield ("levels", g), facts.levels[func]
            yield ("from", g), facts.from_[func]
            yield from self.entry(g, here.off, here.on, here.cells, [(i, s) for i, s in enumerate(given) if i in self.registers[g]])
            yield from ((("whole", self.key_number["local", g, i]), s) for i, s in enumerate(given) if i not in self.registers[g])

    def rule_7(self, n, facts):
        if facts.at[n] is None or self.call(n) is None:
            return
        to, = self.flow.points[n].next
        for g in self.callees(facts, n):
            end = facts.at[self.flow.exit[g]]
            if end is None:
                continue
            back, result = Known(end.off, end.on, facts.at[n].locals, end.cells, ()), self.call(n)[2]
            if result is not None:
                back.locals[result] = self.result(facts, g)
            yield from self.arrival(to, back)

    def result(self, facts, g):
        """What a call gives: where main falls off its end, 0 (5.1.2.2.3)."""
        if g == self.p.main and self.p.funcs[g]["result"]["shape"][0] != "void":
            return self.values[g].join(facts.results[g], self.d.hull([0]))
        return facts.results[g]

    def rule_8(self, n, facts):
        s = self.flow.points[n].statement
        if facts.at[n] is not None and s and s[0] == "return" and s[1] is not None:
            yield ("result", self.flow.points[n].func), self.value(facts, n, s[1])

    def rule_9(self, n, facts):
        here, func = facts.at[n], self.flow.points[n].func
        for h in self.p.handlers if here is not None and here.on else []:
            if not self.may_enter(facts.levels[func], self.level(h)):
                continue
            yield ("handler", h), True
            yield ("levels", h), 1 << self.level(h) if self.level(h) else facts.levels[func]
            yield ("from", h), 1 << self.level(h)
            yield from self.entry(h, True, False, here.cells)

    def rule_10(self, n, facts):
        here, running = facts.at[n], facts.levels[self.flow.points[n].func]
        if here is None or not here.on:
            return
        unstable = []
        for j, i in enumerate(self.tracked):
            k = self.key_number["object", i]
            if any(facts.write_levels[k] >> l & 1 and self.may_enter(running, l) for l in range(8)):
                unstable.append(j)
                yield ("cell", n, j), facts.whole[k]
        yield ("same", n), {(r, j) for r, j in here.same if j not in unstable}

    # ---- facts after a statement

    def after(self, n, to, facts):
        """What flows from a point to a next one; None where nothing does."""
        here, s = facts.at[n].copy(), self.flow.points[n].statement
        if s is None or s[0] in ("while", "break", "continue", "return"):
            return here
        if s[0] in ("if", "switch"):
            return self.refined(n, to, facts)
        if s[1][0] == "assign" and s[1][2][0] != "intrinsic":
            return self.assigned(n, here, *s[1][1:], facts)
        word, operand = (s[1][2] if s[1][0] == "assign" else s[1])[1:]
        if word == "restore":
            v, given = self.values[self.flow.points[n].func], self.value(facts, n, operand)
            here.off, here.on = v.can_be_false(given), v.can_be_true(given)
            return here if here.off or here.on else None
        if word == "save" and s[1][0] == "assign":
            r = self.position(n, s[1][1])
            here.locals[r] = self.d.hull([0] * here.off + [1] * here.on)
            here.same = {(q, j) for q, j in here.same if q != r}
        here.off, here.on = word != "on", word == "on"
        return here

    def assigned(self, n, here, place, e, facts):
        is_read = e[0] == "load" and not self.is_register(n, e[1])
        given = self.read(facts, n, e[1]) if is_read else self.value(facts, n, e)
        if self.is_register(n, place):
            r, cell = self.position(n, place), self.cell_number(e[1]) if is_read else None
            here.locals[r] = given
            here.same = {(q, j) for q, j in here.same if q != r} | ({(r, cell)} if cell is not None else set())
        elif self.cell_number(place) is not None:
            cell = self.cell_number(place)
            here.cells[cell] = given
            here.same = {(r, j) for r, j in here.same if j != cell}
        return here

    # ---- tests: each side that leads to the next point cuts for itself

    def refined(self, n, to, facts):
        found = None
        for side, target in self.flow.points[n].sides:
            fact = Test(self, n, side, facts).fact() if target == to else None
            if fact is not None:
                found = fact if found is None else self.joined(found, fact)
        return found

    def joined(self, a, b):
        v = self.values[0]
        both = lambda x, y: [v.join(s, t) for s, t in zip(x, y)]
        return Known(a.off or b.off, a.on or b.on, both(a.locals, b.locals), both(a.cells, b.cells), a.same & b.same)

    # ---- facts and needs

    def had(self, facts, slot):
        kind, *at = slot
        if kind in LISTS:
            return getattr(facts, LISTS[kind])[at[0]]
        here = facts.at[at[0]]
        if here is None:
            return UNREACHED
        return (here.off, here.on) if kind == "flag" else here.locals[at[1]] if kind == "local" else here.cells[at[1]] if kind == "cell" else here.same

    def has(self, facts, slot, part):
        had, kind = self.had(facts, slot), slot[0]
        if had is UNREACHED:
            return False
        if kind in ("main", "handler", "reads", "writes"):
            return had or not part
        if kind in ("levels", "from", "read_levels", "write_levels"):
            return part & ~had == 0
        if kind == "flag":
            return all(h or not p for h, p in zip(had, part))
        return had <= part if kind == "same" else self.values[0].below(part, had)

    def give(self, facts, slot, part):
        kind, *at = slot
        had = self.had(facts, slot)
        if kind == "flag" and had is UNREACHED:
            func = self.flow.points[at[0]].func
            types = [self.p.funcs[func]["locals"][i][1] for i in self.registers[func]]
            every = {(r, j) for r in range(len(types)) for j in range(len(self.tracked))}
            cells = [self.values[0].none_of(self.p.objects[i][1]) for i in self.tracked]
            facts.at[at[0]] = Known(*part, [self.values[0].none_of(t) for t in types], cells, every)
        elif kind == "flag":
            facts.at[at[0]].off, facts.at[at[0]].on = had[0] or part[0], had[1] or part[1]
        elif kind == "same":
            facts.at[at[0]].same = had & part
        elif kind in LISTS:
            both = had or part if kind in ("main", "handler", "reads", "writes") else had | part \
                if kind in ("levels", "from", "read_levels", "write_levels") else self.values[0].join(had, part)
            getattr(facts, LISTS[kind])[at[0]] = both
        else:
            part = self.values[0].join(had, part)
            (facts.at[at[0]].locals if kind == "local" else facts.at[at[0]].cells)[at[1]] = part

    def least(self):
        facts, risen = Facts(self), True
        while risen:
            risen = False
            for rule, n in self.constraints():
                for slot, part in self.needs(rule, n, facts):
                    if not self.has(facts, slot, part):
                        self.give(facts, slot, part)
                        risen = True
        return facts

    def first_broken(self, facts):
        for rule, n in self.constraints():
            for slot, part in self.needs(rule, n, facts):
                if not self.has(facts, slot, part):
                    return (rule, 0 if rule == 1 else n, *self.told(facts, slot, part))
        return None

    # ---- texts

    def told(self, facts, slot, part):
        if slot[0] != "same":
            return self.text(slot, self.had(facts, slot)), self.text(slot, part)
        r, j = min(self.had(facts, slot) - part)
        f = self.p.funcs[self.flow.points[slot[1]].func]
        return f"{f['locals'][self.registers[self.flow.points[slot[1]].func][r]][0]} {self.p.objects[self.tracked[j]][0]}", ""

    def text(self, slot, part):
        kind = slot[0]
        if part is UNREACHED:
            return ""
        if kind in ("main", "handler", "reads", "writes"):
            return {"reads": "read", "writes": "write"}.get(kind, kind) if part else ""
        if kind == "flag":
            return ["", "on", "off", "both"][2 * part[0] + part[1]]
        return str(part) if isinstance(part, int) else self.set_text(part)

    def set_text(self, s):
        if not isinstance(s, Set):
            return self.d.text(s)
        return " ".join(self.address(a, s.exact) for a in sorted(s.members, key=listing))

    def address(self, a, exact):
        if a == NULL:
            return "0"
        if a[0] == "f":
            return self.p.funcs[a[1]]["name"]
        _, root, path, index, count = a
        star = lambda i: f"[{i}]" if exact else "[*]"
        name = self.p.objects[root[1]][0] if root[0] == "o" else f"{self.p.funcs[root[2]]['locals'][root[3]][0]}@{self.p.funcs[root[2]]['name']}"
        for i, (kind, k) in enumerate(path):
            at = self.values[0].type_along(root, path[:i])
            name += star(k) if kind == "i" else "." + self.p.structures[at["shape"][1]][1][k][0]
        return f"&{name}" + ("" if exact and (index, count) == (0, 1) else star(index))


def are_scalars(t):
    while t["shape"][0] == "array":
        t = t["shape"][1]
    return t["shape"][0] in ("int", "ptr")


def taken_in(e):
    found = set().union(*(taken_in(c) for c in children(e)))
    if e[0] == "addr":
        place = e[1]
        while place[0] in ("element", "member"):
            place = place[1]
        if place[0] == "static":
            found.add(place[1])
    return found


class Test:
    """One side of a test at a point: `True` or `False` of an `if`, a label or `default` of a `switch`. It cuts sets of integers alone."""

    def __init__(self, system, n, side, facts):
        self.system, self.side, self.here = system, side, facts.at[n]
        point = system.flow.points[n]
        self.v, self.registers = system.values[point.func], system.registers[point.func]
        self.e, self.known = point.statement[1], system.known(facts, n)
        self.labels = [int(x) for labels, _ in point.statement[2] for x in labels if x != "default"] if point.statement[0] == "switch" else []

    def passes(self, found):
        if self.side is True:
            return self.v.can_be_true(found)
        if self.side is False:
            return self.v.can_be_false(found)
        return self.v.has_other(found, self.labels) if self.side == "default" else self.v.has(found, self.side)

    def fact(self):
        if not self.passes(self.v.value(self.e, self.known)):
            return None
        fact = self.here.copy()
        for r in sorted(registers_in(self.e, self.registers)):
            position = self.registers.index(r)
            fact.locals[position] = self.kept(r, self.known[r])
            if self.v.is_empty(fact.locals[position]) and not self.v.is_empty(self.known[r]):
                return None
            for _, j in sorted(pair for pair in self.here.same if pair[0] == position):
                if self.fits(r, fact.cells[j]):
                    fact.cells[j] = self.kept(r, fact.cells[j])
        return fact

    def fits(self, r, s):
        """Whether all members are values of the register's type."""
        t = self.v.body.f["locals"][r][1]["shape"]
        return isinstance(s, Set) or self.is_within(s, t[1])

    def is_within(self, s, t):
        ends, whole = self.v.d.bounds(s), self.v.d.bounds(self.v.whole(t))
        return ends is None or whole[0] <= ends[0] and ends[1] <= whole[1]

    def kept(self, r, s):
        """What stays of a set of a register."""
        if isinstance(s, Set):
            return s
        told, value = self.v.d.members(s), lambda one: self.v.value(self.e, {**self.known, r: one})
        if told is None:
            return self.cut(r, s)
        return self.v.d.hull(x for x in told if self.passes(value(self.v.d.hull([x]))))

    def cut(self, r, s):
        left = s
        for test, a, other in self.comparisons({**self.known, r: s}):
            if self.is_operand(a, r, s):
                left = self.v.d.keep(test, left, other)
        return left

    def comparisons(self, known):
        """As which comparisons the side may be read: the test, the operand that is cut, and the set of the other one."""
        if isinstance(self.side, bool):
            if self.e[0] != "binary" or self.e[1] not in COMPARISONS:
                return []
            test = self.e[1].capitalize()
            test = test if self.side else OPPOSITE[test]
            a, b = self.e[3:]
            return [(test, a, self.v.value(b, known)), (MIRRORED[test], b, self.v.value(a, known))]
        if self.side == "default":
            return [("Ne", self.e, self.v.d.hull([x])) for x in self.labels]
        return [("Eq", self.e, self.v.d.hull([self.side]))]

    def is_operand(self, a, r, s):
        """The register, or a conversion of it that keeps all members."""
        if a[0] == "conv" and self.is_within(s, a[1]):
            a = a[2]
        return a == ("load", ("local", r))


def registers_in(e, registers):
    if e[0] == "load" and e[1][0] == "local":
        return {e[1][1]} & set(registers)
    return set().union(*(registers_in(c, registers) for c in children(e)))
