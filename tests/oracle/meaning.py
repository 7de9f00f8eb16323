#!/usr/bin/env python3
"""What the cases of crates/cases_meaning give: meaning.py < crates/cases_meaning/stdin

Runs the programs of a script of cases, and writes it with what each run gives. It is written from C99, docs/SUBSET.md and docs/DECISIONS.md,
apart from the runs of crates/cc_steps: a function that runs is a coroutine here, which stops before each of its steps.

A case is a program in the words of crates/cases_program, and behind bars the rows of its inputs, those of its arrivals
`TURN,HANDLER`, and how many turns there are at the most: `WORDS | 1 2 | 5,tick 7,tick | 100`. Behind `$ trace` the number of
turns is left out, and behind `$ states` each state of the run is written, as crates/cases_meaning/src/states.rt says. Behind any
other setting nothing is judged: such a case is answered as it stands in crates/cases_meaning/stdout. How many are judged is told
on standard error.
"""
import os
import sys

from programs import BAD, Program, alike, plain

sys.setrecursionlimit(100000)

# the settings of sections whose programs are run
RUNS = ("", "trace", "states")


class Trap(Exception):
    pass


class Starved(Exception):
    pass


class Exit(Exception):
    pass


# ---- which reads of registers are pure: no later operand of the full expression assigns the register

def children(e):
    """The operands of an expression or a place, in the order in which they are worked."""
    kind = e[0]
    if kind in ("const", "null", "func", "local", "static", "device"):
        return []
    if kind in ("load", "addr", "after", "deref"):
        return [e[1]]
    if kind == "member":
        return [e[1]]
    if kind in ("element", "assign", "move", "back", "gap", "both", "either", "seq"):
        return [e[1], e[2]]
    if kind == "change":
        return [e[1], e[4]]
    if kind == "call":
        return [e[1], *e[2]]
    if kind == "intrinsic":
        return [e[2]] if e[2] else []
    if kind in ("conv", "qualify"):
        return [e[2]]
    if kind == "unary":
        return [e[3]]
    if kind == "binary":
        return [e[3], e[4]]
    if kind == "cmp":
        return [e[2], e[3]]
    return [e[1], e[2], e[3]]


def assigned(e):
    """The locals that are assigned somewhere in it."""
    found = set().union(*(assigned(c) for c in children(e)))
    if e[0] in ("assign", "change", "after") and e[1][0] == "local":
        found = found | {e[1][1]}
    return found


def addressed(e):
    found = set().union(*(addressed(c) for c in children(e)))
    if e[0] == "addr":
        place = e[1]
        while place[0] in ("element", "member"):
            place = place[1]
        if place[0] == "local":
            found = found | {place[1]}
    return found


def expressions(stmts):
    for s in stmts:
        kind = s[0]
        if kind in ("do", "return"):
            yield from [s[1]] if s[1] else []
        elif kind in ("while", "dowhile"):
            yield s[1]
            yield from expressions(s[2])
        elif kind == "if":
            yield s[1]
            yield from expressions(s[2])
            yield from expressions(s[3])
        elif kind == "for":
            yield from [e for e in s[1:4] if e]
            yield from expressions(s[4])
        elif kind == "switch":
            yield s[1]
            for _, body in s[2]:
                yield from expressions(body)
        elif kind == "block":
            yield from expressions(s[1])


# ---- runs

class Activation:
    def __init__(self, run, number, func, args):
        self.number, self.func = number, func
        f = run.p.funcs[func]
        self.cells = {}
        for i, (_, t) in enumerate(f["locals"]):
            for path, _ in run.p.scalars(t):
                self.cells[i, path] = None
        for i, value in enumerate(args):
            self.cells[i, ()] = value
        self.registers = registers_of(f)
        # where it stands: the position in each list, what the present full expression was given, and whether nothing was
        # done yet of a statement, of a loop's turn, or of the return at the function's end
        self.path, self.operands, self.begins = [], [], True

    def works(self, begins):
        """A full expression is worked from its start, or what a statement without one does."""
        self.operands, self.begins = [], begins

    def is_given(self, value):
        self.operands.append(value)
        return value


def registers_of(f):
    taken = set().union(*(addressed(e) for e in expressions(f["body"])))
    return {i for i, (_, t) in enumerate(f["locals"]) if t["shape"][0] in ("int", "ptr") and not t["volatile"] and i not in taken}


class Broken(Exception):
    def __init__(self, value):
        self.value = value


class Jump(Exception):
    pass


class Break(Jump):
    pass


class Continue(Jump):
    pass


class Place:
    """Where a place lies: its object and path, the index in an array of so many, and its type with the qualifiers round it."""

    def __init__(self, root, path, index, count, is_element, ctype, volatile):
        self.root, self.path, self.index, self.count, self.is_element = root, path, index, count, is_element
        self.ctype, self.volatile = ctype, volatile

    def full_path(self):
        return self.path + ((("i", self.index),) if self.is_element else ())


class Run:
    def __init__(self, p, inputs):
        self.p, self.inputs, self.trace, self.end = p, list(inputs), [], None
        self.flag, self.opened, self.steps = False, 0, 0
        self.statics = {}
        for i, (_, t, leaves) in enumerate(p.objects):
            for k, (path, u) in enumerate(p.scalars(t)):
                self.statics[i, path] = self.first(leaves[k]) if leaves else (0 if u["shape"][0] == "int" else ("null",))
        self.open = {}
        self.stack = []            # activations, the running one last
        self.running = []          # coroutines: main's, and one for each handler that entered and has not returned
        self.begin(p.main, None)

    def first(self, word):
        head, *rest = word.split(":")
        if head == "null":
            return ("null",)
        if head == "func":
            return ("func", int(rest[0]))
        if head != "at":
            return int(head)
        path = tuple((w[0], int(w[1:])) for w in (rest[3].split(",") if len(rest) > 3 else []))
        return ("at", ("static", int(rest[0])), path, int(rest[1]), int(rest[2]))

    def begin(self, func, handler):
        work = self.work_whole(func, handler)
        next(work)
        self.running.append((work, handler))

    # ---- names

    def local_name(self, func, i):
        return f"{self.p.funcs[func]['locals'][i][0]}@{self.p.funcs[func]['name']}"

    def type_of_root(self, root):
        if root[0] == "static":
            return self.p.objects[root[1]][1]
        return self.p.funcs[root[2]]["locals"][root[3]][1]

    def spell_object(self, root, path):
        name = self.p.objects[root[1]][0] if root[0] == "static" else self.local_name(root[2], root[3])
        t = self.type_of_root(root)
        for kind, n in path:
            if kind == "m":
                member = self.p.structures[t["shape"][1]][1][n]
                name, t = f"{name}.{member[0]}", member[1]
            else:
                name, t = f"{name}[{n}]", t["shape"][1]
        return name

    def spell(self, value):
        if not isinstance(value, tuple):
            return str(value)
        if value[0] == "null":
            return "0"
        if value[0] == "func":
            return self.p.funcs[value[1]]["name"]
        _, root, path, index, count = value
        return "&" + self.spell_object(root, path) + ("" if (index, count) == (0, 1) else f"[{index}]")

    # ---- cells

    def cell_of(self, place):
        """The cell of a place, which is checked here (6.5.3.2, 4; 6.5.6, 8; 6.2.4, 2)."""
        if place is BAD or place.index >= place.count:
            raise Trap
        if place.root[0] == "auto" and place.root[1] not in self.open:
            raise Trap
        return place.root, place.full_path()

    def load(self, place, may_be_bad):
        root, path = self.cell_of(place)
        value = self.statics[root[1], path] if root[0] == "static" else self.open[root[1]].cells[root[3], path]
        if value is None:
            if may_be_bad:
                return BAD
            raise Trap
        if place.volatile:
            self.trace.append(f"read,{self.spell_object(root, path)},{self.spell(value)}")
        return value

    def store(self, place, value):
        if value is BAD:
            raise Trap
        root, path = self.cell_of(place)
        if root[0] == "static":
            self.statics[root[1], path] = value
        else:
            self.open[root[1]].cells[root[3], path] = value
        if place.volatile:
            self.trace.append(f"write,{self.spell_object(root, path)},{self.spell(value)}")

    def load_device(self, d):
        if not self.inputs:
            raise Starved
        name, t = self.p.devices[d]
        value = self.p.convert(self.inputs.pop(0), t)
        self.trace.append(f"read,{name},{value}")
        return value

    def store_device(self, d, value):
        if value is BAD:
            raise Trap
        self.trace.append(f"write,{self.p.devices[d][0]},{value}")

    # ---- places: coroutines, as their operands have steps

    def place(self, a, e, later):
        kind = e[0]
        if kind == "device":
            return ("device", e[1])
        if kind == "static":
            t = self.p.objects[e[1]][1]
            return Place(("static", e[1]), (), 0, 1, False, t, is_volatile(t))
        if kind == "local":
            t = self.p.funcs[a.func]["locals"][e[1]][1]
            return Place(("auto", a.number, a.func, e[1]), (), 0, 1, False, t, is_volatile(t))
        if kind == "member":
            return self.member((yield from self.place(a, e[1], later)), e[2])
        if kind == "element":
            of = yield from self.place(a, e[1], later | assigned(e[2]))
            index = yield from self.value(a, e[2], later)
            return self.element(of, index)
        return self.pointed((yield from self.value(a, e[1], later)), self.pointed_type(a, e[1]))

    def member(self, of, m):
        if of is BAD or of.index >= of.count:
            return BAD
        t = self.p.structures[of.ctype["shape"][1]][1][m][1]
        return Place(of.root, of.full_path() + (("m", m),), 0, 1, False, t, of.volatile or is_volatile(t))

    def element(self, of, index):
        if BAD in (of, index) or of.index >= of.count:
            return BAD
        _, t, n = of.ctype["shape"]
        if not 0 <= index <= n:
            return BAD
        return Place(of.root, of.full_path(), index, n, True, t, of.volatile or is_volatile(t))

    def pointed(self, value, t):
        """What an address points to: an element where the type there is an array of such, else the whole."""
        if value is BAD or value[0] != "at":
            return BAD
        _, root, path, index, count = value
        at = self.type_of_root(root)
        for kind, n in path:
            at = self.p.structures[at["shape"][1]][1][n][1] if kind == "m" else at["shape"][1]
        is_element = not alike(at, t)
        return Place(root, path, index, count, is_element, t, is_volatile(t))

    # ---- static types, as far as an indirection needs them

    def pointed_type(self, a, e):
        return self.type_of(a, e)["shape"][1]

    def type_of_place(self, a, e):
        kind = e[0]
        if kind == "static":
            return self.p.objects[e[1]][1]
        if kind == "local":
            return self.p.funcs[a.func]["locals"][e[1]][1]
        if kind == "member":
            s = self.type_of_place(a, e[1])
            return with_qualifiers(self.p.structures[s["shape"][1]][1][e[2]][1], s)
        if kind == "element":
            s = self.type_of_place(a, e[1])
            return with_qualifiers(s["shape"][1], s)
        return self.pointed_type(a, e[1])

    def type_of(self, a, e):
        """The type of an expression of pointer type."""
        kind = e[0]
        if kind == "load":
            return self.type_of_place(a, e[1])
        if kind == "addr":
            return plain(("ptr", self.type_of_place(a, e[1])))
        if kind in ("null", "qualify"):
            return e[1]
        if kind in ("move", "back"):
            return self.type_of(a, e[1])
        if kind == "choose":
            return self.type_of(a, e[2])
        if kind == "seq":
            return self.type_of(a, e[2])
        if kind in ("assign", "change", "after"):
            return self.type_of_place(a, e[1])
        if kind == "call":
            return self.function_type(a, e[1])[1]
        raise SystemExit(f"no pointer: {e}")

    def function_type(self, a, e):
        if e[0] == "func":
            f = self.p.funcs[e[1]]
            return ("func", f["result"], f["params"])
        return self.pointed_type(a, e)["shape"]

    # ---- values

    def value(self, a, e, later):
        """The value of an expression; `later` are the locals that operands worked later assign."""
        return (yield from getattr(self, "value_" + e[0])(a, e, later))

    def two(self, a, first, second, later):
        x = yield from self.value(a, first, later | assigned(second))
        y = yield from self.value(a, second, later)
        return x, y

    def is_pure(self, a, e, later):
        """No call, intrinsic, assignment or comma, and all reads are of registers that no later operand assigns."""
        if e[0] in ("assign", "change", "after", "call", "intrinsic", "seq"):
            return False
        if e[0] == "load":
            return e[1][0] == "local" and e[1][1] in a.registers and e[1][1] not in later
        if e[0] in ("device", "static", "local"):
            return True
        return all(self.is_pure(a, c, later) for c in children(e))

    def drop(self, value):
        """A bad value that is dropped traps in the next step."""
        if value is BAD:
            yield
            raise Trap

    def value_const(self, a, e, later):
        return e[1]
        yield

    def value_null(self, a, e, later):
        return ("null",)
        yield

    def value_func(self, a, e, later):
        return ("func", e[1])
        yield

    def value_load(self, a, e, later):
        place = yield from self.place(a, e[1], later)
        yield
        if isinstance(place, tuple):
            return a.is_given(self.load_device(place[1]))
        return a.is_given(self.load(place, self.is_pure(a, e, later)))

    def value_addr(self, a, e, later):
        if e[1][0] == "deref":
            return (yield from self.value(a, e[1][1], later))
        place = yield from self.place(a, e[1], later)
        if place is BAD:
            return BAD
        return ("at", place.root, place.path, place.index, place.count)

    def value_unary(self, a, e, later):
        return self.p.apply_one(e[1], (yield from self.value(a, e[3], later)), e[2])

    def value_binary(self, a, e, later):
        x, y = yield from self.two(a, e[3], e[4], later)
        return self.p.apply(e[1], x, y, e[2])

    def value_conv(self, a, e, later):
        x = yield from self.value(a, e[2], later)
        return BAD if x is BAD else self.p.convert(x, e[1])

    def value_qualify(self, a, e, later):
        return (yield from self.value(a, e[2], later))

    def moved(self, x, by):
        if BAD in (x, by) or x[0] != "at" or not 0 <= x[3] + by <= x[4]:
            return BAD
        return ("at", x[1], x[2], x[3] + by, x[4])

    def value_move(self, a, e, later):
        x, y = yield from self.two(a, e[1], e[2], later)
        return self.moved(x, y)

    def value_back(self, a, e, later):
        x, y = yield from self.two(a, e[1], e[2], later)
        return self.moved(x, y if y is BAD else -y)

    def in_one_array(self, x, y):
        return BAD not in (x, y) and x[0] == y[0] == "at" and x[1:3] == y[1:3] and x[4] == y[4]

    def difference(self, x, y):
        t = "int" if self.p.int_bytes >= self.pointer_bytes() else "long"
        return self.p.exact(x[3] - y[3], t)

    def pointer_bytes(self):
        return self.p.int_bytes

    def value_gap(self, a, e, later):
        x, y = yield from self.two(a, e[1], e[2], later)
        return self.difference(x, y) if self.in_one_array(x, y) else BAD

    def value_cmp(self, a, e, later):
        x, y = yield from self.two(a, e[2], e[3], later)
        if BAD in (x, y):
            return BAD
        if e[1] in ("eq", "ne"):
            return int((x[:4] == y[:4]) == (e[1] == "eq"))
        if not self.in_one_array(x, y):
            return BAD
        return self.p.apply(e[1], x[3], y[3], "llong")

    # a branch: one step once the first operand is known

    def is_true(self, x):
        return x != 0 if not isinstance(x, tuple) else x[0] != "null"

    def branch(self, a, e, first, rest, later):
        """Whether the first operand is true; bad where the whole is pure and that is bad."""
        x = yield from self.value(a, first, later.union(*(assigned(r) for r in rest)))
        yield
        if x is not BAD:
            return self.is_true(x)
        if self.is_pure(a, e, later):
            return BAD
        raise Trap

    def result(self, a, e, later, x):
        if x is BAD and not self.is_pure(a, e, later):
            yield from self.drop(x)
        return x

    def value_both(self, a, e, later):
        taken = yield from self.branch(a, e, e[1], [e[2]], later)
        if taken is BAD or not taken:
            return BAD if taken is BAD else 0
        x = yield from self.value(a, e[2], later)
        return (yield from self.result(a, e, later, BAD if x is BAD else int(self.is_true(x))))

    def value_either(self, a, e, later):
        taken = yield from self.branch(a, e, e[1], [e[2]], later)
        if taken is BAD or taken:
            return BAD if taken is BAD else 1
        x = yield from self.value(a, e[2], later)
        return (yield from self.result(a, e, later, BAD if x is BAD else int(self.is_true(x))))

    def value_choose(self, a, e, later):
        taken = yield from self.branch(a, e, e[1], [e[2], e[3]], later)
        if taken is BAD:
            return BAD
        other = assigned(e[3]) if taken else set()
        x = yield from self.value(a, e[2] if taken else e[3], later | other)
        return (yield from self.result(a, e, later, x))

    def value_assign(self, a, e, later):
        place = yield from self.place(a, e[1], later | assigned(e[2]))
        x = yield from self.value(a, e[2], later)
        yield
        self.write(place, x)
        return x

    def write(self, place, x):
        if isinstance(place, tuple):
            self.store_device(place[1], x)
        else:
            self.store(place, x)

    def read_again(self, a, e, place, later):
        """The read of what the same operator writes."""
        yield
        if isinstance(place, tuple):
            return a.is_given(self.load_device(place[1]))
        return a.is_given(self.load(place, self.is_pure(a, ("load", e[1]), later)))

    def place_int(self, a, e):
        if e[0] == "device":
            return self.p.devices[e[1]][1]
        shape = self.type_of_place(a, e)["shape"]
        return shape[1] if shape[0] == "int" else None

    def changed(self, a, e, old, op, t, by):
        own = self.place_int(a, e)
        if own is None:
            return self.moved(old, by if op == "add" or by is BAD else -by)
        x = BAD if old is BAD else self.p.apply(op, self.p.convert(old, t), by, t)
        return BAD if x is BAD else self.p.convert(x, own)

    def value_change(self, a, e, later):
        place = yield from self.place(a, e[1], later | assigned(e[4]))
        by = yield from self.value(a, e[4], later)
        old = yield from self.read_again(a, e, place, later)
        x = self.changed(a, e[1], old, e[2], e[3], by)
        yield
        self.write(place, x)
        return x

    def value_after(self, a, e, later):
        place = yield from self.place(a, e[1], later)
        old = yield from self.read_again(a, e, place, later)
        own = self.place_int(a, e[1])
        promoted = own if own is None or self.p.bits(own) >= self.p.bits("int") else "int"
        x = self.changed(a, e[1], old, "sub" if e[2] else "add", promoted, 1)
        yield
        self.write(place, x)
        return old

    def value_seq(self, a, e, later):
        x = yield from self.value(a, e[1], later | assigned(e[2]))
        yield from self.drop(x)
        return (yield from self.value(a, e[2], later))

    def value_intrinsic(self, a, e, later):
        x = (yield from self.value(a, e[2], later)) if e[2] else None
        yield
        if x is BAD:
            raise Trap
        was, self.flag = self.flag, {"off": False, "on": True, "save": False, "restore": x is not None and x != 0}[e[1]]
        return a.is_given(int(was)) if e[1] == "save" else None

    def value_call(self, a, e, later):
        operands = [e[1], *e[2]]
        values = []
        for i, x in enumerate(operands):
            values.append((yield from self.value(a, x, later.union(*(assigned(y) for y in operands[i + 1:])))))
        yield
        if BAD in values or values[0][0] != "func":
            raise Trap
        x = yield from self.work(values[0][1], values[1:])
        return x if is_void(self.p.funcs[values[0][1]]) else a.is_given(x)

    # ---- statements

    def choice(self, a, e):
        """A branch of a statement."""
        x = yield from self.value(a, e, frozenset())
        yield
        if x is BAD:
            raise Trap
        return x

    def full(self, a, e):
        """A full expression whose value is dropped; whether it took a step."""
        before = self.steps_of(a)
        x = yield from self.value(a, e, frozenset())
        took = self.steps_of(a) != before
        if x is BAD:
            yield
            raise Trap
        return took

    def steps_of(self, a):
        return self.steps

    def stmts(self, a, list, first=0):
        """The statements of a list, of which the first has this position."""
        a.path.append(first)
        try:
            for position, s in enumerate(list, first):
                a.path[-1] = position
                a.works(True)
                yield from getattr(self, "stmt_" + s[0])(a, *s[1:])
        finally:
            a.path.pop()

    def stmt_do(self, a, e):
        if not (yield from self.full(a, e)):
            yield

    def stmt_if(self, a, e, these, those):
        taken = self.is_true((yield from self.choice(a, e)))
        if taken:
            yield from self.stmts(a, these)
        else:
            yield from self.stmts(a, those, len(these))

    def turn(self, a, body):
        """One turn of a loop's body; whether the loop goes on."""
        try:
            yield from self.stmts(a, body)
        except Continue:
            pass
        except Break:
            return False
        return True

    def stmt_while(self, a, e, body):
        while self.is_true((yield from self.choice(a, e))):
            if not (yield from self.turn(a, body)):
                return
            a.works(True)

    def stmt_dowhile(self, a, e, body):
        while True:
            if not (yield from self.turn(a, body)):
                return
            a.works(body == [])
            if not self.is_true((yield from self.choice(a, e))):
                return

    def stmt_for(self, a, first, test, again, body):
        if first:
            yield from self.full(a, first)
        while True:
            a.works(True)
            if test:
                x = yield from self.choice(a, test)
            else:
                yield
                x = 1
            if not self.is_true(x) or not (yield from self.turn(a, body)):
                return
            if again:
                a.works(False)
                yield from self.full(a, again)

    def stmt_switch(self, a, e, cases):
        x = yield from self.choice(a, e)
        chosen = [i for i, (labels, _) in enumerate(cases) if str(x) in labels] or [i for i, (labels, _) in enumerate(cases) if "default" in labels]
        if not chosen:
            return
        first = sum(len(body) for _, body in cases[:chosen[0]])
        try:
            yield from self.stmts(a, [s for _, body in cases[chosen[0]:] for s in body], first)
        except Break:
            pass

    def stmt_break(self, a):
        yield
        raise Break

    def stmt_continue(self, a):
        yield
        raise Continue

    def stmt_return(self, a, e):
        x = (yield from self.value(a, e, frozenset())) if e else None
        yield
        if x is BAD:
            raise Trap
        raise Broken(x)

    def stmt_empty(self, a):
        yield

    def stmt_block(self, a, body):
        if not body:
            yield
        yield from self.stmts(a, body)

    # ---- functions

    def work(self, func, args):
        """An activation from its first step to its return, which it takes."""
        a = Activation(self, self.opened, func, args)
        self.opened += 1
        self.open[a.number] = a
        self.stack.append(a)
        f = self.p.funcs[func]
        try:
            yield from self.stmts(a, f["body"])
            a.path.append(len(f["body"]))
            a.works(True)
            yield
            if is_void(f):
                x = None
            elif func == self.p.main:
                x = 0
            else:
                raise Trap
        except Broken as returned:
            x = returned.value
        del self.open[a.number]
        self.stack.pop()
        return x

    def work_whole(self, func, handler):
        x = yield from self.work(func, [])
        if handler is None:
            raise Exit(x or 0)
        self.flag = True

    # ---- turns

    def level(self, func):
        return self.p.levels.get(self.p.funcs[func]["name"], 0)

    def may_enter(self, handler):
        running = max([self.level(h) for _, h in self.running if h is not None], default=0)
        return self.flag and (self.level(handler) == 0 or self.level(handler) > running)

    def take(self, handler):
        if handler is not None and self.may_enter(handler):
            self.flag = False
            self.trace.append(f"enter,{self.p.funcs[handler]['name']},")
            self.begin(handler, handler)
            return
        self.steps += 1
        self.stack[-1].begins = False
        try:
            next(self.running[-1][0])
        except StopIteration:
            self.running.pop()
        except Trap:
            self.end = "trap,"
        except Starved:
            self.end = "starved,"
        except Exit as e:
            self.end = f"exit,{e.args[0]}"

    # ---- what a state is written as

    def state(self):
        if self.end is not None:
            return f"end,{self.end}"
        a = self.stack[-1]
        path = ".".join(map(str, a.path))
        operands = f"({' '.join(map(show, a.operands))})" if a.operands else ""
        return f"{self.p.funcs[a.func]['name']}:{path}{operands}{'*' if a.begins else ''}"


def show(value):
    """A value as the first values of a script are written, an address in a local with its activation in front."""
    if value is BAD:
        return "bad"
    if not isinstance(value, tuple):
        return str(value)
    if value[0] != "at":
        return ":".join(map(str, value))
    _, root, path, index, count = value
    of = root[1] if root[0] == "static" else f"{root[1]}.{root[3]}"
    return f"at:{of}:{index}:{count}" + (":" + ",".join(f"{kind}{n}" for kind, n in path) if path else "")


def is_void(f):
    return f["result"]["shape"][0] == "void"


def is_volatile(t):
    while t["shape"][0] == "array":
        if t["volatile"]:
            return True
        t = t["shape"][1]
    return t["volatile"]


def with_qualifiers(t, of):
    return dict(t, const=t["const"] or of["const"], volatile=t["volatile"] or of["volatile"])


def arrivals_of(p, rows):
    """The handler that arrives at each turn, by its number."""
    numbers = {f["name"]: number for number, f in enumerate(p.funcs)}
    return {int(turn): numbers[name] for turn, name in (row.split(",") for row in rows.split())}


def outcome(setting, case):
    words, inputs, arrivals, most = [part.strip() for part in (case.split("|") + ["", "", ""])[:4]]
    p = Program(words)
    run = Run(p, [int(n) for n in inputs.split()])
    due = arrivals_of(p, arrivals)
    turns, states = 0, [run.state()]
    while run.end is None and turns < int(most or 1000):
        turns += 1
        run.take(due.get(turns))
        states.append(run.state())
    if setting == "states":
        return " ".join(states)
    count = "" if setting == "trace" else str(turns)
    return " ".join(run.trace + [f"end,{run.end or 'going,'}", count])


def settings_of(lines):
    """Each line of a script with the settings that stand before it in its section."""
    setting = ""
    for line in lines:
        line = line.rstrip("\n")
        if line.startswith("== "):
            setting = ""
        elif line.startswith("$ "):
            setting = f"{setting} {line[2:]}".strip()
        yield setting, line


def main():
    folder = os.path.join(os.path.dirname(os.path.dirname(os.path.dirname(os.path.abspath(__file__)))), "crates", "cases_meaning")
    with open(os.path.join(folder, "stdout")) as file:
        stand = {(setting, line.partition(" => ")[0]): line for setting, line in settings_of(file)}
    count = judged = 0
    for setting, line in settings_of(sys.stdin):
        if line and line[:2] not in ("==", "$ "):
            line = f"{line} => {outcome(setting, line)}" if setting in RUNS else stand[setting, line]
            count += 1
            judged += setting in RUNS
        print(line)
    print(f"cases: {count}")
    print(judged, file=sys.stderr)


if __name__ == "__main__":
    main()
