"""Whether the states of a run lie in facts: for judged.py.

A program in normal form is run by the means of meaning.py, and each of its states is asked, cell by cell and activation by activation,
what facts say of it."""
from meaning import Run
from places import NULL


class Watched(Run):
    """A run that notes what each operand was read from, whose activation a handler's is, and which results are not written yet."""

    def begin(self, func, handler):
        super().begin(func, handler)
        self.stack[-1].handler = handler

    def value_load(self, a, e, later):
        value = yield from super().value_load(a, e, later)
        noted(a).append((e[1], value))
        return value

    def value_call(self, a, e, later):
        value = yield from super().value_call(a, e, later)
        a.given = (a.operands, value)
        return value

    def value_intrinsic(self, a, e, later):
        value = yield from super().value_intrinsic(a, e, later)
        a.given = (a.operands, value)
        return value


def noted(a):
    """What was read for the present full expression, with the values."""
    if getattr(a, "of", None) is not a.operands:
        a.of, a.reads = a.operands, []
    return a.reads


def walk(s, n, flow, path, found):
    """The path of each point of a statement: the positions in the lists around it, those of inner lists counted through."""
    found[path] = n
    bodies = [s[2], s[3]] if s[0] == "if" else [s[2]] if s[0] == "while" else [body for _, body in s[2]] if s[0] == "switch" else []
    before = 0
    for body, numbers in zip(bodies, flow.points[n].lists):
        for i, (inner, m) in enumerate(zip(body, numbers)):
            walk(inner, m, flow, (*path, before + i), found)
        before += len(body)


def by_path(system):
    """The points of each function by their paths."""
    flow, all_found = system.flow, []
    for func, f in enumerate(system.p.funcs):
        found, n = {}, flow.first[func]
        for i, s in enumerate(f["body"]):
            walk(s, n, flow, (i,), found)
            n = max(found.values()) + 1
        found[len(f["body"]),] = flow.exit[func]
        all_found.append(found)
    return all_found


class Lies:
    def __init__(self, system, facts, run):
        self.s, self.facts, self.run = system, facts, run
        self.points = by_path(system)

    # ---- values in sets

    def has(self, s, value):
        if not isinstance(value, tuple):
            return self.s.values[0].has(s, value)
        if value[0] == "null":
            return s.has(NULL)
        if value[0] == "func":
            return s.has(("f", value[1]))
        return s.has(("at", root_of(value[1]), *value[2:]))

    # ---- cells that are no registers

    def in_key(self, root, path, value):
        key = self.s.values[0].key_of(("at", root, path, 0, 1))
        return value is None or self.has(self.facts.whole[self.s.key_number[key]], value)

    def cells_lie(self):
        return all(self.in_key(("o", i), path, v) for (i, path), v in self.run.statics.items()) and all(
            self.in_key(("a", 0, a.func, i), path, v) for a in self.run.stack for (i, path), v in a.cells.items() if i not in a.registers)

    # ---- activations

    def reach_lies(self, position):
        a, f = self.run.stack[position], self.facts
        levels = [self.s.level(b.handler) for b in self.run.stack[:position + 1] if getattr(b, "handler", None) is not None]
        if not (f.by_handler if levels else f.by_main)[a.func]:
            return False
        return bool(f.levels[a.func] >> max(levels, default=0) & 1) and (not levels or bool(f.from_[a.func] >> levels[-1] & 1))

    def point_of(self, a, waits):
        """The point at which an activation counts as standing, and the register's position and the result that is not written yet."""
        n = self.points[a.func][tuple(a.path)]
        given = getattr(a, "given", (None, None))
        if waits or given[0] is not a.operands:
            return n, None
        s = self.s.flow.points[n].statement
        return self.s.flow.points[n].next[0], (self.s.position(n, s[1][1]), given[1])

    def activation_lies(self, position):
        stack = self.run.stack
        a, above = stack[position], stack[position + 1:][:1]
        is_interrupted = bool(above) and getattr(above[0], "handler", None) is not None
        n, result = self.point_of(a, bool(above) and not is_interrupted)
        here = self.facts.at[n]
        if here is None:
            return False
        held = {r: a.cells[i, ()] for r, i in enumerate(self.s.registers[a.func])}
        if result is not None:
            held[result[0]] = result[1]
        if not all(v is None or self.has(here.locals[r], v) for r, v in held.items()):
            return False
        reads = [] if result is not None else noted(a)
        if not all(self.operand_lies(n, place, v) for place, v in reads):
            return False
        return bool(above) and not is_interrupted or self.memory_lies(here, held, is_interrupted or self.run.flag)

    def operand_lies(self, n, place, value):
        if not isinstance(value, (int, tuple)):
            return True
        s = self.facts.at[n].locals[self.s.position(n, place)] if self.s.is_register(n, place) else self.s.read(self.facts, n, place)
        return self.has(s, value)

    def memory_lies(self, here, held, flag):
        cells = [self.run.statics[i, ()] for i in self.s.tracked]
        return (here.on if flag else here.off) and all(self.has(s, v) for s, v in zip(here.cells, cells)) and all(
            held[r] == cells[j] for r, j in here.same)

    def all_lies(self):
        return self.cells_lie() and all(self.reach_lies(i) and self.activation_lies(i) for i in range(len(self.run.stack)))


def root_of(root):
    return ("o", root[1]) if root[0] == "static" else ("a", 0, *root[2:])


def turns_held(system, facts, inputs, arrivals, most):
    """Whether all states lie in the facts, and the last turn that was made: that behind which one does not, or the last of all."""
    run = Watched(system.p, inputs)
    lies, turn = Lies(system, facts, run), 0
    fits = lies.all_lies()
    while fits and turn < most and run.end is None:
        turn += 1
        run.take(arrivals.get(turn))
        fits = run.end is not None or lies.all_lies()
    return fits, turn
