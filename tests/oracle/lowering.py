"""Programs in normal form, by docs/LOWERING.md and C99: for lowered.py.

A program is one as meaning.py runs it. A function's body is worked from left to right, and statements go out as they are made.
New temporaries are objects here, and get their numbers and names at the end, in the order of their first writing in the text."""
from c_types import RANKS, UNSIGNED
from meaning import addressed, assigned, children, expressions
from programs import alike

INTRINSICS = ["irq_off", "irq_on", "irq_save", "irq_restore"]
TO_UNSIGNED = {"int": "uint", "long": "ulong", "llong": "ullong"}


def plain(*shape):
    return {"const": False, "volatile": False, "shape": shape}


def unqualified(t):
    return plain(*t["shape"])


def qualified(t, const, volatile):
    """An array's qualifiers stand at its elements (6.7.3, 8)."""
    if t["shape"][0] == "array":
        return dict(t, shape=("array", qualified(t["shape"][1], const, volatile), t["shape"][2]))
    return dict(t, const=t["const"] or const, volatile=t["volatile"] or volatile)


def qualifiers(t):
    while t["shape"][0] == "array":
        t = t["shape"][1]
    return t["const"], t["volatile"]


def same(t, u):
    """One type: qualifiers of pointers that stand in a pointer's target count, outermost ones do not."""
    return t["shape"] == u["shape"]


class Temporary:
    def __init__(self, ctype):
        self.ctype = ctype

    def place(self):
        return ("temporary", self)

    def read(self):
        return ("load", self.place())


class Body:
    """What is made of the body of one function."""

    def __init__(self, program, function):
        self.p, self.f, self.out = program, function, []
        taken = set().union(*(addressed(e) for e in expressions(function["body"])))
        self.registers = {i for i, (_, t) in enumerate(function["locals"])
                          if t["shape"][0] in ("int", "ptr") and not t["volatile"] and i not in taken}

    # ---- types (6.3.1.1, 6.3.1.8, 6.3.2.1)

    def promoted(self, t):
        return t if RANKS[t] >= RANKS["int"] else "int" if self.p.limits(t)[1] <= self.p.limits("int")[1] else "uint"

    def usual(self, a, b):
        a, b = self.promoted(a), self.promoted(b)
        if a == b:
            return a
        if (a in UNSIGNED) == (b in UNSIGNED):
            return max(a, b, key=RANKS.get)
        u, s = (a, b) if a in UNSIGNED else (b, a)
        if RANKS[u] >= RANKS[s]:
            return u
        return s if self.p.limits(s)[1] >= self.p.limits(u)[1] else TO_UNSIGNED[s]

    def place_type(self, p):
        kind = p[0]
        if kind == "temporary":
            return p[1].ctype
        if kind == "local":
            return self.f["locals"][p[1]][1]
        if kind == "static":
            return self.p.objects[p[1]][1]
        if kind == "device":
            return dict(plain("int", self.p.devices[p[1]][1]), volatile=True)
        if kind == "deref":
            return self.type(p[1])["shape"][1]
        t = self.place_type(p[1])
        if kind == "element":
            return t["shape"][1]
        return qualified(self.p.structures[t["shape"][1]][1][p[2]][1], t["const"], t["volatile"])

    def value_type(self, p):
        return unqualified(self.place_type(p))

    def type(self, e):
        """The type of a value."""
        kind = e[0]
        if kind == "const":
            return plain("int", e[2])
        if kind in ("null", "qualify"):
            return unqualified(e[1])
        if kind == "func":
            f = self.p.funcs[e[1]]
            return plain("ptr", plain("func", f["result"], f["params"]))
        if kind in ("load", "assign", "change", "after"):
            return self.value_type(e[1])
        if kind == "addr":
            return plain("ptr", self.place_type(e[1]))
        if kind == "unary":
            return plain("int", "int" if e[1] == "lnot" else e[2])
        if kind == "binary":
            return plain("int", "int" if e[1] in ("lt", "le", "gt", "ge", "eq", "ne") else e[2])
        if kind == "conv":
            return plain("int", e[1])
        if kind in ("move", "back"):
            return self.type(e[1])
        if kind == "gap":
            return plain("int", self.p.distance)
        if kind in ("cmp", "both", "either"):
            return plain("int", "int")
        if kind == "choose":
            return self.common(self.type(e[2]), self.type(e[3]))
        if kind == "call":
            return unqualified(self.type(e[1])["shape"][1]["shape"][1])
        if kind == "intrinsic":
            return plain("int", "uchar") if e[1] == "save" else plain("void")
        return self.type(e[2])

    def common(self, t, u):
        """Of the arms of a `?:`, which are converted where it has a value (6.5.15)."""
        a, b = t["shape"], u["shape"]
        if a[0] == b[0] == "int" and a == b and self.promoted(a[1]) == a[1]:
            return t
        if a[0] == b[0] == "ptr" and alike(a[1], b[1]) and a[1]["shape"][0] != "void":
            return plain("ptr", qualified(a[1], *qualifiers(b[1])))
        return plain("void")

    # ---- what stays as it is

    def assigned(self, e):
        return {i for i in assigned(e) if i in self.registers}

    def is_register(self, p):
        return p[0] == "temporary" or p[0] == "local" and p[1] in self.registers

    def is_pure(self, e, later):
        if e[0] == "load":
            return self.is_register(e[1]) and e[1][1] not in later
        if e[0] in ("call", "intrinsic", "assign", "change", "after", "seq"):
            return False
        if e[0] == "addr":
            return self.is_pure_place(e[1], later)
        return all(self.is_pure(c, later) for c in children(e))

    def is_pure_place(self, p, later):
        if p[0] == "element":
            return self.is_pure_place(p[1], later) and self.is_pure(p[2], later)
        if p[0] == "member":
            return self.is_pure_place(p[1], later)
        return p[0] != "deref" or self.is_pure(p[1], later)

    # ---- constants (6.6)

    def constant(self, e):
        return e[1] if e[0] == "const" else None

    def converted(self, t, e):
        n = self.constant(e)
        if n is None:
            return ("conv", t, e)
        return ("const", self.p.convert(n, t), t)

    def unless_same(self, s, t, e):
        return e if s == t else self.converted(t, e)

    def unary(self, op, t, a):
        n = self.constant(a)
        made = None if n is None else self.p.apply_one(op, n, t)
        if not isinstance(made, int):
            return ("unary", op, t, a)
        return ("const", made, "int" if op == "lnot" else t)

    def binary(self, op, t, a, b):
        m, n = self.constant(a), self.constant(b)
        made = None if m is None or n is None else self.p.apply(op, m, n, t)
        if not isinstance(made, int):
            return ("binary", op, t, a, b)
        return ("const", made, "int" if op in ("lt", "le", "gt", "ge", "eq", "ne") else t)

    def truth(self, t, e):
        """`e != 0`."""
        if t["shape"][0] == "ptr":
            return ("cmp", "ne", e, ("null", t))
        wide = self.promoted(t["shape"][1])
        return self.binary("ne", wide, self.unless_same(t["shape"][1], wide, e), ("const", 0, wide))

    # ---- statements that are made

    def put(self, place, e):
        self.out.append(("do", ("assign", place, e)))

    def to_temporary(self, t, e):
        made = Temporary(t)
        self.put(made.place(), e)
        return made.read()

    def inside(self, work):
        """The statements that are made meanwhile."""
        kept, self.out = self.out, []
        work()
        made, self.out = self.out, kept
        return made

    def fork(self, c, these, those):
        a = self.inside(these)
        b = self.inside(those)
        self.out.append(("if", c, a, b))

    # ---- operands

    def place(self, p, later):
        if p[0] == "element":
            base = self.place(p[1], later | self.assigned(p[2]))
            return ("element", base, self.operand(p[2], later))
        if p[0] == "member":
            return ("member", self.place(p[1], later), p[2])
        return ("deref", self.operand(p[1], later)) if p[0] == "deref" else p

    def read(self, source, p, later):
        """Of a place with pure operands."""
        if self.is_register(p) and p[1] not in later:
            return ("load", p)
        return self.to_temporary(self.value_type(source), ("load", p))

    def two(self, a, b, later):
        x = self.operand(a, later | self.assigned(b))
        return x, self.operand(b, later)

    def operand(self, e, later):
        """A pure expression with the value of e, where later operands assign these registers."""
        kind = e[0]
        if kind in ("const", "null", "func"):
            return e
        if kind == "load":
            return self.read(e[1], self.place(e[1], later), later)
        if kind == "addr":
            return (kind, self.place(e[1], later))
        if kind == "unary":
            return self.unary(e[1], e[2], self.operand(e[3], later))
        if kind == "binary":
            return self.binary(e[1], e[2], *self.two(e[3], e[4], later))
        if kind == "conv":
            return self.converted(e[1], self.operand(e[2], later))
        if kind == "qualify":
            return (kind, e[1], self.operand(e[2], later))
        if kind in ("move", "back", "gap"):
            return (kind, *self.two(e[1], e[2], later))
        if kind == "cmp":
            return (kind, e[1], *self.two(e[2], e[3], later))
        if kind in ("both", "either", "choose"):
            return e if self.is_pure(e, later) else self.branch(e, later)
        if kind == "assign":
            return self.assigned_value(e, later)
        if kind == "change":
            p, v = self.target(e[1], e[4], later)
            made = self.to_temporary(self.value_type(e[1]), self.changed(e, self.read(e[1], p, later), v))
            self.put(p, made)
            return made
        if kind == "after":
            p = self.place(e[1], later)
            old = self.to_temporary(self.value_type(e[1]), ("load", p))
            self.put(p, self.stepped(e, old))
            return old
        if kind in ("call", "intrinsic"):
            return self.to_temporary(self.type(e), self.right(e, later))
        self.effect(e[1], later | self.assigned(e[2]))
        return self.operand(e[2], later)

    def branch(self, e, later):
        if e[0] == "choose":
            c, a, b = e[1:]
            made = Temporary(self.type(e))
            tested = self.operand(c, later | self.assigned(a) | self.assigned(b))
            self.fork(tested, lambda: self.whole(made.place(), made.ctype, a, later | self.assigned(b)),
                      lambda: self.whole(made.place(), made.ctype, b, later))
            return made.read()
        made, t = Temporary(plain("int", "int")), self.type(e[2])
        tested = self.operand(e[1], later | self.assigned(e[2]))
        further = lambda: self.put(made.place(), self.truth(t, self.operand(e[2], later)))
        known = lambda: self.put(made.place(), ("const", int(e[0] == "either"), "int"))
        self.fork(tested, *((further, known) if e[0] == "both" else (known, further)))
        return made.read()

    def assigned_value(self, e, later):
        p = self.place(e[1], later | self.assigned(e[2]))
        made = Temporary(self.value_type(e[1]))
        self.whole(made.place(), made.ctype, e[2], later)
        self.put(p, made.read())
        return made.read()

    def target(self, p, e, later):
        q = self.place(p, later | self.assigned(e))
        return q, self.operand(e, later)

    def new_value(self, t, op, word, old, v):
        if t["shape"][0] == "ptr":
            return ("back" if op == "sub" else "move", old, v)
        s = t["shape"][1]
        return self.unless_same(word, s, self.binary(op, word, self.unless_same(s, word, old), v))

    def changed(self, e, old, v):
        return self.new_value(self.value_type(e[1]), e[2], e[3], old, v)

    def stepped(self, e, old):
        t = self.value_type(e[1])
        word = self.usual(t["shape"][1], "int") if t["shape"][0] == "int" else "int"
        return self.new_value(t, "sub" if e[2] else "add", word, old, ("const", 1, word))

    def right(self, e, later):
        """A call or an intrinsic over pure operands."""
        if e[0] == "intrinsic":
            return (*e[:2], None if e[2] is None else self.operand(e[2], later))
        behind = [set().union(*(self.assigned(a) for a in e[2][i:])) for i in range(len(e[2]) + 1)]
        callee = self.operand(e[1], later | behind[0])
        args = [self.operand(a, later | behind[i + 1]) for i, a in enumerate(e[2])]
        if callee[0] != "func" and not (callee[0] == "load" and self.is_register(callee[1])):
            callee = self.to_temporary(self.type(e[1]), callee)
        return ("call", callee, args)

    # ---- whole right sides, and expressions whose value nobody uses

    def whole(self, target, t, e, later):
        """The value of e goes to a register of this type."""
        if e[0] == "seq":
            self.effect(e[1], later | self.assigned(e[2]))
            self.whole(target, t, e[2], later)
        elif e[0] == "load" and not self.is_register(e[1]) or e[0] in ("call", "intrinsic"):
            made = ("load", self.place(e[1], later)) if e[0] == "load" else self.right(e, later)
            self.put(target, made if same(self.type(e), t) else self.to_temporary(self.type(e), made))
        else:
            self.put(target, self.operand(e, later))

    def effect(self, e, later):
        kind = e[0]
        if kind == "assign" and self.is_register(e[1]):
            self.whole(e[1], self.value_type(e[1]), e[2], later)
        elif kind == "assign":
            self.put(*self.target(e[1], e[2], later))
        elif kind == "change":
            p, v = self.target(e[1], e[4], later)
            self.put(p, self.changed(e, self.read(e[1], p, later), v))
        elif kind == "after":
            p = self.place(e[1], later)
            self.put(p, self.stepped(e, self.read(e[1], p, later)))
        elif kind in ("call", "intrinsic"):
            self.out.append(("do", self.right(e, later)))
        elif kind == "seq":
            self.effect(e[1], later | self.assigned(e[2]))
            self.effect(e[2], later)
        elif kind == "choose" and self.type(e)["shape"][0] == "void":
            c, a, b = e[1:]
            tested = self.operand(c, later | self.assigned(a) | self.assigned(b))
            self.fork(tested, lambda: self.effect(a, later | self.assigned(b)), lambda: self.effect(b, later))
        elif kind in ("both", "either", "choose") and not self.is_pure(e, later):
            self.operand(e, later)
        elif kind == "load":
            made = Temporary(self.type(e))
            self.whole(made.place(), made.ctype, e, later)
        else:
            v = self.operand(e, later)
            if v[0] not in ("const", "null"):
                self.to_temporary(self.type(e), v)

    # ---- statements (6.8)

    def list(self, statements, step):
        for s in statements:
            self.statement(s, step)

    def condition(self, e, these, later=frozenset()):
        """An `if` without an else."""
        if e[0] == "both" and not self.is_pure(e, later):
            self.condition(e[1], lambda: self.condition(e[2], these, later), later | self.assigned(e[2]))
        else:
            self.fork(self.operand(e, later), these, lambda: None)

    def leave(self):
        self.out.append(("break",))

    def guard(self, e, work):
        """Of a loop with such a test, where there is one."""
        if e is None or e[0] == "const" and e[1] != 0:
            work()
        else:
            self.fork(self.operand(e, set()), work, self.leave)

    def loop(self, work):
        self.out.append(("while", ("const", 1, "int"), self.inside(work)))

    def do_loop(self, e, body):
        if not (continues(body) and not (e[0] == "const" and e[1] != 0)):
            return self.loop(lambda: (self.list(body, None), self.guard(e, lambda: None)))
        flag = Temporary(plain("int", "uchar"))
        self.put(flag.place(), ("const", 1, "uchar"))
        clear = lambda: self.put(flag.place(), ("const", 0, "uchar"))
        return self.loop(lambda: (self.fork(flag.read(), clear, lambda: self.guard(e, lambda: None)), self.list(body, None)))

    def statement(self, s, step):
        kind = s[0]
        if kind == "do":
            self.effect(s[1], set())
        elif kind == "block":
            self.list(s[1], step)
        elif kind == "if":
            these, those = (lambda: self.list(s[2], step)), (lambda: self.list(s[3], step))
            if all(is_empty(x) for x in s[3]):
                self.condition(s[1], these)
            else:
                self.fork(self.operand(s[1], set()), these, those)
        elif kind == "while":
            self.loop(lambda: self.guard(s[1], lambda: self.list(s[2], None)))
        elif kind == "dowhile":
            self.do_loop(s[1], s[2])
        elif kind == "for":
            first, test, again, body = s[1:]
            again = None if again is None else ("do", again)
            if first is not None:
                self.effect(first, set())
            ends = lambda: self.statement(again, None) if again else None
            self.loop(lambda: self.guard(test, lambda: (self.list(body, again), ends())))
        elif kind == "switch":
            e = self.operand(s[1], set())
            self.out.append((kind, e, [(labels, self.inside(lambda: self.list(body, step))) for labels, body in s[2]]))
        elif kind == "continue":
            if step:
                self.statement(step, None)
            self.out.append(s)
        elif kind == "return":
            self.out.append((kind, None if s[1] is None else self.operand(s[1], set())))
        elif kind == "break":
            self.out.append(s)


def is_empty(s):
    return s[0] == "empty" or s[0] == "block" and all(is_empty(x) for x in s[1])


def continues(statements):
    """Whether there is a `continue` of the loop around them."""
    return any(s[0] == "continue" or s[0] == "block" and continues(s[1]) or s[0] == "if" and continues(s[2] + s[3])
               or s[0] == "switch" and any(continues(body) for _, body in s[2]) for s in statements)


# ---- numbers and names

def written(statements):
    """The temporaries, in the order of their first writing."""
    for s in statements:
        if s[0] == "do" and s[1][0] == "assign" and s[1][1][0] == "temporary":
            yield s[1][1][1]
        for part in s[1:]:
            if isinstance(part, list):
                for x in (part if s[0] != "switch" else [x for _, body in part for x in body]):
                    yield from written([x])


def numbered(x, number):
    if isinstance(x, tuple):
        return ("local", number[id(x[1])]) if x[0] == "temporary" else tuple(numbered(y, number) for y in x)
    return [numbered(y, number) for y in x] if isinstance(x, list) else x


def names_of(p):
    named = [n for n, *_ in p.structures] + [n for _, members in p.structures for n, _ in members]
    named += [n for n, *_ in p.devices] + [n for n, *_ in p.objects]
    return set(named + [n for f in p.funcs for n in (f["name"], *(m for m, _ in f["locals"]))] + INTRINSICS)


def lower(p):
    """The functions of the lowered program."""
    names, made = names_of(p), []
    for f in p.funcs:
        body = Body(p, f)
        body.list(f["body"], None)
        number, locals, k = {}, list(f["locals"]), 0
        for t in written(body.out):
            if id(t) not in number:
                k = next(n for n in range(k + 1, k + 2 + len(names)) if f"t__{n}" not in names)
                number[id(t)] = len(locals)
                locals.append((f"t__{k}", t.ctype))
        made.append(dict(f, locals=locals, body=numbered(body.out, number)))
    return made
