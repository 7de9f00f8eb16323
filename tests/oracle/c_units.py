"""Expressions, declarations and units of C99 (6.5, 6.7, 6.9) with their types, for typed_units.py."""
from c_initialisers import Initialisers
from c_operands import Broken, Operand, const, place, value
from c_scopes import MODES, Known, Scopes
from c_sentences import name_in
from c_statements import Statements
from c_types import INT, MOST_BYTES, VOID, integer, is_integer, is_object, kind, plain, qualified


def without_const(t):
    """That of an automatic object which is no parameter."""
    if kind(t) == "array":
        return t._replace(shape=("array", without_const(t.shape[1]), t.shape[2]))
    return t._replace(const=False)


class Unit(Initialisers, Statements, Scopes):
    # ---- expressions (6.5)
    def expr(self, node):
        return getattr(self, node.kind + "_expr")(node.at, *node.parts)

    def value_of(self, node):
        return self.used(self.expr(node))

    def name_expr(self, at, name):
        found = self.visible(name)
        if found is None and name in self.intrinsics:
            return Operand("intrinsic", self.intrinsics[name], None, at)
        if found is None or found[0] == "typedef":
            raise Broken(1, at)
        if found[0] == "intrinsic":
            return Operand("intrinsic", found[1], None, at)
        if found[0] == "enum":
            return value(const(found[1], "int"), INT)
        if found[0] == "local":
            return place(("local", found[1]), found[2])
        known = found[1]
        if known.what == "func":
            return Operand("function", known, known.type, at)
        return place(("device" if known.what == "device" else "static", known), known.type)

    def number_expr(self, at, number):
        word = self.target.constant(*number)
        return value(const(number[0], word), integer(word))

    def character_expr(self, at, content):
        return value(const(self.target.convert(content[0], "char"), "int"), INT)

    def text_expr(self, at, content):
        if len(content) + 1 > 65535:
            raise Broken(5, at)
        t = plain("array", qualified(integer("char"), True, False), len(content) + 1)
        known = Known(None, "internal", t, "object")
        known.first, known.given = at, 1
        known.leaves = [self.target.convert(c, "char") for c in content + [0]]
        self.names.append(known)
        return place(("static", known), t)

    def paren_expr(self, at, inner):
        return self.expr(inner)

    def comma_expr(self, at, left, right):
        x = self.value_of(left)
        return self.comma(x, self.value_of(right), at)

    def assign_expr(self, at, op, left, right):
        x = self.expr(left)
        if x.kind in ("intrinsic", "address"):
            self.used(x)
        y = self.value_of(right)
        return self.assign(x, y, at) if op == "=" else self.change(op[:-1], x, y, at)

    def choose_expr(self, at, test, then, other):
        x = self.value_of(test)
        y = self.value_of(then)
        return self.choose(x, y, self.value_of(other), at)

    def binary_expr(self, at, op, left, right):
        x = self.value_of(left)
        return self.binary(op, x, self.value_of(right), at)

    def prefix_expr(self, at, op, inner):
        x = self.expr(inner)
        if op == "&":
            return self.address(x, at)
        if op == "*":
            return self.device(x, at) if x.kind == "address" else self.pointed(x, at)
        if op in ("++", "--"):
            return self.step(op[0], x, at)
        return self.unary(op, self.used(x), at)

    def postfix_expr(self, at, op, inner):
        return self.after(op, self.expr(inner), at)

    def device(self, x, at):
        """`*(volatile T *)n`."""
        t = x.type.shape[1]
        if not (is_integer(t) and t.volatile):
            if x.what == 0:
                return self.pointed(x, at)
            raise Broken(40, at)
        if not 0 <= x.what < 1 << 8 * self.target.pointer_bytes:
            raise Broken(40, at)
        for known in self.names:
            if known.what == "device" and known.name is None and (known.number, known.type) == (x.what, t):
                return place(("device", known), t)
        known = Known(None, "internal", t, "device")
        known.number = x.what
        self.names.append(known)
        return place(("device", known), t)

    def sizeof_expr(self, at, inner):
        """What stands in it leaves nothing."""
        before = len(self.names)
        x = self.expr(inner)
        del self.names[before:]
        if x.kind == "intrinsic":
            raise Broken(39, x.at)
        if x.kind == "address":
            self.used(x)
        if self.unfinished is not None and x.kind == "place" and x.what == self.unfinished:
            raise Broken(32, at)
        return self.size(x.type, at)

    def sizeof_type_expr(self, at, named):
        return self.size(self.type_named(named), at)

    def cast_expr(self, at, named, inner):
        t = self.type_named_in_cast(named)
        return self.cast(t, self.value_of(inner), at)

    def type_named_in_cast(self, node):
        """`void *` itself is accepted, since a null constant may stand behind it."""
        specs, declarator = node.parts
        base = self.specified(specs, "type", [])
        is_plain = declarator.kind == "pointer" and not declarator.parts[0] and declarator.parts[1].kind == "nothing"
        if base.type == VOID and is_plain:
            return plain("ptr", VOID)
        return self.declared(declarator, base.type, "type")[1]

    def subscript_expr(self, at, left, index):
        x = self.expr(left)
        if x.kind != "place":
            x = self.used(x)
        return self.subscript(x, self.value_of(index), at)

    def call_expr(self, at, callee, args):
        f = self.expr(callee)
        if f.kind == "address":
            self.used(f)
        given = [self.value_of(arg) for arg in args]
        return self.intrinsic(f.what, given, at) if f.kind == "intrinsic" else self.call(f, given, at)

    def dot_expr(self, at, left, name):
        x = self.expr(left)
        if x.kind in ("intrinsic", "address"):
            self.used(x)
        return self.dot(x, name, at)

    def arrow_expr(self, at, left, name):
        return self.arrow(self.expr(left), name, at)

    # ---- declarations (6.7)
    def declares_function(self, specs, declarator):
        """A function is told by its declarator, or by its typedef."""
        nearest = None
        while declarator.kind not in ("named", "nothing"):
            if declarator.kind != "paren":
                nearest = declarator.kind
            declarator = declarator.parts[1] if declarator.kind == "pointer" else declarator.parts[0]
        if nearest is not None:
            return nearest == "function"
        named = [self.visible(s.parts[0]) for s in specs if s.kind == "named"]
        return any(kind(found[1]) == "func" for found in named)

    def about(self, specs, where, declarator):
        words = [s.parts[0] for s in specs if s.kind == "word"]
        if "typedef" in words:
            return "typedef"
        if self.declares_function(specs, declarator):
            return "function"
        if where == "file" or "static" in words or "extern" in words:
            return "static"
        return "local"

    def declaration(self, specs, inits, where):
        """The assignments that it makes."""
        about = [self.about(specs, where, i.parts[0]) for i in inits]
        is_given = any(i.parts[2] is not None for i in inits)
        base = self.specified(specs, where, about, is_given, "function" in about, len(inits) == 0 and len(specs) == 1)
        found = []
        for init, what in zip(inits, about):
            found += self.one_declared(init, what, base, where)
        return found

    def one_declared(self, init, about, base, where):
        declarator, attributes, given = init.parts
        name, t, _ = self.declared(declarator, base.type, where, given is not None and about != "function")
        marks = base.marks + self.attributes(attributes, [about])
        if base.alone is not None and about == "typedef" and base.alone.alias is None:
            base.alone.alias = name
        if about == "typedef":
            self.declare(name, declarator.at, ("typedef", t))
            self.scopes[-1][name] = ("typedef", self.with_mode(t, marks, declarator.at))
            return []
        if kind(t) == "func":
            self.function_declared(name, declarator.at, base, t, marks)
            if given is not None:
                raise Broken(16, given.at)
            return []
        return self.object_declared(name, declarator.at, base, t, given, where)

    def with_mode(self, t, marks, at):
        modes = [MODES[arg] for word, arg, _ in marks if word == "mode"]
        if not modes:
            return t
        if not is_integer(t) or t.shape[1] not in ("int", "uint"):
            raise Broken(11, at)
        words = ("int", "schar", "short", "long", "llong") if t.shape[1] == "int" else (
            "uint", "uchar", "ushort", "ulong", "ullong")
        for word in words:
            if self.target.bytes(word) == modes[-1]:
                return t._replace(shape=("int", word))

    # functions
    def function_declared(self, name, at, base, t, marks):
        if name in self.intrinsics:
            return self.intrinsic_declared(name, at, base, t, marks)
        self.is_main(name, at, t)
        known = self.declare_linked(name, at, base.storage or "extern", t, "func")
        self.add_entry(known, marks)
        return known

    def is_main(self, name, at, t):
        if name == "main" and (kind(t) != "func" or t.shape[2] or t.shape[1] not in (INT, VOID)):
            raise Broken(39, at)

    def intrinsic_declared(self, name, at, base, t, marks):
        byte, which = integer("uchar"), self.intrinsics[name]
        result, params = (byte if which == "save" else VOID), ((byte,) if which == "restore" else ())
        handler = any(word in ("signal", "interrupt") for word, _, _ in marks)
        if handler or t != plain("func", result, params):
            raise Broken(39, at)
        if self.scopes[-1].get(name, ("intrinsic",))[0] != "intrinsic":
            raise Broken(2, at)
        self.scopes[-1][name] = ("intrinsic", which)

    def add_entry(self, known, marks):
        words = [word for word, _, _ in marks if word in ("signal", "interrupt")]
        if "signal" in words or known.entry == "signal":
            known.entry = "signal"
        elif words:
            known.entry = "interrupt"

    # objects
    def object_declared(self, name, at, base, t, given, where):
        is_open = kind(t) == "array" and t.shape[2] is None
        if is_open:
            t = t._replace(shape=("array", t.shape[1], self.bound_by(t.shape[1], given)))
        if not is_object(t):
            raise Broken(6, at)
        if name in self.intrinsics:
            raise Broken(39, at)
        if where == "file" or base.storage == "extern":
            return self.linked_object(name, at, base, t, given, is_open)
        self.measured(t, at, is_open)
        if base.storage == "static":
            known = Known(name, "local", t, "object")
            self.declare(name, at, ("known", known))
            self.names.append(known)
            self.give_static(known, at, given, is_open)
            return []
        p = ("local", len(self.locals))
        self.declare(name, at, ("local", len(self.locals), t))
        self.locals.append((name, without_const(t)))
        if given is None:
            return []
        self.unfinished = p if is_open else None
        found = self.assignments(without_const(t), p, given)
        self.unfinished = None
        return found

    def measured(self, t, at, is_open):
        if is_open and t.shape[2] > 65535:
            raise Broken(5, at)
        if self.target.size(t) > MOST_BYTES:
            raise Broken(6, at)

    def give_static(self, known, at, given, is_open):
        if given is not None:
            self.unfinished = ("static", known) if is_open else None
            known.leaves = self.leaves_of(known.type, given)
            self.unfinished = None
            known.given += 1
        else:
            known.tentative = True
        if known.first is None:
            known.first = at

    def linked_object(self, name, at, base, t, given, is_open):
        self.is_main(name, at, t)
        self.measured(t, at, is_open)
        before = self.visible(name)
        if is_open and before and before[0] == "known" and before[1].what == "object":
            known = before[1].type
            if kind(known) == "array" and known.shape[1] == t.shape[1]:
                t, is_open = known, False
        is_device = base.storage == "extern" and is_integer(t) and t.volatile and name not in self.defined
        known = self.declare_linked(name, at, base.storage, t, "device" if is_device else "object")
        if base.storage != "extern" or given is not None:
            self.give_static(known, at, given, is_open)
        return []

    # ---- units (6.9)
    def item(self, node):
        if node.kind == "declaration":
            self.declaration(*node.parts, "file")
        else:
            self.definition(*node.parts)

    def definition(self, specs, declarator, attributes, body):
        """6.9.1."""
        base = self.specified(specs, "definition", ["function"])
        name, t, derivations = self.declared(declarator, base.type, "definition")
        marks = base.marks + self.attributes(attributes, ["function"])
        if not derivations or derivations[0][0] != "func":
            raise Broken(6, declarator.at)
        if name in self.intrinsics:
            raise Broken(39, declarator.at)
        known = self.function_declared(name, declarator.at, base, t, marks)
        params, (names, tags) = derivations[0][2]
        self.locals, self.jumps, self.result = list(params), set(), t.shape[1]
        self.enter(names, tags)
        statements = self.lines(body)
        self.leave()
        known.body, known.locals, known.params = statements, self.locals, len(params)
        known.first = declarator.at if known.first is None else known.first
        known.given += 1

    def unit(self, items):
        """Leaves what the unit has in `structures` and `names`."""
        for node in items:
            if node.kind == "declaration":
                words = [s.parts[0] for s in node.parts[0] if s.kind == "word"]
                if "typedef" not in words:
                    self.defined |= {name_in(i.parts[0]) for i in node.parts[1]
                                     if "extern" not in words or i.parts[2] is not None}
        for node in items:
            self.item(node)
        self.structures = [s for s in self.structures if s.members is None] + self.completed
        return self
