"""What the translation units among the cases of crates/cases_read give, for linked.py.

Typed units and broken rules are worked out here from C99 and the documentation alone, by other means than the crates:
types and operands are Python's tuples, scopes its dictionaries, and an expression is typed and folded while its tree is
walked. Where docs/RULES.md and docs/DECISIONS.md leave a choice of rules or of places, theirs is taken."""
import re
from c_operands import Broken
from c_sentences import sentence
from c_types import Target
from c_units import Unit

SETTINGS = {"int": "int_bytes", "pointer": "pointer_bytes", "align": "align"}


class Writer:
    def __init__(self, unit):
        self.unit = unit
        self.structures = {id(s): f"s{i}" for i, s in enumerate(unit.structures)}
        self.names = {id(k): f"g{i}" for i, k in enumerate(unit.names)}

    def type(self, t):
        what, *of = t.shape
        front = "const " * t.const + "volatile " * t.volatile
        if what == "ptr":
            return front + f"(ptr {self.type(of[0])})"
        if what == "array":
            return front + f"(array {self.type(of[0])} {of[1]})"
        if what == "func":
            return front + "(func " + " ".join(self.type(x) for x in (of[0], *of[1])) + ")"
        return front + (self.structures[id(of[0])] if what == "struct" else of[0] if of else "void")

    def listed(self, named):
        return ", ".join(f"{name} {self.type(t)}" for name, t in named)

    def place(self, p):
        if p[0] == "local":
            return f"l{p[1]}"
        if p[0] in ("static", "device"):
            return ("g" if p[0] == "static" else "d") + self.names[id(p[1])][1:]
        if p[0] == "element":
            return f"(elem {self.place(p[1])} {self.expr(p[2])})"
        return f"(. {self.place(p[1])} {p[2]})" if p[0] == "member" else f"(deref {self.expr(p[1])})"

    def expr(self, e):
        what, *of = e
        if what == "const":
            return f"{of[0]}:{of[1]}"
        if what == "load":
            return self.place(of[0])
        if what == "after":
            return f"({self.place(of[0])} {of[1]})"
        return "(" + " ".join(getattr(self, what)(*of)) + ")"

    def null(self, t):
        return "null", self.type(t)

    def fun(self, known):
        return "fun", self.names[id(known)]

    def addr(self, p):
        return "&", self.place(p)

    def un(self, op, word, a):
        return op, word, self.expr(a)

    def bin(self, op, word, a, b):
        return op, word, self.expr(a), self.expr(b)

    def conv(self, word, a):
        return "to", word, self.expr(a)

    def qualify(self, t, a):
        return "qualify", self.type(t), self.expr(a)

    def move(self, a, b, back):
        return "move-" if back else "move", self.expr(a), self.expr(b)

    def gap(self, a, b):
        return "gap", self.expr(a), self.expr(b)

    def cmp(self, op, a, b):
        return "cmp", op, self.expr(a), self.expr(b)

    def both(self, a, b):
        return "&&", self.expr(a), self.expr(b)

    def either(self, a, b):
        return "||", self.expr(a), self.expr(b)

    def choose(self, a, b, c):
        return "?", self.expr(a), self.expr(b), self.expr(c)

    def assign(self, p, a):
        return "=", self.place(p), self.expr(a)

    def change(self, p, op, word, a):
        return op + "=", word, self.place(p), self.expr(a)

    def call(self, f, args):
        return "call", self.expr(f), *(self.expr(a) for a in args)

    def intr(self, name, arg):
        return ("irq_" + name,) if arg is None else ("irq_" + name, self.expr(arg))

    def seq(self, a, b):
        return ",", self.expr(a), self.expr(b)

    def maybe(self, e):
        return "-" if e is None else self.expr(e)

    def list(self, statements):
        return "[" + " ".join(self.statement(s) for s in statements) + "]"

    def statement(self, s):
        what, *of = s
        if what == "do":
            return f"(do {self.expr(of[0])})"
        if what == "block":
            return self.list(of[0])
        if what == "if":
            return f"(if {self.expr(of[0])} {self.list(of[1])} {self.list(of[2])})"
        if what == "while":
            return f"(while {self.expr(of[0])} {self.list(of[1])})"
        if what == "until":
            return f"(until {self.list(of[0])} {self.expr(of[1])})"
        if what == "for":
            return f"(for {' '.join(self.maybe(e) for e in of[:3])} {self.list(of[3])})"
        if what == "switch":
            return f"(switch {self.expr(of[0])}" + "".join(self.case(*c) for c in of[1]) + ")"
        if what == "return" and of[0] is not None:
            return f"(return {self.expr(of[0])})"
        return what

    def case(self, labels, body):
        return " {" + " ".join("default" if n is None else str(n) for n in labels) + ": " + self.list(body) + "}"

    def leaf(self, leaf):
        if isinstance(leaf, int):
            return str(leaf)
        if leaf[0] == "null":
            return "null"
        if leaf[0] == "func":
            return self.names[id(leaf[1])]
        return f"&{self.names[id(leaf[0])]}" + "".join(leaf[1]) + f"@{leaf[2]}/{leaf[3]}"

    def known(self, k):
        count = k.given or int(k.tentative)
        text = f"{self.names[id(k)]} {k.name or '-'} {k.linkage} {self.type(k.type)} first "
        text += f"{'-' if k.first is None else k.first} count {count}"
        if k.what == "device":
            return text + f" device {k.number} {k.type.shape[1]}" + " const" * k.type.const
        if k.what == "object":
            leaves = [self.leaf(leaf) for leaf in k.leaves]
            return text + (f" [{' '.join(leaves)}]" if set(leaves) - {"0", "null"} else "")
        text += f" {k.entry}" if k.entry else ""
        if k.body is None:
            return text
        return text + f" params {k.params} locals ({self.listed(k.locals)}) {self.list(k.body)}"

    def structure(self, s):
        text = f"{self.structures[id(s)]} {s.tag or '-'}" + (f" = {s.alias}" if s.alias else "")
        return text if s.members is None else text + f" {{{self.listed(s.members)}}}"

    def whole(self):
        parts = [self.structure(s) for s in self.unit.structures] + [self.known(k) for k in self.unit.names]
        return "; ".join(parts) or "nothing"


def written(case):
    """The text that a case of a script stands for."""
    return re.sub(r"\\(x[0-9a-f]{2}|.)", lambda m: {"n": "\n", "t": "\t", "e": ""}.get(
        m[1], chr(int(m[1][1:], 16)) if len(m[1]) == 3 else m[1]), case)


def outcome(settings, case):
    """What a unit gives with such rows of a profile."""
    items = sentence(written(case))
    if items is None:
        return "no tree"
    target = Target(**{key: value for key, value in settings.items() if key != "named"})
    try:
        return Writer(Unit(target, settings.get("named")).unit(items)).whole()
    except Broken as broken:
        return f"broken {broken.rule} at {broken.at}"


def setting(settings, row):
    key, given, name = row.split(",")
    if key == "intrinsic":
        return dict(settings, named=dict(settings.get("named", {}), **{given: name}))
    if key == "char":
        return dict(settings, char_signed=given == "signed")
    return dict(settings, **{SETTINGS[key]: int(given)})
