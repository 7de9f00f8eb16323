"""The text of OUT, by docs/OUTPUT.md and C99: for lowered.py.

A program is one as traces.py reads it, with the functions of lowering.py."""
from lowering import Body, plain, same

WORDS = {"bool": "_Bool", "char": "char", "schar": "signed char", "uchar": "unsigned char", "short": "short", "ushort": "unsigned short",
         "int": "int", "uint": "unsigned int", "long": "long", "ulong": "unsigned long", "llong": "long long",
         "ullong": "unsigned long long"}
SUFFIXES = {"uint": "u", "long": "l", "ulong": "ul", "llong": "ll", "ullong": "ull"}
NARROW = ("bool", "char", "schar", "uchar", "short", "ushort")
SIGNS = {"add": "+", "sub": "-", "mul": "*", "div": "/", "rem": "%", "and": "&", "or": "|", "xor": "^", "shl": "<<", "shr": ">>",
         "lt": "<", "le": "<=", "gt": ">", "ge": ">=", "eq": "==", "ne": "!=", "neg": "-", "not": "~", "lnot": "!",
         "move": "+", "back": "-", "gap": "-", "both": "&&", "either": "||"}
PROTOTYPES = {"off": "void irq_off(void);", "on": "void irq_on(void);", "save": "unsigned char irq_save(void);",
              "restore": "void irq_restore(unsigned char);"}
TWO = ("binary", "move", "back", "gap", "cmp", "both", "either")


def qualifiers(t):
    return ["const"] * t["const"] + ["volatile"] * t["volatile"]


class Text:
    def __init__(self, program, functions):
        self.p, self.functions, self.used, self.lines = program, functions, set(), []

    # ---- types

    def declared(self, t, name):
        what, *of = t["shape"]
        if what == "ptr":
            words = " ".join(qualifiers(t))
            inner = "*" + words + (" " if words and name else "") + name
            return self.declared(of[0], f"({inner})" if of[0]["shape"][0] in ("array", "func") else inner)
        if what == "array":
            return self.declared(of[0], f"{name}[{of[1]}]")
        if what == "func":
            return self.declared(of[0], f"{name}({self.parameters(of[1])})")
        base = "void" if what == "void" else WORDS[of[0]] if what == "int" else f"struct {self.p.structures[of[0]][0]}"
        return " ".join([*qualifiers(t), base, *([name] if name else [])])

    def parameters(self, params):
        return ", ".join(self.declared(t, "") for t in params) or "void"

    def function_type(self, f):
        return plain("func", f["result"], f["params"])

    # ---- constants

    def number(self, n, t):
        least = self.p.limits(t)[0]
        suffix = SUFFIXES.get(t, "")
        if n >= 0:
            return f"{n}{suffix}"
        return f"(-{-n - 1}{suffix} - 1)" if n == least else f"(-{-n}{suffix})"

    # ---- expressions

    def place(self, p):
        kind = p[0]
        if kind == "local":
            return self.f["locals"][p[1]][0]
        if kind == "static":
            return self.p.objects[p[1]][0]
        if kind == "device":
            return self.device(p[1])
        if kind == "element":
            return f"{self.place(p[1])}[{self.expr(p[2])}]"
        if kind == "member":
            structure = self.p.structures[self.body.place_type(p[1])["shape"][1]]
            return f"{self.place(p[1])}.{structure[1][p[2]][0]}"
        return f"({self.dereferenced(p[1])})"

    def device(self, d):
        name, word, const, number = self.p.ports[d]
        return name or f"(*({'const ' * const}volatile {WORDS[word]} *){number})"

    def dereferenced(self, e):
        if e[0] == "null":
            return f"*({self.declared(self.body.type(e), '')})((void *)0)"
        return "*" + self.expr(e)

    def cast(self, t, e):
        inner = self.expr(e)
        return f"({self.declared(t, '')})" + (inner if self.is_atom(e) or inner.startswith("(") and e[0] not in ("const", "conv", "qualify", "null", "load")
                                            else f"({inner})")

    def is_atom(self, e):
        if e[0] == "const":
            return e[2] not in NARROW
        if e[0] == "load":
            return True
        return e[0] == "func"

    def expr(self, e):
        """As an operand, a condition or an index."""
        kind = e[0]
        if kind == "const":
            text = self.number(e[1], e[2])
            return f"({WORDS[e[2]]}){text}" if e[2] in NARROW else text
        if kind == "null":
            return f"({self.declared(self.body.type(e), '')})0"
        if kind == "func":
            return self.p.funcs[e[1]]["name"]
        if kind == "load":
            return self.place(e[1])
        if kind == "conv":
            return self.cast(plain("int", e[1]), e[2])
        if kind == "qualify":
            return self.cast(self.body.type(e), e[2])
        if kind == "call":
            return self.call(e)
        if kind == "intrinsic":
            self.used.add(e[1])
            return f"irq_{e[1]}({'' if e[2] is None else self.whole(e[2], plain('int', 'uchar'))})"
        return f"({self.operation(e)})"

    def operation(self, e):
        kind = e[0]
        if kind == "addr":
            return "&" + self.place(e[1])
        if kind == "unary":
            return SIGNS[e[1]] + self.expr(e[3])
        if kind == "choose":
            return f"{self.expr(e[1])} ? {self.expr(e[2])} : {self.expr(e[3])}"
        a, b = e[-2:]
        sign = SIGNS[e[1] if kind in ("binary", "cmp") else kind]
        return f"{self.expr(a)} {sign} {self.expr(b)}"

    def whole(self, e, t):
        """As a right side, an argument or a returned value, which such a type takes."""
        kind = e[0]
        if kind == "const":
            return self.number(e[1], e[2])
        if kind == "null" and same(self.body.type(e), t):
            return "0"
        if kind == "load" and e[1][0] == "deref":
            return self.dereferenced(e[1][1])
        return self.operation(e) if kind in ("addr", "unary", "choose", *TWO) else self.expr(e)

    def call(self, e):
        params = self.body.type(e[1])["shape"][1]["shape"][2]
        return f"{self.expr(e[1])}({', '.join(self.whole(a, t) for a, t in zip(e[2], params))})"

    # ---- statements

    def put(self, depth, text):
        self.lines.append("  " * depth + text)

    def list(self, statements, depth):
        for s in statements:
            self.statement(s, depth)

    def statement(self, s, depth):
        kind = s[0]
        if kind == "do" and s[1][0] == "assign":
            self.put(depth, f"{self.place(s[1][1])} = {self.whole(s[1][2], self.body.value_type(s[1][1]))};")
        elif kind == "do":
            self.put(depth, self.expr(s[1]) + ";")
        elif kind == "if":
            self.put(depth, f"if ({self.expr(s[1])}) {{")
            self.list(s[2], depth + 1)
            if s[3]:
                self.put(depth, "} else {")
                self.list(s[3], depth + 1)
            self.put(depth, "}")
        elif kind == "while":
            self.put(depth, f"while ({self.expr(s[1])}) {{")
            self.list(s[2], depth + 1)
            self.put(depth, "}")
        elif kind == "switch":
            self.put(depth, f"switch ({self.expr(s[1])}) {{")
            t = self.body.type(s[1])["shape"][1]
            for labels, body in s[2]:
                for n in labels:
                    self.put(depth, "default:" if n == "default" else f"case {self.number(int(n), self.body.promoted(t))}:")
                self.list(body, depth + 1)
                if not body:
                    self.put(depth + 1, ";")
            self.put(depth, "}")
        elif kind == "return" and s[1] is not None:
            self.put(depth, f"return {self.whole(s[1], self.f['result'])};")
        else:
            self.put(depth, f"{kind};")

    def function(self, f):
        self.f, self.body = f, Body(self.p, f)
        count = len(f["params"])
        parameters = ", ".join(self.declared(t, n) for n, t in f["locals"][:count]) or "void"
        self.put(0, self.declared(f["result"], f"{f['name']}({parameters})") + " {")
        for n, t in f["locals"][count:]:
            self.put(1, self.declared(t, n) + ";")
        self.list(f["body"], 1)
        self.put(0, "}")

    # ---- declarations

    def structures(self):
        told = set()
        for i, (tag, members) in enumerate(self.p.structures):
            for _, t in members:
                for later in self.in_parameters(t):
                    if later >= i and later not in told:
                        told.add(later)
        for i in sorted(told):
            self.put(0, f"struct {self.p.structures[i][0]};")
        for tag, members in self.p.structures:
            if not members:
                self.put(0, f"struct {tag};")
                continue
            self.put(0, f"struct {tag} {{")
            for n, t in members:
                self.put(1, self.declared(t, n) + ";")
            self.put(0, "};")

    def in_parameters(self, t, inside=False):
        what, *of = t["shape"]
        if what == "struct":
            return [of[0]] if inside else []
        if what == "func":
            return self.in_parameters(of[0], inside) + [s for x in of[1] for s in self.in_parameters(x, True)]
        return self.in_parameters(of[0], inside) if what in ("ptr", "array") else []

    def value(self, t, leaves):
        shape = t["shape"]
        if shape[0] == "array":
            return "{" + ", ".join(self.value(shape[1], leaves) for _ in range(shape[2])) + "}"
        if shape[0] == "struct":
            return "{" + ", ".join(self.value(u, leaves) for _, u in self.p.structures[shape[1]][1]) + "}"
        return self.leaf(t, next(leaves))

    def leaf(self, t, word):
        head, *rest = word.split(":")
        if head == "null":
            return "0"
        if head == "func":
            return self.p.funcs[int(rest[0])]["name"]
        if head != "at":
            return self.number(int(word), t["shape"][1])
        name, at, _ = self.p.objects[int(rest[0])]
        for step in rest[3].split(",") if len(rest) > 3 else []:
            if step[0] == "i":
                name, at = f"{name}[{step[1:]}]", at["shape"][1]
            else:
                member = self.p.structures[at["shape"][1]][1][int(step[1:])]
                name, at = f"{name}.{member[0]}", member[1]
        index, count = int(rest[1]), int(rest[2])
        if at["shape"][0] == "array" and same(t["shape"][1], at["shape"][1]):
            return f"&{name}[{index}]"
        return f"&{name}" + " + 1" * (index == count)

    def whole_text(self):
        for f in self.functions:
            self.function(f)
        bodies, self.lines = self.lines, []
        for name in ("off", "on", "save", "restore"):
            if name in self.used:
                self.put(0, PROTOTYPES[name])
        self.structures()
        for name, word, const, _ in self.p.ports:
            if name:
                self.put(0, f"extern {'const ' * const}volatile {WORDS[word]} {name};")
        for f in self.functions:
            front = f"__attribute__(({f['kind']})) " if f["kind"] else ""
            self.put(0, front + self.declared(self.function_type(f), f["name"]) + ";")
        for name, t, leaves in self.p.objects:
            self.put(0, f"static {self.declared(t, name)};")
        for name, t, leaves in self.p.objects:
            inner = t
            while inner["shape"][0] == "array":
                inner = inner["shape"][1]
            if inner["const"] or set(leaves) - {"0", "null"}:
                first = iter(leaves or ["0" if u["shape"][0] == "int" else "null" for _, u in self.p.scalars(t)])
                self.put(0, f"static {self.declared(t, name)} = {self.value(t, first)};")
        return "".join(line + "\n" for line in self.lines + bodies)
