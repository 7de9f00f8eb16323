"""Programs in the words of crates/cases_program, and what integers do (C99 6.2.5, 6.3.1.3, 6.5): for meaning.py."""

INTS = {"bool": 1, "char": 1, "schar": 1, "uchar": 1, "short": 2, "ushort": 2, "long": 4, "ulong": 4, "llong": 8, "ullong": 8}
UNSIGNED = {"bool", "uchar", "ushort", "uint", "ulong", "ullong"}
BINARY = {"add", "sub", "mul", "div", "rem", "and", "or", "xor", "shl", "shr", "lt", "le", "gt", "ge", "eq", "ne"}
# what an operator gives where it traps, and over such a value
BAD = object()


# ---- programs: a type is a dict with `shape`, an expression or a place a tuple whose first element is its kind

def plain(shape):
    return {"const": False, "volatile": False, "shape": shape}


class Program:
    def __init__(self, text):
        self.types, self.places, self.exprs, self.list, self.open, self.ended, self.cases = [], [], [], [], [], [], []
        self.names, self.leaves, self.entry, self.main = [], [], None, None
        self.structures, self.devices, self.objects, self.funcs = [], [], [], []
        self.int_bytes, self.levels = 4, {}
        for word in text.split():
            self.read(word)
        if self.main is None:
            self.main = len(self.funcs) - 1

    def take(self, stack, count):
        taken = stack[len(stack) - count:]
        del stack[len(stack) - count:]
        return taken

    def signature(self, count):
        params = self.take(self.types, count)
        return ("func", self.types.pop(), params)

    def read(self, word):
        head, _, rest = word.partition(":")
        for reader in (self.type_word, self.place_word, self.expr_word, self.stmt_word, self.other_word):
            if reader(head, rest):
                return
        raise SystemExit(f"no meaning: {word}")

    def type_word(self, head, rest):
        if head in INTS or head in ("int", "uint"):
            self.types.append(plain(("int", head)))
        elif head == "void":
            self.types.append(plain(("void",)))
        elif head == "ptr":
            self.types.append(plain(("ptr", self.types.pop())))
        elif head == "array":
            self.types.append(plain(("array", self.types.pop(), int(rest))))
        elif head == "struct":
            self.types.append(plain(("struct", int(rest))))
        elif head == "fn":
            self.types.append(plain(self.signature(int(rest))))
        elif head in ("const", "volatile"):
            self.types[-1] = dict(self.types[-1], **{head: True})
        elif head == "name":
            self.names.append((rest, self.types.pop()))
        else:
            return False
        return True

    def place_word(self, head, rest):
        if head in ("local", "static", "device"):
            self.places.append((head, int(rest)))
        elif head == "element":
            self.places.append(("element", self.places.pop(), self.exprs.pop()))
        elif head == "member":
            self.places.append(("member", self.places.pop(), int(rest)))
        elif head == "deref":
            self.places.append(("deref", self.exprs.pop()))
        else:
            return False
        return True

    def expr_word(self, head, rest):
        push = self.exprs.append
        two = lambda: self.take(self.exprs, 2)
        if head.lstrip("-").isdigit():
            push(("const", int(head), rest))
        elif head in ("load", "addr"):
            push((head, self.places.pop()))
        elif head == "after":
            push(("after", self.places.pop(), rest == "down"))
        elif head == "assign":
            value = self.exprs.pop()
            push(("assign", self.places.pop(), value))
        elif head == "change":
            value, (op, t) = self.exprs.pop(), rest.split(":")
            push(("change", self.places.pop(), op, t, value))
        elif head == "call":
            args = self.take(self.exprs, int(rest))
            push(("call", self.exprs.pop(), args))
        elif head in ("off", "on", "save", "restore"):
            push(("intrinsic", head, self.exprs.pop() if rest == "1" else None))
        elif head == "null":
            push(("null", self.types.pop()))
        elif head == "func":
            push(("func", int(rest)))
        elif head == "conv":
            push(("conv", rest, self.exprs.pop()))
        elif head == "qualify":
            push(("qualify", self.types.pop(), self.exprs.pop()))
        elif head in ("neg", "not", "lnot"):
            push(("unary", head, rest, self.exprs.pop()))
        elif head in ("move", "back", "gap", "both", "either", "seq"):
            push((head, *two()))
        elif head == "cmp":
            push(("cmp", rest, *two()))
        elif head == "choose":
            push(("choose", *self.take(self.exprs, 3)))
        elif head in BINARY:
            push(("binary", head, rest, *two()))
        else:
            return False
        return True

    def stmt_word(self, head, rest):
        push = self.list.append
        if head == "{":
            self.open.append(self.list)
            self.list = []
        elif head == "}":
            self.ended.append(self.list)
            self.list = self.open.pop()
        elif head == "do":
            push(("do", self.exprs.pop()))
        elif head == "if":
            these, those = self.take(self.ended, 2)
            push(("if", self.exprs.pop(), these, those))
        elif head in ("while", "dowhile"):
            push((head, self.exprs.pop(), self.ended.pop()))
        elif head == "for":
            marks = (rest or ("111" if self.exprs else "000"))
            parts = [self.exprs.pop() if m == "1" else None for m in reversed(marks)][::-1]
            push(("for", *parts, self.ended.pop()))
        elif head == "case":
            self.cases.append((rest.split(","), self.ended.pop()))
        elif head == "switch":
            push(("switch", self.exprs.pop(), self.take(self.cases, int(rest))))
        elif head in ("break", "continue", "empty"):
            push((head,))
        elif head == "return":
            push(("return", self.exprs.pop() if rest == "1" else None))
        elif head == "block":
            push(("block", self.ended.pop()))
        else:
            return False
        return True

    def other_word(self, head, rest):
        if head == "structure":
            self.structures.append((rest, self.names))
            self.names = []
        elif head == "dev":
            place, *kind = rest.split(":")
            name, _, number = place.partition("@")
            self.devices.append((name or f"@{number}", kind[0]))
        elif head == "leaf":
            self.leaves.append(rest)
        elif head == "object":
            self.objects.append((rest, self.types.pop(), self.leaves))
            self.leaves = []
        elif head == "fun":
            name, count = rest.split(":")
            _, result, params = self.signature(int(count))
            self.add(name, result, params)
        elif head == "main":
            self.add("main", plain(("void",)), [])
        elif head in ("signal", "interrupt", "listed"):
            self.entry = head
        elif head == "small":
            self.int_bytes = 2
        elif head == "levels":
            self.levels = {"tick": 1, "tock": 2}
        elif head == "start":
            self.main = int(rest)
        elif head == "ticks":
            pass
        else:
            return False
        return True

    def add(self, name, result, params):
        self.funcs.append({"name": name, "result": result, "params": params, "entry": self.entry, "locals": self.names, "body": self.list})
        self.names, self.list, self.entry = [], [], None

    # ---- integers (C99 6.2.5, 6.3.1.3, 6.5)

    def bits(self, t):
        return 8 * (self.int_bytes if t in ("int", "uint") else INTS[t])

    def limits(self, t):
        if t == "bool":
            return 0, 1
        w = self.bits(t)
        return (0, 2 ** w - 1) if t in UNSIGNED else (-2 ** (w - 1), 2 ** (w - 1) - 1)

    def convert(self, n, t):
        if t == "bool":
            return int(n != 0)
        low, _ = self.limits(t)
        return (n - low) % 2 ** self.bits(t) + low

    def exact(self, n, t):
        low, high = self.limits(t)
        if low <= n <= high:
            return n
        return self.convert(n, t) if t in UNSIGNED else BAD

    def apply(self, op, a, b, t):
        if BAD in (a, b):
            return BAD
        w = self.bits(t)
        if op in ("lt", "le", "gt", "ge", "eq", "ne"):
            return int({"lt": a < b, "le": a <= b, "gt": a > b, "ge": a >= b, "eq": a == b, "ne": a != b}[op])
        if op in ("div", "rem"):
            if b == 0:
                return BAD
            quotient = abs(a) // abs(b) * (1 if (a < 0) == (b < 0) else -1)
            if self.exact(quotient, t) is BAD:
                return BAD
            return quotient if op == "div" else a - quotient * b
        if op in ("shl", "shr"):
            if not 0 <= b < w or (op == "shl" and t not in UNSIGNED and a < 0):
                return BAD
            return self.exact(a << b, t) if op == "shl" else a >> b
        if op in ("and", "or", "xor"):
            return self.convert({"and": a & b, "or": a | b, "xor": a ^ b}[op], t)
        return self.exact({"add": a + b, "sub": a - b, "mul": a * b}[op], t)

    def apply_one(self, op, a, t):
        if a is BAD:
            return BAD
        if op == "lnot":
            return int(a == 0)
        return self.exact(-a, t) if op == "neg" else self.convert(~a, t)

    # ---- types and scalars

    def scalars(self, t, path=()):
        shape = t["shape"]
        if shape[0] == "array":
            return [p for i in range(shape[2]) for p in self.scalars(shape[1], path + (("i", i),))]
        if shape[0] == "struct":
            return [p for m, (_, u) in enumerate(self.structures[shape[1]][1]) for p in self.scalars(u, path + (("m", m),))]
        return [(path, t)]


def alike(t, u):
    """One type, outermost qualifiers aside; those of an array are its innermost element's."""
    a, b = t["shape"], u["shape"]
    if a[0] == "array" and b[0] == "array":
        return a[2] == b[2] and alike(a[1], b[1])
    return a == b
