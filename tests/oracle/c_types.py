"""Types of C99 6.2.5, what integers do (6.3.1, 6.5) and how many bytes there are, for typed_units.py.

A type is Type(shape, const, volatile); a shape is ("void",), ("int", word), ("ptr", type), ("array", type, count),
("struct", structure) or ("func", result, parameters). An array has no qualifiers of its own."""
from collections import namedtuple

RANKS = {"bool": 0, "char": 1, "schar": 1, "uchar": 1, "short": 2, "ushort": 2, "int": 3, "uint": 3, "long": 4,
         "ulong": 4, "llong": 5, "ullong": 5}
UNSIGNED = {"bool", "uchar", "ushort", "uint", "ulong", "ullong"}
TO_UNSIGNED = {"int": "uint", "long": "ulong", "llong": "ullong"}
MOST_BYTES = 4294967295

Type = namedtuple("Type", "shape const volatile")
TRAP = "trap"


def plain(*shape):
    return Type(shape, False, False)


def integer(word):
    return plain("int", word)


def pointer(to):
    return plain("ptr", to)


VOID, INT = plain("void"), integer("int")


class Structure:
    def __init__(self, tag):
        self.tag, self.alias, self.members = tag, None, None


def kind(t):
    return t.shape[0]


def is_integer(t):
    return kind(t) == "int"


def is_pointer(t):
    return kind(t) == "ptr"


def is_scalar(t):
    return kind(t) in ("int", "ptr")


def unqualified(t):
    return Type(t.shape, False, False)


def qualified(t, const, volatile):
    """An array's qualifiers stand at its elements (6.7.3, 8); those of a function's type say nothing."""
    if kind(t) == "array":
        return t._replace(shape=("array", qualified(t.shape[1], const, volatile), t.shape[2]))
    if kind(t) == "func":
        return t
    return Type(t.shape, t.const or const, t.volatile or volatile)


def qualifiers(t):
    """Those of a type, or of an array's innermost elements."""
    while kind(t) == "array":
        t = t.shape[1]
    return t.const, t.volatile


def bare(t):
    """Without its outermost qualifiers, those of an array's innermost elements."""
    if kind(t) == "array":
        return t._replace(shape=("array", bare(t.shape[1]), t.shape[2]))
    return unqualified(t)


def is_incomplete(t):
    while kind(t) == "array":
        t = t.shape[1]
    return kind(t) == "struct" and t.shape[1].members is None


def is_object(t):
    """A complete object type."""
    return kind(t) not in ("void", "func") and not is_incomplete(t)


class Target:
    def __init__(self, int_bytes=2, pointer_bytes=2, char_signed=True, align=1):
        self.int_bytes, self.pointer_bytes, self.char_signed, self.align = int_bytes, pointer_bytes, char_signed, align

    def bytes(self, word):
        return [1, 1, 2, self.int_bytes, 4, 8][RANKS[word]]

    def is_signed(self, word):
        return self.char_signed if word == "char" else word not in UNSIGNED

    def range(self, word):
        if word == "bool":
            return 0, 1
        bits = 8 * self.bytes(word)
        return (-(1 << bits - 1), (1 << bits - 1) - 1) if self.is_signed(word) else (0, (1 << bits) - 1)

    def holds(self, word, value):
        low, high = self.range(word)
        return low <= value <= high

    def convert(self, value, word):
        """6.3.1.2, and 6.3.1.3 modulo two's complement."""
        if word == "bool":
            return int(value != 0)
        low, high = self.range(word)
        return (value - low) % (high - low + 1) + low

    def promoted(self, word):
        """6.3.1.1, 2."""
        if RANKS[word] >= RANKS["int"]:
            return word
        low, high = self.range(word)
        return "int" if self.holds("int", low) and self.holds("int", high) else "uint"

    def usual(self, a, b):
        """6.3.1.8."""
        a, b = self.promoted(a), self.promoted(b)
        if a == b:
            return a
        if self.is_signed(a) == self.is_signed(b):
            return a if RANKS[a] >= RANKS[b] else b
        signed, other = (a, b) if self.is_signed(a) else (b, a)
        if RANKS[other] >= RANKS[signed]:
            return other
        if self.range(signed)[1] >= self.range(other)[1]:
            return signed
        return TO_UNSIGNED[signed]

    def constant(self, value, decimal, unsigned, longs):
        """6.4.4.1, 5."""
        words = ["int", "uint", "long", "ulong", "llong", "ullong"][2 * longs:]
        if unsigned:
            words = [w for w in words if w in UNSIGNED]
        elif decimal:
            words = [w for w in words if w not in UNSIGNED]
        return next(w for w in words if self.holds(w, value))

    def size_type(self):
        return "uint" if self.int_bytes >= self.pointer_bytes else "ulong"

    def difference_type(self):
        return "int" if self.int_bytes >= self.pointer_bytes else "long"

    # what operators give: a number, or TRAP
    def within(self, word, value):
        if self.is_signed(word):
            return value if self.holds(word, value) else TRAP
        return self.convert(value, word)

    def unary(self, op, word, a):
        if op == "!":
            return int(a == 0)
        return self.within(word, -a) if op == "-" else self.convert(~a, word)

    def binary(self, op, word, a, b):
        if op in ("<", "<=", ">", ">=", "==", "!="):
            return int({"<": a < b, "<=": a <= b, ">": a > b, ">=": a >= b, "==": a == b, "!=": a != b}[op])
        if op in ("+", "-", "*"):
            return self.within(word, {"+": a + b, "-": a - b, "*": a * b}[op])
        if op in ("&", "|", "^"):
            return self.convert({"&": a & b, "|": a | b, "^": a ^ b}[op], word)
        if op in ("/", "%"):
            return self.divided(op, word, a, b)
        if not 0 <= b < 8 * self.bytes(word):
            return TRAP
        if op == ">>":
            return a >> b
        return TRAP if a < 0 else self.within(word, a << b)

    def divided(self, op, word, a, b):
        if b == 0 or self.within(word, abs(a) // abs(b) * (1 if (a < 0) == (b < 0) else -1)) == TRAP:
            return TRAP
        quotient = abs(a) // abs(b) * (1 if (a < 0) == (b < 0) else -1)
        return quotient if op == "/" else a - quotient * b

    # bytes
    def layout(self, t):
        """How many bytes, and at how many it is aligned."""
        what = kind(t)
        if what == "array":
            size, align = self.layout(t.shape[1])
            return size * t.shape[2], align
        if what == "struct":
            size, greatest = 0, 1
            for _, member in t.shape[1].members:
                bytes, align = self.layout(member)
                size += -size % align + bytes
                greatest = max(greatest, align)
            return size + -size % greatest, greatest
        size = self.pointer_bytes if what == "ptr" else self.bytes(t.shape[1])
        return size, min(size, self.align)

    def size(self, t):
        return self.layout(t)[0]
