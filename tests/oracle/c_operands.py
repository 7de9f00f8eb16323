"""Expressions of the subset of C99 (6.5) as typed ones, for typed_units.py. An expression is a tuple whose first element
is its kind; places too.

What an operand is: Operand(kind, what, type, at), where kind is "place" (6.3.2.1, 1), "value", "function" (a
designator), "intrinsic" (its name, at `at`) or "address": an integer constant that is cast to a pointer type, of which
the operator round it makes a device or a null."""
from collections import namedtuple
from c_types import (INT, TRAP, bare, integer, is_incomplete, is_integer, is_object, is_pointer, is_scalar, kind, plain,
                     pointer, qualified, qualifiers, unqualified)

Operand = namedtuple("Operand", "kind what type at")


class Broken(Exception):
    def __init__(self, rule, at):
        super().__init__(rule, at)
        self.rule, self.at = rule, at


def const(value, word):
    return ("const", value, word)


def value(e, t):
    return Operand("value", e, unqualified(t), None)


def place(p, t):
    return Operand("place", p, t, None)


# ---- constants: an expression of constants alone is worked out where it doesn't trap

PARTS = {"un": (3,), "bin": (3, 4), "conv": (2,), "both": (1, 2), "either": (1, 2), "choose": (1, 2, 3)}


def of_constants(e):
    """Whether constants are all that it has."""
    return e[0] == "const" or e[0] in PARTS and all(of_constants(e[i]) for i in PARTS[e[0]])


def worked_out(target, e):
    """The value of an expression of constants alone, or TRAP."""
    if e[0] == "const":
        return e[1]
    first = worked_out(target, e[PARTS[e[0]][0]])
    if first == TRAP:
        return TRAP
    if e[0] == "un":
        return target.unary(e[1], e[2], first)
    if e[0] == "conv":
        return target.convert(first, e[1])
    if e[0] == "choose":
        return worked_out(target, e[2] if first else e[3])
    if e[0] in ("both", "either"):
        if (first == 0) == (e[0] == "both"):
            return int(e[0] == "either")
        second = worked_out(target, e[2])
        return second if second == TRAP else int(second != 0)
    second = worked_out(target, e[4])
    return TRAP if second == TRAP else target.binary(e[1], e[2], first, second)


def folded(target, e, word):
    if not of_constants(e):
        return e
    found = worked_out(target, e)
    return e if found == TRAP else const(found, word)


def arm_left(target, e):
    """Of a `?:` without a value, that has constants alone: the arm that is chosen, where nothing traps."""
    if not of_constants(e) or worked_out(target, e) == TRAP:
        return e
    return e[2] if e[1][1] else e[3]


class Operators:
    """Operators at a target. What stands at `at` breaks a rule there."""

    def __init__(self, target):
        self.target = target

    # conversions
    def converted(self, e, word, to):
        """One that the language asks for leaves nothing where the type stays."""
        return e if word == to else self.cast_int(e, to)

    def cast_int(self, e, to):
        return folded(self.target, ("conv", to, e), to)

    def first(self, p, t):
        """The value of an array (6.3.2.1, 3)."""
        return value(("addr", ("element", p, const(0, "int"))), pointer(t.shape[1]))

    def used(self, x):
        """An operand as a value (6.3.2.1). That of a structure has its type, and no expression."""
        if x.kind == "intrinsic":
            raise Broken(39, x.at)
        if x.kind == "address":
            if x.what != 0:
                raise Broken(31, x.at)
            return value(("null", unqualified(x.type)), x.type)
        if x.kind == "function":
            return value(("fun", x.what), pointer(x.type))
        if x.kind == "value":
            return x
        if kind(x.type) == "array":
            return self.first(x.what, x.type)
        if kind(x.type) == "func":
            return value(("addr", x.what), pointer(x.type))
        if kind(x.type) == "struct":
            return value(None, x.type)
        return value(("load", x.what), x.type)

    def is_null(self, x):
        """A null pointer constant (6.3.2.3, 3)."""
        zero = x.what is not None and x.what[0] == "const" and x.what[1] == 0 and is_integer(x.type)
        return zero or x.what is not None and x.what[0] == "null" and kind(x.type.shape[1]) == "void"

    # assignment (6.5.16.1)
    def assigned(self, x, t, at):
        """A value as an object of a type gets it."""
        if kind(x.type) == "void":
            raise Broken(38, at)
        if kind(x.type) == "struct":
            raise Broken(9, at)
        if is_integer(t) and is_integer(x.type):
            return self.converted(x.what, x.type.shape[1], t.shape[1])
        if is_integer(t) and t.shape[1] == "bool":
            return ("conv", "bool", ("cmp", "!=", x.what, ("null", unqualified(x.type))))
        if is_pointer(t) and self.is_null(x):
            return ("null", unqualified(t))
        if is_pointer(t) and is_pointer(x.type) and self.gains(x.type.shape[1], t.shape[1]):
            return x.what
        raise Broken(25, at)

    def gains(self, one, other):
        """One type, where no qualifier is lost."""
        (c, v), (d, w) = qualifiers(one), qualifiers(other)
        return bare(one) == bare(other) and (d or not c) and (w or not v)

    def modifiable(self, x, at):
        if x.kind != "place" or not is_scalar(x.type) or x.type.const:
            raise Broken(24, at)

    def assign(self, left, x, at):
        self.modifiable(left, at)
        return value(("assign", left.what, self.assigned(x, left.type, at)), left.type)

    def change(self, op, left, x, at):
        self.modifiable(left, at)
        if kind(x.type) == "void":
            raise Broken(38, at)
        if is_pointer(left.type):
            if op not in ("+", "-"):
                raise Broken(26, at)
            if not is_object(left.type.shape[1]) or not is_integer(x.type):
                raise Broken(27, at)
            return value(("change", left.what, op, x.type.shape[1], x.what), left.type)
        if not is_integer(x.type):
            raise Broken(27 if op in ("+", "-") else 26, at)
        word, _, right = self.balanced(op, left.type.shape[1], const(0, "int"), x.type.shape[1], x.what)
        return value(("change", left.what, op, word, right), left.type)

    def step(self, op, left, at):
        """A prefix form (6.5.3.1)."""
        self.modifiable(left, at)
        return self.change(op, left, value(const(1, "int"), INT), at)

    def after(self, op, left, at):
        """A postfix form (6.5.2.4)."""
        self.modifiable(left, at)
        if is_pointer(left.type) and not is_object(left.type.shape[1]):
            raise Broken(27, at)
        return value(("after", left.what, op), left.type)

    # arithmetic
    def balanced(self, op, a, x, b, y):
        """The type in which an operator works (6.3.1.8, 6.5.7, 3), and its operands."""
        if op in ("<<", ">>"):
            to, other = self.target.promoted(a), self.target.promoted(b)
        else:
            to = other = self.target.usual(a, b)
        return to, self.converted(x, a, to), self.converted(y, b, other)

    def binary(self, op, x, y, at):
        if op in ("&&", "||"):
            self.scalar(x, at)
            self.scalar(y, at)
            return value(folded(self.target, ("both" if op == "&&" else "either", x.what, y.what), "int"), INT)
        if "void" in (kind(x.type), kind(y.type)):
            raise Broken(38, at)
        if is_integer(x.type) and is_integer(y.type):
            return self.of_integers(op, x, y)
        if op in ("+", "-"):
            return self.moved(op, x, y, at)
        if op in ("<", "<=", ">", ">=", "==", "!="):
            return self.compared(op, x, y, at)
        raise Broken(26, at)

    def of_integers(self, op, x, y):
        word, a, b = self.balanced(op, x.type.shape[1], x.what, y.type.shape[1], y.what)
        result = "int" if op in ("<", "<=", ">", ">=", "==", "!=") else word
        return value(folded(self.target, ("bin", op, word, a, b), result), integer(result))

    def moved(self, op, x, y, at):
        """6.5.6."""
        if is_pointer(x.type) and is_object(x.type.shape[1]) and is_integer(y.type):
            return value(("move", x.what, y.what, op == "-"), x.type)
        if op == "-" and is_pointer(x.type) and is_pointer(y.type):
            one, other = bare(x.type.shape[1]), bare(y.type.shape[1])
            if one == other and (is_object(one) or kind(one) == "func"):
                return value(("gap", x.what, y.what), integer(self.target.difference_type()))
        raise Broken(27, at)

    def compared(self, op, x, y, at):
        """6.5.8, 6.5.9."""
        same = is_pointer(x.type) and is_pointer(y.type) and bare(x.type.shape[1]) == bare(y.type.shape[1])
        a, b = x.what, y.what
        if not same and op in ("==", "!="):
            if is_pointer(x.type) and self.is_null(y):
                same, b = True, ("null", x.type)
            elif is_pointer(y.type) and self.is_null(x):
                same, a = True, ("null", y.type)
        if not same:
            raise Broken(28, at)
        return value(("cmp", op, a, b), INT)

    def unary(self, op, x, at):
        if kind(x.type) == "void":
            raise Broken(38, at)
        if op == "!":
            self.scalar(x, at)
            if is_pointer(x.type):
                return value(("cmp", "==", x.what, ("null", x.type)), INT)
        elif not is_integer(x.type):
            raise Broken(26 if op == "~" else 27, at)
        word = self.target.promoted(x.type.shape[1])
        e = self.converted(x.what, x.type.shape[1], word)
        if op == "+":
            return value(e, integer(word))
        result = "int" if op == "!" else word
        return value(folded(self.target, ("un", op, word, e), result), integer(result))

    def scalar(self, x, at):
        """A condition, or an operand of `!`, `&&`, `||`."""
        if kind(x.type) == "void":
            raise Broken(38, at)
        if not is_scalar(x.type):
            raise Broken(29, at)

    def choose(self, test, x, y, at):
        """6.5.15."""
        self.scalar(test, at)
        if "struct" in (kind(x.type), kind(y.type)):
            raise Broken(9, at)
        if kind(x.type) == kind(y.type) == "void":
            return value(arm_left(self.target, ("choose", test.what, x.what, y.what)), x.type)
        if is_integer(x.type) and is_integer(y.type):
            word = self.target.usual(x.type.shape[1], y.type.shape[1])
            a, b = (self.converted(z.what, z.type.shape[1], word) for z in (x, y))
            return value(folded(self.target, ("choose", test.what, a, b), word), integer(word))
        return self.choose_pointer(test, x, y, at)

    def choose_pointer(self, test, x, y, at):
        if is_pointer(x.type) and is_pointer(y.type) and bare(x.type.shape[1]) == bare(y.type.shape[1]):
            t = pointer(qualified(x.type.shape[1], *qualifiers(y.type.shape[1])))
        elif is_pointer(x.type) and self.is_null(y):
            t = x.type
        elif is_pointer(y.type) and self.is_null(x):
            t = y.type
        else:
            raise Broken(30, at)
        if kind(t.shape[1]) == "void":
            raise Broken(8, at)
        arms = [("null", unqualified(t)) if self.is_null(z) else z.what for z in (x, y)]
        return value(("choose", test.what, *arms), t)

    def comma(self, x, y, at):
        if "struct" in (kind(x.type), kind(y.type)):
            raise Broken(9, at)
        return value(("seq", x.what, y.what), y.type)

    # places (6.5.2, 6.5.3.2)
    def subscript(self, x, i, at):
        if x.kind == "place" and kind(x.type) == "array" and is_integer(i.type):
            return place(("element", x.what, i.what), x.type.shape[1])
        base = self.used(x)
        if not is_pointer(base.type) or not is_object(base.type.shape[1]) or not is_integer(i.type):
            raise Broken(19, at)
        return place(("deref", ("move", base.what, i.what, False)), base.type.shape[1])

    def member(self, x, name, at, rule):
        if x.kind == "place" and kind(x.type) == "struct" and x.type.shape[1].members is not None:
            for i, (other, t) in enumerate(x.type.shape[1].members):
                if other == name:
                    return place(("member", x.what, i), qualified(t, x.type.const, x.type.volatile))
        raise Broken(rule, at)

    def dot(self, x, name, at):
        return self.member(x, name, at, 20)

    def arrow(self, x, name, at):
        base = self.used(x)
        if not is_pointer(base.type):
            raise Broken(21, at)
        return self.member(place(("deref", base.what), base.type.shape[1]), name, at, 21)

    def address(self, x, at):
        if x.kind == "function":
            return self.used(x)
        if x.kind == "intrinsic":
            raise Broken(39, x.at)
        if x.kind == "address":
            self.used(x)
        if x.kind != "place" or x.what[0] == "device":
            raise Broken(18, at)
        return value(("addr", x.what), pointer(x.type))

    def pointed(self, x, at):
        base = self.used(x)
        if not is_pointer(base.type) or kind(base.type.shape[1]) == "void":
            raise Broken(17, at)
        return place(("deref", base.what), base.type.shape[1])

    def call(self, f, args, at):
        """6.5.2.2."""
        if f.kind == "function":
            callee, t = ("fun", f.what), f.type
        else:
            pointing = self.used(f)
            if not is_pointer(pointing.type) or kind(pointing.type.shape[1]) != "func":
                raise Broken(22, at)
            callee, t = pointing.what, pointing.type.shape[1]
        return value(("call", callee, self.passed(t.shape[2], args, at)), t.shape[1])

    def passed(self, params, args, at):
        if len(params) != len(args):
            raise Broken(23, at)
        return [self.assigned(x, t, at) for x, t in zip(args, params)]

    def intrinsic(self, name, args, at):
        params = [integer("uchar")] if name == "restore" else []
        t = integer("uchar") if name == "save" else plain("void")
        passed = self.passed(params, args, at)
        return value(("intr", name, passed[0] if passed else None), t)

    # casts and sizes (6.5.4, 6.5.3.4)
    def cast(self, t, x, at):
        x_is_constant = x.what is not None and x.what[0] == "const"
        if kind(t) == "void":
            if kind(x.type) == "struct":
                raise Broken(9, at)
            return value(x.what, t)
        if kind(x.type) == "void":
            raise Broken(38, at)
        if is_integer(t) and is_integer(x.type):
            return value(self.cast_int(x.what, t.shape[1]), t)
        if is_pointer(t) and kind(t.shape[1]) == "void" and not self.is_null(x):
            raise Broken(8, at)
        if is_pointer(t) and is_integer(x.type) and of_constants(x.what):
            if not x_is_constant:
                raise Broken(13, at)
            return Operand("address", x.what[1], t, at)
        if is_pointer(t) and self.is_null(x):
            return value(("null", unqualified(t)), t)
        if is_pointer(t) and is_pointer(x.type) and self.gains(x.type.shape[1], t.shape[1]):
            return value(("qualify", unqualified(t), x.what), t)
        raise Broken(31, at)

    def size(self, t, at):
        if kind(t) in ("void", "func") or is_incomplete(t):
            raise Broken(32, at)
        word, size = self.target.size_type(), self.target.size(t)
        if not self.target.holds(word, size):
            raise Broken(32, at)
        return value(const(size, word), integer(word))
