"""Address constants and initialisers of C99 (6.6, 9; 6.7.8), for typed_units.py."""
from c_operands import Broken, const, of_constants
from c_types import is_integer, is_scalar, kind, plain, qualified, unqualified

CHARACTERS = ("char", "schar", "uchar")


class Addresses:
    """Address constants (6.6, 9): ("null",), ("func", function) or (object, path, index, count, element), where element
    says that the address is one of an element of the array at the path."""

    def leaf(self, e, at):
        """The first value that an expression gives."""
        if e[0] == "const":
            return e[1]
        if of_constants(e):
            raise Broken(13, at)
        found = self.address_in(e, at)
        return found if found[0] in ("null", "func") else found[:4]

    def address_in(self, e, at):
        if e[0] == "null":
            return ("null",)
        if e[0] == "fun":
            return ("func", e[1])
        if e[0] == "qualify":
            return self.address_in(e[2], at)
        if e[0] == "addr":
            return self.place_in(e[1], at)
        if e[0] == "move" and e[2][0] == "const":
            found = self.address_in(e[1], at)
            if found[0] in ("null", "func"):
                raise Broken(13, at)
            known, path, index, count, element = found
            index += -e[2][1] if e[3] else e[2][1]
            if not 0 <= index <= count:
                raise Broken(13, at)
            return known, path, index, count, element
        raise Broken(14, at)

    def place_in(self, p, at):
        """The address of a place."""
        if p[0] == "static":
            return p[1], [], 0, 1, False
        if p[0] == "deref":
            return self.address_in(p[1], at)
        if p[0] == "member":
            known, path = self.inside(p[1], at)
            return known, path + [f".{p[2]}"], 0, 1, False
        if p[0] == "element" and p[2][0] == "const":
            known, path = self.inside(p[1], at)
            count = self.count_at(known, path)
            if not 0 <= p[2][1] <= count:
                raise Broken(13, at)
            return known, path, p[2][1], count, True
        raise Broken(14, at)

    def inside(self, p, at):
        """The object and the path of a place that is accessed or has parts."""
        found = self.place_in(p, at)
        if found[0] in ("null", "func"):
            raise Broken(13, at)
        known, path, index, count, element = found
        if index == count:
            raise Broken(13, at)
        return known, path + [f"[{index}]"] if element else path

    def count_at(self, known, path):
        t = known.type
        for part in path:
            t = t.shape[1] if part[0] == "[" else t.shape[1].members[int(part[1:])][1]
        return t.shape[2]


class Initialisers(Addresses):
    def is_text(self, t, given):
        return kind(t) == "array" and is_integer(t.shape[1]) and t.shape[1].shape[1] in CHARACTERS and (
            given.kind == "one" and given.parts[0].kind == "text")

    def text_in(self, t, given):
        """The string that initialises an array, in braces or not."""
        if given.kind == "many" and len(given.parts[0]) == 1:
            given = given.parts[0][0]
        return given.parts[0] if self.is_text(t, given) else None

    def give(self, t, p, given, take):
        """An object of a type at a place, and what it is given; take(t, p, node) stands for a scalar, with a node, a
        constant or None."""
        if self.text_in(t, given):
            return self.give_text(t, p, self.text_in(t, given), take)
        if is_scalar(t):
            return self.give_scalar(t, p, given, take)
        if given.kind == "one":
            raise Broken(16, given.at)
        left = list(given.parts[0])
        self.give_parts(t, p, left, take, given)
        self.superfluous(left)

    def superfluous(self, left):
        if left:
            if left[0].kind == "one":
                self.value_of(left[0].parts[0])
            raise Broken(15, left[0].at)

    def give_scalar(self, t, p, given, take):
        if given.kind == "one":
            return take(t, p, given.parts[0])
        first, *left = given.parts[0]
        if first.kind == "many":
            raise Broken(16, first.at)
        take(t, p, first.parts[0])
        self.superfluous(left)

    def give_text(self, t, p, node, take):
        content, count = node.parts[0], t.shape[2]
        if len(content) > count:
            raise Broken(16, node.at)
        word = t.shape[1].shape[1]
        for i in range(count):
            c = content[i] if i < len(content) else 0
            take(t.shape[1], self.element(p, i), const(self.target.convert(c, word), word))

    def element(self, p, i):
        return ("element", p, const(i, self.target.constant(i, True, False, 0)))

    def parts(self, t, p):
        if kind(t) == "array":
            return [(t.shape[1], self.element(p, i)) for i in range(t.shape[2])]
        return [(qualified(m, t.const, t.volatile), ("member", p, i)) for i, (_, m) in enumerate(t.shape[1].members)]

    def give_parts(self, t, p, left, take, given):
        for part, at in self.parts(t, p):
            if not left:
                self.give_nothing(part, at, take, given)
            elif left[0].kind == "many" or self.text_in(part, left[0]) or is_scalar(part):
                self.give(part, at, left.pop(0), take)
            else:
                self.give_parts(part, at, left, take, given)

    def give_nothing(self, t, p, take, given):
        if is_scalar(t):
            return take(t, p, None, given)
        for part, at in self.parts(t, p):
            self.give_nothing(part, at, take, given)

    def bound_by(self, t, given):
        """How many elements an initialiser gives an array without a bound."""
        text = self.text_in(plain("array", t, 0), given)
        if text:
            return len(text.parts[0]) + 1
        if given.kind == "one":
            raise Broken(16, given.at)
        left, count = list(given.parts[0]), 0
        while left:
            self.skip(t, left)
            count += 1
        return count

    def skip(self, t, left):
        """Takes off what initialises one object."""
        if not left:
            return
        if left[0].kind == "many" or self.text_in(t, left[0]) or is_scalar(t):
            left.pop(0)
            return
        for part, _ in self.parts(t, None):
            self.skip(part, left)

    def scalar_value(self, t, node):
        """What is written to a scalar."""
        if node is None:
            return const(0, t.shape[1]) if is_integer(t) else ("null", unqualified(t))
        if isinstance(node, tuple):
            return node
        return self.assigned(self.value_of(node), t, node.at)

    def leaves_of(self, t, given):
        leaves = []

        def take(t, p, node, _given=None):
            e = self.scalar_value(t, node)
            leaves.append(self.leaf(e, getattr(node, "at", 0)))
        self.give(t, None, given, take)
        return leaves

    def assignments(self, t, p, given):
        found = []

        def take(t, p, node, given=None):
            e = self.scalar_value(t, node)
            if t.const:
                raise Broken(24, given.at if node is None else getattr(node, "at", 0))
            found.append(("assign", p, e))
        self.give(t, p, given, take)
        return found
