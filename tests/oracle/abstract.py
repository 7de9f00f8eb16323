"""What expressions may give where only sets of values are known: for facts.py.

Integers are sets by the range rules of domains.py, where plain char has a sign: in the domain Vals explicit sets and ranges of all numbers of some bits, in the
domain Span intervals. Addresses are the sets of places.py. What the operators of C give is C99's, and what they give on sets of
addresses is worked out member by member where both sets tell their members."""
import functools

import domains
from domains import TESTS
from lowering import Body
from places import NULL, Set

WORDS = {"bool": "Bool", "char": "SChar", "schar": "SChar", "uchar": "UChar", "short": "Short", "ushort": "UShort", "int": "Int", "uint": "UInt",
         "long": "Long", "ulong": "ULong", "llong": "LongLong", "ullong": "ULongLong"}
MIRRORED = {"Lt": "Gt", "Le": "Ge", "Gt": "Lt", "Ge": "Le", "Eq": "Eq", "Ne": "Ne"}
OPPOSITE = {"Lt": "Ge", "Le": "Gt", "Gt": "Le", "Ge": "Lt", "Eq": "Ne", "Ne": "Eq"}
remembered = functools.lru_cache(maxsize=None)


class Vals:
    """Explicit sets, which are tuples, and ranges of all numbers of some bits, which are Python's."""
    none = ()
    op, op_one, to = (remembered(f) for f in (domains.set_result, domains.set_unary, domains.set_conversion))
    keep, join, below = (remembered(f) for f in (domains.set_kept, domains.joined, domains.is_below))
    hull, of_interval = staticmethod(domains.hull), staticmethod(domains.between)
    bounds = staticmethod(domains.bounds)

    @staticmethod
    def members(a):
        return a if domains.is_explicit(a) else None

    @staticmethod
    def text(a):
        return " ".join(map(str, a)) if domains.is_explicit(a) else f"{a[0]}..{a[-1]}"


class Span:
    """Intervals by their ends; None is the empty one."""
    none = None
    op, op_one, to = (remembered(f) for f in (domains.rule, domains.unary_rule, domains.conversion))
    keep = remembered(domains.kept)

    @staticmethod
    def hull(numbers):
        numbers = list(numbers)
        return (min(numbers), max(numbers)) if numbers else None

    @staticmethod
    def of_interval(a):
        return a

    @staticmethod
    def join(a, b):
        return Span.hull([*(a or ()), *(b or ())])

    @staticmethod
    def below(a, b):
        return a is None or b is not None and b[0] <= a[0] and a[1] <= b[1]

    @staticmethod
    def bounds(a):
        return a

    @staticmethod
    def members(a):
        return None

    @staticmethod
    def text(a):
        return f"{a[0]}..{a[1]}" if a else ""


for name in ("op", "op_one", "to", "keep", "join", "below"):
    for domain in (Vals, Span):
        if name in vars(domain) and not isinstance(vars(domain)[name], staticmethod):
            setattr(domain, name, staticmethod(vars(domain)[name]))


def is_automatic(a):
    return a[0] == "at" and a[1][0] == "a"


def are_told(s):
    return s.exact and not any(is_automatic(a) for a in s.members)


def address_result(op, a, b):
    """C99 6.5.8, 6.5.9 and 6.5.6, 9: None is a trap."""
    if op in ("Eq", "Ne"):
        return int((a[:4] == b[:4]) == (op == "Eq"))
    if a[0] != "at" or b[0] != "at" or a[1:3] != b[1:3] or a[4] != b[4]:
        return None
    return a[3] - b[3] if op == "Gap" else int(domains.passes(op, a[3], b[3]))


class Values:
    """What expressions of a function may give, where `known` has the set of each register by its local's number."""

    def __init__(self, program, number, domain):
        self.p, self.d, self.function_number, self.n = program, domain, number, program.int_bytes
        self.body = Body(program, program.funcs[number])

    # ---- types

    def word(self, t):
        return WORDS[t]

    def whole(self, t):
        return self.d.of_interval(domains.ends(self.word(t), self.n))

    def none_of(self, t):
        return Set() if t["shape"][0] == "ptr" else self.d.none

    # ---- sets of either kind

    def join(self, a, b):
        return a.join(b) if isinstance(a, Set) else self.d.join(a, b)

    def below(self, a, b):
        return a.below(b) if isinstance(a, Set) else self.d.below(a, b)

    def is_empty(self, a):
        return not a.members if isinstance(a, Set) else self.d.bounds(a) is None

    def can_be_true(self, a):
        if isinstance(a, Set):
            return any(x != NULL for x in a.members)
        ends = self.d.bounds(a)
        return ends is not None and ends != (0, 0)

    def can_be_false(self, a):
        if isinstance(a, Set):
            return NULL in a.members
        return self.has(a, 0)

    def has(self, a, n):
        told, ends = self.d.members(a), self.d.bounds(a)
        return n in told if told is not None else ends is not None and ends[0] <= n <= ends[1]

    def has_other(self, a, numbers):
        """Whether a set of integers has a member that is none of these."""
        told, ends = self.d.members(a), self.d.bounds(a)
        if told is not None:
            return any(x not in numbers for x in told)
        return ends is not None and ends[1] - ends[0] + 1 > len({x for x in numbers if ends[0] <= x <= ends[1]})

    # ---- expressions

    def value(self, e, known):
        return getattr(self, "value_" + e[0])(e, known)

    def value_const(self, e, known):
        return self.d.hull([e[1]])

    def value_null(self, e, known):
        return Set([NULL])

    def value_func(self, e, known):
        return Set([("f", e[1])])

    def value_load(self, e, known):
        return known[e[1][1]]

    def value_unary(self, e, known):
        return self.d.op_one(e[1].capitalize(), self.value(e[3], known), self.word(e[2]), self.n)

    def value_binary(self, e, known):
        a, b = self.value(e[3], known), self.value(e[4], known)
        return self.d.op(e[1].capitalize(), a, b, self.word(e[2]), self.n)

    def value_conv(self, e, known):
        return self.d.to(self.value(e[2], known), self.word(e[1]), self.n)

    def value_qualify(self, e, known):
        return self.value(e[2], known)

    def moved(self, e, known, sign):
        a, by = self.value(e[1], known), self.value(e[2], known)
        objects = [x for x in a.members if x[0] == "at"]
        if not a.exact:
            return Set(places=objects) if objects else Set()
        return Set(("at", root, path, i, count) for _, root, path, old, count in objects for i in range(count + 1)
                   if self.has(by, sign * (i - old)))

    def value_move(self, e, known):
        return self.moved(e, known, 1)

    def value_back(self, e, known):
        return self.moved(e, known, -1)

    def image(self, op, a, b):
        return [r for x in a.members for y in b.members for r in [address_result(op, x, y)] if r is not None]

    def value_gap(self, e, known):
        a, b = self.value(e[1], known), self.value(e[2], known)
        if not (are_told(a) and are_told(b)):
            return self.whole(self.p.distance)
        low, high = domains.ends(self.word(self.p.distance), self.n)
        return self.d.hull(r for r in self.image("Gap", a, b) if low <= r <= high)

    def value_cmp(self, e, known):
        a, b = self.value(e[2], known), self.value(e[3], known)
        if not (are_told(a) and are_told(b)):
            return self.d.hull([0, 1])
        return self.d.hull(self.image(e[1].capitalize(), a, b))

    def value_both(self, e, known):
        a = self.value(e[1], known)
        found = {0} if self.can_be_false(a) else set()
        if self.can_be_true(a):
            b = self.value(e[2], known)
            found |= ({0} if self.can_be_false(b) else set()) | ({1} if self.can_be_true(b) else set())
        return self.d.hull(found)

    def value_either(self, e, known):
        a = self.value(e[1], known)
        found = {1} if self.can_be_true(a) else set()
        if self.can_be_false(a):
            b = self.value(e[2], known)
            found |= ({0} if self.can_be_false(b) else set()) | ({1} if self.can_be_true(b) else set())
        return self.d.hull(found)

    def value_choose(self, e, known):
        c, found = self.value(e[1], known), self.none_of(self.body.type(e))
        for arm, allowed in ((e[2], self.can_be_true(c)), (e[3], self.can_be_false(c))):
            if allowed:
                found = self.join(found, self.value(arm, known))
        return found

    # ---- addresses: a place is known as a set of addresses, with whether each is an element of its path's array

    def value_addr(self, e, known):
        if e[1][0] == "deref":
            return self.value(e[1][1], known)
        exact, found, _ = self.places(e[1], known)
        return Set(found) if exact or not found else Set(places=found)

    def places(self, p, known):
        """Whether the places are told exactly, their addresses, and whether an index of theirs is one step of the path."""
        kind = p[0]
        if kind == "static":
            return True, [("at", ("o", p[1]), (), 0, 1)], False
        if kind == "local":
            return True, [("at", ("a", 0, self.function_number, p[1]), (), 0, 1)], False
        if kind == "deref":
            a = self.value(p[1], known)
            to = self.body.type(p[1])["shape"][1]
            return a.exact, [x for x in a.members if x[0] == "at"], to
        if kind == "member":
            exact, found, is_element = self.places(p[1], known)
            return exact, [("at", a[1], self.full_path(a, is_element) + (("m", p[2]),), 0, 1) for a in found if not exact or a[3] < a[4]], False
        exact, found, is_element = self.places(p[1], known)
        index = self.value(p[2], known)
        count = self.body.place_type(p[1])["shape"][2]
        allowed = [i for i in range(count + 1) if self.has(index, i)]
        if not exact:
            return False, [("at", a[1], self.full_path(a, is_element), 0, count) for a in found if allowed], True
        return True, [("at", a[1], self.full_path(a, is_element), i, count) for a in found if a[3] < a[4] for i in allowed], True

    def full_path(self, a, is_element):
        """The path to what an address names: `is_element` is whether it is an element there, or the type that it points to."""
        _, root, path, index, _ = a
        if isinstance(is_element, dict):
            at = self.type_along(root, path)
            is_element = not alike(at, is_element)
        return path + ((("i", index),) if is_element else ())

    def type_along(self, root, path):
        at = self.p.objects[root[1]][1] if root[0] == "o" else self.p.funcs[root[2]]["locals"][root[3]][1]
        for kind, n in path:
            at = self.p.structures[at["shape"][1]][1][n][1] if kind == "m" else at["shape"][1]
        return at

    # ---- keys

    def key_of(self, a):
        """That of the last member on an address's path, or of its object."""
        _, root, path, _, _ = a
        key = ("object", root[1]) if root[0] == "o" else ("local", root[2], root[3])
        for i, (kind, n) in enumerate(path):
            if kind == "m":
                key = ("member", self.type_along(root, path[:i])["shape"][1], n)
        return key

    def keys(self, p, known):
        """The keys that a place may name."""
        kind = p[0]
        if kind == "device":
            return set()
        if kind == "static":
            return {("object", p[1])}
        if kind == "local":
            return {("local", self.function_number, p[1])}
        if kind == "member":
            return {("member", self.body.place_type(p[1])["shape"][1], p[2])}
        if kind == "element":
            return self.keys(p[1], known)
        return {self.key_of(a) for a in self.value(p[1], known).members if a[0] == "at"}


def alike(t, u):
    """One type, qualifiers of arrays' elements aside."""
    a, b = t["shape"], u["shape"]
    if a[0] == "array" and b[0] == "array":
        return a[2] == b[2] and alike(a[1], b[1])
    return a == b
