#!/usr/bin/env python3
"""Writes the cases of crates/cases_domains: `domains.py stdin` the script, `domains.py stdout` the script with the wanted answers.

The answers are worked out here, from C99 and the range rules, and not by the program that is tested. Over small intervals each
answer is also held against every pair of members: no result that does not trap may be outside, and where the rule is as narrow
as an interval can be, the answer has to be exactly the least and the greatest result. Over explicit sets an answer is the hull of
all results, and the hull is found by trying every range. What stands in BY_HAND was worked out by hand. `places.py` has the cases
of sets of addresses, and `codes.py` those of codes, costs and rankings.
"""
import functools
import itertools
import random
import sys

import codes
import places

NAMES = ["Add", "Sub", "Mul", "Div", "Rem", "And", "Or", "Xor", "Shl", "Shr", "Lt", "Le", "Gt", "Ge", "Eq", "Ne"]
TESTS = ["Lt", "Le", "Gt", "Ge", "Eq", "Ne"]
TYPES = ["Bool", "Char", "SChar", "UChar", "Short", "UShort", "Int", "UInt", "Long", "ULong", "LongLong", "ULongLong"]
PROMOTED = ["Int", "UInt", "Long", "ULong", "LongLong", "ULongLong"]


def bits(t, int_bytes):
    return {"Bool": 8, "Char": 8, "SChar": 8, "UChar": 8, "Short": 16, "UShort": 16, "Int": 8 * int_bytes, "UInt": 8 * int_bytes,
            "Long": 32, "ULong": 32, "LongLong": 64, "ULongLong": 64}[t]


def signed(t):
    return t in ("SChar", "Short", "Int", "Long", "LongLong")


def ends(t, int_bytes):
    """The least and the greatest value of a type; plain char has no sign here."""
    w = bits(t, int_bytes)
    if t == "Bool":
        return 0, 1
    return (-(1 << w - 1), (1 << w - 1) - 1) if signed(t) else (0, (1 << w) - 1)


def wrapped(v, t, int_bytes):
    """An exact result in a type (C99 6.2.5, 9 and 6.5, 5): None is a trap."""
    low, high = ends(t, int_bytes)
    if signed(t):
        return v if low <= v <= high else None
    return v % (1 << bits(t, int_bytes))


def converted(v, t, int_bytes):
    """C99 6.3.1.2, 6.3.1.3."""
    if t == "Bool":
        return int(v != 0)
    low, _ = ends(t, int_bytes)
    return (v - low) % (1 << bits(t, int_bytes)) + low


def quotient(a, b):
    q = abs(a) // abs(b)
    return q if (a < 0) == (b < 0) else -q


def passes(test, a, b):
    return {"Lt": a < b, "Le": a <= b, "Gt": a > b, "Ge": a >= b, "Eq": a == b, "Ne": a != b}[test]


def result(op, a, b, t, int_bytes):
    """C99 6.5.5 to 6.5.12."""
    w = bits(t, int_bytes)
    if op in TESTS:
        return int(passes(op, a, b))
    if op in ("And", "Or", "Xor"):
        m = (1 << w) - 1
        x, y = a & m, b & m
        return converted({"And": x & y, "Or": x | y, "Xor": x ^ y}[op], t, int_bytes)
    if op in ("Shl", "Shr"):
        if not 0 <= b < w:
            return None
        if op == "Shr":
            return a >> b
        return None if a < 0 else wrapped(a << b, t, int_bytes)
    if op in ("Div", "Rem"):
        if b == 0:
            return None
        q = wrapped(quotient(a, b), t, int_bytes)
        return None if q is None else q if op == "Div" else a - q * b
    return wrapped({"Add": a + b, "Sub": a - b, "Mul": a * b}[op], t, int_bytes)


def unary(op, a, t, int_bytes):
    """C99 6.5.3.3."""
    if op == "Lnot":
        return int(a == 0)
    return wrapped(-a, t, int_bytes) if op == "Neg" else converted(-a - 1, t, int_bytes)


# ---- the range rules, on pairs of ends; None is the empty set

def fitted(low, high, t, n):
    least, most = ends(t, n)
    if signed(t):
        low, high = max(low, least), min(high, most)
        return (low, high) if low <= high else None
    return (low, high) if least <= low and high <= most else (least, most)


def rule(op, a, b, t, n):
    if a is None or b is None:
        return None
    (la, ha), (lb, hb) = a, b
    whole = ends(t, n)
    if op == "Add":
        return fitted(la + lb, ha + hb, t, n)
    if op == "Sub":
        return fitted(la - hb, ha - lb, t, n)
    if op == "Mul":
        corners = [x * y for x in a for y in b]
        return fitted(min(corners), max(corners), t, n)
    greatest = max(abs(la), abs(ha))
    if op in ("Div", "Rem") and b == (0, 0):
        return None
    if op == "Div":
        return fitted(0, ha, t, n) if la >= 0 and lb >= 0 else fitted(-greatest, greatest, t, n)
    if op == "Rem":
        m = min(greatest, max(abs(lb), abs(hb)) - 1)
        return fitted(0 if la >= 0 else -m, m, t, n)
    if op == "And":
        tops = [h for l, h in (a, b) if l >= 0]
        return (0, min(tops)) if tops else whole
    if op in ("Or", "Xor"):
        return (0, (1 << max(ha, hb).bit_length()) - 1) if la >= 0 and lb >= 0 else whole
    if op in ("Shl", "Shr"):
        low, high = max(lb, 0), min(hb, bits(t, n) - 1)
        if low > high:
            return None
        if op == "Shl":
            return None if ha < 0 else fitted(0, ha << high, t, n)
        return min(0, la), ha >> low if ha >= 0 else -1
    can = {x for x in (0, 1) if any(passes(op, p, q) == x for p, q in probes(a, b))}
    return min(can), max(can)


def probes(a, b):
    """Numbers of two intervals among which each outcome of a comparison shows: the ends, and their neighbours."""
    near = {x + d for i in (a, b) for x in i for d in (-1, 0, 1)}
    return itertools.product([x for x in near if a[0] <= x <= a[1]], [x for x in near if b[0] <= x <= b[1]])


def unary_rule(op, a, t, n):
    if a is None:
        return None
    low, high = a
    if op == "Neg":
        return fitted(-high, -low, t, n)
    if op == "Not":
        return (-high - 1, -low - 1) if signed(t) else (ends(t, n)[1] - high, ends(t, n)[1] - low)
    return rule("Eq", a, (0, 0), t, n)


def conversion(a, t, n):
    if a is None:
        return None
    if t == "Bool":
        return rule("Ne", a, (0, 0), "Int", n)
    least, most = ends(t, n)
    return a if least <= a[0] and a[1] <= most else (least, most)


def kept(test, a, b):
    if a is None or b is None:
        return None
    (low, high), (lb, hb) = a, b
    if test == "Lt":
        high = min(high, hb - 1)
    if test == "Le":
        high = min(high, hb)
    if test == "Gt":
        low = max(low, lb + 1)
    if test == "Ge":
        low = max(low, lb)
    if test == "Eq":
        low, high = max(low, lb), min(high, hb)
    if test == "Ne" and lb == hb:
        if low == lb:
            low += 1
        elif high == lb:
            high -= 1
    return (low, high) if low <= high else None


def shown(a):
    return "none" if a is None else f"{a[0]}..{a[1]}"


def hold(found, wanted, what, narrow):
    """No result that does not trap is outside the interval; where it is narrow, its ends are results."""
    there = [r for r in found if r is not None]
    for r in there:
        if not (wanted is not None and wanted[0] <= r <= wanted[1]):
            sys.exit(f"{what}: {r} is outside {shown(wanted)}")
    if narrow and wanted != ((min(there), max(there)) if there else None):
        sys.exit(f"{what}: {shown(wanted)} is too wide")


def few(*intervals):
    """Whether all members are looked at."""
    return all(high - low < 40 for low, high in intervals)


def is_narrow(op, a, b, t, n):
    """Whether the rule of an operator gives the least interval that has every result."""
    if op in TESTS:
        return True
    least, most = ends(t, n)
    if op in ("Add", "Sub", "Mul"):
        exact = [result(op, x, y, "LongLong", n) for x in a for y in b]
        inside = all(r is not None and least <= r <= most for r in exact)
        return inside or signed(t) and op != "Mul"
    return False


def interval(choose, t, n, size):
    least, most = ends(t, n)
    near = [least, most, 0, 1, -1, 2, 3, 7, 8, 9, 15, 16, 63, 64, 255, 256, most // 2, most // 3, least + 1, most - 1]
    start = choose.choice(near) if choose.random() < 0.7 else choose.randint(least, most)
    start = min(max(start, least), most)
    end = min(most, start + choose.randrange(size)) if choose.random() < 0.6 else choose.randint(start, most)
    return (start, end)


def numbers(a):
    """All numbers of a small interval, or some of a large one."""
    low, high = a
    if high - low < 40:
        return range(low, high + 1)
    return sorted({low, low + 1, low + 2, high, high - 1, (low + high) // 2, *[x for x in (-2, -1, 0, 1, 2) if low <= x <= high]})


def corners(op, t, n):
    """Rows at the ends of a type, worked by the rule and held against the results."""
    least, most = ends(t, n)
    w = bits(t, n)
    pairs = {
        "Div": [((least, least), (-1, -1)), ((most, most), (0, 0)), ((least, most), (0, 1)), ((least, most), (least, most))],
        "Rem": [((least, least), (-1, -1)), ((most, most), (0, 0)), ((least, most), (0, 1)), ((least, least), (least, least))],
        "Mul": [((least, most), (least, most)), ((most, most), (most, most)), ((least, least), (-1, -1)), ((least, least), (1, 1)), ((0, most), (0, 1))],
        "Add": [((most, most), (0, 1)), ((least, least), (-1, 0)), ((most, most), (most, most))],
        "Sub": [((least, least), (0, 1)), ((most, most), (-1, 0)), ((least, least), (most, most))],
        "Shl": [((0, 1), (c, c)) for c in (-1, 0, w - 1, w)] + [((most, most), (0, 0)), ((least, most), (-5, w + 5))],
        "Shr": [((least, most), (c, c)) for c in (-1, 0, w - 1, w)] + [((least, least), (0, w - 1)), ((most, most), (-5, w + 5))],
        "And": [((least, least), (most, most)), ((least, most), (0, 0))],
        "Or": [((0, most), (0, 0)), ((least, least), (0, 1))],
        "Xor": [((0, most), (0, most)), ((least, most), (most, most))],
    }.get(op, [((least, most), (least, least)), ((most, most), (least, most))])
    rows = []
    for a, b in pairs:
        if op not in ("Shl", "Shr") and b[0] < least:
            b = (max(b[0], least), max(b[1], least))
        want = rule(op, a, b, t, n)
        hold((result(op, x, y, t, n) for x in numbers(a) for y in numbers(b)), want, f"{op} {shown(a)} {shown(b)} {t}", False)
        rows.append((f"{op} {shown(a)} {shown(b)} {t}", shown(want)))
    return rows


def span_rows():
    """Sections of rows over intervals."""
    choose = random.Random(1207)
    for n in (2, 4):
        yield f"== intervals by the range rules, int of {n} bytes", f"$ span {n}", section(choose, n)


def section(choose, n):
    rows = []
    for op in NAMES:
        for t in PROMOTED:
            for _ in range(8):
                a = interval(choose, t, n, 12)
                b = interval(choose, "Int" if op in ("Shl", "Shr") else t, n, 12)
                if op in ("Shl", "Shr") and choose.random() < 0.7:
                    low = choose.randrange(-2, bits(t, n))
                    b = (low, low + choose.randrange(6))
                want = rule(op, a, b, t, n)
                found = (result(op, x, y, t, n) for x in numbers(a) for y in numbers(b))
                hold(found, want, f"{op} {shown(a)} {shown(b)} {t}", few(a, b) and is_narrow(op, a, b, t, n))
                rows.append((f"{op} {shown(a)} {shown(b)} {t}", shown(want)))
            rows += corners(op, t, n)
        for t in PROMOTED:
            rows.append((f"{op} none 1..2 {t}", "none"))
            rows.append((f"{op} 1..2 none {t}", "none"))
    for op in ("Neg", "Not", "Lnot"):
        for t in PROMOTED:
            for _ in range(6):
                a = interval(choose, t, n, 9)
                want = unary_rule(op, a, t, n)
                narrow = few(a) and (op != "Neg" or signed(t) or a == (0, 0))
                hold((unary(op, x, t, n) for x in numbers(a)), want, f"{op} {shown(a)} {t}", narrow)
                rows.append((f"{op} {shown(a)} {t}", shown(want)))
        rows.append((f"{op} none UInt", "none"))
    for t in TYPES:
        rows.append((f"whole {t}", shown(ends(t, n))))
        for _ in range(8):
            a = interval(choose, choose.choice(["Int", "Long", "ULongLong"]), n, 300)
            want = conversion(a, t, n)
            narrow = few(a) and (t == "Bool" or ends(t, n)[0] <= a[0] and a[1] <= ends(t, n)[1])
            hold((converted(x, t, n) for x in numbers(a)), want, f"to {shown(a)} {t}", narrow)
            rows.append((f"to {shown(a)} {t}", shown(want)))
        rows.append((f"to none {t}", "none"))
    for test in TESTS:
        for t in ("Int", "LongLong", "ULongLong") * 7:
            a, b = interval(choose, t, n, 5), interval(choose, t, n, 3)
            if choose.random() < 0.6:
                b = (choose.choice(a), choose.choice(a))
                b = (min(b), max(b))
            want = kept(test, a, b)
            kept_ones = (x for x in numbers(a) if any(passes(test, x, y) for y in numbers(b)))
            hold(kept_ones, want, f"keep {test} {shown(a)} {shown(b)}", few(a, b))
            rows.append((f"keep {test} {shown(a)} {shown(b)}", shown(want)))
        rows.append((f"keep {test} 1..5 none", "none"))
    for _ in range(20):
        a, b = interval(choose, "Int", n, 9), interval(choose, "ULongLong", n, 9)
        rows.append((f"join {shown(a)} {shown(b)}", shown((min(a[0], b[0]), max(a[1], b[1])))))
        rows.append((f"below {shown(a)} {shown(b)}", "yes" if b[0] <= a[0] and a[1] <= b[1] else "no"))
    rows += [("join none 3..4", "3..4"), ("join 3..4 none", "3..4"), ("join none none", "none"),
             ("below none none", "yes"), ("below none 1..1", "yes"), ("below 1..1 none", "no"), ("below 1..3 1..3", "yes"), ("below 1..3 0..9", "yes"), ("below 0..9 1..3", "no")]
    return list(dict.fromkeys(rows))


# ---- explicit sets, which are tuples, and ranges of all numbers of some bits, which are ranges

MOST = 64
RANGES = [range(0, 1 << k) for k in range(7, 65)] + [range(-(1 << k - 1), 1 << k - 1) for k in range(7, 66)]


@functools.lru_cache(maxsize=None)
def least_range(low, high):
    """The range that has both ends and lies in each range that has them."""
    those = [r for r in RANGES if low in r and high in r]
    best, = [r for r in those if all(r[0] in q and r[-1] in q for q in those)]
    return best


def hull(numbers):
    """The least set that has some numbers."""
    those = tuple(sorted(set(numbers)))
    return those if len(those) <= MOST else least_range(those[0], those[-1])


def between(a):
    """The least set that has an interval."""
    if a is None:
        return ()
    low, high = a
    return tuple(range(low, high + 1)) if high - low < MOST else least_range(low, high)


def is_explicit(a):
    return isinstance(a, tuple)


def bounds(a):
    return (a[0], a[-1]) if a else None


def some_of(a):
    """All members of an explicit set, and some of a range."""
    return a if is_explicit(a) else numbers(bounds(a))


def set_result(op, a, b, t, n):
    if is_explicit(a) and is_explicit(b):
        return hull(r for x in a for y in b for r in [result(op, x, y, t, n)] if r is not None)
    return between(rule(op, bounds(a), bounds(b), t, n))


def set_unary(op, a, t, n):
    if is_explicit(a):
        return hull(r for x in a for r in [unary(op, x, t, n)] if r is not None)
    return between(unary_rule(op, bounds(a), t, n))


def set_conversion(a, t, n):
    return hull(converted(x, t, n) for x in a) if is_explicit(a) else between(conversion(bounds(a), t, n))


def passes_some(test, x, b):
    """Whether a number passes a comparison with some member: with an end of a range, or with itself."""
    probes = b if is_explicit(b) else [b[0], b[-1]] + [x] * (x in b)
    return any(passes(test, x, y) for y in probes)


def set_kept(test, a, b):
    if is_explicit(a):
        return hull(x for x in a if passes_some(test, x, b))
    return between(kept(test, bounds(a), bounds(b)))


def joined(a, b):
    if is_explicit(a) and is_explicit(b):
        return hull(a + b)
    both = [x for s in (a, b) if s for x in bounds(s)]
    return least_range(min(both), max(both))


def is_below(a, b):
    if is_explicit(a):
        return all(x in b for x in a)
    return not is_explicit(b) and a[0] in b and a[-1] in b


def set_room(a):
    """Members that may still come and the 59 rungs above an explicit set; else the rungs above."""
    return MOST - len(a) + 59 if is_explicit(a) else 65 - (a[-1] - a[0]).bit_length()


def set_shown(a):
    return "{" + ",".join(map(str, a)) + "}" if is_explicit(a) else f"{a[0]}..{a[-1]}"


def word(a):
    """A set as a script writes it: by two numbers where it is all between them, or the range that has both."""
    if not a:
        return "none"
    low, high = bounds(a)
    if is_explicit(a) and (len(a) < 4 or high - low >= len(a)):
        return set_shown(a)
    low = max(low, -(1 << 63))
    assert is_explicit(a) or least_range(low, high) == a
    return f"{low}..{high}"


def has_all(found, wanted, what):
    """Each result that does not trap is a member."""
    for r in found:
        if r is not None and r not in wanted:
            sys.exit(f"{what}: {r} is outside {set_shown(wanted)}")


def explicit_of(choose, t, n):
    """An explicit set of values of a type, most of them telling ones."""
    least, most = ends(t, n)
    near = [least, least + 1, most - 1, most, most // 2, most // 2 + 1, 0, 1, 2, 3, 5, 7, 8, 10, 15, 16, 31, 63, 64, 127, 128, 250, 255, 256]
    near += [-x for x in (1, 2, 3, 7, 8, 128)] if signed(t) else []
    there = [x for x in near if least <= x <= most] + [choose.randint(least, most), choose.randint(0, most)]
    return hull(choose.sample(there, choose.choice((1, 1, 2, 2, 3, 4, 6))))


def range_of(choose, t, n):
    """A range whose members are values of a type."""
    least, most = ends(t, n)
    return choose.choice([r for r in RANGES if least <= r[0] and r[-1] <= most])


def set_pairs(choose, op, t, n):
    """Operands of an operator: both explicit, at the ends of the type; then one a range; then both."""
    least, most = ends(t, n)
    w = bits(t, n)
    shift = op in ("Shl", "Shr")
    told = {
        "Div": [((least, 10), (-1, 0, 5) if signed(t) else (0, 5)), ((least, most), (least, most))],
        "Rem": [((least, 10), (-1, 0, 7) if signed(t) else (0, 7)), ((least, most), (least, most))],
        "Mul": [((1, 3, most), (1, 2, most)), ((least, most), (least, 1))],
        "Add": [((0, 1, most), (0, 1, most)), ((least, 5), (least, 0, 1))],
        "Sub": [((least, 0, most), (0, 1, most)), ((least, 1), (least, 1))],
        "Shl": [((0, 1, 3), (-1, 0, 1, w - 2, w - 1, w)), ((least, most), (0, 1, 300))],
        "Shr": [((least, most), (-1, 0, 1, w - 1, w)), ((0, 1, 200), (-7, 0, 3, 300))],
    }.get(op, [((least, 0, most), (least, 1, most))])
    second = "Int" if shift else t
    for _ in range(2):
        told.append((explicit_of(choose, t, n), explicit_of(choose, second, n)))
        told.append((explicit_of(choose, t, n), range_of(choose, second, n)))
    told.append((range_of(choose, t, n), explicit_of(choose, second, n)))
    if shift:
        told.append((range_of(choose, t, n), (choose.choice((0, 1, w - 1, w, -1)),)))
    told.append((range_of(choose, t, n), range_of(choose, second, n)))
    return [(tuple(sorted(set(a))) if is_explicit(a) else a, tuple(sorted(set(b))) if is_explicit(b) else b) for a, b in told]


def set_rows_of_types(choose, n):
    """Rows of the calls that work in a type."""
    for t in PROMOTED:
        for op in NAMES:
            for a, b in set_pairs(choose, op, t, n):
                what = f"{op} {word(a)} {word(b)} {t}"
                want = set_result(op, a, b, t, n)
                has_all((result(op, x, y, t, n) for x in some_of(a) for y in some_of(b)), want, what)
                yield what, set_shown(want)
        for op in ("Neg", "Not", "Lnot"):
            least, most = ends(t, n)
            for a in (hull((least, 0, most)), explicit_of(choose, t, n), range_of(choose, t, n), between((least, most))):
                want = set_unary(op, a, t, n)
                has_all((unary(op, x, t, n) for x in some_of(a)), want, f"{op} {word(a)} {t}")
                yield f"{op} {word(a)} {t}", set_shown(want)
    for t in TYPES:
        yield f"whole {t}", set_shown(between(ends(t, n)))
        least, most = ends(t, n)
        for a in ((0,), (260,), hull((-1, 0, 1)), hull((least - 1, least, most, most + 1) if most < 1 << 63 else (least, most)), tuple(range(250, 266)),
                  explicit_of(choose, "LongLong", n), range_of(choose, "Int", n), range_of(choose, "LongLong", n)):
            a = tuple(x for x in a if x >= -(1 << 63)) if is_explicit(a) else a
            want = set_conversion(a, t, n)
            has_all((converted(x, t, n) for x in some_of(a)), want, f"to {word(a)} {t}")
            yield f"to {word(a)} {t}", set_shown(want)


def set_rows_of_orders(choose):
    """Rows of the calls that know no type."""
    sets = [(), (0,), (-(1 << 63),), ((1 << 64) - 1,), (-1, 1), (1, 3), tuple(range(64)), range(0, 128), range(-64, 64), range(0, 1 << 64),
            range(-(1 << 63), 1 << 63), range(-(1 << 64), 1 << 64)]
    for a in sets:
        yield f"room {word(a)}", str(set_room(a))
        yield f"bounds {word(a)}", shown(bounds(a))
        yield f"members {word(a)}", set_shown(a) if is_explicit(a) else "none"
        for v in (0, 2, -64, 127, 128, (1 << 63), -(1 << 64)):
            yield f"has {word(a)} {v}", "yes" if v in a else "no"
        for b in sets:
            yield f"below {word(a)} {word(b)}", "yes" if is_below(a, b) else "no"
            if a != tuple(range(64)) or b in ((), (0,), (1, 3)) or not is_explicit(b):
                yield f"join {word(a)} {word(b)}", set_shown(joined(a, b))
    for test in TESTS:
        pairs = [((1, 3), (3,)), ((), (1,)), ((1, 2), ()), (range(0, 128), ()), ((0, 1, 2), (1,)), (range(0, 128), (0,)), (range(0, 128), (127,)),
                 (range(0, 128), (64,)), (range(0, 128), (63, 64)), ((-1, 5, 200), range(0, 128)), (range(-64, 64), range(0, 256)),
                 (range(0, 1 << 64), ((1 << 64) - 1,)), (range(-(1 << 64), 1 << 64), (-(1 << 63), 10)), ((-(1 << 63), (1 << 64) - 1), ((1 << 64) - 1,))]
        pairs += [(choose.choice(sets), choose.choice(sets)) for _ in range(12)]
        for a, b in pairs:
            want = set_kept(test, a, b)
            has_all((x for x in some_of(a) if any(passes(test, x, y) for y in some_of(b))), want, f"keep {test} {word(a)} {word(b)}")
            has_all(some_of(want) if want else (), a, f"keep {test} {word(a)} {word(b)}")
            yield f"keep {test} {word(a)} {word(b)}", set_shown(want)


def set_rows_of_edges():
    """Rows of sets of 63, 64 and 65 numbers, and of images of so many."""
    for low in (0, -1, -64, 63, 64, -128, -129, 128):
        for count in (63, 64, 65):
            a, b = tuple(range(low, low + count - 1)), (low + count - 1,)
            yield f"join {word(a)} {word(b)}", set_shown(joined(a, b))
    for v in (63, 64, 80, -1, 128):
        yield f"join 0..63 {{{v}}}", set_shown(joined(tuple(range(64)), (v,)))
        yield f"join {{{v}}} 0..63", set_shown(joined((v,), tuple(range(64))))
    for t in ("Int", "ULongLong"):
        images = [("Add", tuple(range(8)), tuple(range(0, 8 * k + 1, 8))) for k in (6, 7, 8)] + [("Mul", (1, 2), tuple(range(1, k))) for k in (43, 44, 45)]
        images += [("Xor", tuple(range(64)), (1, 2)), ("And", tuple(range(64)), (7, 63)), ("Or", tuple(range(64)), (64, 128)), ("Rem", tuple(range(64)), (5, 7))]
        for op, a, b in images:
            yield f"{op} {word(a)} {word(b)} {t}", set_shown(set_result(op, a, b, t, 2))


def set_rows():
    """Sections of rows over explicit sets and ranges."""
    choose = random.Random(710)
    yield "== explicit sets and ranges: below, join, keep", "$ vals 2", list(dict.fromkeys(set_rows_of_orders(choose)))
    yield "== explicit sets: as many members as there may be", "$ vals 2", list(dict.fromkeys(set_rows_of_edges()))
    for n in (2, 4):
        yield f"== explicit sets and ranges, int of {n} bytes", f"$ vals {n}", list(dict.fromkeys(set_rows_of_types(choose, n)))


# Worked by hand.
BY_HAND = [
    ("== intervals, worked by hand", "$ span 2", [
        ("Sub 0..9 1..1 Int", "-1..8"),
        ("Sub 0..9 1..1 UInt", "0..65535"),
        ("Mul 0..18446744073709551615 0..18446744073709551615 ULongLong", "0..18446744073709551615"),
        ("Mul 4294967295..4294967295 4294967297..4294967297 ULongLong", "18446744073709551615..18446744073709551615"),
        ("Mul -9223372036854775808..-1 -9223372036854775808..1 LongLong", "-9223372036854775808..9223372036854775807"),
        ("Shl 1..1 63..63 ULongLong", "0..9223372036854775808"),
        ("Shl 1..3 62..63 LongLong", "0..9223372036854775807"),
        ("Shr -9223372036854775808..-1 63..63 LongLong", "-9223372036854775808..-1"),
        ("Neg -9223372036854775808..-9223372036854775808 LongLong", "none"),
        ("Div -9223372036854775808..-9223372036854775808 -1..-1 LongLong", "-9223372036854775808..9223372036854775807"),
        ("Div -2147483648..-2147483648 -1..-1 Long", "-2147483648..2147483647"),
        ("Rem -9223372036854775808..-9223372036854775808 -1..-1 LongLong", "0..0"),
        ("Rem 0..9223372036854775807 9223372036854775807..9223372036854775807 LongLong", "0..9223372036854775806"),
        ("Add 9223372036854775807..9223372036854775807 1..1 LongLong", "none"),
        ("Add 18446744073709551615..18446744073709551615 1..1 ULongLong", "0..18446744073709551615"),
        ("Sub -9223372036854775808..-9223372036854775808 0..1 LongLong", "-9223372036854775808..-9223372036854775808"),
        ("Mul 9223372036854775807..9223372036854775807 9223372036854775807..9223372036854775807 LongLong", "none"),
        ("Mul -9223372036854775808..-9223372036854775808 -9223372036854775808..-9223372036854775808 LongLong", "none"),
        ("Mul 3037000499..3037000500 3037000500..3037000500 LongLong", "9223372033963249500..9223372036854775807"),
        ("And -1..0 5..18446744073709551615 LongLong", "unclear"),
        ("Shl 1..1 64..64 ULongLong", "none"),
        ("Shl 1..1 -1..-1 ULongLong", "none"),
        ("Shl 5..5 0..0 Int", "0..5"),
        ("Shl 1..1 15..15 Int", "0..32767"),
        ("Shl 1..1 15..15 UInt", "0..32768"),
        ("Shl -3..-1 1..1 Int", "none"),
        ("Shr 18446744073709551615..18446744073709551615 0..63 ULongLong", "0..18446744073709551615"),
        ("Shr -8..-8 16..99 Int", "none"),
        ("Lt -9223372036854775808..-1 0..9223372036854775807 LongLong", "1..1"),
        ("Div 1..9 0..0 Int", "none"),
        ("keep Lt 0..9 9..9", "0..8"),
        ("keep Gt 18446744073709551615..18446744073709551615 18446744073709551615..18446744073709551615", "none"),
        ("keep Lt -9223372036854775808..-9223372036854775808 -9223372036854775808..-9223372036854775808", "none"),
        ("keep Ne 0..18446744073709551615 0..0", "1..18446744073709551615"),
        ("to 0..0 Bool", "0..0"),
        ("to -9223372036854775808..-1 Bool", "1..1"),
        ("to 0..18446744073709551615 Bool", "0..1"),
        ("to -1..-1 ULongLong", "0..18446744073709551615"),
        ("to 255..256 UChar", "0..255"),
        ("one 18446744073709551615", "18446744073709551615..18446744073709551615"),
        ("one 18446744073709551616", "unclear"),
        ("one -9223372036854775808", "-9223372036854775808..-9223372036854775808"),
        ("has 0..9 9", "yes"),
        ("has 0..9 10", "no"),
        ("has 0..9 -1", "no"),
        ("has none 0", "no"),
        ("members 3..3", "none"),
        ("members none", "none"),
        ("room none", "1180591620717411303424"),
        ("room 7..7", "1180591620717411303423"),
        ("room -9223372036854775808..18446744073709551615", "1152921504606846976000"),
    ]),
    ("== explicit sets and ranges, worked by hand", "$ vals 2", [
        ("Add {250} {10} UInt", "{260}"),
        ("to {260} UChar", "{4}"),
        ("Div {10} {0,5} Int", "{2}"),
        ("keep Ne {1,3} {3}", "{1}"),
        ("join 0..63 {80}", "0..127"),
        ("join 0..62 {63}", "{" + ",".join(map(str, range(64))) + "}"),
        ("join none none", "{}"),
        ("one 7", "{7}"),
        ("one 18446744073709551616", "unclear"),
        ("whole Bool", "{0,1}"),
        ("whole UChar", "0..255"),
        ("Add {32767} {0,1} Int", "{32767}"),
        ("Add {65535} {0,1} UInt", "{0,65535}"),
        ("Sub 0..127 {1} Int", "-128..127"),
        ("Div {-32768} {-1} Int", "{}"),
        ("Rem {-32768} {-1} Int", "{}"),
        ("Mul {18446744073709551615} {18446744073709551615} ULongLong", "{1}"),
        ("Mul {-9223372036854775808} {-1,1} LongLong", "{-9223372036854775808}"),
        ("Mul 0..18446744073709551615 {18446744073709551615} ULongLong", "0..18446744073709551615"),
        ("Shl {1} {-1,0,14,15,16} Int", "{1,16384}"),
        ("Shl {1} {15} UInt", "{32768}"),
        ("Shl {-1} {0} Int", "{}"),
        ("Shr {-1} {0,15} Int", "{-1}"),
        ("And 0..127 {3} Int", "{0,1,2,3}"),
        ("Lt 0..127 {128} Int", "{1}"),
        ("Not {0} Int", "{-1}"),
        ("Neg {-32768,1} Int", "{-1}"),
        ("Lnot {0,5} Int", "{0,1}"),
        ("to {0,2} Bool", "{0,1}"),
        ("to 0..127 Bool", "{0,1}"),
        ("to {-1} UChar", "{255}"),
        ("to 0..255 SChar", "-128..127"),
        ("below {127} 0..127", "yes"),
        ("below 0..127 {127}", "no"),
        ("room none", "123"),
        ("room 0..63", "59"),
        ("room 0..127", "58"),
        ("room -9223372036854775808..18446744073709551615", "0"),
        ("bounds -9223372036854775808..18446744073709551615", "-18446744073709551616..18446744073709551615"),
        ("bounds none", "none"),
        ("members {3,1}", "{1,3}"),
        ("members none", "{}"),
        ("members 0..64", "none"),
        ("And {-1} {5} UInt", "unclear"),
        ("Add {1} {1} Char", "unclear"),
    ]),
    ("== calls that are worked three times, and the room of all results", "$ often 3", [
        ("And 0..63 0..63 ULongLong", "177"),
        ("Div {10} {0,5} Int", "366"),
        ("Add 0..127 {0} UInt", "174"),
        ("join 0..31 32..63", "177"),
        ("join {1} {1}", "366"),
        ("Add {1} {1} Char", "unclear"),
    ]),
]

CHAIN = [
    ("== the solver looks again only at what may be broken", "$ chain", [("least", "1000 of 1000 are yes, after at most 8000 calls")]),
    ("== tables are ordered, joined and copied part by part", "$ chain", [
        ("order", "true, the other way false; yes in the join 1000, in a copy of the lowest 0; rooms 1000 and 0"),
        ("met", "of part 0 true, of part 999 false, in the solution true"),
    ]),
]


def main():
    answers = sys.argv[1:] == ["stdout"]
    count = 0
    for title, setting, rows in [*CHAIN, *BY_HAND, *span_rows(), *set_rows(), *places.sections(), *codes.sections()]:
        if count:
            print()
        print(title)
        print(setting)
        for case, want in rows:
            print(f"{case} => {want}" if answers else case)
            count += 1
    if answers:
        print(f"cases: {count}")
    print(count, file=sys.stderr)


if __name__ == "__main__":
    main()
