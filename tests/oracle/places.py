"""The cases of sets of addresses, which `domains.py` writes beside its own.

The answers are worked out here from the definitions, and not by the program that is tested: a set is the addresses that it has, an
array's elements one by one; only where these are more than 64 is it told by places. What stands in BY_HAND was worked out by hand.
"""
import random

MOST = 64

# An address is NULL, ("f", number) or ("at", root, path, index, count); a root is ("o", object) or ("a", activation, function, local);
# a path has steps ("m", member) and ("i", index).
NULL = ("0",)


def shown(a):
    if a == NULL:
        return "0"
    if a[0] == "f":
        return f"f{a[1]}"
    _, root, path, index, count = a
    place = f"o{root[1]}" if root[0] == "o" else "a" + ".".join(map(str, root[1:]))
    return place + "".join(f"-{kind}{number}" for kind, number in path) + f"@{index}/{count}"


def kept(a):
    """An automatic address stands for those of all activations."""
    if a[0] == "at" and a[1][0] == "a":
        return ("at", ("a", 0, *a[1][2:]), *a[2:])
    return a


def starred(a):
    """The place of an address: each index is 0."""
    a = kept(a)
    if a[0] != "at":
        return a
    return ("at", a[1], tuple((kind, 0 if kind == "i" else number) for kind, number in a[2]), 0, a[4])


def listing(a):
    """Null, functions, static objects, automatic ones by function and local; then by path, a path before those that begin with it and a
    member before an element, and at last by index."""
    if a == NULL:
        return (0,)
    if a[0] == "f":
        return (1, a[1])
    _, root, path, index, count = a
    owner = (2, root[1]) if root[0] == "o" else (3, root[2], root[3], root[1])
    steps = tuple((1 if kind == "m" else 2, number) for kind, number in path)
    return (*owner, steps, index, count)


class Set:
    """A set of addresses: the exact ones, or places."""

    def __init__(self, addresses=(), places=None):
        self.exact = places is None
        self.members = {kept(a) for a in addresses} if self.exact else {starred(a) for a in places}
        if self.exact and len(self.members) > MOST:
            self.members = {starred(a) for a in self.members}
            self.exact = False

    def has(self, a):
        return (kept(a) if self.exact else starred(a)) in self.members

    def below(self, other):
        return (self.exact or not other.exact) and all(other.has(a) for a in self.members)

    def join(self, other):
        if self.exact and other.exact:
            return Set(self.members | other.members)
        return Set(places=self.members | other.members)

    def moved(self, numbers):
        objects = [a for a in self.members if a[0] == "at"]
        if self.exact:
            return Set(("at", root, path, index, count) for _, root, path, old, count in objects for index in range(count + 1) if index - old in numbers)
        return Set(places=objects) if objects else Set()

    def room(self, most):
        return most + 1 + MOST - len(self.members) if self.exact else most - len(self.members)

    def text(self):
        return ("" if self.exact else "*") + listed(sorted(self.members, key=listing))


def listed(addresses):
    return "{" + ",".join(map(shown, addresses)) + "}"


def objects(number, count, indexes, path=()):
    return [("at", ("o", number), path, index, count) for index in indexes]


# ---- numbers, as the domains have them

def hull(numbers):
    """A set of numbers, as a text: the members, or all numbers of some bits."""
    numbers = sorted(set(numbers))
    if len(numbers) <= MOST:
        return "{" + ",".join(map(str, numbers)) + "}"
    low, high = numbers[0], numbers[-1]
    bits = 0
    if low >= 0:
        while high >= 1 << bits:
            bits += 1
        return f"0..{(1 << bits) - 1}"
    bits = 1
    while not (-(1 << bits - 1) <= low and high < 1 << bits - 1):
        bits += 1
    return f"{-(1 << bits - 1)}..{(1 << bits - 1) - 1}"


WHOLE = {"Bool": range(2), "UChar": range(256), "Int": range(-32768, 32768), "ULongLong": range(1 << 64)}


def numbers_of(word, interval=False):
    """The numbers that a word of a case has, in an explicit set or in an interval."""
    if word in WHOLE:
        return WHOLE[word]
    these = [int(w) for w in word[1:-1].split(",") if w]
    return range(min(these), max(these) + 1) if interval and these else these


# ---- rows

def pool(choose):
    """Addresses that meet one another: elements of the same arrays, and places inside one another."""
    some = [NULL, ("f", 0), ("f", 3), ("f", 4294967295)]
    some += objects(0, 1, [0, 1]) + objects(1, 4, range(5)) + objects(1, 4, [1], (("m", 0),)) + objects(1, 1, [0], (("m", 0),))
    some += objects(2, 3, [0, 2], (("i", 0),)) + objects(2, 3, [0, 3], (("i", 1),)) + objects(2, 1, [0], (("i", 1), ("m", 2)))
    some += [("at", ("a", n, f, v), (), i, 2) for n in (0, 7) for f in (0, 1) for v in (0, 1) for i in (0, 1)]
    choose.shuffle(some)
    return some


def many(choose):
    """More than 64 addresses, or about as many, as words and as a set."""
    count = choose.choice([63, 64, 65, 66, 80])
    number = choose.randrange(3)
    words = [f"o{number}@0..{count - 1}/{count + 3}"]
    addresses = objects(number, count + 3, range(count))
    for a in choose.sample(pool(choose), choose.randrange(3)):
        words.append(shown(a))
        addresses.append(a)
    return "{" + ",".join(words) + "}", Set(addresses)


def some_set(choose):
    if choose.random() < 0.3:
        return many(choose)
    addresses = choose.sample(pool(choose), choose.choice([0, 1, 1, 2, 3, 5, 9]))
    return listed(addresses), Set(addresses)


def numbers_word(choose):
    if choose.random() < 0.25:
        return choose.choice(list(WHOLE))
    return "{" + ",".join(str(choose.randint(-4, 5)) for _ in range(choose.randrange(4))) + "}"


def size(these):
    """How many numbers there are; `len` takes no more than 63 bits."""
    return these.stop - these.start if isinstance(these, range) else len(these)


def yes(holds):
    return "yes" if holds else "no"


def of_members(exact, addresses):
    """Whether these are the members of a set, in order."""
    s = Set(addresses) if exact else Set(places=addresses)
    fits = s.exact == exact and (exact or any(a[0] == "at" for a in addresses) or len(addresses) > MOST)
    if fits and sorted(s.members, key=listing) == addresses:
        return s.text()
    return "no members of such a set"


def set_rows(choose):
    rows = []
    for _ in range(60):
        word, s = some_set(choose)
        other_word, other = some_set(choose)
        rows.append((f"set {word}", s.text()))
        rows.append((f"join {word} {other_word}", s.join(other).text()))
        rows.append((f"copy {word}", s.text()))
        rows.append((f"below {word} {other_word}", yes(s.below(other))))
        rows.append((f"exact {word}", s.text() if s.exact else "none"))
        rows.append((f"starred {word}", "none" if s.exact else s.text()[1:]))
        a = choose.choice(pool(choose))
        rows.append((f"has {word} {shown(a)}", yes(s.has(a))))
        most = choose.choice([0, 1, 5, 64, 65536, (1 << 64) - 1])
        rows.append((f"room {word} {most}", str(s.room(most)) if s.exact or len(s.members) <= most else "unclear"))
        for call, interval in (("moved", False), ("moved-span", True)):
            by = numbers_word(choose)
            rows.append((f"{call} {word} {by}", s.moved(numbers_of(by, interval)).text()))
        part = choose.sample(sorted(s.members, key=listing), min(3, len(s.members)))
        rows.append((f"below {listed(part)} {word}", yes(Set(part).below(s))))
    for _ in range(60):
        addresses = [kept(a) for a in choose.sample(pool(choose), choose.randrange(1, 6))]
        if choose.random() < 0.5:
            addresses = [starred(a) for a in addresses]
        if choose.random() < 0.7:
            addresses = sorted(set(addresses), key=listing)
        for call, exact in (("of-exact", True), ("of-starred", False)):
            rows.append((f"{call} {listed(addresses)}", of_members(exact, addresses)))
    return list(dict.fromkeys(rows))


def some_abs(choose):
    if choose.random() < 0.5:
        word = numbers_word(choose)
        return f"i{word}", ("i", word)
    word, s = some_set(choose)
    return f"p{word}", ("p", s)


def numbers_text(word, interval, more=None):
    """The set of the numbers of one or two words, as it is printed."""
    these = [numbers_of(w, interval) for w in (word, more) if w is not None]
    ends = [x for r in these for x in ([r[0], r[-1]] if isinstance(r, range) else r)]
    if interval:
        return f"{min(ends)}..{max(ends)}" if ends else "{}"
    if all(size(r) <= MOST for r in these):
        return hull(x for r in these for x in r)
    return hull([*range(min(ends), min(ends) + MOST + 1), max(ends)])


def abs_rows(choose, interval):
    rows = []
    for _ in range(40):
        word, (kind, a) = some_abs(choose)
        other_word, (other_kind, b) = some_abs(choose)
        if kind != other_kind:
            joined = below = "unlike"
        elif kind == "p":
            joined, below = "p" + a.join(b).text(), yes(a.below(b))
        else:
            joined, below = "i" + numbers_text(a, interval, b), yes(set_below(a, b, interval))
        rows.append((f"join {word} {other_word}", joined))
        rows.append((f"below {word} {other_word}", below))
        rows.append((f"copy {word}", "p" + a.text() if kind == "p" else "i" + numbers_text(a, interval)))
        value = choose.randint(-3, 6)
        rows.append((f"has {word} v{value}", yes(kind == "i" and value in numbers_of(a, interval))))
        place = choose.choice(pool(choose))
        rows.append((f"has {word} {shown(place)}", yes(kind == "p" and a.has(place))))
    return list(dict.fromkeys(rows))


def set_below(a, b, interval):
    a, b = numbers_of(a, interval), numbers_of(b, interval)
    if isinstance(a, range) and isinstance(b, range):
        return a[0] in b and a[-1] in b
    return size(a) <= 256 and all(x in b for x in a)


def facts_rows(choose):
    rows = []
    for _ in range(30):
        parts = [(numbers_word(choose), some_set(choose), some_set(choose)) for _ in range(2)]
        words = [f"{n}|{s[0]}|{t[0]}" for n, s, t in parts]
        (n, s, t), (m, u, v) = parts
        rows.append((f"join {words[0]} {words[1]}", "|".join([numbers_text(n, False, m), s[1].join(u[1]).text(), t[1].join(v[1]).text()])))
        rows.append((f"copy {words[0]}", "|".join([numbers_text(n, False), s[1].text(), t[1].text()])))
        rows.append((f"below {words[0]} {words[1]}", yes(set_below(n, m, False) and s[1].below(u[1]) and t[1].below(v[1]))))
        more = f"{n}|{s[0]}|{t[0][:-1]}{',' if len(t[0]) > 2 else ''}0}}"
        rows.append((f"below {words[0]} {more}", "yes"))
    return list(dict.fromkeys(rows))


# Worked by hand.
BY_HAND = [
    ("== sets of addresses, worked by hand", "$ addrs", [
        ("join {o0@0..63/80} {o0@64/80}", "*{o0@0/80}"),
        ("has {o0@0..64/80} o0@79/80", "yes"),
        ("has {o0@0..63/80} o0@79/80", "no"),
        ("has {o0@0..64/80} o0@0/79", "no"),
        ("set {}", "{}"),
        ("set {o1@0/1,f2,0,f1}", "{0,f1,f2,o1@0/1}"),
        ("set {a7.1.0@0/1,o3@0/1,a2.0.5@0/1}", "{o3@0/1,a0.0.5@0/1,a0.1.0@0/1}"),
        ("set {o1-m0@0/1,o1@0/1,o1-i0@0/1,o1-m0-m0@0/1}", "{o1@0/1,o1-m0@0/1,o1-m0-m0@0/1,o1-i0@0/1}"),
        ("join {a1.0.0@0/1} {a2.0.0@0/1}", "{a0.0.0@0/1}"),
        ("has {a1.0.0@0/1} a9.0.0@0/1", "yes"),
        ("join {o0@0..63/64} {f1}", "*{f1,o0@0/64}"),
        ("join {o0-i0@0..40/40} {o0-i1@0..40/40}", "*{o0-i0@0/40}"),
        ("below {o0@0..64/80} {o0@0..63/80}", "no"),
        ("below {o0@0..63/80} {o0@0..64/80}", "yes"),
        ("below {o0@5/80,f1} {o0@0..64/80}", "no"),
        ("below {} {}", "yes"),
        ("moved {o0@0/4,o0@3/4} {1}", "{o0@1/4,o0@4/4}"),
        ("moved {o0@0/4,o0@4/4} {-1,1}", "{o0@1/4,o0@3/4}"),
        ("moved {o0@4/4} {1}", "{}"),
        ("moved {0,f1} {0}", "{}"),
        ("moved {o0@0/4} {}", "{}"),
        ("moved {o0@0/4} ULongLong", "{o0@0/4,o0@1/4,o0@2/4,o0@3/4,o0@4/4}"),
        ("moved {o0@0/70} UChar", "*{o0@0/70}"),
        ("moved {o0@0..64/80,f1} {}", "*{o0@0/80}"),
        ("moved-span {o0@0/4} {1,3}", "{o0@1/4,o0@2/4,o0@3/4}"),
        ("moved {o0@0/4} {1,3}", "{o0@1/4,o0@3/4}"),
        ("moved-span {o0@0/4} {}", "{}"),
        ("room {} 0", "65"),
        ("room {0,f1} 18446744073709551615", "18446744073709551678"),
        ("room {o0@0..64/80} 1", "0"),
        ("room {o0@0..64/80} 0", "unclear"),
        ("of-exact {}", "{}"),
        ("of-exact {0,f1}", "{0,f1}"),
        ("of-exact {f1,0}", "no members of such a set"),
        ("of-exact {f1,f1}", "no members of such a set"),
        ("of-exact {a1.0.0@0/1}", "no members of such a set"),
        ("of-exact {o0@0..63/80}", "{" + ",".join(f"o0@{i}/80" for i in range(64)) + "}"),
        ("of-exact {o0@0..64/80}", "no members of such a set"),
        ("of-starred {}", "no members of such a set"),
        ("of-starred {0,f1}", "no members of such a set"),
        ("of-starred {0,o0@0/80}", "*{0,o0@0/80}"),
        ("of-starred {o0@1/80}", "no members of such a set"),
        ("of-starred {o0-i1@0/80}", "no members of such a set"),
        ("of-starred {" + ",".join(f"f{i}" for i in range(65)) + "}", "*{" + ",".join(f"f{i}" for i in range(65)) + "}"),
        ("of-starred {" + ",".join(f"f{i}" for i in range(64)) + "}", "no members of such a set"),
        ("moved {" + ",".join(f"f{i}" for i in range(65)) + "} {0}", "{}"),
        ("set o0@0/1", "unclear"),
        ("set {o0}", "unclear"),
    ]),
    ("== integers or addresses, worked by hand", "$ abs vals", [
        ("join i{1} i{2}", "i{1,2}"),
        ("join p{0} p{f1}", "p{0,f1}"),
        ("join i{1} p{0}", "unlike"),
        ("below i{} p{}", "unlike"),
        ("below i{1} i{1,2}", "yes"),
        ("below p{0,f1} p{0}", "no"),
        ("copy i{3,1}", "i{1,3}"),
        ("has i{0} v0", "yes"),
        ("has i{0} 0", "no"),
        ("has p{0} 0", "yes"),
        ("has p{0} v0", "no"),
    ]),
    ("== facts with a set of numbers and a table, worked by hand", "$ facts", [
        ("join {1}|{0}|{} {2}|{}|{f1}", "{1,2}|{0}|{f1}"),
        ("below {1}|{0}|{} {1,2}|{0}|{f1}", "yes"),
        ("below {3}|{0}|{} {1,2}|{0}|{f1}", "no"),
        ("below {1}|{0}|{f1} {1,2}|{0}|{}", "no"),
        ("below {1}|{f1}|{} {1,2}|{0}|{f1}", "no"),
        ("copy {1}|{0}|{f1}", "{1}|{0}|{f1}"),
    ]),
]


def sections():
    choose = random.Random(20)
    yield from BY_HAND
    yield "== sets of addresses", "$ addrs", set_rows(choose)
    yield "== integers or addresses, with explicit sets and ranges", "$ abs vals", abs_rows(choose, False)
    yield "== integers or addresses, with intervals", "$ abs span", abs_rows(choose, True)
    yield "== facts with a set of numbers and a table", "$ facts", facts_rows(choose)
