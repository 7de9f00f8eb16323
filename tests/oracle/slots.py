"""Slots: which variables of a program may be told by few bits, who accesses them, and why some are not coded: for plans.py.

A program is one as lowered.py reads it, with the functions of lowering.py; what is known of its runs is asked of facts.py. It is written
from C99 and the documentation (docs/PROFILE.md, docs/COMMAND.md, docs/DECISIONS.md), apart from crates/cc_slots and the crates below it."""
from collections import namedtuple

from lowering import Body

LONE, READ, WRITTEN = CLASSES = ["lone", "read", "written"]
REASONS = ["volatile", "const", "addressed", "automatic", "torn", "index", "wide"]
SIZES = {"bool": 1, "char": 1, "schar": 1, "uchar": 1, "short": 2, "ushort": 2, "long": 4, "ulong": 4, "llong": 8, "ullong": 8}
ELEMENT_BITS = [0, 1, 2, 4, 8, 16]

# A read or a write of a place at a reached point, with the point's function.
Access = namedtuple("Access", "point func is_write place")


def is_scalar(t):
    return t["shape"][0] in ("int", "ptr")


def elements_of(t):
    """The innermost elements of a type."""
    while t["shape"][0] == "array":
        t = t["shape"][1]
    return t


class Layouts:
    """Sizes and alignments; of a structure that was changed by what is told of its members."""

    def __init__(self, p, target, changed=()):
        self.p, self.target, self.changed = p, target, dict(changed)

    def scalar(self, t):
        what, *of = t["shape"]
        size = self.target.pointer_bytes if what == "ptr" else self.target.int_bytes if of[0] in ("int", "uint") else SIZES[of[0]]
        return size, min(size, self.target.align)

    def of(self, t):
        what, *of = t["shape"]
        if what == "array":
            size, align = self.of(of[0])
            return size * of[1], align
        if what == "struct":
            return self.structure(of[0])
        return self.scalar(t)

    def structure(self, s):
        parts = self.changed.get(s) or [self.of(t) for _, t in self.p.structures[s][1]]
        greatest = max([align for _, align in parts], default=1)
        return up(end_of(parts), greatest), greatest


def up(n, align):
    return -(-n // align) * align


def end_of(parts):
    """Where sizes with alignments end that lie one behind the other."""
    end = 0
    for size, align in parts:
        end = up(end, align) + size
    return end


def words_of_array(bits, count):
    """The bits that an element takes, and the bytes of the array."""
    taken = next(n for n in ELEMENT_BITS if n >= bits)
    return taken, 0 if taken == 0 else -(-count // (8 // taken)) if taken < 8 else count * taken // 8


class Slot:
    def __init__(self, number, key, name, ctype, count, elements):
        """`elements` is the number of an array's elements, and None for what is none."""
        self.number, self.key, self.name, self.ctype, self.count, self.elements = number, key, name, ctype, count, elements

    @property
    def is_array(self):
        return self.elements is not None

    @property
    def is_member(self):
        return self.key[0] == "member"

    @property
    def group(self):
        return 3 * (self.key[1] + 1 if self.is_member else 0) + CLASSES.index(self.kind)


# ---- what stands in the text

def statements_in(body):
    for s in body:
        yield s
        for part in s[1:]:
            if isinstance(part, list):
                yield from statements_in(part if s[0] != "switch" else [x for _, inner in part for x in inner])


def expressions_in(x):
    """All tuples in a statement that are expressions or places."""
    if isinstance(x, tuple):
        yield x
    if isinstance(x, (tuple, list)):
        for y in x:
            yield from expressions_in(y)


def access_of(body, s):
    """Whether a statement writes, and what it accesses that is no register."""
    if s[0] != "do" or s[1][0] != "assign":
        return None
    _, place, e = s[1]
    if e[0] == "load" and not body.is_register(e[1]):
        return False, e[1]
    return None if body.is_register(place) else (True, place)


def is_through_pointer(place):
    while place[0] == "element":
        place = place[1]
    return place[0] == "deref"


class Slots:
    def __init__(self, p, target, facts, atomic):
        self.p, self.target, self.facts, self.atomic = p, target, facts, atomic
        self.layouts = Layouts(p, target)
        self.bodies = [Body(p, f) for f in p.funcs]
        self.find_places()
        self.find_slots()
        self.find_accesses()
        self.taken = self.taken_keys()
        for slot in self.all:
            self.judge(slot)

    # ---- objects (C99 6.2.5, 20; 6.7.3)

    def find_places(self):
        """How often each structure stands in RAM, which stand at a place that is not const, and which have automatic objects."""
        self.in_ram, self.standing, self.automatic = {}, set(), set()
        for _, t, _ in self.p.objects:
            self.stand(t, False, 0 if elements_of(t)["const"] else 1, True)
        for f in self.p.funcs:
            for _, t in f["locals"]:
                self.stand(t, False, 0, False)

    def stand(self, t, const, count, is_static):
        while t["shape"][0] == "array":
            count *= t["shape"][2]
            t = t["shape"][1]
        const = const or t["const"]
        if t["shape"][0] != "struct":
            return
        s = t["shape"][1]
        if not const:
            self.standing.add(s)
        if not is_static:
            self.automatic.add(s)
        self.in_ram[s] = self.in_ram.get(s, 0) + count
        for _, member in self.p.structures[s][1]:
            self.stand(member, const, count, is_static)

    def find_slots(self):
        self.all = []
        for n, (name, t, _) in enumerate(self.p.objects):
            inner = t["shape"][1] if t["shape"][0] == "array" else t
            if is_scalar(inner):
                elements = t["shape"][2] if t["shape"][0] == "array" else None
                count = 0 if inner["const"] else elements or 1
                self.all.append(Slot(len(self.all), ("object", n), name, inner, count, elements))
        for s, (tag, members) in enumerate(self.p.structures):
            for m, (name, t) in enumerate(members):
                if is_scalar(t):
                    self.all.append(Slot(len(self.all), ("member", s, m), f"{tag}.{name}", t, self.in_ram.get(s, 0), None))
        self.by_key = {slot.key: slot for slot in self.all}

    # ---- accesses

    def keys_of(self, body, point, place):
        """The keys that a place names by its form, or through a pointer by the facts at a point."""
        while place[0] == "element":
            place = place[1]
        if place[0] == "static":
            return {("object", place[1])}
        if place[0] == "member":
            return {("member", body.place_type(place[1])["shape"][1], place[2])}
        return set(self.facts.keys(point, place)) if place[0] == "deref" else set()

    def find_accesses(self):
        """Those at reached points, by key, and the keys with a volatile access anywhere in the text."""
        self.accesses = {slot.key: [] for slot in self.all}
        self.volatile = set()
        for func, body in enumerate(self.bodies):
            for s in statements_in(self.p.funcs[func]["body"]):
                found = access_of(body, s)
                if found and not is_through_pointer(found[1]) and body.place_type(found[1])["volatile"]:
                    self.volatile |= self.keys_of(body, None, found[1])
        for point, (func, s) in enumerate(self.facts.points):
            found = access_of(self.bodies[func], s) if s is not None and self.facts.is_reached(point) else None
            if found:
                self.note(point, func, *found)

    def note(self, point, func, is_write, place):
        body = self.bodies[func]
        keys = self.keys_of(body, point, place)
        for key in keys & set(self.accesses):
            self.accesses[key].append(Access(point, func, is_write, place))
        if body.place_type(place)["volatile"]:
            self.volatile |= keys

    def taken_keys(self):
        """Of what the address is taken, in bodies and in first values."""
        taken = set()
        for func, body in enumerate(self.bodies):
            for e in expressions_in(self.p.funcs[func]["body"]):
                if len(e) == 2 and e[0] == "addr" and not is_through_pointer(e[1]):
                    taken |= self.keys_of(body, None, e[1])
        for _, _, leaves in self.p.objects:
            taken |= {self.key_of_leaf(leaf) for leaf in leaves if leaf.startswith("at:")}
        return taken

    def key_of_leaf(self, leaf):
        _, n, _, _, *path = leaf.split(":")
        t, key = self.p.objects[int(n)][1], ("object", int(n))
        for step in path[0].split(",") if path else []:
            if step[0] == "i":
                t = t["shape"][1]
            else:
                key = ("member", t["shape"][1], int(step[1:]))
                t = self.p.structures[t["shape"][1]][1][int(step[1:])][1]
        return key

    # ---- handlers

    def may_enter_from(self, point):
        """The functions that may run behind an entry at a point: a handler has level 0 or one above the running level."""
        if not self.facts.may_be_on(point):
            return set()
        levels = self.facts.levels[self.facts.points[point][0]]
        least = min(levels, default=99)
        return {f for f in range(len(self.p.funcs)) if any(n == 0 or n > least for n in self.facts.froms[f])}

    def counts_at(self, point, slot, writes_alone):
        """Whether an access of a handler counts at a point."""
        entered = self.may_enter_from(point)
        return any(a.func in entered and (a.is_write or not writes_alone) for a in self.accesses[slot.key])

    # ---- what is known of a slot

    def judge(self, slot):
        mine = self.accesses[slot.key]
        slot.bytes = self.layouts.scalar(slot.ctype)[0]
        slot.reads = [a for a in mine if not a.is_write]
        slot.writes = [a for a in mine if a.is_write]
        from_handlers = [a for a in mine if self.facts.by_handler[a.func]]
        slot.kind = WRITTEN if any(a.is_write for a in from_handlers) else READ if from_handlers else LONE
        slot.values = self.facts.whole(slot.key)
        slot.least = 1 if slot.is_member else 0
        slot.coding, slot.bits = slot.values.coding(slot.least) or (None, slot.least if slot.values.is_empty() else 8 * slot.bytes)
        slot.reason = next((r for r in REASONS if getattr(self, f"is_{r}")(slot)), None)

    def is_volatile(self, slot):
        return slot.ctype["volatile"] or slot.key in self.volatile

    def is_const(self, slot):
        return slot.ctype["const"] or slot.is_member and slot.key[1] not in self.standing

    def is_addressed(self, slot):
        return slot.key in self.taken

    def is_automatic(self, slot):
        return slot.is_member and slot.key[1] in self.automatic

    def is_torn(self, slot):
        return (slot.bytes > self.atomic and slot.kind != LONE
                and any(self.counts_at(a.point, slot, False) for a in slot.reads + slot.writes))

    def is_index(self, slot):
        return slot.is_array and any(not self.is_in_bounds(a, slot.elements) for a in slot.reads + slot.writes
                                     if not is_through_pointer(a.place))

    def is_in_bounds(self, access, count):
        values = self.facts.value(access.point, access.place[2])
        return values.is_empty() or 0 <= values.low and values.high < count

    def is_wide(self, slot):
        if slot.coding is None or slot.bits >= 8 * slot.bytes or slot.bits > 16:
            return True
        return slot.is_array and words_of_array(slot.bits, slot.elements)[1] >= slot.elements * slot.bytes
