"""What slots.py asks of the least facts about a program, which facts.py works out, and what codes sets of values have."""
import abstract
from codes import bits_for
from facts import System
from places import Set


class Values:
    """The set of the values of a key: of integers or of addresses."""

    def __init__(self, system, found):
        self.found, self.are_addresses = found, isinstance(found, Set)
        self.text = system.set_text(found)
        if self.are_addresses:
            self.size = len(found.members)
        elif isinstance(found, range):
            self.low, self.high, self.size = found.start, found.stop - 1, found.stop - found.start
        else:
            self.size = len(found)
            self.low, self.high = (found[0], found[-1]) if found else (0, 0)

    def is_empty(self):
        return self.size == 0

    def spelled(self):
        return self.text

    def coding(self, least):
        """The kind of the codes and their bits. None where there are none."""
        if self.is_empty() or self.are_addresses and not abstract.are_told(self.found):
            return None
        bits = max(least, bits_for(self.size))
        if bits == 0:
            return "const", bits
        if self.are_addresses:
            return "table", bits
        if self.low >= 0 and self.high < 2 ** bits:
            return "direct", bits
        return "biased" if self.high - self.low < 2 ** bits else "table", bits


class Known:
    """The least facts about a lowered program."""

    def __init__(self, p, target):
        abstract.WORDS["char"] = "SChar" if target.char_signed else "UChar"
        p.handlers = [i for i, f in enumerate(p.funcs) if f["kind"] or f["name"] in p.linked.handlers]
        self.system = System(p, abstract.Vals)
        self.facts = self.system.least()
        self.points = [(point.func, point.statement) for point in self.system.flow.points]
        self.by_handler = self.facts.by_handler
        self.levels, self.froms = ([members(n) for n in found] for found in (self.facts.levels, self.facts.from_))

    def is_reached(self, point):
        return self.facts.at[point] is not None

    def may_be_on(self, point):
        return self.facts.at[point].on

    def whole(self, key):
        return Values(self.system, self.facts.whole[self.system.key_number[key]])

    def value(self, point, e):
        return Values(self.system, self.system.value(self.facts, point, e))

    def keys(self, point, place):
        return [self.system.keys[n] for n in self.system.named(self.facts, point, place)]


def members(levels):
    return {n for n in range(8) if levels >> n & 1}
