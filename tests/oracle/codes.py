"""Cases of codes, of what codings cost, and of rankings, with the wanted answers.

They were worked out by hand. Here they are held against a second reading of the rules, in numbers alone: the bits of a code are
the fewest that tell the values apart and no fewer than asked; the first kind that fits is taken.
"""
import re
from fractions import Fraction

# so many members make the set all numbers of 7 bits with a sign
SEVEN_BITS = ",".join(map(str, range(-64, 64)))

CODES = [
    # numbers as they stand
    ("i{0,1,2,3} 0", "Direct 2 0>0>0 1>1>1 2>2>2 3>3>3"),
    ("i{0,1,2,3} 1", "Direct 2 0>0>0 1>1>1 2>2>2 3>3>3"),
    ("i{0,1,2,3} 8", "Direct 8 0>0>0 1>1>1 2>2>2 3>3>3"),
    ("i{3,1,2} 0", "Direct 2 1>1>1 2>2>2 3>3>3"),
    ("i{0,1} 0", "Direct 1 0>0>0 1>1>1"),
    ("i{0,1,2,3,4} 0", "Direct 3 0>0>0 1>1>1 2>2>2 3>3>3 4>4>4"),
    ("i{65535} 16", "Direct 16 65535>65535>65535"),
    ("i{1} 17", "Direct 17"),
    ("iBool 0", "Direct 1 0>0>0 1>1>1"),
    # one value
    ("i{5} 0", "Const 0 5>0>5"),
    ("i{5} 1", "Biased(5) 1 5>0>5"),
    ("i{5} 2", "Biased(5) 2 5>0>5"),
    ("i{5} 3", "Direct 3 5>5>5"),
    ("i{0} 0", "Const 0 0>0>0"),
    ("i{0} 1", "Direct 1 0>0>0"),
    ("i{-7} 0", "Const 0 -7>0>-7"),
    ("i{-7} 1", "Biased(-7) 1 -7>0>-7"),
    # from the least number on, or by position
    ("i{5,7} 0", "Table 1 5>0>5 7>1>7"),
    ("i{5,7} 1", "Table 1 5>0>5 7>1>7"),
    ("i{5,7} 2", "Biased(5) 2 5>0>5 7>2>7"),
    ("i{5,7} 3", "Direct 3 5>5>5 7>7>7"),
    ("i{0,3} 0", "Table 1 0>0>0 3>1>3"),
    ("i{-1,0,1} 0", "Biased(-1) 2 -1>0>-1 0>1>0 1>2>1"),
    ("i{-1,0} 0", "Biased(-1) 1 -1>0>-1 0>1>0"),
    ("i{-3,0,3} 0", "Table 2 -3>0>-3 0>1>0 3>2>3"),
    ("i{-3,0,3} 3", "Biased(-3) 3 -3>0>-3 0>3>0 3>6>3"),
    ("i{4,5,6,7} 0", "Biased(4) 2 4>0>4 5>1>5 6>2>6 7>3>7"),
    ("i{4,5,6,8} 0", "Table 2 4>0>4 5>1>5 6>2>6 8>3>8"),
    ("i{1,2,4,8} 0", "Table 2 1>0>1 2>1>2 4>2>4 8>3>8"),
    ("i{255,256} 0", "Biased(255) 1 255>0>255 256>1>256"),
    ("i{65536} 16", "Biased(65536) 16 65536>0>65536"),
    ("i{0,100,200} 0", "Table 2 0>0>0 100>1>100 200>2>200"),
    ("i{0,1,2,3,4,5,6,7,8,9} 0", "Direct 4 0>0>0 1>1>1 2>2>2 3>3>3 4>4>4 5>5>5 6>6>6 7>7>7 8>8>8 9>9>9"),
    ("i{7} 0", "Const 0 7>0>7"),
    ("i{0,10,20,30,40} 0", "Table 3 0>0>0 10>1>10 20>2>20 30>3>30 40>4>40"),
    ("i{-9223372036854775808,18446744073709551615} 0",
     "Table 1 -9223372036854775808>0>-9223372036854775808 18446744073709551615>1>18446744073709551615"),
    ("i{18446744073709551614,18446744073709551615} 0",
     "Biased(18446744073709551614) 1 18446744073709551614>0>18446744073709551614 18446744073709551615>1>18446744073709551615"),
    # all numbers of some bits
    (f"i{{{SEVEN_BITS}}} 0", "Biased(-64) 7"),
    (f"i{{{SEVEN_BITS}}} 0 v-64", "Biased(-64) 7 -64>0>-64"),
    (f"i{{{SEVEN_BITS}}} 0 v0", "Biased(-64) 7 0>64>0"),
    (f"i{{{SEVEN_BITS}}} 0 v63", "Biased(-64) 7 63>127>63"),
    ("iUChar 0", "Direct 8"),
    ("iUChar 0 v0", "Direct 8 0>0>0"),
    ("iUChar 0 v200", "Direct 8 200>200>200"),
    ("iUChar 0 v255", "Direct 8 255>255>255"),
    ("iUChar 0 v256", "Direct 8 no member"),
    ("iSChar 0", "Biased(-128) 8"),
    ("iSChar 0 v-128", "Biased(-128) 8 -128>0>-128"),
    ("iSChar 0 v0", "Biased(-128) 8 0>128>0"),
    ("iSChar 0 v127", "Biased(-128) 8 127>255>127"),
    ("iSChar 9 v-1", "Biased(-128) 9 -1>127>-1"),
    ("iUShort 0 v65535", "Direct 16 65535>65535>65535"),
    ("iShort 0 v-32768", "Biased(-32768) 16 -32768>0>-32768"),
    ("iShort 0 v32767", "Biased(-32768) 16 32767>65535>32767"),
    ("iULong 0", "Direct 32"),
    ("iLong 0", "Biased(-2147483648) 32"),
    ("iULongLong 0", "Direct 64"),
    ("iLongLong 0", "Biased(-9223372036854775808) 64"),
    # what is no member, and nothing
    ("i{5,7} 0 v7", "Table 1 7>1>7"),
    ("i{5,7} 0 v6", "Table 1 no member"),
    ("i{0,1} 0 0", "Direct 1 no member"),
    ("i{} 0", "unclear"),
    ("p{} 0", "unclear"),
    # addresses
    ("p{0} 0", "Const 0 0>0>0"),
    ("p{0} 1", "Table 1 0>0>0"),
    ("p{f3} 0", "Const 0 f3>0>f3"),
    ("p{f3,f1} 0", "Table 1 f1>0>f1 f3>1>f3"),
    ("p{o1@0/1,o2@0/1,0} 0", "Table 2 0>0>0 o1@0/1>1>o1@0/1 o2@0/1>2>o2@0/1"),
    ("p{o2@0/1,f9,0,o1@0/1} 0", "Table 2 0>0>0 f9>1>f9 o1@0/1>2>o1@0/1 o2@0/1>3>o2@0/1"),
    ("p{o1@2/4,o1@0/4} 0", "Table 1 o1@0/4>0>o1@0/4 o1@2/4>1>o1@2/4"),
    ("p{o1-m2@0/1,o1-m1@0/1,o1@0/1} 0", "Table 2 o1@0/1>0>o1@0/1 o1-m1@0/1>1>o1-m1@0/1 o1-m2@0/1>2>o1-m2@0/1"),
    ("p{0,o1@0/1} 4", "Table 4 0>0>0 o1@0/1>1>o1@0/1"),
    ("p{o1@0..63/80} 0 o1@63/80", "Table 6 o1@63/80>63>o1@63/80"),
    ("p{0,f1} 0 f2", "Table 1 no member"),
    ("p{0,f1} 0 v0", "Table 1 no member"),
    # an automatic one, and places
    ("p{a0.1.2@0/1} 0", "none"),
    ("p{a0.1.2@0/1} 8", "none"),
    ("p{0,o1@0/1,a0.1.2@0/1} 0", "none"),
    ("p{o1@0..64/80} 0", "none"),
    ("p{o1@0..64/80} 0 o1@3/80", "none"),
]

COSTS = [
    # READS WRITES GUARDED SHAPE KIND MEMBERS, and code and time
    ("0 0 0 scalar Direct 4", "0 0"),
    ("1 0 0 scalar Direct 4", "4 3"),
    ("0 1 0 scalar Direct 4", "8 6"),
    ("0 0 1 scalar Direct 4", "6 4"),
    ("3 2 1 scalar Direct 4", "34 25"),
    ("1 0 0 array Direct 4", "10 7"),
    ("0 1 0 array Direct 4", "14 10"),
    ("1 0 0 scalar Biased 4", "6 4"),
    ("0 1 0 scalar Biased 4", "10 7"),
    ("1 0 0 array Biased 4", "12 8"),
    ("0 1 0 array Biased 4", "16 11"),
    ("1 1 1 array Biased 4", "34 23"),
    ("1 0 0 scalar Table 4", "10 7"),
    ("0 1 0 scalar Table 4", "20 12"),
    ("0 1 0 scalar Table 1", "8 6"),
    ("0 1 0 scalar Table 2", "12 8"),
    ("0 1 0 scalar Table 64", "260 132"),
    ("1 1 1 array Table 4", "48 31"),
    ("0 0 7 array Table 9", "42 28"),
    ("0 1 0 scalar Direct 64", "8 6"),
    ("5 7 3 array Const 1", "0 0"),
    ("5 7 3 scalar Const 1", "0 0"),
    ("281474976710656 0 0 scalar Direct 1", "1125899906842624 844424930131968"),
    ("281474976710656 281474976710656 281474976710656 array Table 64", "81064793292668928 42502721483309056"),
    ("281474976710657 0 0 scalar Direct 1", "unclear"),
    ("0 1 0 scalar Table 65", "unclear"),
]

RANKINGS = [
    ("$ rank 1,1 -,-", [
        ("nothing", "slots"),
        ("0:5/3,2", "slots 0"),
        # 6 for 3 and 7 for 4
        ("5:6/1,1 0:7/2,1", "slots 5 0"),
        ("0:7/2,1 5:6/1,1", "slots 5 0"),
        # 4 for 2 and 6 for 3
        ("3:4/1,0 1:6/1,1", "slots 1 3"),
        ("1:6/1,1 3:4/1,0", "slots 1 3"),
        # nothing, for any price, and 1 for 201
        ("4:0/0,0 2:0/9,9 7:1/100,100", "slots 7 2 4"),
        ("9:1/0,0 8:2/1,0", "slots 8 9"),
        ("0:1/0,0 1:3/1,1 2:2/0,0", "slots 2 0 1"),
        ("4294967295:1/0,0 0:1/0,0", "slots 0 4294967295"),
        ("10:4294967296/0,0", "slots 10"),
        ("0:4294967295/1152921504606846975,0 1:1/0,0", "slots 1 0"),
        ("0:1/1152921504606846976,0", "slots 0"),
        ("0:4294967297/0,0", "too much"),
        ("0:4294967296/0,0 1:1/0,0", "too much"),
        ("0:1/1152921504606846977,0", "too much"),
        ("0:1/0,1152921504606846977", "too much"),
        ("0:1/0,0 0:2/0,0", "unclear"),
        ("0:1", "unclear"),
    ]),
    ("$ rank 0,0 -,-", [("0:1/50,50 1:3/900,0 2:2/0,0", "slots 1 2 0")]),
    ("$ rank 1000,0 -,-", [("0:1/0,999 1:1000/1,0", "slots 0 1")]),
    ("$ rank 0,3 -,-", [("0:7/99,2 1:4/0,1", "slots 0 1"), ("1:4/0,1 2:9/5,3", "slots 1 2")]),
    ("$ rank 1,1 10,-", [
        # 60 for 16, 50 for 15 and 40 for 14
        ("0:60/6,9 1:50/5,9 2:40/4,9", "slots 0 2"),
        ("0:60/10,0", "slots 0"),
        ("0:60/11,0", "slots"),
        ("0:9/10,0 1:1/0,0", "slots 1 0"),
        ("0:100/10,0 1:1/1,0 2:0/0,0", "slots 0 2"),
    ]),
    # 8 for 3, 9 for 5 and 7 for 10
    ("$ rank 1,1 10,3", [("4:9/1,3 5:8/1,1 6:7/9,0", "slots 5 6")]),
    ("$ rank 1,1 -,0", [("0:5/100,0 1:50/1,1", "slots 0")]),
    ("$ rank 1,1 0,0", [("0:5/0,0 1:5/0,1 2:5/1,0", "slots 0")]),
    ("$ rank 1001,1 -,-", [("0:1/0,0", "unclear")]),
    ("$ rank 1,1 x,-", [("0:1/0,0", "unclear")]),
]


def bits_for(count):
    return (count - 1).bit_length()


def kind_of(numbers, least):
    """The coding of some numbers, and the code of each."""
    numbers = sorted(numbers)
    bits = max(least, bits_for(len(numbers)))
    low, high = numbers[0], numbers[-1]
    if len(numbers) == 1 and bits == 0:
        return "Const", bits, [0]
    if low >= 0 and high < 2**bits:
        return "Direct", bits, numbers
    if high - low < 2**bits:
        return f"Biased({low})", bits, [n - low for n in numbers]
    return "Table", bits, list(range(len(numbers)))


def hold_codes():
    for case, want in CODES:
        word, least, *one = case.split()
        if not word.startswith("i{") or want == "unclear" or one:
            continue
        numbers = [int(n) for n in word[2:-1].split(",")]
        kind, bits, codes = kind_of(numbers, int(least))
        told = "".join(f" {n}>{code}>{n}" for n, code in zip(sorted(numbers), codes)) if bits <= 16 and len(numbers) <= 64 else ""
        assert want == f"{kind} {bits}{told}", case


def cost(reads, writes, guarded, shape, kind, members):
    if kind == "Const":
        return 0, 0
    read, write = [4, 3], [8, 6]
    for k, (array, biased, lookup, test) in enumerate([(6, 2, 6, 4), (4, 1, 4, 2)]):
        more = (array if shape == "array" else 0) + (biased if kind == "Biased" else 0)
        read[k] += more + (lookup if kind == "Table" else 0)
        write[k] += more + (test * max(members - 1, 0) if kind == "Table" else 0)
    return tuple(reads * read[k] + writes * write[k] + guarded * (6, 4)[k] for k in (0, 1))


def hold_costs():
    for case, want in COSTS:
        reads, writes, guarded, shape, kind, members = case.split()
        if want != "unclear":
            code, time = cost(int(reads), int(writes), int(guarded), shape, kind, int(members))
            assert want == f"{code} {time}", case


def ranked(weights, budgets, slots):
    def before(slot):
        number, gain, code, time = slot
        return -Fraction(gain, 1 + weights[0] * code + weights[1] * time), number

    taken, sums = [], [0, 0]
    for number, _, *costs in sorted(slots, key=before):
        with_it = [a + b for a, b in zip(sums, costs)]
        if all(most is None or total <= most for total, most in zip(with_it, budgets)):
            taken.append(number)
            sums = with_it
    return taken


def hold_rankings():
    for setting, rows in RANKINGS:
        _, _, weights, budgets = setting.split()
        for case, want in rows:
            if want.startswith("slots"):
                slots = [[int(n) for n in re.split("[:/,]", word)] for word in case.split() if word != "nothing"]
                most = [None if word == "-" else int(word) for word in budgets.split(",")]
                chosen = ranked([int(n) for n in weights.split(",")], most, slots)
                assert want == " ".join(["slots", *map(str, chosen)]), case


def sections():
    hold_codes()
    hold_costs()
    hold_rankings()
    return [
        ("== codes of values, worked by hand", "$ codes", CODES),
        ("== what codings cost, worked by hand", "$ estimate", COSTS),
        *(("== which slots are coded, worked by hand", setting, rows) for setting, rows in RANKINGS),
    ]
