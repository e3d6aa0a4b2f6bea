#!/usr/bin/env python3
"""Prints a batch of sheets, good and damaged, for `plan --batch`.

Each record is `LEN\\n` and LEN bytes of sheet text. The batch is the same on
every run and under every Python 3: the generator below is our own.

    make_cases.py           the batch, on standard output
    make_cases.py --list    one line per case (number, size, group) instead
"""
from math import gcd

from batch import Dice, add, print_batch, sheet


dice = Dice(20240611)


def both(group, rows):
    add(group, sheet("DM", rows))
    add(group, sheet("ED", rows))


# --------------------------------------------------------- guard on the cost

def search_is_short(regular, budget=200_000):
    """Walks the plain search of offsets, and gives up after `budget` tests."""
    offsets, start = [], 0
    while len(offsets) < len(regular):
        j = len(offsets)
        _, _, cj, _, tj = regular[j]
        found = None
        for candidate in range(start, tj):
            ok = True
            for i in range(j):
                budget -= 1
                if budget < 0:
                    return False
                p = gcd(regular[i][4], tj)
                distance = (candidate - offsets[i]) % p
                if not regular[i][2] <= distance <= p - cj:
                    ok = False
                    break
            if ok:
                found = candidate
                break
        if found is not None:
            offsets.append(found)
            start = 0
        elif offsets:
            start = offsets.pop() + 1
        else:
            break
    return True


def is_cheap(text, budget=3_000_000):
    """False for a sheet that would cost much. Reads loosely: what it cannot
    read is a fault of reading, and that is cheap."""
    rows = []
    for line in text.split(b"\n")[1:-1]:
        fields = line.split(b" ")
        if len(fields) != 6 or not all(f.isdigit() and len(f) < 8 for f in fields[2:]):
            return True
        rows.append((fields[0], *map(int, fields[2:])))
    h = 1
    for row in rows:
        if row[4] == 0:
            return True
        h = h * row[4] // gcd(h, row[4])
        if h > 1_000_000:
            return True
    units = max([row[1] for row in rows], default=0) + 2 * h
    if units * len(rows) > budget:
        return False
    return search_is_short([row for row in rows if row[0] == b"R"])


# --------------------------------------------------------- examples of RULES.md

def examples():
    g = "example"
    for text in ("", "\n", "DM", "DM\n", "DM\n\n", "DM\nN a 0 70000 1\n",
                 "DM\nN a 0 1 1 0 x\n", "DM\nN a 0 1 1 1 \n", "DM\r\n", "ED\n"):
        add(g, text)
    both(g, [("N", 0, 1, 64, 64), ("N", 0, 1, 15625, 15625), ("N", 0, 1, 128, 128)])
    both(g, [("R", 0, 2, 5, 5), ("R", 0, 3, 10, 10)])
    both(g, [("R", 0, 2, 4, 4), ("R", 0, 3, 8, 8)])
    both(g, [("R", 0, 1, 2, 2)] * 3)
    both(g, [("R", 0, 3, 16, 16), ("N", 0, 1, 3, 16)])
    both(g, [("R", 0, 3, 16, 16), ("N", 0, 1, 4, 16)])
    both(g, [("N", 0, 3, 4, 4), ("N", 0, 2, 4, 4)])
    both(g, [("N", 0, 2, 2, 4), ("N", 0, 2, 3, 4)])
    printed = "R probe 0 3 16 16\nR vent 0 1 4 4\nR screen 0 2 8 8\nN log 0 2 16 16\n"
    add(g, "DM\n" + printed)
    add(g, "ED\n" + printed)
    both(g, [("R", 0, 2, 16, 16), ("N", 0, 1, 16, 16), ("R", 0, 2, 32, 32),
             ("N", 0, 4, 31, 32), ("N", 0, 1, 32, 32), ("N", 0, 4, 14, 14),
             ("N", 0, 1, 13, 14), ("N", 0, 1, 8, 8)])


# --------------------------------------------------------- boundaries of reading

def sizes():
    g = "size"
    good = "N a 0 1 30 30\n"

    def filled(size, head, end="\n"):
        return head + "x" * (size - len(head) - len(end)) + end

    add(g, filled(4096, "DM\nN "))                     # name far too long
    add(g, filled(4097, "DM\nN "))                     # 11
    add(g, filled(4096, "DM\n" + good * 3, ""))        # 12
    add(g, filled(4097, "DM\n" + good * 3, ""))        # 11 comes before 12
    add(g, filled(4096, "DM\n" + good * 23 + "N a 0 1 30 30 "))   # 13 (24, 7)
    add(g, filled(4096, "DM\n" + good * 24))           # 15, whatever line 25 is
    add(g, filled(4096, ""))                           # 13 (0, 1)
    add(g, "DM\n" + "\n" * 4093)                       # 13 (1, 1)
    add(g, "ED\n" + "\n" * 4094)                       # 11
    many = "ED\n" + good * 292                         # 4,091 bytes
    add(g, many + "N a 0\n"[-(4096 - len(many)):])     # 15


def policies():
    g = "policy"
    for first in ("dm", "ED ", " ED", "D", "DMM", "DE", "DM N a 0 1 1 1", "\0DM"):
        add(g, first + "\nN a 0 1 1 1\n")
    add(g, b"\xef\xbb\xbfDM\n")
    add(g, "N a 0 1 1 1\n")
    add(g, "DM\nED\n")


def line_counts():
    g = "lines"
    good = [f"N t{i} {i} 1 30 30\n" for i in range(1, 26)]
    add(g, "ED\n" + "".join(good[:24]))
    add(g, "DM\n" + "".join(good))
    add(g, "DM\n" + "".join(good[:24]) + "\n")                    # 15
    add(g, "DM\n" + "".join(good[:24]) + "Q\n")                   # 15
    add(g, "DM\n" + "".join(good[:23]) + "N t 0 1 1\n" + good[24])   # 13 (24, 6)
    add(g, "DM\n" + "".join(good[:23]) + "N t 0 1 1 0\n" + good[24])  # 14 (24, 6)
    add(g, "DM\n" + "".join(good)[:-1])                           # 12
    add(g, "dm\n" + "".join(good))                                # 13 (0, 1)
    add(g, "DM\n" + good[0] + "\n" + good[1])                     # 13 (2, 1)


def regular_counts():
    g = "regular"
    regs = [f"R s{i} 0 1 16 16\n" for i in range(1, 9)]
    eight = "".join(regs)
    ords = [f"N t{i} 0 1 60 64\n" for i in range(1, 17)]
    add(g, "DM\n" + eight)
    add(g, "ED\n" + eight + ords[0])
    add(g, "DM\n" + eight + regs[0])                              # 16 (9, 1)
    add(g, "DM\n" + eight + "R\n")                                # 16: before field 2
    add(g, "DM\n" + eight + "R bad_name x\n")                     # 16
    add(g, "DM\n" + eight + "R  0 1 1 1\n")                       # 16
    add(g, "DM\n" + eight + "r a 0 1 1 1\n")                      # 13 (9, 1)
    add(g, "DM\n" + eight + "RR a 0 1 1 1\n")                     # 13 (9, 1)
    add(g, "DM\n" + eight + "N a 0 0 1 1\n" + regs[0])            # 14 (9, 4)
    add(g, "ED\n" + "".join(regs[:7]) + "R a 0 1 1 x\n" + regs[0])  # 13 (8, 6)
    add(g, "DM\n" + eight + "".join(ords[:15]) + regs[0])         # 16 (24, 1)
    add(g, "ED\n" + eight + "".join(ords) + regs[0])              # 15 comes before 16
    mixed = "".join(a + b for a, b in zip(regs, ords))
    add(g, "DM\n" + mixed)
    add(g, "ED\n" + mixed + "".join(ords[8:]))                    # 8 R, 24 lines
    add(g, "ED\n" + mixed + regs[0])                              # 16 (17, 1)


def names():
    g = "name"
    for name in ("0", "AZaz09", "ABCDEFGHIJKL", "abcdefghijklm", "", "x" * 268,
                 "@", "[", "`", "{", "/", ":", "a_b", "a\0"):
        add(g, f"DM\nN {name} 0 1 2 2\n")
    add(g, b"ED\nR caf\xc3\xa9 0 1 2 2\n")
    add(g, "DM\nN same 0 1 4 4\nN same 0 1 4 4\nR same 0 1 4 4\n")


def numbers():
    g = "number"
    # field 3, then 4, 5 and 6, each as the only thing in doubt
    for text in ("00", "01", "60000", "60001", "1000000", "9999999", "10000000", "0000001",
                 "-1", "4294967296", "/", ":"):
        add(g, f"DM\nN a {text} 1 2 2\n")
    for text in ("0", "2", "3", "01", "60000", "60001", "99999999"):
        add(g, f"DM\nN a 0 {text} 2 2\n")
    for text in ("2", "3", "60000", "60001", "12345678"):
        add(g, f"ED\nN a 0 3 {text} 60000\n")
    for text in ("4", "5", "60000", "60001", "1234567", "12345678"):
        add(g, f"ED\nR a 0 3 5 {text}\n")
    add(g, "DM\nN a 60000 60000 60000 60000\n")
    add(g, "ED\nR a 60000 60000 60000 60000\n")
    add(g, "DM\nN a 60001 0 0 0\n")           # field 3 first
    add(g, "DM\nN a 0 60001 x\n")             # range in 4 before form in 5
    add(g, "DM\nR a 60001 1 1 1\n")           # r of a regular line is tested too
    add(g, "DM\nR a 06 1 1 1\n")


def fields():
    g = "field"
    whole = "N a 0 1 2 2"
    parts = whole.split(" ")
    for count in range(1, 6):
        add(g, "DM\n" + " ".join(parts[:count]) + "\n")
        add(g, "DM\n" + " ".join(parts[:count] + [""] + parts[count:]) + "\n")
    add(g, "ED\n" + " ".join(parts[:5]) + " \n")    # an empty field 6
    for extra in (" x", "  ", "\t"):
        add(g, "DM\n" + whole + extra + "\n")
    for kind in ("", "n", "NN", "\0"):
        add(g, f"DM\n{kind} a 0 1 2 2\n")
    add(g, b"DM\n\xff a 0 1 2 2\n")
    add(g, "DM\n" + whole + "\n ")            # 12
    add(g, "DM\n" + whole + "\n \n")          # 13 (2, 1)
    add(g, "DM\n" + whole + "\r\n")           # 13 (1, 6)


# --------------------------------------------------------- boundaries of planning

def hyperperiods():
    g = "hyperperiod"

    def periods(policy, *ts):
        add(g, sheet(policy, [("N", 0, 1, t, t) for t in ts]))

    periods("DM", 64, 15625)                  # 1,000,000
    periods("ED", 15625, 64, 50, 40, 8)       # 1,000,000
    periods("ED", 27, 37037)                  # 999,999
    periods("DM", 101, 9901)                  # 1,000,001: 20 (2, 0)
    periods("DM", 60000, 59999)               # 20 (2, 0)
    periods("ED", 7, 11, 13, 17, 19, 23)      # 20 (6, 0)
    periods("ED", 59999, 59999, 59999, 16, 17, 60000)   # 959,984, then 20 (5, 0)
    periods("ED", *[59999 - i for i in range(24)])      # far beyond 64 bits at the end
    # the longest runs: m = 60,000 and H = 1,000,000; one misses late
    add(g, sheet("ED", [("N", 60000, 1, 64, 64), ("N", 0, 15380, 15625, 15625)]))
    add(g, sheet("DM", [("N", 60000, 1, 64, 64), ("N", 0, 15380, 15624, 15625)]))
    # 20 before 21, 22, 23 and 25
    add(g, sheet("DM", [("R", 0, 2, 4, 4), ("R", 0, 3, 8, 8), ("N", 0, 1, 1, 59999), ("N", 0, 1, 1, 60000)]))
    add(g, sheet("DM", [("R", 0, 1, 2, 2)] * 3 + [("N", 0, 59999, 59999, 59999), ("N", 0, 9, 9, 59)]))


def pairs():
    g = "pair"
    n = ("N", 0, 1, 6, 6)
    both(g, [n, ("R", 0, 1, 3, 3), n, ("R", 0, 1, 2, 2)])                  # p = 1: (2, 4)
    both(g, [("R", 0, 1, 12, 12), ("R", 0, 2, 4, 4), n, ("R", 0, 3, 8, 8)])  # (2, 4)
    # (1, 4) comes before (2, 3)
    add(g, sheet("DM", [("R", 0, 1, 30, 30), ("R", 0, 4, 10, 10), ("R", 0, 4, 6, 6), ("R", 0, 1, 7, 7)]))
    add(g, sheet("ED", [("R", 0, 5, 30, 30), ("R", 0, 4, 10, 10), ("R", 0, 4, 12, 12), ("R", 0, 2, 6, 6)]))
    # p equal to Ci + Cj, and one less
    both(g, [("R", 7, 2, 5, 10), ("R", 9, 3, 5, 15)])
    add(g, sheet("DM", [("R", 7, 2, 5, 10), ("R", 9, 4, 5, 15)]))
    # equal periods; a sum of lengths beyond 65,535
    both(g, [("R", 0, 5, 10, 10), ("R", 0, 5, 10, 10)])
    add(g, sheet("ED", [("R", 0, 40000, 60000, 60000), ("R", 0, 40000, 60000, 60000)]))
    # 21 before 22, 23 and 25
    add(g, sheet("DM", [("R", 0, 1, 2, 2)] * 3 + [("R", 0, 2, 4, 4), ("N", 0, 1, 1, 1)]))


def searches():
    g = "search"
    both(g, [("R", 0, 1, 4, 4), ("R", 0, 1, 4, 4), ("R", 0, 1, 2, 2)])      # must go back
    both(g, [("R", 0, 1, 8, 8), ("R", 0, 1, 8, 8), ("R", 0, 1, 4, 4), ("R", 0, 1, 2, 2)])
    add(g, sheet("DM", [("R", 0, 1, 8, 8)] * 2 + [("R", 0, 1, 4, 4)] * 3))  # just fits
    add(g, sheet("ED", [("R", 0, 1, 8, 8)] * 3 + [("R", 0, 1, 4, 4)] * 3))  # 22, load above H
    add(g, sheet("ED", [("R", 0, 2, 6, 6), ("R", 0, 2, 6, 12), ("R", 0, 2, 6, 12), ("R", 0, 2, 9, 12)]))
    add(g, sheet("DM", [("R", 0, 1, 6, 6), ("R", 0, 1, 10, 10), ("R", 0, 1, 15, 15)]))
    # 22 although the load is small: two residues for three lines
    both(g, [("R", 0, 1, 4, 4), ("R", 0, 1, 6, 6), ("R", 0, 1, 10, 10)])
    # an odd mix of periods: offsets found, and a pair that has none
    add(g, sheet("DM", [("N", 0, 1, 9, 9), ("R", 0, 1, 6, 6), ("R", 0, 1, 9, 9), ("R", 0, 2, 12, 12)]))
    add(g, sheet("ED", [("R", 0, 3, 12, 12), ("R", 0, 3, 24, 24), ("R", 0, 2, 8, 8), ("R", 0, 2, 16, 16)]))
    add(g, sheet("DM", [("R", 0, 1, 6, 6), ("R", 0, 1, 6, 6), ("R", 0, 1, 8, 8), ("R", 0, 1, 12, 12)]))
    # 22 before 23 and 25
    add(g, sheet("DM", [("R", 0, 1, 2, 2)] * 3 + [("N", 0, 1, 1, 1)]))
    add(g, sheet("DM", [("R", 0, 1, 1, 1)]))


def deadlines():
    g = "deadline"
    r3, r1 = ("R", 0, 3, 16, 16), ("R", 0, 1, 16, 16)
    both(g, [r1, ("N", 0, 1, 1, 16)])                            # m = 1
    both(g, [r1, r3, ("N", 0, 1, 3, 16), r3])                    # the lowest is line 2
    both(g, [("R", 0, 3, 5, 16), ("N", 0, 1, 6, 16), ("N", 0, 1, 5, 16)])   # min(5, 4)
    both(g, [("R", 0, 3, 5, 16), ("N", 0, 1, 7, 16)])            # min(5, 6)
    both(g, [("R", 0, 3, 5, 16), ("R", 0, 2, 2, 8)])             # no ordinary lines
    add(g, sheet("DM", [("R", 0, 3, 16, 16), ("N", 0, 16, 16, 16), ("N", 0, 3, 3, 16)]))  # 23 before 25
    add(g, sheet("ED", [("R", 0, 3, 16, 16), ("N", 0, 16, 16, 16), ("N", 0, 3, 3, 16)]))  # 25


# --------------------------------------------------------- boundaries of the rehearsal

def loads():
    g = "load"
    both(g, [("N", 0, 2, 4, 4), ("N", 0, 2, 4, 4)])              # equal
    both(g, [("N", 0, 2, 4, 4), ("N", 3, 2, 4, 4), ("N", 0, 1, 1000, 1000)])   # above by 1
    both(g, [("N", 1, 1, 2, 2), ("N", 5, 1, 3, 3), ("N", 0, 1, 6, 6)])   # equal, releases apart
    both(g, [("R", 0, 1, 1, 1), ("N", 0, 1, 60000, 60000)])
    both(g, [("R", 5, 5, 10, 10), ("N", 60000, 5, 10, 10)])      # m = 60,000
    both(g, [("N", 0, 60000, 60000, 60000)] * 2)


def misses():
    g = "miss"
    both(g, [("N", 0, 2, 5, 5), ("N", 0, 4, 7, 7)])              # D* = T; ED passes
    both(g, [("N", 0, 4, 7, 7), ("N", 0, 2, 5, 5)])
    both(g, [("N", 0, 1, 2, 2), ("N", 0, 1, 3, 3), ("N", 0, 1, 6, 6)])
    # two and three lines struck out in one unit
    both(g, [("N", 0, 1, 4, 8), ("N", 0, 1, 4, 8), ("N", 0, 4, 4, 32)])
    both(g, [("N", 0, 2, 4, 16), ("N", 0, 2, 4, 16), ("N", 0, 2, 4, 16), ("N", 0, 2, 4, 16)])
    both(g, [("R", 0, 4, 16, 16), ("N", 0, 2, 5, 16), ("N", 0, 2, 5, 16)])
    # a regular line is ahead although its deadline is late
    both(g, [("N", 0, 1, 8, 8), ("R", 0, 5, 16, 16), ("N", 0, 3, 9, 16)])
    # an ordinary line struck out in the unit of its next release, after a while
    both(g, [("N", 3, 2, 5, 5), ("N", 0, 4, 7, 7)])
    both(g, [("N", 2, 3, 8, 8), ("N", 1, 2, 6, 6), ("N", 0, 2, 8, 8), ("N", 9, 1, 24, 24)])
    # ties: equal D* and equal release + D*
    both(g, [("N", 2, 2, 6, 12), ("N", 0, 3, 8, 12), ("N", 1, 3, 7, 12)])


# --------------------------------------------------------- random sheets

PERIODS = (4, 5, 6, 8, 10, 12, 15, 16, 20, 24, 30, 32, 40, 48, 60)


def add_random(group, count, make):
    made = 0
    while made < count:
        text = make()
        if is_cheap(text.encode("ascii")):
            add(group, text)
            made += 1


def row(kind, c, t, tight):
    c = max(1, min(c, t))
    d = t if dice.below(3) == 0 else max(c, t - dice.below(max(1, t * tight // 100)))
    r = dice.pick((0, 0, 0, dice.below(t), dice.below(3 * t)))
    return (kind, r, c, d, t)


def random_good():
    """Mostly ordinary lines, shares that come near the whole processor."""
    policy = dice.pick(("DM", "ED"))
    count = dice.between(2, 7)
    share = dice.between(80, 120)             # percent, over all lines
    rows = []
    for i in range(count):
        t = dice.pick(PERIODS)
        c = (t * share * dice.between(60, 140) + count * 5000) // (count * 10000)
        kind = "R" if i < 2 and dice.below(3) == 0 else "N"
        rows.append(row(kind, min(c, 3) if kind == "R" else c, t, 60))
    return sheet(policy, rows)


def random_full():
    """A last line fills the load up to H exactly (or beyond it by one)."""
    policy = dice.pick(("DM", "ED", "ED"))
    base = dice.pick((24, 30, 32, 48, 60))
    rows, load = [], 0
    for _ in range(dice.between(1, 5)):
        t = dice.pick([p for p in PERIODS if base % p == 0])
        c = dice.between(1, max(1, t // 3))
        if load + c * (base // t) < base:
            load += c * (base // t)
            rows.append(row("N", c, t, 25))
    rest = base - load                        # filled by a line of any period that can
    t = dice.pick([p for p in (*PERIODS, base) if base % p == 0 and rest % (base // p) == 0])
    c = min(t, rest // (base // t) + (dice.below(6) == 0))
    rows.insert(dice.below(len(rows) + 1), ("N", dice.below(2 * base), c, t, t))
    return sheet(policy, rows)


def random_regular():
    """Several regular lines, periods with large common divisors."""
    policy = dice.pick(("DM", "ED"))
    step = dice.pick((4, 6, 8, 8, 12, 16))
    rows = []
    for _ in range(dice.between(2, 8)):
        t = step * dice.pick((1, 1, 2, 2, 3, 4))
        rows.append(row("R", dice.between(1, max(1, step // dice.pick((2, 3, 4, 6)))), t, 30))
    for _ in range(dice.below(4)):
        t = step * dice.pick((2, 4, 6))
        rows.insert(dice.below(len(rows) + 1), row("N", dice.between(1, 1 + t // 5), t, 100))
    return sheet(policy, rows)


# --------------------------------------------------------- damaged sheets

def mutate(text):
    """One damage at a place by chance."""
    spaces = [i for i, b in enumerate(text) if b == 32]
    digits = [i for i, b in enumerate(text) if 48 <= b <= 57]
    lines = text.split(b"\n")
    way = dice.below(13)
    if way == 0 and spaces:                   # a space doubled
        at = dice.pick(spaces)
        return text[:at] + b" " + text[at:]
    if way == 1 and spaces:                   # a space dropped
        at = dice.pick(spaces)
        return text[:at] + text[at + 1:]
    if way in (2, 3, 11, 12) and digits:      # a digit replaced
        at = dice.pick(digits)
        return text[:at] + dice.pick((b"0", b"1", b"2", b"7", b"9", b"O")) + text[at + 1:]
    if way == 4:                              # a strange byte put in
        at = dice.below(len(text) + 1)
        return text[:at] + bytes([dice.pick((0, 9, 13, 255))]) + text[at:]
    if way == 5:                              # a strange byte in place of another
        at = dice.below(len(text))
        return text[:at] + bytes([dice.pick((0, 9, 13, 255, 10, 32))]) + text[at + 1:]
    if way == 6:                              # a line dropped
        at = dice.below(len(lines) - 1)
        return b"\n".join(lines[:at] + lines[at + 1:])
    if way == 7 and dice.below(3) == 0:       # the final newline dropped
        return text[:-1]
    if way == 8 and spaces:                   # a leading zero
        at = dice.pick(spaces)
        return text[:at + 1] + b"0" + text[at + 1:]
    if way == 9 and digits:                   # a digit put in or dropped
        at = dice.pick(digits)
        return text[:at] + dice.pick((b"", b"1", b"60")) + text[at + dice.below(2):]
    at = dice.below(len(text))                # a line break or a byte dropped
    return text[:at] + dice.pick((b"\n", b"")) + text[at + dice.below(2):]


def damaged(count):
    made = 0
    while made < count:
        good = dice.pick((random_good, random_full, random_regular))().encode("ascii")
        text = mutate(good)
        if dice.below(4) == 0 and text:
            text = mutate(text)
        if text != good and is_cheap(text):
            add("damaged", text)
            made += 1


def main():
    for group in (examples, sizes, policies, line_counts, regular_counts, names, numbers, fields,
                  hyperperiods, pairs, searches, deadlines, loads, misses):
        group()
    add_random("random good", 30, random_good)
    add_random("random full", 14, random_full)
    add_random("random regular", 36, random_regular)
    damaged(40)
    print_batch()


main()
