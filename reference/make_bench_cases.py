#!/usr/bin/env python3
"""Prints a batch of scripts for `bench --batch`.

Each record is `LEN\\n` and LEN bytes of script. The batch is the same on every
run and under every Python 3: the generator below is our own.

    make_bench_cases.py               the batch, on standard output
    make_bench_cases.py --calls       its scripts that make calls and ask for counts
    make_bench_cases.py --questions   the others, which ask for figures, the coming release and the worst line
    make_bench_cases.py --list        one line per case (number, size, group) instead
    make_bench_cases.py --check RUNS  prints nothing, and fails unless the answers of the batch
                                      hold what docs/RULES.md states of them
"""
import sys
from math import gcd

from batch import Dice, add, cases, print_batch, sheet

TOP = 10**12         # the last instant
HUGE = 2**64 - 1


dice = Dice(20241117)


def script(policy, rows, start, commands):
    """Commands are cut at `; `, so that a script fits on a line."""
    return sheet(policy, rows) + f"start {start}\n" + commands.replace("; ", "\n") + "\n"


def both(group, rows, start, commands):
    add(group, script("DM", rows, start, commands))
    add(group, script("ED", rows, start, commands))


def one(group, rows, start, commands):
    """One policy, in turn."""
    add(group, script(("DM", "ED")[len(cases) % 2], rows, start, commands))


# --------------------------------------------------------- what the rule book states

stated = []  # (number of a case, lines that its answer holds in this order)
twins = []   # (number of a case, number of the same case with questions)


def states(*lines):
    """The rule book states these lines of the last case's answer."""
    stated.append((len(cases), lines))


def asked(group, rows, start, before, questions, after):
    """A script, and the same with questions between its halves, all of them twice. The `--` are other
    lines, which mark the parts of the answer."""
    policy = ("DM", "ED")[len(cases) // 2 % 2]
    add(group, script(policy, rows, start, f"{before}; --; {after}"))
    add(group, script(policy, rows, start, f"{before}; --; {questions}; --; {questions}; --; {after}"))
    twins.append((len(cases) - 1, len(cases)))


def check(path):
    """That the answers hold what is stated, and that questions have one answer and alter nothing."""
    with open(path, "rb") as file:
        text = file.read().decode("latin-1")
    answers = {}
    for number in range(1, len(cases) + 1):
        head = f"== {number}\n"
        assert text.startswith(head), number
        end = text.find(f"\n== {number + 1}\n", len(head) - 1) + 1 or len(text)
        answers[number], text = text[len(head):end], text[end:]
    assert not text

    for number, lines in stated:
        given = iter(answers[number].splitlines())
        for line in lines:
            assert line in given, (number, line)
    for plain, questioned in twins:
        before, after = answers[plain].split("? --\n")
        first, once, again, last = answers[questioned].split("? --\n")
        assert (first, last) == (before, after), (plain, questioned)
        assert once and once == again, questioned


# --------------------------------------------------------- plans by hand

PROBE = "R probe 0 3 16 16\nR vent 0 1 4 4\nR screen 0 2 8 8\nN log 0 2 16 16\n"
PRINTED = [("R", 0, 3, 16, 16), ("R", 0, 1, 4, 4), ("R", 0, 2, 8, 8), ("N", 0, 2, 16, 16)]
# offsets 0 and 2; units 0-1 and 2 of every 8 are regular
MIXED = [("R", 0, 2, 8, 8), ("N", 0, 3, 10, 12), ("R", 0, 1, 8, 8), ("N", 1, 2, 6, 6)]
LATE = [("N", 7, 2, 5, 10), ("N", 20, 3, 9, 9), ("R", 60000, 2, 15, 15)]
LONG = [("N", 0, 4, 8, 8)]                               # units 0-3 of every 8
TWO = [("N", 0, 2, 6, 8), ("N", 0, 4, 8, 8)]             # 1 1 2 2 2 2 0 0
REGULAR = [("R", 0, 4, 10, 10), ("N", 0, 3, 10, 10)]     # 1 1 1 1 2 2 2 0 0 0
# line 2 is struck out with its next release in the same unit (D* = T)
TIGHT = [("N", 0, 2, 4, 4), ("N", 0, 3, 5, 5)]
FULL = [("N", 0, 5, 5, 5)] * 3                           # two struck out in every fifth unit
CROWD = [("N", 0, 2, 4, 16)] * 4                         # 1 1 2 2, then two struck out
STOPS = [("N", 0, 2, 4, 8), ("N", 0, 4, 5, 8)]           # 1 1 2 2 2, strike and idle
OVER = [("R", 0, 3, 6, 6), ("N", 1, 2, 5, 6), ("N", 0, 2, 6, 6), ("N", 2, 3, 12, 12)]
CLASH = [("N", 3, 2, 5, 5), ("N", 0, 4, 7, 7)]           # DM misses, ED passes
WIDE = [("R", 0, 1, 12, 12)] * 4 + [("N", i, 1, 24 + i % 3, 48) for i in range(20)]
WORKED = [("N", 0, 1, 2, 2), ("N", 0, 1, 3, 3)]          # 1 2 1 2 1 0, line 2 starts at 1 and 3 of every 6
UNIT = [("N", 0, 1, 1, 1)]                               # a start in every unit
BIG = [("N", 0, 20000, 60000, 60000), ("N", 0, 5, 60000, 60000), ("R", 0, 7, 30000, 30000)]


# --------------------------------------------------------- the printed sheet

def printed():
    g = "printed"
    for policy in ("DM", "ED"):
        add(g, f"{policy}\n{PROBE}start 5\nstep 40\n")
        add(g, f"{policy}\n{PROBE}start 5\n" + "step\n" * 40 + "counts\n")
    add(g, f"DM\n{PROBE}start 5\nrun 40\ncounts\nrest 4\nstep 20\nresume 4\nstep 20\ncounts\n")


# --------------------------------------------------------- starts

def starts():
    g = "start"
    # the windows of the printed plan: 0-2, 3, 4-5, 7, 11, 12-13, 15 of every 16
    for start in (0, 1, 6, 13, 16):
        one(g, PRINTED, start, "counts; step 18; counts")
    for start in (160000000001, 160000000012, 999999999983):
        one(g, PRINTED, start, "step 20; counts")
    for start in (0, 29, 60003):
        one(g, LATE, start, "step 24; counts; run 300; counts")
    one(g, LATE, "00000000000000000020", "step 12; counts")
    one(g, MIXED, 12, "step 14; counts")
    one(g, FULL, 3, "step 9; counts")
    # near 10^12, at 10^12, and above
    one(g, MIXED, TOP - 30, "step 29; counts; step; counts; step; step; counts")
    one(g, MIXED, TOP - 13, "run 12; counts; run 2; counts; run 1; run 0")
    one(g, MIXED, TOP - 1, "end; step; end; step; end; counts")
    for start in (TOP, TOP + 1, 2**63, HUGE):
        one(g, MIXED, start, "counts; step; step 3; run 3; step 0; run 0; end; rest 2; resume 2; "
                             "resume 2; rest 1; rest 9; counts")
    one(g, TIGHT, TOP - 9, f"step {HUGE}; run {HUGE}; counts")
    one(g, TIGHT, TOP - 25, f"run {HUGE}; counts; end")
    one(g, [], 0, "step 3; end; rest 1; rest 0; resume 1; counts; run 10")
    one(g, [("R", 0, 1, 1, 1)], TOP - 3, "step 5; end; counts")
    one(g, [("N", 60000, 60000, 60000, 60000)], TOP - 50000, "run 20001; counts; run 29999; end; counts")


# --------------------------------------------------------- early ends

def early_ends():
    g = "early end"
    one(g, LONG, 0, "end; step; end; counts")                         # before the first step
    one(g, LONG, 2, "step 6; end; step; end; counts")                 # idle; then accepted
    one(g, LONG, 0, "step 4; end; counts; step; end; counts")         # after the C-th; idle
    one(g, [("N", 0, 1, 3, 3)], 0, "step; end; step; end; counts")    # C = 1
    one(g, LONG, 0, "step 2; end; end; step; end; counts; step 6; end; counts")   # twice
    one(g, TWO, 0, "step; rest 1; end; counts; step; end; counts")    # after a rest of that line
    one(g, TWO, 0, "step; rest 1; resume 1; end; step; end; counts")  # and a resume
    one(g, TWO, 0, "step 3; rest 2; resume 2; rest 2; end; resume 2; end; step 6; counts")
    # a rest or resume of another line does not touch the last unit
    one(g, TWO, 0, "step; rest 2; end; resume 2; step; end; counts")
    one(g, TWO, 0, "rest 2; step; resume 2; end; counts")
    one(g, TWO, 0, "step 3; rest 1; resume 1; end; step; end; counts")
    # nor do refused calls, questions, unknown commands, no steps at all
    one(g, REGULAR, 0, f"step; rest 1; resume 1; rest 0; rest 3; resume {HUGE}; resume 2; end; end; counts")
    one(g, TWO, 0, "step; counts; step 0; run 0; stop; end 1; END; end; end")
    # a refused step at 10^12
    one(g, [("N", 6, 4, 8, 8)], TOP - 8, "step 7; step 2; step; run 1; end; end; step; counts")
    one(g, [("N", 6, 4, 8, 8)], TOP - 8, "run 9; end; counts")
    one(g, [("N", 6, 4, 8, 8)], TOP - 8, "run 8; rest 1; end; resume 1; end; counts")
    one(g, [("N", 6, 4, 8, 8), ("N", 0, 1, 8, 8)], TOP - 8, "run 8; rest 2; step; resume 2; end; rest 1; counts")
    one(g, [("N", 7, 1, 8, 8)], TOP - 8, "step 9; end; counts")
    # regular jobs may be ended early; what is left of the window is free
    both(g, REGULAR, 0, "step; end; step 9; end; step; end; end; step 4; counts")
    one(g, PRINTED, 16, "step; end; step 4; end; step 3; counts; step 12; counts")
    one(g, REGULAR, 0, "step 3; end; step 3; end; step 5; end; counts")
    # after a preemption the last unit is another job's
    one(g, [("N", 1, 2, 4, 8), ("N", 0, 4, 8, 8)], 0, "step 2; end; step; end; step; counts")
    one(g, [("R", 0, 2, 8, 8), ("N", 6, 4, 8, 8)], 6, "step 3; end; step 2; end; counts")
    # at the very instant that it is due, and that of the next release (D* = T)
    one(g, [("N", 0, 2, 3, 6), ("N", 0, 3, 4, 6)], 0, "step 4; end; step 3; counts")
    one(g, [("N", 0, 2, 4, 4), ("N", 0, 3, 4, 4)], 0, "step 4; end; step 4; counts; step; end; step 3; end; counts; step; counts")
    # the job of the last unit but one was struck out
    both(g, STOPS, 0, "step 5; step; end; counts; step 3; end; counts")
    one(g, CROWD, 0, "step 5; end; step 12; end; step 3; counts")
    # after `run`
    one(g, TWO, 0, "run 3; end; end; run 4; end; run 2; end; run 1; end; counts")


# --------------------------------------------------------- rests and resumes

def rests():
    g = "rest"
    for number in (0, 25, HUGE):                                      # 33
        one(g, MIXED, 0, f"step 4; rest {number}; resume {number}; end; counts")
    one(g, MIXED, 3, "rest 5; resume 5; rest 24; rest 4294967298; rest 18446744073709551614; step 3; counts")
    one(g, WIDE, 0, "rest 24; rest 25; resume 25; run 30; resume 24; resume 24; run 30; rest 1; counts")
    one(g, MIXED, 0, "rest 00000000000000000002; rest 002; resume 07; resume 00; resume 01; resume 2; counts")
    one(g, MIXED, 0, "rest 1; resume 1; rest 3; resume 3; step 3; rest 1; counts")   # 34
    one(g, MIXED, 0, "resume 2; rest 2; rest 2; resume 2; resume 2; step 5; counts")   # 35
    one(g, MIXED, 5, "step 9; resume 4; rest 4; step 2; rest 4; rest 2; step 9; resume 4; resume 4; step 8; counts")
    # at the instant of a release, before, behind
    one(g, LONG, 0, "rest 1; step 8; resume 1; step 8; counts")       # both at a release
    one(g, LONG, 7, "step; rest 1; step; resume 1; step 2; counts; step 6; counts")
    one(g, LONG, 6, "rest 1; step 3; resume 1; step 8; counts")       # one too late
    one(g, LONG, 8, "rest 1; resume 1; step; counts")                 # both at one release
    one(g, LONG, 6, "step 4; rest 1; resume 1; step 2; counts; step 6; counts")   # no job comes back
    one(g, LONG, 8, "run 4; rest 1; counts; resume 1; run 8; counts")   # nothing pending: none aside
    one(g, LONG, 0, "step 2; end; rest 1; counts; step 8; resume 1; counts")
    one(g, LONG, 0, "step 2; rest 1; run 1000; counts; resume 1; step 9; counts")
    # at the instant that the job is due: set aside, not missed
    one(g, STOPS, 0, "step 5; rest 2; step; counts; run 10; resume 2; step 8; counts")
    one(g, FULL, 0, "step 5; rest 2; step; counts; step 4; rest 3; resume 2; step; counts")
    both(g, TIGHT, 0, "run 10; rest 2; resume 2; step 6; counts; run 4; rest 2; rest 1; run 3; resume 1; run 20; counts")
    # before the first release; over it; at it
    one(g, LATE, 0, "rest 1; run 7; step; counts; resume 1; run 9; step; counts; rest 2; run 2; resume 2; step 3; counts")
    # all ordinary lines rest: the regular ones go on
    one(g, OVER, 0, "rest 2; rest 3; rest 4; step 12; counts; resume 4; step 12; resume 2; resume 3; step 12; counts")
    # rests and resumes over and over
    one(g, TWO, 0, "rest 1; resume 1; rest 1; resume 1; step; " * 4 + "counts; step 8; " +
        "rest 2; step; resume 2; step; " * 5 + "counts")
    # near 10^12 and at it
    one(g, MIXED, TOP - 12, "run 9; rest 2; resume 2; rest 4; step 4; resume 4; rest 4; rest 2; counts; step; resume 2; counts")
    one(g, TWO, TOP, "rest 1; rest 1; step; resume 1; resume 1; rest 3; counts")


# --------------------------------------------------------- plans that miss or pass

def misses():
    g = "miss"
    for rows in (TIGHT, OVER, CLASH):
        both(g, rows, 0, "step 21; counts; run 500; counts")
    for rows in (FULL, CROWD):
        one(g, rows, 0, "step 21; counts; run 500; counts")
    one(g, TIGHT, 7, "step 14; counts; run 1000; step 5; counts")
    one(g, CROWD, TOP - 40, "step 30; counts; run 10; counts; step")
    one(g, [("N", 0, 1, 1, 2), ("N", 0, 1, 1, 2), ("N", 0, 1, 1, 1)], 0, "step 6; counts; run 100; counts")
    one(g, [("N", i, 3, 6, 6) for i in range(24)], 0, "step 14; counts; run 600; counts")


def passes():
    g = "pass"
    for rows in (MIXED, REGULAR, WIDE):
        one(g, rows, 0, "run 20; step 10; counts; run 2000; counts")
    one(g, CLASH, 3, "run 35; step 9; counts")
    add(g, script("ED", [("N", 0, 2, 4, 4), ("N", 1, 2, 4, 4)], 1, "step 8; run 400; counts"))
    add(g, script("ED", [("N", 2, 1, 3, 3), ("N", 0, 2, 6, 6), ("R", 0, 1, 3, 3)], 2, "step 12; run 600; counts"))
    # ties of D* and of release + D*
    both(g, [("N", 2, 2, 6, 12), ("N", 0, 3, 8, 12), ("N", 1, 3, 7, 12)], 0, "step 14; counts")


# --------------------------------------------------------- the form of commands

def forms():
    g = "form"
    head = sheet("DM", TWO) + "start 0\n"
    for commands in (
            "step 0\nrun 0\ncounts\nstep\nstep 0\nrun 0\nend\n",
            "step x\nstep  1\nstep 1 \nstep \n step\n step 1\nstep\t1\nstep 1x\nstep 1 1\nstep1\ncounts\n",
            "run\nrun \nrun x\nrun  1\nrun 1 \nrun 1 1\nrun1\nrun -1\nrun 1\nend \nend 0\nend 1\n end\nends\nend\n",
            "rest\nrest \nrest x\nrest  1\nrest 1 \nrest -1\nrest +1\nrest 1.\nrest 1 2\nrest 0x1\nrest 2\nresume\nresume \nresume x\nresume  2\nresume 2 \nresume 2 2\nresume 2\n",
            "counts \ncounts 1\ncounts 0\n counts\ncount\ncounts\n"
            "\n\nstep\n\n\nend\n\n \n  \n\t\n?\n? x\nok\nunit 0 1 1 0 0\n#\nhelp\n"
            "STEP\nStep\nRUN 1\nEND\nREST 1\nResume 1\nCOUNTS\n",
            "start 5\nstep\nstart\nstart \nstart 0\nDM\nN a 0 1 1 1\nstep\n",
            "step\r\nend\r\nstep 2\r\n\r\ncounts\r\n",
            "step 00000000000000000003\nstep 000000000000000000003\nrun 00000000000000000000\nrun 007\n",
            "step 18446744073709551616\nstep 99999999999999999999\nrun 18446744073709551616\n"
            "rest 18446744073709551616\nrest 18446744073709551615\nresume 100000000000000000000\nstep\n",
            "step", "step 2\ncounts", "run 3\nend", "step\n ", "rest 1\nresume 1\n\nstep 1 ",
    ):
        add(g, head + commands)
    add(g, head)
    add(g, head[:-1])
    add(g, head.encode() + b"step\n\0\nstep\0\nstep \xd9\xa1\n\xff\xfe\nst\xc3\xa9p\n\x7f\nstep\n")
    add(g, head + "x" * 300 + "\nstep " + "1" * 300 + "\nstep\n" + " " * 70)


# --------------------------------------------------------- sheets and start lines

def frames():
    g = "frame"
    good = sheet("ED", TWO)
    # no start line
    for text in ("", "DM", "DM\n", good[:-1], good + "start\n", good + "start", good + " start 0\nstep\n",
                 good + "N start 0 1 4 4\n", good + "N " + "x" * 4100 + "\n"):
        add(g, text)
    # a bad start line
    for instant in ("", "x", " 5", "5 ", "5\r", "18446744073709551616", "000000000000000000000"):
        add(g, good + f"start {instant}\nstep\n")
    add(g, good + "start x\nstart 5\nstep\n")
    # a good one at the end of the input, with leading zeros, with a sheet without lines
    add(g, good + "start 00000000000000000007\nstep 2\n")
    add(g, "ED\nstart 0")
    # the first start line counts, and it may be the first line of all
    add(g, "start 0\n" + good + "start 0\nstep\n")
    add(g, "DM\nstart 3\nN a 0 1 4 4\nstart 0\nstep 2\n")
    # faults of reading
    for text in ("DM\r\n", "DM\n\n", "DM\nN a 0 70000 1\n", "DM\n" + "N a 0 1 30 30\n" * 25,
                 "DM\n" + "R a 0 1 16 16\n" * 9):
        add(g, text + "start 0\nstep\n")
    add(g, "DM\nN " + "x" * 4090 + "\nstart 0\nstep\n")               # 4,096 bytes: 13
    add(g, "DM\nN " + "x" * 4091 + "\nstart 0\nstep\n")               # 4,097 bytes: 11
    # a sheet in its bounds, a script beyond them
    add(g, good + "start 0\n" + "step 0\n" * 600 + "step\n")
    # faults of planning
    for rows in ([("N", 0, 1, 64, 64), ("N", 0, 1, 15625, 15625), ("N", 0, 1, 128, 128)],
                 [("R", 0, 2, 4, 4), ("R", 0, 3, 8, 8)], [("R", 0, 1, 2, 2)] * 3,
                 [("R", 0, 3, 16, 16), ("N", 0, 1, 3, 16)]):
        add(g, script("DM", rows, 0, "step"))
    # a fault of the sheet comes before a bad start line
    add(g, script("DM", [("R", 0, 1, 2, 2)] * 3, "x", "step"))
    # the rehearsal is no part of it: load above H, misses
    add(g, script("DM", [("N", 0, 3, 4, 4), ("N", 0, 2, 4, 4)], 0, "step 9; counts"))


# --------------------------------------------------------- random plans

PERIODS = (4, 5, 6, 8, 10, 12, 15, 16, 20, 24, 30, 32, 40, 48, 60)


def apart_search(regular, budget=50_000):
    """Whether the plain search finds offsets, within a budget of tests."""
    offsets, begin = [], 0
    while len(offsets) < len(regular):
        _, _, cj, _, tj = regular[len(offsets)]
        found = None
        for candidate in range(begin, tj):
            budget -= 1
            if budget < 0:
                return False
            for offset, (_, _, ci, _, ti) in zip(offsets, regular):
                p = gcd(ti, tj)
                if not ci <= (candidate - offset) % p <= p - cj:
                    break
            else:
                found = candidate
                break
        if found is not None:
            offsets.append(found)
            begin = 0
        elif offsets:
            begin = offsets.pop() + 1
        else:
            return False
    return True


def is_plan(policy, rows):
    h = 1
    for row in rows:
        h = h * row[4] // gcd(h, row[4])
    least = min([row[3] for row in rows if row[0] == "N"], default=60001)
    regular = [row for row in rows if row[0] == "R"]
    too_long = policy == "DM" and any(row[2] > least - 1 for row in regular)
    return h <= 1_000_000 and not too_long and apart_search(regular)


def random_rows(count, regular, share):
    """`count` lines, about `regular` of them regular, shares of `share` percent in all."""
    step = dice.pick((6, 8, 12))
    rows = []
    for i in range(count):
        if i < regular:
            t = step * dice.pick((1, 2, 2, 4))
            rows.append(("R", dice.below(9), dice.between(1, max(1, step // 4)), t, t))
            continue
        t = dice.pick(PERIODS)
        c = max(1, min(t, (t * share * dice.between(50, 150) + count * 5000) // (count * 10000)))
        d = t if dice.below(2) == 0 else dice.between(c, t)
        rows.insert(dice.below(len(rows) + 1), ("N", dice.pick((0, dice.below(t), dice.below(3 * t))), c, d, t))
    return rows


def random_plan(count, regular, share):
    while True:
        policy = dice.pick(("DM", "ED"))
        rows = random_rows(count, regular, share)
        if is_plan(policy, rows):
            return policy, rows


def random_commands(rows, count, longest):
    """Commands by chance, most of them sensible; `longest` bounds a run."""
    resting = set()
    ordinary = [i for i, row in enumerate(rows, 1) if row[0] == "N"]
    commands = []
    while len(commands) < count:
        way = dice.below(100)
        if way < 40:
            commands.append("step")
            if dice.below(5) == 0:
                commands.append("end")
        elif way < 52:
            commands.append(f"step {dice.between(2, 6)}")
        elif way < 62:
            commands.append(f"run {dice.between(1, longest)}")
        elif way < 70:
            commands.append("end")
        elif way < 82 and ordinary:                   # mostly accepted
            line = dice.pick(ordinary)
            if (line in resting) != (dice.below(12) == 0):
                commands.append(f"resume {line}")
                resting.discard(line)
            else:
                commands.append(f"rest {line}")
                resting.add(line)
        elif way < 91 and resting:                    # so that not all lines rest
            line = dice.pick(sorted(resting))
            commands.append(f"resume {line}")
            resting.discard(line)
        elif way < 94:
            commands.append("counts" if dice.below(max(1, len(rows))) < 4 else "run 0")
        elif way < 97:
            number = dice.pick((0, len(rows), len(rows) + 1, dice.below(30)))
            commands.append(f"{dice.pick(('rest', 'resume'))} {number}")
            if commands[-1].startswith("rest") and number in ordinary:
                resting.add(number)
            else:
                resting.discard(number)
        elif way == 97:
            commands.append(dice.pick(("", "step 0", "end 1", "run", "counts ", "rest", "step  1")))
        else:
            commands.append("counts")
    return "; ".join(commands + ["counts"])


def random_scripts():
    def random_start():
        return dice.pick((0, dice.below(50), dice.below(5000), dice.below(TOP)))

    for _ in range(6):
        policy, rows = random_plan(dice.between(2, 8), dice.below(4), dice.between(60, 150))
        add("random short", script(policy, rows, random_start(), random_commands(rows, 40, 40)))
    for _ in range(8):
        policy, rows = random_plan(dice.between(2, 9), dice.below(5), dice.between(50, 160))
        add("random long", script(policy, rows, random_start(), random_commands(rows, dice.between(200, 400), 60)))
    for count, regular, share in ((24, 8, 40), (24, 3, 80), (24, 0, 130)):
        policy, rows = random_plan(count, regular, share)
        add("random long", script(policy, rows, random_start(), random_commands(rows, 300, 100)))
    # into 10^12 with about two thirds of the script
    for _ in range(4):
        policy, rows = random_plan(dice.between(2, 6), dice.below(3), dice.between(70, 140))
        start = TOP - dice.between(250, 350)
        add("random to the top", script(policy, rows, start, random_commands(rows, 220, 12)))


# --------------------------------------------------------- jitter figures

def figures():
    g = "figures"
    # the worked case
    add(g, script("DM", WORKED, 0, "step 8; figures; worst; coming"))
    states("unit 1 2 1 1 0", "unit 3 2 1 1 0", "unit 7 2 1 1 0", "2 2 2 1 200 6")
    add(g, script("DM", WORKED, 0, "run 8; figures"))
    states("2 2 2 1 200 6")
    add(g, script("ED", WORKED, 0, "step; figures; worst; " * 8 + "counts"))
    # no starts: no steps, no releases yet, never ahead, no lines
    one(g, MIXED, 0, "figures; worst; step; figures")
    one(g, LATE, 0, "step 2; figures; worst; run 4; figures; step 2; figures; worst")
    one(g, FULL, 0, "run 6; figures; worst; run 500; figures; worst; counts")
    one(g, [], 0, "figures; worst; coming; run 9; figures; worst; coming; counts")
    # a single start, then a second
    one(g, LONG, 0, "step; figures; worst; step 7; figures; worst; step; figures; worst")
    # deviations that are all 0; the regular ones always are
    one(g, [("R", 0, 1, 4, 4)], 3, "run 5; figures; worst; run 400; figures; worst")
    one(g, PRINTED, 5, "run 43; figures; worst; run 160; figures; worst")
    # only a first unit is a start: what follows an interruption is none
    both(g, CLASH, 0, "step 16; figures; run 54; figures; worst; coming")
    one(g, [("R", 0, 1, 4, 4), ("N", 3, 6, 12, 12)], 0, "step 26; figures; worst")
    # the largest is neither the first nor the last; shorter and longer than T
    one(g, OVER, 0, "run 13; figures; run 12; figures; worst; run 300; figures; worst; counts")
    one(g, MIXED, 9, "run 30; figures; run 60; figures; run 333; figures; worst")
    # every unit a start
    one(g, UNIT, 0, "run 2; figures; run 50; figures; worst; rest 1; run 3; resume 1; run 1; figures; worst; run 9; figures")


def figures_of_calls():
    g = "figures of calls"
    # a rest and a resume: whole rounds lie between the starts
    one(g, LONG, 0, "run 1; rest 1; run 999; figures; resume 1; run 9; figures; worst; run 80; figures; worst")
    one(g, TWO, 0, "rest 1; run 9; resume 1; run 15; rest 2; run 30; figures; worst; resume 2; run 20; figures; worst; counts")
    # set aside with a start, without one, at the instant of its release
    one(g, TWO, 0, "run 3; rest 2; resume 2; run 8; figures; worst; counts")
    one(g, TWO, 0, "run 9; rest 2; resume 2; run 16; figures; worst; counts")
    one(g, TWO, 8, "rest 1; resume 1; step 3; figures; run 5; rest 1; step; resume 1; run 12; figures; worst; counts")
    # an early end: the start stays, and others start sooner
    one(g, TWO, 0, "step; end; figures; step 8; end; step; end; figures; run 7; figures; worst; counts")
    one(g, REGULAR, 0, "step; end; step 9; figures; step; step; end; run 9; figures; run 12; end; run 8; figures; worst; counts")
    # struck out with a start and without one
    both(g, TIGHT, 0, "step 21; figures; worst; run 500; figures; worst; counts")
    one(g, CROWD, 0, "run 16; figures; run 4; figures; worst; rest 1; run 16; figures; worst; resume 1; run 16; figures; worst; counts")
    one(g, STOPS, 0, "run 6; figures; run 8; figures; step 3; end; run 40; figures; worst; counts")
    one(g, [("N", i, 3, 6, 6) for i in range(24)], 0, "run 30; figures; worst; rest 1; rest 2; run 60; figures; worst")
    # strikes, early ends, rests and resumes together
    both(g, OVER, 1, "run 7; end; rest 3; run 8; end; figures; resume 3; rest 2; run 9; rest 4; resume 2; run 11; "
                     "end; resume 4; figures; worst; coming; run 60; figures; worst; counts")


def figures_far():
    g = "figures far"
    # large periods
    one(g, [("N", 0, 1, 60000, 60000)], 0, "run 60001; figures; worst; run 60000; figures; worst; coming")
    one(g, BIG, 0, "run 20000; end; figures; run 50000; end; figures; worst; run 90000; figures; worst; coming; counts")
    one(g, BIG, 59990, "rest 1; run 10; coming; run 30; resume 1; run 60000; figures; rest 2; coming; run 180000; "
                       "resume 2; coming; run 60000; figures; worst; counts")
    one(g, [("N", 59999, 9, 59999, 59999), ("N", 3, 5000, 9000, 59999)], 7, "run 240000; figures; worst; coming")
    # late starts: the instants are no part of the figures
    add(g, script("DM", WORKED, 600000000000, "step 8; figures; worst; coming"))
    one(g, MIXED, 999999000007, "coming; run 1; figures; worst; run 9; figures; run 90; figures; worst; coming")
    one(g, OVER, 2**32 - 25, "run 20; figures; coming; step 8; figures; run 60; figures; worst; coming")
    one(g, UNIT, TOP - 5, "step; figures; run 2; figures; worst; rest 1; step; resume 1; step 2; figures; worst; coming")
    # into 10^12, and at it
    one(g, TIGHT, TOP - 45, f"run {HUGE}; figures; worst; coming; step; end; figures; worst; coming; counts")
    one(g, CROWD, TOP - 40, "run 40; figures; worst; rest 1; coming; resume 1; run 1; figures; coming")
    one(g, WORKED, TOP, "figures; worst; coming; step; run 2; figures; worst; coming; rest 1; coming; figures; rest 2; coming; resume 1; coming")
    # long runs
    one(g, OVER, 0, "run 100000; figures; worst; coming; counts")
    one(g, WORKED, 1, "run 300000; figures; worst; rest 2; run 300000; figures; worst; resume 2; run 9; figures; worst; coming")
    one(g, WIDE, 17, "run 50000; figures; worst; coming; counts")
    # 100 x sum above 2^32; by far the longest script of the batch
    one(g, UNIT, 0, "run 1; rest 1; run 43000000; resume 1; run 1; figures; worst")


# --------------------------------------------------------- the coming release

def coming():
    g = "coming"
    # the printed plan
    both(g, PRINTED, 5, "coming; step 2; coming; step; coming")
    for number in (len(cases) - 1, len(cases)):
        stated.append((number, ("coming 7 2",)))
    one(g, PRINTED, 0, "coming; step; " * 18 + "coming")
    # ties, and lines at rest
    one(g, TWO, 0, "coming; rest 1; coming; resume 1; coming; rest 2; coming; step; coming; rest 1; coming; resume 2; coming; run 7; coming; resume 1; coming")
    one(g, CROWD, 3, "coming; rest 1; coming; rest 2; coming; rest 4; coming; rest 3; coming; step 2; resume 4; coming; resume 2; coming; resume 1; coming")
    one(g, [("N", 5, 1, 24, 24)] * 24, 5, "".join(f"rest {line}; coming; " for line in range(1, 25)) + "resume 24; coming; step; coming; resume 7; coming")
    one(g, OVER, 2, "coming; rest 4; coming; rest 2; rest 3; coming; step 4; coming; step; coming; resume 3; coming")
    # all at rest; a line of its own
    one(g, LONG, 0, "rest 1; coming; step 3; coming; resume 1; coming; run 5; coming; rest 1; coming; resume 1; coming; step; coming; rest 1; coming; rest 1; coming")
    # before r, whatever r and T are; a regular line goes by the plan, not by the r of the sheet
    one(g, LATE, 0, "coming; step; coming; rest 1; coming; rest 2; coming; run 14; coming; resume 1; coming; resume 2; coming")
    one(g, [("N", 17, 1, 4, 4), ("N", 16, 1, 60, 60)], 3, "coming; rest 2; coming; resume 2; run 13; coming; run 1; coming; run 1; coming")
    one(g, [("N", 60000, 1, 1, 60000), ("N", 59999, 1, 7, 50000)], 0, "coming; run 59999; coming; step; coming; step; coming; rest 2; coming; rest 1; coming")
    # at 10^12 and beyond
    one(g, [("N", 0, 1, 8, 8), ("N", 6, 1, 8, 8)], TOP - 3, "coming; step; coming; step; coming; step; coming; step; coming; rest 1; coming; rest 2; coming; resume 1; coming")
    one(g, [("N", 59999, 4, 60000, 60000), ("R", 0, 2, 60000, 60000)], TOP - 1, "coming; run 1; coming; rest 1; coming; run 1; coming; figures; worst")
    one(g, MIXED, TOP + 1, "coming; rest 4; coming; rest 2; coming; step; coming")
    one(g, [("N", 1, 1, 1, 60000)], TOP - 40000, "coming; run 1; coming; run 1; coming; figures; worst")


# --------------------------------------------------------- the worst line

def worst():
    g = "worst"
    # none; then 0 of the first line that has two starts, not of the first line
    one(g, [("N", 9, 1, 24, 24), ("R", 0, 1, 6, 6), ("N", 2, 1, 12, 12)], 0, "worst; step; worst; run 6; worst; run 9; worst; run 20; figures; worst")
    # ties: of the lines with 0, of two and of three lines with more
    one(g, [("N", 0, 1, 6, 6), ("N", 0, 2, 6, 6), ("N", 0, 1, 6, 6)], 0, "run 10; worst; rest 2; run 8; resume 2; run 1; worst; "
        "run 5; figures; worst; rest 1; rest 3; run 6; resume 1; resume 3; run 12; figures; worst")
    one(g, [("R", 0, 1, 5, 5)] + [("N", 0, 1, 10, 10)] * 3, 0, "run 12; rest 3; rest 4; run 10; resume 4; resume 3; run 10; figures; worst; "
        "rest 2; run 10; resume 2; run 10; figures; worst; rest 4; run 20; worst; resume 4; run 10; figures; worst")
    # a line at rest may be the worst, and one that has had its last start
    one(g, TWO, 0, "run 3; rest 2; run 22; resume 2; run 5; worst; rest 2; worst; rest 1; run 50; figures; worst; resume 1; run 10; worst; figures")
    # the worst one goes up and down the lines
    one(g, [("N", 0, 3, 8, 8), ("N", 0, 1, 4, 8), ("N", 1, 2, 16, 16)], 0,
        "step; worst; " * 3 + "run 9; end; worst; run 4; worst; run 5; end; worst; rest 1; run 6; worst; resume 1; run 10; worst; figures")


# --------------------------------------------------------- questions alter nothing

def questions():
    g = "question form"
    head = sheet("DM", TWO) + "start 0\nrun 19\n"
    add(g, head + "figures 1\nfigures 0\nfigures \n figures\nFigures\nFIGURES\nfigure\nfigures  1\nfigures\t\nfigures\r\nfigures 1 1\nfigures x\nfigures\n")
    add(g, head + "coming 1\ncoming 0\ncoming \n coming\nComing\nCOMING\ncomin\ncomings\ncoming none\ncoming\r\ncoming\ncoming\n")
    add(g, head + "worst 1\nworst 0\nworst \n worst\nWorst\nWORST\nwors\nworst none\nworst\r\nworst 00000000000000000001\nworst\n")
    add(g, head + "coming\nworst\nfigures")

    g = "questions"
    every = "figures; coming; worst"
    asked(g, TIGHT, 3, "run 20; rest 1; run 1", every, "step 6; resume 1; step 6; counts; figures; coming; worst")
    # the last unit stays, and so does what is due or released now
    asked(g, TWO, 0, "run 17", every, "end; end; step 8; counts; figures; coming; worst")
    asked(g, TWO, 0, "run 16; rest 2", "coming", "resume 2; step 8; figures; coming; worst")
    asked(g, STOPS, 0, "run 13", every, "end; step 4; counts; figures; coming; worst")
    # before the first step, at 10^12
    asked(g, LATE, 19, "step 0", every, "step 8; counts; figures; coming; worst")
    asked(g, MIXED, TOP - 24, "run 25", every, "step; end; rest 2; counts; figures; coming; worst")
    # refused ones and other lines
    asked(g, MIXED, 7, "run 20; end", "worst; figures 1; coming; rest 1; figures; resume 9; end 1; worst 2; coming",
          "end; step 9; counts; figures; coming; worst")


# --------------------------------------------------------- random scripts with questions

def with_questions(commands, share):
    """Questions behind about `share` of 100 commands, sometimes twice."""
    asking = []
    for command in commands.split("; "):
        asking.append(command)
        if dice.below(100) < share:
            asking += [dice.pick(("figures", "coming", "coming", "worst", "worst"))] * dice.pick((1, 1, 1, 2))
    return "; ".join(asking + ["figures", "coming", "worst"])


def random_questions():
    g = "random questions"

    def random_script(count, regular, share, commands, longest, asking, scale=1):
        policy, rows = random_plan(count, regular, share)
        rows = [(kind, min(60000, scale * r), scale * c, scale * d, scale * t) for kind, r, c, d, t in rows]
        text = with_questions(random_commands(rows, commands, longest), asking)
        # the last of them goes into 10^12 with a part of the script
        start = dice.pick((0, dice.below(70), dice.below(70000), dice.below(TOP), TOP - dice.between(1, 2 * commands)))
        add(g, script(policy, rows, start, text))

    random_script(0, 0, 0, 20, 9, 50)
    random_script(1, 0, 60, 60, 20, 40)
    for _ in range(2):
        random_script(2, dice.below(2), dice.between(80, 120), 60, 30, 40)
    for _ in range(5):
        random_script(dice.between(3, 8), dice.below(4), dice.between(60, 150), 70, 60, 30)
    for _ in range(2):
        random_script(dice.between(9, 20), dice.below(6), dice.between(60, 150), 70, 200, 15)
    for regular, share in ((8, 40), (3, 90), (0, 140)):
        random_script(24, regular, share, 60, 300, 12)
    # periods of up to 60,000
    for _ in range(3):
        random_script(dice.between(2, 5), dice.below(3), dice.between(60, 130), 40, 40000, 40, 1000)


def main():
    for group in (printed, starts, early_ends, rests, misses, passes, forms, frames, random_scripts):
        group()
    calls = len(cases)
    for group in (figures, figures_of_calls, figures_far, coming, worst, questions, random_questions):
        group()
    if sys.argv[1:2] == ["--check"]:
        check(sys.argv[2])
    elif sys.argv[1:] == ["--calls"]:
        print_batch(0, calls)
    elif sys.argv[1:] == ["--questions"]:
        print_batch(calls)
    else:
        print_batch()


main()
