"""What both case generators share: a fixed generator of numbers, sheets, and the records of a batch."""
import sys

MAX_BATCH = 120_000  # bytes


class Dice:
    """A small fixed generator (64-bit LCG, high bits)."""

    def __init__(self, seed):
        self.state = seed

    def below(self, n):
        self.state = (self.state * 6364136223846793005 + 1442695040888963407) % 2**64
        return (self.state >> 33) % n

    def between(self, low, high):
        return low + self.below(high - low + 1)

    def pick(self, items):
        return items[self.below(len(items))]


cases = []  # (group, text)


def add(group, text):
    cases.append((group, text if isinstance(text, bytes) else text.encode("ascii")))


def sheet(policy, rows):
    """rows of (kind, r, C, D, T); names are made up."""
    lines = [policy]
    for number, (kind, r, c, d, t) in enumerate(rows, 1):
        lines.append(f"{kind} {'reg' if kind == 'R' else 'ord'}{number} {r} {c} {d} {t}")
    return "\n".join(lines) + "\n"


def print_batch(first=0, last=None):
    """The batch, or its cases from one place to another; with `--list` one line per case."""
    batch = b"".join(b"%d\n" % len(text) + text for _, text in cases[first:last])
    assert len(batch) < MAX_BATCH, len(batch)
    if sys.argv[1:] == ["--list"]:
        for number, (group, text) in enumerate(cases, 1):
            print(number, len(text), group)
    else:
        sys.stdout.buffer.write(batch)
