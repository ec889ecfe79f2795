#!/usr/bin/env python3
# Writes the cases of chunk_grid_check, stdin, and what it must print, stdout, from the rules of the chunk grid alone.
import random

TOP = 2**64 - 1  # as an extent: unlimited
CASES, LINES = [], []


def case(*items):
    """A case's numbers; a list is its length and its members."""
    CASES.append(" ".join(text([len(i), *i])[1:] if isinstance(i, (list, bytes)) else str(i) for i in items))


def show(line):
    LINES.append(line)


def text(numbers):
    return "".join(f" {n}" for n in numbers)


class Refused(Exception):
    pass


class Grid:
    """A grid that was built, or Refused with its number."""

    def __init__(self, rank, chunk, present, maximum, unlimited_first):
        if rank > 32 or len(chunk) != rank:
            raise Refused(3)
        if len(present) != rank:
            raise Refused(4)
        if maximum is not None and len(maximum) != rank:
            raise Refused(5)
        if 0 in chunk:
            raise Refused(6)
        self.rank, self.chunk, self.present = rank, chunk, present
        # A dimension's chunk count is its maximum extent (else its present extent) over the chunk length, rounded up; None: unlimited.
        self.counts = [None if e == TOP else -(-e // c) for e, c in zip(present if maximum is None else maximum, chunk)]
        # The first unlimited dimension leads in order U; the others keep their order.
        self.lead = self.counts.index(None) if unlimited_first and None in self.counts else 0
        self.order = ([self.lead] if rank else []) + [d for d in range(rank) if d != self.lead]
        # The last multiplier is 1, each earlier one the next one times the following dimension's count, 0 taken as 1.
        down = []
        for d in reversed(self.order):
            down.insert(0, 1 if not down else self.times(down[0], behind))
            behind = self.counts[d]
        self.down = down
        product = 1
        for count in self.counts:
            if count is None:
                break
            product *= count
            if product > TOP:
                raise Refused(8)
        self.nothing = any(self.counts[d] == 0 for d in self.order[1:])

    @staticmethod
    def times(multiplier, count):
        if count is None:
            raise Refused(7)
        if multiplier * max(count, 1) > TOP:
            raise Refused(8)
        return multiplier * max(count, 1)

    def offsets(self, slot):
        found = [0] * self.rank
        for d, m in zip(self.order, self.down):
            found[d] = slot // m * self.chunk[d]
            slot %= m
        return found

    def numbers(self):
        bounds = [-(-p // c) for p, c in zip(self.present, self.chunk)]
        return (f" leads {self.lead}" + (" numbers nothing" if self.nothing else " numbers")
                + " counts" + text(TOP if c is None else c for c in self.counts) + " bounds" + text(bounds)
                + " multipliers" + text(self.down))

    def slot_line(self, slot):
        if self.nothing:
            answer, handed = " refused 32 0 0", [7] * self.rank
        else:
            offsets = self.offsets(slot)
            inside = [o < p for o, p in zip(offsets, self.present)]
            answer = " refused 33 0 0" if any(o > TOP for o in offsets) else "" if all(inside) else " dropped"
            handed = [o if i else 0 for o, i in zip(offsets, inside)]
        return f"  slot {slot}:{answer}{text(handed)}"

    def corner(self, corner):
        return f"  corner{text(corner)}:" + self.slot_of(corner)

    def slot_of(self, corner):
        if len(corner) != self.rank or any(o % c for o, c in zip(corner, self.chunk)) or any(o >= p for o, p in zip(corner, self.present)):
            return " refused 10 0 0"
        quotients = [corner[d] // self.chunk[d] for d in self.order]
        if any(q >= self.counts[d] for q, d in zip(quotients[1:], self.order[1:])):
            return " none"
        slot = sum(q * m for q, m in zip(quotients, self.down))
        return " none" if slot > TOP else f" {slot}"


def grid(rank, chunk, present, maximum, start, end, corner=None):
    corner = [0] * rank if corner is None and rank <= 32 else corner or []
    case(0, rank, chunk, present, int(maximum is not None), maximum or [], start, end, corner)
    for name, unlimited_first in (("R", False), ("U", True)):
        try:
            g = Grid(rank, chunk, present, maximum, unlimited_first)
        except Refused as r:
            show(f"{name} refused {r} 0 0")
            continue
        show(name + g.numbers())
        for slot in range(start, end):
            show(g.slot_line(slot))
        show(g.corner(corner))


def counts():
    large = 2**40
    grid(3, [1] * 3, [1] * 3, [large, large, 0], 0, 0)
    grid(3, [1] * 3, [1] * 3, [large, 0, large], 0, 2)
    grid(4, [1] * 4, [1] * 4, [5, TOP, large, large], 0, 0)
    grid(3, [1] * 3, [1] * 3, [large, large, TOP], 0, 0)
    grid(2, [10, 5], [25, 30], [20, TOP], 0, 14)
    grid(2, [1, 1], [1, 1], [TOP, TOP], 0, 0)
    grid(2, [3, 4], [TOP, 9], None, 0, 5)
    grid(2, [4, 3], [9, TOP], None, 0, 5)
    grid(1, [1], [TOP], [TOP - 1], TOP - 2, TOP)
    grid(2, [2, 2], [7, 9], [4, 4], 0, 8)
    grid(2, [4, 4], [0, 5], None, 0, 3)
    grid(2, [4, 4], [5, 0], None, 0, 3)
    grid(2, [4, 4], [9, 9], [0, TOP], 0, 3)
    grid(3, [3, 2, 5], [7, 8, 9], [9, 8, TOP], 0, 14)


def lengths():
    grid(33, [1] * 33, [1] * 33, [1] * 33, 0, 0)
    grid(33, [0] * 33, [], [], 0, 0)
    grid(TOP, [], [], None, 0, 0)
    grid(2, [1] * 3, [], [], 0, 0)
    grid(3, [1] * 2, [1] * 3, None, 0, 0)
    grid(2, [0] * 2, [1], [], 0, 0)
    grid(2, [0] * 2, [1] * 2, [1] * 3, 0, 0)
    grid(2, [0] * 2, [1] * 2, None, 0, 0)
    grid(2, [1, 0], [1] * 2, [1, TOP], 0, 0)
    grid(0, [], [], None, 0, 2)
    grid(0, [], [], [], 0, 2)
    grid(0, [], [1], None, 0, 0)
    grid(1, [10], [25], [TOP], 0, 4)
    grid(1, [10], [25], None, 0, 4)


def large():
    def of(maximum, start, end):
        grid(32, [1] * 32, [2] * 32, maximum, start, end)

    of([2] * 32, 0, 3)
    of([4] * 32, 0, 0)
    of([4] * 31 + [TOP], 0, 2)
    of([4] * 31 + [3], 0, 2)
    of([TOP] + [4] * 31, TOP - 1, TOP)
    of([TOP] + [4] * 31, 0, 2)


def overflows():
    half = 2**63
    grid(1, [half], [TOP - 1], [TOP], 0, 4)
    grid(2, [half, 4], [TOP - 1, 5], [TOP, 12], 0, 8)
    grid(2, [4, half], [5, TOP - 1], [12, TOP], 0, 8)
    grid(1, [TOP], [TOP], None, 0, 3)
    grid(2, [1, 1], [10, half], [TOP, half], TOP - 1, TOP)


def corners():
    half = 2**63
    for at in ([], [10], [10, 10, 0], [5, 10], [10, 7], [30, 10], [0, 30], [20, 0], [10, 10], [0, 25]):
        grid(2, [10, 5], [25, 30], [20, TOP], 0, 0, at)
    for at in ([6, 2], [0, 4]):
        grid(2, [2, 2], [7, 9], [4, 4], 0, 0, at)
    for at in ([1, half - 1], [2, 0], [9, half - 1]):
        grid(2, [1, 1], [10, half], [TOP, half], 0, 0, at)
    grid(2, [2, 2], [4, 4], [4, 0], 0, 0, [0, 0])
    grid(0, [], [], [], 0, 0, [])
    grid(0, [], [], [], 0, 0, [0])


def shape(rank, data):
    """8 bytes a dimension; None where the length is another one."""
    return [int.from_bytes(data[i:i + 8], "little") for i in range(0, len(data), 8)] if len(data) == 8 * rank else None


def from_bytes(rank, chunk, present, has_maximum, maximum, corner):
    case(1, rank, chunk, present, int(has_maximum), maximum, 0, 0, corner)
    head = "bytes"
    c, p, m = (shape(rank, s) for s in (chunk, present, maximum))
    number = 3 if rank > 32 or c is None else 4 if p is None else 5 if has_maximum and m is None else 0
    try:
        if number:
            raise Refused(number)
        g = Grid(rank, c, p, m if has_maximum else None, True)
    except Refused as r:
        show(head + f" refused {r} 0 0")
        return
    show(head + g.numbers())
    at = shape(rank, corner)
    # A corner of another length is read as one of another rank: no number, or one 0 where the rank is 0.
    show(g.corner(at if at is not None else [0] if rank == 0 else []))


def all_bytes():
    one = bytes(range(1, 9))
    ten, most = (n.to_bytes(8, "little") for n in (10, TOP))
    two = (2).to_bytes(8, "little") + (3).to_bytes(8, "little")
    wide = (9).to_bytes(8, "little") + (263).to_bytes(8, "little")
    twenty = (20).to_bytes(8, "little")
    from_bytes(1, ten, one, True, most, ten)
    from_bytes(1, ten, one, True, most, twenty)
    from_bytes(1, ten, one, True, most, twenty[:7])
    from_bytes(1, ten, one, True, most, two)
    from_bytes(1, ten, one, True, most, b"")
    from_bytes(2, two, wide, False, b"", two)
    from_bytes(2, two, wide, False, ten, (4).to_bytes(8, "little") + (6).to_bytes(8, "little"))
    from_bytes(1, ten[:7], one, True, most, ten)
    from_bytes(1, b"", one, True, most, ten)
    from_bytes(1, two, one, True, most, ten)
    from_bytes(2, ten, two, True, wide, ten)
    from_bytes(1, ten, two, True, most, ten)
    from_bytes(1, ten, b"", True, most, ten)
    from_bytes(1, ten, one, True, two, ten)
    from_bytes(1, ten, one, True, b"", ten)
    from_bytes(1, bytes(8), one, True, b"", ten)
    from_bytes(0, b"", b"", False, b"\1", b"")
    from_bytes(0, b"", b"", False, b"", b"\1")
    from_bytes(0, b"", b"", True, b"\1", b"")
    from_bytes(0, b"\1", b"", False, b"", b"")
    from_bytes(33, one, one, False, b"", b"")
    from_bytes(TOP, b"", b"", False, b"", b"")


def many(count):
    pick = random.Random(8)
    for _ in range(count):
        rank = pick.randrange(5)
        chunk = [pick.randint(1, 5) for _ in range(rank)]
        present = [pick.randrange(13) for _ in range(rank)]
        maximum = [pick.choice([*range(14), TOP, TOP]) for _ in range(rank)]
        corner = [c * pick.randrange(3) + (pick.randrange(8) == 0) for c in chunk]
        grid(rank, chunk, present, maximum if pick.randrange(3) else None, 0, 12, corner)
    for _ in range(2 * count):
        rank = pick.randint(1, 4)
        chunk = [pick.randrange(1, 2**pick.randint(1, 63)) for _ in range(rank)]
        present = [pick.randrange(2**pick.randint(1, 64)) for _ in range(rank)]
        maximum = [pick.choice([pick.randrange(2**pick.randint(1, 64)), TOP]) for _ in range(rank)]
        start = pick.choice([0, pick.randrange(2**64 - 3)])
        corner = [c * pick.randrange(-(-p // c) or 1) for c, p in zip(chunk, present)]
        grid(rank, chunk, present, maximum, start, start + 3, corner)


counts()
lengths()
large()
overflows()
corners()
all_bytes()
many(40)
with open("stdin", "w") as cases, open("stdout", "w") as lines:
    cases.write("\n".join([str(len(CASES)), *CASES]) + "\n")
    lines.write("\n".join(LINES) + "\n")
