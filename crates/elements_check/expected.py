#!/usr/bin/env python3
# Writes what elements_check must print, from the form of an element and the order of its tests alone: python3 expected.py > stdout
TOP = 2**64 - 1

TWO = bytes([1] + [0] * 7 + [2] + [0] * 7 + [3] + [0] * 3 + [4] + [0] * 3 + [5])
UNDEFINED = bytes([255] * 25)


def number(s):
    return int.from_bytes(s, "little")


class Line:
    """Chunks of 10, 25 elements present, unlimited."""
    chunk, nothing = [10], False

    def offsets(self, slot):
        return [10 * slot]

    def inside(self, slot):
        return 10 * slot < 25


class Tall:
    """Chunks of 2^63 by 1, unlimited by a count of 0 or 1, of which one element is present."""
    chunk = [2**63, 1]

    def __init__(self, count):
        self.nothing = count == 0

    def offsets(self, slot):
        return [2**63 * slot, 0]

    def inside(self, slot):
        return slot == 0


def refused(number, first=0):
    return f" refused {number} {first} 0"


def element(s, client, size, width, slot, element_bytes, grid):
    """28, 1, undefined, 32, 33, dropped, 29, 30: the first that holds."""
    if client and size < width + 4:
        return refused(28)
    if width not in (2, 4, 8):
        return refused(1, width)
    address = number(s[:width])
    if address == 256**width - 1:
        return " absent"
    if grid.nothing:
        return refused(32)
    if max(grid.offsets(slot)) > TOP:
        return refused(33)
    if not grid.inside(slot):
        return " absent"
    length, mask = element_bytes, 0
    for n in grid.chunk:
        length *= n
    if client:
        if size - width - 4 > 8:
            return refused(29)
        length, mask = number(s[width:size - 4]), number(s[size - 4:size])
    return refused(30, min(length, TOP)) if length >= 2**32 else f" {address} {length} {mask}"


def show(name, s, client, size, width, slot, element_bytes, grid):
    print(f"{name} client {client} size {size} width {width} slot {slot}:" + element(s, client, size, width, slot, element_bytes, grid))


for name, s in (("two", TWO), ("undefined", UNDEFINED)):
    for width in (2, 3, 4, 8):
        for size in range(26):
            show(name, s, 1, size, width, 0, 4, Line())
for name, length in (("limit", 2**32 - 1), ("over", 2**32), ("highest", 2**56)):
    for size in (20, 21):
        s = (1).to_bytes(8, "little") + length.to_bytes(8, "little") + bytes([3, 0, 0, 0, 4])
        show(name, s, 1, size, 8, 0, 4, Line())
for name, s in (("two", TWO), ("undefined", UNDEFINED)):
    show(name, s, 1, 20, 8, 2, 4, Tall(0))
    show(name, s, 1, 20, 8, 2, 4, Tall(1))
    show(name, s, 1, 21, 8, 3, 4, Line())
for name, s, element_bytes in (("two", TWO, 4), ("two", TWO, 429496729), ("two", TWO, 429496730), ("two", TWO, TOP), ("undefined", UNDEFINED, TOP)):
    show(name, s, 0, 0, 8, 0, element_bytes, Line())
