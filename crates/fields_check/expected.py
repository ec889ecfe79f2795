#!/usr/bin/env python3
# Writes what fields_check must print, from the rules alone: python3 expected.py > stdout
TOP = 2**64 - 1
UNDEFINED = {2: 0xFFFF, 4: 0xFFFF_FFFF, 8: TOP}  # all bits set at an offset's width; no other width has an undefined address


def refused(number, first=0, second=0):
    return f" refused {number} {first} {second}"


def field(s, pos, width, wrong):
    """A field's number, or the refusal: of the width first, then 20 with the end (at most 2^64 - 1) and the length."""
    if wrong:
        return wrong
    if pos + width > len(s):
        return refused(20, min(pos + width, TOP), len(s))
    return int.from_bytes(s[pos:pos + width], "little")


def text(answer):
    return answer if isinstance(answer, str) else f" {answer}"


def readers(s, pos, width):
    legal = width in (2, 4, 8)
    offset = field(s, pos, width, None if legal else refused(1, width))
    optional = " undefined" if legal and offset == UNDEFINED[width] else offset
    length = field(s, pos, width, None if legal else refused(2, width))
    size = field(s, pos, width, refused(29) if width > 8 else None)
    print(f"read {len(s)} {pos} {width}:" + ",".join(text(a) for a in (offset, optional, length, size)))


def widths(s, pos):
    for width in range(10):
        readers(s, pos, width)


def reads():
    rising = bytes(range(1, 13))
    for pos in (0, 3, 4, 12, 13):
        widths(rising, pos)
    for pos in (0, 2):
        for end in range(pos, 12):
            readers(rising[:end], pos, end - pos)
            readers(rising[:end], pos, end - pos + 1)
    widths(b"", 0)
    for pos in (2**63 - 1, 2**64 - 9, 2**64 - 8, 2**64 - 2, 2**64 - 1):
        widths(rising, pos)
    for pos in (0, TOP):
        for width in (16, 255, 258, 260, 264, 2**16 + 8, 2**32 + 8, TOP):
            readers(rising, pos, width)
    ones = bytes([255])
    widths(ones * 10, 0)
    widths(bytes([254]) + ones * 9, 0)
    widths(ones * 2 + bytes(6) + ones * 2, 0)
    widths(ones * 4 + bytes(4) + ones * 2, 0)
    widths(ones * 7 + bytes([254]) + ones * 2, 0)


def ensured(s, pos, needed):
    answer = field(s, pos, needed, None)
    print(f"ensure {len(s)} {pos} {needed}:" + (answer if isinstance(answer, str) else " passed"))


def undefined(value):
    print(f"undefined {value}:" + "".join(f" {int(UNDEFINED.get(width) == value)}" for width in range(10)))


def stored(value):
    for width in range(10):
        low = value % 256**width
        s = bytes([0xAA] * 2) + low.to_bytes(width, "little") + bytes([0xAA] * (10 - width))
        back = refused(29) if width > 8 else low
        print(f"store {value} {width}: {s.hex()}{text(back)}")


def exact(n):
    return f" {n}" if n <= TOP else " overflows"


def sums(a, b):
    print(f"sum {a} {b}:{exact(a + b)} {min(a + b, TOP)}{exact(a * b)} {min(a * b, TOP)}")


def narrowed(n):
    print(f"narrow {n}:" + (f" {n}" if n < 2**32 else refused(30, n)))


reads()
for s, pos, needed in ((b"", 0, 0), (b"", 0, 1), (b"", 1, 0), (b"abc", 0, 3), (b"abc", 0, 4), (b"abc", 3, 0), (b"abc", 4, 0),
                       (b"abc", 2, 1), (b"abc", 2, 2), (b"abc", TOP - 1, 1), (b"abc", TOP, 1), (b"abc", 1, TOP), (b"abc", 3, TOP),
                       (b"abc", TOP, TOP)):
    ensured(s, pos, needed)
for value in (0, 254, 255, 65534, 65535, 65536, 2**32 - 2, 2**32 - 1, 2**32, 2**64 - 2, 2**64 - 1):
    undefined(value)
for value in (0, int.from_bytes(bytes(range(1, 9)), "little"), TOP, TOP - 1):
    stored(value)
for a, b in ((0, 0), (TOP, 0), (0, TOP), (TOP, 1), (1, TOP), (TOP - 1, 1), (2**63, 2**63 - 1), (2**63, 2), (2**32 - 1, 2**32 + 1),
             (2**32, 2**32), (TOP, TOP), (TOP // 3, 3), (3, TOP // 3 + 1)):
    sums(a, b)
for n in (0, 2**32 - 2, 2**32 - 1, 2**32, 2**32 + 1, TOP):
    narrowed(n)
