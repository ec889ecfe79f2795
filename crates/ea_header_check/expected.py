#!/usr/bin/env python3
# Writes what ea_header_check must print, from the layout and the order of the refusals alone: python3 expected.py > stdout
# The calls that main.rt makes, group by group: python3 expected.py calls
import struct
import sys

TOP = 2**64 - 1


def rot(x, k):
    return (x << k | x >> 32 - k) & 0xFFFF_FFFF


def lookup3(s):
    """lookup3.c's hashlittle with start value 0."""
    w = [(0xDEADBEEF + len(s)) & 0xFFFF_FFFF] * 3
    if not s:
        return w[2]

    def add(block):
        for j, x in enumerate(struct.unpack("<III", block.ljust(12, b"\0"))):
            w[j] = (w[j] + x) & 0xFFFF_FFFF

    while len(s) > 12:
        add(s[:12])
        s = s[12:]
        for (x, y, z), k in zip(((0, 2, 1), (1, 0, 2), (2, 1, 0)) * 2, (4, 6, 8, 16, 19, 4)):
            w[x] = (w[x] - w[y] & 0xFFFF_FFFF) ^ rot(w[y], k)
            w[y] = (w[y] + w[z]) & 0xFFFF_FFFF
    add(s)
    for (x, y), k in zip(((2, 1), (0, 2), (1, 0), (2, 1), (0, 2), (1, 0), (2, 1)), (14, 11, 25, 16, 4, 14, 24)):
        w[x] = ((w[x] ^ w[y]) - rot(w[y], k)) & 0xFFFF_FFFF
    return w[2]


assert lookup3(b"Four score and seven years ago") == 0x17770551


def header(o, l, client=0, element=8, bits=32, inline=2, least=16, minimum=4, page=10, statistics=(1, 2, 3, 4, 5, 6), index=72,
           signature=b"EAHD", version=0, spoil=0):
    s = signature + bytes([version, client, element, bits, inline, least, minimum, page])
    s += b"".join(x.to_bytes(l, "little") for x in statistics) + index.to_bytes(o, "little")
    return s + (lookup3(s) ^ spoil).to_bytes(4, "little")


def number(s):
    return int.from_bytes(s, "little")


def served(fields):
    _, _, bits, _, least, minimum, page = fields
    return least in (1, 2, 4, 8, 16, 32, 64, 128) and bits <= 62 and minimum <= 32 and page <= 32


def parse(s, pos, o, l):
    size = 16 + 6 * l + o
    if pos + size > len(s):
        return f"refused 20 {min(pos + size, TOP)} {len(s)}"
    d = s[pos:pos + size]
    if d[:4] != b"EAHD":
        return "refused 21 0 0"
    if d[4]:
        return f"refused 22 {d[4]} 0"
    if l not in (2, 4, 8):
        return f"refused 2 {l} 0"
    if o not in (2, 4, 8):
        return f"refused 1 {o} 0"
    if number(d[-4:]) != lookup3(d[:-4]):
        return f"refused 26 {number(d[-4:])} {lookup3(d[:-4])}"
    fields = list(d[5:12])
    count, index = number(d[12 + 4 * l:12 + 5 * l]), number(d[12 + 6 * l:12 + 6 * l + o])
    return "header " + " ".join(map(str, fields + [count, index])) + (" served" if served(fields) else " refused 27")


A = header(8, 8)
LARGE = (10, 20, 2**63 + 1, TOP, 2**40 + 7, 2**41)
GROUPS = {
    "print_headers": [
        (A, 0, 8, 8),
        (b"\x01\x02\x03" + A + b"\x04", 3, 8, 8),
        (header(8, 8, 1, 14, 62, 255, 128, 32, 32, LARGE, TOP), 0, 8, 8),
        (header(4, 4, statistics=(9, 8, 7, 6, 0xFFFFFFFE, 4), index=0xFFFF), 0, 4, 4),
        (header(2, 2, statistics=(9, 8, 7, 6, 0xFFFE, 4), index=0xFFFF), 0, 2, 2),
        (header(2, 8, statistics=LARGE, index=0x1234), 0, 2, 8),
        (header(8, 2, statistics=(1, 2, 3, 4, 0xABCD, 0xFFFF), index=2**63), 0, 8, 2),
        (header(4, 8, 255, 0, 0, 0, 1, 0, 0, (0, ) * 6, 0), 0, 4, 8),
    ],
    "print_past_end": [
        (A[:-1], 0, 8, 8), (A, 1, 8, 8), (b"", 0, 8, 8), (A, TOP, 8, 8), (A, 0, TOP, 8), (A, 0, 8, TOP), (A, 2**63, 2**63, 2**60),
        (A, 0, 0, 2**62), (A, 0, 9, 8), (A[:-1], 0, 3, 8),
    ],
    "print_forms": [
        (header(8, 8, signature=b"EAIB"), 0, 8, 8), (header(8, 8, version=1), 0, 8, 8), (header(8, 8, version=255, spoil=1), 0, 8, 8),
        (header(8, 8, signature=b"EAHd", version=3, spoil=1), 0, 8, 8), (header(8, 8, version=7), 0, 7, 7),
    ],
    "print_sizes": [
        (A, 0, 3, 3), (A, 0, 8, 3), (A, 0, 3, 8), (A, 0, 0, 0), (A, 0, 0, 8), (A, 0, 7, 8), (A, 0, 16, 6), (A, 0, 1, 4),
        (header(8, 8, spoil=1), 0, 8, 7),
    ],
    "print_sums": [
        (header(8, 8, spoil=1), 0, 8, 8), (header(8, 8, spoil=2**31), 0, 8, 8), (A, 0, 4, 8), (A, 0, 8, 4), (A[:-4] + bytes(4), 0, 8, 8),
    ],
    "print_not_served": [
        (header(8, 8, least=0), 0, 8, 8), (header(8, 8, least=24), 0, 8, 8), (header(8, 8, least=255), 0, 8, 8),
        (header(8, 8, least=129), 0, 8, 8), (header(8, 8, bits=63), 0, 8, 8), (header(8, 8, minimum=33), 0, 8, 8),
        (header(8, 8, page=33), 0, 8, 8),
    ],
}


def text(s):
    return 'b"%s"' % "".join(f"\\x{b:02x}" for b in s)


def call(s, pos, o, l):
    """The call of main.rt: where s is the whole header, without its last byte, or with one byte and the checksum changed, of that."""
    changed = [i for i in range(68) if len(s) == 72 and s[i] != A[i]]
    if s == A:
        return f"print_whole({pos}, {o}, {l})"
    if (s, pos, l) == (A[:-1], 0, 8):
        return f"print_short({o})"
    if len(s) == 72 and len(changed) < 2 and pos == 0:
        place = changed[0] if changed else 4
        return f"print_changed({place}, {s[place]}, {text(s[68:])}, {o}, {l})"
    if (pos, o, l) == (0, 8, 8):
        return f"print_eight({text(s)})"
    return f"print_parsed({text(s)}, {pos}, {o}, {l})"


if sys.argv[1:] == ["calls"]:
    for name, vectors in GROUPS.items():
        print(name)
        for vector in vectors:
            print(f"    {call(*vector)};")
    sys.exit()
for vectors in GROUPS.values():
    for vector in vectors:
        print(parse(*vector))
print("served least", *(m for m in range(256) if served([0, 8, 62, 0, m, 32, 32])))
for o, l in ((8, 8), (2, 2), (4, 8), (TOP, 0), (0, TOP), (2**63, 2**60)):
    print("size", min(16 + 6 * l + o, TOP))
