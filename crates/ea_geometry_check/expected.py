#!/usr/bin/env python3
# Writes what ea_geometry_check must print, from the layout rules alone: python3 expected.py > stdout
TOP = 2**64 - 1


def super_blocks(max_bits, log):
    return max(max_bits - log, 0) + 1


def comparisons(inline):
    """The first and last inline slot, if there are any, and three slots of each super block, for every served combination."""
    return sum((2 if inline else 0) + 3 * super_blocks(max_bits, log)
               for log in range(8) for max_bits in range(63) for _ in range(33))


for inline, minimum in ((0, 0), (4, 4), (255, 32)):
    print(f"inline {inline} minimum {minimum} compared {comparisons(inline)} wrong 0")

# Max bits 32, least block elements 16, minimum 4, inline 2, page exponent 10, unfiltered.
MINIMUM, INLINE, PAGE = 4, 2, 1024
SUPER_BLOCKS = []
blocks, elements = 1, 16
for u in range(super_blocks(32, 4)):
    SUPER_BLOCKS.append((blocks, elements))
    if u % 2 == 0:
        elements *= 2
    else:
        blocks *= 2
DIRECT = sum(blocks for blocks, _ in SUPER_BLOCKS[:MINIMUM])
SUPER = len(SUPER_BLOCKS) - MINIMUM


def place(slot):
    """The place of a slot, found by going through the super blocks from the first."""
    if slot < INLINE:
        return f"inline {slot}"
    left = slot - INLINE
    for u, (blocks, elements) in enumerate(SUPER_BLOCKS):
        if left < blocks * elements:
            k, i = divmod(left, elements)
            text = f"super block {u} block {k} element {i}"
            if MINIMUM <= u and PAGE < elements:
                text += f" page {i // PAGE} bit {k * (elements // PAGE) + i // PAGE}"
            return text
        left -= blocks * elements
    return "nowhere"


for o in (2, 8, TOP):
    extent = 4 + 1 + 1 + o + INLINE * o + DIRECT * o + SUPER * o + 4
    print(f"offset size {o} direct {DIRECT} super {SUPER} index block {min(extent, TOP)}")
for slot in (0, 1, 2, 17, 18, 242, 131_060, 138_226, 8_589_934_577, 8_589_934_578, TOP):
    print(f"slot {slot} {place(slot)}")
for bits in (b"\x81\x43", b"\x01\xfe"):
    print("".join(f"{byte:08b}" for byte in bits))
