"""Random small files with an extensible array, and random calls on them. The checksum is the sum of the bytes."""
import random
from collections import namedtuple

UNLIMITED = 2**64 - 1

# list_offset_size is the offset size that the list is called with; the header is read with offset_size.
Case = namedtuple("Case", "file offset_size length_size address element_bytes order chunk present maximum list_offset_size")


def le(value, width):
    return list((value % 256**width).to_bytes(width, "little"))


def summed(body):
    return body + le(sum(body), 4)


class Maker:
    def __init__(self, seed):
        self.random = random.Random(seed)

    def chance(self, p):
        return self.random.random() < p

    def pick(self, *choices):
        return self.random.choice(choices)

    def below(self, n):
        return self.random.randrange(n)

    def junk(self, n):
        return [self.below(256) for _ in range(n)]

    def case(self):
        """A case: what the array is like, its bytes, the grid."""
        self.parameters()
        self.likelihoods()
        file, address = self.array()
        if self.chance(0.1):
            file = file[: self.random.randrange(max(1, len(file) - 60), len(file))]
        order, chunk, present, maximum = self.grid()
        return Case(
            file,
            self.header_offset_size,
            3 if self.chance(0.01) else self.length_size,
            address,
            self.pick(1, 4, 8, 0, 2**20),
            order,
            chunk,
            present,
            maximum,
            self.pick(3, 2, 4, 8, 0) if self.chance(0.04) else self.offset_size,
        )

    def parameters(self):
        self.header_offset_size = self.pick(2, 2, 2, 4, 8)
        # The blocks are laid out for this one, which the list is mostly called with.
        self.offset_size = self.pick(3, 1, 5) if self.chance(0.06) else self.header_offset_size
        self.length_size = self.pick(2, 4, 8)
        self.client = self.pick(0, 0, 1, 1, 3)
        self.size_bytes = self.pick(0, 1, 2, 4, 8)
        self.element_size = self.offset_size + 4 + self.size_bytes
        if self.chance(0.05):
            self.element_size = self.pick(self.offset_size + 3, self.offset_size + 13, 0)
        if self.client == 0 and self.chance(0.5):
            self.element_size = self.below(20)
        self.stride = self.offset_size if self.client == 0 else self.element_size
        self.bits = self.below(6) if self.chance(0.7) else self.below(63)
        self.inline = self.below(4)
        self.least = self.pick(1, 1, 2, 4) if self.chance(0.9) else self.pick(8, 64, 128)
        self.minimum = self.pick(0, 0, 1, 2, 2, 3, 9)
        self.page_exponent = self.pick(0, 0, 1, 1, 2, 3) if self.chance(0.9) else self.pick(5, 12, 32)
        self.super_blocks = max(self.bits - (self.least.bit_length() - 1), 0) + 1
        self.direct = min(self.minimum, self.super_blocks)
        slots = self.inline + self.least * (2**self.super_blocks - 1)
        if slots > 10**4:
            slots = self.pick(50, slots)
        self.count = self.pick(
            slots, slots, self.below(slots + 3), self.below(slots + 3), self.below(self.inline + 2 * self.least + 3)
        )

    def likelihoods(self):
        self.defined = self.pick(0.5, 0.8, 0.95)
        self.pointed = self.pick(0.5, 0.9)
        self.bad = self.pick(0, 0, 0, 0.05, 0.2)

    # Bytes.

    def undefined(self):
        return [255] * self.offset_size

    def pointer(self, position):
        return self.undefined() if position is None else le(position, self.offset_size)

    def element(self):
        if self.chance(self.defined):
            address = le(self.random.randrange(1, 250), self.offset_size)
        else:
            address = self.undefined()
        if self.client == 0:
            return address
        size = []
        if self.stride >= self.offset_size + 4 and self.size_bytes:
            most = 2 ** (8 * self.size_bytes) - 2
            size = le(most if self.chance(0.01) else self.random.randrange(1, 2 ** min(8 * self.size_bytes, 31)), self.size_bytes)
        element = address + size
        return (element + self.junk(max(self.stride - len(element), 0)))[: self.stride]

    def elements(self, n):
        return [byte for _ in range(n) for byte in self.element()]

    def prefix(self, signature):
        """Signature, version, client, header address, block offset; all but the first may be anything."""
        start = list(signature) + [self.below(3), self.below(3)] + [1] * self.offset_size
        return start if signature == b"EAIB" else start + [2] * ((self.bits + 7) // 8)

    def spoiled(self, block):
        if not self.chance(self.bad):
            return block
        place = self.pick(0, 1, 2, 3, len(block) - 1, self.below(len(block)))
        return block[:place] + [block[place] ^ 1] + block[place + 1 :]

    def put(self, file, block):
        file.extend(block)
        return len(file) - len(block)

    # Structures.

    def data_block(self, elements):
        return summed(self.prefix(b"EADB") + self.elements(elements))

    def paged_block(self, pages_set):
        block = summed(self.prefix(b"EADB"))
        for is_set in pages_set:
            page = self.junk(2**self.page_exponent * self.stride + 4)
            if is_set:
                page = summed(self.elements(2**self.page_exponent))
                if self.chance(self.bad / 3):
                    page[-1] ^= 1
            block += page
        return block

    def super_block(self, file, u):
        """Its data blocks and itself; gives its position."""
        blocks, elements = 2 ** (u // 2), self.least * 2 ** ((u + 1) // 2)
        pages = elements >> self.page_exponent if elements > 2**self.page_exponent else 0
        bits = [0] * (blocks * ((pages + 7) // 8))
        pointers = []
        for k in range(blocks):
            pointed = self.chance(self.pointed)
            # Bits may be set for a block that is not there.
            pages_set = [self.chance(self.pointed if pointed else 0.3) for _ in range(pages)]
            for p, is_set in enumerate(pages_set):
                if is_set:
                    bit = k * pages + p
                    bits[bit // 8] |= 0x80 >> bit % 8
            if pointed:
                block = self.paged_block(pages_set) if pages else self.data_block(elements)
                pointers.append(self.put(file, self.spoiled(block)))
            else:
                pointers.append(None)
        body = self.prefix(b"EASB") + bits + [byte for p in pointers for byte in self.pointer(p)]
        return self.put(file, self.spoiled(summed(body)))

    def stray(self):
        """A pointer to a block that is too large to be written."""
        return None if self.chance(0.97) else self.below(100)

    def array(self):
        """The file and the header's address."""
        address = self.below(5)
        header_bytes = 16 + 6 * self.length_size + self.header_offset_size
        file = [7] * address + [0] * header_bytes
        pointers = []
        for u in range(self.direct):
            elements = self.least * 2 ** ((u + 1) // 2)
            for _ in range(2 ** (u // 2)):
                if elements > 40:
                    pointers.append(self.stray())
                else:
                    pointers.append(self.put(file, self.spoiled(self.data_block(elements))) if self.chance(self.pointed) else None)
        for u in range(self.direct, self.super_blocks):
            if self.least * 2**u > 64:
                pointers.append(self.stray())
            else:
                pointers.append(self.super_block(file, u) if self.chance(self.pointed) else None)
        body = self.prefix(b"EAIB") + self.elements(self.inline)
        for pointer in pointers:
            if pointer is not None and self.chance(self.bad / 4):
                pointer = self.below(256**self.offset_size - 1)
            body += self.pointer(pointer)
        index = self.put(file, self.spoiled(summed(body)))
        file[address : address + header_bytes] = self.header(index)
        return file, address

    def header(self, index):
        body = list(b"EAHD") + [0, self.client, self.element_size, self.bits, self.inline, self.least, self.minimum, self.page_exponent]
        for k in range(6):
            body += le(self.count if k == 4 else self.below(60000), self.length_size)
        body += le(256**self.header_offset_size - 1 if self.chance(0.02) else index, self.header_offset_size)
        header = summed(body)
        if self.chance(self.bad / 2):
            header[self.below(len(header))] ^= 1
        return header

    # The grid.

    def grid(self):
        rank = self.pick(0, 1, 1, 2, 2, 3)
        chunk = [self.random.randrange(1, 4) for _ in range(rank)]
        present = [self.below(12) for _ in range(rank)]
        if self.chance(0.6):
            present = [extent + 6 for extent in present]
        maximum = None
        if self.chance(0.8):
            maximum = [max(0, extent + self.pick(0, 0, 3, -1)) for extent in present]
            for p, value in ((0.7, UNLIMITED), (0.1 if rank > 1 else 0, UNLIMITED), (0.05, 0), (0.05, 2**63), (0.05, 2**63)):
                self.strike(maximum, p, value)
        if maximum is not None and self.chance(0.02):
            maximum = maximum + [1]
        if self.chance(0.02):
            present = present + [1]
        self.strike(chunk, 0.03, 0)
        self.strike(chunk, 0.03, 2**31)
        self.strike(present, 0.03, UNLIMITED)
        # Only a filtered array's list may have longer chunks: it does not look at the chunk's bytes.
        if self.client:
            self.strike(chunk, 0.06, 2**63)
        return self.pick("U", "R"), chunk, present, maximum

    def strike(self, shape, p, value):
        """With likelihood p one dimension is another."""
        if shape and self.chance(p):
            shape[self.below(len(shape))] = value
