"""Prints what inspect should print for an image, worked out from docs/ and not by the program.

It shares no code with the crates, so crates/inspect/stdout can be compared with it:

    python3 examples/expected_listing.py crates/inspect/data/bench.img | diff - crates/inspect/stdout
"""

import struct
import sys

LINE, RAM_LINES, FUSED_LINES, OPEN_LINES, MOST_BYTES = 128, 256, 2, 256, 65536

TYPES = "u8 s8 u16 s16 u32 s32 u64 s64".split()
ARITHMETIC = "add sub slt mul and or xor shl shr rol ror addr".split()
REDUCTIONS = "add mul max min and".split()
SPECIALS = "ie xct swiarg0 swiarg1 swiarg2 swiarg3".split()


def fields(word, *widths):
    """The fields of a word from bit 31 down."""
    bits = format(word, "032b")
    found, at = [], 0
    for width in widths:
        found.append(int(bits[at : at + width], 2))
        at += width
    assert at == 32
    return found


def signed(number, bits):
    return number - (1 << bits) if number >> bits - 1 else number


def text(word):
    """The operation of a word with its fields by name (docs/words.md, docs/inspect.md)."""
    group = word >> 28
    if group == 0:
        _, a, b, c, d, v, o = fields(word, 4, 6, 6, 6, 5, 1, 4)
        if o <= 11 and d == 0:
            return f"{ARITHMETIC[o]}.{'sv'[v]} a {a} b {b} c {c}"
        if (o, v) in ((14, 0), (15, 1)):
            return f"div.{'sv'[v]} a {a} b {b} c {c} d {d}"
    if group in (1, 4):
        _, a, b, z, o = fields(word, 4, 6, 6, 12, 4)
        if group == 1 and o <= 4 and z == 0:
            return f"{REDUCTIONS[o]}.r a {a} b {b}"
        if group == 4 and o <= 7 and z == 0:
            return f"dup.{TYPES[o]} a {a} b {b}"
    if group in (2, 3):
        _, a, b, i, o = fields(word, 4, 6, 6, 12, 4)
        if o <= 7:
            return f"{('load', 'store')[group - 2]}.{TYPES[o]} a {a} b {b} i {signed(i, 12)}"
    if group == 5:
        _, a, b, i, j, o = fields(word, 4, 6, 6, 11, 4, 1)
        if o == 1 and a + j <= 62:
            return f"fetch a {a} b {b} i {signed(i, 11)} j {j}"
    if group == 6:
        _, a, b, w, z, o = fields(word, 4, 6, 6, 5, 7, 4)
        if b != 0 and z == 0 and o <= 1:
            return f"{('jnz', 'jz')[o]} a {a} b {b} w {w}"
        if b != 0 and z == 0 and o == 2 and a == 0:
            return f"hand b {b} w {w}"
    if group == 8:
        _, a, b, c, d, o = fields(word, 4, 6, 6, 6, 6, 4)
        if o <= 11 and b == c == d == 0:
            return f"cpy.{('out', 'in')[o % 2]} {SPECIALS[o // 2]} a {a}"
        if o == 12:
            return f"swi a {a} b {b} c {c} d {d}"
        if o in (13, 14) and a == b == c == d == 0:
            return ("reti", "retx")[o - 13]
    return "undefined"


def records(image):
    """The places of an image, or its fault of form as (number, byte place, line) (docs/images.md)."""
    places, at = [], 0
    while True:
        if len(image) - at < 6:
            return None, (7, at, 0)
        length, kind = struct.unpack_from("<IH", image, at)
        if kind not in (1, 2) or kind == 2 and length:
            return None, (8, at, 0)
        if kind == 2:
            return (places, None) if len(image) == at + 6 else (None, (7, at + 6, 0))
        if length < 4 or len(image) - at - 6 < length:
            return None, (7, at, 0)
        address = struct.unpack_from("<I", image, at + 6)[0]
        places.append((at, address, image[at + 10 : at + 6 + length]))
        at += 6 + length


def load(image):
    """The RAM after loading, and the fault if there is one."""
    memory = bytearray(RAM_LINES * LINE)
    places, fault = records(image)
    if fault:
        return memory, fault
    for at, address, data in places:
        for line in ((address + i) // LINE for i in range(len(data))):
            if line >= RAM_LINES:
                return memory, (9, at, line)
    for _, address, data in places:
        memory[address : address + len(data)] = data
    return memory, None


def listing(image):
    memory, fault = load(image)
    if fault:
        yield f"x {fault[0]}"
        yield f"record at byte {fault[1]}, line {fault[2]}"
    else:
        yield f"image taken, {len(image)} bytes"
    lines = [(bytes(memory[LINE * n : LINE * (n + 1)]), n >= FUSED_LINES) for n in range(RAM_LINES)]
    lines += [(b"\xff" * LINE, False)] * OPEN_LINES
    undefined = first = 0
    while first < len(lines):
        after = first
        while after < len(lines) and lines[after] == lines[first]:
            after += 1
        data, writable = lines[first]
        if any(data):
            where = f"line {first}" if after == first + 1 else f"lines {first} to {after - 1}"
            yield f"{where} {'writable' if writable else 'fixed'}"
            for k, word in enumerate(struct.unpack("<32I", data)):
                undefined += text(word) == "undefined"
                yield f"  {LINE * first + 4 * k:08X} {word:08X} {text(word)}"
        first = after
    yield f"undefined words: {undefined}"


if __name__ == "__main__":
    with open(sys.argv[1], "rb") as file:
        print("\n".join(listing(file.read(MOST_BYTES))))
