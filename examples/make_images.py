"""Writes the example images: bench.img of the program inspect, and damaged.img and long.img of the
test program bench_files.

An image is a row of records. Each has a 6-byte header, the length of its body in 4 bytes and its
kind in 2, and then the body; all numbers have their lowest byte first. Kind 1 places bytes: its
body is a 4-byte address and then the bytes. Kind 2 ends the image and has no body.

bench.img is a program that averages the hold pressures of a shift. It lies in these lines of 128
bytes:

    line 0    0x000   the supervisor: starts the user program
    line 0    0x060   from the middle of the line on, and into line 1: takes the user's results
    line 2    0x100   the user program: averages the table
    line 3    0x180   the table: 16 pressures in tenths of a bar, 16 bits each
    line 4    0x200   the same table at 32 bits
    line 5    0x280   the count, the constants and the places for sums
    lines 6 to 10     blank until the program has run: the results, the supervisor's scratch line,
                      two lines for what the user hands over, and the record of the shift

damaged.img is the same with one more place, on line 300, which a bench with 256 lines of RAM does
not have.

long.img has 70,000 bytes, of which the first 65,536 are a whole image.

Run it anywhere: it needs nothing but Python 3 and writes the same bytes each time.
"""

import struct
from pathlib import Path

ROOT = Path(__file__).resolve().parent.parent

LINE = 128

# The numbers of names, as docs/words.md has them.
TYPES = ["u8", "s8", "u16", "s16", "u32", "s32", "u64", "s64"]
ARITHMETIC = ["add", "sub", "slt", "mul", "and", "or", "xor", "shl", "shr", "rol", "ror", "addr"]
REDUCTIONS = ["add", "mul", "max", "min", "and"]
SPECIALS = ["ie", "xct", "swiarg0", "swiarg1", "swiarg2", "swiarg3"]


def word(*fields):
    """The word of some fields, each (number, bits), from bit 31 down."""
    value = 0
    for number, bits in fields:
        assert 0 <= number < 1 << bits, (number, bits)
        value = value << bits | number
    assert sum(bits for _, bits in fields) == 32
    return value


def signed(number, bits):
    """A signed number in two's complement."""
    assert -(1 << bits - 1) <= number < 1 << bits - 1, (number, bits)
    return number & (1 << bits) - 1


def arith(name, a, b, c):
    """A scalar operation: dA becomes dB name dC."""
    return word((0, 4), (a, 6), (b, 6), (c, 6), (0, 5), (0, 1), (ARITHMETIC.index(name), 4))


def div(a, b, c, d):
    return word((0, 4), (a, 6), (b, 6), (c, 6), (d, 5), (0, 1), (14, 4))


def reduce(name, a, b):
    return word((1, 4), (a, 6), (b, 6), (0, 12), (REDUCTIONS.index(name), 4))


def load(kind, a, b, i):
    return word((2, 4), (a, 6), (b, 6), (signed(i, 12), 12), (TYPES.index(kind), 4))


def store(kind, a, b, i):
    return word((3, 4), (a, 6), (b, 6), (signed(i, 12), 12), (TYPES.index(kind), 4))


def fetch(a, b, i, j):
    assert a + j <= 62
    return word((5, 4), (a, 6), (b, 6), (signed(i, 11), 11), (j, 4), (1, 1))


def jnz(a, b, w):
    assert b != 0
    return word((6, 4), (a, 6), (b, 6), (w, 5), (0, 7), (0, 4))


def jz(a, b, w):
    assert b != 0
    return word((6, 4), (a, 6), (b, 6), (w, 5), (0, 7), (1, 4))


def hand(b, w):
    assert b != 0
    return word((6, 4), (0, 6), (b, 6), (w, 5), (0, 7), (2, 4))


def cpy_out(register, a):
    return word((8, 4), (a, 6), (0, 18), (2 * SPECIALS.index(register), 4))


def cpy_in(register, a):
    return word((8, 4), (a, 6), (0, 18), (2 * SPECIALS.index(register) + 1, 4))


def swi(a, b, c, d):
    return word((8, 4), (a, 6), (b, 6), (c, 6), (d, 6), (12, 4))


def reti():
    return word((8, 4), (0, 24), (13, 4))


def retx():
    return word((8, 4), (0, 24), (14, 4))


def code(words):
    """The bytes of a row of words."""
    return b"".join(struct.pack("<I", w) for w in words)


def place(address, data):
    """A record that places bytes at an address."""
    return struct.pack("<IHI", 4 + len(data), 1, address) + data


def end():
    return struct.pack("<IH", 0, 2)


# Where the parts lie.
SUPERVISOR = 0x000
ENTRY = 0x060
USER = 0x100
TABLE = 0x180
WIDE_TABLE = 0x200
CONSTANTS = 0x280
RESULTS = 0x300
SCRATCH = 0x380
HANDED = 0x400  # two lines
RECORD = 0x500

# The places within the line of constants, and within the results, which are a copy of it.
COUNT = 0  # how many pressures: the divisor
LEFT = 4  # how many are still to be added
ONE = 8
SUM = 12
QUOTIENT = 16
REMAINDER = 20
CHECK = 24

# 85.0 bar to 100.0 bar. Their average is 92.5.
PRESSURES = [850 + 10 * n for n in range(16)]

# The registers. Each mode has its own. d0 and i0 are the zero registers: their address is 0, so a
# load or a fetch with base 0 names an address outright. A mode's ipc is its instruction register
# 63, so a jump by it stays on the line that runs.
D_COUNT, D_ONE, D_LEFT, D_SUM, D_PRESSURE = 1, 2, 3, 4, 5
D_QUOTIENT, D_REMAINDER, D_WIDE, D_CHECK = 6, 7, 8, 9
D_CAUSE, D_FIRST, D_SECOND, D_AVERAGE = 10, 11, 12, 13
I_USER, I_SUPERVISOR, IPC = 1, 2, 63

# The machine starts here in supervisor mode, with every register on line 0, and comes here again
# at each entry from the user program.
supervisor = [
    # The cause of the entry goes to the scratch line, since line 0 is fixed. It is 0 at the start.
    load("u32", D_CAUSE, 0, SCRATCH),
    cpy_out("xct", D_CAUSE),
    # What runs past the last word of a line needs an instruction register that names the next
    # line: lines 0 and 1.
    fetch(I_SUPERVISOR, 0, SUPERVISOR // 4, 1),
    jnz(D_CAUSE, I_SUPERVISOR, ENTRY // 4),
    # The user program's line, and over to it.
    fetch(I_USER, 0, USER // 4, 0),
    hand(I_USER, 0),
    retx(),
]

# The part that handles an entry: keeps the two lines that the user program hands over, puts the
# results on record and stays there. It begins at word 24 of line 0 and ends in line 1.
entry = [
    load("u32", D_FIRST, 0, HANDED),
    cpy_out("swiarg0", D_FIRST),
    load("u32", D_SECOND, 0, HANDED + LINE),
    cpy_out("swiarg1", D_SECOND),
    # d0 is 0: no interrupts
    cpy_in("ie", 0),
    # a store takes the register's whole line along, and the register with it
    load("u32", D_AVERAGE, D_FIRST, QUOTIENT),
    store("u32", D_AVERAGE, 0, RECORD + QUOTIENT),
    load("u32", D_CAUSE, 0, SCRATCH),
    # line 1: d0 is 0, so the second of these jumps to itself
    cpy_in("xct", 0),
    jz(0, IPC, 1),
]

# The user program.
LOOP = 5
user = [
    load("u32", D_COUNT, 0, CONSTANTS + COUNT),
    load("u32", D_LEFT, 0, CONSTANTS + LEFT),
    load("u32", D_ONE, 0, CONSTANTS + ONE),
    load("u32", D_SUM, 0, CONSTANTS + SUM),
    load("u16", D_PRESSURE, 0, TABLE),
    # the loop: adds a pressure and moves on to the next, 2 bytes further, until none is left
    arith("add", D_SUM, D_SUM, D_PRESSURE),
    load("u16", D_PRESSURE, D_PRESSURE, 2),
    arith("sub", D_LEFT, D_LEFT, D_ONE),
    jnz(D_LEFT, IPC, LOOP),
    # the average, and what is left over
    load("u32", D_QUOTIENT, 0, CONSTANTS + QUOTIENT),
    load("u32", D_REMAINDER, 0, CONSTANTS + REMAINDER),
    div(D_QUOTIENT, D_SUM, D_COUNT, D_REMAINDER),
    # the sum once more, from the whole wide table at once, less the sum of the loop: 0 where the
    # two tables agree
    load("u32", D_WIDE, 0, WIDE_TABLE),
    load("u32", D_CHECK, 0, CONSTANTS + CHECK),
    reduce("add", D_CHECK, D_WIDE),
    arith("sub", D_CHECK, D_CHECK, D_SUM),
    # the whole line goes to the results, and its line and the table's to the supervisor
    store("u32", D_QUOTIENT, 0, RESULTS + QUOTIENT),
    swi(D_QUOTIENT, D_WIDE, 0, 0),
]

# Half a word, as a cut transfer leaves it: the low half of a store, in the last place of the user
# program's line. With zeros above it no operation has this word.
half = code([store("u32", D_CHECK, 0, RESULTS + CHECK)])[0:2]

places = [
    place(SUPERVISOR, code(supervisor)),
    place(ENTRY, code(entry)),
    place(USER, code(user)),
    place(USER + LINE - 4, half),
    place(TABLE, struct.pack("<16H", *PRESSURES)),
    place(WIDE_TABLE, struct.pack("<16I", *PRESSURES)),
    place(CONSTANTS, struct.pack("<3I", len(PRESSURES), len(PRESSURES), 1)),
]

# A place on a line that the bench does not have.
astray = place(300 * LINE, code([retx()]))

# An image of exactly 65,536 bytes: two places of as many bytes as fit, the second over the first. In
# long.img more bytes follow, which do not count.
HALF = (65536 - 2 * 10 - 6) // 2
long = place(0, b"\x02" * HALF) + place(0, b"\x01" * HALF) + end()
assert len(long) == 65536

if __name__ == "__main__":
    (ROOT / "crates/inspect/data").mkdir(parents=True, exist_ok=True)
    (ROOT / "crates/inspect/data/bench.img").write_bytes(b"".join(places) + end())
    (ROOT / "crates/bench_files/data/damaged.img").write_bytes(b"".join(places) + astray + end())
    (ROOT / "crates/bench_files/data/long.img").write_bytes(long + b"Z" * 4464)
