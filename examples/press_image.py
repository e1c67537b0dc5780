"""Writes the image of the program console, crates/console/data/bench.img: a supervisor and a user program
that share a table of hold pressures. docs/console.md follows it step by step.

It lies in these lines of 128 bytes:

    line 0    0x000   the supervisor: starts the user program, and takes its entries
    line 2    0x100   the user program: changes the table at 16 bits, and reads it at 32 bits
    line 3    0x180   the table: 16 pressures in tenths of a bar, 16 bits each
    line 4    0x200   the constants
    lines 6 and 7     blank until the program has run: the user's difference, the supervisor's scratch line

Run it anywhere: it needs nothing but Python 3 and make_images.py beside it, and writes the same bytes each
time.
"""

import struct

from make_images import ROOT, arith, code, cpy_in, cpy_out, div, end, fetch, hand, jnz, jz, load, place, retx, swi

# Where the parts lie.
SUPERVISOR = 0x000
USER = 0x100
TABLE = 0x180
CONSTANTS = 0x200
DIFFERENCE = 0x300
SCRATCH = 0x380

# The places within the line of constants.
SOFTWARE = 0  # the number of a software interrupt
RISE = 4  # by how much the second pressure rises
CHANGED = 8  # the first two pressures as one number of 32 bits, after the rise

# 85.0 bar to 100.0 bar. The second is 860, which rises to 870.
PRESSURES = [850 + 10 * n for n in range(16)]

# A mode's ipc is its instruction register 63, so a jump by it stays on the line that runs.
IPC = 63

# The supervisor's registers.
D_CAUSE, D_SOFTWARE, D_OTHER, D_SECOND, D_FIRST_TWO = 1, 2, 3, 5, 6
I_USER = 1

# The machine starts here, and comes here again at each entry.
supervisor = [
    load("u32", D_CAUSE, 0, SCRATCH),
    cpy_out("xct", D_CAUSE),
    jnz(D_CAUSE, IPC, 9),
    # The start: the table through two registers, at 16 and at 32 bits; xct shows the second pressure.
    load("u16", D_SECOND, 0, TABLE + 2),
    load("u32", D_FIRST_TWO, 0, TABLE),
    cpy_in("xct", D_SECOND),
    fetch(I_USER, 0, USER // 4, 0),
    hand(I_USER, 0),
    retx(),
    # Word 9, an entry: goes to word 14 if it is a software interrupt, and else stays in word 13.
    load("u32", D_SOFTWARE, 0, CONSTANTS + SOFTWARE),
    load("u32", D_OTHER, 0, SCRATCH + 8),
    arith("sub", D_OTHER, D_CAUSE, D_SOFTWARE),
    jz(D_OTHER, IPC, 14),
    jz(0, IPC, 13),
    # Word 14, a software interrupt: xct shows the first two pressures, and the user goes on.
    cpy_in("xct", D_FIRST_TWO),
    retx(),
]

# The user's registers.
U_SECOND, U_FIRST_TWO, U_RISE, U_DIFFERENCE, U_CHANGED = 5, 6, 7, 8, 9

# No operation has this word.
UNDEFINED = 0xF0000000

user = [
    load("u16", U_SECOND, 0, TABLE + 2),
    load("u32", U_FIRST_TWO, 0, TABLE),
    load("u16", U_RISE, 0, CONSTANTS + RISE),
    arith("add", U_SECOND, U_SECOND, U_RISE),
    # What the other register reads, less what it should be: 0 where it sees the rise.
    load("u32", U_DIFFERENCE, 0, DIFFERENCE),
    arith("add", U_DIFFERENCE, U_FIRST_TWO, 0),
    load("u32", U_CHANGED, 0, CONSTANTS + CHANGED),
    arith("sub", U_DIFFERENCE, U_DIFFERENCE, U_CHANGED),
    jz(U_DIFFERENCE, IPC, 10),
    UNDEFINED,
    # Word 10: a software interrupt, and then a division by d0, which is 0.
    swi(U_SECOND, U_FIRST_TWO, 0, 0),
    div(U_DIFFERENCE, U_FIRST_TWO, 0, 0),
]

places = [
    place(SUPERVISOR, code(supervisor)),
    place(USER, code(user)),
    place(TABLE, struct.pack("<16H", *PRESSURES)),
    place(CONSTANTS, struct.pack("<3I", 4, 10, 870 << 16 | 850)),
]

if __name__ == "__main__":
    (ROOT / "crates/console/data").mkdir(parents=True, exist_ok=True)
    (ROOT / "crates/console/data/bench.img").write_bytes(b"".join(places) + end())
