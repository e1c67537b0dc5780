"""Writes the image of the program replay, crates/replay/data/bench.img: a supervisor that raises a hold pressure
at 16 bits, reads it at 32 bits and logs it, and a user program that hands the table of pressures over.
docs/replay.md says what the script does with it.

It lies in these lines of 128 bytes:

    line 0    0x000   the supervisor, which starts here, and again at each entry
    line 2    0x100   the user program
    line 3    0x180   the table of the console's image: 16 pressures in tenths of a bar, 16 bits each
    line 4    0x200   the rise
    lines 5 and 6     blank until the program has run: the log, and a line to leave it for

Run it anywhere: it needs nothing but Python 3 and the scripts beside it, and writes the same bytes each
time.
"""

import struct

from make_images import ROOT, arith, code, cpy_in, end, fetch, hand, load, place, reti, swi
from press_image import PRESSURES

# Where the parts lie.
SUPERVISOR = 0x000
USER = 0x100
TABLE = 0x180
RISE = 0x200
LOG = 0x280
SPARE = 0x300

# The supervisor's registers, and the user's.
D_SECOND, D_FIRST_TWO, D_RISE = 5, 6, 7
I_USER = 1
U_SECOND = 8


supervisor = [
    # The table through two registers, at 16 and at 32 bits. What the first writes the second sees.
    load("u16", D_SECOND, 0, TABLE + 2),
    load("u32", D_FIRST_TWO, 0, TABLE),
    load("u16", D_RISE, 0, RISE),
    arith("add", D_SECOND, D_SECOND, D_RISE),
    # The first register goes to the log, and writes there what the second reads.
    load("u32", D_SECOND, 0, LOG),
    arith("add", D_SECOND, D_FIRST_TWO, 0),
    # The second leaves the table, and both then leave the log.
    load("u32", D_FIRST_TWO, 0, LOG + 4),
    cpy_in("xct", D_SECOND),
    load("u32", D_SECOND, 0, SPARE),
    load("u32", D_FIRST_TWO, 0, RISE),
    # The user program, with interrupts.
    fetch(I_USER, 0, USER // 4, 0),
    hand(I_USER, 0),
    reti(),
]

user = [
    load("u16", U_SECOND, 0, TABLE + 2),
    arith("add", 0, 0, 0),
    swi(U_SECOND, 0, 0, 0),
]

places = [
    place(SUPERVISOR, code(supervisor)),
    place(USER, code(user)),
    place(TABLE, struct.pack("<16H", *PRESSURES)),
    place(RISE, struct.pack("<H", 10)),
]

if __name__ == "__main__":
    (ROOT / "crates/replay/data").mkdir(parents=True, exist_ok=True)
    (ROOT / "crates/replay/data/bench.img").write_bytes(b"".join(places) + end())
