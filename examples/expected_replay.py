"""Prints what replay should print for an image and a script, worked out from docs/ and not by the program.

It shares no code with the crates, so crates/replay/stdout can be compared with it:

    python3 examples/expected_replay.py crates/replay/data/bench.img crates/replay/stdin | diff - crates/replay/stdout

It has the operations that the example image has, and stops at any other.
"""

import re
import struct
import sys

LINE, RAM_LINES, FUSED_LINES, OPEN_LINES = 128, 256, 2, 256
LINES = RAM_LINES + OPEN_LINES
SLOTS, MOST_STEPS = 1_000_000, 1_000_000
TYPES = "u8 s8 u16 s16 u32 s32 u64 s64".split()
IPC, SUPERVISOR = 63, 64


class Refused(Exception):
    """A call that is refused with a number."""


def line_of(address):
    return address // LINE


def width(kind):
    return 1 << kind // 2


def load_image(data):
    """The store's lines after an image that is taken (docs/images.md)."""
    memory, at = bytearray(RAM_LINES * LINE), 0
    while True:
        length, kind = struct.unpack_from("<IH", data, at)
        body = data[at + 6 : at + 6 + length]
        at += 6 + length
        if kind == 2:
            break
        address = struct.unpack_from("<I", body)[0]
        memory[address : address + length - 4] = body[4:]
    assert at == len(data)
    lines = [bytes(memory[n * LINE : (n + 1) * LINE]) for n in range(RAM_LINES)]
    return lines + [b"\xff" * LINE] * OPEN_LINES


def writable(line):
    return FUSED_LINES <= line < RAM_LINES


class Machine:
    """The flat machine of docs/machine.md: memory, a backing copy, touched lines and the registers."""

    def __init__(self, store):
        self.backing = list(store)
        self.warm = False

    def boot(self):
        if self.warm:
            raise Refused(3)
        self.warm = True
        self.memory = list(self.backing)
        self.touched = set()
        self.data = [(0, 0)] * 128
        self.instructions = [(0, self.memory[0])] * 128
        for zero in (0, SUPERVISOR):
            self.instructions[zero] = (0, bytes(LINE))
        self.user, self.ie, self.xct, self.pin = False, 0, 0, 0
        self.swiargs = [bytes(LINE)] * 4

    def need_warm(self):
        if not self.warm:
            raise Refused(2)

    def reg(self, field):
        return field + (0 if self.user else SUPERVISOR)

    def bytes_of(self, register):
        if register % 64 == 0:
            return bytes(LINE)
        return self.memory[line_of(self.data[register][0])]

    def element(self, register):
        """A register's element as an unsigned number; the image has no signed types."""
        address, kind = self.data[register]
        assert kind % 2 == 0
        at = address % LINE // width(kind) * width(kind)
        return int.from_bytes(self.bytes_of(register)[at : at + width(kind)], "little")

    def put_element(self, register, number):
        if register % 64 == 0:
            return
        address, kind = self.data[register]
        at, line = address % LINE // width(kind) * width(kind), line_of(address)
        part = (number % (1 << 8 * width(kind))).to_bytes(width(kind), "little")
        old = self.memory[line]
        self.memory[line] = old[:at] + part + old[at + width(kind) :]
        self.touched.add(line)

    def send(self, line):
        self.backing[line] = self.memory[line]
        self.touched.remove(line)

    def move(self, register, address, kind):
        """Moves a data register, and answers the line that is sent back, if one is."""
        if register % 64 == 0:
            return None
        old = line_of(self.data[register][0])
        self.data[register] = (address, kind)
        named = {line_of(a) for n, (a, _) in enumerate(self.data) if n % 64}
        if old in named or old not in self.touched:
            return None
        self.send(old)
        return old

    def take(self, register, address):
        """Puts an instruction register at an address, with the words of that line."""
        held = [words for n, (a, words) in enumerate(self.instructions) if n % 64 and line_of(a) == line_of(address)]
        if register % 64:
            self.instructions[register] = (address, held[0] if held else self.memory[line_of(address)])

    def enter(self, number):
        self.xct, self.user = number, False
        if number == 0:
            self.ie = 0
        self.take(SUPERVISOR + IPC, 0)
        return number

    def now(self):
        address, words = self.instructions[self.reg(IPC)]
        return address, struct.unpack_from("<I", words, address % LINE)[0]

    def step(self):
        """Makes a step; answers the exception entered, or None, and the line sent back, or None."""
        if self.user and self.ie and self.pin:
            return self.enter(0), None
        address, word = self.now()
        group, a, b, o = word >> 28, word >> 22 & 63, word >> 16 & 63, word & 15
        distance = (word >> 4 & 0xFFF ^ 0x800) - 0x800
        if address % LINE == LINE - 4:
            sys.exit("a step on word 31 is not in this model")
        returns = group == 8 and o == 13
        if returns:
            assert not self.user
            self.ie, self.user = 1, True
            return None, None
        ipc = self.reg(IPC)
        sent = None
        if group == 0 and o == 0 and word >> 4 & 63 == 0:  # add.s
            c = word >> 10 & 63
            kinds = [self.data[self.reg(r)][1] for r in (a, b, c)]
            x, y = self.element(self.reg(b)), self.element(self.reg(c))
            assert max(kinds) < 8 and (a == 0 or writable(line_of(self.data[self.reg(a)][0])))
            self.put_element(self.reg(a), x + y)
        elif group == 2 and o < 8:  # load
            base = 0 if b == 0 else self.data[self.reg(b)][0]
            to = (base + distance) % (1 << 32)
            assert line_of(to) < LINES
            sent = self.move(self.reg(a), to, o)
        elif group == 5 and o & 1 and word >> 1 & 15 == 0:  # fetch of one line
            i = (word >> 5 & 0x7FF ^ 0x400) - 0x400
            assert b == 0
            self.take(ipc, address + 4)
            self.take(self.reg(a), 4 * i)
            return None, None
        elif group == 6 and o == 2 and not self.user:  # hand
            start = line_of(self.instructions[self.reg(b)][0]) * LINE
            self.take(ipc, address + 4)
            self.take(IPC, start + 4 * (word >> 11 & 31))
            return None, None
        elif group == 8 and o == 3 and not self.user:  # cpy.in xct
            self.xct = self.element(self.reg(a)) % (1 << 32)
        elif group == 8 and o == 12:  # swi
            fields = [word >> shift & 63 for shift in (22, 16, 10, 4)]
            self.swiargs = [self.bytes_of(self.reg(r)) for r in fields]
            self.take(ipc, address + 4)
            return self.enter(4), None
        else:
            sys.exit(f"the word {word:08X} is not in this model")
        self.take(ipc, address + 4)
        return None, sent


def outcome(answer):
    return "done" if answer is None else f"entered {answer:08X}"


def byte_rows(data, margin):
    return [margin + " ".join(f"{byte:02X}" for byte in data[at : at + 16]) for at in range(0, LINE, 16)]


class Replay:
    """The calls of a script, with what is printed of each (docs/replay.md)."""

    def __init__(self, store):
        self.machine = Machine(store)
        self.steps_left, self.lines_left = SLOTS, SLOTS

    def boot(self):
        self.machine.boot()
        return ["boot"]

    def step(self):
        self.machine.need_warm()
        answer, _ = self.machine.step()
        return [f"step {outcome(answer)}"]

    def run(self, limit):
        self.machine.need_warm()
        if limit > MOST_STEPS:
            raise Refused(5)
        made, last = 0, None
        while made < limit and last is None:
            last, _ = self.machine.step()
            made += 1
        return [f"run {made} {outcome(last)}"]

    def trace(self, limit, steps, lines):
        machine = self.machine
        machine.need_warm()
        if limit > MOST_STEPS:
            raise Refused(5)
        steps, lines = min(steps, self.steps_left), min(lines, self.lines_left)
        records, sent, last = [], [], None
        while len(records) < limit and last is None and len(records) < steps and len(sent) < lines:
            mode, (address, word) = "SU"[machine.user], machine.now()
            last, line = machine.step()
            records.append(f"  {mode} {address:08X} {word:08X} {outcome(last)}")
            sent += [] if line is None else [line]
        self.steps_left -= len(records)
        self.lines_left -= len(sent)
        return [f"trace {len(records)} {outcome(last)}"] + records + [f"  sent {line}" for line in sent]

    def move_pin(self, way):
        self.machine.need_warm()
        self.machine.pin = int(way == "up")
        return ["pin"]

    def show_d(self, register):
        self.machine.need_warm()
        if register > 127:
            raise Refused(4)
        address, kind = self.machine.data[register]
        head = f"d {register} address {address:08X} type {TYPES[kind]}"
        return [head] + byte_rows(self.machine.bytes_of(register), "  ")

    def show_i(self, register):
        self.machine.need_warm()
        if register > 127:
            raise Refused(4)
        address, held = self.machine.instructions[register]
        words = struct.unpack("<32I", held)
        rows = ["  " + " ".join(f"{word:08X}" for word in words[at : at + 4]) for at in range(0, 32, 4)]
        return [f"i {register} address {address:08X}"] + rows

    def show_rest(self):
        m = self.machine
        m.need_warm()
        printed = [f"rest mode {'SU'[m.user]} ie {m.ie} xct {m.xct:08X} pin {m.pin}"]
        for n, data in enumerate(m.swiargs):
            printed += [f"  swiarg{n}"] + byte_rows(data, "    ")
        return printed

    def flush(self, name="flush"):
        self.machine.need_warm()
        touched = sorted(self.machine.touched)
        for line in touched:
            self.machine.send(line)
        return [f"{name} {len(touched)}"]

    def halt(self):
        printed = self.flush("halt")
        self.machine.warm = False
        return printed

    def call(self, text):
        """What is printed of a line of the script, or None where it is no call."""
        number = "(0|[1-9][0-9]*)"
        calls = [
            ("boot", self.boot, []),
            ("step", self.step, []),
            (f"run {number}", self.run, [32]),
            (f"trace {number} {number} {number}", self.trace, [32, 64, 64]),
            (f"show d {number}", self.show_d, [8]),
            (f"show i {number}", self.show_i, [8]),
            ("show rest", self.show_rest, []),
            ("flush", self.flush, []),
            ("halt", self.halt, []),
        ]
        pin = re.fullmatch("pin (up|down)", text)
        if pin:
            return self.move_pin(pin.group(1))
        for pattern, make, bits in calls:
            found = re.fullmatch(pattern, text)
            if found:
                numbers = [int(digits) for digits in found.groups()]
                fits = all(number < 1 << size for number, size in zip(numbers, bits))
                return make(*numbers) if fits else None
        return None

    def answer(self, text):
        try:
            printed = self.call(text)
        except Refused as refused:
            return [f"x {refused.args[0]}"]
        return ["?"] if printed is None else printed


def main():
    with open(sys.argv[1], "rb") as image, open(sys.argv[2]) as script:
        replay = Replay(load_image(image.read()))
        for text in script.read().splitlines():
            print("\n".join(replay.answer(text)))


main()
