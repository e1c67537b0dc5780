#!/usr/bin/env python3
"""What the test program `edges` should print, worked out from docs/lines.md with no code of the program.

python3 examples/edge_values.py | diff - crates/edges/stdout
"""

KINDS = ["U8", "S8", "U16", "S16", "U32", "S32", "U64", "S64"]
OPERATIONS = ["Add", "Sub", "Slt", "Mul", "And", "Or", "Xor", "Shl", "Shr", "Rol", "Ror", "Addr"]
REDUCTIONS = ["Add", "Mul", "Max", "Min", "And"]
EDGES = [0, 1, -1, 2, -7, 9, 31, 200, -128, 32768, 65535, -2147483648, 9223372036854775807, 18446744073709551615]


def width(kind):
    return int(kind[1:]) // 8


def bits(kind):
    return int(kind[1:])


def cast(kind, z):
    low = z % (1 << bits(kind))
    if kind[0] == "S" and low >= 1 << (bits(kind) - 1):
        return low - (1 << bits(kind))
    return low


def compute(op, kind, x, y):
    n = bits(kind)
    x, y = cast(kind, x), cast(kind, y)
    ux, uy = x % (1 << n), y % (1 << n)
    if op in ("Add", "Addr"):
        z = x + y
    elif op == "Sub":
        z = x - y
    elif op == "Slt":
        z = 1 if x < y else 0
    elif op == "Mul":
        z = x * y
    elif op == "And":
        z = ux & uy
    elif op == "Or":
        z = ux | uy
    elif op == "Xor":
        z = ux ^ uy
    elif op == "Shl":
        z = x << uy if uy < n else 0
    elif op == "Shr":
        z = x >> uy if uy < n else (-1 if x < 0 else 0)
    elif op in ("Rol", "Ror"):
        digits = format(ux, "0%db" % n)
        c = uy % n
        if op == "Ror":
            c = (n - c) % n
        z = int(digits[c:] + digits[:c], 2)
    return cast(kind, z)


def divide(kind, x, y):
    x, y = cast(kind, x), cast(kind, y)
    if y == 0:
        return None
    q = abs(x) // abs(y)
    if (x < 0) != (y < 0):
        q = -q
    return cast(kind, q), x - q * y


def elements(kind, line):
    w = width(kind)
    return [int.from_bytes(line[k:k + w], "little", signed=kind[0] == "S") for k in range(0, 128, w)]


def make(kind, numbers):
    return b"".join((z % (1 << bits(kind))).to_bytes(width(kind), "little") for z in numbers)


def edges(kind, first, stride):
    # every byte's place writes its element, so that the last write of each element stays
    numbers = [0] * (128 // width(kind))
    for address in range(128):
        numbers[address // width(kind)] = EDGES[(first + address * stride) % 14]
    return make(kind, [cast(kind, z) for z in numbers])


def reduce(op, to, line_kind, line):
    numbers = [cast(to, z) for z in elements(line_kind, line)]
    if op == "Add":
        z = sum(numbers)
    elif op == "Mul":
        z = 1
        for number in numbers:
            z *= number
    elif op == "Max":
        z = max(numbers)
    elif op == "Min":
        z = min(numbers)
    else:
        z = -1
        for number in numbers:
            z &= number
    return cast(to, z)


for kind in KINDS:
    print("Cast %s:" % kind, *[cast(kind, x) for x in EDGES])
    for op in OPERATIONS:
        for x in EDGES:
            print("%s %s %d:" % (op, kind, x), *[compute(op, kind, x, y) for y in EDGES])
    for x in EDGES:
        made = [divide(kind, x, y) for y in EDGES]
        print("Div %s %d:" % (kind, x), *["zero" if m is None else "%dr%d" % m for m in made])
    x, y = edges(kind, 0, 3), edges(kind, 5, 11)
    for op in OPERATIONS:
        print("%s.v %s" % (op, kind), make(kind, [compute(op, kind, a, b) for a, b in zip(elements(kind, x), elements(kind, y))]).hex())
    print("Addr.v %s" % kind, make(kind, [compute("Addr", kind, 4294967295, b) for b in elements(kind, y)]).hex())
    sevens = [cast(kind, -7)] * (128 // width(kind))
    made = [divide(kind, a, b) for a, b in zip(elements(kind, x), sevens)]
    print("Div.v %s false" % kind, make(kind, [q for q, _ in made]).hex())
    print("Rem.v %s" % kind, make(kind, [r for _, r in made]).hex())
    print("Zero.v %s true %d" % (kind, cast(kind, -7) if width(kind) == 1 else 0))
    line = edges(kind, 2, 5)
    for op in REDUCTIONS:
        print("%s.r %s:" % (op, kind), *[reduce(op, to, kind, line) for to in KINDS])
