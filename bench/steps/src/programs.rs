// The loops as images: three programs, and four of one kind of step. Each is a line of code on line 0 and the lines that it works on; a loop ends
// by a jump to a word of its own line, which instruction register 1 names since boot.

// Numbers of types.
const U8: u32 = 0;
const S8: u32 = 1;
const S16: u32 = 3;
const U32: u32 = 4;
const S32: u32 = 5;
const U64: u32 = 6;

// Opcodes of arithmetic.
const ADD: u32 = 0;
const SUB: u32 = 1;
const SLT: u32 = 2;
const MUL: u32 = 3;
const AND: u32 = 4;
const OR: u32 = 5;
const XOR: u32 = 6;
const SHL: u32 = 7;
const SHR: u32 = 8;
const ROL: u32 = 9;
const ROR: u32 = 10;

fn scalar(op: u32, a: u32, b: u32, c: u32) -> u32 {
    a << 22 | b << 16 | c << 10 | op
}

fn vector(op: u32, a: u32, b: u32, c: u32) -> u32 {
    scalar(op, a, b, c) | 1 << 4
}

fn load(kind: u32, a: u32, b: u32, i: u32) -> u32 {
    2 << 28 | a << 22 | b << 16 | i << 4 | kind
}

fn store(kind: u32, a: u32, b: u32, i: u32) -> u32 {
    3 << 28 | a << 22 | b << 16 | i << 4 | kind
}

fn jump_not_zero(a: u32, word: usize) -> u32 {
    6 << 28 | a << 22 | 1 << 16 | (word as u32) << 11
}

// Bytes that look random, the same in each run.
fn noise(seed: u64, count: usize) -> Vec<u8> {
    let mut x = seed;
    (0..count)
        .map(|_| {
            x = x.wrapping_mul(6364136223846793005).wrapping_add(1442695040888963407);
            (x >> 56) as u8
        })
        .collect()
}

// Scalar arithmetic at six types on the elements of line 1. d7 holds 1.
fn scalar_loop() -> (Vec<u32>, Vec<u8>) {
    let mut code = vec![
        load(U32, 1, 0, 128),
        load(U32, 2, 0, 132),
        load(S16, 3, 0, 136),
        load(U8, 4, 0, 138),
        load(S32, 5, 0, 140),
        load(U64, 6, 0, 144),
        load(U32, 7, 0, 152),
        load(S8, 8, 0, 139),
    ];
    let start = code.len();
    code.extend([
        scalar(ADD, 1, 1, 2),
        scalar(XOR, 2, 2, 1),
        scalar(ROL, 1, 1, 7),
        scalar(MUL, 5, 5, 2),
        scalar(SUB, 3, 3, 1),
        scalar(AND, 4, 4, 5),
        scalar(OR, 4, 4, 7),
        scalar(SLT, 8, 3, 5),
        scalar(SHL, 5, 5, 7),
        scalar(ADD, 5, 5, 8),
        scalar(SHR, 2, 2, 7),
        scalar(ADD, 6, 6, 1),
        scalar(XOR, 2, 2, 3),
        scalar(SUB, 6, 6, 5),
        scalar(ROR, 1, 1, 4),
        scalar(ADD, 2, 2, 7),
        jump_not_zero(7, start),
    ]);
    let mut data = noise(1, 24);
    data.extend(1u32.to_le_bytes());
    (code, data)
}

// d1 goes over 100 lines from line 2 on and adds 1 to an element of each; d5 carries a line over the 100
// lines from line 102 on. Then it starts again. On line 1 are 1, 100 and a counter.
fn memory_loop() -> (Vec<u32>, Vec<u8>) {
    let mut code = vec![
        load(U32, 2, 0, 128),
        load(U32, 3, 0, 132),
        load(U32, 4, 0, 136),
        load(U32, 7, 0, 1920),
    ];
    code.extend([load(U32, 7, 7, 1920); 5]);
    code.push(load(U32, 7, 7, 1536));
    let outer = code.len();
    code.extend([load(U32, 1, 0, 256), load(U32, 5, 7, 0), scalar(ADD, 4, 3, 0)]);
    let inner = code.len();
    code.extend([
        scalar(ADD, 1, 1, 2),
        load(U32, 1, 1, 128),
        store(U32, 5, 5, 128),
        scalar(SUB, 4, 4, 2),
        jump_not_zero(4, inner),
        jump_not_zero(2, outer),
    ]);
    let mut data = Vec::new();
    data.extend(1u32.to_le_bytes());
    data.extend(100u32.to_le_bytes());
    data.extend(vec![0; 120]);
    data.extend(noise(2, 128 * 202));
    (code, data)
}

// Vector arithmetic on eight lines of elements of 8, 32 and 16 bits. d9's element is 1.
fn vector_loop() -> (Vec<u32>, Vec<u8>) {
    let kinds = [U8, U8, U8, U32, U32, U32, S16, S16, U32];
    let mut code: Vec<u32> = (1..10)
        .map(|n| load(kinds[n as usize - 1], n, 0, 128 * n))
        .collect();
    let start = code.len();
    code.extend([
        vector(ADD, 1, 1, 2),
        vector(XOR, 2, 2, 3),
        vector(SUB, 3, 3, 1),
        vector(ADD, 4, 4, 5),
        vector(MUL, 5, 5, 6),
        vector(XOR, 6, 6, 4),
        vector(OR, 5, 5, 9),
        vector(ADD, 7, 7, 8),
        vector(MUL, 8, 8, 7),
        vector(SUB, 7, 7, 8),
        jump_not_zero(9, start),
    ]);
    let mut data = noise(3, 128 * 8);
    data.extend(std::iter::repeat(1u32.to_le_bytes()).take(32).flatten());
    (code, data)
}

// One kind of step, again and again: `first` and `second` in turn, and a jump at the end of the line.
fn repeated(first: u32, second: u32) -> (Vec<u32>, Vec<u8>) {
    let mut code = vec![load(U32, 7, 0, 128), load(U32, 1, 0, 132), load(U32, 2, 0, 136)];
    let start = code.len();
    code.extend([first, second].repeat(13));
    code.push(jump_not_zero(7, start));
    (code, [1u32, 2, 3].iter().flat_map(|n| n.to_le_bytes()).collect())
}

// A jump to itself.
fn jumps() -> (Vec<u32>, Vec<u8>) {
    (vec![load(U32, 7, 0, 128), jump_not_zero(7, 1)], vec![1])
}

fn place(address: u32, bytes: &[u8]) -> Vec<u8> {
    let mut record = (4 + bytes.len() as u32).to_le_bytes().to_vec();
    record.extend(1u16.to_le_bytes());
    record.extend(address.to_le_bytes());
    record.extend(bytes);
    record
}

// The image of a loop: its code at address 0, its data from line 1 on, and the end.
pub fn image(name: &str) -> Option<Vec<u8>> {
    let (code, data) = match name {
        "scalar" => scalar_loop(),
        "memory" => memory_loop(),
        "vector" => vector_loop(),
        "jump" => jumps(),
        "within" => repeated(load(U32, 1, 0, 128), load(U32, 1, 0, 132)),
        "across" => repeated(load(U32, 1, 0, 256), load(U32, 1, 0, 384)),
        "add" => repeated(scalar(ADD, 1, 1, 2), scalar(ADD, 1, 1, 2)),
        _ => return None,
    };
    let words: Vec<u8> = code.iter().flat_map(|word| word.to_le_bytes()).collect();
    assert!(words.len() <= 128);
    let mut image = place(0, &words);
    image.extend(place(128, &data));
    image.extend([0, 0, 0, 0, 2, 0]);
    Some(image)
}
