// Elements per second of the vector forms and of add.r: the proved library beside plain Rust that
// does the same, and a comparison of what both leave. `bench/lines.sh` builds and runs it.
use std::hint::black_box;
use std::time::Instant;

type Line = [u8; 128];

// Two lines that begin where a cache line does, so that runs are alike.
#[derive(Clone, Copy, PartialEq)]
#[repr(align(128))]
struct Pair(Line, Line);

extern "C" {
    fn line_add(kind: u8, x: &Line, y: &Line, out: &mut Line);
    fn line_mul(kind: u8, x: &Line, y: &Line, out: &mut Line);
    fn line_shl(kind: u8, x: &Line, y: &Line, out: &mut Line);
    fn line_div(kind: u8, x: &Line, y: &Line, out: &mut Line, rest: &mut Line);
    fn line_sum(kind: u8, x: &Line) -> u64;
}

// One integer type as the elements of a line. WIDTH is a constant of each loop below.
trait Element: Copy {
    const WIDTH: usize;
    fn load(bytes: &[u8]) -> Self;
    fn store(self, bytes: &mut [u8]);
    fn zero() -> Self;
    fn add(self, y: Self) -> Self;
    fn mul(self, y: Self) -> Self;
    fn shl(self, y: Self) -> Self;
    fn is_zero(self) -> bool;
    fn extend(self) -> u64;
    fn div(self, y: Self) -> (Self, Self);
}

macro_rules! element {
    ($t:ty, $unsigned:ty) => {
        impl Element for $t {
            const WIDTH: usize = std::mem::size_of::<$t>();
            fn load(bytes: &[u8]) -> Self {
                <$t>::from_le_bytes(bytes.try_into().unwrap())
            }
            fn store(self, bytes: &mut [u8]) {
                bytes.copy_from_slice(&self.to_le_bytes())
            }
            fn zero() -> Self {
                0
            }
            fn add(self, y: Self) -> Self {
                self.wrapping_add(y)
            }
            fn mul(self, y: Self) -> Self {
                self.wrapping_mul(y)
            }
            fn shl(self, y: Self) -> Self {
                let count = y as $unsigned;
                if count < <$t>::BITS as $unsigned { self << count } else { 0 }
            }
            fn is_zero(self) -> bool {
                self == 0
            }
            fn extend(self) -> u64 {
                self as u64
            }
            fn div(self, y: Self) -> (Self, Self) {
                (self.wrapping_div(y), self.wrapping_rem(y))
            }
        }
    };
}

element!(u8, u8);
element!(i8, u8);
element!(u16, u16);
element!(i16, u16);
element!(u32, u32);
element!(i32, u32);
element!(u64, u64);
element!(i64, u64);

fn each<T: Element>(x: &Line, y: &Line, out: &mut Line, f: impl Fn(T, T) -> T) {
    let (x, y) = (x.chunks_exact(T::WIDTH), y.chunks_exact(T::WIDTH));
    for ((x, y), out) in x.zip(y).zip(out.chunks_exact_mut(T::WIDTH)) {
        f(T::load(x), T::load(y)).store(out);
    }
}

fn divide<T: Element>(x: &Line, y: &Line, out: &mut Line, rest: &mut Line) {
    if y.chunks_exact(T::WIDTH).fold(false, |zero, y| zero | T::load(y).is_zero()) {
        return;
    }
    for k in 0..128 / T::WIDTH {
        let at = k * T::WIDTH..(k + 1) * T::WIDTH;
        let (q, r) = T::load(&x[at.clone()]).div(T::load(&y[at.clone()]));
        q.store(&mut out[at.clone()]);
        r.store(&mut rest[at]);
    }
}

fn sum<T: Element>(x: &Line) -> u64 {
    x.chunks_exact(T::WIDTH).fold(T::zero(), |a, x| a.add(T::load(x))).extend()
}

macro_rules! by_kind {
    ($kind:expr, $f:ident($($arg:expr),*)) => {
        match $kind {
            0 => $f::<u8>($($arg),*),
            1 => $f::<i8>($($arg),*),
            2 => $f::<u16>($($arg),*),
            3 => $f::<i16>($($arg),*),
            4 => $f::<u32>($($arg),*),
            5 => $f::<i32>($($arg),*),
            6 => $f::<u64>($($arg),*),
            _ => $f::<i64>($($arg),*),
        }
    };
}

fn add<T: Element>(x: &Line, y: &Line, out: &mut Line) {
    each::<T>(x, y, out, T::add)
}

fn mul<T: Element>(x: &Line, y: &Line, out: &mut Line) {
    each::<T>(x, y, out, T::mul)
}

fn shl<T: Element>(x: &Line, y: &Line, out: &mut Line) {
    each::<T>(x, y, out, T::shl)
}

#[derive(Clone, Copy, PartialEq)]
enum Op {
    Add,
    Mul,
    Shl,
    Div,
    Sum,
}

// The plain functions are called as the proved ones are, one for each operation, with the type as a
// number.
#[inline(never)]
fn plain_add(kind: u8, x: &Line, y: &Line, out: &mut Line) {
    by_kind!(kind, add(x, y, out))
}

#[inline(never)]
fn plain_mul(kind: u8, x: &Line, y: &Line, out: &mut Line) {
    by_kind!(kind, mul(x, y, out))
}

#[inline(never)]
fn plain_shl(kind: u8, x: &Line, y: &Line, out: &mut Line) {
    by_kind!(kind, shl(x, y, out))
}

#[inline(never)]
fn plain_div(kind: u8, x: &Line, y: &Line, out: &mut Line, rest: &mut Line) {
    by_kind!(kind, divide(x, y, out, rest))
}

#[inline(never)]
fn plain_sum(kind: u8, x: &Line) -> u64 {
    by_kind!(kind, sum(x))
}

#[inline(never)]
fn plain(op: Op, kind: u8, x: &Line, y: &Line, out: &mut Line, rest: &mut Line) {
    match op {
        Op::Add => plain_add(kind, x, y, out),
        Op::Mul => plain_mul(kind, x, y, out),
        Op::Shl => plain_shl(kind, x, y, out),
        Op::Div => plain_div(kind, x, y, out, rest),
        Op::Sum => out[..8].copy_from_slice(&plain_sum(kind, x).to_le_bytes()),
    }
}

#[inline(never)]
fn proved(op: Op, kind: u8, x: &Line, y: &Line, out: &mut Line, rest: &mut Line) {
    unsafe {
        match op {
            Op::Add => line_add(kind, x, y, out),
            Op::Mul => line_mul(kind, x, y, out),
            Op::Shl => line_shl(kind, x, y, out),
            Op::Div => line_div(kind, x, y, out, rest),
            Op::Sum => out[..8].copy_from_slice(&line_sum(kind, x).to_le_bytes()),
        }
    }
}

// Numbers that look random and are the same in every run.
fn fill(line: &mut Line, seed: &mut u64) {
    for byte in line.iter_mut() {
        *seed ^= *seed << 13;
        *seed ^= *seed >> 7;
        *seed ^= *seed << 17;
        *byte = (*seed >> 32) as u8;
    }
}

type Run = fn(Op, u8, &Line, &Line, &mut Line, &mut Line);

// One round over all lines, in elements per second.
fn round(run: Run, op: Op, kind: u8, lines: &[Pair], made: &mut [Pair]) -> f64 {
    let elements = 128 >> (kind / 2);
    let turns = if op == Op::Div { 20 } else { 200 };
    let start = Instant::now();
    for _ in 0..turns {
        for (Pair(x, y), Pair(out, rest)) in lines.iter().zip(made.iter_mut()) {
            run(black_box(op), black_box(kind), x, y, out, rest);
        }
    }
    (turns * lines.len() * elements) as f64 / start.elapsed().as_secs_f64()
}

// The best of many rounds of each, taken in turn, so that both see the same machine.
fn compare(op: Op, kind: u8, lines: &[Pair]) -> (f64, f64) {
    let mut ours = vec![Pair([0; 128], [0; 128]); lines.len()];
    let mut theirs = ours.clone();
    let mut best = (0f64, 0f64);
    for _ in 0..60 {
        best.0 = best.0.max(round(proved, op, kind, lines, &mut ours));
        best.1 = best.1.max(round(plain, op, kind, lines, &mut theirs));
    }
    assert!(ours == theirs, "the two give other bytes");
    best
}

fn main() {
    let mut seed = 0x9E37_79B9_7F4A_7C15u64;
    let mut lines = vec![Pair([0; 128], [0; 128]); 64];
    for Pair(x, y) in lines.iter_mut() {
        fill(x, &mut seed);
        fill(y, &mut seed);
        for byte in y.iter_mut() {
            *byte |= 1;
        }
    }
    // shift counts below the widths and somewhat past them
    let mut counts = lines.clone();
    for Pair(_, y) in counts.iter_mut() {
        for (k, byte) in y.iter_mut().enumerate() {
            *byte = if k % 8 == 0 { *byte % 72 } else { 0 };
        }
    }
    println!("million elements per second   proved    plain   plain/proved");
    let mut worst = 0f64;
    let kinds = ["u8", "s8", "u16", "s16", "u32", "s32", "u64", "s64"];
    for (op, name) in [(Op::Add, "add.v"), (Op::Mul, "mul.v"), (Op::Shl, "shl.v"), (Op::Div, "div.v"), (Op::Sum, "add.r")] {
        for kind in 0..8u8 {
            let lines = if op == Op::Shl { &counts } else { &lines };
            let (ours, theirs) = compare(op, kind, lines);
            let ratio = theirs / ours;
            worst = worst.max(ratio);
            println!("{name} {:<22} {:>9.0} {:>8.0} {:>8.2}", kinds[kind as usize], ours / 1e6, theirs / 1e6, ratio);
        }
    }
    println!("the slowest takes {worst:.2} times as long as plain Rust");
}
