// Elements: lanes of 64 bits, each the bits of a number that is extended by its type, and loops over lines
// that are built for each type.

pub type Line = [u8; 128];

#[derive(Clone, Copy, PartialEq, Eq)]
pub enum Kind {
    U8,
    S8,
    U16,
    S16,
    U32,
    S32,
    U64,
    S64,
}

pub const KINDS: [Kind; 8] = [
    Kind::U8,
    Kind::S8,
    Kind::U16,
    Kind::S16,
    Kind::U32,
    Kind::S32,
    Kind::U64,
    Kind::S64,
];

// One type, known when a loop is built.
pub trait Element: Copy {
    const WIDTH: usize;
    const SIGNED: bool;
    fn of(lane: u64) -> Self;
    fn lane(self) -> u64;
    fn load(bytes: &[u8]) -> Self;
    fn store(self, bytes: &mut [u8]);
}

macro_rules! element {
    ($($t:ty, $wide:ty, $signed:expr;)*) => {$(
        impl Element for $t {
            const WIDTH: usize = std::mem::size_of::<$t>();
            const SIGNED: bool = $signed;
            #[inline(always)]
            fn of(lane: u64) -> Self {
                lane as $t
            }
            #[inline(always)]
            fn lane(self) -> u64 {
                self as $wide as u64
            }
            #[inline(always)]
            fn load(bytes: &[u8]) -> Self {
                <$t>::from_le_bytes(bytes.try_into().unwrap())
            }
            #[inline(always)]
            fn store(self, bytes: &mut [u8]) {
                bytes.copy_from_slice(&self.to_le_bytes())
            }
        }
    )*};
}

element! {
    u8, u64, false;
    i8, i64, true;
    u16, u64, false;
    i16, i64, true;
    u32, u64, false;
    i32, i64, true;
    u64, u64, false;
    i64, i64, true;
}

// Picks the type of a kind for an expression.
macro_rules! typed {
    ($kind:expr, $t:ident => $e:expr) => {
        match $kind {
            Kind::U8 => { type $t = u8; $e }
            Kind::S8 => { type $t = i8; $e }
            Kind::U16 => { type $t = u16; $e }
            Kind::S16 => { type $t = i16; $e }
            Kind::U32 => { type $t = u32; $e }
            Kind::S32 => { type $t = i32; $e }
            Kind::U64 => { type $t = u64; $e }
            Kind::S64 => { type $t = i64; $e }
        }
    };
}

impl Kind {
    #[inline(always)]
    pub fn width(self) -> usize {
        1 << (self as usize / 2)
    }

    #[inline(always)]
    pub fn cast(self, x: u64) -> u64 {
        typed!(self, T => T::of(x).lane())
    }

    #[inline(always)]
    pub fn get(self, line: &Line, address: u32) -> u64 {
        typed!(self, T => {
            let at = address as usize % 128 & !(T::WIDTH - 1);
            T::load(&line[at..at + T::WIDTH]).lane()
        })
    }

    #[inline(always)]
    pub fn put(self, line: &mut Line, address: u32, x: u64) {
        typed!(self, T => {
            let at = address as usize % 128 & !(T::WIDTH - 1);
            T::of(x).store(&mut line[at..at + T::WIDTH])
        })
    }
}

#[inline(always)]
fn shl<T: Element>(x: u64, y: u64) -> u64 {
    let count = bits::<T>(y);
    if count < 8 * T::WIDTH as u64 { x << (count % 64) } else { 0 }
}

#[inline(always)]
fn shr<T: Element>(x: u64, y: u64) -> u64 {
    let count = bits::<T>(y);
    let last = 8 * T::WIDTH as u64 - 1;
    let shifted = |count: u64| {
        if T::SIGNED { (x as i64 >> (count % 64)) as u64 } else { x >> (count % 64) }
    };
    match (count <= last, T::SIGNED) {
        (true, _) => shifted(count),
        (false, true) => shifted(last),
        (false, false) => 0,
    }
}

// The bits of a lane at the type's width.
#[inline(always)]
fn bits<T: Element>(x: u64) -> u64 {
    x & (u64::MAX >> (64 - 8 * T::WIDTH))
}

#[inline(always)]
fn rol<T: Element>(x: u64, y: u64) -> u64 {
    let n = 8 * T::WIDTH as u64;
    let count = bits::<T>(y) % n;
    let x = bits::<T>(x);
    if count == 0 { x } else { x << count | x >> (n - count) }
}

#[inline(always)]
fn ror<T: Element>(x: u64, y: u64) -> u64 {
    let n = 8 * T::WIDTH as u64;
    rol::<T>(x, n - bits::<T>(y) % n)
}

#[inline(always)]
fn slt(x: u64, y: u64) -> u64 {
    ((x as i64) < y as i64) as u64
}

// An operation on lanes of one type. (No 64-bit types reach slt, mul, shifts and rotations.)
#[inline(always)]
fn operation<T: Element>(op: u32, x: u64, y: u64) -> u64 {
    match op {
        0 | 11 => x.wrapping_add(y),
        1 => x.wrapping_sub(y),
        2 => slt(x, y),
        3 => x.wrapping_mul(y),
        4 => x & y,
        5 => x | y,
        6 => x ^ y,
        7 => shl::<T>(x, y),
        8 => shr::<T>(x, y),
        9 => rol::<T>(x, y),
        _ => ror::<T>(x, y),
    }
}

#[inline(always)]
pub fn compute(op: u32, kind: Kind, x: u64, y: u64) -> u64 {
    typed!(kind, T => operation::<T>(op, T::of(x).lane(), T::of(y).lane()))
}

#[inline(always)]
fn each<T: Element>(x: &Line, y: &Line, out: &mut Line, f: impl Fn(u64, u64) -> u64) {
    let pairs = x.chunks_exact(T::WIDTH).zip(y.chunks_exact(T::WIDTH));
    for ((x, y), out) in pairs.zip(out.chunks_exact_mut(T::WIDTH)) {
        T::of(f(T::load(x).lane(), T::load(y).lane())).store(out);
    }
}

// A loop of its own for each operation, so that each can be made of vector instructions.
fn operations<T: Element>(op: u32, x: &Line, y: &Line, out: &mut Line) {
    match op {
        0 | 11 => each::<T>(x, y, out, |x, y| operation::<T>(0, x, y)),
        1 => each::<T>(x, y, out, |x, y| operation::<T>(1, x, y)),
        2 => each::<T>(x, y, out, |x, y| operation::<T>(2, x, y)),
        3 => each::<T>(x, y, out, |x, y| operation::<T>(3, x, y)),
        4 => each::<T>(x, y, out, |x, y| operation::<T>(4, x, y)),
        5 => each::<T>(x, y, out, |x, y| operation::<T>(5, x, y)),
        6 => each::<T>(x, y, out, |x, y| operation::<T>(6, x, y)),
        7 => each::<T>(x, y, out, |x, y| operation::<T>(7, x, y)),
        8 => each::<T>(x, y, out, |x, y| operation::<T>(8, x, y)),
        9 => each::<T>(x, y, out, |x, y| operation::<T>(9, x, y)),
        _ => each::<T>(x, y, out, |x, y| operation::<T>(10, x, y)),
    }
}

pub fn vector(op: u32, kind: Kind, x: &Line, y: &Line, out: &mut Line) {
    typed!(kind, T => operations::<T>(op, x, y, out))
}

fn fill_with<T: Element>(x: u64, out: &mut Line) {
    for out in out.chunks_exact_mut(T::WIDTH) {
        T::of(x).store(out);
    }
}

pub fn fill(kind: Kind, x: u64, out: &mut Line) {
    typed!(kind, T => fill_with::<T>(x, out))
}

#[inline(always)]
pub fn divide(kind: Kind, x: u64, y: u64) -> (u64, u64) {
    typed!(kind, T => {
        let (x, y) = (T::of(x).lane(), T::of(y).lane());
        if T::SIGNED {
            let (x, y) = (x as i64, y as i64);
            (x.wrapping_div(y) as u64, x.wrapping_rem(y) as u64)
        } else {
            (x / y, x % y)
        }
    })
}

// Joins the elements of a line of one type as elements of another.
pub fn reduce(op: u32, to: Kind, from: Kind, line: &Line) -> u64 {
    let mut lanes = (0..128 / from.width()).map(|k| to.cast(from.get(line, (k * from.width()) as u32)));
    match op {
        0 => lanes.fold(0, u64::wrapping_add),
        1 => lanes.fold(1, u64::wrapping_mul),
        2 => lanes.map(|x| x as i64).max().unwrap() as u64,
        3 => lanes.map(|x| x as i64).min().unwrap() as u64,
        _ => lanes.by_ref().fold(u64::MAX, |x, y| x & y),
    }
}
