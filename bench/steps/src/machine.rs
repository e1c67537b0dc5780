// The flat machine over RAM, written for speed: memory is an array of lines, and an instruction register
// keeps its words.

use crate::lanes::{KINDS, Kind, Line, compute, divide, fill, reduce, vector};

const ZEROS: Line = [0; 128];

// The number that is entered.
type Exception = u32;

#[derive(Clone, Copy)]
pub struct Data {
    pub address: u32,
    pub kind: Kind,
}

pub struct Machine {
    pub supervisor: bool,
    pub ie: bool,
    pub pin: bool,
    pub xct: u32,
    pub swiargs: [Line; 4],
    pub data: [Data; 128],
    pub addresses: [u32; 128],
    pub words: [[u32; 32]; 128],
    memory: Vec<Line>,
    backing: Vec<Line>,
    touched: Vec<bool>,
    // how many data registers name each line
    names: Vec<u32>,
}

fn words(line: &Line) -> [u32; 32] {
    std::array::from_fn(|k| u32::from_le_bytes(line[4 * k..4 * k + 4].try_into().unwrap()))
}

fn is_zero(register: usize) -> bool {
    register % 64 == 0
}

impl Machine {
    pub fn new(lines: Vec<Line>) -> Machine {
        let mut names = vec![0; lines.len()];
        names[0] = 126;
        let mut started = [words(&lines[0]); 128];
        started[0] = [0; 32];
        started[64] = [0; 32];
        Machine {
            supervisor: true,
            ie: false,
            pin: false,
            xct: 0,
            swiargs: [ZEROS; 4],
            data: [Data { address: 0, kind: Kind::U8 }; 128],
            addresses: [0; 128],
            words: started,
            memory: lines.clone(),
            touched: vec![false; lines.len()],
            backing: lines,
            names,
        }
    }

    #[inline(always)]
    fn of(&self, field: u32) -> usize {
        (field % 64 + 64 * self.supervisor as u32) as usize
    }

    #[inline(always)]
    fn ipc(&self) -> usize {
        63 + 64 * self.supervisor as usize
    }

    #[inline(always)]
    fn kind(&self, register: usize) -> Kind {
        self.data[register].kind
    }

    #[inline(always)]
    fn address(&self, register: usize) -> u32 {
        self.data[register].address
    }

    #[inline(always)]
    pub fn line(&self, register: usize) -> &Line {
        if is_zero(register) {
            return &ZEROS;
        }
        &self.memory[self.address(register) as usize / 128]
    }

    #[inline(always)]
    fn element(&self, register: usize) -> u64 {
        self.kind(register).get(self.line(register), self.address(register))
    }

    // The line that a register is to write. (Every line that is there can be written.)
    #[inline(always)]
    fn to_write(&mut self, register: usize) -> &mut Line {
        let line = self.address(register) as usize / 128;
        self.touched[line] = true;
        &mut self.memory[line]
    }

    #[inline(always)]
    fn put(&mut self, register: usize, x: u64) {
        if is_zero(register) {
            return;
        }
        let Data { address, kind } = self.data[register];
        kind.put(self.to_write(register), address, x);
    }

    fn put_line(&mut self, register: usize, line: &Line) {
        if !is_zero(register) {
            *self.to_write(register) = *line;
        }
    }

    #[inline(always)]
    fn go_data(&mut self, register: usize, to: Data) {
        if is_zero(register) {
            return;
        }
        let old = self.address(register) as usize / 128;
        let new = to.address as usize / 128;
        if old != new {
            self.names[old] -= 1;
            self.names[new] += 1;
            if self.names[old] == 0 && self.touched[old] {
                self.backing[old] = self.memory[old];
                self.touched[old] = false;
            }
        }
        self.data[register] = to;
    }

    fn holder(&self, line: u32) -> Option<usize> {
        (0..128).find(|&r| !is_zero(r) && self.addresses[r] / 128 == line)
    }

    #[inline(always)]
    fn go(&mut self, register: usize, address: u32) {
        if is_zero(register) {
            return;
        }
        if self.addresses[register] / 128 != address / 128 {
            self.words[register] = match self.holder(address / 128) {
                Some(other) => self.words[other],
                None => words(&self.memory[address as usize / 128]),
            };
        }
        self.addresses[register] = address;
    }

    fn enter(&mut self, exception: Exception) -> Option<Exception> {
        self.supervisor = true;
        self.ie &= exception != 0;
        self.xct = exception;
        self.go(127, 0);
        Some(exception)
    }

    #[inline(always)]
    fn is_missing(&self, address: u32) -> bool {
        address as usize / 128 >= self.memory.len()
    }

    // Whether ipc cannot go to the next word.
    #[inline(always)]
    fn is_stuck(&self) -> bool {
        let at = self.addresses[self.ipc()];
        at % 128 == 124 && self.holder(at.wrapping_add(4) / 128).is_none()
    }

    #[inline(always)]
    fn move_on(&mut self) {
        let ipc = self.ipc();
        self.go(ipc, self.addresses[ipc].wrapping_add(4));
    }

    #[inline(always)]
    pub fn step(&mut self) -> Option<Exception> {
        if !self.supervisor && self.ie && self.pin {
            return self.enter(0);
        }
        let ipc = self.ipc();
        let word = self.words[ipc][self.addresses[ipc] as usize / 4 % 32];
        match self.obey(word) {
            Ok(()) => None,
            Err(exception) => self.enter(exception),
        }
    }

    #[inline(always)]
    fn obey(&mut self, word: u32) -> Result<(), Exception> {
        match word >> 28 {
            0 => self.arithmetic(word),
            1 => self.reduce(word),
            2 => self.load(word),
            3 => self.store(word),
            4 => self.dup(word),
            5 => self.fetch(word),
            6 => self.jump(word),
            8 => self.system(word),
            _ => Err(2),
        }
    }

    #[inline(always)]
    fn next(&mut self) -> Result<(), Exception> {
        if self.is_stuck() {
            return Err(0x15);
        }
        self.move_on();
        Ok(())
    }

    #[inline(always)]
    fn fields(&self, word: u32) -> (usize, usize, usize, u32) {
        (self.of(word >> 22), self.of(word >> 16), self.of(word >> 10), word % 16)
    }

    #[inline(always)]
    fn is_wide(&self, register: usize) -> bool {
        self.kind(register).width() == 8
    }

    #[inline(always)]
    fn arithmetic(&mut self, word: u32) -> Result<(), Exception> {
        let (a, b, c, op) = self.fields(word);
        let is_vector = word >> 4 & 1 == 1;
        if op > 11 {
            return self.divide(word);
        }
        if word >> 5 & 31 != 0 {
            return Err(2);
        }
        if 1 << op & 0b1111_1000_1100 != 0 {
            if self.is_wide(a) || op != 11 && self.is_wide(b) || self.is_wide(c) {
                return Err(3);
            }
        }
        if is_vector {
            return self.vector(op, a, b, c);
        }
        self.next()?;
        let x = if op == 11 { u64::from(self.address(b)) } else { self.element(b) };
        self.put(a, compute(op, self.kind(a), x, self.element(c)));
        Ok(())
    }

    #[inline(always)]
    fn differ(&self, a: usize, b: usize) -> bool {
        self.kind(a).width() != self.kind(b).width()
    }

    fn vector(&mut self, op: u32, a: usize, b: usize, c: usize) -> Result<(), Exception> {
        if op != 11 && self.differ(a, b) || self.differ(a, c) {
            return Err(2);
        }
        self.next()?;
        let kind = self.kind(a);
        let y = *self.line(c);
        let mut x = *self.line(b);
        if op == 11 {
            fill(kind, u64::from(self.address(b)), &mut x);
        }
        if !is_zero(a) {
            vector(op, kind, &x, &y, self.to_write(a));
        }
        Ok(())
    }

    fn divide(&mut self, word: u32) -> Result<(), Exception> {
        let (a, b, c, op) = self.fields(word);
        let d = self.of(word >> 5 & 31);
        let is_vector = word >> 4 & 1 == 1;
        if op < 14 || is_vector != (op == 15) {
            return Err(2);
        }
        if self.is_wide(c) {
            return Err(3);
        }
        if is_vector && (self.differ(a, b) || self.differ(a, c) || self.differ(a, d)) {
            return Err(2);
        }
        let kind = self.kind(a);
        let places: Vec<u32> = match is_vector {
            true => (0..128).step_by(kind.width()).collect(),
            false => vec![],
        };
        let y = *self.line(c);
        let zero = match is_vector {
            true => places.iter().any(|&at| kind.get(&y, at) == 0),
            false => kind.cast(self.element(c)) == 0,
        };
        if zero {
            return Err(1);
        }
        self.next()?;
        if !is_vector {
            let (quotient, rest) = divide(kind, self.element(b), self.element(c));
            self.put(a, quotient);
            self.put(d, rest);
            return Ok(());
        }
        let x = *self.line(b);
        let (mut quotients, mut rests) = (ZEROS, ZEROS);
        for at in places {
            let (quotient, rest) = divide(kind, kind.get(&x, at), kind.get(&y, at));
            kind.put(&mut quotients, at, quotient);
            kind.put(&mut rests, at, rest);
        }
        self.put_line(a, &quotients);
        self.put_line(d, &rests);
        Ok(())
    }

    fn reduce(&mut self, word: u32) -> Result<(), Exception> {
        let (a, b, _, op) = self.fields(word);
        if op > 4 || word >> 4 & 0xFFF != 0 {
            return Err(2);
        }
        if (1..4).contains(&op) && self.is_wide(a) {
            return Err(3);
        }
        self.next()?;
        self.put(a, reduce(op, self.kind(a), self.kind(b), self.line(b)));
        Ok(())
    }

    // Where a load or a store goes.
    #[inline(always)]
    fn target(&self, word: u32) -> Result<Data, Exception> {
        if word % 16 > 7 {
            return Err(2);
        }
        let i = (word << 16) as i32 >> 20;
        let address = self.address(self.of(word >> 16)).wrapping_add_signed(i);
        if self.is_missing(address) {
            return Err(0x16);
        }
        Ok(Data { address, kind: KINDS[word as usize % 8] })
    }

    #[inline(always)]
    fn load(&mut self, word: u32) -> Result<(), Exception> {
        let to = self.target(word)?;
        self.next()?;
        self.go_data(self.of(word >> 22), to);
        Ok(())
    }

    #[inline(always)]
    fn store(&mut self, word: u32) -> Result<(), Exception> {
        let to = self.target(word)?;
        self.next()?;
        let a = self.of(word >> 22);
        if !is_zero(a) {
            let old = self.address(a) as usize / 128;
            let new = to.address as usize / 128;
            self.memory[new] = self.memory[old];
            self.touched[new] = true;
            self.go_data(a, to);
        }
        Ok(())
    }

    fn dup(&mut self, word: u32) -> Result<(), Exception> {
        let (a, b, _, op) = self.fields(word);
        if op > 7 || word >> 4 & 0xFFF != 0 {
            return Err(2);
        }
        self.next()?;
        let kind = KINDS[op as usize];
        let x = self.element(b);
        if !is_zero(a) {
            fill(kind, x, self.to_write(a));
            self.data[a].kind = kind;
        }
        Ok(())
    }

    fn fetch(&mut self, word: u32) -> Result<(), Exception> {
        let (a, j) = (word >> 22 & 63, word >> 1 & 15);
        if word % 2 == 0 || a + j > 62 {
            return Err(2);
        }
        let i = (word << 16) as i32 >> 21;
        let start = self.addresses[self.of(word >> 16)].wrapping_add_signed(4 * i);
        if (0..=j).any(|k| self.is_missing(start.wrapping_add(128 * k))) {
            return Err(0x16);
        }
        self.next()?;
        for k in 0..=j {
            self.go(self.of(a + k), start.wrapping_add(128 * k));
        }
        Ok(())
    }

    #[inline(always)]
    fn jump(&mut self, word: u32) -> Result<(), Exception> {
        let (a, b, _, op) = self.fields(word);
        if op > 2 || word >> 4 & 127 != 0 || is_zero(b) || op == 2 && !is_zero(a) {
            return Err(2);
        }
        if op == 2 && !self.supervisor {
            return Err(2);
        }
        let place = self.addresses[b] / 128 * 128 + 4 * (word >> 11 & 31);
        if op == 2 {
            self.next()?;
            self.go(63, place);
            return Ok(());
        }
        if (self.element(a) != 0) == (op == 0) {
            self.go(self.ipc(), place);
            return Ok(());
        }
        self.next()
    }

    fn system(&mut self, word: u32) -> Result<(), Exception> {
        let (a, b, c, op) = self.fields(word);
        let d = self.of(word >> 4);
        let rest = match op {
            0..12 => word & 0x3F_FFF0,
            12 => 0,
            _ => word & 0xFFF_FFF0,
        };
        if op == 15 || rest != 0 {
            return Err(2);
        }
        if !self.supervisor && op != 12 {
            return Err(if op < 12 { 7 + op } else { op - 8 });
        }
        if op < 13 {
            self.next()?;
        }
        match op {
            0 => self.put(a, self.ie.into()),
            1 => self.ie = self.element(a) % 2 == 1,
            2 => self.put(a, self.xct.into()),
            3 => self.xct = self.element(a) as u32,
            4 | 6 | 8 | 10 => {
                let line = self.swiargs[op as usize / 2 - 2];
                self.put_line(a, &line);
            }
            5 | 7 | 9 | 11 => self.swiargs[op as usize / 2 - 2] = *self.line(a),
            12 => {
                self.swiargs = [a, b, c, d].map(|register| *self.line(register));
                return Err(4);
            }
            13 => {
                self.ie = true;
                self.supervisor = false;
            }
            _ => self.supervisor = false,
        }
        Ok(())
    }

    // Sends back every touched line, and answers how many they were and what the store then holds.
    pub fn halt(mut self) -> (usize, Vec<Line>) {
        let mut count = 0;
        for line in 0..self.memory.len() {
            if self.touched[line] {
                self.backing[line] = self.memory[line];
                count += 1;
            }
        }
        (count, self.backing)
    }
}
