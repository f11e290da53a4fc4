//! Random programs that run for a while: snippets that do something sensible, and now and then a hazard.

use crate::rng::Rng;
use crate::words::*;

/// Where a program will run: the generator aims at what is there, and just past it.
#[derive(Clone, Copy)]
pub struct Site {
    pub memory: usize,
    pub sectors: usize,
}

const SECTOR: usize = 512;
const PC: u32 = 63;

// Registers by role, so that what a snippet relies on is seldom overwritten by another.
const SMALL: (usize, usize) = (1, 15);
const RESULTS: (usize, usize) = (16, 47);
const MINUS_ONE: u32 = 48;
const COUNTERS: (usize, usize) = (49, 55);
const PASSING: (usize, usize) = (56, 62);

/// The words of a program, to be laid at the start of a disk.
pub fn program(rng: &mut Rng, site: Site) -> Vec<u32> {
    let length = rng.between(1, 128);
    match rng.weighted(&[16, 1, 1, 1]) {
        0 => composed(rng, site),
        1 => (0..length).map(|_| rng.word()).collect(),
        2 => (0..length).map(|_| any_valid(rng)).collect(),
        _ => {
            let mut words = composed(rng, site);
            for _ in 0..rng.between(1, 3) {
                let at = rng.below(words.len());
                words[at] ^= 1 << rng.below(32);
            }
            words
        }
    }
}

fn composed(rng: &mut Rng, site: Site) -> Vec<u32> {
    let hazard = rng.pick(&[3, 10, 30, 100, 1000]);
    let most = site.sectors.min(site.memory / SECTOR).clamp(1, 5);
    let loaded = if rng.one_in(4) { most } else { 1 };
    let mut maker = Maker { rng, site, hazard, depth: 0, words: vec![] };
    maker.load_rest(loaded);
    maker.set_small();
    let body = maker.here();
    let length = maker.rng.between(4, 110) + 128 * (loaded - 1);
    while maker.words.len() < length {
        maker.snippet();
    }
    maker.end(body);
    let words = maker.words;
    words.into_iter().map(|word| if rng.one_in(12) { smudged(rng, word) } else { word }).collect()
}

struct Maker<'a> {
    rng: &'a mut Rng,
    site: Site,
    /// One snippet in so many is meant to end or to derail the program.
    hazard: usize,
    depth: usize,
    words: Vec<u32>,
}

impl Maker<'_> {
    fn emit(&mut self, word: u32) {
        self.words.push(word);
    }

    /// The address of the next word.
    fn here(&self) -> u32 {
        4 * self.words.len() as u32
    }

    fn register(&mut self, (low, high): (usize, usize)) -> u32 {
        self.rng.between(low, high) as u32
    }

    fn source(&mut self) -> u32 {
        match self.rng.below(16) {
            0 => 0,
            1 => PC,
            2 => self.rng.below(64) as u32,
            3..=6 => self.register(SMALL),
            _ => self.register(RESULTS),
        }
    }

    fn target(&mut self) -> u32 {
        if self.rng.one_in(16) {
            return 0;
        }
        if self.rng.one_in(4 * self.hazard) {
            return self.rng.pick(&[PC, 1, 20, MINUS_ONE, 50]);
        }
        self.register(RESULTS)
    }

    /// Sets a register to a value, by MOVI alone where that can be.
    fn set(&mut self, register: u32, value: u32) {
        let shift = value.trailing_zeros().min(31);
        if value < 65_536 && (shift == 0 || self.rng.one_in(2)) {
            self.emit(movi(register, value, 0));
        } else if value >> shift < 65_536 {
            self.emit(movi(register, value >> shift, shift));
        } else {
            let low = if register == PASSING.1 as u32 { PASSING.0 as u32 } else { PASSING.1 as u32 };
            self.emit(movi(register, value >> 16, 16));
            self.emit(movi(low, value & 0xffff, 0));
            self.emit(three(ADD, register, register, low));
        }
    }

    /// A register for passing use that holds the value.
    fn holding(&mut self, value: u32) -> u32 {
        let register = self.register((PASSING.0 + 1, PASSING.1 - 1));
        self.set(register, value);
        register
    }

    /// Two registers for passing use that hold the values.
    fn holding_both(&mut self, first: u32, second: u32) -> (u32, u32) {
        let (a, b) = self.rng.pick(&[(57, 58), (58, 57), (59, 60), (61, 59)]);
        self.set(a, first);
        self.set(b, second);
        (a, b)
    }

    /// Fetches the sectors that hold the rest of a program that is longer than one.
    fn load_rest(&mut self, sectors: usize) {
        for sector in 1..sectors as u32 {
            let (a, b) = self.holding_both(sector * SECTOR as u32, sector);
            self.emit(three(READ, a, b, 0));
        }
    }

    fn set_small(&mut self) {
        self.emit(three(NOR, MINUS_ONE, 0, 0));
        for _ in 0..self.rng.between(1, 8) {
            let (register, value) = (self.register(SMALL), self.rng.between(1, 20));
            self.emit(movi(register, value as u32, 0));
        }
    }

    fn snippet(&mut self) {
        if self.rng.one_in(self.hazard) {
            return self.risk();
        }
        match self.rng.weighted(&[12, 4, 12, 4, 4, 5, 5, 5, 3, 3, 3, 2]) {
            0 => self.arithmetic(),
            1 => self.constant(),
            2 => self.access(),
            3 => self.edge(),
            4 => self.skip(),
            5 => self.repeat(),
            6 => self.transfer(),
            7 => self.talk(),
            8 => self.patch(),
            9 => self.morph(),
            10 => self.sweep(),
            _ => self.stream(),
        }
    }

    fn arithmetic(&mut self) {
        for _ in 0..self.rng.between(1, 5) {
            let opcode = self.rng.pick(&[ADD, MUL, DIV, NOR, CMOV]);
            let (a, b, mut c) = (self.target(), self.source(), self.source());
            if opcode == DIV {
                // The next address and -1 are never 0; what else divides was just set.
                c = self.rng.pick(&[PC, MINUS_ONE, 57]);
                let value = self.rng.between(1, 300) as u32;
                if c == 57 {
                    self.set(c, value);
                }
            }
            self.emit(three(opcode, a, b, c));
        }
    }

    fn constant(&mut self) {
        let (register, shift, any) = (self.target(), self.rng.below(32) as u32, self.rng.below(65_536) as u32);
        let number = self.rng.pick(&[0, 1, 65_535, 32_768, any, any]);
        self.emit(movi(register, number, shift));
    }

    /// A load or a store at an address, given as a sum of two registers.
    fn reach(&mut self, opcode: u32, address: u32) {
        let offset = match self.rng.below(4) {
            0 => self.rng.below(200) as u32,
            1 => self.rng.word(),
            _ => 0,
        };
        let (mut b, mut c) = (self.holding(address), 0);
        if offset != 0 {
            (b, c) = self.holding_both(address.wrapping_sub(offset), offset);
        }
        let a = if opcode >= STOREB { self.source() } else { self.target() };
        let word = if self.rng.one_in(2) { three(opcode, a, b, c) } else { three(opcode, a, c, b) };
        self.emit(word);
    }

    fn access(&mut self) {
        let (width, store) = (self.rng.below(3) as u32, self.rng.one_in(2));
        let memory = self.site.memory;
        // Stores spare the code most of the time, so that it goes on.
        let low = if store && memory > 1024 && !self.rng.one_in(8) { memory / 2 } else { 0 };
        let mut address = self.rng.between(low, memory - 4) as u32;
        if store {
            address &= !0 << width;
        }
        self.reach(if store { STOREB + width } else { LOADB + width }, address);
    }

    /// The last bytes of memory: what fits there, and in a hazardous program what does not.
    fn edge(&mut self) {
        let (width, store) = (self.rng.below(3) as u32, self.rng.one_in(2));
        let size = 1 << width;
        let wild = self.rng.one_in(self.hazard);
        let address = match (wild, store) {
            (true, _) => self.site.memory + 4 - self.rng.below(9),
            (false, true) => self.site.memory - size,
            (false, false) => self.site.memory - size - self.rng.below(3),
        };
        self.reach(if store { STOREB + width } else { LOADB + width }, address as u32);
    }

    /// A jump over a few words that are never executed.
    fn skip(&mut self) {
        let over = self.rng.below(4) as u32;
        let here = self.here();
        match self.rng.below(4) {
            0 => self.emit(movi(PC, here + 4 + 4 * over, 0)),
            1 => {
                self.emit(movi(57, 4 * over, 0));
                self.emit(three(ADD, PC, PC, 57));
            }
            2 => {
                self.emit(movi(57, here + 8 + 4 * over, 0));
                self.emit(three(ADD, PC, 0, 57));
            }
            _ => {
                self.emit(movi(57, here + 8 + 4 * over, 0));
                self.emit(three(CMOV, PC, 57, MINUS_ONE));
            }
        }
        for _ in 0..over {
            let word = self.rng.word();
            self.emit(word);
        }
    }

    /// A loop with a counter around some snippets.
    fn repeat(&mut self) {
        if self.depth == 3 {
            return;
        }
        let turns = self.rng.pick(&[1, 2, 3, 5, 12, 40]);
        let counter = (COUNTERS.0 + self.depth) as u32;
        self.emit(movi(counter, turns, 0));
        let top = self.here();
        self.depth += 1;
        for _ in 0..self.rng.between(1, 3) {
            self.snippet();
        }
        self.depth -= 1;
        self.turn_back(counter, top);
    }

    /// Jumps to the top of a loop until its counter is 0. Register 57 is overwritten.
    fn turn_back(&mut self, counter: u32, top: u32) {
        self.emit(three(ADD, counter, counter, MINUS_ONE));
        self.emit(movi(57, top, 0));
        self.emit(three(CMOV, PC, 57, counter));
    }

    /// The address of a whole sector in memory, past the program where there is room.
    fn page(&mut self) -> u32 {
        let pages = self.site.memory / SECTOR;
        let low = if pages > 6 { 5 } else if pages > 1 && !self.rng.one_in(4) { 1 } else { 0 };
        (SECTOR * self.rng.between(low, pages - 1)) as u32
    }

    fn transfer(&mut self) {
        let (page, sector) = (self.page(), self.rng.below(self.site.sectors.max(1)) as u32);
        let opcode = self.rng.pick(&[READ, WRITE]);
        let (a, b) = self.holding_both(page, sector);
        self.emit(three(opcode, a, b, 0));
    }

    fn talk(&mut self) {
        for _ in 0..self.rng.between(1, 4) {
            let register = self.target();
            match self.rng.below(5) {
                0 => self.emit(three(IN, register, 0, 0)),
                1 => {
                    self.emit(three(IN, register, 0, 0));
                    self.emit(three(OUT, register, 0, 0));
                }
                _ => {
                    let shown = self.source();
                    self.emit(three(OUT, shown, 0, 0));
                }
            }
        }
    }

    /// Stores a word, or a part of one, over the word behind the store.
    fn patch(&mut self) {
        let good = if self.rng.one_in(2) { movi(20, 4321, 3) } else { three(ADD, 21, 22, 23) };
        let width = self.rng.below(3) as u32;
        let size = 1 << width;
        let offset = self.rng.below(4 / size) * size;
        let part = good >> (8 * (4 - offset - size)) & (u32::MAX >> (32 - 8 * size));
        let value = self.holding(part);
        let victim = self.here() + 8;
        let address = if value == 57 { 58 } else { 57 };
        self.emit(movi(address, victim + offset as u32, 0));
        self.emit(three(STOREB + width, value, address, 0));
        let keep = u32::MAX >> (32 - 8 * size) << (8 * (4 - offset - size));
        let before = self.rng.word() & keep | good & !keep;
        self.emit(before);
    }

    /// A loop that changes one of its own instructions in every turn: a byte of the number that a MOVI sets.
    fn morph(&mut self) {
        if self.depth > 0 {
            return self.patch();
        }
        let (changed, turns) = (self.register(RESULTS), self.rng.between(2, 30) as u32);
        let ahead = self.rng.one_in(2);
        self.emit(movi(55, turns, 0));
        let top = self.here();
        let victim = if ahead { top + 8 } else { top };
        let store = [movi(58, victim + 2, 0), three(STOREB, 55, 58, 0)];
        let victim = [movi(changed, 0, self.rng.below(32) as u32)];
        let body = if ahead { [&store[..], &victim[..]] } else { [&victim[..], &store[..]] };
        self.words.extend(body.concat());
        self.emit(three(ADD, 47, 47, changed));
        self.turn_back(55, top);
    }

    /// Writes many sectors one after another, which uses up an overlay's keeps.
    fn sweep(&mut self) {
        if self.site.sectors < 2 || self.depth > 0 {
            return self.transfer();
        }
        let most = (self.site.sectors - 1).min(40);
        let any = self.rng.between(1, most);
        // 32 sectors use up just all keeps, and then the program goes on.
        let last = self.rng.pick(&[any, most, most.min(32), most.min(32)]) as u32;
        let page = self.page();
        self.set(55, last);
        self.set(58, page);
        let top = self.here();
        self.emit(three(WRITE, 58, 55, 0));
        self.turn_back(55, top);
        if self.rng.one_in(2) {
            let page = self.page();
            let sector = self.rng.pick(&[1, 1, last, last, last + 1, 0, self.site.sectors as u32]);
            let (a, b) = self.holding_both(page, sector);
            self.emit(three(WRITE, a, b, 0));
        }
    }

    /// Prints, takes or echoes many bytes, more than a console holds at a time.
    fn stream(&mut self) {
        if self.depth > 0 {
            return self.talk();
        }
        let (count, byte) = (self.rng.pick(&[10, 100, 300, 1000, 4095, 4096, 4200]), self.register(RESULTS));
        let body = match self.rng.below(4) {
            0 | 1 => vec![three(OUT, 55, 0, 0)],
            2 => vec![three(IN, byte, 0, 0), three(OUT, byte, 0, 0)],
            _ => vec![three(IN, byte, 0, 0), three(MUL, 47, 47, 5), three(ADD, 47, 47, byte)],
        };
        self.set(55, count);
        let top = self.here();
        self.words.extend(body);
        self.turn_back(55, top);
    }

    /// Something that ends the program, or takes it to where nobody knows.
    fn risk(&mut self) {
        let memory = self.site.memory as u32;
        match self.rng.below(8) {
            0 => self.emit(HALT << 27),
            1 => {
                let word = self.rng.word();
                self.emit(word);
            }
            2 => {
                let (a, b) = (self.target(), self.source());
                self.emit(three(DIV, a, b, 0));
            }
            3 => {
                let word = any_valid(self.rng);
                self.emit(word);
            }
            4 => self.wild_jump(),
            5 => self.wild_transfer(),
            _ => {
                let opcode = self.rng.pick(&[0, 1, 2, 4, 5, 6]);
                let near = memory.wrapping_add(4).wrapping_sub(self.rng.below(9) as u32);
                let far = self.rng.word();
                let top = u32::MAX - self.rng.below(5) as u32;
                let odd = self.rng.below(memory as usize) as u32;
                let address = self.rng.pick(&[near, near, near, odd, odd, far, top]);
                self.reach(opcode, address);
            }
        }
    }

    fn wild_jump(&mut self) {
        let (memory, here) = (self.site.memory as u32, self.here());
        let low = self.rng.below(memory as usize) as u32;
        let targets = [memory, memory - 2, memory - 4, memory + 4, here + 5, here + 6, low, low & !3, 0, u32::MAX, u32::MAX - 3];
        let target = self.rng.pick(&targets);
        let register = self.holding(target);
        self.emit(three(ADD, PC, register, 0));
    }

    fn wild_transfer(&mut self) {
        let (memory, sectors) = (self.site.memory as u32, self.site.sectors as u32);
        let page = self.page();
        let pages = [page, page, page, page + 1, page + 256, memory, memory - 256, memory + 512, u32::MAX - 511, u32::MAX];
        let good = self.rng.below(self.site.sectors.max(1)) as u32;
        let numbers = [good, sectors.wrapping_sub(1), sectors, sectors, sectors + 1, 65_535, 65_536, u32::MAX];
        let (page, sector) = (self.rng.pick(&pages), self.rng.pick(&numbers));
        let opcode = self.rng.pick(&[READ, WRITE]);
        let (a, b) = self.holding_both(page, sector);
        self.emit(three(opcode, a, b, 0));
    }

    fn end(&mut self, body: u32) {
        match self.rng.weighted(&[4, 2, 3, 1]) {
            0 => self.emit(HALT << 27),
            1 => self.emit(movi(PC, 0, 0)),
            2 => self.emit(movi(PC, body, 0)),
            _ => {}
        }
    }
}
