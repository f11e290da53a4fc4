//! Random histories of calls. The peer makes each call as it is written, so that the next one can be chosen by its state.

use crate::cases::{History, SOON};
use crate::mirror::{Mirror, STOPS};
use crate::programs::{program, Site};
use crate::rng::Rng;
use crate::sheets::sheet;
use crate::words::{bytes_of, movi, three, DIV, HALT, LOADB, NOR, READ};
use peer::devices::{Console, Disk, SECTOR};
use peer::machine::Stop;
use proved::{Call, Kind};

/// How many sheets an ended station is given in a case of sheets.
pub const SHEETS: usize = 12;

/// Where a history is made, as it is before the first call.
pub struct Setting {
    pub overlaid: bool,
    pub scripted: bool,
    pub disk: Vec<u8>,
    pub text: Vec<u8>,
    pub paper: Vec<u8>,
    pub memory: Vec<u8>,
}

impl Setting {
    /// `number` chooses among the four kinds of devices, evenly.
    fn new(rng: &mut Rng, number: u64, site: Site, longest: usize) -> Setting {
        let (text, paper) = (rng.pick(&[0, 1, 7, 60, 400]), rng.pick(&[0, 1, 20, 300, 4096, 5000]));
        let slack = rng.below(40);
        Setting {
            overlaid: number & 1 == 1,
            scripted: number & 2 == 2,
            disk: disk(rng, site),
            text: rng.bytes(text),
            paper: rng.bytes(paper),
            memory: rng.bytes(longest + slack),
        }
    }

    fn mirror(&self) -> Mirror {
        let disk = if self.overlaid { Disk::overlay(&self.disk) } else { Disk::image(&self.disk) };
        let console = if self.scripted { Console::script(&self.text, self.paper.len()) } else { Console::keyboard() };
        Mirror::new(disk, console, self.memory.clone())
    }
}

fn lay(disk: &mut [u8], at: usize, words: &[u32]) {
    for (to, from) in disk.iter_mut().skip(at).zip(bytes_of(words)) {
        *to = from;
    }
}

/// A program at the start of the disk, and perhaps others in later sectors, which it may read over itself.
fn disk(rng: &mut Rng, site: Site) -> Vec<u8> {
    let tail = if rng.one_in(3) { rng.between(1, SECTOR - 1) } else { 0 };
    let length = SECTOR * site.sectors + tail;
    let mut disk = if rng.one_in(4) { vec![0; length] } else { rng.bytes(length) };
    for sector in 1..site.sectors.min(12) {
        if rng.one_in(5) {
            let words = program(rng, site);
            lay(&mut disk, SECTOR * sector, &words[..words.len().min(128)]);
        }
    }
    lay(&mut disk, 0, &program(rng, site));
    disk
}

fn memory_length(rng: &mut Rng) -> usize {
    match rng.weighted(&[70, 20, 1]) {
        0 => SECTOR * rng.between(1, 8),
        1 => SECTOR * rng.between(9, 40),
        _ => 1_048_576,
    }
}

fn sector_count(rng: &mut Rng) -> usize {
    match rng.weighted(&[120, 1400, 800, 800, 3]) {
        0 => 0,
        1 => rng.between(1, 8),
        2 => rng.between(9, 40),
        3 => rng.between(34, 40),
        _ => 65_536 + rng.below(3),
    }
}

/// A program within a history of calls.
pub fn of_program(mut rng: Rng, number: u64) -> History {
    let main = memory_length(&mut rng);
    let mut lengths = vec![main, SECTOR * rng.between(1, 8), 0, 511, 513, main - 1, main + 1];
    if main == 1_048_576 {
        lengths.push(1_049_088);
    }
    let longest = *lengths.iter().max().unwrap();
    let site = Site { memory: main, sectors: sector_count(&mut rng) };
    let setting = Setting::new(&mut rng, number, site, longest);
    let traced = rng.one_in(4);
    let mut author = Author::new(rng, setting, lengths, traced);
    if !author.rng.one_in(5) {
        author.start(main);
    }
    for _ in 0..author.rng.between(4, 30) {
        author.next();
    }
    author.close();
    author.finish()
}

/// A station that soon ends, in any of the ways, and then many sheets.
pub fn of_sheets(mut rng: Rng, number: u64) -> History {
    let memory = SECTOR * rng.between(1, 4);
    let site = Site { memory, sectors: rng.between(1, 4) };
    let mut setting = Setting::new(&mut rng, number, site, memory);
    // A word for each ending: r5 is the largest number then, and r63 is 8.
    let endings = [
        HALT << 27,
        3 << 27,
        three(DIV, 1, 2, 0),
        three(READ, 63, 0, 0),
        three(READ, 0, 63, 0),
        three(LOADB, 1, 5, 0),
        movi(63, 2, 0),
    ];
    lay(&mut setting.disk, 0, &[three(NOR, 5, 0, 0), rng.pick(&endings)]);
    let mut author = Author::new(rng, setting, vec![memory], false);
    author.start(memory);
    author.make(Call::run(memory, 100));
    for _ in 0..SHEETS {
        author.tally();
    }
    author.finish()
}

/// What the last run said, as far as it tells which call is of use next.
#[derive(Clone, Copy, PartialEq)]
enum Mood {
    Unstarted,
    Going,
    WantsInput,
    WantsPaper,
    WantsKeep,
    Ended,
}

impl Mood {
    fn after(stop: Stop) -> Mood {
        match stop {
            Stop::Spent => Mood::Going,
            Stop::Input => Mood::WantsInput,
            Stop::Paper => Mood::WantsPaper,
            Stop::Keep => Mood::WantsKeep,
            _ => Mood::Ended,
        }
    }

    /// How likely are start, run, feed, collect, tally, registers and sector.
    fn weights(self) -> [usize; 7] {
        match self {
            Mood::Unstarted => [10, 1, 2, 1, 1, 1, 1],
            Mood::Going => [1, 14, 2, 3, 1, 1, 1],
            Mood::WantsInput => [1, 3, 8, 1, 1, 1, 1],
            Mood::WantsPaper => [2, 2, 1, 8, 1, 1, 1],
            Mood::WantsKeep => [2, 3, 1, 2, 1, 1, 1],
            Mood::Ended => [4, 2, 1, 3, 6, 1, 1],
        }
    }
}

struct Author {
    rng: Rng,
    mirror: Mirror,
    /// The lengths of memory that calls name; the first is the one that the program is made for.
    lengths: Vec<usize>,
    started: Option<usize>,
    mood: Mood,
    traced: bool,
    history: History,
}

impl Author {
    fn new(rng: Rng, setting: Setting, lengths: Vec<usize>, traced: bool) -> Author {
        let mirror = setting.mirror();
        Author { rng, mirror, lengths, started: None, mood: Mood::Unstarted, traced, history: History::new(setting) }
    }

    /// Has the peer make a call, and writes it down with its reply.
    fn make(&mut self, call: Call) {
        let before = if self.traced && call.kind == Kind::Run { Some(self.mirror.clone()) } else { None };
        let reply = self.mirror.make(&call, &self.history.data);
        if let Some(before) = before {
            self.trace(before, &call, reply.count);
        }
        match call.kind {
            Kind::Start if reply.refusal == 0 => {
                self.started = Some(call.memory);
                self.mood = Mood::Going;
            }
            Kind::Run if reply.refusal == 0 => {
                let already = self.mood == Mood::Ended;
                self.mood = Mood::after(STOPS[reply.reason as usize]);
                if self.mood == Mood::Ended && !already {
                    self.history.endings.push((reply.reason, self.next_opcode()));
                }
            }
            _ => {}
        }
        self.history.calls.push(call);
        self.history.expected.push(reply);
    }

    /// The opcode of the word at r63, which is what an ending other than FETCH and HALT is about.
    fn next_opcode(&self) -> Option<u32> {
        let at = self.mirror.station.registers[63] as usize;
        self.mirror.memory.get(at).map(|byte| *byte as u32 >> 3)
    }

    /// Makes the beginning of a run once more step by step, to see which operations it executed.
    fn trace(&mut self, mut before: Mirror, call: &Call, count: usize) {
        for _ in 0..count.min(500) {
            let at = before.station.registers[63] as usize;
            self.history.opcodes[(before.memory[at] >> 3) as usize] += 1;
            before.make(&Call { number: 1, ..*call }, &[]);
        }
    }

    fn next(&mut self) {
        match self.rng.weighted(&self.mood.weights()) {
            0 => {
                let length = if self.rng.one_in(2) { self.lengths[0] } else { self.rng.pick(&self.lengths) };
                self.start(length)
            }
            1 => self.run(),
            2 => self.feed(),
            3 => {
                let room = self.rng.pick(&[0, 1, 2, 9, 100, 4095, 4096, 5000]);
                self.collect(room)
            }
            4 => self.tally(),
            5 => self.registers(),
            _ => {
                let count = self.mirror.disk.sectors.len();
                let inside = self.rng.below(count.max(1));
                let sector = self.rng.pick(&[0, inside, inside, count.saturating_sub(1), count, 65_536]);
                self.sector(sector as u32)
            }
        }
    }

    fn start(&mut self, length: usize) {
        self.make(Call::start(length));
    }

    /// The length that the station was started with, and seldom another.
    fn named_length(&mut self) -> usize {
        match self.started {
            Some(length) if !self.rng.one_in(25) => length,
            _ => self.rng.pick(&self.lengths),
        }
    }

    fn run(&mut self) {
        let length = self.named_length();
        let steps = match self.rng.weighted(&[2, 3, 6, 6, 6, 1, 1]) {
            0 => 0,
            1 => 1,
            2 => self.rng.between(2, 20),
            3 => self.rng.between(21, 500),
            4 => self.rng.between(501, 3_000),
            5 => SOON as usize,
            _ => self.most(length),
        };
        self.make(Call::run(length, steps as u32));
    }

    /// The largest grant there is, if a run with it is sure to stop soon.
    fn most(&self, length: usize) -> usize {
        if self.mirror.disk.sectors.len() > 1_000 {
            return 1_000;
        }
        let tried = self.mirror.clone().make(&Call::run(length, SOON), &[]);
        (if tried.reason == 0 && tried.refusal == 0 { SOON } else { u32::MAX }) as usize
    }

    fn lent(&mut self, bytes: Vec<u8>) -> (usize, usize) {
        let from = self.history.data.len();
        self.history.data.extend(bytes);
        (from, self.history.data.len())
    }

    fn feed(&mut self) {
        let count = self.rng.pick(&[0, 1, 2, 10, 100, 255, 256, 257, 600]);
        let bytes = self.rng.bytes(count);
        let (from, to) = self.lent(bytes);
        self.make(Call::feed(from, to));
    }

    /// A new part of the output, with some bytes in front that no call writes.
    fn room(&mut self, size: usize) -> usize {
        let gap = self.rng.below(6);
        let fresh = self.rng.bytes(gap + size);
        self.history.out.extend(&fresh);
        self.mirror.out.extend(&fresh);
        self.mirror.out.len() - size
    }

    fn collect(&mut self, room: usize) {
        let from = self.room(room);
        self.make(Call::collect(from, from + room));
    }

    fn tally(&mut self) {
        let length = self.named_length();
        let sheet = sheet(&mut self.rng, &self.mirror, length);
        let (from, to) = self.lent(sheet);
        self.make(Call::tally(length, from, to));
    }

    fn registers(&mut self) {
        let from = self.room(256);
        self.make(Call::registers(from));
    }

    fn sector(&mut self, number: u32) {
        let from = self.room(SECTOR);
        self.make(Call::sector(number, from));
    }

    /// Looks at everything once more: registers, free slots, printed bytes, all sectors.
    fn close(&mut self) {
        self.registers();
        let bytes = self.rng.bytes(300);
        let (from, to) = self.lent(bytes);
        self.make(Call::feed(from, to));
        let count = self.mirror.disk.sectors.len() as u32;
        for sector in (0..=count).filter(|s| *s < 50 || *s + 3 > count) {
            self.sector(sector);
        }
        self.tally();
    }

    /// Collects what is left, so that all that was printed is known, and has the proved station make the calls.
    fn finish(mut self) -> History {
        self.collect(self.mirror.console.printed() + 1);
        self.history.compare_with(self.mirror)
    }
}
