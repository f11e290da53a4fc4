//! Nanoseconds a step of the proved station and of the peer, on the same programs, in one run.
//!
//! The two are timed one after the other, which goes first changing from turn to turn, and the median of the turns' ratios is
//! printed. Memory is zeroed before each timing, outside of it.

use peer::devices::{Console, Disk};
use peer::machine::{Station, Stop};
use proved::{Call, Hall, Reply};
use std::hint::black_box;
use std::time::{Duration, Instant};

const MEMORY: usize = 65_536;
const SECTORS: usize = 8;
const TURNS: usize = 15;

/// A program, and how it is run: so many runs of so many steps each, with what it printed collected after each.
struct Program {
    name: &'static str,
    text: &'static str,
    overlaid: bool,
    runs: usize,
    steps: u32,
}

// Blanks stand for tabs.
const ARITHMETIC: &str = "\
MOVI a0 1 0
MOVI a1 3 0
MOVI t0 16 0
ADD s0 s0 a0
MUL s1 s0 a1
NOR s2 s1 s0
DIV s3 s2 a1
CMOV s4 s3 s0
ADD s5 s4 s1
CMOV pc t0 a0
";

const LOADS_AND_STORES: &str = "\
MOVI a0 1024 0
MOVI t0 12 0
MOVI a1 1 0
LOADW s0 a0 zz
ADD s0 s0 a1
STOREW s0 a0 zz
LOADH s1 a0 a1
STOREH s1 a0 t0
LOADB s2 a0 a1
STOREB s2 a0 a1
CMOV pc t0 a1
";

const DISK_COPY: &str = "\
MOVI a0 1 9
MOVI t0 12 0
MOVI a1 1 0
ADD s0 s0 a1
READ a0 a1
WRITE a0 t1
STOREW s0 a0 zz
MOVI t1 2 0
CMOV pc t0 a1
";

const PRINTING: &str = "\
MOVI t0 8 0
MOVI a1 1 0
ADD a0 a0 a1
OUT a0
CMOV pc t0 a1
";

const PROGRAMS: [Program; 5] = [
    Program { name: "arithmetic loop", text: ARITHMETIC, overlaid: true, runs: 1, steps: 10_000_000 },
    Program { name: "loads and stores", text: LOADS_AND_STORES, overlaid: true, runs: 1, steps: 10_000_000 },
    Program { name: "copy through an image", text: DISK_COPY, overlaid: false, runs: 1, steps: 3_000_000 },
    Program { name: "copy through an overlay", text: DISK_COPY, overlaid: true, runs: 1, steps: 3_000_000 },
    Program { name: "printing, collected", text: PRINTING, overlaid: true, runs: 500, steps: 12_000 },
];

/// A disk with the program in its first sector.
fn disk_of(text: &str) -> Vec<u8> {
    let mut bytes = vec![0; SECTORS * 512];
    let reply = proved::assemble(text.replace(' ', "\t").as_bytes(), &mut bytes);
    assert_eq!(reply.refusal, 0, "a program of the benchmark is out of form");
    bytes
}

fn time_proved(disk: &[u8], program: &Program) -> Duration {
    let (mut memory, mut out) = (vec![0; MEMORY], vec![0; 4096]);
    let mut calls = vec![Call::start(MEMORY)];
    for _ in 0..program.runs {
        calls.extend([Call::run(MEMORY, program.steps), Call::collect(0, 4096)]);
    }
    let mut replies = vec![Reply::default(); calls.len()];
    let mut hall = Hall {
        overlaid: program.overlaid,
        scripted: false,
        disk,
        text: &[],
        paper: &mut [],
        memory: &mut memory,
        data: &[],
        out: &mut out,
    };
    let begun = Instant::now();
    let made = proved::serve(&mut hall, black_box(&calls), &mut replies);
    let time = begun.elapsed();
    assert_eq!(made, calls.len());
    for run in replies[1..].iter().step_by(2) {
        assert_eq!((run.refusal, run.count, run.reason), (0, program.steps as usize, 0), "{}: a run was not spent", program.name);
    }
    black_box(memory);
    time
}

fn time_peer(disk: &[u8], program: &Program) -> Duration {
    let mut memory = vec![0; MEMORY];
    let mut disk = if program.overlaid { Disk::overlay(disk) } else { Disk::image(disk) };
    let (mut console, mut station) = (Console::keyboard(), Station::default());
    let begun = Instant::now();
    station.start(&mut memory, &disk, &console).unwrap();
    for _ in 0..program.runs {
        let ran = station.run(&mut memory, &mut disk, &mut console, black_box(program.steps));
        assert_eq!(ran, Ok((program.steps, Stop::Spent)), "{}: a run was not spent", program.name);
        black_box(console.collect(4096));
    }
    let time = begun.elapsed();
    black_box((memory, disk, station.registers));
    time
}

fn median(mut values: Vec<f64>) -> f64 {
    values.sort_by(f64::total_cmp);
    values[values.len() / 2]
}

/// Times the two in turns, and answers the median of each and of the ratio, per unit of work.
fn in_turns(work: f64, mut first: impl FnMut() -> Duration, mut second: impl FnMut() -> Duration) -> (f64, f64, f64) {
    let (mut ours, mut theirs, mut ratios) = (vec![], vec![], vec![]);
    for turn in 0..TURNS {
        let (a, b) = if turn % 2 == 0 {
            let a = first();
            (a, second())
        } else {
            let b = second();
            (first(), b)
        };
        ours.push(a.as_nanos() as f64 / work);
        theirs.push(b.as_nanos() as f64 / work);
        ratios.push(a.as_secs_f64() / b.as_secs_f64());
    }
    (median(ours), median(theirs), median(ratios))
}

fn programs() {
    println!("nanoseconds a step          proved    peer   ratio");
    for program in &PROGRAMS {
        let disk = disk_of(program.text);
        let steps = program.runs as f64 * program.steps as f64;
        let (ours, theirs, ratio) = in_turns(steps, || time_proved(&disk, program), || time_peer(&disk, program));
        println!("{:<26} {ours:>7.2} {theirs:>7.2} {ratio:>7.2}", program.name);
    }
}

/// The same loop in a short and in a long run: many short ones, so that they take long enough to be timed.
fn lengths() {
    let disk = disk_of(ARITHMETIC);
    println!();
    println!("the arithmetic loop, nanoseconds a step of the proved station");
    for (name, runs, steps) in [("10 thousand steps", 1, 10_000), ("100 million steps", 1, 100_000_000)] {
        let program = Program { name, text: ARITHMETIC, overlaid: false, runs, steps };
        let turns = if steps > 1_000_000 { 3 } else { 501 };
        let times = (0..turns).map(|_| time_proved(&disk, &program).as_nanos() as f64 / steps as f64).collect();
        println!("{name:<26} {:>7.2}", median(times));
    }
}

/// A long text: every operation and WORD in turn, up to the most lines that a text can have.
fn long_text() -> Vec<u8> {
    let lines = ["LOADW\ts19\tt21\tat0\n", "STOREB\tv0\ta6\tpc\n", "ADD\tr1\tr2\tr3\n", "MOVI\tsp\t65535\t31\n", "CMOV\tpc\tt0\ta1\n", "OUT\ta0\n", "READ\tk0\tk1\n", "HALT\n", "WORD\t4294967295\n"];
    lines.iter().cycle().take(3_328).flat_map(|line| line.bytes()).collect()
}

fn texts() {
    let text = long_text();
    let mut words = vec![0; 13_312];
    let size = proved::assemble(&text, &mut words).count;
    words.truncate(size);
    let mut listing = vec![0; 19 * 3_328];
    let listed = proved::list(&words, &mut listing).count;
    println!();
    println!("megabytes of text a second  proved    peer   ratio of the times");
    let repeated = 20;
    let timed = |bytes: usize, ours: &mut dyn FnMut(), theirs: &mut dyn FnMut()| {
        let clock = |f: &mut dyn FnMut()| {
            let begun = Instant::now();
            (0..repeated).for_each(|_| f());
            begun.elapsed()
        };
        let (a, b, ratio) = in_turns((bytes * repeated) as f64, || clock(ours), || clock(theirs));
        (1e3 / a, 1e3 / b, ratio)
    };
    let mut out = vec![0; 13_312];
    let (ours, theirs, ratio) = timed(
        text.len(),
        &mut || {
            black_box(proved::assemble(black_box(&text), &mut out));
        },
        &mut || {
            black_box(peer::text::assemble(black_box(&text), 13_312).unwrap());
        },
    );
    println!("{:<26} {ours:>7.1} {theirs:>7.1} {ratio:>7.2}", "assemble");
    let (ours, theirs, ratio) = timed(
        listed,
        &mut || {
            black_box(proved::list(black_box(&words), &mut listing));
        },
        &mut || {
            black_box(peer::text::list(black_box(&words), 19 * 3_328).unwrap());
        },
    );
    println!("{:<26} {ours:>7.1} {theirs:>7.1} {ratio:>7.2}", "list");
}

fn main() {
    println!("medians of {TURNS} turns; a ratio below 1 says that the proved one took less time");
    println!();
    programs();
    lengths();
    texts();
}
