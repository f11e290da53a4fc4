//! The proved station beside the peer: random programs in random histories of calls, random texts, random sheets.
//!
//!     compare [SEED [COUNT]]                  compares that many programs and texts, and sheets besides
//!     compare SEED only KIND NUMBER           shows one case; KIND is program, text or sheet
//!
//! The status is 1 if anything differs.

mod cases;
mod histories;
mod mirror;
mod mutations;
mod programs;
mod report;
mod rng;
mod sheets;
mod texts;
mod words;

use cases::Case;
use report::Coverage;
use rng::Rng;
use std::panic::{catch_unwind, AssertUnwindSafe};
use std::process::ExitCode;
use std::time::{SystemTime, UNIX_EPOCH};

/// More cases than these that differ are only counted.
const DESCRIBED: u64 = 3;

#[derive(Clone, Copy, PartialEq)]
enum Kind {
    Program,
    Text,
    Sheet,
}

const KINDS: [Kind; 3] = [Kind::Program, Kind::Text, Kind::Sheet];

impl Kind {
    fn name(self) -> &'static str {
        match self {
            Kind::Program => "program",
            Kind::Text => "text",
            Kind::Sheet => "sheet",
        }
    }

    fn case(self, seed: u64, number: u64) -> Box<dyn Case> {
        let rng = Rng::of_case(seed, self as u64, number);
        match self {
            Kind::Program => Box::new(histories::of_program(rng, number)),
            Kind::Text => Box::new(texts::of_text(rng)),
            Kind::Sheet => Box::new(histories::of_sheets(rng, number)),
        }
    }

    /// How many cases of the kind there are where so many programs are asked for: a case of sheets has several.
    fn cases(self, count: u64) -> u64 {
        match self {
            Kind::Sheet => count.div_ceil(histories::SHEETS as u64),
            _ => count,
        }
    }
}

/// Makes one case. A panic counts as a difference: the peer is not to do that either.
fn compare(kind: Kind, seed: u64, number: u64, coverage: &mut Coverage) -> Option<(String, String)> {
    match catch_unwind(AssertUnwindSafe(|| kind.case(seed, number))) {
        Ok(case) => {
            case.count(coverage);
            case.difference().map(|difference| (difference, case.describe()))
        }
        Err(_) => Some(("it panicked".into(), String::new())),
    }
}

fn compare_all(seed: u64, count: u64) -> ExitCode {
    println!("seed {seed}, {count} programs and texts");
    let mut coverage = Coverage::default();
    let mut differ = 0;
    for kind in KINDS {
        for number in 0..kind.cases(count) {
            let Some((difference, description)) = compare(kind, seed, number, &mut coverage) else { continue };
            differ += 1;
            if differ <= DESCRIBED {
                println!("\n{} {number} of seed {seed} DIFFERS: {difference}\n{description}", kind.name());
                println!("again: compare {seed} only {} {number}\n", kind.name());
            }
        }
    }
    coverage.print();
    println!("{count} programs, {count} texts, {} sheets compared, {differ} differ", coverage.sheets);
    ExitCode::from((differ > 0) as u8)
}

fn show_one(seed: u64, kind: Kind, number: u64) -> ExitCode {
    let case = kind.case(seed, number);
    println!("{} {number} of seed {seed}\n{}", kind.name(), case.describe());
    match case.difference() {
        Some(difference) => {
            println!("DIFFERS: {difference}");
            ExitCode::from(1)
        }
        None => {
            println!("no difference");
            ExitCode::SUCCESS
        }
    }
}

fn seed_of_clock() -> u64 {
    SystemTime::now().duration_since(UNIX_EPOCH).map_or(1, |time| time.as_nanos() as u64 % 1_000_000_000)
}

fn main() -> ExitCode {
    let arguments: Vec<String> = std::env::args().skip(1).collect();
    let fields: Vec<&str> = arguments.iter().map(String::as_str).collect();
    let number = |field: &str| field.parse::<u64>().ok();
    let kind = |field: &str| KINDS.into_iter().find(|kind| kind.name() == field);
    let chosen = match fields[..] {
        [] => Some(compare_all(seed_of_clock(), 100_000)),
        [seed] => number(seed).map(|seed| compare_all(seed, 100_000)),
        [seed, count] => number(seed).zip(number(count)).map(|(seed, count)| compare_all(seed, count)),
        [seed, "only", name, case] => {
            number(seed).zip(kind(name)).zip(number(case)).map(|((seed, kind), case)| show_one(seed, kind, case))
        }
        _ => None,
    };
    chosen.unwrap_or_else(|| {
        eprintln!("compare [SEED [COUNT]]  or  compare SEED only program|text|sheet NUMBER");
        ExitCode::from(2)
    })
}
