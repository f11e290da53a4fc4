//! Random sheets for a station in a given state, so that points are earned.

use crate::mirror::{Mirror, STOPS};
use crate::mutations::{garbage, mutate};
use crate::rng::Rng;

const TOKENS: &[&str] = &["R", "M", "D", "E", "R", "M", "D", "E", "0", "1", "5", "1000", "HALT", "FETCH", "CODE", "SPENT", "r", "RM"];
const LONGEST: usize = 65_536;

/// A sheet for what the peer holds in so many bytes of memory.
pub fn sheet(rng: &mut Rng, mirror: &Mirror, memory: usize) -> Vec<u8> {
    match rng.weighted(&[80, 80, 20, 4, 1]) {
        0 => in_form(rng, mirror, memory),
        1 => {
            let mut sheet = in_form(rng, mirror, memory);
            for _ in 0..rng.pick(&[1, 1, 1, 2]) {
                mutate(rng, &mut sheet);
            }
            sheet
        }
        2 => garbage(rng, TOKENS),
        3 => vec![],
        _ => long(rng),
    }
}

/// About as long as a sheet can be: in form and exactly so long, a byte longer, or far too long.
fn long(rng: &mut Rng) -> Vec<u8> {
    let mut sheet = b"R\t0\t0\t1\n".repeat(LONGEST / 8);
    match rng.below(4) {
        0 => {}
        1 => sheet[LONGEST - 2] = b'0',
        2 => sheet.push(b'\n'),
        _ => sheet.extend(rng.bytes(3_000)),
    }
    sheet
}

fn in_form(rng: &mut Rng, mirror: &Mirror, memory: usize) -> Vec<u8> {
    let lines = if rng.one_in(40) { rng.between(50, 200) } else { rng.between(1, 6) };
    (0..lines).flat_map(|_| line(rng, mirror, memory).into_bytes()).collect()
}

fn line(rng: &mut Rng, mirror: &Mirror, memory: usize) -> String {
    let random_points = rng.between(1, 1000);
    let points = rng.pick(&[1, 2, 10, 999, 1000, random_points]);
    match rng.below(4) {
        0 => {
            let register = rng.below(64);
            let value = value(rng, Some(mirror.station.registers[register]), u32::MAX);
            format!("R\t{register}\t{value}\t{points}\n")
        }
        1 => {
            let address = address(rng, memory);
            // Past the end, the value of a byte that is there but is not the station's.
            let value = value(rng, mirror.memory.get(address).map(|b| *b as u32), 255);
            format!("M\t{address}\t{value}\t{points}\n")
        }
        2 => {
            let (sector, inside) = (sector(rng, mirror.disk.sectors.len()), rng.below(512));
            let offset = rng.pick(&[0, 511, inside]);
            let value = value(rng, mirror.disk.sectors.get(sector).map(|block| block[offset] as u32), 255);
            format!("D\t{sector}\t{offset}\t{value}\t{points}\n")
        }
        _ => {
            let other = rng.pick(&STOPS[1..8]);
            let name = mirror.ending.filter(|_| !rng.one_in(3)).unwrap_or(other).name();
            format!("E\t{name}\t{points}\n")
        }
    }
}

/// What is there, mostly; else a number that may stand in the place, the limit among them.
fn value(rng: &mut Rng, there: Option<u32>, limit: u32) -> u32 {
    match there {
        Some(value) if !rng.one_in(4) => value,
        Some(value) if rng.one_in(2) && value < limit => value + 1,
        _ => rng.pick(&[0, limit, limit / 3]),
    }
}

/// An address that is there, mostly; else at the end of memory, or anywhere up to the limit.
fn address(rng: &mut Rng, length: usize) -> usize {
    let (inside, anywhere) = (rng.below(length.clamp(1, 1_048_576)), rng.below(1_048_576));
    rng.pick(&[inside, inside, inside, inside, length.saturating_sub(1), length, 1_048_575, anywhere]).min(1_048_575)
}

fn sector(rng: &mut Rng, count: usize) -> usize {
    let inside = rng.below(count.max(1));
    rng.pick(&[inside, inside, inside, inside, count.saturating_sub(1), count, 65_535]).min(65_535)
}
