//! The words of the instructions: what the generators of programs and of texts both need.

use crate::rng::Rng;

pub const LOADB: u32 = 0;
pub const STOREB: u32 = 4;
pub const ADD: u32 = 8;
pub const MUL: u32 = 9;
pub const DIV: u32 = 10;
pub const NOR: u32 = 11;
pub const MOVI: u32 = 16;
pub const CMOV: u32 = 18;
pub const IN: u32 = 24;
pub const OUT: u32 = 25;
pub const READ: u32 = 26;
pub const WRITE: u32 = 27;
pub const HALT: u32 = 31;

/// Each operation's opcode, name and operands: a letter for each, as in the formats.
pub const OPERATIONS: [(u32, &str, &str); 17] = [
    (LOADB, "LOADB", "ABC"),
    (1, "LOADH", "ABC"),
    (2, "LOADW", "ABC"),
    (STOREB, "STOREB", "ABC"),
    (5, "STOREH", "ABC"),
    (6, "STOREW", "ABC"),
    (ADD, "ADD", "ABC"),
    (MUL, "MUL", "ABC"),
    (DIV, "DIV", "ABC"),
    (NOR, "NOR", "ABC"),
    (MOVI, "MOVI", "RIS"),
    (CMOV, "CMOV", "ABC"),
    (IN, "IN", "A"),
    (OUT, "OUT", "A"),
    (READ, "READ", "AB"),
    (WRITE, "WRITE", "AB"),
    (HALT, "HALT", ""),
];

/// A word in format R; an operand that the operation lacks is 0.
pub fn three(opcode: u32, a: u32, b: u32, c: u32) -> u32 {
    opcode << 27 | a << 21 | b << 15 | c << 9
}

pub fn movi(register: u32, number: u32, shift: u32) -> u32 {
    MOVI << 27 | register << 21 | number << 5 | shift
}

/// The bits that an operation's operands use.
fn used(operands: &str) -> u32 {
    match operands {
        "ABC" => 0x07ff_fe00,
        "RIS" => 0x07ff_ffff,
        "AB" => 0x07ff_8000,
        "A" => 0x07e0_0000,
        _ => 0,
    }
}

/// The exact encoding of any instruction.
pub fn any_exact(rng: &mut Rng) -> u32 {
    let (opcode, _, operands) = rng.pick(&OPERATIONS);
    opcode << 27 | rng.word() & used(operands)
}

/// The same instruction, with whatever in the bits that no operand uses.
pub fn smudged(rng: &mut Rng, word: u32) -> u32 {
    match OPERATIONS.iter().find(|(opcode, _, _)| *opcode == word >> 27) {
        Some((_, _, operands)) => word | rng.word() >> 5 & !used(operands),
        None => word,
    }
}

/// Any instruction, with whatever in the bits that no operand uses.
pub fn any_valid(rng: &mut Rng) -> u32 {
    let (opcode, _, _) = rng.pick(&OPERATIONS);
    opcode << 27 | rng.word() >> 5
}

pub fn bytes_of(words: &[u32]) -> Vec<u8> {
    words.iter().flat_map(|word| word.to_be_bytes()).collect()
}
