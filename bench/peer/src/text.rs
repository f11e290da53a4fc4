//! Texts: the assembler, the lister and the sheet reader.

use crate::machine::{ending_number, Refusal};

#[derive(Clone, Copy, PartialEq, Eq, Debug)]
pub enum Cause {
    Spelling,
    Digits,
    Size,
    Missing,
    Extra,
    End,
}

#[derive(Clone, Copy, PartialEq, Eq, Debug)]
pub struct Fault {
    pub line: usize,
    pub field: usize,
    pub cause: Cause,
}

const OPERATIONS: [(&str, u32, &str); 17] = [
    ("LOADB", 0, "abc"),
    ("LOADH", 1, "abc"),
    ("LOADW", 2, "abc"),
    ("STOREB", 4, "abc"),
    ("STOREH", 5, "abc"),
    ("STOREW", 6, "abc"),
    ("ADD", 8, "abc"),
    ("MUL", 9, "abc"),
    ("DIV", 10, "abc"),
    ("NOR", 11, "abc"),
    ("MOVI", 16, "ais"),
    ("CMOV", 18, "abc"),
    ("IN", 24, "a"),
    ("OUT", 25, "a"),
    ("READ", 26, "ab"),
    ("WRITE", 27, "ab"),
    ("HALT", 31, ""),
];

#[rustfmt::skip]
const ALIASES: [&str; 64] = [
    "zz", "v0", "v1", "a0", "a1", "a2", "a3", "a4", "a5", "a6",
    "s0", "s1", "s2", "s3", "s4", "s5", "s6", "s7", "s8", "s9",
    "s10", "s11", "s12", "s13", "s14", "s15", "s16", "s17", "s18", "s19",
    "t0", "t1", "t2", "t3", "t4", "t5", "t6", "t7", "t8", "t9", "t10",
    "t11", "t12", "t13", "t14", "t15", "t16", "t17", "t18", "t19", "t20", "t21",
    "x", "y", "z", "k0", "k1", "at0", "at1", "ra", "fp", "gp", "sp", "pc",
];

/// Where an operand's lowest bit stands, and its largest number; a register has none written out.
fn place(operand: char) -> (u32, Option<u64>) {
    match operand {
        'a' => (21, None),
        'b' => (15, None),
        'c' => (9, None),
        'i' => (5, Some(65_535)),
        _ => (0, Some(31)),
    }
}

fn number(field: &[u8], limit: u64) -> Result<u32, Cause> {
    let numeral = !field.is_empty() && field.iter().all(u8::is_ascii_digit) && (field.len() == 1 || field[0] != b'0');
    if !numeral {
        return Err(Cause::Digits);
    }
    match std::str::from_utf8(field).unwrap().parse::<u64>() {
        Ok(n) if n <= limit => Ok(n as u32),
        _ => Err(Cause::Size),
    }
}

fn register(field: &[u8]) -> Result<u32, Cause> {
    if let Some(r) = ALIASES.iter().position(|alias| alias.as_bytes() == field) {
        return Ok(r as u32);
    }
    match field {
        [b'r', digits @ ..] => number(digits, 63).map_err(|_| Cause::Spelling),
        _ => Err(Cause::Spelling),
    }
}

/// Reads every line of a text; a fault is the first line's, END before that line's fields.
fn each_line<T>(text: &[u8], read: impl Fn(&[&[u8]]) -> Result<T, (usize, Cause)>) -> Result<Vec<T>, Fault> {
    let mut values = Vec::new();
    for (k, piece) in text.split_inclusive(|c| *c == b'\n').enumerate() {
        let line = k + 1;
        let Some(body) = piece.strip_suffix(b"\n") else {
            return Err(Fault { line, field: 0, cause: Cause::End });
        };
        let fields: Vec<&[u8]> = body.split(|c| *c == b'\t').collect();
        values.push(read(&fields).map_err(|(field, cause)| Fault { line, field, cause })?);
    }
    Ok(values)
}

fn word(fields: &[&[u8]]) -> Result<u32, (usize, Cause)> {
    let operation = OPERATIONS.iter().find(|(name, _, _)| name.as_bytes() == fields[0]);
    let (mut word, operands): (u32, Vec<(u32, Option<u64>)>) = match operation {
        Some((_, opcode, operands)) => (opcode << 27, operands.chars().map(place).collect()),
        None if fields[0] == b"WORD" => (0, vec![(0, Some(u32::MAX as u64))]),
        None => return Err((1, Cause::Spelling)),
    };
    for (k, (at, limit)) in operands.iter().enumerate() {
        let field = fields.get(k + 1).ok_or((k + 2, Cause::Missing))?;
        let value = match limit {
            None => register(field),
            Some(limit) => number(field, *limit),
        };
        word |= value.map_err(|cause| (k + 2, cause))? << at;
    }
    if fields.len() > operands.len() + 1 {
        return Err((operands.len() + 2, Cause::Extra));
    }
    Ok(word)
}

/// The words of a text, four bytes each, for a buffer of so many bytes.
pub fn assemble(text: &[u8], room: usize) -> Result<Vec<u8>, Refusal> {
    if text.len() > 65_536 || text.iter().filter(|c| **c == b'\n').count() > 3_328 {
        return Err(Refusal { number: 7, fault: None });
    }
    let words = each_line(text, word).map_err(|fault| Refusal { number: 8, fault: Some(fault) })?;
    if room < 4 * words.len() {
        return Err(Refusal { number: 9, fault: None });
    }
    Ok(words.iter().flat_map(|w| w.to_be_bytes()).collect())
}

fn line(word: u32) -> String {
    if let Some((name, opcode, operands)) = OPERATIONS.iter().find(|(_, opcode, _)| *opcode == word >> 27) {
        let mut text = name.to_string();
        let mut again = opcode << 27;
        for (at, limit) in operands.chars().map(place) {
            let value = word >> at & limit.unwrap_or(63) as u32;
            again |= value << at;
            text += "\t";
            match limit {
                None => text += ALIASES[value as usize],
                Some(_) => text += &value.to_string(),
            }
        }
        if again == word {
            return text;
        }
    }
    format!("WORD\t{word}")
}

/// The text of words, for a buffer of so many bytes.
pub fn list(words: &[u8], room: usize) -> Result<Vec<u8>, Refusal> {
    if words.len() > 13_312 {
        return Err(Refusal { number: 7, fault: None });
    }
    if words.len() % 4 != 0 {
        return Err(Refusal { number: 10, fault: None });
    }
    if room < 19 * (words.len() / 4) {
        return Err(Refusal { number: 9, fault: None });
    }
    let lines = words.chunks_exact(4).map(|c| line(u32::from_be_bytes(c.try_into().unwrap())) + "\n");
    Ok(lines.collect::<String>().into_bytes())
}

/// What a line of a sheet looks at.
#[derive(Clone, Copy)]
pub enum Place {
    Register(u32),
    Memory(u32),
    Disk(u32, u32),
    Ending,
}

#[derive(Clone, Copy)]
pub struct Mark {
    pub place: Place,
    pub value: u32,
    pub points: u32,
}

fn mark(fields: &[&[u8]]) -> Result<Mark, (usize, Cause)> {
    let up_to = |k: usize, limit: u64| -> Result<u32, (usize, Cause)> {
        let field = fields.get(k - 1).ok_or((k, Cause::Missing))?;
        number(field, limit).map_err(|cause| (k, cause))
    };
    let points = |k: usize| match up_to(k, 1_000)? {
        0 => Err((k, Cause::Size)),
        _ if fields.len() > k => Err((k + 1, Cause::Extra)),
        n => Ok(n),
    };
    let mark = |place, value, points| Mark { place, value, points };
    match fields[0] {
        b"R" => Ok(mark(Place::Register(up_to(2, 63)?), up_to(3, u32::MAX as u64)?, points(4)?)),
        b"M" => Ok(mark(Place::Memory(up_to(2, 1_048_575)?), up_to(3, 255)?, points(4)?)),
        b"D" => Ok(mark(Place::Disk(up_to(2, 65_535)?, up_to(3, 511)?), up_to(4, 255)?, points(5)?)),
        b"E" => {
            let name = fields.get(1).ok_or((2, Cause::Missing))?;
            let value = ending_number(name).ok_or((2, Cause::Spelling))?;
            Ok(mark(Place::Ending, value, points(3)?))
        }
        _ => Err((1, Cause::Spelling)),
    }
}

/// The marks of a sheet, all of them in form.
pub fn marks(sheet: &[u8]) -> Result<Vec<Mark>, Fault> {
    each_line(sheet, mark)
}
