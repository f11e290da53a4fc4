//! One step away from a text in form: what a slip of the pen does to lines and fields.

use crate::rng::Rng;

/// Fields that are wrong in most places, or just at a limit.
const AWKWARD: &[&str] = &[
    "", "0", "00", "01", "007", "1", "31", "32", "63", "64", "255", "256", "511", "512", "999", "1000", "1001", "65535", "65536",
    "1048575", "1048576", "4294967295", "4294967296", "4294967297", "18446744073709551615", "18446744073709551616",
    "18446744073709551617", "340282366920938463463374607431768211456", "99999999999999999999999999999999999999999999999999", "-1", "+1",
    "1 ", " 1", "1e3", "0x1", "12a", "a12", "r0", "r63", "r64", "r00", "r01", "r", "R1", "r4294967296", "zz", "ZZ", "pc", "a7", "s20",
    "t22", "v2", "k2", "at2", "x0", "HALT", "halt", "Halt", "HALT ", "WORD", "word", "FETCH", "KEEP", "E",
];

/// Where the fields of a text stand: a field ends at a tab or a newline.
fn fields(text: &[u8]) -> Vec<(usize, usize)> {
    let mut places = vec![];
    let mut from = 0;
    for (k, byte) in text.iter().enumerate() {
        if matches!(byte, b'\t' | b'\n') {
            places.push((from, k));
            from = k + 1;
        }
    }
    places
}

fn replace(text: &mut Vec<u8>, (from, to): (usize, usize), by: &[u8]) {
    text.splice(from..to, by.iter().copied());
}

fn any_byte(rng: &mut Rng) -> u8 {
    match rng.below(3) {
        0 => rng.byte(),
        1 => rng.pick(b"\t\n 0\r"),
        _ => rng.between(32, 126) as u8,
    }
}

/// Changes one thing.
pub fn mutate(rng: &mut Rng, text: &mut Vec<u8>) {
    let places = fields(text);
    if places.is_empty() {
        return text.insert(0, any_byte(rng));
    }
    let at = rng.below(text.len());
    let field = any_field(rng, text, &places);
    match rng.below(12) {
        0 => text[at] = any_byte(rng),
        1 => text.insert(at, any_byte(rng)),
        2 => drop(text.remove(at)),
        3 => drop(text.pop()),
        4 | 5 => replace(text, field, rng.pick(AWKWARD).as_bytes()),
        6 => change_case(&mut text[field.0..field.1]),
        7 => text.insert(field.0, b'0'),
        8 => text.insert(field.1, b'\t'),
        9 => double(text, field),
        10 => drop_field(text, field),
        _ => one_more(text, field),
    }
}

/// Any field, or any number: numbers are few in texts, and have limits to pass.
fn any_field(rng: &mut Rng, text: &[u8], places: &[(usize, usize)]) -> (usize, usize) {
    let number = |place: &(usize, usize)| place.0 < place.1 && text[place.0..place.1].iter().all(u8::is_ascii_digit);
    let numbers: Vec<(usize, usize)> = places.iter().copied().filter(number).collect();
    let any = numbers.is_empty() || rng.one_in(2);
    rng.pick(if any { places } else { &numbers })
}

fn change_case(field: &mut [u8]) {
    for byte in field {
        *byte ^= if byte.is_ascii_alphabetic() { 32 } else { 0 };
    }
}

fn double(text: &mut Vec<u8>, (from, to): (usize, usize)) {
    let mut again = text[from..to].to_vec();
    again.insert(0, b'\t');
    replace(text, (to, to), &again);
}

/// A field goes with the tab in front of it, or else with the one behind.
fn drop_field(text: &mut Vec<u8>, (from, to): (usize, usize)) {
    if from > 0 && text[from - 1] == b'\t' {
        replace(text, (from - 1, to), b"");
    } else if text[to] == b'\t' {
        replace(text, (from, to + 1), b"");
    } else {
        replace(text, (from, to), b"");
    }
}

/// A number grows by one, so that one at its limit passes it; what is no number gets a digit more.
fn one_more(text: &mut Vec<u8>, (from, to): (usize, usize)) {
    let number = std::str::from_utf8(&text[from..to]).ok().and_then(|s| s.parse::<u64>().ok());
    match number.and_then(|n| n.checked_add(1)) {
        Some(n) => replace(text, (from, to), n.to_string().as_bytes()),
        None => text.insert(to, b'0'),
    }
}

/// Bytes without form: any, or tokens of a form in any order.
pub fn garbage(rng: &mut Rng, tokens: &[&str]) -> Vec<u8> {
    let length = rng.between(1, 60);
    if rng.one_in(3) {
        return (0..length).map(|_| any_byte(rng)).collect();
    }
    let mut text = vec![];
    for _ in 0..length.div_ceil(2) {
        let token = if rng.one_in(4) { rng.pick(AWKWARD) } else { rng.pick(tokens) };
        text.extend(token.as_bytes());
        text.push(rng.pick(b"\t\t\n"));
    }
    text
}
