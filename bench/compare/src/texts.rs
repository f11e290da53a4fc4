//! Random texts for the assembler and random words for the lister.

use crate::cases::{refusal_text, shown, unequal, Case};
use crate::mirror::{counted, refused};
use crate::mutations::{garbage, mutate};
use crate::report::Coverage;
use crate::rng::Rng;
use crate::words::{any_exact, any_valid, bytes_of, OPERATIONS};
use proved::Reply;

const MOST_LINES: usize = 3_328;
const MOST_BYTES: usize = 65_536;
const MOST_WORDS: usize = 13_312;
const LINE: usize = 19;

const TOKENS: &[&str] =
    &["ADD", "MOVI", "HALT", "IN", "WORD", "READ", "LOADW", "r1", "r63", "zz", "pc", "a0", "t21", "s19", "0", "7", "31"];

/// Each register's alias.
fn alias(register: usize) -> String {
    let rows = [(1, "v", 2), (3, "a", 7), (10, "s", 20), (30, "t", 22), (55, "k", 2), (57, "at", 2)];
    for (first, letter, count) in rows {
        if (first..first + count).contains(&register) {
            return format!("{letter}{}", register - first);
        }
    }
    match register {
        0 => "zz",
        52 => "x",
        53 => "y",
        54 => "z",
        59 => "ra",
        60 => "fp",
        61 => "gp",
        62 => "sp",
        _ => "pc",
    }
    .into()
}

fn operand(rng: &mut Rng, letter: char) -> String {
    let up_to = |rng: &mut Rng, limit: usize| {
        let any = rng.between(0, limit);
        rng.pick(&[0, 1, limit, any, any]).to_string()
    };
    match letter {
        'I' => up_to(rng, 65_535),
        'S' => up_to(rng, 31),
        'N' => up_to(rng, 4_294_967_295),
        _ => {
            let register = rng.below(64);
            if rng.one_in(2) { alias(register) } else { format!("r{register}") }
        }
    }
}

fn line(rng: &mut Rng) -> String {
    let (_, name, operands) = if rng.one_in(8) { (0, "WORD", "N") } else { rng.pick(&OPERATIONS) };
    let operands: String = operands.chars().map(|letter| format!("\t{}", operand(rng, letter))).collect();
    format!("{name}{operands}\n")
}

fn in_form(rng: &mut Rng, lines: usize) -> Vec<u8> {
    (0..lines).flat_map(|_| line(rng).into_bytes()).collect()
}

fn text(rng: &mut Rng) -> Vec<u8> {
    let lines = rng.between(1, 12);
    match rng.weighted(&[300, 500, 200, 10, 2, 3]) {
        0 => in_form(rng, lines),
        1 => {
            let mut text = in_form(rng, lines);
            for _ in 0..rng.pick(&[1, 1, 1, 2]) {
                mutate(rng, &mut text);
            }
            text
        }
        2 => garbage(rng, TOKENS),
        3 => vec![],
        4 => many_lines(rng),
        _ => many_bytes(rng),
    }
}

/// About as many lines as a text can have.
fn many_lines(rng: &mut Rng) -> Vec<u8> {
    let lines = rng.pick(&[MOST_LINES - 1, MOST_LINES, MOST_LINES, MOST_LINES + 1]);
    let mut text = in_form(rng, lines);
    match rng.below(3) {
        0 => mutate(rng, &mut text),
        1 => text.extend(b"HALT"),
        _ => {}
    }
    text
}

/// About as many bytes as a text can have, by a field that is too long: nothing in form has so many.
fn many_bytes(rng: &mut Rng) -> Vec<u8> {
    let lines = rng.pick(&[0, 1, 100, MOST_LINES - 1]);
    let bytes = rng.pick(&[MOST_BYTES, MOST_BYTES, MOST_BYTES + 1, MOST_BYTES + 1, MOST_BYTES + 300]);
    let mut text = in_form(rng, lines);
    text.extend(b"WORD\t");
    text.resize(bytes - 1, rng.pick(b"99\t"));
    text.push(b'\n');
    text
}

/// Words for the lister: exact encodings, one bit away from such, with unused bits set, or any.
fn words(rng: &mut Rng) -> Vec<u8> {
    let count = if rng.one_in(200) { rng.between(MOST_WORDS / 4 - 1, MOST_WORDS / 4 + 1) } else { rng.below(12) };
    let mut bytes = vec![];
    for _ in 0..count {
        let word = match rng.below(4) {
            0 => any_exact(rng),
            1 => any_exact(rng) ^ 1 << rng.below(32),
            2 => any_valid(rng),
            _ => rng.word(),
        };
        bytes.extend(bytes_of(&[word]));
    }
    if rng.one_in(6) {
        let more = rng.between(1, 3);
        bytes.extend(rng.bytes(more));
    }
    bytes
}

/// Room for so many bytes: exactly, one short, none, or plenty.
fn room(rng: &mut Rng, needed: usize) -> usize {
    let plenty = needed + rng.between(1, 100);
    rng.pick(&[needed, needed, needed.saturating_sub(1), 0, plenty, plenty])
}

#[derive(Clone, Copy, PartialEq)]
pub enum Tool {
    Assemble,
    List,
}

/// One call of the assembler or the lister by both, on equal buffers.
struct Use {
    tool: Tool,
    input: Vec<u8>,
    room: usize,
    expected: Reply,
    actual: Reply,
    /// The whole buffers afterwards.
    left_by_peer: Vec<u8>,
    left: Vec<u8>,
}

impl Use {
    fn new(rng: &mut Rng, tool: Tool, input: Vec<u8>, room: usize) -> Use {
        let mut left = rng.bytes(room);
        let mut left_by_peer = left.clone();
        let answer = match tool {
            Tool::Assemble => peer::text::assemble(&input, room),
            Tool::List => peer::text::list(&input, room),
        };
        let expected = match answer {
            Ok(bytes) => {
                left_by_peer[..bytes.len()].copy_from_slice(&bytes);
                counted(bytes.len())
            }
            Err(refusal) => refused(refusal),
        };
        let actual = match tool {
            Tool::Assemble => proved::assemble(&input, &mut left),
            Tool::List => proved::list(&input, &mut left),
        };
        Use { tool, input, room, expected, actual, left_by_peer, left }
    }

    fn accepted(&self) -> bool {
        self.expected.refusal == 0
    }

    /// What the proved one wrote; nothing if it counts more than there is room.
    fn written(&self) -> &[u8] {
        self.left.get(..self.actual.count).unwrap_or(&[])
    }

    fn difference(&self) -> Option<String> {
        if self.expected != self.actual {
            return Some(format!("reply: peer {:?}, proved {:?}", self.expected, self.actual));
        }
        unequal("buffer", &self.left_by_peer, &self.left)
    }

    fn describe(&self) -> String {
        let tool = if self.tool == Tool::Assemble { "assemble" } else { "list" };
        let answer = |reply: &Reply, left: &[u8]| match reply.refusal {
            0 => format!("{} {}", reply.count, shown(left.get(..reply.count).unwrap_or(left))),
            _ => refusal_text(reply),
        };
        let (peer, proved) = (answer(&self.expected, &self.left_by_peer), answer(&self.actual, &self.left));
        format!("{tool} {} with room for {}\n  peer:   {peer}\n  proved: {proved}\n", shown(&self.input), self.room)
    }
}

/// A text assembled, its words listed and the listing assembled again; and other words listed.
pub struct Text {
    uses: Vec<Use>,
    /// Whether the listing gave the same words again; there may be none.
    returned: bool,
}

pub fn of_text(mut rng: Rng) -> Text {
    let rng = &mut rng;
    let text = text(rng);
    let needed = 4 * text.iter().filter(|byte| **byte == b'\n').count();
    let space = room(rng, needed);
    let first = Use::new(rng, Tool::Assemble, text, space);
    let mut uses = vec![];
    let mut returned = true;
    if first.accepted() {
        let words = first.written().to_vec();
        let listed = Use::new(rng, Tool::List, words.clone(), LINE * words.len() / 4);
        let again = Use::new(rng, Tool::Assemble, listed.written().to_vec(), words.len());
        returned = again.written() == words;
        uses.extend([listed, again]);
    }
    uses.insert(0, first);
    let words = words(rng);
    let space = room(rng, LINE * (words.len() / 4));
    uses.push(Use::new(rng, Tool::List, words, space));
    Text { uses, returned }
}

impl Case for Text {
    fn difference(&self) -> Option<String> {
        let returned = if self.returned { None } else { Some("the listing does not give the words again".into()) };
        self.uses.iter().find_map(Use::difference).or(returned)
    }

    fn describe(&self) -> String {
        self.uses.iter().map(Use::describe).collect()
    }

    fn count(&self, coverage: &mut Coverage) {
        for one in &self.uses {
            coverage.count_text(one.tool, &one.expected);
        }
    }
}
