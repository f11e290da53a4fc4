//! A case: what was done, what the peer answered and what the proved library did.

use crate::histories::Setting;
use crate::mirror::{Mirror, CAUSES, STOPS};
use crate::report::Coverage;
use proved::{Call, Hall, Kind, Reply};

/// A run that is granted more steps than this stops before them.
pub const SOON: u32 = 20_000;

/// The longest program in bytes: as many sectors as one fetches of itself.
const PROGRAM: usize = 5 * 512;

pub trait Case {
    /// The first thing that differs.
    fn difference(&self) -> Option<String>;
    /// All that one needs to see what happened.
    fn describe(&self) -> String;
    fn count(&self, coverage: &mut Coverage);
}

/// Bytes for a reader, cut where they are many.
pub fn shown(bytes: &[u8]) -> String {
    let more = if bytes.len() > 600 { format!("... ({} bytes)", bytes.len()) } else { String::new() };
    format!("\"{}\"{more}", bytes[..bytes.len().min(600)].escape_ascii())
}

/// The first place where two buffers differ, as a sentence.
pub fn unequal(what: &str, peer: &[u8], proved: &[u8]) -> Option<String> {
    if peer == proved {
        return None;
    }
    let at = peer.iter().zip(proved).position(|(a, b)| a != b).unwrap_or(peer.len().min(proved.len()));
    Some(format!("{what} at {at}: peer {:?}, proved {:?}", peer.get(at), proved.get(at)))
}

/// The calls of a history with the peer's replies, and what the proved station made of the same buffers.
pub struct History {
    setting: Setting,
    /// What calls feed, and the sheets.
    pub data: Vec<u8>,
    /// What the calls write into, as it is before the first.
    pub out: Vec<u8>,
    pub calls: Vec<Call>,
    pub expected: Vec<Reply>,
    /// How often an operation was seen, by opcode; only in histories that are traced.
    pub opcodes: [u64; 32],
    /// Each ending that a run came to, and the opcode at r63 then.
    pub endings: Vec<(u32, Option<u32>)>,
    actual: Vec<Reply>,
    made: usize,
    difference: Option<String>,
}

impl History {
    pub fn new(setting: Setting) -> History {
        let (data, out, calls, expected, actual) = (vec![], vec![], vec![], vec![], vec![]);
        let (opcodes, endings) = ([0; 32], vec![]);
        History { setting, data, out, calls, expected, opcodes, endings, actual, made: 0, difference: None }
    }

    /// Has the proved station make the calls, and compares what it did with what the peer left.
    pub fn compare_with(mut self, mirror: Mirror) -> History {
        // A run with the largest grant might not come back if the two differ, so a bounded one, which is to be answered
        // in the same way, goes first.
        let calls = self.calls.clone();
        let unbounded = |call: &Call| call.kind == Kind::Run && call.number > SOON;
        if calls.iter().any(unbounded) {
            let bounded = |call: &Call| if unbounded(call) { Call { number: SOON, ..*call } } else { *call };
            self.serve(&calls.iter().map(bounded).collect::<Vec<Call>>(), &mirror);
        }
        if self.difference.is_none() {
            self.serve(&calls, &mirror);
        }
        self
    }

    /// Makes calls on buffers that are equal to the peer's before the first call.
    fn serve(&mut self, calls: &[Call], mirror: &Mirror) {
        let setting = &self.setting;
        let (mut memory, mut paper, mut out) = (setting.memory.clone(), setting.paper.clone(), self.out.clone());
        let read_only = [setting.disk.clone(), setting.text.clone(), self.data.clone()];
        self.actual = vec![Reply::default(); calls.len()];
        let mut hall = Hall {
            overlaid: setting.overlaid,
            scripted: setting.scripted,
            disk: &setting.disk,
            text: &setting.text,
            paper: &mut paper,
            memory: &mut memory,
            data: &self.data,
            out: &mut out,
        };
        self.made = proved::serve(&mut hall, calls, &mut self.actual);
        let expected_paper = self.expected_paper(mirror);
        self.difference = self
            .replies_differ()
            .or_else(|| unequal("output", &mirror.out, &out))
            .or_else(|| unequal("memory", &mirror.memory, &memory))
            .or_else(|| unequal("paper", &expected_paper, &paper))
            .or_else(|| unequal("the lent disk", &read_only[0], &setting.disk))
            .or_else(|| unequal("the lent text", &read_only[1], &setting.text))
            .or_else(|| unequal("the lent data", &read_only[2], &self.data));
    }

    /// A script's paper holds all that was ever printed; a keyboard has its own.
    fn expected_paper(&self, mirror: &Mirror) -> Vec<u8> {
        let mut paper = self.setting.paper.clone();
        if self.setting.scripted {
            paper[..mirror.collected.len()].copy_from_slice(&mirror.collected);
        }
        paper
    }

    fn replies_differ(&self) -> Option<String> {
        if self.made != self.calls.len() {
            return Some(format!("only {} of {} calls were made", self.made, self.calls.len()));
        }
        let at = (0..self.made).find(|k| self.expected[*k] != self.actual[*k])?;
        Some(format!("reply to call {at}: peer {:?}, proved {:?}", self.expected[at], self.actual[at]))
    }

    fn call_line(&self, at: usize) -> String {
        let call = &self.calls[at];
        let what = match call.kind {
            Kind::Start => format!("start in {} bytes", call.memory),
            Kind::Run => format!("run in {} bytes for {}", call.memory, call.number),
            Kind::Feed => format!("feed {}", shown(&self.data[call.from..call.to])),
            Kind::Collect => format!("collect to {} bytes at {}", call.to - call.from, call.from),
            Kind::Tally => format!("tally in {} bytes by {}", call.memory, shown(&self.data[call.from..call.to])),
            Kind::Registers => format!("registers to {}", call.from),
            Kind::Sector => format!("sector {} to {}", call.number, call.from),
        };
        let (peer, proved) = (reply_text(call.kind, &self.expected[at]), reply_text(call.kind, &self.actual[at]));
        let mark = if self.expected[at] == self.actual[at] { "" } else { "   <-- differs" };
        format!("{at:>4}  {what}\n        peer: {peer}; proved: {proved}{mark}\n")
    }
}

/// The words as the peer lists them, with their addresses; of equal ones in a row only the first.
fn listing(words: &[u8]) -> String {
    let lines = peer::text::list(words, 19 * words.len()).unwrap();
    let lines: Vec<&str> = std::str::from_utf8(&lines).unwrap().lines().collect();
    let fresh = (0..lines.len()).filter(|k| *k == 0 || lines[*k] != lines[*k - 1]);
    fresh.map(|k| format!("{:>6}  {}\n", 4 * k, lines[k])).collect()
}

fn reply_text(kind: Kind, reply: &Reply) -> String {
    match (reply.refusal, kind) {
        (0, Kind::Run) => match STOPS.get(reply.reason as usize) {
            Some(stop) => format!("{} {}", reply.count, stop.name()),
            None => format!("{} and the unknown stop {}", reply.count, reply.reason),
        },
        (0, _) => reply.count.to_string(),
        _ => refusal_text(reply),
    }
}

pub fn refusal_text(reply: &Reply) -> String {
    match (reply.reason as usize).checked_sub(1).and_then(|k| CAUSES.get(k)) {
        Some(cause) => format!("refused {}, line {}, field {}, {cause:?}", reply.refusal, reply.line, reply.field),
        None => format!("refused {}", reply.refusal),
    }
}

impl Case for History {
    fn difference(&self) -> Option<String> {
        self.difference.clone()
    }

    fn describe(&self) -> String {
        let setting = &self.setting;
        let mut text = format!(
            "{} of {} bytes, {}, text of {} bytes, paper of {}, memory of {}\n",
            if setting.overlaid { "overlay" } else { "image" },
            setting.disk.len(),
            if setting.scripted { "script" } else { "keyboard" },
            setting.text.len(),
            setting.paper.len(),
            setting.memory.len()
        );
        text += &listing(&setting.disk[..setting.disk.len().min(PROGRAM) / 4 * 4]);
        for at in 0..self.calls.len() {
            text += &self.call_line(at);
        }
        text
    }

    fn count(&self, coverage: &mut Coverage) {
        coverage.devices[self.setting.overlaid as usize][self.setting.scripted as usize] += 1;
        for (sum, seen) in coverage.opcodes.iter_mut().zip(self.opcodes) {
            *sum += seen;
        }
        for (stop, opcode) in &self.endings {
            coverage.count_ending(*stop, *opcode);
        }
        for (call, reply) in self.calls.iter().zip(&self.expected) {
            coverage.count_call(call, reply);
        }
    }
}
