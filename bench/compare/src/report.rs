//! What was seen, so that a reader can tell that the comparison was not idle.

use crate::mirror::{CAUSES, STOPS};
use crate::texts::Tool;
use crate::words::OPERATIONS;
use proved::{Call, Kind, Reply};
use std::collections::BTreeMap;

/// Each refusal that a call knows, in the order in which they are tested.
const REFUSALS: [(&str, &[u32]); 5] =
    [("start", &[1, 2, 3]), ("run", &[4, 5]), ("tally", &[4, 5, 6, 7, 8]), ("assemble", &[7, 8, 9]), ("list", &[7, 10, 9])];

/// The opcodes of the operations that can meet an ending.
const MET: [(&str, &[u32]); 3] = [("ALIGN", &[5, 6, 26, 27]), ("RANGE", &[0, 1, 2, 4, 5, 6, 26, 27]), ("SECTOR", &[26, 27])];

#[derive(Default)]
pub struct Coverage {
    /// Histories by image or overlay, keyboard or script.
    pub devices: [[u64; 2]; 2],
    pub opcodes: [u64; 32],
    stops: [u64; 11],
    /// Endings by the stop's name and the opcode that met it.
    endings: BTreeMap<(&'static str, u32), u64>,
    refusals: BTreeMap<(&'static str, u32), u64>,
    causes: BTreeMap<(&'static str, u32), u64>,
    calls: u64,
    accepted: BTreeMap<&'static str, u64>,
    steps: u64,
    points: u64,
    /// Tallies, whatever was answered.
    pub sheets: u64,
    earning: u64,
    fed: u64,
    collected: u64,
}

impl Coverage {
    fn count_reply(&mut self, call: &'static str, reply: &Reply) {
        if reply.refusal == 0 {
            *self.accepted.entry(call).or_default() += 1;
        } else {
            *self.refusals.entry((call, reply.refusal)).or_default() += 1;
        }
        if reply.refusal == 8 {
            *self.causes.entry((call, reply.reason)).or_default() += 1;
        }
    }

    pub fn count_call(&mut self, call: &Call, reply: &Reply) {
        self.calls += 1;
        let count = reply.count as u64;
        match call.kind {
            Kind::Start => self.count_reply("start", reply),
            Kind::Run => {
                self.count_reply("run", reply);
                self.steps += count;
                self.stops[reply.reason as usize] += (reply.refusal == 0) as u64;
            }
            Kind::Tally => {
                self.count_reply("tally", reply);
                self.sheets += 1;
                self.points += count;
                self.earning += (count > 0) as u64;
            }
            Kind::Feed => self.fed += count,
            Kind::Collect => self.collected += count,
            Kind::Registers | Kind::Sector => {}
        }
    }

    pub fn count_ending(&mut self, stop: u32, opcode: Option<u32>) {
        if let Some(opcode) = opcode {
            *self.endings.entry((STOPS[stop as usize].name(), opcode)).or_default() += 1;
        }
    }

    pub fn count_text(&mut self, tool: Tool, reply: &Reply) {
        self.count_reply(if tool == Tool::Assemble { "assemble" } else { "list" }, reply);
    }

    /// The rows of the table: a heading, and names with their counts.
    fn rows(&self) -> Vec<(String, Vec<(String, u64)>)> {
        let of = |map: &BTreeMap<(&'static str, u32), u64>, call, number| map.get(&(call, number)).copied().unwrap_or(0);
        let stops = STOPS.iter().zip(self.stops).map(|(stop, n)| (stop.name().to_string(), n)).collect();
        let operation = |(opcode, name, _): &(u32, &str, &str)| (name.to_string(), self.opcodes[*opcode as usize]);
        let mut rows = vec![
            ("devices".to_string(), self.device_row()),
            ("stops answered".to_string(), stops),
            ("operations executed, in a sample".to_string(), OPERATIONS.iter().map(operation).collect()),
        ];
        for (ending, opcodes) in MET {
            let named = OPERATIONS.iter().filter(|(opcode, _, _)| opcodes.contains(opcode));
            let row = named.map(|(opcode, name, _)| (name.to_string(), of(&self.endings, ending, *opcode)));
            rows.push((format!("{ending} met by"), row.collect()));
        }
        for (call, numbers) in REFUSALS {
            let accepted = ("accepted".to_string(), self.accepted.get(call).copied().unwrap_or(0));
            let refused = numbers.iter().map(|n| (format!("refused {n}"), of(&self.refusals, call, *n)));
            rows.push((call.to_string(), std::iter::once(accepted).chain(refused).collect()));
        }
        for (call, heading) in [("assemble", "causes in texts"), ("tally", "causes in sheets")] {
            let cause = |(k, cause)| (format!("{cause:?}").to_uppercase(), of(&self.causes, call, k as u32 + 1));
            rows.push((heading.to_string(), CAUSES.iter().enumerate().map(cause).collect()));
        }
        rows.push(("in all".to_string(), self.sums()));
        rows
    }

    fn device_row(&self) -> Vec<(String, u64)> {
        let [[ik, is], [ok, os]] = self.devices;
        let names = ["image and keyboard", "image and script", "overlay and keyboard", "overlay and script"];
        names.into_iter().map(String::from).zip([ik, is, ok, os]).collect()
    }

    fn sums(&self) -> Vec<(String, u64)> {
        let sums = [
            ("calls", self.calls),
            ("steps", self.steps),
            ("bytes fed", self.fed),
            ("bytes collected", self.collected),
            ("points", self.points),
            ("sheets that earned some", self.earning),
        ];
        sums.into_iter().map(|(name, n)| (name.to_string(), n)).collect()
    }

    /// Prints the table, and by name whatever was never seen.
    pub fn print(&self) {
        let mut never = vec![];
        for (heading, entries) in self.rows() {
            println!("{heading}");
            for part in entries.chunks(6) {
                let cells: Vec<String> = part.iter().map(|(name, n)| format!("{name} {n}")).collect();
                println!("    {}", cells.join(", "));
            }
            never.extend(entries.iter().filter(|(_, n)| *n == 0).map(|(name, _)| format!("{heading}: {name}")));
        }
        println!("never seen: {}", if never.is_empty() { "nothing".into() } else { never.join("; ") });
    }
}
