//! The peer behind the same calls as the proved station.

use peer::devices::{Console, Disk};
use peer::machine::{Refusal, Station, Stop};
use peer::text::Cause;
use proved::{Call, Kind, Reply};

/// The stops in the order of the numbers by which the library answers them.
pub const STOPS: [Stop; 11] = [
    Stop::Spent,
    Stop::Fetch,
    Stop::Code,
    Stop::Zero,
    Stop::Align,
    Stop::Range,
    Stop::Sector,
    Stop::Halt,
    Stop::Input,
    Stop::Paper,
    Stop::Keep,
];

/// The causes in the order of their numbers, of which the first is 1.
pub const CAUSES: [Cause; 6] = [Cause::Spelling, Cause::Digits, Cause::Size, Cause::Missing, Cause::Extra, Cause::End];

fn stop_number(stop: Stop) -> u32 {
    STOPS.iter().position(|s| *s == stop).unwrap() as u32
}

pub fn refused(refusal: Refusal) -> Reply {
    let mut reply = Reply { refusal: refusal.number as u32, ..Reply::default() };
    if let Some(fault) = refusal.fault {
        reply.reason = 1 + CAUSES.iter().position(|c| *c == fault.cause).unwrap() as u32;
        (reply.line, reply.field) = (fault.line, fault.field);
    }
    reply
}

pub fn counted(count: usize) -> Reply {
    Reply { count, ..Reply::default() }
}

/// The peer's station and devices, and the buffers that its calls write.
#[derive(Clone)]
pub struct Mirror {
    pub station: Station,
    pub disk: Disk,
    pub console: Console,
    pub memory: Vec<u8>,
    pub out: Vec<u8>,
    /// The ending, if a run answered one since the last accepted start.
    pub ending: Option<Stop>,
    /// All that was collected so far.
    pub collected: Vec<u8>,
}

impl Mirror {
    pub fn new(disk: Disk, console: Console, memory: Vec<u8>) -> Mirror {
        Mirror { station: Station::default(), disk, console, memory, out: vec![], ending: None, collected: vec![] }
    }

    pub fn make(&mut self, call: &Call, data: &[u8]) -> Reply {
        match call.kind {
            Kind::Start => self.start(call.memory),
            Kind::Run => self.run(call.memory, call.number),
            Kind::Feed => counted(self.console.feed(&data[call.from..call.to])),
            Kind::Collect => {
                let bytes = self.console.collect(call.to - call.from);
                self.collected.extend(&bytes);
                self.write_out(call.from, &bytes)
            }
            Kind::Tally => {
                let sheet = &data[call.from..call.to];
                match self.station.tally(&self.memory[..call.memory], &self.disk, sheet) {
                    Ok(points) => counted(points as usize),
                    Err(refusal) => refused(refusal),
                }
            }
            Kind::Registers => {
                let bytes: Vec<u8> = self.station.registers.iter().flat_map(|r| r.to_be_bytes()).collect();
                self.write_out(call.from, &bytes)
            }
            Kind::Sector => match self.disk.sectors.get(call.number as usize) {
                Some(block) => self.write_out(call.from, &block.clone()),
                None => counted(0),
            },
        }
    }

    fn write_out(&mut self, from: usize, bytes: &[u8]) -> Reply {
        self.out[from..from + bytes.len()].copy_from_slice(bytes);
        counted(bytes.len())
    }

    fn start(&mut self, length: usize) -> Reply {
        match self.station.start(&mut self.memory[..length], &self.disk, &self.console) {
            Ok(()) => {
                self.ending = None;
                Reply::default()
            }
            Err(refusal) => refused(refusal),
        }
    }

    fn run(&mut self, length: usize, steps: u32) -> Reply {
        match self.station.run(&mut self.memory[..length], &mut self.disk, &mut self.console, steps) {
            Ok((count, stop)) => {
                if stop.is_ending() {
                    self.ending = Some(stop);
                }
                Reply { reason: stop_number(stop), ..counted(count as usize) }
            }
            Err(refusal) => refused(refusal),
        }
    }
}
