//! The processor and the station's calls.

use crate::devices::{Console, Disk, Write, SECTOR};
use crate::text::{self, Fault};

#[derive(Clone, Copy, PartialEq, Eq, Debug)]
pub enum Stop {
    Spent,
    Input,
    Paper,
    Keep,
    Fetch,
    Code,
    Zero,
    Align,
    Range,
    Sector,
    Halt,
}

impl Stop {
    pub fn name(self) -> &'static str {
        match self {
            Stop::Spent => "SPENT",
            Stop::Input => "INPUT",
            Stop::Paper => "PAPER",
            Stop::Keep => "KEEP",
            Stop::Fetch => "FETCH",
            Stop::Code => "CODE",
            Stop::Zero => "ZERO",
            Stop::Align => "ALIGN",
            Stop::Range => "RANGE",
            Stop::Sector => "SECTOR",
            Stop::Halt => "HALT",
        }
    }

    pub fn is_ending(self) -> bool {
        !matches!(self, Stop::Spent | Stop::Input | Stop::Paper | Stop::Keep)
    }
}

const ENDINGS: [Stop; 7] = [Stop::Fetch, Stop::Code, Stop::Zero, Stop::Align, Stop::Range, Stop::Sector, Stop::Halt];

/// A refusal: its number, and for a form also where and how.
#[derive(Clone, Copy, PartialEq, Eq, Debug)]
pub struct Refusal {
    pub number: u8,
    pub fault: Option<Fault>,
}

fn refused<T>(number: u8) -> Result<T, Refusal> {
    Err(Refusal { number, fault: None })
}

#[derive(Clone)]
pub struct Station {
    pub registers: [u32; 64],
    length: Option<usize>,
    ending: Option<Stop>,
}

impl Default for Station {
    fn default() -> Station {
        Station { registers: [0; 64], length: None, ending: None }
    }
}

impl Station {
    pub fn start(&mut self, memory: &mut [u8], disk: &Disk, console: &Console) -> Result<(), Refusal> {
        let m = memory.len();
        if m % SECTOR != 0 || !(512..=1_048_576).contains(&m) {
            return refused(1);
        }
        if console.printed() > 0 {
            return refused(2);
        }
        let Some(first) = disk.sectors.first() else { return refused(3) };
        memory[..SECTOR].copy_from_slice(first);
        *self = Station { registers: [0; 64], length: Some(m), ending: None };
        Ok(())
    }

    fn started(&self, memory: &[u8]) -> Result<(), Refusal> {
        match self.length {
            None => refused(4),
            Some(n) if n != memory.len() => refused(5),
            Some(_) => Ok(()),
        }
    }

    pub fn run(&mut self, memory: &mut [u8], disk: &mut Disk, console: &mut Console, steps: u32) -> Result<(u32, Stop), Refusal> {
        self.started(memory)?;
        if let Some(ending) = self.ending {
            return Ok((0, ending));
        }
        let mut count = 0;
        while count < steps {
            match self.step(memory, disk, console) {
                Ok(()) => count += 1,
                Err(stop) => {
                    if stop == Stop::Halt {
                        count += 1;
                    }
                    if stop.is_ending() {
                        self.ending = Some(stop);
                    }
                    return Ok((count, stop));
                }
            }
        }
        Ok((count, Stop::Spent))
    }

    /// One instruction. A stop other than HALT has changed nothing.
    fn step(&mut self, memory: &mut [u8], disk: &mut Disk, console: &mut Console) -> Result<(), Stop> {
        let pc = self.registers[63];
        if pc % 4 != 0 || pc as usize + 4 > memory.len() {
            return Err(Stop::Fetch);
        }
        let at = pc as usize;
        let word = u32::from_be_bytes(memory[at..at + 4].try_into().unwrap());
        let next = pc.wrapping_add(4);
        let a = (word >> 21 & 63) as usize;
        let value = |place: u32| {
            let r = (word >> place & 63) as usize;
            if r == 63 { next } else { self.registers[r] }
        };
        let (va, vb, vc) = (value(21), value(15), value(9));
        let address = vb.wrapping_add(vc) as usize;
        let inside = |at: usize, width: usize| if at + width > memory.len() { Err(Stop::Range) } else { Ok(()) };
        let aligned = |at: usize, width: usize| if at % width != 0 { Err(Stop::Align) } else { Ok(()) };
        let mut result = None;
        match word >> 27 {
            op @ 0..=2 => {
                let width = 1 << op;
                inside(address, width)?;
                result = Some(memory[address..address + width].iter().fold(0, |n, b| n << 8 | *b as u32));
            }
            op @ 4..=6 => {
                let width = 1 << (op - 4);
                aligned(address, width)?;
                inside(address, width)?;
                memory[address..address + width].copy_from_slice(&va.to_be_bytes()[4 - width..]);
            }
            8 => result = Some(vb.wrapping_add(vc)),
            9 => result = Some(vb.wrapping_mul(vc)),
            10 => result = Some(vb.checked_div(vc).ok_or(Stop::Zero)?),
            11 => result = Some(!(vb | vc)),
            16 => result = Some((word >> 5 & 0xffff) << (word & 31)),
            18 => {
                if vc != 0 {
                    result = Some(vb);
                }
            }
            24 => result = Some(console.take().ok_or(Stop::Input)? as u32),
            25 => {
                if !console.put(va as u8) {
                    return Err(Stop::Paper);
                }
            }
            26 => {
                aligned(va as usize, SECTOR)?;
                inside(va as usize, SECTOR)?;
                let block = disk.sectors.get(vb as usize).ok_or(Stop::Sector)?;
                memory[va as usize..va as usize + SECTOR].copy_from_slice(block);
            }
            27 => {
                aligned(va as usize, SECTOR)?;
                inside(va as usize, SECTOR)?;
                match disk.write(vb, &memory[va as usize..va as usize + SECTOR]) {
                    Write::Done => {}
                    Write::NoSuchSector => return Err(Stop::Sector),
                    Write::NoKeep => return Err(Stop::Keep),
                }
            }
            31 => {
                self.registers[63] = next;
                return Err(Stop::Halt);
            }
            _ => return Err(Stop::Code),
        }
        self.registers[63] = next;
        if let Some(value) = result {
            if a != 0 {
                self.registers[a] = value;
            }
        }
        Ok(())
    }

    /// The points by a sheet.
    pub fn tally(&self, memory: &[u8], disk: &Disk, sheet: &[u8]) -> Result<u32, Refusal> {
        self.started(memory)?;
        let Some(ending) = self.ending else { return refused(6) };
        if sheet.len() > 65_536 {
            return refused(7);
        }
        let marks = text::marks(sheet).map_err(|fault| Refusal { number: 8, fault: Some(fault) })?;
        Ok(marks
            .iter()
            .map(|mark| {
                let there = match mark.place {
                    text::Place::Register(r) => Some(self.registers[r as usize]),
                    text::Place::Memory(at) => memory.get(at as usize).map(|b| *b as u32),
                    text::Place::Disk(s, at) => disk.sectors.get(s as usize).map(|block| block[at as usize] as u32),
                    text::Place::Ending => ENDINGS.iter().position(|e| *e == ending).map(|n| n as u32),
                };
                if there == Some(mark.value) { mark.points } else { 0 }
            })
            .sum())
    }
}

/// The number by which an E line's name stands for an ending.
pub fn ending_number(name: &[u8]) -> Option<u32> {
    ENDINGS.iter().position(|e| e.name().as_bytes() == name).map(|n| n as u32)
}
