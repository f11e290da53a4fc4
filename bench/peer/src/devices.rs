//! Disks and consoles by what they mean.

use std::collections::{HashSet, VecDeque};

pub const SECTOR: usize = 512;

/// A writable disk: its sectors, which of them are kept, and how many more can be.
#[derive(Clone)]
pub struct Disk {
    pub sectors: Vec<[u8; SECTOR]>,
    kept: Option<HashSet<u32>>,
    keeps: usize,
}

pub enum Write {
    Done,
    NoSuchSector,
    NoKeep,
}

fn cut(bytes: &[u8]) -> Vec<[u8; SECTOR]> {
    bytes.chunks_exact(SECTOR).take(65_536).map(|c| c.try_into().unwrap()).collect()
}

impl Disk {
    /// All sectors are kept.
    pub fn image(bytes: &[u8]) -> Disk {
        Disk { sectors: cut(bytes), kept: None, keeps: 0 }
    }

    /// No sector is kept, and 32 can be.
    pub fn overlay(bytes: &[u8]) -> Disk {
        Disk { sectors: cut(bytes), kept: Some(HashSet::new()), keeps: 32 }
    }

    pub fn write(&mut self, sector: u32, block: &[u8]) -> Write {
        if sector as usize >= self.sectors.len() {
            return Write::NoSuchSector;
        }
        if let Some(kept) = &mut self.kept {
            if !kept.contains(&sector) {
                if self.keeps == 0 {
                    return Write::NoKeep;
                }
                self.keeps -= 1;
                kept.insert(sector);
            }
        }
        self.sectors[sector as usize].copy_from_slice(block);
        Write::Done
    }
}

/// A console: what waits and is printed, the room for more, and what a taken or pulled byte gives back.
#[derive(Clone)]
pub struct Console {
    waiting: VecDeque<u8>,
    slots: usize,
    printed: VecDeque<u8>,
    paper: usize,
    gives_back: usize,
}

impl Console {
    pub fn keyboard() -> Console {
        Console { waiting: VecDeque::new(), slots: 256, printed: VecDeque::new(), paper: 4096, gives_back: 1 }
    }

    pub fn script(text: &[u8], paper: usize) -> Console {
        Console { waiting: text.iter().copied().collect(), slots: 0, printed: VecDeque::new(), paper, gives_back: 0 }
    }

    pub fn printed(&self) -> usize {
        self.printed.len()
    }

    pub fn take(&mut self) -> Option<u8> {
        let byte = self.waiting.pop_front()?;
        self.slots += self.gives_back;
        Some(byte)
    }

    pub fn put(&mut self, byte: u8) -> bool {
        if self.paper == 0 {
            return false;
        }
        self.paper -= 1;
        self.printed.push_back(byte);
        true
    }

    pub fn feed(&mut self, bytes: &[u8]) -> usize {
        let went = bytes.len().min(self.slots);
        self.waiting.extend(&bytes[..went]);
        self.slots -= went;
        went
    }

    pub fn collect(&mut self, room: usize) -> Vec<u8> {
        let came = room.min(self.printed.len());
        self.paper += came * self.gives_back;
        self.printed.drain(..came).collect()
    }
}
