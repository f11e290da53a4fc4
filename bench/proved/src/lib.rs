//! The proved station behind safe functions: what crosses to its static library is declared here and nowhere else.

/// What a call asks of the station.
#[derive(Clone, Copy, PartialEq, Eq, Debug)]
#[repr(u32)]
pub enum Kind {
    Start,
    Run,
    Feed,
    Collect,
    Tally,
    Registers,
    Sector,
}

/// One call of a history. `number` is a run's grant or a sector; `memory` is how many bytes of memory the call names;
/// `from..to` is the part of the data that is fed or is the sheet, or the part of the output that is written.
/// What a call names past the end of a buffer is not there.
#[derive(Clone, Copy, Debug)]
#[repr(C)]
pub struct Call {
    pub kind: Kind,
    pub number: u32,
    pub memory: usize,
    pub from: usize,
    pub to: usize,
}

impl Call {
    pub fn start(memory: usize) -> Call {
        Call { kind: Kind::Start, number: 0, memory, from: 0, to: 0 }
    }

    pub fn run(memory: usize, steps: u32) -> Call {
        Call { kind: Kind::Run, number: steps, memory, from: 0, to: 0 }
    }

    pub fn feed(from: usize, to: usize) -> Call {
        Call { kind: Kind::Feed, number: 0, memory: 0, from, to }
    }

    pub fn collect(from: usize, to: usize) -> Call {
        Call { kind: Kind::Collect, number: 0, memory: 0, from, to }
    }

    pub fn tally(memory: usize, from: usize, to: usize) -> Call {
        Call { kind: Kind::Tally, number: 0, memory, from, to }
    }

    /// The 64 registers, four bytes each, to 256 bytes of output.
    pub fn registers(from: usize) -> Call {
        Call { kind: Kind::Registers, number: 0, memory: 0, from, to: from + 256 }
    }

    /// A sector's bytes to 512 bytes of output; 0 bytes where there is no such sector.
    pub fn sector(number: u32, from: usize) -> Call {
        Call { kind: Kind::Sector, number, memory: 0, from, to: from + 512 }
    }
}

/// What a call answered. `refusal` is 0 where it was accepted. `reason` is a run's stop, from SPENT 0, FETCH 1, CODE 2,
/// ZERO 3, ALIGN 4, RANGE 5, SECTOR 6 and HALT 7 to INPUT 8, PAPER 9 and KEEP 10; or a form refusal's cause, from
/// SPELLING 1, DIGITS 2, SIZE 3 and MISSING 4 to EXTRA 5 and END 6.
#[derive(Clone, Copy, PartialEq, Eq, Debug, Default)]
#[repr(C)]
pub struct Reply {
    pub refusal: u32,
    pub count: usize,
    pub reason: u32,
    pub line: usize,
    pub field: usize,
}

extern "C" {
    fn guldresin_assemble(text: *const u8, text_len: usize, out: *mut u8, out_len: usize, reply: *mut Reply);
    fn guldresin_list(words: *const u8, words_len: usize, out: *mut u8, out_len: usize, reply: *mut Reply);
    fn guldresin_serve(
        overlaid: bool,
        scripted: bool,
        bytes: *const u8,
        bytes_len: usize,
        text: *const u8,
        text_len: usize,
        paper: *mut u8,
        paper_len: usize,
        memory: *mut u8,
        memory_len: usize,
        data: *const u8,
        data_len: usize,
        out: *mut u8,
        out_len: usize,
        calls: *const Call,
        calls_len: usize,
        replies: *mut Reply,
        replies_len: usize,
    ) -> usize;
}

pub fn assemble(text: &[u8], out: &mut [u8]) -> Reply {
    let mut reply = Reply::default();
    // SAFETY: each pointer and length are those of one slice, and the function asks nothing else.
    unsafe { guldresin_assemble(text.as_ptr(), text.len(), out.as_mut_ptr(), out.len(), &mut reply) };
    reply
}

pub fn list(words: &[u8], out: &mut [u8]) -> Reply {
    let mut reply = Reply::default();
    // SAFETY: as for `assemble`.
    unsafe { guldresin_list(words.as_ptr(), words.len(), out.as_mut_ptr(), out.len(), &mut reply) };
    reply
}

/// Where a history is made: the kinds of disk and console, and the buffers that are lent to it.
pub struct Hall<'a> {
    pub overlaid: bool,
    pub scripted: bool,
    pub disk: &'a [u8],
    pub text: &'a [u8],
    pub paper: &'a mut [u8],
    pub memory: &'a mut [u8],
    pub data: &'a [u8],
    pub out: &'a mut [u8],
}

/// Makes the calls one after another on a new station, and answers how many were made: all, unless memory was wanting.
pub fn serve(hall: &mut Hall, calls: &[Call], replies: &mut [Reply]) -> usize {
    // SAFETY: as for `assemble`; the slices share no byte, since the writable ones are borrowed so.
    unsafe {
        guldresin_serve(
            hall.overlaid,
            hall.scripted,
            hall.disk.as_ptr(),
            hall.disk.len(),
            hall.text.as_ptr(),
            hall.text.len(),
            hall.paper.as_mut_ptr(),
            hall.paper.len(),
            hall.memory.as_mut_ptr(),
            hall.memory.len(),
            hall.data.as_ptr(),
            hall.data.len(),
            hall.out.as_mut_ptr(),
            hall.out.len(),
            calls.as_ptr(),
            calls.len(),
            replies.as_mut_ptr(),
            replies.len(),
        )
    }
}
