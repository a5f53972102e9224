//! The two sides. Each reads a text, writes what it read, and does both, with what its caller has to pay for.
use compare::{Starts, Told};
use sdp_types::Session;
use std::hint::black_box;
use std::ops::Range;

/// Room for the written form of any text that was read (docs/FFI.md).
pub const ROOM: usize = 43_727;

#[derive(Clone, Copy, PartialEq, Eq, Debug)]
pub enum Work {
    Read,
    Write,
    Both,
}

impl Work {
    pub const ALL: [Work; 3] = [Work::Read, Work::Write, Work::Both];

    pub fn name(self) -> &'static str {
        match self {
            Work::Read => "read",
            Work::Write => "write",
            Work::Both => "both",
        }
    }

    pub fn title(self) -> &'static str {
        match self {
            Work::Read => "reading",
            Work::Write => "writing",
            Work::Both => "reading and writing",
        }
    }
}

pub trait Side {
    fn name(&self) -> &'static str;
    /// Reads the text and lets go of what was read: whether it was accepted.
    fn read(&mut self, text: &[u8]) -> bool;
    /// Reads the text and keeps what was read for `write`.
    fn keep(&mut self, text: &[u8]) -> bool;
    /// Writes what was kept: how many bytes.
    fn write(&mut self, text: &[u8]) -> usize;
    /// Reads and writes; 0 bytes for a refused text.
    fn both(&mut self, text: &[u8]) -> usize;
    fn written(&self) -> &[u8];

    fn call(&mut self, work: Work, text: &[u8]) -> usize {
        let text = black_box(text);
        match work {
            Work::Read => usize::from(self.read(text)),
            Work::Write => self.write(text),
            Work::Both => self.both(text),
        }
    }
}

/// The archive: area and output are lent, and lent again for the next text. A list of starts has its place too.
pub struct Ours {
    area: Vec<u8>,
    out: Vec<u8>,
    len: usize,
    list: Box<Starts>,
}

impl Default for Ours {
    fn default() -> Self {
        Ours {
            area: vec![0; compare::area_size()],
            out: vec![0; ROOM],
            len: 0,
            list: Box::default(),
        }
    }
}

impl Ours {
    pub fn told(&mut self, text: &[u8]) -> Told {
        compare::read(text, &mut self.area)
    }

    /// How many bytes what was kept is written with; 0 where that is refused.
    pub fn length(&mut self, text: &[u8]) -> usize {
        let answer = compare::length(text, &self.area);
        if answer.number == 0 {
            answer.len as usize
        } else {
            0
        }
    }

    /// Fills the first so many bytes of the output: how many were written; 0 where that is refused.
    fn fill(&mut self, text: &[u8], room: usize) -> usize {
        let answer = compare::fill(text, &self.area, &mut self.out[..room]);
        self.len = if answer.number == 0 { answer.len as usize } else { 0 };
        self.len
    }

    /// Writes what was kept in two calls: the length, and then just so many bytes.
    pub fn exact(&mut self, text: &[u8]) -> usize {
        let len = self.length(text);
        self.fill(text, len)
    }

    /// Lists the starts of what was kept: how many, or the refusal.
    pub fn list(&mut self, text: &[u8], window: &Range<u64>) -> Result<usize, u64> {
        *self.list = compare::starts(text, &self.area, window.start, window.end);
        match self.list.number {
            0 => Ok(self.list.count as usize),
            number => Err(number),
        }
    }
}

impl Side for Ours {
    fn name(&self) -> &'static str {
        "ours"
    }

    fn read(&mut self, text: &[u8]) -> bool {
        self.told(text).answer.number == 0
    }

    fn keep(&mut self, text: &[u8]) -> bool {
        self.read(text)
    }

    fn write(&mut self, text: &[u8]) -> usize {
        self.fill(text, ROOM)
    }

    fn both(&mut self, text: &[u8]) -> usize {
        if !self.read(text) {
            return 0;
        }
        self.write(text)
    }

    fn written(&self) -> &[u8] {
        &self.out[..self.len]
    }
}

/// The crate: the session is on the heap, and freed after use; the output has its room beforehand.
pub struct Theirs {
    session: Option<Session>,
    out: Vec<u8>,
}

impl Default for Theirs {
    fn default() -> Self {
        Theirs {
            session: None,
            out: Vec::with_capacity(ROOM),
        }
    }
}

impl Side for Theirs {
    fn name(&self) -> &'static str {
        "crate"
    }

    fn read(&mut self, text: &[u8]) -> bool {
        black_box(Session::parse(text)).is_ok()
    }

    fn keep(&mut self, text: &[u8]) -> bool {
        self.session = Session::parse(text).ok();
        self.session.is_some()
    }

    fn write(&mut self, _text: &[u8]) -> usize {
        self.out.clear();
        if let Some(session) = &self.session {
            session.write(&mut self.out).expect("a Vec takes it");
        }
        self.out.len()
    }

    fn both(&mut self, text: &[u8]) -> usize {
        self.out.clear();
        if let Ok(session) = black_box(Session::parse(text)) {
            session.write(&mut self.out).expect("a Vec takes it");
        }
        self.out.len()
    }

    fn written(&self) -> &[u8] {
        &self.out
    }
}
