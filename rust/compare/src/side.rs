//! The sides of a comparison. Each is asked the same question with pages of the same dirty bytes.

use bought::driver::{self, Build, Silent};
use reference::Answer;

/// An inference asked for.
#[derive(Debug, Clone, Copy)]
pub struct Question<'a> {
    pub formula: &'a [u8],
    pub environment: &'a [u8],
    pub names: u32,
    pub capacity: u32,
    pub budget: u64,
}

/// The caller's memory: output and work.
#[derive(Debug, Clone, PartialEq, Eq)]
pub struct Room {
    pub output: Vec<u8>,
    pub work: Vec<u32>,
}

const DIRTY_BYTE: u8 = 0xA5;
const DIRTY_WORD: u32 = 0xA5A5_5A5A;

impl Room {
    pub fn new() -> Room {
        Room { output: Vec::new(), work: Vec::new() }
    }

    /// Memory of these lengths, every byte and word of it dirty.
    pub fn dirty(&mut self, output: usize, work: usize) {
        self.output.clear();
        self.output.resize(output, DIRTY_BYTE);
        self.work.clear();
        self.work.resize(work, DIRTY_WORD);
    }
}

impl Default for Room {
    fn default() -> Room {
        Room::new()
    }
}

/// What was heard from a side.
#[derive(Debug, Clone, PartialEq, Eq)]
pub enum Heard {
    /// It has no notion of the question.
    Nothing,
    /// It finds the input malformed, and says no more.
    Malformed,
    /// A verdict and the answer's bytes; nothing of places, steps or memory.
    Verdict { number: u32, output: Vec<u8> },
    /// A whole answer; its bytes are in the caller's memory.
    Whole(Answer),
}

/// What a side has a notion of.
#[derive(Debug, Clone, Copy, PartialEq, Eq)]
pub enum Knows {
    /// Verdicts and answer bytes of well-formed input, in any amount of room.
    Verdicts,
    /// Whole answers, in memory of its own at capacity 2,048.
    Answers,
    /// Whole answers, and what becomes of the caller's memory.
    Everything,
}

pub trait Side {
    fn name(&self) -> &'static str;

    fn knows(&self) -> Knows;

    fn infer(&mut self, question: &Question<'_>, room: &mut Room) -> Heard;

    fn read_text(&mut self, text: &[u8], table: &[u8], page: &mut [u8]) -> Heard;

    fn write_text(&mut self, record: &[u8], table: &[u8], page: &mut [u8], position: u64) -> Heard;

    /// Whether it differs from the rules in a known way (docs/DIFFERENCES.md), so that its differences are counted and no fault.
    fn known_to_differ(&self) -> bool {
        false
    }
}

/// The reference reading.
pub struct Reference;

impl Side for Reference {
    fn name(&self) -> &'static str {
        "reference"
    }

    fn knows(&self) -> Knows {
        Knows::Everything
    }

    fn infer(&mut self, q: &Question<'_>, room: &mut Room) -> Heard {
        let Room { output, work } = room;
        Heard::Whole(reference::infer(q.formula, q.environment, q.names, q.capacity, q.budget, output, work))
    }

    fn read_text(&mut self, text: &[u8], table: &[u8], page: &mut [u8]) -> Heard {
        Heard::Whole(reference::text::read_text(text, table, page))
    }

    fn write_text(&mut self, record: &[u8], table: &[u8], page: &mut [u8], position: u64) -> Heard {
        Heard::Whole(reference::text::write_text(record, table, page, position))
    }
}

/// The bought checker, with exact explicit types or through its own factory.
pub struct Bought(pub Build);

impl Side for Bought {
    fn name(&self) -> &'static str {
        match self.0 {
            Build::Exact => "bought",
            Build::Factory => "bought through its factory",
        }
    }

    fn knows(&self) -> Knows {
        Knows::Verdicts
    }

    fn infer(&mut self, q: &Question<'_>, _: &mut Room) -> Heard {
        match driver::infer(self.0, q.formula, q.environment, q.names) {
            Ok(answer) => Heard::Verdict { number: answer.number.into(), output: answer.output },
            Err(Silent::Malformed) => Heard::Malformed,
            Err(Silent::Absent | Silent::Unbuildable) => Heard::Nothing,
        }
    }

    fn read_text(&mut self, text: &[u8], table: &[u8], _: &mut [u8]) -> Heard {
        match driver::read_text(text, table) {
            Ok(Some(record)) => Heard::Verdict { number: 0, output: record },
            Ok(None) | Err(Silent::Malformed) => Heard::Malformed,
            Err(_) => Heard::Nothing,
        }
    }

    fn write_text(&mut self, record: &[u8], table: &[u8], _: &mut [u8], _: u64) -> Heard {
        match driver::write_text(record, table) {
            Ok(text) => Heard::Verdict { number: 0, output: text },
            Err(Silent::Malformed) => Heard::Malformed,
            Err(_) => Heard::Nothing,
        }
    }

    fn known_to_differ(&self) -> bool {
        self.0 == Build::Factory
    }
}

/// The proved entries, inference in the caller's memory or in its own; or the text entries alone.
pub enum Port {
    Lent,
    Own,
    Text,
}

impl Port {
    fn heard(answer: port::Answer) -> Heard {
        let port::Answer { number, place, length, steps } = answer;
        Heard::Whole(Answer { number, place, length, steps })
    }
}

impl Side for Port {
    fn name(&self) -> &'static str {
        match self {
            Port::Lent => "port",
            Port::Own => "port in its own memory",
            Port::Text => "port of text",
        }
    }

    fn knows(&self) -> Knows {
        match self {
            Port::Lent | Port::Text => Knows::Everything,
            Port::Own => Knows::Answers,
        }
    }

    fn infer(&mut self, q: &Question<'_>, room: &mut Room) -> Heard {
        let Room { output, work } = room;
        Port::heard(match self {
            Port::Lent => port::infer_in(q.formula, q.environment, q.names, q.capacity, q.budget, output, work),
            Port::Own => port::infer(q.formula, q.environment, q.names, q.budget, output),
            Port::Text => return Heard::Nothing,
        })
    }

    fn read_text(&mut self, text: &[u8], table: &[u8], page: &mut [u8]) -> Heard {
        Port::heard(port::read_text(text, table, page))
    }

    fn write_text(&mut self, record: &[u8], table: &[u8], page: &mut [u8], position: u64) -> Heard {
        Port::heard(port::write_text(record, table, page, position))
    }
}

/// The sides that are there, beside the judge.
pub fn others() -> Vec<Box<dyn Side>> {
    let mut sides: Vec<Box<dyn Side>> = Vec::new();
    if bought::PRESENT {
        sides.push(Box::new(Bought(Build::Exact)));
        sides.push(Box::new(Bought(Build::Factory)));
    }
    if port::PROVED {
        sides.push(Box::new(Port::Lent));
        sides.push(Box::new(Port::Own));
    } else if port::PROVED_TEXT {
        sides.push(Box::new(Port::Text));
    }
    sides
}
