//! Type text: `BOOL`, ℤ, names of a table, ℙ( ), products that lean left.

use crate::form::{self, Ty};
use crate::{Answer, LARGEST, NAMES};

const INT: &[u8] = "ℤ".as_bytes();
const POW: &[u8] = "ℙ(".as_bytes();
const TIMES: &[u8] = "×".as_bytes();
const BOOL: &[u8] = b"BOOL";

/// Most brackets open around an operand.
pub const NESTING: usize = 32;

/// The names of a table, or none where the table is bad.
pub fn table(table: &[u8]) -> Option<Vec<&[u8]>> {
    if table.len() > LARGEST {
        return None;
    }
    let mut names: Vec<&[u8]> = Vec::new();
    let mut rest = table;
    while let Some((&kind, tail)) = rest.split_first() {
        if !(0x81..=0xC0).contains(&kind) {
            return None;
        }
        let length = usize::from(kind - 0x80);
        if tail.len() < length {
            return None;
        }
        let (name, tail) = tail.split_at(length);
        let good = name[0].is_ascii_alphabetic() && word(name) == length && name != BOOL && !names.contains(&name);
        if !good || names.len() == NAMES {
            return None;
        }
        names.push(name);
        rest = tail;
    }
    Some(names)
}

/// The length of the longest word at the front, its first byte apart.
fn word(bytes: &[u8]) -> usize {
    bytes.iter().take_while(|b| b.is_ascii_alphanumeric() || **b == b'_').count()
}

/// A type as read: its record and the record's depth.
struct Record {
    bytes: Vec<u8>,
    depth: usize,
}

struct Cursor<'a> {
    text: &'a [u8],
    at: usize,
    names: &'a [&'a [u8]],
}

type Read<T> = Result<T, Answer>;

impl Cursor<'_> {
    fn eat(&mut self, token: &[u8]) -> bool {
        let here = self.text[self.at..].starts_with(token);
        if here {
            self.at += token.len();
        }
        here
    }

    fn bad<T>(&self) -> Read<T> {
        Err(Answer::refusal(4, self.at))
    }

    /// Operands with × between them, leaning left.
    fn product(&mut self, depth: usize) -> Read<Record> {
        let mut record = self.operand(depth)?;
        let mut heads = 0;
        while self.eat(TIMES) {
            let right = self.operand(depth)?;
            record.bytes.extend(right.bytes);
            record.depth = record.depth.max(right.depth) + 1;
            heads += 1;
        }
        record.bytes.splice(0..0, std::iter::repeat(0x44).take(heads));
        Ok(record)
    }

    /// An operand with `depth` brackets open around it.
    fn operand(&mut self, depth: usize) -> Read<Record> {
        if depth > NESTING {
            return Err(Answer::refusal(5, self.at));
        }
        let leaf = |bytes| Ok(Record { bytes, depth: 0 });
        if self.eat(INT) {
            return leaf(vec![0x41]);
        }
        if self.eat(POW) {
            let mut inner = self.product(depth + 1)?;
            self.close()?;
            inner.bytes.insert(0, 0x43);
            inner.depth += 1;
            return Ok(inner);
        }
        if self.eat(b"(") {
            let inner = self.product(depth + 1)?;
            self.close()?;
            return Ok(inner);
        }
        let rest = &self.text[self.at..];
        if !rest.first().is_some_and(u8::is_ascii_alphabetic) {
            return self.bad();
        }
        let word = &rest[..word(rest)];
        let bytes = if word == BOOL {
            vec![0x40]
        } else {
            let Some(name) = self.names.iter().position(|name| *name == word) else { return self.bad() };
            vec![0x42, name as u8, (name >> 8) as u8]
        };
        self.at += word.len();
        leaf(bytes)
    }

    fn close(&mut self) -> Read<()> {
        if self.eat(b")") {
            Ok(())
        } else {
            self.bad()
        }
    }
}

/// Reads a type's text and writes its record from the page's start.
pub fn read_text(text: &[u8], table: &[u8], page: &mut [u8]) -> Answer {
    let Some(names) = self::table(table) else { return Answer::refusal(2, 0) };
    let mut cursor = Cursor { text, at: 0, names: &names };
    let record = match cursor.product(0) {
        Err(refusal) => return refusal,
        Ok(_) if cursor.at < text.len() => return Answer::refusal(4, cursor.at),
        Ok(record) => record,
    };
    if record.depth > form::DEPTH {
        return Answer::refusal(5, 0);
    }
    put(&record.bytes, page)
}

/// Writes a type record's text into the page from the position on.
pub fn write_text(record: &[u8], table: &[u8], page: &mut [u8], position: u64) -> Answer {
    let Some(names) = self::table(table) else { return Answer::refusal(2, 0) };
    if position > page.len() as u64 {
        return Answer::refusal(2, 0);
    }
    match form::type_record(record, names.len() as u32) {
        Err(fault) => Answer::refusal(fault.number, fault.place),
        Ok(ty) => {
            let mut text = Vec::new();
            spell(&ty, &names, &mut text);
            put(&text, &mut page[position as usize..])
        }
    }
}

fn put(bytes: &[u8], page: &mut [u8]) -> Answer {
    if bytes.len() > page.len() {
        return Answer::refusal(8, 0);
    }
    page[..bytes.len()].copy_from_slice(bytes);
    Answer { number: 0, place: 0, length: bytes.len() as u64, steps: 0 }
}

/// A type's canonical text: only a product's right operand that is a product has brackets.
fn spell(ty: &Ty, names: &[&[u8]], out: &mut Vec<u8>) {
    match ty {
        Ty::Bool => out.extend(BOOL),
        Ty::Int => out.extend(INT),
        Ty::Given(name) => out.extend(names[usize::from(*name)]),
        Ty::Pow(base) => {
            out.extend(POW);
            spell(base, names, out);
            out.push(b')');
        }
        Ty::Prod(left, right) => {
            spell(left, names, out);
            out.extend(TIMES);
            if let Ty::Prod(..) = **right {
                out.push(b'(');
                spell(right, names, out);
                out.push(b')');
            } else {
                spell(right, names, out);
            }
        }
    }
}
