//! The questions, and how two answers are held against each other.

use generator::formula::{case, Style};
use generator::text::{record_case, text_case};
use generator::{exhaustive, Case, Rng};
use reference::{infer_counting, work_words, Answer};

use crate::hex;
use crate::progress::Progress;
use crate::side::{Heard, Knows, Question, Room, Side};
use crate::tally::Tally;

/// Ample room for most formulas, and still quick.
const BUDGET: u64 = 300_000;
const OUTPUT: usize = 8_192;

/// A capacity that is ample for a formula's length: no record makes more than a few nodes for each of its bytes.
fn ample(formula: &[u8]) -> u32 {
    (64 + 16 * formula.len() as u32).min(2_048)
}

/// A run: the judge is the reference reading.
pub struct Run {
    pub tally: Tally,
    sides: Vec<Box<dyn Side>>,
    judged: Room,
    other: Room,
}

impl Run {
    pub fn new(sides: Vec<Box<dyn Side>>) -> Run {
        Run { tally: Tally::default(), sides, judged: Room::new(), other: Room::new() }
    }

    /// One formula by a style, and the questions that its answer suggests.
    pub fn formula(&mut self, rng: &mut Rng, style: Style) {
        let case = case(rng, style);
        self.case(&case, rng);
    }

    /// A case with ample room; then at the edges of what it needed: budget, capacity, output and work, exactly enough and one too few.
    pub fn case(&mut self, case: &Case, rng: &mut Rng) {
        let Case { formula, environment, names } = case;
        let question =
            Question { formula, environment, names: *names, capacity: ample(formula), budget: BUDGET };
        let words = work_words(question.capacity) as usize;
        if rng.chance(2) {
            self.edges(case, rng);
        }
        let (answer, nodes) = self.ask(&question, OUTPUT, words);
        self.tally.answered(kind(&answer, &self.judged.output));
        if answer.number > 1 {
            return;
        }
        let (steps, length) = (answer.steps, answer.length as usize);
        let bytes = self.judged.output[..length].to_vec();
        // Exactly enough of everything, and then one too few of one thing.
        let capacity = (nodes as u32).max(1);
        let enough = Question { capacity, budget: steps, ..question };
        let words = work_words(capacity) as usize;
        let (exact, _) = self.ask(&enough, length, words);
        self.expect("the same answer with exactly enough", &enough, exact == answer && self.judged.output == bytes);
        match rng.below(5) {
            0 if steps > 0 => {
                let short = Question { budget: steps - 1, ..enough };
                let (answer, _) = self.ask(&short, length, words);
                self.expect("7 with a budget one too small", &short, answer.number == 7);
            }
            1 if nodes > 1 => {
                let capacity = nodes as u32 - 1;
                let short = Question { capacity, ..enough };
                let (answer, _) = self.ask(&short, length, words - 3);
                self.expect("6 with a capacity one too small", &short, answer.number == 6);
            }
            2 if length > 0 => {
                let (answer, _) = self.ask(&enough, length - 1, words);
                self.expect("8 with an output one too short", &enough, answer.number == 8);
            }
            3 => {
                let (answer, _) = self.ask(&enough, length, words - 1);
                self.expect("2 with a work slice one too short", &enough, answer.number == 2);
            }
            _ => {
                // Any smaller room: 6 or 7 as the walk meets it.
                let budget = rng.below(steps as usize + 1) as u64;
                let capacity = 1 + rng.below(capacity as usize) as u32;
                let short = Question { budget, capacity, ..enough };
                self.ask(&short, rng.below(length + 1), work_words(capacity) as usize);
            }
        }
    }

    /// What the reference reading must show of itself.
    fn expect(&mut self, what: &str, question: &Question<'_>, holds: bool) {
        if !holds {
            let size = question.formula.len() + question.environment.len();
            self.tally.differs(format!("reference: not {what}"), true, size, || told(question));
        }
    }

    /// One question to every side, held against the judge's answer, which is left in `judged`.
    fn ask(&mut self, question: &Question<'_>, output: usize, work: usize) -> (Answer, usize) {
        self.tally.asks();
        self.judged.dirty(output, work);
        let Room { output: page, work: memory } = &mut self.judged;
        let q = question;
        let (answer, nodes) = infer_counting(q.formula, q.environment, q.names, q.capacity, q.budget, page, memory);
        for side in &mut self.sides {
            match side.knows() {
                // It is asked once, where there is room.
                Knows::Verdicts if q.budget != BUDGET || matches!(answer.number, 2 | 5..=8) => continue,
                // More capacity changes nothing but 6, and the caller's work slice is not there.
                Knows::Answers if matches!(answer.number, 2 | 6) => continue,
                Knows::Verdicts => {}
                Knows::Answers => self.other.dirty(output, 0),
                Knows::Everything => self.other.dirty(output, work),
            }
            let heard = side.infer(q, &mut self.other);
            if heard == Heard::Nothing {
                continue;
            }
            self.tally.compared(side.name());
            let class = match &heard {
                Heard::Whole(other) => {
                    whole(&answer, &self.judged, other, &self.other, side.knows() == Knows::Everything)
                }
                _ => verdict(&answer, &self.judged.output, &heard),
            };
            if let Some(class) = class {
                let size = q.formula.len() + q.environment.len();
                let judged = hex(&self.judged.output[..answer.length as usize]);
                self.tally.differs(format!("{}: {class}", side.name()), !side.known_to_differ(), size, || {
                    format!("{}; reference {answer:?} {judged}; {} {heard:?}", told(q), side.name())
                });
            }
        }
        (answer, nodes)
    }

    /// A text read, a record written, each by every side.
    pub fn text(&mut self, rng: &mut Rng) {
        let case = text_case(rng);
        let room = if rng.chance(90) { 512 } else { rng.below(24) };
        self.read(&case.text, &case.table, room);
        let case = record_case(rng);
        let (room, position) = match rng.below(10) {
            0 => (rng.below(40), rng.below(40) as u64),
            1 => (rng.below(40), rng.next()),
            _ => (2_048, rng.below(8) as u64),
        };
        self.write(&case.record, &case.table, room, position);
    }

    fn read(&mut self, text: &[u8], table: &[u8], room: usize) {
        self.tally.asks();
        self.judged.dirty(room, 0);
        let answer = reference::text::read_text(text, table, &mut self.judged.output);
        self.tally.answered(format!("read: {}", number(&answer)));
        for side in &mut self.sides {
            if side.known_to_differ() || side.knows() == Knows::Answers {
                continue;
            }
            self.other.dirty(room, 0);
            let heard = side.read_text(text, table, &mut self.other.output);
            // The bought reader knows neither a page's length nor a record's depth nor a bad table.
            let beyond = matches!(answer.number, 2 | 8) || (answer.number == 5 && answer.place == 0);
            let class = match &heard {
                Heard::Nothing => continue,
                Heard::Whole(other) => whole(&answer, &self.judged, other, &self.other, false),
                _ if beyond => continue,
                _ => verdict(&answer, &self.judged.output, &heard),
            };
            self.tally.compared(&format!("{} (text read)", side.name()));
            if let Some(class) = class {
                self.tally.differs(format!("{}, text read: {class}", side.name()), true, text.len() + table.len(), || {
                    format!("text {} table {} page {room}; reference {answer:?}; {} {heard:?}", hex(text), hex(table), side.name())
                });
            }
        }
    }

    fn write(&mut self, record: &[u8], table: &[u8], room: usize, position: u64) {
        self.tally.asks();
        self.judged.dirty(room, 0);
        let answer = reference::text::write_text(record, table, &mut self.judged.output, position);
        self.tally.answered(format!("write: {}", number(&answer)));
        for side in &mut self.sides {
            if side.known_to_differ() || side.knows() == Knows::Answers {
                continue;
            }
            self.other.dirty(room, 0);
            let heard = side.write_text(record, table, &mut self.other.output, position);
            let class = match &heard {
                Heard::Nothing => continue,
                Heard::Whole(other) => whole(&answer, &self.judged, other, &self.other, false),
                _ if matches!(answer.number, 2 | 5 | 8) => continue,
                _ => verdict(&answer, self.judged.output.get(position as usize..).unwrap_or(&[]), &heard),
            };
            self.tally.compared(&format!("{} (text written)", side.name()));
            if let Some(class) = class {
                self.tally.differs(format!("{}, text written: {class}", side.name()), true, record.len() + table.len(), || {
                    format!("record {} table {} page {room} position {position}; reference {answer:?}; {} {heard:?}", hex(record), hex(table), side.name())
                });
            }
        }
    }

    /// Every operator over every pair of leaves, every limit, in several environments.
    pub fn systematic(&mut self, rng: &mut Rng) {
        for case in exhaustive::operators(&exhaustive::LEAVES, &exhaustive::ENVIRONMENTS) {
            self.case(&case, rng);
        }
        for case in exhaustive::limits().into_iter().chain(exhaustive::shapes()) {
            self.case(&case, rng);
            self.edges(&case, rng);
        }
    }

    /// A case at capacities, work slices and counts of names from both sides of number 2.
    fn edges(&mut self, case: &Case, rng: &mut Rng) {
        let capacity = *rng.pick(&[0, 1, 2, 3, 2_047, 32_767, 32_768, 32_769, u32::MAX]);
        let names = *rng.pick(&[case.names, case.names, case.names, 256, 257, u32::MAX]);
        let budget = *rng.pick(&[0, 1, 100, 1_000_000]);
        let question = Question { formula: &case.formula, environment: &case.environment, names, capacity, budget };
        let words = work_words(capacity.min(40_000)) as usize;
        let words = *rng.pick(&[0, words - 1, words, words, words + 1, words + 7]);
        let room = *rng.pick(&[0, 1, 8, 100, OUTPUT]);
        self.ask(&question, room, words);
    }

    /// Every byte string of at most `longest` bytes: as a formula and as an environment, and as a text and as a type record, each if it is asked for.
    pub fn strings(&mut self, longest: usize, infer: bool, text: bool, rng: &mut Rng, progress: &mut Progress) {
        let all = (0..=longest as u32).map(|length| 256u64.pow(length)).sum();
        for (done, bytes) in (0..).zip(exhaustive::strings(longest)) {
            progress.at("byte strings", done, all, &self.tally);
            if text {
                self.read(&bytes, &[0x81, b'S'], 16);
                self.write(&bytes, &[0x81, b'S'], 16, 1);
            }
            if !infer {
                continue;
            }
            let formula = Case { formula: bytes.clone(), environment: Vec::new(), names: 1 };
            self.case(&formula, rng);
            let environment = Case { formula: vec![0x20], environment: bytes, names: 1 };
            self.case(&environment, rng);
        }
    }
}

/// A question as a line.
fn told(q: &Question<'_>) -> String {
    format!(
        "formula {} environment {} names {} capacity {} budget {}",
        hex(q.formula),
        hex(q.environment),
        q.names,
        q.capacity,
        q.budget
    )
}

fn number(answer: &Answer) -> String {
    match answer.number {
        0 => "done".to_string(),
        n => format!("refused {n}"),
    }
}

/// An inference's answer by kind: its number and, for problems, which of them are listed.
fn kind(answer: &Answer, output: &[u8]) -> String {
    match answer.number {
        0 => "typed".to_string(),
        1 => {
            let mut problems: Vec<u8> = output[..answer.length as usize].chunks(8).map(|entry| entry[1]).collect();
            problems.sort_unstable();
            problems.dedup();
            format!("problems {problems:?}")
        }
        n => format!("refused {n}"),
    }
}

/// Where a whole answer differs from the judge's: every field, every byte of output and every word of work.
fn whole(answer: &Answer, judged: &Room, other: &Answer, room: &Room, work: bool) -> Option<String> {
    if answer.number != other.number {
        return Some(format!("number {} for {}", other.number, answer.number));
    }
    for (field, a, b) in [
        ("place", answer.place, other.place),
        ("length", answer.length, other.length),
        ("steps", answer.steps, other.steps),
    ] {
        if a != b {
            return Some(format!("{field} of number {}", answer.number));
        }
    }
    if judged.output != room.output {
        return Some(format!("output of number {}", answer.number));
    }
    if work && judged.work != room.work {
        return Some(format!("work of number {}", answer.number));
    }
    None
}

/// Where a bare verdict differs from the judge's: number and answer bytes, or that the input is malformed.
fn verdict(answer: &Answer, output: &[u8], heard: &Heard) -> Option<String> {
    let malformed = answer.number > 1;
    match heard {
        Heard::Malformed if malformed => None,
        Heard::Malformed => Some(format!("malformed for {}", answer.number)),
        Heard::Verdict { number, .. } if *number != answer.number => Some(format!("number {number} for {}", answer.number)),
        Heard::Verdict { output: bytes, .. } => {
            let judged = &output[..answer.length as usize];
            if judged == bytes.as_slice() {
                return None;
            }
            if answer.number == 0 {
                return Some("another typing".to_string());
            }
            let count = |bytes: &[u8], problem: u8| bytes.chunks(8).filter(|entry| entry.get(1) == Some(&problem)).count();
            let mut changes = String::new();
            for problem in 0..6 {
                let (a, b) = (count(judged, problem), count(bytes, problem));
                if a != b {
                    changes += &format!(" {} {problem}", if b > a { "more" } else { "fewer" });
                }
            }
            Some(format!("another list of problems:{}", if changes.is_empty() { " order or places".to_string() } else { changes }))
        }
        _ => None,
    }
}
