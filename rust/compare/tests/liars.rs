//! The comparison itself: a side that answers as the reference reading does is found to agree, and one that is wrong in any one thing, once, is found out.

use compare::run::Run;
use compare::side::{Heard, Knows, Port, Question, Reference, Room, Side};
use generator::formula::STYLES;
use generator::Rng;

/// What a liar gets wrong.
#[derive(Clone, Copy, PartialEq)]
enum Lie {
    None,
    Number,
    Place,
    Length,
    Steps,
    FirstByte,
    LastByte,
    LastWord,
    TouchedAfterTwo,
}

struct Liar(Lie);

impl Liar {
    fn bend(&self, heard: Heard, output: &mut [u8], work: &mut [u32]) -> Heard {
        let Heard::Whole(mut answer) = heard else { panic!("the reference answers wholly") };
        match self.0 {
            Lie::None => {}
            Lie::Number if answer.number == 4 => answer.number = 5,
            Lie::Place if answer.place > 0 => answer.place -= 1,
            Lie::Length if answer.length > 0 => answer.length -= 1,
            Lie::Steps if answer.steps > 20 => answer.steps += 1,
            Lie::FirstByte if answer.length > 0 => output[0] ^= 1,
            Lie::LastByte if answer.number != 2 => {
                if let Some(last) = output.last_mut() {
                    *last ^= 0x80;
                }
            }
            Lie::LastWord if answer.number == 1 => {
                if let Some(last) = work.last_mut() {
                    *last = 1;
                }
            }
            Lie::TouchedAfterTwo if answer.number == 2 => {
                if let Some(first) = work.first_mut() {
                    *first = 0;
                }
            }
            _ => {}
        }
        Heard::Whole(answer)
    }
}

impl Side for Liar {
    fn name(&self) -> &'static str {
        "liar"
    }

    fn knows(&self) -> Knows {
        Knows::Everything
    }

    fn infer(&mut self, question: &Question<'_>, room: &mut Room) -> Heard {
        let heard = Reference.infer(question, room);
        self.bend(heard, &mut room.output, &mut room.work)
    }

    fn read_text(&mut self, text: &[u8], table: &[u8], page: &mut [u8]) -> Heard {
        Reference.read_text(text, table, page)
    }

    fn write_text(&mut self, record: &[u8], table: &[u8], page: &mut [u8], position: u64) -> Heard {
        Reference.write_text(record, table, page, position)
    }
}

fn faults(side: Box<dyn Side>) -> u64 {
    let mut run = Run::new(vec![side]);
    let mut rng = Rng::new(5);
    for i in 0..1_000 {
        run.formula(&mut rng, STYLES[i % STYLES.len()]);
        run.text(&mut rng);
    }
    run.tally.faults()
}

#[test]
fn liars_are_found_out() {
    assert_eq!(faults(Box::new(Liar(Lie::None))), 0);
    for lie in [
        Lie::Number,
        Lie::Place,
        Lie::Length,
        Lie::Steps,
        Lie::FirstByte,
        Lie::LastByte,
        Lie::LastWord,
        Lie::TouchedAfterTwo,
    ] {
        assert!(faults(Box::new(Liar(lie))) > 0, "lie {}", lie as u8);
    }
}

#[test]
fn the_port_or_its_stand_in_agrees() {
    assert_eq!(faults(Box::new(Port::Lent)), 0);
    assert_eq!(faults(Box::new(Port::Own)), 0);
}
