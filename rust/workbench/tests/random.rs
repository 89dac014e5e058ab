//! Answers, formulas, types and text from a seed: whatever comes in, nothing panics, and nothing is lost on the way through Rust's own types.

use generator::formula::{STYLES, Style, case};
use generator::text::{record_case, text_case};
use generator::{Rng, formula};
use workbench::{Checker, Formula, Names, ProblemKind, Refusal, Type, Verdict, read_type, write_record};

fn names(count: u32) -> Names {
    let row: Vec<String> = (0..count).map(|n| format!("n{n}")).collect();
    Names::from(row.iter().map(String::as_str))
}

fn put_type(ty: &Type, names: &Names, out: &mut Vec<u8>) {
    let before = names.len();
    let mut copy = names.clone();
    out.extend(ty.record(&mut copy));
    assert_eq!(copy.len(), before, "a name outside the row");
}

/// An answer's bytes from what was read of them.
fn bytes_of(verdict: &Verdict, names: &Names) -> Vec<u8> {
    let mut out = Vec::new();
    match verdict {
        Verdict::Typed(typing) => {
            for (name, ty) in &typing.names {
                out.push(0x50);
                out.extend(names.number(name).unwrap().to_le_bytes());
                put_type(ty, names, &mut out);
            }
            for slot in &typing.slots {
                out.push(0x51);
                out.extend((slot.place as u32).to_le_bytes());
                put_type(&slot.ty, names, &mut out);
                assert_eq!(typing.at(slot.place), Some(&slot.ty));
            }
        }
        Verdict::Problems(problems) => {
            for problem in problems {
                let (number, name) = match &problem.kind {
                    ProblemKind::TypesDoNotMatch => (0, 0xFFFF),
                    ProblemKind::Circularity => (1, 0xFFFF),
                    ProblemKind::UntypedExpression => (2, 0xFFFF),
                    ProblemKind::UntypedIdentifier(name) => (3, names.number(name).unwrap()),
                    ProblemKind::DanglingBoundIdentifier => (4, 0xFFFF),
                    ProblemKind::UncheckableApplication => (5, 0xFFFF),
                };
                out.extend([0x60, number]);
                out.extend((problem.place as u32).to_le_bytes());
                out.extend(u16::to_le_bytes(name));
            }
        }
        Verdict::Refused(_) => {}
    }
    out
}

#[test]
fn answers_and_formulas() {
    let mut rng = Rng::new(20);
    let checker = Checker { output: 64, budget: 1_000_000, ..Checker::default() };
    let mut counts = [0; 3];
    for round in 0..6_000 {
        let case = case(&mut rng, STYLES[round % STYLES.len()]);
        let names = names(case.names);
        let raw = checker.ask(&case.formula, &case.environment, case.names);
        let answer = checker.infer_bytes(&case.formula, &case.environment, &names);
        assert_eq!(bytes_of(&answer.verdict, &names), raw.bytes);
        assert_eq!(answer.steps, raw.steps);
        let number = match &answer.verdict {
            Verdict::Typed(_) => 0,
            Verdict::Problems(_) => 1,
            Verdict::Refused(refusal) => refusal.number(),
        };
        assert_eq!(number, raw.number);
        assert!(!format!("{answer:#}").is_empty());
        counts[number.min(2) as usize] += 1;

        // What the checker takes for a formula is read back, and written again byte for byte.
        let form = reference::form::formula(&case.formula, case.names);
        let read = Formula::read(&case.formula, &names);
        match form {
            Ok(_) => {
                let read = read.unwrap_or_else(|| panic!("{:02X?}", case.formula));
                let mut same = names.clone();
                assert_eq!(read.bytes(&mut same), case.formula, "{read}");
                assert_eq!(same, names);
                // A part stands at every slot and at every problem, and at no byte past the end.
                for place in 0..case.formula.len() + 2 {
                    let part = read.part(place);
                    let expected = answer.typing().is_some_and(|typing| typing.at(place).is_some())
                        || answer.problems().iter().any(|problem| problem.place == place);
                    assert!(part.is_some() || !expected, "{read} at {place}");
                    assert!(place < case.formula.len() || part.is_none());
                }
                assert!(answer.explain(&read).len() >= answer.to_string().len());
            }
            Err(fault) if fault.number == 4 => assert_eq!(read, None, "{:02X?}", case.formula),
            // Too many slots or declarations, or too deep: the last alone is judged.
            Err(_) => {}
        }
    }
    assert!(counts.iter().all(|count| *count > 500), "{counts:?}");
}

#[test]
fn deep_bytes_are_no_matter() {
    for kind in [0x25, 0x06, 0x0B, 0x43, 0x0C, 0x12] {
        let bytes = vec![kind; 16_384];
        assert_eq!(Formula::read(&bytes, &Names::new()), None);
        assert!(Checker::default().infer_bytes(&bytes, &[], &Names::new()).refusal().is_some());
    }
    let not = |count| [vec![0x25; count], vec![0x20]].concat();
    assert!(Formula::read(&not(64), &Names::new()).is_some());
    assert_eq!(Formula::read(&not(65), &Names::new()), None);
}

#[test]
fn type_text() {
    let mut rng = Rng::new(21);
    let mut read_count = 0;
    for _ in 0..20_000 {
        let case = text_case(&mut rng);
        let (Some(row), Ok(text)) = (reference::text::table(&case.table), std::str::from_utf8(&case.text)) else {
            continue;
        };
        let names = Names::from(row.iter().map(|name| std::str::from_utf8(name).unwrap()));
        assert_eq!(names.table(), case.table);
        let mut page = vec![0; 70_000];
        let expected = reference::text::read_text(&case.text, &case.table, &mut page);
        match read_type(text, &names) {
            Ok(ty) => {
                assert_eq!(expected.number, 0, "{text}");
                assert_eq!(ty.record(&mut names.clone()), page[..expected.length as usize], "{text}");
                assert_eq!(write_record(&page[..expected.length as usize], &names), Ok(ty.to_string()), "{text}");
                read_count += 1;
            }
            Err(refusal) => {
                let place = match refusal {
                    Refusal::MalformedText { place } | Refusal::TooLarge { place } => place,
                    other => panic!("{other}: {text}"),
                };
                assert_eq!((refusal.number(), place as u64), (expected.number, expected.place), "{text}");
            }
        }
        let case = record_case(&mut rng);
        if let Some(row) = reference::text::table(&case.table) {
            let names = Names::from(row.iter().map(|name| std::str::from_utf8(name).unwrap()));
            let mut page = vec![0; 70_000];
            let expected = reference::text::write_text(&case.record, &case.table, &mut page, 0);
            match write_record(&case.record, &names) {
                Ok(text) => assert_eq!(text.as_bytes(), &page[..expected.length as usize]),
                Err(refusal) => assert_eq!(refusal.number(), expected.number),
            }
        }
    }
    assert!(read_count > 2_000, "{read_count}");
}

/// The generator's planned formulas under their environments print in one line each and explain themselves.
#[test]
fn formulas_print() {
    let mut rng = Rng::new(22);
    for _ in 0..2_000 {
        let case = formula::case(&mut rng, Style::Planned);
        let text = Formula::read(&case.formula, &names(case.names)).unwrap().to_string();
        assert!(!text.contains('\n') && !text.is_empty());
        let (open, close) = (text.matches('(').count(), text.matches(')').count());
        assert_eq!(open, close, "{text}");
    }
}
