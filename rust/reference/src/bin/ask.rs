//! A quick question to the reference reading.
//!
//!     ask infer FORMULA ENVIRONMENT NAMES [CAPACITY [BUDGET [OUTPUT]]]
//!     ask read TEXT TABLE [PAGE]
//!     ask write RECORD TABLE [PAGE [POSITION]]
//!
//! FORMULA, ENVIRONMENT and RECORD are hexadecimal (spaces and `-` for nothing allowed), TEXT is plain text or `hex:..`, TABLE names
//! with commas between them, or `-`. Lengths are in bytes. It prints number, place, length, steps, nodes made and the bytes written.

use reference::{infer_counting, text, work_words};

fn fail(why: &str) -> ! {
    eprintln!("{why}");
    eprintln!("ask infer FORMULA ENVIRONMENT NAMES [CAPACITY [BUDGET [OUTPUT]]]");
    eprintln!("ask read TEXT TABLE [PAGE]");
    eprintln!("ask write RECORD TABLE [PAGE [POSITION]]");
    std::process::exit(2)
}

fn hex(text: &str) -> Vec<u8> {
    let digits: Vec<char> = text.chars().filter(|c| !c.is_whitespace() && *c != '-').collect();
    if digits.len() % 2 != 0 {
        fail(&format!("an odd number of digits: {text}"));
    }
    let two = |pair: &[char]| u8::from_str_radix(&String::from_iter(pair), 16);
    digits.chunks(2).map(|pair| two(pair).unwrap_or_else(|_| fail(&format!("no hexadecimal: {text}")))).collect()
}

fn shown(bytes: &[u8]) -> String {
    bytes.iter().map(|b| format!("{b:02X}")).collect::<Vec<_>>().join(" ")
}

fn number(arguments: &[String], at: usize, otherwise: u64) -> u64 {
    match arguments.get(at) {
        None => otherwise,
        Some(text) => text.parse().unwrap_or_else(|_| fail(&format!("no number: {text}"))),
    }
}

fn table(names: &str) -> Vec<u8> {
    if names == "-" {
        return Vec::new();
    }
    names.split(',').flat_map(|name| [vec![0x80 + name.len() as u8], name.as_bytes().to_vec()].concat()).collect()
}

fn main() {
    let arguments: Vec<String> = std::env::args().skip(1).collect();
    let given = |at: usize| arguments.get(at).map_or_else(|| fail("too few arguments"), String::as_str);
    match given(0) {
        "infer" => {
            let (formula, environment) = (hex(given(1)), hex(given(2)));
            given(3);
            let names = number(&arguments, 3, 0) as u32;
            let capacity = number(&arguments, 4, 2_048) as u32;
            let budget = number(&arguments, 5, u64::MAX);
            let mut output = vec![0xAA; number(&arguments, 6, 65_536) as usize];
            let mut work = vec![0; work_words(capacity) as usize];
            let (answer, nodes) =
                infer_counting(&formula, &environment, names, capacity, budget, &mut output, &mut work);
            println!("number {} place {} length {} steps {} nodes {nodes}", answer.number, answer.place, answer.length, answer.steps);
            println!("{}", shown(&output[..answer.length as usize]));
        }
        "read" => {
            let text = match given(1).strip_prefix("hex:") {
                Some(digits) => hex(digits),
                None => given(1).as_bytes().to_vec(),
            };
            let mut page = vec![0; number(&arguments, 3, 65_536) as usize];
            let answer = text::read_text(&text, &table(given(2)), &mut page);
            println!("number {} place {} length {}", answer.number, answer.place, answer.length);
            println!("{}", shown(&page[..answer.length as usize]));
        }
        "write" => {
            let mut page = vec![0; number(&arguments, 3, 65_536) as usize];
            let position = number(&arguments, 4, 0);
            let answer = text::write_text(&hex(given(1)), &table(given(2)), &mut page, position);
            println!("number {} place {} length {}", answer.number, answer.place, answer.length);
            let from = position as usize;
            if answer.length > 0 {
                println!("{}", String::from_utf8_lossy(&page[from..from + answer.length as usize]));
            }
        }
        other => fail(&format!("no question: {other}")),
    }
}
