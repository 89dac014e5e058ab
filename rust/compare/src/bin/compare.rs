//! Compares the reference reading with every side that is there: the bought checker (exact, and through its factory), the proved entries.
//!
//!     compare [--cases N] [--seed S] [--strings L] [--only infer|text] [--sides bought,factory,port]
//!
//! N formulas and N/8 texts from the seed, every operator over every pair of leaves, every limit, and every byte string of at most L bytes. A progress
//! line goes to the terminal, or to a log once a minute. The exit status is 1 where a difference is found that is not of a known class.

use std::time::Instant;

use compare::progress::Progress;
use compare::run::Run;
use compare::side::others;
use generator::formula::STYLES;
use generator::Rng;

fn main() {
    let mut cases: u64 = 1_000_000;
    let mut seed: u64 = 1;
    let mut strings: usize = 2;
    let (mut infer, mut text) = (true, true);
    let mut wanted = "bought,factory,port".to_string();
    let mut arguments = std::env::args().skip(1);
    while let Some(argument) = arguments.next() {
        let value = arguments.next().unwrap_or_else(|| fail(&format!("{argument} has no value")));
        let number = || value.parse::<u64>().unwrap_or_else(|_| fail(&format!("no number: {value}")));
        match argument.as_str() {
            "--cases" => cases = number(),
            "--seed" => seed = number(),
            "--strings" => strings = number() as usize,
            "--sides" => wanted = value,
            "--only" => match value.as_str() {
                "infer" => text = false,
                "text" => infer = false,
                _ => fail(&format!("no part: {value}")),
            },
            _ => fail(&format!("no such option: {argument}")),
        }
    }
    let mut sides = others();
    sides.retain(|side| {
        let short = match side.name() {
            "bought" => "bought",
            "bought through its factory" => "factory",
            _ => "port",
        };
        wanted.split(',').any(|name| name == short)
    });
    bought::present_or_say("comparing with the bought checker");
    if !port::PROVED {
        eprintln!("skipped: the static library is not at {} (comparing with the proved entries)", port::ARCHIVE);
    }
    let names: Vec<&str> = sides.iter().map(|side| side.name()).collect();
    println!("seed {seed}, {cases} formulas, strings to length {strings}; reference against: {}", names.join(", "));

    let start = Instant::now();
    let mut progress = Progress::new();
    let mut run = Run::new(sides);
    let mut rng = Rng::new(seed);
    if infer {
        run.systematic(&mut rng);
    }
    run.strings(strings, infer, text, &mut rng, &mut progress);
    for i in 0..cases {
        if infer {
            let style = STYLES[(i % STYLES.len() as u64) as usize];
            run.formula(&mut rng, style);
        }
        if text && i % 8 == 0 {
            run.text(&mut rng);
        }
        progress.at("formulas", i, cases, &run.tally);
    }
    progress.ended();
    print!("{}", run.tally.report());
    println!("  {:>12.1}  seconds", start.elapsed().as_secs_f64());
    if run.tally.faults() > 0 {
        std::process::exit(1);
    }
}

fn fail(why: &str) -> ! {
    eprintln!("{why}\ncompare [--cases N] [--seed S] [--strings L] [--only infer|text] [--sides bought,factory,port]");
    std::process::exit(2)
}
