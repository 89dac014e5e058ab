//! Taking times and printing them.

use std::hint::black_box;
use std::process::ExitCode;
use std::time::{Duration, Instant};

use adapter::CheckProved;
use bought::driver::{self, Build, Built};
use bought::formula::SealedTypeEnvironment;
use workbench::Names;

use crate::formulas::{self, Measured};

/// How long a sample is at least, and how many are taken.
struct Effort {
    sample: Duration,
    samples: usize,
}

/// One formula, ready for both sides.
struct Ready {
    title: &'static str,
    formula: Vec<u8>,
    environment: Vec<u8>,
    names: u32,
    bought_formula: Built,
    bought_environment: SealedTypeEnvironment,
    /// The room that the answer is given: what it needs, in whole pages of 4,096 bytes.
    output: Vec<u8>,
    steps: u64,
    verdict: &'static str,
}

/// Makes both sides' forms, and sees that they answer alike.
fn ready(measured: Measured) -> Ready {
    let mut names = Names::new();
    let environment = measured.environment.bytes(&mut names);
    let formula = measured.formula.bytes(&mut names);
    let count = names.len() as u32;
    let title = measured.title;
    let bought_formula = driver::formula(Build::Factory, &formula, count).unwrap_or_else(|e| panic!("{title}: {e:?}"));
    let bought_environment = driver::environment(Build::Factory, &environment, count).unwrap();
    let mut output = vec![0; 1 << 20];
    let answer = port::infer(&formula, &environment, count, u64::MAX, &mut output);
    let bought_answer = driver::infer(Build::Factory, &formula, &environment, count).unwrap();
    assert_eq!(u32::from(bought_answer.number), answer.number, "{title}");
    assert!(bought_answer.output == output[..answer.length as usize], "{title}: the two answers differ");
    output.truncate((answer.length as usize).div_ceil(4_096).max(1) * 4_096);
    let verdict = if answer.number == 0 { "typed" } else { "problems" };
    Ready {
        title,
        formula,
        environment,
        names: count,
        bought_formula,
        bought_environment,
        output,
        steps: answer.steps,
        verdict,
    }
}

/// The three calls.
fn bought_call(ready: &Ready) {
    let environment = &ready.bought_environment;
    match &ready.bought_formula {
        Built::Expression(e) => drop(black_box(e.type_check(environment))),
        Built::Predicate(p) => drop(black_box(p.type_check(environment))),
        Built::Assignment(a) => drop(black_box(a.type_check(environment))),
    }
}

fn port_call(ready: &mut Ready) {
    let Ready { formula, environment, names, output, .. } = ready;
    black_box(port::infer(black_box(formula), black_box(environment), *names, u64::MAX, output));
}

fn adapter_call(ready: &Ready) {
    let environment = &ready.bought_environment;
    match &ready.bought_formula {
        Built::Expression(e) => drop(black_box(e.check_proved(environment))),
        Built::Predicate(p) => drop(black_box(p.check_proved(environment))),
        Built::Assignment(a) => drop(black_box(a.check_proved(environment))),
    }
}

/// Nanoseconds of one call, over so many.
fn sample(calls: u32, mut call: impl FnMut()) -> f64 {
    let start = Instant::now();
    for _ in 0..calls {
        call();
    }
    start.elapsed().as_nanos() as f64 / f64::from(calls)
}

/// So many calls that they take about as long as a sample should.
fn calls(effort: &Effort, mut call: impl FnMut()) -> u32 {
    let mut calls = 1;
    loop {
        let start = Instant::now();
        for _ in 0..calls {
            call();
        }
        if start.elapsed() >= effort.sample || calls >= 1 << 20 {
            return calls;
        }
        calls *= 2;
    }
}

/// The least, which other work on the machine disturbs the least.
fn least(samples: Vec<f64>) -> f64 {
    samples.into_iter().fold(f64::INFINITY, f64::min)
}

/// The least times of the three calls, their samples taken in turn.
fn times(ready: &mut Ready, effort: &Effort) -> [f64; 3] {
    let counts = [
        calls(effort, || bought_call(ready)),
        calls(effort, || port_call(ready)),
        calls(effort, || adapter_call(ready)),
    ];
    let mut samples = [Vec::new(), Vec::new(), Vec::new()];
    for _ in 0..effort.samples {
        samples[0].push(sample(counts[0], || bought_call(ready)));
        samples[1].push(sample(counts[1], || port_call(ready)));
        samples[2].push(sample(counts[2], || adapter_call(ready)));
    }
    samples.map(least)
}

pub fn table(quick: bool) -> ExitCode {
    let effort = if quick {
        Effort { sample: Duration::from_micros(200), samples: 3 }
    } else {
        Effort { sample: Duration::from_millis(10), samples: 25 }
    };
    let side = if port::PROVED { "port" } else { "reference reading" };
    println!(
        "Times of one call in microseconds, the least of {} samples; a ratio is to the bought checker's time.\n",
        effort.samples
    );
    println!("| formula | bytes | verdict | steps | bought `type_check` | {side} | ratio | swapped call | ratio |");
    println!("|---|--:|---|--:|--:|--:|--:|--:|--:|");
    let mut logarithms = [0.0, 0.0];
    let all = formulas::all();
    let count = all.len() as f64;
    for measured in all {
        let mut ready = ready(measured);
        let [bought, port, adapter] = times(&mut ready, &effort);
        let ratios = [port / bought, adapter / bought];
        for (sum, ratio) in logarithms.iter_mut().zip(ratios) {
            *sum += ratio.ln();
        }
        println!(
            "| {} | {} | {} | {} | {:.2} | {:.2} | {:.2} | {:.2} | {:.2} |",
            ready.title,
            ready.formula.len(),
            ready.verdict,
            ready.steps,
            bought / 1_000.0,
            port / 1_000.0,
            ratios[0],
            adapter / 1_000.0,
            ratios[1]
        );
    }
    let [port, adapter] = logarithms.map(|sum| (sum / count).exp());
    println!("| geometric mean | | | | | | {port:.2} | | {adapter:.2} |\n");
    println!("The swapped call takes the bought formula to bytes, asks, and rebuilds the typed formula.");
    if env!("BUILD_PROFILE") != "measure" {
        println!("This build may have checks in it: `cargo run --offline --profile measure -p benchmark` has none.");
    }
    if !port::PROVED {
        println!(
            "This is NOT a measurement of the port: no archive was at {} when this was built, and the {} answered.",
            port::ARCHIVE,
            port::BACKEND
        );
    }
    ExitCode::SUCCESS
}
