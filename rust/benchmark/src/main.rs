//! The port against the bought checker's `type_check`: the same formulas, one process, one build.
//!
//!     tools/archive host
//!     cargo run --offline --profile measure -p benchmark
//!
//! Three calls are timed: the bought `type_check` on its own formula; the port's inference at capacity 2,048 on the bytes; and the adapter's
//! `check_proved`, which takes the bought formula to bytes, asks, and rebuilds the typed formula. A time is the least of samples that are taken in
//! turn. `--quick` takes few and short samples, to see that it runs.

#[cfg(bought)]
mod formulas;
#[cfg(bought)]
mod measure;

use std::process::ExitCode;

fn main() -> ExitCode {
    let arguments: Vec<String> = std::env::args().skip(1).collect();
    let quick = match arguments.iter().map(String::as_str).collect::<Vec<_>>()[..] {
        [] => false,
        ["--quick"] => true,
        _ => {
            eprintln!("benchmark: takes nothing, or --quick");
            return ExitCode::from(64);
        }
    };
    run(quick)
}

#[cfg(not(bought))]
fn run(_: bool) -> ExitCode {
    bought::present_or_say("the benchmark");
    ExitCode::SUCCESS
}

#[cfg(bought)]
fn run(quick: bool) -> ExitCode {
    measure::table(quick)
}
