//! A ledger's rounding rule: one that types, one that does not, and one that fits more than one typing.
//!
//!     cargo run --release --offline -p workbench --example ledger

use workbench::{BACKEND, Environment, Expression, Formula, PROVED, Predicate, Type, for_all, infer, integers, name};

/// Carrier sets, and what the ledger knows: the period of each transaction, and its amount.
fn ledger() -> Environment {
    let transaction = || Type::given("TRANSACTION");
    Environment::new()
        .carrier_set("PERIOD")
        .carrier_set("TRANSACTION")
        .carrier_set("DESIGNER")
        .with("period", Type::relation(transaction(), Type::given("PERIOD")))
        .with("amount", Type::relation(transaction(), Type::Int))
}

/// A rounding is fixed for each PERIOD; every transaction is booked with the rounding that is asked for.
fn booked_with(rounding_of_t: Expression) -> Predicate {
    let fixed = name("rounding").is_in(name("PERIOD").total_functions(integers()));
    let booked = name("booked").of("t").equals(name("amount").of("t").plus(rounding_of_t));
    fixed.and(for_all(["t"], name("t").is_in("TRANSACTION").implies(booked)))
}

fn ask(title: &str, rule: Predicate, environment: &Environment) {
    let rule = Formula::from(rule);
    let answer = infer(&rule, environment);
    println!("{title}\n    {rule}");
    for line in answer.explain(&rule).lines() {
        println!("  {line}");
    }
    println!();
}

fn main() {
    if !PROVED {
        eprintln!("warning: the proved archive is not built; the {BACKEND} answers\n");
    }
    let environment = ledger();
    println!("{environment}");
    ask(
        "The rounding of the transaction's period:",
        booked_with(name("rounding").of(name("period").of("t"))),
        &environment,
    );
    ask("The rounding of the transaction itself:", booked_with(name("rounding").of("t")), &environment);
    ask(
        "An advance that equals what was settled, whatever that is:",
        for_all(["d"], name("d").is_in("DESIGNER").implies(name("advance").of("d").equals(name("settled").of("d")))),
        &environment,
    );
}
