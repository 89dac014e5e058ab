//! What is measured.

use workbench::{
    AssociativeOperator, Environment, Formula, Predicate, Type, associative, declare, for_all, integers, literal, name,
    partition, set, sum,
};

/// A formula under an environment, and what it is called.
pub struct Measured {
    pub title: &'static str,
    pub formula: Formula,
    pub environment: Environment,
}

fn numbered(letter: &str, number: usize) -> workbench::Expression {
    name(format!("{letter}{number}"))
}

/// x0 = x1 ∧ x1 = x2 ∧ .. of so many equalities, and the last name an integer; or each equality the other way round.
fn chain(equalities: usize, reversed: bool) -> Formula {
    reused_chain(equalities, reversed, 0)
}

/// The same chain, whose first and last name are then compared again and again.
fn reused_chain(equalities: usize, reversed: bool, again: usize) -> Formula {
    let equal = |n| {
        let (left, right) = (numbered("x", n), numbered("x", n + 1));
        if reversed { right.equals(left) } else { left.equals(right) }
    };
    let mut all: Vec<Predicate> = (0..equalities).map(equal).collect();
    all.extend((0..again).map(|_| numbered("x", 0).equals(numbered("x", equalities))));
    all.push(numbered("x", equalities).is_in(integers()));
    Predicate::And(all).into()
}

/// x0 = x1 ∧ x0 = x2 ∧ .. of so many equalities, and the last name an integer.
fn star(equalities: usize) -> Formula {
    let mut all: Vec<Predicate> = (1..=equalities).map(|n| numbered("x", 0).equals(numbered("x", n))).collect();
    all.push(numbered("x", equalities).is_in(integers()));
    Predicate::And(all).into()
}

/// A formula whose names no environment holds.
fn unheld(title: &'static str, formula: Formula) -> Measured {
    Measured { title, formula, environment: Environment::new() }
}

pub fn all() -> Vec<Measured> {
    let sets = || Environment::new().carrier_set("PERIOD").carrier_set("TRANSACTION").carrier_set("DESIGNER");
    let given = |name: &str| Type::given(name);
    let relation = Type::relation(given("TRANSACTION"), given("TRANSACTION"));
    let ledger = sets()
        .with("period", Type::relation(given("TRANSACTION"), given("PERIOD")))
        .with("amount", Type::relation(given("TRANSACTION"), Type::Int));

    // ∀t·t ∈ TRANSACTION ⇒ booked(t) = amount(t) + rounding(period(t)), and the rounding fixed per PERIOD.
    let booked = |t: &str, booked: &str| {
        let value = name("amount").of(t).plus(name("rounding").of(name("period").of(t)));
        for_all([t], name(t).is_in("TRANSACTION").implies(name(booked).of(t).equals(value)))
    };
    let fixed = || name("rounding").is_in(name("PERIOD").total_functions(integers()));

    vec![
        unheld("case 1 (x ∈ ℤ)", name("x").is_in(integers()).into()),
        Measured {
            title: "the ledger rule",
            formula: fixed().and(booked("t", "booked")).into(),
            environment: ledger.clone(),
        },
        Measured {
            title: "100 memberships",
            formula: Predicate::And((0..100).map(|n| numbered("x", n).is_in("PERIOD")).collect()).into(),
            environment: sets(),
        },
        unheld("chain of 50 equalities", chain(50, false)),
        unheld("chain of 50, reversed", chain(50, true)),
        unheld("chain of 200 equalities", chain(200, false)),
        unheld("chain of 200, reversed", chain(200, true)),
        unheld("chain of 255 equalities", chain(255, false)),
        unheld("chain of 255, reversed", chain(255, true)),
        unheld("chain of 255, its ends compared 250 times more", reused_chain(255, false, 250)),
        unheld("the same, reversed", reused_chain(255, true, 250)),
        unheld("one name equal to each of 255", star(255)),
        unheld(
            "sum of 100 products",
            name("total")
                .equals(sum((0..100).map(|n| numbered("a", n).times(numbered("b", n).plus(literal(1))))))
                .into(),
        ),
        Measured {
            title: "60 compositions",
            formula: name("all")
                .equals(associative(AssociativeOperator::ForwardComposition, (0..60).map(|n| numbered("r", n))))
                .into(),
            environment: (0..60).fold(sets(), |e, n| e.with(format!("r{n}"), relation.clone())),
        },
        Measured {
            title: "40 quantified applications",
            formula: Predicate::And(
                [fixed()].into_iter().chain((0..40).map(|n| booked("t", &format!("booked{n}")))).collect(),
            )
            .into(),
            environment: ledger,
        },
        Measured {
            title: "a partition of 80",
            formula: partition([name("PERIOD")].into_iter().chain((0..80).map(|n| set([numbered("p", n)])))).into(),
            environment: sets(),
        },
        Measured {
            title: "30 annotated declarations",
            formula: for_all(
                (0..30).map(|n| declare(format!("d{n}")).annotated(relation.clone())),
                Predicate::And((0..29).map(|n| numbered("d", n).equals(numbered("d", n + 1))).collect()),
            )
            .into(),
            environment: sets(),
        },
        unheld(
            "40 clashes",
            Predicate::And((0..40).map(|n| numbered("x", n).plus(literal(1)).is_in(numbered("x", n))).collect()).into(),
        ),
    ]
}
