//! One call swapped: the bought checker's `type_check`, and the proved checker's `check_proved` on the same formula.
//!
//!     cargo run --release --offline -p adapter --example swap

#[cfg(not(bought))]
fn main() {
    bought::present_or_say("the swapped call");
}

#[cfg(bought)]
fn main() {
    use adapter::CheckProved;
    use bought::ast::Span;
    use bought::formula::tag::{BinaryExprOp, RelationalOp};
    use bought::formula::{FormulaFactory, Type, TypeEnvironmentBuilder};

    // A rounding that is fixed per PERIOD, asked of a TRANSACTION.
    let text = "rounding(sale) = 0";
    let mut environment = TypeEnvironmentBuilder::new();
    environment.add_given_set("PERIOD");
    environment.add_given_set("TRANSACTION");
    environment.insert("rounding", Type::relation(Type::given("PERIOD"), Type::Int));
    environment.insert("sale", Type::given("TRANSACTION"));
    let environment = environment.into_snapshot();

    let f = FormulaFactory::default_factory();
    let span = |start, end| Some(Span { start, end });
    let rounding = f.free_identifier("rounding", span(0, 8), None);
    let sale = f.free_identifier("sale", span(9, 13), None);
    let applied = f.binary_expression(BinaryExprOp::FunImage, rounding, sale, span(0, 14));
    let zero = f.integer_literal(0, span(17, 18));
    let rule = f.relational_predicate(RelationalOp::Equal, applied, zero, span(0, 18));

    let before = rule.type_check(&environment).problems;
    let after = rule.check_proved(&environment).expect("well within the limits").problems;
    assert_eq!(before, after);
    println!("{text}");
    for problem in after {
        let at = problem.span.map_or("", |span| &text[span.start..span.end]);
        println!("{:?} at {at} ({})", problem.kind, workbench::BACKEND);
    }
}
