//! The benchmark runs, prints a row for each formula, and says what it measured.

use std::process::Command;

#[test]
fn quickly() {
    let out = Command::new(env!("CARGO_BIN_EXE_benchmark")).arg("--quick").output().unwrap();
    assert!(out.status.success(), "{}", String::from_utf8_lossy(&out.stderr));
    let text = String::from_utf8(out.stdout).unwrap();
    if !bought::PRESENT {
        assert!(text.is_empty() && String::from_utf8_lossy(&out.stderr).starts_with("skipped: "));
        return;
    }
    for title in [
        "case 1 (x ∈ ℤ)",
        "100 memberships",
        "chain of 50 equalities",
        "chain of 50, reversed",
        "chain of 200 equalities",
        "chain of 200, reversed",
        "chain of 255 equalities",
        "chain of 255, reversed",
        "chain of 255, its ends compared 250 times more",
        "the same, reversed",
        "one name equal to each of 255",
        "sum of 100 products",
        "60 compositions",
        "40 quantified applications",
        "a partition of 80",
    ] {
        let row = format!("| {title} |");
        assert_eq!(text.lines().filter(|line| line.starts_with(&row)).count(), 1, "{title}");
    }
    // Without the archive nothing is called a measurement of the port.
    assert_eq!(text.contains("NOT a measurement of the port"), !port::PROVED);
    assert_eq!(text.contains("| port |"), port::PROVED);
}
