//! The command as it is run: what it prints, where, and its exit status.

use std::io::Write;
use std::path::{Path, PathBuf};
use std::process::{Command, Stdio};

struct Ran {
    status: i32,
    output: String,
    /// Standard error, without the warning that no archive was linked.
    errors: String,
}

fn run_with(arguments: &[&str], input: &[u8]) -> Ran {
    let mut child = Command::new(env!("CARGO_BIN_EXE_typecheck"))
        .args(arguments)
        .current_dir(Path::new(env!("CARGO_MANIFEST_DIR")).join("ledger"))
        .stdin(Stdio::piped())
        .stdout(Stdio::piped())
        .stderr(Stdio::piped())
        .spawn()
        .unwrap();
    // The command may end before it has read anything.
    let _ = child.stdin.take().unwrap().write_all(input);
    let out = child.wait_with_output().unwrap();
    let errors = String::from_utf8(out.stderr).unwrap();
    let warned = errors.contains("the proved archive is not built");
    let errors: String = errors
        .lines()
        .filter(|line| !line.contains("warning: the proved archive is not built"))
        .map(|line| format!("{line}\n"))
        .collect();
    assert!(!warned || !workbench::PROVED, "a warning without need");
    Ran { status: out.status.code().unwrap(), output: String::from_utf8(out.stdout).unwrap(), errors }
}

fn run(arguments: &[&str]) -> Ran {
    run_with(arguments, b"")
}

/// Status and output of a run that prints no error.
fn says(arguments: &[&str], status: i32, output: &str) {
    let ran = run(arguments);
    assert_eq!((ran.status, ran.output.as_str(), ran.errors.as_str()), (status, output, ""), "{arguments:?}");
}

/// The message of a run that cannot ask.
fn complains(arguments: &[&str], message: &str) {
    let ran = run(arguments);
    assert_eq!((ran.status, ran.output.as_str()), (64, ""), "{arguments:?}");
    assert_eq!(ran.errors, format!("typecheck: {message}\ntypecheck: --help says how to ask\n"), "{arguments:?}");
}

const CASE_1: &str = "22 06 01 0000 04 00";

#[test]
fn the_ledger() {
    let ask = |file| run(&["--names", "names.txt", "--file", file]);
    let typed = ask("per-period.hex");
    assert_eq!((typed.status, typed.errors.as_str()), (0, ""));
    let lines: Vec<&str> = typed.output.lines().collect();
    assert!(lines[0].starts_with("typed, in ") && lines[0].ends_with(" steps"), "{}", lines[0]);
    assert_eq!(lines[1..], ["rounding : ℙ(PERIOD×ℤ)", "booked : ℙ(TRANSACTION×ℤ)"]);

    let wrong = ask("per-transaction.hex");
    assert_eq!(wrong.status, 1);
    assert_eq!(wrong.output.lines().skip(1).collect::<Vec<_>>(), ["types do not match at byte 49: rounding(v1)"]);

    let open = ask("ambiguous.hex");
    assert_eq!(open.status, 1);
    assert_eq!(
        open.output.lines().skip(1).collect::<Vec<_>>(),
        [
            "the type of advance is not determined, first met at byte 16",
            "the type of settled is not determined, first met at byte 24"
        ]
    );
}

/// The files are the formulas of the workbench's example, byte for byte.
#[test]
fn the_ledgers_bytes() {
    use workbench::{Environment, Formula, Predicate, for_all, integers, name};
    let folder = Path::new(env!("CARGO_MANIFEST_DIR")).join("ledger");
    let (names, _) = Environment::parse(&std::fs::read_to_string(folder.join("names.txt")).unwrap()).unwrap();
    let booked_with = |rounding_of_t| -> Predicate {
        let fixed = name("rounding").is_in(name("PERIOD").total_functions(integers()));
        let booked = name("booked").of("t").equals(name("amount").of("t").plus(rounding_of_t));
        fixed.and(for_all(["t"], name("t").is_in("TRANSACTION").implies(booked)))
    };
    let open =
        for_all(["d"], name("d").is_in("DESIGNER").implies(name("advance").of("d").equals(name("settled").of("d"))));
    for (file, formula) in [
        ("per-period.hex", booked_with(name("rounding").of(name("period").of("t")))),
        ("per-transaction.hex", booked_with(name("rounding").of("t"))),
        ("ambiguous.hex", open),
    ] {
        let text = std::fs::read_to_string(folder.join(file)).unwrap();
        assert_eq!(text.lines().next(), Some(format!("# {formula}").as_str()));
        let digits: String = text.lines().map(|line| line.split('#').next().unwrap()).collect();
        let digits: String = digits.split_whitespace().collect();
        let bytes = Formula::from(formula).bytes(&mut names.clone());
        assert_eq!(digits, bytes.iter().map(|byte| format!("{byte:02X}")).collect::<String>(), "{file}");
    }
}

#[test]
fn verdicts() {
    says(&["--name", "x", CASE_1], 0, "typed, in 12 steps\nx : ℤ\n");
    says(&["--name=x", "--slots", CASE_1], 0, "typed, in 12 steps\nx : ℤ\nbyte 2 : ℤ\nbyte 5 : ℙ(ℤ)\n");
    says(&["--name", "x : ℤ", "2206010000 0400"], 0, "typed, in 8 steps\n");
    says(&["--name", "x : BOOL", CASE_1], 1, "not typed, in 5 steps\ntypes do not match at byte 0: x ∈ ℤ\n");
    says(&["20"], 0, "typed, in 1 step\n");
    says(&["--show", "--name", "x", CASE_1], 0, "x ∈ ℤ\ntyped, in 12 steps\nx : ℤ\n");
    says(&["--show", "--name", "x", "22 06 01 0000"], 2, "refused: the formula is malformed at byte 5 (number 4)\n");
    says(&["--quiet", "20"], 0, "");
    says(&["--quiet", "02 0000"], 1, "");
    says(&["--quiet", "05 0000"], 2, "");
    says(&["02 0000"], 1, "not typed, in 1 step\na bound index has no declaration at byte 0: bound 0\n");
}

#[test]
fn refusals() {
    says(&["22 06 01 0000"], 2, "refused: the formula is malformed at byte 2 (number 4)\n");
    says(&["--name", "x", "22 06 01 0000"], 2, "refused: the formula is malformed at byte 5 (number 4)\n");
    says(&[""], 2, "refused: the formula is malformed at byte 0 (number 4)\n");
    says(&["--name", "x", "--budget", "11", CASE_1], 2, "refused: the budget is spent (number 7)\n");
    says(&["--name", "x", "--capacity", "3", CASE_1], 2, "refused: the capacity is used (number 6)\n");
    says(
        &["--name", "x", "--largest-output", "16", CASE_1],
        2,
        "refused: the answer is longer than the largest output (number 8)\n",
    );
    says(
        &["--name", "x", "--budget", "12", "--capacity=4", "--largest-output=17", CASE_1],
        0,
        "typed, in 12 steps\nx : ℤ\n",
    );
    let ran = run(&["--capacity", "32,769", "20"]);
    assert!(ran.status == 2 && ran.output.starts_with("refused: a size is outside its limits"), "{}", ran.output);
    let deep = "25".repeat(65) + "20";
    let ran = run(&[&deep]);
    assert!(ran.status == 2 && ran.output.ends_with("at byte 65 (number 5)\n"), "{}", ran.output);
}

#[test]
fn types() {
    says(&["--name", "S", "--read-type", "(ℙ(S×ℤ))"], 0, "ℙ(S×ℤ)\n43 44 42 00 00 41\n");
    says(&["--read-type", "ℤ×"], 2, "refused: the text is malformed at byte 5 (number 4)\n");
    says(&["--name", "S", "--write-type", "43 44 42 0000 41"], 0, "ℙ(S×ℤ)\n");
    says(&["--write-type", "43 44 42 0000 41"], 2, "refused: the type is malformed at byte 2 (number 4)\n");
}

#[test]
fn files_and_standard_input() {
    let folder = PathBuf::from(env!("CARGO_TARGET_TMPDIR"));
    let (raw, names) = (folder.join("case_1.bytes"), folder.join("names.txt"));
    std::fs::write(&raw, [0x22, 6, 0x01, 0, 0, 0x04, 0]).unwrap();
    std::fs::write(&names, "# one name\n\nx\n").unwrap();
    let (raw, names) = (raw.to_str().unwrap(), names.to_str().unwrap());
    says(&["--names", names, "--bytes", raw], 0, "typed, in 12 steps\nx : ℤ\n");
    let ran = run_with(&["--names", names, "--file", "-"], b"22 06 # member\n01 0000\n04 00\n");
    assert_eq!((ran.status, ran.output.as_str()), (0, "typed, in 12 steps\nx : ℤ\n"));
    let ran = run_with(&["--names", names, "--bytes", "-"], &[0x22, 6, 0x01, 0, 0, 0x04, 0]);
    assert_eq!((ran.status, ran.output.as_str()), (0, "typed, in 12 steps\nx : ℤ\n"));
    // Names keep the order in which they are given.
    says(
        &["--name", "y : BOOL", "--names", names, "--name", "z : ℤ", "22 00 01 0100 01 0200"],
        0,
        "typed, in 10 steps\nx : ℤ\n",
    );
}

#[test]
fn questions_that_cannot_be_asked() {
    complains(&[], "there is no formula");
    complains(&["--frob", "20"], "there is no option --frob");
    complains(&["-x"], "there is no option -x");
    complains(&["--file"], "--file wants a value");
    complains(&["--quiet=yes", "20"], "--quiet takes no value");
    complains(&["20", "20"], "more than one formula or type (hexadecimal with blanks wants quotes)");
    complains(&["--budget", "many", "20"], "--budget \"many\": no number that fits");
    complains(&["--capacity", "4294967296", "20"], "--capacity \"4294967296\": no number that fits");
    complains(&["--name", " ", "20"], "--name wants a name");
    complains(&["2"], "1 hexadecimal digits, and a byte has two");
    complains(&["2x"], "'x' on line 1 is no hexadecimal digit");
    complains(&["--file", "no such file"], "no such file: No such file or directory (os error 2)");
    complains(&["--names", "no such file", "20"], "--names no such file: No such file or directory (os error 2)");
    complains(
        &["--name", "x : ℙ(WEEK)", "20"],
        "--name \"x : ℙ(WEEK)\": the type of x: refused: the text is malformed at byte 4, at \"WEEK)\"",
    );
    complains(
        &["--names", "names.txt", "--name", "period", "20"],
        "--name \"period\": the name period stands there a second time",
    );
    let ran = run(&["--names", "per-period.hex", "20"]);
    assert!(
        ran.status == 64 && ran.errors.starts_with("typecheck: per-period.hex, line 2: \"24 0200\" is no name"),
        "{}",
        ran.errors
    );
}

/// A full device takes no output.
#[cfg(target_os = "linux")]
#[test]
fn output_that_cannot_be_written() {
    let full = std::fs::OpenOptions::new().write(true).open("/dev/full").unwrap();
    let out =
        Command::new(env!("CARGO_BIN_EXE_typecheck")).arg("20").stdout(full).stderr(Stdio::piped()).output().unwrap();
    assert_eq!(out.status.code(), Some(74));
    assert!(String::from_utf8(out.stderr).unwrap().contains("typecheck: standard output: "));
}

#[test]
fn help() {
    let ran = run(&["--help"]);
    assert_eq!((ran.status, ran.errors.as_str()), (0, ""));
    for option in [
        "--file",
        "--bytes",
        "--read-type",
        "--write-type",
        "--name",
        "--names",
        "--budget",
        "--capacity",
        "--largest-output",
        "--show",
        "--slots",
        "--quiet",
        "--help",
    ] {
        assert!(ran.output.contains(option), "{option}");
    }
    assert!(ran.output.contains("Exit status: 0 typed"));
    // The example of the help text.
    says(&["--name", "x", "22 06 01 0000 04 00"], 0, "typed, in 12 steps\nx : ℤ\n");
}
