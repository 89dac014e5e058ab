//! Makes the fixed lists of the bought checker's answers, `answers.txt` and `texts.txt`, in a folder: `crates/replay/data`, or the one given.

use compare::fixed::{inferences, texts};
use std::path::PathBuf;

fn main() {
    if !bought::present_or_say("the fixed lists stay as they are") {
        std::process::exit(1);
    }
    let own = PathBuf::from(env!("CARGO_MANIFEST_DIR"));
    let folder = std::env::args_os().nth(1).map_or_else(|| own.join("../../crates/replay/data"), PathBuf::from);
    std::fs::create_dir_all(&folder).expect("the folder");
    for (name, list) in [("answers.txt", inferences()), ("texts.txt", texts())] {
        std::fs::write(folder.join(name), &list).expect("the list");
        println!("{name}: {} lines, {} bytes", list.lines().filter(|l| !l.starts_with('#')).count(), list.len());
    }
}
