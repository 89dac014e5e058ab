//! `cargo run --offline --profile measure -p bench_unifier`: a table of times and ratios.
//! `.. -p bench_unifier -- agree N`: N arenas from a fixed seed, some damaged, four comparisons each; both must agree in every word.
//! `.. -p bench_unifier -- stack NAME DEPTH BYTES`: one deep type (unify, occurs, solved, circle) in a thread of that stack, a tower of powers;
//! with `halves` as a further word, products nested to the left, which are the ones that recurse.

#[cfg(no_archive)]
fn main() {
    println!("the archive of unifier_trial is not there (tools/archive unifier_trial): nothing was measured");
}

#[cfg(not(no_archive))]
mod plain;
#[cfg(not(no_archive))]
mod proved;
#[cfg(not(no_archive))]
mod runs;

#[cfg(not(no_archive))]
fn main() {
    let words: Vec<String> = std::env::args().skip(1).collect();
    match words.first().map(String::as_str) {
        None => runs::table(),
        Some("agree") => {
            let counted = runs::agree(words.get(1).and_then(|n| n.parse().ok()).unwrap_or(200_000));
            println!("agreed, by number: {counted:?}");
        }
        Some("stack") => {
            let halves = words.get(4).is_some_and(|word| word == "halves");
            runs::deep(&words[1], words[2].parse().unwrap(), words[3].parse().unwrap(), halves)
        }
        Some(other) => panic!("no run is called {other}"),
    }
}

#[cfg(test)]
mod tests {
    #[test]
    fn proved_and_plain_agree() {
        #[cfg(no_archive)]
        println!("skipped: the archive of unifier_trial is not there");
        #[cfg(not(no_archive))]
        {
            let counted = super::runs::agree(50_000);
            for number in [0, 2, 7, 100, 101] {
                assert!(counted.get(&number).copied().unwrap_or(0) > 100, "{number} was hardly met: {counted:?}");
            }
        }
    }
}
