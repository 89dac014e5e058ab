//! A bounded comparison: the reference reading against every side that is there.

use compare::progress::Progress;
use compare::run::Run;
use compare::side::others;
use generator::formula::STYLES;
use generator::Rng;

#[test]
fn the_sides_agree() {
    bought::present_or_say("comparing with the bought checker");
    let seed = 20_260;
    let mut rng = Rng::new(seed);
    let mut run = Run::new(others());
    run.systematic(&mut rng);
    run.strings(1, true, true, &mut rng, &mut Progress::new());
    for i in 0..30_000 {
        run.formula(&mut rng, STYLES[i % STYLES.len()]);
        if i % 4 == 0 {
            run.text(&mut rng);
        }
    }
    assert_eq!(run.tally.faults(), 0, "seed {seed}\n{}", run.tally.report());
    if bought::PRESENT {
        assert!(run.tally.compared_with("bought") > 50_000);
        assert!(run.tally.compared_with("bought (text read)") > 5_000);
        // R1 is a finding, and shows here.
        assert!(run.tally.known() > 0);
    }
    if port::PROVED {
        assert!(run.tally.compared_with("port") > 100_000);
    }
}
