//! What the generator reaches, and how small its cases are.

use reference::cases::Case;
use reference::draw::draw;
use reference::sketch::{COMMANDS, LIFTED_DARTS, PLAN_DARTS};
use reference::tally::tally;

#[test]
fn every_draw_reaches_enough() {
    for seed in 0..24 {
        let found = tally(&draw(seed));
        assert_eq!(
            found.enforce(),
            Vec::<String>::new(),
            "seed {seed}\n{found}"
        );
        assert!(found.runs >= 170 && found.calls >= 120, "{found}");
        assert!(found.program_runs <= 15, "{found}");
    }
}

#[test]
fn every_case_is_small() {
    for seed in 0..24 {
        let found = tally(&draw(seed));
        assert!(found.widest_plan <= PLAN_DARTS, "{found}");
        assert!(found.widest_lifted <= LIFTED_DARTS, "{found}");
        assert!(found.most_commands <= COMMANDS, "{found}");
        assert!(found.large <= 40, "{found}");
    }
}

#[test]
fn a_seed_draws_the_same_again() {
    assert_eq!(draw(3), draw(3));
    assert_ne!(draw(3), draw(4));
}

#[test]
fn an_empty_tally_lacks_everything() {
    let none: [Case; 0] = [];
    assert!(tally(&none).enforce().len() > 23);
}
