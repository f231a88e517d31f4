//! The generator, the laws on generated cases, and the shrinker.

use second::shrink::shrink;
use second::{case, laws, outcome, Answer, Case};

#[test]
fn same_seed_same_case() {
    for seed in 0..200 {
        assert_eq!(case(seed), case(seed));
    }
}

#[test]
fn laws_hold_on_generated_cases() {
    for seed in 0..20_000 {
        assert_eq!(laws::broken(&case(seed)), None, "seed {seed}");
    }
}

/// A text refused with 5 shrinks to a bracket and the word.
#[test]
fn shrinks_texts() {
    let refused = |case: &Case| match (case, outcome(case).answer) {
        (Case::ReadFile { .. }, Answer::Refused(refusal)) => refusal.number == 5,
        _ => false,
    };
    let telling = (0..).map(case).find(refused).expect("some case");
    let Case::ReadFile { text, .. } = shrink(telling, refused) else {
        panic!("the kind of case stays");
    };
    assert!(text.len() <= "(PATHPULSEPERCENT".len(), "{:?}", String::from_utf8_lossy(&text));
}

/// Patches refused with 16 keep one cell, one instance and one arc.
#[test]
fn shrinks_sheets() {
    let refused = |case: &Case| match (case, outcome(case).answer) {
        (Case::Patch { .. }, Answer::Refused(refusal)) => refusal.number == 16,
        _ => false,
    };
    let telling = (0..).map(case).find(refused).expect("some case");
    let Case::Patch { start, .. } = shrink(telling, refused) else {
        panic!("the kind of case stays");
    };
    let sheet = second::check_sheet(&start).expect("a sheet");
    assert_eq!((sheet.instances.len(), sheet.arcs.len()), (1, 1));
}
