//! 200,000 random calls of the Vulkan allocator beside a plain account, with the driver's refusals.
#![allow(missing_docs)]

mod common;

use common::script::Script;

fn runs(seed: u64, calls: u64) {
    let mut script = Script::new(seed, false);
    for number in 0..calls {
        script.step(number);
    }
    script.end_moves();
    let Script { allocator, live, driver, outcomes, by_flags, dearer, moves, finished, abandoned, .. } = script;
    assert!(!live.is_empty());
    // each outcome came, and so each rule of the account was looked at
    for outcome in [0, 1, 2, 3, 4, 6, 11] {
        assert!(outcomes.get(&outcome).is_some_and(|&count| count >= 20), "{outcomes:?}");
    }
    for outcome in [0, 1, 2, 3, 4, 6, 11] {
        assert!(by_flags.get(&outcome).is_some_and(|&count| count >= 5), "{by_flags:?}");
    }
    assert!(dearer >= 100, "{dearer}");
    assert!(moves[&true] >= 50 && moves[&false] >= 1000, "{moves:?}");
    assert!(
        finished.moves >= 100 && finished.blocks_given_back >= 5 && abandoned >= 100,
        "{finished:?}, {abandoned} abandoned"
    );
    drop(allocator);
    driver.assert_left_empty();
}

#[test]
fn a_hundred_thousand_calls() {
    runs(42, 100_000);
}

#[test]
fn another_hundred_thousand_calls() {
    runs(43, 100_000);
}
