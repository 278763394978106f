//! A part of what the program does, in every test run.

use abuse::{run_apart, run_sharing, Abuse};

#[test]
fn two_hundred_thousand_calls() {
    let mut abuse = Abuse::new(7);
    abuse.run(200_000);
    println!("{}", abuse.counts());
    // Every answer of document 01.
    for number in (0..=5).chain(10..=18).chain(20..=29).chain([31]) {
        assert!(abuse.counts().answers[number] > 0, "{number} was never given");
    }
}

#[test]
fn threads_that_share_nothing() {
    let counts = run_apart(4, 20_000, 3);
    assert_eq!(counts.calls, 20_000);
    assert_eq!(counts, run_apart(4, 20_000, 3));
}

#[test]
fn threads_that_share_a_policy_and_a_table() {
    let counts = run_sharing(4, 20_001, 3);
    assert_eq!(counts.calls, 20_001);
    for number in (0..=4).chain(10..=18) {
        assert!(counts.answers[number] > 0, "{number} was never given");
    }
}

#[test]
fn a_seed_fixes_the_calls() {
    let counts = [1, 1, 2].map(|seed| {
        let mut abuse = Abuse::new(seed);
        abuse.run(5_000);
        abuse.counts()
    });
    assert_eq!(counts[0], counts[1]);
    assert_ne!(counts[0], counts[2]);
}
