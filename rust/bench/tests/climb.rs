//! The climb's policies.

use bench::climb::{change, random_policy, Climb, Slow, Target};
use bench::families::FAMILIES;
use bench::rows::file;
use specksonne::{Policy, MOST_ROWS};
use std::time::Duration;
use testkit::Prng;

#[test]
fn changes_leave_a_policy_that_parses() {
    let mut prng = Prng::new(1);
    let starts = FAMILIES.iter().map(|family| family.policy(MOST_ROWS, 1));
    for mut rows in starts.chain([vec![], random_policy(&mut prng)]).collect::<Vec<_>>() {
        let before = rows.clone();
        for _ in 0..1_000 {
            change(&mut prng, &mut rows);
        }
        assert_ne!(rows, before);
        let parsed = Policy::parse(&file(&rows)).expect("a sound policy");
        assert_eq!(parsed.rows(), rows.len());
    }
}

/// Each call that is reported is slower than the one before.
#[test]
fn a_short_climb() {
    for target in [Target::Normalise, Target::Compare] {
        let mut times = Vec::new();
        let report = |slow: &Slow| times.push(slow.timed.as_ref().expect("a short call").time);
        let tried = Climb::new(target, Duration::from_millis(300), 1, report).run();
        assert!(tried > 1 && !times.is_empty(), "{target:?}: {tried} calls");
        assert!(times.windows(2).all(|two| two[0] < two[1]), "{target:?}: {times:?}");
    }
}
