//! Calls in several threads at once.

use crate::calls::Abuse;
use crate::counts::Counts;
use crate::packets::Packets;
use specksonne::ffi::{PolicyWords, Table};
use std::thread;
use testkit::Prng;

/// Makes this many calls in threads that share nothing.
pub fn run_apart(threads: usize, calls: u64, seed: u64) -> Counts {
    in_threads(threads, calls, seed, |calls, seed| {
        let mut abuse = Abuse::new(seed);
        abuse.run(calls);
        abuse.counts()
    })
}

/// Makes this many calls with packets, in threads that share a policy and a table and have a cache
/// each. In every second round these are a gateway's, in the others any words.
pub fn run_sharing(threads: usize, calls: u64, seed: u64) -> Counts {
    const ROUNDS: u64 = 10;
    let mut counts = Counts::default();
    for round in 0..ROUNDS {
        let own_seed = seed ^ round << 32;
        let gateway = round % 2 == 0;
        let mut owner = if gateway { Abuse::of_a_gateway(own_seed) } else { Abuse::new(own_seed) };
        owner.run(1_000);
        while !owner.has_rows() {
            owner.run(10);
        }
        let (policy, table) = owner.policy_and_table();
        counts += in_threads(threads, share(calls, ROUNDS, round), !own_seed, |calls, seed| {
            packets_alone(policy, table, calls, seed)
        });
        owner.check();
    }
    counts
}

fn packets_alone(policy: &PolicyWords, table: &Table, calls: u64, seed: u64) -> Counts {
    let (mut prng, mut packets) = (Prng::new(seed), Packets::new());
    for _ in 0..calls {
        packets.call(&mut prng, policy, table);
    }
    packets.counts
}

/// The calls of one of several parts, which together have all.
fn share(calls: u64, parts: u64, part: u64) -> u64 {
    calls / parts + u64::from(part < calls % parts)
}

/// Parts the calls among threads, each with a seed of its own.
fn in_threads(
    threads: usize,
    calls: u64,
    seed: u64,
    run: impl Fn(u64, u64) -> Counts + Sync,
) -> Counts {
    let (threads, mut seeds) = (threads as u64, Prng::new(seed));
    let shares = (0..threads).map(|part| (share(calls, threads, part), seeds.number()));
    let shares: Vec<(u64, u64)> = shares.collect();
    let mut counts = Counts::default();
    thread::scope(|scope| {
        let run = &run;
        let started: Vec<_> =
            shares.into_iter().map(|(calls, seed)| scope.spawn(move || run(calls, seed))).collect();
        for thread in started {
            counts += thread.join().expect("every call was as it must be");
        }
    });
    counts
}

#[cfg(test)]
mod tests {
    use super::*;

    #[test]
    fn the_shares_are_all_calls() {
        for (calls, parts) in [(0, 3), (2, 3), (10, 3), (u64::MAX, 10), (u64::MAX, 64)] {
            let shares = (0..parts).map(|part| share(calls, parts, part));
            assert_eq!(shares.sum::<u64>(), calls, "{parts} parts");
        }
    }
}
