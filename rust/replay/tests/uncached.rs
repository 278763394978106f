//! The gateway against one without caches: it walks the policy's rows in their order for every
//! packet. The caches themselves are held against the slot rule after every packet.

use reference::{
    normal_form, parse_policy, search, Action, Answer, Cache, Direction, Entry, Gateway, Packet,
    Policy, ProposedPair, Requests, Selectors, FIELDS, FIELD_TOPS, SLOTS,
};
use replay::generate::{generate, Kind, Recipe};
use replay::operation::Operation;

/// A gateway that remembers nothing but what it was told.
#[derive(Default)]
struct Uncached {
    address: u32,
    policy: Policy,
    pairs: Vec<ProposedPair>,
}

impl Uncached {
    fn outbound(&self, bytes: &[u8]) -> Answer {
        let Some(selectors) = selectors(bytes, Direction::Out) else {
            return Answer::NotReadable;
        };
        match self.policy.search(Direction::Out, &selectors.values()) {
            Action::Bypass => Answer::PassInClear,
            Action::Discard => Answer::PolicyDiscards,
            Action::Protect(number) => {
                let mut best: Option<&ProposedPair> = None;
                for pair in self.pairs.iter().filter(|pair| pair.number == u64::from(number)) {
                    let rank = |pair: &ProposedPair| (pair.inbound_spi, pair.protocol);
                    if fits(pair, &selectors) && best.is_none_or(|best| rank(pair) < rank(best)) {
                        best = Some(pair);
                    }
                }
                best.map_or(Answer::AssociationWanted { number }, |pair| Answer::Protect {
                    number,
                    protocol: pair.protocol as u8,
                    outbound_spi: pair.outbound_spi,
                })
            }
        }
    }

    /// None for AH and ESP to the gateway, which are not searched.
    fn inbound(&self, bytes: &[u8]) -> Option<Answer> {
        let Some(selectors) = selectors(bytes, Direction::In) else {
            return Some(Answer::NotReadable);
        };
        if selectors.local == self.address && [50, 51].contains(&selectors.protocol) {
            return None;
        }
        Some(match self.policy.search(Direction::In, &selectors.values()) {
            Action::Bypass => Answer::PassInClear,
            Action::Discard => Answer::PolicyDiscards,
            Action::Protect(_) => Answer::ShouldBeProtected,
        })
    }
}

fn selectors(bytes: &[u8], direction: Direction) -> Option<Selectors> {
    Packet::read(bytes).map(|packet| packet.selectors(direction, Requests::NONE))
}

fn fits(pair: &ProposedPair, selectors: &Selectors) -> bool {
    let values = selectors.values();
    (0..FIELDS).all(|field| pair.ranges[field].holds(values[field]))
}

/// The gateway, the other one, and how often each thing happened.
struct Both {
    gateway: Gateway,
    uncached: Uncached,
    forms: [Vec<Entry<FIELDS>>; 2],
    hits: usize,
    written: usize,
    rounds: usize,
}

impl Both {
    fn step(&mut self, operation: &Operation) {
        match operation {
            Operation::Gate { address4, .. } => {
                self.gateway = Gateway::new(*address4, Requests::NONE);
                self.uncached = Uncached { address: *address4, ..Uncached::default() };
                self.forms = Default::default();
            }
            Operation::Policy { file } => self.policy(file),
            Operation::Add { pair, .. } => {
                let added = self.gateway.add_pair(pair) == Answer::Done;
                self.uncached.pairs.extend(added.then_some(*pair));
            }
            Operation::Remove { protocol, inbound_spi } => {
                let name = (*protocol, *inbound_spi);
                let others = |pair: &ProposedPair| (pair.protocol, pair.inbound_spi) != name;
                let before = self.uncached.pairs.len();
                self.uncached.pairs.retain(others);
                let removed = self.uncached.pairs.len() < before;
                let expected = if removed { Answer::Done } else { Answer::NothingToRemove };
                assert_eq!(self.gateway.remove_pair(*protocol, *inbound_spi), expected);
            }
            Operation::Outbound { packet } => {
                let before = self.gateway.clone();
                assert_eq!(self.gateway.outbound(packet), self.uncached.outbound(packet));
                self.check_slots(&before, packet, Direction::Out, true);
            }
            Operation::Inbound { packet } => {
                let before = self.gateway.clone();
                let answer = self.gateway.inbound(packet);
                let expected = self.uncached.inbound(packet);
                assert_eq!(answer, expected.unwrap_or(answer));
                self.check_slots(&before, packet, Direction::In, expected.is_some());
            }
            _ => {}
        }
    }

    fn policy(&mut self, file: &[u8]) {
        let before = self.gateway.clone();
        if self.gateway.set_policy(file) != Answer::Done {
            assert_eq!(self.gateway, before, "a refused policy changed something");
            return;
        }
        self.uncached.policy = parse_policy(file, Requests::NONE).unwrap();
        for (direction, form) in [Direction::Out, Direction::In].into_iter().zip(&mut self.forms) {
            assert_eq!(self.gateway.cache(direction), &Cache::default());
            let entries = self.uncached.policy.entries(direction);
            *form = normal_form(&FIELD_TOPS, &entries, 256).unwrap();
        }
        assert_eq!(self.gateway.pairs(), before.pairs());
    }

    /// Holds both caches against the slot rule, where `searched` says if the packet was searched.
    fn check_slots(
        &mut self,
        before: &Gateway,
        packet: &[u8],
        direction: Direction,
        searched: bool,
    ) {
        let (other, form) = match direction {
            Direction::Out => (Direction::In, &self.forms[0]),
            Direction::In => (Direction::Out, &self.forms[1]),
        };
        assert_eq!(self.gateway.cache(other), before.cache(other));
        let (old, new) = (before.cache(direction), self.gateway.cache(direction));
        let values = selectors(packet, direction).filter(|_| searched).map(|s| s.values());
        let hit = values.is_some_and(|values| old.entries().any(|(_, row)| row.holds(&values)));
        let row = values.and_then(|values| search(form, &values)).filter(|_| !hit);
        self.hits += usize::from(hit);
        let Some(row) = row else {
            assert_eq!(new, old);
            return;
        };
        let mut expected: Vec<_> = old.entries().filter(|(n, _)| *n != old.next_slot()).collect();
        expected.push((old.next_slot(), row));
        expected.sort_by_key(|(number, _)| *number);
        assert_eq!(new.entries().collect::<Vec<_>>(), expected);
        assert_eq!(new.next_slot(), (old.next_slot() + 1) % SLOTS);
        self.written += 1;
        self.rounds += usize::from(new.next_slot() == 0);
    }
}

#[test]
fn cached_answers_are_the_ordered_search() {
    let mut both = Both {
        gateway: Gateway::new(0, Requests::NONE),
        uncached: Uncached::default(),
        forms: Default::default(),
        hits: 0,
        written: 0,
        rounds: 0,
    };
    for seed in 1..=5 {
        let mut scenario = Vec::new();
        generate(&Recipe::new(Kind::Mixed, seed, 20_000), &mut scenario).unwrap();
        for line in String::from_utf8(scenario).unwrap().lines() {
            if let Some(operation) = Operation::parse(line) {
                both.step(&operation);
            }
        }
    }
    let Both { hits, written, rounds, .. } = both;
    assert!(hits > 5_000 && written > 5_000 && rounds > 20, "{hits} {written} {rounds}");
}
