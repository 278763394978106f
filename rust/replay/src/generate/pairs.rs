//! Pairs: sound ones that fit the policy, and every kind of refusal.

use super::rows::{file, Ends, RowSpec, FIELDS, TOPS};
use super::Generator;
use crate::operation::to_hex;
use testkit::Prng;

#[derive(Clone, Debug)]
pub struct PairSpec {
    pub protocol: u64,
    pub inbound_spi: u64,
    pub outbound_spi: u64,
    pub number: u64,
    pub ranges: [Ends; FIELDS],
}

const MOST_PAIRS: usize = 64;
const SPI_TOP: u64 = u32::MAX as u64;
pub const ESP: u64 = 50;
const AH: u64 = 51;

type PairDefect = fn(&mut PairSpec);

/// Each way to be refused by 25 or 28, and neighbours that are not.
const PAIR_DEFECTS: &[PairDefect] = &[
    |pair| pair.inbound_spi = 255,
    |pair| pair.inbound_spi = 0,
    |pair| pair.outbound_spi = 255,
    |pair| (pair.inbound_spi, pair.protocol) = (255, 6),
    |pair| (pair.outbound_spi, pair.number) = (0, 0),
    |pair| pair.inbound_spi = 256,
    |pair| pair.outbound_spi = 256,
    |pair| (pair.inbound_spi, pair.outbound_spi) = (u32::MAX.into(), u32::MAX.into()),
    |pair| pair.protocol = 49,
    |pair| pair.protocol = 52,
    |pair| pair.protocol = 0,
    |pair| pair.protocol = ESP + 256,
    |pair| pair.protocol = AH + (1 << 32),
    |pair| pair.protocol = u64::MAX,
    |pair| pair.number = 0,
    |pair| pair.number = 1,
    |pair| pair.number = 255,
    |pair| pair.number = 256,
    |pair| pair.number = 257,
    |pair| pair.number = (1 << 32) + 7,
    |pair| pair.number = u64::MAX,
];

/// What can be wrong with a range whose field ends at a top: too high, too high only when cut
/// down to fewer bits, low above high. The first two are legal.
const RANGE_DEFECTS: &[fn(u64) -> Ends] = &[
    |top| (top, top),
    |_| (0, 0),
    |top| (0, top + 1),
    |top| (top + 1, top + 1),
    |_| (0, u64::MAX),
    |top| (1 << 32, (1 << 32) + top),
    |_| (1, 1 << 40),
    |top| (top, top - 1),
    |_| (1, 0),
    |top| (top + 1, 0),
];

impl Generator {
    pub fn pairs_block(&mut self) {
        match self.prng.below(6) {
            0 | 1 => self.fill_the_table(),
            2 => self.tied_pairs(),
            _ => {}
        }
        for _ in 0..25 {
            match self.prng.below(10) {
                0..=3 => self.defective_pair(),
                4 => self.pair_already_live(),
                5..=7 => self.add_a_pair(),
                _ => self.remove_a_pair(),
            }
        }
        self.line("show pairs".to_string());
    }

    /// Adds pairs until 64 must be live, and tries some more.
    fn fill_the_table(&mut self) {
        for _ in self.pairs.len()..MOST_PAIRS {
            self.add_a_pair();
        }
        self.add_a_pair();
        self.pair_already_live();
        self.defective_pair();
        self.line("show pairs".to_string());
        self.remove_a_pair();
        self.add_a_pair();
        self.add_a_pair();
    }

    /// ESP and AH at one inbound SPI and a pair of another SPI, all for the same packets: added in
    /// some order, and taken away in another, with packets after each step.
    fn tied_pairs(&mut self) {
        self.fresh_gateway();
        let ranges = TOPS.map(|top| (0, top));
        let row = RowSpec { scope: "both", action: "protect-7".to_string(), ranges };
        let file = file(&mut self.prng, std::slice::from_ref(&row));
        self.policy_line(vec![row], &file);
        let [spi, any] = [some_spi(&mut self.prng), some_spi(&mut self.prng)];
        let other = *self.prng.pick(&[any, (spi + 1).min(SPI_TOP), 256]);
        let mut names = [(ESP, spi), (AH, spi), (*self.prng.pick(&[ESP, AH]), other)];
        self.prng.shuffle(&mut names);
        for (protocol, inbound_spi) in names {
            let outbound_spi = some_spi(&mut self.prng);
            self.add_pair(PairSpec { protocol, inbound_spi, outbound_spi, number: 7, ranges });
            self.hit_line("out", 0);
        }
        self.prng.shuffle(&mut names);
        for (protocol, inbound_spi) in names {
            self.remove_named(protocol, inbound_spi);
            self.hit_line("out", 0);
            let packet = to_hex(&self.gateway_packet().bytes());
            self.line(format!("in {packet}"));
            self.line(format!("from {protocol} {inbound_spi} {packet}"));
        }
        self.line("show pairs".to_string());
    }

    pub fn add_a_pair(&mut self) {
        let pair = self.sound_pair();
        self.add_pair(pair);
    }

    fn add_pair(&mut self, pair: PairSpec) {
        self.add_line(&pair);
        let name = |pair: &PairSpec| (pair.protocol, pair.inbound_spi);
        let is_live = self.pairs.iter().any(|live| name(live) == name(&pair));
        if !is_live && self.pairs.len() < MOST_PAIRS {
            self.pairs.push(pair);
        }
    }

    /// A pair that 25 and 28 let through, mostly one that serves a protect row of the policy.
    fn sound_pair(&mut self) -> PairSpec {
        let prng = &mut self.prng;
        let mut pair = PairSpec {
            protocol: *prng.pick(&[ESP, AH]),
            inbound_spi: some_spi(prng),
            outbound_spi: prng.between(256, SPI_TOP),
            number: *prng.pick(&[1, 2, 3, 7, 254, 255]),
            ranges: TOPS.map(|top| (0, top)),
        };
        let protects = |row: &&RowSpec| row.action.starts_with("protect-");
        let rows: Vec<&RowSpec> = self.policy.iter().filter(protects).collect();
        if !rows.is_empty() && !prng.one_in(4) {
            let row = prng.pick(&rows);
            let number = row.action.trim_start_matches("protect-");
            pair.number = number.parse().expect("the generator writes numbers");
            pair.ranges = row.ranges;
        }
        if prng.one_in(3) {
            widen_or_narrow(prng, &mut pair.ranges);
        }
        pair
    }

    fn defective_pair(&mut self) {
        let mut pair = self.sound_pair();
        let defects = PAIR_DEFECTS.len() + FIELDS * RANGE_DEFECTS.len();
        let defect = self.next_pair_defect % defects;
        self.next_pair_defect += 1;
        match PAIR_DEFECTS.get(defect) {
            Some(spoil) => spoil(&mut pair),
            None => {
                let defect = defect - PAIR_DEFECTS.len();
                let field = defect / RANGE_DEFECTS.len();
                pair.ranges[field] = RANGE_DEFECTS[defect % RANGE_DEFECTS.len()](TOPS[field]);
            }
        }
        self.add_line(&pair);
        // Some of these are sound. They are not kept in mind, so they are taken away again.
        self.line(format!("remove {} {}", pair.protocol, pair.inbound_spi));
        let removed = (pair.protocol, pair.inbound_spi);
        self.pairs.retain(|live| (live.protocol, live.inbound_spi) != removed);
    }

    fn pair_already_live(&mut self) {
        if self.pairs.is_empty() {
            return;
        }
        let live = self.prng.pick(&self.pairs).clone();
        let again = PairSpec {
            protocol: live.protocol,
            inbound_spi: live.inbound_spi,
            ..self.sound_pair()
        };
        self.add_line(&again);
    }

    pub fn remove_a_pair(&mut self) {
        let (protocol, inbound_spi) = self.pair_name();
        self.remove_named(protocol, inbound_spi);
    }

    fn remove_named(&mut self, protocol: u64, inbound_spi: u64) {
        self.line(format!("remove {protocol} {inbound_spi}"));
        self.pairs.retain(|pair| (pair.protocol, pair.inbound_spi) != (protocol, inbound_spi));
    }

    /// A live pair's name, or now and then another.
    pub fn pair_name(&mut self) -> (u64, u64) {
        if self.pairs.is_empty() || self.prng.one_in(6) {
            let protocol = *self.prng.pick(&[ESP, AH, 0, 6, ESP + 256, u64::MAX]);
            return (protocol, *self.prng.pick(&[0, 255, 256, 300, u32::MAX.into()]));
        }
        let pair = self.prng.pick(&self.pairs);
        let (protocol, inbound_spi) = (pair.protocol, pair.inbound_spi);
        match self.prng.below(12) {
            // The other protocol, or an SPI that is not the pair's by one bit.
            0 => (ESP + AH - protocol, inbound_spi),
            1 => (protocol, inbound_spi ^ 1 << self.prng.below(32)),
            _ => (protocol, inbound_spi),
        }
    }

    pub fn add_line(&mut self, pair: &PairSpec) {
        let PairSpec { protocol, inbound_spi, outbound_spi, number, ranges } = pair;
        let ends = ranges.map(|(low, high)| format!("{low} {high}")).join(" ");
        self.line(format!("add {protocol} {inbound_spi} {outbound_spi} {number} 4 {ends}"));
    }
}

/// An SPI that is not reserved: one of a few, or one that needs all four bytes.
fn some_spi(prng: &mut Prng) -> u64 {
    match prng.below(3) {
        0 => prng.between(1 << 24, SPI_TOP),
        _ => prng.between(256, 400),
    }
}

fn widen_or_narrow(prng: &mut Prng, ranges: &mut [Ends; FIELDS]) {
    let field = prng.below(FIELDS as u64) as usize;
    let (low, high) = ranges[field];
    let middle = prng.between(low, high);
    ranges[field] = *prng.pick(&[(0, TOPS[field]), (low, middle), (middle, high), (0, high)]);
}
