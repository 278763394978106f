//! Scenarios made by chance from a seed. The same kind, seed and count always give the same
//! scenario, so a difference can be reported by naming the three.

mod defects;
mod headers;
mod mixed;
mod packets;
mod pairs;
pub mod policies;
pub mod rows;
pub mod same;

use crate::operation::to_hex;
use pairs::PairSpec;
use rows::RowSpec;
use std::io::{self, Write};
use testkit::{address, Prng};

pub const DEFAULT_SEED: u64 = 1;
pub const DEFAULT_OPERATIONS: usize = 20_000;

#[derive(Clone, Copy, Debug, PartialEq, Eq)]
pub enum Kind {
    /// Policies with heavy overlap and shadowing, and several ways to write one policy.
    Policies,
    /// Policy files with exactly one defect.
    Defects,
    /// Random bytes wherever bytes are taken.
    Bytes,
    /// Packets of every protocol and every defect, at all three doors.
    Packets,
    /// Pairs at the limits of their rules.
    Pairs,
    /// Long sequences on one gateway: caches fill and wrap, policies and pairs change.
    Mixed,
    /// All of these by turns.
    All,
}

impl Kind {
    pub const NAMES: [(&'static str, Kind); 7] = [
        ("policies", Kind::Policies),
        ("defects", Kind::Defects),
        ("bytes", Kind::Bytes),
        ("packets", Kind::Packets),
        ("pairs", Kind::Pairs),
        ("mixed", Kind::Mixed),
        ("all", Kind::All),
    ];

    pub fn parse(name: &str) -> Option<Kind> {
        let found = Kind::NAMES.iter().find(|(known, _)| *known == name);
        found.map(|&(_, kind)| kind)
    }

    fn name(self) -> &'static str {
        Kind::NAMES[self as usize].0
    }
}

/// All that fixes a scenario.
#[derive(Clone, Debug, PartialEq, Eq)]
pub struct Recipe {
    pub kind: Kind,
    pub seed: u64,
    /// How many lines, comments apart.
    pub operations: usize,
    /// The requests of document 02 that the scenario expects.
    pub items: Vec<u64>,
}

impl Recipe {
    /// Document 01 alone.
    pub fn new(kind: Kind, seed: u64, operations: usize) -> Recipe {
        Recipe { kind, seed, operations, items: Vec::new() }
    }

    fn items_line(&self) -> String {
        let numbers = self.items.iter().map(|number| format!(" {number}"));
        format!("items{}", numbers.collect::<String>())
    }
}

/// Writes the scenario, after a comment that says how it was made.
pub fn generate(recipe: &Recipe, output: &mut impl Write) -> io::Result<()> {
    let Recipe { kind, seed, operations, .. } = recipe;
    writeln!(output, "# replay --generate {} --seed {seed} --ops {operations}", kind.name())?;
    let mut generator = Generator::new(*seed);
    generator.lines.insert(0, recipe.items_line());
    let mut left = *operations;
    while left > 0 {
        generator.block(*kind);
        for line in generator.lines.drain(..).take(left) {
            writeln!(output, "{line}")?;
            left -= 1;
        }
    }
    Ok(())
}

/// The scenario so far, as far as it guides what comes next.
struct Generator {
    prng: Prng,
    /// Operations made and not yet written.
    lines: Vec<String>,
    gateway: u32,
    /// The rows of the policy that the gateway probably has.
    policy: Vec<RowSpec>,
    /// The pairs that are probably live.
    pairs: Vec<PairSpec>,
    /// Which defect of a policy file, and which of a pair, comes next.
    next_file_defect: usize,
    next_pair_defect: usize,
}

impl Generator {
    fn new(seed: u64) -> Generator {
        let mut generator = Generator {
            prng: Prng::new(seed),
            lines: Vec::new(),
            gateway: 0,
            policy: Vec::new(),
            pairs: Vec::new(),
            next_file_defect: 0,
            next_pair_defect: 0,
        };
        generator.fresh_gateway();
        generator
    }

    /// Adds some operations of one kind.
    fn block(&mut self, kind: Kind) {
        match kind {
            Kind::Policies => self.policies_block(),
            Kind::Defects => self.defects_block(),
            Kind::Bytes => self.bytes_block(),
            Kind::Packets => self.packets_block(),
            Kind::Pairs => self.pairs_block(),
            Kind::Mixed => self.mixed_block(),
            Kind::All => {
                let kinds = &Kind::NAMES[..Kind::All as usize];
                let (_, kind) = *self.prng.pick(kinds);
                self.block(kind);
            }
        }
    }

    fn line(&mut self, line: String) {
        self.lines.push(line);
    }

    fn fresh_gateway(&mut self) {
        self.gateway = *self.prng.pick(&[address(192, 0, 2, 1), address(10, 1, 0, 1), 0, u32::MAX]);
        self.policy.clear();
        self.pairs.clear();
        // The second address is ignored before request 9.
        let address6 = 0x2001_0db8 << 96 | u128::from(self.gateway);
        self.line(format!("gate {} {address6}", self.gateway));
    }

    fn direction(&mut self) -> &'static str {
        self.prng.pick::<&str>(&["out", "in"])
    }

    /// Random bytes at every place that takes bytes.
    fn bytes_block(&mut self) {
        for _ in 0..20 {
            let length = self.prng.below(90);
            let length = if self.prng.one_in(8) { 0 } else { length };
            let bytes = self.prng.bytes(length);
            self.bytes_everywhere(&bytes);
            let mut looks_like_a_packet = bytes;
            if let Some(first) = looks_like_a_packet.first_mut() {
                *first = 0x45;
            }
            self.bytes_everywhere(&looks_like_a_packet);
            let text = self.random_text();
            self.bytes_everywhere(&text);
        }
    }

    /// A header line, perhaps, and then bytes that policy files are made of.
    fn random_text(&mut self) -> Vec<u8> {
        let mut text = Vec::new();
        if !self.prng.one_in(5) {
            text.extend(b"policy\t1\n");
        }
        for _ in 0..self.prng.below(120) {
            text.push(*self.prng.pick(b"outinbypassdiscardprotectany0123456789./--\t\t\t\t\n"));
        }
        if !self.prng.one_in(3) {
            text.push(b'\n');
        }
        text
    }

    fn bytes_everywhere(&mut self, bytes: &[u8]) {
        let hex = to_hex(bytes);
        let direction = self.direction();
        let (protocol, spi) = self.pair_name();
        let line = match self.prng.below(9) {
            0 => format!("policy {hex}"),
            1 => format!("normalise {direction} {} {hex}", self.prng.below(200)),
            2 => format!("search {direction} {hex} 1 2 6 65536 0"),
            3 => format!("read {direction} 4 {hex}"),
            4 => format!("trigger 4 {hex}"),
            5 => format!("from {protocol} {spi} {hex}"),
            6 => format!("same {direction} {hex} {}", to_hex(b"policy\t1\n")),
            _ => format!("{direction} {hex}"),
        };
        self.line(line);
    }
}
