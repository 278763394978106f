//! Long sequences on one gateway.

use super::policies::{random_policy, rewritten, striped};
use super::rows::file;
use super::Generator;

impl Generator {
    /// Fills the caches under one policy, with pairs coming and going, and changes the policy.
    pub fn mixed_block(&mut self) {
        if self.prng.one_in(20) {
            self.fresh_gateway();
        }
        self.change_policy();
        if self.prng.one_in(2) {
            self.sweep_the_policy();
        }
        for _ in 0..self.prng.between(20, 120) {
            match self.prng.below(40) {
                0 | 1 => self.add_a_pair(),
                2 => self.remove_a_pair(),
                3 => self.line("show cache out".to_string()),
                4 => self.line("show cache in".to_string()),
                _ => self.packet_line(),
            }
        }
        self.line("show cache out".to_string());
        self.line("show cache in".to_string());
    }

    /// Meets many rows of the policy in one direction, so that the cache goes round.
    fn sweep_the_policy(&mut self) {
        let direction = self.direction();
        let rows = self.policy.len();
        let start = self.prng.below(rows as u64 + 1) as usize;
        for n in 0..rows.min(100) {
            self.hit_line(direction, (start + n) % rows);
        }
        self.line(format!("show cache {direction}"));
    }

    /// Another policy, or the same one written otherwise.
    fn change_policy(&mut self) {
        let rows = match self.prng.below(5) {
            0 => {
                let rows = self.policy.clone();
                rewritten(&mut self.prng, &rows)
            }
            1 => striped(&mut self.prng),
            _ => random_policy(&mut self.prng),
        };
        let file = file(&mut self.prng, &rows);
        self.policy_line(rows, &file);
    }
}
