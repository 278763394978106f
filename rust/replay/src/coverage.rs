//! How often each answer of document 01 was given, and each outcome of comparing two policies.

use crate::reply::{Comparison, Reply};
use std::collections::BTreeMap;
use std::fmt;

/// The numbers of document 01's table.
pub const ANSWERS: [u8; 26] = [
    0, 1, 2, 3, 4, 5, 10, 11, 12, 13, 14, 15, 16, 17, 18, 20, 21, 22, 23, 24, 25, 26, 27, 28, 29,
    31,
];

pub struct Coverage {
    answers: BTreeMap<u8, usize>,
    comparisons: [usize; Comparison::WORDS.len()],
}

impl Coverage {
    pub fn new() -> Coverage {
        let answers = ANSWERS.map(|number| (number, 0)).into();
        Coverage { answers, comparisons: [0; Comparison::WORDS.len()] }
    }

    pub fn count(&mut self, reply: &Reply) {
        match reply {
            Reply::Answer(answer) => *self.answers.entry(answer.number).or_insert(0) += 1,
            Reply::Comparison(comparison) => {
                let words = Comparison::WORDS.iter().zip(&mut self.comparisons);
                words.filter(|(word, _)| **word == comparison.word()).for_each(|(_, n)| *n += 1);
            }
            _ => {}
        }
    }

    /// Each answer's number, then each word for a comparison, and how often it was given.
    fn counts(&self) -> impl Iterator<Item = (String, usize)> + '_ {
        let answers = self.answers.iter().map(|(number, &count)| (number.to_string(), count));
        let words = Comparison::WORDS.iter().map(|word| word.to_string());
        answers.chain(words.zip(self.comparisons))
    }

    /// What was never given.
    pub fn missing(&self) -> Vec<String> {
        self.counts().filter(|(_, count)| *count == 0).map(|(name, _)| name).collect()
    }
}

impl Default for Coverage {
    fn default() -> Self {
        Coverage::new()
    }
}

impl fmt::Display for Coverage {
    /// One line.
    fn fmt(&self, f: &mut fmt::Formatter) -> fmt::Result {
        write!(f, "coverage:")?;
        self.counts().try_for_each(|(name, count)| write!(f, " {name}={count}"))
    }
}
