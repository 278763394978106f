//! How often each answer was given.

use std::fmt;
use std::ops::AddAssign;

/// How often each answer of document 01 was given. Calls that give none of them count as 5 or 10.
#[derive(Clone, Debug, Default, PartialEq, Eq)]
pub struct Counts {
    pub calls: u64,
    pub answers: [u64; 32],
}

impl Counts {
    /// Counts a call and its answer, which must be one of those that the function may give.
    #[track_caller]
    pub fn answered(&mut self, number: u64, allowed: &[u64]) {
        assert!(allowed.contains(&number), "answer {number} is not one of {allowed:?}");
        self.calls += 1;
        self.answers[number as usize] += 1;
    }
}

impl AddAssign for Counts {
    fn add_assign(&mut self, other: Counts) {
        self.calls += other.calls;
        for (count, more) in self.answers.iter_mut().zip(other.answers) {
            *count += more;
        }
    }
}

impl fmt::Display for Counts {
    fn fmt(&self, f: &mut fmt::Formatter) -> fmt::Result {
        write!(f, "{} calls", self.calls)?;
        for (number, count) in self.answers.iter().enumerate().filter(|(_, &count)| count > 0) {
            write!(f, " {number}={count}")?;
        }
        Ok(())
    }
}
