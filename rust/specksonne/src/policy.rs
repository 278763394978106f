//! Policy files: their rows, the ordered search, and the normal form.

use crate::ffi::{self, MOST_FORM_BYTES, MOST_ROWS, ROW_WORDS};
use crate::{Direction, Refusal, Selectors};
use std::error::Error;
use std::fmt;

/// What is done with a packet that a row holds.
#[derive(Clone, Copy, Debug, PartialEq, Eq)]
pub enum Action {
    /// It is dropped.
    Discard,
    /// It passes in clear.
    Bypass,
    /// It is protected by a pair of this number.
    Protect(u64),
}

impl Action {
    /// The action that the library gives as a kind and a protect number.
    fn from_kind(kind: u64, number: u64) -> Action {
        match kind {
            0 => Action::Discard,
            1 => Action::Bypass,
            _ => Action::Protect(number),
        }
    }
}

impl fmt::Display for Action {
    fn fmt(&self, f: &mut fmt::Formatter) -> fmt::Result {
        match self {
            Action::Discard => write!(f, "discard"),
            Action::Bypass => write!(f, "bypass"),
            Action::Protect(number) => write!(f, "protect-{number}"),
        }
    }
}

/// The rows of a policy file.
#[derive(Clone, Debug, PartialEq, Eq)]
pub struct Policy {
    words: Vec<u64>,
}

impl Policy {
    /// Parses a policy file, or says which rule of document 01 it breaks first.
    ///
    /// ```
    /// use specksonne::{Action, Direction, Policy, Refusal, Selectors};
    ///
    /// let file = b"policy\t1\nout\tbypass\tany\tany\t17\t500\t500\n";
    /// let policy = Policy::parse(file).unwrap();
    /// let mut selectors = Selectors {
    ///     local: "10.0.0.1".parse().unwrap(),
    ///     remote: "10.0.0.2".parse().unwrap(),
    ///     protocol: 17,
    ///     local_port: Some(500),
    ///     remote_port: Some(500),
    /// };
    /// assert_eq!(policy.search(Direction::Out, &selectors), Action::Bypass);
    /// assert_eq!(policy.first_match(Direction::Out, &selectors), Some(0));
    /// selectors.remote_port = None; // a fragment shows no port
    /// assert_eq!(policy.search(Direction::Out, &selectors), Action::Discard);
    ///
    /// assert_eq!(Policy::parse(b"").unwrap_err(), Refusal::NotHeader);
    /// assert_eq!(Policy::parse(b"policy\t1\nno row\n").unwrap_err(), Refusal::BadRow(1));
    /// ```
    pub fn parse(file: &[u8]) -> Result<Policy, Refusal> {
        let mut words = vec![0; MOST_ROWS * ROW_WORDS];
        let mut carries = 0;
        let number = ffi::parse(file, &mut words, &mut carries);
        let rows = Refusal::check(number, carries)?;
        words.truncate(rows as usize * ROW_WORDS);
        Ok(Policy { words })
    }

    /// How many rows it has.
    pub fn rows(&self) -> usize {
        self.words.len() / ROW_WORDS
    }

    /// The ordered search: the action of the first row that matches, and discard without one.
    pub fn search(&self, direction: Direction, selectors: &Selectors) -> Action {
        let mut number = 0;
        let words = selectors.words();
        let kind = ffi::search(&self.words, direction.number(), &words, &mut number);
        Action::from_kind(kind, number)
    }

    /// The same search, over the rows as a list of records.
    pub fn search_records(&self, direction: Direction, selectors: &Selectors) -> Action {
        let mut number = 0;
        let words = selectors.words();
        let (rows, _) = self.words.as_chunks();
        let kind = ffi::search_records(rows, direction.number(), &words, &mut number);
        Action::from_kind(kind, number)
    }

    /// The place of the first row that matches, counted from 0.
    pub fn first_match(&self, direction: Direction, selectors: &Selectors) -> Option<usize> {
        let mut place = 0;
        let words = selectors.words();
        let found = ffi::first_match(&self.words, direction.number(), &words, &mut place);
        found.then_some(place as usize)
    }

    /// The 20 words of the five ranges of a row.
    pub(crate) fn ranges(&self, row: usize) -> Option<[u64; 20]> {
        let words = self.words.get(row * ROW_WORDS + 2..)?;
        words.first_chunk().copied()
    }
}

/// Prints rows as a policy file whose rows are all of one direction.
pub(crate) fn print(rows: &[u64], direction: Direction) -> Vec<u8> {
    let mut out = vec![0; 9 + rows.len() / ROW_WORDS * 140];
    let mut carries = 0;
    let number = ffi::print(rows, direction.number(), &mut out, &mut carries);
    let written = Refusal::check(number, carries).expect("there is room for every row");
    out.truncate(written as usize);
    out
}

/// Normalises a policy file for one direction into `room`, and says how many bytes it wrote. A
/// refusal leaves `room` as it was. It needs up to 1 MiB of stack.
pub fn normalise_into(
    file: &[u8],
    direction: Direction,
    room: &mut [u8],
) -> Result<usize, Refusal> {
    let mut carries = 0;
    let number = ffi::normalise(file, direction.number(), room, &mut carries);
    Refusal::check(number, carries).map(|written| written as usize)
}

/// The normal-form file of a policy file for one direction. Two policies have the same one exactly
/// when they treat every packet of that direction alike. It needs up to 1 MiB of stack.
///
/// ```
/// use specksonne::{normalise, Direction};
///
/// let whole = b"policy\t1\nboth\tbypass\tany\tany\t6\tany\tany\n";
/// let halves = b"policy\t1\n\
///     out\tbypass\t0.0.0.0-127.255.255.255\tany\t6\tany\tany\n\
///     out\tbypass\t128.0.0.0-255.255.255.255\tany\t6\tany\tany\n";
/// let form = normalise(whole, Direction::Out).unwrap();
/// assert_eq!(form, b"policy\t1\nout\tbypass\tany\tany\t6\tany\tany\n");
/// assert_eq!(normalise(halves, Direction::Out).unwrap(), form);
/// assert_ne!(normalise(halves, Direction::In).unwrap(), form);
/// ```
pub fn normalise(file: &[u8], direction: Direction) -> Result<Vec<u8>, Refusal> {
    let mut room = vec![0; MOST_FORM_BYTES];
    let written = normalise_into(file, direction, &mut room)?;
    room.truncate(written);
    Ok(room)
}

/// A policy file that was refused when two were compared.
#[derive(Clone, Copy, Debug, PartialEq, Eq)]
pub enum Refused {
    /// The first file was refused.
    First(Refusal),
    /// The first file was taken, and the second refused.
    Second(Refusal),
}

impl Refused {
    /// Why the file was refused.
    pub fn refusal(self) -> Refusal {
        match self {
            Refused::First(refusal) | Refused::Second(refusal) => refusal,
        }
    }
}

/// Which file it was, and the refusal's number; its words are those of the source.
impl fmt::Display for Refused {
    fn fmt(&self, f: &mut fmt::Formatter) -> fmt::Result {
        let file = match self {
            Refused::First(_) => "first",
            Refused::Second(_) => "second",
        };
        write!(f, "the {file} policy is refused with {}", self.refusal().number())
    }
}

impl Error for Refused {
    fn source(&self) -> Option<&(dyn Error + 'static)> {
        match self {
            Refused::First(refusal) | Refused::Second(refusal) => Some(refusal),
        }
    }
}

/// Whether two policy files treat every packet of one direction alike, however many rows their
/// normal forms have. It needs up to 1 MiB of stack.
///
/// ```
/// use specksonne::{same_policy, Direction, Refusal, Refused};
///
/// let one = b"policy\t1\nboth\tbypass\tany\tany\t6\tany\tany\n";
/// let other = b"policy\t1\n\
///     in\tdiscard\tany\tany\tany\tany\tany\n\
///     both\tbypass\tany\tany\t6\tany\tany\n";
/// assert_eq!(same_policy(one, other, Direction::Out), Ok(true));
/// assert_eq!(same_policy(one, other, Direction::In), Ok(false));
/// let refused = Refused::Second(Refusal::NotHeader);
/// assert_eq!(same_policy(one, b"", Direction::In), Err(refused));
/// ```
pub fn same_policy(first: &[u8], second: &[u8], direction: Direction) -> Result<bool, Refused> {
    let mut carries = [0; 2];
    let number = ffi::same(first, second, direction.number(), &mut carries);
    match Refusal::check(number, carries[0]) {
        Ok(same) => Ok(same == 1),
        Err(refusal) if carries[1] == 1 => Err(Refused::First(refusal)),
        Err(refusal) => Err(Refused::Second(refusal)),
    }
}
