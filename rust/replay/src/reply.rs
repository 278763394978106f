//! What an engine replies to an operation, and the line it is written as.

use crate::operation::to_hex;
use reference::Values;
use std::fmt;

/// What the lent room of a print is filled with before the call.
pub const ROOM_FILL: u8 = 0xee;

#[derive(Clone, Debug, PartialEq, Eq)]
pub enum Reply {
    /// An answer of document 01.
    Answer(AnswerLine),
    /// What the comparison of two policy files says.
    Comparison(Comparison),
    /// A line of the protocol's own.
    Words(String),
    /// The engine lacks what the operation needs.
    NotHere,
    BadOperation,
    /// A print wrote where it must not.
    Spoilt,
}

#[derive(Clone, Debug, PartialEq, Eq)]
pub struct AnswerLine {
    pub number: u8,
    pub carried: Vec<String>,
    /// The bytes written, for a call that prints.
    pub printed: Option<Vec<u8>>,
}

/// What two policy files are to each other, or the first of them that is refused.
#[derive(Clone, Debug, PartialEq, Eq)]
pub enum Comparison {
    Same,
    Different,
    First(AnswerLine),
    Second(AnswerLine),
}

impl Comparison {
    /// The word of each, as [`Comparison::word`] gives it.
    pub const WORDS: [&'static str; 4] = ["same", "different", "first", "second"];

    pub fn of(same: bool) -> Comparison {
        if same {
            Comparison::Same
        } else {
            Comparison::Different
        }
    }

    pub fn word(&self) -> &'static str {
        let place = match self {
            Comparison::Same => 0,
            Comparison::Different => 1,
            Comparison::First(_) => 2,
            Comparison::Second(_) => 3,
        };
        Comparison::WORDS[place]
    }
}

impl Reply {
    pub fn ok() -> Reply {
        Reply::Words("ok".to_string())
    }

    pub fn unreadable() -> Reply {
        Reply::Words("unreadable".to_string())
    }

    /// The five values that a reader sees.
    pub fn values(values: &Values) -> Reply {
        Reply::Words(values.map(|value| value.to_string()).join(" "))
    }

    /// The slot that is next, and the printed row of each slot in use.
    pub fn cache(next_slot: usize, rows: impl Iterator<Item = (usize, String)>) -> Reply {
        let slots = rows.map(|(slot, row)| format!(" {slot}:{}", to_hex(row.as_bytes())));
        Reply::Words(format!("{next_slot}{}", slots.collect::<String>()))
    }

    /// Lends `room` bytes to a call that prints. The call says its answer and, where it printed,
    /// how many bytes it wrote; all other bytes must be as they were.
    pub fn from_print(
        room: usize,
        call: impl FnOnce(&mut [u8]) -> (AnswerLine, Option<usize>),
    ) -> Reply {
        let mut lent = vec![ROOM_FILL; room];
        let (answer, written) = call(&mut lent);
        match lent.split_at_checked(written.unwrap_or(0)) {
            Some((start, rest)) if rest.iter().all(|&byte| byte == ROOM_FILL) => {
                let printed = written.map(|_| start.to_vec());
                Reply::Answer(AnswerLine { printed, ..answer })
            }
            _ => Reply::Spoilt,
        }
    }
}

impl fmt::Display for Reply {
    fn fmt(&self, f: &mut fmt::Formatter) -> fmt::Result {
        match self {
            Reply::Answer(answer) => write!(f, "= {answer}"),
            Reply::Comparison(comparison) => write!(f, "= {comparison}"),
            Reply::Words(words) if words.is_empty() => write!(f, "="),
            Reply::Words(words) => write!(f, "= {words}"),
            Reply::NotHere => write!(f, "= not here"),
            Reply::BadOperation => write!(f, "= bad operation"),
            Reply::Spoilt => write!(f, "= spoilt"),
        }
    }
}

impl fmt::Display for Comparison {
    fn fmt(&self, f: &mut fmt::Formatter) -> fmt::Result {
        write!(f, "{}", self.word())?;
        match self {
            Comparison::First(refusal) | Comparison::Second(refusal) => write!(f, " {refusal}"),
            Comparison::Same | Comparison::Different => Ok(()),
        }
    }
}

impl fmt::Display for AnswerLine {
    fn fmt(&self, f: &mut fmt::Formatter) -> fmt::Result {
        write!(f, "{}", self.number)?;
        for carried in &self.carried {
            write!(f, " {carried}")?;
        }
        match &self.printed {
            Some(printed) => write!(f, " | {}", to_hex(printed)),
            None => Ok(()),
        }
    }
}

#[cfg(test)]
mod tests {
    use super::*;

    fn print(room: usize, call: impl FnOnce(&mut [u8]) -> Option<usize>) -> String {
        let done = AnswerLine { number: 5, carried: vec!["2".into()], printed: None };
        Reply::from_print(room, |lent| (done, call(lent))).to_string()
    }

    #[test]
    fn a_print_may_only_write_what_it_says() {
        let writes = |lent: &mut [u8], at: usize| lent[at] = 1;
        assert_eq!(
            print(3, |lent| {
                writes(lent, 0);
                Some(2)
            }),
            "= 5 2 | 01ee"
        );
        assert_eq!(
            print(3, |lent| {
                writes(lent, 2);
                Some(2)
            }),
            "= spoilt"
        );
        assert_eq!(
            print(3, |lent| {
                writes(lent, 0);
                None
            }),
            "= spoilt"
        );
        assert_eq!(print(3, |_| Some(4)), "= spoilt");
        assert_eq!(print(3, |_| None), "= 5 2");
    }
}
