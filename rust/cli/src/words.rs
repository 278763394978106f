//! The words of a command line: options, and the operands among which they stand.

use crate::Failure;
use std::ffi::{OsStr, OsString};
use std::os::unix::ffi::OsStrExt;

/// The options that take a value, and those that take none.
const WITH_VALUE: [&str; 4] = ["--address", "--policy", "--pairs", "--direction"];
const ALONE: [&str; 3] = ["--help", "-h", "--version"];

/// Options by their names, with their values where they take one; and operands.
#[derive(Default)]
pub struct Words {
    options: Vec<(&'static str, OsString)>,
    pub operands: Vec<OsString>,
}

impl Words {
    /// Parts options from operands. `--` ends the options; `-` is an operand.
    pub fn split(mut arguments: impl Iterator<Item = OsString>) -> Result<Words, Failure> {
        let mut words = Words::default();
        while let Some(word) = arguments.next() {
            if word == "--" {
                words.operands.extend(arguments);
                break;
            }
            if word != "-" && word.as_bytes().starts_with(b"-") {
                words.option(&word, &mut arguments)?;
            } else {
                words.operands.push(word);
            }
        }
        Ok(words)
    }

    /// Takes an option in, with the value that is joined to it or comes next.
    fn option(
        &mut self,
        word: &OsStr,
        rest: &mut impl Iterator<Item = OsString>,
    ) -> Result<(), Failure> {
        let (name, joined) = name_and_value(word);
        let known = |options: &[&'static str]| options.iter().copied().find(|&own| name == own);
        let option = match (known(&WITH_VALUE), known(&ALONE), joined) {
            (Some(name), _, _) if self.has(name) => {
                return Err(usage(format!("{name} is given twice")));
            }
            (Some(name), _, joined) => {
                let value = joined.or_else(|| rest.next()).filter(|value| !value.is_empty());
                (name, value.ok_or_else(|| usage(format!("{name} needs a value")))?)
            }
            (None, Some(name), None) => (name, OsString::new()),
            (None, Some(name), Some(_)) => return Err(usage(format!("{name} takes no value"))),
            (None, None, _) => return Err(usage(format!("unknown option {name:?}"))),
        };
        self.options.push(option);
        Ok(())
    }

    pub fn has(&self, name: &str) -> bool {
        self.options.iter().any(|(own, _)| *own == name)
    }

    /// Takes the value of an option out.
    pub fn take(&mut self, name: &str) -> Option<OsString> {
        let place = self.options.iter().position(|(own, _)| *own == name)?;
        Some(self.options.remove(place).1)
    }

    /// Refuses the options that a command does not take.
    pub fn no_options(&self, command: &str) -> Result<(), Failure> {
        match self.options.first() {
            Some((name, _)) => Err(usage(format!("{command} has no option {name}"))),
            None => Ok(()),
        }
    }
}

/// The parts of `--name=value`.
fn name_and_value(word: &OsStr) -> (&OsStr, Option<OsString>) {
    let bytes = word.as_bytes();
    match bytes.iter().position(|&byte| byte == b'=') {
        Some(place) => {
            let value = OsStr::from_bytes(&bytes[place + 1..]);
            (OsStr::from_bytes(&bytes[..place]), Some(value.to_os_string()))
        }
        None => (word, None),
    }
}

pub fn usage(message: String) -> Failure {
    Failure::Usage(format!("{message}; `specksonne --help` says more"))
}
