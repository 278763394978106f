//! A program's arguments, whatever bytes they are made of.

use std::ffi::OsString;

/// One argument.
#[derive(Clone, Debug, PartialEq, Eq)]
pub enum Argument {
    /// One that begins with `-`; of `--name=value`, what stands before the `=`.
    Option(String),
    /// Any other, and `-` alone.
    Word(OsString),
}

/// The arguments, taken one by one. Values of options are words of the program's own, so bytes that
/// are not text in them are replaced.
pub struct Arguments<I> {
    rest: I,
    /// The option that was taken last.
    option: String,
    /// Its value, where it stood behind `=` and was not asked for yet.
    value: Option<String>,
}

impl<I: Iterator<Item = OsString>> Arguments<I> {
    pub fn new(rest: I) -> Arguments<I> {
        Arguments { rest, option: String::new(), value: None }
    }

    /// The next argument; none at the end. It is an error that the option before it had a value
    /// and takes none.
    pub fn take(&mut self) -> Result<Option<Argument>, String> {
        if self.value.is_some() {
            return Err(format!("{} takes no value", self.option));
        }
        let Some(argument) = self.rest.next() else {
            return Ok(None);
        };
        if argument == "-" || !argument.as_encoded_bytes().starts_with(b"-") {
            return Ok(Some(Argument::Word(argument)));
        }
        let text = argument.to_string_lossy().into_owned();
        let (name, value) = match text.split_once('=') {
            Some((name, value)) => (name.to_string(), Some(value.to_string())),
            None => (text, None),
        };
        self.option.clone_from(&name);
        self.value = value;
        Ok(Some(Argument::Option(name)))
    }

    /// The value of the option that was taken last: behind `=`, or the next argument.
    pub fn value(&mut self) -> Result<String, String> {
        let next = || self.rest.next().map(|value| value.to_string_lossy().into_owned());
        self.value.take().or_else(next).ok_or(format!("{} needs a value", self.option))
    }
}

#[cfg(test)]
mod tests {
    use super::*;
    use std::os::unix::ffi::OsStringExt;

    fn arguments(words: &[&[u8]]) -> Arguments<std::vec::IntoIter<OsString>> {
        let words: Vec<_> = words.iter().map(|word| OsString::from_vec(word.to_vec())).collect();
        Arguments::new(words.into_iter())
    }

    fn option(name: &str) -> Result<Option<Argument>, String> {
        Ok(Some(Argument::Option(name.to_string())))
    }

    #[test]
    fn options_and_their_values() {
        let mut all = arguments(&[b"--seed", b"7", b"--seed=8=9", b"--seed=", b"-", b"--seed"]);
        for value in ["7", "8=9", ""] {
            assert_eq!(all.take(), option("--seed"));
            assert_eq!(all.value(), Ok(value.to_string()));
        }
        assert_eq!(all.take(), Ok(Some(Argument::Word("-".into()))));
        assert_eq!(all.take(), option("--seed"));
        assert_eq!(all.value(), Err("--seed needs a value".to_string()));
        assert_eq!(all.take(), Ok(None));
    }

    #[test]
    fn a_value_that_nobody_takes() {
        let mut all = arguments(&[b"--help=1", b"file"]);
        assert_eq!(all.take(), option("--help"));
        assert_eq!(all.take(), Err("--help takes no value".to_string()));
    }

    #[test]
    fn bytes_that_are_not_text() {
        let mut all = arguments(&[b"\xff", b"--\xff=\xfe", b"", b"--\xff"]);
        let word = OsString::from_vec(vec![0xff]);
        assert_eq!(all.take(), Ok(Some(Argument::Word(word))));
        assert_eq!(all.take(), option("--\u{fffd}"));
        assert_eq!(all.value(), Ok("\u{fffd}".to_string()));
        assert_eq!(all.take(), Ok(Some(Argument::Word(OsString::new()))));
        assert_eq!(all.take(), option("--\u{fffd}"));
        assert_eq!(all.take(), Ok(None));
    }
}
