//! Files, and standard input under the name `-`.

use crate::Failure;
use std::ffi::OsStr;
use std::fs::File;
use std::io::{self, BufReader, Read};

/// A file to read.
pub struct Input {
    pub bytes: Box<dyn Read>,
    /// Whether it may grow while it is read: standard input, or a pipe that has a name.
    pub live: bool,
}

/// Opens a file to read.
pub fn open(name: &OsStr) -> Result<Input, Failure> {
    if name == "-" {
        return Ok(Input { bytes: Box::new(io::stdin().lock()), live: true });
    }
    open_file(name).map_err(|error| unreadable(name, &error))
}

fn open_file(name: &OsStr) -> io::Result<Input> {
    let file = File::open(name)?;
    let kind = file.metadata()?;
    if kind.is_dir() {
        return Err(io::ErrorKind::IsADirectory.into());
    }
    Ok(Input { bytes: Box::new(BufReader::new(file)), live: !kind.is_file() })
}

/// Reads a file whole.
pub fn read(name: &OsStr) -> Result<Vec<u8>, Failure> {
    let mut bytes = Vec::new();
    open(name)?.bytes.read_to_end(&mut bytes).map_err(|error| unreadable(name, &error))?;
    Ok(bytes)
}

/// The bytes of a row of a policy file, the first being 1; none where there are fewer.
pub fn row(file: &[u8], number: usize) -> &[u8] {
    file.split(|&byte| byte == b'\n').nth(number).unwrap_or_default()
}

/// Bytes to show in a message: at most so many of them, those that are no printable ASCII escaped.
pub fn shown(bytes: &[u8], most: usize) -> String {
    let more = if bytes.len() > most { "..." } else { "" };
    format!("{}{more}", bytes[..bytes.len().min(most)].escape_ascii())
}

pub fn unreadable(name: &OsStr, error: &io::Error) -> Failure {
    let why = match error.kind() {
        io::ErrorKind::NotFound => "no such file".to_string(),
        io::ErrorKind::PermissionDenied => "no permission to read it".to_string(),
        io::ErrorKind::IsADirectory => "a directory, not a file".to_string(),
        _ => error.to_string(),
    };
    Failure::Usage(format!("{}: {why}", name.display()))
}
