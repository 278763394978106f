//! What is said of a refused file besides the answer's number and words.

use crate::input::{row, shown};
use crate::Failure;
use specksonne::{row_fault, Refusal};
use std::ffi::OsStr;

/// The header line of a policy file.
const HEADER: &[u8] = b"policy\t1\n";

/// The bytes of a row of seven fields, each as long as can be.
const LONGEST_ROW: usize = 120;

/// How files begin that are almost policy files, and what is to be changed in them.
const BEGINNINGS: [(&[u8], &str); 5] = [
    (b"\xef\xbb\xbf", "a byte order mark stands before it"),
    (b"\xff\xfe", "the file is UTF-16"),
    (b"\xfe\xff", "the file is UTF-16"),
    (b"policy\t1\r", "lines end in CR LF, not in LF alone"),
    (b"policy ", "a space stands where a tab should"),
];

/// A refusal of a policy file, with the bytes that it is about. They are escaped: a CR, or a space
/// that should be a tab, is seen.
pub fn policy(name: &OsStr, file: &[u8], refusal: Refusal) -> Failure {
    let more = match refusal {
        Refusal::NotHeader => not_header(file),
        Refusal::NotEnded => not_ended(file),
        Refusal::BadRow(number) => bad_row(row(file, number as usize)),
        _ => String::new(),
    };
    Failure::Refused(format!("{}: {}: {refusal}{more}", name.display(), refusal.number()))
}

fn not_header(file: &[u8]) -> String {
    let found = &file[..file.len().min(HEADER.len())];
    let hint = match BEGINNINGS.iter().find(|(bytes, _)| file.starts_with(bytes)) {
        Some((_, hint)) => format!(" ({hint})"),
        None if file.is_empty() => " (the file is empty)".to_string(),
        None if HEADER.starts_with(file) => " (the file ends there)".to_string(),
        None => String::new(),
    };
    let (found, expected) = (found.escape_ascii(), HEADER.escape_ascii());
    format!(": found \"{found}\", expected \"{expected}\"{hint}")
}

fn not_ended(file: &[u8]) -> String {
    let last = &file[file.len().saturating_sub(1)..];
    format!(": it is \"{}\"", last.escape_ascii())
}

fn bad_row(row: &[u8]) -> String {
    let fault = row_fault(row).map_or(String::new(), |fault| format!(": {fault}"));
    format!(": \"{}\"{fault}", shown(row, LONGEST_ROW))
}
