//! The functions as they are written three times: exported by the proved crate, declared for C in
//! the header, and declared for Rust in `ffi.rs`. Nothing else holds the three to each other.

use specksonne::ffi::{self, CACHE_WORDS, POLICY_WORDS, ROW_WORDS, TABLE_WORDS};
use std::collections::BTreeMap;
use std::fs;
use std::path::Path;

/// What a function takes, one entry to a machine word, and what it returns.
#[derive(Debug, PartialEq, Eq)]
struct Signature {
    parameters: Vec<String>,
    result: String,
}

type Signatures = BTreeMap<String, Signature>;

fn text(path: &str) -> String {
    let root = Path::new(env!("CARGO_MANIFEST_DIR")).join("../..");
    fs::read_to_string(root.join(path)).unwrap_or_else(|error| panic!("{path}: {error}"))
}

/// The text between the first `open` and the first `close` after it, and the rest.
fn between<'a>(text: &'a str, open: &str, close: &str) -> Option<(&'a str, &'a str)> {
    let (_, rest) = text.split_once(open)?;
    rest.split_once(close)
}

/// Functions whose parameters are written `name: type`, each after `opening`; the result ends at
/// one of the characters `end`.
fn rust_like(
    text: &str,
    opening: &str,
    end: &[char],
    types: impl Fn(&str) -> Vec<String>,
) -> Signatures {
    let mut found = Signatures::new();
    let mut rest = text;
    while let Some((name, after)) = between(rest, opening, "(") {
        let (parameters, after) = after.split_once(')').unwrap();
        let result = after.split(end).next().unwrap().trim().trim_start_matches("-> ");
        let parameters = parameters.split(',').filter_map(|parameter| parameter.split_once(':'));
        let signature = Signature {
            parameters: parameters.flat_map(|(_, kind)| types(kind.trim())).collect(),
            result: result.to_string(),
        };
        found.insert(name.to_string(), signature);
        rest = after;
    }
    found
}

/// A count as the exports write it: a number, or a constant of the crates below: a sum of products of
/// such. Two crates may have a constant of one name: that of the file itself goes first.
fn count(written: &str) -> usize {
    let files = [
        "specksonne/src/lib.rt",
        "selectors/src/words.rt",
        "policy/src/lib.rt",
        "sad/src/lib.rt",
        "spd_cache/src/lib.rt",
        "spd_cache/src/lent.rt",
        "spd/src/lib.rt",
    ];
    count_from(written, &files.map(|file| text(&format!("crates/{file}"))), 0)
}

fn count_from(written: &str, sources: &[String], own: usize) -> usize {
    if let Ok(number) = written.parse() {
        return number;
    }
    let definition = format!("const {written}: usize = ");
    let places = std::iter::once(own).chain(0..sources.len());
    let found =
        places.filter_map(|place| Some((place, between(&sources[place], &definition, ";")?.0)));
    let (place, value) = found.into_iter().next().unwrap_or_else(|| panic!("{written}"));
    let product = |term: &str| -> usize {
        term.split(" * ").map(|factor| count_from(factor, sources, place)).product()
    };
    value.split(" + ").map(product).sum()
}

/// A slice is a pointer and a count; an array is a pointer to that many; a row record is 22 words.
fn exported_type(kind: &str) -> Vec<String> {
    let (access, of) = match kind.strip_prefix("&mut ") {
        Some(of) => ("mut", of),
        None => ("const", kind.strip_prefix('&').unwrap_or(kind)),
    };
    if of == "[Row]" {
        return vec![format!("{access} u64 22"), "usize".to_string()];
    }
    match of.strip_prefix('[').and_then(|of| of.strip_suffix(']')) {
        Some(inner) => match inner.split_once("; ") {
            Some((element, many)) => vec![format!("{access} {element} {}", count(many))],
            None => vec![format!("{access} {inner}"), "usize".to_string()],
        },
        None if kind.starts_with('&') => vec![format!("{access} {of}")],
        None => vec![kind.to_string()],
    }
}

fn rust_type(kind: &str) -> Vec<String> {
    let kind = [
        ("PolicyWords", POLICY_WORDS),
        ("Table", TABLE_WORDS),
        ("CacheWords", CACHE_WORDS),
        ("SelectorWords", 10),
        ("RangeWords", 20),
    ]
    .iter()
    .fold(kind.to_string(), |kind, (name, words)| kind.replace(name, &format!("[u64; {words}]")));
    match kind.strip_prefix('*') {
        Some("const RowWords") => vec![format!("const u64 {ROW_WORDS}")],
        Some(pointer) => vec![pointer.to_string()],
        None => exported_type(&kind),
    }
}

/// The header's functions.
fn c_signatures(header: &str) -> Signatures {
    let number = |name: &str| {
        let definition = format!("#define {name} ");
        between(header, &definition, "\n").map_or(name.to_string(), |(value, _)| value.to_string())
    };
    let mut found = Signatures::new();
    for statement in without_comments(header).split(';') {
        let Some((result, call)) = statement.split_once(" specksonne_") else {
            continue;
        };
        // A function ends in its parameters; the variable that refers to one does not.
        let Some((name, parameters)) = call.strip_suffix(')').and_then(|call| call.split_once('('))
        else {
            continue;
        };
        let parameters = parameters.split(',').filter(|&one| one != "void");
        let signature = Signature {
            parameters: parameters.map(|one| c_type(one.trim(), &number)).collect(),
            result: c_name(result.split_whitespace().last().unwrap()),
        };
        found.insert(format!("specksonne_{name}"), signature);
    }
    found
}

fn without_comments(header: &str) -> String {
    let parts = header.split("/*").enumerate();
    parts
        .map(|(index, part)| if index == 0 { part } else { part.split_once("*/").unwrap().1 })
        .collect()
}

fn c_type(parameter: &str, number: &dyn Fn(&str) -> String) -> String {
    let (access, kind) = match parameter.strip_prefix("const ") {
        Some(kind) => ("const", kind),
        None => ("mut", parameter),
    };
    if kind.starts_with("struct specksonne_row *") {
        return format!("{access} u64 {}", number("SPECKSONNE_ROW_WORDS"));
    }
    let element = c_name(kind.split(' ').next().unwrap());
    match between(kind, "[", "]") {
        Some((count, _)) => format!("{access} {element} {}", number(count)),
        None if kind.contains('*') => format!("{access} {element}"),
        None => element,
    }
}

fn c_name(kind: &str) -> String {
    let name = match kind {
        "uint8_t" => "u8",
        "uint32_t" => "u32",
        "uint64_t" => "u64",
        "size_t" => "usize",
        "void" => "",
        other => other,
    };
    name.to_string()
}

#[test]
fn three_times_the_same_functions() {
    let source = text("crates/specksonne/src/lib.rt");
    let exported = rust_like(&source, "pub extern \"C\" fn ", &['\n', '{'], exported_type);
    assert_eq!(exported.len(), 25);
    let declared = text("rust/specksonne/src/ffi.rs");
    let declared = rust_like(&declared, "        pub fn ", &[';'], rust_type);
    assert_eq!(declared, exported);
    assert_eq!(c_signatures(&text("c/specksonne.h")), exported);
}

#[test]
fn the_constants_are_the_librarys() {
    assert_eq!((ffi::abi(), ffi::sizes()), (ffi::ABI, ffi::SIZES));
    let source = text("crates/specksonne/src/lib.rt");
    assert!(source.contains(&format!("fn specksonne_abi_{}()", ffi::ABI)));
    let version = env!("CARGO_PKG_VERSION").split('.').map(|part| part.parse::<u64>().unwrap());
    assert_eq!(ffi::version(), version.fold(0, |number, part| number * 1000 + part));
}
