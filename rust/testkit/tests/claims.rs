//! docs/CLAIMS.md sets a sentence beside the file and the name of what defines, proves or tests it:
//! each is there, and is what the row says of it. The files of definitions are as long as it says,
//! and none is left out.

use std::fs;
use std::path::{Path, PathBuf};

/// What a row may say of the names that follow.
const KINDS: [&str; 5] = ["defined", "proved", "code", "refused", "run"];

fn root() -> PathBuf {
    Path::new(env!("CARGO_MANIFEST_DIR")).join("../..")
}

fn text(path: &str) -> Option<String> {
    fs::read_to_string(root().join(path)).ok()
}

fn claims() -> String {
    text("docs/CLAIMS.md").expect("docs/CLAIMS.md")
}

/// The cells of a table's row.
fn cells(row: &str) -> Vec<&str> {
    row.trim().trim_matches('|').split('|').map(str::trim).collect()
}

/// A file, or a name in a file, and what the row says that it is.
struct Cited<'a> {
    kind: Option<&'a str>,
    file: &'a str,
    name: Option<&'a str>,
}

/// The last word of some prose that says what the names after it are.
fn kind_in(prose: &str) -> Option<&'static str> {
    let word = |kind: &&str| prose.rsplit(|c: char| !c.is_alphabetic()).any(|word| word == *kind);
    KINDS.into_iter().filter(word).max_by_key(|kind| prose.rfind(kind))
}

/// What a row's last cell cites: a file stands before its names, and a kind before both.
fn cited(row: &str) -> Vec<Cited<'_>> {
    let (mut all, mut kind, mut file) = (Vec::new(), None, "");
    let last = cells(row).pop().unwrap_or_default();
    for (index, part) in last.split('`').enumerate() {
        if index % 2 == 0 {
            kind = kind_in(part).or(kind);
        } else if ["crates/", "rust/", "c/"].iter().any(|folder| part.starts_with(folder)) {
            file = part;
            all.push(Cited { kind, file, name: None });
        } else {
            all.push(Cited { kind, file, name: Some(part) });
        }
    }
    all
}

/// Whether a file of specs/ or proofs/ defines a name, or proves a law of that name, where it declares it.
fn declared(file: &str, name: &str) -> Option<&'static str> {
    file.lines().find_map(|line| {
        let words: Vec<&str> = line.split_whitespace().collect();
        let at = words.iter().position(|word| *word == name)?;
        let (before, after) = (&words[..at], words.get(at + 1)?);
        match before {
            ["pub"] if *after == ":" => Some("proved"),
            ["abbrev" | "unfoldable", "pub"] if *after == ":" => Some("defined"),
            ["abbrev" | "unfoldable"] if *after == ":" => Some("defined"),
            ["pub", "record" | "data"] => Some("defined"),
            _ => None,
        }
    })
}

/// Whether a file has definitions or laws.
fn antt(path: &str) -> bool {
    path.contains("/specs/") || path.contains("/proofs/")
}

/// What a name in a file is, where the place alone says it.
fn kinds_of(cited: &Cited, file: &str) -> Vec<&'static str> {
    match (cited.file, cited.name) {
        (path, None) if antt(path) || path.contains("/src/") => KINDS.to_vec(),
        (path, Some(name)) if antt(path) => {
            declared(file, name).into_iter().collect()
        }
        (path, _) if path.contains("/must-fail/") => vec!["refused"],
        (path, Some(_)) if path.ends_with("src/main.rt") => vec!["run"],
        // A library's lib.rt and its modules.
        (path, Some(name)) if path.ends_with(".rt") => {
            let function = name.contains("fn ") || file.contains(&format!("fn {name}("));
            vec![if function { "proved" } else { "code" }, "code"]
        }
        _ => vec!["run"],
    }
}

/// What is wrong with a row: a file or a name that is not there, or is not what the row says.
fn faults(row: &str) -> Vec<String> {
    let fault = |cited: Cited| {
        let name = cited.name.unwrap_or_default();
        // A folder of tests is cited without names.
        let folder = root().join(cited.file).is_dir().then(String::new);
        let Some(file) = text(cited.file).or(folder) else {
            return Some(format!("no {}", cited.file));
        };
        if !file.contains(name) {
            return Some(format!("no {name} in {}", cited.file));
        }
        let kinds = kinds_of(&cited, &file);
        let said = cited.kind.unwrap_or("nothing");
        (!kinds.contains(&said)).then(|| format!("{} {name} is {kinds:?}, not {said}", cited.file))
    };
    cited(row).into_iter().filter_map(fault).collect()
}

/// The rows of the tables, but for their heads.
fn rows(claims: &str) -> Vec<&str> {
    let lines: Vec<&str> = claims.lines().collect();
    let rule = |index: usize| lines.get(index).is_some_and(|line| line.starts_with("|---"));
    let row = |index: &usize| lines[*index].starts_with('|') && !rule(*index) && !rule(index + 1);
    (0..lines.len()).filter(row).map(|index| lines[index]).collect()
}

#[test]
fn what_is_wrong_is_seen() {
    let wrong = |cell: &str| faults(&format!("| a sentence with `words` | {cell} |")).len();
    assert_eq!(wrong("proved `crates/specksonne/src/lib.rt` `specksonne_outbound`"), 0);
    assert_eq!(wrong("proved `crates/specksonne/src/lib.rt` `specksonne_nothing`"), 1);
    assert_eq!(wrong("proved `crates/nothing.rt` `specksonne_outbound`"), 2);
    assert_eq!(wrong("`crates/selectors/specs/Range.antt` `contains`"), 2);
    assert_eq!(wrong("defined `crates/selectors/specs/Range.antt` `contains`, `Range`"), 0);
    assert_eq!(wrong("proved `crates/selectors/specs/Range.antt` `contains`"), 1);
    assert_eq!(wrong("proved `crates/selectors/proofs/RangeLaws.antt` `opaque_alone`"), 0);
    assert_eq!(wrong("defined `crates/selectors/proofs/RangeLaws.antt` `opaque_alone`"), 1);
    assert_eq!(wrong("proved `crates/packet/specs/Read.antt` `nothing`"), 1);
    assert_eq!(wrong("run `crates/selectors/src/lib.rt` `pub const ANY`"), 1);
    assert_eq!(wrong("run `rust/testkit/tests`"), 0);
    assert_eq!(wrong("run `rust/testkit/tests` `claims`"), 1);
}

#[test]
fn each_claim_names_what_is_there() {
    let claims = claims();
    let rows = rows(&claims);
    let wrong: Vec<String> = rows.iter().flat_map(|row| faults(row)).collect();
    assert!(wrong.is_empty(), "{wrong:#?}");
    assert!(rows.len() > 150, "there are {} rows", rows.len());
}

#[test]
fn files_of_definitions_are_as_long_as_claimed() {
    let (mut wrong, mut counted) = (Vec::new(), 0);
    for row in rows(&claims()) {
        let [_, length, _] = cells(row)[..] else { continue };
        let file = cited(row)[0].file;
        let lines = text(file).unwrap_or_default().lines().count();
        counted += 1;
        if length.parse() != Ok(lines) {
            wrong.push(format!("{file} has {lines} lines, not {length}"));
        }
    }
    assert!(wrong.is_empty(), "{wrong:#?}");
    assert!(counted > 30, "{counted} files have a length");
}

/// The files of crates/*/specs that say of themselves that they are definitions.
fn definitions() -> Vec<String> {
    let names = |folder: &str| -> Vec<String> {
        let entries = fs::read_dir(root().join(folder)).into_iter().flatten().flatten();
        entries.map(|entry| format!("{folder}/{}", entry.file_name().to_string_lossy())).collect()
    };
    let files = names("crates").into_iter().flat_map(|folder| names(&format!("{folder}/specs")));
    let says = |text: String| text.replace("\n-- ", " ").contains("these are definitions");
    let define = |file: &String| text(file).is_some_and(says);
    files.filter(define).collect()
}

#[test]
fn no_file_of_definitions_is_left_out() {
    let (claims, files) = (claims(), definitions());
    let out: Vec<&String> = files.iter().filter(|file| !claims.contains(*file)).collect();
    assert!(out.is_empty(), "docs/CLAIMS.md does not say who has to believe {out:#?}");
    assert!(files.len() > 40, "{} files of definitions", files.len());
}
