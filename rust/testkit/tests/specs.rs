//! The name of a file of specs/, or of laws in proofs/, tells what is in it: definitions, which a reader has to believe, or
//! what follows from them. Laws are in files named `…Laws`, the demands' theorems in `Demand…`, worked
//! examples in `Example…`; any other file says in its first lines that it has definitions.

use std::fs;
use std::path::{Path, PathBuf};

/// What the first lines of a file of definitions say.
const SAYS: &str = "these are definitions";

fn root() -> PathBuf {
    Path::new(env!("CARGO_MANIFEST_DIR")).join("../..")
}

/// The files of specs/ of every crate and its files of laws in proofs/, but for the roots, which only name the others.
fn specs() -> Vec<PathBuf> {
    let crates = fs::read_dir(root().join("crates")).expect("crates/ can be read");
    let folders = crates.flat_map(|entry| {
        let folder = entry.expect("an entry").path();
        [folder.join("specs"), folder.join("proofs")]
    });
    let entries = folders.filter_map(|folder| fs::read_dir(folder).ok()).flatten();
    let files = entries.map(|entry| entry.expect("an entry").path());
    let antt = |path: &PathBuf| path.extension().is_some_and(|ending| ending == "antt");
    files.filter(|path| antt(path) && !path.ends_with("Lib.antt")).collect()
}

fn named_as_laws(name: &str) -> bool {
    name.ends_with("Laws") || name.starts_with("Demand") || name.starts_with("Example")
}

/// What is wrong with a file of that name and text.
fn fault(name: &str, text: &str) -> Option<String> {
    let comment: Vec<&str> = text.lines().take_while(|line| line.starts_with("--")).collect();
    match (named_as_laws(name), comment.join(" ").replace(" -- ", " ").contains(SAYS)) {
        (true, true) => Some(format!("{name} has the name of laws and says: {SAYS}")),
        (false, false) => {
            Some(format!("{name} has the name of definitions and does not say: {SAYS}"))
        }
        _ => None,
    }
}

#[test]
fn names_tell_definitions_from_laws() {
    let files = specs();
    assert!(files.len() > 50, "only {} files of specs/", files.len());
    let faults: Vec<String> = files
        .iter()
        .filter_map(|path| {
            let name = path.file_stem()?.to_str()?;
            let text = fs::read_to_string(path).expect("a file of specs/ can be read");
            fault(name, &text).map(|what| format!("{}: {what}", path.display()))
        })
        .collect();
    assert!(faults.is_empty(), "{}", faults.join("\n"));
}

#[test]
fn faults_are_found() {
    assert!(fault("Words", "-- Words. Assumes nothing: these are definitions.\n").is_none());
    assert!(fault("Words", "-- Words. Assumes nothing: these are\n-- definitions.\n").is_none());
    assert!(fault("WordsLaws", "-- Laws of words. Assumes nothing.\n").is_none());
    assert!(fault("Words", "-- Laws of words. Assumes nothing.\n").is_some());
    assert!(fault("WordsLaws", "-- Assumes nothing: these are definitions.\n").is_some());
    assert!(fault("Words", "use A\n-- these are definitions\n").is_some());
}
