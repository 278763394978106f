//! The links of the documents lead to files that are there, and to headings.

use std::fs;
use std::path::{Path, PathBuf};

/// The documents of the root, of docs/ and of rust/.
fn documents() -> Vec<PathBuf> {
    let root = Path::new(env!("CARGO_MANIFEST_DIR")).join("../..");
    let folders = ["", "docs", "rust", "rust/replay"].map(|folder| root.join(folder));
    let entries = folders.iter().flat_map(|folder| fs::read_dir(folder).expect("a folder"));
    let files = entries.map(|entry| entry.expect("an entry").path());
    files.filter(|file| file.extension().is_some_and(|extension| extension == "md")).collect()
}

/// What stands in the round brackets of `[words](target)`.
fn targets(text: &str) -> impl Iterator<Item = &str> {
    text.split("](").skip(1).filter_map(|rest| Some(rest.split_once(')')?.0))
}

/// The name of a heading in a link: lower case, a dash for a space, no other signs.
fn anchor(heading: &str) -> String {
    let words = heading.trim_start_matches('#').trim().to_lowercase().replace(' ', "-");
    words.chars().filter(|c| c.is_alphanumeric() || *c == '-' || *c == '_').collect()
}

/// Whether a target, seen from a document, is there.
fn leads_somewhere(document: &Path, target: &str) -> bool {
    let (file, heading) = target.split_once('#').unwrap_or((target, ""));
    let file = match file {
        "" => document.to_path_buf(),
        _ => document.parent().expect("a folder").join(file),
    };
    let has =
        |text: String| text.lines().any(|line| line.starts_with('#') && anchor(line) == heading);
    file.exists() && (heading.is_empty() || fs::read_to_string(file).is_ok_and(has))
}

#[test]
fn every_link_leads_somewhere() {
    let (mut lost, mut tried) = (Vec::new(), 0);
    for document in documents() {
        let text = fs::read_to_string(&document).expect("a document");
        for target in targets(&text).filter(|target| !target.contains("://")) {
            tried += 1;
            if !leads_somewhere(&document, target) {
                lost.push(format!("{}: {target}", document.display()));
            }
        }
    }
    assert!(lost.is_empty(), "{lost:#?}");
    assert!(tried > 20, "{tried}");
}
