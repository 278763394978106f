//! crates.txt is the map of the crates, in sections from the ground up: no crate rests on one of a
//! later section. docs/ARCHITECTURE.md has the picture that .ci/draw-crates draws of it, and says of
//! each crate what it holds.

use std::fs;
use std::path::{Path, PathBuf};
use testkit::run;

/// The libraries that are the kit's, and no crates of this repository.
const KIT: [&str; 6] = ["arrayvec", "bytes", "check", "io", "libc", "os"];

fn root() -> PathBuf {
    Path::new(env!("CARGO_MANIFEST_DIR")).join("../..")
}

fn text(path: &str) -> String {
    fs::read_to_string(root().join(path)).unwrap_or_else(|error| panic!("{path}: {error}"))
}

/// A line of crates.txt: a crate, the number of its section (0: none) and what it rests on.
struct Crate<'a> {
    name: &'a str,
    section: usize,
    rests_on: Vec<&'a str>,
}

fn crates(list: &str) -> Vec<Crate<'_>> {
    let (mut all, mut section) = (Vec::new(), 0);
    for line in list.lines() {
        section += usize::from(line.starts_with("# == "));
        let line = line.split('#').next().unwrap_or_default();
        if let Some((name, rest)) = line.split_once(':') {
            let rests_on = rest.split_whitespace().collect();
            // A static library says so after its name.
            let name = name.trim().trim_end_matches(" staticlib");
            all.push(Crate { name, section, rests_on });
        }
    }
    all
}

/// What is wrong with the list: a crate in no section, and one that rests on a later section or on
/// what is not there.
fn wrong_way(list: &str) -> Vec<String> {
    let all = crates(list);
    let mut faults = Vec::new();
    for upper in &all {
        if upper.section == 0 {
            faults.push(format!("{} stands in no section", upper.name));
        }
        for dep in upper.rests_on.iter().filter(|dep| !KIT.contains(dep)) {
            match all.iter().find(|lower| lower.name == *dep) {
                Some(lower) if lower.section <= upper.section => {}
                Some(_) => faults.push(format!("{}: {dep} stands in a later section", upper.name)),
                None => faults.push(format!("{}: there is no {dep}", upper.name)),
            }
        }
    }
    faults
}

/// The crates that the table of a document says something of.
fn described(document: &str) -> Vec<&str> {
    let table = document.lines().skip_while(|line| !line.starts_with("| crate |")).skip(2);
    let rows = table.take_while(|line| line.starts_with('|'));
    let firsts = rows.filter_map(|row| row.split('|').nth(1));
    firsts.flat_map(|cell| cell.split('`').skip(1).step_by(2)).collect()
}

/// What is wrong with the table: a crate that is not in it once, and a name of no crate.
fn wrong_rows(list: &str, document: &str) -> Vec<String> {
    let (all, rows) = (crates(list), described(document));
    let counts = all.iter().map(|one| (one.name, rows.iter().filter(|row| **row == one.name)));
    let uneven = counts.map(|(name, rows)| (name, rows.count())).filter(|(_, count)| *count != 1);
    let strange = rows.iter().filter(|row| all.iter().all(|one| one.name != **row));
    let strange = strange.map(|row| format!("{row} is no crate"));
    uneven.map(|(name, count)| format!("{name} has {count} rows")).chain(strange).collect()
}

/// What .ci/draw-crates draws of a list.
fn drawn(list: &Path) -> String {
    let program = root().join(".ci/draw-crates");
    let output = run("sh", &[program.as_os_str(), list.as_os_str()], b"");
    assert!(output.status.success(), "{}", String::from_utf8_lossy(&output.stderr));
    String::from_utf8(output.stdout).expect("plain text")
}

/// The picture that stands in a document.
fn picture(document: &str) -> Option<&str> {
    let rest = document.split_once("<!-- drawn by .ci/draw-crates -->\n```\n")?.1;
    Some(rest.split_once("```\n<!-- end of the drawing -->\n")?.0)
}

const SMALL: &str = "# == ground: stones\n\nstone:\nearth: stone\n\n# == house: walls # and more\n\
                     wall: stone earth io\n";

#[test]
fn what_is_wrong_is_seen() {
    assert!(wrong_way(SMALL).is_empty());
    assert_eq!(wrong_way(&SMALL.replace("stone:\n", "stone: wall\n")).len(), 1);
    assert_eq!(wrong_way(&SMALL.replace(" io", " nothing")).len(), 1);
    assert_eq!(wrong_way(&SMALL.replace("# == ground", "# ground")).len(), 2);
    let table = "| crate | holds |\n|---|---|\n| `wall` | `stone` |\n| `stone`, `earth` | |\n\n|";
    assert!(wrong_rows(SMALL, table).is_empty());
    assert_eq!(wrong_rows(SMALL, &table.replace("`earth`", "`wall`")).len(), 2);
    assert_eq!(wrong_rows(SMALL, &table.replace("`earth`", "`earth`, `sky`")).len(), 1);
}

#[test]
fn a_line_names_only_what_nothing_else_implies() {
    let file = std::env::temp_dir().join(format!("draw-crates.{}", std::process::id()));
    fs::write(&file, SMALL).expect("a file");
    let picture = drawn(&file);
    fs::remove_file(&file).expect("the file");
    let lines: Vec<&str> =
        picture.lines().map(|line| line.trim_end_matches([' ', '-', '|', '+'])).collect();
    assert_eq!(
        lines,
        [
            "+-- house: walls # and more",
            "|  wall   earth",
            "+-- ground: stones",
            "|  earth  stone",
            "|  stone",
            ""
        ]
    );
}

#[test]
fn arrows_go_one_way() {
    let list = text("crates.txt");
    let wrong = wrong_way(&list);
    assert!(wrong.is_empty(), "{wrong:#?}");
    assert!(crates(&list).len() > 30);
}

#[test]
fn the_picture_is_drawn_from_the_list() {
    let document = text("docs/ARCHITECTURE.md");
    let drawn = drawn(&root().join("crates.txt"));
    let there = picture(&document).expect("a picture between its marks");
    assert!(there == drawn, "docs/ARCHITECTURE.md must have what .ci/draw-crates draws:\n{drawn}");
    assert!(drawn.lines().all(|line| line.len() <= 100), "{drawn}");
}

#[test]
fn each_crate_has_a_row() {
    let wrong = wrong_rows(&text("crates.txt"), &text("docs/ARCHITECTURE.md"));
    assert!(wrong.is_empty(), "{wrong:#?}");
}
