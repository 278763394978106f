//! The generator: what its scenarios reach, and that a seed fixes them.

use replay::coverage::Coverage;
use replay::engine::EngineName;
use replay::generate::{generate, Kind, Recipe, DEFAULT_OPERATIONS, DEFAULT_SEED};
use replay::run::{run, End, Mode};

fn scenario(kind: Kind, seed: u64, operations: usize) -> String {
    let mut text = Vec::new();
    generate(&Recipe::new(kind, seed, operations), &mut text).unwrap();
    String::from_utf8(text).unwrap()
}

/// Runs a scenario through the reference; every line must be an operation.
fn run_reference(scenario: &str) -> (String, Coverage) {
    let (mut output, mut coverage) = (Vec::new(), Coverage::new());
    let mode = Mode::Single(EngineName::Reference);
    let end = run(scenario.as_bytes(), mode, &mut output, &mut coverage).unwrap();
    assert_eq!(end, End::Finished { bad_operations: 0 });
    (String::from_utf8(output).unwrap(), coverage)
}

#[test]
fn the_default_run_reaches_every_answer() {
    let scenario = scenario(Kind::All, DEFAULT_SEED, DEFAULT_OPERATIONS);
    let (output, coverage) = run_reference(&scenario);
    println!("{coverage}");
    assert_eq!(coverage.missing(), [""; 0], "{coverage}");
    assert_eq!(output.lines().count(), DEFAULT_OPERATIONS);
    for direction in ["out", "in"] {
        let full_caches = shown_caches(&scenario, &output, direction)
            .filter(|shown| shown.split(' ').count() == 2 + 32 && !shown.starts_with("= 0 "))
            .count();
        assert!(full_caches > 0, "no cache {direction} went round");
    }
}

/// The answers to `show cache` for one direction.
fn shown_caches<'a>(
    scenario: &'a str,
    output: &'a str,
    direction: &str,
) -> impl Iterator<Item = &'a str> {
    let asked = format!("show cache {direction}");
    let operations = scenario.lines().filter(|line| !line.starts_with('#'));
    let answered = operations.zip(output.lines());
    answered.filter(move |(line, _)| *line == asked).map(|(_, answer)| answer)
}

#[test]
fn every_kind_is_fixed_by_its_seed() {
    for (name, kind) in Kind::NAMES {
        assert_eq!(Kind::parse(name), Some(kind));
        let text = scenario(kind, 5, 600);
        assert_eq!(text.lines().count(), 601, "{name}");
        assert!(
            text.starts_with(&format!("# replay --generate {name} --seed 5 --ops 600\nitems\n"))
        );
        assert_eq!(text, scenario(kind, 5, 600), "{name}");
        assert_ne!(text, scenario(kind, 6, 600), "{name}");
        let (output, _) = run_reference(&text);
        assert!(!output.contains("= not here") && !output.contains("= spoilt"), "{name}");
    }
}

#[test]
fn every_policy_defect_is_refused() {
    let (output, coverage) = run_reference(&scenario(Kind::Defects, 1, 3_000));
    let missing = coverage.missing();
    for name in ["20", "21", "23", "24", "first", "second"] {
        assert!(!missing.iter().any(|missing| missing == name), "{coverage}");
    }
    // A random byte may leave a file sound, or cut off a whole number of rows; nothing else may.
    let refused = ["= 2", "= first 2", "= second 2"];
    let accepted =
        output.lines().filter(|line| !refused.iter().any(|start| line.starts_with(start)));
    let accepted = accepted.count();
    assert!(accepted < 30, "{accepted} defective files were taken");
}

/// The requests named in the first line are the ones that the run follows.
#[test]
fn requests_are_switched_on_by_the_items_line() {
    let with_items = |items: &[u64]| {
        let mut text = Vec::new();
        let recipe = Recipe { items: items.to_vec(), ..Recipe::new(Kind::Packets, 1, 3_000) };
        generate(&recipe, &mut text).unwrap();
        run_reference(&String::from_utf8(text).unwrap())
    };
    let (base, coverage) = with_items(&[]);
    assert!(!coverage.to_string().contains(" 33="));
    for (request, changes) in [(2, true), (3, false), (4, true), (7, true), (11, false)] {
        let (output, coverage) = with_items(&[request]);
        assert_eq!(output != base, changes, "request {request}");
        assert_eq!(coverage.to_string().contains(" 33="), request == 7);
    }
}
