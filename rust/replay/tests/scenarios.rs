//! The scenarios with answers written by hand: each is its own test.

use replay::coverage::Coverage;
use replay::engine::EngineName;
use replay::run::{run, Mode};
use std::fs;
use std::path::Path;

fn answers(scenario: &str, engine: EngineName) -> Vec<String> {
    let mut output = Vec::new();
    let mode = Mode::Single(engine);
    run(scenario.as_bytes(), mode, &mut output, &mut Coverage::new()).unwrap();
    String::from_utf8(output).unwrap().lines().map(str::to_string).collect()
}

fn is_operation(line: &str) -> bool {
    !line.is_empty() && !line.starts_with('=') && !line.starts_with('#')
}

/// The name and text of every scenario.
fn scenarios() -> Vec<(String, String)> {
    let folder = Path::new(env!("CARGO_MANIFEST_DIR")).join("scenarios");
    let read = |entry: fs::DirEntry| {
        let name = entry.file_name().into_string().unwrap();
        (name, fs::read_to_string(entry.path()).unwrap())
    };
    let entries = fs::read_dir(folder).unwrap();
    entries.map(|entry| read(entry.unwrap())).collect()
}

#[test]
fn the_reference_gives_the_answers_in_every_scenario() {
    let scenarios = scenarios();
    assert!(scenarios.len() >= 9, "some scenarios are missing");
    for (name, text) in scenarios {
        let expected: Vec<&str> = text.lines().filter(|line| line.starts_with('=')).collect();
        let operations: Vec<&str> = text.lines().filter(|line| is_operation(line)).collect();
        assert_eq!(expected.len(), operations.len(), "{name}: an answer for each operation");
        let given = answers(&text, EngineName::Reference);
        assert_eq!(given.len(), expected.len(), "{name}");
        for ((operation, given), expected) in operations.iter().zip(&given).zip(&expected) {
            assert_eq!(given, expected, "{name}: {operation}");
        }
    }
}

#[test]
fn the_proved_library_gives_the_answers_in_every_scenario() {
    for (name, text) in scenarios() {
        // It follows none of document 02's requests yet.
        if name.starts_with("request-") {
            assert_eq!(answers(&text, EngineName::Core)[0], "= not here", "{name}");
            continue;
        }
        let operations = text.lines().filter(|line| is_operation(line));
        let expected = text.lines().filter(|line| line.starts_with('='));
        let given = answers(&text, EngineName::Core);
        for ((operation, expected), given) in operations.zip(expected).zip(given) {
            let asks_for_requests = operation.starts_with("items ");
            let expected = if asks_for_requests { "= not here" } else { expected };
            assert_eq!(given, expected, "{name}: {operation}");
        }
    }
}
