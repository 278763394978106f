//! docs/RULES.md and the command's help say what the library does: each spelling in their tables
//! is tried, and their examples are worked.

use specksonne::{normalise, Action, Direction, Policy, Refusal, Selectors};
use std::net::Ipv4Addr;

const RULES: &str = include_str!("../../../docs/RULES.md");
const HELP: [&str; 2] =
    [include_str!("../../cli/help/policy.txt"), include_str!("../../cli/help/answers.txt")];
const HEADER: &str = include_str!("../../../c/specksonne.h");

/// The fields that a name in the documents is of.
const FIELDS: [(&str, &[usize]); 6] = [
    ("direction", &[0]),
    ("action", &[1]),
    ("any range", &[2, 3, 4, 5, 6]),
    ("address", &[2, 3]),
    ("protocol", &[4]),
    ("port", &[5, 6]),
];

/// What stands under a heading, up to the next one.
fn section(heading: &str) -> &'static str {
    let (_, after) = RULES.split_once(&format!("\n{heading}\n")).expect(heading);
    after.split("\n#").next().unwrap_or_default()
}

/// The first two cells of the rows of the table under a heading.
fn table(heading: &str) -> Vec<[&'static str; 2]> {
    let rows = section(heading).lines().filter(|line| line.starts_with('|')).skip(2);
    let cells = |row: &'static str| row.split('|').map(str::trim).collect::<Vec<_>>();
    rows.map(cells).map(|cells| [cells[1], cells[2]]).collect()
}

/// The parts of a text that are indented by four spaces, without these.
fn blocks(text: &str) -> Vec<String> {
    let parts = text.split("\n\n").filter(|part| part.starts_with("    "));
    parts.map(|part| part.trim_end().replace("\n    ", "\n")[4..].to_string() + "\n").collect()
}

/// The words in backquotes, each with what follows it.
fn quoted(cell: &str) -> Vec<(&str, &str)> {
    let parts: Vec<&str> = cell.split('`').collect();
    (1..parts.len()).step_by(2).map(|i| (parts[i], parts[i + 1])).collect()
}

/// A policy of one row, of which one field is spelt in this way.
fn policy(field: usize, spelling: &str) -> Result<Policy, Refusal> {
    let mut fields = ["out", "bypass", "any", "any", "any", "any", "any"];
    fields[field] = spelling;
    Policy::parse(format!("policy\t1\n{}\n", fields.join("\t")).as_bytes())
}

#[test]
fn the_spellings_of_fields_are_taken() {
    let (mut name, mut tried) = ("", 0);
    for [field, spellings] in table("### Fields") {
        name = if field.is_empty() { name } else { field };
        let (_, places) = FIELDS.iter().find(|(field, _)| *field == name).expect(name);
        for (spelling, _) in quoted(spellings) {
            for place in *places {
                assert!(policy(*place, spelling).is_ok(), "{spelling} as field {place}");
                tried += 1;
            }
        }
    }
    assert!(tried > 20, "{tried}");
}

#[test]
fn what_is_called_a_bad_row_is_refused() {
    let mut tried = 0;
    for [cell, _] in table("### What is a bad row") {
        for (spelling, after) in quoted(cell) {
            let named = FIELDS.iter().filter(|(field, _)| after.contains(field));
            let named: Vec<usize> = named.flat_map(|(_, places)| places.iter().copied()).collect();
            for place in if named.is_empty() { (0..7).collect() } else { named } {
                let refusal = policy(place, spelling).err();
                assert_eq!(refusal, Some(Refusal::BadRow(1)), "{spelling} as field {place}");
                tried += 1;
            }
        }
    }
    assert!(tried > 150, "{tried}");
}

#[test]
fn ranges_hold_a_packet_without_ports_where_the_table_says_so() {
    let selectors = Selectors {
        local: Ipv4Addr::LOCALHOST,
        remote: Ipv4Addr::LOCALHOST,
        protocol: 17,
        local_port: None,
        remote_port: None,
    };
    let rows = table("### Ranges");
    for [ranges, holds] in &rows {
        for (range, _) in quoted(ranges) {
            let action = policy(5, range).expect(range).search(Direction::Out, &selectors);
            assert_eq!(action == Action::Bypass, holds.starts_with("yes"), "{range}");
        }
    }
    assert_eq!(rows.len(), 4);
}

#[test]
fn the_worked_example_is_the_normal_form() {
    let [policy, out, into] = &blocks(section("### An example"))[..] else { panic!("three files") };
    let form = |direction| String::from_utf8(normalise(policy.as_bytes(), direction).unwrap());
    assert_eq!(form(Direction::Out).unwrap(), *out);
    assert_eq!(form(Direction::In).unwrap(), *into);
}

#[test]
fn the_examples_of_a_policy_file_are_accepted() {
    let example = blocks(section("### Fields")).remove(0);
    assert_eq!(Policy::parse(example.as_bytes()).unwrap().rows(), 2);
    let part = HELP[0].split("\n\n").find(|part| part.starts_with("policy\t1\n")).unwrap();
    assert_eq!(Policy::parse(format!("{part}\n").as_bytes()).unwrap().rows(), 2);
}

/// The numbers that stand first in lines, after some characters.
fn numbers<'a>(lines: impl Iterator<Item = &'a str>) -> Vec<u8> {
    let first = |line: &str| line.split([',', ' ']).next().and_then(|number| number.parse().ok());
    lines.filter_map(|line| first(line.trim_start())).collect()
}

#[test]
fn the_tables_of_answers_are_those_of_the_header() {
    let enumerated = HEADER.split("enum {").nth(1).unwrap().split('}').next().unwrap();
    let answers = numbers(enumerated.lines().filter_map(|line| Some(line.split_once(" = ")?.1)));
    assert_eq!(numbers(table("## Answers").iter().map(|[number, _]| *number)), answers);
    let help = numbers(HELP[1].lines().filter(|line| line.starts_with("    ")));
    assert_eq!(help.len(), answers.len());
    assert!(answers.iter().all(|number| help.contains(number)), "{help:?}");
}
