//! Comparing must find a wrong engine, and must find it at the right line.

use replay::coverage::Coverage;
use replay::engine::{Engine, EngineName};
use replay::generate::{generate, Kind, Recipe};
use replay::operation::Operation;
use replay::reply::{AnswerLine, Comparison, Reply};
use replay::run::{difference, run_engines, Difference, End};
use replay::shrink::shortest;

/// The reference with one defect: it lets packets through that should be protected.
struct Faulty(Box<dyn Engine>);

impl Engine for Faulty {
    fn run(&mut self, operation: &Operation) -> Reply {
        match self.0.run(operation) {
            Reply::Answer(answer) if answer.number == 12 => {
                Reply::Answer(AnswerLine { number: 0, ..answer })
            }
            reply => reply,
        }
    }
}

fn compare(scenario: &str, core: &mut dyn Engine) -> (End, String) {
    let mut reference = EngineName::Reference.start();
    let (mut output, mut coverage) = (Vec::new(), Coverage::new());
    let end =
        run_engines(scenario.as_bytes(), &mut *reference, Some(core), &mut output, &mut coverage);
    (end.unwrap(), String::from_utf8(output).unwrap())
}

fn scenario() -> String {
    let mut text = Vec::new();
    generate(&Recipe::new(Kind::All, 1, 5_000), &mut text).unwrap();
    String::from_utf8(text).unwrap()
}

#[test]
fn equal_engines_agree_to_the_end() {
    let (end, output) = compare(&scenario(), &mut *EngineName::Reference.start());
    assert_eq!(end, End::Finished { bad_operations: 0 });
    assert_eq!(output.lines().count(), 5_000);
}

#[test]
fn a_faulty_engine_is_found_where_it_errs() {
    let scenario = scenario();
    let mut faulty = Faulty(EngineName::Reference.start());
    let (end, output) = compare(&scenario, &mut faulty);
    let End::Differs(Difference { line_number, operation, core, reference }) = end else {
        panic!("the fault was not found");
    };
    assert_eq!((core.as_str(), reference.as_str()), ("= 0", "= 12"));
    assert_eq!(scenario.lines().nth(line_number - 1), Some(operation.as_str()));
    // The comment line has no answer, and neither has the line that differs.
    assert_eq!(output.lines().count(), line_number - 2);
    assert!(!output.lines().any(|line| line == "= 12"));
}

/// The reference with another defect: to it, policies that differ are the same.
struct Careless(Box<dyn Engine>);

impl Engine for Careless {
    fn run(&mut self, operation: &Operation) -> Reply {
        match self.0.run(operation) {
            Reply::Comparison(Comparison::Different) => Reply::Comparison(Comparison::Same),
            reply => reply,
        }
    }
}

#[test]
fn a_careless_comparison_is_found() {
    let mut careless = Careless(EngineName::Reference.start());
    let (end, _) = compare(&scenario(), &mut careless);
    let End::Differs(Difference { operation, core, reference, .. }) = end else {
        panic!("the fault was not found");
    };
    assert!(operation.starts_with("same "), "{operation}");
    assert_eq!((core.as_str(), reference.as_str()), ("= same", "= different"));
}

/// Where a generated scenario shows a difference between the engines, says its shortest form.
#[track_caller]
fn engines_agree(kind: Kind, seed: u64, operations: usize) {
    let mut text = Vec::new();
    generate(&Recipe::new(kind, seed, operations), &mut text).unwrap();
    let scenario = String::from_utf8(text).unwrap();
    if let Some(found) = difference(&scenario) {
        let shortest = shortest(&scenario, |text| difference(text).is_some());
        panic!("{kind:?} {seed} {operations}: {found:?}; the shortest form:\n{shortest}");
    }
}

#[test]
fn the_proved_library_agrees_with_the_reference_on_each_kind() {
    for (_, kind) in Kind::NAMES {
        engines_agree(kind, 1, 4_000);
    }
    for seed in 2..=3 {
        engines_agree(Kind::All, seed, 20_000);
    }
}

#[test]
fn the_proved_library_agrees_with_the_reference_on_all_kinds() {
    for seed in 4..=6 {
        engines_agree(Kind::All, seed, 20_000);
    }
}

#[test]
fn the_shortest_form_of_a_difference_is_short() {
    let differs = |text: &str| {
        let mut faulty = Faulty(EngineName::Reference.start());
        matches!(compare(text, &mut faulty).0, End::Differs(_))
    };
    let shortest = shortest(&scenario(), differs);
    assert!(differs(&shortest));
    // A policy, and a packet that came in clear.
    assert_eq!(shortest.lines().count(), 2, "{shortest}");
    let (policy, packet) = shortest.split_once('\n').unwrap();
    assert!(policy.starts_with("policy ") && packet.starts_with("in "), "{shortest}");
}
