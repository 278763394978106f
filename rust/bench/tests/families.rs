//! The families are what their names say, and the proved library and the second implementation say
//! the same of them.

use bench::calls::Call;
use bench::families::{Family, FAMILIES};
use bench::rows::{file, Row};
use bench::table::COLUMNS;
use bench::variants::{changed, dropped, put_in, reordered};
use reference::{Answer, Requests};
use specksonne::{normalise, same_policy, Direction, Policy, MOST_ROWS};
use testkit::Prng;

fn policy(name: &str, rows: usize) -> Vec<Row> {
    Family::named(name).expect("a family").policy(rows, 1)
}

#[test]
fn each_parses_with_the_rows_asked_for() {
    for family in &FAMILIES {
        for (rows, seed) in [(1, 1), (2, 2), (3, 3), (17, 4), (100, 5), (MOST_ROWS, 6)] {
            let parsed = Policy::parse(&file(&family.policy(rows, seed)));
            let parsed = parsed.unwrap_or_else(|refusal| panic!("{}: {refusal}", family.name));
            assert_eq!(parsed.rows(), rows, "{}, seed {seed}", family.name);
        }
    }
}

#[test]
fn a_seed_fixes_a_policy() {
    for family in &FAMILIES {
        assert_eq!(family.policy(50, 7), family.policy(50, 7), "{}", family.name);
    }
    let real = FAMILIES.iter().filter(|family| family.name.starts_with("real-"));
    for family in real {
        assert_ne!(family.policy(50, 7), family.policy(50, 8), "{}", family.name);
    }
}

/// The rows of the normal form, where the name says them.
#[test]
fn normal_forms() {
    let cases = [
        ("full-then-shadowed", 1),
        ("halves-of-the-last-field", 2),
        ("halves-of-the-last-field-all-cut", 2),
        ("halves-of-the-first-field", 2),
        ("grid-of-64", 64),
        ("nested-small-first-one-action", 1),
        ("nested-large-first", 1),
        ("disjoint-diagonal", 100),
        ("random-one-action-full-last", 1),
        ("random-one-action-halves-last", 1),
        ("random-discards", 0),
        ("slabs-then-halves", 1),
        ("line-of-discards", 50),
    ];
    for (name, rows) in cases {
        let form = normalise(&file(&policy(name, 100)), Direction::Out).expect(name);
        assert_eq!(form.iter().filter(|&&byte| byte == b'\n').count(), rows + 1, "{name}");
    }
}

/// What the second implementation answers to a call, in the words of [`Call`].
fn reference_answer(call: &Call, room: &mut [u8]) -> String {
    let out = reference::Direction::Out;
    match call {
        Call::Normalise(file) => {
            let answer = reference::normalise(file, out, room, Requests::NONE);
            if let Answer::Printed { bytes } = answer {
                assert_eq!(normalise(file, Direction::Out).as_deref(), Ok(&room[..bytes]));
            }
            answer.number().to_string()
        }
        Call::Accept(file) => {
            let mut gateway = reference::Gateway::new(0, Requests::NONE);
            gateway.set_policy(file).number().to_string()
        }
        Call::Compare(one, other) => match reference::same(one, other, out, Requests::NONE) {
            Ok(true) => "same".to_string(),
            Ok(false) => "different".to_string(),
            Err(refused) => panic!("{refused:?}"),
        },
    }
}

#[test]
fn both_implementations_answer_alike() {
    let mut room = vec![0; specksonne::MOST_NORMAL_FORM_BYTES];
    let (mut within, mut over, mut same, mut different) = (0, 0, 0, 0);
    for family in &FAMILIES {
        for (column, seed) in COLUMNS.iter().flat_map(|column| (1..4).map(move |n| (column, n))) {
            let call = column.call(family, 20, seed);
            let proved = call.once().expect("a short call").answer;
            let place = format!("{}, {}, seed {seed}", family.name, column.name);
            assert_eq!(proved, reference_answer(&call, &mut room), "{place}");
            match proved.as_str() {
                "5" => within += 1,
                "22" => over += 1,
                "same" => same += 1,
                _ => different += 1,
            }
        }
    }
    assert!(within > 0 && over > 0 && same > 0 && different > 0);
}

/// Reordering changes no search, and does reorder; the others change one row.
#[test]
fn copies() {
    let mut prng = Prng::new(1);
    for family in &FAMILIES {
        let rows = family.policy(60, 2);
        let copy = reordered(&mut prng, &rows);
        assert_eq!(same_policy(&file(&rows), &file(&copy), Direction::Out), Ok(true));
        let [before, after] = put_in(&mut prng, &rows);
        assert_eq!((before.len(), after.len()), (60, 61));
        assert_eq!(dropped(&mut prng, &rows).len(), 59);
        let changed = changed(&mut prng, &rows);
        assert_eq!(rows.iter().zip(&changed).filter(|(one, other)| one != other).count(), 1);
    }
    let rows = policy("real-24-subnets", 60);
    assert_ne!(reordered(&mut prng, &rows), rows);
    let [before, after] = put_in(&mut prng, &policy("random-actions", MOST_ROWS));
    assert_eq!((before.len(), after.len()), (MOST_ROWS - 1, MOST_ROWS));
}
