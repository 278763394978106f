//! Normal forms of large policies over the real fields, where no brute force can go.

use reference::{
    normal_form, normalise, parse_policy, same, search, Action, Answer, Direction, Entry, Range,
    Requests, Value, Values, FIELDS, FIELD_TOPS,
};
use replay::generate::policies::{random_policy, rewritten};
use replay::generate::rows::file;
use replay::generate::same::varied;
use testkit::Prng;

const LIMIT: usize = 256;

/// A combination at the edges of the entries' ranges.
fn combination(prng: &mut Prng, entries: &[Entry<FIELDS>]) -> Values {
    let mut values = FIELD_TOPS.map(|top| Value::from(prng.number()) % (top + 1));
    for (field, value) in values.iter_mut().enumerate() {
        if !entries.is_empty() && !prng.one_in(5) {
            let range = prng.pick(entries).ranges[field];
            let around = [range.low, range.high, range.low.saturating_sub(1), range.high + 1];
            *value = (*prng.pick(&around)).min(FIELD_TOPS[field]);
        }
    }
    values
}

fn action(entries: &[Entry<FIELDS>], values: &Values) -> Action {
    search(entries, values).map_or(Action::Discard, |entry| entry.action)
}

fn check_form(prng: &mut Prng, entries: &[Entry<FIELDS>], form: &[Entry<FIELDS>]) {
    for _ in 0..100 {
        let values = combination(prng, entries);
        assert_eq!(action(form, &values), action(entries, &values), "{values:?}");
        assert!(form.iter().filter(|row| row.holds(&values)).count() <= 1, "rows overlap");
    }
    assert_eq!(normal_form(&FIELD_TOPS, form, LIMIT).as_deref(), Ok(form), "not stable");
    // Neighbours in the last field that could be one row are one row.
    for rows in form.windows(2) {
        let (one, other) = (&rows[0], &rows[1]);
        let alike = one.action == other.action && one.ranges[..4] == other.ranges[..4];
        assert!(!alike || one.ranges[4].high + 1 < other.ranges[4].low, "two rows for one");
    }
}

#[test]
fn thousands_of_large_policies() {
    let mut prng = Prng::new(7);
    let (mut within, mut over) = (0, 0);
    for _ in 0..3_000 {
        let rows = random_policy(&mut prng);
        let written = file(&mut prng, &rows);
        let Ok(policy) = parse_policy(&written, Requests::NONE) else {
            assert!(rows.len() > LIMIT);
            continue;
        };
        let entries = policy.entries(Direction::Out);
        match normal_form(&FIELD_TOPS, &entries, LIMIT) {
            Ok(form) => {
                check_form(&mut prng, &entries, &form);
                within += 1;
            }
            Err(_) => {
                let longer = normal_form(&FIELD_TOPS, &entries, LIMIT + 1);
                assert!(longer.is_err() || longer.unwrap().len() == LIMIT + 1);
                over += 1;
            }
        }
    }
    assert!(within > 2_000 && over > 60, "{within} within the limit, {over} over it");
}

fn normalised(file: &[u8], direction: Direction) -> Result<Vec<u8>, Answer> {
    let mut room = vec![0; 60_000];
    match normalise(file, direction, &mut room, Requests::NONE) {
        Answer::Printed { bytes } => Ok(room[..bytes].to_vec()),
        refusal => Err(refusal),
    }
}

/// One policy written in two ways has one normal-form file, or is refused in both.
#[test]
fn rewritten_policies_have_the_same_file() {
    let mut prng = Prng::new(8);
    let mut printed = 0;
    for _ in 0..1_500 {
        let rows = random_policy(&mut prng);
        let again = rewritten(&mut prng, &rows);
        if rows.len() > LIMIT || again.len() > LIMIT {
            continue;
        }
        for direction in [Direction::Out, Direction::In] {
            let one = normalised(&file(&mut prng, &rows), direction);
            let other = normalised(&file(&mut prng, &again), direction);
            assert_eq!(one, other, "{rows:?}");
            printed += usize::from(one.is_ok());
        }
    }
    assert!(printed > 1_000, "only {printed} were compared");
}

/// Policies are the same exactly where their normal-form files are; without a limit on the rows, a
/// policy is the same as itself rewritten.
#[test]
fn policies_are_compared_as_their_forms_are() {
    let mut prng = Prng::new(10);
    let (mut met, mut over) = ([0, 0], 0);
    for _ in 0..2_000 {
        let mut rows = random_policy(&mut prng);
        rows.truncate(60);
        let other = varied(&mut prng, &rows);
        let [one, other] = [&rows, &other].map(|rows| file(&mut prng, rows));
        let compared = same(&one, &other, Direction::Out, Requests::NONE);
        let forms = [&one, &other].map(|file| normalised(file, Direction::Out));
        if let [Ok(form), Ok(other_form)] = forms {
            assert_eq!(compared, Ok(form == other_form), "{rows:?}");
            met[usize::from(form == other_form)] += 1;
        } else {
            let again = rewritten(&mut prng, &rows);
            let again = file(&mut prng, &again);
            assert_eq!(same(&one, &again, Direction::Out, Requests::NONE), Ok(true), "{rows:?}");
            over += 1;
        }
    }
    assert!(met[0] > 200 && met[1] > 200 && over > 20, "{met:?} {over}");
}

fn random_box(prng: &mut Prng, action: Action) -> Entry<FIELDS> {
    let ranges = FIELD_TOPS.map(|top| {
        let (one, other) = (prng.number(), prng.number());
        let (one, other) = (Value::from(one) % (top + 1), Value::from(other) % (top + 1));
        Range::new(one.min(other), one.max(other))
    });
    Entry { action, ranges }
}

/// Policies whose many boxes come to nothing, because rows before them hide them or a row behind
/// them says the same: one row is left, and it is found without visiting every corner.
#[test]
fn idle_boxes_leave_one_row() {
    let mut prng = Prng::new(9);
    let everything =
        Entry { action: Action::Bypass, ranges: FIELD_TOPS.map(|top| Range::new(0, top)) };
    let thirds = [(0, 1_000), (1_001, 40_000), (40_001, 65_536)].map(|(low, high)| {
        let mut third = everything;
        third.ranges[4] = Range::new(low, high);
        third
    });
    for _ in 0..10 {
        let actions = [Action::Bypass, Action::Discard, Action::Protect(1)];
        let mut hidden = thirds.to_vec();
        hidden.extend((0..253).map(|n| random_box(&mut prng, actions[n % 3])));
        assert_eq!(normal_form(&FIELD_TOPS, &hidden, LIMIT), Ok(vec![everything]));
        let mut repeated: Vec<_> =
            (0..255).map(|_| random_box(&mut prng, Action::Bypass)).collect();
        repeated.push(everything);
        assert_eq!(normal_form(&FIELD_TOPS, &repeated, LIMIT), Ok(vec![everything]));
        // One box says otherwise: then there is more than one row.
        repeated[7].action = Action::Protect(2);
        assert_ne!(normal_form(&FIELD_TOPS, &repeated, LIMIT), Ok(vec![everything]));
    }
}
