//! The normal form against document 01's definition, by brute force over tiny fields.

use reference::{normal_form, same_search, search, Action, Entry, OverLimit, Range, Value};
use std::collections::HashMap;
use testkit::Prng;

const ACTIONS: [Action; 4] =
    [Action::Bypass, Action::Discard, Action::Protect(1), Action::Protect(2)];

/// Every combination of values, in the order of the fields.
fn combinations<const N: usize>(tops: &[Value; N]) -> Vec<[Value; N]> {
    let mut all = vec![[0; N]];
    for field in 0..N {
        let longer = all.iter().flat_map(|start| {
            (0..=tops[field]).map(move |value| {
                let mut values = *start;
                values[field] = value;
                values
            })
        });
        all = longer.collect();
    }
    all
}

/// The search's action at every combination, by walking the entries anew for each.
fn searched<const N: usize>(tops: &[Value; N], entries: &[Entry<N>]) -> Vec<Action> {
    let action_at = |values: &[Value; N]| {
        for entry in entries {
            if (0..N).all(|f| entry.ranges[f].low <= values[f] && values[f] <= entry.ranges[f].high)
            {
                return entry.action;
            }
        }
        Action::Discard
    };
    combinations(tops).iter().map(action_at).collect()
}

/// Document 01's layout from the table of all actions alone: the table is parted by the values of
/// the next field, and neighbouring parts that are equal make one stretch.
fn laid_out_by_definition<const N: usize>(tops: &[Value; N], table: &[Action]) -> Vec<Entry<N>> {
    let mut rows = Vec::new();
    let mut ranges = [Range::single(0); N];
    lay_out_rest(tops, 0, table, &mut ranges, &mut rows);
    rows
}

fn lay_out_rest<const N: usize>(
    tops: &[Value; N],
    field: usize,
    table: &[Action],
    ranges: &mut [Range; N],
    rows: &mut Vec<Entry<N>>,
) {
    if table.iter().all(|&action| action == Action::Discard) {
        return;
    }
    if field == N {
        rows.push(Entry { action: table[0], ranges: *ranges });
        return;
    }
    let size = tops[field] as usize + 1;
    let parts: Vec<&[Action]> = table.chunks(table.len() / size).collect();
    let mut low = 0;
    while low < size {
        let mut high = low;
        while high + 1 < size && parts[high + 1] == parts[low] {
            high += 1;
        }
        ranges[field] = Range::new(low as Value, high as Value);
        lay_out_rest(tops, field + 1, parts[low], ranges, rows);
        low = high + 1;
    }
}

fn random_range(prng: &mut Prng, top: Value) -> Range {
    if prng.one_in(4) {
        return Range::new(0, top);
    }
    let (a, b) = (prng.between(0, top as u64) as Value, prng.between(0, top as u64) as Value);
    Range::new(a.min(b), a.max(b))
}

fn random_entries<const N: usize>(prng: &mut Prng, tops: &[Value; N]) -> Vec<Entry<N>> {
    let count = prng.below(9);
    let entry =
        |_| Entry { action: *prng.pick(&ACTIONS), ranges: tops.map(|top| random_range(prng, top)) };
    (0..count).map(entry).collect()
}

/// The form with no limit on its rows.
fn whole_form<const N: usize>(tops: &[Value; N], entries: &[Entry<N>]) -> Vec<Entry<N>> {
    normal_form(tops, entries, usize::MAX).unwrap()
}

/// Checks all that document 01 says of one normal form, and hands back the form and the table.
fn check_form<const N: usize>(
    tops: &[Value; N],
    entries: &[Entry<N>],
) -> (Vec<Entry<N>>, Vec<Action>) {
    let table = searched(tops, entries);
    let form = whole_form(tops, entries);
    assert_eq!(form, laid_out_by_definition(tops, &table), "layout of {entries:?}");
    assert_eq!(searched(tops, &form), table, "searching the form of {entries:?}");
    assert!(form.iter().all(|row| row.action != Action::Discard));
    for values in combinations(tops) {
        let holding = form.iter().filter(|row| row.holds(&values)).count();
        assert!(holding <= 1, "rows overlap at {values:?}");
        let found = search(entries, &values).map_or(Action::Discard, |entry| entry.action);
        let found_in_form = search(&form, &values).map_or(Action::Discard, |row| row.action);
        assert_eq!(found, found_in_form);
    }
    let lows = |row: &Entry<N>| row.ranges.map(|range| range.low);
    assert!(form.windows(2).all(|rows| lows(&rows[0]) < lows(&rows[1])), "not low to high");
    assert_eq!(whole_form(tops, &form), form, "normalising again");
    assert_eq!(normal_form(tops, entries, form.len()), Ok(form.clone()));
    if !form.is_empty() {
        assert_eq!(normal_form(tops, entries, form.len() - 1), Err(OverLimit));
    }
    (form, table)
}

/// Runs many random policies over one list of field sizes, and checks that forms are equal
/// exactly when the searches agree everywhere.
fn check_random_policies<const N: usize>(tops: [Value; N], seed: u64, count: usize) {
    let mut prng = Prng::new(seed);
    let mut table_of: HashMap<Vec<Entry<N>>, Vec<Action>> = HashMap::new();
    let mut form_of: HashMap<Vec<Action>, Vec<Entry<N>>> = HashMap::new();
    let mut met_again = 0;
    for _ in 0..count {
        let (form, table) = check_form(&tops, &random_entries(&mut prng, &tops));
        met_again += usize::from(form_of.contains_key(&table));
        assert_eq!(table_of.entry(form.clone()).or_insert(table.clone()), &table);
        assert_eq!(form_of.entry(table).or_insert(form.clone()), &form);
    }
    assert!(met_again > count / 50, "too few equal policies: {met_again}");
}

#[test]
fn random_policies_over_fields_of_4_3_3() {
    check_random_policies([3, 2, 2], 1, 20_000);
}

#[test]
fn random_policies_over_fields_of_2_5_1_3() {
    check_random_policies([1, 4, 0, 2], 2, 10_000);
}

#[test]
fn random_policies_over_five_fields() {
    check_random_policies([2, 1, 2, 1, 2], 3, 4_000);
}

/// Nearly the same entries: in another order, one left out, one with another action or end.
fn nearly<const N: usize>(
    prng: &mut Prng,
    tops: &[Value; N],
    entries: &[Entry<N>],
) -> Vec<Entry<N>> {
    let mut entries = entries.to_vec();
    for _ in 0..prng.below(3) {
        if entries.is_empty() {
            break;
        }
        let count = entries.len() as u64;
        let [place, another] = [prng.below(count), prng.below(count)].map(|place| place as usize);
        let field = prng.below(N as u64) as usize;
        match prng.below(5) {
            0 => entries.swap(place, another),
            1 => drop(entries.remove(place)),
            2 => entries[place].action = *prng.pick(&ACTIONS),
            3 => entries.insert(place, entries[another]),
            _ => entries[place].ranges[field] = random_range(prng, tops[field]),
        }
    }
    entries
}

/// Two lists are the same search exactly where every combination has the same action.
fn check_same_search<const N: usize>(tops: [Value; N], seed: u64, count: usize) {
    let mut prng = Prng::new(seed);
    let mut met = [0, 0];
    for _ in 0..count {
        let one = random_entries(&mut prng, &tops);
        let other = nearly(&mut prng, &tops, &one);
        let same = searched(&tops, &one) == searched(&tops, &other);
        assert_eq!(same_search(&tops, &one, &other), same, "{one:?} {other:?}");
        assert_eq!(same_search(&tops, &other, &one), same, "{other:?} {one:?}");
        let form = whole_form(&tops, &one);
        assert!(same_search(&tops, &one, &form) && same_search(&tops, &form, &one));
        met[usize::from(same)] += 1;
    }
    assert!(met.iter().all(|&times| times > count / 10), "{met:?}");
}

#[test]
fn two_searches_are_compared_everywhere() {
    check_same_search([3, 2, 2], 4, 20_000);
    check_same_search([1, 4, 0, 2], 5, 10_000);
    check_same_search([2, 1, 2, 1, 2], 6, 4_000);
}

/// All 3^8 searches over three fields of two values: each has its own form.
#[test]
fn every_search_over_fields_of_2_2_2() {
    let tops = [1, 1, 1];
    let cells = combinations(&tops);
    let mut forms = HashMap::new();
    for code in 0..3_usize.pow(8) {
        let action_of = |cell: usize| ACTIONS[code / 3_usize.pow(cell as u32) % 3];
        let entries: Vec<_> = (0..8)
            .map(|cell| Entry { action: action_of(cell), ranges: cells[cell].map(Range::single) })
            .collect();
        let (form, table) = check_form(&tops, &entries);
        assert_eq!(forms.insert(form, table), None, "two searches share one form");
    }
}

/// A field's last value must not be stepped over, whatever the width of the numbers.
#[test]
fn the_highest_values_of_the_widest_field() {
    let top = Value::MAX;
    let entry = |action, low, high| Entry { action, ranges: [Range::new(low, high)] };
    let entries = [
        entry(Action::Protect(1), top, top),
        entry(Action::Bypass, top - 1, top),
        entry(Action::Bypass, 0, 0),
    ];
    let expected = [
        entry(Action::Bypass, 0, 0),
        entry(Action::Bypass, top - 1, top - 1),
        entry(Action::Protect(1), top, top),
    ];
    assert_eq!(whole_form(&[top], &entries), expected);
}
