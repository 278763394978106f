//! The one normal form of a policy for one direction.
//!
//! Field by field, in file order: part the field wherever an entry's range begins or ends, join
//! neighbouring pieces that are treated alike into runs (document 01's stretches), and lay out the
//! remaining fields for each run. Whether two pieces are treated alike is decided by looking for a
//! combination of the later fields at which the two searches differ.

use crate::{Action, Entry, Range, Value};

/// The normal form has more rows than the limit.
#[derive(Clone, Copy, Debug, PartialEq, Eq)]
pub struct OverLimit;

/// The normal form of the ordered search of `entries`, over fields that end at `tops`.
pub fn normal_form<const N: usize>(
    tops: &[Value; N],
    entries: &[Entry<N>],
    limit: usize,
) -> Result<Vec<Entry<N>>, OverLimit> {
    let mut rows = Vec::new();
    let everything = tops.map(|top| Range::new(0, top));
    let entries: Entries<N> = entries.iter().collect();
    lay_out(0, everything, &entries, limit, &mut rows)?;
    Ok(rows)
}

/// Whether the ordered searches of two lists give the same action at every combination.
pub fn same_search<const N: usize>(
    tops: &[Value; N],
    one: &[Entry<N>],
    other: &[Entry<N>],
) -> bool {
    let everything = tops.map(|top| Range::new(0, top));
    let other = sharing(one, other);
    agree(0, &everything, &one.iter().collect::<Entries<N>>(), &other)
}

/// The entries of `other`, those that `one` has too taken from there, as many as keep their order.
fn sharing<'a, const N: usize>(one: &'a [Entry<N>], other: &'a [Entry<N>]) -> Entries<'a, N> {
    let common = common_behind(one, other);
    let (mut shared, mut at) = (Vec::new(), 0);
    while shared.len() < other.len() {
        let place = shared.len();
        if at < one.len() && one[at] == other[place] {
            shared.push(&one[at]);
            at += 1;
        } else if at < one.len() && common[at + 1][place] >= common[at][place + 1] {
            at += 1;
        } else {
            shared.push(&other[place]);
        }
    }
    shared
}

/// How many entries two lists can share in order, from each place of the one and of the other on.
fn common_behind<const N: usize>(one: &[Entry<N>], other: &[Entry<N>]) -> Vec<Vec<usize>> {
    let mut common = vec![vec![0; other.len() + 1]; one.len() + 1];
    for at in (0..one.len()).rev() {
        for place in (0..other.len()).rev() {
            common[at][place] = if one[at] == other[place] {
                common[at + 1][place + 1] + 1
            } else {
                common[at + 1][place].max(common[at][place + 1])
            };
        }
    }
    common
}

/// Some of the entries, in the order of the search.
type Entries<'a, const N: usize> = Vec<&'a Entry<N>>;

/// Writes the rows for the fields from `field` on. The fields of `part` before it are runs already
/// cut, and `entries` are those that hold these runs' lowest values.
fn lay_out<const N: usize>(
    field: usize,
    part: [Range; N],
    entries: &[&Entry<N>],
    limit: usize,
    rows: &mut Vec<Entry<N>>,
) -> Result<(), OverLimit> {
    let entries = met_in(field, &part, entries);
    if field == N {
        return write_row(part, action_of(&entries), limit, rows);
    }
    for run in runs(field, &part, &entries) {
        let holding = holding(field, run.low, &entries);
        lay_out(field + 1, with_range(&part, field, run), &holding, limit, rows)?;
    }
    Ok(())
}

fn write_row<const N: usize>(
    ranges: [Range; N],
    action: Action,
    limit: usize,
    rows: &mut Vec<Entry<N>>,
) -> Result<(), OverLimit> {
    if action == Action::Discard {
        return Ok(());
    }
    if rows.len() == limit {
        return Err(OverLimit);
    }
    rows.push(Entry { action, ranges });
    Ok(())
}

/// Cuts a field of the part into the longest runs of values that are treated alike.
fn runs<const N: usize>(field: usize, part: &[Range; N], entries: &[&Entry<N>]) -> Vec<Range> {
    let mut runs: Vec<Range> = Vec::new();
    let mut holding_before = Vec::new();
    // Throughout a piece, the same entries hold.
    for piece in pieces(part[field], entries.iter().map(|entry| entry.ranges[field])) {
        let holding_here = holding(field, piece.low, entries);
        match runs.last_mut() {
            Some(run) if agree(field + 1, part, &holding_before, &holding_here) => {
                run.high = piece.high;
            }
            _ => runs.push(piece),
        }
        holding_before = holding_here;
    }
    runs
}

/// Whether the searches of two lists give the same action, whatever the fields from `field` on
/// hold of the part. An entry that stands in both is the same one in memory, and those that do have
/// one order.
fn agree<const N: usize>(
    field: usize,
    part: &[Range; N],
    one: &[&Entry<N>],
    other: &[&Entry<N>],
) -> bool {
    let (one, other) = (met_in(field, part, one), met_in(field, part, other));
    let parting = only_in_one(&one, &other);
    if parting.is_empty() || all_say_the_same(field, part, &one, &other) {
        return true;
    }
    // Where only entries of both lists hold, the searches agree.
    let narrower = around(field, part, &parting);
    if narrower != *part {
        return agree(field, &narrower, &one, &other);
    }
    let holds_a_part = |entry: &&Entry<N>| !holds_all(field, part, &entry.ranges);
    let parter = parting.iter().copied().find(holds_a_part);
    if parter.is_none() && said_last(field, part, &one) == said_last(field, part, &other) {
        return true;
    }
    match parter.or(one.first().copied().filter(holds_a_part)) {
        Some(entry) => {
            // What the entry holds comes first: a difference is most likely there.
            let parts = split(field, part, &entry.ranges);
            parts.iter().rev().all(|part| agree(field, part, &one, &other))
        }
        None => false,
    }
}

/// The action where no entry holds but one that holds all of the part.
fn said_last<const N: usize>(field: usize, part: &[Range; N], entries: &[&Entry<N>]) -> Action {
    let last = entries.last().filter(|last| holds_all(field, part, &last.ranges));
    last.map_or(Action::Discard, |last| last.action)
}

/// Whether the entries of both lists, and the discarding where none of them holds, are all one
/// action.
fn all_say_the_same<const N: usize>(
    field: usize,
    part: &[Range; N],
    one: &[&Entry<N>],
    other: &[&Entry<N>],
) -> bool {
    let mut said = Vec::new();
    for list in [one, other] {
        said.extend(list.iter().map(|entry| entry.action));
        said.push(said_last(field, part, list));
    }
    said.iter().all(|action| *action == said[0])
}

/// The action of a search that meets these entries, the first of which holds everything.
fn action_of<const N: usize>(entries: &[&Entry<N>]) -> Action {
    entries.first().map_or(Action::Discard, |entry| entry.action)
}

/// A range parted wherever another begins or has just ended.
fn pieces(range: Range, others: impl IntoIterator<Item = Range>) -> Vec<Range> {
    let mut lows = vec![range.low];
    for Range { low, high } in others {
        if range.low < low && low <= range.high {
            lows.push(low);
        }
        if range.low <= high && high < range.high {
            lows.push(high + 1);
        }
    }
    lows.sort_unstable();
    lows.dedup();
    let highs = lows[1..].iter().map(|&next| next - 1).chain([range.high]);
    lows.iter().zip(highs).map(|(&low, high)| Range::new(low, high)).collect()
}

/// The entries that hold this value of the field.
fn holding<'a, const N: usize>(
    field: usize,
    value: Value,
    entries: &[&'a Entry<N>],
) -> Entries<'a, N> {
    let holds = |entry: &&Entry<N>| entry.ranges[field].holds(value);
    entries.iter().copied().filter(holds).collect()
}

/// The entries that hold something of the part, looking at the fields from `field` on. None is
/// met after one that holds all of it.
fn met_in<'a, const N: usize>(
    field: usize,
    part: &[Range; N],
    entries: &[&'a Entry<N>],
) -> Entries<'a, N> {
    let mut met = Vec::new();
    for entry in entries {
        if meets(field, part, &entry.ranges) {
            met.push(*entry);
            if holds_all(field, part, &entry.ranges) {
                break;
            }
        }
    }
    met
}

/// Whether the ranges hold something of the part, looking at the fields from `field` on.
fn meets<const N: usize>(field: usize, part: &[Range; N], ranges: &[Range; N]) -> bool {
    let mut fields = part[field..].iter().zip(&ranges[field..]);
    fields.all(|(part, range)| part.low <= range.high && range.low <= part.high)
}

/// Whether the ranges hold all of the part, looking at the fields from `field` on.
fn holds_all<const N: usize>(field: usize, part: &[Range; N], ranges: &[Range; N]) -> bool {
    let mut fields = part[field..].iter().zip(&ranges[field..]);
    fields.all(|(part, range)| range.low <= part.low && part.high <= range.high)
}

/// Splits a part that the ranges meet into what they hold of it, which comes last, and the rest,
/// looking at the fields from `field` on. Where they hold the smallest share of the part, it is cut
/// first: the rest is cut no further, and other entries are in fewer parts.
fn split<const N: usize>(field: usize, part: &[Range; N], ranges: &[Range; N]) -> Vec<[Range; N]> {
    let size = |range: Range| (range.high - range.low) as f64 + 1.0;
    let share = |field: &usize| size(ranges[*field]) / size(part[*field]);
    let mut fields: Vec<usize> = (field..N).collect();
    fields.sort_by(|one, other| share(one).total_cmp(&share(other)));
    let mut parts = Vec::new();
    let mut held = *part;
    for field in fields {
        for piece in pieces(held[field], [ranges[field]]) {
            if ranges[field].holds(piece.low) {
                held[field] = piece;
            } else {
                parts.push(with_range(&held, field, piece));
            }
        }
    }
    parts.push(held);
    parts
}

/// The entries that stand in only one of two lists.
fn only_in_one<'a, const N: usize>(one: &[&'a Entry<N>], other: &[&'a Entry<N>]) -> Entries<'a, N> {
    let missing_in = |list: &[&Entry<N>], entry: &Entry<N>| {
        !list.iter().any(|listed| std::ptr::eq(*listed, entry))
    };
    let only_one = one.iter().filter(|entry| missing_in(other, entry));
    let only_other = other.iter().filter(|entry| missing_in(one, entry));
    only_one.chain(only_other).copied().collect()
}

/// The smallest part that has all of these entries' values in the part, looking at the fields from
/// `field` on.
fn around<const N: usize>(field: usize, part: &[Range; N], entries: &[&Entry<N>]) -> [Range; N] {
    let mut around = *part;
    for (field, range) in around.iter_mut().enumerate().skip(field) {
        let lowest = entries.iter().map(|entry| entry.ranges[field].low).min();
        let highest = entries.iter().map(|entry| entry.ranges[field].high).max();
        range.low = range.low.max(lowest.unwrap_or(0));
        range.high = range.high.min(highest.unwrap_or(Value::MAX));
    }
    around
}

fn with_range<const N: usize>(part: &[Range; N], field: usize, range: Range) -> [Range; N] {
    let mut part = *part;
    part[field] = range;
    part
}
