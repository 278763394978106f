//! Policies (RFC 4301's SPD) and the ordered search.

use crate::{Direction, Range, Value, FIELDS};

#[derive(Clone, Copy, Debug, PartialEq, Eq, Hash)]
pub enum Action {
    Bypass,
    Discard,
    /// With the protect number, 1 to 255.
    Protect(u8),
}

/// Ranges over `N` fields, and what to do with values that they all hold. Policies have
/// [`FIELDS`] fields; the search and the normal form work for any number of them.
#[derive(Clone, Copy, Debug, PartialEq, Eq, Hash)]
pub struct Entry<const N: usize> {
    pub action: Action,
    pub ranges: [Range; N],
}

impl<const N: usize> Entry<N> {
    pub fn holds(&self, values: &[Value; N]) -> bool {
        self.ranges.iter().zip(values).all(|(range, &value)| range.holds(value))
    }
}

/// The first entry, top down, that holds the values. None means discard.
pub fn search<'a, const N: usize>(
    entries: &'a [Entry<N>],
    values: &[Value; N],
) -> Option<&'a Entry<N>> {
    entries.iter().find(|entry| entry.holds(values))
}

/// The directions that a row of a policy file speaks for.
#[derive(Clone, Copy, Debug, PartialEq, Eq)]
pub enum Scope {
    Only(Direction),
    Both,
}

impl Scope {
    pub fn covers(self, direction: Direction) -> bool {
        self == Scope::Both || self == Scope::Only(direction)
    }
}

#[derive(Clone, Copy, Debug, PartialEq, Eq)]
pub struct Row {
    pub scope: Scope,
    pub entry: Entry<FIELDS>,
}

/// The rows of a policy file, in its order.
#[derive(Clone, Debug, Default, PartialEq, Eq)]
pub struct Policy {
    pub rows: Vec<Row>,
}

impl Policy {
    /// The entries that count for one direction, in order.
    pub fn entries(&self, direction: Direction) -> Vec<Entry<FIELDS>> {
        self.rows.iter().filter(|row| row.scope.covers(direction)).map(|row| row.entry).collect()
    }

    /// The ordered search of the rows for one direction.
    pub fn search(&self, direction: Direction, values: &[Value; FIELDS]) -> Action {
        search(&self.entries(direction), values).map_or(Action::Discard, |entry| entry.action)
    }
}
