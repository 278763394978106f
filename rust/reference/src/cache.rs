//! The cache of one direction: normal-form entries that were found lately.

use crate::{search, Action, Entry, Values, FIELDS};

pub const SLOTS: usize = 32;

#[derive(Clone, Debug, Default, PartialEq, Eq)]
pub struct Cache {
    slots: [Option<Entry<FIELDS>>; SLOTS],
    /// Where the next miss writes (document 01: the slot whose turn it is).
    next_slot: usize,
}

impl Cache {
    /// The action for the values, from a slot or else from `form`, the normal form of the current
    /// policy. Only a miss that finds an entry changes the cache.
    pub fn look_up(&mut self, form: &[Entry<FIELDS>], values: &Values) -> Action {
        let mut cached = self.slots.iter().flatten();
        if let Some(hit) = cached.find(|entry| entry.holds(values)) {
            return hit.action;
        }
        let Some(found) = search(form, values) else {
            return Action::Discard;
        };
        self.slots[self.next_slot] = Some(*found);
        self.next_slot = (self.next_slot + 1) % SLOTS;
        found.action
    }

    pub fn next_slot(&self) -> usize {
        self.next_slot
    }

    /// The slots in use, by number.
    pub fn entries(&self) -> impl Iterator<Item = (usize, &Entry<FIELDS>)> {
        let slots = self.slots.iter().enumerate();
        slots.filter_map(|(number, slot)| Some((number, slot.as_ref()?)))
    }
}
