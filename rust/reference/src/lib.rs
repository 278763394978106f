//! The policy gate of an IPsec gateway (RFC 4301), written a second time in ordinary Rust from
//! the papers alone. It shares no code with the proved crates and is meant to be read beside
//! document 01: each module is one of its sections.
//!
//! | document 01 | here |
//! |---|---|
//! | way | [`Direction`] |
//! | the five values, a combination | [`Selectors`], [`Values`] |
//! | row | [`Row`] in a file, [`Entry`] once its direction is settled |
//! | stretch | run of a normal form |
//! | gate, door | [`Gateway`], its `outbound`, `inbound` and `from_sa` |
//! | turn | next slot of a [`Cache`] |
//! | association pair | [`Pair`] |
//! | returned header | triggering header |

#![forbid(unsafe_code)]

mod answer;
mod cache;
mod gateway;
mod normal_form;
mod normalise;
mod packet;
mod pairs;
mod policy;
mod policy_file;
mod requests;
mod same;
mod selectors;

pub use answer::Answer;
pub use cache::{Cache, SLOTS};
pub use gateway::Gateway;
pub use normal_form::{normal_form, same_search, OverLimit};
pub use normalise::normalise;
pub use packet::Packet;
pub use pairs::{Pair, PairName, PairTable, ProposedPair, AH, ESP, MOST_PAIRS};
pub use policy::{search, Action, Entry, Policy, Row, Scope};
pub use policy_file::{parse_policy, print_action, print_policy, print_row};
pub use requests::Requests;
pub use same::{same, RefusedFile};
pub use selectors::{
    absent_or, Direction, Range, Ranges, Selectors, Value, Values, ABSENT_PORT, FIELDS, FIELD_TOPS,
};
