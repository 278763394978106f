//! The policy gate of an IPsec gateway (RFC 4301, IPv4): for every packet it says pass in clear,
//! protect, deliver or drop, and why. The work is done by a static library that is written in
//! Rattle and proved; this crate wraps it in safe Rust.
//!
//! - [`Gateway`]: a gateway with its policy, SA pairs and caches, and the three packet calls.
//! - [`Policy`], [`normalise`], [`same_policy`]: policy files, the ordered search, the normal form.
//! - [`read`], [`triggering_header`]: what is seen in a packet.
//! - [`Verdict`], [`Refusal`], [`Refused`]: document 01's answers.
//! - [`row_fault`], [`RowFault`]: why a row, or the ranges of a pair, are refused, in words.
//! - [`ffi`]: the library's functions over words, as C sees them.
//!
//! The library is built by `rt lib` in `crates/specksonne`.
//!
//! # Stack
//!
//! [`Gateway::set_policy`], [`normalise`], [`normalise_into`] and [`same_policy`] need up to 1 MiB of
//! stack (measured: 450, 390, 390 and 120 KiB), every other call less than 64 KiB. A thread that
//! Rust starts has 2 MiB unless it is told otherwise.
#![warn(missing_docs)]

mod answer;
pub mod ffi;
mod gateway;
mod pair;
mod policy;
mod row_fault;
mod selectors;

pub use answer::{Refusal, Verdict};
pub use ffi::{MOST_FORM_BYTES as MOST_NORMAL_FORM_BYTES, MOST_ROWS};
pub use gateway::Gateway;
pub use pair::{Pair, Ranges, AH, ESP};
pub use policy::{normalise, normalise_into, same_policy, Action, Policy, Refused};
pub use row_fault::{number as decimal, ranges_fault, row_fault, Field, Reason, RowFault};
pub use selectors::{read, triggering_header, Direction, Selectors};
