//! Drives implementations of the gateway with one text protocol (`replay.md`), compares their
//! answers, and generates scenarios.

#![forbid(unsafe_code)]

pub mod core_engine;
pub mod coverage;
pub mod engine;
pub mod generate;
pub mod operation;
pub mod reference_engine;
pub mod reply;
pub mod run;
pub mod shrink;
