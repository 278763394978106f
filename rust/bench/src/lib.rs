//! Times of the proved library: beside the independent implementation, on families of policies,
//! and on policies that a climb made slow.

#![forbid(unsafe_code)]

pub mod calls;
mod cases;
pub mod climb;
pub mod families;
pub mod ratios;
pub mod rows;
pub mod table;
pub mod variants;
