//! Calls the proved library with arbitrary bytes and arbitrary state words, in buffers between
//! guard pages, and holds every answer and every lent word to document 01's rules.

mod calls;
mod counts;
mod fence;
mod inputs;
mod lent;
mod model;
mod packets;
mod threads;

pub use calls::Abuse;
pub use counts::Counts;
pub use threads::{run_apart, run_sharing};

/// The slice as an array of that length.
fn array<const N: usize>(words: &mut [u64]) -> &mut [u64; N] {
    words.try_into().expect("as many words as were lent")
}
