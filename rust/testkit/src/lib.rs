//! What the test programs and the tests share: random numbers that a seed fixes, a builder of IPv4
//! packets, captured packets, a program's arguments, and running a program. Nothing here reads
//! packets or policies.

#![forbid(unsafe_code)]

mod arguments;
mod captures;
mod ipv4;
mod prng;
mod program;

pub use arguments::{Argument, Arguments};
pub use captures::captured_packets;
pub use ipv4::{icmp_error, ports, Ipv4, MORE_FRAGMENTS};
pub use prng::Prng;
pub use program::run;

/// The number of the address a.b.c.d.
pub const fn address(a: u8, b: u8, c: u8, d: u8) -> u32 {
    u32::from_be_bytes([a, b, c, d])
}
