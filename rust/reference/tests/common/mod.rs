//! Short ways to write policies and pairs in tests.

#![allow(dead_code)] // Each test file uses its own part of this.

use reference::{
    normalise, parse_policy, Action, Answer, Direction, ProposedPair, Range, Requests, Value,
    FIELD_TOPS,
};
use testkit::address;

pub const GATEWAY: u32 = address(192, 0, 2, 1);

/// A policy file of these rows, written without LF.
pub fn policy(rows: &[&str]) -> Vec<u8> {
    let mut file = b"policy\t1\n".to_vec();
    for row in rows {
        file.extend(row.as_bytes());
        file.push(b'\n');
    }
    file
}

/// The file's normal-form file.
pub fn normalised(file: &str, direction: Direction) -> String {
    let mut room = vec![0; 100_000];
    match normalise(file.as_bytes(), direction, &mut room, Requests::NONE) {
        Answer::Printed { bytes } => String::from_utf8(room[..bytes].to_vec()).unwrap(),
        refusal => panic!("{file:?} refused: {refusal:?}"),
    }
}

/// Whether a remote port written like this in a policy file holds the value.
pub fn search_ports(range: &str, port: Value) -> bool {
    let file = policy(&[&format!("out\tbypass\tany\tany\tany\tany\t{range}")]);
    let policy = parse_policy(&file, Requests::NONE).unwrap();
    policy.search(Direction::Out, &[1, 2, 6, 80, port]) == Action::Bypass
}

/// A pair for all traffic; its outbound SPI is 1000 more than its inbound one.
pub fn proposed_pair(protocol: u64, inbound_spi: u32, number: u64) -> ProposedPair {
    ProposedPair {
        protocol,
        inbound_spi,
        outbound_spi: inbound_spi + 1000,
        number,
        ranges: FIELD_TOPS.map(|top| Range::new(0, top)),
    }
}
