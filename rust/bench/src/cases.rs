//! What is timed.

use reference::Requests;
use specksonne::Direction;
use std::net::Ipv4Addr;
use testkit::{address, ports, Ipv4};

/// One call; it hands back something that depends on all of its work.
pub type Work = Box<dyn FnMut() -> u64>;

pub struct Case {
    pub name: String,
    pub proved: Work,
    pub reference: Work,
}

pub fn all() -> Vec<Case> {
    let mut cases = vec![read()];
    for (rows, flows) in [(250, 1), (32, 32), (250, 1_000)] {
        cases.push(bypasses(rows, flows));
    }
    cases.push(discards(250));
    for pairs in [1, 64] {
        cases.push(protects(pairs));
    }
    cases.push(from_sa());
    for rows in [8, 64, 250] {
        cases.push(normalises(rows));
    }
    for rows in [64, 250] {
        cases.push(accepts(rows));
    }
    cases
}

/// UDP to a port.
fn udp(port: usize) -> Vec<u8> {
    let (from, to) = (address(10, 0, 0, 1), address(10, 9, 9, 9));
    Ipv4::new(17, from, to, &ports(5, port as u16)).bytes()
}

/// Rows that hold one remote port each: the normal form has as many.
fn policy(rows: usize) -> Vec<u8> {
    let row =
        |n: usize| format!("out\tprotect-{}\t10.0.0.0/255.0.0.0\tany\t17\tany\t{n}\n", 1 + n % 2);
    format!("policy\t1\n{}", (0..rows).map(row).collect::<String>()).into_bytes()
}

fn gateways(policy: &[u8]) -> (specksonne::Gateway, reference::Gateway) {
    let mut proved = specksonne::Gateway::new(Ipv4Addr::new(192, 0, 2, 1));
    proved.set_policy(policy).expect("a sound policy");
    let mut other = reference::Gateway::new(address(192, 0, 2, 1), Requests::NONE);
    other.set_policy(policy);
    (proved, other)
}

fn read() -> Case {
    let (one, other) = (udp(7), udp(7));
    Case {
        name: "reading a packet".to_string(),
        proved: Box::new(move || {
            let seen = specksonne::read(&one, Direction::Out).expect("readable");
            u32::from(seen.local).into()
        }),
        reference: Box::new(move || {
            let packet = reference::Packet::read(&other).expect("readable");
            let seen = packet.selectors(reference::Direction::Out, Requests::NONE);
            seen.local.into()
        }),
    }
}

/// Rows that let packets to one remote port each pass: no two are neighbours, so that the normal form
/// has as many.
fn bypass_policy(rows: usize) -> Vec<u8> {
    let row = |n: usize| format!("out\tbypass\t10.0.0.0/255.0.0.0\tany\t17\tany\t{}\n", 2 * n);
    format!("policy\t1\n{}", (0..rows).map(row).collect::<String>()).into_bytes()
}

/// Packets of so many flows by turns, each passed by one of the rows. The cache has 32 slots.
fn bypasses(rows: usize, flows: usize) -> Case {
    let packets: Vec<Vec<u8>> = (0..flows).map(|flow| udp(2 * (flow % rows))).collect();
    outbound(format!("outbound, {flows} flows, {rows} rows"), &bypass_policy(rows), packets, 0)
}

/// A packet of a flow that the last of so many pairs protects, each of another number.
fn protects(pairs: u32) -> Case {
    let row = format!("policy\t1\nout\tprotect-{pairs}\tany\tany\tany\tany\tany\n");
    outbound(format!("outbound, protected, {pairs} pairs"), row.as_bytes(), vec![udp(7)], pairs)
}

/// Packets going out by turns, through gateways with so many pairs, numbered from 1 on.
fn outbound(name: String, policy: &[u8], packets: Vec<Vec<u8>>, pairs: u32) -> Case {
    let (mut proved, mut other) = gateways(policy);
    add_pairs(&mut proved, &mut other, pairs, u64::from);
    let (one, two) = (packets.clone(), packets);
    let (mut n, mut m) = (0, 0);
    Case {
        name,
        proved: Box::new(move || {
            n = (n + 1) % one.len();
            proved.outbound(&one[n]).number().into()
        }),
        reference: Box::new(move || {
            m = (m + 1) % two.len();
            other.outbound(&two[m]).number().into()
        }),
    }
}

/// Adds ESP pairs of inbound SPI 256 and on that hold everything.
fn add_pairs(
    proved: &mut specksonne::Gateway,
    other: &mut reference::Gateway,
    pairs: u32,
    number: impl Fn(u32) -> u64,
) {
    for n in 0..pairs {
        let (protocol, inbound_spi, outbound_spi, number) = (50, 256 + n, 256 + n, number(n + 1));
        let ranges = specksonne::Ranges::ANY;
        let pair = specksonne::Pair { protocol, inbound_spi, outbound_spi, number, ranges };
        proved.add(&pair).expect("a sound pair");
        let ranges = reference::FIELD_TOPS.map(|top| reference::Range::new(0, top));
        let pair = reference::ProposedPair { protocol, inbound_spi, outbound_spi, number, ranges };
        other.add_pair(&pair);
    }
}

/// A packet that no row holds: the cache and all rows are searched.
fn discards(rows: usize) -> Case {
    let (mut proved, mut other) = gateways(&policy(rows));
    let (one, two) = (udp(60_000), udp(60_000));
    Case {
        name: format!("outbound, no row, {rows} rows"),
        proved: Box::new(move || proved.outbound(&one).number().into()),
        reference: Box::new(move || other.outbound(&two).number().into()),
    }
}

fn from_sa() -> Case {
    let (mut proved, mut other) = gateways(b"policy\t1\n");
    add_pairs(&mut proved, &mut other, 64, |_| 1);
    let (one, two) = (udp(1), udp(1));
    Case {
        name: "from an association, 64 pairs, the last".to_string(),
        proved: Box::new(move || proved.from_sa(50, 319, &one).number().into()),
        reference: Box::new(move || other.from_sa(50, 319, &two).number().into()),
    }
}

fn normalises(rows: usize) -> Case {
    let (one, two) = (policy(rows), policy(rows));
    let mut room = vec![0; specksonne::MOST_NORMAL_FORM_BYTES];
    Case {
        name: format!("normalising, {rows} rows"),
        proved: Box::new(move || {
            specksonne::normalise(&one, Direction::Out).expect("a sound policy").len() as u64
        }),
        reference: Box::new(move || {
            let out = reference::Direction::Out;
            reference::normalise(&two, out, &mut room, Requests::NONE).number().into()
        }),
    }
}

fn accepts(rows: usize) -> Case {
    let (one, two) = (policy(rows), policy(rows));
    let (mut proved, mut other) = gateways(&one);
    Case {
        name: format!("accepting a policy, {rows} rows"),
        proved: Box::new(move || {
            proved.set_policy(&one).expect("a sound policy");
            0
        }),
        reference: Box::new(move || other.set_policy(&two).number().into()),
    }
}
