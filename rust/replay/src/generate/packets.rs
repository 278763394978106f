//! Packets that meet the policy's rows and the pairs' ranges, and packets that are broken.

use super::policies::random_policy;
use super::rows::{file, value_near, Ends, ABSENT, FIELDS, TOPS};
use super::Generator;
use crate::operation::to_hex;
use std::array::from_fn;
use testkit::{icmp_error, ports, Ipv4, Prng, MORE_FRAGMENTS};

const ICMP_ERRORS: [u8; 5] = [3, 4, 5, 11, 12];
const WITH_PORTS: [u8; 3] = [6, 17, 132];

impl Generator {
    pub fn packets_block(&mut self) {
        let rows = random_policy(&mut self.prng);
        let file = file(&mut self.prng, &rows);
        self.policy_line(rows, &file);
        for _ in 0..self.prng.below(4) {
            self.add_a_pair();
        }
        for _ in 0..60 {
            self.packet_line();
        }
        if self.prng.one_in(2) {
            self.header_lines();
        }
    }

    /// One packet at one door, or before one of the readers.
    pub fn packet_line(&mut self) {
        let direction = self.direction();
        let bytes = match self.prng.below(8) {
            0 => self.icmp_error_packet(direction),
            1 => {
                let mut packet = self.gateway_packet();
                if self.prng.one_in(6) {
                    packet.flags_and_offset = some_fragment(&mut self.prng);
                }
                perhaps_broken(&mut self.prng, packet)
            }
            _ => self.searched_packet(direction),
        };
        let hex = to_hex(&bytes);
        let line = match self.prng.below(10) {
            0 => format!("read {direction} 4 {hex}"),
            1 => format!("trigger 4 {hex}"),
            2 | 3 => self.sa_line(),
            _ => format!("{direction} {hex}"),
        };
        self.line(line);
    }

    /// A sound packet that this row of the policy holds, if it can be shown and no earlier row does.
    pub fn hit_line(&mut self, direction: &str, row: usize) {
        let ranges = self.policy[row].ranges;
        let mut values = ranges.map(|(low, _)| low);
        let (low, high) = ranges[2];
        if low <= 6 && 6 <= high {
            values[2] = 6;
        }
        let packet = packet_with(&mut self.prng, direction, &values);
        self.line(format!("{direction} {}", to_hex(&packet.bytes())));
    }

    /// A packet from a pair, as often as not one that should fit it.
    fn sa_line(&mut self) -> String {
        let (protocol, inbound_spi) = self.pair_name();
        let name = (protocol, inbound_spi);
        let pair = self.pairs.iter().find(|pair| (pair.protocol, pair.inbound_spi) == name);
        let ranges = pair.map_or(TOPS.map(|top| (0, top)), |pair| pair.ranges);
        let packet = if self.prng.one_in(2) {
            let values = self.values_near(&ranges);
            packet_with(&mut self.prng, "in", &values)
        } else {
            self.error_about(&ranges)
        };
        let bytes = perhaps_broken(&mut self.prng, packet);
        format!("from {protocol} {inbound_spi} {}", to_hex(&bytes))
    }

    fn values_near(&mut self, ranges: &[Ends; FIELDS]) -> [u64; FIELDS] {
        from_fn(|field| value_near(&mut self.prng, field, ranges[field]))
    }

    /// A packet that shows values near those of a row of the policy.
    fn searched_packet(&mut self, direction: &str) -> Vec<u8> {
        let ranges = match self.policy.as_slice() {
            [] => TOPS.map(|top| (0, top)),
            rows => self.prng.pick(rows).ranges,
        };
        let values = self.values_near(&ranges);
        let packet = packet_with(&mut self.prng, direction, &values);
        perhaps_broken(&mut self.prng, packet)
    }

    fn icmp_error_packet(&mut self, direction: &str) -> Vec<u8> {
        let ranges = match self.pairs.as_slice() {
            [] => TOPS.map(|top| (0, top)),
            pairs => self.prng.pick(pairs).ranges,
        };
        let mut packet = self.error_about(&ranges);
        if direction == "out" {
            (packet.source, packet.destination) = (packet.destination, packet.source);
        }
        perhaps_broken(&mut self.prng, packet)
    }

    /// An ICMP error coming in, about a packet near these ranges that went out or came in.
    pub fn error_about(&mut self, ranges: &[Ends; FIELDS]) -> Ipv4 {
        let values = self.values_near(ranges);
        let prng = &mut self.prng;
        let returned_direction = *prng.pick(&["out", "out", "in"]);
        let returned = packet_with(prng, returned_direction, &values);
        let destination = returned.source;
        let mut bytes = perhaps_broken(prng, returned);
        if prng.one_in(2) {
            // RFC 792 returns the header and 8 bytes.
            bytes.truncate(prng.between(0, 48) as usize);
        }
        let icmp_type = if prng.one_in(4) { prng.byte() } else { *prng.pick(&ICMP_ERRORS) };
        let code = prng.below(16) as u8;
        let mut upper = icmp_error(icmp_type, code, &bytes);
        if prng.one_in(10) {
            upper.truncate(prng.below(10) as usize);
        }
        Ipv4::new(1, prng.number() as u32, destination, &upper)
    }

    /// AH or ESP, mostly for the gateway and from a live pair.
    pub fn gateway_packet(&mut self) -> Ipv4 {
        let (protocol, inbound_spi) = self.pair_name();
        let prng = &mut self.prng;
        let protocol = if protocol == 51 || prng.one_in(8) { 51 } else { 50 };
        let mut upper = prng.bytes(20);
        let start = if protocol == 50 { 0 } else { 4 };
        upper[start..start + 4].copy_from_slice(&(inbound_spi as u32).to_be_bytes());
        if prng.one_in(4) {
            upper.truncate(prng.between(0, 13) as usize);
        }
        // Now and then an address that is not the gateway's by one bit.
        let missed = self.gateway ^ 1 << prng.below(32);
        let destination = if prng.one_in(8) { missed } else { self.gateway };
        Ipv4::new(protocol, prng.number() as u32, destination, &upper)
    }
}

/// A packet in which a reader for this direction sees the values, where a packet can show them.
pub fn packet_with(prng: &mut Prng, direction: &str, values: &[u64; FIELDS]) -> Ipv4 {
    let &[local, remote, protocol, local_port, remote_port] = values;
    let protocol = protocol as u8;
    let swap = direction == "in";
    let (source, destination) = if swap { (remote, local) } else { (local, remote) };
    let (first, second) = match (protocol, swap) {
        (1, _) | (_, false) => (local_port, remote_port),
        (_, true) => (remote_port, local_port),
    };
    let upper = ports(first as u16, second as u16);
    let mut packet = Ipv4::new(protocol, source as u32, destination as u32, &upper);
    let wants_absent = first == ABSENT || (second == ABSENT && protocol != 1);
    if wants_absent && prng.one_in(2) {
        let anywhere = prng.between(1, 0x1fff) as u16;
        packet.flags_and_offset = *prng.pick(&[1, 2, 185, anywhere]);
    } else if wants_absent {
        let enough = if WITH_PORTS.contains(&protocol) { 4 } else { 2 };
        packet.upper.truncate(prng.below(enough) as usize);
    }
    packet
}

fn some_fragment(prng: &mut Prng) -> u16 {
    let offset = *prng.pick(&[0, 1, 2, 185, 0x1fff]);
    let flags = *prng.pick(&[0, MORE_FRAGMENTS, 0x4000, 0x8000]);
    offset | flags
}

/// The packet's bytes, one time in three with something unusual about them.
fn perhaps_broken(prng: &mut Prng, mut packet: Ipv4) -> Vec<u8> {
    if prng.below(3) > 0 {
        return packet.bytes();
    }
    let true_length = 20 + packet.upper.len() as u64;
    match prng.below(9) {
        0 => packet.version = prng.below(16) as u8,
        1 => packet.header_words = prng.below(16) as u8,
        2 => packet.total_length = Some(prng.below(true_length + 6) as u16),
        3 => {
            packet.flags_and_offset = some_fragment(prng);
            packet.upper.truncate(prng.between(10, 40) as usize);
        }
        4 => packet.protocol = prng.byte(),
        5 => packet.header_words = prng.between(6, 15) as u8,
        6 => packet.upper.truncate(prng.below(30) as usize),
        7 => packet.upper.resize(prng.between(200, 1600) as usize, 0x55),
        _ => {}
    }
    let mut bytes = packet.bytes();
    match prng.below(6) {
        0 => bytes.truncate(prng.below(bytes.len() as u64 + 1) as usize),
        1 => bytes.extend(prng.bytes(9)),
        _ => {}
    }
    bytes
}
