//! The packet reader: made-up packets at every edge, and packets from real captures.

use reference::{absent_or, Direction, Packet, Requests, Selectors};
use testkit::{captured_packets, icmp_error, ports, Ipv4, MORE_FRAGMENTS};

fn read(bytes: &[u8], direction: Direction) -> Option<Selectors> {
    Packet::read(bytes).map(|packet| packet.selectors(direction, Requests::NONE))
}

fn ports_seen(packet: &Ipv4) -> (Option<u16>, Option<u16>) {
    let selectors = read(&packet.bytes(), Direction::Out).unwrap();
    (selectors.local_port, selectors.remote_port)
}

#[test]
fn local_and_remote_change_places_coming_in() {
    let bytes = Ipv4::new(17, 1, 2, &ports(500, 4500)).bytes();
    let out = read(&bytes, Direction::Out).unwrap();
    assert_eq!(out.values(), [1, 2, 17, 500, 4500]);
    let coming_in = read(&bytes, Direction::In).unwrap();
    assert_eq!(coming_in.values(), [2, 1, 17, 4500, 500]);
}

#[test]
fn every_protocol() {
    for protocol in 0..=255 {
        let packet = Ipv4::new(protocol, 1, 2, &ports(0x0301, 80));
        let expected = match protocol {
            1 => (Some(0x0301), None),
            6 | 17 | 132 => (Some(0x0301), Some(80)),
            _ => (None, None),
        };
        assert_eq!(ports_seen(&packet), expected, "protocol {protocol}");
    }
}

#[test]
fn every_count_of_upper_bytes() {
    for count in 0..=20 {
        let upper = &ports(22, 80)[..count];
        let tcp_sees = if count >= 4 { (Some(22), Some(80)) } else { (None, None) };
        assert_eq!(ports_seen(&Ipv4::new(6, 1, 2, upper)), tcp_sees);
        let icmp_sees = if count >= 2 { (Some(22), None) } else { (None, None) };
        assert_eq!(ports_seen(&Ipv4::new(1, 1, 2, upper)), icmp_sees);
    }
}

#[test]
fn every_header_length() {
    for words in 0..=15 {
        let bytes = Ipv4::new(6, 1, 2, &ports(22, 80)).header_words(words).bytes();
        let selectors = read(&bytes, Direction::Out);
        assert_eq!(selectors.and_then(|s| s.local_port), (words >= 5).then_some(22));
    }
}

#[test]
fn every_version() {
    for version in 0..=15 {
        let mut packet = Ipv4::new(6, 1, 2, &ports(22, 80));
        packet.version = version;
        assert_eq!(Packet::read(&packet.bytes()).is_some(), version == 4);
    }
}

#[test]
fn every_total_length() {
    for words in [5, 6, 15] {
        let header = 4 * u16::from(words);
        let packet = Ipv4::new(6, 1, 2, &ports(22, 80)).header_words(words);
        for total in 0..=header + 30 {
            let bytes = packet.clone().total_length(total).bytes();
            let readable = (header..=header + 20).contains(&total);
            let seen = read(&bytes, Direction::Out).map(|s| s.remote_port);
            let ports_there = total >= header + 4;
            assert_eq!(seen, readable.then_some(ports_there.then_some(80)), "total {total}");
        }
    }
}

#[test]
fn every_truncation() {
    let bytes = Ipv4::new(6, 1, 2, &ports(22, 80)).header_words(7).bytes();
    for length in 0..=bytes.len() {
        assert_eq!(Packet::read(&bytes[..length]).is_some(), length == bytes.len());
    }
    let mut padded = bytes.clone();
    padded.extend([0xff; 100]);
    assert_eq!(Packet::read(&padded), Packet::read(&bytes));
}

#[test]
fn fragments() {
    let tcp = Ipv4::new(6, 1, 2, &ports(22, 80));
    let icmp = Ipv4::new(1, 1, 2, &icmp_error(3, 1, &[]));
    for flags in [0, 0x8000, 0x4000, MORE_FRAGMENTS, 0xe000] {
        assert_eq!(ports_seen(&tcp.clone().flags_and_offset(flags)), (Some(22), Some(80)));
        assert_eq!(ports_seen(&icmp.clone().flags_and_offset(flags)), (Some(769), None));
        for offset in [1, 2, 0x1000, 0x1fff] {
            let later = flags | offset;
            assert_eq!(ports_seen(&tcp.clone().flags_and_offset(later)), (None, None));
            assert_eq!(ports_seen(&icmp.clone().flags_and_offset(later)), (None, None));
        }
    }
}

#[test]
fn triggering_header_is_a_part_of_the_packet() {
    let upper: Vec<u8> = (0..40).collect();
    for (words, count) in [(5, 0), (5, 7), (5, 8), (5, 9), (6, 28), (15, 40)] {
        let mut bytes = Ipv4::new(1, 1, 2, &upper[..count]).header_words(words).bytes();
        bytes.extend([0xff; 5]);
        let packet = Packet::read(&bytes).unwrap();
        let start = packet.triggering_start();
        assert_eq!(start, 4 * usize::from(words) + count.min(8));
        assert_eq!(packet.triggering_header(), &upper[count.min(8)..count]);
        assert!(std::ptr::eq(packet.triggering_header().as_ptr(), &bytes[start]));
    }
}

#[test]
fn triggering_headers_may_be_cut_after_their_header() {
    let whole = Ipv4::new(6, 1, 2, &ports(22, 80)).header_words(6);
    let bytes = whole.bytes();
    for length in 0..=bytes.len() {
        let read = Packet::read_triggering(&bytes[..length]);
        assert_eq!(read.is_some(), length >= 24, "{length} bytes");
        let upper = read.map_or(0, |packet| packet.upper.len());
        assert_eq!(upper, length.saturating_sub(24));
    }
    let total = |total| whole.clone().total_length(total).bytes();
    assert_eq!(Packet::read_triggering(&total(23)), None);
    assert!(Packet::read_triggering(&total(24)).unwrap().upper.is_empty());
    assert_eq!(Packet::read_triggering(&total(30)).unwrap().upper.len(), 6);
    assert_eq!(Packet::read_triggering(&total(65_535)).unwrap().upper.len(), 20);
}

/// Every packet of the captures, where their folder stands beside the repository.
#[test]
fn packets_from_captures() {
    let Some(text) = captured_packets() else {
        return;
    };
    for (number, line) in text.lines().enumerate() {
        let (packet, expected) = line.split_once('\t').unwrap();
        assert_eq!(shown(&from_hex(packet)), expected, "line {}", number + 1);
    }
}

/// What the reader sees going out, as the captures' list writes it.
fn shown(bytes: &[u8]) -> String {
    let Some(seen) = read(bytes, Direction::Out) else {
        return "10".to_string();
    };
    let (local_port, remote_port) = (absent_or(seen.local_port), absent_or(seen.remote_port));
    let Selectors { local, remote, protocol, .. } = seen;
    format!("{local} {remote} {protocol} {local_port} {remote_port}")
}

fn from_hex(text: &str) -> Vec<u8> {
    let digits = (0..text.len()).step_by(2).map(|at| &text[at..at + 2]);
    digits.map(|byte| u8::from_str_radix(byte, 16).unwrap()).collect()
}
