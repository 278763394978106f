//! Packets from real captures, at every door and through both engines.

use replay::operation::to_hex;
use replay::run::difference;
use replay::shrink::shortest;
use std::fmt::Write;
use testkit::captured_packets;

/// Rows that treat the captures' packets in several ways.
const POLICY: &str = "policy\t1\n\
    both\tbypass\tany\tany\t17\tany\t53\n\
    both\tbypass\tany\tany\t1\t2048-2303\tany\n\
    both\tprotect-7\t192.168.0.0/255.255.0.0\tany\t6\tany\tany\n\
    both\tprotect-8\t10.0.0.0/255.0.0.0\tany\tany\topaque\tany\n\
    in\tdiscard\tany\tany\tany\tany\t0-1023\n\
    both\tbypass\tany\t0.0.0.0-127.255.255.255\tany\tany\tany\n";

/// Every packet of the captures, where their folder stands beside the repository.
#[test]
fn the_engines_agree_on_packets_from_captures() {
    let Some(packets) = captured_packets() else {
        return;
    };
    let scenario = scenario(&packets);
    if let Some(found) = difference(&scenario) {
        let shortest = shortest(&scenario, |text| difference(text).is_some());
        panic!("{found:?}; the shortest form:\n{shortest}");
    }
}

/// Each packet going out, coming in, and from an association, and what is read of it.
fn scenario(packets: &str) -> String {
    let mut text = "gate 3232235777 0\n".to_string();
    writeln!(text, "policy {}", to_hex(POLICY.as_bytes())).unwrap();
    for (number, spi) in [(7, 256), (8, 300)] {
        let ranges = "0 4294967295 0 4294967295 0 255 0 65536 1024 65536";
        writeln!(text, "add 50 {spi} {spi} {number} 4 {ranges}").unwrap();
    }
    for line in packets.lines() {
        let (packet, _) = line.split_once('\t').unwrap();
        let packet = if packet.is_empty() { "-" } else { packet };
        for operation in ["out", "in", "from 50 256", "read out 4", "read in 4", "trigger 4"] {
            writeln!(text, "{operation} {packet}").unwrap();
        }
    }
    text + "show cache out\nshow cache in\nshow pairs\n"
}
