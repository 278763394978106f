//! Captures that cannot be read, or not to their end.

use crate::build::{classic, Frame, Pcapng, ETHERNET};
use crate::captures::{ethernet, ike};
use crate::{check, decide, file, specksonne};
use std::fs::{File, Permissions};
use std::os::unix::fs::PermissionsExt;
use testkit::Prng;

fn frame() -> Frame {
    Frame::whole(&ethernet(&[8, 0], &ike()))
}

/// The lines and the summary of so many packets that pass.
fn passed(packets: usize) -> String {
    let lines = (1..=packets).map(|number| format!("{number}\t0\tpass in clear\n"));
    let count = if packets > 0 { format!("# 0 pass in clear: {packets}\n") } else { String::new() };
    format!("{}# {packets} packets\n{count}", lines.collect::<String>())
}

/// What is said of a file that is named as the capture.
#[track_caller]
fn unreadable(name: &str, words: &str) {
    let policy = file("no-captures.policy", b"policy\t1\n");
    let policy = policy.to_str().unwrap();
    let output = specksonne(&["decide", "--address", "1.2.3.4", "--policy", policy, name], b"");
    check(&output, 2, "", &format!("specksonne: {name}: {words}\n"));
}

#[test]
fn files_that_are_no_captures() {
    let text = file("no-captures.text", b"policy\t1\n");
    let kind = "no capture: it begins with \"poli\", neither pcap nor pcapng";
    unreadable(text.to_str().unwrap(), kind);
    unreadable(env!("CARGO_TARGET_TMPDIR"), "a directory, not a file");
    unreadable("/dev/null", "no capture: the file is empty");
    unreadable("/nonexistent", "no such file");
    // It opens, and reading at its start fails.
    unreadable("/proc/self/mem", "Input/output error (os error 5)");
    for short in [&b"\n"[..], &[0xa1, 0xb2, 0xc3]] {
        let words = format!("no capture: it begins with \"{}\"", short.escape_ascii());
        let expected = format!("specksonne: -: {words}, neither pcap nor pcapng\n");
        check(&decide(short), 2, "", &expected);
    }
}

#[test]
fn a_file_without_permission() {
    let locked = file("no-captures.locked", b"");
    std::fs::set_permissions(&locked, Permissions::from_mode(0o000)).unwrap();
    // Whoever may read everything may read that too.
    let may_read = File::open(&locked).is_ok();
    let words = if may_read { "no capture: the file is empty" } else { "no permission to read it" };
    unreadable(locked.to_str().unwrap(), words);
    std::fs::remove_file(&locked).unwrap();
}

/// Tries each beginning of a capture. `ends` has the lengths at which it may end, and how many packets
/// it then has: there are as many lines, and the summary, and a message unless it may end there.
fn cut_anywhere(capture: &[u8], ends: &[(usize, usize)], part: &str) {
    let message = format!("specksonne: -: the capture ends in the middle of a {part}\n");
    for length in 4..=capture.len() {
        let output = decide(&capture[..length]);
        match ends.iter().rev().find(|(end, _)| *end <= length) {
            None => {
                assert_eq!((output.status.code(), output.stdout.len()), (Some(2), 0), "{length}");
                assert!(!output.stderr.is_empty());
            }
            Some((end, packets)) if *end == length => check(&output, 0, &passed(*packets), ""),
            Some((_, packets)) => check(&output, 2, &passed(*packets), &message),
        }
    }
}

#[test]
fn a_capture_that_ends_in_the_middle_of_a_record() {
    let capture = classic(false, ETHERNET, &[frame(), frame()]);
    let record = 16 + frame().bytes.len();
    cut_anywhere(&capture, &[(24, 0), (24 + record, 1), (24 + 2 * record, 2)], "record");
    let message = "specksonne: -: the capture ends in the middle of a header\n";
    check(&decide(&capture[..23]), 2, "", message);
}

#[test]
fn a_capture_that_ends_in_the_middle_of_a_block() {
    let mut ends = Vec::new();
    let mut end = |packets, capture: Pcapng| {
        ends.push((capture.bytes.len(), packets));
        capture
    };
    let capture = end(0, Pcapng::new(true));
    let capture = end(0, capture.interface(ETHERNET, 0));
    let capture = end(1, capture.enhanced(0, &frame()));
    let capture = end(1, capture.block(5, &[1; 8]));
    let capture = end(2, capture.simple(&frame()));
    let capture = end(2, capture.section(false));
    let capture = end(2, capture.interface(ETHERNET, 0));
    let capture = end(3, capture.obsolete(0, &frame()));
    cut_anywhere(&capture.bytes, &ends, "block");
}

/// The capture with one of its numbers, in little-endian, made another.
fn changed(mut capture: Vec<u8>, at: usize, number: u32) -> Vec<u8> {
    capture[at..at + 4].copy_from_slice(&number.to_le_bytes());
    capture
}

#[test]
fn damaged_captures() {
    let own = classic(false, ETHERNET, &[frame(), frame()]);
    let ng = Pcapng::new(false).interface(ETHERNET, 0).enhanced(0, &frame()).bytes;
    // Where the interface and the packet begin in it.
    let (interface, packet) = (28, 28 + 20);
    let length = ng.len() - packet;
    let second = 24 + 16 + frame().bytes.len();
    let damaged: [(&[u8], Option<usize>, &str); 11] = [
        (&changed(own.clone(), 20, 127), None, "link type 127 is not read"),
        (&changed(own, second + 8, 1 << 20), Some(1), "a packet of 1048576 bytes"),
        (&changed(ng.clone(), 8, 0), None, "a section of no byte order"),
        (&changed(ng.clone(), 12, 2), None, "pcapng version 2 is not read"),
        (&changed(ng.clone(), 4, 24), None, "a block of 24 bytes ends as one of 4294967295"),
        (&changed(ng.clone(), 4, 12), None, "a block of 12 bytes is too short for what it holds"),
        (&changed(ng.clone(), interface + 4, 8), Some(0), "a block of 8 bytes"),
        (&changed(ng.clone(), interface + 4, 21), Some(0), "a block of 21 bytes"),
        (&changed(ng.clone(), packet + 8, 1), Some(0), "a packet of interface 1, which is unknown"),
        (
            &changed(ng.clone(), packet + 20, 1000),
            Some(0),
            &format!("a block of {length} bytes is too short for what it holds"),
        ),
        (
            &changed(ng.clone(), ng.len() - 4, 84),
            Some(0),
            &format!("a block of {length} bytes ends as one of 84"),
        ),
    ];
    for (capture, packets, words) in damaged {
        let output = decide(capture);
        let is = if words.ends_with("read") { "" } else { "the capture is damaged: " };
        let stdout = packets.map_or(String::new(), passed);
        check(&output, 2, &stdout, &format!("specksonne: -: {is}{words}\n"));
    }
    let simple = Pcapng::new(false).simple(&frame()).bytes;
    let message =
        "specksonne: -: the capture is damaged: a packet of interface 0, which is unknown\n";
    check(&decide(&simple), 2, "# 0 packets\n", message);
}

/// Whatever bytes are changed, the command ends with a status of its own.
#[test]
fn no_bytes_make_it_panic() {
    let own = classic(true, 113, &[frame(), frame()]);
    let ng = Pcapng::new(false)
        .interface(276, 40)
        .enhanced(0, &frame())
        .simple(&frame())
        .section(true)
        .interface(0, 0)
        .obsolete(0, &frame());
    let mut random = Prng::new(1);
    for round in 0..400 {
        let mut capture = if round % 2 == 0 { own.clone() } else { ng.bytes.clone() };
        for _ in 0..random.between(1, 4) {
            let place = random.below(capture.len() as u64) as usize;
            capture[place] = random.byte();
        }
        let output = decide(&capture);
        assert!(matches!(output.status.code(), Some(0 | 2)), "{}", capture.escape_ascii());
    }
}
