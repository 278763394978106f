//! Captures that are written while they are read.

use crate::build::{classic, Frame, Pcapng, ETHERNET};
use crate::captures::{ethernet, ike};
use crate::{file, PROGRAM, WORKED_EXAMPLE};
use std::fs::File;
use std::io::{BufRead, BufReader, Write};
use std::path::Path;
use std::process::{Child, Command, Stdio};
use std::sync::mpsc::{self, Receiver};
use std::thread;
use std::time::Duration;

/// The program over a capture under this name, and the lines that it writes.
fn start(test: &str, capture: &str) -> (Child, Receiver<String>) {
    let policy = file(&format!("{test}.policy"), WORKED_EXAMPLE.as_bytes());
    let mut child = Command::new(PROGRAM)
        .args(["decide", "--address", "192.0.2.1", "--policy"])
        .args([policy.as_os_str(), capture.as_ref()])
        .stdin(Stdio::piped())
        .stdout(Stdio::piped())
        .spawn()
        .expect("the program starts");
    let lines = BufReader::new(child.stdout.take().expect("standard output is a pipe")).lines();
    let (sender, receiver) = mpsc::channel();
    thread::spawn(move || lines.map_while(Result::ok).try_for_each(|line| sender.send(line)));
    (child, receiver)
}

/// Writes the parts of a capture one by one; after each but the first a packet's line comes, before
/// anything else is written.
fn line_by_line(mut capture: impl Write, parts: &[&[u8]], lines: &Receiver<String>) {
    for (number, part) in parts.iter().enumerate() {
        capture.write_all(part).unwrap();
        capture.flush().unwrap();
        if number > 0 {
            let line = lines.recv_timeout(Duration::from_secs(20));
            assert_eq!(line, Ok(format!("{number}\t0\tpass in clear")));
        }
    }
}

fn frame() -> Frame {
    Frame::whole(&ethernet(&[8, 0], &ike()))
}

#[test]
fn standard_input_is_answered_packet_by_packet() {
    let capture = classic(false, ETHERNET, &[frame(), frame()]);
    let record = 16 + frame().bytes.len();
    let (mut child, lines) = start("standard-input", "-");
    let parts = [&capture[..24], &capture[24..24 + record], &capture[24 + record..]];
    line_by_line(child.stdin.take().unwrap(), &parts, &lines);
    assert_eq!(lines.recv(), Ok("# 2 packets".to_string()));
    assert!(child.wait().unwrap().success());
}

#[test]
fn a_named_pipe_is_answered_packet_by_packet() {
    let header = Pcapng::new(true).interface(ETHERNET, 0);
    let first = header.bytes.len();
    let one = header.enhanced(0, &frame());
    let second = one.bytes.len();
    let capture = one.simple(&frame()).bytes;
    let pipe = Path::new(env!("CARGO_TARGET_TMPDIR")).join("named-pipe");
    // A test that failed left it there.
    let _ = std::fs::remove_file(&pipe);
    assert!(Command::new("mkfifo").arg(&pipe).status().unwrap().success());
    let (mut child, lines) = start("named-pipe", pipe.to_str().unwrap());
    let parts = [&capture[..first], &capture[first..second], &capture[second..]];
    // To open it for writing alone would wait for a reader.
    let writer = File::options().read(true).write(true).open(&pipe).unwrap();
    line_by_line(writer, &parts, &lines);
    assert_eq!(lines.recv(), Ok("# 2 packets".to_string()));
    assert!(child.wait().unwrap().success());
    std::fs::remove_file(&pipe).unwrap();
}
