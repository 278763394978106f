//! Packets of real captures, where their folder stands beside the repository.

use std::path::Path;
use std::process::Command;

/// The list of packets: one to a line, in hexadecimal, a tab, and what a reader sees going out. None
/// where the folder is not there, which is said on standard output.
pub fn captured_packets() -> Option<String> {
    let list = Path::new(env!("CARGO_MANIFEST_DIR"))
        .join("../../../shared/captures")
        .join("packets.tsv.gz");
    if !list.exists() {
        println!("left out: {} is not there", list.display());
        return None;
    }
    let unpacked = Command::new("gzip").arg("-dc").arg(&list).output().expect("gzip runs");
    assert!(unpacked.status.success(), "gzip could not unpack {}", list.display());
    let packets = String::from_utf8(unpacked.stdout).expect("the list is text");
    let count = packets.lines().count();
    assert!(count > 1000, "only {count} packets");
    Some(packets)
}
