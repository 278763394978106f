//! The examples of the README: what it shows is what is printed, and the verdicts on
//! `examples/oven.pcap` are those of `examples/oven.verdicts`.

use std::process::Command;

const EXAMPLES: &str = concat!(env!("CARGO_MANIFEST_DIR"), "/../../examples");

#[test]
fn the_oven_is_decided_as_written() {
    let output = Command::new(env!("CARGO_BIN_EXE_specksonne"))
        .current_dir(EXAMPLES)
        .args(["decide", "--address", "192.0.2.1", "--policy", "oven.policy"])
        .args(["--pairs", "oven.pairs", "oven.pcap"])
        .output()
        .expect("the command runs");
    let expected = std::fs::read_to_string(format!("{EXAMPLES}/oven.verdicts")).unwrap();
    assert_eq!(String::from_utf8_lossy(&output.stdout), expected);
    assert_eq!(output.status.code(), Some(0));
}

/// A later fragment shows no port: the rule for port 4840 does not hold it, and it never passes.
#[test]
fn a_later_fragment_meets_no_port_rule() {
    let output = Command::new(env!("CARGO_BIN_EXE_specksonne"))
        .current_dir(EXAMPLES)
        .args(["explain", "out", "oven.policy", "10.1.0.5", "192.0.2.20", "17", "opaque", "opaque"])
        .output()
        .expect("the command runs");
    assert!(String::from_utf8_lossy(&output.stdout).starts_with("action: discard\n"));
}

/// The README's section on the command: each `$ line` prints what stands below it.
#[test]
fn the_readme_shows_what_is_printed() {
    let readme = std::fs::read_to_string(format!("{EXAMPLES}/../README.md")).unwrap();
    let (_, rest) = readme.split_once("\n## Use it from the command line\n").unwrap();
    let (section, _) = rest.split_once("\n## ").unwrap();
    let mut lines = section.lines().peekable();
    let mut commands = 0;
    while let Some(line) = lines.next() {
        let Some(command) = line.strip_prefix("    $ ") else { continue };
        let mut expected = String::new();
        while let Some(line) = lines.next_if(|line| line.starts_with("    ")) {
            expected.push_str(&line[4..]);
            expected.push('\n');
        }
        assert_eq!(printed(command), expected, "{command}");
        commands += 1;
    }
    assert!(commands > 3, "only {commands} commands");
}

/// What a line of the shell prints, in the repository's root.
fn printed(line: &str) -> String {
    let script = format!("specksonne() {{ \"$0\" \"$@\"; }}; {{ {line}; }} 2>&1");
    let output = Command::new("sh")
        .current_dir(format!("{EXAMPLES}/.."))
        .args(["-c", &script, env!("CARGO_BIN_EXE_specksonne")])
        .output()
        .expect("the shell runs");
    String::from_utf8(output.stdout).unwrap()
}
