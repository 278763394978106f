//! Arguments, and what is said of wrong ones.

use crate::{check, file, specksonne, PROGRAM, WORKED_EXAMPLE};
use std::ffi::{OsStr, OsString};
use std::os::unix::ffi::{OsStrExt, OsStringExt};
use std::process::{Command, Output, Stdio};
use testkit::Prng;

/// The program with arguments of any bytes, and no input.
fn called(arguments: &[&OsStr]) -> Output {
    Command::new(PROGRAM).args(arguments).stdin(Stdio::null()).output().expect("the program starts")
}

#[test]
fn help_and_version() {
    let help = specksonne(&["--help"], b"");
    assert_eq!(help.status.code(), Some(0));
    assert!(String::from_utf8_lossy(&help.stdout).contains("examples:\n"));
    for same in [&["help"][..], &["-h"], &["check", "-h"], &["decide", "in", "--help", "x"]] {
        assert_eq!(specksonne(same, b"").stdout, help.stdout, "{same:?}");
    }
    let version = concat!("specksonne ", env!("CARGO_PKG_VERSION"), "\n");
    check(&specksonne(&["--version"], b""), 0, version, "");
    for (topic, words) in [("policy", "protect-"), ("answers", "not readable"), ("pairs", "esp")] {
        let output = specksonne(&["help", topic], b"");
        assert!(String::from_utf8_lossy(&output.stdout).contains(words), "{topic}");
        assert_eq!((output.status.code(), output.stderr.len()), (Some(0), 0));
    }
}

#[test]
fn what_help_prints_fits_a_terminal() {
    for arguments in [&["help"][..], &["help", "policy"], &["help", "answers"], &["help", "pairs"]]
    {
        let text = String::from_utf8(specksonne(arguments, b"").stdout).unwrap();
        assert!(text.is_ascii() && text.ends_with('\n'));
        let long = text.lines().find(|line| line.len() > 78);
        assert_eq!(long, None, "{arguments:?}");
    }
}

#[test]
fn an_option_has_its_value_joined_or_next() {
    let policy = file("joined.policy", WORKED_EXAMPLE.as_bytes());
    let capture = file("joined.pcap", &crate::build::classic(false, 1, &[]));
    let (policy, capture) = (policy.to_str().unwrap(), capture.to_str().unwrap());
    let joined = format!("--policy={policy}");
    let ways: [&[&str]; 4] = [
        &["decide", "--address", "1.2.3.4", "--policy", policy, "--direction", "in", capture],
        &["decide", "--address=1.2.3.4", &joined, "--direction=in", capture],
        &["decide", capture, &joined, "--address", "1.2.3.4"],
        &["decide", &joined, "--address=1.2.3.4", "--", "in", capture],
    ];
    for arguments in ways {
        check(&specksonne(arguments, b""), 0, "# 0 packets\n", "");
    }
}

/// These arguments are wrong, and standard error begins with these words.
#[track_caller]
fn wrong(arguments: &[&str], words: &str) {
    let output = specksonne(arguments, b"policy\t1\n");
    let stderr = String::from_utf8_lossy(&output.stderr);
    assert!(stderr.starts_with(&format!("specksonne: {words}")), "{arguments:?}: {stderr}");
    assert_eq!((output.status.code(), output.stdout.len()), (Some(2), 0), "{arguments:?}");
}

#[test]
fn wrong_commands() {
    wrong(&[], "no command");
    wrong(&["nonsense"], "\"nonsense\" is no command");
    wrong(&["check"], "check takes POLICY");
    wrong(&["check", "a", "b"], "check takes POLICY");
    wrong(&["check", "/nonexistent"], "/nonexistent: no such file");
    wrong(&["check", "/"], "/: a directory, not a file");
    wrong(&["normalise", "x"], "normalise takes out|in POLICY");
    wrong(&["normalise", "both", "-"], "\"both\" is no direction: out or in");
    wrong(&["normalise", "-", "in"], "\"-\" is no direction: out or in");
    wrong(&["same", "out", "-", "-"], "standard input can be named once only");
    wrong(&["same", "out", "-"], "same takes out|in A B");
    wrong(&["explain", "out", "-", "1.2.3.4"], "explain takes out|in POLICY LOCAL REMOTE");
    let topics = "no help on \"pcap\"; there is help on policy, answers, pairs";
    wrong(&["help", "pcap"], topics);
    wrong(&["help", "policy", "pairs"], "help takes one topic");
}

#[test]
fn wrong_options() {
    wrong(&["--foo"], "unknown option \"--foo\"");
    wrong(&["check", "--foo"], "unknown option \"--foo\"");
    wrong(&["check", "-x", "y"], "unknown option \"-x\"");
    wrong(&["check", "--foo=bar"], "unknown option \"--foo\"");
    wrong(&["check", "--policy", "x"], "check has no option --policy");
    wrong(&["check", "--help=x"], "--help takes no value");
    wrong(&["check", "--", "--foo"], "--foo: no such file");
    wrong(&["decide", "--speed", "1"], "unknown option \"--speed\"");
}

#[test]
fn wrong_values_to_explain() {
    let wrong_at = |place: usize, word, words| {
        let mut arguments = ["explain", "out", "-", "1.2.3.4", "1.2.3.4", "6", "1", "2"];
        arguments[place] = word;
        wrong(&arguments, words);
    };
    wrong_at(1, "-", "\"-\" is no direction: out or in");
    wrong_at(3, "1.2.3", "local address '1.2.3': '1.2.3' is no address");
    wrong_at(3, "1.2.3.04", "local address '1.2.3.04': 04 has a leading zero");
    wrong_at(4, "1.2.3.4 ", "remote address '1.2.3.4 ': a space");
    wrong_at(5, "256", "protocol '256': 256 is above 255");
    wrong_at(5, "+6", "protocol '+6': no field has '+'");
    wrong_at(6, "65536", "local port '65536': 65536 is above 65535");
    wrong_at(7, "022", "remote port '022': 022 has a leading zero");
    wrong_at(7, "any", "\"any\" is no single value, which explain takes");
    wrong_at(7, "1-opaque", "\"1-opaque\" is no single value, which explain takes");
}

#[test]
fn wrong_arguments_to_decide() {
    wrong(&["decide", "--policy", "-", "x"], "decide needs --address");
    wrong(&["decide", "--address", "1.2.3.4", "x"], "decide needs --policy");
    wrong(&["decide", "--address"], "--address needs a value");
    wrong(&["decide", "--address=", "--policy", "-"], "--address needs a value");
    let address = ["decide", "--address", "1.2.3.4x", "--policy", "-", "b"];
    wrong(&address, "\"1.2.3.4x\" is no address");
    let decide = ["decide", "--address", "1.2.3.4", "--policy", "-"];
    let wrong_after = |more: &[&str], words| wrong(&[&decide[..], more].concat(), words);
    wrong_after(&[], "decide takes one capture");
    wrong_after(&["in"], "decide needs a capture");
    wrong_after(&["a", "b"], "\"a\" is no direction: out or in");
    wrong_after(&["in", "a", "b"], "decide takes one capture");
    wrong_after(&["in", "--direction=in", "b"], "the direction is given twice");
    wrong_after(&["--policy=x", "b"], "--policy is given twice");
    wrong_after(&["-"], "standard input can be named once only");
}

#[test]
fn a_file_name_need_not_be_text() {
    let name = OsStr::from_bytes(b"strange-\xff-\n.policy");
    let path = std::path::Path::new(env!("CARGO_TARGET_TMPDIR")).join(name);
    std::fs::write(&path, WORKED_EXAMPLE).unwrap();
    let output = called(&["check".as_ref(), path.as_os_str()]);
    check(&output, 0, "accepted: 2 rows; normal form: 6 rows out, 1 rows in\n", "");
    let joined = [b"--policy=", path.as_os_str().as_bytes()].concat();
    let options = [OsStr::from_bytes(&joined), "--address=1.2.3.4".as_ref()];
    let output = called(&["decide".as_ref(), options[0], options[1], "/dev/null".as_ref()]);
    check(&output, 2, "", "specksonne: /dev/null: no capture: the file is empty\n");
    std::fs::remove_file(path).unwrap();
}

#[test]
fn arguments_need_not_be_text() {
    let odd = OsStr::from_bytes(b"\xff");
    let words = |arguments: &[&OsStr]| {
        let output = called(arguments);
        assert_eq!(output.status.code(), Some(2), "{arguments:?}");
        String::from_utf8_lossy(&output.stderr).to_string()
    };
    assert!(words(&[odd]).contains(r#""\xFF" is no command"#));
    assert!(words(&[OsStr::from_bytes(b"--\xff=1")]).contains(r#"unknown option "--\xFF""#));
    assert!(words(&["normalise".as_ref(), odd, odd]).contains(r#""\xFF" is no direction"#));
    assert!(words(&["help".as_ref(), odd]).contains("no help on"));
    let explain: Vec<&OsStr> = ["explain", "in", "x", "1.2.3.4", "1.2.3.4", "6", "1"]
        .iter()
        .map(OsStr::new)
        .chain([odd])
        .collect();
    assert!(words(&explain).contains("a byte that is no ASCII"));
}

/// A word of a command line, often with random bytes after it.
fn any_word(random: &mut Prng) -> OsString {
    let commands = ["check", "normalise", "same", "explain", "decide", "help"];
    let options = ["--address", "--policy", "--pairs=", "--direction", "--policy=/dev/null"];
    let others = ["out", "in", "-", "--", "=", "1.2.3.4", "6", "opaque"];
    let mut word = random.pick(&[&commands[..], &options, &others].concat()).as_bytes().to_vec();
    if random.one_in(3) {
        let count = random.between(1, 3);
        word.extend(random.bytes(count));
        word.retain(|&byte| byte != 0);
    }
    OsString::from_vec(word)
}

/// Whatever the words are, the command ends with a status of its own.
#[test]
fn no_argument_makes_it_panic() {
    let mut random = Prng::new(1);
    for _ in 0..400 {
        let count = random.between(1, 9);
        let words: Vec<OsString> = (0..count).map(|_| any_word(&mut random)).collect();
        let words: Vec<&OsStr> = words.iter().map(OsString::as_os_str).collect();
        let output = called(&words);
        assert!(matches!(output.status.code(), Some(0..=2)), "{words:?}");
    }
}

/// A message that cannot be written changes no status.
#[test]
fn standard_error_may_be_full() {
    let full = std::fs::File::options().write(true).open("/dev/full").unwrap();
    let status = Command::new(PROGRAM).arg("--foo").stderr(full).status().unwrap();
    assert_eq!(status.code(), Some(2));
}
