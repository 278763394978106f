//! The program as it is called.

use std::ffi::OsString;
use std::os::unix::ffi::OsStringExt;
use std::process::Output;
use testkit::run;

fn abuse(arguments: &[&str]) -> Output {
    run(env!("CARGO_BIN_EXE_abuse"), arguments, b"")
}

#[track_caller]
fn check_done(arguments: &[&str], in_stdout: &str) {
    let output = abuse(arguments);
    assert_eq!(output.status.code(), Some(0), "{arguments:?}");
    let stdout = String::from_utf8(output.stdout).unwrap();
    assert!(stdout.contains(in_stdout), "{arguments:?}: {stdout}");
}

#[track_caller]
fn check_refused(arguments: &[OsString], in_stderr: &str) {
    let output = run(env!("CARGO_BIN_EXE_abuse"), arguments, b"");
    let stderr = String::from_utf8(output.stderr).unwrap();
    assert_eq!(output.status.code(), Some(2), "{arguments:?}: {stderr}");
    assert!(stderr.starts_with("abuse: ") && stderr.contains(in_stderr), "{stderr}");
    assert!(output.stdout.is_empty(), "{arguments:?}");
}

#[test]
fn arguments() {
    check_done(&["--help"], "abuse [--threads N] [CALLS [SEED]]");
    check_done(&["--version"], concat!("abuse ", env!("CARGO_PKG_VERSION"), "\n"));
    check_done(&["100"], "seed 1, 2 threads: 100 calls ");
    check_done(&["--threads=3", "100", "7"], "seed 7, 3 threads: 100 calls ");
    check_done(&["100", "18446744073709551615"], "seed 18446744073709551615, 2 threads: 100 ");
    check_done(&["0", "--threads", "1"], "seed 1, 1 threads: 0 calls; ");
    let refused: [(&[&str], &str); 7] = [
        (&["--nonsense"], "no option --nonsense;"),
        (&["--nonsense=1", "5"], "no option --nonsense;"),
        (&["--threads", "0"], "from 1 to 64 threads"),
        (&["--threads"], "--threads needs a value"),
        (&["--version=1"], "--version takes no value"),
        (&["ten"], "\"ten\" is no number"),
        (&["1", "2", "3"], "3 is one too many"),
    ];
    for (arguments, message) in refused {
        check_refused(&arguments.iter().map(OsString::from).collect::<Vec<_>>(), message);
    }
}

/// Arguments of any bytes, in any place where one can stand.
#[test]
fn no_argument_makes_it_panic() {
    let strange: [&[u8]; 5] = [b"\xff", b"", b"\xc3(", b"\n\x80", b"18446744073709551616"];
    for strange in strange.map(|bytes| OsString::from_vec(bytes.to_vec())) {
        check_refused(std::slice::from_ref(&strange), "");
        check_refused(&["5".into(), strange.clone()], "");
        check_refused(&["--threads".into(), strange.clone()], "");
        for start in ["--threads=", "--help=", "--\u{fffd}", "-\u{e4}="] {
            let mut argument = OsString::from(start);
            argument.push(&strange);
            check_refused(&[argument], "");
        }
    }
}
