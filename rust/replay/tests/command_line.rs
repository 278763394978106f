//! The program as it is called.

use std::ffi::OsString;
use std::os::unix::ffi::OsStringExt;
use std::process::Output;
use testkit::run;

fn replay(arguments: &[&str], input: &str) -> Output {
    run(env!("CARGO_BIN_EXE_replay"), arguments, input.as_bytes())
}

fn text(bytes: &[u8]) -> &str {
    std::str::from_utf8(bytes).unwrap()
}

#[track_caller]
fn check(output: &Output, status: i32, stdout: &str, in_stderr: &str) {
    assert_eq!(output.status.code(), Some(status), "{}", text(&output.stderr));
    assert_eq!(text(&output.stdout), stdout);
    assert!(text(&output.stderr).contains(in_stderr), "{}", text(&output.stderr));
}

#[test]
fn standard_input_and_bad_lines() {
    let scenario = "# a comment\n\ngate 1 2\n= something\nnonsense\nout 45\n";
    let output = replay(&["--engine", "reference"], scenario);
    check(&output, 1, "= ok\n= bad operation\n= 10\n", "1 lines are no operation");
    let output = replay(&["--engine", "reference"], "gate 1 2\nout -");
    check(&output, 0, "= ok\n= 10\n", "");
    let output = replay(&["--engine", "core"], "gate 1 2\nout -\n");
    check(&output, 0, "= ok\n= 10\n", "");
}

#[test]
fn each_file_is_a_scenario_of_its_own() {
    let folder = std::env::temp_dir().join(format!("replay-test-{}", std::process::id()));
    std::fs::create_dir_all(&folder).unwrap();
    let file = folder.join("scenario.txt");
    let add = "add 50 256 256 1 4 0 0 0 0 0 0 0 0 0 0\n";
    std::fs::write(&file, add).unwrap();
    let name = file.to_str().unwrap();
    check(&replay(&["--engine", "reference", name, name], ""), 0, "= 5\n= 5\n", "");
    std::fs::remove_dir_all(&folder).unwrap();
    check(&replay(&["--engine", "reference", name], ""), 2, "", "scenario.txt");
}

#[test]
fn coverage_line() {
    let output = replay(&["--engine", "reference", "--coverage"], "out -\nin -\npolicy -\n");
    check(&output, 0, "= 10\n= 10\n= 23\n", "coverage: 0=0 1=0");
    assert!(text(&output.stderr).contains(" 10=2 ") && text(&output.stderr).contains(" 23=1 "));
}

#[test]
fn comparing_engines_that_agree() {
    check(&replay(&["--compare"], "out -\n"), 0, "= 10\n", "");
}

/// The reference follows request 2, and the proved library does not.
#[test]
fn comparing_engines_that_differ() {
    let output = replay(&["--compare"], "gate 1 2\nout -\nitems 2\nin -\n");
    check(&output, 3, "= ok\n= 10\n", "the engines differ at line 3");
    assert!(text(&output.stderr).ends_with("shows a difference:\nitems 2\n\n"));
}

#[test]
fn generated_scenarios_can_be_run() {
    let generated = replay(&["--generate", "all", "--seed", "3", "--ops", "500"], "");
    assert_eq!(generated.status.code(), Some(0));
    let scenario = text(&generated.stdout);
    let run = replay(&["--engine", "reference"], scenario);
    assert_eq!(run.status.code(), Some(0));
    assert_eq!(text(&run.stdout).lines().count(), 500);
    let generated = replay(&["--generate", "packets", "--ops", "2", "--items", "2,7"], "");
    assert_eq!(text(&generated.stdout).lines().nth(1), Some("items 2 7"));
}

#[test]
fn arguments() {
    let help = replay(&["--help"], "");
    assert_eq!(help.status.code(), Some(0));
    assert!(text(&help.stdout).contains("--generate KIND"));
    let version = concat!("replay ", env!("CARGO_PKG_VERSION"), "\n");
    check(&replay(&["--version"], ""), 0, version, "");
    check(&replay(&["--engine=reference", "-"], "out -\n"), 0, "= 10\n", "");
    let generate = ["--generate=all", "--seed=3", "--ops=1", "--items=2,7"];
    assert!(text(&replay(&generate, "").stdout).ends_with("\nitems 2 7\n"));
    let bad: [&[&str]; 18] = [
        &[],
        &["--engine"],
        &["--engine", "other"],
        &["--engine", "core", "--compare"],
        &["--engine", "reference", "--engine", "core"],
        &["--generate", "nonsense"],
        &["--generate", "all", "--seed", "x"],
        &["--generate", "all", "--engine", "reference"],
        &["--engine", "reference", "--seed", "1"],
        &["--generate", "all", "file"],
        &["--generate", "all", "--items", "2,x"],
        &["--engine", "reference", "--items", "2"],
        &["--nonsense"],
        &["--engine", "core", "--version=1"],
        &["--compare=core"],
        &["--generate=all", "--seed="],
        &["--engine=core", "--coverage=yes"],
        &["--help=me"],
    ];
    for arguments in bad {
        check(&replay(arguments, ""), 2, "", "replay: ");
    }
    check(&replay(&["--compare", "--nonsense=3"], ""), 2, "", "no option --nonsense;");
    check(&replay(&["--compare", "-x"], ""), 2, "", "no option -x;");
    check(&replay(&["--compare", "/"], ""), 2, "", "replay: /: ");
}

/// Arguments of any bytes, in any place where one can stand.
#[test]
fn no_argument_makes_it_panic() {
    let options =
        ["--engine", "--generate", "--seed", "--ops", "--items", "--coverage", "--x", "-"];
    check_refused(&["--compare".into(), "".into()]);
    let strange: [&[u8]; 4] = [b"\xff", b"\xc3(", b"=\n\x80", b"18446744073709551616"];
    for strange in strange {
        let alone = OsString::from_vec(strange.to_vec());
        check_refused(std::slice::from_ref(&alone));
        check_refused(&["--compare".into(), alone.clone()]);
        for option in options {
            check_refused(&[option.into(), alone.clone()]);
            for between in [b"=".as_slice(), b""] {
                let joined = [option.as_bytes(), between, strange].concat();
                check_refused(&["--compare".into(), OsString::from_vec(joined)]);
            }
        }
    }
}

#[track_caller]
fn check_refused(arguments: &[OsString]) {
    let output = run(env!("CARGO_BIN_EXE_replay"), arguments, b"");
    assert_eq!(output.status.code(), Some(2), "{arguments:?}");
    assert!(output.stderr.starts_with(b"replay: "), "{arguments:?}");
}
