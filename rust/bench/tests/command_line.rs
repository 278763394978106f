//! The program as it is called.

use bench::table::COLUMNS;
use specksonne::Policy;
use std::ffi::OsString;
use std::os::unix::ffi::OsStringExt;
use std::path::Path;
use std::{fs, process};
use testkit::run;

fn done(arguments: &[&str]) -> String {
    let output = run(env!("CARGO_BIN_EXE_bench"), arguments, b"");
    assert_eq!(output.status.code(), Some(0), "{arguments:?}");
    String::from_utf8(output.stdout).unwrap()
}

#[track_caller]
fn check_refused(arguments: &[OsString], in_stderr: &str) {
    let output = run(env!("CARGO_BIN_EXE_bench"), arguments, b"");
    let stderr = String::from_utf8(output.stderr).unwrap();
    assert_eq!(output.status.code(), Some(2), "{arguments:?}: {stderr}");
    assert!(stderr.starts_with("bench: ") && stderr.contains(in_stderr), "{stderr}");
    assert!(output.stdout.is_empty(), "{arguments:?}");
}

#[test]
fn help_and_refused_arguments() {
    assert!(done(&["--help"]).contains("bench families [--rows N]"));
    assert_eq!(done(&["--version"]), concat!("bench ", env!("CARGO_PKG_VERSION"), "\n"));
    let refused: [(&[&str], &str); 10] = [
        (&["--nonsense"], "no option --nonsense;"),
        (&["nonsense"], "\"nonsense\" is none of families, policy and climb"),
        (&["--rows", "5"], "do not go together"),
        (&["families", "--seconds=5"], "do not go together"),
        (&["families", "--rows", "0"], "from 1 to 256 rows, not 0"),
        (&["families", "--family", "nonsense"], "nothing here is called \"nonsense\""),
        (&["families", "--column", "same"], "--column needs --family"),
        (&["policy"], "say --family"),
        (&["climb", "--seconds", "1"], "say --to"),
        (&["climb", "--seconds", "ten"], "\"ten\" is no number"),
    ];
    for (arguments, message) in refused {
        check_refused(&arguments.iter().map(OsString::from).collect::<Vec<_>>(), message);
    }
    let strange = OsString::from_vec(vec![0xff]);
    check_refused(std::slice::from_ref(&strange), "");
    check_refused(&["families".into(), "--family".into(), strange], "");
}

/// A line of the table has a time and an answer in each column.
#[test]
fn a_line_of_the_table() {
    let table = done(&["families", "--family", "disjoint-diagonal", "--rows", "9", "--seed", "3"]);
    let lines: Vec<&str> = table.lines().collect();
    assert_eq!(lines.len(), 3);
    let cells: Vec<&str> = lines[2].trim_matches(['|', ' ']).split(" | ").collect();
    assert_eq!(cells.len(), 1 + COLUMNS.len());
    assert_eq!(cells[0], "disjoint-diagonal");
    let answers = ["5", "5", "same", "same", "different", "different", "different"];
    for (cell, answer) in cells[1..].iter().zip(answers) {
        let (time, said) = cell.split_once(' ').expect("a time and an answer");
        assert!(time.parse::<f64>().is_ok_and(|time| time < 1e3), "{cell}");
        assert_eq!(said, format!("({answer})"));
    }
}

/// The rows of a policy and of its copy, which the program wrote.
fn written(arguments: &[&str], name: &str) -> (String, [usize; 2]) {
    let file = Path::new(env!("CARGO_TARGET_TMPDIR")).join(format!("{}.{name}", process::id()));
    let (file, copy) = (file.display().to_string(), format!("{}.copy", file.display()));
    let said = done(&[arguments, &["--to", &file]].concat());
    let rows = [file, copy].map(|name| {
        let policy = fs::read(&name).expect("the file is written");
        fs::remove_file(name).expect("it is there");
        Policy::parse(&policy).expect("a policy").rows()
    });
    (said, rows)
}

#[test]
fn policies_are_written() {
    let cell = ["--family", "random-actions", "--column", "dropped", "--rows", "9"];
    assert_eq!(written(&[&["policy"][..], &cell].concat(), "dropped"), (String::new(), [9, 8]));
    let (said, _) = written(&["climb", "--compare", "--seconds", "1"], "worst");
    assert!(said.contains(" ms\t") && said.contains("calls tried"), "{said}");
}
