//! The command as it is called.

mod arguments;
mod build;
mod captures;
mod damage;
mod live;
mod pairs;
mod policies;

use std::path::{Path, PathBuf};
use std::process::Output;
use testkit::run;

const WORKED_EXAMPLE: &str = "policy\t1\n\
    out\tprotect-7\t10.1.0.0/255.255.255.0\t10.0.0.0-10.0.0.9\t6\tany\t22\n\
    both\tbypass\tany\tany\t17\t500\t500\n";

const PROGRAM: &str = env!("CARGO_BIN_EXE_specksonne");

fn specksonne(arguments: &[&str], input: &[u8]) -> Output {
    run(PROGRAM, arguments, input)
}

#[track_caller]
fn check(output: &Output, status: i32, stdout: &str, stderr: &str) {
    let text = |bytes: &[u8]| String::from_utf8(bytes.to_vec()).unwrap();
    assert_eq!(text(&output.stderr), stderr);
    assert_eq!(text(&output.stdout), stdout);
    assert_eq!(output.status.code(), Some(status));
}

/// A file for one test.
fn file(name: &str, bytes: &[u8]) -> PathBuf {
    let path = Path::new(env!("CARGO_TARGET_TMPDIR")).join(name);
    std::fs::write(&path, bytes).unwrap();
    path
}

/// What `decide` says of a capture on standard input under the worked example, without pairs.
fn decide(capture: &[u8]) -> Output {
    static POLICY: std::sync::LazyLock<PathBuf> =
        std::sync::LazyLock::new(|| file("worked-example.policy", WORKED_EXAMPLE.as_bytes()));
    let policy = POLICY.to_str().unwrap();
    specksonne(&["decide", "--address", "192.0.2.1", "--policy", policy, "-"], capture)
}
