//! Ten million random calls, or as many as are asked for.

use abuse::{run_apart, run_sharing};
use std::ffi::OsString;
use std::io::Write;
use std::process::ExitCode;
use std::time::Instant;
use testkit::{Argument, Arguments};

const HELP: &str = "\
abuse [--threads N] [CALLS [SEED]]
    makes CALLS random calls (10000000 without) of the proved library's functions, with arbitrary
    bytes and state words between guard pages, and holds every lent word and byte against what
    document 01 lets the call change; says at the end how often each answer was given
    Nine calls in ten are made in N threads (2 without, at most 64) that share nothing, the others
    with packets in N threads that share a policy and a table. SEED (1 without) and N fix the calls.
abuse --help
abuse --version

exit status: 0 every answer and every word was as it must be; 2 the arguments; 101 one was not; a
call that reads or writes outside of what it is lent ends the program by a signal
";

const MOST_THREADS: u64 = 64;

/// What the arguments ask for.
enum Task {
    Help,
    Version,
    Run { threads: usize, calls: u64, seed: u64 },
}

fn main() -> ExitCode {
    let said = match parse(std::env::args_os().skip(1)) {
        Ok(Task::Help) => HELP.to_string(),
        Ok(Task::Version) => concat!("abuse ", env!("CARGO_PKG_VERSION"), "\n").to_string(),
        Ok(Task::Run { threads, calls, seed }) => run(threads, calls, seed),
        Err(message) => {
            eprintln!("abuse: {message}; `abuse --help` says more");
            return 2.into();
        }
    };
    // Nobody may be there to read it.
    let _ = std::io::stdout().write_all(said.as_bytes());
    0.into()
}

fn parse(arguments: impl Iterator<Item = OsString>) -> Result<Task, String> {
    let mut rest = Arguments::new(arguments);
    let (mut task, mut threads, mut numbers) = (None, 2, Vec::new());
    while let Some(argument) = rest.take()? {
        match argument {
            Argument::Option(name) => match name.as_str() {
                "--help" => task = Some(Task::Help),
                "--version" => task = Some(Task::Version),
                "--threads" => threads = number(&rest.value()?)?,
                _ => return Err(format!("no option {name}")),
            },
            Argument::Word(word) => numbers.push(number(&word.to_string_lossy())?),
        }
    }
    let (calls, seed) = match numbers[..] {
        [] => (10_000_000, 1),
        [calls] => (calls, 1),
        [calls, seed] => (calls, seed),
        [_, _, extra, ..] => return Err(format!("{extra} is one too many")),
    };
    if threads == 0 || threads > MOST_THREADS {
        return Err(format!("from 1 to {MOST_THREADS} threads, not {threads}"));
    }
    Ok(task.unwrap_or(Task::Run { threads: threads as usize, calls, seed }))
}

fn number(text: &str) -> Result<u64, String> {
    text.parse().map_err(|_| format!("{text:?} is no number"))
}

fn run(threads: usize, calls: u64, seed: u64) -> String {
    let start = Instant::now();
    let sharing = calls / 10;
    let mut counts = run_apart(threads, calls - sharing, seed);
    counts += run_sharing(threads, sharing, seed);
    let seconds = start.elapsed().as_secs_f64();
    format!("seed {seed}, {threads} threads: {counts}; {seconds:.0} seconds\n")
}
