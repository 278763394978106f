//! Times of the proved library.
//!
//!     cargo run --profile measure --offline -p bench -- --help

mod arguments;

use arguments::{Size, Task, HELP};
use bench::calls::{shown, Call};
use bench::climb::{Climb, Slow, Target};
use bench::{ratios, table};
use std::io::{self, Write};
use std::process::ExitCode;
use std::time::{Duration, Instant};
use std::{env, fs};

fn main() -> ExitCode {
    let task = match arguments::parse(env::args_os().skip(1)) {
        Ok(task) => task,
        Err(message) => {
            eprintln!("bench: {message}; `bench --help` says more");
            return 2.into();
        }
    };
    match run(task) {
        Ok(()) => 0.into(),
        // Nobody is there to read it.
        Err(error) if error.kind() == io::ErrorKind::BrokenPipe => 0.into(),
        Err(error) => {
            eprintln!("bench: {error}");
            1.into()
        }
    }
}

fn run(task: Task) -> io::Result<()> {
    let mut out = io::stdout();
    match task {
        Task::Help => out.write_all(HELP.as_bytes()),
        Task::Version => writeln!(out, concat!("bench ", env!("CARGO_PKG_VERSION"))),
        Task::Ratios => ratios::write(),
        Task::Table { only, size: Size { rows, seed } } => table::write(only, rows, seed),
        Task::Cell { family, column, size: Size { rows, seed } } => {
            writeln!(out, "{}", table::cell(family, column, rows, seed))
        }
        Task::Policy { family, column, size: Size { rows, seed }, to } => {
            write_files(&column.call(family, rows, seed), &to)
        }
        Task::Climb { target, time, seed, to } => climb(target, time, seed, &to),
    }
}

/// Climbs, and keeps the slowest policy in a file from the first on.
fn climb(target: Target, time: Duration, seed: u64, to: &str) -> io::Result<()> {
    let start = Instant::now();
    let mut done = Ok(());
    let report = |slow: &Slow| {
        if done.is_ok() {
            done = write_files(&slow.call, to).and_then(|()| write_line(slow, start.elapsed()));
        }
    };
    let tried = Climb::new(target, time, seed, report).run();
    done?;
    writeln!(io::stdout(), "{tried} calls tried; the slowest is in {to}")
}

/// Writes the policy of a call to a file, and the copy that it is compared with beside it.
fn write_files(call: &Call, to: &str) -> io::Result<()> {
    for (file, name) in call.files().iter().zip([to.to_string(), format!("{to}.copy")]) {
        let named = |error: io::Error| io::Error::new(error.kind(), format!("{name}: {error}"));
        fs::write(&name, file).map_err(named)?;
    }
    Ok(())
}

fn write_line(slow: &Slow, after: Duration) -> io::Result<()> {
    let (timed, after) = (shown(&slow.timed), after.as_secs());
    let Slow { start, rows, tried, .. } = slow;
    writeln!(io::stdout(), "{after} s\t{timed} ms\t{rows} rows\tfrom {start}\tcall {tried}")
}
