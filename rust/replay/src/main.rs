//! The command line: runs scenarios, compares the engines, or generates a scenario.

#![forbid(unsafe_code)]

mod arguments;

use arguments::{Task, HELP};
use replay::coverage::Coverage;
use replay::generate::generate;
use replay::run::{difference, run, Difference, End, Mode};
use replay::shrink::shortest;
use std::ffi::OsString;
use std::fs::File;
use std::io::{self, BufRead, BufReader, BufWriter, Read, Write};
use std::path::Path;
use std::process::ExitCode;

const BAD_OPERATION: u8 = 1;
const COULD_NOT_RUN: u8 = 2;
const ENGINES_DIFFER: u8 = 3;

fn main() -> ExitCode {
    let done = match arguments::parse(std::env::args_os().skip(1)) {
        Ok(task) => perform(task),
        Err(message) => Err(format!("{message}; `replay --help` says more")),
    };
    match done {
        Ok(status) => status.into(),
        Err(message) => {
            eprintln!("replay: {message}");
            COULD_NOT_RUN.into()
        }
    }
}

/// Does what was asked and says the exit status.
fn perform(task: Task) -> Result<u8, String> {
    let mut output = BufWriter::new(io::stdout().lock());
    let status = match task {
        Task::Help => output.write_all(HELP.as_bytes()).map(|()| 0),
        Task::Version => writeln!(output, "replay {}", env!("CARGO_PKG_VERSION")).map(|()| 0),
        Task::Generate(recipe) => generate(&recipe, &mut output).map(|()| 0),
        Task::Run { mode, coverage, files } => run_all(mode, coverage, &files, &mut output),
    };
    match status.and_then(|status| output.flush().map(|()| status)) {
        // Whoever reads the output has seen enough.
        Err(error) if error.kind() == io::ErrorKind::BrokenPipe => Ok(0),
        Err(error) => Err(error.to_string()),
        Ok(status) => Ok(status),
    }
}

/// Runs the named scenarios, or the one on standard input.
fn run_all(
    mode: Mode,
    coverage: bool,
    files: &[OsString],
    output: &mut impl Write,
) -> io::Result<u8> {
    let mut counts = Coverage::new();
    let mut status = 0;
    let standard_input = ["-".into()];
    let files = if files.is_empty() { &standard_input } else { files };
    for name in files {
        let (name, mut seen) = (Path::new(name), Vec::new());
        let scenario =
            Remembering { name, rest: open(name)?, seen: &mut seen, on: mode == Mode::Compare };
        match run(BufReader::new(scenario), mode, output, &mut counts)? {
            End::Finished { bad_operations: 0 } => {}
            End::Finished { bad_operations } => {
                eprintln!("replay: {}: {bad_operations} lines are no operation", name.display());
                status = BAD_OPERATION;
            }
            End::Differs(difference) => {
                output.flush()?;
                report(name, &difference, &seen);
                status = ENGINES_DIFFER;
                break;
            }
        }
    }
    if coverage {
        output.flush()?;
        eprintln!("{counts}");
    }
    Ok(status)
}

fn open(name: &Path) -> io::Result<Box<dyn BufRead>> {
    if name == Path::new("-") {
        return Ok(Box::new(BufReader::new(io::stdin())));
    }
    let opened = File::open(name).map_err(|error| with_name(name, error))?;
    Ok(Box::new(BufReader::new(opened)))
}

fn with_name(name: &Path, error: io::Error) -> io::Error {
    io::Error::other(format!("{}: {error}", name.display()))
}

/// A scenario that is kept as far as it was read, where that is on.
struct Remembering<'a> {
    name: &'a Path,
    rest: Box<dyn BufRead>,
    seen: &'a mut Vec<u8>,
    on: bool,
}

impl Read for Remembering<'_> {
    fn read(&mut self, room: &mut [u8]) -> io::Result<usize> {
        let count = self.rest.read(room).map_err(|error| with_name(self.name, error))?;
        if self.on {
            self.seen.extend(&room[..count]);
        }
        Ok(count)
    }
}

fn report(name: &Path, found: &Difference, scenario: &[u8]) {
    let Difference { line_number, operation, core, reference } = found;
    eprintln!("replay: {}: the engines differ at line {line_number}", name.display());
    eprintln!("operation: {operation}");
    eprintln!("core:      {core}");
    eprintln!("reference: {reference}");
    let lines: Vec<String> = String::from_utf8_lossy(scenario)
        .lines()
        .take(*line_number)
        .map(|line| format!("{line}\n"))
        .collect();
    let shortest = shortest(&lines.concat(), |text| difference(text).is_some());
    eprintln!("the shortest form of the scenario that shows a difference:\n{shortest}");
}
