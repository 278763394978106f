//! Runs a scenario through one engine, or through two at once.

use crate::coverage::Coverage;
use crate::engine::{Engine, EngineName};
use crate::operation::Operation;
use crate::reply::Reply;
use std::io::{self, BufRead, Write};

/// What a scenario is run through.
#[derive(Clone, Copy, Debug, PartialEq, Eq)]
pub enum Mode {
    Single(EngineName),
    /// Both engines, until they differ.
    Compare,
}

/// How a scenario ended.
#[derive(Debug, PartialEq, Eq)]
pub enum End {
    Finished { bad_operations: usize },
    Differs(Difference),
}

/// The first line at which two engines differ.
#[derive(Debug, PartialEq, Eq)]
pub struct Difference {
    pub line_number: usize,
    pub operation: String,
    pub core: String,
    pub reference: String,
}

/// Runs one scenario from its start and writes a line for each operation.
pub fn run(
    scenario: impl BufRead,
    mode: Mode,
    output: &mut impl Write,
    coverage: &mut Coverage,
) -> io::Result<End> {
    match mode {
        Mode::Single(name) => run_engines(scenario, &mut *name.start(), None, output, coverage),
        Mode::Compare => {
            let mut core = EngineName::Core.start();
            let mut reference = EngineName::Reference.start();
            run_engines(scenario, &mut *reference, Some(&mut *core), output, coverage)
        }
    }
}

/// Where the two engines differ on a scenario, if they do.
pub fn difference(scenario: &str) -> Option<Difference> {
    let end = run(scenario.as_bytes(), Mode::Compare, &mut io::sink(), &mut Coverage::new());
    match end {
        Ok(End::Differs(difference)) => Some(difference),
        _ => None,
    }
}

/// Runs a scenario through `engine`, and through `core` too where there is one.
pub fn run_engines(
    scenario: impl BufRead,
    engine: &mut dyn Engine,
    mut core: Option<&mut dyn Engine>,
    output: &mut impl Write,
    coverage: &mut Coverage,
) -> io::Result<End> {
    let mut bad_operations = 0;
    for (index, line) in scenario.split(b'\n').enumerate() {
        let line = String::from_utf8_lossy(&line?).into_owned();
        if line.is_empty() || line.starts_with('#') || line.starts_with('=') {
            continue;
        }
        let operation = Operation::parse(&line);
        let reply = reply_of(engine, &operation);
        if let Some(core) = &mut core {
            let core_reply = reply_of(*core, &operation);
            if core_reply.to_string() != reply.to_string() {
                return Ok(End::Differs(Difference {
                    line_number: index + 1,
                    operation: line,
                    core: core_reply.to_string(),
                    reference: reply.to_string(),
                }));
            }
        }
        bad_operations += usize::from(reply == Reply::BadOperation);
        coverage.count(&reply);
        writeln!(output, "{reply}")?;
    }
    Ok(End::Finished { bad_operations })
}

fn reply_of(engine: &mut dyn Engine, operation: &Option<Operation>) -> Reply {
    match operation {
        Some(operation) => engine.run(operation),
        None => Reply::BadOperation,
    }
}
