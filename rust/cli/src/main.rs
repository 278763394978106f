//! The command `specksonne`: policy files of an IPsec gateway checked, normalised, compared and
//! explained, and captured packets decided, all by the proved library.

mod arguments;
mod capture;
mod decide;
mod explain;
mod help;
mod input;
mod pairs;
mod progress;
mod refusal;
mod words;

use arguments::Task;
use progress::while_working;
use specksonne::{normalise, same_policy, Direction, Gateway, Policy, Refused};
use std::ffi::OsStr;
use std::io::{self, BufWriter, Write};
use std::net::Ipv4Addr;
use std::process::ExitCode;

/// Why a task was not done.
pub enum Failure {
    /// A file breaks a rule: the message says which, with the answer's number.
    Refused(String),
    /// The arguments, or a file that cannot be read.
    Usage(String),
    /// The output cannot be written.
    Output(io::Error),
}

impl From<io::Error> for Failure {
    fn from(error: io::Error) -> Failure {
        Failure::Output(error)
    }
}

fn main() -> ExitCode {
    let mut output = BufWriter::new(io::stdout().lock());
    let done = arguments::parse(std::env::args_os().skip(1))
        .and_then(|task| perform(task, &mut output))
        .and_then(|()| Ok(output.flush()?));
    match done {
        Ok(()) => ExitCode::SUCCESS,
        // Whoever reads the output has seen enough.
        Err(Failure::Output(error)) if error.kind() == io::ErrorKind::BrokenPipe => {
            ExitCode::SUCCESS
        }
        Err(Failure::Output(error)) => stop(2, &error.to_string()),
        Err(Failure::Refused(message)) => stop(1, &message),
        Err(Failure::Usage(message)) => stop(2, &message),
    }
}

fn stop(status: u8, message: &str) -> ExitCode {
    // Where standard error cannot be written, the status still says it.
    let _ = writeln!(io::stderr(), "specksonne: {message}");
    status.into()
}

fn perform(task: Task, output: &mut impl Write) -> Result<(), Failure> {
    match task {
        Task::Print(text) => output.write_all(text.as_bytes())?,
        Task::Check { policy } => check(&policy, output)?,
        Task::Normalise { direction, policy } => {
            output.write_all(&normal_form(direction, &policy)?)?;
        }
        Task::Same { direction, first, second } => same(direction, &first, &second, output)?,
        Task::Explain { direction, policy, selectors } => {
            explain::explain(direction, &policy, &selectors, output)?;
        }
        Task::Decide(asked) => decide::decide(&asked, output)?,
    }
    Ok(())
}

/// Whether a gateway accepts the policy, and how many rows it and its normal forms have.
fn check(name: &OsStr, output: &mut impl Write) -> Result<(), Failure> {
    let file = input::read(name)?;
    let refused = |refusal| refusal::policy(name, &file, refusal);
    let mut gateway = Gateway::new(Ipv4Addr::UNSPECIFIED);
    while_working(|| gateway.set_policy(&file)).map_err(refused)?;
    let rows = Policy::parse(&file).map_err(refused)?.rows();
    let [out, into] = [Direction::Out, Direction::In].map(|way| gateway.normal_form_rows(way));
    writeln!(output, "accepted: {rows} rows; normal form: {out} rows out, {into} rows in")?;
    Ok(())
}

fn normal_form(direction: Direction, name: &OsStr) -> Result<Vec<u8>, Failure> {
    let file = input::read(name)?;
    let form = while_working(|| normalise(&file, direction));
    form.map_err(|refusal| refusal::policy(name, &file, refusal))
}

/// Whether two policies treat every packet of one direction alike.
fn same(
    direction: Direction,
    first: &OsStr,
    second: &OsStr,
    output: &mut impl Write,
) -> Result<(), Failure> {
    let (own, other) = (input::read(first)?, input::read(second)?);
    let compared = while_working(|| same_policy(&own, &other, direction));
    let same = compared.map_err(|refused| match refused {
        Refused::First(refusal) => refusal::policy(first, &own, refusal),
        Refused::Second(refusal) => refusal::policy(second, &other, refusal),
    })?;
    writeln!(output, "{}", if same { "same" } else { "different" })?;
    Ok(())
}
