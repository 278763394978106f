//! The command line's arguments.

use crate::words::{usage, Words};
use crate::{help, Failure};
use specksonne::{Direction, Ranges, Selectors};
use std::ffi::{OsStr, OsString};
use std::net::Ipv4Addr;

const VERSION: &str = concat!("specksonne ", env!("CARGO_PKG_VERSION"), "\n");

/// What the arguments ask for.
pub enum Task {
    Print(&'static str),
    Check { policy: OsString },
    Normalise { direction: Direction, policy: OsString },
    Same { direction: Direction, first: OsString, second: OsString },
    Explain { direction: Direction, policy: OsString, selectors: Selectors },
    Decide(Asked),
}

/// What `decide` is asked.
pub struct Asked {
    pub address: Ipv4Addr,
    pub policy: OsString,
    pub pairs: Option<OsString>,
    pub direction: Direction,
    pub capture: OsString,
}

pub fn parse(arguments: impl Iterator<Item = OsString>) -> Result<Task, Failure> {
    let mut words = Words::split(arguments)?;
    if words.has("--help") || words.has("-h") {
        return Ok(Task::Print(help::COMMANDS));
    }
    if words.has("--version") {
        return Ok(Task::Print(VERSION));
    }
    let operands = std::mem::take(&mut words.operands);
    let Some((command, operands)) = operands.split_first() else {
        return Err(usage("no command".to_string()));
    };
    let task = match command.to_str() {
        Some("decide") => Task::Decide(asked(&mut words, operands)?),
        Some(command) => {
            words.no_options(command)?;
            without_options(command, operands)?
        }
        None => return Err(no_command(command)),
    };
    standard_input_once(&task)?;
    Ok(task)
}

/// The task of a command that takes no options.
fn without_options(command: &str, operands: &[OsString]) -> Result<Task, Failure> {
    Ok(match (command, operands) {
        ("check", [policy]) => Task::Check { policy: policy.clone() },
        ("normalise", [way, policy]) => {
            Task::Normalise { direction: direction(way)?, policy: policy.clone() }
        }
        ("same", [way, first, second]) => {
            Task::Same { direction: direction(way)?, first: first.clone(), second: second.clone() }
        }
        ("explain", [way, policy, local, remote, protocol, local_port, remote_port]) => {
            let values = [local, remote, protocol, local_port, remote_port];
            Task::Explain {
                direction: direction(way)?,
                policy: policy.clone(),
                selectors: selectors(values)?,
            }
        }
        ("help", []) => Task::Print(help::COMMANDS),
        ("help", [topic]) => Task::Print(help::topic(&topic.to_string_lossy()).map_err(usage)?),
        ("check", _) => return Err(takes(command, "POLICY")),
        ("normalise", _) => return Err(takes(command, "out|in POLICY")),
        ("same", _) => return Err(takes(command, "out|in A B")),
        ("explain", _) => {
            return Err(takes(command, "out|in POLICY LOCAL REMOTE PROTOCOL LPORT RPORT"))
        }
        ("help", _) => return Err(takes(command, "one topic")),
        _ => return Err(no_command(OsStr::new(command))),
    })
}

fn takes(command: &str, operands: &str) -> Failure {
    usage(format!("{command} takes {operands}"))
}

fn no_command(word: &OsStr) -> Failure {
    usage(format!("{word:?} is no command"))
}

fn asked(words: &mut Words, operands: &[OsString]) -> Result<Asked, Failure> {
    let mut needed =
        |name: &str| words.take(name).ok_or_else(|| usage(format!("decide needs {name}")));
    let (address, policy) = (needed("--address")?, needed("--policy")?);
    let pairs = words.take("--pairs");
    let (first, capture) = match operands {
        // A file of that name is ./out or ./in.
        [way] if direction(way).is_ok() => return Err(usage("decide needs a capture".to_string())),
        [capture] => (None, capture),
        [way, capture] => (Some(way.clone()), capture),
        _ => return Err(takes("decide", "one capture")),
    };
    let way = match (first, words.take("--direction")) {
        (Some(_), Some(_)) => return Err(usage("the direction is given twice".to_string())),
        (first, option) => first.or(option),
    };
    Ok(Asked {
        address: self::address(&address)?,
        policy,
        pairs,
        direction: way.map_or(Ok(Direction::Out), |way| direction(&way))?,
        capture: capture.clone(),
    })
}

/// Standard input can be read once only.
fn standard_input_once(task: &Task) -> Result<(), Failure> {
    let files = match task {
        Task::Same { first, second, .. } => vec![first, second],
        Task::Decide(asked) => {
            let mut files = vec![&asked.policy, &asked.capture];
            files.extend(&asked.pairs);
            files
        }
        _ => Vec::new(),
    };
    if files.iter().filter(|&&file| file == "-").count() > 1 {
        return Err(usage("standard input can be named once only".to_string()));
    }
    Ok(())
}

fn direction(word: &OsStr) -> Result<Direction, Failure> {
    match word.to_str() {
        Some("out") => Ok(Direction::Out),
        Some("in") => Ok(Direction::In),
        _ => Err(usage(format!("{word:?} is no direction: out or in"))),
    }
}

fn address(word: &OsStr) -> Result<Ipv4Addr, Failure> {
    let address = word.to_str().and_then(|text| text.parse().ok());
    address.ok_or_else(|| usage(format!("{word:?} is no address: four decimals parted by dots")))
}

/// Five values, spelled as the library reads them in a policy file.
fn selectors(words: [&OsString; 5]) -> Result<Selectors, Failure> {
    let text = words.map(|word| word.to_string_lossy()).join("\t");
    let Ranges(ranges) = Ranges::parse(&text).map_err(|fault| usage(fault.to_string()))?;
    if let Some(place) = ranges.iter().position(|(low, high)| low != high) {
        let word = words[place];
        return Err(usage(format!("{word:?} is no single value, which explain takes")));
    }
    // Each value lies within its field.
    let [local, remote, protocol, local_port, remote_port] = ranges.map(|(value, _)| value);
    Ok(Selectors {
        local: Ipv4Addr::from(local as u32),
        remote: Ipv4Addr::from(remote as u32),
        protocol: protocol as u8,
        local_port: u16::try_from(local_port).ok(),
        remote_port: u16::try_from(remote_port).ok(),
    })
}
