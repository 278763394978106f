//! The command line's arguments.

use replay::engine::EngineName;
use replay::generate::{Kind, Recipe, DEFAULT_OPERATIONS, DEFAULT_SEED};
use replay::run::Mode;
use std::ffi::OsString;
use testkit::Argument;

pub const HELP: &str = "\
replay --engine core|reference [--coverage] [FILE ...]
    runs scenarios and writes a line for each operation; without FILE, reads standard input
replay --compare [--coverage] [FILE ...]
    runs both engines and stops at the first line where they differ, with the shortest form of the
    scenario that shows a difference
replay --generate KIND [--seed N] [--ops N] [--items N,N,...]
    writes a scenario of N operations; the same arguments always give the same one
    KIND is policies, defects, bytes, packets, pairs, mixed, or all
    --items names the requests of document 02 that the scenario expects
replay --help
replay --version

--coverage writes a line to standard error at the end: how often each answer was given, and each
outcome of comparing two policies. Every FILE is a scenario of its own and starts afresh; - is
standard input. An option's value may also be written --option=value.

exit status: 0 all done; 1 a line was no operation; 2 could not run (the arguments, or a file); 3
the engines differ
";

/// What the arguments ask for.
pub enum Task {
    Help,
    Version,
    Run { mode: Mode, coverage: bool, files: Vec<OsString> },
    Generate(Recipe),
}

/// The arguments as they stand.
#[derive(Default)]
struct Arguments {
    help: bool,
    version: bool,
    mode: Option<Mode>,
    coverage: bool,
    files: Vec<OsString>,
    kind: Option<Kind>,
    seed: Option<u64>,
    operations: Option<u64>,
    items: Option<Vec<u64>>,
}

pub fn parse(arguments: impl Iterator<Item = OsString>) -> Result<Task, String> {
    let mut parsed = Arguments::default();
    let mut rest = testkit::Arguments::new(arguments);
    while let Some(argument) = rest.take()? {
        match argument {
            Argument::Option(name) => parsed.option(&name, || rest.value())?,
            Argument::Word(file) => parsed.files.push(file),
        }
    }
    parsed.task()
}

impl Arguments {
    /// Takes one option, and its value where it has one.
    fn option(
        &mut self,
        option: &str,
        value: impl FnOnce() -> Result<String, String>,
    ) -> Result<(), String> {
        match option {
            "--help" => self.help = true,
            "--version" => self.version = true,
            "--coverage" => self.coverage = true,
            "--compare" => set_once(&mut self.mode, Mode::Compare, option)?,
            "--engine" => {
                let engine = named(EngineName::parse, &value()?)?;
                set_once(&mut self.mode, Mode::Single(engine), option)?;
            }
            "--generate" => set_once(&mut self.kind, named(Kind::parse, &value()?)?, option)?,
            "--seed" => set_once(&mut self.seed, number(&value()?)?, option)?,
            "--ops" => set_once(&mut self.operations, number(&value()?)?, option)?,
            "--items" => {
                let numbers = value()?.split(',').map(number).collect::<Result<_, _>>()?;
                set_once(&mut self.items, numbers, option)?;
            }
            _ => return Err(format!("no option {option}")),
        }
        Ok(())
    }

    fn task(self) -> Result<Task, String> {
        let generates = self.seed.is_some() || self.operations.is_some() || self.items.is_some();
        let runs = self.coverage || !self.files.is_empty();
        match (self.mode, self.kind) {
            _ if self.help => Ok(Task::Help),
            _ if self.version => Ok(Task::Version),
            (Some(mode), None) if !generates => {
                Ok(Task::Run { mode, coverage: self.coverage, files: self.files })
            }
            (None, Some(kind)) if !runs => Ok(Task::Generate(Recipe {
                kind,
                seed: self.seed.unwrap_or(DEFAULT_SEED),
                operations: self.operations.map_or(DEFAULT_OPERATIONS, |count| count as usize),
                items: self.items.unwrap_or_default(),
            })),
            (None, None) => Err("say --engine, --compare or --generate".to_string()),
            _ => Err("these arguments do not go together".to_string()),
        }
    }
}

fn named<T>(parse: impl Fn(&str) -> Option<T>, name: &str) -> Result<T, String> {
    parse(name).ok_or(format!("nothing here is called {name:?}"))
}

fn number(text: &str) -> Result<u64, String> {
    text.parse().map_err(|_| format!("{text:?} is no number"))
}

fn set_once<T>(place: &mut Option<T>, value: T, option: &str) -> Result<(), String> {
    match place.replace(value) {
        None => Ok(()),
        Some(_) => Err(format!("{option} is one too many")),
    }
}
