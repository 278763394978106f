//! The command line's arguments.

use bench::climb::Target;
use bench::families::Family;
use bench::table::{Column, COLUMNS};
use specksonne::MOST_ROWS;
use std::ffi::OsString;
use std::time::Duration;
use testkit::Argument;

pub const HELP: &str = "\
bench
    times of the proved library beside the second implementation, and their ratios
bench families [--rows N] [--seed N] [--family NAME [--column NAME]]
    what the library's long calls take on the families of policies, in milliseconds with the
    answer, as a table in Markdown: normalising for out; acceptance (what `specksonne check`
    costs); comparing a policy with itself, with its rows reordered where the search stays the
    same, and with one row changed, dropped or put in
    The quickest of some runs, in processor time; a call is given up after 60 s. With --column,
    that cell alone.
bench policy --family NAME [--column NAME] [--rows N] [--seed N] --to FILE
    writes the policy of a cell to FILE, and the copy that it is compared with to FILE.copy
bench climb --seconds N [--seed N] [--compare] --to FILE
    changes policies to make normalising slower, or with --compare the comparison of a policy and
    a copy that is it or nearly; writes a line for each call that is slower than all before, and
    its policy to FILE, the copy to FILE.copy
    Ends after N seconds, or where a call was given up.
bench --help
bench --version

Without --rows, as many as the library takes; without --seed, 1.

exit status: 0 done; 1 a file could not be written; 2 the arguments
";

/// The policies that are asked for.
#[derive(Clone, Copy)]
pub struct Size {
    pub rows: usize,
    pub seed: u64,
}

/// What the arguments ask for.
pub enum Task {
    Help,
    Version,
    Ratios,
    Table { only: Option<&'static Family>, size: Size },
    Cell { family: &'static Family, column: &'static Column, size: Size },
    Policy { family: &'static Family, column: &'static Column, size: Size, to: String },
    Climb { target: Target, time: Duration, seed: u64, to: String },
}

/// The arguments as they stand.
#[derive(Default)]
struct Arguments {
    help: bool,
    version: bool,
    words: Vec<OsString>,
    rows: Option<u64>,
    seed: Option<u64>,
    seconds: Option<u64>,
    family: Option<&'static Family>,
    column: Option<&'static Column>,
    compare: bool,
    to: Option<String>,
}

pub fn parse(arguments: impl Iterator<Item = OsString>) -> Result<Task, String> {
    let mut parsed = Arguments::default();
    let mut rest = testkit::Arguments::new(arguments);
    while let Some(argument) = rest.take()? {
        match argument {
            Argument::Option(name) => parsed.option(&name, || rest.value())?,
            Argument::Word(word) => parsed.words.push(word),
        }
    }
    parsed.task()
}

impl Arguments {
    /// Takes one option, and its value where it has one.
    fn option(
        &mut self,
        option: &str,
        value: impl FnOnce() -> Result<String, String>,
    ) -> Result<(), String> {
        match option {
            "--help" => self.help = true,
            "--version" => self.version = true,
            "--compare" => self.compare = true,
            "--rows" => self.rows = Some(number(&value()?)?),
            "--seed" => self.seed = Some(number(&value()?)?),
            "--seconds" => self.seconds = Some(number(&value()?)?),
            "--family" => self.family = Some(named(Family::named, &value()?)?),
            "--column" => self.column = Some(named(Column::named, &value()?)?),
            "--to" => self.to = Some(value()?),
            _ => return Err(format!("no option {option}")),
        }
        Ok(())
    }

    fn task(self) -> Result<Task, String> {
        if self.help {
            return Ok(Task::Help);
        }
        if self.version {
            return Ok(Task::Version);
        }
        let words: Vec<_> = self.words.iter().map(|word| word.to_string_lossy()).collect();
        let words: Vec<&str> = words.iter().map(AsRef::as_ref).collect();
        match words[..] {
            [] if self.is_bare() => Ok(Task::Ratios),
            ["families"] if !self.climbs() && self.to.is_none() => self.table(),
            ["policy"] if !self.climbs() => self.policy(),
            ["climb"] if self.rows.is_none() && self.family.is_none() && self.column.is_none() => {
                self.climb()
            }
            [] | ["families" | "policy" | "climb"] => {
                Err("these arguments do not go together".to_string())
            }
            [word, ..] => {
                Err(format!("{word:?} is none of families, policy and climb, or too many"))
            }
        }
    }

    fn climbs(&self) -> bool {
        self.seconds.is_some() || self.compare
    }

    fn is_bare(&self) -> bool {
        let of_a_cell = self.family.is_some() || self.column.is_some();
        let of_a_size = self.rows.is_some() || self.seed.is_some();
        !self.climbs() && !of_a_cell && !of_a_size && self.to.is_none()
    }

    fn size(&self) -> Result<Size, String> {
        let most = MOST_ROWS as u64;
        match self.rows.unwrap_or(most) {
            rows if rows == 0 || rows > most => Err(format!("from 1 to {most} rows, not {rows}")),
            rows => Ok(Size { rows: rows as usize, seed: self.seed() }),
        }
    }

    fn seed(&self) -> u64 {
        self.seed.unwrap_or(1)
    }

    fn table(self) -> Result<Task, String> {
        let size = self.size()?;
        match (self.family, self.column) {
            (only, None) => Ok(Task::Table { only, size }),
            (Some(family), Some(column)) => Ok(Task::Cell { family, column, size }),
            (None, Some(_)) => Err("--column needs --family".to_string()),
        }
    }

    fn policy(self) -> Result<Task, String> {
        let size = self.size()?;
        let family = self.family.ok_or("say --family")?;
        let column = self.column.unwrap_or(&COLUMNS[0]);
        let to = self.to.ok_or("say --to")?;
        Ok(Task::Policy { family, column, size, to })
    }

    fn climb(self) -> Result<Task, String> {
        let seed = self.seed();
        let target = if self.compare { Target::Compare } else { Target::Normalise };
        let seconds = self.seconds.ok_or("say --seconds")?;
        let to = self.to.ok_or("say --to")?;
        // More than a year would be beyond the clock.
        let time = Duration::from_secs(seconds.min(365 * 86_400));
        Ok(Task::Climb { target, time, seed, to })
    }
}

fn named<T>(find: impl Fn(&str) -> Option<T>, name: &str) -> Result<T, String> {
    find(name).ok_or(format!("nothing here is called {name:?}"))
}

fn number(text: &str) -> Result<u64, String> {
    text.parse().map_err(|_| format!("{text:?} is no number"))
}
