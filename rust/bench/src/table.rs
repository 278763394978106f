//! The table of the families: what each of the library's long calls takes on them.

use crate::calls::{shown, Call};
use crate::families::{Family, FAMILIES};
use crate::rows::Row;
use crate::variants::{changed, dropped, put_in, reordered};
use std::env;
use std::io::{self, Write};
use std::process::Command;
use testkit::Prng;

pub struct Column {
    pub name: &'static str,
    call: fn(&mut Prng, &[Row]) -> Call,
}

pub static COLUMNS: [Column; 7] = [
    Column { name: "normalising", call: |_, rows| Call::normalise(rows) },
    Column { name: "acceptance", call: |_, rows| Call::accept(rows) },
    Column { name: "same", call: |_, rows| Call::compare(rows, rows) },
    Column { name: "reordered", call: |prng, rows| Call::compare(rows, &reordered(prng, rows)) },
    Column { name: "changed", call: |prng, rows| Call::compare(rows, &changed(prng, rows)) },
    Column { name: "dropped", call: |prng, rows| Call::compare(rows, &dropped(prng, rows)) },
    Column {
        name: "put-in",
        call: |prng, rows| {
            let [before, after] = put_in(prng, rows);
            Call::compare(&before, &after)
        },
    },
];

impl Column {
    pub fn named(name: &str) -> Option<&'static Column> {
        COLUMNS.iter().find(|column| column.name == name)
    }

    /// The call that is timed on a family.
    pub fn call(&self, family: &Family, rows: usize, seed: u64) -> Call {
        (self.call)(&mut Prng::new(seed), &family.policy(rows, seed))
    }
}

/// One cell of the table, measured in this process.
pub fn cell(family: &Family, column: &Column, rows: usize, seed: u64) -> String {
    shown(&column.call(family, rows, seed).measured())
}

/// Writes the table of some families in Markdown, a line when it is done.
pub fn write(only: Option<&Family>, rows: usize, seed: u64) -> io::Result<()> {
    let names = COLUMNS.iter().map(|column| column.name);
    line(["family"].into_iter().chain(names).map(String::from))?;
    line(["---".to_string()].into_iter().chain(COLUMNS.iter().map(|_| "---:".to_string())))?;
    for family in FAMILIES.iter().filter(|family| only.is_none_or(|one| one.name == family.name)) {
        let cells = COLUMNS.iter().map(|column| cell_apart(family, column, rows, seed));
        let cells = cells.collect::<io::Result<Vec<String>>>()?;
        line([family.name.to_string()].into_iter().chain(cells))?;
    }
    Ok(())
}

fn line(cells: impl Iterator<Item = String>) -> io::Result<()> {
    let mut out = io::stdout();
    writeln!(out, "| {} |", cells.collect::<Vec<_>>().join(" | "))?;
    out.flush()
}

/// One cell, measured in a process of its own, which ends a call that is given up.
fn cell_apart(family: &Family, column: &Column, rows: usize, seed: u64) -> io::Result<String> {
    let (rows, seed) = (rows.to_string(), seed.to_string());
    let options = ["--family", family.name, "--column", column.name, "--rows", &rows];
    let mut bench = Command::new(env::current_exe()?);
    let output = bench.arg("families").args(options).args(["--seed", &seed]).output()?;
    if !output.status.success() {
        let said = String::from_utf8_lossy(&output.stderr).into_owned();
        return Err(io::Error::other(said));
    }
    Ok(String::from_utf8_lossy(&output.stdout).trim().to_string())
}
