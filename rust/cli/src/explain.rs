//! Which row decides.

use crate::progress::while_working;
use crate::{input, refusal, Failure};
use specksonne::{normalise, Direction, Policy, Refusal, Selectors, MOST_ROWS};
use std::ffi::OsStr;
use std::io::Write;

/// Says the action for these selectors, and the row that decides in the file and in the normal
/// form.
pub fn explain(
    direction: Direction,
    name: &OsStr,
    selectors: &Selectors,
    output: &mut impl Write,
) -> Result<(), Failure> {
    let file = input::read(name)?;
    let refused = |refusal| refusal::policy(name, &file, refusal);
    let policy = Policy::parse(&file).map_err(refused)?;
    writeln!(output, "action: {}", policy.search(direction, selectors))?;
    writeln!(output, "file: {}", deciding(&policy, &file, direction, selectors))?;
    let form = match while_working(|| normalise(&file, direction)) {
        Ok(form) => {
            let rows = Policy::parse(&form).map_err(refused)?;
            deciding(&rows, &form, direction, selectors)
        }
        // The file decides alike, whatever its normal form.
        Err(Refusal::NormalFormTooLarge(_)) => format!("over {MOST_ROWS} rows"),
        Err(refusal) => return Err(refused(refusal)),
    };
    writeln!(output, "normal form: {form}")?;
    Ok(())
}

/// The row of a policy file that matches first.
fn deciding(policy: &Policy, file: &[u8], direction: Direction, selectors: &Selectors) -> String {
    let rows = policy.rows();
    let Some(place) = policy.first_match(direction, selectors) else {
        return format!("none of {rows} rows matches");
    };
    let row = String::from_utf8_lossy(input::row(file, place + 1));
    format!("row {} of {rows}: {row}", place + 1)
}
