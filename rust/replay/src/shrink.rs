//! The shortest form of a scenario that shows a difference: fewer operations, then fewer rows in
//! their policy files.

use crate::operation::{parse_hex, to_hex};

/// How often a scenario is run at most while it is made shorter.
const MOST_RUNS: usize = 3_000;

/// Makes a scenario shorter as long as it still fails. Comments and expected answers go first.
pub fn shortest(scenario: &str, fails: impl Fn(&str) -> bool) -> String {
    let is_operation = |line: &&str| !line.is_empty() && !line.starts_with(['#', '=']);
    let mut lines: Vec<String> =
        scenario.lines().filter(is_operation).map(str::to_string).collect();
    let mut runs = 0;
    let mut still_fails = |lines: &[String]| {
        runs += 1;
        runs <= MOST_RUNS && fails(&text(lines))
    };
    lines = fewer(lines, &mut still_fails);
    for at in 0..lines.len() {
        shorten_files(&mut lines, at, &mut still_fails);
    }
    text(&lines)
}

fn text(lines: &[String]) -> String {
    lines.iter().map(|line| format!("{line}\n")).collect()
}

/// Leaves out items, many at once at first and one by one at last.
fn fewer<T: Clone>(mut items: Vec<T>, still_fails: &mut impl FnMut(&[T]) -> bool) -> Vec<T> {
    let mut size = items.len();
    while size > 0 {
        let mut at = 0;
        while at < items.len() {
            let end = items.len().min(at + size);
            let rest = [&items[..at], &items[end..]].concat();
            if still_fails(&rest) {
                items = rest;
            } else {
                at = end;
            }
        }
        size /= 2;
    }
    items
}

/// Leaves out rows of the policy files that a line has.
fn shorten_files(lines: &mut [String], at: usize, still_fails: &mut impl FnMut(&[String]) -> bool) {
    let fields: Vec<String> = lines[at].split(' ').map(str::to_string).collect();
    for place in 1..fields.len() {
        let Some(file) = parse_hex(&fields[place]) else { continue };
        let rows: Vec<&[u8]> = file.split_inclusive(|&byte| byte == b'\n').collect();
        if rows.len() < 2 {
            continue;
        }
        let before = lines[at].clone();
        let with = |rows: &[&[u8]]| {
            let mut fields: Vec<String> = before.split(' ').map(str::to_string).collect();
            fields[place] = to_hex(&rows.concat());
            fields.join(" ")
        };
        let mut trial = lines.to_vec();
        let kept = fewer(rows, &mut |rows: &[&[u8]]| {
            trial[at] = with(rows);
            still_fails(&trial)
        });
        lines[at] = with(&kept);
    }
}

#[cfg(test)]
mod tests {
    use super::*;

    #[test]
    fn what_does_not_matter_is_left_out() {
        let file = to_hex(b"policy\t1\none\ntwo\nthree\n");
        let scenario = format!("# a comment\ngate 1 2\n= ok\npolicy {file}\nout 45\nin 46\n");
        let wanted = format!("policy {}\nin 46\n", to_hex(b"two\n"));
        let fails = |text: &str| {
            let two = to_hex(b"two\n");
            let policy = text.lines().any(|line| line.starts_with("policy") && line.contains(&two));
            policy && text.ends_with("in 46\n")
        };
        assert_eq!(shortest(&scenario, fails), wanted);
    }

    #[test]
    fn a_scenario_that_needs_every_line_stays() {
        let scenario = "gate 1 2\nout 45\nin 46\n";
        assert_eq!(shortest(scenario, |text| text == scenario), scenario);
    }
}
