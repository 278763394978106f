//! Whether two policy files treat every packet of one direction alike.

use crate::{parse_policy, same_search, Answer, Direction, Requests, FIELD_TOPS};

/// The file that was refused when two were compared, and why: 23, 24, 21 or 20.
#[derive(Clone, Copy, Debug, PartialEq, Eq)]
pub enum RefusedFile {
    First(Answer),
    Second(Answer),
}

/// Whether the ordered search of either file gives every combination the same action, however
/// many rows their normal forms have.
pub fn same(
    first: &[u8],
    second: &[u8],
    direction: Direction,
    requests: Requests,
) -> Result<bool, RefusedFile> {
    let first = parse_policy(first, requests).map_err(RefusedFile::First)?;
    let second = parse_policy(second, requests).map_err(RefusedFile::Second)?;
    Ok(same_search(&FIELD_TOPS, &first.entries(direction), &second.entries(direction)))
}
