//! The call for one direction alone: from a policy file to its normal-form file.

use crate::{normal_form, parse_policy, print_policy, Answer, Direction, Requests, FIELD_TOPS};

/// Prints the policy's normal form for `direction` at the start of `room`, or refuses in document
/// 01's order and leaves `room` as it is.
pub fn normalise(file: &[u8], direction: Direction, room: &mut [u8], requests: Requests) -> Answer {
    let printed = match normal_form_file(file, direction, requests) {
        Ok(printed) => printed,
        Err(refusal) => return refusal,
    };
    let Some(start) = room.get_mut(..printed.len()) else {
        return Answer::RoomTooShort;
    };
    start.copy_from_slice(&printed);
    Answer::Printed { bytes: printed.len() }
}

fn normal_form_file(
    file: &[u8],
    direction: Direction,
    requests: Requests,
) -> Result<Vec<u8>, Answer> {
    let entries = parse_policy(file, requests)?.entries(direction);
    let form = normal_form(&FIELD_TOPS, &entries, requests.row_limit())
        .map_err(|_| Answer::NormalFormTooLong { direction })?;
    Ok(print_policy(direction, &form))
}
