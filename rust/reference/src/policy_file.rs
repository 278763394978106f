//! Reading and printing policy files.

use crate::{
    Action, Answer, Direction, Entry, Policy, Range, Requests, Row, Scope, Value, ABSENT_PORT,
    FIELDS, FIELD_TOPS,
};

const HEADER: &[u8] = b"policy\t1\n";

/// Reads a policy file, or refuses it in document 01's order: 23, 24, 21, 20.
pub fn parse_policy(file: &[u8], requests: Requests) -> Result<Policy, Answer> {
    let body = file.strip_prefix(HEADER).ok_or(Answer::NoHeaderLine)?;
    if file.last() != Some(&b'\n') {
        return Err(Answer::LastByteNotLf);
    }
    let lines: Vec<&[u8]> = body.split_inclusive(|&byte| byte == b'\n').collect();
    if lines.len() > requests.row_limit() {
        return Err(Answer::TooManyRows);
    }
    let parse_numbered = |(index, line): (usize, &&[u8])| {
        parse_row(&line[..line.len() - 1]).ok_or(Answer::BadRow { row: index + 1 })
    };
    let rows = lines.iter().enumerate().map(parse_numbered);
    Ok(Policy { rows: rows.collect::<Result<_, _>>()? })
}

/// Reads one row, given without its LF.
fn parse_row(line: &[u8]) -> Option<Row> {
    let fields: Vec<&[u8]> = line.split(|&byte| byte == b'\t').collect();
    let &[scope, action, local, remote, protocol, local_port, remote_port] = fields.as_slice()
    else {
        return None;
    };
    Some(Row {
        scope: parse_scope(scope)?,
        entry: Entry {
            action: parse_action(action)?,
            ranges: [
                parse_addresses(local)?,
                parse_addresses(remote)?,
                parse_protocols(protocol)?,
                parse_ports(local_port)?,
                parse_ports(remote_port)?,
            ],
        },
    })
}

fn parse_scope(text: &[u8]) -> Option<Scope> {
    match text {
        b"out" => Some(Scope::Only(Direction::Out)),
        b"in" => Some(Scope::Only(Direction::In)),
        b"both" => Some(Scope::Both),
        _ => None,
    }
}

fn parse_action(text: &[u8]) -> Option<Action> {
    match text {
        b"bypass" => Some(Action::Bypass),
        b"discard" => Some(Action::Discard),
        _ => {
            let number = parse_decimal(text.strip_prefix(b"protect-")?, 255)?;
            u8::try_from(number).ok().filter(|&number| number >= 1).map(Action::Protect)
        }
    }
}

fn parse_addresses(text: &[u8]) -> Option<Range> {
    match split_once(text, b'/') {
        Some((address, mask)) => masked(parse_address(address)?, parse_address(mask)?),
        None => parse_range(text, Range::ANY_ADDRESS, |end| parse_address(end).map(Value::from)),
    }
}

fn parse_protocols(text: &[u8]) -> Option<Range> {
    let any = Range::ANY_PROTOCOL;
    parse_range(text, any, |end| parse_decimal(end, any.high))
}

/// `opaque` may stand alone or as the high end.
fn parse_ports(text: &[u8]) -> Option<Range> {
    let parse_port = |end: &[u8]| parse_decimal(end, u16::MAX.into());
    if text == b"opaque" {
        Some(Range::OPAQUE_PORT)
    } else if let Some(low) = text.strip_suffix(b"-opaque") {
        Some(Range::new(parse_port(low)?, ABSENT_PORT))
    } else {
        parse_range(text, Range::ANY_PORT, parse_port)
    }
}

/// `any`, one value, or `low-high` with low at most high.
fn parse_range(
    text: &[u8],
    any: Range,
    parse_value: impl Fn(&[u8]) -> Option<Value>,
) -> Option<Range> {
    if text == b"any" {
        return Some(any);
    }
    let (low, high) = split_once(text, b'-').unwrap_or((text, text));
    let range = Range::new(parse_value(low)?, parse_value(high)?);
    (range.low <= range.high).then_some(range)
}

/// The addresses that agree with `address` where the mask has ones.
fn masked(address: u32, mask: u32) -> Option<Range> {
    let ones_then_zeros = mask.leading_ones() == mask.count_ones();
    let legal = ones_then_zeros && address & !mask == 0;
    legal.then(|| Range::new(address.into(), (address | !mask).into()))
}

/// Four decimals parted by dots.
fn parse_address(text: &[u8]) -> Option<u32> {
    let octets: Vec<u8> = text
        .split(|&byte| byte == b'.')
        .map(|octet| u8::try_from(parse_decimal(octet, 255)?).ok())
        .collect::<Option<_>>()?;
    Some(u32::from_be_bytes(octets.try_into().ok()?))
}

/// A decimal without leading zero, at most `top`.
fn parse_decimal(text: &[u8], top: Value) -> Option<Value> {
    const LONGEST: usize = 10;
    let leading_zero = text.len() > 1 && text[0] == b'0';
    let only_digits = text.iter().all(u8::is_ascii_digit);
    if text.is_empty() || text.len() > LONGEST || leading_zero || !only_digits {
        return None;
    }
    let number = text.iter().fold(0, |sum, &digit| 10 * sum + Value::from(digit - b'0'));
    (number <= top).then_some(number)
}

fn split_once(text: &[u8], separator: u8) -> Option<(&[u8], &[u8])> {
    let at = text.iter().position(|&byte| byte == separator)?;
    Some((&text[..at], &text[at + 1..]))
}

/// Prints the header line and the entries, each as a row for `direction`.
pub fn print_policy(direction: Direction, entries: &[Entry<FIELDS>]) -> Vec<u8> {
    let mut file = HEADER.to_vec();
    for entry in entries {
        file.extend(print_row(direction, entry).into_bytes());
        file.push(b'\n');
    }
    file
}

/// Prints one row, without its LF.
pub fn print_row(direction: Direction, entry: &Entry<FIELDS>) -> String {
    let mut fields = vec![direction.word().to_string(), print_action(entry.action)];
    for (field, range) in entry.ranges.iter().enumerate() {
        fields.push(print_range(field, *range));
    }
    fields.join("\t")
}

pub fn print_action(action: Action) -> String {
    match action {
        Action::Bypass => "bypass".to_string(),
        Action::Discard => "discard".to_string(),
        Action::Protect(number) => format!("protect-{number}"),
    }
}

fn print_range(field: usize, range: Range) -> String {
    if range.is_full(FIELD_TOPS[field]) {
        "any".to_string()
    } else if range.low == range.high {
        print_value(field, range.low)
    } else {
        let (low, high) = (print_value(field, range.low), print_value(field, range.high));
        format!("{low}-{high}")
    }
}

fn print_value(field: usize, value: Value) -> String {
    match field {
        0 | 1 => {
            let octet = |shift: u32| value >> shift & 0xff;
            format!("{}.{}.{}.{}", octet(24), octet(16), octet(8), octet(0))
        }
        3 | 4 if value == ABSENT_PORT => "opaque".to_string(),
        _ => value.to_string(),
    }
}
