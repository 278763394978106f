//! A second look at a row that the library refused: which field is at fault, and why.
//!
//! The library alone decides whether a row is good. This finds words for its refusal, and is asked
//! only after one.

use std::fmt;
use std::net::Ipv4Addr;

/// A field of a policy row.
#[derive(Clone, Copy, Debug, PartialEq, Eq, Hash)]
pub enum Field {
    /// `out`, `in` or `both`.
    Direction,
    /// `bypass`, `discard` or `protect-N`.
    Action,
    /// The local address.
    Local,
    /// The remote address.
    Remote,
    /// The protocol's number.
    Protocol,
    /// The local port, or type and code of ICMP.
    LocalPort,
    /// The remote port.
    RemotePort,
}

impl Field {
    /// The fields in the order of a row; the five ranges begin at the third.
    const ROW: [Field; 7] = [
        Field::Direction,
        Field::Action,
        Field::Local,
        Field::Remote,
        Field::Protocol,
        Field::LocalPort,
        Field::RemotePort,
    ];
    const RANGES: &'static [Field] = Field::ROW.split_at(2).1;

    /// Reads the field's text.
    fn check(self, text: &[u8]) -> Result<(), Reason> {
        let text = spelled(text)?;
        match self {
            Field::Direction => direction(text),
            Field::Action => action(text),
            _ if text == "any" => Ok(()),
            Field::Local | Field::Remote => addresses(text),
            Field::Protocol => range(text, |end| number(not_opaque(end)?, MOST_PROTOCOL)),
            Field::LocalPort | Field::RemotePort => ports(text),
        }
    }
}

impl fmt::Display for Field {
    fn fmt(&self, f: &mut fmt::Formatter) -> fmt::Result {
        f.write_str(match self {
            Field::Direction => "direction",
            Field::Action => "action",
            Field::Local => "local address",
            Field::Remote => "remote address",
            Field::Protocol => "protocol",
            Field::LocalPort => "local port",
            Field::RemotePort => "remote port",
        })
    }
}

/// Why a row of a policy file, or the five ranges of an SA pair, are refused.
///
/// ```
/// use specksonne::{Field, Ranges, Reason};
///
/// let fault = Ranges::parse("10.0.0.0/24\tany\t6\tany\tany").unwrap_err();
/// assert_eq!(fault.field, Some(Field::Local));
/// assert_eq!(fault.reason, Reason::PrefixLength("24".to_string()));
/// assert_eq!(
///     fault.to_string(),
///     "local address '10.0.0.0/24': the mask is four decimals, not a length: 255.255.255.0"
/// );
/// ```
#[derive(Clone, Debug, PartialEq, Eq)]
pub struct RowFault {
    /// The field at fault; none where the row as a whole is.
    pub field: Option<Field>,
    /// The text of the field, or of the row, at most 60 bytes of it, bytes beyond ASCII escaped.
    pub text: String,
    /// What is wrong with it.
    pub reason: Reason,
}

/// What is wrong with a row or a field. A text that a reason has is the part that is wrong.
#[derive(Clone, Debug, PartialEq, Eq)]
pub enum Reason {
    /// There is a line feed in the row.
    LineFeed,
    /// The row ends in CR: lines end in LF alone.
    CarriageReturn,
    /// There are fewer or more fields than there should be.
    Fields {
        /// How many there should be.
        expected: usize,
        /// How many there are.
        found: usize,
        /// Whether the row has spaces, which part no fields.
        spaces: bool,
    },
    /// The field is empty.
    Empty,
    /// A byte is no ASCII.
    NotAscii,
    /// There is a space.
    Space,
    /// There is an upper-case letter.
    UpperCase,
    /// A character stands in no field.
    Character(char),
    /// It is no direction.
    NotDirection,
    /// It is no action.
    NotAction,
    /// The N of protect-N is 0.
    ProtectZero,
    /// It is no decimal number.
    NotNumber(String),
    /// A decimal has a leading zero.
    LeadingZero(String),
    /// A number is above the most of its field.
    Beyond {
        /// The number, as it is written.
        number: String,
        /// The most that it may be.
        most: u32,
    },
    /// It is no address.
    NotAddress(String),
    /// The mask is written as the length of a prefix.
    PrefixLength(String),
    /// The mask is not ones followed by zeros.
    MaskWithGap(Ipv4Addr),
    /// The address has a one where the mask has zero; this is the address without it.
    OutsideMask(Ipv4Addr),
    /// An address with its mask is an end of a range.
    MaskInRange,
    /// `any` is an end of a range.
    AnyInRange,
    /// `opaque` stands for something that is no port.
    OpaqueNotPort,
    /// `opaque` is the low end of a range.
    OpaqueLow,
    /// The low end of a range is above its high end.
    LowAboveHigh,
    /// The library refused it, and this second look finds nothing.
    NotFound,
}

impl fmt::Display for RowFault {
    fn fmt(&self, f: &mut fmt::Formatter) -> fmt::Result {
        match self.field {
            Some(field) => write!(f, "{field} '{}': {}", self.text, self.reason),
            None => write!(f, "{}", self.reason),
        }
    }
}

impl std::error::Error for RowFault {}

impl fmt::Display for Reason {
    fn fmt(&self, f: &mut fmt::Formatter) -> fmt::Result {
        match self {
            Reason::LineFeed => write!(f, "a line feed in the row"),
            Reason::CarriageReturn => write!(f, "CR at the end: lines end in LF alone"),
            Reason::Fields { expected, found, spaces } => {
                write!(f, "{expected} fields parted by one tab expected, {found} found")?;
                let hint = if *spaces { " (spaces part no fields)" } else { "" };
                f.write_str(hint)
            }
            Reason::Empty => write!(f, "empty"),
            Reason::NotAscii => write!(f, "a byte that is no ASCII"),
            Reason::Space => write!(f, "a space"),
            Reason::UpperCase => write!(f, "an upper-case letter"),
            Reason::Character(character) => write!(f, "no field has {character:?}"),
            Reason::NotDirection => write!(f, "none of out, in, both"),
            Reason::NotAction => write!(f, "none of bypass, discard, protect-N"),
            Reason::ProtectZero => write!(f, "N of protect-N is 1 to 255"),
            _ => self.write_range(f),
        }
    }
}

impl Reason {
    /// Writes what can be wrong with numbers and ranges.
    fn write_range(&self, f: &mut fmt::Formatter) -> fmt::Result {
        match self {
            Reason::NotNumber(text) => write!(f, "'{text}' is no decimal number"),
            Reason::LeadingZero(text) => write!(f, "{text} has a leading zero"),
            Reason::Beyond { number, most } => write!(f, "{number} is above {most}"),
            Reason::NotAddress(text) => {
                write!(f, "'{text}' is no address: four decimals parted by dots")
            }
            Reason::PrefixLength(length) => {
                write!(f, "the mask is four decimals, not a length")?;
                mask_of_length(length).map_or(Ok(()), |mask| write!(f, ": {mask}"))
            }
            Reason::MaskWithGap(mask) => write!(f, "the mask {mask} is not ones followed by zeros"),
            Reason::OutsideMask(network) => {
                write!(f, "the address has a one where the mask has zero: {network} has none")
            }
            Reason::MaskInRange => write!(f, "address/mask is a range by itself, no end of one"),
            Reason::AnyInRange => write!(f, "any is a range by itself, no end of one"),
            Reason::OpaqueNotPort => write!(f, "only a port may be opaque"),
            Reason::OpaqueLow => write!(f, "opaque may not be the low end of a range"),
            Reason::LowAboveHigh => write!(f, "the low end is above the high end"),
            _ => write!(f, "refused, for no reason that was found"),
        }
    }
}

const MOST_PROTECT_NUMBER: u32 = 255;
const MOST_PROTOCOL: u32 = 255;
const MOST_PORT: u32 = 65_535;

/// Why the library refuses a row, given without its LF; none where it takes it.
///
/// ```
/// use specksonne::row_fault;
///
/// assert_eq!(row_fault(b"out\tbypass\tany\tany\t17\t500\t500"), None);
/// let fault = row_fault(b"out\tbypass\tany\tany\t17\t500-400\t500").unwrap();
/// assert_eq!(fault.to_string(), "local port '500-400': the low end is above the high end");
/// ```
pub fn row_fault(row: &[u8]) -> Option<RowFault> {
    fault(row, &Field::ROW)
}

/// The same for the five ranges of a row alone, parted by tabs.
pub fn ranges_fault(ranges: &[u8]) -> Option<RowFault> {
    fault(ranges, Field::RANGES)
}

fn fault(text: &[u8], fields: &[Field]) -> Option<RowFault> {
    if let Err(reason) = check_line(text, fields.len()) {
        return Some(RowFault { field: None, text: shown(text), reason });
    }
    let mut parts = fields.iter().zip(text.split(|&byte| byte == b'\t'));
    parts.find_map(|(&field, text)| {
        let reason = field.check(text).err()?;
        Some(RowFault { field: Some(field), text: shown(text), reason })
    })
}

/// The fault of five ranges that the library refused.
pub(crate) fn refused_ranges(text: &[u8]) -> RowFault {
    let unknown = || RowFault { field: None, text: shown(text), reason: Reason::NotFound };
    ranges_fault(text).unwrap_or_else(unknown)
}

/// The beginning of a text, as ASCII.
fn shown(text: &[u8]) -> String {
    const MOST: usize = 60;
    let more = if text.len() > MOST { "..." } else { "" };
    format!("{}{more}", text[..text.len().min(MOST)].escape_ascii())
}

fn check_line(text: &[u8], expected: usize) -> Result<(), Reason> {
    if text.contains(&b'\n') {
        return Err(Reason::LineFeed);
    }
    if text.ends_with(b"\r") {
        return Err(Reason::CarriageReturn);
    }
    let found = text.split(|&byte| byte == b'\t').count();
    if found != expected {
        return Err(Reason::Fields { expected, found, spaces: text.contains(&b' ') });
    }
    Ok(())
}

/// The text of a field, where it has only characters that some field may have.
fn spelled(text: &[u8]) -> Result<&str, Reason> {
    let Some(text) = std::str::from_utf8(text).ok().filter(|text| text.is_ascii()) else {
        return Err(Reason::NotAscii);
    };
    if text.is_empty() {
        return Err(Reason::Empty);
    }
    let allowed = |c: &char| matches!(c, 'a'..='z' | '0'..='9' | '.' | '-' | '/');
    match text.chars().find(|c| !allowed(c)) {
        None => Ok(text),
        Some(' ') => Err(Reason::Space),
        Some('A'..='Z') => Err(Reason::UpperCase),
        Some(other) => Err(Reason::Character(other)),
    }
}

fn direction(text: &str) -> Result<(), Reason> {
    match text {
        "out" | "in" | "both" => Ok(()),
        _ => Err(Reason::NotDirection),
    }
}

fn action(text: &str) -> Result<(), Reason> {
    if matches!(text, "bypass" | "discard") {
        return Ok(());
    }
    let written = text.strip_prefix("protect-").ok_or(Reason::NotAction)?;
    match number(written, MOST_PROTECT_NUMBER)? {
        0 => Err(Reason::ProtectZero),
        _ => Ok(()),
    }
}

/// A decimal of at most `most`, as strict as in a policy file: digits without a leading zero.
pub fn number(text: &str, most: u32) -> Result<u32, Reason> {
    let own = shown(text.as_bytes());
    if text.is_empty() || !text.bytes().all(|byte| byte.is_ascii_digit()) {
        return Err(Reason::NotNumber(own));
    }
    if text.len() > 1 && text.starts_with('0') {
        return Err(Reason::LeadingZero(own));
    }
    // Digits that make no number of 32 bits make one that is above every field.
    let number = text.parse().ok().filter(|&number| number <= most);
    number.ok_or(Reason::Beyond { number: own, most })
}

/// One value, or a low and a high end, each read by `end`.
fn range(text: &str, end: impl Fn(&str) -> Result<u32, Reason>) -> Result<(), Reason> {
    let Some((low, high)) = text.split_once('-') else {
        return end(text).map(|_| ());
    };
    if low == "any" || high == "any" {
        return Err(Reason::AnyInRange);
    }
    if end(low)? > end(high)? {
        return Err(Reason::LowAboveHigh);
    }
    Ok(())
}

fn not_opaque(text: &str) -> Result<&str, Reason> {
    match text {
        "opaque" => Err(Reason::OpaqueNotPort),
        _ => Ok(text),
    }
}

fn ports(text: &str) -> Result<(), Reason> {
    if text.starts_with("opaque-") {
        return Err(Reason::OpaqueLow);
    }
    range(text, |end| match end {
        "opaque" => Ok(MOST_PORT + 1),
        _ => number(end, MOST_PORT),
    })
}

fn addresses(text: &str) -> Result<(), Reason> {
    match text.split_once('/') {
        Some((address, mask)) => masked(address, mask),
        None => range(text, address_number),
    }
}

fn masked(address: &str, mask: &str) -> Result<(), Reason> {
    if address.contains('-') || mask.contains('-') {
        return Err(Reason::MaskInRange);
    }
    let address = address_number(address)?;
    if !mask.is_empty() && mask.bytes().all(|byte| byte.is_ascii_digit()) {
        return Err(Reason::PrefixLength(shown(mask.as_bytes())));
    }
    let mask = address_number(mask)?;
    if mask.leading_ones() != mask.count_ones() {
        return Err(Reason::MaskWithGap(mask.into()));
    }
    if address & !mask != 0 {
        return Err(Reason::OutsideMask((address & mask).into()));
    }
    Ok(())
}

fn address_number(text: &str) -> Result<u32, Reason> {
    let octets: Vec<&str> = not_opaque(text)?.split('.').collect();
    if octets.len() != 4 || octets.contains(&"") {
        return Err(Reason::NotAddress(shown(text.as_bytes())));
    }
    octets.iter().try_fold(0, |address, octet| Ok(address << 8 | number(octet, 255)?))
}

/// The mask of a prefix of that length, where there is one.
fn mask_of_length(length: &str) -> Option<Ipv4Addr> {
    let length: u32 = length.parse().ok().filter(|&length| length <= 32)?;
    Some(u32::MAX.checked_shl(32 - length).unwrap_or(0).into())
}
