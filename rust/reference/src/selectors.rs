//! The five selectors, the ranges that test them, and the direction of a packet.

/// A value of any selector field. Wide enough for every field, for the addresses of request 9,
/// and for numbers beyond their field, which an added pair may name.
pub type Value = u128;

/// Local address, remote address, protocol, local port, remote port: document 01's file order.
pub const FIELDS: usize = 5;

/// An absent port, one step after the last number. It is not a number: only ranges that reach
/// past 65,535 hold it.
pub const ABSENT_PORT: Value = 65_536;

/// The highest value of each field.
pub const FIELD_TOPS: [Value; FIELDS] = [
    Range::ANY_ADDRESS.high,
    Range::ANY_ADDRESS.high,
    Range::ANY_PROTOCOL.high,
    Range::ANY_PORT.high,
    Range::ANY_PORT.high,
];

/// One value for each field (document 01: a combination).
pub type Values = [Value; FIELDS];

/// One range for each field.
pub type Ranges = [Range; FIELDS];

/// Document 01's way.
#[derive(Clone, Copy, Debug, PartialEq, Eq, Hash)]
pub enum Direction {
    Out,
    In,
}

impl Direction {
    /// The word for it in policy files.
    pub fn word(self) -> &'static str {
        match self {
            Direction::Out => "out",
            Direction::In => "in",
        }
    }
}

/// The values from `low` to `high`, both included.
#[derive(Clone, Copy, Debug, PartialEq, Eq, Hash)]
pub struct Range {
    pub low: Value,
    pub high: Value,
}

impl Range {
    pub const ANY_ADDRESS: Range = Range::new(0, u32::MAX as Value);
    pub const ANY_PROTOCOL: Range = Range::new(0, u8::MAX as Value);
    /// Every port, and absent too.
    pub const ANY_PORT: Range = Range::new(0, ABSENT_PORT);
    /// Only absent (RFC 4301, 4.4.1.1).
    pub const OPAQUE_PORT: Range = Range::single(ABSENT_PORT);

    pub const fn new(low: Value, high: Value) -> Range {
        Range { low, high }
    }

    pub const fn single(value: Value) -> Range {
        Range::new(value, value)
    }

    pub const fn holds(self, value: Value) -> bool {
        self.low <= value && value <= self.high
    }

    /// Whether this range holds every value of a field that ends at `top`.
    pub const fn is_full(self, top: Value) -> bool {
        self.low == 0 && self.high == top
    }
}

/// What the gateway sees in one packet, for one direction.
#[derive(Clone, Copy, Debug, PartialEq, Eq)]
pub struct Selectors {
    pub local: u32,
    pub remote: u32,
    pub protocol: u8,
    pub local_port: Option<u16>,
    pub remote_port: Option<u16>,
}

impl Selectors {
    /// The five as values that ranges can be asked about.
    pub fn values(&self) -> Values {
        [
            self.local.into(),
            self.remote.into(),
            self.protocol.into(),
            absent_or(self.local_port),
            absent_or(self.remote_port),
        ]
    }
}

/// The place of a port among the values of its field.
pub fn absent_or(port: Option<u16>) -> Value {
    port.map_or(ABSENT_PORT, Value::from)
}
