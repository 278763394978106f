//! The operations of the replay protocol, and how a line is read.

use reference::{Direction, ProposedPair, Range, Value, Values, FIELDS, FIELD_TOPS};

/// The most bytes a scenario may lend to a print; every normal form is far shorter.
pub const MOST_ROOM: usize = 1 << 24;

#[derive(Clone, Debug, PartialEq, Eq)]
pub enum Operation {
    Items(Vec<u64>),
    Gate { address4: u32, address6: u128 },
    Policy { file: Vec<u8> },
    Add { family: Family, pair: ProposedPair },
    Remove { protocol: u64, inbound_spi: u32 },
    Outbound { packet: Vec<u8> },
    Inbound { packet: Vec<u8> },
    FromSa { protocol: u64, inbound_spi: u32, packet: Vec<u8> },
    Normalise { direction: Direction, room: usize, file: Vec<u8> },
    Report { direction: Direction, room: usize, first: Vec<u8>, second: Vec<u8> },
    Same { direction: Direction, first: Vec<u8>, second: Vec<u8> },
    List { direction: Direction, policy: Vec<u8>, list: Vec<u8> },
    Restart { edition: u64, address4: u32, address6: u128, journal: Vec<u8> },
    EditAdd { place: u64, room: usize, row: Vec<u8> },
    EditDrop { place: u64, room: usize },
    Read { direction: Direction, family: Family, packet: Vec<u8> },
    Trigger { family: Family, packet: Vec<u8> },
    Search { direction: Direction, file: Vec<u8>, values: Values },
    ShowCache { direction: Direction },
    ShowPairs,
    ShowFragments { direction: Direction },
}

#[derive(Clone, Copy, Debug, PartialEq, Eq)]
pub enum Family {
    Ipv4,
    Ipv6,
}

impl Operation {
    /// Reads one line; none where it is no operation.
    pub fn parse(line: &str) -> Option<Operation> {
        let mut fields = Fields { rest: line.split(' ') };
        let operation = fields.operation()?;
        fields.rest.next().is_none().then_some(operation)
    }
}

/// The fields of a line that are still to be read.
struct Fields<'a> {
    rest: std::str::Split<'a, char>,
}

impl<'a> Fields<'a> {
    fn operation(&mut self) -> Option<Operation> {
        match self.word()? {
            "items" => self.numbers().map(Operation::Items),
            "gate" => Some(Operation::Gate { address4: self.number()?, address6: self.number()? }),
            "policy" => Some(Operation::Policy { file: self.bytes()? }),
            "add" => self.add(),
            "remove" => {
                Some(Operation::Remove { protocol: self.number()?, inbound_spi: self.number()? })
            }
            "out" => Some(Operation::Outbound { packet: self.bytes()? }),
            "in" => Some(Operation::Inbound { packet: self.bytes()? }),
            "from" => Some(Operation::FromSa {
                protocol: self.number()?,
                inbound_spi: self.number()?,
                packet: self.bytes()?,
            }),
            "read" => Some(Operation::Read {
                direction: self.direction()?,
                family: self.family()?,
                packet: self.bytes()?,
            }),
            "trigger" => Some(Operation::Trigger { family: self.family()?, packet: self.bytes()? }),
            "show" => self.show(),
            "edit" => self.edit(),
            name => self.operation_on_files(name),
        }
    }

    fn operation_on_files(&mut self, name: &str) -> Option<Operation> {
        match name {
            "normalise" => Some(Operation::Normalise {
                direction: self.direction()?,
                room: self.room()?,
                file: self.bytes()?,
            }),
            "report" => Some(Operation::Report {
                direction: self.direction()?,
                room: self.room()?,
                first: self.bytes()?,
                second: self.bytes()?,
            }),
            "same" => Some(Operation::Same {
                direction: self.direction()?,
                first: self.bytes()?,
                second: self.bytes()?,
            }),
            "list" => Some(Operation::List {
                direction: self.direction()?,
                policy: self.bytes()?,
                list: self.bytes()?,
            }),
            "restart" => Some(Operation::Restart {
                edition: self.number()?,
                address4: self.number()?,
                address6: self.number()?,
                journal: self.bytes()?,
            }),
            "search" => Some(Operation::Search {
                direction: self.direction()?,
                file: self.bytes()?,
                values: self.values()?,
            }),
            _ => None,
        }
    }

    fn add(&mut self) -> Option<Operation> {
        let (protocol, inbound_spi) = (self.number()?, self.number()?);
        let (outbound_spi, number) = (self.number()?, self.number()?);
        let family = self.family()?;
        let mut ranges = [Range::single(0); FIELDS];
        for range in &mut ranges {
            *range = Range::new(self.pair_value(family)?, self.pair_value(family)?);
        }
        let pair = ProposedPair { protocol, inbound_spi, outbound_spi, number, ranges };
        Some(Operation::Add { family, pair })
    }

    /// An end of a pair's range, which may be beyond its field.
    fn pair_value(&mut self, family: Family) -> Option<Value> {
        match family {
            Family::Ipv4 => self.number::<u64>().map(Value::from),
            Family::Ipv6 => self.number(),
        }
    }

    fn show(&mut self) -> Option<Operation> {
        match self.word()? {
            "cache" => Some(Operation::ShowCache { direction: self.direction()? }),
            "pairs" => Some(Operation::ShowPairs),
            "fragments" => Some(Operation::ShowFragments { direction: self.direction()? }),
            _ => None,
        }
    }

    fn edit(&mut self) -> Option<Operation> {
        match self.word()? {
            "add" => Some(Operation::EditAdd {
                place: self.number()?,
                room: self.room()?,
                row: self.bytes()?,
            }),
            "drop" => {
                let operation = Operation::EditDrop { place: self.number()?, room: self.room()? };
                (self.word()? == "-").then_some(operation)
            }
            _ => None,
        }
    }

    fn word(&mut self) -> Option<&'a str> {
        self.rest.next()
    }

    /// A decimal that fits the asked type.
    fn number<T: std::str::FromStr>(&mut self) -> Option<T> {
        parse_number(self.rest.next()?)
    }

    fn numbers(&mut self) -> Option<Vec<u64>> {
        self.rest.by_ref().map(parse_number).collect()
    }

    fn room(&mut self) -> Option<usize> {
        self.number().filter(|&room| room <= MOST_ROOM)
    }

    /// One value for each field, none beyond it.
    fn values(&mut self) -> Option<Values> {
        let mut values = [0; FIELDS];
        for (value, top) in values.iter_mut().zip(FIELD_TOPS) {
            *value = self.number().filter(|&number| number <= top)?;
        }
        Some(values)
    }

    fn direction(&mut self) -> Option<Direction> {
        match self.word()? {
            "out" => Some(Direction::Out),
            "in" => Some(Direction::In),
            _ => None,
        }
    }

    fn family(&mut self) -> Option<Family> {
        match self.word()? {
            "4" => Some(Family::Ipv4),
            "6" => Some(Family::Ipv6),
            _ => None,
        }
    }

    fn bytes(&mut self) -> Option<Vec<u8>> {
        parse_hex(self.word()?)
    }
}

fn parse_number<T: std::str::FromStr>(text: &str) -> Option<T> {
    let only_digits = text.bytes().all(|byte| byte.is_ascii_digit());
    text.parse().ok().filter(|_| only_digits)
}

/// Lowercase hexadecimal; `-` is no bytes at all.
pub fn parse_hex(text: &str) -> Option<Vec<u8>> {
    if text == "-" {
        return Some(Vec::new());
    }
    if text.is_empty() || text.len() % 2 == 1 {
        return None;
    }
    let digit = |byte: u8| match byte {
        b'0'..=b'9' => Some(byte - b'0'),
        b'a'..=b'f' => Some(byte - b'a' + 10),
        _ => None,
    };
    let pairs = text.as_bytes().chunks(2);
    pairs.map(|pair| Some(digit(pair[0])? << 4 | digit(pair[1])?)).collect()
}

/// The opposite of [`parse_hex`].
pub fn to_hex(bytes: &[u8]) -> String {
    const DIGITS: &[u8; 16] = b"0123456789abcdef";
    if bytes.is_empty() {
        return "-".to_string();
    }
    let digits = bytes.iter().flat_map(|byte| [byte >> 4, byte & 0x0f]);
    digits.map(|digit| char::from(DIGITS[usize::from(digit)])).collect()
}

#[cfg(test)]
mod tests {
    use super::*;

    #[test]
    fn lines_that_are_no_operation() {
        let bad = [
            "",
            " ",
            "gate",
            "gate 1",
            "gate 1 2 3",
            "gate 4294967296 0",
            "gate -1 0",
            "gate +1 0",
            "gate  1 0",
            "gate 1 0 ",
            " gate 1 0",
            "Gate 1 0",
            "out",
            "out 0",
            "out 0G",
            "out 0A",
            "out 00 ",
            "policy",
            "items x",
            "items  1",
            "items ",
            "remove 50 4294967296",
            "remove 50",
            "from 50 256",
            "normalise both 9 -",
            "normalise out -1 -",
            "normalise out 16777217 -",
            "same out -",
            "same both - -",
            "same out - - -",
            "read out 5 -",
            "read 4 -",
            "trigger -",
            "show",
            "show cache",
            "show pairs out",
            "show cache both",
            "search out - 1 2 256 4 5",
            "search out - 1 2 3 65537 5",
            "search out - 4294967296 2 3 4 5",
            "search out - 1 2 3 4",
            "edit drop 1 9 00",
            "edit",
            "add 50 256 256 1 4 0 0 0 0 0 0 0 0 0",
            "add 50 256 256 1 5 0 0 0 0 0 0 0 0 0 0",
            "add 50 256 256 1 4 0 18446744073709551616 0 0 0 0 0 0 0 0",
            "out 00\r",
        ];
        for line in bad {
            assert_eq!(Operation::parse(line), None, "{line:?}");
        }
    }

    #[test]
    fn lines_of_every_operation() {
        let good = [
            "items",
            "items 1 2 14",
            "gate 4294967295 340282366920938463463374607431768211455",
            "policy -",
            "policy 00ff",
            "add 50 256 256 1 4 0 18446744073709551615 0 0 0 0 0 0 0 0",
            "add 9 0 0 0 6 0 18446744073709551616 0 0 0 0 0 0 0 0",
            "remove 18446744073709551615 4294967295",
            "out -",
            "in 00",
            "from 50 256 -",
            "normalise out 0 -",
            "normalise in 16777216 00",
            "report out 5 - -",
            "same in - 00",
            "list in 00 -",
            "restart 1 2 3 -",
            "edit add 1 2 6f",
            "edit drop 0 0 -",
            "read out 4 -",
            "read in 6 00",
            "trigger 4 -",
            "search out - 4294967295 0 255 65536 65536",
            "show cache out",
            "show pairs",
            "show fragments in",
        ];
        for line in good {
            assert!(Operation::parse(line).is_some(), "{line:?}");
        }
        let read = Operation::parse("from 51 300 0aff").unwrap();
        let packet = vec![0x0a, 0xff];
        assert_eq!(read, Operation::FromSa { protocol: 51, inbound_spi: 300, packet });
    }

    #[test]
    fn hex_both_ways() {
        let bytes: Vec<u8> = (0..=255).collect();
        assert_eq!(parse_hex(&to_hex(&bytes)), Some(bytes));
        assert_eq!(to_hex(&[]), "-");
        assert_eq!(to_hex(&[0x0f, 0xa0]), "0fa0");
    }
}
