//! Document 01's answers, by number and with what they carry.

use crate::Direction;
use std::fmt;

/// What the gateway says of a packet.
///
/// ```
/// use specksonne::{Verdict, ESP};
///
/// let verdict = Verdict::Protect { number: 7, protocol: ESP, outbound_spi: 300 };
/// assert_eq!((verdict.number(), verdict.goes_on()), (2, true));
/// assert_eq!(verdict.to_string(), "protect-7 by ESP SPI 300");
/// assert!(!Verdict::Discarded.goes_on());
/// ```
#[must_use = "the packet goes where the verdict says"]
#[derive(Clone, Copy, Debug, PartialEq, Eq)]
pub enum Verdict {
    /// 0: it passes in clear.
    Pass,
    /// 1: it is delivered.
    Deliver,
    /// 2: it is protected.
    Protect {
        /// The N of the protect-N row.
        number: u64,
        /// The protocol of the pair to use: 50 for ESP, 51 for AH.
        protocol: u64,
        /// The outbound SPI of the pair to use.
        outbound_spi: u32,
    },
    /// 3: an association is wanted; no pair that serves the row holds the packet.
    Wanted {
        /// The N of the protect-N row.
        number: u64,
    },
    /// 4: it goes to AH or ESP.
    ToIpsec {
        /// The protocol of its pair: 50 for ESP, 51 for AH.
        protocol: u64,
        /// The inbound SPI of its pair.
        inbound_spi: u32,
    },
    /// 10: it is not readable.
    NotReadable,
    /// 11: the policy discards it.
    Discarded,
    /// 12: it came in clear, and the policy says protect.
    CameInClear,
    /// 13: there is no such pair.
    NoSuchPair,
    /// 14: it does not fit the pair.
    DoesNotFit,
    /// 15: it is a fragment of AH or ESP.
    IpsecFragment,
    /// 16: it is too short for AH or ESP.
    IpsecTooShort,
    /// 17: the header that an ICMP error returns is not readable.
    TriggerUnreadable,
    /// 18: the header that an ICMP error returns does not fit the pair.
    TriggerDoesNotFit,
}

impl Verdict {
    pub(crate) fn from_words(number: u64, carries: [u64; 3]) -> Verdict {
        let [first, second, third] = carries;
        match number {
            0 => Verdict::Pass,
            1 => Verdict::Deliver,
            2 => Verdict::Protect { number: first, protocol: second, outbound_spi: spi(third) },
            3 => Verdict::Wanted { number: first },
            4 => Verdict::ToIpsec { protocol: first, inbound_spi: spi(second) },
            10 => Verdict::NotReadable,
            11 => Verdict::Discarded,
            12 => Verdict::CameInClear,
            13 => Verdict::NoSuchPair,
            14 => Verdict::DoesNotFit,
            15 => Verdict::IpsecFragment,
            16 => Verdict::IpsecTooShort,
            17 => Verdict::TriggerUnreadable,
            18 => Verdict::TriggerDoesNotFit,
            _ => not_in_the_table(number),
        }
    }

    /// The paper's number.
    pub fn number(self) -> u8 {
        match self {
            Verdict::Pass => 0,
            Verdict::Deliver => 1,
            Verdict::Protect { .. } => 2,
            Verdict::Wanted { .. } => 3,
            Verdict::ToIpsec { .. } => 4,
            Verdict::NotReadable => 10,
            Verdict::Discarded => 11,
            Verdict::CameInClear => 12,
            Verdict::NoSuchPair => 13,
            Verdict::DoesNotFit => 14,
            Verdict::IpsecFragment => 15,
            Verdict::IpsecTooShort => 16,
            Verdict::TriggerUnreadable => 17,
            Verdict::TriggerDoesNotFit => 18,
        }
    }

    /// Whether the packet goes on: in clear, protected, delivered, or to AH/ESP.
    pub fn goes_on(self) -> bool {
        matches!(self.number(), 0 | 1 | 2 | 4)
    }
}

impl fmt::Display for Verdict {
    fn fmt(&self, f: &mut fmt::Formatter) -> fmt::Result {
        match self {
            Verdict::Pass => write!(f, "pass in clear"),
            Verdict::Deliver => write!(f, "deliver"),
            Verdict::Protect { number, protocol, outbound_spi } => {
                write!(f, "protect-{number} by {} SPI {outbound_spi}", ipsec_name(*protocol))
            }
            Verdict::Wanted { number } => write!(f, "association wanted for protect-{number}"),
            Verdict::ToIpsec { protocol, inbound_spi } => {
                write!(f, "to {} SPI {inbound_spi}", ipsec_name(*protocol))
            }
            Verdict::NotReadable => write!(f, "not readable"),
            Verdict::Discarded => write!(f, "policy discards"),
            Verdict::CameInClear => write!(f, "came in clear, policy says protect"),
            Verdict::NoSuchPair => write!(f, "no such pair"),
            Verdict::DoesNotFit => write!(f, "does not fit the pair"),
            Verdict::IpsecFragment => write!(f, "AH/ESP fragment"),
            Verdict::IpsecTooShort => write!(f, "AH/ESP too short"),
            Verdict::TriggerUnreadable => write!(f, "returned header unreadable"),
            Verdict::TriggerDoesNotFit => write!(f, "returned header does not fit"),
        }
    }
}

/// An SPI that an answer carries: the contracts give one of a pair, which was added as 32 bits.
fn spi(word: u64) -> u32 {
    word as u32
}

fn ipsec_name(protocol: u64) -> &'static str {
    if protocol == 50 {
        "ESP"
    } else {
        "AH"
    }
}

/// Why a policy, a pair or a print was refused.
///
/// ```
/// use specksonne::{Gateway, Refusal};
///
/// fn gateway(file: &[u8]) -> Result<Gateway, Box<dyn std::error::Error>> {
///     let mut gateway = Gateway::new("192.0.2.1".parse()?);
///     gateway.set_policy(file)?;
///     Ok(gateway)
/// }
///
/// assert!(gateway(b"policy\t1\n").is_ok());
/// let error = gateway(b"policy\t1\nout\n").unwrap_err();
/// assert_eq!(error.to_string(), "bad row 1");
/// assert_eq!(error.downcast_ref(), Some(&Refusal::BadRow(1)));
/// ```
#[derive(Clone, Copy, Debug, PartialEq, Eq)]
pub enum Refusal {
    /// 20: a row is bad; its number, the first being 1.
    BadRow(u64),
    /// 21: more than 256 rows.
    TooManyRows,
    /// 22: the normal form for that direction has more than 256 rows.
    NormalFormTooLarge(Direction),
    /// 23: the first nine bytes are not the header line.
    NotHeader,
    /// 24: the last byte is not LF.
    NotEnded,
    /// 25: an SPI is below 256.
    ReservedSpi,
    /// 26: the pair is live already.
    AlreadyLive,
    /// 27: 64 pairs are live.
    TableFull,
    /// 28: a protocol other than 50 and 51, a number that is not 1 to 255, a range value beyond its
    /// field, or low above high.
    BadPair,
    /// 29: no such pair is live.
    NothingToRemove,
    /// 31: the lent room is shorter than the printed file.
    NoRoom,
}

impl Refusal {
    /// What was done (5), with what the answer carries, or the refusal.
    pub(crate) fn check(number: u64, carries: u64) -> Result<u64, Refusal> {
        Err(match number {
            5 => return Ok(carries),
            20 => Refusal::BadRow(carries),
            21 => Refusal::TooManyRows,
            22 => Refusal::NormalFormTooLarge(Direction::from_number(carries)),
            23 => Refusal::NotHeader,
            24 => Refusal::NotEnded,
            25 => Refusal::ReservedSpi,
            26 => Refusal::AlreadyLive,
            27 => Refusal::TableFull,
            28 => Refusal::BadPair,
            29 => Refusal::NothingToRemove,
            31 => Refusal::NoRoom,
            _ => not_in_the_table(number),
        })
    }

    /// The paper's number.
    pub fn number(self) -> u8 {
        match self {
            Refusal::BadRow(_) => 20,
            Refusal::TooManyRows => 21,
            Refusal::NormalFormTooLarge(_) => 22,
            Refusal::NotHeader => 23,
            Refusal::NotEnded => 24,
            Refusal::ReservedSpi => 25,
            Refusal::AlreadyLive => 26,
            Refusal::TableFull => 27,
            Refusal::BadPair => 28,
            Refusal::NothingToRemove => 29,
            Refusal::NoRoom => 31,
        }
    }
}

impl fmt::Display for Refusal {
    fn fmt(&self, f: &mut fmt::Formatter) -> fmt::Result {
        match self {
            Refusal::BadRow(row) => write!(f, "bad row {row}"),
            Refusal::TooManyRows => write!(f, "more than 256 rows"),
            Refusal::NormalFormTooLarge(direction) => {
                write!(f, "normal form over 256 rows ({direction})")
            }
            Refusal::NotHeader => write!(f, "first nine bytes aren't the header line"),
            Refusal::NotEnded => write!(f, "last byte isn't LF"),
            Refusal::ReservedSpi => write!(f, "either SPI below 256"),
            Refusal::AlreadyLive => write!(f, "pair already live"),
            Refusal::TableFull => write!(f, "64 pairs live"),
            Refusal::BadPair => write!(
                f,
                "protocol not 50 or 51, number not 1 to 255, a range value beyond its field, or \
                 low above high"
            ),
            Refusal::NothingToRemove => write!(f, "nothing to remove"),
            Refusal::NoRoom => write!(f, "lent room shorter than the printed file"),
        }
    }
}

impl std::error::Error for Refusal {}

/// The library's contracts give each answer a number of the table.
fn not_in_the_table(number: u64) -> ! {
    unreachable!("the library answered {number}, against its contract")
}
