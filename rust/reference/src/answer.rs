//! Document 01's table "When the gate says what".

use crate::Direction;

/// Every answer, named for its meaning; [`Answer::number`] is the paper's number.
#[derive(Clone, Copy, Debug, PartialEq, Eq)]
pub enum Answer {
    PassInClear,
    Deliver,
    Protect {
        number: u8,
        protocol: u8,
        outbound_spi: u32,
    },
    AssociationWanted {
        number: u8,
    },
    ToAhEsp {
        protocol: u8,
        inbound_spi: u32,
    },
    /// Policy accepted, pair added or removed.
    Done,
    /// File printed: the other meaning of 5.
    Printed {
        bytes: usize,
    },
    NotReadable,
    PolicyDiscards,
    ShouldBeProtected,
    NoSuchPair,
    DoesNotFitPair,
    AhEspFragment,
    AhEspTooShort,
    TriggeringHeaderUnreadable,
    TriggeringHeaderDoesNotFit,
    BadRow {
        row: usize,
    },
    TooManyRows,
    NormalFormTooLong {
        direction: Direction,
    },
    NoHeaderLine,
    LastByteNotLf,
    SpiReserved,
    PairAlreadyLive,
    PairTableFull,
    BadPair,
    NothingToRemove,
    RoomTooShort,
    /// Request 7.
    TrimmedTcp,
}

impl Answer {
    pub fn number(self) -> u8 {
        match self {
            Answer::PassInClear => 0,
            Answer::Deliver => 1,
            Answer::Protect { .. } => 2,
            Answer::AssociationWanted { .. } => 3,
            Answer::ToAhEsp { .. } => 4,
            Answer::Done | Answer::Printed { .. } => 5,
            Answer::NotReadable => 10,
            Answer::PolicyDiscards => 11,
            Answer::ShouldBeProtected => 12,
            Answer::NoSuchPair => 13,
            Answer::DoesNotFitPair => 14,
            Answer::AhEspFragment => 15,
            Answer::AhEspTooShort => 16,
            Answer::TriggeringHeaderUnreadable => 17,
            Answer::TriggeringHeaderDoesNotFit => 18,
            Answer::BadRow { .. } => 20,
            Answer::TooManyRows => 21,
            Answer::NormalFormTooLong { .. } => 22,
            Answer::NoHeaderLine => 23,
            Answer::LastByteNotLf => 24,
            Answer::SpiReserved => 25,
            Answer::PairAlreadyLive => 26,
            Answer::PairTableFull => 27,
            Answer::BadPair => 28,
            Answer::NothingToRemove => 29,
            Answer::RoomTooShort => 31,
            Answer::TrimmedTcp => 33,
        }
    }
}
