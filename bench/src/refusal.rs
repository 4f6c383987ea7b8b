//! Why a command is not done.

use std::io;

/// The names of refusals, as they are printed.
#[derive(Clone, Copy, Debug, PartialEq, Eq)]
pub enum Refusal {
    BadCommand,
    BadName,
    BadNumber,
    BadPeriod,
    BadPoint,
    BadUtf8,
    Full,
    Future,
    KeyOverlap,
    NoColumn,
    NoTable,
    NotInBlock,
    TableExists,
    TooLong,
    TooMany,
    TwiceNamed,
    Unended,
    WrongKind,
    WrongWidth,
}

/// A record that is refused.
pub struct Fault {
    pub number: u64,
    pub refusal: Refusal,
}

/// Why a command stops: it is refused before anything is written, or a write failed.
pub enum Stop {
    Refused(Refusal),
    Write(io::Error),
}

impl From<Refusal> for Stop {
    fn from(refusal: Refusal) -> Stop {
        Stop::Refused(refusal)
    }
}

impl From<io::Error> for Stop {
    fn from(error: io::Error) -> Stop {
        Stop::Write(error)
    }
}
