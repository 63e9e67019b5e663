//! Why and where a load is refused, and how a lookup went.

use crate::ffi;
use std::error;
use std::fmt;
use std::io;

/// Why a catalog was not loaded, or its index not built.
#[derive(Debug)]
#[non_exhaustive]
pub enum Error {
    /// The file ends before something that it names.
    Eof,
    /// The first four bytes are not those of an MO file.
    BadMagic,
    /// A context, an id or a translation is not UTF-8.
    DecodingError,
    /// A line of the header has no colon.
    MalformedMetadata,
    /// An empty id stands at another entry than the first.
    MisplacedMetadata,
    /// The plural rule has no reading.
    PluralParsing,
    /// The header's charset is not UTF-8.
    UnknownEncoding,
    /// The plural rule has over 512 bytes, white space at its ends left out.
    RuleTooLong,
    /// Fewer slots are lent than the index uses, see [`Catalog::slots`](crate::Catalog::slots).
    IndexRoom,
    /// The load demands that the rule fit the header's count of forms, see
    /// [`ParseOptions::require_fit`](crate::ParseOptions::require_fit): the header gives none, or the rule does not fit it.
    NotFit,
    /// A span of counts that ends before it begins, or has over 1,000,000 counts.
    BadSpan,
    /// The file could not be read. The library does not read files: it is [`ParseOptions::parse`](crate::ParseOptions::parse) that met it.
    Io(io::Error),
    /// The load would cost more than the limit, see [`ParseOptions::max_cost`](crate::ParseOptions::max_cost). The file was not looked at.
    TooCostly {
        /// What the load costs, see [`cost`](crate::cost).
        cost: u64,
        /// The limit that was set.
        limit: u64,
    },
    /// A number that this crate does not know: it was linked to a library of another version.
    Unknown(u32),
}

impl Error {
    /// The number of the library's refusal, as the C interface has it. Errors of this crate alone have none.
    #[must_use]
    pub fn number(&self) -> Option<u32> {
        match self {
            Error::Eof => Some(1),
            Error::BadMagic => Some(2),
            Error::DecodingError => Some(3),
            Error::MalformedMetadata => Some(4),
            Error::MisplacedMetadata => Some(5),
            Error::PluralParsing => Some(6),
            Error::UnknownEncoding => Some(7),
            Error::RuleTooLong => Some(8),
            Error::IndexRoom => Some(12),
            Error::NotFit => Some(13),
            Error::BadSpan => Some(17),
            Error::Unknown(number) => Some(*number),
            Error::Io(_) | Error::TooCostly { .. } => None,
        }
    }

    /// The refusal that a number tells, 0 being none.
    pub(crate) fn of(number: u32) -> Result<(), Error> {
        Err(match number {
            0 => return Ok(()),
            1 => Error::Eof,
            2 => Error::BadMagic,
            3 => Error::DecodingError,
            4 => Error::MalformedMetadata,
            5 => Error::MisplacedMetadata,
            6 => Error::PluralParsing,
            7 => Error::UnknownEncoding,
            8 => Error::RuleTooLong,
            12 => Error::IndexRoom,
            13 => Error::NotFit,
            17 => Error::BadSpan,
            _ => Error::Unknown(number),
        })
    }
}

impl fmt::Display for Error {
    fn fmt(&self, f: &mut fmt::Formatter<'_>) -> fmt::Result {
        f.write_str(match self {
            Error::Eof => "unexpected end of file",
            Error::BadMagic => "bad magic number",
            Error::DecodingError => "invalid byte sequence in a string",
            Error::MalformedMetadata => "metadata syntax error",
            Error::MisplacedMetadata => "misplaced metadata",
            Error::PluralParsing => "invalid plural expression",
            Error::UnknownEncoding => "unknown encoding specified",
            Error::RuleTooLong => "plural expression over 512 bytes",
            Error::IndexRoom => "too few slots for the index",
            Error::NotFit => "the plural expression does not fit the number of forms in the header",
            Error::BadSpan => "no span of at most 1000000 counts",
            Error::Io(error) => return error.fmt(f),
            Error::TooCostly { cost, limit } => {
                return write!(f, "the load costs {cost}, and {limit} is the limit")
            }
            Error::Unknown(number) => {
                return write!(f, "refusal {number}, which this version does not know")
            }
        })
    }
}

impl error::Error for Error {
    fn source(&self) -> Option<&(dyn error::Error + 'static)> {
        match self {
            Error::Io(error) => Some(error),
            _ => None,
        }
    }
}

impl From<io::Error> for Error {
    fn from(error: io::Error) -> Self {
        Error::Io(error)
    }
}

/// A side of an entry, where a load failed.
#[derive(Clone, Copy, Debug, PartialEq, Eq, Hash)]
#[non_exhaustive]
pub enum Side {
    /// The original: its context or its id.
    Original,
    /// The translation, that of the header too.
    Translation,
    /// The header's lines, or its charset label.
    Header,
    /// The plural rule, the header's or a forced one.
    Rule,
}

impl Side {
    /// The number, as the C interface has it.
    #[must_use]
    pub fn number(self) -> u32 {
        match self {
            Side::Original => 1,
            Side::Translation => 2,
            Side::Header => 3,
            Side::Rule => 4,
        }
    }

    /// The side that a number tells, 0 being none.
    fn of(number: u32) -> Option<Side> {
        [Side::Original, Side::Translation, Side::Header, Side::Rule]
            .into_iter()
            .find(|side| side.number() == number)
    }
}

impl fmt::Display for Side {
    fn fmt(&self, f: &mut fmt::Formatter<'_>) -> fmt::Result {
        f.write_str(match self {
            Side::Original => "original",
            Side::Translation => "translation",
            Side::Header => "header",
            Side::Rule => "rule",
        })
    }
}

/// Why a catalog was not loaded, and where: what [`ParseOptions::located`](crate::ParseOptions::located) is for.
///
/// It becomes an [`Error`] by `?` in a function that answers one, and says both in a sentence:
/// `invalid byte sequence in a string, entry 7, original`.
#[derive(Debug)]
pub struct Refusal {
    error: Error,
    entry: Option<usize>,
    side: Option<Side>,
}

impl Refusal {
    /// Why.
    #[must_use]
    pub fn error(&self) -> &Error {
        &self.error
    }

    /// Why, as its own.
    #[must_use]
    pub fn into_error(self) -> Error {
        self.error
    }

    /// The index of the entry, counted from 0. What is refused for the file as a whole, for a forced rule, or before the load names none.
    #[must_use]
    pub fn entry(&self) -> Option<usize> {
        self.entry
    }

    /// The side. What is refused for the file as a whole, or before the load, names none.
    #[must_use]
    pub fn side(&self) -> Option<Side> {
        self.side
    }

    /// The refusal that a load tells, if any.
    pub(crate) fn of(loaded: &ffi::Loaded) -> Result<(), Refusal> {
        Error::of(loaded.number).map_err(|error| Refusal {
            error,
            entry: (loaded.entered != 0).then_some(loaded.entry),
            side: Side::of(loaded.side),
        })
    }
}

impl fmt::Display for Refusal {
    fn fmt(&self, f: &mut fmt::Formatter<'_>) -> fmt::Result {
        self.error.fmt(f)?;
        if let Some(entry) = self.entry {
            write!(f, ", entry {entry}")?;
        }
        match self.side {
            Some(side) => write!(f, ", {side}"),
            None => Ok(()),
        }
    }
}

impl error::Error for Refusal {
    fn source(&self) -> Option<&(dyn error::Error + 'static)> {
        self.error.source()
    }
}

impl From<Refusal> for Error {
    fn from(refusal: Refusal) -> Self {
        refusal.error
    }
}

/// An error that names no place.
impl From<Error> for Refusal {
    fn from(error: Error) -> Self {
        Refusal {
            error,
            entry: None,
            side: None,
        }
    }
}

/// How a lookup went.
#[derive(Clone, Copy, Debug, PartialEq, Eq, Hash)]
#[non_exhaustive]
pub enum Status {
    /// The text is the catalog's, or the catalog has none and it is the caller's.
    Answered,
    /// The plural rule takes a remainder by zero at this count; the text is the caller's.
    ZeroModulus,
    /// The record does not belong to the file. It cannot come from a [`Catalog`](crate::Catalog), which keeps both.
    BadRecord,
    /// Fewer slots are lent than the index uses. It cannot come from a [`Catalog`](crate::Catalog), which has none or enough.
    IndexRoom,
    /// A number that this crate does not know: it was linked to a library of another version.
    Unknown(u32),
}

impl Status {
    /// The number, as the C interface has it.
    #[must_use]
    pub fn number(self) -> u32 {
        match self {
            Status::Answered => 0,
            Status::ZeroModulus => 10,
            Status::BadRecord => 11,
            Status::IndexRoom => 12,
            Status::Unknown(number) => number,
        }
    }

    pub(crate) fn of(number: u32) -> Self {
        match number {
            0 => Status::Answered,
            10 => Status::ZeroModulus,
            11 => Status::BadRecord,
            12 => Status::IndexRoom,
            _ => Status::Unknown(number),
        }
    }
}
