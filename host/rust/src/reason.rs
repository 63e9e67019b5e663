//! Why a lookup with a count answered as it did.

use crate::{ffi, Answer};
use std::fmt;

/// Why a lookup with a count answered as it did: the first of these that holds. `Display` is a sentence for support.
///
/// It is proved that the lookup's number and its text are functions of the reason.
#[derive(Clone, Copy, Debug, PartialEq, Eq, Hash)]
#[non_exhaustive]
pub enum Reason {
    /// The file has another length than the record says. It cannot come from a [`Catalog`](crate::Catalog), which keeps both.
    StaleLength,
    /// The nodes of the record's rule are no tree. It cannot come from a [`Catalog`](crate::Catalog).
    NoTree,
    /// The plural rule divides by zero, or takes a remainder by zero, at this count.
    ZeroDivisor {
        /// The count.
        n: u64,
        /// The node that met it: its place in the record's own nodes, of the `/` or `%` or of the node that it is packed into.
        node: usize,
    },
    /// No entry has the id, in the context if there is one.
    NoEntry,
    /// The last entry with the id does not store the form that the rule names.
    TooFewSegments {
        /// The index of the entry in the file's tables.
        entry: usize,
        /// How many forms it stores.
        stored: usize,
        /// The form that the rule names, counted from 0.
        form: u64,
    },
    /// The text is a segment of the file.
    Answered {
        /// The index of the entry in the file's tables.
        entry: usize,
        /// The form that the rule names, counted from 0.
        form: u64,
        /// Where the segment starts, counted from the file's first byte.
        offset: usize,
    },
    /// A kind that this crate does not know: it was linked to a library of another version.
    Unknown(u32),
}

impl Reason {
    pub(crate) fn of(why: &ffi::Explained, n: u64) -> Self {
        let (entry, form) = (why.entry, why.form);
        match why.kind {
            1 => Reason::StaleLength,
            2 => Reason::NoTree,
            3 => Reason::ZeroDivisor { n, node: why.node },
            4 => Reason::NoEntry,
            5 => Reason::TooFewSegments {
                entry,
                stored: why.stored,
                form,
            },
            6 => Reason::Answered {
                entry,
                form,
                offset: why.start,
            },
            kind => Reason::Unknown(kind),
        }
    }
}

impl fmt::Display for Reason {
    fn fmt(&self, f: &mut fmt::Formatter<'_>) -> fmt::Result {
        match *self {
            Reason::StaleLength => f.write_str("the file has another length than the record says"),
            Reason::NoTree => f.write_str("the nodes of the record's rule are no tree"),
            Reason::ZeroDivisor { n, node } => {
                write!(f, "the rule divides by zero at n = {n} (node {node})")
            }
            Reason::NoEntry => f.write_str("no entry has this id"),
            Reason::TooFewSegments {
                entry,
                stored,
                form,
            } => {
                let forms = if stored == 1 { "form" } else { "forms" };
                write!(
                    f,
                    "entry {entry} has {stored} {forms}, the rule names form {form}"
                )
            }
            Reason::Answered {
                entry,
                form,
                offset,
            } => write!(
                f,
                "entry {entry}, form {form}, at byte {offset} of the file"
            ),
            Reason::Unknown(kind) => {
                write!(f, "reason {kind}, which this version does not know")
            }
        }
    }
}

/// A lookup's text, and why it is that: [`Catalog::why_ngettext`](crate::Catalog::why_ngettext).
#[derive(Clone, Copy, Debug, PartialEq, Eq, Hash)]
#[non_exhaustive]
pub struct Why<'t> {
    /// The reason.
    pub reason: Reason,
    /// What the lookup answers, by that reason.
    pub answer: Answer<'t>,
}
