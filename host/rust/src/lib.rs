//! MO catalogs with the names and signatures of the crate gettext 0.4.0, over a port of it that is proved to meet its contracts.
//!
//! A [`Catalog`] keeps the file's bytes and answers with parts of them: no string is copied, and no input stops the program. The work is
//! done by the static library of the crate `gettext_c`; its contracts say for every input what it answers.
//!
//! ```
//! use gettext_rattle::{Catalog, ParseOptions, Reading};
//! use std::fs::File;
//!
//! # fn main() -> Result<(), gettext_rattle::Error> {
//! # let path = concat!(env!("CARGO_MANIFEST_DIR"), "/../../examples/de.mo");
//! let catalog = Catalog::parse(File::open(path)?)?;
//! assert_eq!(catalog.gettext("Your invoice"), "Ihre Rechnung");
//! assert_eq!(catalog.ngettext("%d page", "%d pages", 3), "%d Seiten");
//! assert_eq!(catalog.pgettext("month", "May"), "Mai");
//! assert_eq!(catalog.gettext("not there"), "not there");
//!
//! // the same with an index beside it, for catalogs of many entries
//! let catalog = Catalog::parse(File::open(path)?)?.indexed();
//! assert_eq!(catalog.gettext("Your invoice"), "Ihre Rechnung");
//!
//! // a file that lies in memory already, read where it lies
//! let file = std::fs::read(path)?;
//! let catalog = ParseOptions::new().reading(Reading::Standard).parse_slice(&file)?;
//! assert_eq!(catalog.rating(), Some((0, 1)));
//! assert_eq!(catalog.form_count(), Some(2));
//! assert_eq!(catalog.rule_text()?, "(n!=1)");
//! assert_eq!(catalog.forms_over(0..=9)?.of(0), Some(1));
//!
//! // why did I get this text?
//! let why = catalog.why_ngettext("%d page", "%d pages", 3);
//! assert_eq!(why.answer.text, "%d Seiten");
//! assert_eq!(why.reason.to_string(), "entry 1, form 1, at byte 378 of the file");
//!
//! // a refusal that says where
//! let cut = ParseOptions::new().located().parse_slice(&file[..400]);
//! assert_eq!(cut.unwrap_err().to_string(), "unexpected end of file, entry 2, translation");
//! # Ok(())
//! # }
//! ```
//!
//! # Stack
//!
//! A thread of 256 KiB is enough for any load, and 32 KiB for every other call and for a load with the rule `n`, whatever the file and the rule. Of these, an unoptimized build took 238,256 and
//! 26,304 bytes at most on Arm, with an older build of the library; tests/stack.rs makes the calls on stacks of just that size.
//!
//! # What differs from gettext 0.4.0
//!
//! - UTF-8 is the only encoding. [`ParseOptions::force_utf8`] stands for `force_encoding`: it only passes over the charset label.
//! - [`ParseOptions::force_plural`] takes the text of a rule, not a function.
//! - A rule that takes a remainder by zero answers the caller's text, and [`Status::ZeroModulus`], where gettext 0.4.0 panics.
//! - A rule's text has at most 512 bytes, see [`Error::RuleTooLong`]; [`Error`] may get more variants.
//! - A plural rule can be read in two ways, see [`Reading`].
//! - A refused load can say where: [`ParseOptions::located`]. [`Error`] is as it was.
//! - The header's count of forms is read, by the name that real files have, see [`Catalog::form_count`], and the rule can be made to fit
//!   it, see [`ParseOptions::require_fit`].
//!
//! examples/changed_over.rs is a program that changed over, with the lines of before beside those that changed.

#![deny(missing_docs, missing_debug_implementations, unsafe_op_in_unsafe_fn)]

mod bytes;
mod catalog;
mod error;
mod ffi;
mod index;
mod options;
mod reason;

pub use bytes::{Bytes, Live};
pub use catalog::{Answer, Catalog, Forms, Which};
pub use error::{Error, Refusal, Side, Status};
pub use index::{Scan, Search};
pub use options::{Located, ParseOptions, Reading};
pub use reason::{Reason, Why};

/// Whether a text is UTF-8 by RFC 3629, as loading tests it.
#[must_use]
pub fn is_utf8(text: &[u8]) -> bool {
    ffi::is_utf8(text)
}

/// What loading a file costs: the sum of the lengths that its tables state, which is how many bytes of strings a load looks at, at most.
/// It takes the time of a pass over the tables. See [`ParseOptions::max_cost`].
#[must_use]
pub fn cost(file: &[u8]) -> u64 {
    ffi::cost(file)
}
