//! The options of a load.

use crate::{cost, ffi, Bytes, Catalog, Error, Refusal};
use std::io::Read;

/// How plural rules are read, the header's and a forced one alike.
#[derive(Clone, Copy, Debug, Default, PartialEq, Eq, Hash)]
#[non_exhaustive]
pub enum Reading {
    /// As gettext 0.4.0 reads them, the default. It cuts a rule at `&&` before it looks for `?:`, so that rules like those of Russian,
    /// Polish or Arabic catalogs yield other forms than their translators meant.
    #[default]
    Shipped,
    /// By C's grammar, as the GNU gettext manual asks.
    Standard,
}

/// Options of a load.
///
/// ```
/// use gettext_rattle::{ParseOptions, Reading};
/// use std::fs::File;
///
/// # fn main() -> Result<(), gettext_rattle::Error> {
/// # let path = concat!(env!("CARGO_MANIFEST_DIR"), "/../../examples/de.mo");
/// let catalog = ParseOptions::new()
///     .force_plural("n > 1")
///     .reading(Reading::Standard)
///     .max_cost(16 << 20)
///     .parse(File::open(path)?)?;
/// assert_eq!(catalog.ngettext("%d page", "%d pages", 0), "%d Seite");
/// # Ok(())
/// # }
/// ```
#[derive(Clone, Copy, Debug, Default)]
#[must_use]
pub struct ParseOptions<'r> {
    rule: Option<&'r str>,
    reading: Reading,
    utf8: bool,
    fit: bool,
    max_cost: Option<u64>,
}

impl<'r> ParseOptions<'r> {
    /// No rule is forced, rules are read as gettext 0.4.0 reads them, the charset label must be UTF-8's, the rule need not fit the
    /// header's count of forms, and there is no limit.
    pub fn new() -> Self {
        Self::default()
    }

    /// Takes this plural rule, such as `n != 1`, instead of the header's, which is then not read.
    pub fn force_plural(mut self, rule: &'r str) -> Self {
        self.rule = Some(rule);
        self
    }

    /// Passes over the header's charset label. The texts must be UTF-8 all the same.
    pub fn force_utf8(mut self) -> Self {
        self.utf8 = true;
        self
    }

    /// Chooses how plural rules are read.
    pub fn reading(mut self, reading: Reading) -> Self {
        self.reading = reading;
        self
    }

    /// Demands that the rule, a forced one too, fit the count of forms that the header gives, see [`Catalog::form_count`]: it has a range
    /// whose highest form is below that count, see [`Catalog::fits`]. A file whose rule does not, or that gives no count, is refused
    /// with [`Error::NotFit`], after all its entries were tested.
    ///
    /// Of a file so loaded it is proved that, for every `n`, a plural lookup whose entry stores at least as many forms as the header
    /// says answers one of them.
    ///
    /// ```
    /// use gettext_rattle::{Error, ParseOptions};
    ///
    /// # fn main() -> Result<(), Error> {
    /// # let path = concat!(env!("CARGO_MANIFEST_DIR"), "/../../examples/de.mo");
    /// let file = std::fs::read(path)?;
    /// let catalog = ParseOptions::new().require_fit().parse_slice(&file)?;
    /// assert_eq!(catalog.form_count(), Some(2));
    /// let other = ParseOptions::new().require_fit().force_plural("n % 3").parse_slice(&file);
    /// assert!(matches!(other, Err(Error::NotFit)));
    /// # Ok(())
    /// # }
    /// ```
    pub fn require_fit(mut self) -> Self {
        self.fit = true;
        self
    }

    /// Refuses a file whose load would look at more bytes than this, see [`cost`], with [`Error::TooCostly`].
    ///
    /// The entries of an MO file may overlap, and each is tested by itself, so a file of 1 MiB can ask for gigabytes to be looked at. A
    /// file whose entries do not overlap costs less than it has bytes.
    pub fn max_cost(mut self, limit: u64) -> Self {
        self.max_cost = Some(limit);
        self
    }

    /// The same options; a load by them that is refused says where, see [`Located`].
    pub fn located(self) -> Located<'r> {
        Located(self)
    }

    /// Reads the file to its end and loads the catalog, which owns the bytes.
    ///
    /// # Errors
    ///
    /// [`Error::Io`] if the file cannot be read, [`Error::TooCostly`] if a limit is set and the load would cost more, else the refusal
    /// of the load.
    pub fn parse<R: Read>(self, reader: R) -> Result<Catalog, Error> {
        Ok(self.located().parse(reader)?)
    }

    /// Loads the catalog that lies in `file`, which is lent.
    ///
    /// # Errors
    ///
    /// As [`ParseOptions::parse`], without [`Error::Io`].
    pub fn parse_slice(self, file: &[u8]) -> Result<Catalog<&[u8]>, Error> {
        self.parse_bytes(file)
    }

    /// Loads the catalog that lies in `file`, which it keeps: lent, or as its own.
    ///
    /// # Errors
    ///
    /// As [`ParseOptions::parse`], without [`Error::Io`].
    pub fn parse_bytes<B: Bytes>(self, file: B) -> Result<Catalog<B>, Error> {
        Ok(self.located().parse_bytes(file)?)
    }
}

/// Options of a load whose refusal says where it failed: [`ParseOptions::located`] makes them.
///
/// ```
/// use gettext_rattle::{Error, ParseOptions, Side};
///
/// # let path = concat!(env!("CARGO_MANIFEST_DIR"), "/test_cases/invalid_utf8.mo");
/// let file = std::fs::read(path).unwrap();
/// let refusal = ParseOptions::new().located().parse_slice(&file).unwrap_err();
/// assert!(matches!(refusal.error(), Error::DecodingError));
/// assert_eq!((refusal.entry(), refusal.side()), (Some(0), Some(Side::Translation)));
/// assert_eq!(refusal.to_string(), "invalid byte sequence in a string, entry 0, translation");
/// ```
#[derive(Clone, Copy, Debug, Default)]
#[must_use]
pub struct Located<'r>(ParseOptions<'r>);

impl Located<'_> {
    /// [`ParseOptions::parse`].
    ///
    /// # Errors
    ///
    /// Its errors, with the place.
    pub fn parse<R: Read>(self, mut reader: R) -> Result<Catalog, Refusal> {
        let mut file = Vec::new();
        reader.read_to_end(&mut file).map_err(Error::from)?;
        self.parse_bytes(file)
    }

    /// [`ParseOptions::parse_slice`].
    ///
    /// # Errors
    ///
    /// Its errors, with the place.
    pub fn parse_slice(self, file: &[u8]) -> Result<Catalog<&[u8]>, Refusal> {
        self.parse_bytes(file)
    }

    /// [`ParseOptions::parse_bytes`].
    ///
    /// # Errors
    ///
    /// Its errors, with the place.
    pub fn parse_bytes<B: Bytes>(self, file: B) -> Result<Catalog<B>, Refusal> {
        let options = self.0;
        if let Some(limit) = options.max_cost {
            let cost = cost(file.bytes());
            if cost > limit {
                return Err(Error::TooCostly { cost, limit }.into());
            }
        }
        let mut record = ffi::blank();
        let loaded = ffi::load(
            file.bytes(),
            options.rule.map(str::as_bytes),
            options.reading == Reading::Standard,
            options.utf8,
            options.fit,
            &mut record,
        );
        Refusal::of(&loaded)?;
        Ok(Catalog::of(file, record))
    }
}
