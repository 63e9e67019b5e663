//! Catalogs and their lookups.

use crate::{ffi, Bytes, Error, Live, ParseOptions, Reason, Scan, Search, Status, Why};
use std::fmt;
use std::io::Read;
use std::ops::RangeInclusive;

/// Which text answers a lookup.
#[derive(Clone, Copy, Debug, PartialEq, Eq, Hash)]
pub enum Which {
    /// A segment of the file.
    Segment {
        /// The index of the entry in the file's tables.
        entry: usize,
        /// Which of its translation's forms.
        form: u64,
    },
    /// The caller's id.
    Id,
    /// The caller's plural id.
    PluralId,
}

/// A lookup's text, and where it comes from.
#[derive(Clone, Copy, Debug, PartialEq, Eq, Hash)]
#[non_exhaustive]
pub struct Answer<'t> {
    /// How the lookup went.
    pub status: Status,
    /// The text.
    pub text: &'t str,
    /// Where it comes from.
    pub which: Which,
}

/// A catalog: the bytes of a file, and the record of their load.
///
/// `Catalog` by itself owns its bytes, as that of gettext 0.4.0 does, so it can stand in a map, a `static` or an `Arc`.
/// `Catalog<&[u8]>` reads a file where it lies; the texts that it finds live as long as the file. See [`Bytes`] for the others.
///
/// The record, of a fixed size, is one allocation; no string is copied. A catalog never changes, and it is `Send` and `Sync`.
///
/// A lookup passes over the entries, unless the catalog has an index: see [`Catalog::indexed`] and [`Catalog::index_into`].
#[derive(Clone)]
pub struct Catalog<B = Vec<u8>, S = Scan> {
    // `text` relies on these two belonging together: they are set by a load and by `empty`, and nowhere changed. Of the search it asks
    // nothing: in any slots a lookup answers with an entry that has the key.
    file: B,
    record: Box<ffi::Record>,
    search: S,
}

impl<B: Bytes, S: Search> fmt::Debug for Catalog<B, S> {
    fn fmt(&self, f: &mut fmt::Formatter<'_>) -> fmt::Result {
        let mut said = f.debug_struct("Catalog");
        said.field("bytes", &self.file.bytes().len());
        said.field("entries", &self.len());
        if let Some(slots) = self.search.slots() {
            said.field("slots", &slots.len());
        }
        said.finish_non_exhaustive()
    }
}

impl Default for Catalog {
    fn default() -> Self {
        Self::empty()
    }
}

impl Catalog {
    /// A catalog without entries, which answers every lookup with the caller's own text.
    #[must_use]
    pub fn empty() -> Self {
        Catalog {
            file: Vec::new(),
            record: ffi::empty(),
            search: Scan,
        }
    }

    /// Reads a file to its end and loads the catalog, with the default options.
    ///
    /// # Errors
    ///
    /// [`Error::Io`] if the file cannot be read, else the refusal of the load.
    pub fn parse<R: Read>(reader: R) -> Result<Self, Error> {
        ParseOptions::new().parse(reader)
    }
}

impl<'f> Catalog<&'f [u8]> {
    /// Loads the catalog that lies in `file`, which is lent, with the default options.
    ///
    /// # Errors
    ///
    /// The refusal of the load.
    pub fn parse_slice(file: &'f [u8]) -> Result<Self, Error> {
        ParseOptions::new().parse_slice(file)
    }
}

impl<B: Bytes> Catalog<B> {
    /// A file and the record of its load.
    pub(crate) fn of(file: B, record: Box<ffi::Record>) -> Self {
        Catalog {
            file,
            record,
            search: Scan,
        }
    }

    /// Loads the catalog that lies in `file`, which it keeps, with the default options.
    ///
    /// # Errors
    ///
    /// The refusal of the load.
    pub fn parse_bytes(file: B) -> Result<Self, Error> {
        ParseOptions::new().parse_bytes(file)
    }

    /// The same catalog with an index, which it owns: one allocation of [`Catalog::slots`] numbers. Every lookup answers as before.
    #[must_use]
    pub fn indexed(self) -> Catalog<B, Vec<u32>> {
        let mut slots = vec![0; self.slots()];
        let number = ffi::index(self.file.bytes(), &self.record, &mut slots);
        // proved: `enough-slots`, crates/gettext_c/proofs/Indexed.antt
        debug_assert_eq!(number, 0);
        Catalog {
            file: self.file,
            record: self.record,
            search: slots,
        }
    }

    /// The same catalog with an index in the first of the slots that are lent. Every lookup answers as before.
    ///
    /// # Errors
    ///
    /// [`Error::IndexRoom`] exactly if there are fewer than [`Catalog::slots`]; none is then written.
    pub fn index_into(self, slots: &mut [u32]) -> Result<Catalog<B, &[u32]>, Error> {
        Error::of(ffi::index(self.file.bytes(), &self.record, slots))?;
        Ok(Catalog {
            file: self.file,
            record: self.record,
            search: slots,
        })
    }
}

impl<B: Bytes, S: Search> Catalog<B, S> {
    /// How many slots an index uses: the smallest power of two that is at least 1 and at least twice the number of entries.
    #[must_use]
    pub fn slots(&self) -> usize {
        ffi::slots(&self.record)
    }

    /// How many entries the file has, the header counted in.
    #[must_use]
    pub fn len(&self) -> usize {
        self.record.head.count
    }

    /// How many forms the header says that a translation has: the last well-formed `nplurals` or `n_plurals` of its Plural-Forms. It is kept
    /// where a rule is forced, too. See [`ParseOptions::require_fit`].
    #[must_use]
    pub fn form_count(&self) -> Option<u64> {
        (self.record.counted != 0).then_some(self.record.forms)
    }

    /// Whether the file has no entry.
    #[must_use]
    pub fn is_empty(&self) -> bool {
        self.len() == 0
    }

    /// The translation of `msg_id`, or `msg_id` itself.
    #[inline]
    #[must_use]
    pub fn gettext<'c, 't>(&'c self, msg_id: &'t str) -> &'t str
    where
        B: Live<'c, 't>,
    {
        self.answer_gettext(msg_id).text
    }

    /// The translation of `msg_id` in the form for `n`. Without one, `msg_id` if `n` is 1 and `msg_id_plural` otherwise.
    #[inline]
    #[must_use]
    pub fn ngettext<'c, 't>(&'c self, msg_id: &'t str, msg_id_plural: &'t str, n: u64) -> &'t str
    where
        B: Live<'c, 't>,
    {
        self.answer_ngettext(msg_id, msg_id_plural, n).text
    }

    /// The translation of `msg_id` in the context `msg_context`, or `msg_id` itself.
    #[inline]
    #[must_use]
    pub fn pgettext<'c, 't>(&'c self, msg_context: &str, msg_id: &'t str) -> &'t str
    where
        B: Live<'c, 't>,
    {
        self.answer_pgettext(msg_context, msg_id).text
    }

    /// The translation of `msg_id` in the context `msg_context` and in the form for `n`. Without one, `msg_id` if `n` is 1 and
    /// `msg_id_plural` otherwise.
    #[inline]
    #[must_use]
    pub fn npgettext<'c, 't>(
        &'c self,
        msg_context: &str,
        msg_id: &'t str,
        msg_id_plural: &'t str,
        n: u64,
    ) -> &'t str
    where
        B: Live<'c, 't>,
    {
        self.answer_npgettext(msg_context, msg_id, msg_id_plural, n)
            .text
    }

    /// [`Catalog::gettext`], with how it went and where the text comes from.
    #[inline]
    #[must_use]
    pub fn answer_gettext<'c, 't>(&'c self, msg_id: &'t str) -> Answer<'t>
    where
        B: Live<'c, 't>,
    {
        let answer = ffi::gettext(
            self.file.bytes(),
            &self.record,
            self.search.slots(),
            None,
            msg_id.as_bytes(),
        );
        self.text(answer, msg_id, msg_id)
    }

    /// [`Catalog::ngettext`], with how it went and where the text comes from.
    #[inline]
    #[must_use]
    pub fn answer_ngettext<'c, 't>(
        &'c self,
        msg_id: &'t str,
        msg_id_plural: &'t str,
        n: u64,
    ) -> Answer<'t>
    where
        B: Live<'c, 't>,
    {
        let answer = ffi::ngettext(
            self.file.bytes(),
            &self.record,
            self.search.slots(),
            None,
            msg_id.as_bytes(),
            n,
        );
        self.text(answer, msg_id, msg_id_plural)
    }

    /// [`Catalog::pgettext`], with how it went and where the text comes from.
    #[inline]
    #[must_use]
    pub fn answer_pgettext<'c, 't>(&'c self, msg_context: &str, msg_id: &'t str) -> Answer<'t>
    where
        B: Live<'c, 't>,
    {
        let (context, id) = (msg_context.as_bytes(), msg_id.as_bytes());
        let answer = ffi::gettext(
            self.file.bytes(),
            &self.record,
            self.search.slots(),
            Some(context),
            id,
        );
        self.text(answer, msg_id, msg_id)
    }

    /// [`Catalog::npgettext`], with how it went and where the text comes from.
    #[inline]
    #[must_use]
    pub fn answer_npgettext<'c, 't>(
        &'c self,
        msg_context: &str,
        msg_id: &'t str,
        msg_id_plural: &'t str,
        n: u64,
    ) -> Answer<'t>
    where
        B: Live<'c, 't>,
    {
        let (context, id) = (msg_context.as_bytes(), msg_id.as_bytes());
        let answer = ffi::ngettext(
            self.file.bytes(),
            &self.record,
            self.search.slots(),
            Some(context),
            id,
            n,
        );
        self.text(answer, msg_id, msg_id_plural)
    }

    /// [`Catalog::gettext`] over bytes. An id that is not UTF-8 is in no catalog, and comes back.
    #[inline]
    #[must_use]
    pub fn gettext_bytes<'c, 't>(&'c self, msg_id: &'t [u8]) -> &'t [u8]
    where
        B: Live<'c, 't>,
    {
        let answer = ffi::gettext(
            self.file.bytes(),
            &self.record,
            self.search.slots(),
            None,
            msg_id,
        );
        self.bytes(answer, msg_id, msg_id)
    }

    /// [`Catalog::ngettext`] over bytes.
    #[inline]
    #[must_use]
    pub fn ngettext_bytes<'c, 't>(
        &'c self,
        msg_id: &'t [u8],
        msg_id_plural: &'t [u8],
        n: u64,
    ) -> &'t [u8]
    where
        B: Live<'c, 't>,
    {
        let answer = ffi::ngettext(
            self.file.bytes(),
            &self.record,
            self.search.slots(),
            None,
            msg_id,
            n,
        );
        self.bytes(answer, msg_id, msg_id_plural)
    }

    /// [`Catalog::pgettext`] over bytes.
    #[inline]
    #[must_use]
    pub fn pgettext_bytes<'c, 't>(&'c self, msg_context: &[u8], msg_id: &'t [u8]) -> &'t [u8]
    where
        B: Live<'c, 't>,
    {
        let answer = ffi::gettext(
            self.file.bytes(),
            &self.record,
            self.search.slots(),
            Some(msg_context),
            msg_id,
        );
        self.bytes(answer, msg_id, msg_id)
    }

    /// [`Catalog::npgettext`] over bytes.
    #[inline]
    #[must_use]
    pub fn npgettext_bytes<'c, 't>(
        &'c self,
        msg_context: &[u8],
        msg_id: &'t [u8],
        msg_id_plural: &'t [u8],
        n: u64,
    ) -> &'t [u8]
    where
        B: Live<'c, 't>,
    {
        let answer = ffi::ngettext(
            self.file.bytes(),
            &self.record,
            self.search.slots(),
            Some(msg_context),
            msg_id,
            n,
        );
        self.bytes(answer, msg_id, msg_id_plural)
    }

    /// Why [`Catalog::ngettext`] gives its text, and the text. It passes over the entries, also where the catalog has an index: the answer is
    /// the same.
    #[must_use]
    pub fn why_ngettext<'c, 't>(
        &'c self,
        msg_id: &'t str,
        msg_id_plural: &'t str,
        n: u64,
    ) -> Why<'t>
    where
        B: Live<'c, 't>,
    {
        self.why(None, msg_id, msg_id_plural, n)
    }

    /// Why [`Catalog::npgettext`] gives its text, and the text.
    #[must_use]
    pub fn why_npgettext<'c, 't>(
        &'c self,
        msg_context: &str,
        msg_id: &'t str,
        msg_id_plural: &'t str,
        n: u64,
    ) -> Why<'t>
    where
        B: Live<'c, 't>,
    {
        self.why(Some(msg_context.as_bytes()), msg_id, msg_id_plural, n)
    }

    // The answer is the lookup's own, so that `text` may take its segment: `why-ngettext`, crates/gettext_c/proofs/Why.antt.
    fn why<'c, 't>(
        &'c self,
        context: Option<&[u8]>,
        id: &'t str,
        plural_id: &'t str,
        n: u64,
    ) -> Why<'t>
    where
        B: Live<'c, 't>,
    {
        let why = ffi::why(self.file.bytes(), &self.record, context, id.as_bytes(), n);
        Why {
            reason: Reason::of(&why, n),
            answer: self.text(why.answer(), id, plural_id),
        }
    }

    /// The lowest and the highest form that the plural rule can name, or `None` where the rule is not rated: then it may take a
    /// remainder by zero.
    ///
    /// It is proved that a rated rule names for every count a form from the lowest to the highest.
    #[must_use]
    pub fn rating(&self) -> Option<(u64, u64)> {
        let rating = ffi::rating(&self.record);
        (rating.rated != 0).then_some((rating.lowest, rating.highest))
    }

    /// Whether the plural rule is rated and names forms below `k` alone.
    #[must_use]
    pub fn fits(&self, k: u64) -> bool {
        ffi::fits(&self.record, k).fits != 0
    }

    /// The form that the plural rule names for `n`, or `None` where it takes a remainder by zero.
    #[must_use]
    pub fn resolve(&self, n: u64) -> Option<u64> {
        let form = ffi::resolve(&self.record, n);
        (form.number == 0).then_some(form.form)
    }

    /// The plural rule as a text with brackets round every operator and no blanks. It is proved that both readings give that very rule back (the
    /// Standard one alone, where the rule has `+`, `-`, `*` or `/`).
    ///
    /// # Errors
    ///
    /// [`Error::RuleTooLong`] exactly if that text has over 512 bytes.
    pub fn rule_text(&self) -> Result<String, Error> {
        let mut buffer = [0; 512];
        let written = ffi::text(&self.record, &mut buffer);
        Error::of(written.number)?;
        Ok(buffer[..written.len]
            .iter()
            .map(|&b| char::from(b))
            .collect())
    }

    /// How often each form of the plural rule occurs for the counts of a span, of at most 1,000,000 counts.
    ///
    /// # Errors
    ///
    /// [`Error::BadSpan`] exactly if the span ends before it begins or has more counts.
    pub fn forms_over(&self, counts: RangeInclusive<u64>) -> Result<Forms, Error> {
        let mut figures = [0; 18];
        Error::of(ffi::span(
            &self.record,
            *counts.start(),
            *counts.end(),
            &mut figures,
        ))?;
        Ok(Forms(figures))
    }

    // The file's part that an answer names, which lies in the file: `answer-inside`, `plural-inside` and `slots-inside`,
    // crates/gettext_c/proofs/Right.antt.
    #[inline]
    fn segment<'c, 't>(&'c self, answer: ffi::Answer) -> &'t [u8]
    where
        B: Live<'c, 't>,
    {
        &self.file.live()[answer.start..][..answer.len]
    }

    #[inline]
    fn text<'c, 't>(&'c self, answer: ffi::Answer, id: &'t str, plural_id: &'t str) -> Answer<'t>
    where
        B: Live<'c, 't>,
    {
        let (text, which) = match answer.which {
            0 => {
                // SAFETY: the record was written by the load of these very bytes, or is the empty one, and neither has changed since:
                // both are private and nothing here lends them to be written, bytes that are lent or shared cannot be written, and
                // `Bytes`, which is closed, answers the same bytes at every call. In a file that was loaded the segment that a lookup
                // names is UTF-8, and the empty record has none: `answer-right`, `plural-right`, `empty-absent` and `empty-plural`, and for
                // any slots `slots-right` and `slots-absent`, crates/gettext_c/proofs/Right.antt.
                let text = unsafe { std::str::from_utf8_unchecked(self.segment(answer)) };
                let which = Which::Segment {
                    entry: answer.entry,
                    form: answer.form,
                };
                (text, which)
            }
            1 => (id, Which::Id),
            _ => (plural_id, Which::PluralId),
        };
        Answer {
            status: Status::of(answer.number),
            text,
            which,
        }
    }

    #[inline]
    fn bytes<'c, 't>(&'c self, answer: ffi::Answer, id: &'t [u8], plural_id: &'t [u8]) -> &'t [u8]
    where
        B: Live<'c, 't>,
    {
        match answer.which {
            0 => self.segment(answer),
            1 => id,
            _ => plural_id,
        }
    }
}

/// How often each form of a rule occurs over a span of counts: [`Catalog::forms_over`]. The figures add up to the number of counts. `Display` has
/// a line for each, as the program `forms` prints them.
#[derive(Clone, Copy, Debug, PartialEq, Eq)]
pub struct Forms([u64; 18]);

impl Forms {
    /// How many counts fall on a form, which is 0 to 15; `None` for any other form, see [`Forms::above`].
    #[must_use]
    pub fn of(&self, form: usize) -> Option<u64> {
        self.0[..16].get(form).copied()
    }

    /// How many fall on forms above 15.
    #[must_use]
    pub fn above(&self) -> u64 {
        self.0[16]
    }

    /// How many meet a zero divisor.
    #[must_use]
    pub fn zero(&self) -> u64 {
        self.0[17]
    }
}

impl fmt::Display for Forms {
    fn fmt(&self, f: &mut fmt::Formatter<'_>) -> fmt::Result {
        for (form, many) in self.0[..16].iter().enumerate() {
            writeln!(f, "{form} {many}")?;
        }
        write!(f, "above {}\nzero {}", self.above(), self.zero())
    }
}
