//! The static library's functions and the layout of what they take and give, as crates/gettext_c_c/src/lib.rt exports them. Each call is
//! wrapped once, so that the rest of the crate calls safe functions.
//!
//! What makes every call here safe: the library asks nothing of the values that it is given (its functions have no `requires`), reads
//! what is lent to be read, writes a record's arrays alone, in a load, and an index's slots alone, in building it, keeps no pointer and has no
//! state. A slice goes as pointer and length, an array as a pointer; a Rust slice's pointer is never null.

use std::mem::size_of;

#[cfg(not(target_arch = "x86_64"))]
compile_error!("the static library is built for x86-64");

/// The head of a record: seven words, which the library takes as an array of seven.
#[repr(C)]
#[derive(Clone, Copy, Debug, PartialEq)]
pub struct Head {
    pub length: usize,
    pub count: usize,
    pub originals: usize,
    pub translations: usize,
    pub big: usize,
    pub nodes: usize,
    pub root: usize,
}

/// What lookups need beside the file: the head, and the nodes of the rule; and the header's count of forms, where `counted` is not 0.
#[repr(C)]
#[derive(Clone, Copy)]
pub struct Record {
    pub head: Head,
    pub values: [u64; 512],
    pub places: [u16; 1024],
    pub codes: [u8; 512],
    pub forms: u64,
    pub counted: u32,
}

/// A load's number; where a refused one failed, the side (0 none) and, where `entered` is not 0, the entry; where `counted` is not 0, the
/// header's count of forms; and its record's head.
#[repr(C)]
#[derive(Clone, Copy)]
pub struct Loaded {
    pub number: u32,
    pub side: u32,
    pub entered: u32,
    pub counted: u32,
    pub entry: usize,
    pub forms: u64,
    pub head: Head,
}

/// The text that answers: `which` 0 is the segment of the file at `start`, 1 the id, 2 the plural id.
#[repr(C)]
#[derive(Clone, Copy, Debug, PartialEq)]
pub struct Answer {
    pub number: u32,
    pub which: u32,
    pub entry: usize,
    pub form: u64,
    pub start: usize,
    pub len: usize,
}

/// The lowest and the highest form, where `rated` is not 0.
#[repr(C)]
#[derive(Clone, Copy, Debug, PartialEq)]
pub struct Rating {
    pub number: u32,
    pub rated: u32,
    pub lowest: u64,
    pub highest: u64,
}

/// Whether a rule fits.
#[repr(C)]
#[derive(Clone, Copy, Debug, PartialEq)]
pub struct Fits {
    pub number: u32,
    pub fits: u32,
}

/// The form that a rule names for a count.
#[repr(C)]
#[derive(Clone, Copy, Debug, PartialEq)]
pub struct Form {
    pub number: u32,
    pub form: u64,
}

/// How long the text of a rule is that was written, beside number 0.
#[repr(C)]
pub struct Written {
    pub number: u32,
    pub len: usize,
}

/// Why a plural lookup answers as it does, by its kind, and what it answers.
#[repr(C)]
#[derive(Clone, Copy, Debug, PartialEq)]
pub struct Explained {
    pub kind: u32,
    pub number: u32,
    pub which: u32,
    pub node: usize,
    pub entry: usize,
    pub stored: usize,
    pub form: u64,
    pub start: usize,
    pub len: usize,
}

impl Explained {
    /// The lookup's answer, a function of the reason: proved, `why-ngettext`, crates/gettext_c/proofs/Why.antt.
    pub fn answer(&self) -> Answer {
        let answered = self.kind == 6;
        Answer {
            number: self.number,
            which: self.which,
            entry: if answered { self.entry } else { 0 },
            form: if answered { self.form } else { 0 },
            start: self.start,
            len: self.len,
        }
    }
}

const _: () = assert!(size_of::<Head>() == 56);
const _: () = assert!(size_of::<Record>() == 6728);
const _: () = assert!(size_of::<Loaded>() == 88);
const _: () = assert!(size_of::<Answer>() == 40);
const _: () = assert!(size_of::<Rating>() == 24);
const _: () = assert!(size_of::<Fits>() == 8);
const _: () = assert!(size_of::<Form>() == 16);
const _: () = assert!(size_of::<Explained>() == 64);

extern "C" {
    fn gettext_c_empty(
        codes: *mut [u8; 512],
        places: *mut [u16; 1024],
        values: *mut [u64; 512],
    ) -> Loaded;
    fn gettext_c_load(
        file: *const u8,
        file_len: usize,
        rule: *const u8,
        rule_len: usize,
        forced: u32,
        standard: u32,
        utf8: u32,
        fit: u32,
        codes: *mut [u8; 512],
        places: *mut [u16; 1024],
        values: *mut [u64; 512],
    ) -> Loaded;
    fn gettext_c_gettext(
        file: *const u8,
        file_len: usize,
        head: *const Head,
        given: u32,
        context: *const u8,
        context_len: usize,
        id: *const u8,
        id_len: usize,
    ) -> Answer;
    fn gettext_c_ngettext(
        file: *const u8,
        file_len: usize,
        head: *const Head,
        codes: *const [u8; 512],
        places: *const [u16; 1024],
        values: *const [u64; 512],
        given: u32,
        context: *const u8,
        context_len: usize,
        id: *const u8,
        id_len: usize,
        n: u64,
    ) -> Answer;
    fn gettext_c_slots(head: *const Head) -> usize;
    fn gettext_c_index(
        file: *const u8,
        file_len: usize,
        head: *const Head,
        slots: *mut u32,
        slots_len: usize,
    ) -> u32;
    fn gettext_c_gettext_indexed(
        file: *const u8,
        file_len: usize,
        head: *const Head,
        slots: *const u32,
        slots_len: usize,
        given: u32,
        context: *const u8,
        context_len: usize,
        id: *const u8,
        id_len: usize,
    ) -> Answer;
    fn gettext_c_ngettext_indexed(
        file: *const u8,
        file_len: usize,
        head: *const Head,
        slots: *const u32,
        slots_len: usize,
        codes: *const [u8; 512],
        places: *const [u16; 1024],
        values: *const [u64; 512],
        given: u32,
        context: *const u8,
        context_len: usize,
        id: *const u8,
        id_len: usize,
        n: u64,
    ) -> Answer;
    fn gettext_c_rating(
        head: *const Head,
        codes: *const [u8; 512],
        places: *const [u16; 1024],
        values: *const [u64; 512],
    ) -> Rating;
    fn gettext_c_fits(
        head: *const Head,
        codes: *const [u8; 512],
        places: *const [u16; 1024],
        values: *const [u64; 512],
        k: u64,
    ) -> Fits;
    fn gettext_c_resolve(
        head: *const Head,
        codes: *const [u8; 512],
        places: *const [u16; 1024],
        values: *const [u64; 512],
        n: u64,
    ) -> Form;
    fn gettext_c_span(
        head: *const Head,
        codes: *const [u8; 512],
        places: *const [u16; 1024],
        values: *const [u64; 512],
        a: u64,
        b: u64,
        figures: *mut [u64; 18],
    ) -> u32;
    fn gettext_c_text(
        head: *const Head,
        codes: *const [u8; 512],
        places: *const [u16; 1024],
        values: *const [u64; 512],
        buffer: *mut u8,
        buffer_len: usize,
    ) -> Written;
    fn gettext_c_why_ngettext(
        file: *const u8,
        file_len: usize,
        head: *const Head,
        codes: *const [u8; 512],
        places: *const [u16; 1024],
        values: *const [u64; 512],
        given: u32,
        context: *const u8,
        context_len: usize,
        id: *const u8,
        id_len: usize,
        n: u64,
    ) -> Explained;
    fn gettext_c_is_utf8(text: *const u8, text_len: usize) -> u32;
    fn gettext_c_cost(file: *const u8, file_len: usize) -> u64;
}

/// A record for a load to write.
pub fn blank() -> Box<Record> {
    Box::new(Record {
        head: Head {
            length: 0,
            count: 0,
            originals: 0,
            translations: 0,
            big: 0,
            nodes: 0,
            root: 0,
        },
        values: [0; 512],
        places: [0; 1024],
        codes: [0; 512],
        forms: 0,
        counted: 0,
    })
}

/// The empty catalog.
pub fn empty() -> Box<Record> {
    let mut r = blank();
    // SAFETY: the record's arrays live for the call, which writes them.
    r.head = unsafe { gettext_c_empty(&mut r.codes, &mut r.places, &mut r.values) }.head;
    r
}

/// Loads into a record and answers how it went. `rule` is read where it is given.
pub fn load(
    file: &[u8],
    rule: Option<&[u8]>,
    standard: bool,
    utf8: bool,
    fit: bool,
    r: &mut Record,
) -> Loaded {
    let text = rule.unwrap_or(&[]);
    // SAFETY: both slices live for the call and are only read; the record's arrays live for the call, which writes them.
    let loaded = unsafe {
        gettext_c_load(
            file.as_ptr(),
            file.len(),
            text.as_ptr(),
            text.len(),
            u32::from(rule.is_some()),
            u32::from(standard),
            u32::from(utf8),
            u32::from(fit),
            &mut r.codes,
            &mut r.places,
            &mut r.values,
        )
    };
    r.head = loaded.head;
    r.forms = loaded.forms;
    r.counted = loaded.counted;
    loaded
}

/// How many slots the index of a record uses.
pub fn slots(r: &Record) -> usize {
    // SAFETY: the head lives for the call and is only read.
    unsafe { gettext_c_slots(&r.head) }
}

/// Builds the index of a record and its file, and answers the number.
pub fn index(file: &[u8], r: &Record, slots: &mut [u32]) -> u32 {
    // SAFETY: the file and the head live for the call and are only read; the slots live for the call, which writes them.
    unsafe {
        gettext_c_index(
            file.as_ptr(),
            file.len(),
            &r.head,
            slots.as_mut_ptr(),
            slots.len(),
        )
    }
}

// The lookups: in slots where an index is given, else by the scan; with the context, where one is given. In each, what goes as a pointer lives
// for the call and is only read. They are made part of what calls them, in the caller's crate too, so that of an answer, which the library gives in memory,
// only what is asked for is read.

/// Whether a context is given, and its bytes.
#[inline]
fn flagged(context: Option<&[u8]>) -> (u32, &[u8]) {
    (u32::from(context.is_some()), context.unwrap_or(&[]))
}

/// `gettext`, and with a context `pgettext`.
#[inline]
pub fn gettext(
    file: &[u8],
    r: &Record,
    slots: Option<&[u32]>,
    context: Option<&[u8]>,
    id: &[u8],
) -> Answer {
    let (bytes, size) = (file.as_ptr(), file.len());
    let (given, context) = flagged(context);
    match slots {
        // SAFETY: see above.
        None => unsafe {
            gettext_c_gettext(
                bytes,
                size,
                &r.head,
                given,
                context.as_ptr(),
                context.len(),
                id.as_ptr(),
                id.len(),
            )
        },
        // SAFETY: see above.
        Some(slots) => unsafe {
            gettext_c_gettext_indexed(
                bytes,
                size,
                &r.head,
                slots.as_ptr(),
                slots.len(),
                given,
                context.as_ptr(),
                context.len(),
                id.as_ptr(),
                id.len(),
            )
        },
    }
}

/// `ngettext`, and with a context `npgettext`.
#[inline]
pub fn ngettext(
    file: &[u8],
    r: &Record,
    slots: Option<&[u32]>,
    context: Option<&[u8]>,
    id: &[u8],
    n: u64,
) -> Answer {
    let (bytes, size) = (file.as_ptr(), file.len());
    let (given, context) = flagged(context);
    match slots {
        // SAFETY: see above.
        None => unsafe {
            gettext_c_ngettext(
                bytes,
                size,
                &r.head,
                &r.codes,
                &r.places,
                &r.values,
                given,
                context.as_ptr(),
                context.len(),
                id.as_ptr(),
                id.len(),
                n,
            )
        },
        // SAFETY: see above.
        Some(slots) => unsafe {
            gettext_c_ngettext_indexed(
                bytes,
                size,
                &r.head,
                slots.as_ptr(),
                slots.len(),
                &r.codes,
                &r.places,
                &r.values,
                given,
                context.as_ptr(),
                context.len(),
                id.as_ptr(),
                id.len(),
                n,
            )
        },
    }
}

/// Why `ngettext` of the same answers as it does.
pub fn why(file: &[u8], r: &Record, context: Option<&[u8]>, id: &[u8], n: u64) -> Explained {
    let (given, context) = flagged(context);
    // SAFETY: see above.
    unsafe {
        gettext_c_why_ngettext(
            file.as_ptr(),
            file.len(),
            &r.head,
            &r.codes,
            &r.places,
            &r.values,
            given,
            context.as_ptr(),
            context.len(),
            id.as_ptr(),
            id.len(),
            n,
        )
    }
}

pub fn rating(r: &Record) -> Rating {
    // SAFETY: the record's arrays live for the call and are only read.
    unsafe { gettext_c_rating(&r.head, &r.codes, &r.places, &r.values) }
}

pub fn fits(r: &Record, k: u64) -> Fits {
    // SAFETY: the record's arrays live for the call and are only read.
    unsafe { gettext_c_fits(&r.head, &r.codes, &r.places, &r.values, k) }
}

pub fn resolve(r: &Record, n: u64) -> Form {
    // SAFETY: the record's arrays live for the call and are only read.
    unsafe { gettext_c_resolve(&r.head, &r.codes, &r.places, &r.values, n) }
}

/// Writes the text of a record's rule.
pub fn text(r: &Record, buffer: &mut [u8]) -> Written {
    // SAFETY: the record's arrays live for the call and are only read; the buffer lives for the call, which writes it.
    unsafe {
        gettext_c_text(
            &r.head,
            &r.codes,
            &r.places,
            &r.values,
            buffer.as_mut_ptr(),
            buffer.len(),
        )
    }
}

pub fn span(r: &Record, a: u64, b: u64, figures: &mut [u64; 18]) -> u32 {
    // SAFETY: the record's arrays live for the call and are only read; the figures live for the call, which writes them.
    unsafe { gettext_c_span(&r.head, &r.codes, &r.places, &r.values, a, b, figures) }
}

pub fn is_utf8(text: &[u8]) -> bool {
    // SAFETY: the slice lives for the call and is only read.
    unsafe { gettext_c_is_utf8(text.as_ptr(), text.len()) != 0 }
}

pub fn cost(file: &[u8]) -> u64 {
    // SAFETY: the slice lives for the call and is only read.
    unsafe { gettext_c_cost(file.as_ptr(), file.len()) }
}
