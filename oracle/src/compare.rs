// One input given to both, and the answers held together. What differs is explained by a rule of document 01's domain, or it is a
// difference; a difference is made smaller as long as it stays one.
use crate::{forms, located};
use crate::make::{self, Entry, COUNTS};
use crate::rattle::{cost, empty, Answer, Lent, Ours, Record};
use crate::rng::Rng;
use gettext::{Catalog, Error, ParseOptions};
use std::cell::{Cell, RefCell};
use std::collections::BTreeMap;
use std::panic::{catch_unwind, AssertUnwindSafe};

thread_local! {
    // set while the crate runs: its panics are answers here
    pub static QUIET: Cell<bool> = const { Cell::new(false) };
    // the case at hand, for the message of a fault
    pub static CASE: Cell<u64> = const { Cell::new(0) };
    // the rule that `forced` answers by
    static FORCED: RefCell<Option<Catalog>> = const { RefCell::new(None) };
}

pub fn quietly<T>(f: impl FnOnce() -> T) -> Option<T> {
    QUIET.with(|quiet| quiet.set(true));
    let answer = catch_unwind(AssertUnwindSafe(f)).ok();
    QUIET.with(|quiet| quiet.set(false));
    answer
}

pub enum Theirs {
    Loads(Catalog),
    Refuses(u32),
    Panics,
}

impl Theirs {
    fn says(&self) -> String {
        match self {
            Theirs::Loads(_) => "loads".into(),
            Theirs::Refuses(number) => format!("refuses ({number})"),
            Theirs::Panics => "panics".into(),
        }
    }

    // The same for a kind of difference: a crate that reads on may meet anything later.
    fn does(&self) -> &'static str {
        match self {
            Theirs::Loads(_) => "loads",
            Theirs::Refuses(_) => "reads on and refuses",
            Theirs::Panics => "panics",
        }
    }
}

fn number(e: &Error) -> u32 {
    match e {
        Error::Eof => 1,
        Error::BadMagic => 2,
        Error::DecodingError => 3,
        Error::MalformedMetadata => 4,
        Error::MisplacedMetadata => 5,
        Error::PluralParsing => 6,
        Error::UnknownEncoding => 7,
        Error::Io(_) => 99,
    }
}

pub fn theirs(file: &[u8], forced: bool) -> Theirs {
    let parse = || {
        let options = ParseOptions::new();
        let options = if forced { options.force_plural(forced_form) } else { options };
        options.parse(file)
    };
    match quietly(parse) {
        Some(Ok(catalog)) => Theirs::Loads(catalog),
        Some(Err(e)) => Theirs::Refuses(number(&e)),
        None => Theirs::Panics,
    }
}

// The form of the forced rule, by the crate's own reading of it; of forms above 63 only that no entry has them.
fn forced_form(n: u64) -> usize {
    FORCED.with(|rule| {
        let rule = rule.borrow();
        match rule.as_ref().unwrap().ngettext("p", "", n).bytes().next() {
            Some(sign) => (sign - FIRST_SIGN) as usize,
            None => usize::MAX,
        }
    })
}

pub const NOT_GIVEN: &str = "forced rule outside ASCII: 6 or 8, not given to the crate";
const FIRST_SIGN: u8 = b'0';
const RULE_FIELD: &[u8] = b"Plural-Forms:plural=";
const RULE_AT: usize = 191;

// A catalog with a rule, and where two entries are asked for, an entry "p" whose 64 forms are 64 signs.
pub fn rule_file(rule: &[u8], entries: u32, file: &mut Vec<u8>) {
    file.clear();
    file.extend(make::magic(false));
    for x in [0, entries, 28, 44, 0, 0, 0, 60, 1, 61, (RULE_FIELD.len() + rule.len()) as u32, RULE_AT as u32, 127, 63] {
        file.extend(make::word(false, x));
    }
    file.extend(b"\0p\0");
    for sign in 0..64 {
        file.extend([FIRST_SIGN + sign, 0]);
    }
    assert!(file.len() == RULE_AT);
    file.extend(RULE_FIELD);
    file.extend(rule);
    file.push(0);
}

#[derive(Default)]
pub struct Stats {
    pub cases: u64,
    pub lookups: u64,
    pub values: u64,
    pub indexes: u64,
    // refused loads by the side that they name, 0 none
    pub places: [u64; 5],
    pub numbers: [u64; 14],
    // reasons by their kind, 1 to 6
    pub reasons: [u64; 7],
    // each kind of explained difference: how often, and its shortest header or rule
    pub kinds: BTreeMap<String, (u64, Vec<u8>)>,
}

impl Stats {
    pub fn add(&mut self, other: Stats) {
        self.cases += other.cases;
        self.lookups += other.lookups;
        self.values += other.values;
        self.indexes += other.indexes;
        for (sum, x) in self.places.iter_mut().zip(other.places) {
            *sum += x;
        }
        for (sum, x) in self.numbers.iter_mut().zip(other.numbers) {
            *sum += x;
        }
        for (sum, x) in self.reasons.iter_mut().zip(other.reasons) {
            *sum += x;
        }
        for (kind, (times, example)) in other.kinds {
            self.explain(kind, times, &example);
        }
    }

    fn explain(&mut self, kind: String, times: u64, example: &[u8]) {
        let seen = self.kinds.entry(kind).or_insert_with(|| (0, example.to_vec()));
        seen.0 += times;
        let rank = |text: &[u8]| (text.is_empty(), text.len(), text.to_vec());
        if rank(example) < rank(&seen.1) {
            seen.1 = example.to_vec();
        }
    }
}

pub struct Oracle {
    pub lent: Lent,
    empty: Record,
    pub stats: Stats,
    buffer: Vec<u8>,
    tree: String,
}

pub fn six(b: char) -> bool {
    matches!(b, '\t'..='\r' | ' ')
}

fn word_in(file: &[u8], big: bool, at: usize) -> Option<usize> {
    Some(if at.checked_add(4)? <= file.len() { make::word_at(file, big, at) as usize } else { return None })
}

pub fn string(file: &[u8], big: bool, table: usize, i: usize, more: usize) -> Option<&[u8]> {
    let len = word_in(file, big, table + 8 * i)?;
    let at = word_in(file, big, table + 8 * i + 4)?;
    file.get(at..at + len + more)
}

pub fn order(file: &[u8]) -> Option<bool> {
    [false, true].into_iter().find(|&big| file.len() >= 28 && file[..4] == make::magic(big))
}

// What a load costs: the lengths that the tables state, where the head is one and as far as a cell lies in the file.
fn cost_of(file: &[u8]) -> u64 {
    let Some(big) = order(file) else { return 0 };
    let tables = [12, 16].map(|at| make::word_at(file, big, at) as usize);
    if tables.iter().any(|&table| table > file.len()) {
        return 0;
    }
    let stated = |table: usize| {
        let cells = file[table..].chunks_exact(8).take(count(file, big));
        cells.map(|cell| u128::from(make::word_at(cell, big, 0))).sum::<u128>()
    };
    tables.into_iter().map(stated).sum::<u128>().min(u128::from(u64::MAX)) as u64
}

// The key of entry i, by the oracle's own reading of the file.
pub fn key(file: &[u8], big: bool, i: usize) -> Option<&[u8]> {
    let original = string(file, big, word_in(file, big, 12)?, i, 1)?;
    let context = original.iter().position(|&b| b == 4).map_or(0, |at| at + 1);
    let end = original[context..].iter().position(|&b| b == 0)?;
    Some(&original[..context + end])
}

pub fn count(file: &[u8], big: bool) -> usize {
    word_in(file, big, 8).unwrap_or(0)
}

// The header, where entry 0 has one.
pub fn header_of(file: &[u8]) -> Option<&str> {
    let big = order(file)?;
    if count(file, big) == 0 {
        return None;
    }
    let key = key(file, big, 0)?;
    // the context ends at the first byte 4; an id may be a byte 4 itself
    let id = key.iter().position(|&b| b == 4).map_or(key, |at| &key[at + 1..]);
    if !id.is_empty() {
        return None;
    }
    let translation = string(file, big, word_in(file, big, 16)?, 0, 0)?;
    std::str::from_utf8(translation.split(|&b| b == 0).next()?).ok()
}

// Nothing else that is read lies in the header's bytes.
fn alone(file: &[u8], start: usize, end: usize) -> bool {
    let Some(big) = order(file) else { return false };
    let n = count(file, big);
    let tables = [12, 16].map(|at| word_in(file, big, at).unwrap_or(0));
    let apart = |from: usize, to: usize| to <= start || end <= from;
    let string_apart = |table: usize, i: usize| match string(file, big, table, i, 1) {
        Some(string) => {
            let from = string.as_ptr() as usize - file.as_ptr() as usize;
            apart(from, from + string.len())
        }
        None => true,
    };
    n <= 64
        && apart(0, 28)
        && tables.iter().all(|&table| apart(table, table + 8 * n))
        && (0..n).all(|i| string_apart(tables[0], i) && (i == 0 || string_apart(tables[1], i)))
}

pub fn field<'a>(header: &'a str, name: &str) -> Option<&'a str> {
    let fields = header.split('\n').filter_map(|line| line.split_once(':'));
    fields.filter(|(before, _)| before.trim() == name).map(|(_, value)| value.trim()).last()
}

pub fn rule_of(header: &str) -> Option<&str> {
    let parts = field(header, "Plural-Forms")?.split(';').filter_map(|part| part.split_once('='));
    parts.filter(|(name, _)| name.trim_matches(six) == "plural").map(|(_, rule)| rule.trim()).last()
}

pub fn is_utf8_label(label: &str) -> bool {
    let label = label.trim_matches(['\t', '\n', '\x0c', '\r', ' ']).to_ascii_lowercase();
    ["utf-8", "utf8", "unicode-1-1-utf-8"].contains(&label.as_str())
}

// Why the two may differ on a file with this header, where documents 01 and 02 put it outside the domain. White space outside ASCII is in it
// around names, values and rules; before the first "=" of a piece of Plural-Forms it is not, since the crate counts characters to it and
// cuts bytes.
fn outside(header: &str) -> Option<&'static str> {
    let forms = field(header, "Plural-Forms").unwrap_or("");
    let names = || forms.split(';').filter_map(|piece| piece.split_once('=')).map(|(name, _)| name);
    if !rule_of(header).unwrap_or("").is_ascii() || names().any(|name| !name.trim().is_ascii()) {
        return Some("Plural-Forms outside ASCII");
    }
    if names().any(|name| !name.is_ascii()) {
        return Some("white space outside ASCII before the first = of a piece");
    }
    None
}

// White space that is trimmed, as blanks; every other byte outside ASCII as a sign that nothing reads.
fn without(header: &str) -> Vec<u8> {
    fn spelled(text: &str, out: &mut Vec<u8>, white: fn(char) -> bool) {
        let start = text.len() - text.trim_start_matches(white).len();
        let end = text.trim_end_matches(white).len().max(start);
        let blank = |b: u8| if b.is_ascii() { b } else { b' ' };
        out.extend(text[..start].bytes().map(blank));
        out.extend(text[start..end].bytes().map(|b| if b.is_ascii() { b } else { b'~' }));
        out.extend(text[end..].bytes().map(blank));
    }
    let mut out = Vec::new();
    for (i, line) in header.split('\n').enumerate() {
        if i > 0 {
            out.push(b'\n');
        }
        let Some((name, value)) = line.split_once(':') else {
            spelled(line, &mut out, six);
            continue;
        };
        spelled(name, &mut out, char::is_whitespace);
        out.push(b':');
        if name.trim() != "Plural-Forms" {
            spelled(value, &mut out, char::is_whitespace);
            continue;
        }
        let start = value.len() - value.trim_start().len();
        let end = value.trim_end().len().max(start);
        spelled(&value[..start], &mut out, char::is_whitespace);
        for (j, piece) in value[start..end].split(';').enumerate() {
            if j > 0 {
                out.push(b';');
            }
            let (name, rule) = piece.split_once('=').map_or((piece, None), |(name, rule)| (name, Some(rule)));
            spelled(name, &mut out, six);
            if let Some(rule) = rule {
                out.push(b'=');
                spelled(rule, &mut out, char::is_whitespace);
            }
        }
        spelled(&value[end..], &mut out, char::is_whitespace);
    }
    out
}

// The kind of a difference between two loads, where there is one that document 01 names.
fn kind(file: &[u8], ours: u32, theirs: &Theirs, forced: bool) -> Option<String> {
    let header = header_of(file)?;
    let does = theirs.does();
    if let Some(why) = outside(header) {
        return Some(format!("{why}: {ours}, the crate {does}"));
    }
    let label = field(header, "Content-Type").and_then(|value| value.split("charset=").nth(1));
    if ours == 7 && label.is_some_and(|label| !is_utf8_label(label)) {
        return Some(format!("label of another charset: 7, the crate {does}"));
    }
    if forced {
        return None;
    }
    let rule = rule_of(header)?;
    if ours == 8 && rule.len() > 512 {
        return Some(format!("rule over 512 bytes: 8, the crate {does}"));
    }
    if ours == 6 && rule.len() <= 512 && rule.contains('(') && matches!(theirs, Theirs::Panics) {
        return Some(format!("piece that is a lone bracket: 6, the crate {does}"));
    }
    None
}

pub fn hex(bytes: &[u8]) -> String {
    bytes.iter().map(|b| format!("{b:02x}")).collect()
}

// How lookups are asked: a few keys and counts, or so many keys spread over the file.
#[derive(Clone, Copy, PartialEq)]
pub enum Depth {
    Some,
    Keys(usize),
}

impl Oracle {
    pub fn new() -> Oracle {
        Oracle { lent: Lent::new(), empty: *empty(), stats: Stats::default(), buffer: Vec::new(), tree: String::new() }
    }

    fn explained(&mut self, kind: String, file: &[u8]) {
        let header = header_of(file).unwrap_or("");
        self.stats.explain(kind, 1, header.as_bytes());
    }

    // A file in both, as `twin` in the crate: the same file, but where UTF-8 is forced, one whose header has no label.
    pub fn file(
        &mut self,
        rng: &mut Rng,
        bytes: &[u8],
        twin: &[u8],
        forced: Option<&[u8]>,
        utf8: bool,
        depth: Depth,
    ) -> Result<(), String> {
        self.stats.cases += 1;
        let at_start = rng.one_in(4);
        let file = self.lent.file.put(bytes, at_start);
        let rule = forced.map(|rule| self.lent.rule.put(rule, at_start));
        if cost(file) != cost_of(bytes) {
            return Err(format!("cost {}, the tables state {}", cost(file), cost_of(bytes)));
        }
        let ours = self.lent.load(file, rule, false, utf8);
        self.located(bytes, &ours, forced.is_some(), utf8)?;
        let kept = forms::kept(bytes, ours.number);
        if ours.forms != kept {
            return Err(format!("count {:?}, by the words {kept:?}", ours.forms));
        }
        let theirs = theirs(twin, forced.is_some());
        match &theirs {
            Theirs::Loads(catalog) if ours.number == 0 => {
                let t = ours.catalog.head;
                let big = order(bytes).ok_or("loaded without a magic")?;
                let fields = [t.length, t.big, t.count, t.originals, t.translations];
                let wanted = [
                    bytes.len(),
                    big as usize,
                    count(bytes, big),
                    word_in(bytes, big, 12).unwrap(),
                    word_in(bytes, big, 16).unwrap(),
                ];
                if fields != wanted {
                    return Err(format!("record {fields:?}, the file {wanted:?}"));
                }
                self.stats.numbers[0] += 1;
                if let Err(e) = self.lookups(rng, file, twin, &ours, catalog, big, depth) {
                    return match header_of(twin).and_then(outside) {
                        Some(why) => {
                            self.explained(format!("{why}: 0, the crate loads, lookups differ"), twin);
                            self.in_ascii(rng, file, twin, &ours, forced.is_some(), depth)
                        }
                        None => Err(e),
                    };
                }
                Ok(())
            }
            Theirs::Refuses(number) if ours.number == *number => {
                self.stats.numbers[*number as usize] += 1;
                self.refused(rng, file, &ours)
            }
            _ => {
                let Some(kind) = kind(twin, ours.number, &theirs, forced.is_some()) else {
                    return Err(format!("load: {}, the crate {}", ours.number, theirs.says()));
                };
                self.explained(kind, twin);
                if ours.number != 0 {
                    self.refused(rng, file, &ours)?;
                }
                if header_of(twin).and_then(outside).is_some() {
                    self.in_ascii(rng, file, twin, &ours, forced.is_some(), depth)?;
                }
                Ok(())
            }
        }
    }

    // A load ends with the number and at the place that the words give.
    pub fn located(&mut self, bytes: &[u8], ours: &Ours, forced: bool, utf8: bool) -> Result<(), String> {
        let told = located::told(bytes, forced, utf8, ours.number);
        if ours.told() != told {
            return Err(format!("{:?}, by the words {told:?}", ours.told()));
        }
        self.stats.places[told.side as usize] += (told.number != 0) as u64;
        Ok(())
    }

    // A header outside the domain is held to what the crate says of it with blanks for white space that is trimmed and a sign that nothing
    // reads for each other byte outside ASCII: such a byte is a part of nothing that is read.
    fn in_ascii(&mut self, rng: &mut Rng, file: &[u8], twin: &[u8], ours: &Ours, forced: bool, depth: Depth) -> Result<(), String> {
        let Some(header) = header_of(twin) else { return Ok(()) };
        let start = header.as_ptr() as usize - twin.as_ptr() as usize;
        if !alone(twin, start, start + header.len()) {
            return Ok(());
        }
        let mut plain = twin.to_vec();
        plain[start..start + header.len()].copy_from_slice(&without(header));
        match theirs(&plain, forced) {
            Theirs::Loads(catalog) if ours.number == 0 => {
                let big = order(file).unwrap_or(false);
                self.lookups(rng, file, &plain, ours, &catalog, big, depth).map_err(|e| format!("with ~ outside ASCII: {e}"))
            }
            Theirs::Refuses(number) if ours.number == number => Ok(()),
            other if kind(&plain, ours.number, &other, forced).is_some() => Ok(()),
            other => Err(format!("load: {}, the crate with ~ outside ASCII {}", ours.number, other.says())),
        }
    }

    // A refused load's record is the empty catalog, and gives 11 with any bytes but none.
    fn refused(&mut self, rng: &mut Rng, file: &[u8], ours: &Ours) -> Result<(), String> {
        if !ours.catalog.same(&self.empty) {
            return Err(format!("refused ({}), but the record is not the empty one", ours.number));
        }
        if rng.one_in(16) {
            let id = self.lent.id.put(b"a", false);
            for (bytes, number) in [(file, if file.is_empty() { 0 } else { 11 }), (&file[..0], 0)] {
                for (n, which) in [(0, 2), (1, 1), (2, 2)] {
                    let fallback = |which| Answer { number, which, entry: 0, form: 0, start: 0, len: 0 };
                    if ours.ngettext(bytes, id, n) != fallback(which) || ours.gettext(bytes, id) != fallback(1) {
                        return Err(format!("lookup with the empty record in {} bytes", bytes.len()));
                    }
                }
            }
        }
        Ok(())
    }

    // The empty catalog answers with the caller's own texts.
    pub fn empty_catalog(&mut self, rng: &mut Rng) -> Result<(), String> {
        let record = self.empty;
        let ours = Ours { number: 0, side: 0, entry: None, forms: None, catalog: &record, slots: None };
        let file = self.lent.file.put(b"", false);
        for key in [&b""[..], b"a", b"a\x04b"] {
            self.ask(rng, file, b"", &ours, &Catalog::empty(), key, &COUNTS)?;
        }
        Ok(())
    }

    fn lookups(
        &mut self,
        rng: &mut Rng,
        file: &[u8],
        texts: &[u8],
        ours: &Ours,
        theirs: &Catalog,
        big: bool,
        depth: Depth,
    ) -> Result<(), String> {
        let entries = count(file, big);
        // every lookup from here on is made by the scan and by an index
        let slots = self.build(rng, file, ours)?;
        let ours = &Ours { slots, ..*ours };
        if let Depth::Keys(most) = depth {
            for i in (0..entries).step_by((entries / most).max(1)) {
                if let Some(key) = key(file, big, i) {
                    let counts: &[u64] = if i < 200 || i % 64 == 0 { &COUNTS } else { &[1, 5] };
                    self.ask(rng, file, texts, ours, theirs, key, counts)?;
                }
            }
            for i in 0..entries.min(50).min(most) {
                if let Some(key) = key(file, big, i) {
                    let near = near(rng, key);
                    self.ask(rng, file, texts, ours, theirs, &near, &[0, 1, 2])?;
                }
            }
            return Ok(());
        }
        if slots.is_some() {
            for key in (0..entries).filter_map(|i| key(file, big, i)).filter(|key| key.len() <= self.lent.id.room()) {
                let answer = ours.gettext(file, self.lent.id.put(key, false));
                self.stats.lookups += 1;
                if answer.number != 0 || answer.which != 0 {
                    return Err(format!("key {} by scan and index: {answer:?}", hex(key)));
                }
            }
        }
        let most = entries.min(6);
        let first = if entries > most { rng.below(entries - most + 1) } else { 0 };
        let all = rng.one_in(8);
        for i in first..first + most {
            if let Some(key) = key(file, big, i) {
                let counts = [*rng.pick(&COUNTS), *rng.pick(&COUNTS), rng.next()];
                let counts: &[u64] = if all && i == first { &COUNTS } else { &counts[..if rng.one_in(8) { 3 } else { 2 }] };
                self.ask(rng, file, texts, ours, theirs, key, counts)?;
                if rng.one_in(3) {
                    let near = near(rng, key);
                    self.ask(rng, file, texts, ours, theirs, &near, &counts[..1])?;
                }
            }
        }
        let counts = [*rng.pick(&COUNTS)];
        let other = *rng.pick(&[&b""[..], b"a", b"none", b"\x04", b"a\x04b", b"\x04x"]);
        self.ask(rng, file, texts, ours, theirs, other, &counts)
    }

    // All four lookups of a key, with its context where it has one.
    fn ask(
        &mut self,
        rng: &mut Rng,
        file: &[u8],
        texts: &[u8],
        ours: &Ours,
        theirs: &Catalog,
        key: &[u8],
        counts: &[u64],
    ) -> Result<(), String> {
        // the crate's keys are texts
        if std::str::from_utf8(key).is_err() || key.len() > self.lent.id.room() {
            return Ok(());
        }
        let at_start = rng.one_in(4);
        let plural = self.lent.plural.put(b"plural", at_start);
        let id = self.lent.id.put(key, at_start);
        let (plural_text, id_text) = unsafe { (std::str::from_utf8_unchecked(plural), std::str::from_utf8_unchecked(id)) };
        let told = |what: &str, context: &[u8], n: Option<u64>, a: Answer, t: Option<&str>| {
            format!("{what} {} {} {n:?}: {a:?}, the crate {:?}", hex(context), hex(key), t)
        };
        let answer = ours.gettext(file, id);
        let text = theirs.gettext(id_text);
        self.stats.lookups += 1;
        if !same(texts, id, plural, None, answer, Some(text)) || !placed(file, key, Some(0), answer) {
            return Err(told("gettext", b"", None, answer, Some(text)));
        }
        for &n in counts {
            let answer = ours.ngettext(file, id, n);
            let text = quietly(|| theirs.ngettext(id_text, plural_text, n));
            self.stats.lookups += 1;
            let form = Some(ours.resolve_at(n)).filter(|form| form.number == 0).map(|form| form.form);
            if !same(texts, id, plural, Some(n), answer, text) || !placed(file, key, form, answer) {
                return Err(told("ngettext", b"", Some(n), answer, text));
            }
            self.why(file, ours, None, id, n, answer)?;
            self.zero(texts, answer);
        }
        let fours: Vec<usize> = (0..key.len()).filter(|&i| key[i] == 4).take(3).collect();
        let mut splits: Vec<(&[u8], &[u8])> = fours.iter().map(|&i| (&key[..i], &key[i + 1..])).collect();
        if splits.is_empty() && rng.one_in(3) {
            let context: &[u8] = [&b""[..], b"a", b"ab"][rng.below(3)];
            splits.push((context, key));
        }
        for (context, part) in splits {
            let context = self.lent.context.put(context, at_start);
            let id = self.lent.id.put(part, at_start);
            let (context_text, id_text) = unsafe { (std::str::from_utf8_unchecked(context), std::str::from_utf8_unchecked(id)) };
            let whole = [context, b"\x04", id].concat();
            let answer = ours.pgettext(file, context, id);
            let text = theirs.pgettext(context_text, id_text);
            self.stats.lookups += 1;
            if !same(texts, id, plural, None, answer, Some(text)) || !placed(file, &whole, Some(0), answer) {
                return Err(told("pgettext", context, None, answer, Some(text)));
            }
            for &n in counts {
                let answer = ours.npgettext(file, context, id, n);
                let text = quietly(|| theirs.npgettext(context_text, id_text, plural_text, n));
                self.stats.lookups += 1;
                let form = Some(ours.resolve_at(n)).filter(|form| form.number == 0).map(|form| form.form);
                if !same(texts, id, plural, Some(n), answer, text) || !placed(file, &whole, form, answer) {
                    return Err(told("npgettext", context, Some(n), answer, text));
                }
                self.why(file, ours, Some(context), id, n, answer)?;
                self.zero(texts, answer);
            }
        }
        Ok(())
    }

    fn zero(&mut self, file: &[u8], answer: Answer) {
        if answer.number == 10 {
            self.stats.numbers[10] += 1;
            // under a forced rule the header does not show it
            let example = header_of(file).filter(|header| header.contains('%')).unwrap_or("").as_bytes();
            self.stats.explain("remainder by zero: lookups give 10, the crate panics".into(), 1, example);
        }
    }

    // A rule: by a header in both, and forced in ours; the tree, and its values at the counts.
    pub fn rule(&mut self, rng: &mut Rng, rule: &[u8], counts: &[u64]) -> Result<(), String> {
        self.stats.cases += 1;
        // a header cannot hold these three: two signs that no rule has, and white space
        let in_header: Vec<u8> = rule
            .iter()
            .map(|&b| {
                if b == 0 || b == b';' {
                    b'#'
                } else if b == 10 {
                    13
                } else {
                    b
                }
            })
            .collect();
        let mut file = std::mem::take(&mut self.buffer);
        rule_file(&in_header, 2, &mut file);
        let result = self.rule_in(rng, rule, &in_header, &mut file, counts);
        self.buffer = file;
        result
    }

    fn rule_in(&mut self, rng: &mut Rng, rule: &[u8], in_header: &[u8], file: &mut Vec<u8>, counts: &[u64]) -> Result<(), String> {
        let at_start = rng.one_in(4);
        let lent = self.lent.file.put(file, at_start);
        let text = self.lent.rule.put(rule, at_start);
        let read = trimmed(rule);
        let trimmed = read.len();
        if !read.is_ascii() {
            // outside the domain: only this port's own answer is held to document 01
            let loaded = self.lent.load(lent, Some(text), false, false);
            self.located(lent, &loaded, true, false)?;
            let ours = loaded.number;
            let wanted = if trimmed > 512 { 8 } else { 6 };
            if ours != wanted {
                return Err(format!("rule outside ASCII, forced: {ours}, not {wanted}"));
            }
            self.stats.explain(NOT_GIVEN.into(), 1, rule);
            return Ok(());
        }
        let ours = self.lent.load(lent, None, false, false);
        self.located(lent, &ours, false, false)?;
        let number = ours.number;
        let record = if number == 0 { Some(*ours.catalog) } else { None };
        let forced = self.lent.load(lent, Some(text), false, false);
        self.located(lent, &forced, true, false)?;
        if forced.number != number {
            return Err(format!("forced {}, by header {number}", forced.number));
        }
        let answer = theirs(file, false);
        let does = answer.does();
        match answer {
            Theirs::Loads(_) | Theirs::Refuses(6) | Theirs::Panics if number == 8 && trimmed > 512 => {
                self.explained(format!("rule over 512 bytes: 8, the crate {does}"), file);
                Ok(())
            }
            Theirs::Panics if number == 6 && trimmed <= 512 && rule.contains(&b'(') => {
                self.explained(format!("piece that is a lone bracket: 6, the crate {does}"), file);
                Ok(())
            }
            Theirs::Refuses(6) if number == 6 && trimmed <= 512 => {
                self.stats.numbers[6] += 1;
                Ok(())
            }
            Theirs::Loads(catalog) if number == 0 && trimmed <= 512 => {
                self.stats.numbers[0] += 1;
                let record = record.unwrap();
                if !forced.catalog.same_rule(&record) {
                    return Err("the forced rule's nodes are not those of the header's".into());
                }
                self.values(lent, &forced, &record, &catalog, counts)?;
                rule_file(in_header, 1, file);
                let Theirs::Loads(alone) = theirs(file, false) else {
                    return Err("the crate reads the rule in one file and not in the other".into());
                };
                self.tree.clear();
                self.tree.push_str("resolver: Expr(");
                record.write_tree(record.head.root, &mut self.tree);
                self.tree.push_str(") }");
                let told = format!("{alone:?}");
                if !told.ends_with(&self.tree) {
                    let theirs = told.rfind("resolver: ").map_or("", |at| &told[at..]);
                    return Err(format!("tree {}, the crate {theirs}", self.tree));
                }
                Ok(())
            }
            other => Err(format!("rule: {number}, the crate {}", other.says())),
        }
    }

    fn values(&mut self, lent: &[u8], ours: &Ours, record: &Record, theirs: &Catalog, counts: &[u64]) -> Result<(), String> {
        let id = self.lent.id.put(b"p", false);
        let plural = self.lent.plural.put(b"plural", false);
        let (plural_text, id_text) = unsafe { (std::str::from_utf8_unchecked(plural), std::str::from_utf8_unchecked(id)) };
        let rating = ours.rating();
        for &n in counts {
            self.stats.values += 1;
            let value = record.resolve(record.head.root, n);
            let form = ours.resolve_at(n);
            let wanted = value.map_or((10, 0), |form| (0, form));
            if (form.number, form.form) != wanted {
                return Err(format!("value at {n}: {form:?}, by the tree {value:?}"));
            }
            if rating.rated != 0 && value.map_or(true, |v| v < rating.lowest || v > rating.highest) {
                return Err(format!("value at {n}: {value:?}, rated {rating:?}"));
            }
            let answer = ours.ngettext(lent, id, n);
            let text = quietly(|| theirs.ngettext(id_text, plural_text, n));
            self.stats.lookups += 1;
            if !same(lent, id, plural, Some(n), answer, text) {
                return Err(format!("value at {n}: {answer:?}, the crate {text:?}"));
            }
            self.zero(lent, answer);
        }
        Ok(())
    }

    // A file under a rule that is forced on both: on the crate by a function that asks a catalog of the crate with that rule.
    pub fn forced(&mut self, rng: &mut Rng, bytes: &[u8], rule: &[u8]) -> Result<(), String> {
        let read = trimmed(rule);
        if !read.is_ascii() || rule.iter().any(|b| [0, 10, b';'].contains(b)) || read.len() > 512 {
            return self.file(rng, bytes, bytes, None, false, Depth::Some);
        }
        let mut probe = std::mem::take(&mut self.buffer);
        rule_file(rule, 2, &mut probe);
        let answer = theirs(&probe, false);
        self.buffer = probe;
        match answer {
            Theirs::Loads(catalog) => {
                FORCED.with(|forced| *forced.borrow_mut() = Some(catalog));
                self.file(rng, bytes, bytes, Some(rule), false, Depth::Some)
            }
            _ => {
                // the forced rule is read before the file
                self.stats.cases += 1;
                let file = self.lent.file.put(bytes, false);
                let ours = self.lent.load(file, Some(self.lent.rule.put(rule, false)), false, false);
                self.located(file, &ours, true, false)?;
                if ours.number != 6 {
                    return Err(format!("forced rule without a reading: {}", ours.number));
                }
                self.stats.numbers[6] += 1;
                self.refused(rng, file, &ours)
            }
        }
    }

    // A catalog whose label is not looked at, as UTF-8 is forced, and in the crate the same with no label.
    pub fn utf8_forced(&mut self, rng: &mut Rng, big: bool, entries: &[Entry]) -> Result<(), String> {
        let bytes = make::plain(big, entries);
        let mut twin = entries.to_vec();
        for entry in &mut twin {
            let text = &mut entry.segments[0];
            while let Some(at) = text.windows(8).position(|part| part == b"charset=") {
                text[at + 1] = b'H';
            }
        }
        let twin = make::plain(big, &twin);
        self.file(rng, &bytes, &twin, None, true, Depth::Some)
    }
}

// A rule without the white characters at its ends; what lies between need not be UTF-8.
pub fn trimmed(mut rule: &[u8]) -> &[u8] {
    let is_white = |bytes: &[u8]| {
        let mut chars = std::str::from_utf8(bytes).unwrap_or("").chars();
        chars.next().is_some_and(char::is_whitespace) && chars.next().is_none()
    };
    while let Some(k) = (1..=rule.len().min(3)).find(|&k| is_white(&rule[..k])) {
        rule = &rule[k..];
    }
    while let Some(k) = (1..=rule.len().min(3)).find(|&k| is_white(&rule[rule.len() - k..])) {
        rule = &rule[..rule.len() - k];
    }
    rule
}

// A key one step from another.
fn near(rng: &mut Rng, key: &[u8]) -> Vec<u8> {
    let mut near = key.to_vec();
    match rng.below(4) {
        0 => {
            near.pop();
        }
        1 => near.push(*rng.pick(b"ax\x04")),
        2 => {
            if let Some(at) = key.iter().position(|&b| b == 4) {
                near.drain(..at + 1);
            }
        }
        _ => near.insert(0, *rng.pick(b"ax\x04")),
    }
    near
}

// Where ours says that a segment lies: the entry has the key, none after it has, and the form is that segment of its translation.
fn placed(file: &[u8], key_of_lookup: &[u8], form: Option<u64>, ours: Answer) -> bool {
    if ours.which != 0 {
        return true;
    }
    let Some(big) = order(file) else { return false };
    let entries = count(file, big);
    let later = |i: usize| key(file, big, i) == Some(key_of_lookup);
    if ours.entry >= entries || !later(ours.entry) || (ours.entry + 1..entries.min(ours.entry + 64)).any(later) {
        return false;
    }
    let Some(table) = word_in(file, big, 16) else { return false };
    let Some(translation) = string(file, big, table, ours.entry, 0) else { return false };
    let Some(segment) = translation.split(|&b| b == 0).nth(ours.form as usize) else { return false };
    let start = segment.as_ptr() as usize - file.as_ptr() as usize;
    form == Some(ours.form) && (ours.start, ours.len) == (start, segment.len())
}

// The crate's text is the caller's own where ours says so, by its place in memory, else the segment's bytes.
fn same(file: &[u8], id: &[u8], plural: &[u8], n: Option<u64>, ours: Answer, theirs: Option<&str>) -> bool {
    let fallback = match n {
        None | Some(1) => (1, id),
        Some(_) => (2, plural),
    };
    let Some(text) = theirs else {
        return ours == Answer { number: 10, which: fallback.0, entry: 0, form: 0, start: 0, len: 0 };
    };
    let owned = |own: &[u8]| text.as_ptr() == own.as_ptr() && text.len() == own.len();
    if ours.which == 0 {
        return ours.number == 0
            && !owned(id)
            && !owned(plural)
            && file.get(ours.start..ours.start.wrapping_add(ours.len)) == Some(text.as_bytes());
    }
    ours == Answer { number: 0, which: fallback.0, entry: 0, form: 0, start: 0, len: 0 } && owned(fallback.1)
}

impl Oracle {
    // A text's test for UTF-8 against the Rust library's.
    pub fn text(&mut self, bytes: &[u8]) -> Result<(), String> {
        self.stats.cases += 1;
        let text = self.lent.id.put(bytes, self.stats.cases % 4 == 0);
        let right = std::str::from_utf8(bytes).is_ok();
        self.stats.numbers[if right { 0 } else { 3 }] += 1;
        if crate::rattle::is_utf8(text) != right {
            return Err(format!("text {}: UTF-8 is {right}", hex(bytes)));
        }
        Ok(())
    }
}
