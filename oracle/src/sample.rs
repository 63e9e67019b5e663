// A fixed sample of answers, as the data that the Rattle program test_replay reads: of the crate where it has one, of document 01
// where it has none (what a panic is answered with, rules over 512 bytes, a record and bytes that do not belong together), and of this port
// itself for the Standard reading, which oracle/standard.py holds to Python's reader of the same grammar.
//
// The data is parts of at most 65,536 bytes, so that a part fits the reader's buffer. A part is cases, and zeros up to its end. All
// numbers are little endian. A case is its length in two bytes, and then
//   kind 1, a catalog: 1, origin, flags (1 forced rule, 2 Standard, 4 UTF-8 forced), number, the rule's and the file's length in two bytes
//     each, the rule, the file, and the lookups: each its length in two bytes, the call (0 gettext, 1 pgettext, 2 ngettext, 3 npgettext, 8
//     more where no bytes are lent with the record), the number, whose text answers (0 the file's, 1 the id, 2 the plural id, which is
//     "plural"), the count in eight bytes, the lengths of context, id and text in one byte each, and these three
//   kind 2, a rule: 2, origin, flags (2 Standard), number, the rule's length in two bytes, the rule, and where it has a reading its forms at
//     the counts below, one byte each: the form, 64 for any above 63, 255 for a remainder by zero
// The origin is c (the crate), d (document 01) or s (Standard).
use crate::compare::{count, key, quietly, rule_file, theirs, trimmed, Theirs};
use crate::make::{self, Entry, COUNTS, KNOWN};
use crate::named;
use crate::rattle::{Lent, Ours};
use crate::rng::Rng;
use std::collections::HashSet;

const PART: usize = 65536;
const FORMS_AT: [u64; 16] = [0, 1, 2, 3, 4, 5, 7, 10, 11, 12, 21, 22, 100, 111, 1 << 32, u64::MAX];

struct Sample {
    lent: Lent,
    out: Vec<u8>,
    cases: [u64; 3],
    numbers: [u64; 12],
    answers: u64,
    seen: HashSet<Vec<u8>>,
}

// A catalog's answers in the crate, or in this port by the Standard reading.
enum From<'a> {
    Crate(&'a gettext::Catalog),
    Port(&'a Ours<'a>),
}

fn two(x: usize) -> [u8; 2] {
    (x as u16).to_le_bytes()
}

impl Sample {
    fn push(&mut self, body: &[u8]) -> bool {
        if !self.seen.insert(body.to_vec()) {
            return false;
        }
        let used = self.out.len() % PART;
        if used + 2 + body.len() > PART {
            self.out.resize(self.out.len() + PART - used, 0);
        }
        self.out.extend(two(body.len()));
        self.out.extend(body);
        self.cases[b"cds".iter().position(|&origin| origin == body[1]).unwrap()] += 1;
        self.numbers[body[3] as usize] += 1;
        true
    }

    // One lookup; the crate's text is the caller's own by its place in memory.
    fn lookup(&mut self, from: &From, file: &[u8], call: u8, context: &[u8], id: &[u8], n: u64, body: &mut Vec<u8>) {
        let plural = "plural";
        // at an address of its own, even where it is empty
        let id = self.lent.id.put(id, false);
        let (number, which, text): (u8, u8, Vec<u8>) = match from {
            From::Crate(catalog) => {
                let (c, i) = (std::str::from_utf8(context).unwrap(), std::str::from_utf8(id).unwrap());
                let text = quietly(|| match call {
                    0 => catalog.gettext(i),
                    1 => catalog.pgettext(c, i),
                    2 => catalog.ngettext(i, plural, n),
                    _ => catalog.npgettext(c, i, plural, n),
                });
                let fallback = if call < 2 || n == 1 { (1, id) } else { (2, plural.as_bytes()) };
                match text {
                    None => (10, fallback.0, fallback.1.to_vec()),
                    Some(text) if text.as_ptr() == fallback.1.as_ptr() => (0, fallback.0, text.into()),
                    Some(text) => (0, 0, text.into()),
                }
            }
            From::Port(ours) => {
                let bytes = if call < 8 { file } else { &file[..0] };
                let answer = match call % 8 {
                    0 => ours.gettext(bytes, id),
                    1 => ours.pgettext(bytes, context, id),
                    2 => ours.ngettext(bytes, id, n),
                    _ => ours.npgettext(bytes, context, id, n),
                };
                let text = match answer.which {
                    0 => &bytes[answer.start..answer.start + answer.len],
                    1 => id,
                    _ => plural.as_bytes(),
                };
                (answer.number as u8, answer.which as u8, text.to_vec())
            }
        };
        if context.len().max(id.len()).max(text.len()) > 255 {
            return;
        }
        body.extend(two(14 + context.len() + id.len() + text.len()));
        body.extend([call, number, which]);
        body.extend(n.to_le_bytes());
        body.extend([context.len() as u8, id.len() as u8, text.len() as u8]);
        body.extend(context);
        body.extend(id);
        body.extend(&text);
        self.answers += 1;
        self.numbers[number as usize] += 1;
    }

    // Keys of the file and near it, a few counts each.
    fn lookups(&mut self, rng: &mut Rng, from: &From, file: &[u8], is_twin: bool, counts: usize, body: &mut Vec<u8>) {
        let big = file[0] == 0x95;
        let mut keys: Vec<Vec<u8>> = (0..count(file, big).min(4)).filter_map(|i| key(file, big, i)).map(<[u8]>::to_vec).collect();
        let mut near = rng.pick(&[&b"a"[..], b"none", b"\x04x"]).to_vec();
        if let Some(key) = keys.last() {
            if rng.one_in(2) && key.is_ascii() {
                near = [&key[..], b"x"].concat();
            }
        }
        keys.push(near);
        for key in keys {
            // the header of a twin is not the file's
            if std::str::from_utf8(&key).is_err() || (key.is_empty() && is_twin) {
                continue;
            }
            let n = *rng.pick(&COUNTS);
            match key.iter().position(|&b| b == 4) {
                Some(at) => {
                    self.lookup(from, file, rng.below(2) as u8, &key[..at], &key[at + 1..], 0, body);
                    self.lookup(from, file, 3, &key[..at], &key[at + 1..], n, body);
                    if rng.one_in(2) {
                        self.lookup(from, file, 2, b"", &key, n, body);
                    }
                }
                None => {
                    if rng.one_in(2) {
                        self.lookup(from, file, 0, b"", &key, 0, body);
                    }
                    for _ in 0..counts {
                        let n = *rng.pick(&COUNTS[..24]);
                        self.lookup(from, file, 2, b"", &key, n, body);
                    }
                    if rng.one_in(4) {
                        self.lookup(from, file, 1, b"a", &key, 0, body);
                    }
                }
            }
        }
    }

    // A file by the crate's answers, as `twin` in the crate; the number, where there is one.
    fn file(&mut self, rng: &mut Rng, file: &[u8], twin: &[u8], flags: u8, counts: usize) -> Option<u32> {
        let answer = theirs(twin, false);
        let number = match &answer {
            Theirs::Loads(_) => 0,
            Theirs::Refuses(number) => *number,
            Theirs::Panics => 6,
        };
        let ours = self.lent.load(self.lent.file.put(file, false), None, false, flags & 4 != 0).number;
        // outside the domain
        if ours != number {
            return None;
        }
        let mut body = vec![1, if matches!(answer, Theirs::Panics) { b'd' } else { b'c' }, flags, number as u8];
        body.extend(two(0));
        body.extend(two(file.len()));
        body.extend(file);
        if let Theirs::Loads(catalog) = &answer {
            self.lookups(rng, &From::Crate(catalog), twin, flags & 4 != 0, counts, &mut body);
        }
        self.push(&body).then_some(number)
    }

    // A file by this port's own answers: Standard, or where the crate has nothing of the kind.
    fn own(&mut self, rng: &mut Rng, origin: u8, file: &[u8], rule: Option<&[u8]>, flags: u8, stale: bool) {
        let lent = self.lent.file.put(file, false);
        let rule = rule.map(|rule| self.lent.rule.put(rule, false));
        let ours = self.lent.load(lent, rule, flags & 2 != 0, flags & 4 != 0);
        let mut body = vec![1, origin, flags | rule.is_some() as u8, ours.number as u8];
        body.extend(two(rule.map_or(0, <[u8]>::len)));
        body.extend(two(file.len()));
        body.extend(rule.unwrap_or(b""));
        body.extend(file);
        let from = From::Port(&ours);
        if stale || ours.number != 0 {
            let context = b"c";
            for (call, n) in [(0, 0), (1, 0), (2, 1), (2, 2), (3, 1), (3, 0)] {
                self.lookup(&from, lent, call + if stale { 8 } else { 0 }, context, b"a", n, &mut body);
            }
        } else {
            self.lookups(rng, &from, lent, false, 2, &mut body);
        }
        self.push(&body);
    }

    fn rule(&mut self, rule: &[u8], standard: bool) -> Option<u32> {
        let flags = 2 * standard as u8;
        let mut body = vec![2, b'c', flags, 0];
        body.extend(two(rule.len()));
        body.extend(rule);
        let mut file = Vec::new();
        if standard {
            body[1] = b's';
            rule_file(b"n", 2, &mut file);
            let ours = self.lent.load(self.lent.file.put(&file, false), Some(self.lent.rule.put(rule, false)), true, false);
            body[3] = ours.number as u8;
            if ours.number == 0 {
                body.extend(FORMS_AT.map(|n| {
                    let form = ours.resolve_at(n);
                    if form.number == 10 {
                        255
                    } else {
                        form.form.min(64) as u8
                    }
                }));
            }
        } else {
            if !in_header(rule) {
                return None;
            }
            rule_file(rule, 2, &mut file);
            match theirs(&file, false) {
                _ if trimmed(rule).len() > 512 => (body[1], body[3]) = (b'd', 8),
                Theirs::Loads(catalog) => body.extend(FORMS_AT.map(|n| {
                    let text = quietly(|| catalog.ngettext("p", "", n));
                    text.map_or(255, |text| text.bytes().next().map_or(64, |sign| sign - b'0'))
                })),
                Theirs::Refuses(number) => body[3] = number as u8,
                Theirs::Panics => (body[1], body[3]) = (b'd', 6),
            }
        }
        if body[3] == 0 {
            self.answers += FORMS_AT.len() as u64;
            if body.ends_with(&[255]) {
                self.numbers[10] += 1;
            }
        }
        let number = body[3] as u32;
        self.push(&body).then_some(number)
    }
}

// Whether a header can hold the rule, so that the crate reads it.
fn in_header(rule: &[u8]) -> bool {
    rule.is_ascii() && !rule.iter().any(|b| [0, 10, b';'].contains(b))
}

// A catalog such as a translator makes.
fn real_like(rng: &mut Rng, rule: &str, language: &str) -> Vec<u8> {
    let text = |s: &str| s.as_bytes().to_vec();
    let header = format!(
        "Project-Id-Version: ship 1.0\nLanguage: {language}\nMIME-Version: 1.0\nContent-Type: text/plain; charset=UTF-8\n\
         Content-Transfer-Encoding: 8bit\nPlural-Forms: nplurals=6; plural={rule};\n"
    );
    let forms = ["null", "eins", "zwei", "drei", "vier", "f\u{fc}nf"];
    let entry = |context: Option<&str>, id: &str, after: Option<&str>, segments: &[&str]| Entry {
        context: context.map(text),
        id: text(id),
        after: after.map(text),
        segments: segments.iter().map(|s| text(s)).collect(),
    };
    let entries = [
        entry(None, "", None, &[&header]),
        entry(None, "%d file", Some("%d files"), &forms[..1 + rng.below(6)]),
        entry(Some("menu"), "Open", None, &["\u{d6}ffnen"]),
        entry(None, "Open", None, &["Auf"]),
    ];
    make::plain(rng.one_in(2), &entries)
}

pub fn write() -> Vec<u8> {
    let mut s = Sample { lent: Lent::new(), out: Vec::new(), cases: [0; 3], numbers: [0; 12], answers: 0, seen: HashSet::new() };
    let mut rng = Rng::new(9, 9);

    // document 01's file F and its variants
    let f = make::plain(false, &[Entry { id: b"a".to_vec(), segments: vec![b"b".to_vec()], ..Entry::default() }]);
    s.file(&mut rng, &f, &f, 0, 4);
    for cut in [0, 3, 4, 27, 28, 35, 36, 43, 44, 45, 46, 47] {
        s.file(&mut rng, &f[..cut], &f[..cut], 0, 1);
    }
    for (at, byte) in
        [(47, 0x7a), (45, 0x62), (44, 4), (8, 2), (8, 0), (0, 0), (12, 48), (12, 49), (16, 49), (32, 47), (32, 48), (40, 47)]
    {
        let mut other = f.clone();
        other[at] = byte;
        s.file(&mut rng, &other, &other, 0, 1);
    }
    let mut g = f.clone();
    g[36] = 3;
    g.extend(b"c\0");
    s.file(&mut rng, &g, &g, 0, 6);

    // rules in the crate's reading: all of up to 2 bytes, the known ones, then made ones
    let alphabet = b"n01()?:&|!=<>% +";
    for &x in alphabet {
        s.rule(&[x], false);
        for &y in alphabet {
            s.rule(&[x, y], false);
        }
    }
    for rule in KNOWN {
        s.rule(rule.as_bytes(), false);
    }
    // by hand; what no header can hold is forced
    let long = named::long_rules();
    for rule in named::RULES.into_iter().chain(long.iter().map(Vec::as_slice)) {
        if !in_header(rule) {
            s.own(&mut rng, b'd', &f, Some(rule), 0, false);
        }
        s.rule(rule, false);
        s.rule(rule, true);
    }
    let mut left = [500, 0, 0, 0, 0, 0, 300];
    while left != [0; 7] {
        let rule = make::rule(&mut rng);
        let (mut loads, mut refused) = (left[0] > 0, left[6] > 0);
        let mut file = Vec::new();
        rule_file(&rule, 2, &mut file);
        match theirs(&file, false) {
            Theirs::Loads(_) => refused = false,
            _ => loads = false,
        }
        if rule.len() < 80 && (loads || refused) {
            if let Some(number) = s.rule(&rule, false) {
                left[number as usize] -= 1;
            }
        }
    }

    // files: so many that the crate loads, and that it refuses with each number
    let mut left = [420, 160, 20, 90, 70, 60, 60, 60];
    let mut i = 0;
    while left != [0; 8] {
        i += 1;
        let mut rng = Rng::new(10, i);
        let file = make::file(&mut rng);
        let number = match theirs(&file, false) {
            Theirs::Loads(_) => 0,
            Theirs::Refuses(number) => number as usize,
            Theirs::Panics => 6,
        };
        if file.len() < 300 && left[number] > 0 && s.file(&mut rng, &file, &file, 0, 1).is_some() {
            left[number] -= 1;
        }
    }

    // by hand
    for file in named::files() {
        s.file(&mut rng, &file, &file, 0, 6);
    }

    // UTF-8 forced, and the label not looked at: in the crate the same header with no label
    for label in ["ISO-8859-1", "latin1", "x", "", "utf-8", "CHARSET"] {
        let header = |field: &str| format!("Content-Type: text/plain; {field}={label}\nPlural-Forms: plural=n>1;\n").into_bytes();
        let entries = |field: &str| {
            let header = Entry { segments: vec![header(field)], ..Entry::default() };
            [header, Entry { id: b"a".to_vec(), segments: vec!["\u{e9}".into(), b"z".to_vec()], ..Entry::default() }]
        };
        let (file, twin) = (make::plain(false, &entries("charset")), make::plain(false, &entries("cHarset")));
        s.file(&mut rng, &file, &twin, 4, 3);
        s.file(&mut rng, &file, &file, 0, 3);
    }

    // catalogs such as translators make, in both readings
    for (i, rule) in KNOWN.iter().enumerate() {
        let file = real_like(&mut rng, rule, ["de", "ru", "ar", "cs"][i % 4]);
        s.file(&mut rng, &file, &file, 0, 6);
        s.own(&mut rng, b's', &file, None, 2, false);
    }

    // forced rules: read before the file, and instead of the header's
    for (i, rule) in ["n%3", "n", "1", "n%0", "(", "", " ", "n==1 ? 0 : n==2 ? 1 : 2", "n&&1?2:0"].iter().enumerate() {
        let file = real_like(&mut rng, "(", "de");
        s.own(&mut rng, b'd', &file, Some(rule.as_bytes()), 0, false);
        s.own(&mut rng, b's', &file, Some(rule.as_bytes()), 2, false);
        s.own(&mut rng, b'd', &file[..20 + i], Some(rule.as_bytes()), 0, false);
    }

    // a record and bytes that do not belong together
    s.own(&mut rng, b'd', &f, None, 0, true);
    s.own(&mut rng, b'd', &g, Some(b"n%0"), 0, true);
    s.own(&mut rng, b'd', &g[..49], None, 0, false);
    s.own(&mut rng, b'd', &g[..49], None, 0, true);

    // Standard
    for rule in KNOWN {
        s.rule(rule.as_bytes(), true);
    }
    // * and / between operands: the other rules hold them only where C's grammar has no place for them
    for rule in ["n*3", "n/2"] {
        s.rule(rule.as_bytes(), true);
    }
    for &x in alphabet {
        s.rule(&[x], true);
        for &y in b"n1()!% " {
            s.rule(&[x, y], true);
        }
    }
    let mut left = [300, 0, 0, 0, 0, 0, 120];
    while left != [0; 7] {
        let mut rule = Vec::new();
        if left[0] > 0 {
            let depth = 1 + rng.below(5);
            make::grammar(&mut rng, 0, depth, &mut rule);
        } else {
            rule = make::rule(&mut rng);
        }
        let printable = rule.iter().all(|&b| b == 9 || (32..127).contains(&b));
        if rule.len() < 120 && printable {
            let file = b"";
            let number = self_number(&s.lent, file, &rule);
            if left[number] > 0 && s.rule(&rule, true).is_some() {
                left[number] -= 1;
            }
        }
    }

    let [by_crate, by_document, standard] = s.cases;
    eprintln!(
        "sample: {} cases (the crate {by_crate}, document 01 {by_document}, Standard {standard}), {} answers, {} bytes; by number {:?}",
        by_crate + by_document + standard,
        s.answers,
        s.out.len(),
        s.numbers
    );
    s.out
}

// The number of a forced rule in the Standard reading; a file of no bytes is 1, which comes after it.
fn self_number(lent: &Lent, file: &[u8], rule: &[u8]) -> usize {
    let ours = lent.load(lent.file.put(file, false), Some(lent.rule.put(rule, false)), true, false).number;
    if ours == 1 {
        0
    } else {
        ours as usize
    }
}
