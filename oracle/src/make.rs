// Makes catalogs, headers and rules: right ones, odd ones and damaged ones.
use crate::rng::Rng;

#[derive(Clone, Debug, Default)]
pub struct Entry {
    pub context: Option<Vec<u8>>,
    pub id: Vec<u8>,
    // what stands after the id's NUL: the plural id, or anything
    pub after: Option<Vec<u8>>,
    pub segments: Vec<Vec<u8>>,
}

impl Entry {
    fn original(&self) -> Vec<u8> {
        let mut bytes = Vec::new();
        if let Some(context) = &self.context {
            bytes.extend(context);
            bytes.push(4);
        }
        bytes.extend(&self.id);
        if let Some(after) = &self.after {
            bytes.push(0);
            bytes.extend(after);
        }
        bytes
    }

    fn translation(&self) -> Vec<u8> {
        self.segments.join(&0)
    }
}

pub fn word(big: bool, x: u32) -> [u8; 4] {
    if big {
        x.to_be_bytes()
    } else {
        x.to_le_bytes()
    }
}

pub fn word_at(file: &[u8], big: bool, at: usize) -> u32 {
    let bytes = file[at..at + 4].try_into().unwrap();
    if big {
        u32::from_be_bytes(bytes)
    } else {
        u32::from_le_bytes(bytes)
    }
}

pub fn magic(big: bool) -> [u8; 4] {
    word(big, 0x9504_12de)
}

pub fn set_word(file: &mut [u8], big: bool, at: usize, x: u32) {
    if at + 4 <= file.len() {
        file[at..at + 4].copy_from_slice(&word(big, x));
    }
}

// A catalog as msgfmt lays it out: header, tables, originals, translations.
pub fn plain(big: bool, entries: &[Entry]) -> Vec<u8> {
    let n = entries.len() as u32;
    let mut file = Vec::with_capacity(256);
    file.extend(magic(big));
    for x in [0, n, 28, 28 + 8 * n, 0, 28 + 16 * n] {
        file.extend(word(big, x));
    }
    let mut strings = Vec::with_capacity(128);
    let start = 28 + 16 * entries.len();
    for cell in entries.iter().map(Entry::original).chain(entries.iter().map(Entry::translation)) {
        file.extend(word(big, cell.len() as u32));
        file.extend(word(big, (start + strings.len()) as u32));
        strings.extend(cell);
        strings.push(0);
    }
    file.extend(strings);
    file
}

// The same entries with tables and strings anywhere: gaps, odd offsets, strings that share bytes, a closing byte that is no NUL.
fn scattered(rng: &mut Rng, big: bool, entries: &[Entry]) -> Vec<u8> {
    let n = entries.len();
    let mut file = Vec::new();
    file.extend(magic(big));
    for x in [rng.next() as u32, n as u32, 0, 0, rng.next() as u32, rng.next() as u32] {
        file.extend(word(big, x));
    }
    for _ in 0..rng.below(4) {
        file.push(rng.next() as u8);
    }
    let mut places = Vec::new();
    for cell in entries.iter().map(Entry::original).chain(entries.iter().map(Entry::translation)) {
        let is_original = places.len() < n;
        let mut closed = cell.clone();
        closed.push(0);
        let shared = if rng.one_in(2) { file.windows(closed.len()).position(|part| part == closed) } else { None };
        let at = match shared {
            Some(at) => at,
            None => {
                let at = file.len();
                file.extend(&cell);
                file.push(if !is_original && rng.one_in(4) { b'z' } else { 0 });
                at
            }
        };
        places.push((cell.len(), at));
        for _ in 0..rng.below(3) {
            file.push(b'-');
        }
    }
    let halves = [&places[..n], &places[n..]];
    for (half, field) in halves.iter().zip([12, 16]) {
        let at = file.len();
        set_word(&mut file, big, field, at as u32);
        for (len, at) in half.iter() {
            file.extend(word(big, *len as u32));
            file.extend(word(big, *at as u32));
        }
        for _ in 0..rng.below(2) {
            file.push(0);
        }
    }
    file
}

const WORDS: [&[u8]; 16] = [
    b"",
    b"a",
    b"b",
    b"c",
    b"ab",
    b"abc",
    b"x",
    b"\xc3\xa9",
    b"\xe2\x82\xac",
    b"\xf0\x9f\x98\x80",
    b"\xef\xbb\xbfa",
    b"a\nb",
    b" ",
    b"\xef\xbf\xbf",
    b"\xf4\x8f\xbf\xbf",
    b"\x7f",
];
const WRONG: [&[u8]; 14] = [
    b"\xff",
    b"\x80",
    b"\xc0\x80",
    b"\xc1\xbf",
    b"\xe0\x9f\xbf",
    b"\xed\xa0\x80",
    b"\xed\xbf\xbf",
    b"\xf0\x8f\xbf\xbf",
    b"\xf4\x90\x80\x80",
    b"\xf5\x80\x80\x80",
    b"\xe2\x82",
    b"\xf0\x9f\x98",
    b"\xc3",
    b"a\xc3\x28",
];

fn text(rng: &mut Rng) -> Vec<u8> {
    let mut bytes = rng.pick(&WORDS).to_vec();
    if rng.one_in(3) {
        bytes.extend(*rng.pick(&WORDS));
    }
    if rng.one_in(24) {
        // long enough for every path through runs of ASCII
        let run = rng.below(40);
        bytes.extend(std::iter::repeat(b'q').take(run));
        bytes.extend(*rng.pick(&WORDS));
    }
    if rng.one_in(200) {
        let at = rng.below(bytes.len() + 1);
        let wrong = rng.pick(&WRONG).to_vec();
        bytes.splice(at..at, wrong);
    }
    bytes
}

fn entry(rng: &mut Rng) -> Entry {
    let mut id = text(rng);
    while id.is_empty() && !rng.one_in(40) {
        id = text(rng);
    }
    if rng.one_in(16) {
        let at = rng.below(id.len() + 1);
        id.insert(at, 4);
    }
    let context = if rng.one_in(3) {
        let mut context = text(rng);
        if rng.one_in(8) {
            let at = rng.below(context.len() + 1);
            context.insert(at, 0);
        }
        Some(context)
    } else {
        None
    };
    let after = if rng.one_in(3) { Some(text(rng)) } else { None };
    let forms = if rng.one_in(3) { 1 + rng.below(5) } else { 1 };
    Entry { context, id, after, segments: (0..forms).map(|_| text(rng)).collect() }
}

pub const KNOWN: [&str; 22] = [
    "0",
    "n != 1",
    "n>1",
    "n != 1 ? 1 : 0",
    "n==1 ? 0 : n==2 ? 1 : 2",
    "n%10==1 && n%100!=11 ? 0 : n != 0 ? 1 : 2",
    "n==1 ? 0 : (n==0 || (n%100 > 0 && n%100 < 20)) ? 1 : 2",
    "n%10==1 && n%100!=11 ? 0 : n%10>=2 && (n%100<10 || n%100>=20) ? 1 : 2",
    "n%10==1 && n%100!=11 ? 0 : n%10>=2 && n%10<=4 && (n%100<10 || n%100>=20) ? 1 : 2",
    "(n==1) ? 0 : (n>=2 && n<=4) ? 1 : 2",
    "n==1 ? 0 : n%10>=2 && n%10<=4 && (n%100<10 || n%100>=20) ? 1 : 2",
    "n%100==1 ? 0 : n%100==2 ? 1 : n%100==3 || n%100==4 ? 2 : 3",
    "n==0 ? 0 : n==1 ? 1 : n==2 ? 2 : n%100>=3 && n%100<=10 ? 3 : n%100>=11 ? 4 : 5",
    "((n%10==1 && n%100!=11) ? 0 : ((n%10 >= 2 && n%10 <=4 && (n%100 < 12 || n%100 > 14)) ? 1 : ((n%10 == 0 || (n%10 >= 5 && n%10 <=9)) || (n%100 >= 11 && n%100 <= 14)) ? 2 : 3))",
    "!(n==1)",
    "n%0",
    "n && 5%n",
    "n ? 5%n : 0",
    "(n",
    "(",
    "+7",
    "n==1||n%0",
];
const TOKENS: [&[u8]; 40] = [
    b"n",
    b"n",
    b"n",
    b"0",
    b"1",
    b"2",
    b"3",
    b"10",
    b"100",
    b"+1",
    b"01",
    b"18446744073709551615",
    b"18446744073709551616",
    b"&&",
    b"||",
    b"?",
    b":",
    b"?",
    b":",
    b">=",
    b"<=",
    b">",
    b"<",
    b"==",
    b"!=",
    b"%",
    b"%",
    b"!",
    b"(",
    b")",
    b"(",
    b")",
    b" ",
    b"\t",
    b"=",
    b"&",
    b"|",
    b"\x0b",
    b"\r",
    b"-",
];
const INTEGERS: [&str; 16] = [
    "0",
    "1",
    "2",
    "3",
    "4",
    "5",
    "10",
    "11",
    "100",
    "007",
    "63",
    "64",
    "4294967296",
    "9223372036854775808",
    "18446744073709551615",
    "18446744073709551616",
];

fn blank(rng: &mut Rng, out: &mut Vec<u8>) {
    if rng.one_in(4) {
        out.push(*rng.pick(b"  \t"));
    }
}

// A rule of C's grammar, at rank 0 (loosest) to 6; brackets where the rank asks for them, and at times where it does not.
pub fn grammar(rng: &mut Rng, rank: usize, depth: usize, out: &mut Vec<u8>) {
    const LEVELS: [&[&[u8]]; 5] = [&[b"||"], &[b"&&"], &[b"==", b"!="], &[b"<", b">", b"<=", b">="], &[b"%"]];
    blank(rng, out);
    if depth == 0 || rng.one_in(4) {
        if rng.one_in(2) {
            out.push(b'n');
        } else {
            let most = if rng.one_in(12) { INTEGERS.len() } else { 9 };
            out.extend(INTEGERS[rng.below(most)].as_bytes());
        }
        blank(rng, out);
        return;
    }
    let kind = rng.below(8);
    let own = if kind < 2 {
        0
    } else if kind == 7 {
        6
    } else {
        kind - 1
    };
    let bracket = own < rank || rng.one_in(8);
    if bracket {
        out.push(b'(');
    }
    match own {
        0 => {
            grammar(rng, 1, depth - 1, out);
            out.push(b'?');
            grammar(rng, 0, depth - 1, out);
            out.push(b':');
            grammar(rng, 0, depth - 1, out);
        }
        6 => {
            out.push(b'!');
            grammar(rng, 6, depth - 1, out);
        }
        _ => {
            grammar(rng, own, depth - 1, out);
            out.extend(*rng.pick(LEVELS[own - 1]));
            grammar(rng, own + 1, depth - 1, out);
        }
    }
    if bracket {
        out.push(b')');
    }
    blank(rng, out);
}

// A rule of about so many bytes.
fn long(rng: &mut Rng, size: usize) -> Vec<u8> {
    let mut rule = Vec::new();
    match rng.below(6) {
        0 => {
            rule = vec![b'!'; size - 1];
            rule.push(b'n');
        }
        1 => {
            rule = vec![b'0'; size - 1];
            rule.push(b'7');
        }
        2 => {
            let deep = (size - 1) / 2;
            rule.extend(std::iter::repeat(b'(').take(deep));
            rule.extend(vec![b'n'; size - 2 * deep]);
            rule.extend(std::iter::repeat(b')').take(deep));
        }
        3 => {
            let operator = *rng.pick(&[&b"%"[..], b"||", b"&&", b"==", b"!=", b"<", b">="]);
            while rule.len() + operator.len() + 1 < size {
                rule.push(*rng.pick(b"n12345"));
                rule.extend(operator);
            }
            rule.extend(vec![b'1'; size - rule.len()]);
        }
        4 => {
            while rule.len() + 5 < size {
                rule.extend(b"n?1:");
            }
            rule.extend(vec![b'2'; size - rule.len()]);
        }
        _ => {
            rule.push(b'n');
            rule.extend(vec![b' '; size - 2]);
            rule.push(b'1');
            rule[size / 2] = b'%';
        }
    }
    rule
}

// A rule of one of the kinds; most can stand in a header.
pub fn rule(rng: &mut Rng) -> Vec<u8> {
    let mut rule = Vec::new();
    match rng.below(16) {
        0..=4 => {
            let depth = 1 + rng.below(5);
            grammar(rng, 0, depth, &mut rule);
        }
        5..=8 => {
            for _ in 0..1 + rng.below(9) {
                rule.extend(*rng.pick(&TOKENS));
            }
        }
        9 => {
            for _ in 0..rng.below(8) {
                rule.push(*rng.pick(b"n01()?:&|!=<>% +\t\x0b\x0c\r-;\n\x00"));
            }
        }
        10 => {
            for _ in 0..rng.below(8) {
                rule.push((rng.next() % if rng.one_in(4) { 256 } else { 128 }) as u8);
            }
        }
        11..=13 => {
            rule = rng.pick(&KNOWN).as_bytes().to_vec();
            for _ in 0..rng.below(3) {
                edit(rng, &mut rule);
            }
        }
        14 => {
            let size = *rng.pick(&[510, 511, 512, 512, 513, 514, 600]);
            // reading a long rule is slow in the crate
            let size = if rng.one_in(48) { size } else { 4 + rng.below(40) };
            rule = long(rng, size);
            if rng.one_in(4) {
                edit(rng, &mut rule);
            }
        }
        _ => {
            // edges of 64 bits
            let x = *rng.pick(&[
                "18446744073709551615",
                "18446744073709551616",
                "9223372036854775808",
                "4294967296",
                "000018446744073709551615",
            ]);
            let y = *rng.pick(&["n%", "n==", "", "+", "n>", "!", "n<=", "1?0:"]);
            rule.extend(y.as_bytes());
            rule.extend(x.as_bytes());
        }
    }
    if rng.one_in(12) {
        rule.insert(0, *rng.pick(b" \t\x0b\x0c\r"));
        rule.push(*rng.pick(b" \t\x0b\x0c\r"));
    }
    rule
}

// One byte away, added or another.
fn edit(rng: &mut Rng, bytes: &mut Vec<u8>) {
    let sign = *rng.pick(b"n01()?:&|!=<>% +2");
    let at = rng.below(bytes.len() + 1);
    match rng.below(3) {
        0 => bytes.insert(at, sign),
        1 if at < bytes.len() => bytes[at] = sign,
        _ if at < bytes.len() => {
            bytes.remove(at);
        }
        _ => {}
    }
}

const LABELS: [&str; 40] = [
    "UTF-8",
    "utf-8",
    "UTF8",
    "utf8",
    "Utf-8",
    "unicode-1-1-utf-8",
    "UNICODE-1-1-UTF-8",
    " utf-8 ",
    "\tutf-8",
    "utf-8\r",
    "utf-8\x0c",
    "\x0butf-8",
    "utf-8\x0b",
    "utf-8 charset=latin1",
    "utf-8charset=utf-8",
    "charset=utf-8",
    "",
    " ",
    "CHARSET",
    "utf-7",
    "utf-16",
    "utf_8",
    "\"utf-8\"",
    "utf-8;",
    "utf-8; x",
    "latin1",
    "ISO-8859-1",
    "iso-8859-2",
    "ISO-8859-15",
    "koi8-r",
    "windows-1251",
    "euc-jp",
    "gbk",
    "big5",
    "shift_jis",
    "us-ascii",
    "ascii",
    "l1",
    "\u{a0}utf-8",
    "utf-8\u{a0}",
];
const TYPES: [&str; 8] = [
    "text/plain; charset=",
    "charset=",
    "text/plain; Charset=",
    "text/plain;charset =",
    "CHARSET=",
    "text/plain; ",
    "charset=charset=",
    "charset=x charset=",
];

// A line of a header, mostly one that something is read from.
fn line(rng: &mut Rng, out: &mut Vec<u8>) {
    const BEFORE: [&str; 8] = ["", "", "", "", " ", "\t", "\x0b", "x"];
    match rng.below(24) {
        0..=6 => {
            out.extend(rng.pick(&BEFORE).as_bytes());
            out.extend(rng.pick(&["Content-Type", "Content-Type", "Content-Type", "Content-Type ", "content-type"]).as_bytes());
            out.extend(rng.pick(&[":", ": ", ": ", " : ", ":\t"]).as_bytes());
            let kind = if rng.one_in(3) { rng.below(TYPES.len()) } else { 0 };
            out.extend(TYPES[kind].as_bytes());
            let label = if rng.one_in(2) { rng.below(LABELS.len()) } else { rng.below(10) };
            out.extend(LABELS[label].as_bytes());
        }
        7..=16 => {
            out.extend(rng.pick(&BEFORE).as_bytes());
            out.extend(
                rng.pick(&["Plural-Forms", "Plural-Forms", "Plural-Forms", "Plural-Forms", "Plural-Forms\t", "Plural-forms"])
                    .as_bytes(),
            );
            out.extend(rng.pick(&[":", ": ", ": ", " :\t"]).as_bytes());
            forms(rng, out);
        }
        17 => out.extend(rng.pick(&["", "", " ", "\r", "no colon", "#-#-#  an.po  #-#-#", "=", "\u{a0}"]).as_bytes()),
        18 => out.extend(rng.pick(&[":", "::", ": :", "a:b:c", "Plural-Forms", "Content-Type"]).as_bytes()),
        19 => {
            out.extend(text(rng));
            out.push(b':');
            out.extend(text(rng));
        }
        _ => out.extend(
            rng.pick(&[
                "Project-Id-Version: x 1",
                "Language: de",
                "MIME-Version: 1.0",
                "Last-Translator: J\u{f6}rg",
                "X: \u{3000}y",
            ])
            .as_bytes(),
        ),
    }
    if rng.one_in(12) {
        out.push(b'\r');
    }
}

fn forms(rng: &mut Rng, out: &mut Vec<u8>) {
    if rng.one_in(40) {
        out.extend(
            rng.pick(&["", "plural", ";", "=", "nplurals=2", "\u{e9}=;plural=n", "plural\u{a0}=n", "x=\u{e9}; plural=n"])
                .as_bytes(),
        );
        return;
    }
    if rng.one_in(2) {
        out.extend(
            rng.pick(&[
                "nplurals=2; ",
                "n_plurals=3;",
                "n_plurals=x; ",
                ";;",
                " ; ",
                "nplurals=2;plural;",
                "plurals=n; ",
                "Plural=9;",
            ])
            .as_bytes(),
        );
    }
    for _ in 0..if rng.one_in(8) { 2 } else { 1 } {
        out.extend(rng.pick(&["plural=", "plural=", "plural=", " plural = ", "plural\t=", "plural==", "plural="]).as_bytes());
        let text = rule(rng);
        out.extend(text.iter().filter(|&&b| b != 0 && b != 10 && b != b';'));
        if rng.one_in(2) {
            out.push(b';');
        }
    }
}

pub fn header(rng: &mut Rng) -> Vec<u8> {
    let mut out = Vec::new();
    for i in 0..rng.below(5) {
        if i > 0 {
            out.push(b'\n');
        }
        line(rng, &mut out);
    }
    if rng.one_in(2) {
        out.push(b'\n');
    }
    out
}

// Characters of White_Space, now and then one that looks so and is none, or a torn one.
pub fn space(rng: &mut Rng, out: &mut Vec<u8>) {
    const WHITE: &str = "\t\x0b\x0c\r \u{85}\u{a0}\u{1680}\u{2000}\u{2001}\u{2002}\u{2003}\u{2004}\u{2005}\u{2006}\u{2007}\u{2008}\
        \u{2009}\u{200a}\u{2028}\u{2029}\u{202f}\u{205f}\u{3000}";
    const ALIKE: &str = "\u{1c}\u{1f}\u{180e}\u{200b}\u{2060}\u{feff}\u{e9}~";
    let from: Vec<char> = if rng.one_in(24) { ALIKE } else { WHITE }.chars().collect();
    for _ in 0..1 + rng.below(2) {
        let mut bytes = [0; 4];
        let text = rng.pick(&from).encode_utf8(&mut bytes).as_bytes();
        let torn = if rng.one_in(400) { rng.below(text.len()) } else { text.len() };
        out.extend(&text[..torn]);
    }
}

// The same header with such space where names, values and rules begin and end, and rarely elsewhere.
pub fn spaced(rng: &mut Rng, header: &[u8]) -> Vec<u8> {
    let mut out = Vec::new();
    let mut last = b'\n';
    for i in 0..=header.len() {
        let next = *header.get(i).unwrap_or(&b'\n');
        let edge = b"\n:=;".contains(&last) || b"\n:;".contains(&next);
        if rng.one_in(if edge { 3 } else { 100 }) {
            space(rng, &mut out);
        }
        out.extend(header.get(i));
        last = next;
    }
    out
}

pub fn entries(rng: &mut Rng) -> Vec<Entry> {
    let mut entries = Vec::new();
    if !rng.one_in(6) {
        let mut first = entry(rng);
        first.id.clear();
        first.context = if rng.one_in(12) { first.context } else { None };
        if !rng.one_in(16) {
            first.after = None;
        }
        first.segments[0] = header(rng);
        if !rng.one_in(8) {
            first.segments.truncate(1);
        }
        entries.push(first);
    }
    for _ in 0..rng.below(6) {
        if !entries.is_empty() && rng.one_in(6) {
            // a key that stands twice
            let mut again = rng.pick(&entries).clone();
            again.segments = vec![text(rng)];
            if !again.id.is_empty() || rng.one_in(8) {
                entries.push(again);
            }
        } else {
            entries.push(entry(rng));
        }
    }
    entries
}

// A number at an edge of what a size, length or offset may be.
fn edge(rng: &mut Rng, size: usize) -> u32 {
    let size = size as u32;
    match rng.below(20) {
        0 => 0,
        1 => 1,
        2 => size,
        3 => size.wrapping_sub(1),
        4 => size + 1,
        5 => 1 << 31,
        6 => (1 << 31) - 1,
        7 => u32::MAX,
        8 => u32::MAX - size,
        9 => size.wrapping_sub(8),
        10 => size.wrapping_sub(7),
        11 => 27,
        12 => 28,
        13 => u32::MAX - 7,
        _ => rng.below(size as usize + 2) as u32,
    }
}

fn damage(rng: &mut Rng, big: bool, file: &mut Vec<u8>) {
    for _ in 0..1 + rng.below(2) {
        let size = file.len();
        match rng.below(10) {
            0 => {
                let at = rng.below(size + 1);
                file.truncate(at);
            }
            1 => {
                let cut = 1 + rng.below(3);
                file.truncate(size.saturating_sub(cut));
            }
            2 if size > 0 => file[rng.below(size)] ^= 1 << rng.below(8),
            3 if size > 0 => file[rng.below(size)] = *rng.pick(&[0, 4, 10, 58, 0x80, 0xff, b'a', 0xc3]),
            4 => {
                let x = edge(rng, size);
                set_word(file, big, *rng.pick(&[8, 12, 16, 8]), x);
            }
            5 | 6 if size >= 28 => {
                // a cell of either table
                let n = word_at(file, big, 8) as usize;
                let table = word_at(file, big, *rng.pick(&[12, 16])) as usize;
                let at = table.wrapping_add(8 * rng.below(n.min(16) + 1) + 4 * rng.below(2));
                let x = edge(rng, size);
                if at < size {
                    set_word(file, big, at, x);
                }
            }
            7 => {
                let at = rng.below(size + 1);
                file.insert(at, *rng.pick(&[0, 4, b'a', 0xe2]));
            }
            8 => file.push(rng.next() as u8),
            _ => {
                // one field up or down by one
                if size >= 28 {
                    let at = *rng.pick(&[8, 12, 16, 28, 32, 36, 40]);
                    if at + 4 <= size {
                        let x = word_at(file, big, at);
                        set_word(file, big, at, if rng.one_in(2) { x.wrapping_add(1) } else { x.wrapping_sub(1) });
                    }
                }
            }
        }
    }
}

// A file of one of the kinds.
pub fn file(rng: &mut Rng) -> Vec<u8> {
    let big = rng.one_in(2);
    match rng.below(20) {
        0 => {
            let mut file = magic(big).to_vec();
            for _ in 0..rng.below(80) {
                file.push(if rng.one_in(2) { 0 } else { rng.next() as u8 % 64 });
            }
            if file.len() >= 28 {
                let size = file.len();
                let (n, o, t) = (rng.below(4) as u32, rng.below(size + 2) as u32, rng.below(size + 2) as u32);
                set_word(&mut file, big, 8, n);
                set_word(&mut file, big, 12, o);
                set_word(&mut file, big, 16, t);
            }
            file
        }
        1 if rng.one_in(4) => {
            let size = rng.below(40);
            let mut file: Vec<u8> = (0..size).map(|_| rng.next() as u8).collect();
            if size >= 4 && rng.one_in(2) {
                file[..4].copy_from_slice(&magic(big));
                file[rng.below(4)] ^= 1 << rng.below(8);
            }
            file
        }
        kind => {
            let entries = entries(rng);
            let mut file = if kind < 8 { scattered(rng, big, &entries) } else { plain(big, &entries) };
            if kind % 2 == 0 {
                damage(rng, big, &mut file);
            }
            file
        }
    }
}

// A catalog without an entry.
pub const NO_ENTRY: [u8; 28] =
    [0xde, 0x12, 0x04, 0x95, 0, 0, 0, 0, 0, 0, 0, 0, 28, 0, 0, 0, 28, 0, 0, 0, 0, 0, 0, 0, 28, 0, 0, 0];

pub const COUNTS: [u64; 36] = [
    0,
    1,
    2,
    3,
    4,
    5,
    6,
    7,
    8,
    9,
    10,
    11,
    12,
    13,
    14,
    15,
    16,
    17,
    18,
    19,
    20,
    21,
    22,
    63,
    64,
    99,
    100,
    101,
    102,
    111,
    1000,
    u32::MAX as u64,
    1 << 32,
    1 << 63,
    u64::MAX - 1,
    u64::MAX,
];
