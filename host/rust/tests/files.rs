//! Small files and rules: document 01's F and G with their variants, every refusal that a file can get, and the lookups over files made
//! here.

use gettext_rattle::{
    cost, is_utf8, Catalog, Error, ParseOptions, Reading, Reason, Refusal, Side, Status, Which,
};
use std::collections::HashMap;
use std::fs::File;
use std::io::{self, Read};
use std::mem::size_of;
use std::sync::Arc;

/// The example's German catalog.
const DE: &str = concat!(env!("CARGO_MANIFEST_DIR"), "/../../examples/de.mo");

/// Document 01's file F: one entry, "a" translated as "b".
const F: [u8; 48] = [
    0xde, 0x12, 0x04, 0x95, 0, 0, 0, 0, 1, 0, 0, 0, 0x1c, 0, 0, 0, 0x24, 0, 0, 0, 0, 0, 0, 0, 0x2c,
    0, 0, 0, 1, 0, 0, 0, 0x2c, 0, 0, 0, 1, 0, 0, 0, 0x2e, 0, 0, 0, 0x61, 0, 0x62, 0,
];

/// F with one byte made another.
fn with(at: usize, byte: u8) -> Vec<u8> {
    let mut file = F.to_vec();
    file[at] = byte;
    file
}

/// Document 01's file G: F with the forms "b" and "c".
fn g() -> Vec<u8> {
    let mut file = with(36, 3);
    file.extend(b"c\0");
    file.shrink_to_fit();
    file
}

/// A file of these originals and translations, in this order and byte order.
fn ordered(entries: &[(&[u8], &[u8])], word: fn(u32) -> [u8; 4]) -> Vec<u8> {
    let count = entries.len() as u32;
    let mut file = Vec::new();
    for w in [
        0x9504_12de,
        0,
        count,
        28,
        28 + 8 * count,
        0,
        28 + 16 * count,
    ] {
        file.extend(word(w));
    }
    let mut at = 28 + 16 * count;
    let mut texts = Vec::new();
    for text in entries
        .iter()
        .map(|e| e.0)
        .chain(entries.iter().map(|e| e.1))
    {
        file.extend(word(text.len() as u32));
        file.extend(word(at));
        texts.extend(text);
        texts.push(0);
        at += text.len() as u32 + 1;
    }
    file.extend(texts);
    // so that a read past the end is one past the memory too
    file.shrink_to_fit();
    file
}

fn made(entries: &[(&[u8], &[u8])]) -> Vec<u8> {
    ordered(entries, u32::to_le_bytes)
}

/// A file with this header, and "x" translated as "y".
fn headed(header: &[u8]) -> Vec<u8> {
    made(&[(b"", header), (b"x", b"y")])
}

fn refusal(file: &[u8]) -> Option<Error> {
    Catalog::parse_slice(file).err()
}

fn read(rule: &str, reading: Reading) -> Result<Catalog<&'static [u8]>, Error> {
    ParseOptions::new()
        .force_plural(rule)
        .reading(reading)
        .parse_slice(&F)
}

/// The form that a rule names in the Standard reading.
fn form(rule: &str, n: u64) -> Option<u64> {
    read(rule, Reading::Standard).unwrap().resolve(n)
}

#[test]
fn f_answers_its_own_bytes() {
    let catalog = Catalog::parse_slice(&F).unwrap();
    assert_eq!(catalog.len(), 1);
    let text = catalog.gettext("a");
    assert_eq!(text, "b");
    assert_eq!(text.as_ptr(), &F[46]);
    let answer = catalog.answer_gettext("a");
    assert_eq!(answer.status, Status::Answered);
    assert_eq!(answer.which, Which::Segment { entry: 0, form: 0 });
}

#[test]
fn an_absent_key_is_the_callers_own_text() {
    let catalog = Catalog::parse_slice(&F).unwrap();
    let id = String::from("c");
    let answer = catalog.answer_gettext(&id);
    assert_eq!(answer.status, Status::Answered);
    assert_eq!(answer.which, Which::Id);
    assert_eq!(answer.text, "c");
    assert_eq!(answer.text.as_ptr(), id.as_ptr());
}

#[test]
fn files_that_end_early() {
    assert!(matches!(refusal(&F[..47]), Some(Error::Eof)));
    assert!(matches!(refusal(&F[..27]), Some(Error::Eof)));
    assert!(matches!(refusal(&[]), Some(Error::Eof)));
    // a count too large, an id without its NUL, a table past the end
    assert!(matches!(refusal(&with(8, 2)), Some(Error::Eof)));
    assert!(matches!(refusal(&with(45, 0x62)), Some(Error::Eof)));
    assert!(matches!(refusal(&with(12, 49)), Some(Error::Eof)));
}

#[test]
fn the_byte_after_a_translation_is_not_looked_at() {
    let file = with(47, 0x7a);
    assert_eq!(Catalog::parse_slice(&file).unwrap().gettext("a"), "b");
}

#[test]
fn another_magic() {
    assert!(matches!(refusal(&with(0, 0)), Some(Error::BadMagic)));
    assert!(matches!(refusal(&with(3, 0x94)), Some(Error::BadMagic)));
}

#[test]
fn both_byte_orders() {
    let entries: &[(&[u8], &[u8])] = &[(b"", b""), (b"x", b"y\0z")];
    for file in [made(entries), ordered(entries, u32::to_be_bytes)] {
        let catalog = Catalog::parse_slice(&file).unwrap();
        assert_eq!(catalog.len(), 2);
        assert_eq!(catalog.gettext("x"), "y");
        assert_eq!(catalog.ngettext("x", "xs", 2), "z");
    }
}

#[test]
fn texts_that_are_not_utf8() {
    assert!(matches!(
        refusal(&with(44, 0xff)),
        Some(Error::DecodingError)
    ));
    assert!(matches!(
        refusal(&with(46, 0x80)),
        Some(Error::DecodingError)
    ));
    assert!(matches!(
        refusal(&made(&[(b"\xff\x04x", b"y")])),
        Some(Error::DecodingError)
    ));
    assert!(matches!(
        refusal(&made(&[(b"x", b"y\0\xed\xa0\x80")])),
        Some(Error::DecodingError)
    ));
}

#[test]
fn headers() {
    // byte 44 made 04: an empty id in the empty context, whose header is "b"
    assert!(matches!(
        refusal(&with(44, 4)),
        Some(Error::MalformedMetadata)
    ));
    assert!(matches!(
        refusal(&headed(b"no colon\n")),
        Some(Error::MalformedMetadata)
    ));
    assert!(matches!(
        refusal(&made(&[(b"x", b"y"), (b"", b"")])),
        Some(Error::MisplacedMetadata)
    ));
    assert!(matches!(
        refusal(&headed(b"Plural-Forms: plural=(;\n")),
        Some(Error::PluralParsing)
    ));
    assert!(refusal(&headed(b"Content-Type: charset=UTF-8\n")).is_none());
    let file = headed(b"Language: de\n");
    let catalog = Catalog::parse_slice(&file).unwrap();
    assert_eq!(catalog.gettext(""), "Language: de\n");
}

#[test]
fn another_charset_is_refused_unless_utf8_is_forced() {
    let file = headed(b"Content-Type: text/plain; charset=iso-8859-1\n");
    assert!(matches!(refusal(&file), Some(Error::UnknownEncoding)));
    let catalog = ParseOptions::new().force_utf8().parse_slice(&file).unwrap();
    assert_eq!(catalog.gettext("x"), "y");
    // it passes over the label alone
    let wrong = made(&[(b"", b"Content-Type: charset=latin1\n"), (b"x", b"\xe4")]);
    assert!(matches!(
        ParseOptions::new().force_utf8().parse_slice(&wrong),
        Err(Error::DecodingError)
    ));
}

#[test]
fn a_long_rule() {
    let longest = "!".repeat(511) + "n";
    let catalog = read(&longest, Reading::Standard).unwrap();
    assert_eq!(catalog.resolve(0), Some(1));
    assert_eq!(catalog.resolve(7), Some(0));
    let longer = "!".repeat(512) + "n";
    assert!(matches!(
        read(&longer, Reading::Standard),
        Err(Error::RuleTooLong)
    ));
    let header = format!("Plural-Forms: plural={longer};\n");
    assert!(matches!(
        refusal(&headed(header.as_bytes())),
        Some(Error::RuleTooLong)
    ));
    // blanks at its ends do not count
    assert!(read(&format!(" {longest}\n"), Reading::Shipped).is_ok());
}

#[test]
fn errors_have_their_numbers_and_words() {
    let all = [
        Error::Eof,
        Error::BadMagic,
        Error::DecodingError,
        Error::MalformedMetadata,
        Error::MisplacedMetadata,
        Error::PluralParsing,
        Error::UnknownEncoding,
        Error::RuleTooLong,
    ];
    for (i, e) in all.iter().enumerate() {
        assert_eq!(e.number(), Some(i as u32 + 1));
    }
    let e: Box<dyn std::error::Error> = Box::new(Error::BadMagic);
    assert_eq!(e.to_string(), "bad magic number");
    assert!(e.source().is_none());
}

/// Why and where a load is refused.
fn located(file: &[u8]) -> Refusal {
    ParseOptions::new().located().parse_slice(file).unwrap_err()
}

/// The number, the entry and the side, as the program `mo` prints them.
fn printed(refusal: &Refusal) -> String {
    let number = refusal.error().number().unwrap();
    let entry = refusal.entry().map_or(String::new(), |i| format!(" {i}"));
    let side = refusal.side().map_or(String::new(), |s| format!(" {s}"));
    format!("{number}{entry}{side}")
}

/// A file for each row of SPEC 2.1, with its number, its entry and its side.
#[test]
fn a_refusal_says_where() {
    let long = format!("Plural-Forms: plural={}\n", "n".repeat(513));
    let five: &[(&[u8], &[u8])] = &[
        (b"", b"\n"),
        (b"a", b"b"),
        (b"c\x04d", b"e"),
        (b"f", b"g\0h"),
        (b"i", b"j"),
    ];
    // the fourth of five entries, with another original or translation
    let fourth = |original: &[u8], translation: &[u8]| {
        let mut entries = five.to_vec();
        entries[3] = (original, translation);
        made(&entries)
    };
    let rows: &[(&[u8], &str)] = &[
        // the file: its size, its magic, its tables
        (&[], "1"),
        (&F[..27], "1"),
        (&with(0, 0), "2"),
        (&with(12, 49), "1"),
        (&with(16, 49), "1"),
        // originals: a cell outside, a string outside, no NUL, a context, an id, an empty id
        (&with(12, 48), "1 0 original"),
        (&with(28, 4), "1 0 original"),
        (&with(45, 0x62), "1 0 original"),
        (&fourth(b"\xff\x04f", b"g"), "3 3 original"),
        (&fourth(b"x\x04\xff", b"g"), "3 3 original"),
        (&fourth(b"", b"g"), "5 3 original"),
        (&fourth(b"x\x04", b"\xff"), "5 3 original"),
        // translations: a cell outside, a string outside, segments; the original comes first
        (&F[..47], "1 0 translation"),
        (&with(16, 48), "1 0 translation"),
        (&with(8, 2), "1 1 translation"),
        (&fourth(b"f", b"\xff"), "3 3 translation"),
        (&fourth(b"f", b"g\0\xff"), "3 3 translation"),
        (&fourth(b"\xff", b"\xff"), "3 3 original"),
        // the header's translation, its lines, its label, its rule
        (&headed(b"\xff"), "3 0 translation"),
        (&headed(b"A: b\0\xff"), "3 0 translation"),
        (&headed(b"no colon"), "4 0 header"),
        (&with(44, 4), "4 0 header"),
        (&headed(b"Content-Type: charset=x"), "7 0 header"),
        (&headed(b"Plural-Forms: plural=("), "6 0 rule"),
        (&headed(b"Plural-Forms: plural="), "6 0 rule"),
        (&headed(long.as_bytes()), "8 0 rule"),
    ];
    for (file, told) in rows {
        let refusal = located(file);
        assert_eq!(printed(&refusal), *told, "{file:x?}");
        // the error alone is the same
        let error = Catalog::parse_slice(file).unwrap_err();
        assert_eq!(error.number(), refusal.error().number());
    }
    assert!(ParseOptions::new()
        .located()
        .parse_bytes(made(five))
        .is_ok());
}

#[test]
fn a_forced_rule_names_its_side_alone() {
    for (rule, told) in [("n".repeat(513), "8 rule"), ("(".to_string(), "6 rule")] {
        let refusal = ParseOptions::new()
            .force_plural(&rule)
            .located()
            .parse_slice(&[])
            .unwrap_err();
        assert_eq!(printed(&refusal), told);
    }
}

#[test]
fn refusals_are_sentences_and_errors() {
    let entries: Vec<(&[u8], &[u8])> = (0..9)
        .map(|i| (if i == 7 { &b"\xff"[..] } else { b"x" }, &b"y"[..]))
        .collect();
    let refusal = located(&made(&entries));
    assert_eq!(
        refusal.to_string(),
        "invalid byte sequence in a string, entry 7, original"
    );
    assert_eq!(located(&[]).to_string(), "unexpected end of file");
    assert_eq!(
        located(&headed(b"Plural-Forms: plural=(")).to_string(),
        "invalid plural expression, entry 0, rule"
    );
    // `?` makes it an error, and a boxed one
    fn load(file: &[u8]) -> Result<usize, Error> {
        Ok(ParseOptions::new().located().parse_slice(file)?.len())
    }
    fn boxed(file: &[u8]) -> Result<usize, Box<dyn std::error::Error>> {
        Ok(ParseOptions::new().located().parse_slice(file)?.len())
    }
    assert!(matches!(load(&F[..27]), Err(Error::Eof)));
    assert!(boxed(&F).is_ok());
    assert!(matches!(refusal.into_error(), Error::DecodingError));
    // what comes before a load names no place
    let costly = ParseOptions::new()
        .max_cost(1)
        .located()
        .parse_slice(&F)
        .unwrap_err();
    assert!(matches!(
        costly.error(),
        Error::TooCostly { cost: 2, limit: 1 }
    ));
    assert_eq!((costly.entry(), costly.side()), (None, None));
    for (i, side) in [Side::Original, Side::Translation, Side::Header, Side::Rule]
        .into_iter()
        .enumerate()
    {
        assert_eq!(side.number(), i as u32 + 1);
    }
}

#[test]
fn g_has_two_forms() {
    let file = g();
    let catalog = Catalog::parse_slice(&file).unwrap();
    let one = catalog.answer_ngettext("a", "as", 1);
    assert_eq!((one.status, one.text), (Status::Answered, "b"));
    assert_eq!(one.text.as_ptr(), &file[46]);
    let two = catalog.answer_ngettext("a", "as", 2);
    assert_eq!((two.status, two.text), (Status::Answered, "c"));
    assert_eq!(two.text.as_ptr(), &file[48]);
    assert_eq!(two.which, Which::Segment { entry: 0, form: 1 });
}

#[test]
fn contexts() {
    let file = made(&[
        (b"May", b"plain"),
        (b"month\x04May\0Mays", b"Mai\0Maien"),
        (b"\x04May", b"empty"),
    ]);
    let catalog = Catalog::parse_slice(&file).unwrap();
    assert_eq!(catalog.gettext("May"), "plain");
    assert_eq!(catalog.pgettext("month", "May"), "Mai");
    assert_eq!(catalog.pgettext("", "May"), "empty");
    assert_eq!(catalog.pgettext("day", "May"), "May");
    assert_eq!(catalog.npgettext("month", "May", "Mays", 1), "Mai");
    assert_eq!(catalog.npgettext("month", "May", "Mays", 3), "Maien");
    assert_eq!(catalog.npgettext("day", "May", "Mays", 3), "Mays");
    // a key is one text: context, byte 4, id
    assert_eq!(catalog.gettext("month\x04May"), "Mai");
    let answer = catalog.answer_npgettext("month", "May", "Mays", 3);
    assert_eq!(answer.which, Which::Segment { entry: 1, form: 1 });
    assert_eq!(catalog.answer_pgettext("day", "May").which, Which::Id);
}

#[test]
fn the_last_entry_with_a_key_counts() {
    let file = made(&[(b"x", b"first"), (b"x", b"last")]);
    let catalog = Catalog::parse_slice(&file).unwrap();
    assert_eq!(catalog.gettext("x"), "last");
}

#[test]
fn an_absent_plural() {
    let catalog = Catalog::parse_slice(&F).unwrap();
    let one = catalog.answer_ngettext("x", "xs", 1);
    assert_eq!(
        (one.status, one.text, one.which),
        (Status::Answered, "x", Which::Id)
    );
    for n in [0, 2, u64::MAX] {
        let many = catalog.answer_ngettext("x", "xs", n);
        assert_eq!(
            (many.status, many.text, many.which),
            (Status::Answered, "xs", Which::PluralId)
        );
    }
}

#[test]
fn forms_beyond_those_of_the_translation() {
    let file = made(&[(b"x\0xs", b"a\0b\0")]);
    let catalog = ParseOptions::new()
        .force_plural("n")
        .parse_slice(&file)
        .unwrap();
    assert_eq!(catalog.ngettext("x", "xs", 0), "a");
    assert_eq!(catalog.ngettext("x", "xs", 1), "b");
    // an empty form is a form
    let empty = catalog.answer_ngettext("x", "xs", 2);
    assert_eq!(empty.text, "");
    assert_eq!(empty.which, Which::Segment { entry: 0, form: 2 });
    // a form past them all is absent: 2^32 is not form 0
    for n in [3, 1 << 32, u64::MAX] {
        let answer = catalog.answer_ngettext("x", "xs", n);
        assert_eq!(
            (answer.status, answer.text, answer.which),
            (Status::Answered, "xs", Which::PluralId)
        );
    }
}

#[test]
fn a_remainder_by_zero() {
    let catalog = read("1%n", Reading::Standard).unwrap();
    assert_eq!(catalog.resolve(0), None);
    assert_eq!(catalog.resolve(2), Some(1));
    let many = catalog.answer_ngettext("a", "as", 0);
    assert_eq!(
        (many.status, many.text, many.which),
        (Status::ZeroModulus, "as", Which::PluralId)
    );
    // also where no entry has the key
    assert_eq!(
        catalog.answer_ngettext("z", "zs", 0).status,
        Status::ZeroModulus
    );
    assert_eq!(
        catalog.answer_npgettext("c", "z", "zs", 0).status,
        Status::ZeroModulus
    );
    let always = read("n%0", Reading::Shipped).unwrap();
    let one = always.answer_ngettext("a", "as", 1);
    assert_eq!(
        (one.status, one.text, one.which),
        (Status::ZeroModulus, "a", Which::Id)
    );
    // no rule is asked
    assert_eq!(always.answer_gettext("a").status, Status::Answered);
    assert_eq!(always.gettext("a"), "b");
    assert_eq!(always.rating(), None);
    assert!(!always.fits(u64::MAX));
}

#[test]
fn a_forced_rule_stands_instead_of_the_headers() {
    let file = headed(b"Plural-Forms: plural=(;\n");
    let catalog = ParseOptions::new()
        .force_plural("2")
        .parse_slice(&file)
        .unwrap();
    assert_eq!(catalog.resolve(1), Some(2));
    assert!(matches!(
        read("", Reading::Standard),
        Err(Error::PluralParsing)
    ));
    // the header's rule, and the default where it has none
    let file = headed(b"Plural-Forms: nplurals=3; plural=n%3;\n");
    assert_eq!(Catalog::parse_slice(&file).unwrap().resolve(5), Some(2));
    let catalog = Catalog::parse_slice(&F).unwrap();
    assert_eq!((catalog.resolve(1), catalog.resolve(7)), (Some(0), Some(1)));
}

#[test]
fn both_readings() {
    for (rule, n, shipped, standard) in [
        ("n%10%3", 5, 0, 2),
        ("n>1 == 0", 2, 1, 0),
        ("n==1 && 1 ? 2 : 3", 5, 0, 3),
    ] {
        assert_eq!(
            read(rule, Reading::Shipped).unwrap().resolve(n),
            Some(shipped),
            "{rule}"
        );
        assert_eq!(
            read(rule, Reading::Standard).unwrap().resolve(n),
            Some(standard),
            "{rule}"
        );
    }
    for (rule, n, shipped) in [("(n1", 9, 9), ("+7", 1, 7)] {
        assert_eq!(
            read(rule, Reading::Shipped).unwrap().resolve(n),
            Some(shipped)
        );
        assert!(matches!(
            read(rule, Reading::Standard),
            Err(Error::PluralParsing)
        ));
    }
    assert!(matches!(
        read("0 ? n?1:2 : 3", Reading::Shipped),
        Err(Error::PluralParsing)
    ));
    assert_eq!(form("0 ? n?1:2 : 3", 1), Some(3));
    // the default is the crate's own, for the header's rule too
    let file = headed(b"Plural-Forms: plural=n%10%3;\n");
    assert_eq!(Catalog::parse_slice(&file).unwrap().resolve(5), Some(0));
    let standard = ParseOptions::new().reading(Reading::Standard);
    assert_eq!(standard.parse_slice(&file).unwrap().resolve(5), Some(2));
}

#[test]
fn numbers_of_64_bits() {
    assert_eq!(form("18446744073709551615", 0), Some(u64::MAX));
    assert!(matches!(
        read("18446744073709551616", Reading::Standard),
        Err(Error::PluralParsing)
    ));
    assert_eq!(form("n", u64::MAX), Some(u64::MAX));
}

#[test]
fn ratings() {
    let rating = |rule| read(rule, Reading::Standard).unwrap().rating();
    assert_eq!(Catalog::parse_slice(&F).unwrap().rating(), Some((0, 1)));
    assert_eq!(rating("n"), Some((0, u64::MAX)));
    assert_eq!(rating("3"), Some((3, 3)));
    assert_eq!(rating("n ? 5 : 2"), Some((2, 5)));
    assert_eq!(rating("n%10"), Some((0, 9)));
    assert_eq!(rating("n%(n?3:4)"), Some((0, 3)));
    assert_eq!(rating("5%n"), None);
    // a part that is never reached unrates all the same
    assert_eq!(rating("0 && 5%n"), None);
}

#[test]
fn fitting() {
    let tens = read("n%10", Reading::Standard).unwrap();
    assert!(tens.fits(10));
    assert!(!tens.fits(9));
    assert!(!tens.fits(0));
    let zero = read("0", Reading::Standard).unwrap();
    assert!(zero.fits(1));
    assert!(!zero.fits(0));
    assert!(!read("5%n", Reading::Standard).unwrap().fits(u64::MAX));
    assert!(Catalog::parse_slice(&F).unwrap().fits(2));
    assert!(!Catalog::parse_slice(&F).unwrap().fits(1));
}

/// The count that a Plural-Forms gives, and the error of a load that demands a fit, in the Standard reading.
fn counted(forms: &[u8], forced: Option<&str>) -> (Option<u64>, Option<u32>) {
    let file = headed(&[b"Plural-Forms:", forms].concat());
    let mut options = ParseOptions::new().reading(Reading::Standard);
    if let Some(rule) = forced {
        options = options.force_plural(rule);
    }
    let count = options.parse_slice(&file).unwrap().form_count();
    match options.require_fit().located().parse_slice(&file) {
        Ok(catalog) => {
            assert_eq!(catalog.form_count(), count);
            assert!(catalog.fits(count.unwrap()));
            (count, None)
        }
        Err(refusal) => {
            assert_eq!((refusal.entry(), refusal.side()), (None, None));
            (count, refusal.error().number())
        }
    }
}

#[test]
fn the_count_of_forms() {
    let not_fit = Error::NotFit.number();
    assert_eq!(not_fit, Some(13));
    for (forms, count, error) in [
        ("nplurals=2; plural=n != 1;", Some(2), None),
        ("n_plurals=3;plural=n%3", Some(3), None),
        ("nplurals=2;n_plurals=3;plural=n%3", Some(3), None),
        ("n_plurals=3;nplurals=2;plural=n%3", Some(2), not_fit),
        ("nplurals=2;nplurals=x;nplurals;nplurals=", Some(2), None),
        ("nplurals=002", Some(2), None),
        ("nplurals=00000000000000000000000002", Some(2), None),
        ("nplurals=18446744073709551615", Some(u64::MAX), None),
        ("nplurals=18446744073709551616", None, not_fit),
        ("nplurals=+2", None, not_fit),
        ("nplurals=", None, not_fit),
        ("nplurals=2 3", None, not_fit),
        ("nplurals=1", Some(1), not_fit),
        ("nplurals=0;plural=0", Some(0), not_fit),
        ("nplurals=9;plural=5%n", Some(9), not_fit),
        ("plural=0", None, not_fit),
        ("Nplurals=2", None, not_fit),
        ("\tnplurals\x0b=\x0c2\r;", Some(2), None),
        ("nplurals=\u{a0}2;", None, not_fit),
        ("plural=n!=1;nplurals=2\u{a0}", Some(2), None),
        ("nplurals=3\nPlural-Forms:nplurals=2", Some(2), None),
        ("nplurals=3\nPlural-Forms:plural=n!=1", None, not_fit),
    ] {
        assert_eq!(counted(forms.as_bytes(), None), (count, error), "{forms}");
    }
    // the header's rule is not read, its count is
    assert_eq!(
        counted(b"nplurals=2;plural=(", Some("n>1")),
        (Some(2), None)
    );
    assert_eq!(
        counted(b"nplurals=2;plural=0", Some("n%3")),
        (Some(2), not_fit)
    );
}

#[test]
fn a_fit_is_the_last_test() {
    let demand = || ParseOptions::new().require_fit();
    // no header, and none that is looked at first
    assert!(matches!(demand().parse_slice(&F), Err(Error::NotFit)));
    assert!(matches!(demand().parse_slice(&F[..47]), Err(Error::Eof)));
    let bad = made(&[(b"", b"Plural-Forms:nplurals=1"), (b"x", b"\xff")]);
    assert!(matches!(
        demand().parse_slice(&bad),
        Err(Error::DecodingError)
    ));
    let twice = made(&[(b"", b"Plural-Forms:nplurals=1"), (b"", b"x")]);
    assert!(matches!(
        demand().parse_slice(&twice),
        Err(Error::MisplacedMetadata)
    ));
    assert!(matches!(
        demand().force_plural("(").parse_slice(&F),
        Err(Error::PluralParsing)
    ));
    // without the demand, all as before
    assert_eq!(Catalog::parse_slice(&F).unwrap().form_count(), None);
    assert_eq!(Catalog::empty().form_count(), None);
    let one = headed(b"Plural-Forms:nplurals=1");
    assert_eq!(Catalog::parse_slice(&one).unwrap().form_count(), Some(1));
    assert_eq!(
        Error::NotFit.to_string(),
        "the plural expression does not fit the number of forms in the header"
    );
}

/// What the demand is for: of such a catalog every plural lookup of an entry with enough forms answers one of them.
#[test]
fn a_catalog_that_fits_answers_from_its_forms() {
    let rule: &[u8] = b"Plural-Forms:nplurals=3;plural=n%10==1?0:n%10<5?1:2";
    let file = made(&[(b"", rule), (b"x\0xs", b"one\0two\0three")]);
    let catalog = ParseOptions::new()
        .reading(Reading::Standard)
        .require_fit()
        .parse_slice(&file)
        .unwrap();
    for n in (0..1000).chain(u64::MAX - 1000..=u64::MAX) {
        let answer = catalog.answer_ngettext("x", "xs", n);
        assert_eq!(answer.status, Status::Answered);
        assert!(["one", "two", "three"].contains(&answer.text));
    }
}

#[test]
fn the_empty_catalog() {
    let catalog = Catalog::empty();
    assert!(catalog.is_empty());
    assert_eq!(catalog.gettext("a"), "a");
    assert_eq!(catalog.gettext(""), "");
    assert_eq!(catalog.pgettext("c", "a"), "a");
    assert_eq!(catalog.ngettext("a", "as", 1), "a");
    assert_eq!(catalog.npgettext("c", "a", "as", 2), "as");
    assert_eq!(catalog.answer_gettext("a").status, Status::Answered);
    assert_eq!(catalog.rating(), Some((0, 1)));
    assert_eq!(catalog.resolve(1), Some(0));
}

#[test]
fn texts_beyond_ascii() {
    let file = made(&[
        ("größe".as_bytes(), "大きさ\0\u{10ffff}\u{feff}".as_bytes()),
        (b"nothing", b""),
    ]);
    let catalog = Catalog::parse_slice(&file).unwrap();
    assert_eq!(catalog.gettext("größe"), "大きさ");
    assert_eq!(catalog.ngettext("größe", "größen", 2), "\u{10ffff}\u{feff}");
    let nothing = catalog.answer_gettext("nothing");
    assert_eq!(nothing.text, "");
    assert_eq!(nothing.which, Which::Segment { entry: 1, form: 0 });
}

#[test]
fn bytes() {
    let file = g();
    let catalog = Catalog::parse_slice(&file).unwrap();
    assert_eq!(catalog.gettext_bytes(b"a"), b"b");
    assert_eq!(catalog.ngettext_bytes(b"a", b"as", 2), b"c");
    assert_eq!(catalog.ngettext_bytes(b"z", b"zs", 2), b"zs");
    assert_eq!(catalog.pgettext_bytes(b"c", b"a"), b"a");
    assert_eq!(catalog.npgettext_bytes(b"c", b"a", b"as", 1), b"a");
    // an id that is no text comes back
    assert_eq!(catalog.gettext_bytes(b"\xff\0"), b"\xff\0");
    assert_eq!(
        catalog.npgettext_bytes(b"\xff", b"\xfe", b"\xfd", 3),
        b"\xfd"
    );
}

#[test]
fn utf8_as_the_standard_library_has_it() {
    let same = |text: &[u8]| {
        assert_eq!(
            is_utf8(text),
            std::str::from_utf8(text).is_ok(),
            "{text:x?}"
        )
    };
    same(b"");
    for a in 0..=255 {
        same(&[a]);
        for b in 0..=255 {
            same(&[a, b]);
        }
    }
    let edges = [0x00, 0x7f, 0x80, 0x8f, 0x90, 0x9f, 0xa0, 0xbf, 0xc0, 0xff];
    for a in 0xe0..=0xff {
        for b in edges {
            for c in edges {
                same(&[a, b, c]);
                for d in edges {
                    same(&[a, b, c, d]);
                }
            }
        }
    }
}

#[test]
fn a_catalog_is_data() {
    fn shared<T: Send + Sync + Clone>(t: &T) -> T {
        t.clone()
    }
    let catalog = shared(&Catalog::parse(&F[..]).unwrap());
    assert_eq!(catalog.gettext("a"), "b");
    assert_eq!(size_of::<Catalog>(), 32);
    assert_eq!(
        format!("{catalog:?}"),
        "Catalog { bytes: 48, entries: 1, .. }"
    );
    let read = std::thread::scope(|s| s.spawn(|| catalog.gettext("a")).join().unwrap());
    assert_eq!(read, "b");
}

#[test]
fn texts_outlive_a_catalog_that_borrows() {
    let file = g();
    let text = {
        let catalog = Catalog::parse_slice(&file).unwrap();
        let context = String::from("none");
        assert_eq!(catalog.pgettext(&context, "a"), "a");
        catalog.gettext("a")
    };
    assert_eq!(text.as_ptr(), &file[46]);
}

#[test]
fn a_catalog_owns_its_bytes() {
    let mut shop: HashMap<&str, Arc<Catalog>> = HashMap::new();
    shop.insert(
        "de",
        Arc::new(Catalog::parse(File::open(DE).unwrap()).unwrap()),
    );
    shop.insert("en", Arc::default());
    let german = Arc::clone(&shop["de"]);
    let text = std::thread::spawn(move || german.gettext("Your invoice").to_string());
    assert_eq!(text.join().unwrap(), "Ihre Rechnung");
    assert_eq!(shop["en"].gettext("Your invoice"), "Your invoice");

    let file: Arc<[u8]> = std::fs::read(DE).unwrap().into();
    let catalog = Catalog::parse_bytes(Arc::clone(&file)).unwrap();
    let moved = catalog.clone();
    drop(catalog);
    let text = moved.pgettext("month", "May");
    assert_eq!(text, "Mai");
    assert!(file.as_ptr_range().contains(&text.as_ptr()));
    let boxed: Box<[u8]> = g().into();
    let catalog = Catalog::parse_bytes(boxed).unwrap();
    assert_eq!(catalog.ngettext("a", "as", 2), "c");
}

#[test]
fn a_reader_that_fails() {
    struct Broken;
    impl Read for Broken {
        fn read(&mut self, _: &mut [u8]) -> io::Result<usize> {
            Err(io::Error::new(io::ErrorKind::Other, "the disk is gone"))
        }
    }
    let error = Catalog::parse(Broken).unwrap_err();
    assert!(matches!(error, Error::Io(_)));
    assert_eq!(error.to_string(), "the disk is gone");
    assert_eq!(error.number(), None);
    assert!(std::error::Error::source(&error).is_some());
}

#[test]
fn what_a_load_costs() {
    assert_eq!(cost(&F), 2);
    assert_eq!(cost(&g()), 4);
    assert_eq!(cost(&F[..27]), 0);
    assert_eq!(cost(&with(0, 0)), 0);
    // the second original's cell is the translation's, and the second translation's lies outside the file
    assert_eq!(cost(&with(8, 2)), 3);
    let within = |limit, file: &[u8]| ParseOptions::new().max_cost(limit).parse_slice(file).err();
    assert!(within(2, &F).is_none());
    assert!(matches!(
        within(1, &F),
        Some(Error::TooCostly { cost: 2, limit: 1 })
    ));
    // a file that is not loaded for another reason tells that one
    assert!(matches!(within(1, &F[..27]), Some(Error::Eof)));
    assert_eq!(
        within(1, &F).unwrap().to_string(),
        "the load costs 2, and 1 is the limit"
    );
}

/// 1 MiB whose entries all lie over the same 349,408 bytes: its load would look at 30.5 GB.
#[test]
fn a_hostile_file_is_refused_before_it_is_loaded() {
    const SIZE: usize = 1 << 20;
    const COUNT: usize = 43_694;
    let text = 28 + 16 * COUNT;
    let mut file = Vec::new();
    for w in [0x9504_12de, 0, COUNT, 28, 28 + 8 * COUNT, 0, 0] {
        file.extend((w as u32).to_le_bytes());
    }
    for _ in 0..2 * COUNT {
        file.extend(((SIZE - text - 1) as u32).to_le_bytes());
        file.extend((text as u32).to_le_bytes());
    }
    file.resize(SIZE, b'x');
    let sum = 2 * COUNT as u64 * (SIZE - text - 1) as u64;
    assert_eq!(cost(&file), sum);
    let limited = ParseOptions::new().max_cost(64 << 20).parse_bytes(file);
    assert!(matches!(limited, Err(Error::TooCostly { cost, .. }) if cost == sum));
}

/// README's warning: the forms of the Russian rule in the two readings.
#[test]
fn russian_forms_in_both_readings() {
    const RULE: &str =
        "n%10==1 && n%100!=11 ? 0 : n%10>=2 && n%10<=4 && (n%100<10 || n%100>=20) ? 1 : 2";
    let counts = [0, 1, 2, 4, 5, 11, 21, 22, 25, 101];
    let forms = |reading| {
        let catalog = ParseOptions::new()
            .force_plural(RULE)
            .reading(reading)
            .parse_slice(&F)
            .unwrap();
        counts.map(|n| catalog.resolve(n).unwrap())
    };
    assert_eq!(forms(Reading::Shipped), [0; 10]);
    assert_eq!(forms(Reading::Standard), [2, 0, 1, 1, 2, 2, 0, 1, 2, 0]);
}

/// A file of many keys, with contexts, plurals, and a key that comes again at the end.
fn many() -> (Vec<u8>, Vec<String>) {
    let keys: Vec<String> = (0..700)
        .map(|i| match i % 3 {
            0 => format!("key {i}"),
            1 => format!("context\u{4}key {i}"),
            _ => format!("a longer key, number {i}"),
        })
        .collect();
    let texts: Vec<String> = (0..700).map(|i| format!("one {i}\0many {i}")).collect();
    let mut entries: Vec<(&[u8], &[u8])> = keys
        .iter()
        .zip(&texts)
        .map(|(k, t)| (k.as_bytes(), t.as_bytes()))
        .collect();
    entries.push((keys[0].as_bytes(), b"again\0and again"));
    (made(&entries), keys)
}

#[test]
fn an_index_answers_as_the_scan() {
    let (file, keys) = many();
    let scan = Catalog::parse_slice(&file).unwrap();
    assert_eq!(scan.slots(), 2048);
    let owned = scan.clone().indexed();
    let mut slots = vec![7; 2050];
    let lent = scan.clone().index_into(&mut slots).unwrap();
    for key in keys.iter().map(String::as_str).chain(["", "none", "key"]) {
        let (context, id) = key.split_once('\u{4}').unwrap_or(("context", key));
        for n in [0, 1, 2] {
            let answer = scan.answer_ngettext(key, "s", n);
            assert_eq!(owned.answer_ngettext(key, "s", n), answer);
            assert_eq!(lent.answer_ngettext(key, "s", n), answer);
            let answer = scan.answer_npgettext(context, id, "s", n);
            assert_eq!(owned.answer_npgettext(context, id, "s", n), answer);
            assert_eq!(lent.answer_npgettext(context, id, "s", n), answer);
        }
        assert_eq!(owned.answer_gettext(key), scan.answer_gettext(key));
        assert_eq!(lent.answer_gettext(key), scan.answer_gettext(key));
        assert_eq!(owned.pgettext(context, id), scan.pgettext(context, id));
        assert_eq!(lent.pgettext(context, id), scan.pgettext(context, id));
        assert_eq!(
            owned.gettext_bytes(key.as_bytes()),
            scan.gettext_bytes(key.as_bytes())
        );
    }
    assert_eq!(owned.gettext("key 0"), "again");
    assert_eq!(owned.rating(), scan.rating());
    assert_eq!(
        format!("{owned:?}"),
        format!(
            "Catalog {{ bytes: {}, entries: 701, slots: 2048, .. }}",
            file.len()
        )
    );
    // slots behind those that are used stay
    assert_eq!(slots[2048..], [7, 7]);
}

#[test]
fn an_index_wants_its_slots() {
    let (file, _) = many();
    let scan = Catalog::parse_slice(&file).unwrap();
    let mut slots = vec![7; 2047];
    let refused = scan.clone().index_into(&mut slots).unwrap_err();
    assert!(matches!(refused, Error::IndexRoom));
    assert_eq!(refused.number(), Some(12));
    assert!(slots.iter().all(|&slot| slot == 7));
    slots.push(7);
    assert_eq!(
        scan.index_into(&mut slots).unwrap().gettext("key 3"),
        "one 3"
    );
    // the empty catalog uses one slot
    assert_eq!(Catalog::empty().slots(), 1);
    assert!(Catalog::empty().index_into(&mut []).is_err());
    assert_eq!(Catalog::empty().indexed().gettext("a"), "a");
}

#[test]
fn an_indexed_catalog_is_data() {
    let shop: HashMap<&str, Arc<Catalog<Vec<u8>, Vec<u32>>>> = HashMap::from([(
        "de",
        Arc::new(Catalog::parse(File::open(DE).unwrap()).unwrap().indexed()),
    )]);
    let read = std::thread::scope(|s| {
        s.spawn(|| shop["de"].pgettext("month", "May"))
            .join()
            .unwrap()
    });
    assert_eq!(read, "Mai");
    // a text found in a file that is lent outlives catalog and index
    let file = g();
    let text = Catalog::parse_slice(&file).unwrap().indexed().gettext("a");
    assert_eq!(text.as_ptr(), &file[46]);
}

#[test]
fn forms_over_a_span() {
    let file = g();
    let with = |rule: &str| {
        ParseOptions::new()
            .reading(Reading::Standard)
            .force_plural(rule)
            .parse_slice(&file)
            .unwrap()
    };
    let thirds = with("n%3").forms_over(0..=9).unwrap();
    assert_eq!(
        [0, 1, 2, 3, 16].map(|f| thirds.of(f)),
        [Some(4), Some(3), Some(3), Some(0), None]
    );
    assert!(thirds.to_string().starts_with("0 4\n1 3\n2 3\n3 0\n"));
    assert!(thirds.to_string().ends_with("15 0\nabove 0\nzero 0"));
    let halves = with("40/(n%2)").forms_over(0..=4).unwrap();
    assert_eq!((halves.above(), halves.zero()), (2, 3));
    let last = with("n").forms_over(u64::MAX..=u64::MAX).unwrap();
    assert_eq!(last.above(), 1);
    assert_eq!(with("n").forms_over(0..=999_999).unwrap().above(), 999_984);
    #[allow(clippy::reversed_empty_ranges)]
    let backwards = with("n").forms_over(1..=0);
    assert!(matches!(backwards, Err(Error::BadSpan)));
    assert!(matches!(
        with("n").forms_over(0..=1_000_000),
        Err(Error::BadSpan)
    ));
}

#[test]
fn the_text_of_a_rule() {
    let file = g();
    let with = |reading, rule: &str| {
        ParseOptions::new()
            .reading(reading)
            .force_plural(rule)
            .parse_slice(&file)
            .unwrap()
    };
    assert_eq!(Catalog::empty().rule_text().unwrap(), "(n!=1)");
    // the Russian rule: what each reading makes of it, said so that both read it
    let russian =
        "n%10==1 && n%100!=11 ? 0 : n%10>=2 && n%10<=4 && (n%100<10 || n%100>=20) ? 1 : 2";
    for reading in [Reading::Shipped, Reading::Standard] {
        let rule = with(reading, russian);
        let text = rule.rule_text().unwrap();
        for again in [Reading::Shipped, Reading::Standard] {
            let read = with(again, &text);
            assert_eq!(read.rule_text().unwrap(), text);
            for n in (0..=120).chain([u64::MAX]) {
                assert_eq!(read.resolve(n), rule.resolve(n), "{text} at {n}");
            }
        }
    }
    let halves = with(Reading::Standard, "(n+1)/2");
    assert_eq!(halves.rule_text().unwrap(), "((n+1)/2)");
    let deep = with(Reading::Standard, &("!".repeat(400) + "n"));
    assert!(matches!(deep.rule_text(), Err(Error::RuleTooLong)));
}

#[test]
fn why_did_i_get_this_text() {
    let file = made(&[(b"a", b"x"), (b"a", b"b\0c"), (b"m\x04a", b"d\0\0f")]);
    let under = |rule| {
        ParseOptions::new()
            .force_plural(rule)
            .reading(Reading::Standard)
            .parse_slice(&file)
            .unwrap()
    };
    let catalog = under("n");

    // the last entry with the key counts; the place is counted from the file's first byte
    let why = catalog.why_ngettext("a", "as", 1);
    let offset = file.len() - 5 - 2;
    assert_eq!(file[offset..offset + 2], *b"c\0");
    let reason = Reason::Answered {
        entry: 1,
        form: 1,
        offset,
    };
    assert_eq!((why.reason, why.answer.text), (reason, "c"));
    assert_eq!(
        why.reason.to_string(),
        format!("entry 1, form 1, at byte {offset} of the file")
    );

    // its forms are counted, and no other entry's
    let why = catalog.why_ngettext("a", "as", 2);
    assert_eq!(
        why.reason.to_string(),
        "entry 1 has 2 forms, the rule names form 2"
    );
    assert_eq!(
        (why.answer.text, why.answer.status),
        ("as", Status::Answered)
    );
    let why = catalog.why_npgettext("m", "a", "as", 2);
    assert_eq!(why.answer.text, "f");
    let why = catalog.why_npgettext("m", "a", "as", 3);
    assert_eq!(
        why.reason.to_string(),
        "entry 2 has 3 forms, the rule names form 3"
    );
    let why = catalog.why_ngettext("z", "zs", 1);
    assert_eq!((why.reason, why.answer.text), (Reason::NoEntry, "z"));
    assert_eq!(why.reason.to_string(), "no entry has this id");
    assert_eq!(
        catalog.why_npgettext("m", "z", "zs", 2).reason,
        Reason::NoEntry
    );

    // a zero divisor comes before the key; the node is that of the operator that met it first
    for (rule, n, node) in [
        ("5%n", 0, 2),
        ("n%0", 7, 0),
        ("n%10==0 || 5/(n-5) ? 1 : 2", 5, 3),
        ("(1/n)/(n%0)", 0, 2),
        ("1/(n%0)", 3, 1),
        ("0*(1/n)", 0, 3),
        ("n%0/3", 2, 0),
    ] {
        let catalog = under(rule);
        for id in ["a", "z"] {
            let why = catalog.why_ngettext(id, "as", n);
            assert_eq!(why.reason, Reason::ZeroDivisor { n, node }, "{rule}");
            assert_eq!(
                (why.answer.text, why.answer.status),
                ("as", Status::ZeroModulus)
            );
        }
    }
    assert_eq!(
        under("n%10==0 || 5/(n-5) ? 1 : 2")
            .why_ngettext("a", "as", 5)
            .reason
            .to_string(),
        "the rule divides by zero at n = 5 (node 3)"
    );

    // with an index it says the same
    let indexed = under("n").indexed();
    for n in 0..4 {
        let why = indexed.why_ngettext("a", "as", n);
        assert_eq!(why, catalog.why_ngettext("a", "as", n));
        assert_eq!(why.answer, indexed.answer_ngettext("a", "as", n));
    }
}
