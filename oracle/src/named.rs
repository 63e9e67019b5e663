// Cases chosen by hand, one for each kind of rule and of file that document 01 tells apart.
use crate::make::{plain, Entry};

pub const RULES: [&[u8]; 53] = [
    // the starred ones
    b"n%10%3",
    b"n>1 == 0",
    b"n==1 && 1 ? 2 : 3",
    b"(n1",
    b"+7",
    b"0 ? n?1:2 : 3",
    // operators and integers
    b"!n%2",
    b"!n==0",
    b"n<=5",
    b"5%n",
    b"n&&5%n",
    b"n||5%n",
    b"n?5%n:7",
    b"n==0 ? 0 : (n==1 ? 1 : (n==2 ? 2 : 3))",
    b"007",
    b"18446744073709551615",
    b"18446744073709551616",
    b"0 ? 18446744073709551616 : 1",
    b"n 18446744073709551616",
    b"(n 18446744073709551616)",
    b":n?n",
    b">>=",
    b"!!=1",
    b"n!!=1",
    b"(n)(1)",
    b"((n)",
    b"(n))",
    // no reading, or one of the two
    b"",
    b" \t ",
    b"(",
    b"()",
    b"(n",
    b"n)",
    b"n)&&(n",
    b"n>>=1",
    b"n ? 1",
    b"n : 1 ? 2",
    b"++7",
    b"+ 7",
    b"(+7)",
    b"nn",
    b"m",
    b"n=1",
    // bytes that are no signs of a rule
    b"\n n\x0b",
    b"n\r== 1",
    b"n\t%2",
    b"(n\0",
    b"(n\x7f",
    b"(n\x80",
    b"n\x80",
    b"\xa0n",
    b"\x08n",
    b"n;",
];

// Texts of 512 bytes and about as many, and as many nodes as a pool has places.
pub fn long_rules() -> Vec<Vec<u8>> {
    let mut rules = Vec::new();
    for size in [511, 512, 513] {
        for (most, last) in [(b'!', b'n'), (b'0', b'7'), (b'!', b'0'), (b'(', b'('), (b' ', b' '), (128, 128)] {
            let mut rule = vec![most; size - 1];
            rule.push(last);
            rules.push(rule);
        }
    }
    let white = [b" ".to_vec(), vec![b'0'; 512], vec![11]].concat();
    let brackets = [vec![b'('; 255], b"n".to_vec(), vec![b')'; 255]].concat();
    let open = [vec![b'('; 255], b"n".to_vec(), vec![b')'; 254], b" ".to_vec()].concat();
    rules.extend([white, brackets, open]);
    rules
}

const HEADER: &[u8] = b"Content-Type: text/plain; charset=UTF-8\nPlural-Forms: nplurals=2; plural=n!=1;\n";

// Originals with their translations.
const FILES: [&[(&[u8], &[u8])]; 17] = [
    &[],
    &[(b"c\x04x", b"y")],
    &[(b"a\0b\x04c", b"y")],
    &[(b"\xff\x04", b"y")],
    &[(b"c\x04", b"y")],
    &[(b"\xc0", b"y")],
    &[(b"a", b"y\0\xe9")],
    &[(b"a", b"y"), (b"", b"z")],
    &[(b"", HEADER), (b"a\0b", b"y\0z")],
    &[(b"c\x04", HEADER)],
    &[(b"c\x04", b"x\0y:")],
    &[(b"", b"Content-Type: charset=latin1\nPlural-Forms: plural=")],
    &[(b"", b"Content-Type: charset=latin1\nx")],
    &[(b"", b"Plural-Forms: plural=;"), (b"\xff", b"")],
    &[(b"", b"Plural-Forms: plural=n+;")],
    &[
        (b"", b"Content-Type: text/plain; charset=UTF-8\nPlural-Forms: plural=n%3;\n"),
        (b"c\x04x", b"y"),
        (b"\x04x", b"z"),
        (b"d\0ds", b"one\0two\0"),
        (b"a", b"first"),
        (b"a", b"last"),
    ],
    &[(b"", b"Plural-Forms: plural=n%0;\n"), (b"a", b"b")],
];

// In both byte orders.
pub fn files() -> Vec<Vec<u8>> {
    let entry = |&(original, translation): &(&[u8], &[u8])| Entry {
        id: original.to_vec(),
        segments: vec![translation.to_vec()],
        ..Entry::default()
    };
    let made = FILES.iter().flat_map(|file| {
        let entries: Vec<Entry> = file.iter().map(entry).collect();
        [plain(false, &entries), plain(true, &entries)]
    });
    made.collect()
}
