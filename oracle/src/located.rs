// Where a load failed: a plain model of the words of document 02 a, "each stage that refuses shall also name the entry index and the side". It
// walks the stages of a load and answers the number, the index and the side of the first test that fails. Whether a rule's text has a
// reading it takes from the number, which is held to the crate: 6 and 8 come from a rule alone, and no load reads two.
use crate::compare::{count, field, is_utf8_label, order, rule_of, string};
use crate::make;
use std::str::from_utf8;

// The number, the entry's index and the side's number, 0 being none.
#[derive(Clone, Copy, Debug, PartialEq)]
pub struct Told {
    pub number: u32,
    pub entry: Option<usize>,
    pub side: u32,
}

const ORIGINAL: u32 = 1;
const TRANSLATION: u32 = 2;
const HEADER: u32 = 3;
const RULE: u32 = 4;

// How a load of this file ends, under a forced rule or none; `number` is what it was told to be.
pub fn told(file: &[u8], forced: bool, utf8: bool, number: u32) -> Told {
    let of_rule = number == 6 || number == 8;
    if forced && of_rule {
        return Told { number, entry: None, side: RULE };
    }
    let whole = |number| Told { number, entry: None, side: 0 };
    if file.len() < 28 {
        return whole(1);
    }
    let Some(big) = order(file) else { return whole(2) };
    let tables = [12, 16].map(|at| make::word_at(file, big, at) as usize);
    if tables.iter().any(|&table| table > file.len()) {
        return whole(1);
    }
    for i in 0..count(file, big) {
        let at = |side, number| Told { number, entry: Some(i), side };
        let empty = match original(string(file, big, tables[0], i, 1), i) {
            Ok(empty) => empty,
            Err(number) => return at(ORIGINAL, number),
        };
        let Some(translation) = string(file, big, tables[1], i, 1) else { return at(TRANSLATION, 1) };
        let Ok(translation) = from_utf8(&translation[..translation.len() - 1]) else { return at(TRANSLATION, 3) };
        if !empty {
            continue;
        }
        let header = translation.split('\0').next().unwrap_or("");
        if header.split('\n').any(|line| !line.is_empty() && !line.contains(':')) {
            return at(HEADER, 4);
        }
        let label = field(header, "Content-Type").and_then(|value| value.split("charset=").nth(1));
        if !utf8 && label.is_some_and(|label| !is_utf8_label(label)) {
            return at(HEADER, 7);
        }
        if !forced && of_rule && rule_of(header).is_some() {
            return at(RULE, number);
        }
    }
    whole(0)
}

// Whether the id of entry i is empty, or the number of its refusal.
fn original(string: Option<&[u8]>, i: usize) -> Result<bool, u32> {
    let string = string.ok_or(1u32)?;
    let mut rest = string;
    if let Some(four) = string.iter().position(|&b| b == 4) {
        from_utf8(&string[..four]).map_err(|_| 3u32)?;
        rest = &string[four + 1..];
    }
    let end = rest.iter().position(|&b| b == 0).ok_or(1u32)?;
    from_utf8(&rest[..end]).map_err(|_| 3u32)?;
    if end == 0 && i > 0 {
        return Err(5);
    }
    Ok(end == 0)
}
