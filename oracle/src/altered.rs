// Records that no load made, and ratings: the crate has neither, so the port is held to a model of document 01's "The record", "Range
// table" and "Numbers returned" in plain Rust, with sums without bound.
use crate::compare::{hex, Oracle};
use crate::make;
use crate::rattle::{Answer, Node, Ours, Part, Record};
use crate::rng::Rng;

pub fn is_tree(r: &Record) -> bool {
    if r.head.nodes > 512 || r.head.root >= r.head.nodes {
        return false;
    }
    let mut taken: Vec<usize> = Vec::new();
    for p in 0..r.head.nodes {
        let Some(node) = r.node(p) else { return false };
        for part in node.parts() {
            if let Part::At(q) = part {
                if q >= p {
                    return false;
                }
                taken.push(q);
            }
        }
    }
    let all = taken.len();
    taken.sort_unstable();
    taken.dedup();
    taken.len() == all
}

fn remainder(x: (u64, u64), y: (u64, u64)) -> Option<(u64, u64)> {
    if y.0 == 0 { None } else { Some((0, x.1.min(y.1 - 1))) }
}

// Ends without bound, kept where they fit 64 bits; else every number.
fn kept(low: u128, high: u128) -> (u64, u64) {
    match (u64::try_from(low), u64::try_from(high)) {
        (Ok(low), Ok(high)) => (low, high),
        _ => (0, u64::MAX),
    }
}

fn calculated(op: usize, x: (u64, u64), y: (u64, u64)) -> Option<(u64, u64)> {
    let (k, h, l, m) = (x.0 as u128, x.1 as u128, y.0 as u128, y.1 as u128);
    match op {
        9 if l == 0 => None,
        9 => Some(((k / m) as u64, (h / l) as u64)),
        10 => Some(kept(k + l, h + m)),
        11 if k < m => Some((0, u64::MAX)),
        11 => Some(kept(k - m, h - l)),
        _ => Some(kept(k * l, h * m)),
    }
}

// The lowest and the highest value; none where the rule is not rated.
pub fn range(r: &Record, p: usize) -> Option<(u64, u64)> {
    let node = r.node(p)?;
    let under = node.parts().into_iter().map(|part| match part {
        Part::N => Some((0, u64::MAX)),
        Part::Integer(x) => Some((x, x)),
        Part::Rest(m) => remainder((0, u64::MAX), (m, m)),
        Part::At(q) => range(r, q),
    });
    let under: Vec<(u64, u64)> = under.collect::<Option<_>>()?;
    match node {
        Node::Leaf(_) => Some(under[0]),
        Node::Ternary(..) => Some((under[1].0.min(under[2].0), under[1].1.max(under[2].1))),
        Node::Op(8, ..) => remainder(under[0], under[1]),
        Node::Op(op @ 9.., ..) => calculated(op, under[0], under[1]),
        Node::Op(..) | Node::Not(_) => Some((0, 1)),
    }
}

// The string of cell i of a table, with the byte after it.
fn string(file: &[u8], big: bool, table: usize, i: usize) -> Option<(usize, &[u8])> {
    let at = table as u128 + 8 * i as u128;
    if at + 8 > file.len() as u128 {
        return None;
    }
    let word = |at| make::word_at(file, big, at) as usize;
    let (len, start) = (word(at as usize), word(at as usize + 4));
    file.get(start..start + len + 1).map(|string| (start, string))
}

// A word of a file has 32 bits: of a larger number in a record the low 32 count.
pub fn low(x: usize) -> usize {
    x % (1 << 32)
}

// The key of entry i, and its translation with its place.
pub fn entry<'a>(file: &'a [u8], r: &Record, i: usize) -> Option<(&'a [u8], usize, &'a [u8])> {
    let (_, original) = string(file, r.head.big != 0, low(r.head.originals), i)?;
    let id = original.iter().position(|&b| b == 4).map_or(0, |four| four + 1);
    let end = id + original[id..].iter().position(|&b| b == 0)?;
    let (start, translation) = string(file, r.head.big != 0, low(r.head.translations), i)?;
    Some((&original[..end], start, &translation[..translation.len() - 1]))
}

// The last entry with the key.
pub fn last(file: &[u8], r: &Record, key: &[u8]) -> Option<usize> {
    // entries past these have no cell in the file
    let most = low(r.head.count).min(file.len() / 8 + 1);
    (0..most).rev().find(|&i| entry(file, r, i).map_or(false, |found| found.0 == key))
}

// What a lookup should answer that finds the entry so; no count for the two that have none. Too few slots may be lent to it.
pub fn answer(file: &[u8], r: &Record, n: Option<u64>, too_few: bool, find: impl FnOnce() -> Option<usize>) -> Answer {
    let which = if n.map_or(true, |n| n == 1) { 1 } else { 2 };
    let caller = |number| Answer { number, which, entry: 0, form: 0, start: 0, len: 0 };
    if file.len() != r.head.length || n.is_some() && !is_tree(r) {
        return caller(11);
    }
    if too_few {
        return caller(12);
    }
    let form = match n {
        None => 0,
        Some(n) => match r.resolve(r.head.root, n) {
            None => return caller(10),
            Some(form) => form,
        },
    };
    let Some(i) = find() else { return caller(0) };
    let Some((_, start, translation)) = entry(file, r, i) else { return caller(0) };
    let mut at = start;
    for (k, segment) in translation.split(|&b| b == 0).enumerate() {
        if k as u64 == form {
            return Answer { number: 0, which: 0, entry: i, form, start: at, len: segment.len() };
        }
        at += segment.len() + 1;
    }
    caller(0)
}

// How many codes a record may have, and how many of them are leaves, which come first.
const CODES: usize = 58;
const LEAVES: usize = 28;

// A few nodes made anew: any codes and fields, near trees for the most part. One code in a few is any of the 256.
fn alter_rule(rng: &mut Rng, r: &mut Record) {
    if rng.one_in(3) {
        r.head.nodes = 1 + rng.below(9);
        let any = if rng.one_in(3) { rng.below(r.head.nodes) } else { 512 };
        for p in 0..r.head.nodes {
            let codes = if p == 0 || rng.one_in(3) { LEAVES } else { CODES };
            r.codes[p] = rng.below(codes) as u8;
            if p == any {
                r.codes[p] = rng.below(256) as u8;
            }
            r.values[p] = *rng.pick(&[0, 1, 2, 3, 10, u64::MAX]);
            for j in 0..2 {
                r.places[2 * p + j] = if p == 0 { rng.below(3) as u16 } else { rng.below(p) as u16 };
            }
        }
        r.head.root = if rng.one_in(3) { rng.below(r.head.nodes) } else { r.head.nodes - 1 };
    }
    for _ in 0..rng.below(3) {
        let p = rng.below(r.head.nodes.min(512) + 1).min(511);
        match rng.below(6) {
            0 => r.codes[p] = rng.below(256) as u8,
            1 => r.places[2 * p + rng.below(2)] = *rng.pick(&[0, 1, p as u16, (p + 1) as u16, 511, 512, 65535]),
            2 => r.places[2 * p + rng.below(2)] = rng.below(p + 1) as u16,
            3 => r.values[p] = rng.next(),
            4 => r.head.nodes = *rng.pick(&[0, 1, p, p + 1, 511, 512, 513, usize::MAX]),
            _ => r.head.root = *rng.pick(&[0, p, p + 1, 511, 512, usize::MAX]),
        }
    }
}

fn alter_tables(rng: &mut Rng, r: &mut Record, size: usize) {
    let t = &mut r.head;
    match rng.below(8) {
        0 => t.count = *rng.pick(&[0, 1, 2, size / 8, size / 8 + 1, u32::MAX as usize, usize::MAX]),
        1 => t.originals = *rng.pick(&[0, t.translations, t.originals + 8, size, size + 1, usize::MAX - 7, usize::MAX]),
        2 => t.translations = *rng.pick(&[0, t.originals, t.translations.wrapping_sub(8), size.wrapping_sub(8), usize::MAX - 8, usize::MAX]),
        3 => t.big = *rng.pick(&[0, 1, 2, usize::MAX]),
        4 => t.originals = rng.below(size + 9),
        5 => t.translations = rng.below(size + 9),
        6 => t.length = *rng.pick(&[0, size + 1, size.wrapping_sub(1), usize::MAX]),
        _ => {}
    }
}

impl Oracle {
    // A loaded record with a few fields altered, and every answer that it gives.
    pub fn altered(&mut self, rng: &mut Rng) -> Result<(), String> {
        let bytes = make::file(rng);
        let file = self.lent.file.put(&bytes, rng.one_in(2));
        let loaded = self.lent.load(file, None, rng.one_in(2), true);
        self.located(&bytes, &loaded, false, true)?;
        let mut record = *loaded.catalog;
        if loaded.number != 0 {
            // no load made it, so let it be near this file
            record.head.length = bytes.len();
            record.head.count = rng.below(4);
            record.head.originals = 28;
            record.head.translations = 28 + 8 * rng.below(4);
        }
        alter_rule(rng, &mut record);
        alter_tables(rng, &mut record, bytes.len());
        // no lookup looks at the count of forms
        (record.counted, record.forms) = (rng.next() as u32, rng.next());
        let mut ours = Ours { number: 0, side: 0, entry: None, forms: None, catalog: self.lent.put_record(&record), slots: None };
        self.stats.cases += 1;
        let told = |what: String| Err(format!("{what}\n  file {}\n  tables {:?}", hex(&bytes), record.head));

        let tree = is_tree(&record);
        let rated = if tree { range(&record, record.head.root) } else { None };
        let rating = ours.rating();
        let wanted = rated.map_or((0, 0, 0), |(lowest, highest)| (1, lowest, highest));
        if (rating.number, (rating.rated, rating.lowest, rating.highest)) != (if tree { 0 } else { 11 }, wanted) {
            return told(format!("rating {rating:?}, by the model {wanted:?}, a tree: {tree}"));
        }
        for k in [0, 1, 2, rated.map_or(3, |(_, highest)| highest), rated.map_or(4, |(_, highest)| highest.saturating_add(1))] {
            let fits = ours.fits(k);
            let wanted = (if tree { 0 } else { 11 }, rated.map_or(false, |(_, highest)| highest < k) as u32);
            if (fits.number, fits.fits) != wanted {
                return told(format!("fits {k}: {fits:?}, by the model {wanted:?}"));
            }
        }
        self.stats.numbers[if tree { rated.map_or(10, |_| 0) } else { 11 }] += 1;
        let mut keys: Vec<Vec<u8>> = vec![b"".to_vec(), b"a".to_vec()];
        let most = low(record.head.count).min(bytes.len() / 8 + 1);
        for i in 0..most.min(6) {
            if let Some((key, _, _)) = entry(&bytes, &record, i) {
                keys.push(key.to_vec());
            }
        }
        ours.slots = self.build(rng, file, &ours).or_else(|e| told(e).map(|()| None))?;
        for _ in 0..4 {
            let n = *rng.pick(&make::COUNTS);
            let value = if tree { record.resolve(record.head.root, n) } else { None };
            let wanted = (if !tree { 11 } else if value.is_none() { 10 } else { 0 }, value.unwrap_or(0));
            let form = ours.resolve_at(n);
            self.stats.values += 1;
            if (form.number, form.form) != wanted {
                return told(format!("value at {n}: {form:?}, by the model {wanted:?}"));
            }
            let key = rng.pick(&keys).clone();
            let id = self.lent.id.put(&key, rng.one_in(2));
            let (one, many) = (ours.gettext(file, id), ours.ngettext(file, id, n));
            let by_scan = |n| answer(&bytes, &record, n, false, || last(&bytes, &record, &key));
            let wanted = (by_scan(None), by_scan(Some(n)));
            self.stats.lookups += 2;
            if (one, many) != wanted {
                return told(format!("key {} at {n}: {:?}, by the model {wanted:?}", hex(&key), (one, many)));
            }
            self.why(file, &ours, None, id, n, many).or_else(told)?;
            // the same with the key's context apart
            if let Some(four) = key.iter().position(|&b| b == 4) {
                let context = self.lent.context.put(&key[..four], rng.one_in(2));
                let id = self.lent.id.put(&key[four + 1..], rng.one_in(2));
                let apart = (ours.pgettext(file, context, id), ours.npgettext(file, context, id, n));
                self.stats.lookups += 2;
                if apart != wanted {
                    return told(format!("key {} apart at {n}: {apart:?}, by the model {wanted:?}", hex(&key)));
                }
                self.why(file, &ours, Some(context), id, n, apart.1).or_else(told)?;
            }
        }
        self.altered_slots(rng, file, &ours, &keys).or_else(told)?;
        self.written(rng, ours.catalog, tree).or_else(told)
    }
}
