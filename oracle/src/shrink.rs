// Makes an input that differs smaller, as long as it still differs.
use crate::compare::{count, hex, Depth, Oracle, Stats, NOT_GIVEN};
use crate::make::{self, Entry};
use crate::rng::Rng;

// Takes parts away from a text while the test still fails on it: runs of bytes, and where it is short, pairs (as of brackets).
fn shorter(text: &mut Vec<u8>, mut differs: impl FnMut(&[u8]) -> bool) {
    let mut step = (text.len() / 2).max(1);
    loop {
        let mut at = 0;
        let mut less = false;
        while at < text.len() {
            let mut next = text.clone();
            next.drain(at..(at + step).min(text.len()));
            if differs(&next) {
                *text = next;
                less = true;
            } else {
                at += step;
            }
        }
        if step == 1 && !less && !shorter_by_two(text, &mut differs) {
            return;
        }
        step = (step / 2).max(1);
    }
}

fn shorter_by_two(text: &mut Vec<u8>, differs: &mut impl FnMut(&[u8]) -> bool) -> bool {
    if text.len() > 48 {
        return false;
    }
    for j in 1..text.len() {
        for i in 0..j {
            let mut next = text.clone();
            next.remove(j);
            next.remove(i);
            if differs(&next) {
                *text = next;
                return true;
            }
        }
    }
    false
}

pub fn rule(oracle: &mut Oracle, rng: &mut Rng, mut rule: Vec<u8>, counts: &[u64], first: String) -> String {
    // what is tried here is no case of the run
    let kept = std::mem::take(&mut oracle.stats);
    shorter(&mut rule, |text| oracle.rule(&mut rng.clone(), text, counts).is_err());
    let last = oracle.rule(&mut rng.clone(), &rule, counts).err().unwrap_or(first);
    oracle.stats = kept;
    format!("rule {} {:?}: {last}", hex(&rule), String::from_utf8_lossy(&rule))
}

// A header (or a forced rule) of an explained kind, as short as it goes in a catalog that has nothing else.
pub fn example(kind: &str, example: &[u8]) -> String {
    let mut oracle = Oracle::new();
    let mut shows = |header: &[u8]| {
        oracle.stats = Stats::default();
        let header = Entry { segments: vec![header.to_vec()], ..Entry::default() };
        let file = make::plain(false, &[header]);
        let _ = oracle.file(&mut Rng::new(0, 0), &file, &file, None, false, Depth::Some);
        oracle.stats.kinds.contains_key(kind)
    };
    let mut text = example.to_vec();
    // a long rule is slow in the crate, and its kind says all
    if kind != NOT_GIVEN && text.len() < 200 && shows(&text) {
        shorter(&mut text, &mut shows);
    }
    let told = format!("{:?}", String::from_utf8_lossy(&text));
    match told.char_indices().nth(100) {
        Some((at, _)) => format!("{}.. ({} bytes)", &told[..at], text.len()),
        None => told,
    }
}

// The entries of a file, where each can be read.
fn entries(file: &[u8]) -> Option<(bool, Vec<Entry>)> {
    let big = [false, true].into_iter().find(|&big| file.len() >= 28 && file[..4] == make::magic(big))?;
    let n = count(file, big);
    if n > 1000 {
        return None;
    }
    let string = |field: usize, i: usize| {
        let cell = (make::word_at(file, big, field) as usize).checked_add(8 * i)?;
        file.get(cell..cell + 8)?;
        let at = make::word_at(file, big, cell + 4) as usize;
        file.get(at..at + make::word_at(file, big, cell) as usize)
    };
    let mut entries = Vec::new();
    for i in 0..n {
        let (original, translation) = (string(12, i)?, string(16, i)?);
        // the whole original as the id: it is laid out again byte for byte
        entries.push(Entry { context: None, id: original.to_vec(), after: None, segments: vec![translation.to_vec()] });
    }
    Some((big, entries))
}

pub fn file(oracle: &mut Oracle, bytes: Vec<u8>, first: String, differs: impl Fn(&mut Oracle, &[u8]) -> Option<String>) -> String {
    let kept = std::mem::take(&mut oracle.stats);
    let mut best = bytes;
    if let Some((big, mut list)) = entries(&best) {
        if differs(oracle, &make::plain(big, &list)).is_some() {
            let mut i = 0;
            while i < list.len() {
                let mut fewer = list.clone();
                fewer.remove(i);
                if differs(oracle, &make::plain(big, &fewer)).is_some() {
                    list = fewer;
                } else {
                    i += 1;
                }
            }
            for i in 0..list.len() {
                // a key that stands twice stays one
                let old = list[i].id.clone();
                let with = |list: &[Entry], text: &[u8]| {
                    let mut other = list.to_vec();
                    other.iter_mut().filter(|entry| entry.id == old).for_each(|entry| entry.id = text.to_vec());
                    other
                };
                let mut id = old.clone();
                shorter(&mut id, |text| differs(oracle, &make::plain(big, &with(&list, text))).is_some());
                list = with(&list, &id);
                let mut segment = list[i].segments[0].clone();
                shorter(&mut segment, |text| {
                    let mut other = list.clone();
                    other[i].segments = vec![text.to_vec()];
                    differs(oracle, &make::plain(big, &other)).is_some()
                });
                list[i].segments = vec![segment];
            }
            best = make::plain(big, &list);
        }
    }
    shorter(&mut best, |text| differs(oracle, text).is_some());
    let last = differs(oracle, &best).unwrap_or(first);
    oracle.stats = kept;
    format!("{last}\n  file {}", hex(&best))
}
