// The count of forms: a plain model of the words of document 02 f. Headers made of pieces that give a count, nearly give one or take no part
// in it are loaded in both readings, with a forced rule and without, with the demand for a fit and without; and of real catalogs it is told
// how many carry a count, how many load under the demand, and which rules do not fit.
use crate::altered::range;
use crate::compare::{field, header_of, rule_of, six, Oracle};
use crate::make::{self, Entry, COUNTS};
use crate::rattle::Ours;
use crate::rng::Rng;
use std::collections::BTreeMap;

const NOT_FIT: u32 = 13;

// "Accept both names, the last well-formed one (digits once trimmed by the six, at most 2^64-1) counting".
pub fn counted(header: &str) -> Option<u64> {
    let pieces = field(header, "Plural-Forms")?.split(';').filter_map(|piece| piece.split_once('='));
    let named = pieces.filter(|(name, _)| ["nplurals", "n_plurals"].contains(&name.trim_matches(six)));
    named.filter_map(|(_, value)| whole(value.trim_matches(six))).last()
}

fn whole(digits: &str) -> Option<u64> {
    if digits.is_empty() || !digits.bytes().all(|b| b.is_ascii_digit()) {
        return None;
    }
    // by value: leading zeros are no matter
    match digits.trim_start_matches('0') {
        "" => Some(0),
        rest => rest.parse().ok(),
    }
}

// What a load keeps of a file: its header's count, and none where it is refused.
pub fn kept(file: &[u8], number: u32) -> Option<u64> {
    if number != 0 {
        return None;
    }
    header_of(file).and_then(counted)
}

// What a load under the demand answers, where it would have this number and rule without.
fn demanded(ours: &Ours, count: Option<u64>) -> u32 {
    if ours.number != 0 {
        return ours.number;
    }
    match (count, range(ours.catalog, ours.catalog.head.root)) {
        (Some(count), Some((_, highest))) if highest < count => 0,
        _ => NOT_FIT,
    }
}

fn piece(rng: &mut Rng) -> String {
    let name = *rng.pick(&[
        "nplurals", "nplurals", "nplurals", "n_plurals", "n_plurals", "plural", "plural", "Nplurals", "nplural", "npluralss", "n plurals",
        "", "\u{a0}nplurals", "nplurals\u{a0}", "xnplurals",
    ]);
    let value = match rng.below(12) {
        0..=2 => (rng.below(8)).to_string(),
        3 => rng.next().to_string(),
        4 => (u128::from(u64::MAX) + rng.below(3) as u128).to_string(),
        5 => format!("{}{}", "0".repeat(rng.below(30)), rng.below(10)),
        6 => format!("{}{}", rng.pick(&["+", "-", "0x", ".", "\u{a0}", "1 "]), rng.below(10)),
        7 => format!("{}{}", rng.below(10), rng.pick(&["+", ".", "n", "\u{a0}", "\u{2003}", " 2", "=2"])),
        8 => String::new(),
        9 => "x".into(),
        _ => String::from_utf8_lossy(&make::rule(rng)).into_owned(),
    };
    let value = if name == "plural" { String::from_utf8_lossy(&make::rule(rng)).into_owned() } else { value };
    let blank = |rng: &mut Rng| *rng.pick(&["", "", "", " ", "\t", "\x0b", "\x0c", "\r", " \t"]);
    let equal = if rng.one_in(20) { "" } else { "=" };
    format!("{}{name}{}{equal}{}{value}{}", blank(rng), blank(rng), blank(rng), blank(rng))
}

fn header(rng: &mut Rng) -> String {
    let mut lines = Vec::new();
    for _ in 0..1 + rng.below(3) {
        let name = *rng.pick(&["Plural-Forms", "Plural-Forms", "Plural-Forms", " Plural-Forms\t", "plural-forms", "Content-Type", "X"]);
        let pieces: Vec<String> = (0..rng.below(6)).map(|_| piece(rng)).collect();
        lines.push(format!("{name}:{}", pieces.join(";")));
    }
    lines.join("\n")
}

fn entries(rng: &mut Rng, header: &str) -> Vec<Entry> {
    let entry = |id: &[u8], segments: &[&[u8]]| Entry {
        context: None,
        id: id.to_vec(),
        after: None,
        segments: segments.iter().map(|s| s.to_vec()).collect(),
    };
    let forms: Vec<Vec<u8>> = (0..8).map(|i| vec![b'0' + i]).collect();
    let forms: Vec<&[u8]> = forms.iter().map(Vec::as_slice).collect();
    let mut all = Vec::new();
    if !rng.one_in(12) {
        all.push(entry(b"", &[header.as_bytes()]));
    }
    all.push(entry(b"p", &forms));
    // a last entry that is refused for another reason
    match rng.below(12) {
        0 => all.push(entry(b"bad", &[b"\xff"])),
        1 => all.push(entry(b"", &[b"again"])),
        _ => {}
    }
    all
}

impl Oracle {
    // A header, in both readings, with and without the demand.
    pub fn counts(&mut self, rng: &mut Rng) -> Result<(), String> {
        let header = header(rng);
        let big = rng.one_in(2);
        let bytes = make::plain(big, &entries(rng, &header));
        let rule = make::rule(rng);
        let file = self.lent.file.put(&bytes, rng.one_in(4));
        for standard in [false, true] {
            for forced in [None, Some(self.lent.rule.put(&rule, false))] {
                self.stats.cases += 1;
                let what = || format!("header {header:?}, forced {forced:?}, standard {standard}");
                let ours = self.lent.load(file, forced, standard, false);
                let count = kept(&bytes, ours.number);
                if ours.forms != count {
                    return Err(format!("count {:?}, by the words {count:?}: {}", ours.forms, what()));
                }
                let wanted = demanded(&ours, count);
                let without = *ours.catalog;
                let fitted = self.lent.load_fitting(file, forced, standard, false);
                let told = fitted.told();
                if told.number != wanted || wanted == NOT_FIT && (told.entry, told.side) != (None, 0) {
                    return Err(format!("{told:?} under the demand, by the words {wanted}: {}", what()));
                }
                if fitted.number == 0 && !(fitted.catalog.same(&without) && fitted.forms == count) {
                    return Err(format!("another record under the demand: {}", what()));
                }
                if fitted.number != 0 && fitted.forms.is_some() {
                    return Err(format!("a count beside a refusal: {}", what()));
                }
                self.stats.numbers[fitted.number as usize] += 1;
                self.stats.places[fitted.side as usize] += (fitted.number != 0) as u64;
                if fitted.number == 0 {
                    self.from_the_forms(rng, file, &fitted, count.unwrap_or(0)).map_err(|e| format!("{e}: {}", what()))?;
                }
            }
        }
        Ok(())
    }

    // Under the demand the form is below the count, and where that many are stored, the answer is that segment.
    fn from_the_forms(&mut self, rng: &mut Rng, file: &[u8], ours: &Ours, count: u64) -> Result<(), String> {
        for n in [0, 1, 2, rng.next(), u64::MAX, *rng.pick(&COUNTS)] {
            self.stats.values += 1;
            let form = ours.catalog.resolve(ours.catalog.head.root, n);
            let Some(form) = form.filter(|&form| form < count) else {
                return Err(format!("{form:?} at {n}, the count is {count}"));
            };
            if count <= 8 {
                self.stats.lookups += 1;
                let answer = ours.ngettext(file, b"p", n);
                let text = file.get(answer.start..answer.start + answer.len);
                if answer.number != 0 || answer.which != 0 || text != Some(&[b'0' + form as u8]) {
                    return Err(format!("{answer:?} at {n}, the form is {form}"));
                }
            }
        }
        Ok(())
    }
}

// Of real catalogs, in one reading.
#[derive(Default)]
pub struct Real {
    pub load: u64,
    pub counted: u64,
    pub fit: u64,
    pub headless: u64,
    pub without: u64,
    // rules that do not fit: count, rule and range, and how many files have them
    pub rules: BTreeMap<(u64, String, String), u64>,
}

impl Oracle {
    pub fn real_forms(&mut self, bytes: &[u8], standard: bool, real: &mut Real) -> Result<(), String> {
        let file = self.lent.file.put(bytes, false);
        let ours = self.lent.load(file, None, standard, false);
        let count = kept(bytes, ours.number);
        if ours.forms != count {
            return Err(format!("count {:?}, by the words {count:?}", ours.forms));
        }
        let (wanted, rating) = (demanded(&ours, count), range(ours.catalog, ours.catalog.head.root));
        let fitted = self.lent.load_fitting(file, None, standard, false);
        if fitted.number != wanted {
            return Err(format!("{} under the demand, by the words {wanted}", fitted.number));
        }
        if ours.number != 0 {
            return Ok(());
        }
        real.load += 1;
        match (header_of(bytes), count) {
            (None, _) => real.headless += 1,
            (_, None) => real.without += 1,
            (Some(header), Some(count)) => {
                real.counted += 1;
                if fitted.number == 0 {
                    real.fit += 1;
                } else {
                    let rule = rule_of(header).unwrap_or("none: the default").to_string();
                    let rating = rating.map_or("none".into(), |(lowest, highest)| format!("{lowest} to {highest}"));
                    *real.rules.entry((count, rule, rating)).or_default() += 1;
                }
            }
        }
        Ok(())
    }
}

// The table for docs/DIFFERENCES.md.
pub fn table(files: usize, readings: &[(&str, Real)]) -> String {
    let mut out = format!("| of {files} files | {} | {} |\n|---|---:|---:|\n", readings[0].0, readings[1].0);
    let mut row = |what: &str, of: fn(&Real) -> u64| {
        out += &format!("| {what} | {} | {} |\n", of(&readings[0].1), of(&readings[1].1));
    };
    row("load", |r| r.load);
    row("of these: carry a count", |r| r.counted);
    row("load with the demand", |r| r.fit);
    row("13: no header", |r| r.headless);
    row("13: a header without a count", |r| r.without);
    row("13: the rule does not fit", |r| r.rules.values().sum());
    if readings.iter().all(|(_, real)| real.rules.is_empty()) {
        return out + "\nEvery rule with a count fits it.\n";
    }
    out += "\n| reading | count | rule that does not fit | range | files |\n|---|---:|---|---|---:|\n";
    for (reading, real) in readings {
        let mut rules: Vec<_> = real.rules.iter().collect();
        rules.sort_by_key(|(_, files)| std::cmp::Reverse(**files));
        for ((count, rule, range), files) in rules {
            out += &format!("| {reading} | {count} | `{}` | {range} | {files} |\n", rule.replace('|', "\\|"));
        }
    }
    out
}
