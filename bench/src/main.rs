//! The port beside gettext 0.4.0, std and glibc: `bench OUT SCRATCH FOLDER..` prints a table of ratios, and writes OUT/bench.csv and
//! OUT/bench.svg. Every figure is the best of several repeats in this one process; nothing here is a test.
use std::collections::BTreeMap;
use std::fmt::Write as _;
use std::fs;
use std::hint::black_box;
use std::path::Path;
use std::time::Instant;

mod alone;
mod count;
// the static library's own functions, as the host crate declares them
#[allow(dead_code)]
#[path = "../../host/rust/src/ffi.rs"]
mod ffi;
mod files;
mod glibc;
mod plot;
// the crate's own src/plurals.rs, which takes the error from a module of this name (build.rs)
#[cfg(evaluation_alone)]
mod parser {
    pub use gettext::Error;
}
#[cfg(evaluation_alone)]
#[allow(dead_code)]
mod plurals {
    include!(env!("GETTEXT_PLURALS"));
}

use files::{catalog, generated, messages, real, Message};

#[global_allocator]
static COUNTING: count::Counting = count::Counting;

/// One line of the table: the port, the other, and how many times as fast (or as small) the port is.
pub struct Row {
    pub group: &'static str,
    pub case: String,
    pub unit: &'static str,
    pub ours: f64,
    pub other: f64,
    pub beside: &'static str,
    pub ratio: f64,
}

/// The call's answer is wanted, as far as the compiler can tell.
fn keep<T>(answer: T) {
    black_box(answer);
}

/// Best seconds of `repeats` runs of each, taken in turn, so that a slow moment of the machine strikes them alike.
fn race<const N: usize>(repeats: usize, mut runs: [&mut dyn FnMut(); N]) -> [f64; N] {
    let mut least = [f64::MAX; N];
    for _ in 0..repeats {
        for (run, least) in runs.iter_mut().zip(&mut least) {
            let start = Instant::now();
            run();
            *least = least.min(start.elapsed().as_secs_f64());
        }
    }
    least
}

/// Best nanoseconds of one of `times` calls. Not in turn with another's: a scan of a large file leaves a cold cache behind.
fn nanoseconds(times: usize, mut call: impl FnMut(usize)) -> f64 {
    race(9, [&mut || (0..times).for_each(&mut call)])[0] / times as f64 * 1e9
}

fn faster(group: &'static str, case: String, unit: &'static str, ours: f64, other: f64, beside: &'static str) -> Row {
    let ratio = if unit == "MB/s" { ours / other } else { other / ours };
    Row { group, case, unit, ours, other, beside, ratio }
}

fn load(rows: &mut Vec<Row>, files: &[Vec<u8>]) {
    let both: Vec<&Vec<u8>> = files
        .iter()
        .filter(|f| gettext_rattle::Catalog::parse_slice(f).is_ok() && gettext::Catalog::parse(&f[..]).is_ok())
        .collect();
    let bytes: usize = both.iter().map(|f| f.len()).sum();
    let speed = |seconds: f64| bytes as f64 / seconds / 1e6;
    let [ours, other] = race(
        7,
        [
            &mut || both.iter().for_each(|f| keep(gettext_rattle::Catalog::parse_slice(f))),
            &mut || both.iter().for_each(|f| keep(gettext::Catalog::parse(&f[..]))),
        ],
    )
    .map(speed);
    let case = format!("{} real catalogs, {:.1} MB", both.len(), bytes as f64 / 1e6);
    rows.push(faster("load", case, "MB/s", ours, other, "crate"));
}

/// What a loaded catalog holds beyond its file, and how many allocations made it.
fn memory(rows: &mut Vec<Row>, files: &[Vec<u8>]) {
    let Some(file) = files.iter().filter(|f| gettext_rattle::Catalog::parse_slice(f).is_ok()).max_by_key(|f| f.len()) else {
        return;
    };
    let before = count::now();
    let ours = gettext_rattle::Catalog::parse_slice(file);
    let mine = count::now().since(before);
    let before = count::now();
    let other = gettext::Catalog::parse(&file[..]);
    let theirs = count::now().since(before);
    black_box((ours.is_ok(), other.is_ok()));
    let held = mine.bytes + std::mem::size_of::<gettext_rattle::Catalog<&[u8]>>();
    let size = format!("a catalog of {} bytes", file.len());
    rows.push(faster("memory", format!("bytes held, {size}"), "bytes", held as f64, theirs.bytes as f64, "crate"));
    rows.push(faster("memory", format!("allocations, {size}"), "count", mine.calls as f64, theirs.calls as f64, "crate"));
}

/// Keys in an order that no cache foresees.
fn shuffled(n: usize) -> Vec<usize> {
    let mut order: Vec<usize> = (0..n).collect();
    let mut state = 0x9e37_79b9_7f4a_7c15_u64;
    for i in (1..n).rev() {
        state = state.wrapping_mul(6364136223846793005).wrapping_add(1442695040888963407);
        order.swap(i, (state >> 33) as usize % (i + 1));
    }
    order
}

/// Keys drawn by lot, so many that a run does not meet the same row of them again: neither a cache nor the processor's guesses at branches can learn it.
fn drawn(n: usize) -> Vec<u32> {
    let mut state = 0x9e37_79b9_7f4a_7c15_u64;
    let mut draw = || {
        state = state.wrapping_mul(6364136223846793005).wrapping_add(1442695040888963407);
        ((state >> 33) % n as u64) as u32
    };
    (0..1_000_003).map(|_| draw()).collect()
}

struct Lookups {
    hit: (f64, f64),
    miss: (f64, f64),
    plural_hit: (f64, f64),
    plural_miss: (f64, f64),
}

fn lookups(messages: &[Message], file: &[u8]) -> Lookups {
    let ours = gettext_rattle::Catalog::parse_slice(file).expect("a generated catalog loads");
    let other = gettext::Catalog::parse(file).expect("a generated catalog loads in the crate");
    let order = shuffled(messages.len());
    let absent: Vec<String> = messages.iter().map(|m| format!("{}?", m.id)).collect();
    let times = (2_000_000 / messages.len()).clamp(300, 20_000);
    let at = |k: usize| order[k % order.len()];
    for k in 0..messages.len() {
        let m = &messages[k];
        assert_eq!(ours.gettext(&m.id), other.gettext(&m.id));
        for n in [0, 1, 2, 5, 21] {
            assert_eq!(ours.ngettext(&m.id, "many", n), other.ngettext(&m.id, "many", n));
        }
        assert_eq!(ours.gettext(&absent[k]), absent[k]);
    }
    Lookups {
        hit: (
            nanoseconds(times, |k| keep(ours.gettext(black_box(&messages[at(k)].id)))),
            nanoseconds(times, |k| keep(other.gettext(black_box(&messages[at(k)].id)))),
        ),
        miss: (
            nanoseconds(times, |k| keep(ours.gettext(black_box(&absent[at(k)])))),
            nanoseconds(times, |k| keep(other.gettext(black_box(&absent[at(k)])))),
        ),
        plural_hit: (
            nanoseconds(times, |k| keep(ours.ngettext(black_box(&messages[at(k)].id), "many", k as u64))),
            nanoseconds(times, |k| keep(other.ngettext(black_box(&messages[at(k)].id), "many", k as u64))),
        ),
        plural_miss: (
            nanoseconds(times, |k| keep(ours.ngettext(black_box(&absent[at(k)]), "many", k as u64))),
            nanoseconds(times, |k| keep(other.ngettext(black_box(&absent[at(k)]), "many", k as u64))),
        ),
    }
}

const RUSSIAN: &str = "n%10==1 && n%100!=11 ? 0 : n%10>=2 && n%10<=4 && (n%100<10 || n%100>=20) ? 1 : 2";
const POLISH: &str = "n==1 ? 0 : n%10>=2 && n%10<=4 && (n%100<10 || n%100>=20) ? 1 : 2";
const SLOVENIAN: &str = "n%100==1 ? 0 : n%100==2 ? 1 : n%100==3 || n%100==4 ? 2 : 3";
const ARABIC: &str = "n==0 ? 0 : n==1 ? 1 : n==2 ? 2 : n%100>=3 && n%100<=10 ? 3 : n%100>=11 ? 4 : 5";

fn lookup(rows: &mut Vec<Row>, scratch: &Path) {
    for n in [100, 1000, 9000] {
        let (messages, file) = generated(n, RUSSIAN);
        let l = lookups(&messages, &file);
        rows.push(faster("lookup", format!("hit, {n} entries"), "ns", l.hit.0, l.hit.1, "crate"));
        rows.push(faster("lookup", format!("miss, {n} entries"), "ns", l.miss.0, l.miss.1, "crate"));
        rows.push(faster("lookup", format!("plural hit, {n} entries"), "ns", l.plural_hit.0, l.plural_hit.1, "crate"));
        rows.push(faster("lookup", format!("plural miss, {n} entries"), "ns", l.plural_miss.0, l.plural_miss.1, "crate"));
        if let Some(domain) = glibc::Domain::open(scratch, &format!("scan{n}"), &file, &messages[0]) {
            let order = shuffled(n);
            let ids: Vec<_> = messages.iter().map(|m| glibc::text(&m.id)).collect();
            let theirs = nanoseconds(20_000, |k| keep(domain.gettext(&ids[order[k % n]])));
            rows.push(faster("lookup", format!("hit, {n} entries"), "ns", l.hit.0, theirs, "glibc"));
        }
    }
}

/// n of the messages, taken here and there, in the order of their ids.
fn some(all: &[Message], n: usize) -> Vec<Message> {
    let mut messages: Vec<Message> = shuffled(all.len()).iter().take(n).map(|&i| all[i].clone()).collect();
    messages.sort_by(|a, b| a.id.cmp(&b.id));
    messages
}

/// Lookups by an index beside the crate's hash map and glibc, and building one beside the load of the same catalog. The ids and translations
/// are those of real catalogs, generated ones where there are too few. For plural lookups each id has a plural id, and each translation is stored
/// three times.
fn index(rows: &mut Vec<Row>, scratch: &Path, folders: &[String]) {
    let all = messages(folders, "ru");
    for n in [100, 1000, 9000] {
        let (messages, keys) = if n <= all.len() { (some(&all, n), "real") } else { (generated(n, RUSSIAN).0, "generated") };
        let thrice: Vec<Message> =
            messages.iter().map(|m| Message { id: m.id.clone(), translation: [&m.translation[..]; 3].join("\0") }).collect();
        let file = catalog(&messages, "", "", RUSSIAN);
        let apart = catalog(&messages, "menu\u{4}", "", RUSSIAN);
        let plurals = catalog(&thrice, "", "\0many", RUSSIAN);
        let [ours, ours_apart, ours_plural] =
            [&file, &apart, &plurals].map(|f| gettext_rattle::Catalog::parse_slice(f).expect("it loads").indexed());
        let [other, other_apart, other_plural] = [&file, &apart, &plurals].map(|f| gettext::Catalog::parse(&f[..]).expect("it loads"));
        let absent: Vec<String> = messages.iter().map(|m| format!("{}?", m.id)).collect();
        for (m, none) in messages.iter().zip(&absent) {
            assert_eq!(ours.gettext(&m.id), other.gettext(&m.id));
            assert_eq!(ours_apart.pgettext("menu", &m.id), other_apart.pgettext("menu", &m.id));
            assert_eq!(ours_plural.ngettext(&m.id, "many", 5), other_plural.ngettext(&m.id, "many", 5));
            assert_eq!(ours.gettext(none), none);
        }
        let order = drawn(n);
        let at = |k: usize| order[k % order.len()] as usize;
        let (id, none) = (|k: usize| black_box(&messages[at(k)].id[..]), |k: usize| black_box(&absent[at(k)][..]));
        // short runs, so that some fall between the other work of the machine; they go on through the keys that were drawn
        let times = 2000;
        let mut row = |name: &str, mine: &mut dyn FnMut(usize), theirs: &mut dyn FnMut(usize)| {
            let (mut a, mut b) = (0usize.., 0usize..);
            let each = race(400, [&mut || a.by_ref().take(times).for_each(&mut *mine), &mut || b.by_ref().take(times).for_each(&mut *theirs)]);
            let [mine, theirs] = each.map(|seconds| seconds / times as f64 * 1e9);
            rows.push(faster("index", format!("{name}, {n} {keys} entries"), "ns", mine, theirs, "crate"));
            mine
        };
        let hit = row("hit", &mut |k| keep(ours.gettext(id(k))), &mut |k| keep(other.gettext(id(k))));
        row("miss", &mut |k| keep(ours.gettext(none(k))), &mut |k| keep(other.gettext(none(k))));
        row("hit in a context", &mut |k| keep(ours_apart.pgettext("menu", id(k))), &mut |k| keep(other_apart.pgettext("menu", id(k))));
        row("miss in a context", &mut |k| keep(ours_apart.pgettext("menu", none(k))), &mut |k| keep(other_apart.pgettext("menu", none(k))));
        row(
            "plural hit",
            &mut |k| keep(ours_plural.ngettext(id(k), "many", k as u64)),
            &mut |k| keep(other_plural.ngettext(id(k), "many", k as u64)),
        );
        row(
            "plural miss",
            &mut |k| keep(ours_plural.ngettext(none(k), "many", k as u64)),
            &mut |k| keep(other_plural.ngettext(none(k), "many", k as u64)),
        );
        if let Some(domain) = glibc::Domain::open(scratch, &format!("index{n}"), &file, &messages[0]) {
            let ids: Vec<_> = messages.iter().map(|m| glibc::text(&m.id)).collect();
            let theirs = nanoseconds(20_000, |k| keep(domain.gettext(&ids[at(k)])));
            rows.push(faster("index", format!("hit, {n} {keys} entries"), "ns", hit, theirs, "glibc"));
        }
        let mut record = ffi::blank();
        ffi::load(&file, None, false, false, false, &mut record);
        let mut slots = vec![0; ffi::slots(&record)];
        let [load, build] = race(
            25,
            [
                &mut || keep(ffi::load(black_box(&file), None, false, false, false, &mut ffi::blank())),
                &mut || keep(ffi::index(black_box(&file), &record, &mut slots)),
            ],
        )
        .map(|seconds| seconds * 1e9);
        rows.push(faster("index", format!("building, {n} {keys} entries"), "ns", build, load, "our load"));
    }
}

/// Building the index of every real catalog right after its load, as a host does: the least of some rounds, an entry.
fn building(rows: &mut Vec<Row>, files: &[Vec<u8>]) {
    let mut record = ffi::blank();
    let mut slots = Vec::new();
    let (mut entries, mut catalogs) = (0, 0);
    let mut least = [f64::MAX; 2];
    for _ in 0..7 {
        let mut sums = [0.0; 2];
        (entries, catalogs) = (0, 0);
        for file in files {
            let start = Instant::now();
            keep(ffi::load(black_box(file), None, false, false, false, &mut record));
            let load = start.elapsed();
            if record.head.count == 0 {
                continue;
            }
            slots.resize(ffi::slots(&record), 0);
            let start = Instant::now();
            keep(ffi::index(black_box(file), &record, &mut slots));
            let build = start.elapsed();
            sums = [sums[0] + load.as_secs_f64(), sums[1] + build.as_secs_f64()];
            entries += record.head.count;
            catalogs += 1;
        }
        least = [least[0].min(sums[0]), least[1].min(sums[1])];
    }
    let [load, build] = least.map(|seconds| seconds / entries as f64 * 1e9);
    rows.push(faster("index", format!("building an entry, {catalogs} real catalogs, each after its load"), "ns", build, load, "our load"));
}

/// The largest number of entries at which a scan is not slower than the crate's hash map.
fn crossover() -> BTreeMap<&'static str, usize> {
    let mut most = BTreeMap::from([("hit", 0), ("miss", 0), ("plural hit", 0), ("plural miss", 0)]);
    for n in [1, 2, 3, 4, 6, 8, 12, 16, 24, 32, 48, 64, 96] {
        let (messages, file) = generated(n, RUSSIAN);
        let l = lookups(&messages, &file);
        for (name, (ours, other)) in [("hit", l.hit), ("miss", l.miss), ("plural hit", l.plural_hit), ("plural miss", l.plural_miss)] {
            if ours <= other {
                most.insert(name, n);
            }
        }
    }
    most
}

// A rule with an operator that the crate has not, beside the crate's shortest rule.
fn halves(rows: &mut Vec<Row>) {
    let (_, file) = generated(0, "n != 1");
    let options = gettext_rattle::ParseOptions::new().reading(gettext_rattle::Reading::Standard);
    let ours = options.force_plural("(n+1)/2").parse_slice(&file).expect("it loads");
    let other = gettext::Catalog::parse(&file[..]).expect("it loads");
    let each = race(
        400,
        [
            &mut || (0..1000).for_each(|n| keep(ours.ngettext(black_box("no such message"), "many", n))),
            &mut || (0..1000).for_each(|n| keep(other.ngettext(black_box("no such message"), "many", n))),
        ],
    );
    let [mine, theirs] = each.map(|seconds| seconds / 1000.0 * 1e9);
    rows.push(faster("plural rule", "(n+1)/2, Standard, beside the crate's n != 1".into(), "ns", mine, theirs, "crate"));
}

// The forms of a million counts, beside the crate asked for each count with an id that it has not.
fn span(rows: &mut Vec<Row>) {
    let (_, file) = generated(0, RUSSIAN);
    let ours = gettext_rattle::Catalog::parse_slice(&file).expect("it loads");
    let (_, same) = generated(0, &ours.rule_text().expect("it has at most 512 bytes"));
    let other = gettext::Catalog::parse(&same[..]).expect("it loads");
    let each = race(
        5,
        [
            &mut || assert_eq!(black_box(&ours).forms_over(0..=999_999).expect("a span").zero(), 0),
            &mut || (0..1_000_000).for_each(|n| keep(other.ngettext(black_box("no such message"), "many", n))),
        ],
    );
    let [mine, theirs] = each.map(|seconds| seconds / 1e6 * 1e9);
    rows.push(faster("form counts", "Russian, Shipped, 1000000 counts, a count".into(), "ns", mine, theirs, "crate"));
}

// The same beside the crate's evaluation alone, of the very tree.
fn span_alone(rows: &mut Vec<Row>) {
    use gettext_rattle::Reading::{Shipped, Standard};
    let (_, file) = generated(0, RUSSIAN);
    for (reading, called) in [(Shipped, "Shipped"), (Standard, "Standard")] {
        let ours = gettext_rattle::ParseOptions::new().reading(reading).parse_slice(&file).expect("it loads");
        let Some(form) = alone::resolver(&ours.rule_text().expect("it has at most 512 bytes")) else {
            println!("The crate's source is not at hand: no row beside its evaluation alone.");
            return;
        };
        let figures = ours.forms_over(0..=999_999).expect("a span");
        for k in 0..16 {
            assert_eq!(figures.of(k), Some((0..1_000_000).filter(|&n| form(n) == k).count() as u64), "{called}, form {k}");
        }
        let each = race(
            25,
            [
                &mut || keep(black_box(&ours).forms_over(0..=999_999)),
                &mut || (0..1_000_000).for_each(|n| keep(black_box(&form)(n))),
            ],
        );
        let [mine, theirs] = each.map(|seconds| seconds / 1e6 * 1e9);
        let case = format!("Russian, {called}, 1000000 counts, beside the crate's evaluation alone");
        rows.push(faster("form counts", case, "ns", mine, theirs, "crate"));
    }
}

/// A plural lookup in a catalog that has the header alone: almost all of it is the rule. The crate is given the same tree; its own reading of
/// the same text is a row beside Standard's.
fn evaluation(rows: &mut Vec<Row>) {
    use gettext_rattle::Reading::{Shipped, Standard};
    let rules = [("n != 1", "n != 1"), ("Russian", RUSSIAN), ("Polish", POLISH), ("Arabic", ARABIC), ("Slovenian", SLOVENIAN)];
    for (name, rule) in rules {
        let (_, file) = generated(0, rule);
        let own_way = gettext::Catalog::parse(&file[..]).expect("it loads");
        for (reading, called) in [(Shipped, "Shipped"), (Standard, "Standard")] {
            let ours = gettext_rattle::ParseOptions::new().reading(reading).parse_slice(&file).expect("it loads");
            let mut record = ffi::blank();
            ffi::load(&file, None, reading == Standard, false, false, &mut record);
            let text = ours.rule_text().expect("it has at most 512 bytes");
            let (_, same) = generated(0, &text);
            let other = gettext::Catalog::parse(&same[..]).expect("it loads");
            let id = "no such message";
            let (_, forms) = generated(1, rule);
            let (_, same_forms) = generated(1, &text);
            let (message, _) = generated(1, rule);
            let mine = gettext_rattle::ParseOptions::new().reading(reading).parse_slice(&forms).expect("it loads");
            let theirs = gettext::Catalog::parse(&same_forms[..]).expect("it loads");
            for n in 0..3000 {
                assert_eq!(mine.ngettext(&message[0].id, "many", n), theirs.ngettext(&message[0].id, "many", n), "{name}, {called}, {n}");
            }
            let each = race(
                400,
                [
                    &mut || (0..1000).for_each(|n| keep(ours.ngettext(black_box(id), "many", n))),
                    &mut || (0..1000).for_each(|n| keep(other.ngettext(black_box(id), "many", n))),
                    &mut || (0..1000).for_each(|n| keep(own_way.ngettext(black_box(id), "many", n))),
                ],
            );
            let [mine, theirs, misread] = each.map(|seconds| seconds / 1000.0 * 1e9);
            rows.push(faster("plural rule", format!("{name}, {called}, {} nodes", record.head.nodes), "ns", mine, theirs, "crate"));
            if reading == Standard {
                let case = format!("{name}, Standard, the crate reading it its own way");
                rows.push(faster("plural rule", case, "ns", mine, misread, "crate"));
            }
        }
    }
    halves(rows);
    span(rows);
    span_alone(rows);
}

fn utf8(rows: &mut Vec<Row>, files: &[Vec<u8>]) {
    for (name, ids) in [("translations", false), ("ids", true)] {
        let texts: Vec<&[u8]> = files.iter().flat_map(|f| files::strings(f, ids)).take(400_000).collect();
        let bytes: usize = texts.iter().map(|t| t.len()).sum();
        let speed = |seconds: f64| bytes as f64 / seconds / 1e6;
        let [ours, std] = race(
            9,
            [
                &mut || texts.iter().for_each(|t| keep(gettext_rattle::is_utf8(t))),
                &mut || texts.iter().for_each(|t| keep(std::str::from_utf8(t).is_ok())),
            ],
        )
        .map(speed);
        rows.push(faster("UTF-8 test", format!("{} {name}, one by one", texts.len()), "MB/s", ours, std, "std"));
    }
}

fn table(rows: &[Row], most: &BTreeMap<&str, usize>) -> String {
    let mut out = String::from("| what | unit | ours | beside | theirs | times as good |\n|---|---|---:|---|---:|---:|\n");
    for r in rows {
        let ratio = match r.ratio {
            some if !some.is_finite() => "none against some".into(),
            some if some < 0.1 => format!("{some:.4}"),
            some => format!("{some:.2}"),
        };
        let _ = writeln!(out, "| {}: {} | {} | {:.0} | {} | {:.0} | {ratio} |", r.group, r.case, r.unit, r.ours, r.beside, r.other);
    }
    let list: Vec<String> = most.iter().map(|(name, n)| format!("{name} {n}")).collect();
    let _ = writeln!(out, "\nA scan is not slower than the crate's hash map up to this many entries: {}.", list.join(", "));
    out
}

fn csv(rows: &[Row]) -> String {
    let mut out = String::from("group,case,unit,ours,beside,theirs,ratio\n");
    for r in rows {
        let _ = writeln!(out, "{},\"{}\",{},{:.3},{},{:.3},{:.4}", r.group, r.case, r.unit, r.ours, r.beside, r.other, r.ratio);
    }
    out
}

fn main() {
    let words: Vec<String> = std::env::args().skip(1).collect();
    let [out, scratch, folders @ ..] = &words[..] else {
        eprintln!("usage: bench OUT SCRATCH FOLDER..");
        std::process::exit(2);
    };
    let files = real(folders);
    let mut rows = Vec::new();
    load(&mut rows, &files);
    memory(&mut rows, &files);
    utf8(&mut rows, &files);
    evaluation(&mut rows);
    lookup(&mut rows, Path::new(scratch));
    index(&mut rows, Path::new(scratch), folders);
    building(&mut rows, &files);
    let most = crossover();
    print!("{}", table(&rows, &most));
    fs::write(Path::new(out).join("bench.csv"), csv(&rows)).expect("the CSV is written");
    fs::write(Path::new(out).join("bench.svg"), plot::svg(&rows)).expect("the plot is written");
}
