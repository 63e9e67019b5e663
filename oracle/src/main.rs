// Runs against the Rust crate gettext 0.4.0, unchanged: the same files, rules, keys and counts are given to the crate and to the port's
// static library, and every answer is compared. The last line of each part is its summary; the exit status is 1 where they differ.
mod altered;
mod compare;
mod forms;
mod indexed;
mod located;
mod make;
mod named;
mod rattle;
mod rng;
mod sample;
mod shrink;
mod why;
mod written;

use compare::{hex, Depth, Oracle, Stats, CASE, QUIET};
use make::COUNTS;
use rng::Rng;
use std::path::{Path, PathBuf};
use std::process::exit;
use std::sync::atomic::{AtomicU64, Ordering};
use std::time::Instant;

const USAGE: &str = "usage: oracle run --seed S --cases N [--from I] [--threads T]
       oracle rules --exhaustive K [--threads T]
       oracle utf8 [--up-to K] [--threads T]
       oracle spaced --seed S --cases N [--threads T]
       oracle altered --seed S --cases N [--threads T]
       oracle bracketed --nodes K [--threads T]
       oracle counts --seed S --cases N [--threads T]
       oracle real DIR.. [--keys K] [--threads T]
       oracle forms DIR..
       oracle sample";

extern "C" {
    fn signal(number: i32, handler: usize) -> usize;
    fn write(fd: i32, bytes: *const u8, count: usize) -> isize;
    fn _exit(status: i32) -> !;
}

// A read or write outside what was lent.
extern "C" fn fault(_: i32) {
    let mut line = *b"FAULT: a read outside the lent bytes, or a write, in case                     \n";
    let mut x = CASE.with(|case| case.get());
    let mut at = line.len() - 2;
    loop {
        line[at] = b'0' + (x % 10) as u8;
        x /= 10;
        at -= 1;
        if x == 0 {
            break;
        }
    }
    unsafe {
        write(1, line.as_ptr(), line.len());
        _exit(1)
    }
}

const ALPHABET: &[u8; 15] = b"n01()?:&|!=<>% ";

// Text number i, shortest first.
fn text_of(mut i: u64) -> Vec<u8> {
    let mut text = Vec::new();
    while i > 0 {
        i -= 1;
        text.push(ALPHABET[(i % 15) as usize]);
        i /= 15;
    }
    text
}

// Case i of a seed.
fn case(oracle: &mut Oracle, seed: u64, i: u64) -> Result<(), String> {
    let mut rng = Rng::new(seed, i);
    if i == 0 {
        oracle.empty_catalog(&mut rng)?;
    }
    match i % 16 {
        0..=3 => {
            let rule = make::rule(&mut rng);
            let mut again = rng.clone();
            let mut counts = COUNTS.to_vec();
            if i % 64 != 0 {
                counts = (0..8).map(|_| *rng.pick(&COUNTS)).collect();
                counts.push(rng.next());
            }
            oracle.rule(&mut rng, &rule, &counts).map_err(|e| shrink::rule(oracle, &mut again, rule, &counts, e))
        }
        4 => {
            let bytes = make::file(&mut rng);
            let rule = make::rule(&mut rng);
            let again = rng.clone();
            oracle.forced(&mut rng, &bytes, &rule).map_err(|e| {
                let differs = |oracle: &mut Oracle, bytes: &[u8]| oracle.forced(&mut again.clone(), bytes, &rule).err();
                format!("forced rule {}: {}", hex(&rule), shrink::file(oracle, bytes.clone(), e, differs))
            })
        }
        5 => {
            let big = rng.one_in(2);
            let entries = make::entries(&mut rng);
            oracle
                .utf8_forced(&mut rng, big, &entries)
                .map_err(|e| format!("UTF-8 forced: {e}\n  file {}", hex(&make::plain(big, &entries))))
        }
        _ => {
            let bytes = make::file(&mut rng);
            let again = rng.clone();
            oracle.file(&mut rng, &bytes, &bytes, None, false, Depth::Some).map_err(|e| {
                let differs = |oracle: &mut Oracle, bytes: &[u8]| {
                    oracle.file(&mut again.clone(), bytes, bytes, None, false, Depth::Some).err()
                };
                shrink::file(oracle, bytes.clone(), e, differs)
            })
        }
    }
}

// Case i of a seed, of headers and forced rules with white space of all kinds.
fn spaced(oracle: &mut Oracle, seed: u64, i: u64) -> Result<(), String> {
    let mut rng = Rng::new(seed, i);
    let big = rng.one_in(2);
    let mut entries = make::entries(&mut rng);
    if let Some(first) = entries.first_mut().filter(|first| first.id.is_empty()) {
        first.segments[0] = make::spaced(&mut rng, &first.segments[0]);
    }
    let bytes = make::plain(big, &entries);
    let mut rule = Vec::new();
    make::space(&mut rng, &mut rule);
    rule.extend(make::rule(&mut rng));
    make::space(&mut rng, &mut rule);
    let again = rng.clone();
    match i % 8 {
        0 => oracle.rule(&mut rng, &rule, &COUNTS[..9]).map_err(|e| format!("rule {}: {e}", hex(&rule))),
        1 => oracle.forced(&mut rng, &bytes, &rule).map_err(|e| format!("forced rule {}: {e}\n  file {}", hex(&rule), hex(&bytes))),
        _ => oracle.file(&mut rng, &bytes, &bytes, None, false, Depth::Some).map_err(|e| {
            let differs =
                |oracle: &mut Oracle, bytes: &[u8]| oracle.file(&mut again.clone(), bytes, bytes, None, false, Depth::Some).err();
            shrink::file(oracle, bytes.clone(), e, differs)
        }),
    }
}

// Runs cases first..last, every so manieth on each thread, each on a large stack; how many differ.
fn many(threads: u64, first: u64, last: u64, run: impl Fn(&mut Oracle, u64) -> Result<(), String> + Sync) -> (Stats, u64) {
    let run = &run;
    std::thread::scope(|scope| {
        let work: Vec<_> = (0..threads)
            .map(|t| {
                let body = move || {
                    let mut oracle = Oracle::new();
                    let mut differ = 0;
                    let mut i = first + t;
                    while i < last {
                        CASE.with(|case| case.set(i));
                        if let Err(e) = run(&mut oracle, i) {
                            differ += 1;
                            if differ <= 10 {
                                println!("DIFFERS case {i}: {e}");
                            }
                        }
                        i += threads;
                    }
                    (oracle.stats, differ)
                };
                std::thread::Builder::new().stack_size(1 << 28).spawn_scoped(scope, body).unwrap()
            })
            .collect();
        let mut whole = (Stats::default(), 0);
        for one in work {
            let (stats, differ) = one.join().expect("the oracle itself stopped");
            whole.0.add(stats);
            whole.1 += differ;
        }
        whole
    })
}

fn summary(part: &str, stats: &Stats, differ: u64, start: Instant) -> bool {
    for (kind, (times, example)) in &stats.kinds {
        println!("  explained {times}: {kind}; shortest: {}", shrink::example(kind, example));
    }
    println!(
        "{part}: {} cases, {} lookups, {} values, {} indexes; refused by side {:?}; agreed by number {:?}; by reason {:?}; {} explained, {differ} differ",
        stats.cases,
        stats.lookups,
        stats.values,
        stats.indexes,
        stats.places,
        stats.numbers,
        &stats.reasons[1..],
        stats.kinds.values().map(|(times, _)| times).sum::<u64>(),
    );
    let seconds = start.elapsed().as_secs_f64();
    eprintln!("{part}: {seconds:.1} s, {:.0} cases a second", stats.cases as f64 / seconds);
    differ == 0
}

fn catalogs(folder: &Path, found: &mut Vec<PathBuf>) {
    let Ok(entries) = std::fs::read_dir(folder) else { return };
    let mut paths: Vec<PathBuf> = entries.flatten().map(|entry| entry.path()).collect();
    paths.sort();
    for path in paths {
        let Ok(kind) = path.symlink_metadata() else { continue };
        if kind.is_dir() {
            catalogs(&path, found);
        } else if kind.is_file() && path.extension().is_some_and(|e| e == "mo" || e == "gmo") {
            found.push(path);
        }
    }
}

fn real(threads: u64, folders: &[String], keys: usize) -> bool {
    let start = Instant::now();
    let mut paths = Vec::new();
    for folder in folders {
        catalogs(Path::new(folder), &mut paths);
    }
    let bytes = AtomicU64::new(0);
    let (stats, differ) = many(threads, 0, paths.len() as u64, |oracle, i| {
        let path = &paths[i as usize];
        let Ok(file) = std::fs::read(path) else { return Ok(()) };
        bytes.fetch_add(file.len() as u64, Ordering::Relaxed);
        let mut rng = Rng::new(1, i);
        oracle.file(&mut rng, &file, &file, None, false, Depth::Keys(keys)).map_err(|e| format!("{}: {e}", path.display()))
    });
    let part = format!("real catalogs ({} files, {} bytes)", paths.len(), bytes.into_inner());
    summary(&part, &stats, differ, start)
}

// How many real catalogs carry a count of forms, and which rules do not fit theirs: the table of docs/DIFFERENCES.md.
fn real_forms(folders: &[String]) -> bool {
    let mut paths = Vec::new();
    for folder in folders {
        catalogs(Path::new(folder), &mut paths);
    }
    let mut oracle = Oracle::new();
    let mut differ = 0;
    let readings = [("Shipped", false), ("Standard", true)].map(|(name, standard)| {
        let mut real = forms::Real::default();
        for path in &paths {
            let Ok(file) = std::fs::read(path) else { continue };
            if let Err(e) = oracle.real_forms(&file, standard, &mut real) {
                differ += 1;
                println!("DIFFERS {}: {e}", path.display());
            }
        }
        (name, real)
    });
    print!("{}", forms::table(paths.len(), &readings));
    differ == 0
}

fn utf8(threads: u64, up_to: u32) -> bool {
    const EDGES: [u8; 28] = [
        0x00, 0x41, 0x7f, 0x80, 0x8f, 0x90, 0x9f, 0xa0, 0xbf, 0xc0, 0xc1, 0xc2, 0xdf, 0xe0, 0xe1, 0xec, 0xed, 0xee, 0xef, 0xf0,
        0xf1, 0xf3, 0xf4, 0xf5, 0xf7, 0xf8, 0xfe, 0xff,
    ];
    let start = Instant::now();
    let mut right = true;
    let check = |what: &str, total: u64, text: &(dyn Fn(u64, &mut Vec<u8>) + Sync)| {
        let (stats, differ) = many(threads, 0, total, |oracle, i| {
            let mut bytes = Vec::with_capacity(64);
            text(i, &mut bytes);
            oracle.text(&bytes)
        });
        println!("  {what}: {} texts, {} of them right, {differ} differ", stats.cases, stats.numbers[0]);
        (stats.cases, differ)
    };
    let mut texts = 0;
    let mut differ = 0;
    let mut add = |(cases, others): (u64, u64)| {
        texts += cases;
        differ += others;
    };
    for k in 0..=up_to {
        add(check(&format!("all of {k} bytes"), 1 << (8 * k), &|mut i, bytes| {
            for _ in 0..k {
                bytes.push(i as u8);
                i >>= 8;
            }
        }));
    }
    let edges = |mut i: u64, k: u32, bytes: &mut Vec<u8>| {
        for _ in 0..k {
            bytes.push(EDGES[(i % 28) as usize]);
            i /= 28;
        }
    };
    add(check("edges of 4 bytes", 28u64.pow(4), &|i, bytes| edges(i, 4, bytes)));
    add(check("edges of 3 bytes in ASCII, 0 to 20 before and 0 to 8 after", 28u64.pow(3) * 21 * 9, &|i, bytes| {
        bytes.extend(std::iter::repeat(b'a').take((i % 21) as usize));
        edges(i / 21 / 9, 3, bytes);
        bytes.extend(std::iter::repeat(b'z').take((i / 21 % 9) as usize));
    }));
    let (stats, others) = many(threads, 0, 28u64.pow(4), |oracle, i| {
        if i % 7 != 0 {
            return Ok(());
        }
        let mut text = Vec::new();
        edges(i, 4, &mut text);
        let mut rng = Rng::new(2, i);
        let entry = |id: &[u8], segment: &[u8]| make::Entry {
            context: None,
            id: id.to_vec(),
            after: None,
            segments: vec![segment.to_vec()],
        };
        let entries = [entry(b"a", &text), entry(&[b"b", &text[..]].concat(), b"t")];
        for entries in [&entries[..1], &entries[1..], &entries[..]] {
            let file = make::plain(i % 2 == 0, entries);
            oracle.file(&mut rng, &file, &file, None, false, Depth::Some)?;
        }
        Ok(())
    });
    println!("  in catalogs: {} catalogs, agreed by number {:?}, {others} differ", stats.cases, stats.numbers);
    differ += others;
    right &= differ == 0;
    println!("utf8: {texts} texts, {} catalogs, {differ} differ", stats.cases);
    eprintln!("utf8: {:.1} s", start.elapsed().as_secs_f64());
    right
}

fn value(words: &[String], name: &str) -> Option<u64> {
    let at = words.iter().position(|word| word == name)?;
    words.get(at + 1)?.parse().ok()
}

fn main() {
    let before = std::panic::take_hook();
    std::panic::set_hook(Box::new(move |info| {
        if !QUIET.with(|quiet| quiet.get()) {
            before(info);
        }
    }));
    unsafe {
        // a segment violation, and a bus error
        signal(11, fault as *const () as usize);
        signal(7, fault as *const () as usize);
    }
    let words: Vec<String> = std::env::args().skip(1).collect();
    let threads = value(&words, "--threads").unwrap_or(1);
    let start = Instant::now();
    let agreed = match words.first().map(String::as_str) {
        Some("run") => {
            let (Some(seed), Some(cases)) = (value(&words, "--seed"), value(&words, "--cases")) else {
                eprintln!("{USAGE}");
                exit(2)
            };
            let first = value(&words, "--from").unwrap_or(0);
            let (stats, differ) = many(threads, first, first + cases, |oracle, i| case(oracle, seed, i));
            summary(&format!("run, seed {seed}"), &stats, differ, start)
        }
        Some("spaced") => {
            let (Some(seed), Some(cases)) = (value(&words, "--seed"), value(&words, "--cases")) else {
                eprintln!("{USAGE}");
                exit(2)
            };
            let (stats, differ) = many(threads, 0, cases, |oracle, i| spaced(oracle, seed, i));
            summary(&format!("white space, seed {seed}"), &stats, differ, start)
        }
        Some("altered") => {
            let (Some(seed), Some(cases)) = (value(&words, "--seed"), value(&words, "--cases")) else {
                eprintln!("{USAGE}");
                exit(2)
            };
            let (stats, differ) = many(threads, 0, cases, |oracle, i| oracle.altered(&mut Rng::new(seed, i)));
            summary(&format!("altered records, seed {seed}"), &stats, differ, start)
        }
        Some("bracketed") => {
            let Some(nodes) = value(&words, "--nodes") else {
                eprintln!("{USAGE}");
                exit(2)
            };
            let rules = written::trees(nodes as usize);
            let (stats, differ) =
                many(threads, 0, rules.len() as u64, |oracle, i| oracle.read_again(&mut Rng::new(5, i), &rules[i as usize], true));
            summary(&format!("bracketed, all trees of up to {nodes} nodes"), &stats, differ, start)
        }
        Some("rules") => {
            let Some(longest) = value(&words, "--exhaustive") else {
                eprintln!("{USAGE}");
                exit(2)
            };
            let total = (0..=longest).map(|k| 15u64.pow(k as u32)).sum();
            let (stats, differ) = many(threads, 0, total, |oracle, i| {
                let mut rng = Rng::new(3, i);
                let rule = text_of(i);
                oracle.rule(&mut rng, &rule, &COUNTS).map_err(|e| shrink::rule(oracle, &mut rng, rule, &COUNTS, e))
            });
            summary(&format!("rules, all of up to {longest} bytes"), &stats, differ, start)
        }
        Some("counts") => {
            let (Some(seed), Some(cases)) = (value(&words, "--seed"), value(&words, "--cases")) else {
                eprintln!("{USAGE}");
                exit(2)
            };
            let (stats, differ) = many(threads, 0, cases, |oracle, i| oracle.counts(&mut Rng::new(seed, i)));
            summary(&format!("counts of forms, seed {seed}"), &stats, differ, start)
        }
        Some("forms") => {
            let folders: Vec<String> = words[1..].iter().filter(|word| Path::new(word).is_dir()).cloned().collect();
            real_forms(&folders)
        }
        Some("utf8") => utf8(threads, value(&words, "--up-to").unwrap_or(3) as u32),
        Some("real") => {
            let folders: Vec<String> = words[1..].iter().filter(|word| Path::new(word).is_dir()).cloned().collect();
            real(threads, &folders, value(&words, "--keys").map_or(usize::MAX, |keys| keys as usize))
        }
        Some("sample") => {
            use std::io::Write;
            std::io::stdout().write_all(&sample::write()).is_ok()
        }
        _ => {
            eprintln!("{USAGE}");
            exit(2)
        }
    };
    exit(if agreed { 0 } else { 1 });
}
