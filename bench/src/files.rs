//! The catalogs that are measured: real ones, generated ones of a given size, and ones of that size with the messages of real ones.
use std::collections::BTreeMap;
use std::fs;
use std::path::Path;

#[derive(Clone)]
pub struct Message {
    pub id: String,
    pub translation: String,
}

fn walk(folder: &Path, files: &mut Vec<Vec<u8>>) {
    let Ok(entries) = fs::read_dir(folder) else {
        return;
    };
    let mut paths: Vec<_> = entries.flatten().map(|e| e.path()).filter(|p| !p.is_symlink()).collect();
    paths.sort();
    for path in paths {
        if path.is_dir() {
            walk(&path, files);
        } else if path.extension().is_some_and(|e| e == "mo") {
            files.extend(fs::read(&path));
        }
    }
}

/// Every .mo file below the folders.
pub fn real(folders: &[String]) -> Vec<Vec<u8>> {
    let mut files = Vec::new();
    folders.iter().for_each(|f| walk(Path::new(f), &mut files));
    files
}

fn word(file: &[u8], at: usize) -> Option<usize> {
    Some(u32::from_le_bytes(file.get(at..at + 4)?.try_into().ok()?) as usize)
}

/// The ids or the translations of a little-endian file, as far as they lie in it.
pub fn strings(file: &[u8], ids: bool) -> Vec<&[u8]> {
    let (Some(0x950412de), Some(count), Some(table)) = (word(file, 0), word(file, 8), word(file, if ids { 12 } else { 16 })) else {
        return Vec::new();
    };
    (0..count)
        .map_while(|i| Some((word(file, table + 8 * i)?, word(file, table + 8 * i + 4)?)))
        .filter_map(|(len, start)| file.get(start..start + len))
        .collect()
}

/// The messages of the catalogs in a language's folder below the folders, each id once. Those with a plural id or a context are left out.
pub fn messages(folders: &[String], language: &str) -> Vec<Message> {
    let mut files = Vec::new();
    folders.iter().for_each(|f| walk(&Path::new(f).join(language), &mut files));
    let mut all = BTreeMap::new();
    for file in &files {
        for (id, translation) in strings(file, true).into_iter().zip(strings(file, false)) {
            if let (Ok(id), Ok(translation)) = (std::str::from_utf8(id), std::str::from_utf8(translation)) {
                if !id.is_empty() && !id.contains(['\0', '\u{4}']) {
                    all.entry(id).or_insert(translation);
                }
            }
        }
    }
    all.into_iter().map(|(id, translation)| Message { id: id.into(), translation: translation.into() }).collect()
}

fn put(file: &mut [u8], at: usize, value: usize) {
    file[at..at + 4].copy_from_slice(&(value as u32).to_le_bytes());
}

const WORDS: [&str; 32] = [
    "the", "file", "cannot", "be", "opened", "for", "reading", "option", "requires", "an", "argument", "invalid", "number", "of",
    "lines", "in", "directory", "%s", "permission", "denied", "while", "writing", "output", "archive", "is", "too", "short", "warning",
    "unknown", "user", "name", "ignored",
];

/// Some words, as many and as long as ids of real catalogs have, and a number that no other id has.
fn sentence(i: usize) -> String {
    let mut state = (i as u64 + 1).wrapping_mul(0x9e37_79b9_7f4a_7c15);
    let mut next = |below: usize| {
        state = state.wrapping_mul(6364136223846793005).wrapping_add(1442695040888963407);
        (state >> 33) as usize % below
    };
    let count = 2 + next(9);
    let words: Vec<&str> = (0..count).map(|_| WORDS[next(WORDS.len())]).collect();
    format!("{} {i}", words.join(" "))
}

/// A catalog of n generated messages and a header with the rule; every message has three forms.
pub fn generated(n: usize, rule: &str) -> (Vec<Message>, Vec<u8>) {
    let mut messages: Vec<Message> = (0..n)
        .map(|i| Message {
            id: sentence(i),
            translation: format!("Файл {i} архива не открыт\0Файла {i} архива не открыты\0Файлов {i} архива не открыты"),
        })
        .collect();
    messages.sort_by(|a, b| a.id.cmp(&b.id));
    let file = catalog(&messages, "", "\0many", rule);
    (messages, file)
}

/// A catalog of the messages, which are in the order of their ids, with what stands before and after each id, and a header with the rule.
pub fn catalog(messages: &[Message], before: &str, after: &str, rule: &str) -> Vec<u8> {
    let header = format!("Content-Type: text/plain; charset=UTF-8\nPlural-Forms: nplurals=3; plural={rule};\n");
    let pairs: Vec<(String, &str)> = std::iter::once((String::new(), &header[..]))
        .chain(messages.iter().map(|m| (format!("{before}{}{after}", m.id), &m.translation[..])))
        .collect();
    let count = pairs.len();
    let mut file = vec![0; 28 + 16 * count];
    put(&mut file, 0, 0x950412de);
    put(&mut file, 8, count);
    put(&mut file, 12, 28);
    put(&mut file, 16, 28 + 8 * count);
    for (k, (id, translation)) in pairs.iter().enumerate() {
        for (table, text) in [(28, id.as_bytes()), (28 + 8 * count, translation.as_bytes())] {
            let end = file.len();
            put(&mut file, table + 8 * k, text.len());
            put(&mut file, table + 8 * k + 4, end);
            file.extend_from_slice(text);
            file.push(0);
        }
    }
    file
}
