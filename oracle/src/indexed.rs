// The index of document 02, request d: the slots that building leaves, and lookups in slots that were altered, are held to a model in
// plain Rust. That a lookup in built slots answers as the scan is compared in `Ours`.
use crate::altered::{answer, entry, low};
use crate::compare::{hex, Oracle};
use crate::make;
use crate::rattle::{Ours, Record};
use crate::rng::Rng;

fn used(count: usize) -> usize {
    (2 * count).next_power_of_two()
}

fn hash(key: &[u8]) -> u32 {
    key.iter().fold(5381u32, |h, &b| h.wrapping_mul(33).wrapping_add(b as u32))
}

// The slot where the search for a key stops; none where it passes all of them.
fn stop(file: &[u8], r: &Record, slots: &[u32], key: &[u8]) -> Option<usize> {
    let start = hash(key) as usize % slots.len();
    (0..slots.len()).map(|k| (start + k) % slots.len()).find(|&p| match slots[p] as usize {
        0 => true,
        x => x <= low(r.head.count) && entry(file, r, x - 1).map_or(false, |found| found.0 == key),
    })
}

fn built(file: &[u8], r: &Record) -> Vec<u32> {
    let count = low(r.head.count);
    let mut slots = vec![0; used(count)];
    for i in 0..count {
        if let Some((key, _, _)) = entry(file, r, i) {
            let at = stop(file, r, &slots, key).expect("half of the slots are empty");
            slots[at] = i as u32 + 1;
        }
    }
    slots
}

impl Oracle {
    // Builds an index in slots that hold something already: too few at times, enough, or more. The slots where it is built.
    pub fn build<'a>(&mut self, rng: &mut Rng, file: &[u8], ours: &Ours<'a>) -> Result<Option<&'a [u32]>, String> {
        let r = ours.catalog;
        let need = used(low(r.head.count));
        if ours.slots() != need {
            return Err(format!("{} slots, by the model {need}", ours.slots()));
        }
        let lent = match rng.below(8) {
            _ if need + 9 > self.lent.most_slots() => rng.below(64),
            0 => need - 1,
            1 => rng.below(need),
            2 | 3 => need + rng.below(9),
            _ => need,
        };
        let before: Vec<u32> = (0..lent).map(|_| rng.next() as u32).collect();
        let number = if file.len() != r.head.length {
            11
        } else if lent < need {
            12
        } else {
            0
        };
        let wanted = if number == 0 { [&built(file, r)[..], &before[need..]].concat() } else { before.clone() };
        let (told, slots) = ours.index(&self.lent, file, &before, rng.one_in(2));
        self.stats.indexes += 1;
        if told != number || slots != wanted {
            return Err(format!("index in {lent} slots: {told} {slots:?}, by the model {number} {wanted:?}"));
        }
        Ok((number == 0).then_some(slots))
    }

    // Some slots made others, and what lookups find then.
    pub fn altered_slots(&mut self, rng: &mut Rng, file: &[u8], ours: &Ours, keys: &[Vec<u8>]) -> Result<(), String> {
        let r = ours.catalog;
        let count = low(r.head.count);
        let need = used(count);
        let mut slots = match ours.slots {
            Some(slots) => slots.to_vec(),
            None => vec![0; need.min(64) - rng.below(2)],
        };
        let any = |rng: &mut Rng| match rng.below(6) {
            0 => 0,
            1 => count as u32,
            2 => (count as u32).wrapping_add(1),
            3 => u32::MAX,
            _ => 1 + rng.below(count.min(64) + 2) as u32,
        };
        let times = if rng.one_in(2) { 3 } else { 2 * slots.len().min(64) };
        for _ in 0..times.min(2 * slots.len()) {
            let at = rng.below(slots.len());
            slots[at] = any(rng);
        }
        let (_, slots) = self.lent.put_slots(&slots, rng.one_in(2));
        for key in keys {
            let four = key.iter().position(|&b| b == 4).filter(|_| rng.one_in(2));
            let context = four.map(|four| self.lent.context.put(&key[..four], rng.one_in(2)));
            let id = self.lent.id.put(&key[four.map_or(0, |four| four + 1)..], rng.one_in(2));
            let n = if rng.one_in(2) { None } else { Some(*rng.pick(&make::COUNTS)) };
            let wanted = answer(file, r, n, slots.len() < need, || {
                let at = stop(file, r, &slots[..need], key)?;
                (slots[at] != 0).then(|| slots[at] as usize - 1)
            });
            let told = ours.in_slots(slots, file, context, id, n);
            self.stats.lookups += 1;
            if told != wanted {
                return Err(format!("key {} at {n:?} in {slots:?}: {told:?}, by the model {wanted:?}", hex(key)));
            }
        }
        Ok(())
    }
}
