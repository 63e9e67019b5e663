// Why a plural lookup answers as it does, held to a model in plain Rust of document 02, request i: the first reason of the six, and what it
// tells; and its number and text to the lookup's own.
use crate::altered::{entry, is_tree, last};
use crate::compare::{hex, Oracle};
use crate::rattle::{Answer, Explained, Node, Ours, Part, Record};

// The value of the tree at a place, or the place of the node at which evaluation, left operand first, divides by zero.
fn value(r: &Record, at: usize, n: u64) -> Result<u64, usize> {
    let part = |part| match part {
        Part::N => Ok(n),
        Part::Integer(x) => Ok(x),
        Part::Rest(m) => n.checked_rem(m).ok_or(at),
        Part::At(q) => value(r, q, n),
    };
    let (op, x, y) = match r.node(at).expect("a known code") {
        Node::Leaf(x) => return part(x),
        Node::Not(x) => return Ok((part(x)? == 0) as u64),
        Node::Ternary(x, y, z) => return if part(x)? != 0 { part(y) } else { part(z) },
        Node::Op(op, x, y) => (op, x, y),
    };
    let x = part(x)?;
    if op == 6 && x == 0 || op == 7 && x != 0 {
        return Ok((op == 7) as u64);
    }
    let y = part(y)?;
    Ok(match op {
        0 => (x == y) as u64,
        1 => (x != y) as u64,
        2 => (x >= y) as u64,
        3 => (x <= y) as u64,
        4 => (x > y) as u64,
        5 => (x < y) as u64,
        6 | 7 => (y != 0) as u64,
        8 => x.checked_rem(y).ok_or(at)?,
        9 => x.checked_div(y).ok_or(at)?,
        10 => x.wrapping_add(y),
        11 => x.wrapping_sub(y),
        _ => x.wrapping_mul(y),
    })
}

fn model(file: &[u8], r: &Record, key: &[u8], n: u64) -> Explained {
    let which = if n == 1 { 1 } else { 2 };
    let told = |kind, number| Explained { kind, number, which, node: 0, entry: 0, stored: 0, form: 0, start: 0, len: 0 };
    if file.len() != r.head.length {
        return told(1, 11);
    }
    if !is_tree(r) {
        return told(2, 11);
    }
    let form = match value(r, r.head.root, n) {
        Err(node) => return Explained { node, ..told(3, 10) },
        Ok(form) => form,
    };
    let Some(i) = last(file, r, key) else { return told(4, 0) };
    let (_, start, translation) = entry(file, r, i).expect("the last one is one");
    let mut at = start;
    let mut stored = 0;
    for segment in translation.split(|&b| b == 0) {
        if stored as u64 == form {
            return Explained { which: 0, entry: i, form, start: at, len: segment.len(), ..told(6, 0) };
        }
        stored += 1;
        at += segment.len() + 1;
    }
    Explained { entry: i, stored, form, ..told(5, 0) }
}

impl Oracle {
    // The reason of a lookup that answered so: what it says is the model's, and the answer that it tells the lookup's.
    pub fn why(&mut self, file: &[u8], ours: &Ours, context: Option<&[u8]>, id: &[u8], n: u64, answer: Answer) -> Result<(), String> {
        let why = ours.why(file, context, id, n);
        let key = match context {
            None => id.to_vec(),
            Some(context) => [context, b"\x04", id].concat(),
        };
        let wanted = model(file, ours.catalog, &key, n);
        self.stats.reasons[why.kind.min(6) as usize] += 1;
        if why != wanted || why.answer() != answer {
            return Err(format!("why {} at {n}: {why:?}, by the model {wanted:?}, the lookup {answer:?}", hex(&key)));
        }
        Ok(())
    }
}
