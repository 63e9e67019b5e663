// What else a record's rule answers, held to models in plain Rust: which forms occur over a span of counts, and its text with all its brackets; and
// that such a text is the same rule in both readings and in the crate.
use crate::compare::Oracle;
use crate::make;
use crate::rattle::{span, text, Node, Part, Record};
use crate::rng::Rng;

const SIGNS: [&str; 13] = ["==", "!=", ">=", "<=", ">", "<", "&&", "||", "%", "/", "+", "-", "*"];

// The text of the tree at a place; false where it has an operator that the crate has not.
fn bracketed(r: &Record, at: usize, out: &mut String) -> bool {
    let part = |part: Part, out: &mut String| match part {
        Part::N => {
            out.push('n');
            true
        }
        Part::Integer(x) => {
            out.push_str(&x.to_string());
            true
        }
        Part::Rest(m) => {
            out.push_str(&format!("(n%{m})"));
            true
        }
        Part::At(q) => bracketed(r, q, out),
    };
    let node = r.node(at).expect("a known code");
    if let Node::Leaf(leaf) = node {
        return part(leaf, out);
    }
    out.push('(');
    let plain = match node {
        Node::Leaf(_) => true,
        Node::Not(x) => {
            out.push('!');
            part(x, out)
        }
        Node::Op(op, x, y) => {
            let left = part(x, out);
            out.push_str(SIGNS[op]);
            part(y, out) && left && op < 9
        }
        Node::Ternary(x, y, z) => {
            let first = part(x, out);
            out.push('?');
            let second = part(y, out);
            out.push(':');
            part(z, out) && first && second
        }
    };
    out.push(')');
    plain
}

impl Oracle {
    // The record is at a place where nobody may write. What it answers, by the models.
    pub fn written(&mut self, rng: &mut Rng, lent: &Record, tree: bool) -> Result<(), String> {
        let root = lent.head.root;
        let a = *rng.pick(&make::COUNTS);
        let b = match rng.below(16) {
            0 => a.wrapping_sub(1 + rng.below(3) as u64),
            1 => a.saturating_add(1_000_000),
            _ => a.saturating_add(rng.below(40) as u64),
        };
        let mut wanted = (0, [0u64; 18]);
        if !tree {
            wanted.0 = 11;
        } else if b < a || b - a > 999_999 {
            wanted.0 = 17;
        } else {
            for n in a..=b {
                wanted.1[lent.resolve(root, n).map_or(17, |form| form.min(16) as usize)] += 1;
            }
        }
        let mut figures = [7; 18];
        let ours = (span(lent, a, b, &mut figures), figures);
        if ours != wanted {
            return Err(format!("span {a} to {b}: {ours:?}, by the model {wanted:?}"));
        }

        let mut rule = String::new();
        let plain = tree && bracketed(lent, root, &mut rule);
        let room = if rng.one_in(2) { 512 } else { rng.below(600) };
        let mut buffer = vec![b'~'; room];
        let answer = text(lent, &mut buffer);
        let (number, len) = match rule.len() {
            _ if !tree => (11, 0),
            len if len > 512 || len > room => (8, 0),
            len => (0, len),
        };
        let mut left = vec![b'~'; room];
        left[..len].copy_from_slice(&rule.as_bytes()[..len]);
        if (answer.number, answer.len) != (number, len) || buffer != left {
            return Err(format!("text in {room}: {} {}, by the model {number} {rule}", answer.number, answer.len));
        }
        if number == 0 && rng.one_in(8) {
            return self.read_again(rng, &rule, plain);
        }
        Ok(())
    }

    // A bracketed text is read as the rule that has this text: Standard, and where it is plain Shipped and the crate.
    pub fn read_again(&mut self, rng: &mut Rng, rule: &str, plain: bool) -> Result<(), String> {
        let file = self.lent.file.put(&make::NO_ENTRY, false);
        for standard in [true, false] {
            if !standard && !plain {
                continue;
            }
            let forced = self.lent.id.put(rule.as_bytes(), rng.one_in(2));
            let read = self.lent.load(file, Some(forced), standard, false);
            let mut buffer = [0; 512];
            let again = text(read.catalog, &mut buffer);
            if (read.number, again.number, &buffer[..again.len]) != (0, 0, rule.as_bytes()) {
                return Err(format!("{rule} read again, Standard {standard}: {} {}", read.number, again.number));
            }
        }
        if plain {
            return self.rule(rng, rule.as_bytes(), &make::COUNTS[..3]);
        }
        Ok(())
    }
}

// Every tree of n, 1 and the operators with so many nodes, as its text.
pub fn trees(nodes: usize) -> Vec<String> {
    let mut all: Vec<Vec<String>> = vec![vec![], vec!["n".into(), "1".into()]];
    for size in 2..=nodes {
        let mut next: Vec<String> = all[size - 1].iter().map(|x| format!("(!{x})")).collect();
        for left in 1..size - 1 {
            for (x, y) in all[left].iter().flat_map(|x| all[size - 1 - left].iter().map(move |y| (x, y))) {
                next.extend(SIGNS[..9].iter().map(|sign| format!("({x}{sign}{y})")));
            }
        }
        for first in 1..size.saturating_sub(2) {
            for second in 1..size - 1 - first {
                for x in &all[first] {
                    for y in &all[second] {
                        next.extend(all[size - 1 - first - second].iter().map(|z| format!("({x}?{y}:{z})")));
                    }
                }
            }
        }
        all.push(next);
    }
    all.concat()
}
