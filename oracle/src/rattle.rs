// The port's static library, and memory to lend it: everything that is lent lies in pages that can only be read, between two pages
// that cannot be touched, so that a write, and a read of one byte past the end (or before the start), ends the run.
use crate::located::Told;
use std::ffi::{c_char, c_int, c_long, c_uint, c_void};

// The declarations are the Rust host's own.
#[allow(dead_code)]
#[path = "../../host/rust/src/ffi.rs"]
mod ffi;
pub use ffi::{cost, empty, is_utf8, Answer, Explained, Record};
use ffi::{Fits, Form, Rating};

extern "C" {
    fn memfd_create(name: *const c_char, flags: c_uint) -> c_int;
    fn ftruncate(fd: c_int, length: c_long) -> c_int;
    fn mmap(addr: *mut c_void, length: usize, prot: c_int, flags: c_int, fd: c_int, offset: c_long) -> *mut c_void;
}

const PROT_NONE: c_int = 0;
const PROT_READ: c_int = 1;
const PROT_WRITE: c_int = 2;
const MAP_SHARED: c_int = 1;
const MAP_PRIVATE: c_int = 2;
const MAP_FIXED: c_int = 16;
const MAP_ANONYMOUS: c_int = 32;
const PAGE: usize = 4096;

// A stretch of memory under two addresses: the oracle writes at the one, the port reads at the other.
#[derive(Clone, Copy)]
pub struct Slot {
    write: *mut u8,
    read: *const u8,
    size: usize,
}

impl Slot {
    pub fn room(&self) -> usize {
        self.size
    }

    // The bytes, so that they end at the page that cannot be touched, or start after one.
    pub fn put<'a>(&self, bytes: &[u8], at_start: bool) -> &'a [u8] {
        assert!(bytes.len() <= self.size);
        let at = if at_start { 0 } else { self.size - bytes.len() };
        unsafe {
            std::ptr::copy_nonoverlapping(bytes.as_ptr(), self.write.add(at), bytes.len());
            std::slice::from_raw_parts(self.read.add(at), bytes.len())
        }
    }
}

pub struct Lent {
    pub file: Slot,
    pub rule: Slot,
    pub context: Slot,
    pub id: Slot,
    pub plural: Slot,
    record: Slot,
    slots: Slot,
}

// A loaded catalog whose record is lent. Where it has slots, each lookup is made in them too, and both must answer the same.
#[derive(Clone, Copy)]
pub struct Ours<'a> {
    pub number: u32,
    pub side: u32,
    pub entry: Option<usize>,
    pub forms: Option<u64>,
    pub catalog: &'a Record,
    pub slots: Option<&'a [u32]>,
}

impl Lent {
    pub fn new() -> Lent {
        let sizes = [1 << 24, 1 << 20, 1 << 20, 1 << 20, 1 << 20, 1 << 14, 1 << 22];
        let whole = sizes.iter().map(|size| size + PAGE).sum::<usize>() + PAGE;
        unsafe {
            let fd = memfd_create(b"lent\0".as_ptr() as *const c_char, 0);
            assert!(fd >= 0 && ftruncate(fd, whole as c_long) == 0);
            let null = std::ptr::null_mut();
            let write = mmap(null, whole, PROT_READ | PROT_WRITE, MAP_SHARED, fd, 0) as *mut u8;
            let read = mmap(null, whole, PROT_NONE, MAP_PRIVATE | MAP_ANONYMOUS, -1, 0) as *mut u8;
            assert!(write as isize != -1 && read as isize != -1);
            let mut at = PAGE;
            let slots = sizes.map(|size| {
                let page = read.add(at) as *mut c_void;
                let got = mmap(page, size, PROT_READ, MAP_SHARED | MAP_FIXED, fd, at as c_long);
                assert!(got == page);
                let slot = Slot { write: write.add(at), read: read.add(at), size };
                at += size + PAGE;
                slot
            });
            let [file, rule, context, id, plural, record, mut slots] = slots;
            // the port writes slots, so the address at which they are written lies between such pages too
            let room = mmap(null, slots.size + 2 * PAGE, PROT_NONE, MAP_PRIVATE | MAP_ANONYMOUS, -1, 0) as *mut u8;
            assert!(room as isize != -1);
            let page = room.add(PAGE) as *mut c_void;
            let at = (whole - PAGE - slots.size) as c_long;
            let got = mmap(page, slots.size, PROT_READ | PROT_WRITE, MAP_SHARED | MAP_FIXED, fd, at);
            assert!(got == page);
            slots.write = page as *mut u8;
            Lent { file, rule, context, id, plural, record, slots }
        }
    }

    // The record is written where the oracle may write, and read by lookups where nobody may.
    pub fn load<'a>(&self, file: &'a [u8], rule: Option<&'a [u8]>, standard: bool, utf8: bool) -> Ours<'a> {
        self.load_by(file, rule, standard, utf8, false)
    }

    // The same under the demand that the rule fit the count.
    pub fn load_fitting<'a>(&self, file: &'a [u8], rule: Option<&'a [u8]>, standard: bool, utf8: bool) -> Ours<'a> {
        self.load_by(file, rule, standard, utf8, true)
    }

    fn load_by<'a>(&self, file: &'a [u8], rule: Option<&'a [u8]>, standard: bool, utf8: bool, fit: bool) -> Ours<'a> {
        let at = self.record.size - std::mem::size_of::<Record>();
        unsafe {
            let out = &mut *(self.record.write.add(at) as *mut Record);
            let loaded = ffi::load(file, rule, standard, utf8, fit, out);
            // an index beside "none", or another flag than 0 and 1, would be a second way to say a place
            assert!(loaded.entered == 1 || (loaded.entered, loaded.entry) == (0, 0));
            let entry = (loaded.entered == 1).then_some(loaded.entry);
            assert!(loaded.counted == 1 || (loaded.counted, loaded.forms) == (0, 0));
            let forms = (loaded.counted == 1).then_some(loaded.forms);
            let catalog = &*(self.record.read.add(at) as *const Record);
            Ours { number: loaded.number, side: loaded.side, entry, forms, catalog, slots: None }
        }
    }

    pub fn most_slots(&self) -> usize {
        self.slots.size / 4
    }

    // Slots with these values, to be written; and the same to be read.
    pub fn put_slots<'a>(&self, values: &[u32], at_start: bool) -> (&'a mut [u32], &'a [u32]) {
        assert!(values.len() <= self.most_slots());
        let at = if at_start { 0 } else { self.slots.size - 4 * values.len() };
        unsafe {
            let write = self.slots.write.add(at) as *mut u32;
            std::ptr::copy_nonoverlapping(values.as_ptr(), write, values.len());
            let read = self.slots.read.add(at) as *const u32;
            (std::slice::from_raw_parts_mut(write, values.len()), std::slice::from_raw_parts(read, values.len()))
        }
    }
}

impl Lent {
    // A record that the oracle made.
    pub fn put_record<'a>(&self, record: &Record) -> &'a Record {
        let at = self.record.size - std::mem::size_of::<Record>();
        unsafe {
            (self.record.write.add(at) as *mut Record).write(*record);
            &*(self.record.read.add(at) as *const Record)
        }
    }
}

// Which forms occur over a span, and the rule's text; with the record where it lies.
pub fn span(record: &Record, a: u64, b: u64, figures: &mut [u64; 18]) -> u32 {
    ffi::span(record, a, b, figures)
}

pub fn text(record: &Record, buffer: &mut [u8]) -> ffi::Written {
    ffi::text(record, buffer)
}

impl<'a> Ours<'a> {
    pub fn told(&self) -> Told {
        Told { number: self.number, entry: self.entry, side: self.side }
    }

    // No lookup has this number: the one in the slots answers another thing than the scan.
    fn both(&self, scan: Answer, indexed: impl Fn(Option<&[u32]>) -> Answer) -> Answer {
        if self.slots.is_some() && indexed(self.slots) != scan {
            return Answer { number: u32::MAX, ..scan };
        }
        scan
    }

    pub fn gettext(&self, file: &[u8], id: &[u8]) -> Answer {
        let ask = |slots: Option<&[u32]>| ffi::gettext(file, self.catalog, slots, None, id);
        self.both(ask(None), ask)
    }

    pub fn pgettext(&self, file: &[u8], context: &[u8], id: &[u8]) -> Answer {
        let ask = |slots: Option<&[u32]>| ffi::gettext(file, self.catalog, slots, Some(context), id);
        self.both(ask(None), ask)
    }

    pub fn ngettext(&self, file: &[u8], id: &[u8], n: u64) -> Answer {
        let ask = |slots: Option<&[u32]>| ffi::ngettext(file, self.catalog, slots, None, id, n);
        self.both(ask(None), ask)
    }

    pub fn npgettext(&self, file: &[u8], context: &[u8], id: &[u8], n: u64) -> Answer {
        let ask = |slots: Option<&[u32]>| ffi::ngettext(file, self.catalog, slots, Some(context), id, n);
        self.both(ask(None), ask)
    }

    // The four lookups in slots alone.
    pub fn in_slots(&self, slots: &[u32], file: &[u8], context: Option<&[u8]>, id: &[u8], n: Option<u64>) -> Answer {
        match n {
            None => ffi::gettext(file, self.catalog, Some(slots), context, id),
            Some(n) => ffi::ngettext(file, self.catalog, Some(slots), context, id, n),
        }
    }

    // Building: the number, and the slots that it leaves, to be read.
    pub fn index(&self, lent: &Lent, file: &[u8], before: &[u32], at_start: bool) -> (u32, &'a [u32]) {
        let (write, read) = lent.put_slots(before, at_start);
        (ffi::index(file, self.catalog, write), read)
    }

    pub fn slots(&self) -> usize {
        ffi::slots(self.catalog)
    }

    pub fn why(&self, file: &[u8], context: Option<&[u8]>, id: &[u8], n: u64) -> Explained {
        ffi::why(file, self.catalog, context, id, n)
    }

    pub fn resolve_at(&self, n: u64) -> Form {
        ffi::resolve(self.catalog, n)
    }

    pub fn rating(&self) -> Rating {
        ffi::rating(self.catalog)
    }

    pub fn fits(&self, k: u64) -> Fits {
        ffi::fits(self.catalog, k)
    }
}

// An operand of a node: n, an integer or n % m in the node itself, or the tree at another place.
#[derive(Clone, Copy)]
pub enum Part {
    N,
    Integer(u64),
    Rest(u64),
    At(usize),
}

// A node by its code, an operator by its number.
pub enum Node {
    Leaf(Part),
    Not(Part),
    Op(usize, Part, Part),
    Ternary(Part, Part, Part),
}

impl Node {
    pub fn parts(&self) -> Vec<Part> {
        match *self {
            Node::Leaf(x) | Node::Not(x) => vec![x],
            Node::Op(_, x, y) => vec![x, y],
            Node::Ternary(x, y, z) => vec![x, y, z],
        }
    }
}

impl Record {
    pub fn same(&self, other: &Record) -> bool {
        self.head == other.head && self.same_rule(other)
    }

    pub fn same_rule(&self, other: &Record) -> bool {
        self.head.nodes == other.head.nodes
            && self.head.root == other.head.root
            && self.codes == other.codes
            && self.places == other.places
            && self.values == other.values
    }

    // The node at a place; none where its code is not one of document 01's record.
    pub fn node(&self, at: usize) -> Option<Node> {
        let (code, value) = (self.codes[at], Part::Integer(self.values[at]));
        let field = |j| self.places[2 * at + j];
        let (small, before) = (Part::Integer(field(0) as u64), Part::At(at.wrapping_sub(1)));
        let (x, y) = (Part::At(field(0) as usize), Part::At(field(1) as usize));
        let op = |first: u8| (code - first) as usize;
        Some(match code {
            0 => Node::Leaf(Part::N),
            1 => Node::Leaf(value),
            2..=14 => Node::Op(op(2), Part::N, value),
            15..=27 => Node::Op(op(15), Part::Rest(field(0) as u64), value),
            28 => Node::Not(before),
            29 => Node::Ternary(before, value, small),
            30..=42 => Node::Op(op(30), before, value),
            43..=55 => Node::Op(op(43), x, before),
            56 => Node::Ternary(x, value, before),
            57 => Node::Ternary(x, y, before),
            _ => return None,
        })
    }

    // The tree as the crate's own Debug writes it.
    pub fn write_tree(&self, at: usize, out: &mut String) {
        // the last four are no operators of the crate's
        const NAMES: [&str; 13] = [
            "Equal", "NotEqual", "GreaterOrEqual", "SmallerOrEqual", "Greater", "Smaller", "And", "Or", "Modulo", "Divide",
            "Plus", "Minus", "Times",
        ];
        let (name, parts) = match self.node(at).expect("a known code") {
            Node::Leaf(part) => return self.write_part(part, out),
            Node::Not(part) => ("Not(", vec![part]),
            Node::Op(op, x, y) => {
                out.push_str("Op(");
                out.push_str(NAMES[op]);
                (", ", vec![x, y])
            }
            Node::Ternary(x, y, z) => ("Ternary(", vec![x, y, z]),
        };
        out.push_str(name);
        for (j, part) in parts.into_iter().enumerate() {
            if j > 0 {
                out.push_str(", ");
            }
            self.write_part(part, out);
        }
        out.push(')');
    }

    fn write_part(&self, part: Part, out: &mut String) {
        match part {
            Part::N => out.push('N'),
            Part::Integer(x) => out.push_str(&format!("Integer({x})")),
            Part::Rest(m) => out.push_str(&format!("Op(Modulo, N, Integer({m}))")),
            Part::At(q) => self.write_tree(q, out),
        }
    }

    // The tree's value by the crate's `resolve`; none where it takes a remainder or a
    // quotient by zero.
    pub fn resolve(&self, at: usize, n: u64) -> Option<u64> {
        let value = |part| match part {
            Part::N => Some(n),
            Part::Integer(x) => Some(x),
            Part::Rest(m) => n.checked_rem(m),
            Part::At(q) => self.resolve(q, n),
        };
        let (op, x, y) = match self.node(at)? {
            Node::Leaf(part) => return value(part),
            Node::Not(part) => return Some((value(part)? == 0) as u64),
            Node::Ternary(x, y, z) => return if value(x)? == 0 { value(z) } else { value(y) },
            Node::Op(op, x, y) => (op, x, y),
        };
        Some(match op {
            0 => (value(x)? == value(y)?) as u64,
            1 => (value(x)? != value(y)?) as u64,
            2 => (value(x)? >= value(y)?) as u64,
            3 => (value(x)? <= value(y)?) as u64,
            4 => (value(x)? > value(y)?) as u64,
            5 => (value(x)? < value(y)?) as u64,
            6 => (value(x)? != 0 && value(y)? != 0) as u64,
            7 => (value(x)? != 0 || value(y)? != 0) as u64,
            8 => return value(x)?.checked_rem(value(y)?),
            9 => return value(x)?.checked_div(value(y)?),
            10 => value(x)?.wrapping_add(value(y)?),
            11 => value(x)?.wrapping_sub(value(y)?),
            _ => value(x)?.wrapping_mul(value(y)?),
        })
    }
}
