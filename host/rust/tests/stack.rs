//! Calls on stacks of just the size that the crate's documentation states, with the deepest rules there are: 256 KiB for a load, 32 KiB for a load
//! with the rule `n` and for every other call. Below each stack lies memory that cannot be touched, so that a call which takes more ends the
//! test. host/c/stack.c does the same on records that were altered.
#![cfg(all(unix, any(target_arch = "aarch64", target_arch = "x86_64")))]

use gettext_rattle::{Catalog, Error, ParseOptions, Reading};
use std::alloc::{alloc, Layout};
use std::arch::asm;
use std::ffi::c_void;

const LOAD: usize = 256 * 1024;
const CALL: usize = 32 * 1024;

// a multiple of every size that a page has
const GUARD: usize = 64 * 1024;

extern "C" {
    fn mprotect(at: *mut c_void, len: usize, protection: i32) -> i32;
}

struct Stack {
    low: *mut u8,
    size: usize,
    most: usize,
}

impl Stack {
    fn new(size: usize) -> Self {
        let layout = Layout::from_size_align(GUARD + size, GUARD).unwrap();
        // SAFETY: the memory is never given back, and its first part, which nothing else is in, is made untouchable.
        unsafe {
            let memory = alloc(layout);
            assert!(!memory.is_null());
            assert_eq!(mprotect(memory.cast(), GUARD, 0), 0);
            let low = memory.add(GUARD);
            Stack { low, size, most: 0 }
        }
    }

    /// Calls a function on the stack, and notes how much of it was taken.
    fn call<T>(&mut self, f: impl FnOnce() -> T) -> T {
        fn run<T, F: FnOnce() -> T>(f: F) -> T {
            f()
        }
        extern "C" fn enter<T, F: FnOnce() -> T>(data: *mut c_void) {
            // SAFETY: `call` lends both for the call.
            let (f, answer) = unsafe { &mut *data.cast::<(Option<F>, Option<T>)>() };
            *answer = f.take().map(run);
        }
        fn entry<T, F: FnOnce() -> T>(_: &(Option<F>, Option<T>)) -> extern "C" fn(*mut c_void) {
            enter::<T, F>
        }
        let mut lent = (Some(f), None);
        let enter = entry(&lent);
        let data: *mut c_void = std::ptr::addr_of_mut!(lent).cast();
        // SAFETY: the stack is this value's own, and the stack pointer is as before after the call. No function that is called here unwinds.
        unsafe {
            std::ptr::write_bytes(self.low, 0xa5, self.size);
            let top = self.low.add(self.size);
            #[cfg(target_arch = "aarch64")]
            asm!("mov x20, sp", "mov sp, {top}", "blr {enter}", "mov sp, x20",
                top = in(reg) top, enter = in(reg) enter, in("x0") data, out("x20") _, clobber_abi("C"));
            #[cfg(target_arch = "x86_64")]
            asm!("mov r12, rsp", "mov rsp, {top}", "call {enter}", "mov rsp, r12",
                top = in(reg) top, enter = in(reg) enter, in("rdi") data, out("r12") _, clobber_abi("C"));
        }
        // SAFETY: the stack is as long, and nothing else writes it.
        let bytes = unsafe { std::slice::from_raw_parts(self.low, self.size) };
        let left = bytes.iter().position(|&b| b != 0xa5).unwrap_or(self.size);
        self.most = self.most.max(self.size - left);
        lent.1.unwrap()
    }
}

/// A rule of as many bytes as 512 allow: a text again and again, a middle, another text as often.
fn rule(again: &str, middle: &str, back: &str) -> String {
    let times = (512 - middle.len()) / (again.len() + back.len());
    again.repeat(times) + middle + &back.repeat(times)
}

/// A catalog whose header has the rule, with "one" in two forms, alone and in a context.
fn file(rule: &str) -> Vec<u8> {
    let header = format!("Content-Type: text/plain; charset=UTF-8\nPlural-Forms: nplurals=2; plural={rule};\n");
    let texts = ["", "menu\u{4}one", "one", &header, "a\0b", "c\0d"];
    let mut tables = Vec::new();
    let mut strings = Vec::new();
    for text in texts {
        tables.extend((text.len() as u32).to_le_bytes());
        tables.extend((76 + strings.len() as u32).to_le_bytes());
        strings.extend(text.as_bytes());
        strings.push(0);
    }
    let mut bytes = Vec::new();
    for word in [0x9504_12de_u32, 0, 3, 28, 52, 0, 76] {
        bytes.extend(word.to_le_bytes());
    }
    bytes.extend(tables);
    bytes.extend(strings);
    bytes
}

/// Every call but a load.
fn call_all(stack: &mut Stack, catalog: &Catalog<&[u8]>, indexed: &Catalog<&[u8], Vec<u32>>) {
    for n in [0, 1, 2, 7, u64::MAX] {
        let _ = stack.call(|| catalog.rating());
        let _ = stack.call(|| catalog.fits(3));
        let form = stack.call(|| catalog.resolve(n));
        let _ = stack.call(|| catalog.forms_over(n..=n).is_ok());
        let text = stack.call(|| catalog.ngettext_bytes(b"one", b"many", n));
        assert_eq!(text, stack.call(|| indexed.ngettext_bytes(b"one", b"many", n)));
        assert_eq!(text == b"c", form == Some(0));
        let text = stack.call(|| catalog.npgettext("menu", "one", "many", n));
        assert_eq!(text, stack.call(|| indexed.npgettext("menu", "one", "many", n)));
        assert_eq!(text == "b", form == Some(1));
    }
    let text = stack.call(|| catalog.rule_text());
    assert!(matches!(text, Ok(_) | Err(Error::RuleTooLong)));
    assert_eq!(stack.call(|| catalog.gettext("one")), "c");
    assert_eq!(stack.call(|| indexed.gettext("one")), "c");
    assert_eq!(stack.call(|| catalog.pgettext("menu", "one")), "a");
    assert_eq!(stack.call(|| indexed.pgettext("menu", "one")), "a");
}

#[test]
fn deepest_rules() {
    let shapes = [
        ("!", "n", ""),
        ("(", "n", ")"),
        ("(", "n", ""),
        ("!(", "n", ")"),
        ("", "n", "+1"),
        ("", "n", "-n"),
        ("", "n", "%2"),
        ("", "n", "%n"),
        ("", "n", "&&n"),
        ("n%(", "n", ")"),
        ("(", "n", "+n)"),
        ("n?1:", "n", ""),
        ("n?n:", "n", ""),
        ("n?", "n", ":n"),
        ("(", "n", "?n:n)"),
    ];
    let mut loads = Stack::new(LOAD);
    let mut calls = Stack::new(CALL);
    let mut loaded = 0;
    for (again, middle, back) in shapes {
        let bytes = file(&rule(again, middle, back));
        for reading in [Reading::Shipped, Reading::Standard] {
            let options = ParseOptions::new().reading(reading);
            let load = || match options.parse_slice(&bytes) {
                Ok(catalog) => Some(catalog),
                Err(Error::PluralParsing) => None,
                Err(e) => unreachable!("{e}"),
            };
            if let Some(catalog) = loads.call(load) {
                let again = ParseOptions::new().reading(reading).parse_slice(&bytes);
                call_all(&mut calls, &catalog, &again.unwrap().indexed());
                loaded += 1;
            }
        }
    }
    assert!(loaded >= 20, "{loaded}");
    println!("a load took {} bytes of {LOAD}, any other call {} of {CALL}", loads.most, calls.most);
}

#[test]
fn rule_n() {
    let mut stack = Stack::new(CALL);
    let bytes = file("n");
    for reading in [Reading::Shipped, Reading::Standard] {
        let options = ParseOptions::new().reading(reading);
        assert!(stack.call(|| options.parse_slice(&bytes).is_ok()));
    }
    println!("a load of the rule n took {} bytes of {CALL}", stack.most);
}

#[test]
fn on_a_thread() {
    let bytes = file(&rule("!", "n", ""));
    let thread = std::thread::Builder::new().stack_size(LOAD);
    let nodes = thread.spawn(move || Catalog::parse_slice(&bytes).map(|c| c.fits(2)));
    assert!(matches!(nodes.unwrap().join(), Ok(Ok(true))));
}
