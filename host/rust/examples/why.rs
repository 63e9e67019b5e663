//! Why did I get this text? For a catalog, an id, its plural id and a count: the text, and the reason for it.
//!
//!     cargo run --example why -- ../../examples/de.mo '%d page' '%d pages' 3
//!     cargo run --example why -- ../../examples/de.mo month May Mays 3
//!
//! With five arguments the first after the file is the context. The rule is read as the GNU manual asks.

use gettext_rattle::{ParseOptions, Reading};
use std::error::Error;
use std::{env, fs};

fn explain(arguments: &[&str]) -> Result<String, Box<dyn Error>> {
    let (path, context, id, plural_id, n) = match *arguments {
        [path, id, plural_id, n] => (path, None, id, plural_id, n),
        [path, context, id, plural_id, n] => (path, Some(context), id, plural_id, n),
        _ => return Err("usage: why CATALOG.mo [CONTEXT] ID PLURAL_ID COUNT".into()),
    };
    let file = fs::read(path)?;
    let catalog = ParseOptions::new()
        .reading(Reading::Standard)
        .parse_slice(&file)?;
    let n = n.parse()?;
    let why = match context {
        None => catalog.why_ngettext(id, plural_id, n),
        Some(context) => catalog.why_npgettext(context, id, plural_id, n),
    };
    Ok(format!("{}\n{}", why.answer.text, why.reason))
}

fn main() -> Result<(), Box<dyn Error>> {
    let arguments: Vec<String> = env::args().skip(1).collect();
    let arguments: Vec<&str> = arguments.iter().map(String::as_str).collect();
    println!("{}", explain(&arguments)?);
    Ok(())
}

#[test]
fn says_why() {
    let de = concat!(env!("CARGO_MANIFEST_DIR"), "/../../examples/de.mo");
    for (arguments, said) in [
        (
            &[de, "%d page", "%d pages", "3"][..],
            "%d Seiten\nentry 1, form 1, at byte 378 of the file",
        ),
        (
            &[de, "month", "May", "Mays", "3"][..],
            "Mays\nentry 3 has 1 form, the rule names form 1",
        ),
        (
            &[de, "not there", "not here", "1"][..],
            "not there\nno entry has this id",
        ),
    ] {
        assert_eq!(explain(arguments).unwrap(), said);
    }
    assert!(explain(&[de]).is_err());
}
