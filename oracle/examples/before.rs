// A program that uses gettext 0.4.0: FILE.mo ..
// host/rust/examples/changed_over.rs is the same after it changed over.

use gettext::{Catalog, Error, ParseOptions};
use std::collections::HashMap;
use std::env;
use std::fs::File;
use std::process::exit;
use std::sync::Arc;

/// The catalogs of a shop, by language.
struct Shop {
    catalogs: HashMap<String, Arc<Catalog>>,
}

impl Shop {
    fn open(paths: impl Iterator<Item = String>) -> Result<Shop, Error> {
        let mut catalogs = HashMap::new();
        for path in paths {
            let catalog = Catalog::parse(File::open(&path)?)?;
            catalogs.insert(path, Arc::new(catalog));
        }
        Ok(Shop { catalogs })
    }

    fn invoice(&self, path: &str, pages: u64) -> String {
        let catalog = &self.catalogs[path];
        let title = catalog.gettext("Your invoice");
        let length = catalog.ngettext("%d page", "%d pages", pages);
        let month = catalog.pgettext("month", "May");
        format!(
            "{title}, {}, {month}",
            length.replace("%d", &pages.to_string())
        )
    }
}

/// A catalog whose header has no rule: this shop's have two forms, and the second is for more than one.
fn forced(path: &str) -> Result<Catalog, Error> {
    ParseOptions::new()
        .force_plural(|n| usize::from(n > 1))
        .parse(File::open(path)?)
}

fn message(error: &Error) -> String {
    match error {
        Error::Io(error) => format!("cannot be read: {error}"),
        Error::BadMagic => "is no MO file".to_string(),
        other => format!("is broken: {other}"),
    }
}

fn main() {
    let paths: Vec<String> = env::args().skip(1).collect();
    if paths.is_empty() {
        eprintln!("usage: changed_over FILE.mo ..");
        exit(2);
    }
    let shop = match Shop::open(paths.iter().cloned()) {
        Ok(shop) => shop,
        Err(error) => {
            eprintln!("a catalog {}", message(&error));
            exit(1);
        }
    };
    for path in &paths {
        println!("{}", shop.invoice(path, 3));
        match forced(path) {
            Ok(catalog) => println!("{}", catalog.ngettext("%d page", "%d pages", 0)),
            Err(error) => eprintln!("{path} {}", message(&error)),
        }
    }
}
