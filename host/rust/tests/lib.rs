//! The tests of gettext 0.4.0 that concern UTF-8, on its own files: its tests/lib.rs, and `test_parse_catalog` of its src/parser.rs.
//! Copyright (c) 2016 Justinas Stankevicius, MIT; see NOTICE. A forced rule is text here.

use gettext_rattle::{Catalog, Error, ParseOptions, Reading};

#[test]
fn test_integration() {
    let f: &[u8] = include_bytes!("../test_cases/integration.mo");
    let catalog = Catalog::parse(f).unwrap();

    assert_eq!(catalog.gettext("non-existent"), "non-existent");
    assert_eq!(catalog.gettext("existent"), "egzistuojantis");

    assert_eq!(
        catalog.ngettext("a bad string", "bad strings", 1),
        "a bad string"
    );
    assert_eq!(
        catalog.ngettext("a bad string", "bad strings", 2),
        "bad strings"
    );
    assert_eq!(
        catalog.ngettext("a good string", "good strings", 1),
        "gera eilute"
    );
    assert_eq!(
        catalog.ngettext("a good string", "good strings", 2),
        "geros eilutes"
    );

    assert_eq!(catalog.pgettext("ctxt", "non-existent"), "non-existent");
    assert_eq!(
        catalog.pgettext("ctxt", "existent"),
        "egzistuojantis kontekste"
    );

    assert_eq!(
        catalog.npgettext("ctxt", "a bad string", "bad strings", 1),
        "a bad string"
    );
    assert_eq!(
        catalog.npgettext("ctxt", "a bad string", "bad strings", 2),
        "bad strings"
    );
    assert_eq!(
        catalog.npgettext("ctxt", "a good string", "good strings", 1),
        "gera eilute kontekste"
    );
    assert_eq!(
        catalog.npgettext("ctxt", "a good string", "good strings", 2),
        "geros eilutes kontekste"
    );
}

#[test]
fn test_lt_plural() {
    // The function that the crate's test forces, as a rule. It needs C's grammar: && beside ?:.
    let lithuanian_plural =
        "n % 10 == 1 && n % 100 != 11 ? 0 : n % 10 >= 2 && (n % 100 < 10 || n % 100 >= 20) ? 1 : 2";

    // lt_plural_forced
    {
        let reader: &[u8] = include_bytes!("../test_cases/lt_plural_forced.mo");
        let cat = ParseOptions::new()
            .force_plural(lithuanian_plural)
            .reading(Reading::Standard)
            .parse(reader)
            .unwrap();

        assert_eq!(cat.ngettext("Garlic", "Garlics", 0), "Česnakų");
        assert_eq!(cat.ngettext("Garlic", "Garlics", 1), "Česnakas");
        for i in 2..9 {
            assert_eq!(cat.ngettext("Garlic", "Garlics", i), "Česnakai");
        }
        for i in 10..20 {
            assert_eq!(cat.ngettext("Garlic", "Garlics", i), "Česnakų");
        }
        assert_eq!(cat.ngettext("Garlic", "Garlics", 21), "Česnakas");
    }
}

#[test]
fn test_complex_plural() {
    let reader: &[u8] = include_bytes!("../test_cases/complex_plural.mo");
    let cat = ParseOptions::new().parse(reader).unwrap();

    assert_eq!(cat.ngettext("Test", "Tests", 0), "Plural 2");
    assert_eq!(cat.ngettext("Test", "Tests", 1), "Singular");
    assert_eq!(cat.ngettext("Test", "Tests", 2), "Plural 1");
    for i in 3..20 {
        assert_eq!(cat.ngettext("Test", "Tests", i), "Plural 2");
    }
}

#[test]
fn test_parse_catalog() {
    let fluff = [0; 24]; // zeros to pad our magic test cases to satisfy the length requirements

    {
        let mut reader = vec![1u8, 2, 3];
        reader.extend(fluff.iter().cloned());
        assert!(matches!(Catalog::parse(&reader[..]), Err(Error::Eof)));
    }

    {
        let mut reader = vec![1u8, 2, 3, 4];
        reader.extend(fluff.iter().cloned());
        assert!(matches!(Catalog::parse(&reader[..]), Err(Error::BadMagic)));
    }

    {
        let mut reader = vec![0x95, 0x04, 0x12, 0xde];
        reader.extend(fluff.iter().cloned());
        assert!(Catalog::parse(&reader[..]).unwrap().is_empty());
    }

    {
        let mut reader = vec![0xde, 0x12, 0x04, 0x95];
        reader.extend(fluff.iter().cloned());
        assert!(Catalog::parse(&reader[..]).unwrap().is_empty());
    }

    {
        let reader: &[u8] = include_bytes!("../test_cases/1.mo");
        let catalog = Catalog::parse(reader).unwrap();
        assert_eq!(catalog.len(), 1);
        assert_eq!(catalog.gettext("this is context\x04Text"), "Tekstas");
        assert_eq!(
            catalog.npgettext("this is context", "Text", "Texts", 2),
            "Tekstai"
        );
    }

    {
        let reader: &[u8] = include_bytes!("../test_cases/2.mo");
        let catalog = Catalog::parse(reader).unwrap();
        assert_eq!(catalog.len(), 2);
        assert_eq!(catalog.ngettext("Image", "Images", 1), "Nuotrauka");
        assert_eq!(catalog.ngettext("Image", "Images", 2), "Nuotraukos");
    }

    {
        let reader: &[u8] = include_bytes!("../test_cases/invalid_utf8.mo");
        assert!(matches!(Catalog::parse(reader), Err(Error::DecodingError)));
    }
}
