//! How a catalog searches for a key.

mod sealed {
    pub trait Sealed {}
    impl Sealed for super::Scan {}
    impl Sealed for Vec<u32> {}
    impl Sealed for &[u32] {}
}

/// How a catalog searches for a key: [`Scan`], or the slots of an index, a `Vec<u32>` that the catalog owns or a slice that is lent.
///
/// Every search answers the same. An index costs 4 bytes a slot, of which there are two to four for each entry, and a lookup then takes the
/// same time however many entries the file has.
pub trait Search: sealed::Sealed {
    #[doc(hidden)]
    fn slots(&self) -> Option<&[u32]>;
}

/// The entries are passed one by one, from the last on. It needs no memory.
#[derive(Clone, Copy, Debug, Default, PartialEq, Eq)]
pub struct Scan;

impl Search for Scan {
    fn slots(&self) -> Option<&[u32]> {
        None
    }
}

impl Search for Vec<u32> {
    fn slots(&self) -> Option<&[u32]> {
        Some(self)
    }
}

impl Search for &[u32] {
    fn slots(&self) -> Option<&[u32]> {
        Some(self)
    }
}
