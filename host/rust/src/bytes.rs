//! Whose the bytes of a catalog's file are.

use std::sync::Arc;

mod sealed {
    pub trait Sealed {}
    impl Sealed for &[u8] {}
    impl Sealed for Vec<u8> {}
    impl Sealed for Box<[u8]> {}
    impl Sealed for std::sync::Arc<[u8]> {}
}

/// The bytes of a file, as a catalog keeps them: a slice that is lent, or a `Vec<u8>`, a `Box<[u8]>` or an `Arc<[u8]>` that the catalog
/// owns.
///
/// It is closed to other types. What is found in a file is handed out as text by a proof about the bytes that were loaded, so they have to
/// be the same bytes at every call, and none of these can change while a catalog has it.
pub trait Bytes: sealed::Sealed {
    #[doc(hidden)]
    fn bytes(&self) -> &[u8];
}

/// How long a file's bytes live: in a catalog that is borrowed for `'c` they live for `'t`.
///
/// Bytes that are lent live as long as the file, so that a text found there outlives the catalog; bytes that a catalog owns live as long
/// as it is borrowed.
pub trait Live<'c, 't>: Bytes {
    #[doc(hidden)]
    fn live(&'c self) -> &'t [u8];
}

impl Bytes for &[u8] {
    fn bytes(&self) -> &[u8] {
        self
    }
}

impl<'c, 't, 'f: 't> Live<'c, 't> for &'f [u8] {
    fn live(&'c self) -> &'t [u8] {
        self
    }
}

macro_rules! owned {
    ($($owner:ty),*) => {$(
        impl Bytes for $owner {
            fn bytes(&self) -> &[u8] {
                self
            }
        }

        impl<'c: 't, 't> Live<'c, 't> for $owner {
            fn live(&'c self) -> &'t [u8] {
                self
            }
        }
    )*};
}

owned!(Vec<u8>, Box<[u8]>, Arc<[u8]>);
