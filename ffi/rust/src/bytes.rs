//! The bytes of a module.

use alloc::sync::Arc;
use core::ops::Deref;

/// The bytes of a module: another's, or shared by all that read them. They stay where they are, unwritten, for as long
/// as one of these is there.
#[derive(Clone)]
pub(crate) enum Bytes<'a> {
    Borrowed(&'a [u8]),
    Shared(Arc<[u8]>),
}

impl Deref for Bytes<'_> {
    type Target = [u8];

    fn deref(&self) -> &[u8] {
        match self {
            Bytes::Borrowed(bytes) => bytes,
            Bytes::Shared(bytes) => bytes,
        }
    }
}
