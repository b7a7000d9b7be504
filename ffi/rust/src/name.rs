//! The names of operators.

use crate::raw;
use core::fmt;
use core::ops::Deref;
use core::str;

/// So many bytes hold each name.
const ROOM: usize = 31;

/// The name of an operator in the standard, as `i32.add`. It takes no memory.
///
/// ```
/// use tansyattic::OperatorName;
///
/// let name = OperatorName::of_bytes(&[0xfc, 0x0a, 0, 0]).unwrap();
/// assert_eq!(&*name, "memory.copy");
/// assert!(OperatorName::of_bytes(&[0xff]).is_none());
/// ```
#[derive(Clone, Copy, PartialEq, Eq, Hash, PartialOrd, Ord)]
pub struct OperatorName {
    text: [u8; ROOM],
    length: u8,
}

impl OperatorName {
    /// No name.
    pub(crate) const NONE: OperatorName = OperatorName {
        text: [0; ROOM],
        length: 0,
    };

    /// The name of the operator that these bytes begin with, by its code alone. Vector operators have no name here.
    #[must_use]
    pub fn of_bytes(bytes: &[u8]) -> Option<OperatorName> {
        let mut text = [0; ROOM];
        // SAFETY: each pointer is that of a reference, with the length of its slice.
        let length = unsafe {
            raw::tansyattic_raw_operator_name(
                bytes.as_ptr(),
                bytes.len(),
                text.as_mut_ptr(),
                text.len(),
            )
        };
        let length = u8::try_from(length.min(ROOM)).ok()?;
        (length != 0).then_some(OperatorName { text, length })
    }

    /// The name as a text.
    #[must_use]
    pub fn as_str(&self) -> &str {
        str::from_utf8(&self.text[..usize::from(self.length)]).unwrap_or_default()
    }
}

impl Deref for OperatorName {
    type Target = str;

    fn deref(&self) -> &str {
        self.as_str()
    }
}

impl AsRef<str> for OperatorName {
    fn as_ref(&self) -> &str {
        self.as_str()
    }
}

impl PartialEq<str> for OperatorName {
    fn eq(&self, other: &str) -> bool {
        self.as_str() == other
    }
}

impl PartialEq<&str> for OperatorName {
    fn eq(&self, other: &&str) -> bool {
        self.as_str() == *other
    }
}

impl fmt::Display for OperatorName {
    fn fmt(&self, f: &mut fmt::Formatter<'_>) -> fmt::Result {
        f.pad(self.as_str())
    }
}

impl fmt::Debug for OperatorName {
    fn fmt(&self, f: &mut fmt::Formatter<'_>) -> fmt::Result {
        write!(f, "{:?}", self.as_str())
    }
}
