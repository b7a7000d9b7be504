//! Why something isn't accepted.

use crate::name::OperatorName;
use crate::raw::Verdict;
use crate::reason::Reason;
use alloc::borrow::Cow;
use alloc::string::String;
use core::fmt;
use core::str;

/// The text of an error for whose own text there was no memory.
const NO_TEXT: &str = "no memory for the text";

/// The kind of an error.
#[derive(Clone, Copy, Debug, PartialEq, Eq, Hash)]
#[non_exhaustive]
pub enum ErrorKind {
    /// What the module declares isn't valid, or a body, a constant expression or an operator isn't.
    Invalid,
    /// The bytes aren't those of a module, or of an operator.
    Malformed,
    /// Memory ran out: nothing is known.
    OutOfMemory,
    /// There is a vector operator, which isn't covered, and no operator before it is refused.
    NotCovered,
    /// The module has no body for the function: it is imported, isn't there, or was declared without bodies.
    NoBody,
    /// What the module declares is past a limit of this library. Whether it is valid isn't told.
    TooLarge,
}

/// What an error is about.
#[derive(Clone, Copy, Debug, PartialEq, Eq, Hash)]
#[non_exhaustive]
pub enum Item {
    /// The body of the function at this index, the imported ones counted.
    Function(u64),
    /// The constant expression of the table at this index.
    Table(u64),
    /// The constant expression of the global at this index.
    Global(u64),
    /// The offset of the element segment at this index.
    ElementOffset(u64),
    /// An item of the element segment at this index.
    Element(u64),
    /// The offset of the data segment at this index.
    DataOffset(u64),
    /// A function, or a constant expression, that isn't one of the module's: a [`Function`](crate::Function) that is
    /// being written.
    NewFunction,
    /// The module as a whole.
    Module,
}

/// Why a module, or a part of it, isn't valid, as upstream's `BinaryReaderError`.
///
/// ```
/// let error = tansyattic::validate(b"no module").unwrap_err();
/// assert_eq!(error.offset(), 0);
/// assert_eq!(error.to_string(), "magic header not detected (at offset 0x0)");
///
/// // (func $f i32.add)
/// let bytes = b"\0asm\x01\0\0\0\x01\x04\x01\x60\0\0\x03\x02\x01\0\x0a\x05\x01\x03\0\x6a\x0b\0\x0b\x04name\x01\x04\x01\0\x01f";
/// let error = tansyattic::validate(bytes).unwrap_err();
/// assert_eq!(error.operator(), Some("i32.add"));
/// assert_eq!(error.function_name(), Some("f"));
/// ```
#[derive(Clone, Debug, PartialEq, Eq)]
pub struct Error {
    kind: ErrorKind,
    item: Item,
    offset: u64,
    message: Cow<'static, str>,
    reason: Option<Reason>,
    operator: OperatorName,
    function_name: Option<String>,
}

/// A text of its own, if there is memory for it. The bytes end within a letter where the text was cut.
fn owned_text(written: &[u8]) -> Cow<'static, str> {
    owned(written).map_or(Cow::Borrowed(NO_TEXT), Cow::Owned)
}

/// The text that these bytes are up to the first that is none, if there is memory for it.
pub(crate) fn owned(bytes: &[u8]) -> Option<String> {
    let text = match str::from_utf8(bytes) {
        Ok(text) => text,
        Err(error) => str::from_utf8(&bytes[..error.valid_up_to()]).unwrap_or_default(),
    };
    let mut owned = String::new();
    owned.try_reserve_exact(text.len()).ok()?;
    owned.push_str(text);
    Some(owned)
}

impl Error {
    /// The kind of the error.
    #[must_use]
    pub fn kind(&self) -> ErrorKind {
        self.kind
    }

    /// What the error is about.
    #[must_use]
    pub fn item(&self) -> Item {
        self.item
    }

    /// Where it is, from the first byte of the module. After a call on a [`Function`](crate::Function) it is the offset
    /// that you gave or, if the bytes are malformed, that of the byte inside the operator. It is 0 if memory ran out,
    /// and for a body that isn't there.
    #[must_use]
    pub fn offset(&self) -> u64 {
        self.offset
    }

    /// Upstream's text, or `no memory for the text` if memory ran out as it was copied.
    #[must_use]
    pub fn message(&self) -> &str {
        &self.message
    }

    /// Why the rule of an operator refuses it. It is None if no rule does: if the bytes aren't an operator's, if a
    /// module declares something that isn't valid, if the calls come in a wrong order, or if memory ran out.
    #[must_use]
    pub fn reason(&self) -> Option<Reason> {
        self.reason
    }

    /// The name of the operator whose rule refuses it, if one does.
    #[must_use]
    pub fn operator(&self) -> Option<&str> {
        let name = self.operator.as_str();
        (!name.is_empty()).then_some(name)
    }

    /// The name of the function that the error is about, if the module gives it one.
    #[must_use]
    pub fn function_name(&self) -> Option<&str> {
        self.function_name.as_deref()
    }

    /// Out of memory, of the module as a whole.
    pub(crate) const fn out_of_memory() -> Error {
        Error {
            kind: ErrorKind::OutOfMemory,
            item: Item::Module,
            offset: 0,
            message: Cow::Borrowed("out of memory"),
            reason: None,
            operator: OperatorName::NONE,
            function_name: None,
        }
    }

    /// The same, about this.
    pub(crate) fn about(self, item: Item) -> Error {
        Error { item, ..self }
    }

    /// The same with the name of the operator that the bytes begin with, if it is an operator that is refused.
    pub(crate) fn of_operator(self, bytes: &[u8]) -> Error {
        let operator = match self.reason {
            None | Some(Reason::OutOfMemory) => None,
            Some(_) => OperatorName::of_bytes(bytes),
        };
        Error {
            operator: operator.unwrap_or(OperatorName::NONE),
            ..self
        }
    }

    /// The same with the function's name.
    pub(crate) fn of_function_name(self, function_name: Option<String>) -> Error {
        Error {
            function_name,
            ..self
        }
    }

    /// What a verdict reports, unless it is an acceptance. The text stands behind no more than these bytes.
    pub(crate) fn of_verdict(verdict: &Verdict, text: &[u8]) -> Option<Error> {
        let kind = match verdict.status {
            0 => return None,
            1 => ErrorKind::Invalid,
            2 => ErrorKind::Malformed,
            4 => ErrorKind::NotCovered,
            5 => ErrorKind::NoBody,
            7 => ErrorKind::TooLarge,
            _ => ErrorKind::OutOfMemory,
        };
        let item = match verdict.kind {
            0 => Item::Function(verdict.index),
            1 => Item::Table(verdict.index),
            2 => Item::Global(verdict.index),
            3 => Item::ElementOffset(verdict.index),
            4 => Item::Element(verdict.index),
            5 => Item::DataOffset(verdict.index),
            _ => Item::Module,
        };
        Some(Error {
            kind,
            item,
            offset: verdict.offset,
            message: owned_text(text),
            reason: Reason::of_raw(verdict.reason),
            operator: OperatorName::NONE,
            function_name: None,
        })
    }
}

impl fmt::Display for Error {
    fn fmt(&self, f: &mut fmt::Formatter<'_>) -> fmt::Result {
        write!(f, "{} (at offset {:#x})", self.message, self.offset)
    }
}

impl core::error::Error for Error {}

impl fmt::Display for Item {
    fn fmt(&self, f: &mut fmt::Formatter<'_>) -> fmt::Result {
        match self {
            Item::Function(index) => write!(f, "func {index}"),
            Item::Table(index) => write!(f, "table init {index}"),
            Item::Global(index) => write!(f, "global init {index}"),
            Item::ElementOffset(index) => write!(f, "elem offset {index}"),
            Item::Element(index) => write!(f, "elem item {index}"),
            Item::DataOffset(index) => write!(f, "data offset {index}"),
            Item::NewFunction => write!(f, "function"),
            Item::Module => write!(f, "module"),
        }
    }
}
