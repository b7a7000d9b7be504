//! Says whether a binary WebAssembly module is valid, and whether the next operator of a function is.
//!
//! The static library `libtansyattic.a` does the work, and its calls are proved: if one says that a module is valid,
//! what the module declares is valid, and no run of its bodies' operators gets stuck. docs/MODULES.md and
//! docs/EMBEDDING.md say what is proved and what isn't.
//!
//! ```
//! // (func (param i32 i32) (result i32) local.get 0 local.get 1 i32.add)
//! let bytes = b"\0asm\x01\0\0\0\x01\x07\x01\x60\x02\x7f\x7f\x01\x7f\x03\x02\x01\0\x0a\x09\x01\x07\0\x20\0\x20\x01\x6a\x0b";
//! tansyattic::validate(bytes)?;
//! # Ok::<(), tansyattic::Error>(())
//! ```
//!
//! A body may be written operator by operator, each validated before it is appended ([`Function`]):
//!
//! ```
//! use tansyattic::{Module, Operand, ValType};
//!
//! // (type (func (param i32) (result i32)))
//! let module = Module::declare(b"\0asm\x01\0\0\0\x01\x06\x01\x60\x01\x7f\x01\x7f")?;
//! let mut function = module.function(0)?;
//! let mut body = Vec::new();
//! for operator in [&[0x20, 0x00][..], &[0x6a], &[0x0b]] { // local.get 0, i32.add, end
//!     if let Ok(length) = function.try_op(operator, body.len() as u64) {
//!         body.extend_from_slice(&operator[..length]);
//!     }
//! }
//! function.finish(body.len() as u64)?;
//! assert_eq!(body, [0x20, 0x00, 0x0b]); // i32.add had no operands
//! # Ok::<(), tansyattic::Error>(())
//! ```
//!
//! # From wasmparser
//!
//! These have the same names here: [`Validator::validate_all`], and the types [`ValType`], [`RefType`], [`HeapType`],
//! [`FrameKind`], [`BlockType`] and [`Frame`]. A [`Module`] stands in place of `ValidatorResources`, and a [`Function`]
//! in place of `FuncValidator`: it has [`Function::op`], [`Function::try_op`], [`Function::finish`], and calls that
//! show its stacks. docs/USING.md has a table.
//!
//! **What isn't here**:
//!
//! - **No parser**: no `Parser`, `Payload`, `BinaryReader` or readers of sections, and no `Validator::payload`. All
//!   bytes of a module are checked at once, none as they arrive.
//! - **No enum of operators**, nor `VisitOperator`: an operator is the bytes that encode it.
//! - **No lookup of your own**: no trait `WasmModuleResources`. What a module declares is read from bytes
//!   ([`Module::declare`]). No `types::Types` or `TypesRef` shows it.
//! - **No components**, which are [`ErrorKind::Malformed`], and no vector operators, which are
//!   [`ErrorKind::NotCovered`].
//!
//! # To link it
//!
//! `build.rs` takes the archive from the folder that `TANSYATTIC_LIB_DIR` names, if that is set. Otherwise it asks
//! pkg-config, and then looks where `ffi/build` leaves it in the tree. The archive is built for Linux on x86-64-v2.
//!
//! The crate needs no `std`. With the feature `memory`, which is on by default, the library takes its memory from the
//! global allocator. Without it, a program gives the three functions of `ffi/tansyattic.h` itself.

#![no_std]

extern crate alloc;

mod answer;
mod bytes;
mod error;
mod features;
mod frame;
mod function;
mod handle;
#[cfg(feature = "memory")]
mod memory;
mod module;
mod name;
mod operators;
mod raw;
mod reason;
mod types;
mod validator;

pub use error::{Error, ErrorKind, Item};
pub use features::Features;
pub use frame::{BlockType, Frame, FrameKind};
pub use function::Function;
pub use module::{Errors, Module, Summary};
pub use name::OperatorName;
pub use operators::{Operator, Operators};
pub use reason::Reason;
pub use types::{AbstractHeapType, HeapType, Operand, RefType, ValType};
pub use validator::{Validator, validate};

/// The version of the library: its major number, its minor one, and the patch.
///
/// ```
/// assert_eq!(tansyattic::version(), (0, 2, 0));
/// ```
#[must_use]
pub fn version() -> (u32, u32, u32) {
    let version = raw::tansyattic_version();
    (version >> 16, version >> 8 & 0xff, version & 0xff)
}
