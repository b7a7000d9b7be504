//! Modules, and the check of them.

use crate::answer;
use crate::bytes::Bytes;
use crate::error::{Error, Item, owned};
use crate::features::Features;
use crate::function::Function;
use crate::handle::{OwnHandle, SharedHandle};
use crate::operators::Operators;
use crate::raw::{self, Verdict};
use crate::types::ValType;
use alloc::alloc::{Layout, handle_alloc_error};
use alloc::string::String;
use alloc::sync::Arc;
use alloc::vec::Vec;
use core::fmt;
use core::iter::FusedIterator;
use core::ops::Range;

/// A name of so many bytes is read at once.
const NAME: usize = 64;

/// What is read: a whole module, or one without its bodies.
#[derive(Clone, Copy)]
enum Extent {
    Whole,
    Declarations,
}

/// A module that was read. What it declares is valid.
///
/// [`Module::parse`] reads and checks its sections once. Each later check reads the bytes of one body.
///
/// ```
/// use tansyattic::Module;
///
/// // (func (result i32) i32.const 7) (func drop)
/// let bytes = b"\0asm\x01\0\0\0\x01\x08\x02\x60\0\x01\x7f\x60\0\0\x03\x03\x02\0\x01\x0a\x0a\x02\x04\0\x41\x07\x0b\x03\0\x1a\x0b";
/// let module = Module::parse(bytes)?;
/// assert_eq!(module.bodies(), 0..2);
/// module.validate_function(0)?;
/// let error = module.validate_function(1).unwrap_err();
/// assert_eq!(error.message(), "type mismatch: expected a type but nothing on stack");
/// # Ok::<(), tansyattic::Error>(())
/// ```
///
/// # Threads
///
/// It is `Send` and `Sync`, so several threads can check its bodies at once over one reference: by rayon's `par_iter`,
/// or as below. For that, each call takes a small block of memory for a handle of its own.
///
/// ```
/// # let bytes = b"\0asm\x01\0\0\0\x01\x08\x02\x60\0\x01\x7f\x60\0\0\x03\x03\x02\0\x01\x0a\x0a\x02\x04\0\x41\x07\x0b\x03\0\x1a\x0b";
/// let module = tansyattic::Module::parse(bytes)?;
/// let refused: usize = std::thread::scope(|scope| {
///     let halves = [0..1, 1..2].map(|half| {
///         let module = &module;
///         scope.spawn(move || half.filter(|index| module.validate_function(*index).is_err()).count())
///     });
///     halves.map(|half| half.join().unwrap()).iter().sum()
/// });
/// assert_eq!(refused, 1);
/// # Ok::<(), tansyattic::Error>(())
/// ```
///
/// # Bytes
///
/// It reads the bytes for as long as it lives, so it borrows them, or shares them: [`Module::parse_shared`] answers a
/// `Module<'static>`, which borrows nothing and may be kept anywhere.
pub struct Module<'a> {
    handle: SharedHandle,
    bodies: Range<u32>,
    // The handle reads them, so they are dropped behind it.
    bytes: Bytes<'a>,
}

/// The outcome of the check of a module.
#[derive(Clone, Debug, PartialEq, Eq)]
#[must_use]
#[non_exhaustive]
pub struct Summary {
    /// How many bodies and constant expressions are accepted.
    pub accepted: u64,
    /// How many are malformed or invalid.
    pub refused: u64,
    /// How many aren't covered.
    pub not_covered: u64,
    /// Why not all are accepted: the gravest error, and of equally grave ones the first. The gravest is that memory ran
    /// out; then come malformed, invalid and not covered.
    pub error: Option<Error>,
}

impl<'a> Module<'a> {
    /// Reads a module, of which these are all the bytes, and checks what it declares. The proposals of
    /// [`Features::DEFAULT`] are on, also for its bodies.
    ///
    /// # Errors
    ///
    /// The bytes aren't those of a module, what they declare isn't valid, a constant expression has a vector
    /// operator, or memory ran out.
    pub fn parse(bytes: &'a [u8]) -> Result<Module<'a>, Error> {
        Module::parse_with_features(bytes, Features::DEFAULT)
    }

    /// The same, with these proposals on.
    ///
    /// # Errors
    ///
    /// Those of [`Module::parse`].
    pub fn parse_with_features(bytes: &'a [u8], features: Features) -> Result<Module<'a>, Error> {
        Module::read(Bytes::Borrowed(bytes), features, Extent::Whole)
    }

    /// Reads a module that has no bodies yet: its bytes end before its code section, or have none. What it declares is
    /// checked as by [`Module::parse`], except for how many bodies and data segments there are. Functions can be begun
    /// over it, but none of its functions has a body.
    ///
    /// # Errors
    ///
    /// Those of [`Module::parse`], or the bytes have bodies (`section out of order`).
    pub fn declare(bytes: &'a [u8]) -> Result<Module<'a>, Error> {
        Module::declare_with_features(bytes, Features::DEFAULT)
    }

    /// The same, with these proposals on.
    ///
    /// # Errors
    ///
    /// Those of [`Module::declare`].
    pub fn declare_with_features(bytes: &'a [u8], features: Features) -> Result<Module<'a>, Error> {
        Module::read(Bytes::Borrowed(bytes), features, Extent::Declarations)
    }

    /// The bytes of the module.
    #[must_use]
    pub fn bytes(&self) -> &[u8] {
        &self.bytes
    }

    fn read(bytes: Bytes<'a>, features: Features, extent: Extent) -> Result<Module<'a>, Error> {
        let mut handle = OwnHandle::none();
        let call = match extent {
            Extent::Whole => raw::tansyattic_raw_load,
            Extent::Declarations => raw::tansyattic_raw_declare,
        };
        // SAFETY: it is one of the two calls. The bytes stay as they are for as long as there is a module, a function
        // or a clone with these `Bytes`, and all handles are theirs.
        unsafe { handle.read(call, &bytes, features.bits()) }?;
        let (imported, functions) = handle.functions();
        Ok(Module {
            handle: SharedHandle::new(handle),
            bodies: imported..functions,
            bytes,
        })
    }

    /// Makes a call on a handle of its own. Answers the verdict, and what it reports, with the names of the operator
    /// and of the function.
    ///
    /// # Safety
    ///
    /// The call is one of the library's on a module.
    unsafe fn call(
        &self,
        call: impl FnOnce(*mut raw::ModuleHandle, *mut u8, usize, *mut Verdict) -> u32,
    ) -> (Verdict, Option<Error>) {
        let Some(mut handle) = self.handle.another() else {
            return (Verdict::default(), Some(Error::out_of_memory()));
        };
        let module = handle.as_mut_ptr();
        // SAFETY: the call has a text.
        let (verdict, error) =
            unsafe { answer::told(|text, text_length, out| call(module, text, text_length, out)) };
        (verdict, error.map(|error| self.named(error)))
    }

    /// The error with the names of the operator and of the function that it is about.
    fn named(&self, error: Error) -> Error {
        let bytes = usize::try_from(error.offset())
            .ok()
            .and_then(|offset| self.bytes.get(offset..))
            .unwrap_or_default();
        let name = match error.item() {
            Item::Function(index) => u32::try_from(index)
                .ok()
                .and_then(|index| self.function_name(index)),
            _ => None,
        };
        error.of_operator(bytes).of_function_name(name)
    }

    /// The indices of the functions that aren't imported. They stand behind the imported ones, and have bodies; in a
    /// module that was read by [`Module::declare`], the bodies are still to come.
    #[must_use]
    pub fn bodies(&self) -> Range<u32> {
        self.bodies.clone()
    }

    /// The name that the module's name section gives to the function at this index. Imported functions count in an
    /// index. It is None if there is no name, or if memory ran out.
    #[must_use]
    pub fn function_name(&self, index: u32) -> Option<String> {
        let mut handle = self.handle.another()?;
        let mut read = |text: &mut [u8]| {
            // SAFETY: each pointer is that of a reference, with the length of its slice, and no other call uses the
            // handle.
            unsafe {
                raw::tansyattic_raw_function_name(
                    handle.as_mut_ptr(),
                    index,
                    text.as_mut_ptr(),
                    text.len(),
                )
            }
        };
        let mut text = [0; NAME];
        let length = read(&mut text);
        match text.get(..length) {
            Some([]) => None,
            Some(name) => owned(name),
            None => {
                let mut text = Vec::new();
                text.try_reserve_exact(length).ok()?;
                text.resize(length, 0);
                read(&mut text);
                owned(&text)
            }
        }
    }

    /// Checks the body of the function at this index. Imported functions count in an index.
    ///
    /// # Errors
    ///
    /// The body is malformed, invalid or not covered, the module has no body for this function, or memory ran out.
    pub fn validate_function(&self, index: u32) -> Result<(), Error> {
        // SAFETY: it is a call on a module.
        let (_, error) = unsafe {
            self.call(|module, text, length, out| {
                raw::tansyattic_raw_validate_function(module, index, text, length, out)
            })
        };
        error.map_or(Ok(()), Err)
    }

    /// Checks each body and each constant expression, and counts what is accepted and what isn't.
    pub fn summary(&self) -> Summary {
        // SAFETY: it is a call on a module.
        let (verdict, error) = unsafe {
            self.call(|module, text, length, out| {
                raw::tansyattic_raw_validate_module(module, text, length, out)
            })
        };
        Summary {
            accepted: verdict.accepted,
            refused: verdict.refused,
            not_covered: verdict.not_covered,
            error,
        }
    }

    /// Checks each body and each constant expression. If all are accepted, the module is valid.
    ///
    /// # Errors
    ///
    /// One of them is malformed, invalid or not covered, the module was declared without bodies, or memory ran out.
    /// The gravest error is reported, as in [`Summary::error`].
    pub fn validate(&self) -> Result<(), Error> {
        self.summary().error.map_or(Ok(()), Err)
    }

    /// All errors, one for each body or constant expression that isn't accepted: constant expressions first, then
    /// bodies, each in their order. Each is checked as the iterator gets to it.
    ///
    /// ```
    /// # let bytes = b"\0asm\x01\0\0\0\x01\x04\x01\x60\0\0\x03\x03\x02\0\0\x0a\x09\x02\x03\0\x1a\x0b\x03\0\x6a\x0b";
    /// let module = tansyattic::Module::parse(bytes)?;
    /// for error in module.errors() {
    ///     println!("{}: {error}", error.item());
    /// }
    /// assert_eq!(module.errors().count(), 2);
    /// # Ok::<(), tansyattic::Error>(())
    /// ```
    #[must_use]
    pub fn errors(&self) -> Errors<'_, 'a> {
        Errors {
            module: self,
            position: 0,
            is_done: false,
        }
    }

    /// Begins a function of the type at this index, with its parameters as locals.
    ///
    /// # Errors
    ///
    /// There is no such type, it is no function type, or memory ran out.
    pub fn function(&self, type_index: u32) -> Result<Function<'a>, Error> {
        // SAFETY: it is a call that begins a function.
        unsafe {
            self.begin(Item::NewFunction, |module, function, text, length, out| {
                raw::tansyattic_raw_begin(module, type_index, function, text, length, out)
            })
        }
    }

    /// Begins a constant expression that gives a value of this type. It isn't checked whether its operators are
    /// constant.
    ///
    /// # Errors
    ///
    /// The module has no such type, the proposal of the type is off, or memory ran out.
    pub fn constant_expression(&self, ty: ValType) -> Result<Function<'a>, Error> {
        let ty = ty.to_raw();
        // SAFETY: it is a call that begins a function.
        unsafe {
            self.begin(Item::NewFunction, |module, function, text, length, out| {
                raw::tansyattic_raw_begin_expression(
                    module,
                    &raw const ty,
                    function,
                    text,
                    length,
                    out,
                )
            })
        }
    }

    /// Begins the function at this index, with the locals of its body, and answers where the operators of the body
    /// stand in the module's bytes. Imported functions count in an index. [`Module::operators`] takes the operators one
    /// by one.
    ///
    /// # Errors
    ///
    /// The module has no body for this function, its locals are malformed or invalid, or memory ran out.
    pub fn function_body(&self, index: u32) -> Result<(Function<'a>, Range<usize>), Error> {
        let (mut first, mut behind) = (0, 0);
        let item = Item::Function(u64::from(index));
        let (at_first, at_behind) = (&raw mut first, &raw mut behind);
        // SAFETY: it is a call that begins a function.
        let begun = unsafe {
            self.begin(item, |module, function, text, length, out| {
                raw::tansyattic_raw_begin_body(
                    module, index, function, at_first, at_behind, text, length, out,
                )
            })
        };
        let function = begun.map_err(|error| self.named(error))?;
        Ok((function, place(first)..place(behind)))
    }

    /// The operators of the body of the function at this index, validated as they are read. Imported functions count in
    /// an index.
    ///
    /// # Errors
    ///
    /// Those of [`Module::function_body`].
    pub fn operators(&self, index: u32) -> Result<Operators<'_, 'a>, Error> {
        Operators::new(self, index)
    }

    /// Begins a function by a call, over a handle of its own.
    ///
    /// # Safety
    ///
    /// The call is one of the library's that begin a function.
    unsafe fn begin(
        &self,
        item: Item,
        call: impl FnOnce(
            *mut raw::ModuleHandle,
            *mut raw::FunctionHandle,
            *mut u8,
            usize,
            *mut Verdict,
        ) -> u32,
    ) -> Result<Function<'a>, Error> {
        let mut handle = self.handle.another().ok_or(Error::out_of_memory())?;
        let module = handle.as_mut_ptr();
        // SAFETY: the caller keeps to what this function asks.
        unsafe {
            Function::begun(self.bytes.clone(), item, |function, text, length, out| {
                call(module, function, text, length, out)
            })
        }
    }
}

impl Module<'static> {
    /// Reads a module as [`Module::parse_with_features`] does, and keeps a share of its bytes.
    ///
    /// ```
    /// use std::collections::HashMap;
    /// use std::sync::Arc;
    /// use tansyattic::{Features, Module};
    ///
    /// let mut modules: HashMap<&str, Module<'static>> = HashMap::new();
    /// let bytes: Arc<[u8]> = Arc::from(&b"\0asm\x01\0\0\0"[..]);
    /// modules.insert("empty", Module::parse_shared(bytes, Features::DEFAULT)?);
    /// assert_eq!(modules["empty"].bytes().len(), 8);
    /// # Ok::<(), tansyattic::Error>(())
    /// ```
    ///
    /// # Errors
    ///
    /// Those of [`Module::parse`].
    pub fn parse_shared(bytes: Arc<[u8]>, features: Features) -> Result<Module<'static>, Error> {
        Module::read(Bytes::Shared(bytes), features, Extent::Whole)
    }

    /// Reads a module as [`Module::declare_with_features`] does, and keeps a share of its bytes.
    ///
    /// # Errors
    ///
    /// Those of [`Module::declare`].
    pub fn declare_shared(bytes: Arc<[u8]>, features: Features) -> Result<Module<'static>, Error> {
        Module::read(Bytes::Shared(bytes), features, Extent::Declarations)
    }
}

/// The place in the bytes of the module that this offset is.
fn place(offset: u64) -> usize {
    usize::try_from(offset).unwrap_or(usize::MAX)
}

/// A clone is cheap: it shares the memory of the first.
impl Clone for Module<'_> {
    fn clone(&self) -> Self {
        let Some(handle) = self.handle.another() else {
            handle_alloc_error(Layout::new::<raw::ModuleHandle>());
        };
        Module {
            handle: SharedHandle::new(handle),
            bodies: self.bodies.clone(),
            bytes: self.bytes.clone(),
        }
    }
}

impl fmt::Debug for Module<'_> {
    fn fmt(&self, f: &mut fmt::Formatter<'_>) -> fmt::Result {
        f.debug_struct("Module")
            .field("bodies", &self.bodies())
            .finish_non_exhaustive()
    }
}

/// The errors of the bodies and constant expressions that aren't accepted ([`Module::errors`]). If memory runs out, or
/// the module was declared without bodies, that is the last error.
pub struct Errors<'m, 'a> {
    module: &'m Module<'a>,
    position: usize,
    is_done: bool,
}

impl Errors<'_, '_> {
    /// The next error, if there is one.
    fn take(&mut self) -> Option<Error> {
        let before = self.position;
        let position = &raw mut self.position;
        // SAFETY: it is a call on a module.
        let (_, error) = unsafe {
            self.module.call(|module, text, length, out| {
                raw::tansyattic_raw_validate_next(module, position, text, length, out)
            })
        };
        self.is_done = self.position == before;
        error
    }
}

impl Iterator for Errors<'_, '_> {
    type Item = Error;

    fn next(&mut self) -> Option<Error> {
        if self.is_done {
            return None;
        }
        let error = self.take();
        self.is_done |= error.is_none();
        error
    }
}

impl FusedIterator for Errors<'_, '_> {}

impl fmt::Debug for Errors<'_, '_> {
    fn fmt(&self, f: &mut fmt::Formatter<'_>) -> fmt::Result {
        f.debug_struct("Errors")
            .field("position", &self.position)
            .finish_non_exhaustive()
    }
}
