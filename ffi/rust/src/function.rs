//! Functions that are validated operator by operator.

use crate::answer;
use crate::bytes::Bytes;
use crate::error::{Error, Item};
use crate::frame::Frame;
use crate::raw::{self, FunctionHandle, Verdict};
use crate::types::{Operand, ValType};
use core::cell::UnsafeCell;
use core::fmt;

/// A call that takes an operator.
type Take = unsafe extern "C" fn(
    *mut FunctionHandle,
    *const u8,
    usize,
    u64,
    *mut usize,
    *mut u8,
    usize,
    *mut Verdict,
) -> u32;

/// A function that is validated operator by operator, as upstream's `FuncValidator`.
///
/// [`Module::function`](crate::Module::function) begins one by its type,
/// [`Module::function_body`](crate::Module::function_body) one that has a body in the module. An operator is the bytes
/// that encode it; there is no enum of operators. [`Function::op`] takes an operator. [`Function::try_op`] attempts
/// one: if it is refused, it leaves no trace. In between, the types of the operands and the open frames can be read. If
/// [`Function::finish`] accepts, no run of the accepted operators gets stuck.
///
/// It keeps its module. It is `Send`, and not `Sync`: one call at a time reads its stacks.
///
/// ```
/// use tansyattic::{Module, Operand, Reason, ValType};
///
/// // (type (func (param i32) (result i32)))
/// let module = Module::declare(b"\0asm\x01\0\0\0\x01\x06\x01\x60\x01\x7f\x01\x7f")?;
/// let mut function = module.function(0)?;
/// function.op(&[0x20, 0x00], 0)?; // local.get 0
/// assert_eq!(function.operand(0), Some(Operand::Known(ValType::I32)));
/// let refused = function.try_op(&[0x6a], 2).unwrap_err(); // i32.add
/// assert_eq!(refused.reason(), Some(Reason::NothingFound));
/// assert_eq!(function.operand_stack_height(), 1);
/// function.op(&[0x41, 0x01], 2)?; // i32.const 1
/// function.op(&[0x6a], 4)?;
/// function.op(&[0x0b], 5)?; // end
/// function.finish(6)?;
/// # Ok::<(), tansyattic::Error>(())
/// ```
pub struct Function<'a> {
    // A call on a function may change it for as long as it runs, so a function isn't `Sync`.
    handle: UnsafeCell<FunctionHandle>,
    item: Item,
    // What the library keeps of the module reads them, so they are dropped behind the handle.
    _bytes: Bytes<'a>,
}

impl<'a> Function<'a> {
    /// What a call makes, which begins a function over a module of these bytes; and what errors are about.
    ///
    /// # Safety
    ///
    /// The call is one of the library's that begin a function.
    pub(crate) unsafe fn begun(
        bytes: Bytes<'a>,
        item: Item,
        call: impl FnOnce(*mut FunctionHandle, *mut u8, usize, *mut Verdict) -> u32,
    ) -> Result<Function<'a>, Error> {
        let mut function = Function {
            handle: UnsafeCell::new(FunctionHandle::NONE),
            item,
            _bytes: bytes,
        };
        let handle = function.handle.get_mut();
        // SAFETY: the call has a text.
        let begun = unsafe {
            answer::result_of(|text, text_length, out| call(handle, text, text_length, out))
        };
        match begun {
            Ok(()) => Ok(function),
            Err(error) => Err(error.about(item)),
        }
    }

    /// Declares more locals, `count` of this type, before the first operator. They stand behind the parameters and
    /// those that were declared before.
    ///
    /// # Errors
    ///
    /// An operator came before, the module has no such type, the proposal of the type is off, there are too many
    /// locals, or memory ran out. Nothing is changed then.
    pub fn define_locals(&mut self, count: u32, ty: ValType, offset: u64) -> Result<(), Error> {
        let handle = self.handle.get_mut();
        let ty = ty.to_raw();
        // SAFETY: each pointer is that of a reference, with the length of its slice.
        let defined = unsafe {
            answer::result_of(|text, length, out| {
                raw::tansyattic_raw_define_locals(
                    handle,
                    count,
                    &raw const ty,
                    offset,
                    text,
                    length,
                    out,
                )
            })
        };
        defined.map_err(|error| error.about(self.item))
    }

    /// Takes the operator that the bytes begin with, and answers how many bytes it has. Other bytes may follow it. You
    /// choose the offset: it is where an error says that the operator stands.
    ///
    /// # Errors
    ///
    /// The operator's rule doesn't hold, the bytes begin with no operator or end inside one, the function has failed
    /// before or is closed, or memory ran out. Then the function has failed: it takes no operator any more, and
    /// [`Function::finish`] doesn't accept it. A vector operator isn't covered; it changes nothing.
    pub fn op(&mut self, bytes: &[u8], offset: u64) -> Result<usize, Error> {
        // SAFETY: it is one of the two calls.
        unsafe { self.take(raw::tansyattic_raw_op, bytes, offset) }
    }

    /// Attempts an operator: the same as [`Function::op`], but an operator that isn't taken leaves no trace.
    ///
    /// # Errors
    ///
    /// Those of [`Function::op`], but the function hasn't failed by them.
    pub fn try_op(&mut self, bytes: &[u8], offset: u64) -> Result<usize, Error> {
        // SAFETY: it is one of the two calls.
        unsafe { self.take(raw::tansyattic_raw_try_op, bytes, offset) }
    }

    /// Takes an operator by a call.
    ///
    /// # Safety
    ///
    /// The call is one of those that take an operator.
    unsafe fn take(&mut self, call: Take, bytes: &[u8], offset: u64) -> Result<usize, Error> {
        let handle = self.handle.get_mut();
        let (start, length) = (bytes.as_ptr(), bytes.len());
        let mut taken = 0;
        // SAFETY: each pointer is that of a reference, with the length of its slice. The caller keeps to the rest.
        let result = unsafe {
            answer::result_of(|text, text_length, out| {
                let taken = &raw mut taken;
                call(handle, start, length, offset, taken, text, text_length, out)
            })
        };
        match result {
            Ok(()) => Ok(taken),
            Err(error) => Err(error.about(self.item).of_operator(bytes)),
        }
    }

    /// Accepts the function if it is whole: [`Function::op`] refused no operator, and no frame is open. It changes
    /// nothing.
    ///
    /// # Errors
    ///
    /// It has failed, or a frame is open.
    pub fn finish(&self, offset: u64) -> Result<(), Error> {
        // SAFETY: as in `operand_stack_height`.
        let whole = unsafe {
            answer::result_of(|text, length, out| {
                raw::tansyattic_raw_finish(self.handle.get(), offset, text, length, out)
            })
        };
        whole.map_err(|error| error.about(self.item))
    }

    /// How many operands there are, in all frames.
    #[must_use]
    pub fn operand_stack_height(&self) -> usize {
        // SAFETY: no other call uses the handle, since a function isn't `Sync`, and the reference to it is one that
        // nobody changes it by.
        let height = unsafe { raw::tansyattic_operands(self.handle.get()) };
        usize::try_from(height).unwrap_or(usize::MAX)
    }

    /// How many frames are open.
    #[must_use]
    pub fn control_stack_height(&self) -> usize {
        // SAFETY: as in `operand_stack_height`.
        let height = unsafe { raw::tansyattic_frames(self.handle.get()) };
        usize::try_from(height).unwrap_or(usize::MAX)
    }

    /// The operand at this depth, the top at 0, or None if there are no more.
    #[doc(alias = "get_operand_type")]
    #[must_use]
    pub fn operand(&self, depth: usize) -> Option<Operand> {
        let mut ty = raw::Type::default();
        let depth = u64::try_from(depth).ok()?;
        // SAFETY: as in `operand_stack_height`, and the type is one of this function.
        let found = unsafe { raw::tansyattic_operand(self.handle.get(), depth, &raw mut ty) };
        (found != 0).then(|| Operand::of_raw(&ty))
    }

    /// All operands, the lowest first.
    ///
    /// ```
    /// # let module = tansyattic::Module::declare(b"\0asm\x01\0\0\0\x01\x04\x01\x60\0\0")?;
    /// let mut function = module.function(0)?;
    /// function.op(&[0x41, 0x00], 0)?; // i32.const 0
    /// function.op(&[0x42, 0x00], 2)?; // i64.const 0
    /// let types: Vec<String> = function.operands().map(|operand| operand.to_string()).collect();
    /// assert_eq!(types, ["i32", "i64"]);
    /// # Ok::<(), tansyattic::Error>(())
    /// ```
    pub fn operands(&self) -> impl DoubleEndedIterator<Item = Operand> + ExactSizeIterator + '_ {
        (0..self.operand_stack_height())
            .rev()
            .map(|depth| self.operand(depth).unwrap_or(Operand::Unknown))
    }

    /// The frame at this depth, the innermost at 0, or None if there are no more.
    #[doc(alias = "get_control_frame")]
    #[must_use]
    pub fn frame(&self, depth: usize) -> Option<Frame> {
        let mut frame = raw::Frame::default();
        let depth = u64::try_from(depth).ok()?;
        // SAFETY: as in `operand_stack_height`, and the frame is one of this function.
        let found = unsafe { raw::tansyattic_frame(self.handle.get(), depth, &raw mut frame) };
        if found == 0 {
            return None;
        }
        Frame::of_raw(&frame)
    }

    /// How many locals there are, the parameters included.
    #[must_use]
    pub fn len_locals(&self) -> u32 {
        // SAFETY: as in `operand_stack_height`.
        unsafe { raw::tansyattic_locals(self.handle.get()) }
    }

    /// The type of the local at this index, the parameters first, or None if there are no more.
    #[doc(alias = "get_local_type")]
    #[must_use]
    pub fn local(&self, index: u32) -> Option<ValType> {
        let mut ty = raw::Type::default();
        // SAFETY: as in `operand_stack_height`, and the type is one of this function.
        let found = unsafe { raw::tansyattic_local(self.handle.get(), index, &raw mut ty) };
        if found == 0 {
            return None;
        }
        ValType::of_raw(&ty)
    }
}

impl Drop for Function<'_> {
    fn drop(&mut self) {
        // SAFETY: the pointer is that of a handle which no other call uses.
        unsafe { raw::tansyattic_free_function(self.handle.get_mut()) }
    }
}

impl fmt::Debug for Function<'_> {
    fn fmt(&self, f: &mut fmt::Formatter<'_>) -> fmt::Result {
        f.debug_struct("Function")
            .field("operand_stack_height", &self.operand_stack_height())
            .field("control_stack_height", &self.control_stack_height())
            .finish_non_exhaustive()
    }
}
