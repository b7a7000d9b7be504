//! The module that the library read, behind handles.

use crate::answer;
use crate::error::Error;
use crate::raw::{self, ModuleHandle, Verdict};
use core::ffi::c_void;
use core::hint;
use core::ptr;
use core::sync::atomic::{AtomicPtr, Ordering};

/// A call that reads a module.
type Read = unsafe extern "C" fn(
    *const u8,
    usize,
    u32,
    *mut ModuleHandle,
    *mut u8,
    usize,
    *mut Verdict,
) -> u32;

/// A handle for one call at a time, freed as it is dropped.
pub(crate) struct OwnHandle(ModuleHandle);

impl OwnHandle {
    pub(crate) const fn none() -> OwnHandle {
        OwnHandle(ModuleHandle::NONE)
    }

    /// Where the handle is, for a call.
    pub(crate) fn as_mut_ptr(&mut self) -> *mut ModuleHandle {
        &raw mut self.0
    }

    /// Reads a module by a call.
    ///
    /// # Safety
    ///
    /// The call is one of those that read a module. The bytes stay as they are until the handle is freed, and each
    /// handle and function that is made of it.
    pub(crate) unsafe fn read(
        &mut self,
        call: Read,
        bytes: &[u8],
        features: u32,
    ) -> Result<(), Error> {
        let module = self.as_mut_ptr();
        let (start, length) = (bytes.as_ptr(), bytes.len());
        // SAFETY: each pointer is that of a reference, with the length of its slice. The caller keeps to the rest.
        unsafe {
            answer::result_of(|text, text_length, out| {
                call(start, length, features, module, text, text_length, out)
            })
        }
    }

    /// The index behind that of the last imported function, and that behind the last function.
    pub(crate) fn functions(&mut self) -> (u32, u32) {
        let module = self.as_mut_ptr();
        // SAFETY: the pointer is that of a handle which no other call uses.
        unsafe {
            (
                raw::tansyattic_imported_functions(module),
                raw::tansyattic_functions(module),
            )
        }
    }
}

impl Drop for OwnHandle {
    fn drop(&mut self) {
        // SAFETY: the pointer is that of a handle which no other call uses.
        unsafe { raw::tansyattic_free(self.as_mut_ptr()) }
    }
}

/// A handle that several threads may use at once, by handles of their own that they make of it.
///
/// The library takes one call at a time on a handle. So a thread moves the handle out for as long as another is made
/// of it, which takes a small block of memory, and moves it back.
pub(crate) struct SharedHandle(AtomicPtr<c_void>);

impl SharedHandle {
    /// The handle, which isn't none.
    pub(crate) fn new(mut handle: OwnHandle) -> SharedHandle {
        let at = handle.0.at;
        handle.0 = ModuleHandle::NONE;
        SharedHandle(AtomicPtr::new(at))
    }

    /// Another handle of the same module, if there is memory for it.
    pub(crate) fn another(&self) -> Option<OwnHandle> {
        let mut moved = ModuleHandle {
            at: self.move_out(),
        };
        let mut other = OwnHandle::none();
        // SAFETY: the pointers are those of handles which no other call uses: this one was moved out.
        let status = unsafe { raw::tansyattic_share(&raw mut moved, other.as_mut_ptr()) };
        self.0.store(moved.at, Ordering::Release);
        (status == 0).then_some(other)
    }

    /// What the handle has, once no other thread has moved it out.
    fn move_out(&self) -> *mut c_void {
        loop {
            let at = self.0.swap(ptr::null_mut(), Ordering::Acquire);
            if !at.is_null() {
                return at;
            }
            hint::spin_loop();
        }
    }
}

impl Drop for SharedHandle {
    fn drop(&mut self) {
        drop(OwnHandle(ModuleHandle {
            at: *self.0.get_mut(),
        }));
    }
}
