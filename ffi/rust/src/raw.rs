//! The library's own calls, as `ffi/tansyattic.h` declares them. `.ci/reasons` compares the numbers, and nothing the rest.

use core::ffi::c_void;
use core::ptr;

/// The verdict as the library writes it.
#[repr(C)]
#[derive(Clone, Copy, Default)]
pub(crate) struct Verdict {
    pub(crate) status: u32,
    pub(crate) kind: u32,
    pub(crate) reason: u32,
    pub(crate) index: u64,
    pub(crate) offset: u64,
    pub(crate) text_length: usize,
    pub(crate) text_needed: usize,
    pub(crate) accepted: u64,
    pub(crate) refused: u64,
    pub(crate) not_covered: u64,
}

/// A module that the library read, or none where the pointer is null. It alone reads and writes the pointer, and what
/// lies there.
#[repr(C)]
pub(crate) struct ModuleHandle {
    pub(crate) at: *mut c_void,
}

impl ModuleHandle {
    pub(crate) const NONE: ModuleHandle = ModuleHandle {
        at: ptr::null_mut(),
    };
}

/// A function that the library validates, or none, as [`ModuleHandle`].
#[repr(C)]
pub(crate) struct FunctionHandle {
    at: *mut c_void,
}

impl FunctionHandle {
    pub(crate) const NONE: FunctionHandle = FunctionHandle {
        at: ptr::null_mut(),
    };
}

// SAFETY: it may be used by calls of any thread, one at a time.
unsafe impl Send for ModuleHandle {}

// SAFETY: as of a module.
unsafe impl Send for FunctionHandle {}

pub(crate) const TYPE_INDEX: u32 = 1;
pub(crate) const V128: u32 = 0x7b;
pub(crate) const F64: u32 = 0x7c;
pub(crate) const F32: u32 = 0x7d;
pub(crate) const I64: u32 = 0x7e;
pub(crate) const I32: u32 = 0x7f;

/// A value type.
#[repr(C)]
#[derive(Clone, Copy, Default)]
pub(crate) struct Type {
    pub(crate) code: u32,
    pub(crate) index: u32,
    pub(crate) nullable: u8,
    pub(crate) shared: u8,
    pub(crate) exact: u8,
    pub(crate) reserved: u8,
}

pub(crate) const FRAME_BLOCK: u32 = 0;
pub(crate) const FRAME_IF: u32 = 1;
pub(crate) const FRAME_ELSE: u32 = 2;
pub(crate) const FRAME_LOOP: u32 = 3;
pub(crate) const FRAME_TRY_TABLE: u32 = 4;
pub(crate) const FRAME_LEGACY_TRY: u32 = 5;
pub(crate) const FRAME_LEGACY_CATCH: u32 = 6;
pub(crate) const FRAME_LEGACY_CATCH_ALL: u32 = 7;

pub(crate) const BLOCK_EMPTY: u32 = 0;
pub(crate) const BLOCK_VALUE: u32 = 1;
pub(crate) const BLOCK_FUNCTION: u32 = 2;

/// An open frame.
#[repr(C)]
#[derive(Clone, Copy, Default)]
pub(crate) struct Frame {
    pub(crate) height: u64,
    pub(crate) kind: u32,
    pub(crate) block_kind: u32,
    pub(crate) block_index: u32,
    pub(crate) unreachable: u32,
    pub(crate) block_type: Type,
}

unsafe extern "C" {
    pub(crate) safe fn tansyattic_version() -> u32;
    pub(crate) fn tansyattic_raw_load(
        bytes: *const u8,
        length: usize,
        features: u32,
        module: *mut ModuleHandle,
        text: *mut u8,
        text_length: usize,
        out: *mut Verdict,
    ) -> u32;
    pub(crate) fn tansyattic_raw_declare(
        bytes: *const u8,
        length: usize,
        features: u32,
        module: *mut ModuleHandle,
        text: *mut u8,
        text_length: usize,
        out: *mut Verdict,
    ) -> u32;
    pub(crate) fn tansyattic_share(module: *mut ModuleHandle, other: *mut ModuleHandle) -> u32;
    pub(crate) fn tansyattic_free(module: *mut ModuleHandle);
    pub(crate) fn tansyattic_functions(module: *mut ModuleHandle) -> u32;
    pub(crate) fn tansyattic_imported_functions(module: *mut ModuleHandle) -> u32;
    pub(crate) fn tansyattic_raw_validate_module(
        module: *mut ModuleHandle,
        text: *mut u8,
        text_length: usize,
        out: *mut Verdict,
    ) -> u32;
    pub(crate) fn tansyattic_raw_validate_function(
        module: *mut ModuleHandle,
        function: u32,
        text: *mut u8,
        text_length: usize,
        out: *mut Verdict,
    ) -> u32;
    pub(crate) fn tansyattic_raw_validate_next(
        module: *mut ModuleHandle,
        position: *mut usize,
        text: *mut u8,
        text_length: usize,
        out: *mut Verdict,
    ) -> u32;
    pub(crate) fn tansyattic_raw_begin(
        module: *mut ModuleHandle,
        type_index: u32,
        function: *mut FunctionHandle,
        text: *mut u8,
        text_length: usize,
        out: *mut Verdict,
    ) -> u32;
    pub(crate) fn tansyattic_raw_begin_expression(
        module: *mut ModuleHandle,
        ty: *const Type,
        function: *mut FunctionHandle,
        text: *mut u8,
        text_length: usize,
        out: *mut Verdict,
    ) -> u32;
    pub(crate) fn tansyattic_raw_begin_body(
        module: *mut ModuleHandle,
        index: u32,
        function: *mut FunctionHandle,
        first: *mut u64,
        behind: *mut u64,
        text: *mut u8,
        text_length: usize,
        out: *mut Verdict,
    ) -> u32;
    pub(crate) fn tansyattic_raw_define_locals(
        function: *mut FunctionHandle,
        count: u32,
        ty: *const Type,
        offset: u64,
        text: *mut u8,
        text_length: usize,
        out: *mut Verdict,
    ) -> u32;
    pub(crate) fn tansyattic_raw_op(
        function: *mut FunctionHandle,
        bytes: *const u8,
        length: usize,
        offset: u64,
        taken: *mut usize,
        text: *mut u8,
        text_length: usize,
        out: *mut Verdict,
    ) -> u32;
    pub(crate) fn tansyattic_raw_try_op(
        function: *mut FunctionHandle,
        bytes: *const u8,
        length: usize,
        offset: u64,
        taken: *mut usize,
        text: *mut u8,
        text_length: usize,
        out: *mut Verdict,
    ) -> u32;
    pub(crate) fn tansyattic_raw_finish(
        function: *mut FunctionHandle,
        offset: u64,
        text: *mut u8,
        text_length: usize,
        out: *mut Verdict,
    ) -> u32;
    pub(crate) fn tansyattic_free_function(function: *mut FunctionHandle);
    pub(crate) fn tansyattic_operands(function: *mut FunctionHandle) -> u64;
    pub(crate) fn tansyattic_frames(function: *mut FunctionHandle) -> u64;
    pub(crate) fn tansyattic_locals(function: *mut FunctionHandle) -> u32;
    pub(crate) fn tansyattic_operand(
        function: *mut FunctionHandle,
        depth: u64,
        ty: *mut Type,
    ) -> u32;
    pub(crate) fn tansyattic_frame(
        function: *mut FunctionHandle,
        depth: u64,
        frame: *mut Frame,
    ) -> u32;
    pub(crate) fn tansyattic_local(function: *mut FunctionHandle, index: u32, ty: *mut Type)
    -> u32;
    pub(crate) fn tansyattic_raw_operator_name(
        bytes: *const u8,
        length: usize,
        text: *mut u8,
        text_length: usize,
    ) -> usize;
    pub(crate) fn tansyattic_raw_function_name(
        module: *mut ModuleHandle,
        function: u32,
        text: *mut u8,
        text_length: usize,
    ) -> usize;
}
