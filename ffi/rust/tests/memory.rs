//! Whichever request for memory is refused, an answer is what it is with memory, or out of memory, or lacks its text
//! or a name. The test is alone in its program, since it refuses the requests of the whole of it.

use std::alloc::{GlobalAlloc, Layout, System};
use std::cell::Cell;
use tansyattic::{Error, ErrorKind, Module, ValType, validate};

thread_local! {
    /// How many requests of this thread are met before one is refused.
    static MET: Cell<usize> = const { Cell::new(usize::MAX) };
}

/// Whether the next request is met.
fn is_met() -> bool {
    let met = MET.get();
    MET.set(met.wrapping_sub(1));
    met != 0
}

/// Rust's allocator, which refuses one request.
struct OneRefused;

// SAFETY: what is met is met by the allocator of the system, and a null pointer says that a request is refused.
unsafe impl GlobalAlloc for OneRefused {
    unsafe fn alloc(&self, layout: Layout) -> *mut u8 {
        if is_met() {
            // SAFETY: the caller keeps to what this function asks.
            unsafe { System.alloc(layout) }
        } else {
            std::ptr::null_mut()
        }
    }

    unsafe fn realloc(&self, block: *mut u8, layout: Layout, size: usize) -> *mut u8 {
        if is_met() {
            // SAFETY: the caller keeps to what this function asks.
            unsafe { System.realloc(block, layout, size) }
        } else {
            std::ptr::null_mut()
        }
    }

    unsafe fn dealloc(&self, block: *mut u8, layout: Layout) {
        // SAFETY: the caller keeps to what this function asks.
        unsafe { System.dealloc(block, layout) }
    }
}

#[global_allocator]
static ALLOCATOR: OneRefused = OneRefused;

/// Makes a call that refuses the request behind so many, and says whether it made so many.
fn refusing<T>(met: usize, call: impl FnOnce() -> T) -> (T, bool) {
    MET.set(met);
    let answer = call();
    let is_refused = MET.replace(usize::MAX) > met;
    (answer, is_refused)
}

const NO_TEXT: &str = "no memory for the text";

/// Whether an error says what another says, its text and names aside, which may be missing.
fn is_like(error: &Error, other: &Error) -> bool {
    let has_text = error.message() == other.message() || error.message() == NO_TEXT;
    let has_name = error
        .function_name()
        .is_none_or(|name| Some(name) == other.function_name());
    let parts = |error: &Error| (error.kind(), error.item(), error.offset(), error.reason());
    has_text && has_name && parts(error) == parts(other)
}

/// How many requests a call makes, and how many of its answers lacked their text, or a name, if each was refused
/// alone.
#[derive(Default)]
struct Lacks {
    requests: usize,
    textless: usize,
    nameless: usize,
}

/// Makes a call with each of its requests refused, one at a time.
fn refuse_each(call: impl Fn() -> Result<(), Error>) -> Lacks {
    let ample = call();
    let mut lacks = Lacks::default();
    for met in 0.. {
        let (answer, is_refused) = refusing(met, &call);
        if !is_refused {
            assert_eq!(answer, ample);
            break;
        }
        lacks.requests += 1;
        let error = answer.expect_err("a request was refused");
        if error.kind() == ErrorKind::OutOfMemory {
            continue;
        }
        let is_right = ample.as_ref().is_err_and(|other| is_like(&error, other));
        assert!(is_right, "request {met}: {error}");
        lacks.textless += usize::from(error.message() == NO_TEXT);
        lacks.nameless += usize::from(error.function_name().is_none());
    }
    lacks
}

/// Two functions, [] -> [] and [] -> [i32]; the second gives no value, and has the name `f`.
const REFUSED: &[u8] =
    b"\0asm\x01\0\0\0\x01\x08\x02\x60\0\0\x60\0\x01\x7f\x03\x03\x02\0\x01\x0a\x07\x02\x02\0\x0b\x02\0\x0b\0\x0b\x04name\x01\x04\x01\x01\x01f";

/// Begins a function, and takes operators until its stacks have grown more than once.
fn grow(module: &Module) -> Result<(), Error> {
    let mut function = module.function(0)?;
    function.define_locals(1, ValType::I64, 0)?;
    for at in 0..100 {
        function.try_op(&[0x41, 0], at)?; // i32.const
        function.op(&[0x02, 0x40], at)?; // block
    }
    Ok(())
}

#[test]
fn answers_whichever_request_is_refused() {
    let sum = include_bytes!("../../../examples/sum.wasm");
    let lacks = refuse_each(|| validate(sum));
    assert!(lacks.requests > 0 && lacks.textless == 0);
    let lacks = refuse_each(|| validate(REFUSED));
    assert!(lacks.requests > 1 && lacks.textless == 1 && lacks.nameless > 0);
    let lacks = refuse_each(|| validate(b"this is no module"));
    assert_eq!((lacks.requests, lacks.textless), (1, 1));
    let module = Module::parse(REFUSED).unwrap();
    let lacks = refuse_each(|| module.validate_function(1));
    assert!(lacks.requests > 1 && lacks.textless == 1 && lacks.nameless > 0);
    let lacks = refuse_each(|| grow(&module));
    assert!(lacks.requests > 3 && lacks.textless == 0);
}
