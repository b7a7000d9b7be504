//! What a call tells.

use crate::error::Error;
use crate::raw::Verdict;
use core::mem::MaybeUninit;
use core::slice;

/// So many bytes of a text are kept, and all of most.
const TEXT: usize = 256;

/// Makes a call, which writes its verdict and as much of a text as there is room for. Answers the verdict, and what it
/// reports, unless that is an acceptance.
///
/// # Safety
///
/// The call is one of the library's that have a text.
#[inline]
pub(crate) unsafe fn told(
    call: impl FnOnce(*mut u8, usize, *mut Verdict) -> u32,
) -> (Verdict, Option<Error>) {
    let mut text = [MaybeUninit::<u8>::uninit(); TEXT];
    let mut verdict = Verdict::default();
    call(text.as_mut_ptr().cast(), TEXT, &raw mut verdict);
    let written = verdict.text_length.min(TEXT);
    // SAFETY: so many bytes of the text were written.
    let text = unsafe { slice::from_raw_parts(text.as_ptr().cast(), written) };
    (verdict, Error::of_verdict(&verdict, text))
}

/// Makes a call that has a text, and answers what it reports, unless that is an acceptance.
///
/// # Safety
///
/// As of [`told`].
#[inline]
pub(crate) unsafe fn result_of(
    call: impl FnOnce(*mut u8, usize, *mut Verdict) -> u32,
) -> Result<(), Error> {
    // SAFETY: the caller keeps to what this function asks.
    let (_, error) = unsafe { told(call) };
    error.map_or(Ok(()), Err)
}
