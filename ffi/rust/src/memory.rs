//! What the library takes its memory by, over Rust's global allocator. In front of each block stands how many bytes
//! it has.

use alloc::alloc::{Layout, alloc, dealloc, realloc};
use core::ptr::{NonNull, dangling_mut};

/// What stands in front of a block takes so many bytes. Each alignment that is asked for divides it.
const FRONT: usize = 16;

/// Whether there is memory, and where.
#[repr(C)]
struct Block {
    found: bool,
    block: *mut u8,
}

/// A block of so many bytes, with what stands in front of it.
fn layout(size: usize) -> Option<Layout> {
    Layout::from_size_align(size.checked_add(FRONT)?, FRONT).ok()
}

/// The block behind what lies there, which is to be one of this layout.
fn block_of(start: Option<NonNull<u8>>, size: usize) -> Block {
    match start {
        // SAFETY: there are as many bytes as the front takes, aligned for a usize, and more behind them.
        Some(start) => unsafe {
            start.cast::<usize>().write(size);
            Block {
                found: true,
                block: start.add(FRONT).as_ptr(),
            }
        },
        None => Block {
            found: false,
            block: dangling_mut::<u128>().cast(),
        },
    }
}

/// Where the block of one of these two functions begins, and its layout.
///
/// # Safety
///
/// The block is one of them, and wasn't given back.
unsafe fn whole(block: *mut u8) -> (*mut u8, Layout) {
    // SAFETY: what stands in front of the block is how many bytes it has, and made a layout once.
    unsafe {
        let start = block.sub(FRONT);
        let size = start.cast::<usize>().read();
        (
            start,
            Layout::from_size_align_unchecked(size + FRONT, FRONT),
        )
    }
}

#[unsafe(no_mangle)]
extern "C" fn rattle_alloc(size: usize, _align: usize) -> Block {
    // SAFETY: the layout has bytes.
    let start = layout(size).and_then(|layout| NonNull::new(unsafe { alloc(layout) }));
    block_of(start, size)
}

#[unsafe(no_mangle)]
unsafe extern "C" fn rattle_realloc(
    block: *mut u8,
    _kept: usize,
    size: usize,
    _align: usize,
) -> Block {
    let start = layout(size).and_then(|larger| {
        // SAFETY: the library hands in a block of these functions.
        let (start, layout) = unsafe { whole(block) };
        // SAFETY: it has this layout, and the new size is one of a layout, with bytes.
        NonNull::new(unsafe { realloc(start, layout, larger.size()) })
    });
    block_of(start, size)
}

#[unsafe(no_mangle)]
unsafe extern "C" fn rattle_dealloc(block: *mut u8) {
    // SAFETY: the library hands in a block of these functions, once.
    unsafe {
        let (start, layout) = whole(block);
        dealloc(start, layout);
    }
}
