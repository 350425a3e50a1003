//! The memory of the C library: that of c/goblin_mach.c, as in the proved library.
#![allow(unsafe_code)]

use core::alloc::{GlobalAlloc, Layout};
use core::ptr;

/// What an allocation answers: whether there is memory, and where.
#[repr(C)]
struct Tried {
    some: bool,
    at: *mut u8,
}

unsafe extern "C" {
    fn rattle_alloc(size: usize, align: usize) -> Tried;
    fn rattle_dealloc(block: *mut u8);
    fn rattle_realloc(block: *mut u8, kept: usize, size: usize, align: usize) -> Tried;
    #[cfg(panic = "abort")]
    fn abort() -> !;
}

/// The allocator of the call that runs in this thread.
struct OfCall;

/// How blocks are aligned, as malloc aligns them.
const ALIGN: usize = 16;

impl Tried {
    fn block(self) -> *mut u8 {
        if self.some { self.at } else { ptr::null_mut() }
    }
}

// SAFETY: blocks are those of malloc or of the caller's functions, of which the header requires the same.
unsafe impl GlobalAlloc for OfCall {
    unsafe fn alloc(&self, layout: Layout) -> *mut u8 {
        if layout.align() > ALIGN {
            return ptr::null_mut();
        }
        // SAFETY: it takes any size.
        unsafe { rattle_alloc(layout.size(), layout.align()) }.block()
    }

    unsafe fn dealloc(&self, block: *mut u8, _: Layout) {
        // SAFETY: the block is one of `alloc`'s.
        unsafe { rattle_dealloc(block) }
    }

    unsafe fn realloc(&self, block: *mut u8, layout: Layout, size: usize) -> *mut u8 {
        // SAFETY: the block is one of `alloc`'s.
        unsafe { rattle_realloc(block, layout.size(), size, layout.align()) }.block()
    }
}

#[global_allocator]
static MEMORY: OfCall = OfCall;

#[cfg(panic = "abort")]
#[panic_handler]
fn panic(_: &core::panic::PanicInfo<'_>) -> ! {
    // SAFETY: it is C's.
    unsafe { abort() }
}
