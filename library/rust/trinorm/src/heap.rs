//! The three functions of memory that the archive calls, over the allocator of the program.
use std::alloc::{alloc, dealloc, realloc, Layout};
use std::ptr::addr_of;

/// What they answer: whether there is memory, and where. The pointer is never null.
#[repr(C)]
pub struct Tried {
    ok: bool,
    at: *mut u8,
}

// A block is given back by its place alone, so its size stands before it.
const HEAD: usize = 16;
static NOTHING: u8 = 0;

/// The layout of a block of `size` bytes with its head. Blocks are aligned to HEAD bytes, and to no more.
fn layout(size: usize) -> Option<Layout> {
    Layout::from_size_align(size.checked_add(HEAD)?, HEAD).ok()
}

/// # Safety
/// `head` is null, or the place of a block of `size` bytes behind its head.
unsafe fn tried_at(head: *mut u8, size: usize) -> Tried {
    if head.is_null() {
        return Tried {
            ok: false,
            at: addr_of!(NOTHING).cast_mut(),
        };
    }
    // SAFETY: the block begins with room for its head
    unsafe {
        head.cast::<usize>().write(size);
        Tried {
            ok: true,
            at: head.add(HEAD),
        }
    }
}

#[no_mangle]
extern "C" fn rattle_alloc(size: usize, align: usize) -> Tried {
    let head = match layout(size).filter(|_| align <= HEAD) {
        // SAFETY: the layout has at least the bytes of the head
        Some(it) => unsafe { alloc(it) },
        None => std::ptr::null_mut(),
    };
    // SAFETY: that is the block
    unsafe { tried_at(head, size) }
}

/// # Safety
/// `old` is what one of these functions answered and was not given back.
#[no_mangle]
unsafe extern "C" fn rattle_realloc(
    old: *mut u8,
    _kept: usize,
    size: usize,
    align: usize,
) -> Tried {
    // SAFETY: the head of the block says its size, with which it was made
    unsafe {
        let head = old.sub(HEAD);
        let made = match (layout(head.cast::<usize>().read()), layout(size)) {
            (Some(was), Some(is)) if align <= HEAD => realloc(head, was, is.size()),
            _ => std::ptr::null_mut(),
        };
        tried_at(made, size)
    }
}

/// # Safety
/// `old` is what one of these functions answered and was not given back.
#[no_mangle]
unsafe extern "C" fn rattle_dealloc(old: *mut u8) {
    // SAFETY: the head of the block says its size, with which it was made
    unsafe {
        let head = old.sub(HEAD);
        if let Some(was) = layout(head.cast::<usize>().read()) {
            dealloc(head, was);
        }
    }
}
