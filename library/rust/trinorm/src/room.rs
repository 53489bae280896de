//! The room for an answer: zeroed bytes, which the system gives as they are reached.
use std::alloc::{alloc_zeroed, dealloc, Layout};
use std::ptr::NonNull;
use std::slice::from_raw_parts_mut;

/// Bytes that are all initialized, since the archive asks for that.
pub struct Room {
    at: NonNull<u8>,
    layout: Layout,
    size: usize,
}

impl Room {
    /// A room of `size` bytes, or `None` if memory runs out.
    pub fn new(size: usize) -> Option<Room> {
        let layout = Layout::array::<u8>(size.max(1)).ok()?;
        // SAFETY: the layout has at least one byte
        let at = NonNull::new(unsafe { alloc_zeroed(layout) })?;
        Some(Room { at, layout, size })
    }

    /// The bytes of the room.
    pub fn bytes(&mut self) -> &mut [u8] {
        // SAFETY: the block has so many bytes, all of them zeroed when it was made, and is this room's own
        unsafe { from_raw_parts_mut(self.at.as_ptr(), self.size) }
    }
}

impl Drop for Room {
    fn drop(&mut self) {
        // SAFETY: the block was made with this layout
        unsafe { dealloc(self.at.as_ptr(), self.layout) }
    }
}
