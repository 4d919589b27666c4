//! Memory for samples.

use std::alloc::{alloc_zeroed, dealloc, Layout};
use std::ptr::NonNull;

/// Samples lie in memory that is aligned so, as a line of a processor's cache is.
const ALIGNMENT: usize = 64;

/// Memory that is aligned. Its bytes are zeros at first, since a safe call may read them before they are cleared.
#[derive(Debug)]
pub(crate) struct Memory {
    start: NonNull<u8>,
    layout: Layout,
}

impl Memory {
    /// Returns `None` if as many bytes cannot be allocated, or there are none.
    pub(crate) fn new(bytes: usize) -> Option<Memory> {
        let layout = Layout::from_size_align(bytes, ALIGNMENT).ok().filter(|layout| layout.size() > 0)?;
        // SAFETY: the layout has bytes.
        let start = NonNull::new(unsafe { alloc_zeroed(layout) })?;
        Some(Memory { start, layout })
    }

    pub(crate) fn start(&self) -> *mut u8 {
        self.start.as_ptr()
    }
}

impl Drop for Memory {
    fn drop(&mut self) {
        // SAFETY: the memory was allocated by this layout.
        unsafe { dealloc(self.start.as_ptr(), self.layout) }
    }
}

#[cfg(test)]
mod tests {
    use super::{Memory, ALIGNMENT};

    #[test]
    fn is_aligned() {
        for bytes in [1, 320, 1 << 20] {
            assert_eq!(Memory::new(bytes).unwrap().start() as usize % ALIGNMENT, 0);
        }
    }

    #[test]
    fn is_none_if_it_cannot_be_allocated() {
        for bytes in [0, isize::MAX as usize - ALIGNMENT, usize::MAX] {
            assert!(Memory::new(bytes).is_none());
        }
    }
}
