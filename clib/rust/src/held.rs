//! A tracker, a log or a feed in memory of its own, or in memory that the caller lends. Its 16 bytes stand at the start
//! of this memory, as they may not move.
use crate::sys::{Block, Handle};
use crate::Fault;
use core::{marker::PhantomData, mem::MaybeUninit, ptr::NonNull};

/// The memory is aligned to this, and the handle has as many bytes.
const UNIT: usize = 16;

/// Returns how many bytes to lend for a block of this size, so that any alignment will do.
pub(crate) fn lent_size(block: usize) -> usize {
    block.saturating_add(2 * UNIT)
}

pub(crate) struct Held<'a> {
    handle: NonNull<Handle>,
    block: Block,
    is_own: bool,
    lent: PhantomData<&'a mut [u8]>,
}

// Safety: the memory is used through this value alone. Calls on `&self` are made on one thread, as it is not Sync.
unsafe impl Send for Held<'_> {}

impl<'a> Held<'a> {
    /// Makes a handle of zeros in memory of its own, with a block of this size.
    #[cfg(feature = "alloc")]
    pub(crate) fn new(size: usize) -> Result<Held<'static>, Fault> {
        let no_memory = Fault::of(Fault::NO_MEMORY);
        let layout = layout_of(size).ok_or(no_memory)?;
        // Safety: the layout has bytes.
        let start = NonNull::new(unsafe { alloc::alloc::alloc(layout) }).ok_or(no_memory)?;
        Ok(Held::at(start, size, true))
    }

    /// Makes a handle of zeros at the start of the memory, once this is aligned.
    pub(crate) fn lent(memory: &'a mut [MaybeUninit<u8>]) -> Result<Held<'a>, Fault> {
        let skipped = memory.as_ptr().align_offset(UNIT);
        let aligned = memory.get_mut(skipped..).filter(|rest| rest.len() >= UNIT).ok_or(Fault::of(Fault::NO_MEMORY))?;
        Ok(Held::at(NonNull::from(&mut *aligned).cast(), aligned.len() - UNIT, false))
    }

    fn at(start: NonNull<u8>, size: usize, is_own: bool) -> Held<'a> {
        debug_assert_eq!(start.as_ptr() as usize % UNIT, 0);
        // Safety: there are `UNIT` bytes and a block of `size` bytes, aligned.
        let memory = unsafe {
            start.as_ptr().write_bytes(0, UNIT);
            start.as_ptr().add(UNIT)
        };
        Held { handle: start.cast(), block: Block { size, memory }, is_own, lent: PhantomData }
    }

    pub(crate) fn block(&self) -> Block {
        self.block
    }

    pub(crate) fn handle(&self) -> *mut Handle {
        self.handle.as_ptr()
    }

    /// Gives the memory back. The library has to be done with the handle.
    pub(crate) fn release(&mut self) {
        #[cfg(feature = "alloc")]
        if let (true, Some(layout)) = (self.is_own, layout_of(self.block.size)) {
            // Safety: `new` took this memory by this layout.
            unsafe { alloc::alloc::dealloc(self.handle.as_ptr().cast(), layout) };
        }
        self.is_own = false;
    }
}

#[cfg(feature = "alloc")]
fn layout_of(size: usize) -> Option<alloc::alloc::Layout> {
    alloc::alloc::Layout::from_size_align(size.checked_add(UNIT)?, UNIT).ok()
}
