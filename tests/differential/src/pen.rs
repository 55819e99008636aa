//! Memory with guards around it.
//!
//! A pen lends a buffer that ends (or begins) at a page which may be neither read nor written; all bytes between the buffer and the
//! guard pages hold a known value and are looked at after each call. Where the system has no such pages, the guard bytes remain.
//!
//! For a run under a memory checker, which knows the bounds of every allocation but not of a part of a page, a pen lends an allocation
//! of exactly the buffer's length instead.

/// The value of every byte around a buffer.
pub const GUARD: u8 = 0x5A;

const PAGE: usize = 4096;

/// The fewest guard bytes on the side of a buffer that doesn't touch a guard page.
const SLACK: usize = 1024;

/// Where a buffer lies.
#[derive(Clone, Copy, Debug, PartialEq, Eq)]
pub enum Place {
    /// It ends at a guard page.
    End,
    /// It begins after a guard page.
    Beginning,
    /// It is an allocation of its own.
    Heap,
}

/// A stretch of guarded memory that holds one buffer at a time.
pub struct Pen {
    memory: pages::Pages,
    from: usize,
    to: usize,
    heap: Option<Box<[u8]>>,
}

impl Pen {
    /// A pen for buffers of up to `size` bytes; it grows when a longer one comes.
    pub fn new(size: usize) -> Pen {
        let mut memory = pages::Pages::new((size + SLACK).next_multiple_of(PAGE));
        memory.bytes_mut().fill(GUARD);
        Pen { memory, from: 0, to: 0, heap: None }
    }

    /// Puts a copy of `bytes` into the pen and lends it.
    pub fn put(&mut self, bytes: &[u8], place: Place) {
        if place == Place::Heap {
            self.heap = Some(bytes.into());
            return;
        }
        if bytes.len() + SLACK > self.memory.bytes().len() {
            *self = Pen::new(bytes.len());
        }
        let room = self.memory.bytes_mut();
        room[self.from..self.to].fill(GUARD);
        self.from = if place == Place::End { room.len() - bytes.len() } else { 0 };
        self.to = self.from + bytes.len();
        room[self.from..self.to].copy_from_slice(bytes);
        self.heap = None;
    }

    /// The buffer.
    pub fn bytes(&self) -> &[u8] {
        self.heap.as_deref().unwrap_or(&self.memory.bytes()[self.from..self.to])
    }

    /// The buffer, to be written.
    pub fn bytes_mut(&mut self) -> &mut [u8] {
        match &mut self.heap {
            Some(heap) => heap,
            None => &mut self.memory.bytes_mut()[self.from..self.to],
        }
    }

    /// Puts a number into the pen and lends it.
    pub fn put_number(&mut self, number: u64, place: Place) {
        self.put(&number.to_ne_bytes(), place);
    }

    /// The number.
    pub fn number(&self) -> u64 {
        u64::from_ne_bytes(self.bytes().try_into().expect("the pen holds a number"))
    }

    /// The number, to be written.
    pub fn number_mut(&mut self) -> &mut u64 {
        // SAFETY: any eight bytes are a number, and only whole, aligned numbers are in the middle part.
        let (before, numbers, _) = unsafe { self.bytes_mut().align_to_mut() };
        assert!(before.is_empty(), "pages and allocations are aligned for a number");
        &mut numbers[0]
    }

    /// The number as a signed one, to be written.
    pub fn signed_mut(&mut self) -> &mut i64 {
        // SAFETY: every number is a signed number, of the same size and alignment.
        unsafe { &mut *std::ptr::from_mut(self.number_mut()).cast() }
    }

    /// How far from the buffer the first byte was written that is not the buffer's; `None` when all guards stand. A memory checker sees to
    /// what is around an allocation.
    pub fn stray(&self) -> Option<isize> {
        if self.heap.is_some() {
            return None;
        }
        let all = self.memory.bytes();
        let (before, after) = (&all[..self.from], &all[self.to..]);
        let stand = |guards: &[u8]| guards.chunks(PAGE).all(|chunk| *chunk == [GUARD; PAGE][..chunk.len()]);
        if !stand(before) {
            let place = before.iter().rposition(|&byte| byte != GUARD)?;
            return Some(place as isize - self.from as isize);
        }
        if !stand(after) {
            let place = after.iter().position(|&byte| byte != GUARD)?;
            return Some((self.to - self.from + place) as isize);
        }
        None
    }
}

#[cfg(target_os = "linux")]
mod pages {
    use super::PAGE;
    use std::ffi::{c_int, c_long, c_void};

    unsafe extern "C" {
        fn mmap(address: *mut c_void, length: usize, protection: c_int, flags: c_int, file: c_int, offset: c_long) -> *mut c_void;
        fn mprotect(address: *mut c_void, length: usize, protection: c_int) -> c_int;
        fn munmap(address: *mut c_void, length: usize) -> c_int;
    }

    const NONE: c_int = 0;
    const READ_AND_WRITE: c_int = 3;
    const PRIVATE_AND_ANONYMOUS: c_int = 0x22;

    /// Pages of memory between two stretches that may not be touched.
    pub struct Pages {
        start: *mut u8,
        size: usize,
    }

    const GUARD_SIZE: usize = 16 * PAGE;

    impl Pages {
        pub fn new(size: usize) -> Pages {
            let whole = size + 2 * GUARD_SIZE;
            // SAFETY: a new private mapping touches no memory that is in use, and mprotect is given a part of it.
            unsafe {
                let start = mmap(std::ptr::null_mut(), whole, NONE, PRIVATE_AND_ANONYMOUS, -1, 0);
                assert!(start as isize != -1, "the system gives no memory for a guarded buffer");
                let start = start.cast::<u8>().add(GUARD_SIZE);
                assert_eq!(mprotect(start.cast(), size, READ_AND_WRITE), 0);
                Pages { start, size }
            }
        }

        pub fn bytes(&self) -> &[u8] {
            // SAFETY: `size` bytes from `start` are mapped, set to zero by the system, and owned by this value.
            unsafe { std::slice::from_raw_parts(self.start, self.size) }
        }

        pub fn bytes_mut(&mut self) -> &mut [u8] {
            // SAFETY: as above, and the borrow is the only one.
            unsafe { std::slice::from_raw_parts_mut(self.start, self.size) }
        }
    }

    impl Drop for Pages {
        fn drop(&mut self) {
            // SAFETY: this is the mapping that `new` made, and nothing borrows it any more.
            unsafe {
                munmap(self.start.sub(GUARD_SIZE).cast(), self.size + 2 * GUARD_SIZE);
            }
        }
    }
}

#[cfg(not(target_os = "linux"))]
mod pages {
    /// Memory of the heap; only the guard bytes are there.
    pub struct Pages(Vec<u8>);

    impl Pages {
        pub fn new(size: usize) -> Pages {
            Pages(vec![0; size])
        }

        pub fn bytes(&self) -> &[u8] {
            &self.0
        }

        pub fn bytes_mut(&mut self) -> &mut [u8] {
            &mut self.0
        }
    }
}

#[cfg(test)]
mod tests {
    use super::*;

    #[test]
    fn a_buffer_lies_at_either_end() {
        let mut pen = Pen::new(100);
        for place in [Place::End, Place::Beginning, Place::Heap, Place::End] {
            pen.put(b"buffer", place);
            assert_eq!(pen.bytes(), b"buffer");
            assert_eq!(pen.stray(), None);
        }
        pen.put(&[7; 10_000], Place::End);
        assert_eq!((pen.bytes().len(), pen.stray()), (10_000, None));
    }

    #[test]
    fn a_number_is_lent() {
        let mut pen = Pen::new(8);
        for place in [Place::End, Place::Beginning, Place::Heap] {
            pen.put_number(7, place);
            *pen.number_mut() += 1;
            assert_eq!((pen.number(), pen.stray()), (8, None));
            *pen.signed_mut() = -1;
            assert_eq!((pen.number(), pen.stray()), (u64::MAX, None));
        }
    }

    #[test]
    fn a_stray_byte_is_seen() {
        let mut pen = Pen::new(100);
        pen.put(b"buffer", Place::Beginning);
        pen.memory.bytes_mut()[6] = 0;
        assert_eq!(pen.stray(), Some(6));
        let mut pen = Pen::new(100);
        pen.put(b"buffer", Place::End);
        let before = pen.from - 1;
        pen.memory.bytes_mut()[before] = 0;
        assert_eq!(pen.stray(), Some(-1));
    }
}
