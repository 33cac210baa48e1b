//! Memory to lend to the library under test.

use std::ffi::{c_int, c_void};

extern "C" {
    fn mmap(
        at: *mut c_void,
        length: usize,
        prot: c_int,
        flags: c_int,
        fd: c_int,
        offset: i64,
    ) -> *mut c_void;
    fn mprotect(at: *mut c_void, length: usize, prot: c_int) -> c_int;
    fn munmap(at: *mut c_void, length: usize) -> c_int;
}

// Linux on x86-64, as the archive is.
const PAGE: usize = 4096;
const NONE: c_int = 0;
const READ_WRITE: c_int = 3;
const PRIVATE_ANONYMOUS: c_int = 0x22;

const MARGIN: usize = 64;
const MARK: u8 = 0xA5;

/// A slice that lies flush with a page that cannot be read or written, so that one byte read or
/// written beyond its end ends the test; on its other side a margin shows what was written there.
/// Its first byte lies on no multiple of anything.
pub struct Lent {
    map: *mut u8,
    room: usize,
    start: usize,
    length: usize,
}

#[derive(Clone, Copy, Debug, PartialEq, Eq)]
pub enum Flush {
    Start,
    End,
}

impl Lent {
    pub fn new(room: usize) -> Lent {
        let room = (room + MARGIN).next_multiple_of(PAGE);
        // A fresh private mapping of its own; the two guard pages are part of it.
        unsafe {
            let null = std::ptr::null_mut();
            let map = mmap(null, room + 2 * PAGE, READ_WRITE, PRIVATE_ANONYMOUS, -1, 0);
            assert!(map.addr() != usize::MAX, "no memory to lend");
            let map = map.cast::<u8>();
            assert_eq!(mprotect(map.cast(), PAGE, NONE), 0);
            assert_eq!(mprotect(map.add(PAGE + room).cast(), PAGE, NONE), 0);
            Lent { map, room, start: PAGE, length: 0 }
        }
    }

    /// Lends a copy of `bytes` in place of what was lent before.
    pub fn lend(&mut self, bytes: &[u8], flush: Flush) -> &mut [u8] {
        if bytes.len() + MARGIN > self.room {
            *self = Lent::new(bytes.len());
        }
        self.length = bytes.len();
        self.start = match flush {
            Flush::Start => PAGE,
            Flush::End => PAGE + self.room - self.length,
        };
        self.margin_mut().fill(MARK);
        self.bytes_mut().copy_from_slice(bytes);
        self.bytes_mut()
    }

    /// Lends a copy of `words`: in bytes a multiple of 8, they lie on one too.
    pub fn lend_words<const K: usize>(&mut self, words: &[u64; K], flush: Flush) -> &mut [u64; K] {
        let bytes = words.map(u64::to_ne_bytes);
        let lent = self.lend(bytes.as_flattened(), flush);
        assert!(lent.as_ptr().cast::<u64>().is_aligned());
        // So many bytes, and any of them are words.
        unsafe { &mut *lent.as_mut_ptr().cast() }
    }

    fn margin_start(&self) -> usize {
        if self.start == PAGE {
            self.start + self.length
        } else {
            self.start - MARGIN
        }
    }

    fn margin_mut(&mut self) -> &mut [u8] {
        // Within the mapping: `room` holds the slice and a margin.
        unsafe { std::slice::from_raw_parts_mut(self.map.add(self.margin_start()), MARGIN) }
    }

    pub fn margin_kept(&self) -> bool {
        let margin =
            unsafe { std::slice::from_raw_parts(self.map.add(self.margin_start()), MARGIN) };
        margin.iter().all(|&byte| byte == MARK)
    }

    pub fn bytes(&self) -> &[u8] {
        unsafe { std::slice::from_raw_parts(self.map.add(self.start), self.length) }
    }

    pub fn bytes_mut(&mut self) -> &mut [u8] {
        unsafe { std::slice::from_raw_parts_mut(self.map.add(self.start), self.length) }
    }
}

impl Drop for Lent {
    fn drop(&mut self) {
        unsafe { munmap(self.map.cast(), self.room + 2 * PAGE) };
    }
}
