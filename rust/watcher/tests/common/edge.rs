//! Words that end where memory begins that may not be touched: a read or a write behind them ends the
//! process.

use std::ffi::{c_int, c_void};
use std::{ptr, slice};

extern "C" {
    fn mmap(
        at: *mut c_void,
        bytes: usize,
        protection: c_int,
        flags: c_int,
        file: c_int,
        offset: i64,
    ) -> *mut c_void;
    fn mprotect(at: *mut c_void, bytes: usize, protection: c_int) -> c_int;
    fn munmap(at: *mut c_void, bytes: usize) -> c_int;
}

/// Nothing may be done there.
const NONE: c_int = 0;
/// Reads and writes.
const BOTH: c_int = 1 | 2;
/// Memory of this process alone, without a file.
const PRIVATE: c_int = 0x02 | 0x20;

/// A multiple of the size of a page.
const PAGES: usize = 1 << 16;

/// Words at the edge of memory.
pub struct Edge {
    begin: *mut c_void,
    /// The bytes of both parts.
    bytes: usize,
    words: *mut u16,
    len: usize,
}

impl Edge {
    /// How many words behind the edge may not be touched.
    pub const BEHIND: usize = PAGES / size_of::<u16>();

    /// A copy of these words.
    pub fn new(words: &[u16]) -> Edge {
        let open = size_of_val(words).next_multiple_of(PAGES);
        let bytes = open + PAGES;
        // SAFETY: memory that nobody has is asked for. Its first part may be used, and the copy ends where
        // that does: inside, since `open` is enough, and aligned, since the edge is.
        unsafe {
            let begin = mmap(ptr::null_mut(), bytes, BOTH, PRIVATE, -1, 0);
            assert_ne!(begin as isize, -1, "no memory");
            let edge = begin.byte_add(open);
            assert_eq!(mprotect(edge, PAGES, NONE), 0);
            let copy = edge.cast::<u16>().sub(words.len());
            ptr::copy_nonoverlapping(words.as_ptr(), copy, words.len());
            Edge {
                begin,
                bytes,
                words: copy,
                len: words.len(),
            }
        }
    }

    /// The words, up to the edge.
    pub fn words(&self) -> &[u16] {
        // SAFETY: `new` has written them, and nobody else knows them.
        unsafe { slice::from_raw_parts(self.words, self.len) }
    }
}

impl Drop for Edge {
    fn drop(&mut self) {
        // SAFETY: what `new` was given, once; no reference to it lives on.
        let done = unsafe { munmap(self.begin, self.bytes) };
        assert_eq!(done, 0);
    }
}
