//! Bytes and words that end where a page without access begins: whoever fetches one behind them is
//! stopped by the machine, and so is whoever writes to those that are lent to be looked at alone.
//! Unsafe code for nothing else.

use crate::ffi;
use allstar::calls::Verdict;
use std::ffi::c_void;
use std::ptr;

// As <sys/mman.h> of x86-64 Linux has them.
const PROT_NONE: i32 = 0;
const PROT_READ: i32 = 1;
const PROT_WRITE: i32 = 2;
const MAP_PRIVATE: i32 = 0x02;
const MAP_ANONYMOUS: i32 = 0x20;

extern "C" {
    fn mmap(
        at: *mut c_void,
        length: usize,
        access: i32,
        kind: i32,
        file: i32,
        from: i64,
    ) -> *mut c_void;
    fn mprotect(at: *mut c_void, length: usize, access: i32) -> i32;
}

const PAGE: usize = 4_096;

/// How many bytes at most are said to stand behind the fence.
pub const BEHIND: usize = 16 * PAGE;

pub struct Fence {
    /// The first byte of the first page without access.
    at: *mut u8,
    /// How many bytes may be laid before it.
    before: usize,
}

impl Fence {
    /// With room for a page of bytes.
    pub fn new() -> Fence {
        Fence::with_room(PAGE)
    }

    /// With room for at least so many bytes.
    pub fn with_room(bytes: usize) -> Fence {
        let before = bytes.next_multiple_of(PAGE).max(PAGE);
        // SAFETY: new memory at no place that is asked for, without access; and access to its first
        // pages, which nobody else knows.
        unsafe {
            let kind = MAP_PRIVATE | MAP_ANONYMOUS;
            let start = mmap(ptr::null_mut(), before + BEHIND, PROT_NONE, kind, -1, 0);
            assert!(start as isize != -1, "no memory for the fence");
            let opened = mprotect(start, before, PROT_READ | PROT_WRITE);
            assert!(opened == 0, "no access before the fence");
            Fence {
                at: start.cast::<u8>().add(before),
                before,
            }
        }
    }

    /// Lets what stands before the fence be written, or be read alone.
    fn open(&mut self, access: i32) {
        // SAFETY: the pages are those of this fence, and no reference to them is kept by anybody.
        let opened = unsafe { mprotect(self.at.sub(self.before).cast(), self.before, access) };
        assert!(opened == 0, "no access before the fence");
    }

    /// Lays a row that ends at the fence and can be read alone, and answers where it starts.
    fn lay<T: Copy>(&mut self, row: &[T]) -> *const T {
        let bytes = size_of_val(row);
        assert!(bytes <= self.before);
        self.open(PROT_READ | PROT_WRITE);
        // SAFETY: the row fits before the fence, which is aligned for any type, and only this call
        // writes there.
        let start = unsafe {
            let start = self.at.sub(bytes).cast::<T>();
            ptr::copy_nonoverlapping(row.as_ptr(), start, row.len());
            start
        };
        self.open(PROT_READ);
        start
    }

    /// Audits a cache by a grammar: both end at a fence, and neither can be written.
    pub fn audit(
        of_grammar: &mut Fence,
        of_cache: &mut Fence,
        grammar: &[u8],
        cache: &[u32],
    ) -> Verdict {
        let mut place = u64::MAX;
        let (bytes, words) = (of_grammar.lay(grammar), of_cache.lay(cache));
        // SAFETY: both rows have been laid and are valid for reads; the library is given pointers and
        // lengths and keeps none of them.
        let number =
            unsafe { ffi::allstar_audit(bytes, grammar.len(), words, cache.len(), &mut place) };
        Verdict { number, place }
    }

    /// Checks the grammar that begins with these bytes and has `behind` more: none of those can be
    /// fetched.
    pub fn check(&mut self, before: &[u8], behind: usize) -> Verdict {
        assert!(before.len() <= self.before && behind <= BEHIND);
        self.open(PROT_READ | PROT_WRITE);
        let mut place = u64::MAX;
        // SAFETY: the bytes fit before the fence, where only this call writes. The library is given a
        // pointer and a length and keeps neither; that it fetches nothing behind the fence is what is
        // tried, and no reference is made to what stands there.
        let number = unsafe {
            let start = self.at.sub(before.len());
            ptr::copy_nonoverlapping(before.as_ptr(), start, before.len());
            ffi::allstar_check(start, before.len() + behind, &mut place)
        };
        Verdict { number, place }
    }
}
