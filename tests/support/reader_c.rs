//! The call of the crate reader_c, which exists for the tests: how many bytes of a grammar are
//! fetched.  Unsafe code for nothing else.

#[link(name = "reader_c", kind = "static")]
extern "C" {
    fn reader_count(grammar: *const u8, length: usize) -> u64;
}

/// How many bytes the pass over a grammar fetches.
pub fn count(grammar: &[u8]) -> usize {
    // SAFETY: the pointer is valid for reads of that many bytes (an empty slice has a non-null,
    // dangling one), and the library does not keep it.
    unsafe { reader_count(grammar.as_ptr(), grammar.len()) as usize }
}
