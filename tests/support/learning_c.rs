//! The calls of the crate learning_c, which exists for the tests: single starts and steps.  Unsafe
//! code for nothing else.

#[link(name = "learning_c", kind = "static")]
extern "C" {
    fn learning_start(
        grammar: *const u8,
        grammar_length: usize,
        cache: *mut u32,
        cache_length: usize,
        decision: u32,
    ) -> u32;

    fn learning_step(
        grammar: *const u8,
        grammar_length: usize,
        cache: *mut u32,
        cache_length: usize,
        state: u32,
        token: u32,
    ) -> u32;
}

/// Asks a cache for the start of a decision: the word of the outcome, or 0 for a question that makes
/// no sense.
pub fn start(grammar: &[u8], cache: &mut [u32], decision: u32) -> u32 {
    // SAFETY: the grammar is valid for reads and the cache for reads and writes of that many elements
    // (an empty slice has a non-null, dangling pointer), they do not overlap, and the library keeps
    // neither.
    unsafe {
        learning_start(
            grammar.as_ptr(),
            grammar.len(),
            cache.as_mut_ptr(),
            cache.len(),
            decision,
        )
    }
}

/// Asks a cache for the step from a state over a token.
pub fn step(grammar: &[u8], cache: &mut [u32], state: u32, token: u32) -> u32 {
    // SAFETY: as above.
    unsafe {
        learning_step(
            grammar.as_ptr(),
            grammar.len(),
            cache.as_mut_ptr(),
            cache.len(),
            state,
            token,
        )
    }
}
