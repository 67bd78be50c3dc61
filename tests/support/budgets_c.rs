//! The calls of the crate budgets_c, which exists for the tests: both readings with a cap on what the
//! search for ends may spend.  Unsafe code for nothing else.

use allstar::calls::Answer;

#[link(name = "budgets_c", kind = "static")]
extern "C" {
    fn budget_plain(
        grammar: *const u8,
        grammar_length: usize,
        note: *const u16,
        note_length: usize,
        row: *mut u16,
        row_length: usize,
        workspace: *mut u32,
        workspace_length: usize,
        most: u32,
        place: *mut u64,
        count: *mut u64,
    ) -> u32;

    fn budget_quick(
        grammar: *const u8,
        grammar_length: usize,
        note: *const u16,
        note_length: usize,
        row: *mut u16,
        row_length: usize,
        cache: *mut u32,
        cache_length: usize,
        workspace: *mut u32,
        workspace_length: usize,
        most: u32,
        place: *mut u64,
        count: *mut u64,
    ) -> u32;
}

/// What no call stores: one that stores nothing, or only half of it, is seen.
const NONE: u64 = u64::MAX;

/// The plain reading, whose search may spend at most so many units of work.
pub fn plain(
    grammar: &[u8],
    note: &[u16],
    row: &mut [u16],
    workspace: &mut [u32],
    most: u32,
) -> Answer {
    let (mut place, mut count) = (NONE, NONE);
    // SAFETY: grammar and note are valid for reads and row and working space for reads and writes of
    // that many elements (an empty slice has a non-null, dangling pointer), `place` and `count` are
    // valid for a write, no two of them overlap, and the library keeps none.
    let number = unsafe {
        budget_plain(
            grammar.as_ptr(),
            grammar.len(),
            note.as_ptr(),
            note.len(),
            row.as_mut_ptr(),
            row.len(),
            workspace.as_mut_ptr(),
            workspace.len(),
            most,
            &mut place,
            &mut count,
        )
    };
    Answer {
        number,
        place,
        count,
    }
}

/// The quick reading, likewise.
pub fn quick(
    grammar: &[u8],
    note: &[u16],
    row: &mut [u16],
    cache: &mut [u32],
    workspace: &mut [u32],
    most: u32,
) -> Answer {
    let (mut place, mut count) = (NONE, NONE);
    // SAFETY: as above; the cache is valid for reads and writes too.
    let number = unsafe {
        budget_quick(
            grammar.as_ptr(),
            grammar.len(),
            note.as_ptr(),
            note.len(),
            row.as_mut_ptr(),
            row.len(),
            cache.as_mut_ptr(),
            cache.len(),
            workspace.as_mut_ptr(),
            workspace.len(),
            most,
            &mut place,
            &mut count,
        )
    };
    Answer {
        number,
        place,
        count,
    }
}
