//! The library's calls as C has them: the one place where Rust declares them. A test compares it with
//! `include/allstar.h`, which has every rule of the calls.

extern "C" {
    pub fn allstar_version() -> u32;

    pub fn allstar_check(grammar: *const u8, length: usize, place: *mut u64) -> u32;

    pub fn allstar_measure(
        grammar: *const u8,
        length: usize,
        place: *mut u64,
        kinds: *mut u64,
        nonterminals: *mut u64,
        places: *mut u64,
    ) -> u32;

    pub fn allstar_begin(
        grammar: *const u8,
        grammar_length: usize,
        cache: *mut u32,
        cache_length: usize,
        place: *mut u64,
    ) -> u32;

    pub fn allstar_plain(
        grammar: *const u8,
        grammar_length: usize,
        note: *const u16,
        note_length: usize,
        row: *mut u16,
        row_length: usize,
        workspace: *mut u32,
        workspace_length: usize,
        place: *mut u64,
        count: *mut u64,
    ) -> u32;

    pub fn allstar_quick(
        grammar: *const u8,
        grammar_length: usize,
        note: *const u16,
        note_length: usize,
        row: *mut u16,
        row_length: usize,
        cache: *mut u32,
        cache_length: usize,
        workspace: *mut u32,
        workspace_length: usize,
        place: *mut u64,
        count: *mut u64,
    ) -> u32;

    pub fn allstar_batch(
        grammar: *const u8,
        grammar_length: usize,
        tokens: *const u16,
        tokens_length: usize,
        lengths: *const u16,
        lengths_length: usize,
        answers: *mut u64,
        answers_length: usize,
        row: *mut u16,
        row_length: usize,
        cache: *mut u32,
        cache_length: usize,
        workspace: *mut u32,
        workspace_length: usize,
        place: *mut u64,
    ) -> u32;

    pub fn allstar_audit(
        grammar: *const u8,
        grammar_length: usize,
        cache: *const u32,
        cache_length: usize,
        place: *mut u64,
    ) -> u32;

    pub fn allstar_split(
        line: *const u8,
        line_length: usize,
        words: *const u8,
        words_length: usize,
        tokens: *mut u16,
        tokens_length: usize,
        place: *mut u64,
        count: *mut u64,
    ) -> u32;
}
