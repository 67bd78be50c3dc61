//! The calls of the library one by one, safe, over slices of any length: what they answer is number, place
//! and count as the C header tells them, and nothing is looked at or sized beforehand. Most programs want
//! [`Grammar`](crate::Grammar) and [`Cache`](crate::Cache) instead.
//!
//! All unsafe code of this package is here.

use crate::ffi;
use std::fmt;

/// What [`check`], [`begin`], [`batch`] and [`audit`] answer.
#[derive(Clone, Copy, Debug, PartialEq, Eq)]
pub struct Verdict {
    /// 0, or the number of the refusal.
    pub number: u32,
    /// The place of the refusal, or 0.
    pub place: u64,
}

impl fmt::Display for Verdict {
    fn fmt(&self, out: &mut fmt::Formatter) -> fmt::Result {
        match (self.number, self.place) {
            (0, 0) => out.pad("sound"),
            (number, place) => out.pad(&format!("{number} at {place}")),
        }
    }
}

/// What [`measure`] answers.
#[derive(Clone, Copy, Debug, PartialEq, Eq)]
pub struct Measure {
    /// 0, or the number of the refusal: the answer of [`check`].
    pub number: u32,
    /// The place of the refusal, or 0.
    pub place: u64,
    /// The highest token kind; 0 where refused.
    pub kinds: u64,
    /// How many nonterminals there are; 0 where refused.
    pub nonterminals: u64,
    /// How many places there are: m + 1 in a production of m symbols; 0 where refused.
    pub places: u64,
}

/// What [`plain`], [`quick`] and [`split`] answer.
#[derive(Clone, Copy, Debug, PartialEq, Eq)]
pub struct Answer {
    /// 0, or the number of the refusal.
    pub number: u32,
    /// The place of the refusal, or 0.
    pub place: u64,
    /// How many entries of the row are the derivation, or the line's tokens; 0 where refused.
    pub count: u64,
}

impl fmt::Display for Answer {
    fn fmt(&self, out: &mut fmt::Formatter) -> fmt::Result {
        out.pad(&match (self.number, self.place, self.count) {
            (0, 0, count) => format!("ok, {count}"),
            (number, place, 0) => format!("{number} at {place}"),
            (number, place, count) => format!("{number} at {place}, {count} entries"),
        })
    }
}

/// What no call stores: one that stores nothing, or only half of it, is seen.
const NONE: u64 = u64::MAX;

/// The version of the library that is linked: major * 10000 + minor * 100 + patch.
#[inline]
pub fn version() -> u32 {
    // SAFETY: the call takes nothing and touches no memory of ours.
    unsafe { ffi::allstar_version() }
}

/// Checks a grammar.
#[inline]
pub fn check(grammar: &[u8]) -> Verdict {
    check_over(grammar, NONE)
}

/// [`check`], the place being stored over `garbage`: no answer hangs on what stood there.
#[inline]
pub fn check_over(grammar: &[u8], garbage: u64) -> Verdict {
    let mut place = garbage;
    // SAFETY: the pointer is valid for reads of that many bytes (an empty slice has a non-null, dangling
    // one), `place` is valid for a write, and the library keeps neither.
    let number = unsafe { ffi::allstar_check(grammar.as_ptr(), grammar.len(), &mut place) };
    Verdict { number, place }
}

/// Checks a grammar and tells how large it is.
#[inline]
pub fn measure(grammar: &[u8]) -> Measure {
    let (mut place, mut kinds, mut nonterminals, mut places) = (NONE, NONE, NONE, NONE);
    // SAFETY: the pointer is valid for reads of that many bytes (an empty slice has a non-null, dangling
    // one), the four numbers are valid for a write and do not overlap, and the library keeps nothing.
    let number = unsafe {
        ffi::allstar_measure(
            grammar.as_ptr(),
            grammar.len(),
            &mut place,
            &mut kinds,
            &mut nonterminals,
            &mut places,
        )
    };
    Measure {
        number,
        place,
        kinds,
        nonterminals,
        places,
    }
}

/// Begins a cache for a grammar.
#[inline]
pub fn begin(grammar: &[u8], cache: &mut [u32]) -> Verdict {
    let mut place = NONE;
    // SAFETY: the grammar is valid for reads and the cache for reads and writes of that many elements (an
    // empty slice has a non-null, dangling pointer), `place` is valid for a write, no two of them overlap,
    // and the library keeps none.
    let number = unsafe {
        ffi::allstar_begin(
            grammar.as_ptr(),
            grammar.len(),
            cache.as_mut_ptr(),
            cache.len(),
            &mut place,
        )
    };
    Verdict { number, place }
}

/// Reads a note without a cache and writes its derivation to the row.
#[inline]
pub fn plain(grammar: &[u8], note: &[u16], row: &mut [u16], workspace: &mut [u32]) -> Answer {
    let (mut place, mut count) = (NONE, NONE);
    // SAFETY: grammar and note are valid for reads and row and working space for reads and writes of that
    // many elements (an empty slice has a non-null, dangling pointer), `place` and `count` are valid for a
    // write, no two of them overlap, and the library keeps none.
    let number = unsafe {
        ffi::allstar_plain(
            grammar.as_ptr(),
            grammar.len(),
            note.as_ptr(),
            note.len(),
            row.as_mut_ptr(),
            row.len(),
            workspace.as_mut_ptr(),
            workspace.len(),
            &mut place,
            &mut count,
        )
    };
    Answer { number, place, count }
}

/// Reads a note over a begun cache, which learns, and writes its derivation to the row.
#[inline]
pub fn quick(
    grammar: &[u8],
    note: &[u16],
    row: &mut [u16],
    cache: &mut [u32],
    workspace: &mut [u32],
) -> Answer {
    let (mut place, mut count) = (NONE, NONE);
    // SAFETY: grammar and note are valid for reads and row, cache and working space for reads and writes of
    // that many elements (an empty slice has a non-null, dangling pointer), `place` and `count` are valid for
    // a write, no two of them overlap, and the library keeps none.
    let number = unsafe {
        ffi::allstar_quick(
            grammar.as_ptr(),
            grammar.len(),
            note.as_ptr(),
            note.len(),
            row.as_mut_ptr(),
            row.len(),
            cache.as_mut_ptr(),
            cache.len(),
            workspace.as_mut_ptr(),
            workspace.len(),
            &mut place,
            &mut count,
        )
    };
    Answer { number, place, count }
}

/// Reads a batch of up to 64 notes over a begun cache, which learns: as many [`quick`] readings, one after the
/// other. The notes' tokens stand in a row and their lengths beside; `answers` takes number, place and count of
/// each note, and the row is cut into equal parts, one for each.
#[inline]
pub fn batch(
    grammar: &[u8],
    tokens: &[u16],
    lengths: &[u16],
    answers: &mut [u64],
    row: &mut [u16],
    cache: &mut [u32],
    workspace: &mut [u32],
) -> Verdict {
    let mut place = NONE;
    let number = batch_at(
        grammar, tokens, lengths, answers, row, cache, workspace, &mut place,
    );
    Verdict { number, place }
}

/// [`batch`], the place being stored where the caller says; answers the number.
#[inline]
#[allow(clippy::too_many_arguments)]
pub fn batch_at(
    grammar: &[u8],
    tokens: &[u16],
    lengths: &[u16],
    answers: &mut [u64],
    row: &mut [u16],
    cache: &mut [u32],
    workspace: &mut [u32],
    place: &mut u64,
) -> u32 {
    // SAFETY: grammar, tokens and lengths are valid for reads and answers, row, cache and working space for
    // reads and writes of that many elements (an empty slice has a non-null, dangling pointer), `place` is
    // valid for a write, no two of them overlap, and the library keeps none.
    unsafe {
        ffi::allstar_batch(
            grammar.as_ptr(),
            grammar.len(),
            tokens.as_ptr(),
            tokens.len(),
            lengths.as_ptr(),
            lengths.len(),
            answers.as_mut_ptr(),
            answers.len(),
            row.as_mut_ptr(),
            row.len(),
            cache.as_mut_ptr(),
            cache.len(),
            workspace.as_mut_ptr(),
            workspace.len(),
            place,
        )
    }
}

/// Audits a cache for a grammar: 0 for a yes, 19 for a no. Nothing is written.
#[inline]
pub fn audit(grammar: &[u8], cache: &[u32]) -> Verdict {
    audit_over(grammar, cache, NONE)
}

/// [`audit`], the place being stored over `garbage`: no answer hangs on what stood there.
#[inline]
pub fn audit_over(grammar: &[u8], cache: &[u32], garbage: u64) -> Verdict {
    let mut place = garbage;
    // SAFETY: grammar and cache are valid for reads of that many elements (an empty slice has a non-null,
    // dangling pointer), `place` is valid for a write and overlaps neither, and the library keeps none.
    let number = unsafe {
        ffi::allstar_audit(
            grammar.as_ptr(),
            grammar.len(),
            cache.as_ptr(),
            cache.len(),
            &mut place,
        )
    };
    Verdict { number, place }
}

/// Makes a note of a typed line: writes the kinds of its words, numbers and marks to `tokens`. The words of the
/// list have kinds of their own.
#[inline]
pub fn split(line: &[u8], words: &[u8], tokens: &mut [u16]) -> Answer {
    let (mut place, mut count) = (NONE, NONE);
    // SAFETY: line and words are valid for reads and the tokens for reads and writes of that many elements (an
    // empty slice has a non-null, dangling pointer), `place` and `count` are valid for a write, no two of them
    // overlap, and the library keeps none.
    let number = unsafe {
        ffi::allstar_split(
            line.as_ptr(),
            line.len(),
            words.as_ptr(),
            words.len(),
            tokens.as_mut_ptr(),
            tokens.len(),
            &mut place,
            &mut count,
        )
    };
    Answer { number, place, count }
}
