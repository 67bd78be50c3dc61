//! What is lent to the library, as a part of a longer row, and a copy from before the call: a change
//! of what must not change is seen, and so is a write beyond the lent part.
#![forbid(unsafe_code)]

use std::hint::black_box;

pub struct Lent<T> {
    whole: Vec<T>,
    copy: Vec<T>,
    start: usize,
    end: usize,
}

impl<T: Copy + PartialEq> Lent<T> {
    pub fn new() -> Lent<T> {
        Lent {
            whole: Vec::new(),
            copy: Vec::new(),
            start: 0,
            end: 0,
        }
    }

    /// What is lent next, and what stands around it.
    pub fn lay(&mut self, before: &[T], part: &[T], behind: &[T]) {
        self.whole.clear();
        self.whole.extend_from_slice(before);
        self.whole.extend_from_slice(part);
        self.whole.extend_from_slice(behind);
        self.copy.clone_from(&self.whole);
        (self.start, self.end) = (before.len(), before.len() + part.len());
    }

    /// The lent part.
    pub fn part(&mut self) -> &mut [T] {
        &mut self.whole[self.start..self.end]
    }

    /// Whether the lent part and all around it are as they were.
    pub fn is_unchanged(&mut self) -> bool {
        // The compiler must not take it for granted that nothing was written.
        *black_box(&mut self.whole) == self.copy
    }

    /// Whether all around the lent part is as it was.
    pub fn is_unchanged_around(&mut self) -> bool {
        let whole = black_box(&mut self.whole);
        whole[..self.start] == self.copy[..self.start] && whole[self.end..] == self.copy[self.end..]
    }
}
