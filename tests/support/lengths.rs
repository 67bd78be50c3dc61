//! Lengths of rows and working spaces for drawn readings.
#![forbid(unsafe_code)]

use crate::random::Random;
use crate::second_parser::Judgement;

/// A length about what the derivation takes.
pub fn row_length(random: &mut Random, judgement: &Judgement, longest: usize) -> usize {
    let count = match judgement.derivation.entries.len() {
        // No derivation is known.
        0 => random.between(1, longest),
        count => count,
    };
    let length = match random.below(10) {
        0 => 0,
        1 => 1,
        2 => random.between(0, 30),
        3 => count + random.between(2, 800),
        4 => random.between(0, count),
        5 | 6 => count.saturating_sub(1),
        7 => count + 1,
        _ => count,
    };
    if judgement.derivation.is_complete {
        length
    } else {
        length.min(longest)
    }
}

/// A length about what is just enough.
pub fn workspace_length(random: &mut Random, enough: usize) -> usize {
    match random.below(16) {
        0 => enough - 1,
        1 => 0,
        2 => random.between(0, enough),
        3 => enough + 1,
        4 => enough + random.between(2, 5_000),
        _ => enough,
    }
}
