//! Corners of the plain reading where a reader easily goes wrong.  The test program counts how often
//! the drawn readings touch each.
#![forbid(unsafe_code)]

use allstar::calls::Answer;
use crate::second_parser::{space, Judgement, LONGEST_NOTE};
use crate::tree::Grammar;

/// A reading that was drawn, and its answer.
pub struct Drawn<'a> {
    /// None if refused with 1 to 5.
    pub grammar: Option<&'a Grammar>,
    pub note: &'a [u16],
    pub row: usize,
    pub workspace: usize,
    pub judgement: &'a Judgement,
    pub answer: Answer,
}

impl Drawn<'_> {
    fn is(&self, number: u32) -> bool {
        self.answer.number == number
    }

    /// Refused with this number at this place.
    fn is_at(&self, number: u32, place: usize) -> bool {
        self.is(number) && self.answer.place == place as u64
    }

    fn count(&self) -> usize {
        self.judgement.derivation.entries.len()
    }

    fn places(&self) -> usize {
        self.grammar.map_or(0, Grammar::places)
    }

    fn kinds(&self) -> u16 {
        self.grammar.map_or(0, |grammar| grammar.kinds as u16)
    }

    fn space(&self) -> usize {
        space(self.places(), self.note.len())
    }

    /// The token at the place of refusal 9.
    fn unknown(&self) -> Option<u16> {
        self.is(9).then(|| self.note[self.answer.place as usize])
    }

    /// What would be answered if the working space were long enough.
    fn with_space(&self) -> u32 {
        self.judgement.answer(self.row, self.space()).number
    }
}

/// A name for reports, and whether a reading touches it.
pub type Corner = (&'static str, fn(&Drawn) -> bool);

pub const CORNERS: [Corner; 37] = [
    ("accepted, row just long enough", |it| {
        it.is(0) && it.row == it.count()
    }),
    ("accepted, one entry left over", |it| {
        it.is(0) && it.row == it.count() + 1
    }),
    ("accepted, 100 entries left over", |it| {
        it.is(0) && it.row >= it.count() + 100
    }),
    ("accepted, working space just long enough", |it| {
        it.is(0) && it.workspace == it.space()
    }),
    ("accepted, empty note", |it| it.is(0) && it.note.is_empty()),
    ("accepted, empty note, many entries", |it| {
        it.is(0) && it.note.is_empty() && it.count() >= 100
    }),
    ("accepted, 128 tokens", |it| {
        it.is(0) && it.note.len() == LONGEST_NOTE
    }),
    ("accepted, 255 places", |it| it.is(0) && it.places() == 255),
    ("accepted, 255 places, over 100 tokens", |it| {
        it.is(0) && it.places() == 255 && it.note.len() > 100
    }),
    ("accepted, 1,000 entries", |it| {
        it.is(0) && it.count() >= 1_000
    }),
    ("accepted, more derivations than one", |it| {
        it.is(0) && it.judgement.derivation.is_ambiguous
    }),
    ("accepted, one derivation", |it| {
        it.is(0) && it.count() > 3 && !it.judgement.derivation.is_ambiguous
    }),
    (
        "accepted, a lower alternative fits but not what is open",
        |it| it.is(0) && it.judgement.derivation.passes_over,
    ),
    ("refused with 1 to 7, note too long", |it| {
        (1..=7).contains(&it.answer.number) && it.note.len() > LONGEST_NOTE
    }),
    ("refused with 1 to 7, token 0", |it| {
        (1..=7).contains(&it.answer.number) && it.note.contains(&0)
    }),
    ("refused with 1 to 7, no working space", |it| {
        (1..=7).contains(&it.answer.number) && it.workspace == 0
    }),
    ("8, 129 tokens", |it| {
        it.is(8) && it.note.len() == LONGEST_NOTE + 1
    }),
    ("8, unknown token", |it| {
        it.is(8)
            && it
                .note
                .iter()
                .any(|&token| token == 0 || token > it.kinds())
    }),
    ("8, no working space", |it| it.is(8) && it.workspace == 0),
    ("9, token 0", |it| it.unknown() == Some(0)),
    ("9, just above the highest kind", |it| {
        it.unknown() == Some(it.kinds() + 1)
    }),
    ("9, token 65,535", |it| it.unknown() == Some(u16::MAX)),
    ("9 at the last token", |it| {
        it.is_at(9, it.note.len().wrapping_sub(1)) && it.note.len() > 1
    }),
    ("9, a second unknown token behind it", |it| {
        it.is(9) && it.note[it.answer.place as usize + 1..].contains(&0)
    }),
    ("9, working space too short", |it| {
        it.is(9) && it.workspace < it.space()
    }),
    ("11, one word too little", |it| {
        it.is(11) && it.workspace == it.space() - 1
    }),
    ("11, no words", |it| it.is(11) && it.workspace == 0),
    ("11, no sentence", |it| it.is(11) && it.with_space() == 10),
    ("11, row too short", |it| it.is(11) && it.with_space() == 14),
    ("10 at the first token", |it| {
        it.is_at(10, 0) && !it.note.is_empty()
    }),
    ("10 inside", |it| {
        it.is(10) && (1..it.note.len() as u64).contains(&it.answer.place)
    }),
    ("10 at the end", |it| {
        it.is_at(10, it.note.len()) && !it.note.is_empty()
    }),
    ("10 at the end of 128 tokens", |it| {
        it.is_at(10, it.note.len()) && it.note.len() == LONGEST_NOTE
    }),
    ("10, row of no entries", |it| it.is(10) && it.row == 0),
    ("14, one entry too few", |it| {
        it.is(14) && it.row + 1 == it.count() && it.judgement.derivation.is_complete
    }),
    ("14, row of no entries", |it| it.is(14) && it.row == 0),
    ("14, more entries than were asked for", |it| {
        it.is(14) && !it.judgement.derivation.is_complete
    }),
];
