//! Corners of batches where a reader easily goes wrong. The test program counts how often the drawn batches
//! touch each.
#![forbid(unsafe_code)]

use crate::parts::MOST_NOTES;
use crate::second_parser::{Judgement, LONGEST_NOTE};
use crate::second_reader::Lessons;
use allstar::calls::Answer;

/// A note of a batch that was drawn, and its answer.
pub struct Note<'a> {
    pub tokens: &'a [u16],
    pub judgement: &'a Judgement,
    pub answer: Answer,
    /// What was learned; none after 8, 9 and 11.
    pub lessons: Option<Lessons>,
    /// The states held before it.
    pub held: usize,
    /// It stood in the batch before.
    pub is_repeated: bool,
}

impl Note<'_> {
    pub fn is(&self, number: u32) -> bool {
        self.answer.number == number
    }

    fn learns(&self, test: impl Fn(&Lessons) -> bool) -> bool {
        self.lessons.as_ref().is_some_and(test)
    }

    fn count(&self) -> usize {
        self.judgement.derivation.entries.len()
    }
}

/// A batch that was drawn, over a cache that was begun for its grammar.
pub struct Drawn<'a> {
    pub notes: Vec<Note<'a>>,
    pub part: usize,
    pub workspace: usize,
    pub slots: usize,
    /// Calls over the cache before this one: batches, and single readings.
    pub batches: usize,
    pub singles: usize,
    /// The whole batch was read before.
    pub is_repeated: bool,
}

impl Drawn<'_> {
    fn any(&self, test: impl FnMut(&Note) -> bool) -> bool {
        self.notes.iter().any(test)
    }

    fn all(&self, test: impl Fn(&Note) -> bool) -> bool {
        self.notes.iter().all(test)
    }

    /// Some note of the one kind, and behind it, near or far, one of the other.
    fn behind(&self, first: impl Fn(&Note) -> bool, then: impl Fn(&Note) -> bool) -> bool {
        let mut notes = self.notes.iter();
        notes.by_ref().any(first) && notes.any(then)
    }

    /// A refused note, and behind it one that is accepted.
    fn goes_on(&self, number: u32) -> bool {
        self.behind(|note| note.is(number), |note| note.is(0))
    }

    /// Two neighbours.
    fn side_by_side(&self, test: impl Fn(&Note, &Note) -> bool) -> bool {
        self.notes.windows(2).any(|pair| test(&pair[0], &pair[1]))
    }
}

/// A name for reports, and whether a batch touches it.
pub type Corner = (&'static str, fn(&Drawn) -> bool);

pub const CORNERS: [Corner; 42] = [
    ("one note", |it| it.notes.len() == 1),
    ("63 notes", |it| it.notes.len() == MOST_NOTES - 1),
    ("64 notes", |it| it.notes.len() == MOST_NOTES),
    ("64 notes, the last accepted", |it| {
        it.notes.len() == MOST_NOTES && it.notes[MOST_NOTES - 1].is(0)
    }),
    ("all accepted", |it| {
        it.notes.len() > 1 && it.all(|note| note.is(0))
    }),
    ("all refused", |it| {
        it.notes.len() > 1 && it.all(|note| !note.is(0))
    }),
    ("8, and accepted behind it", |it| it.goes_on(8)),
    ("9, and accepted behind it", |it| it.goes_on(9)),
    ("10, and accepted behind it", |it| it.goes_on(10)),
    ("11, and accepted behind it", |it| it.goes_on(11)),
    ("14, and accepted behind it", |it| it.goes_on(14)),
    ("three refusals among accepted ones", |it| {
        let found = [8, 9, 10, 11, 14].map(|number| it.any(|note| note.is(number)));
        it.any(|note| note.is(0)) && found.iter().filter(|found| **found).count() >= 3
    }),
    ("9 behind another note's tokens", |it| {
        it.behind(|note| !note.tokens.is_empty(), |note| note.is(9))
    }),
    ("10 behind another note's tokens, at a place above 0", |it| {
        it.behind(
            |note| !note.tokens.is_empty(),
            |note| note.is(10) && note.answer.place > 0,
        )
    }),
    ("10 at the note's end, others behind it", |it| {
        it.side_by_side(|one, other| {
            one.is(10) && one.answer.place == one.tokens.len() as u64 && !other.tokens.is_empty()
        })
    }),
    ("10 that the next note's tokens would make good", |it| {
        it.side_by_side(|one, other| one.is(10) && one.tokens.is_empty() && other.is(0))
    }),
    ("empty note between others", |it| {
        it.notes.windows(3).any(|three| {
            three[1].tokens.is_empty() && !three[0].tokens.is_empty() && !three[2].tokens.is_empty()
        })
    }),
    ("empty note accepted", |it| {
        it.notes.len() > 1 && it.any(|note| note.is(0) && note.tokens.is_empty())
    }),
    ("last note empty", |it| {
        it.notes.len() > 1 && it.notes.last().is_some_and(|note| note.tokens.is_empty())
    }),
    ("128 tokens among others", |it| {
        it.notes.len() > 1 && it.any(|note| note.tokens.len() == LONGEST_NOTE && note.lessons.is_some())
    }),
    ("lengths of more than 65,535 together", |it| {
        it.notes.iter().map(|note| note.tokens.len()).sum::<usize>() > 0xffff
    }),
    (
        "lengths of more than 65,535 together, and accepted behind them",
        |it| {
            let mut sum = 0;
            it.any(|note| {
                let is_far = sum > 0xffff;
                sum += note.tokens.len();
                is_far && note.is(0)
            })
        },
    ),
    ("row of no entries", |it| it.notes.len() > 1 && it.part == 0),
    ("part just long enough, and accepted behind it", |it| {
        it.behind(|note| note.is(0) && note.count() == it.part, |note| note.is(0))
    }),
    ("part one entry too short, and accepted behind it", |it| {
        it.behind(
            |note| note.is(14) && note.count() == it.part + 1,
            |note| note.is(0),
        )
    }),
    ("14 where two parts would do", |it| {
        it.notes.len() > 1 && it.any(|note| note.is(14) && note.count() <= 2 * it.part)
    }),
    ("accepted in a last part just long enough", |it| {
        let last = it.notes.last().expect("a note");
        it.notes.len() > 1 && last.is(0) && last.count() == it.part
    }),
    ("accepted in working space just long enough", |it| {
        it.notes.len() > 1 && it.any(|note| note.is(0) && note.judgement.space == it.workspace)
    }),
    (
        "accepted in working space that is too short for a part each",
        |it| {
            let count = it.notes.len();
            count > 1 && it.any(|note| note.is(0) && note.judgement.space > it.workspace / count)
        },
    ),
    ("something learned by two notes", |it| {
        it.behind(
            |note| note.learns(|it| it.worked > 0),
            |note| note.learns(|it| it.worked > 0),
        )
    }),
    ("new states by two notes", |it| {
        it.behind(
            |note| note.learns(|it| it.new_states > 0),
            |note| note.learns(|it| it.new_states > 0),
        )
    }),
    ("learned by one, taken by a later one", |it| {
        it.behind(
            |note| note.held == 0 && note.learns(|it| it.new_states > 0),
            |note| note.learns(|it| it.worked == 0 && it.recorded > 0),
        )
    }),
    ("learned by a note that is refused, taken by a later one", |it| {
        it.behind(
            |note| !note.is(0) && note.held == 0 && note.learns(|it| it.new_states > 0),
            |note| note.is(0) && note.learns(|it| it.recorded > 0),
        )
    }),
    ("the last slot taken, and a later note finds none", |it| {
        it.behind(
            |note| note.held < it.slots && note.learns(|lessons| note.held + lessons.new_states == it.slots),
            |note| note.learns(|it| it.out_of_slots > 0),
        )
    }),
    ("a note twice, accepted, nothing learned", |it| {
        it.any(|note| note.is_repeated && note.is(0) && note.learns(|it| it.worked == 0))
    }),
    ("a note twice, 10", |it| {
        it.any(|note| note.is_repeated && note.is(10))
    }),
    ("a note twice, 14", |it| {
        it.any(|note| note.is_repeated && note.is(14))
    }),
    ("behind single readings", |it| it.singles > 0),
    ("behind a batch and a single reading, and learned", |it| {
        it.batches > 0 && it.singles > 0 && it.any(|note| note.learns(|it| it.worked > 0))
    }),
    ("behind another batch that taught", |it| {
        it.batches > 0 && it.notes[0].held > 0
    }),
    ("the same batch again", |it| it.is_repeated && it.notes.len() > 1),
    ("nothing to learn", |it| {
        it.notes.len() > 1 && it.any(|note| note.is(0)) && it.all(|note| !note.learns(|it| it.worked > 0))
    }),
];
