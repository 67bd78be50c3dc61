//! Corners of lists of quick readings where a reader easily goes wrong.  The test program counts how
//! often the drawn readings touch each.
#![forbid(unsafe_code)]

use allstar::calls::Answer;
use crate::second_parser::{Judgement, LONGEST_NOTE};
use crate::second_reader::{Lessons, Read, Stop};

/// A reading of a list that was drawn, and its answer.
pub struct Drawn<'a> {
    pub note: &'a [u16],
    pub row: usize,
    pub workspace: usize,
    pub judgement: &'a Judgement,
    pub answer: Answer,
    /// What the machine did, and what was learned; none after 8, 9 and 11.
    pub read: Option<(&'a Read, &'a Lessons)>,
    pub slots: usize,
    /// The states held before.
    pub held: usize,
    /// Readings before this one.
    pub earlier: usize,
    /// The note was read before, with a row of the same length, and with another.
    pub is_repeated: bool,
    pub is_read_otherwise: bool,
}

impl Drawn<'_> {
    fn is(&self, number: u32) -> bool {
        self.answer.number == number
    }

    fn stops(&self, stop: Stop) -> bool {
        self.read.is_some_and(|(read, _)| read.stop == stop)
    }

    fn reads(&self, test: impl Fn(&Read) -> bool) -> bool {
        self.read.is_some_and(|(read, _)| test(read))
    }

    fn learns(&self, test: impl Fn(&Lessons) -> bool) -> bool {
        self.read.is_some_and(|(_, lessons)| test(lessons))
    }

    fn count(&self) -> usize {
        self.judgement.derivation.entries.len()
    }
}

/// A name for reports, and whether a reading touches it.
pub type Corner = (&'static str, fn(&Drawn) -> bool);

pub const CORNERS: [Corner; 44] = [
    ("accepted by predictions that name all", |it| {
        it.is(0) && it.reads(|read| read.named > 1 && read.left_open == 0)
    }),
    ("accepted, something left open", |it| {
        it.is(0) && it.reads(|read| read.left_open > 0)
    }),
    ("accepted, left open and not the first taken", |it| {
        it.is(0) && it.reads(|read| read.passed_over > 0)
    }),
    ("accepted, nothing to predict", |it| {
        it.is(0) && it.reads(|read| read.named + read.left_open == 0)
    }),
    ("accepted, nothing learned", |it| {
        it.is(0) && it.learns(|lessons| lessons.recorded > 0 && lessons.worked == 0)
    }),
    ("accepted, something learned", |it| {
        it.is(0) && it.learns(|lessons| lessons.worked > 0)
    }),
    ("accepted, learned by a cache that knows", |it| {
        it.is(0) && it.held > 0 && it.learns(|it| it.worked > 0 && it.recorded > 0)
    }),
    ("accepted, empty note", |it| it.is(0) && it.note.is_empty()),
    ("accepted, over 100 tokens", |it| {
        it.is(0) && it.note.len() > 100
    }),
    ("128 tokens", |it| {
        it.read.is_some() && it.note.len() == LONGEST_NOTE
    }),
    ("accepted, row just long enough", |it| {
        it.is(0) && it.row == it.count()
    }),
    ("accepted, row with entries left over", |it| {
        it.is(0) && it.row > it.count()
    }),
    ("accepted, working space just long enough", |it| {
        it.is(0) && it.workspace == it.judgement.space
    }),
    ("accepted, more derivations than one", |it| {
        it.is(0) && it.judgement.derivation.is_ambiguous
    }),
    (
        "accepted, a lower alternative fits but not what is open",
        |it| it.is(0) && it.judgement.derivation.passes_over,
    ),
    ("new states", |it| it.learns(|it| it.new_states > 0)),
    ("six new states", |it| it.learns(|it| it.new_states >= 6)),
    ("states that were held", |it| {
        it.learns(|it| it.held_states > 0)
    }),
    ("no slot free", |it| it.learns(|it| it.out_of_slots > 0)),
    ("no slot free, 1 slot", |it| {
        it.slots == 1 && it.learns(|it| it.out_of_slots > 0)
    }),
    ("no slot free, many slots", |it| {
        it.slots > 6 && it.learns(|it| it.out_of_slots > 0)
    }),
    ("no slot free, and yet something learned", |it| {
        it.held == it.slots && it.learns(|it| it.worked > 0 && it.out_of_slots > 0)
    }),
    ("the last slot taken", |it| {
        it.held < it.slots && it.learns(|lessons| it.held + lessons.new_states == it.slots)
    }),
    ("10 where no alternative serves", |it| {
        it.is(10) && it.stops(Stop::NoneServes)
    }),
    ("10 where a token doesn't match", |it| {
        it.is(10) && it.stops(Stop::Mismatch)
    }),
    ("10 where tokens are left over", |it| {
        it.is(10) && it.stops(Stop::LeftOver)
    }),
    ("10 where the row is full", |it| {
        it.is(10) && it.stops(Stop::RowFull)
    }),
    ("10, stopped before its place", |it| {
        it.is(10) && it.reads(|read| (read.at as u64) < it.answer.place)
    }),
    ("10, stopped at its place", |it| {
        it.is(10) && it.reads(|read| read.at as u64 == it.answer.place)
    }),
    ("10, something learned", |it| {
        it.is(10) && it.learns(|it| it.worked > 0)
    }),
    ("10, row of no entries, nothing learned", |it| {
        it.is(10) && it.row == 0 && it.learns(|it| it.worked + it.recorded == 0)
    }),
    ("14, one entry too few", |it| {
        it.is(14) && it.row + 1 == it.count() && it.judgement.derivation.is_complete
    }),
    ("14, something learned", |it| {
        it.is(14) && it.learns(|it| it.worked > 0)
    }),
    ("14, row of no entries", |it| it.is(14) && it.row == 0),
    ("8 behind readings that taught", |it| {
        it.is(8) && it.held > 0
    }),
    ("9 behind readings that taught", |it| {
        it.is(9) && it.held > 0
    }),
    (
        "11, one word too little, behind readings that taught",
        |it| it.is(11) && it.workspace + 1 == it.judgement.space && it.held > 0,
    ),
    ("repeated, accepted", |it| it.is_repeated && it.is(0)),
    ("repeated, 10", |it| it.is_repeated && it.is(10)),
    ("repeated, 14", |it| it.is_repeated && it.is(14)),
    ("repeated, no slot free", |it| {
        it.is_repeated && it.learns(|it| it.out_of_slots > 0)
    }),
    ("repeated with a row of another length", |it| {
        it.is_read_otherwise && it.read.is_some()
    }),
    ("repeated with a row of another length, and learned", |it| {
        it.is_read_otherwise && it.learns(|it| it.worked > 0)
    }),
    ("behind 20 readings, and learned", |it| {
        it.earlier >= 20 && it.learns(|it| it.worked > 0)
    }),
];
