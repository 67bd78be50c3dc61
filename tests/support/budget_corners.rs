//! Ways in which a reading with a cap can go, and corners where one by the cells and one by the search
//! might differ.  The test program counts how often the drawn readings touch each.
//!
//! A plain reading first asks the search whether the note is a sentence.  If that is answered with no,
//! all is answered; with yes, alternatives are taken by the search as long as the budget lasts.  Where
//! the budget is out the cells are worked out, and all that is still to be chosen is chosen by them.
//!
//! A quick reading begins no search until a prediction is FULL.  There the search chooses, and where the
//! budget is out the cells are worked out and choose, here and at all later ones.  Where the machine
//! stops before the note is accepted, because nothing fits or the row is full, the search is asked
//! whether the note is a sentence and where it goes wrong; where the budget is out there, the cells are
//! worked out and tell it, but they choose nothing.
#![forbid(unsafe_code)]

use crate::budget_desk::UNCAPPED;
use crate::second_reader::{Read, Stop};
use allstar::calls::Answer;

/// How a reading went.
#[derive(Clone, Copy, Debug, PartialEq, Eq)]
pub enum Way {
    /// Quick: predictions named all, and nothing was asked.
    NothingAsked,
    /// By the search: the budget lasted.
    Search,
    /// By the cells: no search is tried by this grammar.
    CellsAlone,
    /// By the cells: the cap is 0.
    CellsAtOnce,
    /// Plain: the budget was out while it was asked whether the note is a sentence, and while
    /// alternatives were taken.
    OutJudging,
    OutTaking,
    /// Quick: the budget was out at a FULL, where nothing fitted, where the row was full.
    OutAtFull,
    OutAtStop,
    OutAtFullRow,
    /// Quick: at a FULL before anything was taken, or where the reading stopped just there.
    OutAtFirst,
}

impl Way {
    /// The way of a plain reading, by whether it left cells.  `judging` is the least cap that is enough
    /// to judge the note, if any is: a row of no entries tells it, since nothing is taken then.  Of a
    /// note that is no sentence nothing is taken either.
    pub fn of_plain(
        slack: isize,
        cap: u32,
        has_cells: bool,
        judging: Option<u32>,
        number: u32,
    ) -> Result<Way, &'static str> {
        let is_judged = judging.is_some_and(|least| cap >= least);
        match (slack < 0, cap, has_cells, is_judged) {
            (true, _, true, _) => Ok(Way::CellsAlone),
            (true, _, false, _) => Err("a search by a grammar of too few places"),
            (_, 0, true, _) => Ok(Way::CellsAtOnce),
            (_, 0, false, _) => Err("a search with a cap of 0"),
            (_, _, true, false) => Ok(Way::OutJudging),
            (_, _, true, true) if number == 10 => Err("cells for a note that was judged"),
            (_, _, true, true) => Ok(Way::OutTaking),
            (_, _, false, true) => Ok(Way::Search),
            (_, _, false, false) => Err("a search with less than judging takes"),
        }
    }

    /// The way of a quick reading, by whether it left cells and a set in the lowest frame.
    pub fn of_quick(
        slack: isize,
        cap: u32,
        has_cells: bool,
        has_set: bool,
        read: &Read,
    ) -> Result<Way, &'static str> {
        let is_asked = read.left_open > 0 || read.stop != Stop::Accepted;
        if !is_asked {
            return match has_cells {
                true => Err("cells where nothing was asked"),
                false => Ok(Way::NothingAsked),
            };
        }
        match (slack < 0, cap, has_cells) {
            (true, _, true) => Ok(Way::CellsAlone),
            (true, _, false) => Err("a search by a grammar of too few places"),
            (_, 0, true) => Ok(Way::CellsAtOnce),
            (_, 0, false) => Err("a search with a cap of 0"),
            (_, _, false) => Ok(Way::Search),
            // Cells that chose put a set into the lowest frame, unless none serves before there is one.
            (_, _, true) if has_set => match read.left_open {
                0 => Err("a set without a FULL"),
                _ => Ok(Way::OutAtFull),
            },
            (_, _, true) => match read.stop {
                Stop::Accepted => Err("cells that chose nothing in an accepted reading"),
                Stop::RowFull => Ok(Way::OutAtFullRow),
                Stop::NoneServes if read.entries.is_empty() => Ok(Way::OutAtFirst),
                _ => Ok(Way::OutAtStop),
            },
        }
    }

    /// A search began, and its budget was out.
    pub fn is_out(self) -> bool {
        !matches!(
            self,
            Way::NothingAsked | Way::Search | Way::CellsAlone | Way::CellsAtOnce
        )
    }

    fn is_by_cells(self) -> bool {
        !matches!(self, Way::NothingAsked | Way::Search)
    }
}

/// A reading that was drawn, and its answer.
pub struct Drawn<'a> {
    /// The words of the cells less those of the search, for each position.
    pub slack: isize,
    pub places: usize,
    pub tokens: usize,
    pub row: usize,
    pub cap: u32,
    /// The least cap that is enough, if any is.
    pub need: Option<u32>,
    pub answer: Answer,
    pub way: Way,
    /// What the machine of a quick reading did.
    pub read: Option<&'a Read>,
    /// Quick: how many outcomes were learned, and the slots of the cache.
    pub learned: usize,
    pub slots: usize,
    /// Quick: over words that nobody recorded, and the note is a sentence.
    pub is_foreign: bool,
    pub is_sentence: bool,
}

impl Drawn<'_> {
    fn is(&self, number: u32) -> bool {
        self.answer.number == number
    }

    fn went(&self, way: Way) -> bool {
        self.way == way
    }

    fn is_plain(&self) -> bool {
        self.read.is_none()
    }

    fn is_quick(&self) -> bool {
        self.read.is_some()
    }

    /// The library's own budget.
    fn is_own(&self) -> bool {
        self.cap >= UNCAPPED
    }

    fn left_open(&self) -> usize {
        self.read.map_or(0, |read| read.left_open)
    }

    fn is_inside(&self) -> bool {
        (1..self.tokens as u64).contains(&self.answer.place)
    }

    fn is_at_end(&self) -> bool {
        self.answer.place == self.tokens as u64 && self.tokens > 0
    }

    /// The search has just words enough, or nearly so.
    fn is_just_true(&self) -> bool {
        (0..=6).contains(&self.slack)
    }

    fn is_just_false(&self) -> bool {
        (-7..0).contains(&self.slack)
    }

    fn has_all_places(&self) -> bool {
        self.places == 255
    }
}

/// A name for reports, and whether a reading touches it.
pub type Corner = (&'static str, fn(&Drawn) -> bool);

pub const CORNERS: [Corner; 75] = [
    // Plain readings.
    ("plain, out while judged, accepted", |it| {
        it.went(Way::OutJudging) && it.is(0)
    }),
    ("plain, out while judged, 10", |it| {
        it.went(Way::OutJudging) && it.is(10)
    }),
    ("plain, out while judged, 14", |it| {
        it.went(Way::OutJudging) && it.is(14)
    }),
    ("plain, out while judged, row of no entries, 10", |it| {
        it.went(Way::OutJudging) && it.is(10) && it.row == 0
    }),
    ("plain, out while judged, row of no entries, 14", |it| {
        it.went(Way::OutJudging) && it.is(14) && it.row == 0
    }),
    ("plain, out while judged, over 100 tokens", |it| {
        it.went(Way::OutJudging) && it.tokens > 100
    }),
    ("plain, out while taken, accepted", |it| {
        it.went(Way::OutTaking) && it.is(0)
    }),
    ("plain, out while taken, 14", |it| {
        it.went(Way::OutTaking) && it.is(14)
    }),
    ("plain, out while taken, over 100 tokens", |it| {
        it.went(Way::OutTaking) && it.tokens > 100
    }),
    ("plain, own budget out while judged, accepted", |it| {
        it.went(Way::OutJudging) && it.is_own() && it.is(0)
    }),
    ("plain, own budget out while judged, 10", |it| {
        it.went(Way::OutJudging) && it.is_own() && it.is(10)
    }),
    ("plain, own budget out while judged, 14", |it| {
        it.went(Way::OutJudging) && it.is_own() && it.is(14)
    }),
    ("plain, own budget out while taken", |it| {
        it.went(Way::OutTaking) && it.is_own()
    }),
    ("plain, accepted by the search", |it| {
        it.is_plain() && it.went(Way::Search) && it.is(0)
    }),
    ("plain, 10 by the search", |it| {
        it.is_plain() && it.went(Way::Search) && it.is(10)
    }),
    ("plain, 14 by the search", |it| {
        it.is_plain() && it.went(Way::Search) && it.is(14)
    }),
    ("plain, a cap just enough", |it| {
        it.is_plain() && it.need == Some(it.cap)
    }),
    ("plain, a cap one too low", |it| {
        it.is_plain() && it.need == Some(it.cap + 1)
    }),
    ("plain, a cap of 1, out", |it| {
        it.is_plain() && it.cap == 1 && it.way.is_out()
    }),
    // Quick readings.
    ("quick, out at a FULL, accepted", |it| {
        it.went(Way::OutAtFull) && it.is(0)
    }),
    ("quick, out at a FULL, 10", |it| {
        it.went(Way::OutAtFull) && it.is(10)
    }),
    ("quick, out at a FULL, 14", |it| {
        it.went(Way::OutAtFull) && it.is(14)
    }),
    ("quick, out at a FULL, something learned", |it| {
        it.went(Way::OutAtFull) && it.learned > 0
    }),
    ("quick, out at a FULL, nothing learned", |it| {
        it.went(Way::OutAtFull) && it.learned == 0
    }),
    ("quick, out at a FULL, 1 slot", |it| {
        it.went(Way::OutAtFull) && it.slots == 1
    }),
    ("quick, out at a FULL, over 100 tokens", |it| {
        it.went(Way::OutAtFull) && it.tokens > 100
    }),
    ("quick, own budget out at a FULL", |it| {
        it.went(Way::OutAtFull) && it.is_own()
    }),
    ("quick, out at a FULL or a stop before all, 10", |it| {
        it.went(Way::OutAtFirst) && it.is(10)
    }),
    ("quick, out at a stop with no FULL before, 10", |it| {
        it.went(Way::OutAtStop) && it.is(10) && it.left_open() == 0
    }),
    ("quick, out at a stop behind a FULL, 10", |it| {
        it.went(Way::OutAtStop) && it.is(10) && it.left_open() > 0
    }),
    ("quick, out where no alternative serves, 10", |it| {
        it.went(Way::OutAtStop) && it.read.is_some_and(|it| it.stop == Stop::NoneServes)
    }),
    ("quick, out where a token doesn't match, 10", |it| {
        it.went(Way::OutAtStop) && it.read.is_some_and(|it| it.stop == Stop::Mismatch)
    }),
    ("quick, out where tokens are left over, 10", |it| {
        it.went(Way::OutAtStop) && it.read.is_some_and(|it| it.stop == Stop::LeftOver)
    }),
    (
        "quick, own budget out at a stop with no FULL before",
        |it| it.went(Way::OutAtStop) && it.is_own() && it.left_open() == 0,
    ),
    ("quick, out where the row is full, 10", |it| {
        it.went(Way::OutAtFullRow) && it.is(10)
    }),
    ("quick, out where the row is full, 14", |it| {
        it.went(Way::OutAtFullRow) && it.is(14)
    }),
    (
        "quick, out where the row is full, behind a FULL, 14",
        |it| it.went(Way::OutAtFullRow) && it.is(14) && it.left_open() > 0,
    ),
    ("quick, out where the row is full, no entries", |it| {
        it.went(Way::OutAtFullRow) && it.row == 0
    }),
    ("quick, own budget out where the row is full", |it| {
        it.went(Way::OutAtFullRow) && it.is_own()
    }),
    ("quick, accepted by the search", |it| {
        it.is_quick() && it.went(Way::Search) && it.is(0)
    }),
    ("quick, accepted, nothing asked, cap 0", |it| {
        it.went(Way::NothingAsked) && it.cap == 0
    }),
    ("quick, 10 by the search, no FULL before", |it| {
        it.is_quick() && it.went(Way::Search) && it.is(10) && it.left_open() == 0
    }),
    ("quick, 10 by the search, behind a FULL", |it| {
        it.is_quick() && it.went(Way::Search) && it.is(10) && it.left_open() > 0
    }),
    ("quick, 14 by the search, no FULL before", |it| {
        it.is_quick() && it.went(Way::Search) && it.is(14) && it.left_open() == 0
    }),
    ("quick, 14 by the search, behind a FULL", |it| {
        it.is_quick() && it.went(Way::Search) && it.is(14) && it.left_open() > 0
    }),
    ("quick, a cap just enough", |it| {
        it.is_quick() && it.need == Some(it.cap) && it.cap > 0
    }),
    ("quick, a cap one too low", |it| {
        it.is_quick() && it.need == Some(it.cap + 1)
    }),
    ("quick, foreign, a sentence, 10 by the search", |it| {
        it.is_foreign && it.is_sentence && it.is(10) && it.went(Way::Search)
    }),
    ("quick, foreign, a sentence, 10, out", |it| {
        it.is_foreign && it.is_sentence && it.is(10) && it.way.is_out()
    }),
    ("quick, foreign, out at a FULL", |it| {
        it.is_foreign && it.went(Way::OutAtFull)
    }),
    // The place of 10.
    ("place of 10 by the search, at the first token", |it| {
        it.is(10) && it.went(Way::Search) && it.answer.place == 0 && it.tokens > 0
    }),
    ("place of 10 by the search, inside", |it| {
        it.is(10) && it.went(Way::Search) && it.is_inside()
    }),
    ("place of 10 by the search, at the end", |it| {
        it.is(10) && it.went(Way::Search) && it.is_at_end()
    }),
    ("place of 10 by the cells, at the first token", |it| {
        it.is(10) && it.way.is_by_cells() && it.answer.place == 0 && it.tokens > 0
    }),
    ("place of 10 by the cells, inside", |it| {
        it.is(10) && it.way.is_by_cells() && it.is_inside()
    }),
    ("place of 10 by the cells, at the end", |it| {
        it.is(10) && it.way.is_by_cells() && it.is_at_end()
    }),
    // Both sides of the test.
    ("7 N + 1 = 5 P, by the search", |it| {
        it.slack == 0 && it.went(Way::Search)
    }),
    ("7 N + 1 = 5 P, a FULL by the search", |it| {
        it.slack == 0 && it.went(Way::Search) && it.left_open() > 0 && it.is(0)
    }),
    ("7 N + 1 = 5 P, out while judged", |it| {
        it.slack == 0 && it.went(Way::OutJudging)
    }),
    ("7 N + 1 = 5 P, out while taken", |it| {
        it.slack == 0 && it.went(Way::OutTaking)
    }),
    ("7 N + 1 = 5 P, out at a FULL", |it| {
        it.slack == 0 && it.went(Way::OutAtFull)
    }),
    (
        "7 N + 1 = 5 P, out at a stop or where the row is full",
        |it| it.slack == 0 && matches!(it.way, Way::OutAtStop | Way::OutAtFullRow),
    ),
    ("7 N + 1 <= 5 P, 0 to 6 less, plain, by the search", |it| {
        it.is_just_true() && it.is_plain() && it.went(Way::Search)
    }),
    ("7 N + 1 <= 5 P, 0 to 6 less, plain, out", |it| {
        it.is_just_true() && it.is_plain() && it.way.is_out()
    }),
    ("7 N + 1 <= 5 P, 0 to 6 less, quick, by the search", |it| {
        it.is_just_true() && it.is_quick() && it.went(Way::Search)
    }),
    ("7 N + 1 <= 5 P, 0 to 6 less, quick, out", |it| {
        it.is_just_true() && it.is_quick() && it.way.is_out()
    }),
    ("7 N = 5 P, own budget", |it| {
        it.slack == -1 && it.went(Way::CellsAlone) && it.is_own()
    }),
    ("7 N + 1 > 5 P, 1 to 7 more, plain, own budget", |it| {
        it.is_just_false() && it.is_plain() && it.went(Way::CellsAlone) && it.is_own()
    }),
    ("7 N + 1 > 5 P, 1 to 7 more, quick, own budget", |it| {
        it.is_just_false() && it.is_quick() && it.went(Way::CellsAlone) && it.is_own()
    }),
    // All places.
    ("255 places, plain, by the search", |it| {
        it.has_all_places() && it.is_plain() && it.went(Way::Search)
    }),
    ("255 places, plain, out while judged", |it| {
        it.has_all_places() && it.went(Way::OutJudging)
    }),
    ("255 places, plain, out while taken", |it| {
        it.has_all_places() && it.went(Way::OutTaking)
    }),
    ("255 places, quick, out at a FULL", |it| {
        it.has_all_places() && it.went(Way::OutAtFull)
    }),
    ("255 places, quick, out at a stop, 10", |it| {
        it.has_all_places() && it.went(Way::OutAtStop)
    }),
    ("255 places, quick, out where the row is full", |it| {
        it.has_all_places() && it.went(Way::OutAtFullRow)
    }),
];
