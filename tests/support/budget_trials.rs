//! Readings of one note with many caps, which must all come to the same, and what they tell of the
//! budget.
#![forbid(unsafe_code)]

use crate::budget_corners::{Drawn, Way, CORNERS};
use crate::budget_desk::{fail, Case, Cells, Desk, Expected, UNCAPPED};
use crate::random::Random;
use crate::tally::Tally;
use std::collections::BTreeMap;

/// Accepted, and refusals up to 14; those that are given for notes by sound grammars.
const NUMBERS: usize = 15;
const GIVEN: [usize; 6] = [0, 8, 9, 10, 11, 14];

/// How often each answer and each corner must come up, and by grammars of each style both ways: by the
/// search, and with the budget out.
const LEAST_OFTEN: usize = 100;

/// Of short notes every cap is tried, up to what they need; where none is enough, up to so many.
const MOST_CAPS: u32 = 40;

/// A cap, and what it left in the working space: cells, and a set in the lowest frame.
pub struct Seen {
    pub cap: u32,
    pub has_cells: bool,
    pub has_set: bool,
}

/// The readings of one style.
#[derive(Default)]
struct OfStyle {
    all: usize,
    by_search: usize,
    out: usize,
}

/// The readings so far.
pub struct Run {
    pub desk: Desk,
    all: Tally<NUMBERS>,
    corners: [usize; CORNERS.len()],
    styles: BTreeMap<&'static str, OfStyle>,
}

impl Run {
    pub fn new() -> Run {
        Run {
            desk: Desk::new(),
            all: Tally::new("accepted"),
            corners: [0; CORNERS.len()],
            styles: BTreeMap::new(),
        }
    }

    /// Readings of which nobody asks how they went, or that are refused before that.
    pub fn read(&mut self, case: &Case, caps: &[u32], expected: &Expected) {
        for &cap in caps {
            self.desk.read(case, cap, expected);
            self.all.count(expected.answer.number);
        }
    }

    pub fn count(&mut self, style: &'static str, drawn: &Drawn) {
        let of_style = self.styles.entry(style).or_default();
        of_style.all += 1;
        of_style.by_search += usize::from(drawn.way == Way::Search);
        of_style.out += usize::from(drawn.way.is_out());
        for (times, (_, touches)) in self.corners.iter_mut().zip(CORNERS) {
            *times += usize::from(touches(drawn));
        }
    }

    pub fn finish(&self) {
        for (style, times) in &self.styles {
            let OfStyle {
                all,
                by_search,
                out,
            } = times;
            println!(
                "{style}: {all} readings, {by_search} by the search, {out} with the budget out"
            );
        }
        for ((corner, _), times) in CORNERS.iter().zip(self.corners) {
            println!("drawn: {times} {corner}");
        }
        let numbers = GIVEN.map(|number| self.all.times(number));
        let styles = self
            .styles
            .values()
            .flat_map(|style| [style.by_search, style.out]);
        let mut all = numbers.into_iter().chain(self.corners).chain(styles);
        if all.any(|times| times < LEAST_OFTEN) {
            fail("some answer or corner, or one of the two ways by some style, came up too rarely");
        }
        let out: usize = self.styles.values().map(|style| style.out).sum();
        let by_search: usize = self.styles.values().map(|style| style.by_search).sum();
        println!(
            "budgets: {} readings agree ({}), {by_search} by the search, {out} with the budget out",
            self.all.cases(),
            self.all
        );
    }
}

/// A note lent with one row, and for a quick reading one cache.
pub struct Trials<'a> {
    run: &'a mut Run,
    case: &'a Case<'a>,
    expected: &'a Expected<'a>,
    cells: &'a Cells,
    pub seen: Vec<Seen>,
}

impl<'a> Trials<'a> {
    pub fn new(
        run: &'a mut Run,
        case: &'a Case,
        expected: &'a Expected,
        cells: &'a Cells,
    ) -> Trials<'a> {
        Trials {
            run,
            case,
            expected,
            cells,
            seen: Vec::new(),
        }
    }

    /// Whether a reading with this cap works out the cells.
    fn fills(&mut self, cap: u32) -> bool {
        let desk = &mut self.run.desk;
        desk.read(self.case, cap, self.expected);
        let has_cells = desk.has_cells(self.cells);
        let has_set = desk.has_set(self.cells);
        self.run.all.count(self.expected.answer.number);
        self.seen.push(Seen {
            cap,
            has_cells,
            has_set,
        });
        has_cells
    }

    /// The least cap with which no cells are worked out; none if the library's own budget is not
    /// enough.  A search with a higher cap does the same up to where one with a lower cap is out, so
    /// that the caps which are not enough are those below it.
    pub fn need(&mut self) -> Option<u32> {
        if !self.fills(0) {
            return Some(0);
        }
        if self.fills(UNCAPPED) {
            return None;
        }
        let (mut low, mut high) = (0, 1);
        while self.fills(high) {
            (low, high) = (high, 2 * high);
        }
        while high - low > 1 {
            let middle = (low + high) / 2;
            match self.fills(middle) {
                true => low = middle,
                false => high = middle,
            }
        }
        Some(high)
    }

    /// More caps about what is needed, or all of them up to that; then no cap at all.
    pub fn sweep(&mut self, random: &mut Random, need: Option<u32>, are_all: bool) {
        if are_all {
            for cap in 0..=need.unwrap_or(MOST_CAPS) + 1 {
                self.fills(cap);
            }
        } else {
            let most = need.map_or(random.pick(&[40, 400, 4_000]), |need| need + 1);
            for _ in 0..3 {
                self.fills(random.between(0, most as usize) as u32);
            }
            self.fills(random.between(1, 4) as u32);
        }
        self.run.desk.read_uncapped(self.case, self.expected);
        for _ in 0..3 {
            self.run.all.count(self.expected.answer.number);
        }
        // All of them must fit what is said of the caps.
        for seen in &self.seen {
            if seen.has_cells != need.is_none_or(|need| seen.cap < need) {
                let needed = need.map_or("no cap is enough".into(), |need| format!("needs {need}"));
                let message = format!("cells: {}, but the search: {needed}", seen.has_cells);
                self.case.fail(Some(seen.cap), &message);
            }
        }
    }
}
