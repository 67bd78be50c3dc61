//! What a reading with a cap is lent, all that is compared after it, and what its working space tells
//! of how it went.
#![forbid(unsafe_code)]

use crate::budgets_c;
use crate::cache_words;
use crate::lent::Lent;
use crate::tree::to_hex;
use allstar::calls::{self, Answer};
use std::hint::black_box;
use std::process::exit;

/// The least cap with which the library's own budget holds, whatever grammar and note.
pub const UNCAPPED: u32 = 65_536;

/// The longest working space that is lent; no row is longer.  It is enough for every note that is not
/// too long.
pub const LONGEST_SPACE: usize = 280_000;

/// Different fillings of a working space, and how many words stand before it at most and behind it.
const FILLINGS: usize = 1_000;
const BEFORE: usize = 8;
const AROUND: usize = 16;

/// Words of a set of positions, and of a frame: its return place and a set.
const SET: usize = 5;
const FRAME: usize = 1 + SET;

/// What is lent, but for the contents of row and working space.
pub struct Case<'a> {
    pub origin: &'a str,
    pub grammar: &'a [u8],
    pub note: &'a [u16],
    pub row: usize,
    pub workspace: usize,
    /// The cache, for a quick reading, and for reports the readings that left it so.
    pub cache: Option<&'a [u32]>,
    pub earlier: &'a [String],
}

/// All that a reading must come to.
pub struct Expected<'a> {
    pub answer: Answer,
    pub entries: &'a [u16],
    /// The cache after it.
    pub cache: &'a [u32],
}

impl Case<'_> {
    pub fn fail(&self, cap: Option<u32>, message: &str) -> ! {
        println!("{}", self.origin);
        println!("grammar: {}", to_hex(self.grammar));
        println!("note: {:?}", self.note);
        println!("row of {}, working space of {}", self.row, self.workspace);
        match cap {
            Some(cap) => println!("cap: {cap}"),
            None => println!("by the library"),
        }
        if let Some(words) = self.cache {
            println!("quick, a cache of {} words, readings before:", words.len());
            for reading in self.earlier {
                println!("  {reading}");
            }
        }
        fail(message);
    }
}

pub fn fail(message: &str) -> ! {
    println!("{message}");
    println!("budgets: FAILED");
    exit(1);
}

/// The derivation cells of a note, as they stand in front of a working space: five words for each
/// place and position.
pub struct Cells {
    words: Vec<u32>,
    note_end: usize,
}

pub struct Desk {
    grammar: Lent<u8>,
    note: Lent<u16>,
    row: Lent<u16>,
    cache: Lent<u32>,
    /// The working space, with some words before and behind it.
    workspace: Vec<u32>,
    before: usize,
    /// Words that differ from each other, and none is 0 or 1.
    filling: Vec<u32>,
    calls: usize,
}

impl Desk {
    pub fn new() -> Desk {
        Desk {
            grammar: Lent::new(),
            note: Lent::new(),
            row: Lent::new(),
            cache: Lent::new(),
            workspace: Vec::new(),
            before: 0,
            filling: (0..LONGEST_SPACE + FILLINGS + BEFORE + AROUND)
                .map(scatter)
                .collect(),
            calls: 0,
        }
    }

    /// Lays out what is lent.  A filling of the working space has at no place the word that another
    /// has there; what stands in the row and around all, and how it is aligned, changes with it.
    fn lay(&mut self, case: &Case, nth: usize) {
        let around = &self.filling[17 * nth..][..AROUND];
        let bytes: [u8; AROUND] = std::array::from_fn(|at| around[at] as u8);
        let tokens: [u16; AROUND] = std::array::from_fn(|at| around[at] as u16);
        let row: Vec<u16> = (self.filling[nth..][..case.row].iter())
            .map(|word| *word as u16)
            .collect();
        let before = 1 + nth % BEFORE;
        let cache = case.cache.unwrap_or(&[]);
        self.grammar.lay(&bytes[..before], case.grammar, &bytes);
        self.note.lay(&tokens[..before], case.note, &tokens);
        self.row.lay(&tokens[..before], &row, &tokens);
        self.cache.lay(&around[..before], cache, around);
        // It is long, so that no copy of it is made: a write around it is seen by the filling.
        self.before = before;
        self.workspace.clear();
        self.workspace.extend_from_slice(
            &self.filling[nth + BEFORE - before..][..before + case.workspace + AROUND],
        );
    }

    fn workspace(&self) -> &[u32] {
        &self.workspace[self.before..self.workspace.len() - AROUND]
    }

    fn is_unchanged_around_workspace(&self, nth: usize) -> bool {
        let workspace = black_box(&self.workspace);
        let filling = &self.filling[nth + BEFORE - self.before..][..workspace.len()];
        let end = workspace.len() - AROUND;
        workspace[..self.before] == filling[..self.before] && workspace[end..] == filling[end..]
    }

    /// Reads over the nth filling: with a cap, or by the library itself.
    fn call(&mut self, case: &Case, cap: Option<u32>, nth: usize) -> Answer {
        self.lay(case, nth);
        self.calls += 1;
        let (grammar, note) = (self.grammar.part(), self.note.part());
        let row = self.row.part();
        let end = self.workspace.len() - AROUND;
        let workspace = &mut self.workspace[self.before..end];
        match (case.cache, cap) {
            (None, None) => calls::plain(grammar, note, row, workspace),
            (None, Some(cap)) => budgets_c::plain(grammar, note, row, workspace, cap),
            (Some(_), None) => calls::quick(grammar, note, row, self.cache.part(), workspace),
            (Some(_), Some(cap)) => {
                budgets_c::quick(grammar, note, row, self.cache.part(), workspace, cap)
            }
        }
    }

    /// A reading, and all that it must come to.
    fn compare(&mut self, case: &Case, cap: Option<u32>, nth: usize, expected: &Expected) {
        let answer = self.call(case, cap, nth);
        if answer != expected.answer {
            let expected = expected.answer;
            case.fail(cap, &format!("answer: {answer}\nexpected: {expected}"));
        }
        if !self.grammar.is_unchanged() || !self.note.is_unchanged() {
            case.fail(
                cap,
                "the call changed grammar or note or what stands around them",
            );
        }
        if !self.row.is_unchanged_around()
            || !self.cache.is_unchanged_around()
            || !self.is_unchanged_around_workspace(nth)
        {
            case.fail(cap, "the call wrote around row, cache or working space");
        }
        let is_right = match answer.number {
            0 | 10 | 14 => {
                let (written, left_over) = self.row.part().split_at(expected.entries.len());
                written == expected.entries && left_over.iter().all(|&entry| entry == 0)
            }
            _ => self.row.is_unchanged(),
        };
        if !is_right {
            let row = shown(self.row.part());
            let expected = shown(expected.entries);
            case.fail(cap, &format!("{answer}, row: {row}\nexpected: {expected}"));
        }
        if self.cache.part() != expected.cache {
            cache_words::same(self.cache.part(), expected.cache);
            case.fail(cap, "the words of the cache differ");
        }
    }

    /// A reading with a cap, over a filling that the one before did not have.
    pub fn read(&mut self, case: &Case, cap: u32, expected: &Expected) {
        let nth = 1 + self.calls % (FILLINGS - 1);
        self.compare(case, Some(cap), nth, expected);
    }

    /// The library's own reading and two with caps that are none: over equal working spaces they leave
    /// equal ones.
    pub fn read_uncapped(&mut self, case: &Case, expected: &Expected) {
        let nth = 1 + self.calls % (FILLINGS - 1);
        self.compare(case, None, nth, expected);
        let left = self.workspace().to_vec();
        for cap in [u32::MAX, UNCAPPED] {
            self.compare(case, Some(cap), nth, expected);
            if left != self.workspace() {
                case.fail(Some(cap), "the library leaves another working space");
            }
        }
    }

    /// The words that the last reading left in the cache.
    pub fn cache(&mut self) -> &[u32] {
        self.cache.part()
    }

    /// The answer with a cap of 0, where none is expected yet.
    pub fn answer_by_cells(&mut self, case: &Case) -> Answer {
        self.call(case, Some(0), 0)
    }

    /// The cells of a note that passes the gate, as a plain reading with a cap of 0 leaves them.  Over
    /// two fillings it leaves the same words, so all of them are written.
    pub fn cells(&mut self, case: &Case, places: usize, expected: &Expected) -> Cells {
        let length = SET * places * (case.note.len() + 1);
        self.compare(case, Some(0), 0, expected);
        let words = self.workspace()[..length].to_vec();
        self.read(case, 0, expected);
        if self.workspace()[..length] != words {
            case.fail(Some(0), "with a cap of 0 the cells are not worked out");
        }
        Cells {
            words,
            note_end: case.note.len(),
        }
    }

    /// Whether the last reading worked out the cells.  Once they are there nothing is written over
    /// them: they are worked out where the budget is out, and then no search goes on.
    ///
    /// A search alone never leaves the same words.  No pair of a nonterminal and the note's end has
    /// several ends, so that the five words of its set stay as they were filled.  One of them is the
    /// last word of some cell, which is 0 or 1, as no filling is.
    pub fn has_cells(&mut self, cells: &Cells) -> bool {
        self.workspace()[..cells.words.len()] == cells.words
    }

    /// Whether the lowest frame has a set: the note's end alone.  Where the cells choose an alternative
    /// they put it there, or have put it there for the first they chose; a search writes the first word
    /// of it only, and working out the cells where a reading has stopped writes none.
    pub fn has_set(&mut self, cells: &Cells) -> bool {
        let base = cells.words.len();
        let mut set = [0; SET];
        set[cells.note_end / 32] = 1 << (cells.note_end % 32);
        self.workspace()[base + 1..base + FRAME] == set
    }
}

/// Another word for each number, and for none of those that are asked 0 or 1.
fn scatter(number: usize) -> u32 {
    // Each step can be undone.
    let mut word = (number as u32 + 7).wrapping_mul(0x9e37_79b1);
    word ^= word >> 15;
    word = word.wrapping_mul(0x85eb_ca77);
    word ^= word >> 13;
    assert!(word > 1, "a filling like a cell");
    word
}

/// The first entries of a row.
fn shown(row: &[u16]) -> String {
    const SHOWN: usize = 200;
    let dots = if row.len() > SHOWN { " ..." } else { "" };
    format!("{:?}{dots}", &row[..row.len().min(SHOWN)])
}
