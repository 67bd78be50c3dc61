//! Tests the splitter of typed lines against answers written down by hand and against the second splitter.
#![forbid(unsafe_code)]

#[path = "support/lent.rs"]
mod lent;
#[allow(dead_code)]
#[path = "support/random.rs"]
mod random;
#[path = "support/second_splitter.rs"]
mod second_splitter;
#[path = "support/tally.rs"]
mod tally;
#[path = "support/typed.rs"]
mod typed;
#[path = "support/typed_corners.rs"]
mod typed_corners;

use allstar::calls::{self, Answer};
use lent::Lent;
use random::Random;
use second_splitter::Judgement;
use std::process::exit;
use tally::Tally;
use typed::row_length;
use typed_corners::{Drawn, CORNERS};

/// Accepted, and refusals up to 17; of those a line gets only these.
const NUMBERS: usize = 18;
const GIVEN: [usize; 6] = [0, 8, 14, 15, 16, 17];

/// How often each answer and each corner must come up in the drawn lines.
const LEAST_OFTEN: usize = 100;

/// Drawn lists, and lines for each.
const LISTS: usize = 4_000;
const LINES_FOR_A_LIST: usize = 12;

fn main() {
    let mut run = Run::new();
    for case in typed::worked() {
        run.expect(&case);
    }
    bytes_and_pairs(&mut run);
    drawn_lines(&mut run);
    run.finish();
}

/// The lines so far.
struct Run {
    all: Tally<NUMBERS>,
    drawn: Tally<NUMBERS>,
    corners: [usize; CORNERS.len()],
    line: Lent<u8>,
    list: Lent<u8>,
    row: Lent<u16>,
    /// What stands in rows before a call, and around all that is lent.
    words: Vec<u64>,
}

impl Run {
    fn new() -> Run {
        let mut random = Random::new(1);
        Run {
            all: Tally::new("accepted"),
            drawn: Tally::new("accepted"),
            corners: [0; CORNERS.len()],
            line: Lent::new(),
            list: Lent::new(),
            row: Lent::new(),
            words: (0..2_000).map(|_| random.next()).collect(),
        }
    }

    /// Lays out what is lent.  What stands in the row, around all and how it is aligned changes from line to line: no
    /// answer may depend on it.
    fn lay(&mut self, line: &[u8], list: &[u8], row: usize) {
        let nth = self.all.cases();
        let before = 1 + nth % 8;
        let around = &self.words[nth % 1_000..][..16];
        let mask = [u64::MAX, 0, u64::from(u16::MAX)][nth % 3];
        let bytes: Vec<u8> = around.iter().map(|&word| (word & mask) as u8).collect();
        // Letters and digits around a line would be taken for its own, if anybody looked.
        let letters: Vec<u8> = around.iter().map(|&word| b"a1. "[word as usize % 4]).collect();
        let entries: Vec<u16> = self
            .words
            .iter()
            .cycle()
            .take(row + 16)
            .map(|&word| (word | !mask) as u16)
            .collect();
        let behind = if nth % 2 == 0 { &letters } else { &bytes };
        self.line.lay(&behind[..before], line, behind);
        self.list.lay(&behind[..before], list, behind);
        self.row.lay(&entries[..before], &entries[..row], &entries[row..]);
    }

    /// A line whose answer, and whose tokens if it is accepted, are known.
    fn split(&mut self, line: &[u8], list: &[u8], row: usize, expected: Answer, tokens: &[u16]) {
        self.lay(line, list, row);
        let answer = calls::split(self.line.part(), self.list.part(), self.row.part());
        if answer != expected {
            report(line, list, row);
            fail(&format!("library: {answer}\nexpected: {expected}"));
        }
        if !self.line.is_unchanged() || !self.list.is_unchanged() || !self.row.is_unchanged_around() {
            report(line, list, row);
            fail("the call changed line or list, or wrote around the row");
        }
        let is_right = match answer.number {
            0 | 14 => {
                let (written, left_over) = self.row.part().split_at(tokens.len());
                written == tokens && left_over.iter().all(|&entry| entry == 0)
            }
            _ => self.row.is_unchanged(),
        };
        if !is_right {
            report(line, list, row);
            fail(&format!(
                "{answer}, row: {:?}\nexpected: {tokens:?}",
                self.row.part()
            ));
        }
        self.all.count(answer.number);
    }

    /// A line that library and second splitter must agree on.
    fn agree(&mut self, line: &[u8], list: &[u8], row: usize, judgement: &Judgement) -> Answer {
        let expected = judgement.answer(row);
        let tokens = match expected.number {
            0 => &judgement.tokens[..],
            _ => &[],
        };
        self.split(line, list, row, expected, tokens);
        expected
    }

    /// A line whose answer is written down; the second splitter has to know it too.
    fn expect(&mut self, case: &typed::Typed) {
        let judgement = Judgement::of(&case.line, &case.list);
        let second = judgement.answer(case.row);
        if second != case.answer {
            report(&case.line, &case.list, case.row);
            fail(&format!("second splitter: {second}\nexpected: {}", case.answer));
        }
        for _ in 0..12 {
            self.split(&case.line, &case.list, case.row, case.answer, &case.tokens);
        }
        // And an empty slice points nowhere here.
        let mut row = vec![7; case.row];
        if calls::split(&case.line, &case.list, &mut row) != case.answer {
            report(&case.line, &case.list, case.row);
            fail("the answer is another where nothing stands around");
        }
    }

    /// A drawn line that library and second splitter must agree on.
    fn draw(&mut self, line: &[u8], list: &[u8], row: usize, judgement: &Judgement) {
        let answer = self.agree(line, list, row, judgement);
        self.drawn.count(answer.number);
        let drawn = Drawn {
            line,
            list,
            row,
            judgement,
            answer,
        };
        for (times, (_, touches)) in self.corners.iter_mut().zip(CORNERS) {
            *times += usize::from(touches(&drawn));
        }
    }

    fn finish(&self) {
        println!("drawn: {} lines ({})", self.drawn.cases(), self.drawn);
        for ((corner, _), times) in CORNERS.iter().zip(self.corners) {
            println!("drawn: {times} {corner}");
        }
        let answers = GIVEN.iter().map(|&number| self.drawn.times(number));
        if answers.chain(self.corners).any(|times| times < LEAST_OFTEN) {
            fail("some answer or corner came up too rarely in the drawn lines");
        }
        println!("splitting: {} lines agree ({})", self.all.cases(), self.all);
    }
}

/// Prints a line that went wrong.
fn report(line: &[u8], list: &[u8], row: usize) {
    println!("line: {:?}", line.escape_ascii().to_string());
    println!("list: {:?}", list.escape_ascii().to_string());
    println!("row of {row}");
}

fn fail(message: &str) -> ! {
    println!("{message}");
    println!("splitting: FAILED");
    exit(1);
}

/// Every line of one byte and of two, and every list of one.
fn bytes_and_pairs(run: &mut Run) {
    for first in 0..=u8::MAX {
        let judgement = Judgement::of(b"a", &[first]);
        run.agree(b"a", &[first], 2, &judgement);
        for list in [&b""[..], b"a a1 b"] {
            let judgement = Judgement::of(&[first], list);
            run.agree(&[first], list, 1, &judgement);
            for second in 0..=u8::MAX {
                let line = [first, second];
                let judgement = Judgement::of(&line, list);
                run.agree(&line, list, 2, &judgement);
            }
        }
    }
}

/// Lines near the edges, several for each list, each with several rows.
fn drawn_lines(run: &mut Run) {
    let mut random = Random::new(2);
    for _ in 0..LISTS {
        let list = typed::list(&mut random);
        for _ in 0..LINES_FOR_A_LIST {
            let line = typed::line(&mut random, &list);
            let judgement = Judgement::of(&line, &list);
            for _ in 0..2 {
                let row = row_length(&mut random, judgement.tokens.len());
                run.draw(&line, &list, row, &judgement);
            }
        }
    }
}
