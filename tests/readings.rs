//! Tests the plain reading against answers written down by hand and against the second parser.
#![deny(unsafe_code)]

#[path = "support/edges.rs"]
mod edges;
#[allow(dead_code)]
#[path = "support/generate.rs"]
mod generate;
#[path = "support/lengths.rs"]
mod lengths;
#[path = "support/lent.rs"]
mod lent;
#[path = "support/notes.rs"]
mod notes;
#[path = "support/random.rs"]
mod random;
#[path = "support/reading_corners.rs"]
mod reading_corners;
#[path = "support/second_checker.rs"]
mod second_checker;
#[path = "support/second_parser.rs"]
mod second_parser;
#[path = "support/styles.rs"]
mod styles;
#[path = "support/tally.rs"]
mod tally;
#[path = "support/tiny.rs"]
mod tiny;
#[path = "support/tree.rs"]
mod tree;
#[path = "support/worked.rs"]
mod worked;

use allstar::calls::{self, Answer};
use lengths::{row_length, workspace_length};
use lent::Lent;
use notes::Source;
use random::Random;
use reading_corners::{Drawn, CORNERS};
use second_parser::{replay, space, Judgement, LONGEST_NOTE};
use std::process::exit;
use styles::STYLES;
use tally::Tally;
use tree::{to_hex, Grammar};

/// Accepted, and refusals up to 14; a plain reading has no cache and never answers 12 and 13.
const NUMBERS: usize = 15;
const NEVER: [usize; 2] = [12, 13];

/// How often each answer and each corner must come up in the drawn readings.
const LEAST_OFTEN: usize = 100;

/// Readings of damaged grammars, of each family.
const DRAWN_PER_FAMILY: usize = 300;

/// The most tokens of the notes that are read by every tiny grammar.
const TOKENS_BY_TINY: usize = 4;

/// The longest row and the longest working space that are lent.
const LONGEST_ROW: usize = 6_000;
const LONGEST_SPACE: usize = 280_000;

/// For the second parser, which recurses once for each place and position that is open at most.
const STACK: usize = 1 << 26;

fn main() {
    let tests = std::thread::Builder::new().stack_size(STACK).spawn(test);
    if tests.unwrap().join().is_err() {
        fail("the tests broke off");
    }
}

fn test() {
    let mut run = Run::new();
    let worked = worked::paper().into_iter().chain(worked::edges());
    for reading in worked.chain(worked::benchmarks()) {
        run.expect(&reading);
    }
    for case in edges::paper().into_iter().chain(edges::edges()) {
        check_first(&mut run, &case);
    }
    tiny_grammars(&mut run);
    drawn_readings(&mut run);
    damaged_grammars(&mut run);
    run.finish();
}

/// What is lent, but for the contents of row and working space.
struct Case<'a> {
    origin: &'a str,
    grammar: &'a [u8],
    note: &'a [u16],
    row: usize,
    workspace: usize,
}

/// What stands in rows and working spaces before a call.
struct Filling {
    entries: Vec<u16>,
    words: Vec<u32>,
}

impl Filling {
    fn new(mut word: impl FnMut() -> u64) -> Filling {
        Filling {
            entries: (0..LONGEST_ROW).map(|_| word() as u16).collect(),
            words: (0..LONGEST_SPACE).map(|_| word() as u32).collect(),
        }
    }
}

/// The readings so far.
struct Run {
    all: Tally<NUMBERS>,
    drawn: Tally<NUMBERS>,
    corners: [usize; CORNERS.len()],
    grammar: Lent<u8>,
    note: Lent<u16>,
    row: Lent<u16>,
    workspace: Lent<u32>,
    /// Drawn words, zeros, ones; and what the last reading left.
    fillings: [Filling; 4],
}

impl Run {
    fn new() -> Run {
        let mut random = Random::new(1);
        Run {
            all: Tally::new("accepted"),
            drawn: Tally::new("accepted"),
            corners: [0; CORNERS.len()],
            grammar: Lent::new(),
            note: Lent::new(),
            row: Lent::new(),
            workspace: Lent::new(),
            fillings: [
                Filling::new(|| random.next()),
                Filling::new(|| 0),
                Filling::new(|| u64::MAX),
                Filling::new(|| 1),
            ],
        }
    }

    /// Lays out what is lent.  What stands in row and working space, what stands around all and how
    /// it is aligned changes from reading to reading: no answer may depend on it.
    fn lay(&mut self, case: &Case) {
        let nth = self.all.cases();
        let Filling { entries, words } = &self.fillings[nth % 4];
        let around = &self.fillings[nth / 4 % 3].words[nth % 1_000..][..16];
        let bytes: [u8; 16] = std::array::from_fn(|at| around[at] as u8);
        let tokens: [u16; 16] = std::array::from_fn(|at| around[at] as u16);
        let before = 1 + nth % 8;
        self.grammar.lay(&bytes[..before], case.grammar, &bytes);
        self.note.lay(&tokens[..before], case.note, &tokens);
        self.row
            .lay(&tokens[..before], &entries[..case.row], &tokens);
        self.workspace
            .lay(&around[..before], &words[..case.workspace], around);
    }

    /// A reading whose answer, and whose entries if it is accepted, are known.
    fn read(&mut self, case: &Case, expected: Answer, entries: &[u16]) {
        self.lay(case);
        let answer = calls::plain(
            self.grammar.part(),
            self.note.part(),
            self.row.part(),
            self.workspace.part(),
        );
        if answer != expected {
            report(case);
            fail(&format!("library: {answer}\nexpected: {expected}"));
        }
        if !self.grammar.is_unchanged() || !self.note.is_unchanged() {
            report(case);
            fail("the call changed grammar or note or what stands around them");
        }
        if !self.row.is_unchanged_around() || !self.workspace.is_unchanged_around() {
            report(case);
            fail("the call wrote around row or working space");
        }
        let is_right = match answer.number {
            0 | 10 | 14 => {
                let (written, left_over) = self.row.part().split_at(entries.len());
                written == entries && left_over.iter().all(|&entry| entry == 0)
            }
            _ => self.row.is_unchanged(),
        };
        if !is_right {
            report(case);
            let row = shown(self.row.part());
            let expected = shown(entries);
            fail(&format!("{answer}, row: {row}\nexpected: {expected}"));
        }
        self.all.count(answer.number);
        if self.all.cases() % 4 == 3 {
            self.fillings[3].entries[..case.row].copy_from_slice(self.row.part());
            self.fillings[3].words[..case.workspace].copy_from_slice(self.workspace.part());
        }
    }

    /// A reading that library and second parser must agree on.
    fn agree(&mut self, case: &Case, judgement: &Judgement) -> Answer {
        let expected = judgement.answer(case.row, case.workspace);
        let entries = match expected.number {
            0 => &judgement.derivation.entries[..],
            _ => &[],
        };
        self.read(case, expected, entries);
        expected
    }

    /// A reading whose answer is written down; the second parser has to know it too.
    fn expect(&mut self, reading: &worked::Reading) {
        let judgement = Judgement::of(&reading.grammar, &reading.note, reading.row);
        let case = Case {
            origin: &reading.why,
            grammar: &reading.grammar,
            note: &reading.note,
            row: reading.row,
            workspace: reading.workspace.unwrap_or(judgement.space),
        };
        for _ in 0..self.fillings.len() {
            let second = self.agree(&case, &judgement);
            if second != reading.answer {
                report(&case);
                fail(&format!("both: {second}\nexpected: {}", reading.answer));
            }
            self.read(&case, reading.answer, &reading.entries);
        }
        // And an empty slice points nowhere here.
        let mut row = vec![7; case.row];
        let mut workspace = vec![7; case.workspace];
        let answer = calls::plain(case.grammar, case.note, &mut row, &mut workspace);
        if answer != reading.answer {
            report(&case);
            fail(&format!("library: {answer}\nexpected: {}", reading.answer));
        }
    }

    /// Readings by one grammar of one note, with all lengths of the row that may make a difference.
    fn agree_throughout(&mut self, origin: &str, grammar: &[u8], note: &[u16]) {
        const LONGEST: usize = 40;
        let judgement = Judgement::of(grammar, note, LONGEST);
        let count = judgement.derivation.entries.len();
        let mut rows = [0, 1, count.saturating_sub(1), count]
            .map(|row| row.min(LONGEST))
            .to_vec();
        rows.sort();
        rows.dedup();
        for row in rows {
            let case = Case {
                origin,
                grammar,
                note,
                row,
                workspace: judgement.space,
            };
            self.agree(&case, &judgement);
        }
    }

    /// A drawn reading that library and second parser must agree on.
    fn draw(&mut self, case: &Case, grammar: Option<&Grammar>, judgement: &Judgement) {
        let answer = self.agree(case, judgement);
        if let (0, Some(grammar)) = (answer.number, grammar) {
            let derived = replay(grammar, &judgement.derivation.entries);
            if derived.as_deref() != Some(case.note) {
                report(case);
                fail("the entries don't derive the note");
            }
        }
        self.drawn.count(answer.number);
        let drawn = Drawn {
            grammar,
            note: case.note,
            row: case.row,
            workspace: case.workspace,
            judgement,
            answer,
        };
        for (times, (_, touches)) in self.corners.iter_mut().zip(CORNERS) {
            *times += usize::from(touches(&drawn));
        }
    }

    fn finish(&self) {
        println!("drawn: {} readings ({})", self.drawn.cases(), self.drawn);
        for ((corner, _), times) in CORNERS.iter().zip(self.corners) {
            println!("drawn: {times} {corner}");
        }
        let given = (0..NUMBERS).filter(|number| !NEVER.contains(number));
        let answers = given.map(|number| self.drawn.times(number));
        if answers.chain(self.corners).any(|n| n < LEAST_OFTEN) {
            fail("some answer or corner came up too rarely in the drawn readings");
        }
        println!(
            "readings: {} readings agree ({})",
            self.all.cases(),
            self.all
        );
    }
}

/// Prints a reading that went wrong.
fn report(case: &Case) {
    println!("{}", case.origin);
    println!("grammar: {}", to_hex(case.grammar));
    println!("note: {:?}", case.note);
    println!("row of {}, working space of {}", case.row, case.workspace);
}

/// The first entries of a row.
fn shown(row: &[u16]) -> String {
    const SHOWN: usize = 200;
    let dots = if row.len() > SHOWN { " ..." } else { "" };
    format!("{:?}{dots}", &row[..row.len().min(SHOWN)])
}

fn fail(message: &str) -> ! {
    println!("{message}");
    println!("readings: FAILED");
    exit(1);
}

/// Whatever the check refuses, every reading refuses with the same number and place.
fn check_first(run: &mut Run, case: &edges::Case) {
    for note in [&[][..], &[1], &[1, 1, 1], &[0], &[1; LONGEST_NOTE + 1]] {
        run.agree_throughout(case.why, &case.bytes, note);
        if case.answer.number != 0 {
            let refused = Answer {
                number: case.answer.number,
                place: case.answer.place,
                count: 0,
            };
            let reading = Case {
                origin: case.why,
                grammar: &case.bytes,
                note,
                row: 5,
                workspace: 0,
            };
            run.read(&reading, refused, &[]);
        }
    }
}

/// Every short note by every sound one of the tiny grammars.
fn tiny_grammars(run: &mut Run) {
    let note = [1; TOKENS_BY_TINY];
    tiny::each_grammar(|grammar| {
        let bytes = grammar.encode();
        if second_checker::check(&bytes).number == 0 {
            for length in 0..=TOKENS_BY_TINY {
                run.agree_throughout("all tiny grammars", &bytes, &note[..length]);
            }
        }
    });
}

/// Grammars of all styles, several notes for each, several lengths of row and working space for each.
fn drawn_readings(run: &mut Run) {
    for style in &STYLES {
        let mut random = Random::new(2);
        for _ in 0..style.grammars {
            let grammar = style.grammar(&mut random);
            let bytes = grammar.encode();
            let source = Source::new(&grammar);
            for _ in 0..style.notes {
                let note = source.note(&mut random, style.tokens);
                let longest_row = random.pick(&[20, 200, 5_000, 5_000]);
                let judgement = Judgement::of(&bytes, &note, longest_row);
                let enough = space(grammar.places(), note.len().min(LONGEST_NOTE));
                for nth in 0..4 {
                    let case = Case {
                        origin: style.name,
                        grammar: &bytes,
                        note: &note,
                        row: row_length(&mut random, &judgement, longest_row),
                        workspace: match nth {
                            0 => enough,
                            _ => workspace_length(&mut random, enough),
                        },
                    };
                    run.draw(&case, Some(&grammar), &judgement);
                }
            }
        }
    }
}

/// Short notes, and some that are too long or hold an unknown token, by all that may pass for a
/// grammar.
fn damaged_grammars(run: &mut Run) {
    for (name, draw) in generate::FAMILIES {
        let mut random = Random::new(3);
        for _ in 0..DRAWN_PER_FAMILY {
            let bytes = draw(&mut random);
            let length = match random.below(8) {
                0 => random.between(LONGEST_NOTE, LONGEST_NOTE + 40),
                _ => random.below(6),
            };
            let mut token = || random.pick(&[1, 1, 1, 1, 2, 2, 3]);
            let mut note: Vec<u16> = (0..length).map(|_| token()).collect();
            if random.chance(15) {
                note.push(0);
            }
            let grammar = second_checker::read(&bytes).ok();
            let places = grammar.as_ref().map_or(0, Grammar::places);
            let enough = space(places, note.len().min(LONGEST_NOTE));
            let longest_row = 40;
            let judgement = Judgement::of(&bytes, &note, longest_row);
            let case = Case {
                origin: name,
                grammar: &bytes,
                note: &note,
                row: row_length(&mut random, &judgement, longest_row),
                workspace: workspace_length(&mut random, enough),
            };
            run.draw(&case, grammar.as_ref(), &judgement);
        }
    }
}
