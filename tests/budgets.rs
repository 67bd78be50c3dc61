//! Tests that no answer depends on whether a reading chose by ends on demand or by the derivation
//! cells: readings whose search may spend no more than a cap, down to nothing, against those of the
//! library, against the second parser, the second learner and the second reading.
#![deny(unsafe_code)]

#[allow(dead_code)]
#[path = "../bench/support/grammars.rs"]
mod bench_grammars;
#[path = "support/budget_corners.rs"]
mod budget_corners;
#[path = "support/budget_desk.rs"]
mod budget_desk;
#[path = "support/budget_lists.rs"]
mod budget_lists;
#[path = "support/budget_styles.rs"]
mod budget_styles;
#[path = "support/budget_trials.rs"]
mod budget_trials;
#[allow(unsafe_code)]
#[path = "support/budgets_c.rs"]
mod budgets_c;
#[allow(dead_code)]
#[path = "support/cache_words.rs"]
mod cache_words;
#[allow(dead_code)]
#[path = "support/edges.rs"]
mod edges;
#[path = "support/foreign.rs"]
mod foreign;
#[allow(dead_code)]
#[path = "support/generate.rs"]
mod generate;
#[allow(dead_code)]
#[path = "support/lengths.rs"]
mod lengths;
#[path = "support/lent.rs"]
mod lent;
#[path = "support/notes.rs"]
mod notes;
#[allow(dead_code)]
#[path = "support/other_caches.rs"]
mod other_caches;
#[path = "support/random.rs"]
mod random;
#[path = "support/second_checker.rs"]
mod second_checker;
#[allow(dead_code)]
#[path = "support/second_learner.rs"]
mod second_learner;
#[path = "support/second_parser.rs"]
mod second_parser;
#[path = "support/second_reader.rs"]
mod second_reader;
#[allow(dead_code)]
#[path = "support/styles.rs"]
mod styles;
#[path = "support/tally.rs"]
mod tally;
#[path = "support/tiny.rs"]
mod tiny;
#[path = "support/tree.rs"]
mod tree;
#[allow(dead_code)]
#[path = "support/worked.rs"]
mod worked;

use budget_corners::{Drawn, Way};
use budget_desk::{fail, Case, Expected, LONGEST_SPACE, UNCAPPED};
use budget_styles::slack;
use budget_trials::{Run, Trials};
use lengths::row_length;
use notes::Source;
use random::Random;
use second_parser::{replay, Judgement};
use tree::Grammar;

/// Of the tiny grammars every so manyth is taken, with notes of up to so many tokens.
const EVERY_TINY: usize = 150;
const TOKENS_BY_TINY: usize = 4;

/// Notes of at most so many tokens are read with every cap.
const TOKENS_BY_ALL_CAPS: usize = 5;

/// For the second parser, which recurses once for each place and position that is open at most.
const STACK: usize = 1 << 26;

fn main() {
    let tests = std::thread::Builder::new().stack_size(STACK).spawn(test);
    if tests.unwrap().join().is_err() {
        fail("the tests broke off");
    }
}

fn test() {
    let mut run = Run::new();
    benchmarks(&mut run);
    tiny_grammars(&mut run);
    for style in budget_styles::all() {
        let mut random = Random::new(1);
        for nth in 0..style.grammars {
            let grammar = style.grammar(&mut random);
            let source = Source::new(&grammar);
            for _ in 0..style.notes {
                let note = style.note(&source, &mut random, style.tokens);
                plain_readings(&mut run, style.name, &grammar, &note, &mut random);
            }
            budget_lists::draw(&mut run, &style, &grammar, nth, &mut random);
        }
    }
    run.finish();
}

/// The notes of the benchmarks, whose answers are written down.
fn benchmarks(run: &mut Run) {
    let mut random = Random::new(2);
    for reading in worked::benchmarks() {
        let grammar = second_checker::read(&reading.grammar).expect("a sound grammar");
        let judgement = Judgement::of(&reading.grammar, &reading.note, reading.row);
        if judgement.answer(reading.row, judgement.space) != reading.answer {
            fail(&format!("{}: not what is written down", reading.why));
        }
        if reading.row > 0 && reading.answer.number != 14 {
            plain_readings(run, "benchmarks", &grammar, &reading.note, &mut random);
        }
    }
}

/// Short notes by tiny grammars, with every cap.
fn tiny_grammars(run: &mut Run) {
    let mut random = Random::new(3);
    let mut nth = 0;
    tiny::each_grammar(|grammar| {
        nth += 1;
        if nth % EVERY_TINY == 0 && second_checker::check(&grammar.encode()).number == 0 {
            for tokens in 0..=TOKENS_BY_TINY {
                let note = vec![1; tokens];
                plain_readings(run, "all tiny grammars", grammar, &note, &mut random);
            }
        }
    });
}

/// Plain readings of one note, with several rows, and with several caps each.
fn plain_readings(
    run: &mut Run,
    style: &'static str,
    grammar: &Grammar,
    note: &[u16],
    random: &mut Random,
) {
    let bytes = grammar.encode();
    let longest_row = random.pick(&[20, 200, 2_000]);
    let judgement = Judgement::of(&bytes, note, longest_row);
    let count = judgement.derivation.entries.len().min(longest_row);
    let drawn = row_length(random, &judgement, longest_row);
    let mut rows = vec![0, count.saturating_sub(1), count, drawn];
    rows.sort();
    rows.dedup();
    let mut judging = None;
    let mut cells = None;
    for row in rows {
        let more = random.pick(&[0, 0, 0, 1, 3_000]);
        let workspace = (judgement.space + more).min(LONGEST_SPACE);
        let answer = judgement.answer(row, workspace);
        let case = Case {
            origin: style,
            grammar: &bytes,
            note,
            row,
            workspace,
            cache: None,
            earlier: &[],
        };
        let expected = Expected {
            answer,
            entries: match answer.number {
                0 => &judgement.derivation.entries,
                _ => &[],
            },
            cache: &[],
        };
        if !matches!(answer.number, 0 | 10 | 14) {
            run.read(&case, &[0, 7, UNCAPPED], &expected);
            continue;
        }
        if answer.number == 0 && replay(grammar, expected.entries).as_deref() != Some(note) {
            case.fail(None, "the entries don't derive the note");
        }
        let cells = cells.get_or_insert_with(|| {
            let short = Case {
                workspace: judgement.space - 1,
                ..case
            };
            let refused = Expected {
                answer: judgement.answer(row, short.workspace),
                entries: &[],
                cache: &[],
            };
            run.read(&short, &[0, 7, UNCAPPED], &refused);
            run.desk.cells(&case, grammar.places(), &expected)
        });
        let mut trials = Trials::new(run, &case, &expected, cells);
        let need = trials.need();
        // The first row has no entries: nothing is taken.
        let judging = *judging.get_or_insert(need);
        trials.sweep(random, need, note.len() <= TOKENS_BY_ALL_CAPS);
        for seen in trials.seen {
            let slack = slack(grammar);
            let way = Way::of_plain(slack, seen.cap, seen.has_cells, judging, answer.number);
            let drawn = Drawn {
                slack,
                places: grammar.places(),
                tokens: note.len(),
                row,
                cap: seen.cap,
                need,
                answer,
                way: way.unwrap_or_else(|why| case.fail(Some(seen.cap), why)),
                read: None,
                learned: 0,
                slots: 0,
                is_foreign: false,
                is_sentence: answer.number != 10,
            };
            run.count(style, &drawn);
        }
    }
}
