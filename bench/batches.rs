//! The time of one note in a batch of 64, and of the same note read singly: both quick, over one cache that has
//! learned all of them, by predictions that name every alternative, so that none of them is FULL. Beside them what
//! 64 single readings do 64 times and a batch once: the check of the grammar, and the look whether the cache was
//! begun for its bytes. The look is the difference of two single readings of the first note that are refused: with
//! 13 where the last word of the bytes is another one, and with 12. What is left of a single reading without check
//! and look is what a note of a batch should take; the ratio says how near it comes.
//!
//! Each figure is the best of several runs, each of which measures all of them by turns. `run` builds it.
#![deny(unsafe_code)]

#[allow(dead_code)]
#[path = "../tests/support/cache_words.rs"]
mod cache_words;
#[allow(dead_code)]
#[path = "../tests/support/notes.rs"]
mod notes;
#[allow(dead_code)]
#[path = "../tests/support/random.rs"]
mod random;
#[allow(dead_code)]
#[path = "../tests/support/second_checker.rs"]
mod second_checker;
#[allow(dead_code)]
#[path = "../tests/support/second_learner.rs"]
mod second_learner;
#[allow(dead_code)]
#[path = "../tests/support/second_parser.rs"]
mod second_parser;
#[allow(dead_code)]
#[path = "../tests/support/second_reader.rs"]
mod second_reader;
#[path = "support/timing.rs"]
mod timing;
#[allow(dead_code)]
#[path = "../tests/support/tree.rs"]
mod tree;

use allstar::{calls, MAX_NOTES};
use notes::Source;
use random::Random;
use second_learner::{Learner, Memory};
use second_parser::space;
use second_reader::{Lessons, Stop};
use std::collections::BTreeSet;
use std::hint::black_box;
use tree::{from_hex, Grammar};

const RUNS: usize = 5;

/// Slots of the cache: more than all notes take.
const SLOTS: usize = 157;

/// Words of the shortest cache, and the first word with grammar bytes.
const SHORTEST: usize = 2_368;
const BYTES_AT: usize = 64;

fn main() {
    println!(
        "{:28} {:>6} {:>6} {:>5} {:>6} {:>9} {:>9} {:>9} {:>8} {:>11} {:>6}",
        "64 notes",
        "places",
        "tokens",
        "part",
        "states",
        "batch ns",
        "single ns",
        "check ns",
        "look ns",
        "expected ns",
        "ratio"
    );
    let g1 = grammar(include_str!("cases/g1.hex"));
    measure("G1, one token", &g1, &vec![vec![1]; MAX_NOTES]);
    let delivery = grammar(include_str!("cases/delivery.hex"));
    measure(
        "delivery, 16 tokens, no FULL",
        &delivery,
        &sentences(&delivery, 16),
    );
}

fn grammar(hex: &str) -> Grammar {
    second_checker::read(&from_hex(hex)).expect("a grammar")
}

/// As many different sentences of so many tokens as a batch has notes, read without FULL.
fn sentences(grammar: &Grammar, tokens: usize) -> Vec<Vec<u16>> {
    let source = Source::new(grammar);
    let mut random = Random::new(1);
    let mut found = BTreeSet::new();
    while found.len() < MAX_NOTES {
        let sentence = source.sentence(&mut random, tokens);
        found.extend(sentence.filter(|note| note.len() == tokens && !meets_full(grammar, note)));
    }
    found.into_iter().collect()
}

/// Whether some prediction of a note leaves it open which alternative is taken.
fn meets_full(grammar: &Grammar, note: &[u16]) -> bool {
    let learner = Learner::new(grammar);
    let mut memory = Memory::new(&learner, cache_words::MOST_SLOTS);
    let mut lessons = Lessons::default();
    let read = second_reader::read(grammar, note, usize::MAX, |decision, rest| {
        second_reader::predict(&mut memory, &mut lessons, decision, rest)
    });
    read.stop != Stop::Accepted || read.left_open > 0
}

fn measure(name: &str, grammar: &Grammar, notes: &[Vec<u16>]) {
    let bytes = grammar.encode();
    let count = notes.len();
    let tokens = notes.concat();
    let lengths: Vec<u16> = notes.iter().map(|note| note.len() as u16).collect();
    let longest = notes.iter().map(Vec::len).max().expect("notes");
    let mut workspace = vec![0; space(grammar.places(), longest)];
    let mut cache = vec![0; cache_words::length(SLOTS)];
    calls::begin(&bytes, &mut cache);

    // The cache learns all notes, and the longest derivation tells how long the parts are.
    let mut row = vec![0; 1_000];
    let mut read = |note: &Vec<u16>| calls::quick(&bytes, note, &mut row, &mut cache, &mut workspace);
    let part = notes.iter().map(|note| read(note).count as usize).max();
    let part = part.expect("notes");
    let states = cache[cache_words::HELD];
    let mut single_row = vec![0; count * part];
    for (note, row) in notes.iter().zip(single_row.chunks_mut(part)) {
        calls::quick(&bytes, note, row, &mut cache, &mut workspace);
    }
    let mut batch_row = vec![0; count * part];
    let mut answers = vec![0; 3 * count];
    let before = cache.clone();
    let verdict = calls::batch(
        &bytes,
        &tokens,
        &lengths,
        &mut answers,
        &mut batch_row,
        &mut cache,
        &mut workspace,
    );
    if notes.iter().any(|note| meets_full(grammar, note)) {
        println!("{name}: some prediction is FULL");
        std::process::exit(1);
    }
    let is_read = |answer: &[u64]| answer[0] == 0;
    if verdict.number != 0 || batch_row != single_row || cache != before || !answers.chunks(3).all(is_read) {
        println!("{name}: batch and single readings disagree");
        std::process::exit(1);
    }

    let mut single_cache = cache.clone();
    let mut single_space = workspace.clone();
    let mut foreign = cache.clone();
    foreign[BYTES_AT + (bytes.len() - 1) / 4] ^= 1;
    let mut short = cache[..SHORTEST - 1].to_vec();
    let refused = |cache: &mut [u32]| {
        let (bytes, note) = (black_box(&bytes), black_box(&notes[0]));
        calls::quick(bytes, note, &mut [], cache, &mut workspace.clone()).number
    };
    if (refused(&mut foreign), refused(&mut short)) != (13, 12) {
        println!("{name}: another cache is not refused");
        std::process::exit(1);
    }
    let (mut foreign_space, mut short_space) = (workspace.clone(), workspace.clone());
    let mut best = [f64::INFINITY; 5];
    for _ in 0..RUNS {
        let times = timing::nanoseconds([
            &mut || {
                black_box(calls::batch(
                    black_box(&bytes),
                    black_box(&tokens),
                    black_box(&lengths),
                    &mut answers,
                    &mut batch_row,
                    &mut cache,
                    &mut workspace,
                ));
            },
            &mut || {
                for (note, row) in notes.iter().zip(single_row.chunks_mut(part)) {
                    let (bytes, note) = (black_box(&bytes), black_box(note));
                    black_box(calls::quick(
                        bytes,
                        note,
                        row,
                        &mut single_cache,
                        &mut single_space,
                    ));
                }
            },
            &mut || {
                black_box(calls::check(black_box(&bytes)));
            },
            &mut || {
                let (bytes, note) = (black_box(&bytes), black_box(&notes[0]));
                black_box(calls::quick(
                    bytes,
                    note,
                    &mut [],
                    &mut foreign,
                    &mut foreign_space,
                ));
            },
            &mut || {
                let (bytes, note) = (black_box(&bytes), black_box(&notes[0]));
                black_box(calls::quick(bytes, note, &mut [], &mut short, &mut short_space));
            },
        ]);
        best = std::array::from_fn(|which| times[which].min(best[which]));
    }
    let [batch, singles, check, with_look, without_look] = best;
    let (batch, single) = (batch / count as f64, singles / count as f64);
    let look = with_look - without_look;
    let expected = single - check - look;
    print!(
        "{name:28} {:>6} {longest:>6} {part:>5} {states:>6} ",
        grammar.places()
    );
    println!(
        "{batch:>9.1} {single:>9.1} {check:>9.1} {look:>8.1} {expected:>11.1} {:>6.2}",
        batch / expected
    );
}
