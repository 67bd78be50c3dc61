//! The time of one reading: quick over a cache that has learned the note, quick over a freshly begun cache (the time of beginning taken off), plain,
//! and the grammar check alone, side by side.
//! `run` builds it.
#![deny(unsafe_code)]

#[path = "support/grammars.rs"]
mod grammars;
#[allow(dead_code)]
#[path = "../tests/support/notes.rs"]
mod notes;
#[allow(dead_code)]
#[path = "../tests/support/random.rs"]
mod random;
#[allow(dead_code)]
#[path = "../tests/support/second_checker.rs"]
mod second_checker;
#[allow(dead_code)]
#[path = "../tests/support/second_parser.rs"]
mod second_parser;
#[path = "support/timing.rs"]
mod timing;
#[allow(dead_code)]
#[path = "../tests/support/tree.rs"]
mod tree;

use allstar::calls;
use grammars::{chain, dense, ordinary, token};
use notes::Source;
use random::Random;
use second_parser::Judgement;
use std::collections::BTreeSet;
use std::hint::black_box;
use tree::{from_hex, Grammar};

/// Entries of the row: as many as the derivation has, but no more than so many, and so many where
/// there is none.
const LONGEST_ROW: usize = 512;

/// Words of a cache with 157 slots, and its word that says how many states are held.
const CACHE: usize = 2_048 + 320 * 157;
const STATES_HELD: usize = 4;

const ROW_OF_NO_SENTENCE: usize = 16;

fn main() {
    println!(
        "{:30} {:>6} {:>6} {:>5}  {:10} {:>6} {:>10} {:>10} {:>12} {:>9}",
        "reading", "places", "tokens", "row", "answer", "states", "warm ns", "cold ns", "plain ns", "check ns"
    );
    for Case {
        name,
        grammar,
        note,
    } in cases()
    {
        let judgement = Judgement::of(&grammar, &note, LONGEST_ROW);
        let entries = &judgement.derivation.entries;
        let mut row = match entries.len() {
            0 => vec![0; ROW_OF_NO_SENTENCE],
            count => vec![0; count.min(LONGEST_ROW)],
        };
        let mut workspace = vec![0; judgement.space];
        let answer = calls::plain(&grammar, &note, &mut row, &mut workspace);
        if answer != judgement.answer(row.len(), workspace.len())
            || answer.number == 0 && row != *entries
        {
            println!("{name}: the parsers disagree");
            std::process::exit(1);
        }
        let mut cache = vec![0; CACHE];
        let mut quick_row = vec![0; row.len()];
        calls::begin(&grammar, &mut cache);
        let quickly = calls::quick(&grammar, &note, &mut quick_row, &mut cache, &mut workspace);
        if quickly != answer || quick_row != row {
            println!("{name}: the readings disagree");
            std::process::exit(1);
        }
        let states = cache[STATES_HELD];
        let mut begun = vec![0; CACHE];
        let mut fresh = vec![0; CACHE];
        let (mut cold_row, mut cold_space) = (quick_row.clone(), workspace.clone());
        let mut quick_space = workspace.clone();
        let [warm, cold, begin, plain, check] = timing::nanoseconds([
            &mut || {
                let (grammar, note) = (black_box(&grammar), black_box(&note));
                black_box(calls::quick(grammar, note, &mut quick_row, &mut cache, &mut quick_space));
            },
            &mut || {
                let (grammar, note) = (black_box(&grammar), black_box(&note));
                black_box(calls::begin(grammar, &mut fresh));
                black_box(calls::quick(grammar, note, &mut cold_row, &mut fresh, &mut cold_space));
            },
            &mut || {
                black_box(calls::begin(black_box(&grammar), &mut begun));
            },
            &mut || {
                let (grammar, note) = (black_box(&grammar), black_box(&note));
                black_box(calls::plain(grammar, note, &mut row, &mut workspace));
            },
            &mut || {
                black_box(calls::check(black_box(&grammar)));
            },
        ]);
        let cold = cold - begin;
        let places = second_checker::read(&grammar).map_or(0, |grammar| grammar.places());
        println!(
            "{name:30} {places:>6} {:>6} {:>5}  {answer:10} {states:>6} {warm:>10.1} {cold:>10.1} {plain:>12.1} {check:>9.1}",
            note.len(),
            row.len()
        );
    }
}

struct Case {
    name: String,
    grammar: Vec<u8>,
    note: Vec<u16>,
}

/// Chosen notes of a file, as their numbers from 1 on.
fn of_file(name: &str, hex: &str, notes: &str, chosen: &[usize]) -> Vec<Case> {
    let lines: Vec<&str> = notes.lines().collect();
    let case = |&number: &usize| Case {
        name: format!("{name}, note {number}"),
        grammar: from_hex(hex),
        note: lines[number - 1]
            .split(' ')
            .map(|token| token.parse().unwrap())
            .collect(),
    };
    chosen.iter().map(case).collect()
}

fn cases() -> Vec<Case> {
    let mut cases = of_file(
        "G1",
        include_str!("cases/g1.hex"),
        include_str!("cases/g1.notes"),
        &[1, 2, 4],
    );
    cases.extend(of_file(
        "delivery",
        include_str!("cases/delivery.hex"),
        include_str!("cases/delivery.notes"),
        &[3, 4, 9, 12, 15, 20],
    ));
    cases.extend(of_file(
        "worst",
        include_str!("cases/worst.hex"),
        include_str!("cases/worst.notes"),
        &[2, 4, 5],
    ));
    let grammar = ordinary();
    let mut random = Random::new(1);
    for tokens in [16, 64, 128] {
        cases.push(Case {
            name: "ordinary, full".into(),
            grammar: grammar.encode(),
            note: sentence(&grammar, &mut random, tokens),
        });
    }
    for tokens in [16, 64, 128] {
        cases.push(Case {
            name: "dense".into(),
            grammar: dense().encode(),
            note: vec![1; tokens],
        });
    }
    let mut wrong_at_last = vec![1; 128];
    wrong_at_last[127] = 2;
    cases.push(Case {
        name: "dense, last token wrong".into(),
        grammar: dense().encode(),
        note: wrong_at_last,
    });
    for tokens in [16, 64, 128] {
        cases.push(Case {
            name: "chain up, one a pass".into(),
            grammar: chain_up().encode(),
            note: vec![1; tokens],
        });
    }
    cases
}

/// A sentence of so many tokens, and not of nested brackets alone: of many different tokens.
fn sentence(grammar: &Grammar, random: &mut Random, tokens: usize) -> Vec<u16> {
    let source = Source::new(grammar);
    loop {
        if let Some(note) = source.sentence(random, tokens) {
            let different: BTreeSet<u16> = note.iter().copied().collect();
            if note.len() == tokens && different.len() >= 4 + tokens / 8 {
                return note;
            }
        }
    }
}

/// All rows of up to 128 tokens, and beyond, in very many ways; but each nonterminal consists of the seven
/// before it.  Whoever goes through them again and again from the last to the first learns all about
/// one of them in each round.
fn chain_up() -> Grammar {
    let order: Vec<usize> = (1..32).chain([0]).collect();
    chain(&order, vec![vec![], vec![token(1)]])
}
