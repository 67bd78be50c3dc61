//! The time of one grammar check, the second checker of the tests beside it.  `run` builds it.
#![deny(unsafe_code)]

#[allow(dead_code)]
#[path = "support/grammars.rs"]
mod grammars;
#[path = "../tests/support/second_checker.rs"]
mod second_checker;
#[path = "support/timing.rs"]
mod timing;
#[allow(dead_code)]
#[path = "../tests/support/tree.rs"]
mod tree;

use allstar::calls;
use grammars::{chain, nonterminal, ordinary, token};
use std::hint::black_box;
use tree::{from_hex, Grammar};

fn main() {
    println!(
        "{:28} {:>5} {:>6}  {:10} {:>10} {:>10} {:>7}",
        "input", "bytes", "places", "answer", "library ns", "second ns", "ratio"
    );
    for (name, bytes) in cases() {
        let answer = calls::check(&bytes);
        if answer != second_checker::check(&bytes) {
            println!("{name}: the checkers disagree");
            std::process::exit(1);
        }
        let places = second_checker::read(&bytes).map(|grammar| grammar.places().to_string());
        let [library, second] = timing::nanoseconds([
            &mut || {
                black_box(calls::check(black_box(&bytes)));
            },
            &mut || {
                black_box(second_checker::check(black_box(&bytes)));
            },
        ]);
        println!(
            "{name:28} {:>5} {:>6}  {answer:10} {library:>10.1} {second:>10.1} {:>7.2}",
            bytes.len(),
            places.unwrap_or_default(),
            second / library
        );
    }
}

fn cases() -> Vec<(&'static str, Vec<u8>)> {
    let g1 = from_hex(include_str!("cases/g1.hex"));
    let delivery = from_hex(include_str!("cases/delivery.hex"));
    let worst = from_hex(include_str!("cases/worst.hex"));
    let cut = delivery[..delivery.len() - 1].to_vec();
    let followed = [&delivery[..], &[0]].concat();
    let to_and_fro = zigzag();
    vec![
        ("G1", g1),
        ("delivery", delivery),
        ("worst", worst),
        ("ordinary, full", ordinary().encode()),
        ("512 bytes", longest().encode()),
        ("nullable chain up", nullable_chain(&upwards()).encode()),
        ("nullable chain down", nullable_chain(&downwards()).encode()),
        (
            "nullable chain to and fro",
            nullable_chain(&to_and_fro).encode(),
        ),
        ("no bytes", Vec::new()),
        ("delivery, last byte missing", cut),
        ("delivery, a byte more", followed),
        ("cycle to and fro", cycle(&to_and_fro).encode()),
        ("ordinary, last one recursive", recursive().encode()),
        (
            "recursive chain to and fro",
            recursive_chain(&to_and_fro).encode(),
        ),
        ("ordinary, last one barren", barren().encode()),
        (
            "barren chain to and fro",
            barren_chain(&to_and_fro).encode(),
        ),
    ]
}

/// The ordinary grammar with a last nonterminal that derives no row, since each of its productions begins with it.
fn recursive() -> Grammar {
    let mut grammar = ordinary();
    for production in &mut grammar.rules[31] {
        production[0] = nonterminal(31);
    }
    grammar
}

/// The same, but its only production ends with it, behind tokens.
fn barren() -> Grammar {
    let mut grammar = ordinary();
    let places: usize = grammar.rules[31].iter().map(|production| production.len() + 1).sum();
    let mut production = vec![token(1); places - 2];
    production.push(nonterminal(31));
    grammar.rules[31] = vec![production];
    grammar
}

/// Whoever goes through the nonterminals again and again, in the order of their numbers or against
/// it, learns something new about one of them in each round of one of these two orders ...
fn upwards() -> Vec<usize> {
    (0..32).collect()
}

fn downwards() -> Vec<usize> {
    (0..32).rev().collect()
}

/// ... and about two in each round of either order here: 16, 15, 17, 14, 18, ...
fn zigzag() -> Vec<usize> {
    let pair = |step: usize| [16 + step, 15 - step];
    (0..16).flat_map(pair).collect()
}

/// All are nullable, each by the one before it.
fn nullable_chain(order: &[usize]) -> Grammar {
    chain(order, vec![vec![]])
}

/// None derives a row, except the last by its tokens; the first is itself.
fn recursive_chain(order: &[usize]) -> Grammar {
    chain(order, vec![vec![nonterminal(order[0])]])
}

/// The same, but the first is a token and itself.
fn barren_chain(order: &[usize]) -> Grammar {
    chain(order, vec![vec![token(1), nonterminal(order[0])]])
}

/// A way back from the first to the last: all are left recursive.
fn cycle(order: &[usize]) -> Grammar {
    let last = order[order.len() - 1];
    chain(order, vec![vec![], vec![nonterminal(last)]])
}

/// The most bytes that a grammar may have.
fn longest() -> Grammar {
    let lengths = [30, 30, 30, 30, 30, 30, 30, 30, 6];
    let rule = |length| vec![vec![token(100); length]];
    Grammar {
        kinds: 100,
        rules: lengths.map(rule).to_vec(),
    }
}
