//! The time of an audit, beside that of working out once more all that the cache has recorded: the audit should
//! take that, and one look at every word. What is worked out is timed through the calls for single starts and
//! steps, over the same cache: each record is forgotten and asked for, and then, beside it, asked for while it is
//! there. The difference is what the outcomes take, with the search for the state that each of them names; the
//! check of the grammar and the look at 13, which each call makes, are in both.
//!
//! The caches: delivery, warmed by notes until 157 slots are held; the same just begun; one of 1,024 slots, all of
//! them held; and two that no readings leave, with 1,024 states that are hard to tell apart. Each figure is the best
//! of several runs, each of which measures all of them by turns. `run` builds it.
#![deny(unsafe_code)]

#[allow(dead_code)]
#[path = "../tests/support/cache_words.rs"]
mod cache_words;
#[allow(unsafe_code)]
#[path = "../tests/support/learning_c.rs"]
mod learning_c;
#[allow(dead_code)]
#[path = "../tests/support/near_limits.rs"]
mod near_limits;
#[allow(dead_code)]
#[path = "../tests/support/notes.rs"]
mod notes;
#[allow(dead_code)]
#[path = "../tests/support/random.rs"]
mod random;
#[allow(dead_code)]
#[path = "../tests/support/second_checker.rs"]
mod second_checker;
#[allow(dead_code)]
#[path = "../tests/support/second_learner.rs"]
mod second_learner;
#[path = "support/timing.rs"]
mod timing;
#[allow(dead_code)]
#[path = "../tests/support/tree.rs"]
mod tree;

use allstar::{calls, workspace_words};
use cache_words::HELD;
use notes::Source;
use random::Random;
use std::hint::black_box;
use tree::{from_hex, Grammar};

const RUNS: usize = 5;

/// Slots of the delivery cache, and the most notes that it takes to fill them.
const SLOTS: usize = 157;
const MOST_NOTES: usize = 100_000;

fn main() {
    println!(
        "{:24} {:>6} {:>8} {:>8} {:>10} {:>12} {:>7}",
        "microseconds", "held", "words", "records", "audit", "worked out", "ratio"
    );
    let delivery = second_checker::read(&from_hex(include_str!("cases/delivery.hex"))).unwrap();
    let many = near_limits::many_states();
    report(
        "delivery, begun",
        &delivery,
        begun(&delivery, cache_words::length(SLOTS)),
    );
    report("delivery, warmed", &delivery, warmed(&delivery));
    report("1,024 slots, filled", &many, filled(&many));
    report("1,024 states alike", &many, alike(&many, false));
    report("the same, prints equal", &many, alike(&many, true));
}

fn begun(grammar: &Grammar, length: usize) -> Vec<u32> {
    cache_words::begun(&grammar.encode(), length)
}

/// Reads notes until all slots are held.
fn warmed(grammar: &Grammar) -> Vec<u32> {
    let bytes = grammar.encode();
    let source = Source::new(grammar);
    let mut random = Random::new(1);
    let mut cache = begun(grammar, cache_words::length(SLOTS));
    let mut space = vec![0; workspace_words(grammar.places(), allstar::MAX_TOKENS)];
    let mut row = vec![0; 4_096];
    let mut read = 0;
    while (cache[HELD] as usize) < SLOTS && read < MOST_NOTES {
        let note = source.note(&mut random, 60);
        calls::quick(&bytes, &note, &mut row, &mut cache, &mut space);
        read += 1;
    }
    cache
}

/// Asks for steps from each state until all slots are held, and then for those of some more.
fn filled(grammar: &Grammar) -> Vec<u32> {
    let bytes = grammar.encode();
    let mut cache = begun(grammar, cache_words::length(cache_words::MOST_SLOTS));
    for decision in (0..grammar.rules.len()).filter(|&it| grammar.rules[it].len() > 1) {
        learning_c::start(&bytes, &mut cache, decision as u32);
    }
    let mut state = 0;
    while state < cache[HELD] {
        for token in 0..=grammar.kinds {
            learning_c::step(&bytes, &mut cache, state, token);
        }
        state += 1;
    }
    cache
}

/// All slots held by states of 64 configurations that differ in the last one alone, none of which anything leads to.
/// The audit tells states apart by a print first, the sum of their words; whoever wants to can make these equal.
fn alike(grammar: &Grammar, prints_equal: bool) -> Vec<u32> {
    const KEPT: usize = 64;
    let decision = grammar.rules.iter().position(|rule| rule.len() > 1).unwrap();
    let mut cache = begun(grammar, cache_words::length(cache_words::MOST_SLOTS));
    for state in 0..cache_words::MOST_SLOTS {
        cache[cache_words::slot_at(state)] = decision as u32;
        cache[cache_words::count_at(state)] = KEPT as u32;
        let at = cache_words::configs_at(state);
        // Places 0 to 62 of alternative 1, on an empty stack, and one on eight return places.
        for k in 0..KEPT - 1 {
            cache[at + 3 * k] = 1 << 9 | k as u32;
        }
        let last = at + 3 * (KEPT - 1);
        let low = state as u32 + 1;
        let high = if prints_equal { 2_048 - low } else { 1 };
        cache[last] = 8 << 14 | 1 << 9;
        cache[last + 1] = low;
        cache[last + 2] = high;
    }
    cache[HELD] = cache_words::MOST_SLOTS as u32;
    cache
}

/// Where something is recorded, and how it is asked for.
struct Record {
    at: usize,
    /// A decision, or a state and a token.
    question: (u32, Option<u32>),
}

fn records(grammar: &Grammar, cache: &[u32]) -> Vec<Record> {
    let mut records = Vec::new();
    for decision in 0..grammar.rules.len() {
        records.push(Record {
            at: cache_words::start_at(decision),
            question: (decision as u32, None),
        });
    }
    for state in 0..cache[HELD] {
        for token in 0..=grammar.kinds {
            records.push(Record {
                at: cache_words::step_at(state as usize, token),
                question: (state, Some(token)),
            });
        }
    }
    records.retain(|record| cache[record.at] != 0);
    records
}

fn ask(grammar: &[u8], cache: &mut [u32], record: &Record) -> u32 {
    match record.question {
        (decision, None) => learning_c::start(grammar, cache, decision),
        (state, Some(token)) => learning_c::step(grammar, cache, state, token),
    }
}

fn report(name: &str, grammar: &Grammar, cache: Vec<u32>) {
    let bytes = grammar.encode();
    if calls::audit(&bytes, &cache).number != 0 {
        println!("{name}: the audit says no");
        std::process::exit(1);
    }
    let records = records(grammar, &cache);
    let [mut forgetting, mut keeping] = [(); 2].map(|()| cache.clone());
    let mut best = [f64::MAX; 3];
    for _ in 0..RUNS {
        let times = timing::nanoseconds([
            &mut || {
                black_box(calls::audit(black_box(&bytes), black_box(&cache)));
            },
            &mut || {
                for record in &records {
                    let word = std::mem::take(&mut forgetting[record.at]);
                    let again = ask(black_box(&bytes), &mut forgetting, record);
                    assert_eq!(again, word, "{name}: another outcome");
                }
            },
            &mut || {
                for record in &records {
                    black_box(ask(black_box(&bytes), &mut keeping, record));
                }
            },
        ]);
        for (best, time) in best.iter_mut().zip(times) {
            *best = best.min(time);
        }
    }
    assert!(forgetting == cache && keeping == cache, "{name}: other words");
    let [audit, forgotten, kept] = best;
    let worked = forgotten - kept;
    let ratio = match records.len() {
        0 => String::new(),
        _ => format!("{:.2}", audit / worked),
    };
    println!(
        "{name:24} {:>6} {:>8} {:>8} {:>10.1} {:>12.1} {ratio:>7}",
        cache[HELD],
        cache.len(),
        records.len(),
        audit / 1_000.0,
        worked / 1_000.0,
    );
}
