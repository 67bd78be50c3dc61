//! Caches that nobody recorded: drawn words, and words of a recorded cache with some of them changed.
#![forbid(unsafe_code)]

use crate::cache_words::{self, DECISIONS, FULL, HELD, HIGHEST_TOKEN, STATE};
use crate::random::Random;
use crate::tree::Grammar;

/// A name for reports, and what changes the words of a cache of a grammar.
pub type Kind = (&'static str, fn(&mut Random, &Grammar, &mut [u32]));

pub const KINDS: [Kind; 9] = [
    ("as recorded", |_, _, _| {}),
    ("some words changed", some_words),
    ("fields changed", some_fields),
    ("configurations changed", some_configs),
    ("steps forgotten", forgotten),
    ("number of states changed", number_of_states),
    (
        "steps forgotten, number of states changed",
        |random, grammar, words| {
            forgotten(random, grammar, words);
            number_of_states(random, grammar, words);
        },
    ),
    ("few bits", |random, _, words| {
        let mask = random.pick(&[1, 3, 7, 0x1f, 0x7f]);
        words.fill_with(|| random.next() as u32 & mask);
    }),
    ("any words", |random, _, words| {
        words.fill_with(|| random.next() as u32);
    }),
];

/// Words at which something changes.
fn edge(random: &mut Random) -> u32 {
    const EDGES: [u32; 16] = [
        0,
        0,
        1,
        2,
        16,
        FULL,
        STATE,
        STATE + 1,
        STATE + 9,
        63,
        64,
        65,
        255,
        1_041,
        1_042,
        u32::MAX,
    ];
    random.pick(&EDGES)
}

fn some_words(random: &mut Random, _: &Grammar, words: &mut [u32]) {
    for _ in 0..random.between(1, 20) {
        let at = random.below(words.len());
        words[at] = match random.below(2) {
            0 => edge(random),
            _ => random.next() as u32,
        };
    }
}

/// Decisions, counts, starts and steps.
fn some_fields(random: &mut Random, grammar: &Grammar, words: &mut [u32]) {
    for _ in 0..random.between(1, 8) {
        let state = random.below(cache_words::slots(words.len()));
        let at = match random.below(4) {
            0 => cache_words::slot_at(state),
            1 => cache_words::count_at(state),
            2 => cache_words::start_at(random.below(DECISIONS)),
            _ => cache_words::step_at(state, random.between(0, grammar.kinds as usize) as u32),
        };
        words[at] = edge(random);
    }
}

/// Places, alternatives, numbers of entries and entries.
fn some_configs(random: &mut Random, grammar: &Grammar, words: &mut [u32]) {
    let places = grammar.places();
    let place = |random: &mut Random| {
        let any = random.below(512);
        let own = random.below(places);
        random.pick(&[own, own, own, places, 254, 255, 256, 257, any]) as u32
    };
    for state in 0..cache_words::slots(words.len()) {
        let count = random.pick(&[1, 2, 5, 20, 64, 65]);
        words[cache_words::count_at(state)] = count;
        for nth in 0..count.min(64) as usize {
            let config = &mut words[cache_words::configs_at(state) + 3 * nth..][..3];
            let entries = random.pick(&[0, 0, 1, 1, 2, 3, 7, 8, 9, 15]);
            let alternative = random.pick(&[1, 1, 2, 2, 3, 16, 0, 17, 31]);
            config[0] = place(random) | alternative << 9 | entries << 14;
            if random.chance(5) {
                config[0] |= 1 << random.between(18, 31);
            }
            let mut digits = || place(random) % 256;
            config[1] = digits() | digits() << 8 | digits() << 16 | digits() << 24;
            config[2] = digits() | digits() << 8 | digits() << 16 | digits() << 24;
            // As a recorded one is: nothing beyond the entries.
            if random.chance(60) && entries < 8 {
                let stack = u64::from(config[1]) | u64::from(config[2]) << 32;
                let stack = stack & ((1 << (8 * entries)) - 1);
                (config[1], config[2]) = (stack as u32, (stack >> 32) as u32);
            }
        }
    }
}

fn number_of_states(random: &mut Random, _: &Grammar, words: &mut [u32]) {
    let slots = cache_words::slots(words.len()) as u32;
    let fewer = words[HELD].saturating_sub(1);
    words[HELD] = random.pick(&[0, 1, fewer, fewer, slots, slots + 1, 1 << 31, u32::MAX]);
}

/// States stay, but what steps and starts lead to is to be worked out again.
fn forgotten(random: &mut Random, _: &Grammar, words: &mut [u32]) {
    for state in 0..cache_words::slots(words.len()) {
        for token in 0..=HIGHEST_TOKEN {
            if random.chance(80) {
                words[cache_words::step_at(state, token)] = 0;
            }
        }
    }
    for decision in 0..DECISIONS {
        words[cache_words::start_at(decision)] = 0;
    }
}
