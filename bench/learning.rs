//! The time of one start and of one step that are worked out, of an outcome that is recorded, and of
//! beginning a cache, the grammar check alone beside it: each call checks the grammar first.  `run`
//! builds it.
#![deny(unsafe_code)]

#[allow(dead_code)]
#[path = "../tests/support/cache_words.rs"]
mod cache_words;
#[allow(dead_code)]
#[path = "support/grammars.rs"]
mod grammars;
#[allow(unsafe_code)]
#[path = "../tests/support/learning_c.rs"]
mod learning_c;
#[allow(dead_code)]
#[path = "../tests/support/near_limits.rs"]
mod near_limits;
#[allow(dead_code)]
#[path = "../tests/support/random.rs"]
mod random;
#[allow(dead_code)]
#[path = "../tests/support/second_checker.rs"]
mod second_checker;
#[allow(dead_code)]
#[path = "../tests/support/second_learner.rs"]
mod second_learner;
#[path = "support/timing.rs"]
mod timing;
#[allow(dead_code)]
#[path = "../tests/support/tree.rs"]
mod tree;

use allstar::calls;
use cache_words::{Places, HELD};
use grammars::{dense, ordinary};
use second_learner::{Configs, Held, Learner, Memory, Outcome, Said, Source};
use std::collections::{BTreeMap, BTreeSet};
use std::hint::black_box;
use tree::{from_hex, Grammar};

/// States that are stepped from, and steps that are timed, at most; of more, some of each sort.
const MOST_STATES: usize = 300;
const MOST_STEPS: usize = 25;

/// Slots of the caches that begin.
const SLOTS: [usize; 2] = [1, 157];

fn main() {
    println!(
        "{:16} {:>6} | {:>6} {:>9} {:>9} | {:>6} {:>9} {:>9} | {:>8} {:>8} {:>8} {:>8}",
        "nanoseconds",
        "places",
        "starts",
        "median",
        "highest",
        "steps",
        "median",
        "highest",
        "recorded",
        "begin",
        format!("{} slots", SLOTS[1]),
        "check"
    );
    for (name, grammar) in cases() {
        let bytes = grammar.encode();
        let learner = Learner::new(&grammar);
        let places = Places::new(&grammar);
        let (starts, steps) = worked_out(&learner, &places, &bytes);
        let [starts, steps] = [starts, steps].map(|questions| {
            let mut times: Vec<f64> = questions
                .into_iter()
                .map(|question| question.nanoseconds(name, &bytes))
                .collect();
            times.sort_by(f64::total_cmp);
            times
        });
        let mut recorded = begun(&bytes, SLOTS[0]);
        learning_c::start(&bytes, &mut recorded, 0);
        let [mut short, mut long] = SLOTS.map(|slots| begun(&bytes, slots));
        let [recorded, short, long, check] = timing::nanoseconds([
            &mut || {
                black_box(learning_c::start(black_box(&bytes), &mut recorded, 0));
            },
            &mut || {
                black_box(calls::begin(black_box(&bytes), &mut short));
            },
            &mut || {
                black_box(calls::begin(black_box(&bytes), &mut long));
            },
            &mut || {
                black_box(calls::check(black_box(&bytes)));
            },
        ]);
        println!(
            "{name:16} {:>6} | {} | {} | {recorded:>8.1} {short:>8.1} {long:>8.1} {check:>8.1}",
            grammar.places(),
            summary(&starts),
            summary(&steps),
        );
    }
}

/// How many times there are, the median and the highest.
fn summary(sorted: &[f64]) -> String {
    let count = sorted.len();
    match sorted.last() {
        Some(highest) => format!("{count:>6} {:>9.1} {highest:>9.1}", sorted[count / 2]),
        None => format!("{count:>6} {:>9} {:>9}", "", ""),
    }
}

fn cases() -> Vec<(&'static str, Grammar)> {
    let of_file = |hex| second_checker::read(&from_hex(hex)).unwrap();
    vec![
        ("G1", of_file(include_str!("cases/g1.hex"))),
        ("delivery", of_file(include_str!("cases/delivery.hex"))),
        ("worst", of_file(include_str!("cases/worst.hex"))),
        ("ordinary, full", ordinary()),
        ("dense", dense()),
        ("256 members", near_limits::many_members(23, 10, 1, true)),
        ("64 kept", near_limits::many_kept(16, 4, 0)),
    ]
}

fn begun(grammar: &[u8], slots: usize) -> Vec<u32> {
    cache_words::begun(grammar, cache_words::length(slots))
}

/// A question to a cache where it is not recorded, and two words that make the cache as it was.
struct Question {
    cache: Vec<u32>,
    decision: usize,
    /// None for a start; a step is from state 0.
    token: Option<u32>,
    reset: [(usize, u32); 2],
    answer: u32,
}

impl Question {
    fn ask(&mut self, grammar: &[u8]) -> u32 {
        for (at, word) in self.reset {
            self.cache[at] = word;
        }
        match self.token {
            None => learning_c::start(grammar, &mut self.cache, self.decision as u32),
            Some(token) => learning_c::step(grammar, &mut self.cache, 0, token),
        }
    }

    fn nanoseconds(mut self, name: &str, grammar: &[u8]) -> f64 {
        if self.ask(grammar) != self.answer {
            println!("{name}: the learners disagree");
            std::process::exit(1);
        }
        let [time] = timing::nanoseconds([&mut || {
            black_box(self.ask(black_box(grammar)));
        }]);
        time
    }
}

/// The starts of all decisions, and steps over tokens that the states which they lead to face.
fn worked_out(
    learner: &Learner,
    places: &Places,
    grammar: &[u8],
) -> (Vec<Question>, Vec<Question>) {
    let mut memory = Memory::new(learner, MOST_STATES);
    let rules = learner.grammar().rules.iter().enumerate();
    let decisions = rules.filter(|(_, rule)| rule.len() > 1);
    let starts: Vec<Question> = decisions
        .map(|(decision, _)| Question {
            cache: begun(grammar, 1),
            decision,
            token: None,
            reset: [(HELD, 0), (cache_words::start_at(decision), 0)],
            answer: answer(&memory.start(decision).1, &[]),
        })
        .collect();
    let mut steps = Vec::new();
    let mut state = 0;
    while state < memory.states.len() {
        let kept = memory.states[state].kept.clone();
        let decision = memory.states[state].decision;
        let tokens: BTreeSet<u32> = (kept.iter())
            .filter_map(|config| learner.token(config))
            .collect();
        let mut only = Memory::new(learner, 2);
        only.states.push(Held {
            decision,
            kept: kept.clone(),
            steps: BTreeMap::new(),
        });
        for token in tokens {
            steps.push(Question {
                cache: cache_words::of(&only, places, grammar, cache_words::length(2)),
                decision,
                token: Some(token),
                reset: [(HELD, 1), (cache_words::step_at(0, token), 0)],
                answer: answer(&memory.step(state, token).1, &[&kept]),
            });
        }
        state += 1;
    }
    let every = steps.len().div_ceil(MOST_STEPS).max(1);
    (starts, steps.into_iter().step_by(every).collect())
}

/// The word of an outcome that was worked out, where these states alone are held.
fn answer(source: &Source, held: &[&Configs]) -> u32 {
    let Source::Worked(_, outcome, _) = source else {
        unreachable!("asked once");
    };
    cache_words::word(match outcome {
        Outcome::Full(_) => Said::Full,
        Outcome::Alternative(number) => Said::Alternative(*number),
        Outcome::State(kept) => {
            let known = held.iter().position(|other| *other == kept);
            Said::State(known.unwrap_or(held.len()))
        }
    })
}
