//! Words that no reading of ours leaves, and that are coherent all the same: another program may
//! write them.
#![forbid(unsafe_code)]

use crate::cache_words;
use crate::random::Random;
use crate::second_audit::Auditor;
use crate::second_learner::{Configs, Held, Memory, Outcome, Said};
use std::collections::BTreeMap;

/// A name for reports, and what a memory becomes; none if that makes no difference.
pub type Variation = (
    &'static str,
    for<'g> fn(&Auditor<'g>, &mut Random, Memory<'g>) -> Option<Memory<'g>>,
);

pub const VARIATIONS: [Variation; 10] = [
    ("a record forgotten", |_, random, mut memory| {
        let mut places: Vec<(Option<usize>, u32)> = Vec::new();
        places.extend(memory.starts.keys().map(|&it| (None, it as u32)));
        for (state, held) in memory.states.iter().enumerate() {
            places.extend(held.steps.keys().map(|&token| (Some(state), token)));
        }
        if places.is_empty() {
            return None;
        }
        match random.pick(&places) {
            (None, decision) => drop(memory.starts.remove(&(decision as usize))),
            (Some(state), token) => drop(memory.states[state].steps.remove(&token)),
        }
        Some(memory)
    }),
    ("some records forgotten", |_, random, mut memory| {
        let mut is_kept = || random.chance(60);
        memory.starts.retain(|_, _| is_kept());
        for held in &mut memory.states {
            held.steps.retain(|_, _| is_kept());
        }
        Some(memory)
    }),
    ("all records forgotten", |_, _, mut memory| {
        memory.starts.clear();
        memory.states.iter_mut().for_each(|held| held.steps.clear());
        (!memory.states.is_empty()).then_some(memory)
    }),
    ("the last state forgotten", |_, _, memory| {
        let last = memory.states.len().checked_sub(1)?;
        Some(without(memory, last))
    }),
    ("any state forgotten", |_, random, memory| {
        if memory.states.is_empty() {
            return None;
        }
        let state = random.below(memory.states.len());
        Some(without(memory, state))
    }),
    ("slots in another order", |_, random, memory| {
        if memory.states.len() < 2 {
            return None;
        }
        let mut order: Vec<usize> = (0..memory.states.len()).collect();
        random.shuffle(&mut order);
        Some(ordered(memory, &order))
    }),
    (
        "a state that nothing leads to",
        |auditor, random, memory| {
            let kept = draw_configs(auditor, random);
            with_state(auditor, random, memory, kept)
        },
    ),
    (
        "a state that nothing leads to, its steps recorded",
        |auditor, random, memory| {
            let kept = draw_configs(auditor, random);
            let mut memory = with_state(auditor, random, memory, kept)?;
            let last = memory.states.len() - 1;
            for token in 0..=auditor.grammar().kinds.min(20) {
                record_step(auditor, &mut memory, last, token);
            }
            Some(memory)
        },
    ),
    (
        "a state once more, for another decision",
        |auditor, random, memory| {
            if memory.states.is_empty() {
                return None;
            }
            let kept = memory.states[random.below(memory.states.len())]
                .kept
                .clone();
            with_state(auditor, random, memory, kept)
        },
    ),
    (
        "all recorded that can be, no state added",
        |auditor, _, mut memory| {
            for decision in auditor.decisions() {
                if let Some(said) = expressed(&memory, decision, &auditor.start(decision)) {
                    memory.starts.insert(decision, said);
                }
            }
            for state in 0..memory.states.len().min(20) {
                for token in 0..=auditor.grammar().kinds.min(20) {
                    record_step(auditor, &mut memory, state, token);
                }
            }
            Some(memory)
        },
    ),
];

/// The words of a memory, for a cache of so many.
pub fn words(auditor: &Auditor, memory: &Memory, length: usize) -> Vec<u32> {
    cache_words::of(memory, auditor.places, &auditor.bytes, length)
}

/// The outcome as it can be recorded; a state that is not held cannot.
fn expressed(memory: &Memory, decision: usize, outcome: &Outcome) -> Option<Said> {
    match outcome {
        Outcome::Full(_) => Some(Said::Full),
        Outcome::Alternative(number) => Some(Said::Alternative(*number)),
        Outcome::State(kept) => {
            let is_it = |held: &Held| held.decision == decision && held.kept == *kept;
            memory.states.iter().position(is_it).map(Said::State)
        }
    }
}

fn record_step(auditor: &Auditor, memory: &mut Memory, state: usize, token: u32) {
    let held = &memory.states[state];
    let outcome = auditor.step(&held.kept, token);
    if let Some(said) = expressed(memory, held.decision, &outcome) {
        memory.states[state].steps.insert(token, said);
    }
}

/// The states in another order, and the records that name them.
fn ordered<'g>(mut memory: Memory<'g>, order: &[usize]) -> Memory<'g> {
    let mut numbers = vec![0; order.len()];
    for (new, &old) in order.iter().enumerate() {
        numbers[old] = new;
    }
    let mut states: Vec<Option<Held>> = memory.states.drain(..).map(Some).collect();
    memory.states = order.iter().filter_map(|&old| states[old].take()).collect();
    let steps = memory
        .states
        .iter_mut()
        .flat_map(|held| held.steps.values_mut());
    for said in memory.starts.values_mut().chain(steps) {
        if let Said::State(state) = said {
            *state = numbers[*state];
        }
    }
    memory
}

/// One state less, and all records that name it: the others move up.
fn without(memory: Memory<'_>, state: usize) -> Memory<'_> {
    let last = memory.states.len() - 1;
    let order: Vec<usize> = (0..=last)
        .filter(|&it| it != state)
        .chain([state])
        .collect();
    let mut memory = ordered(memory, &order);
    memory.states.pop();
    let is_kept = |said: &Said| *said != Said::State(last);
    memory.starts.retain(|_, said| is_kept(said));
    for held in &mut memory.states {
        held.steps.retain(|_, said| is_kept(said));
    }
    memory
}

/// A state more, for some decision, if there is a slot and the decision has no such state.
fn with_state<'g>(
    auditor: &Auditor,
    random: &mut Random,
    mut memory: Memory<'g>,
    kept: Configs,
) -> Option<Memory<'g>> {
    let decision = random.pick(&auditor.decisions_or_none())?;
    let is_it = |held: &Held| held.decision == decision && held.kept == kept;
    if memory.states.len() == memory.slots || memory.states.iter().any(is_it) {
        return None;
    }
    memory.states.push(Held {
        decision,
        kept,
        steps: BTreeMap::new(),
    });
    Some(memory)
}

/// Configurations with numbers in range, and with stacks that no closure gives.
fn draw_configs(auditor: &Auditor, random: &mut Random) -> Configs {
    let places = auditor.grammar().places();
    let count = random.pick(&[1, 1, 2, 3, 5, 20, 64]);
    let alternatives = random.pick(&[1, 2, 2, 16]);
    let deepest = random.pick(&[0, 1, 2, 8]);
    let place = |random: &mut Random| {
        let own = random.below(places);
        let any = random.below(257);
        random.pick(&[own, own, own, own, 0, 255, 256, any])
    };
    (0..count)
        .map(|_| {
            let entries = random.between(0, deepest) as u32;
            let alternative = random.between(1, alternatives) as u32;
            let head = place(random) as u32 | alternative << 9 | entries << 14;
            let digits = (0..entries).map(|_| (place(random) % 256) as u64);
            let stack = digits.fold(0, |value, digit| value << 8 | digit);
            auditor
                .places
                .unpack(&[head, stack as u32, (stack >> 32) as u32])
        })
        .collect()
}
