//! Corners of coherent caches where an audit easily goes wrong.  The test program counts how often
//! the caches that get a yes touch each.
#![forbid(unsafe_code)]

use crate::second_audit::Auditor;
use crate::second_learner::{Memory, Said, MOST_ENTRIES, MOST_KEPT};

/// A cache that got a yes.
pub struct Told<'a> {
    pub auditor: &'a Auditor<'a>,
    pub memory: &'a Memory<'a>,
    pub length: usize,
}

impl Told<'_> {
    fn held(&self) -> usize {
        self.memory.states.len()
    }

    fn starts(&self, test: impl Fn(&Said) -> bool) -> bool {
        self.memory.starts.values().any(test)
    }

    fn steps(&self, test: impl Fn(u32, &Said) -> bool) -> bool {
        let mut states = self.memory.states.iter();
        states.any(|held| held.steps.iter().any(|(&token, said)| test(token, said)))
    }

    fn keeps(&self, count: usize) -> bool {
        self.memory
            .states
            .iter()
            .any(|held| held.kept.len() == count)
    }
}

/// A name for reports, and whether a cache touches it.
pub type Corner = (&'static str, fn(&Told) -> bool);

pub const CORNERS: [Corner; 19] = [
    ("nothing learned", |it| {
        it.held() == 0 && it.memory.starts.is_empty()
    }),
    ("all slots taken", |it| it.held() == it.memory.slots),
    ("one slot", |it| it.memory.slots == 1),
    ("a slot left", |it| it.held() + 1 == it.memory.slots),
    ("words behind the last slot", |it| {
        (it.length - 2_048) % 320 != 0
    }),
    ("a start that is FULL", |it| {
        it.starts(|said| *said == Said::Full)
    }),
    ("a start that is an alternative", |it| {
        it.starts(|said| matches!(said, Said::Alternative(_)))
    }),
    ("a start that is a state", |it| {
        it.starts(|said| matches!(said, Said::State(_)))
    }),
    ("a step that is FULL", |it| {
        it.steps(|token, said| token > 0 && *said == Said::Full)
    }),
    ("a step that is an alternative", |it| {
        it.steps(|token, said| token > 0 && matches!(said, Said::Alternative(_)))
    }),
    ("a step that is a state", |it| {
        it.steps(|_, said| matches!(said, Said::State(_)))
    }),
    ("a step over the end mark that is FULL", |it| {
        it.steps(|token, said| token == 0 && *said == Said::Full)
    }),
    ("a step over the end mark that is an alternative", |it| {
        it.steps(|token, said| token == 0 && matches!(said, Said::Alternative(_)))
    }),
    ("a step over the highest token", |it| {
        it.steps(|token, _| token == it.auditor.grammar().kinds)
    }),
    ("a step that leads back to its state", |it| {
        let states = it.memory.states.iter().enumerate();
        let mut said = states.map(|(state, held)| (state, held.steps.values()));
        said.any(|(state, mut said)| said.any(|said| *said == Said::State(state)))
    }),
    ("two decisions with the same configurations", |it| {
        let mut states = it.memory.states.iter();
        states.any(|one| {
            let mut others = it.memory.states.iter();
            others.any(|other| one.decision != other.decision && one.kept == other.kept)
        })
    }),
    ("64 configurations", |it| it.keeps(MOST_KEPT)),
    ("8 return places", |it| {
        let mut kept = it.memory.states.iter().flat_map(|held| &held.kept);
        kept.any(|config| config.stack.len() == MOST_ENTRIES)
    }),
    ("255 places", |it| {
        it.auditor.grammar().places() == 255 && it.held() > 0
    }),
];
