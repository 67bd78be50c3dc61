//! Corners of what the cache learns where a learner easily goes wrong.  The test program counts how
//! often the drawn questions touch each.
#![forbid(unsafe_code)]

use crate::second_learner::{
    Closed, Filed, Held, Memory, Outcome, Rule, Said, Source, MOST_ENTRIES, MOST_KEPT, MOST_MEMBERS,
};

/// A question that was drawn, and its answer.
pub struct Asked<'a> {
    pub memory: &'a Memory<'a>,
    /// The states that were held before.
    pub held: usize,
    pub decision: usize,
    /// The state and the token of a step; none for a start.
    pub step: Option<(usize, u32)>,
    pub said: Said,
    pub source: &'a Source,
    /// It was asked before, and not recorded.
    pub is_repeated: bool,
}

impl Asked<'_> {
    fn closed(&self) -> Option<&Closed> {
        match self.source {
            Source::Recorded => None,
            Source::Worked(closed, ..) => Some(closed),
        }
    }

    fn closes(&self, test: impl Fn(&Closed) -> bool) -> bool {
        self.closed().is_some_and(test)
    }

    fn filed(&self) -> Option<Filed> {
        match self.source {
            Source::Recorded => None,
            Source::Worked(.., filed) => Some(*filed),
        }
    }

    /// Worked out and FULL by this rule.
    fn is_full_by(&self, rule: Rule) -> bool {
        match self.source {
            Source::Worked(_, Outcome::Full(by), _) => *by == rule,
            _ => false,
        }
    }

    fn is_start(&self) -> bool {
        self.step.is_none()
    }

    fn token(&self) -> Option<u32> {
        self.step.map(|(_, token)| token)
    }

    fn is_recorded(&self) -> bool {
        matches!(self.source, Source::Recorded)
    }

    /// No slot is free for a new state.
    fn is_out_of_slots(&self) -> bool {
        self.held == self.memory.slots
    }

    fn is_worked_alternative(&self) -> bool {
        !self.is_recorded() && matches!(self.said, Said::Alternative(_))
    }

    fn kinds(&self) -> u32 {
        self.memory.learner.grammar().kinds
    }

    /// The configurations of the state that was answered are those of a state of another decision.
    fn is_like_another(&self) -> bool {
        let Said::State(number) = self.said else {
            return false;
        };
        let new = &self.memory.states[number];
        let is_like = |held: &Held| held.decision != new.decision && held.kept == new.kept;
        self.filed() == Some(Filed::InNewSlot) && self.memory.states.iter().any(is_like)
    }
}

/// How far a closed set goes: its members, entries and kept.
fn sizes(closed: &Closed) -> (usize, usize, usize) {
    (closed.members, closed.entries, closed.kept.len())
}

/// A name for reports, and whether a question touches it.
pub type Corner = (&'static str, fn(&Asked) -> bool);

pub const CORNERS: [Corner; 42] = [
    ("rule 1, more than 256 members alone", |it| {
        it.closes(|closed| {
            let (members, entries, kept) = sizes(closed);
            members > MOST_MEMBERS && entries <= MOST_ENTRIES && kept <= MOST_KEPT
        })
    }),
    ("rule 1, 257 members", |it| {
        it.closes(|closed| {
            let (members, entries, kept) = sizes(closed);
            members == MOST_MEMBERS + 1 && entries <= MOST_ENTRIES && kept <= MOST_KEPT
        })
    }),
    ("no rule 1, 256 members", |it| {
        it.closes(|closed| closed.members == MOST_MEMBERS && !closed.is_too_large())
    }),
    ("rule 1, more than 8 entries alone", |it| {
        it.closes(|closed| {
            let (members, entries, kept) = sizes(closed);
            members <= MOST_MEMBERS && entries > MOST_ENTRIES && kept <= MOST_KEPT
        })
    }),
    ("rule 1, more than 8 entries, none of those kept", |it| {
        it.closes(|closed| {
            let mut kept = closed.kept.iter();
            closed.members <= MOST_MEMBERS
                && closed.entries > MOST_ENTRIES
                && kept.all(|config| config.stack.len() <= MOST_ENTRIES)
        })
    }),
    ("no rule 1, 8 entries", |it| {
        it.closes(|closed| closed.entries == MOST_ENTRIES && !closed.is_too_large())
    }),
    ("rule 1, more than 64 kept alone", |it| {
        it.closes(|closed| {
            let (members, entries, kept) = sizes(closed);
            members <= MOST_MEMBERS && entries <= MOST_ENTRIES && kept > MOST_KEPT
        })
    }),
    ("rule 1, 65 kept", |it| {
        it.closes(|closed| {
            let (members, entries, kept) = sizes(closed);
            members <= MOST_MEMBERS && entries <= MOST_ENTRIES && kept == MOST_KEPT + 1
        })
    }),
    ("no rule 1, 64 kept", |it| {
        it.closes(|closed| closed.kept.len() == MOST_KEPT && !closed.is_too_large())
    }),
    ("rule 1 at a start", |it| {
        it.is_start() && it.is_full_by(Rule::TooLarge)
    }),
    ("rule 1 at a step", |it| {
        !it.is_start() && it.is_full_by(Rule::TooLarge)
    }),
    ("rule 1, all kept have one alternative", |it| {
        it.is_full_by(Rule::TooLarge) && it.closes(|closed| closed.agreed().is_some())
    }),
    ("rule 2 at a start", |it| {
        it.is_start() && it.is_full_by(Rule::NoneKept)
    }),
    ("rule 2 over a token of the grammar", |it| {
        it.is_full_by(Rule::NoneKept)
            && it
                .token()
                .is_some_and(|token| (1..=it.kinds()).contains(&token))
    }),
    ("rule 2 over the end mark", |it| {
        it.is_full_by(Rule::NoneKept) && it.token() == Some(0)
    }),
    ("rule 2 over a token above the highest kind", |it| {
        it.is_full_by(Rule::NoneKept) && it.token().is_some_and(|token| token > it.kinds())
    }),
    ("rule 2 behind a token that some faced", |it| {
        it.is_full_by(Rule::NoneKept) && it.closes(|closed| closed.members > 0)
    }),
    ("rule 3 at the start of a decision", |it| {
        let rules = &it.memory.learner.grammar().rules;
        it.is_start() && it.is_worked_alternative() && rules[it.decision].len() > 1
    }),
    ("rule 3 at the start of a single production", |it| {
        let rules = &it.memory.learner.grammar().rules;
        it.is_start() && it.is_worked_alternative() && rules[it.decision].len() == 1
    }),
    ("rule 3 at a step", |it| {
        it.is_worked_alternative() && it.token().is_some_and(|token| token > 0)
    }),
    ("rule 3 over the end mark", |it| {
        it.is_worked_alternative() && it.token() == Some(0)
    }),
    ("rule 3, an alternative from 5 on", |it| {
        matches!(it.said, Said::Alternative(5..))
    }),
    ("rule 4 at a start", |it| {
        it.is_start() && it.is_full_by(Rule::Conflict)
    }),
    ("rule 4 at a step", |it| {
        it.is_full_by(Rule::Conflict) && it.token().is_some_and(|token| token > 0)
    }),
    ("rule 4 over the end mark", |it| {
        it.is_full_by(Rule::Conflict) && it.token() == Some(0)
    }),
    ("rule 4, some over known callers", |it| {
        let is_called = |closed: &Closed| closed.kept.iter().any(|config| !config.stack.is_empty());
        it.is_full_by(Rule::Conflict) && it.closes(is_called)
    }),
    ("rule 5, shared, but a place belongs to only one", |it| {
        matches!(it.said, Said::State(_)) && it.closes(Closed::is_shared)
    }),
    (
        "rule 5, no place belongs to only one, but none is shared",
        |it| matches!(it.said, Said::State(_)) && it.closes(|closed| !closed.is_settled()),
    ),
    ("a new state", |it| it.filed() == Some(Filed::InNewSlot)),
    ("a new state of 8 entries", |it| {
        it.filed() == Some(Filed::InNewSlot)
            && it.closes(|closed| closed.kept.iter().any(|config| config.stack.len() == 8))
    }),
    ("a new state, 255 places", |it| {
        it.filed() == Some(Filed::InNewSlot) && it.memory.learner.grammar().places() == 255
    }),
    ("a new state in the last slot", |it| {
        it.filed() == Some(Filed::InNewSlot) && it.held + 1 == it.memory.slots
    }),
    ("a new state, as another decision holds it", |it| {
        it.is_like_another()
    }),
    ("a state that is held already", |it| {
        it.filed() == Some(Filed::AsHeld)
    }),
    ("a step that leads back to its state", |it| {
        it.filed() == Some(Filed::AsHeld)
            && it.step.map(|(state, _)| Said::State(state)) == Some(it.said)
    }),
    ("no slot for a new state", |it| {
        it.filed() == Some(Filed::Not)
    }),
    ("no slot for a new state, asked again", |it| {
        it.filed() == Some(Filed::Not) && it.is_repeated
    }),
    ("no slot left, a held state recorded", |it| {
        it.is_out_of_slots() && it.filed() == Some(Filed::AsHeld)
    }),
    ("no slot left, an alternative recorded", |it| {
        it.is_out_of_slots() && it.is_worked_alternative()
    }),
    ("no slot left, FULL recorded", |it| {
        it.is_out_of_slots() && it.filed() == Some(Filed::Plainly) && it.said == Said::Full
    }),
    ("recorded: FULL", |it| {
        it.is_recorded() && it.said == Said::Full
    }),
    ("recorded: a state", |it| {
        it.is_recorded() && matches!(it.said, Said::State(_))
    }),
];
