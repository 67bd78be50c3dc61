//! A second audit, made for the tests and by other means than the library: the words are read into a
//! memory of the second learner, by the fields of docs/CACHE.md, and written again.  They are laid
//! out as documented if that gives the same words; what the memory has recorded is then worked out
//! by the second learner.
#![forbid(unsafe_code)]

use crate::cache_words::{self, Places, FULL, HELD, STATE};
use crate::second_checker;
use crate::second_learner::{Config, Configs, Held, Learner, Memory, Outcome, Said};
use crate::tree::Grammar;
use allstar::calls::Verdict;
use std::cell::RefCell;
use std::collections::{BTreeMap, BTreeSet, HashMap};

/// What the numbers of a configuration may be.
const LAST_PLACE: u32 = 256;
const ALTERNATIVES: std::ops::RangeInclusive<u32> = 1..=16;
const MOST_ENTRIES: u32 = 8;
const MOST_CONFIGS: usize = 64;

/// A sound grammar and what an audit needs to know of it.
pub struct Auditor<'g> {
    pub learner: &'g Learner<'g>,
    pub places: &'g Places,
    pub bytes: Vec<u8>,
    /// What was worked out before, by the start's decision, or by a state's configurations and a
    /// token.
    starts: RefCell<HashMap<usize, Outcome>>,
    steps: RefCell<BTreeMap<(Configs, u32), Outcome>>,
}

/// The audit of any bytes and any words.
pub fn audit(grammar: &[u8], words: &[u32]) -> Verdict {
    let verdict = second_checker::check(grammar);
    if verdict.number != 0 {
        return verdict;
    }
    let grammar = second_checker::read(grammar).expect("a sound grammar");
    let (learner, places) = (Learner::new(&grammar), Places::new(&grammar));
    Auditor::new(&learner, &places).audit(words)
}

impl<'g> Auditor<'g> {
    pub fn new(learner: &'g Learner<'g>, places: &'g Places) -> Auditor<'g> {
        Auditor {
            learner,
            places,
            bytes: learner.grammar().encode(),
            starts: RefCell::default(),
            steps: RefCell::default(),
        }
    }

    pub fn grammar(&self) -> &'g Grammar {
        self.learner.grammar()
    }

    /// Whether a nonterminal has two or more productions.
    pub fn decides(&self, nonterminal: usize) -> bool {
        let rules = &self.grammar().rules;
        rules.get(nonterminal).is_some_and(|rule| rule.len() > 1)
    }

    /// The decisions of the grammar.
    pub fn decisions(&self) -> Vec<usize> {
        let all = 0..self.grammar().rules.len();
        all.filter(|&nonterminal| self.decides(nonterminal))
            .collect()
    }

    /// The same to pick one from, or none where there are none.
    pub fn decisions_or_none(&self) -> Vec<Option<usize>> {
        match self.decisions() {
            none if none.is_empty() => vec![None],
            some => some.into_iter().map(Some).collect(),
        }
    }

    pub fn audit(&self, words: &[u32]) -> Verdict {
        let number = match () {
            _ if words.len() < cache_words::SHORTEST => 12,
            _ if !self.is_begun(words) => 13,
            _ => match self.memory(words) {
                Some(memory) if self.is_right(&memory) => 0,
                _ => 19,
            },
        };
        Verdict { number, place: 0 }
    }

    /// Whether the words that a reading looks at for 13 are those of a cache that begins.
    fn is_begun(&self, words: &[u32]) -> bool {
        let begun = cache_words::begun(&self.bytes, words.len());
        let bytes = 64..64 + self.bytes.len().div_ceil(4);
        words[1..4] == begun[1..4] && words[bytes.clone()] == begun[bytes]
    }

    /// What the words say, if they are laid out as documented.
    pub fn memory(&self, words: &[u32]) -> Option<Memory<'g>> {
        let slots = cache_words::slots(words.len());
        let held = words[HELD] as usize;
        if held > slots {
            return None;
        }
        let said = |word: u32| match word {
            1..=16 => Some(Said::Alternative(word as u8)),
            FULL => Some(Said::Full),
            _ => {
                let state = word.checked_sub(STATE)? as usize;
                (state < held).then_some(Said::State(state))
            }
        };
        let mut memory = Memory::new(self.learner, slots);
        for decision in self.decisions() {
            match words[cache_words::start_at(decision)] {
                0 => {}
                word => drop(memory.starts.insert(decision, said(word)?)),
            }
        }
        for state in 0..held {
            let decision = words[cache_words::slot_at(state)] as usize;
            if !self.decides(decision) {
                return None;
            }
            let mut steps = BTreeMap::new();
            for token in 0..=self.grammar().kinds {
                match words[cache_words::step_at(state, token)] {
                    0 => {}
                    word => drop(steps.insert(token, said(word)?)),
                }
            }
            memory.states.push(Held {
                decision,
                kept: self.kept(words, state)?,
                steps,
            });
        }
        let again = cache_words::of(&memory, self.places, &self.bytes, words.len());
        (again == words).then_some(memory)
    }

    /// The configurations of a slot, if their numbers are in range.
    fn kept(&self, words: &[u32], state: usize) -> Option<Configs> {
        let count = words[cache_words::count_at(state)] as usize;
        if count == 0 || count > MOST_CONFIGS {
            return None;
        }
        let configs = words[cache_words::configs_at(state)..][..3 * count].chunks(3);
        configs.map(|words| self.config(words)).collect()
    }

    fn config(&self, words: &[u32]) -> Option<Config> {
        let [place, alternative, entries] = [(0, 9), (9, 5), (14, 4)]
            .map(|(from, bits): (u32, u32)| words[0] >> from & ((1 << bits) - 1));
        let is_in_range =
            place <= LAST_PLACE && ALTERNATIVES.contains(&alternative) && entries <= MOST_ENTRIES;
        is_in_range.then(|| self.places.unpack(words))
    }

    /// Whether no decision has two equal states, and all that is recorded is what the rules give.
    fn is_right(&self, memory: &Memory) -> bool {
        let states = memory.states.iter();
        let different: BTreeSet<_> = states.map(|held| (held.decision, &held.kept)).collect();
        different.len() == memory.states.len()
            && memory
                .starts
                .iter()
                .all(|(&decision, &said)| self.says(memory, decision, said, &self.start(decision)))
            && memory.states.iter().all(|held| {
                held.steps.iter().all(|(&token, &said)| {
                    let outcome = self.step(&held.kept, token);
                    self.says(memory, held.decision, said, &outcome)
                })
            })
    }

    fn says(&self, memory: &Memory, decision: usize, said: Said, outcome: &Outcome) -> bool {
        match (said, outcome) {
            (Said::Full, Outcome::Full(_)) => true,
            (Said::Alternative(said), Outcome::Alternative(right)) => said == *right,
            (Said::State(number), Outcome::State(kept)) => {
                let held = &memory.states[number];
                held.decision == decision && held.kept == *kept
            }
            _ => false,
        }
    }

    /// What the rules give for the start of a decision.
    pub fn start(&self, decision: usize) -> Outcome {
        let work = || self.learner.start(decision).outcome();
        let mut starts = self.starts.borrow_mut();
        starts.entry(decision).or_insert_with(work).clone()
    }

    /// What the rules give for a step.
    pub fn step(&self, kept: &Configs, token: u32) -> Outcome {
        if let Some(outcome) = self.steps.borrow().get(&(kept.clone(), token)) {
            return outcome.clone();
        }
        let outcome = self.learner.step(kept, token).outcome();
        let mut steps = self.steps.borrow_mut();
        steps.insert((kept.clone(), token), outcome.clone());
        outcome
    }
}
