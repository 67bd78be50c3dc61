//! A second learner, made for the tests and by other means than the library: a place is a dot in a
//! production, a stack a list of dots, a set of configurations a set, and a closed set is searched
//! in depth.  What was learned stands in lists and maps; `cache_words.rs` alone knows of places and
//! words.
#![forbid(unsafe_code)]

use crate::tree::{Grammar, Symbol};
use std::collections::{BTreeMap, BTreeSet};

pub const MOST_MEMBERS: usize = 256;
pub const MOST_ENTRIES: usize = 8;
pub const MOST_KEPT: usize = 64;

/// Where a configuration stands.
#[derive(Clone, Copy, Debug, PartialEq, Eq, PartialOrd, Ord)]
pub enum Dot {
    /// Before symbol `before` of a production, counted from 0, or at its end.
    In {
        nonterminal: u8,
        production: u8,
        before: u8,
    },
    /// Behind the start symbol, before the end mark.
    AtEndMark,
    PastEndMark,
    /// In no production: a place that nobody has.  Only words that nobody recorded lead there.
    Nowhere(u16),
}

impl Dot {
    fn first(nonterminal: usize, production: usize) -> Dot {
        Dot::In {
            nonterminal: nonterminal as u8,
            production: production as u8,
            before: 0,
        }
    }

    /// Behind the symbol that this one stands before.
    fn next(self) -> Dot {
        match self {
            Dot::In {
                nonterminal,
                production,
                before,
            } => Dot::In {
                nonterminal,
                production,
                before: before + 1,
            },
            Dot::AtEndMark => Dot::PastEndMark,
            Dot::PastEndMark | Dot::Nowhere(_) => unreachable!("no symbol stands there"),
        }
    }
}

#[derive(Clone, Debug, PartialEq, Eq, PartialOrd, Ord)]
pub struct Config {
    pub dot: Dot,
    pub alternative: u8,
    /// Where to return to, the innermost last.
    pub stack: Vec<Dot>,
}

pub type Configs = BTreeSet<Config>;

/// What a dot stands before.
#[derive(PartialEq, Eq)]
enum Faced {
    /// A token, 0 for the end mark.
    Token(u32),
    Nonterminal(usize),
    /// Nothing.
    End,
}

/// The closed set, as far as it was searched: to somewhat more than the limits allow.
pub struct Closed {
    pub members: usize,
    /// The entries of the deepest stack.
    pub entries: usize,
    pub kept: Configs,
}

/// What the rules make of a closed set.
#[derive(Clone, Debug, PartialEq, Eq)]
pub enum Outcome {
    Full(Rule),
    Alternative(u8),
    State(Configs),
}

/// The rule by which an outcome is FULL.
#[derive(Clone, Copy, Debug, PartialEq, Eq)]
pub enum Rule {
    TooLarge,
    NoneKept,
    Conflict,
}

pub struct Learner<'g> {
    grammar: &'g Grammar,
    /// For each nonterminal, where an unknown caller may go on.
    callers: Vec<Vec<Dot>>,
}

impl<'g> Learner<'g> {
    pub fn new(grammar: &'g Grammar) -> Learner<'g> {
        let mut callers = vec![Vec::new(); grammar.rules.len()];
        callers[0].push(Dot::AtEndMark);
        for (own, productions) in grammar.rules.iter().enumerate() {
            for (nth, production) in productions.iter().enumerate() {
                let mut dot = Dot::first(own, nth);
                for symbol in production {
                    dot = dot.next();
                    if let Symbol::Nonterminal(called) = *symbol {
                        callers[called].push(dot);
                    }
                }
            }
        }
        Learner { grammar, callers }
    }

    pub fn grammar(&self) -> &'g Grammar {
        self.grammar
    }

    fn faced(&self, dot: Dot) -> Faced {
        match dot {
            Dot::In {
                nonterminal,
                production,
                before,
            } => {
                let rule = &self.grammar.rules[usize::from(nonterminal)];
                match rule[usize::from(production)].get(usize::from(before)) {
                    Some(&Symbol::Token(kind)) => Faced::Token(kind),
                    Some(&Symbol::Nonterminal(number)) => Faced::Nonterminal(number),
                    None => Faced::End,
                }
            }
            Dot::AtEndMark => Faced::Token(0),
            Dot::PastEndMark | Dot::Nowhere(_) => Faced::End,
        }
    }

    /// The token that a configuration faces.
    pub fn token(&self, config: &Config) -> Option<u32> {
        match self.faced(config.dot) {
            Faced::Token(kind) => Some(kind),
            _ => None,
        }
    }

    fn is_kept(&self, config: &Config) -> bool {
        config.dot == Dot::PastEndMark || self.token(config).is_some()
    }

    /// The closure moves of a configuration.
    fn moves(&self, config: &Config) -> Vec<Config> {
        let to = |&dot: &Dot, stack: &[Dot]| Config {
            dot,
            alternative: config.alternative,
            stack: stack.to_vec(),
        };
        match (self.faced(config.dot), config.stack.split_last()) {
            (Faced::Token(_), _) => Vec::new(),
            (Faced::Nonterminal(number), _) => {
                let mut stack = config.stack.clone();
                stack.push(config.dot.next());
                let productions = 0..self.grammar.rules[number].len();
                productions
                    .map(|nth| to(&Dot::first(number, nth), &stack))
                    .collect()
            }
            (Faced::End, Some((back, below))) => vec![to(back, below)],
            (Faced::End, None) => match config.dot {
                Dot::In { nonterminal, .. } => {
                    let callers = self.callers[usize::from(nonterminal)].iter();
                    callers.map(|dot| to(dot, &[])).collect()
                }
                _ => Vec::new(),
            },
        }
    }

    /// Joins a configuration and all that its moves lead to; but once a set is far too large, or
    /// from a stack that is far too deep, it does not go on.
    fn search(&self, config: Config, members: &mut Configs) {
        if members.len() > MOST_MEMBERS + 40 || members.contains(&config) {
            return;
        }
        let moves = match config.stack.len() {
            0..=MOST_ENTRIES => self.moves(&config),
            _ => Vec::new(),
        };
        members.insert(config);
        for next in moves {
            self.search(next, members);
        }
    }

    pub fn close(&self, begun: impl IntoIterator<Item = Config>) -> Closed {
        let mut members = Configs::new();
        for config in begun {
            self.search(config, &mut members);
        }
        let deepest = members.iter().map(|config| config.stack.len()).max();
        Closed {
            members: members.len(),
            entries: deepest.unwrap_or(0),
            kept: members
                .into_iter()
                .filter(|config| self.is_kept(config))
                .collect(),
        }
    }

    /// The closed set of the start of a decision.
    pub fn start(&self, decision: usize) -> Closed {
        let productions = 0..self.grammar.rules[decision].len();
        self.close(productions.map(|nth| Config {
            dot: Dot::first(decision, nth),
            alternative: nth as u8 + 1,
            stack: Vec::new(),
        }))
    }

    /// The closed set of a step over a token.
    pub fn step<'k>(&self, kept: impl IntoIterator<Item = &'k Config>, token: u32) -> Closed {
        let facing = kept
            .into_iter()
            .filter(|config| self.token(config) == Some(token));
        self.close(facing.map(|config| Config {
            dot: config.dot.next(),
            ..config.clone()
        }))
    }
}

impl Closed {
    pub fn is_too_large(&self) -> bool {
        self.members > MOST_MEMBERS || self.entries > MOST_ENTRIES || self.kept.len() > MOST_KEPT
    }

    /// The alternatives of the kept configurations, put into groups.
    fn alternatives<'a, K: Ord>(&'a self, group: fn(&'a Config) -> K) -> Vec<BTreeSet<u8>> {
        let mut groups: BTreeMap<K, BTreeSet<u8>> = BTreeMap::new();
        for config in &self.kept {
            groups
                .entry(group(config))
                .or_default()
                .insert(config.alternative);
        }
        groups.into_values().collect()
    }

    /// The one alternative of all that are kept.
    pub fn agreed(&self) -> Option<u8> {
        match self.alternatives(|_| ()).first() {
            Some(only) if only.len() == 1 => only.first().copied(),
            _ => None,
        }
    }

    /// Whether some place and stack is shared by two alternatives.
    pub fn is_shared(&self) -> bool {
        let groups = self.alternatives(|config| (config.dot, &config.stack));
        groups.iter().any(|group| group.len() > 1)
    }

    /// Whether some place belongs to only one.
    pub fn is_settled(&self) -> bool {
        let groups = self.alternatives(|config| config.dot);
        groups.iter().any(|group| group.len() == 1)
    }

    /// The first outcome that applies.
    pub fn outcome(&self) -> Outcome {
        if self.is_too_large() {
            Outcome::Full(Rule::TooLarge)
        } else if self.kept.is_empty() {
            Outcome::Full(Rule::NoneKept)
        } else if let Some(alternative) = self.agreed() {
            Outcome::Alternative(alternative)
        } else if self.is_shared() && !self.is_settled() {
            Outcome::Full(Rule::Conflict)
        } else {
            Outcome::State(self.kept.clone())
        }
    }
}

/// What a cache records, and what a prediction is told.
#[derive(Clone, Copy, Debug, PartialEq, Eq)]
pub enum Said {
    Full,
    Alternative(u8),
    State(usize),
}

/// A state that is held.
pub struct Held {
    pub decision: usize,
    pub kept: Configs,
    pub steps: BTreeMap<u32, Said>,
}

/// Where an answer came from.
pub enum Source {
    Recorded,
    Worked(Closed, Outcome, Filed),
}

/// What was done with an outcome that was worked out.
#[derive(Clone, Copy, Debug, PartialEq, Eq)]
pub enum Filed {
    /// It needs no slot.
    Plainly,
    /// A state that the decision holds already.
    AsHeld,
    InNewSlot,
    /// Nowhere: all slots are taken.
    Not,
}

/// All that a cache has learned.
pub struct Memory<'g> {
    pub learner: &'g Learner<'g>,
    pub slots: usize,
    pub starts: BTreeMap<usize, Said>,
    pub states: Vec<Held>,
}

impl<'g> Memory<'g> {
    pub fn new(learner: &'g Learner<'g>, slots: usize) -> Memory<'g> {
        Memory {
            learner,
            slots,
            starts: BTreeMap::new(),
            states: Vec::new(),
        }
    }

    pub fn start(&mut self, decision: usize) -> (Said, Source) {
        if let Some(&said) = self.starts.get(&decision) {
            return (said, Source::Recorded);
        }
        let closed = self.learner.start(decision);
        let outcome = closed.outcome();
        let (said, filed) = self.file(decision, &outcome);
        if filed != Filed::Not {
            self.starts.insert(decision, said);
        }
        (said, Source::Worked(closed, outcome, filed))
    }

    pub fn step(&mut self, state: usize, token: u32) -> (Said, Source) {
        let held = &self.states[state];
        if let Some(&said) = held.steps.get(&token) {
            return (said, Source::Recorded);
        }
        let closed = self.learner.step(&held.kept, token);
        let outcome = closed.outcome();
        let (said, filed) = self.file(held.decision, &outcome);
        if filed != Filed::Not {
            self.states[state].steps.insert(token, said);
        }
        (said, Source::Worked(closed, outcome, filed))
    }

    fn file(&mut self, decision: usize, outcome: &Outcome) -> (Said, Filed) {
        let kept = match outcome {
            Outcome::Full(_) => return (Said::Full, Filed::Plainly),
            Outcome::Alternative(number) => return (Said::Alternative(*number), Filed::Plainly),
            Outcome::State(kept) => kept,
        };
        let is_it = |held: &Held| held.decision == decision && held.kept == *kept;
        if let Some(number) = self.states.iter().position(is_it) {
            return (Said::State(number), Filed::AsHeld);
        }
        let number = self.states.len();
        if number == self.slots {
            return (Said::Full, Filed::Not);
        }
        self.states.push(Held {
            decision,
            kept: kept.clone(),
            steps: BTreeMap::new(),
        });
        (Said::State(number), Filed::InNewSlot)
    }
}
