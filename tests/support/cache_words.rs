//! The words of a cache by the documented layout: those that a memory of the second learner is
//! written in, and what asking does to any words, whoever wrote them.
#![forbid(unsafe_code)]

use crate::second_learner::{Config, Configs, Dot, Filed, Learner, Memory, Outcome, Said};
use crate::tree::Grammar;

const BEFORE_SLOTS: usize = 2_048;
const OF_A_SLOT: usize = 320;
pub const MOST_SLOTS: usize = 1_024;
pub const SHORTEST: usize = 2_368;

/// Decisions and tokens that have words, in any grammar.
pub const DECISIONS: usize = 32;
pub const HIGHEST_TOKEN: u32 = 100;

pub const HELD: usize = 4;
const BYTES: usize = 64;
const MOST_CONFIGS: usize = 64;

pub const FULL: u32 = 17;
pub const STATE: u32 = 18;

/// The slots of a cache of so many words, and the words of the shortest cache of so many slots.
pub fn slots(length: usize) -> usize {
    (length.saturating_sub(BEFORE_SLOTS) / OF_A_SLOT).min(MOST_SLOTS)
}

pub fn length(slots: usize) -> usize {
    BEFORE_SLOTS + OF_A_SLOT * slots
}

pub fn start_at(decision: usize) -> usize {
    32 + decision
}

pub fn slot_at(state: usize) -> usize {
    length(state)
}

pub fn count_at(state: usize) -> usize {
    slot_at(state) + 1
}

pub fn step_at(state: usize, token: u32) -> usize {
    slot_at(state) + 2 + token as usize
}

pub fn configs_at(state: usize) -> usize {
    slot_at(state) + 128
}

/// Whether the words are the same; if not, the first that differ are printed.
pub fn same(found: &[u32], expected: &[u32]) -> bool {
    let differing = |(_, (found, expected)): &(usize, (&u32, &u32))| found != expected;
    let words = found.iter().zip(expected).enumerate();
    for (at, (found, expected)) in words.filter(differing).take(20) {
        let name = named(at);
        println!("word {at}, {name}: {found}, expected {expected}");
    }
    found == expected
}

/// What a word is for.
pub fn named(at: usize) -> String {
    let Some(beyond) = at.checked_sub(BEFORE_SLOTS) else {
        return match at {
            1 | 2 => "the cache's length".into(),
            3 => "the number of grammar bytes".into(),
            HELD => "the number of states".into(),
            32..=63 => format!("the start of {}", at - 32),
            BYTES.. => format!("grammar bytes from {} on", 4 * (at - BYTES)),
            _ => "a word without use".into(),
        };
    };
    let what = match beyond % OF_A_SLOT {
        0 => "the decision".into(),
        1 => "the number of configurations".into(),
        it @ 2..=102 => format!("the step over {}", it - 2),
        it @ 128.. => format!("configuration {}", (it - 128) / 3),
        _ => "a word without use".into(),
    };
    format!("slot {}, {what}", beyond / OF_A_SLOT)
}

/// The words of a cache that has just begun.
pub fn begun(grammar: &[u8], length: usize) -> Vec<u32> {
    let mut words = vec![0; length];
    words[1] = length as u32;
    words[2] = (length as u64 >> 32) as u32;
    words[3] = grammar.len() as u32;
    for (word, bytes) in words[BYTES..].iter_mut().zip(grammar.chunks(4)) {
        let byte = |at: usize| bytes.get(at).copied().unwrap_or(0);
        *word = u32::from_le_bytes([byte(0), byte(1), byte(2), byte(3)]);
    }
    words
}

pub fn word(said: Said) -> u32 {
    match said {
        Said::Alternative(number) => u32::from(number),
        Said::Full => FULL,
        Said::State(number) => STATE + number as u32,
    }
}

/// The numbers of a grammar's places.
pub struct Places {
    /// Which dot each place is.
    dots: Vec<Dot>,
}

const AT_END_MARK: usize = 255;
const PAST_END_MARK: usize = 256;

impl Places {
    pub fn new(grammar: &Grammar) -> Places {
        let mut dots = Vec::new();
        for (nonterminal, productions) in grammar.rules.iter().enumerate() {
            for (nth, production) in productions.iter().enumerate() {
                dots.extend((0..=production.len()).map(|before| Dot::In {
                    nonterminal: nonterminal as u8,
                    production: nth as u8,
                    before: before as u8,
                }));
            }
        }
        Places { dots }
    }

    fn place(&self, dot: Dot) -> usize {
        match dot {
            // They stand in the order of the bytes.
            Dot::In { .. } => self.dots.binary_search(&dot).unwrap(),
            Dot::AtEndMark => AT_END_MARK,
            Dot::PastEndMark => PAST_END_MARK,
            Dot::Nowhere(place) => usize::from(place),
        }
    }

    fn dot(&self, place: usize) -> Dot {
        match place {
            AT_END_MARK => Dot::AtEndMark,
            PAST_END_MARK => Dot::PastEndMark,
            _ => match self.dots.get(place) {
                Some(&dot) => dot,
                None => Dot::Nowhere(place as u16),
            },
        }
    }

    /// The two halves of a configuration's packed value.
    fn packed(&self, config: &Config) -> (u64, u32) {
        let place = self.place(config.dot) as u32;
        let entries = config.stack.len() as u32;
        let head = place | u32::from(config.alternative) << 9 | entries << 14;
        let outermost_first = config.stack.iter();
        let stack = outermost_first.fold(0, |value, &dot| value << 8 | self.place(dot) as u64);
        (stack, head)
    }

    /// The words of a state's configurations.
    pub fn pack(&self, kept: &Configs) -> Vec<u32> {
        let mut packed: Vec<_> = kept.iter().map(|config| self.packed(config)).collect();
        packed.sort();
        let words = |(stack, head): (u64, u32)| [head, stack as u32, (stack >> 32) as u32];
        packed.into_iter().flat_map(words).collect()
    }

    /// The configuration that any three words say.
    pub fn unpack(&self, words: &[u32]) -> Config {
        let bits = |from: u32, count: u32| words[0] >> from & ((1 << count) - 1);
        let mut rest = u64::from(words[1]) | u64::from(words[2]) << 32;
        let mut stack = Vec::new();
        for _ in 0..bits(14, 4) {
            stack.insert(0, self.dot((rest % 256) as usize));
            rest /= 256;
        }
        Config {
            dot: self.dot(bits(0, 9) as usize),
            alternative: bits(9, 5) as u8,
            stack,
        }
    }
}

/// The words of a cache that was begun for a grammar and has learned so much since.
pub fn of(memory: &Memory, places: &Places, grammar: &[u8], length: usize) -> Vec<u32> {
    let mut words = begun(grammar, length);
    words[HELD] = memory.states.len() as u32;
    for (&decision, &said) in &memory.starts {
        words[start_at(decision)] = word(said);
    }
    for (number, held) in memory.states.iter().enumerate() {
        words[slot_at(number)] = held.decision as u32;
        words[count_at(number)] = held.kept.len() as u32;
        for (&token, &said) in &held.steps {
            words[step_at(number, token)] = word(said);
        }
        let packed = places.pack(&held.kept);
        words[configs_at(number)..][..packed.len()].copy_from_slice(&packed);
    }
    words
}

/// Where an answer of any words came from.
pub enum Told {
    Recorded,
    Worked(Outcome, Filed),
}

/// Any words as the cache of a grammar.
pub struct Any<'a> {
    pub learner: &'a Learner<'a>,
    pub places: &'a Places,
    pub words: &'a mut [u32],
}

impl Any<'_> {
    /// The start of a decision: the answer, and the words after it.
    pub fn start(&mut self, decision: usize) -> (u32, Told) {
        match self.words[start_at(decision)] {
            0 => {
                let outcome = self.learner.start(decision).outcome();
                self.record(start_at(decision), decision as u32, outcome)
            }
            recorded => (recorded, Told::Recorded),
        }
    }

    /// The step from a slot over a token, for the decision that the slot names.
    pub fn step(&mut self, state: usize, token: u32) -> (u32, Told) {
        self.step_for(self.words[slot_at(state)], state, token)
    }

    /// The step from a slot over a token, for a decision that was led there.
    pub fn step_for(&mut self, decision: u32, state: usize, token: u32) -> (u32, Told) {
        match self.words[step_at(state, token)] {
            0 => {
                let configs = self.configs(state).chunks(3);
                let kept: Vec<Config> = configs.map(|words| self.places.unpack(words)).collect();
                let outcome = self.learner.step(&kept, token).outcome();
                self.record(step_at(state, token), decision, outcome)
            }
            recorded => (recorded, Told::Recorded),
        }
    }

    fn configs(&self, state: usize) -> &[u32] {
        let count = (self.words[count_at(state)] as usize).min(MOST_CONFIGS);
        &self.words[configs_at(state)..][..3 * count]
    }

    fn record(&mut self, at: usize, decision: u32, outcome: Outcome) -> (u32, Told) {
        let (said, filed) = match &outcome {
            Outcome::Full(_) => (FULL, Filed::Plainly),
            Outcome::Alternative(number) => (u32::from(*number), Filed::Plainly),
            Outcome::State(kept) => self.file(decision, &self.places.pack(kept)),
        };
        if filed != Filed::Not {
            self.words[at] = said;
        }
        (said, Told::Worked(outcome, filed))
    }

    /// The slot of these configurations.
    fn file(&mut self, decision: u32, packed: &[u32]) -> (u32, Filed) {
        let slots = slots(self.words.len());
        let next = (self.words[HELD] as usize).min(slots);
        let holds_them = |&state: &usize| {
            self.words[slot_at(state)] == decision && self.configs(state) == packed
        };
        if let Some(state) = (0..next).find(holds_them) {
            return (STATE + state as u32, Filed::AsHeld);
        }
        if next == slots {
            return (FULL, Filed::Not);
        }
        self.words[slot_at(next)] = decision;
        self.words[count_at(next)] = (packed.len() / 3) as u32;
        self.words[configs_at(next)..][..packed.len()].copy_from_slice(packed);
        self.words[HELD] += 1;
        (STATE + next as u32, Filed::InNewSlot)
    }
}
