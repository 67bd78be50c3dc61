//! Tests beginning a cache and what it learns against answers written down by hand and against the
//! second learner.
#![deny(unsafe_code)]

#[path = "support/cache_words.rs"]
mod cache_words;
#[path = "support/edges.rs"]
mod edges;
#[path = "support/foreign.rs"]
mod foreign;
#[allow(dead_code)]
#[path = "support/generate.rs"]
mod generate;
#[path = "support/learning_c.rs"]
#[allow(unsafe_code)]
mod learning_c;
#[path = "support/learning_corners.rs"]
mod learning_corners;
#[path = "support/lent.rs"]
mod lent;
#[path = "support/lessons.rs"]
mod lessons;
#[path = "support/near_limits.rs"]
mod near_limits;
#[path = "support/random.rs"]
mod random;
#[path = "support/second_checker.rs"]
mod second_checker;
#[path = "support/second_learner.rs"]
mod second_learner;
#[allow(dead_code)]
#[path = "support/styles.rs"]
mod styles;
#[path = "support/tally.rs"]
mod tally;
#[path = "support/tiny.rs"]
mod tiny;
#[path = "support/tree.rs"]
mod tree;

use allstar::calls::{self, Verdict};
use cache_words::{Any, Places, Told, HIGHEST_TOKEN};
use learning_corners::{Asked, CORNERS};
use lent::Lent;
use lessons::Lesson;
use random::Random;
use second_learner::{Filed, Learner, Memory, Outcome, Rule, Said, Source};
use std::collections::BTreeSet;
use std::fmt;
use std::process::exit;
use styles::STYLES;
use tally::Tally;
use tree::{to_hex, Grammar};

/// Begun, and refusals up to 12; beginning a cache never answers 8 to 11.
const NUMBERS: usize = 13;
const NEVER: [usize; 4] = [8, 9, 10, 11];

const TOO_SHORT: Verdict = Verdict {
    number: 12,
    place: 0,
};

/// How often each answer and each corner must come up in the drawn cases.
const LEAST_OFTEN: usize = 100;

/// Beginnings for grammars of each family.
const DRAWN_PER_FAMILY: usize = 300;

/// Questions to each cache of a drawn grammar, and to each foreign cache.
const QUESTIONS: usize = 40;
const FOREIGN_QUESTIONS: usize = 6;

/// Beyond so many slots the words are not compared after every question.
const FEW_SLOTS: usize = 100;

/// A name for reports, what draws a grammar near a limit, and how many are drawn.
type Near = (&'static str, fn(&mut Random) -> Grammar, usize);

const NEAR_LIMITS: [Near; 6] = [
    ("about 256 members", near_limits::draw_members, 1_200),
    ("about 8 entries", near_limits::draw_deep, 300),
    ("about 8 entries by steps", near_limits::draw_recursive, 100),
    ("about 64 kept", near_limits::draw_kept, 1_200),
    ("like G1", near_limits::draw_like_g1, 200),
    ("loops", near_limits::draw_loops, 400),
];

fn main() {
    let mut run = Run::new();
    for lesson in lessons::all() {
        run.teach(&lesson);
    }
    for case in edges::paper().into_iter().chain(edges::edges()) {
        run.begin_at_lengths(&case);
    }
    large_caches(&mut run);
    drawn_beginnings(&mut run);
    tiny_grammars(&mut run);
    drawn_grammars(&mut run);
    foreign_caches(&mut run);
    run.finish();
}

/// What a cache is asked for.
#[derive(Clone, Copy, Debug, PartialEq, Eq, PartialOrd, Ord)]
enum Question {
    Start(u32),
    Step(u32, u32),
}

impl Question {
    fn ask(self, grammar: &[u8], cache: &mut [u32]) -> u32 {
        match self {
            Question::Start(decision) => learning_c::start(grammar, cache, decision),
            Question::Step(state, token) => learning_c::step(grammar, cache, state, token),
        }
    }
}

impl fmt::Display for Question {
    fn fmt(&self, out: &mut fmt::Formatter) -> fmt::Result {
        match self {
            Question::Start(decision) => write!(out, "the start of {decision}"),
            Question::Step(state, token) => write!(out, "the step from {state} over {token}"),
        }
    }
}

/// How often each rule decided in the drawn questions, how often nothing was left to decide.
#[derive(Default)]
struct Outcomes {
    too_large: usize,
    none_kept: usize,
    alternatives: usize,
    conflicts: usize,
    states: usize,
    out_of_slots: usize,
    recorded: usize,
}

impl Outcomes {
    fn count(&mut self, source: &Source) {
        *match source {
            Source::Recorded => &mut self.recorded,
            Source::Worked(.., Filed::Not) => &mut self.out_of_slots,
            Source::Worked(_, outcome, _) => match outcome {
                Outcome::Full(Rule::TooLarge) => &mut self.too_large,
                Outcome::Full(Rule::NoneKept) => &mut self.none_kept,
                Outcome::Full(Rule::Conflict) => &mut self.conflicts,
                Outcome::Alternative(_) => &mut self.alternatives,
                Outcome::State(_) => &mut self.states,
            },
        } += 1;
    }
}

/// What the words of a foreign cache say to a question.
const FOREIGN: [&str; 8] = [
    "recorded",
    "FULL by rule 1",
    "FULL by rule 2",
    "an alternative by rule 3",
    "an alternative by rule 3 that no nonterminal has",
    "FULL by rule 4",
    "a state by rule 5",
    "FULL since no slot is free",
];

fn foreign_kind(source: &Told) -> usize {
    match source {
        Told::Recorded => 0,
        Told::Worked(Outcome::Full(Rule::TooLarge), _) => 1,
        Told::Worked(Outcome::Full(Rule::NoneKept), _) => 2,
        Told::Worked(Outcome::Alternative(1..=16), _) => 3,
        Told::Worked(Outcome::Alternative(_), _) => 4,
        Told::Worked(Outcome::Full(Rule::Conflict), _) => 5,
        Told::Worked(Outcome::State(_), Filed::Not) => 7,
        Told::Worked(Outcome::State(_), _) => 6,
    }
}

/// The cases so far.
struct Run {
    begun: Tally<NUMBERS>,
    questions: usize,
    drawn: usize,
    outcomes: Outcomes,
    corners: [usize; CORNERS.len()],
    foreign: [usize; FOREIGN.len()],
    grammar: Lent<u8>,
    cache: Lent<u32>,
    /// Drawn words, for what stands around what is lent and in caches before they begin.
    words: Vec<u32>,
}

impl Run {
    fn new() -> Run {
        let mut random = Random::new(1);
        let longest = cache_words::length(cache_words::MOST_SLOTS + 2);
        Run {
            begun: Tally::new("begun"),
            questions: 0,
            drawn: 0,
            outcomes: Outcomes::default(),
            corners: [0; CORNERS.len()],
            foreign: [0; FOREIGN.len()],
            grammar: Lent::new(),
            cache: Lent::new(),
            words: (0..longest).map(|_| random.next() as u32).collect(),
        }
    }

    /// Lays out what is lent.  What stands around it and how it is aligned changes from case to case:
    /// no answer may depend on it.
    fn lay(&mut self, grammar: &[u8], cache: &[u32]) {
        let nth = self.begun.cases() + self.questions;
        let around = match nth % 3 {
            0 => [0; 16],
            1 => [u32::MAX; 16],
            _ => std::array::from_fn(|at| self.words[nth % 1_000 + at]),
        };
        let bytes = around.map(|word| word as u8);
        let before = 1 + nth % 8;
        self.grammar.lay(&bytes[..before], grammar, &bytes);
        self.cache.lay(&around[..before], cache, &around);
    }

    /// Whether all but the cache is as it was.
    fn is_unchanged_around(&mut self) -> bool {
        self.grammar.is_unchanged() && self.cache.is_unchanged_around()
    }

    /// Begins a cache of so many words for all that may pass for a grammar.
    fn begin(&mut self, origin: &str, grammar: &[u8], length: usize) -> Verdict {
        let expected = match second_checker::check(grammar) {
            Verdict { number: 0, .. } if length < cache_words::SHORTEST => TOO_SHORT,
            verdict => verdict,
        };
        let before = match self.begun.cases() % 4 {
            0 => vec![0; length],
            1 => vec![u32::MAX; length],
            _ => self.words[..length].to_vec(),
        };
        self.lay(grammar, &before);
        let answer = calls::begin(self.grammar.part(), self.cache.part());
        let case = Case::new(origin, grammar, length);
        if answer != expected {
            case.fail(&format!("beginning: {answer}\nexpected: {expected}"));
        }
        if !self.is_unchanged_around() {
            case.fail("beginning changed the grammar or wrote around the cache");
        }
        let words = match answer.number {
            0 => cache_words::begun(grammar, length),
            _ => before,
        };
        case.compare(self.cache.part(), &words);
        self.begun.count(answer.number);
        answer
    }

    /// Begins caches of all lengths that make a difference for a grammar whose verdict is written
    /// down.
    fn begin_at_lengths(&mut self, case: &edges::Case) {
        for length in [0, 1, 64, 2_048, 2_367, 2_368, 2_369, 2_687, 2_688, 10_000] {
            let answer = self.begin(case.why, &case.bytes, length);
            let expected = match case.answer.number {
                0 if length <= 2_367 => TOO_SHORT,
                _ => case.answer,
            };
            if answer != expected {
                let case = Case::new(case.why, &case.bytes, length);
                case.fail(&format!("both: {answer}\nexpected: {expected}"));
            }
        }
    }

    /// Asks the cache that is lent, and compares the answer; the words are not looked at.
    fn ask(&mut self, case: &Case, question: Question, expected: u32) {
        let answer = question.ask(self.grammar.part(), self.cache.part());
        if answer != expected {
            case.fail(&format!("{question}: {answer}\nexpected: {expected}"));
        }
        if !self.is_unchanged_around() {
            case.fail(&format!(
                "{question} changed the grammar or wrote around the cache"
            ));
        }
        self.questions += 1;
    }

    /// A question that makes no sense: the answer is 0, and no word changes.
    fn ask_nonsense(&mut self, origin: &str, grammar: &[u8], cache: &[u32], question: Question) {
        self.lay(grammar, cache);
        let mut case = Case::new(origin, grammar, cache.len());
        case.asked.push(question);
        self.ask(&case, question, 0);
        case.compare(self.cache.part(), cache);
    }

    /// Predictions whose answers are written down; the second learner has to know them too.
    fn teach(&mut self, lesson: &Lesson) {
        let grammar = second_checker::read(&lesson.grammar).expect("a sound grammar");
        let learner = Learner::new(&grammar);
        let places = Places::new(&grammar);
        let length = cache_words::length(lesson.slots);
        let mut walk = Walk::begin(self, &lesson.why, &learner, &places, length);
        for (decision, tokens, answers) in &lesson.predictions {
            let mut tokens = tokens.iter();
            let mut question = Question::Start(*decision);
            for (nth, &answer) in answers.iter().enumerate() {
                let said = walk.ask(question);
                if cache_words::word(said) != answer {
                    let message = format!("{question}: both {said:?}\nexpected: {answer}");
                    walk.case.fail(&message);
                }
                match (said, tokens.next()) {
                    (Said::State(state), Some(&token)) => {
                        question = Question::Step(state as u32, token);
                    }
                    _ => assert_eq!(nth + 1, answers.len(), "{}", lesson.why),
                }
            }
        }
        let cache = walk.run.cache.part();
        if cache[cache_words::HELD] as usize != lesson.held {
            walk.case.fail(&format!("expected: {} states", lesson.held));
        }
        for (state, (decision, configs)) in lesson.states.iter().enumerate() {
            let mut words = vec![*decision, configs.len() as u32];
            for (place, alternative, stack) in configs.iter() {
                let digits = stack.iter().rev();
                let stack_value = digits.fold(0, |value, &digit| 256 * value + u64::from(digit));
                words.push(place + 512 * alternative + 16_384 * stack.len() as u32);
                words.push(stack_value as u32);
                words.push((stack_value >> 32) as u32);
            }
            let configs_at = cache_words::configs_at(state);
            let found = [
                &cache[cache_words::slot_at(state)..][..2],
                &cache[configs_at..][..words.len() - 2],
            ];
            if found.concat() != words {
                walk.case
                    .fail(&format!("expected: state {state}: {words:?}"));
            }
        }
    }

    fn finish(&self) {
        println!("drawn: {} questions", self.drawn);
        let outcomes = [
            ("FULL by rule 1", self.outcomes.too_large),
            ("FULL by rule 2", self.outcomes.none_kept),
            ("an alternative by rule 3", self.outcomes.alternatives),
            ("FULL by rule 4", self.outcomes.conflicts),
            ("a state by rule 5", self.outcomes.states),
            ("FULL since no slot is free", self.outcomes.out_of_slots),
            ("recorded", self.outcomes.recorded),
        ];
        let corners = CORNERS.iter().map(|(name, _)| *name).zip(self.corners);
        let drawn: Vec<(&str, usize)> = outcomes.into_iter().chain(corners).collect();
        for (name, times) in &drawn {
            println!("drawn: {times} {name}");
        }
        for (name, times) in FOREIGN.iter().zip(self.foreign) {
            println!("foreign: {times} {name}");
        }
        let given = (0..NUMBERS).filter(|number| !NEVER.contains(number));
        let begun = given.map(|number| self.begun.times(number));
        let drawn = drawn.iter().map(|(_, times)| *times);
        if begun
            .chain(drawn)
            .chain(self.foreign)
            .any(|n| n < LEAST_OFTEN)
        {
            fail("some answer or corner came up too rarely in the drawn cases");
        }
        println!(
            "learning: {} beginnings agree ({}), {} questions agree, {} of them to foreign caches",
            self.begun.cases(),
            self.begun,
            self.questions,
            self.foreign.iter().sum::<usize>()
        );
    }
}

/// What is lent, and what was asked, for reports.
struct Case {
    origin: String,
    grammar: Vec<u8>,
    length: usize,
    asked: Vec<Question>,
    /// The words of a foreign cache before the first question.
    foreign: Vec<u32>,
}

impl Case {
    fn new(origin: &str, grammar: &[u8], length: usize) -> Case {
        Case {
            origin: origin.into(),
            grammar: grammar.to_vec(),
            length,
            asked: Vec::new(),
            foreign: Vec::new(),
        }
    }

    /// Compares all words of the cache.
    fn compare(&self, found: &[u32], expected: &[u32]) {
        if !cache_words::same(found, expected) {
            self.fail("the words differ");
        }
    }

    fn fail(&self, message: &str) -> ! {
        println!("{}", self.origin);
        println!("grammar: {}", to_hex(&self.grammar));
        println!("cache of {} words, asked for:", self.length);
        for question in &self.asked {
            println!("  {question}");
        }
        for (at, word) in self.foreign.iter().enumerate() {
            if *word != 0 {
                println!("  word {at}, {}: {word}", cache_words::named(at));
            }
        }
        fail(message);
    }
}

fn fail(message: &str) -> ! {
    println!("{message}");
    println!("learning: FAILED");
    exit(1);
}

/// A cache of a sound grammar, and what the second learner knows of it.
struct Walk<'a> {
    run: &'a mut Run,
    case: Case,
    places: &'a Places,
    memory: Memory<'a>,
    /// The words that the cache must hold.
    expected: Vec<u32>,
    /// What was asked and not recorded.
    unrecorded: BTreeSet<Question>,
}

impl<'a> Walk<'a> {
    fn begin(
        run: &'a mut Run,
        origin: &str,
        learner: &'a Learner<'a>,
        places: &'a Places,
        length: usize,
    ) -> Walk<'a> {
        let bytes = learner.grammar().encode();
        run.begin(origin, &bytes, length);
        Walk {
            run,
            case: Case::new(origin, &bytes, length),
            places,
            memory: Memory::new(learner, cache_words::slots(length)),
            expected: cache_words::begun(&bytes, length),
            unrecorded: BTreeSet::new(),
        }
    }

    /// Asks library and second learner, and compares answers and words.
    fn ask(&mut self, question: Question) -> Said {
        let held = self.memory.states.len();
        let (decision, step) = match question {
            Question::Start(decision) => (decision as usize, None),
            Question::Step(state, token) => {
                let state = state as usize;
                (self.memory.states[state].decision, Some((state, token)))
            }
        };
        let (said, source) = match step {
            None => self.memory.start(decision),
            Some((state, token)) => self.memory.step(state, token),
        };
        self.case.asked.push(question);
        self.run.ask(&self.case, question, cache_words::word(said));
        let is_unrecorded = matches!(source, Source::Worked(.., Filed::Not));
        if self.memory.slots <= FEW_SLOTS {
            if !is_unrecorded && !matches!(source, Source::Recorded) {
                self.expect();
            }
            self.case.compare(self.run.cache.part(), &self.expected);
        }
        let asked = Asked {
            memory: &self.memory,
            held,
            decision,
            step,
            said,
            source: &source,
            is_repeated: is_unrecorded && !self.unrecorded.insert(question),
        };
        for (times, (_, touches)) in self.run.corners.iter_mut().zip(CORNERS) {
            *times += usize::from(touches(&asked));
        }
        self.run.outcomes.count(&source);
        said
    }

    /// Works out the words that the cache must hold.
    fn expect(&mut self) {
        let (grammar, length) = (&self.case.grammar, self.case.length);
        self.expected = cache_words::of(&self.memory, self.places, grammar, length);
    }

    /// Compares the words at the end.
    fn finish(mut self) {
        self.expect();
        self.case.compare(self.run.cache.part(), &self.expected);
    }

    fn grammar(&self) -> &'a Grammar {
        self.memory.learner.grammar()
    }

    /// A question, mostly one that is not recorded.
    fn draw(&self, random: &mut Random) -> Question {
        let mut question = self.draw_any(random);
        for _ in 0..2 {
            let is_recorded = match question {
                Question::Start(decision) => self.memory.starts.contains_key(&(decision as usize)),
                Question::Step(state, token) => {
                    let held = &self.memory.states[state as usize];
                    held.steps.contains_key(&token)
                }
            };
            if is_recorded && random.chance(80) {
                question = self.draw_any(random);
            }
        }
        question
    }

    /// A question about what the cache holds, mostly one that leads further.
    fn draw_any(&self, random: &mut Random) -> Question {
        let held = self.memory.states.len();
        if held == 0 || random.chance(25) {
            return Question::Start(random.below(self.grammar().rules.len()) as u32);
        }
        let state = match random.below(3) {
            0 => random.between(held.saturating_sub(3), held - 1),
            _ => random.below(held),
        };
        let kept: Vec<_> = self.memory.states[state].kept.iter().collect();
        let faced = self.memory.learner.token(random.pick(&kept));
        let kinds = self.grammar().kinds;
        let token = match random.below(20) {
            0..=12 => faced.unwrap_or(0),
            13..=15 => 0,
            16 if kinds < HIGHEST_TOKEN => {
                random.between(kinds as usize + 1, HIGHEST_TOKEN as usize) as u32
            }
            _ => random.between(0, kinds as usize) as u32,
        };
        Question::Step(state as u32, token)
    }

    /// Questions at random.
    fn wander(&mut self, random: &mut Random, questions: usize) {
        for _ in 0..questions {
            self.ask(self.draw(random));
        }
        self.run.drawn += questions;
    }

    /// All starts, and all steps from the states in their order, but no more than `most` questions.
    fn explore(&mut self, most: usize) {
        let starts = (0..self.grammar().rules.len() as u32).map(Question::Start);
        for start in starts {
            self.ask(start);
        }
        let mut asked = 0;
        let mut state = 0;
        while state < self.memory.states.len() && asked < most {
            for token in 0..=self.grammar().kinds {
                self.ask(Question::Step(state as u32, token));
                asked += 1;
            }
            state += 1;
        }
        self.run.drawn += asked + self.grammar().rules.len();
    }
}

/// Beginnings for grammars of all families, damaged ones too.
fn drawn_beginnings(run: &mut Run) {
    for (name, draw) in generate::FAMILIES {
        let mut random = Random::new(3);
        for _ in 0..DRAWN_PER_FAMILY {
            let grammar = draw(&mut random);
            let length = match random.below(4) {
                0 => random.between(2_367, 2_369),
                1 => random.below(2_368),
                _ => random.between(2_368, 6_000),
            };
            let answer = run.begin(name, &grammar, length);
            if answer.number != 0 || random.chance(5) {
                // And a cache that has begun, but not for this.
                let cache = cache_words::begun(&[1, 1, 1, 0], length.max(2_368));
                if answer.number == 12 || answer.number == 0 {
                    nonsense(run, name, &grammar, &cache, &mut random);
                    let short = vec![7; random.below(2_368)];
                    run.ask_nonsense(name, &grammar, &short, Question::Start(0));
                    run.ask_nonsense(name, &grammar, &short, Question::Step(0, 1));
                } else {
                    run.ask_nonsense(name, &grammar, &cache, Question::Start(0));
                    run.ask_nonsense(name, &grammar, &cache, Question::Step(0, 1));
                }
            }
        }
    }
}

/// Questions beyond what a sound grammar and a cache have.
fn nonsense(run: &mut Run, origin: &str, grammar: &[u8], cache: &[u32], random: &mut Random) {
    let rules = second_checker::read(grammar)
        .expect("a sound grammar")
        .rules;
    let count = rules.len() as u32;
    let slots = cache_words::slots(cache.len()) as u32;
    let beyond = |random: &mut Random, first: u32| {
        random.pick(&[first, first + 1, first + 256, 1 << 16, 1 << 31, u32::MAX])
    };
    let decision = beyond(random, count);
    let state = beyond(random, slots);
    let token = beyond(random, HIGHEST_TOKEN + 1);
    for question in [
        Question::Start(decision),
        Question::Step(state, 1),
        Question::Step(0, token),
        Question::Step(state, token),
    ] {
        run.ask_nonsense(origin, grammar, cache, question);
    }
}

/// All that caches of the tiny grammars can learn.
fn tiny_grammars(run: &mut Run) {
    let mut nth = 0;
    tiny::each_grammar(|grammar| {
        if second_checker::check(&grammar.encode()).number != 0 {
            return;
        }
        let learner = Learner::new(grammar);
        let places = Places::new(grammar);
        let slots = [1, 2, 3, 6][nth % 4];
        let length = cache_words::length(slots);
        let mut walk = Walk::begin(run, "all tiny grammars", &learner, &places, length);
        walk.explore(100);
        walk.finish();
        nth += 1;
    });
}

/// Grammars of all styles and near the limits, and several caches for each.
fn drawn_grammars(run: &mut Run) {
    for style in &STYLES {
        let mut random = Random::new(4);
        for _ in 0..style.grammars / 4 {
            let grammar = style.grammar(&mut random);
            caches(run, style.name, &grammar, &mut random);
        }
    }
    for (name, draw, count) in NEAR_LIMITS {
        let mut random = Random::new(5);
        for _ in 0..count {
            let grammar = draw(&mut random);
            caches(run, name, &grammar, &mut random);
        }
    }
}

fn caches(run: &mut Run, origin: &str, grammar: &Grammar, random: &mut Random) {
    let learner = Learner::new(grammar);
    let places = Places::new(grammar);
    for slots in [1, 2, 3, 6, random.between(7, 60)] {
        // Words that make no whole slot.
        let more = random.pick(&[0, 0, 1, 319]);
        let length = cache_words::length(slots) + more;
        let mut walk = Walk::begin(run, origin, &learner, &places, length);
        walk.wander(random, QUESTIONS);
        walk.finish();
    }
    let length = cache_words::length(random.between(1, 60));
    let mut walk = Walk::begin(run, origin, &learner, &places, length);
    walk.explore(QUESTIONS);
    walk.finish();
}

/// As many slots as are used, or nearly, and caches with more room.
fn large_caches(run: &mut Run) {
    let grammar = near_limits::many_states();
    let learner = Learner::new(&grammar);
    let places = Places::new(&grammar);
    for slots in [1_023, 1_024, 1_025, 1_026] {
        let length = cache_words::length(slots);
        let origin = format!("{slots} slots");
        let mut walk = Walk::begin(run, &origin, &learner, &places, length);
        walk.explore(3_000);
        let held = walk.memory.states.len();
        if held != slots.min(cache_words::MOST_SLOTS) {
            walk.case
                .fail(&format!("expected a full cache, not {held} states"));
        }
        walk.finish();
    }
}

/// Caches that nobody recorded: what is in the words must not lead out of the cache, and what is
/// answered is what any words say.
fn foreign_caches(run: &mut Run) {
    for style in &STYLES {
        let mut random = Random::new(6);
        for _ in 0..style.grammars / 4 {
            let grammar = style.grammar(&mut random);
            let learner = Learner::new(&grammar);
            let places = Places::new(&grammar);
            let bytes = grammar.encode();
            let slots = random.pick(&[1, 2, 3, 6, 9]);
            let length = cache_words::length(slots) + random.pick(&[0, 0, 1, 319]);
            let mut walk = Walk::begin(run, style.name, &learner, &places, length);
            walk.wander(&mut random, QUESTIONS / 3);
            let recorded = walk.run.cache.part().to_vec();
            walk.finish();
            for (name, change) in foreign::KINDS {
                let origin = format!("{}, {name}", style.name);
                let mut words = recorded.clone();
                change(&mut random, &grammar, &mut words);
                run.lay(&bytes, &words);
                let mut case = Case::new(&origin, &bytes, length);
                case.foreign = words.clone();
                for _ in 0..FOREIGN_QUESTIONS {
                    let question = foreign_question(&mut random, &grammar, &words);
                    let mut any = Any {
                        learner: &learner,
                        places: &places,
                        words: &mut words,
                    };
                    let (expected, source) = match question {
                        Question::Start(decision) => any.start(decision as usize),
                        Question::Step(state, token) => any.step(state as usize, token),
                    };
                    case.asked.push(question);
                    run.ask(&case, question, expected);
                    case.compare(run.cache.part(), &words);
                    run.foreign[foreign_kind(&source)] += 1;
                }
            }
        }
    }
}

/// Any question that makes sense, mostly one that is not recorded.
fn foreign_question(random: &mut Random, grammar: &Grammar, words: &[u32]) -> Question {
    for _ in 0..10 {
        let (question, at) = if random.chance(20) {
            let decision = random.below(grammar.rules.len());
            (
                Question::Start(decision as u32),
                cache_words::start_at(decision),
            )
        } else {
            let state = random.below(cache_words::slots(words.len()));
            let token = match random.below(8) {
                0 => random.between(0, HIGHEST_TOKEN as usize) as u32,
                1 => 0,
                _ => random.between(0, grammar.kinds as usize) as u32,
            };
            (
                Question::Step(state as u32, token),
                cache_words::step_at(state, token),
            )
        };
        if words[at] == 0 || random.chance(10) {
            return question;
        }
    }
    Question::Start(0)
}
