//! Tests the audit of caches against answers written down by hand and against the second audit, and
//! after a yes the readings over the words against plain ones.
#![deny(unsafe_code)]

#[path = "support/audit_corners.rs"]
mod audit_corners;
#[path = "support/audit_faults.rs"]
mod audit_faults;
#[path = "support/audit_variations.rs"]
mod audit_variations;
#[allow(dead_code)]
#[path = "support/cache_words.rs"]
mod cache_words;
#[allow(dead_code)]
#[path = "support/edges.rs"]
mod edges;
#[allow(dead_code, unsafe_code)]
#[path = "support/fence.rs"]
mod fence;
#[allow(dead_code)]
#[path = "../rust/allstar/src/ffi.rs"]
mod ffi;
#[path = "support/foreign.rs"]
mod foreign;
#[allow(dead_code)]
#[path = "support/generate.rs"]
mod generate;
#[allow(unsafe_code)]
#[path = "support/learning_c.rs"]
mod learning_c;
#[allow(dead_code)]
#[path = "support/lent.rs"]
mod lent;
#[allow(dead_code)]
#[path = "support/near_limits.rs"]
mod near_limits;
#[path = "support/notes.rs"]
mod notes;
#[path = "support/other_caches.rs"]
mod other_caches;
#[path = "support/random.rs"]
mod random;
#[path = "support/second_audit.rs"]
mod second_audit;
#[path = "support/second_checker.rs"]
mod second_checker;
#[allow(dead_code)]
#[path = "support/second_learner.rs"]
mod second_learner;
#[allow(dead_code)]
#[path = "support/styles.rs"]
mod styles;
#[path = "support/tally.rs"]
mod tally;
#[path = "support/tree.rs"]
mod tree;

use allstar::calls::{self, Answer, Verdict};
use allstar::workspace_words;
use audit_corners::{Told, CORNERS};
use audit_faults::{Coherent, FAULTS};
use audit_variations::VARIATIONS;
use cache_words::{Places, FULL, HELD, STATE};
use fence::Fence;
use lent::Lent;
use notes::Source;
use random::Random;
use second_audit::Auditor;
use second_learner::Learner;
use std::collections::BTreeMap;
use std::process::exit;
use styles::STYLES;
use tally::Tally;
use tree::{from_hex, to_hex, Grammar};

/// A yes, and refusals up to 19.
const NUMBERS: usize = 20;

/// How often each fault, each variation, each corner and each answer must come up.
const LEAST_OFTEN: usize = 20;

/// Grammars of each style, and of each family of damaged ones.
const GRAMMARS: usize = 40;
const DRAWN_PER_FAMILY: usize = 40;

/// Every so manyth audit is made once more over memory that ends at a fence and cannot be written.
const EVERY_FENCED: usize = 8;

/// The entries of a reading's row, and the words of the longest cache that is fenced.
const ROW: usize = 60;
const FENCED_WORDS: usize = 330_100;

/// A name for reports, what draws a grammar near a limit, and how many are drawn.
type Near = (&'static str, fn(&mut Random) -> Grammar, usize);

const NEAR_LIMITS: [Near; 6] = [
    ("about 256 members", near_limits::draw_members, 40),
    ("about 8 entries", near_limits::draw_deep, 100),
    ("about 8 entries by steps", near_limits::draw_recursive, 120),
    ("about 64 kept", near_limits::draw_kept, 160),
    ("like G1", near_limits::draw_like_g1, 400),
    ("loops", near_limits::draw_loops, 160),
];

fn main() {
    let mut run = Run::new();
    worked_words(&mut run);
    every_word(&mut run);
    drawn_caches(&mut run);
    large_caches(&mut run);
    damaged_grammars(&mut run);
    caches_of_others(&mut run);
    run.finish();
}

fn fail(message: &str) -> ! {
    println!("{message}");
    println!("audit: FAILED");
    exit(1);
}

/// An answer of the audit, for reports.
fn told(verdict: Verdict) -> String {
    match (verdict.number, verdict.place) {
        (0, 0) => "yes".into(),
        (number, place) => format!("{number} at {place}"),
    }
}

/// What is audited, for reports.
struct Case<'a> {
    origin: &'a str,
    grammar: &'a [u8],
    words: &'a [u32],
}

impl Case<'_> {
    fn fail(&self, message: &str) -> ! {
        println!("{}", self.origin);
        println!("grammar: {}", to_hex(self.grammar));
        println!("cache of {} words:", self.words.len());
        let shown = self
            .words
            .iter()
            .enumerate()
            .filter(|(_, word)| **word != 0);
        for (at, word) in shown.take(2_000) {
            println!("  word {at}, {}: {word}", cache_words::named(at));
        }
        fail(message);
    }
}

/// The audits so far.
struct Run {
    all: Tally<NUMBERS>,
    fenced: usize,
    readings: usize,
    /// Caches over which readings were made after a yes that none of our readings had left so.
    foreign_yes: usize,
    counts: BTreeMap<String, usize>,
    corners: [usize; CORNERS.len()],
    grammar: Lent<u8>,
    cache: Lent<u32>,
    of_grammar: Fence,
    of_cache: Fence,
    /// Drawn words, for what stands around what is lent.
    words: Vec<u32>,
}

impl Run {
    fn new() -> Run {
        let mut random = Random::new(1);
        let mut run = Run {
            all: Tally::new("yes"),
            fenced: 0,
            readings: 0,
            foreign_yes: 0,
            counts: BTreeMap::new(),
            corners: [0; CORNERS.len()],
            grammar: Lent::new(),
            cache: Lent::new(),
            of_grammar: Fence::new(),
            of_cache: Fence::with_room(4 * FENCED_WORDS),
            words: (0..10_000).map(|_| random.next() as u32).collect(),
        };
        // What must come up, so that it is seen if it does not.
        let names = FAULTS.iter().map(|(name, _)| format!("fault: {name}"));
        let others = VARIATIONS.iter().map(|(name, _)| format!("yes: {name}"));
        run.counts = names.chain(others).map(|name| (name, 0)).collect();
        run
    }

    fn count(&mut self, name: String) {
        *self.counts.entry(name).or_default() += 1;
    }

    /// Audits words for all that may pass for a grammar, and compares with what is expected.  What
    /// stands around what is lent, and how it is aligned, changes from case to case.
    fn audit(&mut self, origin: &str, grammar: &[u8], words: &[u32], expected: Verdict) {
        let nth = self.all.cases();
        let case = Case {
            origin,
            grammar,
            words,
        };
        let around: [u32; 16] = match nth % 3 {
            0 => [0; 16],
            1 => [u32::MAX; 16],
            _ => std::array::from_fn(|at| self.words[nth % 1_000 + at]),
        };
        let bytes = around.map(|word| word as u8);
        let before = 1 + nth % 8;
        self.grammar.lay(&bytes[..before], grammar, &bytes);
        self.cache.lay(&around[..before], words, &around);
        let garbage = u64::from(around[0]) << 32 | u64::from(around[0]);
        let verdict = calls::audit_over(self.grammar.part(), self.cache.part(), garbage);
        if verdict != expected {
            let [verdict, expected] = [verdict, expected].map(told);
            case.fail(&format!("library: {verdict}\nexpected: {expected}"));
        }
        if !self.grammar.is_unchanged() || !self.cache.is_unchanged() {
            case.fail("the call wrote to grammar or cache or what stands around them");
        }
        if nth % EVERY_FENCED == 0 && words.len() <= FENCED_WORDS && grammar.len() <= 4_096 {
            let fenced = Fence::audit(&mut self.of_grammar, &mut self.of_cache, grammar, words);
            if fenced != expected {
                let [fenced, expected] = [fenced, expected].map(told);
                case.fail(&format!("fenced: {fenced}\nexpected: {expected}"));
            }
            self.fenced += 1;
        }
        self.all.count(verdict.number);
    }

    /// Audits words for a sound grammar; answers the number.
    fn judge(&mut self, origin: &str, auditor: &Auditor, words: &[u32]) -> u32 {
        let expected = auditor.audit(words);
        self.audit(origin, &auditor.bytes, words, expected);
        expected.number
    }

    /// The same where the number is known beforehand: both audits must say so.
    fn expect(&mut self, origin: &str, auditor: &Auditor, words: &[u32], number: u32) {
        let found = self.judge(origin, auditor, words);
        if found != number {
            let case = Case {
                origin,
                grammar: &auditor.bytes,
                words,
            };
            case.fail(&format!("both: {found}\nexpected: {number}"));
        }
    }

    /// Readings over words that got a yes: each answers as the plain one does, those that come a
    /// second time change no word, and what they leave gets a yes again.
    fn read_after_yes(
        &mut self,
        origin: &str,
        auditor: &Auditor,
        words: &[u32],
        notes: &[Vec<u16>],
    ) {
        let mut cache = words.to_vec();
        let mut learned = Vec::new();
        for pass in 0..2 {
            for note in notes {
                let answer = read(&auditor.bytes, auditor.grammar(), note, Some(&mut cache));
                let plain = read(&auditor.bytes, auditor.grammar(), note, None);
                if answer != plain {
                    let case = Case {
                        origin,
                        grammar: &auditor.bytes,
                        words,
                    };
                    case.fail(&format!("note {note:?}: quick {answer:?}\nplain {plain:?}"));
                }
                self.readings += 1;
            }
            if pass == 0 {
                learned.clone_from(&cache);
            }
        }
        if !cache_words::same(&cache, &learned) {
            let case = Case {
                origin,
                grammar: &auditor.bytes,
                words,
            };
            case.fail(&format!(
                "notes {notes:?}: the second pass taught something"
            ));
        }
        self.expect(&format!("{origin}, read over"), auditor, &cache, 0);
    }

    fn finish(&self) {
        for (name, times) in &self.counts {
            println!("drawn: {times} {name}");
        }
        for ((name, _), times) in CORNERS.iter().zip(self.corners) {
            println!("drawn: {times} with {name}");
        }
        let given = (0..NUMBERS).filter(|number| !matches!(number, 8..=11 | 14..=18));
        let given = given.map(|number| self.all.times(number));
        let mut all = self
            .counts
            .values()
            .copied()
            .chain(self.corners)
            .chain(given);
        if all.any(|times| times < LEAST_OFTEN) {
            fail("some fault, variation, corner or answer came up too rarely");
        }
        println!(
            "audit: {} audits agree ({}), {} more over memory that cannot be written; \
             {} readings after a yes, {} foreign caches among those that got it",
            self.all.cases(),
            self.all,
            self.fenced,
            self.readings,
            self.foreign_yes
        );
    }
}

/// A reading with a row of a few entries, over a cache or without.
fn read(
    bytes: &[u8],
    grammar: &Grammar,
    note: &[u16],
    cache: Option<&mut [u32]>,
) -> (Answer, [u16; ROW]) {
    let mut row = [7; ROW];
    let mut space = vec![7; workspace_words(grammar.places(), note.len())];
    let answer = match cache {
        Some(cache) => calls::quick(bytes, note, &mut row, cache, &mut space),
        None => calls::plain(bytes, note, &mut row, &mut space),
    };
    (answer, row)
}

/// The notes are read in one call.
fn read_batch(bytes: &[u8], grammar: &Grammar, notes: &[Vec<u16>], cache: &mut [u32]) {
    let tokens = notes.concat();
    let lengths: Vec<u16> = notes.iter().map(|note| note.len() as u16).collect();
    let longest = notes.iter().map(Vec::len).max().unwrap_or(0);
    let mut answers = vec![0; 3 * notes.len()];
    let mut row = vec![0; ROW * notes.len()];
    let mut space = vec![0; workspace_words(grammar.places(), longest)];
    let verdict = calls::batch(
        bytes,
        &tokens,
        &lengths,
        &mut answers,
        &mut row,
        cache,
        &mut space,
    );
    assert_eq!(verdict.number, 0, "a batch that fits together");
}

/// A begun cache.
fn begun(bytes: &[u8], length: usize) -> Vec<u32> {
    let mut words = vec![u32::MAX; length];
    assert_eq!(calls::begin(bytes, &mut words).number, 0);
    words
}

/// All starts, and steps from the states in their order, but no more than `most`.
fn explore(bytes: &[u8], grammar: &Grammar, words: &mut [u32], most: usize) {
    for decision in (0..grammar.rules.len()).filter(|&it| grammar.rules[it].len() > 1) {
        learning_c::start(bytes, words, decision as u32);
    }
    let mut asked = 0;
    let mut state = 0;
    while state < words[HELD] && asked < most {
        for token in 0..=grammar.kinds {
            learning_c::step(bytes, words, state, token);
            asked += 1;
        }
        state += 1;
    }
}

/// Words of G1's cache after note 1 2, by docs/CACHE.md, and what one other word makes of them.
fn worked_words(run: &mut Run) {
    let bytes = from_hex(edges::G1);
    let grammar = second_checker::read(&bytes).unwrap();
    let (learner, places) = (Learner::new(&grammar), Places::new(&grammar));
    let auditor = Auditor::new(&learner, &places);
    let mut learned = begun(&bytes, cache_words::length(6));
    run.expect("G1, begun", &auditor, &learned, 0);
    read(&bytes, &grammar, &[1, 2], Some(&mut learned));
    run.expect("G1 after 1 2", &auditor, &learned, 0);
    let changes: [(&str, &[(usize, u32)], u32); 42] = [
        ("the step that 1 2 2 records", &[(2692, 2)], 0),
        ("both steps that 1 2 2 records", &[(2692, 2), (3652, 2)], 0),
        ("the same step as the other alternative", &[(2692, 1)], 19),
        ("the same step as FULL", &[(2692, 17)], 19),
        (
            "a step that no note takes, as rule 2 gives it",
            &[(2052, 17)],
            0,
        ),
        ("the same as an alternative", &[(2052, 1)], 19),
        ("the start of 0 forgotten", &[(32, 0)], 0),
        ("the start of 0 is FULL", &[(32, 17)], 19),
        ("the start of 0 is an alternative", &[(32, 1)], 19),
        (
            "the start of 0 is a later state of its own",
            &[(32, 19)],
            19,
        ),
        ("the start of 0 is the start of 1", &[(32, 21)], 19),
        (
            "the start of 0 is a state that is not held",
            &[(32, 24)],
            19,
        ),
        ("the end mark's step forgotten", &[(2690, 0)], 0),
        (
            "the end mark's step is the lowest alternative",
            &[(2690, 1)],
            19,
        ),
        ("the end mark's step is the other", &[(2690, 2)], 19),
        (
            "the end mark's step is the state of 1 with the same set",
            &[(2690, 23)],
            19,
        ),
        (
            "the step to state 2 leads to 5, equal but of decision 1",
            &[(2372, 23)],
            19,
        ),
        (
            "the start of a nonterminal that is not there",
            &[(34, 17)],
            19,
        ),
        ("the last start's word", &[(63, 1)], 19),
        ("a step over token 3", &[(2053, 17)], 19),
        ("a step over token 100", &[(2150, 17)], 19),
        ("a word behind the steps", &[(2151, 1)], 19),
        ("the last word before the configurations", &[(2175, 1)], 19),
        ("the first word behind the configurations", &[(2188, 1)], 19),
        ("the last word of slot 0", &[(2367, 1)], 19),
        ("word 0", &[(0, 1)], 19),
        ("word 5", &[(5, 1)], 19),
        ("word 31", &[(31, 1)], 19),
        ("the word behind the bytes", &[(68, 1)], 19),
        ("the last word before the slots", &[(2047, 1)], 19),
        (
            "the last byte's word has a bit too many",
            &[(67, 66_562)],
            13,
        ),
        ("the length's upper half", &[(2, 1)], 13),
        ("a state too few", &[(4, 5)], 19),
        ("a state too many", &[(4, 7)], 19),
        ("no states", &[(4, 0)], 19),
        ("slot 2 is of decision 1, as slot 5 is", &[(2688, 1)], 19),
        ("slot 2 is of no decision", &[(2688, 2)], 19),
        ("a configuration less", &[(2689, 2)], 19),
        ("a configuration more, of zeros", &[(2689, 4)], 19),
        ("an alternative that 0 has not", &[(2822, 1791)], 19),
        // The end mark's step is FULL still: 1 and 3 share the place past it.
        (
            "the same, and the record that leads there forgotten",
            &[(2822, 1791), (2372, 0)],
            0,
        ),
        (
            "the same, and the end mark's step an alternative",
            &[(2822, 1791), (2372, 0), (2690, 1)],
            19,
        ),
    ];
    for (name, words, number) in changes {
        let mut changed = learned.clone();
        for &(at, word) in words {
            changed[at] = word;
        }
        run.expect(&format!("G1 after 1 2, {name}"), &auditor, &changed, number);
    }
    // Nonterminal 0 decides, but a slot of zeros has no configuration, and is no state.
    for (slots, more, number) in [(7, 0, 0), (7, 1, 19), (8, 1, 19), (8, 2, 19), (6, 1, 19)] {
        let mut words = begun(&bytes, cache_words::length(slots));
        read(&bytes, &grammar, &[1, 2], Some(&mut words));
        words[HELD] += more;
        let origin = format!("G1 after 1 2, {slots} slots, {more} states too many");
        run.expect(&origin, &auditor, &words, number);
    }
}

/// Every word of small caches, each with several other values.
fn every_word(run: &mut Run) {
    let of_g1 = second_checker::read(&from_hex(edges::G1)).unwrap();
    let mut random = Random::new(2);
    let mut cases: Vec<(Grammar, usize)> = [1, 2, 3, 6].map(|slots| (of_g1.clone(), slots)).into();
    cases.push((near_limits::loops(), 4));
    cases.push((near_limits::like_g1(3), 5));
    cases.push((near_limits::right_recursive(), 3));
    for style in STYLES.iter().take(6) {
        for slots in [1, 2] {
            cases.push((style.grammar(&mut random), slots));
        }
    }
    for (grammar, slots) in cases {
        let (learner, places) = (Learner::new(&grammar), Places::new(&grammar));
        let auditor = Auditor::new(&learner, &places);
        let source = Source::new(&grammar);
        let length = cache_words::length(slots) + random.pick(&[0, 0, 3]);
        let mut learned = begun(&auditor.bytes, length);
        for _ in 0..6 {
            let note = source.note(&mut random, 8);
            read(&auditor.bytes, &grammar, &note, Some(&mut learned));
        }
        run.expect("every word", &auditor, &learned, 0);
        let held = learned[HELD] as usize;
        let mut words = learned.clone();
        for at in 0..length {
            let word = learned[at];
            let any = random.next() as u32;
            let mut others = vec![1, 1 << 31, u32::MAX, any];
            let is_field = at < 96 || (2_048..cache_words::slot_at(held)).contains(&at);
            if is_field {
                let state = STATE + random.below(held.max(1)) as u32;
                let last = STATE + held as u32;
                let bit = 1 << random.below(32);
                let low = 1 << random.below(10);
                others.extend([
                    0,
                    2,
                    FULL - 1,
                    FULL,
                    STATE,
                    state,
                    last.wrapping_sub(1),
                    last,
                ]);
                others.extend([
                    word.wrapping_add(1),
                    word.wrapping_sub(1),
                    word ^ 1,
                    word ^ 1 << 31,
                ]);
                others.extend([word ^ bit, word ^ low, any % 64]);
            }
            others.sort_unstable();
            others.dedup();
            for other in others.into_iter().filter(|&other| other != word) {
                words[at] = other;
                let number = run.judge("every word", &auditor, &words);
                let sort = if is_field {
                    "a field"
                } else {
                    "a word without use"
                };
                run.count(format!("every word: {sort}, answer {number}"));
            }
            words[at] = word;
        }
    }
}

/// Caches that readings warmed, in all styles, and what others may make of them.
fn drawn_caches(run: &mut Run) {
    for style in &STYLES {
        let mut random = Random::new(3);
        for nth in 0..GRAMMARS {
            let grammar = style.grammar(&mut random);
            warm(
                run,
                style.name,
                &grammar,
                style.tokens.min(24),
                nth,
                &mut random,
            );
        }
    }
    for (name, draw, count) in NEAR_LIMITS {
        let mut random = Random::new(4);
        for nth in 0..count {
            let grammar = draw(&mut random);
            if second_checker::check(&grammar.encode()).number == 0 {
                warm(run, name, &grammar, 12, nth, &mut random);
            }
        }
    }
}

fn warm(
    run: &mut Run,
    origin: &str,
    grammar: &Grammar,
    tokens: usize,
    nth: usize,
    random: &mut Random,
) {
    let (learner, places) = (Learner::new(grammar), Places::new(grammar));
    let auditor = Auditor::new(&learner, &places);
    let source = Source::new(grammar);
    let slots = random.pick(&[1, 2, 3, 6, 9, 14, 20]);
    let length = cache_words::length(slots) + random.pick(&[0, 0, 1, 319]);
    let mut words = begun(&auditor.bytes, length);
    run.expect(origin, &auditor, &words, 0);
    let notes: Vec<Vec<u16>> = (0..8).map(|_| source.note(random, tokens)).collect();
    match nth % 4 {
        0 => {
            for note in &notes {
                read(&auditor.bytes, grammar, note, Some(&mut words));
                run.expect(&format!("{origin}, quick"), &auditor, &words, 0);
            }
        }
        1 => {
            for part in notes.chunks(4) {
                read_batch(&auditor.bytes, grammar, part, &mut words);
                run.expect(&format!("{origin}, batches"), &auditor, &words, 0);
            }
        }
        2 => explore(&auditor.bytes, grammar, &mut words, 150),
        // Begun and left so.
        _ if nth % 8 == 3 => {}
        _ => {
            read(&auditor.bytes, grammar, &notes[0], Some(&mut words));
            explore(&auditor.bytes, grammar, &mut words, 10);
        }
    }
    run.expect(&format!("{origin}, warmed"), &auditor, &words, 0);
    run.read_after_yes(&format!("{origin}, warmed"), &auditor, &words, &notes[..3]);
    let memory = auditor.memory(&words).expect("coherent words");
    let told = Told {
        auditor: &auditor,
        memory: &memory,
        length,
    };
    for (times, (_, touches)) in run.corners.iter_mut().zip(CORNERS) {
        *times += usize::from(touches(&told));
    }
    let others: Vec<Vec<u16>> = (0..2).map(|_| source.note(random, tokens)).collect();
    let both = [&notes[..2], &others].concat();
    for (name, vary) in VARIATIONS {
        let memory = auditor.memory(&words).expect("coherent words");
        let Some(varied) = vary(&auditor, random, memory) else {
            continue;
        };
        let varied = audit_variations::words(&auditor, &varied, length);
        let origin = format!("{origin}, {name}");
        run.expect(&origin, &auditor, &varied, 0);
        run.count(format!("yes: {name}"));
        run.foreign_yes += 1;
        run.read_after_yes(&origin, &auditor, &varied, &both);
        // And a fault in that.
        let memory = auditor.memory(&varied).expect("coherent words");
        let (fault, spoil) = random.pick(&FAULTS);
        let coherent = Coherent {
            auditor: &auditor,
            memory: &memory,
        };
        let mut spoilt = varied.clone();
        if spoil(&coherent, random, &mut spoilt) {
            run.expect(&format!("{origin}, {fault}"), &auditor, &spoilt, 19);
        }
    }
    let coherent = Coherent {
        auditor: &auditor,
        memory: &memory,
    };
    for (name, spoil) in FAULTS {
        let mut spoilt = words.clone();
        if spoil(&coherent, random, &mut spoilt) {
            run.expect(&format!("{origin}, {name}"), &auditor, &spoilt, 19);
            run.count(format!("fault: {name}"));
        }
    }
    for (name, change) in foreign::KINDS {
        for _ in 0..2 {
            let mut changed = words.clone();
            change(random, grammar, &mut changed);
            other_caches::begin_again(&auditor.bytes, &mut changed);
            let origin = format!("{origin}, {name}");
            if run.judge(&origin, &auditor, &changed) == 0 && changed != words {
                run.foreign_yes += 1;
                run.read_after_yes(&origin, &auditor, &changed, &both);
            }
        }
    }
}

/// As many slots as are used, filled, and caches with more room; what is behind the last slot too.
fn large_caches(run: &mut Run) {
    let grammar = near_limits::many_states();
    let (learner, places) = (Learner::new(&grammar), Places::new(&grammar));
    let auditor = Auditor::new(&learner, &places);
    let mut random = Random::new(5);
    for (slots, more) in [(1_023, 319), (1_024, 0), (1_025, 7)] {
        let length = cache_words::length(slots) + more;
        let mut words = begun(&auditor.bytes, length);
        explore(&auditor.bytes, &grammar, &mut words, 9_000);
        let origin = format!("{slots} slots, filled");
        run.expect(&origin, &auditor, &words, 0);
        if words[HELD] as usize != slots.min(1_024) {
            fail("expected a full cache");
        }
        run.read_after_yes(&origin, &auditor, &words, &[vec![1, 2, 5, 5, 5, 6]]);
        let memory = auditor.memory(&words).expect("coherent words");
        let coherent = Coherent {
            auditor: &auditor,
            memory: &memory,
        };
        for (name, spoil) in FAULTS {
            let mut spoilt = words.clone();
            if spoil(&coherent, &mut random, &mut spoilt) {
                run.expect(&format!("{origin}, {name}"), &auditor, &spoilt, 19);
            }
        }
        // Its last state is an earlier one once more, and nothing leads to it.
        let last = words[HELD] as usize - 1;
        let [from, to] = [random.below(last), last].map(cache_words::slot_at);
        words.copy_within(from..from + 320, to);
        for state in 0..last {
            for token in 0..=grammar.kinds {
                let at = cache_words::step_at(state, token);
                if words[at] == STATE + last as u32 {
                    words[at] = 0;
                }
            }
        }
        run.expect(
            &format!("{origin}, the last state twice"),
            &auditor,
            &words,
            19,
        );
    }
}

/// Whatever the check refuses is refused alike, over caches of any words and any length.
fn damaged_grammars(run: &mut Run) {
    let mut random = Random::new(6);
    let written = edges::paper().into_iter().chain(edges::edges());
    let written = written.map(|case| (case.why, case.bytes));
    let mut drawn = Vec::new();
    for (name, draw) in generate::FAMILIES {
        drawn.extend((0..DRAWN_PER_FAMILY).map(|_| (name, draw(&mut random))));
    }
    for (name, bytes) in written.chain(drawn) {
        let length = random.pick(&[0, 1, 2_367, 2_368, 2_369, 3_000]);
        let any: Vec<u32> = (0..length).map(|_| random.next() as u32).collect();
        let mut caches = vec![any.clone()];
        // One that has begun, also with a word of it, or of all others, wrong.
        if length >= 2_368 {
            let mut words = cache_words::begun(&bytes, length);
            caches.push(words.clone());
            words[random.between(5, 31)] = 1;
            caches.push(words);
            let mut words = any;
            if 4 * (2_048 - 64) > bytes.len() {
                other_caches::begin_again(&bytes, &mut words);
            }
            caches.push(words);
        }
        for words in caches {
            let expected = second_audit::audit(&bytes, &words);
            run.audit(name, &bytes, &words, expected);
        }
    }
}

/// Caches that are too short, and caches begun for another grammar or length, with faults besides:
/// 12 comes before 13, and both before 19.
fn caches_of_others(run: &mut Run) {
    for style in &STYLES {
        let mut random = Random::new(7);
        let mut other = style.grammar(&mut random).encode();
        for nth in 0..3 * other_caches::KINDS {
            let grammar = style.grammar(&mut random);
            let bytes = grammar.encode();
            let length = cache_words::length(random.between(1, 4)) + random.pick(&[0, 1, 319]);
            let drawn = other_caches::draw(&mut random, nth, &bytes, &other, length, &run.words);
            let Some((name, mut words)) = drawn else {
                continue;
            };
            let number = match words.len() {
                0..2_368 => 12,
                _ => 13,
            };
            let (learner, places) = (Learner::new(&grammar), Places::new(&grammar));
            let auditor = Auditor::new(&learner, &places);
            run.expect(name, &auditor, &words, number);
            // And with a word that is wrong in itself.
            if let Some(word) = words.get_mut(random.pick(&[0, 4, 5, 31])) {
                *word = u32::MAX;
            }
            run.expect(name, &auditor, &words, number);
            other = bytes;
        }
    }
}
