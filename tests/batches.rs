//! Tests batches of quick readings against answers written down by hand, against quick readings made singly over
//! a copy of the cache, and against the second parser and the second learner.
#![deny(unsafe_code)]

#[path = "support/batch_corners.rs"]
mod batch_corners;
#[path = "support/batch_run.rs"]
mod batch_run;
#[path = "support/batch_session.rs"]
mod batch_session;
#[allow(dead_code)]
#[path = "support/cache_words.rs"]
mod cache_words;
#[allow(dead_code)]
#[path = "support/edges.rs"]
mod edges;
#[path = "support/foreign.rs"]
mod foreign;
#[allow(dead_code)]
#[path = "support/generate.rs"]
mod generate;
#[path = "support/lengths.rs"]
mod lengths;
#[path = "support/lent.rs"]
mod lent;
#[allow(dead_code)]
#[path = "support/near_limits.rs"]
mod near_limits;
#[path = "support/notes.rs"]
mod notes;
#[path = "support/other_caches.rs"]
mod other_caches;
#[path = "support/parts.rs"]
mod parts;
#[path = "support/random.rs"]
mod random;
#[path = "support/second_checker.rs"]
mod second_checker;
#[allow(dead_code)]
#[path = "support/second_learner.rs"]
mod second_learner;
#[allow(dead_code)]
#[path = "support/second_parser.rs"]
mod second_parser;
#[allow(dead_code)]
#[path = "support/second_reader.rs"]
mod second_reader;
#[allow(dead_code)]
#[path = "support/styles.rs"]
mod styles;
#[path = "support/tally.rs"]
mod tally;
#[path = "support/tiny.rs"]
mod tiny;
#[path = "support/tree.rs"]
mod tree;
#[path = "support/worked_batches.rs"]
mod worked_batches;

use allstar::calls::{self, Verdict};
use batch_run::{fail, said, Case, Run};
use batch_session::{Known, Session};
use cache_words::Places;
use lengths::{row_length, workspace_length};
use notes::Source;
use parts::{Batch, FAULTS, MOST_NOTES};
use random::Random;
use second_learner::Learner;
use second_parser::{space, Judgement, LONGEST_NOTE};
use styles::STYLES;
use tree::{from_hex, Grammar};
use worked_batches::{Cache, Left, Worked};

/// Runs of each batch whose answers are written down: what stands before in what is lent is another each time.
const TIMES_WORKED: usize = 4;

/// Of the tiny grammars every so manyth is taken, with notes of up to so many tokens.
const EVERY_TINY: usize = 20;
const TOKENS_BY_TINY: usize = 4;

/// Caches of each style of grammars that are drawn, and of each style of other and of foreign caches.
const MOST_SESSIONS: usize = 110;
const MOST_OTHERS: usize = 160;
const MOST_FOREIGN: usize = 12;

/// Batches of damaged grammars, of each family, and batches with each fault by grammars of each style.
const DRAWN_PER_FAMILY: usize = 150;
const DRAWN_PER_FAULT: usize = 12;

/// The most entries of a row that are drawn.
const LONGEST_ROW: usize = 40_000;

/// For the second parser, which recurses once for each place and position that is open at most.
const STACK: usize = 1 << 26;

/// A name for reports, what draws a grammar near a limit, and how many are drawn.
type Near = (&'static str, fn(&mut Random) -> Grammar, usize);

const NEAR_LIMITS: [Near; 6] = [
    ("about 256 members", near_limits::draw_members, 5),
    ("about 8 entries", near_limits::draw_deep, 15),
    ("about 8 entries by steps", near_limits::draw_recursive, 15),
    ("about 64 kept", near_limits::draw_kept, 15),
    ("like G1", near_limits::draw_like_g1, 40),
    ("loops", near_limits::draw_loops, 40),
];

fn main() {
    let tests = std::thread::Builder::new().stack_size(STACK).spawn(test);
    if tests.unwrap().join().is_err() {
        fail("the tests broke off");
    }
}

fn test() {
    let mut run = Run::new();
    worked(&mut run);
    states_by_g1(&mut run);
    tiny_grammars(&mut run);
    drawn_sessions(&mut run);
    faults(&mut run);
    damaged_grammars(&mut run);
    caches_of_others(&mut run);
    foreign_caches(&mut run);
    run.finish(OTHERS);
}

/// All batches whose answers are written down; the second parser has to know them too.
fn worked(run: &mut Run) {
    for worked in worked_batches::all() {
        for _ in 0..TIMES_WORKED {
            work(run, &worked);
        }
    }
}

fn work(run: &mut Run, worked: &Worked) {
    let Worked {
        why,
        grammar,
        batch,
        cache,
        verdict,
        outcomes,
    } = worked;
    let begun = |length| cache_words::begun(grammar, length);
    let words = match *cache {
        Cache::Begun(slots) => begun(cache_words::length(slots)),
        Cache::Short(length) => begun(5_000)[..length].to_vec(),
        Cache::OfAnotherGrammar => cache_words::begun(&[1, 1, 1, 0], cache_words::length(6)),
        Cache::OfAnotherLength => [begun(cache_words::length(6)), vec![0]].concat(),
    };
    let case = Case::of(why, grammar, &words, batch.clone());
    let checked = second_checker::check(grammar);
    let expected = match (checked.number, batch.notes()) {
        (0, None) => Verdict { number: 18, place: 0 },
        _ => checked,
    };
    if expected != *verdict {
        let (one, other) = (said(*verdict), said(expected));
        case.fail(&format!("written down: {one}, by the second checker: {other}"));
    }
    if verdict.number != 0 {
        run.refused(&case, *verdict);
        return;
    }
    let notes = batch.notes().expect("parts that fit");
    let judge = |note: &&[u16]| Judgement::of(grammar, note, batch.part().max(1));
    let judgements: Vec<Judgement> = notes.iter().map(judge).collect();
    let told = match cache {
        Cache::Begun(slots) => {
            let grammar = second_checker::read(grammar).expect("a sound grammar");
            let (learner, places) = (Learner::new(&grammar), Places::new(&grammar));
            let known = Known::new(&learner, &places);
            let mut session = Session::begin(run, why, &known, cache_words::length(*slots));
            let notes: Vec<_> = notes.iter().copied().zip(&judgements).collect();
            session.batch(run, &notes, batch.part(), batch.workspace, false)
        }
        _ => run.expect_unbegun(&case, &judgements),
    };
    if told.len() != outcomes.len() {
        case.fail("not an outcome for each note is written down");
    }
    for (nth, ((number, place, left), told)) in outcomes.iter().zip(&told).enumerate() {
        let is_same = match (left, &told.left) {
            (Left::AsItWas, Left::AsItWas) | (Left::Zeros, Left::Zeros) => told.answer.count == 0,
            (Left::Entries(one), Left::Entries(other)) => {
                one == other && told.answer.count == one.len() as u64
            }
            _ => false,
        };
        if (*number, *place) != (told.answer.number.into(), told.answer.place) || !is_same {
            let answer = told.answer;
            case.fail(&format!(
                "note {nth}: both: {answer}\nexpected: {number} at {place}"
            ));
        }
    }
}

/// The states that G1's notes leave, in one batch and in two, with few slots and with many.
fn states_by_g1(run: &mut Run) {
    let bytes = from_hex(edges::G1);
    let grammar = second_checker::read(&bytes).expect("a sound grammar");
    let (learner, places) = (Learner::new(&grammar), Places::new(&grammar));
    let known = Known::new(&learner, &places);
    let notes: [&[u16]; 5] = [&[1, 2], &[1, 2, 2], &[1, 2, 2, 2], &[], &[1, 3]];
    let judgements = notes.map(|note| Judgement::of(&bytes, note, 16));
    let judged: Vec<_> = notes.iter().copied().zip(&judgements).collect();
    for slots in [1, 2, 3, 4, 5, 6, 7, 20] {
        for first in 1..=notes.len() {
            let origin = format!("G1, {slots} slots");
            let mut session = Session::begin(run, &origin, &known, cache_words::length(slots));
            for part in [&judged[..first], &judged[first..]] {
                if part.is_empty() {
                    continue;
                }
                session.batch(run, part, 16, space(grammar.places(), 16), false);
                let held = run.cache.part()[cache_words::HELD] as usize;
                if held != slots.min(6) {
                    session
                        .case
                        .fail(&format!("{held} states, expected six or all slots"));
                }
            }
        }
    }
}

/// Every short note by tiny grammars, together in batches.
fn tiny_grammars(run: &mut Run) {
    const LONGEST: usize = 40;
    let mut nth = 0;
    tiny::each_grammar(|grammar| {
        nth += 1;
        let bytes = grammar.encode();
        if nth % EVERY_TINY != 0 || second_checker::check(&bytes).number != 0 {
            return;
        }
        let (learner, places) = (Learner::new(grammar), Places::new(grammar));
        let known = Known::new(&learner, &places);
        let length = cache_words::length([1, 2, 3, 6][nth / EVERY_TINY % 4]);
        let mut session = Session::begin(run, "tiny grammars", &known, length);
        let mut notes: Vec<Vec<u16>> = (0..=TOKENS_BY_TINY).map(|tokens| vec![1; tokens]).collect();
        if nth / EVERY_TINY % 2 == 0 {
            notes.reverse();
        }
        let judge = |note: &Vec<u16>| Judgement::of(&bytes, note, LONGEST);
        let judgements: Vec<Judgement> = notes.iter().map(judge).collect();
        let judged: Vec<_> = notes.iter().map(|note| &note[..]).zip(&judgements).collect();
        let count = judgements[2].derivation.entries.len().min(LONGEST);
        for part in [1, count, LONGEST] {
            session.batch(run, &judged, part, space(grammar.places(), TOKENS_BY_TINY), false);
        }
    });
}

/// Batches by grammars of all styles and near the limits.
fn drawn_sessions(run: &mut Run) {
    for style in &STYLES {
        let mut random = Random::new(2);
        for nth in 0..style.grammars.min(MOST_SESSIONS) {
            let grammar = style.grammar(&mut random);
            drawn_session(run, style.name, &grammar, style.tokens, nth, &mut random);
        }
    }
    for (name, draw, count) in NEAR_LIMITS {
        let mut random = Random::new(3);
        for nth in 0..count {
            let grammar = draw(&mut random);
            drawn_session(run, name, &grammar, 12, nth, &mut random);
        }
    }
}

fn drawn_session(
    run: &mut Run,
    origin: &str,
    grammar: &Grammar,
    tokens: usize,
    nth: usize,
    random: &mut Random,
) {
    let (learner, places) = (Learner::new(grammar), Places::new(grammar));
    let known = Known::new(&learner, &places);
    let source = Source::new(grammar);
    let many = random.between(7, 60);
    let slots = [1, 2, 3, 6, many, many][nth % 6];
    // Words that make no whole slot.
    let length = cache_words::length(slots) + random.pick(&[0, 0, 1, 319]);
    let longest_row = random.pick(&[20, 100, 400]);
    let mut judged: Vec<(Vec<u16>, Judgement)> = Vec::new();
    for _ in 0..random.between(4, 16) {
        let mut note = source.note(random, tokens);
        if judged.len() == 3 && nth % 5 == 0 {
            // A note that is far too long.
            note = vec![1; random.pick(&[0x7fff, 0x8000, 0xffff])];
        }
        let judgement = Judgement::of(&known.bytes, &note, longest_row);
        judged.push((note, judgement));
    }
    let enough = |note: &[u16]| space(grammar.places(), note.len().min(LONGEST_NOTE));
    let mut session = Session::begin(run, origin, &known, length);
    let mut earlier: Option<(Vec<usize>, usize, usize)> = None;
    for _ in 0..random.between(2, 5) {
        if random.chance(30) {
            let (note, judgement) = &judged[random.below(judged.len())];
            let row = row_length(random, judgement, longest_row).min(LONGEST_ROW);
            session.single(note, judgement, row);
            continue;
        }
        let (chosen, part, workspace) = match &earlier {
            Some(earlier) if random.chance(15) => earlier.clone(),
            _ => {
                let some = random.between(2, 20);
                let count = random.pick(&[1, 2, 3, some, some, some, 63, MOST_NOTES]);
                let chosen: Vec<usize> = (0..count).map(|_| random.below(judged.len())).collect();
                let (about, judgement) = &judged[random.pick(&chosen)];
                let most = judged
                    .iter()
                    .all(|(_, judgement)| judgement.derivation.is_complete);
                let most = if most { LONGEST_ROW / count } else { longest_row };
                let count_of = |&at: &usize| judged[at].1.derivation.entries.len();
                let part = match random.below(4) {
                    0 => chosen.iter().map(count_of).max().expect("a note"),
                    _ => row_length(random, judgement, longest_row),
                };
                let part = part.min(most);
                let longest = chosen.iter().map(|&at| enough(&judged[at].0)).max();
                let workspace = match random.below(4) {
                    0 => workspace_length(random, enough(about)),
                    1 => enough(about),
                    _ => longest.expect("a note"),
                };
                (chosen, part, workspace)
            }
        };
        let notes: Vec<(&[u16], &Judgement)> = chosen
            .iter()
            .map(|&at| (&judged[at].0[..], &judged[at].1))
            .collect();
        session.batch(run, &notes, part, workspace, true);
        earlier = Some((chosen, part, workspace));
    }
    run.sessions += 1;
}

/// Some notes of a grammar in a batch.
fn some_notes(random: &mut Random, grammar: &Grammar, tokens: usize) -> Vec<Vec<u16>> {
    let source = Source::new(grammar);
    let some = random.between(2, 9);
    let count = random.pick(&[1, some, some, some, some, MOST_NOTES]);
    (0..count).map(|_| source.note(random, tokens)).collect()
}

/// Batches whose parts do not fit, by sound grammars and over caches that were begun for them, or not.
fn faults(run: &mut Run) {
    for style in &STYLES {
        let mut random = Random::new(4);
        for (name, change) in FAULTS {
            for nth in 0..DRAWN_PER_FAULT {
                let grammar = style.grammar(&mut random);
                let bytes = grammar.encode();
                let notes = some_notes(&mut random, &grammar, style.tokens.min(20));
                let workspace = workspace_length(&mut random, space(grammar.places(), 20));
                let mut batch = Batch::of(&notes, random.below(20), workspace);
                if !change(&mut random, &mut batch) {
                    continue;
                }
                let length = random.pick(&[100, 2_367, 2_368, 4_000]);
                let words = match nth % 3 {
                    0 => run.words[..length].to_vec(),
                    _ => cache_words::begun(&bytes, length.max(2_368)),
                };
                let case = Case::of(&format!("{}, {name}", style.name), &bytes, &words, batch);
                if case.batch().notes().is_some() {
                    case.fail("the parts fit");
                }
                let refused = Verdict { number: 18, place: 0 };
                run.refused(&case, refused);
                run.count_drawn(18, &[]);
                run.note_other(format!("18: {name}"));
            }
        }
    }
}

/// Batches by all that may pass for a grammar, over caches of any words: with parts that fit and with parts that do
/// not.
fn damaged_grammars(run: &mut Run) {
    for (name, draw) in generate::FAMILIES {
        let mut random = Random::new(5);
        for _ in 0..DRAWN_PER_FAMILY {
            let bytes = draw(&mut random);
            let mut note = || {
                let length = match random.below(8) {
                    0 => random.between(LONGEST_NOTE, LONGEST_NOTE + 40),
                    _ => random.below(6),
                };
                (0..length).map(|_| random.pick(&[1, 1, 1, 1, 2, 2, 3])).collect()
            };
            let notes: [Vec<u16>; 4] = std::array::from_fn(|_| note());
            let places = second_checker::read(&bytes).map_or(0, |grammar| grammar.places());
            let workspace = workspace_length(&mut random, space(places, 5));
            let batch = Batch::of(&notes[..random.between(1, 4)], random.below(8), workspace);
            let mut unfit = batch.clone();
            let (_, change) = random.pick(&FAULTS);
            let is_changed = change(&mut random, &mut unfit);
            let length = match random.below(3) {
                0 => random.below(2_368),
                _ => random.between(2_368, 4_000),
            };
            let words = run.words[..length].to_vec();
            let checked = second_checker::check(&bytes);
            for batch in [Some(batch), is_changed.then_some(unfit)].into_iter().flatten() {
                let case = Case::of(name, &bytes, &words, batch);
                let notes = case.batch().notes();
                let verdict = match (checked.number, &notes) {
                    (0, None) => Verdict { number: 18, place: 0 },
                    _ => checked,
                };
                if verdict.number != 0 {
                    run.refused(&case, verdict);
                    run.count_drawn(verdict.number, &[]);
                } else {
                    let part = case.batch().part();
                    let judge = |note: &&[u16]| Judgement::of(&bytes, note, part);
                    let judgements: Vec<_> = notes.iter().flatten().map(judge).collect();
                    let told = run.expect_unbegun(&case, &judgements);
                    run.count_drawn(0, &told);
                }
                if checked.number != 0 {
                    let parts = if notes.is_some() { "fit" } else { "do not" };
                    run.note_other(format!("{}, and parts that {parts}", checked.number));
                }
            }
        }
    }
}

/// What [`Run::note_other`] has to have counted: a name for each fault, for each refusal of a grammar with faults
/// and without, for each kind of other caches, and one for foreign caches.
const OTHERS: usize = FAULTS.len() + 2 * 7 + other_caches::KINDS + 1;

/// Caches that are too short, and caches begun for another grammar or length.
fn caches_of_others(run: &mut Run) {
    for style in &STYLES {
        let mut random = Random::new(6);
        let mut other = style.grammar(&mut random).encode();
        for nth in 0..MOST_OTHERS {
            let grammar = style.grammar(&mut random);
            let bytes = grammar.encode();
            let length = cache_words::length(random.between(1, 6)) + random.pick(&[0, 1, 319]);
            let drawn = other_caches::draw(&mut random, nth, &bytes, &other, length, &run.words);
            let Some((name, words)) = drawn else {
                continue;
            };
            let source = Source::new(&grammar);
            let count = random.between(1, 5);
            let tokens = style.tokens.min(20);
            let notes: Vec<Vec<u16>> = (0..count).map(|_| source.note(&mut random, tokens)).collect();
            let judge = |note: &Vec<u16>| Judgement::of(&bytes, note, 40);
            let judgements: Vec<Judgement> = notes.iter().map(judge).collect();
            let workspace = workspace_length(&mut random, space(grammar.places(), tokens));
            let batch = Batch::of(&notes, random.between(0, 40), workspace);
            let case = Case::of(&format!("{}, {name}", style.name), &bytes, &words, batch);
            let told = run.expect_unbegun(&case, &judgements);
            run.count_drawn(0, &told);
            if told.iter().any(|told| matches!(told.answer.number, 12 | 13)) {
                run.note_other(format!("cache {name}"));
            }
            other = bytes;
        }
    }
}

/// Caches that nobody recorded, but with the right beginning: whatever readings answer that are made singly, the
/// batch answers too.
fn foreign_caches(run: &mut Run) {
    for style in &STYLES {
        let mut random = Random::new(7);
        for _ in 0..MOST_FOREIGN {
            let grammar = style.grammar(&mut random);
            let bytes = grammar.encode();
            let source = Source::new(&grammar);
            let tokens = style.tokens.min(30);
            let enough = space(grammar.places(), tokens);
            let length = cache_words::length(random.pick(&[1, 2, 3, 6, 9])) + random.pick(&[0, 0, 1, 319]);
            let mut recorded = cache_words::begun(&bytes, length);
            for _ in 0..3 {
                let note = source.note(&mut random, tokens);
                let mut space = vec![0; enough];
                calls::quick(&bytes, &note, &mut [0; 100], &mut recorded, &mut space);
            }
            for (name, change) in foreign::KINDS {
                let mut words = recorded.clone();
                change(&mut random, &grammar, &mut words);
                other_caches::begin_again(&bytes, &mut words);
                let notes = some_notes(&mut random, &grammar, tokens);
                let batch = Batch::of(&notes, random.pick(&[1, 10, 30, 100]), enough);
                let case = Case::of(&format!("{}, {name}", style.name), &bytes, &words, batch);
                run.read(&case);
                run.note_other("foreign caches".into());
            }
        }
    }
}
