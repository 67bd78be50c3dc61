//! Predictions with their answers written down, not computed: those of the scope, and those worked
//! out by hand.
#![forbid(unsafe_code)]

use crate::edges::G1;
use crate::near_limits::{deep, many_kept, many_members, members, right_recursive};
use crate::tree::{from_hex, Grammar};

/// A decision, the tokens behind it, and the words that are answered: that of the start, and then one
/// for each token until the prediction ends.
pub type Prediction = (u32, Vec<u32>, Vec<u32>);

/// A place, an alternative, and the return places, the innermost first.
pub type Written = (u32, u32, &'static [u32]);

/// Predictions from a cache that has just begun.
pub struct Lesson {
    pub why: String,
    pub grammar: Vec<u8>,
    pub slots: usize,
    pub predictions: Vec<Prediction>,
    /// The states held afterwards: how many there are, and those that are written down.
    pub held: usize,
    pub states: Vec<(u32, &'static [Written])>,
}

const FULL: u32 = 17;

fn prediction(decision: u32, tokens: &[u32], answers: &[u32]) -> Prediction {
    (decision, tokens.to_vec(), answers.to_vec())
}

pub fn all() -> Vec<Lesson> {
    let mut lessons = g1();
    lessons.extend(rules());
    lessons.extend(limits());
    lessons
}

/// The six states of G1, in the order in which the note 1 2 leads to them.
const SIX: [(u32, &[Written]); 6] = [
    (0, &[(5, 1, &[1]), (7, 1, &[1]), (5, 2, &[3]), (7, 2, &[3])]),
    (0, &[(255, 1, &[]), (3, 2, &[]), (8, 1, &[1]), (8, 2, &[3])]),
    (0, &[(255, 1, &[]), (3, 2, &[]), (255, 2, &[])]),
    (1, &[(5, 1, &[]), (7, 2, &[])]),
    (1, &[(3, 1, &[]), (255, 1, &[]), (8, 2, &[])]),
    (1, &[(255, 1, &[]), (3, 2, &[]), (255, 2, &[])]),
];

/// The predictions that reading 1 2 and then 1 2 2 takes, with few and with many slots.
fn g1() -> Vec<Lesson> {
    let few = |slots: usize, first: &[u32], second: &[u32], third: &[u32]| Lesson {
        why: format!("G1, {slots} slots"),
        grammar: from_hex(G1),
        slots,
        predictions: vec![
            prediction(0, &[1, 2, 0], first),
            prediction(1, &[1, 2, 0], second),
            prediction(0, &[1, 2, 2, 0], third),
            prediction(1, &[1, 2, 2, 0], second),
        ],
        held: slots,
        states: SIX[..slots].to_vec(),
    };
    let mut lessons = vec![
        few(1, &[18, FULL], &[FULL], &[18, FULL]),
        few(2, &[18, 19, FULL], &[FULL], &[18, 19, FULL]),
        few(3, &[18, 19, 20, FULL], &[FULL], &[18, 19, 20, 2]),
        few(4, &[18, 19, 20, FULL], &[21, FULL], &[18, 19, 20, 2]),
        few(5, &[18, 19, 20, FULL], &[21, 22, FULL], &[18, 19, 20, 2]),
    ];
    for slots in [6, 7, 60, 1_024] {
        lessons.push(Lesson {
            why: format!("* G1, {slots} slots: six states after 1 2"),
            grammar: from_hex(G1),
            slots,
            predictions: vec![
                prediction(0, &[1, 2, 0], &[18, 19, 20, FULL]),
                prediction(1, &[1, 2, 0], &[21, 22, 23, FULL]),
            ],
            held: 6,
            states: SIX.to_vec(),
        });
        lessons.push(Lesson {
            why: format!("* G1, {slots} slots: six states still after 1 2 2"),
            grammar: from_hex(G1),
            slots,
            predictions: vec![
                prediction(0, &[1, 2, 0], &[18, 19, 20, FULL]),
                prediction(1, &[1, 2, 0], &[21, 22, 23, FULL]),
                prediction(0, &[1, 2, 2, 0], &[18, 19, 20, 2]),
                prediction(1, &[1, 2, 2, 0], &[21, 22, 23, 2]),
            ],
            held: 6,
            states: SIX.to_vec(),
        });
    }
    lessons.push(Lesson {
        why: "G1, note 1 and a wrong one".into(),
        grammar: from_hex(G1),
        slots: 6,
        predictions: vec![
            prediction(0, &[1, 0], &[18, 19, 1]),
            prediction(1, &[1, 0], &[20, 21, 1]),
            prediction(0, &[2, 0], &[18, FULL]),
            prediction(0, &[0], &[18, FULL]),
            prediction(0, &[1, 1, 0], &[18, 19, FULL]),
            prediction(1, &[100], &[20, FULL]),
        ],
        held: 4,
        states: vec![SIX[0], SIX[1], SIX[3], SIX[4]],
    });
    lessons
}

/// Each rule.
fn rules() -> Vec<Lesson> {
    let lesson = |why: &str, hex: &str, predictions: &[Prediction], held| Lesson {
        why: why.into(),
        grammar: from_hex(hex),
        slots: 9,
        predictions: predictions.to_vec(),
        held,
        states: Vec::new(),
    };
    vec![
        lesson(
            "one production",
            "01 01 01 01 02",
            &[prediction(0, &[], &[1])],
            0,
        ),
        // 0: [t]. 1: [] or [], which no sentence holds.
        lesson(
            "rule 2 at a start",
            "01 02 01 01 02 02 00 00",
            &[prediction(1, &[], &[FULL])],
            0,
        ),
        // 0: [t]. 1: [] or [t].
        lesson(
            "rule 3 at a start",
            "01 02 01 01 02 02 00 01 02",
            &[prediction(1, &[], &[2])],
            0,
        ),
        // 0: [t] or [t].
        lesson(
            "rule 4 behind a token",
            "01 01 02 01 02 01 02",
            &[prediction(0, &[1, 0], &[18, FULL])],
            1,
        ),
        // 0: [1 t]. 1: [] or [2]. 2: [].
        lesson(
            "rule 4 at a start",
            "01 03 01 02 03 02 02 00 01 05 01 00",
            &[prediction(1, &[], &[FULL])],
            0,
        ),
        // 0: [1] or [1]. 1: [t].
        lesson(
            "no rule 4: the same place over different stacks",
            "01 02 02 01 03 01 03 01 01 02",
            &[prediction(0, &[1, 0], &[18, FULL])],
            1,
        ),
        // 0: [1 t]. 1: [] or [2] or [u]. 2: [].
        lesson(
            "no rule 4: a place belongs to only one",
            "02 03 01 02 03 02 03 00 01 05 01 04 01 00",
            &[
                prediction(1, &[1], &[18, FULL]),
                prediction(1, &[2], &[18, 3]),
            ],
            1,
        ),
        // 0: [1 t] or [1 u]. 1: [t 1] or [].
        lesson(
            "known and unknown callers",
            "02 02 02 02 03 02 02 03 04 02 02 02 03 00",
            &[
                prediction(0, &[1, 0], &[18, 19, 1]),
                prediction(0, &[2], &[18, 2]),
                prediction(1, &[1, 1], &[20, 21, 1]),
                prediction(1, &[1, 0], &[20, 21, 2]),
            ],
            4,
        ),
        // 0: [2] or [3]. 1: [v] or [v c]. 2: [1 c] or [x 2 b]. 3: [1] or [y 3 b].
        lesson(
            "a step that leads back to its state",
            "05 04 02 01 05 01 07 02 01 02 02 02 04 02 02 03 04 03 08 05 06 02 01 03 03 0a 07 06",
            &[prediction(
                1,
                &[1, 2, 3, 3, 3, 0],
                &[18, 19, 20, 21, 21, 21, FULL],
            )],
            4,
        ),
        // 0: [t 0 u u] or [v] or [v u].
        lesson(
            "steps that lead to and fro",
            "03 01 03 04 02 01 04 04 01 06 02 06 04",
            &[
                prediction(0, &[3, 2, 2, 2, 2, 2], &[18, 19, 20, 21, 20, 21, 20]),
                prediction(0, &[3, 2, 2, 2, 0], &[18, 19, 20, 21, 20, 3]),
            ],
            4,
        ),
    ]
}

/// Just up to a limit, and just beyond.
fn limits() -> Vec<Lesson> {
    let lesson = |why: String, grammar: Grammar, predictions: &[Prediction], held| Lesson {
        why,
        grammar: grammar.encode(),
        slots: 9,
        predictions: predictions.to_vec(),
        held,
        states: Vec::new(),
    };
    let mut lessons = Vec::new();
    // Members: 256, 257; by the number of tokens, by the number of nonterminals in a row.
    for (times, empties, others) in [(23, 10, 1), (23, 10, 2), (25, 9, 4), (25, 9, 5), (28, 8, 2)] {
        let count = members(times, empties, others);
        let fits = count <= 256;
        let why = format!("{count} members");
        let grammar = many_members(times, empties, others, false);
        let answers = [if fits { 18 } else { FULL }];
        let predictions = [prediction(0, &[], &answers)];
        lessons.push(lesson(why, grammar, &predictions, usize::from(fits)));
        let why = format!("{count} members behind a token");
        let grammar = many_members(times, empties, others, true);
        let answers = [18, if fits { 19 } else { FULL }];
        let predictions = [prediction(0, &[1], &answers)];
        lessons.push(lesson(why, grammar, &predictions, 1 + usize::from(fits)));
    }
    // Entries: 8, 9; kept, and not kept.
    for (entries, is_empty) in [(8, false), (9, false), (8, true), (9, true)] {
        let fits = entries == 8;
        let which = if is_empty { "not kept" } else { "kept" };
        let why = format!("{entries} entries, {which}");
        let answers = [if fits { 18 } else { FULL }];
        let predictions = [prediction(0, &[], &answers)];
        let grammar = deep(entries, is_empty);
        lessons.push(lesson(why, grammar, &predictions, usize::from(fits)));
    }
    lessons.push(lesson(
        "an entry more with each token".into(),
        right_recursive(),
        &[prediction(
            0,
            &[1; 8],
            &[18, 19, 20, 21, 22, 23, 24, 25, FULL],
        )],
        8,
    ));
    // Kept: 64, 65; of all alternatives, and of one.
    for (words, parts, others) in [(16, 4, 0), (16, 4, 1), (9, 7, 1), (9, 7, 2), (8, 7, 8)] {
        let count = words * parts + others;
        let why = format!("{count} kept");
        let fits = count <= 64;
        let predictions = [
            prediction(0, &[], &[if fits { 1 } else { FULL }]),
            prediction(1, &[], &[if fits { 18 } else { FULL }]),
        ];
        let grammar = many_kept(words, parts, others);
        lessons.push(lesson(why, grammar, &predictions, usize::from(fits)));
    }
    lessons
}
