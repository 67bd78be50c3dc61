//! Batches with the answers written down, not computed.
#![forbid(unsafe_code)]

use crate::edges::G1;
use crate::parts::Batch;
use crate::second_parser::space;
use crate::tree::from_hex;
use allstar::calls::Verdict;

/// The cache that is lent.
#[derive(Clone, Copy)]
pub enum Cache {
    /// Begun for the grammar, with so many slots.
    Begun(usize),
    /// Begun for the grammar, and so many words of it alone.
    Short(usize),
    /// Begun for a grammar of one production, with six slots.
    OfAnotherGrammar,
    /// Begun for the grammar with one word less than is lent.
    OfAnotherLength,
}

/// What a note's part of the row holds afterwards.
#[derive(Clone)]
pub enum Left {
    AsItWas,
    Zeros,
    /// And zeros behind them.
    Entries(Vec<u16>),
}

/// Number and place of a note, and its part of the row; the count is that of the entries.
pub type Outcome = (u64, u64, Left);

pub struct Worked {
    pub why: String,
    pub grammar: Vec<u8>,
    pub batch: Batch,
    pub cache: Cache,
    pub verdict: Verdict,
    /// Of each note, if the call answers 0.
    pub outcomes: Vec<Outcome>,
}

/// Nonterminal 0 is [1, nonterminal 0] or [1]; token 2 stands nowhere. As many entries as tokens.
const LIST: &str = "02 01 02 02 02 01 01 02";
const LIST_PLACES: usize = 5;
const G1_PLACES: usize = 10;

/// A row of no tokens alone.
const NOTHING: &str = "01 01 01 00";

const SIX: Cache = Cache::Begun(6);

fn ok(entries: &[u16]) -> Outcome {
    (0, 0, Left::Entries(entries.to_vec()))
}

fn zeros(number: u64, place: u64) -> Outcome {
    (number, place, Left::Zeros)
}

fn as_it_was(number: u64, place: u64) -> Outcome {
    (number, place, Left::AsItWas)
}

fn worked(
    why: impl Into<String>,
    grammar: &str,
    batch: Batch,
    cache: Cache,
    answer: Result<Vec<Outcome>, (u32, u64)>,
) -> Worked {
    let (number, place) = answer.as_ref().err().copied().unwrap_or_default();
    Worked {
        why: why.into(),
        grammar: from_hex(grammar),
        batch,
        cache,
        verdict: Verdict { number, place },
        outcomes: answer.unwrap_or_default(),
    }
}

/// Notes by G1 with room for two entries each and enough working space.
fn by_g1(notes: &[&[u16]]) -> Batch {
    Batch::of(notes, 2, space(G1_PLACES, 128))
}

pub fn all() -> Vec<Worked> {
    let mut all = read();
    all.extend(refused_among_read());
    all.extend(other_caches());
    all.extend(lengths());
    all.extend(unfit());
    all.extend(refused_grammars());
    all
}

fn read() -> Vec<Worked> {
    let ones: Vec<&[u16]> = vec![&[1]; 64];
    let each = |outcome: Outcome, count: usize| Ok(vec![outcome; count]);
    vec![
        worked("one note", G1, by_g1(&[&[1, 2]]), SIX, Ok(vec![ok(&[1, 2])])),
        worked(
            "three notes",
            G1,
            by_g1(&[&[1, 2], &[1, 2, 2], &[1]]),
            SIX,
            Ok(vec![ok(&[1, 2]), ok(&[2, 2]), ok(&[1, 1])]),
        ),
        worked(
            "the notes of the scope",
            G1,
            by_g1(&[&[1], &[1, 2], &[1, 2, 2], &[1, 2, 2, 2], &[], &[1, 1], &[1, 3]]),
            SIX,
            Ok(vec![
                ok(&[1, 1]),
                ok(&[1, 2]),
                ok(&[2, 2]),
                zeros(10, 3),
                zeros(10, 0),
                zeros(10, 1),
                as_it_was(9, 1),
            ]),
        ),
        worked("64 notes", G1, by_g1(&ones), SIX, each(ok(&[1, 1]), 64)),
        worked("63 notes", G1, by_g1(&ones[1..]), SIX, each(ok(&[1, 1]), 63)),
        worked(
            "64 notes, one slot",
            G1,
            by_g1(&ones),
            Cache::Begun(1),
            each(ok(&[1, 1]), 64),
        ),
        worked(
            "row of one entry a note",
            G1,
            Batch::of(&[&[1, 2][..], &[1, 2, 2, 2]], 1, space(G1_PLACES, 128)),
            SIX,
            Ok(vec![zeros(14, 0), zeros(10, 3)]),
        ),
        worked(
            "row of no entries",
            G1,
            Batch::of(&[&[1, 2][..], &[1, 2, 2, 2], &[1, 3]], 0, space(G1_PLACES, 128)),
            SIX,
            Ok(vec![zeros(14, 0), zeros(10, 3), as_it_was(9, 1)]),
        ),
        worked(
            "empty notes, no tokens at all",
            NOTHING,
            Batch::of(&[&[0; 0]; 64], 1, space(1, 0)),
            SIX,
            each(ok(&[1]), 64),
        ),
        worked(
            "empty notes about one that is no sentence",
            NOTHING,
            Batch::of(&[&[][..], &[1], &[]], 3, space(1, 1)),
            SIX,
            Ok(vec![ok(&[1]), zeros(10, 0), ok(&[1])]),
        ),
        worked(
            "empty notes, row of no entries",
            NOTHING,
            Batch::of(&[&[0; 0]; 2], 0, space(1, 0)),
            SIX,
            each(zeros(14, 0), 2),
        ),
    ]
}

/// Every refusal of a note among others that are read: 8, 9, 11, 10 and 14.
fn refused_among_read() -> Vec<Worked> {
    let long = [1; 129];
    let notes: [&[u16]; 10] = [
        &[1],
        &long,
        &[1, 1],
        &[1, 3, 0],
        &[1, 1, 1, 1, 1],
        &[1, 2],
        &[1, 1, 1, 1],
        &[],
        &[0],
        &[1, 1, 1],
    ];
    let outcomes = [
        ok(&[2]),
        as_it_was(8, 0),
        ok(&[1, 2]),
        as_it_was(9, 1),
        as_it_was(11, 0),
        zeros(10, 1),
        zeros(14, 0),
        zeros(10, 0),
        as_it_was(9, 0),
        ok(&[1, 1, 2]),
    ];
    let lent = |notes: &[&[u16]], tokens: usize| Batch::of(notes, 3, space(LIST_PLACES, tokens));
    let mut all = vec![worked(
        "every refusal of a note",
        LIST,
        lent(&notes, 4),
        SIX,
        Ok(outcomes.to_vec()),
    )];
    let (mut back, mut answers) = (notes, outcomes.clone());
    back.reverse();
    answers.reverse();
    all.push(worked(
        "every refusal of a note, the last first",
        LIST,
        lent(&back, 4),
        SIX,
        Ok(answers.to_vec()),
    ));
    // Each of them first, last, and between two that are read.
    for (note, outcome) in notes.iter().zip(&outcomes) {
        let why = format!("{} of a note between two that are read", outcome.0);
        all.push(worked(
            why,
            LIST,
            lent(&[&[1, 1], *note, &[1]], 4),
            SIX,
            Ok(vec![ok(&[1, 2]), outcome.clone(), ok(&[2])]),
        ));
        let why = format!("{} of the first and the last note", outcome.0);
        all.push(worked(
            why,
            LIST,
            lent(&[*note, &[1, 1], *note], 4),
            SIX,
            Ok(vec![outcome.clone(), ok(&[1, 2]), outcome.clone()]),
        ));
    }
    // 128 tokens are not too many, and the next note is found behind 129.
    let mut row = vec![1; 128];
    row[127] = 2;
    all.push(worked(
        "128 and 129 tokens",
        LIST,
        Batch::of(&[&long[..128], &long[..], &[1]], 128, space(LIST_PLACES, 128)),
        SIX,
        Ok(vec![ok(&row), as_it_was(8, 0), ok(&[2])]),
    ));
    all.push(worked(
        "no working space",
        LIST,
        Batch::of(&[&[1][..], &long, &[3], &[2]], 2, 0),
        SIX,
        Ok(vec![
            as_it_was(11, 0),
            as_it_was(8, 0),
            as_it_was(9, 0),
            as_it_was(11, 0),
        ]),
    ));
    all.push(worked(
        "working space for the empty note alone",
        LIST,
        Batch::of(&[&[1][..], &[], &[1]], 2, space(LIST_PLACES, 0)),
        SIX,
        Ok(vec![as_it_was(11, 0), zeros(10, 0), as_it_was(11, 0)]),
    ));
    all
}

/// A short cache or a foreign one is the answer of each note, and 8, 9 and 11 come before.
fn other_caches() -> Vec<Worked> {
    let caches = [
        ("no cache", Cache::Short(0), 12),
        ("a cache of 2,367 words", Cache::Short(2_367), 12),
        ("a cache of another grammar", Cache::OfAnotherGrammar, 13),
        ("a cache of another length", Cache::OfAnotherLength, 13),
    ];
    let long = [1; 129];
    let notes: [&[u16]; 6] = [&[1], &long, &[1, 3], &[1, 1, 1, 1, 1], &[1, 2], &[]];
    let mut all = Vec::new();
    for (why, cache, number) in caches {
        let of_cache = || as_it_was(number, 0);
        let outcomes = vec![
            of_cache(),
            as_it_was(8, 0),
            as_it_was(9, 1),
            as_it_was(11, 0),
            of_cache(),
            of_cache(),
        ];
        let lent = Batch::of(&notes, 3, space(LIST_PLACES, 4));
        all.push(worked(why, LIST, lent.clone(), cache, Ok(outcomes.clone())));
        let without_row = Batch {
            row: 0,
            ..lent.clone()
        };
        all.push(worked(
            format!("{why}, row of no entries"),
            LIST,
            without_row,
            cache,
            Ok(outcomes),
        ));
        let one_note = Batch::of(&[&[1]], 3, space(LIST_PLACES, 4));
        all.push(worked(
            format!("{why}, one note"),
            LIST,
            one_note,
            cache,
            Ok(vec![of_cache()]),
        ));
        let unfit = Batch {
            row: lent.row + 1,
            ..lent
        };
        all.push(worked(format!("{why}, and 18"), LIST, unfit, cache, Err((18, 0))));
    }
    all
}

/// Lengths whose sum has more than 16 bits.
fn lengths() -> Vec<Worked> {
    let longest = vec![1; 65_535];
    let many: Vec<&[u16]> = vec![&longest; 64];
    let enough = space(G1_PLACES, 128);
    let of_many = Batch::of(&many, 1, enough);
    let in_16_bits = Batch {
        tokens: of_many.tokens[..64 * 65_535 % 65_536].to_vec(),
        ..of_many.clone()
    };
    let two = Batch::of(&[&longest[..], &[1]], 2, enough);
    let halves = Batch {
        tokens: Vec::new(),
        lengths: vec![0x8000, 0x8000],
        ..two.clone()
    };
    let no_tokens = Batch {
        tokens: Vec::new(),
        ..two.clone()
    };
    let one_too_few = Batch {
        tokens: two.tokens[1..].to_vec(),
        ..two.clone()
    };
    vec![
        worked(
            "64 notes of 65,535 tokens",
            G1,
            of_many,
            SIX,
            Ok(vec![as_it_was(8, 0); 64]),
        ),
        worked("64 of 65,535, 65,472 tokens", G1, in_16_bits, SIX, Err((18, 0))),
        worked(
            "65,535 tokens and one",
            G1,
            two,
            SIX,
            Ok(vec![as_it_was(8, 0), ok(&[1, 1])]),
        ),
        worked(
            "a note that begins at token 65,536",
            G1,
            Batch::of(&[&longest[..], &[2], &[1, 2]], 2, enough),
            SIX,
            Ok(vec![as_it_was(8, 0), zeros(10, 0), ok(&[1, 2])]),
        ),
        worked("65,535 and one, no tokens", G1, no_tokens, SIX, Err((18, 0))),
        worked(
            "65,535 and one, 65,535 tokens",
            G1,
            one_too_few,
            SIX,
            Err((18, 0)),
        ),
        worked("32,768 twice, no tokens", G1, halves, SIX, Err((18, 0))),
        worked(
            "32,768 twice",
            G1,
            Batch::of(&[&longest[..0x8000]; 2], 2, enough),
            SIX,
            Ok(vec![as_it_was(8, 0); 2]),
        ),
    ]
}

/// Batches whose parts do not fit, though three notes by G1 are all but right.
fn unfit_batches() -> Vec<(String, Batch)> {
    let three = || by_g1(&[&[1, 2], &[1, 2, 2], &[1]]);
    let many = |count: usize| Batch::of(&vec![&[1]; count], 2, space(G1_PLACES, 128));
    let mut all = vec![
        ("nothing at all".into(), Batch::of(&[[0; 0]; 0], 0, 0)),
        (
            "no notes".into(),
            Batch::of(&[[0; 0]; 0], 0, space(G1_PLACES, 128)),
        ),
        ("no notes, a row".into(), Batch { row: 6, ..many(0) }),
        (
            "no notes, tokens".into(),
            Batch {
                tokens: vec![1],
                ..many(0)
            },
        ),
        (
            "no notes, answers".into(),
            Batch {
                answers: 3,
                ..many(0)
            },
        ),
        ("65 notes".into(), many(65)),
        ("66 notes".into(), many(66)),
        ("256 notes".into(), many(256)),
        ("320 notes".into(), many(320)),
    ];
    for lengths in [
        [2, 3, 2],
        [2, 3, 0],
        [3, 3, 1],
        [1, 3, 1],
        [2, 4, 1],
        [2, 2, 1],
        [0, 0, 0],
        [6, 6, 6],
        [65_535, 3, 4],
    ] {
        all.push((
            format!("lengths {lengths:?} for six tokens"),
            Batch {
                lengths: lengths.to_vec(),
                ..three()
            },
        ));
    }
    let tokens = |tokens: &[u16]| Batch {
        tokens: tokens.to_vec(),
        ..three()
    };
    all.push(("no token".into(), tokens(&[])));
    all.push(("one token too few".into(), tokens(&[1, 2, 1, 2, 2])));
    all.push(("one token too many".into(), tokens(&[1, 2, 1, 2, 2, 1, 1])));
    for answers in [0, 1, 3, 6, 8, 10, 12, 192] {
        all.push((
            format!("{answers} answers for three notes"),
            Batch { answers, ..three() },
        ));
    }
    for row in [1, 2, 4, 5, 7, 8, 64] {
        all.push((format!("row of {row} for three notes"), Batch { row, ..three() }));
    }
    all
}

fn unfit() -> Vec<Worked> {
    let batches = unfit_batches().into_iter();
    batches
        .map(|(why, batch)| worked(why, G1, batch, SIX, Err((18, 0))))
        .collect()
}

/// Grammars that are refused, with parts that fit and parts that do not: the grammar's number comes first.
fn refused_grammars() -> Vec<Worked> {
    let followed = format!("{G1} 00");
    let grammars: [(&str, u32, u64); 9] = [
        ("", 1, 0),
        ("81 00", 2, 0),
        ("65", 3, 0),
        ("01 01 01 01 00", 4, 4),
        (&followed, 5, 14),
        ("01 01 01 02 02 01", 6, 0),
        ("01 01 01 01 01", 7, 0),
        ("01 02 01 00 01 01 03", 7, 1),
        ("01 02 01 00 01 02 02 03", 6, 1),
    ];
    let mut all = Vec::new();
    for (grammar, number, place) in grammars {
        let mut batches = unfit_batches();
        batches.push(("parts that fit".into(), by_g1(&[&[1, 2], &[1, 2, 2], &[1]])));
        for (why, batch) in batches {
            for cache in [SIX, Cache::Short(100)] {
                let why = format!("{number}, and {why}");
                all.push(worked(why, grammar, batch.clone(), cache, Err((number, place))));
            }
        }
    }
    all
}
