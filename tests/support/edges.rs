//! Cases with the answer written down, not computed: those of the scope and those worked out from
//! it by hand.
#![forbid(unsafe_code)]

use allstar::calls::Verdict;
use crate::tree::from_hex;

pub struct Case {
    pub why: &'static str,
    pub bytes: Vec<u8>,
    pub answer: Verdict,
}

pub const G1: &str = "02 02 02 01 03 02 03 04 02 01 02 02 02 04";

/// The check's cases under "Grammar G1 and its neighbours".
pub fn paper() -> Vec<Case> {
    from_table(&[
        ("G1", G1, 0, 0),
        ("no bytes", "", 1, 0),
        ("overlong T", "81 00", 2, 0),
        ("unfinished T", "80", 1, 0),
        ("100 passes as T", "64", 1, 1),
        ("100 passes as T, whole", "64 01 01 00", 0, 0),
        ("101 kinds", "65", 3, 0),
        (
            "G1 then 00",
            "02 02 02 01 03 02 03 04 02 01 02 02 02 04 00",
            5,
            14,
        ),
        ("derives no row", "01 01 01 02 02 01", 6, 0),
        ("left recursive, derives no row either", "01 01 01 01 01", 7, 0),
        (
            "recursion behind an empty symbol",
            "01 02 02 03 03 01 02 01 02 01 00",
            7,
            0,
        ),
        ("one empty production", "01 01 01 00", 0, 0),
    ])
}

pub fn edges() -> Vec<Case> {
    let mut cases = numbers();
    cases.extend(limits());
    cases.extend(places());
    cases.extend(symbols());
    cases.extend(leftovers());
    cases.extend(left_recursion());
    cases.extend(unproductive());
    cases.extend(both_faults());
    cases.extend(chains());
    cases
}

fn case(why: &'static str, bytes: Vec<u8>, number: u32, place: u64) -> Case {
    let answer = Verdict { number, place };
    Case { why, bytes, answer }
}

fn from_table(rows: &[(&'static str, &str, u32, u64)]) -> Vec<Case> {
    rows.iter()
        .map(|&(why, hex, number, place)| case(why, from_hex(hex), number, place))
        .collect()
}

/// Refusals 1 and 2, at the first, a middle and the last number.
fn numbers() -> Vec<Case> {
    from_table(&[
        ("unfinished, two bytes", "80 80", 1, 0),
        ("unfinished, high bits", "ff", 1, 0),
        ("unfinished, two bytes, high bits", "ff ff", 1, 0),
        ("third byte announces a fourth", "80 80 80", 2, 0),
        ("no fourth byte is looked at", "80 80 80 01", 2, 0),
        ("third byte with bits announces a fourth", "ff ff 83", 2, 0),
        ("all bits", "ff ff ff", 2, 0),
        ("0 in two bytes", "80 00", 2, 0),
        ("0 in three bytes", "80 80 00", 2, 0),
        ("127 in two bytes", "ff 00", 2, 0),
        ("16,383 in three bytes", "ff ff 00", 2, 0),
        ("100 in two bytes", "e4 00 01 01 00", 2, 0),
        ("101 in two bytes is no number", "e5 00", 2, 0),
        ("65,535 is a number", "ff ff 03", 3, 0),
        ("65,536 is none", "80 80 04", 2, 0),
        ("81,919 is none", "ff ff 04", 2, 0),
        ("2,097,151 is none", "ff ff 7f", 2, 0),
        ("128 is a number", "80 01", 3, 0),
        ("16,383 is a number", "ff 7f", 3, 0),
        ("16,384 is a number", "80 80 01", 3, 0),
        ("N missing", "01", 1, 1),
        ("N unfinished", "01 80", 1, 1),
        ("N unfinished, two bytes", "01 80 80", 1, 1),
        ("N announces a fourth byte", "01 80 80 80", 2, 1),
        ("N overlong", "01 81 00", 2, 1),
        ("N overlong, three bytes", "01 81 80 00", 2, 1),
        ("N of 65,535", "01 ff ff 03", 3, 1),
        ("N of 65,536", "01 80 80 04", 2, 1),
        ("count missing", "01 01", 1, 2),
        ("count unfinished", "01 01 81", 1, 2),
        ("count overlong", "01 01 81 00", 2, 2),
        ("length missing", "01 01 01", 1, 3),
        ("length unfinished", "01 01 01 80 80", 1, 3),
        ("length overlong", "01 01 01 80 00", 2, 3),
        ("length overlong, 30", "01 01 01 9e 00", 2, 3),
        ("symbol missing", "01 01 01 01", 1, 4),
        ("second symbol missing", "01 01 01 02 02", 1, 5),
        ("symbol unfinished", "01 01 01 01 82", 1, 4),
        ("symbol unfinished, two bytes", "01 01 01 01 82 80", 1, 4),
        ("symbol overlong", "01 01 01 01 82 00", 2, 4),
        ("symbol overlong, three bytes", "01 01 01 01 82 80 00", 2, 4),
        ("symbol with a fourth byte", "01 01 01 01 82 80 80", 2, 4),
        ("symbol of 65,536", "01 01 01 01 80 80 04", 2, 4),
        ("second count missing", "01 02 01 00", 1, 4),
        ("second length missing", "01 01 02 00", 1, 4),
        (
            "place behind a symbol of two bytes",
            "64 01 01 02 c8 01",
            1,
            6,
        ),
        ("a bad T comes before a bad N", "65 81 00", 3, 0),
        ("a bad T comes before an unfinished N", "00 80", 3, 0),
        ("a bad N comes before the end", "01 21", 3, 1),
        ("a bad symbol comes before the end", "01 01 01 02 00", 4, 4),
        ("an overlong T ends the check", "81 00 00 00", 2, 0),
    ])
}

/// Refusal 3 without the places.
fn limits() -> Vec<Case> {
    let mut cases = from_table(&[
        ("no kinds", "00", 3, 0),
        ("no kinds, rest sound", "00 01 01 00", 3, 0),
        ("no nonterminals", "01 00", 3, 1),
        ("32 nonterminals", "01 20", 1, 2),
        ("33 nonterminals", "01 21 01 00", 3, 1),
        ("no productions", "01 01 00", 3, 2),
        ("16 productions", "01 01 10", 1, 3),
        ("17 productions", "01 01 11 00", 3, 2),
        ("30 symbols", "01 01 01 1e", 1, 4),
        ("31 symbols", "01 01 01 1f 02", 3, 3),
        ("128 productions", "01 01 80 01", 3, 2),
        ("128 symbols", "01 01 01 80 01", 3, 3),
        ("256 kinds", "80 02 01 01 00", 3, 0),
        ("257 nonterminals", "01 81 02 01 00", 3, 1),
        ("257 productions", "01 01 81 02 00", 3, 2),
        ("256 symbols", "01 01 01 80 02", 3, 3),
        ("65,535 symbols", "01 01 01 ff ff 03", 3, 3),
        (
            "second nonterminal without productions",
            "01 02 01 00 00",
            3,
            4,
        ),
        ("second production of 31 symbols", "01 01 02 00 1f", 3, 4),
    ]);
    let all = [&[1, 32][..], &[1, 0].repeat(32)].concat();
    cases.push(case("32 nonterminals, whole", all, 0, 0));
    let all = [&[1, 1, 16][..], &[0; 16]].concat();
    cases.push(case("16 productions, whole", all, 0, 0));
    let all = [&[1, 1, 1, 30][..], &[2; 30]].concat();
    cases.push(case("30 symbols, whole", all, 0, 0));
    cases
}

/// One nonterminal whose productions are rows of token 1.
fn rows_of_tokens(lengths: &[usize]) -> Vec<u8> {
    let mut bytes = vec![1, 1, lengths.len() as u8];
    for &length in lengths {
        bytes.push(length as u8);
        bytes.resize(bytes.len() + length, 2);
    }
    bytes
}

/// The limit of 255 places.
fn places() -> Vec<Case> {
    let rows = |row: &[usize], more: &[usize]| rows_of_tokens(&[row, more].concat());
    // Of the last nonterminal `last` productions, of the 31 others eight each; all are empty.
    let all_empty = |last: u8| {
        let mut bytes = vec![1, 32];
        bytes.extend([8, 0, 0, 0, 0, 0, 0, 0, 0].repeat(31));
        bytes.push(last);
        bytes.resize(bytes.len() + usize::from(last), 0);
        bytes
    };
    // Nine nonterminals, their tokens in two bytes: no grammar has more bytes.
    let longest = |middle: u8| {
        let mut bytes = vec![100, 9];
        for length in [30, 30, 30, 30, middle, 30, 30, 30, 30] {
            bytes.extend([1, length]);
            bytes.extend([0xc8, 0x01].repeat(usize::from(length)));
        }
        bytes
    };
    assert_eq!(longest(6).len(), 512);
    let (thirty, fifteen) = ([30; 8], [15; 15]);
    let mut cut = rows(&thirty, &[7]);
    cut.truncate(252);
    let mut cut_before = cut.clone();
    cut_before.truncate(251);
    let mut bad_symbol = cut.clone();
    bad_symbol.push(0);
    vec![
        case("240 + 15 places", rows(&fifteen, &[14]), 0, 0),
        case("240 + 16 places", rows(&fifteen, &[15]), 3, 243),
        case("248 + 7 places", rows(&thirty, &[6]), 0, 0),
        case("248 + 8 places", rows(&thirty, &[7]), 3, 251),
        case("248 + 31 places", rows(&thirty, &[30]), 3, 251),
        case("length 31 at 248 places", rows(&thirty, &[31]), 3, 251),
        case("248 + 7 empty", rows(&thirty, &[0; 7]), 0, 0),
        case("248 + 8 empty", rows(&thirty, &[0; 8]), 3, 258),
        case("255, then length 30", rows(&thirty, &[6, 30]), 3, 258),
        case("255 empty", all_empty(7), 0, 0),
        case("256 empty", all_empty(8), 3, 289),
        case("the length is refused before its symbols", cut, 3, 251),
        case("and before a bad one", bad_symbol, 3, 251),
        case("the length is missing", cut_before, 1, 251),
        case("512 bytes", longest(6), 0, 0),
        case("256 places in 514 bytes", longest(7), 3, 453),
    ]
}

/// Refusal 4.
fn symbols() -> Vec<Case> {
    let mut cases = from_table(&[
        ("token 0", "01 01 01 01 00", 4, 4),
        ("token above T", "01 01 01 01 04", 4, 4),
        ("nonterminal not below N", "01 01 01 01 03", 4, 4),
        ("token T", "03 01 01 01 06", 0, 0),
        ("token T + 1", "03 01 01 01 08", 4, 4),
        ("token 63", "3f 01 01 01 7e", 0, 0),
        ("token 64", "40 01 01 01 80 01", 0, 0),
        ("token 64 of 63", "3f 01 01 01 80 01", 4, 4),
        ("token 100", "64 01 01 01 c8 01", 0, 0),
        ("token 100 of 99", "63 01 01 01 c8 01", 4, 4),
        ("token 101", "64 01 01 01 ca 01", 4, 4),
        ("nonterminal 64", "64 01 01 01 81 01", 4, 4),
        ("nonterminal 1 of 2", "01 02 01 01 03 01 00", 0, 0),
        ("nonterminal 2 of 2", "01 02 01 01 05 01 00", 4, 4),
        ("token 8,192", "64 01 01 01 80 80 01", 4, 4),
        ("nonterminal 8,192", "64 01 01 01 81 80 01", 4, 4),
        ("token 32,767", "64 01 01 01 fe ff 03", 4, 4),
        ("nonterminal 32,767", "64 01 01 01 ff ff 03", 4, 4),
        // Their low bits alone would pass.
        ("token 129", "64 01 01 01 82 02", 4, 4),
        ("nonterminal 128", "64 01 01 01 81 02", 4, 4),
        ("token 256 + 1", "64 01 01 01 82 04", 4, 4),
        ("second symbol", "01 01 01 02 02 00", 4, 5),
        ("behind a symbol of two bytes", "64 01 01 02 c8 01 00", 4, 6),
        ("last symbol of all", "01 02 01 01 02 01 01 05", 4, 7),
        ("before a bad length", "01 01 02 01 00 1f", 4, 4),
        ("nonterminal 31 of 31", "01 1f 01 01 3f", 4, 4),
    ]);
    // The start holds 1 to 30, nonterminal 1 holds 31, the others a token.
    let mut all_used = vec![1, 32, 1, 30];
    all_used.extend((1..=30).map(|number| 2 * number + 1));
    all_used.extend([1, 1, 63]);
    all_used.extend([1, 1, 2].repeat(30));
    cases.push(case("all of 32 nonterminals used", all_used.clone(), 0, 0));
    all_used[36] = 65;
    cases.push(case("nonterminal 32 of 32", all_used, 4, 36));
    cases
}

/// Refusal 5.
fn leftovers() -> Vec<Case> {
    from_table(&[
        ("a sound grammar follows", "01 01 01 00 01 01 01 00", 5, 4),
        ("what follows is no finished number", "01 01 01 00 80", 5, 4),
        (
            "what follows is no shortest form",
            "01 01 01 00 80 00",
            5,
            4,
        ),
        ("what follows breaks a limit", "01 01 01 00 ff ff 03", 5, 4),
        ("before 7", "01 01 02 02 01 02 01 02 ff", 5, 8),
        ("before 6", "01 01 01 02 02 01 00", 5, 6),
        ("before both", "01 01 01 01 01 00", 5, 5),
        ("behind a symbol of two bytes", "64 01 01 01 c8 01 00", 5, 6),
    ])
}

/// Refusal 6.
fn unproductive() -> Vec<Case> {
    from_table(&[
        ("0: 1; 1: t 1", "01 02 01 01 03 01 02 02 03", 6, 0),
        (
            "0: 1 | t; 1: t 1",
            "01 02 02 01 03 01 02 01 02 02 03",
            6,
            1,
        ),
        (
            "0: t; 1: t 1, out of reach",
            "01 02 01 01 02 01 02 02 03",
            6,
            1,
        ),
        (
            "0: t; 1: 2; 2: t 1",
            "01 03 01 01 02 01 01 05 01 02 02 03",
            6,
            1,
        ),
        (
            "0: t; 1: t 2; 2: t 2",
            "01 03 01 01 02 01 02 02 05 01 02 02 05",
            6,
            1,
        ),
        (
            "0: t; 1: t 0; 2: t 2",
            "01 03 01 01 02 01 02 02 01 01 02 02 05",
            6,
            2,
        ),
        (
            "0: 1 2; 1: t; 2: t 2",
            "01 03 01 02 03 05 01 01 02 01 02 02 05",
            6,
            0,
        ),
        (
            "0: 1 t 0; 1: empty",
            "01 02 01 03 03 02 01 01 00",
            6,
            0,
        ),
        (
            "0: t; 1: t 1 | t t 1",
            "01 02 01 01 02 02 02 02 03 03 02 02 03",
            6,
            1,
        ),
        ("0: t 0 | t", "01 01 02 02 02 01 01 02", 0, 0),
        ("0: t 0 | empty", "01 01 02 02 02 01 00", 0, 0),
        (
            "0: 1 1 1; 1: t, used three times",
            "01 02 01 03 03 03 03 01 01 02",
            0,
            0,
        ),
        (
            "0: 1; 1: 2; 2: t, known last first",
            "01 03 01 01 03 01 01 05 01 01 02",
            0,
            0,
        ),
        (
            "0: t 1; 1: t 0 | t",
            "01 02 01 02 02 03 02 02 02 01 01 02",
            0,
            0,
        ),
        ("0: t | t, the same twice", "01 01 02 01 02 01 02", 0, 0),
    ])
}

/// Refusal 7.
fn left_recursion() -> Vec<Case> {
    from_table(&[
        ("0: 0 t | t", "01 01 02 02 01 02 01 02", 7, 0),
        ("0: 0 | empty", "01 01 02 01 01 00", 7, 0),
        ("0: t | 0 0", "01 01 02 01 02 02 01 01", 7, 0),
        ("0: 0 0 | empty", "01 01 02 02 01 01 00", 7, 0),
        (
            "0: 1; 1: 1 t | t: leads to a cycle, not on it",
            "01 02 01 01 03 02 02 03 02 01 02",
            7,
            1,
        ),
        (
            "0: t; 1: 1 t | t, out of reach",
            "01 02 01 01 02 02 02 03 02 01 02",
            7,
            1,
        ),
        ("0: 1 | t; 1: 0", "01 02 02 01 03 01 02 01 01 01", 7, 0),
        (
            "0: 1 t; 1: 2 | t; 2: 1",
            "01 03 01 02 03 02 02 01 05 01 02 01 01 03",
            7,
            1,
        ),
        (
            "0: 1 0 t | t; 1: 2 2; 2: empty | t",
            "01 03 02 03 03 01 02 01 02 01 02 05 05 02 00 01 02",
            7,
            0,
        ),
        (
            "0: 1 0 t | t; 1: t: the first is never empty",
            "01 02 02 03 03 01 02 01 02 01 01 02",
            0,
            0,
        ),
        (
            "0: 1 2 0 | t; 1: empty; 2: t: the second is never empty",
            "01 03 02 03 03 05 01 01 02 01 00 01 01 02",
            0,
            0,
        ),
        (
            "0: 1 2 0 | t; 1: empty; 2: t | 1 1",
            "01 03 02 03 03 05 01 01 02 01 00 02 01 02 02 03 03",
            7,
            0,
        ),
        (
            "0: 1 0 | t; 1: 1 | t: 1 derives the empty row nowhere",
            "01 02 02 02 03 01 01 02 02 01 03 01 02",
            7,
            1,
        ),
        (
            "0: t; 1: 2 1 | t; 2: empty",
            "01 03 01 01 02 02 02 05 03 01 02 01 00",
            7,
            1,
        ),
        (
            "0: 1 1; 1: empty | t 0",
            "01 02 01 02 03 03 02 00 02 02 01",
            0,
            0,
        ),
        (
            "0: 1 t; 1: 2 0 | t; 2: empty | t",
            "01 03 01 02 03 02 02 02 05 01 01 02 02 00 01 02",
            7,
            0,
        ),
        (
            "0: t 0 | t; 1: 2 | t; 2: 1 | t",
            "01 03 02 02 02 01 01 02 02 01 05 01 02 02 01 03 01 02",
            7,
            1,
        ),
        (
            "0: t; 1: 1 | t; 2: 2 | t: two cycles",
            "01 03 01 01 02 02 01 03 01 02 02 01 05 01 02",
            7,
            1,
        ),
        (
            "0: t; 1: t; 2: 2 | t",
            "01 03 01 01 02 01 01 02 02 01 05 01 02",
            7,
            2,
        ),
    ])
}

/// Refusals 7 and 6: 7 is given, wherever the nonterminals stand that derive no row.
fn both_faults() -> Vec<Case> {
    from_table(&[
        ("0: 1; 1: 1", "01 02 01 01 03 01 01 03", 7, 1),
        ("0: 1 | t; 1: 1", "01 02 02 01 03 01 02 01 01 03", 7, 1),
        ("0: t; 1: 1, out of reach", "01 02 01 01 02 01 01 03", 7, 1),
        (
            "0: t; 1: 2; 2: 1 t",
            "01 03 01 01 02 01 01 05 01 02 03 02",
            7,
            1,
        ),
        (
            "0: t; 1: t 2; 2: 2: 6 is lower",
            "01 03 01 01 02 01 02 02 05 01 01 05",
            7,
            2,
        ),
        (
            "0: t; 1: t 0; 2: 2",
            "01 03 01 01 02 01 02 02 01 01 01 05",
            7,
            2,
        ),
        (
            "0: 1 2; 1: t; 2: 2: 6 is lower",
            "01 03 01 02 03 05 01 01 02 01 01 05",
            7,
            2,
        ),
        (
            "0: 0 t | t; 1: 1: 7 is lower",
            "01 02 02 02 01 02 01 02 01 01 03",
            7,
            0,
        ),
        (
            "0: 0 t | t; 1: t 1: 7 is lower, at another",
            "01 02 02 02 01 02 01 02 01 02 02 03",
            7,
            0,
        ),
        (
            "0: t 0; 1: 1 t | t: 6 is lower, at another",
            "01 02 01 02 02 01 02 02 03 02 01 02",
            7,
            1,
        ),
        (
            "0: 1 0; 1: empty: behind an empty symbol",
            "01 02 01 02 03 01 01 00",
            7,
            0,
        ),
        (
            "0: 1 0; 1: t 1: 1 is never empty, so 6",
            "01 02 01 02 03 01 01 02 02 03",
            6,
            0,
        ),
    ])
}

/// 32 nonterminals, each with a production that is the one named by `next`, if that is below 32, and
/// with a second production.
fn linked(next: impl Fn(u8) -> u8, second: &[u8]) -> Vec<u8> {
    let mut bytes = vec![1, 32];
    for number in 0..32 {
        match next(number) {
            next @ 0..=31 => bytes.extend([2, 1, 2 * next + 1]),
            _ => bytes.push(1),
        }
        bytes.extend(second);
    }
    bytes
}

/// 32 nonterminals, each the next one twice and nothing else; the last has the rule `last`.
fn doubled(last: &[u8]) -> Vec<u8> {
    let mut bytes = vec![1, 32];
    for next in 1..32 {
        bytes.extend([1, 2, 2 * next + 1, 2 * next + 1]);
    }
    bytes.extend(last);
    bytes
}

/// 32 nonterminals in the given order: the first has the rule `first`, each other one is the one
/// before it; but the last is the one before it and itself, or a token.
fn recursion_at_the_end(order: &[u8], first: &[u8]) -> Vec<u8> {
    let symbol = |at: usize| 2 * order[at] + 1;
    let mut rules = vec![Vec::new(); 32];
    rules[usize::from(order[0])].extend(first);
    for at in 1..31 {
        rules[usize::from(order[at])].extend([1, 1, symbol(at - 1)]);
    }
    rules[usize::from(order[31])].extend([2, 2, symbol(30), symbol(31), 1, 2]);
    [vec![1, 32], rules.concat()].concat()
}

/// Long ways through all nonterminals.
fn chains() -> Vec<Case> {
    let (token, empty) = ([1, 2], [0]);
    let up = |number| number + 1;
    let down = |number: u8| number.wrapping_sub(1);
    let around = |number| (number + 1) % 32;
    let around_down = |number| (number + 31) % 32;
    // 11 and 32 have no common divisor: one cycle through all.
    let leaps = |number| (number + 11) % 32;
    let into_last = |number: u8| (number + 1).min(31);
    let into_seven = |number| if number < 31 { number + 1 } else { 7 };
    let into_any = |number| if number < 16 { number + 1 } else { number };
    let mut cases = vec![
        case("a: a+1 | t", linked(up, &token), 0, 0),
        case("a: a-1 | t", linked(down, &token), 0, 0),
        case("a: a+1 | empty", linked(up, &empty), 0, 0),
        case("a: a-1 | empty", linked(down, &empty), 0, 0),
        case("cycle of 32", linked(around, &token), 7, 0),
        case("cycle of 32, downwards", linked(around_down, &token), 7, 0),
        case("cycle of 32 in leaps", linked(leaps, &token), 7, 0),
        case("cycle of 1 at the end", linked(into_last, &token), 7, 31),
        case("cycle of 25 at the end", linked(into_seven, &token), 7, 7),
        case("cycles of 1 from 16 on", linked(into_any, &token), 7, 16),
        case("all empty by the last", doubled(&[1, 0]), 0, 0),
        case("none derives a row", doubled(&[1, 2, 2, 63]), 6, 0),
        case("31: 31: none derives a row", doubled(&[1, 1, 63]), 7, 31),
        case("31: empty | 30 31", doubled(&[2, 0, 2, 61, 63]), 7, 30),
        case("31: empty | t 0", doubled(&[2, 0, 2, 2, 1]), 0, 0),
        case("31: empty | 0 t", doubled(&[2, 0, 2, 1, 2]), 7, 0),
    ];
    let up: Vec<u8> = (0..32).collect();
    let down: Vec<u8> = (0..32).rev().collect();
    let to_and_fro: Vec<u8> = (0..16).flat_map(|step| [16 + step, 15 - step]).collect();
    for (order, last) in [(up, 31), (down, 0), (to_and_fro, 0)] {
        let at_the_end = |first: &[u8]| recursion_at_the_end(&order, first);
        cases.extend([
            case("behind an empty chain", at_the_end(&[1, 0]), 7, last),
            case("behind a token's chain", at_the_end(&[1, 1, 2]), 0, 0),
        ]);
    }
    cases
}
