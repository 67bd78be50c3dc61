//! Plain readings with the answer written down, not computed: those of the scope, those of the
//! benchmark cases, and those worked out by hand.
#![forbid(unsafe_code)]

use allstar::calls::Answer;
use crate::edges::G1;
use crate::second_parser::space;
use crate::tree::from_hex;

pub struct Reading {
    pub why: String,
    pub grammar: Vec<u8>,
    pub note: Vec<u16>,
    pub row: usize,
    /// The words of the working space; as many as it takes where none are named.
    pub workspace: Option<usize>,
    pub answer: Answer,
    /// The row's entries, if accepted.
    pub entries: Vec<u16>,
}

/// The entries, or number and place.
type Outcome<'a> = Result<&'a [u16], (u32, u64)>;

fn reading(
    why: impl Into<String>,
    grammar: &[u8],
    note: &[u16],
    row: usize,
    outcome: Outcome,
) -> Reading {
    let (number, place) = outcome.err().unwrap_or_default();
    let entries = outcome.unwrap_or_default();
    Reading {
        why: why.into(),
        grammar: grammar.to_vec(),
        note: note.to_vec(),
        row,
        workspace: None,
        answer: Answer {
            number,
            place,
            count: entries.len() as u64,
        },
        entries: entries.to_vec(),
    }
}

/// Bytes, note, length of the row, outcome.
fn from_table(table: &[(&str, &str, &[u16], usize, Outcome)]) -> Vec<Reading> {
    let read = |&(why, hex, note, row, outcome)| reading(why, &from_hex(hex), note, row, outcome);
    table.iter().map(read).collect()
}

/// The plain cases under "Grammar G1 and its neighbours"; the starred ones are proved too.
pub fn paper() -> Vec<Reading> {
    let followed = format!("{G1} 00");
    from_table(&[
        ("* grade", G1, &[1], 16, Ok(&[1, 1])),
        (
            "* grade less: 2 1 derives it too",
            G1,
            &[1, 2],
            16,
            Ok(&[1, 2]),
        ),
        ("* grade less less", G1, &[1, 2, 2], 16, Ok(&[2, 2])),
        ("* one less too many", G1, &[1, 2, 2, 2], 16, Err((10, 3))),
        ("* empty", G1, &[], 16, Err((10, 0))),
        ("* grade grade", G1, &[1, 1], 16, Err((10, 1))),
        ("unknown token", G1, &[1, 3], 16, Err((9, 1))),
        ("* row of one entry", G1, &[1, 2], 1, Err((14, 0))),
        (
            "row of one entry, no sentence",
            G1,
            &[1, 2, 2, 2],
            1,
            Err((10, 3)),
        ),
        ("* no bytes", "", &[1], 16, Err((1, 0))),
        ("* overlong T", "81 00", &[1], 16, Err((2, 0))),
        ("unfinished T", "80", &[1], 16, Err((1, 0))),
        ("100 passes as T", "64", &[1], 16, Err((1, 1))),
        ("101 kinds", "65", &[1], 16, Err((3, 0))),
        ("G1 then 00", &followed, &[1], 16, Err((5, 14))),
        (
            "* derives no row",
            "01 01 01 02 02 01",
            &[1],
            16,
            Err((6, 0)),
        ),
        (
            "* left recursive, derives no row either",
            "01 01 01 01 01",
            &[1],
            16,
            Err((7, 0)),
        ),
        (
            "* recursion behind an empty symbol",
            "01 02 02 03 03 01 02 01 02 01 00",
            &[1],
            16,
            Err((7, 0)),
        ),
        ("one empty production", "01 01 01 00", &[], 16, Ok(&[1])),
    ])
}

pub fn edges() -> Vec<Reading> {
    let mut readings = rows();
    readings.extend(derivations());
    readings.extend(wrong_places());
    readings.extend(orders());
    readings.extend(long_notes());
    readings
}

/// Rows of several lengths.
fn rows() -> Vec<Reading> {
    let empty = "01 01 01 00";
    // 0: [1] or [t]. 1: [t].
    let shorter = "01 02 02 01 03 01 02 01 01 02";
    from_table(&[
        ("just long enough", G1, &[1], 2, Ok(&[1, 1])),
        (
            "tokens behind the last entry",
            G1,
            &[1, 2, 2],
            2,
            Ok(&[2, 2]),
        ),
        ("one entry too short", G1, &[1, 2, 2], 1, Err((14, 0))),
        ("no entry", G1, &[1], 0, Err((14, 0))),
        ("no entry, no sentence", G1, &[1, 1], 0, Err((10, 1))),
        ("no entry, empty note", G1, &[], 0, Err((10, 0))),
        ("full, no sentence", G1, &[1, 1], 2, Err((10, 1))),
        ("one entry, empty note", empty, &[], 1, Ok(&[1])),
        ("no entry for one", empty, &[], 0, Err((14, 0))),
        (
            "no sentence but the empty one",
            empty,
            &[1],
            4,
            Err((10, 0)),
        ),
        ("the lowest, though longer", shorter, &[1], 2, Ok(&[1, 1])),
        (
            "14, though a higher one would fit",
            shorter,
            &[1],
            1,
            Err((14, 0)),
        ),
    ])
}

/// Which derivation it is.
fn derivations() -> Vec<Reading> {
    // 0: [1 2]. 1: [t] or [t t]. 2: [t t] or [t].
    let halves = "01 03 01 02 03 05 02 01 02 02 02 02 02 02 02 02 01 02";
    // 0: [t] or [t].
    let twins = "01 01 02 01 02 01 02";
    // 0: [1 2] or [t]. 1: [] or [t]. 2: [t] or [].
    let empties = "01 03 02 02 03 05 01 02 02 00 01 02 02 01 02 00";
    // 0: [if 0] or [if 0 else 0] or [x], and the same with the first two swapped.
    let inner = "03 01 03 02 02 01 04 02 01 04 01 01 06";
    let outer = "03 01 03 04 02 01 04 01 02 02 01 01 06";
    // 0: [1 1 1]. 1: [] or [t].
    let thrice = "01 02 01 03 03 03 03 02 00 01 02";
    let if_if_else = [1, 1, 3, 2, 3];
    from_table(&[
        (
            "first lowest, then second",
            halves,
            &[1, 1],
            9,
            Ok(&[1, 1, 2]),
        ),
        (
            "first lowest by the rest",
            halves,
            &[1, 1, 1],
            9,
            Ok(&[1, 1, 1]),
        ),
        (
            "first forced by the rest",
            halves,
            &[1, 1, 1, 1],
            9,
            Ok(&[1, 2, 1]),
        ),
        ("halves, too short", halves, &[1], 9, Err((10, 1))),
        (
            "halves, too long",
            halves,
            &[1, 1, 1, 1, 1],
            9,
            Err((10, 4)),
        ),
        (
            "the first of two that are the same",
            twins,
            &[1],
            9,
            Ok(&[1]),
        ),
        ("empty by two", empties, &[], 9, Ok(&[1, 1, 2])),
        ("the empty one first", empties, &[1], 9, Ok(&[1, 1, 1])),
        ("both", empties, &[1, 1], 9, Ok(&[1, 2, 1])),
        (
            "else to the inner if",
            inner,
            &if_if_else,
            9,
            Ok(&[1, 2, 3, 3]),
        ),
        (
            "else to the outer if",
            outer,
            &if_if_else,
            9,
            Ok(&[1, 2, 3, 3]),
        ),
        ("as late as can be", thrice, &[1], 9, Ok(&[1, 1, 1, 2])),
        (
            "as late as can be, two",
            thrice,
            &[1, 1],
            9,
            Ok(&[1, 1, 2, 2]),
        ),
    ])
}

/// The place of 10.
fn wrong_places() -> Vec<Reading> {
    // 0: [t t t u] or [t t t v].
    let late = "03 01 02 04 02 02 02 04 04 02 02 02 06";
    // 0: [t 1]. 1: [] or [u].
    let open_end = "02 02 01 02 02 03 02 00 01 04";
    // 0: [t]. 1: [t u], which no sentence holds.
    let out_of_reach = "02 02 01 01 02 01 02 02 04";
    // 0: [1 u]. 1: [t] or [t u 1].
    let returns = "02 02 01 02 03 04 02 01 02 03 02 04 03";
    from_table(&[
        (
            "behind a common beginning",
            late,
            &[1, 1, 1, 1],
            9,
            Err((10, 3)),
        ),
        ("and at its end", late, &[1, 1, 1], 9, Err((10, 3))),
        ("left over", late, &[1, 1, 1, 2, 2], 9, Err((10, 4))),
        ("the first token", late, &[2, 1, 1, 2], 9, Err((10, 0))),
        ("the first of two", late, &[1, 2, 1, 1], 9, Err((10, 1))),
        ("behind an empty end", open_end, &[1, 1], 9, Err((10, 1))),
        ("behind an end", open_end, &[1, 2, 2], 9, Err((10, 2))),
        (
            "not by what is out of reach",
            out_of_reach,
            &[1, 2],
            9,
            Err((10, 1)),
        ),
        ("the end is too early", returns, &[1, 2, 1], 9, Err((10, 3))),
        (
            "neither within nor behind",
            returns,
            &[1, 2, 2],
            9,
            Err((10, 2)),
        ),
        ("within", returns, &[1, 2, 1, 1], 9, Err((10, 3))),
        ("returned", returns, &[1, 2, 1, 2], 9, Ok(&[1, 2, 1])),
    ])
}

/// One refusal before another.
fn orders() -> Vec<Reading> {
    let g1 = from_hex(G1);
    let recursive = from_hex("01 01 01 01 01");
    let barren = from_hex("01 01 01 02 02 01");
    let hundred = from_hex("64 01 01 01 c8 01");
    let enough = space(10, 2);
    let one_too_little = |note: &[u16], outcome| Reading {
        workspace: Some(enough - 1),
        ..reading("a word too little", &g1, note, 16, outcome)
    };
    let no_words = |grammar: &[u8], note: &[u16], outcome| Reading {
        workspace: Some(0),
        ..reading("no words", grammar, note, 16, outcome)
    };
    let too_long = [1; 129];
    let mut unknown_last = [1; 129];
    unknown_last[128] = 3;
    vec![
        reading("just enough", &g1, &[1, 2], 16, Ok(&[1, 2])),
        Reading {
            workspace: Some(enough + 1_000),
            ..reading("more than enough", &g1, &[1, 2], 16, Ok(&[1, 2]))
        },
        one_too_little(&[1, 2], Err((11, 0))),
        one_too_little(&[1, 1], Err((11, 0))),
        one_too_little(&[1, 3], Err((9, 1))),
        one_too_little(&[1], Ok(&[1, 1])),
        one_too_little(&[1, 2, 2], Err((11, 0))),
        no_words(&g1, &[1, 2], Err((11, 0))),
        no_words(&g1, &[], Err((11, 0))),
        no_words(&g1, &[0, 1], Err((9, 0))),
        no_words(&g1, &too_long, Err((8, 0))),
        no_words(&recursive, &too_long, Err((7, 0))),
        no_words(&recursive, &[0], Err((7, 0))),
        no_words(&barren, &too_long, Err((6, 0))),
        no_words(&barren, &[0], Err((6, 0))),
        no_words(&[], &too_long, Err((1, 0))),
        Reading {
            workspace: Some(enough - 1),
            ..reading("11 before 14", &g1, &[1, 2], 1, Err((11, 0)))
        },
        reading("8 before 9", &g1, &unknown_last, 16, Err((8, 0))),
        reading("9 at the last", &g1, &unknown_last[1..], 16, Err((9, 127))),
        reading("9 before 10", &g1, &[2, 2, 2, 0], 16, Err((9, 3))),
        reading("the first unknown one", &g1, &[1, 0, 3], 16, Err((9, 1))),
        reading("the highest number", &g1, &[1, 2, 0xffff], 16, Err((9, 2))),
        reading(
            "its low bits would pass",
            &g1,
            &[1, 0x0102],
            16,
            Err((9, 1)),
        ),
        reading("token 100", &hundred, &[100], 16, Ok(&[1])),
        reading("token 101", &hundred, &[101], 16, Err((9, 0))),
    ]
}

/// Notes at the limit, sentences beyond it, derivations that nobody can count.
fn long_notes() -> Vec<Reading> {
    // 0: [t 0] or [t].
    let list = from_hex("01 01 02 02 02 01 01 02");
    let mut longest = vec![1; 127];
    longest.push(2);
    // 0: [1 1 .. 1], twenty times. 1: [t t .. t], ten times.
    let mut long = from_hex("02 02 01 14");
    long.extend([3; 20]);
    long.extend([1, 10]);
    long.extend([2; 10]);
    let mut wrong_in_middle = [1; 128];
    wrong_in_middle[77] = 2;
    // Each is the next one twice, the last is empty.
    let mut doubled = vec![1, 32];
    for next in 1..32 {
        doubled.extend([1, 2, 2 * next + 1, 2 * next + 1]);
    }
    doubled.extend([1, 0]);
    vec![
        reading("128 tokens", &list, &[1; 128], 128, Ok(&longest)),
        reading(
            "128 tokens, 127 entries",
            &list,
            &[1; 128],
            127,
            Err((14, 0)),
        ),
        reading("129 tokens", &list, &[1; 129], 200, Err((8, 0))),
        reading("1,000 tokens", &list, &[1; 1_000], 200, Err((8, 0))),
        reading(
            "all sentences have 200",
            &long,
            &[1; 128],
            40,
            Err((10, 128)),
        ),
        reading("200 tokens", &long, &[1; 200], 40, Err((8, 0))),
        reading(
            "wrong in the middle",
            &long,
            &wrong_in_middle,
            40,
            Err((10, 77)),
        ),
        reading("2^32 - 1 entries", &doubled, &[], 1_000, Err((14, 0))),
        reading(
            "2^32 - 1 entries and a token",
            &doubled,
            &[1],
            1_000,
            Err((10, 0)),
        ),
    ]
}

/// Each note of the benchmark cases, the row as long as its derivation, longer, and shorter.
pub fn benchmarks() -> Vec<Reading> {
    let mut readings = Vec::new();
    for (name, hex, notes, expected) in [
        (
            "g1",
            include_str!("../../bench/cases/g1.hex"),
            include_str!("../../bench/cases/g1.notes"),
            include_str!("../../bench/cases/g1.expected"),
        ),
        (
            "delivery",
            include_str!("../../bench/cases/delivery.hex"),
            include_str!("../../bench/cases/delivery.notes"),
            include_str!("../../bench/cases/delivery.expected"),
        ),
        (
            "worst",
            include_str!("../../bench/cases/worst.hex"),
            include_str!("../../bench/cases/worst.notes"),
            include_str!("../../bench/cases/worst.expected"),
        ),
    ] {
        let grammar = from_hex(hex);
        assert_eq!(notes.lines().count(), expected.lines().count());
        for (nth, (note, line)) in notes.lines().zip(expected.lines()).enumerate() {
            let note = numbers(note);
            let why = format!("benchmark {name}, note {}", nth + 1);
            let (answer, rest) = line.split_at(2);
            let rest = numbers(rest);
            let mut add = |row, outcome| {
                readings.push(reading(&why, &grammar, &note, row, outcome));
            };
            match (answer, rest.as_slice()) {
                ("ok", entries) => {
                    let count = entries.len();
                    add(count, Ok(entries));
                    add(count + 100, Ok(entries));
                    for row in [count - 1, count / 2, 1, 0] {
                        add(row, Err((14, 0)));
                    }
                }
                ("no", &[number, place]) => {
                    for row in [500, 5, 1, 0] {
                        add(row, Err((u32::from(number), u64::from(place))));
                    }
                }
                _ => panic!("{why}: {line}"),
            }
        }
    }
    readings
}

fn numbers(text: &str) -> Vec<u16> {
    let words = text.split_whitespace();
    words.map(|word| word.parse().unwrap()).collect()
}
