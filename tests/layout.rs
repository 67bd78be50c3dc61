//! Holds the table of docs/CACHE.md to the words that beginning and a quick reading leave: every word
//! that is not 0 stands in it, with its value, who left it and what it says by the layout. And the
//! audit says yes to words that are made from the table alone, as another program would make them.
#![deny(unsafe_code)]

#[allow(dead_code)]
#[path = "support/tree.rs"]
mod tree;

use allstar::calls;

const DOCUMENT: &str = include_str!("../docs/CACHE.md");

/// Grammar G1, the note and the cache of the document's example.
const G1: &str = "02 02 02 01 03 02 03 04 02 01 02 02 02 04";
const NOTE: [u16; 2] = [1, 2];
const WORDS: usize = 3_968;

const SLOTS_AT: usize = 2_048;
const OF_A_SLOT: usize = 320;
const CONFIGURATIONS_AT: usize = 128;

/// What an outcome's word says.
fn outcome(word: u32) -> String {
    match word {
        0 => "nothing recorded".to_string(),
        1..=16 => format!("alternative {word}"),
        17 => "FULL".to_string(),
        _ => format!("state {}", word - 18),
    }
}

/// Some return places, the innermost the lowest byte.
fn returns(word: u32) -> String {
    let bytes = word.to_le_bytes().map(|byte| byte.to_string());
    let last = bytes.iter().rposition(|byte| byte != "0");
    bytes[..last.map_or(0, |at| at + 1)].join(", ")
}

/// What a word inside slot s says.
fn slot_word(s: usize, at: usize, word: u32) -> String {
    let said = match at {
        0 => format!("decision {word}"),
        1 => format!("{word} configurations kept"),
        2..=102 => format!("step over token {}: {}", at - 2, outcome(word)),
        CONFIGURATIONS_AT.. => {
            let of = at - CONFIGURATIONS_AT;
            let field = match of % 3 {
                0 => {
                    let place = word & 0x1ff;
                    let alternative = word >> 9 & 0x1f;
                    let deep = word >> 14 & 0xf;
                    format!("place {place}, alternative {alternative}, {deep} on the stack")
                }
                1 => format!("return places {}", returns(word)),
                _ => format!("return places 5 to 8 {}", returns(word)),
            };
            format!("configuration {}: {field}", of / 3)
        }
        _ => panic!("word {at} of slot {s} has no use and is {word}"),
    };
    format!("slot {s}, {said}")
}

/// What a word says by the layout.
fn says(at: usize, word: u32) -> String {
    match at {
        1 => "L, low half".to_string(),
        2 => "L, high half".to_string(),
        3 => "grammar bytes".to_string(),
        4 => "states held".to_string(),
        32..=63 => format!("start of decision {}: {}", at - 32, outcome(word)),
        64..SLOTS_AT => {
            let first = 4 * (at - 64);
            format!(
                "bytes from {first} on: {}",
                tree::to_hex(&word.to_le_bytes())
            )
        }
        SLOTS_AT.. => {
            let from = at - SLOTS_AT;
            slot_word(from / OF_A_SLOT, from % OF_A_SLOT, word)
        }
        _ => panic!("word {at} has no use and is {word}"),
    }
}

/// The rows of the table, for the cache as it began and as it is after the reading.
fn rows(begun: &[u32], read: &[u32]) -> Vec<String> {
    let words = begun.iter().zip(read).enumerate();
    let row = |(at, (&before, &after)): (usize, (&u32, &u32))| {
        if before == 0 && after == 0 {
            return None;
        }
        let by = if before == after { "begin" } else { "quick" };
        let said = says(at, after);
        Some(format!("| {at} | {after} | {after:#x} | {by} | {said} |"))
    };
    words.filter_map(row).collect()
}

fn main() {
    let grammar = tree::from_hex(G1);
    let mut cache = vec![u32::MAX; WORDS];
    let mut row = [0; 16];
    let mut workspace = vec![0; 8_192 + 8 * 10 * (NOTE.len() + 2)];
    assert_eq!(calls::begin(&grammar, &mut cache).number, 0);
    let begun = cache.clone();
    let answer = calls::quick(&grammar, &NOTE, &mut row, &mut cache, &mut workspace);
    assert_eq!((answer.number, answer.count, row[0], row[1]), (0, 2, 1, 2));
    let found = rows(&begun, &cache);
    if std::env::args().any(|word| word == "--print") {
        println!("{}", found.join("\n"));
        return;
    }
    let is_row = |line: &&str| line.starts_with("| ") && line.contains(" | 0x");
    let told: Vec<&str> = DOCUMENT.lines().filter(is_row).collect();
    for (found, told) in found.iter().zip(&told) {
        if found != told {
            println!("docs/CACHE.md says {told}\nthe cache says   {found}");
            std::process::exit(1);
        }
    }
    if found.len() != told.len() {
        println!(
            "docs/CACHE.md has {} rows, the cache {}",
            told.len(),
            found.len()
        );
        std::process::exit(1);
    }
    // The words as the table has them, and nobody else: they are the cache's, and get a yes.
    let mut written = vec![0; WORDS];
    for line in &told {
        let columns: Vec<&str> = line.split(" | ").collect();
        let at: usize = columns[0].trim_start_matches("| ").parse().unwrap();
        written[at] = columns[1].parse().unwrap();
    }
    assert_eq!(written, cache);
    assert_eq!(calls::audit(&grammar, &written).number, 0);
    // The note that the document goes on with.
    let read = cache.clone();
    calls::quick(&grammar, &[1, 2, 2], &mut row, &mut cache, &mut workspace);
    let changed = (0..WORDS).filter(|&at| cache[at] != read[at]);
    let changed: Vec<(usize, u32)> = changed.map(|at| (at, cache[at])).collect();
    assert_eq!(changed, [(2692, 2), (3652, 2)]);
    assert_eq!(calls::audit(&grammar, &cache).number, 0);
    println!(
        "layout: {} words, each as docs/CACHE.md says, and they get a yes",
        found.len()
    );
}
