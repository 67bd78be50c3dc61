//! Typed lines and lists: some with their answers written down, and drawn ones near every edge.
#![forbid(unsafe_code)]

use crate::random::Random;
use crate::second_splitter::{LONGEST_LINE, MOST_TOKENS, MOST_WORDS};
use allstar::calls::Answer;

/// A line whose answer is written down.
pub struct Typed {
    pub line: Vec<u8>,
    pub list: Vec<u8>,
    pub row: usize,
    pub answer: Answer,
    pub tokens: Vec<u16>,
}

fn accepted(line: &str, list: &str, tokens: &[u16]) -> Typed {
    Typed {
        line: line.into(),
        list: list.into(),
        row: tokens.len(),
        answer: Answer {
            number: 0,
            place: 0,
            count: tokens.len() as u64,
        },
        tokens: tokens.to_vec(),
    }
}

fn refused(line: &[u8], list: &[u8], row: usize, number: u32, place: u64) -> Typed {
    Typed {
        line: line.into(),
        list: list.into(),
        row,
        answer: Answer {
            number,
            place,
            count: 0,
        },
        tokens: Vec::new(),
    }
}

/// So many words, all of them different.
fn many_words(count: usize) -> Vec<u8> {
    let words: Vec<String> = (0..count).map(|nth| format!("w{nth}")).collect();
    words.join(" ").into()
}

/// Cases worked out by hand.
pub fn worked() -> Vec<Typed> {
    const POINT: u16 = 16;
    let marks = "!\"#$%&'()*+,-./:;<=>?@[\\]^_`{|}~";
    let in_order: Vec<u16> = (3..=34).collect();
    let (most, too_many) = (many_words(MOST_WORDS), many_words(MOST_WORDS + 1));
    let long_word = vec![b'a'; 5_000];
    vec![
        accepted("", "", &[]),
        accepted("   ", "", &[]),
        accepted("", "kg", &[]),
        accepted(marks, "", &in_order),
        accepted("1.2.3", "", &[2, POINT, 2]),
        accepted("1.2.3.4", "", &[2, POINT, 2]),
        accepted("12.", "", &[2, POINT]),
        accepted("12..5", "", &[2, POINT, POINT, 2]),
        accepted("12. 5", "", &[2, POINT, 2]),
        accepted("12 .5", "", &[2, POINT, 2]),
        accepted("12.a", "", &[2, POINT, 1]),
        accepted("12.5a", "", &[2, 1]),
        accepted(".5", "", &[POINT, 2]),
        accepted("12ab", "", &[2, 1]),
        accepted("12ab", "ab", &[2, 35]),
        accepted("a1.5", "", &[1, POINT, 2]),
        accepted("a1.5", "a1", &[35, POINT, 2]),
        accepted("a1.5", "a", &[1, POINT, 2]),
        accepted("0123456789", "", &[2]),
        accepted("kg Kg KG kG", "kg Kg KG", &[35, 36, 37, 1]),
        accepted("a aa aaa aaaa", "aaa a aa", &[36, 37, 35, 1]),
        accepted("  a  1  ", "", &[1, 2]),
        accepted("w0 w65 w66", std::str::from_utf8(&most).unwrap(), &[35, 100, 1]),
        accepted("a", std::str::from_utf8(&long_word).unwrap(), &[1]),
        accepted(&"a".repeat(512), "a", &[1]),
        accepted(&"a".repeat(512), &"a".repeat(512), &[35]),
        accepted(&" ".repeat(512), "", &[]),
        accepted(&"a ".repeat(128), "a", &[35; 128]),
        refused(&[b'a'; 513], b"", 9, 15, 0),
        refused(&[b' '; 513], b" ", 0, 15, 0),
        refused(&[0; 513], &too_many, 0, 15, 0),
        refused(b"a", b" ", 9, 17, 0),
        refused(b"a", b" kg", 9, 17, 0),
        refused(b"a", b"kg ", 9, 17, 0),
        refused(b"a", b"kg  t", 9, 17, 0),
        refused(b"a", b"kg\tt", 9, 17, 0),
        refused(b"a", b"kg\n", 9, 17, 0),
        refused(b"a", b"1", 9, 17, 0),
        refused(b"a", b"a 1a", 9, 17, 0),
        refused(b"a", b"a.b", 9, 17, 0),
        refused(b"a", b"kg t kg", 9, 17, 0),
        refused(b"a", &too_many, 9, 17, 0),
        refused(&[0; 512], &[0], 0, 17, 0),
        refused(&[0], b"", 9, 16, 0),
        refused(b"a\x1f", b"", 9, 16, 1),
        refused(b"a \x7f\x80", b"", 9, 16, 2),
        refused(b"\xff", b"", 9, 16, 0),
        refused(&[&[b'.'; 511][..], &[10]].concat(), b"", 0, 16, 511),
        refused(&[b'.'; 129], b"", 200, 8, 0),
        refused(&[b'.'; 129], b"", 0, 8, 0),
        refused(&[b'.'; 128], b"", 127, 14, 0),
        refused(b"a 1", b"", 1, 14, 0),
        refused(b"a", b"", 0, 14, 0),
    ]
}

/// A drawn list.
pub fn list(random: &mut Random) -> Vec<u8> {
    let count = match random.below(8) {
        0 => 0,
        1 | 2 => MOST_WORDS,
        3 => MOST_WORDS + 1,
        4 => MOST_WORDS - 1,
        _ => random.between(1, 12),
    };
    let mut words: Vec<Vec<u8>> = Vec::new();
    while words.len() < count {
        let word = match words.last() {
            // A longer one with the same beginning, or the same in other case.
            Some(last) if random.chance(30) => [last.clone(), word(random)].concat(),
            Some(last) if random.chance(10) => turned(last),
            _ => word(random),
        };
        if !words.contains(&word) {
            words.push(word);
        }
    }
    if !words.is_empty() && random.chance(3) {
        words[0] = vec![b'x'; random.between(400, 2_000)];
    }
    if words.len() > 1 && random.chance(10) {
        let (one, other) = (random.below(words.len()), random.below(words.len()));
        words[one] = words[other].clone();
    }
    let mut list = words.join(&b' ');
    match random.below(40) {
        0 => list.insert(0, b' '),
        1 => list.push(b' '),
        2 => {
            // Another byte anywhere.
            let byte = edge_byte(random);
            list.insert(random.below(list.len() + 1), byte);
        }
        3 => {
            // A second blank, or a digit in front of a word.
            if let Some(at) = list.iter().position(|&byte| byte == b' ') {
                let byte = random.pick(b" 7");
                list.insert(at + 1, byte);
            }
        }
        _ => {}
    }
    list
}

fn turned(word: &[u8]) -> Vec<u8> {
    word.iter()
        .map(|byte| {
            if byte.is_ascii_alphabetic() {
                byte ^ 32
            } else {
                *byte
            }
        })
        .collect()
}

fn word(random: &mut Random) -> Vec<u8> {
    let length = match random.below(10) {
        0 => random.between(10, 30),
        _ => random.between(1, 4),
    };
    let mut word = vec![random.pick(b"aAbzZ")];
    word.extend((1..length).map(|_| random.pick(b"abAZz019")));
    word
}

/// A byte at an edge of the classes.
pub fn edge_byte(random: &mut Random) -> u8 {
    random.pick(b"\x00\x0a\x1f !/0159:@AMZ[`amz{~\x7f\x80\xa0\xff.")
}

fn number(random: &mut Random) -> Vec<u8> {
    let digits = random.between(1, 5);
    (0..digits).map(|_| random.pick(b"0123456789")).collect()
}

/// Some bytes that the edges of words, numbers and points are made of.
fn piece(random: &mut Random, listed: &[&[u8]]) -> Vec<u8> {
    match random.below(14) {
        0..=2 if !listed.is_empty() => random.pick(listed).to_vec(),
        3 if !listed.is_empty() => turned(random.pick(listed)),
        4 if !listed.is_empty() => [random.pick(listed), &[random.pick(b"a0.")]].concat(),
        5 if !listed.is_empty() => {
            let word = random.pick(listed);
            word[..word.len() - random.below(2).min(word.len() - 1)].to_vec()
        }
        6 => random
            .pick(&[
                &b"1.2.3"[..],
                b"12.",
                b".5",
                b"12ab",
                b"a1.5",
                b"1.2a",
                b"..",
                b"1..2",
            ])
            .to_vec(),
        7 => [number(random), b".".to_vec(), number(random)].concat(),
        8 => number(random),
        9 => vec![random.pick(b"!\"#$%&'()*+,-./:;<=>?@[\\]^_`{|}~")],
        10 => vec![b'.'],
        _ => word(random),
    }
}

/// A drawn line; `list` may be any bytes.
pub fn line(random: &mut Random, list: &[u8]) -> Vec<u8> {
    let listed: Vec<&[u8]> = list
        .split(|&byte| byte == b' ')
        .filter(|word| !word.is_empty() && word.len() < 40)
        .collect();
    let mut line = Vec::new();
    match random.below(10) {
        // About as many tokens as a line may have.
        0 | 1 => {
            let tokens = random.between(MOST_TOKENS - 2, MOST_TOKENS + 2);
            for _ in 0..tokens {
                match random.below(3) {
                    0 => line.push(random.pick(b".!~@")),
                    1 => line.extend([b' ', random.pick(b"aZ"), b' ']),
                    _ => line.extend([b' ', random.pick(b"09"), b' ']),
                }
            }
        }
        // About as many bytes, and few tokens.
        2 | 3 => {
            let length = random.between(LONGEST_LINE - 2, LONGEST_LINE + 2);
            while line.len() < length {
                let byte = random.pick(b"a0 ");
                line.extend(vec![byte; random.between(1, 40)]);
            }
            line.truncate(length);
        }
        // Bytes at the edges of the classes.
        4 => (0..random.between(1, 30)).for_each(|_| line.push(edge_byte(random))),
        // Any bytes that are not foreign.
        5 => {
            let length = random.between(0, 200);
            line.extend((0..length).map(|_| random.between(32, 126) as u8));
        }
        _ => {
            let most = match random.below(6) {
                0 => LONGEST_LINE,
                _ => random.between(0, 90),
            };
            while line.len() < most {
                line.extend(piece(random, &listed));
                line.extend(vec![b' '; random.pick(&[0, 0, 1, 1, 1, 2, 3])]);
            }
            if random.chance(20) {
                line.extend(random.pick(&[&b"12."[..], b"a1.", b"1.5.", b"7"]));
            }
        }
    }
    if random.chance(8) {
        let foreign = random.pick(b"\x00\x09\x0a\x0d\x1f\x7f\x80\xff");
        let at = match random.below(4) {
            0 => 0,
            1 => line.len(),
            _ => random.below(line.len() + 1),
        };
        line.insert(at, foreign);
        if random.chance(30) {
            line.push(random.pick(b"\x00\xff"));
        }
    }
    line
}

/// A length of row about what the tokens take.
pub fn row_length(random: &mut Random, tokens: usize) -> usize {
    match random.below(8) {
        0 => 0,
        1 => MOST_TOKENS,
        2 => random.between(0, 200),
        3 | 4 => tokens.saturating_sub(1),
        5 => tokens + 1,
        _ => tokens,
    }
}
