//! A second splitter of typed lines, made for the tests and by other means: from the line's end to its beginning it
//! works out where a word, a run of digits and a number that began at each byte would end, and then goes from token
//! to token by these tables.  The list is cut by the standard library.
#![forbid(unsafe_code)]

use allstar::calls::Answer;
use std::collections::BTreeMap;

pub const LONGEST_LINE: usize = 512;
pub const MOST_TOKENS: usize = 128;
pub const MOST_WORDS: usize = 66;

const WORD: u16 = 1;
const NUMBER: u16 = 2;
const FIRST_MARK: u16 = 3;
const FIRST_LISTED: u16 = 35;

/// What the line and the list say, whatever row is lent.
pub struct Judgement {
    pub number: u32,
    pub place: usize,
    /// Of an accepted line, and of one with too many.
    pub tokens: Vec<u16>,
}

impl Judgement {
    pub fn of(line: &[u8], list: &[u8]) -> Judgement {
        let refused = |number, place| Judgement {
            number,
            place,
            tokens: Vec::new(),
        };
        if line.len() > LONGEST_LINE {
            return refused(15, 0);
        }
        let Some(kinds) = listed(list) else {
            return refused(17, 0);
        };
        if let Some(place) = line.iter().position(|&byte| is_foreign(byte)) {
            return refused(16, place);
        }
        let tokens = tokens(line, &kinds);
        Judgement {
            number: if tokens.len() > MOST_TOKENS { 8 } else { 0 },
            place: 0,
            tokens,
        }
    }

    /// What is answered with a row of so many entries.
    pub fn answer(&self, row: usize) -> Answer {
        let (number, count) = match self.number {
            0 if self.tokens.len() > row => (14, 0),
            0 => (0, self.tokens.len() as u64),
            number => (number, 0),
        };
        Answer {
            number,
            place: self.place as u64,
            count,
        }
    }
}

pub fn is_foreign(byte: u8) -> bool {
    !matches!(byte, b' '..=b'~')
}

pub fn is_mark(byte: u8) -> bool {
    byte.is_ascii_punctuation()
}

fn is_word(bytes: &[u8]) -> bool {
    bytes.first().is_some_and(u8::is_ascii_alphabetic) && bytes.iter().all(u8::is_ascii_alphanumeric)
}

/// The kinds of the words of a list, if it is one.
pub fn listed(list: &[u8]) -> Option<BTreeMap<&[u8], u16>> {
    let words: Vec<&[u8]> = match list {
        [] => Vec::new(),
        _ => list.split(|&byte| byte == b' ').collect(),
    };
    if !words.iter().all(|word| is_word(word)) || words.len() > MOST_WORDS {
        return None;
    }
    let kinds: BTreeMap<&[u8], u16> = words.iter().copied().zip(FIRST_LISTED..).collect();
    (kinds.len() == words.len()).then_some(kinds)
}

/// The kind of a mark: how many marks are below it.
fn kind_of_mark(byte: u8) -> u16 {
    FIRST_MARK + (0..byte).filter(|&lower| is_mark(lower)).count() as u16
}

fn tokens(line: &[u8], kinds: &BTreeMap<&[u8], u16>) -> Vec<u16> {
    let length = line.len();
    // Where letters and digits that begin at a byte end, where digits do, and where a number does.
    let mut letters_end: Vec<usize> = (0..length + 2).collect();
    let mut digits_end = letters_end.clone();
    let mut number_end = letters_end.clone();
    for at in (0..length).rev() {
        if line[at].is_ascii_alphanumeric() {
            letters_end[at] = letters_end[at + 1];
        }
        if line[at].is_ascii_digit() {
            digits_end[at] = digits_end[at + 1];
            let point = digits_end[at];
            let has_fraction = line.get(point) == Some(&b'.') && digits_end[point + 1] > point + 1;
            number_end[at] = digits_end[if has_fraction { point + 1 } else { point }];
        }
    }
    let mut tokens = Vec::new();
    let mut at = 0;
    while at < length {
        let end = match line[at] {
            b'0'..=b'9' => number_end[at],
            b'A'..=b'Z' | b'a'..=b'z' => letters_end[at],
            _ => at + 1,
        };
        match line[at] {
            b' ' => {}
            b'0'..=b'9' => tokens.push(NUMBER),
            byte if is_mark(byte) => tokens.push(kind_of_mark(byte)),
            _ => tokens.push(kinds.get(&line[at..end]).copied().unwrap_or(WORD)),
        }
        at = end;
    }
    tokens
}
