//! Corners where a splitter of typed lines easily goes wrong.  The test program counts how often the drawn lines
//! touch each.
#![forbid(unsafe_code)]

use crate::second_splitter::{is_foreign, is_mark, listed, Judgement, LONGEST_LINE, MOST_TOKENS, MOST_WORDS};
use allstar::calls::Answer;

/// A line that was drawn, and its answer.
pub struct Drawn<'a> {
    pub line: &'a [u8],
    pub list: &'a [u8],
    pub row: usize,
    pub judgement: &'a Judgement,
    pub answer: Answer,
}

impl Drawn<'_> {
    fn is(&self, number: u32) -> bool {
        self.answer.number == number
    }

    fn count(&self) -> usize {
        self.judgement.tokens.len()
    }

    fn words(&self) -> Vec<&[u8]> {
        self.list.split(|&byte| byte == b' ').collect()
    }

    /// Accepted, and some bytes in a row are as asked.
    fn has<const WIDTH: usize>(&self, asked: fn([u8; WIDTH]) -> bool) -> bool {
        let mut windows = self.line.windows(WIDTH);
        self.is(0) && windows.any(|window| asked(window.try_into().unwrap()))
    }

    /// The byte at the place of refusal 16.
    fn foreign(&self) -> Option<u8> {
        self.is(16).then(|| self.line[self.answer.place as usize])
    }

    fn has_foreign(&self) -> bool {
        self.line.iter().any(|&byte| is_foreign(byte))
    }

    /// 17, and what the list would have to be for it.
    fn is_17(&self, asked: fn(&[&[u8]]) -> bool) -> bool {
        self.is(17) && asked(&self.words())
    }
}

fn is_twice(words: &[&[u8]]) -> bool {
    (1..words.len()).any(|nth| words[..nth].contains(&words[nth]))
}

fn digit(byte: u8) -> bool {
    byte.is_ascii_digit()
}

fn letter(byte: u8) -> bool {
    byte.is_ascii_alphabetic()
}

/// A name for reports, and whether a line touches it.
pub type Corner = (&'static str, fn(&Drawn) -> bool);

pub const CORNERS: [Corner; 46] = [
    ("accepted, row just long enough", |it| {
        it.is(0) && it.row == it.count()
    }),
    ("accepted, one entry left over", |it| {
        it.is(0) && it.row == it.count() + 1
    }),
    ("accepted, no tokens", |it| it.is(0) && it.count() == 0),
    ("accepted, 512 bytes", |it| {
        it.is(0) && it.line.len() == LONGEST_LINE
    }),
    ("accepted, 511 bytes", |it| {
        it.is(0) && it.line.len() == LONGEST_LINE - 1
    }),
    ("accepted, 128 tokens", |it| it.is(0) && it.count() == MOST_TOKENS),
    ("accepted, 127 tokens", |it| {
        it.is(0) && it.count() == MOST_TOKENS - 1
    }),
    ("accepted, empty list", |it| {
        it.is(0) && it.list.is_empty() && it.count() > 0
    }),
    ("accepted, 66 listed words", |it| {
        it.is(0) && it.words().len() == MOST_WORDS
    }),
    ("accepted, a token of kind 100", |it| {
        it.is(0) && it.judgement.tokens.contains(&100)
    }),
    ("accepted, a token of kind 35", |it| {
        it.is(0) && it.judgement.tokens.contains(&35)
    }),
    ("accepted, a word that is not listed", |it| {
        it.is(0) && !it.list.is_empty() && it.judgement.tokens.contains(&1)
    }),
    ("accepted, a listed word of more than 200 bytes", |it| {
        it.is(0) && it.words().iter().any(|word| word.len() > 200)
    }),
    ("accepted, a word listed in other case only", |it| {
        let kinds = listed(it.list).unwrap_or_default();
        let mut words = it.line.split(|&byte| !byte.is_ascii_alphanumeric());
        it.is(0)
            && words.any(|word| {
                !kinds.contains_key(word) && kinds.keys().any(|other| other.eq_ignore_ascii_case(word))
            })
    }),
    ("accepted, a word that goes on behind a listed one", |it| {
        let kinds = listed(it.list).unwrap_or_default();
        let mut words = it.line.split(|&byte| !byte.is_ascii_alphanumeric());
        it.is(0) && words.any(|word| word.len() > 1 && kinds.contains_key(&word[..word.len() - 1]))
    }),
    ("accepted, blanks at both ends", |it| {
        it.is(0) && it.line.starts_with(b" ") && it.line.ends_with(b" ") && it.count() > 0
    }),
    ("accepted, two blanks", |it| {
        it.has(|window: [u8; 2]| window == *b"  ")
    }),
    ("accepted, digit and letter", |it| {
        it.has(|[one, two]| digit(one) && letter(two))
    }),
    ("accepted, letter and digit", |it| {
        it.has(|[one, two]| letter(one) && digit(two))
    }),
    ("accepted, letter and mark", |it| {
        it.has(|[one, two]| letter(one) && is_mark(two))
    }),
    ("accepted, mark and mark", |it| {
        it.has(|[one, two]| is_mark(one) && is_mark(two))
    }),
    ("accepted, 1.2", |it| {
        it.has(|[a, b, c]| digit(a) && b == b'.' && digit(c))
    }),
    ("accepted, 1.2.3", |it| {
        it.has(|[a, b, c, d, e]| digit(a) && b == b'.' && digit(c) && d == b'.' && digit(e))
    }),
    ("accepted, 12. at the end", |it| {
        it.is(0) && matches!(it.line, [.., digit, b'.'] if digit.is_ascii_digit())
    }),
    ("accepted, 12. and a blank", |it| {
        it.has(|[a, b, c]| digit(a) && b == b'.' && c == b' ')
    }),
    ("accepted, 12. and a letter", |it| {
        it.has(|[a, b, c]| digit(a) && b == b'.' && letter(c))
    }),
    ("accepted, 12..", |it| {
        it.has(|[a, b, c]| digit(a) && b == b'.' && c == b'.')
    }),
    ("accepted, .5 behind a blank", |it| {
        it.has(|[a, b, c]| a == b' ' && b == b'.' && digit(c))
    }),
    ("accepted, a1.5", |it| {
        it.has(|[a, b, c, d]| letter(a) && digit(b) && c == b'.' && digit(d))
    }),
    ("15, 513 bytes", |it| {
        it.is(15) && it.line.len() == LONGEST_LINE + 1
    }),
    ("15, no list", |it| it.is(15) && listed(it.list).is_none()),
    ("15, foreign byte", |it| it.is(15) && it.has_foreign()),
    ("17, 67 words", |it| {
        it.is_17(|words| words.len() == MOST_WORDS + 1 && !is_twice(words))
    }),
    ("17, a word twice", |it| {
        it.is_17(|words| words.len() <= MOST_WORDS && is_twice(words))
    }),
    ("17, a blank too many", |it| {
        it.is_17(|words| words.contains(&&b""[..]))
    }),
    ("17, a digit first", |it| {
        it.is_17(|words| {
            words
                .iter()
                .any(|word| word.first().is_some_and(u8::is_ascii_digit))
        })
    }),
    ("17, foreign byte in the line", |it| it.is(17) && it.has_foreign()),
    ("16, bytes 0 and 31", |it| matches!(it.foreign(), Some(0 | 31))),
    ("16, bytes 127 and 128", |it| {
        matches!(it.foreign(), Some(127 | 128))
    }),
    ("16, byte 255", |it| it.foreign() == Some(255)),
    ("16 at the last byte", |it| {
        it.is(16) && it.answer.place as usize + 1 == it.line.len()
    }),
    ("16, another foreign byte behind it", |it| {
        it.is(16)
            && it.line[it.answer.place as usize + 1..]
                .iter()
                .any(|&byte| is_foreign(byte))
    }),
    ("16, more than 128 marks", |it| {
        it.is(16)
            && it
                .line
                .iter()
                .filter(|&&byte| is_mark(byte) || letter(byte))
                .count()
                > MOST_TOKENS
    }),
    ("8, 129 tokens", |it| it.is(8) && it.count() == MOST_TOKENS + 1),
    ("8, row of no entries", |it| it.is(8) && it.row == 0),
    ("14, one entry too few", |it| {
        it.is(14) && it.row + 1 == it.count()
    }),
];
