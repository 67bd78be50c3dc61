//! Typed lines, and the words that have kinds of their own.

use crate::calls;
use crate::refusal::{LineRefusal, Refusal};
use crate::MAX_TOKENS;

/// A list of up to 66 words, none of them twice: in a typed line the first is a token of kind 35, the second of
/// kind 36, and so on. A word is a letter and the letters and digits behind it; case counts.
///
/// ```
/// use allstar::{Refusal, WordList};
///
/// let words = WordList::new("kg grade")?;
/// // grade, a word that is not listed, a colon, a number, kg
/// assert_eq!(words.split(b"grade A: 12.5kg")?, [36, 1, 18, 2, 35]);
/// assert_eq!(words.split(b"5\t2").unwrap_err().to_string(), "the line has a foreign byte, at byte 1");
/// # Ok::<(), Refusal>(())
/// ```
#[derive(Clone, Debug, PartialEq, Eq)]
pub struct WordList {
    bytes: Vec<u8>,
}

impl WordList {
    /// Checks a list's bytes, words with single blanks between, and keeps them. No bytes are the empty list.
    pub fn new(bytes: impl Into<Vec<u8>>) -> Result<WordList, LineRefusal> {
        let bytes = bytes.into();
        // Of an empty line nothing but the list can be refused.
        let answer = calls::split(&[], &bytes, &mut []);
        match Refusal::new(answer.number, answer.place) {
            None => Ok(WordList { bytes }),
            Some(Refusal::Line(refusal)) => Err(refusal),
            Some(other) => unreachable!("an empty line was answered {other:?}"),
        }
    }

    /// The bytes.
    pub fn bytes(&self) -> &[u8] {
        &self.bytes
    }

    /// The tokens of a typed line, a note to be read: 1 is a word that is not listed, 2 a number, 3 to 34 are
    /// the marks in the order of their bytes, 35 and up the words of the list. Refused are a line of more than
    /// 512 bytes ([`LineRefusal::LongLine`]), one with a foreign byte ([`LineRefusal::ForeignByte`]) and one of
    /// more than 128 tokens ([`NoteRefusal::LongNote`](crate::NoteRefusal::LongNote)).
    pub fn split(&self, line: &[u8]) -> Result<Vec<u16>, Refusal> {
        let mut tokens = vec![0; MAX_TOKENS];
        let answer = calls::split(line, &self.bytes, &mut tokens);
        match Refusal::new(answer.number, answer.place) {
            None => {
                tokens.truncate(answer.count as usize);
                Ok(tokens)
            }
            Some(refusal) => Err(refusal),
        }
    }
}
