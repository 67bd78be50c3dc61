//! What readings work in.

use crate::calls::{self, Answer};
use crate::grammar::Grammar;
use crate::reading::Reading;
use crate::refusal::{NoteRefusal, Refusal};
use crate::{MAX_NOTES, MAX_TOKENS};

/// The words of working space that a reading asks for, by a grammar with so many places and for so many
/// tokens.
pub fn workspace_words(places: usize, tokens: usize) -> usize {
    8_192 + 8 * places * (tokens + 1)
}

/// The working space and the row of readings. It grows as grammars, notes and derivations ask for it, and
/// serves any grammar and cache, one reading after the other.
#[derive(Clone, Debug)]
pub struct Workspace {
    words: Vec<u32>,
    row: Vec<u16>,
    longest_row: usize,
    /// The entries of notes that were read together, one note's behind the other's.
    entries: Vec<u16>,
}

impl Workspace {
    /// The entries of the row to begin with, and of a note's part of a batch's row.
    const FIRST_ROW: usize = 256;

    /// An empty one, for derivations of up to 65,536 entries.
    pub fn new() -> Workspace {
        Workspace::with_longest_row(65_536)
    }

    /// An empty one, for derivations of up to so many entries: a note that has more is refused with
    /// [`NoteRefusal::ShortRow`]. Few tokens can have very many entries, so there is always a longest row.
    pub fn with_longest_row(entries: usize) -> Workspace {
        Workspace {
            words: Vec::new(),
            row: vec![0; entries.min(Workspace::FIRST_ROW)],
            longest_row: entries,
            entries: Vec::new(),
        }
    }

    /// Takes care that there is working space for a note of so many tokens.
    fn make_room(&mut self, grammar: &Grammar, tokens: usize) {
        let words = workspace_words(grammar.places(), tokens.min(MAX_TOKENS));
        if self.words.len() < words {
            self.words.resize(words, 0);
        }
    }

    /// Reads with enough working space, and with a longer row while it is too short.
    pub(crate) fn read<'a>(
        &'a mut self,
        grammar: &'a Grammar,
        note: &'a [u16],
        mut call: impl FnMut(&mut [u16], &mut [u32]) -> Answer,
    ) -> Result<Reading<'a>, NoteRefusal> {
        self.make_room(grammar, note.len());
        loop {
            let answer = call(&mut self.row, &mut self.words);
            match Refusal::new(answer.number, answer.place) {
                None => {
                    let entries = &self.row[..answer.count as usize];
                    return Ok(Reading::new(grammar, note, entries));
                }
                Some(Refusal::Note(NoteRefusal::ShortRow)) if self.row.len() < self.longest_row => {
                    let longer = (2 * self.row.len()).min(self.longest_row);
                    self.row.resize(longer, 0);
                }
                Some(Refusal::Note(refusal)) => return Err(refusal),
                Some(other) => unreachable!("a reading answered {other:?}"),
            }
        }
    }

    /// Reads notes over a cache in batches, and those again singly whose part of the row was too short.
    pub(crate) fn read_all<'a, N: AsRef<[u16]>>(
        &'a mut self,
        grammar: &'a Grammar,
        notes: &'a [N],
        cache: &mut [u32],
    ) -> Vec<Result<Reading<'a>, NoteRefusal>> {
        let part = self.longest_row.min(Workspace::FIRST_ROW);
        let mut row = vec![0; part * notes.len().min(MAX_NOTES)];
        let mut entries = std::mem::take(&mut self.entries);
        entries.clear();
        // Where each note's entries end.
        let mut ends: Vec<Result<usize, NoteRefusal>> = Vec::with_capacity(notes.len());
        for batch in notes.chunks(MAX_NOTES) {
            // Of a note that is too long so many tokens are lent that it is refused for it.
            let lent = |note: &'a N| {
                let note = note.as_ref();
                &note[..note.len().min(MAX_TOKENS + 1)]
            };
            let tokens = batch.iter().map(lent).collect::<Vec<_>>().concat();
            let lengths: Vec<u16> = batch.iter().map(|note| lent(note).len() as u16).collect();
            let mut answers = vec![0; 3 * batch.len()];
            let row = &mut row[..part * batch.len()];
            let longest = lengths.iter().copied().max().unwrap_or(0);
            self.make_room(grammar, usize::from(longest));
            let words = &mut self.words;
            let verdict = calls::batch(
                grammar.bytes(),
                &tokens,
                &lengths,
                &mut answers,
                row,
                cache,
                words,
            );
            if let Some(refusal) = Refusal::new(verdict.number, verdict.place) {
                unreachable!("a batch answered {refusal:?}");
            }
            for (nth, (note, answer)) in batch.iter().zip(answers.chunks(3)).enumerate() {
                let end = match Refusal::new(answer[0] as u32, answer[1]) {
                    None => {
                        entries.extend_from_slice(&row[nth * part..][..answer[2] as usize]);
                        Ok(entries.len())
                    }
                    Some(Refusal::Note(NoteRefusal::ShortRow)) if part < self.longest_row => {
                        let singly = self.read(grammar, note.as_ref(), |row, space| {
                            calls::quick(grammar.bytes(), note.as_ref(), row, cache, space)
                        });
                        singly.map(|reading| {
                            entries.extend_from_slice(reading.entries());
                            entries.len()
                        })
                    }
                    Some(Refusal::Note(refusal)) => Err(refusal),
                    Some(other) => unreachable!("a note of a batch was answered {other:?}"),
                };
                ends.push(end);
            }
        }
        self.entries = entries;
        let mut rest = &self.entries[..];
        let mut begin = 0;
        let reading = |(note, end): (&'a N, Result<usize, NoteRefusal>)| {
            let end = end?;
            let (own, others) = rest.split_at(end - begin);
            (rest, begin) = (others, end);
            Ok(Reading::new(grammar, note.as_ref(), own))
        };
        notes.iter().zip(ends).map(reading).collect()
    }
}

impl Default for Workspace {
    fn default() -> Workspace {
        Workspace::new()
    }
}
