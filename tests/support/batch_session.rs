//! Batches and single readings over one cache, with the second learner's memory beside it.
#![forbid(unsafe_code)]

use crate::batch_corners::{Drawn, Note, CORNERS};
use crate::batch_run::{Case, Run, Told, Turn, LONGEST_SPACE};
use crate::cache_words::{self, Places};
use crate::parts::Batch;
use crate::second_learner::{Learner, Memory};
use crate::second_parser::Judgement;
use crate::second_reader::{self, Lessons, Stop};
use crate::worked_batches::Left;
use allstar::calls;

/// A grammar, and all that the second reading needs to know of it.
pub struct Known<'g> {
    pub learner: &'g Learner<'g>,
    pub places: &'g Places,
    pub bytes: Vec<u8>,
}

impl<'g> Known<'g> {
    pub fn new(learner: &'g Learner<'g>, places: &'g Places) -> Known<'g> {
        Known {
            learner,
            places,
            bytes: learner.grammar().encode(),
        }
    }
}

/// Batches and single readings over a cache that was begun for a sound grammar.
pub struct Session<'a> {
    pub known: &'a Known<'a>,
    pub case: Case,
    pub memory: Memory<'a>,
    pub batches: usize,
    pub singles: usize,
}

impl<'a> Session<'a> {
    pub fn begin(run: &Run, origin: &str, known: &'a Known<'a>, length: usize) -> Session<'a> {
        let mut words = run.words[..length].to_vec();
        let verdict = calls::begin(&known.bytes, &mut words);
        let case = Case::new(origin, &known.bytes, &words);
        if verdict.number != 0 || !cache_words::same(&words, &cache_words::begun(&known.bytes, length)) {
            case.fail(&format!("beginning: {verdict}"));
        }
        Session {
            known,
            case,
            memory: Memory::new(known.learner, cache_words::slots(length)),
            batches: 0,
            singles: 0,
        }
    }

    /// What the next reading must come to; the memory learns.
    pub fn tell(
        &mut self,
        note: &[u16],
        judgement: &Judgement,
        row: usize,
        workspace: usize,
    ) -> (Told, Option<Lessons>) {
        let answer = judgement.answer(row, workspace);
        if !matches!(answer.number, 0 | 10 | 14) {
            let left = Left::AsItWas;
            return (Told { answer, left }, None);
        }
        let mut lessons = Lessons::default();
        let read = second_reader::read(self.known.learner.grammar(), note, row, |decision, rest| {
            second_reader::predict(&mut self.memory, &mut lessons, decision, rest)
        });
        let fits = match answer.number {
            0 => read.stop == Stop::Accepted && read.entries == judgement.derivation.entries,
            10 => read.stop != Stop::Accepted,
            _ => read.stop == Stop::RowFull,
        };
        if !fits {
            let stop = read.stop;
            self.case.fail(&format!(
                "note {note:?}, second reading: {stop:?}, second parser: {answer}"
            ));
        }
        let left = match answer.number {
            0 => Left::Entries(read.entries),
            _ => Left::Zeros,
        };
        (Told { answer, left }, Some(lessons))
    }

    /// The words of all that was learned.
    pub fn words(&self) -> Vec<u32> {
        let length = self.case.words.len();
        cache_words::of(&self.memory, self.known.places, &self.known.bytes, length)
    }

    /// The next batch, of notes that were judged; if it is drawn, its corners are counted.
    pub fn batch(
        &mut self,
        run: &mut Run,
        notes: &[(&[u16], &Judgement)],
        part: usize,
        workspace: usize,
        is_drawn: bool,
    ) -> Vec<Told> {
        let tokens: Vec<&[u16]> = notes.iter().map(|(note, _)| *note).collect();
        let batch = Batch::of(&tokens, part, workspace);
        let is_same = |turn: &Turn| {
            let Turn::Batch(other) = turn else { return false };
            (&other.tokens, &other.lengths, other.row) == (&batch.tokens, &batch.lengths, batch.row)
                && other.workspace == workspace
        };
        let is_repeated = self.case.turns.iter().any(is_same);
        self.case.turns.push(Turn::Batch(batch));
        let mut told = Vec::new();
        let mut drawn = Drawn {
            notes: Vec::new(),
            part,
            workspace,
            slots: self.memory.slots,
            batches: self.batches,
            singles: self.singles,
            is_repeated,
        };
        let mut has_learned = false;
        for (nth, &(note, judgement)) in notes.iter().enumerate() {
            let held = self.memory.states.len();
            let (next, lessons) = self.tell(note, judgement, part, workspace);
            has_learned |= lessons.as_ref().is_some_and(|lessons| lessons.worked > 0);
            drawn.notes.push(Note {
                tokens: note,
                judgement,
                answer: next.answer,
                lessons,
                held,
                is_repeated: tokens[..nth].contains(&note),
            });
            told.push(next);
        }
        let words = match has_learned {
            false => self.case.words.clone(),
            true => self.words(),
        };
        if is_repeated && words != self.case.words {
            self.case
                .fail("a batch that stood there before teaches something");
        }
        run.expect(&self.case, &told, &words);
        self.case.words = words;
        self.batches += 1;
        if is_drawn {
            run.count_drawn(0, &told);
            for (times, (_, touches)) in run.corners.iter_mut().zip(CORNERS) {
                *times += usize::from(touches(&drawn));
            }
        }
        told
    }

    /// A single reading.
    pub fn single(&mut self, note: &[u16], judgement: &Judgement, row: usize) {
        let workspace = judgement.space.min(LONGEST_SPACE);
        self.case.turns.push(Turn::Single(note.to_vec(), row));
        let (told, _) = self.tell(note, judgement, row, workspace);
        let words = self.words();
        let mut entries = vec![1; row];
        let answer = calls::quick(
            &self.known.bytes,
            note,
            &mut entries,
            &mut self.case.words,
            &mut vec![1; workspace],
        );
        if answer != told.answer || !cache_words::same(&self.case.words, &words) {
            let expected = told.answer;
            self.case
                .fail(&format!("single reading: {answer}\nexpected: {expected}"));
        }
        self.singles += 1;
    }
}
