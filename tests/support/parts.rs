//! What a batch is lent besides grammar and cache, whether it fits together, and what makes one that does not.
#![forbid(unsafe_code)]

use crate::random::Random;

pub const MOST_NOTES: usize = 64;

/// The tokens, the lengths, and how many answers, entries of the row and words of working space are lent.
#[derive(Clone, Debug)]
pub struct Batch {
    pub tokens: Vec<u16>,
    pub lengths: Vec<u16>,
    pub answers: usize,
    pub row: usize,
    pub workspace: usize,
}

impl Batch {
    /// Notes of at most 65,535 tokens, each with so many entries of the row.
    pub fn of<N: AsRef<[u16]>>(notes: &[N], part: usize, workspace: usize) -> Batch {
        let lengths = notes
            .iter()
            .map(|note| u16::try_from(note.as_ref().len()).unwrap());
        Batch {
            tokens: notes.iter().map(AsRef::as_ref).collect::<Vec<_>>().concat(),
            lengths: lengths.collect(),
            answers: 3 * notes.len(),
            row: part * notes.len(),
            workspace,
        }
    }

    /// The notes, if all fits together.
    pub fn notes(&self) -> Option<Vec<&[u16]>> {
        let mut notes = Vec::new();
        let mut rest = &self.tokens[..];
        for &length in &self.lengths {
            notes.push(rest.get(..length.into())?);
            rest = &rest[length.into()..];
        }
        let count = notes.len();
        let fits = rest.is_empty()
            && (1..=MOST_NOTES).contains(&count)
            && (self.answers / 3, self.answers % 3) == (count, 0)
            && self.row / count * count == self.row;
        fits.then_some(notes)
    }

    /// The entries of each part, if all fits together.
    pub fn part(&self) -> usize {
        self.row / self.lengths.len()
    }
}

/// A name for reports, and what makes a batch, whose parts fit, one whose parts do not; false where it cannot.
pub type Fault = (&'static str, fn(&mut Random, &mut Batch) -> bool);

pub const FAULTS: [Fault; 14] = [
    ("no notes", |random, it| {
        it.lengths.clear();
        it.tokens.truncate(random.pick(&[0, 0, 1, 100]));
        it.answers = random.pick(&[0, 0, 3]);
        it.row = random.pick(&[0, 0, 1, it.row]);
        true
    }),
    ("65 notes", |random, it| more_notes(random, it, MOST_NOTES + 1)),
    ("more than 65 notes", |random, it| {
        let count = random.pick(&[66, 127, 128, 129, 256, 320, 1_000]);
        more_notes(random, it, count)
    }),
    ("lengths one too many", |random, it| {
        let at = random.below(it.lengths.len());
        it.lengths[at] += 1;
        true
    }),
    ("lengths one too few", |_, it| {
        let some = it.lengths.iter_mut().rev().find(|length| **length > 0);
        some.map(|length| *length -= 1).is_some()
    }),
    ("one token too few", |_, it| it.tokens.pop().is_some()),
    ("one token too many", |_, it| {
        it.tokens.push(1);
        true
    }),
    ("lengths with 65,536 too many", |random, it| {
        let (one, other) = (random.below(it.lengths.len()), random.below(it.lengths.len()));
        let can = one != other && it.lengths[one] < 0x8000 && it.lengths[other] < 0x8000;
        if can {
            it.lengths[one] += 0x8000;
            it.lengths[other] += 0x8000;
        }
        can
    }),
    ("no answers", |_, it| {
        it.answers = 0;
        true
    }),
    ("one answer too few", |_, it| {
        it.answers -= 1;
        true
    }),
    ("one answer too many", |_, it| {
        it.answers += 1;
        true
    }),
    ("answers of a note too many or too few", |random, it| {
        it.answers = random.pick(&[it.answers + 3, it.answers - 3, it.answers / 3, 3 * MOST_NOTES + 3]);
        true
    }),
    ("row that does not divide", |random, it| {
        let count = it.lengths.len();
        it.row += random.between(1, count.max(2) - 1);
        count > 1
    }),
    ("several of these", |random, it| {
        it.answers += random.between(1, 5);
        it.row += random.between(0, 3);
        it.tokens.push(1);
        true
    }),
];

/// Empty notes until there are so many; all else fits.
fn more_notes(random: &mut Random, batch: &mut Batch, count: usize) -> bool {
    let part = batch.part().min(40);
    while batch.lengths.len() < count {
        let at = random.between(0, batch.lengths.len());
        batch.lengths.insert(at, 0);
    }
    (batch.answers, batch.row) = (3 * count, part * count);
    true
}
