//! Batches as the tests lend them: what stands around and in what is lent, what a call must leave, the same notes read
//! singly beside, and how often each answer came up.
#![forbid(unsafe_code)]

use crate::batch_corners::CORNERS;
use crate::cache_words;
use crate::lent::Lent;
use crate::parts::Batch;
use crate::random::Random;
use crate::second_parser::Judgement;
use crate::tally::Tally;
use crate::tree::to_hex;
use crate::worked_batches::Left;
use allstar::calls::{self, Answer, Verdict};
use std::collections::BTreeMap;
use std::process::exit;

/// Numbers of calls and of notes: accepted, and refusals up to 18 and up to 14.
pub const NUMBERS: usize = 19;
pub const NUMBERS_OF_NOTES: usize = 15;

/// Those that come up, of calls and of notes.
pub const OF_CALLS: [usize; 9] = [0, 1, 2, 3, 4, 5, 6, 7, 18];
pub const OF_NOTES: [usize; 8] = [0, 8, 9, 10, 11, 12, 13, 14];

/// How often each of them and each corner must come up in the drawn batches.
pub const LEAST_OFTEN: usize = 100;

/// The most words of a working space that are drawn.
pub const LONGEST_SPACE: usize = 280_000;

/// A call over a cache.
pub enum Turn {
    Batch(Batch),
    Single(Vec<u16>, usize),
}

/// What is lent throughout, and the calls so far, for reports.
pub struct Case {
    pub origin: String,
    pub grammar: Vec<u8>,
    pub turns: Vec<Turn>,
    /// The cache's words before the last call.
    pub words: Vec<u32>,
}

impl Case {
    pub fn new(origin: &str, grammar: &[u8], words: &[u32]) -> Case {
        Case {
            origin: origin.into(),
            grammar: grammar.to_vec(),
            turns: Vec::new(),
            words: words.to_vec(),
        }
    }

    /// A batch alone.
    pub fn of(origin: &str, grammar: &[u8], words: &[u32], batch: Batch) -> Case {
        let mut case = Case::new(origin, grammar, words);
        case.turns.push(Turn::Batch(batch));
        case
    }

    /// The last call.
    pub fn batch(&self) -> &Batch {
        match self.turns.last() {
            Some(Turn::Batch(batch)) => batch,
            _ => panic!("no batch"),
        }
    }

    pub fn fail(&self, message: &str) -> ! {
        println!("{}", self.origin);
        println!("grammar: {}", to_hex(&self.grammar));
        println!("cache of {} words, calls:", self.words.len());
        for turn in &self.turns {
            match turn {
                Turn::Single(note, row) => println!("  note {note:?}, row of {row}"),
                Turn::Batch(batch) => {
                    println!("  batch, tokens {}", shown(&batch.tokens));
                    println!("    lengths {}", shown(&batch.lengths));
                    let Batch {
                        answers,
                        row,
                        workspace,
                        ..
                    } = batch;
                    println!("    {answers} answers, row of {row}, working space of {workspace}");
                }
            }
        }
        fail(message);
    }
}

pub fn fail(message: &str) -> ! {
    println!("{message}");
    println!("batches: FAILED");
    exit(1);
}

/// The beginning of a row.
pub fn shown(row: &[u16]) -> String {
    const SHOWN: usize = 200;
    let dots = if row.len() > SHOWN { " ..." } else { "" };
    format!("{:?}{dots}", &row[..row.len().min(SHOWN)])
}

/// What a note of a batch must come to.
pub struct Told {
    pub answer: Answer,
    pub left: Left,
}

/// The batches so far.
pub struct Run {
    pub calls: Tally<NUMBERS>,
    pub notes: Tally<NUMBERS_OF_NOTES>,
    pub drawn_calls: Tally<NUMBERS>,
    pub drawn_notes: Tally<NUMBERS_OF_NOTES>,
    pub sessions: usize,
    pub corners: [usize; CORNERS.len()],
    /// Other caches, faults, refused grammars with faults, foreign caches.
    pub other: BTreeMap<String, usize>,
    pub grammar: Lent<u8>,
    pub tokens: Lent<u16>,
    pub lengths: Lent<u16>,
    pub answers: Lent<u64>,
    pub row: Lent<u16>,
    pub cache: Lent<u32>,
    pub workspace: Lent<u32>,
    pub place: Lent<u64>,
    /// What the readings beside, made singly, are lent; and what stands in the row before.
    pub single_row: Vec<u16>,
    pub single_cache: Vec<u32>,
    pub single_workspace: Vec<u32>,
    pub row_before: Vec<u16>,
    /// Drawn words, for what stands in and around what is lent.
    pub words: Vec<u32>,
}

impl Run {
    pub fn new() -> Run {
        let mut random = Random::new(1);
        Run {
            calls: Tally::new("read"),
            notes: Tally::new("accepted"),
            drawn_calls: Tally::new("read"),
            drawn_notes: Tally::new("accepted"),
            sessions: 0,
            corners: [0; CORNERS.len()],
            other: BTreeMap::new(),
            grammar: Lent::new(),
            tokens: Lent::new(),
            lengths: Lent::new(),
            answers: Lent::new(),
            row: Lent::new(),
            cache: Lent::new(),
            workspace: Lent::new(),
            place: Lent::new(),
            single_row: Vec::new(),
            single_cache: Vec::new(),
            single_workspace: Vec::new(),
            row_before: Vec::new(),
            words: (0..LONGEST_SPACE).map(|_| random.next() as u32).collect(),
        }
    }

    /// Lays out what the case's last batch is lent. What stands before in answers, row, working space and place,
    /// what stands around all and how it is aligned changes from batch to batch.
    pub fn lay(&mut self, case: &Case) {
        let nth = self.calls.cases();
        let batch = case.batch();
        let word = |at: usize| match nth % 4 {
            0 => 0,
            1 => u32::MAX,
            _ => self.words[(nth + at) % self.words.len()],
        };
        let around: [u32; 16] = std::array::from_fn(|at| word(at + 7));
        let bytes = around.map(|word| word as u8);
        let short = around.map(|word| word as u16);
        let wide = around.map(|word| u64::from(word) << 32 | u64::from(word));
        let before = 1 + nth % 8;
        self.row_before.clear();
        self.row_before.extend((0..batch.row).map(|at| word(at) as u16));
        let answers: Vec<u64> = (0..batch.answers)
            .map(|at| u64::from(word(at)) << 32 | u64::from(word(at + 1)))
            .collect();
        self.grammar.lay(&bytes[..before], &case.grammar, &bytes);
        self.tokens.lay(&short[..before], &batch.tokens, &short);
        self.lengths.lay(&short[..before], &batch.lengths, &short);
        self.answers.lay(&wide[..before], &answers, &wide);
        self.row.lay(&short[..before], &self.row_before, &short);
        self.cache.lay(&around[..before], &case.words, &around);
        // Drawn words, what single readings left if that is enough, zeros.
        if nth % 3 != 1 || self.single_workspace.len() < batch.workspace {
            self.single_workspace.clear();
            self.single_workspace
                .extend_from_slice(&self.words[..batch.workspace]);
        }
        self.single_workspace.truncate(batch.workspace);
        if nth % 3 == 2 {
            self.single_workspace.fill(0);
        }
        let space = &self.single_workspace;
        self.workspace.lay(&around[..before], space, &around);
        self.place.lay(&wide[..before], &wide[15..], &wide);
    }

    /// The case's last batch. Only what must be untouched is looked at.
    pub fn call(&mut self, case: &Case) -> Verdict {
        self.lay(case);
        let number = calls::batch_at(
            self.grammar.part(),
            self.tokens.part(),
            self.lengths.part(),
            self.answers.part(),
            self.row.part(),
            self.cache.part(),
            self.workspace.part(),
            &mut self.place.part()[0],
        );
        let verdict = Verdict {
            number,
            place: self.place.part()[0],
        };
        if !(self.grammar.is_unchanged() && self.tokens.is_unchanged() && self.lengths.is_unchanged()) {
            case.fail("the call changed grammar, tokens or lengths or what stands around them");
        }
        if !self.answers.is_unchanged_around()
            || !self.row.is_unchanged_around()
            || !self.cache.is_unchanged_around()
            || !self.workspace.is_unchanged_around()
            || !self.place.is_unchanged_around()
        {
            case.fail("the call wrote around answers, row, cache, working space or place");
        }
        let is_untouched = self.answers.is_unchanged()
            && self.row.is_unchanged()
            && self.cache.is_unchanged()
            && self.workspace.is_unchanged();
        if number != 0 && !is_untouched {
            case.fail(&format!(
                "{verdict}, and answers, row, cache or working space are touched"
            ));
        }
        verdict
    }

    /// The case's last batch, which is refused.
    pub fn refused(&mut self, case: &Case, expected: Verdict) {
        let verdict = self.call(case);
        if verdict != expected {
            case.fail(&format!(
                "library: {}\nexpected: {}",
                said(verdict),
                said(expected)
            ));
        }
        self.calls.count(verdict.number);
    }

    /// The case's last batch, which is read: it must come to what readings come to that are made singly, over a
    /// copy of the cache.
    pub fn read(&mut self, case: &Case) {
        let batch = case.batch();
        let verdict = self.call(case);
        let read = Verdict { number: 0, place: 0 };
        if verdict != read {
            case.fail(&format!("library: {}\nexpected: {}", said(verdict), said(read)));
        }
        let Some(notes) = batch.notes() else {
            case.fail("parts that do not fit were read");
        };
        self.single_cache.clone_from(&case.words);
        self.single_row.clone_from(&self.row_before);
        self.single_workspace.clear();
        self.single_workspace
            .extend_from_slice(&self.words[..batch.workspace]);
        let mut row = &mut self.single_row[..];
        for (nth, note) in notes.iter().enumerate() {
            let (part, rest) = row.split_at_mut(batch.part());
            row = rest;
            let singly = calls::quick(
                &case.grammar,
                note,
                part,
                &mut self.single_cache,
                &mut self.single_workspace,
            );
            let Answer { number, place, count } = singly;
            let found = &self.answers.part()[3 * nth..][..3];
            if found != [number.into(), place, count] {
                case.fail(&format!("note {nth}: {found:?}, singly: {singly}"));
            }
        }
        if self.row.part() != self.single_row {
            let (row, singly) = (shown(self.row.part()), shown(&self.single_row));
            case.fail(&format!("row: {row}\nsingly: {singly}"));
        }
        if !cache_words::same(self.cache.part(), &self.single_cache) {
            case.fail("the words of the cache are not those of readings made singly");
        }
        self.calls.count(0);
        for answer in self.answers.part().chunks(3) {
            self.notes.count(answer[0] as u32);
        }
    }

    /// The case's last batch, and what its notes and the words of the cache must come to.
    pub fn expect(&mut self, case: &Case, told: &[Told], words: &[u32]) {
        self.read(case);
        let part = case.batch().part();
        for (nth, Told { answer, left }) in told.iter().enumerate() {
            let Answer { number, place, count } = *answer;
            let found = &self.answers.part()[3 * nth..][..3];
            if found != [number.into(), place, count] {
                case.fail(&format!("note {nth}: {found:?}, expected: {answer}"));
            }
            let entries: &[u16] = match left {
                Left::AsItWas => {
                    let own = nth * part..(nth + 1) * part;
                    if self.row.part()[own.clone()] != self.row_before[own] {
                        case.fail(&format!(
                            "note {nth}: {answer}, and its part of the row is touched"
                        ));
                    }
                    continue;
                }
                Left::Zeros => &[],
                Left::Entries(entries) => entries,
            };
            let (written, left_over) = self.row.part()[nth * part..][..part].split_at(entries.len());
            if written != entries || left_over.iter().any(|&entry| entry != 0) {
                let found = shown(&self.row.part()[nth * part..][..part]);
                let expected = shown(entries);
                case.fail(&format!(
                    "note {nth}: part of the row {found}\nexpected: {expected}"
                ));
            }
        }
        if !cache_words::same(self.cache.part(), words) {
            case.fail("the words of the cache differ");
        }
    }

    /// A batch over a cache that is too short or was not begun for the grammar, which is sound: what each note
    /// must come to.
    pub fn expect_unbegun(&mut self, case: &Case, judgements: &[Judgement]) -> Vec<Told> {
        let batch = case.batch();
        let of_cache = match case.words.len() {
            ..cache_words::SHORTEST => 12,
            _ => 13,
        };
        let told = judgements.iter().map(|judgement| {
            let plain = judgement.answer(batch.part(), batch.workspace);
            let answer = match plain.number {
                0 | 10 | 14 => refusal(of_cache),
                _ => plain,
            };
            Told {
                answer,
                left: Left::AsItWas,
            }
        });
        let told: Vec<Told> = told.collect();
        self.expect(case, &told, &case.words);
        told
    }

    pub fn count_drawn<'t>(&mut self, number: u32, told: impl IntoIterator<Item = &'t Told>) {
        self.drawn_calls.count(number);
        for Told { answer, .. } in told {
            self.drawn_notes.count(answer.number);
        }
    }

    pub fn note_other(&mut self, name: String) {
        *self.other.entry(name).or_default() += 1;
    }

    /// The end, with so many names that [`note_other`](Run::note_other) has to have counted.
    pub fn finish(&self, others: usize) {
        println!(
            "drawn: {} caches, {} batches ({}), {} notes ({})",
            self.sessions,
            self.drawn_calls.cases(),
            self.drawn_calls,
            self.drawn_notes.cases(),
            self.drawn_notes
        );
        for ((corner, _), times) in CORNERS.iter().zip(self.corners) {
            println!("drawn: {times} {corner}");
        }
        for (name, times) in &self.other {
            println!("drawn: {times} {name}");
        }
        let calls = OF_CALLS.map(|number| self.drawn_calls.times(number));
        let notes = OF_NOTES.map(|number| self.drawn_notes.times(number));
        let mut all = calls.into_iter().chain(notes).chain(self.corners);
        let is_rare = |times: usize| times < LEAST_OFTEN;
        if all.any(is_rare) || self.other.values().copied().any(is_rare) || self.other.len() < others {
            fail("some answer or corner came up too rarely in the drawn batches");
        }
        println!(
            "batches: {} batches ({}) and {} notes in them ({}) agree",
            self.calls.cases(),
            self.calls,
            self.notes.cases(),
            self.notes
        );
    }
}

/// What a call answers.
pub fn said(verdict: Verdict) -> String {
    match (verdict.number, verdict.place) {
        (0, 0) => "read".into(),
        (number, place) => format!("{number} at {place}"),
    }
}

pub fn refusal(number: u32) -> Answer {
    Answer {
        number,
        place: 0,
        count: 0,
    }
}
