//! Lists of quick readings over one cache, each with several caps: over the same words before they
//! must leave the same words behind.
#![forbid(unsafe_code)]

use crate::budget_corners::{Drawn, Way};
use crate::budget_desk::{Case, Cells, Expected, LONGEST_SPACE, UNCAPPED};
use crate::budget_styles::{slack, Style};
use crate::budget_trials::{Run, Trials};
use crate::cache_words::{self, Any, Places};
use crate::foreign;
use crate::lengths::row_length;
use crate::notes::Source;
use crate::other_caches;
use crate::random::Random;
use crate::second_learner::{Learner, Memory};
use crate::second_parser::{replay, Judgement};
use crate::second_reader::{self, Lessons, Read, Stop};
use crate::tree::Grammar;
use allstar::calls::{self, Answer};

/// At most so many entries of a derivation are asked for.
const LONGEST: usize = 400;

/// A note, and its cells if it passes the gate.
struct Judged {
    note: Vec<u16>,
    judgement: Judgement,
    cells: Option<Cells>,
}

/// What a quick reading must come to, and what is known of the way.
struct Reading<'a> {
    row: usize,
    answer: Answer,
    entries: &'a [u16],
    /// The words before and after.
    before: &'a [u32],
    after: &'a [u32],
    read: &'a Read,
    learned: usize,
    is_foreign: bool,
}

/// A list that is being read.
struct List<'a> {
    style: &'static str,
    grammar: &'a Grammar,
    bytes: Vec<u8>,
    slots: usize,
    /// The readings so far, for reports.
    earlier: Vec<String>,
}

/// A list by a drawn grammar over a cache that learns; then its words are changed as if somebody else
/// had written them.
pub fn draw(run: &mut Run, style: &Style, grammar: &Grammar, nth: usize, random: &mut Random) {
    let (learner, places) = (Learner::new(grammar), Places::new(grammar));
    let source = Source::new(grammar);
    let many = random.between(7, 40);
    let slots = [1, many, 2, many, 3, many, 6, many][nth % 8];
    let mut list = List {
        style: style.name,
        grammar,
        bytes: grammar.encode(),
        slots,
        earlier: Vec::new(),
    };
    let length = cache_words::length(slots) + random.pick(&[0, 0, 1, 319]);
    let mut words = vec![7; length];
    let verdict = calls::begin(&list.bytes, &mut words);
    assert_eq!(verdict.number, 0, "beginning: {verdict}");
    // The same list with a cap of 0 throughout.
    let mut by_cells = words.clone();
    let mut memory = Memory::new(&learner, slots);
    let mut judged: Vec<Judged> = Vec::new();
    for _ in 0..random.between(3, 7) {
        if judged.is_empty() || random.chance(60) {
            judged.push(list.judge(run, style.note(&source, random, style.tokens)));
        } else {
            let at = random.below(judged.len());
            judged[at..].rotate_left(1);
        }
        let it = judged.last().expect("a note");
        let row = row_length(random, &it.judgement, LONGEST);
        let answer = it.judgement.answer(row, it.judgement.space);
        if it.cells.is_none() {
            list.refuse(run, it, row, answer, &words);
            continue;
        }
        let mut lessons = Lessons::default();
        let read = second_reader::read(grammar, &it.note, row, |decision, rest| {
            second_reader::predict(&mut memory, &mut lessons, decision, rest)
        });
        let fits = match answer.number {
            0 => read.stop == Stop::Accepted && read.entries == it.judgement.derivation.entries,
            10 => read.stop != Stop::Accepted,
            _ => read.stop == Stop::RowFull,
        };
        assert!(fits, "second reading and second parser differ");
        let after = match lessons.worked {
            0 => words.clone(),
            _ => cache_words::of(&memory, &places, &list.bytes, length),
        };
        let reading = Reading {
            row,
            answer,
            entries: match answer.number {
                0 => &read.entries,
                _ => &[],
            },
            before: &words,
            after: &after,
            read: &read,
            learned: lessons.worked,
            is_foreign: false,
        };
        list.read(run, it, &reading, random);
        let cap = match random.below(4) {
            0 => UNCAPPED,
            1 => random.between(0, 400) as u32,
            _ => random.between(0, 40) as u32,
        };
        by_cells = list.go_on(run, it, &reading, &by_cells, 0);
        words = list.go_on(run, it, &reading, &words, cap);
        let line = format!("note {:?}, row of {row}, cap {cap}: {answer}", it.note);
        list.earlier.push(line);
    }
    let (name, change) = foreign::KINDS[nth % foreign::KINDS.len()];
    change(random, grammar, &mut words);
    other_caches::begin_again(&list.bytes, &mut words);
    list.earlier.push(name.into());
    for _ in 0..4 {
        let it = list.judge(run, style.note(&source, random, style.tokens.min(16)));
        if it.cells.is_none() {
            continue;
        }
        let row = row_length(random, &it.judgement, LONGEST);
        let mut after = words.clone();
        let mut any = Any {
            learner: &learner,
            places: &places,
            words: &mut after,
        };
        let read = second_reader::read(grammar, &it.note, row, |decision, rest| {
            second_reader::predict_by(&mut any, decision, rest)
        });
        list.read_foreign(run, &it, row, &read, &words, &after, random);
        words = after;
    }
}

impl List<'_> {
    fn judge(&self, run: &mut Run, note: Vec<u16>) -> Judged {
        let judgement = Judgement::of(&self.bytes, &note, LONGEST);
        let mut judged = Judged {
            note,
            judgement,
            cells: None,
        };
        // What a plain reading with no row answers, and the cells that it leaves.
        let answer = judged.judgement.answer(0, judged.judgement.space);
        if matches!(answer.number, 0 | 10 | 14) {
            let expected = Expected {
                answer,
                entries: &[],
                cache: &[],
            };
            let case = self.case(&judged, 0, None);
            judged.cells = Some(run.desk.cells(&case, self.grammar.places(), &expected));
        }
        judged
    }

    fn case<'b>(&'b self, it: &'b Judged, row: usize, cache: Option<&'b [u32]>) -> Case<'b> {
        Case {
            origin: self.style,
            grammar: &self.bytes,
            note: &it.note,
            row,
            workspace: it.judgement.space.min(LONGEST_SPACE),
            cache,
            earlier: &self.earlier,
        }
    }

    /// A note that the gate refuses: nothing is touched.
    fn refuse(&self, run: &mut Run, it: &Judged, row: usize, answer: Answer, words: &[u32]) {
        let expected = Expected {
            answer,
            entries: &[],
            cache: words,
        };
        let case = self.case(it, row, Some(words));
        run.read(&case, &[0, 7, UNCAPPED], &expected);
    }

    /// A reading with many caps, over copies of the cache.
    fn read(&self, run: &mut Run, it: &Judged, reading: &Reading, random: &mut Random) {
        let case = self.case(it, reading.row, Some(reading.before));
        let expected = Expected {
            answer: reading.answer,
            entries: reading.entries,
            cache: reading.after,
        };
        let cells = it.cells.as_ref().expect("a note that passes the gate");
        let mut trials = Trials::new(run, &case, &expected, cells);
        let need = trials.need();
        trials.sweep(random, need, it.note.len() <= 3);
        let slack = slack(self.grammar);
        for seen in trials.seen {
            let way = Way::of_quick(slack, seen.cap, seen.has_cells, seen.has_set, reading.read);
            let drawn = Drawn {
                slack,
                places: self.grammar.places(),
                tokens: it.note.len(),
                row: reading.row,
                cap: seen.cap,
                need,
                answer: reading.answer,
                way: way.unwrap_or_else(|why| case.fail(Some(seen.cap), why)),
                read: Some(reading.read),
                learned: reading.learned,
                slots: self.slots,
                is_foreign: reading.is_foreign,
                is_sentence: it.judgement.answer(0, it.judgement.space).number != 10,
            };
            run.count(self.style, &drawn);
        }
    }

    /// The next reading of a list, and the plain one beside it: the words that it leaves.
    fn go_on(
        &self,
        run: &mut Run,
        it: &Judged,
        reading: &Reading,
        words: &[u32],
        cap: u32,
    ) -> Vec<u32> {
        let expected = Expected {
            answer: reading.answer,
            entries: reading.entries,
            cache: &[],
        };
        run.read(&self.case(it, reading.row, None), &[cap], &expected);
        let expected = Expected {
            cache: reading.after,
            ..expected
        };
        run.read(&self.case(it, reading.row, Some(words)), &[cap], &expected);
        run.desk.cache().to_vec()
    }

    /// A reading over words that nobody recorded: they may mislead it, but not by whether the search or
    /// the cells are asked.
    fn read_foreign(
        &self,
        run: &mut Run,
        it: &Judged,
        row: usize,
        read: &Read,
        before: &[u32],
        after: &[u32],
        random: &mut Random,
    ) {
        let plain = it.judgement.answer(row, it.judgement.space);
        let answer = |number, place, count: usize| Answer {
            number,
            place,
            count: count as u64,
        };
        let case = self.case(it, row, Some(before));
        let answer = match (read.stop, plain.number) {
            (Stop::Accepted, _) => answer(0, 0, read.entries.len()),
            (_, 10) => plain,
            (Stop::RowFull, _) => answer(14, 0, 0),
            // A sentence is refused: the cells say where.
            _ => answer(10, run.desk.answer_by_cells(&case).place, 0),
        };
        let entries: &[u16] = match answer.number {
            0 => &read.entries,
            _ => &[],
        };
        if answer.number == 0 && replay(self.grammar, entries).as_ref() != Some(&it.note) {
            case.fail(None, "the entries don't derive the note");
        }
        let reading = Reading {
            row,
            answer,
            entries,
            before,
            after,
            read,
            learned: 0,
            is_foreign: true,
        };
        self.read(run, it, &reading, random);
    }
}
