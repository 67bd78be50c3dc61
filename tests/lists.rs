//! Tests lists of quick readings over one cache against answers written down by hand, against the
//! second parser and the second learner, and against the plain reading.
#![deny(unsafe_code)]

#[allow(dead_code)]
#[path = "support/cache_words.rs"]
mod cache_words;
#[allow(dead_code)]
#[path = "support/edges.rs"]
mod edges;
#[path = "support/foreign.rs"]
mod foreign;
#[allow(dead_code)]
#[path = "support/generate.rs"]
mod generate;
#[path = "support/lengths.rs"]
mod lengths;
#[path = "support/lent.rs"]
mod lent;
#[path = "support/list_corners.rs"]
mod list_corners;
#[allow(dead_code)]
#[path = "support/near_limits.rs"]
mod near_limits;
#[path = "support/notes.rs"]
mod notes;
#[path = "support/other_caches.rs"]
mod other_caches;
#[path = "support/random.rs"]
mod random;
#[path = "support/second_checker.rs"]
mod second_checker;
#[allow(dead_code)]
#[path = "support/second_learner.rs"]
mod second_learner;
#[path = "support/second_parser.rs"]
mod second_parser;
#[path = "support/second_reader.rs"]
mod second_reader;
#[allow(dead_code)]
#[path = "support/styles.rs"]
mod styles;
#[path = "support/tally.rs"]
mod tally;
#[path = "support/tiny.rs"]
mod tiny;
#[path = "support/tree.rs"]
mod tree;
#[path = "support/worked.rs"]
mod worked;

use allstar::calls::{self, Answer};
use cache_words::{Any, Places};
use lengths::{row_length, workspace_length};
use lent::Lent;
use list_corners::{Drawn, CORNERS};
use notes::Source;
use random::Random;
use second_learner::{Learner, Memory};
use second_parser::{replay, space, Judgement, LONGEST_NOTE};
use second_reader::{Lessons, Stop};
use std::collections::BTreeMap;
use std::process::exit;
use styles::STYLES;
use tally::Tally;
use tree::{from_hex, to_hex, Grammar};

/// Accepted, and refusals up to 14.
const NUMBERS: usize = 15;

/// How often each answer and each corner must come up in the drawn readings.
const LEAST_OFTEN: usize = 100;

/// Readings of damaged grammars, of each family.
const DRAWN_PER_FAMILY: usize = 120;

/// The most tokens of the notes that are read by the tiny grammars; of these every so manyth is taken.
const TOKENS_BY_TINY: usize = 4;
const EVERY_TINY: usize = 10;

/// Lists of each style of grammars, and of other and of foreign caches: a share of the grammars that
/// `readings` draws, and no more than so many.
const SHARE: usize = 2;
const MOST_LISTS: usize = 240;
const MOST_FOREIGN: usize = 80;

/// The longest row and the longest working space that are lent.
const LONGEST_ROW: usize = 6_000;
const LONGEST_SPACE: usize = 280_000;

/// For the second parser, which recurses once for each place and position that is open at most.
const STACK: usize = 1 << 26;

/// A name for reports, what draws a grammar near a limit, and how many are drawn.
type Near = (&'static str, fn(&mut Random) -> Grammar, usize);

const NEAR_LIMITS: [Near; 6] = [
    ("about 256 members", near_limits::draw_members, 30),
    ("about 8 entries", near_limits::draw_deep, 60),
    ("about 8 entries by steps", near_limits::draw_recursive, 60),
    ("about 64 kept", near_limits::draw_kept, 60),
    ("like G1", near_limits::draw_like_g1, 100),
    ("loops", near_limits::draw_loops, 100),
];

fn main() {
    let tests = std::thread::Builder::new().stack_size(STACK).spawn(test);
    if tests.unwrap().join().is_err() {
        fail("the tests broke off");
    }
}

fn test() {
    let mut run = Run::new();
    notes_by_g1(&mut run);
    worked_readings(&mut run);
    tiny_grammars(&mut run);
    drawn_lists(&mut run);
    damaged_grammars(&mut run);
    caches_of_others(&mut run);
    foreign_caches(&mut run);
    run.finish();
}

/// What is lent besides grammar and cache; what stands in row and working space changes from reading
/// to reading.
struct Call {
    note: Vec<u16>,
    row: usize,
    workspace: usize,
}

/// What is lent throughout a list, and the readings so far, for reports.
struct Case {
    origin: String,
    grammar: Vec<u8>,
    calls: Vec<Call>,
    /// The cache's words before the last reading.
    words: Vec<u32>,
}

impl Case {
    fn new(origin: &str, grammar: &[u8], words: &[u32]) -> Case {
        Case {
            origin: origin.into(),
            grammar: grammar.to_vec(),
            calls: Vec::new(),
            words: words.to_vec(),
        }
    }

    fn last(&self) -> &Call {
        self.calls.last().expect("a reading")
    }

    /// Compares all words of the cache.
    fn compare(&self, found: &[u32], expected: &[u32]) {
        if !cache_words::same(found, expected) {
            self.fail("the words of the cache differ");
        }
    }

    fn fail(&self, message: &str) -> ! {
        println!("{}", self.origin);
        println!("grammar: {}", to_hex(&self.grammar));
        println!("cache of {} words, readings:", self.words.len());
        for call in &self.calls {
            let Call {
                note,
                row,
                workspace,
            } = call;
            println!("  note {note:?}, row of {row}, working space of {workspace}");
        }
        fail(message);
    }
}

fn fail(message: &str) -> ! {
    println!("{message}");
    println!("lists: FAILED");
    exit(1);
}

/// The readings so far.
struct Run {
    all: Tally<NUMBERS>,
    drawn: Tally<NUMBERS>,
    foreign: Tally<NUMBERS>,
    /// Foreign caches over which a sentence was refused with 10.
    misled: usize,
    lists: usize,
    corners: [usize; CORNERS.len()],
    other: BTreeMap<&'static str, usize>,
    grammar: Lent<u8>,
    note: Lent<u16>,
    row: Lent<u16>,
    cache: Lent<u32>,
    workspace: Lent<u32>,
    /// What the plain reading beside is lent.
    plain_row: Vec<u16>,
    plain_workspace: Vec<u32>,
    /// Drawn words, for what stands in and around what is lent.
    words: Vec<u32>,
    entries: Vec<u16>,
}

impl Run {
    fn new() -> Run {
        let mut random = Random::new(1);
        Run {
            all: Tally::new("accepted"),
            drawn: Tally::new("accepted"),
            foreign: Tally::new("accepted"),
            misled: 0,
            lists: 0,
            corners: [0; CORNERS.len()],
            other: BTreeMap::new(),
            grammar: Lent::new(),
            note: Lent::new(),
            row: Lent::new(),
            cache: Lent::new(),
            workspace: Lent::new(),
            plain_row: Vec::new(),
            plain_workspace: Vec::new(),
            words: (0..LONGEST_SPACE).map(|_| random.next() as u32).collect(),
            entries: (0..LONGEST_ROW).map(|_| random.next() as u16).collect(),
        }
    }

    /// Lays out what the case's last reading is lent.  What stands in row and working space, what
    /// stands around all and how it is aligned changes from reading to reading.
    fn lay(&mut self, case: &Case) {
        let nth = self.all.cases();
        let around: [u32; 16] = match nth % 3 {
            0 => [0; 16],
            1 => [u32::MAX; 16],
            _ => std::array::from_fn(|at| self.words[nth % 1_000 + at]),
        };
        let bytes = around.map(|word| word as u8);
        let tokens = around.map(|word| word as u16);
        let before = 1 + nth % 8;
        let call = case.last();
        self.plain_row.clear();
        self.plain_row.extend_from_slice(&self.entries[..call.row]);
        // Every fourth time it is what the plain reading before left, if that is enough.
        if nth % 4 != 3 || self.plain_workspace.len() < call.workspace {
            let words = &self.words[..call.workspace];
            self.plain_workspace.clear();
            self.plain_workspace.extend_from_slice(words);
        }
        self.plain_workspace.truncate(call.workspace);
        self.grammar.lay(&bytes[..before], &case.grammar, &bytes);
        self.note.lay(&tokens[..before], &call.note, &tokens);
        self.row.lay(&tokens[..before], &self.plain_row, &tokens);
        self.cache.lay(&around[..before], &case.words, &around);
        self.workspace
            .lay(&around[..before], &self.plain_workspace, &around);
    }

    /// The case's last reading.  Only what must be untouched is looked at.
    fn call(&mut self, case: &Case) -> Answer {
        self.lay(case);
        let answer = calls::quick(
            self.grammar.part(),
            self.note.part(),
            self.row.part(),
            self.cache.part(),
            self.workspace.part(),
        );
        if !self.grammar.is_unchanged() || !self.note.is_unchanged() {
            case.fail("the call changed grammar or note or what stands around them");
        }
        if !self.row.is_unchanged_around()
            || !self.cache.is_unchanged_around()
            || !self.workspace.is_unchanged_around()
        {
            case.fail("the call wrote around row, cache or working space");
        }
        if !matches!(answer.number, 0 | 10 | 14)
            && !(self.row.is_unchanged() && self.cache.is_unchanged())
        {
            case.fail(&format!("{answer}, and row or cache is touched"));
        }
        answer
    }

    /// The row after a reading that was accepted, or refused with 10 or 14: so many entries.
    fn expect_row(&mut self, case: &Case, entries: &[u16]) {
        let (written, left_over) = self.row.part().split_at(entries.len());
        if written != entries || left_over.iter().any(|&entry| entry != 0) {
            let row = shown(self.row.part());
            case.fail(&format!("row: {row}\nexpected: {}", shown(entries)));
        }
    }

    /// The case's last reading, its answer, its entries if it is accepted, and the words after it
    /// known.  The plain reading beside it is the same if the cache plays no part in the answer.
    fn read(&mut self, case: &Case, expected: Answer, entries: &[u16], words: &[u32]) {
        let answer = self.call(case);
        if answer != expected {
            case.fail(&format!("library: {answer}\nexpected: {expected}"));
        }
        if matches!(answer.number, 0 | 10 | 14) {
            self.expect_row(case, entries);
        }
        case.compare(self.cache.part(), words);
        if !matches!(answer.number, 12 | 13) {
            let beside = calls::plain(
                &case.grammar,
                &case.last().note,
                &mut self.plain_row,
                &mut self.plain_workspace,
            );
            if answer != beside {
                case.fail(&format!("quick: {answer}\nplain: {beside}"));
            }
            if self.row.part() != &self.plain_row[..] {
                case.fail("the rows of quick and plain reading differ");
            }
        }
        self.all.count(answer.number);
    }

    fn note_other(&mut self, name: &'static str) {
        *self.other.entry(name).or_default() += 1;
    }

    fn finish(&self) {
        println!(
            "drawn: {} lists, {} readings ({})",
            self.lists,
            self.drawn.cases(),
            self.drawn
        );
        for ((corner, _), times) in CORNERS.iter().zip(self.corners) {
            println!("drawn: {times} {corner}");
        }
        for (name, times) in &self.other {
            println!("other caches: {times} {name}");
        }
        println!(
            "foreign caches: {} readings ({}), {} of them sentences refused with 10",
            self.foreign.cases(),
            self.foreign,
            self.misled
        );
        let drawn = (0..NUMBERS).map(|number| self.drawn.times(number));
        let foreign = [0, 10, 14].map(|number| self.foreign.times(number));
        let other = self.other.values().copied();
        let mut all = drawn.chain(self.corners).chain(foreign).chain(other);
        if all.any(|n| n < LEAST_OFTEN) || self.other.len() < other_caches::KINDS {
            fail("some answer or corner came up too rarely in the drawn readings");
        }
        println!(
            "lists: {} readings agree ({}), and {} over foreign caches",
            self.all.cases(),
            self.all,
            self.foreign.cases()
        );
    }
}

/// The first entries of a row.
fn shown(row: &[u16]) -> String {
    const SHOWN: usize = 200;
    let dots = if row.len() > SHOWN { " ..." } else { "" };
    format!("{:?}{dots}", &row[..row.len().min(SHOWN)])
}

/// A grammar, and all that the second reading needs to know of it.
struct Known<'g> {
    learner: &'g Learner<'g>,
    places: &'g Places,
    bytes: Vec<u8>,
}

impl<'g> Known<'g> {
    fn new(learner: &'g Learner<'g>, places: &'g Places) -> Known<'g> {
        Known {
            learner,
            places,
            bytes: learner.grammar().encode(),
        }
    }
}

/// A list of readings over a cache that was begun for a sound grammar.
struct List<'a> {
    run: &'a mut Run,
    known: &'a Known<'a>,
    case: Case,
    memory: Memory<'a>,
    is_drawn: bool,
}

impl<'a> List<'a> {
    fn begin(run: &'a mut Run, origin: &str, known: &'a Known<'a>, length: usize) -> List<'a> {
        let mut words = run.words[..length].to_vec();
        let verdict = calls::begin(&known.bytes, &mut words);
        let case = Case::new(origin, &known.bytes, &words);
        if verdict.number != 0 {
            case.fail(&format!("beginning: {verdict}"));
        }
        case.compare(&words, &cache_words::begun(&known.bytes, length));
        List {
            run,
            known,
            case,
            memory: Memory::new(known.learner, cache_words::slots(length)),
            is_drawn: false,
        }
    }

    fn held(&self) -> usize {
        self.memory.states.len()
    }

    /// The next reading of the list.
    fn read(&mut self, call: Call, judgement: &Judgement) -> Answer {
        let expected = judgement.answer(call.row, call.workspace);
        let is_same_note =
            |earlier: &&Call| earlier.note == call.note && earlier.workspace >= judgement.space;
        let same: Vec<&Call> = self.case.calls.iter().filter(is_same_note).collect();
        let is_repeated = same.iter().any(|earlier| earlier.row == call.row);
        let is_read_otherwise = !same.is_empty() && !is_repeated;
        let earlier = self.case.calls.len();
        let held = self.held();
        self.case.calls.push(call);
        let call = self.case.last();

        let grammar = self.known.learner.grammar();
        let mut lessons = Lessons::default();
        let read = matches!(expected.number, 0 | 10 | 14).then(|| {
            second_reader::read(grammar, &call.note, call.row, |decision, rest| {
                second_reader::predict(&mut self.memory, &mut lessons, decision, rest)
            })
        });
        let mut entries: &[u16] = &[];
        if let Some(read) = &read {
            // The second reading has to agree with the second parser before the library does.
            let fits = match expected.number {
                0 => read.stop == Stop::Accepted,
                10 => read.stop != Stop::Accepted,
                _ => read.stop == Stop::RowFull,
            };
            if !fits {
                let stop = read.stop;
                self.case
                    .fail(&format!("second reading: {stop:?}\nexpected: {expected}"));
            }
            if expected.number == 0 {
                if read.entries != judgement.derivation.entries {
                    self.case.fail("second reading and second parser differ");
                }
                entries = &read.entries;
            }
        }
        let words = match lessons.worked {
            0 => self.case.words.clone(),
            _ => {
                let length = self.case.words.len();
                cache_words::of(&self.memory, self.known.places, &self.known.bytes, length)
            }
        };
        if is_repeated {
            self.case.compare(&words, &self.case.words);
        }
        self.run.read(&self.case, expected, entries, &words);
        self.case.words = words;
        if self.is_drawn {
            let call = self.case.last();
            let drawn = Drawn {
                note: &call.note,
                row: call.row,
                workspace: call.workspace,
                judgement,
                answer: expected,
                read: read.as_ref().map(|read| (read, &lessons)),
                slots: self.memory.slots,
                held,
                earlier,
                is_repeated,
                is_read_otherwise,
            };
            self.run.drawn.count(expected.number);
            for (times, (_, touches)) in self.run.corners.iter_mut().zip(CORNERS) {
                *times += usize::from(touches(&drawn));
            }
        }
        expected
    }

    /// The next reading, its answer written down; the second parser has to know it too.
    fn expect(&mut self, reading: &worked::Reading) {
        let judgement = Judgement::of(&self.known.bytes, &reading.note, reading.row);
        let call = Call {
            note: reading.note.clone(),
            row: reading.row,
            workspace: reading.workspace.unwrap_or(judgement.space),
        };
        let answer = self.read(call, &judgement);
        if answer != reading.answer {
            let expected = reading.answer;
            self.case
                .fail(&format!("both: {answer}\nexpected: {expected}"));
        }
    }
}

/// The cases of the scope for G1 over caches of several lengths, the lines that `notes` reads among
/// them, and the states held.
fn notes_by_g1(run: &mut Run) {
    let bytes = from_hex(edges::G1);
    let grammar = second_checker::read(&bytes).expect("a sound grammar");
    let (learner, places) = (Learner::new(&grammar), Places::new(&grammar));
    let known = Known::new(&learner, &places);
    let readings = worked::paper();
    let by_g1 = || readings.iter().filter(|reading| reading.grammar == bytes);
    let of_note = |note: &[u16]| {
        let mut found = by_g1().filter(|reading| reading.note == note && reading.row == 16);
        found.next().expect("a case of the paper")
    };
    let lines: [&[u16]; 5] = [&[1, 2], &[1, 2, 2], &[1, 2, 2, 2], &[], &[1, 3]];
    for slots in [1, 2, 3, 4, 5, 6, 7, 20] {
        let length = cache_words::length(slots);
        let origin = format!("G1, {slots} slots");
        let mut list = List::begin(run, &origin, &known, length);
        for line in lines {
            list.expect(of_note(line));
            let held = list.run.cache.part()[cache_words::HELD] as usize;
            if held != slots.min(6) {
                list.case
                    .fail(&format!("{held} states, expected six or all slots"));
            }
        }
        // All cases, from the first to the last and back.
        let mut list = List::begin(run, &origin, &known, length);
        for reading in by_g1() {
            list.expect(reading);
        }
        let mut back: Vec<_> = by_g1().collect();
        back.reverse();
        for reading in back {
            list.expect(reading);
        }
    }
}

/// All readings whose answer is written down, twice over one cache; of grammars that are refused too.
fn worked_readings(run: &mut Run) {
    let worked = worked::paper().into_iter().chain(worked::edges());
    for reading in worked.chain(worked::benchmarks()) {
        if second_checker::check(&reading.grammar).number == 0 {
            let grammar = second_checker::read(&reading.grammar).expect("a sound grammar");
            let (learner, places) = (Learner::new(&grammar), Places::new(&grammar));
            let known = Known::new(&learner, &places);
            for slots in [1, 6, 40] {
                let length = cache_words::length(slots);
                let mut list = List::begin(run, &reading.why, &known, length);
                list.expect(&reading);
                list.expect(&reading);
            }
            continue;
        }
        for length in [0, 1, 2_367, 2_368, 5_000] {
            let mut case = Case::new(&reading.why, &reading.grammar, &run.words[..length]);
            case.calls.push(Call {
                note: reading.note.clone(),
                row: reading.row,
                workspace: reading.workspace.unwrap_or(0),
            });
            let words = case.words.clone();
            run.read(&case, reading.answer, &reading.entries, &words);
        }
    }
}

/// Every short note by tiny grammars, over one cache.
fn tiny_grammars(run: &mut Run) {
    let mut nth = 0;
    tiny::each_grammar(|grammar| {
        nth += 1;
        let bytes = grammar.encode();
        if nth % EVERY_TINY != 0 || second_checker::check(&bytes).number != 0 {
            return;
        }
        let (learner, places) = (Learner::new(grammar), Places::new(grammar));
        let known = Known::new(&learner, &places);
        let length = cache_words::length([1, 2, 3, 6][nth / EVERY_TINY % 4]);
        let mut list = List::begin(run, "tiny grammars", &known, length);
        for tokens in 0..=TOKENS_BY_TINY {
            const LONGEST: usize = 40;
            let note = vec![1; tokens];
            let judgement = Judgement::of(&bytes, &note, LONGEST);
            let count = judgement.derivation.entries.len().min(LONGEST);
            for row in [1, count.saturating_sub(1), count, LONGEST, count] {
                let call = Call {
                    note: note.clone(),
                    row,
                    workspace: judgement.space.min(LONGEST_SPACE),
                };
                list.read(call, &judgement);
            }
        }
    });
}

/// Lists of readings by grammars of all styles and near the limits.
fn drawn_lists(run: &mut Run) {
    for style in &STYLES {
        let mut random = Random::new(2);
        for nth in 0..(style.grammars / SHARE).min(MOST_LISTS) {
            let grammar = style.grammar(&mut random);
            drawn_list(run, style.name, &grammar, style.tokens, nth, &mut random);
        }
    }
    for (name, draw, count) in NEAR_LIMITS {
        let mut random = Random::new(3);
        for nth in 0..count {
            let grammar = draw(&mut random);
            drawn_list(run, name, &grammar, 12, nth, &mut random);
        }
    }
}

fn drawn_list(
    run: &mut Run,
    origin: &str,
    grammar: &Grammar,
    tokens: usize,
    nth: usize,
    random: &mut Random,
) {
    let (learner, places) = (Learner::new(grammar), Places::new(grammar));
    let known = Known::new(&learner, &places);
    let source = Source::new(grammar);
    let many = random.between(7, 60);
    let slots = [1, 2, 3, 6, many, many][nth % 6];
    // Words that make no whole slot.
    let length = cache_words::length(slots) + random.pick(&[0, 0, 1, 319]);
    let longest_row = random.pick(&[20, 200, 2_000, 2_000]);
    let mut judged: Vec<(Vec<u16>, Judgement)> = Vec::new();
    let mut list = List::begin(run, origin, &known, length);
    list.is_drawn = true;
    for _ in 0..random.between(5, 30) {
        let at = if judged.is_empty() || random.chance(65) {
            let note = source.note(random, tokens);
            let judgement = Judgement::of(&known.bytes, &note, longest_row);
            judged.push((note, judgement));
            judged.len() - 1
        } else {
            random.below(judged.len())
        };
        let (note, judgement) = &judged[at];
        let enough = space(grammar.places(), note.len().min(LONGEST_NOTE));
        let earlier = list.case.calls.iter().find(|call| call.note == *note);
        let row = match earlier {
            Some(call) if random.chance(50) => call.row,
            _ => row_length(random, judgement, longest_row),
        };
        let call = Call {
            note: note.clone(),
            row,
            workspace: workspace_length(random, enough),
        };
        list.read(call, judgement);
    }
    run.lists += 1;
}

/// Short notes by all that may pass for a grammar, over caches of any words.
fn damaged_grammars(run: &mut Run) {
    for (name, draw) in generate::FAMILIES {
        let mut random = Random::new(4);
        for _ in 0..DRAWN_PER_FAMILY {
            let bytes = draw(&mut random);
            let length = match random.below(8) {
                0 => random.between(LONGEST_NOTE, LONGEST_NOTE + 40),
                _ => random.below(6),
            };
            let mut token = || random.pick(&[1, 1, 1, 1, 2, 2, 3]);
            let note: Vec<u16> = (0..length).map(|_| token()).collect();
            let places = second_checker::read(&bytes).map_or(0, |grammar| grammar.places());
            let enough = space(places, note.len().min(LONGEST_NOTE));
            let judgement = Judgement::of(&bytes, &note, 40);
            let length = match random.below(3) {
                0 => random.below(2_368),
                _ => random.between(2_368, 4_000),
            };
            let mut case = Case::new(name, &bytes, &run.words[..length]);
            case.calls.push(Call {
                row: row_length(&mut random, &judgement, 40),
                workspace: workspace_length(&mut random, enough),
                note,
            });
            run.read_unbegun(&case, &judgement);
        }
    }
}

impl Run {
    /// The case's last reading, over a cache that is too short or was not begun for it.
    fn read_unbegun(&mut self, case: &Case, judgement: &Judgement) -> Answer {
        let call = case.last();
        let plain = judgement.answer(call.row, call.workspace);
        let refused = |number| Answer {
            number,
            place: 0,
            count: 0,
        };
        let expected = match plain.number {
            0 | 10 | 14 if case.words.len() < cache_words::SHORTEST => refused(12),
            0 | 10 | 14 => refused(13),
            _ => plain,
        };
        self.read(case, expected, &[], &case.words);
        self.drawn.count(expected.number);
        expected
    }
}

/// Caches that are too short, and caches begun for another grammar or length.
fn caches_of_others(run: &mut Run) {
    for style in &STYLES {
        let mut random = Random::new(5);
        let mut other = style.grammar(&mut random).encode();
        for nth in 0..MOST_LISTS {
            let grammar = style.grammar(&mut random);
            let bytes = grammar.encode();
            let source = Source::new(&grammar);
            let note = source.note(&mut random, style.tokens.min(20));
            let judgement = Judgement::of(&bytes, &note, 40);
            let enough = space(grammar.places(), note.len().min(LONGEST_NOTE));
            let length = cache_words::length(random.between(1, 6)) + random.pick(&[0, 1, 319]);
            let drawn = other_caches::draw(&mut random, nth, &bytes, &other, length, &run.words);
            let Some((name, words)) = drawn else {
                continue;
            };
            let mut case = Case::new(&format!("{}, {name}", style.name), &bytes, &words);
            case.calls.push(Call {
                row: row_length(&mut random, &judgement, 40),
                workspace: workspace_length(&mut random, enough),
                note,
            });
            let answer = run.read_unbegun(&case, &judgement);
            if matches!(answer.number, 12 | 13) {
                run.note_other(name);
            }
            other = bytes;
        }
    }
}

/// Caches that nobody recorded, but with the right beginning: a reading must end and touch nothing
/// outside, an accepted row derives the note, and the words lead where any words lead.
fn foreign_caches(run: &mut Run) {
    for style in &STYLES {
        let mut random = Random::new(6);
        for _ in 0..(style.grammars / SHARE).min(MOST_FOREIGN) {
            let grammar = style.grammar(&mut random);
            let (learner, places) = (Learner::new(&grammar), Places::new(&grammar));
            let known = Known::new(&learner, &places);
            let source = Source::new(&grammar);
            let tokens = style.tokens.min(30);
            let slots = random.pick(&[1, 2, 3, 6, 9]);
            let length = cache_words::length(slots) + random.pick(&[0, 0, 1, 319]);
            let mut list = List::begin(run, style.name, &known, length);
            for _ in 0..3 {
                let note = source.note(&mut random, tokens);
                let judgement = Judgement::of(&known.bytes, &note, 100);
                let call = Call {
                    row: row_length(&mut random, &judgement, 100),
                    workspace: judgement.space.min(LONGEST_SPACE),
                    note,
                };
                list.read(call, &judgement);
            }
            let recorded = list.case.words;
            for (name, change) in foreign::KINDS {
                let mut words = recorded.clone();
                change(&mut random, &grammar, &mut words);
                other_caches::begin_again(&known.bytes, &mut words);
                let origin = format!("{}, {name}", style.name);
                let mut case = Case::new(&origin, &known.bytes, &words);
                for _ in 0..2 {
                    let note = source.note(&mut random, tokens);
                    let judgement = Judgement::of(&known.bytes, &note, 100);
                    case.calls.push(Call {
                        row: row_length(&mut random, &judgement, 100),
                        workspace: judgement.space.min(LONGEST_SPACE),
                        note,
                    });
                    run.read_foreign(&mut case, &known, &judgement);
                }
            }
        }
    }
}

impl Run {
    fn read_foreign(&mut self, case: &mut Case, known: &Known, judgement: &Judgement) {
        let call = case.last();
        let plain = judgement.answer(call.row, call.workspace);
        if !matches!(plain.number, 0 | 10 | 14) {
            self.read(case, plain, &[], &case.words);
            return;
        }
        let grammar = known.learner.grammar();
        let mut words = case.words.clone();
        let mut any = Any {
            learner: known.learner,
            places: known.places,
            words: &mut words,
        };
        let read = second_reader::read(grammar, &call.note, call.row, |decision, rest| {
            second_reader::predict_by(&mut any, decision, rest)
        });
        let answer = self.call(case);
        // Where a sentence is refused with 10 the place means nothing.
        let is_misled = plain.number != 10 && answer.number == 10;
        let expected = match (read.stop, plain.number) {
            (Stop::Accepted, _) => Answer {
                number: 0,
                place: 0,
                count: read.entries.len() as u64,
            },
            (_, 10) => plain,
            (Stop::RowFull, _) => Answer {
                number: 14,
                place: 0,
                count: 0,
            },
            _ => Answer {
                number: 10,
                place: answer.place,
                count: 0,
            },
        };
        if answer != expected {
            case.fail(&format!("library: {answer}\nexpected: {expected}"));
        }
        let mut entries: &[u16] = &[];
        if answer.number == 0 {
            entries = &read.entries;
            if replay(grammar, entries).as_ref() != Some(&case.last().note) {
                case.fail("the entries don't derive the note");
            }
        }
        self.expect_row(case, entries);
        case.compare(self.cache.part(), &words);
        self.foreign.count(answer.number);
        self.misled += usize::from(is_misled);
        case.words = words;
    }
}
