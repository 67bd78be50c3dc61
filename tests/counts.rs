//! Tests how many bytes of a grammar are fetched: the count against that of the second pass, and by the
//! check alone that fewer bytes would not have decided, and that no more have.
#![deny(unsafe_code)]

#[allow(dead_code)]
#[path = "support/edges.rs"]
mod edges;
#[allow(dead_code, unsafe_code)]
#[path = "support/fence.rs"]
mod fence;
#[allow(dead_code)]
#[path = "../rust/allstar/src/ffi.rs"]
mod ffi;
#[allow(dead_code)]
#[path = "support/generate.rs"]
mod generate;
#[allow(dead_code)]
#[path = "support/lent.rs"]
mod lent;
#[path = "support/random.rs"]
mod random;
#[allow(unsafe_code)]
#[path = "support/reader_c.rs"]
mod reader_c;
#[path = "support/report.rs"]
mod report;
#[allow(dead_code)]
#[path = "support/second_checker.rs"]
mod second_checker;
#[path = "support/second_pass.rs"]
mod second_pass;
#[path = "support/tally.rs"]
mod tally;
#[allow(dead_code)]
#[path = "support/tiny.rs"]
mod tiny;
#[path = "support/tree.rs"]
mod tree;

use allstar::calls::{self, Verdict};
use fence::Fence;
use lent::Lent;
use random::Random;
use std::env;
use std::os::unix::process::ExitStatusExt;
use std::process::{exit, Command};
use tally::Tally;
use tree::{from_hex, to_hex};

/// Sound, and refusals 1 to 7.
const NUMBERS: usize = 8;

/// Drawn cases of each family, and how often each answer and each end must come up in all cases.
const DRAWN_PER_FAMILY: usize = 4_000;
const LEAST_OFTEN: usize = 100;

/// A refusal, and how many bytes from its place on are fetched for it: all that can be.
const ENDS: [(u32, usize); 12] = [
    (1, 0),
    (1, 1),
    (1, 2),
    (2, 2),
    (2, 3),
    (3, 1),
    (3, 2),
    (3, 3),
    (4, 1),
    (4, 2),
    (4, 3),
    (5, 0),
];

/// What the program is called with to fetch a byte that it has no access to.
const ONE_SHORT: &str = "--one-short";

/// The signal for that.
const SIGSEGV: i32 = 11;

fn main() {
    if let [_, asked, case] = &env::args().collect::<Vec<_>>()[..] {
        assert_eq!(asked, ONE_SHORT);
        return one_short(&from_hex(case));
    }
    let mut run = Run::new();
    let written: Vec<edges::Case> = edges::paper().into_iter().chain(edges::edges()).collect();
    for case in &written {
        run.hold(case.why, &case.bytes);
    }
    the_fence_stops(&written);
    short_strings(&mut run);
    numbers_at_their_edges(&mut run);
    systematic_faults(&mut run);
    for (name, draw) in generate::FAMILIES {
        let mut random = Random::new(3);
        for _ in 0..DRAWN_PER_FAMILY {
            run.hold(name, &draw(&mut random));
        }
    }
    run.finish();
}

/// The cases so far.
struct Run {
    all: Tally<NUMBERS>,
    ends: [[usize; 4]; NUMBERS],
    /// Shorter inputs, and inputs with other bytes behind those that count.
    shorter: usize,
    other: usize,
    input: Lent<u8>,
    fence: Fence,
    random: Random,
}

impl Run {
    fn new() -> Run {
        Run {
            all: Tally::new("sound"),
            ends: [[0; 4]; NUMBERS],
            shorter: 0,
            other: 0,
            input: Lent::new(),
            fence: Fence::new(),
            random: Random::new(4),
        }
    }

    /// All that must hold of a case.
    fn hold(&mut self, origin: &str, input: &[u8]) {
        let (verdict, count) = self.agree(origin, input);
        self.fewer_do_not_decide(origin, &input[..count]);
        self.no_more_decide(origin, &input[..count], verdict);
        self.none_behind_is_fetched(origin, input, count, verdict);
    }

    /// Library and second pass agree on refusals 1 to 5 and on the count, which is answered.
    fn agree(&mut self, origin: &str, input: &[u8]) -> (Verdict, usize) {
        // What stands around the input and how it is aligned changes from case to case.
        let around = [self.random.byte(); 8];
        self.input
            .lay(&around[..self.all.cases() % 8], input, &around);
        let library = calls::check(self.input.part());
        let count = reader_c::count(self.input.part());
        let second = second_pass::pass(input);
        let agrees = match second.refusal {
            Some((number, place)) => (library.number, library.place) == (number, place as u64),
            None => [0, 6, 7].contains(&library.number),
        };
        if !agrees || count != second.taken {
            report::case(origin, input);
            fail(&format!(
                "library: {library}, {count} fetched\nsecond pass: {second:?}"
            ));
        }
        if !self.input.is_unchanged() {
            report::case(origin, input);
            fail("a call changed the lent bytes or those around them");
        }
        self.all.count(library.number);
        if let Some((number, place)) = second.refusal {
            self.ends[number as usize][count - place] += 1;
        }
        (library, count)
    }

    /// Every shorter part of the bytes that were fetched is unfinished: each of them was needed.
    fn fewer_do_not_decide(&mut self, origin: &str, fetched: &[u8]) {
        for length in 0..fetched.len() {
            let cut = calls::check(&fetched[..length]);
            if cut.number != 1 {
                report::case(origin, fetched);
                fail(&format!(
                    "{length} bytes are answered by {cut}, and {} were fetched",
                    fetched.len()
                ));
            }
        }
        self.shorter += fetched.len();
    }

    /// Whatever stands behind the bytes that were fetched, the answer and the count stay.
    fn no_more_decide(&mut self, origin: &str, fetched: &[u8], verdict: Verdict) {
        // Bytes behind a whole grammar are refused, and of unfinished ones all were fetched.
        let expected = match verdict.number {
            1 => return,
            2..=5 => verdict,
            _ => Verdict {
                number: 5,
                place: fetched.len() as u64,
            },
        };
        let length = self.random.between(1, 20);
        let drawn = (0..length).map(|_| self.random.byte()).collect();
        let small = (0..length).map(|_| self.random.below(4) as u8).collect();
        let tails: [Vec<u8>; 7] = [
            vec![],
            vec![0x00],
            vec![0x80],
            vec![0xff; 3],
            drawn,
            small,
            fetched.to_vec(),
        ];
        for tail in &tails {
            // What 5 needs is that something follows.
            if tail.is_empty() && expected.number == 5 {
                continue;
            }
            let input = [fetched, tail].concat();
            let other = (calls::check(&input), reader_c::count(&input));
            if other != (expected, fetched.len()) {
                report::case(origin, &input);
                let (other, count) = other;
                fail(&format!(
                    "{expected} of the first {} bytes, and {other}, {count} fetched, of all",
                    fetched.len()
                ));
            }
            self.other += 1;
        }
    }

    /// The same answer where no byte behind those that were fetched can be fetched.
    fn none_behind_is_fetched(
        &mut self,
        origin: &str,
        input: &[u8],
        count: usize,
        verdict: Verdict,
    ) {
        let behind = input.len() - count;
        // Where more bytes do not change the answer, as many as the fence has.
        let most = if (2..=5).contains(&verdict.number) {
            fence::BEHIND
        } else {
            behind
        };
        for behind in [behind.min(most), most] {
            let fenced = self.fence.check(&input[..count], behind);
            if fenced != verdict {
                report::case(origin, input);
                fail(&format!(
                    "{verdict}, but {fenced} with {behind} bytes behind a fence at {count}"
                ));
            }
        }
    }

    fn finish(&self) {
        for (number, bytes) in ENDS {
            let times = self.ends[number as usize][bytes];
            println!(
                "counts: {number} with {bytes} bytes fetched from its place on: {times} times"
            );
            if times < LEAST_OFTEN {
                fail("that came up too rarely");
            }
        }
        if (0..NUMBERS).any(|number| self.all.times(number) < LEAST_OFTEN) {
            fail(&format!("some answer came up too rarely: {}", self.all));
        }
        println!(
            "counts: {} cases agree ({}); {} cut short, {} with other bytes behind",
            self.all.cases(),
            self.all,
            self.shorter,
            self.other
        );
    }
}

fn fail(message: &str) -> ! {
    println!("{message}");
    println!("counts: FAILED");
    exit(1);
}

/// Checks a case with the last byte that is fetched already behind the fence.
fn one_short(input: &[u8]) {
    let before = second_pass::pass(input).taken - 1;
    let verdict = Fence::new().check(&input[..before], input.len() - before);
    println!("{verdict}, and nothing was fetched behind {before} bytes");
}

/// The fence is one: a case of each answer, with one byte too few before it, is stopped there.
fn the_fence_stops(written: &[edges::Case]) {
    let program = env::current_exe().expect("the path of this program");
    for number in 0..NUMBERS as u32 {
        let case = written
            .iter()
            .find(|case| case.answer.number == number && !case.bytes.is_empty());
        let case = case.expect("a case of each answer");
        let mut child = Command::new(&program);
        // What a stopped program may leave behind stands beside it.
        let status = child
            .current_dir(program.parent().expect("a folder"))
            .args([ONE_SHORT, &to_hex(&case.bytes)])
            .status()
            .expect("a child");
        if status.signal() != Some(SIGSEGV) {
            report::case(case.why, &case.bytes);
            fail(&format!("with one byte too few before the fence: {status}"));
        }
    }
}

/// Every row of bytes that takes one of each alphabet.
fn each_row(alphabets: &[&[u8]], mut visit: impl FnMut(&[u8])) {
    let longest = alphabets
        .iter()
        .map(|alphabet| alphabet.len())
        .max()
        .unwrap_or(1);
    let mut row = Vec::new();
    tiny::each_choice(longest, alphabets.len(), |chosen| {
        row.clear();
        let picked = chosen
            .iter()
            .zip(alphabets)
            .filter_map(|(&at, from)| from.get(at));
        row.extend(picked);
        if row.len() == alphabets.len() {
            visit(&row);
        }
    });
}

/// Every string of up to two bytes, and longer ones over a few bytes.
fn short_strings(run: &mut Run) {
    let every_byte: Vec<u8> = (0..=255).collect();
    for length in 0..=2 {
        each_row(&vec![&every_byte[..]; length], |string| {
            run.hold("all short strings", string)
        });
    }
    let few = [0x00, 0x01, 0x02, 0x03, 0x80, 0x81];
    for length in 3..=6 {
        each_row(&vec![&few[..]; length], |string| {
            run.hold("strings over a few bytes", string)
        });
    }
}

/// Numbers of one to three bytes whose value or form is at an edge, wherever a number can stand.
fn numbers_at_their_edges(run: &mut Run) {
    let first = [
        0x00, 0x01, 0x02, 0x03, 0x10, 0x11, 0x1e, 0x1f, 0x20, 0x21, 0x64, 0x65, 0x7e, 0x7f, 0x80,
        0x81, 0xc8, 0xca, 0xff,
    ];
    let second = [0x00, 0x01, 0x02, 0x7e, 0x7f, 0x80, 0x81, 0xff];
    let third = [
        0x00, 0x01, 0x02, 0x03, 0x04, 0x05, 0x7f, 0x80, 0x81, 0x83, 0xff,
    ];
    let high: Vec<u8> = first.into_iter().filter(|byte| *byte >= 0x80).collect();
    let also_high: Vec<u8> = second.into_iter().filter(|byte| *byte >= 0x80).collect();
    // Before kinds, nonterminals, productions, a length, a symbol of few and of many.
    for before in ["", "02", "02 02", "02 02 01", "02 02 01 02", "64 20 01 02"] {
        let before = from_hex(before);
        for alphabets in [
            &[&first[..]][..],
            &[&high, &second],
            &[&high, &also_high, &third],
        ] {
            each_row(alphabets, |form| {
                for behind in ["", "00", "01 01 00", "80 80 80"] {
                    let input = [&before, form, &from_hex(behind)].concat();
                    run.hold("numbers at their edges", &input);
                }
            });
        }
    }
}

/// Every cut, every overlong number and every fault of one byte in a few grammars, and inputs
/// without end.
fn systematic_faults(run: &mut Run) {
    let mut grammars = vec![from_hex(edges::G1)];
    let mut random = Random::new(5);
    // One that is sound of each of the four sound families.
    for (_, draw) in &generate::FAMILIES[2..6] {
        let mut drawn = (0..40).map(|_| draw(&mut random));
        grammars.extend(drawn.find(|bytes| second_checker::check(bytes).number == 0));
    }
    for grammar in &grammars {
        for length in 0..=grammar.len() {
            run.hold("all cuts", &grammar[..length]);
        }
        let tree = second_checker::read(grammar).expect("a sound grammar");
        for input in generate::overlong_forms(&tree) {
            run.hold("all overlong numbers", &input);
        }
        let values = [0x00, 0x01, 0x1f, 0x7f, 0x80, 0xff];
        for input in generate::single_faults(grammar, &values) {
            run.hold("all faults of one byte", &input);
        }
        for input in generate::endless(grammar) {
            run.hold("without end", &input);
        }
    }
}
