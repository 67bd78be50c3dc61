//! Tests the grammar check against answers written down by hand and against the second checker.
#![deny(unsafe_code)]

#[path = "support/check_facts.rs"]
mod check_facts;
#[path = "support/check_families.rs"]
mod check_families;
#[path = "support/check_sketch.rs"]
mod check_sketch;
#[path = "support/check_ways.rs"]
mod check_ways;
#[path = "support/corners.rs"]
mod corners;
#[path = "support/edges.rs"]
mod edges;
#[path = "support/generate.rs"]
mod generate;
#[allow(dead_code)]
#[path = "support/lent.rs"]
mod lent;
#[path = "support/random.rs"]
mod random;
#[path = "support/report.rs"]
mod report;
#[path = "support/second_checker.rs"]
mod second_checker;
#[path = "support/tally.rs"]
mod tally;
#[path = "support/tiny.rs"]
mod tiny;
#[path = "support/tree.rs"]
mod tree;

use allstar::calls::{self, Measure, Verdict};
use check_facts::Facts;
use check_families::FAULTS;
use check_ways::Ways;
use corners::CORNERS;
use lent::Lent;
use random::Random;
use std::process::exit;
use tally::Tally;
use tree::from_hex;

/// Sound, and refusals 1 to 7.
const NUMBERS: usize = 8;

/// Drawn cases of each family, and how often each answer, each corner and each way must come up.
const DRAWN_PER_FAMILY: usize = 3_000;
const LEAST_OFTEN: usize = 100;

fn main() {
    let mut run = Run::new();
    for case in edges::paper().into_iter().chain(edges::edges()) {
        run.expect(case);
    }
    short_strings(&mut run);
    tiny::each_grammar(|grammar| {
        run.agree("all tiny grammars", &grammar.encode());
    });
    every_symbol(&mut run);
    systematic_faults(&mut run);
    drawn_grammars(&mut run);
    ways_of_the_check(&mut run);
    run.finish();
}

/// The cases so far.
struct Run {
    all: Tally<NUMBERS>,
    drawn: Tally<NUMBERS>,
    corners: [usize; CORNERS.len()],
    by_ways: Tally<NUMBERS>,
    ways: Ways,
    input: Lent<u8>,
}

impl Run {
    fn new() -> Run {
        Run {
            all: Tally::new("sound"),
            drawn: Tally::new("sound"),
            corners: [0; CORNERS.len()],
            by_ways: Tally::new("sound"),
            ways: Ways::new(),
            input: Lent::new(),
        }
    }

    /// A case whose answer is written down; the second checker has to know it too.
    fn expect(&mut self, case: edges::Case) {
        let answer = self.agree(case.why, &case.bytes);
        // Whatever stood where the place goes; and an empty slice points nowhere here.
        let again = [0, 1, 0xffff_ffff_0000_0000].map(|it| calls::check_over(&case.bytes, it));
        if answer != case.answer || again.iter().any(|other| *other != answer) {
            report::case(case.why, &case.bytes);
            let all = again.map(|other| other.to_string()).join(", ");
            fail(&format!(
                "expected {}, answered {answer}, {all}",
                case.answer
            ));
        }
    }

    /// A case that library and second checker must agree on.
    fn agree(&mut self, origin: &str, input: &[u8]) -> Verdict {
        // What stands around the input changes from case to case: no answer may depend on it.
        const AROUND: [u8; 7] = [0x00, 0x01, 0x02, 0x7f, 0x80, 0x81, 0xff];
        let nth = self.all.cases();
        let around = [AROUND[nth % AROUND.len()]; 8];
        // And so does how the input is aligned.
        self.agree_amid(origin, &around[..nth % 8], input, &around)
    }

    /// The same, with the bytes given that stand around the input.
    fn agree_amid(&mut self, origin: &str, before: &[u8], input: &[u8], behind: &[u8]) -> Verdict {
        self.input.lay(before, input, behind);
        let library = calls::check(self.input.part());
        let measured = calls::measure(self.input.part());
        if !self.input.is_unchanged() {
            report::case(origin, input);
            fail("a call changed the lent bytes or those around them");
        }
        let second = second_checker::check(input);
        if library != second {
            report::case(origin, input);
            fail(&format!("library: {library}\nsecond checker: {second}"));
        }
        let measure = measure(input, second);
        if measured != measure {
            report::case(origin, input);
            fail(&format!(
                "library: {measured:?}\nsecond checker: {measure:?}"
            ));
        }
        self.all.count(library.number);
        library
    }

    fn finish(&self) {
        println!("drawn: {} cases ({})", self.drawn.cases(), self.drawn);
        for (corner, times) in CORNERS.iter().zip(self.corners) {
            println!("drawn: {times} {corner}");
        }
        let answers = (0..NUMBERS).map(|number| self.drawn.times(number));
        if answers.chain(self.corners).any(|n| n < LEAST_OFTEN) {
            fail("some answer or corner came up too rarely in the drawn cases");
        }
        println!("ways: {} cases ({})", self.by_ways.cases(), self.by_ways);
        let (ways, least) = self.ways.report();
        for way in &ways {
            println!("way: {way}");
        }
        println!(
            "ways: {}, each to each of its answers at least {least} times",
            ways.len()
        );
        if least < LEAST_OFTEN {
            fail("some way came up too rarely with some answer");
        }
        println!("grammars: {} cases agree ({})", self.all.cases(), self.all);
    }
}

/// How large the second checker finds a grammar of this verdict.
fn measure(input: &[u8], verdict: Verdict) -> Measure {
    let read = second_checker::read(input)
        .ok()
        .filter(|_| verdict.number == 0);
    let [kinds, nonterminals, places] = read.map_or([0; 3], |grammar| {
        [
            grammar.kinds as u64,
            grammar.rules.len() as u64,
            grammar.places() as u64,
        ]
    });
    Measure {
        number: verdict.number,
        place: verdict.place,
        kinds,
        nonterminals,
        places,
    }
}

fn fail(message: &str) -> ! {
    println!("{message}");
    println!("grammars: FAILED");
    exit(1);
}

/// Every string of `length` bytes over an alphabet.
fn each_string(alphabet: &[u8], length: usize, mut visit: impl FnMut(&[u8])) {
    let mut string = Vec::new();
    tiny::each_choice(alphabet.len(), length, |chosen| {
        string.clear();
        string.extend(chosen.iter().map(|&at| alphabet[at]));
        visit(&string);
    });
}

/// Every short string of bytes, as far as time allows.
fn short_strings(run: &mut Run) {
    let every_byte: Vec<u8> = (0..=255).collect();
    for length in 0..=2 {
        each_string(&every_byte, length, |string| {
            run.agree("all short strings", string);
        });
    }
    for first in [0x00, 0x01, 0x02, 0x64, 0x65, 0x7f, 0x80, 0x81, 0xff] {
        each_string(&every_byte, 2, |rest| {
            run.agree("strings of three bytes", &[first, rest[0], rest[1]]);
        });
    }
    let few = [0x00, 0x01, 0x02, 0x03, 0x04, 0x05, 0x80, 0x81];
    for length in 3..=7 {
        each_string(&few, length, |string| {
            run.agree("strings over a few bytes", string);
        });
    }
    // Two nonterminals, behind a good beginning.
    for length in 0..=9 {
        each_string(&[0x00, 0x01, 0x02, 0x03], length, |rest| {
            run.agree("two nonterminals", &[&[1, 2], rest].concat());
        });
    }
}

/// Every number that may be meant for a symbol, and more, in each of its forms, with kinds and
/// nonterminals that decide about it; where it is all of a production, and amid tokens.
fn every_symbol(run: &mut Run) {
    for kinds in [1, 2, 62, 63, 64, 65, 99, 100] {
        for count in [1, 2, 31, 32] {
            let others = [1, 0].repeat(usize::from(count) - 1);
            for number in 0..=260 {
                for length in 1..=3 {
                    let mut symbol = Vec::new();
                    generate::write_padded(number, length, &mut symbol);
                    let alone = [&[kinds, count, 2, 0, 1], &symbol[..], &others].concat();
                    run.agree("every symbol", &alone);
                    let amid = [&[kinds, count, 2, 3, 2], &symbol[..], &[2, 0], &others].concat();
                    run.agree("every symbol", &amid);
                }
            }
        }
    }
}

/// Every cut, every overlong number and every fault of one byte in a few grammars, and inputs
/// without end.
fn systematic_faults(run: &mut Run) {
    let mut grammars = vec![from_hex(edges::G1)];
    let mut random = Random::new(1);
    // The longest of the sound ones that each of the four sound families draws.
    for (_, draw) in &generate::FAMILIES[2..6] {
        let drawn = (0..40).map(|_| draw(&mut random));
        let sound = drawn.filter(|bytes| second_checker::check(bytes).number == 0);
        grammars.extend(sound.max_by_key(Vec::len));
    }
    for grammar in &grammars {
        // What was cut off stands behind the rest, where it must not be read.
        for length in 0..=grammar.len() {
            let (rest, cut_off) = grammar.split_at(length);
            run.agree_amid("all cuts", &[], rest, cut_off);
        }
        let tree = second_checker::read(grammar).expect("a sound grammar");
        for input in generate::overlong_forms(&tree) {
            run.agree("all overlong numbers", &input);
        }
        let values = [0x00, 0x01, 0x02, 0x03, 0x11, 0x1e, 0x1f, 0x7f, 0x80, 0xff];
        for input in generate::single_faults(grammar, &values) {
            run.agree("all faults of one byte", &input);
        }
        for input in generate::endless(grammar) {
            run.agree("without end", &input);
        }
    }
}

fn drawn_grammars(run: &mut Run) {
    for (name, draw) in generate::FAMILIES {
        let mut random = Random::new(2);
        for _ in 0..DRAWN_PER_FAMILY {
            let input = draw(&mut random);
            let answer = run.agree(name, &input);
            run.drawn.count(answer.number);
            if let Ok(grammar) = second_checker::read(&input) {
                if grammar.encode() != input {
                    report::case(name, &input);
                    fail("the tree is not that of the bytes");
                }
                for (times, touched) in run.corners.iter_mut().zip(corners::touched(&grammar)) {
                    *times += usize::from(touched);
                }
            }
        }
    }
}

/// Grammars drawn for the ways in which the check comes to its answer.
fn ways_of_the_check(run: &mut Run) {
    for family in check_families::FAMILIES {
        let (name, times, _) = family;
        let mut random = Random::new(3);
        for fault in FAULTS.repeat(times) {
            let grammar = check_families::draw(&family, &mut random, fault);
            let input = grammar.encode();
            let answer = run.agree(name, &input);
            if second_checker::read(&input).as_ref() != Ok(&grammar) {
                report::case(name, &input);
                fail("the bytes are not those of the tree");
            }
            let facts = Facts::of(&grammar);
            if facts.verdict() != answer {
                report::case(name, &input);
                fail(&format!("library: {answer}\nby ways: {}", facts.verdict()));
            }
            run.by_ways.count(answer.number);
            run.ways.count(&facts, answer.number);
        }
    }
}
