//! A second pass over the bytes of a grammar, made for the tests and by other means than the library:
//! an automaton that is fed byte by byte and keeps a stack of what is still to come. It takes its
//! bytes one at a time from a source that counts them, and takes none once it knows the outcome.
#![forbid(unsafe_code)]

use std::ops::RangeInclusive;

const MOST_PLACES: u32 = 255;

/// What came of a pass, and how many bytes were taken for it.
#[derive(Clone, Copy, Debug, PartialEq, Eq)]
pub struct Pass {
    /// Refusal 1 to 5 and its place, or none for a whole grammar.
    pub refusal: Option<(u32, usize)>,
    pub taken: usize,
}

/// Passes over a grammar.
pub fn pass(bytes: &[u8]) -> Pass {
    let mut source = Source {
        rest: bytes.iter(),
        taken: 0,
    };
    let refusal = run(&mut source);
    Pass {
        refusal,
        taken: source.taken,
    }
}

fn run(source: &mut Source) -> Option<(u32, usize)> {
    let mut automaton = Automaton::new();
    while !automaton.coming.is_empty() {
        let Some(byte) = source.take() else {
            return Some((1, automaton.start));
        };
        if let Err(number) = automaton.feed(byte) {
            return Some((number, automaton.start));
        }
    }
    // That something follows is known without taking it.
    (!source.is_empty()).then_some((5, automaton.start))
}

/// Bytes, each counted as it is taken.
struct Source<'a> {
    rest: std::slice::Iter<'a, u8>,
    taken: usize,
}

impl Source<'_> {
    fn take(&mut self) -> Option<u8> {
        let byte = *self.rest.next()?;
        self.taken += 1;
        Some(byte)
    }

    fn is_empty(&self) -> bool {
        self.rest.len() == 0
    }
}

/// What a number says.
#[derive(Clone, Copy)]
enum Says {
    Kinds,
    Nonterminals,
    Productions,
    Length,
    Symbol,
}

struct Automaton {
    /// The numbers that are still to come, the next one last.
    coming: Vec<Says>,
    /// Where the number that is being written starts, and what its bytes have said so far.
    start: usize,
    length: usize,
    value: u32,
    kinds: u32,
    nonterminals: u32,
    places: u32,
}

impl Automaton {
    fn new() -> Automaton {
        Automaton {
            coming: vec![Says::Kinds],
            start: 0,
            length: 0,
            value: 0,
            kinds: 0,
            nonterminals: 0,
            places: 0,
        }
    }

    /// Takes the next byte in, or says the number of a refusal at `start`.
    fn feed(&mut self, byte: u8) -> Result<(), u32> {
        self.value += u32::from(byte % 128) << (7 * self.length);
        self.length += 1;
        if byte >= 128 {
            // A number of more than three bytes is above 65,535, or not in its shortest form.
            return if self.length < 3 { Ok(()) } else { Err(2) };
        }
        // The highest group is 0 only where it is the only one.
        if (byte == 0 && self.length > 1) || self.value > 65_535 {
            return Err(2);
        }
        self.settle()?;
        self.start += self.length;
        (self.length, self.value) = (0, 0);
        Ok(())
    }

    /// A number is complete: what follows from it.
    fn settle(&mut self) -> Result<(), u32> {
        let value = self.value;
        let within = |limits: RangeInclusive<u32>, number: u32| match limits.contains(&value) {
            true => Ok(()),
            false => Err(number),
        };
        let (next, times) = match self.coming.pop().expect("a number to come") {
            Says::Kinds => {
                within(1..=100, 3)?;
                self.kinds = value;
                (Says::Nonterminals, 1)
            }
            Says::Nonterminals => {
                within(1..=32, 3)?;
                self.nonterminals = value;
                (Says::Productions, value)
            }
            Says::Productions => {
                within(1..=16, 3)?;
                (Says::Length, value)
            }
            Says::Length => {
                within(0..=30, 3)?;
                self.places += value + 1;
                if self.places > MOST_PLACES {
                    return Err(3);
                }
                (Says::Symbol, value)
            }
            Says::Symbol => {
                let known = if value % 2 == 0 {
                    2..=2 * self.kinds
                } else {
                    1..=2 * self.nonterminals - 1
                };
                return within(known, 4);
            }
        };
        self.coming.extend((0..times).map(|_| next));
        Ok(())
    }
}
