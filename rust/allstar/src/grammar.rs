//! A grammar that has passed the check.

use crate::calls;
use crate::reading::Reading;
use crate::refusal::{GrammarRefusal, NoteRefusal, Refusal};
use crate::workspace::Workspace;

/// What a production is made of.
#[derive(Clone, Copy, Debug, PartialEq, Eq, Hash)]
pub enum Symbol {
    /// A token of this kind, from 1 on.
    Token(u16),
    /// A nonterminal, from 0 on; 0 is the start.
    Nonterminal(usize),
}

/// A sound grammar: every nonterminal derives some row of tokens, and none is left recursive.
#[derive(Clone, Debug, PartialEq, Eq)]
pub struct Grammar {
    bytes: Vec<u8>,
    kinds: u16,
    places: usize,
    /// The symbols of each production of each nonterminal.
    productions: Vec<Vec<Vec<Symbol>>>,
}

impl Grammar {
    /// Checks a grammar's bytes and keeps them.
    pub fn new(bytes: impl Into<Vec<u8>>) -> Result<Grammar, GrammarRefusal> {
        let bytes = bytes.into();
        let measure = calls::measure(&bytes);
        match Refusal::new(measure.number, measure.place) {
            None => Ok(Grammar {
                kinds: measure.kinds as u16,
                places: measure.places as usize,
                productions: productions(&bytes),
                bytes,
            }),
            Some(Refusal::Grammar(refusal)) => Err(refusal),
            Some(other) => unreachable!("a check answered {other:?}"),
        }
    }

    /// The bytes.
    pub fn bytes(&self) -> &[u8] {
        &self.bytes
    }

    /// The highest token kind.
    pub fn kinds(&self) -> u16 {
        self.kinds
    }

    /// How many nonterminals there are.
    pub fn nonterminals(&self) -> usize {
        self.productions.len()
    }

    /// How many places there are: m + 1 in a production of m symbols.
    pub fn places(&self) -> usize {
        self.places
    }

    /// The productions of a nonterminal. Alternatives count from 1: alternative b is the one at index b - 1.
    ///
    /// # Panics
    ///
    /// If there is no such nonterminal.
    pub fn productions(&self, nonterminal: usize) -> &[Vec<Symbol>] {
        &self.productions[nonterminal]
    }

    /// Reads a note without a cache. The answer is the same as [`Cache::read`](crate::Cache::read) gives.
    pub fn read<'a>(
        &'a self,
        note: &'a [u16],
        workspace: &'a mut Workspace,
    ) -> Result<Reading<'a>, NoteRefusal> {
        workspace.read(self, note, |row, words| {
            calls::plain(&self.bytes, note, row, words)
        })
    }
}

/// The productions of a sound grammar, as its bytes say them.
fn productions(bytes: &[u8]) -> Vec<Vec<Vec<Symbol>>> {
    let mut rest = bytes.iter();
    // Groups of seven bits, the lowest first; the top bit says that another follows.
    let mut number = || {
        let (mut value, mut shift) = (0, 0);
        loop {
            let byte = *rest.next().expect("a sound grammar is complete");
            value |= usize::from(byte & 0x7f) << shift;
            if byte < 0x80 {
                return value;
            }
            shift += 7;
        }
    };
    let _kinds = number();
    let mut all = Vec::new();
    for _ in 0..number() {
        let mut of_one = Vec::new();
        for _ in 0..number() {
            let mut symbols = Vec::new();
            for _ in 0..number() {
                let symbol = number();
                symbols.push(if symbol % 2 == 0 {
                    Symbol::Token((symbol / 2) as u16)
                } else {
                    Symbol::Nonterminal(symbol / 2)
                });
            }
            of_one.push(symbols);
        }
        all.push(of_one);
    }
    all
}
