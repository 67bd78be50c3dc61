//! A note that was read.

use crate::grammar::{Grammar, Symbol};

/// The derivation of a note: the leftmost one that takes, at each step, the lowest alternative by which the
/// rest of the note can still be derived.
#[derive(Clone, Copy, Debug)]
pub struct Reading<'a> {
    grammar: &'a Grammar,
    note: &'a [u16],
    entries: &'a [u16],
}

/// A node of the tree of a derivation.
#[derive(Clone, Copy, Debug, PartialEq, Eq)]
pub enum Node {
    /// A nonterminal, and the alternative by which it is expanded, counted from 1.
    Expanded {
        /// The nonterminal.
        nonterminal: usize,
        /// The alternative.
        alternative: u16,
    },
    /// A token of the note.
    Token {
        /// Its kind.
        kind: u16,
        /// Where it stands in the note, counted from 0.
        position: usize,
    },
}

impl<'a> Reading<'a> {
    pub(crate) fn new(grammar: &'a Grammar, note: &'a [u16], entries: &'a [u16]) -> Reading<'a> {
        Reading {
            grammar,
            note,
            entries,
        }
    }

    /// The alternative of each expansion, counted from 1, in leftmost order.
    pub fn entries(&self) -> &'a [u16] {
        self.entries
    }

    /// The grammar.
    pub fn grammar(&self) -> &'a Grammar {
        self.grammar
    }

    /// The note.
    pub fn note(&self) -> &'a [u16] {
        self.note
    }

    /// The nodes of the derivation's tree from top to bottom and from left to right, each with its depth; the
    /// start symbol has depth 0.
    pub fn nodes(&self) -> impl Iterator<Item = (usize, Node)> + 'a {
        let grammar = self.grammar;
        let mut entries = self.entries.iter();
        let mut position = 0;
        let mut open = vec![(0, Symbol::Nonterminal(0))];
        std::iter::from_fn(move || {
            let (depth, symbol) = open.pop()?;
            let node = match symbol {
                Symbol::Token(kind) => {
                    position += 1;
                    Node::Token {
                        kind,
                        position: position - 1,
                    }
                }
                Symbol::Nonterminal(nonterminal) => {
                    let alternative = *entries.next().expect("an entry for each expansion");
                    let symbols = &grammar.productions(nonterminal)[usize::from(alternative) - 1];
                    open.extend(symbols.iter().rev().map(|&symbol| (depth + 1, symbol)));
                    Node::Expanded {
                        nonterminal,
                        alternative,
                    }
                }
            };
            Some((depth, node))
        })
    }
}
