//! A second parser, made for the tests and by other means than the library: it backtracks over lists
//! of symbols from the start symbol down and keeps what it has found.  A derivation is drawn out one
//! alternative at a time, each tried with all that is still open.  Where a note goes wrong is asked
//! from the inside: how far into the note a row that a list derives can agree with it.
//!
//! It recurses once for each symbol of each open production, and needs a deep stack for long notes.
#![forbid(unsafe_code)]

use allstar::calls::{Answer, Verdict};
use crate::second_checker;
use crate::tree::{Grammar, Symbol};

pub const LONGEST_NOTE: usize = 128;

/// The words that refusal 11 asks for.
pub fn space(places: usize, tokens: usize) -> usize {
    8_192 + 8 * places * (tokens + 1)
}

/// All that a grammar and a note settle, whatever row and working space are lent with them.
pub struct Judgement {
    /// Refusals 1 to 9.
    before_space: Verdict,
    /// The words that 11 asks for.
    pub space: usize,
    /// The place of 10, if the note is no sentence.
    wrong_at: Option<usize>,
    pub derivation: Derived,
}

/// The chosen derivation of a sentence, as far as it was asked for.
#[derive(Default)]
pub struct Derived {
    pub entries: Vec<u16>,
    pub is_complete: bool,
    /// At some step a higher alternative would have served too.
    pub is_ambiguous: bool,
    /// At some step a lower alternative fits the note for a while, but not with what is open.
    pub passes_over: bool,
}

impl Judgement {
    /// At most `longest_row + 1` entries of the derivation are asked for.
    pub fn of(bytes: &[u8], note: &[u16], longest_row: usize) -> Judgement {
        let mut judgement = Judgement {
            before_space: second_checker::check(bytes),
            space: 0,
            wrong_at: None,
            derivation: Derived::default(),
        };
        if judgement.before_space.number != 0 {
            return judgement;
        }
        let grammar = second_checker::read(bytes).expect("a sound grammar");
        judgement.space = space(grammar.places(), note.len());
        judgement.before_space = known(&grammar, note);
        if judgement.before_space.number != 0 {
            return judgement;
        }
        let mut parser = Parser::new(&grammar, note);
        if parser.is_sentence() {
            judgement.derivation = parser.derive(longest_row + 1);
        } else {
            judgement.wrong_at = Some(parser.wrong_at());
        }
        judgement
    }

    /// What a plain reading answers that is lent so much.
    pub fn answer(&self, row: usize, workspace: usize) -> Answer {
        let answer = |number, place, count| Answer {
            number,
            place,
            count,
        };
        let Verdict { number, place } = self.before_space;
        if number != 0 {
            return answer(number, place, 0);
        }
        if workspace < self.space {
            return answer(11, 0, 0);
        }
        if let Some(place) = self.wrong_at {
            return answer(10, place as u64, 0);
        }
        let count = self.derivation.entries.len();
        if row < count {
            return answer(14, 0, 0);
        }
        assert!(self.derivation.is_complete, "too few entries asked for");
        answer(0, 0, count as u64)
    }
}

/// Refusals 8 and 9.
fn known(grammar: &Grammar, note: &[u16]) -> Verdict {
    let unknown = |token: &u16| !(1..=grammar.kinds).contains(&u32::from(*token));
    let (number, place) = if note.len() > LONGEST_NOTE {
        (8, 0)
    } else if let Some(place) = note.iter().position(unknown) {
        (9, place as u64)
    } else {
        (0, 0)
    };
    Verdict { number, place }
}

/// Positions of a note, 0 to 128.
#[derive(Clone, Copy)]
struct Positions([u64; 3]);

impl Positions {
    const NONE: Positions = Positions([0; 3]);

    fn only(position: usize) -> Positions {
        let mut words = [0; 3];
        words[position / 64] = 1 << (position % 64);
        Positions(words)
    }

    fn join(&mut self, other: Positions) {
        for (word, more) in self.0.iter_mut().zip(other.0) {
            *word |= more;
        }
    }

    fn contains(self, position: usize) -> bool {
        self.0[position / 64] >> (position % 64) & 1 == 1
    }

    fn is_empty(self) -> bool {
        self.0 == [0; 3]
    }
}

/// From the lowest to the highest.
impl Iterator for Positions {
    type Item = usize;

    fn next(&mut self) -> Option<usize> {
        let at = self.0.iter().position(|word| *word != 0)?;
        let lowest = self.0[at].trailing_zeros();
        self.0[at] &= self.0[at] - 1;
        Some(64 * at + lowest as usize)
    }
}

/// A list of symbols, an end of a production; the number tells it from all others.
#[derive(Clone, Copy)]
pub struct List<'g> {
    pub symbols: &'g [Symbol],
    number: usize,
}

impl<'g> List<'g> {
    pub fn split(self) -> Option<(Symbol, List<'g>)> {
        let (head, symbols) = self.symbols.split_first()?;
        let number = self.number + 1;
        Some((*head, List { symbols, number }))
    }
}

/// A sound grammar, a note of known tokens, and what was found out about them.
pub struct Parser<'g> {
    note: &'g [u16],
    pub start: List<'g>,
    pub rules: Vec<Vec<List<'g>>>,
    /// By list and position.
    ends: Vec<Option<Positions>>,
    agreed: Vec<Option<usize>>,
}

impl<'g> Parser<'g> {
    pub fn new(grammar: &'g Grammar, note: &'g [u16]) -> Parser<'g> {
        let start = List {
            symbols: &[Symbol::Nonterminal(0)],
            number: 0,
        };
        let mut number = 2;
        let mut numbered = |symbols: &'g Vec<Symbol>| {
            let list = List { symbols, number };
            number += symbols.len() + 1;
            list
        };
        let of_rule = |rule: &'g Vec<Vec<Symbol>>| rule.iter().map(&mut numbered).collect();
        let rules = grammar.rules.iter().map(of_rule).collect();
        let questions = number * (note.len() + 1);
        Parser {
            note,
            start,
            rules,
            ends: vec![None; questions],
            agreed: vec![None; questions],
        }
    }

    fn question(&self, list: List, from: usize) -> usize {
        list.number * (self.note.len() + 1) + from
    }

    /// The positions up to which the list derives the note from `from` on.
    fn ends(&mut self, list: List<'g>, from: usize) -> Positions {
        let Some((head, rest)) = list.split() else {
            return Positions::only(from);
        };
        let question = self.question(list, from);
        if let Some(found) = self.ends[question] {
            return found;
        }
        let mut ends = Positions::NONE;
        for middle in self.ends_of_symbol(head, from) {
            ends.join(self.ends(rest, middle));
        }
        self.ends[question] = Some(ends);
        ends
    }

    fn ends_of_symbol(&mut self, symbol: Symbol, from: usize) -> Positions {
        match symbol {
            Symbol::Token(kind) if self.faces(kind, from) => Positions::only(from + 1),
            Symbol::Token(_) => Positions::NONE,
            Symbol::Nonterminal(number) => {
                let mut ends = Positions::NONE;
                for at in 0..self.rules[number].len() {
                    ends.join(self.ends(self.rules[number][at], from));
                }
                ends
            }
        }
    }

    pub fn faces(&self, kind: u32, at: usize) -> bool {
        self.note.get(at).copied().map(u32::from) == Some(kind)
    }

    fn is_sentence(&mut self) -> bool {
        self.ends(self.start, 0).contains(self.note.len())
    }

    /// The last position up to which some row that the list derives agrees with the note from `from`
    /// on.  Every symbol of a sound grammar derives a row, so whatever stands behind one in which the
    /// agreement ends can be derived somehow.
    fn agreed(&mut self, list: List<'g>, from: usize) -> usize {
        let Some((head, rest)) = list.split() else {
            return from;
        };
        let question = self.question(list, from);
        if let Some(found) = self.agreed[question] {
            return found;
        }
        let mut last = from;
        if let Symbol::Nonterminal(number) = head {
            for at in 0..self.rules[number].len() {
                last = last.max(self.agreed(self.rules[number][at], from));
            }
        }
        for middle in self.ends_of_symbol(head, from) {
            last = last.max(self.agreed(rest, middle));
        }
        self.agreed[question] = Some(last);
        last
    }

    /// The place of 10 in a note that is no sentence.
    fn wrong_at(&mut self) -> usize {
        self.agreed(self.start, 0)
    }

    /// Whether a production and then what is open, the last of it first, derive the note from `from`
    /// on to its end.
    pub fn serves(&mut self, production: List<'g>, open: &[List<'g>], from: usize) -> bool {
        let mut positions = Positions::only(from);
        for list in std::iter::once(&production).chain(open.iter().rev()) {
            let mut ends = Positions::NONE;
            for position in positions {
                ends.join(self.ends(*list, position));
            }
            positions = ends;
        }
        positions.contains(self.note.len())
    }

    /// The leftmost derivation of a sentence that takes at each step the lowest alternative that
    /// serves, up to `most` entries of it.  There may be more than anybody can count.
    fn derive(&mut self, most: usize) -> Derived {
        let mut derived = Derived::default();
        let mut open = vec![self.start];
        let mut at = 0;
        while let Some(list) = open.pop() {
            let Some((head, rest)) = list.split() else {
                continue;
            };
            if !rest.symbols.is_empty() {
                open.push(rest);
            }
            match head {
                Symbol::Token(_) => at += 1,
                Symbol::Nonterminal(_) if derived.entries.len() == most => return derived,
                Symbol::Nonterminal(number) => {
                    let productions = self.rules[number].clone();
                    // Of a sentence some alternative serves: where there is one only, it does.
                    let is_single = productions.len() == 1;
                    let mut serving = (0..productions.len())
                        .filter(|&nth| is_single || self.serves(productions[nth], &open, at));
                    let chosen = serving.next().expect("one that serves");
                    derived.is_ambiguous = derived.is_ambiguous || serving.next().is_some();
                    drop(serving);
                    let mut lower = productions[..chosen].iter();
                    derived.passes_over |= lower.any(|list| !self.ends(*list, at).is_empty());
                    derived.entries.push(chosen as u16 + 1);
                    open.push(productions[chosen]);
                }
            }
        }
        derived.is_complete = true;
        derived
    }
}

/// The tokens that a row of alternatives derives, if it is a whole leftmost derivation.
pub fn replay(grammar: &Grammar, row: &[u16]) -> Option<Vec<u16>> {
    let mut alternatives = row.iter();
    let mut open = vec![Symbol::Nonterminal(0)];
    let mut tokens = Vec::new();
    while let Some(symbol) = open.pop() {
        match symbol {
            Symbol::Token(kind) => tokens.push(kind as u16),
            Symbol::Nonterminal(number) => {
                let nth = usize::from(*alternatives.next()?).checked_sub(1)?;
                open.extend(grammar.rules[number].get(nth)?.iter().rev());
            }
        }
    }
    alternatives.next().is_none().then_some(tokens)
}
