//! A second quick reading, made for the tests and by other means than the library: the machine goes
//! over lists of symbols, predictions go to the second learner, and where they leave it open the
//! second parser is asked.
#![forbid(unsafe_code)]

use crate::cache_words::{self, Any, STATE};
use crate::second_learner::{Filed, Memory, Said, Source};
use crate::second_parser::Parser;
use crate::tree::{Grammar, Symbol};

/// Where the machine stops.
#[derive(Clone, Copy, Debug, PartialEq, Eq)]
pub enum Stop {
    /// All is derived.
    Accepted,
    /// No alternative serves.
    NoneServes,
    /// A token doesn't match.
    Mismatch,
    /// Tokens are left over.
    LeftOver,
    /// The row is full and a nonterminal waits.
    RowFull,
}

/// What the machine did.
pub struct Read {
    pub stop: Stop,
    /// The position where it stopped.
    pub at: usize,
    pub entries: Vec<u16>,
    /// Predictions that named an alternative, and those that left it open.
    pub named: usize,
    pub left_open: usize,
    /// Of those left open, the ones where not the first alternative was taken.
    pub passed_over: usize,
}

/// Reads a note of known tokens with room for so many entries; `predict` names the alternative of a
/// decision, if it does, by the tokens that are left.
pub fn read(
    grammar: &Grammar,
    note: &[u16],
    room: usize,
    mut predict: impl FnMut(usize, &[u16]) -> Option<usize>,
) -> Read {
    let mut parser = Parser::new(grammar, note);
    let mut open = vec![parser.start];
    let mut read = Read {
        stop: Stop::Accepted,
        at: 0,
        entries: Vec::new(),
        named: 0,
        left_open: 0,
        passed_over: 0,
    };
    while let Some(list) = open.pop() {
        let Some((head, rest)) = list.split() else {
            continue;
        };
        if !rest.symbols.is_empty() {
            open.push(rest);
        }
        let number = match head {
            Symbol::Token(kind) if parser.faces(kind, read.at) => {
                read.at += 1;
                continue;
            }
            Symbol::Token(_) => {
                read.stop = Stop::Mismatch;
                return read;
            }
            Symbol::Nonterminal(number) => number,
        };
        if read.entries.len() == room {
            read.stop = Stop::RowFull;
            return read;
        }
        let productions = parser.rules[number].clone();
        let predicted = match productions.len() {
            1 => Some(1),
            _ => {
                let predicted = predict(number, &note[read.at..]);
                let predicted = predicted.filter(|nth| (1..=productions.len()).contains(nth));
                match predicted {
                    Some(_) => read.named += 1,
                    None => read.left_open += 1,
                }
                predicted
            }
        };
        let mut lowest = || {
            let mut numbers = 1..=productions.len();
            numbers.find(|nth| parser.serves(productions[nth - 1], &open, read.at))
        };
        let Some(taken) = predicted.or_else(&mut lowest) else {
            read.stop = Stop::NoneServes;
            return read;
        };
        read.passed_over += usize::from(predicted.is_none() && taken > 1);
        read.entries.push(taken as u16);
        open.push(productions[taken - 1]);
    }
    if read.at < note.len() {
        read.stop = Stop::LeftOver;
    }
    read
}

/// What the predictions of a reading did to the memory.
#[derive(Default)]
pub struct Lessons {
    pub recorded: usize,
    pub worked: usize,
    pub new_states: usize,
    pub held_states: usize,
    pub out_of_slots: usize,
}

impl Lessons {
    fn count(&mut self, source: &Source) {
        let Source::Worked(.., filed) = source else {
            self.recorded += 1;
            return;
        };
        match filed {
            Filed::Plainly => {}
            Filed::AsHeld => self.held_states += 1,
            Filed::InNewSlot => self.new_states += 1,
            Filed::Not => self.out_of_slots += 1,
        }
        self.worked += usize::from(*filed != Filed::Not);
    }
}

/// The tokens that are left, and the end mark.
fn marked(rest: &[u16]) -> impl Iterator<Item = u32> + '_ {
    rest.iter().map(|&token| u32::from(token)).chain([0])
}

/// The alternative that a prediction names; the memory learns.
pub fn predict(
    memory: &mut Memory,
    lessons: &mut Lessons,
    decision: usize,
    rest: &[u16],
) -> Option<usize> {
    let (mut said, source) = memory.start(decision);
    lessons.count(&source);
    for token in marked(rest) {
        let Said::State(state) = said else { break };
        let (next, source) = memory.step(state, token);
        lessons.count(&source);
        said = next;
    }
    match said {
        Said::Alternative(number) => Some(usize::from(number)),
        Said::Full | Said::State(_) => None,
    }
}

/// The same by any words.
pub fn predict_by(any: &mut Any, decision: usize, rest: &[u16]) -> Option<usize> {
    let slots = cache_words::slots(any.words.len());
    let (mut word, _) = any.start(decision);
    for token in marked(rest) {
        let state = word.checked_sub(STATE).map(|state| state as usize);
        let Some(state) = state.filter(|&state| state < slots) else {
            break;
        };
        (word, _) = any.step_for(decision as u32, state, token);
    }
    (1..=16).contains(&word).then_some(word as usize)
}
