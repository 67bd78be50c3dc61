//! A second checker of grammars, made for the tests and by other means than the library: it splits
//! all bytes into a list of numbers, builds an owned tree from the list, settles what derives a row
//! of tokens and what derives the empty row by counters over a worklist, and finds left recursion
//! as strongly connected components.
#![forbid(unsafe_code)]

use allstar::calls::Verdict;
use crate::tree::{Grammar, Production, Symbol};
use std::ops::RangeInclusive;

const MOST_PLACES: usize = 255;

/// Refusals 1 to 7 of the scope, in its order.
pub fn check(bytes: &[u8]) -> Verdict {
    match read(bytes) {
        Ok(grammar) => judge(&grammar),
        Err(refusal) => refusal,
    }
}

fn refused(number: u32, place: usize) -> Verdict {
    Verdict {
        number,
        place: place as u64,
    }
}

// Refusals 1 to 5: the bytes.

/// One number of the bytes, or why there is none at its start.
struct Item {
    start: usize,
    content: Content,
}

enum Content {
    Number(u32),
    /// Refusal 2.
    Malformed,
    /// The bytes end before the number begins or inside it: refusal 1.
    Unfinished,
}

/// All numbers up to the first that is malformed or unfinished, and that one.
fn split(bytes: &[u8]) -> Vec<Item> {
    let mut items = Vec::new();
    let mut rest = bytes;
    loop {
        let start = bytes.len() - rest.len();
        let window = &rest[..rest.len().min(3)];
        let content = match window.iter().position(|byte| byte >> 7 == 0) {
            Some(last) => number(&window[..=last]),
            None if window.len() == 3 => Content::Malformed,
            None => Content::Unfinished,
        };
        let Content::Number(_) = content else {
            items.push(Item { start, content });
            return items;
        };
        items.push(Item { start, content });
        let length = 1 + window.iter().take_while(|byte| *byte >> 7 == 1).count();
        rest = &rest[length..];
    }
}

/// The number that one to three bytes write, if they are its shortest form.
fn number(form: &[u8]) -> Content {
    let groups = form.iter().rev();
    let value = groups.fold(0, |higher, byte| (higher << 7) + u32::from(byte & 0x7f));
    let shortest = match value {
        0..=127 => 1,
        128..=16_383 => 2,
        16_384..=65_535 => 3,
        _ => return Content::Malformed,
    };
    if form.len() == shortest {
        Content::Number(value)
    } else {
        Content::Malformed
    }
}

/// Takes the numbers of the list in turn.
struct Reader {
    items: std::vec::IntoIter<Item>,
}

impl Reader {
    fn next(&mut self) -> Result<(usize, u32), Verdict> {
        // The list ends with an item that is refused here, so nothing is asked for behind it.
        let item = self.items.next().unwrap();
        match item.content {
            Content::Number(value) => Ok((item.start, value)),
            Content::Malformed => Err(refused(2, item.start)),
            Content::Unfinished => Err(refused(1, item.start)),
        }
    }

    fn within(&mut self, limits: RangeInclusive<u32>) -> Result<(usize, u32), Verdict> {
        let (start, value) = self.next()?;
        if limits.contains(&value) {
            Ok((start, value))
        } else {
            Err(refused(3, start))
        }
    }

    fn symbol(&mut self, kinds: u32, nonterminals: u32) -> Result<Symbol, Verdict> {
        let (start, value) = self.next()?;
        match (value % 2, value / 2) {
            (0, kind) if (1..=kinds).contains(&kind) => Ok(Symbol::Token(kind)),
            (1, number) if number < nonterminals => Ok(Symbol::Nonterminal(number as usize)),
            _ => Err(refused(4, start)),
        }
    }
}

/// The tree that the bytes write, or refusal 1 to 5.
pub fn read(bytes: &[u8]) -> Result<Grammar, Verdict> {
    let items = split(bytes).into_iter();
    let mut reader = Reader { items };
    let (_, kinds) = reader.within(1..=100)?;
    let (_, nonterminals) = reader.within(1..=32)?;
    let mut places = 0;
    let mut rules = Vec::new();
    for _ in 0..nonterminals {
        let (_, count) = reader.within(1..=16)?;
        let mut productions = Vec::new();
        for _ in 0..count {
            let (start, length) = reader.within(0..=30)?;
            places += length as usize + 1;
            if places > MOST_PLACES {
                return Err(refused(3, start));
            }
            let symbols = (0..length).map(|_| reader.symbol(kinds, nonterminals));
            productions.push(symbols.collect::<Result<Production, Verdict>>()?);
        }
        rules.push(productions);
    }
    // What follows is refused as such, even if it is no number.
    match reader.items.next() {
        Some(item) if item.start < bytes.len() => Err(refused(5, item.start)),
        _ => Ok(Grammar { kinds, rules }),
    }
}

// Refusals 7 and 6: the tree.

fn judge(grammar: &Grammar) -> Verdict {
    let recursive = left_recursive(grammar, &nullable(grammar));
    if let Some(lowest) = recursive.iter().position(|yes| *yes) {
        return refused(7, lowest);
    }
    match productive(grammar).iter().position(|yes| !yes) {
        Some(lowest) => refused(6, lowest),
        None => refused(0, 0),
    }
}

/// The nonterminals that derive a row of tokens.
pub fn productive(grammar: &Grammar) -> Vec<bool> {
    settle(grammar, |production| {
        let is_open = |symbol: &&Symbol| matches!(symbol, Symbol::Nonterminal(_));
        production.iter().filter(is_open).count()
    })
}

/// The nonterminals that derive the empty row: a token is an open symbol that never gets settled.
pub fn nullable(grammar: &Grammar) -> Vec<bool> {
    settle(grammar, |production| production.len())
}

/// The least set that holds a nonterminal as soon as one of its productions has no open symbol
/// left; every occurrence of a settled nonterminal is one open symbol less.
fn settle(grammar: &Grammar, open_symbols: fn(&Production) -> usize) -> Vec<bool> {
    let mut owner = Vec::new();
    let mut open = Vec::new();
    let mut occurrences = vec![Vec::new(); grammar.rules.len()];
    for (nonterminal, productions) in grammar.rules.iter().enumerate() {
        for production in productions {
            for symbol in production {
                if let Symbol::Nonterminal(number) = *symbol {
                    occurrences[number].push(open.len());
                }
            }
            owner.push(nonterminal);
            open.push(open_symbols(production));
        }
    }
    let mut settled = vec![false; grammar.rules.len()];
    let mut closed: Vec<usize> = (0..open.len()).filter(|&at| open[at] == 0).collect();
    while let Some(production) = closed.pop() {
        let nonterminal = owner[production];
        if std::mem::replace(&mut settled[nonterminal], true) {
            continue;
        }
        for &at in &occurrences[nonterminal] {
            open[at] -= 1;
            if open[at] == 0 {
                closed.push(at);
            }
        }
    }
    settled
}

/// The nonterminals that one or more left moves lead back to.
pub fn left_recursive(grammar: &Grammar, nullable: &[bool]) -> Vec<bool> {
    let moves = left_moves(grammar, nullable);
    let mut recursive = vec![false; moves.len()];
    for component in Components::of(&moves) {
        let alone = component.len() == 1;
        for &node in &component {
            recursive[node] = !alone || moves[node].contains(&node);
        }
    }
    recursive
}

/// From each nonterminal to those that stand behind only nullable symbols in its productions.
pub fn left_moves(grammar: &Grammar, nullable: &[bool]) -> Vec<Vec<usize>> {
    let targets = |production: &Production| {
        let mut targets = Vec::new();
        for symbol in production {
            let Symbol::Nonterminal(number) = *symbol else {
                break;
            };
            targets.push(number);
            if !nullable[number] {
                break;
            }
        }
        targets
    };
    let of_rule = |rule: &Vec<Production>| rule.iter().flat_map(targets).collect();
    grammar.rules.iter().map(of_rule).collect()
}

/// Tarjan's strongly connected components.
struct Components<'a> {
    moves: &'a [Vec<usize>],
    /// When a node was first visited, and the earliest node on the stack known to be reached from it.
    visit: Vec<Option<usize>>,
    earliest: Vec<usize>,
    visits: usize,
    stack: Vec<usize>,
    is_on_stack: Vec<bool>,
    found: Vec<Vec<usize>>,
}

impl Components<'_> {
    fn of(moves: &[Vec<usize>]) -> Vec<Vec<usize>> {
        let mut search = Components {
            moves,
            visit: vec![None; moves.len()],
            earliest: vec![0; moves.len()],
            visits: 0,
            stack: Vec::new(),
            is_on_stack: vec![false; moves.len()],
            found: Vec::new(),
        };
        for node in 0..moves.len() {
            if search.visit[node].is_none() {
                search.explore(node);
            }
        }
        search.found
    }

    fn explore(&mut self, node: usize) {
        let time = self.visits;
        self.visits += 1;
        self.visit[node] = Some(time);
        self.earliest[node] = time;
        self.stack.push(node);
        self.is_on_stack[node] = true;
        let moves = self.moves;
        for &next in &moves[node] {
            match self.visit[next] {
                None => {
                    self.explore(next);
                    self.earliest[node] = self.earliest[node].min(self.earliest[next]);
                }
                Some(time) if self.is_on_stack[next] => {
                    self.earliest[node] = self.earliest[node].min(time);
                }
                Some(_) => {}
            }
        }
        if self.earliest[node] == time {
            let first = self.stack.iter().position(|&held| held == node).unwrap();
            let component = self.stack.split_off(first);
            for &member in &component {
                self.is_on_stack[member] = false;
            }
            self.found.push(component);
        }
    }
}
