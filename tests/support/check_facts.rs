//! What the ways of the check (`check_ways.rs`) are told by, worked out from a grammar's tree by
//! plain means: what stands first in productions, in which turn a nonterminal is found to vanish or
//! to derive a row of tokens, where moves lead and when they end, and what refusal 7 hinges on.
#![forbid(unsafe_code)]

use crate::tree::{Grammar, Production, Symbol};
use allstar::calls::Verdict;
use std::cell::OnceCell;

/// The library looks at the nonterminals in so many passes, from the last to the first and each by
/// what is known by then, before it turns to rounds, each by what was known before the round.
pub const PASSES: usize = 2;

/// When each nonterminal is found, if ever: in turn 0 if it is known before, then in the passes,
/// from turn 3 on in the rounds.
type Turns = Vec<Option<usize>>;

/// For each nonterminal some others, sorted.
type Rows = Vec<Vec<usize>>;

pub struct Facts<'a> {
    pub grammar: &'a Grammar,
    /// What stands first in productions.
    pub firsts: Rows,
    /// Those that vanish, that is derive the empty row; known are those with an empty production.
    pub vanishes: Turns,
    /// Those that derive a row of tokens; known are those that vanish.
    pub derives: Turns,
    /// Where one move leads.
    pub moves: Rows,
    /// Whether a first symbol vanishes, so that the productions must be walked for moves.
    pub walked: Vec<bool>,
    /// Whether moves lead to more than what stands first.
    pub widened: Vec<bool>,
    /// When moves are found to end: in turn 0 if there are none, in turn 1 by the pass that widens the
    /// rows, from turn 2 on in the rounds.
    pub ends: Turns,
    /// Whether moves lead back.
    pub recursive: Vec<bool>,
    /// What `hinges` answered.
    hinges: Vec<OnceCell<bool>>,
}

impl Facts<'_> {
    pub fn of(grammar: &Grammar) -> Facts<'_> {
        let is_empty = |rule: &Vec<Production>| rule.iter().any(Vec::is_empty);
        let empty = grammar.rules.iter().map(|rule| is_empty(rule).then_some(0));
        let vanishes = turns(grammar, empty.collect(), false);
        let known = vanishes.iter().map(|turn| turn.map(|_| 0));
        let derives = turns(grammar, known.collect(), true);
        let firsts = all_moves(grammar, &vec![None; grammar.rules.len()]);
        let moves = all_moves(grammar, &vanishes);
        let vanishing = |row: &Vec<usize>| row.iter().any(|&b| vanishes[b].is_some());
        let each = 0..moves.len();
        Facts {
            grammar,
            walked: firsts.iter().map(vanishing).collect(),
            widened: each.clone().map(|a| moves[a] != firsts[a]).collect(),
            ends: ends(&moves),
            recursive: each.map(|a| leads(&moves, a, a)).collect(),
            hinges: vec![OnceCell::new(); moves.len()],
            firsts,
            vanishes,
            derives,
            moves,
        }
    }

    /// The answer that follows.
    pub fn verdict(&self) -> Verdict {
        let (number, at) = match (self.lowest_recursive(), self.lowest_barren()) {
            (Some(lowest), _) => (7, lowest),
            (None, Some(lowest)) => (6, lowest),
            (None, None) => (0, 0),
        };
        let place = at as u64;
        Verdict { number, place }
    }

    pub fn lowest_recursive(&self) -> Option<usize> {
        self.recursive.iter().position(|yes| *yes)
    }

    pub fn lowest_barren(&self) -> Option<usize> {
        self.derives.iter().position(Option::is_none)
    }

    pub fn count(&self) -> usize {
        self.grammar.rules.len()
    }

    pub fn productions(&self) -> impl Iterator<Item = &Production> {
        self.grammar.rules.iter().flatten()
    }

    pub fn any(&self, holds: impl Fn(usize) -> bool) -> bool {
        (0..self.count()).any(holds)
    }

    /// The only nonterminal of which it holds.
    pub fn only(&self, holds: impl Fn(usize) -> bool) -> Option<usize> {
        let mut all = (0..self.count()).filter(|&a| holds(a));
        all.next().filter(|_| all.next().is_none())
    }

    pub fn is_nullable(&self, a: usize) -> bool {
        self.vanishes[a].is_some()
    }

    pub fn is_empty(&self, a: usize) -> bool {
        self.vanishes[a] == Some(0)
    }

    pub fn is_led(&self, a: usize) -> bool {
        !self.firsts[a].is_empty()
    }

    pub fn some_empty(&self) -> bool {
        self.any(|a| self.is_empty(a))
    }

    pub fn some_led(&self) -> bool {
        self.any(|a| self.is_led(a))
    }

    /// Whether the row of a is widened by b.
    pub fn adds(&self, a: usize, b: usize) -> bool {
        self.widened[a] && self.moves[a].contains(&b) && !self.firsts[a].contains(&b)
    }

    pub fn is_own(&self, a: usize) -> bool {
        self.moves[a].contains(&a)
    }

    /// Whether moves lead round through more than one.
    pub fn some_round(&self) -> bool {
        self.ends.contains(&None)
    }

    /// Whether what stands first leads back.
    pub fn is_obvious(&self) -> bool {
        self.any(|a| leads(&self.firsts, a, a))
    }

    /// Whether moves lead from a to b and back.
    pub fn are_on_a_round(&self, a: usize, b: usize) -> bool {
        leads(&self.moves, a, b) && leads(&self.moves, b, a)
    }

    /// Whether moves lead round only through those that lead to themselves too.
    pub fn rounds_have_own(&self) -> bool {
        let row = |a: usize| self.moves[a].iter().filter(move |_| !self.is_own(a));
        let others: Rows = (0..self.count())
            .map(|a| row(a).copied().collect())
            .collect();
        !ends(&others).contains(&None)
    }

    /// Whether moves would lead back if every nonterminal vanished, and do not.
    pub fn nearly_recursive(&self) -> bool {
        let moves = || all_moves(self.grammar, &vec![Some(0); self.count()]);
        self.lowest_recursive().is_none() && self.would_be_refused_otherwise(&moves())
    }

    /// Whether 7 comes up or not, or at another place, if these are the moves.
    fn would_be_refused_otherwise(&self, moves: &Rows) -> bool {
        let lowest = || (0..moves.len()).find(|&a| leads(moves, a, a));
        *moves != self.moves && lowest() != self.lowest_recursive()
    }

    /// The same if a does not vanish though it does, or the other way round.
    pub fn hinges(&self, a: usize) -> bool {
        *self.hinges[a].get_or_init(|| {
            let mut vanishes = self.vanishes.clone();
            vanishes[a] = vanishes[a].xor(Some(0));
            self.would_be_refused_otherwise(&all_moves(self.grammar, &vanishes))
        })
    }

    /// The same if this is the row of a.
    pub fn hinges_on_row(&self, a: usize, row: Vec<usize>) -> bool {
        let mut moves = self.moves.clone();
        moves[a] = row;
        self.would_be_refused_otherwise(&moves)
    }

    fn found(&self, tokens: bool) -> &Turns {
        match tokens {
            true => &self.derives,
            false => &self.vanishes,
        }
    }

    /// The only production by which a derives a row of tokens, or vanishes, without a itself.
    fn only_passing(&self, a: usize, tokens: bool) -> Option<usize> {
        let itself = Symbol::Nonterminal(a);
        let passing =
            |p: &Production| !p.contains(&itself) && passes(p, self.found(tokens), tokens);
        let rule = self.grammar.rules[a].iter().enumerate();
        let mut passing = rule.filter(|(_, production)| passing(production));
        let only = passing.next().map(|(at, _)| at);
        only.filter(|_| passing.next().is_none())
    }

    /// Whether that has 30 symbols.
    pub fn by_thirty(&self, a: usize, tokens: bool) -> bool {
        let is_long = |p: &Production| p.len() == 30;
        let rule = &self.grammar.rules[a];
        let only = || self.only_passing(a, tokens);
        rule.iter().any(is_long) && only().is_some_and(|at| is_long(&rule[at]))
    }

    /// Whether that is the sixteenth.
    pub fn by_sixteenth(&self, a: usize, tokens: bool) -> bool {
        self.grammar.rules[a].len() == 16 && self.only_passing(a, tokens) == Some(15)
    }

    /// Whether a does neither, but for the last symbol of a production of 30.
    pub fn but_for_thirtieth(&self, a: usize, tokens: bool) -> bool {
        let found = self.found(tokens);
        let mut rule = self.grammar.rules[a].iter();
        found[a].is_none() && rule.any(|p| p.len() == 30 && passes(&p[..29], found, tokens))
    }

    /// Whether a does not vanish, but for tokens.
    pub fn but_for_tokens(&self, a: usize) -> bool {
        let mut rule = self.grammar.rules[a].iter();
        let nearly = |p: &Production| nonterminals(p).all(|b| self.is_nullable(b));
        self.walked[a] && !self.is_nullable(a) && rule.any(nearly)
    }

    /// Whether a production of a is walked to its end.
    pub fn is_walked_to_end(&self, a: usize) -> bool {
        let mut rule = self.grammar.rules[a].iter();
        self.walked[a] && rule.any(|p| !p.is_empty() && passes(p, &self.vanishes, false))
    }

    /// The row of a if the last symbols of productions of 30 are not seen.
    pub fn without_thirtieth(&self, a: usize) -> Vec<usize> {
        let rule = self.grammar.rules[a].iter();
        moves_of(rule.map(|p| &p[..p.len().min(29)]), &self.vanishes)
    }

    /// The row of a if a sixteenth production is not seen.
    pub fn without_sixteenth(&self, a: usize) -> Vec<usize> {
        let rule = self.grammar.rules[a].iter().take(15);
        moves_of(rule.map(Vec::as_slice), &self.vanishes)
    }

    /// Whether only the sixteenth production begins with a symbol that vanishes.
    pub fn is_walked_for_sixteenth(&self, a: usize) -> bool {
        let rule = &self.grammar.rules[a];
        let vanishing =
            |p: &Production| nonterminals(p.get(..1).unwrap_or(&[])).any(|b| self.is_nullable(b));
        rule.len() == 16 && vanishing(&rule[15]) && !rule[..15].iter().any(vanishing)
    }

    /// Whether a walk stops, at once or behind what vanishes, at a token or at a nonterminal, before
    /// a nonterminal that no move leads to.
    pub fn stops(&self, a: usize, at_once: bool, at_token: bool) -> bool {
        let mut rule = self.grammar.rules[a].iter();
        let vanishing = |symbol: &Symbol| passes(&[*symbol], &self.vanishes, false);
        let stops_in = |production: &Production| {
            let Some(stop) = production.iter().position(|symbol| !vanishing(symbol)) else {
                return false;
            };
            (stop == 0) == at_once
                && matches!(production[stop], Symbol::Token(_)) == at_token
                && nonterminals(&production[stop + 1..]).any(|b| !self.moves[a].contains(&b))
        };
        self.walked[a] && rule.any(stops_in)
    }
}

/// The last turn in which one is found.
pub fn last(turns: &Turns) -> Option<usize> {
    turns.iter().copied().max().flatten()
}

fn nonterminals(row: &[Symbol]) -> impl Iterator<Item = usize> + '_ {
    row.iter().filter_map(|symbol| match *symbol {
        Symbol::Nonterminal(b) => Some(b),
        Symbol::Token(_) => None,
    })
}

fn passes(production: &[Symbol], found: &Turns, tokens: bool) -> bool {
    production.iter().all(|symbol| match *symbol {
        Symbol::Token(_) => tokens,
        Symbol::Nonterminal(b) => found[b].is_some(),
    })
}

/// The turn in which each nonterminal is found to have a production that passes.
fn turns(grammar: &Grammar, known: Turns, tokens: bool) -> Turns {
    let mut found = known;
    for turn in 1.. {
        let before = found.clone();
        for a in (0..found.len()).rev() {
            let by_then = if turn > PASSES { &before } else { &found };
            let mut rule = grammar.rules[a].iter();
            if found[a].is_none() && rule.any(|production| passes(production, by_then, tokens)) {
                found[a] = Some(turn);
            }
        }
        if found == before {
            break;
        }
    }
    found
}

/// Where one move leads by some productions.
fn moves_of<'a>(rule: impl Iterator<Item = &'a [Symbol]>, vanishes: &Turns) -> Vec<usize> {
    let mut moves = Vec::new();
    for production in rule {
        for symbol in production {
            let Symbol::Nonterminal(b) = *symbol else {
                break;
            };
            moves.push(b);
            if vanishes[b].is_none() {
                break;
            }
        }
    }
    moves.sort();
    moves.dedup();
    moves
}

fn all_moves(grammar: &Grammar, vanishes: &Turns) -> Rows {
    let row = |rule: &Vec<Production>| moves_of(rule.iter().map(Vec::as_slice), vanishes);
    grammar.rules.iter().map(row).collect()
}

/// The turn in which the moves from each nonterminal are found to end: all lead to where they were
/// found to by then in the pass, from the last nonterminal to the first; in a round all lead to
/// itself, or to where they were found to before the round.
fn ends(moves: &Rows) -> Turns {
    let no_move = |row: &Vec<usize>| row.is_empty().then_some(0);
    let mut ends: Turns = moves.iter().map(no_move).collect();
    for turn in 1.. {
        let before = ends.clone();
        let in_pass = turn == 1;
        for a in (0..moves.len()).rev() {
            let by_then = if in_pass { &ends } else { &before };
            let ended = |&b: &usize| by_then[b].is_some() || !in_pass && b == a;
            if ends[a].is_none() && moves[a].iter().all(ended) {
                ends[a] = Some(turn);
            }
        }
        if !in_pass && ends == before {
            break;
        }
    }
    ends
}

/// Whether one or more moves lead from a to b.
fn leads(moves: &Rows, a: usize, b: usize) -> bool {
    let mut reached = vec![false; moves.len()];
    let mut open = vec![a];
    while let Some(from) = open.pop() {
        for &to in &moves[from] {
            if !std::mem::replace(&mut reached[to], true) {
                open.push(to);
            }
        }
    }
    reached[b]
}
