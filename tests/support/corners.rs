//! Corners of refusals 7 and 6 where a checker easily goes wrong.  The test program counts how often
//! the drawn grammars touch each.
#![forbid(unsafe_code)]

use crate::second_checker::{left_moves, left_recursive, nullable, productive};
use crate::tree::{Grammar, Symbol};

pub const CORNERS: [&str; 14] = [
    "sound with 255 places",
    "sound with a nullable first symbol",
    "sound without an empty production",
    "sound, and all are nullable",
    "sound, with eight moves in a row",
    "left recursive by moves to itself alone",
    "left recursive behind nullable symbols only",
    "lower one leads into a cycle it is not on",
    "left recursive only where the start doesn't lead",
    "eight or more left recursive ones",
    "left recursive, and a lower one unproductive",
    "left recursive, and only higher ones unproductive",
    "left recursive ones productive, another not",
    "lowest unproductive one uses only higher ones",
];

/// Which of the corners a grammar that was read touches.
pub fn touched(grammar: &Grammar) -> [bool; CORNERS.len()] {
    let count = grammar.rules.len();
    let productive = productive(grammar);
    let nullable = nullable(grammar);
    let recursive = left_recursive(grammar, &nullable);
    let obvious = left_recursive(grammar, &vec![false; count]);
    let barren = productive.iter().position(|yes| !yes);
    let cycle = recursive.iter().position(|yes| *yes);
    let sound = barren.is_none() && cycle.is_none();
    let first_nullable = |number: usize| {
        let mut productions = grammar.rules[number].iter();
        productions.any(|production| match production.first() {
            Some(Symbol::Nonterminal(first)) => nullable[*first],
            _ => false,
        })
    };
    let empty = grammar.rules.iter().flatten().any(|production| production.is_empty());
    let longest = longest_way(&left_moves(grammar, &nullable));
    let all_recursive_productive = (0..count).all(|number| !recursive[number] || productive[number]);
    let reached = reached(grammar, 0);
    [
        sound && grammar.places() == 255,
        sound && (0..count).any(first_nullable),
        sound && !empty && count > 4,
        sound && count > 4 && !nullable.contains(&false),
        sound && longest.is_some_and(|moves| moves >= 8),
        cycle.is_some() && longest.is_some(),
        cycle.is_some() && !obvious.contains(&true),
        cycle.is_some_and(|lowest| leads_below(grammar, lowest)),
        cycle.is_some() && (0..count).all(|number| !recursive[number] || !reached[number]),
        recursive.iter().filter(|yes| **yes).count() >= 8,
        cycle.is_some_and(|lowest| barren.is_some_and(|at| at < lowest)),
        cycle.is_some_and(|lowest| barren.is_some_and(|at| at > lowest)),
        cycle.is_some() && barren.is_some() && all_recursive_productive,
        cycle.is_none() && barren.is_some_and(|lowest| only_higher(grammar, lowest)),
    ]
}

/// The most moves that can follow each other, moves of a nonterminal to itself left out; none if the others lead round.
fn longest_way(moves: &[Vec<usize>]) -> Option<usize> {
    let mut longest = vec![0; moves.len()];
    for _ in 0..=moves.len() {
        let behind = |&to: &usize| longest[to] + 1;
        let from = |at: usize| moves[at].iter().filter(move |&&to| to != at);
        let next: Vec<usize> = (0..moves.len())
            .map(|at| from(at).map(behind).max().unwrap_or(0))
            .collect();
        if next == longest {
            return longest.into_iter().max();
        }
        longest = next;
    }
    None
}

/// The nonterminals in the productions of one.
fn used_by(grammar: &Grammar, nonterminal: usize) -> Vec<usize> {
    let symbols = grammar.rules[nonterminal].iter().flatten();
    symbols
        .filter_map(|symbol| match symbol {
            Symbol::Nonterminal(number) => Some(*number),
            Symbol::Token(_) => None,
        })
        .collect()
}

/// What one or more steps into productions lead to.
fn reached_by(grammar: &Grammar, nonterminal: usize) -> Vec<bool> {
    let mut reached = vec![false; grammar.rules.len()];
    let mut open = used_by(grammar, nonterminal);
    while let Some(next) = open.pop() {
        if !std::mem::replace(&mut reached[next], true) {
            open.extend(used_by(grammar, next));
        }
    }
    reached
}

/// Whether the steps into productions lead only to higher ones.
fn only_higher(grammar: &Grammar, nonterminal: usize) -> bool {
    !reached_by(grammar, nonterminal)[..=nonterminal].contains(&true)
}

fn reached(grammar: &Grammar, nonterminal: usize) -> Vec<bool> {
    let mut reached = reached_by(grammar, nonterminal);
    reached[nonterminal] = true;
    reached
}

/// Whether some nonterminal below begins a production with `target`.
fn leads_below(grammar: &Grammar, target: usize) -> bool {
    let productions = grammar.rules[..target].iter().flatten();
    let mut firsts = productions.map(|production| production.first().copied());
    firsts.any(|first| first == Some(Symbol::Nonterminal(target)))
}
