//! All grammars of two or three nonterminals with very short productions over one token.
#![forbid(unsafe_code)]

use crate::tree::{Grammar, Production, Symbol};

/// Every row of `length` numbers below `choices`.
pub fn each_choice(choices: usize, length: usize, mut visit: impl FnMut(&[usize])) {
    let mut chosen = vec![0; length];
    loop {
        visit(&chosen);
        let Some(at) = chosen.iter().rposition(|&number| number + 1 < choices) else {
            return;
        };
        chosen[at] += 1;
        chosen[at + 1..].fill(0);
    }
}

/// All productions of at most two symbols over one token and some nonterminals.
fn short_productions(nonterminals: usize) -> Vec<Production> {
    let mut symbols = vec![Symbol::Token(1)];
    symbols.extend((0..nonterminals).map(Symbol::Nonterminal));
    let mut productions = vec![Vec::new()];
    for &first in &symbols {
        productions.push(vec![first]);
        productions.extend(symbols.iter().map(|&second| vec![first, second]));
    }
    productions
}

/// Every choice of a rule for each nonterminal.
fn each_of(nonterminals: usize, rules: &[Vec<Production>], mut visit: impl FnMut(&Grammar)) {
    each_choice(rules.len(), nonterminals, |chosen| {
        visit(&Grammar {
            kinds: 1,
            rules: chosen.iter().map(|&at| rules[at].clone()).collect(),
        });
    });
}

pub fn each_grammar(mut visit: impl FnMut(&Grammar)) {
    // Two nonterminals with one or two productions.
    let mut rules = Vec::new();
    for first in short_productions(2) {
        rules.push(vec![first.clone()]);
        for second in short_productions(2) {
            rules.push(vec![first.clone(), second]);
        }
    }
    each_of(2, &rules, &mut visit);
    // Three nonterminals with one production, and with the empty one or a token beside it.
    let mut rules = Vec::new();
    for production in short_productions(3) {
        rules.push(vec![production.clone()]);
        rules.push(vec![production.clone(), Vec::new()]);
        rules.push(vec![production, vec![Symbol::Token(1)]]);
    }
    each_of(3, &rules, &mut visit);
}
