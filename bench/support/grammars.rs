//! Grammars of 255 places that more than one benchmark takes.
#![forbid(unsafe_code)]

use crate::tree::{Grammar, Production, Symbol};

pub fn token(kind: u32) -> Symbol {
    Symbol::Token(kind)
}

pub fn nonterminal(number: usize) -> Symbol {
    Symbol::Nonterminal(number)
}

/// 32 nonterminals and 255 places, in the manner of a language: sequences, lists, options, choices
/// and brackets, each of parts further down, with some lists and brackets leading back up.
pub fn ordinary() -> Grammar {
    let mut rules: Vec<Vec<Production>> = Vec::new();
    for own in 0..32 {
        let part = |further: usize| match own + further {
            number @ 0..=31 => nonterminal(number),
            beyond => token(beyond as u32),
        };
        let (open, close, own_token) = (token(64), token(65), token(1 + own as u32));
        rules.push(match own % 4 {
            // A sequence of parts, or a bracket around an earlier one.
            0 => vec![
                vec![part(1), part(2), part(3), part(4)],
                vec![open, nonterminal(own / 2), close],
            ],
            // A list.
            1 => vec![vec![own_token, part(3), nonterminal(own)], vec![]],
            // An option.
            2 => vec![vec![token(66), part(2), part(5)], vec![part(3)], vec![]],
            // A choice.
            _ => vec![
                vec![own_token, part(1)],
                vec![token(67), own_token],
                vec![token(68)],
            ],
        });
    }
    // More words for the choices, until all places are used.
    let mut grammar = Grammar { kinds: 100, rules };
    let mut kind = 69;
    for own in (3..32).step_by(4).cycle() {
        match 255 - grammar.places() {
            0 => break,
            1 => grammar.rules[own][0].push(token(kind)),
            _ => grammar.rules[own].push(vec![token(kind)]),
        }
        kind += 1;
    }
    grammar
}

/// 31 nonterminals and 255 places; every nonterminal derives every row of token 1 in very many ways.
pub fn dense() -> Grammar {
    let mut rules: Vec<Vec<Production>> = Vec::new();
    for own in 0..31 {
        let other = |further: usize| nonterminal((own + further) % 31);
        rules.push(vec![
            vec![token(1), other(1), other(7)],
            vec![token(1), other(12)],
            vec![],
        ]);
    }
    let more = [nonterminal(3), nonterminal(4)];
    rules[0].push(vec![token(1), more[0], more[1]]);
    rules[0].push(vec![token(1), more[0]]);
    Grammar { kinds: 2, rules }
}

/// 255 places: the first of `order` has the rule `first`, and each other one consists of the seven
/// before it in the order, the one just before it last.  Places left over go to tokens in the last.
pub fn chain(order: &[usize], first: Vec<Production>) -> Grammar {
    let mut rules = vec![Vec::new(); order.len()];
    rules[order[0]] = first;
    for at in 1..order.len() {
        let before = &order[at.saturating_sub(7)..at];
        let farthest = std::iter::repeat(&before[0]).take(7 - before.len());
        let symbols = farthest.chain(before);
        rules[order[at]] = vec![symbols.copied().map(nonterminal).collect()];
    }
    let mut grammar = Grammar { kinds: 1, rules };
    let tokens = vec![token(1); 254 - grammar.places()];
    grammar.rules[order[order.len() - 1]].push(tokens);
    grammar
}
