//! Grammars that lead just up to the limits of what the cache learns, or just beyond.
#![forbid(unsafe_code)]

use crate::random::Random;
use crate::tree::{Grammar, Symbol};

fn token(kind: usize) -> Symbol {
    Symbol::Token(kind as u32)
}

fn nonterminal(number: usize) -> Symbol {
    Symbol::Nonterminal(number)
}

/// Nonterminal 0 is `times` times in a row nonterminal 1, or one of `others` tokens from 2 on; and
/// nonterminal 1 is `empties` times empty.  The start of 0 closes to `members` members:
/// - before and behind each 1, with an empty stack: times + 1;
/// - at the end of each production of 1, with each return place: times * empties;
/// - before the end mark, and before the other tokens: 1 + others, which are kept.
///
/// With a token 1 before all, the step over it does.
pub fn many_members(times: usize, empties: usize, others: usize, guarded: bool) -> Grammar {
    let guard = vec![token(1); usize::from(guarded)];
    let mut rule = vec![[&guard[..], &vec![nonterminal(1); times]].concat()];
    rule.extend((0..others).map(|nth| [&guard[..], &[token(2 + nth)]].concat()));
    Grammar {
        kinds: 1 + others as u32,
        rules: vec![rule, vec![Vec::new(); empties]],
    }
}

pub fn members(times: usize, empties: usize, others: usize) -> usize {
    times * (empties + 1) + 2 + others
}

/// Nonterminal 0 is 1, or token 2; each nonterminal behind it is the next one, and the last, which is
/// entered over `entries` return places, is token 1 or empty.
pub fn deep(entries: usize, is_empty: bool) -> Grammar {
    let mut rules = vec![vec![vec![nonterminal(1)], vec![token(2)]]];
    rules.extend((2..=entries).map(|next| vec![vec![nonterminal(next)]]));
    rules.push(vec![vec![token(1); usize::from(!is_empty)]]);
    Grammar { kinds: 2, rules }
}

/// Nonterminal 0 is 1 and then token 3 or 4; 1 is token 1 and itself again, or token 2.  Each token 1
/// is one return place more.
pub fn right_recursive() -> Grammar {
    let again = vec![token(1), nonterminal(1)];
    let ends = [3, 4].map(|kind| vec![nonterminal(1), token(kind)]);
    Grammar {
        kinds: 4,
        rules: vec![ends.to_vec(), vec![again, vec![token(2)]]],
    }
}

/// Nonterminal 0 is 1; 1 is one of `parts` times a 2 with a token behind it, or one of `others`
/// tokens; 2 is one of `words` tokens.  The starts of 0 and 1 keep parts * words + others
/// configurations: that of 0 for its one alternative, that of 1 for all its own.
pub fn many_kept(words: usize, parts: usize, others: usize) -> Grammar {
    let part = |nth: usize| vec![nonterminal(2), token(1 + nth)];
    let other = |nth: usize| vec![token(1 + nth)];
    Grammar {
        kinds: 20,
        rules: vec![
            vec![vec![nonterminal(1)]],
            (0..parts).map(part).chain((0..others).map(other)).collect(),
            (0..words).map(|nth| vec![token(1 + nth)]).collect(),
        ],
    }
}

/// Nonterminal 0 is 1 and then token 6 or 7; 1 is token 5, or one of the tokens 1 to 4 and itself and
/// token 5.  Each row of up to six tokens 1 to 4 is a state of its own, and they are thousands.
pub fn many_states() -> Grammar {
    let mut inner = vec![vec![token(5)]];
    inner.extend((1..=4).map(|kind| vec![token(kind), nonterminal(1), token(5)]));
    let ends = [6, 7].map(|kind| vec![nonterminal(1), token(kind)]);
    Grammar {
        kinds: 7,
        rules: vec![ends.to_vec(), inner],
    }
}

/// Each nonterminal is the next one, with a token 2 behind it or not; the last is token 1, in the same
/// two ways.  G1 has two of them.  Decisions hold the same configurations as others do.
pub fn like_g1(nonterminals: usize) -> Grammar {
    let rule = |own: usize| {
        let next = match own + 1 {
            number if number < nonterminals => nonterminal(number),
            _ => token(1),
        };
        vec![vec![next], vec![next, token(2)]]
    };
    Grammar {
        kinds: 2,
        rules: (0..nonterminals).map(rule).collect(),
    }
}

/// Nonterminal 0 is 2 or 3; 1 is token 1, with token 2 behind it or not; 2 is 1 and token 2, or a
/// bracket of tokens 4 and 3 around itself; 3 is 1, or a bracket of tokens 5 and 3 around itself.
/// Which of its productions 1 is cannot be told from closing brackets: steps over them lead back to
/// the same state.
pub fn loops() -> Grammar {
    let guarded = |open: usize, inner: usize| vec![token(open), nonterminal(inner), token(3)];
    Grammar {
        kinds: 5,
        rules: vec![
            vec![vec![nonterminal(2)], vec![nonterminal(3)]],
            vec![vec![token(1)], vec![token(1), token(2)]],
            vec![vec![nonterminal(1), token(2)], guarded(4, 2)],
            vec![vec![nonterminal(1)], guarded(5, 3)],
        ],
    }
}

/// 252 to 260 members.
pub fn draw_members(random: &mut Random) -> Grammar {
    loop {
        let (times, empties) = (random.between(12, 29), random.between(5, 16));
        let others = random.between(1, 12);
        if (252..=260).contains(&members(times, empties, others)) {
            return many_members(times, empties, others, random.chance(50));
        }
    }
}

/// 7 to 10 entries.
pub fn draw_deep(random: &mut Random) -> Grammar {
    let mut grammar = deep(random.between(7, 10), random.chance(50));
    // Some of the chain have more before or behind the next one.
    for own in 1..grammar.rules.len() - 1 {
        if random.chance(20) {
            grammar.rules[own].push(vec![token(random.between(1, 2))]);
        }
        if random.chance(20) {
            let last = grammar.rules.len() - 1;
            grammar.rules[own][0].push(nonterminal(last));
        }
    }
    grammar
}

/// 7 to 10 entries after some steps.
pub fn draw_recursive(random: &mut Random) -> Grammar {
    let mut grammar = right_recursive();
    if random.chance(50) {
        grammar.rules[1][0].push(token(random.between(1, 4)));
    }
    if random.chance(50) {
        grammar.rules[1].push(vec![token(2), nonterminal(1), token(1)]);
    }
    for productions in &mut grammar.rules {
        random.shuffle(productions);
    }
    grammar
}

/// 62 to 67 kept.
pub fn draw_kept(random: &mut Random) -> Grammar {
    loop {
        let (words, parts) = (random.between(4, 16), random.between(1, 14));
        let others = random.between(0, 16 - parts);
        if (62..=67).contains(&(parts * words + others)) {
            let mut grammar = many_kept(words, parts, others);
            random.shuffle(&mut grammar.rules[1]);
            if random.chance(50) {
                // The same behind a token.
                grammar.rules[0] = vec![vec![token(1), nonterminal(1)], vec![token(2)]];
                grammar.rules[1] = (grammar.rules[1].iter())
                    .map(|production| [&[token(1)], &production[..]].concat())
                    .collect();
            }
            return grammar;
        }
    }
}

pub fn draw_like_g1(random: &mut Random) -> Grammar {
    let mut grammar = like_g1(random.between(2, 6));
    for productions in &mut grammar.rules {
        if random.chance(20) {
            let longer = [&productions[1][..], &[token(random.between(1, 2))]].concat();
            productions.push(longer);
        }
        random.shuffle(productions);
    }
    grammar
}

pub fn draw_loops(random: &mut Random) -> Grammar {
    let mut grammar = loops();
    if random.chance(30) {
        grammar.rules[0].push(vec![nonterminal(1), token(random.between(1, 5))]);
    }
    if random.chance(30) {
        grammar.rules[1].push(vec![token(1), token(2), token(random.between(1, 5))]);
    }
    for productions in &mut grammar.rules {
        random.shuffle(productions);
    }
    grammar
}
