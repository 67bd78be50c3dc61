//! Sound grammars for the tests of the readings, in styles that lean to different difficulties.
#![forbid(unsafe_code)]

use crate::generate;
use crate::random::Random;
use crate::second_checker;
use crate::tree::{Grammar, Production, Symbol};

/// A style: a name for reports, what draws a grammar of it, and how much is drawn.
pub struct Style {
    pub name: &'static str,
    draw: fn(&mut Random) -> Grammar,
    pub grammars: usize,
    /// Notes of each grammar, and the most tokens that most of them have.
    pub notes: usize,
    pub tokens: usize,
}

const fn style(
    name: &'static str,
    draw: fn(&mut Random) -> Grammar,
    grammars: usize,
    notes: usize,
    tokens: usize,
) -> Style {
    Style {
        name,
        draw,
        grammars,
        notes,
        tokens,
    }
}

pub const STYLES: [Style; 14] = [
    style("tiny", tiny, 6_000, 8, 7),
    style("tiny, long notes", tiny, 400, 8, 128),
    style("language", |r| language(r, 14), 1_500, 8, 24),
    style("language, long notes", |r| language(r, 14), 300, 8, 128),
    style("language, all places used", full_language, 250, 8, 128),
    style("small", generate::small_sound, 2_000, 8, 16),
    style("large", generate::large_sound, 200, 8, 128),
    style("all places used", generate::full, 100, 8, 128),
    style("longest bytes", generate::longest, 60, 8, 128),
    style("deep chain", generate::deep_chain, 300, 4, 4),
    style("dense", dense, 100, 6, 128),
    style("many entries", many_entries, 400, 6, 6),
    style("long sentences", long_sentences, 200, 6, 128),
    style("much open", much_open, 80, 8, 128),
];

impl Style {
    /// A sound grammar: drawn again until it is.
    pub fn grammar(&self, random: &mut Random) -> Grammar {
        loop {
            let grammar = (self.draw)(random);
            if second_checker::check(&grammar.encode()).number == 0 {
                return grammar;
            }
        }
    }
}

fn token(kind: usize) -> Symbol {
    Symbol::Token(kind as u32)
}

fn nonterminal(number: usize) -> Symbol {
    Symbol::Nonterminal(number)
}

/// One to three nonterminals, many empty productions, much that is ambiguous.
fn tiny(random: &mut Random) -> Grammar {
    let kinds = random.between(1, 2);
    let count = random.between(1, 3);
    let mut rules = Vec::new();
    for _ in 0..count {
        let mut productions = Vec::new();
        for _ in 0..random.between(1, 4) {
            let length = random.below(4);
            let symbols = (0..length).map(|_| match random.below(2) {
                0 => token(random.between(1, kinds)),
                _ => nonterminal(random.below(count)),
            });
            productions.push(symbols.collect());
        }
        rules.push(productions);
    }
    Grammar {
        kinds: kinds as u32,
        rules,
    }
}

/// Lists, options, choices, operators, brackets, and the `else` that belongs to either `if`.
fn language(random: &mut Random, most: usize) -> Grammar {
    let kinds = random.between(2, 12);
    let count = random.between(2, most);
    let mut rules = Vec::new();
    for own in 0..count {
        let mut word = || token(random.between(1, kinds));
        let (open, between, close) = (word(), word(), word());
        let this = nonterminal(own);
        let mut part = || match own + 1 + random.below(4) {
            number if number < count => nonterminal(number),
            beyond => token(1 + beyond % kinds),
        };
        let (first, second, third) = (part(), part(), part());
        let mut productions: Vec<Production> = match random.below(10) {
            0 => vec![vec![first, this], vec![first]],
            1 => vec![vec![first, between, this], vec![first]],
            2 => vec![vec![open, first, this], vec![]],
            3 => vec![vec![first], vec![]],
            4 => vec![vec![first], vec![second], vec![between, third]],
            5 => vec![vec![first, second, third]],
            6 => vec![
                vec![open, this, close],
                vec![first, between, this],
                vec![first],
            ],
            7 => vec![
                vec![open, this],
                vec![open, this, between, this],
                vec![first],
            ],
            8 => vec![vec![first, second], vec![first], vec![second]],
            _ => vec![
                vec![open, nonterminal(random.below(own + 1)), close],
                vec![first],
            ],
        };
        random.shuffle(&mut productions);
        rules.push(productions);
    }
    Grammar {
        kinds: kinds as u32,
        rules,
    }
}

/// The same with up to 32 nonterminals, and rows of tokens until all places are used.
fn full_language(random: &mut Random) -> Grammar {
    let mut grammar = language(random, 32);
    generate::fill_up(random, &mut grammar, 255);
    grammar
}

/// Nonterminals that derive nearly every row in nearly every way.
fn dense(random: &mut Random) -> Grammar {
    let kinds = random.between(1, 2);
    let count = random.between(1, 31);
    let mut grammar = Grammar {
        kinds: kinds as u32,
        rules: vec![Vec::new(); count],
    };
    for own in 0..count {
        let mut productions = vec![vec![token(random.between(1, kinds))]];
        for _ in 0..random.between(1, 2) {
            let mut production = vec![token(random.between(1, kinds))];
            production.extend((0..random.between(1, 2)).map(|_| nonterminal(random.below(count))));
            productions.push(production);
        }
        if random.chance(20) {
            productions.push(Vec::new());
        }
        random.shuffle(&mut productions);
        grammar.rules[own] = productions;
    }
    grammar
}

/// Each nonterminal is the next one several times: derivations of up to 6^31 entries.
fn many_entries(random: &mut Random) -> Grammar {
    let most = random.pick(&[6, 6, 32]);
    let count = random.between(3, most);
    let mut chain: Vec<usize> = (0..count).collect();
    if random.chance(50) {
        chain[1..].reverse();
    }
    let mut rules = vec![Vec::new(); count];
    for at in 0..count - 1 {
        let next = nonterminal(chain[at + 1]);
        let times = random.pick(&[2, 2, 3, 3, 4, 6]);
        rules[chain[at]].push(vec![next; times]);
        if random.chance(15) {
            rules[chain[at]].insert(random.below(2), vec![token(1)]);
        }
    }
    rules[chain[count - 1]] = match random.below(4) {
        0 | 1 => vec![vec![]],
        2 => vec![vec![], vec![token(1)]],
        _ => vec![vec![token(1)], vec![]],
    };
    Grammar { kinds: 1, rules }
}

/// No sentence has so few tokens as a note may have.
fn long_sentences(random: &mut Random) -> Grammar {
    let times = random.between(3, 6);
    let mut count = 2;
    let mut tokens = times;
    while tokens <= 128 {
        tokens *= times;
        count += 1;
    }
    let mut rules = Vec::new();
    for own in 0..count - 1 {
        rules.push(vec![vec![nonterminal(own + 1); times]]);
    }
    let mut last = vec![vec![token(1)]];
    if random.chance(50) {
        last.push(vec![token(2), token(1)]);
    }
    if random.chance(30) {
        last.push(vec![token(1), token(2)]);
    }
    rules.push(last);
    Grammar { kinds: 2, rules }
}

/// As many nonterminals as there are, one in the other, stay open at every token.
fn much_open(random: &mut Random) -> Grammar {
    let count = random.between(2, 31);
    let behind = nonterminal(count);
    let mut rules = Vec::new();
    for own in 0..count - 1 {
        let mut production = vec![nonterminal(own + 1)];
        if random.chance(30) {
            production.push(behind);
        }
        rules.push(vec![production]);
    }
    let last = vec![token(1), nonterminal(0), behind];
    rules.push(vec![last, vec![token(1)]]);
    random.shuffle(&mut rules[count - 1]);
    rules.push(match random.below(3) {
        0 => vec![vec![]],
        1 => vec![vec![], vec![token(1)]],
        _ => vec![vec![token(2)], vec![]],
    });
    Grammar { kinds: 2, rules }
}
