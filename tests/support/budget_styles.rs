//! Grammars for the tests of the budget: those of the readings' tests, those of the benchmarks, and
//! some that lie about the test by which a search is tried at all.
#![forbid(unsafe_code)]

use crate::bench_grammars;
use crate::notes::Source;
use crate::random::Random;
use crate::second_checker;
use crate::styles;
use crate::tree::{from_hex, Grammar, Production, Symbol};

/// A style: a name for reports, what draws a grammar of it, and how many are drawn.
pub struct Style {
    pub name: &'static str,
    draw: Box<dyn Fn(&mut Random) -> Grammar>,
    pub grammars: usize,
    /// How many notes of each are read plainly, and the most tokens that most notes have.
    pub notes: usize,
    pub tokens: usize,
    /// Of 100 notes so many go wrong near their end.
    wrong_late: usize,
}

impl Style {
    /// A sound grammar: drawn again until it is.
    pub fn grammar(&self, random: &mut Random) -> Grammar {
        loop {
            let grammar = (self.draw)(random);
            if second_checker::check(&grammar.encode()).number == 0 {
                return grammar;
            }
        }
    }

    /// A note as the readings' tests draw them, or a sentence that goes wrong only near its end, so
    /// that a search has much to do before.
    pub fn note(&self, source: &Source, random: &mut Random, tokens: usize) -> Vec<u16> {
        if !random.chance(self.wrong_late) {
            return source.note(random, tokens);
        }
        let Some(mut note) = source.sentence(random, tokens) else {
            return source.note(random, tokens);
        };
        let near_end = random.between(1, 2).min(note.len());
        match random.below(4) {
            0 | 1 => note.truncate(note.len() - near_end),
            2 if near_end > 0 => drop(note.remove(note.len() - near_end)),
            _ => note.push(random.pick(&[1, 1, 2, 3])),
        }
        note
    }
}

/// The words of the cells less those of the search, for each position of a note: a search is tried
/// where that is not below 0.
pub fn slack(grammar: &Grammar) -> isize {
    5 * grammar.places() as isize - 7 * grammar.rules.len() as isize - 1
}

/// For how many grammars of the readings' tests there is time: few of those that are read slowly.
fn grammars(style: &styles::Style) -> usize {
    match (style.name, style.tokens) {
        ("tiny, long notes", _) => 150,
        ("language, long notes", _) => 70,
        ("much open", _) => 8,
        (_, 128) => 14,
        (_, 0..=9) => 60,
        _ => 40,
    }
}

pub fn all() -> Vec<Style> {
    type Own = (&'static str, fn(&mut Random) -> Grammar, [usize; 4]);
    let own: [Own; 11] = [
        ("about 7 N + 1 = 5 P", narrow, [120, 2, 24, 20]),
        ("about 7 N + 1 = 5 P, much asked", padded, [140, 2, 24, 20]),
        ("told apart late", late, [200, 1, 32, 80]),
        ("choices in a list", choices, [60, 2, 128, 10]),
        ("nullable chains", nullable_chain, [40, 2, 20, 40]),
        ("delivery", |_| delivery(), [12, 1, 80, 40]),
        ("worst", |_| worst(), [24, 3, 40, 20]),
        ("like worst", like_worst, [60, 3, 24, 40]),
        (
            "ordinary, 255 places",
            |_| bench_grammars::ordinary(),
            [8, 3, 128, 40],
        ),
        (
            "dense, 255 places",
            |_| bench_grammars::dense(),
            [10, 3, 24, 40],
        ),
        ("chains, 255 places", chain, [14, 3, 30, 40]),
    ];
    let own = own.map(
        |(name, draw, [grammars, notes, tokens, wrong_late])| Style {
            name,
            draw: Box::new(draw),
            grammars,
            notes,
            tokens,
            wrong_late,
        },
    );
    let readings: &'static [styles::Style] = &styles::STYLES;
    let drawn = readings.iter().map(|style| Style {
        name: style.name,
        draw: Box::new(move |random| style.grammar(random)),
        grammars: grammars(style),
        notes: 3,
        tokens: style.tokens,
        wrong_late: 30,
    });
    drawn.chain(own).collect()
}

fn token(kind: usize) -> Symbol {
    Symbol::Token(kind as u32)
}

fn nonterminal(number: usize) -> Symbol {
    Symbol::Nonterminal(number)
}

/// The slack is from -7 to 6.  Most nonterminals only derive the empty row; what places are left go to
/// the first few.
fn narrow(random: &mut Random) -> Grammar {
    // Of 2, 7, ... the slack may be 0, of 5, 10, ... it may be -1.
    let any = random.between(1, 32);
    let count = random.pick(&[7, 12, 17, 22, 27, 32, 10, 15, 20, 25, 30, any, any, any]);
    let about = 7 * count + 1;
    let fewest = about.saturating_sub(7).div_ceil(5).max(count);
    let goal = random.between(fewest, (about + 6) / 5);
    let kinds = random.between(1, 2);
    let busy = random.between(1, count.min(4));
    let mut grammar = Grammar {
        kinds: kinds as u32,
        rules: vec![vec![Vec::new()]; count],
    };
    while grammar.places() < goal {
        let own = random.below(busy);
        let productions = &mut grammar.rules[own];
        if random.chance(30) && productions.len() < 16 {
            productions.push(Vec::new());
            continue;
        }
        let nth = random.below(productions.len());
        let production = &mut productions[nth];
        if production.len() == 30 {
            continue;
        }
        production.push(match random.below(3) {
            0 => token(random.between(1, kinds)),
            // Behind a token any, before one only those further down: none is left recursive.
            1 if matches!(production.first(), Some(Symbol::Token(_))) => {
                nonterminal(random.below(busy))
            }
            _ if own + 1 < count => nonterminal(random.between(own + 1, count - 1)),
            _ => token(random.between(1, kinds)),
        });
    }
    grammar
}

/// The slack is about 0, and yet the search has much to do: a small grammar, and beside it
/// nonterminals that it never uses.
fn padded(random: &mut Random) -> Grammar {
    loop {
        let mut grammar = match random.below(2) {
            0 => styles::STYLES[0].grammar(random),
            _ => like_worst(random),
        };
        let count = grammar.rules.len();
        // Each nonterminal more takes 2 of the slack.
        let more = (slack(&grammar) + 2 - random.below(4) as isize) / 2;
        if !(0..=32 - count as isize).contains(&more) {
            continue;
        }
        for _ in 0..more {
            // The start keeps its number.
            let own = random.between(1, grammar.rules.len());
            grammar.rules.insert(own, vec![Vec::new()]);
            for symbol in grammar.rules.iter_mut().flatten().flatten() {
                if let Symbol::Nonterminal(number) = symbol {
                    *number += usize::from(*number >= own);
                }
            }
        }
        return grammar;
    }
}

/// Each nonterminal is the next ones, some of them behind a token, or nothing.
fn nullable_chain(random: &mut Random) -> Grammar {
    let count = random.between(2, 32);
    let kinds = random.between(1, 4);
    let mut rules = Vec::new();
    for own in 0..count {
        let mut further = || match own + 1 + random.below(3) {
            number if number < count => nonterminal(number),
            _ => token(1 + own % kinds),
        };
        let (first, second, third) = (further(), further(), further());
        let word = token(random.between(1, kinds));
        let mut productions = match random.below(4) {
            0 => vec![vec![word, first], vec![first], vec![]],
            1 => vec![vec![first, second], vec![]],
            2 => vec![
                vec![word, nonterminal(own)],
                vec![first, second, third],
                vec![],
            ],
            _ => vec![vec![first, second], vec![word, third]],
        };
        random.shuffle(&mut productions);
        rules.push(productions);
    }
    rules[count - 1].push(Vec::new());
    Grammar {
        kinds: kinds as u32,
        rules,
    }
}

/// A list of items of two sorts, with many alternatives that all begin alike, each with a nonterminal
/// of its own.  A prediction tells them apart by one token more and need not be FULL, but a search
/// tries all of them each time and soon has spent the library's own budget.
fn late(random: &mut Random) -> Grammar {
    let alternatives = random.between(11, 14);
    // Kind 1 stands first, 3 last, and each alternative has one of its own between.
    let close = vec![token(3); random.between(1, 2)];
    let mut sort = |from: usize| {
        let mut items: Vec<Production> = (from..from + alternatives)
            .map(|nth| [&[nonterminal(3 + nth), token(4 + nth)], &close[..]].concat())
            .collect();
        random.shuffle(&mut items);
        items
    };
    let (ones, others) = (sort(0), sort(alternatives));
    let (list, one, other) = (nonterminal(0), nonterminal(1), nonterminal(2));
    let lists = match random.below(5) {
        0..=2 => vec![vec![one, list], vec![other, list], vec![]],
        3 => vec![
            vec![one, token(3), list],
            vec![other, token(3), list],
            vec![one],
        ],
        _ => vec![vec![one, other, list], vec![other, list], vec![token(3)]],
    };
    let mut rules = vec![lists, ones, others];
    for _ in 0..2 * alternatives {
        rules.push(match random.below(6) {
            0 => vec![vec![token(1)], vec![token(2)]],
            _ => vec![vec![token(1)]],
        });
    }
    Grammar {
        kinds: 3 + 2 * alternatives as u32,
        rules,
    }
}

/// A long list of items that can each be read in a few ways: judging it costs little for each token,
/// and so does every choice, since the stack has to be gone down for it.
fn choices(random: &mut Random) -> Grammar {
    let (list, item, inner) = (nonterminal(0), nonterminal(1), nonterminal(2));
    let mut lists = vec![vec![item, token(3), list], vec![]];
    let mut items = vec![vec![inner], vec![inner, token(2)]];
    let mut inners = vec![vec![token(1)], vec![token(1), token(2)]];
    if random.chance(40) {
        items.push(vec![inner, token(2), token(2)]);
    }
    if random.chance(40) {
        inners.push(vec![token(2), token(1)]);
    }
    for productions in [&mut lists, &mut items, &mut inners] {
        random.shuffle(productions);
    }
    Grammar {
        kinds: 3,
        rules: vec![lists, items, inners],
    }
}

/// The delivery notes of the benchmarks, and their worst case.
fn delivery() -> Grammar {
    from_bytes(include_str!("../../bench/cases/delivery.hex"))
}

fn worst() -> Grammar {
    from_bytes(include_str!("../../bench/cases/worst.hex"))
}

fn from_bytes(hex: &str) -> Grammar {
    second_checker::read(&from_hex(hex)).expect("a sound grammar")
}

/// The worst case in another order, with tokens that make a note go wrong, and with something behind it.
fn like_worst(random: &mut Random) -> Grammar {
    let mut grammar = worst();
    grammar.kinds = 2;
    random.shuffle(&mut grammar.rules[1]);
    if random.chance(50) {
        grammar.rules[0][0].push(token(2));
    }
    if random.chance(50) {
        grammar.rules[0].push(vec![nonterminal(1), token(2), nonterminal(1)]);
    }
    if random.chance(30) {
        grammar.rules[1].push(vec![token(1), token(2), nonterminal(1)]);
    }
    grammar
}

/// Each nonterminal is seven others, down to one that is empty, a token or either.
fn chain(random: &mut Random) -> Grammar {
    // With fewer the tokens of the last would be too many for a production.
    let count = random.between(29, 32);
    let mut order: Vec<usize> = (0..count).collect();
    match random.below(3) {
        0 => order.reverse(),
        1 => order[..count - 1].reverse(),
        _ => random.shuffle(&mut order),
    }
    let first = match random.below(4) {
        0 => vec![vec![]],
        1 => vec![vec![token(1)]],
        2 => vec![vec![], vec![token(1)]],
        _ => vec![vec![token(1)], vec![]],
    };
    bench_grammars::chain(&order, first)
}
