//! Grammars for the tests, as bytes: families to draw cases from, and fixed lists of odd inputs.
//! A family leans to one kind of answer and need not keep to it: the second checker says what a
//! case is, and the test program counts whether every answer came up often enough.
#![forbid(unsafe_code)]

use crate::random::Random;
use crate::tree::{encode, write_shortest, Grammar, Production, Symbol};

const MOST_PRODUCTIONS: usize = 16;
const MOST_SYMBOLS: usize = 30;
const MOST_PLACES: usize = 255;

/// A name for reports, and what draws one case.
pub type Family = (&'static str, fn(&mut Random) -> Vec<u8>);

pub const FAMILIES: [Family; 23] = [
    ("small, anything", |r| small(r).encode()),
    ("large, anything", |r| large(r).encode()),
    ("small, sound", |r| small_sound(r).encode()),
    ("large, sound", |r| large_sound(r).encode()),
    ("all places used", |r| full(r).encode()),
    ("longest bytes", |r| longest(r).encode()),
    ("at the limits", |r| at_the_limits(r).encode()),
    ("unproductive", |r| unproductive(r).encode()),
    ("direct recursion", |r| direct_recursion(r).encode()),
    ("hidden recursion", |r| hidden_recursion(r).encode()),
    ("long cycle", |r| long_cycle(r).encode()),
    ("long cycle, hidden", |r| long_hidden_cycle(r).encode()),
    ("cycle out of reach", |r| cycle_out_of_reach(r).encode()),
    ("deep chain", |r| deep_chain(r).encode()),
    ("one number replaced", one_number_replaced),
    ("one number overlong", one_number_overlong),
    ("damaged", damaged),
    ("truncated", truncated),
    ("bytes appended", bytes_appended),
    ("random bytes", random_bytes),
    ("random small bytes", random_small_bytes),
    ("random numbers", random_numbers),
    ("barren behind tokens", |r| barren(r).encode()),
];

// Trees.

/// How large a grammar may be drawn.
struct Size {
    kinds: u32,
    nonterminals: usize,
    productions: usize,
    symbols: usize,
    places: usize,
}

impl Size {
    fn small(random: &mut Random) -> Size {
        Size {
            kinds: random.between(1, 4) as u32,
            nonterminals: random.between(1, 6),
            productions: 3,
            symbols: 4,
            places: 150,
        }
    }

    fn large(random: &mut Random) -> Size {
        Size {
            // Tokens from 64 on take two bytes.
            kinds: random.pick(&[1, 2, 17, 63, 64, 65, 99, 100]),
            nonterminals: random.between(8, 32),
            productions: random.between(1, 6),
            symbols: MOST_SYMBOLS,
            places: random.between(150, MOST_PLACES),
        }
    }

    fn any(random: &mut Random) -> Size {
        if random.chance(50) {
            Size::small(random)
        } else {
            Size::large(random)
        }
    }
}

/// A grammar that is being drawn, and what is known to derive the empty row in it.
struct Draft {
    grammar: Grammar,
    nullable: Vec<bool>,
}

impl Draft {
    fn nonterminals(&self) -> usize {
        self.grammar.rules.len()
    }

    fn token(&self, random: &mut Random) -> Symbol {
        Symbol::Token(random.between(1, self.grammar.kinds as usize) as u32)
    }

    fn symbol(&self, random: &mut Random) -> Symbol {
        if random.chance(50) {
            self.token(random)
        } else {
            Symbol::Nonterminal(random.below(self.nonterminals()))
        }
    }

    fn is_nullable(&self, symbol: Symbol) -> bool {
        match symbol {
            Symbol::Token(_) => false,
            Symbol::Nonterminal(number) => self.nullable[number],
        }
    }

    /// Adds a production as an alternative anywhere, if the limits leave room for it.
    fn add(&mut self, random: &mut Random, nonterminal: usize, production: Production) {
        let places = self.grammar.places() + production.len() + 1;
        let productions = &mut self.grammar.rules[nonterminal];
        if productions.len() < MOST_PRODUCTIONS
            && production.len() <= MOST_SYMBOLS
            && places <= MOST_PLACES
        {
            let at = random.between(0, productions.len());
            productions.insert(at, production);
        }
    }

    /// The nonterminals that derive the empty row; one is made to if there are none.
    fn some_nullable(&mut self, random: &mut Random) -> Vec<usize> {
        if !self.nullable.contains(&true) {
            let chosen = random.below(self.nonterminals());
            self.add(random, chosen, Vec::new());
            self.nullable[chosen] = true;
        }
        let all = 0..self.nonterminals();
        all.filter(|&number| self.nullable[number]).collect()
    }

    /// Some nonterminals, at least `least` of them if there are as many, in any order.
    fn some_of(&self, random: &mut Random, least: usize) -> Vec<usize> {
        let mut chosen: Vec<usize> = (0..self.nonterminals()).collect();
        random.shuffle(&mut chosen);
        let least = least.min(chosen.len());
        chosen.truncate(random.between(least, chosen.len()));
        chosen
    }

    /// Gives each member a production that leads to the next member by a left move, the last to the
    /// first.  In `hidden` percent of them nullable symbols stand before it.
    fn add_cycle(&mut self, random: &mut Random, members: &[usize], hidden: usize) {
        let empty = self.some_nullable(random);
        for (at, &member) in members.iter().enumerate() {
            let mut production = Vec::new();
            if random.chance(hidden) {
                for _ in 0..random.between(1, 3) {
                    production.push(Symbol::Nonterminal(random.pick(&empty)));
                }
            }
            // Now and then a token stands in the way: nearly a cycle, but none.
            if random.chance(3) {
                production.push(self.token(random));
            }
            production.push(Symbol::Nonterminal(members[(at + 1) % members.len()]));
            for _ in 0..random.between(0, 2) {
                production.push(self.symbol(random));
            }
            self.add(random, member, production);
        }
    }

    /// Renames the nonterminals other than the start.
    fn rename(&mut self, random: &mut Random) {
        let mut names: Vec<usize> = (0..self.nonterminals()).collect();
        random.shuffle(&mut names[1..]);
        let mut rules = vec![Vec::new(); names.len()];
        for (old, productions) in self.grammar.rules.drain(..).enumerate() {
            rules[names[old]] = productions;
        }
        for symbol in rules.iter_mut().flatten().flatten() {
            if let Symbol::Nonterminal(number) = symbol {
                *number = names[*number];
            }
        }
        self.grammar.rules = rules;
    }
}

/// Mostly short, so that there are many productions, and sometimes as long as allowed.
fn length(random: &mut Random, most: usize) -> usize {
    if random.chance(8) {
        random.between(0, most)
    } else {
        random.between(0, most.min(4))
    }
}

/// Symbols without any plan.
fn anything(random: &mut Random, size: &Size) -> Grammar {
    let mut draft = Draft {
        grammar: Grammar {
            kinds: size.kinds,
            rules: vec![Vec::new(); size.nonterminals],
        },
        nullable: vec![false; size.nonterminals],
    };
    for nonterminal in 0..size.nonterminals {
        for _ in 0..random.between(1, size.productions) {
            let length = length(random, size.symbols);
            let production = (0..length).map(|_| draft.symbol(random)).collect();
            draft.grammar.rules[nonterminal].push(production);
        }
    }
    draft.grammar
}

/// Sound by the way it is drawn.  The nonterminals get a rank.  Until a production holds a symbol
/// that is not nullable, and in the first production throughout, only nonterminals of lower rank
/// are taken; behind that, any.
fn sound(random: &mut Random, size: &Size) -> Draft {
    let count = size.nonterminals;
    let mut by_rank: Vec<usize> = (0..count).collect();
    random.shuffle(&mut by_rank);
    let mut draft = Draft {
        grammar: Grammar {
            kinds: size.kinds,
            rules: vec![Vec::new(); count],
        },
        nullable: vec![false; count],
    };
    for (rank, &nonterminal) in by_rank.iter().enumerate() {
        let lower = &by_rank[..rank];
        // Every nonterminal of higher rank needs room for a production of one symbol at least.
        let kept_free = 2 * (count - rank - 1);
        for nth in 0..random.between(1, size.productions) {
            let room = size
                .places
                .saturating_sub(draft.grammar.places() + kept_free);
            if room == 0 {
                break;
            }
            let mut production = Vec::new();
            let mut guarded = false;
            for _ in 0..length(random, size.symbols.min(room - 1)) {
                let symbol = if guarded && nth > 0 {
                    draft.symbol(random)
                } else if lower.is_empty() || random.chance(40) {
                    draft.token(random)
                } else {
                    Symbol::Nonterminal(random.pick(lower))
                };
                guarded |= !draft.is_nullable(symbol);
                production.push(symbol);
            }
            draft.nullable[nonterminal] |= !guarded;
            draft.grammar.rules[nonterminal].push(production);
        }
    }
    for productions in &mut draft.grammar.rules {
        random.shuffle(productions);
    }
    draft
}

fn small(random: &mut Random) -> Grammar {
    let size = Size::small(random);
    anything(random, &size)
}

fn large(random: &mut Random) -> Grammar {
    let size = Size::large(random);
    anything(random, &size)
}

pub fn small_sound(random: &mut Random) -> Grammar {
    let size = Size::small(random);
    sound(random, &size).grammar
}

pub fn large_sound(random: &mut Random) -> Grammar {
    let size = Size::large(random);
    sound(random, &size).grammar
}

/// 253 to 257 places.
pub fn full(random: &mut Random) -> Grammar {
    let size = Size::any(random);
    let mut grammar = sound(random, &size).grammar;
    let goal = random.between(MOST_PLACES - 2, MOST_PLACES + 2);
    fill_up(random, &mut grammar, goal);
    grammar
}

/// Adds rows of tokens until there are as many places.
pub fn fill_up(random: &mut Random, grammar: &mut Grammar, places: usize) {
    while grammar.places() < places {
        let lacking = places - grammar.places();
        let token = Symbol::Token(random.between(1, grammar.kinds as usize) as u32);
        let nonterminal = random.below(grammar.rules.len());
        let productions = &mut grammar.rules[nonterminal];
        if lacking > 1 && productions.len() < MOST_PRODUCTIONS {
            let length = random.between(1, MOST_SYMBOLS.min(lacking - 1));
            productions.push(vec![token; length]);
        } else {
            let chosen = random.below(productions.len());
            if productions[chosen].len() < MOST_SYMBOLS {
                productions[chosen].push(token);
            }
        }
    }
}

/// As many bytes as a grammar may have, or nearly: one production each, symbols of two bytes, and
/// 254 to 256 places.
pub fn longest(random: &mut Random) -> Grammar {
    let count = random.between(9, 32);
    let mut lengths = vec![0; count];
    let mut lacking = random.between(MOST_PLACES - 1, MOST_PLACES + 1) - count;
    while lacking > 0 {
        let chosen = random.below(count);
        if lengths[chosen] < MOST_SYMBOLS {
            lengths[chosen] += 1;
            lacking -= 1;
        }
    }
    let mut rules = Vec::new();
    for (nonterminal, length) in lengths.into_iter().enumerate() {
        let mut production = vec![Symbol::Token(random.between(64, 100) as u32); length];
        // A chain of nonterminals at the end.
        if random.chance(50) && nonterminal + 1 < count && length > 0 {
            production[length - 1] = Symbol::Nonterminal(nonterminal + 1);
        }
        rules.push(vec![production]);
    }
    Grammar { kinds: 100, rules }
}

/// Sizes at a limit or one beyond.
fn at_the_limits(random: &mut Random) -> Grammar {
    let kinds = random.pick(&[1, 2, 99, 100, 100, 100, 101]);
    let count = random.pick(&[1, 2, 31, 32, 32, 32, 33]);
    let mut rules = vec![vec![vec![Symbol::Token(1)]]; count];
    for _ in 0..random.between(1, 4) {
        let chosen = random.below(count);
        rules[chosen] = vec![Vec::new(); random.pick(&[1, 2, 15, 16, 16, 16, 17])];
    }
    for _ in 0..random.between(1, 4) {
        let chosen = random.below(count);
        let symbol = match random.below(8) {
            0 => Symbol::Nonterminal(count),
            1 | 2 => Symbol::Nonterminal(count - 1),
            3 => Symbol::Token(kinds + 1),
            4 if random.chance(30) => Symbol::Token(0),
            _ => Symbol::Token(kinds),
        };
        let length = random.pick(&[1, 29, 30, 30, 30, 31]);
        let last = rules[chosen].len() - 1;
        rules[chosen][last] = vec![symbol; length];
    }
    Grammar { kinds, rules }
}

/// Some nonterminals hold one another in every production.
fn unproductive(random: &mut Random) -> Grammar {
    let size = Size::any(random);
    let mut draft = sound(random, &size);
    if random.chance(40) {
        let members = draft.some_of(random, 1);
        draft.add_cycle(random, &members, 30);
    }
    let mut barren = draft.some_of(random, 1);
    barren.truncate(random.between(1, 5));
    for (at, &nonterminal) in barren.iter().enumerate() {
        for production in &mut draft.grammar.rules[nonterminal] {
            // Itself or one chosen before, so that the fault is handed on.
            let hindrance = Symbol::Nonterminal(barren[random.below(at + 1)]);
            let place = random.between(0, production.len());
            if place < production.len() {
                production[place] = hindrance;
            } else {
                production.truncate(MOST_SYMBOLS - 1);
                production.push(hindrance);
            }
        }
    }
    draft.grammar
}

/// The same behind a token, where nothing leads back.
fn barren(random: &mut Random) -> Grammar {
    let size = Size::any(random);
    let mut draft = sound(random, &size);
    let mut barren = draft.some_of(random, 1);
    barren.truncate(random.between(1, 5));
    for (at, &nonterminal) in barren.iter().enumerate() {
        for production in &mut draft.grammar.rules[nonterminal] {
            let hindrance = Symbol::Nonterminal(barren[random.below(at + 1)]);
            let length = production.len().max(2);
            production.resize(length, Symbol::Token(1));
            production[0] = Symbol::Token(1);
            production[random.between(1, length - 1)] = hindrance;
        }
    }
    draft.grammar
}

fn direct_recursion(random: &mut Random) -> Grammar {
    let size = Size::any(random);
    let mut draft = sound(random, &size);
    for _ in 0..random.between(1, 2) {
        let member = random.below(draft.nonterminals());
        draft.add_cycle(random, &[member], 0);
    }
    draft.grammar
}

fn hidden_recursion(random: &mut Random) -> Grammar {
    let size = Size::any(random);
    let mut draft = sound(random, &size);
    let mut members = draft.some_of(random, 1);
    members.truncate(random.between(1, 3));
    draft.add_cycle(random, &members, 100);
    draft.grammar
}

fn long_cycle(random: &mut Random) -> Grammar {
    let mut size = Size::large(random);
    size.places = 2 * size.nonterminals + random.between(0, 60);
    let mut draft = sound(random, &size);
    let members = draft.some_of(random, 4);
    draft.add_cycle(random, &members, 0);
    draft.grammar
}

fn long_hidden_cycle(random: &mut Random) -> Grammar {
    let mut size = Size::large(random);
    size.places = 2 * size.nonterminals + random.between(0, 30);
    let mut draft = sound(random, &size);
    let members = draft.some_of(random, 4);
    draft.add_cycle(random, &members, 40);
    draft.grammar
}

/// A sound grammar and, beside it, nonterminals that it never uses and that move left in a cycle.
fn cycle_out_of_reach(random: &mut Random) -> Grammar {
    let size = Size::small(random);
    let mut draft = sound(random, &size);
    let used = draft.nonterminals();
    let unused = random.between(1, 32 - used);
    for _ in 0..unused {
        let mut production = vec![draft.token(random)];
        if random.chance(50) {
            production.push(Symbol::Nonterminal(random.below(used)));
        }
        draft.grammar.rules.push(vec![production]);
        draft.nullable.push(false);
    }
    let mut members: Vec<usize> = (used..used + unused).collect();
    random.shuffle(&mut members);
    members.truncate(random.between(1, unused));
    draft.add_cycle(random, &members, 30);
    draft.rename(random);
    draft.grammar
}

/// What can be known of a nonterminal hangs on the one before it in a long chain: whether it derives
/// a row or the empty row, and so whether the last and first of all is left recursive.
pub fn deep_chain(random: &mut Random) -> Grammar {
    let count = random.between(2, 32);
    let mut chain: Vec<usize> = (0..count).collect();
    match random.below(4) {
        0 => {}
        1 => chain.reverse(),
        2 => chain.rotate_left(random.below(count)),
        _ => random.shuffle(&mut chain),
    }
    let mut rules = vec![Vec::new(); count];
    rules[chain[0]] = match random.below(8) {
        0 => vec![vec![Symbol::Nonterminal(chain[0])]],
        1 => vec![vec![Symbol::Token(1)]],
        2 => vec![vec![], vec![Symbol::Token(1)]],
        _ => vec![vec![]],
    };
    for at in 1..count {
        let before = Symbol::Nonterminal(chain[at - 1]);
        let any_before = Symbol::Nonterminal(chain[random.below(at)]);
        rules[chain[at]].push(match random.below(3) {
            0 => vec![before],
            1 => vec![before, any_before],
            _ => vec![any_before, before],
        });
        if random.chance(20) {
            rules[chain[at]].push(vec![Symbol::Token(1), any_before]);
        }
    }
    // Behind the last but one stands the last itself.
    let last = chain[count - 1];
    if random.chance(70) {
        let end = Symbol::Nonterminal(chain[count - 2]);
        rules[last] = vec![vec![end, Symbol::Nonterminal(last)], vec![Symbol::Token(1)]];
    }
    Grammar { kinds: 1, rules }
}

// Bytes.

/// A grammar of any of the kinds above.
fn any_grammar(random: &mut Random) -> Grammar {
    let kinds = [
        small,
        small_sound,
        small_sound,
        large_sound,
        full,
        longest,
        direct_recursion,
        hidden_recursion,
        unproductive,
        cycle_out_of_reach,
    ];
    let kind = random.below(kinds.len());
    kinds[kind](random)
}

/// Numbers at which some limit or the length of a form changes.
const EDGES: [u32; 33] = [
    0, 1, 2, 3, 15, 16, 17, 18, 29, 30, 31, 32, 33, 63, 64, 65, 66, 99, 100, 101, 102, 127, 128,
    200, 201, 202, 255, 256, 16_383, 16_384, 65_535, 65_536, 2_097_151,
];

fn one_number_replaced(random: &mut Random) -> Vec<u8> {
    let mut numbers = any_grammar(random).numbers();
    let at = if random.chance(20) {
        random.below(2)
    } else {
        random.below(numbers.len())
    };
    numbers[at] = match random.below(4) {
        0 => numbers[at] + 1,
        1 => numbers[at].saturating_sub(1),
        2 => numbers[at] + 2,
        _ => random.pick(&EDGES),
    };
    encode(&numbers)
}

/// The number in `length` bytes, which may be more than it takes.
pub fn write_padded(number: u32, length: usize, bytes: &mut Vec<u8>) {
    let start = bytes.len();
    write_shortest(number, bytes);
    while bytes.len() < start + length {
        *bytes.last_mut().unwrap() |= 0x80;
        bytes.push(0);
    }
}

fn with_padding(numbers: &[u32], at: usize, length: usize) -> Vec<u8> {
    let mut bytes = encode(&numbers[..at]);
    write_padded(numbers[at], length, &mut bytes);
    bytes.extend(encode(&numbers[at + 1..]));
    bytes
}

fn one_number_overlong(random: &mut Random) -> Vec<u8> {
    let numbers = any_grammar(random).numbers();
    let at = random.below(numbers.len());
    let length = random.between(2, 5);
    with_padding(&numbers, at, length)
}

/// Every number of a grammar in turn, in two, three and four bytes.
pub fn overlong_forms(grammar: &Grammar) -> Vec<Vec<u8>> {
    let numbers = grammar.numbers();
    let mut forms = Vec::new();
    for at in 0..numbers.len() {
        forms.extend((2..=4).map(|length| with_padding(&numbers, at, length)));
    }
    forms
}

/// One to three bytes changed, removed, inserted or swapped.
fn damaged(random: &mut Random) -> Vec<u8> {
    let mut bytes = any_grammar(random).encode();
    for _ in 0..random.between(1, 3) {
        if bytes.is_empty() {
            break;
        }
        let at = random.below(bytes.len());
        match random.below(7) {
            0 => bytes[at] = random.byte(),
            1 => bytes[at] ^= 1 << random.below(8),
            2 => bytes[at] = bytes[at].wrapping_add(1),
            3 => bytes[at] = bytes[at].wrapping_sub(1),
            4 => {
                bytes.remove(at);
            }
            5 => bytes.insert(at, random.byte() >> random.below(8)),
            _ => {
                let other = random.below(bytes.len());
                bytes.swap(at, other);
            }
        }
    }
    bytes
}

fn truncated(random: &mut Random) -> Vec<u8> {
    let mut bytes = any_grammar(random).encode();
    bytes.truncate(random.between(0, bytes.len()));
    bytes
}

fn bytes_appended(random: &mut Random) -> Vec<u8> {
    let mut bytes = any_grammar(random).encode();
    for _ in 0..random.between(1, 4) {
        bytes.push(random.byte() >> random.below(8));
    }
    bytes
}

fn random_bytes(random: &mut Random) -> Vec<u8> {
    let length = random.between(0, 40);
    (0..length).map(|_| random.byte()).collect()
}

fn random_small_bytes(random: &mut Random) -> Vec<u8> {
    let length = random.between(0, 40);
    let highest = random.between(2, 7);
    (0..length)
        .map(|_| random.between(0, highest) as u8)
        .collect()
}

/// A good beginning, then numbers at the edges.
fn random_numbers(random: &mut Random) -> Vec<u8> {
    let mut numbers = vec![random.pick(&[1, 2, 100]), random.pick(&[1, 2, 32])];
    for _ in 0..random.between(0, 30) {
        let few = random.chance(90);
        numbers.push(if few {
            random.between(0, 6) as u32
        } else {
            random.pick(&EDGES)
        });
    }
    encode(&numbers)
}

/// Every change of one byte of a grammar to `values`, every removal and every insertion.
pub fn single_faults(grammar: &[u8], values: &[u8]) -> Vec<Vec<u8>> {
    let mut faults = Vec::new();
    for at in 0..=grammar.len() {
        for &value in values {
            let mut inserted = grammar.to_vec();
            inserted.insert(at, value);
            faults.push(inserted);
        }
    }
    for at in 0..grammar.len() {
        let mut removed = grammar.to_vec();
        removed.remove(at);
        faults.push(removed);
        for &value in values {
            let mut changed = grammar.to_vec();
            changed[at] = value;
            faults.push(changed);
        }
    }
    faults
}

/// Inputs far longer than any grammar; `grammar` stands before some of them.
pub fn endless(grammar: &[u8]) -> Vec<Vec<u8>> {
    let mut inputs = Vec::new();
    for filling in [0x00, 0x01, 0x02, 0x10, 0x7f, 0x80, 0xff] {
        inputs.push(vec![filling; 100_000]);
    }
    for filling in [0x00, 0x01, 0x80] {
        let mut input = grammar.to_vec();
        input.resize(grammar.len() + (1 << 20), filling);
        inputs.push(input);
    }
    inputs
}
