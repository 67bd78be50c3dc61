//! Notes for the tests of the readings: sentences, beginnings of sentences, notes that go wrong.
#![forbid(unsafe_code)]

use crate::random::Random;
use crate::tree::{Grammar, Symbol};

/// Expansions after which a note is brought to an end.
const MOST_EXPANSIONS: usize = 4_000;

/// A sound grammar, and for each nonterminal the tokens of the shortest row that it derives.
pub struct Source<'g> {
    grammar: &'g Grammar,
    shortest: Vec<usize>,
}

impl<'g> Source<'g> {
    pub fn new(grammar: &'g Grammar) -> Source<'g> {
        // Far more than any note has, and no sum of 30 of them is too large a number.
        let mut source = Source {
            grammar,
            shortest: vec![1 << 32; grammar.rules.len()],
        };
        loop {
            let tokens = |rule: &Vec<Vec<Symbol>>| {
                let lengths = rule.iter().map(|production| source.least(production));
                lengths.min().unwrap().min(1 << 32)
            };
            let next: Vec<usize> = grammar.rules.iter().map(tokens).collect();
            if next == source.shortest {
                return source;
            }
            source.shortest = next;
        }
    }

    /// The tokens of the shortest row that the symbols derive.
    fn least(&self, symbols: &[Symbol]) -> usize {
        let tokens = symbols.iter().map(|symbol| match *symbol {
            Symbol::Token(_) => 1,
            Symbol::Nonterminal(number) => self.shortest[number],
        });
        tokens.sum()
    }

    fn token(&self, random: &mut Random) -> u16 {
        random.between(1, self.grammar.kinds as usize) as u16
    }

    /// A sentence of at most `most` tokens, if there is one; mostly of far fewer or of just as many.
    pub fn sentence(&self, random: &mut Random, most: usize) -> Option<Vec<u16>> {
        let growth = random.pick(&[30, 90, 100, 100]);
        let mut open = vec![Symbol::Nonterminal(0)];
        // Tokens that what is open needs at least.
        let mut needed = self.shortest[0];
        if needed > most {
            return None;
        }
        let mut note = Vec::new();
        let mut expansions = 0;
        while let Some(symbol) = open.pop() {
            let number = match symbol {
                Symbol::Token(kind) => {
                    note.push(kind as u16);
                    needed -= 1;
                    continue;
                }
                Symbol::Nonterminal(number) => number,
            };
            needed -= self.shortest[number];
            let mut room = most - note.len() - needed;
            if expansions == MOST_EXPANSIONS {
                room = self.shortest[number];
            } else {
                expansions += 1;
            }
            // What derives the empty row now need not be expanded.
            if room == 0 {
                continue;
            }
            let fitting = |production: &&Vec<Symbol>| self.least(production) <= room;
            let fitting: Vec<&Vec<Symbol>> =
                self.grammar.rules[number].iter().filter(fitting).collect();
            let longer = |production: &&Vec<Symbol>| self.least(production) > self.shortest[number];
            let longer: Vec<&Vec<Symbol>> = fitting.iter().copied().filter(longer).collect();
            let production = if !longer.is_empty() && random.chance(growth) {
                random.pick(&longer)
            } else {
                random.pick(&fitting)
            };
            needed += self.least(production);
            open.extend(production.iter().rev());
        }
        Some(note)
    }

    /// The beginning of a sentence, of at most `most` tokens.
    fn beginning(&self, random: &mut Random, most: usize) -> Vec<u16> {
        let mut open = vec![Symbol::Nonterminal(0)];
        let mut note = Vec::new();
        let mut expansions = 0;
        while let Some(symbol) = open.pop() {
            if note.len() == most || expansions == MOST_EXPANSIONS {
                break;
            }
            match symbol {
                Symbol::Token(kind) => note.push(kind as u16),
                Symbol::Nonterminal(number) => {
                    expansions += 1;
                    let rule = &self.grammar.rules[number];
                    open.extend(rule[random.below(rule.len())].iter().rev());
                }
            }
        }
        note
    }

    fn anything(&self, random: &mut Random, length: usize) -> Vec<u16> {
        (0..length).map(|_| self.token(random)).collect()
    }

    /// One to three tokens replaced, removed, added, swapped or repeated.
    fn spoil(&self, random: &mut Random, note: &mut Vec<u16>) {
        for _ in 0..random.between(1, 3) {
            let length = note.len();
            let at = random.below(length + 1);
            if at == length || random.chance(20) {
                note.insert(at, self.token(random));
                continue;
            }
            match random.below(4) {
                0 => note[at] = self.token(random),
                1 => drop(note.remove(at)),
                2 => note.swap(at, random.below(length)),
                _ => {
                    let piece = note[at..random.between(at + 1, length)].to_vec();
                    note.extend(piece);
                }
            }
        }
    }

    /// A note of known tokens, and mostly of at most `most`.
    fn known(&self, random: &mut Random, most: usize) -> Vec<u16> {
        let most = match random.below(3) {
            0 => most,
            _ => random.between(0, most),
        };
        let sentence = |random: &mut Random| match self.sentence(random, most) {
            Some(note) => note,
            None => self.beginning(random, most),
        };
        match random.below(16) {
            0..=6 => sentence(random),
            7..=9 => {
                let mut note = sentence(random);
                self.spoil(random, &mut note);
                note
            }
            10 => {
                let mut note = sentence(random);
                note.truncate(random.between(0, note.len()));
                note
            }
            11 | 12 => self.beginning(random, most),
            13 => {
                let mut note = self.beginning(random, most);
                note.extend(self.anything(random, most - note.len()));
                note
            }
            14 => vec![self.token(random); most],
            _ => self.anything(random, most),
        }
    }

    /// A note, now and then too long or with a token that is none.
    pub fn note(&self, random: &mut Random, most: usize) -> Vec<u16> {
        let mut note = self.known(random, most);
        if random.chance(3) {
            let length = random.pick(&[127, 128, 129, 129, 130, 160, 161, 1_000]);
            let more = match random.below(2) {
                0 => self.beginning(random, length),
                _ => self.anything(random, length),
            };
            note.extend(more);
            note.truncate(length);
        }
        if random.chance(6) && !note.is_empty() {
            let above = self.grammar.kinds as u16 + 1;
            let unknown = random.pick(&[0, 0, above, above, 101, 255, 256, 257, 0x8001, u16::MAX]);
            let last = note.len() - 1;
            let anywhere = random.between(0, last);
            let at = random.pick(&[0, last, anywhere]);
            note[at] = unknown;
            if random.chance(30) {
                note[random.between(at, last)] = 0;
            }
        }
        note
    }
}
