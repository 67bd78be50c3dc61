//! A grammar that is being drawn so that the check takes one of its ways (`check_families.rs`): what
//! a way needs is put into it, and what is left over gets the fault that is asked for, if any, and
//! rules that change nothing.
#![forbid(unsafe_code)]

use crate::random::Random;
use crate::tree::Symbol::{self, Nonterminal};
use crate::tree::{Grammar, Production};

pub const MOST_PRODUCTIONS: usize = 16;
pub const MOST_PLACES: usize = 255;
const MOST_SYMBOLS: usize = 30;

/// The token of a sketch; only in the end its tokens are told apart.
pub const TOKEN: Symbol = Symbol::Token(1);

/// What is to be wrong with a grammar.
#[derive(Clone, Copy, PartialEq)]
pub enum Fault {
    None,
    /// Some derive no row of tokens.
    Barren,
    /// Some lead to themselves.
    Own,
    /// Some lead round.
    Round,
    /// The first, and mostly one of the others.
    Both,
}

impl Fault {
    /// Whether 7 is asked for.
    pub fn is_recursive(self) -> bool {
        !matches!(self, Fault::None | Fault::Barren)
    }

    /// What is left when moves lead back already.
    pub fn but_recursive(self) -> Fault {
        match self {
            Fault::Barren | Fault::Both => Fault::Barren,
            _ => Fault::None,
        }
    }
}

/// A grammar that is being drawn.
pub struct Sketch<'a> {
    pub random: &'a mut Random,
    pub fault: Fault,
    pub rules: Vec<Vec<Production>>,
    /// Those without a part so far, in any order.
    pub free: Vec<usize>,
    /// Some with an empty production.
    pub vanishing: Vec<usize>,
    /// The one whose productions keep their order.
    pub kept: Option<usize>,
}

impl Sketch<'_> {
    pub fn new(random: &mut Random, fault: Fault, count: usize) -> Sketch<'_> {
        let mut free: Vec<usize> = (0..count).collect();
        random.shuffle(&mut free);
        Sketch {
            random,
            fault,
            rules: vec![Vec::new(); count],
            free,
            vanishing: Vec::new(),
            kept: None,
        }
    }

    /// Gives a part to a nonterminal.
    pub fn claim(&mut self, number: usize) {
        self.free.retain(|&other| other != number);
    }

    /// Gives a part to any nonterminal that is free.
    pub fn take(&mut self) -> usize {
        self.free.pop().expect("a nonterminal that is free")
    }

    pub fn take_some(&mut self, least: usize, most: usize) -> Vec<usize> {
        let most = most.min(self.free.len());
        let count = self.random.between(least.min(most), most);
        (0..count).map(|_| self.take()).collect()
    }

    /// How many places are left when each that is free gets a few.
    fn room(&self) -> usize {
        let places: usize = self.rules.iter().flatten().map(|p| p.len() + 1).sum();
        MOST_PLACES.saturating_sub(places + 5 * self.free.len())
    }

    pub fn put(&mut self, a: usize, production: Production) {
        self.rules[a].push(production);
    }

    /// The same if there is room for it.
    pub fn add(&mut self, a: usize, production: Production) {
        let fits = production.len() <= MOST_SYMBOLS && production.len() < self.room();
        if fits && self.rules[a].len() < MOST_PRODUCTIONS {
            self.put(a, production);
        }
    }

    /// Any symbols.
    pub fn row(&mut self, most: usize) -> Production {
        let mut row = Vec::new();
        for _ in 0..self.random.between(0, most) {
            row.push(match self.random.chance(50) {
                true => TOKEN,
                false => Nonterminal(self.random.below(self.rules.len())),
            });
        }
        row
    }

    /// Symbols that vanish, none if none are known to.
    pub fn hiding(&mut self, least: usize, most: usize) -> Production {
        let mut row = Vec::new();
        if !self.vanishing.is_empty() {
            for _ in 0..self.random.between(least, most) {
                row.push(Nonterminal(self.random.pick(&self.vanishing)));
            }
        }
        row
    }

    /// A production that says nothing new: it begins with a token and holds its owner.
    pub fn add_decoy(&mut self, a: usize, most: usize) {
        let mut decoy = vec![TOKEN];
        decoy.extend(self.row(most));
        decoy.push(Nonterminal(a));
        decoy.extend(self.row(most));
        self.add(a, decoy);
    }

    /// One that vanishes by an empty production.
    pub fn empty(&mut self) -> usize {
        let a = self.take();
        self.put(a, Vec::new());
        if self.random.chance(30) {
            let row = self.row(3);
            self.add(a, [&[TOKEN], &row[..]].concat());
        }
        self.vanishing.push(a);
        a
    }

    /// Productions that begin with tokens, one of them of tokens alone.
    pub fn plain(&mut self, a: usize) {
        let length = self.random.between(1, 3);
        self.put(a, vec![TOKEN; length]);
        while self.random.chance(30) {
            let row = self.row(4);
            self.add(a, [&[TOKEN], &row[..]].concat());
        }
    }

    /// A plain one.
    pub fn bystander(&mut self) -> usize {
        let a = self.take();
        self.plain(a);
        a
    }

    /// Lets a move lead from a to b, and sometimes hides it.
    pub fn lead(&mut self, a: usize, b: usize, hidden: usize) {
        let room = self.room();
        let hiding = match self.random.chance(hidden) {
            true => self.hiding(1, if room > 50 { 3 } else { 1 }),
            false => Vec::new(),
        };
        let behind = self.row(if room > 50 { 2 } else { 0 });
        let to = [Nonterminal(b), TOKEN];
        self.put(a, [&hiding[..], &to, &behind].concat());
    }

    /// Lets moves lead back behind `first`, that is if it vanishes.
    pub fn lead_back_behind(&mut self, first: usize) {
        let first = Nonterminal(first);
        let members = self.take_some(1, 2);
        for (at, &member) in members.iter().enumerate() {
            self.plain(member);
            let next = Nonterminal(members[(at + 1) % members.len()]);
            let row = self.row(1);
            self.put(member, [&[first, next], &row[..]].concat());
        }
    }

    pub fn lead_round(&mut self, members: &[usize], hidden: usize) {
        for (at, &member) in members.iter().enumerate() {
            self.lead(member, members[(at + 1) % members.len()], hidden);
        }
    }

    /// Moves that end after so many rounds, each from one of those answered to the one before it.
    pub fn stairs(&mut self, rounds: usize, hidden: usize) -> Vec<usize> {
        let stairs: Vec<usize> = (0..=rounds).map(|_| self.take()).collect();
        self.plain(stairs[0]);
        for at in 1..stairs.len() {
            self.lead(stairs[at], stairs[at - 1], hidden);
            if self.room() > 50 && self.random.chance(20) {
                let lower = stairs[self.random.below(at)];
                self.lead(stairs[at], lower, hidden);
            }
        }
        stairs
    }

    /// Only productions that hold one of those before, or itself.
    pub fn barren(&mut self, members: &[usize]) {
        for (at, &member) in members.iter().enumerate() {
            for _ in 0..self.random.between(1, 2) {
                let hindrance = Nonterminal(members[self.random.below(at + 1)]);
                let row = self.row(1);
                self.put(member, [&[TOKEN], &row[..], &[hindrance]].concat());
            }
        }
    }

    /// Mostly lets 7 hinge on `last`, which vanishes: moves lead back behind it.  If 7 is not asked
    /// for, they would behind one that does not vanish for a token.
    pub fn hinge(&mut self, last: usize) {
        if self.random.chance(30) {
            return;
        }
        if self.fault.is_recursive() {
            self.lead_back_behind(last);
            self.fault = self.fault.but_recursive();
            return;
        }
        let a = self.take();
        let mut row = self.hiding(0, 2);
        row.extend(match self.random.below(3) {
            0 => vec![Nonterminal(last), TOKEN],
            1 => vec![Nonterminal(last), Nonterminal(last), TOKEN],
            _ => vec![TOKEN, Nonterminal(last)],
        });
        self.put(a, row);
        self.lead_back_behind(a);
    }

    /// The fault that is asked for, by nonterminals that are free.
    fn spoil(&mut self) {
        let (barren, own, round) = match self.fault {
            Fault::None => (false, false, false),
            Fault::Barren => (true, false, false),
            Fault::Own => (false, true, false),
            Fault::Round => (false, false, true),
            Fault::Both => (true, self.random.chance(50), self.random.chance(60)),
        };
        if barren {
            let members = self.take_some(1, 2);
            self.barren(&members);
            if let Some(&last) = members.last().filter(|_| own && self.random.chance(50)) {
                self.lead(last, last, 30);
            }
        }
        if own {
            for member in self.take_some(1, 2) {
                self.plain(member);
                self.lead(member, member, 30);
            }
        }
        if round {
            let members = self.take_some(2, 4);
            for &member in &members {
                self.plain(member);
            }
            self.lead_round(&members, 30);
        }
    }

    pub fn finish(mut self) -> Grammar {
        self.spoil();
        while !self.free.is_empty() {
            self.bystander();
        }
        let count = self.rules.len();
        let long = self.random.chance(30);
        for _ in 0..self.random.between(0, 3) {
            let a = self.random.below(count);
            self.add_decoy(a, if long { 14 } else { 2 });
        }
        if self.random.chance(15) {
            self.fill_up();
        }
        for a in (0..count).filter(|&a| self.kept != Some(a)) {
            self.random.shuffle(&mut self.rules[a]);
        }
        self.dress()
    }

    /// Uses all places, by productions that say nothing new and by longer ones.
    fn fill_up(&mut self) {
        for _ in 0..200 {
            let a = self.random.below(self.rules.len());
            let room = self.room();
            if room > 2 && self.rules[a].len() < MOST_PRODUCTIONS {
                let length = self.random.between(2, MOST_SYMBOLS.min(room - 1));
                let mut production = vec![TOKEN; length];
                production[self.random.between(1, length - 1)] = Nonterminal(a);
                self.put(a, production);
            } else if let Some(production) = self.rules[a].last_mut() {
                // Behind a token nothing changes.
                if room > 0 && production.contains(&TOKEN) && production.len() < MOST_SYMBOLS {
                    production.push(TOKEN);
                }
            }
        }
    }

    /// Draws the kinds of tokens: from 64 on they take two bytes.
    fn dress(mut self) -> Grammar {
        let kinds = self
            .random
            .pick(&[1, 2, 17, 63, 63, 64, 64, 65, 65, 99, 100, 100]);
        let style = self.random.below(4);
        for symbol in self.rules.iter_mut().flatten().flatten() {
            if let Symbol::Token(kind) = symbol {
                *kind = match style {
                    0 => self.random.between(1, kinds) as u32,
                    1 => self.random.pick(&[1, 62, 63, 64, 65, 99, 100]).min(kinds) as u32,
                    2 => self.random.between(kinds.min(64), kinds) as u32,
                    _ => kinds as u32,
                };
            }
        }
        Grammar {
            kinds: kinds as u32,
            rules: self.rules,
        }
    }
}
