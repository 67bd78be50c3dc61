//! Grammars drawn so that the check takes each of its ways (`check_ways.rs`) to each of its answers.
//! As in `generate.rs` a family need not keep to its name: what a grammar is, is recognised and
//! counted.
#![forbid(unsafe_code)]

use crate::check_sketch::{Fault, Sketch, MOST_PLACES, MOST_PRODUCTIONS, TOKEN};
use crate::random::Random;
use crate::tree::Symbol::Nonterminal;
use crate::tree::{Grammar, Production};

/// What is asked for, in turn.
pub const FAULTS: [Fault; 7] = [
    Fault::None,
    Fault::Barren,
    Fault::Own,
    Fault::None,
    Fault::Barren,
    Fault::Round,
    Fault::Both,
];

/// A name for reports, how many times all of these are asked for, and what draws a case.
pub type Family = (&'static str, usize, fn(&mut Random, Fault) -> Grammar);

pub const FAMILIES: [Family; 17] = [
    ("one nonterminal", 250, one_nonterminal),
    ("nothing led", 300, |r, fault| ranked(r, fault, false)),
    ("no first symbol vanishes", 400, |r, fault| {
        ranked(r, fault, true)
    }),
    ("all vanish", 750, |r, fault| all_vanish(r, fault, false)),
    ("all vanish but one", 700, |r, fault| {
        all_vanish(r, fault, true)
    }),
    ("vanishing, found late", 2_500, vanishing_late),
    ("deriving, found late", 2_000, deriving_late),
    ("moves that end", 900, moves_that_end),
    ("own recursion", 600, own_recursion),
    ("round", 600, round),
    ("round behind what vanishes", 300, hidden_round),
    ("rows that are walked", 500, walked),
    ("rows that are widened at an end", 600, widened_at_an_end),
    ("thirty symbols", 600, thirty_symbols),
    ("sixteen productions", 600, sixteen_productions),
    ("all led", 100, all_led),
    ("empty and led", 350, empty_and_led),
];

/// A grammar of a family; what has grown beyond the limits is drawn again.
pub fn draw(family: &Family, random: &mut Random, fault: Fault) -> Grammar {
    loop {
        let grammar = (family.2)(random, fault);
        let few = |rule: &Vec<Production>| rule.len() <= MOST_PRODUCTIONS;
        if grammar.places() <= MOST_PLACES && grammar.rules.iter().all(few) {
            return grammar;
        }
    }
}

/// As many nonterminals, 31 or 32 in `full` percent, and else mostly hardly more than the least.
fn size(random: &mut Random, least: usize, full: usize) -> usize {
    let few = (least + 5).min(32);
    match random.chance(full) {
        true => random.between(31, 32),
        false if random.chance(75) => random.between(least, few),
        false => random.between(least, 32),
    }
}

/// One end of so many nonterminals, or any of them.
fn some_end(random: &mut Random, count: usize) -> usize {
    match random.below(5) {
        0 | 1 => 0,
        2 | 3 => count - 1,
        _ => random.below(count),
    }
}

fn one_nonterminal(random: &mut Random, fault: Fault) -> Grammar {
    let mut sketch = Sketch::new(random, Fault::None, 1);
    let a = sketch.take();
    let is_barren = matches!(fault, Fault::Barren | Fault::Both);
    if is_barren {
        sketch.barren(&[a]);
    } else if sketch.random.chance(50) {
        sketch.put(a, Vec::new());
    } else {
        sketch.plain(a);
    }
    if matches!(fault, Fault::Own | Fault::Round | Fault::Both) {
        for _ in 0..sketch.random.between(1, 3) {
            let row = sketch.row(5);
            sketch.add(a, [&[Nonterminal(a)], &row[..]].concat());
        }
    }
    let most = sketch.random.pick(&[0, 0, 2, 5, 14]);
    for _ in 0..sketch.random.pick(&[0, 1, 3, 15]) {
        sketch.add_decoy(a, most);
    }
    sketch.finish()
}

/// By rank: productions begin with a token or, if `led`, with one of lower rank that does not
/// vanish; one production holds only those of lower rank.  Some are empty, or none.
fn ranked(random: &mut Random, fault: Fault, led: bool) -> Grammar {
    let count = size(random, 8, 33);
    let mut sketch = Sketch::new(random, fault, count);
    let members = sketch.take_some(1, count - 6);
    let with_empty = sketch.random.chance(50);
    let mut solid = Vec::new();
    for (rank, &a) in members.iter().enumerate() {
        let is_empty = with_empty && (rank == 0 || sketch.random.chance(30));
        for nth in 0..sketch.random.between(1, 3) {
            let mut production = vec![TOKEN];
            if led && !solid.is_empty() && sketch.random.chance(60) {
                production = vec![Nonterminal(sketch.random.pick(&solid))];
            }
            if nth > 0 || is_empty {
                let row = sketch.row(3);
                production.extend(row);
                sketch.add(a, production);
                continue;
            }
            while rank > 0 && sketch.random.chance(40) && production.len() < 5 {
                let lower = members[sketch.random.below(rank)];
                production.push(Nonterminal(lower));
            }
            sketch.put(a, production);
        }
        if is_empty {
            sketch.put(a, Vec::new());
        } else {
            solid.push(a);
        }
    }
    sketch.finish()
}

/// Each vanishes by those before it; or all but one do, which holds a token in each production.
fn all_vanish(random: &mut Random, fault: Fault, but_one: bool) -> Grammar {
    let least = 2 + usize::from(but_one);
    let count = size(random, least, 60);
    let mut sketch = Sketch::new(random, Fault::None, count);
    let one = but_one.then(|| some_end(sketch.random, count));
    let mut members: Vec<usize> = (0..count).filter(|&a| Some(a) != one).collect();
    // One has a part of its own.
    let top = members.remove(sketch.random.below(members.len()));
    // Passes go down: then one finds all, or two do, or two find all but the last.
    members.reverse();
    let some = sketch.random.below(members.len());
    match sketch.random.below(4) {
        0 => {}
        1 => members.rotate_left(some),
        2 => {
            members[1..].rotate_left(some.saturating_sub(1));
            members.rotate_left(1);
        }
        _ => sketch.random.shuffle(&mut members),
    }
    sketch.free.clear();
    let deep = sketch.random.chance(50);
    for (rank, &a) in members.iter().enumerate() {
        if rank == 0 || sketch.random.chance(if deep { 4 } else { 40 }) {
            sketch.put(a, Vec::new());
            continue;
        }
        let lower = |random: &mut Random| Nonterminal(members[random.below(rank)]);
        let mut production = Vec::new();
        for _ in 0..sketch.random.between(0, 2) {
            production.push(lower(sketch.random));
        }
        let before = Nonterminal(members[rank - 1]);
        production.insert(sketch.random.between(0, production.len()), before);
        sketch.put(a, production);
        if sketch.random.chance(20) {
            let production = vec![lower(sketch.random), TOKEN, before];
            sketch.add(a, production);
        }
    }
    sketch.put(top, Vec::new());
    let last = Nonterminal(members[members.len() - 1]);
    if let Some(one) = one {
        match fault {
            Fault::Barren | Fault::Both => sketch.barren(&[one]),
            _ => sketch.plain(one),
        }
        let [one_first, top_first] = [one, top].map(Nonterminal);
        match sketch.random.below(3) {
            0 => sketch.put(one, vec![last, TOKEN, one_first]),
            // Moves would lead back if that one vanished.
            1 => sketch.put(top, vec![one_first, top_first]),
            _ => {}
        }
    }
    match (fault, one) {
        (Fault::None | Fault::Barren, _) => {}
        (Fault::Round, _) => sketch.lead_round(&[top, members[0]], 0),
        (_, Some(one)) if sketch.random.chance(30) => sketch.lead(one, one, 0),
        // They do, as the last vanishes.
        _ => sketch.put(top, vec![last, Nonterminal(top)]),
    }
    sketch.finish()
}

/// In which turn the last of a chain is found, if each is found by the one before it and the first
/// in turn `first`.
fn last_turn(chain: &[usize], first: usize) -> usize {
    let mut turn = first;
    for pair in chain.windows(2) {
        let in_same_pass = (1..=2).contains(&turn) && pair[1] < pair[0];
        turn += usize::from(!in_same_pass);
    }
    turn
}

/// A chain of numbers below `count` whose last one, at an end or anywhere, is found in some turn.
fn chain(random: &mut Random, count: usize, first: usize) -> Vec<usize> {
    let goal = random.pick(&[0, 1, 1, 2, 2, 3, 4, 10, 12]).max(first);
    let last = some_end(random, count);
    let mut numbers: Vec<usize> = (0..count).filter(|&a| a != last).collect();
    loop {
        random.shuffle(&mut numbers);
        let length = random.between(0, (goal + 4).min(count - 6));
        let chain = [&numbers[..length], &[last]].concat();
        let turn = last_turn(&chain, first);
        // With few nonterminals most goals cannot be met; and the first round never finds the
        // lowest, which a pass looks at last.
        if turn == goal || random.chance(if count < 31 { 20 } else { 1 }) {
            return chain;
        }
    }
}

/// Each of a chain vanishes by the one before it, and 7 may hinge on the last.
fn vanishing_late(random: &mut Random, fault: Fault) -> Grammar {
    let count = size(random, 8, 80);
    let chain = chain(random, count, 0);
    let mut sketch = Sketch::new(random, fault, count);
    for &a in &chain {
        sketch.claim(a);
    }
    // Now and then what vanishes at once stands around, and what never does.
    if sketch.random.chance(40) {
        sketch.empty();
    }
    let solid = sketch.random.chance(50).then(|| sketch.bystander());
    for (at, &a) in chain.iter().enumerate() {
        if at == 0 {
            sketch.put(a, Vec::new());
            continue;
        }
        let before = Nonterminal(chain[at - 1]);
        let earlier = |random: &mut Random| Nonterminal(chain[random.below(at)]);
        let mut production = sketch.hiding(0, 2);
        for _ in 0..sketch.random.pick(&[0, 0, 1, 2]) {
            production.push(earlier(sketch.random));
        }
        let place = match sketch.random.chance(50) {
            true => production.len(),
            false => sketch.random.between(0, production.len()),
        };
        production.insert(place, before);
        sketch.put(a, production);
        if sketch.random.chance(20) {
            let row = sketch.row(2);
            let first = match solid {
                Some(solid) => Nonterminal(solid),
                None => earlier(sketch.random),
            };
            sketch.add(a, [&[first, TOKEN], &row[..]].concat());
        }
    }
    let last = chain[chain.len() - 1];
    sketch.hinge(last);
    sketch.finish()
}

/// Each of a chain derives a row of tokens by the one before it.
fn deriving_late(random: &mut Random, fault: Fault) -> Grammar {
    let count = size(random, 8, 80);
    let first = random.below(2);
    let chain = chain(random, count, first);
    let mut sketch = Sketch::new(random, fault, count);
    for &a in &chain {
        sketch.claim(a);
    }
    let led = sketch.random.pick(&[0, 0, 50]);
    for (at, &a) in chain.iter().enumerate() {
        if at == 0 {
            sketch.put(a, vec![TOKEN; first]);
            continue;
        }
        let before = Nonterminal(chain[at - 1]);
        let any = Nonterminal(chain[sketch.random.below(at)]);
        let production = match sketch.random.below(4) {
            _ if sketch.random.chance(led) => vec![before, TOKEN, any],
            0 => vec![TOKEN, before],
            1 => vec![TOKEN, any, before],
            2 => vec![TOKEN, before, any],
            _ => vec![TOKEN, TOKEN, before, TOKEN],
        };
        sketch.put(a, production);
        // What comes later cannot help.
        if sketch.random.chance(25) {
            let later = Nonterminal(chain[sketch.random.between(at, chain.len() - 1)]);
            sketch.add(a, vec![TOKEN, any, later]);
        }
    }
    if sketch.fault == Fault::Barren && sketch.random.chance(20) {
        let last = chain[chain.len() - 1];
        sketch.rules[last].clear();
        sketch.barren(&[last]);
        sketch.fault = Fault::None;
    }
    sketch.finish()
}

/// Moves that follow each other, and end.
fn moves_that_end(random: &mut Random, fault: Fault) -> Grammar {
    let rounds = random.pick(&[1, 1, 2, 3, 6, 7, 7, 8, 8, 9, 9, 10, 10, 11, 15, 20]);
    let count = size(random, rounds + 8, 33);
    let mut sketch = Sketch::new(random, fault, count);
    let hidden = sketch.random.pick(&[0, 0, 30, 70]);
    if hidden > 0 {
        for _ in 0..sketch.random.between(1, 2) {
            sketch.empty();
        }
    }
    let stairs = sketch.stairs(rounds, hidden);
    if sketch.fault == Fault::Own && sketch.random.chance(50) {
        let a = stairs[sketch.random.between(1, rounds)];
        sketch.lead(a, a, hidden);
        sketch.fault = Fault::None;
    }
    sketch.finish()
}

/// One that leads to itself by one move, at an end or anywhere, and others that lead to it.
fn own_recursion(random: &mut Random, fault: Fault) -> Grammar {
    let count = size(random, 9, 80);
    let own = some_end(random, count);
    let mut sketch = Sketch::new(random, fault, count);
    sketch.claim(own);
    sketch.plain(own);
    let hidden = sketch.random.pick(&[0, 100]);
    if hidden > 0 || sketch.random.chance(30) {
        sketch.empty();
    }
    sketch.lead(own, own, hidden);
    for _ in 0..sketch.random.pick(&[0, 0, 1, 2]) {
        let a = sketch.bystander();
        sketch.lead(a, own, hidden);
    }
    if sketch.random.chance(30) {
        let rounds = sketch.random.pick(&[1, 3, 8, 9, 10]);
        if rounds + 7 < sketch.free.len() {
            sketch.stairs(rounds, hidden);
        }
    }
    sketch.finish()
}

/// Moves that lead round, and others that end.
fn round(random: &mut Random, fault: Fault) -> Grammar {
    let count = size(random, 8, 60);
    let mut sketch = Sketch::new(random, fault, count);
    let members = match sketch.random.below(4) {
        0 => vec![0, count - 1],
        1 => vec![count - 2, count - 1],
        2 => vec![0, sketch.random.between(1, count - 2), count - 1],
        _ => sketch.take_some(2, count - 6),
    };
    for &member in &members {
        sketch.claim(member);
        sketch.plain(member);
    }
    let hidden = sketch.random.pick(&[0, 0, 50]);
    if hidden > 0 {
        sketch.empty();
    }
    sketch.lead_round(&members, hidden);
    if sketch.random.chance(30) {
        let own = sketch.random.pick(&members);
        sketch.lead(own, own, hidden);
    }
    let rounds = sketch.random.pick(&[0, 0, 1, 2, 6, 7, 8, 9, 12]);
    if rounds > 0 && rounds + 6 < sketch.free.len() {
        sketch.stairs(rounds, hidden);
    }
    for _ in 0..sketch.random.pick(&[0, 0, 1]) {
        let a = sketch.bystander();
        let to = sketch.random.pick(&members);
        sketch.lead(a, to, hidden);
    }
    sketch.finish()
}

/// Moves that lead round, each behind what vanishes; if 7 is not asked for, something that does not
/// vanish stands in the way once.
fn hidden_round(random: &mut Random, fault: Fault) -> Grammar {
    let count = size(random, 16, 33);
    let mut sketch = Sketch::new(random, fault, count);
    let is_round = fault.is_recursive();
    sketch.empty();
    // What vanishes by what vanishes.
    for _ in 0..sketch.random.between(0, 2) {
        let a = sketch.take();
        let row = sketch.hiding(1, 3);
        sketch.put(a, row);
        sketch.vanishing.push(a);
    }
    let solid = sketch.bystander();
    let members = sketch.take_some(2, 6);
    let gap = sketch.random.below(members.len());
    for (at, &member) in members.iter().enumerate() {
        if sketch.random.chance(50) {
            sketch.plain(member);
        } else {
            sketch.put(member, vec![Nonterminal(solid)]);
        }
        let mut production = sketch.hiding(1, 4);
        if at == gap && !is_round {
            let stop = sketch.random.pick(&[TOKEN, Nonterminal(solid)]);
            let at = sketch.random.between(0, production.len());
            production.insert(at, stop);
        }
        production.push(Nonterminal(members[(at + 1) % members.len()]));
        let row = sketch.row(2);
        production.extend(row);
        sketch.put(member, production);
    }
    if is_round {
        sketch.fault = fault.but_recursive();
    }
    sketch.finish()
}

/// Productions that are walked because a first symbol vanishes, with and without more to be found.
fn walked(random: &mut Random, fault: Fault) -> Grammar {
    let count = size(random, 12, 33);
    let mut sketch = Sketch::new(random, fault, count);
    let empty = Nonterminal(sketch.empty());
    let number = match sketch.random.below(4) {
        0 => sketch.random.pick(&[0, 15, 16, 31]).min(count - 1),
        _ => sketch.free[0],
    };
    if sketch.free.contains(&number) {
        sketch.claim(number);
        sketch.plain(number);
    }
    let target = Nonterminal(number);
    let solid = Nonterminal(sketch.bystander());
    for _ in 0..sketch.random.between(1, 3) {
        let a = sketch.take();
        sketch.plain(a);
        let style = sketch.random.below(7);
        let productions = match style {
            0 => vec![vec![empty]],
            1 => vec![vec![empty, TOKEN, target]],
            2 => vec![vec![empty, empty], vec![empty, TOKEN]],
            3 => vec![vec![empty, target], vec![target]],
            4 => vec![vec![empty, target]],
            5 => vec![vec![empty, solid, target], vec![solid, target]],
            _ => vec![vec![empty, TOKEN], vec![solid, target], vec![TOKEN, target]],
        };
        for production in productions {
            sketch.put(a, production);
        }
    }
    sketch.finish()
}

/// Only the lowest or the highest has a row to be widened, or a row is widened only by it.
fn widened_at_an_end(random: &mut Random, fault: Fault) -> Grammar {
    let count = random.between(31, 32);
    let end = some_end(random, count);
    let mut sketch = Sketch::new(random, fault, count);
    sketch.claim(end);
    sketch.plain(end);
    let empty = sketch.empty();
    let other = sketch.bystander();
    let (from, to) = match sketch.random.chance(70) {
        true => (end, other),
        false => (other, end),
    };
    let row = sketch.hiding(1, 3);
    sketch.put(from, [&row[..], &[Nonterminal(to)]].concat());
    // No other row is widened: what is wrong is not hidden.
    sketch.vanishing.clear();
    if fault.is_recursive() && sketch.random.chance(60) {
        sketch.lead(to, from, 0);
        sketch.fault = fault.but_recursive();
    }
    if sketch.random.chance(30) {
        let a = sketch.bystander();
        sketch.put(a, vec![Nonterminal(empty), TOKEN]);
    }
    sketch.finish()
}

/// A production of 30 symbols of which the last decides.
fn thirty_symbols(random: &mut Random, fault: Fault) -> Grammar {
    let count = random.between(10, 24);
    let mut sketch = Sketch::new(random, fault, count);
    sketch.empty();
    let a = sketch.take();
    // The last symbol, and what it hangs on.
    let last = sketch.take();
    let before = sketch.take();
    sketch.put(last, vec![Nonterminal(before)]);
    let style = sketch.random.below(4);
    let mut production = match style {
        0 | 1 => sketch.hiding(29, 29),
        2 => vec![TOKEN; 29],
        _ => [sketch.hiding(20, 20), vec![TOKEN; 9]].concat(),
    };
    production.push(Nonterminal(last));
    sketch.put(a, production);
    let refused = fault.is_recursive();
    match style {
        0 => {
            sketch.put(before, Vec::new());
            sketch.hinge(a);
        }
        1 if refused => {
            sketch.plain(before);
            sketch.lead(last, a, 0);
            sketch.fault = fault.but_recursive();
        }
        1 => {
            sketch.plain(before);
            sketch.lead_back_behind(a);
        }
        _ if fault == Fault::Barren => {
            sketch.barren(&[before]);
            sketch.fault = Fault::None;
        }
        _ => sketch.plain(before),
    }
    sketch.finish()
}

/// Sixteen productions of which the last decides.
fn sixteen_productions(random: &mut Random, fault: Fault) -> Grammar {
    let count = random.between(10, 20);
    let mut sketch = Sketch::new(random, fault, count);
    let a = sketch.take();
    let empty = sketch.empty();
    let vanishing = sketch.take();
    sketch.put(vanishing, vec![Nonterminal(empty)]);
    let solid = sketch.bystander();
    for _ in 0..15 {
        let behind = sketch.random.pick(&[TOKEN, Nonterminal(solid)]);
        let length = sketch.random.below(3);
        let row = [&[TOKEN, Nonterminal(a)], &vec![behind; length][..]].concat();
        sketch.put(a, row);
    }
    sketch.kept = Some(a);
    let refused = fault.is_recursive();
    let style = sketch.random.below(6);
    let leads = style > 3 || (style == 3 && refused);
    if leads && refused {
        sketch.lead(solid, a, 50);
        sketch.fault = fault.but_recursive();
    }
    let [empty, vanishing, solid] = [empty, vanishing, solid].map(Nonterminal);
    let last = match style {
        0 => vec![],
        1 => vec![vanishing, empty],
        2 => vec![TOKEN, solid],
        3 if !leads => vec![vanishing, TOKEN],
        3 | 4 => vec![vanishing, solid],
        _ => vec![solid],
    };
    sketch.put(a, last);
    if style < 2 {
        sketch.hinge(a);
    }
    sketch.finish()
}

/// Each has a production that begins with a nonterminal.
fn all_led(random: &mut Random, fault: Fault) -> Grammar {
    let count = size(random, 2, 33);
    let mut sketch = Sketch::new(random, fault, count);
    let members = sketch.take_some(count, count);
    let own = fault == Fault::Own;
    for (at, &a) in members.iter().enumerate() {
        let to = if own {
            members[at / 2]
        } else {
            sketch.random.pick(&members)
        };
        sketch.lead(a, to, 0);
        if sketch.random.chance(70) {
            sketch.plain(a);
        }
    }
    sketch.finish()
}

/// Some have an empty production and one that begins with a nonterminal, and 7 may hinge on that.
fn empty_and_led(random: &mut Random, fault: Fault) -> Grammar {
    let count = size(random, 10, 33);
    let mut sketch = Sketch::new(random, fault, count);
    let solid = sketch.bystander();
    for _ in 0..sketch.random.between(1, 3) {
        let mut row = sketch.hiding(0, 2);
        row.push(Nonterminal(solid));
        let a = sketch.empty();
        sketch.put(a, row);
    }
    let last = sketch.vanishing[sketch.vanishing.len() - 1];
    if sketch.random.chance(50) {
        sketch.hinge(last);
        return sketch.finish();
    }
    // One more vanishes, and no other is led: nothing is left to look at.
    let a = sketch.take();
    sketch.put(a, vec![Nonterminal(last)]);
    if fault.is_recursive() {
        let back = sketch.empty();
        sketch.put(back, vec![Nonterminal(a), Nonterminal(back)]);
        sketch.fault = fault.but_recursive();
    }
    sketch.finish()
}
