//! The ways in which the check comes to its answer once a grammar is read, and how often the
//! grammars drawn for them (`check_families.rs`) take each way to each answer.
#![forbid(unsafe_code)]

use crate::check_facts::{last, Facts, PASSES};
use crate::tree::Symbol;

/// The answers that a way can come to.
const ANY: &[u32] = &[0, 6, 7];
const NOT_7: &[u32] = &[0, 6];
const NOT_6: &[u32] = &[0, 7];
const ONLY_0: &[u32] = &[0];
const ONLY_6: &[u32] = &[6];
const ONLY_7: &[u32] = &[7];

/// The turns in which one is found, all rounds alike.
const FOUND: [&str; 4] = ["at once", "in pass 1", "in pass 2", "in rounds"];

/// Turns that may be the last to find one.
const LAST: [(usize, &str); 5] = [
    (1, "in pass 1"),
    (2, "in pass 2"),
    (PASSES + 1, "in round 1"),
    (PASSES + 2, "in round 2"),
    (PASSES + 8, "in round 8"),
];

/// The ends of a word that is full or lacks one: a name, the number, and how many there are.
const AT_ENDS: [(&str, usize, usize); 4] = [
    ("the lowest of 31", 0, 31),
    ("the lowest of 32", 0, 32),
    ("the highest of 31", 30, 31),
    ("the highest of 32", 31, 32),
];

/// A way, and how often it led to each answer.
struct Way {
    name: String,
    answers: &'static [u32],
    is_taken: Box<dyn Fn(&Facts) -> bool>,
    times: [usize; 8],
}

pub struct Ways {
    all: Vec<Way>,
}

impl Ways {
    pub fn new() -> Ways {
        let mut ways = Ways { all: Vec::new() };
        ways.sizes();
        ways.firsts();
        ways.vanishing();
        ways.not_vanishing();
        ways.deriving();
        ways.corners();
        ways.endings();
        ways.recursion();
        ways
    }

    pub fn count(&mut self, facts: &Facts, answer: u32) {
        for way in &mut self.all {
            way.times[answer as usize] += usize::from((way.is_taken)(facts));
        }
    }

    /// A line for each way and the answers that it can come to, and the least times of all.
    pub fn report(&self) -> (Vec<String>, usize) {
        let times = |way: &Way, answer: u32| match answer {
            0 => format!("sound {}", way.times[0]),
            _ => format!("refused {answer}: {}", way.times[answer as usize]),
        };
        let line = |way: &Way| {
            let all: Vec<String> = way.answers.iter().map(|&it| times(way, it)).collect();
            format!("{} ({})", way.name, all.join(", "))
        };
        let least = |way: &Way| way.answers.iter().map(|&it| way.times[it as usize]).min();
        let least_of_all = self.all.iter().filter_map(least).min();
        (
            self.all.iter().map(line).collect(),
            least_of_all.unwrap_or(0),
        )
    }

    fn add(
        &mut self,
        name: impl Into<String>,
        answers: &'static [u32],
        is_taken: impl Fn(&Facts) -> bool + 'static,
    ) {
        self.all.push(Way {
            name: name.into(),
            answers,
            is_taken: Box::new(is_taken),
            times: [0; 8],
        });
    }

    /// A way that some nonterminal takes.
    fn add_one(
        &mut self,
        name: impl Into<String>,
        answers: &'static [u32],
        takes: impl Fn(&Facts, usize) -> bool + 'static,
    ) {
        self.add(name, answers, move |it| it.any(|a| takes(it, a)));
    }

    /// A way that some nonterminal takes that vanishes, and the same if 7 hinges on that.
    fn add_vanishing(
        &mut self,
        name: impl Into<String>,
        takes: impl Fn(&Facts, usize) -> bool + Clone + 'static,
    ) {
        let name = name.into();
        let hinging = format!("{name}, and 7 hinges on it");
        self.add_one(name, ANY, takes.clone());
        self.add_one(hinging, ONLY_7, move |it, a| takes(it, a) && it.hinges(a));
    }

    /// A way that some nonterminal takes whose row would be another without it, and the same if 7
    /// hinges on that.
    fn add_row(
        &mut self,
        name: impl Into<String>,
        takes: impl Fn(&Facts, usize) -> Option<Vec<usize>> + Clone + 'static,
    ) {
        let name = name.into();
        let hinging = format!("{name}, and 7 hinges on it");
        let row = move |it: &Facts, a: usize| takes(it, a).filter(|row| *row != it.moves[a]);
        let again = row.clone();
        self.add_one(name, ANY, move |it, a| row(it, a).is_some());
        self.add_one(hinging, ONLY_7, move |it, a| {
            again(it, a).is_some_and(|row| it.hinges_on_row(a, row))
        });
    }

    fn sizes(&mut self) {
        for count in [1, 31, 32] {
            let name = format!("nonterminals: {count}");
            self.add(name, ANY, move |it| it.count() == count);
        }
        for kinds in [63, 64, 65, 100] {
            let name = format!("kinds: {kinds}, and the highest is used");
            self.add(name, ANY, move |it| {
                let highest = Symbol::Token(kinds);
                it.grammar.kinds == kinds && it.productions().any(|p| p.contains(&highest))
            });
        }
        let is_long = |symbol: &Symbol| matches!(symbol, Symbol::Token(64..));
        self.add("symbols of one byte and of two in a row", ANY, move |it| {
            let mut rows = it.productions();
            rows.any(|p| p.iter().any(is_long) && !p.iter().all(is_long))
        });
        self.add("tokens of two bytes alone", ANY, move |it| {
            let is_short = |symbol: &Symbol| matches!(symbol, Symbol::Token(..64));
            let symbols = || it.productions().flatten();
            symbols().any(is_long) && !symbols().any(is_short)
        });
        self.add("30 symbols", ANY, |it| {
            it.productions().any(|p| p.len() == 30)
        });
        self.add_one("16 productions", ANY, |it, a| {
            it.grammar.rules[a].len() == 16
        });
        self.add("255 places", ANY, |it| it.grammar.places() == 255);
    }

    fn firsts(&mut self) {
        self.add("nothing is empty, nothing led", NOT_7, |it| {
            !it.some_empty() && !it.some_led()
        });
        self.add("something is empty, nothing led", NOT_7, |it| {
            it.some_empty() && !it.some_led()
        });
        self.add("nothing is empty, something led", ANY, |it| {
            !it.some_empty() && it.some_led()
        });
        self.add(
            "something is empty, something led, no first vanishes",
            ANY,
            |it| it.some_empty() && it.some_led() && !it.walked.contains(&true),
        );
        self.add_one("a first symbol vanishes", ANY, |it, a| it.walked[a]);
        self.add("all are led", ONLY_7, |it| !it.any(|a| !it.is_led(a)));
        self.add_vanishing("empty and led", |it, a| it.is_empty(a) && it.is_led(a));
    }

    fn vanishing(&mut self) {
        let all = |it: &Facts| !it.vanishes.contains(&None);
        self.add("all vanish, of 1", NOT_6, move |it| {
            it.count() == 1 && all(it)
        });
        for count in [31, 32] {
            for (turn, name) in FOUND.iter().enumerate().skip(1) {
                let name = format!("all vanish, of {count}, the last {name}");
                self.add(name, NOT_6, move |it| {
                    it.count() == count && all(it) && is_found(last(&it.vanishes), turn)
                });
            }
        }
        self.add("all but one of 32 vanish, the last in rounds", ANY, |it| {
            let others = it.vanishes.iter().filter(|turn| turn.is_some()).count();
            it.count() == 32 && others == 31 && is_found(last(&it.vanishes), PASSES + 1)
        });
        for (turn, name) in LAST {
            self.add_vanishing(format!("the last vanish {name}"), move |it, a| {
                it.vanishes[a] == Some(turn) && last(&it.vanishes) == Some(turn)
            });
        }
        self.add_vanishing(
            "just those that are led vanish, the last in pass 1",
            |it, a| {
                let differs = |b: usize| it.is_led(b) != it.is_nullable(b);
                it.vanishes[a] == Some(1) && last(&it.vanishes) == Some(1) && !it.any(differs)
            },
        );
        for (who, at, count) in AT_ENDS {
            for (turn, name) in FOUND.iter().enumerate() {
                self.add_vanishing(format!("{who} vanishes {name}"), move |it, a| {
                    a == at && it.count() == count && is_found(it.vanishes[a], turn)
                });
            }
        }
        self.add_one(
            "it vanishes in rounds, all others before, and 7 hinges on it",
            ONLY_7,
            |it, a| {
                let late = |a: usize| it.vanishes[a].is_none_or(|turn| turn > PASSES);
                it.vanishes[a] > Some(PASSES) && it.only(late) == Some(a) && it.hinges(a)
            },
        );
        self.add_vanishing(
            "vanishes by symbols without an empty production",
            |it, a| {
                let first_empty = || it.firsts[a].iter().any(|&b| it.is_empty(b));
                it.vanishes[a] > Some(0) && !first_empty()
            },
        );
        self.add_vanishing("vanishes two turns behind its first symbols", |it, a| {
            let firsts = it.firsts[a].iter().map(|&b| it.vanishes[b]);
            it.walked[a] && it.vanishes[a] > firsts.max().flatten().map(|turn| turn + 1)
        });
        self.add_vanishing("vanishes, though a first symbol does not", |it, a| {
            it.vanishes[a] > Some(0) && it.firsts[a].iter().any(|&b| !it.is_nullable(b))
        });
        self.add_vanishing("vanishes by 30 symbols alone", |it, a| {
            it.by_thirty(a, false)
        });
        self.add_vanishing("vanishes by the sixteenth production alone", |it, a| {
            !it.is_empty(a) && it.by_sixteenth(a, false)
        });
        self.add_vanishing("vanishes by the sixteenth, empty", |it, a| {
            it.is_empty(a) && it.by_sixteenth(a, false)
        });
        for (name, known) in [("known", true), ("not known", false)] {
            let name = format!("vanishing in rounds, the highest {name} before");
            self.add(name, ANY, move |it| {
                let highest = it.vanishes[it.count() - 1];
                last(&it.vanishes) > Some(PASSES)
                    && highest.is_some_and(|turn| turn <= PASSES) == known
            });
        }
    }

    /// One is looked at, because a first symbol vanishes, and does not vanish.
    fn not_vanishing(&mut self) {
        let in_vain = |it: &Facts, a: usize| it.walked[a] && !it.is_nullable(a);
        self.add("looked at in vain, and none found", ANY, move |it| {
            last(&it.vanishes) == Some(0) && it.any(|a| in_vain(it, a))
        });
        self.add_one("looked at in vain", ANY, in_vain);
        self.add_one("looked at in vain, else 7", NOT_7, move |it, a| {
            in_vain(it, a) && it.hinges(a)
        });
        self.add_one(
            "looked at in vain, in rounds too, else 7",
            NOT_7,
            move |it, a| last(&it.vanishes) > Some(PASSES) && in_vain(it, a) && it.hinges(a),
        );
        self.add_one("but for tokens it would vanish, and 7", NOT_7, |it, a| {
            it.but_for_tokens(a) && it.hinges(a)
        });
        self.add_one("but for a thirtieth symbol, and 7", NOT_7, |it, a| {
            it.but_for_thirtieth(a, false) && it.hinges(a)
        });
    }

    fn deriving(&mut self) {
        self.add("none is found to derive", ONLY_6, |it| {
            last(&it.derives).is_none_or(|turn| turn == 0)
        });
        for (turn, name) in LAST {
            let name = format!("the last derive {name}");
            self.add(name, NOT_7, move |it| last(&it.derives) == Some(turn));
        }
        self.add("the only one derives in pass 1", ONLY_0, |it| {
            it.count() == 1 && it.derives[0] == Some(1)
        });
        for (who, at, count) in AT_ENDS {
            for (turn, name) in FOUND.iter().enumerate().skip(1) {
                self.add(format!("{who} derives {name}"), NOT_7, move |it| {
                    it.count() == count && is_found(it.derives[at], turn)
                });
            }
            self.add(format!("only {who} does not derive"), ONLY_6, move |it| {
                it.count() == count && it.only(|a| it.derives[a].is_none()) == Some(at)
            });
        }
        self.add_one("derives by 30 symbols alone", NOT_7, |it, a| {
            !it.is_nullable(a) && it.by_thirty(a, true)
        });
        self.add(
            "the lowest would, but for a thirtieth symbol",
            ONLY_6,
            |it| {
                let lowest = it.lowest_barren();
                lowest.is_some_and(|a| it.but_for_thirtieth(a, true))
            },
        );
        self.add_one(
            "derives by the sixteenth production alone",
            NOT_7,
            |it, a| !it.is_nullable(a) && it.by_sixteenth(a, true),
        );
        for (name, known) in [("known", true), ("not known", false)] {
            let name = format!("deriving in rounds, the highest {name} before");
            self.add(name, NOT_7, move |it| {
                let highest = it.derives[it.count() - 1];
                last(&it.derives) > Some(PASSES)
                    && highest.is_some_and(|turn| turn <= PASSES) == known
            });
        }
    }

    fn corners(&mut self) {
        self.add_one("a row is walked and stays", ANY, |it, a| {
            it.walked[a] && !it.widened[a]
        });
        self.add_one("a row is widened by others", ANY, |it, a| {
            it.widened[a] && !it.adds(a, a)
        });
        self.add_one("a row is widened by its own", ONLY_7, |it, a| it.adds(a, a));
        for b in [0, 15, 16, 31] {
            self.add_row(format!("another's row is widened by {b}"), move |it, a| {
                let row = || it.moves[a].iter().copied().filter(|&to| to != b);
                (a != b && it.adds(a, b)).then(|| row().collect())
            });
        }
        for (who, at, count) in AT_ENDS {
            let name = format!("only the row of {who} is widened");
            self.add_row(name, move |it, a| {
                let alone = || it.only(|a| it.widened[a]) == Some(at);
                (a == at && it.count() == count && alone()).then(|| it.firsts[a].clone())
            });
        }
        self.add_row("widened, though a first symbol stays", |it, a| {
            let stays = || it.firsts[a].iter().any(|&b| !it.is_nullable(b));
            (it.widened[a] && stays()).then(|| it.firsts[a].clone())
        });
        self.add_row("widened, and vanishes", |it, a| {
            (it.widened[a] && it.is_nullable(a)).then(|| it.firsts[a].clone())
        });
        self.add_row("a move by a thirtieth symbol alone", |it, a| {
            let is_long = it.grammar.rules[a].iter().any(|p| p.len() == 30);
            is_long.then(|| it.without_thirtieth(a))
        });
        self.add_row("a move by a sixteenth production alone", |it, a| {
            (it.grammar.rules[a].len() == 16).then(|| it.without_sixteenth(a))
        });
        self.add_one("walked for the sixteenth production alone", ANY, |it, a| {
            it.is_walked_for_sixteenth(a)
        });
        for (name, at_once) in [("at once", true), ("behind what vanishes", false)] {
            for (at, at_token) in [("a token", true), ("a nonterminal", false)] {
                let name = format!("a walk stops {name} at {at}");
                self.add_one(name, ANY, move |it, a| it.stops(a, at_once, at_token));
            }
        }
        self.add_one("a walk to the end", ANY, |it, a| it.is_walked_to_end(a));
    }

    fn endings(&mut self) {
        self.add("moves end in the pass", NOT_7, |it| {
            !it.some_round() && last(&it.ends) == Some(1)
        });
        self.add("hidden moves end in the pass", NOT_7, |it| {
            it.widened.contains(&true) && !it.some_round() && last(&it.ends) == Some(1)
        });
        for (who, at, count) in AT_ENDS {
            let name = format!("only the moves of {who} end later than in the pass");
            // The lowest comes last, when all others are known to end: it leads to itself.
            let answers = if at == 0 { ONLY_7 } else { ANY };
            self.add(name, answers, move |it| {
                let late = |a: usize| it.ends[a] > Some(1);
                it.count() == count && !it.some_round() && it.only(late) == Some(at)
            });
        }
        for rounds in [1, 2, 7, 8, 9, 10] {
            self.add(format!("moves end in round {rounds}"), ANY, move |it| {
                !it.some_round() && last(&it.ends) == Some(rounds + 1)
            });
        }
        for (name, few) in [("at most 8", true), ("more", false)] {
            let name = format!("hidden moves end after {name} rounds");
            self.add(name, ANY, move |it| {
                let is_hidden = it.widened.contains(&true);
                is_hidden && !it.some_round() && (last(&it.ends) <= Some(9)) == few
            });
        }
        for (name, turns) in [
            ("at once", 0..=0),
            ("in the pass", 1..=1),
            ("in round 1 to 7", 2..=8),
            ("later", 9..=32),
        ] {
            let name = format!("moves lead round, others end {name}");
            self.add(name, ONLY_7, move |it| {
                it.some_round() && turns.contains(&last(&it.ends).unwrap_or(0))
            });
        }
    }

    fn recursion(&mut self) {
        let alone = |it: &Facts| match it.some_round() {
            true => None,
            false => it.only(|a| it.is_own(a)),
        };
        self.add("own recursion of the only one", ONLY_7, move |it| {
            it.count() == 1 && alone(it) == Some(0)
        });
        for (who, at, count) in AT_ENDS {
            for (name, hidden) in [("", false), (", hidden", true)] {
                let name = format!("own recursion of {who} alone{name}");
                self.add(name, ONLY_7, move |it| {
                    it.count() == count && alone(it) == Some(at) && it.adds(at, at) == hidden
                });
            }
        }
        self.add("own recursion of several alone", ONLY_7, move |it| {
            !it.some_round() && it.lowest_recursive().is_some() && alone(it).is_none()
        });
        for count in [31, 32] {
            let name = format!("round through the ends of {count}");
            self.add(name, ONLY_7, move |it| {
                it.count() == count && it.are_on_a_round(0, count - 1)
            });
            let name = format!("round through the two highest of {count} alone");
            self.add(name, ONLY_7, move |it| {
                let two = (count - 2, count - 1);
                it.count() == count
                    && it.lowest_recursive() == Some(two.0)
                    && it.are_on_a_round(two.0, two.1)
            });
        }
        for (name, least) in [("two", 2), ("four", 4)] {
            let name = format!("round only behind what vanishes, of {name} or more");
            self.add(name, ONLY_7, move |it| {
                let members = it.recursive.iter().filter(|yes| **yes);
                it.some_round() && members.count() >= least && !it.is_obvious()
            });
        }
        self.add("but for what does not vanish, 7", NOT_7, |it| {
            it.nearly_recursive()
        });
        self.add("the lowest is its own, others lead round", ONLY_7, |it| {
            let lowest = it.lowest_recursive();
            it.some_round() && lowest.is_some_and(|a| it.ends[a].is_some())
        });
        let lowest_on_round = |it: &Facts| {
            let lowest = it.lowest_recursive();
            it.some_round() && lowest.is_some_and(|a| !it.is_own(a))
        };
        self.add(
            "the lowest leads round, another is its own",
            ONLY_7,
            move |it| lowest_on_round(it) && it.any(|a| it.is_own(a) && it.ends[a].is_some()),
        );
        self.add(
            "the lowest leads round, but by one that is its own",
            ONLY_7,
            move |it| lowest_on_round(it) && it.rounds_have_own(),
        );
        let both = |it: &Facts| it.lowest_recursive().zip(it.lowest_barren());
        self.add("both faults, 6 at a lower one", ONLY_7, move |it| {
            both(it).is_some_and(|(recursive, barren)| barren < recursive)
        });
        self.add("both faults, 6 at a higher one", ONLY_7, move |it| {
            both(it).is_some_and(|(recursive, barren)| barren > recursive)
        });
        self.add("both faults at the same one", ONLY_7, move |it| {
            both(it).is_some_and(|(recursive, barren)| barren == recursive)
        });
    }
}

/// Whether one is found in this turn of `FOUND`.
fn is_found(turn: Option<usize>, wanted: usize) -> bool {
    turn.map(|turn| turn.min(PASSES + 1)) == Some(wanted)
}
