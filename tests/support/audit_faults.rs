//! Faults that one change makes in coherent words: each must be answered with 19, and with nothing
//! else.
#![forbid(unsafe_code)]

use crate::cache_words::{self, DECISIONS, FULL, HELD, HIGHEST_TOKEN, STATE};
use crate::random::Random;
use crate::second_audit::Auditor;
use crate::second_learner::{Memory, Outcome, Said};

/// Coherent words, and what they say.
pub struct Coherent<'a> {
    pub auditor: &'a Auditor<'a>,
    pub memory: &'a Memory<'a>,
}

/// A name for reports, and what makes the fault; false if there is no place for it.
pub type Fault = (&'static str, fn(&Coherent, &mut Random, &mut [u32]) -> bool);

pub const FAULTS: [Fault; 43] = [
    ("another alternative", |it, random, words| {
        it.rewrite(random, words, |it, random, record| {
            let other = random.between(1, 16) as u32;
            it.is_alternative(record.said, |number| number != other)
                .then_some(other)
        })
    }),
    ("FULL for an alternative", |it, random, words| {
        it.rewrite(random, words, |it, _, record| {
            it.is_alternative(record.said, |_| true).then_some(FULL)
        })
    }),
    ("FULL for a state", |it, random, words| {
        it.rewrite(random, words, |_, _, record| {
            matches!(record.said, Said::State(_)).then_some(FULL)
        })
    }),
    ("FULL for a new state, slots free", |it, random, words| {
        it.free() > 0 && it.record_new_state(random, words)
    }),
    (
        "FULL for a new state, all slots taken",
        |it, random, words| it.free() == 0 && it.record_new_state(random, words),
    ),
    ("an alternative for FULL", |it, random, words| {
        it.rewrite(random, words, |_, random, record| {
            (record.said == Said::Full).then(|| random.between(1, 16) as u32)
        })
    }),
    ("an alternative for a state", |it, random, words| {
        it.rewrite(random, words, |_, random, record| {
            matches!(record.said, Said::State(_)).then(|| random.between(1, 16) as u32)
        })
    }),
    ("a state for FULL", |it, random, words| {
        it.rewrite(random, words, |it, random, record| {
            (record.said == Said::Full && it.held() > 0).then(|| it.any_state(random))
        })
    }),
    ("a state for an alternative", |it, random, words| {
        it.rewrite(random, words, |it, random, record| {
            let is_it = it.is_alternative(record.said, |_| true);
            (is_it && it.held() > 0).then(|| it.any_state(random))
        })
    }),
    ("another state of the decision", |it, random, words| {
        it.rewrite(random, words, |it, random, record| {
            it.other_state(random, record, |it, right, other| {
                it.memory.states[right].decision == it.memory.states[other].decision
            })
        })
    }),
    ("a state of another decision", |it, random, words| {
        it.rewrite(random, words, |it, random, record| {
            it.other_state(random, record, |it, right, other| {
                it.memory.states[right].decision != it.memory.states[other].decision
            })
        })
    }),
    (
        "a state of another decision, its configurations the same",
        |it, random, words| {
            it.rewrite(random, words, |it, random, record| {
                it.other_state(random, record, |it, right, other| {
                    it.memory.states[right].kept == it.memory.states[other].kept
                })
            })
        },
    ),
    ("a state that is not held", |it, random, words| {
        it.rewrite(random, words, |it, random, _| {
            Some(STATE + (it.held() + random.pick(&[0, 0, 1, 2, 1_024])) as u32)
        })
    }),
    ("an outcome that no state has", |it, random, words| {
        it.rewrite(random, words, |_, random, _| {
            Some(random.pick(&[1 << 16, 1 << 31, u32::MAX]))
        })
    }),
    ("two equal states", |it, random, words| {
        it.copy_state(random, words, true)
    }),
    (
        "two equal states, one without steps",
        |it, random, words| it.copy_state(random, words, false),
    ),
    ("a state without configurations", |it, random, words| {
        let decision = random.pick(&it.auditor.decisions_or_none());
        let Some(decision) = decision else {
            return false;
        };
        it.free() > 0 && {
            it.add_state(words, 0, decision as u32, &[]);
            true
        }
    }),
    ("configurations out of order", |it, random, words| {
        it.in_a_state(
            random,
            words,
            |count| count >= 2,
            |random, at, count, words| {
                let one = random.below(count - 1);
                let other = random.between(one + 1, count - 1);
                for word in 0..3 {
                    words.swap(at + 3 * one + word, at + 3 * other + word);
                }
            },
        )
    }),
    ("a configuration twice", |it, random, words| {
        let fits = |count| (1..64).contains(&count);
        it.in_a_state(random, words, fits, |random, at, count, words| {
            let one = random.below(count);
            words.copy_within(at + 3 * one..at + 3 * count, at + 3 * one + 3);
            words[at - 127] += 1;
        })
    }),
    ("a place above 256", |it, random, words| {
        let place = random.pick(&[257, 258, 511]);
        it.add_config(random, words, [place | 1 << 9, 0, 0])
    }),
    ("no alternative", |it, random, words| {
        it.add_config(random, words, [3, 0, 0])
    }),
    ("an alternative above 16", |it, random, words| {
        let alternative = random.between(17, 31) as u32;
        it.add_config(random, words, [3 | alternative << 9, 0, 0])
    }),
    ("more than 8 return places", |it, random, words| {
        let entries = random.between(9, 15) as u32;
        let [low, high] = [0; 2].map(|_: u32| random.next() as u32);
        it.add_config(random, words, [3 | 1 << 9 | entries << 14, low, high])
    }),
    (
        "a bit above the number of return places",
        |it, random, words| {
            let bit = random.between(18, 31);
            it.add_config(random, words, [3 | 1 << 9 | 1 << bit, 0, 0])
        },
    ),
    ("a return place that is not there", |it, random, words| {
        let entries = random.below(8) as u32;
        let bit = random.between(8 * entries as usize, 63);
        let stack = 1u64 << bit;
        let head = 3 | 1 << 9 | entries << 14;
        it.add_config(random, words, [head, stack as u32, (stack >> 32) as u32])
    }),
    ("more than 64 configurations", |it, random, words| {
        let Some(decision) = random.pick(&it.auditor.decisions_or_none()) else {
            return false;
        };
        it.free() > 0 && {
            let configs: Vec<u32> = (0..64).flat_map(|place| [place | 1 << 9, 0, 0]).collect();
            it.add_state(words, 0, decision as u32, &configs);
            words[cache_words::count_at(it.held())] =
                random.pick(&[65, 66, 128, 1 << 31, u32::MAX]);
            true
        }
    }),
    ("no such nonterminal for a decision", |it, random, words| {
        let count = it.auditor.grammar().rules.len() as u32;
        let decision = random.pick(&[count, count + 1, 32, 256, 1 << 31, u32::MAX]);
        it.free() > 0 && {
            it.add_state(words, 0, decision, &[3 | 1 << 9, 0, 0]);
            true
        }
    }),
    (
        "a nonterminal of one production for a decision",
        |it, random, words| {
            let Some(single) = it.single(random) else {
                return false;
            };
            it.free() > 0 && {
                it.add_state(words, 0, single as u32, &[3 | 1 << 9, 0, 0]);
                true
            }
        },
    ),
    ("word 0", |_, random, words| write(random, words, 0)),
    ("a word from 5 to 31", |_, random, words| {
        let at = random.between(5, 31);
        write(random, words, at)
    }),
    (
        "the start of a nonterminal of one production",
        |it, random, words| match it.single(random) {
            Some(single) => {
                words[cache_words::start_at(single)] = random.pick(&[1, 1, 2, FULL, STATE]);
                true
            }
            None => false,
        },
    ),
    (
        "the start of a nonterminal that is not there",
        |it, random, words| {
            let count = it.auditor.grammar().rules.len();
            count < DECISIONS && {
                let at = cache_words::start_at(random.between(count, DECISIONS - 1));
                words[at] = random.pick(&[1, 2, FULL, STATE, u32::MAX]);
                true
            }
        },
    ),
    ("a word behind the grammar's bytes", |it, random, words| {
        let first = 64 + it.auditor.bytes.len().div_ceil(4);
        let anywhere = random.between(first, 2_047);
        let at = random.pick(&[first, anywhere, anywhere, 2_047]);
        write(random, words, at)
    }),
    (
        "a step over a token above the highest",
        |it, random, words| {
            let kinds = it.auditor.grammar().kinds;
            it.held() > 0 && kinds < HIGHEST_TOKEN && {
                let token = random.between(kinds as usize + 1, HIGHEST_TOKEN as usize) as u32;
                let first = random.chance(30);
                let token = if first { kinds + 1 } else { token };
                words[cache_words::step_at(random.below(it.held()), token)] =
                    random.pick(&[1, FULL, FULL, STATE]);
                true
            }
        },
    ),
    ("a word from 103 to 127 of a slot", |it, random, words| {
        it.held() > 0 && {
            let at = cache_words::slot_at(random.below(it.held())) + random.between(103, 127);
            write(random, words, at)
        }
    }),
    ("a word behind the configurations", |it, random, words| {
        let fits = |count| count < 64;
        it.in_a_state(random, words, fits, |random, at, count, words| {
            let (first, last) = (at + 3 * count, at + 191);
            let anywhere = random.between(first, last);
            let at = random.pick(&[first, anywhere, anywhere, last]);
            write(random, words, at);
        })
    }),
    (
        "a step from a slot that is not held",
        |it, random, words| {
            it.free() > 0 && {
                let state = it.held() + random.below(it.free());
                let token = random.between(0, it.auditor.grammar().kinds as usize) as u32;
                words[cache_words::step_at(state, token)] = random.pick(&[1, FULL, STATE]);
                true
            }
        },
    ),
    ("a word behind the last held slot", |it, random, words| {
        it.free() > 0 && {
            let first = cache_words::slot_at(it.held());
            let at = random.between(first, cache_words::slot_at(it.memory.slots) - 1);
            write(random, words, at)
        }
    }),
    ("a word behind the last slot", |it, random, words| {
        let first = cache_words::slot_at(it.memory.slots);
        first < words.len() && {
            let anywhere = random.between(first, words.len() - 1);
            let at = random.pick(&[first, anywhere, words.len() - 1]);
            write(random, words, at)
        }
    }),
    ("more states than slots", |it, random, words| {
        let next = it.memory.slots as u32 + 1;
        words[HELD] = random.pick(&[next, next + 1, 1 << 16, 1 << 31, u32::MAX]);
        true
    }),
    ("a state too few", |it, _, words| {
        // The last one has configurations, so that its words are not all 0.
        let has_some = it
            .memory
            .states
            .last()
            .is_some_and(|last| !last.kept.is_empty());
        has_some && {
            words[HELD] -= 1;
            true
        }
    }),
    (
        "a state too many, nonterminal 0 no decision",
        |it, _, words| {
            it.free() > 0 && !it.auditor.decides(0) && {
                words[HELD] += 1;
                true
            }
        },
    ),
    ("two states too many", |it, _, words| {
        it.free() > 1 && {
            words[HELD] += 2;
            true
        }
    }),
];

/// A word that is not 0, where 0 must be.
fn write(random: &mut Random, words: &mut [u32], at: usize) -> bool {
    let any = random.next() as u32 | 1;
    words[at] = random.pick(&[1, 1, FULL, STATE, 1 << 31, any]);
    true
}

/// Something that is recorded.
struct Record {
    at: usize,
    said: Said,
}

impl Coherent<'_> {
    fn held(&self) -> usize {
        self.memory.states.len()
    }

    fn free(&self) -> usize {
        self.memory.slots - self.held()
    }

    fn any_state(&self, random: &mut Random) -> u32 {
        STATE + random.below(self.held()) as u32
    }

    /// A nonterminal with one production.
    fn single(&self, random: &mut Random) -> Option<usize> {
        let all = 0..self.auditor.grammar().rules.len();
        let single: Vec<usize> = all.filter(|&it| !self.auditor.decides(it)).collect();
        (!single.is_empty()).then(|| random.pick(&single))
    }

    fn is_alternative(&self, said: Said, test: impl Fn(u32) -> bool) -> bool {
        matches!(said, Said::Alternative(number) if test(u32::from(number)))
    }

    fn records(&self) -> Vec<Record> {
        let starts = self.memory.starts.iter().map(|(&decision, &said)| Record {
            at: cache_words::start_at(decision),
            said,
        });
        let states = self.memory.states.iter().enumerate();
        let steps = states.flat_map(|(state, held)| {
            held.steps.iter().map(move |(&token, &said)| Record {
                at: cache_words::step_at(state, token),
                said,
            })
        });
        starts.chain(steps).collect()
    }

    /// Gives some record another word.
    fn rewrite(
        &self,
        random: &mut Random,
        words: &mut [u32],
        other: fn(&Self, &mut Random, &Record) -> Option<u32>,
    ) -> bool {
        let mut records = self.records();
        random.shuffle(&mut records);
        for record in records {
            if let Some(word) = other(self, random, &record) {
                words[record.at] = word;
                return true;
            }
        }
        false
    }

    /// A state that is not the recorded one.
    fn other_state(
        &self,
        random: &mut Random,
        record: &Record,
        fits: fn(&Self, usize, usize) -> bool,
    ) -> Option<u32> {
        let Said::State(right) = record.said else {
            return None;
        };
        let others = (0..self.held()).filter(|&other| other != right && fits(self, right, other));
        let others: Vec<usize> = others.collect();
        (!others.is_empty()).then(|| STATE + random.pick(&others) as u32)
    }

    /// Records FULL where nothing is recorded and the rules give a state that is not held.
    fn record_new_state(&self, random: &mut Random, words: &mut [u32]) -> bool {
        let is_new = |decision: usize, outcome: &Outcome| match outcome {
            Outcome::State(kept) => {
                let mut states = self.memory.states.iter();
                !states.any(|held| held.decision == decision && held.kept == *kept)
            }
            _ => false,
        };
        let mut places = Vec::new();
        for decision in self.auditor.decisions() {
            let is_open = !self.memory.starts.contains_key(&decision);
            if is_open && is_new(decision, &self.auditor.start(decision)) {
                places.push(cache_words::start_at(decision));
            }
        }
        for (state, held) in self.memory.states.iter().enumerate().take(8) {
            for token in 0..=self.auditor.grammar().kinds.min(8) {
                let is_open = !held.steps.contains_key(&token);
                if is_open && is_new(held.decision, &self.auditor.step(&held.kept, token)) {
                    places.push(cache_words::step_at(state, token));
                }
            }
        }
        !places.is_empty() && {
            words[random.pick(&places)] = FULL;
            true
        }
    }

    /// A state more: `behind` is how many stand between the held ones and it.
    fn add_state(&self, words: &mut [u32], behind: usize, decision: u32, configs: &[u32]) {
        let state = self.held() + behind;
        words[cache_words::slot_at(state)] = decision;
        words[cache_words::count_at(state)] = configs.len() as u32 / 3;
        words[cache_words::configs_at(state)..][..configs.len()].copy_from_slice(configs);
        words[HELD] += 1;
    }

    /// A state more, of one configuration.
    fn add_config(&self, random: &mut Random, words: &mut [u32], config: [u32; 3]) -> bool {
        let decision = random.pick(&self.auditor.decisions_or_none());
        match decision {
            Some(decision) if self.free() > 0 => {
                self.add_state(words, 0, decision as u32, &config);
                true
            }
            _ => false,
        }
    }

    /// A held state once more.
    fn copy_state(&self, random: &mut Random, words: &mut [u32], with_steps: bool) -> bool {
        self.held() > 0 && self.free() > 0 && {
            let from = cache_words::slot_at(random.below(self.held()));
            let to = cache_words::slot_at(self.held());
            words.copy_within(from..from + 320, to);
            if !with_steps {
                words[to + 2..to + 103].fill(0);
            }
            words[HELD] += 1;
            true
        }
    }

    /// Changes the configurations of some state that has as many as fit: they begin at a word, and
    /// there are so many.
    fn in_a_state(
        &self,
        random: &mut Random,
        words: &mut [u32],
        fits: impl Fn(usize) -> bool,
        change: impl Fn(&mut Random, usize, usize, &mut [u32]),
    ) -> bool {
        let count = |state: usize| self.memory.states[state].kept.len();
        let states: Vec<usize> = (0..self.held()).filter(|&it| fits(count(it))).collect();
        !states.is_empty() && {
            let state = random.pick(&states);
            change(random, cache_words::configs_at(state), count(state), words);
            true
        }
    }
}
