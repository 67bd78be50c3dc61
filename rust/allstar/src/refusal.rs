//! Why something is refused: the numbers 1 to 19 of the library, with their places.

use std::error::Error;
use std::fmt;

/// Why a grammar is refused: 1 to 5 as the bytes come, then 7, then 6. Bytes and nonterminals count from 0.
#[derive(Clone, Copy, Debug, PartialEq, Eq, Hash)]
pub enum GrammarRefusal {
    /// 1: the bytes end before the grammar does.
    Unfinished {
        /// Where the unfinished number starts.
        byte: usize,
    },
    /// 2: a number is not in its shortest form, or above 65,535.
    Malformed {
        /// Where it starts.
        byte: usize,
    },
    /// 3: a number breaks its limit.
    OverLimit {
        /// Where it starts.
        byte: usize,
    },
    /// 4: a symbol is a token kind or a nonterminal that does not exist.
    UnknownSymbol {
        /// Where it starts.
        byte: usize,
    },
    /// 5: bytes follow a complete grammar.
    Trailing {
        /// The first of them.
        byte: usize,
    },
    /// 6: a nonterminal derives no row of tokens, and none is left recursive.
    Unproductive {
        /// The lowest such.
        nonterminal: usize,
    },
    /// 7: a nonterminal is left recursive, whether or not each derives some row.
    LeftRecursive {
        /// The lowest such.
        nonterminal: usize,
    },
}

/// Why a note is refused. Tokens count from 0.
#[derive(Clone, Copy, Debug, PartialEq, Eq, Hash)]
pub enum NoteRefusal {
    /// 8: the note has more than 128 tokens.
    LongNote,
    /// 9: a token is 0 or above the grammar's highest kind.
    UnknownToken {
        /// The first such.
        token: usize,
    },
    /// 10: the note is no sentence.
    NotASentence {
        /// The first token that no sentence allows there, or the note's length if it breaks off.
        token: usize,
    },
    /// 14: the note is a sentence, and its derivation has more entries than the
    /// [longest row](crate::Workspace::with_longest_row).
    ShortRow,
}

/// Why a cache is refused.
#[derive(Clone, Copy, Debug, PartialEq, Eq, Hash)]
pub enum CacheRefusal {
    /// 12: the cache has no slot: fewer than 2,368 words.
    ShortCache,
    /// 13: the words were not begun for this grammar at this length.
    ForeignCache,
    /// 19: the words are laid out otherwise than they must be, a decision holds two equal states, or something
    /// is recorded that the learning rules do not give. Only an [audit](crate::Cache::audited) says so.
    NotCoherent,
}

/// Why a typed line, or the list lent with it, is refused. Bytes count from 0.
#[derive(Clone, Copy, Debug, PartialEq, Eq, Hash)]
pub enum LineRefusal {
    /// 15: the line has more than 512 bytes.
    LongLine,
    /// 16: a byte of the line is below 32 or above 126.
    ForeignByte {
        /// The first such.
        byte: usize,
    },
    /// 17: the list is anything but words with single blanks between, has more than 66, or one of them twice.
    BadList,
}

/// Any refusal: what all the others turn into by `?`.
#[derive(Clone, Copy, Debug, PartialEq, Eq, Hash)]
pub enum Refusal {
    /// 1 to 7: of a grammar.
    Grammar(GrammarRefusal),
    /// 8, 9, 10 and 14: of a note.
    Note(NoteRefusal),
    /// 11: the working space is too short. [`Workspace`](crate::Workspace) never is.
    ShortWorkspace,
    /// 12, 13 and 19: of a cache.
    Cache(CacheRefusal),
    /// 15 to 17: of a typed line.
    Line(LineRefusal),
    /// 18: what is lent for a batch does not fit together. [`Cache::read_all`](crate::Cache::read_all) never
    /// lends that.
    BadBatch,
}

impl Refusal {
    /// The refusal of a number and a place; none for 0, which is no refusal, and for what is no number of the
    /// library.
    pub fn new(number: u32, place: u64) -> Option<Refusal> {
        let at = place as usize;
        Some(match number {
            1 => GrammarRefusal::Unfinished { byte: at }.into(),
            2 => GrammarRefusal::Malformed { byte: at }.into(),
            3 => GrammarRefusal::OverLimit { byte: at }.into(),
            4 => GrammarRefusal::UnknownSymbol { byte: at }.into(),
            5 => GrammarRefusal::Trailing { byte: at }.into(),
            6 => GrammarRefusal::Unproductive { nonterminal: at }.into(),
            7 => GrammarRefusal::LeftRecursive { nonterminal: at }.into(),
            8 => NoteRefusal::LongNote.into(),
            9 => NoteRefusal::UnknownToken { token: at }.into(),
            10 => NoteRefusal::NotASentence { token: at }.into(),
            11 => Refusal::ShortWorkspace,
            12 => CacheRefusal::ShortCache.into(),
            13 => CacheRefusal::ForeignCache.into(),
            14 => NoteRefusal::ShortRow.into(),
            15 => LineRefusal::LongLine.into(),
            16 => LineRefusal::ForeignByte { byte: at }.into(),
            17 => LineRefusal::BadList.into(),
            18 => Refusal::BadBatch,
            19 => CacheRefusal::NotCoherent.into(),
            _ => return None,
        })
    }

    /// The library's number, 1 to 19.
    pub fn number(self) -> u32 {
        self.parts().0
    }

    /// The library's place, 0 where there is none.
    pub fn place(self) -> u64 {
        self.parts().1 as u64
    }

    /// What the number says, in the words of the C header's `allstar_text`; without the place.
    pub fn text(self) -> &'static str {
        self.parts().2
    }

    fn parts(self) -> (u32, usize, &'static str) {
        use {CacheRefusal::*, GrammarRefusal::*, LineRefusal::*, NoteRefusal::*};
        match self {
            Refusal::Grammar(it) => match it {
                Unfinished { byte } => (1, byte, "the bytes end before the grammar does"),
                Malformed { byte } => (2, byte, "a number of the grammar is malformed"),
                OverLimit { byte } => (3, byte, "a number of the grammar breaks its limit"),
                UnknownSymbol { byte } => (4, byte, "a symbol of the grammar does not exist"),
                Trailing { byte } => (5, byte, "bytes follow the grammar"),
                Unproductive { nonterminal } => (6, nonterminal, "a nonterminal derives no row of tokens"),
                LeftRecursive { nonterminal } => (7, nonterminal, "a nonterminal is left recursive"),
            },
            Refusal::Note(it) => match it {
                LongNote => (8, 0, "the note has more than 128 tokens"),
                UnknownToken { token } => (9, token, "the grammar does not know a token of the note"),
                NotASentence { token } => (10, token, "the note is no sentence"),
                ShortRow => (14, 0, "the row is too short"),
            },
            Refusal::ShortWorkspace => (11, 0, "the working space is too short"),
            Refusal::Cache(it) => match it {
                ShortCache => (12, 0, "the cache is too short"),
                ForeignCache => (13, 0, "the cache was not begun for this grammar at this length"),
                NotCoherent => (19, 0, "the words of the cache are not coherent"),
            },
            Refusal::Line(it) => match it {
                LongLine => (15, 0, "the line has more than 512 bytes"),
                ForeignByte { byte } => (16, byte, "the line has a foreign byte"),
                BadList => (17, 0, "the list of words is no list"),
            },
            Refusal::BadBatch => (18, 0, "the parts of the batch do not fit together"),
        }
    }
}

impl fmt::Display for Refusal {
    fn fmt(&self, out: &mut fmt::Formatter) -> fmt::Result {
        let (number, place, text) = self.parts();
        match number {
            1..=5 | 16 => write!(out, "{text}, at byte {place}"),
            6 | 7 => write!(out, "{text}: {place}"),
            9 | 10 => write!(out, "{text}, at token {place}"),
            _ => write!(out, "{text}"),
        }
    }
}

impl Error for Refusal {}

/// What each of the four kinds takes from [`Refusal`].
macro_rules! kinds {
    ($($case:ident $kind:ident),*) => { $(
        impl $kind {
            /// The library's number.
            pub fn number(self) -> u32 {
                Refusal::from(self).number()
            }
        }

        impl From<$kind> for Refusal {
            fn from(refusal: $kind) -> Refusal {
                Refusal::$case(refusal)
            }
        }

        impl fmt::Display for $kind {
            fn fmt(&self, out: &mut fmt::Formatter) -> fmt::Result {
                Refusal::from(*self).fmt(out)
            }
        }

        impl Error for $kind {}
    )* };
}

kinds!(Grammar GrammarRefusal, Note NoteRefusal, Cache CacheRefusal, Line LineRefusal);
