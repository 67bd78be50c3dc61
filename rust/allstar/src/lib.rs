//! Reads delivery notes by ALL(*), over a library whose every function is proved.
//!
//! A grammar is a row of bytes that says which rows of numbered tokens are sentences; a note is a row of
//! tokens. Reading a note gives its derivation, or says why it is refused and where.
//!
//! ```
//! use allstar::{Cache, Grammar, NoteRefusal, Workspace};
//!
//! // Nonterminal 0 is [1] or [1, token 2]; nonterminal 1 is [token 1] or [token 1, token 2].
//! let grammar = Grammar::new([2, 2, 2, 1, 3, 2, 3, 4, 2, 1, 2, 2, 2, 4])?;
//! let mut cache = Cache::new(&grammar, 6)?;
//! let mut workspace = Workspace::new();
//! assert_eq!(cache.read(&[1, 2, 2], &mut workspace)?.entries(), [2, 2]);
//! let refusal = cache.read(&[1, 2, 2, 2], &mut workspace).unwrap_err();
//! assert_eq!(refusal, NoteRefusal::NotASentence { token: 3 });
//! # Ok::<(), allstar::Refusal>(())
//! ```
//!
//! A [`Grammar`] is checked bytes. A [`Cache`] belongs to a grammar and learns, and reads one note or many;
//! [`Grammar::read`] does without one. A [`Workspace`] is what readings work in; it sizes itself. A [`Reading`]
//! has the derivation, as a row of alternatives and as a tree. A [`WordList`] makes notes of typed lines. Words
//! of a cache that another program wrote are trusted after an [`audit`].
//! Refusals are enums with a case for each, and errors. [`calls`] has the calls of the library as they are, for
//! whoever wants to lend his own memory.
//!
//! The package links `liballstar_c.a`: with cargo, its build script finds it; with `rustc` alone, the command
//! says where it is.
#![deny(missing_docs)]
#![deny(unsafe_code)]

mod cache;
#[allow(unsafe_code)]
pub mod calls;
mod ffi;
mod grammar;
mod reading;
mod refusal;
mod word_list;
mod workspace;

pub use cache::{audit, cache_words, Cache};
pub use grammar::{Grammar, Symbol};
pub use reading::{Node, Reading};
pub use refusal::{CacheRefusal, GrammarRefusal, LineRefusal, NoteRefusal, Refusal};
pub use word_list::WordList;
pub use workspace::{workspace_words, Workspace};

/// The most tokens that a note may have.
pub const MAX_TOKENS: usize = 128;

/// The most notes that a batch may have.
pub const MAX_NOTES: usize = 64;

/// The most bytes that a typed line may have.
pub const MAX_LINE: usize = 512;

/// The most words that a list may have.
pub const MAX_LISTED: usize = 66;
