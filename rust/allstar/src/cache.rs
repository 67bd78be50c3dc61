//! A lookahead cache.

use crate::calls;
use crate::grammar::Grammar;
use crate::reading::Reading;
use crate::refusal::{CacheRefusal, NoteRefusal, Refusal};
use crate::workspace::{workspace_words, Workspace};

/// The words of a cache with so many slots.
pub fn cache_words(slots: usize) -> usize {
    2_048 + 320 * slots
}

/// Audits words for a grammar, whoever wrote them: whether readings over them may be trusted. Nothing is written,
/// and nothing kept; [`Cache::audited`] takes them up as well.
pub fn audit(grammar: &Grammar, words: &[u32]) -> Result<(), CacheRefusal> {
    let verdict = calls::audit(grammar.bytes(), words);
    match Refusal::new(verdict.number, verdict.place) {
        None => Ok(()),
        Some(Refusal::Cache(refusal)) => Err(refusal),
        Some(other) => unreachable!("an audit answered {other:?}"),
    }
}

/// A cache for one grammar, which it keeps. Readings over it give the same answers as without, and go faster
/// the more it has learned.
#[derive(Clone, Debug)]
pub struct Cache {
    grammar: Grammar,
    words: Vec<u32>,
}

impl Cache {
    /// Begins a cache with so many slots, 1 to 1,024: so many states it can learn. More than 1,024 are taken
    /// as 1,024.
    pub fn new(grammar: &Grammar, slots: usize) -> Result<Cache, CacheRefusal> {
        let mut words = vec![0; cache_words(slots.min(1_024))];
        let verdict = calls::begin(grammar.bytes(), &mut words);
        match Refusal::new(verdict.number, verdict.place) {
            None => Ok(Cache {
                grammar: grammar.clone(),
                words,
            }),
            Some(Refusal::Cache(refusal)) => Err(refusal),
            Some(other) => unreachable!("beginning a cache answered {other:?}"),
        }
    }

    /// Takes a cache up again from words that [`words`](Cache::words) gave, in this process or an earlier
    /// one. It is only seen whether they were begun for this grammar at this length. If any other word has
    /// changed since, answers can be wrong, and nothing else: whoever stores words takes care that they come
    /// back whole, or takes them up by [`audited`](Cache::audited).
    pub fn from_words(grammar: &Grammar, mut words: Vec<u32>) -> Result<Cache, CacheRefusal> {
        // With no row a reading predicts nothing, so that the cache stays as it is.
        let mut space = vec![0; workspace_words(grammar.places(), 0)];
        let answer = calls::quick(grammar.bytes(), &[], &mut [], &mut words, &mut space);
        match Refusal::new(answer.number, answer.place) {
            Some(Refusal::Cache(refusal)) => Err(refusal),
            _ => Ok(Cache {
                grammar: grammar.clone(),
                words,
            }),
        }
    }

    /// Takes up words that another program wrote, or that may not have come back whole: they are audited. After
    /// that, readings over the cache answer as without one, whoever wrote the words.
    ///
    /// ```
    /// use allstar::{Cache, CacheRefusal, Grammar, Refusal, Workspace};
    ///
    /// let grammar = Grammar::new([2, 2, 2, 1, 3, 2, 3, 4, 2, 1, 2, 2, 2, 4])?;
    /// let mut cache = Cache::new(&grammar, 6)?;
    /// cache.read(&[1, 2], &mut Workspace::new())?;
    /// let mut words = cache.words().to_vec();
    /// assert!(Cache::audited(&grammar, words.clone()).is_ok());
    /// // The step of state 2 over the end mark is recorded as alternative 1, and the rules give FULL.
    /// words[2690] = 1;
    /// assert_eq!(Cache::audited(&grammar, words).unwrap_err(), CacheRefusal::NotCoherent);
    /// # Ok::<(), Refusal>(())
    /// ```
    pub fn audited(grammar: &Grammar, words: Vec<u32>) -> Result<Cache, CacheRefusal> {
        audit(grammar, &words)?;
        Ok(Cache {
            grammar: grammar.clone(),
            words,
        })
    }

    /// Audits the words: a yes, always, unless the cache was taken up by [`from_words`](Cache::from_words) from
    /// words that were not as some cache had left them.
    pub fn audit(&self) -> Result<(), CacheRefusal> {
        audit(&self.grammar, &self.words)
    }

    /// The words, to be stored.
    pub fn words(&self) -> &[u32] {
        &self.words
    }

    /// The grammar.
    pub fn grammar(&self) -> &Grammar {
        &self.grammar
    }

    /// Reads a note, and learns.
    pub fn read<'a>(
        &'a mut self,
        note: &'a [u16],
        workspace: &'a mut Workspace,
    ) -> Result<Reading<'a>, NoteRefusal> {
        let Cache { grammar, words } = self;
        workspace.read(grammar, note, |row, space| {
            calls::quick(grammar.bytes(), note, row, words, space)
        })
    }
    /// Reads notes in their order, and learns: up to 64 of them in each call of the library, which checks the
    /// grammar once for all. The answers are those of [`read`](Cache::read), one for each note; a note that is
    /// refused does not stop the next.
    ///
    /// ```
    /// use allstar::{Cache, Grammar, NoteRefusal, Refusal, Workspace};
    ///
    /// let grammar = Grammar::new([2, 2, 2, 1, 3, 2, 3, 4, 2, 1, 2, 2, 2, 4])?;
    /// let mut cache = Cache::new(&grammar, 6)?;
    /// let mut workspace = Workspace::new();
    /// let notes = [vec![1, 2], vec![1, 2, 2, 2], vec![1]];
    /// let readings = cache.read_all(&notes, &mut workspace);
    /// assert_eq!(readings[0]?.entries(), [1, 2]);
    /// assert_eq!(readings[1].unwrap_err(), NoteRefusal::NotASentence { token: 3 });
    /// assert_eq!(readings[2]?.entries(), [1, 1]);
    /// # Ok::<(), Refusal>(())
    /// ```
    pub fn read_all<'a, N: AsRef<[u16]>>(
        &'a mut self,
        notes: &'a [N],
        workspace: &'a mut Workspace,
    ) -> Vec<Result<Reading<'a>, NoteRefusal>> {
        let Cache { grammar, words } = self;
        workspace.read_all(grammar, notes, words)
    }
}
