//! Reads the notes of a file by the grammar of another, and prints each derivation as an indented tree.
//!
//!     read_notes GRAMMAR NOTES [NAMES]
//!
//! GRAMMAR has a grammar's bytes, NOTES a note to a line, its tokens as decimal numbers. NAMES says what they
//! are called: the line that begins with `tokens` names the kinds 1, 2, ..., and every other line begins with
//! the name of nonterminal 0, 1, ...; the rest of it, and lines that begin with `#`, are for people.
//!
//! One cache is begun for the grammar and kept for all notes. The exit status is 0 whatever the notes say, 1
//! if the grammar is refused or a file cannot be read.

use allstar::{Cache, Grammar, Node, NoteRefusal, Workspace};
use std::error::Error;
use std::fs;
use std::process::ExitCode;

/// The longest derivation that is printed. Few tokens can have very many entries: there has to be some end.
const LONGEST_ROW: usize = 1 << 20;

/// States that the cache can learn.
const SLOTS: usize = 64;

/// What tokens and nonterminals are called.
#[derive(Default)]
struct Names {
    tokens: Vec<String>,
    nonterminals: Vec<String>,
}

impl Names {
    fn new(text: &str) -> Names {
        let mut names = Names::default();
        for line in text.lines().filter(|line| !line.starts_with('#')) {
            let mut words = line.split_whitespace();
            match words.next() {
                Some("tokens") => names.tokens = words.map(String::from).collect(),
                Some(word) => names.nonterminals.push(word.trim_end_matches(':').into()),
                None => {}
            }
        }
        names
    }

    fn of(&self, node: Node) -> String {
        match node {
            Node::Token { kind, .. } => {
                let name = self.tokens.get(usize::from(kind) - 1);
                name.map_or(format!("token {kind}"), String::clone)
            }
            Node::Expanded {
                nonterminal,
                alternative,
            } => match self.nonterminals.get(nonterminal) {
                Some(name) => format!("{name} ({alternative})"),
                None => format!("nonterminal {nonterminal} ({alternative})"),
            },
        }
    }
}

/// What a line of notes says, if it is a row of numbers.
fn note(line: &str) -> Option<Vec<u16>> {
    let number = |word: &str| {
        let is_decimal = word.bytes().all(|byte| byte.is_ascii_digit());
        is_decimal.then(|| word.parse().ok()).flatten()
    };
    match line {
        "" => Some(Vec::new()),
        _ => line.split(' ').map(number).collect(),
    }
}

fn run(words: &[String]) -> Result<ExitCode, Box<dyn Error>> {
    let (grammar, notes, names) = match words {
        [grammar, notes] => (grammar, notes, String::new()),
        [grammar, notes, names] => (grammar, notes, fs::read_to_string(names)?),
        _ => return Err("usage: read_notes GRAMMAR NOTES [NAMES]".into()),
    };
    let notes = fs::read_to_string(notes)?;
    let names = Names::new(&names);
    let grammar = match Grammar::new(fs::read(grammar)?) {
        Ok(grammar) => grammar,
        Err(refusal) => {
            println!("grammar: refused ({}): {refusal}", refusal.number());
            return Ok(ExitCode::FAILURE);
        }
    };
    println!(
        "grammar: {} token kinds, {} nonterminals, {} places",
        grammar.kinds(),
        grammar.nonterminals(),
        grammar.places()
    );

    let mut cache = Cache::new(&grammar, SLOTS)?;
    let mut workspace = Workspace::with_longest_row(LONGEST_ROW);
    for (index, line) in notes.split_terminator('\n').enumerate() {
        print!("note {}: ", index + 1);
        let Some(note) = note(line) else {
            println!("no row of numbers");
            continue;
        };
        match cache.read(&note, &mut workspace) {
            Ok(reading) => {
                println!("read");
                for (depth, node) in reading.nodes() {
                    println!("{:indent$}{}", "", names.of(node), indent = 2 * (depth + 1));
                }
            }
            Err(
                refusal @ (NoteRefusal::LongNote
                | NoteRefusal::UnknownToken { .. }
                | NoteRefusal::NotASentence { .. }
                | NoteRefusal::ShortRow),
            ) => println!("refused ({}): {refusal}", refusal.number()),
        }
    }
    Ok(ExitCode::SUCCESS)
}

fn main() -> ExitCode {
    let words: Vec<String> = std::env::args().skip(1).collect();
    run(&words).unwrap_or_else(|error| {
        eprintln!("read_notes: {error}");
        ExitCode::FAILURE
    })
}
