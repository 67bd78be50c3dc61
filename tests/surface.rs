//! Tests that the C header, the Rust package and the library say the same, and that the package does what it
//! says.
#![forbid(unsafe_code)]

#[allow(dead_code)]
#[path = "support/tree.rs"]
mod tree;

use allstar::{
    calls, Cache, CacheRefusal, Grammar, GrammarRefusal, LineRefusal, Node, NoteRefusal, Refusal, Symbol,
    WordList, Workspace,
};
use std::collections::BTreeMap;
use std::error::Error;
use tree::from_hex;

const HEADER: &str = include_str!("../include/allstar.h");
const DECLARATIONS: &str = include_str!("../rust/allstar/src/ffi.rs");
const PROVED: &str = include_str!("../crates/allstar_c/src/lib.rt");
const MANIFEST: &str = include_str!("../rust/allstar/Cargo.toml");
const DELIVERY: &str = include_str!("../bench/cases/delivery.hex");
const G1: [u8; 14] = [2, 2, 2, 1, 3, 2, 3, 4, 2, 1, 2, 2, 2, 4];

fn main() {
    declarations();
    numbers();
    sizes();
    version();
    example_files();
    grammars();
    readings();
    caches();
    audits();
    long_rows();
    many_notes();
    typed_lines();
    println!("surface: header, package and library say the same");
}

/// The calls of the header are those that the package declares and those that are proved, with the same names
/// and types in the same order.
fn declarations() {
    let of_header: BTreeMap<String, String> = without_comments(HEADER)
        .split_inclusive(';')
        .filter_map(|text| text.rsplit_once("uint32_t allstar_")?.1.split_once(");"))
        .filter(|(text, _)| !text.contains('{'))
        .map(|(text, _)| {
            let (name, parameters) = text.split_once('(').unwrap();
            let parameters = parameters
                .split(',')
                .filter(|it| *it != "void")
                .map(parameter_of_c);
            (
                format!("allstar_{name}"),
                parameters.collect::<Vec<_>>().join(", "),
            )
        })
        .collect();
    let of_package: BTreeMap<String, String> = DECLARATIONS
        .split("pub fn ")
        .skip(1)
        .map(|text| {
            let (name, rest) = text.split_once('(').unwrap();
            let (parameters, answer) = rest.split_once(')').unwrap();
            assert!(answer.starts_with(" -> u32;"), "{name} answers {answer}");
            let parameters = parameters.split(',').map(str::trim).filter(|it| !it.is_empty());
            (name.to_string(), parameters.collect::<Vec<_>>().join(", "))
        })
        .collect();
    let of_library: BTreeMap<String, String> = PROVED
        .split("pub extern \"C\" fn ")
        .skip(1)
        .map(|text| {
            let (name, rest) = text.split_once('(').unwrap();
            let (parameters, answer) = rest.split_once(')').unwrap();
            assert!(answer.starts_with(" -> u32\n"), "{name} answers {answer}");
            let slices = parameters.matches("[u").count();
            let parameters = parameters.split(',').map(str::trim).filter(|it| !it.is_empty());
            let parameters = parameters.map(|text| parameter_of_rattle(text, slices));
            (name.to_string(), parameters.collect::<Vec<_>>().join(", "))
        })
        .collect();
    assert_eq!(of_header.len(), 9);
    assert_eq!(of_header, of_package);
    assert_eq!(of_header, of_library);
}

/// `note: &[u16]` as C gets it: `note: *const u16, note_length: usize`; the length of a call's only slice is
/// `length`.
fn parameter_of_rattle(text: &str, slices: usize) -> String {
    let (name, kind) = text.split_once(": ").unwrap();
    let length = match slices {
        1 => "length".to_string(),
        _ => format!("{name}_length"),
    };
    let (pointer, kind) = match kind.strip_prefix("&mut ") {
        Some(kind) => ("*mut", kind),
        None => ("*const", kind.strip_prefix('&').unwrap()),
    };
    match kind.strip_prefix('[').and_then(|kind| kind.strip_suffix(']')) {
        Some(kind) => format!("{name}: {pointer} {kind}, {length}: usize"),
        None => format!("{name}: {pointer} {kind}"),
    }
}

/// `const uint8_t *grammar` as Rust has it: `grammar: *const u8`.
fn parameter_of_c(text: &str) -> String {
    let words: Vec<&str> = text.split_whitespace().collect();
    let (name, words) = words.split_last().unwrap();
    let kind = |word: &str| match word {
        "size_t" => "usize".to_string(),
        _ => word.replace("uint", "u").replace("_t", ""),
    };
    match (name.strip_prefix('*'), words) {
        (Some(name), ["const", word]) => format!("{name}: *const {}", kind(word)),
        (Some(name), [word]) => format!("{name}: *mut {}", kind(word)),
        (None, [word]) => format!("{name}: {}", kind(word)),
        _ => panic!("a parameter that this test does not know: {text}"),
    }
}

fn without_comments(text: &str) -> String {
    let (first, others) = text.split_once("/*").unwrap_or((text, ""));
    let kept = others
        .split("/*")
        .filter_map(|part| Some(part.split_once("*/")?.1));
    std::iter::once(first).chain(kept).collect()
}

/// Each number of the header's enum is a refusal of the package, with the same text.
fn numbers() {
    let header = without_comments(HEADER);
    let cases = header
        .split_once("enum allstar_number {")
        .unwrap()
        .1
        .split_once('}')
        .unwrap()
        .0;
    let mut count = 0;
    for case in cases.split(',') {
        let (name, number) = case.trim().split_once(" = ").unwrap();
        let number: u32 = number.parse().unwrap();
        let returned = header.split_once(&format!("case {name}:")).unwrap().1;
        let text = returned.split('"').nth(1).unwrap();
        match Refusal::new(number, 7) {
            None => assert_eq!((number, text), (0, "accepted")),
            Some(refusal) => {
                assert_eq!((refusal.number(), refusal.text()), (number, text));
                assert!(refusal.to_string().starts_with(text));
                assert!(refusal.place() == 7 || ![1, 2, 3, 4, 5, 6, 7, 9, 10, 16].contains(&number));
                // ALLSTAR_SHORT_ROW is `ShortRow`.
                let words = name.trim_start_matches("ALLSTAR_").split('_');
                let camel = words.map(|word| format!("{}{}", &word[..1], word[1..].to_lowercase()));
                let camel: String = camel.collect();
                assert!(format!("{refusal:?}").contains(&camel), "{camel}, {refusal:?}");
            }
        }
        count += 1;
    }
    assert_eq!(count, 20);
    assert_eq!(Refusal::new(20, 0), None);
}

/// What tests/header.c says of the header's macros.
fn sizes() {
    assert_eq!(allstar::cache_words(1), 2_368);
    assert_eq!(allstar::cache_words(6), 3_968);
    assert_eq!(allstar::workspace_words(255, allstar::MAX_TOKENS), 271_352);
    assert!(HEADER.contains(&format!("#define ALLSTAR_NOTES_MAX {}\n", allstar::MAX_NOTES)));
}

fn version() {
    let part = |name: &str| -> u32 {
        let line = HEADER
            .lines()
            .find(|line| line.contains(&format!("VERSION_{name} ")));
        line.unwrap().rsplit(' ').next().unwrap().parse().unwrap()
    };
    let [major, minor, patch] = ["MAJOR", "MINOR", "PATCH"].map(part);
    assert!(MANIFEST.contains(&format!("version = \"{major}.{minor}.{patch}\"")));
    assert_eq!(calls::version(), major * 10_000 + minor * 100 + patch);
}

/// The grammars of the examples are those of the benchmarks.
fn example_files() {
    assert_eq!(from_hex(DELIVERY), include_bytes!("../examples/delivery.grammar"));
    assert_eq!(&G1, include_bytes!("../examples/g1.grammar"));
}

fn grammars() {
    let g1 = Grammar::new(G1).unwrap();
    assert_eq!((g1.kinds(), g1.nonterminals(), g1.places()), (2, 2, 10));
    assert_eq!(g1.bytes(), G1);
    let [one, less] = [Symbol::Nonterminal(1), Symbol::Token(2)];
    assert_eq!(g1.productions(0), [vec![one], vec![one, less]]);
    let refusal = |bytes: &[u8]| Grammar::new(bytes).unwrap_err();
    assert_eq!(refusal(&[]), GrammarRefusal::Unfinished { byte: 0 });
    assert_eq!(refusal(&[0x81, 0]), GrammarRefusal::Malformed { byte: 0 });
    assert_eq!(refusal(&[101]), GrammarRefusal::OverLimit { byte: 0 });
    assert_eq!(
        refusal(&[1, 1, 1, 1, 0]),
        GrammarRefusal::UnknownSymbol { byte: 4 }
    );
    assert_eq!(refusal(&[1, 1, 1, 0, 0]), GrammarRefusal::Trailing { byte: 4 });
    let recursive = GrammarRefusal::LeftRecursive { nonterminal: 0 };
    assert_eq!(refusal(&[1, 2, 2, 3, 3, 1, 2, 1, 2, 1, 0]), recursive);
    assert_eq!(refusal(&[1, 1, 1, 1, 1]), recursive);
    assert_eq!(
        refusal(&[1, 1, 1, 2, 2, 1]),
        GrammarRefusal::Unproductive { nonterminal: 0 }
    );
    let error: Box<dyn Error> = recursive.into();
    assert_eq!(error.to_string(), "a nonterminal is left recursive: 0");
}

/// Readings with and without a cache are the same, and the tree of each has the note's tokens as its leaves.
fn readings() {
    let grammar = Grammar::new(from_hex(DELIVERY)).unwrap();
    let mut cache = Cache::new(&grammar, 40).unwrap();
    let (mut one, mut other) = (Workspace::new(), Workspace::default());
    let notes = include_str!("../bench/cases/delivery.notes").lines();
    let expected = include_str!("../bench/cases/delivery.expected").lines();
    for (line, wanted) in notes.zip(expected) {
        let note: Vec<u16> = line
            .split_whitespace()
            .map(|word| word.parse().unwrap())
            .collect();
        let plain = grammar.read(&note, &mut one);
        let answer = match cache.read(&note, &mut other) {
            Ok(reading) => {
                assert_eq!(plain.unwrap().entries(), reading.entries());
                assert_eq!((reading.note(), reading.grammar()), (&note[..], &grammar));
                let nodes: Vec<(usize, Node)> = reading.nodes().collect();
                let leaves = nodes.iter().filter_map(|(_, node)| match *node {
                    Node::Token { kind, position } => Some((position, kind)),
                    Node::Expanded { .. } => None,
                });
                assert!(leaves.eq(note.iter().copied().enumerate()), "{line}");
                assert_eq!(nodes.len(), note.len() + reading.entries().len());
                let entries = reading.entries().iter().map(|entry| format!(" {entry}"));
                format!("ok{}", entries.collect::<String>())
            }
            Err(refusal) => {
                assert_eq!(plain.unwrap_err(), refusal);
                format!("no {} {}", refusal.number(), Refusal::from(refusal).place())
            }
        };
        assert_eq!(answer, wanted, "{line}");
    }
    let mut refusal = |note: &[u16]| cache.read(note, &mut one).unwrap_err();
    assert_eq!(refusal(&[1; 129]), NoteRefusal::LongNote);
    assert_eq!(refusal(&[1, 18]), NoteRefusal::UnknownToken { token: 1 });
    assert_eq!(refusal(&[]), NoteRefusal::NotASentence { token: 0 });
}

/// A cache's words can be taken up again; those of another grammar or length are refused.
fn caches() {
    let g1 = Grammar::new(G1).unwrap();
    let mut workspace = Workspace::new();
    assert_eq!(Cache::new(&g1, 0).unwrap_err(), CacheRefusal::ShortCache);
    assert_eq!(
        Cache::new(&g1, 5_000).unwrap().words().len(),
        allstar::cache_words(1_024)
    );
    let mut cache = Cache::new(&g1, 6).unwrap();
    let begun = cache.words().to_vec();
    cache.read(&[1, 2], &mut workspace).unwrap();
    let learned = cache.words().to_vec();
    assert_ne!(begun, learned);
    assert_eq!(cache.grammar(), &g1);
    let mut again = Cache::from_words(&g1, learned.clone()).unwrap();
    assert_eq!(again.words(), learned);
    assert_eq!(again.read(&[1, 2], &mut workspace).unwrap().entries(), [1, 2]);
    assert_eq!(again.words(), learned);
    let other = Grammar::new([1, 1, 1, 0]).unwrap();
    let refused = |grammar, words: &[u32]| Cache::from_words(grammar, words.to_vec()).unwrap_err();
    assert_eq!(refused(&other, &learned), CacheRefusal::ForeignCache);
    assert_eq!(
        refused(&g1, &learned[..learned.len() - 1]),
        CacheRefusal::ForeignCache
    );
    assert_eq!(refused(&g1, &learned[..100]), CacheRefusal::ShortCache);
}

/// Audits of the package: what readings left gets a yes, and so does what a program that knows the layout writes;
/// a word that says something else does not, nor do words of another grammar or length.
fn audits() {
    let g1 = Grammar::new(G1).unwrap();
    let mut workspace = Workspace::new();
    let mut cache = Cache::new(&g1, 6).unwrap();
    assert_eq!(cache.audit(), Ok(()));
    cache.read(&[1, 2], &mut workspace).unwrap();
    assert_eq!(cache.audit(), Ok(()));
    let learned = cache.words().to_vec();
    let mut again = Cache::audited(&g1, learned.clone()).unwrap();
    assert_eq!(again.read(&[1, 2], &mut workspace).unwrap().entries(), [1, 2]);
    assert_eq!((again.words(), again.grammar()), (&learned[..], &g1));
    // The start of decision 0 leads to the state of decision 1.
    let mut wrong = learned.clone();
    wrong[32] = 21;
    assert_eq!(allstar::audit(&g1, &wrong), Err(CacheRefusal::NotCoherent));
    assert_eq!(
        Cache::audited(&g1, wrong.clone()).unwrap_err(),
        CacheRefusal::NotCoherent
    );
    // Whoever takes it up without an audit is misled, and can still ask.
    let unseen = Cache::from_words(&g1, wrong).unwrap();
    assert_eq!(unseen.audit(), Err(CacheRefusal::NotCoherent));
    let other = Grammar::new([1, 1, 1, 0]).unwrap();
    assert_eq!(allstar::audit(&other, &learned), Err(CacheRefusal::ForeignCache));
    assert_eq!(
        allstar::audit(&g1, &learned[..2_400]),
        Err(CacheRefusal::ForeignCache)
    );
    assert_eq!(
        allstar::audit(&g1, &learned[..2_367]),
        Err(CacheRefusal::ShortCache)
    );
    let refused = calls::audit(&[1, 1, 1, 2, 2, 1], &learned);
    assert_eq!((refused.number, refused.place), (6, 0));
}

/// A derivation with as many entries as a row may have is given, one with more is refused.
fn long_rows() {
    // Nonterminal a is [a + 1, a + 1], and 10 is empty: 2,047 entries.
    let mut bytes = vec![1, 11];
    (0..10).for_each(|a| bytes.extend([1, 2, 2 * a + 3, 2 * a + 3]));
    bytes.extend([1, 0]);
    let grammar = Grammar::new(bytes).unwrap();
    for (longest, fits) in [
        (0, false),
        (1, false),
        (2_046, false),
        (2_047, true),
        (65_536, true),
    ] {
        let mut workspace = Workspace::with_longest_row(longest);
        match grammar.read(&[], &mut workspace) {
            Ok(reading) => assert!(fits && reading.entries() == [1; 2_047]),
            Err(refusal) => assert!(!fits && refusal == NoteRefusal::ShortRow),
        };
    }
}

/// Many notes at once: the answers of [`Cache::read`] in the same order, and what it learns, however many there are.
fn many_notes() {
    let grammar = Grammar::new(from_hex(DELIVERY)).unwrap();
    let number = |word: &str| word.parse::<u16>().unwrap();
    let lines = include_str!("../bench/cases/delivery.notes").lines();
    let mut notes: Vec<Vec<u16>> = lines
        .map(|line| line.split_whitespace().map(number).collect())
        .collect();
    // Too long by one token, and too long for 16 bits; unknown tokens; none.
    notes.extend([vec![1; 129], vec![1; 70_000], vec![1, 18], vec![]]);
    let notes: Vec<Vec<u16>> = (0..200).map(|nth| notes[7 * nth % notes.len()].clone()).collect();
    for count in [0, 1, 2, 63, 64, 65, 128, 129, 200] {
        let mut one = Cache::new(&grammar, 40).unwrap();
        let mut other = one.clone();
        let (mut together, mut singly) = (Workspace::new(), Workspace::new());
        // The second time over what the first one left.
        for _ in 0..2 {
            let readings = one.read_all(&notes[..count], &mut together);
            assert_eq!(readings.len(), count);
            for (note, reading) in notes.iter().zip(readings) {
                match (other.read(note, &mut singly), reading) {
                    (Ok(single), Ok(reading)) => {
                        assert_eq!(single.entries(), reading.entries());
                        assert_eq!((reading.note(), reading.grammar()), (&note[..], &grammar));
                    }
                    (single, reading) => assert_eq!(single.unwrap_err(), reading.unwrap_err()),
                }
            }
            assert_eq!(one.words(), other.words());
        }
    }
    // Slices and arrays are notes too.
    let mut cache = Cache::new(&Grammar::new(G1).unwrap(), 6).unwrap();
    let mut workspace = Workspace::new();
    let slices: [&[u16]; 2] = [&[1, 2], &[1]];
    let entries = |reading: &Result<allstar::Reading, NoteRefusal>| reading.unwrap().entries().to_vec();
    let found: Vec<_> = cache
        .read_all(&slices, &mut workspace)
        .iter()
        .map(entries)
        .collect();
    assert_eq!(found, [[1, 2], [1, 1]]);
    assert!(cache
        .read_all(&[[0; 2]; 3], &mut workspace)
        .iter()
        .all(Result::is_err));
    assert_eq!(allstar::MAX_NOTES, 64);
    // A derivation as long as the longest row among short ones, and one that is longer: token 2 stands for 2,047
    // entries, any other token for one.
    let mut bytes = vec![2, 12, 2, 1, 2, 2, 4, 3];
    (1..11).for_each(|a| bytes.extend([1, 2, 2 * a + 3, 2 * a + 3]));
    bytes.extend([1, 0]);
    let grammar = Grammar::new(bytes).unwrap();
    let notes = [[1], [2], [1], [2], [1]];
    for longest in [0, 1, 2, 255, 256, 257, 2_047, 2_048, 65_536] {
        let mut cache = Cache::new(&grammar, 6).unwrap();
        let mut workspace = Workspace::with_longest_row(longest);
        for (note, reading) in notes.iter().zip(cache.read_all(&notes, &mut workspace)) {
            let mut entries = vec![1];
            if *note == [2] {
                entries = vec![1; 2_048];
                entries[0] = 2;
            }
            match reading {
                Ok(reading) => assert!(entries.len() <= longest && reading.entries() == entries),
                Err(refusal) => assert!(entries.len() > longest && refusal == NoteRefusal::ShortRow),
            }
        }
    }
}

/// Typed lines of the package: tokens, and every refusal.
fn typed_lines() {
    let words = WordList::new("kg grade").unwrap();
    assert_eq!(words.bytes(), b"kg grade");
    assert_eq!(words.split(b"grade A: 12.5kg"), Ok(vec![36, 1, 18, 2, 35]));
    assert_eq!(words.split(b""), Ok(vec![]));
    assert_eq!(words.split(&[b'.'; 128]), Ok(vec![16; 128]));
    assert_eq!(words.split(&[b'.'; 129]), Err(NoteRefusal::LongNote.into()));
    assert_eq!(words.split(&[b' '; allstar::MAX_LINE]), Ok(vec![]));
    assert_eq!(words.split(&[b' '; 513]), Err(LineRefusal::LongLine.into()));
    assert_eq!(
        words.split(b"5\t2"),
        Err(LineRefusal::ForeignByte { byte: 1 }.into())
    );
    for list in ["kg  grade", " kg", "kg ", "kg kg", "1a", "k-g", " "] {
        assert_eq!(WordList::new(list), Err(LineRefusal::BadList), "{list:?}");
    }
    let many: Vec<String> = (0..67).map(|nth| format!("w{nth}")).collect();
    assert!(WordList::new(many[..allstar::MAX_LISTED].join(" ")).is_ok());
    assert_eq!(WordList::new(many.join(" ")), Err(LineRefusal::BadList));
}
