//! The time of splitting one typed line, the second splitter of the tests beside it.  `run` builds it.
#![forbid(unsafe_code)]

#[allow(dead_code)]
#[path = "../tests/support/second_splitter.rs"]
mod second_splitter;
#[path = "support/timing.rs"]
mod timing;

use allstar::calls;
use second_splitter::{Judgement, LONGEST_LINE, MOST_TOKENS, MOST_WORDS};
use std::hint::black_box;

/// What a depot's clerks type, and words that a depot lists.
const LINES: [&str; 4] = [
    "grade A2 oak less 3 pieces, 12.5 m3 net",
    "delivery 4711 of 12.03.2024: 18 pallets grade B, 2 less",
    "supplier Hansen & Sons (north yard), truck 3: pine 24.75 m3 gross, 23.9 net",
    "remark: 3 bundles wet; weigh again at gate 2, see note 815/7 of yesterday, call me",
];
const LISTED: &str =
    "grade less net gross pallets bundles pieces truck remark delivery supplier oak pine note gate m3";

fn main() {
    println!(
        "{:36} {:>5} {:>6} {:>5}  {:10} {:>10} {:>8} {:>10} {:>7}",
        "line", "bytes", "tokens", "words", "answer", "library ns", "ns/byte", "second ns", "ratio"
    );
    for (name, line, list) in cases() {
        let mut row = [0; MOST_TOKENS];
        let answer = calls::split(&line, &list, &mut row);
        let judgement = Judgement::of(&line, &list);
        if answer != judgement.answer(row.len()) {
            println!("{name}: the splitters disagree");
            std::process::exit(1);
        }
        let [library, second] = timing::nanoseconds([
            &mut || {
                black_box(calls::split(
                    black_box(&line),
                    black_box(&list),
                    black_box(&mut row),
                ));
            },
            &mut || {
                black_box(Judgement::of(black_box(&line), black_box(&list)));
            },
        ]);
        println!(
            "{name:36} {:>5} {:>6} {:>5}  {answer:10} {library:>10.1} {:>8.2} {second:>10.1} {:>7.2}",
            line.len(),
            judgement.tokens.len(),
            list.split(|&byte| byte == b' ')
                .filter(|word| !word.is_empty())
                .count(),
            library / line.len().max(1) as f64,
            second / library
        );
    }
}

fn cases() -> Vec<(&'static str, Vec<u8>, Vec<u8>)> {
    let typed = |nth: usize| LINES[nth].as_bytes().to_vec();
    let none = Vec::new;
    let listed = ordinary_list;
    let text = LINES.join(" ").into_bytes();
    vec![
        ("no bytes, no list", none(), none()),
        ("no bytes, 66 words", none(), listed()),
        ("typed 1, no list", typed(0), none()),
        ("typed 3, no list", typed(2), none()),
        ("four lines in one, no list", text.clone(), none()),
        ("one word of 512 bytes, no list", vec![b'a'; LONGEST_LINE], none()),
        ("blanks alone, no list", vec![b' '; LONGEST_LINE], none()),
        ("typed 1, 66 words", typed(0), listed()),
        ("typed 2, 66 words", typed(1), listed()),
        ("typed 3, 66 words", typed(2), listed()),
        ("typed 4, 66 words", typed(3), listed()),
        ("four lines in one, 66 words", text, listed()),
        (
            "foreign byte at the end, 66 words",
            [typed(2), vec![127]].concat(),
            listed(),
        ),
        ("513 bytes, 66 words", vec![b'a'; LONGEST_LINE + 1], listed()),
        (
            "128 words alike, list alike",
            alike_line(MOST_TOKENS, 3),
            alike_list(3),
        ),
        ("256 words alike, list alike", alike_line(256, 1), alike_list(1)),
        (
            "four long words alike, list alike",
            alike_line(4, 127),
            alike_list(127),
        ),
        ("102 words, all in one bucket", bucket_line(1), bucket_list(1)),
        ("57 words, all in one bucket", bucket_line(5), bucket_list(5)),
        ("longest list, 5,000 bytes a word", typed(0), alike_list(5_000)),
    ]
}

/// 66 words as depots list them.
fn ordinary_list() -> Vec<u8> {
    let mut words: Vec<String> = LISTED.split(' ').map(String::from).collect();
    let more = (words.len()..MOST_WORDS).map(|nth| format!("yard{nth}"));
    words.extend(more.collect::<Vec<_>>());
    words.join(" ").into_bytes()
}

/// So many words of so many bytes, as long as the line has room for them: all bytes the same but the last of a longer
/// word.
fn alike_line(count: usize, length: usize) -> Vec<u8> {
    let word = |nth: usize| match length {
        1 => vec![b'a'],
        _ => [vec![b'a'; length - 1], vec![b"xyzw"[nth % 4]]].concat(),
    };
    let mut line = (0..count).map(word).collect::<Vec<_>>().join(&b' ');
    line.truncate(LONGEST_LINE);
    line
}

/// 66 words that begin as those of such a line do.
fn alike_list(length: usize) -> Vec<u8> {
    let word = |nth: usize| [vec![b'a'; length], format!("{nth:02}").into_bytes()].concat();
    (0..MOST_WORDS).map(word).collect::<Vec<_>>().join(&b' ')
}

/// Words of one length that begin alike, and that the library's index of a list does not tell apart.
fn of_one_bucket(alike: usize) -> impl Iterator<Item = Vec<u8>> {
    let free = || (b'a'..=b'z').chain(b'0'..=b'9');
    let ends =
        free().flat_map(move |one| free().flat_map(move |two| free().map(move |three| [one, two, three])));
    let words = ends.map(move |end| [&vec![b'a'; alike][..], &end].concat());
    words.filter(|word| {
        word[0] == b'a'
            && word
                .iter()
                .fold(0, |sum, &byte| (5 * sum + usize::from(byte)) % 64)
                == 0
    })
}

/// A list of such words, and a line of others: each is compared with all that are listed.
fn bucket_list(alike: usize) -> Vec<u8> {
    let words: Vec<Vec<u8>> = of_one_bucket(alike).collect();
    words[words.len() - MOST_WORDS..].join(&b' ')
}

fn bucket_line(alike: usize) -> Vec<u8> {
    let few: Vec<Vec<u8>> = of_one_bucket(alike).take(4).collect();
    let most = (LONGEST_LINE + 1) / (few[0].len() + 1);
    let words: Vec<Vec<u8>> = few.into_iter().cycle().take(most.min(MOST_TOKENS)).collect();
    words.join(&b' ')
}
