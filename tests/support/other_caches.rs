//! Caches that 12 or 13 refuses: too short ones, and ones that were begun for another grammar or length. And any
//! words made such that neither does.
#![forbid(unsafe_code)]

use crate::cache_words;
use crate::random::Random;

/// The first word with grammar bytes.
const BYTES: usize = 64;

/// What makes a begun cache another one.
pub const KINDS: usize = 8;

/// Of a cache that would be begun for these bytes at this length, the kind of other one that comes nth, with its
/// name: `other` are the bytes of another grammar, `any` any words. None if there is none of that kind.
pub fn draw(
    random: &mut Random,
    nth: usize,
    bytes: &[u8],
    other: &[u8],
    length: usize,
    any: &[u32],
) -> Option<(&'static str, Vec<u32>)> {
    let mut words = cache_words::begun(bytes, length);
    let name = match nth % KINDS {
        0 => {
            words.truncate(random.pick(&[0, 1, 64, 2_048, 2_366, 2_367]));
            "too short"
        }
        1 if other != bytes => {
            words = cache_words::begun(other, length);
            "begun for another grammar"
        }
        2 => {
            words.push(0);
            "begun for one word less"
        }
        3 => {
            words = cache_words::begun(bytes, length + 1);
            words.pop();
            "begun for one word more"
        }
        4 => {
            let at = random.between(1, 3);
            words[at] ^= 1 << random.below(32);
            "another number of words or bytes"
        }
        5 => {
            let nth = random.below(bytes.len());
            let bit = random.below(8);
            words[BYTES + nth / 4] ^= 1 << (8 * (nth % 4) + bit);
            "another byte"
        }
        6 if bytes.len() % 4 != 0 => {
            let bit = random.between(8 * (bytes.len() % 4), 31);
            words[BYTES + bytes.len() / 4] ^= 1 << bit;
            "something behind the last byte in its word"
        }
        7 => {
            words = any[..length].to_vec();
            "any words"
        }
        _ => return None,
    };
    Some((name, words))
}

/// Gives any words of a cache those that say what it was begun for.
pub fn begin_again(bytes: &[u8], words: &mut [u32]) {
    let begun = cache_words::begun(bytes, words.len());
    let end = BYTES + bytes.len().div_ceil(4);
    words[1..4].copy_from_slice(&begun[1..4]);
    words[BYTES..end].copy_from_slice(&begun[BYTES..end]);
}
