//! A case of grammar bytes that went wrong, printed.
#![forbid(unsafe_code)]

use crate::tree::to_hex;

/// How many bytes are shown.
const SHOWN: usize = 2_000;

/// Where the case came from, and its bytes.
pub fn case(origin: &str, input: &[u8]) {
    println!("{origin}, {} bytes:", input.len());
    let dots = if input.len() > SHOWN { " ..." } else { "" };
    println!("{}{dots}", to_hex(&input[..input.len().min(SHOWN)]));
}
