//! A grammar as an owned tree, and the bytes that the scope writes it in.
#![forbid(unsafe_code)]

#[derive(Clone, Copy, Debug, PartialEq, Eq)]
pub enum Symbol {
    Token(u32),
    Nonterminal(usize),
}

pub type Production = Vec<Symbol>;

#[derive(Clone, Debug, PartialEq, Eq)]
pub struct Grammar {
    /// T, the highest token kind.
    pub kinds: u32,
    /// The productions of each nonterminal.
    pub rules: Vec<Vec<Production>>,
}

impl Grammar {
    /// P: a production of length m has m + 1 places.
    pub fn places(&self) -> usize {
        self.rules.iter().flatten().map(|p| p.len() + 1).sum()
    }

    /// The numbers that are written, in order.
    pub fn numbers(&self) -> Vec<u32> {
        let mut numbers = vec![self.kinds, self.rules.len() as u32];
        for productions in &self.rules {
            numbers.push(productions.len() as u32);
            for production in productions {
                numbers.push(production.len() as u32);
                numbers.extend(production.iter().map(|symbol| match *symbol {
                    Symbol::Token(kind) => 2 * kind,
                    Symbol::Nonterminal(number) => 2 * number as u32 + 1,
                }));
            }
        }
        numbers
    }

    pub fn encode(&self) -> Vec<u8> {
        encode(&self.numbers())
    }
}

/// Each number in its shortest form, one after another.
pub fn encode(numbers: &[u32]) -> Vec<u8> {
    let mut bytes = Vec::new();
    for &number in numbers {
        write_shortest(number, &mut bytes);
    }
    bytes
}

/// Groups of seven bits, lowest first; the top bit says that another group follows.
pub fn write_shortest(number: u32, bytes: &mut Vec<u8>) {
    let mut rest = number;
    while rest >= 0x80 {
        bytes.push(rest as u8 | 0x80);
        rest >>= 7;
    }
    bytes.push(rest as u8);
}

/// The bytes that a text shows in hexadecimal, blanks and line ends between them.
pub fn from_hex(text: &str) -> Vec<u8> {
    let digits = text.split_whitespace();
    digits
        .map(|pair| u8::from_str_radix(pair, 16).unwrap())
        .collect()
}

/// The other way.
pub fn to_hex(bytes: &[u8]) -> String {
    let pairs: Vec<String> = bytes.iter().map(|byte| format!("{byte:02x}")).collect();
    pairs.join(" ")
}
