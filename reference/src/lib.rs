//! Skydoublet's reader in plain Rust, written from document 01: same steps, same input and output, no proofs. It is what the
//! proved reader is compared with.
//!
//! `table` holds the rules and the item sets and changes them; `parse` reads a line over the table; `script` reads commands and
//! prints answers; `pools` does the calls on lent numbers.

pub mod parse;
pub mod pools;
pub mod script;
pub mod table;

/// The refusals of 01, by name. What isn't refused has an answer of its own at each call.
#[derive(Clone, Copy, Debug, PartialEq, Eq)]
pub enum Refusal {
    BadPool = 10,
    BadTable = 11,
    BadLeft = 12,
    LongRight = 13,
    BadSymbol = 14,
    There = 15,
    NotThere = 16,
    NoRules = 17,
    LongLine = 18,
    BadToken = 19,
    NoSets = 20,
    NoLinks = 21,
}

impl Refusal {
    pub fn number(self) -> u32 {
        self as u32
    }
}
