//! An answer's number as a result. What is no answer of a call is a refusal too, never a success.

use std::error::Error;
use std::fmt;

/// 0, where a call was done.
pub const DONE: u8 = 0;
/// 1, where START derives the line that was parsed.
pub const ACCEPT: u8 = 1;
/// 2, where it doesn't.
pub const REJECT: u8 = 2;

/// The result of New, Add, Delete, Collect and Restart, from the answer's number.
pub fn done(answer: u8) -> Result<(), Refusal> {
    match answer {
        DONE => Ok(()),
        other => Err(Refusal::of(other)),
    }
}

/// The result of Parse, from the answer's number: whether the line is accepted.
pub fn accepted(answer: u8) -> Result<bool, Refusal> {
    match answer {
        ACCEPT => Ok(true),
        REJECT => Ok(false),
        other => Err(Refusal::of(other)),
    }
}

/// Why a call was refused. All but [`NoSets`](Refusal::NoSets) and [`NoLinks`](Refusal::NoLinks) leave everything as it was.
#[derive(Clone, Copy, Debug, PartialEq, Eq, Hash)]
#[non_exhaustive]
pub enum Refusal {
    /// 10: a pool's size is out of its range, or a slice too short for it.
    BadPool,
    /// 11: the slices hold no table in form. A [`Table`](crate::Table) never answers it.
    BadTable,
    /// 12: the left symbol is not 64 to 127.
    BadLeft,
    /// 13: the right side has more than 7 symbols.
    LongRight,
    /// 14: a right symbol is not 1 to 63 or 65 to 127.
    BadSymbol,
    /// 15: the rule to add is current.
    There,
    /// 16: the rule to withdraw is not current.
    NotThere,
    /// 17: current rules fill the pool.
    NoRules,
    /// 18: the line has more than 255 tokens.
    LongLine,
    /// 19: a token is not 1 to 63.
    BadToken,
    /// 20: the parse needs more sets than the pool has. The expansions made, and a collection, stay.
    NoSets,
    /// 21: the parse needs more links than the pool has. The expansions and collections made stay.
    NoLinks,
    /// A number that is no answer of the call: the library is not the one that this crate is for.
    Unknown(u8),
}

impl Refusal {
    /// The number by which the library answers it.
    pub fn number(self) -> u8 {
        self.told().0
    }

    fn of(answer: u8) -> Refusal {
        match answer {
            10 => Refusal::BadPool,
            11 => Refusal::BadTable,
            12 => Refusal::BadLeft,
            13 => Refusal::LongRight,
            14 => Refusal::BadSymbol,
            15 => Refusal::There,
            16 => Refusal::NotThere,
            17 => Refusal::NoRules,
            18 => Refusal::LongLine,
            19 => Refusal::BadToken,
            20 => Refusal::NoSets,
            21 => Refusal::NoLinks,
            other => Refusal::Unknown(other),
        }
    }

    /// The number, and a sentence for people.
    fn told(self) -> (u8, &'static str) {
        match self {
            Refusal::BadPool => (10, "a pool's size is out of its range, or a slice too short for it"),
            Refusal::BadTable => (11, "the slices hold no table in form"),
            Refusal::BadLeft => (12, "the left symbol is not 64 to 127"),
            Refusal::LongRight => (13, "the right side has more than 7 symbols"),
            Refusal::BadSymbol => (14, "a right symbol is not 1 to 63 or 65 to 127"),
            Refusal::There => (15, "the rule is there"),
            Refusal::NotThere => (16, "the rule is not there"),
            Refusal::NoRules => (17, "current rules fill the pool"),
            Refusal::LongLine => (18, "the line has more than 255 tokens"),
            Refusal::BadToken => (19, "a token is not 1 to 63"),
            Refusal::NoSets => (20, "the parse needs more sets than the pool has"),
            Refusal::NoLinks => (21, "the parse needs more links than the pool has"),
            Refusal::Unknown(answer) => (answer, "this is no answer of the call"),
        }
    }
}

impl fmt::Display for Refusal {
    fn fmt(&self, f: &mut fmt::Formatter<'_>) -> fmt::Result {
        let (number, sentence) = self.told();
        write!(f, "{sentence} (answer {number})")
    }
}

impl Error for Refusal {}

#[cfg(test)]
mod tests {
    use super::*;
    use std::collections::HashSet;

    #[test]
    fn done_is_0_alone() {
        assert_eq!((0..=255).filter(|&answer| done(answer).is_ok()).collect::<Vec<_>>(), [0]);
    }

    #[test]
    fn a_verdict_is_1_or_2_alone() {
        assert_eq!((0..=255).filter_map(|answer| Some((answer, accepted(answer).ok()?))).collect::<Vec<_>>(), [(1, true), (2, false)]);
    }

    #[test]
    fn every_refusal_has_the_number_that_was_answered() {
        for answer in 0..=255 {
            assert!(done(answer).map_or_else(|refusal| refusal.number() == answer, |()| answer == DONE));
            assert!(accepted(answer).map_or_else(|refusal| refusal.number() == answer, |_| answer == ACCEPT || answer == REJECT));
        }
    }

    #[test]
    fn the_known_refusals_are_10_to_21() {
        let known = (0..=255).filter(|&answer| Refusal::of(answer) != Refusal::Unknown(answer));
        assert!(known.eq(10..=21));
    }

    #[test]
    fn each_refusal_is_told_in_its_own_words() {
        let told: HashSet<&str> = (9..=21).map(|answer| Refusal::of(answer).told().1).collect();
        assert_eq!(told.len(), 13);
        let error: Box<dyn Error> = Box::new(Refusal::of(12));
        assert_eq!(error.to_string(), "the left symbol is not 64 to 127 (answer 12)");
        assert_eq!(Refusal::of(57).to_string(), "this is no answer of the call (answer 57)");
    }
}
