//! The calls on lent slices, with their answers as numbers; [`done`] and [`accepted`] make results of them.
//!
//! Here is all that is unsafe. What the library asks of a caller is that each pointer be valid for its count, that slices which
//! it writes overlap with no other, and that nobody else uses them meanwhile: Rust's slices are so.

use crate::calls::*;
pub use crate::refusal::{accepted, done, ACCEPT, DONE, REJECT};

/// A place for a rule that holds none.
pub const RULE_FREE: u8 = 0;
/// A rule that lines are parsed by.
pub const RULE_CURRENT: u8 = 1;
/// A rule that was withdrawn, whose number is kept until a collection.
pub const RULE_WITHDRAWN: u8 = 2;

/// A set that is not in use.
pub const MARK_FREE: u8 = 0;
/// A set that has its kernel only.
pub const MARK_UNEXPANDED: u8 = 1;
/// A set with transitions and reductions.
pub const MARK_EXPANDED: u8 = 2;
/// An expanded set with the accept mark.
pub const MARK_ACCEPTING: u8 = 3;

/// What [`next_item`] answers where there is none.
pub const NO_ITEM: usize = 1024;
/// What [`next_reduction`] answers where there is none.
pub const NO_REDUCTION: usize = 128;

/// A table in three slices, which may hold anything: a call on what is no table in form answers 11 and touches nothing.
#[derive(Debug)]
pub struct Lent<'a> {
    /// The sizes and the rules, [`rules_for`] numbers or more.
    pub rules: &'a mut [u8],
    /// The sets' marks and targets, [`cells_for`] numbers or more.
    pub cells: &'a mut [u8],
    /// The sets' kernels and reductions, [`words_for`] numbers or more.
    pub words: &'a mut [u64],
}

/// A call that may write to the table.
macro_rules! change {
    ($call:ident, $lent:expr $(, $more:expr)*) => {
        // SAFETY: each pointer and count are of one slice, or of one number, that is borrowed for the call; what is borrowed as
        // `&mut` overlaps with nothing else.
        unsafe {
            $call(
                $lent.rules.as_mut_ptr(),
                $lent.rules.len(),
                $lent.cells.as_mut_ptr(),
                $lent.cells.len(),
                $lent.words.as_mut_ptr(),
                $lent.words.len()
                $(, $more)*
            )
        }
    };
}

impl Lent<'_> {
    /// New, with so many sets and places for rules. The answer.
    pub fn new_table(&mut self, sets: usize, places: usize) -> u8 {
        change!(skydoublet_new, self, sets, places)
    }

    /// Add. The answer, and the number of the rule.
    pub fn add(&mut self, left: u8, right: &[u8]) -> (u8, usize) {
        let mut number = 0;
        let answer = change!(skydoublet_add, self, left, right.as_ptr(), right.len(), &mut number);
        (answer, number)
    }

    /// Delete. The answer, and the number of the rule.
    pub fn delete(&mut self, left: u8, right: &[u8]) -> (u8, usize) {
        let mut number = 0;
        let answer = change!(skydoublet_delete, self, left, right.as_ptr(), right.len(), &mut number);
        (answer, number)
    }

    /// Collect. The answer.
    pub fn collect(&mut self) -> u8 {
        change!(skydoublet_collect, self)
    }

    /// Restart. The answer.
    pub fn restart(&mut self) -> u8 {
        change!(skydoublet_restart, self)
    }

    /// Parse, over a pool of so many links in a buffer of [`links_for`] numbers or more. The answer, and the number of links.
    pub fn parse(&mut self, links: &mut [u16], pool: usize, line: &[u8]) -> (u8, usize) {
        let mut number = 0;
        let (links, links_len) = (links.as_mut_ptr(), links.len());
        let answer = change!(skydoublet_parse, self, links, links_len, pool, line.as_ptr(), line.len(), &mut number);
        (answer, number)
    }
}

/// A call that writes nothing: on slices, then on numbers.
macro_rules! read {
    ($call:ident($($slice:expr),*; $($number:expr),*)) => {
        // SAFETY: each pointer and count are of one slice that is borrowed for the call.
        unsafe { $call($($slice.as_ptr(), $slice.len(),)* $($number),*) }
    };
}

/// Whether the slices hold a table in form.
pub fn is_formed(rules: &[u8], cells: &[u8], words: &[u64]) -> bool {
    read!(skydoublet_formed(rules, cells, words;))
}

/// Number k of rule r: its state ([`RULE_FREE`], [`RULE_CURRENT`], [`RULE_WITHDRAWN`]), left symbol, length, seven right places. 0
/// where the slice has no such number.
pub fn rule_number(rules: &[u8], r: usize, k: usize) -> u8 {
    read!(skydoublet_rule_number(rules; r, k))
}

/// How many sets are in use, 0 where the slices are too short.
pub fn sets_in_use(rules: &[u8], cells: &[u8]) -> usize {
    read!(skydoublet_sets_in_use(rules, cells;))
}

/// The mark of set s: [`MARK_FREE`], [`MARK_UNEXPANDED`], [`MARK_EXPANDED`] or [`MARK_ACCEPTING`]. Free where the slice has no such
/// set.
pub fn mark(cells: &[u8], s: usize) -> u8 {
    read!(skydoublet_mark(cells; s))
}

/// The target of set s on symbol x, 0 for none, and where the slice has no such set or x is not 1 to 127.
pub fn target(cells: &[u8], s: usize, x: usize) -> usize {
    read!(skydoublet_target(cells; s, x))
}

/// The lowest item of set s's kernel not below `from`: 8 r + d is rule r with dot d. [`NO_ITEM`] where there is none, or no such set.
pub fn next_item(words: &[u64], s: usize, from: usize) -> usize {
    read!(skydoublet_next_item(words; s, from))
}

/// The lowest rule that set s reduces, not below `from`. [`NO_REDUCTION`] where there is none, or no such set.
pub fn next_reduction(words: &[u64], s: usize, from: usize) -> usize {
    read!(skydoublet_next_reduction(words; s, from))
}

/// How many numbers the slice `rules` needs for so many places, 0 for a size that New would refuse.
pub fn rules_for(places: usize) -> usize {
    read!(skydoublet_rules_for(; places))
}

/// How many numbers the slice `cells` needs for so many sets, 0 for a size that New would refuse.
pub fn cells_for(sets: usize) -> usize {
    read!(skydoublet_cells_for(; sets))
}

/// How many numbers the slice `words` needs for so many sets, 0 for a size that New would refuse.
pub fn words_for(sets: usize) -> usize {
    read!(skydoublet_words_for(; sets))
}

/// How many numbers the link buffer needs for a pool of so many links, 0 for a size that Parse would refuse.
pub fn links_for(pool: usize) -> usize {
    read!(skydoublet_links_for(; pool))
}

#[cfg(test)]
mod tests {
    use super::*;
    use crate::{Refusal, START};

    /// The number that the header gives a name, in a `#define` or an enum.
    fn in_header(name: &str) -> usize {
        let names = include_str!("../../skydoublet.h").lines().map(|line| line.trim().trim_start_matches("#define "));
        let mut found = names.filter_map(|line| line.strip_prefix("SKYDOUBLET_")?.strip_prefix(name)?.strip_prefix(' '));
        let number = found.next().expect("the header has the name").trim_start_matches("= ");
        number.split(|c: char| !c.is_ascii_digit()).next().and_then(|digits| digits.parse().ok()).expect("it gives it a number")
    }

    #[test]
    fn names_have_the_numbers_of_the_header() {
        let bytes = [
            ("START", START),
            ("DONE", DONE),
            ("ACCEPT", ACCEPT),
            ("REJECT", REJECT),
            ("BAD_POOL", Refusal::BadPool.number()),
            ("BAD_TABLE", Refusal::BadTable.number()),
            ("BAD_LEFT", Refusal::BadLeft.number()),
            ("LONG_RIGHT", Refusal::LongRight.number()),
            ("BAD_SYMBOL", Refusal::BadSymbol.number()),
            ("THERE", Refusal::There.number()),
            ("NOT_THERE", Refusal::NotThere.number()),
            ("NO_RULES", Refusal::NoRules.number()),
            ("LONG_LINE", Refusal::LongLine.number()),
            ("BAD_TOKEN", Refusal::BadToken.number()),
            ("NO_SETS", Refusal::NoSets.number()),
            ("NO_LINKS", Refusal::NoLinks.number()),
            ("RULE_FREE", RULE_FREE),
            ("RULE_CURRENT", RULE_CURRENT),
            ("RULE_WITHDRAWN", RULE_WITHDRAWN),
            ("MARK_FREE", MARK_FREE),
            ("MARK_UNEXPANDED", MARK_UNEXPANDED),
            ("MARK_EXPANDED", MARK_EXPANDED),
            ("MARK_ACCEPTING", MARK_ACCEPTING),
        ];
        let numbers = bytes.map(|(name, number)| (name, usize::from(number)));
        for (name, number) in numbers.into_iter().chain([("NO_ITEM", NO_ITEM), ("NO_REDUCTION", NO_REDUCTION)]) {
            assert_eq!(number, in_header(name), "{name}");
        }
    }

    #[test]
    fn the_version_is_the_headers() {
        let parts = ["VERSION_MAJOR", "VERSION_MINOR", "VERSION_PATCH"].map(|name| in_header(name).to_string());
        assert_eq!(env!("CARGO_PKG_VERSION"), parts.join("."));
    }
}
