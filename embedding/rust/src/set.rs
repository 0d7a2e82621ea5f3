//! A set of a table, for reading.

use crate::lent::{self, MARK_ACCEPTING, MARK_EXPANDED, MARK_FREE, NO_ITEM, NO_REDUCTION};
use crate::Table;

/// A set in use.
#[derive(Clone, Copy, Debug)]
pub struct Set<'a> {
    table: &'a Table,
    /// Its number; 0 is the start set.
    pub number: usize,
}

impl<'a> Set<'a> {
    /// The set with that number, none where it is free or not there.
    pub(crate) fn of(table: &'a Table, number: usize) -> Option<Set<'a>> {
        let set = Set { table, number };
        (set.mark() != MARK_FREE).then_some(set)
    }

    fn mark(&self) -> u8 {
        lent::mark(&self.table.cells, self.number)
    }

    /// Whether it has transitions and reductions beside its kernel.
    pub fn is_expanded(&self) -> bool {
        matches!(self.mark(), MARK_EXPANDED | MARK_ACCEPTING)
    }

    /// Whether it has the accept mark.
    pub fn accepts(&self) -> bool {
        self.mark() == MARK_ACCEPTING
    }

    /// The kernel, each item as its rule number and its dot, ascending.
    pub fn kernel(&self) -> impl Iterator<Item = (usize, usize)> + 'a {
        let (words, number) = (&self.table.words, self.number);
        walk(NO_ITEM, move |from| lent::next_item(words, number, from)).map(|item| (item / 8, item % 8))
    }

    /// Each symbol with its target, ascending.
    pub fn transitions(&self) -> impl Iterator<Item = (usize, usize)> + 'a {
        let (cells, number) = (&self.table.cells, self.number);
        (1..128).map(move |symbol| (symbol, lent::target(cells, number, symbol))).filter(|&(_, target)| target != 0)
    }

    /// The rule numbers that the set reduces, ascending.
    pub fn reductions(&self) -> impl Iterator<Item = usize> + 'a {
        let (words, number) = (&self.table.words, self.number);
        walk(NO_REDUCTION, move |from| lent::next_reduction(words, number, from))
    }
}

/// The numbers that `next` finds, each from the one before + 1, until it answers `none`.
fn walk(none: usize, next: impl Fn(usize) -> usize) -> impl Iterator<Item = usize> {
    let mut from = 0;
    std::iter::from_fn(move || {
        let found = next(from);
        from = found + 1;
        (found < none).then_some(found)
    })
}

#[cfg(test)]
mod tests {
    use super::*;

    #[test]
    fn a_walk_finds_each_number_once_and_ends() {
        let numbers = [0, 3, 4, 127];
        let next = |from| numbers.into_iter().find(|&number| number >= from).unwrap_or(NO_REDUCTION);
        assert!(walk(NO_REDUCTION, next).eq(numbers));
    }
}
