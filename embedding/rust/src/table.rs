//! A table that owns its memory.

use crate::lent::{self, Lent};
use crate::{Refusal, Rule, Set};

/// A grammar table with its pools and its link buffer.
#[derive(Clone, Debug)]
pub struct Table {
    pub(crate) rules: Vec<u8>,
    pub(crate) cells: Vec<u8>,
    pub(crate) words: Vec<u64>,
    links: Vec<u16>,
    pool: usize,
}

/// What a parse found.
#[derive(Clone, Copy, Debug, PartialEq, Eq, Hash)]
#[non_exhaustive]
pub struct Verdict {
    /// Whether START derives the line.
    pub accepted: bool,
    /// How many links the graph had at the end.
    pub links: usize,
}

impl Table {
    /// A table without rules: 1 to 255 sets, 1 to 128 places for rules, 0 to 4,096 links.
    pub fn new(sets: usize, places: usize, links: usize) -> Result<Table, Refusal> {
        let mut table = Table {
            rules: vec![0; lent::rules_for(places)],
            cells: vec![0; lent::cells_for(sets)],
            words: vec![0; lent::words_for(sets)],
            links: vec![0; lent::links_for(links)],
            pool: links,
        };
        lent::done(table.lent().new_table(sets, places))?;
        if table.links.is_empty() {
            return Err(Refusal::BadPool);
        }
        Ok(table)
    }

    /// Adds a rule and says its number.
    pub fn add(&mut self, left: u8, right: &[u8]) -> Result<usize, Refusal> {
        let (answer, number) = self.lent().add(left, right);
        lent::done(answer).map(|()| number)
    }

    /// Withdraws a rule and says its number.
    pub fn delete(&mut self, left: u8, right: &[u8]) -> Result<usize, Refusal> {
        let (answer, number) = self.lent().delete(left, right);
        lent::done(answer).map(|()| number)
    }

    /// Frees the sets that are not reached and the withdrawn numbers.
    pub fn collect(&mut self) -> Result<(), Refusal> {
        lent::done(self.lent().collect())
    }

    /// Forgets the expansion of the start set, then collects.
    pub fn restart(&mut self) -> Result<(), Refusal> {
        lent::done(self.lent().restart())
    }

    /// Whether START derives the line. The table is expanded where the line needs it.
    pub fn parse(&mut self, line: &[u8]) -> Result<Verdict, Refusal> {
        let Table { rules, cells, words, links, pool } = self;
        let (answer, links) = Lent { rules, cells, words }.parse(links, *pool, line);
        lent::accepted(answer).map(|accepted| Verdict { accepted, links })
    }

    /// The rules that are current or withdrawn, by their numbers, ascending.
    pub fn rules(&self) -> impl Iterator<Item = Rule> + '_ {
        (0..128).filter_map(|number| Rule::read(&self.rules, number))
    }

    /// How many sets are in use.
    pub fn sets_in_use(&self) -> usize {
        lent::sets_in_use(&self.rules, &self.cells)
    }

    /// The sets in use, ascending.
    pub fn sets(&self) -> impl Iterator<Item = Set<'_>> {
        (0..255).filter_map(|number| Set::of(self, number))
    }

    fn lent(&mut self) -> Lent<'_> {
        Lent { rules: &mut self.rules, cells: &mut self.cells, words: &mut self.words }
    }
}
