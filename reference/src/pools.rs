//! The calls on lent numbers: a table is read from three slices, changed, and written back. The form test is written here from
//! document 01's sentence, clause by clause over the table that the numbers hold.
//!
//! `rules` has the sizes S and R, then ten numbers for each rule: its state (0 free, 1 current, 2 withdrawn), its left symbol, its
//! length, seven right places. `cells` has 128 for each set: its mark (0 free, 1 unexpanded, 2 expanded, 3 expanded with the
//! accept mark), then its target on the symbols 1 to 127. `words` has 18 for each set: a bit for each item 8 r + d, then from
//! bit 1,024 on one for each reduction.

use crate::parse::parse;
use crate::table::{Expansion, Item, Kernel, Rule, RulePlace, Set, Symbol, Table, Transitions, START};
use crate::Refusal;

const SIZES: usize = 2;
const RULE: usize = 10;
const CELLS: usize = 128;
const WORDS: usize = 18;
const LINK: usize = 6;
const MOST_LINKS: usize = 4096;
const FIRST_REDUCTION: usize = 1024;
const LAST_BIT: usize = 1152;

/// What a caller lends: any numbers, any lengths.
#[derive(Clone, Debug, PartialEq, Eq)]
pub struct Pools {
    pub rules: Vec<u8>,
    pub cells: Vec<u8>,
    pub words: Vec<u64>,
}

/// An answer's number, and the rule number or the number of links beside it.
pub type Answer = (u8, usize);

impl Pools {
    pub fn new_table(&mut self, sets: usize, places: usize) -> Answer {
        let table = Table::new(sets, places).and_then(|table| match self.have_room_for(sets, places) {
            true => Ok(table),
            false => Err(Refusal::BadPool),
        });
        match table {
            Ok(table) => {
                self.store(&table);
                (0, 0)
            }
            Err(refusal) => refused(refusal),
        }
    }

    pub fn add(&mut self, left: Symbol, right: &[Symbol]) -> Answer {
        self.on_table(|table| table.add(left, right).map(|number| (0, number)))
    }

    pub fn delete(&mut self, left: Symbol, right: &[Symbol]) -> Answer {
        self.on_table(|table| table.delete(left, right).map(|number| (0, number)))
    }

    pub fn collect(&mut self) -> Answer {
        self.on_table(|table| {
            table.collect();
            Ok((0, 0))
        })
    }

    pub fn restart(&mut self) -> Answer {
        self.on_table(|table| {
            table.restart();
            Ok((0, 0))
        })
    }

    pub fn parse(&mut self, links: &mut [u16], pool: usize, line: &[Symbol]) -> Answer {
        let enough = pool <= MOST_LINKS && LINK * (pool + 1) <= links.len();
        let answer = self.on_table(|table| {
            if !enough {
                return Err(Refusal::BadPool);
            }
            parse(table, pool, line).map(|v| (if v.accepted { 1 } else { 2 }, v.links))
        });
        if [1, 2, 20, 21].contains(&answer.0) {
            links[..LINK * (pool + 1)].fill(0);
        }
        answer
    }

    pub fn are_formed(&self) -> bool {
        self.load().is_some()
    }

    /// What a refusal leaves is written back too: all that stands if it is one of the checks, else what was made before.
    fn on_table(&mut self, call: impl FnOnce(&mut Table) -> Result<Answer, Refusal>) -> Answer {
        let Some(mut table) = self.load() else { return refused(Refusal::BadTable) };
        let answer = call(&mut table).unwrap_or_else(refused);
        self.store(&table);
        answer
    }

    fn have_room_for(&self, sets: usize, places: usize) -> bool {
        self.rules.len() >= SIZES + RULE * places && self.cells.len() >= CELLS * sets && self.words.len() >= WORDS * sets
    }

    /// The table, where the numbers hold one in form.
    fn load(&self) -> Option<Table> {
        let [sets, places, ..] = self.rules[..] else { return None };
        let (sets, places) = (usize::from(sets), usize::from(places));
        let in_range = (1..=255).contains(&sets) && (1..=128).contains(&places);
        if !in_range || !self.have_room_for(sets, places) {
            return None;
        }
        let rules = (0..places).map(|r| self.rule(r)).collect::<Option<Vec<_>>>()?;
        let sets = (0..sets).map(|s| self.set(s)).collect::<Option<Vec<_>>>()?;
        is_in_form(&rules, &sets).then(|| Table::of(rules, sets))
    }

    /// A rule's place, where its numbers are in their ranges and those not in use are zero.
    fn rule(&self, r: usize) -> Option<RulePlace> {
        let numbers = &self.rules[SIZES + RULE * r..][..RULE];
        let [state, left, length, right @ ..] = numbers else { return None };
        if *state == 0 {
            return numbers.iter().all(|&x| x == 0).then_some(RulePlace::Free);
        }
        let (used, unused) = right.split_at_checked(usize::from(*length))?;
        if unused.iter().any(|&x| x != 0) {
            return None;
        }
        let rule = Rule { left: *left, right: used.to_vec() };
        match state {
            1 => Some(RulePlace::Current(rule)),
            2 => Some(RulePlace::Withdrawn(rule)),
            _ => None,
        }
    }

    /// A set's place, likewise. `None` inside is a free one.
    fn set(&self, s: usize) -> Option<Option<Set>> {
        let [mark, targets @ ..] = &self.cells[CELLS * s..][..CELLS] else { return None };
        let words = &self.words[WORDS * s..][..WORDS];
        let bits: Vec<usize> = (0..LAST_BIT).filter(|b| words[b / 64] >> (b % 64) & 1 == 1).collect();
        let (items, reductions) = bits.split_at(bits.partition_point(|&b| b < FIRST_REDUCTION));
        let mut transitions = Transitions::default();
        for (symbol, &target) in (1..).zip(targets) {
            transitions.insert(symbol, usize::from(target));
        }
        let reductions: Vec<usize> = reductions.iter().map(|b| b - FIRST_REDUCTION).collect();
        let kernel: Kernel = items.iter().map(|i| Item { rule: i / 8, dot: i % 8 }).collect();
        let bare = transitions == Transitions::default() && reductions.is_empty();
        match mark {
            0 => (bare && kernel.is_empty()).then_some(None),
            1 => bare.then_some(Some(Set { kernel, expansion: None })),
            2 | 3 => {
                let expansion = Expansion { transitions, reductions, accepts: *mark == 3 };
                Some(Some(Set { kernel, expansion: Some(expansion) }))
            }
            _ => None,
        }
    }

    fn store(&mut self, table: &Table) {
        self.rules[0] = table.sets().len() as u8;
        self.rules[1] = table.rules().len() as u8;
        for (place, numbers) in table.rules().iter().zip(self.rules[SIZES..].chunks_exact_mut(RULE)) {
            store_rule(place, numbers);
        }
        let cells = self.cells.chunks_exact_mut(CELLS);
        for (place, (cells, words)) in table.sets().iter().zip(cells.zip(self.words.chunks_exact_mut(WORDS))) {
            store_set(place.as_ref(), cells, words);
        }
    }
}

fn refused(refusal: Refusal) -> Answer {
    (refusal as u8, 0)
}

fn store_rule(place: &RulePlace, numbers: &mut [u8]) {
    numbers.fill(0);
    let (state, rule) = match place {
        RulePlace::Free => return,
        RulePlace::Current(rule) => (1, rule),
        RulePlace::Withdrawn(rule) => (2, rule),
    };
    numbers[0] = state;
    numbers[1] = rule.left;
    numbers[2] = rule.right.len() as u8;
    numbers[3..][..rule.right.len()].copy_from_slice(&rule.right);
}

fn store_set(place: Option<&Set>, cells: &mut [u8], words: &mut [u64]) {
    cells.fill(0);
    words.fill(0);
    let Some(set) = place else { return };
    cells[0] = 1;
    for item in &set.kernel {
        words[(8 * item.rule + item.dot) / 64] |= 1 << ((8 * item.rule + item.dot) % 64);
    }
    let Some(expansion) = &set.expansion else { return };
    cells[0] = if expansion.accepts { 3 } else { 2 };
    for (symbol, target) in expansion.transitions.iter() {
        cells[usize::from(symbol)] = target as u8;
    }
    for reduction in &expansion.reductions {
        words[16 + reduction / 64] |= 1 << (reduction % 64);
    }
}

/// 01's *In form*, but for what reading the numbers has seen to: sizes, ranges of states and marks, unused places zero.
fn is_in_form(rules: &[RulePlace], sets: &[Option<Set>]) -> bool {
    rules_are_in_form(rules)
        && start_set_is_in_form(rules, sets)
        && sets.iter().flatten().all(|set| names_are_in_form(rules, set))
        && sets.iter().flatten().all(|set| targets_are_in_form(sets, set))
        && no_two_kernels_equal(sets)
        && sets.iter().flatten().all(|set| names_current_on(rules, sets, set))
}

/// "each current or withdrawn number holds a rule as above; .. no two current or withdrawn rules equal"
fn rules_are_in_form(rules: &[RulePlace]) -> bool {
    let held: Vec<&Rule> = rules.iter().filter_map(RulePlace::rule).collect();
    let may_stand_right = |x: &Symbol| (1..=127).contains(x) && *x != START;
    let each = held.iter().all(|rule| (1..=127).contains(&rule.left) && rule.right.iter().all(may_stand_right));
    each && (1..held.len()).all(|i| !held[..i].contains(&held[i]))
}

/// "start set in use with its kernel as above": "every current START rule with dot 0"
fn start_set_is_in_form(rules: &[RulePlace], sets: &[Option<Set>]) -> bool {
    let is_start = |place: &RulePlace| place.current().is_some_and(|rule| rule.left == START);
    let starts = (0..rules.len()).filter(|&r| is_start(&rules[r])).map(|rule| Item { rule, dot: 0 });
    sets[0].as_ref().is_some_and(|set| set.kernel.iter().copied().eq(starts))
}

/// "items and reductions name current or withdrawn rules, dots within length"
fn names_are_in_form(rules: &[RulePlace], set: &Set) -> bool {
    let held = |r: usize| rules.get(r).and_then(RulePlace::rule);
    let reductions = set.expansion.iter().flat_map(|e| &e.reductions);
    set.kernel.iter().all(|i| held(i.rule).is_some_and(|rule| i.dot <= rule.right.len()))
        && reductions.into_iter().all(|&r| held(r).is_some())
}

/// "at most one target for each symbol, in use and not 0"
fn targets_are_in_form(sets: &[Option<Set>], set: &Set) -> bool {
    targets(set).all(|t| t != 0 && sets.get(t).is_some_and(Option::is_some))
}

fn no_two_kernels_equal(sets: &[Option<Set>]) -> bool {
    let kernels: Vec<&Kernel> = sets.iter().flatten().map(|set| &set.kernel).collect();
    (1..kernels.len()).all(|i| !kernels[..i].contains(&kernels[i]))
}

/// "where a kernel names current rules only, so do its set's reductions and its targets' kernels"
fn names_current_on(rules: &[RulePlace], sets: &[Option<Set>], set: &Set) -> bool {
    let is_current = |r: usize| rules[r].current().is_some();
    let is_current_only = |kernel: &Kernel| kernel.iter().all(|i| is_current(i.rule));
    if !is_current_only(&set.kernel) {
        return true;
    }
    let mut kernels = targets(set).filter_map(|t| sets[t].as_ref()).map(|target| &target.kernel);
    let mut reductions = set.expansion.iter().flat_map(|e| &e.reductions);
    reductions.all(|&r| is_current(r)) && kernels.all(is_current_only)
}

fn targets(set: &Set) -> impl Iterator<Item = usize> + '_ {
    set.expansion.iter().flat_map(|e| e.transitions.iter().map(|(_, target)| target))
}
