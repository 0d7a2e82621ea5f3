//! The grammar table: rules that are current, withdrawn or free, and item sets that are expanded where a line needed them.

use crate::Refusal;
use std::collections::{BTreeMap, BTreeSet, HashMap};

pub type Symbol = u8;
pub const START: Symbol = 64;
const LONGEST_RIGHT: usize = 7;

pub fn is_terminal(x: Symbol) -> bool {
    (1..=63).contains(&x)
}

pub fn is_nonterminal(x: Symbol) -> bool {
    (64..=127).contains(&x)
}

fn may_stand_right(x: Symbol) -> bool {
    is_terminal(x) || (is_nonterminal(x) && x != START)
}

#[derive(Clone, Debug, PartialEq, Eq)]
pub struct Rule {
    pub left: Symbol,
    pub right: Vec<Symbol>,
}

impl Rule {
    /// The rule, or the refusal in the order of 01's checks.
    pub fn checked(left: Symbol, right: &[Symbol]) -> Result<Rule, Refusal> {
        if !is_nonterminal(left) {
            return Err(Refusal::BadLeft);
        }
        if right.len() > LONGEST_RIGHT {
            return Err(Refusal::LongRight);
        }
        if !right.iter().all(|&x| may_stand_right(x)) {
            return Err(Refusal::BadSymbol);
        }
        Ok(Rule { left, right: right.to_vec() })
    }
}

#[derive(Clone, Debug, PartialEq, Eq)]
pub enum RulePlace {
    Free,
    Current(Rule),
    Withdrawn(Rule),
}

impl RulePlace {
    pub fn rule(&self) -> Option<&Rule> {
        match self {
            RulePlace::Free => None,
            RulePlace::Current(rule) | RulePlace::Withdrawn(rule) => Some(rule),
        }
    }

    pub fn current(&self) -> Option<&Rule> {
        match self {
            RulePlace::Current(rule) => Some(rule),
            _ => None,
        }
    }
}

/// A rule number and a dot, in the order of 01.
#[derive(Clone, Copy, Debug, PartialEq, Eq, PartialOrd, Ord, Hash)]
pub struct Item {
    pub rule: usize,
    pub dot: usize,
}

/// Ascending.
pub type Kernel = Vec<Item>;

/// A target for each symbol. No transition leads to set 0, so 0 says that there is none.
#[derive(Clone, Debug, PartialEq, Eq)]
pub struct Transitions([u8; 128]);

impl Default for Transitions {
    fn default() -> Transitions {
        Transitions([0; 128])
    }
}

impl Transitions {
    pub fn get(&self, symbol: Symbol) -> Option<usize> {
        Some(usize::from(self.0[usize::from(symbol)])).filter(|&target| target != 0)
    }

    pub fn insert(&mut self, symbol: Symbol, target: usize) {
        self.0[usize::from(symbol)] = target as u8;
    }

    /// Each symbol with its target, ascending.
    pub fn iter(&self) -> impl Iterator<Item = (Symbol, usize)> + '_ {
        (1..128).filter_map(|symbol| Some((symbol, self.get(symbol)?)))
    }
}

#[derive(Clone, Debug, Default, PartialEq, Eq)]
pub struct Expansion {
    pub transitions: Transitions,
    pub reductions: Vec<usize>,
    pub accepts: bool,
}

#[derive(Clone, Debug, PartialEq, Eq)]
pub struct Set {
    pub kernel: Kernel,
    pub expansion: Option<Expansion>,
}

impl Set {
    fn unexpanded(kernel: Kernel) -> Set {
        Set { kernel, expansion: None }
    }
}

#[derive(Clone, Debug)]
pub struct Table {
    rules: Vec<RulePlace>,
    sets: Vec<Option<Set>>,
    /// The number of each set in use but 0, by its kernel.
    numbers: HashMap<Kernel, usize>,
}

impl Table {
    pub fn new(sets: usize, rules: usize) -> Result<Table, Refusal> {
        if !(1..=255).contains(&sets) || !(1..=128).contains(&rules) {
            return Err(Refusal::BadPool);
        }
        let mut places = vec![None; sets];
        places[0] = Some(Set::unexpanded(Kernel::new()));
        Ok(Table { rules: vec![RulePlace::Free; rules], sets: places, numbers: HashMap::new() })
    }

    /// The table with these places, which are in form.
    pub fn of(rules: Vec<RulePlace>, sets: Vec<Option<Set>>) -> Table {
        let others = sets.iter().enumerate().skip(1);
        let numbers = others.filter_map(|(n, place)| place.as_ref().map(|set| (set.kernel.clone(), n))).collect();
        Table { rules, sets, numbers }
    }

    pub fn sets(&self) -> &[Option<Set>] {
        &self.sets
    }

    pub fn rules(&self) -> &[RulePlace] {
        &self.rules
    }

    pub fn sets_in_use(&self) -> usize {
        self.sets.iter().flatten().count()
    }

    /// A rule that a kernel or a reduction names.
    pub fn rule(&self, number: usize) -> &Rule {
        self.rules[number].rule().expect("items name current or withdrawn rules")
    }

    pub fn set(&self, number: usize) -> &Set {
        self.sets[number].as_ref().expect("the set is in use")
    }

    pub fn add(&mut self, left: Symbol, right: &[Symbol]) -> Result<usize, Refusal> {
        let rule = Rule::checked(left, right)?;
        if self.rules.iter().any(|p| p.current() == Some(&rule)) {
            return Err(Refusal::There);
        }
        if self.rules.iter().all(|p| p.current().is_some()) {
            return Err(Refusal::NoRules);
        }
        let withdrawn = self.rules.iter().position(|p| *p == RulePlace::Withdrawn(rule.clone()));
        let number = withdrawn.or_else(|| self.lowest_free_rule()).unwrap_or_else(|| {
            self.collect();
            self.lowest_free_rule().expect("a withdrawn number was freed")
        });
        self.rules[number] = RulePlace::Current(rule);
        self.unexpand_for(left);
        Ok(number)
    }

    pub fn delete(&mut self, left: Symbol, right: &[Symbol]) -> Result<usize, Refusal> {
        let rule = Rule::checked(left, right)?;
        let number = self.rules.iter().position(|p| p.current() == Some(&rule)).ok_or(Refusal::NotThere)?;
        self.rules[number] = RulePlace::Withdrawn(rule);
        self.unexpand_for(left);
        Ok(number)
    }

    fn lowest_free_rule(&self) -> Option<usize> {
        self.rules.iter().position(|p| *p == RulePlace::Free)
    }

    /// What the change of a rule of `left` makes unexpanded.
    fn unexpand_for(&mut self, left: Symbol) {
        if left == START {
            let kernel = self.start_kernel();
            self.sets[0] = Some(Set::unexpanded(kernel));
            return;
        }
        for set in self.sets.iter_mut().flatten() {
            if set.expansion.as_ref().is_some_and(|e| e.transitions.get(left).is_some()) {
                set.expansion = None;
            }
        }
    }

    fn start_kernel(&self) -> Kernel {
        self.current_rules_of(START).map(|rule| Item { rule, dot: 0 }).collect()
    }

    fn current_rules_of(&self, left: Symbol) -> impl Iterator<Item = usize> + '_ {
        self.rules.iter().enumerate().filter(move |(_, p)| p.current().is_some_and(|r| r.left == left)).map(|(n, _)| n)
    }

    pub fn restart(&mut self) {
        self.sets[0].as_mut().expect("the start set is in use").expansion = None;
        self.collect();
    }

    pub fn collect(&mut self) {
        let reach = self.reach();
        for (number, place) in self.sets.iter_mut().enumerate() {
            if !reach[number] {
                if let Some(set) = place.take() {
                    self.numbers.remove(&set.kernel);
                }
            }
        }
        for place in &mut self.rules {
            if matches!(place, RulePlace::Withdrawn(_)) {
                *place = RulePlace::Free;
            }
        }
    }

    fn reach(&self) -> Vec<bool> {
        let mut reached = vec![false; self.sets.len()];
        let mut waiting = vec![0];
        reached[0] = true;
        while let Some(number) = waiting.pop() {
            let Some(expansion) = &self.set(number).expansion else { continue };
            for (_, target) in expansion.transitions.iter() {
                if !reached[target] {
                    reached[target] = true;
                    waiting.push(target);
                }
            }
        }
        reached
    }

    fn symbol_after(&self, item: Item) -> Option<Symbol> {
        self.rule(item.rule).right.get(item.dot).copied()
    }

    fn closure(&self, kernel: &Kernel) -> BTreeSet<Item> {
        let mut closure: BTreeSet<Item> = kernel.iter().copied().collect();
        let mut waiting: Vec<Item> = kernel.clone();
        let mut met = [false; 128];
        while let Some(item) = waiting.pop() {
            let Some(symbol) = self.symbol_after(item) else { continue };
            if !is_nonterminal(symbol) || std::mem::replace(&mut met[symbol as usize], true) {
                continue;
            }
            for rule in self.current_rules_of(symbol) {
                let item = Item { rule, dot: 0 };
                if closure.insert(item) {
                    waiting.push(item);
                }
            }
        }
        closure
    }

    /// Expands a reachable set that is unexpanded; says whether there was room.
    pub fn expand(&mut self, number: usize) -> bool {
        let closure = self.closure(&self.set(number).kernel);
        let mut kernels: BTreeMap<Symbol, Kernel> = BTreeMap::new();
        let mut expansion = Expansion::default();
        for &item in &closure {
            match self.symbol_after(item) {
                Some(symbol) => kernels.entry(symbol).or_default().push(Item { dot: item.dot + 1, ..item }),
                None if self.rule(item.rule).left == START => expansion.accepts = true,
                None => expansion.reductions.push(item.rule),
            }
        }
        if !self.has_room_for(&kernels) {
            self.collect();
            if !self.has_room_for(&kernels) {
                return false;
            }
        }
        for (symbol, kernel) in kernels {
            let target = self.number_of(kernel);
            expansion.transitions.insert(symbol, target);
        }
        self.sets[number].as_mut().expect("the set is in use").expansion = Some(expansion);
        true
    }

    fn has_room_for(&self, kernels: &BTreeMap<Symbol, Kernel>) -> bool {
        let missing = kernels.values().filter(|k| !self.numbers.contains_key(*k)).count();
        missing <= self.sets.len() - self.sets_in_use()
    }

    fn number_of(&mut self, kernel: Kernel) -> usize {
        if let Some(&number) = self.numbers.get(&kernel) {
            return number;
        }
        let number = self.sets.iter().position(Option::is_none).expect("there is room");
        self.sets[number] = Some(Set::unexpanded(kernel.clone()));
        self.numbers.insert(kernel, number);
        number
    }
}
