//! A rule as a table holds it.

use crate::lent::{self, RULE_CURRENT, RULE_WITHDRAWN};

/// A rule that is current or withdrawn.
#[derive(Clone, Debug, PartialEq, Eq, Hash)]
#[non_exhaustive]
pub struct Rule {
    /// Its number, which Add answered.
    pub number: usize,
    /// Whether it is current.
    pub state: RuleState,
    /// The left symbol.
    pub left: u8,
    /// The right symbols.
    pub right: Vec<u8>,
}

/// Whether a rule is current.
#[derive(Clone, Copy, Debug, PartialEq, Eq, Hash)]
pub enum RuleState {
    /// Added: lines are parsed by it.
    Current,
    /// Withdrawn: no line is parsed by it, and its number is kept until a collection.
    Withdrawn,
}

impl Rule {
    /// The rule with that number in the table's first slice, none where the number is free or not there.
    pub(crate) fn read(rules: &[u8], number: usize) -> Option<Rule> {
        let read = |k| lent::rule_number(rules, number, k);
        let state = RuleState::of(read(0))?;
        let right = (0..usize::from(read(2))).map(|place| read(3 + place)).collect();
        Some(Rule { number, state, left: read(1), right })
    }
}

impl RuleState {
    fn of(state: u8) -> Option<RuleState> {
        match state {
            RULE_CURRENT => Some(RuleState::Current),
            RULE_WITHDRAWN => Some(RuleState::Withdrawn),
            _ => None,
        }
    }
}

#[cfg(test)]
mod tests {
    use super::*;

    #[test]
    fn a_state_is_1_or_2() {
        let states = (0..=255).filter_map(|state| Some((state, RuleState::of(state)?)));
        assert!(states.eq([(1, RuleState::Current), (2, RuleState::Withdrawn)]));
    }
}
