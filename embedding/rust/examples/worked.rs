//! 01's worked lines from Rust: the grammar, a parse, the sets, then E4 to E6; and refusals, as one prints them.

use skydoublet::{lent, Refusal, Rule, Set, Table, START};

const REPORT: u8 = 65;
const SPEED: u8 = 66;
const THROUGH_WATER: [u8; 2] = [1, 3];
const OVER_GROUND: [u8; 2] = [2, 3];

fn main() -> Result<(), Refusal> {
    let mut table = Table::new(8, 8, 16)?;
    println!("rule {}", table.add(START, &[REPORT])?);
    println!("rule {}", table.add(REPORT, &[SPEED])?);
    println!("rule {}", table.add(REPORT, &[REPORT, 4, SPEED])?);
    println!("rule {}", table.add(SPEED, &THROUGH_WATER)?);
    println!("rule {}", table.add(SPEED, &OVER_GROUND)?);
    println!("{:?}, {} sets in use", table.parse(&THROUGH_WATER)?, table.sets_in_use());
    table.sets().for_each(print_set);
    println!("rule {} withdrawn", table.delete(SPEED, &OVER_GROUND)?);
    table.rules().for_each(print_rule);
    println!("{:?}, {} sets in use", table.parse(&OVER_GROUND)?, table.sets_in_use());
    table.collect()?;
    println!("collected, {} rules, {} sets in use", table.rules().count(), table.sets_in_use());
    print_refusal("withdrawn again", table.delete(SPEED, &OVER_GROUND));
    print_refusal("a token that is none", table.parse(&[64]));
    print_refusal("no room for sets", Table::new(0, 8, 16));
    print_refusal("a number that is no answer", lent::done(57));
    Ok(())
}

fn print_set(set: Set) {
    print!("set {}, expanded {}, accepts {}:", set.number, set.is_expanded(), set.accepts());
    set.kernel().for_each(|(rule, dot)| print!(" {rule}.{dot}"));
    set.transitions().for_each(|(symbol, target)| print!(" {symbol}>{target}"));
    set.reductions().for_each(|rule| print!(" R{rule}"));
    println!();
}

fn print_rule(rule: Rule) {
    println!("rule {}, {:?}: {} {:?}", rule.number, rule.state, rule.left, rule.right);
}

fn print_refusal<T>(of: &str, result: Result<T, Refusal>) {
    if let Err(refusal) = result {
        println!("{of}: {refusal}");
    }
}
