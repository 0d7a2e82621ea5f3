//! The script: one command a line, one answer a line (the listing several).

use crate::parse::parse;
use crate::table::{Set, Symbol, Table};
use crate::Refusal;
use std::fmt::Write as _;

const MOST_NUMBERS: usize = 256;
const MOST_SETS: usize = 128;
const MOST_RULES: usize = 128;
const MOST_LINKS: usize = 1024;
const MALFORMED: &str = "22\n";

/// What the program keeps between commands. Before the first good `N` there is no table.
#[derive(Default)]
pub struct Reader {
    table: Option<Table>,
    links: usize,
}

enum Command {
    New(usize, usize, usize),
    Add(Symbol, Vec<Symbol>),
    Delete(Symbol, Vec<Symbol>),
    Parse(Vec<Symbol>),
    Collect,
    Restart,
    List,
}

/// What a script prints.
pub fn run(script: &[u8]) -> String {
    let mut reader = Reader::default();
    let mut out = String::new();
    for line in lines(script) {
        reader.command(line, &mut out);
    }
    out
}

/// What stands before each newline; the last may lack it.
pub fn lines(script: &[u8]) -> impl Iterator<Item = &[u8]> {
    let body = script.strip_suffix(b"\n").unwrap_or(script);
    let some = !script.is_empty();
    body.split(|&b| b == b'\n').filter(move |_| some)
}

impl Reader {
    pub fn command(&mut self, line: &[u8], out: &mut String) {
        let Some(command) = read(line) else {
            out.push_str(MALFORMED);
            return;
        };
        let answered = match command {
            Command::New(sets, rules, links) => self.new_table(sets, rules, links, out),
            Command::Add(left, right) => self.table().and_then(|t| t.add(left, &right)).map(|n| numbers(out, &[0, n])),
            Command::Delete(left, right) => self.table().and_then(|t| t.delete(left, &right)).map(|n| numbers(out, &[0, n])),
            Command::Parse(line) => self.parse(&line, out),
            Command::Collect => self.table().map(Table::collect).map(|()| self.done(out)),
            Command::Restart => self.table().map(Table::restart).map(|()| self.done(out)),
            Command::List => self.table().map(|t| list(t, out)),
        };
        if let Err(refusal) = answered {
            numbers(out, &[refusal.number() as usize]);
        }
    }

    fn table(&mut self) -> Result<&mut Table, Refusal> {
        self.table.as_mut().ok_or(Refusal::BadTable)
    }

    fn in_use(&self) -> usize {
        self.table.as_ref().map_or(0, Table::sets_in_use)
    }

    fn done(&self, out: &mut String) {
        numbers(out, &[0, self.in_use()]);
    }

    fn new_table(&mut self, sets: usize, rules: usize, links: usize, out: &mut String) -> Result<(), Refusal> {
        if sets > MOST_SETS || rules > MOST_RULES || links > MOST_LINKS {
            return Err(Refusal::BadPool);
        }
        self.table = Some(Table::new(sets, rules)?);
        self.links = links;
        numbers(out, &[0]);
        Ok(())
    }

    fn parse(&mut self, line: &[Symbol], out: &mut String) -> Result<(), Refusal> {
        let links = self.links;
        let answer = match self.table().and_then(|t| parse(t, links, line)) {
            Ok(verdict) => [if verdict.accepted { 1 } else { 2 }, verdict.links],
            Err(refusal @ (Refusal::NoSets | Refusal::NoLinks)) => [refusal.number() as usize, 0],
            Err(refusal) => return Err(refusal),
        };
        numbers(out, &[answer[0], answer[1], self.in_use()]);
        Ok(())
    }
}

/// A command, or nothing where the line is malformed.
fn read(line: &[u8]) -> Option<Command> {
    let (&letter, rest) = line.split_first()?;
    let numbers = read_numbers(rest)?;
    let symbols = || numbers.iter().map(|&n| Symbol::try_from(n).ok()).collect::<Option<Vec<Symbol>>>();
    let rule = || symbols()?.split_first().map(|(&left, right)| (left, right.to_vec()));
    match letter {
        b'N' => match numbers[..] {
            [] => Some(Command::New(128, 128, 1024)),
            [sets, rules, links] => Some(Command::New(sets, rules, links)),
            _ => None,
        },
        b'A' => rule().map(|(left, right)| Command::Add(left, right)),
        b'D' => rule().map(|(left, right)| Command::Delete(left, right)),
        b'P' => symbols().map(Command::Parse),
        b'G' if numbers.is_empty() => Some(Command::Collect),
        b'R' if numbers.is_empty() => Some(Command::Restart),
        b'L' if numbers.is_empty() => Some(Command::List),
        _ => None,
    }
}

/// Decimal numbers 0 to 9999 without leading zeros, each after a single space.
fn read_numbers(mut rest: &[u8]) -> Option<Vec<usize>> {
    let mut numbers = Vec::new();
    while let Some((&space, after)) = rest.split_first() {
        let digits = after.iter().take_while(|b| b.is_ascii_digit()).count();
        let leading_zero = digits > 1 && after[0] == b'0';
        if space != b' ' || digits == 0 || digits > 4 || leading_zero || numbers.len() == MOST_NUMBERS {
            return None;
        }
        numbers.push(after[..digits].iter().fold(0, |n, &d| n * 10 + usize::from(d - b'0')));
        rest = &after[digits..];
    }
    Some(numbers)
}

fn numbers(out: &mut String, numbers: &[usize]) {
    for (i, number) in numbers.iter().enumerate() {
        let _ = write!(out, "{}{number}", if i == 0 { "" } else { " " });
    }
    out.push('\n');
}

fn list(table: &Table, out: &mut String) {
    let sets: Vec<(usize, &Set)> = table.sets().iter().enumerate().filter_map(|(n, s)| Some((n, s.as_ref()?))).collect();
    out.push('C');
    for (number, set) in &sets {
        let mark = if set.expansion.is_some() { 'e' } else { 'u' };
        let _ = write!(out, " {number}{mark}");
    }
    out.push('\n');
    for (number, set) in sets {
        let _ = write!(out, "S {number} K");
        for item in &set.kernel {
            let _ = write!(out, " {}.{}", item.rule, item.dot);
        }
        if let Some(expansion) = &set.expansion {
            out.push_str(" T");
            for (symbol, target) in expansion.transitions.iter() {
                let _ = write!(out, " {symbol}>{target}");
            }
            out.push_str(" R");
            for rule in &expansion.reductions {
                let _ = write!(out, " {rule}");
            }
            let _ = write!(out, " A {}", u8::from(expansion.accepts));
        }
        out.push('\n');
    }
}
