//! Random tables through both sides: the proved library and the reference. After each call the answer, the number and every lent
//! number are compared. `tables [COUNT [SEED [FIRST]]]`; table n of a seed is the same in every run.

mod calls;
mod makers;
mod random;

use calls::{Call, Shown, KINDS};
use makers::MAKERS;
use random::Random;
use reference::pools::Pools;
use skydoublet::lent;
use std::collections::BTreeMap;
use std::process::ExitCode;

/// How often each thing was seen, so that a run shows what it tried.
#[derive(Default)]
struct Seen {
    in_form: BTreeMap<&'static str, usize>,
    answers: BTreeMap<(usize, u8), usize>,
    left_the_form: usize,
}

fn main() -> ExitCode {
    let arguments: Vec<u64> = std::env::args().skip(1).map(|a| a.parse().expect("a number")).collect();
    let argument = |i: usize, other: u64| arguments.get(i).copied().unwrap_or(other);
    let (count, seed, first) = (argument(0, 5000), argument(1, 1), argument(2, 0));
    let mut seen = Seen::default();
    for n in first..first + count {
        if let Err(difference) = try_table(seed, n, &mut seen) {
            println!("seed {seed}, table {n}: {difference}");
            return ExitCode::FAILURE;
        }
    }
    seen.print(count, seed);
    ExitCode::SUCCESS
}

/// Each call on a copy of table n, and two further calls on what it leaves.
fn try_table(seed: u64, n: u64, seen: &mut Seen) -> Result<(), String> {
    let random = &mut Random::new(seed, n);
    let (name, maker) = MAKERS[n as usize % MAKERS.len()];
    let pools = maker(random);
    let formed = pools.are_formed();
    *seen.in_form.entry(name).or_default() += usize::from(formed);
    reads_agree(&pools, random).map_err(|what| format!("{name}: {what}"))?;
    for kind in 0..KINDS {
        let mut pools = try_call(Call::random(kind, &pools, random), kind, &pools, seen).map_err(|d| format!("{name}: {d}"))?;
        seen.left_the_form += usize::from(formed && !pools.are_formed());
        for _ in 0..2 {
            let kind = random.below(KINDS);
            pools = try_call(Call::random(kind, &pools, random), kind, &pools, seen).map_err(|d| format!("{name}: {d}"))?;
        }
    }
    Ok(())
}

fn try_call(call: Call, kind: usize, pools: &Pools, seen: &mut Seen) -> Result<Pools, String> {
    let wanted = call.by_reference(pools.clone());
    let had = call.by_library(pools.clone());
    if wanted != had {
        return Err(format!("{call:?} on {pools:?}: {}", difference(&wanted, &had)));
    }
    *seen.answers.entry((kind, had.answer)).or_default() += 1;
    Ok(had.pools)
}

/// Where the two sides part, in words.
fn difference(wanted: &Shown, had: &Shown) -> String {
    if (wanted.answer, wanted.number) != (had.answer, had.number) {
        let (a, n, b, m) = (wanted.answer, wanted.number, had.answer, had.number);
        return format!("the reference answers {a} {n}, the library {b} {m}");
    }
    let Pools { rules, cells, words } = &wanted.pools;
    first_other("rules", rules, &had.pools.rules)
        .or_else(|| first_other("cells", cells, &had.pools.cells))
        .or_else(|| first_other("words", words, &had.pools.words))
        .or_else(|| first_other("links", &wanted.links, &had.links))
        .unwrap_or_default()
}

fn first_other<T: PartialEq + std::fmt::Debug>(name: &str, wanted: &[T], had: &[T]) -> Option<String> {
    let at = (0..wanted.len()).find(|&i| wanted[i] != had[i])?;
    Some(format!("{name}[{at}]: the reference leaves {:?}, the library {:?}", wanted[at], had[at]))
}

/// What the library's reading calls tell is what stands in the numbers, also where nothing stands.
fn reads_agree(pools: &Pools, random: &mut Random) -> Result<(), &'static str> {
    let Pools { rules, cells, words } = pools;
    let far = |random: &mut Random, n: usize| if random.chance(5) { usize::MAX } else { random.below(n) };
    let (s, x, r, k) = (far(random, 14), far(random, 140), far(random, 10), far(random, 11));
    let row = cells.chunks_exact(128).nth(s);
    let bit = |b: usize| words.chunks_exact(18).nth(s).is_some_and(|w| w[b / 64] >> (b % 64) & 1 == 1);
    let ten = rules.get(2..).and_then(|rules| rules.chunks_exact(10).nth(r));
    let sets = rules.first().map(|&n| usize::from(n)).filter(|&n| rules.len() >= 2 && cells.len() >= 128 * n);
    let in_use = cells.chunks_exact(128).take(sets.unwrap_or(0)).filter(|row| row[0] != 0).count();
    let target = row.filter(|_| x > 0).and_then(|row| row.get(x)).map_or(0, |&t| usize::from(t));
    let from = far(random, 70);
    let same = [
        (lent::mark(cells, s) == row.map_or(0, |row| row[0]), "mark"),
        (lent::target(cells, s, x) == target, "target"),
        (lent::rule_number(rules, r, k) == ten.and_then(|ten| ten.get(k)).copied().unwrap_or(0), "rule_number"),
        (lent::sets_in_use(rules, cells) == in_use, "sets_in_use"),
        (lent::next_item(words, s, from) == (from..1024).find(|&b| bit(b)).unwrap_or(1024), "next_item"),
        (lent::next_reduction(words, s, from) == (from..128).find(|&b| bit(1024 + b)).unwrap_or(128), "next_reduction"),
    ];
    same.into_iter().find(|(same, _)| !same).map_or(Ok(()), |(_, name)| Err(name))
}

impl Seen {
    fn print(&self, count: u64, seed: u64) {
        let calls: usize = self.answers.values().sum();
        println!("{count} tables of seed {seed}, {calls} calls on both sides: no difference");
        let in_form = self.in_form.iter().map(|(name, n)| format!("{name} {n}")).collect::<Vec<_>>();
        println!("in form: {}; left the form by a call: {}", in_form.join(", "), self.left_the_form);
        for (kind, name) in ["New", "Add", "Delete", "Collect", "Restart", "Parse", "is_formed"].iter().enumerate() {
            let answers = self.answers.range((kind, 0)..=(kind, u8::MAX)).map(|((_, a), n)| format!("{a}: {n}"));
            println!("{name} answered {}", answers.collect::<Vec<_>>().join(", "));
        }
    }
}
