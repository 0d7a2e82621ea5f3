//! A call with its arguments, done by each side.

use crate::random::Random;
use reference::pools::Pools;
use skydoublet::lent::{self, Lent};

#[derive(Clone, Debug)]
pub enum Call {
    New(usize, usize),
    Add(u8, Vec<u8>),
    Delete(u8, Vec<u8>),
    Collect,
    Restart,
    Parse { links: Vec<u16>, pool: usize, line: Vec<u8> },
    Formed,
}

pub const KINDS: usize = 7;

/// All that a call can show: its answer and number, and every lent number after it.
#[derive(PartialEq, Eq)]
pub struct Shown {
    pub answer: u8,
    pub number: usize,
    pub pools: Pools,
    pub links: Vec<u16>,
}

impl Call {
    /// A call of that kind, its arguments made with a look at the table.
    pub fn random(kind: usize, pools: &Pools, random: &mut Random) -> Call {
        match kind {
            0 => {
                let sets = (pools.cells.len() / 128).min(pools.words.len() / 18);
                Call::New(size(random, sets, 255), size(random, pools.rules.len().saturating_sub(2) / 10, 128))
            }
            1 => {
                let (left, right) = rule(pools, random, 25);
                Call::Add(left, right)
            }
            2 => {
                let (left, right) = rule(pools, random, 75);
                Call::Delete(left, right)
            }
            3 => Call::Collect,
            4 => Call::Restart,
            5 => parse(pools, random),
            _ => Call::Formed,
        }
    }

    pub fn by_reference(&self, mut pools: Pools) -> Shown {
        let mut links = self.links();
        let (answer, number) = match self {
            Call::New(sets, places) => pools.new_table(*sets, *places),
            Call::Add(left, right) => pools.add(*left, right),
            Call::Delete(left, right) => pools.delete(*left, right),
            Call::Collect => pools.collect(),
            Call::Restart => pools.restart(),
            Call::Parse { pool, line, .. } => pools.parse(&mut links, *pool, line),
            Call::Formed => (u8::from(pools.are_formed()), 0),
        };
        Shown { answer, number, pools, links }
    }

    pub fn by_library(&self, mut pools: Pools) -> Shown {
        let mut links = self.links();
        let Pools { rules, cells, words } = &mut pools;
        let mut lent = Lent { rules, cells, words };
        let (answer, number) = match self {
            Call::New(sets, places) => (lent.new_table(*sets, *places), 0),
            Call::Add(left, right) => lent.add(*left, right),
            Call::Delete(left, right) => lent.delete(*left, right),
            Call::Collect => (lent.collect(), 0),
            Call::Restart => (lent.restart(), 0),
            Call::Parse { pool, line, .. } => lent.parse(&mut links, *pool, line),
            Call::Formed => (u8::from(lent::is_formed(lent.rules, lent.cells, lent.words)), 0),
        };
        Shown { answer, number, pools, links }
    }

    fn links(&self) -> Vec<u16> {
        match self {
            Call::Parse { links, .. } => links.clone(),
            _ => Vec::new(),
        }
    }
}

/// A pool's size, most often one that the slices have room for, sometimes one too large for them, at the limit or out of range.
fn size(random: &mut Random, room: usize, most: usize) -> usize {
    match random.below(20) {
        0 => 0,
        1 => random.pick(&[most, most + 1, 256, usize::MAX]),
        2 => room + 1,
        3..=6 => room,
        _ => random.between(0, room),
    }
}

/// A rule that the table has, so many times in a hundred, else one from few symbols, sometimes one to be refused.
pub fn rule(pools: &Pools, random: &mut Random, had: usize) -> (u8, Vec<u8>) {
    if random.chance(had) {
        let numbers: Vec<&[u8]> = pools.rules.get(2..).unwrap_or(&[]).chunks_exact(10).filter(|n| n[0] != 0).collect();
        if !numbers.is_empty() {
            let numbers = random.pick(&numbers);
            return (numbers[1], numbers[3..][..usize::from(numbers[2]).min(7)].to_vec());
        }
    }
    let left = if random.chance(5) { random.pick(&[0, 63, 128, 255]) } else { random.pick(&[64, 64, 64, 65, 65, 66, 66, 67, 127]) };
    let length = if random.chance(5) { random.between(6, 9) } else { random.pick(&[0, 1, 1, 1, 2, 2, 3]) };
    let mut right: Vec<u8> = (0..length).map(|_| random.pick(&[1, 1, 1, 2, 2, 3, 63, 65, 65, 65, 66, 66, 67, 127])).collect();
    if random.chance(5) && length > 0 {
        right[random.below(length)] = random.pick(&[0, 64, 128, 255]);
    }
    (left, right)
}

/// A parse with a link buffer that holds anything, longer than its pool or just too short.
fn parse(pools: &Pools, random: &mut Random) -> Call {
    let pool = match random.below(20) {
        0 => 4096,
        1 => random.pick(&[4097, usize::MAX]),
        2..=9 => random.between(0, 3),
        _ => random.between(4, 60),
    };
    let needed = if pool <= 4096 { 6 * (pool + 1) } else { 100 };
    let length = match random.below(15) {
        0 => needed - 1,
        1 => 0,
        2..=8 => needed,
        _ => needed + random.between(1, 9),
    };
    let dirty = random.chance(50);
    let links = (0..length).map(|_| if dirty { random.next() as u16 } else { 0 }).collect();
    let mut line = line(pools, random);
    if random.chance(5) && !line.is_empty() {
        let at = random.below(line.len());
        line[at] = random.pick(&[0, 64, 65, 255]);
    }
    Call::Parse { links, pool, line }
}

/// A line that START derives, where one was found, or any tokens, sometimes many.
fn line(pools: &Pools, random: &mut Random) -> Vec<u8> {
    if random.chance(60) {
        if let Some(line) = derived(pools, random) {
            return line;
        }
    }
    let tokens = match random.below(30) {
        0 => 255,
        1 => 256,
        _ => random.pick(&[0, 1, 1, 2, 2, 3, 4, 6]),
    };
    (0..tokens).map(|_| random.pick(&[1, 1, 1, 1, 1, 2, 2, 3, 63])).collect()
}

/// A short line by a random derivation from the rules that stand there as current.
fn derived(pools: &Pools, random: &mut Random) -> Option<Vec<u8>> {
    let rules: Vec<&[u8]> = pools.rules.get(2..)?.chunks_exact(10).filter(|n| n[0] == 1 && n[2] <= 7).collect();
    let mut form = vec![64];
    for _ in 0..20 {
        let Some(at) = form.iter().position(|&x| x >= 64) else { return Some(form) };
        let of: Vec<&[u8]> = rules.iter().copied().filter(|n| n[1] == form[at]).collect();
        if of.is_empty() {
            return None;
        }
        let numbers = random.pick(&of);
        form.splice(at..=at, numbers[3..][..usize::from(numbers[2])].iter().copied());
    }
    None
}
