//! Tables to call on: made ones, made ones with a few numbers changed, ones in form that no call made, ones spoiled in one clause
//! of the form, wholly random numbers, slices that are too short, and sizes that are off by one. Numbers that lie beyond the
//! pools are random in all but the last.

use crate::calls::{rule, Call};
use crate::random::Random;
use reference::pools::Pools;

pub type Maker = (&'static str, fn(&mut Random) -> Pools);

pub const MAKERS: [Maker; 7] = [
    ("made", made),
    ("changed", changed),
    ("unmade", unmade),
    ("spoiled", spoiled),
    ("random", wholly_random),
    ("short", short),
    ("resized", resized),
];

/// Slices of just the length, or some numbers longer, full of random numbers.
fn slices(sets: usize, places: usize, random: &mut Random) -> Pools {
    let mut more = |n: usize| if random.chance(50) { n } else { n + random.between(1, 150) };
    let (rules, cells, words) = (more(2 + 10 * places), more(128 * sets), more(18 * sets));
    Pools {
        rules: (0..rules).map(|_| random.byte()).collect(),
        cells: (0..cells).map(|_| random.byte()).collect(),
        words: (0..words).map(|_| random.next()).collect(),
    }
}

fn sizes(random: &mut Random) -> (usize, usize) {
    let sets = if random.chance(2) { 255 } else { random.between(1, 12) };
    let places = if random.chance(2) { 128 } else { random.between(1, 8) };
    (sets, places)
}

/// By New and some calls.
fn made(random: &mut Random) -> Pools {
    let (sets, places) = sizes(random);
    let mut pools = slices(sets, places, random);
    pools.new_table(sets, places);
    after_calls(pools, random)
}

fn after_calls(mut pools: Pools, random: &mut Random) -> Pools {
    for _ in 0..random.between(0, 25) {
        let kind = random.pick(&[1, 1, 1, 1, 2, 3, 4, 5, 5, 5]);
        pools = Call::random(kind, &pools, random).by_reference(pools).pools;
    }
    pools
}

/// Made, then one to three numbers changed.
fn changed(random: &mut Random) -> Pools {
    let mut pools = made(random);
    for _ in 0..random.between(1, 3) {
        match random.below(5) {
            0 | 1 => change_rules(&mut pools, random),
            2 | 3 => change_cells(&mut pools, random),
            _ => change_words(&mut pools, random),
        }
    }
    pools
}

/// A size, or a number of a rule, most often its state, its left symbol, its length or its first place.
fn change_rules(pools: &mut Pools, random: &mut Random) {
    let rule = random.below((pools.rules.len() - 2) / 10);
    let number = random.pick(&[0, 0, 0, 1, 2, 3, 3, 4, 5, 9]);
    let at = if random.chance(10) { random.below(2) } else { 2 + 10 * rule + number };
    change(&mut pools.rules[at], random);
}

/// A mark, a target on one of the few symbols that rules are made of, or any.
fn change_cells(pools: &mut Pools, random: &mut Random) {
    let set = random.below(pools.cells.len() / 128);
    let cell = random.pick(&[0, 0, 1, 2, 3, 64, 65, 66, 67, 127, 200]);
    let cell = if cell == 200 { random.below(128) } else { cell };
    change(&mut pools.cells[128 * set + cell], random);
}

/// A bit of a kernel or of the reductions.
fn change_words(pools: &mut Pools, random: &mut Random) {
    let set = random.below(pools.words.len() / 18);
    let bit = if random.chance(70) { random.below(70) } else { 1024 + random.below(10) };
    let bit = if random.chance(10) { random.below(1152) } else { bit };
    pools.words[18 * set + bit / 64] ^= 1 << (bit % 64);
}

fn change(number: &mut u8, random: &mut Random) {
    *number = match random.below(4) {
        0 => number.wrapping_add(1),
        1 => number.wrapping_sub(1),
        2 => random.below(5) as u8,
        _ => random.byte(),
    };
}

/// In form by construction, but for rare leaps: rules, sets, targets and reductions that need have nothing to do with each other.
fn unmade(random: &mut Random) -> Pools {
    let (sets, places) = (random.between(1, 9), random.between(1, 6));
    let mut pools = slices(sets, places, random);
    pools.new_table(sets, places);
    for r in 0..places {
        put_rule(&mut pools, r, random);
    }
    let held = |state: u8| (0..places).filter(|r| pools.rules[2 + 10 * r] == state).collect::<Vec<_>>();
    let (current, withdrawn) = (held(1), held(2));
    pools.cells[0] = random.between(1, 3) as u8;
    for &r in current.iter().filter(|&r| pools.rules[2 + 10 * r + 1] == 64) {
        pools.words[r / 8] |= 1 << (8 * r % 64);
    }
    let all: Vec<usize> = current.iter().chain(&withdrawn).copied().collect();
    let mut clean = vec![true];
    for s in 1..sets {
        clean.push(withdrawn.is_empty() || random.chance(70));
        put_kernel(&mut pools, s, if clean[s] { &current } else { &all }, random);
    }
    let is_clean = |s: &usize| clean[*s];
    for s in (0..sets).filter(|s| pools.cells[128 * s] >= 2).collect::<Vec<_>>() {
        let targets = (1..sets).filter(|t| pools.cells[128 * t] != 0 && (!clean[s] || is_clean(t))).collect::<Vec<_>>();
        put_transitions(&mut pools, s, &targets, random);
        put_reductions(&mut pools, s, if clean[s] { &current } else { &all }, random);
    }
    pools
}

fn put_rule(pools: &mut Pools, r: usize, random: &mut Random) {
    let state = random.pick(&[0, 1, 1, 1, 2]);
    let (mut left, right) = rule(pools, random, 0);
    if random.chance(5) {
        left = random.pick(&[1, 2, 63]);
    }
    let fits = (1..128).contains(&left) && right.len() <= 7 && right.iter().all(|&x| (1..128).contains(&x) && x != 64);
    if state == 0 || !fits {
        return;
    }
    let mut numbers = [0; 10];
    numbers[..3].copy_from_slice(&[state, left, right.len() as u8]);
    numbers[3..][..right.len()].copy_from_slice(&right);
    let equal = (0..r).any(|q| pools.rules[2 + 10 * q] != 0 && pools.rules[2 + 10 * q + 1..][..9] == numbers[1..]);
    if !equal || random.chance(3) {
        pools.rules[2 + 10 * r..][..10].copy_from_slice(&numbers);
    }
}

/// A set in use with a kernel of some items of the rules, if no set has that kernel.
fn put_kernel(pools: &mut Pools, s: usize, of: &[usize], random: &mut Random) {
    if random.chance(20) {
        return;
    }
    let mut words = [0; 16];
    for _ in 0..random.between(0, 3) {
        if !of.is_empty() {
            let r = random.pick(of);
            let item = 8 * r + random.between(0, usize::from(pools.rules[2 + 10 * r + 2]));
            words[item / 64] |= 1 << (item % 64);
        }
    }
    let equal = (0..s).any(|t| pools.cells[128 * t] != 0 && pools.words[18 * t..][..16] == words);
    if !equal || random.chance(3) {
        pools.cells[128 * s] = random.between(1, 3) as u8;
        pools.words[18 * s..][..16].copy_from_slice(&words);
    }
}

fn put_transitions(pools: &mut Pools, s: usize, targets: &[usize], random: &mut Random) {
    for x in [1, 2, 3, 64, 65, 66, 67, 127, random.between(1, 127)] {
        if !targets.is_empty() && random.chance(35) {
            pools.cells[128 * s + x] = random.pick(targets) as u8;
        }
    }
}

fn put_reductions(pools: &mut Pools, s: usize, of: &[usize], random: &mut Random) {
    for &r in of {
        if random.chance(30) {
            pools.words[18 * s + 16 + r / 64] |= 1 << (r % 64);
        }
    }
}

/// A made or an unmade table, with a change aimed at one clause of the form.
fn spoiled(random: &mut Random) -> Pools {
    let mut pools = if random.chance(50) { made(random) } else { unmade(random) };
    let (sets, places) = (usize::from(pools.rules[0]), usize::from(pools.rules[1]));
    let (set, rule) = (random.below(sets), random.below(places));
    match random.below(4) {
        0 => spoil_rule(&mut pools.rules[2 + 10 * rule..][..10], random),
        1 => copy_rule(&mut pools, rule, random.below(places)),
        2 => copy_set(&mut pools, set, random.below(sets)),
        _ => spoil_set(&mut pools, set, random),
    }
    pools
}

fn spoil_rule(numbers: &mut [u8], random: &mut Random) {
    let length = usize::from(numbers[2]);
    match random.below(5) {
        0 => numbers[0] = random.pick(&[0, 2, 3]),
        1 => numbers[1] = random.pick(&[0, 1, 128]),
        2 if length > 0 => numbers[3 + random.below(length)] = random.pick(&[0, 64, 128]),
        3 if length < 7 => numbers[3 + random.between(length, 6)] = 1,
        _ => numbers[2] = random.pick(&[0, 1, 8]),
    }
}

/// Two equal rules, the second withdrawn, where the second place was free.
fn copy_rule(pools: &mut Pools, from: usize, to: usize) {
    if pools.rules[2 + 10 * from] != 0 && pools.rules[2 + 10 * to] == 0 {
        pools.rules.copy_within(2 + 10 * from..12 + 10 * from, 2 + 10 * to);
        pools.rules[2 + 10 * to] = 2;
    }
}

/// Two equal kernels, where the second set was free.
fn copy_set(pools: &mut Pools, from: usize, to: usize) {
    if pools.cells[128 * to] == 0 {
        pools.cells.copy_within(128 * from..128 * (from + 1), 128 * to);
        pools.words.copy_within(18 * from..18 * (from + 1), 18 * to);
    }
}

/// A mark, a target, an item or a reduction that may not be there.
fn spoil_set(pools: &mut Pools, set: usize, random: &mut Random) {
    match random.below(4) {
        0 => pools.cells[128 * set] = random.between(0, 4) as u8,
        1 => pools.cells[128 * set + random.pick(&[1, 2, 65, 127])] = random.below(13) as u8,
        2 => pools.words[18 * set] ^= 1 << random.below(64),
        _ => pools.words[18 * set + 16] ^= 1 << random.below(9),
    }
}

/// Numbers of any kind, many of them zero or small.
fn wholly_random(random: &mut Random) -> Pools {
    let (sets, places) = (random.between(1, 4), random.between(1, 3));
    let mut pools = slices(sets, places, random);
    let zeros = random.pick(&[0, 50, 95, 99, 100]);
    let mut number = |most: usize| if random.chance(zeros) { 0 } else { random.below(most) as u64 };
    pools.rules.iter_mut().for_each(|n| *n = number(4) as u8);
    pools.cells.iter_mut().for_each(|n| *n = number(4) as u8);
    pools.words.iter_mut().for_each(|n| *n = number(256));
    pools.rules[0] = random.between(0, sets + 1) as u8;
    pools.rules[1] = random.between(0, places + 1) as u8;
    pools.cells[0] = random.between(0, 4) as u8;
    pools
}

/// A table that a slice is cut off from, or that lost all of it.
fn short(random: &mut Random) -> Pools {
    let mut pools = if random.chance(50) { made(random) } else { unmade(random) };
    let (sets, places) = (usize::from(pools.rules[0]), usize::from(pools.rules[1]));
    let lacking = random.pick(&[0, 1, 1, 1, 2, 10, 5000]);
    match random.below(3) {
        0 => pools.rules.truncate((2 + 10 * places).saturating_sub(lacking)),
        1 => pools.cells.truncate((128 * sets).saturating_sub(lacking)),
        _ => pools.words.truncate((18 * sets).saturating_sub(lacking)),
    }
    pools
}

/// Made, with zeros for one more set and one more rule beyond the pools, then one of the sizes moved by one: only a size out of
/// range, or one that cuts off what is in use, takes it out of form.
fn resized(random: &mut Random) -> Pools {
    let (sets, places) = (random.pick(&[1, 2, 5, 255]), random.pick(&[1, 2, 5, 128]));
    let mut pools = Pools { rules: vec![0; 2 + 10 * (places + 1)], cells: vec![0; 128 * (sets + 1)], words: vec![0; 18 * (sets + 1)] };
    pools.new_table(sets, places);
    pools = after_calls(pools, random);
    let size = &mut pools.rules[random.below(2)];
    *size = if random.chance(70) { size.wrapping_add(1) } else { size.wrapping_sub(1) };
    pools
}
