//! The questions of the rows. Those left to chance come from a seeded generator: every run asks the same.

use std::ops::Range;

use differential::gen::Rng;

pub const SEED: u64 = 20_260_401;

/// The ids of a block's indices, and those that each of them has values of.
pub struct Ids {
    pub outer: Range<u64>,
    pub inner: Range<u64>,
}

/// Pairs in a pattern, all of them there: each id a fixed step from the one before.
pub fn regular_pairs(count: usize, ids: &Ids) -> Vec<[u64; 2]> {
    let id = |ids: &Range<u64>, k: u64| ids.start + k % (ids.end - ids.start);
    (0..count as u64).map(|k| [id(&ids.outer, 7919 * k), id(&ids.inner, 31 * k)]).collect()
}

/// One in eight is absent: one of its ids is one past the last.
pub fn random_pairs(count: usize, ids: &Ids) -> Vec<[u64; 2]> {
    let mut rng = Rng::of_file(SEED, 0);
    let mut pair = || {
        let mut pair = [&ids.outer, &ids.inner].map(|ids| number_in(ids, &mut rng));
        if rng.one_in(8) {
            let k = rng.below(2);
            pair[k] = [ids.outer.end, ids.inner.end][k];
        }
        pair
    };
    (0..count).map(|_| pair()).collect()
}

/// By the first id, and where that is the same by the second.
pub fn sorted(mut pairs: Vec<[u64; 2]>) -> Vec<[u64; 2]> {
    pairs.sort_unstable();
    pairs
}

/// Numbers below `end`.
pub fn random_numbers(count: usize, end: u64) -> Vec<u64> {
    let mut rng = Rng::of_file(SEED, 1);
    (0..count).map(|_| number_in(&(0..end), &mut rng)).collect()
}

fn number_in(range: &Range<u64>, rng: &mut Rng) -> u64 {
    range.start + rng.below((range.end - range.start) as usize) as u64
}
