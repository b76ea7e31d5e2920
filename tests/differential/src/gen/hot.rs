//! What a hot path is looked for in besides a meta.db: a profile.db with values for its contexts, most of them few
//! different ones, so that some are equal.

use super::blocks::{self, Block, Known};
use super::damage::damage;
use super::rng::Rng;
use super::{meta, Specimen};

/// A profile.db, and what is known of it; one in four damaged.
pub fn profiles(rng: &mut Rng, tree: &meta::Known) -> Specimen {
    let count = rng.pick(&[0, 1, 1, 2, 2, 3]);
    let metrics = metrics(rng);
    let mut specimen =
        blocks::specimen_of(rng, &blocks::PROFILE_MAJOR, count, |rng| values_for(rng, &tree.ids, &metrics));
    if rng.one_in(4) {
        damage(rng, &mut specimen);
    }
    specimen
}

/// Ids that rise.
fn metrics(rng: &mut Rng) -> Vec<u64> {
    let first = rng.pick(&[0, 0, 1, 7, 4464, 65_533]);
    (first..first + rng.between(1, 3) as u64).collect()
}

/// Values of these metrics, for most of the contexts that have these ids, and for some that are not there.
fn values_for(rng: &mut Rng, ids: &[u32], metrics: &[u64]) -> Block {
    let mut ids: Vec<u64> = ids.iter().copied().map(u64::from).collect();
    ids.extend((0..rng.below(4)).map(|_| rng.edge() % (1 << 32)));
    ids.sort_unstable();
    ids.dedup();
    let absent = rng.pick(&[1000, 30, 8, 8, 3]);
    let wild = rng.pick(&[None, None, None, Some(100), Some(10)]);
    let mut sub_arrays = Vec::with_capacity(ids.len());
    for id in ids {
        let there = metrics.iter().filter(|_| !rng.one_in(absent)).copied().collect::<Vec<u64>>();
        if !there.is_empty() {
            sub_arrays.push((id, there.into_iter().map(|metric| (metric, bits(rng, wild))).collect()));
        }
    }
    if sub_arrays.is_empty() {
        // a block that is not empty has a value
        sub_arrays.push((rng.below(4) as u64, vec![(metrics[0], bits(rng, wild))]));
    }
    Block { sub_arrays }
}

const ORDINARY: [f64; 12] = [0.0, -0.0, 0.0, 1.0, 1.0, -1.0, 2.0, -2.5, f64::MAX, f64::MIN, 5e-324, -5e-324];

/// Once in so many times infinity or NaN, of either sign.
fn bits(rng: &mut Rng, wild: Option<usize>) -> u64 {
    if wild.is_some_and(|times| rng.one_in(times)) {
        let sign = rng.word() & (1 << 63);
        return sign | rng.pick(&[0x7ff << 52, 0x7ff << 52 | 1, 0x7ff8 << 48, u64::MAX >> 1]);
    }
    rng.pick(&ORDINARY).to_bits()
}

/// A metric of which this profile has a value; if it has none, any small one.
pub fn some_metric(rng: &mut Rng, known: &Known, profile: u64) -> u64 {
    let of_profile: Vec<u64> =
        known.values.iter().filter(|value| value[0] == profile).map(|[_, _, metric]| *metric).collect();
    rng.pick_any(&of_profile).unwrap_or_else(|| rng.below(4) as u64)
}
