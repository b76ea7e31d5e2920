//! Hot paths in large trees, of which the answer is known: by the reader and by the library.

use differential::gen::large;
use differential::{by_reader, ffi};

type HotPath = fn(&[u8], &[u8], u64, u64, &mut [u64], &mut [u64], &mut [u64], &mut [u64; 1]) -> u32;

/// More than 16 bits tell apart.
const CONTEXTS: usize = 70_000;

/// As many words before a search as a path can have.
const BEFORE: [u64; 200] = [7; 200];

/// The path by identifiers, which count in the order in which contexts lie.
fn found(hot_path: HotPath, siblings: usize, profiles: &[u8]) -> Vec<usize> {
    let file = large::meta(CONTEXTS, siblings, siblings);
    let (mut listing, mut table, mut hot, mut out) = (vec![0; CONTEXTS], vec![0; CONTEXTS], BEFORE, [0]);
    let code = hot_path(&file, profiles, 1, 0, &mut listing, &mut table, &mut hot, &mut out);
    assert_eq!(code, by_reader::ANSWERED);
    let (path, behind) = hot.split_at(out[0] as usize);
    assert_eq!(behind, &BEFORE[path.len()..]);
    // slot i of the table has the place of i, and places rise
    path.iter().map(|place| table.binary_search(place).expect("a context is in the table")).collect()
}

/// The first greatest of some values.
fn hottest(ids: std::ops::Range<usize>, value: impl Fn(usize) -> u64) -> usize {
    let greatest = ids.clone().map(&value).max().expect("there are some");
    ids.into_iter().find(|id| value(*id) == greatest).expect("it is one of them")
}

fn assert_finds(hot_path: HotPath) {
    let [rising, scattered] = [large::profile(CONTEXTS, 1), large::scattered_profile(CONTEXTS, 1)];
    let value = |id: usize| (id * 7919 % 1_000_003) as u64;
    assert_eq!(found(hot_path, CONTEXTS, &rising), [CONTEXTS - 1]);
    assert_eq!(found(hot_path, CONTEXTS, &scattered), [hottest(0..CONTEXTS, value)]);
    // the children of i are 100 (i + 1) and the 99 behind it
    let mut path = vec![hottest(0..100, value)];
    while let Some(first) = path.last().map(|last| 100 * (last + 1)).filter(|first| *first < CONTEXTS) {
        path.push(hottest(first..first + 100, value));
    }
    assert!(path.len() > 1);
    assert_eq!(found(hot_path, 100, &scattered), path);
}

#[test]
fn in_many_contexts_by_the_reader() {
    assert_finds(by_reader::hpcdb_hot_path);
}

#[test]
fn in_many_contexts_by_the_library() {
    assert_finds(ffi::hpcdb_hot_path);
}
