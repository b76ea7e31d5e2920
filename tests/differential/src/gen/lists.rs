//! Lists that a profile.db is written from: sound ones, and broken ones.

use super::blocks::{identifications, Block, PROFILE_MAJOR};
use super::rng::Rng;
use super::{count, Specimen};
use crate::question::{Database, Survey};
use crate::writer::{self, ENTRY};

/// The entries are the specimen's bytes.
pub struct Known {
    pub survey: Survey,
    /// of the file that sound lists make
    pub length: usize,
}

const IDENTIFIER: usize = 16;

/// One identification more than a tuple can have.
const TOO_MANY: usize = 65_536;

pub fn specimen(rng: &mut Rng) -> Specimen {
    let mut survey = Survey::default();
    for _ in 0..rng.pick(&[0, 1, 1, 2, 3, 5]) {
        let ids = if rng.one_in(1000) { TOO_MANY - 1 } else { identifications(rng) };
        survey.tuples.push(ids as u64);
        append_any(rng, &mut survey.identifiers, IDENTIFIER * ids);
    }
    // without tuples a profile has none to name
    if !survey.tuples.is_empty() {
        survey.profiles = (0..count(rng)).map(|_| rng.below(survey.tuples.len()) as u64).collect();
    }
    let mut entries = Vec::new();
    for profile in 0..survey.profiles.len() {
        if !rng.one_in(4) {
            append_entries(rng, &mut entries, profile);
        }
    }
    // what belongs to no tuple and what is no entry
    if rng.one_in(3) {
        let spare = rng.below(3 * IDENTIFIER);
        append_any(rng, &mut survey.identifiers, spare);
    }
    if rng.one_in(3) {
        let piece = rng.below(ENTRY);
        append_any(rng, &mut entries, piece);
    }
    let length = writer::length(&survey.lists(&entries)).unwrap_or_default();
    let known = super::Known::Lists(Known { survey, length });
    Specimen { database: Database::Profile, bytes: entries, known, damage: Vec::new(), focus: None, fields: Vec::new() }
}

fn append_any(rng: &mut Rng, bytes: &mut Vec<u8>, count: usize) {
    let end = bytes.len() + count;
    while bytes.len() < end {
        bytes.extend(rng.word().to_le_bytes());
    }
    bytes.truncate(end);
}

fn append_entries(rng: &mut Rng, entries: &mut Vec<u8>, profile: usize) {
    for (context, values) in Block::some(rng, &PROFILE_MAJOR).sub_arrays {
        for (metric, bits) in values {
            entries.extend((profile as u32).to_le_bytes());
            entries.extend((context as u32).to_le_bytes());
            // two of the metric, six that are ignored
            entries.extend((metric | rng.word() << 16).to_le_bytes());
            entries.extend(bits.to_le_bytes());
        }
    }
}

/// Breaks the lists in one way; now and then they stay sound.
pub fn damage(rng: &mut Rng, survey: &mut Survey, entries: &mut Vec<u8>) -> Option<String> {
    match rng.below(24) {
        0..4 => other_profile(rng, survey, entries),
        4..8 => other_tuple(rng, survey),
        8..12 => other_count(rng, survey),
        12..14 => cut_identifiers(rng, survey),
        14..18 => entries_out_of_order(rng, entries),
        18..21 => other_id(rng, entries),
        21..23 => long_tuple(rng, survey),
        _ => cut_entries(rng, entries),
    }
}

fn some_entry(rng: &mut Rng, entries: &[u8]) -> Option<usize> {
    let count = entries.len() / ENTRY;
    (count > 0).then(|| rng.below(count))
}

fn other_profile(rng: &mut Rng, survey: &Survey, entries: &mut [u8]) -> Option<String> {
    let k = some_entry(rng, entries)?;
    let (profiles, edge) = (survey.profiles.len() as u32, rng.edge() as u32);
    let profile = rng.pick(&[profiles, profiles + 1, profiles.wrapping_sub(1), u32::MAX, edge]);
    entries[ENTRY * k..][..4].copy_from_slice(&profile.to_le_bytes());
    Some(format!("entry {k} of profile {profile}"))
}

/// Mostly not below `count`: just behind it, or what is `old` if it, or its product with a size, is taken modulo 2^16,
/// 2^32 or 2^64.
fn no_position(rng: &mut Rng, count: usize, old: u64) -> u64 {
    let (shift, edge) = (rng.pick(&[8, 16, 32, 48, 59, 60, 61, 63]), rng.edge());
    rng.pick(&[count as u64, count as u64 + 1, old.wrapping_add(1 << shift), u64::MAX, edge])
}

fn other_tuple(rng: &mut Rng, survey: &mut Survey) -> Option<String> {
    let count = survey.tuples.len();
    if survey.profiles.is_empty() {
        survey.profiles.push(0);
    }
    let p = rng.below(survey.profiles.len());
    survey.profiles[p] = no_position(rng, count, survey.profiles[p]);
    Some(format!("profile {p} of tuple {}", survey.profiles[p]))
}

/// One tuple claims another number; at times a second one so many that the sum is the same modulo 2^64.
fn other_count(rng: &mut Rng, survey: &mut Survey) -> Option<String> {
    if survey.tuples.is_empty() || rng.one_in(6) {
        survey.tuples.push(0);
    }
    let tuples = survey.tuples.len();
    let (t, other) = (rng.below(tuples), rng.below(tuples));
    let old = survey.tuples[t];
    survey.tuples[t] = no_position(rng, survey.identifiers.len() / IDENTIFIER, old);
    let more = survey.tuples[t].wrapping_sub(old);
    if other != t && rng.one_in(2) {
        survey.tuples[other] = survey.tuples[other].wrapping_sub(more);
    }
    Some(format!("{more} more identifications of tuple {t}, tuples {:?}", survey.tuples))
}

fn cut_identifiers(rng: &mut Rng, survey: &mut Survey) -> Option<String> {
    let length = survey.identifiers.len();
    survey.identifiers.truncate(length.saturating_sub(rng.between(1, 2 * IDENTIFIER)));
    Some(format!("identifiers cut to {} of {length} bytes", survey.identifiers.len()))
}

/// An entry and the next, or any other, change places; or one gets the other's place and keeps its bits.
fn entries_out_of_order(rng: &mut Rng, entries: &mut [u8]) -> Option<String> {
    let (k, any) = (some_entry(rng, entries)?, some_entry(rng, entries)?);
    let (entries, _) = entries.as_chunks_mut::<ENTRY>();
    let other = if rng.one_in(2) { (k + 1) % entries.len() } else { any };
    if rng.one_in(2) {
        entries.swap(k, other);
        return Some(format!("entries {k} and {other} swapped"));
    }
    let ids = entries[other];
    entries[k][..10].copy_from_slice(&ids[..10]);
    Some(format!("entry {k} with the ids of {other}"))
}

fn other_id(rng: &mut Rng, entries: &mut [u8]) -> Option<String> {
    let k = some_entry(rng, entries)?;
    let (at, width) = rng.pick(&[(4, 4), (8, 2)]);
    let number = rng.edge().to_le_bytes();
    entries[ENTRY * k + at..][..width].copy_from_slice(&number[..width]);
    Some(format!("entry {k}: {:?} at {at}", &number[..width]))
}

/// All of its identifications are there.
fn long_tuple(rng: &mut Rng, survey: &mut Survey) -> Option<String> {
    let count = TOO_MANY + rng.pick(&[0, 0, 1, 5, TOO_MANY]);
    let t = rng.below(survey.tuples.len() + 1);
    survey.tuples.insert(t, count as u64);
    survey.identifiers.resize(survey.identifiers.len() + IDENTIFIER * count, 0xa5);
    Some(format!("tuple {t} inserted, of {count} identifications"))
}

/// What is left is sound, with another number of values.
fn cut_entries(rng: &mut Rng, entries: &mut Vec<u8>) -> Option<String> {
    let length = entries.len();
    entries.truncate(rng.below(length + 1));
    Some(format!("entries cut to {} of {length} bytes", entries.len()))
}
