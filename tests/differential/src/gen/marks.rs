//! Marks: those that walks of a file hand out, changed ones, and any bytes.

use super::meta;
use super::rng::Rng;
use crate::reader::bytes::u16_at;
use crate::reader::walk::{walk_from, Path, MARK_ROOM};

/// A mark to go on from in a file: mostly one that a walk of it handed out, or nearly so.
pub fn mark(rng: &mut Rng, file: &[u8], known: &meta::Known) -> Vec<u8> {
    let mark = match rng.below(16) {
        0 => Vec::new(),
        1 => any_bytes(rng),
        2 => Path((0..rng.between(0, 4)).map(|_| rng.below(3) as u32).collect()).mark(),
        _ => handed_out(rng, file, known),
    };
    if rng.one_in(2) {
        changed(rng, mark)
    } else {
        mark
    }
}

/// Bytes that seldom are a mark; some begin as one does.
pub fn any_bytes(rng: &mut Rng) -> Vec<u8> {
    let length = rng.below(14);
    let mut bytes: Vec<u8> = (0..length).map(|_| rng.below(3) as u8).collect();
    for (byte, start) in bytes.iter_mut().zip([length as u8, 0, 1, 0]) {
        *byte = if rng.one_in(8) { rng.word() as u8 } else { start };
    }
    bytes
}

/// By a walk that is cut somewhere; no bytes if it hands out no mark.
fn handed_out(rng: &mut Rng, file: &[u8], known: &meta::Known) -> Vec<u8> {
    let mut listing = vec![0; rng.below(known.contexts + 1)];
    let mut table = vec![0; known.greatest_id as usize + 1];
    let mut mark = vec![0; MARK_ROOM];
    walk_from(file, &[], &mut listing, &mut table, &mut [], Some(&mut mark));
    mark.truncate(u16_at(&mark, 0).into());
    mark
}

/// One thing is other: a number, the depth with all that belongs to it, or what makes the mark malformed.
fn changed(rng: &mut Rng, mut mark: Vec<u8>) -> Vec<u8> {
    if let (0..6, Ok(mut path)) = (rng.below(12), Path::of_mark(&mark)) {
        change_path(rng, &mut path);
        return path.mark();
    }
    match rng.below(6) {
        0 => add_at(rng, &mut mark, 0, &[1, 4, 255, 252]),
        1 => add_at(rng, &mut mark, 1, &[1, 255]),
        2 => add_at(rng, &mut mark, 2, &[1, 255]),
        3 => add_at(rng, &mut mark, 3, &[1, 255]),
        4 => add_at(rng, &mut mark, 4, &[1, 255, 200, 64]),
        _ => resize(rng, &mut mark),
    }
    mark
}

fn change_path(rng: &mut Rng, Path(numbers): &mut Path) {
    let level = rng.below(numbers.len().max(1));
    match (rng.below(6), numbers.get_mut(level)) {
        (0, Some(number)) => *number = number.wrapping_add(1),
        (1, Some(number)) => *number = number.wrapping_sub(1),
        (2, Some(number)) => *number ^= 1 << rng.pick(&[8, 16, 24, 31]),
        (3, _) => numbers.truncate(level),
        // as deep as a mark can be, and deeper
        (4, _) => numbers.resize(rng.pick(&[199, 200, 201, 255]), 0),
        _ => numbers.push(rng.below(2) as u32),
    }
}

fn add_at(rng: &mut Rng, mark: &mut [u8], at: usize, steps: &[u8]) {
    if let Some(byte) = mark.get_mut(at) {
        *byte = byte.wrapping_add(rng.pick(steps));
    }
}

/// Cut, or with more bytes: a few, all that are lent for a mark, or so many that 16 bits do not tell them apart.
fn resize(rng: &mut Rng, mark: &mut Vec<u8>) {
    let length = mark.len();
    let length = match rng.below(20) {
        0 => length + 65_536,
        1..4 => MARK_ROOM,
        4..8 => rng.below(6),
        8..14 => length.saturating_sub(rng.between(1, 5)),
        _ => length + rng.between(1, 5),
    };
    mark.resize(length, 0);
}
