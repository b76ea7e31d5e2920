//! Sound trace.db files.

use super::image::{FieldKind, Image};
use super::plan::{Piece, Places, Plan};
use super::rng::Rng;
use super::{count, framed, header_end, stride, Specimen};
use crate::question::Database;

pub struct Known {
    /// the timestamps of each line
    pub lines: Vec<Vec<u64>>,
}

/// Timestamps that do not fall: from 0, up to the last there is, or anywhere. In most lines of two or more samples some
/// repeat, up to all.
fn timestamps(rng: &mut Rng) -> Vec<u64> {
    let samples = if rng.one_in(900) { 70_000 } else { rng.pick(&[0, 1, 2, 2, 3, 5, 9, 30]) };
    let dense = 0..samples as u64;
    let mut times: Vec<u64> = match rng.below(4) {
        0 => dense.collect(),
        1 => dense.map(|k| u64::MAX - samples as u64 + 1 + k).collect(),
        2 => dense.map(|k| 1_600_000_000_000_000_000 + 1000 * k).collect(),
        _ => dense.map(|_| rng.word()).collect(),
    };
    times.sort_unstable();
    let repeats_of_eight = rng.pick(&[0, 4, 7, 8]);
    for k in 1..samples {
        if rng.below(8) < repeats_of_eight {
            times[k] = times[k - 1];
        }
    }
    times
}

pub fn specimen(rng: &mut Rng) -> Specimen {
    let mut plan = Plan::default();
    let (headers, header) = plan.section(13);
    let stride = stride(rng, 24, 1);
    let count = count(rng);
    let array = (count > 0).then(|| plan.inside(headers, count * stride, 8));
    let lines: Vec<Vec<u64>> = (0..count).map(|_| timestamps(rng)).collect();
    let pieces: Vec<Option<Piece>> =
        lines.iter().map(|line| (!line.is_empty()).then(|| plan.outside(12 * line.len(), 8))).collect();
    let places = plan.place(rng, header_end(Database::Trace));

    let mut image = framed(rng, Database::Trace, &[places.of_section(headers)], places.body_end);
    let at = places.of(header);
    let array_place = array.map(|array| places.of(array));
    image.put(FieldKind::ArrayPlace, at, 8, array_place.map_or_else(|| rng.edge(), |place| place as u64));
    image.put(FieldKind::Count, at + 8, 4, count as u64);
    image.put(FieldKind::Stride, at + 12, 1, stride as u64);
    for (k, (line, piece)) in lines.iter().zip(&pieces).enumerate() {
        image.of_element(Some(k));
        let start = piece.map_or_else(|| any_place(rng, &places), |piece| places.of(piece));
        put_line(rng, &mut image, array_place.unwrap_or_default() + k * stride, start, line);
    }
    image.of_element(None);
    Specimen::sound(Database::Trace, image, super::Known::Trace(Known { lines }))
}

/// Where an empty line may lie: between header and last eight bytes, in the section too.
fn any_place(rng: &mut Rng, places: &Places) -> usize {
    let first = header_end(Database::Trace) / 8;
    8 * rng.between(first, places.body_end / 8)
}

fn put_line(rng: &mut Rng, image: &mut Image, header: usize, start: usize, line: &[u64]) {
    image.put(FieldKind::Other, header, 4, rng.word());
    image.put(FieldKind::LineStart, header + 8, 8, start as u64);
    image.put(FieldKind::LineEnd, header + 16, 8, (start + 12 * line.len()) as u64);
    // what follows a timestamp is filler: any context will do
    let step = 1 + line.len() / 400;
    for (k, timestamp) in line.iter().enumerate() {
        let at = start + 12 * k;
        image.put_bytes(at, &timestamp.to_le_bytes());
        if k % step == 0 {
            image.remember(FieldKind::Timestamp, at, 8);
        }
    }
}
