//! DCPI samples: sound sections, and the damage that is theirs alone.

use super::image::{FieldKind, Image};
use super::rng::Rng;
use super::Specimen;
use crate::question::Database;
use crate::reader::bytes::u32_at;

pub struct Known {
    pub chunks: Vec<Chunk>,
    /// how many counts are not 0
    pub not_zero: usize,
}

#[derive(Clone, Copy)]
pub struct Chunk {
    pub offset: u64,
    pub number: usize,
    /// its place in the section
    at: usize,
}

impl Chunk {
    /// The first offset behind it.
    pub fn end(&self) -> u64 {
        self.offset + self.number as u64
    }

    fn place_behind(&self) -> usize {
        self.at + 8 + 4 * self.number
    }
}

/// How many offsets there are.
const OFFSETS: u64 = 1 << 32;

pub fn specimen(rng: &mut Rng) -> Specimen {
    let chunks = chunks(rng);
    let counts = counts(rng, chunks.iter().map(|chunk| chunk.number).sum());
    let not_zero = counts.iter().filter(|count| **count != 0).count();
    let sum: u64 = counts.iter().map(|count| u64::from(*count)).sum();
    let end = chunks.last().map_or(0, Chunk::place_behind);
    let mut image = Image::filled(rng, end + 8);
    image.put(FieldKind::SampleTotal, end, 4, not_zero as u64);
    image.put(FieldKind::SampleTotal, end + 4, 4, sum);
    for (k, chunk) in chunks.iter().enumerate() {
        image.of_element(Some(k));
        image.put(FieldKind::ChunkOffset, chunk.at, 4, chunk.offset);
        image.put(FieldKind::ChunkNumber, chunk.at + 4, 4, chunk.number as u64);
    }
    put_counts(&mut image, &chunks, &counts);
    let mut specimen = Specimen::sound(Database::Dcpi, image, super::Known::Dcpi(Known { chunks, not_zero }));
    if sum >= OFFSETS {
        specimen.damage.push(format!("a sum of {sum}"));
    }
    specimen
}

fn put_counts(image: &mut Image, chunks: &[Chunk], mut counts: &[u32]) {
    for (k, chunk) in chunks.iter().enumerate() {
        let (own, others) = counts.split_at(chunk.number);
        image.of_element(Some(k));
        for (i, count) in own.iter().enumerate() {
            image.put(FieldKind::SampleCount, chunk.at + 8 + 4 * i, 4, u64::from(*count));
        }
        counts = others;
    }
}

/// How many counts each chunk has: mostly few.
fn numbers(rng: &mut Rng) -> Vec<usize> {
    match rng.below(500) {
        0 => return vec![70_000],
        1 => return vec![1; 3000],
        _ => {}
    }
    let most = rng.pick(&[1, 2, 4, 9, 40]);
    (0..rng.pick(&[0, 1, 1, 1, 2, 2, 3, 3, 5, 8, 30])).map(|_| rng.between(1, most)).collect()
}

/// Chunks that touch, or with gaps between them; from offset 0, up to the last there is, or anywhere.
fn chunks(rng: &mut Rng) -> Vec<Chunk> {
    let numbers = numbers(rng);
    let widest = rng.pick(&[0, 0, 1, 1, 3, 1000, 1 << 20]);
    let gaps: Vec<u64> = numbers.iter().map(|_| rng.below(widest + 1) as u64).collect();
    let spare = OFFSETS - gaps.iter().sum::<u64>() - numbers.iter().sum::<usize>() as u64;
    let (mut offset, mut at) = (rng.pick(&[0, 0, spare, spare, spare / 2, 100]), 0);
    if rng.one_in(4) {
        offset = rng.below(spare as usize) as u64;
    }
    let chunk = |(number, gap): (&usize, &u64)| {
        let chunk = Chunk { offset: offset + gap, number: *number, at };
        (offset, at) = (chunk.end(), chunk.place_behind());
        chunk
    };
    numbers.iter().zip(&gaps).map(chunk).collect()
}

/// Zeros from none to all; the others small, or so large that their sum is at 2^32 or past it.
fn counts(rng: &mut Rng, number: usize) -> Vec<u32> {
    let zeros_of_eight = rng.pick(&[0, 1, 1, 4, 4, 7, 8]);
    let shift = rng.pick(&[62, 60, 60, 56, 50, 40, 32]);
    let some = |rng: &mut Rng| if rng.below(8) < zeros_of_eight { 0 } else { (rng.word() >> shift) as u32 };
    let mut counts: Vec<u32> = (0..number).map(|_| some(rng)).collect();
    if number > 0 && rng.one_in(6) {
        let k = rng.below(number);
        let others: u64 = counts.iter().map(|count| u64::from(*count)).sum::<u64>() - u64::from(counts[k]);
        let target = rng.pick(&[OFFSETS - 1, OFFSETS - 1, OFFSETS, OFFSETS + 1, 2 * OFFSETS - 1]);
        let count = target.checked_sub(others).and_then(|count| u32::try_from(count).ok());
        counts[k] = count.unwrap_or(u32::MAX);
    }
    counts
}

/// Damages a section in one way; now and then it stays sound.
pub fn damage(rng: &mut Rng, known: &Known, samples: &mut [u8]) -> Option<String> {
    match rng.below(10) {
        0..3 => other_number(rng, known, samples),
        3..7 => other_offset(rng, known, samples),
        7 => exchanged_chunks(rng, known, samples),
        _ => other_total(rng, known, samples),
    }
}

fn write(samples: &mut [u8], at: usize, number: u64) -> Option<String> {
    let old = u32_at(samples.get(at..at + 4)?, 0);
    let number = number as u32;
    samples[at..at + 4].copy_from_slice(&number.to_le_bytes());
    Some(format!("{number} at {at} instead of {old}"))
}

fn some_chunk(rng: &mut Rng, known: &Known) -> Option<(usize, Chunk)> {
    let k = rng.below(known.chunks.len().max(1));
    known.chunks.get(k).map(|chunk| (k, *chunk))
}

/// None, one more or less, or so many that their bytes are as many modulo 2^32; with totals for what is read then, in
/// some of the cases.
fn other_number(rng: &mut Rng, known: &Known, samples: &mut [u8]) -> Option<String> {
    let (_, chunk) = some_chunk(rng, known)?;
    let number = chunk.number as u64;
    let other = rng.pick(&[0, 0, number + 1, number - 1, number | 1 << 30, number | 1 << 31, u64::MAX]);
    let done = write(samples, chunk.at + 4, other);
    if rng.one_in(3) {
        mend_totals(samples);
    }
    done
}

/// At the edges of the chunk before it and of the one behind it, and where it just reaches the last offset, or past it.
fn other_offset(rng: &mut Rng, known: &Known, samples: &mut [u8]) -> Option<String> {
    let (k, chunk) = some_chunk(rng, known)?;
    let last = OFFSETS - chunk.number as u64;
    let before = k.checked_sub(1).map(|before| known.chunks[before]);
    let behind = known.chunks.get(k + 1).map(|behind| behind.offset.wrapping_sub(chunk.number as u64));
    let other = match (rng.below(3), before, behind) {
        (0, Some(before), _) => rng.pick(&[before.end(), before.end() - 1, before.end() - 1, before.offset]),
        (1, _, Some(behind)) => rng.pick(&[behind, behind.wrapping_add(1), behind.wrapping_add(1)]),
        _ => rng.pick(&[last, last + 1, last + 1, OFFSETS - 1]),
    };
    write(samples, chunk.at, other)
}

/// A chunk and the next change places.
fn exchanged_chunks(rng: &mut Rng, known: &Known, samples: &mut [u8]) -> Option<String> {
    let (k, chunk) = some_chunk(rng, known)?;
    let next = known.chunks.get(k + 1)?;
    let both = samples.get_mut(chunk.at..next.place_behind())?;
    both.rotate_left(next.at - chunk.at);
    Some(format!("chunks {k} and {} exchanged", k + 1))
}

/// One more or less, the other total, how many counts there are, or nothing.
fn other_total(rng: &mut Rng, known: &Known, samples: &mut [u8]) -> Option<String> {
    let end = samples.len().checked_sub(8)?;
    let which = rng.below(2);
    let old = u32_at(samples, end + 4 * which);
    let counts: usize = known.chunks.iter().map(|chunk| chunk.number).sum();
    let other = u32_at(samples, end + 4 * (1 - which));
    let total = rng.pick(&[old.wrapping_add(1), old.wrapping_sub(1), old ^ 1 << 31, other, counts as u32, 0]);
    write(samples, end + 4 * which, total.into())
}

/// Puts the totals of the chunks, as far as they fit, where the section now ends.
pub fn mend_totals(samples: &mut [u8]) {
    let Some(end) = samples.len().checked_sub(8) else {
        return;
    };
    let (mut rest, mut not_zero, mut sum) = (&samples[..end], 0_u32, 0_u32);
    while let Some((head, bytes)) = rest.split_first_chunk::<8>() {
        let Some((counts, behind)) = bytes.split_at_checked(4 * u32_at(head, 4) as usize) else {
            break;
        };
        for count in counts.chunks_exact(4).map(|count| u32_at(count, 0)) {
            not_zero += u32::from(count != 0);
            sum = sum.wrapping_add(count);
        }
        rest = behind;
    }
    samples[end..end + 4].copy_from_slice(&not_zero.to_le_bytes());
    samples[end + 4..].copy_from_slice(&sum.to_le_bytes());
}
