//! DCPI samples of versions 0.06 and 0.07, from document 000 (the format) and request 2026-06 (the rules): the binary
//! section, lent from just behind the text header. It has chunks of counts, for offsets one apart, and then two totals.

use super::bytes::u32_at;
use super::Refusal;
use crate::writer::{Entry, ENTRY};

/// How many offsets there are.
const OFFSETS: u64 = 1 << 32;

#[derive(Clone, Copy, Default, PartialEq, Eq, Debug)]
pub struct Totals {
    /// how many counts are not 0
    pub offsets: u64,
    /// their sum: of counts for different offsets it is below 2^64
    pub samples: u64,
}

impl Totals {
    fn stored(bytes: &[u8; 8]) -> Totals {
        Totals { offsets: u32_at(bytes, 0).into(), samples: u32_at(bytes, 4).into() }
    }

    #[inline]
    fn add(&mut self, counts: &[[u8; 4]]) {
        // of one chunk there are fewer than 2^32
        let (mut zeros, mut sum) = (0_u32, 0_u64);
        for count in counts {
            let count = u32::from_le_bytes(*count);
            zeros += u32::from(count == 0);
            sum += u64::from(count);
        }
        self.offsets += counts.len() as u64 - u64::from(zeros);
        self.samples += sum;
    }
}

/// A chunk that keeps rule 7.
struct Chunk<'a> {
    offset: u32,
    /// the first offset behind it
    end: u64,
    counts: &'a [[u8; 4]],
}

impl<'a> Chunk<'a> {
    /// The chunk that some bytes begin with, and the bytes behind it.
    #[inline]
    fn first_of(bytes: &'a [u8]) -> Option<(Chunk<'a>, &'a [u8])> {
        let (head, bytes) = bytes.split_first_chunk()?;
        let head = u64::from_le_bytes(*head);
        let (offset, number) = (head as u32, (head >> 32) as u32);
        let end = u64::from(offset) + u64::from(number);
        if number == 0 || end > OFFSETS {
            return None;
        }
        let (counts, behind) = bytes.split_at_checked(4 * number as usize)?;
        Some((Chunk { offset, end, counts: counts.as_chunks().0 }, behind))
    }
}

/// A section that keeps all its rules.
struct Section<'a> {
    chunks: &'a [u8],
    totals: Totals,
}

impl<'a> Section<'a> {
    fn read(samples: &'a [u8]) -> Result<Section<'a>, Refusal> {
        let (chunks, stored) = samples.split_last_chunk().ok_or(Refusal::Short)?;
        let (mut rest, mut least, mut totals) = (chunks, 0, Totals::default());
        while !rest.is_empty() {
            let (chunk, behind) = Chunk::first_of(rest).ok_or(Refusal::Array)?;
            if u64::from(chunk.offset) < least {
                return Err(Refusal::Order);
            }
            totals.add(chunk.counts);
            (rest, least) = (behind, chunk.end);
        }
        if totals != Totals::stored(stored) {
            return Err(Refusal::Total);
        }
        Ok(Section { chunks, totals })
    }

    fn chunks(&self) -> impl Iterator<Item = Chunk<'a>> {
        let mut rest = self.chunks;
        std::iter::from_fn(move || {
            let (chunk, behind) = Chunk::first_of(rest)?;
            rest = behind;
            Some(chunk)
        })
    }
}

pub fn totals(samples: &[u8]) -> Result<Totals, Refusal> {
    Ok(Section::read(samples)?.totals)
}

/// The count for an offset, which may be 0; none if no count is for it.
pub fn lookup(samples: &[u8], offset: u64) -> Result<Option<u32>, Refusal> {
    let section = Section::read(samples)?;
    let Some(chunk) = section.chunks().find(|chunk| offset < chunk.end) else {
        return Ok(None);
    };
    let place = offset.checked_sub(chunk.offset.into());
    Ok(place.map(|place| u32::from_le_bytes(chunk.counts[place as usize])))
}

/// Writes an entry for each count that is not 0 to the first of the lent bytes, and gives their number; refused, it
/// writes nothing.
pub fn entries(samples: &[u8], profile: u32, metric: u16, lent: &mut [u8]) -> Result<u64, Refusal> {
    let section = Section::read(samples)?;
    let (lent, _) = lent.as_chunks_mut();
    let number = section.totals.offsets as usize;
    let entries = lent.get_mut(..number).ok_or(Refusal::Room)?;
    let mut listed = 0;
    for chunk in section.chunks() {
        for (i, count) in chunk.counts.iter().enumerate() {
            let count = u32::from_le_bytes(*count);
            // that of a count of 0 is written over by the next; behind the last entry all counts are 0
            let Some(entry) = entries.get_mut(listed) else {
                break;
            };
            *entry = entry_of(profile, chunk.offset + i as u32, metric, count);
            listed += usize::from(count != 0);
        }
    }
    Ok(number as u64)
}

#[inline]
fn entry_of(profile: u32, offset: u32, metric: u16, count: u32) -> Entry {
    let mut entry = [0; ENTRY];
    entry[..4].copy_from_slice(&profile.to_le_bytes());
    entry[4..8].copy_from_slice(&offset.to_le_bytes());
    entry[8..10].copy_from_slice(&metric.to_le_bytes());
    entry[16..].copy_from_slice(&f64::from(count).to_bits().to_le_bytes());
    entry
}
