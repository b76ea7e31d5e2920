//! profile.db: the values of each profile, and its identifier tuple.

use super::block::{Batch, Block};
use super::bytes::{u16_at, u32_at, u64_at, Span};
use super::infos::{Infos, INFOS};
use super::opening::{Format, SectionRule};
use super::Refusal;

const FORMAT: Format = Format { magic: *b"HPCTOOLKITprof", footer: Some(*b"_prof.db"), header_end: 48 };

const SECTION_RULES: [SectionRule; 2] = [INFOS, SectionRule { least_size: 0, alignment: 8 }];
const ID_TUPLES: usize = 1;

/// The values of a profile: contexts are the indices, metrics the values.
pub(super) type Values<'a> = Block<'a, 12, 10>;

struct Profiles<'a>(Infos<'a, 2>);

impl<'a> Profiles<'a> {
    fn open(file: &'a [u8]) -> Result<Profiles<'a>, Refusal> {
        Ok(Profiles(Infos::open(file, &FORMAT, &SECTION_RULES, 40)?))
    }

    fn block(&self, profile: u64) -> Result<Values<'a>, Refusal> {
        let at = self.0.elements.element(profile)?;
        Block::read(&self.0, at, u32_at(self.0.file, at + 0x10), 0)
    }

    /// The identifications of a profile's tuple.
    fn tuple(&self, profile: u64) -> Result<&'a [[u8; 16]], Refusal> {
        let at = self.0.elements.element(profile)?;
        self.tuple_at(u64_at(self.0.file, at + 0x20)).ok_or(Refusal::Array)
    }

    fn tuple_at(&self, place: u64) -> Option<&'a [[u8; 16]]> {
        let section = self.0.sections[ID_TUPLES];
        let head = section.part(place, 8).filter(|_| place.is_multiple_of(8))?;
        let count = u16_at(self.0.file, head.start);
        let whole = section.part(place, 8 + 16 * u64::from(count))?;
        Some(whole.of(self.0.file)[8..].as_chunks().0)
    }
}

pub fn sections_of(file: &[u8]) -> Result<[Span; 2], Refusal> {
    Ok(Profiles::open(file)?.0.sections)
}

/// How many profiles there are.
pub fn count(file: &[u8]) -> Result<u64, Refusal> {
    Ok(Profiles::open(file)?.0.elements.count())
}

pub(super) fn values(file: &[u8], profile: u64) -> Result<Values<'_>, Refusal> {
    Profiles::open(file)?.block(profile)
}

pub fn lookup(file: &[u8], profile: u64, context: u64, metric: u64) -> Result<Option<u64>, Refusal> {
    Ok(Profiles::open(file)?.block(profile)?.value(context, metric))
}

/// The single lookup at each pair of context and metric, in one block that is read once. An answer is two words: 0 and
/// the value's bits, or 100 and 0.
pub fn lookup_many(file: &[u8], profile: u64, pairs: &[u64], answers: &mut [u64]) -> Result<(), Refusal> {
    let batch = Batch::new(pairs, answers)?;
    Profiles::open(file)?.block(profile)?.answer(batch);
    Ok(())
}

/// How many identifications a profile's tuple has.
pub fn tuple(file: &[u8], profile: u64) -> Result<u64, Refusal> {
    Ok(Profiles::open(file)?.tuple(profile)?.len() as u64)
}

pub struct Identifier {
    pub kind: u8,
    pub flags: u16,
    pub logical_id: u32,
    pub physical_id: u64,
}

/// Identification `k` of a profile's tuple.
pub fn identifier(file: &[u8], profile: u64, k: u64) -> Result<Identifier, Refusal> {
    let ids = Profiles::open(file)?.tuple(profile)?;
    let id = usize::try_from(k).ok().and_then(|k| ids.get(k)).ok_or(Refusal::Index)?;
    Ok(Identifier { kind: id[0], flags: u16_at(id, 2), logical_id: u32_at(id, 4), physical_id: u64_at(id, 8) })
}
