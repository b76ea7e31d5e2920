//! profile.db, cct.db and trace.db open alike: their first section has the same header and one array, whose elements
//! tell where values or samples lie outside the sections.

use super::bytes::{u32_at, u64_at, u8_at, Span};
use super::opening::{sections, stride, Array, Format, SectionRule};
use super::Refusal;

/// END of the first section's header.
const HEADER_SIZE: usize = 0x0d;

/// The rule for the first section.
pub const INFOS: SectionRule = SectionRule { least_size: HEADER_SIZE as u64, alignment: 8 };

/// An opened file with N sections.
pub struct Infos<'a, const N: usize> {
    pub file: &'a [u8],
    pub sections: [Span; N],
    pub elements: Array,
    body: Span,
}

impl<'a, const N: usize> Infos<'a, N> {
    pub fn open(file: &'a [u8], format: &Format, rules: &[SectionRule; N], least_stride: u64) -> Result<Self, Refusal> {
        let body = format.body(file)?;
        let sections = sections(file, body, rules)?;
        let header = sections[0].start;
        let stride = stride(u8_at(file, header + 0x0c).into(), least_stride)?;
        let elements = Array::read(sections[0], HEADER_SIZE, u64_at(file, header), u32_at(file, header + 8), stride)?;
        Ok(Infos { file, sections, elements, body })
    }

    /// The `size` bytes at `place`, if they lie between header and last eight bytes and share no byte with a section.
    pub fn outside_sections(&self, place: u64, size: u64) -> Option<Span> {
        let part = self.body.part(place, size)?;
        let shared = self.sections.iter().any(|section| part.shares_a_byte_with(*section));
        (!shared).then_some(part)
    }
}
