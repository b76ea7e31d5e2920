//! Opening: what all four files have in common. The order of the checks is document 01's: the frame (1 to 4), all
//! sections (5), then each section's header (6, 7).

use super::bytes::{u64_at, Span};
use super::Refusal;

/// Bytes at the end of every file that belong to no section. In trace.db nothing is said of what they are.
const FOOTER_SIZE: usize = 8;
const MAJOR_VERSION: u8 = 4;

pub struct Format {
    pub magic: [u8; 14],
    pub footer: Option<[u8; FOOTER_SIZE]>,
    pub header_end: usize,
}

impl Format {
    /// Rules 1 to 4. The answer is the part of the file in which everything but header and footer lies.
    pub fn body(&self, file: &[u8]) -> Result<Span, Refusal> {
        if file.len() < self.header_end + FOOTER_SIZE {
            return Err(Refusal::Short);
        }
        if file[..14] != self.magic {
            return Err(Refusal::Magic);
        }
        if file[14] != MAJOR_VERSION {
            return Err(Refusal::Version);
        }
        let end = file.len() - FOOTER_SIZE;
        if self.footer.is_some_and(|footer| file[end..] != footer) {
            return Err(Refusal::Footer);
        }
        Ok(Span { start: self.header_end, end })
    }
}

/// What is asked of a section, besides that it lies in the body.
#[derive(Clone, Copy)]
pub struct SectionRule {
    pub least_size: u64,
    pub alignment: u64,
}

/// Sections that stand in header order from byte 16 on, each a size and a pointer. A section that may have size 0 and
/// has it contains nothing, and its pointer is ignored.
pub fn sections<const N: usize>(file: &[u8], body: Span, rules: &[SectionRule; N]) -> Result<[Span; N], Refusal> {
    let mut sections = [Span::default(); N];
    for (k, rule) in rules.iter().enumerate() {
        let size = u64_at(file, 16 + 16 * k);
        let place = u64_at(file, 24 + 16 * k);
        if size < rule.least_size {
            return Err(Refusal::Section);
        }
        if size > 0 {
            let section = body.part(place, size).filter(|_| place.is_multiple_of(rule.alignment));
            sections[k] = section.ok_or(Refusal::Section)?;
        }
    }
    Ok(sections)
}

/// Rule 6.
pub fn stride(found: u64, least: u64) -> Result<u64, Refusal> {
    if found < least || !found.is_multiple_of(8) {
        return Err(Refusal::Stride);
    }
    Ok(found)
}

/// An array of `count` elements, `stride` bytes apart.
#[derive(Clone, Copy, Debug)]
pub struct Array {
    start: u64,
    count: u64,
    stride: u64,
}

impl Array {
    /// Rule 7 for an array in `section` behind a section header of `header_size` bytes. Count and stride are fields of
    /// at most 32 and 16 bits, so that their product is exact. An empty array's pointer is ignored.
    pub fn read(section: Span, header_size: usize, place: u64, count: u32, stride: u64) -> Result<Array, Refusal> {
        let count = u64::from(count);
        if count == 0 {
            return Ok(Array { start: 0, count, stride });
        }
        let room = Span { start: section.start + header_size, end: section.end };
        if !place.is_multiple_of(8) || room.part(place, count * stride).is_none() {
            return Err(Refusal::Array);
        }
        Ok(Array { start: place, count, stride })
    }

    pub fn count(&self) -> u64 {
        self.count
    }

    /// The place of element `i`, or 15. The element lies in the file, hence the product and the place fit.
    pub fn element(&self, i: u64) -> Result<usize, Refusal> {
        if i >= self.count {
            return Err(Refusal::Index);
        }
        Ok((self.start + i * self.stride) as usize)
    }

    /// Whether `link` is the place of one of the elements.
    #[inline]
    pub fn has_element_at(&self, link: u64) -> bool {
        link.checked_sub(self.start)
            .is_some_and(|offset| offset / self.stride < self.count && offset % self.stride == 0)
    }
}
