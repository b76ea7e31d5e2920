//! Strings: the bytes from a place to just before the first NUL, which are UTF-8.

use std::ffi::CStr;

use super::bytes::Span;
use super::Refusal;

/// Where a string lies; its NUL is not counted.
#[derive(Clone, Copy, PartialEq, Eq, Debug)]
pub struct Text {
    pub place: usize,
    pub length: usize,
}

/// The string at `place`, which must start in the section and end there, NUL included, and be UTF-8.
pub fn text(file: &[u8], section: Span, place: u64) -> Result<Text, Refusal> {
    let rest = section_from(file, section, place).ok_or(Refusal::String)?;
    let found = CStr::from_bytes_until_nul(rest).map_err(|_| Refusal::String)?;
    let spelled = found.to_str().map_err(|_| Refusal::Spelling)?;
    Ok(Text { place: section.end - rest.len(), length: spelled.len() })
}

/// The section's bytes from `place` on.
fn section_from(file: &[u8], section: Span, place: u64) -> Option<&[u8]> {
    let start = usize::try_from(place).ok()?;
    (section.start <= start).then(|| file.get(start..section.end)).flatten()
}
