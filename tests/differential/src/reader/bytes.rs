//! Little-endian numbers in a slice of bytes, and spans of a file.

use std::cmp::{max, min};

fn array_at<const N: usize>(bytes: &[u8], at: usize) -> [u8; N] {
    let mut array = [0; N];
    array.copy_from_slice(&bytes[at..at + N]);
    array
}

#[inline]
pub fn u8_at(bytes: &[u8], at: usize) -> u8 {
    bytes[at]
}

#[inline]
pub fn u16_at(bytes: &[u8], at: usize) -> u16 {
    u16::from_le_bytes(array_at(bytes, at))
}

#[inline]
pub fn u32_at(bytes: &[u8], at: usize) -> u32 {
    u32::from_le_bytes(array_at(bytes, at))
}

#[inline]
pub fn u64_at(bytes: &[u8], at: usize) -> u64 {
    u64::from_le_bytes(array_at(bytes, at))
}

/// The bytes of a file from `start` to just before `end`.
#[derive(Clone, Copy, Default, PartialEq, Eq, Debug)]
pub struct Span {
    pub start: usize,
    pub end: usize,
}

impl Span {
    pub fn size(self) -> usize {
        self.end - self.start
    }

    /// The `size` bytes at `place`, if they lie in this span. Exact for all numbers: a sum above 2^64 - 1 lies in no
    /// span.
    #[inline]
    pub fn part(self, place: u64, size: u64) -> Option<Span> {
        let start = usize::try_from(place).ok()?;
        let end = start.checked_add(usize::try_from(size).ok()?)?;
        (self.start <= start && end <= self.end).then_some(Span { start, end })
    }

    /// An empty span shares no byte, wherever it lies.
    pub fn shares_a_byte_with(self, other: Span) -> bool {
        max(self.start, other.start) < min(self.end, other.end)
    }

    #[inline]
    pub fn of(self, file: &[u8]) -> &[u8] {
        &file[self.start..self.end]
    }
}
