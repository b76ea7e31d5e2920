//! trace.db: trace lines and their samples.

use super::bytes::{u32_at, u64_at, Span};
use super::infos::{Infos, INFOS};
use super::opening::Format;
use super::Refusal;

const FORMAT: Format = Format { magic: *b"HPCTOOLKITtrce", footer: None, header_end: 32 };

const SAMPLE_SIZE: usize = 12;

#[derive(Clone, Copy, PartialEq, Eq, Debug)]
pub struct Sample {
    pub timestamp: u64,
    pub ctx_id: u32,
}

#[inline]
fn timestamp(sample: &[u8; SAMPLE_SIZE]) -> u64 {
    u64_at(sample, 0)
}

fn sample_of(bytes: &[u8; SAMPLE_SIZE]) -> Sample {
    Sample { timestamp: timestamp(bytes), ctx_id: u32_at(bytes, 8) }
}

/// A trace line that keeps all its rules.
struct Line<'a> {
    prof_idx: u32,
    samples: &'a [[u8; SAMPLE_SIZE]],
}

struct Traces<'a>(Infos<'a, 1>);

impl<'a> Traces<'a> {
    fn open(file: &'a [u8]) -> Result<Traces<'a>, Refusal> {
        Ok(Traces(Infos::open(file, &FORMAT, &[INFOS], 24)?))
    }

    fn line(&self, i: u64) -> Result<Line<'a>, Refusal> {
        let file = self.0.file;
        let at = self.0.elements.element(i)?;
        let span = self.line_span(u64_at(file, at + 8), u64_at(file, at + 0x10)).ok_or(Refusal::Array)?;
        let samples = span.of(file).as_chunks().0;
        if samples.windows(2).any(|pair| timestamp(&pair[1]) < timestamp(&pair[0])) {
            return Err(Refusal::Order);
        }
        Ok(Line { prof_idx: u32_at(file, at), samples })
    }

    /// Rule 7.
    fn line_span(&self, start: u64, end: u64) -> Option<Span> {
        let line = self.0.outside_sections(start, end.checked_sub(start)?)?;
        let kept = start.is_multiple_of(8) && end.is_multiple_of(4) && line.size().is_multiple_of(SAMPLE_SIZE);
        kept.then_some(line)
    }
}

pub fn sections_of(file: &[u8]) -> Result<[Span; 1], Refusal> {
    Ok(Traces::open(file)?.0.sections)
}

/// How many trace lines there are.
pub fn count(file: &[u8]) -> Result<u64, Refusal> {
    Ok(Traces::open(file)?.0.elements.count())
}

pub struct LineInfo {
    pub prof_idx: u32,
    pub samples: u64,
}

pub fn line(file: &[u8], i: u64) -> Result<LineInfo, Refusal> {
    let line = Traces::open(file)?.line(i)?;
    Ok(LineInfo { prof_idx: line.prof_idx, samples: line.samples.len() as u64 })
}

/// Sample `k` of line `i`.
pub fn sample(file: &[u8], i: u64, k: u64) -> Result<Sample, Refusal> {
    let line = Traces::open(file)?.line(i)?;
    let sample = usize::try_from(k).ok().and_then(|k| line.samples.get(k)).ok_or(Refusal::Index)?;
    Ok(sample_of(sample))
}

/// The last sample of line `i` that is not later than `time`, with its position.
pub fn at(file: &[u8], i: u64, time: u64) -> Result<Option<(u64, Sample)>, Refusal> {
    let line = Traces::open(file)?.line(i)?;
    let not_later = line.samples.partition_point(|sample| timestamp(sample) <= time);
    Ok(not_later.checked_sub(1).map(|k| (k as u64, sample_of(&line.samples[k]))))
}
