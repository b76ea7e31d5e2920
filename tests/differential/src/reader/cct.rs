//! cct.db: the values of each context, and totals over them.

use super::block::{Batch, Block, Element};
use super::bytes::{u16_at, Span};
use super::infos::{Infos, INFOS};
use super::opening::Format;
use super::Refusal;

const FORMAT: Format = Format { magic: *b"HPCTOOLKITctxt", footer: Some(*b"__ctx.db"), header_end: 32 };

/// The summary profile 0 has no values in cct.db.
const LEAST_PROFILE: u32 = 1;

struct Contexts<'a>(Infos<'a, 1>);

impl<'a> Contexts<'a> {
    fn open(file: &'a [u8]) -> Result<Contexts<'a>, Refusal> {
        Ok(Contexts(Infos::open(file, &FORMAT, &[INFOS], 32)?))
    }

    /// Metrics are its indices, profiles its values.
    fn block(&self, context: u64) -> Result<Block<'a, 10, 12>, Refusal> {
        let at = self.0.elements.element(context)?;
        Block::read(&self.0, at, u16_at(self.0.file, at + 0x10).into(), LEAST_PROFILE)
    }
}

pub fn sections_of(file: &[u8]) -> Result<[Span; 1], Refusal> {
    Ok(Contexts::open(file)?.0.sections)
}

/// How many contexts there are.
pub fn count(file: &[u8]) -> Result<u64, Refusal> {
    Ok(Contexts::open(file)?.0.elements.count())
}

pub fn lookup(file: &[u8], profile: u64, context: u64, metric: u64) -> Result<Option<u64>, Refusal> {
    Ok(Contexts::open(file)?.block(context)?.value(metric, profile))
}

/// The single lookup at each pair of metric and profile, in one block that is read once. An answer is two words: 0 and
/// the value's bits, or 100 and 0.
pub fn lookup_many(file: &[u8], context: u64, pairs: &[u64], answers: &mut [u64]) -> Result<(), Refusal> {
    let batch = Batch::new(pairs, answers)?;
    Contexts::open(file)?.block(context)?.answer(batch);
    Ok(())
}

/// A value and the profile that has it.
#[derive(Clone, Copy, PartialEq, Debug)]
pub struct Extreme {
    pub profile: u32,
    pub value: f64,
}

#[derive(Clone, Copy, PartialEq, Debug)]
pub struct Totals {
    pub count: u64,
    pub smallest: Extreme,
    pub greatest: Extreme,
    pub sum: f64,
}

pub fn totals(file: &[u8], context: u64, metric: u64) -> Result<Option<Totals>, Refusal> {
    total(Contexts::open(file)?.block(context)?.sub_array(metric))
}

/// The first smallest and the first greatest; the sum from left to right, starting from the first value.
fn total(values: &[[u8; 12]]) -> Result<Option<Totals>, Refusal> {
    let Some((first, others)) = values.split_first() else {
        return Ok(None);
    };
    let entry = |element: &[u8; 12]| Extreme { profile: element.id(), value: f64::from_bits(element.word()) };
    let first = entry(first);
    let mut finite = first.value.is_finite();
    let (mut smallest, mut greatest, mut sum) = (first, first, first.value);
    for element in others {
        let next = entry(element);
        finite &= next.value.is_finite();
        if next.value < smallest.value {
            smallest = next;
        }
        if next.value > greatest.value {
            greatest = next;
        }
        sum += next.value;
    }
    if !finite {
        return Err(Refusal::NotFinite);
    }
    Ok(Some(Totals { count: values.len() as u64, smallest, greatest, sum }))
}
