//! Sparse blocks, once for both files: an index or a value is an id and a word of 64 bits. Profile.db has indices of 12
//! bytes and values of 10, cct.db the other way round.

use super::bytes::{u64_at, Span};
use super::infos::Infos;
use super::Refusal;

pub trait Element {
    fn id(&self) -> u32;
    /// A value's bits, or an index's start.
    fn word(&self) -> u64;
}

impl Element for [u8; 10] {
    #[inline]
    fn id(&self) -> u32 {
        u16::from_le_bytes([self[0], self[1]]).into()
    }

    #[inline]
    fn word(&self) -> u64 {
        let [_, _, word @ ..] = *self;
        u64::from_le_bytes(word)
    }
}

impl Element for [u8; 12] {
    #[inline]
    fn id(&self) -> u32 {
        u32::from_le_bytes([self[0], self[1], self[2], self[3]])
    }

    #[inline]
    fn word(&self) -> u64 {
        let [_, _, _, _, word @ ..] = *self;
        u64::from_le_bytes(word)
    }
}

/// A block that keeps all its rules. Both slices are empty or neither is.
#[derive(Clone, Copy)]
pub struct Block<'a, const INDEX: usize, const VALUE: usize> {
    indices: &'a [[u8; INDEX]],
    values: &'a [[u8; VALUE]],
}

impl<'a, const INDEX: usize, const VALUE: usize> Block<'a, INDEX, VALUE>
where
    [u8; INDEX]: Element,
    [u8; VALUE]: Element,
{
    /// The block whose header stands at `header` and has `count` indices; no value's id may be below `least_id`.
    pub fn read<const N: usize>(
        infos: &Infos<'a, N>,
        header: usize,
        count: u32,
        least_id: u32,
    ) -> Result<Self, Refusal> {
        let block = Self::in_range(infos, header, count.into()).ok_or(Refusal::Array)?;
        if !block.is_ordered(least_id) {
            return Err(Refusal::Order);
        }
        Ok(block)
    }

    /// Rule 7. A size above 2^64 - 1 lies in no file.
    fn in_range<const N: usize>(infos: &Infos<'a, N>, header: usize, count: u64) -> Option<Self> {
        let amount = u64_at(infos.file, header);
        if count == 0 {
            return (amount == 0).then_some(Block { indices: &[], values: &[] });
        }
        if amount == 0 {
            return None;
        }
        let (values_place, indices_place) = (u64_at(infos.file, header + 8), u64_at(infos.file, header + 0x18));
        let values = infos.outside_sections(values_place, amount.checked_mul(VALUE as u64)?)?;
        let indices = infos.outside_sections(indices_place, count * INDEX as u64)?;
        let kept = values_place.is_multiple_of(2) && indices_place.is_multiple_of(4) && values.end <= indices.start;
        kept.then(|| Block { indices: elements(infos.file, indices), values: elements(infos.file, values) })
    }

    /// Rule 11. A start that is not below the next one, or the last not below the number of values, leaves a sub-array
    /// empty or out of range.
    fn is_ordered(&self, least_id: u32) -> bool {
        let Some(first) = self.indices.first() else {
            return true;
        };
        let ordered_between = |start: u64, end: u64| {
            let sub_array = self.sub_array_between(start, end);
            sub_array.first().is_some_and(|value| value.id() >= least_id) && ids_increase(sub_array)
        };
        let mut start = first.word();
        let mut id = first.id();
        if start != 0 {
            return false;
        }
        for index in &self.indices[1..] {
            let (next_start, next_id) = (index.word(), index.id());
            if id >= next_id || !ordered_between(start, next_start) {
                return false;
            }
            (start, id) = (next_start, next_id);
        }
        ordered_between(start, self.values.len() as u64)
    }

    /// Empty if start and end are no range of the values.
    fn sub_array_between(&self, start: u64, end: u64) -> &'a [[u8; VALUE]] {
        match (usize::try_from(start), usize::try_from(end)) {
            (Ok(start), Ok(end)) => self.values.get(start..end).unwrap_or_default(),
            _ => &[],
        }
    }

    /// The values of the index with this id; empty if there is no such index, and only then.
    pub fn sub_array(&self, id: u64) -> &'a [[u8; VALUE]] {
        position(self.indices, id).map_or(&[], |k| self.sub_array_of(k))
    }

    /// The values of the k-th index.
    fn sub_array_of(&self, k: usize) -> &'a [[u8; VALUE]] {
        let end = self.indices.get(k + 1).map_or(self.values.len() as u64, Element::word);
        self.sub_array_between(self.indices[k].word(), end)
    }

    /// The bits of the value with these ids.
    pub fn value(&self, index_id: u64, value_id: u64) -> Option<u64> {
        let sub_array = self.sub_array(index_id);
        position(sub_array, value_id).map(|k| sub_array[k].word())
    }

    /// The same, where the index is looked for first beside the one that was found before.
    #[inline]
    pub fn value_near(&self, index_id: u64, value_id: u64, near: &mut Near) -> Option<u64> {
        near.0 = position_near(self.indices, index_id, near.0)?;
        let sub_array = self.sub_array_of(near.0);
        position(sub_array, value_id).map(|k| sub_array[k].word())
    }

    /// Answers each pair of a batch as a lookup of its own would.
    pub fn answer(&self, batch: Batch) {
        for ([index_id, value_id], answer) in batch.pairs.iter().zip(batch.answers) {
            *answer = self.value(*index_id, *value_id).map_or([ABSENT, 0], |bits| [FOUND, bits]);
        }
    }
}

/// Where an index was found.
#[derive(Default)]
pub struct Near(usize);

/// The first word of a batch's answer.
const FOUND: u64 = 0;
const ABSENT: u64 = 100;

/// The questions of a batch, each an index's id and a value's id, and as many answers.
pub struct Batch<'b> {
    pairs: &'b [[u64; 2]],
    answers: &'b mut [[u64; 2]],
}

impl<'b> Batch<'b> {
    /// An odd last word of either slice belongs to no pair. Too few answers are refused before the file is looked at.
    pub fn new(pairs: &'b [u64], answers: &'b mut [u64]) -> Result<Self, Refusal> {
        let (pairs, _) = pairs.as_chunks();
        let (answers, _) = answers.as_chunks_mut();
        let answers = answers.get_mut(..pairs.len()).ok_or(Refusal::Room)?;
        Ok(Batch { pairs, answers })
    }
}

fn elements<const SIZE: usize>(file: &[u8], span: Span) -> &[[u8; SIZE]] {
    span.of(file).as_chunks().0
}

fn ids_increase<E: Element>(elements: &[E]) -> bool {
    elements.windows(2).all(|pair| pair[0].id() < pair[1].id())
}

/// Where the element with this id stands among elements whose ids increase.
fn position<E: Element>(elements: &[E], id: u64) -> Option<usize> {
    elements.binary_search_by(|element| u64::from(element.id()).cmp(&id)).ok()
}

/// How many elements are looked at from a hint on before all are.
const WINDOW: usize = 8;

/// The same, where it may be at a hint, or among the elements behind that.
#[inline]
fn position_near<E: Element>(elements: &[E], id: u64, hint: usize) -> Option<usize> {
    let id_at = |k: usize| elements.get(k).map(|element| u64::from(element.id()));
    match (id_at(hint), id_at(hint + WINDOW)) {
        (Some(first), _) if first == id => Some(hint),
        (Some(first), Some(behind)) if first < id && id < behind => {
            position(&elements[hint..hint + WINDOW], id).map(|k| hint + k)
        }
        _ => position(elements, id),
    }
}
