//! What a DCPI section has, sound or not: where its first faults are, each for itself, so that a run can tell whether
//! it met several of them at once.

use crate::reader::bytes::u32_at;

#[derive(Default)]
pub struct Shape {
    pub chunks: usize,
    /// one begins where the one before it ends
    pub touching: bool,
    /// the first chunk that breaks rule 7
    pub misfit: Option<usize>,
    /// the first chunk that breaks rule 11
    pub disorder: Option<usize>,
    pub not_zero: u64,
    sum: u64,
    stored: [u64; 2],
}

impl Shape {
    /// A chunk that does not fit is the last; one that breaks another rule is not.
    pub fn of(samples: &[u8]) -> Shape {
        let mut shape = Shape::default();
        let Some((mut rest, stored)) = samples.split_last_chunk::<8>() else {
            return shape;
        };
        shape.stored = [u32_at(stored, 0).into(), u32_at(stored, 4).into()];
        let mut least = 0;
        while !rest.is_empty() {
            let Some((head, bytes)) = rest.split_first_chunk::<8>() else {
                shape.misfit.get_or_insert(shape.chunks);
                break;
            };
            let [offset, number] = [u32_at(head, 0), u32_at(head, 4)].map(u64::from);
            shape.add_head(offset, number, least);
            let Some((counts, behind)) = bytes.split_at_checked(4 * number as usize) else {
                shape.misfit.get_or_insert(shape.chunks);
                break;
            };
            counts.chunks_exact(4).for_each(|count| shape.add_count(u32_at(count, 0)));
            (rest, least) = (behind, offset + number);
            shape.chunks += 1;
        }
        shape
    }

    fn add_head(&mut self, offset: u64, number: u64, least: u64) {
        if number == 0 || offset + number > 1 << 32 {
            self.misfit.get_or_insert(self.chunks);
        }
        if offset < least {
            self.disorder.get_or_insert(self.chunks);
        }
        self.touching |= self.chunks > 0 && offset == least;
    }

    fn add_count(&mut self, count: u32) {
        self.not_zero += u64::from(count != 0);
        self.sum += u64::from(count);
    }

    pub fn has_other_totals(&self) -> bool {
        self.stored != [self.not_zero, self.sum]
    }

    /// Only modulo 2^32 the totals are those that are stored.
    pub fn sum_rolls_over(&self) -> bool {
        self.has_other_totals() && self.stored == [self.not_zero, self.sum % (1 << 32)]
    }
}
