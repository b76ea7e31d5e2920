//! The hot path: from the root with the greatest value down, always to the child with the greatest.

use super::block::Near;
use super::bytes::{u32_at, u64_at, Span};
use super::meta::Meta;
use super::profile::{self, Values};
use super::walk::{walk, End, HEAD_SIZE};
use super::Refusal;

/// How many places the path has; they are written to the first words of `hot`.
pub fn hot_path(
    file: &[u8],
    profiles: &[u8],
    [profile, metric]: [u64; 2],
    listing: &mut [u64],
    table: &mut [u64],
    hot: &mut [u64],
) -> Result<u64, Refusal> {
    match walk(file, listing, table).end {
        End::Whole => {}
        End::Cut => return Err(Refusal::Room),
        End::Refused(refusal) => return Err(refusal),
    }
    let meta = Meta::open(file)?;
    let path = way_down(file, meta.roots, &profile::values(profiles, profile)?, metric)?;
    hot.get_mut(..path.len()).ok_or(Refusal::Room)?.copy_from_slice(&path);
    Ok(path.len() as u64)
}

/// The way is followed to its end before its length counts.
fn way_down(file: &[u8], roots: Span, values: &Values, metric: u64) -> Result<Vec<u64>, Refusal> {
    let mut path = Vec::new();
    let mut siblings = roots;
    let mut near = Near::default();
    while let Some(place) = hottest(file, siblings, |ctx_id| values.value_near(ctx_id.into(), metric, &mut near))? {
        path.push(place as u64);
        let [size, children] = [u64_at(file, place) as usize, u64_at(file, place + 8) as usize];
        siblings = Span { start: children, end: children + size };
    }
    Ok(path)
}

/// The place of the first with the greatest value, among contexts of a tree that was walked whole; none if none has a
/// value.
#[inline(always)]
fn hottest(
    file: &[u8],
    siblings: Span,
    mut value_of: impl FnMut(u32) -> Option<u64>,
) -> Result<Option<usize>, Refusal> {
    let mut hottest: Option<(usize, f64)> = None;
    let mut place = siblings.start;
    while place < siblings.end {
        if let Some(bits) = value_of(u32_at(file, place + 0x10)) {
            let value = f64::from_bits(bits);
            if !value.is_finite() {
                return Err(Refusal::NotFinite);
            }
            if hottest.is_none_or(|(_, greatest)| value > greatest) {
                hottest = Some((place, value));
            }
        }
        place += HEAD_SIZE + 8 * usize::from(file[place + 0x17]);
    }
    Ok(hottest.map(|(place, _)| place))
}
