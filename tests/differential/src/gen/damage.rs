//! Damage: one field at or beside an edge, bits, a cut, a tail.

use super::image::{number_at, Field, FieldKind};
use super::rng::Rng;
use super::{dcpi, footer, header_end, lists, Known, Specimen};

/// Damages a file, lists or samples in one way.
pub fn damage(rng: &mut Rng, specimen: &mut Specimen) {
    let done = match &mut specimen.known {
        Known::Lists(known) => lists::damage(rng, &mut known.survey, &mut specimen.bytes),
        Known::Dcpi(known) if rng.one_in(2) => dcpi::damage(rng, known, &mut specimen.bytes),
        _ => damage_file(rng, specimen),
    };
    specimen.damage.extend(done);
}

fn damage_file(rng: &mut Rng, specimen: &mut Specimen) -> Option<String> {
    match rng.below(20) {
        0..12 => set_field(rng, specimen),
        12..14 => copy_field(rng, specimen),
        14..16 => flip_bits(rng, specimen),
        16..18 => cut(rng, specimen),
        _ => append(rng, specimen),
    }
}

/// A field of a kind that is chosen first, so that the few fields of opening are met as often as the many of the
/// elements. A cut may have taken the field away.
fn some_field(rng: &mut Rng, specimen: &Specimen) -> Option<Field> {
    let mut kinds: Vec<FieldKind> = Vec::new();
    for field in &specimen.fields {
        if !kinds.contains(&field.kind) {
            kinds.push(field.kind);
        }
    }
    let kind = rng.pick_any(&kinds)?;
    field_of_kind(rng, specimen, kind)
}

fn field_of_kind(rng: &mut Rng, specimen: &Specimen, kind: FieldKind) -> Option<Field> {
    let there = |field: &&Field| field.kind == kind && field.at + field.width <= specimen.bytes.len();
    let fields: Vec<Field> = specimen.fields.iter().filter(there).copied().collect();
    rng.pick_any(&fields)
}

fn write(specimen: &mut Specimen, field: Field, value: u64) -> String {
    let old = number_at(&specimen.bytes, field.at, field.width);
    specimen.bytes[field.at..field.at + field.width].copy_from_slice(&value.to_le_bytes()[..field.width]);
    specimen.focus = field.element.or(specimen.focus);
    let new = number_at(&specimen.bytes, field.at, field.width);
    format!("{:?} at {}: {new} instead of {old}", field.kind, field.at)
}

fn set_field(rng: &mut Rng, specimen: &mut Specimen) -> Option<String> {
    let field = some_field(rng, specimen)?;
    let old = number_at(&specimen.bytes, field.at, field.width);
    let value = if rng.one_in(2) { edge_of_kind(rng, specimen, field.kind, old) } else { None };
    let value = value.unwrap_or_else(|| edge_of_field(rng, old, field.width, specimen.bytes.len()));
    Some(write(specimen, field, value))
}

/// Edges that are some kinds' own.
fn edge_of_kind(rng: &mut Rng, specimen: &Specimen, kind: FieldKind, old: u64) -> Option<u64> {
    use FieldKind::*;
    match kind {
        // least sizes are 9 to 16, least strides 16 to 40
        SectionSize => Some(rng.between(7, 18) as u64),
        Stride => Some(rng.pick(&[8, 12, 15, 16, 17, 20, 24, 28, 32, 36, 40, 41, 44, 48])),
        SectionPlace | ArrayPlace | InnerPlace | RootsPlace | ChildrenPlace | ValuesPlace | IndicesPlace
        | TuplePlace | LineStart | LineEnd => {
            // off its multiple, or at a section's start or end
            let from = if rng.one_in(2) { Some(old) } else { section_bound(rng, specimen) };
            from.map(|place| place.wrapping_add(rng.pick(&[1, 2, 4, 8, 12, 16])).wrapping_sub(rng.pick(&[0, 0, 8, 16])))
        }
        TitlePlace | MetricTextPlace | TextPlace | FunctionName => {
            section_bound(rng, specimen).map(|place| place.wrapping_sub(rng.below(2) as u64))
        }
        _ => None,
    }
}

/// Where one of the sections starts or ends.
fn section_bound(rng: &mut Rng, specimen: &Specimen) -> Option<u64> {
    let end = header_end(specimen.database);
    let header = specimen.bytes.get(..end)?;
    let entry = 16 * rng.between(1, end / 16 - 1);
    let (size, place) = (number_at(header, entry, 8), number_at(header, entry + 8, 8));
    Some(if rng.one_in(2) { place } else { place.wrapping_add(size) })
}

/// Steps between multiples and between elements of all sizes that the format has.
const STEPS: [u64; 14] = [1, 1, 1, 2, 4, 8, 8, 10, 12, 16, 24, 32, 40, 256];

fn edge_of_field(rng: &mut Rng, old: u64, width: usize, length: usize) -> u64 {
    let greatest = u64::MAX >> (64 - 8 * width);
    match rng.below(12) {
        0 => 0,
        1 => rng.below(48) as u64,
        2..4 => old.wrapping_add(rng.pick(&STEPS)),
        4..6 => old.wrapping_sub(rng.pick(&STEPS)),
        6 => greatest - rng.pick(&[0, 0, 1, 7, 15, 23]),
        7 => (length as u64).wrapping_sub(rng.below(24) as u64),
        8 => rng.below(length + 1) as u64,
        9 => old ^ (1 << rng.below(8 * width)),
        10 => old.wrapping_add(1 << rng.pick(&[15, 16, 31, 32, 61, 63])),
        _ => rng.edge(),
    }
}

/// One field gets the value of another of its kind, or the two are swapped: equal starts, ids out of order, a pointer
/// to another's array.
fn copy_field(rng: &mut Rng, specimen: &mut Specimen) -> Option<String> {
    let to = some_field(rng, specimen)?;
    let from = field_of_kind(rng, specimen, to.kind)?;
    let (old, value) = (number_at(&specimen.bytes, to.at, to.width), number_at(&specimen.bytes, from.at, from.width));
    let done = write(specimen, to, value);
    if rng.one_in(2) {
        write(specimen, from, old);
    }
    Some(done)
}

fn flip_bits(rng: &mut Rng, specimen: &mut Specimen) -> Option<String> {
    let length = specimen.bytes.len();
    if length == 0 {
        return None;
    }
    let mut done = "bits flipped in bytes".to_owned();
    for _ in 0..rng.between(1, 3) {
        // half of them in the header
        let part = if rng.one_in(2) { length } else { header_end(specimen.database).min(length) };
        let at = rng.below(part);
        specimen.bytes[at] ^= 1 << rng.below(8);
        done += &format!(" {at}");
    }
    Some(done)
}

/// Puts the footer, or the totals, where the file now ends, in half of the cases.
fn mend_footer(rng: &mut Rng, specimen: &mut Specimen) {
    if rng.one_in(2) {
        return;
    }
    let place = specimen.bytes.len().checked_sub(8);
    if let (Some(place), Some(footer)) = (place, footer(specimen.database)) {
        specimen.bytes[place..].copy_from_slice(footer);
    }
    if let Known::Dcpi(_) = specimen.known {
        dcpi::mend_totals(&mut specimen.bytes);
    }
}

fn cut(rng: &mut Rng, specimen: &mut Specimen) -> Option<String> {
    let length = specimen.bytes.len();
    let shortest = header_end(specimen.database) + 8;
    let kept = match rng.below(4) {
        0 => rng.below(length + 1),
        1 => (shortest + 2).saturating_sub(rng.below(5)).min(length),
        _ => length.saturating_sub(rng.between(1, 40)),
    };
    specimen.bytes.truncate(kept);
    mend_footer(rng, specimen);
    Some(format!("cut to {kept} of {length} bytes"))
}

fn append(rng: &mut Rng, specimen: &mut Specimen) -> Option<String> {
    let count = rng.between(1, 40);
    for _ in 0..count {
        let byte = rng.word() as u8;
        specimen.bytes.push(byte);
    }
    mend_footer(rng, specimen);
    Some(format!("{count} bytes appended"))
}
