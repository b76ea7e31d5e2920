//! Sound profile.db and cct.db files.

use super::image::{FieldKind, Image};
use super::plan::{Piece, Places, Plan, Section};
use super::rng::Rng;
use super::{count, framed, header_end, stride, Specimen};
use crate::question::Database;

/// What differs between the two files: bytes of an index's and of a value's id, and the least value's id.
pub struct Major {
    database: Database,
    index_id: usize,
    value_id: usize,
    least_value_id: u64,
    least_stride: usize,
}

pub const PROFILE_MAJOR: Major =
    Major { database: Database::Profile, index_id: 4, value_id: 2, least_value_id: 0, least_stride: 40 };
pub const CONTEXT_MAJOR: Major =
    Major { database: Database::Cct, index_id: 2, value_id: 4, least_value_id: 1, least_stride: 32 };

pub struct Known {
    /// profiles or contexts
    pub elements: usize,
    /// some values that are there: element, index's id, value's id
    pub values: Vec<[u64; 3]>,
    /// identifications of each profile's tuple
    pub tuples: Vec<usize>,
}

/// Values remembered of each block.
const REMEMBERED: usize = 40;

/// Sub-arrays: their ids, and in each the ids and bits of its values.
pub struct Block {
    pub sub_arrays: Vec<(u64, Vec<(u64, u64)>)>,
}

impl Block {
    fn value_count(&self) -> usize {
        self.sub_arrays.iter().map(|(_, values)| values.len()).sum()
    }

    pub fn some(rng: &mut Rng, major: &Major) -> Block {
        let (indices, values) = if rng.one_in(400) {
            // past 65,535 values
            rng.pick(&[(1, 65_536), (2, 40_000), (40_000, 2), (65_535, 2), (65_536, 1)])
        } else {
            let indices = rng.pick(&[1, 1, 2, 2, 3, 5, 8, 40]);
            (indices, rng.pick(&[1, 2, 3, 6, 20]))
        };
        // the number of indices is a field as wide as their ids
        let indices = indices.min((1 << (8 * major.index_id)) - 1);
        let finite = !rng.one_in(4);
        let sub_array = |rng: &mut Rng, id| {
            let count = if values > 1000 { values } else { rng.between(1, values) };
            let ids = increasing(rng, count, major.least_value_id, major.value_id);
            (id, ids.into_iter().map(|id| (id, bits(rng, finite))).collect())
        };
        let ids = increasing(rng, indices, 0, major.index_id);
        Block { sub_arrays: ids.into_iter().map(|id| sub_array(rng, id)).collect() }
    }
}

/// Strictly increasing ids of `width` bytes from `least` on: dense, with gaps, or up to the greatest there is.
fn increasing(rng: &mut Rng, count: usize, least: u64, width: usize) -> Vec<u64> {
    let limit = 1_u64 << (8 * width);
    let spare = limit - least - count as u64;
    let mut ids: Vec<u64> = match rng.below(4) {
        0 => (0..count as u64).collect(),
        1 => (0..count as u64).map(|k| spare + k).collect(),
        2 => {
            let step = rng.between(1, 5).min((limit - least) as usize / count) as u64;
            (0..count as u64).map(|k| step * k).collect()
        }
        _ => {
            let mut gaps: Vec<u64> = (0..count).map(|_| rng.word() % (spare + 1)).collect();
            gaps.sort_unstable();
            gaps.iter().enumerate().map(|(k, gap)| gap + k as u64).collect()
        }
    };
    ids.iter_mut().for_each(|id| *id += least);
    ids
}

/// The bits of a value: zeros of both signs, small and ordinary numbers, denormals, numbers whose sum overflows; if it
/// need not be finite, infinities and NaNs.
fn bits(rng: &mut Rng, finite: bool) -> u64 {
    let sign = rng.word() & (1 << 63);
    let any = rng.word() >> 12;
    sign | match rng.below(if finite { 8 } else { 10 }) {
        0 => 0,
        1 => any,
        2 => 1,
        3 => f64::MAX.to_bits(),
        4 => (rng.between(0x7f0, 0x7fe) as u64) << 52 | any,
        5 => (rng.between(1, 0x7fe) as u64) << 52 | any,
        6 => (rng.below(4) as f64).to_bits(),
        7 => (rng.between(0x3f0, 0x410) as u64) << 52 | any,
        8 => f64::INFINITY.to_bits(),
        _ => 0x7ff << 52 | any,
    }
}

/// A block's pieces.
#[derive(Clone, Copy)]
struct BlockPieces {
    values: Piece,
    indices: Piece,
}

/// What a profile or a context leads to.
enum Element {
    Empty,
    Block(usize),
}

struct Model<'m> {
    major: &'m Major,
    infos: Section,
    header: Piece,
    array: Option<Piece>,
    stride: usize,
    elements: Vec<Element>,
    blocks: Vec<(Block, BlockPieces)>,
}

impl<'m> Model<'m> {
    fn plan(
        rng: &mut Rng,
        plan: &mut Plan,
        major: &'m Major,
        count: usize,
        mut some_block: impl FnMut(&mut Rng) -> Block,
    ) -> Model<'m> {
        let (infos, header) = plan.section(13);
        let stride = stride(rng, major.least_stride, 1);
        let array = (count > 0).then(|| plan.inside(infos, count * stride, 8));
        let mut blocks = Vec::new();
        let mut elements = Vec::new();
        for _ in 0..count {
            elements.push(match rng.below(6) {
                0 => Element::Empty,
                1 if !blocks.is_empty() => Element::Block(rng.below(blocks.len())),
                _ => {
                    let block = some_block(rng);
                    blocks.push(planned_block(rng, plan, major, block));
                    Element::Block(blocks.len() - 1)
                }
            });
        }
        Model { major, infos, header, array, stride, elements, blocks }
    }

    fn put_infos(&self, rng: &mut Rng, image: &mut Image, places: &Places) {
        let at = places.of(self.header);
        image.put(FieldKind::ArrayPlace, at, 8, self.array.map_or_else(|| rng.edge(), |array| places.of(array) as u64));
        image.put(FieldKind::Count, at + 8, 4, self.elements.len() as u64);
        image.put(FieldKind::Stride, at + 12, 1, self.stride as u64);
        for (k, element) in self.elements.iter().enumerate() {
            image.of_element(Some(k));
            let at = self.place_of(places, k);
            let [values, values_place, indices, indices_place] = match element {
                Element::Empty => [0, rng.edge(), 0, rng.edge()],
                Element::Block(b) => {
                    let (block, pieces) = &self.blocks[*b];
                    let [values_place, indices_place] =
                        [pieces.values, pieces.indices].map(|piece| places.of(piece) as u64);
                    [block.value_count() as u64, values_place, block.sub_arrays.len() as u64, indices_place]
                }
            };
            image.put(FieldKind::ValueCount, at, 8, values);
            image.put(FieldKind::ValuesPlace, at + 8, 8, values_place);
            image.put(FieldKind::IndexCount, at + 16, self.major.index_id, indices);
            image.put(FieldKind::IndicesPlace, at + 24, 8, indices_place);
        }
    }

    fn place_of(&self, places: &Places, element: usize) -> usize {
        self.array.map_or(0, |array| places.of(array)) + element * self.stride
    }

    fn put_blocks(&self, image: &mut Image, places: &Places) {
        for (b, (block, pieces)) in self.blocks.iter().enumerate() {
            let owner = self.elements.iter().position(|element| matches!(element, Element::Block(own) if *own == b));
            image.of_element(owner);
            put_block(image, self.major, block, places.of(pieces.values), places.of(pieces.indices));
        }
        image.of_element(None);
    }

    /// Some values of each element, the first and the last of its block among them.
    fn known_values(&self) -> Vec<[u64; 3]> {
        let mut known = Vec::new();
        for (k, element) in self.elements.iter().enumerate() {
            if let Element::Block(b) = element {
                let block = &self.blocks[*b].0;
                let of_sub_array = |(id, values): &(u64, Vec<(u64, u64)>)| {
                    values.iter().map(|value| [k as u64, *id, value.0]).collect::<Vec<_>>()
                };
                let all: Vec<[u64; 3]> = block.sub_arrays.iter().flat_map(of_sub_array).collect();
                known.extend(all.iter().step_by(1 + all.len() / REMEMBERED));
                known.extend(all.last());
            }
        }
        known
    }
}

fn planned_block(rng: &mut Rng, plan: &mut Plan, major: &Major, block: Block) -> (Block, BlockPieces) {
    let values_size = block.value_count() * (major.value_id + 8);
    let indices_size = block.sub_arrays.len() * (major.index_id + 8);
    let together = rng.one_in(2);
    let (values, indices) = plan.outside_in_order((values_size, 2), (indices_size, 4), together);
    (block, BlockPieces { values, indices })
}

/// Of a large block the fields of a part of its elements are remembered.
fn put_block(image: &mut Image, major: &Major, block: &Block, values_place: usize, indices_place: usize) {
    let step = 1 + block.value_count() / 400;
    let (mut value_at, mut index_at, mut start) = (values_place, indices_place, 0);
    for (k, (id, values)) in block.sub_arrays.iter().enumerate() {
        let kinds = [FieldKind::IndexId, if k == 0 { FieldKind::FirstStart } else { FieldKind::Start }];
        put_element(image, kinds, index_at, major.index_id, [*id, start as u64], k % step == 0);
        index_at += major.index_id + 8;
        for (j, (id, bits)) in values.iter().enumerate() {
            let kinds = [FieldKind::ValueId, FieldKind::ValueBits];
            put_element(image, kinds, value_at, major.value_id, [*id, *bits], (start + j) % step == 0);
            value_at += major.value_id + 8;
        }
        start += values.len();
    }
}

/// An id of `width` bytes and a word behind it.
fn put_element(image: &mut Image, kinds: [FieldKind; 2], at: usize, width: usize, numbers: [u64; 2], remembered: bool) {
    image.put_bytes(at, &numbers[0].to_le_bytes()[..width]);
    image.put_bytes(at + width, &numbers[1].to_le_bytes());
    if remembered {
        image.remember(kinds[0], at, width);
        image.remember(kinds[1], at + width, 8);
    }
}

/// The tuples of profile.db: each profile has one, several may share it.
struct Tuples {
    section: Section,
    tuples: Vec<(Piece, usize)>,
    /// which tuple each profile has
    of_profile: Vec<Option<usize>>,
}

/// How many a tuple has: mostly few.
pub fn identifications(rng: &mut Rng) -> usize {
    if rng.one_in(50) {
        return rng.between(6, 400);
    }
    rng.below(6)
}

impl Tuples {
    fn plan(rng: &mut Rng, plan: &mut Plan, profiles: usize) -> Tuples {
        let section = plan.section_without_header(8);
        let tuple_count = rng.pick(&[0, 1, 2, 3, 4]);
        let mut tuples = Vec::new();
        for _ in 0..tuple_count {
            let ids = identifications(rng);
            tuples.push((plan.inside(section, 8 + 16 * ids, 8), ids));
        }
        let of_profile = (0..profiles).map(|_| (tuple_count > 0).then(|| rng.below(tuple_count))).collect();
        Tuples { section, tuples, of_profile }
    }

    fn put(&self, rng: &mut Rng, image: &mut Image, places: &Places, model: &Model) {
        for (k, tuple) in self.of_profile.iter().enumerate() {
            image.of_element(Some(k));
            let place = tuple.map_or_else(|| rng.edge(), |t| places.of(self.tuples[t].0) as u64);
            image.put(FieldKind::TuplePlace, model.place_of(places, k) + 32, 8, place);
        }
        for (t, (piece, ids)) in self.tuples.iter().enumerate() {
            image.of_element(self.of_profile.iter().position(|tuple| *tuple == Some(t)));
            let at = places.of(*piece);
            image.put(FieldKind::TupleCount, at, 2, *ids as u64);
            for id in (at + 8..).step_by(16).take(*ids) {
                for (offset, width) in [(0, 1), (2, 2), (4, 4), (8, 8)] {
                    image.put(FieldKind::Other, id + offset, width, rng.word());
                }
            }
        }
        image.of_element(None);
    }
}

pub fn specimen(rng: &mut Rng, major: &Major) -> Specimen {
    let count = count(rng);
    specimen_of(rng, major, count, |rng| Block::some(rng, major))
}

/// With so many elements, and such blocks.
pub fn specimen_of(rng: &mut Rng, major: &Major, count: usize, some_block: impl FnMut(&mut Rng) -> Block) -> Specimen {
    let mut plan = Plan::default();
    let model = Model::plan(rng, &mut plan, major, count, some_block);
    let tuples = (major.database == Database::Profile).then(|| Tuples::plan(rng, &mut plan, model.elements.len()));
    let places = plan.place(rng, header_end(major.database));
    let sections: Vec<(usize, usize)> = [Some(model.infos), tuples.as_ref().map(|tuples| tuples.section)]
        .into_iter()
        .flatten()
        .map(|s| places.of_section(s))
        .collect();
    let mut image = framed(rng, major.database, &sections, places.body_end);
    model.put_infos(rng, &mut image, &places);
    if let Some(tuples) = &tuples {
        tuples.put(rng, &mut image, &places, &model);
    }
    model.put_blocks(&mut image, &places);
    let known = Known {
        elements: model.elements.len(),
        values: model.known_values(),
        tuples: tuples.map_or_else(Vec::new, |tuples| {
            tuples.of_profile.iter().map(|tuple| tuple.map_or(0, |t| tuples.tuples[t].1)).collect()
        }),
    };
    Specimen::sound(major.database, image, super::Known::Blocks(known))
}
