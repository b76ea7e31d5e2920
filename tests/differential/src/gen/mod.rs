//! Files, lists and samples to compare over: sound ones of every shape, and damaged ones.

mod blocks;
mod damage;
mod dcpi;
mod hot;
mod image;
pub mod large;
mod lists;
mod marks;
mod meta;
mod plan;
mod questions;
mod rng;
mod text;
mod trace;
mod tree;

pub use questions::{follow_ups, parts, questions};
pub use rng::Rng;

use crate::question::Database;
use crate::{reader, writer};
use image::{Field, FieldKind, Image};

/// A generated file or section, or lists to write a file from, and what is known of it, so that questions can be about
/// what is there.
pub struct Specimen {
    pub database: Database,
    /// the file, the section, or the entries
    pub bytes: Vec<u8>,
    pub known: Known,
    /// what was done to a sound one
    pub damage: Vec<String>,
    /// the position of an element that was damaged
    focus: Option<usize>,
    fields: Vec<Field>,
}

pub enum Known {
    Meta(meta::Known),
    Blocks(blocks::Known),
    Trace(trace::Known),
    Lists(lists::Known),
    Dcpi(dcpi::Known),
}

/// A file of any kind, lists or samples; seven in ten damaged.
pub fn specimen(rng: &mut Rng) -> Specimen {
    let mut specimen = match rng.below(46) {
        0..16 => meta::specimen(rng),
        16..24 => blocks::specimen(rng, &blocks::PROFILE_MAJOR),
        24..32 => blocks::specimen(rng, &blocks::CONTEXT_MAJOR),
        32..40 => trace::specimen(rng),
        40..42 => lists::specimen(rng),
        _ => dcpi::specimen(rng),
    };
    let times = rng.pick(&[0, 0, 0, 1, 1, 1, 1, 1, 2, 3]);
    for _ in 0..times {
        damage::damage(rng, &mut specimen);
    }
    specimen
}

impl Specimen {
    fn sound(database: Database, image: Image, known: Known) -> Specimen {
        Specimen { database, bytes: image.bytes, known, damage: Vec::new(), focus: None, fields: image.fields }
    }

    /// Whether the reader opens it, or the writer takes it.
    pub fn is_sound(&self) -> bool {
        if let Known::Lists(known) = &self.known {
            return writer::length(&known.survey.lists(&self.bytes)).is_ok();
        }
        match self.database {
            Database::Meta => reader::meta::counts(&self.bytes).is_ok(),
            Database::Profile => reader::profile::count(&self.bytes).is_ok(),
            Database::Cct => reader::cct::count(&self.bytes).is_ok(),
            Database::Trace => reader::trace::count(&self.bytes).is_ok(),
            Database::Dcpi => reader::dcpi::totals(&self.bytes).is_ok(),
        }
    }
}

const fn magic(database: Database) -> &'static [u8; 14] {
    match database {
        Database::Meta => b"HPCTOOLKITmeta",
        Database::Profile => b"HPCTOOLKITprof",
        Database::Cct => b"HPCTOOLKITctxt",
        Database::Trace => b"HPCTOOLKITtrce",
        Database::Dcpi => panic!("samples begin with a chunk"),
    }
}

/// In trace.db any eight bytes will do; samples end with totals.
const fn footer(database: Database) -> Option<&'static [u8; 8]> {
    match database {
        Database::Meta => Some(b"_meta.db"),
        Database::Profile => Some(b"_prof.db"),
        Database::Cct => Some(b"__ctx.db"),
        Database::Trace | Database::Dcpi => None,
    }
}

const fn header_end(database: Database) -> usize {
    match database {
        Database::Meta => 144,
        Database::Profile => 48,
        Database::Cct | Database::Trace => 32,
        Database::Dcpi => 0,
    }
}

/// Filler from the header to the footer, with header and footer written. Sections are places and sizes; one of size 0
/// has a wild pointer.
fn framed(rng: &mut Rng, database: Database, sections: &[(usize, usize)], body_end: usize) -> Image {
    let mut image = Image::filled(rng, body_end + 8);
    image.put_bytes(0, magic(database));
    image.remember(FieldKind::Magic, rng.below(14), 1);
    image.put(FieldKind::MajorVersion, 14, 1, 4);
    image.put(FieldKind::MinorVersion, 15, 1, rng.pick(&[0, 0, 0, 1, 200, 255]));
    for (k, (place, size)) in sections.iter().enumerate() {
        let place = if *size == 0 { rng.edge() } else { *place as u64 };
        image.put(FieldKind::SectionSize, 16 + 16 * k, 8, *size as u64);
        image.put(FieldKind::SectionPlace, 24 + 16 * k, 8, place);
    }
    if let Some(footer) = footer(database) {
        image.put_bytes(body_end, footer);
        image.remember(FieldKind::Footer, body_end + rng.below(8), 1);
    }
    image
}

/// How many elements an array has: mostly few.
fn count(rng: &mut Rng) -> usize {
    if rng.one_in(80) {
        return rng.between(10, 300);
    }
    rng.pick(&[0, 1, 1, 2, 2, 3, 3, 4, 5])
}

/// A stride of at least `least`, in a field of `width` bytes: mostly the least itself, seldom the greatest possible.
fn stride(rng: &mut Rng, least: usize, width: usize) -> usize {
    let steps = match rng.below(12) {
        0..6 => 0,
        6..9 => rng.between(1, 4),
        9 => rng.below((256 - least) / 8),
        10 => (255 - least) / 8,
        _ if width == 2 && rng.one_in(40) => (65535 - least) / 8,
        _ => 1,
    };
    least + 8 * steps
}
