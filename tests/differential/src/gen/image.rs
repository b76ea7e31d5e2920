//! The bytes of a file under construction, and the fields of which the rules speak.

use super::rng::Rng;

/// What a field says, as far as the rules make a difference. Damage chooses among the kinds that a file has, then among
/// the fields.
#[derive(Clone, Copy, PartialEq, Eq, Debug)]
pub enum FieldKind {
    Magic,
    MajorVersion,
    MinorVersion,
    Footer,
    SectionSize,
    SectionPlace,
    Stride,
    Count,
    ArrayPlace,
    InnerCount,
    InnerPlace,
    TitlePlace,
    MetricTextPlace,
    TextPlace,
    TextEnd,
    Link,
    FunctionName,
    RootsSize,
    RootsPlace,
    ChildrenSize,
    ChildrenPlace,
    CtxId,
    Flags,
    FlexWords,
    ValueCount,
    ValuesPlace,
    IndexCount,
    IndicesPlace,
    IndexId,
    FirstStart,
    Start,
    ValueId,
    ValueBits,
    TuplePlace,
    TupleCount,
    LineStart,
    LineEnd,
    Timestamp,
    ChunkOffset,
    ChunkNumber,
    SampleCount,
    SampleTotal,
    Other,
}

#[derive(Clone, Copy, Debug)]
pub struct Field {
    pub kind: FieldKind,
    pub at: usize,
    pub width: usize,
    /// the position of the element that has it (metric, module, function, profile, context, line ..), if it is an
    /// element's
    pub element: Option<usize>,
}

/// Of long arrays not every element's fields are remembered.
const FIELDS_KEPT: usize = 2000;

pub struct Image {
    pub bytes: Vec<u8>,
    pub fields: Vec<Field>,
    element: Option<usize>,
}

impl Image {
    /// Bytes that no field is written to are filler: seldom all 0, mostly any bytes but 0.
    pub fn filled(rng: &mut Rng, length: usize) -> Image {
        let mut bytes = vec![0; length];
        if !rng.one_in(4) {
            for chunk in bytes.chunks_mut(8) {
                let any = (rng.word() | 0x0101_0101_0101_0101).to_le_bytes();
                chunk.copy_from_slice(&any[..chunk.len()]);
            }
        }
        Image { bytes, fields: Vec::new(), element: None }
    }

    /// Fields that are put from now on belong to this element.
    pub fn of_element(&mut self, element: Option<usize>) {
        self.element = element;
    }

    pub fn put(&mut self, kind: FieldKind, at: usize, width: usize, value: u64) {
        self.put_bytes(at, &value.to_le_bytes()[..width]);
        self.remember(kind, at, width);
    }

    /// Makes bytes that are there a field.
    pub fn remember(&mut self, kind: FieldKind, at: usize, width: usize) {
        if self.fields.len() < FIELDS_KEPT {
            self.fields.push(Field { kind, at, width, element: self.element });
        }
    }

    pub fn put_bytes(&mut self, at: usize, bytes: &[u8]) {
        self.bytes[at..at + bytes.len()].copy_from_slice(bytes);
    }
}

/// A number of `width` bytes at `at`.
pub fn number_at(bytes: &[u8], at: usize, width: usize) -> u64 {
    let mut word = [0; 8];
    word[..width].copy_from_slice(&bytes[at..at + width]);
    u64::from_le_bytes(word)
}
