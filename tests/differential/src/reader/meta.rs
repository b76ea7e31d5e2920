//! meta.db, all but its contexts (those are in `walk`).

use super::bytes::{u16_at, u32_at, u64_at, u8_at, Span};
use super::opening::{sections, stride, Array, Format, SectionRule};
use super::text::{text, Text};
use super::Refusal;

const FORMAT: Format = Format { magic: *b"HPCTOOLKITmeta", footer: Some(*b"_meta.db"), header_end: 144 };

const GENERAL: usize = 0;
const ID_NAMES: usize = 1;
const METRICS: usize = 2;
const CONTEXT: usize = 3;
const STRINGS: usize = 4;
const MODULES: usize = 5;
const FILES: usize = 6;
const FUNCTIONS: usize = 7;

/// Size of each section's header: its least size. Strings has none.
const HEADER_SIZE: [usize; 8] = [16, 9, 15, 16, 0, 14, 14, 14];

const SECTION_RULES: [SectionRule; 8] = {
    let mut rules = [SectionRule { least_size: 0, alignment: 8 }; 8];
    let mut k = 0;
    while k < rules.len() {
        rules[k].least_size = HEADER_SIZE[k] as u64;
        k += 1;
    }
    rules[STRINGS].alignment = 1;
    rules
};

/// An opened meta.db.
pub struct Meta<'a> {
    pub(super) file: &'a [u8],
    sections: [Span; 8],
    id_names: Array,
    metrics: Array,
    scope_stride: u64,
    summary_stride: u64,
    pub(super) roots: Span,
    pub(super) modules: Array,
    pub(super) files: Array,
    pub(super) functions: Array,
}

impl<'a> Meta<'a> {
    pub fn open(file: &'a [u8]) -> Result<Meta<'a>, Refusal> {
        let body = FORMAT.body(file)?;
        let sections = sections(file, body, &SECTION_RULES)?;
        let id_names = id_names_array(file, sections[ID_NAMES])?;
        let metrics_header = sections[METRICS].start;
        let metric_stride = stride(u8_at(file, metrics_header + 0x0c).into(), 24)?;
        let scope_stride = stride(u8_at(file, metrics_header + 0x0d).into(), 24)?;
        let summary_stride = stride(u8_at(file, metrics_header + 0x0e).into(), 16)?;
        let metrics = Array::read(
            sections[METRICS],
            HEADER_SIZE[METRICS],
            u64_at(file, metrics_header),
            u32_at(file, metrics_header + 8),
            metric_stride,
        )?;
        Ok(Meta {
            file,
            sections,
            id_names,
            metrics,
            scope_stride,
            summary_stride,
            roots: roots(file, sections[CONTEXT])?,
            modules: common_array(file, sections[MODULES], 16)?,
            files: common_array(file, sections[FILES], 16)?,
            functions: common_array(file, sections[FUNCTIONS], 40)?,
        })
    }

    fn text(&self, section: usize, place: u64) -> Result<Text, Refusal> {
        text(self.file, self.sections[section], place)
    }

    /// The part of the Context section in which roots and children lie.
    pub(super) fn context_room(&self) -> Span {
        context_room(self.sections[CONTEXT])
    }

    /// The array that a metric or a scope leads to: count at 08, pointer at 10 in both.
    fn inner_array(&self, outer_element: usize, stride: u64) -> Result<Array, Refusal> {
        let place = u64_at(self.file, outer_element + 0x10);
        let count = u16_at(self.file, outer_element + 8);
        Array::read(self.sections[METRICS], HEADER_SIZE[METRICS], place, count.into(), stride)
    }

    /// Metric `i` and the array of its scopes.
    fn metric_place(&self, i: u64) -> Result<(usize, Array), Refusal> {
        let metric = self.metrics.element(i)?;
        Ok((metric, self.inner_array(metric, self.scope_stride)?))
    }

    /// Scope `j` of metric `i` and the array of its summaries.
    fn scope_place(&self, i: u64, j: u64) -> Result<(usize, Array), Refusal> {
        let (_, scopes) = self.metric_place(i)?;
        let scope = scopes.element(j)?;
        Ok((scope, self.inner_array(scope, self.summary_stride)?))
    }
}

fn id_names_array(file: &[u8], section: Span) -> Result<Array, Refusal> {
    let place = u64_at(file, section.start);
    let count = u8_at(file, section.start + 8);
    Array::read(section, HEADER_SIZE[ID_NAMES], place, count.into(), 8)
}

/// Modules, Files and Functions have the same header: pointer, count, stride.
fn common_array(file: &[u8], section: Span, least_stride: u64) -> Result<Array, Refusal> {
    let stride = stride(u16_at(file, section.start + 0x0c).into(), least_stride)?;
    Array::read(section, HEADER_SIZE[MODULES], u64_at(file, section.start), u32_at(file, section.start + 8), stride)
}

fn context_room(section: Span) -> Span {
    Span { start: section.start + HEADER_SIZE[CONTEXT], end: section.end }
}

fn roots(file: &[u8], section: Span) -> Result<Span, Refusal> {
    let size = u64_at(file, section.start);
    let place = u64_at(file, section.start + 8);
    context_array(context_room(section), place, size).ok_or(Refusal::Array)
}

/// Roots or children: place and size both 0, or a range in the Context section behind its header.
#[inline]
pub(super) fn context_array(room: Span, place: u64, size: u64) -> Option<Span> {
    if place == 0 && size == 0 {
        return Some(Span::default());
    }
    if place == 0 || size == 0 || !place.is_multiple_of(8) {
        return None;
    }
    room.part(place, size)
}

/// Place and size of each section in header order; an ignored place is 0.
pub fn sections_of(file: &[u8]) -> Result<[Span; 8], Refusal> {
    Ok(Meta::open(file)?.sections)
}

/// How many identifier kinds, metrics, modules, files and functions there are.
pub fn counts(file: &[u8]) -> Result<[u64; 5], Refusal> {
    let meta = Meta::open(file)?;
    Ok([meta.id_names, meta.metrics, meta.modules, meta.files, meta.functions].map(|array| array.count()))
}

pub fn title(file: &[u8]) -> Result<Text, Refusal> {
    let meta = Meta::open(file)?;
    meta.text(GENERAL, u64_at(file, meta.sections[GENERAL].start))
}

pub fn description(file: &[u8]) -> Result<Text, Refusal> {
    let meta = Meta::open(file)?;
    meta.text(GENERAL, u64_at(file, meta.sections[GENERAL].start + 8))
}

pub fn id_name(file: &[u8], kind: u64) -> Result<Text, Refusal> {
    let meta = Meta::open(file)?;
    let name = meta.id_names.element(kind)?;
    meta.text(ID_NAMES, u64_at(file, name))
}

pub struct Metric {
    pub name: Text,
    pub scopes: u64,
}

pub fn metric(file: &[u8], i: u64) -> Result<Metric, Refusal> {
    let meta = Meta::open(file)?;
    let (metric, scopes) = meta.metric_place(i)?;
    Ok(Metric { name: meta.text(METRICS, u64_at(file, metric))?, scopes: scopes.count() })
}

pub struct Scope {
    pub name: Text,
    pub summaries: u64,
    pub prop_metric_id: u16,
}

pub fn scope(file: &[u8], i: u64, j: u64) -> Result<Scope, Refusal> {
    let meta = Meta::open(file)?;
    let (scope, summaries) = meta.scope_place(i, j)?;
    Ok(Scope {
        name: meta.text(METRICS, u64_at(file, scope))?,
        summaries: summaries.count(),
        prop_metric_id: u16_at(file, scope + 0x0a),
    })
}

pub struct Summary {
    pub formula: Text,
    pub combine: u8,
    pub stat_metric_id: u16,
}

pub fn summary(file: &[u8], i: u64, j: u64, k: u64) -> Result<Summary, Refusal> {
    let meta = Meta::open(file)?;
    let (_, summaries) = meta.scope_place(i, j)?;
    let summary = summaries.element(k)?;
    Ok(Summary {
        formula: meta.text(METRICS, u64_at(file, summary))?,
        combine: u8_at(file, summary + 8),
        stat_metric_id: u16_at(file, summary + 0x0a),
    })
}

/// The path of module `i`.
pub fn module(file: &[u8], i: u64) -> Result<Text, Refusal> {
    let meta = Meta::open(file)?;
    let module = meta.modules.element(i)?;
    meta.text(STRINGS, u64_at(file, module + 8))
}

pub struct SourceFile {
    pub path: Text,
    pub copied: bool,
}

pub fn source_file(file: &[u8], i: u64) -> Result<SourceFile, Refusal> {
    let meta = Meta::open(file)?;
    let source = meta.files.element(i)?;
    Ok(SourceFile { path: meta.text(STRINGS, u64_at(file, source + 8))?, copied: u32_at(file, source) & 1 == 1 })
}

pub struct Function {
    /// None where `pName` is 0: the caller's placeholder stands for the name.
    pub name: Option<Text>,
    pub module: u64,
    pub offset: u64,
    pub file: u64,
    pub line: u32,
}

/// The links are checked before the name.
pub fn function(file: &[u8], i: u64) -> Result<Function, Refusal> {
    let meta = Meta::open(file)?;
    let at = meta.functions.element(i)?;
    let [name, module, offset, source] = [0, 8, 0x10, 0x18].map(|field| u64_at(file, at + field));
    if name == 0 && module == 0 && source == 0 {
        return Err(Refusal::Link);
    }
    let kept = |array: &Array, link| link == 0 || array.has_element_at(link);
    if !kept(&meta.modules, module) || !kept(&meta.files, source) {
        return Err(Refusal::Link);
    }
    let name = if name == 0 { None } else { Some(meta.text(STRINGS, name)?) };
    Ok(Function { name, module, offset, file: source, line: u32_at(file, at + 0x20) })
}
