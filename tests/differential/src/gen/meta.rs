//! Sound meta.db files.

use super::image::{FieldKind, Image};
use super::plan::{Piece, Places, Plan, Section};
use super::rng::Rng;
use super::text::text;
use super::tree::{grown, needed_words, Node, Tree};
use super::{count, framed, header_end, stride, Specimen};
use crate::question::Database;

pub struct Known {
    pub kinds: usize,
    /// for each metric, for each scope, the number of summaries
    pub metrics: Vec<Vec<usize>>,
    pub modules: usize,
    pub files: usize,
    pub functions: usize,
    pub contexts: usize,
    /// of the contexts, before any damage
    pub ids: Vec<u32>,
    pub greatest_id: u32,
}

/// Strings of one section.
struct Texts(Vec<(Piece, Vec<u8>)>);

impl Texts {
    /// Up to `most` strings, seldom none: then what should lead to one leads anywhere, and the section may be as small
    /// as its header.
    fn plan(rng: &mut Rng, plan: &mut Plan, section: Section, most: usize) -> Texts {
        let count = if rng.one_in(8) { 0 } else { rng.between(1, most) };
        let mut one = || {
            let text = text(rng);
            (plan.inside(section, text.len() + 1, 1), text)
        };
        Texts((0..count).map(|_| one()).collect())
    }

    fn put(&self, image: &mut Image, places: &Places) {
        for (piece, text) in &self.0 {
            let at = places.of(*piece);
            image.put_bytes(at, text);
            image.put(FieldKind::TextEnd, at + text.len(), 1, 0);
        }
    }

    /// The place of one of the strings, or of its tail; no place at all if there are none.
    fn some_place(&self, rng: &mut Rng, places: &Places) -> u64 {
        if self.0.is_empty() {
            return rng.edge();
        }
        let (piece, text) = &self.0[rng.below(self.0.len())];
        let skipped = if rng.one_in(4) { rng.between(0, text.len()) } else { 0 };
        (places.of(*piece) + skipped) as u64
    }
}

/// An array, which is nowhere if it is empty.
struct Elements {
    array: Option<Piece>,
    count: usize,
    stride: usize,
}

impl Elements {
    fn plan(plan: &mut Plan, section: Section, count: usize, stride: usize) -> Elements {
        let array = (count > 0).then(|| plan.inside(section, count * stride, 8));
        Elements { array, count, stride }
    }

    /// An empty array's pointer is wild.
    fn place(&self, rng: &mut Rng, places: &Places) -> u64 {
        self.array.map_or_else(|| rng.edge(), |array| places.of(array) as u64)
    }

    fn element(&self, places: &Places, i: usize) -> usize {
        self.array.map_or(0, |array| places.of(array)) + i * self.stride
    }

    fn some_element(&self, rng: &mut Rng, places: &Places) -> u64 {
        let i = rng.below(self.count);
        self.element(places, i) as u64
    }
}

/// A section with one array that is like the array of modules: modules, files, functions.
struct Listed {
    section: Section,
    header: Piece,
    elements: Elements,
}

impl Listed {
    fn plan(rng: &mut Rng, plan: &mut Plan, least_stride: usize) -> Listed {
        let (section, header) = plan.section(14);
        let stride = stride(rng, least_stride, 2);
        let count = if stride > 1000 { rng.between(0, 2) } else { count(rng) };
        Listed { section, header, elements: Elements::plan(plan, section, count, stride) }
    }

    fn put_header(&self, rng: &mut Rng, image: &mut Image, places: &Places) {
        let at = places.of(self.header);
        image.put(FieldKind::ArrayPlace, at, 8, self.elements.place(rng, places));
        image.put(FieldKind::Count, at + 8, 4, self.elements.count as u64);
        image.put(FieldKind::Stride, at + 12, 2, self.elements.stride as u64);
    }
}

/// The Metrics section: metrics lead to scopes, scopes to summaries.
struct Metrics {
    section: Section,
    header: Piece,
    texts: Texts,
    strides: [usize; 3],
    metrics: Elements,
    scopes: Vec<(Elements, Vec<Elements>)>,
}

impl Metrics {
    fn plan(rng: &mut Rng, plan: &mut Plan) -> Metrics {
        let (section, header) = plan.section(15);
        let strides = [stride(rng, 24, 1), stride(rng, 24, 1), stride(rng, 16, 1)];
        let count = count(rng);
        let metrics = Elements::plan(plan, section, count, strides[0]);
        let mut scopes = Vec::new();
        for _ in 0..count {
            let scope_count = rng.pick(&[0, 1, 1, 2, 3]);
            let array = Elements::plan(plan, section, scope_count, strides[1]);
            let mut summaries = Vec::new();
            for _ in 0..scope_count {
                summaries.push(Elements::plan(plan, section, rng.pick(&[0, 1, 2, 2, 4]), strides[2]));
            }
            scopes.push((array, summaries));
        }
        let texts = Texts::plan(rng, plan, section, 4);
        Metrics { section, header, texts, strides, metrics, scopes }
    }

    fn put(&self, rng: &mut Rng, image: &mut Image, places: &Places) {
        let at = places.of(self.header);
        image.put(FieldKind::ArrayPlace, at, 8, self.metrics.place(rng, places));
        image.put(FieldKind::Count, at + 8, 4, self.metrics.count as u64);
        for (k, stride) in self.strides.iter().enumerate() {
            image.put(FieldKind::Stride, at + 12 + k, 1, *stride as u64);
        }
        self.texts.put(image, places);
        for (i, (scopes, summaries)) in self.scopes.iter().enumerate() {
            image.of_element(Some(i));
            self.put_outer(rng, image, places, self.metrics.element(places, i), scopes);
            for (j, summaries) in summaries.iter().enumerate() {
                let scope = scopes.element(places, j);
                self.put_outer(rng, image, places, scope, summaries);
                image.put(FieldKind::Other, scope + 10, 2, rng.word());
                for k in 0..summaries.count {
                    let summary = summaries.element(places, k);
                    image.put(FieldKind::MetricTextPlace, summary, 8, self.texts.some_place(rng, places));
                    image.put(FieldKind::Other, summary + 8, 1, rng.word());
                    image.put(FieldKind::Other, summary + 10, 2, rng.word());
                }
            }
        }
        image.of_element(None);
    }

    /// What a metric and a scope have in common: name, and count and place of the array below.
    fn put_outer(&self, rng: &mut Rng, image: &mut Image, places: &Places, at: usize, below: &Elements) {
        image.put(FieldKind::MetricTextPlace, at, 8, self.texts.some_place(rng, places));
        image.put(FieldKind::InnerCount, at + 8, 2, below.count as u64);
        image.put(FieldKind::InnerPlace, at + 16, 8, below.place(rng, places));
    }
}

/// The Context section: an array for each group of siblings.
struct Contexts {
    section: Section,
    header: Piece,
    tree: Tree,
    arrays: Vec<Piece>,
    nested: Option<Nested>,
}

/// One more context, which lies in words of another one's flex that no field needs, and is the only child of a third or
/// of that other: its array overlaps with the one around it.
struct Nested {
    around: usize,
    parent: usize,
    ctx_id: u32,
}

/// Words of a context without flex.
const NESTED_WORDS: usize = 3;

impl Nested {
    fn some(rng: &mut Rng, tree: &Tree) -> Option<Nested> {
        let of_tree = |fits: &dyn Fn(&Node) -> bool| -> Vec<usize> {
            (0..tree.nodes.len()).filter(|node| fits(&tree.nodes[*node])).collect()
        };
        let around = of_tree(&|node| node.flex_words >= needed_words(node.flags) + NESTED_WORDS);
        let parents = of_tree(&|node| node.children.is_none());
        Some(Nested { around: rng.pick_any(&around)?, parent: rng.pick_any(&parents)?, ctx_id: tree.greatest_id() + 1 })
    }
}

impl Contexts {
    fn plan(rng: &mut Rng, plan: &mut Plan, linkable: u8) -> Contexts {
        let (section, header) = plan.section(16);
        let tree = grown(rng, linkable);
        let arrays = (0..tree.arrays.len()).map(|k| plan.inside(section, tree.size_of(k), 8)).collect();
        let nested = if rng.one_in(2) { Nested::some(rng, &tree) } else { None };
        Contexts { section, header, tree, arrays, nested }
    }

    fn ids(&self) -> Vec<u32> {
        let nested = self.nested.iter().map(|nested| nested.ctx_id);
        self.tree.nodes.iter().map(|node| node.ctx_id).chain(nested).collect()
    }

    /// In the last words of the flex around it.
    fn put_nested(&self, image: &mut Image, node_places: &[usize], nested: &Nested) {
        let words = self.tree.nodes[nested.around].flex_words - NESTED_WORDS;
        let (at, parent) = (node_places[nested.around] + 24 + 8 * words, node_places[nested.parent]);
        image.put_bytes(at, &[0; 24]);
        image.put(FieldKind::CtxId, at + 16, 4, nested.ctx_id.into());
        image.put(FieldKind::ChildrenSize, parent, 8, 24);
        image.put(FieldKind::ChildrenPlace, parent + 8, 8, at as u64);
    }

    /// Place and size of an array; both 0 if there is none.
    fn range(&self, places: &Places, array: Option<usize>) -> (u64, u64) {
        array.map_or((0, 0), |array| (places.of(self.arrays[array]) as u64, self.tree.size_of(array) as u64))
    }

    fn put(&self, rng: &mut Rng, image: &mut Image, places: &Places, links: &Links) {
        let (place, size) = self.range(places, (!self.arrays.is_empty()).then_some(0));
        let at = places.of(self.header);
        image.put(FieldKind::RootsSize, at, 8, size);
        image.put(FieldKind::RootsPlace, at + 8, 8, place);
        let mut node_places = vec![0; self.tree.nodes.len()];
        for (siblings, piece) in self.tree.arrays.iter().zip(&self.arrays) {
            let mut at = places.of(*piece);
            for k in &siblings.nodes {
                node_places[*k] = at;
                self.put_node(rng, image, places, links, *k, at);
                at += 24 + 8 * self.tree.nodes[*k].flex_words;
            }
        }
        if let Some(nested) = &self.nested {
            self.put_nested(image, &node_places, nested);
        }
        if self.tree.nodes.len() > 1 && rng.one_in(5) {
            self.entangle(rng, image, places, &node_places);
        }
        let too_deep = self.tree.nodes.iter().position(|node| node.depth == FIRST_TOO_DEEP);
        if let Some(node) = too_deep.filter(|_| rng.one_in(2)) {
            spoil(rng, image, node_places[node], self.tree.nodes[0].ctx_id);
        }
    }

    fn put_node(&self, rng: &mut Rng, image: &mut Image, places: &Places, links: &Links, k: usize, at: usize) {
        let node = &self.tree.nodes[k];
        let (place, size) = self.range(places, node.children);
        image.put(FieldKind::ChildrenSize, at, 8, size);
        image.put(FieldKind::ChildrenPlace, at + 8, 8, place);
        image.put(FieldKind::CtxId, at + 16, 4, node.ctx_id.into());
        image.put(FieldKind::Flags, at + 20, 1, node.flags.into());
        image.put(FieldKind::Other, at + 21, 1, rng.word() % 4);
        image.put(FieldKind::Other, at + 22, 1, rng.word() % 5);
        image.put(FieldKind::FlexWords, at + 23, 1, node.flex_words as u64);
        let mut word = at + 24;
        for (bit, linked) in [(1, &links.functions), (2, &links.files), (4, &links.modules)] {
            if node.flags & bit != 0 {
                image.put(FieldKind::Link, word, 8, linked.elements.some_element(rng, places));
                // behind a file the line, of which the upper half belongs to nothing; behind a module the offset
                word += if bit == 1 { 8 } else { 16 };
            }
        }
        debug_assert_eq!(word, at + 24 + 8 * needed_words(node.flags));
    }

    /// Leads a context to an array further up (a loop), to any other one, or to the later part of one; or gives it
    /// another's identifier.
    fn entangle(&self, rng: &mut Rng, image: &mut Image, places: &Places, node_places: &[usize]) {
        let node = rng.below(node_places.len());
        let other = rng.below(node_places.len());
        if rng.one_in(4) {
            image.put(FieldKind::CtxId, node_places[node] + 16, 4, self.tree.nodes[other].ctx_id.into());
            return;
        }
        let array = if rng.one_in(3) { self.tree.nodes[other].array } else { self.tree.array_above(rng, node) };
        let (place, size) = self.range(places, Some(array));
        let first = rng.pick(&self.tree.arrays[array].nodes);
        let start = if rng.one_in(3) { node_places[first] as u64 } else { place };
        image.put(FieldKind::ChildrenSize, node_places[node], 8, place + size - start);
        image.put(FieldKind::ChildrenPlace, node_places[node] + 8, 8, start);
    }
}

const FIRST_TOO_DEEP: usize = 201;

/// A fault in a context that is refused for its depth too: one of those that are found before the depth, or of those
/// that come behind it.
fn spoil(rng: &mut Rng, image: &mut Image, at: usize, id_of_root: u32) {
    match rng.below(5) {
        0 => image.put(FieldKind::FlexWords, at + 23, 1, 255),
        1 => {
            image.put(FieldKind::Flags, at + 20, 1, 1);
            image.put(FieldKind::FlexWords, at + 23, 1, 0);
        }
        2 => image.put(FieldKind::ChildrenPlace, at + 8, 8, rng.edge()),
        3 => image.put(FieldKind::CtxId, at + 16, 4, u64::MAX),
        _ => image.put(FieldKind::CtxId, at + 16, 4, id_of_root.into()),
    }
}

/// What contexts and functions link to, and the strings of it all.
struct Links {
    modules: Listed,
    files: Listed,
    functions: Listed,
    strings_section: Section,
    strings: Texts,
}

impl Links {
    fn plan(rng: &mut Rng, plan: &mut Plan) -> Links {
        let strings_section = plan.section_without_header(1);
        Links {
            modules: Listed::plan(rng, plan, 16),
            files: Listed::plan(rng, plan, 16),
            functions: Listed::plan(rng, plan, 40),
            strings_section,
            strings: Texts::plan(rng, plan, strings_section, 5),
        }
    }

    /// The bits of a context's flags for which there is something to link to.
    fn linkable(&self) -> u8 {
        let bit = |listed: &Listed, bit| if listed.elements.count > 0 { bit } else { 0 };
        bit(&self.functions, 1) | bit(&self.files, 2) | bit(&self.modules, 4)
    }

    fn put(&self, rng: &mut Rng, image: &mut Image, places: &Places) {
        for listed in [&self.modules, &self.files, &self.functions] {
            listed.put_header(rng, image, places);
        }
        self.strings.put(image, places);
        for listed in [&self.modules, &self.files] {
            for i in 0..listed.elements.count {
                image.of_element(Some(i));
                let at = listed.elements.element(places, i);
                image.put(FieldKind::Other, at, 4, rng.word());
                image.put(FieldKind::TextPlace, at + 8, 8, self.strings.some_place(rng, places));
            }
        }
        for i in 0..self.functions.elements.count {
            image.of_element(Some(i));
            self.put_function(rng, image, places, self.functions.elements.element(places, i));
        }
        image.of_element(None);
    }

    /// Of name, module and file some are 0. That none is there is damage, unless there is nothing to link to.
    fn put_function(&self, rng: &mut Rng, image: &mut Image, places: &Places, at: usize) {
        let there = rng.between(1, 7);
        let mut link = |bit: usize, listed: &Listed| {
            let has = there & bit != 0 && listed.elements.count > 0;
            if has {
                listed.elements.some_element(rng, places)
            } else {
                0
            }
        };
        let (module, file) = (link(2, &self.modules), link(4, &self.files));
        let name = if there & 1 != 0 || (module == 0 && file == 0) { self.strings.some_place(rng, places) } else { 0 };
        image.put(FieldKind::FunctionName, at, 8, name);
        image.put(FieldKind::Link, at + 8, 8, module);
        image.put(FieldKind::Other, at + 16, 8, rng.word());
        image.put(FieldKind::Link, at + 24, 8, file);
        image.put(FieldKind::Other, at + 32, 4, rng.word());
    }
}

/// The General section: title and description.
struct General {
    section: Section,
    header: Piece,
    texts: Texts,
}

impl General {
    fn plan(rng: &mut Rng, plan: &mut Plan) -> General {
        let (section, header) = plan.section(16);
        General { section, header, texts: Texts::plan(rng, plan, section, 2) }
    }

    fn put(&self, rng: &mut Rng, image: &mut Image, places: &Places) {
        self.texts.put(image, places);
        for offset in [0, 8] {
            image.put(FieldKind::TitlePlace, places.of(self.header) + offset, 8, self.texts.some_place(rng, places));
        }
    }
}

/// The IdNames section.
struct IdNames {
    section: Section,
    header: Piece,
    kinds: Elements,
    texts: Texts,
}

impl IdNames {
    fn plan(rng: &mut Rng, plan: &mut Plan) -> IdNames {
        let (section, header) = plan.section(9);
        let count = if rng.one_in(150) { 255 } else { rng.below(6) };
        let kinds = Elements::plan(plan, section, count, 8);
        IdNames { section, header, kinds, texts: Texts::plan(rng, plan, section, 3) }
    }

    fn put(&self, rng: &mut Rng, image: &mut Image, places: &Places) {
        let at = places.of(self.header);
        image.put(FieldKind::ArrayPlace, at, 8, self.kinds.place(rng, places));
        image.put(FieldKind::Count, at + 8, 1, self.kinds.count as u64);
        self.texts.put(image, places);
        for i in 0..self.kinds.count {
            image.of_element(Some(i));
            image.put(FieldKind::TextPlace, self.kinds.element(places, i), 8, self.texts.some_place(rng, places));
        }
        image.of_element(None);
    }
}

pub fn specimen(rng: &mut Rng) -> Specimen {
    let mut plan = Plan::default();
    let general = General::plan(rng, &mut plan);
    let id_names = IdNames::plan(rng, &mut plan);
    let metrics = Metrics::plan(rng, &mut plan);
    let links = Links::plan(rng, &mut plan);
    let contexts = Contexts::plan(rng, &mut plan, links.linkable());
    let places = plan.place(rng, header_end(Database::Meta));
    let listed = [&links.modules, &links.files, &links.functions].map(|listed| listed.section);
    let sections = [general.section, id_names.section, metrics.section, contexts.section, links.strings_section];
    let mut sections: Vec<(usize, usize)> =
        sections.into_iter().chain(listed).map(|section| places.of_section(section)).collect();
    if rng.one_in(12) {
        // one section read as two: files have the form of modules
        sections[6] = sections[5];
    }
    let mut image = framed(rng, Database::Meta, &sections, places.body_end);
    general.put(rng, &mut image, &places);
    id_names.put(rng, &mut image, &places);
    metrics.put(rng, &mut image, &places);
    links.put(rng, &mut image, &places);
    contexts.put(rng, &mut image, &places, &links);
    let ids = contexts.ids();
    let known = Known {
        kinds: id_names.kinds.count,
        metrics: metrics
            .scopes
            .iter()
            .map(|(_, summaries)| summaries.iter().map(|array| array.count).collect())
            .collect(),
        modules: links.modules.elements.count,
        files: links.files.elements.count,
        functions: links.functions.elements.count,
        contexts: ids.len(),
        greatest_id: ids.iter().max().copied().unwrap_or_default(),
        ids,
    };
    Specimen::sound(Database::Meta, image, super::Known::Meta(known))
}
