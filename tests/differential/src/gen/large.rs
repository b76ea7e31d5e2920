//! Large sound files, lists and samples: nothing is left to chance but the order of flags and which counts are 0.

use super::rng::Rng;
use super::tree::needed_words;
use super::{footer, header_end, magic};
use crate::question::{Database, Survey};

/// A file that grows at its end; the header is written last.
struct Growing {
    database: Database,
    bytes: Vec<u8>,
    sections: Vec<(usize, usize)>,
}

impl Growing {
    fn new(database: Database) -> Growing {
        Growing { database, bytes: vec![0; header_end(database)], sections: Vec::new() }
    }

    /// The place of what is appended next, at a multiple of 8.
    fn here(&mut self) -> usize {
        self.bytes.resize(self.bytes.len().next_multiple_of(8), 0);
        self.bytes.len()
    }

    fn append(&mut self, width: usize, value: u64) {
        self.bytes.extend_from_slice(&value.to_le_bytes()[..width]);
    }

    fn overwrite(&mut self, at: usize, value: u64) {
        self.bytes[at..at + 8].copy_from_slice(&value.to_le_bytes());
    }

    /// A section from `start` to here, the next in header order.
    fn end_section(&mut self, start: usize) {
        self.sections.push((start, self.bytes.len() - start));
    }

    /// A section with one array behind a header of pointer, count and strides; gives the place of the array.
    fn array_section(
        &mut self,
        count: usize,
        strides: &[(usize, u64)],
        elements: impl Fn(&mut Growing, usize),
    ) -> usize {
        let start = self.here();
        let array = start + 16;
        self.append(8, array as u64);
        self.append(4, count as u64);
        for (width, stride) in strides {
            self.append(*width, *stride);
        }
        self.here();
        for i in 0..count {
            elements(self, i);
        }
        self.end_section(start);
        array
    }

    /// A header of zeros: no title, no kinds, no contexts.
    fn empty_section(&mut self) {
        let start = self.here();
        self.append(8, 0);
        self.append(8, 0);
        self.end_section(start);
    }

    fn finished(mut self) -> Vec<u8> {
        self.bytes[..14].copy_from_slice(magic(self.database));
        self.bytes[14] = 4;
        for (k, (place, size)) in std::mem::take(&mut self.sections).into_iter().enumerate() {
            self.overwrite(16 + 16 * k, size as u64);
            self.overwrite(24 + 16 * k, place as u64);
        }
        self.bytes.extend_from_slice(footer(self.database).unwrap_or(b"trace.db"));
        self.bytes
    }
}

pub const MODULES: usize = 20;
const FILES: usize = 100;
pub const FUNCTIONS: usize = 1000;
pub const METRICS: usize = 50;

/// Flags of contexts as they are found in practice: functions, lines and instructions, seldom more or nothing.
const FLAGS: [u8; 20] = [1, 1, 1, 1, 1, 1, 2, 2, 2, 2, 2, 2, 2, 2, 4, 4, 4, 4, 3, 0];

/// A meta.db with so many contexts, whose arrays have `least_siblings` to `most_siblings` contexts. Identifiers count
/// from 0 in the order in which the contexts lie.
pub fn meta(contexts: usize, least_siblings: usize, most_siblings: usize) -> Vec<u8> {
    let mut file = Growing::new(Database::Meta);
    let general = file.here();
    file.append(8, general as u64 + 16);
    file.append(8, general as u64 + 16);
    file.bytes.extend_from_slice(b"a survey\0");
    file.end_section(general);
    file.array_section(0, &[], |_, _| {});
    metrics(&mut file);

    let strings = file.here();
    file.bytes.extend_from_slice(b"some/path/to/what/is/named\0");
    file.end_section(strings);
    let path = strings as u64;
    let element = |file: &mut Growing, _| [0, path].iter().for_each(|word| file.append(8, *word));
    let modules = file.array_section(MODULES, &[(2, 16)], element);
    let files = file.array_section(FILES, &[(2, 16)], element);
    let functions = file.array_section(FUNCTIONS, &[(2, 40)], |file, i| {
        let (module, source) = (modules + 16 * (i % MODULES), files + 16 * (i % FILES));
        [path, module as u64, i as u64, source as u64, i as u64].iter().for_each(|word| file.append(8, *word));
    });
    let context = file.here();
    Tree { rng: Rng::of_file(0, 0), linked: [(functions, 40, FUNCTIONS), (files, 16, FILES), (modules, 16, MODULES)] }
        .append(&mut file, contexts, least_siblings, most_siblings);
    file.end_section(context);
    // the Context section comes fourth in the header
    file.sections[3..].rotate_right(1);
    file.finished()
}

/// A meta.db of nothing but modules, with these paths.
pub fn modules(paths: &[Vec<u8>]) -> Vec<u8> {
    let mut file = Growing::new(Database::Meta);
    file.empty_section();
    file.empty_section();
    file.array_section(0, &[(1, 24), (1, 24), (1, 16)], |_, _| {});
    file.empty_section();
    let strings = file.here();
    let mut places = Vec::with_capacity(paths.len());
    for path in paths {
        places.push(file.bytes.len() as u64);
        file.bytes.extend_from_slice(path);
        file.bytes.push(0);
    }
    file.end_section(strings);
    file.array_section(paths.len(), &[(2, 16)], |file, i| [0, places[i]].iter().for_each(|word| file.append(8, *word)));
    file.array_section(0, &[(2, 16)], |_, _| {});
    file.array_section(0, &[(2, 40)], |_, _| {});
    file.finished()
}

/// Metrics with one scope each, and that with one summary.
fn metrics(file: &mut Growing) {
    let start = file.here();
    let (metrics, scopes, summaries) = (start + 16, start + 16 + 24 * METRICS, start + 16 + 48 * METRICS);
    let text = (summaries + 16 * METRICS) as u64;
    file.append(8, metrics as u64);
    file.append(4, METRICS as u64);
    [24, 24, 16].iter().for_each(|stride| file.append(1, *stride));
    file.here();
    for below in (0..METRICS).map(|i| scopes + 24 * i).chain((0..METRICS).map(|i| summaries + 16 * i)) {
        [text, 1, below as u64].iter().for_each(|word| file.append(8, *word));
    }
    (0..METRICS).for_each(|_| [text, 0].iter().for_each(|word| file.append(8, *word)));
    file.bytes.extend_from_slice(b"cycles\0");
    file.end_section(start);
}

struct Tree {
    rng: Rng,
    /// place, stride and count of functions, files and modules
    linked: [(usize, usize, usize); 3],
}

impl Tree {
    /// The Context section, array by array, each context before those that lie below it.
    fn append(&mut self, file: &mut Growing, contexts: usize, least: usize, most: usize) {
        let header = file.here();
        file.append(8, 0);
        file.append(8, 0);
        let mut places = Vec::with_capacity(contexts);
        let mut parents = 0;
        while places.len() < contexts {
            let start = file.bytes.len();
            let siblings = self.rng.between(least, most).min(contexts - places.len());
            let parent = if start == header + 16 { header } else { places[parents] };
            parents += usize::from(parent != header);
            for _ in 0..siblings {
                places.push(file.bytes.len());
                self.append_context(file, places.len() as u64 - 1);
            }
            let size = (file.bytes.len() - start) as u64;
            file.overwrite(parent, size);
            file.overwrite(parent + 8, start as u64);
        }
    }

    fn append_context(&mut self, file: &mut Growing, ctx_id: u64) {
        let flags = self.rng.pick(&FLAGS);
        file.append(8, 0);
        file.append(8, 0);
        file.append(4, ctx_id);
        file.bytes.extend_from_slice(&[flags, 0, 0, needed_words(flags) as u8]);
        for (k, (place, stride, count)) in self.linked.into_iter().enumerate() {
            if flags & 1 << k != 0 {
                file.append(8, (place + stride * self.rng.below(count)) as u64);
            }
            if k > 0 && flags & 1 << k != 0 {
                file.append(8, ctx_id);
            }
        }
    }
}

/// A profile.db of four profiles. Profile 1 has so many contexts, 0, 1, 2 .., each with so many metrics, 0, 1, 2 ..
pub fn profile(contexts: usize, metrics: usize) -> Vec<u8> {
    profile_of(contexts, metrics, |k| k as f64)
}

/// The same with values that do not rise.
pub fn scattered_profile(contexts: usize, metrics: usize) -> Vec<u8> {
    profile_of(contexts, metrics, |k| (k * 7919 % 1_000_003) as f64)
}

fn profile_of(contexts: usize, metrics: usize, value: impl Fn(usize) -> f64) -> Vec<u8> {
    let mut file = Growing::new(Database::Profile);
    let values = file.here();
    for k in 0..contexts * metrics {
        file.append(2, (k % metrics) as u64);
        file.append(8, value(k).to_bits());
    }
    let indices = file.here();
    for k in 0..contexts {
        file.append(4, k as u64);
        file.append(8, (k * metrics) as u64);
    }
    let block = [contexts * metrics, values, contexts, indices, 0];
    file.array_section(4, &[(1, 40)], |file, i| {
        block.iter().for_each(|word| file.append(8, if i == 1 { *word as u64 } else { 0 }));
    });
    file.sections.push((0, 0));
    file.finished()
}

/// A cct.db of four contexts. Context 1 has so many metrics, 0, 1, 2 .., each with so many profiles, 1, 2, 3 ..
pub fn cct(metrics: usize, profiles: usize) -> Vec<u8> {
    let mut file = Growing::new(Database::Cct);
    let values = file.here();
    for k in 0..metrics * profiles {
        file.append(4, (k % profiles + 1) as u64);
        file.append(8, ((k * 7919 % 1_000_003) as f64).to_bits());
    }
    let indices = file.here();
    for k in 0..metrics {
        file.append(2, k as u64);
        file.append(8, (k * profiles) as u64);
    }
    let block = [metrics * profiles, values, metrics, indices];
    file.array_section(4, &[(1, 32)], |file, i| {
        block.iter().for_each(|word| file.append(8, if i == 1 { *word as u64 } else { 0 }));
    });
    file.finished()
}

/// Nanoseconds from one sample to the next.
pub const SAMPLE_INTERVAL: u64 = 10;

/// A trace.db of one line, from time 0 on.
pub fn trace(samples: usize) -> Vec<u8> {
    let mut file = Growing::new(Database::Trace);
    let start = file.here();
    for k in 0..samples {
        file.append(8, SAMPLE_INTERVAL * k as u64);
        file.append(4, (k % 1000) as u64);
    }
    let end = file.bytes.len();
    file.array_section(1, &[(1, 24)], |file, _| [0, start, end].iter().for_each(|word| file.append(8, *word as u64)));
    file.finished()
}

/// The lists of so many profiles, each with a tuple of two identifications and with so many contexts, 0, 1, 2 .., and
/// metrics, 0, 1, 2 ..; and the entries.
pub fn survey(profiles: usize, contexts: usize, metrics: usize) -> (Survey, Vec<u8>) {
    let numbers = 0..profiles as u64;
    let identifiers = numbers.clone().flat_map(|p| [1, p, 2, p]).flat_map(u64::to_le_bytes).collect();
    let mut entries = Vec::with_capacity(24 * profiles * contexts * metrics);
    for k in 0..profiles * contexts * metrics {
        let (row, metric) = (k / metrics, k % metrics);
        entries.extend(((row / contexts) as u32).to_le_bytes());
        entries.extend(((row % contexts) as u32).to_le_bytes());
        entries.extend((metric as u64).to_le_bytes());
        entries.extend((k as f64).to_bits().to_le_bytes());
    }
    (Survey { profiles: numbers.collect(), tuples: vec![2; profiles], identifiers }, entries)
}

/// Offsets from one chunk of samples to the next that no count is for.
pub const GAP: u64 = 4;

/// DCPI samples of so many counts, about half of them 0, in chunks of `number`.
pub fn samples(counts: usize, number: usize) -> Vec<u8> {
    let mut rng = Rng::of_file(0, 1);
    let (mut samples, mut not_zero, mut sum) = (Vec::new(), 0, 0);
    for k in 0..counts {
        if k % number == 0 {
            let offset = (k / number) as u64 * (number as u64 + GAP);
            samples.extend((offset as u32).to_le_bytes());
            samples.extend((number.min(counts - k) as u32).to_le_bytes());
        }
        let count = if rng.one_in(2) { 0 } else { rng.between(1, 1000) as u32 };
        not_zero += u32::from(count != 0);
        sum += count;
        samples.extend(count.to_le_bytes());
    }
    samples.extend([not_zero, sum].map(u32::to_le_bytes).as_flattened());
    samples
}
