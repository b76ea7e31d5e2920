//! What a hot path was found among: the values of all contexts of a tree that is walked whole, so that a run can tell
//! what decided.

use std::collections::HashSet;

use crate::by_reader::{hpcdb_meta_records, hpcdb_profile_lookup_many, ANSWERED};
use crate::question::Question;
use crate::reader::bytes::u64_at;
use crate::reader::meta;
use crate::reader::walk::RECORD_WORDS;

/// The section with the tree.
const CONTEXT: usize = 3;

/// A context: its place, its parent's place or 0, and its value if it has one.
struct Valued {
    place: u64,
    parent: u64,
    value: Option<f64>,
}

pub struct Way {
    contexts: Vec<Valued>,
    path: Vec<u64>,
}

impl Way {
    /// Of a question whose answer was this path.
    pub fn of(question: &Question, file: &[u8], path: &[u64]) -> Option<Way> {
        let [listing, table, _] = question.rooms;
        let (mut places, mut slots, mut out) = (vec![0; listing], vec![0; table], [0]);
        let mut records = vec![0; RECORD_WORDS * listing];
        if hpcdb_meta_records(file, &mut places, &mut slots, &mut records, &mut out) != ANSWERED {
            return None;
        }
        let records = &records.as_chunks::<RECORD_WORDS>().0[..out[0] as usize];
        let [profile, metric, _] = question.numbers;
        let pairs: Vec<u64> = records.iter().flat_map(|record| [record[2], metric]).collect();
        let mut answers = vec![0; pairs.len()];
        if hpcdb_profile_lookup_many(question.profiles.bytes(), profile, &pairs, &mut answers) != ANSWERED {
            return None;
        }
        let found = answers.as_chunks().0.iter().map(|[code, bits]| (*code == 0).then(|| f64::from_bits(*bits)));
        let valued =
            |(record, value): (&[u64; RECORD_WORDS], _)| Valued { place: record[0], parent: record[11], value };
        Some(Way { contexts: records.iter().zip(found).map(valued).collect(), path: path.to_vec() })
    }

    fn below(&self, parent: u64) -> impl Iterator<Item = &Valued> {
        self.contexts.iter().filter(move |context| context.parent == parent)
    }

    /// Those that were compared, level by level: the values from the chosen one on.
    fn chosen_and_later(&self) -> impl Iterator<Item = Vec<f64>> + use<'_> {
        let parents = [0].into_iter().chain(self.path.iter().copied());
        parents.zip(&self.path).map(|(parent, chosen)| {
            self.below(parent)
                .skip_while(|context| context.place != *chosen)
                .filter_map(|context| context.value)
                .collect()
        })
    }

    /// A later one has the same value.
    pub fn order_decides(&self) -> bool {
        self.chosen_and_later().any(|values| values[1..].contains(&values[0]))
    }

    /// Both are zeros, of different signs.
    pub fn order_of_zeros_decides(&self) -> bool {
        let other_zero =
            |value: &f64, chosen: f64| *value == 0.0 && value.is_sign_negative() != chosen.is_sign_negative();
        self.chosen_and_later()
            .any(|values| values[0] == 0.0 && values[1..].iter().any(|value| other_zero(value, values[0])))
    }

    /// In an array that was looked through lies a context, with a value, which is no child of that array's parent.
    pub fn passes_a_context_inside(&self, file: &[u8]) -> bool {
        let Ok(sections) = meta::sections_of(file) else {
            return false;
        };
        let parents = [0].into_iter().chain(self.path.iter().copied());
        parents.into_iter().any(|parent| {
            // roots and children alike: size, then place
            let head = if parent == 0 { sections[CONTEXT].start } else { parent as usize };
            let (size, start) = (u64_at(file, head), u64_at(file, head + 8));
            let inside = |context: &Valued| (start..start + size).contains(&context.place);
            self.contexts.iter().any(|other| other.parent != parent && other.value.is_some() && inside(other))
        })
    }

    pub fn has_a_value_below_0(&self) -> bool {
        self.chosen_and_later().any(|values| values[0] < 0.0)
    }

    /// Infinity or NaN, where nothing is looked up.
    pub fn passes_what_is_not_finite(&self) -> bool {
        self.contexts.iter().any(|context| context.value.is_some_and(|value| !value.is_finite()))
    }

    /// No child of the last one has a value, and a child of such a child has one.
    pub fn ends_above_values(&self) -> bool {
        let last = self.path.last().copied().unwrap_or(0);
        let children: HashSet<u64> = self.below(last).map(|child| child.place).collect();
        self.contexts.iter().any(|context| context.value.is_some() && children.contains(&context.parent))
    }
}
