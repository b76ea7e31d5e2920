//! The plain C reader makes the checks that the library makes: over generated files, most of them damaged, it answers
//! as the Rust reader does.

use differential::gen::{questions, specimen, Rng};
use differential::lent::Memory;
use differential::question::Function::*;
use differential::question::Question;

use crate::plain;
use crate::questions::SEED;

const FILES: u64 = 20_000;

/// Ends with a panic at the first difference; gives the number of questions asked.
pub fn compare() -> usize {
    (0..FILES).map(compare_file).sum()
}

fn compare_file(number: u64) -> usize {
    let mut rng = Rng::of_file(SEED, number);
    let specimen = specimen(&mut rng);
    let mut asked = 0;
    for question in questions(&mut rng, &specimen) {
        let (mut memory, mut expected_memory) = (question.memory(), question.memory());
        if let Some(code) = ask_plain(&question, &specimen.bytes, &mut memory) {
            let expected = question.ask_reader(&specimen.bytes, &mut expected_memory);
            let same = memory.holds_the_same_as(&expected_memory) && memory.sentinels_stand();
            assert!(
                code == expected && same,
                "file {number}, {question:?}: plain C gives {code}, the Rust reader {expected}; words alike: {same}"
            );
            asked += 1;
        }
    }
    asked
}

/// The code of the plain C reader; none if it has no such function.
fn ask_plain(question: &Question, file: &[u8], memory: &mut Memory) -> Option<u32> {
    let [a, b, c] = question.numbers;
    let [first, second, third] = memory.slices.each_mut().map(|slice| slice.body_mut());
    let (out, bytes) = (memory.out.body_mut(), memory.bytes.body_mut());
    let code = match question.function {
        MetaOpen => plain::hpcdb_meta_open(file, array(out)),
        MetaMetric => plain::hpcdb_meta_metric(file, a, array(out)),
        MetaSummary => plain::hpcdb_meta_summary(file, a, b, c, array(out)),
        MetaModule => plain::hpcdb_meta_module(file, a, array(out)),
        MetaFunction => plain::hpcdb_meta_function(file, a, array(out)),
        MetaWalk => plain::hpcdb_meta_walk(file, first, second, array(out)),
        MetaRecords => plain::hpcdb_meta_records(file, first, second, third, array(out)),
        MetaWalkFrom => {
            let mark = question.mark.lent();
            plain::hpcdb_meta_walk_from(file, mark, a, first, second, third, bytes, array(out))
        }
        HotPath => {
            let profiles = question.profiles.lent();
            plain::hpcdb_hot_path(file, profiles, a, b, first, second, third, array(out))
        }
        ProfileOpen => plain::hpcdb_profile_open(file, array(out)),
        ProfileLookup => plain::hpcdb_profile_lookup(file, a, b, c, bytes),
        ProfileLookupMany => plain::hpcdb_profile_lookup_many(file, a, &question.pairs, first),
        CctOpen => plain::hpcdb_cct_open(file, array(out)),
        CctLookup => plain::hpcdb_cct_lookup(file, a, b, c, bytes),
        CctLookupMany => plain::hpcdb_cct_lookup_many(file, a, &question.pairs, first),
        CctTotals => plain::hpcdb_cct_totals(file, a, b, array(out)),
        TraceOpen => plain::hpcdb_trace_open(file, array(out)),
        TraceAt => plain::hpcdb_trace_at(file, a, b, array(out)),
        DcpiTotals => plain::hpcdb_dcpi_totals(file, array(out)),
        DcpiLookup => plain::hpcdb_dcpi_lookup(file, a, array(out)),
        DcpiEntries => plain::hpcdb_dcpi_entries(file, a as u32, b as u16, bytes, array(out)),
        _ => return None,
    };
    Some(code)
}

fn array<const N: usize>(out: &mut [u64]) -> &mut [u64; N] {
    out.try_into().expect("a question lends as many words as its function's out has")
}
