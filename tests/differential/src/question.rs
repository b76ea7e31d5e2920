//! Questions: a function of the interface with its arguments. The library is asked as the reader or the writer is.

use crate::lent::{LentFile, Memory};
use crate::writer::Lists;
use crate::{by_reader, ffi};

#[derive(Clone, Copy, PartialEq, Eq, Debug)]
pub enum Database {
    Meta,
    Profile,
    Cct,
    Trace,
    /// the binary section of a DCPI file
    Dcpi,
}

#[derive(Clone, Copy, PartialEq, Eq, Debug)]
pub enum Function {
    MetaOpen,
    ProfileOpen,
    CctOpen,
    TraceOpen,
    ProfileSections,
    CctSections,
    TraceSections,
    MetaCounts,
    MetaTitle,
    MetaDescription,
    MetaIdName,
    MetaMetric,
    MetaScope,
    MetaSummary,
    MetaModule,
    MetaFile,
    MetaFunction,
    MetaWalk,
    MetaRecords,
    MetaWalkFrom,
    CctTotals,
    ProfileTuple,
    ProfileIdentifier,
    TraceLine,
    TraceSample,
    TraceAt,
    ProfileLookup,
    CctLookup,
    ProfileLookupMany,
    CctLookupMany,
    ProfileWrite,
    HotPath,
    DcpiTotals,
    DcpiLookup,
    DcpiEntries,
}

use Database::{Cct, Dcpi, Meta, Profile, Trace};
use Function::*;

/// What is to be known of a function.
pub struct Row {
    pub function: Function,
    pub name: &'static str,
    pub database: Database,
    /// how many numbers it takes
    pub numbers: usize,
    /// how many words `out` has
    pub words: usize,
    /// the codes it may give, besides those of opening if it opens a file
    pub codes: &'static [u32],
}

const fn row(
    function: Function,
    name: &'static str,
    database: Database,
    shape: [usize; 2],
    codes: &'static [u32],
) -> Row {
    Row { function, name, database, numbers: shape[0], words: shape[1], codes }
}

/// The table of the interface, in the order of `Function`: numbers taken, words of `out`, codes.
pub const FUNCTIONS: [Row; 35] = [
    row(MetaOpen, "hpcdb_meta_open", Meta, [0, 16], &[0]),
    row(ProfileOpen, "hpcdb_profile_open", Profile, [0, 1], &[0]),
    row(CctOpen, "hpcdb_cct_open", Cct, [0, 1], &[0]),
    row(TraceOpen, "hpcdb_trace_open", Trace, [0, 1], &[0]),
    row(ProfileSections, "hpcdb_profile_sections", Profile, [0, 4], &[0]),
    row(CctSections, "hpcdb_cct_sections", Cct, [0, 2], &[0]),
    row(TraceSections, "hpcdb_trace_sections", Trace, [0, 2], &[0]),
    row(MetaCounts, "hpcdb_meta_counts", Meta, [0, 5], &[0]),
    row(MetaTitle, "hpcdb_meta_title", Meta, [0, 2], &[0, 8, 19]),
    row(MetaDescription, "hpcdb_meta_description", Meta, [0, 2], &[0, 8, 19]),
    row(MetaIdName, "hpcdb_meta_id_name", Meta, [1, 2], &[0, 8, 15, 19]),
    row(MetaMetric, "hpcdb_meta_metric", Meta, [1, 3], &[0, 7, 8, 15, 19]),
    row(MetaScope, "hpcdb_meta_scope", Meta, [2, 4], &[0, 7, 8, 15, 19]),
    row(MetaSummary, "hpcdb_meta_summary", Meta, [3, 4], &[0, 7, 8, 15, 19]),
    row(MetaModule, "hpcdb_meta_module", Meta, [1, 2], &[0, 8, 15, 19]),
    row(MetaFile, "hpcdb_meta_file", Meta, [1, 3], &[0, 8, 15, 19]),
    row(MetaFunction, "hpcdb_meta_function", Meta, [1, 7], &[0, 8, 9, 15, 19]),
    row(MetaWalk, "hpcdb_meta_walk", Meta, [0, 1], &[0, 7, 9, 10, 12, 13, 14, 101]),
    row(MetaRecords, "hpcdb_meta_records", Meta, [0, 1], &[0, 7, 9, 10, 12, 13, 14, 101]),
    row(MetaWalkFrom, "hpcdb_meta_walk_from", Meta, [1, 1], &[0, 7, 9, 10, 12, 13, 14, 17, 18, 101]),
    row(CctTotals, "hpcdb_cct_totals", Cct, [2, 6], &[0, 7, 11, 15, 16, 100]),
    row(ProfileTuple, "hpcdb_profile_tuple", Profile, [1, 1], &[0, 7, 15]),
    row(ProfileIdentifier, "hpcdb_profile_identifier", Profile, [2, 4], &[0, 7, 15]),
    row(TraceLine, "hpcdb_trace_line", Trace, [1, 2], &[0, 7, 11, 15]),
    row(TraceSample, "hpcdb_trace_sample", Trace, [2, 2], &[0, 7, 11, 15]),
    row(TraceAt, "hpcdb_trace_at", Trace, [2, 3], &[0, 7, 11, 15, 100]),
    row(ProfileLookup, "hpcdb_profile_lookup", Profile, [3, 0], &[0, 7, 11, 15, 17, 100]),
    row(CctLookup, "hpcdb_cct_lookup", Cct, [3, 0], &[0, 7, 11, 15, 17, 100]),
    row(ProfileLookupMany, "hpcdb_profile_lookup_many", Profile, [1, 0], &[0, 7, 11, 15, 17]),
    row(CctLookupMany, "hpcdb_cct_lookup_many", Cct, [1, 0], &[0, 7, 11, 15, 17]),
    row(ProfileWrite, "hpcdb_profile_write", Profile, [0, 1], &[0, 7, 11, 15, 17]),
    row(HotPath, "hpcdb_hot_path", Meta, [2, 1], &[0, 7, 9, 10, 11, 12, 13, 14, 15, 16, 17]),
    row(DcpiTotals, "hpcdb_dcpi_totals", Dcpi, [0, 2], &[0, 1, 7, 11, 20]),
    row(DcpiLookup, "hpcdb_dcpi_lookup", Dcpi, [1, 1], &[0, 1, 7, 11, 20, 100]),
    row(DcpiEntries, "hpcdb_dcpi_entries", Dcpi, [2, 1], &[0, 1, 7, 11, 17, 20]),
];

impl Function {
    pub fn row(self) -> &'static Row {
        &FUNCTIONS[self as usize]
    }
}

/// `out` as the array that it is.
fn array<const N: usize>(out: &mut [u64]) -> &mut [u64; N] {
    out.try_into().expect("the table of functions has the length of out")
}

/// The call through one of the two modules that have the interface's functions.
macro_rules! ask_through {
    ($interface:ident, $question:expr, $file:expr, $memory:expr) => {{
        let (question, file, memory): (&Question, &[u8], &mut Memory) = ($question, $file, $memory);
        let [a, b, c] = question.numbers;
        let [first, second, third] = memory.slices.each_mut().map(|slice| slice.body_mut());
        let (out, bytes) = (memory.out.body_mut(), memory.bytes.body_mut());
        match question.function {
            MetaOpen => $interface::hpcdb_meta_open(file, array(out)),
            ProfileOpen => $interface::hpcdb_profile_open(file, array(out)),
            CctOpen => $interface::hpcdb_cct_open(file, array(out)),
            TraceOpen => $interface::hpcdb_trace_open(file, array(out)),
            ProfileSections => $interface::hpcdb_profile_sections(file, array(out)),
            CctSections => $interface::hpcdb_cct_sections(file, array(out)),
            TraceSections => $interface::hpcdb_trace_sections(file, array(out)),
            MetaCounts => $interface::hpcdb_meta_counts(file, array(out)),
            MetaTitle => $interface::hpcdb_meta_title(file, array(out)),
            MetaDescription => $interface::hpcdb_meta_description(file, array(out)),
            MetaIdName => $interface::hpcdb_meta_id_name(file, a, array(out)),
            MetaMetric => $interface::hpcdb_meta_metric(file, a, array(out)),
            MetaScope => $interface::hpcdb_meta_scope(file, a, b, array(out)),
            MetaSummary => $interface::hpcdb_meta_summary(file, a, b, c, array(out)),
            MetaModule => $interface::hpcdb_meta_module(file, a, array(out)),
            MetaFile => $interface::hpcdb_meta_file(file, a, array(out)),
            MetaFunction => $interface::hpcdb_meta_function(file, a, array(out)),
            MetaWalk => $interface::hpcdb_meta_walk(file, first, second, array(out)),
            MetaRecords => $interface::hpcdb_meta_records(file, first, second, third, array(out)),
            MetaWalkFrom => {
                let mark = question.mark.lent();
                $interface::hpcdb_meta_walk_from(file, mark, a, first, second, third, bytes, array(out))
            }
            CctTotals => $interface::hpcdb_cct_totals(file, a, b, array(out)),
            ProfileTuple => $interface::hpcdb_profile_tuple(file, a, array(out)),
            ProfileIdentifier => $interface::hpcdb_profile_identifier(file, a, b, array(out)),
            TraceLine => $interface::hpcdb_trace_line(file, a, array(out)),
            TraceSample => $interface::hpcdb_trace_sample(file, a, b, array(out)),
            TraceAt => $interface::hpcdb_trace_at(file, a, b, array(out)),
            ProfileLookup => $interface::hpcdb_profile_lookup(file, a, b, c, bytes),
            CctLookup => $interface::hpcdb_cct_lookup(file, a, b, c, bytes),
            ProfileLookupMany => $interface::hpcdb_profile_lookup_many(file, a, &question.pairs, first),
            CctLookupMany => $interface::hpcdb_cct_lookup_many(file, a, &question.pairs, first),
            ProfileWrite => $interface::hpcdb_profile_write(&question.survey.lists(file), bytes, array(out)),
            HotPath => {
                let profiles = question.profiles.lent();
                $interface::hpcdb_hot_path(file, profiles, a, b, first, second, third, array(out))
            }
            DcpiTotals => $interface::hpcdb_dcpi_totals(file, array(out)),
            DcpiLookup => $interface::hpcdb_dcpi_lookup(file, a, array(out)),
            // they were chosen to be in their types
            DcpiEntries => $interface::hpcdb_dcpi_entries(file, a as u32, b as u16, bytes, array(out)),
        }
    }};
}

/// The lists of a call of the writer, but for the entries: these are lent where other functions have the file.
#[derive(Clone, Default, Debug)]
pub struct Survey {
    pub profiles: Vec<u64>,
    pub tuples: Vec<u64>,
    pub identifiers: Vec<u8>,
}

impl Survey {
    pub fn lists<'a>(&'a self, entries: &'a [u8]) -> Lists<'a> {
        Lists { profiles: &self.profiles, tuples: &self.tuples, identifiers: &self.identifiers, entries }
    }
}

/// A call, but for the file.
#[derive(Clone, Debug)]
pub struct Question {
    pub function: Function,
    /// in the order of the parameters; those that the function does not take are 0
    pub numbers: [u64; 3],
    /// words lent: of a walk listing, table, records; of a hot path listing, table, path; of a batch answers
    pub rooms: [usize; 3],
    /// bytes lent for a lookup's value, for the file that is written, for a new mark, or for entries
    pub byte_room: usize,
    /// of a batch
    pub pairs: Vec<u64>,
    /// of the writer
    pub survey: Survey,
    /// of a walk from a mark
    pub mark: LentFile,
    /// of a hot path: the profile.db
    pub profiles: LentFile,
}

impl Question {
    pub fn new(function: Function, numbers: [u64; 3]) -> Question {
        Question {
            function,
            numbers,
            rooms: [0; 3],
            byte_room: 0,
            pairs: Vec::new(),
            survey: Survey::default(),
            mark: LentFile::new(Vec::new(), 0, 0),
            profiles: LentFile::new(Vec::new(), 0, 0),
        }
    }

    /// Memory as it is before the call.
    pub fn memory(&self) -> Memory {
        Memory::new(self.function.row().words, self.rooms, self.byte_room)
    }

    pub fn ask_library(&self, file: &[u8], memory: &mut Memory) -> u32 {
        ask_through!(ffi, self, file, memory)
    }

    pub fn ask_reader(&self, file: &[u8], memory: &mut Memory) -> u32 {
        ask_through!(by_reader, self, file, memory)
    }
}
