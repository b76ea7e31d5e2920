//! libhpcdb.a compared, case by case, with an independent reader over generated files and an independent writer of
//! profile.db over generated lists.

pub mod by_reader;
pub mod compare;
pub mod ffi;
pub mod gen;
pub mod joined;
pub mod lent;
pub mod question;
pub mod read_back;
pub mod reader;
pub mod shape;
pub mod tally;
pub mod way;
pub mod writer;
