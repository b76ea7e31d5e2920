//! An independent reader of HPCToolkit 4.0 databases in plain safe Rust, written from documents 01 (the rules), 02
//! (requests that change them) and 004 (the format) alone, and of DCPI samples, from 02 and 000. Every function takes
//! the bytes of a file and opens them afresh.

pub mod cct;
pub mod dcpi;
pub mod hot;
pub mod meta;
pub mod profile;
pub mod trace;
pub mod walk;

pub(crate) mod bytes;

mod block;
mod infos;
mod opening;
mod text;

pub use bytes::Span;
pub use text::Text;

/// Why a file, an element or a question is refused; the discriminants are the numbers of documents 01 and 02.
#[derive(Clone, Copy, PartialEq, Eq, Debug)]
pub enum Refusal {
    Short = 1,
    Magic,
    Version,
    Footer,
    Section,
    Stride,
    Array,
    String,
    Link,
    Context,
    Order,
    Deep,
    Slot,
    Twice,
    Index,
    NotFinite,
    Room,
    Mark,
    Spelling,
    Total,
}

impl Refusal {
    pub fn number(self) -> u32 {
        self as u32
    }
}
