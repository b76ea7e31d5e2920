//! One case: the library and the reader are asked the same question, and answers and lent memory compared.

use std::fmt;

use crate::lent::{LentFile, Memory};
use crate::question::Question;

/// What both answered.
pub struct Reply {
    pub code: u32,
    pub memory: Memory,
}

/// A difference, or a write to what was not lent.
pub struct Difference {
    pub library: Reply,
    pub reader: Reply,
    pub sentinels_stand: bool,
    pub read_as_it_was: bool,
}

pub fn compare(question: &Question, file: &LentFile) -> Result<Reply, Box<Difference>> {
    let mut memory = question.memory();
    let code = question.ask_library(file.lent(), &mut memory);
    let library = Reply { code, memory };
    let mut memory = question.memory();
    let code = question.ask_reader(file.bytes(), &mut memory);
    let reader = Reply { code, memory };
    let sentinels_stand = library.memory.sentinels_stand();
    let read_as_it_was = [file, &question.mark, &question.profiles].iter().all(|lent| lent.is_as_it_was());
    let same = library.code == reader.code && library.memory.holds_the_same_as(&reader.memory);
    if same && sentinels_stand && read_as_it_was {
        return Ok(reader);
    }
    Err(Box::new(Difference { library, reader, sentinels_stand, read_as_it_was }))
}

impl fmt::Display for Difference {
    fn fmt(&self, f: &mut fmt::Formatter) -> fmt::Result {
        writeln!(f, "library: code {}, out {:?}", self.library.code, self.library.memory.out.body())?;
        writeln!(f, "reader:  code {}, out {:?}", self.reader.code, self.reader.memory.out.body())?;
        let slices = self.library.memory.slices.iter().zip(&self.reader.memory.slices);
        for (k, (library, reader)) in slices.enumerate() {
            show_first_difference(f, &format!("lent slice {k}"), library.body(), reader.body())?;
        }
        show_first_difference(f, "lent bytes", self.library.memory.bytes.body(), self.reader.memory.bytes.body())?;
        if !self.sentinels_stand {
            writeln!(f, "the library wrote beside a slice that it was lent")?;
        }
        if !self.read_as_it_was {
            writeln!(f, "the library wrote into what it was lent to read, or beside it")?;
        }
        Ok(())
    }
}

/// Elements shown from the first difference on.
const SHOWN: usize = 12;

fn show_first_difference<T: PartialEq + fmt::Debug>(
    f: &mut fmt::Formatter,
    what: &str,
    library: &[T],
    reader: &[T],
) -> fmt::Result {
    let Some(k) = library.iter().zip(reader).position(|(library, reader)| library != reader) else {
        return Ok(());
    };
    let end = library.len().min(k + SHOWN);
    writeln!(
        f,
        "{what} of {}, from {k} on: library {:?}, reader {:?}",
        library.len(),
        &library[k..end],
        &reader[k..end]
    )
}
