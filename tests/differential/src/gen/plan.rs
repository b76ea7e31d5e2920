//! The plan of a file: its pieces get places in some order that the rules allow, with gaps, sections apart or one
//! inside the other.

use super::rng::Rng;

#[derive(Clone, Copy)]
pub struct Piece(usize);

#[derive(Clone, Copy)]
pub struct Section(usize);

struct PlannedPiece {
    size: usize,
    alignment: usize,
}

#[derive(Default)]
pub struct Plan {
    pieces: Vec<PlannedPiece>,
    /// the pieces of each section, its header first if it has one
    sections: Vec<PlannedSection>,
    /// pieces outside the sections, in runs that stay together
    runs: Vec<Vec<Piece>>,
    /// pieces outside the sections of which the first comes before the second
    ordered: Vec<(Piece, Piece)>,
}

struct PlannedSection {
    pieces: Vec<Piece>,
    has_header: bool,
    alignment: usize,
}

impl Plan {
    fn piece(&mut self, size: usize, alignment: usize) -> Piece {
        self.pieces.push(PlannedPiece { size, alignment });
        Piece(self.pieces.len() - 1)
    }

    /// A section and its header; its other pieces come behind that.
    pub fn section(&mut self, header_size: usize) -> (Section, Piece) {
        let header = self.piece(header_size, 8);
        self.sections.push(PlannedSection { pieces: vec![header], has_header: true, alignment: 8 });
        (Section(self.sections.len() - 1), header)
    }

    pub fn section_without_header(&mut self, alignment: usize) -> Section {
        self.sections.push(PlannedSection { pieces: Vec::new(), has_header: false, alignment });
        Section(self.sections.len() - 1)
    }

    pub fn inside(&mut self, section: Section, size: usize, alignment: usize) -> Piece {
        let piece = self.piece(size, alignment);
        self.sections[section.0].pieces.push(piece);
        piece
    }

    pub fn outside(&mut self, size: usize, alignment: usize) -> Piece {
        let piece = self.piece(size, alignment);
        self.runs.push(vec![piece]);
        piece
    }

    /// Two pieces outside the sections, the second somewhere behind the first, or next to it.
    pub fn outside_in_order(
        &mut self,
        first: (usize, usize),
        second: (usize, usize),
        together: bool,
    ) -> (Piece, Piece) {
        let (first, second) = (self.piece(first.0, first.1), self.piece(second.0, second.1));
        if together {
            self.runs.push(vec![first, second]);
        } else {
            self.runs.extend([vec![first], vec![second]]);
            self.ordered.push((first, second));
        }
        (first, second)
    }

    pub fn place(self, rng: &mut Rng, header_end: usize) -> Places {
        let order = self.order(rng);
        let gaps = rng.pick(&[0, 0, 1, 3, 20]);
        let mut starts = vec![0; self.pieces.len()];
        let mut end = header_end;
        for Piece(k) in order {
            let PlannedPiece { size, alignment } = self.pieces[k];
            starts[k] = (end + rng.below(gaps + 1)).next_multiple_of(alignment);
            end = starts[k] + size;
        }
        let body_end = end + rng.below(gaps + 1);
        let sections =
            self.sections.iter().map(|section| self.extent(rng, section, &starts, header_end, body_end)).collect();
        Places { starts, sections, body_end }
    }

    /// All pieces in the order in which they will lie. What is outside the sections comes between them, never into
    /// them.
    fn order(&self, rng: &mut Rng) -> Vec<Piece> {
        let mut units: Vec<Vec<Piece>> = self.sections.iter().map(|section| section.pieces.clone()).collect();
        if rng.one_in(3) {
            // one unit: pieces of all sections mixed
            units = vec![units.concat()];
        }
        for unit in &mut units {
            rng.shuffle(unit);
        }
        units.extend(self.runs.iter().cloned());
        rng.shuffle(&mut units);
        let mut order = units.concat();
        let mut position = vec![0; self.pieces.len()];
        for (at, piece) in order.iter().enumerate() {
            position[piece.0] = at;
        }
        for section in self.sections.iter().filter(|section| section.has_header) {
            let first = section.pieces.iter().map(|piece| position[piece.0]).min().unwrap_or_default();
            let (header, other) = (section.pieces[0].0, order[first].0);
            order.swap(position[header], first);
            position.swap(header, other);
        }
        for (first, second) in &self.ordered {
            if position[first.0] > position[second.0] {
                order.swap(position[first.0], position[second.0]);
            }
        }
        order
    }

    /// Start and end of a section: around its pieces, and now and then further, into others but not to what must stay
    /// outside.
    fn extent(
        &self,
        rng: &mut Rng,
        section: &PlannedSection,
        starts: &[usize],
        header_end: usize,
        body_end: usize,
    ) -> [usize; 2] {
        let pieces = || section.pieces.iter().map(|piece| piece.0);
        let Some(start) = pieces().map(|k| starts[k]).min() else {
            return [0, 0];
        };
        let end = pieces().map(|k| starts[k] + self.pieces[k].size).max().unwrap_or(start);
        let outside = || self.runs.iter().flatten().map(|piece| starts[piece.0]);
        let limit = outside().filter(|place| *place >= end).min().unwrap_or(body_end);
        let end = match rng.below(5) {
            0 => limit,
            1 => rng.between(end, limit),
            _ => end,
        };
        // without a header a section may also start earlier
        if !section.has_header && self.runs.is_empty() && rng.one_in(3) {
            let earlier = rng.between(header_end, start);
            return [earlier - earlier % section.alignment, end];
        }
        [start, end]
    }
}

/// Where everything lies.
pub struct Places {
    starts: Vec<usize>,
    sections: Vec<[usize; 2]>,
    pub body_end: usize,
}

impl Places {
    pub fn of(&self, piece: Piece) -> usize {
        self.starts[piece.0]
    }

    /// Place and size; both 0 for a section without pieces.
    pub fn of_section(&self, section: Section) -> (usize, usize) {
        let [start, end] = self.sections[section.0];
        (start, end - start)
    }
}
