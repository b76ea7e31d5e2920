//! Trees of contexts: their shapes and identifiers.

use super::rng::Rng;

/// Siblings that lie in one array.
pub struct Siblings {
    pub nodes: Vec<usize>,
    pub parent: Option<usize>,
}

pub struct Node {
    /// the array it lies in, and the one it leads to
    pub array: usize,
    pub children: Option<usize>,
    /// 1 for a root
    pub depth: usize,
    pub ctx_id: u32,
    pub flags: u8,
    pub flex_words: usize,
}

/// The first array has the roots. A tree without contexts has no array.
#[derive(Default)]
pub struct Tree {
    pub arrays: Vec<Siblings>,
    pub nodes: Vec<Node>,
}

/// Words that the fields need which are there by these flags.
pub fn needed_words(flags: u8) -> usize {
    [0, 1, 2, 3, 2, 3, 4, 5][usize::from(flags % 8)]
}

impl Tree {
    fn add(&mut self, parent: Option<usize>) -> usize {
        let node = self.nodes.len();
        let existing = match parent {
            Some(parent) => self.nodes[parent].children,
            None => (!self.arrays.is_empty()).then_some(0),
        };
        let array = existing.unwrap_or_else(|| {
            self.arrays.push(Siblings { nodes: Vec::new(), parent });
            self.arrays.len() - 1
        });
        if let Some(parent) = parent {
            self.nodes[parent].children = Some(array);
        }
        let depth = parent.map_or(1, |parent| self.nodes[parent].depth + 1);
        self.arrays[array].nodes.push(node);
        self.nodes.push(Node { array, children: None, depth, ctx_id: 0, flags: 0, flex_words: 0 });
        node
    }

    pub fn size_of(&self, array: usize) -> usize {
        self.arrays[array].nodes.iter().map(|node| 24 + 8 * self.nodes[*node].flex_words).sum()
    }

    pub fn greatest_id(&self) -> u32 {
        self.nodes.iter().map(|node| node.ctx_id).max().unwrap_or_default()
    }

    /// An array from which `node` is reached, the roots or one further down.
    pub fn array_above(&self, rng: &mut Rng, node: usize) -> usize {
        let mut array = self.nodes[node].array;
        while let Some(parent) = self.arrays[array].parent {
            if rng.one_in(3) {
                break;
            }
            array = self.nodes[parent].array;
        }
        array
    }
}

/// A tree whose contexts have links of those kinds only for which `linkable` has a bit.
pub fn grown(rng: &mut Rng, linkable: u8) -> Tree {
    let mut tree = match rng.below(1200) {
        0 => bushy(rng, 20_000),
        1 => wide(rng, 70_000),
        2..40 => {
            let siblings = rng.between(200, 1500);
            wide(rng, siblings)
        }
        40..200 => deep(rng),
        200..280 => Tree::default(),
        _ => {
            let count = rng.between(1, 40);
            bushy(rng, count)
        }
    };
    name(rng, &mut tree);
    let plain = rng.one_in(6);
    for node in &mut tree.nodes {
        let flags = if plain { 0 } else { rng.word() as u8 };
        // the reserved bits are there to be ignored
        node.flags = flags & (linkable | 0xf8);
        let more = if rng.one_in(4) { rng.pick(&[1, 1, 1, 2, 2, 3, 3, 4, 10, 250]) } else { 0 };
        node.flex_words = needed_words(node.flags) + more;
    }
    tree
}

/// Each context below any earlier one.
fn bushy(rng: &mut Rng, count: usize) -> Tree {
    let mut tree = Tree::default();
    for k in 0..count {
        let parent = (k > 0 && !rng.one_in(8)).then(|| rng.below(k));
        tree.add(parent);
    }
    tree
}

/// Many contexts in one array, which has the roots or lies below the only one.
fn wide(rng: &mut Rng, siblings: usize) -> Tree {
    let mut tree = Tree::default();
    let parent = rng.one_in(2).then(|| tree.add(None));
    for _ in 0..siblings {
        tree.add(parent);
    }
    tree
}

/// One line of descent, around the limit of 200 or well below it, with siblings here and there.
fn deep(rng: &mut Rng) -> Tree {
    let depth = rng.pick(&[20, 100, 199, 200, 200, 201, 201, 202, 240]);
    let mut tree = Tree::default();
    let mut above = None;
    for _ in 0..depth {
        let first = tree.add(above);
        let mut siblings = vec![first];
        while rng.one_in(10) {
            siblings.push(tree.add(above));
        }
        above = Some(rng.pick(&siblings));
    }
    tree
}

/// Identifiers: dense or with gaps, in any order.
fn name(rng: &mut Rng, tree: &mut Tree) {
    let count = tree.nodes.len();
    let gaps = rng.pick(&[0, 0, 1, 8, 3 * count]);
    let mut ids: Vec<u32> = (0..(count + gaps) as u32).collect();
    rng.shuffle(&mut ids);
    for (node, id) in tree.nodes.iter_mut().zip(ids) {
        node.ctx_id = id;
    }
}
