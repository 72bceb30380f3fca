//! Which entities are live, as a tree with one hash table from (parent, names) to the child.
//!
//! An entity made again gets a new number, so whatever hung below its earlier life is out of reach
//! without being visited: an end costs no more than the entity's depth.

use crate::names::packed_len;

/// Changes a store holds; each make adds one node at most.
const MOST_NODES: usize = 2_048;
const TABLE_LEN: usize = 4_096;

/// The node above the subjects; it is never ended. In the table 0 says "free".
pub const ROOT: u16 = 0;

/// What an element adds to its parent's key: OID and repeat key, packed; 0 is absent.
#[derive(Clone, Copy, PartialEq, Eq, Default, Debug)]
pub struct Step {
    pub oid: u128,
    pub repeat: u128,
}

impl Step {
    /// Length bytes and texts in the image; subjects and items have no repeat key.
    pub fn oid_text(&self) -> ([u8; 16], usize) {
        (self.oid.to_be_bytes(), packed_len(self.oid))
    }

    pub fn repeat_text(&self) -> ([u8; 16], usize) {
        (self.repeat.to_be_bytes(), packed_len(self.repeat))
    }
}

#[derive(Clone, Copy)]
pub struct Node {
    pub step: Step,
    /// Where an item's value stands in the bytes buffer.
    pub value_at: u32,
    pub value_len: u16,
    pub parent: u16,
    /// Live entities from here down, this one included.
    size: u16,
    pub depth: u8,
    ended: bool,
}

/// Where a key was looked for: its place in the table, and its node if it is live.
#[derive(Clone, Copy)]
pub struct Place {
    slot: u16,
    pub live: Option<u16>,
}

pub struct Live {
    nodes: Vec<Node>,
    table: Vec<u16>,
}

impl Live {
    pub fn new() -> Live {
        let mut nodes = Vec::with_capacity(MOST_NODES + 1);
        nodes.push(Node {
            step: Step::default(),
            value_at: 0,
            value_len: 0,
            parent: ROOT,
            size: 0,
            depth: 0,
            ended: false,
        });
        Live { nodes, table: vec![0; TABLE_LEN] }
    }

    /// How many entities are live.
    pub fn count(&self) -> usize {
        self.nodes[ROOT as usize].size as usize
    }

    pub fn node(&self, id: u16) -> &Node {
        &self.nodes[id as usize]
    }

    /// Looks for a child of a live parent.
    pub fn find(&self, parent: u16, step: &Step) -> Place {
        let mut slot = hash(parent, step) as usize % TABLE_LEN;
        loop {
            let id = self.table[slot];
            if id == 0 {
                return Place { slot: slot as u16, live: None };
            }
            let node = &self.nodes[id as usize];
            if node.parent == parent && node.step == *step {
                let live = if node.ended { None } else { Some(id) };
                return Place { slot: slot as u16, live };
            }
            slot = (slot + 1) % TABLE_LEN;
        }
    }

    /// Makes the entity that was not live at `place`.
    pub fn make(&mut self, place: Place, parent: u16, step: &Step) -> u16 {
        let id = self.nodes.len() as u16;
        let depth = self.nodes[parent as usize].depth + 1;
        self.nodes.push(Node {
            step: *step,
            value_at: 0,
            value_len: 0,
            parent,
            size: 0,
            depth,
            ended: false,
        });
        self.table[place.slot as usize] = id;
        self.grow(id, 1);
        id
    }

    /// Ends an entity with all below it.
    pub fn end(&mut self, id: u16) {
        let gone = self.nodes[id as usize].size;
        self.grow(id, gone.wrapping_neg());
        self.nodes[id as usize].ended = true;
    }

    pub fn set_value(&mut self, id: u16, at: usize, len: usize) {
        let node = &mut self.nodes[id as usize];
        node.value_at = at as u32;
        node.value_len = len as u16;
    }

    /// Adds to the sizes from a node up to the root.
    fn grow(&mut self, id: u16, by: u16) {
        let mut at = id;
        loop {
            let node = &mut self.nodes[at as usize];
            node.size = node.size.wrapping_add(by);
            if at == ROOT {
                return;
            }
            at = node.parent;
        }
    }

    /// The live entities of each depth, those of one parent together, in key order throughout.
    pub fn levels(&self) -> [Vec<u16>; 5] {
        let mut levels: [Vec<u16>; 5] = Default::default();
        let mut reached = vec![false; self.nodes.len()];
        reached[ROOT as usize] = true;
        for (id, node) in self.nodes.iter().enumerate().skip(1) {
            if !node.ended && reached[node.parent as usize] {
                reached[id] = true;
                levels[node.depth as usize - 1].push(id as u16);
            }
        }
        let mut rank = vec![0u16; self.nodes.len()];
        for level in &mut levels {
            level.sort_unstable_by(|&left, &right| {
                let (left, right) = (self.node(left), self.node(right));
                let parents = rank[left.parent as usize].cmp(&rank[right.parent as usize]);
                parents
                    .then_with(|| left.step.oid.cmp(&right.step.oid))
                    .then_with(|| left.step.repeat.cmp(&right.step.repeat))
            });
            for (place, &id) in level.iter().enumerate() {
                rank[id as usize] = place as u16;
            }
        }
        levels
    }
}

fn hash(parent: u16, step: &Step) -> u64 {
    let halves = |name: u128| ((name >> 64) as u64, name as u64);
    let (oid_high, oid_low) = halves(step.oid);
    let (repeat_high, repeat_low) = halves(step.repeat);
    let first = fold(oid_high ^ 0xA076_1D64_78BD_642F, oid_low ^ 0xE703_7ED1_A0B4_28DB ^ parent as u64);
    let second = fold(repeat_high ^ 0x8EBC_6AF0_9C88_C6E3, repeat_low ^ 0x5899_65CC_7537_4CC3);
    fold(first ^ parent as u64, second ^ 0x1D8E_4E27_C47D_124F)
}

fn fold(left: u64, right: u64) -> u64 {
    let product = left as u128 * right as u128;
    product as u64 ^ (product >> 64) as u64
}
