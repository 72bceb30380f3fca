//! What the generator knows of a store: read from a valid image, then moved on by hand while a
//! file is written.

use crate::image::{self, ITEM};
use std::collections::BTreeSet;

/// The names of a key: 1, 3, 5, 7 or 8 of them, absent repeat keys empty.
pub type Key = Vec<Vec<u8>>;

#[derive(Clone, Default)]
pub struct Model {
    pub study: Vec<u8>,
    pub version: Vec<u8>,
    /// FileOID and kept date of each standing file.
    pub files: Vec<(Vec<u8>, Vec<u8>)>,
    pub live: BTreeSet<Key>,
    pub changes: usize,
    pub used: usize,
}

impl Model {
    /// Nothing is known of an image that is not valid.
    pub fn of(numbers: &[u32], bytes: &[u8]) -> Model {
        let Ok((counts, live)) = image::judge(numbers, bytes) else { return Model::default() };
        let file = |file| {
            let oid = image::file_oid(numbers, bytes, file).to_vec();
            (oid, image::file_date(bytes, file).to_vec())
        };
        let key_of = |mut id: u16| {
            let mut key = Key::new();
            while id != 0 {
                let node = live.node(id);
                let (oid, oid_len) = node.step.oid_text();
                let (repeat, repeat_len) = node.step.repeat_text();
                if (2..ITEM).contains(&(node.depth as usize)) {
                    key.push(repeat[..repeat_len].to_vec());
                }
                key.push(oid[..oid_len].to_vec());
                id = node.parent;
            }
            key.reverse();
            key
        };
        Model {
            study: image::study(numbers, bytes).to_vec(),
            version: image::version(numbers, bytes).to_vec(),
            files: (0..counts.files).map(file).collect(),
            live: live.levels().iter().flatten().map(|&id| key_of(id)).collect(),
            changes: counts.changes,
            used: counts.used,
        }
    }

    /// The live children of a key; of no key, the subjects.
    pub fn children(&self, parent: &Key) -> Vec<Key> {
        let len = names_at(depth_of(parent) + 1);
        let below = self.live.range(parent.clone()..).take_while(|key| key.starts_with(parent));
        below.filter(|key| key.len() == len).cloned().collect()
    }

    pub fn remove(&mut self, key: &Key) {
        self.live.retain(|other| !other.starts_with(key));
    }
}

/// How many names a key of a depth has.
pub fn names_at(depth: usize) -> usize {
    [0, 1, 3, 5, 7, 8][depth]
}

pub fn depth_of(key: &Key) -> usize {
    (0..=ITEM).find(|&depth| names_at(depth) == key.len()).unwrap_or(0)
}
