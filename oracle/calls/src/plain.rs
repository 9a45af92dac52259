//! States and batches as plain values in document 01's terms, the batch record,
//! and when a state is sound. Written from document 01, not from the crate.
use std::collections::{BTreeMap, BTreeSet};

/// Tree number, node number.
pub type Id = (u32, u64);
/// Tree id: high and low half.
pub type Tid = (u64, u64);
/// Parent and place among its children.
pub type Link = Option<(Id, u64)>;

pub const ROOT: Tid = (0, 0);
pub const TREES: usize = 32;
pub const NODES: usize = 256;

pub const HIDDEN: u8 = 1;
pub const CLIPS: u8 = 2;
pub const ACTIVE: u8 = 4;
pub const GRAFT: u8 = 8;
pub const BOUNDS: u8 = 16;
pub const TRANSFORM: u8 = 32;

/// A node record's fields; f64s as bits. A field whose flag is clear is zero.
#[derive(Clone, Debug, Default, PartialEq, Eq)]
pub struct Data {
    pub active: u64,
    pub graft: Tid,
    pub children: Vec<u64>,
    pub label: Vec<u8>,
    pub role: u8,
    pub flags: u8,
    pub bounds: [u64; 4],
    pub transform: [u64; 6],
}

impl Data {
    pub fn has(&self, flag: u8) -> bool {
        self.flags & flag != 0
    }
    pub fn graft(&self) -> Option<Tid> {
        self.has(GRAFT).then_some(self.graft)
    }
    pub fn set_graft(&mut self, g: Option<Tid>) {
        self.flags = if g.is_some() { self.flags | GRAFT } else { self.flags & !GRAFT };
        self.graft = g.unwrap_or(ROOT);
    }
    /// The record's rules for one node's fields.
    pub fn fits(&self) -> bool {
        self.flags < 64
            && self.label.len() <= 32
            && self.children.len() <= 256
            && (self.has(ACTIVE) || self.active == 0)
            && (self.has(GRAFT) || self.graft == ROOT)
            && (self.has(BOUNDS) || self.bounds == [0; 4])
            && (self.has(TRANSFORM) || self.transform == [0; 6])
            && self.bounds.iter().chain(&self.transform).all(|b| f64::from_bits(*b).is_finite())
    }
}

#[derive(Clone, Debug, PartialEq, Eq)]
pub struct Batch {
    pub tree: Tid,
    pub root: Option<u64>,
    pub focus: u64,
    pub nodes: Vec<(u64, Data)>,
}

impl Batch {
    /// Row 5.
    pub fn lists_twice(&self) -> bool {
        let ids: BTreeSet<u64> = self.nodes.iter().map(|n| n.0).collect();
        ids.len() != self.nodes.len()
    }

    /// The bytes of the record.
    pub fn encode(&self) -> Vec<u8> {
        let (mut records, mut entries, mut labels) = (vec![], vec![], vec![]);
        for (id, d) in &self.nodes {
            for n in [*id, d.active, d.graft.0, d.graft.1] {
                records.extend(n.to_le_bytes());
            }
            for n in [entries.len() / 8, d.children.len(), labels.len(), d.label.len()] {
                records.extend((n as u16).to_le_bytes());
            }
            records.extend([d.role, d.flags, 0, 0, 0, 0, 0, 0]);
            for bits in d.bounds.iter().chain(&d.transform) {
                records.extend(bits.to_le_bytes());
            }
            entries.extend(d.children.iter().flat_map(|c| c.to_le_bytes()));
            labels.extend(&d.label);
        }
        let first_entry = 64 + records.len();
        let first_label = first_entry + entries.len();
        let total = first_label + labels.len();
        let mut out = vec![];
        for n in [self.nodes.len(), entries.len() / 8, labels.len(), self.root.is_some() as usize] {
            out.extend((n as u16).to_le_bytes());
        }
        for n in [64, first_entry, first_label, total] {
            out.extend((n as u32).to_le_bytes());
        }
        for n in [self.tree.0, self.tree.1, self.root.unwrap_or(0), self.focus, 0] {
            out.extend(n.to_le_bytes());
        }
        [out, records, entries, labels].concat()
    }

    /// Row 2: the batch that the bytes hold, if they keep the layout and limits.
    pub fn decode(bytes: &[u8]) -> Option<Batch> {
        let number =
            |at: usize, size: usize| bytes[at..at + size].iter().rev().fold(0u64, |n, b| n << 8 | *b as u64);
        if bytes.len() < 64 {
            return None;
        }
        let [nodes, entries, labels, flags] = [0, 2, 4, 6].map(|at| number(at, 2) as usize);
        let first_entry = 64 + 128 * nodes;
        let first_label = first_entry + 8 * entries;
        let total = first_label + labels;
        let offsets = [8, 12, 16, 20].map(|at| number(at, 4) as usize);
        if nodes > 64
            || entries > 256
            || labels > 2048
            || flags > 1
            || offsets != [64, first_entry, first_label, total]
            || total != bytes.len()
            || flags == 0 && number(40, 8) != 0
            || number(56, 8) != 0
        {
            return None;
        }
        let mut batch = Batch {
            tree: (number(24, 8), number(32, 8)),
            root: (flags == 1).then(|| number(40, 8)),
            focus: number(48, 8),
            nodes: vec![],
        };
        let (mut used_entries, mut used_labels) = (0, 0);
        for i in 0..nodes {
            let at = 64 + 128 * i;
            let [child, children, label, length] = [32, 34, 36, 38].map(|o| number(at + o, 2) as usize);
            if child != used_entries
                || label != used_labels
                || child + children > entries
                || label + length > labels
                || number(at + 42, 6) != 0
            {
                return None;
            }
            used_entries += children;
            used_labels += length;
            let data = Data {
                active: number(at + 8, 8),
                graft: (number(at + 16, 8), number(at + 24, 8)),
                children: (0..children).map(|k| number(first_entry + 8 * (child + k), 8)).collect(),
                label: bytes[first_label + label..first_label + label + length].to_vec(),
                role: bytes[at + 40],
                flags: bytes[at + 41],
                bounds: [0, 1, 2, 3].map(|k| number(at + 48 + 8 * k, 8)),
                transform: [0, 1, 2, 3, 4, 5].map(|k| number(at + 80 + 8 * k, 8)),
            };
            if !data.fits() {
                return None;
            }
            batch.nodes.push((number(at, 8), data));
        }
        (used_entries == entries && used_labels == labels).then_some(batch)
    }
}

#[derive(Clone, Debug, Default, PartialEq, Eq)]
pub struct State {
    pub nodes: BTreeMap<Id, (Link, Data)>,
    /// By tree number: tree id and, while the tree exists, root and focus.
    pub trees: Vec<(Tid, Option<(u64, u64)>)>,
    pub host: bool,
}

impl State {
    pub fn number_of(&self, tree: Tid) -> Option<u32> {
        self.trees.iter().position(|t| t.0 == tree).map(|n| n as u32)
    }

    fn root_of(&self, tree: Tid) -> Option<Id> {
        let number = self.number_of(tree)?;
        self.trees[number as usize].1.map(|(root, _)| (number, root))
    }

    fn focus_of(&self, tree: Tid) -> Option<Id> {
        let number = self.number_of(tree)?;
        self.trees[number as usize].1.map(|(_, focus)| (number, focus))
    }

    /// Every graft with the node that holds it.
    pub fn grafts(&self) -> Vec<(Tid, Id)> {
        self.nodes.iter().filter_map(|(id, (_, d))| d.graft().map(|g| (g, *id))).collect()
    }

    /// Module 4, before any active descendant; none if a tree on the way does not exist.
    pub fn effective_focus(&self) -> Option<Id> {
        let mut at = self.focus_of(ROOT)?;
        for _ in 0..=self.trees.len() {
            match self.nodes.get(&at).and_then(|(_, d)| d.graft()) {
                None => return Some(at),
                Some(g) => at = self.focus_of(g)?,
            }
        }
        None
    }

    /// What `TreeState::focus` should answer.
    pub fn focus(&self) -> Option<Id> {
        let at = self.effective_focus().filter(|_| self.host)?;
        let data = &self.nodes.get(&at)?.1;
        let active = (at.0, data.active);
        Some(if data.has(ACTIVE) && self.nodes.contains_key(&active) { active } else { at })
    }

    /// Links and trees of **sound** (row 19), the focus and the counts left out.
    pub fn sound_links(&self) -> bool {
        let Some(root) = self.root_of(ROOT) else { return false };
        let mut met = BTreeSet::new();
        let mut ahead: Vec<(Id, Link)> = vec![(root, None)];
        while let Some((id, link)) = ahead.pop() {
            let Some((recorded, data)) = self.nodes.get(&id) else { return false };
            if !met.insert(id) || *recorded != link {
                return false;
            }
            match data.graft() {
                Some(_) if !data.children.is_empty() => return false,
                Some(g) => ahead.extend(self.root_of(g).map(|r| (r, Some((id, 0))))),
                None => ahead.extend((0..).zip(&data.children).map(|(i, c)| ((id.0, *c), Some((id, i))))),
            }
        }
        let grafts = self.grafts();
        let grafted: BTreeSet<Tid> = grafts.iter().map(|g| g.0).collect();
        let ids: BTreeSet<Tid> = self.trees.iter().map(|t| t.0).collect();
        met.len() == self.nodes.len()
            && grafted.len() == grafts.len()
            && !grafted.contains(&ROOT)
            && self.trees[0].0 == ROOT
            && ids.len() == self.trees.len()
            && self.trees.iter().all(|(id, at)| {
                at.is_none()
                    || (*id == ROOT || grafted.contains(id))
                        && self.root_of(*id).is_some_and(|r| self.nodes.contains_key(&r))
            })
    }

    /// Document 01: "A state is sound when".
    pub fn sound(&self) -> bool {
        self.sound_links()
            && self.nodes.len() <= NODES
            && self.trees.len() <= TREES
            && self.nodes.values().all(|(_, d)| d.fits())
            && self.effective_focus().is_some_and(|f| self.nodes.contains_key(&f))
    }
}
