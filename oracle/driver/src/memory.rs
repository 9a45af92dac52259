//! The library's memory: how a plain state lies in it, and the plain state that any memory shows, as
//! state_array/specs/View reads it. The places are those of state_array/specs/Layout.
use calls::plain::{Data, Id, Link, State, Tid};
use cartgravel::{STATE_WORDS, sys};

/// Room for nodes, trees and child entries.
pub const SLOTS: usize = 320;
pub const TREES: usize = 32;
pub const ENTRIES: usize = 512;

/// The head: how many nodes, how many trees, the host flag.
pub const COUNT: usize = 0;
pub const TREE_COUNT: usize = 1;
pub const HOST: usize = 2;

/// The fields of a tree: its id, root, focus and whether it exists.
pub const TREE_FIELDS: usize = 5;
/// The fields of a node: its id, its parent and place, and whether it has them; the graft, the flags, the children, the
/// active descendant, the role; the label's length, four words of label, ten floats.
pub const NODE_FIELDS: usize = 28;
pub const NODE: usize = 1;
pub const PARENT: usize = 2;
pub const LINKED: usize = 5;
pub const FIRST_CHILD: usize = 9;
pub const CHILD_COUNT: usize = 10;
pub const LABEL_LENGTH: usize = 13;
pub const LABEL: usize = 14;
pub const FLOATS: usize = 18;

/// Where field j of tree k stands.
pub fn entry(j: usize, k: usize) -> usize {
    8 + TREES * j + k
}

/// Where field f of the node in slot i stands.
pub fn place(f: usize, i: usize) -> usize {
    entry(0, TREE_FIELDS * TREES) + SLOTS * f + i
}

/// Where child entry j stands.
pub fn child(j: usize) -> usize {
    place(NODE_FIELDS, j)
}

/// Memory with every word 0: the blank state.
pub fn blank() -> Box<sys::State> {
    Box::new(sys::State::blank())
}

/// Memory that a start is handed: it never looks at it.
pub fn littered() -> Box<sys::State> {
    Box::new(sys::State { words: [0x5eed_f00d_cafe_0002; STATE_WORDS] })
}

/// How many slots hold nodes, and how many trees there are room for and counted.
pub fn counts(m: &sys::State) -> (usize, usize) {
    (m.words[COUNT].min(SLOTS as u64) as usize, m.words[TREE_COUNT].min(TREES as u64) as usize)
}

/// A state as the library writes it: what there is no room for is left out, what is not used is 0.
pub fn written(s: &State) -> Box<sys::State> {
    let mut m = blank();
    let mut first = 0;
    for (i, (id, (link, d))) in s.nodes.iter().enumerate().take(SLOTS) {
        write_node(&mut m, i, id, link, d, first);
        first += d.children.len();
    }
    for (k, (id, at)) in s.trees.iter().enumerate().take(TREES) {
        let (root, focus) = at.unwrap_or_default();
        for (j, word) in [id.0, id.1, root, focus, at.is_some() as u64].into_iter().enumerate() {
            m.words[entry(j, k)] = word;
        }
    }
    m.words[COUNT] = s.nodes.len() as u64;
    m.words[TREE_COUNT] = s.trees.len() as u64;
    m.words[HOST] = s.host as u64;
    m
}

/// The node in slot i, its children from an entry on.
fn write_node(m: &mut sys::State, i: usize, id: &Id, link: &Link, d: &Data, first: usize) {
    let (parent, at) = link.unwrap_or_default();
    let head = [id.0 as u64, id.1, parent.0 as u64, parent.1, at, link.is_some() as u64, d.graft.0, d.graft.1];
    let rest =
        [d.flags as u64, first as u64, d.children.len() as u64, d.active, d.role as u64, d.label.len() as u64];
    let mut label = [0; 32];
    label.iter_mut().zip(&d.label).for_each(|(place, b)| *place = *b);
    let (label, _) = label.as_chunks::<8>();
    let label = label.iter().map(|bytes| u64::from_le_bytes(*bytes));
    let floats = d.bounds.iter().chain(&d.transform).copied();
    for (f, word) in head.into_iter().chain(rest).chain(label).chain(floats).enumerate() {
        m.words[place(f, i)] = word;
    }
    for (j, c) in d.children.iter().enumerate().take(ENTRIES.saturating_sub(first)) {
        m.words[child(first + j)] = *c;
    }
}

/// The state that a memory shows; none where the ids do not ascend, which is not sound.
pub fn shown(m: &sys::State) -> Option<State> {
    let mut s = State { host: m.words[HOST] != 0, ..State::default() };
    for i in 0..counts(m).0 {
        let id = id_shown(m, 0, i);
        if s.nodes.last_key_value().is_some_and(|(last, _)| *last >= id) {
            return None;
        }
        s.nodes.insert(id, (link_shown(m, i), data_shown(m, i)));
    }
    s.trees = trees_shown(m);
    Some(s)
}

/// The nodes that a memory shows, slot by slot, also where the ids do not ascend.
pub fn nodes_shown(m: &sys::State) -> Vec<(Id, Link, Data)> {
    (0..counts(m).0).map(|i| (id_shown(m, 0, i), link_shown(m, i), data_shown(m, i))).collect()
}

/// The trees that a memory shows: of a count past the table one more than there is room for.
pub fn trees_shown(m: &sys::State) -> Vec<(Tid, Option<(u64, u64)>)> {
    let row = |k: usize| if k < TREES { [0, 1, 2, 3, 4].map(|j| m.words[entry(j, k)]) } else { [0; TREE_FIELDS] };
    let rows = (0..m.words[TREE_COUNT].min(TREES as u64 + 1) as usize).map(row);
    rows.map(|r| ((r[0], r[1]), (r[4] != 0).then_some((r[2], r[3])))).collect()
}

/// The id whose tree number is field f of slot i; a tree number is cut at the largest.
fn id_shown(m: &sys::State, f: usize, i: usize) -> Id {
    (m.words[place(f, i)].min(u32::MAX as u64) as u32, m.words[place(f + 1, i)])
}

/// The link of the node in slot i.
fn link_shown(m: &sys::State, i: usize) -> Link {
    (m.words[place(LINKED, i)] != 0).then_some((id_shown(m, PARENT, i), m.words[place(PARENT + 2, i)]))
}

/// The data of the node in slot i.
fn data_shown(m: &sys::State, i: usize) -> Data {
    let word = |f: usize| m.words[place(f, i)];
    let label: Vec<u8> = (LABEL..FLOATS).flat_map(|f| word(f).to_le_bytes()).collect();
    // a label over 64 bytes is as wrong as one of 64; no sound state has a child entry past the last, or more than slots
    let byte = |j: u64| label.get(j as usize).copied().unwrap_or(0);
    let entry = |j: u64| match word(FIRST_CHILD).checked_add(j) {
        Some(at) if at < ENTRIES as u64 => m.words[child(at as usize)],
        _ => word(NODE),
    };
    // a number past the byte is one that no record has: it is shown as a flag that no record has
    let odd = word(8) > 63 || word(12) > 255;
    Data {
        active: word(11),
        graft: (word(6), word(7)),
        children: (0..word(CHILD_COUNT).min(ENTRIES as u64)).map(entry).collect(),
        label: (0..word(LABEL_LENGTH).min(64)).map(byte).collect(),
        role: word(12) as u8,
        flags: if odd { word(8) as u8 & 63 | 64 } else { word(8) as u8 },
        bounds: std::array::from_fn(|k| word(FLOATS + k)),
        transform: std::array::from_fn(|k| word(FLOATS + 4 + k)),
    }
}

#[cfg(test)]
mod tests {
    use super::*;
    use calls::cases;

    #[test]
    fn a_written_state_is_shown() {
        let s = cases::states().nested.plain;
        assert_eq!(shown(&written(&s)), Some(s));
    }

    #[test]
    fn the_words_end_with_the_child_entries() {
        assert_eq!(child(ENTRIES), blank().words.len());
    }

    #[test]
    fn ids_out_of_order_show_no_state() {
        let mut m = written(&cases::states().s.plain);
        m.words.swap(place(NODE, 0), place(NODE, 1));
        assert_eq!(shown(&m), None);
    }

    #[test]
    fn a_child_past_the_last_entry_is_the_node_itself() {
        let mut m = written(&cases::states().s.plain);
        m.words[place(FIRST_CHILD, 0)] = 511;
        let s = shown(&m).unwrap();
        assert_eq!(s.nodes[&(0, 1)].1.children, [0, 1]);
        assert!(!s.sound());
    }

    #[test]
    fn trees_past_the_table_are_zeros() {
        let mut m = written(&cases::states().s.plain);
        m.words[TREE_COUNT] = 1 << 40;
        let s = shown(&m).unwrap();
        assert_eq!((s.trees.len(), s.trees[32]), (33, ((0, 0), None)));
        assert!(!s.sound());
    }

    #[test]
    fn a_label_past_its_room_keeps_its_length() {
        let mut m = written(&cases::states().s.plain);
        m.words[place(LABEL_LENGTH, 0)] = 40;
        assert_eq!(shown(&m).unwrap().nodes[&(0, 1)].1.label.len(), 40);
    }

    #[test]
    fn a_tree_number_is_cut_at_the_largest() {
        let mut m = written(&cases::states().s.plain);
        m.words[place(0, 2)] = 1 << 32;
        assert!(shown(&m).unwrap().nodes.contains_key(&(u32::MAX, 3)));
    }

    #[test]
    fn a_role_past_the_byte_is_not_sound() {
        let mut m = written(&cases::states().s.plain);
        m.words[place(12, 1)] = 256;
        assert!(!shown(&m).unwrap().sound());
    }

    #[test]
    fn any_flag_word_but_zero_is_set() {
        let s = cases::states().s.plain;
        let mut m = written(&s);
        (m.words[place(LINKED, 1)], m.words[entry(4, 0)], m.words[HOST]) = (7, 1 << 40, 200);
        assert_eq!(shown(&m), Some(s));
    }
}
