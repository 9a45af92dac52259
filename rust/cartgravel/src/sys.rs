//! The proved library's own structs and functions, as include/cartgravel.h has them: for programs that measure or
//! compare them. Others use [`State`](crate::State). The only unsafe code of this crate is here.
#![allow(unsafe_code, missing_docs)]
use crate::{Affine, FullNodeId, Rect, STATE_WORDS, TreeId, WAY_WORDS};

/// The state's memory. Any words are a value of it.
#[repr(C)]
#[derive(Clone, PartialEq, Eq)]
pub struct State {
    pub words: [u64; STATE_WORDS],
}

/// A node's id, or none: then each part is 0.
#[repr(C)]
#[derive(Clone, Copy, Debug, Default, PartialEq, Eq)]
pub struct OptionalId {
    pub node: u64,
    pub tree: u32,
    pub present: u32,
}

/// How many ids each of the four lists has.
#[repr(C)]
#[derive(Clone, Copy, Debug, Default, PartialEq, Eq)]
pub struct Lengths {
    pub added: usize,
    pub updated: usize,
    pub removed: usize,
    pub relinked: usize,
}

/// The focus before and after, and the extra ids.
#[repr(C)]
#[derive(Clone, Copy, Debug, Default, PartialEq, Eq)]
pub struct Report {
    pub focus_before: OptionalId,
    pub focus_after: OptionalId,
    pub extra_before: OptionalId,
    pub extra_after: OptionalId,
}

/// What a call answers.
#[repr(C)]
#[derive(Clone, Copy, Debug, Default, PartialEq, Eq)]
pub struct Reply {
    pub lengths: Lengths,
    pub report: Report,
    pub number: u32,
}

/// Why a call gets its number; include/cartgravel.h says what each field holds. What a number does not use is 0.
#[repr(C)]
#[derive(Clone, Copy, Debug, Default, PartialEq, Eq)]
pub struct Explanation {
    pub place: usize,
    pub other: usize,
    pub tree: TreeId,
    pub node: OptionalId,
    pub by: OptionalId,
    pub also: OptionalId,
    pub rule: u32,
    pub number: u32,
}

/// A node, if there is one.
#[repr(C)]
#[derive(Clone, Copy, Debug, Default, PartialEq, Eq)]
pub struct FoundId {
    pub id: OptionalId,
    pub number: u32,
}

/// How many ids, or bytes of a label, stand in the lent slice.
#[repr(C)]
#[derive(Clone, Copy, Debug, Default, PartialEq, Eq)]
pub struct Listed {
    pub length: usize,
    pub number: u32,
}

/// A flag, 0 or 1.
#[repr(C)]
#[derive(Clone, Copy, Debug, Default, PartialEq, Eq)]
pub struct Flag {
    pub value: u32,
    pub number: u32,
}

/// A transform.
#[repr(C)]
#[derive(Clone, Copy, Debug, PartialEq)]
pub struct PlainTransform {
    pub transform: Affine,
    pub number: u32,
}

/// A box (kind 1), or none (kind 0).
#[repr(C)]
#[derive(Clone, Copy, Debug, Default, PartialEq)]
pub struct PlainBox {
    pub rect: Rect,
    pub kind: u32,
    pub number: u32,
}

/// What a filter says: 0 Include, 1 ExcludeNode, 2 ExcludeSubtree.
#[repr(C)]
#[derive(Clone, Copy, Debug, Default, PartialEq, Eq)]
pub struct PlainResult {
    pub result: u32,
    pub number: u32,
}

/// What a node says of itself. The flags are the record's; a field whose flag is clear is 0.
#[repr(C)]
#[derive(Clone, Copy, Debug, PartialEq)]
pub struct PlainNode {
    pub bounds: Rect,
    pub transform: Affine,
    pub graft: TreeId,
    pub active_descendant: u64,
    pub label_length: usize,
    pub child_count: usize,
    pub role: u32,
    pub flags: u32,
    pub number: u32,
}

/// A tree id, if there is one.
#[repr(C)]
#[derive(Clone, Copy, Debug, Default, PartialEq, Eq)]
pub struct PlainTreeId {
    pub id: TreeId,
    pub present: u32,
    pub number: u32,
}

/// A tree number, if there is one.
#[repr(C)]
#[derive(Clone, Copy, Debug, Default, PartialEq, Eq)]
pub struct PlainIndex {
    pub index: u32,
    pub present: u32,
    pub number: u32,
}

/// The root and the focus of a tree, if it exists.
#[repr(C)]
#[derive(Clone, Copy, Debug, Default, PartialEq, Eq)]
pub struct PlainEnds {
    pub root: OptionalId,
    pub focus: OptionalId,
    pub number: u32,
}

/// How many nodes and tree numbers there are, and the host flag.
#[repr(C)]
#[derive(Clone, Copy, Debug, Default, PartialEq, Eq)]
pub struct PlainCounts {
    pub nodes: usize,
    pub trees: usize,
    pub host_focused: u32,
    pub number: u32,
}

/// A kept walk over siblings. Any values are a walk.
#[repr(C)]
#[derive(Clone, Copy, Debug, Default, PartialEq, Eq, Hash)]
pub struct Walk {
    pub node: FullNodeId,
    pub side: u32,
    pub filter: u32,
    pub count: u64,
}

// SAFETY: these are the archive's functions with the types of include/cartgravel.h. They keep no pointer. A `safe` one
// takes values and references alone, and answers for any words that these hold.
unsafe extern "C" {
    fn cartgravel_start(state: &mut State, batch: *const u8, length: usize, host_focused: u32) -> Reply;
    fn cartgravel_update(
        state: &mut State,
        batch: *const u8,
        length: usize,
        changes: *mut u64,
        room: usize,
    ) -> Reply;
    safe fn cartgravel_host_focus(state: &mut State, host_focused: u32) -> Reply;

    fn cartgravel_explain(
        state: &State,
        batch: *const u8,
        length: usize,
        room: usize,
        way: &mut [u64; WAY_WORDS],
    ) -> Explanation;
    fn cartgravel_explain_start(
        memory: &mut State,
        batch: *const u8,
        length: usize,
        way: &mut [u64; WAY_WORDS],
    ) -> Explanation;

    safe fn cartgravel_node(state: &State, id: FullNodeId) -> PlainNode;
    fn cartgravel_label(state: &State, id: FullNodeId, out: *mut u8, room: usize) -> Listed;
    safe fn cartgravel_focus(state: &State) -> FoundId;
    safe fn cartgravel_root(state: &State) -> FoundId;
    safe fn cartgravel_tree_id(state: &State, index: u32) -> PlainTreeId;
    safe fn cartgravel_tree_index(state: &State, id: TreeId) -> PlainIndex;
    safe fn cartgravel_tree_ends(state: &State, index: u32) -> PlainEnds;
    safe fn cartgravel_counts(state: &State) -> PlainCounts;
    safe fn cartgravel_parent(state: &State, id: FullNodeId) -> FoundId;
    fn cartgravel_children(state: &State, id: FullNodeId, out: *mut u64, room: usize) -> Listed;
    safe fn cartgravel_hidden(state: &State, id: FullNodeId) -> Flag;
    safe fn cartgravel_transform(state: &State, id: FullNodeId) -> PlainTransform;
    safe fn cartgravel_bounding_box(state: &State, id: FullNodeId) -> PlainBox;
    safe fn cartgravel_filter(state: &State, id: FullNodeId, filter: u32) -> PlainResult;
    safe fn cartgravel_filtered_parent(state: &State, id: FullNodeId, filter: u32) -> FoundId;
    safe fn cartgravel_first_filtered_child(state: &State, id: FullNodeId, filter: u32) -> FoundId;
    safe fn cartgravel_last_filtered_child(state: &State, id: FullNodeId, filter: u32) -> FoundId;
    safe fn cartgravel_deepest_first_filtered_child(state: &State, id: FullNodeId, filter: u32) -> FoundId;
    safe fn cartgravel_deepest_last_filtered_child(state: &State, id: FullNodeId, filter: u32) -> FoundId;
    fn cartgravel_siblings(state: &State, id: FullNodeId, side: u32, out: *mut u64, room: usize) -> Listed;
    fn cartgravel_filtered_children(
        state: &State,
        id: FullNodeId,
        filter: u32,
        out: *mut u64,
        room: usize,
    ) -> Listed;
    fn cartgravel_filtered_siblings(
        state: &State,
        id: FullNodeId,
        filter: u32,
        side: u32,
        out: *mut u64,
        room: usize,
    ) -> Listed;
    safe fn cartgravel_next(walk: &mut Walk, state: &State) -> FoundId;
}

/// The calls.
impl State {
    /// The state of zeros, with no node and no tree.
    pub const fn blank() -> Self {
        Self { words: [0; STATE_WORDS] }
    }

    /// A start, into this state.
    pub fn start(&mut self, batch: &[u8], host_focused: bool) -> Reply {
        // SAFETY: a slice's pointer is not null and points to its length of bytes, which are lent for the call.
        unsafe { cartgravel_start(self, batch.as_ptr(), batch.len(), host_focused.into()) }
    }

    /// A batch on this state.
    pub fn update(&mut self, batch: &[u8], changes: &mut [u64]) -> Reply {
        // SAFETY: as above, for both slices; `changes` is lent alone, so it overlaps nothing.
        unsafe { cartgravel_update(self, batch.as_ptr(), batch.len(), changes.as_mut_ptr(), changes.len()) }
    }

    /// A host focus change of this state.
    pub fn host_focus(&mut self, host_focused: bool) -> Reply {
        cartgravel_host_focus(self, host_focused.into())
    }
}

/// Why a call gets its number.
impl State {
    /// Why a batch on this state gets its number, with so many elements lent for its lists.
    pub fn explain(&self, batch: &[u8], room: usize, way: &mut [u64; WAY_WORDS]) -> Explanation {
        // SAFETY: a slice's pointer is not null and points to its length of bytes, which are lent for the call; `way` is
        // lent alone, so it overlaps nothing.
        unsafe { cartgravel_explain(self, batch.as_ptr(), batch.len(), room, way) }
    }

    /// Why a start gets its number. This state is the memory that is worked in, and is blank afterwards.
    pub fn explain_start(&mut self, batch: &[u8], way: &mut [u64; WAY_WORDS]) -> Explanation {
        // SAFETY: as above; this state is lent alone too.
        unsafe { cartgravel_explain_start(self, batch.as_ptr(), batch.len(), way) }
    }
}

/// The questions about the state.
impl State {
    /// The focus.
    pub fn focus(&self) -> FoundId {
        cartgravel_focus(self)
    }

    /// ROOT's root.
    pub fn root(&self) -> FoundId {
        cartgravel_root(self)
    }

    /// The tree id of a tree number.
    pub fn tree_id(&self, index: u32) -> PlainTreeId {
        cartgravel_tree_id(self, index)
    }

    /// The tree number of a tree id.
    pub fn tree_index(&self, id: TreeId) -> PlainIndex {
        cartgravel_tree_index(self, id)
    }

    /// The root and the focus of a tree.
    pub fn tree_ends(&self, index: u32) -> PlainEnds {
        cartgravel_tree_ends(self, index)
    }

    /// The counts and the host flag.
    pub fn counts(&self) -> PlainCounts {
        cartgravel_counts(self)
    }
}

/// The questions about a node.
impl State {
    /// What the node says of itself.
    pub fn node(&self, id: FullNodeId) -> PlainNode {
        cartgravel_node(self, id)
    }

    /// Its label's bytes.
    pub fn label(&self, id: FullNodeId, out: &mut [u8]) -> Listed {
        // SAFETY: a slice's pointer is not null and points to its length of elements, which are lent alone for the call.
        unsafe { cartgravel_label(self, id, out.as_mut_ptr(), out.len()) }
    }

    /// Its parent.
    pub fn parent(&self, id: FullNodeId) -> FoundId {
        cartgravel_parent(self, id)
    }

    /// Its children.
    pub fn children(&self, id: FullNodeId, out: &mut [u64]) -> Listed {
        // SAFETY: as for `label`.
        unsafe { cartgravel_children(self, id, out.as_mut_ptr(), out.len()) }
    }

    /// Whether it or one of its ancestors is hidden.
    pub fn hidden(&self, id: FullNodeId) -> Flag {
        cartgravel_hidden(self, id)
    }

    /// Its transform, its ancestors' included.
    pub fn transform(&self, id: FullNodeId) -> PlainTransform {
        cartgravel_transform(self, id)
    }

    /// Its bounding box.
    pub fn bounding_box(&self, id: FullNodeId) -> PlainBox {
        cartgravel_bounding_box(self, id)
    }

    /// What a filter says of it.
    pub fn filter(&self, id: FullNodeId, filter: u32) -> PlainResult {
        cartgravel_filter(self, id, filter)
    }

    /// Its nearest included ancestor.
    pub fn filtered_parent(&self, id: FullNodeId, filter: u32) -> FoundId {
        cartgravel_filtered_parent(self, id, filter)
    }

    /// The first of its filtered children.
    pub fn first_filtered_child(&self, id: FullNodeId, filter: u32) -> FoundId {
        cartgravel_first_filtered_child(self, id, filter)
    }

    /// The last of its filtered children.
    pub fn last_filtered_child(&self, id: FullNodeId, filter: u32) -> FoundId {
        cartgravel_last_filtered_child(self, id, filter)
    }

    /// Where the way down by first filtered children ends.
    pub fn deepest_first_filtered_child(&self, id: FullNodeId, filter: u32) -> FoundId {
        cartgravel_deepest_first_filtered_child(self, id, filter)
    }

    /// Where the way down by last filtered children ends.
    pub fn deepest_last_filtered_child(&self, id: FullNodeId, filter: u32) -> FoundId {
        cartgravel_deepest_last_filtered_child(self, id, filter)
    }

    /// Its siblings on one side.
    pub fn siblings(&self, id: FullNodeId, side: u32, out: &mut [u64]) -> Listed {
        // SAFETY: as for `label`.
        unsafe { cartgravel_siblings(self, id, side, out.as_mut_ptr(), out.len()) }
    }

    /// Its filtered children.
    pub fn filtered_children(&self, id: FullNodeId, filter: u32, out: &mut [u64]) -> Listed {
        // SAFETY: as for `label`.
        unsafe { cartgravel_filtered_children(self, id, filter, out.as_mut_ptr(), out.len()) }
    }

    /// Its filtered siblings on one side.
    pub fn filtered_siblings(&self, id: FullNodeId, filter: u32, side: u32, out: &mut [u64]) -> Listed {
        // SAFETY: as for `label`.
        unsafe { cartgravel_filtered_siblings(self, id, filter, side, out.as_mut_ptr(), out.len()) }
    }
}

impl Walk {
    /// The next sibling.
    pub fn next(&mut self, state: &State) -> FoundId {
        cartgravel_next(self, state)
    }
}
