//! Lists of nodes and the kept walk: document 01, "Filter and walks".
use crate::node::NodeRef;
use crate::number::{Number, accepted};
use crate::report::{full_id, present};
use crate::{Filter, FullNodeId, NODES, State, sys};
use core::fmt;
use core::iter::FusedIterator;
use core::ops::Range;

/// A side of a node among its siblings.
#[derive(Clone, Copy, Debug, PartialEq, Eq, PartialOrd, Ord, Hash)]
#[repr(u32)]
pub enum Side {
    /// Those after it, in order.
    Following = 0,
    /// Those before it, the nearest first.
    Preceding = 1,
}

impl From<Side> for u32 {
    fn from(side: Side) -> Self {
        side as u32
    }
}

/// Ids in order, as an iterator that holds them: room for every node of a state, 4 KiB.
#[derive(Clone)]
pub struct NodeIds {
    ids: [[u64; 2]; NODES],
    left: Range<usize>,
}

impl NodeIds {
    /// What a question lists. The room suffices for any list.
    pub(crate) fn listed(ask: impl FnOnce(&mut [u64]) -> sys::Listed) -> Self {
        let mut ids = [[0; 2]; NODES];
        let listed = ask(ids.as_flattened_mut());
        Self { ids, left: 0..listed.length.min(NODES) }
    }
}

impl Iterator for NodeIds {
    type Item = FullNodeId;

    fn next(&mut self) -> Option<FullNodeId> {
        self.left.next().and_then(|at| self.ids.get(at)).map(full_id)
    }

    fn size_hint(&self) -> (usize, Option<usize>) {
        self.left.size_hint()
    }
}

impl DoubleEndedIterator for NodeIds {
    fn next_back(&mut self) -> Option<FullNodeId> {
        self.left.next_back().and_then(|at| self.ids.get(at)).map(full_id)
    }
}

impl ExactSizeIterator for NodeIds {}

impl FusedIterator for NodeIds {}

impl PartialEq for NodeIds {
    fn eq(&self, other: &Self) -> bool {
        self.clone().eq(other.clone())
    }
}

impl Eq for NodeIds {}

impl fmt::Debug for NodeIds {
    fn fmt(&self, f: &mut fmt::Formatter<'_>) -> fmt::Result {
        f.debug_list().entries(self.clone()).finish()
    }
}

/// Nodes in order, as an iterator that reads each when it is reached.
#[derive(Clone)]
pub struct NodeRefs<'a> {
    state: &'a State,
    ids: NodeIds,
}

impl<'a> NodeRefs<'a> {
    pub(crate) fn new(state: &'a State, ids: NodeIds) -> Self {
        Self { state, ids }
    }

    /// Their ids, without reading the nodes.
    pub fn ids(self) -> NodeIds {
        self.ids
    }
}

impl<'a> Iterator for NodeRefs<'a> {
    type Item = NodeRef<'a>;

    fn next(&mut self) -> Option<NodeRef<'a>> {
        self.state.node(self.ids.next()?).ok()
    }

    fn size_hint(&self) -> (usize, Option<usize>) {
        self.ids.size_hint()
    }
}

impl DoubleEndedIterator for NodeRefs<'_> {
    fn next_back(&mut self) -> Option<Self::Item> {
        self.state.node(self.ids.next_back()?).ok()
    }
}

impl ExactSizeIterator for NodeRefs<'_> {}

impl FusedIterator for NodeRefs<'_> {}

impl fmt::Debug for NodeRefs<'_> {
    fn fmt(&self, f: &mut fmt::Formatter<'_>) -> fmt::Result {
        self.ids.fmt(f)
    }
}

/// A walk over the siblings of a node on one side, nearest first. Its owner keeps it, from one state to the next.
///
/// It names a node, a side, a filter or none, and how many siblings it has handed out. [`next`](Walk::next) answers
/// the sibling after these in the state that it is given.
#[derive(Clone, Debug, PartialEq, Eq, Hash)]
pub struct Walk(sys::Walk);

impl Walk {
    /// A walk from this node, which has handed out nothing.
    pub fn new(node: FullNodeId, side: Side, filter: Option<Filter>) -> Self {
        let filter = filter.map_or(0, u32::from);
        Self(sys::Walk { node, side: side.into(), filter, count: 0 })
    }

    /// The next sibling, or none at the end. At the end and at an error the walk stays as it was.
    ///
    /// # Errors
    ///
    /// [`Number::StateNotSound`], or [`Number::NodeAbsent`] where the walk's node is not in the state.
    pub fn next(&mut self, state: &State) -> Result<Option<FullNodeId>, Number> {
        let found = self.0.next(state.raw());
        accepted(found.number)?;
        Ok(present(found.id))
    }

    /// The node from which it goes.
    pub fn node(&self) -> FullNodeId {
        self.0.node
    }

    /// How many siblings it has handed out.
    pub fn count(&self) -> u64 {
        self.0.count
    }
}
