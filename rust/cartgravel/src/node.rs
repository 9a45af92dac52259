//! A node of a state: document 01, modules 6 to 8.
use crate::data::{Fields, NodeData};
use crate::iterators::{NodeIds, NodeRefs, Side, Walk};
use crate::label::Label;
use crate::report::present;
use crate::{
    Affine, BoundingBox, Filter, FilterResult, FullNodeId, LABEL_BYTES, NodeId, Number, Rect, Role, State,
    sys,
};
use core::fmt;

/// A node of a sound state, and what it says of itself.
///
/// [`State::node`] and the questions below hand one out; while it is there the state stays as it is. So no question
/// about it can be refused: the library is proved to answer 1 and 22 of the state and the id alone, and these were
/// asked.
#[derive(Clone, Copy)]
pub struct NodeRef<'a> {
    state: &'a State,
    id: FullNodeId,
    data: NodeData,
    child_count: usize,
}

impl State {
    /// The node with this id.
    ///
    /// # Errors
    ///
    /// [`Number::StateNotSound`], or [`Number::NodeAbsent`] where there is no such node.
    pub fn node(&self, id: FullNodeId) -> Result<NodeRef<'_>, Number> {
        let read = self.raw().node(id);
        crate::number::accepted(read.number)?;
        let fields = Fields {
            active_descendant: NodeId(read.active_descendant),
            graft: read.graft,
            bounds: read.bounds,
            transform: read.transform,
            flags: read.flags as u8,
        };
        let data = NodeData::new(Role(read.role as u8), fields);
        Ok(NodeRef { state: self, id, data, child_count: read.child_count })
    }
}

/// What the node says of itself.
impl<'a> NodeRef<'a> {
    /// The state that it is in.
    pub fn state(&self) -> &'a State {
        self.state
    }

    /// Its id.
    pub fn id(&self) -> FullNodeId {
        self.id
    }

    /// What it says of itself, its label and its children aside.
    pub fn data(&self) -> &NodeData {
        &self.data
    }

    /// Its role.
    pub fn role(&self) -> Role {
        self.data.role
    }

    /// Its label.
    pub fn label(&self) -> Label {
        let mut bytes = [0; LABEL_BYTES];
        let listed = self.state.raw().label(self.id, &mut bytes);
        Label::new(bytes, listed.length)
    }

    /// Whether it holds another tree in its place.
    pub fn is_graft(&self) -> bool {
        self.data.graft.is_some()
    }

    /// Whether it clips its children.
    pub fn clips_children(&self) -> bool {
        self.data.clips_children
    }

    /// The node that it passes the focus on to, if that is in the state.
    pub fn active_descendant(&self) -> Option<NodeRef<'a>> {
        let node = self.data.active_descendant?;
        self.state.node(self.id.with_same_tree(node)).ok()
    }

    /// Its own bounds.
    pub fn raw_bounds(&self) -> Option<Rect> {
        self.data.bounds
    }

    /// Its own transform, or the identity.
    pub fn direct_transform(&self) -> Affine {
        self.data.transform.unwrap_or_default()
    }

    /// How many children it has.
    pub fn child_count(&self) -> usize {
        self.child_count
    }
}

/// What it has from the nodes above it.
impl NodeRef<'_> {
    /// Whether it is hidden: it itself (`data().hidden`) or a node above it.
    pub fn is_hidden(&self) -> bool {
        self.state.raw().hidden(self.id).value != 0
    }

    /// Its transform, with those of the nodes above it.
    pub fn transform(&self) -> Affine {
        self.state.raw().transform(self.id).transform
    }

    /// Its bounds under that transform.
    pub fn bounding_box(&self) -> BoundingBox {
        let found = self.state.raw().bounding_box(self.id);
        if found.kind == 1 { BoundingBox::Box(found.rect) } else { BoundingBox::None }
    }

    /// What a filter says of it.
    pub fn filter(&self, filter: Filter) -> FilterResult {
        FilterResult::of(self.state.raw().filter(self.id, filter.into()).result)
    }
}

/// The nodes around it.
impl<'a> NodeRef<'a> {
    /// Its parent: of a pane's root the graft that holds it, of ROOT's root none.
    pub fn parent(&self) -> Option<NodeRef<'a>> {
        self.found(self.state.raw().parent(self.id))
    }

    /// The nearest node above it that the filter includes.
    pub fn filtered_parent(&self, filter: Filter) -> Option<NodeRef<'a>> {
        self.found(self.state.raw().filtered_parent(self.id, filter.into()))
    }

    /// Its children, in order; of a graft the root of its tree, if that exists.
    pub fn children(&self) -> NodeRefs<'a> {
        self.listed(|out| self.state.raw().children(self.id, out))
    }

    /// Its children, in order, with an excluded node's own in its place and without excluded subtrees.
    pub fn filtered_children(&self, filter: Filter) -> NodeRefs<'a> {
        self.listed(|out| self.state.raw().filtered_children(self.id, filter.into(), out))
    }

    /// The first of its filtered children.
    pub fn first_filtered_child(&self, filter: Filter) -> Option<NodeRef<'a>> {
        self.found(self.state.raw().first_filtered_child(self.id, filter.into()))
    }

    /// The last of its filtered children.
    pub fn last_filtered_child(&self, filter: Filter) -> Option<NodeRef<'a>> {
        self.found(self.state.raw().last_filtered_child(self.id, filter.into()))
    }

    /// The first filtered child, the first of that one and so on: the last on this way.
    pub fn deepest_first_filtered_child(&self, filter: Filter) -> Option<NodeRef<'a>> {
        self.found(self.state.raw().deepest_first_filtered_child(self.id, filter.into()))
    }

    /// The last filtered child, the last of that one and so on: the last on this way.
    pub fn deepest_last_filtered_child(&self, filter: Filter) -> Option<NodeRef<'a>> {
        self.found(self.state.raw().deepest_last_filtered_child(self.id, filter.into()))
    }

    /// Its siblings on one side, nearest first.
    pub fn siblings(&self, side: Side) -> NodeRefs<'a> {
        self.listed(|out| self.state.raw().siblings(self.id, side.into(), out))
    }

    /// Its siblings on one side under a filter, nearest first, those of excluded parents included.
    pub fn filtered_siblings(&self, side: Side, filter: Filter) -> NodeRefs<'a> {
        self.listed(|out| self.state.raw().filtered_siblings(self.id, filter.into(), side.into(), out))
    }

    /// The siblings after it, in order.
    pub fn following_siblings(&self) -> NodeRefs<'a> {
        self.siblings(Side::Following)
    }

    /// The siblings before it, nearest first.
    pub fn preceding_siblings(&self) -> NodeRefs<'a> {
        self.siblings(Side::Preceding)
    }

    /// The filtered siblings after it, in order.
    pub fn following_filtered_siblings(&self, filter: Filter) -> NodeRefs<'a> {
        self.filtered_siblings(Side::Following, filter)
    }

    /// The filtered siblings before it, nearest first.
    pub fn preceding_filtered_siblings(&self, filter: Filter) -> NodeRefs<'a> {
        self.filtered_siblings(Side::Preceding, filter)
    }

    /// A walk over its siblings, to be kept from one state to the next.
    pub fn walk(&self, side: Side, filter: Option<Filter>) -> Walk {
        Walk::new(self.id, side, filter)
    }

    /// The node that a question found.
    fn found(&self, found: sys::FoundId) -> Option<NodeRef<'a>> {
        self.state.node(present(found.id)?).ok()
    }

    /// The nodes that a question lists.
    fn listed(&self, ask: impl FnOnce(&mut [u64]) -> sys::Listed) -> NodeRefs<'a> {
        NodeRefs::new(self.state, NodeIds::listed(ask))
    }
}

impl fmt::Debug for NodeRef<'_> {
    fn fmt(&self, f: &mut fmt::Formatter<'_>) -> fmt::Result {
        f.debug_struct("NodeRef")
            .field("id", &self.id)
            .field("data", &self.data)
            .field("label", &self.label())
            .finish_non_exhaustive()
    }
}
