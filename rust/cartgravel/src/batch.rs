//! Batches: what a tree's owner sends. src/record.rs turns one into bytes, and bytes into one.
use crate::record::Parts;
use crate::{Affine, CHILD_ENTRIES, LABEL_BYTES, LISTED_NODES, NodeData, NodeId, Rect, Role, TreeId};
use core::error::Error;
use core::iter::FusedIterator;
use core::{fmt, slice};

/// A node that a batch lists. It borrows its label and its children.
#[derive(Clone, Debug, Default, PartialEq)]
#[must_use]
pub struct Node<'a> {
    /// Its number.
    pub id: NodeId,
    /// What it says of itself.
    pub data: NodeData,
    /// Its label: any bytes, at most [`LABEL_BYTES`].
    pub label: &'a [u8],
    /// Its children, in order.
    pub children: Children<'a>,
}

impl<'a> Node<'a> {
    /// A node with this number: a generic container without anything else.
    pub fn new(id: impl Into<NodeId>) -> Self {
        Self { id: id.into(), ..Self::default() }
    }

    /// With all of this instead of what it said of itself.
    pub fn data(mut self, data: NodeData) -> Self {
        self.data = data;
        self
    }

    /// With this role.
    pub fn role(mut self, role: impl Into<Role>) -> Self {
        self.data.role = role.into();
        self
    }

    /// With this label: any bytes, at most [`LABEL_BYTES`].
    pub fn label<L: AsRef<[u8]> + ?Sized>(mut self, label: &'a L) -> Self {
        self.label = label.as_ref();
        self
    }

    /// With these children, in order.
    pub fn children(mut self, children: impl Into<Children<'a>>) -> Self {
        self.children = children.into();
        self
    }

    /// Hidden, and all below it; or not.
    pub fn hidden(mut self, hidden: bool) -> Self {
        self.data.hidden = hidden;
        self
    }

    /// Clipping its children, or not.
    pub fn clips_children(mut self, clips_children: bool) -> Self {
        self.data.clips_children = clips_children;
        self
    }

    /// Passing the focus on to this node of its tree.
    pub fn active_descendant(mut self, id: impl Into<NodeId>) -> Self {
        self.data.active_descendant = Some(id.into());
        self
    }

    /// Holding another tree in its place.
    pub fn graft(mut self, tree: impl Into<TreeId>) -> Self {
        self.data.graft = Some(tree.into());
        self
    }

    /// With these bounds.
    pub fn bounds(mut self, bounds: impl Into<Rect>) -> Self {
        self.data.bounds = Some(bounds.into());
        self
    }

    /// With this transform.
    pub fn transform(mut self, transform: impl Into<Affine>) -> Self {
        self.data.transform = Some(transform.into());
        self
    }

    /// Whether a record can hold it.
    fn check(&self) -> Result<(), EncodeError> {
        if self.label.len() > LABEL_BYTES {
            return Err(EncodeError::LabelTooLong { node: self.id, bytes: self.label.len() });
        }
        if !self.data.floats().all(f64::is_finite) {
            return Err(EncodeError::NotFinite { node: self.id });
        }
        Ok(())
    }
}

/// The children that a [`Node`] names, as an iterator: `&[2, 3]`, `&[NodeId(2), NodeId(3)]`, or those of a record.
#[derive(Clone)]
pub struct Children<'a>(Entries<'a>);

/// Where the numbers stand.
#[derive(Clone)]
enum Entries<'a> {
    Numbers(slice::Iter<'a, u64>),
    Ids(slice::Iter<'a, NodeId>),
    Record(slice::Iter<'a, [u8; 8]>),
}

impl<'a> Children<'a> {
    /// The child entries of a record.
    pub(crate) fn of_record(entries: &'a [[u8; 8]]) -> Self {
        Self(Entries::Record(entries.iter()))
    }
}

impl Iterator for Children<'_> {
    type Item = NodeId;

    fn next(&mut self) -> Option<NodeId> {
        match &mut self.0 {
            Entries::Numbers(numbers) => numbers.next().copied().map(NodeId),
            Entries::Ids(ids) => ids.next().copied(),
            Entries::Record(entries) => entries.next().copied().map(u64::from_le_bytes).map(NodeId),
        }
    }

    fn size_hint(&self) -> (usize, Option<usize>) {
        match &self.0 {
            Entries::Numbers(numbers) => numbers.size_hint(),
            Entries::Ids(ids) => ids.size_hint(),
            Entries::Record(entries) => entries.size_hint(),
        }
    }
}

impl ExactSizeIterator for Children<'_> {}

impl FusedIterator for Children<'_> {}

impl Default for Children<'_> {
    fn default() -> Self {
        Self(Entries::Ids([].iter()))
    }
}

impl<'a> From<&'a [u64]> for Children<'a> {
    fn from(numbers: &'a [u64]) -> Self {
        Self(Entries::Numbers(numbers.iter()))
    }
}

impl<'a, const N: usize> From<&'a [u64; N]> for Children<'a> {
    fn from(numbers: &'a [u64; N]) -> Self {
        Self(Entries::Numbers(numbers.iter()))
    }
}

impl<'a> From<&'a [NodeId]> for Children<'a> {
    fn from(ids: &'a [NodeId]) -> Self {
        Self(Entries::Ids(ids.iter()))
    }
}

impl<'a, const N: usize> From<&'a [NodeId; N]> for Children<'a> {
    fn from(ids: &'a [NodeId; N]) -> Self {
        Self(Entries::Ids(ids.iter()))
    }
}

impl PartialEq for Children<'_> {
    fn eq(&self, other: &Self) -> bool {
        self.clone().eq(other.clone())
    }
}

impl fmt::Debug for Children<'_> {
    fn fmt(&self, f: &mut fmt::Formatter<'_>) -> fmt::Result {
        f.debug_list().entries(self.clone()).finish()
    }
}

/// A batch: to be made and encoded, or decoded from a record. It borrows its nodes.
///
/// ```
/// use cartgravel::{Batch, Node, RECORD_BYTES, TreeId};
///
/// let nodes = [
///     Node::new(1).role(4).children(&[2]),
///     Node::new(2).role(4).label("Pay").bounds([0.0, 0.0, 80.0, 24.0]),
/// ];
/// let batch = Batch::new(TreeId::ROOT, 2).root(1).nodes(&nodes);
/// let mut buffer = [0; RECORD_BYTES];
/// let record = batch.encode(&mut buffer)?;
/// assert_eq!(record.len(), 64 + 2 * 128 + 8 + 3);
///
/// let again = Batch::decode(record)?;
/// assert_eq!(again, batch);
/// assert!(again.listed().map(|node| node.label).eq([&b""[..], b"Pay"]));
/// # Ok::<(), Box<dyn std::error::Error>>(())
/// ```
#[derive(Clone, Debug, Default, PartialEq)]
#[must_use]
pub struct Batch<'a> {
    /// The tree that it is for.
    pub tree: TreeId,
    /// The tree's focus.
    pub focus: NodeId,
    /// The tree's root, where the batch has tree data.
    pub root: Option<NodeId>,
    pub(crate) nodes: ListedNodes<'a>,
}

impl<'a> Batch<'a> {
    /// A batch for this tree with this focus. It lists nothing and has no tree data.
    pub fn new(tree: impl Into<TreeId>, focus: impl Into<NodeId>) -> Self {
        Self { tree: tree.into(), focus: focus.into(), ..Self::default() }
    }

    /// With tree data: the tree's root.
    pub fn root(mut self, root: impl Into<NodeId>) -> Self {
        self.root = Some(root.into());
        self
    }

    /// With these nodes, at most [`LISTED_NODES`].
    pub fn nodes(mut self, nodes: &'a [Node<'a>]) -> Self {
        self.nodes = ListedNodes(Source::Given(nodes.iter()));
        self
    }

    /// The nodes that it lists, in order.
    pub fn listed(&self) -> ListedNodes<'a> {
        self.nodes.clone()
    }

    /// How many children its nodes name.
    pub(crate) fn entries(&self) -> usize {
        self.listed().fold(0, |sum, node| sum.saturating_add(node.children.len()))
    }

    /// How many bytes its labels have.
    pub(crate) fn label_bytes(&self) -> usize {
        self.listed().fold(0, |sum, node| sum.saturating_add(node.label.len()))
    }

    /// Whether a record can hold it.
    pub(crate) fn check(&self) -> Result<(), EncodeError> {
        let (nodes, entries) = (self.nodes.len(), self.entries());
        if nodes > LISTED_NODES {
            return Err(EncodeError::TooManyNodes { nodes });
        }
        if entries > CHILD_ENTRIES {
            return Err(EncodeError::TooManyChildren { entries });
        }
        self.listed().try_for_each(|node| node.check())
    }
}

/// The nodes that a [`Batch`] lists, as an iterator.
#[derive(Clone)]
pub struct ListedNodes<'a>(Source<'a>);

/// Where the nodes stand.
#[derive(Clone)]
enum Source<'a> {
    Given(slice::Iter<'a, Node<'a>>),
    Record(Parts<'a>),
}

impl<'a> ListedNodes<'a> {
    /// The nodes of a record.
    pub(crate) fn of_record(parts: Parts<'a>) -> Self {
        Self(Source::Record(parts))
    }
}

impl<'a> Iterator for ListedNodes<'a> {
    type Item = Node<'a>;

    fn next(&mut self) -> Option<Node<'a>> {
        match &mut self.0 {
            Source::Given(nodes) => nodes.next().cloned(),
            Source::Record(parts) => parts.next_node(),
        }
    }

    fn size_hint(&self) -> (usize, Option<usize>) {
        match &self.0 {
            Source::Given(nodes) => nodes.size_hint(),
            Source::Record(parts) => parts.nodes.size_hint(),
        }
    }
}

impl ExactSizeIterator for ListedNodes<'_> {}

impl FusedIterator for ListedNodes<'_> {}

impl Default for ListedNodes<'_> {
    fn default() -> Self {
        Self(Source::Given([].iter()))
    }
}

impl PartialEq for ListedNodes<'_> {
    fn eq(&self, other: &Self) -> bool {
        self.clone().eq(other.clone())
    }
}

impl fmt::Debug for ListedNodes<'_> {
    fn fmt(&self, f: &mut fmt::Formatter<'_>) -> fmt::Result {
        f.debug_list().entries(self.clone()).finish()
    }
}

/// Why a batch was not encoded. The limit of 2,048 label bytes has no case of its own: 64 nodes with 32 bytes each
/// keep it.
#[derive(Clone, Copy, Debug, PartialEq, Eq)]
#[non_exhaustive]
pub enum EncodeError {
    /// It lists more than [`LISTED_NODES`] nodes.
    TooManyNodes {
        /// How many it lists.
        nodes: usize,
    },
    /// Its nodes name more than [`CHILD_ENTRIES`] children.
    TooManyChildren {
        /// How many they name.
        entries: usize,
    },
    /// A label has more than [`LABEL_BYTES`] bytes.
    LabelTooLong {
        /// The node that has it.
        node: NodeId,
        /// How many bytes it has.
        bytes: usize,
    },
    /// A number of a node's bounds or transform is infinite or not a number.
    NotFinite {
        /// The node that has it.
        node: NodeId,
    },
    /// The lent buffer is too short; one of [`RECORD_BYTES`](crate::RECORD_BYTES) never is.
    BufferTooShort {
        /// How many bytes the record has.
        bytes: usize,
    },
}

impl fmt::Display for EncodeError {
    fn fmt(&self, f: &mut fmt::Formatter<'_>) -> fmt::Result {
        match self {
            Self::TooManyNodes { nodes } => write!(f, "{nodes} nodes listed, of at most {LISTED_NODES}"),
            Self::TooManyChildren { entries } => {
                write!(f, "{entries} children named, of at most {CHILD_ENTRIES}")
            }
            Self::LabelTooLong { node, bytes } => {
                write!(f, "node {node} has a label of {bytes} bytes, of at most {LABEL_BYTES}")
            }
            Self::NotFinite { node } => write!(f, "node {node} has a float that is not finite"),
            Self::BufferTooShort { bytes } => write!(f, "a record of {bytes} bytes in a shorter buffer"),
        }
    }
}

impl Error for EncodeError {}
