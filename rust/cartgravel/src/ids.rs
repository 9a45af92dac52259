//! How a node is named. A tree number and a node number are types of their own, so neither is ever taken for the
//! other.
use core::error::Error;
use core::fmt;

/// A tree number: its tree's place in the order in which tree ids were first accepted.
#[derive(Clone, Copy, Debug, Default, PartialEq, Eq, PartialOrd, Ord, Hash)]
#[repr(transparent)]
pub struct TreeIndex(pub u32);

/// A node number, which a tree's owner chooses. 0 is an ordinary one.
#[derive(Clone, Copy, Debug, Default, PartialEq, Eq, PartialOrd, Ord, Hash)]
#[repr(transparent)]
pub struct NodeId(pub u64);

/// A node's name in a state that holds several trees. Ids are ordered by tree number, then node number.
#[derive(Clone, Copy, Debug, Default, PartialEq, Eq, PartialOrd, Ord, Hash)]
#[repr(C)]
pub struct FullNodeId {
    /// The node's tree.
    pub tree: TreeIndex,
    /// Its number there.
    pub node: NodeId,
}

/// A tree id, which its owner chooses: the two halves of a UUID.
#[derive(Clone, Copy, Debug, Default, PartialEq, Eq, PartialOrd, Ord, Hash)]
#[repr(C)]
pub struct TreeId {
    /// The upper 64 bits.
    pub high: u64,
    /// The lower 64 bits.
    pub low: u64,
}

impl TreeIndex {
    /// The number of [`TreeId::ROOT`].
    pub const ROOT: Self = Self(0);

    /// The id of this tree's node with that number: `TreeIndex::ROOT.node(3)`.
    pub fn node(self, node: impl Into<NodeId>) -> FullNodeId {
        FullNodeId::new(self, node.into())
    }
}

impl FullNodeId {
    /// The node with that number in the tree with that number.
    pub const fn new(tree: TreeIndex, node: NodeId) -> Self {
        Self { tree, node }
    }

    /// Another node of the same tree.
    pub const fn with_same_tree(self, node: NodeId) -> Self {
        Self { tree: self.tree, node }
    }
}

impl TreeId {
    /// The tree that a state starts with.
    pub const ROOT: Self = Self { high: 0, low: 0 };
}

impl From<u64> for NodeId {
    fn from(number: u64) -> Self {
        Self(number)
    }
}

impl From<NodeId> for u64 {
    fn from(id: NodeId) -> Self {
        id.0
    }
}

impl From<u32> for TreeIndex {
    fn from(number: u32) -> Self {
        Self(number)
    }
}

impl From<TreeIndex> for u32 {
    fn from(index: TreeIndex) -> Self {
        index.0
    }
}

/// The 128 bits of a UUID, as the accesskit crate has its tree ids.
impl From<u128> for TreeId {
    fn from(bits: u128) -> Self {
        Self { high: (bits >> 64) as u64, low: bits as u64 }
    }
}

impl From<TreeId> for u128 {
    fn from(id: TreeId) -> Self {
        Self::from(id.high) << 64 | Self::from(id.low)
    }
}

impl From<(TreeIndex, NodeId)> for FullNodeId {
    fn from((tree, node): (TreeIndex, NodeId)) -> Self {
        Self { tree, node }
    }
}

/// As accesskit_consumer has it: the node number above, the tree number below.
impl From<FullNodeId> for u128 {
    fn from(id: FullNodeId) -> Self {
        Self::from(id.node.0) << 64 | Self::from(id.tree.0)
    }
}

impl TryFrom<u128> for FullNodeId {
    type Error = NoSuchId;

    /// The id of those bits. The lower 64 have to be a tree number.
    fn try_from(bits: u128) -> Result<Self, NoSuchId> {
        let tree = u32::try_from(bits as u64).map_err(|_| NoSuchId(bits))?;
        Ok(Self { tree: TreeIndex(tree), node: NodeId((bits >> 64) as u64) })
    }
}

/// Bits that name no node: their lower 64 are no tree number.
#[derive(Clone, Copy, Debug, PartialEq, Eq)]
pub struct NoSuchId(pub u128);

impl fmt::Display for NoSuchId {
    fn fmt(&self, f: &mut fmt::Formatter<'_>) -> fmt::Result {
        write!(f, "{} is no tree number", self.0 as u64)
    }
}

impl Error for NoSuchId {}

impl fmt::Display for TreeIndex {
    fn fmt(&self, f: &mut fmt::Formatter<'_>) -> fmt::Result {
        self.0.fmt(f)
    }
}

impl fmt::Display for NodeId {
    fn fmt(&self, f: &mut fmt::Formatter<'_>) -> fmt::Result {
        self.0.fmt(f)
    }
}

/// As document 01 writes an id: `(1, 2)` is node 2 of tree 1.
impl fmt::Display for FullNodeId {
    fn fmt(&self, f: &mut fmt::Formatter<'_>) -> fmt::Result {
        write!(f, "({}, {})", self.tree, self.node)
    }
}

/// As a UUID is written.
impl fmt::Display for TreeId {
    fn fmt(&self, f: &mut fmt::Formatter<'_>) -> fmt::Result {
        let (a, b, c) = (self.high >> 32, self.high >> 16 & 0xffff, self.high & 0xffff);
        let (d, e) = (self.low >> 48, self.low & 0xffff_ffff_ffff);
        write!(f, "{a:08x}-{b:04x}-{c:04x}-{d:04x}-{e:012x}")
    }
}
