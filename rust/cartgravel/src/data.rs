//! What a node says of itself, in a batch and in a state.
use crate::{Affine, NodeId, Rect, TreeId};
use core::fmt;

/// A node's role. The filters know those that are named here; any other is an ordinary one.
#[derive(Clone, Copy, Debug, Default, PartialEq, Eq, PartialOrd, Ord, Hash)]
pub struct Role(pub u8);

impl Role {
    /// A container that stands for nothing.
    pub const GENERIC_CONTAINER: Self = Self(0);
    /// A part of a text.
    pub const TEXT_RUN: Self = Self(1);
    /// A dialog.
    pub const DIALOG: Self = Self(2);
    /// A dialog that calls for attention.
    pub const ALERT_DIALOG: Self = Self(3);
}

impl From<u8> for Role {
    fn from(number: u8) -> Self {
        Self(number)
    }
}

impl From<Role> for u8 {
    fn from(role: Role) -> Self {
        role.0
    }
}

/// The name that document 01 has for it, or its number: `role 4`.
impl fmt::Display for Role {
    fn fmt(&self, f: &mut fmt::Formatter<'_>) -> fmt::Result {
        match *self {
            Self::GENERIC_CONTAINER => f.write_str("GenericContainer"),
            Self::TEXT_RUN => f.write_str("TextRun"),
            Self::DIALOG => f.write_str("Dialog"),
            Self::ALERT_DIALOG => f.write_str("AlertDialog"),
            Self(number) => write!(f, "role {number}"),
        }
    }
}

/// What a node says of itself, its label and its children aside.
#[derive(Clone, Copy, Debug, Default, PartialEq)]
#[non_exhaustive]
pub struct NodeData {
    /// Its role.
    pub role: Role,
    /// Whether it is hidden, and all below it.
    pub hidden: bool,
    /// Whether it clips its children.
    pub clips_children: bool,
    /// The node of its tree that it passes the focus on to.
    pub active_descendant: Option<NodeId>,
    /// The tree that it holds in its place.
    pub graft: Option<TreeId>,
    /// Its bounds.
    pub bounds: Option<Rect>,
    /// Its transform.
    pub transform: Option<Affine>,
}

/// The fields of a record, which count only while their flag is set, and the flags.
pub(crate) struct Fields {
    pub active_descendant: NodeId,
    pub graft: TreeId,
    pub bounds: Rect,
    pub transform: Affine,
    pub flags: u8,
}

impl NodeData {
    /// What these fields say.
    pub(crate) fn new(role: Role, fields: Fields) -> Self {
        let has = |weight| fields.flags & weight != 0;
        Self {
            role,
            hidden: has(1),
            clips_children: has(2),
            active_descendant: has(4).then_some(fields.active_descendant),
            graft: has(8).then_some(fields.graft),
            bounds: has(16).then_some(fields.bounds),
            transform: has(32).then_some(fields.transform),
        }
    }

    /// The flags that a record has for it.
    pub(crate) fn flags(&self) -> u8 {
        let weighed = [
            (self.hidden, 1),
            (self.clips_children, 2),
            (self.active_descendant.is_some(), 4),
            (self.graft.is_some(), 8),
            (self.bounds.is_some(), 16),
            (self.transform.is_some(), 32),
        ];
        weighed.iter().filter(|(flag, _)| *flag).fold(0, |flags, (_, weight)| flags | weight)
    }

    /// Its floats, where it has none zeros.
    pub(crate) fn floats(&self) -> impl Iterator<Item = f64> + use<> {
        let bounds = self.bounds.map_or([0.0; 4], Rect::into);
        bounds.into_iter().chain(self.transform.map_or([0.0; 6], Affine::into))
    }
}
