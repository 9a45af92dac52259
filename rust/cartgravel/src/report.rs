//! What a call answers beside its number: document 01, "Change lists".
use crate::{FullNodeId, NodeId, TreeIndex, sys};
use core::fmt;
use core::iter::FusedIterator;

/// What an accepted call changed. A start and a host focus change list nothing.
///
/// The lists stand in the slice that was lent to the call, one after another, two elements an id: added, updated,
/// removed, relinked. Each is sorted by tree number, then node number. Elements past them keep what they held.
#[derive(Clone, Debug, PartialEq, Eq)]
pub struct Report<'a> {
    added: Ids<'a>,
    updated: Ids<'a>,
    removed: Ids<'a>,
    relinked: Ids<'a>,
    focus_before: Option<FullNodeId>,
    focus_after: Option<FullNodeId>,
    extra_before: Option<FullNodeId>,
    extra_after: Option<FullNodeId>,
}

impl<'a> Report<'a> {
    /// The library's reply, with the slice that has its lists.
    pub(crate) fn new(reply: &sys::Reply, changes: &'a [u64]) -> Self {
        let (lengths, raw) = (&reply.lengths, &reply.report);
        let (ids, _) = changes.as_chunks();
        let (added, ids) = split(ids, lengths.added);
        let (updated, ids) = split(ids, lengths.updated);
        let (removed, ids) = split(ids, lengths.removed);
        let (relinked, _) = split(ids, lengths.relinked);
        Self {
            added,
            updated,
            removed,
            relinked,
            focus_before: present(raw.focus_before),
            focus_after: present(raw.focus_after),
            extra_before: present(raw.extra_before),
            extra_after: present(raw.extra_after),
        }
    }

    /// The nodes that are new.
    pub fn added(&self) -> Ids<'a> {
        self.added.clone()
    }

    /// The nodes that were there and have other data or another parent or place. Going to no parent does not count.
    /// A pane's root is among them in each batch with tree data, unless it is new.
    pub fn updated(&self) -> Ids<'a> {
        self.updated.clone()
    }

    /// The nodes that are gone.
    pub fn removed(&self) -> Ids<'a> {
        self.removed.clone()
    }

    /// The nodes that were there and have another parent. Going to no parent, or from none, counts.
    pub fn relinked(&self) -> Ids<'a> {
        self.relinked.clone()
    }

    /// The focus before the call: none before a start, or while the host is not focused.
    pub fn focus_before(&self) -> Option<FullNodeId> {
        self.focus_before
    }

    /// The focus after the call: none while the host is not focused.
    pub fn focus_after(&self) -> Option<FullNodeId> {
        self.focus_after
    }

    /// Where the focus moved: the node that it left, unless that was updated or removed.
    pub fn extra_before(&self) -> Option<FullNodeId> {
        self.extra_before
    }

    /// Where the focus moved: the node that it reached, unless that was added or updated.
    pub fn extra_after(&self) -> Option<FullNodeId> {
        self.extra_after
    }
}

/// The first n ids, and the rest. The library is proved to answer lengths that fit in the lent slice.
fn split(ids: &[[u64; 2]], n: usize) -> (Ids<'_>, &[[u64; 2]]) {
    let (list, rest) = ids.split_at_checked(n).unwrap_or((ids, &[]));
    (Ids(list), rest)
}

/// The library's id, if it is one.
pub(crate) fn present(id: sys::OptionalId) -> Option<FullNodeId> {
    (id.present != 0).then_some(FullNodeId::new(TreeIndex(id.tree), NodeId(id.node)))
}

/// One of the lists of a [`Report`], or the way of a [`Reason`](crate::Reason), as an iterator whose length is known.
#[derive(Clone, PartialEq, Eq)]
pub struct Ids<'a>(&'a [[u64; 2]]);

impl<'a> Ids<'a> {
    /// The first n ids of some words, or as many as there are.
    pub(crate) fn first(words: &'a [u64], n: usize) -> Self {
        split(words.as_chunks().0, n).0
    }
}

/// The id that two elements say. A tree number is below 32.
pub(crate) fn full_id(&[tree, node]: &[u64; 2]) -> FullNodeId {
    FullNodeId::new(TreeIndex(tree as u32), NodeId(node))
}

impl Iterator for Ids<'_> {
    type Item = FullNodeId;

    fn next(&mut self) -> Option<FullNodeId> {
        let (first, rest) = self.0.split_first()?;
        self.0 = rest;
        Some(full_id(first))
    }

    fn size_hint(&self) -> (usize, Option<usize>) {
        (self.0.len(), Some(self.0.len()))
    }
}

impl DoubleEndedIterator for Ids<'_> {
    fn next_back(&mut self) -> Option<FullNodeId> {
        let (last, rest) = self.0.split_last()?;
        self.0 = rest;
        Some(full_id(last))
    }
}

impl ExactSizeIterator for Ids<'_> {}

impl FusedIterator for Ids<'_> {}

impl fmt::Debug for Ids<'_> {
    fn fmt(&self, f: &mut fmt::Formatter<'_>) -> fmt::Result {
        f.debug_list().entries(self.clone()).finish()
    }
}
