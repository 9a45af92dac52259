//! The bytes of a batch: document 01, "The batch record".
use crate::batch::{Batch, Children, EncodeError, ListedNodes, Node};
use crate::data::{Fields, NodeData};
use crate::{Affine, NodeId, Number, Rect, Role, TreeId};
use core::slice;

/// The bytes of a record's header, and of a node in it.
const HEADER: usize = 64;
const NODE_RECORD: usize = 128;

impl<'a> Batch<'a> {
    /// Writes the batch's record to a lent buffer; the part that holds it. [`RECORD_BYTES`](crate::RECORD_BYTES) are
    /// room for any.
    ///
    /// # Errors
    ///
    /// The limit of a record that the batch breaks, or a buffer too short. The buffer is then as it was. Whether a
    /// state accepts the record is for the call to say.
    pub fn encode<'b>(&self, buffer: &'b mut [u8]) -> Result<&'b [u8], EncodeError> {
        self.check()?;
        let bytes = self.record_len();
        let record = buffer.get_mut(..bytes).ok_or(EncodeError::BufferTooShort { bytes })?;
        record.iter_mut().zip(self.bytes()).for_each(|(place, byte)| *place = byte);
        Ok(record)
    }

    /// The batch of a record, which it borrows.
    ///
    /// # Errors
    ///
    /// [`Number::NotARecord`] alone, of the bytes that a call refuses with it.
    pub fn decode(record: &'a [u8]) -> Result<Self, Number> {
        let is_record = |batch: &Self| batch.check().is_ok() && batch.bytes().eq(record.iter().copied());
        Self::said(record).filter(is_record).ok_or(Number::NotARecord)
    }

    /// How many bytes its record has, if a record can hold it.
    pub fn record_len(&self) -> usize {
        self.ends()[3]
    }

    /// Where the node records, the child entries, the labels and the record start or end.
    fn ends(&self) -> [usize; 4] {
        let entries_at = NODE_RECORD.saturating_mul(self.nodes.len()).saturating_add(HEADER);
        let labels_at = self.entries().saturating_mul(8).saturating_add(entries_at);
        [HEADER, entries_at, labels_at, labels_at.saturating_add(self.label_bytes())]
    }

    /// The record, byte by byte; the batch keeps the limits.
    fn bytes(&self) -> impl Iterator<Item = u8> {
        let entries = self.listed().flat_map(|node| node.children).map(u64::from);
        let labels = self.listed().flat_map(|node| node.label).copied();
        self.header().chain(self.records()).chain(words(entries)).chain(labels)
    }

    /// The header.
    fn header(&self) -> impl Iterator<Item = u8> + use<> {
        let counts = [self.nodes.len(), self.entries(), self.label_bytes(), usize::from(self.root.is_some())];
        let ends = self.ends().into_iter().flat_map(|end| (end as u32).to_le_bytes());
        let root = self.root.map_or(0, u64::from);
        let ids = [self.tree.high, self.tree.low, root, self.focus.0, 0];
        shorts(counts).chain(ends).chain(words(ids))
    }

    /// The node records: each node's children and label start where those of the node before it end.
    fn records(&self) -> impl Iterator<Item = u8> {
        let starts = self.listed().scan((0usize, 0usize), |next, node| {
            let (first_child, label_start) = *next;
            *next = (
                first_child.saturating_add(node.children.len()),
                label_start.saturating_add(node.label.len()),
            );
            Some((node, first_child, label_start))
        });
        starts.flat_map(|(node, first_child, label_start)| node.record(first_child, label_start))
    }

    /// What bytes say, whether they are a record or not; none where they are too short for their counts.
    fn said(record: &'a [u8]) -> Option<Self> {
        let (header, parts) = record.split_at_checked(HEADER)?;
        let (nodes, parts) = parts.split_at_checked(NODE_RECORD * short_at(header, 0))?;
        let (entries, labels) = parts.split_at_checked(8 * short_at(header, 2))?;
        let root = short_at(header, 6) & 1 == 1;
        let parts = Parts { nodes: nodes.as_chunks().0.iter(), entries: entries.as_chunks().0, labels };
        Some(Self {
            tree: tree_at(header, 24),
            root: root.then(|| NodeId(word_at(header, 40))),
            focus: NodeId(word_at(header, 48)),
            nodes: ListedNodes::of_record(parts),
        })
    }
}

impl Node<'_> {
    /// Its record; its children and its label start at these places of their parts.
    fn record(&self, first_child: usize, label_start: usize) -> impl Iterator<Item = u8> + use<> {
        let graft = self.data.graft.unwrap_or(TreeId::ROOT);
        let ids = [self.id.0, self.data.active_descendant.map_or(0, u64::from), graft.high, graft.low];
        let places = [first_child, self.children.len(), label_start, self.label.len()];
        let kind = [self.data.role.0, self.data.flags(), 0, 0, 0, 0, 0, 0];
        let floats = self.data.floats().map(f64::to_bits);
        words(ids).chain(shorts(places)).chain(kind).chain(words(floats))
    }
}

/// The parts of a record that are not read yet.
#[derive(Clone)]
pub(crate) struct Parts<'a> {
    pub nodes: slice::Iter<'a, [u8; NODE_RECORD]>,
    pub entries: &'a [[u8; 8]],
    pub labels: &'a [u8],
}

impl<'a> Parts<'a> {
    /// The next node, with the children and the label that follow those of the node before it.
    pub fn next_node(&mut self) -> Option<Node<'a>> {
        let record = self.nodes.next()?;
        let fields = Fields {
            active_descendant: NodeId(word_at(record, 8)),
            graft: tree_at(record, 16),
            bounds: Rect::from([48, 56, 64, 72].map(|at| float_at(record, at))),
            transform: Affine::from([80, 88, 96, 104, 112, 120].map(|at| float_at(record, at))),
            flags: byte_at(record, 41),
        };
        Some(Node {
            id: NodeId(word_at(record, 0)),
            data: NodeData::new(Role(byte_at(record, 40)), fields),
            children: Children::of_record(take(&mut self.entries, short_at(record, 34))),
            label: take(&mut self.labels, short_at(record, 38)),
        })
    }
}

/// The first n elements, or all where there are fewer; the others stay.
fn take<'a, T>(from: &mut &'a [T], n: usize) -> &'a [T] {
    let (taken, rest) = from.split_at_checked(n).unwrap_or((from, &[]));
    *from = rest;
    taken
}

/// Numbers of eight bytes.
fn words(numbers: impl IntoIterator<Item = u64>) -> impl Iterator<Item = u8> {
    numbers.into_iter().flat_map(u64::to_le_bytes)
}

/// Numbers of two bytes. The limits keep each below 2,049.
fn shorts(numbers: [usize; 4]) -> impl Iterator<Item = u8> {
    numbers.into_iter().flat_map(|number| (number as u16).to_le_bytes())
}

/// The bytes from a place on; zeros where there are none.
fn at<const N: usize>(bytes: &[u8], at: usize) -> [u8; N] {
    bytes.get(at..).and_then(<[u8]>::first_chunk).copied().unwrap_or([0; N])
}

fn byte_at(bytes: &[u8], place: usize) -> u8 {
    u8::from_le_bytes(at(bytes, place))
}

fn short_at(bytes: &[u8], place: usize) -> usize {
    u16::from_le_bytes(at(bytes, place)).into()
}

fn word_at(bytes: &[u8], place: usize) -> u64 {
    u64::from_le_bytes(at(bytes, place))
}

fn float_at(bytes: &[u8], place: usize) -> f64 {
    f64::from_bits(word_at(bytes, place))
}

/// A tree id, high then low.
fn tree_at(bytes: &[u8], place: usize) -> TreeId {
    TreeId { high: word_at(bytes, place), low: word_at(bytes, place + 8) }
}

impl<'a> TryFrom<&'a [u8]> for Batch<'a> {
    type Error = Number;

    /// As [`decode`](Batch::decode).
    fn try_from(record: &'a [u8]) -> Result<Self, Number> {
        Self::decode(record)
    }
}
