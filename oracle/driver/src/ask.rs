//! One question on the linked library, its answer as a plain value that another answer can be compared with.
use calls::model::{Answers, SIDE_PARTS, bits};
use calls::plain::{Data, Id};
use cartgravel::sys::{self, FoundId, Listed, OptionalId};
use cartgravel::{FullNodeId, NodeId, TreeIndex};

/// A question about a node, with its filter's number and then its side's.
#[derive(Clone, Copy, Debug, PartialEq, Eq)]
pub enum Question {
    Reading,
    Label,
    Parent,
    Children,
    Hidden,
    Transform,
    BoundingBox,
    Siblings(u32),
    Filter(u32),
    FilteredParent(u32),
    FirstChild(u32),
    LastChild(u32),
    DeepestFirst(u32),
    DeepestLast(u32),
    FilteredChildren(u32),
    FilteredSiblings(u32, u32),
    /// A kept walk from its start to its end and past it; filter 0 is none.
    Walk(u32, u32),
}

/// What a question is answered.
#[derive(Clone, Debug, PartialEq)]
pub enum Answer {
    Node(Option<Id>),
    Nodes(Vec<Id>),
    Bytes(Vec<u8>),
    Words(Vec<u64>),
    Flag(bool),
    Box(Option<[f64; 4]>),
    Result(u32),
    Refused(u32),
    /// What no answer may be.
    Odd(&'static str),
}

use Question::*;

/// Every question, with each filter and side.
pub fn all() -> Vec<Question> {
    let mut out =
        vec![Reading, Label, Parent, Children, Hidden, Transform, BoundingBox, Siblings(0), Siblings(1)];
    for f in 1..=3 {
        out.extend([
            Filter(f),
            FilteredParent(f),
            FirstChild(f),
            LastChild(f),
            DeepestFirst(f),
            DeepestLast(f),
        ]);
        out.extend([FilteredChildren(f), FilteredSiblings(f, 0), FilteredSiblings(f, 1)]);
    }
    out.extend((0..=3).flat_map(|f| [Walk(f, 0), Walk(f, 1)]));
    out
}

impl Question {
    /// Its name and its filter, 0 where it has none.
    pub fn key(self) -> (&'static str, u32) {
        match self {
            Reading => ("node", 0),
            Label => ("label", 0),
            Parent => ("parent", 0),
            Children => ("children", 0),
            Hidden => ("hidden", 0),
            Transform => ("transform", 0),
            BoundingBox => ("box", 0),
            Siblings(0) => ("following siblings", 0),
            Siblings(_) => ("preceding siblings", 0),
            Filter(f) => ("filter", f),
            FilteredParent(f) => ("filtered parent", f),
            FirstChild(f) => ("first filtered child", f),
            LastChild(f) => ("last filtered child", f),
            DeepestFirst(f) => ("deepest first", f),
            DeepestLast(f) => ("deepest last", f),
            FilteredChildren(f) => ("filtered children", f),
            FilteredSiblings(f, side) => (SIDE_PARTS[side.min(1) as usize], f),
            Walk(f, 0) => ("following walk", f),
            Walk(f, _) => ("preceding walk", f),
        }
    }

    /// Whether the crate answers it: it has no walk that is kept, and the state itself says what a node holds.
    pub fn is_the_crates(self) -> bool {
        !matches!(self, Reading | Label | Walk(..))
    }

    /// What is due, from all answers about a node and its data.
    pub fn due(self, a: &Answers, d: &Data) -> Answer {
        let under = |f: u32| &a.filtered[f as usize - 1];
        match self {
            Reading => Answer::Words(reading(a, d)),
            Label => Answer::Bytes(d.label.clone()),
            Parent => Answer::Node(a.parent),
            Children => Answer::Nodes(a.children.clone()),
            Hidden => Answer::Flag(a.hidden),
            Transform => Answer::Words(a.transform.to_vec()),
            BoundingBox => Answer::Box(a.bounding_box),
            Siblings(side) | Walk(0, side) => Answer::Nodes(a.siblings[side as usize].clone()),
            Filter(f) => Answer::Result(under(f).result.into()),
            FilteredParent(f) => Answer::Node(under(f).parent),
            FirstChild(f) => Answer::Node(under(f).first_child),
            LastChild(f) => Answer::Node(under(f).last_child),
            DeepestFirst(f) => Answer::Node(under(f).deepest_first),
            DeepestLast(f) => Answer::Node(under(f).deepest_last),
            FilteredChildren(f) => Answer::Nodes(under(f).children.clone()),
            FilteredSiblings(f, side) | Walk(f, side) => {
                Answer::Nodes(under(f).siblings[side as usize].clone())
            }
        }
    }

    /// How many elements of a lent slice an answer takes; none where the question takes no slice.
    pub fn room(self, due: &Answer) -> Option<usize> {
        match (self, due) {
            (Label, Answer::Bytes(bytes)) => Some(bytes.len()),
            (Walk(..), _) => None,
            (_, Answer::Nodes(ids)) => Some(2 * ids.len()),
            _ => None,
        }
    }

    /// Asks the library, with a slice of so many elements where one is lent.
    pub fn asked(self, m: &sys::State, of: Id, room: usize) -> Answer {
        let id = full(of);
        match self {
            Reading => read(m.node(id)),
            Label => label(m, id, room),
            Parent => found(m.parent(id)),
            Children => listed(room, |out| m.children(id, out)),
            Hidden => flag(m.hidden(id)),
            Transform => transform(m.transform(id)),
            BoundingBox => bounding_box(m.bounding_box(id)),
            Siblings(side) => listed(room, |out| m.siblings(id, side, out)),
            Filter(f) => result(m.filter(id, f)),
            FilteredParent(f) => found(m.filtered_parent(id, f)),
            FirstChild(f) => found(m.first_filtered_child(id, f)),
            LastChild(f) => found(m.last_filtered_child(id, f)),
            DeepestFirst(f) => found(m.deepest_first_filtered_child(id, f)),
            DeepestLast(f) => found(m.deepest_last_filtered_child(id, f)),
            FilteredChildren(f) => listed(room, |out| m.filtered_children(id, f, out)),
            FilteredSiblings(f, side) => listed(room, |out| m.filtered_siblings(id, f, side, out)),
            Walk(filter, side) => walked(m, sys::Walk { node: id, side, filter, count: 0 }),
        }
    }
}

/// An id as the library has it.
pub fn full(id: Id) -> FullNodeId {
    FullNodeId::new(TreeIndex(id.0), NodeId(id.1))
}

/// A node or none, as the library answers it.
pub fn optional(id: Option<Id>) -> OptionalId {
    id.map_or(OptionalId::default(), |(tree, node)| OptionalId { node, tree, present: 1 })
}

/// What a node says of itself, as words.
fn reading(a: &Answers, d: &Data) -> Vec<u64> {
    let floats = d.bounds.iter().chain(&d.transform).copied();
    let counts = [d.label.len() as u64, a.children.len() as u64, d.role.into(), d.flags.into()];
    floats.chain([d.graft.0, d.graft.1, d.active]).chain(counts).collect()
}

/// An answer that must be zeros after a refusal.
fn refused(number: u32, zeros: bool) -> Answer {
    if zeros { Answer::Refused(number) } else { Answer::Odd("a refusal with an answer") }
}

fn read(n: sys::PlainNode) -> Answer {
    let (b, t) = (n.bounds, n.transform);
    let floats = [b.x0, b.y0, b.x1, b.y1, t.a, t.b, t.c, t.d, t.e, t.f].map(f64::to_bits);
    let rest = [n.graft.high, n.graft.low, n.active_descendant, n.label_length as u64, n.child_count as u64];
    let words: Vec<u64> = floats.into_iter().chain(rest).chain([n.role.into(), n.flags.into()]).collect();
    if n.number == 0 { Answer::Words(words) } else { refused(n.number, words.iter().all(|w| *w == 0)) }
}

fn flag(a: sys::Flag) -> Answer {
    match (a.number, a.value) {
        (0, 0 | 1) => Answer::Flag(a.value == 1),
        (0, _) => Answer::Odd("a flag that is neither 0 nor 1"),
        (n, value) => refused(n, value == 0),
    }
}

fn transform(a: sys::PlainTransform) -> Answer {
    let t = [a.transform.a, a.transform.b, a.transform.c, a.transform.d, a.transform.e, a.transform.f];
    if a.number == 0 {
        return Answer::Words(t.map(bits).to_vec());
    }
    refused(a.number, t.iter().all(|x| x.to_bits() == 0))
}

fn bounding_box(a: sys::PlainBox) -> Answer {
    let r = [a.rect.x0, a.rect.y0, a.rect.x1, a.rect.y1];
    let zeros = r.iter().all(|x| x.to_bits() == 0);
    match (a.number, a.kind) {
        (0, 1) => Answer::Box(Some(r)),
        (0, 0) if zeros => Answer::Box(None),
        (0, _) => Answer::Odd("a box of no kind"),
        (n, kind) => refused(n, zeros && kind == 0),
    }
}

fn result(a: sys::PlainResult) -> Answer {
    if a.number == 0 { Answer::Result(a.result) } else { refused(a.number, a.result == 0) }
}

/// A node or none.
pub fn found(a: FoundId) -> Answer {
    match (a.number, a.id.present) {
        (0, 1) => Answer::Node(Some((a.id.tree, a.id.node))),
        (0, 0) if a.id == OptionalId::default() => Answer::Node(None),
        (0, _) => Answer::Odd("none, with an id"),
        (n, _) => refused(n, a.id == OptionalId::default()),
    }
}

/// How many elements stand on either side of a lent slice.
const FENCE: usize = 3;

/// What stands in a lent slice and beside it.
fn filled(k: usize) -> u64 {
    0x5eed_f00d_cafe_0000 + k as u64
}

/// Asks with a slice of so many elements; what is beyond the list and beside the slice must stay.
fn listed(room: usize, ask: impl Fn(&mut [u64]) -> Listed) -> Answer {
    let mut lent: Vec<u64> = (0..room + 2 * FENCE).map(filled).collect();
    let a = ask(&mut lent[FENCE..FENCE + room]);
    let used = if a.number == 0 { 2 * a.length } else { 0 };
    if used > room {
        return Answer::Odd("a length past the slice");
    }
    let kept = |k: &usize| lent[*k] == filled(*k);
    if !(0..FENCE).chain(FENCE + used..lent.len()).all(|k| kept(&k)) {
        return Answer::Odd("an element beyond the list was written");
    }
    if a.number != 0 {
        return refused(a.number, a.length == 0);
    }
    let (ids, _) = lent[FENCE..FENCE + used].as_chunks::<2>();
    if ids.iter().any(|x| x[0] > u32::MAX.into()) {
        return Answer::Odd("a tree number past the largest");
    }
    Answer::Nodes(ids.iter().map(|x| (x[0] as u32, x[1])).collect())
}

/// The same of a label's bytes.
fn label(m: &sys::State, id: FullNodeId, room: usize) -> Answer {
    let mut lent: Vec<u8> = (0..room + 2 * FENCE).map(|k| filled(k) as u8 ^ 0xa5).collect();
    let a = m.label(id, &mut lent[FENCE..FENCE + room]);
    let used = if a.number == 0 { a.length } else { 0 };
    if used > room {
        return Answer::Odd("a length past the slice");
    }
    if !(0..FENCE).chain(FENCE + used..lent.len()).all(|k| lent[k] == filled(k) as u8 ^ 0xa5) {
        return Answer::Odd("a byte beyond the label was written");
    }
    if a.number != 0 {
        return refused(a.number, a.length == 0);
    }
    Answer::Bytes(lent[FENCE..FENCE + used].to_vec())
}

/// One call of a walk: the answer, and whether the walk moved on only with a node, by one.
pub fn stepped(m: &sys::State, walk: &mut sys::Walk) -> Answer {
    let before = *walk;
    let answer = found(walk.next(m));
    let more = matches!(answer, Answer::Node(Some(_))) as u64;
    let due = sys::Walk { count: before.count.wrapping_add(more), ..before };
    if *walk == due { answer } else { Answer::Odd("the walk's own numbers") }
}

/// All that a walk hands out; asked once more at the end and at the largest count, it must answer none.
fn walked(m: &sys::State, mut walk: sys::Walk) -> Answer {
    let mut out = vec![];
    loop {
        match stepped(m, &mut walk) {
            Answer::Node(Some(id)) if out.len() < 600 => out.push(id),
            Answer::Node(Some(_)) => return Answer::Odd("a walk without end"),
            Answer::Node(None) => break,
            other => return other,
        }
    }
    let past = [walk.count, walk.count.saturating_add(1), 1 << 32, u64::MAX];
    if past.iter().any(|count| stepped(m, &mut sys::Walk { count: *count, ..walk }) != Answer::Node(None)) {
        return Answer::Odd("a node past the end");
    }
    Answer::Nodes(out)
}
