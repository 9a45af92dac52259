//! The questions of modules 6 to 8, asked of both sides.
use accesskit_consumer::filters::{self, FilterResult, probe::without_parent_checks};
use accesskit_consumer::node::NodeRef;
use accesskit_consumer::node::probe::{first_filtered_child, full, last_filtered_child, parts};
use accesskit_consumer::tree::TreeState;
use calls::plain::Id;
use cartgravel::{FullNodeId, NODES, NodeId, TreeIndex, sys};

/// A filter, by the library's number.
pub type Filter = u32;
pub const COMMON: Filter = 1;
pub const WITH_ROOT_EXCEPTION: Filter = 2;
pub const WITHOUT_PARENT_CHECKS: Filter = 3;

/// A side, by the library's number.
pub type Side = u32;
pub const FOLLOWING: Side = 0;
pub const PRECEDING: Side = 1;

/// What is asked of a node. `Judged` is asked of ours alone: it costs one judgement of the state.
#[derive(Clone, Copy, Debug, PartialEq)]
pub enum Question {
    Judged,
    Parent,
    Children,
    Hidden,
    Transform,
    BoundingBox,
    Filter(Filter),
    FilteredParent(Filter),
    FirstChild(Filter),
    LastChild(Filter),
    DeepestFirst(Filter),
    DeepestLast(Filter),
    Siblings(Side),
    FilteredChildren(Filter),
    FilteredSiblings(Filter, Side),
}

/// What is answered. Of a list it is the length; its ids stand in the lent room.
#[derive(Debug, PartialEq)]
pub enum Answer {
    Nothing,
    Node(Option<Id>),
    Listed(usize),
    Flag(bool),
    Transform([f64; 6]),
    Box(Option<[f64; 4]>),
    Result(u32),
}

/// Room for any list.
pub type Room = [u64; 2 * NODES];

/// An id as the library takes it.
pub fn named(id: Id) -> FullNodeId {
    FullNodeId::new(TreeIndex(id.0), NodeId(id.1))
}

/// What the proved library answers.
pub fn ours(state: &sys::State, question: Question, id: Id, room: &mut Room) -> Answer {
    let id = named(id);
    match question {
        Question::Judged => accepted(state.counts().number, Answer::Nothing),
        Question::Parent => found(state.parent(id)),
        Question::Children => listed(state.children(id, room)),
        Question::Hidden => {
            let flag = state.hidden(id);
            accepted(flag.number, Answer::Flag(flag.value == 1))
        }
        Question::Transform => {
            let sys::PlainTransform { transform: t, number } = state.transform(id);
            accepted(number, Answer::Transform([t.a, t.b, t.c, t.d, t.e, t.f]))
        }
        Question::BoundingBox => {
            let sys::PlainBox { rect: r, kind, number } = state.bounding_box(id);
            accepted(number, Answer::Box((kind == 1).then_some([r.x0, r.y0, r.x1, r.y1])))
        }
        Question::Filter(f) => {
            let said = state.filter(id, f);
            accepted(said.number, Answer::Result(said.result))
        }
        Question::FilteredParent(f) => found(state.filtered_parent(id, f)),
        Question::FirstChild(f) => found(state.first_filtered_child(id, f)),
        Question::LastChild(f) => found(state.last_filtered_child(id, f)),
        Question::DeepestFirst(f) => found(state.deepest_first_filtered_child(id, f)),
        Question::DeepestLast(f) => found(state.deepest_last_filtered_child(id, f)),
        Question::Siblings(side) => listed(state.siblings(id, side, room)),
        Question::FilteredChildren(f) => listed(state.filtered_children(id, f, room)),
        Question::FilteredSiblings(f, side) => listed(state.filtered_siblings(id, f, side, room)),
    }
}

/// The answer, of a question that is not refused.
fn accepted(number: u32, answer: Answer) -> Answer {
    assert_eq!(number, 0, "a question is refused");
    answer
}

fn found(found: sys::FoundId) -> Answer {
    let id = (found.id.present == 1).then_some((found.id.tree, found.id.node));
    accepted(found.number, Answer::Node(id))
}

fn listed(listed: sys::Listed) -> Answer {
    accepted(listed.number, Answer::Listed(listed.length))
}

/// What the crate answers, from the id on.
pub fn theirs(state: &TreeState, question: Question, id: Id, room: &mut Room) -> Answer {
    let node = state.node_by_id(full(id)).expect("a node");
    match question {
        Question::Judged => Answer::Nothing,
        Question::Parent => name(node.parent()),
        Question::Children => list(node.children(), room),
        Question::Hidden => Answer::Flag(node.is_hidden()),
        Question::Transform => Answer::Transform(node.transform().0),
        Question::BoundingBox => Answer::Box(node.bounding_box().map(|r| [r.x0, r.y0, r.x1, r.y1])),
        Question::Filter(COMMON) => result(filters::common_filter(&node)),
        Question::Filter(WITH_ROOT_EXCEPTION) => result(filters::common_filter_with_root_exception(&node)),
        Question::Filter(_) => result(without_parent_checks(&node)),
        Question::FilteredParent(f) => name(node.filtered_parent(&filter(f))),
        Question::FirstChild(f) => name(first_filtered_child(&node, &filter(f))),
        Question::LastChild(f) => name(last_filtered_child(&node, &filter(f))),
        Question::DeepestFirst(f) => name(node.deepest_first_filtered_child(&filter(f))),
        Question::DeepestLast(f) => name(node.deepest_last_filtered_child(&filter(f))),
        Question::Siblings(FOLLOWING) => list(node.following_siblings(), room),
        Question::Siblings(_) => list(node.preceding_siblings(), room),
        Question::FilteredChildren(f) => list(node.filtered_children(filter(f)), room),
        Question::FilteredSiblings(f, FOLLOWING) => list(node.following_filtered_siblings(filter(f)), room),
        Question::FilteredSiblings(f, _) => list(node.preceding_filtered_siblings(filter(f)), room),
    }
}

/// A filter of the crate by the library's number.
fn filter(f: Filter) -> fn(&NodeRef) -> FilterResult {
    match f {
        COMMON => filters::common_filter,
        WITH_ROOT_EXCEPTION => filters::common_filter_with_root_exception,
        _ => without_parent_checks,
    }
}

fn result(result: FilterResult) -> Answer {
    Answer::Result(result as u32)
}

fn name(node: Option<NodeRef>) -> Answer {
    Answer::Node(node.map(|node| parts(node.id())))
}

/// Writes the ids as the library does.
fn list<'a>(nodes: impl Iterator<Item = NodeRef<'a>>, room: &mut Room) -> Answer {
    let mut count = 0;
    for (node, place) in nodes.zip(room.as_chunks_mut().0) {
        let (tree, number) = parts(node.id());
        *place = [tree.into(), number];
        count += 1;
    }
    Answer::Listed(count)
}

/// A whole walk by `next`; answers how many steps it took to the end, the last one without an answer.
pub fn walk(state: &sys::State, id: Id, filter: Filter, side: Side) -> usize {
    let mut walk = sys::Walk { node: named(id), side, filter, count: 0 };
    let mut steps = 1;
    while walk.next(state).id.present == 1 {
        steps += 1;
    }
    steps
}
