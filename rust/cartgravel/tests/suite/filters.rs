//! Module 7: document 01's cases 15 and 16, and others of questions/specs/FilterCases.
use crate::{T, id, plain, record, started};
use cartgravel::FilterResult::{self, ExcludeNode, ExcludeSubtree, Include};
use cartgravel::{Affine, Batch, Filter, Node, State, TreeId};

/// The state with these nodes of ROOT, whose root is 1, with this focus.
pub fn alone(focus: u64, nodes: &[Node]) -> State {
    started(&Batch::new(TreeId::ROOT, focus).root(1).nodes(nodes))
}

/// Case 15's state: a button, an empty generic container, a hidden node with a child, a button.
pub fn buttons() -> State {
    alone(
        1,
        &[
            plain(1).children(&[2, 3, 4, 5]),
            plain(2),
            Node::new(3),
            plain(4).hidden(true).children(&[6]),
            plain(5),
            plain(6),
        ],
    )
}

/// What the three filters say of a node, in their order.
fn said(state: &State, tree: u32, node: u64) -> [FilterResult; 3] {
    let node = state.node(id(tree, node)).unwrap();
    [Filter::Common, Filter::WithRootException, Filter::WithoutParentChecks].map(|filter| node.filter(filter))
}

#[test]
fn case_15_what_the_filter_says() {
    let state = buttons();
    for (node, result) in
        [(2, Include), (5, Include), (3, ExcludeNode), (4, ExcludeSubtree), (6, ExcludeSubtree)]
    {
        assert_eq!(said(&state, 0, node)[0], result, "node {node}");
    }
}

/// A focused node that is its own active descendant is not focused for the filter: it is hidden, and so it is dropped.
#[test]
fn case_16_its_own_active_descendant() {
    let state = alone(2, &[plain(1).children(&[2]), plain(2).hidden(true).active_descendant(2)]);
    assert_eq!(said(&state, 0, 2), [ExcludeSubtree; 3]);
    assert_eq!(state.focus_id(), Ok(Some(id(0, 2))));
    let without = alone(2, &[plain(1).children(&[2]), plain(2).hidden(true)]);
    assert_eq!(said(&without, 0, 2), [Include; 3]);
}

/// Without host focus no node is focused.
#[test]
fn the_host_loses_the_focus() {
    let mut state = alone(2, &[plain(1).children(&[2]), plain(2).hidden(true)]);
    state.host_focus(false).unwrap();
    assert_eq!(said(&state, 0, 2), [ExcludeSubtree; 3]);
}

/// ROOT's root, a generic container, is included under the root exception alone; a pane's is not.
#[test]
fn the_root_exception() {
    let mut state = alone(2, &[Node::new(1).children(&[3, 2]), plain(2), plain(3).graft(T)]);
    state.update(&record(&Batch::new(T, 1).root(1).nodes(&[Node::new(1)])), &mut [0; 8]).unwrap();
    assert_eq!(said(&state, 0, 1), [ExcludeNode, Include, ExcludeNode]);
    assert_eq!(said(&state, 1, 1), [ExcludeNode; 3]);
    assert_eq!(said(&state, 0, 3), [ExcludeNode; 3]);
}

/// Bounds of 10 by 10 at (0, 0), and apart from these at (20, 0).
fn inside(node: Node) -> Node {
    node.bounds([0.0, 0.0, 10.0, 10.0])
}

fn outside(node: Node) -> Node {
    node.bounds([20.0, 0.0, 30.0, 10.0])
}

/// 1 clips; of [2, 3, 4, 5, 6] only 4 lies inside: its neighbours are kept, the others are dropped.
#[test]
fn clipped() {
    let state = alone(
        1,
        &[
            inside(plain(1)).clips_children(true).children(&[2, 3, 4, 5, 6]),
            outside(plain(2)),
            outside(plain(3)),
            inside(plain(4)),
            outside(plain(5)),
            outside(plain(6)),
        ],
    );
    for (node, result) in [(2, ExcludeSubtree), (3, Include), (4, Include), (5, Include), (6, ExcludeSubtree)]
    {
        assert_eq!(said(&state, 0, node), [result, result, Include], "node {node}");
    }
}

/// 1 clips and has [2]; 2 grafts T and shifts by (20, 0); T's root has the bounds of 1.
#[test]
fn a_clipped_pane() {
    let mut state = alone(
        1,
        &[
            inside(plain(1)).clips_children(true).children(&[2]),
            plain(2).graft(T).transform(Affine::translate(20.0, 0.0)),
        ],
    );
    state.update(&record(&Batch::new(T, 1).root(1).nodes(&[inside(plain(1))])), &mut [0; 8]).unwrap();
    assert_eq!(said(&state, 1, 1), [ExcludeSubtree, ExcludeSubtree, Include]);
}
