//! Module 8: document 01's case 15 and others of questions/specs/WalkCases, and the walk that the caller keeps.
use crate::filters::{alone, buttons};
use crate::{T, batch, id, plain, record, s, told};
use cartgravel::{
    Batch, Filter, FullNodeId, Node, NodeIds, NodeRef, Number, STATE_BYTES, Side, State, TreeId, Walk,
};

const BOTH: [Side; 2] = [Side::Following, Side::Preceding];
const COMMON: Filter = Filter::Common;

/// Ids in words.
fn said(ids: NodeIds) -> String {
    ids.map(|id| id.to_string()).collect::<Vec<_>>().join(" ")
}

fn node(state: &State, tree: u32, node: u64) -> NodeRef<'_> {
    state.node(id(tree, node)).unwrap()
}

/// The filtered siblings of a node, those that follow first.
fn siblings(state: &State, tree: u32, number: u64) -> [String; 2] {
    BOTH.map(|side| said(node(state, tree, number).filtered_siblings(side, COMMON).ids()))
}

/// Both buttons are filtered children, and each is the only filtered sibling of the other.
#[test]
fn case_15_both_buttons() {
    let state = buttons();
    let root = state.root().unwrap();
    assert_eq!(said(root.filtered_children(COMMON).ids()), "(0, 2) (0, 5)");
    assert_eq!(root.first_filtered_child(COMMON).unwrap().id(), id(0, 2));
    assert_eq!(root.last_filtered_child(COMMON).unwrap().id(), id(0, 5));
    assert_eq!(siblings(&state, 0, 2), ["(0, 5)", ""]);
    assert_eq!(siblings(&state, 0, 5), ["", "(0, 2)"]);
    assert_eq!(siblings(&state, 0, 4), ["(0, 5)", "(0, 2)"]);
    let two = node(&state, 0, 2);
    assert_eq!(
        two.following_filtered_siblings(COMMON).ids(),
        two.filtered_siblings(Side::Following, COMMON).ids()
    );
    assert!(two.preceding_filtered_siblings(COMMON).next().is_none());
}

/// 1 has [2, 3, 4]; 3 has [5], 5 has [6], 6 has [7, 8], and these three are generic containers.
fn three_deep() -> State {
    alone(
        1,
        &[
            plain(1).children(&[2, 3, 4]),
            plain(2),
            Node::new(3).children(&[5]),
            plain(4),
            Node::new(5).children(&[6]),
            Node::new(6).children(&[7, 8]),
            plain(7),
            plain(8),
        ],
    )
}

#[test]
fn containers_three_deep() {
    let state = three_deep();
    assert_eq!(said(state.root().unwrap().filtered_children(COMMON).ids()), "(0, 2) (0, 7) (0, 8) (0, 4)");
    assert_eq!(siblings(&state, 0, 2), ["(0, 7) (0, 8) (0, 4)", ""]);
    assert_eq!(siblings(&state, 0, 4), ["", "(0, 8) (0, 7) (0, 2)"]);
    assert_eq!(siblings(&state, 0, 7), ["(0, 8) (0, 4)", "(0, 2)"]);
    assert_eq!(node(&state, 0, 7).filtered_parent(COMMON).unwrap().id(), id(0, 1));
    assert_eq!(said(node(&state, 0, 3).filtered_children(COMMON).ids()), "(0, 7) (0, 8)");
}

/// No ancestor is included: no filtered siblings. Under the root exception ROOT's root is.
#[test]
fn no_included_ancestor() {
    let state = alone(2, &[Node::new(1).children(&[2, 3]), plain(2), plain(3)]);
    assert_eq!(siblings(&state, 0, 2), ["", ""]);
    assert!(node(&state, 0, 2).filtered_parent(COMMON).is_none());
    let two = node(&state, 0, 2);
    assert_eq!(two.filtered_parent(Filter::WithRootException).unwrap().id(), id(0, 1));
    assert_eq!(said(two.filtered_siblings(Side::Following, Filter::WithRootException).ids()), "(0, 3)");
}

/// 1 has [2, 3]; 2 is a generic container and has [4]; 4 has [5, 6]; 3 has [7, 8]; 8 is hidden.
#[test]
fn deepest() {
    let state = alone(
        1,
        &[
            plain(1).children(&[2, 3]),
            Node::new(2).children(&[4]),
            plain(3).children(&[7, 8]),
            plain(4).children(&[5, 6]),
            plain(5),
            plain(6),
            plain(7),
            plain(8).hidden(true),
        ],
    );
    let ends = |number| {
        let node = node(&state, 0, number);
        let ends = [node.deepest_first_filtered_child(COMMON), node.deepest_last_filtered_child(COMMON)];
        ends.map(|end| end.map(|node| node.id().node.0))
    };
    assert_eq!(ends(1), [Some(5), Some(7)]);
    assert_eq!(ends(2), [Some(5), Some(6)]);
    assert_eq!(ends(5), [None, None]);
    assert!(node(&state, 0, 5).first_filtered_child(COMMON).is_none());
}

/// 1 has [2, 3]; 2 grafts T, whose root 1 is a generic container and has [2, 3].
#[test]
fn panes() {
    let mut state = alone(3, &[plain(1).children(&[2, 3]), plain(2).graft(T), plain(3)]);
    let pane = [Node::new(1).children(&[2, 3]), plain(2), plain(3)];
    state.update(&record(&Batch::new(T, 2).root(1).nodes(&pane)), &mut [0; 8]).unwrap();
    assert_eq!(said(state.root().unwrap().filtered_children(COMMON).ids()), "(1, 2) (1, 3) (0, 3)");
    assert_eq!(siblings(&state, 1, 2), ["(1, 3) (0, 3)", ""]);
    assert_eq!(siblings(&state, 0, 3), ["", "(1, 3) (1, 2)"]);
}

/// Walks to the end, which it asks for twice.
fn walked(walk: &mut Walk, state: &State) -> Vec<FullNodeId> {
    let mut ids = Vec::new();
    while let Some(id) = walk.next(state).unwrap() {
        ids.push(id);
        assert_eq!(walk.count(), ids.len() as u64);
    }
    let end = walk.clone();
    assert_eq!((walk.next(state), &*walk), (Ok(None), &end));
    ids
}

/// From count 0 the answers are the list, and then the end for good: with each filter and none, on each side.
#[test]
fn a_walk_is_the_list() {
    for state in [s(), buttons(), three_deep()] {
        for number in 1..=state.node_count() as u64 {
            let node = node(&state, 0, number);
            for side in BOTH {
                let mut walk = node.walk(side, None);
                assert!(node.siblings(side).ids().eq(walked(&mut walk, &state)));
                for filter in [COMMON, Filter::WithRootException, Filter::WithoutParentChecks] {
                    let mut walk = Walk::new(node.id(), side, Some(filter));
                    assert!(node.filtered_siblings(side, filter).ids().eq(walked(&mut walk, &state)));
                }
            }
        }
    }
}

/// The walk goes on in a later state: where its list got shorter it is at the end, where it got longer it goes on.
#[test]
fn a_walk_on_a_later_state() {
    let mut state = s();
    let mut walk = state.root().unwrap().children().next().unwrap().walk(Side::Following, Some(COMMON));
    assert_eq!(walk.next(&state), Ok(Some(id(0, 3))));
    told(&mut state, &batch().nodes(&[plain(1).children(&[2])]));
    assert_eq!((walk.next(&state), walk.count()), (Ok(None), 1));
    told(&mut state, &batch().nodes(&[plain(1).children(&[2, 4, 5]), plain(4), plain(5)]));
    assert_eq!((walk.next(&state), walk.count()), (Ok(Some(id(0, 5))), 2));
}

/// At a refusal the walk stays as it was, and goes on where its node is there again.
#[test]
fn a_walk_that_is_refused() {
    let mut state = s();
    let mut walk = Walk::new(id(0, 3), Side::Preceding, None);
    let before = walk.clone();
    told(&mut state, &batch().nodes(&[plain(1).children(&[2])]));
    assert_eq!((walk.next(&state), &walk), (Err(Number::NodeAbsent), &before));
    let blank = State::from_bytes(&[0; STATE_BYTES]);
    assert_eq!((walk.next(&blank), &walk), (Err(Number::StateNotSound), &before));
    assert_eq!((walk.next(&s()), walk.node()), (Ok(Some(id(0, 2))), id(0, 3)));
    assert_ne!(walk, before);
}

/// ROOT's root has no siblings, and a tree's root none either.
#[test]
fn a_walk_from_a_root() {
    let state = alone(1, &[plain(1)]);
    assert!(walked(&mut Walk::new(id(0, 1), Side::Following, Some(COMMON)), &state).is_empty());
    assert_eq!(state.tree_index(TreeId::ROOT).unwrap().unwrap().node(1), id(0, 1));
}
