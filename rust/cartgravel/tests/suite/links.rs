//! Module 6: a node's own words, parents, children, siblings, the inherited hidden flag, transforms and boxes. The
//! cases are those of questions/specs/LinkCases.
use crate::{T, batch, id, plain, record, s, started, told};
use cartgravel::{
    Affine, Batch, BoundingBox, Node, NodeId, NodeRefs, Number, Rect, Role, Side, State, TreeId, TreeIndex,
};

const U: TreeId = TreeId { high: 85, low: 0 };

/// The numbers of nodes in order, a pane's with its tree's.
fn said(nodes: NodeRefs) -> String {
    let words = |id: cartgravel::FullNodeId| match id.tree {
        TreeIndex::ROOT => id.node.to_string(),
        _ => id.to_string(),
    };
    nodes.ids().map(words).collect::<Vec<_>>().join(" ")
}

/// ROOT's 1 has [2, 3, 4]; 3 grafts T, whose root 1 has [2, 3]; 4 grafts U, which does not exist.
fn links() -> State {
    let mut state = started(&batch().root(1).nodes(&[
        plain(1).children(&[2, 3, 4]),
        plain(2),
        plain(3).graft(T),
        plain(4).graft(U),
    ]));
    told(&mut state, &Batch::new(T, 1).root(1).nodes(&[plain(1).children(&[2, 3]), plain(2), plain(3)]));
    state
}

#[test]
fn parents() {
    let state = links();
    let parent = |tree, node| state.node(id(tree, node)).unwrap().parent().map(|parent| parent.id());
    assert_eq!(parent(1, 1), Some(id(0, 3)));
    assert_eq!(parent(1, 3), Some(id(1, 1)));
    assert_eq!(parent(0, 1), None);
}

#[test]
fn children() {
    let state = links();
    let children = |tree, node| {
        let node = state.node(id(tree, node)).unwrap();
        assert_eq!(node.child_count(), node.children().len());
        said(node.children())
    };
    assert_eq!(children(0, 1), "2 3 4");
    assert_eq!(children(1, 1), "(1, 2) (1, 3)");
    assert_eq!(children(0, 3), "(1, 1)");
    assert_eq!(children(0, 4), "");
}

#[test]
fn siblings() {
    let state = links();
    let sides = |tree, node| {
        let node = state.node(id(tree, node)).unwrap();
        assert_eq!(said(node.siblings(Side::Following)), said(node.following_siblings()));
        assert_eq!(said(node.siblings(Side::Preceding)), said(node.preceding_siblings()));
        [said(node.preceding_siblings()), said(node.following_siblings())]
    };
    assert_eq!(sides(0, 2), ["", "3 4"]);
    assert_eq!(sides(0, 3), ["2", "4"]);
    assert_eq!(sides(0, 4), ["3 2", ""]);
    assert_eq!(sides(1, 1), ["", ""]);
    assert_eq!(sides(0, 1), ["", ""]);
}

/// A list runs from both ends, knows its length and hands out nodes that were read.
#[test]
fn lists_are_iterators() {
    let state = links();
    let mut children = state.root().unwrap().children();
    assert_eq!(format!("{children:?}"), format!("{:?}", [id(0, 2), id(0, 3), id(0, 4)]));
    assert_eq!(children.next_back().unwrap().id(), id(0, 4));
    let next = children.next().unwrap();
    assert_eq!((next.id(), next.role()), (id(0, 2), Role(4)));
    assert_eq!(children.len(), 1);
    let mut ids = children.ids();
    assert_eq!((ids.next(), ids.next(), ids.next_back()), (Some(id(0, 3)), None, None));
}

/// 2 is hidden and has [4]; 4 grafts T, whose root 1 has [2]: the parents go on through the graft.
#[test]
fn hidden() {
    let mut state = started(&Batch::new(TreeId::ROOT, 3).root(1).nodes(&[
        plain(1).children(&[2, 3]),
        plain(2).hidden(true).children(&[4]),
        plain(3),
        plain(4).graft(T),
    ]));
    let pane = [plain(1).children(&[2]), plain(2)];
    let mut changes = [0; 8];
    state.update(&record(&Batch::new(T, 1).root(1).nodes(&pane)), &mut changes).unwrap();
    let hidden = |tree, node| {
        let node = state.node(id(tree, node)).unwrap();
        (node.data().hidden, node.is_hidden())
    };
    assert_eq!(hidden(0, 2), (true, true));
    assert_eq!(hidden(0, 4), (false, true));
    assert_eq!(hidden(1, 2), (false, true));
    assert_eq!(hidden(0, 3), (false, false));
    assert_eq!(hidden(0, 1), (false, false));
}

/// What a node says of itself is what the batch said.
#[test]
fn data() {
    let node = Node::new(2)
        .role(Role::ALERT_DIALOG)
        .label("Pay")
        .clips_children(true)
        .active_descendant(1)
        .bounds([1.0, 2.0, 3.0, 4.0])
        .transform([1.0, 0.5, 0.0, 1.0, 8.0, -0.0]);
    let state =
        started(&batch().root(1).nodes(&[plain(1).children(&[2, 3]), node.clone(), plain(3).graft(U)]));
    let found = state.node(id(0, 2)).unwrap();
    assert_eq!(found.data(), &node.data);
    assert_eq!((found.role(), found.label().as_bytes()), (Role(3), &b"Pay"[..]));
    assert_eq!((found.raw_bounds(), found.clips_children()), (Some(Rect::new(1.0, 2.0, 3.0, 4.0)), true));
    assert_eq!(Some(found.direct_transform()), node.data.transform);
    assert_eq!(found.active_descendant().unwrap().id(), id(0, 1));
    let graft = state.node(id(0, 3)).unwrap();
    assert_eq!((graft.is_graft(), graft.data().graft, found.is_graft()), (true, Some(U), false));
    assert_eq!((graft.raw_bounds(), graft.direct_transform()), (None, Affine::IDENTITY));
}

/// An active descendant that is not in the tree is none.
#[test]
fn an_absent_active_descendant() {
    let state = started(&batch().root(2).nodes(&[plain(2).active_descendant(9)]));
    let node = state.root().unwrap();
    assert_eq!(node.data().active_descendant, Some(NodeId(9)));
    assert!(node.active_descendant().is_none());
}

#[test]
fn labels() {
    let labelled = |label: &[u8]| started(&batch().root(2).nodes(&[plain(2).label(label)]));
    let label = |label: &[u8]| labelled(label).root().unwrap().label();
    assert_eq!(label(b"Pay"), "Pay");
    assert_eq!(label("Zahlen: 5 €".as_bytes()).to_string(), "Zahlen: 5 €");
    assert_eq!(format!("[{:>5}]", label(b"Pay")), "[  Pay]");
    assert!(label(b"").is_empty());
    let longest = label(&[b'a'; 32]);
    assert_eq!((longest.len(), longest.as_str()), (32, Ok("aaaaaaaaaaaaaaaaaaaaaaaaaaaaaaaa")));
    let broken = label(b"a\xffb");
    assert!(broken.as_str().is_err());
    assert_eq!((broken.to_string().as_str(), format!("{broken:?}").as_str()), ("a\u{fffd}b", "\"a\\xffb\""));
    assert_eq!(broken, b"a\xffb"[..]);
}

fn shown(state: &State, tree: u32, node: u64) -> (Affine, BoundingBox) {
    let node = state.node(id(tree, node)).unwrap();
    (node.transform(), node.bounding_box())
}

/// 1 trebles, 2 shifts by (3, 5), 3 turns by 90 degrees.
#[test]
fn transforms() {
    let quarter = [0.0, 1.0, -1.0, 0.0, 0.0, 0.0];
    let state = started(&Batch::new(TreeId::ROOT, 1).root(1).nodes(&[
        plain(1).children(&[2]).transform(Affine::scale(3.0)),
        plain(2).children(&[3]).transform(Affine::translate(3.0, 5.0)),
        plain(3).transform(quarter).bounds([0.0, 0.0, 2.0, 1.0]),
    ]));
    assert_eq!(shown(&state, 0, 1), (Affine::scale(3.0), BoundingBox::None));
    assert_eq!(shown(&state, 0, 2), (Affine::new([3.0, 0.0, 0.0, 3.0, 9.0, 15.0]), BoundingBox::None));
    let turned = Affine::new([0.0, 3.0, -3.0, 0.0, 9.0, 15.0]);
    assert_eq!(shown(&state, 0, 3), (turned, BoundingBox::Box(Rect::new(6.0, 15.0, 9.0, 21.0))));
}

/// 1 shifts by (1, 2); 2 doubles and grafts T, whose root shifts by (10, 20).
#[test]
fn a_transform_through_a_graft() {
    let mut state = started(&Batch::new(TreeId::ROOT, 1).root(1).nodes(&[
        plain(1).children(&[2]).transform(Affine::translate(1.0, 2.0)),
        plain(2).graft(T).transform(Affine::scale(2.0)),
    ]));
    let pane = plain(1).transform(Affine::translate(10.0, 20.0)).bounds([0.0, 0.0, 1.0, 1.0]);
    state.update(&record(&Batch::new(T, 1).root(1).nodes(&[pane])), &mut [0; 8]).unwrap();
    let (transform, bounding_box) = shown(&state, 1, 1);
    assert_eq!(transform, Affine::new([2.0, 0.0, 0.0, 2.0, 21.0, 42.0]));
    assert_eq!(Option::from(bounding_box), Some(Rect::new(21.0, 42.0, 23.0, 44.0)));
}

/// Bounds of no width are a box; bounds from the greater corner to the lesser are turned; no bounds are none.
#[test]
fn boxes() {
    let state = started(&batch().root(1).nodes(&[
        plain(1).children(&[2, 3, 4]),
        plain(2).bounds([3.0, 0.0, 3.0, 2.0]),
        plain(3),
        plain(4).bounds([5.0, 2.0, 3.0, 0.0]),
    ]));
    assert_eq!(shown(&state, 0, 2).1, BoundingBox::Box(Rect::new(3.0, 0.0, 3.0, 2.0)));
    assert_eq!(shown(&state, 0, 3), (Affine::IDENTITY, BoundingBox::None));
    assert_eq!(shown(&state, 0, 4).1.rect(), Some(Rect::new(3.0, 0.0, 5.0, 2.0)));
}

/// Three scalings, the product of which is past the greatest number: no box. A zero in a box is +0.
#[test]
fn numbers_that_are_not_finite() {
    let scale = Affine::scale(3.0 * 2f64.powi(400));
    let unit = [-0.0, -0.0, 1.0, 1.0];
    let state = started(&batch().root(1).nodes(&[
        plain(1).children(&[2]).transform(scale),
        plain(2).children(&[3]).transform(scale).bounds(unit),
        plain(3).transform(scale).bounds(unit),
    ]));
    let rect = shown(&state, 0, 2).1.rect().unwrap();
    assert_eq!(rect.x1, 9.0 * 2f64.powi(800));
    assert!(rect.x0 == 0.0 && rect.x0.is_sign_positive());
    let (transform, bounding_box) = shown(&state, 0, 3);
    assert_eq!((transform.a, bounding_box), (f64::INFINITY, BoundingBox::None));
}

#[test]
fn a_node_that_is_not_there() {
    let state = s();
    for absent in [id(0, 4), id(1, 1), id(u32::MAX, 2)] {
        assert_eq!(state.node(absent).unwrap_err(), Number::NodeAbsent);
    }
    let words = format!("{:?}", state.node(id(0, 2)).unwrap());
    assert!(words.starts_with("NodeRef { id: FullNodeId { tree: TreeIndex(0), node: NodeId(2) }"), "{words}");
}
