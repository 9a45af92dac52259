//! Document 01's cases 1 to 14 and known traps of the update, each with the
//! number that it must get. They open every run.
use crate::judge::{Call, Held, Input, judge};
use crate::make::filler;
use crate::plain::*;

/// Two tree ids that are not ROOT.
pub const T: Tid = (0, 7);
pub const U: Tid = (8, 0);

/// The nodes of a batch.
pub type Nodes = Vec<(u64, Data)>;

/// A node of role 4 with these children.
pub fn with(n: u64, children: &[u64]) -> (u64, Data) {
    (n, Data { role: 4, children: children.to_vec(), ..Data::default() })
}

/// A node of role 4 without children.
pub fn leaf(n: u64) -> (u64, Data) {
    with(n, &[])
}

/// A node that grafts a tree.
pub fn grafts(n: u64, tree: Tid) -> (u64, Data) {
    let mut node = leaf(n);
    node.1.set_graft(Some(tree));
    node
}

/// A node that grafts T and has children all the same.
pub fn graft_with(n: u64, children: &[u64]) -> (u64, Data) {
    let mut node = with(n, children);
    node.1.set_graft(Some(T));
    node
}

/// A leaf with a label.
pub fn labelled(n: u64) -> (u64, Data) {
    let mut node = leaf(n);
    node.1.label = vec![97];
    node
}

/// Node 3 with bounds whose four numbers have these bits.
fn boxed(bits: u64) -> (u64, Data) {
    let mut node = leaf(3);
    (node.1.flags, node.1.bounds) = (BOUNDS, [bits; 4]);
    node
}

/// A start with root 1, host focused.
pub fn start(focus: u64, nodes: Nodes) -> Call {
    Call::Start(Input::Batch(Batch { tree: ROOT, root: Some(1), focus, nodes }), true)
}

/// A batch with room for its lists.
pub fn batch(tree: Tid, root: Option<u64>, focus: u64, nodes: Nodes) -> Call {
    Call::Update(Input::Batch(Batch { tree, root, focus, nodes }), filler(40))
}

/// For ROOT, without tree data, with focus 2.
fn plain(nodes: Nodes) -> Call {
    batch(ROOT, None, 2, nodes)
}

/// The state after a call that is accepted.
pub fn after(on: &Held, call: Call) -> Held {
    judge(Some(on), &call).1.expect("accepted")
}

fn s() -> Call {
    start(2, vec![with(1, &[2, 3]), leaf(2), leaf(3)])
}

/// States that calls are made on.
pub struct On {
    pub s: Held,
    /// S, then 3 grafts T.
    pub held: Held,
    /// Then T with the one node 1.
    pub filled: Held,
    /// S, 3 grafts T, T has 1 with [2], 2 with [3].
    pub deep: Held,
    /// S, 3 grafts T, T's 2 grafts U, U has the one node 1.
    pub nested: Held,
    /// 1 has [2, 3], 2 has [4], 4 grafts T.
    pub below: Held,
    /// S, then 2 grafts T, with focus 3.
    pub second: Held,
}

/// The states, each made by calls.
pub fn states() -> On {
    let s = judge(None, &s()).1.unwrap();
    let held = after(&s, plain(vec![grafts(3, T)]));
    let filled = after(&held, batch(T, Some(1), 1, vec![leaf(1)]));
    let deep = after(&held, batch(T, Some(1), 1, vec![with(1, &[2]), with(2, &[3]), leaf(3)]));
    let nested = after(&held, batch(T, Some(1), 1, vec![with(1, &[2]), grafts(2, U)]));
    let nested = after(&nested, batch(U, Some(1), 1, vec![leaf(1)]));
    let below = after(&s, batch(ROOT, None, 1, vec![with(2, &[4]), grafts(4, T)]));
    let second = after(&s, batch(ROOT, None, 3, vec![grafts(2, T)]));
    On { s, held, filled, deep, nested, below, second }
}

/// The calls, each with its state (none: a start) and its number.
pub fn known() -> Vec<(Option<Held>, Call, u8)> {
    let on = states();
    let x = vec![
        // document 01
        (None, s(), 0),
        (None, start(2, vec![with(1, &[2, 2]), leaf(2), leaf(3)]), 9),
        (Some(&on.s), plain(vec![with(1, &[2, 2])]), 9),
        (Some(&on.s), plain(vec![with(1, &[2])]), 0),
        (Some(&on.s), batch(ROOT, None, 3, vec![with(1, &[2])]), 17),
        (Some(&on.s), plain(vec![with(1, &[2, 3, 4])]), 14),
        (Some(&on.s), plain(vec![leaf(4)]), 13),
        (Some(&on.s), plain(vec![labelled(3), with(1, &[2])]), 18),
        (Some(&on.s), plain(vec![with(1, &[2]), labelled(3)]), 19),
        (Some(&on.s), plain(vec![graft_with(3, &[2])]), 10),
        (Some(&on.s), plain(vec![grafts(3, T)]), 0),
        (Some(&on.held), batch(T, Some(1), 1, vec![leaf(1)]), 0),
        (Some(&on.held), batch(T, None, 1, vec![leaf(1)]), 7),
        (Some(&on.s), plain(vec![grafts(2, T), grafts(3, T)]), 12),
        (Some(&on.s), batch(ROOT, None, 3, vec![grafts(3, T)]), 15),
        (Some(&on.filled), plain(vec![leaf(3), grafts(2, T)]), 0),
        (Some(&on.s), plain(vec![with(3, &[3])]), 19),
        // roots
        (Some(&on.s), batch(ROOT, Some(2), 2, vec![]), 19),
        (Some(&on.s), batch(ROOT, Some(2), 2, vec![leaf(2)]), 0),
        (Some(&on.s), batch(ROOT, Some(2), 3, vec![with(1, &[3])]), 16),
        (Some(&on.deep), batch(T, Some(2), 2, vec![]), 0),
        (Some(&on.deep), batch(T, Some(3), 3, vec![with(2, &[3])]), 0),
        (Some(&on.deep), batch(T, None, 1, vec![with(1, &[2])]), 0),
        (Some(&on.held), batch(T, Some(1), 1, vec![with(1, &[2]), with(2, &[1])]), 19),
        (Some(&on.held), batch(T, Some(2), 1, vec![with(1, &[])]), 13),
        (Some(&on.filled), batch(T, Some(2), 1, vec![]), 19),
        // the order of the nodes
        (Some(&on.s), plain(vec![leaf(3), with(1, &[2])]), 0),
        (Some(&on.s), plain(vec![with(1, &[2]), leaf(3)]), 19),
        (Some(&on.s), plain(vec![with(1, &[3, 2])]), 0),
        (Some(&on.s), plain(vec![with(2, &[3])]), 19),
        (Some(&on.s), plain(vec![with(2, &[3]), with(1, &[2])]), 0),
        // grafts
        (Some(&on.s), plain(vec![grafts(4, ROOT)]), 13),
        (Some(&on.s), plain(vec![graft_with(3, &[2, 2])]), 9),
        (Some(&on.s), plain(vec![grafts(4, ROOT), grafts(2, T), grafts(3, T), with(1, &[2, 3, 4])]), 12),
        (Some(&on.s), plain(vec![with(1, &[2, 3, 4]), grafts(4, ROOT), grafts(2, T), grafts(3, T)]), 11),
        (Some(&on.held), plain(vec![grafts(2, T), with(1, &[2, 3, 9])]), 14),
        (Some(&on.held), plain(vec![grafts(2, T)]), 12),
        (Some(&on.second), batch(ROOT, None, 1, vec![grafts(3, T), with(1, &[2])]), 18),
        (Some(&on.below), batch(ROOT, None, 1, vec![grafts(4, T), leaf(2), grafts(3, T)]), 0),
        (Some(&on.below), batch(ROOT, None, 1, vec![leaf(2), grafts(4, T), grafts(3, T)]), 12),
        (Some(&on.nested), batch(ROOT, None, 1, vec![with(1, &[2]), grafts(2, U)]), 0),
        (Some(&on.nested), plain(vec![with(1, &[2])]), 0),
        (Some(&on.nested), batch(ROOT, None, 3, vec![]), 0),
        (Some(&on.nested), batch(T, None, 2, vec![]), 0),
        // by value
        (Some(&on.s), plain(vec![boxed(1 << 63)]), 0),
    ];
    x.into_iter().map(|(on, call, number)| (on.cloned(), call, number)).collect()
}

#[cfg(test)]
mod tests {
    use super::*;
    use crate::judge::Answer;

    fn answer(on: &Held, call: Call) -> Answer {
        judge(Some(on), &call).0
    }

    #[test]
    fn numbers() {
        for (k, (on, call, number)) in known().into_iter().enumerate() {
            assert_eq!(judge(on.as_ref(), &call).0.number, number, "call {k}");
        }
    }

    #[test]
    fn lists() {
        let on = states();
        let a = answer(&on.s, plain(vec![with(1, &[2])]));
        assert_eq!((a.updated, a.removed), (vec![(0, 1)], vec![(0, 3)]));
        assert_eq!(a.slice[..5], [0, 1, 0, 3, 900_004]);
        let a = answer(&on.held, batch(T, Some(1), 1, vec![leaf(1)]));
        assert_eq!((a.added, a.focus.1), (vec![(1, 1)], Some((0, 2))));
        let a = answer(&on.filled, plain(vec![leaf(3), grafts(2, T)]));
        assert_eq!((a.focus.1, a.relinked), (Some((1, 1)), vec![(1, 1)]));
        let a = answer(&on.deep, batch(T, Some(2), 2, vec![]));
        assert_eq!((a.updated, a.removed), (vec![(1, 2)], vec![(1, 1)]));
        let a = answer(&on.s, plain(vec![with(1, &[3, 2])]));
        assert_eq!((a.updated.len(), a.relinked.len()), (3, 0));
        let a = answer(&on.nested, batch(ROOT, None, 1, vec![with(1, &[2]), grafts(2, U)]));
        assert_eq!((a.removed, a.relinked), (vec![(0, 3), (1, 1), (1, 2)], vec![(2, 1)]));
        assert_eq!(a.state.trees[1], (T, None));
    }

    #[test]
    fn the_lost_link_is_put_back() {
        let a = answer(&states().deep, batch(T, None, 1, vec![with(1, &[2])]));
        assert!(a.restored);
        assert_eq!(a.state.nodes[&(1, 1)].0, Some(((0, 3), 0)));
    }

    #[test]
    fn old_bits_stay() {
        let zero = after(&states().s, plain(vec![boxed(0)]));
        let a = answer(&zero, plain(vec![boxed(1 << 63)]));
        assert_eq!((a.updated, a.state), (vec![], zero.plain));
    }
}
