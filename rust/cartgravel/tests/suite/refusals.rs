//! The questions as C has them: the numbers in their order, answers of zeros and slices untouched after a refusal.
use crate::{LENT, id, s_with_t};
use cartgravel::sys::{
    self, FoundId, Listed, OptionalId, PlainEnds, PlainIndex, PlainNode, PlainTreeId, Walk,
};
use cartgravel::{Affine, FullNodeId, Rect, TreeId};

/// Room for the lists of S with T.
const ROOM: usize = 8;

/// S with T in 3, and the same with a bit changed, which no call takes.
fn states() -> [Box<sys::State>; 2] {
    let bytes = s_with_t().to_bytes();
    let words = |flip: u64| {
        let mut state = Box::new(sys::State::blank());
        for (word, bytes) in state.words.iter_mut().zip(bytes.as_chunks().0) {
            *word = u64::from_le_bytes(*bytes);
        }
        state.words[0] ^= flip;
        state
    };
    [words(0), words(1)]
}

/// What a question for one thing answers: its number, and whether the rest is zeros.
type Asked = (u32, bool);

fn found(f: FoundId) -> Asked {
    (f.number, f.id == OptionalId::default())
}

/// Each question for one thing, about a node, with a filter's number.
fn single(state: &sys::State, id: FullNodeId, filter: u32) -> [Asked; 6] {
    let result = state.filter(id, filter);
    [
        (result.number, result.result == 0),
        found(state.filtered_parent(id, filter)),
        found(state.first_filtered_child(id, filter)),
        found(state.last_filtered_child(id, filter)),
        found(state.deepest_first_filtered_child(id, filter)),
        found(state.deepest_last_filtered_child(id, filter)),
    ]
}

/// Each question for one thing that has no filter.
fn plain(state: &sys::State, id: FullNodeId) -> [Asked; 5] {
    let (hidden, transform) = (state.hidden(id), state.transform(id));
    let (boxed, node) = (state.bounding_box(id), state.node(id));
    let zeros = Affine::new([0.0; 6]);
    let nothing = PlainNode {
        bounds: Rect::default(),
        transform: zeros,
        graft: TreeId::ROOT,
        active_descendant: 0,
        label_length: 0,
        child_count: 0,
        role: 0,
        flags: 0,
        number: node.number,
    };
    [
        (hidden.number, hidden.value == 0),
        (transform.number, transform.transform == zeros),
        (boxed.number, boxed.kind == 0 && boxed.rect == Rect::default()),
        (node.number, node == nothing),
        found(state.parent(id)),
    ]
}

/// Each question for a list, in a slice of that many elements: its number and its length. What is not written stays.
fn lists(state: &sys::State, id: FullNodeId, filter: u32, side: u32, room: usize) -> [(u32, usize); 4] {
    let ask = |question: &dyn Fn(&mut [u64]) -> Listed| {
        let mut out = [LENT; ROOM];
        let listed = question(&mut out[..room]);
        assert!(out[2 * listed.length..].iter().all(|element| *element == LENT));
        (listed.number, listed.length)
    };
    [
        ask(&|out| state.siblings(id, side, out)),
        ask(&|out| state.filtered_siblings(id, filter, side, out)),
        ask(&|out| state.filtered_children(id, filter, out)),
        ask(&|out| state.children(id, out)),
    ]
}

/// That each question that takes these refuses with this number, an answer of zeros and a slice as it was.
#[track_caller]
fn all_refuse(state: &sys::State, id: FullNodeId, number: u32) {
    assert_eq!(single(state, id, 1), [(number, true); 6]);
    assert_eq!(plain(state, id), [(number, true); 5]);
    assert_eq!(lists(state, id, 1, 0, ROOM), [(number, 0); 4]);
    let mut label = [9; 32];
    assert_eq!(state.label(id, &mut label), Listed { length: 0, number });
    assert_eq!(label, [9; 32]);
}

#[test]
fn a_state_that_is_not_sound() {
    let [_, damaged] = states();
    all_refuse(&damaged, id(0, 2), 1);
    all_refuse(&damaged, id(9, 9), 1);
    all_refuse(&sys::State::blank(), id(0, 0), 1);
}

#[test]
fn questions_about_a_state_that_is_not_sound() {
    let [_, damaged] = states();
    assert_eq!([damaged.focus(), damaged.root()], [FoundId { number: 1, ..FoundId::default() }; 2]);
    assert_eq!(damaged.tree_id(0), PlainTreeId { number: 1, ..PlainTreeId::default() });
    assert_eq!(damaged.tree_index(TreeId::ROOT), PlainIndex { number: 1, ..PlainIndex::default() });
    assert_eq!(damaged.tree_ends(0), PlainEnds { number: 1, ..PlainEnds::default() });
    assert_eq!(damaged.counts(), sys::PlainCounts { number: 1, ..sys::PlainCounts::default() });
}

#[test]
fn a_node_that_is_not_there() {
    let [state, _] = states();
    for absent in [id(0, 4), id(1, 2), id(2, 1), id(u32::MAX, u64::MAX)] {
        all_refuse(&state, absent, 22);
    }
}

/// A filter or a side that is none of ours: 2, after 1 and before 22 and 21.
#[test]
fn no_such_filter_or_side() {
    let [state, damaged] = states();
    for filter in [0, 4, u32::MAX] {
        assert_eq!(single(&state, id(0, 2), filter), [(2, true); 6]);
        assert_eq!(single(&state, id(0, 4), filter), [(2, true); 6]);
        assert_eq!(single(&damaged, id(0, 2), filter), [(1, true); 6]);
        assert_eq!(lists(&state, id(0, 1), filter, 0, 0)[1..3], [(2, 0); 2]);
        assert_eq!(lists(&damaged, id(0, 1), filter, 0, 0)[1..3], [(1, 0); 2]);
    }
    for side in [2, u32::MAX] {
        assert_eq!(lists(&state, id(0, 9), 1, side, 0)[..2], [(2, 0); 2]);
        assert_eq!(lists(&damaged, id(0, 9), 1, side, 0)[..2], [(1, 0); 2]);
    }
}

/// A slice too short, after 22: each list of one or two ids, in every room.
#[test]
fn a_slice_too_short() {
    let [state, _] = states();
    for room in 0..ROOM {
        let answer = |length| if room < 2 * length { (21, 0) } else { (0, length) };
        assert_eq!(lists(&state, id(0, 2), 1, 0, room), [answer(1), answer(1), (0, 0), (0, 0)]);
        assert_eq!(lists(&state, id(0, 1), 1, 0, room), [(0, 0), (0, 0), answer(2), answer(2)]);
        assert_eq!(lists(&state, id(0, 4), 1, 0, room), [(22, 0); 4]);
    }
}

#[test]
fn a_label_in_every_room() {
    let mut state = s_with_t();
    crate::told(&mut state, &crate::batch().nodes(&[crate::plain(2).label("Pay")]));
    let [mut raw, _] = states();
    for (word, bytes) in raw.words.iter_mut().zip(state.to_bytes().as_chunks().0) {
        *word = u64::from_le_bytes(*bytes);
    }
    for room in 0..6 {
        let mut out = [9; 6];
        let (length, number) = if room < 3 { (0, 21) } else { (3, 0) };
        assert_eq!(raw.label(id(0, 2), &mut out[..room]), Listed { length, number });
        assert_eq!((&out[..length], &out[length..]), (&b"Pay"[..length], &[9; 6][length..]));
    }
}

/// Each list as elements: tree number, node number.
#[test]
fn what_is_written() {
    let [state, _] = states();
    let mut out = [LENT; 5];
    assert_eq!(state.children(id(0, 1), &mut out), Listed { length: 2, number: 0 });
    assert_eq!(out, [0, 2, 0, 3, LENT]);
    assert_eq!(state.filtered_children(id(0, 1), 1, &mut out), Listed { length: 2, number: 0 });
    assert_eq!(out, [0, 2, 1, 1, LENT]);
    assert_eq!(state.siblings(id(0, 3), 1, &mut out), Listed { length: 1, number: 0 });
    assert_eq!(out, [0, 2, 1, 1, LENT]);
}

/// A walk with anything in its fields: a number of the table, and every field as it was unless there is a sibling.
#[test]
fn hostile_walks() {
    let [state, damaged] = states();
    let good = Walk { node: id(0, 2), side: 0, filter: 1, count: 0 };
    let cases = [
        (Walk { side: 2, ..good }, 2),
        (Walk { side: u32::MAX, node: id(0, 9), ..good }, 2),
        (Walk { filter: 4, ..good }, 2),
        (Walk { filter: u32::MAX, node: id(0, 9), ..good }, 2),
        (Walk { node: id(0, 9), ..good }, 22),
        (Walk { count: 1, ..good }, 0),
        (Walk { count: u64::MAX, ..good }, 0),
        (Walk { count: 1 << 32, ..good }, 0),
        (Walk { side: 1, filter: 0, ..good }, 0),
    ];
    for (walk, number) in cases {
        for (state, number) in [(&state, number), (&damaged, 1)] {
            let mut after = walk;
            assert_eq!(after.next(state), FoundId { number, ..FoundId::default() }, "{walk:?}");
            assert_eq!(after, walk);
        }
    }
    let mut walk = good;
    let third = OptionalId { tree: 1, node: 1, present: 1 };
    assert_eq!(walk.next(&state), FoundId { id: third, number: 0 });
    assert_eq!(walk, Walk { count: 1, ..good });
}
