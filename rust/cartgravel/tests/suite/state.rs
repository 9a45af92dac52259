//! The state as a value: its bytes, its focus, where it lives.
use crate::{T, batch, id, plain, record, s, s_with_t, screen, started, told, words};
use cartgravel::{
    Affine, Batch, CHANGES, Counts, Filter, FilterResult, FullNodeId, Node, Number, Rect, STACK, START_STACK,
    STATE_BYTES, State, TreeEnds, TreeId, TreeIndex, WrongLength, sys,
};
use std::thread;

#[test]
fn bytes_and_back() {
    let state = s_with_t();
    assert_eq!(State::from_bytes(&state.to_bytes()), state);
    assert_ne!(state, s());
}

/// The bytes are those of the memory that C sees: the counts and the host flag first, the numbers of the nodes in a row.
#[test]
fn bytes_are_the_words() {
    let bytes = s_with_t().to_bytes();
    let words = |at: usize, n: usize| {
        bytes[8 * at..8 * (at + n)].as_chunks().0.iter().map(|b| u64::from_le_bytes(*b)).collect::<Vec<_>>()
    };
    assert_eq!(size_of::<sys::State>(), STATE_BYTES);
    assert_eq!(words(0, 8), [4, 2, 1, 0, 0, 0, 0, 0]);
    assert_eq!(words(168, 5), [0, 0, 0, 1, 0]);
    assert_eq!(words(488, 5), [1, 2, 3, 1, 0]);
}

/// A state differs from one with any byte changed.
#[test]
fn equality_is_that_of_every_byte() {
    let state = s_with_t();
    let bytes = state.to_bytes();
    for at in (0..STATE_BYTES).step_by(61) {
        let mut changed = bytes;
        changed[at] ^= 0x80;
        assert_ne!(State::from_bytes(&changed), state, "byte {at}");
    }
}

/// A label that is gone is gone from memory.
#[test]
fn nothing_is_left_of_what_is_gone() {
    let has = |state: &State, word: &[u8]| state.to_bytes().windows(word.len()).any(|w| w == word);
    let mut state = s();
    told(&mut state, &batch().nodes(&[plain(3).label("49218810")]));
    assert!(has(&state, b"49218810"));
    told(&mut state, &batch().nodes(&[plain(3).label("49")]));
    assert!(has(&state, b"49") && !has(&state, b"218810"));
    told(&mut state, &batch().nodes(&[plain(1).children(&[2])]));
    assert!(!has(&state, b"49"));
    told(&mut state, &batch().nodes(&[plain(1).children(&[2, 3]), plain(3)]));
    assert_eq!(state, s());
}

#[test]
fn debug_is_short() {
    let words = format!("{:?}", s());
    assert_eq!(words, "State { node_count: 3, tree_count: 1, is_host_focused: true, .. }");
}

#[test]
fn conversions_from_bytes() {
    let state = s_with_t();
    let bytes: [u8; STATE_BYTES] = (&state).into();
    assert_eq!(State::from(&bytes), state);
    assert_eq!(State::try_from(&bytes[..]), Ok(state));
    let short = State::try_from(&bytes[1..]).unwrap_err();
    assert_eq!((short, short.to_string().as_str()), (WrongLength(77_119), "77119 bytes, of a state's 77120"));
    assert_eq!(State::default(), State::blank());
}

/// The focus, the root, the trees and the counts.
#[test]
fn questions_about_the_state() {
    let mut state = s_with_t();
    assert_eq!(state.focus_id(), Ok(Some(id(0, 2))));
    assert_eq!(state.focus().unwrap().unwrap().id(), id(0, 2));
    assert_eq!(state.root_id(), Ok(id(0, 1)));
    assert_eq!(state.root().unwrap().id(), id(0, 1));
    let counts = |state: &State| {
        let Counts { nodes, trees, host_focused, .. } = state.counts().unwrap();
        (nodes, trees, host_focused)
    };
    assert_eq!(counts(&state), (4, 2, true));
    state.host_focus(false).unwrap();
    assert_eq!(state.focus_id(), Ok(None));
    assert!(state.focus().unwrap().is_none());
    assert_eq!(counts(&state), (4, 2, false));
}

/// A number that no tree has and a tree id that has no number are none; a tree that is gone keeps its number.
#[test]
fn questions_about_trees() {
    let mut state = s_with_t();
    assert_eq!(state.tree_id(TreeIndex::ROOT), Ok(Some(TreeId::ROOT)));
    assert_eq!(state.tree_id(TreeIndex(1)), Ok(Some(T)));
    assert_eq!(state.tree_id(TreeIndex(2)), Ok(None));
    assert_eq!(state.tree_id(TreeIndex(u32::MAX)), Ok(None));
    assert_eq!(state.tree_index(T), Ok(Some(TreeIndex(1))));
    assert_eq!(state.tree_index(TreeId { high: 0, low: T.high }), Ok(None));
    let ends = |root, focus| Ok(Some(TreeEnds { root, focus }));
    assert_eq!(state.tree_ends(TreeIndex::ROOT), ends(id(0, 1), id(0, 2)));
    assert_eq!(state.tree_ends(TreeIndex(1)), ends(id(1, 1), id(1, 1)));
    assert_eq!(state.tree_ends(TreeIndex(2)), Ok(None));
    told(&mut state, &batch().nodes(&[plain(3)]));
    assert_eq!(state.tree_ends(TreeIndex(1)), Ok(None));
    assert_eq!(state.tree_index(T), Ok(Some(TreeIndex(1))));
    assert_eq!(state.counts().unwrap().trees, 2);
}

#[test]
fn the_host_loses_the_focus_and_gets_it_back() {
    let mut state = s();
    assert_eq!(words(&state.host_focus(false).unwrap()), " focus (0, 2) none extra (0, 2) none");
    assert!(!state.is_host_focused());
    assert_eq!(words(&state.host_focus(true).unwrap()), " focus none (0, 2) extra none (0, 2)");
    assert_eq!(state, s());
}

#[test]
fn a_start_without_host_focus_has_none() {
    let (_, report) = State::start(&screen(), false).unwrap();
    assert_eq!(report.focus_after(), None);
}

#[test]
fn the_focus_moves() {
    let moved = told(&mut s(), &Batch::new(TreeId::ROOT, 3));
    assert_eq!(moved, "nodes 3 focus (0, 2) (0, 3) extra (0, 2) (0, 3)");
}

/// A list runs from both ends and knows its length.
#[test]
fn lists_are_iterators() {
    let mut changes = [0; CHANGES];
    let mut state = s();
    let swapped = record(&batch().nodes(&[plain(1).children(&[3, 2])]));
    let report = state.update(&swapped, &mut changes).unwrap();
    let mut updated = report.updated();
    assert_eq!(updated.len(), 3);
    assert_eq!(updated.next_back(), Some(id(0, 3)));
    assert_eq!(updated.next(), Some(id(0, 1)));
    assert_eq!(updated.len(), 1);
    assert!(updated.eq([id(0, 2)]));
}

/// A start in a state's place, taken and refused.
#[test]
fn a_start_in_place() {
    let record = record(&batch().root(1).nodes(&[plain(1).children(&[2]), plain(2)]));
    let started = State::start(&record, true).unwrap().0;
    let mut state = State::blank();
    assert_eq!(state.host_focus(true).unwrap_err(), Number::StateNotSound);
    assert_eq!(state.restart(&record, true).unwrap().focus_after(), Some(id(0, 2)));
    assert_eq!(state, started);
    assert_eq!(state.restart(&[], true).unwrap_err(), Number::NotARecord);
    assert_eq!((state.node_count(), state.tree_count(), state.is_host_focused()), (0, 0, false));
}

/// A start and a batch of the most nodes, with full labels.
pub fn large() -> [Vec<u8>; 2] {
    let large = |id| plain(id).label(&[b'a'; 32]).bounds([1.0; 4]).transform([1.0; 6]);
    let children: Vec<u64> = (2..=64).collect();
    let family = |leaves: &mut dyn Iterator<Item = u64>| {
        let mut nodes = vec![large(1).children(&children[..])];
        nodes.extend(leaves.map(large));
        record(&batch().root(1).nodes(&nodes))
    };
    [family(&mut (2..=64)), family(&mut (2..=64).rev())]
}

/// Runs a call on a thread with this stack. With less than the call needs, the process ends here.
pub fn on_a_stack<T: Send + 'static>(size: usize, call: impl FnOnce() -> T + Send + 'static) -> T {
    thread::Builder::new().stack_size(size).spawn(call).unwrap().join().unwrap()
}

/// Each call with no more stack than [`STACK`], on a state that lives elsewhere.
#[test]
fn the_stack_that_a_call_needs() {
    let [record, reversed] = large();
    let mut state = Box::new(State::blank());
    let mut changes = vec![0; CHANGES];
    let (state, begun) = on_a_stack(STACK, move || {
        let begun = state.restart(&record, true).is_ok();
        (state, begun)
    });
    let (mut state, updated) = on_a_stack(STACK, {
        let mut state = state;
        move || {
            let updated = state.update(&reversed, &mut changes).map(|report| report.updated().len());
            (state, updated)
        }
    });
    let changed = on_a_stack(STACK, move || state.host_focus(false).is_ok());
    assert_eq!((begun, updated, changed), (true, Ok(0), true));
}

/// A chain of 256 nodes, each of which clips its child and shifts it by (1, 1).
pub fn chain() -> Box<State> {
    let below: Vec<[u64; 1]> = (1..=256).map(|id| [id + 1]).collect();
    let node = |id: u64, last| {
        let children = if id < last { &below[id as usize - 1][..] } else { &[] };
        plain(id).children(children).clips_children(true).bounds([0.0, 0.0, 9.0, 9.0])
    };
    let part = |from, last| -> Vec<Node> {
        (from..=last).map(|id| node(id, last).transform(Affine::translate(1.0, 1.0))).collect()
    };
    let mut state = Box::new(started(&batch().root(1).nodes(&part(1, 64))));
    for (from, last) in [(64, 127), (127, 190), (190, 253), (253, 256)] {
        told(&mut state, &batch().nodes(&part(from, last)));
    }
    state
}

/// What a filter, and the questions that go all the way up or down, answer of both ends of a chain.
fn ends_asked(state: &State, filter: Filter) -> (Option<FullNodeId>, FilterResult, usize, Option<Rect>) {
    let [top, end] = [1, 256].map(|node| state.node(id(0, node)).unwrap());
    let deepest = top.deepest_last_filtered_child(filter).map(|node| node.id());
    let listed = top.filtered_children(filter).len() + end.preceding_filtered_siblings(filter).len();
    (deepest, end.filter(filter), listed, end.bounding_box().rect())
}

/// Questions with no more stack than [`STACK`] and room for the lists of the iterators.
#[test]
fn the_stack_that_a_question_needs() {
    let state = chain();
    let filters = [Filter::Common, Filter::WithRootException, Filter::WithoutParentChecks];
    let asked = on_a_stack(STACK + 8 * 4096, move || filters.map(|filter| ends_asked(&state, filter)));
    let rect = Rect::new(256.0, 256.0, 265.0, 265.0);
    assert_eq!(asked, [(Some(id(0, 256)), FilterResult::Include, 1, Some(rect)); 3]);
}

/// A start by value, with no more than [`START_STACK`].
#[test]
fn the_stack_that_a_start_by_value_needs() {
    let [record, _] = large();
    assert_eq!(on_a_stack(START_STACK, move || State::start(&record, true).unwrap().0.node_count()), 64);
}
