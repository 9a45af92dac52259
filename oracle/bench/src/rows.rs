//! The rows: a call on a state, run by both sides.
use crate::clock::{Side, Times, interleaved, per_call};
use crate::inputs::{Batch, Shape};
use crate::refusals::{Refusal, refusals};
use crate::sides::{Ours, Theirs, Told, tree_new};
use crate::{CALLS, ROUNDS};
use cartgravel::{Number, State};

/// What was called, on which state, and the times.
pub struct Row {
    pub call: String,
    pub shape: Shape,
    pub ours: Times,
    /// The crate's, where it has the call beside a start.
    pub theirs: Option<Times>,
    /// The crate's `Tree::new` of as many nodes.
    pub start: Times,
}

/// A start in the place of a state, and one that hands the state back by value, against `Tree::new`.
pub fn starts(shape: Shape) -> [Row; 2] {
    let record = shape.start().record();
    let mut state = Box::new(State::blank());
    let in_place = || per_call(0..CALLS, |_| state.restart(&record, true).expect("a start"));
    let by_value = || per_call(0..CALLS, |_| State::start(&record, true).expect("a start"));
    [
        row("a start, `restart`", shape, Box::new(in_place), None),
        row("a start, `start`", shape, Box::new(by_value), None),
    ]
}

/// The batch that changes nothing.
const NOTHING: &str = "nothing changed";

/// Each kind of batch on this state: two batches in turn, of which the second undoes the first.
pub fn batches(shape: Shape) -> Vec<Row> {
    let kinds = [
        ("one label", shape.labels(1)),
        ("16 labels", shape.labels(16)),
        ("a subtree moved", shape.moves()),
        ("a node removed, added", shape.last_removed()),
        (NOTHING, shape.nothing()),
    ];
    kinds.into_iter().map(|(call, pair)| batch_row(call, shape, &pair)).collect()
}

/// A pair of batches in turn, once both sides were seen to tell the same changes.
fn batch_row(call: &str, shape: Shape, pair: &[Batch; 2]) -> Row {
    let (mut ours, mut theirs) = (Ours::of(shape), Theirs::of(shape));
    let records = pair.each_ref().map(Batch::record);
    for (batch, record) in pair.iter().zip(&records) {
        let told = ours.update(record);
        assert_eq!(told, theirs.update(batch.update()), "{call}: the sides tell other changes");
        assert_eq!(told == Told::default(), call == NOTHING, "{call}: whether it changes something");
    }
    let our_round = || per_call(0..CALLS, |i| ours.update(&records[i % 2]));
    let their_round = || {
        let updates: Vec<_> = (0..CALLS).map(|i| pair[i % 2].update()).collect();
        per_call(updates.into_iter(), |update| theirs.update(update))
    };
    row(call, shape, Box::new(our_round), Some(Box::new(their_round)))
}

/// The host loses the focus and gets it back.
pub fn host_focus(shape: Shape) -> Row {
    let (mut ours, mut theirs) = (Ours::of(shape), Theirs::of(shape));
    for focused in [false, true] {
        assert_eq!(ours.host_focus(focused), theirs.host_focus(focused), "the sides tell other changes");
    }
    let our_round = host_round(|focused| ours.host_focus(focused));
    let their_round = host_round(|focused| theirs.host_focus(focused));
    row("a host focus change", shape, our_round, Some(their_round))
}

/// A round of host focus changes.
fn host_round<'a>(mut change: impl FnMut(bool) -> Told + 'a) -> Side<'a> {
    Box::new(move || per_call(0..CALLS, |i| change(i % 2 == 1)))
}

/// A refused batch of each number. The crate panics, or has no such rule, and so has no side.
pub fn refused() -> Vec<(Number, Row)> {
    refusals().into_iter().map(refused_row).collect()
}

/// A refused batch, once it was seen to be refused with its number.
fn refused_row(refusal: Refusal) -> (Number, Row) {
    let Refusal { number, shape, mut ours, record, room } = refusal;
    assert_eq!(ours.refusal(&record, room), number, "the number");
    let our_round = || per_call(0..CALLS, |_| ours.refusal(&record, room));
    (number, row(&number.to_string(), shape, Box::new(our_round), None))
}

/// Runs the sides, and `Tree::new` of as many nodes beside them.
fn row(call: &str, shape: Shape, ours: Side, theirs: Option<Side>) -> Row {
    let start = shape.start();
    let mut sides = vec![ours, Box::new(|| tree_new(&start))];
    sides.extend(theirs);
    let times = interleaved(ROUNDS, sides);
    let [ours, start] = [0, 1].map(|side| times[side].clone());
    Row { call: call.to_string(), shape, ours, theirs: times.get(2).cloned(), start }
}
