//! The slowest states and batches that were found, each beside one label on 256 nodes: none may take more than four
//! times that. A state is told by the batches that make it.
use crate::clock::{Side, Times, interleaved, per_call};
use crate::inputs::{Batch, Node, Shape};
use crate::{CALLS, ROUNDS};
use cartgravel::{CHANGES, State};

/// What is called, and the times; `label` is one label on 256 nodes, run in turn with it.
pub struct Worst {
    pub what: &'static str,
    pub ours: Times,
    pub label: Times,
}

/// The state that these batches make, the first of them a start.
fn state_of(batches: &[Batch]) -> Box<State> {
    let mut state = Box::new(State::blank());
    let (start, rest) = batches.split_first().expect("a start");
    state.restart(&start.record(), true).expect("a start");
    for batch in rest {
        state.update(&batch.record(), &mut [0; CHANGES]).expect("a batch");
    }
    state
}

/// A round of these records in turn on a state, accepted or not.
fn round<'a>(mut state: Box<State>, records: Vec<Vec<u8>>) -> Side<'a> {
    let mut changes = [0; CHANGES];
    Box::new(move || per_call(0..CALLS, |i| state.update(&records[i % records.len()], &mut changes).is_ok()))
}

/// One label on 256 nodes, four children each.
fn label() -> Side<'static> {
    let shape = Shape { nodes: 256, fan: 4 };
    let (start, adds) = shape.parts();
    round(state_of(&[vec![start], adds].concat()), shape.labels(1).iter().map(Batch::record).collect())
}

/// All of them.
pub fn worst() -> Vec<Worst> {
    let kinds: [(&'static str, Vec<Batch>, Vec<Batch>); 6] = [
        ("nothing listed, 256 nodes, an ascending chain", chain(|i| i), vec![Batch::of(vec![])]),
        ("nothing listed, 256 nodes, a descending chain", chain(|i| 1000 - i), vec![nothing_on(1000)]),
        (
            "nothing listed, 255 grafts that share one half of their tree ids",
            shared_half(),
            vec![nothing_on(0)],
        ),
        ("60 listed, 216 child entries, 191 grafts, 32 trees", panes(), claims().to_vec()),
        ("the same, refused with 12 at the last node", panes(), vec![refused()]),
        ("64 listed, 256 children of which none is there", small(), vec![unknown_children()]),
    ];
    kinds.into_iter().map(|(what, state, batches)| measured(what, &state, &batches)).collect()
}

/// Both sides in turn.
fn measured(what: &'static str, state: &[Batch], batches: &[Batch]) -> Worst {
    let ours = round(state_of(state), batches.iter().map(Batch::record).collect());
    let times = interleaved(ROUNDS, vec![ours, label()]);
    let [ours, label] = [0, 1].map(|side| times[side].clone());
    Worst { what, ours, label }
}

/// A batch that lists nothing, with this focus.
fn nothing_on(focus: u64) -> Batch {
    Batch { focus, ..Batch::of(vec![]) }
}

/// A chain of 256 nodes, the i-th with this number.
fn chain(number: fn(u64) -> u64) -> Vec<Batch> {
    let node = |i: u64, last: u64| {
        let below: Vec<u64> = (i + 1..=last.min(i + 1)).map(number).collect();
        Node::plain(number(i)).with(&below)
    };
    let part = |from: u64| Batch {
        focus: number(if from == 0 { 0 } else { 1 }),
        root: (from == 0).then(|| number(0)),
        ..Batch::of((from.saturating_sub(1)..from + 32).map(|i| node(i, from + 31)).collect())
    };
    (0..256).step_by(32).map(part).collect()
}

/// Root 0 with 255 grafts of trees whose ids have one low half.
fn shared_half() -> Vec<Batch> {
    let graft = |i: u64| Node::graft_of(i, (i, 7));
    family(255, graft)
}

/// Root 0 with these many children, at most 60 at a time.
fn family(children: u64, child: fn(u64) -> Node) -> Vec<Batch> {
    let part = |from: u64| {
        let to = (from + 60).min(children + 1);
        let root = Node::plain(0).with(&(1..to).collect::<Vec<_>>());
        let nodes = [vec![root], (from..to).map(child).collect()].concat();
        Batch { focus: 0, root: (from == 1).then_some(0), ..Batch::of(nodes) }
    };
    (1..=children).step_by(60).map(part).collect()
}

/// Root 0 with 216 children, of which 191 are grafts and the first 31 hold panes of one node.
fn panes() -> Vec<Batch> {
    let child = |i: u64| if i <= 191 { Node::graft_of(i, (7, i)) } else { Node::plain(i) };
    let pane = |i: u64| Batch { tree: (7, i), root: Some(0), focus: 0, nodes: vec![Node::plain(0)] };
    [family(216, child), (1..=31).map(pane).collect()].concat()
}

/// The grafts of 59 nodes go round by one, and back; the root names its children again.
fn claims() -> [Batch; 2] {
    [1, 0].map(|by| {
        let graft = |i: u64| Node::graft_of(i, (7, (i - 1 + by) % 59 + 1));
        let root = Node::plain(0).with(&(1..=216).collect::<Vec<_>>());
        Batch { focus: 0, ..Batch::of([vec![root], (1..=59).map(graft).collect()].concat()) }
    })
}

/// The same, but the last node grafts what the first does.
fn refused() -> Batch {
    let [mut batch, _] = claims();
    let last = batch.nodes.len() - 1;
    batch.nodes[last] = Node::graft_of(batch.nodes[last].id, (7, 2));
    batch
}

/// Root 0 alone.
fn small() -> Vec<Batch> {
    vec![Batch { focus: 0, root: Some(0), ..Batch::of(vec![Node::plain(0)]) }]
}

/// 64 nodes with four children each that are neither present nor listed.
fn unknown_children() -> Batch {
    let node = |i: u64| Node::plain(i).with(&[1, 2, 3, 4].map(|c| 1000 + 4 * i + c));
    Batch { focus: 0, ..Batch::of((0..64).map(node).collect()) }
}
