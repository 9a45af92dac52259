//! A batch that is refused with each number, in the order of document 01's table.
use crate::inputs::{Batch, Node, Shape};
use crate::sides::Ours;
use cartgravel::{CHANGES, Number};

const SCREEN: Shape = Shape { nodes: 48, fan: 4 };
/// The largest state: only such a one can grow past 256 nodes by a batch.
const FULL: Shape = Shape { nodes: 256, fan: 4 };
/// The low half of the id of a tree that is not there.
const PANE: u64 = 7;
/// Tree numbers that a state gives out beside ROOT's.
const PANES: u64 = 31;

/// A number, the state, the record that the state refuses with it, and how many elements are lent.
pub struct Refusal {
    pub number: Number,
    pub shape: Shape,
    pub ours: Ours,
    pub record: Vec<u8>,
    pub room: usize,
}

/// All of them: 2 and 5 to 21. 1 is of a state that is not sound, 3 and 4 are of starts.
pub fn refusals() -> Vec<Refusal> {
    let mut all: Vec<Refusal> =
        on_screen().into_iter().map(|(number, batch)| refusal(number, batch)).collect();
    all.push(not_a_record());
    all.push(too_many_trees());
    let add = [FULL.node(255).with(&[256]), FULL.node(256)];
    all.push(Refusal {
        shape: FULL,
        ours: Ours::of(FULL),
        ..refusal(Number::TooManyNodes, Batch::of(add.to_vec()))
    });
    let [label, _] = SCREEN.labels(1);
    all.push(Refusal { room: 0, ..refusal(Number::ListTooShort, label) });
    all.sort_by_key(|refusal| refusal.number);
    all
}

/// A batch that a screen of 48 nodes refuses.
fn refusal(number: Number, batch: Batch) -> Refusal {
    Refusal { number, shape: SCREEN, ours: Ours::of(SCREEN), record: batch.record(), room: CHANGES }
}

/// The numbers that one batch on the screen shows.
fn on_screen() -> Vec<(Number, Batch)> {
    let node = |i| SCREEN.node(i);
    let graft = |i| Node::graft(i, PANE);
    let [changed, _] = SCREEN.labels(1);
    let changed_then_removed = [changed.nodes, vec![node(11).with(&[45, 46])]].concat();
    let none = Batch::of(vec![]);
    vec![
        (Number::ListedTwice, Batch::of(vec![node(1), node(1)])),
        (Number::TreeNotHeld, Batch { tree: (0, PANE), root: Some(0), ..none.clone() }),
        (Number::TreeWithoutData, Batch { tree: (0, PANE), ..none.clone() }),
        (Number::ChildNamedTwice, Batch::of(vec![node(1).with(&[5, 5])])),
        (Number::GraftWithChildren, Batch::of(vec![graft(40).with(&[41])])),
        (Number::GraftOfRoot, Batch::of(vec![Node::graft(40, 0)])),
        (Number::SecondGraft, Batch::of(vec![graft(40), graft(41)])),
        (Number::NodesWithoutPlace, Batch::of(vec![node(99)])),
        (Number::ChildrenAbsent, Batch::of(vec![node(40).with(&[99])])),
        (Number::FocusOnEmptyGraft, Batch { focus: 40, ..Batch::of(vec![graft(40)]) }),
        (Number::RootAbsent, Batch { root: Some(1), focus: 2, ..Batch::of(vec![node(0).with(&[2, 3, 4])]) }),
        (Number::FocusAbsent, Batch { focus: 99, ..none }),
        (Number::ChangedAndRemoved, Batch::of(changed_then_removed)),
        (Number::OutcomeNotSound, Batch::of(vec![node(40).with(&[41])])),
    ]
}

/// A record of 16 nodes, of which the last has an unused flag bit.
fn not_a_record() -> Refusal {
    let [labels, _] = SCREEN.labels(16);
    let mut refusal = refusal(Number::NotARecord, labels);
    let flags_of_last = 64 + 15 * 128 + 41;
    refusal.record[flags_of_last] |= 64;
    refusal
}

/// A pane while every tree number is taken: one graft held each of the others in turn.
fn too_many_trees() -> Refusal {
    let pane = |tree| Batch { tree: (0, tree), focus: 0, ..Shape { nodes: 1, fan: 4 }.start() };
    let held = |tree| Batch::of(vec![Node::graft(47, tree)]);
    let last = PANES + 1;
    let mut refusal = refusal(Number::TooManyTrees, pane(last));
    for tree in 1..last {
        refusal.ours.accept(&held(tree));
        refusal.ours.accept(&pane(tree));
    }
    refusal.ours.accept(&held(last));
    refusal
}
