//! The two sides: the proved library and the crate, each with a state of its own.
use crate::clock::per_call;
use crate::inputs::{Batch, Shape};
use accesskit_consumer::node::NodeRef;
use accesskit_consumer::tree::{ChangeHandler, Tree};
use cartgravel::{CHANGES, Number, Report, State};

/// How many changes a side told: nodes added, updated and removed, and moves of the focus.
#[derive(Clone, Copy, Debug, Default, PartialEq)]
pub struct Told {
    added: usize,
    updated: usize,
    removed: usize,
    moved: usize,
}

impl Told {
    /// What a report says in the crate's terms: an extra id is a node updated.
    fn of(report: &Report) -> Self {
        let extra = [report.extra_before(), report.extra_after()].iter().flatten().count();
        Self {
            added: report.added().len(),
            updated: report.updated().len() + extra,
            removed: report.removed().len(),
            moved: usize::from(report.focus_before() != report.focus_after()),
        }
    }
}

impl ChangeHandler for Told {
    fn node_added(&mut self, _: &NodeRef) {
        self.added += 1;
    }
    fn node_updated(&mut self, _: &NodeRef, _: &NodeRef) {
        self.updated += 1;
    }
    fn focus_moved(&mut self, _: Option<&NodeRef>, _: Option<&NodeRef>) {
        self.moved += 1;
    }
    fn node_removed(&mut self, _: &NodeRef) {
        self.removed += 1;
    }
}

/// The proved library's state, with the slice that takes the lists.
pub struct Ours {
    state: Box<State>,
    changes: [u64; CHANGES],
}

impl Ours {
    /// The state of this shape, host focused.
    pub fn of(shape: Shape) -> Self {
        let (start, adds) = shape.parts();
        let (state, _) = State::start(&start.record(), true).expect("a start");
        let mut ours = Self { state: Box::new(state), changes: [0; CHANGES] };
        adds.iter().for_each(|batch| ours.accept(batch));
        assert_eq!(ours.state.node_count() as u64, shape.nodes, "nodes of the state");
        ours
    }

    /// A batch that is accepted.
    pub fn accept(&mut self, batch: &Batch) {
        self.update(&batch.record());
    }

    /// A batch that is accepted, and what it changed.
    pub fn update(&mut self, record: &[u8]) -> Told {
        Told::of(&self.state.update(record, &mut self.changes).expect("a batch"))
    }

    /// A host focus change, and what it changed.
    pub fn host_focus(&mut self, focused: bool) -> Told {
        Told::of(&self.state.host_focus(focused).expect("a host focus change"))
    }

    /// The number with which a batch is refused; `room` elements are lent.
    pub fn refusal(&mut self, record: &[u8], room: usize) -> Number {
        self.state.update(record, &mut self.changes[..room]).expect_err("a refusal")
    }
}

/// The crate's tree.
pub struct Theirs(Tree);

impl Theirs {
    /// The tree of this shape, host focused.
    pub fn of(shape: Shape) -> Self {
        Self(Tree::new(shape.start().update(), true))
    }

    /// A batch, and what it changed.
    pub fn update(&mut self, update: accesskit::TreeUpdate) -> Told {
        let mut told = Told::default();
        self.0.update_and_process_changes(update, &mut told);
        told
    }

    /// A host focus change, and what it changed.
    pub fn host_focus(&mut self, focused: bool) -> Told {
        let mut told = Told::default();
        self.0.update_host_focus_state_and_process_changes(focused, &mut told);
        told
    }
}

/// Starts of a round.
const STARTS: usize = 16;

/// A round of `Tree::new`, one tree at a time; making the structs and dropping the tree is not counted.
pub fn tree_new(batch: &Batch) -> f64 {
    let one = |_| {
        let mut tree = None;
        per_call([batch.update()].into_iter(), |update| tree = Some(Tree::new(update, true)))
    };
    (0..STARTS).map(one).sum::<f64>() / STARTS as f64
}
