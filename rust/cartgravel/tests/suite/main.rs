//! The crate's tests. Expected answers are document 01's; the answers to demo/cases.calls in crates/batchcheck/stdout are the same.
mod batch;
mod cases;
mod decode;
mod filters;
mod header;
mod ids;
mod links;
mod misuse;
mod number;
mod reasons;
mod refusals;
mod speak;
mod state;
mod walks;

use cartgravel::{
    Batch, CHANGES, FullNodeId, Ids, Node, NodeId, Number, RECORD_BYTES, Report, State, TreeId, TreeIndex,
};

/// A tree other than ROOT.
const T: TreeId = TreeId { high: 84, low: 0 };

/// What a lent element holds before a call.
const LENT: u64 = 99;

/// A node's id.
fn id(tree: u32, node: u64) -> FullNodeId {
    FullNodeId::new(TreeIndex(tree), NodeId(node))
}

/// A node of role 4.
fn plain<'a>(id: u64) -> Node<'a> {
    Node::new(id).role(4)
}

/// A batch for ROOT without tree data, with focus 2.
fn batch<'a>() -> Batch<'a> {
    Batch::new(TreeId::ROOT, 2)
}

/// A batch's record.
fn record(batch: &Batch) -> Vec<u8> {
    let mut buffer = [0; RECORD_BYTES];
    batch.encode(&mut buffer).unwrap().to_vec()
}

/// The record of document 01's S.
fn screen() -> Vec<u8> {
    record(&batch().root(1).nodes(&[plain(1).children(&[2, 3]), plain(2), plain(3)]))
}

/// The state that a batch starts, host focused.
fn started(batch: &Batch) -> State {
    State::start(&record(batch), true).unwrap().0
}

/// Document 01's S.
fn s() -> State {
    State::start(&screen(), true).unwrap().0
}

/// S with T in 3: case 9.
fn s_with_t() -> State {
    let mut state = s();
    told(&mut state, &batch().nodes(&[plain(3).graft(T)]));
    told(&mut state, &Batch::new(T, 1).root(1).nodes(&[plain(1)]));
    state
}

/// What an accepted batch answers, in words: how many nodes there are, the lists that are not empty, the focus before
/// and after and, if there is one, the extra ids. The lent elements past the lists keep what they held.
fn told(state: &mut State, batch: &Batch) -> String {
    let mut changes = [LENT; CHANGES];
    let report = state.update(&record(batch), &mut changes).unwrap();
    let ids =
        report.added().len() + report.updated().len() + report.removed().len() + report.relinked().len();
    let words = words(&report);
    assert!(changes[2 * ids..].iter().all(|x| *x == LENT), "past the lists of {words}");
    format!("nodes {}{words}", state.node_count())
}

/// A report in words.
fn words(report: &Report) -> String {
    let lists = list("added", report.added())
        + &list("updated", report.updated())
        + &list("removed", report.removed())
        + &list("relinked", report.relinked());
    lists
        + &pair("focus", report.focus_before(), report.focus_after())
        + &pair("extra", report.extra_before(), report.extra_after())
}

/// A list, unless it is empty.
fn list(name: &str, ids: Ids) -> String {
    if ids.len() == 0 {
        return String::new();
    }
    ids.fold(format!(" {name}"), |words, id| format!("{words} {id}"))
}

/// Two ids, unless there is none.
fn pair(name: &str, before: Option<FullNodeId>, after: Option<FullNodeId>) -> String {
    if before.or(after).is_none() {
        return String::new();
    }
    let id = |id: Option<FullNodeId>| id.map_or("none".to_string(), |id| id.to_string());
    format!(" {name} {} {}", id(before), id(after))
}

/// That bytes are refused with this number, and that the state and the lent slice are as they were.
#[track_caller]
fn refused(state: &State, record: &[u8], room: usize, number: Number) {
    let mut after = state.clone();
    let mut changes = [LENT; CHANGES];
    assert_eq!(after.update(record, &mut changes[..room]).unwrap_err(), number);
    assert_eq!(&after, state);
    assert_eq!(changes, [LENT; CHANGES]);
}

/// The same of a batch.
#[track_caller]
fn refused_batch(state: &State, batch: &Batch, number: Number) {
    refused(state, &record(batch), CHANGES, number);
}
