//! The whole answer of a call. Numbers 3, 4, 6, 7 and 9 to 18, states, lists,
//! focus and extra ids are the crate's own; 1, 2, 5, 8, 19, 20 and 21 and the
//! parent link that the crate loses follow document 01.
use crate::plain::*;
use accesskit::{Affine, Node, NodeId, Rect, TreeId, TreeInfo, TreeUpdate};
use accesskit_consumer::node::probe::parts;
use accesskit_consumer::tree::TreeState;
use accesskit_consumer::tree::probe::{self, Dump, Heard, Ran};
use std::collections::{BTreeMap, BTreeSet};

/// What a call is handed as its record: a batch to be encoded, or bytes as they are.
#[derive(Clone, Debug)]
pub enum Input {
    Batch(Batch),
    Bytes(Vec<u8>),
}

impl Input {
    /// The bytes of the record.
    pub fn bytes(&self) -> Vec<u8> {
        match self {
            Input::Batch(b) => b.encode(),
            Input::Bytes(bytes) => bytes.clone(),
        }
    }

    /// The batch, if the bytes hold one.
    pub fn read(&self) -> Option<Batch> {
        match self {
            Input::Batch(b) => Batch::decode(&b.encode()).inspect(|read| assert_eq!(read, b)),
            Input::Bytes(bytes) => Batch::decode(bytes),
        }
    }
}

#[derive(Clone, Debug)]
pub enum Call {
    Start(Input, bool),
    Update(Input, Vec<u64>),
    Host(bool),
}

impl Call {
    /// `s` a start, `u` a batch, `h` a host focus change.
    pub fn kind(&self) -> char {
        match self {
            Call::Start(..) => 's',
            Call::Update(..) => 'u',
            Call::Host(_) => 'h',
        }
    }

    /// How many nodes the call's batch lists, where it is handed over as a batch.
    pub fn listed(&self) -> usize {
        match self {
            Call::Start(Input::Batch(b), _) | Call::Update(Input::Batch(b), _) => b.nodes.len(),
            _ => 0,
        }
    }
}

/// At any number but 0 only the number, the state and the slice say something.
#[derive(Clone, Debug, Default)]
pub struct Answer {
    pub number: u8,
    /// The words of the crate's panic message that gave the number, if one did.
    pub said: &'static str,
    pub state: State,
    pub added: Vec<Id>,
    pub updated: Vec<Id>,
    pub removed: Vec<Id>,
    pub relinked: Vec<Id>,
    pub focus: (Option<Id>, Option<Id>),
    pub extra: (Option<Id>, Option<Id>),
    pub slice: Vec<u64>,
    /// The lost parent link was put back.
    pub restored: bool,
    /// What the crate itself did where document 01's own rule gave the number.
    pub did: Option<Did>,
}

/// What the crate did with a call, whatever document 01 adds to it.
#[derive(Clone, Copy, Debug, PartialEq, Eq, PartialOrd, Ord)]
pub enum Did {
    /// It accepted, and the links and trees of its outcome are sound.
    Accepted,
    /// It accepted, and they are not.
    AcceptedUnsound,
    /// `update` accepted and the wrapper's reports panicked.
    WrapperPanicked(&'static str),
    /// It panicked, with these words in the message.
    Panicked(&'static str),
}

impl Answer {
    /// The four lists in their order.
    fn lists(&self) -> [&Vec<Id>; 4] {
        [&self.added, &self.updated, &self.removed, &self.relinked]
    }

    /// How many elements the four lists take.
    pub fn listed(&self) -> usize {
        2 * self.lists().iter().map(|l| l.len()).sum::<usize>()
    }

    /// Writes the four lists into the slice.
    fn write_lists(&mut self) {
        let lists: Vec<u64> = self.lists().into_iter().flatten().flat_map(|x| [x.0 as u64, x.1]).collect();
        self.slice[..lists.len()].copy_from_slice(&lists);
    }
}

/// The crate's state and the same as a plain value.
#[derive(Clone)]
pub struct Held {
    pub inner: TreeState,
    pub plain: State,
}

fn refusal(number: u8, before: Option<&State>, call: &Call) -> Answer {
    Answer {
        number,
        state: before.cloned().unwrap_or_default(),
        slice: if let Call::Update(_, slice) = call { slice.clone() } else { vec![] },
        ..Answer::default()
    }
}

/// Row 1: any call on a state that is not sound.
pub fn on_unsound(before: &State, call: &Call) -> Answer {
    assert!(!before.sound());
    refusal(1, Some(before), call)
}

/// The answer of a call on a sound state (none: a start) and the next state if accepted.
pub fn judge(before: Option<&Held>, call: &Call) -> (Answer, Option<Held>) {
    let refused = |why: Refused| {
        let answer = refusal(why.number, before.map(|h| &h.plain), call);
        (Answer { said: why.said, did: why.did, ..answer }, None)
    };
    match call {
        Call::Start(input, host) => match start(input, *host) {
            Ok(next) => {
                let focus = (None, focus_of(&next));
                (Answer { state: next.plain.clone(), focus, ..Answer::default() }, Some(next))
            }
            Err(why) => refused(why),
        },
        Call::Update(input, slice) => match update(before.unwrap(), input, slice) {
            Ok((answer, next)) => (answer, Some(next)),
            Err(why) => refused(why),
        },
        Call::Host(host) => {
            let old = before.unwrap();
            let (inner, heard) = probe::host_focus(&old.inner, *host);
            let next = Held { plain: plain(&inner), inner };
            assert!(heard.added.is_empty() && heard.removed.is_empty());
            let mut answer = Answer { state: next.plain.clone(), ..Answer::default() };
            tell_focus(&mut answer, old, &next, &heard);
            (answer, Some(next))
        }
    }
}

/// Why a call is refused: the number, with the words of the crate's panic if that gave it, or with what the
/// crate did if it did not.
struct Refused {
    number: u8,
    said: &'static str,
    did: Option<Did>,
}

/// A number of document 01's own.
fn added_row(number: u8, did: Option<Did>) -> Refused {
    Refused { number, said: "", did }
}

fn start(input: &Input, host: bool) -> Result<Held, Refused> {
    let batch = input.read().ok_or(added_row(2, None))?;
    if batch.lists_twice() {
        // 3 and 4 come first, and do not hang on the nodes
        let bare = Batch { nodes: vec![], ..batch.clone() };
        return Err(match probe::start(to_update(&bare), host) {
            Err(said) if panic_row(&said).number <= 4 => panic_row(&said),
            _ => added_row(5, Some(did_at_start(&probe::start(to_update(&batch), host)))),
        });
    }
    let ran = probe::start(to_update(&batch), host);
    let did = did_at_start(&ran);
    let inner = ran.map_err(|said| panic_row(&said))?;
    if did == Did::AcceptedUnsound {
        return Err(added_row(19, Some(did)));
    }
    let plain = plain(&inner);
    assert!(plain.sound());
    Ok(Held { inner, plain })
}

fn update(old: &Held, input: &Input, slice: &[u64]) -> Result<(Answer, Held), Refused> {
    let batch = input.read().ok_or(added_row(2, None))?;
    let twice = batch.lists_twice();
    let full = old.plain.trees.len() == TREES && old.plain.number_of(batch.tree).is_none();
    let mut ran = probe::update(&old.inner, to_update(&batch));
    let restored = ran.as_mut().is_ok_and(|ran| restore_link(old, &batch, &mut ran.state));
    let next = ran.as_ref().ok().map(|ran| Held { plain: plain(&ran.state), inner: ran.state.clone() });
    let did = did_at_update(&ran, next.as_ref());
    let ran = match ran {
        _ if twice => return Err(added_row(5, Some(did))),
        Err(said) if full && !(6..=7).contains(&panic_row(&said).number) => {
            return Err(added_row(8, Some(did)));
        }
        Ok(_) if full => return Err(added_row(8, Some(did))),
        Err(said) => return Err(panic_row(&said)),
        Ok(ran) => ran,
    };
    if ran.removed.iter().any(|x| ran.added.contains(x) || ran.updated.contains(x)) {
        assert!(matches!(did, Did::WrapperPanicked(_)));
        return Err(added_row(18, None));
    }
    let next = next.unwrap();
    if !is_sound(&next) {
        return Err(added_row(19, Some(did)));
    }
    if next.plain.nodes.len() > NODES {
        return Err(added_row(20, Some(did)));
    }
    assert!(next.plain.sound());
    let answer = Answer { restored, ..accepted(old, &next, ran, slice) };
    if answer.listed() > slice.len() {
        return Err(added_row(21, Some(did)));
    }
    Ok((answer, next))
}

/// The answer of an accepted batch, the lists written if the slice has room for them.
fn accepted(old: &Held, next: &Held, ran: Ran, slice: &[u64]) -> Answer {
    let sorted = |s: BTreeSet<Id>| s.into_iter().collect::<Vec<_>>();
    let mut answer = Answer {
        state: next.plain.clone(),
        added: sorted(ran.added),
        updated: sorted(ran.updated),
        removed: sorted(ran.removed),
        relinked: relinked(&old.plain, &next.plain),
        slice: slice.to_vec(),
        ..Answer::default()
    };
    if answer.listed() <= slice.len() {
        answer.write_lists();
    }
    let heard = ran.wrapper.expect("the wrapper panicked on an accepted batch");
    assert_eq!(sorted(heard.added.iter().copied().collect()), answer.added);
    assert_eq!(sorted(heard.removed.iter().copied().collect()), answer.removed);
    tell_focus(&mut answer, old, next, &heard);
    answer
}

/// The ids present before and after whose parent differs.
fn relinked(before: &State, after: &State) -> Vec<Id> {
    let parent = |s: &State, x: &Id| s.nodes.get(x).map(|n| n.0.map(|l| l.0));
    let differs = |x: &&Id| parent(after, x).is_some_and(|p| Some(p) != parent(before, x));
    before.nodes.keys().filter(differs).copied().collect()
}

/// What the crate did with a start.
fn did_at_start(ran: &Result<TreeState, String>) -> Did {
    match ran {
        Err(said) => Did::Panicked(words_of(said)),
        Ok(inner) => accepted_as(is_sound(&Held { plain: plain(inner), inner: inner.clone() })),
    }
}

/// What the crate did with a batch; `next` is its outcome, the lost link put back.
fn did_at_update(ran: &Result<Ran, String>, next: Option<&Held>) -> Did {
    match ran {
        Err(said) => Did::Panicked(words_of(said)),
        Ok(Ran { wrapper: Err(said), .. }) => Did::WrapperPanicked(words_of(said)),
        Ok(_) => accepted_as(next.is_some_and(is_sound)),
    }
}

/// Accepted, by whether the outcome is sound.
fn accepted_as(sound: bool) -> Did {
    if sound { Did::Accepted } else { Did::AcceptedUnsound }
}

/// The links and trees of an outcome of the crate are sound, and its graft holders are those of its nodes.
fn is_sound(next: &Held) -> bool {
    next.plain.sound_links() && holders_agree(&next.inner, &next.plain)
}

/// Focus before and after, and the extra ids that `process_changes` reported.
fn tell_focus(answer: &mut Answer, old: &Held, next: &Held, heard: &Heard) {
    let focus = (focus_of(old), focus_of(next));
    let moved = if focus.0 == focus.1 { vec![] } else { vec![focus] };
    assert_eq!(heard.moved, moved);
    let told = |x: &Id| !answer.updated.contains(x) && heard.updated.contains(x);
    let extra = if moved.is_empty() { (None, None) } else { (focus.0.filter(told), focus.1.filter(told)) };
    let mut all = answer.updated.clone();
    all.extend(extra.0.iter().chain(&extra.1));
    all.sort();
    let mut reported = heard.updated.clone();
    reported.sort();
    assert_eq!(all, reported);
    (answer.focus, answer.extra) = (focus, extra);
}

fn focus_of(s: &Held) -> Option<Id> {
    let answer = s.inner.focus().map(|n| parts(n.id()));
    assert_eq!(answer, s.plain.focus());
    answer
}

/// Document 01: a grafted tree's root listed in a batch without tree data keeps its parent link.
fn restore_link(old: &Held, batch: &Batch, inner: &mut TreeState) -> bool {
    if batch.tree == ROOT || batch.root.is_some() {
        return false;
    }
    let Some(tree) = old.plain.number_of(batch.tree) else { return false };
    let Some((root, _)) = old.plain.trees[tree as usize].1 else { return false };
    let id = (tree, root);
    if !batch.nodes.iter().any(|n| n.0 == root) || !probe::dump(inner).nodes.contains_key(&id) {
        return false;
    }
    probe::set_link(inner, id, old.plain.nodes[&id].0.map(|(p, i)| (p, i as usize)));
    true
}

fn holders_agree(inner: &TreeState, plain: &State) -> bool {
    let holders: BTreeMap<Tid, Id> =
        probe::dump(inner).graft_parents.into_iter().map(|(t, x)| ((t.0, t.1), x)).collect();
    holders == plain.grafts().into_iter().collect()
}

/// Words that tell the crate's panic messages, with document 01's numbers. (Ids in a message may come in the
/// order of a hash set.)
const PANICS: [(&str, u8); 13] = [
    ("Tried to initialize the accessibility tree without a root tree", 3),
    ("Cannot initialize with a subtree", 4),
    ("Cannot push subtree", 6),
    ("Cannot update subtree", 7),
    ("TreeUpdate includes duplicate child", 9),
    ("has both tree_id and children", 10),
    ("Cannot graft the root tree", 11),
    ("already has a graft parent", 12),
    ("nodes which are neither in the current tree nor a child", 13),
    ("children ids which are neither in the current tree nor the ID", 14),
    ("Focus is on graft node", 15),
    ("Root ID", 16),
    ("Focused ID", 17),
];

/// The number that document 01 gives to a panic message of the crate, and the words that tell it.
fn panic_row(said: &str) -> Refused {
    let row = PANICS.iter().find(|(words, _)| said.contains(words));
    let (words, number) = row.unwrap_or_else(|| panic!("a panic that no row knows: {said}"));
    Refused { number: *number, said: words, did: None }
}

/// The words that tell a panic message; outside document 01's rows the crate unwraps a node that is absent.
fn words_of(said: &str) -> &'static str {
    const UNWRAP: &str = "called `Option::unwrap()` on a `None` value";
    if said == UNWRAP { UNWRAP } else { panic_row(said).said }
}

/// The state that the crate's `update` leaves behind (none before: of a start for ROOT with tree data), also where it panics,
/// and what it said then. A batch that does not get 1 to 8.
pub fn left(before: Option<&Held>, batch: &Batch) -> (State, Option<String>) {
    let Some(old) = before else {
        let (inner, said) = probe::left_at_start(to_update(batch), true);
        return (shown(probe::dump(&inner)), said);
    };
    let (mut inner, said) = probe::left(&old.inner, to_update(batch));
    restore_link(old, batch, &mut inner);
    (shown(probe::dump(&inner)), said)
}

/// A sound state of the crate, or an outcome that it accepted.
fn plain(inner: &TreeState) -> State {
    let d = probe::dump(inner);
    let (root, info_root, focus) = (d.root, d.info_root, d.focus);
    let state = shown(d);
    assert_eq!(Some(root.1), state.trees[0].1.map(|at| at.0));
    assert_eq!(root, (0, info_root));
    assert_eq!(Some(focus), state.effective_focus());
    state
}

/// What a state of the crate holds.
fn shown(d: Dump) -> State {
    State {
        nodes: d
            .nodes
            .into_iter()
            .map(|(id, (n, link))| (id, (link.map(|(p, i)| (p, i as u64)), from_node(&n))))
            .collect(),
        trees: (0..)
            .zip(&d.numbers)
            .map(|(number, t)| {
                let at = d.subtrees.get(t).map(|(root, focus)| {
                    assert_eq!((root.0, focus.0), (number, number));
                    (root.1, focus.1)
                });
                ((t.0, t.1), at)
            })
            .collect(),
        host: d.host,
    }
}

/// A sound state as the crate would hold it.
pub fn held(plain: State) -> Held {
    assert!(plain.sound());
    let tree = |t: Tid| TreeId(t.0, t.1);
    let existing =
        (0..).zip(&plain.trees).filter_map(|(n, (t, at))| at.map(|(r, f)| (tree(*t), ((n, r), (n, f)))));
    let root = plain.trees[0].1.unwrap().0;
    let inner = probe::load(Dump {
        nodes: plain
            .nodes
            .iter()
            .map(|(id, (link, d))| (*id, (to_node(d), link.map(|(p, i)| (p, i as usize)))))
            .collect(),
        root: (0, root),
        info_root: root,
        focus: plain.effective_focus().unwrap(),
        host: plain.host,
        subtrees: existing.collect(),
        graft_parents: plain.grafts().into_iter().map(|(t, x)| (tree(t), x)).collect(),
        numbers: plain.trees.iter().map(|(t, _)| tree(*t)).collect(),
    });
    Held { inner, plain }
}

fn to_update(b: &Batch) -> TreeUpdate {
    TreeUpdate {
        nodes: b.nodes.iter().map(|(id, d)| (NodeId(*id), to_node(d))).collect(),
        tree: b.root.map(|r| TreeInfo { root: NodeId(r), toolkit_name: None, toolkit_version: None }),
        tree_id: TreeId(b.tree.0, b.tree.1),
        focus: NodeId(b.focus),
    }
}

/// A label byte stands as the character of that number, so any bytes can be a label.
fn to_node(d: &Data) -> Node {
    let [x0, y0, x1, y1] = d.bounds.map(f64::from_bits);
    Node {
        role_code: d.role,
        hidden: d.has(HIDDEN),
        clips_children: d.has(CLIPS),
        active_descendant: d.has(ACTIVE).then_some(NodeId(d.active)),
        tree_id: d.graft().map(|g| TreeId(g.0, g.1)),
        bounds: d.has(BOUNDS).then_some(Rect { x0, y0, x1, y1 }),
        transform: d.has(TRANSFORM).then_some(Affine(d.transform.map(f64::from_bits))),
        children: d.children.iter().map(|c| NodeId(*c)).collect(),
        label: d.label.iter().map(|b| *b as char).collect(),
    }
}

fn from_node(n: &Node) -> Data {
    let flag = |on: bool, flag: u8| if on { flag } else { 0 };
    Data {
        active: n.active_descendant.map_or(0, |a| a.0),
        graft: n.tree_id.map_or(ROOT, |t| (t.0, t.1)),
        children: n.children.iter().map(|c| c.0).collect(),
        label: n.label.chars().map(|c| c as u8).collect(),
        role: n.role_code,
        flags: flag(n.hidden, HIDDEN)
            | flag(n.clips_children, CLIPS)
            | flag(n.active_descendant.is_some(), ACTIVE)
            | flag(n.tree_id.is_some(), GRAFT)
            | flag(n.bounds.is_some(), BOUNDS)
            | flag(n.transform.is_some(), TRANSFORM),
        bounds: n.bounds.map_or([0; 4], |r| [r.x0, r.y0, r.x1, r.y1].map(f64::to_bits)),
        transform: n.transform.map_or([0; 6], |t| t.0.map(f64::to_bits)),
    }
}
