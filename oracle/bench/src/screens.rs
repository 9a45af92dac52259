//! States for the questions, each held by both sides.
use accesskit_consumer::tree::TreeState;
use calls::judge::held;
use calls::plain::{BOUNDS, Batch, CLIPS, Data, HIDDEN, Id, ROOT, State, TRANSFORM};
use cartgravel::{CHANGES, sys};

/// An ordinary role, and that of a container.
const ORDINARY: u8 = 4;
const CONTAINER: u8 = 0;

/// A state of both sides, its nodes in the order in which they were made, the root first.
pub struct Screen {
    pub name: &'static str,
    pub ours: Box<sys::State>,
    pub theirs: TreeState,
    pub ids: Vec<Id>,
}

/// The parent of each node but the first, what each node says of itself, and its number. A parent is made before its children.
struct Plan {
    name: &'static str,
    nodes: u64,
    parent: Box<dyn Fn(u64) -> u64>,
    data: Box<dyn Fn(u64) -> Data>,
    number: fn(u64) -> u64,
}

/// Numbers from 0 on, in the order of the slots.
fn consecutive(i: u64) -> u64 {
    i
}

/// Numbers with gaps, in another order: no node stands in the slot beside its parent's but by chance.
fn scattered(i: u64) -> u64 {
    (i + 1) * 40_503 % 65_536
}

/// A node with bounds and a shift, as in the rows of the calls.
fn boxed(bounds: [f64; 4], shift: [f64; 2]) -> Data {
    Data {
        role: ORDINARY,
        flags: BOUNDS | TRANSFORM,
        bounds: bounds.map(f64::to_bits),
        transform: [1.0, 0.0, 0.0, 1.0, shift[0], shift[1]].map(f64::to_bits),
        ..Data::default()
    }
}

/// With this role and these flags besides.
fn with(data: Data, role: u8, flags: u8) -> Data {
    Data { role, flags: data.flags | flags, ..data }
}

/// Bounds and a shift with which every box meets all others.
fn meeting() -> Data {
    boxed([0.0, 0.0, 1000.0, 1000.0], [1.0, 1.0])
}

/// How many ancestors node i has.
fn depth(parent: &dyn Fn(u64) -> u64, i: u64) -> u64 {
    if i == 0 { 0 } else { 1 + depth(parent, parent(i)) }
}

fn below_four(i: u64) -> u64 {
    (i - 1) / 4
}

fn above(i: u64) -> u64 {
    i - 1
}

/// The usual states of these many nodes.
pub fn usual(nodes: u64) -> Vec<Screen> {
    let plan = |name, parent: fn(u64) -> u64, data: fn(u64) -> Data| Plan {
        name,
        nodes,
        parent: Box::new(parent),
        data: Box::new(data),
        number: consecutive,
    };
    let clipping = |_| with(meeting(), ORDINARY, CLIPS);
    let every_second = |i| {
        let role = if depth(&below_four, i) % 2 == 1 { CONTAINER } else { ORDINARY };
        with(meeting(), role, 0)
    };
    let second_in_chain = |i| with(meeting(), if i % 2 == 1 { CONTAINER } else { ORDINARY }, 0);
    let plans = [
        plan("four children each", below_four, |_| meeting()),
        plan("wide", |_| 0, |_| meeting()),
        plan("a chain", above, |_| meeting()),
        plan("four each, clipping", below_four, clipping),
        plan("a chain, clipping", above, clipping),
        plan("four each, every second level containers", below_four, every_second),
        plan("a chain, every second a container", above, second_in_chain),
    ];
    plans.iter().map(Plan::screen).collect()
}

/// A chain of clipping nodes.
pub fn clipping_chain(nodes: u64) -> Screen {
    let data = |_| with(meeting(), ORDINARY, CLIPS);
    Plan {
        name: "a chain, clipping",
        nodes,
        parent: Box::new(above),
        data: Box::new(data),
        number: consecutive,
    }
    .screen()
}

/// The same, with the last two below one node.
pub fn forked_chain(nodes: u64) -> Screen {
    let data = |_| with(meeting(), ORDINARY, CLIPS);
    Plan {
        name: "a chain, clipping, forked at its end",
        nodes,
        parent: Box::new(move |i| if i + 1 == nodes { nodes - 3 } else { above(i) }),
        data: Box::new(data),
        number: consecutive,
    }
    .screen()
}

/// States whose last node is deep or has many siblings; below it is nothing, or nothing that is listed.
pub fn ends(nodes: u64) -> Vec<Screen> {
    let last = nodes - 1;
    let chain = |name, data: Box<dyn Fn(u64) -> Data>| Plan {
        name,
        nodes,
        parent: Box::new(above),
        data,
        number: consecutive,
    };
    let clipping = || with(meeting(), ORDINARY, CLIPS);
    let empty = move |i| if i == last { with(meeting(), CONTAINER, 0) } else { clipping() };
    let hidden = move |i| if i == last { with(meeting(), ORDINARY, HIDDEN) } else { clipping() };
    let containers = move |i| with(meeting(), if 0 < i && i < last { CONTAINER } else { ORDINARY }, 0);
    let plans = [
        chain("a chain, clipping", Box::new(move |_| clipping())),
        chain("a chain, clipping, an empty container at its end", Box::new(empty)),
        chain("a chain, clipping, a hidden node at its end", Box::new(hidden)),
        chain("a chain of containers, a node at its end", Box::new(containers)),
        Plan { parent: Box::new(|_| 0), ..chain("wide", Box::new(|_| meeting())) },
        scattered_chain(nodes),
    ];
    plans.iter().map(Plan::screen).collect()
}

/// The slowest states that were found, of these many nodes.
pub fn worst(nodes: u64) -> Vec<Screen> {
    let plans = [
        saved_by_siblings(nodes),
        wide_below_a_chain(nodes),
        outside_below_a_chain(nodes),
        dropped_below_a_chain(nodes),
        nested_empty(nodes),
        containers_alone(nodes),
        scattered_four(nodes),
        scattered_chain(nodes),
    ];
    plans.iter().map(Plan::screen).collect()
}

/// A chain of clipping nodes, each outside its parent's box and kept by the sibling before it, which lies inside.
fn saved_by_siblings(nodes: u64) -> Plan {
    let parent = |i: u64| {
        if i < 2 {
            0
        } else if i % 2 == 0 {
            (i / 2 - 1) * 2
        } else {
            i / 2 * 2
        }
    };
    let data = move |i: u64| {
        let inside = boxed([0.0, 0.0, 10.0, 10.0], [0.0, 0.0]);
        let outside = boxed([0.0, 0.0, 10.0, 10.0], [20.0, 0.0]);
        with(if i % 2 == 1 || i == 0 { inside } else { outside }, ORDINARY, CLIPS)
    };
    Plan {
        name: "a clipping chain, each outside, kept by a sibling",
        nodes,
        parent: Box::new(parent),
        data: Box::new(data),
        number: consecutive,
    }
}

/// A chain of clipping nodes, two thirds of all, and the others below its end.
fn wide_below_a_chain(nodes: u64) -> Plan {
    let last = nodes * 2 / 3;
    let parent = move |i: u64| (i - 1).min(last);
    let data = |_| with(meeting(), ORDINARY, CLIPS);
    Plan {
        name: "wide below a clipping chain",
        nodes,
        parent: Box::new(parent),
        data: Box::new(data),
        number: consecutive,
    }
}

/// The same, but the others lie outside the box of the chain's end, so that both neighbours of each are asked.
fn outside_below_a_chain(nodes: u64) -> Plan {
    let last = nodes * 2 / 3;
    let data = move |i: u64| {
        let outside = boxed([0.0, 0.0, 10.0, 10.0], [5000.0, 0.0]);
        with(if i <= last { meeting() } else { outside }, ORDINARY, CLIPS)
    };
    Plan { name: "the same, each outside", data: Box::new(data), ..wide_below_a_chain(nodes) }
}

/// A chain of clipping nodes of which the last third is dropped, since its first node lies outside.
fn dropped_below_a_chain(nodes: u64) -> Plan {
    let last = nodes * 2 / 3;
    let data = move |i: u64| {
        let outside = boxed([0.0, 0.0, 1000.0, 1000.0], [5000.0, 0.0]);
        with(if i == last { outside } else { meeting() }, ORDINARY, CLIPS)
    };
    Plan {
        name: "a chain, clipping, its last third dropped",
        nodes,
        parent: Box::new(above),
        data: Box::new(data),
        number: consecutive,
    }
}

/// A clipping root; first a run of nested containers, then nodes outside its box, then another run; the last of each
/// run is empty, so that the nearest neighbours are the other nodes.
fn nested_empty(nodes: u64) -> Plan {
    let run = nodes * 3 / 8;
    let parent = move |i: u64| if i == 1 || i == run + 1 || i > 2 * run { 0 } else { i - 1 };
    let data = move |i: u64| match i {
        0 => with(boxed([0.0, 0.0, 10.0, 10.0], [0.0, 0.0]), ORDINARY, CLIPS),
        i if i <= 2 * run => with(meeting(), CONTAINER, 0),
        _ => with(boxed([0.0, 0.0, 10.0, 10.0], [20.0, 0.0]), ORDINARY, CLIPS),
    };
    Plan {
        name: "runs of nested empty containers before clipped nodes",
        nodes,
        parent: Box::new(parent),
        data: Box::new(data),
        number: consecutive,
    }
}

/// A chain of containers below the root and as many ordinary nodes, one below each.
fn containers_alone(nodes: u64) -> Plan {
    let parent = |i: u64| {
        if i < 2 {
            0
        } else if i % 2 == 0 {
            i - 1
        } else {
            i - 2
        }
    };
    let data = |i: u64| with(meeting(), if i % 2 == 1 { CONTAINER } else { ORDINARY }, CLIPS);
    Plan {
        name: "nested containers with a node each",
        nodes,
        parent: Box::new(parent),
        data: Box::new(data),
        number: consecutive,
    }
}

/// Four children each, numbers scattered.
fn scattered_four(nodes: u64) -> Plan {
    let data = |_| meeting();
    Plan {
        name: "four children each, numbers scattered",
        nodes,
        parent: Box::new(below_four),
        data: Box::new(data),
        number: scattered,
    }
}

/// A clipping chain, numbers scattered.
fn scattered_chain(nodes: u64) -> Plan {
    let data = |_| with(meeting(), ORDINARY, CLIPS);
    Plan {
        name: "a chain, clipping, numbers scattered",
        nodes,
        parent: Box::new(above),
        data: Box::new(data),
        number: scattered,
    }
}

impl Plan {
    /// Node i among the first `nodes`.
    fn node(&self, i: u64, nodes: u64) -> (u64, Data) {
        let children = (i + 1..nodes).filter(|c| (self.parent)(*c) == i).map(self.number).collect();
        ((self.number)(i), Data { children, label: b"ABCDEFGH".to_vec(), ..(self.data)(i) })
    }

    /// A batch that makes the first `to` nodes of the first `from`.
    fn batch(&self, from: u64, to: u64) -> Batch {
        let other = |i: &u64| from <= *i || self.node(*i, from) != self.node(*i, to);
        let nodes = (0..to).filter(other).map(|i| self.node(i, to)).collect();
        Batch { tree: ROOT, root: (from == 0).then_some((self.number)(0)), focus: (self.number)(0), nodes }
    }

    /// The proved library's state, made by batches of at most 24 new nodes.
    fn ours(&self) -> Box<sys::State> {
        let mut state = Box::new(sys::State::blank());
        for from in (0..self.nodes).step_by(24) {
            let record = self.batch(from, (from + 24).min(self.nodes)).encode();
            let reply = match from {
                0 => state.start(&record, true),
                _ => state.update(&record, &mut [0; CHANGES]),
            };
            assert_eq!(reply.number, 0, "{}: a batch", self.name);
        }
        state
    }

    /// The state as a plain value.
    fn plain(&self) -> State {
        let link = |i: u64| (i > 0).then(|| (self.parent)(i));
        let place = |i: u64, p: u64| (0..i).filter(|c| link(*c) == Some(p)).count() as u64;
        let name = |i: u64| (0, (self.number)(i));
        let node = |i: u64| (name(i), (link(i).map(|p| (name(p), place(i, p))), self.node(i, self.nodes).1));
        let root = (self.number)(0);
        State {
            nodes: (0..self.nodes).map(node).collect(),
            trees: vec![(ROOT, Some((root, root)))],
            host: true,
        }
    }

    fn screen(&self) -> Screen {
        let plain = self.plain();
        let ids = (0..self.nodes).map(|i| (0, (self.number)(i))).collect();
        Screen { name: self.name, ours: self.ours(), theirs: held(plain).inner, ids }
    }
}
