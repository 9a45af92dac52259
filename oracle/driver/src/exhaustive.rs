//! All small batches over small states, without chance: at most two nodes listed of the numbers 1 to 4, or
//! the three nodes 1 to 3.
use crate::histories::tight;
use crate::tally::{Pair, Tally};
use calls::cases::{self, Nodes, T, U, after, batch, graft_with, grafts, labelled, leaf, start, with};
use calls::judge::{Call, Held, Input, held, judge};
use calls::make::filler;
use calls::plain::{Batch, ROOT, TREES, Tid};

/// A state, and the tree ids, roots and focuses of the batches on it.
struct Ground {
    name: &'static str,
    on: Held,
    trees: &'static [Tid],
    roots: &'static [Option<u64>],
    focuses: &'static [u64],
}

const ROOTS: &[Option<u64>] = &[None, Some(1), Some(2), Some(3)];
const FOCUSES: &[u64] = &[1, 2, 3];

/// Compares every `every`-th of the starts, and of the batches on each ground.
pub fn run(tally: &mut Tally, every: usize) {
    let lists = lists();
    for b in batches(&lists, &[ROOT, T], ROOTS, FOCUSES).step_by(every) {
        if let (_, Some(next)) = tally.call(None, &Call::Start(Input::Batch(b), true)) {
            tally.asked.new_pair(&next);
        }
    }
    for ground in grounds() {
        let from = tally.batches();
        on_ground(tally, &lists, &ground, every);
        println!("{:8} batches on {}", tally.batches() - from, ground.name);
    }
    println!();
}

/// An accepted batch is compared again with slices of and below the length of its lists.
fn on_ground(tally: &mut Tally, lists: &[Nodes], ground: &Ground, every: usize) {
    let pair = Pair::new(ground.on.clone());
    tally.asked.new_pair(&pair);
    for b in batches(lists, ground.trees, ground.roots, ground.focuses).step_by(every) {
        if tally.gave_up() {
            return;
        }
        let input = Input::Batch(b);
        let (answer, next) = tally.call(Some(&pair), &Call::Update(input.clone(), filler(64)));
        if let Some(next) = next {
            tally.asked.new_pair(&next);
        }
        if answer.listed() > 0 {
            tight(tally, &pair, &input, answer.listed());
        }
    }
}

/// All batches with these lists, tree ids, roots and focuses.
fn batches<'a>(
    lists: &'a [Nodes],
    trees: &'a [Tid],
    roots: &'a [Option<u64>],
    focuses: &'a [u64],
) -> impl Iterator<Item = Batch> + 'a {
    let headers = trees
        .iter()
        .flat_map(|t| roots.iter().map(move |r| (*t, *r)))
        .flat_map(|(t, r)| focuses.iter().map(move |f| (t, r, *f)));
    headers.flat_map(|(tree, root, focus)| {
        lists.iter().map(move |nodes| Batch { tree, root, focus, nodes: nodes.clone() })
    })
}

/// No node, each node, each two (one number twice among them), and 1 to 3 in each order.
fn lists() -> Vec<Nodes> {
    let nodes: Nodes = (1..=4).flat_map(kinds).collect();
    let mut out = vec![vec![]];
    out.extend(nodes.iter().map(|x| vec![x.clone()]));
    out.extend(nodes.iter().flat_map(|x| nodes.iter().map(|y| vec![x.clone(), y.clone()])));
    for order in [[1, 2, 3], [1, 3, 2], [2, 1, 3], [2, 3, 1], [3, 1, 2], [3, 2, 1]] {
        let [first, second, third] = order.map(few_kinds);
        let pairs = first.iter().flat_map(|x| second.iter().map(move |y| (x, y)));
        out.extend(pairs.flat_map(|(x, y)| third.iter().map(|z| vec![x.clone(), y.clone(), z.clone()])));
    }
    out
}

/// A node with at most two children of the numbers 1 to 4, with a label, or with a graft.
fn kinds(n: u64) -> Nodes {
    let mut out =
        vec![leaf(n), labelled(n), grafts(n, T), grafts(n, U), grafts(n, ROOT), graft_with(n, &[2])];
    out.extend((1..=4).map(|a| with(n, &[a])));
    out.extend((1..=4).flat_map(|a| (1..=4).map(move |b| with(n, &[a, b]))));
    out
}

/// A node with at most two different children of the other two of 1 to 3, with a label, or with a graft.
fn few_kinds(n: u64) -> Nodes {
    let others: Vec<u64> = (1..=3).filter(|x| *x != n).collect();
    let (a, b) = (others[0], others[1]);
    let mut out = vec![leaf(n), labelled(n), grafts(n, T), grafts(n, U)];
    out.extend([&[a][..], &[b], &[a, b], &[b, a]].map(|children| with(n, children)));
    out
}

/// The states, from one node to three trees, then those at the limits of trees and nodes.
fn grounds() -> Vec<Ground> {
    let on = cases::states();
    let alone = judge(None, &start(1, vec![leaf(1)])).1.unwrap();
    let chain = judge(None, &start(3, vec![with(1, &[2]), with(2, &[3]), leaf(3)])).1.unwrap();
    let inside = after(&on.deep, batch(ROOT, None, 3, vec![]));
    let closed = after(&on.filled, batch(ROOT, None, 2, vec![leaf(3)]));
    let both = after(&on.filled, batch(ROOT, None, 1, vec![grafts(2, U)]));
    let both = after(&both, batch(U, Some(1), 1, vec![with(1, &[2]), leaf(2)]));
    let (rooted, in_t, in_both) = (&[ROOT][..], &[ROOT, T][..], &[ROOT, T, U][..]);
    let ground = |name, on, trees| Ground { name, on, trees, roots: ROOTS, focuses: FOCUSES };
    vec![
        ground("1", alone, rooted),
        ground("S", on.s.clone(), in_t),
        ground("1 has [2], 2 has [3]", chain, rooted),
        ground("S, 3 grafts T", on.held.clone(), in_t),
        ground("S, 3 grafts T; T has 1", on.filled, in_t),
        ground("S, 3 grafts T; T has 1 with [2], 2 with [3]; the focus inside", inside, in_t),
        ground("S, T was there and went", closed, in_t),
        ground("S, 2 grafts U, 3 grafts T; both are filled", both, in_both),
        ground("S, 3 grafts T, T's 2 grafts U; all are filled", on.nested, in_both),
        ground("S, 2 has [4], 4 grafts T", on.below, rooted),
        Ground {
            roots: &[None, Some(1), Some(2)],
            focuses: &[1],
            ..ground("32 numbers taken, 3 grafts T", full(on.held), &[T])
        },
        Ground { roots: &[None], focuses: &[2], ..ground("256 nodes, 253 of them below 3", wide(), rooted) },
    ]
}

/// The state with all tree numbers taken by trees that went.
fn full(on: Held) -> Held {
    let mut s = on.plain;
    s.trees.extend((1..TREES as u64).map(|k| ((9, k), None)));
    held(s)
}

/// S with 253 more nodes as children of 3.
fn wide() -> Held {
    let mut s = cases::states().s.plain;
    let numbers: Vec<u64> = (1001..1254).collect();
    for (place, n) in (0..).zip(&numbers) {
        s.nodes.insert((0, *n), (Some(((0, 3), place)), leaf(*n).1));
    }
    s.nodes.get_mut(&(0, 3)).unwrap().1.children = numbers;
    held(s)
}
