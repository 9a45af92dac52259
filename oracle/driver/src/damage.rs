//! Damaged states: changed copies of a state's memory. Nothing here decides whether the state is still sound.
use crate::memory::{
    self, CHILD_COUNT, COUNT, ENTRIES, FIRST_CHILD, FLOATS, HOST, LABEL, LABEL_LENGTH, LINKED, NODE_FIELDS, PARENT,
    SLOTS, TREE_COUNT, TREE_FIELDS, TREES, child, counts, entry, place,
};
use crate::tally::Pair;
use calls::make::{self, Rng, World};
use cartgravel::sys::State;

/// A copy of a state's memory, changed.
pub fn damaged(r: &mut Rng, w: &World, pair: &Pair) -> Box<State> {
    let mut m = Box::new((*pair.memory).clone());
    match r.below(10) {
        0..3 => return memory::written(&make::damage(r, w, &pair.held.plain)),
        3 | 4 => change_word(r, &mut m),
        5 => flip_bits(r, &mut m),
        6 => swap_slots(r, &mut m),
        7 => change_head(r, &mut m),
        8 => change_unshown(r, &mut m),
        _ => scatter(r, &mut m),
    }
    m
}

/// A value near the old one, or one of the values at a limit.
fn near(r: &mut Rng, old: u64) -> u64 {
    match r.below(8) {
        0 => old.wrapping_add(1),
        1 => old.wrapping_sub(1),
        2 => old ^ (1 << r.below(64)),
        3 => r.next(),
        _ => r.pick(&[0, 1, 2, 3, 63, 64, 255, 256, 511, 512, 1 << 32, 1 << 63, u64::MAX - 1, u64::MAX]),
    }
}

/// One word of a node or of a tree that the state uses, or of its children.
fn change_word(r: &mut Rng, m: &mut State) {
    let (nodes, trees) = counts(m);
    let at = match r.below(12) {
        0..9 => place(r.below(FLOATS), r.below(nodes.max(1))),
        9 => place(FLOATS + r.below(NODE_FIELDS - FLOATS), r.below(nodes.max(1))),
        10 => entry(r.below(TREE_FIELDS), r.below(trees.max(1))),
        _ => child(r.below(2 + nodes)),
    };
    let odd = [f64::NAN, f64::INFINITY, f64::NEG_INFINITY, -0.0, 5e-324].map(f64::to_bits);
    m.words[at] = if r.chance(8) { r.pick(&odd) } else { near(r, m.words[at]) };
}

/// A few bits anywhere.
fn flip_bits(r: &mut Rng, m: &mut State) {
    for _ in 0..1 + r.below(4) {
        let at = r.below(m.words.len());
        m.words[at] ^= 1 << r.below(64);
    }
}

/// Two nodes in each other's slots, so that the ids do not ascend.
fn swap_slots(r: &mut Rng, m: &mut State) {
    let nodes = counts(m).0.max(1);
    let (i, j) = (r.below(nodes), r.below(nodes));
    (0..NODE_FIELDS).for_each(|f| m.words.swap(place(f, i), place(f, j)));
}

/// The number of nodes or of trees, or the host flag.
fn change_head(r: &mut Rng, m: &mut State) {
    let at = r.pick(&[COUNT, TREE_COUNT, HOST]);
    m.words[at] = near(r, m.words[at]);
}

/// Words of which the state shows nothing, or only whether they are 0.
fn change_unshown(r: &mut Rng, m: &mut State) {
    let (nodes, trees) = counts(m);
    for i in 0..nodes {
        set_or_other(r, m, place(LINKED, i), [PARENT, PARENT + 1, PARENT + 2].map(|f| place(f, i)));
        let used = 8 * m.words[place(LABEL_LENGTH, i)].min(32) as u32;
        for (k, from) in (LABEL..FLOATS).zip((0..).step_by(64)) {
            let kept = used.saturating_sub(from).min(64);
            m.words[place(k, i)] ^= r.next().checked_shl(kept).unwrap_or(0);
        }
    }
    for k in 0..trees {
        set_or_other(r, m, entry(4, k), [entry(2, k), entry(3, k), entry(3, k)]);
    }
    if m.words[HOST] != 0 {
        m.words[HOST] = 1 + r.next() / 2;
    }
    (3..entry(0, 0)).for_each(|at| m.words[at] = r.next());
    fill_unused(r, m);
    move_entries(r, m);
}

/// A flag that is set gets another value; one that is not, other words beside it.
fn set_or_other(r: &mut Rng, m: &mut State, flag: usize, beside: [usize; 3]) {
    if m.words[flag] != 0 {
        m.words[flag] = 1 + r.next() / 2;
    } else {
        beside.into_iter().for_each(|at| m.words[at] = r.next());
    }
}

/// Random numbers in the slots and rows that are not used.
fn fill_unused(r: &mut Rng, m: &mut State) {
    let (nodes, trees) = counts(m);
    (0..NODE_FIELDS).for_each(|f| (nodes..SLOTS).for_each(|i| m.words[place(f, i)] = r.next()));
    (0..TREE_FIELDS).for_each(|j| (trees..TREES).for_each(|k| m.words[entry(j, k)] = r.next()));
}

/// The same child entries at the other end, in the reverse order of nodes, random numbers between.
fn move_entries(r: &mut Rng, m: &mut State) {
    let old: Vec<u64> = m.words[child(0)..].to_vec();
    m.words[child(0)..].iter_mut().for_each(|x| *x = r.next());
    let mut end = ENTRIES;
    for i in 0..counts(m).0 {
        let (first, children) =
            (m.words[place(FIRST_CHILD, i)] as usize, m.words[place(CHILD_COUNT, i)] as usize);
        end -= children;
        m.words[child(end)..child(end + children)].copy_from_slice(&old[first..first + children]);
        m.words[place(FIRST_CHILD, i)] = if children == 0 { r.next() } else { end as u64 };
    }
}

/// Random words everywhere, the counts small or not.
fn scatter(r: &mut Rng, m: &mut State) {
    let counts = [m.words[COUNT], m.words[TREE_COUNT]];
    m.words.iter_mut().for_each(|word| *word = r.next());
    if r.chance(60) {
        m.words[..2].copy_from_slice(&counts);
    }
}
