//! Made calls: small trees, edits that keep a batch near valid, and single
//! faults. Nothing here decides an answer.
use crate::judge::{Call, Input};
use crate::plain::*;
use std::collections::BTreeMap;

/// splitmix64.
pub struct Rng(pub u64);

impl Rng {
    pub fn next(&mut self) -> u64 {
        self.0 = self.0.wrapping_add(0x9e3779b97f4a7c15);
        let mut z = self.0;
        z = (z ^ (z >> 30)).wrapping_mul(0xbf58476d1ce4e5b9);
        z = (z ^ (z >> 27)).wrapping_mul(0x94d049bb133111eb);
        z ^ (z >> 31)
    }
    pub fn below(&mut self, n: usize) -> usize {
        (self.next() % n as u64) as usize
    }
    pub fn chance(&mut self, percent: usize) -> bool {
        self.below(100) < percent
    }
    pub fn pick<T: Clone>(&mut self, items: &[T]) -> T {
        items[self.below(items.len())].clone()
    }
    fn maybe<T: Clone>(&mut self, items: &[T]) -> Option<T> {
        (!items.is_empty()).then(|| self.pick(items))
    }
    fn shuffle<T>(&mut self, items: &mut [T]) {
        for i in (1..items.len()).rev() {
            items.swap(i, self.below(i + 1));
        }
    }
}

/// The node numbers and tree ids of one history, and how large things get. All trees share the numbers.
pub struct World {
    numbers: Vec<u64>,
    trees: Vec<Tid>,
    /// The most nodes of a start, of a new pane, and of those that one edit adds.
    start: usize,
    pane: usize,
    burst: usize,
    /// Of a hundred leaves of a new tree, how many are grafts; of a hundred unchanged nodes, how many a batch
    /// lists all the same.
    grafts: usize,
    unchanged: usize,
    /// Of a hundred batches, how many are for ROOT, and how many for ROOT or an existing tree.
    for_root: usize,
    for_existing: usize,
}

impl World {
    /// Eight node numbers and three tree ids.
    pub fn new(r: &mut Rng) -> World {
        const BIG: [u64; 6] = [u64::MAX, 1 << 63, 1 << 32, 255, 256, u64::MAX - 1];
        let mut numbers: Vec<u64> = (0..8).collect();
        if r.chance(25) {
            for _ in 0..3 {
                let (at, n) = (r.below(8), r.pick(&BIG));
                if !numbers.contains(&n) {
                    numbers[at] = n;
                }
            }
        }
        r.shuffle(&mut numbers);
        let max = u64::MAX;
        let mut trees = vec![(0, 1), (1, 0), (1, 1), (0, 2), (0, max), (max, 0), (max, max), (7, 1 << 63)];
        r.shuffle(&mut trees);
        trees.truncate(3);
        World {
            numbers,
            trees,
            start: 6,
            pane: 5,
            burst: 1,
            grafts: 30,
            unchanged: 15,
            for_root: 42,
            for_existing: 72,
        }
    }

    /// Numbers for more nodes than a state may have.
    pub fn wide(r: &mut Rng) -> World {
        let small = World::new(r);
        let mut numbers: Vec<u64> = (0..360).chain((0..8).map(|k| u64::MAX - k)).collect();
        r.shuffle(&mut numbers);
        World { numbers, start: 64, pane: 40, burst: 30, grafts: 4, unchanged: 2, ..small }
    }

    /// More tree ids than a state may have, many with one half the same.
    pub fn crowded(r: &mut Rng) -> World {
        let mut trees: Vec<Tid> = (0..25).flat_map(|k| [(7, k), (k + 8, 7)]).collect();
        r.shuffle(&mut trees);
        let numbers = (0..70).collect();
        World {
            numbers,
            trees,
            start: 64,
            pane: 3,
            burst: 3,
            grafts: 60,
            unchanged: 3,
            for_root: 25,
            for_existing: 45,
        }
    }

    fn unused(&self, r: &mut Rng, model: &BTreeMap<u64, Data>) -> Option<u64> {
        let free: Vec<u64> = self.numbers.iter().filter(|n| !model.contains_key(n)).copied().collect();
        r.maybe(&free)
    }
}

fn float(r: &mut Rng) -> u64 {
    const USUAL: [f64; 12] =
        [0.0, -0.0, 0.0, -0.0, 1.0, -1.0, 0.5, 100.0, 1048576.0, 1e300, f64::MAX, 5e-324];
    r.pick(&USUAL).to_bits()
}

/// A leaf's data.
fn leaf(r: &mut Rng, w: &World) -> Data {
    let mut d = Data { role: r.pick(&[4, 4, 4, 0, 1, 2, 3, 255]), ..Data::default() };
    for (flag, percent) in [(HIDDEN, 12), (CLIPS, 12), (ACTIVE, 25), (BOUNDS, 25), (TRANSFORM, 12)] {
        if r.chance(percent) {
            toggle(r, w, &mut d, flag);
        }
    }
    if r.chance(40) {
        d.label = label(r);
    }
    d
}

fn label(r: &mut Rng) -> Vec<u8> {
    let length = if r.chance(3) { 32 } else { r.below(4) };
    (0..length).map(|_| r.pick(&[97, 98, 0, 195, 255])).collect()
}

fn toggle(r: &mut Rng, w: &World, d: &mut Data, flag: u8) {
    d.flags ^= flag;
    let on = d.has(flag);
    match flag {
        ACTIVE => d.active = if on { r.pick(&w.numbers) } else { 0 },
        BOUNDS => d.bounds = d.bounds.map(|_| if on { float(r) } else { 0 }),
        TRANSFORM => d.transform = d.transform.map(|_| if on { float(r) } else { 0 }),
        _ => {}
    }
}

/// Turns the sign of zeros: the same data by value.
fn flip_zeros(r: &mut Rng, d: &mut Data) {
    const SIGN: u64 = 1 << 63;
    let (bounds, transform) = (d.has(BOUNDS), d.has(TRANSFORM));
    let flip = |bits: &mut u64, r: &mut Rng| {
        if *bits & !SIGN == 0 && r.chance(70) {
            *bits ^= SIGN;
        }
    };
    if bounds {
        d.bounds.iter_mut().for_each(|b| flip(b, r));
    }
    if transform {
        d.transform.iter_mut().for_each(|b| flip(b, r));
    }
}

fn tweak(r: &mut Rng, w: &World, d: &mut Data) {
    match r.below(8) {
        0 => d.label = label(r),
        1 => d.role = r.pick(&[0, 1, 2, 3, 4, 5, 255]),
        2 => toggle(r, w, d, HIDDEN),
        3 => toggle(r, w, d, CLIPS),
        4 | 5 => toggle(r, w, d, ACTIVE),
        6 => toggle(r, w, d, BOUNDS),
        _ => toggle(r, w, d, TRANSFORM),
    }
    if r.chance(20) {
        flip_zeros(r, d);
    }
}

/// One tree as the batch's sender sees it.
struct Model {
    nodes: BTreeMap<u64, Data>,
    root: u64,
}

impl Model {
    /// A new tree of at most `most` nodes.
    fn fresh(r: &mut Rng, w: &World, most: usize) -> Model {
        let mut numbers = w.numbers.clone();
        r.shuffle(&mut numbers);
        numbers.truncate(1 + r.below(most));
        let mut nodes: BTreeMap<u64, Data> = BTreeMap::new();
        // a wide tree may also be a chain, a star, or have four children a node
        let shape = if w.burst > 1 { r.below(4) } else { 0 };
        for i in 0..numbers.len() {
            nodes.insert(numbers[i], leaf(r, w));
            if i > 0 {
                let up = numbers[match shape {
                    0 => r.below(i),
                    1 => i - 1,
                    2 => 0,
                    _ => (i - 1) / 4,
                }];
                nodes.get_mut(&up).unwrap().children.push(numbers[i]);
            }
        }
        let mut trees = w.trees.clone();
        r.shuffle(&mut trees);
        for d in nodes.values_mut().filter(|d| d.children.is_empty()) {
            if r.chance(w.grafts)
                && let Some(t) = trees.pop()
            {
                d.set_graft(Some(t));
            }
        }
        Model { nodes, root: numbers[0] }
    }

    fn below(&self, n: u64) -> Vec<u64> {
        let mut out = vec![n];
        let mut i = 0;
        while i < out.len() {
            if let Some(d) = self.nodes.get(&out[i]) {
                let more: Vec<u64> = d.children.iter().filter(|c| !out.contains(c)).copied().collect();
                out.extend(more);
            }
            i += 1;
        }
        out
    }

    fn detach(&mut self, n: u64) {
        for d in self.nodes.values_mut() {
            d.children.retain(|c| *c != n);
        }
    }

    fn attach(&mut self, r: &mut Rng, n: u64, p: u64) {
        let children = &mut self.nodes.get_mut(&p).unwrap().children;
        let at = r.below(children.len() + 1);
        children.insert(at, n);
    }

    fn forget(&mut self, n: u64) {
        self.detach(n);
        for x in self.below(n) {
            self.nodes.remove(&x);
        }
    }

    fn some(&self, r: &mut Rng, test: impl Fn(&u64, &Data) -> bool) -> Option<u64> {
        let fit: Vec<u64> = self.nodes.iter().filter(|(n, d)| test(n, d)).map(|(n, _)| *n).collect();
        r.maybe(&fit)
    }

    /// One edit; true if it asks for tree data.
    fn edit(&mut self, r: &mut Rng, w: &World, s: &State) -> Option<bool> {
        let root = self.root;
        match r.below(20) {
            0 | 1 => {
                let n = self.some(r, |_, _| true)?;
                tweak(r, w, self.nodes.get_mut(&n)?);
            }
            2 => {
                let n = self.some(r, |_, d| d.has(BOUNDS) || d.has(TRANSFORM))?;
                flip_zeros(r, self.nodes.get_mut(&n)?);
            }
            3..=5 => {
                let c = self.some(r, |n, _| *n != root)?;
                let under = self.below(c);
                let q = self.some(r, |n, d| !under.contains(n) && d.graft().is_none())?;
                self.detach(c);
                self.attach(r, c, q);
            }
            6 => {
                let p = self.some(r, |_, d| d.children.len() > 1)?;
                r.shuffle(&mut self.nodes.get_mut(&p)?.children);
            }
            7 | 8 => {
                let c = self.some(r, |n, _| *n != root)?;
                self.forget(c);
            }
            9..=11 => {
                let more = if w.burst > 1 { 1 + r.below(w.burst) } else { 1 };
                for _ in 0..more {
                    let n = w.unused(r, &self.nodes)?;
                    let p = self.some(r, |_, d| d.graft().is_none())?;
                    self.nodes.insert(n, leaf(r, w));
                    self.attach(r, n, p);
                }
            }
            12 | 13 => {
                let n = self.some(r, |_, d| d.children.is_empty() && d.graft().is_none())?;
                let held: Vec<Tid> = s.grafts().iter().map(|g| g.0).collect();
                let free: Vec<Tid> = w.trees.iter().filter(|t| !held.contains(t)).copied().collect();
                let g = r.maybe(&free)?;
                self.nodes.get_mut(&n)?.set_graft(Some(g));
            }
            14 => {
                let n = self.some(r, |_, d| d.graft().is_some())?;
                self.nodes.get_mut(&n)?.set_graft(None);
            }
            15 | 16 => {
                // a graft goes from one node to another
                let n = self.some(r, |_, d| d.graft().is_some())?;
                let m = self.some(r, |_, d| d.children.is_empty() && d.graft().is_none())?;
                let g = self.nodes[&n].graft();
                self.nodes.get_mut(&m)?.set_graft(g);
                if r.chance(60) {
                    self.nodes.get_mut(&n)?.set_graft(None);
                } else {
                    self.forget(n);
                }
            }
            17 => {
                // a graft held inside a pane is taken while the pane goes
                let n = self.some(r, |_, d| d.graft().is_some())?;
                let m = self.some(r, |_, d| d.children.is_empty() && d.graft().is_none())?;
                let grafts: Vec<Tid> = s.grafts().iter().map(|g| g.0).collect();
                let g = r.maybe(&grafts)?;
                self.nodes.get_mut(&m)?.set_graft(Some(g));
                if r.chance(50) {
                    self.nodes.get_mut(&n)?.set_graft(None);
                } else {
                    self.forget(n);
                }
            }
            18 => {
                // a node below becomes the root
                let n = self.some(r, |n, _| *n != root)?;
                self.detach(n);
                if r.chance(30) && self.nodes[&n].graft().is_none() {
                    self.attach(r, root, n);
                } else {
                    let kept = self.below(n);
                    self.nodes.retain(|x, _| kept.contains(x));
                }
                self.root = n;
                return Some(true);
            }
            _ => {
                // a new root above the old one, or in its stead
                let n = w.unused(r, &self.nodes)?;
                let mut d = leaf(r, w);
                if r.chance(70) {
                    d.children.push(root);
                } else {
                    d.children = std::mem::take(&mut self.nodes.get_mut(&root)?.children);
                    self.nodes.remove(&root);
                }
                self.nodes.insert(n, d);
                self.root = n;
                return Some(true);
            }
        }
        Some(false)
    }

    fn arranged(&self, r: &mut Rng, mut listed: Vec<u64>) -> Vec<(u64, Data)> {
        let down = self.below(self.root);
        let place = |n: &u64| down.iter().position(|x| x == n).unwrap_or(down.len());
        match r.below(4) {
            0 | 1 => listed.sort_by_key(place),
            2 => listed.sort_by_key(|n| usize::MAX - place(n)),
            _ => r.shuffle(&mut listed),
        }
        listed.into_iter().map(|n| (n, self.nodes[&n].clone())).collect()
    }
}

/// A start's batch: ROOT, whole, near valid.
pub fn start(r: &mut Rng, w: &World) -> Batch {
    let m = Model::fresh(r, w, w.start);
    let focus = m.some(r, |_, d| d.graft().is_none()).unwrap_or(m.root);
    let listed = m.nodes.keys().copied().collect();
    Batch { tree: ROOT, root: Some(m.root), focus, nodes: m.arranged(r, listed) }
}

/// A batch on a state, near valid.
pub fn batch(r: &mut Rng, w: &World, s: &State) -> Batch {
    let existing: Vec<Tid> = s.trees.iter().filter(|t| t.0 != ROOT && t.1.is_some()).map(|t| t.0).collect();
    let unborn: Vec<Tid> = s.grafts().into_iter().map(|g| g.0).filter(|g| !existing.contains(g)).collect();
    let tree = match r.below(100) {
        k if k < w.for_root => None,
        k if k < w.for_existing => r.maybe(&existing),
        k if k < 94 => r.maybe(&unborn),
        _ => Some(r.pick(&w.trees)),
    }
    .unwrap_or(ROOT);
    let number = s.number_of(tree);
    let old: BTreeMap<u64, Data> =
        s.nodes.iter().filter(|(id, _)| Some(id.0) == number).map(|(id, n)| (id.1, n.1.clone())).collect();
    let at = number.and_then(|n| s.trees[n as usize].1);
    let (mut model, mut data) = match at {
        Some((root, _)) => (Model { nodes: old.clone(), root }, r.chance(12)),
        None => (Model::fresh(r, w, w.pane), true),
    };
    if at.is_some() {
        for _ in 0..r.pick(&[0, 1, 1, 1, 2, 2, 3, 4]) {
            data |= model.edit(r, w, s).unwrap_or(false);
        }
    }
    let mut listed: Vec<u64> =
        model.nodes.iter().filter(|(n, d)| old.get(n) != Some(*d)).map(|(n, _)| *n).collect();
    for n in model.nodes.keys() {
        if !listed.contains(n) && r.chance(w.unchanged) {
            listed.push(*n);
        }
    }
    let mut nodes = model.arranged(r, listed);
    for (n, d) in &mut nodes {
        if old.get(n) == Some(d) && r.chance(40) {
            flip_zeros(r, d);
        }
    }
    // a node that goes, listed all the same
    if r.chance(6) {
        let gone: Vec<u64> = old.keys().filter(|n| !model.nodes.contains_key(n)).copied().collect();
        if let Some(n) = r.maybe(&gone) {
            let mut d = old[&n].clone();
            if r.chance(50) {
                tweak(r, w, &mut d);
            }
            let at = r.below(nodes.len() + 1);
            nodes.insert(at, (n, d));
        }
    }
    let kept = at
        .map(|a| a.1)
        .filter(|f| model.nodes.get(f).is_some_and(|d| d.graft().is_none_or(|g| existing.contains(&g))));
    let focus = match kept {
        Some(f) if r.chance(70) => f,
        _ => model.some(r, |_, d| d.graft().is_none_or(|g| existing.contains(&g))).unwrap_or(model.root),
    };
    Batch { tree, root: data.then_some(model.root), focus, nodes }
}

/// A batch that gives a node of ROOT's tree `more` new nodes below it, near valid.
/// With `less` it lets a branch go as well.
pub fn grow(r: &mut Rng, w: &World, s: &State, more: usize, less: bool) -> Batch {
    let (root, kept) = s.trees[0].1.unwrap();
    let old: BTreeMap<u64, Data> =
        s.nodes.iter().filter(|(id, _)| id.0 == 0).map(|(id, n)| (id.1, n.1.clone())).collect();
    let mut model = Model { nodes: old.clone(), root };
    if less && let Some(n) = model.some(r, |n, _| *n != root) {
        model.forget(n);
    }
    let mut above = vec![model.some(r, |_, d| d.graft().is_none()).unwrap_or(root)];
    for _ in 0..more {
        let (n, up) = (w.unused(r, &model.nodes).unwrap(), r.pick(&above));
        model.nodes.insert(n, leaf(r, w));
        model.attach(r, n, up);
        above.push(n);
    }
    let listed = model.nodes.iter().filter(|(n, d)| old.get(n) != Some(*d)).map(|(n, _)| *n).collect();
    let focus = if model.nodes.contains_key(&kept) { kept } else { root };
    Batch { tree: ROOT, root: None, focus, nodes: model.arranged(r, listed) }
}

/// One fault, aimed at a row of the table or not at all. It may miss.
pub fn spoil(r: &mut Rng, w: &World, s: Option<&State>, b: &mut Batch) {
    let number = s.and_then(|s| s.number_of(b.tree));
    let old = |n: u64| s.and_then(|s| s.nodes.get(&(number?, n))).map(|x| x.1.clone());
    let mine: Vec<u64> =
        s.map_or(vec![], |s| s.nodes.keys().filter(|id| Some(id.0) == number).map(|id| id.1).collect());
    // a listed node's place; one is added if none is listed
    let some_listed = |r: &mut Rng, b: &mut Batch| {
        if b.nodes.is_empty() {
            let n = r.maybe(&mine).unwrap_or(w.numbers[0]);
            let d = old(n).unwrap_or_else(|| leaf(r, w));
            b.nodes.push((n, d));
        }
        r.below(b.nodes.len())
    };
    match r.below(20) {
        0 => {
            let i = some_listed(r, b);
            let mut again = b.nodes[i].clone();
            if r.chance(50) {
                tweak(r, w, &mut again.1);
            }
            let at = r.below(b.nodes.len() + 1);
            b.nodes.insert(at, again);
        }
        1 => b.tree = r.pick(&w.trees),
        2 => b.root = if b.root.is_some() { None } else { Some(r.pick(&w.numbers)) },
        3 => {
            let i = some_listed(r, b);
            let named: Vec<u64> = b.nodes.iter().flat_map(|n| n.1.children.clone()).collect();
            let c = r.maybe(&named).unwrap_or(b.nodes[i].0);
            let at = r.below(b.nodes[i].1.children.len() + 1);
            b.nodes[i].1.children.insert(at, c);
        }
        4 => {
            let i = some_listed(r, b);
            let c = r.pick(&w.numbers);
            let d = &mut b.nodes[i].1;
            if d.children.is_empty() {
                d.children.push(c);
            }
            d.set_graft(Some(r.pick(&w.trees)));
        }
        5 => {
            let i = some_listed(r, b);
            b.nodes[i].1.set_graft(Some(ROOT));
            if r.chance(80) {
                b.nodes[i].1.children.clear();
            }
        }
        6 => {
            // a graft that is held or claimed elsewhere
            let i = some_listed(r, b);
            let mut grafts: Vec<Tid> = b.nodes.iter().filter_map(|n| n.1.graft()).collect();
            grafts.extend(s.iter().flat_map(|s| s.grafts()).map(|g| g.0));
            let g = r.maybe(&grafts).unwrap_or(w.trees[0]);
            b.nodes[i].1.set_graft(Some(g));
            if r.chance(85) {
                b.nodes[i].1.children.clear();
            }
        }
        7 => {
            let at = r.below(b.nodes.len() + 1);
            let mut d = leaf(r, w);
            if r.chance(25) {
                d.set_graft(Some(r.pick(&[ROOT, w.trees[0]])));
            }
            b.nodes.insert(at, (r.pick(&w.numbers), d));
        }
        8 => {
            let i = some_listed(r, b);
            let c = r.pick(&w.numbers);
            b.nodes[i].1.children.push(c);
        }
        9 => {
            let i = some_listed(r, b);
            b.focus = b.nodes[i].0;
            b.nodes[i].1.set_graft(Some(r.pick(&w.trees)));
            if r.chance(85) {
                b.nodes[i].1.children.clear();
            }
        }
        10 => b.root = Some(r.pick(&w.numbers)),
        11 | 12 => b.focus = r.pick(&w.numbers),
        13 => {
            // a parent lets go of a child that is listed, changed, before it or after it
            let parents: Vec<u64> =
                mine.iter().filter(|n| old(**n).is_some_and(|d| !d.children.is_empty())).copied().collect();
            let Some(p) = r.maybe(&parents) else { return };
            let mut up = old(p).unwrap();
            let c = up.children.remove(r.below(up.children.len()));
            let Some(mut d) = old(c) else { return };
            if r.chance(80) {
                tweak(r, w, &mut d);
            }
            b.nodes.retain(|n| n.0 != p && n.0 != c);
            let pair = if r.chance(75) { [(c, d), (p, up)] } else { [(p, up), (c, d)] };
            b.nodes.extend(pair);
        }
        14 | 15 => {
            if !b.nodes.is_empty() {
                b.nodes.remove(r.below(b.nodes.len()));
            }
        }
        16 => {
            let i = some_listed(r, b);
            let n = b.nodes[i].0;
            b.nodes[i].1.children.push(n);
        }
        17 => {
            let i = some_listed(r, b);
            if !b.nodes[i].1.children.is_empty() {
                let k = r.below(b.nodes[i].1.children.len());
                b.nodes[i].1.children.remove(k);
            }
        }
        18 => {
            let (i, mut d) = (some_listed(r, b), leaf(r, w));
            d.children = b.nodes[i].1.children.clone();
            b.nodes[i].1 = d;
        }
        _ => r.shuffle(&mut b.nodes),
    }
}

/// A batch's record with one field outside the layout's rules.
pub fn misfit(r: &mut Rng, w: &World, mut b: Batch) -> Input {
    if b.nodes.is_empty() {
        b.nodes.push((w.numbers[0], leaf(r, w)));
    }
    let i = r.below(b.nodes.len());
    let d = &mut b.nodes[i].1;
    match r.below(10) {
        0 => d.flags |= r.pick(&[64, 128]),
        1 => d.label = vec![97; 33],
        2 => {
            d.flags |= BOUNDS;
            d.bounds[r.below(4)] = r.pick(&[f64::INFINITY, f64::NEG_INFINITY, f64::NAN]).to_bits();
        }
        3 => {
            d.flags |= TRANSFORM;
            d.transform[r.below(6)] = r.pick(&[f64::INFINITY, f64::NAN]).to_bits();
        }
        4 => {
            // under a clear flag
            match r.below(4) {
                0 => (d.flags, d.active) = (d.flags & !ACTIVE, 1),
                1 => (d.flags, d.graft) = (d.flags & !GRAFT, (0, 1)),
                2 => (d.flags, d.bounds) = (d.flags & !BOUNDS, [0, 0, 1 << 63, 0]),
                _ => (d.flags, d.transform) = (d.flags & !TRANSFORM, [0, 0, 0, 0, 0, 1]),
            }
        }
        5 => {
            let mut bytes = b.encode();
            bytes.truncate(r.below(bytes.len()));
            return Input::Bytes(bytes);
        }
        6 => {
            let mut bytes = b.encode();
            bytes.push(0);
            return Input::Bytes(bytes);
        }
        7 => {
            // a byte of the header
            let mut bytes = b.encode();
            let at = r.pick(&[0, 1, 2, 3, 4, 6, 7, 8, 12, 16, 20, 23, 40, 56, 63]);
            bytes[at] = bytes[at].wrapping_add(r.pick(&[1, 2, 128, 255]));
            return Input::Bytes(bytes);
        }
        8 => {
            // a byte of a node record
            let mut bytes = b.encode();
            let at = 64 + 128 * i + r.pick(&[32, 33, 34, 35, 36, 37, 38, 39, 41, 42, 47, 55, 127]);
            bytes[at] = bytes[at].wrapping_add(r.pick(&[1, 2, 128, 255]));
            return Input::Bytes(bytes);
        }
        _ => {
            let mut bytes = b.encode();
            let at = r.below(bytes.len());
            bytes[at] ^= 1 << r.below(8);
            return Input::Bytes(bytes);
        }
    }
    Input::Batch(b)
}

/// A slice of recognisable filler: usually long enough, sometimes too short.
pub fn slice(r: &mut Rng, w: &World) -> Vec<u64> {
    let enough = if w.burst > 1 { 400 } else { 24 };
    let length = if r.chance(80) { enough + r.below(30) } else { r.below(enough / 2) };
    filler(length)
}

/// A slice of this length whose elements are no ids.
pub fn filler(length: usize) -> Vec<u64> {
    (0..length as u64).map(|i| 900_000 + i).collect()
}

/// A state with one part spoilt; it may still be sound.
pub fn damage(r: &mut Rng, w: &World, s: &State) -> State {
    let mut s = s.clone();
    if r.chance(4) {
        return State { host: r.chance(50), ..State::default() };
    }
    let ids: Vec<Id> = s.nodes.keys().copied().collect();
    let id = r.pick(&ids);
    let other = r.pick(&ids);
    let far = (r.below(4) as u32, r.pick(&w.numbers));
    let tree = r.below(s.trees.len());
    let (link, d) = s.nodes.get_mut(&id).unwrap();
    match r.below(18) {
        0 => *link = None,
        1 => *link = link.map(|(p, i)| (p, i + 1)),
        2 => *link = Some((other, r.below(2) as u64)),
        3 => *link = Some((far, 0)),
        4 => drop(s.nodes.remove(&id)),
        5 => {
            let l = r.chance(50).then_some((other, 0));
            s.nodes.entry(far).or_insert((l, leaf(r, w)));
        }
        6 => s.trees[tree].1 = None,
        7 => s.trees[tree].1 = s.trees[tree].1.map(|(_, f)| (r.pick(&w.numbers), f)),
        8 => s.trees[0].1 = s.trees[0].1.map(|(root, _)| (root, r.pick(&w.numbers))),
        9 => s.trees.push((r.pick(&w.trees), r.chance(50).then_some((id.1, id.1)))),
        10 => s.trees[tree].0 = r.pick(&[ROOT, w.trees[0], (5, 5)]),
        11 => d.children.push(r.pick(&w.numbers)),
        12 => d.set_graft(Some(r.pick(&[ROOT, w.trees[0], w.trees[1], w.trees[2]]))),
        13 => d.flags |= 64,
        14 => {
            d.flags |= BOUNDS;
            d.bounds[2] = f64::INFINITY.to_bits();
        }
        15 => d.label = vec![98; 33],
        16 => match r.below(4) {
            0 => (d.flags, d.active) = (d.flags & !ACTIVE, 3),
            1 => (d.flags, d.graft) = (d.flags & !GRAFT, (3, 0)),
            2 => (d.flags, d.bounds) = (d.flags & !BOUNDS, [1, 0, 0, 0]),
            _ => (d.flags, d.transform) = (d.flags & !TRANSFORM, [0, 1 << 63, 0, 0, 0, 0]),
        },
        _ => {
            if let Some(g) = d.graft().and_then(|g| s.number_of(g)) {
                s.trees[g as usize].1 = s.trees[g as usize].1.map(|(root, _)| (root, 77));
                s.trees[0].1 = s.trees[0].1.map(|(root, _)| (root, id.1));
            }
        }
    }
    s
}

/// The batches that graft a fresh tree id at a leaf of ROOT and then fill it.
pub fn graft_and_fill(r: &mut Rng, w: &World, s: &State, fresh: Tid) -> Vec<Batch> {
    let leaves: Vec<(u64, Data)> = s
        .nodes
        .iter()
        .filter(|(id, n)| id.0 == 0 && n.1.children.is_empty() && id.1 != s.trees[0].1.unwrap().0)
        .map(|(id, n)| (id.1, n.1.clone()))
        .collect();
    let Some((n, mut d)) = r.maybe(&leaves) else { return vec![] };
    d.set_graft(Some(fresh));
    let focus = r.maybe(&leaves.iter().map(|l| l.0).filter(|l| *l != n).collect::<Vec<_>>());
    let focus = focus.unwrap_or(s.trees[0].1.unwrap().0);
    let m = Model::fresh(r, w, 2);
    let listed = m.nodes.keys().copied().collect();
    let mut nodes = m.arranged(r, listed);
    nodes.iter_mut().for_each(|x| x.1.set_graft(None));
    vec![
        Batch { tree: ROOT, root: None, focus, nodes: vec![(n, d)] },
        Batch { tree: fresh, root: Some(m.root), focus: m.root, nodes },
    ]
}

/// A call with this batch, now and then as bytes.
pub fn call(r: &mut Rng, w: &World, b: Batch, started: bool) -> Call {
    let input = match r.below(100) {
        0..3 => misfit(r, w, b),
        3..7 => Input::Bytes(b.encode()),
        _ => Input::Batch(b),
    };
    if started { Call::Update(input, slice(r, w)) } else { Call::Start(input, r.chance(75)) }
}

/// A start, good or with a fault or two.
pub fn start_call(r: &mut Rng, w: &World) -> Call {
    let mut b = start(r, w);
    if r.chance(60) {
        spoil(r, w, None, &mut b);
        if r.chance(15) {
            spoil(r, w, None, &mut b);
        }
    }
    call(r, w, b, false)
}

/// A host focus change, or a batch, good or with a fault or two.
pub fn next_call(r: &mut Rng, w: &World, s: &State) -> Call {
    if r.chance(6) {
        return Call::Host(if r.chance(60) { !s.host } else { s.host });
    }
    let mut b = batch(r, w, s);
    if r.chance(45) {
        spoil(r, w, Some(s), &mut b);
        if r.chance(15) {
            spoil(r, w, Some(s), &mut b);
        }
    }
    call(r, w, b, true)
}

/// A batch for ROOT at a limit of document 01 or one past it: listed nodes, child entries, label bytes of a
/// node, nodes of the outcome.
pub fn limit_call(r: &mut Rng, s: &State) -> Call {
    let (_, focus) = s.trees[0].1.unwrap();
    let mine = s.nodes.iter().filter(|(id, n)| id.0 == 0 && n.1.graft().is_none());
    let plain: Vec<(u64, Data)> = mine.map(|(id, n)| (id.1, n.1.clone())).collect();
    let Some((n, mut d)) = r.maybe(&plain) else { return Call::Host(s.host) };
    let past = r.below(2);
    let fresh = |count: usize| (10_000..).take(count);
    let mut nodes: Vec<(u64, Data)> = vec![];
    match r.below(4) {
        0 => nodes.extend(fresh(63 + past).map(|n| (n, Data::default()))),
        1 => d.children.extend(fresh((256 + past).saturating_sub(d.children.len()))),
        2 => d.label = vec![98; 32 + past],
        _ => nodes.extend(fresh((NODES + past - s.nodes.len()).min(63)).map(|n| (n, Data::default()))),
    }
    d.children.extend(nodes.iter().map(|n| n.0));
    nodes.push((n, d));
    Call::Update(Input::Batch(Batch { tree: ROOT, root: None, focus, nodes }), filler(1024))
}

/// A batch whose record is random bytes, or a good record with a few bytes changed.
pub fn noise_call(r: &mut Rng, w: &World, s: &State) -> Call {
    let mut bytes = batch(r, w, s).encode();
    if r.chance(30) {
        bytes.resize(r.below(400), 0);
        bytes.iter_mut().for_each(|b| *b = r.next() as u8);
    } else {
        for _ in 0..1 + r.below(4) {
            let at = r.below(bytes.len());
            bytes[at] = r.next() as u8;
        }
    }
    Call::Update(Input::Bytes(bytes), slice(r, w))
}
