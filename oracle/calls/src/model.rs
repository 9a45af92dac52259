//! Document 01's questions (modules 6 to 8) on a plain sound state, written from document 01, and the places where
//! its Domain lets the crate differ: a walk of the crate that steps into a dropped node, a box with a number that is
//! not finite, and answers that rest on one of these.
use crate::plain::*;
use std::cell::RefCell;

pub const INCLUDE: u8 = 0;
pub const EXCLUDE_NODE: u8 = 1;
pub const EXCLUDE_SUBTREE: u8 = 2;

/// The three filters, in the order in which the library numbers them (from 1).
pub const COMMON: usize = 0;
pub const WITH_ROOT_EXCEPTION: usize = 1;
pub const WITHOUT_PARENT_CHECKS: usize = 2;
pub const FILTERS: [usize; 3] = [COMMON, WITH_ROOT_EXCEPTION, WITHOUT_PARENT_CHECKS];

/// The sides of a node: following, preceding.
pub const SIDES: [usize; 2] = [0, 1];

/// Why an answer is not compared with the crate's.
#[derive(Clone, Copy, Debug, PartialEq, Eq, PartialOrd, Ord)]
pub enum LeftOut {
    /// A walk of the crate steps into a dropped node, or the answer rests on one.
    SteppedIn,
    /// A box on the way has a number that is not finite.
    NotFinite,
}

/// What is answered, and why the crate may differ.
pub struct Told<T> {
    pub answer: T,
    pub left_out: Option<LeftOut>,
}

/// Every answer about one node.
#[derive(Clone, Debug, PartialEq)]
pub struct Answers {
    pub parent: Option<Id>,
    pub children: Vec<Id>,
    pub hidden: bool,
    /// Bit patterns; a NaN as one pattern.
    pub transform: [u64; 6],
    pub bounding_box: Option<[f64; 4]>,
    pub siblings: [Vec<Id>; 2],
    pub filtered: [Filtered; 3],
}

/// Every answer under one filter.
#[derive(Clone, Debug, Default, PartialEq)]
pub struct Filtered {
    pub result: u8,
    pub parent: Option<Id>,
    pub first_child: Option<Id>,
    pub last_child: Option<Id>,
    pub deepest_first: Option<Id>,
    pub deepest_last: Option<Id>,
    pub children: Vec<Id>,
    pub siblings: [Vec<Id>; 2],
}

/// A sound state, its nodes by their place in the order of ids.
pub struct Model<'a> {
    state: &'a State,
    ids: Vec<Id>,
    data: Vec<&'a Data>,
    parents: Vec<Option<(usize, usize)>>,
    children: Vec<Vec<usize>>,
    focused: Option<usize>,
    root: usize,
    common: RefCell<Vec<Option<(u8, Option<LeftOut>)>>>,
}

impl<'a> Model<'a> {
    pub fn new(state: &'a State) -> Model<'a> {
        let ids: Vec<Id> = state.nodes.keys().copied().collect();
        let at = |id: &Id| ids.binary_search(id).ok();
        let data: Vec<&Data> = state.nodes.values().map(|n| &n.1).collect();
        let parents = state.nodes.values().map(|(l, _)| l.map(|(p, i)| (at(&p).unwrap(), i as usize))).collect();
        let below = |id: &Id, d: &Data| match d.graft() {
            Some(t) => root_of(state, t).iter().filter_map(at).collect(),
            None => d.children.iter().map(|c| at(&(id.0, *c)).unwrap()).collect(),
        };
        let children = ids.iter().zip(&data).map(|(id, d)| below(id, d)).collect();
        let focused = focused(state).and_then(|id| at(&id));
        let root = at(&(0, state.trees[0].1.unwrap().0)).unwrap();
        let common = RefCell::new(vec![None; ids.len()]);
        Model { state, data, parents, children, focused, root, common, ids }
    }

    pub fn ids(&self) -> &[Id] {
        &self.ids
    }

    pub fn place(&self, id: &Id) -> Option<usize> {
        self.ids.binary_search(id).ok()
    }

    fn id(&self, i: usize) -> Id {
        self.ids[i]
    }

    fn parent(&self, i: usize) -> Option<usize> {
        self.parents[i].map(|l| l.0)
    }

    /// The ancestors, nearest first.
    fn ancestors(&self, i: usize) -> Vec<usize> {
        std::iter::successors(self.parent(i), |p| self.parent(*p)).collect()
    }

    fn hidden(&self, i: usize) -> bool {
        self.data[i].has(HIDDEN) || self.ancestors(i).iter().any(|p| self.data[*p].has(HIDDEN))
    }

    fn own_transform(&self, i: usize) -> [f64; 6] {
        let d = self.data[i];
        if d.has(TRANSFORM) { d.transform.map(f64::from_bits) } else { [1.0, 0.0, 0.0, 1.0, 0.0, 0.0] }
    }

    /// The transform, and whether all numbers on the way are finite.
    fn transform(&self, i: usize) -> ([f64; 6], bool) {
        let mut t = self.own_transform(i);
        let mut finite = true;
        for p in self.ancestors(i) {
            t = product(self.own_transform(p), t, &mut finite);
        }
        (t, finite)
    }

    /// The box: none without bounds; with the word whether there are bounds and a number on the way is not finite.
    fn bounding_box(&self, i: usize) -> (Option<[f64; 4]>, bool) {
        if !self.data[i].has(BOUNDS) {
            return (None, false);
        }
        let [x0, y0, x1, y1] = self.data[i].bounds.map(f64::from_bits);
        let (t, mut finite) = self.transform(i);
        let corners = [(x0, y0), (x0, y1), (x1, y0), (x1, y1)].map(|(x, y)| image(t, x, y, &mut finite));
        if !finite {
            return (None, true);
        }
        let least = |k: usize| corners.iter().map(|c| c[k]).fold(f64::INFINITY, f64::min) + 0.0;
        let most = |k: usize| corners.iter().map(|c| c[k]).fold(f64::NEG_INFINITY, f64::max) + 0.0;
        (Some([least(0), least(1), most(0), most(1)]), false)
    }

    fn transparent(&self, i: usize) -> bool {
        self.data[i].has(GRAFT) || self.data[i].role < 2
    }

    fn base(&self, i: usize) -> Option<u8> {
        if self.focused == Some(i) {
            return Some(INCLUDE);
        }
        if self.hidden(i) {
            return Some(EXCLUDE_SUBTREE);
        }
        self.transparent(i).then_some(EXCLUDE_NODE)
    }

    /// What a filter says of a node.
    pub fn filter(&self, f: usize, i: usize) -> Told<u8> {
        let (answer, left_out) = match f {
            WITHOUT_PARENT_CHECKS => (self.base(i).unwrap_or(INCLUDE), None),
            WITH_ROOT_EXCEPTION if i == self.root => (INCLUDE, None),
            _ => self.common(i),
        };
        Told { answer, left_out }
    }

    fn common(&self, i: usize) -> (u8, Option<LeftOut>) {
        if let Some(known) = self.common.borrow()[i] {
            return known;
        }
        let found = self.judge(i);
        self.common.borrow_mut()[i] = Some(found);
        found
    }

    fn judge(&self, i: usize) -> (u8, Option<LeftOut>) {
        if let Some(r) = self.base(i) {
            return (r, None);
        }
        let mut left_out = None;
        if let Some(p) = self.parent(i) {
            let above = self.common(p);
            left_out = above.1;
            if above.0 == EXCLUDE_SUBTREE {
                return (EXCLUDE_SUBTREE, left_out);
            }
        }
        let (clipped, unsure) = self.clipped(i);
        (if clipped { EXCLUDE_SUBTREE } else { INCLUDE }, left_out.or(unsure))
    }

    /// The clip test, and whether the crate's own may differ.
    fn clipped(&self, i: usize) -> (bool, Option<LeftOut>) {
        let Some(p) = self.filtered_parent(WITHOUT_PARENT_CHECKS, i).answer else { return (false, None) };
        if !self.data[p].has(CLIPS) {
            return (false, None);
        }
        let ((own, wild), (clip, odd)) = (self.bounding_box(i), self.bounding_box(p));
        let unsure = (wild || odd).then_some(LeftOut::NotFinite);
        let (Some(own), Some(clip)) = (own, clip) else { return (false, unsure) };
        if !empty(own, clip) {
            return (false, unsure);
        }
        let mut left_out = unsure;
        for side in SIDES {
            let next = self.filtered_siblings(WITHOUT_PARENT_CHECKS, side, i).answer.first().copied();
            left_out = left_out.or(self.crate_step(WITHOUT_PARENT_CHECKS, side, i).1);
            let (near, strange) = next.map_or((None, false), |n| self.bounding_box(n));
            left_out = left_out.or(strange.then_some(LeftOut::NotFinite));
            if near.is_some_and(|near| !empty(near, clip)) {
                return (false, left_out);
            }
        }
        (true, left_out)
    }

    fn siblings(&self, side: usize, i: usize) -> Vec<usize> {
        let Some((p, at)) = self.parents[i] else { return vec![] };
        let all = &self.children[p];
        if side == 0 { all[at + 1..].to_vec() } else { all[..at].iter().rev().copied().collect() }
    }

    fn turned(&self, side: usize, i: usize) -> Vec<usize> {
        let mut run = self.children[i].clone();
        if side == 1 {
            run.reverse();
        }
        run
    }

    /// A run with ExcludeNode replaced by its own filtered children and ExcludeSubtree dropped.
    fn flat(&self, f: usize, side: usize, run: &[usize], unsure: &mut Option<LeftOut>) -> Vec<usize> {
        let mut out = vec![];
        for i in run {
            let told = self.filter(f, *i);
            *unsure = unsure.or(told.left_out);
            match told.answer {
                INCLUDE => out.push(*i),
                EXCLUDE_NODE => out.extend(self.flat(f, side, &self.turned(side, *i), unsure)),
                _ => {}
            }
        }
        out
    }

    fn filtered_children(&self, f: usize, i: usize) -> Told<Vec<usize>> {
        let mut left_out = None;
        let answer = self.flat(f, 0, &self.children[i], &mut left_out);
        for pair in answer.windows(2) {
            left_out = left_out.or(self.crate_step(f, 0, pair[0]).1);
        }
        Told { answer, left_out }
    }

    fn filtered_parent(&self, f: usize, i: usize) -> Told<Option<usize>> {
        let mut left_out = None;
        for p in self.ancestors(i) {
            let told = self.filter(f, p);
            left_out = left_out.or(told.left_out);
            if told.answer == INCLUDE {
                return Told { answer: Some(p), left_out };
            }
        }
        Told { answer: None, left_out }
    }

    fn filtered_siblings(&self, f: usize, side: usize, i: usize) -> Told<Vec<usize>> {
        let above = self.filtered_parent(f, i);
        let mut left_out = above.left_out;
        let Some(p) = above.answer else { return Told { answer: vec![], left_out } };
        if self.flat(f, 0, &self.children[p], &mut left_out).is_empty() {
            return Told { answer: vec![], left_out };
        }
        let mut answer = vec![];
        let mut from = i;
        loop {
            answer.extend(self.flat(f, side, &self.siblings(side, from), &mut left_out));
            let Some(p) = self.parent(from) else { break };
            let told = self.filter(f, p);
            left_out = left_out.or(told.left_out);
            if told.answer != EXCLUDE_NODE {
                break;
            }
            from = p;
        }
        Told { answer, left_out }
    }

    /// One step of the crate's `next_filtered_sibling` or its twin: where it goes, and whether it enters a dropped
    /// node or asks a filter whose answer may differ.
    fn crate_step(&self, f: usize, side: usize, i: usize) -> (Option<usize>, Option<LeftOut>) {
        let mut left_out = None;
        let mut asked = |i: usize| {
            let told = self.filter(f, i);
            left_out = left_out.or(told.left_out);
            told.answer
        };
        let mut current = i;
        let mut entered = false;
        let mut into = false;
        let mut last = EXCLUDE_NODE;
        let found = loop {
            let child = into.then(|| self.turned(side, current).first().copied()).flatten();
            if let Some(child) = child {
                entered |= last != EXCLUDE_NODE;
                let r = asked(child);
                (current, last, into) = (child, r, r == EXCLUDE_NODE);
                if r == INCLUDE {
                    break Some(current);
                }
            } else if let Some(next) = self.siblings(side, current).first().copied() {
                let r = asked(next);
                (current, last) = (next, r);
                if r == INCLUDE {
                    break Some(current);
                }
                into |= r == EXCLUDE_NODE;
            } else {
                let Some(p) = self.parent(current) else { break None };
                if asked(p) != EXCLUDE_NODE {
                    break None;
                }
                (current, into) = (p, false);
            }
        };
        (found, if entered { Some(LeftOut::SteppedIn) } else { left_out })
    }

    /// The crate's walk along a list: whether one of its steps may differ.
    fn crate_walk(&self, f: usize, side: usize, from: usize, list: &[usize]) -> Option<LeftOut> {
        let back = self.filtered_parent(f, from).answer.map(|p| self.flat(f, 0, &self.children[p], &mut None));
        let back = back.and_then(|c| if side == 0 { c.last().copied() } else { c.first().copied() });
        let mut left_out = None;
        let mut at = from;
        for _ in 0..=list.len() {
            let (next, why) = self.crate_step(f, side, at);
            left_out = left_out.or(why);
            match next {
                Some(n) if why.is_none() && next != back => at = n,
                _ => break,
            }
        }
        left_out
    }

    fn deepest(&self, f: usize, i: usize, last: bool) -> Told<Option<usize>> {
        let mut told = Told { answer: None, left_out: None };
        let mut at = i;
        loop {
            let run = self.flat(f, 0, &self.children[at], &mut told.left_out);
            let Some(next) = (if last { run.last() } else { run.first() }) else { return told };
            told.answer = Some(*next);
            at = *next;
        }
    }

    /// Every answer about a node, and what is left out of the comparison with the crate, by the part's name.
    pub fn answers(&self, i: usize) -> (Answers, Vec<(&'static str, usize, LeftOut)>) {
        let (bounding_box, wild) = self.bounding_box(i);
        let mut out = vec![];
        if wild {
            out.push(("box", 0, LeftOut::NotFinite));
        }
        let name = |i: usize| self.id(i);
        let names = |l: &[usize]| l.iter().map(|i| self.id(*i)).collect::<Vec<Id>>();
        let filtered = FILTERS.map(|f| {
            let mut part = |what, left_out: Option<LeftOut>| out.extend(left_out.map(|why| (what, f, why)));
            let result = self.filter(f, i);
            part("filter", result.left_out);
            let parent = self.filtered_parent(f, i);
            part("filtered parent", parent.left_out);
            let mut unsure = None;
            let run = self.flat(f, 0, &self.children[i], &mut unsure);
            part("first filtered child", unsure);
            part("last filtered child", unsure);
            let (deepest_first, deepest_last) = (self.deepest(f, i, false), self.deepest(f, i, true));
            part("deepest first", deepest_first.left_out);
            part("deepest last", deepest_last.left_out);
            let children = self.filtered_children(f, i);
            part("filtered children", children.left_out);
            let siblings = SIDES.map(|side| {
                let told = self.filtered_siblings(f, side, i);
                part(SIDE_PARTS[side], told.left_out.or(self.crate_walk(f, side, i, &told.answer)));
                names(&told.answer)
            });
            Filtered {
                result: result.answer,
                parent: parent.answer.map(name),
                first_child: run.first().map(|i| name(*i)),
                last_child: run.last().map(|i| name(*i)),
                deepest_first: deepest_first.answer.map(name),
                deepest_last: deepest_last.answer.map(name),
                children: names(&children.answer),
                siblings,
            }
        });
        let answers = Answers {
            parent: self.parent(i).map(name),
            children: names(&self.children[i]),
            hidden: self.hidden(i),
            transform: self.transform(i).0.map(bits),
            bounding_box,
            siblings: SIDES.map(|side| names(&self.siblings(side, i))),
            filtered,
        };
        (answers, out)
    }

    pub fn state(&self) -> &State {
        self.state
    }
}

pub const SIDE_PARTS: [&str; 2] = ["following filtered siblings", "preceding filtered siblings"];

fn root_of(s: &State, tree: Tid) -> Option<Id> {
    let number = s.number_of(tree)?;
    s.trees[number as usize].1.map(|(root, _)| (number, root))
}

/// The node that is focused for a filter.
fn focused(s: &State) -> Option<Id> {
    let at = s.effective_focus().filter(|_| s.host)?;
    let data = &s.nodes.get(&at)?.1;
    let active = (at.0, data.active);
    if !data.has(ACTIVE) || !s.nodes.contains_key(&active) {
        return Some(at);
    }
    (active != at).then_some(active)
}

/// A number's bits, every NaN alike.
pub fn bits(x: f64) -> u64 {
    if x.is_nan() { f64::NAN.to_bits() } else { x.to_bits() }
}

/// x, with a note if it is not finite.
fn noted(x: f64, finite: &mut bool) -> f64 {
    *finite &= x.is_finite();
    x
}

/// u·x + v·y and, with w, u·x + v·y + w: each operation rounds once, left to right.
fn linear(u: f64, x: f64, v: f64, y: f64, finite: &mut bool) -> f64 {
    let (a, b) = (noted(u * x, finite), noted(v * y, finite));
    noted(a + b, finite)
}

fn product(p: [f64; 6], q: [f64; 6], finite: &mut bool) -> [f64; 6] {
    let e = linear(p[0], q[4], p[2], q[5], finite) + p[4];
    let f = linear(p[1], q[4], p[3], q[5], finite) + p[5];
    [
        linear(p[0], q[0], p[2], q[1], finite),
        linear(p[1], q[0], p[3], q[1], finite),
        linear(p[0], q[2], p[2], q[3], finite),
        linear(p[1], q[2], p[3], q[3], finite),
        noted(e, finite),
        noted(f, finite),
    ]
}

fn image(t: [f64; 6], x: f64, y: f64, finite: &mut bool) -> [f64; 2] {
    let a = linear(t[0], x, t[2], y, finite) + t[4];
    let b = linear(t[1], x, t[3], y, finite) + t[5];
    [noted(a, finite), noted(b, finite)]
}

/// An intersection is empty when its width times its height, each cut at zero, is zero; NaN is not.
fn empty(b: [f64; 4], c: [f64; 4]) -> bool {
    let cut = |x: f64| if x > 0.0 { x } else { 0.0 };
    let width = cut(b[2].min(c[2]) - b[0].max(c[0]));
    let height = cut(b[3].min(c[3]) - b[1].max(c[1]));
    width * height == 0.0
}
