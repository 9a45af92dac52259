//! The driver's own tests of the rules: those of the batch record in document 01's order, and those of a sound state in
//! the order of include/cartgravel.h. Written from document 01 and request #101, in the order of crates/reasons/specs.
use crate::memory;
use calls::plain::{Data, Id, Link, NODES, ROOT, State, TREES, Tid};
use cartgravel::sys;
use std::collections::BTreeSet;

/// The first rule of the batch record that bytes break, and the offset of the bytes.
pub fn record_fault(bytes: &[u8]) -> Option<(u32, usize)> {
    let number =
        |at: usize, size: usize| bytes[at..at + size].iter().rev().fold(0u64, |n, b| n << 8 | *b as u64);
    if bytes.len() < 64 {
        return Some((1, bytes.len()));
    }
    let [nodes, entries, labels] = [0, 2, 4].map(|at| number(at, 2) as usize);
    let ends =
        [64, 64 + 128 * nodes, 64 + 128 * nodes + 8 * entries, 64 + 128 * nodes + 8 * entries + labels];
    let offset = |k: usize| number(8 + 4 * k, 4) as usize == ends[k];
    let total = number(20, 4) as usize;
    let header = [
        (2, 0, nodes <= 64),
        (3, 2, entries <= 256),
        (4, 4, labels <= 2048),
        (5, 6, number(6, 2) <= 1),
        (6, 8, offset(0)),
        (7, 12, offset(1)),
        (8, 16, offset(2)),
        (9, 20, offset(3)),
        (10, 20, bytes.len() == total),
        (11, 20, bytes.len() <= 12_352),
        (12, 40, number(6, 2) == 1 || number(40, 8) == 0),
        (13, 56, number(56, 8) == 0),
    ];
    let broken = |rules: &[(u32, usize, bool)]| rules.iter().find(|r| !r.2).map(|r| (r.0, r.1));
    if let Some(fault) = broken(&header) {
        return Some(fault);
    }
    let (mut children, mut letters) = (0, 0);
    for at in (0..nodes).map(|i| 64 + 128 * i) {
        let flags = bytes[at + 41];
        let clear = |flag: u8, from: usize, to: usize| {
            flags & flag != 0 || bytes[at + from..at + to].iter().all(|b| *b == 0)
        };
        let finite = |from: usize, to: usize| {
            (from..to).step_by(8).all(|k| f64::from_bits(number(at + k, 8)).is_finite())
        };
        let of_node = [
            (14, at + 42, number(at + 42, 6) == 0),
            (15, at + 38, number(at + 38, 2) <= 32),
            (16, at + 41, flags < 64),
            (17, at + 8, clear(4, 8, 16)),
            (18, at + 16, clear(8, 16, 32)),
            (19, at + 48, clear(16, 48, 80)),
            (20, at + 80, clear(32, 80, 128)),
            (21, at + 48, finite(48, 80)),
            (22, at + 80, finite(80, 128)),
            (23, at + 32, number(at + 32, 2) == children),
            (24, at + 36, number(at + 36, 2) == letters),
        ];
        if let Some(fault) = broken(&of_node) {
            return Some(fault);
        }
        children += number(at + 34, 2);
        letters += number(at + 38, 2);
    }
    broken(&[(25, 2, children == entries as u64), (26, 4, letters == labels as u64)])
}

/// A rule of a sound state that is broken, as the library tells it: what is not used is 0 or none.
#[derive(Clone, Copy, Debug, Default, PartialEq, Eq)]
pub struct Fault {
    pub rule: u32,
    pub place: usize,
    pub tree: Tid,
    pub node: Option<Id>,
    pub by: Option<Id>,
    pub also: Option<Id>,
}

/// Nodes by their slots, in any order, and the table of trees.
pub struct Shape {
    nodes: Vec<(Id, Link, Data)>,
    trees: Vec<(Tid, Option<(u64, u64)>)>,
}

impl Shape {
    pub fn of_state(s: &State) -> Shape {
        let nodes = s.nodes.iter().map(|(id, (link, d))| (*id, *link, d.clone())).collect();
        Shape { nodes, trees: s.trees.clone() }
    }

    /// What any memory shows, also with ids that do not ascend.
    pub fn of_memory(m: &sys::State) -> Shape {
        Shape { nodes: memory::nodes_shown(m), trees: memory::trees_shown(m) }
    }

    fn at(&self, id: Id) -> Option<&(Id, Link, Data)> {
        self.nodes.iter().find(|n| n.0 == id)
    }

    /// A tree's number, root and focus, if it exists.
    fn tree(&self, t: Tid) -> Option<(Id, Id)> {
        let k = self.trees.iter().position(|e| e.0 == t)?;
        self.trees[k].1.map(|(root, focus)| ((k as u32, root), (k as u32, focus)))
    }

    /// What is met one step below a node, under which parent and place.
    fn below(&self, n: &(Id, Link, Data)) -> Vec<(Id, (Id, u64))> {
        match n.2.graft() {
            Some(t) => self.tree(t).iter().map(|(root, _)| (*root, (n.0, 0))).collect(),
            None => (0..).zip(&n.2.children).map(|(i, c)| ((n.0.0, *c), (n.0, i))).collect(),
        }
    }

    /// Going down once from each node, from ROOT's root on: each node met, and under what.
    fn met(&self) -> Vec<(Id, Link)> {
        let Some((root, _)) = self.tree(ROOT) else { return vec![] };
        let mut met = vec![(root, None)];
        let (mut gone_down, mut ahead) = (BTreeSet::new(), vec![root]);
        while let Some(id) = ahead.pop() {
            if !gone_down.insert(id) {
                continue;
            }
            for n in self.nodes.iter().filter(|n| n.0 == id) {
                for (child, under) in self.below(n) {
                    met.push((child, Some(under)));
                    ahead.push(child);
                }
            }
        }
        met
    }

    /// The first rule for links and trees that is broken.
    pub fn broken(&self) -> Option<Fault> {
        let spot = |rule: u32, broken: &dyn Fn(&(Id, Link, Data)) -> bool| {
            let place = self.nodes.iter().position(broken)?;
            Some(Fault { rule, place, node: Some(self.nodes[place].0), ..Fault::default() })
        };
        let met = self.met();
        let times = |id: Id| met.iter().filter(|m| m.0 == id).count();
        let link = |id: Id| {
            // the first one in the order of slots
            let under = |m: &Link| m.map(|(p, _)| self.nodes.iter().position(|n| n.0 == p));
            let links = met.iter().filter(|m| m.0 == id).map(|m| m.1);
            links.min_by_key(|l| (under(l), *l)).flatten()
        };
        spot(3, &|n| n.2.children.len() > 256)
            .or_else(|| self.absence())
            .or_else(|| spot(5, &|n| times(n.0) > 1))
            .or_else(|| {
                let fault = spot(6, &|n| times(n.0) == 0)?;
                let (also, by) = self.topmost(fault.node?, &|id| times(id) == 0);
                Some(Fault { also, by, ..fault })
            })
            .or_else(|| {
                let fault = spot(7, &|n| n.1 != link(n.0))?;
                let recorded = self.nodes[fault.place].1;
                Some(Fault { by: recorded.map(|l| l.0), also: link(fault.node?).map(|l| l.0), ..fault })
            })
            .or_else(|| spot(8, &|n| n.2.graft().is_some() && !n.2.children.is_empty()))
            .or_else(|| self.grafted_twice())
            .or_else(|| self.trees())
            .or_else(|| {
                let place = (0..self.nodes.len())
                    .find(|i| self.nodes[i + 1..].iter().any(|m| m.0 <= self.nodes[*i].0))?;
                Some(Fault { rule: 13, place, node: Some(self.nodes[place].0), ..Fault::default() })
            })
    }

    /// The smallest id below a node that is absent, and the first node above it.
    fn absence(&self) -> Option<Fault> {
        let below = self.nodes.iter().flat_map(|n| self.below(n)).map(|m| m.0);
        let absent = below.filter(|id| self.at(*id).is_none()).min()?;
        let place = self.nodes.iter().position(|n| self.below(n).iter().any(|m| m.0 == absent))?;
        Some(Fault { rule: 4, place, node: Some(absent), by: Some(self.nodes[place].0), ..Fault::default() })
    }

    /// From a node that is never met up by the recorded parents while these are never met: the topmost, and its recorded
    /// parent. None where they go round in a circle.
    fn topmost(&self, from: Id, lost: &dyn Fn(Id) -> bool) -> (Option<Id>, Option<Id>) {
        let (mut at, mut passed) = (from, BTreeSet::new());
        while passed.insert(at) {
            let Some((parent, _)) = self.at(at).and_then(|n| n.1) else { return (Some(at), None) };
            if self.at(parent).is_none() || !lost(parent) {
                return (Some(at), Some(parent));
            }
            at = parent;
        }
        (None, None)
    }

    /// The first node whose tree a later one grafts too.
    pub fn grafted_twice(&self) -> Option<Fault> {
        self.nodes.iter().enumerate().find_map(|(place, n)| {
            let tree = n.2.graft()?;
            let other = self.nodes[place + 1..].iter().find(|m| m.2.graft() == Some(tree))?;
            Some(Fault { rule: 9, place, tree, node: Some(n.0), also: Some(other.0), ..Fault::default() })
        })
    }

    /// The rules for the table of trees.
    fn trees(&self) -> Option<Fault> {
        if !self.trees.first().is_some_and(|t| t.0 == ROOT && t.1.is_some()) {
            return Some(Fault { rule: 10, ..Fault::default() });
        }
        let of_tree =
            |rule: u32, place: usize| Fault { rule, place, tree: self.trees[place].0, ..Fault::default() };
        let repeated = |k: &usize| self.trees[..*k].iter().any(|t| t.0 == self.trees[*k].0);
        if let Some(k) = (0..self.trees.len()).find(repeated) {
            return Some(of_tree(11, k));
        }
        let unrooted = |k: &usize| {
            let (t, at) = self.trees[*k];
            let held = || *k == 0 || self.nodes.iter().any(|n| n.2.graft() == Some(t));
            at.is_some_and(|(root, _)| self.at((*k as u32, root)).is_none() || !held())
        };
        (0..self.trees.len()).find(unrooted).map(|k| of_tree(12, k))
    }

    /// The first rule of a sound state that is broken.
    pub fn unsound(&self) -> Option<Fault> {
        let rule = |rule: u32| Fault { rule, ..Fault::default() };
        if self.nodes.len() > NODES {
            return Some(rule(1));
        }
        if self.trees.len() > TREES {
            return Some(rule(2));
        }
        self.broken()
            .or_else(|| {
                let place = self.nodes.iter().position(|n| !n.2.fits())?;
                Some(Fault { place, node: Some(self.nodes[place].0), ..rule(14) })
            })
            .or_else(|| {
                let way = self.way();
                let last = way.last().and_then(|id| self.at(*id));
                (!last.is_some_and(|n| n.2.graft().is_none())).then(|| rule(15))
            })
    }

    /// From ROOT's focus through the grafts, while the nodes are there and their trees exist, at most one step for each tree.
    pub fn way(&self) -> Vec<Id> {
        let mut way: Vec<Id> = self.tree(ROOT).iter().map(|t| t.1).collect();
        while let Some(t) = way.last().and_then(|id| self.at(*id)).and_then(|n| n.2.graft()) {
            match self.tree(t) {
                Some((_, focus)) if way.len() <= self.trees.len() => way.push(focus),
                _ => break,
            }
        }
        way
    }

    /// The tree that a present node grafts.
    pub fn graft(&self, id: Id) -> Option<Tid> {
        self.at(id).and_then(|n| n.2.graft())
    }

    /// Whether a tree exists.
    pub fn exists(&self, t: Tid) -> bool {
        self.tree(t).is_some()
    }

    /// The root of ROOT.
    pub fn root(&self) -> Option<Id> {
        self.tree(ROOT).map(|t| t.0)
    }
}

#[cfg(test)]
mod tests {
    use super::*;
    use calls::cases;
    use calls::plain::Batch;

    fn s() -> State {
        cases::states().s.plain
    }

    fn broken(s: &State) -> Fault {
        assert!(!s.sound());
        Shape::of_state(s).unsound().unwrap()
    }

    #[test]
    fn sound_states_break_no_rule() {
        let on = cases::states();
        for held in [on.s, on.held, on.filled, on.deep, on.nested, on.below] {
            assert_eq!(Shape::of_state(&held.plain).unsound(), None);
        }
    }

    #[test]
    fn rules_of_links() {
        let mut absent = s();
        absent.nodes.remove(&(0, 3));
        assert_eq!(
            broken(&absent),
            Fault { rule: 4, node: Some((0, 3)), by: Some((0, 1)), ..Fault::default() }
        );
        let mut twice = s();
        twice.nodes.get_mut(&(0, 3)).unwrap().1.children = vec![2];
        assert_eq!(broken(&twice), Fault { rule: 5, place: 1, node: Some((0, 2)), ..Fault::default() });
        let mut never = s();
        never.nodes.get_mut(&(0, 1)).unwrap().1.children = vec![2];
        let three = Some((0, 3));
        assert_eq!(
            broken(&never),
            Fault { rule: 6, place: 2, node: three, also: three, by: Some((0, 1)), ..Fault::default() }
        );
        let mut link = s();
        link.nodes.get_mut(&(0, 2)).unwrap().0 = Some(((0, 3), 0));
        let (by, also) = (three, Some((0, 1)));
        assert_eq!(
            broken(&link),
            Fault { rule: 7, place: 1, node: Some((0, 2)), by, also, ..Fault::default() }
        );
    }

    #[test]
    fn a_label_of_33_bytes() {
        let mut d = cases::leaf(1);
        d.1.label = vec![0; 33];
        let batch = Batch { tree: ROOT, root: None, focus: 1, nodes: vec![cases::leaf(2), d] };
        assert_eq!(record_fault(&batch.encode()), Some((15, 64 + 128 + 38)));
    }
}
