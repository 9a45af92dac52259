//! The questions of modules 6 to 8 and those about a state: the linked library against document 01's definitions on a
//! plain state, and these against the crate's real source but for what document 01's Domain leaves out.
mod shares;

use crate::ask::{Answer, Question, all, found, full, optional, stepped};
use crate::damage;
use crate::memory;
use crate::tally::Pair;
use crate::text;
use calls::judge::{Held, held};
use calls::make::{Rng, World};
use calls::model::{Answers, LeftOut, Model};
use calls::plain::{Id, State, TREES};
use calls::screens::screen;
use cartgravel::TreeId;
use cartgravel::sys::{self, PlainCounts, PlainEnds, PlainIndex, PlainTreeId, Walk};
use std::collections::{BTreeMap, HashSet};
use std::hash::{DefaultHasher, Hash, Hasher};
use std::time::{Duration, Instant};

/// A question's name and its filter, 0 where it has none.
type Key = (&'static str, u32);

/// What was asked so far. The choices here are its own, so that they change no call.
pub struct Asked {
    r: Rng,
    /// Answers compared with the definitions, by number; and the definitions' with the crate's.
    numbers: BTreeMap<(Key, u32), u64>,
    crates: BTreeMap<Key, u64>,
    left_out: BTreeMap<(Key, LeftOut), u64>,
    shown: BTreeMap<&'static str, u64>,
    screens: u64,
    states: u64,
    nodes: u64,
    pub differences: u64,
    shortest: Option<String>,
    met: HashSet<u64>,
    spent: Duration,
}

impl Default for Asked {
    fn default() -> Asked {
        Asked::new(1)
    }
}

/// Of a state with more nodes so many are asked about.
const SAMPLE: usize = 12;
/// A longer walk is not gone through from its start to its end.
const LONG: usize = 12;

impl Asked {
    /// Nothing was asked.
    pub fn new(seed: u64) -> Asked {
        let none = Default::default;
        Asked {
            r: Rng(seed ^ 0x0a5c_ed00),
            numbers: none(),
            crates: BTreeMap::new(),
            left_out: BTreeMap::new(),
            shown: BTreeMap::new(),
            screens: 0,
            states: 0,
            nodes: 0,
            differences: 0,
            shortest: None,
            met: HashSet::new(),
            spent: Duration::ZERO,
        }
    }

    /// Answers compared with the definitions.
    fn asked(&self) -> u64 {
        self.numbers.values().sum()
    }

    /// So many made screens, some with a damaged copy; one in sixteen has up to 256 nodes.
    pub fn screens(&mut self, count: u64) {
        for _ in 0..count {
            let round = self.screens;
            self.screens += 1;
            let most = if round % 16 == 0 { 256 } else { 24 };
            let pair = Pair::new(held(screen(&mut self.r, most)));
            self.pair(&pair);
            if round % 8 == 1 {
                let w = World::new(&mut self.r);
                let memory = damage::damaged(&mut self.r, &w, &pair);
                self.memory(&memory);
            }
        }
    }

    /// A state that both sides hold.
    pub fn pair(&mut self, pair: &Pair) {
        let begun = Instant::now();
        self.sound(&pair.memory, &pair.held);
        self.spent += begun.elapsed();
    }

    /// The same, unless it was asked about before.
    pub fn new_pair(&mut self, pair: &Pair) {
        let mut h = DefaultHasher::new();
        pair.memory.words.hash(&mut h);
        if self.met.insert(h.finish()) {
            self.pair(pair);
        }
    }

    /// Any memory: every answer is 1 unless the state that it shows is sound.
    pub fn memory(&mut self, m: &sys::State) {
        let begun = Instant::now();
        self.any_memory(m);
        self.spent += begun.elapsed();
    }

    fn any_memory(&mut self, m: &sys::State) {
        let shown = memory::shown(m);
        self.show("a state's memory changed", true);
        if let Some(s) = shown.clone().filter(State::sound) {
            self.show("a state's memory changed, and the state is sound", true);
            return self.sound(m, &held(s));
        }
        let ids: Vec<Id> = shown.iter().flat_map(|s| s.nodes.keys().copied()).collect();
        let id = if ids.is_empty() || self.r.chance(20) { (0, 1) } else { self.r.pick(&ids) };
        for q in all().into_iter().chain(unknown()) {
            self.refusal(m, shown.as_ref(), q, id, 1);
        }
        self.whole(m, None, shown.as_ref());
    }

    /// Every question about a sound state and its nodes, or some of them.
    fn sound(&mut self, m: &sys::State, h: &Held) {
        let s = &h.plain;
        let model = Model::new(s);
        self.states += 1;
        self.whole(m, Some(s), Some(s));
        let count = model.ids().len();
        let nodes: Vec<usize> = match count {
            0..=SAMPLE => (0..count).collect(),
            _ => (0..SAMPLE).map(|_| self.r.below(count)).collect(),
        };
        for i in nodes {
            self.node(m, h, &model, i);
        }
        let id = self.absent(s);
        for q in all() {
            self.refusal(m, Some(s), q, id, 22);
        }
        for q in unknown() {
            let of = if self.r.chance(20) { id } else { self.r.pick(model.ids()) };
            self.refusal(m, Some(s), q, of, 2);
        }
    }

    /// Every question about one node.
    fn node(&mut self, m: &sys::State, h: &Held, model: &Model, i: usize) {
        let (s, id) = (&h.plain, model.ids()[i]);
        let data = &s.nodes[&id].1;
        let (due, left_out) = model.answers(i);
        let crates = calls::ask::answers(&h.inner, id);
        self.nodes += 1;
        for q in all() {
            self.question(m, s, q, id, q.due(&due, data));
            if !q.is_the_crates() {
                continue;
            }
            let (name, f) = q.key();
            let why = left_out.iter().find(|o| o.0 == name && o.1 as u32 + 1 == f.max(1));
            if let Some(o) = why {
                *self.left_out.entry(((name, f), o.2)).or_default() += 1;
                continue;
            }
            *self.crates.entry((name, f)).or_default() += 1;
            let given = q.due(&crates, data);
            self.note(given != q.due(&due, data), || {
                format!(
                    "the crate: {q:?} of {id:?}\n  defined: {:?}\n  the crate: {given:?}\n  on {}",
                    q.due(&due, data),
                    text::state(s)
                )
            });
        }
        self.show_node(&due);
    }

    /// One question of the library, with a slice of the length that is needed or a longer one; and one too short.
    fn question(&mut self, m: &sys::State, s: &State, q: Question, id: Id, due: Answer) {
        if let (Question::Walk(filter, side), Answer::Nodes(list)) = (q, &due)
            && list.len() > LONG
        {
            return self.long_walk(m, s, (filter, side), id, list);
        }
        let room = q.room(&due);
        let more = if self.r.chance(50) { 0 } else { 1 + self.r.below(40) };
        self.compare(Some(s), q, id, 0, &due, q.asked(m, id, room.unwrap_or(0) + more));
        self.show("a slice of exactly the needed length", room.is_some_and(|n| n > 0) && more == 0);
        if let Some(n) = room.filter(|n| *n > 0)
            && self.r.chance(30)
        {
            let short = if self.r.chance(70) { n - 1 } else { self.r.below(n) };
            self.compare(Some(s), q, id, 21, &Answer::Refused(21), q.asked(m, id, short));
            self.show("a slice one shorter than needed: 21", short == n - 1);
        }
    }

    /// A walk over a long list, begun anew at some places of it.
    fn long_walk(&mut self, m: &sys::State, s: &State, (filter, side): (u32, u32), id: Id, list: &[Id]) {
        let n = list.len();
        for count in [0, self.r.below(n), n - 1, n, usize::MAX] {
            let mut walk = Walk { node: full(id), side, filter, count: count as u64 };
            let due = Answer::Node(list.get(count).copied());
            self.compare(Some(s), Question::Walk(filter, side), id, 0, &due, stepped(m, &mut walk));
        }
    }

    /// A question that is refused with this number.
    fn refusal(&mut self, m: &sys::State, s: Option<&State>, q: Question, id: Id, number: u32) {
        let room = self.r.pick(&[0, 1, 2, 7, 40, 512]);
        self.compare(s, q, id, number, &Answer::Refused(number), q.asked(m, id, room));
    }

    fn compare(&mut self, s: Option<&State>, q: Question, id: Id, number: u32, due: &Answer, given: Answer) {
        let (name, f) = q.key();
        let key = (name, if number == 2 || f > 3 { 0 } else { f });
        *self.numbers.entry((key, number)).or_default() += 1;
        self.note(given != *due, || {
            format!(
                "{q:?} of {id:?}\n  due: {due:?}\n  given: {given:?}\n  on {}",
                s.map_or("ids out of order".into(), text::state)
            )
        });
    }

    /// The questions about the state; `s` is none where it is not sound.
    fn whole(&mut self, m: &sys::State, s: Option<&State>, shown: Option<&State>) {
        let number = s.is_none() as u32;
        let node = |id: Option<Id>| if s.is_some() { Answer::Node(id) } else { Answer::Refused(1) };
        let root = s.and_then(|s| s.trees[0].1.map(|at| (0, at.0)));
        self.equal("focus", number, shown, node(s.and_then(State::focus)), found(m.focus()));
        self.equal("root", number, shown, node(root), found(m.root()));
        let counts = s.map_or(PlainCounts { number, ..Default::default() }, |s| PlainCounts {
            nodes: s.nodes.len(),
            trees: s.trees.len(),
            host_focused: s.host.into(),
            number,
        });
        self.equal("counts", number, shown, counts, m.counts());
        let trees = s.map_or(1, |s| s.trees.len() as u32);
        for k in (0..=trees).chain([TREES as u32, u32::MAX]) {
            self.tree(m, s, shown, k);
        }
        for k in 0..=trees {
            let known = s.and_then(|s| s.trees.get(k as usize)).map(|t| t.0);
            let id = known.unwrap_or((self.r.next(), 7));
            let due = known.map_or((0, 0), |_| (k, 1));
            let due = PlainIndex { index: due.0, present: due.1, number };
            self.equal("tree index", number, shown, due, m.tree_index(TreeId { high: id.0, low: id.1 }));
        }
    }

    /// The questions about the tree with a number.
    fn tree(&mut self, m: &sys::State, s: Option<&State>, shown: Option<&State>, k: u32) {
        let number = s.is_none() as u32;
        let row = s.and_then(|s| s.trees.get(k as usize));
        let id = row.map_or(TreeId::ROOT, |t| TreeId { high: t.0.0, low: t.0.1 });
        let due = PlainTreeId { id, present: row.is_some().into(), number };
        self.equal("tree id", number, shown, due, m.tree_id(k));
        let ends = row.and_then(|t| t.1);
        let end = |n: Option<u64>| optional(n.map(|n| (k, n)));
        let due = PlainEnds { root: end(ends.map(|e| e.0)), focus: end(ends.map(|e| e.1)), number };
        self.equal("tree ends", number, shown, due, m.tree_ends(k));
    }

    fn equal<T: PartialEq + std::fmt::Debug>(
        &mut self,
        name: &'static str,
        number: u32,
        s: Option<&State>,
        due: T,
        given: T,
    ) {
        *self.numbers.entry(((name, 0), number)).or_default() += 1;
        self.note(given != due, || {
            format!(
                "{name}\n  due: {due:?}\n  given: {given:?}\n  on {}",
                s.map_or("ids out of order".into(), text::state)
            )
        });
    }

    /// An id that is not in the state: another number, another tree, or none of either.
    fn absent(&mut self, s: &State) -> Id {
        loop {
            let tree = self.r.pick(&[0, 0, 1, s.trees.len() as u32, 32, u32::MAX]);
            let id = (tree, if self.r.chance(50) { self.r.below(12) as u64 } else { self.r.next() });
            if !s.nodes.contains_key(&id) {
                return id;
            }
        }
    }

    /// A walk that began on one state goes on in a later one.
    pub fn later(&mut self, before: &State, after: &Pair) {
        let begun = Instant::now();
        self.walk_on(before, after);
        self.spent += begun.elapsed();
    }

    fn walk_on(&mut self, before: &State, after: &Pair) {
        let old = Model::new(before);
        let linked: Vec<usize> =
            (0..old.ids().len()).filter(|i| before.nodes[&old.ids()[*i]].0.is_some()).collect();
        if linked.is_empty() {
            return;
        }
        let i = self.r.pick(&linked);
        let (filter, side) = (self.r.below(4) as u32, self.r.below(2) as u32);
        let q = Question::Walk(filter, side);
        let id = old.ids()[i];
        let Answer::Nodes(had) = q.due(&old.answers(i).0, &before.nodes[&id].1) else { return };
        if had.is_empty() && self.r.chance(80) {
            return;
        }
        let count = self.r.below(had.len() + 1);
        let new = Model::new(&after.held.plain);
        let due = match new.place(&id) {
            None => Answer::Refused(22),
            Some(at) => match q.due(&new.answers(at).0, &after.held.plain.nodes[&id].1) {
                Answer::Nodes(list) => Answer::Node(list.get(count).copied()),
                other => other,
            },
        };
        let mut walk = Walk { node: full(id), side, filter, count: count as u64 };
        let given = stepped(&after.memory, &mut walk);
        let number = if due == Answer::Refused(22) { 22 } else { 0 };
        self.show("a walk on a later state: its node is gone", number == 22);
        self.show(
            "a walk on a later state: the list is shorter, the end",
            due == Answer::Node(None) && count < had.len(),
        );
        let same = Answer::Node(had.get(count).copied());
        self.show(
            "a walk on a later state: another node",
            number == 0 && due != Answer::Node(None) && due != same,
        );
        self.compare(Some(&after.held.plain), q, id, number, &due, given);
    }

    fn show(&mut self, what: &'static str, holds: bool) {
        *self.shown.entry(what).or_default() += holds as u64;
    }

    /// What the answers about a node show.
    fn show_node(&mut self, a: &Answers) {
        self.show("a box", a.bounding_box.is_some());
        self.show("hidden", a.hidden);
        for f in &a.filtered {
            self.show("a filter's Include", f.result == 0);
            self.show("a filter's ExcludeNode", f.result == 1);
            self.show("a filter's ExcludeSubtree", f.result == 2);
            self.show("filtered children that are not the children", f.children != a.children);
        }
        let [common, _, own] = &a.filtered;
        self.show(
            "the common filter drops what its own checks include",
            (common.result, own.result) == (2, 0),
        );
    }

    /// Counts a difference; the first is described at once, the shortest at the end.
    fn note(&mut self, differs: bool, said: impl Fn() -> String) {
        if !differs {
            return;
        }
        self.differences += 1;
        let said = said();
        if self.differences == 1 {
            println!("question {}, the first that differs\n{said:.3000}", self.asked());
        }
        if self.shortest.as_ref().is_none_or(|s| said.len() < s.len()) {
            self.shortest = Some(said);
        }
    }
}

/// Questions with a side or a filter that is none.
fn unknown() -> Vec<Question> {
    use Question::*;
    let mut out = vec![];
    for odd in [4, 9, u32::MAX] {
        out.extend([Filter(odd), FilteredParent(odd), FirstChild(odd), LastChild(odd), DeepestFirst(odd)]);
        out.extend([
            DeepestLast(odd),
            FilteredChildren(odd),
            FilteredSiblings(odd, 0),
            FilteredSiblings(1, odd),
        ]);
        out.extend([Walk(odd, 1), Walk(0, odd), Walk(3, odd), Siblings(odd), FilteredSiblings(odd, odd)]);
    }
    out.extend([Filter(0), FilteredParent(0), FirstChild(0), LastChild(0), DeepestFirst(0), DeepestLast(0)]);
    out.extend([
        FilteredChildren(0),
        FilteredSiblings(0, 0),
        FilteredSiblings(3, 2),
        Walk(2, 2),
        Siblings(2),
    ]);
    out
}
