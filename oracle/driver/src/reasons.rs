//! Asks the library why a call gets its number, and tests on the driver's side that the reason makes the row hold: on the
//! batch, the state before it and the outcome that the crate leaves behind, which it also does where it panics.
use crate::memory;
use crate::rules::{Fault, Shape, record_fault};
use calls::judge::{Call, Held, Input, judge, left};
use calls::make::filler;
use calls::plain::{Batch, Data, Id, ROOT, State, TREES, Tid};
use cartgravel::sys::{self, Explanation, OptionalId};
use cartgravel::{CHANGES, NODES, TreeId, WAY_WORDS};
use std::collections::{BTreeMap, BTreeSet};

/// What the library said, and the words of the way.
pub struct Why {
    pub said: Explanation,
    way: [u64; WAY_WORDS],
    /// The call wrote to a state that it was lent to read, or left more than zeros where it worked.
    strayed: bool,
}

/// Asks why a start or a batch gets its number. The way's words and a start's memory are littered before.
pub fn ask(on: Option<&sys::State>, input: &Input, room: usize) -> Why {
    let mut way = [0x5eed_f00d_cafe_0003; WAY_WORDS];
    let mut memory = on.map_or_else(memory::littered, |on| Box::new(on.clone()));
    let said = match on {
        Some(_) => memory.explain(&input.bytes(), room, &mut way),
        None => memory.explain_start(&input.bytes(), &mut way),
    };
    let strayed = on.map_or_else(|| memory.words != [0; _], |on| *memory != *on);
    Why { said, way, strayed }
}

/// The reasons by number and rule.
#[derive(Default)]
pub struct Reasons {
    /// How many batches, starts, and calls on changed memory.
    kinds: BTreeMap<(u32, u32), [u64; 3]>,
    pub wrong: u64,
    /// The shortest description of a false reason, by number and rule, and how many there are.
    shortest: BTreeMap<(u32, u32), (u64, String)>,
}

impl Reasons {
    /// Counts a reason: 0 of a batch, 1 of a start, 2 of a batch on changed memory.
    pub fn count(&mut self, why: &Why, kind: usize) {
        self.kinds.entry((why.said.number, why.said.rule)).or_default()[kind] += 1;
    }

    /// Counts a reason that is false; `at` says which call it is of.
    pub fn note(&mut self, why: &Why, fault: &str, at: u64, call: String) {
        self.wrong += 1;
        let way: Vec<u64> = why.way.iter().copied().take_while(|w| *w != 0).collect();
        let said = format!("{fault}: {call}\n  said: {:?}, way {way:?}", why.said);
        if self.wrong == 1 {
            println!("call {at}, the first whose reason is false\n{said}");
        }
        let row = self.shortest.entry((why.said.number, why.said.rule)).or_insert((0, said.clone()));
        row.0 += 1;
        if said.len() < row.1.len() {
            row.1 = said;
        }
    }

    /// Prints the reasons by kind, and those that are false. Answers whether none is.
    pub fn report(&self) -> bool {
        println!("\nreasons\nnumber  rule  batches  starts  on changed memory");
        for ((number, rule), [batches, starts, damaged]) in &self.kinds {
            println!("{number:6}  {rule:4}  {batches:7}  {starts:6}  {damaged:17}");
        }
        let all: u64 = self.kinds.values().flatten().sum();
        println!("{all} reasons tested; {} are false", self.wrong);
        for ((number, rule), (count, said)) in &self.shortest {
            println!("\n{count} false reasons of {number}, rule {rule}; the shortest\n{said}");
        }
        self.wrong == 0
    }
}

/// A start or a batch that was judged, and what its reason is tested on.
pub struct Judged<'a> {
    /// The number that the call gets.
    pub number: u8,
    /// The state before, on the crate's side; none of a start.
    pub before: Option<&'a Held>,
    pub input: &'a Input,
    /// How many elements are lent.
    pub room: usize,
}

/// Which fields a reason uses.
const PLACE: u8 = 1;
const OTHER: u8 = 2;
const TREE: u8 = 4;
const NODE: u8 = 8;
const BY: u8 = 16;
const ALSO: u8 = 32;
const RULE: u8 = 64;

/// What is wrong with a reason, if anything is.
type Test = Result<(), &'static str>;

fn test(holds: bool, what: &'static str) -> Test {
    if holds { Ok(()) } else { Err(what) }
}

/// The id, if it is one; what is not one is zeros.
fn id(x: OptionalId) -> Option<Id> {
    (x.present != 0).then_some((x.tree, x.node))
}

fn tid(t: TreeId) -> Tid {
    (t.high, t.low)
}

impl Why {
    /// Tests the reason of a call on a sound state, or of a start.
    pub fn holds(&self, call: &Judged) -> Test {
        self.common(call.number)?;
        let number = call.number;
        match number {
            0 => return Ok(()),
            2 => {
                let due = record_fault(&call.input.bytes());
                return test(due == Some((self.said.rule, self.said.place)), "2: another rule or offset");
            }
            _ => {}
        }
        let batch = call.input.read().ok_or("a record that cannot be read gets another number")?;
        match number {
            3 => return test(call.before.is_none() && batch.root.is_none(), "3"),
            4 => {
                let due = call.before.is_none() && batch.tree != ROOT;
                return test(due && tid(self.said.tree) == batch.tree, "4: another tree");
            }
            _ => {}
        }
        let row = Row::new(self, call, &batch);
        match number {
            5 => row.listed_twice(),
            6..=8 => row.of_tree(number),
            9 => row.named_twice(),
            10 | 11 => row.wrong_graft(number),
            12 if self.said.rule == 1 => row.claimed_twice(),
            12 => row.claimed_from_holder(),
            13 => row.without_place(),
            14 => row.child_nowhere(),
            15..=17 => row.focus(number),
            18 => row.updated_and_gone(),
            19 => row.unsound(),
            20 => row.too_many(),
            21 => row.too_short(call),
            _ => Err("no number of a batch"),
        }
    }

    /// Tests the reason of a call on memory that is not sound.
    pub fn holds_unsound(&self, memory: &sys::State) -> Test {
        self.common(1)?;
        test(Some(self.fault()) == Shape::of_memory(memory).unsound(), "1: another rule or node")
    }

    /// The number, nothing written astray, what is not used 0, and the way of 15 and 17 alone.
    fn common(&self, number: u8) -> Test {
        test(self.said.number == u32::from(number), "another number")?;
        test(!self.strayed, "the state was written to, or the memory is not blank")?;
        let used = match (number, self.said.rule) {
            (0 | 3, _) => 0,
            (1 | 19, rule) => return self.common_of_rule(rule),
            (2, _) => RULE | PLACE,
            (4 | 6..=8, _) => TREE,
            (5, _) => PLACE | OTHER | NODE,
            (9, _) => NODE | BY | ALSO,
            (10 | 11 | 16, _) => NODE,
            (12, _) => RULE | TREE | NODE | ALSO,
            (13, _) => PLACE | NODE,
            (14, _) => NODE | BY,
            (15, _) => PLACE | TREE | NODE,
            (17, _) => PLACE | NODE,
            (18, _) => NODE | BY | ALSO,
            (20, _) => PLACE,
            _ => PLACE | OTHER,
        };
        self.uses(used)?;
        test([15, 17].contains(&number) || self.way == [0; _], "a way of another number")
    }

    /// The same of a broken rule, of which there must be one.
    fn common_of_rule(&self, rule: u32) -> Test {
        let used = match rule {
            1 | 2 | 10 | 15 => 0,
            3 | 5 | 8 | 13 | 14 => PLACE | NODE,
            4 => PLACE | NODE | BY,
            6 | 7 => PLACE | NODE | BY | ALSO,
            9 => PLACE | TREE | NODE | ALSO,
            11 | 12 => PLACE | TREE,
            _ => return Err("no rule was found"),
        };
        self.uses(used | RULE)?;
        test(self.way == [0; _], "a way of another number")
    }

    /// Every other field is 0 or none.
    fn uses(&self, used: u8) -> Test {
        let w = &self.said;
        let none = OptionalId::default();
        let unused = [
            (PLACE, w.place == 0),
            (OTHER, w.other == 0),
            (TREE, w.tree == TreeId::ROOT),
            (NODE, w.node == none),
            (BY, w.by == none),
            (ALSO, w.also == none),
            (RULE, w.rule == 0),
        ];
        test(
            unused.iter().all(|(field, zero)| used & field != 0 || *zero),
            "a field that is not used is not 0",
        )?;
        let nodes = [w.node, w.by, w.also];
        test(
            nodes.iter().all(|x| x.present <= 1 && (x.present == 1 || *x == none)),
            "a node that is none is not 0",
        )
    }

    /// The rule of a sound state that is told.
    fn fault(&self) -> Fault {
        let w = &self.said;
        let (node, by, also) = (id(w.node), id(w.by), id(w.also));
        Fault { rule: w.rule, place: w.place, tree: tid(w.tree), node, by, also }
    }
}

/// A reason with the batch that it is of.
struct Row<'a> {
    why: &'a Explanation,
    way: &'a [u64],
    batch: &'a Batch,
    /// The state before: of a start the empty one.
    before: State,
    held: Option<&'a Held>,
    /// The number of the batch's tree.
    tree: u32,
    node: Option<Id>,
    by: Option<Id>,
    also: Option<Id>,
}

impl<'a> Row<'a> {
    fn new(why: &'a Why, call: &Judged<'a>, batch: &'a Batch) -> Row<'a> {
        let empty = || State { trees: vec![(ROOT, None)], ..State::default() };
        let before = call.before.map_or_else(empty, |h| h.plain.clone());
        let tree = before.number_of(batch.tree).unwrap_or(before.trees.len() as u32);
        let w = &why.said;
        let (node, by, also) = (id(w.node), id(w.by), id(w.also));
        Row { why: w, way: &why.way, batch, before, held: call.before, tree, node, by, also }
    }

    fn here(&self, n: u64) -> Id {
        (self.tree, n)
    }

    /// The place among the listed nodes.
    fn turn(&self, x: Id) -> Option<usize> {
        self.batch.nodes.iter().position(|n| self.here(n.0) == x)
    }

    /// The data with which a node is listed.
    fn listed(&self, x: Id) -> Option<&Data> {
        self.turn(x).map(|i| &self.batch.nodes[i].1)
    }

    /// Who names whom, in the order of the batch.
    fn names(&self) -> Vec<(Id, Id)> {
        let of = |(n, d): &(u64, Data)| {
            d.children.iter().map(|c| (self.here(*n), self.here(*c))).collect::<Vec<_>>()
        };
        self.batch.nodes.iter().flat_map(of).collect()
    }

    fn is_named(&self, x: Id) -> bool {
        self.names().iter().any(|n| n.1 == x)
    }

    /// The root that the batch gives its tree, or that it has.
    fn root(&self) -> Option<Id> {
        let old = self.before.trees.get(self.tree as usize).and_then(|t| t.1).map(|t| t.0);
        self.batch.root.or(old).map(|r| self.here(r))
    }

    /// The tree that a node grafts in the batch and did not graft before.
    fn claim(&self, x: Id) -> Option<Tid> {
        let old = self.before.nodes.get(&x).and_then(|n| n.1.graft());
        self.listed(x).and_then(Data::graft).filter(|t| Some(*t) != old)
    }

    /// The state that the crate leaves behind, and what it says.
    fn left(&self) -> (State, String) {
        let (state, said) = left(self.held, self.batch);
        (state, said.unwrap_or_default())
    }

    fn said(&self, words: String) -> Test {
        test(self.left().1.starts_with(&words), "the crate's message names another node or tree")
    }

    fn listed_twice(&self) -> Test {
        let numbers: Vec<u64> = self.batch.nodes.iter().map(|n| n.0).collect();
        let again = (0..numbers.len())
            .find(|j| numbers[..*j].contains(&numbers[*j]))
            .ok_or("5: none is listed twice")?;
        let first = numbers.iter().position(|n| *n == numbers[again]);
        test(self.node == Some(self.here(numbers[again])), "5: another node")?;
        test((self.why.place, Some(self.why.other)) == (again, first), "5: other places")
    }

    fn of_tree(&self, number: u8) -> Test {
        let t = self.batch.tree;
        test(tid(self.why.tree) == t && t != ROOT, "6, 7, 8: another tree")?;
        let known = self.before.number_of(t);
        let exists = known.is_some_and(|k| self.before.trees[k as usize].1.is_some());
        let held = self.before.grafts().iter().any(|g| g.0 == t);
        match number {
            6 => test(self.batch.root.is_some() && !held, "6: there is a graft, or no tree data"),
            7 => test(self.batch.root.is_none() && !exists, "7: the tree exists, or there is tree data"),
            _ => test(known.is_none() && self.before.trees.len() == TREES, "8: there is a number"),
        }
    }

    fn named_twice(&self) -> Test {
        let names = self.names();
        let child = self.node.ok_or("9: no child")?;
        let namers: Vec<Id> = names.iter().filter(|n| n.1 == child).map(|n| n.0).collect();
        test(namers.len() > 1, "9: not named twice")?;
        test((self.also, self.by) == (Some(namers[0]), Some(namers[1])), "9: other namers")?;
        self.said(format!("TreeUpdate includes duplicate child NodeId({})", child.1))
    }

    /// The listed nodes that get a place in the pass, in the order in which they do.
    fn placed(&self) -> Vec<Id> {
        let mut present: BTreeSet<Id> = self.before.nodes.keys().copied().collect();
        let (mut nodes, mut children, mut placed) = (BTreeSet::new(), BTreeSet::new(), vec![]);
        for (n, d) in &self.batch.nodes {
            for c in d.children.iter().map(|c| self.here(*c)) {
                if nodes.remove(&c) {
                    present.insert(c);
                    placed.push(c);
                } else if !present.contains(&c) {
                    children.insert(c);
                }
            }
            let x = self.here(*n);
            if present.contains(&x) || children.contains(&x) || self.root() == Some(x) {
                present.insert(x);
                placed.push(x);
            } else {
                nodes.insert(x);
            }
        }
        placed
    }

    /// 10 to 12 of the first node placed that has one of them, and the node that claimed its tree before.
    fn placing(&self) -> Option<(u8, Id, Option<Id>)> {
        let placed = self.placed();
        placed.iter().enumerate().find_map(|(i, x)| {
            let d = self.listed(*x)?;
            if d.graft().is_some() && !d.children.is_empty() {
                return Some((10, *x, None));
            }
            let t = self.claim(*x)?;
            if t == ROOT {
                return Some((11, *x, None));
            }
            let earlier = placed[..i].iter().copied().find(|y| self.claim(*y) == Some(t))?;
            Some((12, *x, Some(earlier)))
        })
    }

    fn wrong_graft(&self, number: u8) -> Test {
        let x = self.node.ok_or("10, 11: no node")?;
        let d = self.listed(x).ok_or("10, 11: not listed")?;
        test(self.placing() == Some((number, x, None)), "10, 11: not the first node placed")?;
        if number == 11 {
            test(d.graft() == Some(ROOT) && d.children.is_empty(), "11: no graft of ROOT")?;
            return self.said("Cannot graft the root tree".into());
        }
        test(d.graft().is_some() && !d.children.is_empty(), "10: no graft over children")?;
        self.said(format!("Node NodeId({}) has both", x.1))
    }

    fn claimed_twice(&self) -> Test {
        let t = tid(self.why.tree);
        let (first, then) = self.also.zip(self.node).ok_or("12: no nodes")?;
        test(first != then, "12: one node")?;
        test(self.claim(first) == Some(t) && self.claim(then) == Some(t), "12: one does not claim the tree")?;
        test(self.placing() == Some((12, then, Some(first))), "12: not the first two placed")?;
        let words = "already has a graft parent";
        self.said(format!(
            "Subtree TreeId({}, {}) {words} NodeId({}), cannot assign to NodeId({})",
            t.0, t.1, first.1, then.1
        ))
    }

    fn claimed_from_holder(&self) -> Test {
        test(self.why.rule == 2, "12: no such rule")?;
        let t = tid(self.why.tree);
        let (holder, claimer) = self.also.zip(self.node).ok_or("12: no nodes")?;
        let (outcome, said) = self.left();
        test(said.contains("already has a graft parent"), "12: not the crate's")?;
        let held = self.before.nodes.get(&holder).and_then(|n| n.1.graft());
        test(held == Some(t), "12: the holder did not hold the tree")?;
        test(self.claim(claimer) == Some(t), "12: the claimer does not claim the tree")?;
        let grafts = |x: Id| outcome.nodes.get(&x).and_then(|n| n.1.graft()) == Some(t);
        test(
            holder != claimer && grafts(holder) && grafts(claimer),
            "12: one does not graft it in the outcome",
        )?;
        let first = Shape::of_state(&outcome).grafted_twice().ok_or("12: no tree is grafted twice")?;
        let due = (first.tree, first.node, first.also);
        test(due == (t, Some(holder.min(claimer)), Some(holder.max(claimer))), "12: not the first clash")
    }

    /// New, not the root and not named.
    fn placeless(&self, n: u64) -> bool {
        let x = self.here(n);
        !self.before.nodes.contains_key(&x) && self.root() != Some(x) && !self.is_named(x)
    }

    fn without_place(&self) -> Test {
        let place = self.batch.nodes.iter().position(|n| self.placeless(n.0)).ok_or("13: none")?;
        test(self.why.place == place, "13: another place")?;
        test(self.node == Some(self.here(self.batch.nodes[place].0)), "13: another node")
    }

    fn child_nowhere(&self) -> Test {
        let nowhere = |c: Id| !self.before.nodes.contains_key(&c) && self.listed(c).is_none();
        let (parent, child) = *self.names().iter().find(|n| nowhere(n.1)).ok_or("14: none")?;
        test(
            (self.by, self.node) == (Some(parent), Some(child)),
            "14: another child, or another that names it",
        )
    }

    /// 15 to 17: step by step from ROOT's focus.
    fn focus(&self, number: u8) -> Test {
        let (outcome, said) = self.left();
        let shape = Shape::of_state(&outcome);
        if number == 16 {
            let root = shape.root().ok_or("16: no ROOT")?;
            test(
                self.node == Some(root) && !outcome.nodes.contains_key(&root),
                "16: another root, or present",
            )?;
            return test(said.starts_with(&format!("Root ID NodeId({})", root.1)), "16: not the crate's");
        }
        let way = shape.way();
        let words: Vec<u64> = way.iter().flat_map(|x| [x.0 as u64, x.1]).collect();
        test(self.why.place == way.len() && self.way.starts_with(&words), "15, 17: another way")?;
        test(self.way[words.len()..].iter().all(|w| *w == 0), "15, 17: words after the way")?;
        let last = *way.last().ok_or("15, 17: no way")?;
        test(self.node == Some(last), "15, 17: another node at the end")?;
        if number == 17 {
            test(!outcome.nodes.contains_key(&last), "17: the focus is present")?;
            return test(said.starts_with(&format!("Focused ID NodeId({})", last.1)), "17: not the crate's");
        }
        let t = shape.graft(last).ok_or("15: no graft at the end")?;
        test(tid(self.why.tree) == t && !shape.exists(t), "15: another tree, or it exists")?;
        let words = format!("Focus is on graft node NodeId({}) but subtree TreeId({}, {})", last.1, t.0, t.1);
        test(said.starts_with(&words), "15: not the crate's")
    }

    fn updated_and_gone(&self) -> Test {
        let outcome = self.left().0;
        let gone = |x: Id| self.before.nodes.contains_key(&x) && !outcome.nodes.contains_key(&x);
        let both = |(n, d): &&(u64, Data)| {
            let x = self.here(*n);
            gone(x) && !same_data(&self.before.nodes[&x].1, d)
        };
        let first = self.batch.nodes.iter().find(both).ok_or("18: none is updated and removed")?;
        let node = self.here(first.0);
        test(self.node == Some(node), "18: another node")?;
        let top = self.also.ok_or("18: no node that lost its place")?;
        let mut at = node;
        // up by the old parents: none on the way has a parent that is listed, but the last
        let mut passed = BTreeSet::new();
        while at != top {
            test(gone(at) && passed.insert(at), "18: a node on the way stays")?;
            let (parent, _) =
                self.before.nodes[&at].0.ok_or("18: the node that lost its place is not above")?;
            test(self.turn(parent).is_none(), "18: a node below it lost its own place")?;
            at = parent;
        }
        test(gone(top) && !self.is_named(top), "18: what lost its place stays, or is named")?;
        match (self.by, self.before.nodes[&top].0) {
            (Some(by), Some((parent, _))) => {
                let dropped = self.turn(by).ok_or("18: what dropped it is not listed")?;
                test(by == parent, "18: another node dropped it")?;
                test(
                    self.turn(top).is_none_or(|turn| turn <= dropped),
                    "18: it is listed after what dropped it",
                )
            }
            (None, parent) => {
                // the old root of the batch's tree, in whose place tree data puts another
                let old = self.before.trees[self.tree as usize].1.map(|t| self.here(t.0));
                let other = self.batch.root.is_some() && self.root() != Some(top);
                test(parent.is_none_or(|p| p.0.0 != self.tree), "18: its parent is of the batch's tree")?;
                test(old == Some(top) && other && self.turn(top).is_none(), "18: its root is not replaced")
            }
            _ => Err("18: it has no parent that could drop it"),
        }
    }

    fn unsound(&self) -> Test {
        let (outcome, said) = self.left();
        test(said.is_empty(), "19: the crate panics")?;
        let w = self.why;
        let told = Fault {
            rule: w.rule,
            place: w.place,
            tree: tid(w.tree),
            node: self.node,
            by: self.by,
            also: self.also,
        };
        test(Shape::of_state(&outcome).broken() == Some(told), "19: another rule or node")?;
        // request #101: any other never arises
        test((4..=7).contains(&w.rule), "19: a rule that never arises")?;
        if w.rule == 6 { self.stays_unmet(&outcome) } else { Ok(()) }
    }

    /// How the topmost node that is never met came to stay: its parent is listed before it and no longer names it; or it
    /// is named by its parent, which goes; or it is listed, and was the root of its tree, in whose place is another.
    fn stays_unmet(&self, outcome: &State) -> Test {
        let Some(top) = self.also else { return Ok(()) };
        let Some(by) = self.by.filter(|by| by.0 == top.0) else {
            let old = self.before.trees[self.tree as usize].1.map(|t| self.here(t.0));
            let replaced = old == Some(top) && self.root() != Some(top);
            return test(
                replaced && self.turn(top).is_some(),
                "19: the topmost node was no root, or is not listed",
            );
        };
        let named = self.names().contains(&(by, top));
        if !outcome.nodes.contains_key(&by) {
            return test(named, "19: the parent that goes does not name it");
        }
        let after = self.turn(by).zip(self.turn(top)).is_some_and(|(by, top)| by < top);
        test(after && !named, "19: not listed after the parent that dropped it")
    }

    fn too_many(&self) -> Test {
        let nodes = self.left().0.nodes.len();
        test(self.why.place == nodes && nodes > NODES, "20: another count")
    }

    fn too_short(&self, call: &Judged) -> Test {
        let again = Call::Update(call.input.clone(), filler(CHANGES));
        let needed = judge(call.before, &again).0.listed();
        test(
            (self.why.place, self.why.other) == (needed, call.room) && needed > call.room,
            "21: other counts",
        )
    }
}

/// Equal field by field, floats by value.
fn same_data(x: &Data, y: &Data) -> bool {
    let value = |d: &Data| {
        let number = |bits: u64| if bits == (-0.0f64).to_bits() { 0 } else { bits };
        Data { bounds: d.bounds.map(number), transform: d.transform.map(number), ..d.clone() }
    };
    value(x) == value(y)
}
