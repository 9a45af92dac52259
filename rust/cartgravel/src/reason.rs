//! Why a call gets its number: what makes the first row of document 01's table hold that does.
use crate::number::Number;
use crate::report::{Ids, present};
use crate::{FullNodeId, TreeId, WAY_WORDS, sys};
use core::fmt;

/// Why a batch or a start gets its number, as [`State::explain`](crate::State::explain) answers it. It displays its
/// [`Reason`] as a sentence.
#[derive(Clone, Debug, PartialEq, Eq)]
pub struct Explanation {
    why: sys::Explanation,
    way: [u64; WAY_WORDS],
}

/// The reason of a number, with what it is about. Places and slots count from 0.
///
/// What is said of an *outcome* is said of the state that the batch would have led to.
#[derive(Clone, Debug, PartialEq, Eq)]
#[non_exhaustive]
pub enum Reason<'a> {
    /// 0: no row holds.
    Accepted,
    /// 1: the first rule of a sound state that the state breaks.
    UnsoundState(Option<Broken>),
    /// 2: the first rule of the batch record that the bytes break, 1 to 26 (docs/DEFINITIONS.md), and where.
    BrokenRecord {
        /// The rule.
        rule: u32,
        /// The offset of the bytes that break it.
        offset: usize,
    },
    /// 3: a start has no tree data.
    NoTreeData,
    /// 4: a start is for this tree.
    NotRoot(TreeId),
    /// 5: a node is listed twice.
    ListedTwice {
        /// The node.
        node: FullNodeId,
        /// Its first place among the listed nodes.
        first: usize,
        /// Its second place.
        second: usize,
    },
    /// 6: there is tree data for this tree, and no node grafts it.
    NotGrafted(TreeId),
    /// 7: there is no tree data for this tree, and it does not exist.
    NotExisting(TreeId),
    /// 8: this tree has no number, and none is left.
    NoNumberLeft(TreeId),
    /// 9: a child is named twice.
    NamedTwice {
        /// The child.
        child: FullNodeId,
        /// The node that names it first.
        first: FullNodeId,
        /// The node that names it then; it may be the same.
        second: FullNodeId,
    },
    /// 10: this node grafts a tree and has children.
    GraftOverChildren(FullNodeId),
    /// 11: this node grafts ROOT.
    GraftOfRoot(FullNodeId),
    /// 12: two nodes of the batch graft one tree anew.
    ClaimedTwice {
        /// The tree.
        tree: TreeId,
        /// The node that claims it first.
        first: FullNodeId,
        /// The node that claims it then.
        second: FullNodeId,
    },
    /// 12: a node of the batch grafts a tree anew that another keeps.
    ClaimedFromHolder {
        /// The tree.
        tree: TreeId,
        /// The node that held it and keeps it.
        holder: FullNodeId,
        /// The node that claims it.
        claimer: FullNodeId,
    },
    /// 13: a listed node is left without a place.
    WithoutPlace {
        /// The node.
        node: FullNodeId,
        /// Its place among the listed nodes.
        place: usize,
    },
    /// 14: a named child is neither present nor listed.
    ChildNowhere {
        /// The node that names it.
        parent: FullNodeId,
        /// The child.
        child: FullNodeId,
    },
    /// 15: the focus of the outcome comes to a graft whose tree does not exist.
    FocusIntoNothing {
        /// The tree.
        tree: TreeId,
        /// The way from ROOT's focus through the grafts; the last node on it grafts the tree.
        way: Ids<'a>,
    },
    /// 16: ROOT's root is absent from the outcome.
    RootAbsent(Option<FullNodeId>),
    /// 17: the focus of the outcome is absent.
    FocusAbsent {
        /// The way from ROOT's focus through the grafts; the last node on it is absent.
        way: Ids<'a>,
    },
    /// 18: a node is listed with other data, and goes.
    UpdatedAndGone {
        /// The node.
        node: FullNodeId,
        /// The node above it, or itself, whose place is gone.
        dropped: Option<Dropped>,
    },
    /// 19: the first rule for links and trees that the outcome breaks.
    UnsoundOutcome(Option<Broken>),
    /// 20: the outcome has so many nodes.
    TooMany(usize),
    /// 21: the lists do not fit in the lent slice.
    SliceTooShort {
        /// How many elements they take.
        needed: usize,
        /// How many are lent.
        lent: usize,
    },
}

/// A node that lost its place.
#[derive(Clone, Copy, Debug, PartialEq, Eq, Hash)]
pub struct Dropped {
    /// The node.
    pub node: FullNodeId,
    /// Of 18 the listed node that was its parent and no longer names it; none where it was the root of a tree that gets
    /// another. Of 1 and 19 the parent that it records, if any, which is gone or does not lead to it.
    pub by: Option<FullNodeId>,
}

/// A rule of a sound state that is broken, with the slot of the node among those of the state, which are sorted by id.
#[derive(Clone, Copy, Debug, PartialEq, Eq, Hash)]
#[non_exhaustive]
pub enum Broken {
    /// Rule 1: there are more than [`NODES`](crate::NODES) nodes.
    TooManyNodes,
    /// Rule 2: there are more than [`TREES`](crate::TREES) tree numbers.
    TooManyTrees,
    /// Rule 3: a node has more children than a state can have nodes.
    TooManyChildren {
        /// The node.
        node: FullNodeId,
        /// Its slot.
        slot: usize,
    },
    /// Rule 4: a child, or the root of a tree that is grafted, is absent.
    AbsentBelow {
        /// The child or root.
        node: FullNodeId,
        /// The node that names it or grafts its tree.
        parent: FullNodeId,
        /// That node's slot.
        slot: usize,
    },
    /// Rule 5: going down from the root, a node is met more than once.
    MetTwice {
        /// The node.
        node: FullNodeId,
        /// Its slot.
        slot: usize,
    },
    /// Rule 6: going down from the root, a node is never met.
    NeverMet {
        /// The node.
        node: FullNodeId,
        /// Its slot.
        slot: usize,
        /// The topmost such node above it by the recorded parents, or itself; none where these go round in a circle.
        dropped: Option<Dropped>,
    },
    /// Rule 7: a node records another parent than it is met under, or another place there.
    WrongLink {
        /// The node.
        node: FullNodeId,
        /// Its slot.
        slot: usize,
        /// The parent that it records.
        recorded: Option<FullNodeId>,
        /// The parent that it is met under.
        met: Option<FullNodeId>,
    },
    /// Rule 8: a graft has children.
    GraftWithChildren {
        /// The node.
        node: FullNodeId,
        /// Its slot.
        slot: usize,
    },
    /// Rule 9: two nodes graft one tree.
    GraftedTwice {
        /// The tree.
        tree: TreeId,
        /// The first node.
        node: FullNodeId,
        /// Its slot.
        slot: usize,
        /// A later node.
        other: FullNodeId,
    },
    /// Rule 10: ROOT does not exist or does not have number 0.
    RootNotFirst,
    /// Rule 11: a tree id has two numbers.
    TreeTwice {
        /// The tree.
        tree: TreeId,
        /// Its later number.
        index: usize,
    },
    /// Rule 12: a tree exists, and its root is absent or no node grafts it.
    TreeUnrooted {
        /// The tree.
        tree: TreeId,
        /// Its number.
        index: usize,
    },
    /// Rule 13: the ids do not ascend after a node.
    OutOfOrder {
        /// The node.
        node: FullNodeId,
        /// Its slot.
        slot: usize,
    },
    /// Rule 14: a field of a node breaks the record's rules.
    BrokenField {
        /// The node.
        node: FullNodeId,
        /// Its slot.
        slot: usize,
    },
    /// Rule 15: the effective focus is absent.
    NoFocus,
}

impl Explanation {
    /// The library's answer, and the way that it wrote.
    pub(crate) fn new(why: sys::Explanation, way: [u64; WAY_WORDS]) -> Self {
        Self { why, way }
    }

    /// The number that the call gets; none where it is accepted.
    pub fn number(&self) -> Option<Number> {
        self.reason().number()
    }

    /// The reason. What no proved library answers is taken for a state that cannot be trusted, as in [`Number`]'s place.
    pub fn reason(&self) -> Reason<'_> {
        self.told().unwrap_or(Reason::UnsoundState(None))
    }

    /// The reason, where each node that the number needs is there.
    fn told(&self) -> Option<Reason<'_>> {
        let w = &self.why;
        let (node, by, also) = (present(w.node), present(w.by), present(w.also));
        Some(match w.number {
            0 => Reason::Accepted,
            1 => Reason::UnsoundState(self.broken()),
            2 => Reason::BrokenRecord { rule: w.rule, offset: w.place },
            3 => Reason::NoTreeData,
            4 => Reason::NotRoot(w.tree),
            5 => Reason::ListedTwice { node: node?, first: w.other, second: w.place },
            6 => Reason::NotGrafted(w.tree),
            7 => Reason::NotExisting(w.tree),
            8 => Reason::NoNumberLeft(w.tree),
            9 => Reason::NamedTwice { child: node?, first: also?, second: by? },
            10 => Reason::GraftOverChildren(node?),
            11 => Reason::GraftOfRoot(node?),
            12 if w.rule == 1 => Reason::ClaimedTwice { tree: w.tree, first: also?, second: node? },
            12 => Reason::ClaimedFromHolder { tree: w.tree, holder: also?, claimer: node? },
            13 => Reason::WithoutPlace { node: node?, place: w.place },
            14 => Reason::ChildNowhere { parent: by?, child: node? },
            15 => Reason::FocusIntoNothing { tree: w.tree, way: self.way() },
            16 => Reason::RootAbsent(node),
            17 => Reason::FocusAbsent { way: self.way() },
            18 => Reason::UpdatedAndGone { node: node?, dropped: self.dropped() },
            19 => Reason::UnsoundOutcome(self.broken()),
            20 => Reason::TooMany(w.place),
            21 => Reason::SliceTooShort { needed: w.place, lent: w.other },
            _ => return None,
        })
    }

    /// The way through the grafts, of as many nodes as the library says.
    fn way(&self) -> Ids<'_> {
        Ids::first(&self.way, self.why.place)
    }

    /// The node that lost its place.
    fn dropped(&self) -> Option<Dropped> {
        present(self.why.also).map(|node| Dropped { node, by: present(self.why.by) })
    }

    /// The rule of a sound state that is broken.
    fn broken(&self) -> Option<Broken> {
        let w = &self.why;
        let (node, by, also) = (present(w.node), present(w.by), present(w.also));
        let (slot, tree) = (w.place, w.tree);
        Some(match w.rule {
            1 => Broken::TooManyNodes,
            2 => Broken::TooManyTrees,
            3 => Broken::TooManyChildren { node: node?, slot },
            4 => Broken::AbsentBelow { node: node?, parent: by?, slot },
            5 => Broken::MetTwice { node: node?, slot },
            6 => Broken::NeverMet { node: node?, slot, dropped: self.dropped() },
            7 => Broken::WrongLink { node: node?, slot, recorded: by, met: also },
            8 => Broken::GraftWithChildren { node: node?, slot },
            9 => Broken::GraftedTwice { tree, node: node?, slot, other: also? },
            10 => Broken::RootNotFirst,
            11 => Broken::TreeTwice { tree, index: w.place },
            12 => Broken::TreeUnrooted { tree, index: w.place },
            13 => Broken::OutOfOrder { node: node?, slot },
            14 => Broken::BrokenField { node: node?, slot },
            15 => Broken::NoFocus,
            _ => return None,
        })
    }
}

impl Reason<'_> {
    /// The number that it is the reason of; none of an accepted call.
    pub fn number(&self) -> Option<Number> {
        Some(match self {
            Reason::Accepted => return None,
            Reason::UnsoundState(_) => Number::StateNotSound,
            Reason::BrokenRecord { .. } => Number::NotARecord,
            Reason::NoTreeData => Number::StartWithoutData,
            Reason::NotRoot(_) => Number::StartNotRoot,
            Reason::ListedTwice { .. } => Number::ListedTwice,
            Reason::NotGrafted(_) => Number::TreeNotHeld,
            Reason::NotExisting(_) => Number::TreeWithoutData,
            Reason::NoNumberLeft(_) => Number::TooManyTrees,
            Reason::NamedTwice { .. } => Number::ChildNamedTwice,
            Reason::GraftOverChildren(_) => Number::GraftWithChildren,
            Reason::GraftOfRoot(_) => Number::GraftOfRoot,
            Reason::ClaimedTwice { .. } | Reason::ClaimedFromHolder { .. } => Number::SecondGraft,
            Reason::WithoutPlace { .. } => Number::NodesWithoutPlace,
            Reason::ChildNowhere { .. } => Number::ChildrenAbsent,
            Reason::FocusIntoNothing { .. } => Number::FocusOnEmptyGraft,
            Reason::RootAbsent(_) => Number::RootAbsent,
            Reason::FocusAbsent { .. } => Number::FocusAbsent,
            Reason::UpdatedAndGone { .. } => Number::ChangedAndRemoved,
            Reason::UnsoundOutcome(_) => Number::OutcomeNotSound,
            Reason::TooMany(_) => Number::TooManyNodes,
            Reason::SliceTooShort { .. } => Number::ListTooShort,
        })
    }

    /// The usual mend, where one is known. docs/NUMBERS.md has more.
    pub fn mend(&self) -> Option<&'static str> {
        Some(match self {
            Reason::Accepted => return None,
            Reason::UnsoundState(_) => "start again: a batch does not mend a state",
            Reason::BrokenRecord { rule, .. } => return record_mend(*rule),
            Reason::NoTreeData => "give the start its root",
            Reason::NotRoot(_) => "start ROOT, and send a pane in a batch once a node grafts it",
            Reason::ListedTwice { .. } => "list the node once, as it is in the end",
            Reason::NotGrafted(_) => "first send a batch with a node that grafts this tree",
            Reason::NotExisting(_) => "send the whole pane, with its root",
            Reason::NoNumberLeft(_) => "use a pane's tree id again when it is opened again",
            Reason::NamedTwice { .. } => "let only the new parent name the child, once",
            Reason::GraftOverChildren(_) => "list the graft without children",
            Reason::GraftOfRoot(_) => "fill in the pane's tree id",
            Reason::ClaimedTwice { .. } => "graft the tree in one place alone",
            Reason::ClaimedFromHolder { .. } => {
                "list the old place too, without the graft, in the same batch"
            }
            Reason::WithoutPlace { .. } => "list the parent too, with all its children",
            Reason::ChildNowhere { .. } => "list the child in the same batch",
            Reason::FocusIntoNothing { .. } => "leave the focus where it is until the pane is there",
            Reason::RootAbsent(_) => "list the root",
            Reason::FocusAbsent { way } if way.len() > 1 => "set the pane's focus, by a batch of the pane",
            Reason::FocusAbsent { .. } => "set the focus to a node that stays",
            Reason::UpdatedAndGone { .. } => "do not list what goes, or name it again",
            Reason::UnsoundOutcome(broken) => return broken.and_then(Broken::mend),
            Reason::TooMany(_) => "send the part that is on the screen",
            Reason::SliceTooShort { .. } => "lend 1,024 elements, which suffice for every batch",
        })
    }
}

impl Broken {
    /// The mend of a batch whose outcome breaks the rule.
    fn mend(self) -> Option<&'static str> {
        match self {
            Broken::AbsentBelow { .. } => Some("list the root of the pane, or the child"),
            Broken::MetTwice { .. } => Some("list the old parent too, without the child"),
            Broken::NeverMet { .. } => Some("do not list what goes, or name it again"),
            Broken::WrongLink { .. } => Some("list the new root"),
            _ => None,
        }
    }
}

/// The mend of a record that breaks a rule.
fn record_mend(rule: u32) -> Option<&'static str> {
    match rule {
        2..=4 | 11 => Some("send two batches: first the upper part of the screen, then what hangs below it"),
        15 => Some("shorten the label, at a character's end"),
        17..=20 => Some("set the field's flag, or leave the field zeros"),
        21 | 22 => Some("send no NaN and no infinity"),
        _ => None,
    }
}

/// What a record breaks with each rule, from 1 on.
const RECORD_RULES: [&str; 26] = [
    "it has less than 64 bytes",
    "it has more than 64 nodes",
    "it has more than 256 child entries",
    "it has more than 2,048 label bytes",
    "a flag of the header is none",
    "the node records do not follow the header",
    "the child entries do not follow the node records",
    "the labels do not follow the child entries",
    "the total is not where the labels end",
    "the total is not the length of the slice",
    "it has more than 12,352 bytes",
    "it has a root without tree data",
    "bytes of the header that are not used are not zero",
    "bytes of a node that are not used are not zero",
    "a label has more than 32 bytes",
    "a flag of a node is none",
    "a node has an active descendant without its flag",
    "a node has a graft without its flag",
    "a node has bounds without their flag",
    "a node has a transform without its flag",
    "a node's bounds are not finite",
    "a node's transform is not finite",
    "a node's children do not follow those of the nodes before it",
    "a node's label does not follow those of the nodes before it",
    "the nodes do not use up the child entries",
    "the nodes do not use up the label bytes",
];

/// What a record breaks with a rule.
fn record_words(rule: u32) -> &'static str {
    let at = usize::try_from(rule).ok().and_then(|rule| rule.checked_sub(1));
    at.and_then(|at| RECORD_RULES.get(at)).copied().unwrap_or("no such rule")
}

/// Its reason.
impl fmt::Display for Explanation {
    fn fmt(&self, f: &mut fmt::Formatter<'_>) -> fmt::Result {
        self.reason().fmt(f)
    }
}

/// One sentence, without the full stop.
impl fmt::Display for Reason<'_> {
    fn fmt(&self, f: &mut fmt::Formatter<'_>) -> fmt::Result {
        match self {
            Reason::Accepted => f.write_str("it is accepted"),
            Reason::UnsoundState(broken) => unsound(f, "the state is not sound", *broken),
            Reason::BrokenRecord { rule, offset } => {
                write!(f, "the bytes are no record: {} (rule {rule}, offset {offset})", record_words(*rule))
            }
            Reason::NoTreeData => f.write_str("the start has no tree data, so it has no root"),
            Reason::NotRoot(tree) => write!(f, "the start is for the tree {tree}, not for ROOT"),
            Reason::ListedTwice { node, first, second } => {
                write!(f, "node {node} is listed twice, at the places {first} and {second}")
            }
            Reason::NotGrafted(tree) => write!(f, "there is tree data for {tree}, which no node grafts"),
            Reason::NotExisting(tree) => {
                write!(f, "there is no tree data for {tree}, and that tree does not exist")
            }
            Reason::NoNumberLeft(tree) => write!(f, "the tree {tree} is new, and all tree numbers are taken"),
            Reason::NamedTwice { child, first, second } if first == second => {
                write!(f, "node {first} names the child {child} twice")
            }
            Reason::NamedTwice { child, first, second } => {
                write!(f, "node {child} is named as a child twice, by {first} and by {second}")
            }
            Reason::GraftOverChildren(node) => write!(f, "node {node} grafts a tree and has children too"),
            Reason::GraftOfRoot(node) => write!(f, "node {node} grafts ROOT"),
            Reason::ClaimedTwice { tree, first, second } => {
                write!(f, "nodes {first} and {second} of the batch both graft {tree}")
            }
            Reason::ClaimedFromHolder { tree, holder, claimer } => {
                write!(f, "node {claimer} grafts {tree}, and {holder} would still graft it")
            }
            Reason::WithoutPlace { node, place } => {
                write!(f, "node {node}, at place {place}, is new, and no listed node names it as a child")
            }
            Reason::ChildNowhere { parent, child } => {
                write!(f, "node {parent} names the child {child}, which is neither present nor listed")
            }
            Reason::FocusIntoNothing { tree, way } => {
                led(f, way)?;
                write!(f, ", which grafts {tree}, and that tree would not exist")
            }
            Reason::RootAbsent(Some(root)) => write!(f, "the root {root} would be absent"),
            Reason::RootAbsent(None) => f.write_str("there would be no root"),
            Reason::FocusAbsent { way } => {
                led(f, way)?;
                f.write_str(", which would be absent")
            }
            Reason::UpdatedAndGone { node, dropped } => {
                write!(f, "node {node} is listed with a change, but would go")?;
                gone(f, *node, *dropped)
            }
            Reason::UnsoundOutcome(Some(Broken::NeverMet { node, dropped, .. })) => {
                write!(f, "the outcome would not be sound: node {node} would stay, but nothing leads to it")?;
                unmet(f, *node, *dropped)
            }
            Reason::UnsoundOutcome(broken) => unsound(f, "the outcome would not be sound", *broken),
            Reason::TooMany(nodes) => write!(f, "there would be {nodes} nodes, more than {}", crate::NODES),
            Reason::SliceTooShort { needed, lent } => {
                write!(f, "the lists take {needed} elements, and {lent} are lent")
            }
        }
    }
}

/// What is not sound, and the rule.
fn unsound(f: &mut fmt::Formatter<'_>, what: &str, broken: Option<Broken>) -> fmt::Result {
    f.write_str(what)?;
    broken.map_or(Ok(()), |broken| write!(f, ": {broken}"))
}

/// Where the focus would be led.
fn led(f: &mut fmt::Formatter<'_>, way: &Ids<'_>) -> fmt::Result {
    f.write_str("the focus would be ")?;
    let mut way = way.clone();
    let Some(last) = way.next_back() else { return f.write_str("nowhere") };
    for node in way {
        write!(f, "{node}, then in its tree ")?;
    }
    write!(f, "{last}")
}

/// Why a node goes: a listed node no longer names it or one above it, or that one was the root of a tree that gets another.
fn gone(f: &mut fmt::Formatter<'_>, node: FullNodeId, dropped: Option<Dropped>) -> fmt::Result {
    let Some(Dropped { node: top, by }) = dropped else { return Ok(()) };
    match (top == node, by) {
        (true, Some(by)) => write!(f, ": {by} no longer names it"),
        (true, None) => f.write_str(": it is no longer its tree's root"),
        (false, Some(by)) => write!(f, ": it is below {top}, which {by} no longer names"),
        (false, None) => write!(f, ": it is below {top}, which is no longer its tree's root"),
    }
}

/// Why nothing leads to a node: to the topmost one above it, or to itself, its recorded parent does not lead.
fn unmet(f: &mut fmt::Formatter<'_>, node: FullNodeId, dropped: Option<Dropped>) -> fmt::Result {
    let Some(Dropped { node: top, by }) = dropped else {
        return f.write_str(": its parents go round in a circle");
    };
    match (top == node, by) {
        (true, Some(by)) => write!(f, ": its parent {by} is gone or does not lead to it"),
        (true, None) => f.write_str(": it has no parent and is not the root"),
        (false, Some(by)) => {
            write!(f, ": it is below {top}, whose parent {by} is gone or does not lead to it")
        }
        (false, None) => write!(f, ": it is below {top}, which has no parent and is not the root"),
    }
}

/// The rule, as it is broken.
impl fmt::Display for Broken {
    fn fmt(&self, f: &mut fmt::Formatter<'_>) -> fmt::Result {
        match *self {
            Broken::TooManyNodes => write!(f, "there are more than {} nodes", crate::NODES),
            Broken::TooManyTrees => write!(f, "there are more than {} tree numbers", crate::TREES),
            Broken::TooManyChildren { node, .. } => write!(f, "node {node} has more than 256 children"),
            Broken::AbsentBelow { node, parent, .. } if node.tree != parent.tree => {
                write!(f, "node {node}, the root of the tree that {parent} grafts, is absent")
            }
            Broken::AbsentBelow { node, parent, .. } => {
                write!(f, "node {node}, to which {parent} leads, is absent")
            }
            Broken::MetTwice { node, .. } => write!(f, "more than one way leads to node {node}"),
            Broken::NeverMet { node, dropped, .. } => {
                write!(f, "nothing leads to node {node}")?;
                unmet(f, node, dropped)
            }
            Broken::WrongLink { node, recorded: Some(recorded), met: Some(met), .. } if recorded == met => {
                write!(f, "node {node} records another place under {met} than it has")
            }
            Broken::WrongLink { node, recorded, met, .. } => {
                write!(f, "node {node} records ")?;
                parent(f, recorded)?;
                f.write_str(" and has ")?;
                parent(f, met)
            }
            Broken::GraftWithChildren { node, .. } => write!(f, "the graft {node} has children"),
            Broken::GraftedTwice { tree, node, other, .. } => {
                write!(f, "nodes {node} and {other} both graft {tree}")
            }
            Broken::RootNotFirst => f.write_str("ROOT does not exist or does not have number 0"),
            Broken::TreeTwice { tree, index } => {
                write!(f, "the tree {tree} has number {index} and an earlier one")
            }
            Broken::TreeUnrooted { tree, .. } => {
                write!(f, "the tree {tree} exists, and its root is absent or no node grafts it")
            }
            Broken::OutOfOrder { node, .. } => write!(f, "the ids do not ascend after {node}"),
            Broken::BrokenField { node, .. } => write!(f, "a field of node {node} breaks the record's rules"),
            Broken::NoFocus => f.write_str("the effective focus is absent"),
        }
    }
}

/// A parent, or none.
fn parent(f: &mut fmt::Formatter<'_>, parent: Option<FullNodeId>) -> fmt::Result {
    match parent {
        Some(parent) => write!(f, "the parent {parent}"),
        None => f.write_str("no parent"),
    }
}
