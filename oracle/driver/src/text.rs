//! Calls, states and answers in words, for the description of a difference.
use crate::library::Given;
use crate::memory;
use calls::judge::{Answer, Call, Did, Input};
use calls::plain::*;
use cartgravel::sys::OptionalId;

/// A call, the slice left out where it has room.
pub fn call(c: &Call) -> String {
    match c {
        Call::Start(i, host) => format!("start{}: {}", if *host { ", host focused" } else { "" }, input(i)),
        Call::Update(i, slice) if slice.len() < 64 => format!("{}, slice of {}", input(i), slice.len()),
        Call::Update(i, _) => input(i),
        Call::Host(host) => format!("host focus {host}"),
    }
}

/// A record, read if it can be.
fn input(i: &Input) -> String {
    match i {
        Input::Batch(b) => batch(b),
        Input::Bytes(bytes) => match Batch::decode(bytes) {
            Some(b) => batch(&b),
            None => format!("no record: {} bytes {bytes:?}", bytes.len()),
        },
    }
}

/// A batch: its tree, root, focus and nodes.
fn batch(b: &Batch) -> String {
    let data = b.root.map_or(String::new(), |r| format!(", tree data {r}"));
    let nodes: Vec<String> = b.nodes.iter().map(|(n, d)| format!("{n}{}", body(d))).collect();
    format!("{}{data}, focus {}, [{}]", tree(b.tree), b.focus, nodes.join(", "))
}

/// A tree id.
fn tree(t: Tid) -> String {
    if t == ROOT { "ROOT".into() } else { format!("tree {t:?}") }
}

/// A node's data behind its number: nothing for a leaf of role 4.
fn body(d: &Data) -> String {
    let mut out = String::new();
    let mut say = |on: bool, words: String| {
        if on {
            out += &words;
        }
    };
    say(!d.children.is_empty(), format!(" has {:?}", d.children));
    say(d.has(GRAFT), format!(" grafts {}", tree(d.graft)));
    say(d.has(ACTIVE), format!(" active {}", d.active));
    say(d.role != 4, format!(" role {}", d.role));
    say(!d.label.is_empty(), format!(" label {:?}", d.label));
    say(d.flags & (HIDDEN | CLIPS) != 0 || d.flags > 63, format!(" flags {}", d.flags));
    say(d.has(BOUNDS), format!(" bounds {:?}", d.bounds.map(f64::from_bits)));
    say(d.has(TRANSFORM), format!(" transform {:?}", d.transform.map(f64::from_bits)));
    out
}

/// A state: its nodes with their links, its trees.
pub fn state(s: &State) -> String {
    let link = |l: &Link| l.map_or(String::new(), |(p, i)| format!(" below {p:?} at {i}"));
    let nodes: Vec<String> =
        s.nodes.iter().map(|(id, (l, d))| format!("{id:?}{}{}", body(d), link(l))).collect();
    let at = |at: &Option<(u64, u64)>| match at {
        Some((root, focus)) => format!("root {root} focus {focus}"),
        None => "does not exist".into(),
    };
    let mut trees: Vec<String> = s.trees.iter().map(|(t, x)| format!("{} {}", tree(*t), at(x))).collect();
    let absent = s.trees.iter().filter(|t| t.1.is_none()).count();
    if absent > 3 {
        trees.retain(|t| !t.ends_with("does not exist"));
        trees.push(format!("{absent} trees that do not exist"));
    }
    format!("[{}]; {}; host focused {}", nodes.join(", "), trees.join(", "), s.host)
}

/// What the crate did.
pub fn did(d: &Did) -> String {
    match d {
        Did::Accepted => "accepted".into(),
        Did::AcceptedUnsound => "accepted, and the outcome is not sound".into(),
        Did::WrapperPanicked(words) => format!("`update` accepted, the wrapper panicked: {words}"),
        Did::Panicked(words) => format!("panicked: {words}"),
    }
}

/// The answer that is due.
pub fn due(a: &Answer) -> String {
    if a.number != 0 {
        return format!("{}, slice {:?}", a.number, cut(&a.slice));
    }
    format!(
        "0, added {:?}, updated {:?}, removed {:?}, relinked {:?}, focus {:?}, extra {:?}, \
         slice {:?}\n    state {}",
        a.added,
        a.updated,
        a.removed,
        a.relinked,
        a.focus,
        a.extra,
        cut(&a.slice),
        state(&a.state)
    )
}

/// The answer that the library gave.
pub fn given(g: &Given) -> String {
    let id = |x: OptionalId| (x.present != 0).then_some((x.tree, x.node));
    let (l, r) = (&g.reply.lengths, &g.reply.report);
    format!(
        "{}, lengths {:?}, focus {:?}, extra {:?}, slice {:?}\n    state {}",
        g.reply.number,
        [l.added, l.updated, l.removed, l.relinked],
        (id(r.focus_before), id(r.focus_after)),
        (id(r.extra_before), id(r.extra_after)),
        cut(&g.slice),
        memory::shown(&g.memory).map_or("with ids out of order".into(), |s| state(&s))
    )
}

/// A slice up to its filler.
fn cut(slice: &[u64]) -> &[u64] {
    let used = slice.iter().rposition(|x| *x < 900_000 || *x > 901_000).map_or(0, |at| at + 1);
    &slice[..used]
}
