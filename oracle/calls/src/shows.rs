//! What a call shows, for the summary of a run.
use crate::judge::{Answer, Call, Input};
use crate::plain::{Id, ROOT, State};

/// Each thing that a call can show, and whether it does.
pub fn shows(before: Option<&State>, call: &Call, a: &Answer) -> Vec<(&'static str, bool)> {
    let bytes = matches!(call, Call::Start(Input::Bytes(_), _) | Call::Update(Input::Bytes(_), _));
    let mut out = vec![("record given as bytes", bytes)];
    if let (Call::Update(Input::Batch(b), _), 12) = (call, a.number) {
        let mut grafts: Vec<_> = b.nodes.iter().filter_map(|n| n.1.graft()).collect();
        grafts.sort();
        let twice = grafts.windows(2).any(|g| g[0] == g[1]);
        out.push(("refused with 12: a graft already held", !twice));
    }
    let (Call::Update(Input::Batch(b), _), 0, Some(s)) = (call, a.number, before) else { return out };
    let number = a.state.number_of(b.tree).unwrap();
    let old_bits = b.nodes.iter().any(|(n, d)| {
        let id = (number, *n);
        s.nodes.get(&id).is_some_and(|o| a.state.nodes.get(&id).is_some_and(|x| x.1 == o.1))
            && s.nodes[&id].1 != *d
    });
    let ends = a.state.effective_focus();
    out.extend([
        ("accepted: old bits stay", old_bits),
        ("accepted: lost link put back", a.restored),
        ("accepted: nodes added", !a.added.is_empty()),
        ("accepted: nodes removed", !a.removed.is_empty()),
        ("accepted: another tree removed", a.removed.iter().any(|x| x.0 != number)),
        ("accepted: relinked", !a.relinked.is_empty()),
        ("accepted: a tree moved to another graft", a.relinked.iter().any(|x| x.0 != number)),
        (
            "accepted: root changed",
            b.tree == ROOT && s.trees[0].1.map(|x| x.0) != a.state.trees[0].1.map(|x| x.0),
        ),
        ("accepted: new tree number", s.trees.len() < a.state.trees.len()),
        ("accepted: trees in trees in trees", graft_depth(&a.state) > 1),
        ("accepted: focus through a graft", ends.is_some_and(|f| f.0 != 0)),
        ("accepted: focus passes to an active descendant", a.focus.1.is_some_and(|f| Some(f) != ends)),
        ("accepted: first extra id", a.extra.0.is_some()),
        ("accepted: second extra id", a.extra.1.is_some()),
    ]);
    out
}

/// The most grafts on the way from ROOT's root to a node.
pub fn graft_depth(s: &State) -> usize {
    let depth = |id: &Id| {
        let (mut at, mut n) = (*id, 0);
        while let Some((p, _)) = s.nodes[&at].0 {
            n += (p.0 != at.0) as usize;
            at = p;
        }
        n
    };
    s.nodes.keys().map(depth).max().unwrap_or(0)
}
