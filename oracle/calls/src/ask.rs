//! What the crate's real source answers to the questions of modules 6 to 8.
use crate::model::{Answers, FILTERS, Filtered, bits};
use crate::plain::Id;
use accesskit_consumer::filters::{self, FilterResult, probe::without_parent_checks};
use accesskit_consumer::node::NodeRef;
use accesskit_consumer::node::probe::{full, first_filtered_child, last_filtered_child, parts};
use accesskit_consumer::tree::TreeState;

/// A filter of the crate by its number.
fn filter(f: usize) -> fn(&NodeRef) -> FilterResult {
    [filters::common_filter, filters::common_filter_with_root_exception, without_parent_checks][f]
}

fn name(n: NodeRef) -> Id {
    parts(n.id())
}

/// Every answer about a node that is there.
pub fn answers(state: &TreeState, id: Id) -> Answers {
    let n = state.node_by_id(full(id)).unwrap();
    let t = n.transform().0;
    Answers {
        parent: n.parent().map(name),
        children: n.children().map(name).collect(),
        hidden: n.is_hidden(),
        transform: t.map(bits),
        bounding_box: n.bounding_box().map(|r| [r.x0, r.y0, r.x1, r.y1]),
        siblings: [n.following_siblings().map(name).collect(), n.preceding_siblings().map(name).collect()],
        filtered: FILTERS.map(|f| filtered(n, filter(f))),
    }
}

fn filtered(n: NodeRef, f: fn(&NodeRef) -> FilterResult) -> Filtered {
    Filtered {
        result: f(&n) as u8,
        parent: n.filtered_parent(&f).map(name),
        first_child: first_filtered_child(&n, &f).map(name),
        last_child: last_filtered_child(&n, &f).map(name),
        deepest_first: n.deepest_first_filtered_child(&f).map(name),
        deepest_last: n.deepest_last_filtered_child(&f).map(name),
        children: n.filtered_children(f).map(name).collect(),
        siblings: [n.following_filtered_siblings(f).map(name).collect(), n.preceding_filtered_siblings(f).map(name).collect()],
    }
}

#[cfg(test)]
mod tests {
    use super::answers;
    use crate::judge::held;
    use crate::make::Rng;
    use crate::model::Model;
    use crate::screens::screen;
    use std::collections::BTreeMap;

    /// On made screens the crate answers as document 01's definitions do, but for what its Domain leaves out.
    #[test]
    fn the_crate_answers_as_defined() {
        let mut r = Rng(5);
        let mut left: BTreeMap<String, u64> = BTreeMap::new();
        let mut asked = 0u64;
        for round in 0..6000 {
            let s = screen(&mut r, if round % 40 == 0 { 120 } else { 24 });
            let h = held(s.clone());
            let m = Model::new(&s);
            for i in 0..m.ids().len() {
                let id = m.ids()[i];
                let (due, out) = m.answers(i);
                let got = answers(&h.inner, id);
                asked += 1;
                for o in &out {
                    *left.entry(format!("{} {:?}", o.0, o.2)).or_default() += 1;
                }
                let is_out = |what: &str, f: usize| out.iter().any(|o| o.0 == what && o.1 == f);
                assert_eq!((&due.parent, &due.children, due.hidden, &due.siblings), (&got.parent, &got.children, got.hidden, &got.siblings));
                assert_eq!(due.transform, got.transform, "{s:?} {id:?}");
                assert!(is_out("box", 0) || due.bounding_box == got.bounding_box, "{s:?} {id:?}");
                for f in 0..3 {
                    let (a, b) = (&due.filtered[f], &got.filtered[f]);
                    assert!(is_out("filter", f) || a.result == b.result, "filter {f} {s:?} {id:?}");
                    assert!(is_out("filtered parent", f) || a.parent == b.parent, "parent {f} {s:?} {id:?}");
                    assert!(is_out("first filtered child", f) || a.first_child == b.first_child, "first {f} {s:?} {id:?}");
                    assert!(is_out("last filtered child", f) || a.last_child == b.last_child, "last {f} {s:?} {id:?}");
                    assert!(is_out("deepest first", f) || a.deepest_first == b.deepest_first, "{f} {s:?} {id:?}");
                    assert!(is_out("deepest last", f) || a.deepest_last == b.deepest_last, "{f} {s:?} {id:?}");
                    assert!(is_out("filtered children", f) || a.children == b.children, "children {f} {s:?} {id:?} {:?} {:?}", a.children, b.children);
                    for side in 0..2 {
                        assert!(
                            is_out(crate::model::SIDE_PARTS[side], f) || a.siblings[side] == b.siblings[side],
                            "siblings {f} {side} {s:?} {id:?} {:?} {:?}", a.siblings[side], b.siblings[side]
                        );
                    }
                }
            }
        }
        println!("{asked} nodes; left out: {left:?}");
    }
}
