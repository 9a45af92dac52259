//! Questions of modules 6 to 8 about made screens, each with what the crate answers, as a line of JSON: for write_replay.py.
use crate::ask;
use crate::json;
use crate::judge::held;
use crate::make::Rng;
use crate::model::{Answers, FILTERS, LeftOut, Model, SIDE_PARTS, SIDES};
use crate::plain::{Id, Link, State};
use crate::screens::screen;
use std::collections::BTreeMap;

/// How many nodes of a screen are asked about.
const SAMPLE: usize = 3;
/// The most nodes of a screen, and of one in eight.
const SMALL: usize = 24;
const LARGE: usize = 64;
/// A screen with fewer is not asked about.
const FEWEST: usize = 5;

/// One question and its answer.
pub struct Asked {
    pub kind: &'static str,
    /// The filter's number, 0 where there is none.
    pub filter: usize,
    /// 1 following, 2 preceding, 0 where there is no side.
    pub side: usize,
    /// The hidden flag, or a filter's result.
    pub value: u64,
    /// Ids, or pairs of f64s by their bits.
    pub words: Vec<u64>,
    /// The part of the model's answers that says whether the crate is left out.
    part: &'static str,
}

/// What was left out, by question and reason.
pub type LeftOuts = BTreeMap<(&'static str, LeftOut), u64>;

/// Prints every question about some nodes of so many screens; answers how many there are, and what was left out.
pub fn print(screens: u64, seed: u64, mut line: impl FnMut(String)) -> (u64, LeftOuts) {
    let (mut r, mut count, mut left_out) = (Rng(seed), 0, LeftOuts::new());
    for k in 0..screens {
        let s = large_enough(&mut r, if k % 8 == 0 { LARGE } else { SMALL });
        let (crates, m) = (held(s.clone()), Model::new(&s));
        let mut shown = Some(&s);
        for i in nodes(&mut r, &s) {
            let id = m.ids()[i];
            let left = m.answers(i).1;
            for q in all(&ask::answers(&crates.inner, id)) {
                if let Some(o) = left.iter().find(|o| q.is_part(o.0, o.1)) {
                    *left_out.entry((q.part, o.2)).or_default() += 1;
                    continue;
                }
                line(json::question(shown.take(), id, &q));
                count += 1;
            }
        }
    }
    (count, left_out)
}

fn large_enough(r: &mut Rng, most: usize) -> State {
    loop {
        let s = screen(r, most);
        if s.nodes.len() >= FEWEST {
            return s;
        }
    }
}

/// Some nodes by their places, none twice: the first is any, the others have siblings where enough do.
fn nodes(r: &mut Rng, s: &State) -> Vec<usize> {
    let all: Vec<usize> = (0..s.nodes.len()).collect();
    let among = |link: &Link| link.is_some_and(|(p, _)| s.nodes[&p].1.children.len() > 1);
    let some: Vec<usize> =
        all.iter().copied().zip(s.nodes.values()).filter(|x| among(&x.1.0)).map(|x| x.0).collect();
    let mut out = vec![r.pick(&all)];
    while out.len() < SAMPLE {
        let i = r.pick(if some.len() < SAMPLE { &all } else { &some });
        if !out.contains(&i) {
            out.push(i);
        }
    }
    out
}

impl Asked {
    fn new(kind: &'static str, part: &'static str, value: u64, words: Vec<u64>) -> Asked {
        Asked { kind, filter: 0, side: 0, value, words, part }
    }

    fn with(self, filter: usize, side: usize) -> Asked {
        Asked { filter, side, ..self }
    }

    /// Whether a part of the model's answers, under a filter of the model, is this question's.
    fn is_part(&self, part: &str, filter: usize) -> bool {
        self.part == part && filter + 1 == self.filter.max(1)
    }
}

/// The words of ids.
fn ids<'a>(list: impl IntoIterator<Item = &'a Id>) -> Vec<u64> {
    list.into_iter().flat_map(|x| [x.0.into(), x.1]).collect()
}

/// Every question about a node, with each filter and side. A box is told by value, so that -0 is 0. What a walk hands out step by step is what
/// the crate's iterator of siblings does.
fn all(a: &Answers) -> Vec<Asked> {
    let corners = a.bounding_box.iter().flatten().map(|x| (x + 0.0).to_bits()).collect();
    let mut out = vec![
        Asked::new("parent", "", 0, ids(&a.parent)),
        Asked::new("children", "", 0, ids(&a.children)),
        Asked::new("hidden", "", a.hidden.into(), vec![]),
        Asked::new("transform", "", 0, a.transform.to_vec()),
        Asked::new("box", "box", 0, corners),
    ];
    for side in SIDES {
        for kind in ["siblings", "walk"] {
            out.push(Asked::new(kind, "", 0, ids(&a.siblings[side])).with(0, side + 1));
        }
    }
    for f in FILTERS {
        let b = &a.filtered[f];
        let of = |kind, part, words| Asked::new(kind, part, 0, words).with(f + 1, 0);
        out.extend([
            Asked::new("filter", "filter", b.result.into(), vec![]).with(f + 1, 0),
            of("filtered parent", "filtered parent", ids(&b.parent)),
            of("first filtered child", "first filtered child", ids(&b.first_child)),
            of("last filtered child", "last filtered child", ids(&b.last_child)),
            of("deepest first filtered child", "deepest first", ids(&b.deepest_first)),
            of("deepest last filtered child", "deepest last", ids(&b.deepest_last)),
            of("filtered children", "filtered children", ids(&b.children)),
        ]);
        for side in SIDES {
            for kind in ["filtered siblings", "walk"] {
                out.push(Asked::new(kind, SIDE_PARTS[side], 0, ids(&b.siblings[side])).with(f + 1, side + 1));
            }
        }
    }
    out
}
