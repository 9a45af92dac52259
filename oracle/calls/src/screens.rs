//! Made sound states for the questions: trees with containers, hidden and clipping nodes, boxes, transforms, panes inside panes.
use crate::make::Rng;
use crate::plain::*;

/// How a screen is made.
struct Plan {
    nodes: usize,
    /// Per cent of the nodes: containers and text runs, hidden, clipping, with bounds, with a transform.
    plain: usize,
    hidden: usize,
    clips: usize,
    bounds: usize,
    transforms: usize,
    /// Whether transforms only shift by whole numbers.
    shifts: bool,
    deep: bool,
}

/// A sound state of at most `most` nodes.
pub fn screen(r: &mut Rng, most: usize) -> State {
    let plan = Plan {
        nodes: 1 + r.below(most),
        plain: r.pick(&[10, 35, 60]),
        hidden: r.pick(&[0, 6, 15]),
        clips: r.pick(&[0, 30, 60]),
        bounds: r.pick(&[0, 60, 95]),
        transforms: r.pick(&[0, 15, 50]),
        shifts: r.chance(60),
        deep: r.chance(30),
    };
    let mut s = State { nodes: Default::default(), trees: vec![(ROOT, Some((0, 0)))], host: r.chance(85) };
    grow(r, &plan, &mut s);
    let (trees, ids): (Vec<u32>, Vec<Id>) = ((0..s.trees.len() as u32).collect(), s.nodes.keys().copied().collect());
    for id in &ids {
        furnish(r, &plan, &mut s, *id);
    }
    for t in trees {
        focus(r, &mut s, &ids, t);
    }
    if s.sound() { s } else { screen(r, most) }
}

/// Nodes one after another, each below one that is there; now and then a graft with a pane below it.
fn grow(r: &mut Rng, plan: &Plan, s: &mut State) {
    let mut open = vec![(0u32, 0u64)];
    s.nodes.insert((0, 0), (None, Data::default()));
    for k in 1..plan.nodes as u64 {
        let p = if plan.deep && r.chance(75) { *open.last().unwrap() } else { r.pick(&open) };
        let place = s.nodes[&p].1.children.len() as u64;
        let id = (p.0, if r.chance(50) { k } else { 1000 - k });
        s.nodes.get_mut(&p).unwrap().1.children.push(id.1);
        s.nodes.insert(id, (Some((p, place)), Data::default()));
        if r.chance(8) && s.trees.len() < TREES {
            let tree = (k, r.below(3) as u64);
            s.nodes.get_mut(&id).unwrap().1.set_graft(Some(tree));
            let number = s.trees.len() as u32;
            if r.chance(15) {
                s.trees.push((tree, None));
                continue;
            }
            s.trees.push((tree, Some((k, k))));
            s.nodes.insert((number, k), (Some((id, 0)), Data::default()));
            open.push((number, k));
        } else {
            open.push(id);
        }
    }
}

/// Role, flags, box and transform of a node.
fn furnish(r: &mut Rng, plan: &Plan, s: &mut State, id: Id) {
    let siblings: Vec<u64> = s.nodes.keys().filter(|x| x.0 == id.0).map(|x| x.1).collect();
    let active = r.chance(10).then(|| r.pick(&siblings));
    let d = &mut s.nodes.get_mut(&id).unwrap().1;
    d.role = if r.chance(plan.plain) { r.below(2) as u8 } else { r.pick(&[2, 3, 4, 9]) };
    d.label = format!("{}.{}", id.0, id.1).into_bytes();
    if r.chance(plan.hidden) {
        d.flags |= HIDDEN;
    }
    if r.chance(plan.clips) {
        d.flags |= CLIPS;
    }
    if let Some(a) = active {
        (d.flags, d.active) = (d.flags | ACTIVE, a);
    }
    if r.chance(plan.bounds) {
        d.flags |= BOUNDS;
        let (x, y, w, h) = (whole(r), whole(r), r.below(12) as f64, r.below(12) as f64);
        d.bounds = [x, y, x + w, y + h].map(f64::to_bits);
    }
    if r.chance(plan.transforms) {
        d.flags |= TRANSFORM;
        d.transform = transform(r, plan.shifts).map(f64::to_bits);
    }
}

fn whole(r: &mut Rng) -> f64 {
    r.pick(&[-0.0, 0.0, 1.0, 4.0, 5.0, 8.0, -3.0, 20.0, 1048576.0])
}

/// A shift; or now and then a rotation, a scale, one that overflows after a few levels.
fn transform(r: &mut Rng, shifts: bool) -> [f64; 6] {
    let (e, f) = (whole(r), whole(r));
    if shifts {
        return [1.0, 0.0, 0.0, 1.0, e, f];
    }
    match r.below(6) {
        0 => [0.0, 1.0, -1.0, 0.0, e, f],
        1 => [0.1, 0.0, 0.0, 0.3, e, f],
        2 => [r.pick(&[1e120, 1e300]), 0.0, 0.0, 1.0, e, f],
        3 => [-1.0, 0.5, 0.25, 3.0, e, -0.0],
        4 => [0.0; 6],
        _ => [1.0, 0.0, 0.0, 1.0, e, f],
    }
}

/// A focus for a tree: one of its nodes, now and then an absent one.
fn focus(r: &mut Rng, s: &mut State, ids: &[Id], tree: u32) {
    let own: Vec<u64> = ids.iter().filter(|x| x.0 == tree).map(|x| x.1).collect();
    let chosen = if own.is_empty() || r.chance(3) { 77 } else { r.pick(&own) };
    if let Some(at) = &mut s.trees[tree as usize].1 {
        at.1 = chosen;
    }
}
