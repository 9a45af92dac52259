//! One call or question and its whole answer as a line of JSON. Numbers are decimal, f64s
//! their bits, options `null` or the value.
use crate::asked::Asked;
use crate::judge::{Answer, Call, Input};
use crate::plain::*;
use std::fmt::Display;

fn list<T>(items: impl IntoIterator<Item = T>, f: impl Fn(T) -> String) -> String {
    format!("[{}]", items.into_iter().map(f).collect::<Vec<_>>().join(","))
}

fn numbers<T: Display>(items: impl IntoIterator<Item = T>) -> String {
    list(items, |n| n.to_string())
}

fn option<T>(item: Option<T>, f: impl Fn(T) -> String) -> String {
    item.map_or("null".into(), f)
}

fn id(x: Id) -> String {
    format!("[{},{}]", x.0, x.1)
}

fn data(d: &Data) -> String {
    format!(
        r#"{{"active":{},"graft":[{},{}],"children":{},"label":{},"role":{},"flags":{},"bounds":{},"transform":{}}}"#,
        d.active,
        d.graft.0,
        d.graft.1,
        numbers(&d.children),
        numbers(&d.label),
        d.role,
        d.flags,
        numbers(d.bounds),
        numbers(d.transform)
    )
}

fn state(s: &State) -> String {
    let node = |(x, (link, d)): (&Id, &(Link, Data))| {
        let link = option(*link, |(p, i)| format!("[{},{}]", id(p), i));
        format!(r#"{{"id":{},"link":{},"data":{}}}"#, id(*x), link, data(d))
    };
    let tree = |(t, at): &(Tid, Option<(u64, u64)>)| {
        format!(r#"{{"id":[{},{}],"at":{}}}"#, t.0, t.1, option(*at, |(r, f)| format!("[{r},{f}]")))
    };
    format!(r#"{{"nodes":{},"trees":{},"host":{}}}"#, list(&s.nodes, node), list(&s.trees, tree), s.host)
}

fn input(i: &Input) -> String {
    match i {
        Input::Bytes(bytes) => format!(r#"{{"bytes":{}}}"#, numbers(bytes)),
        Input::Batch(b) => format!(
            r#"{{"tree":[{},{}],"root":{},"focus":{},"nodes":{}}}"#,
            b.tree.0,
            b.tree.1,
            option(b.root, |r| r.to_string()),
            b.focus,
            list(&b.nodes, |(n, d)| format!(r#"{{"id":{},"data":{}}}"#, n, data(d)))
        ),
    }
}

pub fn line(before: Option<&State>, call: &Call, a: &Answer) -> String {
    let call = match call {
        Call::Start(i, host) => format!(r#"{{"kind":"start","batch":{},"host":{host}}}"#, input(i)),
        Call::Update(i, slice) => {
            format!(r#"{{"kind":"update","batch":{},"slice":{}}}"#, input(i), numbers(slice))
        }
        Call::Host(host) => format!(r#"{{"kind":"host","host":{host}}}"#),
    };
    let ids = |l: &[Id]| list(l, |x| id(*x));
    format!(
        concat!(
            r#"{{"before":{},"call":{},"number":{},"after":{},"added":{},"updated":{},"removed":{},"relinked":{},"#,
            r#""focus_before":{},"focus_after":{},"extra_before":{},"extra_after":{},"slice":{},"said":"{}"}}"#
        ),
        option(before, state),
        call,
        a.number,
        state(&a.state),
        ids(&a.added),
        ids(&a.updated),
        ids(&a.removed),
        ids(&a.relinked),
        option(a.focus.0, id),
        option(a.focus.1, id),
        option(a.extra.0, id),
        option(a.extra.1, id),
        numbers(&a.slice),
        a.said
    )
}

/// A question and its answer, with the state that it is the first to ask about.
pub fn question(of: Option<&State>, node: Id, q: &Asked) -> String {
    format!(
        r#"{{"state":{},"id":{},"kind":"{}","filter":{},"side":{},"value":{},"words":{}}}"#,
        option(of, state),
        id(node),
        q.kind,
        q.filter,
        q.side,
        q.value,
        numbers(&q.words)
    )
}
