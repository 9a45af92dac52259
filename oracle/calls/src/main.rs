//! Makes histories of calls from a seed, runs the crate's real source on them,
//! and prints one JSON line a call: the state before, the call, the whole answer.
//!
//!     calls --calls 3000 --seed 1
//!     calls --crowded 24 --seed 1
//!     calls --screens 40 --seed 1
//!
//! The second makes histories of states near 256 nodes instead, and prints all
//! their calls until 24 had number 20. The third prints questions about so many
//! made screens instead, a line each.
use calls::judge::{Answer, Call, Held, Input, judge, on_unsound};
use calls::make::{self, Rng, World};
use calls::plain::{NODES, State, TREES};
use calls::shows::shows;
use calls::{asked, cases, json};
use std::collections::BTreeMap;
use std::io::{BufWriter, Write};

/// Kind of call and number.
type Slot = (char, u8);

/// How many calls of each slot are still wanted, and what the printed ones show.
struct Sink {
    /// Passes over no call whose slot is open.
    all: bool,
    wanted: BTreeMap<Slot, usize>,
    seen: BTreeMap<&'static str, usize>,
    out: BufWriter<std::io::Stdout>,
}

impl Sink {
    fn new(calls: usize) -> Sink {
        let share = |per_3000: usize| (calls * per_3000).div_ceil(3000);
        let mut wanted = BTreeMap::new();
        for n in [5, 9, 10, 11, 12, 13, 14, 15, 16, 17, 19] {
            wanted.insert(('s', n), share(12));
        }
        wanted.extend([(('s', 0), share(60)), (('s', 2), share(12)), (('s', 3), share(60))]);
        wanted.extend([(('s', 4), share(60)), (('u', 1), share(60)), (('h', 1), share(12))]);
        wanted.extend([(('u', 2), share(48)), (('h', 0), share(90))]);
        for n in (5..=19).chain([21]) {
            wanted.insert(('u', n), share(66));
        }
        let sum: usize = wanted.values().sum();
        wanted.insert(('u', 0), calls.saturating_sub(sum));
        Sink { all: true, wanted, seen: BTreeMap::new(), out: BufWriter::new(std::io::stdout()) }
    }

    /// Takes every call until `overflows` of number 20 were printed.
    fn crowded(overflows: usize) -> Sink {
        let any = |number| ['s', 'u'].map(|kind| ((kind, number), usize::MAX));
        let mut wanted: BTreeMap<Slot, usize> = (0..=21).flat_map(any).collect();
        wanted.insert(('u', 20), overflows);
        Sink { wanted, ..Sink::new(0) }
    }

    fn left(&self) -> usize {
        self.wanted.values().sum()
    }

    fn wants(&self, slot: Slot) -> bool {
        self.wanted.get(&slot).is_some_and(|n| *n > 0)
    }

    /// Prints the call if its slot is not full. A call that shows nothing rare is often passed over.
    fn offer(&mut self, r: &mut Rng, before: Option<&State>, call: &Call, answer: &Answer) {
        let kind = call.kind();
        if !self.wants((kind, answer.number)) {
            return;
        }
        let shown = shows(before, call, answer);
        let rare = shown.iter().any(|(what, holds)| *holds && !what.ends_with("added"));
        if (kind, answer.number) == ('u', 0) && !rare && !self.all && r.chance(75) {
            return;
        }
        *self.wanted.get_mut(&(kind, answer.number)).unwrap() -= 1;
        for (what, holds) in shown {
            *self.seen.entry(what).or_default() += holds as usize;
        }
        writeln!(self.out, "{}", json::line(before, call, answer)).unwrap();
    }
}

/// One call: judged, offered, and the next state if accepted.
fn run(r: &mut Rng, sink: &mut Sink, held: Option<&Held>, call: Call) -> Option<Held> {
    let (answer, next) = judge(held, &call);
    sink.offer(r, held.map(|h| &h.plain), &call, &answer);
    next
}

fn accepted_start(r: &mut Rng, w: &World, sink: &mut Sink) -> Held {
    loop {
        let call = make::start_call(r, w);
        if let Some(next) = run(r, sink, None, call) {
            return next;
        }
    }
}

fn step(r: &mut Rng, w: &World, sink: &mut Sink, held: Held) -> Held {
    let s = &held.plain;
    if r.chance(3) {
        let damaged = make::damage(r, w, s);
        if !damaged.sound() {
            let call = if r.chance(80) {
                let b = make::batch(r, w, s);
                make::call(r, w, b, true)
            } else {
                Call::Host(r.chance(50))
            };
            sink.offer(r, Some(&damaged), &call, &on_unsound(&damaged, &call));
        }
    }
    let call = make::next_call(r, w, s);
    run(r, sink, Some(&held), call).unwrap_or(held)
}

/// A history in which all tree numbers are taken, for row 8. Its way there is not printed.
fn full_table(r: &mut Rng, w: &World, sink: &mut Sink) {
    let mut quiet = Sink { wanted: BTreeMap::new(), ..Sink::new(0) };
    let mut held = accepted_start(r, w, &mut quiet);
    let roomy = vec![0; 100];
    for k in 0..4 * TREES as u64 {
        if held.plain.trees.len() == TREES {
            break;
        }
        for b in make::graft_and_fill(r, w, &held.plain, (9, k)) {
            let call = Call::Update(Input::Batch(b), roomy.clone());
            held = run(r, &mut quiet, Some(&held), call).unwrap_or(held);
        }
    }
    if held.plain.trees.len() < TREES {
        return;
    }
    for k in 0..2 {
        let batches = make::graft_and_fill(r, w, &held.plain, (10, k));
        for (i, mut b) in batches.into_iter().enumerate() {
            if i == 1 && r.chance(30) {
                make::spoil(r, w, Some(&held.plain), &mut b);
            }
            let call = make::call(r, w, b, true);
            let to = if i == 1 { &mut *sink } else { &mut quiet };
            held = run(r, to, Some(&held), call).unwrap_or(held);
        }
    }
}

/// A history of a state that is filled and then kept near 256 nodes, for row 20.
fn crowded(r: &mut Rng, sink: &mut Sink) {
    let w = World::wide(r);
    let first = Call::Start(Input::Batch(make::start(r, &w)), true);
    let Some(mut held) = run(r, sink, None, first) else { return };
    for _ in 0..24 {
        let room = NODES.saturating_sub(held.plain.nodes.len());
        let more = match r.below(4) {
            _ if room > 62 => 30 + r.below(33),
            0 => room,
            1 => room + 1,
            _ => r.below(62),
        };
        let less = room <= 62 && r.chance(60);
        let b = make::grow(r, &w, &held.plain, more.min(62), less);
        held = run(r, sink, Some(&held), Call::Update(Input::Batch(b), make::filler(1024))).unwrap_or(held);
    }
}

/// Questions about so many made screens, and on standard error what is left out of them.
fn questions(screens: u64, seed: u64) {
    let mut out = BufWriter::new(std::io::stdout());
    let (count, left_out) = asked::print(screens, seed, |line| writeln!(out, "{line}").unwrap());
    out.flush().unwrap();
    eprintln!("{count} questions about {screens} screens");
    for ((what, why), n) in left_out {
        eprintln!("{n:6}  left out: {what}, {why:?}");
    }
}

fn main() {
    // the crate's panics are answers; this program's own are not
    std::panic::set_hook(Box::new(|p| {
        if p.location().is_some_and(|l| l.file().starts_with("calls")) {
            eprintln!("{p}");
        }
    }));
    let (mut calls, mut overflows, mut screens, mut seed) = (3000, 0, 0, 1);
    let args: Vec<String> = std::env::args().skip(1).collect();
    for pair in args.chunks(2) {
        match (pair[0].as_str(), pair.get(1).and_then(|v| v.parse::<u64>().ok())) {
            ("--calls", Some(n)) => calls = n as usize,
            ("--crowded", Some(n)) => overflows = n as usize,
            ("--screens", Some(n)) => screens = n,
            ("--seed", Some(n)) => seed = n,
            _ => {
                eprintln!("usage: calls [--calls N | --crowded N | --screens N] [--seed N]");
                std::process::exit(2);
            }
        }
    }
    if screens > 0 {
        return questions(screens, seed);
    }
    let outcome = std::panic::catch_unwind(|| {
        if overflows > 0 {
            let (mut r, mut sink) = (Rng(seed), Sink::crowded(overflows));
            while sink.wants(('u', 20)) {
                crowded(&mut r, &mut sink);
            }
            sink.out.flush().unwrap();
            return (BTreeMap::new(), sink.seen);
        }
        let (mut r, mut sink) = (Rng(seed), Sink::new(calls));
        for (on, call, number) in cases::known() {
            let (answer, _) = judge(on.as_ref(), &call);
            assert_eq!(answer.number, number, "{call:?}");
            sink.offer(&mut r, on.as_ref().map(|h| &h.plain), &call, &answer);
        }
        sink.all = false;
        let mut tried = 0;
        while sink.left() > 0 && tried < 2000 + 20 * calls {
            tried += 1;
            let w = World::new(&mut r);
            if sink.wants(('u', 8)) && r.chance(10) {
                full_table(&mut r, &w, &mut sink);
            }
            let mut held = accepted_start(&mut r, &w, &mut sink);
            for _ in 0..5 + r.below(30) {
                held = step(&mut r, &w, &mut sink, held);
            }
        }
        sink.out.flush().unwrap();
        sink.wanted.retain(|_, n| *n > 0);
        (sink.wanted, sink.seen)
    });
    let Ok((missing, seen)) = outcome else {
        std::process::exit(1);
    };
    for (what, n) in seen {
        eprintln!("{n:6}  {what}");
    }
    if !missing.is_empty() {
        eprintln!("not filled: {missing:?}");
        std::process::exit(1);
    }
}
