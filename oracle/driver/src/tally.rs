//! Runs calls on both sides, compares the whole answers and counts.
use crate::library::{self, Given};
use crate::questions::Asked;
use crate::reasons::{self, Judged, Reasons};
use crate::{memory, text};
use calls::judge::{Answer, Call, Did, Held, held, judge};
use calls::plain::{Id, State};
use calls::shows::{graft_depth, shows};
use cartgravel::sys::{self, Lengths, OptionalId, Reply, Report};
use std::collections::BTreeMap;

/// A state on both sides: the crate's own and the library's own.
pub struct Pair {
    pub held: Held,
    pub memory: Box<sys::State>,
}

impl Pair {
    /// The crate's state, and the same written into memory.
    pub fn new(held: Held) -> Pair {
        Pair { memory: memory::written(&held.plain), held }
    }
}

/// What was compared so far.
#[derive(Default)]
pub struct Tally {
    /// By kind of call and number.
    counts: BTreeMap<(char, u8), u64>,
    shown: BTreeMap<&'static str, u64>,
    /// What the crate did where document 01's own rule refuses, by number and kind of call: how often, and
    /// the shortest call.
    did: BTreeMap<(u8, char, Did), (u64, String)>,
    restored: u64,
    differences: u64,
    pub asked: Asked,
    reasons: Reasons,
    /// The shortest description of a difference.
    shortest: Option<String>,
}

/// A run ends when so many calls differ.
const LIMIT: u64 = 1000;

impl Tally {
    /// Nothing was compared; the questions are chosen by this seed.
    pub fn new(seed: u64) -> Tally {
        Tally { asked: Asked::new(seed), ..Tally::default() }
    }

    /// The calls compared.
    pub fn calls(&self) -> u64 {
        self.counts.values().sum()
    }

    /// The batches among them.
    pub fn batches(&self) -> u64 {
        self.counts.iter().filter(|((kind, _), _)| *kind == 'u').map(|(_, n)| n).sum()
    }

    /// The batches that got this number.
    pub fn batches_with(&self, number: u8) -> u64 {
        self.counts.get(&('u', number)).copied().unwrap_or(0)
    }

    /// Whether so many calls or questions differ that the run ends.
    pub fn gave_up(&self) -> bool {
        self.differences + self.asked.differences + self.reasons.wrong >= LIMIT
    }

    /// A call on a sound state that both sides hold (none: a start). Answers what is due, and the next state
    /// if the call is accepted.
    pub fn call(&mut self, on: Option<&Pair>, call: &Call) -> (Answer, Option<Pair>) {
        let (answer, next) = judge(on.map(|p| &p.held), call);
        let memory = on.map(|p| &*p.memory);
        let given = library::run(memory, call);
        let mut parts = differing(memory, call, &answer, &given);
        if given.reply.number == 0 && answer.number == 0 && given.memory_differs(&answer, call, memory) {
            parts.push("state");
        }
        self.count(on.map(|p| &p.held.plain), call, &answer);
        self.note(&parts, on.map(|p| &p.held.plain), call, &answer, &given);
        self.explain(on.map(|p| &p.held), memory, call, answer.number);
        let next = next
            .map(|held| if parts.is_empty() { Pair { held, memory: given.memory } } else { Pair::new(held) });
        (answer, next)
    }

    /// A call on any memory. Its state is judged as state_array/specs/View shows it; an accepted outcome has the one form.
    pub fn call_on_memory(&mut self, memory: &sys::State, call: &Call) {
        let before = memory::shown(memory);
        let sound = before.clone().filter(State::sound);
        let slice = if let Call::Update(_, slice) = call { slice.clone() } else { vec![] };
        let sound = sound.map(held);
        let answer = match &sound {
            Some(s) => judge(Some(s), call).0,
            None => Answer { number: 1, slice, ..Answer::default() },
        };
        let given = library::run(Some(memory), call);
        let mut parts = differing(Some(memory), call, &answer, &given);
        if given.reply.number == 0 && answer.number == 0 && given.memory_differs(&answer, call, Some(memory))
        {
            parts.push("state");
        }
        *self.shown.entry("a state's memory changed").or_default() += 1;
        let still = "a state's memory changed, and the state is sound";
        *self.shown.entry(still).or_default() += (answer.number != 1) as u64;
        self.count(before.as_ref(), call, &answer);
        self.note(&parts, before.as_ref(), call, &answer, &given);
        self.explain(sound.as_ref(), Some(memory), call, answer.number);
    }

    /// Asks why a start or a batch gets its number, and tests the reason. `before` is the state on the crate's side; there
    /// is none before a start, and where the memory is not sound.
    fn explain(&mut self, before: Option<&Held>, memory: Option<&sys::State>, call: &Call, number: u8) {
        let (input, room) = match call {
            Call::Start(input, _) => (input, 0),
            Call::Update(input, slice) => (input, slice.len()),
            Call::Host(_) => return,
        };
        let why = reasons::ask(memory.filter(|_| call.kind() == 'u'), input, room);
        let unsound = before.is_none() && call.kind() == 'u';
        let tested = match memory {
            Some(memory) if unsound => why.holds_unsound(memory),
            _ => why.holds(&Judged { number, before: before.filter(|_| call.kind() == 'u'), input, room }),
        };
        self.reasons.count(&why, if unsound { 2 } else { (call.kind() == 's') as usize });
        if let Err(fault) = tested {
            let shown = memory.and_then(memory::shown);
            self.reasons.note(&why, fault, self.calls(), described(shown.as_ref(), call));
        }
    }

    /// Counts a call: its number, what it shows, and what the crate did where document 01's own rule refuses.
    fn count(&mut self, before: Option<&State>, call: &Call, answer: &Answer) {
        *self.counts.entry((call.kind(), answer.number)).or_default() += 1;
        for (what, holds) in shows(before, call, answer).into_iter().chain(at_limits(call, answer)) {
            *self.shown.entry(what).or_default() += holds as u64;
        }
        self.restored += answer.restored as u64;
        let Some(did) = answer.did else { return };
        let said = described(before, call);
        let row = self.did.entry((answer.number, call.kind(), did)).or_insert((0, said.clone()));
        row.0 += 1;
        if said.len() < row.1.len() {
            row.1 = said;
        }
    }

    /// Counts a difference; the first is described at once, the shortest at the end.
    fn note(&mut self, parts: &[&str], before: Option<&State>, call: &Call, answer: &Answer, given: &Given) {
        if parts.is_empty() {
            return;
        }
        self.differences += 1;
        let said = format!(
            "differs in {}: {}\n  due: {}\n  given: {}",
            parts.join(", "),
            described(before, call),
            text::due(answer),
            text::given(given)
        );
        if self.differences == 1 {
            println!("call {}, the first that differs\n{said}", self.calls());
        }
        if self.shortest.as_ref().is_none_or(|s| said.len() < s.len()) {
            self.shortest = Some(said);
        }
    }

    /// Prints the counts. Answers whether the numbers in `due` occurred and nothing differs.
    pub fn report(&self, due: &[u8]) -> bool {
        self.report_numbers();
        self.report_rules();
        println!("\nwhat the calls show:");
        for (what, count) in &self.shown {
            println!("{count:8}  {what}");
        }
        if let Some(said) = &self.shortest {
            println!("\nthe shortest difference\n{said}");
        }
        let missing: Vec<u8> = due.iter().filter(|n| self.with(**n) == 0).copied().collect();
        if !missing.is_empty() {
            println!("\nnumbers that did not occur: {missing:?}");
        }
        self.asked.report() & self.reasons.report() & (missing.is_empty() && self.differences == 0)
    }

    /// The calls of all kinds that got this number.
    fn with(&self, number: u8) -> u64 {
        self.counts.iter().filter(|((_, n), _)| *n == number).map(|(_, count)| count).sum()
    }

    /// The calls per number.
    fn report_numbers(&self) {
        println!("number  batches  starts  host focus changes");
        let of = |kind: char, n: u8| self.counts.get(&(kind, n)).copied().unwrap_or(0);
        for n in 0..=21 {
            println!("{n:6}  {:7}  {:6}  {:18}", of('u', n), of('s', n), of('h', n));
        }
        println!(
            "{} calls compared, {} of them batches; {} differ",
            self.calls(),
            self.batches(),
            self.differences
        );
    }

    /// How many comparisons rest on document 01's own rule, and what the crate did, with the shortest call.
    fn report_rules(&self) {
        println!("\njudged by document 01's own rule and not by the crate:");
        for n in [1, 2, 5, 8, 19, 20, 21] {
            println!("{:8}  number {n}", self.with(n));
        }
        println!("{:8}  accepted, with the lost parent link put back", self.restored);
        println!("\nwhat the crate did there:");
        for ((number, kind, did), (count, said)) in &self.did {
            let what = if *kind == 's' { "start" } else { "batch" };
            println!("{count:8}  {number}, {what}: {}\n          {said:.400}", text::did(did));
        }
    }
}

/// What a call shows of document 01's limits.
fn at_limits(call: &Call, a: &Answer) -> [(&'static str, bool); 7] {
    let accepted = a.number == 0 && call.kind() == 'u';
    [
        ("accepted: 64 nodes listed", accepted && call.listed() == 64),
        ("refused with 2: 65 nodes listed", a.number == 2 && call.listed() == 65),
        ("accepted: 256 nodes in the outcome", accepted && a.state.nodes.len() == 256),
        ("accepted: 32 tree numbers taken", accepted && a.state.trees.len() == 32),
        ("accepted: a tree three grafts deep", accepted && graft_depth(&a.state) > 2),
        ("accepted: the lists fill the slice", accepted && a.listed() == a.slice.len() && a.listed() > 0),
        ("accepted: the host is not focused", accepted && !a.state.host),
    ]
}

/// A call and the state that it is made on.
fn described(before: Option<&State>, call: &Call) -> String {
    match (call, before) {
        (Call::Start(..), _) => text::call(call),
        (_, Some(s)) => format!("{}; on {}", text::call(call), text::state(s)),
        (_, None) => format!("{}; on memory with ids out of order", text::call(call)),
    }
}

impl Given {
    /// The memory after an accepted call is not the one form of the answer's state; a host focus change alters one word
    /// of the memory handed in.
    fn memory_differs(&self, answer: &Answer, call: &Call, on: Option<&sys::State>) -> bool {
        let due = match (call, on) {
            (Call::Host(host), Some(m)) => {
                let mut due = Box::new(m.clone());
                due.words[memory::HOST] = *host as u64;
                due
            }
            _ => memory::written(&answer.state),
        };
        self.memory != due
    }
}

/// The parts of the answer that differ, an accepted state left out.
fn differing(on: Option<&sys::State>, call: &Call, answer: &Answer, given: &Given) -> Vec<&'static str> {
    let mut out = vec![];
    let mut test = |differs: bool, part: &'static str| {
        if differs {
            out.push(part);
        }
    };
    let (g, d) = (&given.reply, due_reply(answer));
    let focus = |r: &Report| (r.focus_before, r.focus_after);
    let extra = |r: &Report| (r.extra_before, r.extra_after);
    test(g.number != d.number, "number");
    test(g.lengths != d.lengths, "lengths");
    test(focus(&g.report) != focus(&d.report), "focus");
    test(extra(&g.report) != extra(&d.report), "extra ids");
    test(given.slice != answer.slice, "slice");
    test(given.strayed, "memory beside the slice");
    if answer.number != 0 {
        let kept = match (call, on) {
            (Call::Update(..) | Call::Host(_), Some(m)) => *given.memory == *m,
            _ => given.memory == memory::blank(),
        };
        test(!kept, "state not handed back");
    }
    out
}

/// The reply that is due.
fn due_reply(a: &Answer) -> Reply {
    let id =
        |x: Option<Id>| x.map_or(OptionalId::default(), |(tree, node)| OptionalId { node, tree, present: 1 });
    Reply {
        lengths: Lengths {
            added: a.added.len(),
            updated: a.updated.len(),
            removed: a.removed.len(),
            relinked: a.relinked.len(),
        },
        report: Report {
            focus_before: id(a.focus.0),
            focus_after: id(a.focus.1),
            extra_before: id(a.extra.0),
            extra_after: id(a.extra.1),
        },
        number: a.number.into(),
    }
}
