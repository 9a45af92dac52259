//! Made histories of calls, each from a start on, the library's state carried on beside the crate's.
use crate::damage;
use crate::tally::{Pair, Tally};
use calls::cases;
use calls::judge::{Call, Input, judge};
use calls::make::{self, Rng, World};

/// Each number that a batch can get is to have about this many of a thousand.
const SHARE: u64 = 12;

/// Questions are asked on the states of one accepted call in so many, on one damaged copy in so many, and on so many made
/// screens after each history; a walk goes on in the state of one accepted call in so many.
const STATES: u64 = 120;
const DAMAGED: u64 = 8;
const LATER: u64 = 7;
const SCREENS: u64 = 1;

/// Makes histories until so many batches are compared. 8 and 20 come from worlds of many trees or nodes.
pub fn run(tally: &mut Tally, batches: u64, seed: u64) {
    known(tally);
    let mut r = Rng(seed);
    while tally.batches() < batches && !tally.gave_up() {
        let (w, steps) = if is_short(tally, 8) {
            (World::crowded(&mut r), 500)
        } else if is_short(tally, 20) {
            (World::wide(&mut r), 300)
        } else {
            (World::new(&mut r), 5 + r.below(30))
        };
        history(tally, &mut r, &w, steps, batches);
        tally.asked.screens(SCREENS);
    }
}

/// Whether a number has less than its share of the batches so far.
fn is_short(tally: &Tally, number: u8) -> bool {
    1000 * tally.batches_with(number) < SHARE * tally.batches()
}

/// A start and the steps after it.
fn history(tally: &mut Tally, r: &mut Rng, w: &World, steps: usize, batches: u64) {
    let mut pair = started(tally, r, w);
    for _ in 0..steps {
        if tally.batches() < batches {
            pair = step(tally, r, w, pair);
        }
    }
}

/// The fixed list, each call with its number beside it.
fn known(tally: &mut Tally) {
    for (on, call, number) in cases::known() {
        assert_eq!(judge(on.as_ref(), &call).0.number, number, "{call:?}");
        tally.call(on.map(Pair::new).as_ref(), &call);
    }
}

/// Starts until one is accepted.
fn started(tally: &mut Tally, r: &mut Rng, w: &World) -> Pair {
    loop {
        let call = make::start_call(r, w);
        if let (_, Some(pair)) = tally.call(None, &call) {
            return pair;
        }
    }
}

/// One call, before it now and then one on a damaged copy of the state.
fn step(tally: &mut Tally, r: &mut Rng, w: &World, pair: Pair) -> Pair {
    if r.chance(3) {
        let memory = damage::damaged(r, w, &pair);
        let call = make::next_call(r, w, &pair.held.plain);
        tally.call_on_memory(&memory, &call);
        if tally.calls() % DAMAGED == 0 {
            tally.asked.memory(&memory);
        }
    }
    let call = match r.below(100) {
        0 | 1 => make::limit_call(r, &pair.held.plain),
        2 => make::noise_call(r, w, &pair.held.plain),
        _ => wanted_call(tally, r, w, &pair),
    };
    let (answer, next) = tally.call(Some(&pair), &call);
    if let (Call::Update(input, _), 0, true) = (&call, answer.number, r.chance(5)) {
        tight(tally, &pair, input, answer.listed());
    }
    if let Some(next) = next {
        if tally.calls() % STATES == 0 {
            tally.asked.pair(&next);
        }
        if tally.calls() % LATER == 0 {
            tally.asked.later(&pair.held.plain, &next);
        }
        return next;
    }
    pair
}

/// A batch again, with a slice as long as its lists and with one that is too short by one.
pub fn tight(tally: &mut Tally, pair: &Pair, input: &Input, listed: usize) {
    for room in [listed, listed.saturating_sub(1)] {
        tally.call(Some(pair), &Call::Update(input.clone(), make::filler(room)));
    }
}

/// The next call; while some number is short, the first of several that gets such a number, if one does.
fn wanted_call(tally: &Tally, r: &mut Rng, w: &World, pair: &Pair) -> Call {
    let short: Vec<u8> = (5..=21).filter(|n| ![8, 20].contains(n) && is_short(tally, *n)).collect();
    let mut call = make::next_call(r, w, &pair.held.plain);
    for _ in 0..6 {
        if short.is_empty() || short.contains(&judge(Some(&pair.held), &call).0.number) {
            break;
        }
        call = make::next_call(r, w, &pair.held.plain);
    }
    call
}
