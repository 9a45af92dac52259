//! Time per question: the whole question, judging the state alone, our own work as the difference of the two, and the
//! crate's time for the same question. Both sides must answer the same.
use crate::clock::{per_call, spent};
use crate::questions::*;
use crate::screens::Screen;
use calls::plain::Id;

/// The most questions between two readings of the clock.
const CHUNK: usize = 16;
/// The most and the fewest rounds of a row, and for how many microseconds of the processor there are more than these.
const MOST: usize = 301;
const FEWEST: usize = 5;
const LONG: f64 = 100_000.0;
/// Quick questions are asked again until they take about this long, in microseconds; slow ones are asked once.
const ENOUGH: f64 = 20.0;
const SLOW: f64 = 1000.0;

/// Microseconds per question, medians of the rounds.
#[derive(Clone, Copy)]
pub struct Asked {
    pub ours: f64,
    pub judged: f64,
    pub own: f64,
    pub theirs: f64,
}

/// A question, which of the nodes it is asked of, and the words for it.
pub struct Row {
    pub words: &'static str,
    pub question: Question,
    pub of: Of,
}

/// The nodes that a row asks about.
#[derive(Clone, Copy, PartialEq)]
pub enum Of {
    Every,
    Slowest,
    Root,
    Middle,
    Last,
}

/// All rows.
pub fn rows() -> Vec<Row> {
    let row = |words, question, of| Row { words, question, of };
    let sides = [
        row("siblings after a node", Question::Siblings(FOLLOWING), Of::Middle),
        row("siblings before it", Question::Siblings(PRECEDING), Of::Middle),
        row("filtered siblings after a node", Question::FilteredSiblings(COMMON, FOLLOWING), Of::Middle),
        row("filtered siblings before it", Question::FilteredSiblings(COMMON, PRECEDING), Of::Middle),
    ];
    let mut rows = vec![
        row("parent", Question::Parent, Of::Every),
        row("children", Question::Children, Of::Every),
        row("hidden", Question::Hidden, Of::Every),
        row("transform", Question::Transform, Of::Every),
        row("bounding box", Question::BoundingBox, Of::Every),
        row("`common_filter`", Question::Filter(COMMON), Of::Every),
        row("the same, the slowest node", Question::Filter(COMMON), Of::Slowest),
        row("with the root exception", Question::Filter(WITH_ROOT_EXCEPTION), Of::Every),
        row("the same, the slowest node", Question::Filter(WITH_ROOT_EXCEPTION), Of::Slowest),
        row("without parent checks", Question::Filter(WITHOUT_PARENT_CHECKS), Of::Every),
        row("the same, the slowest node", Question::Filter(WITHOUT_PARENT_CHECKS), Of::Slowest),
        row("filtered parent", Question::FilteredParent(COMMON), Of::Every),
        row("filtered children of the root", Question::FilteredChildren(COMMON), Of::Root),
        row("the same, the slowest node", Question::FilteredChildren(COMMON), Of::Slowest),
    ];
    rows.extend(sides);
    rows.extend([
        row("first filtered child of the root", Question::FirstChild(COMMON), Of::Root),
        row("last filtered child", Question::LastChild(COMMON), Of::Root),
        row("deepest first filtered child", Question::DeepestFirst(COMMON), Of::Root),
        row("deepest last filtered child", Question::DeepestLast(COMMON), Of::Root),
    ]);
    rows
}

/// The filtered questions of the last node.
pub fn last_rows() -> Vec<Row> {
    let row = |words, question| Row { words, question, of: Of::Last };
    vec![
        row("`common_filter`", Question::Filter(COMMON)),
        row("filtered parent", Question::FilteredParent(COMMON)),
        row("filtered children", Question::FilteredChildren(COMMON)),
        row("first filtered child", Question::FirstChild(COMMON)),
        row("last filtered child", Question::LastChild(COMMON)),
        row("deepest first filtered child", Question::DeepestFirst(COMMON)),
        row("deepest last filtered child", Question::DeepestLast(COMMON)),
        row("filtered siblings after it", Question::FilteredSiblings(COMMON, FOLLOWING)),
        row("filtered siblings before it", Question::FilteredSiblings(COMMON, PRECEDING)),
    ]
}

/// Both answers must be equal.
fn compare(screen: &Screen, question: Question, id: Id) {
    let (mut x, mut y) = ([0; _], [0; _]);
    let (given, due) =
        (ours(&screen.ours, question, id, &mut x), theirs(&screen.theirs, question, id, &mut y));
    assert!(given == due && x == y, "{}: {question:?} of {id:?}: {given:?}, the crate {due:?}", screen.name);
}

/// A row on a state.
pub fn asked(screen: &Screen, row: &Row) -> Asked {
    let ids = match row.of {
        Of::Every => screen.ids.clone(),
        Of::Slowest => vec![slowest(screen, row.question)],
        Of::Root => vec![screen.ids[0]],
        Of::Middle => vec![middle(screen)],
        Of::Last => vec![last(screen)],
    };
    ids.iter().for_each(|id| compare(screen, row.question, *id));
    timed(screen, row.question, &ids)
}

/// The node of whom ours is asked longest, by the least of a few passes over all nodes.
fn slowest(screen: &Screen, question: Question) -> Id {
    let mut room = [0; _];
    let mut least = vec![f64::INFINITY; screen.ids.len()];
    for _ in 0..5 {
        for (id, least) in screen.ids.iter().zip(&mut least) {
            *least = least.min(per_call(0..1, |_| ours(&screen.ours, question, *id, &mut room)));
        }
    }
    let times = screen.ids.iter().zip(least);
    *times.max_by(|x, y| x.1.total_cmp(&y.1)).expect("a node").0
}

/// The node nearest the middle that has filtered siblings on both sides, else the one in the middle.
pub fn middle(screen: &Screen) -> Id {
    let count = |id, side| ours(&screen.ours, Question::FilteredSiblings(COMMON, side), id, &mut [0; _]);
    let between = |k: &usize| {
        [FOLLOWING, PRECEDING].iter().all(|side| count(screen.ids[*k], *side) != Answer::Listed(0))
    };
    let half = screen.ids.len() / 2;
    let found = (0..screen.ids.len()).filter(between).min_by_key(|k| k.abs_diff(half));
    screen.ids[found.unwrap_or(half)]
}

/// The last node that is neither hidden nor a container.
fn last(screen: &Screen) -> Id {
    let question = Question::Filter(WITHOUT_PARENT_CHECKS);
    let included = |id: &&Id| ours(&screen.ours, question, **id, &mut [0; _]) == Answer::Result(0);
    *screen.ids.iter().rev().find(included).expect("a node")
}

/// Rounds of whole questions, of judging alone and of the crate, a few questions in turn. A few questions' time is the
/// median of the rounds, and these are added up.
fn timed(screen: &Screen, question: Question, ids: &[Id]) -> Asked {
    let mut all = [0.0; 4];
    let chunks: Vec<&[Id]> = ids.chunks(CHUNK).collect();
    let again: Vec<[usize; 2]> = chunks.iter().map(|chunk| repeats(screen, question, chunk)).collect();
    let rounds = rounds(|| {
        chunks.iter().zip(&again).map(|(chunk, again)| round(screen, question, chunk, *again)).collect()
    });
    for (k, chunk) in chunks.iter().enumerate() {
        let share = chunk.len() as f64 / ids.len() as f64;
        let median =
            |of: &dyn Fn(&[f64; 3]) -> f64| share * median(rounds.iter().map(|round: &Vec<_>| of(&round[k])));
        all[0] += median(&|r| r[0]);
        all[1] += median(&|r| r[1]);
        all[2] += median(&|r| r[0] - r[1]);
        all[3] += median(&|r| r[2]);
    }
    let [ours, judged, own, theirs] = all;
    Asked { ours, judged, own, theirs }
}

/// As many rounds as a row has.
fn rounds<T>(mut round: impl FnMut() -> T) -> Vec<T> {
    let began = spent();
    let mut rounds = vec![round()];
    while rounds.len() < FEWEST || (rounds.len() < MOST && spent() - began < LONG) {
        rounds.push(round());
    }
    rounds
}

fn median(times: impl Iterator<Item = f64>) -> f64 {
    let mut all: Vec<f64> = times.collect();
    all.sort_by(f64::total_cmp);
    all[all.len() / 2]
}

/// How often ours and the crate are asked the same in a round.
fn repeats(screen: &Screen, question: Question, chunk: &[Id]) -> [usize; 2] {
    let mut room = [0; _];
    let whole = per_call(chunk.iter(), |id| ours(&screen.ours, question, *id, &mut room));
    let once = per_call(chunk.iter(), |id| theirs(&screen.theirs, question, *id, &mut room)).max(0.01);
    let full = if whole < SLOW { CHUNK / chunk.len() } else { 1 };
    [full, (ENOUGH / (once * chunk.len() as f64)).clamp(1.0, 64.0) as usize]
}

/// Microseconds per question of a few: ours, judging, the crate's.
fn round(screen: &Screen, question: Question, chunk: &[Id], again: [usize; 2]) -> [f64; 3] {
    let mut room = [0; _];
    let [calls, their_calls] = again.map(|times| 0..times * chunk.len());
    let id = |k: usize| chunk[k % chunk.len()];
    let whole = per_call(calls.clone(), |k| ours(&screen.ours, question, id(k), &mut room));
    let judged = per_call(calls, |k| ours(&screen.ours, Question::Judged, id(k), &mut room));
    [whole, judged, per_call(their_calls, |k| theirs(&screen.theirs, question, id(k), &mut room))]
}

/// A whole walk by `next` from the node in the middle: steps, the last one at the end; microseconds of judging and of own
/// work for each step; and own work of one list.
pub struct Walked {
    pub steps: usize,
    pub judged: f64,
    pub own: f64,
    pub list: f64,
}

/// The walk over the following siblings.
pub fn walked(screen: &Screen) -> Walked {
    let id = middle(screen);
    let steps = walk(&screen.ours, id, COMMON, FOLLOWING);
    let question = Question::FilteredSiblings(COMMON, FOLLOWING);
    assert_eq!(ours(&screen.ours, question, id, &mut [0; _]), Answer::Listed(steps - 1), "the walk's steps");
    let list = timed(screen, question, &[id]);
    let rounds = rounds(|| {
        let whole = per_call(0..1, |_| walk(&screen.ours, id, COMMON, FOLLOWING)) / steps as f64;
        [whole, per_call(0..steps, |_| ours(&screen.ours, Question::Judged, id, &mut [0; _]))]
    });
    let own = median(rounds.iter().map(|[whole, judged]| whole - judged));
    Walked { steps, judged: median(rounds.iter().map(|round| round[1])), own, list: list.own }
}
