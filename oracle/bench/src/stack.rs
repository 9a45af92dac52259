//! The deepest stack of each call, and of each question over the nodes of two chains of 256: the memory below a frame
//! is painted, and what a call has written over is looked for.
use crate::inputs::{Batch, Shape};
use crate::questions::*;
use crate::screens::{Screen, clipping_chain, forked_chain};
use calls::plain::Id;
use cartgravel::{CHANGES, STACK, TreeId, WAY_WORDS, sys};
use std::hint::black_box;
use std::ptr::with_exposed_provenance;

const PAINTED: usize = 512 * 1024;
const PAINT: u8 = 0xA5;
/// The longest label.
const LABEL: usize = 32;

/// Paints the memory below the caller's frame; answers where it begins.
#[inline(never)]
fn paint() -> usize {
    let mut below = [PAINT; PAINTED];
    black_box(&mut below).as_ptr().expose_provenance()
}

/// How much of the painted memory, from its end, was written over.
#[inline(never)]
fn written_over(start: usize) -> usize {
    // SAFETY: these bytes are this thread's stack, mapped since they were painted; nothing else names them.
    let painted = |at: &usize| unsafe { with_exposed_provenance::<u8>(start + at).read_volatile() } == PAINT;
    PAINTED - (0..PAINTED).take_while(painted).count()
}

/// Bytes of stack that a call takes.
#[inline(never)]
fn stack_of(call: &mut dyn FnMut()) -> usize {
    let start = paint();
    call();
    written_over(start)
}

/// An answer that nobody reads.
fn done<T>(answer: T) {
    black_box(&answer);
}

/// Prints the table.
pub fn print() {
    println!("\n| call | answer, bytes | stack, bytes |\n|---|---|---|");
    calls();
    let screens = [clipping_chain(256), forked_chain(256)];
    for (words, size, question) in questions() {
        line(words, size, deepest(&screens, |screen, id| question_stack(screen, question, id)));
    }
    reading(&screens[0].ours, screens[0].ids[255]);
    line("`cartgravel_next`", size_of::<sys::FoundId>(), deepest(&screens, step_stack));
}

/// The most that is taken over the nodes of some screens.
fn deepest(screens: &[Screen], taken: impl Fn(&Screen, Id) -> usize) -> usize {
    let of_screen = |screen: &Screen| screen.ids.iter().map(|id| taken(screen, *id)).max();
    screens.iter().filter_map(of_screen).max().expect("there are nodes")
}

/// The questions about a node's own data, the trees and the focus.
fn reading(state: &sys::State, last: Id) {
    let (found, id, mut label) = (size_of::<sys::FoundId>(), named(last), [0; LABEL]);
    line("`cartgravel_node`", size_of::<sys::PlainNode>(), stack_of(&mut || done(state.node(id))));
    line("`cartgravel_label`", size_of::<sys::Listed>(), stack_of(&mut || done(state.label(id, &mut label))));
    line("`cartgravel_focus`", found, stack_of(&mut || done(state.focus())));
    line("`cartgravel_root`", found, stack_of(&mut || done(state.root())));
    line("`cartgravel_tree_id`", size_of::<sys::PlainTreeId>(), stack_of(&mut || done(state.tree_id(0))));
    line(
        "`cartgravel_tree_index`",
        size_of::<sys::PlainIndex>(),
        stack_of(&mut || done(state.tree_index(TreeId::ROOT))),
    );
    line("`cartgravel_tree_ends`", size_of::<sys::PlainEnds>(), stack_of(&mut || done(state.tree_ends(0))));
}

/// The stack of a question.
fn question_stack(screen: &Screen, question: Question, id: Id) -> usize {
    let mut room = [0; _];
    stack_of(&mut || done(ours(&screen.ours, question, id, &mut room)))
}

/// The stack of the first step of a walk.
fn step_stack(screen: &Screen, id: Id) -> usize {
    let mut walk = sys::Walk { node: named(id), side: FOLLOWING, filter: COMMON, count: 0 };
    stack_of(&mut || done(walk.next(&screen.ours)))
}

/// The three calls, with as many nodes listed as a record has.
fn calls() {
    let chain = Shape { nodes: 64, fan: 1 };
    let (start, labels) = (chain.start().record(), Batch::of(chain.start().nodes).record());
    let (mut state, mut changes) = (Box::new(sys::State::blank()), [0; CHANGES]);
    let size = size_of::<sys::Reply>();
    line("`cartgravel_start`", size, stack_of(&mut || done(state.start(&start, true))));
    line("`cartgravel_update`", size, stack_of(&mut || done(state.update(&labels, &mut changes))));
    line("`cartgravel_host_focus`", size, stack_of(&mut || done(state.host_focus(false))));
    let (mut way, size) = ([0; WAY_WORDS], size_of::<sys::Explanation>());
    line("`cartgravel_explain`", size, stack_of(&mut || done(state.explain(&labels, CHANGES, &mut way))));
    line("`cartgravel_explain_start`", size, stack_of(&mut || done(state.explain_start(&start, &mut way))));
}

/// The questions, each of which is asked of every node.
fn questions() -> Vec<(&'static str, usize, Question)> {
    let (found, listed) = (size_of::<sys::FoundId>(), size_of::<sys::Listed>());
    vec![
        ("`cartgravel_counts`", size_of::<sys::PlainCounts>(), Question::Judged),
        ("`cartgravel_parent`", found, Question::Parent),
        ("`cartgravel_children`", listed, Question::Children),
        ("`cartgravel_hidden`", size_of::<sys::Flag>(), Question::Hidden),
        ("`cartgravel_transform`", size_of::<sys::PlainTransform>(), Question::Transform),
        ("`cartgravel_bounding_box`", size_of::<sys::PlainBox>(), Question::BoundingBox),
        ("`cartgravel_filter`, common", size_of::<sys::PlainResult>(), Question::Filter(COMMON)),
        ("the same, root exception", size_of::<sys::PlainResult>(), Question::Filter(WITH_ROOT_EXCEPTION)),
        (
            "the same, no parent checks",
            size_of::<sys::PlainResult>(),
            Question::Filter(WITHOUT_PARENT_CHECKS),
        ),
        ("`cartgravel_filtered_parent`", found, Question::FilteredParent(COMMON)),
        ("`cartgravel_first_filtered_child`", found, Question::FirstChild(COMMON)),
        ("`cartgravel_last_filtered_child`", found, Question::LastChild(COMMON)),
        ("`cartgravel_deepest_first_filtered_child`", found, Question::DeepestFirst(COMMON)),
        ("`cartgravel_deepest_last_filtered_child`", found, Question::DeepestLast(COMMON)),
        ("`cartgravel_siblings`", listed, Question::Siblings(FOLLOWING)),
        ("`cartgravel_filtered_children`", listed, Question::FilteredChildren(COMMON)),
        ("`cartgravel_filtered_siblings`", listed, Question::FilteredSiblings(COMMON, FOLLOWING)),
    ]
}

fn line(words: &str, size: usize, stack: usize) {
    assert!(stack <= STACK, "{words} takes {stack} bytes of stack");
    println!("| {words} | {size} | {stack} |");
}
