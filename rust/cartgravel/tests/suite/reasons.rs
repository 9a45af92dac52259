//! Why a call gets its number: the worked reasons of crates/reasons/specs/Cases.antt, the smallest calls of demo/numbers,
//! and the rest of the numbers.
use crate::state::{chain, large, on_a_stack};
use crate::{T, batch, id, plain, record, s, s_with_t, screen, started, told};
use cartgravel::{
    Batch, Broken, CHANGES, Dropped, Explanation, FullNodeId, Node, Number, Reason, STACK, START_STACK,
    STATE_WORDS, State, TreeId, WAY_WORDS, sys,
};

/// Another tree.
const U: TreeId = TreeId { high: 5, low: 0 };

/// Why a batch gets its number, with room for its lists. It is the number that the batch gets, and the state stays.
#[track_caller]
fn explained(state: &State, record: &[u8], room: usize) -> Explanation {
    let before = state.clone();
    let why = state.explain(record, room);
    assert_eq!(*state, before);
    let mut changes = [0; CHANGES];
    assert_eq!(state.clone().update(record, &mut changes[..room]).err(), why.number());
    assert_eq!(why.reason().number(), why.number());
    why
}

/// That a batch is refused for a reason, which reads so.
#[track_caller]
fn because(state: &State, batch: &Batch, reason: Reason, words: &str) {
    let why = explained(state, &record(batch), CHANGES);
    assert_eq!(why.reason(), reason);
    assert_eq!(why.to_string(), words);
}

/// Why a start gets its number; it is the number that the start gets, and what was worked in is blank.
#[track_caller]
fn start_explained(record: &[u8]) -> Explanation {
    let why = State::explain_start(record);
    assert_eq!(State::start(record, true).err(), why.number());
    let mut memory = s_with_t();
    assert_eq!(memory.explain_restart(record), why);
    assert_eq!(memory, State::blank());
    why
}

/// That a start is refused for a reason, which reads so.
#[track_caller]
fn start_because(batch: &Batch, reason: Reason, words: &str) {
    let why = start_explained(&record(batch));
    assert_eq!(why.reason(), reason);
    assert_eq!(why.to_string(), words);
}

/// The way of 15 or 17.
fn way(why: &Explanation) -> Vec<FullNodeId> {
    match why.reason() {
        Reason::FocusIntoNothing { way, .. } | Reason::FocusAbsent { way } => way.collect(),
        reason => panic!("{reason:?} has no way"),
    }
}

/// A batch for ROOT without tree data, with focus 1.
fn first<'a>() -> Batch<'a> {
    Batch::new(TreeId::ROOT, 1)
}

/// S where 3 grafts T, which does not exist.
fn s_with_graft() -> State {
    let mut state = s();
    told(&mut state, &batch().nodes(&[plain(3).graft(T)]));
    state
}

#[test]
fn listed_again() {
    let nodes = [plain(1).children(&[2, 3]), plain(3), plain(3)];
    let reason = Reason::ListedTwice { node: id(0, 3), first: 1, second: 2 };
    because(&s(), &batch().nodes(&nodes), reason, "node (0, 3) is listed twice, at the places 1 and 2");
}

#[test]
fn trees() {
    let t = "00000000-0000-0054-0000-000000000000";
    let words = format!("there is tree data for {t}, which no node grafts");
    because(&s(), &Batch::new(T, 1).root(1).nodes(&[plain(1)]), Reason::NotGrafted(T), &words);
    let words = format!("there is no tree data for {t}, and that tree does not exist");
    because(&s_with_graft(), &Batch::new(T, 1).nodes(&[plain(1)]), Reason::NotExisting(T), &words);
}

#[test]
fn no_number_left() {
    let mut state = s();
    let pane = |low| Batch::new(TreeId { high: 0, low }, 1).root(1);
    for low in 1..=32 {
        told(&mut state, &batch().nodes(&[plain(3).graft(TreeId { high: 0, low })]));
        if low < 32 {
            told(&mut state, &pane(low).nodes(&[plain(1)]));
        }
    }
    let words = "the tree 00000000-0000-0000-0000-000000000020 is new, and all tree numbers are taken";
    because(&state, &pane(32), Reason::NoNumberLeft(TreeId { high: 0, low: 32 }), words);
}

#[test]
fn named_again() {
    let nodes = [plain(1).children(&[2, 3]), plain(2).children(&[3])];
    let reason = Reason::NamedTwice { child: id(0, 3), first: id(0, 1), second: id(0, 2) };
    let words = "node (0, 3) is named as a child twice, by (0, 1) and by (0, 2)";
    because(&s(), &batch().nodes(&nodes), reason, words);
}

/// A listed node that is never placed raises no row; the node that is placed does.
#[test]
fn wrong_grafts() {
    let nodes = [plain(4).graft(T).children(&[5]), plain(3).graft(T).children(&[2])];
    let words = "node (0, 3) grafts a tree and has children too";
    because(&s(), &batch().nodes(&nodes), Reason::GraftOverChildren(id(0, 3)), words);
    let nodes = [plain(4).graft(TreeId::ROOT), plain(3).graft(TreeId::ROOT)];
    because(&s(), &batch().nodes(&nodes), Reason::GraftOfRoot(id(0, 3)), "node (0, 3) grafts ROOT");
}

/// The first listed, 4, is placed last, when 3 names it.
#[test]
fn claimed_again() {
    let nodes = [plain(4).graft(T), plain(2).graft(T), plain(3).children(&[4])];
    let reason = Reason::ClaimedTwice { tree: T, first: id(0, 2), second: id(0, 4) };
    let words = "nodes (0, 2) and (0, 4) of the batch both graft 00000000-0000-0054-0000-000000000000";
    because(&s(), &batch().nodes(&nodes), reason, words);
}

/// 2 goes, so 3 may take T from it; 4 keeps U, which 5 claims.
#[test]
fn the_holder_stays() {
    let nodes = [plain(1).children(&[2, 3, 4, 5]), plain(2).graft(T), plain(3), plain(4).graft(U), plain(5)];
    let state = started(&first().root(1).nodes(&nodes));
    let nodes = [plain(2).graft(T), plain(3).graft(T), plain(5).graft(U), plain(1).children(&[3, 4, 5])];
    let reason = Reason::ClaimedFromHolder { tree: U, holder: id(0, 4), claimer: id(0, 5) };
    let words = "node (0, 5) grafts 00000000-0000-0005-0000-000000000000, and (0, 4) would still graft it";
    because(&state, &first().nodes(&nodes), reason, words);
}

#[test]
fn no_place_and_no_child() {
    let reason = Reason::WithoutPlace { node: id(0, 4), place: 1 };
    let words = "node (0, 4), at place 1, is new, and no listed node names it as a child";
    because(&s(), &batch().nodes(&[plain(3), plain(4)]), reason, words);
    let nodes = [plain(2), plain(1).children(&[2, 3, 4])];
    let reason = Reason::ChildNowhere { parent: id(0, 1), child: id(0, 4) };
    let words = "node (0, 1) names the child (0, 4), which is neither present nor listed";
    because(&s(), &batch().nodes(&nodes), reason, words);
}

#[test]
fn the_focus_on_a_graft() {
    let nodes = [plain(3).graft(T)];
    let batch = Batch::new(TreeId::ROOT, 3).nodes(&nodes);
    let why = explained(&s(), &record(&batch), CHANGES);
    assert!(matches!(why.reason(), Reason::FocusIntoNothing { tree: T, .. }));
    assert_eq!(way(&why), [id(0, 3)]);
    let t = "00000000-0000-0054-0000-000000000000";
    assert_eq!(
        why.to_string(),
        format!("the focus would be (0, 3), which grafts {t}, and that tree would not exist")
    );
}

/// The way into a pane whose focus is absent, and into one that grafts a tree that is not there.
#[test]
fn the_way_through_a_graft() {
    let mut state = s_with_t();
    told(&mut state, &Batch::new(T, 9));
    let into = record(&Batch::new(TreeId::ROOT, 3));
    let why = explained(&state, &into, CHANGES);
    assert_eq!((why.number(), way(&why)), (Some(Number::FocusAbsent), vec![id(0, 3), id(1, 9)]));
    assert_eq!(why.to_string(), "the focus would be (0, 3), then in its tree (1, 9), which would be absent");
    assert_eq!(why.reason().mend(), Some("set the pane's focus, by a batch of the pane"));
    told(&mut state, &Batch::new(T, 1).nodes(&[plain(1).graft(U)]));
    let why = explained(&state, &into, CHANGES);
    assert_eq!((why.number(), way(&why)), (Some(Number::FocusOnEmptyGraft), vec![id(0, 3), id(1, 1)]));
    assert!(matches!(why.reason(), Reason::FocusIntoNothing { tree: U, .. }));
}

#[test]
fn the_new_root_is_gone() {
    let nodes = [plain(1).children(&[3])];
    let batch = Batch::new(TreeId::ROOT, 3).root(2).nodes(&nodes);
    because(&s(), &batch, Reason::RootAbsent(Some(id(0, 2))), "the root (0, 2) would be absent");
}

/// 3 goes with 2, which 1 no longer names.
#[test]
fn gone_with_its_parent() {
    let state =
        started(&first().root(1).nodes(&[plain(1).children(&[2]), plain(2).children(&[3]), plain(3)]));
    let dropped = Some(Dropped { node: id(0, 2), by: Some(id(0, 1)) });
    let words =
        "node (0, 3) is listed with a change, but would go: it is below (0, 2), which (0, 1) no longer names";
    let reason = Reason::UpdatedAndGone { node: id(0, 3), dropped };
    because(&state, &first().nodes(&[plain(3).label("a"), plain(1)]), reason, words);
}

/// A node that goes itself, and one that goes with the root that it hangs on.
#[test]
fn gone_itself_and_with_the_root() {
    let dropped = Some(Dropped { node: id(0, 3), by: Some(id(0, 1)) });
    let words = "node (0, 3) is listed with a change, but would go: (0, 1) no longer names it";
    let reason = Reason::UpdatedAndGone { node: id(0, 3), dropped };
    because(&s(), &batch().nodes(&[plain(3).label("a"), plain(1).children(&[2])]), reason, words);
    let nodes = [plain(4), plain(3).label("a")];
    let other = Batch::new(TreeId::ROOT, 4).root(4).nodes(&nodes);
    let dropped = Some(Dropped { node: id(0, 1), by: None });
    let words = "node (0, 3) is listed with a change, but would go: it is below (0, 1), which is no longer its tree's root";
    because(&s(), &other, Reason::UpdatedAndGone { node: id(0, 3), dropped }, words);
}

/// That the outcome of a batch breaks a rule, which reads so.
#[track_caller]
fn outcome(state: &State, batch: &Batch, broken: Broken, words: &str) {
    let words = format!("the outcome would not be sound: {words}");
    because(state, batch, Reason::UnsoundOutcome(Some(broken)), &words);
}

/// A pane's root is named by a node of the pane: it is met under its graft and again.
#[test]
fn the_root_named_in_a_pane() {
    let mut state = s_with_graft();
    told(&mut state, &Batch::new(T, 1).root(1).nodes(&[plain(1).children(&[2]), plain(2)]));
    let nodes = [plain(2).children(&[1])];
    let batch = Batch::new(T, 1).nodes(&nodes);
    let broken = Broken::MetTwice { node: id(1, 1), slot: 3 };
    outcome(&state, &batch, broken, "more than one way leads to node (1, 1)");
}

/// 9 is listed after 1 dropped it, and stays with 4 and 5 below it; 4 is the smallest node that is never met.
#[test]
fn listed_after_its_parent() {
    let nine = || plain(9).children(&[4, 5]);
    let nodes = [plain(1).children(&[9, 8]), nine(), plain(4), plain(5), plain(8)];
    let state = started(&first().root(1).nodes(&nodes));
    let dropped = Some(Dropped { node: id(0, 9), by: Some(id(0, 1)) });
    let words = "node (0, 4) would stay, but nothing leads to it: it is below (0, 9), whose parent (0, 1) is gone or does not lead to it";
    let nodes = [plain(1).children(&[8]), nine()];
    let batch = first().nodes(&nodes);
    outcome(&state, &batch, Broken::NeverMet { node: id(0, 4), slot: 1, dropped }, words);
}

/// That a node stays to which nothing leads, itself being the topmost.
#[track_caller]
fn stays(state: &State, batch: &Batch, node: FullNodeId, slot: usize, by: Option<FullNodeId>, words: &str) {
    let broken = Broken::NeverMet { node, slot, dropped: Some(Dropped { node, by }) };
    outcome(state, batch, broken, &format!("node {node} would stay, but nothing leads to it: {words}"));
}

/// 3 is listed after 1 dropped it; 3 is named by 2, which goes; and the old roots of ROOT and of a pane are listed.
#[test]
fn what_stays_though_nothing_leads_to_it() {
    let nodes = [plain(1).children(&[2]), plain(3)];
    let words = "its parent (0, 1) is gone or does not lead to it";
    stays(&s(), &batch().nodes(&nodes), id(0, 3), 2, Some(id(0, 1)), words);
    let chain =
        started(&first().root(1).nodes(&[plain(1).children(&[2]), plain(2).children(&[3]), plain(3)]));
    let nodes = [plain(2).children(&[3]), plain(1)];
    let words = "its parent (0, 2) is gone or does not lead to it";
    stays(&chain, &first().nodes(&nodes), id(0, 3), 1, Some(id(0, 2)), words);
    let nodes = [plain(1), plain(5)];
    let words = "its parent (0, 3) is gone or does not lead to it";
    stays(&s_with_t(), &Batch::new(T, 5).root(5).nodes(&nodes), id(1, 1), 3, Some(id(0, 3)), words);
    let nodes = [plain(1).children(&[2, 3]), plain(5)];
    let words = "it has no parent and is not the root";
    stays(&s(), &Batch::new(TreeId::ROOT, 5).root(5).nodes(&nodes), id(0, 1), 0, None, words);
}

#[test]
fn the_root_named_and_under_one_that_goes() {
    let broken = Broken::MetTwice { node: id(0, 1), slot: 0 };
    outcome(
        &s(),
        &batch().nodes(&[plain(2).children(&[1])]),
        broken,
        "more than one way leads to node (0, 1)",
    );
    let broken = Broken::WrongLink { node: id(0, 2), slot: 0, recorded: Some(id(0, 1)), met: None };
    outcome(&s(), &batch().root(2), broken, "node (0, 2) records the parent (0, 1) and has no parent");
}

#[test]
fn the_root_of_a_pane_is_absent() {
    let broken = Broken::AbsentBelow { node: id(1, 5), parent: id(0, 3), slot: 2 };
    let words = "node (1, 5), the root of the tree that (0, 3) grafts, is absent";
    outcome(&s_with_t(), &Batch::new(T, 5).root(5), broken, words);
}

/// A start with root 1 and focus 1.
fn one<'a>(nodes: &'a [Node<'a>]) -> Batch<'a> {
    first().root(1).nodes(nodes)
}

/// The smallest calls of demo/numbers that are starts, by their numbers.
#[test]
fn smallest_starts() {
    start_because(&first(), Reason::NoTreeData, "the start has no tree data, so it has no root");
    let seven = TreeId { high: 0, low: 7 };
    let words = "the start is for the tree 00000000-0000-0000-0000-000000000007, not for ROOT";
    start_because(&Batch::new(seven, 1).root(1), Reason::NotRoot(seven), words);
    let reason = Reason::ListedTwice { node: id(0, 1), first: 0, second: 1 };
    start_because(&one(&[plain(1), plain(1)]), reason, "node (0, 1) is listed twice, at the places 0 and 1");
    let reason = Reason::NamedTwice { child: id(0, 2), first: id(0, 1), second: id(0, 1) };
    start_because(&one(&[plain(1).children(&[2, 2])]), reason, "node (0, 1) names the child (0, 2) twice");
    let words = "node (0, 1) grafts a tree and has children too";
    start_because(&one(&[plain(1).graft(7).children(&[2])]), Reason::GraftOverChildren(id(0, 1)), words);
    start_because(&one(&[plain(1).graft(0)]), Reason::GraftOfRoot(id(0, 1)), "node (0, 1) grafts ROOT");
    let reason = Reason::ClaimedTwice { tree: seven, first: id(0, 2), second: id(0, 3) };
    let words = "nodes (0, 2) and (0, 3) of the batch both graft 00000000-0000-0000-0000-000000000007";
    start_because(&one(&[plain(1).children(&[2, 3]), plain(2).graft(7), plain(3).graft(7)]), reason, words);
    let words = "node (0, 2), at place 1, is new, and no listed node names it as a child";
    start_because(&one(&[plain(1), plain(2)]), Reason::WithoutPlace { node: id(0, 2), place: 1 }, words);
    let words = "node (0, 1) names the child (0, 2), which is neither present nor listed";
    let reason = Reason::ChildNowhere { parent: id(0, 1), child: id(0, 2) };
    start_because(&one(&[plain(1).children(&[2])]), reason, words);
    start_because(&one(&[]), Reason::RootAbsent(Some(id(0, 1))), "the root (0, 1) would be absent");
    let broken = Broken::MetTwice { node: id(0, 1), slot: 0 };
    let words = "the outcome would not be sound: more than one way leads to node (0, 1)";
    start_because(&one(&[plain(1).children(&[1])]), Reason::UnsoundOutcome(Some(broken)), words);
}

/// Those of 15 and 17, with their ways.
#[test]
fn smallest_starts_with_a_way() {
    let graft = start_explained(&record(&first().root(1).nodes(&[plain(1).graft(7)])));
    assert_eq!((graft.number(), way(&graft)), (Some(Number::FocusOnEmptyGraft), vec![id(0, 1)]));
    let absent = start_explained(&record(&batch().root(1).nodes(&[plain(1)])));
    assert_eq!((absent.number(), way(&absent)), (Some(Number::FocusAbsent), vec![id(0, 2)]));
    assert_eq!(absent.to_string(), "the focus would be (0, 2), which would be absent");
}

/// A record whose label has 33 bytes, and one cut short.
#[test]
fn no_records() {
    let mut long = record(&first().root(1).nodes(&[plain(1).label(&[b'a'; 32])]));
    long.push(b'a');
    (long[4], long[64 + 38]) = (33, 33);
    let total = u32::try_from(long.len()).unwrap();
    long[20..24].copy_from_slice(&total.to_le_bytes());
    let why = start_explained(&long);
    assert_eq!(why.reason(), Reason::BrokenRecord { rule: 15, offset: 102 });
    assert_eq!(
        why.to_string(),
        "the bytes are no record: a label has more than 32 bytes (rule 15, offset 102)"
    );
    assert_eq!(why.reason().mend(), Some("shorten the label, at a character's end"));
    assert_eq!(explained(&s(), &long, CHANGES), why);
    let why = explained(&s(), &screen()[..63], CHANGES);
    assert_eq!(why.reason(), Reason::BrokenRecord { rule: 1, offset: 63 });
    assert_eq!(
        (start_explained(&[]).to_string(), why.reason().mend()),
        ("the bytes are no record: it has less than 64 bytes (rule 1, offset 0)".to_string(), None)
    );
}

/// The blank state, and S with words changed.
#[test]
fn states_that_are_not_sound() {
    let broken = |state: &State| match explained(state, &record(&first()), CHANGES).reason() {
        Reason::UnsoundState(Some(broken)) => broken,
        reason => panic!("{reason:?}"),
    };
    let changed = |at: usize, word: u64| {
        let mut bytes = s().to_bytes();
        bytes[8 * at..8 * at + 8].copy_from_slice(&word.to_le_bytes());
        State::from_bytes(&bytes)
    };
    assert_eq!(broken(&State::blank()), Broken::RootNotFirst);
    assert_eq!(broken(&changed(0, 257)), Broken::TooManyNodes);
    assert_eq!(broken(&changed(1, 33)), Broken::TooManyTrees);
    let three = id(0, 3);
    let dropped = Some(Dropped { node: three, by: Some(id(0, 1)) });
    // the word of 1's child count, and of 2's flags
    assert_eq!(broken(&changed(168 + 320 * 10, 1)), Broken::NeverMet { node: three, slot: 2, dropped });
    assert_eq!(broken(&changed(168 + 320 * 8 + 1, 64)), Broken::BrokenField { node: id(0, 2), slot: 1 });
    let words = explained(&changed(0, 257), &[], 0).to_string();
    assert_eq!(words, "the state is not sound: there are more than 256 nodes");
}

/// 20 and 21: how many there would be, and how many elements are needed.
#[test]
fn counts() {
    let full = chain();
    let words = "there would be 257 nodes, more than 256";
    because(&full, &batch().nodes(&[plain(256).children(&[257]), plain(257)]), Reason::TooMany(257), words);
    let record = record(&first().nodes(&[plain(1).children(&[2, 3]).label("a")]));
    let why = explained(&s(), &record, 1);
    assert_eq!(why.reason(), Reason::SliceTooShort { needed: 2, lent: 1 });
    assert_eq!(why.to_string(), "the lists take 2 elements, and 1 are lent");
    assert_eq!(explained(&s(), &record, 2).reason(), Reason::Accepted);
}

#[test]
fn accepted_calls() {
    let why = start_explained(&screen());
    assert_eq!((why.number(), why.reason()), (None, Reason::Accepted));
    assert_eq!((why.to_string().as_str(), why.reason().mend()), ("it is accepted", None));
    assert_eq!(explained(&s(), &record(&batch()), 0).reason(), Reason::Accepted);
}

/// The way's words are settled whatever they were, and a start's memory too.
#[test]
fn the_way_is_written_whole() {
    let mut way = [9; WAY_WORDS];
    let mut memory = Box::new(sys::State { words: [9; STATE_WORDS] });
    let why = memory.explain_start(&record(&batch().root(1).nodes(&[plain(1)])), &mut way);
    assert_eq!((why.number, why.place, way[1], &way[2..]), (17, 1, 2, &[0; WAY_WORDS - 2][..]));
    assert!(*memory == sys::State::blank());
    let mut way = [9; WAY_WORDS];
    assert_eq!(memory.explain(&[], 0, &mut way).number, 1);
    assert_eq!(way, [0; WAY_WORDS]);
}

/// A node met twice, and one that is never met.
#[test]
fn mends_of_an_outcome() {
    let why = explained(&s(), &record(&batch().nodes(&[plain(3).children(&[3])])), CHANGES);
    assert_eq!(why.reason().mend(), Some("list the old parent too, without the child"));
    let why = explained(&s(), &record(&batch().nodes(&[plain(1).children(&[2]), plain(3)])), CHANGES);
    assert_eq!(why.reason().mend(), Some("do not list what goes, or name it again"));
}

/// Each explanation with no more stack than [`STACK`], on a state that lives elsewhere: of batches of the most nodes that
/// come as far as the lists, on a chain of the most nodes whose outcome is not sound, of memory, and of a start.
#[test]
fn the_stack_that_an_explanation_needs() {
    let [record, _] = large();
    let state = Box::new(State::start(&record, true).unwrap().0);
    let more: Vec<u64> = (65..=127).collect();
    let mut nodes = vec![plain(64).children(&more[..])];
    nodes.extend(more.iter().copied().map(plain));
    let wider = crate::record(&batch().nodes(&nodes));
    let number = on_a_stack(STACK, move || state.explain(&wider, 0).number());
    assert_eq!(number, Some(Number::ListTooShort));

    let state = chain();
    let circle = crate::record(&batch().nodes(&[plain(256).children(&[1])]));
    let number = on_a_stack(STACK, move || state.explain(&circle, CHANGES).number());
    assert_eq!(number, Some(Number::OutcomeNotSound));

    let mut bytes = chain().to_bytes();
    bytes[8 * (168 + 320 * 10 + 200)] = 0;
    let state = Box::new(State::from_bytes(&bytes));
    let number = on_a_stack(STACK, move || state.explain(&[], 0).number());
    assert_eq!(number, Some(Number::StateNotSound));

    let mut memory = Box::new(State::blank());
    let twin = record.clone();
    assert_eq!(on_a_stack(STACK, move || memory.explain_restart(&twin).number()), None);
    assert_eq!(on_a_stack(START_STACK, move || State::explain_start(&record).number()), None);
}
