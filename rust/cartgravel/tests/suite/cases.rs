//! Document 01, "Cases": 1 to 14, 17 and 18; and the rows of its table that no case and no misuse answers.
use crate::{T, batch, plain, record, refused, refused_batch, s, s_with_t, screen, told, words};
use cartgravel::{Batch, CHANGES, LISTED_NODES, Number, State, TreeId};

#[test]
fn case_1_a_start() {
    let (state, report) = State::start(&screen(), true).unwrap();
    assert_eq!(state.node_count(), 3);
    assert_eq!(words(&report), " focus none (0, 2)");
}

#[test]
fn case_2_a_child_named_twice() {
    refused_batch(&s(), &batch().nodes(&[plain(1).children(&[2, 2])]), Number::ChildNamedTwice);
}

#[test]
fn case_3_a_child_less() {
    let told = told(&mut s(), &batch().nodes(&[plain(1).children(&[2])]));
    assert_eq!(told, "nodes 2 updated (0, 1) removed (0, 3) focus (0, 2) (0, 2)");
}

#[test]
fn case_4_the_focus_is_removed() {
    let nodes = [plain(1).children(&[2])];
    refused_batch(&s(), &Batch::new(TreeId::ROOT, 3).nodes(&nodes), Number::FocusAbsent);
}

#[test]
fn case_5_a_child_that_is_absent() {
    refused_batch(&s(), &batch().nodes(&[plain(1).children(&[2, 3, 4])]), Number::ChildrenAbsent);
}

#[test]
fn case_6_a_node_without_a_place() {
    refused_batch(&s(), &batch().nodes(&[plain(4)]), Number::NodesWithoutPlace);
}

#[test]
fn case_7_a_node_updated_and_removed() {
    let (labelled, parent) = (plain(3).label("a"), plain(1).children(&[2]));
    refused_batch(&s(), &batch().nodes(&[labelled.clone(), parent.clone()]), Number::ChangedAndRemoved);
    refused_batch(&s(), &batch().nodes(&[parent, labelled]), Number::OutcomeNotSound);
}

#[test]
fn case_8_a_graft_with_a_child() {
    refused_batch(&s(), &batch().nodes(&[plain(3).graft(T).children(&[2])]), Number::GraftWithChildren);
}

#[test]
fn case_9_a_graft_and_its_tree() {
    let mut state = s();
    let graft = told(&mut state, &batch().nodes(&[plain(3).graft(T)]));
    assert_eq!(graft, "nodes 3 updated (0, 3) focus (0, 2) (0, 2)");
    let tree = told(&mut state, &Batch::new(T, 1).root(1).nodes(&[plain(1)]));
    assert_eq!(tree, "nodes 4 added (1, 1) focus (0, 2) (0, 2)");
}

#[test]
fn case_10_a_new_tree_without_tree_data() {
    let mut state = s();
    told(&mut state, &batch().nodes(&[plain(3).graft(T)]));
    refused_batch(&state, &Batch::new(T, 1).nodes(&[plain(1)]), Number::TreeWithoutData);
}

#[test]
fn case_11_two_grafts_of_one_tree() {
    let both = [plain(2).graft(T), plain(3).graft(T)];
    refused_batch(&s(), &batch().nodes(&both), Number::SecondGraft);
}

#[test]
fn case_12_the_focus_on_an_empty_graft() {
    let nodes = [plain(3).graft(T)];
    refused_batch(&s(), &Batch::new(TreeId::ROOT, 3).nodes(&nodes), Number::FocusOnEmptyGraft);
}

#[test]
fn case_13_another_node_grafts_the_tree() {
    let told = told(&mut s_with_t(), &batch().nodes(&[plain(3), plain(2).graft(T)]));
    let lists = "updated (0, 2) (0, 3) (1, 1) relinked (1, 1)";
    assert_eq!(told, format!("nodes 4 {lists} focus (0, 2) (1, 1)"));
}

#[test]
fn case_14_a_node_under_itself() {
    refused_batch(&s(), &batch().nodes(&[plain(3).children(&[3])]), Number::OutcomeNotSound);
}

/// The record of a batch that lists a node and its children, which are the numbers after it up to `last`. With tree
/// data the node is the root.
fn family(parent: u64, last: u64, root: bool) -> Vec<u8> {
    let children: Vec<u64> = (parent + 1..=last).collect();
    let mut nodes = vec![plain(parent).children(&children[..])];
    nodes.extend(children.iter().copied().map(plain));
    let batch = batch().nodes(&nodes);
    record(&if root { batch.root(parent) } else { batch })
}

/// What an accepted record answers, in words.
fn told_record(state: &mut State, record: &[u8]) -> String {
    told(state, &Batch::decode(record).unwrap())
}

/// 255 nodes, the last of which has number 255.
fn nearly_full() -> State {
    let (mut state, _) = State::start(&family(1, 64, true), true).unwrap();
    for (parent, last) in [(64, 127), (127, 190), (190, 253), (253, 255)] {
        told_record(&mut state, &family(parent, last, false));
    }
    state
}

#[test]
fn case_17_the_most_nodes() {
    let mut state = nearly_full();
    let full = told_record(&mut state, &family(255, 256, false));
    assert_eq!(full, "nodes 256 added (0, 256) updated (0, 255) focus (0, 2) (0, 2)");
    refused(&state, &family(256, 257, false), CHANGES, Number::TooManyNodes);
}

#[test]
fn case_17_room_of_removed_nodes_is_used_again() {
    let mut state = nearly_full();
    told_record(&mut state, &family(255, 256, false));
    let replaced = told(&mut state, &batch().nodes(&[plain(255).children(&[257]), plain(257)]));
    let lists = "added (0, 257) updated (0, 255) removed (0, 256)";
    assert_eq!(replaced, format!("nodes 256 {lists} focus (0, 2) (0, 2)"));
}

/// The record of node 1 with leaves up to `last`, and of `last + 1`, which no node names, behind them. A batch cannot
/// hold 65 nodes, so the last one is put into the bytes.
fn with_one_more(last: u64) -> Vec<u8> {
    let mut record = family(1, last, true);
    let (nodes, children) = (last as u16, last as u16 - 1);
    let mut node = [0; 128];
    node[..8].copy_from_slice(&(last + 1).to_le_bytes());
    node[32..34].copy_from_slice(&children.to_le_bytes());
    let end = 64 + 128 * usize::from(nodes);
    record.splice(end..end, node);
    record[..2].copy_from_slice(&(nodes + 1).to_le_bytes());
    for offset in [12, 16, 20] {
        let bytes = record[offset..offset + 4].try_into().unwrap();
        record[offset..offset + 4].copy_from_slice(&(u32::from_le_bytes(bytes) + 128).to_le_bytes());
    }
    record
}

#[test]
fn case_18_the_most_listed_nodes() {
    let most = |root| family(1, LISTED_NODES as u64, root);
    let (mut state, report) = State::start(&most(true), true).unwrap();
    assert_eq!((state.node_count(), words(&report).as_str()), (64, " focus none (0, 2)"));
    assert_eq!(told_record(&mut state, &most(false)), "nodes 64 focus (0, 2) (0, 2)");
    assert_eq!(State::start(&with_one_more(64), true).unwrap_err(), Number::NotARecord);
    refused(&state, &with_one_more(64), CHANGES, Number::NotARecord);
}

/// 65 nodes are refused for their number and not for what `with_one_more` writes: with 64 its bytes are a record.
#[test]
fn case_18_a_node_put_into_the_bytes_is_a_record() {
    assert_eq!(State::start(&with_one_more(63), true).unwrap_err(), Number::NodesWithoutPlace);
}

#[test]
fn row_6_tree_data_for_a_tree_that_no_graft_holds() {
    refused_batch(&s(), &Batch::new(T, 1).root(1).nodes(&[plain(1)]), Number::TreeNotHeld);
}

#[test]
fn row_8_a_tree_id_too_many() {
    let mut state = s();
    let root = [plain(1)];
    let pane = |low| Batch::new(TreeId { high: 0, low }, 1).root(1).nodes(&root);
    for low in 1..=32 {
        told(&mut state, &batch().nodes(&[plain(3).graft(TreeId { high: 0, low })]));
        if low < 32 {
            assert!(told(&mut state, &pane(low)).starts_with(&format!("nodes 4 added ({low}, 1) ")));
        }
    }
    refused_batch(&state, &pane(32), Number::TooManyTrees);
}

#[test]
fn row_11_a_graft_of_root() {
    refused_batch(&s(), &batch().nodes(&[plain(3).graft(TreeId::ROOT)]), Number::GraftOfRoot);
}
