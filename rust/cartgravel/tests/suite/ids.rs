//! How a node and a tree are named.
use crate::id;
use cartgravel::{FullNodeId, NoSuchId, NodeId, TreeId, TreeIndex};

#[test]
fn a_uuid_is_a_tree_id() {
    let bits = 0x0123_4567_89ab_cdef_fedc_ba98_7654_3210_u128;
    let tree = TreeId::from(bits);
    assert_eq!(tree, TreeId { high: 0x0123_4567_89ab_cdef, low: 0xfedc_ba98_7654_3210 });
    assert_eq!(u128::from(tree), bits);
    assert_eq!(tree.to_string(), "01234567-89ab-cdef-fedc-ba9876543210");
    assert_eq!(TreeId::ROOT.to_string(), "00000000-0000-0000-0000-000000000000");
}

#[test]
fn numbers_and_back() {
    assert_eq!(u64::from(NodeId::from(u64::MAX)), u64::MAX);
    assert_eq!(u32::from(TreeIndex::from(31)), 31);
    assert_eq!((NodeId(7).to_string(), TreeIndex(3).to_string()), ("7".to_string(), "3".to_string()));
}

/// As accesskit_consumer puts an id into a u128: the node number above, the tree number below.
#[test]
fn an_id_is_128_bits() {
    let far = id(u32::MAX, u64::MAX);
    for id in [id(0, 0), id(1, 2), far] {
        assert_eq!(FullNodeId::try_from(u128::from(id)), Ok(id));
    }
    assert_eq!(u128::from(id(1, 2)), 2 << 64 | 1);
    let bits = 5 << 64 | 1 << 32;
    assert_eq!(FullNodeId::try_from(bits), Err(NoSuchId(bits)));
    assert_eq!(NoSuchId(bits).to_string(), "4294967296 is no tree number");
}

#[test]
fn an_id_of_its_parts() {
    assert_eq!(TreeIndex(1).node(2), id(1, 2));
    assert_eq!(FullNodeId::from((TreeIndex(1), NodeId(2))), id(1, 2));
    assert_eq!(id(1, 2).with_same_tree(NodeId(9)), id(1, 9));
    assert_eq!(id(1, 2).to_string(), "(1, 2)");
    assert!(id(0, 9) < id(1, 2) && id(1, 1) < id(1, 2));
}
