//! A record decoded: it is the batch that was encoded, and bytes are refused exactly where a call refuses them.
use crate::batch::{every_field, full};
use crate::misuse::{Random, whole};
use crate::{batch, plain, record, s};
use cartgravel::{Batch, CHANGES, NodeId, Number, State, TreeId};

#[test]
fn a_batch_and_back() {
    let nodes = every_field();
    let bytes = record(&full(&nodes));
    let again = Batch::decode(&bytes).unwrap();
    assert_eq!(again, full(&nodes));
    assert_eq!(
        (again.tree, again.root, again.focus),
        (TreeId { high: 1, low: 2 }, Some(NodeId(7)), NodeId(8))
    );
    assert!(again.listed().eq(nodes));
    assert_eq!(record(&again), bytes);
}

#[test]
fn the_nodes_of_a_record() {
    let bytes = record(&full(&every_field()));
    let nodes = Batch::try_from(&bytes[..]).unwrap().listed();
    assert_eq!(nodes.len(), 3);
    assert!(nodes.clone().map(|node| node.label).eq([&b"Pay"[..], b"No", b"?"]));
    assert!(nodes.clone().flat_map(|node| node.children).eq([NodeId(8), NodeId(9), NodeId(6)]));
    let words = format!("{:?}", nodes.map(|node| node.children).collect::<Vec<_>>());
    assert_eq!(words, "[[NodeId(8), NodeId(9)], [], [NodeId(6)]]");
}

/// Without tree data, and with a zero for a root.
#[test]
fn tree_data() {
    let decoded = |batch: Batch| Batch::decode(&record(&batch)).unwrap().root;
    assert_eq!(decoded(batch()), None);
    assert_eq!(decoded(batch().root(0)), Some(NodeId(0)));
}

/// Whether the library takes bytes for a record.
fn is_record(state: &State, bytes: &[u8]) -> bool {
    state.clone().update(bytes, &mut [0; CHANGES]).map(|_| ()) != Err(Number::NotARecord)
}

/// Each bit of a record changed, one at a time, and each prefix: both sides say the same of it.
#[test]
fn damaged_records() {
    let state = s();
    for record in [whole(), record(&full(&every_field()))] {
        let mut kept = 0;
        for at in 0..8 * record.len() {
            let mut damaged = record.clone();
            damaged[at / 8] ^= 1 << (at % 8);
            let is_record = is_record(&state, &damaged);
            assert_eq!(Batch::decode(&damaged).is_ok(), is_record, "bit {at}");
            kept += u32::from(is_record);
        }
        assert!(kept > 0);
        for length in 0..record.len() {
            assert_eq!(Batch::decode(&record[..length]), Err(Number::NotARecord));
        }
    }
}

/// Counts and flags that look at home, and bytes at random.
#[test]
fn records_at_random() {
    let (state, mut random) = (s(), Random(4));
    for _ in 0..2000 {
        let mut bytes = whole();
        for _ in 0..1 + random.below(3) {
            let at = random.below(bytes.len());
            bytes[at] = random.next() as u8;
        }
        assert_eq!(Batch::decode(&bytes).is_ok(), is_record(&state, &bytes), "{bytes:?}");
    }
}

/// A label and children past the record's limits are no record, though the parts fit.
#[test]
fn limits() {
    let mut bytes = record(&batch().nodes(&[plain(1).label(&[b'a'; 32]), plain(2).label("b")]));
    bytes[64 + 38] = 33;
    bytes[64 + 128 + 36] = 33;
    bytes[64 + 128 + 38] = 0;
    assert_eq!(Batch::decode(&bytes), Err(Number::NotARecord));
    assert!(!is_record(&s(), &bytes));
}
