//! The batch record and its limits.
use crate::{T, batch, plain, record};
use cartgravel::EncodeError::{BufferTooShort, LabelTooLong, NotFinite, TooManyChildren, TooManyNodes};
use cartgravel::{Affine, Batch, EncodeError, Node, NodeId, Number, RECORD_BYTES, Rect, Role, State, TreeId};

/// Numbers of two bytes, of four and of eight, and bytes, one after another.
fn shorts<const N: usize>(numbers: [u16; N]) -> Vec<u8> {
    numbers.into_iter().flat_map(u16::to_le_bytes).collect()
}

fn longs<const N: usize>(numbers: [u32; N]) -> Vec<u8> {
    numbers.into_iter().flat_map(u32::to_le_bytes).collect()
}

fn words<const N: usize>(numbers: [u64; N]) -> Vec<u8> {
    numbers.into_iter().flat_map(u64::to_le_bytes).collect()
}

fn floats<const N: usize>(numbers: [f64; N]) -> Vec<u8> {
    words(numbers.map(f64::to_bits))
}

/// The nodes of a record that uses every field.
pub fn every_field() -> [Node<'static>; 3] {
    let first =
        Node::new(7).role(Role::DIALOG).label("Pay").children(&[8, 9]).hidden(true).active_descendant(9);
    let second = Node::new(8).role(200).label("No").clips_children(true).graft(TreeId { high: 3, low: 4 });
    let third = Node::new(9)
        .label("?")
        .children(&[NodeId(6)])
        .bounds(Rect::new(1.0, 2.0, 3.0, 4.0))
        .transform(Affine::translate(5.0, -0.0));
    [first, second, third]
}

/// The batch with these nodes.
pub fn full<'a>(nodes: &'a [Node<'a>]) -> Batch<'a> {
    Batch::new(TreeId { high: 1, low: 2 }, 8).root(7).nodes(nodes)
}

/// Every field where document 01 puts it.
#[test]
fn a_record_byte_by_byte() {
    let header = [
        shorts([3, 3, 6, 1]),
        longs([64, 448, 472, 478]),
        words([1, 2, 7, 8, 0]),
        words([7, 9, 0, 0]),
        shorts([0, 2, 0, 3, 0x0502, 0, 0, 0]),
        words([0; 10]),
        words([8, 0, 3, 4]),
        shorts([2, 0, 3, 2, 0x0ac8, 0, 0, 0]),
        words([0; 10]),
        words([9, 0, 0, 0]),
        shorts([2, 1, 5, 1, 0x3000, 0, 0, 0]),
        floats([1.0, 2.0, 3.0, 4.0, 1.0, 0.0, 0.0, 1.0, 5.0, -0.0]),
        words([8, 9, 6]),
        b"PayNo?".to_vec(),
    ];
    assert_eq!(record(&full(&every_field())), header.concat());
}

#[test]
fn a_batch_without_anything_is_a_header() {
    let record = record(&Batch::new(T, 5));
    assert_eq!(record, [shorts([0; 4]), longs([64; 4]), words([84, 0, 0, 5, 0])].concat());
}

/// What a setter turned on, it turns off.
#[test]
fn flags_are_set_and_cleared() {
    let node = plain(1).hidden(true).clips_children(true);
    assert!(node.data.hidden && node.data.clips_children);
    assert_eq!(node.hidden(false).clips_children(false), plain(1));
    let other = plain(2).label("a").hidden(true);
    assert_eq!(plain(2).label("a").data(other.data), other);
}

/// A record is written to the part of the buffer that it needs; where there is too little, to none of it.
#[test]
fn buffers() {
    let nodes = every_field();
    let (batch, whole) = (full(&nodes), record(&full(&nodes)));
    assert_eq!(batch.record_len(), whole.len());
    let mut buffer = [0xa5; 480];
    assert_eq!(batch.encode(&mut buffer[..477]), Err(BufferTooShort { bytes: 478 }));
    assert_eq!(buffer, [0xa5; 480]);
    assert_eq!(batch.encode(&mut buffer), Ok(&whole[..]));
    assert_eq!(buffer[478..], [0xa5; 2]);
}

/// Encoded into a buffer with room for any record.
fn encoded(batch: Batch) -> Result<usize, EncodeError> {
    batch.encode(&mut [0; RECORD_BYTES]).map(<[u8]>::len)
}

/// The largest record: 64 nodes, 256 child entries, 32 label bytes a node. The library reads it as a record; most of
/// its children are absent.
#[test]
fn the_largest_record() {
    let children: Vec<[u64; 4]> = (1..=64).map(|i| [4 * i - 2, 4 * i - 1, 4 * i, 4 * i + 1]).collect();
    let nodes: Vec<Node> =
        (1..=64).zip(&children).map(|(i, children)| plain(i).label(&[b'a'; 32]).children(children)).collect();
    let record = record(&batch().root(1).nodes(&nodes));
    assert_eq!(record.len(), RECORD_BYTES);
    assert_eq!(State::start(&record, true).unwrap_err(), Number::ChildrenAbsent);
}

/// Nodes that say nothing of themselves.
fn plains(numbers: impl Iterator<Item = u64>) -> Vec<Node<'static>> {
    numbers.map(plain).collect()
}

#[test]
fn nodes_up_to_the_limit() {
    assert!(encoded(batch().nodes(&plains(1..=64))).is_ok());
    assert_eq!(encoded(batch().nodes(&plains(1..=65))), Err(TooManyNodes { nodes: 65 }));
}

#[test]
fn children_up_to_the_limit() {
    let numbers: Vec<u64> = (2..=258).collect();
    let two = |last| {
        encoded(batch().nodes(&[plain(1).children(&numbers[..200]), plain(2).children(&numbers[200..last])]))
    };
    assert!(two(256).is_ok());
    assert_eq!(two(257), Err(TooManyChildren { entries: 257 }));
}

#[test]
fn labels_up_to_the_limit() {
    let label = [0xff; 33];
    let labelled = |bytes| encoded(batch().nodes(&[plain(1), plain(2).label(&label[..bytes])]));
    assert!(labelled(32).is_ok());
    assert_eq!(labelled(33), Err(LabelTooLong { node: NodeId(2), bytes: 33 }));
}

#[test]
fn floats_are_finite() {
    let alone = |node| encoded(batch().nodes(&[node]));
    for float in [f64::NAN, f64::INFINITY, f64::NEG_INFINITY] {
        for place in 0..4 {
            let mut bounds = [f64::MAX; 4];
            assert!(alone(plain(1).bounds(bounds)).is_ok());
            bounds[place] = float;
            assert_eq!(alone(plain(1).bounds(bounds)), Err(NotFinite { node: NodeId(1) }));
        }
        for place in 0..6 {
            let mut transform = [f64::MIN; 6];
            assert!(alone(plain(1).transform(transform)).is_ok());
            transform[place] = float;
            assert_eq!(alone(plain(1).transform(transform)), Err(NotFinite { node: NodeId(1) }));
        }
    }
}

#[test]
fn refusals_say_what_is_too_much() {
    let says = |batch: Batch| encoded(batch).unwrap_err().to_string();
    assert_eq!(
        says(batch().nodes(&[plain(3).label(&[0; 40])])),
        "node 3 has a label of 40 bytes, of at most 32"
    );
    assert_eq!(says(batch().nodes(&plains(0..70))), "70 nodes listed, of at most 64");
    let short = batch().encode(&mut [0; 9]).unwrap_err();
    assert_eq!(short.to_string(), "a record of 64 bytes in a shorter buffer");
}
