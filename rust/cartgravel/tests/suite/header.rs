//! What include/cartgravel.h and this crate both say.
use crate::batch::{every_field, full};
use crate::record;
use cartgravel::{
    Affine, CHANGES, CHILD_ENTRIES, Filter, FullNodeId, LABEL_BYTES, LISTED_NODES, NODES, Node, Number,
    RECORD_BYTES, Rect, STACK, STATE_BYTES, STATE_WORDS, Side, TREES, TreeId, WAY_WORDS, sys,
};

const HEADER: &str = include_str!("../../../../include/cartgravel.h");
const RECORD: &str = include_str!("../../../../examples/c/record.expected");

/// The number that follows these words of the header.
fn number_after(words: &str) -> usize {
    let (_, rest) = HEADER.split_once(words).unwrap_or_else(|| panic!("no {words}"));
    let digits = rest.split(|c: char| !c.is_ascii_digit()).next().unwrap();
    digits.parse().unwrap()
}

/// The header's value of a name.
fn value(name: &str) -> usize {
    number_after(&format!("CARTGRAVEL_{name} = "))
}

#[test]
fn sizes() {
    assert_eq!(value("NODES"), NODES);
    assert_eq!(value("TREES"), TREES);
    assert_eq!(value("LISTED_NODES"), LISTED_NODES);
    assert_eq!(value("CHILD_ENTRIES"), CHILD_ENTRIES);
    assert_eq!(value("LABEL_BYTES"), LABEL_BYTES);
    assert_eq!(value("RECORD_BYTES"), RECORD_BYTES);
    assert_eq!(value("CHANGES"), CHANGES);
    assert_eq!(value("IDS"), 2 * NODES);
    assert_eq!(value("STATE_WORDS"), STATE_WORDS);
    assert_eq!(value("STATE_BYTES"), STATE_BYTES);
    assert_eq!(value("WAY_WORDS"), WAY_WORDS);
    assert_eq!(value("STACK"), STACK);
}

/// Each number has the same words, in the order of the numbers; the first is 0's.
#[test]
fn words() {
    let (_, table) = HEADER.split_once("words[] = {").unwrap();
    let (table, _) = table.split_once('}').unwrap();
    let theirs = table.lines().filter_map(|line| line.trim().strip_prefix('"')?.strip_suffix("\","));
    let ours = Number::ALL.iter().map(Number::to_string);
    assert!(theirs.eq(["accepted".to_string()].into_iter().chain(ours)));
}

/// Each name has the same number: `CARTGRAVEL_LIST_TOO_SHORT` is `Number::ListTooShort`.
#[test]
fn names() {
    for number in Number::ALL {
        let name = format!("{number:?}");
        let parts = name
            .chars()
            .map(|c| if c.is_uppercase() { format!("_{c}") } else { c.to_uppercase().to_string() });
        let snake: String = parts.collect();
        assert_eq!(value(&snake[1..]), usize::from(*number as u8), "{name}");
    }
}

/// The structs have the sizes that the header asserts.
#[test]
fn structs() {
    let size = |name: &str| number_after(&format!("static_assert(sizeof(cartgravel_{name}) == "));
    let sizes = [
        ("id", size_of::<sys::OptionalId>()),
        ("reply", size_of::<sys::Reply>()),
        ("node_id", size_of::<FullNodeId>()),
        ("uuid", size_of::<TreeId>()),
        ("explanation", size_of::<sys::Explanation>()),
        ("found", size_of::<sys::FoundId>()),
        ("listed", size_of::<sys::Listed>()),
        ("flag", size_of::<sys::Flag>()),
        ("transform_answer", size_of::<sys::PlainTransform>()),
        ("box_answer", size_of::<sys::PlainBox>()),
        ("filter_answer", size_of::<sys::PlainResult>()),
        ("node_answer", size_of::<sys::PlainNode>()),
        ("tree_answer", size_of::<sys::PlainTreeId>()),
        ("index_answer", size_of::<sys::PlainIndex>()),
        ("ends_answer", size_of::<sys::PlainEnds>()),
        ("counts_answer", size_of::<sys::PlainCounts>()),
        ("walk", size_of::<sys::Walk>()),
    ];
    for (name, bytes) in sizes {
        assert_eq!(size(name), bytes, "{name}");
    }
    assert_eq!(HEADER.matches("static_assert(sizeof(").count(), sizes.len() + 1);
    assert_eq!((size_of::<Rect>(), size_of::<Affine>()), (32, 48));
}

/// A struct's fields in the header, in order.
fn fields(name: &str) -> Vec<&'static str> {
    let (before, _) = HEADER.split_once(&format!("}} cartgravel_{name};")).unwrap();
    let (_, body) = before.rsplit_once("typedef struct {").unwrap();
    let line = |line: &'static str| line.trim().strip_suffix(';').and_then(|line| line.rsplit_once(' '));
    body.lines().filter_map(line).map(|(_, field)| field).collect()
}

/// Where each field of a struct stands here, in the order of the header.
macro_rules! places {
    ($type:ty: $($field:ident)*) => {
        ([$(stringify!($field)),*], [$(std::mem::offset_of!($type, $field)),*])
    };
}

/// The fields have the header's order.
#[test]
fn fields_in_order() {
    let node = places!(sys::PlainNode: bounds transform graft active_descendant label_length child_count role flags number);
    assert!(node.1.is_sorted());
    assert_eq!(fields("node_answer"), node.0);
    let walk = places!(sys::Walk: node side filter count);
    assert!(walk.1.is_sorted());
    assert_eq!(fields("walk"), walk.0);
    let why = places!(sys::Explanation: place other tree node by also rule number);
    assert!(why.1.is_sorted());
    assert_eq!(fields("explanation"), why.0);
    let counts = places!(sys::PlainCounts: nodes trees host_focused number);
    assert!(counts.1.is_sorted());
    assert_eq!(fields("counts_answer"), counts.0);
    let boxed = places!(sys::PlainBox: rect kind number);
    assert!(boxed.1.is_sorted());
    assert_eq!(fields("box_answer"), boxed.0);
    assert_eq!(fields("node_id"), places!(FullNodeId: tree node).0);
    assert_eq!(fields("uuid"), places!(TreeId: high low).0);
    assert_eq!(fields("rect"), places!(Rect: x0 y0 x1 y1).0);
    assert_eq!(fields("affine"), places!(Affine: a b c d e f).0);
    assert_eq!(fields("found"), places!(sys::FoundId: id number).0);
    assert_eq!(fields("listed"), places!(sys::Listed: length number).0);
    assert_eq!(fields("flag"), places!(sys::Flag: value number).0);
    assert_eq!(fields("transform_answer"), places!(sys::PlainTransform: transform number).0);
    assert_eq!(fields("filter_answer"), places!(sys::PlainResult: result number).0);
    assert_eq!(fields("tree_answer"), places!(sys::PlainTreeId: id present number).0);
    assert_eq!(fields("index_answer"), places!(sys::PlainIndex: index present number).0);
    assert_eq!(fields("ends_answer"), places!(sys::PlainEnds: root focus number).0);
}

#[test]
fn filters_and_sides() {
    let filters = [
        ("COMMON", Filter::Common),
        ("WITH_ROOT_EXCEPTION", Filter::WithRootException),
        ("WITHOUT_PARENT_CHECKS", Filter::WithoutParentChecks),
    ];
    for (name, filter) in filters {
        assert_eq!(value(name), u32::from(filter) as usize);
    }
    assert_eq!(value("UNFILTERED"), 0);
    assert_eq!(value("FOLLOWING"), u32::from(Side::Following) as usize);
    assert_eq!(value("PRECEDING"), u32::from(Side::Preceding) as usize);
    assert_eq!([value("INCLUDE"), value("EXCLUDE_NODE"), value("EXCLUDE_SUBTREE")], [0, 1, 2]);
    assert_eq!([value("NO_BOX"), value("A_BOX")], [0, 1]);
}

/// Each flag of the header is the bit that a record has for it.
#[test]
fn flags() {
    let plain = || Node::new(1);
    let nodes = [
        ("HIDDEN", plain().hidden(true)),
        ("CLIPS_CHILDREN", plain().clips_children(true)),
        ("HAS_ACTIVE_DESCENDANT", plain().active_descendant(0)),
        ("IS_GRAFT", plain().graft(1)),
        ("HAS_BOUNDS", plain().bounds([0.0; 4])),
        ("HAS_TRANSFORM", plain().transform([0.0; 6])),
    ];
    for (name, node) in nodes {
        let flags = record(&crate::batch().nodes(&[node]))[64 + 41];
        assert_eq!(value(name), usize::from(flags), "{name}");
    }
}

#[test]
fn the_version() {
    let version = env!("CARGO_PKG_VERSION");
    assert!(HEADER.contains(&format!("#define CARTGRAVEL_VERSION \"{version}\"\n")));
    let part = |name: &str| number_after(&format!("#define CARTGRAVEL_VERSION_{name} ")).to_string();
    assert_eq!([part("MAJOR"), part("MINOR"), part("PATCH")].join("."), version);
}

/// The record that the C writer makes of the same batch.
#[test]
fn the_c_writer() {
    let bytes = record(&full(&every_field()));
    let lines =
        bytes.chunks(16).map(|line| line.iter().map(|b| format!("{b:02x}")).collect::<Vec<_>>().join(" "));
    assert!(RECORD.lines().take(bytes.len().div_ceil(16)).eq(lines));
}
