// Cartgravel: the accessibility tree of a payment terminal, for C11 and C++17 or later.
//
// A program keeps a `cartgravel_state`, starts it once and hands it batches; then it asks what has the focus, what a node is called and what a
// cardholder can reach from there. Each call and each question answers a number; CARTGRAVEL_ACCEPTED is 0. After any other number the lent slice is
// as it was, the rest of the answer is zeros, and the state is as it was; only a refused start leaves the blank state, which no other call takes.
// cartgravel_explain and cartgravel_explain_start say why a batch or a start gets its number: their answer is the reason, whatever the number is, and
// they write all of `way`. Any bytes may stand in a state, a batch, a walk or a slice.
//
// The calls keep no pointer, allocate nothing and have no state of their own, so threads may call them at once, each on its own memory; questions may
// share a state. A call needs CARTGRAVEL_STACK bytes of stack. A state lives where its owner puts it.
//
// Link libcartgravel.a, which `rt lib --cpu x86-64` in crates/cartgravel proves and writes to crates/cartgravel/out. examples/c has a program.
#ifndef CARTGRAVEL_H
#define CARTGRAVEL_H

#include <assert.h>
#include <stddef.h>
#include <stdint.h>

#ifdef __cplusplus
extern "C" {
#endif

// The version of this header.
#define CARTGRAVEL_VERSION_MAJOR 0
#define CARTGRAVEL_VERSION_MINOR 1
#define CARTGRAVEL_VERSION_PATCH 0
#define CARTGRAVEL_VERSION "0.1.0"

// The numbers that a call or a question can answer.
enum cartgravel_number {
    CARTGRAVEL_ACCEPTED = 0,              // accepted
    CARTGRAVEL_STATE_NOT_SOUND = 1,       // the state handed in is not sound
    CARTGRAVEL_NOT_A_RECORD = 2,          // the record breaks the layout or a limit
    CARTGRAVEL_START_WITHOUT_DATA = 3,    // a start without tree data
    CARTGRAVEL_START_NOT_ROOT = 4,        // a start for a tree other than ROOT
    CARTGRAVEL_LISTED_TWICE = 5,          // a node listed twice
    CARTGRAVEL_TREE_NOT_HELD = 6,         // tree data for a tree that no graft holds, not ROOT
    CARTGRAVEL_TREE_WITHOUT_DATA = 7,     // no tree data for a tree that does not exist, not ROOT
    CARTGRAVEL_TOO_MANY_TREES = 8,        // a new tree id while 32 numbers are taken
    CARTGRAVEL_CHILD_NAMED_TWICE = 9,     // a child named twice in the batch
    CARTGRAVEL_GRAFT_WITH_CHILDREN = 10,  // a graft node with children
    CARTGRAVEL_GRAFT_OF_ROOT = 11,        // a graft of ROOT
    CARTGRAVEL_SECOND_GRAFT = 12,         // a second graft of one tree
    CARTGRAVEL_NODES_WITHOUT_PLACE = 13,  // listed nodes left without a place
    CARTGRAVEL_CHILDREN_ABSENT = 14,      // named children neither present nor listed
    CARTGRAVEL_FOCUS_ON_EMPTY_GRAFT = 15, // the focus chain meets a graft whose tree does not exist
    CARTGRAVEL_ROOT_ABSENT = 16,          // the root is absent
    CARTGRAVEL_FOCUS_ABSENT = 17,         // the effective focus is absent
    CARTGRAVEL_CHANGED_AND_REMOVED = 18,  // a node both added or updated, and removed
    CARTGRAVEL_OUTCOME_NOT_SOUND = 19,    // the links or trees of the outcome are not sound
    CARTGRAVEL_TOO_MANY_NODES = 20,       // more than 256 nodes in the outcome
    CARTGRAVEL_LIST_TOO_SHORT = 21,       // a lent list too short for what it should hold
    CARTGRAVEL_NODE_ABSENT = 22           // the node asked about is not in the state
};

// The rules of a sound state, as cartgravel_explanation has them for 1 (of the state handed in) and 19 (of the outcome): the first that is broken.
// `place` is the slot of a node among those of the state, which are sorted by id, or a tree's number; fields that are not named are 0 or none.
enum cartgravel_rule {
    CARTGRAVEL_RULE_NODES = 1,               // more than 256 nodes
    CARTGRAVEL_RULE_TREES = 2,               // more than 32 tree numbers
    CARTGRAVEL_RULE_CHILDREN = 3,            // `node`, in slot `place`, has more than 256 children
    CARTGRAVEL_RULE_ABSENT_BELOW = 4,        // `node`, a child of `by` or the root of the tree that `by` grafts, is absent; `by` is in slot `place`
    CARTGRAVEL_RULE_MET_TWICE = 5,           // `node`, in slot `place`, is met more than once going down from the root
    CARTGRAVEL_RULE_NEVER_MET = 6,           // `node`, in slot `place`, is never met; `also` is the topmost such node above it, `by` its parent
    CARTGRAVEL_RULE_WRONG_LINK = 7,          // `node`, in slot `place`, records the parent `by` (or none) and is met under `also` (or none)
    CARTGRAVEL_RULE_GRAFT_WITH_CHILDREN = 8, // `node`, in slot `place`, is a graft and has children
    CARTGRAVEL_RULE_GRAFTED_TWICE = 9,       // `node`, in slot `place`, and `also`, a later one, graft `tree`
    CARTGRAVEL_RULE_ROOT_NOT_FIRST = 10,     // ROOT does not exist or does not have number 0
    CARTGRAVEL_RULE_TREE_TWICE = 11,         // `tree`, with number `place`, has an earlier number
    CARTGRAVEL_RULE_TREE_UNROOTED = 12,      // `tree`, with number `place`, exists, and its root is absent or no node grafts it
    CARTGRAVEL_RULE_OUT_OF_ORDER = 13,       // the ids do not ascend after `node`, in slot `place`
    CARTGRAVEL_RULE_BROKEN_FIELD = 14,       // a field of `node`, in slot `place`, breaks the record's rules
    CARTGRAVEL_RULE_NO_FOCUS = 15            // the effective focus is absent
};

// The filters, for questions; a walk takes CARTGRAVEL_UNFILTERED too. Any other number is refused with 2.
enum cartgravel_filter_number {
    CARTGRAVEL_UNFILTERED = 0,           // no filter
    CARTGRAVEL_COMMON = 1,               // what a cardholder can reach
    CARTGRAVEL_WITH_ROOT_EXCEPTION = 2,  // the same, with ROOT's root included whatever it is
    CARTGRAVEL_WITHOUT_PARENT_CHECKS = 3 // what the first says before it looks at a node's parents
};

// What a filter says of a node.
enum cartgravel_filter_result {
    CARTGRAVEL_INCLUDE = 0,        // the node is shown
    CARTGRAVEL_EXCLUDE_NODE = 1,   // the node is not shown; its children stand in its place
    CARTGRAVEL_EXCLUDE_SUBTREE = 2 // neither the node nor anything below it is shown
};

// The sides of a node among its siblings. Any other number is refused with 2.
enum cartgravel_side {
    CARTGRAVEL_FOLLOWING = 0, // those after it, in order
    CARTGRAVEL_PRECEDING = 1  // those before it, the nearest first
};

// The kinds of a node's box. A kind may join them.
enum cartgravel_box_kind {
    CARTGRAVEL_NO_BOX = 0, // no bounds, or a number on the way is not finite
    CARTGRAVEL_A_BOX = 1   // a box
};

// The flags of a node.
enum cartgravel_node_flag {
    CARTGRAVEL_HIDDEN = 1,                // hidden, and all below it
    CARTGRAVEL_CLIPS_CHILDREN = 2,        // clips its children
    CARTGRAVEL_HAS_ACTIVE_DESCENDANT = 4, // passes the focus on
    CARTGRAVEL_IS_GRAFT = 8,              // holds another tree in its place
    CARTGRAVEL_HAS_BOUNDS = 16,           // has bounds
    CARTGRAVEL_HAS_TRANSFORM = 32         // has a transform
};

// Sizes. The four lists of any batch fit in CARTGRAVEL_CHANGES elements, a list of any other call in CARTGRAVEL_IDS. CARTGRAVEL_STACK is what the
// deepest call was measured to need, rounded up to the next 64 KiB.
enum {
    CARTGRAVEL_NODES = 256,          // nodes of a state
    CARTGRAVEL_TREES = 32,           // tree numbers of a state
    CARTGRAVEL_LISTED_NODES = 64,    // nodes of a batch
    CARTGRAVEL_CHILD_ENTRIES = 256,  // child entries of a batch
    CARTGRAVEL_LABEL_BYTES = 32,     // bytes of a node's label
    CARTGRAVEL_RECORD_BYTES = 12352, // bytes of a batch
    CARTGRAVEL_CHANGES = 1024,       // elements of the lists of a batch
    CARTGRAVEL_IDS = 512,            // elements of a list of nodes
    CARTGRAVEL_STATE_WORDS = 9640,   // words of a state
    CARTGRAVEL_STATE_BYTES = 77120,  // bytes of a state
    CARTGRAVEL_WAY_WORDS = 66,       // words of a way
    CARTGRAVEL_STACK = 196608        // bytes of stack for a call
};

// A batch is a record, little-endian: a header, the node records, the child entries and the labels, without gaps. What is not named below
// and a field whose flag is clear are zero bytes. Node number 0 is an ordinary number; the tree id of ROOT is 0.
//
//   header, 64 bytes                               node record, 128 bytes
//    0  u16  nodes                                  0  u64     id
//    2  u16  child entries                          8  u64     active descendant (flag 4)
//    4  u16  label bytes                           16  u64[2]  tree id that it grafts, high then low (flag 8)
//    6  u16  1 with tree data, else 0              32  u16     first child entry
//    8  u32  offset of the node records, 64        34  u16     children
//   12  u32  offset of the child entries           36  u16     start of its label
//   16  u32  offset of the labels                  38  u16     bytes of its label
//   20  u32  bytes in all                          40  u8      role: 0 GenericContainer, 1 TextRun, 2 Dialog, 3 AlertDialog, others
//   24  u64[2]  tree id, high then low             41  u8      flags: 1 hidden, 2 clips children, 4, 8, 16 and 32 as here
//   40  u64  root, with tree data                  48  f64[4]  bounds (flag 16)
//   48  u64  focus                                 80  f64[6]  transform (flag 32)
//
// A child entry is a u64, a node's number. Each node's children and label start where those of the node before it end. Floats are finite.

// The state: one array of words, which are the library's own: read and write them only by the calls, or copy the whole. Any words are a state;
// one that no call has made is refused with 1 unless it is sound. After an accepted start or batch the words are the one form of what the state shows,
// and nothing is left in them of what is gone; an accepted host focus change alters one word and no other; a refused start leaves zeros.
typedef struct {
    uint64_t words[CARTGRAVEL_STATE_WORDS];
} cartgravel_state;

static_assert(sizeof(cartgravel_state) == CARTGRAVEL_STATE_BYTES, "the state's size");

// A node's id, or none: then `present` is 0, and so are the others.
typedef struct {
    uint64_t node;
    uint32_t tree;
    uint32_t present;
} cartgravel_id;

// How many ids each of the four lists has.
typedef struct {
    size_t added;
    size_t updated;
    size_t removed;
    size_t relinked;
} cartgravel_lengths;

// The focus before and after. Where it moved, `extra_before` is the node that it left, unless that was updated or removed, and `extra_after` the
// one that it reached, unless that was added or updated.
typedef struct {
    cartgravel_id focus_before;
    cartgravel_id focus_after;
    cartgravel_id extra_before;
    cartgravel_id extra_after;
} cartgravel_report;

// What a call answers. After any number but CARTGRAVEL_ACCEPTED the rest is zeros.
typedef struct {
    cartgravel_lengths lengths;
    cartgravel_report report;
    uint32_t number;
} cartgravel_reply;

// A node's id: its tree's number, then its own number there.
typedef struct {
    uint32_t tree;
    uint64_t node;
} cartgravel_node_id;

// A tree id: the two halves of a UUID. ROOT's are 0.
typedef struct {
    uint64_t high;
    uint64_t low;
} cartgravel_uuid;

// A rectangle from (x0, y0) to (x1, y1).
typedef struct {
    double x0;
    double y0;
    double x1;
    double y1;
} cartgravel_rect;

// A transform: x goes to a*x + c*y + e, and y to b*x + d*y + f.
typedef struct {
    double a;
    double b;
    double c;
    double d;
    double e;
    double f;
} cartgravel_affine;

// Why a batch or a start gets its number: what makes the first row of the table hold that does. Places count from 0; what a number does not use is 0,
// a node none.
//
//   number   rule   place             other         tree          node                  by                       also
//   1, 19    rule   a cartgravel_rule says what the others are
//   2        1..26  offset of bytes                                                                              (docs/DEFINITIONS.md has the rules)
//   4                                               the start's
//   5               its second place  its first                   the node
//   6, 7, 8                                         the batch's
//   9                                                             the child             its second namer         its first namer
//   10, 11                                                        the node
//   12       1                                      the tree      claims it then                                 claimed it first
//   12       2                                      the tree      claims it                                      held it, and keeps it
//   13              its place                                     the node
//   14                                                            the child             the node that names it
//   15              nodes of the way                that is not   the graft, the last
//   16                                                            ROOT's root
//   17              nodes of the way                              the focus, the last
//   18                                                            the node              dropped `also`, if any   the node or one above it, which goes
//   20              nodes there are
//   21              elements needed   those lent
typedef struct {
    size_t place;
    size_t other;
    cartgravel_uuid tree;
    cartgravel_id node;
    cartgravel_id by;
    cartgravel_id also;
    uint32_t rule;
    uint32_t number;
} cartgravel_explanation;

// The answer of a question for a node: its id, or none.
typedef struct {
    cartgravel_id id;
    uint32_t number;
} cartgravel_found;

// The answer of a question for a list: how many ids (two elements each) or label bytes stand in the slice.
typedef struct {
    size_t length;
    uint32_t number;
} cartgravel_listed;

// The answer of a question for a flag: 0 or 1.
typedef struct {
    uint32_t value;
    uint32_t number;
} cartgravel_flag;

// The answer of cartgravel_transform.
typedef struct {
    cartgravel_affine transform;
    uint32_t number;
} cartgravel_transform_answer;

// The answer of cartgravel_bounding_box: `kind` is a cartgravel_box_kind.
typedef struct {
    cartgravel_rect rect;
    uint32_t kind;
    uint32_t number;
} cartgravel_box_answer;

// The answer of cartgravel_filter: `result` is a cartgravel_filter_result.
typedef struct {
    uint32_t result;
    uint32_t number;
} cartgravel_filter_answer;

// The answer of cartgravel_node. `flags` has bits of cartgravel_node_flag; a field whose flag is clear is 0.
typedef struct {
    cartgravel_rect bounds;
    cartgravel_affine transform;
    cartgravel_uuid graft;
    uint64_t active_descendant;
    size_t label_length;
    size_t child_count;
    uint32_t role;
    uint32_t flags;
    uint32_t number;
} cartgravel_node_answer;

// The answer of cartgravel_tree_id: a tree id, or none.
typedef struct {
    cartgravel_uuid id;
    uint32_t present;
    uint32_t number;
} cartgravel_tree_answer;

// The answer of cartgravel_tree_index: a tree number, or none.
typedef struct {
    uint32_t index;
    uint32_t present;
    uint32_t number;
} cartgravel_index_answer;

// The answer of cartgravel_tree_ends: a tree's root and focus, or none of a tree that does not exist.
typedef struct {
    cartgravel_id root;
    cartgravel_id focus;
    uint32_t number;
} cartgravel_ends_answer;

// The answer of cartgravel_counts: how many nodes and tree numbers there are, and the host flag.
typedef struct {
    size_t nodes;
    size_t trees;
    uint32_t host_focused;
    uint32_t number;
} cartgravel_counts_answer;

// A walk over the siblings of a node on one side, nearest first, kept by the caller: the node, a cartgravel_side, a cartgravel_filter_number and how
// many siblings were handed out, at first 0. Any values are a walk.
typedef struct {
    cartgravel_node_id node;
    uint32_t side;
    uint32_t filter;
    uint64_t count;
} cartgravel_walk;

// The sizes that the library was built with.
static_assert(sizeof(cartgravel_id) == 16, "an id or none");
static_assert(sizeof(cartgravel_reply) == 104, "a reply");
static_assert(sizeof(cartgravel_node_id) == 16, "a node's id");
static_assert(sizeof(cartgravel_uuid) == 16, "a tree id");
static_assert(sizeof(cartgravel_explanation) == 88, "a reason");
static_assert(sizeof(cartgravel_found) == 24, "a node found");
static_assert(sizeof(cartgravel_listed) == 16, "a list's length");
static_assert(sizeof(cartgravel_flag) == 8, "a flag");
static_assert(sizeof(cartgravel_transform_answer) == 56, "a transform");
static_assert(sizeof(cartgravel_box_answer) == 40, "a box");
static_assert(sizeof(cartgravel_filter_answer) == 8, "what a filter says");
static_assert(sizeof(cartgravel_node_answer) == 136, "a node");
static_assert(sizeof(cartgravel_tree_answer) == 24, "a tree id or none");
static_assert(sizeof(cartgravel_index_answer) == 12, "a tree number or none");
static_assert(sizeof(cartgravel_ends_answer) == 40, "a tree's ends");
static_assert(sizeof(cartgravel_counts_answer) == 24, "the counts");
static_assert(sizeof(cartgravel_walk) == 32, "a walk");

// The calls and the questions: the proved functions themselves, with no code between. No pointer may be null, not even to a batch or slice of no
// elements, which may point to any byte; each must point to the state, the walk or to as many elements as are said, and none may overlap another.
// A flag is set where it is not 0.

// A start: a state begins with a batch for ROOT with tree data. It never reads the state's memory, which need not be initialised. After a refusal
// the state is the blank one, all zeros.
cartgravel_reply cartgravel_start(cartgravel_state *state, const uint8_t *batch, size_t length, uint32_t host_focused);

// A batch on a state. `changes` takes the four lists, two elements an id (tree number, node number), one list after another: added, updated,
// removed, relinked; the elements beyond them keep what they held.
cartgravel_reply cartgravel_update(cartgravel_state *state, const uint8_t *batch, size_t length, uint64_t *changes, size_t room);

// A host focus change: whether the terminal itself has the focus.
cartgravel_reply cartgravel_host_focus(cartgravel_state *state, uint32_t host_focused);

// Why a batch on a state would get the number that cartgravel_update answers with `room` elements lent, also 0. It changes nothing but `way`, which
// is written whole: for 15 and 17 the way from ROOT's focus through the grafts, two words an id (tree number, node number), and zeros after it; for
// every other number zeros.
cartgravel_explanation cartgravel_explain(const cartgravel_state *state, const uint8_t *batch, size_t length, size_t room,
                                          uint64_t way[CARTGRAVEL_WAY_WORDS]);

// Why a start would get the number that cartgravel_start answers. It works in `memory`, which need not be initialised, and leaves the blank state
// there, all zeros.
cartgravel_explanation cartgravel_explain_start(cartgravel_state *memory, const uint8_t *batch, size_t length, uint64_t way[CARTGRAVEL_WAY_WORDS]);

// The questions about a state. They change nothing but the lent slice, or the walk. A question about a node that is not there answers
// CARTGRAVEL_NODE_ABSENT, one whose slice of `room` elements is too short CARTGRAVEL_LIST_TOO_SHORT; elements beyond a list keep what they held.

// The node that has the focus: none while the host is not focused.
cartgravel_found cartgravel_focus(const cartgravel_state *state);

// The root of the tree ROOT.
cartgravel_found cartgravel_root(const cartgravel_state *state);

// The tree id that has this number, if it is taken.
cartgravel_tree_answer cartgravel_tree_id(const cartgravel_state *state, uint32_t index);

// The number of a tree id, if it has one.
cartgravel_index_answer cartgravel_tree_index(const cartgravel_state *state, cartgravel_uuid id);

// The root and the focus of a tree, if it exists.
cartgravel_ends_answer cartgravel_tree_ends(const cartgravel_state *state, uint32_t index);

// How many nodes and tree numbers there are, and the host flag.
cartgravel_counts_answer cartgravel_counts(const cartgravel_state *state);

// What a node says of itself.
cartgravel_node_answer cartgravel_node(const cartgravel_state *state, cartgravel_node_id id);

// Its label: any bytes, at most CARTGRAVEL_LABEL_BYTES, without a zero at the end.
cartgravel_listed cartgravel_label(const cartgravel_state *state, cartgravel_node_id id, uint8_t *out, size_t room);

// Its parent: of a pane's root the graft that holds it, of ROOT's root none.
cartgravel_found cartgravel_parent(const cartgravel_state *state, cartgravel_node_id id);

// Its children, in order; of a graft the root of its tree, if that exists.
cartgravel_listed cartgravel_children(const cartgravel_state *state, cartgravel_node_id id, uint64_t *out, size_t room);

// Whether it or a node above it is hidden.
cartgravel_flag cartgravel_hidden(const cartgravel_state *state, cartgravel_node_id id);

// Its transform, with those of the nodes above it.
cartgravel_transform_answer cartgravel_transform(const cartgravel_state *state, cartgravel_node_id id);

// Its bounds under that transform.
cartgravel_box_answer cartgravel_bounding_box(const cartgravel_state *state, cartgravel_node_id id);

// What a filter says of it.
cartgravel_filter_answer cartgravel_filter(const cartgravel_state *state, cartgravel_node_id id, uint32_t filter);

// The nearest node above it that the filter includes.
cartgravel_found cartgravel_filtered_parent(const cartgravel_state *state, cartgravel_node_id id, uint32_t filter);

// The first of its filtered children.
cartgravel_found cartgravel_first_filtered_child(const cartgravel_state *state, cartgravel_node_id id, uint32_t filter);

// The last of its filtered children.
cartgravel_found cartgravel_last_filtered_child(const cartgravel_state *state, cartgravel_node_id id, uint32_t filter);

// The first filtered child, the first of that one and so on: the last on this way.
cartgravel_found cartgravel_deepest_first_filtered_child(const cartgravel_state *state, cartgravel_node_id id, uint32_t filter);

// The last filtered child, the last of that one and so on: the last on this way.
cartgravel_found cartgravel_deepest_last_filtered_child(const cartgravel_state *state, cartgravel_node_id id, uint32_t filter);

// Its siblings on one side, nearest first.
cartgravel_listed cartgravel_siblings(const cartgravel_state *state, cartgravel_node_id id, uint32_t side, uint64_t *out, size_t room);

// Its children, in order, with an excluded node's own in its place and without excluded subtrees.
cartgravel_listed cartgravel_filtered_children(const cartgravel_state *state, cartgravel_node_id id, uint32_t filter, uint64_t *out, size_t room);

// Its siblings on one side under a filter, nearest first, those of excluded parents included.
cartgravel_listed cartgravel_filtered_siblings(const cartgravel_state *state, cartgravel_node_id id, uint32_t filter, uint32_t side, uint64_t *out,
                                               size_t room);

// The next sibling of a walk in this state, or none at the end. Only with a sibling the count goes up, by one; otherwise the walk is as it was.
cartgravel_found cartgravel_next(cartgravel_walk *walk, const cartgravel_state *state);

// A number in plain words, or "no such number".
static inline const char *cartgravel_words(uint32_t number) {
    static const char *const words[] = {
        "accepted",
        "the state handed in is not sound",
        "the record breaks the layout or a limit",
        "a start without tree data",
        "a start for a tree other than ROOT",
        "a node listed twice",
        "tree data for a tree that no graft holds, not ROOT",
        "no tree data for a tree that does not exist, not ROOT",
        "a new tree id while 32 numbers are taken",
        "a child named twice in the batch",
        "a graft node with children",
        "a graft of ROOT",
        "a second graft of one tree",
        "listed nodes left without a place",
        "named children neither present nor listed",
        "the focus chain meets a graft whose tree does not exist",
        "the root is absent",
        "the effective focus is absent",
        "a node both added or updated, and removed",
        "the links or trees of the outcome are not sound",
        "more than 256 nodes in the outcome",
        "a lent list too short for what it should hold",
        "the node asked about is not in the state",
    };
    return number < sizeof words / sizeof words[0] ? words[number] : "no such number";
}

// A rule of a sound state that is broken in plain words, or "no such rule".
static inline const char *cartgravel_rule_words(uint32_t rule) {
    static const char *const words[] = {
        "no such rule",
        "more than 256 nodes",
        "more than 32 tree numbers",
        "a node with more than 256 children",
        "a child, or the root of a grafted tree, is absent",
        "a node is met more than once going down from the root",
        "a node is never met going down from the root",
        "a node records another parent or place than it is met under",
        "a graft has children",
        "two nodes graft one tree",
        "ROOT does not exist or does not have number 0",
        "a tree id has two numbers",
        "a tree exists, and its root is absent or no node grafts it",
        "the ids do not ascend",
        "a field of a node breaks the record's rules",
        "the effective focus is absent",
    };
    return rule < sizeof words / sizeof words[0] ? words[rule] : words[0];
}

#ifdef __cplusplus
}
#endif

#endif
