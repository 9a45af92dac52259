// The record that include/cartgravel.h lays out, written part by part.
#include "batch.h"

#include <math.h>
#include <string.h>

// The bytes of the header, and of a node.
enum { HEADER = 64, NODE_RECORD = 128 };

// How many child entries and label bytes a batch has.
typedef struct {
    size_t children;
    size_t labels;
} counts;

// The bytes of a node's label.
static size_t label_bytes(const batch_node *n) {
    if (n->label == NULL) return 0;
    return n->label_bytes != 0 ? n->label_bytes : strlen(n->label);
}

// Whether each of n floats is finite; where there are none, they are.
static bool are_finite(const void *floats, size_t n) {
    double each[6];
    if (floats == NULL) return true;
    memcpy(each, floats, n * sizeof each[0]);
    for (size_t i = 0; i < n; i++) {
        if (!isfinite(each[i])) return false;
    }
    return true;
}

// Whether a record can hold a node.
static bool node_fits(const batch_node *n) {
    return label_bytes(n) <= CARTGRAVEL_LABEL_BYTES && n->child_count <= CARTGRAVEL_CHILD_ENTRIES &&
           are_finite(n->bounds, 4) && are_finite(n->transform, 6);
}

// Whether a record can hold a batch, and how many entries and bytes it has.
static bool fits(const batch *b, counts *sum) {
    if (b->node_count > CARTGRAVEL_LISTED_NODES) return false;
    for (size_t i = 0; i < b->node_count; i++) {
        if (!node_fits(&b->nodes[i])) return false;
        sum->children += b->nodes[i].child_count;
        sum->labels += label_bytes(&b->nodes[i]);
    }
    return sum->children <= CARTGRAVEL_CHILD_ENTRIES;
}

// Writes a number of some bytes, its lowest byte first.
static void put(uint8_t *to, uint64_t number, size_t width) {
    for (size_t i = 0; i < width; i++) to[i] = (uint8_t)(number >> (8 * i));
}

// Writes n floats; where there are none, nothing.
static void put_floats(uint8_t *to, const void *floats, size_t n) {
    uint64_t each[6];
    if (floats == NULL) return;
    memcpy(each, floats, n * sizeof each[0]);
    for (size_t i = 0; i < n; i++) put(to + 8 * i, each[i], 8);
}

// Writes a tree id, high then low.
static void put_tree(uint8_t *to, cartgravel_uuid tree) {
    put(to, tree.high, 8);
    put(to + 8, tree.low, 8);
}

// The flags of a node.
static unsigned flags(const batch_node *n) {
    return (n->hidden ? CARTGRAVEL_HIDDEN : 0u) | (n->clips_children ? CARTGRAVEL_CLIPS_CHILDREN : 0u) |
           (n->active_descendant ? CARTGRAVEL_HAS_ACTIVE_DESCENDANT : 0u) | (n->graft ? CARTGRAVEL_IS_GRAFT : 0u) |
           (n->bounds ? CARTGRAVEL_HAS_BOUNDS : 0u) | (n->transform ? CARTGRAVEL_HAS_TRANSFORM : 0u);
}

// Writes a node's record into zeros; its children and label start at these places of their parts.
static void put_node(uint8_t *to, const batch_node *n, counts before) {
    put(to, n->id, 8);
    if (n->active_descendant) put(to + 8, *n->active_descendant, 8);
    if (n->graft) put_tree(to + 16, *n->graft);
    put(to + 32, before.children, 2);
    put(to + 34, n->child_count, 2);
    put(to + 36, before.labels, 2);
    put(to + 38, label_bytes(n), 2);
    to[40] = n->role;
    to[41] = (uint8_t)flags(n);
    put_floats(to + 48, n->bounds, 4);
    put_floats(to + 80, n->transform, 6);
}

// Writes the header into zeros.
static void put_header(uint8_t *to, const batch *b, counts sum, size_t children_at, size_t labels_at) {
    put(to, b->node_count, 2);
    put(to + 2, sum.children, 2);
    put(to + 4, sum.labels, 2);
    put(to + 6, b->root != NULL, 2);
    put(to + 8, HEADER, 4);
    put(to + 12, children_at, 4);
    put(to + 16, labels_at, 4);
    put(to + 20, labels_at + sum.labels, 4);
    put_tree(to + 24, b->tree);
    if (b->root) put(to + 40, *b->root, 8);
    put(to + 48, b->focus, 8);
}

size_t batch_encode(uint8_t *record, size_t room, const batch *b) {
    counts sum = {0, 0}, before = {0, 0};
    if (!fits(b, &sum)) return 0;
    const size_t children_at = HEADER + NODE_RECORD * b->node_count;
    const size_t labels_at = children_at + 8 * sum.children;
    if (room < labels_at + sum.labels) return 0;
    memset(record, 0, labels_at);
    put_header(record, b, sum, children_at, labels_at);
    for (size_t i = 0; i < b->node_count; i++) {
        const batch_node *n = &b->nodes[i];
        put_node(record + HEADER + NODE_RECORD * i, n, before);
        for (size_t k = 0; k < n->child_count; k++) put(record + children_at + 8 * before.children++, n->children[k], 8);
        if (label_bytes(n) > 0) memcpy(record + labels_at + before.labels, n->label, label_bytes(n));
        before.labels += label_bytes(n);
    }
    return labels_at + sum.labels;
}
