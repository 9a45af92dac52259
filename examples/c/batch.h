// A writer of batch records, for the programs here and for others to take.
#ifndef BATCH_H
#define BATCH_H

#include "cartgravel.h"

#include <stdbool.h>

// A node of a batch: what is zero or NULL it does not have.
typedef struct {
    uint64_t id;
    uint8_t role;
    bool hidden;
    bool clips_children;
    const char *label;
    size_t label_bytes; // with 0 the label ends before its zero byte
    const uint64_t *children;
    size_t child_count;
    const uint64_t *active_descendant;
    const cartgravel_uuid *graft;
    const cartgravel_rect *bounds;
    const cartgravel_affine *transform;
} batch_node;

// A batch for a tree. With a root it has tree data.
typedef struct {
    cartgravel_uuid tree;
    const uint64_t *root;
    uint64_t focus;
    const batch_node *nodes;
    size_t node_count;
} batch;

// Writes a batch's record to `room` bytes, of which CARTGRAVEL_RECORD_BYTES are enough for any; its length. Where it breaks a limit of the record
// or does not fit, writes nothing and answers 0.
size_t batch_encode(uint8_t *record, size_t room, const batch *b);

#endif
