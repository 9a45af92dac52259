// Prints a record that uses every field, sixteen bytes a line; and tries the writer at the limits. rust/cartgravel's tests write the same record.
#include "batch.h"

#include <math.h>
#include <stdio.h>
#include <string.h>

static uint8_t record[CARTGRAVEL_RECORD_BYTES];

// Prints bytes in hexadecimal.
static void print(size_t length) {
    for (size_t i = 0; i < length; i++) printf("%02x%s", record[i], i % 16 == 15 || i + 1 == length ? "\n" : " ");
}

// Prints the length of a batch of these nodes, 0 where a limit is broken.
static void try(const char *what, const batch_node *nodes, size_t n, size_t room) {
    const cartgravel_uuid shop = {0, 0};
    printf("%s: %zu\n", what, batch_encode(record, room, &(batch){shop, NULL, 0, nodes, n}));
}

int main(void) {
    const uint64_t seven = 7, nine = 9, two[] = {8, 9}, last[] = {6};
    const cartgravel_uuid tree = {1, 2}, grafted = {3, 4};
    const cartgravel_rect bounds = {1, 2, 3, 4};
    const cartgravel_affine shift = {1, 0, 0, 1, 5, -0.0};
    const batch_node nodes[] = {
        {.id = 7, .role = 2, .label = "Pay", .children = two, .child_count = 2, .hidden = true, .active_descendant = &nine},
        {.id = 8, .role = 200, .label = "No!", .label_bytes = 2, .clips_children = true, .graft = &grafted},
        {.id = 9, .label = "?", .children = last, .child_count = 1, .bounds = &bounds, .transform = &shift},
    };
    print(batch_encode(record, sizeof record, &(batch){tree, &seven, 8, nodes, 3}));

    static batch_node many[CARTGRAVEL_LISTED_NODES + 1];
    static uint64_t children[CARTGRAVEL_CHILD_ENTRIES + 1];
    const char *label = "a label of more than thirty-two b";
    const cartgravel_rect infinite = {0, 0, INFINITY, 0};
    try("64 nodes", many, 64, sizeof record);
    try("65 nodes", many, 65, sizeof record);
    try("a buffer too short", many, 64, 64 + 64 * 128 - 1);
    try("256 children", &(batch_node){.children = children, .child_count = 256}, 1, sizeof record);
    try("257 children", &(batch_node){.children = children, .child_count = 257}, 1, sizeof record);
    try("a label of 32 bytes", &(batch_node){.label = label, .label_bytes = 32}, 1, sizeof record);
    try("a label of 33 bytes", &(batch_node){.label = label}, 1, sizeof record);
    try("a number that is not finite", &(batch_node){.bounds = &infinite}, 1, sizeof record);
    return 0;
}
