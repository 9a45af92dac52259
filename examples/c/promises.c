// What the header promises beside the proved functions: a start that does not read the state's memory, a state that a refusal leaves as it was, a batch
// and a slice of no elements, questions that change nothing, reasons that leave the state or blank memory, and calls, questions and reasons that
// CARTGRAVEL_STACK suffices for. Ends with a failed test's name and 1, or with 0.
#define _POSIX_C_SOURCE 200809L
#include "batch.h"

#include <pthread.h>
#include <stdio.h>
#include <stdlib.h>
#include <string.h>

static cartgravel_state state;

// Ends the program unless a fact holds.
static void check(bool holds, const char *name) {
    if (holds) return;
    printf("failed: %s\n", name);
    exit(1);
}

// The record of a start with one node, number 0.
static const uint8_t one_node[192] = {[0] = 1, [6] = 1, [8] = 64, [12] = 192, [16] = 192, [20] = 192};

// Each call. The stack that it needs is the same for every batch.
static void *start(void *unused) {
    check(cartgravel_start(&state, one_node, sizeof one_node, 1).number == CARTGRAVEL_ACCEPTED, "a start");
    return unused;
}

static void *update(void *unused) {
    static uint64_t changes[CARTGRAVEL_CHANGES];
    const cartgravel_reply reply = cartgravel_update(&state, one_node, sizeof one_node, changes, CARTGRAVEL_CHANGES);
    check(reply.number == CARTGRAVEL_ACCEPTED, "a batch");
    return unused;
}

static void *host_focus(void *unused) {
    check(cartgravel_host_focus(&state, 0).number == CARTGRAVEL_ACCEPTED, "a host focus change");
    return unused;
}

// The node of that record, one that is not there, and the sum of the numbers that every question about it answers.
static const cartgravel_node_id zero = {0, 0}, absent = {0, 9};

static uint32_t about(cartgravel_node_id id) {
    static uint64_t out[CARTGRAVEL_IDS];
    static uint8_t label[CARTGRAVEL_LABEL_BYTES];
    const cartgravel_state *s = &state;
    const uint32_t f = CARTGRAVEL_COMMON, side = CARTGRAVEL_PRECEDING;
    cartgravel_walk walk = {.node = id, .side = side, .filter = CARTGRAVEL_UNFILTERED};
    return cartgravel_node(s, id).number + cartgravel_label(s, id, label, sizeof label).number + cartgravel_parent(s, id).number +
           cartgravel_children(s, id, out, CARTGRAVEL_IDS).number + cartgravel_hidden(s, id).number + cartgravel_transform(s, id).number +
           cartgravel_bounding_box(s, id).number + cartgravel_filter(s, id, f).number + cartgravel_filtered_parent(s, id, f).number +
           cartgravel_first_filtered_child(s, id, f).number + cartgravel_last_filtered_child(s, id, f).number +
           cartgravel_deepest_first_filtered_child(s, id, f).number + cartgravel_deepest_last_filtered_child(s, id, f).number +
           cartgravel_siblings(s, id, side, out, CARTGRAVEL_IDS).number + cartgravel_filtered_children(s, id, f, out, CARTGRAVEL_IDS).number +
           cartgravel_filtered_siblings(s, id, f, side, out, CARTGRAVEL_IDS).number + cartgravel_next(&walk, s).number;
}

static void *questions(void *unused) {
    const cartgravel_counts_answer counts = cartgravel_counts(&state);
    check(counts.number == 0 && counts.nodes == 1 && counts.trees == 1 && counts.host_focused == 0, "the counts");
    check(cartgravel_root(&state).id.present == 1 && cartgravel_focus(&state).id.present == 0, "the root, and no focus");
    check(cartgravel_tree_id(&state, 0).present == 1 && cartgravel_tree_id(&state, 1).present == 0, "tree ids");
    check(cartgravel_tree_index(&state, (cartgravel_uuid){0, 0}).present == 1, "tree numbers");
    check(cartgravel_tree_ends(&state, 0).root.present == 1, "a tree's ends");
    check(about(zero) == 0, "questions about a node");
    check(about(absent) == 17 * CARTGRAVEL_NODE_ABSENT, "questions about a node that is not there");
    return unused;
}

// Sends a batch.
static void send(const batch *b, bool start) {
    static uint8_t record[CARTGRAVEL_RECORD_BYTES];
    static uint64_t changes[CARTGRAVEL_CHANGES];
    const size_t length = batch_encode(record, sizeof record, b);
    const cartgravel_reply reply = start ? cartgravel_start(&state, record, length, 1)
                                         : cartgravel_update(&state, record, length, changes, CARTGRAVEL_CHANGES);
    check(reply.number == CARTGRAVEL_ACCEPTED, "a part of the chain");
}

// A state of 256 nodes, each of which clips its only child: the way up and down is as long as can be.
static void chain(void) {
    static batch_node nodes[CARTGRAVEL_LISTED_NODES];
    static uint64_t below[CARTGRAVEL_NODES];
    static const uint64_t root = 0;
    static const cartgravel_rect bounds = {0, 0, 9, 9};
    for (uint64_t from = 0; from < CARTGRAVEL_NODES - 1; from += CARTGRAVEL_LISTED_NODES - 1) {
        size_t n = 0;
        for (uint64_t id = from; id < CARTGRAVEL_NODES && n < CARTGRAVEL_LISTED_NODES; id++) {
            below[id] = id + 1;
            nodes[n++] = (batch_node){.id = id, .role = 4, .clips_children = true, .bounds = &bounds, .children = &below[id], .child_count = 1};
        }
        nodes[n - 1].child_count = 0;
        send(&(batch){{0, 0}, from == 0 ? &root : NULL, 0, nodes, n}, from == 0);
    }
}

static void *questions_about_a_chain(void *unused) {
    const cartgravel_node_id last = {0, CARTGRAVEL_NODES - 1};
    check(about(zero) == 0 && about(last) == 0, "questions about a chain");
    const cartgravel_found deepest = cartgravel_deepest_first_filtered_child(&state, zero, CARTGRAVEL_COMMON);
    check(deepest.id.present == 1 && deepest.id.node == last.node, "the end of a chain");
    return unused;
}

// A call on a thread with no more stack than it asks for.
static void on_a_small_stack(void *(*call)(void *)) {
    pthread_attr_t attributes;
    pthread_t thread;
    check(pthread_attr_init(&attributes) == 0, "thread attributes");
    check(pthread_attr_setstacksize(&attributes, CARTGRAVEL_STACK) == 0, "the stack's size");
    check(pthread_create(&thread, &attributes, call, NULL) == 0, "a thread");
    check(pthread_join(thread, NULL) == 0, "the thread's end");
}

// Whether every byte of a state is 0.
static bool is_zeros(const cartgravel_state *s) {
    static const cartgravel_state blank;
    return memcmp(&blank, s, sizeof blank) == 0;
}

static bool is_blank(void) { return is_zeros(&state); }

// Whether the words of a way from one on are 0.
static bool ends(const uint64_t *way, size_t from) {
    for (size_t i = from; i < CARTGRAVEL_WAY_WORDS; i++) {
        if (way[i] != 0) return false;
    }
    return true;
}

// Why a batch gets its number, the state being the chain: its end names its root, and a focus that is not there.
static void *reasons(void *unused) {
    static cartgravel_state before, memory;
    static uint8_t record[CARTGRAVEL_RECORD_BYTES];
    uint64_t way[CARTGRAVEL_WAY_WORDS];
    const uint64_t root = 0;
    const batch_node end = {.id = CARTGRAVEL_NODES - 1, .role = 4, .children = &root, .child_count = 1};
    memset(way, 0xa5, sizeof way);
    memset(&memory, 0xa5, sizeof memory);
    memcpy(&before, &state, sizeof state);
    size_t length = batch_encode(record, sizeof record, &(batch){{0, 0}, NULL, 0, &end, 1});
    const cartgravel_explanation circle = cartgravel_explain(&state, record, length, CARTGRAVEL_CHANGES, way);
    check(circle.number == CARTGRAVEL_OUTCOME_NOT_SOUND && circle.rule == CARTGRAVEL_RULE_MET_TWICE, "the reason of a circle");
    check(circle.node.present == 1 && circle.node.node == 0 && ends(way, 0), "the node of a circle");
    length = batch_encode(record, sizeof record, &(batch){{0, 0}, NULL, 999, NULL, 0});
    const cartgravel_explanation focus = cartgravel_explain(&state, record, length, CARTGRAVEL_CHANGES, way);
    check(focus.number == CARTGRAVEL_FOCUS_ABSENT && focus.place == 1 && way[1] == 999 && ends(way, 2), "the reason of a focus");
    check(memcmp(&before, &state, sizeof state) == 0, "a reason leaves the state");
    check(cartgravel_explain_start(&memory, one_node, sizeof one_node, way).number == CARTGRAVEL_ACCEPTED, "a start's reason");
    check(is_zeros(&memory) && ends(way, 0), "a start's reason leaves zeros");
    return unused;
}

// Batches and slices of no elements. The state that the calls left stays, byte for byte; a refused start leaves the blank one.
static void nothing_lent(void) {
    static cartgravel_state before;
    static uint8_t changing[sizeof one_node];
    uint64_t nothing = 0;
    memcpy(&before, &state, sizeof state);
    memcpy(changing, one_node, sizeof one_node);
    changing[64 + 40] = 4;
    check(cartgravel_update(&state, one_node, 0, &nothing, 0).number == CARTGRAVEL_NOT_A_RECORD, "no batch");
    check(cartgravel_update(&state, changing, sizeof changing, &nothing, 0).number == CARTGRAVEL_LIST_TOO_SHORT, "no slice");
    check(memcmp(&before, &state, sizeof state) == 0, "a refusal leaves the state");
    check(cartgravel_label(&state, zero, changing, 0).number == CARTGRAVEL_ACCEPTED, "no room for no label");
    check(cartgravel_children(&state, zero, &nothing, 0).number == CARTGRAVEL_ACCEPTED, "no room for no children");
    check(cartgravel_start(&state, one_node, 0, 1).number == CARTGRAVEL_NOT_A_RECORD, "a start without a batch");
    check(is_blank(), "a refused start leaves zeros");
    check(cartgravel_host_focus(&state, 1).number == CARTGRAVEL_STATE_NOT_SOUND, "the blank state");
    check(about(zero) == 17 * CARTGRAVEL_STATE_NOT_SOUND, "questions about the blank state");
}

int main(void) {
    memset(&state, 0xa5, sizeof state);
    on_a_small_stack(start);
    on_a_small_stack(update);
    on_a_small_stack(host_focus);
    on_a_small_stack(questions);
    nothing_lent();
    chain();
    on_a_small_stack(questions_about_a_chain);
    on_a_small_stack(reasons);
    check(strcmp(cartgravel_rule_words(15), "the effective focus is absent") == 0, "the last rule's words");
    check(strcmp(cartgravel_rule_words(16), "no such rule") == 0, "words of no rule");
    check(strcmp(cartgravel_words(22), "the node asked about is not in the state") == 0, "the last number's words");
    check(strcmp(cartgravel_words(23), "no such number") == 0, "words of no number");
    return 0;
}
