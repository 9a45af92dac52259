// A sale: a shop starts its screen, makes room for a bank's pane, and the bank sends the pane; then batches that are refused. Prints what each call
// answered and what it changed, or why it refused. The screen is document 01's S; the batches are those of its cases 9, 2, 7 and 14.
#include "batch.h"

#include <inttypes.h>
#include <stdio.h>

// The role of every node, and the trees.
enum { PLAIN = 4 };
static const cartgravel_uuid SHOP = {0, 0}, BANK = {0x0123456789abcdef, 7};

// Prints a list of n ids, unless it is empty; where the next one starts.
static const uint64_t *print_list(const char *name, const uint64_t *ids, size_t n) {
    if (n == 0) return ids;
    printf("  %s", name);
    for (size_t i = 0; i < n; i++) printf(" (%" PRIu64 ", %" PRIu64 ")", ids[2 * i], ids[2 * i + 1]);
    printf("\n");
    return ids + 2 * n;
}

// Prints an id, or none.
static void print_id(cartgravel_id id) {
    if (id.present) {
        printf(" (%" PRIu32 ", %" PRIu64 ")", id.tree, id.node);
    } else {
        printf(" none");
    }
}

// Prints what a call answered and, if it was accepted, what it changed.
static void print_reply(const char *what, const cartgravel_reply *reply, const uint64_t *changes) {
    printf("%s: %" PRIu32 ", %s\n", what, reply->number, cartgravel_words(reply->number));
    if (reply->number != CARTGRAVEL_ACCEPTED) return;
    changes = print_list("added", changes, reply->lengths.added);
    changes = print_list("updated", changes, reply->lengths.updated);
    changes = print_list("removed", changes, reply->lengths.removed);
    print_list("relinked", changes, reply->lengths.relinked);
    printf("  focus");
    print_id(reply->report.focus_before);
    print_id(reply->report.focus_after);
    printf("\n");
}

// Prints words, an id or none, and other words.
static void print_part(const char *before, cartgravel_id id, const char *after) {
    printf("%s", before);
    print_id(id);
    printf("%s", after);
}

// Prints why a batch was refused. The header has what each field holds for a number.
static void print_reason(const cartgravel_state *state, const uint8_t *record, size_t length) {
    uint64_t way[CARTGRAVEL_WAY_WORDS];
    const cartgravel_explanation why = cartgravel_explain(state, record, length, CARTGRAVEL_CHANGES, way);
    print_part("  node", why.node, "");
    switch (why.number) {
    case CARTGRAVEL_CHILD_NAMED_TWICE:
        print_part(" is named by", why.also, " and");
        print_part(" by", why.by, "\n");
        break;
    case CARTGRAVEL_CHANGED_AND_REMOVED:
        print_part(" goes with", why.also, ", which");
        print_part("", why.by, " dropped\n");
        break;
    case CARTGRAVEL_OUTCOME_NOT_SOUND: printf(": %s\n", cartgravel_rule_words(why.rule)); break;
    default: printf("\n");
    }
}

// Sends a batch and prints the answer.
static void send(const char *what, cartgravel_state *state, const batch *b) {
    uint8_t record[CARTGRAVEL_RECORD_BYTES];
    uint64_t changes[CARTGRAVEL_CHANGES];
    const size_t length = batch_encode(record, sizeof record, b);
    const cartgravel_reply reply = cartgravel_update(state, record, length, changes, CARTGRAVEL_CHANGES);
    print_reply(what, &reply, changes);
    if (reply.number != CARTGRAVEL_ACCEPTED) print_reason(state, record, length);
}

// Starts a state and prints the answer.
static void start(const char *what, cartgravel_state *state, const batch *b) {
    uint8_t record[CARTGRAVEL_RECORD_BYTES];
    const size_t length = batch_encode(record, sizeof record, b);
    const cartgravel_reply reply = cartgravel_start(state, record, length, 1);
    print_reply(what, &reply, NULL);
}

int main(void) {
    static cartgravel_state state;
    const uint64_t one = 1, two_three[] = {2, 3}, two_two[] = {2, 2}, two = 2;
    const batch_node screen[] = {
        {.id = 1, .role = PLAIN, .children = two_three, .child_count = 2},
        {.id = 2, .role = PLAIN},
        {.id = 3, .role = PLAIN},
    };
    const batch_node room = {.id = 3, .role = PLAIN, .label = "Card", .graft = &BANK};
    const batch_node pane = {.id = 1, .role = PLAIN, .label = "Enter your PIN"};
    const batch_node twice = {.id = 1, .role = PLAIN, .children = two_two, .child_count = 2};
    const batch_node fewer = {.id = 1, .role = PLAIN, .children = &two, .child_count = 1};
    const batch_node card = {.id = 3, .role = PLAIN, .label = "Cash"};
    const batch_node goes[] = {card, fewer}, stays[] = {fewer, card};
    start("the shop starts its screen", &state, &(batch){SHOP, &one, 2, screen, 3});
    send("the shop makes room for the bank", &state, &(batch){SHOP, NULL, 2, &room, 1});
    send("the bank sends its pane", &state, &(batch){BANK, &one, 1, &pane, 1});
    send("the shop names a child twice", &state, &(batch){SHOP, NULL, 2, &twice, 1});
    send("the shop changes a node and drops it", &state, &(batch){SHOP, NULL, 2, goes, 2});
    send("the shop drops a node and changes it", &state, &(batch){SHOP, NULL, 2, stays, 2});
    return 0;
}
