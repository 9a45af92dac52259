// What a cardholder hears: the line of the focus, the items that the keys go through, and a walk from item to item that is kept while the screen
// changes. Every word that is spoken comes from the library. rust/cartgravel/examples/speak.rs says the same.
#include "batch.h"

#include <stdio.h>
#include <stdlib.h>

// The trees, and roles of our own.
static const cartgravel_uuid SHOP = {0, 0}, BANK = {0x0123456789abcdef, 7};
enum { CONTAINER = 0, WINDOW = 4, TEXT = 5, BUTTON = 6, FIELD = 7 };

static cartgravel_state state;

// Ends the program after a refusal.
static void check(uint32_t number) {
    if (number == CARTGRAVEL_ACCEPTED) return;
    printf("refused: %s\n", cartgravel_words(number));
    exit(1);
}

// A role in words.
static const char *role_words(uint32_t role) {
    switch (role) {
    case WINDOW: return "window";
    case TEXT: return "text";
    case BUTTON: return "button";
    case FIELD: return "field";
    default: return "item";
    }
}

// Says a node: its label and its role.
static void say(const char *what, cartgravel_node_id id) {
    uint8_t label[CARTGRAVEL_LABEL_BYTES];
    const cartgravel_node_answer node = cartgravel_node(&state, id);
    const cartgravel_listed listed = cartgravel_label(&state, id, label, sizeof label);
    check(node.number);
    check(listed.number);
    printf("  %s: %.*s, %s\n", what, (int)listed.length, (const char *)label, role_words(node.role));
}

// Says what has the focus.
static void say_focus(void) {
    const cartgravel_found focus = cartgravel_focus(&state);
    check(focus.number);
    if (focus.id.present) say("heard", (cartgravel_node_id){focus.id.tree, focus.id.node});
}

// Says the items that a cardholder can reach; the first of them.
static cartgravel_node_id say_items(void) {
    uint64_t ids[CARTGRAVEL_IDS];
    const cartgravel_found root = cartgravel_root(&state);
    check(root.number);
    const cartgravel_node_id top = {root.id.tree, root.id.node};
    const cartgravel_listed listed = cartgravel_filtered_children(&state, top, CARTGRAVEL_COMMON, ids, CARTGRAVEL_IDS);
    check(listed.number);
    for (size_t i = 0; i < listed.length; i++) say("item", (cartgravel_node_id){(uint32_t)ids[2 * i], ids[2 * i + 1]});
    return listed.length > 0 ? (cartgravel_node_id){(uint32_t)ids[0], ids[1]} : top;
}

// Goes on to the next item; whether there was one.
static bool step(cartgravel_walk *walk) {
    const cartgravel_found next = cartgravel_next(walk, &state);
    check(next.number);
    if (next.id.present) {
        say("next", (cartgravel_node_id){next.id.tree, next.id.node});
    } else {
        printf("  the end\n");
    }
    return next.id.present;
}

// The start: a window with a text, two buttons in a container, a hidden menu and room for the bank.
static void start(void) {
    static uint8_t record[CARTGRAVEL_RECORD_BYTES];
    const uint64_t one = 1, in_window[] = {2, 3, 6, 8}, in_container[] = {4, 5}, in_menu[] = {7};
    const batch_node screen[] = {
        {.id = 1, .role = WINDOW, .label = "Checkout", .children = in_window, .child_count = 4},
        {.id = 2, .role = TEXT, .label = "Total 12.50"},
        {.id = 3, .role = CONTAINER, .children = in_container, .child_count = 2},
        {.id = 4, .role = BUTTON, .label = "Pay by card"},
        {.id = 5, .role = BUTTON, .label = "Cancel"},
        {.id = 6, .role = WINDOW, .label = "Staff menu", .hidden = true, .children = in_menu, .child_count = 1},
        {.id = 7, .role = BUTTON, .label = "Refund"},
        {.id = 8, .role = CONTAINER, .graft = &BANK},
    };
    const size_t length = batch_encode(record, sizeof record, &(batch){SHOP, &one, 4, screen, 8});
    check(cartgravel_start(&state, record, length, 1).number);
}

// Sends a batch.
static void send(const batch *b) {
    static uint8_t record[CARTGRAVEL_RECORD_BYTES];
    static uint64_t changes[CARTGRAVEL_CHANGES];
    const size_t length = batch_encode(record, sizeof record, b);
    check(cartgravel_update(&state, record, length, changes, CARTGRAVEL_CHANGES).number);
}

// The bank's pane, and the focus into it.
static void pay(void) {
    const uint64_t one = 1, in_pane[] = {2, 3};
    const batch_node pane[] = {
        {.id = 1, .role = CONTAINER, .children = in_pane, .child_count = 2},
        {.id = 2, .role = FIELD, .label = "PIN"},
        {.id = 3, .role = BUTTON, .label = "OK"},
    };
    send(&(batch){BANK, &one, 2, pane, 3});
    send(&(batch){SHOP, NULL, 8, NULL, 0});
}

// The second button goes.
static void take_cancel_away(void) {
    const uint64_t left[] = {4};
    const batch_node container = {.id = 3, .role = CONTAINER, .children = left, .child_count = 1};
    send(&(batch){SHOP, NULL, 8, &container, 1});
}

int main(void) {
    printf("the shop starts its screen\n");
    start();
    say_focus();
    say_items();
    printf("the bank sends its pane\n");
    pay();
    say_focus();
    cartgravel_walk walk = {.node = say_items(), .side = CARTGRAVEL_FOLLOWING, .filter = CARTGRAVEL_COMMON};
    printf("the cardholder goes through the items\n");
    step(&walk);
    printf("the shop takes Cancel away\n");
    take_cancel_away();
    while (step(&walk)) {
    }
    return 0;
}
