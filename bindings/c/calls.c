/* Each call of include/lnlink.h with what it may not be given: it answers by its number, and nothing has changed. */
#include "lnlink.h"
#include <stdio.h>
#include <string.h>

static int failed;

#define IS(expected, call)                                                          \
    do {                                                                            \
        int answer = (int)(call);                                                   \
        if (answer != (expected)) {                                                 \
            printf("line %d: %d, not %d: %s\n", __LINE__, answer, expected, #call); \
            failed = 1;                                                             \
        }                                                                           \
    } while (0)

/* A config of zeros but for its chain and five points, which fits. */
static const uint8_t config[8 + 2 + 8 + 8 + 32 + 8 + 2 + 4 + 5 * 33 + 3 * 8 + 2];
static const uint8_t point[33] = {2, 1};
static const uint8_t ping[] = {0, 18, 0, 2, 0, 0};
static const uint8_t sign[] = {6};

static void empty_and_null(void) {
    lnl_link empty = {0};
    uint8_t out[64];
    size_t n;
    lnl_link *links[] = {&empty, NULL};
    for (int at = 0; at < 2; at++) {
        lnl_link *link = links[at];
        IS(LNL_HANDLE, lnl_fund(link, config, 32, 0));
        IS(LNL_HANDLE, lnl_connect(link));
        IS(LNL_HANDLE, lnl_disconnect(link));
        IS(LNL_HANDLE, lnl_question(link, ping, sizeof ping, out, sizeof out, &n));
        IS(LNL_HANDLE, lnl_message(link, ping, sizeof ping, NULL, 0));
        IS(LNL_HANDLE, lnl_command(link, sign, 1));
        IS(LNL_HANDLE, lnl_next(link, out, sizeof out, &n));
        IS(LNL_HANDLE, lnl_done(link, NULL, 0));
        IS(LNL_HANDLE, lnl_look(link, out, sizeof out, &n));
        IS(LNL_HANDLE, lnl_view(link, 0, out, sizeof out, &n));
        lnl_free(link);
    }
    IS(LNL_HANDLE, lnl_open(NULL, config, sizeof config, point, 33));
    IS(LNL_HANDLE, lnl_accept(NULL, config, sizeof config, point, 33));
    IS(LNL_HANDLE, lnl_load(NULL, config, sizeof config));
    IS(LNL_HANDLE, lnl_open(&empty, NULL, 400, point, 33));
    IS(LNL_HANDLE, lnl_accept(&empty, NULL, sizeof config, point, 33));
    IS(LNL_HANDLE, lnl_accept(&empty, config, sizeof config, NULL, 33));
    IS(LNL_HANDLE, lnl_load(&empty, NULL, 100));
    IS(0, empty.at != NULL);
}

static void one_link(void) {
    lnl_link link = {0};
    uint8_t out[256];
    size_t n, whole;
    IS(81, lnl_accept(&link, config, sizeof config, point, 32));
    IS(70, lnl_accept(&link, config, sizeof config - 1, point, 33));
    IS(70, lnl_load(&link, config, sizeof config));
    IS(0, link.at != NULL);
    IS(0, lnl_accept(&link, config, sizeof config, point, 33));
    IS(LNL_HANDLE, lnl_accept(&link, config, sizeof config, point, 33));
    IS(LNL_HANDLE, lnl_load(&link, config, sizeof config));
    IS(LNL_HANDLE, lnl_question(&link, NULL, 6, out, sizeof out, &n));
    IS(LNL_HANDLE, lnl_question(&link, ping, sizeof ping, out, sizeof out, NULL));
    IS(LNL_HANDLE, lnl_message(&link, NULL, 6, NULL, 0));
    IS(LNL_HANDLE, lnl_message(&link, ping, sizeof ping, NULL, 1));
    IS(LNL_HANDLE, lnl_command(&link, NULL, 1));
    IS(LNL_HANDLE, lnl_next(&link, out, sizeof out, NULL));
    IS(LNL_HANDLE, lnl_look(&link, NULL, sizeof out, &n));
    IS(LNL_HANDLE, lnl_look(&link, out, sizeof out, NULL));
    IS(LNL_SHORT, lnl_look(&link, out, 1, &whole));
    IS(LNL_SHORT, lnl_look(&link, NULL, 0, &n));
    IS(0, n != whole);
    IS(0, lnl_look(&link, out, whole, &n));
    IS(0, n != whole);
    IS(40, lnl_fund(&link, config, 32, 0));
    IS(40, lnl_done(&link, NULL, 0));
    IS(40, lnl_command(&link, sign, 1));
    IS(70, lnl_command(&link, NULL, 0));
    IS(1, lnl_message(&link, NULL, 0, NULL, 0));
    IS(0, lnl_next(&link, out, sizeof out, &n));
    IS(0, n != 0);
    IS(0, lnl_connect(&link));
    IS(40, lnl_connect(&link));
    IS(0, lnl_message(&link, ping, sizeof ping, NULL, 0)); /* it is of no channel */
    IS(0, lnl_disconnect(&link));
    IS(0, lnl_disconnect(&link));
    lnl_free(&link);
    IS(0, link.at != NULL);
    lnl_free(&link);
}

/* fees, a delta and a mark of zeros; a verdict to go on; what is in no onion */
static const uint8_t settings[4 + 4 + 2 + 32];
static const uint8_t go_on[] = {0};
static const uint8_t onion[1366];
static const uint8_t no_payload[] = {4};

static void no_node(void) {
    lnl_node empty = {0};
    uint8_t out[64];
    size_t n, channel;
    lnl_node *nodes[] = {&empty, NULL};
    for (int at = 0; at < 2; at++) {
        lnl_node *node = nodes[at];
        IS(LNL_HANDLE, lnl_node_open(node, config, sizeof config, point, 33, &channel));
        IS(LNL_HANDLE, lnl_node_accept(node, config, sizeof config, point, 33, &channel));
        IS(LNL_HANDLE, lnl_node_fund(node, 0, config, 32, 0));
        IS(LNL_HANDLE, lnl_node_connect(node, 0));
        IS(LNL_HANDLE, lnl_node_disconnect(node, 0));
        IS(LNL_HANDLE, lnl_node_question(node, 0, ping, sizeof ping, out, sizeof out, &n));
        IS(LNL_HANDLE, lnl_node_message(node, 0, ping, sizeof ping, NULL, 0));
        IS(LNL_HANDLE, lnl_node_look(node, 0, out, sizeof out, &n));
        IS(LNL_HANDLE, lnl_node_view(node, 0, 0, out, sizeof out, &n));
        IS(LNL_HANDLE, lnl_node_command(node, 0, sign, 1));
        IS(LNL_HANDLE, lnl_node_sign(node));
        IS(LNL_HANDLE, lnl_node_height(node, 1));
        IS(LNL_HANDLE, lnl_node_expect(node, config, 32, config, 32, 1));
        IS(LNL_HANDLE, lnl_node_next(node, out, sizeof out, &n));
        IS(LNL_HANDLE, lnl_node_saved(node, 1));
        IS(LNL_HANDLE, lnl_node_fill(node, 0, 0, point, 33));
        IS(LNL_HANDLE, lnl_node_sent(node, 0, 0));
        IS(LNL_HANDLE, lnl_node_onion(node, config, 32, onion, sizeof onion, no_payload, 1));
        IS(LNL_HANDLE, lnl_node_verdict(node, 0, 0, go_on, 1));
        IS(LNL_HANDLE, lnl_node_resume(node, 0, 0, go_on, 1));
        IS(LNL_HANDLE, lnl_node_held(node, out, sizeof out, &n));
        lnl_node_free(node);
    }
    IS(LNL_HANDLE, lnl_node_load(NULL, settings, sizeof settings, NULL, 0));
    IS(LNL_HANDLE, lnl_node_load(&empty, NULL, sizeof settings, NULL, 0));
    IS(LNL_HANDLE, lnl_node_load(&empty, settings, sizeof settings, NULL, 1));
    IS(70, lnl_node_load(&empty, settings, sizeof settings - 1, NULL, 0));
    IS(70, lnl_node_load(&empty, settings, sizeof settings, config, 8));
    IS(0, empty.at != NULL);
}

/* Of a node without a channel, and of one whose channel isn't opened. */
static void one_node(void) {
    lnl_node node = {0};
    uint8_t out[256];
    size_t n, channel = 7;
    IS(0, lnl_node_load(&node, settings, sizeof settings, NULL, 0));
    IS(LNL_HANDLE, lnl_node_load(&node, settings, sizeof settings, NULL, 0));
    IS(0, lnl_node_next(&node, out, sizeof out, &n));
    IS(0, n != 0);
    IS(40, lnl_node_connect(&node, 0));
    IS(40, lnl_node_message(&node, 0, ping, sizeof ping, NULL, 0));
    IS(40, lnl_node_look(&node, 0, out, sizeof out, &n));
    IS(81, lnl_node_accept(&node, config, sizeof config, point, 32, &channel));
    IS(70, lnl_node_accept(&node, config, sizeof config - 1, point, 33, &channel));
    IS(LNL_HANDLE, lnl_node_accept(&node, config, sizeof config, point, 33, NULL));
    IS(0, channel != 7);
    IS(0, lnl_node_accept(&node, config, sizeof config, point, 33, &channel));
    IS(0, channel != 0);
    IS(0, lnl_node_accept(&node, config, sizeof config, point, 33, &channel));
    IS(0, channel != 1);
    IS(40, lnl_node_fund(&node, 0, config, 32, 0));
    IS(81, lnl_node_fund(&node, 0, config, 31, 0));
    IS(0, lnl_node_connect(&node, 0));
    IS(40, lnl_node_connect(&node, 0));
    IS(40, lnl_node_connect(&node, 2));
    IS(0, lnl_node_message(&node, 0, ping, sizeof ping, NULL, 0)); /* it is of no channel */
    IS(81, lnl_node_message(&node, 0, ping, sizeof ping, go_on, 1));
    IS(LNL_HANDLE, lnl_node_message(&node, 0, NULL, 6, NULL, 0));
    IS(40, lnl_node_command(&node, 0, sign, 1));
    IS(0, lnl_node_sign(&node));
    IS(40, lnl_node_height(&node, 400000001));
    IS(0, lnl_node_height(&node, 400000000));
    IS(81, lnl_node_expect(&node, config, 31, config, 32, 1));
    IS(0, lnl_node_expect(&node, config, 32, config, 32, 1));
    IS(40, lnl_node_saved(&node, 1));
    IS(40, lnl_node_fill(&node, 0, 0, point, 33));
    IS(40, lnl_node_sent(&node, 0, 0));
    IS(81, lnl_node_onion(&node, config, 32, onion, 1365, no_payload, 1));
    IS(40, lnl_node_onion(&node, config, 32, onion, sizeof onion, no_payload, 1));
    IS(40, lnl_node_verdict(&node, 0, 0, go_on, 1));
    IS(81, lnl_node_verdict(&node, 0, 0, go_on, 0));
    IS(81, lnl_node_verdict(&node, 0, 0, no_payload, 1));
    IS(40, lnl_node_resume(&node, 0, 0, go_on, 1));
    IS(LNL_SHORT, lnl_node_look(&node, 0, out, 1, &n));
    IS(0, lnl_node_look(&node, 0, out, n, &n));
    IS(0, lnl_node_held(&node, out, sizeof out, &n));
    IS(0, n != 0);
    IS(0, lnl_node_disconnect(&node, 0));
    IS(0, lnl_node_disconnect(&node, 2));
    lnl_node_free(&node);
    IS(0, node.at != NULL);
    lnl_node_free(&node);
}

static void bolt1(void) {
    static const uint8_t pong[] = {0, 19, 0, 2, 0, 0};
    static const uint8_t init[] = {0, 16, 0, 0, 0, 1, 2};
    static const uint16_t known[] = {0, 5, 12};
    uint8_t out[256];
    size_t n;
    IS(0, lnl_pong(ping, sizeof ping, out, sizeof out, &n));
    IS(0, n != sizeof pong || memcmp(out, pong, n));
    IS(LNL_SHORT, lnl_pong(ping, sizeof ping, out, 5, &n));
    IS(0, n != sizeof pong);
    IS(21, lnl_pong(pong, sizeof pong, out, sizeof out, &n));
    IS(LNL_HANDLE, lnl_pong(NULL, 6, out, sizeof out, &n));
    IS(1, lnl_pong(NULL, 0, out, sizeof out, &n));
    IS(0, lnl_init(init + 6, 1, NULL, 0, out, sizeof out, &n));
    IS(0, n != sizeof init || memcmp(out, init, n));
    IS(0, lnl_check_init(init, sizeof init, NULL, 0));
    IS(0, lnl_check_init(init, sizeof init, known, 3));
    IS(21, lnl_check_init(ping, sizeof ping, known, 3));
    IS(LNL_HANDLE, lnl_check_init(init, sizeof init, NULL, 1));
    IS(0, lnl_shares_chain(init, sizeof init, config, 32));
    IS(21, lnl_shares_chain(ping, sizeof ping, NULL, 0));
    IS(LNL_HANDLE, lnl_shares_chain(init, sizeof init, NULL, 32));
    IS(8, lnl_init(init + 6, 1, config, 31, out, sizeof out, &n));
    IS(0, lnl_channel(ping, sizeof ping, out, sizeof out, &n));
    IS(0, n != 0);
    IS(0, lnl_print(ping, sizeof ping, out, sizeof out, &n));
    IS(0, n < 12 || memcmp(out, "type 18 ping", 12));
    IS(1, lnl_print(ping, 3, out, sizeof out, &n));
}

int main(void) {
    empty_and_null();
    one_link();
    no_node();
    one_node();
    bolt1();
    return failed;
}
