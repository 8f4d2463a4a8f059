/* The library's allocations are refused from the first one on, then from the second one on, and so on: a call answers
 * 60, and has changed nothing, or its link has halted and answers 62.
 *
 * Linked with -Wl,--wrap=malloc,--wrap=realloc. It takes the file funder.record that the example leaves.
 */
#include "lnlink.h"
#include <stdio.h>
#include <stdlib.h>
#include <string.h>

enum { MEMORY = 60, HALTED = 62, ROOM = 70000 };

void *__real_malloc(size_t n);
void *__real_realloc(void *at, size_t n);
void *__wrap_malloc(size_t n);
void *__wrap_realloc(void *at, size_t n);

static long left = -1; /* so many allocations are granted; -1: all */

static int grants(void) {
    if (left == 0) return 0;
    if (left > 0) left--;
    return 1;
}

void *__wrap_malloc(size_t n) { return grants() ? __real_malloc(n) : NULL; }
void *__wrap_realloc(void *at, size_t n) { return grants() ? __real_realloc(at, n) : NULL; }

static int failed;
static unsigned long tried;

static void expect(int fine, const char *what, long answer) {
    if (!fine) {
        printf("%s: %ld\n", what, answer);
        failed = 1;
    }
}

/* Makes a call with so many allocations. */
#define WITH(granted, call)        \
    do {                           \
        left = (granted);          \
        answer = (call);           \
        left = -1;                 \
        tried += answer == MEMORY; \
    } while (0)

static uint8_t config[8 + 2 + 8 + 8 + 32 + 8 + 2 + 4 + 5 * 33 + 3 * 8 + 2];
static uint8_t spec[sizeof config + 8 + 8 + 4 + 1 + 32 + 32 + 2 + 8];
static const uint8_t point[33] = {2, 1};
static uint8_t opening[ROOM], record[ROOM], out[ROOM], before[ROOM];
static size_t opening_length, record_length;

static size_t look(lnl_link *link, uint8_t *summary) {
    size_t n = 0;
    expect(lnl_look(link, summary, ROOM, &n) == 0, "look", 0);
    return n;
}

static void is_halted(lnl_link *link) {
    static const uint8_t sign[] = {6};
    look(link, out);
    expect(out[1] == 1, "it has halted", out[1]);
    expect(lnl_connect(link) == HALTED, "connect", 0);
    expect(lnl_command(link, sign, 1) == HALTED, "command", 0);
}

/* Calls that make a link: it is there, or it isn't. */
static void makes(int kind) {
    for (long granted = 0;; granted++) {
        lnl_link link = {0};
        int32_t answer = 0;
        if (kind == 0) WITH(granted, lnl_open(&link, spec, sizeof spec, point, 33));
        if (kind == 1) WITH(granted, lnl_accept(&link, config, sizeof config, point, 33));
        if (kind == 2) WITH(granted, lnl_load(&link, record, record_length));
        expect(answer == 0 || (answer == MEMORY && !link.at), "makes", answer);
        lnl_free(&link);
        if (answer != MEMORY) return;
    }
}

/* Calls that change a link: where memory is refused it halts. */
static void changes(int kind) {
    for (long granted = 0;; granted++) {
        lnl_link link = {0};
        int32_t answer = 0;
        if (kind < 2) {
            expect(lnl_accept(&link, config, sizeof config, point, 33) == 0, "accept", 0);
            expect(lnl_connect(&link) == 0, "connect", 0);
            WITH(granted, lnl_message(&link, opening, opening_length, NULL, 0));
        } else {
            expect(lnl_load(&link, record, record_length) == 0, "load", 0);
            WITH(granted, lnl_connect(&link));
        }
        expect(answer == 0 || answer == MEMORY, "changes", answer);
        if (answer == MEMORY) is_halted(&link);
        lnl_free(&link);
        if (answer != MEMORY) return;
    }
}

/* Calls that change nothing, with memory or without. */
static void tells(int kind) {
    lnl_link link = {0};
    size_t n, length;
    expect(lnl_load(&link, record, record_length) == 0, "load", 0);
    expect(lnl_connect(&link) == 0, "connect", 0);
    length = look(&link, before);
    for (long granted = 0;; granted++) {
        int32_t answer = 0;
        if (kind == 0) WITH(granted, lnl_question(&link, opening, opening_length, out, ROOM, &n));
        if (kind == 1) WITH(granted, lnl_next(&link, out, ROOM, &n));
        if (kind == 2) WITH(granted, lnl_look(&link, out, ROOM, &n));
        if (kind == 3) WITH(granted, lnl_view(&link, 0, out, ROOM, &n));
        expect(answer == 0 || answer == MEMORY, "tells", answer);
        expect(look(&link, out) == length && !memcmp(out, before, length), "nothing has changed", kind);
        if (answer != MEMORY) break;
    }
    lnl_free(&link);
}

static void of_no_link(int kind) {
    static const uint8_t ping[] = {0, 18, 0, 2, 0, 0};
    size_t n;
    for (long granted = 0;; granted++) {
        int32_t answer = 0;
        if (kind == 0) WITH(granted, lnl_init(point, 2, record, 32, out, ROOM, &n));
        if (kind == 1) WITH(granted, lnl_pong(ping, sizeof ping, out, ROOM, &n));
        if (kind == 2) WITH(granted, lnl_channel(opening, opening_length, out, ROOM, &n));
        if (kind == 3) WITH(granted, lnl_print(opening, opening_length, out, ROOM, &n));
        expect(answer == 0 || answer == MEMORY, "of no link", answer);
        if (answer != MEMORY) return;
    }
}

/* Calls of a node that has the record's channel, and one that isn't opened. */
static void of_a_node(int kind) {
    static const uint8_t settings[4 + 4 + 2 + 32];
    static uint8_t records[8 + ROOM];
    for (int at = 0; at < 8; at++) records[at] = (uint8_t)((uint64_t)record_length >> (56 - 8 * at));
    memcpy(records + 8, record, record_length);
    for (long granted = 0;; granted++) {
        lnl_node node = {0};
        size_t n = 0, channel = 0;
        int32_t answer = 0;
        if (kind == 0) WITH(granted, lnl_node_load(&node, settings, sizeof settings, records, 8 + record_length));
        expect(answer == 0 || !node.at, "loads", answer);
        if (kind > 0) {
            expect(lnl_node_load(&node, settings, sizeof settings, records, 8 + record_length) == 0, "load", 0);
            if (kind == 1) WITH(granted, lnl_node_accept(&node, config, sizeof config, point, 33, &channel));
            if (answer == MEMORY) expect(lnl_node_look(&node, 1, out, ROOM, &n) == 40, "adds none", 0);
            if (kind != 1) expect(lnl_node_accept(&node, config, sizeof config, point, 33, &channel) == 0, "accept", 0);
        }
        if (kind == 2) WITH(granted, lnl_node_connect(&node, 0));
        if (kind > 2) expect(lnl_node_connect(&node, 0) == 0 && lnl_node_connect(&node, 1) == 0, "connect", 0);
        if (kind == 3) WITH(granted, lnl_node_next(&node, out, ROOM, &n));
        if (kind == 4) WITH(granted, lnl_node_message(&node, 1, opening, opening_length, NULL, 0));
        if (kind == 5) WITH(granted, lnl_node_held(&node, out, ROOM, &n));
        if (kind == 6) WITH(granted, lnl_node_expect(&node, config, 32, config, 32, 1));
        expect(answer == 0 || answer == MEMORY, "of a node", answer);
        if (kind == 3 && answer == MEMORY)
            expect(lnl_node_next(&node, out, ROOM, &n) == 0 && n > 0, "it comes again", granted);
        lnl_node_free(&node);
        if (answer != MEMORY) return;
    }
}

/* An open_channel, as a funder sends it. */
static void make_opening(void) {
    lnl_link link = {0};
    spec[sizeof config + 6] = 100; /* funding_satoshis */
    expect(lnl_open(&link, spec, sizeof spec, point, 33) == 0, "open", 0);
    expect(lnl_connect(&link) == 0, "connect", 0);
    expect(lnl_next(&link, out, ROOM, &opening_length) == 0 && out[0] == 3, "open_channel", out[0]);
    memcpy(opening, out + 1, --opening_length);
    lnl_free(&link);
}

int main(void) {
    FILE *file = fopen("funder.record", "rb");
    if (!file) return 2;
    record_length = fread(record, 1, ROOM, file);
    fclose(file);
    make_opening();
    for (int kind = 0; kind < 4; kind++) {
        if (kind < 3) makes(kind);
        if (kind == 1 || kind == 2) changes(kind);
        tells(kind);
        of_no_link(kind);
    }
    for (int kind = 0; kind < 7; kind++) of_a_node(kind);
    printf("C: %lu times memory was refused\n", tried);
    return failed;
}
