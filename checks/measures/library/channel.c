/* A channel between two handles in one process, whose keys are stubs: each answer is yes, each signature zeros.
 *
 *     channel pay N         N payments: prints the seconds that they took, and how many calls they made
 *     channel record N      the same, and each call's bytes to stdout
 *     channel replay WORD   makes the calls that stdin has; with the word `read` it makes none
 *     channel idle N        N channels after a payment, both ends, which are lost: prints the bytes of one end
 */
#include "lnlink.h"
#include <malloc.h>
#include <stdio.h>
#include <stdlib.h>
#include <string.h>
#include <time.h>

enum { ROOM = 200000, INBOX = 16, CALLS = 11 };
enum { OPEN, ACCEPT, FUND, CONNECT, DISCONNECT, QUESTION, MESSAGE, COMMAND, NEXT, DONE, LOOK };

struct bytes {
    size_t n;
    uint8_t at[ROOM];
};

struct end {
    lnl_link link;
    struct end *peer;
    uint8_t role;
    struct bytes *inbox;
    size_t first, last;
    int fulfils;
    uint64_t htlc;
};

static uint8_t item[ROOM];
static size_t length;
static FILE *record;
static unsigned long calls;
static const uint8_t zeros[64 * 484];

static void stop(const char *what, int32_t answer) {
    fprintf(stderr, "%s: %d\n", what, answer);
    exit(1);
}

/* ---- a call, by its kind */

static void called(struct end *end, int kind, const uint8_t *one, size_t n, const uint8_t *other, size_t m) {
    lnl_link *link = &end->link;
    int32_t answer = 0;
    if (record) {
        uint8_t head[10] = {kind, end->role};
        for (int at = 0; at < 4; at++) head[2 + at] = n >> 8 * (3 - at), head[6 + at] = m >> 8 * (3 - at);
        fwrite(head, 1, 10, record);
        fwrite(one, 1, n, record);
        fwrite(other, 1, m, record);
    }
    calls++;
    switch (kind) {
    case OPEN: answer = lnl_open(link, one, n, other, m); break;
    case ACCEPT: answer = lnl_accept(link, one, n, other, m); break;
    case FUND: answer = lnl_fund(link, one, n, 1); break;
    case CONNECT: answer = lnl_connect(link); break;
    case DISCONNECT: answer = lnl_disconnect(link); break;
    case QUESTION: answer = lnl_question(link, one, n, item, ROOM, &length); break;
    case MESSAGE: answer = lnl_message(link, one, n, other, m); break;
    case COMMAND: answer = lnl_command(link, one, n); break;
    case NEXT: answer = lnl_next(link, item, ROOM, &length); break;
    case DONE: answer = lnl_done(link, one, n); break;
    case LOOK: answer = lnl_look(link, item, ROOM, &length); break;
    default: stop("no such call", kind);
    }
    if (answer) stop("a call is refused", kind * 1000 + answer);
}

static void call(struct end *end, int kind) { called(end, kind, zeros, 0, zeros, 0); }

/* ---- a host */

static void put(struct bytes *b, const void *data, size_t n) {
    memcpy(b->at + b->n, data, n);
    b->n += n;
}

static void put_number(struct bytes *b, uint64_t value, int width) {
    while (width--) b->at[b->n++] = value >> 8 * width;
}

static uint64_t number(const uint8_t *at, int width) {
    uint64_t value = 0;
    while (width--) value = value << 8 | *at++;
    return value;
}

static void give(struct end *end, const struct bytes *command) { called(end, COMMAND, command->at, command->n, zeros, 0); }

static size_t filling(const uint8_t *blank) {
    if (blank[0] == 1) return 64 * (1 + number(blank + 63, 8));
    return blank[0] == 2 ? 65 : blank[0] == 3 ? 33 : 64;
}

/* An event is decided: nothing is made of it. */
static void act(struct end *end) {
    struct bytes decide = {0};
    if (item[9] == 0 && item[10] == 0) end->fulfils = 1, end->htlc = number(item + 11, 8);
    put_number(&decide, 8, 1);
    put(&decide, item + 1, 8);
    put_number(&decide, 0, 1);
    call(end, DONE);
    give(end, &decide);
}

static void hand_out(struct end *end) {
    for (;;) {
        call(end, NEXT);
        if (length == 0) return;
        if (item[0] == 4) {
            act(end);
            continue;
        }
        if (item[0] == 3) {
            struct bytes *slot = &end->peer->inbox[end->peer->last++ % INBOX];
            slot->n = 0;
            put(slot, item + 1, length - 1);
        }
        called(end, DONE, zeros, item[0] == 2 ? filling(item + 1) : 0, zeros, 0);
    }
}

static void settle(struct end *one) {
    static const uint8_t yes[1] = {1};
    while (one->first != one->last || one->peer->first != one->peer->last) {
        struct end *end = one->first != one->last ? one : one->peer;
        struct bytes *m = &end->inbox[end->first++ % INBOX];
        called(end, QUESTION, m->at, m->n, zeros, 0);
        if (length == 0) called(end, MESSAGE, m->at, m->n, zeros, 0);
        else if (item[0] == 4) called(end, MESSAGE, m->at, m->n, zeros, 32);
        else called(end, MESSAGE, m->at, m->n, yes, 1);
        hand_out(end);
    }
}

static void tell(struct end *end, const struct bytes *command) {
    give(end, command);
    hand_out(end);
}

static void sign(struct end *end) {
    struct bytes told = {0};
    put_number(&told, 6, 1);
    tell(end, &told);
    settle(end);
}

static void put_config(struct bytes *b) {
    put_number(b, 1, 8);
    put_number(b, 483, 2);
    put_number(b, 1000000000000, 8);
    put_number(b, 0, 8);
    put(b, zeros, 32);
    put_number(b, 546, 8);
    put_number(b, 144, 2);
    put_number(b, 3, 4);
    put(b, zeros, 5 * 33);
    put_number(b, 300, 8);
    put_number(b, 200, 8);
    put_number(b, 400, 8);
    put_number(b, 0, 2);
}

static void open_both(struct end *funder, struct end *fundee) {
    static struct bytes spec, config, confirm;
    spec.n = config.n = confirm.n = 0;
    put_config(&spec);
    put_number(&spec, 1000000000, 8);
    put_number(&spec, 0, 8);
    put_number(&spec, 253, 4);
    put_number(&spec, 0, 1);
    put(&spec, zeros, 32);
    put(&spec, zeros, 34);
    put_number(&spec, 0, 8);
    put_config(&config);
    called(funder, OPEN, spec.at, spec.n, zeros, 33);
    called(fundee, ACCEPT, config.at, config.n, zeros, 33);
    called(funder, FUND, zeros, 32, zeros, 0);
    call(fundee, CONNECT);
    call(funder, CONNECT);
    hand_out(fundee);
    hand_out(funder);
    settle(funder);
    put_number(&confirm, 0, 1);
    put_number(&confirm, 110, 3);
    put_number(&confirm, 1, 3);
    put_number(&confirm, 1, 2);
    tell(funder, &confirm);
    tell(fundee, &confirm);
    settle(funder);
}

/* The SHA-256 of 32 zeros. */
static const uint8_t payment_hash[32] = {
    0x66, 0x68, 0x7a, 0xad, 0xf8, 0x62, 0xbd, 0x77, 0x6c, 0x8f, 0xc1, 0x8b, 0x8e, 0x9f, 0x8e, 0x20,
    0x08, 0x97, 0x14, 0x85, 0x6e, 0xe2, 0x33, 0xb3, 0x90, 0x2a, 0x59, 0x1d, 0x0d, 0x5f, 0x29, 0x25};

static void pay(struct end *payer, struct end *payee) {
    static struct bytes told;
    told.n = 0;
    put_number(&told, 1, 1);
    put_number(&told, 5000000, 8);
    put(&told, payment_hash, 32);
    put_number(&told, 500, 4);
    put(&told, zeros, 1366);
    put_number(&told, 0, 1);
    payee->fulfils = 0;
    tell(payer, &told);
    sign(payer);
    sign(payee);
    if (!payee->fulfils) stop("the payment hasn't come", 0);
    told.n = 0;
    put_number(&told, 2, 1);
    put_number(&told, payee->htlc, 8);
    put(&told, zeros, 32);
    tell(payee, &told);
    sign(payee);
    sign(payer);
}

static void begin(struct end *both, struct bytes *inboxes) {
    for (int at = 0; at < 2; at++) both[at] = (struct end){.peer = &both[1 - at], .role = at, .inbox = inboxes + INBOX * at};
}

static struct bytes inboxes[2 * INBOX];

static double seconds(void) {
    struct timespec now;
    clock_gettime(CLOCK_PROCESS_CPUTIME_ID, &now);
    return now.tv_sec + now.tv_nsec / 1e9;
}

static void payments(int count) {
    static struct end both[2];
    begin(both, inboxes);
    open_both(both, both + 1);
    unsigned long before = calls;
    double began = seconds();
    for (int at = 0; at < count; at++) pay(both, both + 1);
    fprintf(record ? stderr : stdout, "%.6f %lu\n", seconds() - began, calls - before);
}

static void replay(int is_read_only) {
    static struct end both[2];
    static uint8_t one[ROOM], other[ROOM], head[10];
    begin(both, inboxes);
    while (fread(head, 1, 10, stdin) == 10) {
        size_t n = number(head + 2, 4), m = number(head + 6, 4);
        if (n > ROOM || m > ROOM || fread(one, 1, n, stdin) != n || fread(other, 1, m, stdin) != m) stop("cut off", 0);
        if (!is_read_only) called(&both[head[1] & 1], head[0], one, n, other, m);
    }
}

static void idle(int count) {
    struct end *all = calloc(2 * count, sizeof *all);
    size_t before = mallinfo2().uordblks + mallinfo2().hblkhd;
    for (int at = 0; at < count; at++) {
        struct end *both = all + 2 * at;
        begin(both, inboxes);
        open_both(both, both + 1);
        pay(both, both + 1);
        call(both, DISCONNECT);
        call(both + 1, DISCONNECT);
    }
    printf("%zu\n", (mallinfo2().uordblks + mallinfo2().hblkhd - before) / (2 * count));
}

int main(int argc, char **words) {
    const char *word = argc > 2 ? words[1] : "";
    if (!strcmp(word, "record")) record = stdout;
    if (!strcmp(word, "pay") || record) payments(atoi(words[2]));
    else if (!strcmp(word, "replay")) replay(!strcmp(words[2], "read"));
    else if (!strcmp(word, "idle")) idle(atoi(words[2]));
    else stop("pay, record, replay or idle, and a word", 0);
    return 0;
}
