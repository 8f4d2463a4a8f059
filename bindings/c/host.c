/* Keys by libsecp256k1, records in files, and the loop over a link. What is signed is a digest of what the library
 * tells of a commitment: a wallet signs the transactions of BOLT 3 instead. */
#define _POSIX_C_SOURCE 200809L
#include "host.h"
#include <fcntl.h>
#include <secp256k1.h>
#include <stdio.h>
#include <stdlib.h>
#include <string.h>
#include <unistd.h>

static secp256k1_context *curve;

void begin(void) { curve = secp256k1_context_create(SECP256K1_CONTEXT_SIGN | SECP256K1_CONTEXT_VERIFY); }

void finish(void) { secp256k1_context_destroy(curve); }

void expect(int fine, const char *what, int32_t answer) {
    if (!fine) {
        fprintf(stderr, "%s: %d\n", what, (int)answer);
        exit(1);
    }
}

void done(int32_t answer, const char *what) { expect(answer == LNL_OK, what, answer); }

void put(struct bytes *b, const void *data, size_t n) {
    expect(b->n + n <= ROOM, "too many bytes", 0);
    memcpy(b->at + b->n, data, n);
    b->n += n;
}

void put_number(struct bytes *b, uint64_t value, int width) {
    uint8_t one;
    while (width--) {
        one = (uint8_t)(value >> (8 * width));
        put(b, &one, 1);
    }
}

uint64_t number(const uint8_t *at, int width) {
    uint64_t value = 0;
    while (width--) value = value << 8 | *at++;
    return value;
}

/* ---- keys: a wallet derives secrets as BOLT 3, "Per-commitment Secret Requirements", has it */

static void hash(uint8_t out[32], const char *tag, const struct bytes *text) {
    expect(secp256k1_tagged_sha256(curve, out, (const uint8_t *)tag, strlen(tag), text->at, text->n), "hash", 0);
}

static void secret_of(const struct end *end, uint64_t commitment, uint8_t out[32]) {
    static struct bytes text;
    text.n = 0;
    put(&text, end->key, 32);
    put_number(&text, commitment, 8);
    hash(out, "secret", &text);
}

static void public_key(const uint8_t secret[32], secp256k1_pubkey *key, uint8_t out[33]) {
    size_t n = 33;
    expect(secp256k1_ec_pubkey_create(curve, key, secret), "a secret of the curve", 0);
    secp256k1_ec_pubkey_serialize(curve, out, &n, key, SECP256K1_EC_COMPRESSED);
}

void point_of(const struct end *end, uint64_t commitment, uint8_t out[33]) {
    uint8_t secret[32];
    secp256k1_pubkey key;
    secret_of(end, commitment, secret);
    public_key(secret, &key, out);
}

void key_of(const struct end *end, uint8_t out[33]) {
    secp256k1_pubkey key;
    public_key(end->key, &key, out);
}

/* What is signed of a commitment, or of its HTLC `at` from 1. */
static void commitment_digest(uint8_t out[32], uint8_t owner, const uint8_t *numbered, const uint8_t *point,
                              const uint8_t *view, size_t n, uint64_t at) {
    static struct bytes text;
    text.n = 0;
    put_number(&text, owner, 1);
    put(&text, numbered, 8);
    put(&text, point, 33);
    put(&text, view, n);
    put_number(&text, at, 8);
    hash(out, "commitment", &text);
}

/* What is signed of a closing transaction, the same from both sides: its fee, and the funder's balance. */
static void closing_digest(uint8_t out[32], const uint8_t *closing) {
    static struct bytes text;
    text.n = 0;
    put(&text, closing + 1, 8);
    put(&text, closing + 9 + (closing[0] == LNL_FUNDER ? 0 : 8), 8);
    hash(out, "closing", &text);
}

static void sign(const struct end *end, const uint8_t digest[32], uint8_t out[64]) {
    secp256k1_ecdsa_signature signature;
    expect(secp256k1_ecdsa_sign(curve, &signature, digest, end->key, NULL, NULL), "sign", 0);
    secp256k1_ecdsa_signature_serialize_compact(curve, out, &signature);
}

static int verify(const struct end *by, const uint8_t digest[32], const uint8_t *signature) {
    secp256k1_ecdsa_signature parsed;
    secp256k1_pubkey key;
    uint8_t out[33];
    public_key(by->key, &key, out);
    return secp256k1_ecdsa_signature_parse_compact(curve, &parsed, signature) &&
           secp256k1_ecdsa_verify(curve, &parsed, digest, &key);
}

/* Whether a message's signatures are the peer's over the own commitment. */
static uint8_t verify_all(const struct end *end, const uint8_t *numbered, const uint8_t *view, size_t n,
                          const uint8_t *message) {
    uint64_t kind = number(message, 2), htlcs = number(view + 20, 8), at;
    const uint8_t *signature = message + (kind == 34 ? 68 : 34);
    uint8_t digest[32], point[33];
    point_of(end, number(numbered, 8), point);
    if (htlcs != (kind == 132 ? number(message + 98, 2) : 0)) return 0;
    for (at = 0; at <= htlcs; at++) {
        commitment_digest(digest, end->role, numbered, point, view, n, at);
        if (!verify(end->peer, digest, at ? message + 100 + 64 * (at - 1) : signature)) return 0;
    }
    return 1;
}

/* ---- disk: a record takes the place of the one before by its name, once it is synced; secrets are kept for ever */

static void path_of(const struct end *end, const char *kind, char out[64]) {
    snprintf(out, 64, "%s.%s", end->name, kind);
}

static void write_synced(const char *path, int flags, const uint8_t *data, size_t n) {
    int file = open(path, O_WRONLY | O_CREAT | flags, 0600);
    expect(file >= 0 && write(file, data, n) == (ssize_t)n && !fsync(file) && !close(file), path, 0);
}

static void save(const struct end *end, const uint8_t *saved, size_t n) {
    char next[64], path[64], secrets[64];
    const uint8_t *at = saved + 32;
    int folder = open(".", O_RDONLY);
    if (*at++) at += 8 + 64 + 8 + 64 * number(at + 72, 8); /* the peer's signatures */
    path_of(end, "secrets", secrets);
    write_synced(secrets, O_APPEND, at + 8, 40 * number(at, 8));
    path_of(end, "next", next);
    path_of(end, "record", path);
    write_synced(next, O_TRUNC, saved, n);
    expect(folder >= 0 && !rename(next, path) && !fsync(folder) && !close(folder), "rename", 0);
}

size_t load(const struct end *end, uint8_t out[ROOM]) {
    char path[64];
    FILE *file;
    size_t n = 0;
    path_of(end, "record", path);
    file = fopen(path, "rb");
    if (file) {
        n = fread(out, 1, ROOM, file);
        fclose(file);
    }
    return n;
}

/* ---- the loop */

static void send_to(struct end *end, const uint8_t *message, size_t n) {
    struct bytes *slot = &end->inbox[end->last++ % INBOX];
    expect(end->last - end->first <= INBOX, "the inbox is full", 0);
    slot->n = 0;
    put(slot, message, n);
}

/* Fills a blank. */
static void fill(struct end *end, const uint8_t *blank, size_t n, struct bytes *out) {
    uint8_t digest[32], more[64];
    uint64_t at, htlcs;
    out->n = 0;
    switch (blank[0]) {
    case 1: /* role, number, point, view */
        htlcs = number(blank + 43 + 20, 8);
        for (at = 0; at <= htlcs; at++) {
            commitment_digest(digest, !blank[1], blank + 2, blank + 10, blank + 43, n - 43, at);
            sign(end, digest, more);
            put(out, more, 64);
        }
        break;
    case 2: /* the secret's number, the point's number */
        secret_of(end, number(blank + 1, 8), more);
        put(out, more, 32);
        point_of(end, number(blank + 9, 8), more);
        put(out, more, 33);
        break;
    case 3:
        point_of(end, number(blank + 1, 8), more);
        put(out, more, 33);
        break;
    default:
        closing_digest(digest, blank + 1);
        sign(end, digest, more);
        put(out, more, 64);
    }
}

/* Acts on an event, and decides it. */
static void act(struct end *end, const uint8_t *event) {
    static struct bytes decide;
    printf("%s: event %d %s\n", end->name, (int)number(event, 8),
           event[8] == 0 ? "added" : event[8] == 1 ? "settled" : "closed");
    if (event[8] == 0 && !event[9]) {
        end->fulfils = 1;
        end->htlc = number(event + 10, 8);
    }
    done(lnl_done(&end->link, NULL, 0), "an event");
    decide.n = 0;
    put_number(&decide, 8, 1);
    put(&decide, event, 8);
    put_number(&decide, 0, 1);
    done(lnl_command(&end->link, decide.at, decide.n), "Decide");
}

void hand_out(struct end *end) {
    static uint8_t item[ROOM];
    static struct bytes filling;
    size_t n;
    for (;;) {
        done(lnl_next(&end->link, item, ROOM, &n), "next");
        if (n == 0) return;
        filling.n = 0;
        if (item[0] == 4) {
            act(end, item + 1);
            continue;
        }
        if (item[0] == 1) save(end, item + 1, n - 1);
        if (item[0] == 2) fill(end, item + 1, n - 1, &filling);
        if (item[0] == 3) send_to(end->peer, item + 1, n - 1);
        done(lnl_done(&end->link, filling.at, filling.n), "done");
    }
}

/* Answers the question about a message. */
static void answer(struct end *end, const struct bytes *m, struct bytes *out) {
    static uint8_t question[ROOM], record[ROOM];
    static const uint8_t zero[8];
    uint8_t digest[32], own[33];
    secp256k1_pubkey key;
    size_t n;
    out->n = 0;
    done(lnl_question(&end->link, m->at, m->n, question, ROOM, &n), "question");
    if (n == 0) return;
    switch (question[0]) {
    case 1: /* role, number, view */
        put_number(out, verify_all(end, question + 2, question + 10, n - 10, m->at), 1);
        break;
    case 2: /* number, point */
        public_key(m->at + 34, &key, own);
        put_number(out, !memcmp(own, question + 9, 33), 1);
        break;
    case 3:
        closing_digest(digest, question + 1);
        put_number(out, verify(end->peer, digest, m->at + 42), 1);
        break;
    case 4:
        secret_of(end, number(question + 1, 8), digest);
        put(out, digest, 32);
        break;
    case 5:
        put_number(out, load(end, record) == 0, 1);
        break;
    default: /* channel, view */
        put_number(out, load(end, record) ? 2 : verify_all(end, zero, question + 33, n - 33, m->at), 1);
    }
}

int settle_some(struct end *one, struct end *other, size_t most) {
    static struct bytes answered;
    struct end *end;
    while (one->first != one->last || other->first != other->last) {
        if (most-- == 0) return 0;
        end = one->first != one->last ? one : other;
        struct bytes *m = &end->inbox[end->first++ % INBOX];
        answer(end, m, &answered);
        done(lnl_message(&end->link, m->at, m->n, answered.at, answered.n), "message");
        hand_out(end);
    }
    return 1;
}

void settle(struct end *one, struct end *other) { settle_some(one, other, SIZE_MAX); }

void give(struct end *end, const struct bytes *command, const char *what) {
    done(lnl_command(&end->link, command->at, command->n), what);
    hand_out(end);
}
