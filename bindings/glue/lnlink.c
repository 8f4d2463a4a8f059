/* What C may do wrong with a pointer is answered here: LNL_HANDLE. The proved calls, lnl0_*, take references, which are
 * never null, and slices of less than half the address space. */
#include "lnlink.h"

#include <stdbool.h>

int32_t lnl0_open(lnl_link *out, const uint8_t *spec, size_t len, const uint8_t *first_point, size_t n);
int32_t lnl0_accept(lnl_link *out, const uint8_t *config, size_t len, const uint8_t *first_point, size_t n);
int32_t lnl0_load(lnl_link *out, const uint8_t *saved, size_t len);
void lnl0_free(lnl_link *link);
int32_t lnl0_fund(lnl_link *link, const uint8_t *txid, size_t n, uint16_t output);
int32_t lnl0_connect(lnl_link *link);
int32_t lnl0_disconnect(lnl_link *link);
int32_t lnl0_question(lnl_link *link, const uint8_t *message, size_t len, uint8_t *out, size_t room, size_t *n);
int32_t lnl0_message(lnl_link *link, const uint8_t *message, size_t len, const uint8_t *answer, size_t n);
int32_t lnl0_command(lnl_link *link, const uint8_t *command, size_t len);
int32_t lnl0_next(lnl_link *link, uint8_t *out, size_t room, size_t *n);
int32_t lnl0_done(lnl_link *link, const uint8_t *answer, size_t n);
int32_t lnl0_look(lnl_link *link, uint8_t *out, size_t room, size_t *n);
int32_t lnl0_view(lnl_link *link, uint8_t which, uint8_t *out, size_t room, size_t *n);
int32_t lnl0_init(const uint8_t *features, size_t len, const uint8_t *chains, size_t m, uint8_t *out, size_t room,
                  size_t *n);
int32_t lnl0_check_init(const uint8_t *message, size_t len, const uint16_t *known, size_t m);
int32_t lnl0_shares_chain(const uint8_t *message, size_t len, const uint8_t *chains, size_t m);
int32_t lnl0_pong(const uint8_t *message, size_t len, uint8_t *out, size_t room, size_t *n);
int32_t lnl0_channel(const uint8_t *message, size_t len, uint8_t *out, size_t room, size_t *n);
int32_t lnl0_print(const uint8_t *message, size_t len, uint8_t *out, size_t room, size_t *n);
int32_t lnl0_node_load(lnl_node *out, const uint8_t *settings, size_t len, const uint8_t *records, size_t n);
void lnl0_node_free(lnl_node *node);
int32_t lnl0_node_open(lnl_node *node, const uint8_t *spec, size_t len, const uint8_t *first_point, size_t n,
                       size_t *channel);
int32_t lnl0_node_accept(lnl_node *node, const uint8_t *config, size_t len, const uint8_t *first_point, size_t n,
                         size_t *channel);
int32_t lnl0_node_fund(lnl_node *node, size_t channel, const uint8_t *txid, size_t n, uint16_t output);
int32_t lnl0_node_connect(lnl_node *node, size_t channel);
int32_t lnl0_node_disconnect(lnl_node *node, size_t channel);
int32_t lnl0_node_question(lnl_node *node, size_t channel, const uint8_t *message, size_t len, uint8_t *out,
                           size_t room, size_t *n);
int32_t lnl0_node_message(lnl_node *node, size_t channel, const uint8_t *message, size_t len, const uint8_t *answer,
                          size_t n);
int32_t lnl0_node_look(lnl_node *node, size_t channel, uint8_t *out, size_t room, size_t *n);
int32_t lnl0_node_view(lnl_node *node, size_t channel, uint8_t which, uint8_t *out, size_t room, size_t *n);
int32_t lnl0_node_command(lnl_node *node, size_t channel, const uint8_t *command, size_t len);
int32_t lnl0_node_sign(lnl_node *node);
int32_t lnl0_node_height(lnl_node *node, uint32_t height);
int32_t lnl0_node_expect(lnl_node *node, const uint8_t *preimage, size_t len, const uint8_t *secret, size_t n,
                         uint64_t amount_msat);
int32_t lnl0_node_next(lnl_node *node, uint8_t *out, size_t room, size_t *n);
int32_t lnl0_node_saved(lnl_node *node, uint64_t batch);
int32_t lnl0_node_fill(lnl_node *node, size_t channel, uint64_t message, const uint8_t *filling, size_t len);
int32_t lnl0_node_sent(lnl_node *node, size_t channel, uint64_t message);
int32_t lnl0_node_onion(lnl_node *node, const uint8_t *payment_hash, size_t len, const uint8_t *onion, size_t n,
                        const uint8_t *found, size_t m);
int32_t lnl0_node_verdict(lnl_node *node, size_t channel, uint64_t event, const uint8_t *verdict, size_t len);
int32_t lnl0_node_resume(lnl_node *node, size_t channel, uint64_t event, const uint8_t *verdict, size_t len);
int32_t lnl0_node_held(lnl_node *node, uint8_t *out, size_t room, size_t *n);

/* Where no bytes lie: never read, never written. */
static uint8_t none[1];
static const uint16_t no_bits[1];

/* A length with no pointer, or one that no object has. */
static bool is_bad(const void *at, size_t len) { return at == NULL ? len != 0 : len > PTRDIFF_MAX; }

static const uint8_t *bytes_at(const uint8_t *at) { return at == NULL ? none : at; }

static uint8_t *room_at(uint8_t *at) { return at == NULL ? none : at; }

int32_t lnl_open(lnl_link *out, const uint8_t *spec, size_t len, const uint8_t *first_point, size_t n) {
    if (out == NULL || is_bad(spec, len) || is_bad(first_point, n)) return LNL_HANDLE;
    return lnl0_open(out, bytes_at(spec), len, bytes_at(first_point), n);
}

int32_t lnl_accept(lnl_link *out, const uint8_t *config, size_t len, const uint8_t *first_point, size_t n) {
    if (out == NULL || is_bad(config, len) || is_bad(first_point, n)) return LNL_HANDLE;
    return lnl0_accept(out, bytes_at(config), len, bytes_at(first_point), n);
}

int32_t lnl_load(lnl_link *out, const uint8_t *saved, size_t len) {
    if (out == NULL || is_bad(saved, len)) return LNL_HANDLE;
    return lnl0_load(out, bytes_at(saved), len);
}

void lnl_free(lnl_link *link) {
    if (link != NULL) lnl0_free(link);
}

int32_t lnl_fund(lnl_link *link, const uint8_t *txid, size_t n, uint16_t output) {
    if (link == NULL || is_bad(txid, n)) return LNL_HANDLE;
    return lnl0_fund(link, bytes_at(txid), n, output);
}

int32_t lnl_connect(lnl_link *link) { return link == NULL ? LNL_HANDLE : lnl0_connect(link); }

int32_t lnl_disconnect(lnl_link *link) { return link == NULL ? LNL_HANDLE : lnl0_disconnect(link); }

int32_t lnl_question(lnl_link *link, const uint8_t *message, size_t len, uint8_t *out, size_t room, size_t *n) {
    if (link == NULL || is_bad(message, len) || is_bad(out, room) || n == NULL) return LNL_HANDLE;
    return lnl0_question(link, bytes_at(message), len, room_at(out), room, n);
}

int32_t lnl_message(lnl_link *link, const uint8_t *message, size_t len, const uint8_t *answer, size_t n) {
    if (link == NULL || is_bad(message, len) || is_bad(answer, n)) return LNL_HANDLE;
    return lnl0_message(link, bytes_at(message), len, bytes_at(answer), n);
}

int32_t lnl_command(lnl_link *link, const uint8_t *command, size_t len) {
    if (link == NULL || is_bad(command, len)) return LNL_HANDLE;
    return lnl0_command(link, bytes_at(command), len);
}

int32_t lnl_next(lnl_link *link, uint8_t *out, size_t room, size_t *n) {
    if (link == NULL || is_bad(out, room) || n == NULL) return LNL_HANDLE;
    return lnl0_next(link, room_at(out), room, n);
}

int32_t lnl_done(lnl_link *link, const uint8_t *answer, size_t n) {
    if (link == NULL || is_bad(answer, n)) return LNL_HANDLE;
    return lnl0_done(link, bytes_at(answer), n);
}

int32_t lnl_look(lnl_link *link, uint8_t *out, size_t room, size_t *n) {
    if (link == NULL || is_bad(out, room) || n == NULL) return LNL_HANDLE;
    return lnl0_look(link, room_at(out), room, n);
}

int32_t lnl_view(lnl_link *link, uint8_t which, uint8_t *out, size_t room, size_t *n) {
    if (link == NULL || is_bad(out, room) || n == NULL) return LNL_HANDLE;
    return lnl0_view(link, which, room_at(out), room, n);
}

int32_t lnl_init(const uint8_t *features, size_t len, const uint8_t *chains, size_t m, uint8_t *out, size_t room,
                 size_t *n) {
    if (is_bad(features, len) || is_bad(chains, m) || is_bad(out, room) || n == NULL) return LNL_HANDLE;
    return lnl0_init(bytes_at(features), len, bytes_at(chains), m, room_at(out), room, n);
}

int32_t lnl_check_init(const uint8_t *message, size_t len, const uint16_t *known, size_t m) {
    if (is_bad(message, len) || is_bad(known, m) || m > PTRDIFF_MAX / 2) return LNL_HANDLE;
    return lnl0_check_init(bytes_at(message), len, known == NULL ? no_bits : known, m);
}

int32_t lnl_shares_chain(const uint8_t *message, size_t len, const uint8_t *chains, size_t m) {
    if (is_bad(message, len) || is_bad(chains, m)) return LNL_HANDLE;
    return lnl0_shares_chain(bytes_at(message), len, bytes_at(chains), m);
}

int32_t lnl_pong(const uint8_t *message, size_t len, uint8_t *out, size_t room, size_t *n) {
    if (is_bad(message, len) || is_bad(out, room) || n == NULL) return LNL_HANDLE;
    return lnl0_pong(bytes_at(message), len, room_at(out), room, n);
}

int32_t lnl_channel(const uint8_t *message, size_t len, uint8_t *out, size_t room, size_t *n) {
    if (is_bad(message, len) || is_bad(out, room) || n == NULL) return LNL_HANDLE;
    return lnl0_channel(bytes_at(message), len, room_at(out), room, n);
}

int32_t lnl_print(const uint8_t *message, size_t len, uint8_t *out, size_t room, size_t *n) {
    if (is_bad(message, len) || is_bad(out, room) || n == NULL) return LNL_HANDLE;
    return lnl0_print(bytes_at(message), len, room_at(out), room, n);
}

/* ---- a node */

int32_t lnl_node_load(lnl_node *out, const uint8_t *settings, size_t len, const uint8_t *records, size_t n) {
    if (out == NULL || is_bad(settings, len) || is_bad(records, n)) return LNL_HANDLE;
    return lnl0_node_load(out, bytes_at(settings), len, bytes_at(records), n);
}

void lnl_node_free(lnl_node *node) {
    if (node != NULL) lnl0_node_free(node);
}

int32_t lnl_node_open(lnl_node *node, const uint8_t *spec, size_t len, const uint8_t *first_point, size_t n,
                      size_t *channel) {
    if (node == NULL || is_bad(spec, len) || is_bad(first_point, n) || channel == NULL) return LNL_HANDLE;
    return lnl0_node_open(node, bytes_at(spec), len, bytes_at(first_point), n, channel);
}

int32_t lnl_node_accept(lnl_node *node, const uint8_t *config, size_t len, const uint8_t *first_point, size_t n,
                        size_t *channel) {
    if (node == NULL || is_bad(config, len) || is_bad(first_point, n) || channel == NULL) return LNL_HANDLE;
    return lnl0_node_accept(node, bytes_at(config), len, bytes_at(first_point), n, channel);
}

int32_t lnl_node_fund(lnl_node *node, size_t channel, const uint8_t *txid, size_t n, uint16_t output) {
    if (node == NULL || is_bad(txid, n)) return LNL_HANDLE;
    return lnl0_node_fund(node, channel, bytes_at(txid), n, output);
}

int32_t lnl_node_connect(lnl_node *node, size_t channel) {
    if (node == NULL) return LNL_HANDLE;
    return lnl0_node_connect(node, channel);
}

int32_t lnl_node_disconnect(lnl_node *node, size_t channel) {
    if (node == NULL) return LNL_HANDLE;
    return lnl0_node_disconnect(node, channel);
}

int32_t lnl_node_question(lnl_node *node, size_t channel, const uint8_t *message, size_t len, uint8_t *out,
                          size_t room, size_t *n) {
    if (node == NULL || is_bad(message, len) || is_bad(out, room) || n == NULL) return LNL_HANDLE;
    return lnl0_node_question(node, channel, bytes_at(message), len, room_at(out), room, n);
}

int32_t lnl_node_message(lnl_node *node, size_t channel, const uint8_t *message, size_t len, const uint8_t *answer,
                         size_t n) {
    if (node == NULL || is_bad(message, len) || is_bad(answer, n)) return LNL_HANDLE;
    return lnl0_node_message(node, channel, bytes_at(message), len, bytes_at(answer), n);
}

int32_t lnl_node_look(lnl_node *node, size_t channel, uint8_t *out, size_t room, size_t *n) {
    if (node == NULL || is_bad(out, room) || n == NULL) return LNL_HANDLE;
    return lnl0_node_look(node, channel, room_at(out), room, n);
}

int32_t lnl_node_view(lnl_node *node, size_t channel, uint8_t which, uint8_t *out, size_t room, size_t *n) {
    if (node == NULL || is_bad(out, room) || n == NULL) return LNL_HANDLE;
    return lnl0_node_view(node, channel, which, room_at(out), room, n);
}

int32_t lnl_node_command(lnl_node *node, size_t channel, const uint8_t *command, size_t len) {
    if (node == NULL || is_bad(command, len)) return LNL_HANDLE;
    return lnl0_node_command(node, channel, bytes_at(command), len);
}

int32_t lnl_node_sign(lnl_node *node) { return node == NULL ? LNL_HANDLE : lnl0_node_sign(node); }

int32_t lnl_node_height(lnl_node *node, uint32_t height) {
    if (node == NULL) return LNL_HANDLE;
    return lnl0_node_height(node, height);
}

int32_t lnl_node_expect(lnl_node *node, const uint8_t *preimage, size_t len, const uint8_t *secret, size_t n,
                        uint64_t amount_msat) {
    if (node == NULL || is_bad(preimage, len) || is_bad(secret, n)) return LNL_HANDLE;
    return lnl0_node_expect(node, bytes_at(preimage), len, bytes_at(secret), n, amount_msat);
}

int32_t lnl_node_next(lnl_node *node, uint8_t *out, size_t room, size_t *n) {
    if (node == NULL || is_bad(out, room) || n == NULL) return LNL_HANDLE;
    return lnl0_node_next(node, room_at(out), room, n);
}

int32_t lnl_node_saved(lnl_node *node, uint64_t batch) {
    if (node == NULL) return LNL_HANDLE;
    return lnl0_node_saved(node, batch);
}

int32_t lnl_node_fill(lnl_node *node, size_t channel, uint64_t message, const uint8_t *filling, size_t len) {
    if (node == NULL || is_bad(filling, len)) return LNL_HANDLE;
    return lnl0_node_fill(node, channel, message, bytes_at(filling), len);
}

int32_t lnl_node_sent(lnl_node *node, size_t channel, uint64_t message) {
    if (node == NULL) return LNL_HANDLE;
    return lnl0_node_sent(node, channel, message);
}

int32_t lnl_node_onion(lnl_node *node, const uint8_t *payment_hash, size_t len, const uint8_t *onion, size_t n,
                       const uint8_t *found, size_t m) {
    if (node == NULL || is_bad(payment_hash, len) || is_bad(onion, n) || is_bad(found, m)) return LNL_HANDLE;
    return lnl0_node_onion(node, bytes_at(payment_hash), len, bytes_at(onion), n, bytes_at(found), m);
}

int32_t lnl_node_verdict(lnl_node *node, size_t channel, uint64_t event, const uint8_t *verdict, size_t len) {
    if (node == NULL || is_bad(verdict, len)) return LNL_HANDLE;
    return lnl0_node_verdict(node, channel, event, bytes_at(verdict), len);
}

int32_t lnl_node_resume(lnl_node *node, size_t channel, uint64_t event, const uint8_t *verdict, size_t len) {
    if (node == NULL || is_bad(verdict, len)) return LNL_HANDLE;
    return lnl0_node_resume(node, channel, event, bytes_at(verdict), len);
}

int32_t lnl_node_held(lnl_node *node, uint8_t *out, size_t room, size_t *n) {
    if (node == NULL || is_bad(out, room) || n == NULL) return LNL_HANDLE;
    return lnl0_node_held(node, room_at(out), room, n);
}
