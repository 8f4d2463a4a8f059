/* lnlink for C: one end of a Lightning channel, or a routing node of many, without sockets, disk and keys, which their
 * host brings.
 *
 * Built for x86-64-v2 Linux. C99, and C++.
 *
 * Numbers are big-endian: u8, u16, u32, u64. `sized2 X` is a length u16 and then X, `sized8 X` a length u64 and then X.
 * `list X` is a count u64 and so many X. `optional X` is a byte 0, or a byte 1 and X. Points have 33 bytes, secrets,
 * hashes and channel ids 32, signatures 64, onions 1366. Roles: 0 funder, 1 fundee. Amounts have their unit in their
 * name.
 *
 * Handles. A handle begins as {0}. It is moved and never copied, and is in one call at a time: a host with threads has
 * one owner or one lock for each handle. Two handles may be in calls at once.
 *
 * Answers. Each call answers 0, a refusal's number (docs/PROTOCOL.md, "Refusals"), or one of the LNL_ numbers below. By
 * LNL_PEER_LIMIT the low byte is 44, and the next byte is the rule of the peer, 7, 21 or 23 to 30. By LNL_REESTABLISH
 * the low byte is 34, and the next byte tells whose data is lost. Bytes that are no spec, config, command or saved
 * record are 70 (a record's unknown version is 71); those that are no message 1 to 9.
 *
 * Saved before said. What calls make is handed out in one line: lnl_next shows its head, lnl_done takes it off. A
 * record, where there is one, stands before all else, and the newest stands for all that weren't taken off. It is saved
 * and synced before lnl_done: nothing that it covers can be sent before. lnl_done stands for what lnl_next showed last:
 * where lnl_message, lnl_command, lnl_connect, lnl_disconnect or lnl_done came between, it is 40 and nothing has
 * changed; lnl_next then shows what stands first now. A call that answers LNL_ASKS or LNL_ANSWER doesn't come between.
 *
 * What a host keeps. With each record it saves, in the same transaction,
 *   - the whole item after its kind: lnl_load takes just these bytes;
 *   - each of the peer's secrets in it, for ever: an item has those alone that came since the one before;
 *   - the peer's signatures in it, which a unilateral close needs.
 * Beside these it keeps what transactions are made of: both sides' open_channel and accept_channel.
 */
#ifndef LNLINK_H
#define LNLINK_H

#include <stddef.h>
#include <stdint.h>

#ifdef __cplusplus
extern "C" {
#endif

/* One end of a channel. Begins as {0}. */
typedef struct lnl_link {
    void *at;
} lnl_link;

/* Answers beside the refusals. By each of these nothing has changed. */
enum {
    LNL_OK = 0,
    LNL_PEER_LIMIT = 44, /* in the low byte: the peer would refuse the command by the rule in the next byte */
    LNL_ASKS = 80,       /* the message's answer depends on a question that came without one: ask lnl_question */
    LNL_ANSWER = 81,     /* an answer, or what is to fill a blank, has a wrong length or value */
    LNL_SHORT = 82,      /* the buffer is too short: *n says how many bytes there are */
    LNL_HANDLE = 83      /* a null pointer, an empty handle, or a full one where an empty one is needed */
};

/* In the low byte: channel_reestablish had numbers that can't be served, and the channel has failed. The next byte
 * tells whose data is lost, as far as it proves it: the own, so the own commitment is revoked and may not be published;
 * or the peer's, so it may. */
enum { LNL_REESTABLISH = 34, LNL_UNPROVED = 0, LNL_OWN_DATA = 1, LNL_PEER_DATA = 2 };

enum { LNL_FUNDER = 0, LNL_FUNDEE = 1 };

/* config = htlc_minimum_msat u64, max_accepted_htlcs u16, max_htlc_value_in_flight_msat u64,
 *          channel_reserve_satoshis u64, chain_hash 32, dust_limit_satoshis u64, to_self_delay u16, minimum_depth u32,
 *          funding_pubkey 33, revocation_basepoint 33, payment_basepoint 33, delayed_payment_basepoint 33,
 *          htlc_basepoint 33, closing fee: first u64, least u64, greatest u64 (satoshi), shutdown's scriptpubkey sized2
 * spec   = config, funding_satoshis u64, push_msat u64, feerate_per_kw u32, channel_flags u8, temporary_channel_id 32,
 *          funding_txid 32 (as in messages, not reversed), funding_output_index u16,
 *          list (type u64, value sized2) of open_channel's records
 * first_point is the own per-commitment point of commitment 0. */

/* A funder's end. 70 where the spec is none, 40 where its values don't fit, LNL_ANSWER for no point. */
int32_t lnl_open(lnl_link *out, const uint8_t *spec, size_t len, const uint8_t *first_point, size_t n);

/* A fundee's end. 70, 40 and LNL_ANSWER as above. */
int32_t lnl_accept(lnl_link *out, const uint8_t *config, size_t len, const uint8_t *first_point, size_t n);

/* The end that was saved: what a record item had after its kind. It has no connection; its line begins with an event
 * for each that isn't decided. 70 or 71 where it is no such record. */
int32_t lnl_load(lnl_link *out, const uint8_t *saved, size_t len);

/* Frees what the handle holds and leaves {0}. {0} and a null pointer are fine. */
void lnl_free(lnl_link *link);

/* A funder names its funding: after lnl_open, until accept_channel is given; else 40. txid has 32 bytes. */
int32_t lnl_fund(lnl_link *link, const uint8_t *txid, size_t n, uint16_t output);

/* There is a connection, init has passed. 40 where there is one already, or the opening was broken off. */
int32_t lnl_connect(lnl_link *link);

/* The connection is lost. Blanks and messages leave the line, records and events stay. An opening is gone that isn't
 * signed by both. */
int32_t lnl_disconnect(lnl_link *link);

/* What is asked about a message before it is given to lnl_message; nothing changes. *n = 0: nothing is. Else a kind u8,
 *   1 Signatures  role u8, number u64, view   are they the peer's, over the own commitment `number`?      1 byte: 0, 1
 *   2 Secret      number u64, point 33        is the message's secret that of the peer's commitment?      1 byte: 0, 1
 *   3 Close       closing                     is it the peer's signature over this closing transaction?   1 byte: 0, 1
 *   4 OwnSecret   number u64                  the own secret of this number                               32 bytes
 *   5 New         channel 32                  1: there is no record of this channel; 0: there is one      1 byte
 *   6 First       channel 32, view            of funding_created: 0 a wrong signature, 1 a right one,
 *                                             2 there is a record of this channel already                 1 byte
 * Role is the own one.
 *   view    = funder_msat u64, fundee_msat u64, feerate_per_kw u32, list htlc
 *   htlc    = owner role u8, id u64, amount_msat u64, payment_hash 32, cltv_expiry u32
 *   closing = role u8, fee_satoshis u64, own_msat u64, peer_msat u64, own scriptpubkey sized2, peer's sized2
 *             (the fee isn't taken off the funder's balance) */
int32_t lnl_question(lnl_link *link, const uint8_t *message, size_t len, uint8_t *out, size_t room, size_t *n);

/* Takes a message with the answer to its question (n = 0 where there was none). By 21 to 35 and 37 the channel has
 * failed: a record of that stands in the line. By 20 and 36 nothing has changed. By 20 to 35 an `error` for the peer
 * waits in the line, by 36 a `warning`. */
int32_t lnl_message(lnl_link *link, const uint8_t *message, size_t len, const uint8_t *answer, size_t n);

/* Does what it is told: a tag u8, and
 *   0 Confirm    short_channel_id 8                    5 Fee       feerate_per_kw u32
 *   1 Add        amount_msat u64, payment_hash 32,     6 Sign
 *                cltv_expiry u32, onion 1366,          7 Shutdown  scriptpubkey sized2
 *                optional (channel 32, id u64)         8 Decide    event u64, mark
 *   2 Fulfil     id u64, preimage 32                   9 Forget    id u64
 *   3 Fail       id u64, reason sized2                10 Resume    event u64, mark
 *   4 Malformed  id u64, sha256_of_onion 32, failure_code u16
 *   mark = a tag u8: 0 nothing; 1 forward: channel 32, amount_msat u64, cltv_expiry u32; 2 fail: reason sized8;
 *          3 malformed: code u16; 4 fulfil: preimage 32; 5 held: event u64
 * Where it is refused (40 to 49, 62, or what the channel has failed by) nothing has changed. */
int32_t lnl_command(lnl_link *link, const uint8_t *command, size_t len);

/* Shows the head of the line, for lnl_done; by LNL_SHORT it isn't shown. *n = 0: the line is empty. Else a kind u8, and
 *   1 Record  channel 32, optional (number u64, signature 64, list signature 64): the peer's over the own commitment,
 *             list (number u64, secret 32): the peer's since the record before, sized8 record
 *             save all that follows the kind, sync, then lnl_done without an answer
 *   2 Blank   what is open in the message after it; lnl_done with what fills it. A kind u8, and
 *             1 Signatures  role u8, number u64, point 33, view      over the peer's commitment `number`, at its point:
 *                                                                    64 bytes * (1 + untrimmed HTLCs)
 *             2 Revocation  secret's number u64, point's number u64  the own secret 32, the own point 33
 *             3 Point       number u64                               the own point 33
 *             4 Close       closing                                  64 bytes
 *   3 Send    the message: all bytes that follow; it is for the connection, in this order
 *   4 Event   number u64, event: act on it, lnl_done, then the command Decide with its number
 *   5 Closed  fee_satoshis u64
 *   event = a tag u8: 0 added:   own u8, id u64, amount_msat u64, payment_hash 32, cltv_expiry u32, onion 1366
 *                     1 settled: own u8, id u64, how u8: 0 fulfilled: preimage 32; 1 failed: reason sized2;
 *                                2 malformed: sha256_of_onion 32, code u16
 *                     2 closed:  fee_satoshis u64
 * Own is 1 where the HTLC is the own side's. The room of 70,000 bytes holds all but records and long views. */
int32_t lnl_next(lnl_link *link, uint8_t *out, size_t room, size_t *n);

/* Takes the head of the line off: n = 0 but for a blank, which it fills; the message then stands there as Send.
 * 40 where the line is empty, or lnl_next didn't show its head since the last call. By an answer but 0 nothing has
 * changed. */
int32_t lnl_done(lnl_link *link, const uint8_t *answer, size_t n);

/* A summary: connection u8 (0 down, 1 awaits channel_reestablish, 2 connected), halted u8, optional channel 32,
 * status u8 (0 open, 1 ready, 2 shut, 3 closed, 4 failed), value u64 (the fee where closed, the refusal's number where
 * failed), lost data u8 (where failed by 34: LNL_OWN_DATA or LNL_PEER_DATA; else 0), commitment number u64, signed
 * number u64, revoked number u64, own_msat u64, peer_msat u64 (of the own commitment), live HTLCs u64, next own HTLC id
 * u64, list (u64) ids of the peer's HTLCs that this side has removed. */
int32_t lnl_look(lnl_link *link, uint8_t *out, size_t room, size_t *n);

/* The view of a commitment: which = 0 the own one, 1 the peer's, 2 the one that the command Sign would sign, 3 the one
 * that the peer's next signature covers. */
int32_t lnl_view(lnl_link *link, uint8_t which, uint8_t *out, size_t room, size_t *n);

/* A node ---------------------------------------------------------------------------------------------------------- */

/* A routing node: many channels, told by their numbers 0, 1, .. in the order in which they were loaded, opened or
 * accepted, and the payments that it forwards between them. Begins as {0}. Calls of a node answer LNL_HANDLE, and those
 * of a channel 40 where it has none of that number.
 *
 * Saved before said. Records of all channels are saved in batches: all records of a batch in one transaction, and then
 * lnl_node_saved. No message is handed out before all is saved that its call and the calls before it have changed. What
 * stands above of a record's secrets and signatures holds of each record in a batch. */
typedef struct lnl_node {
    void *at;
} lnl_node;

/* The node of the newest records of all its channels, at once: each after its length u64 (`sized8`), as a batch had it.
 * None of them (n = 0): a new node. settings = fee_base_msat u32, fee_proportional_millionths u32,
 * cltv_expiry_delta u16, a secret mark 32, the same over all restarts. Onions are asked for again, to be answered
 * before lnl_node_connect; events that aren't decided come again. 70 or 71 where the bytes are no such records, or two
 * are of one channel. */
int32_t lnl_node_load(lnl_node *out, const uint8_t *settings, size_t len, const uint8_t *records, size_t n);

/* Frees what the handle holds and leaves {0}. {0} and a null pointer are fine. */
void lnl_node_free(lnl_node *node);

/* As lnl_open, lnl_accept and lnl_fund, of a further channel, whose number is left in *channel. */
int32_t lnl_node_open(lnl_node *node, const uint8_t *spec, size_t len, const uint8_t *first_point, size_t n,
                      size_t *channel);
int32_t lnl_node_accept(lnl_node *node, const uint8_t *config, size_t len, const uint8_t *first_point, size_t n,
                        size_t *channel);
int32_t lnl_node_fund(lnl_node *node, size_t channel, const uint8_t *txid, size_t n, uint16_t output);

/* As lnl_connect and lnl_disconnect. A connection may carry several channels: each is told. LNL_ASKS while an onion
 * that was asked for after the load isn't known. */
int32_t lnl_node_connect(lnl_node *node, size_t channel);
int32_t lnl_node_disconnect(lnl_node *node, size_t channel);

/* As lnl_question, lnl_message, lnl_look and lnl_view, of a channel. Kinds 5 and 6 are never asked: a node knows its
 * channels. */
int32_t lnl_node_question(lnl_node *node, size_t channel, const uint8_t *message, size_t len, uint8_t *out, size_t room,
                          size_t *n);
int32_t lnl_node_message(lnl_node *node, size_t channel, const uint8_t *message, size_t len, const uint8_t *answer,
                         size_t n);
int32_t lnl_node_look(lnl_node *node, size_t channel, uint8_t *out, size_t room, size_t *n);
int32_t lnl_node_view(lnl_node *node, size_t channel, uint8_t which, uint8_t *out, size_t room, size_t *n);

/* As lnl_command: Confirm, Add without an origin, Fee, Sign and Shutdown. 40 for all others, which are the node's. */
int32_t lnl_node_command(lnl_node *node, size_t channel, const uint8_t *command, size_t len);

/* Each channel signs that owes a signature: once after all messages that have come. */
int32_t lnl_node_sign(lnl_node *node);

/* The block height. 40 above 400,000,000. */
int32_t lnl_node_height(lnl_node *node, uint32_t height);

/* A payment is waited for, which the node takes as its last hop: preimage and payment secret have 32 bytes. A restart
 * forgets it. */
int32_t lnl_node_expect(lnl_node *node, const uint8_t *preimage, size_t len, const uint8_t *secret, size_t n,
                        uint64_t amount_msat);

/* Hands out the next item, once; by LNL_SHORT it comes again. Call it until *n = 0, after each other call. A kind u8:
 *   1 Batch    number u64, list (channel u64, sized8 record): save all of them in one transaction and sync, then
 *              lnl_node_saved. A record is what lnl_next shows after the kind 1
 *   2 Message  channel u64, message u64, and what lnl_next shows of it: 2 Blank (lnl_node_fill), 3 Send
 *              (lnl_node_sent; send it in this order, by the channel's connection)
 *   3 Event    channel u64, and what lnl_next shows of it: 4 Event (lnl_node_verdict)
 *   4 Onion    optional (payment_hash 32, onion 1366): open it, and answer lnl_node_onion; nothing of one that is gone
 *   5 Wrap     channel u64, message u64, HTLC's id u64, optional (payment_hash 32, onion 1366), kind u8 (0: a failure
 *              message of the node's own; 1: a failure that came back), its bytes: lnl_node_fill with the failure as it
 *              goes back, by the onion's shared secret (BOLT 4, "Returning Errors")
 * Items of one channel depend on each other in this order alone: its messages wait for the batch, one after the other.
 * What other channels have goes on. */
int32_t lnl_node_next(lnl_node *node, uint8_t *out, size_t room, size_t *n);

/* The batch of this number is saved and synced. 40 where it isn't the one that was handed out last. */
int32_t lnl_node_saved(lnl_node *node, uint64_t batch);

/* Fills a message: it then comes again as Send. 40 where it isn't the last one of its channel that was handed out, as
 * after a lost connection; LNL_ANSWER. */
int32_t lnl_node_fill(lnl_node *node, size_t channel, uint64_t message, const uint8_t *filling, size_t len);

/* A message that was handed out as Send has left. 40 as above. */
int32_t lnl_node_sent(lnl_node *node, size_t channel, uint64_t message);

/* What is in an onion, a kind u8: 0 payload sized2, and the next onion 1366, if there is one; 1 an unknown version, 2 a
 * wrong HMAC, 3 a key, 4 a payload that can't be read. 40 where it wasn't asked for, or is gone; LNL_ANSWER. */
int32_t lnl_node_onion(lnl_node *node, const uint8_t *payment_hash, size_t len, const uint8_t *onion, size_t n,
                       const uint8_t *found, size_t m);

/* What is done about an event, a kind u8: 0 it goes on (also each event but an HTLC that a peer has added); 1 it
 * fails, failure_code u16 (0x1007, 0x400a, 0x100b to 0x100e, 0x400f, 0x0012, 0x0013, 0x0015 or 0x4016); 2 it is held.
 * LNL_ASKS where it is to go on and its onion isn't known; 40 where the event isn't handed out, or was decided. */
int32_t lnl_node_verdict(lnl_node *node, size_t channel, uint64_t event, const uint8_t *verdict, size_t len);

/* The same of an HTLC that a channel holds by the number of its event. 40 where it holds none so. */
int32_t lnl_node_resume(lnl_node *node, size_t channel, uint64_t event, const uint8_t *verdict, size_t len);

/* Of each HTLC that is held: channel u64, event u64, id u64, amount_msat u64, payment_hash 32, cltv_expiry u32. */
int32_t lnl_node_held(lnl_node *node, uint8_t *out, size_t room, size_t *n);

/* BOLT 1, of no link ---------------------------------------------------------------------------------------------- */

/* An init message: features big-endian as in the message, m bytes of chain hashes, 32 each (m = 0: no networks). 8
 * where m is no multiple of 32. */
int32_t lnl_init(const uint8_t *features, size_t len, const uint8_t *chains, size_t m, uint8_t *out, size_t room,
                 size_t *n);

/* Whether all even features of the peer's init are among the m known bits: 0, 9, a fault, or 21 for another message. */
int32_t lnl_check_init(const uint8_t *message, size_t len, const uint16_t *known, size_t m);

/* Whether the peer's init names no networks, or one of these chains, 32 bytes each: 0, a fault, or 21: it names others
 * alone, or it is no init. */
int32_t lnl_shares_chain(const uint8_t *message, size_t len, const uint8_t *chains, size_t m);

/* The pong to a ping. *n = 0: none is wanted. 21: the message is no ping. */
int32_t lnl_pong(const uint8_t *message, size_t len, uint8_t *out, size_t room, size_t *n);

/* The channel id that a message names, 32 bytes (the temporary one in the first three of an opening). *n = 0: none. */
int32_t lnl_channel(const uint8_t *message, size_t len, uint8_t *out, size_t room, size_t *n);

/* A message as text, a field a line (docs/FORMATS.md, "The program"). UTF-8, without a zero byte at its end. */
int32_t lnl_print(const uint8_t *message, size_t len, uint8_t *out, size_t room, size_t *n);

#ifdef __cplusplus
}
#endif

#endif
