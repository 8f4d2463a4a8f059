/* A node in the middle of many channels, whose keys and peers are stubs: each payment comes in by one channel, and goes
 * out by another.
 *
 *     forward N PAYMENTS   N channels in and N out: prints the seconds of a processor that so many payments took, its
 *                          peers' calls among them
 *     forward N 0          prints the bytes that one channel of the node holds in memory
 */
#define main channel_main
#include "../library/channel.c"
#undef main

enum { AMOUNT_MSAT = 5000000, FEE_MSAT = 1000, DELTA = 40, EXPIRY = 400 };

static lnl_node node;
static struct end *links, *sides; /* the peers of the node's channels, and what is under way to the node */
static size_t channels;

static void done(const char *what, int32_t answer) {
    if (answer) stop(what, answer);
}

/* What the node holds in memory: what its calls have taken, less what they have freed, while that is counted. */
static int is_counted;
static size_t held;

static size_t used(void) { return is_counted ? mallinfo2().uordblks + mallinfo2().hblkhd : 0; }

#define NODE(what, call)        \
    do {                        \
        size_t before = used(); \
        done(what, call);       \
        held += used() - before; \
    } while (0)

/* ---- the node's host */

static void put_short_id(struct bytes *b, size_t channel) {
    put_number(b, 110, 3);
    put_number(b, channel, 3);
    put_number(b, 1, 2);
}

/* An onion's first bytes name the channel by which its payment goes out. */
static void open_onion(const uint8_t *hash, const uint8_t *onion) {
    static struct bytes found, payload;
    payload.n = found.n = 0;
    put_number(&payload, 0x0203, 2); /* amt_to_forward */
    put_number(&payload, AMOUNT_MSAT, 3);
    put_number(&payload, 0x0402, 2); /* outgoing_cltv_value */
    put_number(&payload, EXPIRY, 2);
    put_number(&payload, 0x0608, 2); /* short_channel_id */
    put_short_id(&payload, number(onion, 8));
    put_number(&found, 0, 1);
    put_number(&found, payload.n, 2);
    put(&found, payload.at, payload.n);
    put(&found, onion, 1366);
    NODE("onion", lnl_node_onion(&node, hash, 32, onion, 1366, found.at, found.n));
}

static void send_out(size_t channel, uint64_t message, const uint8_t *shown, size_t n) {
    struct end *link = links + channel;
    if (shown[0] == 2) {
        NODE("fill", lnl_node_fill(&node, channel, message, zeros, filling(shown + 1)));
        return;
    }
    struct bytes *slot = link->inbox + link->last++ % INBOX;
    slot->n = 0;
    put(slot, shown + 1, n - 1);
    NODE("sent", lnl_node_sent(&node, channel, message));
}

static void node_hands_out(void) {
    static const uint8_t goes_on[1];
    for (;;) {
        NODE("next", lnl_node_next(&node, item, ROOM, &length));
        if (length == 0) return;
        size_t channel = number(item + 1, 8);
        switch (item[0]) {
        case 1: NODE("saved", lnl_node_saved(&node, number(item + 1, 8))); break;
        case 2: send_out(channel, number(item + 9, 8), item + 17, length - 17); break;
        case 3: NODE("verdict", lnl_node_verdict(&node, channel, number(item + 10, 8), goes_on, 1)); break;
        case 4: open_onion(item + 2, item + 34); break;
        default: stop("an item", item[0]);
        }
    }
}

static void node_takes(size_t channel) {
    struct end *side = sides + channel;
    struct bytes *m = side->inbox + side->first++ % INBOX;
    static const uint8_t yes[1] = {1};
    NODE("question", lnl_node_question(&node, channel, m->at, m->n, item, ROOM, &length));
    const uint8_t *answer = length == 0 ? NULL : item[0] == 4 ? zeros : yes;
    size_t n = length == 0 ? 0 : item[0] == 4 ? 32 : 1;
    NODE("message", lnl_node_message(&node, channel, m->at, m->n, answer, n));
    node_hands_out();
}

/* ---- its peers */

static void link_takes(struct end *link) {
    static const uint8_t yes[1] = {1};
    struct bytes *m = link->inbox + link->first++ % INBOX;
    called(link, QUESTION, m->at, m->n, zeros, 0);
    if (length == 0) called(link, MESSAGE, m->at, m->n, zeros, 0);
    else if (item[0] == 4) called(link, MESSAGE, m->at, m->n, zeros, 32);
    else called(link, MESSAGE, m->at, m->n, yes, 1);
    hand_out(link);
}

/* Signs what a link owes, if anything. */
static int link_signs(struct end *link) {
    static const uint8_t sign[1] = {6};
    int32_t answer = lnl_command(&link->link, sign, 1);
    if (answer == 0) hand_out(link);
    return answer == 0;
}

static int link_fulfils(struct end *link) {
    static struct bytes told;
    if (!link->fulfils) return 0;
    link->fulfils = 0;
    told.n = 0;
    put_number(&told, 2, 1);
    put_number(&told, link->htlc, 8);
    put(&told, zeros, 32);
    tell(link, &told);
    return 1;
}

/* Delivers what is under way in a channel: whether there was anything. */
static int deliver(size_t channel) {
    struct end *link = links + channel, *side = sides + channel;
    int worked = 0;
    for (; side->first != side->last; worked = 1) node_takes(channel);
    for (; link->first != link->last; worked = 1) link_takes(link);
    return worked;
}

/* Until nothing is under way in these two channels. */
static void run(size_t in, size_t out) {
    for (int worked = 1; worked;) {
        worked = deliver(in) | deliver(out);
        NODE("sign", lnl_node_sign(&node));
        node_hands_out();
        worked |= link_fulfils(links + out) | link_signs(links + in) | link_signs(links + out);
        worked |= sides[in].first != sides[in].last || sides[out].first != sides[out].last;
        worked |= links[in].first != links[in].last || links[out].first != links[out].last;
    }
}

/* ---- channels: even ones come in, odd ones go out */

static void put_spec(struct bytes *spec) {
    spec->n = 0;
    put_config(spec);
    put_number(spec, 1000000000, 8);
    put_number(spec, 0, 8);
    put_number(spec, 253, 4);
    put_number(spec, 0, 1);
    put(spec, zeros, 32);
    put(spec, zeros, 34);
    put_number(spec, 0, 8);
}

static void open_channel(size_t channel) {
    static struct bytes spec, config, confirm, txid;
    struct end *link = links + channel, *side = sides + channel;
    size_t given;
    spec.n = config.n = confirm.n = txid.n = 0;
    put_spec(&spec);
    put_config(&config);
    put_number(&txid, channel + 1, 8);
    put(&txid, zeros, 24);
    *link = (struct end){.peer = side, .inbox = inboxes};
    *side = (struct end){.peer = link, .inbox = inboxes + INBOX};
    if (channel % 2 == 0) {
        done("open", lnl_open(&link->link, spec.at, spec.n, zeros, 33));
        NODE("accept", lnl_node_accept(&node, config.at, config.n, zeros, 33, &given));
        done("fund", lnl_fund(&link->link, txid.at, 32, 1));
    } else {
        done("accept", lnl_accept(&link->link, config.at, config.n, zeros, 33));
        NODE("open", lnl_node_open(&node, spec.at, spec.n, zeros, 33, &given));
        NODE("fund", lnl_node_fund(&node, given, txid.at, 32, 1));
    }
    if (given != channel) stop("another number", given);
    call(link, CONNECT);
    NODE("connect", lnl_node_connect(&node, channel));
    hand_out(link);
    node_hands_out();
    while (deliver(channel)) continue;
    put_number(&confirm, 0, 1);
    put_short_id(&confirm, channel);
    tell(link, &confirm);
    NODE("confirm", lnl_node_command(&node, channel, confirm.at, confirm.n));
    node_hands_out();
    while (deliver(channel)) continue;
}

static void pay_over(size_t in, size_t out) {
    static struct bytes told;
    told.n = 0;
    put_number(&told, 1, 1);
    put_number(&told, AMOUNT_MSAT + FEE_MSAT, 8);
    put(&told, payment_hash, 32);
    put_number(&told, EXPIRY + DELTA, 4);
    put_number(&told, out, 8);
    put(&told, zeros, 1358);
    put_number(&told, 0, 1);
    tell(links + in, &told);
    run(in, out);
    called(links + out, LOOK, zeros, 0, zeros, 0);
    uint64_t had = number(item + 3 + (item[2] ? 32 : 0) + 34, 8);
    if (had % AMOUNT_MSAT || had == 0) stop("a payment isn't paid once", (int32_t)out);
}

int main(int argc, char **words) {
    if (argc != 3) stop("how many channels, and how many payments", 0);
    size_t pairs = strtoul(words[1], NULL, 10), payments = strtoul(words[2], NULL, 10);
    static struct bytes settings;
    put_number(&settings, FEE_MSAT, 4);
    put_number(&settings, 0, 4);
    put_number(&settings, DELTA, 2);
    put(&settings, payment_hash, 32);
    channels = 2 * pairs;
    is_counted = payments == 0; /* to count takes longer than the calls */
    links = calloc(channels, sizeof *links);
    sides = calloc(channels, sizeof *sides);
    NODE("load", lnl_node_load(&node, settings.at, settings.n, NULL, 0));
    NODE("height", lnl_node_height(&node, 100));
    for (size_t at = 0; at < channels; at++) open_channel(at);
    double began = seconds();
    for (size_t at = 0; at < payments; at++) pay_over(2 * (at % pairs), 2 * (at * 7 % pairs) + 1);
    if (is_counted) printf("%zu\n", held / channels);
    else printf("%.6f\n", seconds() - began);
    return 0;
}
