/* A channel between two ends in one program: opening, a payment, a restart, a close. host.c has the keys, the files and
 * the loop. It writes its files into the working folder.
 *
 *     cc -std=c99 -Wall -Wextra -Werror -I../../include example.c host.c -L../lib -l:liblnlink.a -lsecp256k1 -o example
 */
#include "host.h"
#include <stdio.h>
#include <string.h>

static const uint8_t preimage[32]; /* its SHA-256 is payment_hash */
static const uint8_t payment_hash[32] = {
    0x66, 0x68, 0x7a, 0xad, 0xf8, 0x62, 0xbd, 0x77, 0x6c, 0x8f, 0xc1, 0x8b, 0x8e, 0x9f, 0x8e, 0x20,
    0x08, 0x97, 0x14, 0x85, 0x6e, 0xe2, 0x33, 0xb3, 0x90, 0x2a, 0x59, 0x1d, 0x0d, 0x5f, 0x29, 0x25};

static void sign_next(struct end *end) {
    static struct bytes told;
    told.n = 0;
    put_number(&told, 6, 1);
    give(end, &told, "Sign");
}

static void put_config(struct bytes *b, const struct end *end) {
    uint8_t point[33];
    int at;
    key_of(end, point);
    put_number(b, 1000, 8);       /* htlc_minimum_msat */
    put_number(b, 30, 2);         /* max_accepted_htlcs */
    put_number(b, 500000000, 8);  /* max_htlc_value_in_flight_msat */
    put_number(b, 10000, 8);      /* channel_reserve_satoshis */
    put(b, payment_hash, 32);     /* chain_hash: a wallet names its chain */
    put_number(b, 546, 8);        /* dust_limit_satoshis */
    put_number(b, 144, 2);        /* to_self_delay */
    put_number(b, 3, 4);          /* minimum_depth */
    for (at = 0; at < 5; at++) put(b, point, 33); /* a wallet has five keys */
    put_number(b, 300, 8);        /* closing fee: first, least, greatest */
    put_number(b, 200, 8);
    put_number(b, 400, 8);
    put_number(b, 0, 2);          /* the script of shutdown, which the command names */
}

static void open_both(struct end *funder, struct end *fundee) {
    static struct bytes spec, config;
    uint8_t point[33], zero[32] = {0}, txid[32];
    memset(txid, 7, 32);
    put_config(&spec, funder);
    put_number(&spec, 1000000, 8); /* funding_satoshis */
    put_number(&spec, 0, 8);       /* push_msat */
    put_number(&spec, 253, 4);     /* feerate_per_kw */
    put_number(&spec, 0, 1);       /* channel_flags */
    put(&spec, zero, 32);          /* temporary_channel_id */
    put(&spec, zero, 32);          /* funding: named below */
    put_number(&spec, 0, 2);
    put_number(&spec, 0, 8);       /* no records */
    put_config(&config, fundee);
    point_of(funder, 0, point);
    done(lnl_open(&funder->link, spec.at, spec.n, point, 33), "open");
    point_of(fundee, 0, point);
    done(lnl_accept(&fundee->link, config.at, config.n, point, 33), "accept");
    done(lnl_fund(&funder->link, txid, 32, 1), "fund");
}

static void connect_both(struct end *one, struct end *other) {
    done(lnl_connect(&one->link), "connect");
    hand_out(one);
    done(lnl_connect(&other->link), "connect");
    hand_out(other);
}

/* The program stops, and starts again: what was in flight is lost. */
static void restart(struct end *end) {
    static uint8_t record[ROOM];
    size_t n = load(end, record);
    lnl_free(&end->link);
    end->first = end->last = 0;
    done(lnl_load(&end->link, record, n), "load");
}

static void report(struct end *end) {
    uint8_t s[256], *at;
    size_t n;
    done(lnl_look(&end->link, s, sizeof s, &n), "look");
    at = s + 3 + (s[2] ? 32 : 0);
    printf("%s: status %d, own %llu msat, peer %llu msat\n", end->name, at[0],
           (unsigned long long)number(at + 34, 8), (unsigned long long)number(at + 42, 8));
}

static void pay(struct end *payer, struct end *payee) {
    static struct bytes told;
    static const uint8_t onion[1366];
    told.n = 0;
    put_number(&told, 1, 1);
    put_number(&told, 5000000, 8); /* amount_msat */
    put(&told, payment_hash, 32);
    put_number(&told, 500, 4);     /* cltv_expiry */
    put(&told, onion, 1366);
    put_number(&told, 0, 1);       /* it forwards no other */
    give(payer, &told, "Add");
    sign_next(payer);
    /* Both stop with the signature in flight, and send again what the other lacks. */
    restart(payer);
    restart(payee);
    connect_both(payer, payee);
    settle(payer, payee);
    sign_next(payee);
    settle(payer, payee);
    expect(payee->fulfils, "the payment hasn't come", 0);
    told.n = 0;
    put_number(&told, 2, 1);
    put_number(&told, payee->htlc, 8);
    put(&told, preimage, 32);
    give(payee, &told, "Fulfil");
    sign_next(payee);
    settle(payer, payee);
    sign_next(payer);
    settle(payer, payee);
}

int main(void) {
    static struct end funder = {.name = "funder", .role = LNL_FUNDER, .key = {1}};
    static struct end fundee = {.name = "fundee", .role = LNL_FUNDEE, .key = {2}};
    static struct bytes confirm, shutdown;
    begin();
    funder.peer = &fundee;
    fundee.peer = &funder;
    open_both(&funder, &fundee);
    connect_both(&fundee, &funder);
    settle(&funder, &fundee);
    put_number(&confirm, 0, 1);
    put_number(&confirm, 110, 3); /* short channel id: block, transaction, output */
    put_number(&confirm, 1, 3);
    put_number(&confirm, 1, 2);
    give(&funder, &confirm, "Confirm");
    give(&fundee, &confirm, "Confirm");
    settle(&funder, &fundee);
    report(&funder);
    pay(&funder, &fundee);
    report(&funder);
    put_number(&shutdown, 7, 1);
    put_number(&shutdown, 6, 2);
    put(&shutdown, "script", 6);
    give(&fundee, &shutdown, "Shutdown");
    settle(&funder, &fundee);
    report(&funder);
    report(&fundee);
    lnl_free(&funder.link);
    lnl_free(&fundee.link);
    finish();
    return 0;
}
