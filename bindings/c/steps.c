/* Payments as in the example. In each the connection is lost once, after one message more than in the one before; then
 * the same where both ends stop and start again there. Each is paid once. */
#define main example_main
#include "example.c"
#undef main

enum { AMOUNT_MSAT = 5000000 };

/* Where a summary has what follows its channel's status. */
static uint64_t looked(struct end *end, int at) {
    uint8_t s[512];
    size_t n;
    done(lnl_look(&end->link, s, sizeof s, &n), "look");
    return number(s + 3 + (s[2] ? 32 : 0) + at, 8);
}

/* Gives a command that may not be taken now, or was before: whether it is done. */
static int try(struct end *end, const struct bytes *command) {
    int32_t answer = lnl_command(&end->link, command->at, command->n);
    expect(answer == 0 || (answer >= 40 && answer <= 49 && answer != 44), "a command", answer);
    hand_out(end);
    return answer == 0;
}

/* What a wallet gives now, also again after a loss: whether there was anything. */
static int work(struct end *payer, struct end *payee, uint64_t payments) {
    static struct bytes told;
    static const uint8_t onion[1366];
    int worked = 0;
    if (looked(payer, 58) < payments) { /* next_htlc_id */
        told.n = 0;
        put_number(&told, 1, 1);
        put_number(&told, AMOUNT_MSAT, 8);
        put(&told, payment_hash, 32);
        put_number(&told, 500, 4);
        put(&told, onion, 1366);
        put_number(&told, 0, 1);
        worked |= try(payer, &told);
    }
    if (payee->fulfils) {
        told.n = 0;
        put_number(&told, 2, 1);
        put_number(&told, payee->htlc, 8);
        put(&told, preimage, 32);
        worked |= try(payee, &told);
    }
    told.n = 0;
    put_number(&told, 6, 1);
    worked |= try(payer, &told);
    worked |= try(payee, &told);
    return worked;
}

static void lose(struct end *end, int restarts) {
    end->first = end->last = 0;
    if (restarts) {
        restart(end);
    } else {
        done(lnl_disconnect(&end->link), "disconnect");
    }
}

/* Makes one payment more; after so many of its messages the connection is lost. Whether it came to that. */
static int pay_over_a_loss(struct end *payer, struct end *payee, uint64_t payments, size_t left, int restarts) {
    int lost = 0;
    while (work(payer, payee, payments)) {
        while (payer->first != payer->last || payee->first != payee->last) {
            if (!lost && left-- == 0) {
                lose(payer, restarts);
                lose(payee, restarts);
                connect_both(payer, payee);
                lost = 1;
            }
            settle_some(payer, payee, 1);
        }
    }
    return lost;
}

int main(void) {
    static struct end funder = {.name = "funder", .role = LNL_FUNDER, .key = {1}};
    static struct end fundee = {.name = "fundee", .role = LNL_FUNDEE, .key = {2}};
    static struct bytes confirm;
    uint64_t payments = 0;
    size_t step;
    int restarts;
    begin();
    funder.peer = &fundee;
    fundee.peer = &funder;
    open_both(&funder, &fundee);
    connect_both(&fundee, &funder);
    settle(&funder, &fundee);
    put_number(&confirm, 0, 1);
    put_number(&confirm, 110, 3);
    put_number(&confirm, 1, 3);
    put_number(&confirm, 1, 2);
    give(&funder, &confirm, "Confirm");
    give(&fundee, &confirm, "Confirm");
    settle(&funder, &fundee);
    for (restarts = 0; restarts < 2; restarts++) {
        for (step = 0; pay_over_a_loss(&funder, &fundee, ++payments, step, restarts); step++) {
            expect(looked(&fundee, 34) == payments * AMOUNT_MSAT, "a payment isn't paid once", (int32_t)step);
            expect(looked(&funder, 42) == payments * AMOUNT_MSAT, "the ends differ", (int32_t)step);
            expect(looked(&funder, 50) == 0 && looked(&fundee, 50) == 0, "an HTLC is left", (int32_t)step);
        }
        expect(step > 8, "too few steps", (int32_t)step);
    }
    lnl_free(&funder.link);
    lnl_free(&fundee.link);
    finish();
    return 0;
}
