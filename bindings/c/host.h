/* What the example's program brings: keys, disk, and the loop over a link. */
#ifndef HOST_H
#define HOST_H

#include "lnlink.h"

enum { ROOM = 70000, INBOX = 16 };

/* Bytes that are written one after the other. */
struct bytes {
    size_t n;
    uint8_t at[ROOM];
};

/* One end: its key, its link, the messages in flight to it, and the HTLC that it has to fulfil. */
struct end {
    const char *name; /* of its files, too */
    uint8_t role;
    uint8_t key[32];
    struct end *peer;
    lnl_link link;
    struct bytes inbox[INBOX];
    size_t first, last;
    int fulfils;
    uint64_t htlc;
};

/* Makes and frees what the keys need. */
void begin(void);
void finish(void);

/* Ends the program where something isn't fine. */
void expect(int fine, const char *what, int32_t answer);
void done(int32_t answer, const char *what);

void put(struct bytes *b, const void *data, size_t n);
void put_number(struct bytes *b, uint64_t value, int width);
uint64_t number(const uint8_t *at, int width);

/* The own point of a commitment, and the point of the key itself. */
void point_of(const struct end *end, uint64_t commitment, uint8_t out[33]);
void key_of(const struct end *end, uint8_t out[33]);

/* What was saved last; 0 bytes where nothing was. */
size_t load(const struct end *end, uint8_t out[ROOM]);

/* Hands out an end's line: each record is on disk before what it covers is in flight. */
void hand_out(struct end *end);

/* Gives a command, and hands out what it makes. */
void give(struct end *end, const struct bytes *command, const char *what);

/* Delivers messages until none is in flight. */
void settle(struct end *one, struct end *other);

/* The same, so many at most: whether none is in flight. */
int settle_some(struct end *one, struct end *other, size_t most);

#endif
