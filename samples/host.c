/* A host in C: replays a capture, prints what the program `capture` prints for it, then best prices.
 *
 *     host FILE [SYMBOL ..]       a line for each symbol and side: best SYMBOL SIDE PRICE SHARES ORDERS */
#include "jangsebit.h"

#include <inttypes.h>
#include <stdio.h>
#include <string.h>

static const long ENDED = -1, CUT = -2;

static struct jangsebit held;
static uint8_t packet[65535];

/* The next record goes into `packet`: the mark A5 5A, a length of two bytes, and that many bytes. */
static long record(FILE *file)
{
    uint8_t head[4];
    size_t got = fread(head, 1, sizeof head, file);
    if (got == 0) {
        return ENDED;
    }
    if (got < sizeof head || head[0] != 0xA5 || head[1] != 0x5A) {
        return CUT;
    }
    size_t size = (size_t)head[2] << 8 | head[3];
    return fread(packet, 1, size, file) == size ? (long)size : CUT;
}

/* A session opens at the number of the first packet. */
static uint32_t number_in(long size)
{
    if (size < JANGSEBIT_SHORTEST) {
        return 0;
    }
    return (uint32_t)packet[2] << 24 | (uint32_t)packet[3] << 16 | (uint32_t)packet[4] << 8 | packet[5];
}

static long replay(FILE *file)
{
    long size = record(file);
    jsb_open(&held, number_in(size));
    for (; size >= 0; size = record(file)) {
        uint64_t applied;
        enum jangsebit_refusal refusal = jsb_take(&held, packet, (size_t)size, &applied);
        struct jsb_numbers now = jsb_numbers(&held);
        printf("%" PRIu64 " %" PRIu64 " %" PRIu64 " ", now.next, now.end, applied);
        if (refusal == JANGSEBIT_DONE) {
            printf("ok\n");
        } else {
            printf("refused %d\n", refusal);
        }
    }
    return size;
}

static void best(const char *name, enum jangsebit_side side)
{
    uint8_t symbol[JANGSEBIT_TEXT];
    struct jsb_quote quote;
    memset(symbol, ' ', sizeof symbol);
    memcpy(symbol, name, strlen(name));
    enum jangsebit_refusal refusal = jsb_best(&held, symbol, side, &quote);
    if (refusal == JANGSEBIT_DONE) {
        printf("best %s %c %" PRIu64 " %" PRIu64 " %" PRIu64 "\n", name, side, quote.price, quote.shares, quote.orders);
    } else {
        printf("best %s %c refused %d: %s\n", name, side, refusal, jsb_refusal_words(refusal));
    }
}

int main(int count, char **words)
{
    if (jangsebit_version() != JANGSEBIT_VERSION) {
        fprintf(stderr, "host: the library has version %" PRIu32 ", the header %d\n", jangsebit_version(), JANGSEBIT_VERSION);
        return 2;
    }
    FILE *file = count < 2 ? NULL : fopen(words[1], "rb");
    if (file == NULL) {
        fprintf(stderr, "usage: host FILE [SYMBOL ..], with a file that can be read\n");
        return 2;
    }
    printf("next end applied answer\n");
    if (replay(file) == CUT) {
        printf("cut\n");
    }
    fclose(file);
    for (struct jsb_gap gap = jsb_gap(&held, 0); gap.count != 0; gap = jsb_gap(&held, gap.start + gap.count)) {
        printf("gap %" PRIu64 " %" PRIu64 "\n", gap.start, gap.count);
    }
    for (int k = 2; k < count; k++) {
        if (strlen(words[k]) > JANGSEBIT_TEXT) {
            fprintf(stderr, "host: a symbol has at most %d characters\n", JANGSEBIT_TEXT);
            return 2;
        }
        best(words[k], JANGSEBIT_BID);
        best(words[k], JANGSEBIT_ASK);
    }
    return 0;
}
