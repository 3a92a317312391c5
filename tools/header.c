/* Holds include/jangsebit.h to the archive that it is linked with, at run time: the sizes of what a host holds, the places
 * of an order's fields, and what each function answers and leaves. C11 and C++17; tools/hosts.sh runs it as both.
 *
 * An opening fills the three parts of a session and nothing else, so their sizes show in what it overwrites; and the
 * library is asked for them. */
#include "jangsebit.h"

#include <stdio.h>
#include <string.h>

#define MARGIN 64
#define STALE 0xAA

static int failures = 0;

#define EXPECT(fact) expect((fact) != 0, #fact, __LINE__)

static void expect(int holds, const char *fact, int line)
{
    if (!holds) {
        printf("header: line %d: not so: %s\n", line, fact);
        failures++;
    }
}

/* A session's three parts, each between margins. */
static struct {
    uint64_t first[MARGIN];
    struct jangsebit_order orders[JANGSEBIT_ORDERS];
    uint64_t second[MARGIN];
    uint64_t room[JANGSEBIT_ROOM];
    uint64_t third[MARGIN];
    uint8_t window[JANGSEBIT_WINDOW];
    uint64_t fourth[MARGIN];
} apart;

static struct jangsebit held, before;

static int all(const void *from, size_t size, uint8_t byte)
{
    const uint8_t *bytes = (const uint8_t *)from;
    for (size_t k = 0; k < size; k++) {
        if (bytes[k] != byte) {
            return 0;
        }
    }
    return 1;
}

static int unchanged(void)
{
    return memcmp(&held, &before, sizeof held) == 0;
}

static void sizes(void)
{
    memset(&apart, STALE, sizeof apart);
    jangsebit_open(apart.orders, apart.room, apart.window, 0);
    EXPECT(all(apart.orders, sizeof apart.orders, 0));
    EXPECT(all(apart.room, sizeof apart.room, 0));
    EXPECT(all(apart.window, sizeof apart.window, 0));
    EXPECT(all(apart.first, sizeof apart.first, STALE));
    EXPECT(all(apart.second, sizeof apart.second, STALE));
    EXPECT(all(apart.third, sizeof apart.third, STALE));
    EXPECT(all(apart.fourth, sizeof apart.fourth, STALE));

    uint64_t told[12];
    jangsebit_sizes(told);
    EXPECT(told[0] == sizeof apart.orders && told[1] == alignof(struct jangsebit_order));
    EXPECT(told[2] == sizeof apart.room && told[3] == alignof(uint64_t));
    EXPECT(told[4] == sizeof apart.window && told[5] == alignof(uint8_t));
    EXPECT(told[0] == offsetof(struct jangsebit, room) && told[0] + told[2] == offsetof(struct jangsebit, window));
    EXPECT(jsb_sizes_agree());

    /* a strict opening fills the same, and has the rule beside */
    memset(&apart, STALE, sizeof apart);
    jangsebit_open_strict(apart.orders, apart.room, apart.window, 0);
    EXPECT(jangsebit_rule(apart.room) == JANGSEBIT_STRICT && jangsebit_unlisted(apart.room) == 0);
    size_t filled = 0;
    for (size_t k = 0; k < JANGSEBIT_ROOM; k++) {
        filled += apart.room[k] != 0;
    }
    EXPECT(filled == 1);
    EXPECT(all(apart.orders, sizeof apart.orders, 0) && all(apart.window, sizeof apart.window, 0));
    EXPECT(all(apart.first, sizeof apart.first, STALE) && all(apart.second, sizeof apart.second, STALE));
    EXPECT(all(apart.third, sizeof apart.third, STALE) && all(apart.fourth, sizeof apart.fourth, STALE));
}

static const uint8_t *text(const char *from)
{
    return (const uint8_t *)from;
}

static void put(uint8_t *at, int width, uint64_t number)
{
    while (width > 0) {
        at[--width] = (uint8_t)number;
        number >>= 8;
    }
}

#define FRAMED 69
#define ADD (FRAMED - 2)

/* One Add behind its length. */
static void add(uint8_t framed[FRAMED], uint32_t number, const char *id, char side, uint32_t shares, uint64_t price)
{
    uint8_t *packet = framed + 2;
    memset(framed, 0, FRAMED);
    put(framed, 2, ADD);
    put(packet, 2, ADD);
    put(packet + 2, 4, number);
    packet[7] = 1;
    put(packet + 12, 2, ADD - 12);
    packet[14] = 21;
    memcpy(packet + 19, id, 14);
    packet[33] = (uint8_t)side;
    put(packet + 34, 4, shares);
    memcpy(packet + 38, "JNGSB         ", 14);
    put(packet + 52, 8, price);
    memcpy(packet + 60, "MKR1", 4);
    packet[64] = 'Y';
}

static void taking(void)
{
    uint8_t framed[FRAMED];
    uint64_t applied = 99;
    struct jangsebit_order order;
    memset(&held, STALE, sizeof held);
    jsb_open(&held, 10);
    add(framed, 10, "000000000010ZZ", 'B', 300, 1250000);
    EXPECT(jsb_take(&held, framed + 2, ADD, &applied) == JANGSEBIT_DONE && applied == 1);
    EXPECT(jsb_numbers(&held).next == 11 && jsb_numbers(&held).end == 11 && jsb_numbers(&held).live == 1);
    memset(&order, STALE, sizeof order);
    EXPECT(jsb_order(&held, text("000000000010AA"), &order) == JANGSEBIT_DONE);
    EXPECT(order.id == 36 && order.price == 1250000 && order.shares == 300 && order.side == JANGSEBIT_BID);
    EXPECT(memcmp(order.firm, "MKR1", 4) == 0 && memcmp(order.symbol, "JNGSB         ", 14) == 0);
    EXPECT(order.unsolicited == 'Y');
    /* the fields lie in the table where the header has them */
    EXPECT(memcmp(&held.orders[0], &order, sizeof order) == 0);
    EXPECT(all(&held.orders[1], sizeof held.orders - sizeof order, 0));

    before = held;
    EXPECT(jsb_take(&held, framed + 2, 11, &applied) == JANGSEBIT_UNDER_HEADER && applied == 0 && unchanged());
    EXPECT(jsb_take(&held, framed + 2, ADD - 1, &applied) == JANGSEBIT_SIZE_NOT_LENT && applied == 0 && unchanged());
    EXPECT(jsb_take(&held, framed + 2, ADD, &applied) == JANGSEBIT_DONE && applied == 0 && unchanged());
    /* with 11 still to come, 266 waits and 267 is too far */
    add(framed, 267, "000000000020ZZ", 'B', 200, 1250000);
    EXPECT(jsb_take(&held, framed + 2, ADD, &applied) == JANGSEBIT_PAST_WINDOW && applied == 0 && unchanged());
    add(framed, 266, "000000000020ZZ", 'B', 200, 1250000);
    EXPECT(jsb_take(&held, framed + 2, ADD, &applied) == JANGSEBIT_DONE && applied == 0);
    EXPECT(jsb_numbers(&held).next == 11 && jsb_numbers(&held).end == 267);
    before = held;
    framed[2 + 64] = 'N';
    EXPECT(jsb_take(&held, framed + 2, ADD, &applied) == JANGSEBIT_COPIES_DIFFER && applied == 0 && unchanged());
    /* refused where it carries next, too */
    add(framed, 11, "000000000030ZZ", 'B', 900, 1240000);
    framed[2 + 6] = 0x80;
    EXPECT(jsb_take(&held, framed + 2, ADD, &applied) == JANGSEBIT_RESERVED_FLAG && applied == 0 && unchanged());
}

static void bursts(void)
{
    uint8_t packets[4 * FRAMED];
    struct jsb_answer answers[5];
    struct jsb_taken taken;
    uint64_t told[3] = {99, 99, 99};
    add(packets, 11, "000000000020ZZ", 'B', 200, 1250000);
    add(packets + FRAMED, 12, "000000000020ZZ", 'B', 1, 1);
    add(packets + 2 * FRAMED, 13, "000000000030ZZ", 'B', 900, 1240000);
    add(packets + 3 * FRAMED, 15, "000000000040ZZ", 'S', 700, 1260000);
    jsb_open(&held, 10);
    before = held;
    memset(answers, STALE, sizeof answers);
    taken = jsb_burst(&held, packets, 0, answers, 5);
    EXPECT(taken.packets == 0 && taken.bytes == 0);
    taken = jsb_burst(&held, packets, FRAMED - 1, answers, 5);
    EXPECT(taken.packets == 0 && taken.bytes == 0);
    taken = jsb_burst(&held, packets, sizeof packets, answers, 0);
    EXPECT(taken.packets == 0 && taken.bytes == 0);
    EXPECT(unchanged() && all(answers, sizeof answers, STALE));
    /* the export itself refuses where a host says more than it lends for */
    jangsebit_packets(
        held.orders, held.room, held.window, packets, sizeof packets, 0, 4, (uint64_t *)(void *)answers, 15, told);
    EXPECT(told[0] == JANGSEBIT_LENT_TOO_SHORT && told[1] == 0 && told[2] == 0);
    EXPECT(unchanged() && all(answers, sizeof answers, STALE));

    /* after the one that 10 brings: 12 names a live order, 14 is missing */
    uint8_t first[FRAMED];
    uint64_t applied = 0;
    add(first, 10, "000000000010ZZ", 'B', 300, 1250000);
    EXPECT(jsb_take(&held, first + 2, ADD, &applied) == JANGSEBIT_DONE && applied == 1);
    taken = jsb_burst(&held, packets, sizeof packets, answers, 1);
    EXPECT(taken.packets == 1 && taken.bytes == FRAMED && all(&answers[1], 4 * sizeof answers[1], STALE));
    taken = jsb_burst(&held, packets + taken.bytes, sizeof packets - taken.bytes, answers + 1, 4);
    EXPECT(taken.packets == 3 && taken.bytes == 3 * FRAMED);
    EXPECT(answers[0].applied == 1 && answers[0].refusal == 0 && answers[0].next == 12 && answers[0].end == 12);
    EXPECT(answers[3].applied == 0 && answers[3].refusal == 0 && answers[3].next == 14 && answers[3].end == 16);
    EXPECT(all(&answers[4], sizeof answers[4], STALE));

    struct jsb_numbers now = jsb_numbers(&held);
    EXPECT(now.next == 14 && now.end == 16 && now.live == 3 && now.held == 0 && now.code == 0);
    EXPECT(now.faults == 1 && now.fault == 12 && now.reason == JANGSEBIT_ALREADY_LIVE);
}

/* Three Adds kept, and applied one and two at a time. */
static void keeping(void)
{
    uint8_t framed[FRAMED], packets[4 * FRAMED];
    struct jsb_kept answers[5];
    struct jsb_taken taken;
    uint64_t fresh = 99, applied = 99, told[3] = {99, 99, 99};
    memset(&held, STALE, sizeof held);
    jsb_open(&held, 10);
    EXPECT(jsb_lowest(&held) == 10 && jsb_apply(&held, UINT64_MAX) == 0);
    add(framed, 10, "000000000010ZZ", 'B', 300, 1250000);
    EXPECT(jsb_keep(&held, framed + 2, ADD, &fresh) == JANGSEBIT_DONE && fresh == 1);
    EXPECT(jsb_keep(&held, framed + 2, ADD, &fresh) == JANGSEBIT_DONE && fresh == 0);
    EXPECT(jsb_numbers(&held).next == 10 && jsb_numbers(&held).end == 11 && jsb_numbers(&held).live == 0);
    EXPECT(jsb_lowest(&held) == 11);

    before = held;
    fresh = 99;
    framed[2 + 64] = 'N';
    EXPECT(jsb_keep(&held, framed + 2, ADD, &fresh) == JANGSEBIT_COPIES_DIFFER && fresh == 0 && unchanged());
    EXPECT(jsb_take(&held, framed + 2, ADD, &applied) == JANGSEBIT_COPIES_DIFFER && applied == 0 && unchanged());
    EXPECT(jsb_keep(&held, framed + 2, 11, &fresh) == JANGSEBIT_UNDER_HEADER && fresh == 0 && unchanged());
    add(framed, 266, "000000000020ZZ", 'B', 200, 1250000);
    EXPECT(jsb_keep(&held, framed + 2, ADD, &fresh) == JANGSEBIT_PAST_WINDOW && fresh == 0 && unchanged());
    EXPECT(jsb_apply(&held, 0) == 0 && unchanged());
    /* the export itself leaves the count on a refusal, and passes no packet while one waits at next */
    EXPECT(jangsebit_keep(held.room, held.window, framed + 2, ADD, told) == JANGSEBIT_PAST_WINDOW && told[0] == 99);
    add(framed, 265, "000000000020ZZ", 'B', 200, 1250000);
    jangsebit_pass(held.room, held.window, framed + 2, ADD, told);
    EXPECT(told[0] == JANGSEBIT_APPLIES && unchanged());

    /* 11 and 12 follow, a copy of 12 differs, 14 has to wait for 13 */
    add(packets, 11, "000000000020ZZ", 'B', 200, 1250000);
    add(packets + FRAMED, 12, "000000000030ZZ", 'B', 900, 1240000);
    add(packets + 2 * FRAMED, 12, "000000000030ZZ", 'B', 901, 1240000);
    add(packets + 3 * FRAMED, 14, "000000000040ZZ", 'S', 700, 1260000);
    memset(answers, STALE, sizeof answers);
    taken = jsb_keep_burst(&held, packets, sizeof packets, answers, 0);
    EXPECT(taken.packets == 0 && taken.bytes == 0);
    taken = jsb_keep_burst(&held, packets, FRAMED - 1, answers, 5);
    EXPECT(taken.packets == 0 && taken.bytes == 0);
    EXPECT(unchanged() && all(answers, sizeof answers, STALE));
    /* the last two are counts whose numbers are more than can be counted */
    static const uint64_t counts[3] = {4, UINT64_MAX, UINT64_MAX / 4 + 1};
    for (int k = 0; k < 3; k++) {
        jangsebit_keep_packets(
            held.room, held.window, packets, sizeof packets, counts[k], (uint64_t *)(void *)answers, 15, told);
        EXPECT(told[0] == JANGSEBIT_LENT_TOO_SHORT && told[1] == 0 && told[2] == 0);
        EXPECT(unchanged() && all(answers, sizeof answers, STALE));
    }
    taken = jsb_keep_burst(&held, packets, sizeof packets, answers, 5);
    EXPECT(taken.packets == 4 && taken.bytes == sizeof packets);
    EXPECT(answers[1].fresh == 1 && answers[1].refusal == 0 && answers[1].next == 10 && answers[1].end == 13);
    EXPECT(answers[2].fresh == 0 && answers[2].refusal == JANGSEBIT_COPIES_DIFFER && answers[2].next == 10);
    EXPECT(answers[3].fresh == 1 && answers[3].refusal == 0 && answers[3].next == 10 && answers[3].end == 15);
    EXPECT(all(&answers[4], sizeof answers[4], STALE));

    EXPECT(jsb_lowest(&held) == 13 && jsb_gap(&held, 0).start == 13 && jsb_gap(&held, 0).count == 1);
    EXPECT(jsb_apply(&held, 1) == 1 && jsb_numbers(&held).next == 11 && jsb_numbers(&held).live == 1);
    EXPECT(jsb_apply(&held, UINT64_MAX) == 2 && jsb_numbers(&held).next == 13 && jsb_numbers(&held).live == 3);
    EXPECT(jsb_apply(&held, UINT64_MAX) == 0 && jsb_lowest(&held) == 13);
    /* what was kept is taken along with what comes */
    add(framed, 13, "000000000050ZZ", 'S', 100, 1260000);
    EXPECT(jsb_keep(&held, framed + 2, ADD, &fresh) == JANGSEBIT_DONE && fresh == 1 && jsb_lowest(&held) == 15);
    EXPECT(jsb_take(&held, framed + 2, ADD, &applied) == JANGSEBIT_DONE && applied == 2);
    EXPECT(jsb_numbers(&held).next == 15 && jsb_numbers(&held).live == 5);
}

static void asking(void)
{
    static const uint8_t request[JANGSEBIT_REQUEST] = {0, 12, 'r', 0, 0, 0, 14, 0, 0, 0, 1, 'Y'};
    const uint8_t *symbol = text("JNGSB         ");
    struct jangsebit_order order;
    struct jsb_inside inside;
    struct jsb_quote quotes[4], quote;
    struct jsb_question questions[3];
    uint8_t buffer[JANGSEBIT_REQUESTS];
    size_t count = 99;

    before = held;
    memset(&order, STALE, sizeof order);
    EXPECT(jsb_order(&held, text("00000000001aZZ"), &order) == JANGSEBIT_BAD_QUESTION);
    EXPECT(jsb_order(&held, text("000000000050ZZ"), &order) == JANGSEBIT_NOT_FOUND);
    EXPECT(all(&order, sizeof order, STALE));

    EXPECT(jsb_best(&held, symbol, JANGSEBIT_BID, &quote) == JANGSEBIT_DONE);
    EXPECT(quote.refusal == 0 && quote.price == 1250000 && quote.shares == 500 && quote.orders == 2);
    EXPECT(jsb_best(&held, symbol, JANGSEBIT_ASK, &quote) == JANGSEBIT_NOT_FOUND);
    EXPECT(quote.refusal == 13 && quote.price == 0 && quote.shares == 0 && quote.orders == 0);
    EXPECT(jsb_best(&held, text(" JNGSB        "), JANGSEBIT_BID, &quote) == JANGSEBIT_BAD_QUESTION);

    memset(quotes, STALE, sizeof quotes);
    for (int k = 0; k < 3; k++) {
        memcpy(questions[k].symbol, symbol, sizeof questions[k].symbol);
        questions[k].side = (uint8_t)"SXB"[k];
    }
    EXPECT(jsb_quotes(&held, questions, 3, quotes, 2) == JANGSEBIT_LENT_TOO_SHORT && all(quotes, sizeof quotes, STALE));
    EXPECT(jsb_quotes(&held, questions, 3, quotes, 4) == JANGSEBIT_DONE);
    EXPECT(quotes[0].refusal == 13 && quotes[1].refusal == 12 && quotes[2].refusal == 0 && quotes[2].shares == 500);
    EXPECT(all(&quotes[3], sizeof quotes[3], STALE));

    memset(&inside, STALE, sizeof inside);
    EXPECT(jsb_inside(&held, text(" JNGSB        "), &inside) == JANGSEBIT_BAD_QUESTION);
    EXPECT(jsb_inside(&held, symbol, &inside) == JANGSEBIT_NOT_FOUND && all(&inside, sizeof inside, STALE));

    memset(buffer, STALE, sizeof buffer);
    EXPECT(jsb_requests(&held, buffer, JANGSEBIT_REQUEST - 1, &count) == JANGSEBIT_LENT_TOO_SHORT && count == 0);
    EXPECT(all(buffer, sizeof buffer, STALE));
    EXPECT(jsb_requests(&held, buffer, sizeof buffer, &count) == JANGSEBIT_DONE && count == 1);
    EXPECT(memcmp(buffer, request, sizeof request) == 0);
    EXPECT(all(buffer + sizeof request, sizeof buffer - sizeof request, STALE));
    EXPECT(jsb_gap(&held, 0).start == 14 && jsb_gap(&held, 0).count == 1);
    EXPECT(jsb_gap(&held, 15).count == 0);
    EXPECT(unchanged());
}

/* A Top of Book, with six numbers that all differ. */
static void insides(void)
{
    uint8_t packet[58];
    uint64_t applied = 0;
    struct jsb_inside inside;
    memset(packet, 0, sizeof packet);
    put(packet, 2, sizeof packet);
    packet[7] = 1;
    put(packet + 12, 2, sizeof packet - 12);
    packet[14] = 26;
    put(packet + 15, 4, 77);
    memcpy(packet + 19, "JNGSB         ", 14);
    put(packet + 33, 8, 1260000);
    put(packet + 41, 4, 900);
    put(packet + 45, 8, 1250000);
    put(packet + 53, 4, 500);
    packet[57] = 'N';
    jsb_open(&held, 0);
    EXPECT(jsb_take(&held, packet, sizeof packet, &applied) == JANGSEBIT_DONE && applied == 1);
    EXPECT(jsb_numbers(&held).held == 1);
    EXPECT(jsb_inside(&held, text("JNGSB         "), &inside) == JANGSEBIT_DONE);
    EXPECT(inside.ask == 1260000 && inside.bid == 1250000 && inside.time == 77);
    EXPECT(inside.ask_volume == 900 && inside.bid_volume == 500 && inside.unsolicited == 'N');
}

/* A packet that is one message of a type and no more. */
#define BARE 15

static void bare(uint8_t packet[BARE], uint32_t number, uint8_t type)
{
    memset(packet, 0, BARE);
    packet[1] = BARE;
    put(packet + 2, 4, number);
    packet[7] = 1;
    packet[13] = BARE - 12;
    packet[14] = type;
}

/* Unlisted types under both rules; 28 is listed. */
static void unlisted(void)
{
    static const uint8_t types[5] = {0, 10, 28, 29, 255};
    uint8_t packet[BARE], framed[FRAMED];
    uint64_t applied = 0, numbers[JANGSEBIT_FIELDS];
    struct jsb_numbers now;
    size_t count = 99;
    for (int strict = 0; strict < 2; strict++) {
        /* what the opening before left is gone, its rule too */
        if (strict) {
            jsb_open_strict(&held, 7);
        } else {
            jsb_open_strict(&held, 1);
            jsb_open(&held, 7);
        }
        EXPECT(jsb_rule(&held) == (strict ? JANGSEBIT_STRICT : JANGSEBIT_DEFAULT));
        EXPECT(jsb_unlisted(&held) == 0 && !jsb_doubtful(&held));
        for (uint32_t k = 0; k < 5; k++) {
            bare(packet, 7 + k, types[k]);
            EXPECT(jsb_take(&held, packet, BARE, &applied) == JANGSEBIT_DONE && applied == 1);
        }
        now = jsb_numbers(&held);
        EXPECT(now.next == 12 && now.end == 12 && now.live == 0 && now.held == 0 && now.code == 0);
        EXPECT(jsb_unlisted(&held) == (strict ? 0 : 4) && jsb_doubtful(&held) == strict);
        EXPECT(now.faults == (strict ? 4 : 0) && now.fault == (strict ? 7 : 0));
        EXPECT(now.reason == (strict ? JANGSEBIT_UNLISTED_TYPE : JANGSEBIT_FAULTLESS));

        /* a fault beside them, and one more of them kept and applied */
        add(framed, 12, "00000000001aZZ", 'B', 300, 1250000);
        EXPECT(jsb_take(&held, framed + 2, ADD, &applied) == JANGSEBIT_DONE && applied == 1 && jsb_doubtful(&held));
        bare(packet, 13, 99);
        EXPECT(jsb_keep(&held, packet, BARE, &applied) == JANGSEBIT_DONE && applied == 1);
        EXPECT(jsb_unlisted(&held) == (strict ? 0 : 4) && jsb_apply(&held, 1) == 1);
        now = jsb_numbers(&held);
        EXPECT(jsb_unlisted(&held) == (strict ? 0 : 5) && now.next == 14 && now.faults == (strict ? 6 : 1));
        EXPECT(now.fault == (strict ? 7 : 12) && now.reason == (strict ? JANGSEBIT_UNLISTED_TYPE : JANGSEBIT_BROKEN_RULE));
        EXPECT(jsb_rule(&held) == (strict ? JANGSEBIT_STRICT : JANGSEBIT_DEFAULT));
    }
    /* read as the type alone, and not written */
    memset(numbers, STALE, sizeof numbers);
    EXPECT(jsb_message(packet + 12, 3, numbers) == JANGSEBIT_DONE && numbers[0] == 99);
    EXPECT(all(numbers + 1, sizeof numbers - sizeof numbers[0], STALE));
    EXPECT(jsb_write_message(numbers, framed, sizeof framed, 0, &count) == JANGSEBIT_FIELD_RULE && count == 0);
}

/* Ids, headers, packets and messages by themselves. */
static void alone(void)
{
    uint8_t framed[FRAMED], buffer[64];
    const uint8_t *packet = framed + 2;
    struct jsb_header header;
    struct jsb_place places[2];
    uint64_t value = 99, numbers[JANGSEBIT_FIELDS];
    uint8_t id[JANGSEBIT_TEXT];
    size_t count = 99, offset = 99;

    EXPECT(jsb_value(text("00000000001aZZ"), &value) == JANGSEBIT_BAD_QUESTION && value == 99);
    EXPECT(jsb_value(text("000000000010ZZ"), &value) == JANGSEBIT_DONE && value == 36);

    add(framed, 77, "000000000010ZZ", 'B', 300, 1250000);
    memset(&header, STALE, sizeof header);
    EXPECT(jsb_header(packet, 11, &header) == JANGSEBIT_UNDER_HEADER && all(&header, sizeof header, STALE));
    EXPECT(jsb_header(packet, ADD, &header) == JANGSEBIT_DONE);
    EXPECT(header.size == ADD && header.number == 77 && header.flag == 0 && header.messages == 1 && header.milli == 0);
    memset(buffer, STALE, sizeof buffer);
    EXPECT(jsb_write_header(&header, buffer, 11) == JANGSEBIT_LENT_TOO_SHORT && all(buffer, sizeof buffer, STALE));
    EXPECT(jsb_write_header(&header, buffer, 12) == JANGSEBIT_DONE && memcmp(buffer, packet, 12) == 0);
    EXPECT(all(buffer + 12, sizeof buffer - 12, STALE));
    header.flag = 1;
    EXPECT(jsb_write_header(&header, buffer, 12) == JANGSEBIT_FIELD_RULE);

    EXPECT(jsb_judge(packet, ADD, &offset) == JANGSEBIT_DONE && offset == 0);
    memset(places, STALE, sizeof places);
    EXPECT(jsb_walk(packet, ADD, places, 0, &count, &offset) == JANGSEBIT_LENT_TOO_SHORT && count == 1 && offset == 0);
    EXPECT(all(places, sizeof places, STALE));
    EXPECT(jsb_walk(packet, ADD, places, 2, &count, &offset) == JANGSEBIT_DONE && count == 1 && offset == 0);
    EXPECT(places[0].start == 12 && places[0].size == 55 && all(&places[1], sizeof places[1], STALE));

    memset(numbers, STALE, sizeof numbers);
    EXPECT(jsb_message(packet + 12, 54, numbers) == JANGSEBIT_BAD_MESSAGE && all(numbers, sizeof numbers, STALE));
    EXPECT(jsb_message(packet + 12, 55, numbers) == JANGSEBIT_DONE && numbers[0] == 21);
    EXPECT(numbers[5] == 'B' && numbers[6] == 300 && numbers[10] == 1250000 && numbers[12] == 'Y');
    jsb_text(numbers + 2, id);
    EXPECT(memcmp(id, "000000000010ZZ", 14) == 0);
    memset(buffer, STALE, sizeof buffer);
    EXPECT(jsb_write_message(numbers, buffer, sizeof buffer, 10, &count) == JANGSEBIT_LENT_TOO_SHORT && count == 0);
    EXPECT(all(buffer, sizeof buffer, STALE));
    EXPECT(jsb_write_message(numbers, buffer, sizeof buffer, 9, &count) == JANGSEBIT_DONE && count == 55);
    EXPECT(memcmp(buffer + 9, packet + 12, 55) == 0 && all(buffer, 9, STALE));
    jsb_put_text(text("000000000020AA"), numbers + 2);
    EXPECT(jsb_write_message(numbers, buffer, sizeof buffer, 0, &count) == JANGSEBIT_DONE);
    EXPECT(memcmp(buffer + 7, "000000000020AA", 14) == 0);
    numbers[5] = 256 + 'B';
    EXPECT(jsb_write_message(numbers, buffer, sizeof buffer, 0, &count) == JANGSEBIT_FIELD_RULE && count == 0);

    put(framed + 14, 2, 54);
    EXPECT(jsb_walk(packet, ADD, places, 2, &count, &offset) == JANGSEBIT_BAD_MESSAGE && count == 0 && offset == 12);
    EXPECT(jsb_judge(packet, ADD, &offset) == JANGSEBIT_BAD_MESSAGE && offset == 12);
}

int main(void)
{
    EXPECT(jangsebit_version() == JANGSEBIT_VERSION);
    sizes();
    taking();
    bursts();
    asking();
    insides();
    keeping();
    unlisted();
    alone();
    EXPECT(strcmp(jsb_refusal_words(14), "a field breaks its rule") == 0);
    EXPECT(strcmp(jsb_refusal_words(15), "no refusal has this number") == 0);
    EXPECT(strcmp(jsb_fault_words(JANGSEBIT_INSIDES_FULL), "no room for another inside") == 0);
    EXPECT(strcmp(jsb_fault_words(9), "no fault has this number") == 0);
    return failures != 0;
}
