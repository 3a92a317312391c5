/* Jangsebit for C11 and C++17: the exports of the proved library, and over each a function with types.
 *
 * A host holds one `struct jangsebit` for a session and hands its address to every call: first to an opening, which
 * fills all of it, then to the others. The library keeps nothing of its own, allocates nothing and calls nothing but
 * memcpy and memset, so sessions are independent, a copy of the struct is a session like the first, and threads may work
 * on different ones; one session is used by one thread at a time, or by several that only ask.
 *
 * The library asks three things of its caller: what an address and a length name is there, also for writing where the
 * address is not to const; what is lent in one call does not overlap where it is written; and the struct is as an
 * opening and the calls since have left it. No address is null. All else is answered: no argument is out of bounds.
 *
 * Names that begin with jangsebit_ are the library's, those that begin with jsb_ are functions of this header and
 * what they answer. Link with libexports.a; tools/archive.sh makes it. */
#ifndef JANGSEBIT_H
#define JANGSEBIT_H

#include <stddef.h>
#include <stdint.h>
#ifndef __cplusplus
#include <assert.h>
#include <stdalign.h>
#endif

/* What `jangsebit_version` answers where library and header belong together. */
#define JANGSEBIT_VERSION 3

/* How many orders can be live and insides held, how many numbers can be waited for; the numbers of the room and the
 * bytes of the window. */
#define JANGSEBIT_ORDERS 256
#define JANGSEBIT_INSIDES 64
#define JANGSEBIT_NUMBERS 256
#define JANGSEBIT_ROOM 2308
#define JANGSEBIT_WINDOW 32768

/* A packet's bytes, at least and at most; those of an order id or a symbol; of a request; of all the requests that
 * there can be at once, since two runs of missing numbers have a waiting one between them. */
#define JANGSEBIT_SHORTEST 12
#define JANGSEBIT_LONGEST 1472
#define JANGSEBIT_TEXT 14
#define JANGSEBIT_REQUEST 12
#define JANGSEBIT_REQUESTS (JANGSEBIT_REQUEST * JANGSEBIT_NUMBERS / 2)

/* A message's bytes at most; the numbers that it is told in; the most messages of a packet. */
#define JANGSEBIT_MESSAGE 128
#define JANGSEBIT_FIELDS 14
#define JANGSEBIT_MESSAGES 255

/* A live order. `id` is the id's value, `price` in millionths; the texts are not ended by a zero. */
struct jangsebit_order {
    uint64_t id;
    uint64_t price;
    uint32_t shares;
    uint8_t firm[4];
    uint8_t symbol[JANGSEBIT_TEXT];
    uint8_t side;
    uint8_t unsolicited;
};

/* All that a session is. What stands in it is the library's: ask by the calls below. */
struct jangsebit {
    struct jangsebit_order orders[JANGSEBIT_ORDERS];
    uint64_t room[JANGSEBIT_ROOM];
    uint8_t window[JANGSEBIT_WINDOW];
};

enum jangsebit_side {
    JANGSEBIT_BID = 'B',
    JANGSEBIT_ASK = 'S'
};

/* Why a call refused; `jsb_refusal_words` has a word for each. */
enum jangsebit_refusal {
    JANGSEBIT_DONE = 0,
    JANGSEBIT_UNDER_HEADER = 1,
    JANGSEBIT_OVER_LONGEST = 2,
    JANGSEBIT_SIZE_NOT_LENT = 3,
    JANGSEBIT_RESERVED_FLAG = 4,
    JANGSEBIT_BAD_HEARTBEAT = 5,
    JANGSEBIT_NO_MESSAGES = 6,
    JANGSEBIT_BAD_MESSAGE = 7,
    JANGSEBIT_NUMBER_TOO_LARGE = 8,
    JANGSEBIT_PAST_WINDOW = 9,
    JANGSEBIT_COPIES_DIFFER = 10,
    JANGSEBIT_LENT_TOO_SHORT = 11,
    JANGSEBIT_BAD_QUESTION = 12,
    JANGSEBIT_NOT_FOUND = 13,
    JANGSEBIT_FIELD_RULE = 14
};

/* What an opening makes of messages whose type is not listed. They are applied and change nothing under either rule: by
 * default they are counted apart and are no fault; under the strict rule they are faults, and not in that count. */
enum jangsebit_rule {
    JANGSEBIT_DEFAULT = 0,
    JANGSEBIT_STRICT = 1
};

/* Why a message that was applied changed nothing; `jsb_fault_words` has a word for each. The first is given under the
 * strict rule only. */
enum jangsebit_fault {
    JANGSEBIT_FAULTLESS = 0,
    JANGSEBIT_UNLISTED_TYPE = 1,
    JANGSEBIT_BROKEN_RULE = 2,
    JANGSEBIT_ALREADY_LIVE = 3,
    JANGSEBIT_ORDERS_FULL = 4,
    JANGSEBIT_NOT_LIVE = 5,
    JANGSEBIT_EXECUTED_TOO_MANY = 6,
    JANGSEBIT_REMAINING_UNTRUE = 7,
    JANGSEBIT_INSIDES_FULL = 8
};

/* What `jangsebit_pass` made of a packet: it carries next or a message waits there, and nothing was done; it was kept;
 * it was refused. */
enum jangsebit_passed {
    JANGSEBIT_APPLIES = 0,
    JANGSEBIT_KEPT = 1,
    JANGSEBIT_REFUSED = 2
};

/* ---- The exports, as the library has them: a slice is an address and a length, counted in elements. ---- */

#ifdef __cplusplus
extern "C" {
#endif

uint32_t jangsebit_version(void);

void jangsebit_open(
    struct jangsebit_order session[JANGSEBIT_ORDERS],
    uint64_t room[JANGSEBIT_ROOM],
    uint8_t window[JANGSEBIT_WINDOW],
    uint32_t number);

void jangsebit_open_strict(
    struct jangsebit_order session[JANGSEBIT_ORDERS],
    uint64_t room[JANGSEBIT_ROOM],
    uint8_t window[JANGSEBIT_WINDOW],
    uint32_t number);

void jangsebit_pass(
    uint64_t room[JANGSEBIT_ROOM],
    uint8_t window[JANGSEBIT_WINDOW],
    const uint8_t *packet,
    size_t packet_len,
    uint64_t told[2]);

void jangsebit_packets(
    struct jangsebit_order session[JANGSEBIT_ORDERS],
    uint64_t room[JANGSEBIT_ROOM],
    uint8_t window[JANGSEBIT_WINDOW],
    const uint8_t *packets,
    size_t packets_len,
    uint64_t single,
    uint64_t count,
    uint64_t *answers,
    size_t answers_len,
    uint64_t told[3]);

uint64_t jangsebit_keep(
    uint64_t room[JANGSEBIT_ROOM],
    uint8_t window[JANGSEBIT_WINDOW],
    const uint8_t *packet,
    size_t packet_len,
    uint64_t told[1]);

void jangsebit_keep_packets(
    uint64_t room[JANGSEBIT_ROOM],
    uint8_t window[JANGSEBIT_WINDOW],
    const uint8_t *packets,
    size_t packets_len,
    uint64_t count,
    uint64_t *answers,
    size_t answers_len,
    uint64_t told[3]);

uint64_t jangsebit_apply(
    struct jangsebit_order session[JANGSEBIT_ORDERS],
    uint64_t room[JANGSEBIT_ROOM],
    uint8_t window[JANGSEBIT_WINDOW],
    uint64_t count);

uint64_t jangsebit_lowest(const uint64_t room[JANGSEBIT_ROOM], const uint8_t window[JANGSEBIT_WINDOW]);

void jangsebit_numbers(const uint64_t room[JANGSEBIT_ROOM], uint64_t told[8]);

uint64_t jangsebit_rule(const uint64_t room[JANGSEBIT_ROOM]);

uint64_t jangsebit_unlisted(const uint64_t room[JANGSEBIT_ROOM]);

uint64_t jangsebit_order(
    const struct jangsebit_order session[JANGSEBIT_ORDERS],
    const uint64_t room[JANGSEBIT_ROOM],
    const uint8_t id[JANGSEBIT_TEXT],
    uint64_t told[8]);

uint64_t jangsebit_quotes(
    const struct jangsebit_order session[JANGSEBIT_ORDERS],
    const uint64_t room[JANGSEBIT_ROOM],
    const uint8_t *asked,
    size_t asked_len,
    uint64_t *replies,
    size_t replies_len);

uint64_t jangsebit_inside(
    const uint64_t room[JANGSEBIT_ROOM],
    const uint8_t symbol[JANGSEBIT_TEXT],
    uint64_t told[6]);

uint64_t jangsebit_requests(
    const uint64_t room[JANGSEBIT_ROOM],
    const uint8_t window[JANGSEBIT_WINDOW],
    uint8_t *buf,
    size_t buf_len,
    uint64_t told[1]);

void jangsebit_gap(
    const uint64_t room[JANGSEBIT_ROOM],
    const uint8_t window[JANGSEBIT_WINDOW],
    uint64_t from,
    uint64_t told[2]);

void jangsebit_sizes(uint64_t told[12]);

uint64_t jangsebit_value(const uint8_t id[JANGSEBIT_TEXT], uint64_t told[1]);

uint64_t jangsebit_header(const uint8_t *packet, size_t packet_len, uint64_t told[5]);

uint64_t jangsebit_write_header(
    uint16_t size,
    uint32_t seq,
    uint8_t flag,
    uint8_t messages,
    uint32_t milli,
    uint8_t *buf,
    size_t buf_len);

uint64_t jangsebit_judge(const uint8_t *packet, size_t packet_len, uint64_t told[1]);

uint64_t jangsebit_walk(
    const uint8_t *packet,
    size_t packet_len,
    uint64_t *places,
    size_t places_len,
    uint64_t told[2]);

uint64_t jangsebit_message(const uint8_t *bytes, size_t bytes_len, uint64_t told[JANGSEBIT_FIELDS]);

uint64_t jangsebit_write_message(
    const uint64_t numbers[JANGSEBIT_FIELDS],
    uint8_t *buf,
    size_t buf_len,
    size_t at,
    uint64_t told[1]);

#ifdef __cplusplus
}
#endif

/* ---- What the functions below are lent and answer. ---- */

/* Of one packet of a burst: how many messages were applied, the refusal, and next and end behind it. */
struct jsb_answer {
    uint64_t applied;
    uint64_t refusal;
    uint64_t next;
    uint64_t end;
};

/* Of one packet of a burst that keeps: how many of its numbers wait that did not before, the refusal, and next and end
 * behind it. */
struct jsb_kept {
    uint64_t fresh;
    uint64_t refusal;
    uint64_t next;
    uint64_t end;
};

/* How many packets of a burst were taken, or kept, and how many bytes they are with their lengths. */
struct jsb_taken {
    size_t packets;
    size_t bytes;
};

/* `next` is the lowest number that is not applied, `end` is behind the largest that is known of; `code` is that of
 * the last Trading Session, 0 before the first. Of `faults` messages that faulted since the opening, the first had the
 * number `fault` and the reason `reason` (an enum jangsebit_fault); all three are 0 where none did. */
struct jsb_numbers {
    uint64_t next;
    uint64_t end;
    uint64_t live;
    uint64_t held;
    uint64_t code;
    uint64_t fault;
    uint64_t faults;
    uint64_t reason;
};

/* A question for a best price: a symbol, filled up with spaces, and a side. */
struct jsb_question {
    uint8_t symbol[JANGSEBIT_TEXT];
    uint8_t side;
};

/* The best price of a symbol and side, the sum of shares there and the number of orders; all 0 with a refusal. */
struct jsb_quote {
    uint64_t refusal;
    uint64_t price;
    uint64_t shares;
    uint64_t orders;
};

/* What the last Top of Book of a symbol said; a price may be 0 here. */
struct jsb_inside {
    uint64_t ask;
    uint64_t bid;
    uint64_t time;
    uint64_t ask_volume;
    uint64_t bid_volume;
    uint64_t unsolicited;
};

/* A run of missing numbers; none where the count is 0. */
struct jsb_gap {
    uint64_t start;
    uint64_t count;
};

/* A packet's header; bit 0 of the flag says heartbeat. */
struct jsb_header {
    uint16_t size;
    uint32_t number;
    uint8_t flag;
    uint8_t messages;
    uint32_t milli;
};

/* Where a message starts in its packet, and how many bytes it has. */
struct jsb_place {
    uint64_t start;
    uint64_t size;
};

/* The library reads and writes by these places and sizes. */
static_assert(sizeof(size_t) == 8, "a length has 8 bytes");
static_assert(sizeof(struct jangsebit_order) == 40, "an order has 40 bytes");
static_assert(alignof(struct jangsebit_order) == 8, "an order lies at a multiple of 8");
static_assert(offsetof(struct jangsebit_order, id) == 0, "id");
static_assert(offsetof(struct jangsebit_order, price) == 8, "price");
static_assert(offsetof(struct jangsebit_order, shares) == 16, "shares");
static_assert(offsetof(struct jangsebit_order, firm) == 20, "firm");
static_assert(offsetof(struct jangsebit_order, symbol) == 24, "symbol");
static_assert(offsetof(struct jangsebit_order, side) == 38, "side");
static_assert(offsetof(struct jangsebit_order, unsolicited) == 39, "unsolicited");
static_assert(sizeof(struct jangsebit) == 61472, "a session has 61,472 bytes");
static_assert(alignof(struct jangsebit) == 8, "a session lies at a multiple of 8");
static_assert(offsetof(struct jangsebit, orders) == 0, "orders");
static_assert(offsetof(struct jangsebit, room) == 10240, "room");
static_assert(offsetof(struct jangsebit, window) == 28704, "window");
static_assert(sizeof(struct jsb_answer) == 4 * sizeof(uint64_t), "an answer is four numbers");
static_assert(sizeof(struct jsb_kept) == 4 * sizeof(uint64_t), "an answer of a burst that keeps is four numbers");
static_assert(sizeof(struct jsb_numbers) == 8 * sizeof(uint64_t), "the numbers are eight");
static_assert(sizeof(struct jsb_question) == 15, "a question has 15 bytes");
static_assert(sizeof(struct jsb_quote) == 4 * sizeof(uint64_t), "a quote is four numbers");
static_assert(sizeof(struct jsb_inside) == 6 * sizeof(uint64_t), "an inside is six numbers");
static_assert(sizeof(struct jsb_gap) == 2 * sizeof(uint64_t), "a gap is two numbers");
static_assert(sizeof(struct jsb_place) == 2 * sizeof(uint64_t), "a place is two numbers");

/* ---- The functions for a host. ---- */

/* Opens a session at a number: next and end are that number, both tables are empty, nothing waits; messages of unlisted
 * types are counted apart. Takes any number and refuses nothing. Leaves nothing of what stood in the struct, which need
 * not have been filled. */
static inline void jsb_open(struct jangsebit *held, uint32_t number)
{
    jangsebit_open(held->orders, held->room, held->window, number);
}

/* The same under the strict rule: messages of unlisted types are faults. */
static inline void jsb_open_strict(struct jangsebit *held, uint32_t number)
{
    jangsebit_open_strict(held->orders, held->room, held->window, number);
}

/* Takes one packet: keeps it and, unless that is refused, applies all that waits from next on. Answers 0, and into
 * `applied` how many messages those were, its own and such as waited. Refuses with 1 to 10, the first that applies; then
 * `applied` is 0 and the session is left as it was. */
static inline enum jangsebit_refusal jsb_take(
    struct jangsebit *held, const uint8_t *packet, size_t size, uint64_t *applied)
{
    uint64_t told[3] = {0, 0, 0};
    uint64_t answer[4] = {0, 0, 0, 0};
    *applied = 0;
    /* A packet that does not carry next, while nothing waits there, touches no table: the tables are not moved. */
    jangsebit_pass(held->room, held->window, packet, size, told);
    if (told[0] != JANGSEBIT_APPLIES) {
        return (enum jangsebit_refusal)told[1];
    }
    jangsebit_packets(held->orders, held->room, held->window, packet, size, 1, 1, answer, 4, told);
    *applied = answer[0];
    return (enum jangsebit_refusal)answer[1];
}

/* Takes the first `count` packets of the bytes, or all if there are fewer, each behind its length of 2 bytes, high byte
 * first. Answers how many those were and where the bytes behind them begin, so that a host goes on from there, and for
 * each packet, into as many answers as `count` says, what a call for it alone would give, refusals among them. As a whole
 * it refuses nothing. Answers behind the last packet's are left as they were, and bytes that are no whole packet. */
static inline struct jsb_taken jsb_burst(
    struct jangsebit *held, const uint8_t *packets, size_t size, struct jsb_answer *answers, size_t count)
{
    uint64_t told[3] = {0, 0, 0};
    struct jsb_taken taken;
    jangsebit_packets(
        held->orders, held->room, held->window, packets, size, 0, count, (uint64_t *)(void *)answers, 4 * count, told);
    taken.packets = (size_t)told[1];
    taken.bytes = (size_t)told[2];
    return taken;
}

/* Judges one packet and keeps its messages waiting; nothing is applied. Answers 0, and into `fresh` how many of its
 * numbers wait that did not before. Refuses with 1 to 10, the first that applies; then `fresh` is 0 and the session is
 * left as it was. */
static inline enum jangsebit_refusal jsb_keep(
    struct jangsebit *held, const uint8_t *packet, size_t size, uint64_t *fresh)
{
    uint64_t told[1] = {0};
    uint64_t refusal = jangsebit_keep(held->room, held->window, packet, size, told);
    *fresh = told[0];
    return (enum jangsebit_refusal)refusal;
}

/* Keeps the first `count` packets of the bytes, which are as for `jsb_burst`, and applies nothing. Answers how many those
 * were and where the bytes behind them begin, and for each packet what `jsb_keep` for it alone would give, refusals among
 * them. As a whole it refuses nothing. Answers behind the last packet's are left as they were. */
static inline struct jsb_taken jsb_keep_burst(
    struct jangsebit *held, const uint8_t *packets, size_t size, struct jsb_kept *answers, size_t count)
{
    uint64_t told[3] = {0, 0, 0};
    struct jsb_taken taken;
    jangsebit_keep_packets(
        held->room, held->window, packets, size, count, (uint64_t *)(void *)answers, 4 * count, told);
    taken.packets = (size_t)told[1];
    taken.bytes = (size_t)told[2];
    return taken;
}

/* Applies what waits from next on, in order, `count` messages at most, and answers how many; UINT64_MAX applies all that
 * can be. Refuses nothing; where the answer is 0 the session is left as it was. */
static inline uint64_t jsb_apply(struct jangsebit *held, uint64_t count)
{
    return jangsebit_apply(held->orders, held->room, held->window, count);
}

/* Answers the lowest number from the opening on that no accepted packet has carried: applying all brings next there.
 * Refuses nothing; the session is left as it was, as by all that follow. */
static inline uint64_t jsb_lowest(const struct jangsebit *held)
{
    return jangsebit_lowest(held->room, held->window);
}

/* Answers the numbers of a session. Refuses nothing. */
static inline struct jsb_numbers jsb_numbers(const struct jangsebit *held)
{
    uint64_t told[8] = {0, 0, 0, 0, 0, 0, 0, 0};
    struct jsb_numbers numbers;
    jangsebit_numbers(held->room, told);
    numbers.next = told[0];
    numbers.end = told[1];
    numbers.live = told[2];
    numbers.held = told[3];
    numbers.code = told[4];
    numbers.fault = told[5];
    numbers.faults = told[6];
    numbers.reason = told[7];
    return numbers;
}

/* Answers 1 where the book is doubtful, since a message faulted after the opening, else 0. Refuses nothing. */
static inline int jsb_doubtful(const struct jangsebit *held)
{
    return jsb_numbers(held).faults != 0;
}

/* Answers the rule for unlisted types, which stays until the next opening. Refuses nothing. */
static inline enum jangsebit_rule jsb_rule(const struct jangsebit *held)
{
    return (enum jangsebit_rule)jangsebit_rule(held->room);
}

/* Answers how many messages of unlisted types were applied since the opening and are no faults; 0 under the strict rule.
 * Refuses nothing. */
static inline uint64_t jsb_unlisted(const struct jangsebit *held)
{
    return jangsebit_unlisted(held->room);
}

/* Answers the live order of an id, of which the first 12 characters count. Refuses with 12 where the id breaks its rule,
 * with 13 where no such order is live; then `order` is left as it was. */
static inline enum jangsebit_refusal jsb_order(
    const struct jangsebit *held, const uint8_t id[JANGSEBIT_TEXT], struct jangsebit_order *order)
{
    uint64_t told[8] = {0, 0, 0, 0, 0, 0, 0, 0};
    uint64_t refusal = jangsebit_order(held->orders, held->room, id, told);
    int k;
    if (refusal != 0) {
        return (enum jangsebit_refusal)refusal;
    }
    order->id = told[0];
    order->price = told[1];
    order->shares = (uint32_t)told[2];
    for (k = 0; k < 4; k++) {
        order->firm[k] = (uint8_t)(told[3] >> (24 - 8 * k));
    }
    /* The symbol comes as its first 8 bytes and its last 8, which share two. */
    for (k = 0; k < 8; k++) {
        order->symbol[k] = (uint8_t)(told[4] >> (56 - 8 * k));
        order->symbol[6 + k] = (uint8_t)(told[5] >> (56 - 8 * k));
    }
    order->side = (uint8_t)told[6];
    order->unsolicited = (uint8_t)told[7];
    return JANGSEBIT_DONE;
}

/* Answers many questions in one call, a quote for each; a question that is refused (12: bad symbol or side, 13: no such
 * order is live) has its refusal in its quote. Refuses with 11 exactly if there are fewer quotes than questions; then
 * the quotes are left as they were. Quotes behind the last question's are left in any case. */
static inline enum jangsebit_refusal jsb_quotes(
    const struct jangsebit *held,
    const struct jsb_question *questions,
    size_t count,
    struct jsb_quote *quotes,
    size_t room)
{
    return (enum jangsebit_refusal)jangsebit_quotes(
        held->orders,
        held->room,
        (const uint8_t *)(const void *)questions,
        sizeof(struct jsb_question) * count,
        (uint64_t *)(void *)quotes,
        4 * room);
}

/* Answers the best price of a symbol and a side. Refuses with 12 where one of them is bad, with 13 exactly if no such
 * order is live; then `quote` holds the refusal, and zeros. */
static inline enum jangsebit_refusal jsb_best(
    const struct jangsebit *held,
    const uint8_t symbol[JANGSEBIT_TEXT],
    enum jangsebit_side side,
    struct jsb_quote *quote)
{
    struct jsb_question question;
    int k;
    for (k = 0; k < JANGSEBIT_TEXT; k++) {
        question.symbol[k] = symbol[k];
    }
    question.side = (uint8_t)side;
    jsb_quotes(held, &question, 1, quote, 1);
    return (enum jangsebit_refusal)quote->refusal;
}

/* Answers the inside of a symbol. Refuses with 12 where the symbol breaks its rule, with 13 where no inside of it is
 * held; then `inside` is left as it was. */
static inline enum jangsebit_refusal jsb_inside(
    const struct jangsebit *held, const uint8_t symbol[JANGSEBIT_TEXT], struct jsb_inside *inside)
{
    uint64_t told[6] = {0, 0, 0, 0, 0, 0};
    uint64_t refusal = jangsebit_inside(held->room, symbol, told);
    if (refusal != 0) {
        return (enum jangsebit_refusal)refusal;
    }
    inside->ask = told[0];
    inside->bid = told[1];
    inside->time = told[2];
    inside->ask_volume = told[3];
    inside->bid_volume = told[4];
    inside->unsolicited = told[5];
    return JANGSEBIT_DONE;
}

/* Writes a request of 12 bytes for each run of missing numbers, ascending, and answers into `count` how many. Refuses
 * with 11 exactly if not all of them fit (JANGSEBIT_REQUESTS bytes are always enough); then `count` is 0 and the buffer
 * is left as it was. Bytes behind the last request are left in any case. */
static inline enum jangsebit_refusal jsb_requests(
    const struct jangsebit *held, uint8_t *buffer, size_t size, size_t *count)
{
    uint64_t told[1] = {0};
    uint64_t refusal = jangsebit_requests(held->room, held->window, buffer, size, told);
    *count = (size_t)told[0];
    return (enum jangsebit_refusal)refusal;
}

/* Answers the first run of missing numbers at or behind a number; its count is 0 where there is none. Refuses nothing.
 * To go through all, begin with 0 and go on from start + count. */
static inline struct jsb_gap jsb_gap(const struct jangsebit *held, uint64_t from)
{
    uint64_t told[2] = {0, 0};
    struct jsb_gap gap;
    jangsebit_gap(held->room, held->window, from, told);
    gap.start = told[0];
    gap.count = told[1];
    return gap;
}

/* ---- Without a session. ---- */

/* Answers 1 where the library that is linked has the sizes, the alignments and the limits of this header, else 0. */
static inline int jsb_sizes_agree(void)
{
    static const uint64_t here[12] = {
        sizeof(struct jangsebit_order) * JANGSEBIT_ORDERS,
        alignof(struct jangsebit_order),
        sizeof(uint64_t) * JANGSEBIT_ROOM,
        alignof(uint64_t),
        JANGSEBIT_WINDOW,
        alignof(uint8_t),
        JANGSEBIT_ORDERS,
        JANGSEBIT_INSIDES,
        JANGSEBIT_NUMBERS,
        JANGSEBIT_SHORTEST,
        JANGSEBIT_LONGEST,
        JANGSEBIT_MESSAGE,
    };
    uint64_t told[12] = {0, 0, 0, 0, 0, 0, 0, 0, 0, 0, 0, 0};
    int k;
    jangsebit_sizes(told);
    for (k = 0; k < 12; k++) {
        if (told[k] != here[k]) {
            return 0;
        }
    }
    return 1;
}

/* Answers the value of an order id, its first 12 characters in base 36. Refuses with 12 where one of them is none of 0-9
 * and A-Z; then `value` is left as it was. */
static inline enum jangsebit_refusal jsb_value(const uint8_t id[JANGSEBIT_TEXT], uint64_t *value)
{
    return (enum jangsebit_refusal)jangsebit_value(id, value);
}

/* Answers the header of a packet, of which all bytes are lent. Refuses with 1 to 6; then `header` is left as it was. */
static inline enum jangsebit_refusal jsb_header(const uint8_t *packet, size_t size, struct jsb_header *header)
{
    uint64_t told[5] = {0, 0, 0, 0, 0};
    uint64_t refusal = jangsebit_header(packet, size, told);
    if (refusal == 0) {
        header->size = (uint16_t)told[0];
        header->number = (uint32_t)told[1];
        header->flag = (uint8_t)told[2];
        header->messages = (uint8_t)told[3];
        header->milli = (uint32_t)told[4];
    }
    return (enum jangsebit_refusal)refusal;
}

/* Writes a header into the first 12 bytes of a buffer. Refuses with 14 a header that no packet has, then with 11 where it
 * does not fit; then the buffer is left as it was. */
static inline enum jangsebit_refusal jsb_write_header(const struct jsb_header *header, uint8_t *buffer, size_t size)
{
    return (enum jangsebit_refusal)jangsebit_write_header(
        header->size, header->number, header->flag, header->messages, header->milli, buffer, size);
}

/* Judges a packet by all that needs no session. Refuses with 1 to 8, the first that applies, and answers the offset in
 * the packet that this rests on, 0 where nothing is refused. */
static inline enum jangsebit_refusal jsb_judge(const uint8_t *packet, size_t size, size_t *offset)
{
    uint64_t told[1] = {0};
    uint64_t refusal = jangsebit_judge(packet, size, told);
    *offset = (size_t)told[0];
    return (enum jangsebit_refusal)refusal;
}

/* Walks a packet: answers where each of its messages lies, into as many places as `room` says, and how many there are.
 * Refuses with 1 to 7, and answers the offset that this rests on and a count of 0; with 11 where there are fewer places than
 * messages (JANGSEBIT_MESSAGES are always enough). Then the places are left as they were. */
static inline enum jangsebit_refusal jsb_walk(
    const uint8_t *packet, size_t size, struct jsb_place *places, size_t room, size_t *count, size_t *offset)
{
    uint64_t told[2] = {0, 0};
    uint64_t refusal = jangsebit_walk(packet, size, (uint64_t *)(void *)places, 2 * room, told);
    *offset = (size_t)told[0];
    *count = (size_t)told[1];
    return (enum jangsebit_refusal)refusal;
}

/* Answers the message that the bytes are, in numbers: its type, then its fields in the order of its layout, each one
 * number but the texts of 14 bytes, which are three (`jsb_text`); of type 28 and of unlisted types the type alone.
 * Refuses with 7, then 14; then the numbers are left as they were, as are those behind the last field in any case. */
static inline enum jangsebit_refusal jsb_message(
    const uint8_t *bytes, size_t size, uint64_t numbers[JANGSEBIT_FIELDS])
{
    return (enum jangsebit_refusal)jangsebit_message(bytes, size, numbers);
}

/* Writes the message of such numbers at a place of a buffer, its exact size, and answers how many bytes that took. Refuses
 * with 14 a type that is not written, a field that breaks its rule and a number that does not fit in its field, then with
 * 11 where the message does not fit; then `count` is 0 and the buffer is left as it was. */
static inline enum jangsebit_refusal jsb_write_message(
    const uint64_t numbers[JANGSEBIT_FIELDS], uint8_t *buffer, size_t size, size_t at, size_t *count)
{
    uint64_t told[1] = {0};
    uint64_t refusal = jangsebit_write_message(numbers, buffer, size, at, told);
    *count = (size_t)told[0];
    return (enum jangsebit_refusal)refusal;
}

/* The text of 14 bytes that three of a message's numbers are: its first eight bytes, the next four and the last two. */
static inline void jsb_text(const uint64_t numbers[3], uint8_t text[JANGSEBIT_TEXT])
{
    int k;
    for (k = 0; k < 8; k++) {
        text[k] = (uint8_t)(numbers[0] >> (56 - 8 * k));
    }
    for (k = 0; k < 4; k++) {
        text[8 + k] = (uint8_t)(numbers[1] >> (24 - 8 * k));
    }
    text[12] = (uint8_t)(numbers[2] >> 8);
    text[13] = (uint8_t)numbers[2];
}

/* The same the other way. */
static inline void jsb_put_text(const uint8_t text[JANGSEBIT_TEXT], uint64_t numbers[3])
{
    static const int ends[3] = {8, 12, 14};
    int k = 0, part;
    for (part = 0; part < 3; part++) {
        numbers[part] = 0;
        for (; k < ends[part]; k++) {
            numbers[part] = numbers[part] << 8 | text[k];
        }
    }
}

/* Answers a refusal in words; of a number that is none, that it is none. */
static inline const char *jsb_refusal_words(uint64_t refusal)
{
    static const char *const words[] = {
        "done",
        "packet shorter than its header",
        "packet longer than any may be",
        "stated size is not the length handed in",
        "a reserved flag bit is set",
        "heartbeat with messages or of another size",
        "no messages, and no heartbeat",
        "a message of bad size, or bytes left over",
        "numbers run past 32 bits",
        "too far ahead of the window",
        "differs from the copy that waits",
        "what was lent is too short",
        "bad id, symbol or side",
        "nothing there by that name",
        "a field breaks its rule",
    };
    return refusal < sizeof words / sizeof words[0] ? words[refusal] : "no refusal has this number";
}

/* Answers a fault's reason in words; of a number that is none, that it is none. */
static inline const char *jsb_fault_words(uint64_t reason)
{
    static const char *const words[] = {
        "no fault",
        "unlisted type",
        "a field breaks its rule",
        "the order is live already",
        "no room for another order",
        "no such order is live",
        "more executed than the order has",
        "stated remaining is wrong",
        "no room for another inside",
    };
    return reason < sizeof words / sizeof words[0] ? words[reason] : "no fault has this number";
}

#endif
