/*
 * The worked example of the C boundary: a fresh table in a lent buffer, the image in it, the paper's message answered by
 * that box, stamps searched among several rows, the merge of its table and another box's fresh one, the count of three
 * boxes' replies as bytes and as records, and refusals of each call.
 * It prints what the calls answered; whoever runs it compares that with the paper.
 */
#include "sprondilu.h"

#include <inttypes.h>
#include <stdio.h>
#include <string.h>

/* What others link against is fixed to the type. */
_Static_assert(_Generic(&sprondilu_fresh, uint8_t (*)(uint8_t *, size_t, uint8_t, uint8_t): 1, default: 0),
               "sprondilu_fresh has another type");
_Static_assert(_Generic(&sprondilu_valid, uint64_t (*)(const uint8_t *, size_t): 1, default: 0),
               "sprondilu_valid has another type");
_Static_assert(_Generic(&sprondilu_answer,
                        uint8_t (*)(uint8_t *, size_t, const uint8_t *, size_t, uint8_t *, size_t): 1, default: 0),
               "sprondilu_answer has another type");
_Static_assert(_Generic(&sprondilu_answer_compared,
                        uint64_t (*)(uint8_t *, size_t, const uint8_t *, size_t, uint8_t *, size_t): 1, default: 0),
               "sprondilu_answer_compared has another type");
_Static_assert(_Generic(&sprondilu_merge, uint8_t (*)(const uint8_t *, size_t, uint32_t, uint8_t *, size_t): 1,
                        default: 0),
               "sprondilu_merge has another type");
_Static_assert(_Generic(&sprondilu_count, uint64_t (*)(uint8_t, const uint8_t *, size_t): 1, default: 0),
               "sprondilu_count has another type");
_Static_assert(_Generic(&sprondilu_count_records, uint64_t (*)(uint8_t, const sprondilu_record *, size_t): 1,
                        default: 0),
               "sprondilu_count_records has another type");

/* What stands in the buffer before a call, so that every byte written is seen. */
#define DIRT 0xee

static uint8_t table[SPRONDILU_TABLE_BYTES];
static uint8_t reply[SPRONDILU_REPLY_BYTES + 1];
/* The same once more, for the call that also says what was compared. */
static uint8_t table_beside[SPRONDILU_TABLE_BYTES];
static uint8_t reply_beside[SPRONDILU_REPLY_BYTES + 1];
static uint8_t run[200];
static size_t run_length = 0;
static uint8_t replies[3 * SPRONDILU_COUNTED_BYTES];
/* The same replies, and more than any group has. */
static sprondilu_record records[8];

/* The paper's message 1: stamp 65,537 and one write, register 5, value 7. A byte follows it that is no part of it. */
static uint8_t message[21] = {1, 0, 0, 0, 0, 0, 1, 0, 1, 0, 1, 5, 0, 0, 0, 0, 0, 0, 0, 7, 0};

/* The places in it of the last byte of the stamp's time, and of the last byte of the value. */
#define TIME 6
#define VALUE 19

/* How many bytes of the buffer, from its start, a call may have changed: all behind them are as they were. */
static size_t bytes_changed(void)
{
    size_t length = sizeof table;
    while (length > 0 && table[length - 1] == DIRT) {
        length--;
    }
    return length;
}

static void fresh(const char *what, uint8_t *buffer, size_t length, uint8_t n, uint8_t box)
{
    memset(table, DIRT, sizeof table);
    unsigned int number = sprondilu_fresh(buffer, length, n, box);
    printf("fresh, %s: number %u, %zu bytes changed\n", what, number, bytes_changed());
}

static void valid(const char *what, const uint8_t *bytes, size_t length)
{
    uint64_t answer = sprondilu_valid(bytes, length);
    if (SPRONDILU_NUMBER_OF(answer) == SPRONDILU_DONE) {
        size_t image = SPRONDILU_LENGTH_OF(answer);
        printf("valid, %s: an image of %zu bytes\n", what, image);
    } else {
        printf("valid, %s: number %" PRIu64 ", answer %" PRIu64 "\n", what, SPRONDILU_NUMBER_OF(answer), answer);
    }
}

static void print_bytes(const uint8_t *bytes, size_t length)
{
    for (size_t place = 0; place < length; place++) {
        printf("%02x%s", (unsigned int)bytes[place], place + 1 < length ? " " : "\n");
    }
}

/* Both calls answer, each in buffers of its own: what they leave there has to be the same, and so has the number. */
static uint64_t answer_both(size_t table_len, const uint8_t *asked, size_t asked_len, size_t reply_len)
{
    memcpy(table_beside, table, sizeof table);
    memset(reply, DIRT, sizeof reply);
    memset(reply_beside, DIRT, sizeof reply_beside);
    uint8_t number = sprondilu_answer(table, table_len, asked, asked_len, reply, reply_len);
    uint64_t answered =
        sprondilu_answer_compared(table_beside, table_len, asked, asked_len, reply_beside, reply_len);
    if (SPRONDILU_NUMBER_OF(answered) != number || memcmp(table_beside, table, sizeof table) != 0 ||
        memcmp(reply_beside, reply, sizeof reply) != 0) {
        printf("the two calls answer otherwise\n");
    }
    return answered;
}

/* The reply buffer is printed whole: a byte more than a reply has, so that it is seen to stay. */
static void answer(const char *what, size_t table_len, size_t message_len, size_t reply_len)
{
    uint64_t answered = answer_both(table_len, message, message_len, reply_len);
    printf("answer, %s: number %" PRIu64 ", %" PRIu64 " compared, answer %" PRIx64 ", reply\n", what,
           SPRONDILU_NUMBER_OF(answered), SPRONDILU_COMPARED_OF(answered), answered);
    print_bytes(reply, sizeof reply);
}

/* The paper's message, to its length and otherwise, in buffers that are long enough and in others. */
static void answer_all(void)
{
    answer("a table buffer too short", sizeof table - 1, 20, sizeof reply);
    answer("a reply buffer too short", sizeof table, 20, SPRONDILU_REPLY_BYTES - 1);
    answer("no message", sizeof table, 0, sizeof reply);
    answer("a byte too many", sizeof table, 21, sizeof reply);
    valid("after refusals", table, sizeof table);
    answer("the message of the paper", sizeof table, 20, sizeof reply);
    valid("with the row of the paper", table, sizeof table);
    print_bytes(table, bytes_changed());
    table[39] = 1;
    valid("with a retry stamp for OK", table, sizeof table);
    answer("with a retry stamp for OK", sizeof table, 20, SPRONDILU_REPLY_BYTES);
}

/* Five stamps, one after the other, and then the first of them again, with its own body and with another. */
static void answer_searched(void)
{
    fresh("box 0 of 3", table, sizeof table, 3, 0);
    for (uint8_t time = 1; time <= 5; time++) {
        message[TIME] = time;
        answer("one stamp more", sizeof table, 20, sizeof reply);
    }
    message[TIME] = 1;
    answer("the first of five", sizeof table, 20, sizeof reply);
    message[VALUE] = 8;
    answer("the first of five with another body", sizeof table, 20, sizeof reply);
    message[VALUE] = 7;
}

/* The box in the buffer promises view 7, and its image is laid behind the others of the run. No stamp is searched. */
static void promise(void)
{
    static const uint8_t change_view[5] = {5, 0, 0, 0, 7};
    uint64_t answered = answer_both(sizeof table, change_view, sizeof change_view, sizeof reply);
    size_t length = SPRONDILU_LENGTH_OF(sprondilu_valid(table, sizeof table));
    memcpy(run + run_length, table, length);
    run_length += length;
    printf("answer, a view promised: answer %" PRIx64 ", a run of %zu bytes\n", answered, run_length);
}

/* The output is printed as far as it has changed. */
static void merge(const char *what, size_t length, uint32_t view, size_t out_len)
{
    memset(table, DIRT, sizeof table);
    unsigned int number = sprondilu_merge(run, length, view, table, out_len);
    printf("merge, %s: number %u, %zu bytes changed\n", what, number, bytes_changed());
}

/* Box 2 fresh, and box 0 with the row of the paper, which one table of two holds: it is open, and its check is OK. */
static void merge_all(void)
{
    fresh("box 0 of 3", table, sizeof table, 3, 0);
    answer("the message of the paper", sizeof table, 20, sizeof reply);
    promise();
    fresh("box 2 of 3", table, sizeof table, 3, 2);
    promise();
    merge("an output too short", run_length, 7, sizeof table - 1);
    merge("no run", 0, 7, sizeof table);
    merge("a byte too few", run_length - 1, 7, sizeof table);
    merge("one table", 57, 7, sizeof table);
    merge("another view", run_length, 8, sizeof table);
    merge("two tables", run_length, 7, sizeof table);
    print_bytes(table, bytes_changed());
}

/* A number whose first byte counts most. */
static uint64_t number_in(const uint8_t *bytes, size_t length)
{
    uint64_t number = 0;
    for (size_t place = 0; place < length; place++) {
        number = number << 8 | bytes[place];
    }
    return number;
}

/* What a reply to message 1 or 2 says, as it is counted. */
static void lay_reply(uint8_t *counted)
{
    uint8_t is_final = reply[3] > SPRONDILU_RETRY;
    counted[0] = reply[2];
    memcpy(counted + 1, reply + 4, 4);
    counted[5] = is_final ? (uint8_t)(reply[3] - SPRONDILU_RETRY) : reply[3];
    memcpy(counted + 6, reply + 16, 8);
    counted[14] = is_final;
}

/* The same as a record, whatever its padding holds. */
static void fill_record(sprondilu_record *record)
{
    record->box = reply[2];
    record->view = (uint32_t)number_in(reply + 4, 4);
    record->is_final = reply[3] > SPRONDILU_RETRY;
    record->result = record->is_final ? (uint8_t)(reply[3] - SPRONDILU_RETRY) : reply[3];
    record->retry = number_in(reply + 16, 8);
}

/* The answer to records, of which no byte may change, padding or not. */
static uint64_t count_records(uint8_t n, const sprondilu_record *lent, size_t length)
{
    static sprondilu_record before[sizeof records / sizeof records[0]];
    memcpy(before, records, sizeof records);
    uint64_t counted = sprondilu_count_records(n, lent, length);
    if (memcmp(before, records, sizeof records) != 0) {
        printf("the records changed\n");
    }
    return counted;
}

/* The number is looked at first, then the kind, and only then the result. Whole replies are counted as records too. */
static void count(const char *what, uint8_t n, const uint8_t *bytes, size_t length)
{
    uint64_t counted = sprondilu_count(n, bytes, length);
    printf("count, %s: ", what);
    if (SPRONDILU_NUMBER_OF(counted) != SPRONDILU_DONE) {
        printf("number %" PRIu64 ", answer %" PRIx64, SPRONDILU_NUMBER_OF(counted), counted);
    } else if (SPRONDILU_KIND_OF(counted) == SPRONDILU_WAIT) {
        printf("wait, answer %" PRIx64, counted);
    } else {
        const char *kind = SPRONDILU_KIND_OF(counted) == SPRONDILU_FAST ? "fast" : "slow";
        printf("%s with %" PRIu64 ", retry stamp %" PRIu64 ", answer %" PRIx64, kind, SPRONDILU_RESULT_OF(counted),
               SPRONDILU_RETRY_OF(counted), counted);
    }
    if (length % SPRONDILU_COUNTED_BYTES == 0) {
        const sprondilu_record *lent = bytes == NULL ? NULL : records;
        printf(", of records %" PRIx64, count_records(n, lent, length / SPRONDILU_COUNTED_BYTES));
    }
    printf("\n");
}

/* The message of the paper to three fresh boxes, and what their replies come to; then other results in their places. */
static void count_all(void)
{
    memset(records, DIRT, sizeof records);
    for (uint8_t box = 0; box < 3; box++) {
        fresh("a box of 3", table, sizeof table, 3, box);
        answer("the message of the paper", sizeof table, 20, sizeof reply);
        lay_reply(replies + box * SPRONDILU_COUNTED_BYTES);
        fill_record(records + box);
    }
    print_bytes(replies, sizeof replies);
    count("a null pointer", 3, NULL, 0);
    count("one reply", 3, replies, SPRONDILU_COUNTED_BYTES);
    count("two replies", 3, replies, 2 * SPRONDILU_COUNTED_BYTES);
    count("three replies", 3, replies, sizeof replies);
    count("n 4", 4, replies, sizeof replies);
    count("a byte too few", 3, replies, sizeof replies - 1);
    replies[5] = records[0].result = SPRONDILU_ABORT;
    count("one is ABORT", 3, replies, sizeof replies);
    replies[14] = records[0].is_final = 1;
    replies[2 * SPRONDILU_COUNTED_BYTES + 14] = records[2].is_final = 1;
    count("two unequal finals", 3, replies, sizeof replies);
    count("two unequal finals and n 6", 6, replies, sizeof replies);
    replies[5] = records[0].result = SPRONDILU_RETRY;
    replies[13] = 9;
    records[0].retry = 9;
    count("RETRY is final", 3, replies, 2 * SPRONDILU_COUNTED_BYTES);
}

/* The most replies that a group has, and one more. */
static void count_most(void)
{
    for (uint8_t box = 0; box < 8; box++) {
        records[box] = (sprondilu_record){.box = box, .view = 9, .result = SPRONDILU_OK};
    }
    printf("records, seven of 7: answer %" PRIx64 "\n", count_records(7, records, 7));
    printf("records, eight: answer %" PRIx64 "\n", count_records(7, records, 8));
}

int main(void)
{
    fresh("a null pointer", NULL, 0, 3, 0);
    fresh("a byte too short", table, sizeof table - 1, 3, 0);
    fresh("a byte too short and n 4", table, sizeof table - 1, 4, 0);
    fresh("n 4", table, sizeof table, 4, 0);
    fresh("box 3 of 3", table, sizeof table, 3, 3);
    valid("no image yet", table, sizeof table);
    valid("a null pointer", NULL, 0);
    fresh("box 0 of 3", table, sizeof table, 3, 0);
    print_bytes(table, bytes_changed());
    valid("the fresh table", table, sizeof table);
    valid("its image alone", table, 24);
    valid("a byte too short", table, 23);
    answer_all();
    answer_searched();
    merge_all();
    count_all();
    count_most();
    return 0;
}
