/*
 * Every call on stated cases: what it gives, every refusal and the order in
 * which refusals come. Every call goes through `ask`, which lends its memory
 * between guards and finds bytes that may not change. One line for each test;
 * the last line is 'N passed, M failed'.
 */
#include <inttypes.h>
#include <stdio.h>
#include <stdlib.h>
#include <string.h>

#include "draw.h"
#include "question.h"
#include "yazhmandu.h"

static bool good;

#define CHECK(holds)                                                           \
    do {                                                                       \
        if (!(holds)) {                                                        \
            printf("  line %d: %s\n", __LINE__, #holds);                       \
            good = false;                                                      \
        }                                                                      \
    } while (0)

/* ---- The calls on memory between guards ---- */

static struct question asked;

static void lend_bytes(int i, const void *bytes, size_t length)
{
    asked.lengths[i] = length;
    if (length > 0)
        memcpy(asked.bytes[i], bytes, length);
}

static void take_bytes(int i, void *bytes)
{
    if (asked.lengths[i] > 0)
        memcpy(bytes, asked.bytes[i], asked.lengths[i]);
}

/* Asks once for each way that the memory may lie; all give the same. */
static uint8_t answer_to(enum call call)
{
    static struct question first, again;
    uint8_t answer = 0;
    if (first.bytes[0] == NULL) {
        first = new_question();
        again = new_question();
    }
    asked.call = call;
    for (int turn = 0; turn < 64; turn++) {
        struct question *q = turn == 0 ? &first : &again;
        int memory;
        size_t place;
        copy_question(q, &asked);
        uint8_t given = ask(&library, q);
        if (turn == 0)
            answer = given;
        if (q->fault != NULL || given != answer ||
            !same_memory(q, &first, &memory, &place)) {
            printf("  ymd_%s: %s\n", shapes[call].name,
                   q->fault != NULL ? q->fault : "two answers");
            good = false;
        }
    }
    copy_question(&asked, &first);
    return answer;
}

static uint8_t ask_clock(uint32_t dock_tick, uint32_t scan_tick,
                         uint64_t dock_time, uint64_t *time)
{
    asked.numbers[0] = dock_tick;
    asked.numbers[1] = scan_tick;
    asked.numbers[2] = dock_time;
    lend_bytes(0, time, sizeof *time);
    uint8_t answer = answer_to(CLOCK);
    take_bytes(0, time);
    return answer;
}

static uint8_t ask_where_is(const uint8_t *table, size_t table_length,
                            const uint8_t *set, size_t set_length, uint64_t tag,
                            uint64_t found[YMD_FOUND_NUMBERS])
{
    asked.numbers[0] = tag;
    lend_bytes(0, table, table_length);
    lend_bytes(1, set, set_length);
    lend_bytes(2, found, YMD_FOUND_NUMBERS * sizeof *found);
    uint8_t answer = answer_to(WHERE_IS);
    take_bytes(2, found);
    return answer;
}

static uint8_t ask_answer_proposal(uint64_t scans, uint8_t *record,
                                   size_t length, const uint8_t *set,
                                   size_t set_length,
                                   uint8_t reply[YMD_REPLY_BYTES])
{
    asked.numbers[0] = scans;
    lend_bytes(0, record, length);
    lend_bytes(1, set, set_length);
    lend_bytes(2, reply, YMD_REPLY_BYTES);
    uint8_t answer = answer_to(ANSWER_PROPOSAL);
    take_bytes(0, record);
    take_bytes(2, reply);
    return answer;
}

/* The sizes of a run: P, A and S. */
struct sizes {
    uint64_t proposers, acceptors, scans;
};

/* An acknowledgement as a learner hears it. */
struct heard {
    uint64_t proposer, acceptor, number;
};

static uint8_t ask_hear(struct sizes z, uint8_t *record, size_t length,
                        struct heard h, const uint8_t *set, size_t set_length,
                        uint8_t *learns)
{
    const uint64_t numbers[] = {z.proposers, z.acceptors, z.scans,
                                h.proposer,  h.acceptor,  h.number};
    memcpy(asked.numbers, numbers, sizeof numbers);
    lend_bytes(0, record, length);
    lend_bytes(1, set, set_length);
    lend_bytes(2, learns, 1);
    uint8_t answer = answer_to(HEAR);
    take_bytes(0, record);
    take_bytes(2, learns);
    return answer;
}

/* A call on a proposer's record; an acceptor, a number and a set where it
   takes them. */
static uint8_t ask_proposer(enum call call, uint64_t acceptors, uint64_t scans,
                            uint8_t *record, size_t length, uint64_t acceptor,
                            uint64_t number, const uint8_t *set,
                            size_t set_length)
{
    asked.numbers[0] = acceptors;
    asked.numbers[1] = scans;
    asked.numbers[2] = acceptor;
    asked.numbers[3] = number;
    lend_bytes(0, record, length);
    lend_bytes(1, set, set_length);
    uint8_t answer = answer_to(call);
    take_bytes(0, record);
    return answer;
}

static uint8_t ask_check(enum call call, const uint8_t *bytes, size_t length)
{
    lend_bytes(0, bytes, length);
    return answer_to(call);
}

static uint8_t ask_run_text(uint8_t *text, size_t text_length,
                            const uint8_t *schedule, size_t schedule_length,
                            size_t *length)
{
    lend_bytes(0, text, text_length);
    lend_bytes(1, schedule, schedule_length);
    lend_bytes(2, length, sizeof *length);
    uint8_t answer = answer_to(RUN_TEXT);
    take_bytes(0, text);
    take_bytes(2, length);
    return answer;
}

/* ---- The clock rule ---- */

static bool clock_is(uint32_t dock_tick, uint32_t scan_tick, uint64_t dock_time,
                     uint8_t answer, uint64_t expected)
{
    uint64_t time = 77;
    uint8_t given = ask_clock(dock_tick, scan_tick, dock_time, &time);
    return given == answer && time == (answer == YMD_OK ? expected : 77);
}

static void clock_gives_times(void)
{
    CHECK(clock_is(5, 4294967290u, 1000, YMD_OK, 989));
    CHECK(clock_is(0, 0, 0, YMD_OK, 0));
    CHECK(clock_is(7, 7, YMD_MOST_TIME, YMD_OK, YMD_MOST_TIME));
    CHECK(clock_is(10, 4, 6, YMD_OK, 0));
    CHECK(clock_is(0, 1, UINT32_MAX, YMD_OK, 0));
    CHECK(clock_is(UINT32_MAX, 0, YMD_MOST_TIME, YMD_OK,
                   YMD_MOST_TIME - UINT32_MAX));
}

static void clock_refuses_9(void)
{
    CHECK(clock_is(5, 4294967290u, 10, YMD_BAD_TIME, 0));
    CHECK(clock_is(10, 4, 5, YMD_BAD_TIME, 0));
    CHECK(clock_is(0, 1, UINT32_MAX - UINT64_C(1), YMD_BAD_TIME, 0));
    CHECK(clock_is(0, 0, YMD_MOST_TIME + 1, YMD_BAD_TIME, 0));
    CHECK(clock_is(1, 0, YMD_MOST_TIME + 1, YMD_BAD_TIME, 0));
    CHECK(clock_is(0, 0, UINT64_MAX, YMD_BAD_TIME, 0));
}

/* ---- The shelf question ---- */

/* Five scans of tags 5 and 6; scans 1 and 3 saw tag 5 last, at the same
   time. */
static const uint8_t five_scans[] = {
    5, 5, 10, 1, 70, 5, 11, 1, 90, 6, 12, 1, 99, 5, 13, 1, 90, 5, 14, 1, 10,
};

static bool found_is(uint8_t mask, uint64_t tag, const uint64_t expected[4])
{
    const uint8_t set[YMD_SET_BYTES] = {mask};
    uint64_t found[YMD_FOUND_NUMBERS] = {7, 7, 7, 7};
    return ask_where_is(five_scans, sizeof five_scans, set, sizeof set, tag,
                        found) == YMD_OK &&
           memcmp(found, expected, sizeof found) == 0;
}

static void where_is_gives_the_newest(void)
{
    static const uint64_t none[4] = {0, 0, 0, 0};
    CHECK(found_is(0x1f, 5, (const uint64_t[]){1, 3, 13, 90}));
    CHECK(found_is(0x17, 5, (const uint64_t[]){1, 1, 11, 90}));
    CHECK(found_is(0x11, 5, (const uint64_t[]){1, 0, 10, 70}));
    CHECK(found_is(0x10, 5, (const uint64_t[]){1, 4, 14, 10}));
    CHECK(found_is(0x1f, 6, (const uint64_t[]){1, 2, 12, 99}));
    CHECK(found_is(0x1b, 6, none));
    CHECK(found_is(0x1f, 7, none));
    CHECK(found_is(0, 5, none));
    CHECK(found_is(0x1f, YMD_MOST_TAG, none));
}

static void where_is_gives_the_greatest_values(void)
{
    uint8_t table[YMD_MOST_TABLE_BYTES], set[YMD_SET_BYTES];
    uint64_t found[YMD_FOUND_NUMBERS] = {7, 7, 7, 7};
    size_t length = 0;
    write_number(table, &length, YMD_MOST_SCANS);
    for (int scan = 0; scan < YMD_MOST_SCANS; scan++) {
        write_number(table, &length, YMD_MOST_TAG);
        write_number(table, &length, YMD_MOST_SHELF);
        write_number(table, &length, YMD_MOST_DEVICE);
        write_number(table, &length, YMD_MOST_TIME);
    }
    memset(set, 0xff, sizeof set);
    CHECK(length == YMD_MOST_TABLE_BYTES);
    CHECK(ask_where_is(table, length, set, sizeof set, YMD_MOST_TAG, found) ==
          YMD_OK);
    CHECK(found[YMD_FOUND_SHOWN] == 1 && found[YMD_FOUND_SCAN] == 63);
    CHECK(found[YMD_FOUND_SHELF] == YMD_MOST_SHELF);
    CHECK(found[YMD_FOUND_TIME] == YMD_MOST_TIME);
}

static uint8_t shelf_refusal(const uint8_t *table, size_t table_length,
                             const uint8_t *set, size_t set_length,
                             uint64_t tag)
{
    uint64_t found[YMD_FOUND_NUMBERS] = {7, 7, 7, 7};
    uint8_t answer =
        ask_where_is(table, table_length, set, set_length, tag, found);
    for (int i = 0; i < YMD_FOUND_NUMBERS; i++)
        CHECK(found[i] == 7);
    return answer;
}

/* Tables that their reader refuses, with its refusal. */
static const struct {
    uint8_t bytes[12];
    size_t length;
    uint8_t refusal;
} bad_tables[] = {
    {{0}, 0, YMD_INPUT_ENDS},
    {{0x80}, 1, YMD_INPUT_ENDS},
    {{0x80, 0}, 2, YMD_BAD_NUMBER},
    {{0}, 1, YMD_OUTSIDE_RANGE},
    {{0, 0}, 2, YMD_OUTSIDE_RANGE},
    {{65}, 1, YMD_OUTSIDE_RANGE},
    {{64}, 1, YMD_INPUT_ENDS},
    {{1, 0x80, 0x80, 0x80, 0x80, 0x10}, 6, YMD_OUTSIDE_SIZES},
    {{1, 0, 0x80, 0x80, 4}, 5, YMD_OUTSIDE_SIZES},
    {{1, 0, 0, 0}, 4, YMD_BAD_DEVICE},
    {{1, 0, 0, 0x80, 2}, 5, YMD_BAD_DEVICE},
    {{1, 0, 0, 1, 0x80, 0x80, 0x80, 0x80, 0x80, 0x80, 0x40},
     11,
     YMD_BAD_NUMBER},
    {{1, 0, 0, 1, 0x80, 0x80, 0x80, 0x80, 0x80, 0x80, 0x80},
     11,
     YMD_BAD_NUMBER},
    {{1, 0, 0, 1, 0x80, 0x80, 0x80, 0x80, 0x80, 0x80}, 10, YMD_INPUT_ENDS},
    {{1, 0, 0, 1, 0x80, 0}, 6, YMD_BAD_NUMBER},
    {{1, 0, 0, 1}, 4, YMD_INPUT_ENDS},
    {{1, 0, 0, 1, 0, 0}, 6, YMD_BYTES_FOLLOW},
    {{2, 0, 0, 1, 0, 0, 0, 0}, 8, YMD_BAD_DEVICE},
};

static void where_is_reads_the_table_first(void)
{
    const uint8_t set[YMD_SET_BYTES] = {1}, outside[YMD_SET_BYTES] = {2};
    for (size_t i = 0; i < sizeof bad_tables / sizeof *bad_tables; i++) {
        const uint8_t *table = bad_tables[i].bytes;
        size_t length = bad_tables[i].length;
        uint8_t refusal = bad_tables[i].refusal;
        CHECK(shelf_refusal(table, length, set, 8, 0) == refusal);
        CHECK(shelf_refusal(table, length, set, 7, 0) == refusal);
        CHECK(shelf_refusal(table, length, outside, 8, 0) == refusal);
        CHECK(shelf_refusal(table, length, set, 8, UINT64_MAX) == refusal);
    }
}

static void where_is_refuses_3(void)
{
    static const uint8_t one_scan[] = {1, 0, 0, 1, 0};
    uint8_t set[16] = {0};
    CHECK(shelf_refusal(one_scan, 5, set, 8, YMD_MOST_TAG + 1) ==
          YMD_OUTSIDE_SIZES);
    CHECK(shelf_refusal(one_scan, 5, set, 8, UINT64_MAX) == YMD_OUTSIDE_SIZES);
    for (size_t length = 0; length <= 16; length++)
        if (length != 8)
            CHECK(shelf_refusal(one_scan, 5, set, length, 0) ==
                  YMD_OUTSIDE_SIZES);
    for (int scan = 1; scan < 64; scan++) {
        memset(set, 0, sizeof set);
        set[scan / 8] = (uint8_t)(1 << scan % 8);
        CHECK(shelf_refusal(one_scan, 5, set, 8, 0) == YMD_OUTSIDE_SIZES);
    }
}

/* ---- The acceptor's rule ---- */

static void acceptor_acknowledges_and_rejects(void)
{
    uint8_t record[YMD_ACCEPTOR_BYTES] = {1}, reply[YMD_REPLY_BYTES];
    const uint8_t first[YMD_SET_BYTES] = {1}, other[YMD_SET_BYTES] = {2};
    const uint8_t both[YMD_SET_BYTES] = {3};
    memset(reply, 7, sizeof reply);
    CHECK(ask_answer_proposal(2, record, 9, first, 8, reply) == YMD_OK);
    CHECK(memcmp(record, (uint8_t[9]){1, 1}, 9) == 0);
    CHECK(memcmp(reply, (uint8_t[9]){1, 1}, 9) == 0);
    CHECK(ask_answer_proposal(2, record, 9, first, 8, reply) == YMD_OK);
    CHECK(memcmp(record, (uint8_t[9]){1, 1}, 9) == 0);
    CHECK(memcmp(reply, (uint8_t[9]){1, 1}, 9) == 0);
    CHECK(ask_answer_proposal(2, record, 9, other, 8, reply) == YMD_OK);
    CHECK(memcmp(record, (uint8_t[9]){1, 3}, 9) == 0);
    CHECK(memcmp(reply, (uint8_t[9]){0, 3}, 9) == 0);
    CHECK(ask_answer_proposal(2, record, 9, other, 8, reply) == YMD_OK);
    CHECK(memcmp(reply, (uint8_t[9]){0, 3}, 9) == 0);
    CHECK(ask_answer_proposal(2, record, 9, both, 8, reply) == YMD_OK);
    CHECK(memcmp(record, (uint8_t[9]){1, 3}, 9) == 0);
    CHECK(memcmp(reply, (uint8_t[9]){1, 3}, 9) == 0);
}

static void acceptor_takes_scan_63(void)
{
    uint8_t record[YMD_ACCEPTOR_BYTES] = {1, 0xff}, reply[YMD_REPLY_BYTES];
    uint8_t set[YMD_SET_BYTES] = {0};
    set[7] = 0x80;
    CHECK(ask_answer_proposal(64, record, 9, set, 8, reply) == YMD_OK);
    CHECK(memcmp(record, (uint8_t[9]){1, 0xff, 0, 0, 0, 0, 0, 0, 0x80}, 9) ==
          0);
    CHECK(memcmp(reply, (uint8_t[9]){0, 0xff, 0, 0, 0, 0, 0, 0, 0x80}, 9) == 0);
}

static uint8_t acceptor_refusal(uint64_t scans, const uint8_t *kept,
                                size_t length, const uint8_t *set,
                                size_t set_length)
{
    uint8_t record[16] = {0}, reply[YMD_REPLY_BYTES];
    memcpy(record, kept, length);
    memset(reply, 7, sizeof reply);
    uint8_t answer =
        ask_answer_proposal(scans, record, length, set, set_length, reply);
    CHECK(memcmp(record, kept, length) == 0);
    for (int i = 0; i < YMD_REPLY_BYTES; i++)
        CHECK(reply[i] == 7);
    return answer;
}

static void acceptor_refuses_1_then_3_then_5(void)
{
    static const uint8_t crashed[16] = {0}, alive[16] = {1};
    static const uint8_t flag_2[9] = {2}, flag_255[9] = {255};
    static const uint8_t outside[9] = {1, 8}, crashed_outside[9] = {0, 8};
    static const uint8_t good_set[16] = {7}, bad_set[8] = {8};
    static const uint64_t sizes[] = {0, 65, 66, 255, 256, 259, 320, 65535};
    for (size_t i = 0; i < sizeof sizes / sizeof *sizes; i++) {
        CHECK(acceptor_refusal(sizes[i], alive, 9, good_set, 8) == 1);
        CHECK(acceptor_refusal(sizes[i], crashed, 9, bad_set, 8) == 1);
    }
    for (size_t length = 0; length <= 16; length++)
        if (length != 9) {
            CHECK(acceptor_refusal(3, alive, length, good_set, 8) == 1);
            CHECK(acceptor_refusal(3, crashed, length, bad_set, 7) == 1);
        }
    CHECK(acceptor_refusal(3, flag_2, 9, good_set, 8) == 1);
    CHECK(acceptor_refusal(3, flag_255, 9, bad_set, 8) == 1);
    CHECK(acceptor_refusal(3, outside, 9, good_set, 8) == 1);
    CHECK(acceptor_refusal(3, crashed_outside, 9, bad_set, 0) == 1);
    for (size_t length = 0; length <= 16; length++)
        if (length != 8) {
            CHECK(acceptor_refusal(3, alive, 9, good_set, length) == 3);
            CHECK(acceptor_refusal(3, crashed, 9, good_set, length) == 3);
        }
    CHECK(acceptor_refusal(3, alive, 9, bad_set, 8) == 3);
    CHECK(acceptor_refusal(3, crashed, 9, bad_set, 8) == 3);
    CHECK(acceptor_refusal(3, crashed, 9, good_set, 8) == 5);
}

/* ---- The learner's rule ---- */

static const struct sizes two_three = {2, 3, 3};

static void learner_counts_distinct_acceptors(void)
{
    uint8_t record[YMD_LEARNER_BYTES(2)] = {1}, learns = 7;
    const uint8_t set[YMD_SET_BYTES] = {5};
    const uint8_t *heard = record + YMD_LEARNER_HEARD(1);
    struct heard h = {1, 0, 4};
    CHECK(ask_hear(two_three, record, sizeof record, h, set, 8, &learns) == 0);
    CHECK(learns == 0 && record[YMD_LEARNER_LEARNT] == 0);
    CHECK(memcmp(heard, (uint8_t[11]){4, 0, 5, 0, 0, 0, 0, 0, 0, 0, 1}, 11) ==
          0);
    learns = 7;
    CHECK(ask_hear(two_three, record, sizeof record, h, set, 8, &learns) == 0);
    CHECK(learns == 0 && record[YMD_LEARNER_LEARNT] == 0);
    h.acceptor = 2;
    CHECK(ask_hear(two_three, record, sizeof record, h, set, 8, &learns) == 0);
    CHECK(learns == 1 && record[YMD_LEARNER_LEARNT] == 5);
    CHECK(memcmp(heard, (uint8_t[11]){4, 0, 5, 0, 0, 0, 0, 0, 0, 0, 5}, 11) ==
          0);
    h.acceptor = 1;
    CHECK(ask_hear(two_three, record, sizeof record, h, set, 8, &learns) == 0);
    CHECK(learns == 0 && record[YMD_LEARNER_LEARNT] == 5);
    CHECK(heard[YMD_HEARD_ACCEPTORS] == 7);
    for (size_t i = YMD_LEARNER_HEARD(0); i < YMD_LEARNER_HEARD(1); i++)
        CHECK(record[i] == 0);
}

static void learner_follows_one_number(void)
{
    uint8_t record[YMD_LEARNER_BYTES(2)] = {1}, learns = 7;
    const uint8_t set[YMD_SET_BYTES] = {1}, larger[YMD_SET_BYTES] = {3};
    const uint8_t *heard = record + YMD_LEARNER_HEARD(0);
    CHECK(ask_hear(two_three, record, sizeof record, (struct heard){0, 0, 3},
                   set, 8, &learns) == 0);
    CHECK(ask_hear(two_three, record, sizeof record, (struct heard){0, 1, 4},
                   larger, 8, &learns) == 0);
    CHECK(learns == 0);
    CHECK(memcmp(heard, (uint8_t[11]){4, 0, 3, 0, 0, 0, 0, 0, 0, 0, 2}, 11) ==
          0);
    CHECK(ask_hear(two_three, record, sizeof record, (struct heard){0, 2, 3},
                   set, 8, &learns) == 0);
    CHECK(learns == 0 && heard[YMD_HEARD_ACCEPTORS] == 2);
    /* the set that is held counts, not the one that comes with it */
    CHECK(ask_hear(two_three, record, sizeof record, (struct heard){0, 2, 4},
                   set, 8, &learns) == 0);
    CHECK(learns == 1 && record[YMD_LEARNER_LEARNT] == 3);
    CHECK(ask_hear(two_three, record, sizeof record,
                   (struct heard){0, 2, YMD_MOST_NUMBER}, set, 8,
                   &learns) == 0);
    CHECK(learns == 0 && record[YMD_LEARNER_LEARNT] == 3);
    CHECK(memcmp(heard, (uint8_t[11]){0xe8, 3, 1, 0, 0, 0, 0, 0, 0, 0, 4},
                 11) == 0);
}

static uint8_t learner_refusal(struct sizes z, const uint8_t *kept,
                               size_t length, struct heard h,
                               const uint8_t *set, size_t set_length)
{
    uint8_t record[128] = {0}, learns = 7;
    memcpy(record, kept, length);
    uint8_t answer = ask_hear(z, record, length, h, set, set_length, &learns);
    CHECK(learns == 7 && memcmp(record, kept, length) == 0);
    return answer;
}

static void learner_refuses_1_then_3_then_5(void)
{
    const size_t length = YMD_LEARNER_BYTES(2);
    const struct heard good_heard = {1, 2, 1}, bad_heard = {2, 3, 0};
    const uint8_t good_set[16] = {7}, bad_set[8] = {8};
    uint8_t kept[128] = {0};
    static const struct sizes bad_sizes[] = {
        {0, 3, 3},
        {9, 3, 3},
        {258, 3, 3},
        {2, 0, 3},
        {2, 8, 3},
        {2, 259, 3},
        {2, 3, 0},
        {2, 3, 65},
        {2, 3, 259},
        {1, 3, 3},
        {3, 3, 3},
        {8, 3, 3},
        {65535, 65535, 65535},
    };
    for (size_t i = 0; i < sizeof bad_sizes / sizeof *bad_sizes; i++) {
        CHECK(learner_refusal(bad_sizes[i], kept, length, good_heard, good_set,
                              8) == 1);
        CHECK(learner_refusal(bad_sizes[i], kept, length, bad_heard, bad_set,
                              0) == 1);
    }
    for (size_t other = 0; other <= 40; other++)
        if (other != length)
            CHECK(learner_refusal(two_three, kept, other, bad_heard, good_set,
                                  8) == 1);
    /* every field of the record outside its range */
    static const struct {
        size_t place;
        uint8_t value;
    } fields[] = {
        {YMD_LEARNER_ALIVE, 2},
        {YMD_LEARNER_LEARNT, 8},
        {YMD_LEARNER_LEARNT + 7, 0x80},
        {YMD_LEARNER_HEARD(0) + YMD_HEARD_NUMBER + 1, 4},
        {YMD_LEARNER_HEARD(0) + YMD_HEARD_SET, 8},
        {YMD_LEARNER_HEARD(0) + YMD_HEARD_ACCEPTORS, 8},
        {YMD_LEARNER_HEARD(1) + YMD_HEARD_NUMBER + 1, 4},
        {YMD_LEARNER_HEARD(1) + YMD_HEARD_SET + 7, 1},
        {YMD_LEARNER_HEARD(1) + YMD_HEARD_ACCEPTORS, 0x80},
    };
    for (size_t i = 0; i < sizeof fields / sizeof *fields; i++) {
        uint8_t before = kept[fields[i].place];
        kept[fields[i].place] = fields[i].value;
        CHECK(learner_refusal(two_three, kept, length, bad_heard, bad_set, 8) ==
              1);
        kept[fields[i].place] = before;
    }
    static const struct heard bad_answers[] = {
        {2, 2, 1},    {256, 2, 1},   {UINT64_MAX, 2, 1}, {1, 3, 1},
        {1, 256, 1},  {1, 258, 1},   {1, UINT64_MAX, 1}, {1, 2, 0},
        {1, 2, 1001}, {1, 2, 65537}, {1, 2, UINT64_MAX}, {1, 2, 4294967297},
    };
    for (size_t i = 0; i < sizeof bad_answers / sizeof *bad_answers; i++)
        CHECK(learner_refusal(two_three, kept, length, bad_answers[i], good_set,
                              8) == 3);
    for (size_t other = 0; other <= 16; other++)
        if (other != 8)
            CHECK(learner_refusal(two_three, kept, length, good_heard, good_set,
                                  other) == 3);
    CHECK(learner_refusal(two_three, kept, length, good_heard, bad_set, 8) ==
          3);
    CHECK(learner_refusal(two_three, kept, length, good_heard, good_set, 8) ==
          5);
}

static void learner_of_eight_proposers(void)
{
    uint8_t record[YMD_LEARNER_BYTES(YMD_MOST_PROPOSERS)] = {1}, learns = 7;
    const struct sizes z = {8, 7, 64};
    uint8_t set[YMD_SET_BYTES] = {0};
    set[7] = 0x80;
    CHECK(sizeof record == 97);
    for (uint64_t acceptor = 3; acceptor < 7; acceptor++) {
        CHECK(ask_hear(z, record, sizeof record,
                       (struct heard){7, acceptor, YMD_MOST_NUMBER}, set, 8,
                       &learns) == 0);
        CHECK(learns == (acceptor == 6));
    }
    CHECK(memcmp(record + 1, set, 8) == 0);
    CHECK(record[YMD_LEARNER_HEARD(7) + YMD_HEARD_ACCEPTORS] == 0x78);
}

/* ---- The proposer's rules ---- */

/* A run of three acceptors and three scans. */
static uint8_t on_proposer(enum call call, uint8_t *record, uint64_t acceptor,
                           uint64_t number, uint8_t mask)
{
    const uint8_t set[YMD_SET_BYTES] = {mask};
    return ask_proposer(call, 3, 3, record, YMD_PROPOSER_BYTES, acceptor,
                        number, set, sizeof set);
}

static void proposer_proposes_refines_and_decides(void)
{
    uint8_t record[YMD_PROPOSER_BYTES] = {1};
    CHECK(on_proposer(PROPOSE, record, 0, 0, 0) == 6);
    CHECK(on_proposer(BUFFER, record, 0, 0, 1) == 0);
    CHECK(record[YMD_PROPOSER_BUFFERED] == 1);
    CHECK(on_proposer(DECIDE, record, 0, 0, 0) == 6);
    CHECK(on_proposer(PROPOSE, record, 0, 0, 0) == 0);
    CHECK(record[YMD_PROPOSER_ACTIVE] == 1);
    CHECK(record[YMD_PROPOSER_BUFFERED] == 0);
    CHECK(record[YMD_PROPOSER_PROPOSED] == 1);
    CHECK(record[YMD_PROPOSER_NUMBER] == 1);
    CHECK(on_proposer(ACKNOWLEDGED, record, 0, 1, 0) == 0);
    CHECK(on_proposer(ACKNOWLEDGED, record, 0, 1, 0) == 0);
    CHECK(record[YMD_PROPOSER_ACKNOWLEDGED] == 1);
    CHECK(on_proposer(DECIDE, record, 0, 0, 0) == 6);
    CHECK(on_proposer(REFINE, record, 0, 0, 0) == 6);
    CHECK(on_proposer(REJECTED, record, 0, 1, 5) == 0);
    CHECK(record[YMD_PROPOSER_REJECTED] == 1);
    CHECK(record[YMD_PROPOSER_GATHERED] == 5);
    /* one acceptor that answered both ways is no majority of three */
    CHECK(on_proposer(REFINE, record, 0, 0, 0) == 6);
    CHECK(on_proposer(REJECTED, record, 2, 1, 4) == 0);
    CHECK(on_proposer(REFINE, record, 0, 0, 0) == 0);
    CHECK(record[YMD_PROPOSER_NUMBER] == 2);
    CHECK(record[YMD_PROPOSER_PROPOSED] == 5);
    CHECK(record[YMD_PROPOSER_GATHERED] == 0);
    CHECK(record[YMD_PROPOSER_ACKNOWLEDGED] == 0);
    CHECK(record[YMD_PROPOSER_REJECTED] == 0);
    /* late answers do nothing */
    CHECK(on_proposer(ACKNOWLEDGED, record, 0, 1, 0) == 0);
    CHECK(on_proposer(REJECTED, record, 0, 1, 7) == 0);
    CHECK(on_proposer(ACKNOWLEDGED, record, 0, 3, 0) == 0);
    CHECK(record[YMD_PROPOSER_ACKNOWLEDGED] == 0);
    CHECK(record[YMD_PROPOSER_GATHERED] == 0);
    CHECK(on_proposer(ACKNOWLEDGED, record, 0, 2, 0) == 0);
    CHECK(on_proposer(REJECTED, record, 1, 2, 7) == 0);
    CHECK(on_proposer(ACKNOWLEDGED, record, 2, 2, 0) == 0);
    CHECK(on_proposer(DECIDE, record, 0, 0, 0) == 0);
    CHECK(record[YMD_PROPOSER_ACTIVE] == 0);
    CHECK(record[YMD_PROPOSER_DECIDED] == 5);
    CHECK(record[YMD_PROPOSER_GATHERED] == 7);
    CHECK(record[YMD_PROPOSER_ACKNOWLEDGED] == 5);
    CHECK(on_proposer(DECIDE, record, 0, 0, 0) == 6);
    CHECK(on_proposer(REFINE, record, 0, 0, 0) == 6);
    CHECK(on_proposer(ACKNOWLEDGED, record, 1, 2, 0) == 0);
    CHECK(record[YMD_PROPOSER_ACKNOWLEDGED] == 5);
    CHECK(on_proposer(BUFFER, record, 0, 0, 1) == 0);
    CHECK(on_proposer(PROPOSE, record, 0, 0, 0) == 0);
    CHECK(record[YMD_PROPOSER_NUMBER] == 3);
    CHECK(record[YMD_PROPOSER_PROPOSED] == 5);
    CHECK(record[YMD_PROPOSER_DECIDED] == 5);
}

static void majorities(void)
{
    static const struct {
        uint64_t acceptors;
        int majority;
    } cases[] = {{1, 1}, {2, 2}, {3, 2}, {4, 3}, {5, 3}, {6, 4}, {7, 4}};
    for (size_t i = 0; i < sizeof cases / sizeof *cases; i++)
        for (int count = 0; count <= (int)cases[i].acceptors; count++) {
            uint8_t record[YMD_PROPOSER_BYTES] = {1, 1};
            bool enough = count >= cases[i].majority;
            record[YMD_PROPOSER_NUMBER] = 1;
            record[YMD_PROPOSER_ACKNOWLEDGED] = (uint8_t)((1 << count) - 1);
            CHECK(ask_proposer(DECIDE, cases[i].acceptors, 1, record,
                               sizeof record, 0, 0, NULL,
                               0) == (enough ? 0 : 6));
            record[YMD_PROPOSER_ACTIVE] = 1;
            record[YMD_PROPOSER_REJECTED] = record[YMD_PROPOSER_ACKNOWLEDGED];
            CHECK(ask_proposer(REFINE, cases[i].acceptors, 1, record,
                               sizeof record, 0, 0, NULL,
                               0) == (enough ? 0 : 6));
        }
}

static void proposer_refuses_7_after_6(void)
{
    uint8_t record[YMD_PROPOSER_BYTES] = {1};
    put_low_first(record + YMD_PROPOSER_NUMBER, 2, YMD_MOST_NUMBER);
    CHECK(on_proposer(PROPOSE, record, 0, 0, 0) == 6);
    record[YMD_PROPOSER_BUFFERED] = 1;
    CHECK(on_proposer(PROPOSE, record, 0, 0, 0) == 7);
    record[YMD_PROPOSER_ACTIVE] = 1;
    CHECK(on_proposer(PROPOSE, record, 0, 0, 0) == 6);
    CHECK(on_proposer(REFINE, record, 0, 0, 0) == 6);
    record[YMD_PROPOSER_REJECTED] = 3;
    CHECK(on_proposer(REFINE, record, 0, 0, 0) == 7);
    record[YMD_PROPOSER_ACKNOWLEDGED] = 3;
    CHECK(on_proposer(DECIDE, record, 0, 0, 0) == 0);
    record[YMD_PROPOSER_ALIVE] = 0;
    CHECK(on_proposer(PROPOSE, record, 0, 0, 0) == 5);
    put_low_first(record + YMD_PROPOSER_NUMBER, 2, YMD_MOST_NUMBER - 1);
    record[YMD_PROPOSER_ALIVE] = 1;
    CHECK(on_proposer(PROPOSE, record, 0, 0, 0) == 0);
    CHECK(record[YMD_PROPOSER_NUMBER] == 0xe8);
    CHECK(record[YMD_PROPOSER_NUMBER + 1] == 3);
}

static const enum call proposer_calls[] = {BUFFER,   PROPOSE, ACKNOWLEDGED,
                                           REJECTED, REFINE,  DECIDE};

static void proposer_refuses_1_first(void)
{
    static const struct {
        size_t place;
        uint8_t value;
    } fields[] = {
        {YMD_PROPOSER_ALIVE, 2},           {YMD_PROPOSER_ACTIVE, 2},
        {YMD_PROPOSER_ACTIVE, 1}, /* with number 0 */
        {YMD_PROPOSER_BUFFERED, 8},        {YMD_PROPOSER_PROPOSED + 1, 1},
        {YMD_PROPOSER_GATHERED + 7, 0x80}, {YMD_PROPOSER_NUMBER + 1, 4},
        {YMD_PROPOSER_ACKNOWLEDGED, 8},    {YMD_PROPOSER_REJECTED, 0x80},
        {YMD_PROPOSER_DECIDED, 0x10},
    };
    static const struct sizes bad_sizes[] = {
        {0, 0, 3}, {0, 8, 3},  {0, 259, 3}, {0, 65535, 3},
        {0, 3, 0}, {0, 3, 65}, {0, 3, 259}, {0, 3, 65535},
    };
    const uint8_t set[YMD_SET_BYTES] = {0xff};
    uint8_t record[64] = {0};
    for (size_t c = 0; c < sizeof proposer_calls / sizeof *proposer_calls;
         c++) {
        enum call call = proposer_calls[c];
        for (size_t i = 0; i < sizeof fields / sizeof *fields; i++) {
            record[fields[i].place] = fields[i].value;
            CHECK(on_proposer(call, record, 9, 0, 0xff) == 1);
            record[fields[i].place] = 0;
        }
        for (size_t length = 0; length <= sizeof record; length++)
            if (length != YMD_PROPOSER_BYTES)
                CHECK(ask_proposer(call, 3, 3, record, length, 0, 1, set, 8) ==
                      1);
        for (size_t i = 0; i < sizeof bad_sizes / sizeof *bad_sizes; i++)
            CHECK(ask_proposer(call, bad_sizes[i].acceptors, bad_sizes[i].scans,
                               record, YMD_PROPOSER_BYTES, 9, 0, set, 7) == 1);
    }
}

static void proposer_refuses_3_then_5(void)
{
    static const uint64_t bad_acceptors[] = {3,          7,          255, 256,
                                             UINT32_MAX, UINT64_MAX, 258};
    static const uint64_t bad_numbers[] = {0, 1001, 65535, 65537, UINT64_MAX};
    const uint8_t set[16] = {7};
    uint8_t crashed[YMD_PROPOSER_BYTES] = {0};
    for (size_t i = 0; i < sizeof bad_acceptors / sizeof *bad_acceptors; i++) {
        CHECK(on_proposer(ACKNOWLEDGED, crashed, bad_acceptors[i], 1, 0) == 3);
        CHECK(on_proposer(REJECTED, crashed, bad_acceptors[i], 1, 7) == 3);
    }
    for (size_t i = 0; i < sizeof bad_numbers / sizeof *bad_numbers; i++) {
        CHECK(on_proposer(ACKNOWLEDGED, crashed, 2, bad_numbers[i], 0) == 3);
        CHECK(on_proposer(REJECTED, crashed, 2, bad_numbers[i], 7) == 3);
    }
    CHECK(on_proposer(REJECTED, crashed, 2, 1, 8) == 3);
    CHECK(on_proposer(BUFFER, crashed, 0, 0, 8) == 3);
    for (size_t length = 0; length <= sizeof set; length++)
        if (length != YMD_SET_BYTES) {
            CHECK(ask_proposer(REJECTED, 3, 3, crashed, sizeof crashed, 2, 1,
                               set, length) == 3);
            CHECK(ask_proposer(BUFFER, 3, 3, crashed, sizeof crashed, 0, 0, set,
                               length) == 3);
        }
    for (size_t c = 0; c < sizeof proposer_calls / sizeof *proposer_calls; c++)
        CHECK(on_proposer(proposer_calls[c], crashed, 2, 1, 7) == 5);
}

/* ---- Sizes of more than 16 bits ---- */

/* Sizes that end in the bits of one in range, and the greatest. */
static const uint64_t wide_sizes[] = {65600, 65536 + 3,
                                      (UINT64_C(1) << 32) + 64, UINT64_MAX};

/* A wide size in the place of each of the question's sizes is refused 1; the
   question itself is answered. */
static void refuses_wide_sizes(enum call call, int sizes)
{
    for (int size = 0; size < sizes; size++)
        for (size_t i = 0; i < sizeof wide_sizes / sizeof *wide_sizes; i++) {
            uint64_t own = asked.numbers[size];
            asked.numbers[size] = wide_sizes[i];
            CHECK(answer_to(call) == YMD_OUTSIDE_RANGE);
            asked.numbers[size] = own;
        }
    CHECK(answer_to(call) == YMD_OK);
}

/* A run of three proposers, three acceptors and three scans. */
static void wide_sizes_are_refused_1(void)
{
    static const uint64_t heard[] = {3, 3, 3, 2, 2, 1},
                          answered[] = {3, 3, 2, 1};
    static const uint8_t acceptor[YMD_ACCEPTOR_BYTES] = {1};
    static const uint8_t learner[YMD_LEARNER_BYTES(3)] = {1};
    static const uint8_t set[YMD_SET_BYTES] = {7}, reply[YMD_REPLY_BYTES] = {7};
    uint8_t proposer[YMD_PROPOSER_BYTES] = {1};
    lend_bytes(1, set, sizeof set);

    asked.numbers[0] = 3;
    lend_bytes(0, acceptor, sizeof acceptor);
    lend_bytes(2, reply, sizeof reply);
    refuses_wide_sizes(ANSWER_PROPOSAL, 1);

    memcpy(asked.numbers, heard, sizeof heard);
    lend_bytes(0, learner, sizeof learner);
    lend_bytes(2, reply, 1);
    refuses_wide_sizes(HEAR, 3);

    /* passive with a scan buffered, or active and answered by a majority */
    proposer[YMD_PROPOSER_BUFFERED] = 1;
    proposer[YMD_PROPOSER_NUMBER] = 1;
    proposer[YMD_PROPOSER_ACKNOWLEDGED] = 3;
    proposer[YMD_PROPOSER_REJECTED] = 3;
    for (size_t c = 0; c < sizeof proposer_calls / sizeof *proposer_calls;
         c++) {
        enum call call = proposer_calls[c];
        proposer[YMD_PROPOSER_ACTIVE] = call != PROPOSE;
        memcpy(asked.numbers, answered, sizeof answered);
        lend_bytes(0, proposer, sizeof proposer);
        refuses_wide_sizes(call, 2);
    }
}

/* ---- Written forms ---- */

static void table_verdicts(void)
{
    for (size_t i = 0; i < sizeof bad_tables / sizeof *bad_tables; i++)
        CHECK(ask_check(CHECK_TABLE, bad_tables[i].bytes,
                        bad_tables[i].length) == bad_tables[i].refusal);
    CHECK(ask_check(CHECK_TABLE, five_scans, sizeof five_scans) == YMD_OK);
    for (size_t length = 0; length < sizeof five_scans; length++)
        CHECK(ask_check(CHECK_TABLE, five_scans, length) == YMD_INPUT_ENDS);
}

/* The schedule that document 01 shows, and its text. */
static const uint8_t shown_schedule[] = {
    2, 1, 1, 16, 2, 7, 1, 0, 0, 5, 0, 0, 2, 1,
    0, 7, 0, 0,  2, 2, 0, 2, 1, 0, 7, 0, 0,
};
static const char shown_text[] = "1 ok\n"
                                 "2 ok\n"
                                 "3 ok\n"
                                 "4 refused 6\n"
                                 "5 ok\n"
                                 "5 learnt 0 0000000000000001\n"
                                 "6 ok\n"
                                 "7 ok\n"
                                 "7 decided 0 0000000000000001\n"
                                 "end 7 6 1\n";

static const struct {
    uint8_t bytes[10];
    size_t length;
    uint8_t refusal;
} bad_schedules[] = {
    {{0}, 0, YMD_INPUT_ENDS},
    {{0, 0, 0, 0, 0}, 5, YMD_INPUT_ENDS},
    {{0, 0, 0, 0, 0, 0x80}, 6, YMD_INPUT_ENDS},
    {{0, 0, 0, 0, 0, 0x80, 0}, 7, YMD_BAD_NUMBER},
    {{0xff, 0xff, 4}, 3, YMD_BAD_NUMBER},
    {{0xff, 0xff, 0xff}, 3, YMD_BAD_NUMBER},
    {{0xff, 0xff}, 2, YMD_INPUT_ENDS},
    {{0, 1, 1, 16, 1, 0}, 6, YMD_OUTSIDE_RANGE},
    {{9, 1, 1, 16, 1, 0}, 6, YMD_OUTSIDE_RANGE},
    {{1, 0, 1, 16, 1, 0}, 6, YMD_OUTSIDE_RANGE},
    {{1, 8, 1, 16, 1, 0}, 6, YMD_OUTSIDE_RANGE},
    {{1, 1, 0, 16, 1, 0}, 6, YMD_OUTSIDE_RANGE},
    {{1, 1, 9, 16, 1, 0}, 6, YMD_OUTSIDE_RANGE},
    {{1, 1, 1, 15, 1, 0}, 6, YMD_OUTSIDE_RANGE},
    {{1, 1, 1, 0x81, 4, 1, 0}, 7, YMD_OUTSIDE_RANGE},
    {{1, 1, 1, 16, 0, 0}, 6, YMD_OUTSIDE_RANGE},
    {{1, 1, 1, 16, 65, 0}, 6, YMD_OUTSIDE_RANGE},
    {{1, 1, 1, 15, 1, 0xff, 0xff, 3}, 8, YMD_OUTSIDE_RANGE},
    {{1, 1, 1, 16, 1, 0x81, 0x20}, 7, YMD_OUTSIDE_SIZES},
    {{1, 1, 1, 16, 1, 0x80, 0x20}, 7, YMD_INPUT_ENDS},
    {{1, 1, 1, 16, 1, 1, 1, 0}, 8, YMD_INPUT_ENDS},
    {{1, 1, 1, 16, 1, 1, 1, 0, 0x80, 0}, 10, YMD_BAD_NUMBER},
    {{1, 1, 1, 16, 1, 1, 1, 0, 0, 7}, 10, YMD_BYTES_FOLLOW},
    {{1, 1, 1, 16, 1, 0, 0}, 7, YMD_BYTES_FOLLOW},
};

/* The longest schedule there is. */
static size_t longest_schedule(uint8_t *bytes)
{
    static const uint64_t header[] = {8, 7, 8, 512, 64, YMD_MOST_EVENTS};
    size_t length = 0;
    for (int i = 0; i < 6; i++)
        write_number(bytes, &length, header[i]);
    for (int i = 0; i < 3 * YMD_MOST_EVENTS; i++)
        write_number(bytes, &length, 65535);
    return length;
}

static void schedule_verdicts(void)
{
    static uint8_t longest[YMD_MOST_SCHEDULE_BYTES + 1];
    for (size_t i = 0; i < sizeof bad_schedules / sizeof *bad_schedules; i++)
        CHECK(ask_check(CHECK_SCHEDULE, bad_schedules[i].bytes,
                        bad_schedules[i].length) == bad_schedules[i].refusal);
    CHECK(ask_check(CHECK_SCHEDULE, shown_schedule, sizeof shown_schedule) ==
          YMD_OK);
    for (size_t length = 0; length < sizeof shown_schedule; length++)
        CHECK(ask_check(CHECK_SCHEDULE, shown_schedule, length) ==
              YMD_INPUT_ENDS);
    const size_t most = YMD_MOST_SCHEDULE_BYTES;
    CHECK(longest_schedule(longest) == most);
    CHECK(ask_check(CHECK_SCHEDULE, longest, most) == YMD_OK);
    CHECK(ask_check(CHECK_SCHEDULE, longest, most - 1) == YMD_INPUT_ENDS);
    CHECK(ask_check(CHECK_SCHEDULE, longest, most + 1) == YMD_BYTES_FOLLOW);
}

/* ---- Texts ---- */

/* Whether the schedule has the text: in just enough room, in more, and refused
   in every smaller one that is tried. */
static bool text_is(const uint8_t *schedule, size_t schedule_length,
                    const char *expected)
{
    static uint8_t text[YMD_MOST_TEXT_BYTES];
    size_t needed = strlen(expected);
    const size_t rooms[] = {
        needed, needed + 1, needed + 100, needed - 1, needed / 2, 1, 0};
    for (size_t i = 0; i < sizeof rooms / sizeof *rooms; i++) {
        size_t length = 77;
        memset(text, '?', rooms[i]);
        uint8_t answer =
            ask_run_text(text, rooms[i], schedule, schedule_length, &length);
        size_t written = 0;
        if (rooms[i] >= needed) {
            written = needed;
            if (answer != YMD_OK || length != needed ||
                memcmp(text, expected, needed) != 0)
                return false;
        } else if (answer != YMD_NO_ROOM || length != 77) {
            return false;
        }
        for (size_t k = written; k < rooms[i]; k++)
            if (text[k] != '?')
                return false;
    }
    return true;
}

static void texts_of_runs(void)
{
    static const uint8_t none[] = {1, 1, 1, 16, 1, 0};
    static const uint8_t codes[] = {1, 1, 1, 16,   1,    3, 0, 0, 0,
                                    9, 0, 0, 0xff, 0xff, 3, 0, 0};
    static const uint8_t last_scan[] = {1, 1, 1, 16, 64, 5, 1, 0, 63, 5, 0,
                                        0, 2, 0, 0,  2,  1, 0, 4, 0,  0};
    static const uint8_t scan_64[] = {1, 1, 1, 16, 64, 2, 1, 0, 63, 1, 0, 64};
    CHECK(text_is(shown_schedule, sizeof shown_schedule, shown_text));
    CHECK(text_is(none, sizeof none, "end 0 0 0\n"));
    CHECK(text_is(codes, sizeof codes,
                  "1 refused 2\n2 refused 2\n3 refused 2\nend 3 0 3\n"));
    CHECK(text_is(scan_64, sizeof scan_64, "1 ok\n2 refused 3\nend 2 1 1\n"));
    CHECK(text_is(last_scan, sizeof last_scan,
                  "1 ok\n2 ok\n3 ok\n4 ok\n4 learnt 0 8000000000000000\n5 ok\n"
                  "end 5 5 0\n"));
}

static void texts_of_refused_schedules(void)
{
    for (size_t i = 0; i < sizeof bad_schedules / sizeof *bad_schedules; i++) {
        char expected[32];
        snprintf(expected, sizeof expected, "schedule refused %d\n",
                 bad_schedules[i].refusal);
        CHECK(
            text_is(bad_schedules[i].bytes, bad_schedules[i].length, expected));
    }
}

static void text_of_the_longest_schedule(void)
{
    static uint8_t longest[YMD_MOST_SCHEDULE_BYTES];
    static char expected[YMD_MOST_TEXT_BYTES];
    size_t length = longest_schedule(longest), written = 0;
    for (int i = 1; i <= YMD_MOST_EVENTS; i++)
        written += (size_t)snprintf(
            expected + written, sizeof expected - written, "%d refused 2\n", i);
    snprintf(expected + written, sizeof expected - written, "end %d 0 %d\n",
             YMD_MOST_EVENTS, YMD_MOST_EVENTS);
    CHECK(text_is(longest, length, expected));
}

/* ---- Layout ---- */

static void layout_has_no_gaps(void)
{
    CHECK(YMD_ACCEPTOR_ACCEPTED + YMD_SET_BYTES == YMD_ACCEPTOR_BYTES);
    CHECK(YMD_REPLY_SET + YMD_SET_BYTES == YMD_REPLY_BYTES);
    CHECK(YMD_PROPOSER_BUFFERED == 2);
    CHECK(YMD_PROPOSER_PROPOSED == YMD_PROPOSER_BUFFERED + YMD_SET_BYTES);
    CHECK(YMD_PROPOSER_GATHERED == YMD_PROPOSER_PROPOSED + YMD_SET_BYTES);
    CHECK(YMD_PROPOSER_NUMBER == YMD_PROPOSER_GATHERED + YMD_SET_BYTES);
    CHECK(YMD_PROPOSER_ACKNOWLEDGED == YMD_PROPOSER_NUMBER + 2);
    CHECK(YMD_PROPOSER_REJECTED == YMD_PROPOSER_ACKNOWLEDGED + 1);
    CHECK(YMD_PROPOSER_DECIDED == YMD_PROPOSER_REJECTED + 1);
    CHECK(YMD_PROPOSER_DECIDED + YMD_SET_BYTES == YMD_PROPOSER_BYTES);
    CHECK(YMD_HEARD_SET == YMD_HEARD_NUMBER + 2);
    CHECK(YMD_HEARD_ACCEPTORS == YMD_HEARD_SET + YMD_SET_BYTES);
    CHECK(YMD_HEARD_ACCEPTORS + 1 == YMD_HEARD_BYTES);
    CHECK(YMD_LEARNER_HEARD(0) == YMD_LEARNER_LEARNT + YMD_SET_BYTES);
    CHECK(YMD_LEARNER_HEARD(1) == YMD_LEARNER_HEARD(0) + YMD_HEARD_BYTES);
    CHECK(YMD_LEARNER_BYTES(8) == YMD_LEARNER_HEARD(8));
}

#define TEST(name)                                                             \
    {                                                                          \
#name, name                                                            \
    }

static const struct {
    const char *name;
    void (*test)(void);
} tests[] = {
    TEST(clock_gives_times),
    TEST(clock_refuses_9),
    TEST(where_is_gives_the_newest),
    TEST(where_is_gives_the_greatest_values),
    TEST(where_is_reads_the_table_first),
    TEST(where_is_refuses_3),
    TEST(acceptor_acknowledges_and_rejects),
    TEST(acceptor_takes_scan_63),
    TEST(acceptor_refuses_1_then_3_then_5),
    TEST(learner_counts_distinct_acceptors),
    TEST(learner_follows_one_number),
    TEST(learner_refuses_1_then_3_then_5),
    TEST(learner_of_eight_proposers),
    TEST(proposer_proposes_refines_and_decides),
    TEST(majorities),
    TEST(proposer_refuses_7_after_6),
    TEST(proposer_refuses_1_first),
    TEST(proposer_refuses_3_then_5),
    TEST(wide_sizes_are_refused_1),
    TEST(table_verdicts),
    TEST(schedule_verdicts),
    TEST(texts_of_runs),
    TEST(texts_of_refused_schedules),
    TEST(text_of_the_longest_schedule),
    TEST(layout_has_no_gaps),
};

int main(void)
{
    int passed = 0, failed = 0;
    asked = new_question();
    for (size_t i = 0; i < sizeof tests / sizeof *tests; i++) {
        good = true;
        tests[i].test();
        printf("calls %s: %s\n", tests[i].name, good ? "ok" : "failed");
        if (good)
            passed++;
        else
            failed++;
        fflush(stdout);
    }
    free_question(&asked);
    printf("%d passed, %d failed\n", passed, failed);
    return failed == 0 ? 0 : 1;
}
