/*
 * Times calls of the library beside the second program's of the same name, in
 * one run: the best time of each in nanoseconds a call, and their ratio.
 */
#define _POSIX_C_SOURCE 200809L

#include <stdio.h>
#include <stdlib.h>
#include <string.h>
#include <time.h>

#include "draw.h"
#include "second.h"
#include "yazhmandu.h"

enum { ROUNDS = 40, CALLS_A_ROUND = 20000, INPUTS = 64 };

/* The inputs: ticks, sets, and a table of 64 scans of a few crates. */
static uint32_t ticks[INPUTS];
static uint8_t sets[INPUTS][YMD_SET_BYTES];
static uint8_t table[YMD_MOST_TABLE_BYTES];
static size_t table_length;

static void make_inputs(void)
{
    struct rng rng = {7};
    for (int i = 0; i < INPUTS; i++) {
        ticks[i] = (uint32_t)next_number(&rng);
        put_low_first(sets[i], YMD_SET_BYTES, next_number(&rng));
    }
    write_number(table, &table_length, YMD_MOST_SCANS);
    for (int scan = 0; scan < YMD_MOST_SCANS; scan++) {
        write_number(table, &table_length, 100000 + below(&rng, 20));
        write_number(table, &table_length, below(&rng, 500));
        write_number(table, &table_length, 1 + below(&rng, 255));
        write_number(table, &table_length,
                     UINT64_C(1789000000000) + below(&rng, 86400000));
    }
}

/* Each job makes one round of calls and gives the sum of what they gave. */
typedef uint64_t job(bool of_second);

static uint64_t clock_job(bool of_second)
{
    uint64_t sum = 0, time = 0;
    for (int i = 0; i < CALLS_A_ROUND; i++) {
        uint32_t dock = ticks[i % INPUTS], scan = ticks[(i + 1) % INPUTS];
        uint64_t dock_time = UINT64_C(1789000000000) + (uint64_t)i;
        sum += of_second ? second_clock(dock, scan, dock_time, &time)
                         : ymd_clock(dock, scan, dock_time, &time);
        sum += time;
    }
    return sum;
}

static uint64_t acceptor_job(bool of_second)
{
    uint8_t record[YMD_ACCEPTOR_BYTES] = {1}, reply[YMD_REPLY_BYTES] = {0};
    uint64_t sum = 0;
    for (int i = 0; i < CALLS_A_ROUND; i++) {
        const uint8_t *set = sets[i % INPUTS];
        if (i % 8 == 0)
            memset(record + 1, 0, YMD_SET_BYTES);
        sum += of_second ? second_answer_proposal(64, record, sizeof record,
                                                  set, YMD_SET_BYTES, reply)
                         : ymd_answer_proposal(64, record, sizeof record, set,
                                               YMD_SET_BYTES, reply);
        sum += reply[0] + reply[8];
    }
    return sum;
}

static uint64_t shelf_job(bool of_second)
{
    uint64_t found[YMD_FOUND_NUMBERS] = {0}, sum = 0;
    for (int i = 0; i < CALLS_A_ROUND / 20; i++) {
        const uint8_t *set = sets[i % INPUTS];
        uint64_t tag = 100000 + (uint64_t)i % 20;
        sum += of_second ? second_where_is(table, table_length, set,
                                           YMD_SET_BYTES, tag, found)
                         : ymd_where_is(table, table_length, set, YMD_SET_BYTES,
                                        tag, found);
        sum += found[YMD_FOUND_SCAN] + found[YMD_FOUND_TIME];
    }
    return sum;
}

static double nanoseconds(job *job, bool of_second, uint64_t *sum)
{
    struct timespec begin, end;
    clock_gettime(CLOCK_MONOTONIC, &begin);
    *sum = job(of_second);
    clock_gettime(CLOCK_MONOTONIC, &end);
    return (double)(end.tv_sec - begin.tv_sec) * 1e9 +
           (double)(end.tv_nsec - begin.tv_nsec);
}

static void ratio(const char *name, job *job, int calls)
{
    double best[2] = {1e18, 1e18};
    for (int round = 0; round < ROUNDS; round++) {
        uint64_t sums[2];
        for (int of_second = 0; of_second < 2; of_second++) {
            double time = nanoseconds(job, of_second != 0, &sums[of_second]);
            if (time < best[of_second])
                best[of_second] = time;
        }
        if (sums[0] != sums[1]) {
            printf("%s: the answers differ\n", name);
            exit(EXIT_FAILURE);
        }
    }
    printf("%s: %.1f ns, the second program %.1f ns, ratio %.2f\n", name,
           best[0] / calls, best[1] / calls, best[0] / best[1]);
}

int main(void)
{
    make_inputs();
    ratio("ymd_clock", clock_job, CALLS_A_ROUND);
    ratio("ymd_answer_proposal", acceptor_job, CALLS_A_ROUND);
    ratio("ymd_where_is, 64 scans", shelf_job, CALLS_A_ROUND / 20);
    return EXIT_SUCCESS;
}
