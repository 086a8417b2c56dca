/*
 * Any bytes are a question. The library and the second program are asked it,
 * and have to give the same answer and leave the same memory, the library
 * touching nothing that it may not; a schedule's verdict and its text have to
 * fit each other. The program stops at the first difference.
 *
 * With LIBFUZZER defined this is a harness of libFuzzer, which is told which
 * call gave which answer. Otherwise `fuzz COUNT [SEED]` draws and damages
 * inputs by itself.
 */
#include <inttypes.h>
#include <stdio.h>
#include <stdlib.h>
#include <string.h>

#include "draw.h"
#include "yazhmandu.h"

int LLVMFuzzerTestOneInput(const uint8_t *data, size_t size);

enum { LENGTH_BYTES = 3 };

static uint64_t take(const uint8_t **data, size_t *size, size_t count)
{
    uint64_t number = 0;
    for (size_t i = 0; i<count && * size> 0; i++, ++*data, --*size)
        number |= (uint64_t) * *data << 8 * i;
    return number;
}

/* The room for a text is a length alone. */
static bool is_room(enum call call, int memory)
{
    return call == RUN_TEXT && memory == 0;
}

/* The question that bytes stand for: the call, its numbers in 8 bytes each,
   then each memory with its length before it. Bytes that are missing are 0. */
static void decode(const uint8_t *data, size_t size, struct question *q)
{
    q->call = (enum call)(take(&data, &size, 1) % CALLS);
    q->fault = NULL;
    const struct shape *shape = &shapes[q->call];
    memset(q->numbers, 0, sizeof q->numbers);
    for (int i = 0; i < shape->numbers; i++)
        q->numbers[i] = take(&data, &size, 8);
    for (int i = 0; i < shape->memories; i++) {
        if (shape->memory[i].fixed > 0) {
            q->lengths[i] = shape->memory[i].fixed;
            memset(q->bytes[i], 0x5a, q->lengths[i]);
            continue;
        }
        size_t length = (size_t)take(&data, &size, LENGTH_BYTES);
        if (is_room(q->call, i)) {
            q->lengths[i] = length % (YMD_MOST_TEXT_BYTES + 1);
            memset(q->bytes[i], 0x5a, q->lengths[i]);
            continue;
        }
        if (length > size)
            length = size;
        if (length > MOST_BYTES)
            length = MOST_BYTES;
        q->lengths[i] = length;
        if (length > 0)
            memcpy(q->bytes[i], data, length);
        data += length;
        size -= length;
    }
}

static bool put(uint8_t *data, size_t *size, size_t most, uint64_t number,
                size_t count)
{
    if (most - *size < count)
        return false;
    put_low_first(data + *size, count, number);
    *size += count;
    return true;
}

/* The bytes of a question; nothing where they are more than `most`. */
static size_t encode(const struct question *q, uint8_t *data, size_t most)
{
    const struct shape *shape = &shapes[q->call];
    size_t size = 0;
    if (!put(data, &size, most, q->call, 1))
        return 0;
    for (int i = 0; i < shape->numbers; i++)
        if (!put(data, &size, most, q->numbers[i], 8))
            return 0;
    for (int i = 0; i < shape->memories; i++) {
        if (shape->memory[i].fixed > 0)
            continue;
        if (!put(data, &size, most, q->lengths[i], LENGTH_BYTES))
            return 0;
        if (is_room(q->call, i))
            continue;
        if (most - size < q->lengths[i])
            return 0;
        memcpy(data + size, q->bytes[i], q->lengths[i]);
        size += q->lengths[i];
    }
    return size;
}

/* A new random question. */
static size_t draw_input(struct rng *rng, uint8_t *data, size_t most)
{
    static struct question q;
    if (q.bytes[0] == NULL)
        q = new_question();
    draw_question(rng, (enum call)below(rng, CALLS), &q);
    return encode(&q, data, most);
}

#ifdef LIBFUZZER
/* What libFuzzer takes for coverage beside that of this program. */
#define COVERAGE __attribute__((section("__libfuzzer_extra_counters")))
COVERAGE static uint8_t reached[CALLS][16][4];

/* Counts the call with its answer, a text with whether something is learnt or
   decided in it. */
static void reach(const struct question *q, uint8_t answer)
{
    unsigned said = 0;
    if (answer == YMD_OK && q->call == RUN_TEXT)
        for (size_t i = 1; i < q->lengths[0]; i++) {
            if (memcmp(q->bytes[0] + i - 1, " l", 2) == 0)
                said |= 1;
            if (memcmp(q->bytes[0] + i - 1, " d", 2) == 0)
                said |= 2;
        }
    reached[q->call][answer % 16][said]++;
}

size_t LLVMFuzzerMutate(uint8_t *data, size_t size, size_t most);
size_t LLVMFuzzerCustomMutator(uint8_t *data, size_t size, size_t most,
                               unsigned seed);

size_t LLVMFuzzerCustomMutator(uint8_t *data, size_t size, size_t most,
                               unsigned seed)
{
    struct rng rng = {seed};
    if (one_in(&rng, 4)) {
        size_t drawn = draw_input(&rng, data, most);
        if (drawn > 0)
            return drawn;
    }
    return LLVMFuzzerMutate(data, size, most);
}
#else
static void reach(const struct question *q, uint8_t answer)
{
    (void)q;
    (void)answer;
}
#endif

static _Noreturn void stop(const struct question *q, const char *what)
{
    fprintf(stderr, "ymd_%s: %s\n", shapes[q->call].name, what);
    abort();
}

/* A schedule's verdict says which text it has. */
static void fit_each_other(const struct question *q, uint8_t verdict)
{
    static uint8_t text[YMD_MOST_TEXT_BYTES];
    char refused[32];
    size_t length = 0;
    if (ymd_run_text(text, sizeof text, q->bytes[0], q->lengths[0], &length) !=
        YMD_OK)
        stop(q, "its text does not fit YMD_MOST_TEXT_BYTES");
    snprintf(refused, sizeof refused, "schedule refused %d\n", verdict);
    bool is_refused =
        length == strlen(refused) && memcmp(text, refused, length) == 0;
    if (is_refused != (verdict != YMD_OK))
        stop(q, "its text is not that of the verdict");
    if (verdict == YMD_OK && (length < 4 || text[length - 1] != '\n'))
        stop(q, "its text has no end");
}

int LLVMFuzzerTestOneInput(const uint8_t *data, size_t size)
{
    static struct question q, other;
    int memory;
    size_t place;
    if (q.bytes[0] == NULL) {
        q = new_question();
        other = new_question();
    }
    decode(data, size, &q);
    copy_question(&other, &q);
    uint8_t answer = ask(&library, &q);
    if (q.fault != NULL)
        stop(&q, q.fault);
    if (answer != ask(&second, &other))
        stop(&q, "the second program answers otherwise");
    if (!same_memory(&q, &other, &memory, &place))
        stop(&q, "the second program leaves other bytes");
    if (q.call == CHECK_SCHEDULE)
        fit_each_other(&q, answer);
    reach(&q, answer);
    return 0;
}

#ifndef LIBFUZZER
int main(int argc, char **argv)
{
    uint64_t count = argc > 1 ? strtoull(argv[1], NULL, 10) : 20000;
    struct rng rng = {argc > 2 ? strtoull(argv[2], NULL, 0) : 1};
    static uint8_t data[2 * YMD_MOST_SCHEDULE_BYTES];
    size_t size = 0;
    for (uint64_t i = 0; i < count; i++) {
        if (size == 0 || one_in(&rng, 4))
            size = draw_input(&rng, data, sizeof data);
        else if (one_in(&rng, 16))
            size = (size_t)below(&rng, size);
        else
            data[below(&rng, size)] = (uint8_t)next_number(&rng);
        LLVMFuzzerTestOneInput(data, size);
    }
    printf("%" PRIu64 " inputs\n", count);
    return 0;
}
#endif
