/*
 * Compares the library with the second program on random questions, good and
 * damaged: the answer and every lent byte. `compare COUNT [SEED]` asks at least
 * COUNT questions. One line for each call; the last line is 'N passed, M
 * failed'.
 */
#include <inttypes.h>
#include <stdio.h>
#include <stdlib.h>

#include "draw.h"
#include "yazhmandu.h"

/* What a call can answer; the questions have to lead to each of them. */
static const unsigned answers[CALLS] = {
    [CLOCK] = 1u << YMD_OK | 1u << YMD_BAD_TIME,
    [WHERE_IS] = 1u << YMD_OK | 1u << YMD_OUTSIDE_RANGE |
                 1u << YMD_OUTSIDE_SIZES | 1u << YMD_BAD_DEVICE |
                 1u << YMD_INPUT_ENDS | 1u << YMD_BAD_NUMBER |
                 1u << YMD_BYTES_FOLLOW,
    [ANSWER_PROPOSAL] = 1u << YMD_OK | 1u << YMD_OUTSIDE_RANGE |
                        1u << YMD_OUTSIDE_SIZES | 1u << YMD_CRASHED,
    [HEAR] = 1u << YMD_OK | 1u << YMD_OUTSIDE_RANGE | 1u << YMD_OUTSIDE_SIZES |
             1u << YMD_CRASHED,
    [BUFFER] = 1u << YMD_OK | 1u << YMD_OUTSIDE_RANGE |
               1u << YMD_OUTSIDE_SIZES | 1u << YMD_CRASHED,
    [PROPOSE] = 1u << YMD_OK | 1u << YMD_OUTSIDE_RANGE | 1u << YMD_CRASHED |
                1u << YMD_NOT_ENABLED | 1u << YMD_NUMBER_SPENT,
    [ACKNOWLEDGED] = 1u << YMD_OK | 1u << YMD_OUTSIDE_RANGE |
                     1u << YMD_OUTSIDE_SIZES | 1u << YMD_CRASHED,
    [REJECTED] = 1u << YMD_OK | 1u << YMD_OUTSIDE_RANGE |
                 1u << YMD_OUTSIDE_SIZES | 1u << YMD_CRASHED,
    [REFINE] = 1u << YMD_OK | 1u << YMD_OUTSIDE_RANGE | 1u << YMD_CRASHED |
               1u << YMD_NOT_ENABLED | 1u << YMD_NUMBER_SPENT,
    [DECIDE] = 1u << YMD_OK | 1u << YMD_OUTSIDE_RANGE | 1u << YMD_CRASHED |
               1u << YMD_NOT_ENABLED,
    [CHECK_SCHEDULE] = 1u << YMD_OK | 1u << YMD_OUTSIDE_RANGE |
                       1u << YMD_OUTSIDE_SIZES | 1u << YMD_INPUT_ENDS |
                       1u << YMD_BAD_NUMBER | 1u << YMD_BYTES_FOLLOW,
    [CHECK_TABLE] = 1u << YMD_OK | 1u << YMD_OUTSIDE_RANGE |
                    1u << YMD_OUTSIDE_SIZES | 1u << YMD_BAD_DEVICE |
                    1u << YMD_INPUT_ENDS | 1u << YMD_BAD_NUMBER |
                    1u << YMD_BYTES_FOLLOW,
    [RUN_TEXT] = 1u << YMD_OK | 1u << YMD_NO_ROOM,
};

static void print_question(const struct question *q)
{
    printf("  numbers");
    for (int i = 0; i < shapes[q->call].numbers; i++)
        printf(" %" PRIu64, q->numbers[i]);
    for (int i = 0; i < shapes[q->call].memories; i++) {
        printf("\n  memory %d, %zu bytes:", i, q->lengths[i]);
        for (size_t k = 0; k < q->lengths[i] && k < 128; k++)
            printf(" %02x", q->bytes[i][k]);
    }
    printf("\n");
}

/* Asks both programs the question: whether they agree. */
static bool agree(const struct question *q, struct question *of_library,
                  struct question *of_second, uint8_t *answer)
{
    int memory = 0;
    size_t place = 0;
    copy_question(of_library, q);
    copy_question(of_second, q);
    *answer = ask(&library, of_library);
    uint8_t other = ask(&second, of_second);
    if (of_library->fault != NULL || of_second->fault != NULL)
        printf("  %s\n", of_library->fault != NULL ? of_library->fault
                                                   : of_second->fault);
    else if (*answer != other)
        printf("  the library answers %d, the second program %d\n", *answer,
               other);
    else if (!same_memory(of_library, of_second, &memory, &place))
        printf("  memory %d differs at %zu\n", memory, place);
    else
        return true;
    print_question(q);
    return false;
}

static bool compare(enum call call, uint64_t count, uint64_t seed)
{
    struct rng rng = {seed + (uint64_t)call};
    struct question q = new_question(), of_library = new_question(),
                    of_second = new_question();
    uint64_t counts[256] = {0};
    bool good = true;
    for (uint64_t i = 0; good && i < count; i++) {
        uint8_t answer;
        draw_question(&rng, call, &q);
        good = agree(&q, &of_library, &of_second, &answer);
        counts[answer]++;
    }
    printf("compare ymd_%s: %" PRIu64 " questions, answered", shapes[call].name,
           count);
    for (unsigned n = 0; n < 256; n++) {
        bool expected = n < 32 && (answers[call] >> n & 1) != 0;
        if (counts[n] > 0)
            printf(" %u", n);
        if (expected != (counts[n] > 0))
            good = false;
    }
    printf(": %s\n", good ? "ok" : "failed");
    free_question(&q);
    free_question(&of_library);
    free_question(&of_second);
    return good;
}

int main(int argc, char **argv)
{
    uint64_t count = argc > 1 ? strtoull(argv[1], NULL, 10) : 260000;
    uint64_t seed = argc > 2 ? strtoull(argv[2], NULL, 0) : 0x5ca97ab1;
    int passed = 0, failed = 0;
    printf("seed 0x%" PRIx64 "\n", seed);
    for (int call = 0; call < CALLS; call++) {
        if (compare((enum call)call, count / CALLS + 1, seed))
            passed++;
        else
            failed++;
        fflush(stdout);
    }
    printf("%d passed, %d failed\n", passed, failed);
    return failed == 0 ? 0 : 1;
}
