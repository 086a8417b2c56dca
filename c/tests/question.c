#define _DEFAULT_SOURCE

#include "question.h"

#include <signal.h>
#include <stdio.h>
#include <stdlib.h>
#include <string.h>
#include <sys/mman.h>
#include <unistd.h>

#include "second.h"
#include "yazhmandu.h"

#ifdef LIBFUZZER
#define LIBFUZZER_RUNS true
#else
#define LIBFUZZER_RUNS false
#endif

enum { GUARD = 64, GUARD_BYTE = 0xa5 };

const struct shape shapes[CALLS] = {
    [CLOCK] = {"clock", 3, 1, {{true, sizeof(uint64_t)}}},
    [WHERE_IS] = {"where_is",
                  1,
                  3,
                  {{false, 0}, {false, 0}, {true, 4 * sizeof(uint64_t)}}},
    [ANSWER_PROPOSAL] = {"answer_proposal",
                         1,
                         3,
                         {{true, 0}, {false, 0}, {true, YMD_REPLY_BYTES}}},
    [HEAR] = {"hear", 6, 3, {{true, 0}, {false, 0}, {true, 1}}},
    [BUFFER] = {"buffer", 2, 2, {{true, 0}, {false, 0}}},
    [PROPOSE] = {"propose", 2, 1, {{true, 0}}},
    [ACKNOWLEDGED] = {"acknowledged", 4, 1, {{true, 0}}},
    [REJECTED] = {"rejected", 4, 2, {{true, 0}, {false, 0}}},
    [REFINE] = {"refine", 2, 1, {{true, 0}}},
    [DECIDE] = {"decide", 2, 1, {{true, 0}}},
    [CHECK_SCHEDULE] = {"check_schedule", 0, 1, {{false, 0}}},
    [CHECK_TABLE] = {"check_table", 0, 1, {{false, 0}}},
    [RUN_TEXT] = {"run_text",
                  0,
                  3,
                  {{true, 0}, {false, 0}, {true, sizeof(size_t)}}},
};

struct program {
    uint8_t (*clock)(uint32_t, uint32_t, uint64_t, uint64_t *);
    uint8_t (*where_is)(const uint8_t *, size_t, const uint8_t *, size_t,
                        uint64_t, uint64_t *);
    uint8_t (*answer_proposal)(uint64_t, uint8_t *, size_t, const uint8_t *,
                               size_t, uint8_t *);
    uint8_t (*hear)(uint64_t, uint64_t, uint64_t, uint8_t *, size_t, uint64_t,
                    uint64_t, uint64_t, const uint8_t *, size_t, uint8_t *);
    uint8_t (*buffer)(uint64_t, uint64_t, uint8_t *, size_t, const uint8_t *,
                      size_t);
    uint8_t (*propose)(uint64_t, uint64_t, uint8_t *, size_t);
    uint8_t (*acknowledged)(uint64_t, uint64_t, uint8_t *, size_t, uint64_t,
                            uint64_t);
    uint8_t (*rejected)(uint64_t, uint64_t, uint8_t *, size_t, uint64_t,
                        uint64_t, const uint8_t *, size_t);
    uint8_t (*refine)(uint64_t, uint64_t, uint8_t *, size_t);
    uint8_t (*decide)(uint64_t, uint64_t, uint8_t *, size_t);
    uint8_t (*check_schedule)(const uint8_t *, size_t);
    uint8_t (*check_table)(const uint8_t *, size_t);
    uint8_t (*run_text)(uint8_t *, size_t, const uint8_t *, size_t, size_t *);
};

const struct program library = {
    ymd_clock,    ymd_where_is, ymd_answer_proposal, ymd_hear,
    ymd_buffer,   ymd_propose,  ymd_acknowledged,    ymd_rejected,
    ymd_refine,   ymd_decide,   ymd_check_schedule,  ymd_check_table,
    ymd_run_text,
};

const struct program second = {
    second_clock,        second_where_is,       second_answer_proposal,
    second_hear,         second_buffer,         second_propose,
    second_acknowledged, second_rejected,       second_refine,
    second_decide,       second_check_schedule, second_check_table,
    second_run_text,
};

struct question new_question(void)
{
    struct question q = {.fault = NULL};
    for (int i = 0; i < MOST_MEMORIES; i++) {
        q.bytes[i] = calloc(MOST_BYTES, 1);
        if (q.bytes[i] == NULL) {
            perror("calloc");
            exit(2);
        }
    }
    return q;
}

void free_question(struct question *q)
{
    for (int i = 0; i < MOST_MEMORIES; i++)
        free(q->bytes[i]);
}

void copy_question(struct question *to, const struct question *from)
{
    to->call = from->call;
    memcpy(to->numbers, from->numbers, sizeof to->numbers);
    to->fault = from->fault;
    for (int i = 0; i < shapes[from->call].memories; i++) {
        to->lengths[i] = from->lengths[i];
        memcpy(to->bytes[i], from->bytes[i], from->lengths[i]);
    }
}

bool same_memory(const struct question *a, const struct question *b,
                 int *memory, size_t *place)
{
    for (int i = 0; i < shapes[a->call].memories; i++) {
        size_t length = a->lengths[i];
        if (length == 0 || memcmp(a->bytes[i], b->bytes[i], length) == 0)
            continue;
        *memory = i;
        *place = 0;
        while (a->bytes[i][*place] == b->bytes[i][*place])
            ++*place;
        return false;
    }
    return true;
}

/* Where a memory lies. */
enum place { BEFORE_PAGE, AFTER_PAGE, BETWEEN_BYTES, ON_HEAP, PLACES };

/* Pages that can be used, between two that cannot. */
static uint8_t *pages[MOST_MEMORIES];
static size_t pages_length;

/* The name of the call that is being made. */
static const char *making;

/* Says which call touches a page that it may not; libFuzzer says it itself. */
static void on_fault(int number)
{
    static const char said[] = " touches memory that it is not lent\n";
    (void)number;
    if (write(STDERR_FILENO, making, strlen(making)) >= 0 &&
        write(STDERR_FILENO, said, sizeof said - 1) >= 0)
        _exit(1);
    _exit(2);
}

static void map_pages(void)
{
    if (!LIBFUZZER_RUNS)
        signal(SIGSEGV, on_fault);
    size_t page = (size_t)sysconf(_SC_PAGESIZE);
    pages_length = (MOST_BYTES + 2 * GUARD + page - 1) / page * page;
    for (int i = 0; i < MOST_MEMORIES; i++) {
        uint8_t *all = mmap(NULL, pages_length + 2 * page, PROT_NONE,
                            MAP_PRIVATE | MAP_ANONYMOUS, -1, 0);
        if (all == MAP_FAILED ||
            mprotect(all + page, pages_length, PROT_READ | PROT_WRITE) != 0) {
            perror("mmap");
            exit(2);
        }
        pages[i] = all + page;
    }
}

struct lent {
    enum place place;
    uint8_t *bytes;
    size_t length;
};

static struct lent lend(int i, enum place place, const uint8_t *bytes,
                        size_t length)
{
    struct lent lent = {place, NULL, length};
    switch (place) {
    case BEFORE_PAGE:
        lent.bytes = pages[i] + pages_length - length;
        memset(lent.bytes - GUARD, GUARD_BYTE, GUARD);
        break;
    case AFTER_PAGE:
        lent.bytes = pages[i];
        memset(lent.bytes + length, GUARD_BYTE, GUARD);
        break;
    case BETWEEN_BYTES:
        lent.bytes = pages[i] + GUARD;
        memset(lent.bytes - GUARD, GUARD_BYTE, GUARD);
        memset(lent.bytes + length, GUARD_BYTE, GUARD);
        break;
    default:
        if (length == 0)
            return lent;
        lent.bytes = malloc(length);
        if (lent.bytes == NULL) {
            perror("malloc");
            exit(2);
        }
        break;
    }
    memcpy(lent.bytes, bytes, length);
    return lent;
}

static bool is_guard(const uint8_t *bytes)
{
    for (int i = 0; i < GUARD; i++)
        if (bytes[i] != GUARD_BYTE)
            return false;
    return true;
}

static bool guarded(const struct lent *lent)
{
    bool before = lent->place == BEFORE_PAGE || lent->place == BETWEEN_BYTES;
    bool after = lent->place == AFTER_PAGE || lent->place == BETWEEN_BYTES;
    return (!before || is_guard(lent->bytes - GUARD)) &&
           (!after || is_guard(lent->bytes + lent->length));
}

static uint8_t make_call(const struct program *p, enum call call,
                         const uint64_t *n, const struct lent *m)
{
    switch (call) {
    case CLOCK:
        return p->clock((uint32_t)n[0], (uint32_t)n[1], n[2],
                        (uint64_t *)(void *)m[0].bytes);
    case WHERE_IS:
        return p->where_is(m[0].bytes, m[0].length, m[1].bytes, m[1].length,
                           n[0], (uint64_t *)(void *)m[2].bytes);
    case ANSWER_PROPOSAL:
        return p->answer_proposal(n[0], m[0].bytes, m[0].length, m[1].bytes,
                                  m[1].length, m[2].bytes);
    case HEAR:
        return p->hear(n[0], n[1], n[2], m[0].bytes, m[0].length, n[3], n[4],
                       n[5], m[1].bytes, m[1].length, m[2].bytes);
    case BUFFER:
        return p->buffer(n[0], n[1], m[0].bytes, m[0].length, m[1].bytes,
                         m[1].length);
    case PROPOSE:
        return p->propose(n[0], n[1], m[0].bytes, m[0].length);
    case ACKNOWLEDGED:
        return p->acknowledged(n[0], n[1], m[0].bytes, m[0].length, n[2], n[3]);
    case REJECTED:
        return p->rejected(n[0], n[1], m[0].bytes, m[0].length, n[2], n[3],
                           m[1].bytes, m[1].length);
    case REFINE:
        return p->refine(n[0], n[1], m[0].bytes, m[0].length);
    case DECIDE:
        return p->decide(n[0], n[1], m[0].bytes, m[0].length);
    case CHECK_SCHEDULE:
        return p->check_schedule(m[0].bytes, m[0].length);
    case CHECK_TABLE:
        return p->check_table(m[0].bytes, m[0].length);
    case RUN_TEXT:
        return p->run_text(m[0].bytes, m[0].length, m[1].bytes, m[1].length,
                           (size_t *)(void *)m[2].bytes);
    default:
        abort();
    }
}

uint8_t ask(const struct program *program, struct question *q)
{
    static unsigned turns[2];
    unsigned turn = turns[program == &second]++;
    const struct shape *shape = &shapes[q->call];
    struct lent lent[MOST_MEMORIES] = {{BEFORE_PAGE, NULL, 0}};
    if (pages_length == 0)
        map_pages();
    for (int i = 0; i < shape->memories; i++) {
        enum place place = (turn >> 2 * i) % PLACES;
        lent[i] = lend(i, place, q->bytes[i], q->lengths[i]);
    }
    making = shape->name;
    uint8_t answer = make_call(program, q->call, q->numbers, lent);
    q->fault = NULL;
    for (int i = 0; i < shape->memories; i++) {
        size_t length = lent[i].length;
        bool changed =
            length > 0 && memcmp(lent[i].bytes, q->bytes[i], length) != 0;
        if (!guarded(&lent[i]))
            q->fault = "bytes outside the lent ones changed";
        else if (changed && !shape->memory[i].changed)
            q->fault = "bytes that are only read changed";
        else if (changed && answer != YMD_OK)
            q->fault = "a refusal changed lent bytes";
        if (changed)
            memcpy(q->bytes[i], lent[i].bytes, length);
        if (lent[i].place == ON_HEAP)
            free(lent[i].bytes);
    }
    return answer;
}
