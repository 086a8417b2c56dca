/* A call as a value: which one, its numbers and the memory that it is lent.
   The same question is asked of the library and of the second program. */
#ifndef QUESTION_H
#define QUESTION_H

#include <stdbool.h>
#include <stddef.h>
#include <stdint.h>

enum call {
    CLOCK,
    WHERE_IS,
    ANSWER_PROPOSAL,
    HEAR,
    BUFFER,
    PROPOSE,
    ACKNOWLEDGED,
    REJECTED,
    REFINE,
    DECIDE,
    CHECK_SCHEDULE,
    CHECK_TABLE,
    RUN_TEXT,
    CALLS
};

enum { MOST_NUMBERS = 6, MOST_MEMORIES = 3 };

/* The most bytes of one memory. */
#define MOST_BYTES ((size_t)192 * 1024)

/* What a call takes beside its numbers, in the order of its parameters. */
struct memory_shape {
    /* whether the call may change it */
    bool changed;
    /* its length where that is not a parameter of the call, or 0 */
    size_t fixed;
};

struct shape {
    const char *name;
    int numbers;
    int memories;
    struct memory_shape memory[MOST_MEMORIES];
};

extern const struct shape shapes[CALLS];

struct question {
    enum call call;
    uint64_t numbers[MOST_NUMBERS];
    size_t lengths[MOST_MEMORIES];
    uint8_t *bytes[MOST_MEMORIES];
    /* what is wrong with how the call left its memory, or null */
    const char *fault;
};

/* The two programs. */
struct program;
extern const struct program library;
extern const struct program second;

/* A question with room for MOST_BYTES in each memory. */
struct question new_question(void);
void free_question(struct question *q);

/* Makes `to` the same question as `from`. */
void copy_question(struct question *to, const struct question *from);

/*
 * Asks the question: the answer, and in the question the memory as the call
 * left it. Every memory is lent from a place of its own between guards, in turn
 * with an unreadable page after it, with one before it, with guard bytes on
 * both sides, and from the heap; what is empty is lent as null in turn. `fault`
 * says whether bytes outside the lent ones changed, or bytes that the call only
 * reads, or any byte on a refusal.
 */
uint8_t ask(const struct program *program, struct question *q);

/* Whether two questions hold the same memory; if not, the first memory and the
   first place that differ. */
bool same_memory(const struct question *a, const struct question *b,
                 int *memory, size_t *place);

#endif
