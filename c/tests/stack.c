/*
 * ymd_run_text on threads with exactly the stack that the header says, an
 * unreadable page below it: the longest schedule and drawn ones. The line says
 * how many bytes of the stack were used.
 */
#define _DEFAULT_SOURCE

#include <pthread.h>
#include <stdio.h>
#include <stdlib.h>
#include <string.h>
#include <sys/mman.h>
#include <unistd.h>

#include "draw.h"
#include "yazhmandu.h"

enum { DRAWN = 100, UNUSED = 0xa5 };

static uint8_t *stack;
static struct question q;

static void check(bool holds, const char *what)
{
    if (!holds) {
        printf("%s\n", what);
        exit(EXIT_FAILURE);
    }
}

/* The text of the schedule in q's second memory. */
static void *make_text(void *answer)
{
    static uint8_t text[YMD_MOST_TEXT_BYTES];
    size_t length;
    *(uint8_t *)answer =
        ymd_run_text(text, sizeof text, q.bytes[1], q.lengths[1], &length);
    return NULL;
}

static void run_on_thread(void)
{
    pthread_attr_t attributes;
    pthread_t thread;
    uint8_t answer = UNUSED;
    check(pthread_attr_init(&attributes) == 0 &&
              pthread_attr_setstack(&attributes, stack,
                                    YMD_RUN_TEXT_STACK_BYTES) == 0 &&
              pthread_create(&thread, &attributes, make_text, &answer) == 0 &&
              pthread_join(thread, NULL) == 0,
          "no thread");
    check(answer == YMD_OK, "a text is refused");
    pthread_attr_destroy(&attributes);
}

static void write_longest(void)
{
    static const uint64_t header[] = {8, 7, 8, 512, 64, YMD_MOST_EVENTS};
    q.lengths[1] = 0;
    for (int i = 0; i < 6; i++)
        write_number(q.bytes[1], &q.lengths[1], header[i]);
    for (int i = 0; i < 3 * YMD_MOST_EVENTS; i++)
        write_number(q.bytes[1], &q.lengths[1], 65535);
}

int main(void)
{
    const size_t page = (size_t)sysconf(_SC_PAGESIZE);
    struct rng rng = {3};
    size_t unused = 0;
    uint8_t *memory =
        mmap(NULL, page + YMD_RUN_TEXT_STACK_BYTES, PROT_READ | PROT_WRITE,
             MAP_PRIVATE | MAP_ANONYMOUS, -1, 0);
    check(memory != MAP_FAILED && mprotect(memory, page, PROT_NONE) == 0,
          "no stack");
    stack = memory + page;
    memset(stack, UNUSED, YMD_RUN_TEXT_STACK_BYTES);

    q = new_question();
    write_longest();
    run_on_thread();
    for (int i = 0; i < DRAWN; i++) {
        draw_question(&rng, RUN_TEXT, &q);
        run_on_thread();
    }
    free_question(&q);

    while (unused < YMD_RUN_TEXT_STACK_BYTES && stack[unused] == UNUSED)
        unused++;
    printf("run text on threads with %d bytes of stack, %zu of them used: ok\n",
           YMD_RUN_TEXT_STACK_BYTES, YMD_RUN_TEXT_STACK_BYTES - unused);
    return EXIT_SUCCESS;
}
