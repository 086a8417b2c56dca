/*
 * A day at a small site, with the calls of Yazhmandu.
 *
 * Two handhelds are docked, and their scans get times and become a scan table.
 * Two proposers have three acceptors agree on which scans count; learners hear
 * of it, and then it is known where a crate is.
 *
 * The record of each party lies in a file. After a call it is stored, and only
 * then is anything sent or shown that the call said. So the program may be
 * killed at any point: started again, it goes on from its files and sends again
 * what may be lost.
 *
 * usage: site begin DIRECTORY   begins a run: the folder with its records
 *        site DIRECTORY         does the day's work, or what is left of it
 */
#define _POSIX_C_SOURCE 200809L

#include <fcntl.h>
#include <inttypes.h>
#include <stdio.h>
#include <stdlib.h>
#include <string.h>
#include <sys/stat.h>
#include <unistd.h>

#include <yazhmandu.h>

/* The run: two proposers, three acceptors, two learners, four scans. */
enum { PROPOSERS = 2, ACCEPTORS = 3, LEARNERS = 2, SCANS = 4 };

/* A party: its record, and the file in which it is stored. Here one program has
   all parties of the run. */
struct party {
    char file[16];
    size_t length;
    uint8_t record[YMD_LEARNER_BYTES(YMD_MOST_PROPOSERS)]; /* the longest */
};

static struct party proposers[PROPOSERS], acceptors[ACCEPTORS],
    learners[LEARNERS];

struct scan {
    uint64_t tag, shelf, device;
    uint32_t tick;
    uint64_t time;
};

/* What the handhelds bring to the dock; the times are not known yet. */
static struct scan scans[SCANS] = {
    {4711, 12, 17, 4294907296u, 0}, /* before handheld 17's tick wrapped */
    {90, 3, 17, 1000, 0},           /* and after */
    {4711, 200, 42, 4294960000u, 0},
    {90, 3, 42, 4294967295u, 0},
};

static _Noreturn void fail(const char *what)
{
    perror(what);
    exit(EXIT_FAILURE);
}

/* Every call returns 0 or the number of its refusal. */
static void must(uint8_t answer, const char *what)
{
    if (answer != YMD_OK) {
        fprintf(stderr, "%s refused %d\n", what, answer);
        exit(EXIT_FAILURE);
    }
}

/* Whether a call was enabled; where it was not, it changed nothing. */
static int enabled(uint8_t answer, const char *what)
{
    if (answer == YMD_NOT_ENABLED)
        return 0;
    must(answer, what);
    return 1;
}

/* ---- The dock ---- */

/* A handheld is docked: its scans get their times. */
static void dock(uint64_t device, uint32_t dock_tick, uint64_t dock_time)
{
    printf("handheld %" PRIu64 " docked at %" PRIu64 "\n", device, dock_time);
    for (int i = 0; i < SCANS; i++) {
        struct scan *s = &scans[i];
        if (s->device != device)
            continue;
        must(ymd_clock(dock_tick, s->tick, dock_time, &s->time), "clock");
        printf("  scan %d: crate %" PRIu64 " on shelf %" PRIu64 " at %" PRIu64
               "\n",
               i, s->tag, s->shelf, s->time);
    }
}

/* A number in the written form: seven bits a byte, low ones first, the top bit
   set while more follow. */
static size_t put_number(uint8_t *bytes, size_t at, uint64_t number)
{
    for (; number >= 0x80; number >>= 7)
        bytes[at++] = (uint8_t)(number | 0x80);
    bytes[at++] = (uint8_t)number;
    return at;
}

/* The scans as a scan table: S, then tag, shelf, device and time of each. */
static size_t put_table(uint8_t *bytes)
{
    size_t at = put_number(bytes, 0, SCANS);
    for (int i = 0; i < SCANS; i++) {
        at = put_number(bytes, at, scans[i].tag);
        at = put_number(bytes, at, scans[i].shelf);
        at = put_number(bytes, at, scans[i].device);
        at = put_number(bytes, at, scans[i].time);
    }
    return at;
}

/* The set of a handheld's scans: scan 0 is the lowest bit of byte 0. */
static void put_scans_of(uint64_t device, uint8_t set[YMD_SET_BYTES])
{
    memset(set, 0, YMD_SET_BYTES);
    for (int i = 0; i < SCANS; i++)
        if (scans[i].device == device)
            set[i / 8] |= (uint8_t)(1 << i % 8);
}

/* The scans of a set, as they are shown. */
static const char *scans_in(const uint8_t set[YMD_SET_BYTES])
{
    static char text[4 * SCANS];
    size_t at = 0;
    text[0] = '\0';
    for (int i = 0; i < SCANS; i++)
        if (set[i / 8] >> i % 8 & 1)
            at += (size_t)snprintf(text + at, sizeof text - at, " %d", i);
    return text;
}

/* Whether every scan of a set is in another one. */
static int is_within(const uint8_t *set, const uint8_t *other)
{
    for (int i = 0; i < YMD_SET_BYTES; i++)
        if (set[i] & ~other[i])
            return 0;
    return 1;
}

/* ---- Records in files ---- */

/* At any moment the file holds the old record or the new one, whole. */
static void store(const struct party *party)
{
    int file = open("new", O_WRONLY | O_CREAT | O_TRUNC, 0600);
    if (file < 0 ||
        write(file, party->record, party->length) != (ssize_t)party->length ||
        fsync(file) != 0 || close(file) != 0 ||
        rename("new", party->file) != 0)
        fail(party->file);
    int directory = open(".", O_RDONLY);
    if (directory < 0 || fsync(directory) != 0)
        fail("directory");
    close(directory);
}

/* A record that is lost is not begun again: a party that does not know what it
   sent has no part in the run any more. One that is read is stored again: a kill
   may have come after it was written and before it was on the disk. */
static void load(struct party *party)
{
    int file = open(party->file, O_RDONLY);
    if (file < 0)
        fail(party->file);
    if (read(file, party->record, party->length) != (ssize_t)party->length) {
        fprintf(stderr, "%s: cut short\n", party->file);
        exit(EXIT_FAILURE);
    }
    close(file);
    store(party);
}

/* The record of a party that has just begun is 1 (alive), then zeros. */
static void begin(struct party *party)
{
    memset(party->record, 0, party->length);
    party->record[0] = 1;
    store(party);
}

/* Names the parties of a role, and begins or loads each. */
static void prepare(struct party *parties, int count, const char *role,
                    size_t length, void (*act)(struct party *))
{
    for (int i = 0; i < count; i++) {
        snprintf(parties[i].file, sizeof parties[i].file, "%s%d", role, i);
        parties[i].length = length;
        act(&parties[i]);
    }
}

static void prepare_all(void (*act)(struct party *))
{
    prepare(proposers, PROPOSERS, "proposer", YMD_PROPOSER_BYTES, act);
    prepare(acceptors, ACCEPTORS, "acceptor", YMD_ACCEPTOR_BYTES, act);
    prepare(learners, LEARNERS, "learner", YMD_LEARNER_BYTES(PROPOSERS), act);
}

/* ---- The parties: each calls, stores, and then sends or shows ---- */

static void answer(int a, const uint8_t *set, uint8_t reply[YMD_REPLY_BYTES])
{
    struct party *me = &acceptors[a];
    must(ymd_answer_proposal(SCANS, me->record, me->length, set, YMD_SET_BYTES,
                             reply),
         "proposal");
    store(me);
}

static void show_learnt(int l)
{
    printf("learner %d learnt:%s\n", l,
           scans_in(learners[l].record + YMD_LEARNER_LEARNT));
}

static void hear(int l, int p, int a, uint64_t number, const uint8_t *set)
{
    struct party *me = &learners[l];
    uint8_t learns;
    must(ymd_hear(PROPOSERS, ACCEPTORS, SCANS, me->record, me->length,
                  (uint64_t)p, (uint64_t)a, number, set, YMD_SET_BYTES,
                  &learns),
         "hear");
    store(me);
    if (learns)
        show_learnt(l);
}

/* The proposal that stands in the proposer's record goes to every acceptor, and
   each reply to those that it is for. Sent again, after a kill or because
   answers are missing, the same number and set are a copy. */
static void send_proposal(int p)
{
    struct party *me = &proposers[p];
    const uint8_t *set = me->record + YMD_PROPOSER_PROPOSED;
    uint64_t number = me->record[YMD_PROPOSER_NUMBER] +
                      256u * me->record[YMD_PROPOSER_NUMBER + 1];
    printf("proposer %d, proposal %" PRIu64 ":%s\n", p, number, scans_in(set));
    for (int a = 0; a < ACCEPTORS; a++) {
        uint8_t reply[YMD_REPLY_BYTES];
        answer(a, set, reply);
        printf("  acceptor %d %s:%s\n", a,
               reply[YMD_REPLY_ACCEPTED] ? "acknowledges" : "rejects",
               scans_in(reply + YMD_REPLY_SET));
        if (reply[YMD_REPLY_ACCEPTED]) {
            must(ymd_acknowledged(ACCEPTORS, SCANS, me->record, me->length,
                                  (uint64_t)a, number),
                 "acknowledgement");
            store(me);
            for (int l = 0; l < LEARNERS; l++)
                hear(l, p, a, number, reply + YMD_REPLY_SET);
        } else {
            must(ymd_rejected(ACCEPTORS, SCANS, me->record, me->length,
                              (uint64_t)a, number, reply + YMD_REPLY_SET,
                              YMD_SET_BYTES),
                 "rejection");
            store(me);
        }
    }
}

/* Has a proposer agree on a set. Its record says how far it has come. */
static void agree(int p, const uint8_t *set)
{
    struct party *me = &proposers[p];
    /* to buffer again what is proposed already would cost a number */
    if (!is_within(set, me->record + YMD_PROPOSER_BUFFERED) &&
        !is_within(set, me->record + YMD_PROPOSER_PROPOSED)) {
        must(ymd_buffer(ACCEPTORS, SCANS, me->record, me->length, set,
                        YMD_SET_BYTES),
             "buffer");
        store(me);
    }
    /* not enabled while a proposal is under way, or with nothing buffered */
    if (enabled(ymd_propose(ACCEPTORS, SCANS, me->record, me->length),
                "propose"))
        store(me);
    while (me->record[YMD_PROPOSER_ACTIVE]) {
        send_proposal(p);
        if (enabled(ymd_decide(ACCEPTORS, SCANS, me->record, me->length),
                    "decide") ||
            enabled(ymd_refine(ACCEPTORS, SCANS, me->record, me->length),
                    "refine"))
            store(me);
    }
    printf("proposer %d decided:%s\n", p,
           scans_in(me->record + YMD_PROPOSER_DECIDED));
}

/* ---- The shelf question ---- */

/* Asked by what learner 0 has learnt. */
static void where_is(const uint8_t *table, size_t length, uint64_t tag)
{
    uint64_t found[YMD_FOUND_NUMBERS];
    must(ymd_where_is(table, length, learners[0].record + YMD_LEARNER_LEARNT,
                      YMD_SET_BYTES, tag, found),
         "shelf question");
    if (!found[YMD_FOUND_SHOWN])
        printf("crate %" PRIu64 ": not seen\n", tag);
    else
        printf("crate %" PRIu64 ": shelf %" PRIu64 ", seen at %" PRIu64
               " by scan %" PRIu64 "\n",
               tag, found[YMD_FOUND_SHELF], found[YMD_FOUND_TIME],
               found[YMD_FOUND_SCAN]);
}

static void work(void)
{
    uint8_t table[YMD_MOST_TABLE_BYTES], set[YMD_SET_BYTES];
    dock(17, 5000, 1789000000000);
    dock(42, 20000, 1789000003000);

    size_t length = put_table(table);
    printf("table: %zu bytes, verdict %d; cut short, verdict %d\n", length,
           ymd_check_table(table, length), ymd_check_table(table, length - 1));

    for (int l = 0; l < LEARNERS; l++)
        show_learnt(l);
    put_scans_of(17, set);
    agree(0, set);
    where_is(table, length, 4711);
    put_scans_of(42, set);
    agree(1, set);
    where_is(table, length, 4711);
    where_is(table, length, 90);
    where_is(table, length, 5);
}

int main(int argc, char **argv)
{
    int begins = argc == 3 && strcmp(argv[1], "begin") == 0;
    if (argc != 2 && !begins) {
        fprintf(stderr, "usage: site [begin] DIRECTORY\n");
        return EXIT_FAILURE;
    }
    const char *folder = argv[argc - 1];
    /* a run begins once, in a folder of its own */
    if (begins && mkdir(folder, 0700) != 0)
        fail(folder);
    if (chdir(folder) != 0)
        fail(folder);
    prepare_all(begins ? begin : load);
    if (!begins)
        work();
    return EXIT_SUCCESS;
}
