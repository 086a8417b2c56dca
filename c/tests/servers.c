/*
 * Site servers on a network, by the calls alone. In random runs each party's
 * record is stored before anything of it is sent; messages are lost, copied,
 * delayed and reordered; parties are killed and go on from their records as
 * last stored, or stay down. Demand 3 is checked of the stored records at every
 * step. Then servers that do one thing wrong: each has to break the sentence
 * of demand 3 that it is about, so that the checks are known to see it.
 * `servers RUNS [SEED]`. One line for each test; the last line is 'N passed, M
 * failed'.
 */
#include <inttypes.h>
#include <stdio.h>
#include <stdlib.h>
#include <string.h>

#include "draw.h"
#include "yazhmandu.h"

/* What is checked. */
enum sentence {
    COMPARABLE,
    NEVER_SHRINKS,
    RECEIVED,
    MOST_ACCEPTED,
    FOUND_LATER,
    NOT_REFUSED,
    SENTENCES
};

static const char *const sentences[SENTENCES] = {
    [COMPARABLE] = "of two sets learnt or decided one contains the other",
    [NEVER_SHRINKS] = "what is learnt never shrinks",
    [RECEIVED] = "only received scans",
    [MOST_ACCEPTED] = "a majority accepted the set",
    [FOUND_LATER] = "a tag is found in a larger set too, no earlier",
    [NOT_REFUSED] = "no call is refused that the protocol makes",
};

/* What a server may do wrong, and the sentence that breaks. */
enum fault {
    NOTHING,
    BEGINS_AFRESH,
    REPLIES_FIRST,
    FORGETS_LEARNT,
    INVENTS_SCANS,
    FAULTS
};

static const struct {
    const char *what;
    enum sentence breaks;
} faults[FAULTS] = {
    [BEGINS_AFRESH] = {"a killed proposer begins afresh", COMPARABLE},
    [REPLIES_FIRST] = {"an acceptor replies before it stores", MOST_ACCEPTED},
    [FORGETS_LEARNT] = {"a killed learner begins afresh", NEVER_SHRINKS},
    [INVENTS_SCANS] = {"a message comes that nobody sent", RECEIVED},
};

enum {
    STEPS = 2000,
    /* what is sent past these is lost */
    MOST_SENT = 16384,
    MOST_UNSENT = 128,
    /* no step makes more than one set learnt or decided, or accepted */
    MOST_SETS = STEPS + 1,
    TAGS = 4
};

/* ---- Messages and records ---- */

enum kind { INTERNAL, PROPOSAL, ACKNOWLEDGEMENT, REJECTION, ANNOUNCEMENT };

struct message {
    enum kind kind;
    unsigned to, proposer, acceptor;
    uint64_t number, set;
};

/* A party: its record now and as stored, and what the calls since the last
   store made happen, which a kill undoes. */
struct party {
    bool down;
    size_t length;
    uint8_t now[YMD_LEARNER_BYTES(YMD_MOST_PROPOSERS)];
    uint8_t stored[YMD_LEARNER_BYTES(YMD_MOST_PROPOSERS)];
    struct message unsent[MOST_UNSENT];
    size_t unsents;
    uint64_t received;
    uint64_t accepted[MOST_UNSENT];
    size_t accepts;
};

struct run {
    struct rng rng;
    enum fault fault;
    uint16_t proposers, acceptors, learners, scans;
    struct party proposer[YMD_MOST_PROPOSERS];
    struct party acceptor[YMD_MOST_ACCEPTORS];
    struct party learner[YMD_MOST_LEARNERS];
    /* every message that was ever sent: each may come again at any time */
    struct message sent[MOST_SENT];
    size_t sents;
    uint8_t table[YMD_MOST_TABLE_BYTES];
    size_t table_length;
    /* what has happened, as far as it was stored */
    uint64_t received;
    uint64_t accepted[YMD_MOST_ACCEPTORS][MOST_SETS];
    size_t accepts[YMD_MOST_ACCEPTORS];
    /* the sets learnt or decided so far, each once, and by each learner last */
    uint64_t given[MOST_SETS];
    size_t givens;
    uint64_t learnt[YMD_MOST_LEARNERS];
    bool broken[SENTENCES];
};

/* What came up in all runs of a test. */
static struct {
    uint64_t calls, kills, undone, learnt, decided, refined;
} seen;

static uint64_t get_set(const uint8_t *bytes)
{
    uint64_t set = 0;
    for (int i = YMD_SET_BYTES; i-- > 0;)
        set = set << 8 | bytes[i];
    return set;
}

static uint64_t get_number(const uint8_t *record)
{
    return record[YMD_PROPOSER_NUMBER] + 256u * record[YMD_PROPOSER_NUMBER + 1];
}

static bool within(uint64_t set, uint64_t other)
{
    return (set & ~other) == 0;
}

/* The record of a party that has just begun: 1, then zeros. */
static void begin(struct party *party, size_t length)
{
    memset(party, 0, sizeof *party);
    party->length = length;
    party->now[0] = party->stored[0] = 1;
}

/* ---- Demand 3 ---- */

static bool most_accepted(const struct run *r, uint64_t set)
{
    unsigned count = 0;
    for (unsigned j = 0; j < r->acceptors; j++)
        for (size_t i = 0; i < r->accepts[j]; i++)
            if (r->accepted[j][i] == set) {
                count++;
                break;
            }
    return count >= r->acceptors / 2u + 1;
}

/* A tag found in the smaller set is found in the larger, no earlier. */
static void check_shelf(struct run *r, uint64_t smaller, uint64_t larger)
{
    uint8_t sets[2][YMD_SET_BYTES];
    put_low_first(sets[0], YMD_SET_BYTES, smaller);
    put_low_first(sets[1], YMD_SET_BYTES, larger);
    for (uint64_t tag = 0; tag < TAGS; tag++) {
        uint64_t found[2][YMD_FOUND_NUMBERS] = {{0}};
        for (int i = 0; i < 2; i++)
            if (ymd_where_is(r->table, r->table_length, sets[i], YMD_SET_BYTES,
                             tag, found[i]) != YMD_OK)
                r->broken[NOT_REFUSED] = true;
        if (found[0][YMD_FOUND_SHOWN] > found[1][YMD_FOUND_SHOWN] ||
            found[0][YMD_FOUND_TIME] > found[1][YMD_FOUND_TIME])
            r->broken[FOUND_LATER] = true;
    }
}

/* A set that is learnt or decided in a stored record. */
static void check_given(struct run *r, uint64_t set)
{
    for (size_t i = 0; i < r->givens; i++)
        if (r->given[i] == set)
            return;
    if (!within(set, r->received))
        r->broken[RECEIVED] = true;
    if (set != 0 && !most_accepted(r, set))
        r->broken[MOST_ACCEPTED] = true;
    for (size_t i = 0; i < r->givens; i++)
        if (within(r->given[i], set))
            check_shelf(r, r->given[i], set);
        else if (within(set, r->given[i]))
            check_shelf(r, set, r->given[i]);
        else
            r->broken[COMPARABLE] = true;
    r->given[r->givens++] = set;
}

static void check_records(struct run *r)
{
    for (unsigned i = 0; i < r->proposers; i++)
        check_given(r, get_set(r->proposer[i].stored + YMD_PROPOSER_DECIDED));
    for (unsigned l = 0; l < r->learners; l++) {
        uint64_t learnt = get_set(r->learner[l].stored + YMD_LEARNER_LEARNT);
        if (!within(r->learnt[l], learnt))
            r->broken[NEVER_SHRINKS] = true;
        seen.learnt += learnt != r->learnt[l];
        r->learnt[l] = learnt;
        check_given(r, learnt);
    }
}

/* ---- What is sent to whom ---- */

static void send(struct run *r, const struct message *m)
{
    if (r->sents < MOST_SENT)
        r->sent[r->sents++] = *m;
}

static void say(struct party *from, struct message m)
{
    if (from->unsents < MOST_UNSENT)
        from->unsent[from->unsents++] = m;
}

/* The number and the set that stand in its record, to an acceptor. */
static void ask_acceptor(struct party *from, unsigned i, unsigned to)
{
    say(from, (struct message){
                  .kind = PROPOSAL,
                  .to = to,
                  .proposer = i,
                  .number = get_number(from->now),
                  .set = get_set(from->now + YMD_PROPOSER_PROPOSED),
              });
}

static void ask_all(struct run *r, unsigned i)
{
    for (unsigned j = 0; j < r->acceptors; j++)
        ask_acceptor(&r->proposer[i], i, j);
}

/* ---- Stores and kills ---- */

/* The record is stored; then what the calls said is sent, or is lost. */
static void store(struct run *r, struct party *party, unsigned number)
{
    memcpy(party->stored, party->now, party->length);
    r->received |= party->received;
    for (size_t i = 0; i < party->accepts; i++)
        r->accepted[number][r->accepts[number]++] = party->accepted[i];
    for (size_t i = 0; i < party->unsents; i++)
        if (!one_in(&r->rng, 10))
            send(r, &party->unsent[i]);
    party->unsents = party->accepts = 0;
    party->received = 0;
}

/* The party goes on from its record as last stored, or stays down. */
static void kill_party(struct run *r, struct party *party, bool afresh)
{
    seen.kills++;
    seen.undone += memcmp(party->now, party->stored, party->length) != 0;
    memcpy(party->now, party->stored, party->length);
    party->unsents = party->accepts = 0;
    party->received = 0;
    party->down = one_in(&r->rng, 20);
    if (afresh)
        begin(party, party->length);
}

/* What a call left is stored at once, or with what later calls leave. */
static void after_call(struct run *r, struct party *party, unsigned number)
{
    seen.calls++;
    if (!one_in(&r->rng, 4) || party->unsents > MOST_UNSENT / 2 ||
        party->accepts == MOST_UNSENT)
        store(r, party, number);
}

/* ---- Calls ---- */

static void must(struct run *r, uint8_t answer)
{
    if (answer != YMD_OK)
        r->broken[NOT_REFUSED] = true;
}

static void receive(struct run *r, unsigned i)
{
    struct party *party = &r->proposer[i];
    uint64_t set = UINT64_C(1) << below(&r->rng, r->scans);
    uint8_t bytes[YMD_SET_BYTES];
    put_low_first(bytes, sizeof bytes, set);
    must(r, ymd_buffer(r->acceptors, r->scans, party->now, party->length, bytes,
                       sizeof bytes));
    party->received |= set;
    for (unsigned to = 0; to < r->proposers; to++)
        if (to != i)
            say(party,
                (struct message){.kind = INTERNAL, .to = to, .set = set});
    after_call(r, party, i);
}

static void answer_proposal(struct run *r, const struct message *m,
                            const uint8_t *set)
{
    struct party *party = &r->acceptor[m->to];
    uint8_t reply[YMD_REPLY_BYTES];
    must(r, ymd_answer_proposal(r->scans, party->now, party->length, set,
                                YMD_SET_BYTES, reply));
    struct message answer = {
        .kind = reply[YMD_REPLY_ACCEPTED] ? ACKNOWLEDGEMENT : REJECTION,
        .to = m->proposer,
        .proposer = m->proposer,
        .acceptor = m->to,
        .number = m->number,
        .set = get_set(reply + YMD_REPLY_SET),
    };
    say(party, answer);
    if (reply[YMD_REPLY_ACCEPTED]) {
        party->accepted[party->accepts++] = answer.set;
        answer.kind = ANNOUNCEMENT;
        for (answer.to = 0; answer.to < r->learners; answer.to++)
            say(party, answer);
    }
    if (r->fault == REPLIES_FIRST) {
        for (size_t i = 0; i < party->unsents; i++)
            send(r, &party->unsent[i]);
        party->unsents = 0;
    }
    after_call(r, party, m->to);
}

static void hear(struct run *r, const struct message *m, const uint8_t *set)
{
    struct party *party = &r->learner[m->to];
    uint8_t learns;
    must(r, ymd_hear(r->proposers, r->acceptors, r->scans, party->now,
                     party->length, m->proposer, m->acceptor, m->number, set,
                     YMD_SET_BYTES, &learns));
    after_call(r, party, m->to);
}

/* A message comes that was once sent. */
static void deliver(struct run *r, const struct message *m)
{
    struct party *party = m->kind == PROPOSAL       ? &r->acceptor[m->to]
                          : m->kind == ANNOUNCEMENT ? &r->learner[m->to]
                                                    : &r->proposer[m->to];
    uint8_t set[YMD_SET_BYTES];
    if (party->down)
        return;
    put_low_first(set, sizeof set, m->set);
    switch (m->kind) {
    case PROPOSAL:
        answer_proposal(r, m, set);
        return;
    case ANNOUNCEMENT:
        hear(r, m, set);
        return;
    case INTERNAL:
        must(r, ymd_buffer(r->acceptors, r->scans, party->now, party->length,
                           set, sizeof set));
        break;
    case ACKNOWLEDGEMENT:
        must(r, ymd_acknowledged(r->acceptors, r->scans, party->now,
                                 party->length, m->acceptor, m->number));
        break;
    case REJECTION:
        must(r, ymd_rejected(r->acceptors, r->scans, party->now, party->length,
                             m->acceptor, m->number, set, sizeof set));
        break;
    }
    after_call(r, party, m->to);
}

/* The proposer decides, refines or proposes, whichever is enabled. */
static void go_on(struct run *r, unsigned i)
{
    struct party *party = &r->proposer[i];
    if (ymd_decide(r->acceptors, r->scans, party->now, party->length) ==
        YMD_OK) {
        seen.decided++;
    } else if (ymd_refine(r->acceptors, r->scans, party->now, party->length) ==
               YMD_OK) {
        seen.refined++;
        ask_all(r, i);
    } else if (ymd_propose(r->acceptors, r->scans, party->now, party->length) ==
               YMD_OK) {
        ask_all(r, i);
    } else {
        return;
    }
    after_call(r, party, i);
}

/* ---- Runs ---- */

static void write_table(struct run *r)
{
    r->table_length = 0;
    write_number(r->table, &r->table_length, r->scans);
    for (unsigned k = 0; k < r->scans; k++) {
        write_number(r->table, &r->table_length, below(&r->rng, TAGS));
        write_number(r->table, &r->table_length, below(&r->rng, 500));
        write_number(r->table, &r->table_length, 1 + below(&r->rng, 255));
        write_number(r->table, &r->table_length, below(&r->rng, 20));
    }
}

static void begin_run(struct run *r, uint64_t seed, enum fault fault)
{
    memset(r, 0, sizeof *r);
    r->rng.state = seed;
    r->fault = fault;
    r->proposers = (uint16_t)(1 + below(&r->rng, YMD_MOST_PROPOSERS));
    r->acceptors = (uint16_t)(1 + below(&r->rng, YMD_MOST_ACCEPTORS));
    r->learners = (uint16_t)(1 + below(&r->rng, YMD_MOST_LEARNERS));
    r->scans = (uint16_t)(1 + below(&r->rng, YMD_MOST_SCANS));
    for (unsigned i = 0; i < r->proposers; i++)
        begin(&r->proposer[i], YMD_PROPOSER_BYTES);
    for (unsigned j = 0; j < r->acceptors; j++)
        begin(&r->acceptor[j], YMD_ACCEPTOR_BYTES);
    for (unsigned l = 0; l < r->learners; l++)
        begin(&r->learner[l], YMD_LEARNER_BYTES(r->proposers));
    write_table(r);
}

/* One of the messages ever sent, often one of the last. */
static struct message draw_message(struct run *r)
{
    size_t last = r->sents < 40 || one_in(&r->rng, 4) ? r->sents : 40;
    struct message m = r->sent[r->sents - 1 - below(&r->rng, last)];
    if (r->fault == INVENTS_SCANS && m.kind == INTERNAL)
        m.set = UINT64_C(1) << below(&r->rng, r->scans);
    return m;
}

static void kill_one(struct run *r)
{
    unsigned i = (unsigned)below(&r->rng, r->proposers);
    unsigned j = (unsigned)below(&r->rng, r->acceptors);
    unsigned l = (unsigned)below(&r->rng, r->learners);
    switch (below(&r->rng, 3)) {
    case 0:
        kill_party(r, &r->proposer[i], r->fault == BEGINS_AFRESH);
        break;
    case 1:
        kill_party(r, &r->acceptor[j], false);
        break;
    default:
        kill_party(r, &r->learner[l], r->fault == FORGETS_LEARNT);
        /* what it heard may be lost with it */
        if (one_in(&r->rng, 2))
            memset(r->learner[l].now + YMD_LEARNER_HEARD(0), 0,
                   r->learner[l].length - YMD_LEARNER_HEARD(0));
    }
}

static void step(struct run *r)
{
    unsigned i = (unsigned)below(&r->rng, r->proposers);
    uint64_t what = below(&r->rng, 100);
    if (what < 60) {
        if (r->sents > 0) {
            struct message m = draw_message(r);
            deliver(r, &m);
        }
    } else if (what < 97) {
        if (r->proposer[i].down)
            return;
        if (what < 65) {
            receive(r, i);
        } else if (what < 92) {
            go_on(r, i);
        } else if (get_number(r->proposer[i].now) > 0) {
            ask_acceptor(&r->proposer[i], i,
                         (unsigned)below(&r->rng, r->acceptors));
            after_call(r, &r->proposer[i], i);
        }
    } else {
        kill_one(r);
    }
}

/* A whole run, with demand 3 checked after every step. */
static const struct run *run(uint64_t seed, enum fault fault)
{
    static struct run r;
    begin_run(&r, seed, fault);
    for (int i = 0; i < STEPS; i++) {
        step(&r);
        check_records(&r);
    }
    return &r;
}

/* ---- Tests ---- */

static bool keep_demand_3(uint64_t runs, uint64_t seed)
{
    bool good = true;
    for (uint64_t i = 0; i < runs; i++) {
        const struct run *r = run(seed + i, NOTHING);
        for (int sentence = 0; sentence < SENTENCES; sentence++)
            if (r->broken[sentence]) {
                printf("  seed 0x%" PRIx64 " breaks: %s\n", seed + i,
                       sentences[sentence]);
                good = false;
            }
    }
    /* the runs have to come to what they are about */
    good = good && seen.undone > runs && seen.learnt > runs &&
           seen.decided > runs && seen.refined > runs;
    printf("servers keep demand 3, %" PRIu64 " runs: %" PRIu64
           " calls, %" PRIu64 " kills of which %" PRIu64
           " undid calls, %" PRIu64 " sets learnt, %" PRIu64
           " decided, %" PRIu64 " refined: %s\n",
           runs, seen.calls, seen.kills, seen.undone, seen.learnt, seen.decided,
           seen.refined, good ? "ok" : "failed");
    return good;
}

static bool is_found(enum fault fault, uint64_t runs, uint64_t seed)
{
    uint64_t found = 0;
    for (uint64_t i = 0; i < runs; i++)
        found += run(seed + i, fault)->broken[faults[fault].breaks];
    printf("servers where %s break '%s' in %" PRIu64 " of %" PRIu64
           " runs: %s\n",
           faults[fault].what, sentences[faults[fault].breaks], found, runs,
           found > 0 ? "ok" : "failed");
    return found > 0;
}

int main(int argc, char **argv)
{
    uint64_t runs = argc > 1 ? strtoull(argv[1], NULL, 10) : 1000;
    uint64_t seed = argc > 2 ? strtoull(argv[2], NULL, 0) : 0x570235;
    int failed = !keep_demand_3(runs, seed);
    for (int fault = NOTHING + 1; fault < FAULTS; fault++)
        failed += !is_found((enum fault)fault, runs / 4, seed);
    printf("%d passed, %d failed\n", FAULTS - failed, failed);
    return failed == 0 ? 0 : 1;
}
