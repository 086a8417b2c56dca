#include "draw.h"

#include <string.h>

#include "second.h"
#include "yazhmandu.h"

uint64_t next_number(struct rng *rng)
{
    uint64_t mixed = rng->state += UINT64_C(0x9e3779b97f4a7c15);
    mixed = (mixed ^ mixed >> 30) * UINT64_C(0xbf58476d1ce4e5b9);
    mixed = (mixed ^ mixed >> 27) * UINT64_C(0x94d049bb133111eb);
    return mixed ^ mixed >> 31;
}

uint64_t below(struct rng *rng, uint64_t count)
{
    return count == 0 ? 0 : next_number(rng) % count;
}

bool one_in(struct rng *rng, uint64_t count)
{
    return below(rng, count) == 0;
}

void write_number(uint8_t *bytes, size_t *length, uint64_t number)
{
    while (number >= 0x80) {
        bytes[(*length)++] = (uint8_t)(number | 0x80);
        number >>= 7;
    }
    bytes[(*length)++] = (uint8_t)number;
}

void put_low_first(uint8_t *bytes, size_t count, uint64_t number)
{
    for (size_t i = 0; i < count; i++)
        bytes[i] = (uint8_t)(number >> 8 * i);
}

static uint64_t low_first(const uint8_t *bytes, size_t count)
{
    uint64_t number = 0;
    while (count-- > 0)
        number = number << 8 | bytes[count];
    return number;
}

static uint64_t within(struct rng *rng, uint64_t least, uint64_t most)
{
    return least + below(rng, most - least + 1);
}

/* ---- sizes, sets, numbers ---- */

static const uint64_t odd_sizes[] = {
    0, 9, 8, 65, 66, 255, 256, 257, 65535, 65536, UINT32_MAX, UINT64_MAX,
};

/* A size, sometimes another one than `good`, which may be outside its range. */
static uint64_t draw_size(struct rng *rng, uint64_t good, uint64_t most)
{
    if (!one_in(rng, 40))
        return good;
    switch (below(rng, 3)) {
    case 0:
        return within(rng, 0, most + 1);
    case 1:
        /* one that ends in the bits of the good one */
        return good + (within(rng, 1, 255) << 8 * within(rng, 1, 7));
    default:
        return odd_sizes[below(rng, sizeof odd_sizes / sizeof *odd_sizes)];
    }
}

static uint64_t all_of(uint64_t count)
{
    return count >= 64 ? UINT64_MAX : (UINT64_C(1) << count) - 1;
}

static uint64_t draw_set(struct rng *rng, uint64_t count)
{
    uint64_t set = next_number(rng);
    switch (below(rng, 6)) {
    case 0:
        return 0;
    case 1:
        return all_of(count);
    case 2:
        return set & next_number(rng) & next_number(rng) & all_of(count);
    case 3:
        return UINT64_C(1) << below(rng, count);
    default:
        return set & all_of(count);
    }
}

/* A length, sometimes another one than `good`. */
static size_t draw_length(struct rng *rng, size_t good)
{
    if (!one_in(rng, 30))
        return good;
    switch (below(rng, 4)) {
    case 0:
        return 0;
    case 1:
        return good - 1;
    case 2:
        return good + 1;
    default:
        return (size_t)below(rng, 128);
    }
}

/* Flips a bit now and then. */
static void damage_bit(struct rng *rng, uint8_t *bytes, size_t length)
{
    if (length > 0 && one_in(rng, 12))
        bytes[below(rng, length)] ^= (uint8_t)(1 << below(rng, 8));
}

/* Memory i is a set within `count` scans, or damaged. */
static void draw_set_bytes(struct rng *rng, struct question *q, int i,
                           uint64_t count)
{
    memset(q->bytes[i], 0, 128);
    put_low_first(q->bytes[i], YMD_SET_BYTES, draw_set(rng, count));
    if (count < 64 && one_in(rng, 16))
        q->bytes[i][count / 8] |= (uint8_t)(1 << count % 8);
    q->lengths[i] = draw_length(rng, YMD_SET_BYTES);
}

static uint64_t draw_proposal_number(struct rng *rng)
{
    switch (below(rng, 4)) {
    case 0:
        return within(rng, 1, 3);
    case 1:
        return within(rng, YMD_MOST_NUMBER - 1, YMD_MOST_NUMBER);
    default:
        return within(rng, 1, YMD_MOST_NUMBER);
    }
}

/* The number of an answer, most often the current one. */
static uint64_t draw_answered(struct rng *rng, uint64_t current)
{
    switch (below(rng, 16)) {
    case 0:
        return current + 1;
    case 1:
        return current - 1;
    case 2:
        return current + UINT64_C(65536) * within(rng, 1, 3);
    case 3:
        return YMD_MOST_NUMBER + below(rng, 2);
    case 4:
        return 0;
    case 5:
        return next_number(rng) >> below(rng, 64);
    case 6:
        return draw_proposal_number(rng);
    default:
        return current;
    }
}

/* A party below `count`, most often. */
static uint64_t draw_party(struct rng *rng, uint64_t count)
{
    switch (below(rng, 24)) {
    case 0:
        return count;
    case 1:
        return below(rng, count) + UINT64_C(256) * within(rng, 1, 3);
    case 2:
        return next_number(rng) >> below(rng, 64);
    default:
        return below(rng, count);
    }
}

/* ---- records ---- */

/* Whether the party is alive. */
static uint8_t draw_alive(struct rng *rng)
{
    return !one_in(rng, 10);
}

static void draw_acceptor(struct rng *rng, struct question *q, uint64_t scans)
{
    uint8_t *record = q->bytes[0];
    memset(record, 0, 128);
    record[YMD_ACCEPTOR_ALIVE] = draw_alive(rng);
    put_low_first(record + YMD_ACCEPTOR_ACCEPTED, YMD_SET_BYTES,
                  draw_set(rng, scans));
    damage_bit(rng, record, YMD_ACCEPTOR_BYTES);
    q->lengths[0] = draw_length(rng, YMD_ACCEPTOR_BYTES);
}

static void draw_proposer(struct rng *rng, struct question *q,
                          uint64_t acceptors, uint64_t scans)
{
    uint8_t *record = q->bytes[0];
    uint64_t number = one_in(rng, 8) ? 0 : draw_proposal_number(rng);
    memset(record, 0, 128);
    record[YMD_PROPOSER_ALIVE] = draw_alive(rng);
    record[YMD_PROPOSER_ACTIVE] = number > 0 && !one_in(rng, 3);
    if (q->call == PROPOSE)
        record[YMD_PROPOSER_ACTIVE] = number > 0 && one_in(rng, 4);
    put_low_first(record + YMD_PROPOSER_BUFFERED, YMD_SET_BYTES,
                  draw_set(rng, scans));
    put_low_first(record + YMD_PROPOSER_PROPOSED, YMD_SET_BYTES,
                  draw_set(rng, scans));
    put_low_first(record + YMD_PROPOSER_GATHERED, YMD_SET_BYTES,
                  draw_set(rng, scans));
    put_low_first(record + YMD_PROPOSER_NUMBER, 2, number);
    record[YMD_PROPOSER_ACKNOWLEDGED] = (uint8_t)draw_set(rng, acceptors);
    record[YMD_PROPOSER_REJECTED] = (uint8_t)draw_set(rng, acceptors);
    put_low_first(record + YMD_PROPOSER_DECIDED, YMD_SET_BYTES,
                  draw_set(rng, scans));
    damage_bit(rng, record, YMD_PROPOSER_BYTES);
    q->lengths[0] = draw_length(rng, YMD_PROPOSER_BYTES);
}

static void draw_learner(struct rng *rng, struct question *q,
                         uint64_t proposers, uint64_t acceptors, uint64_t scans)
{
    uint8_t *record = q->bytes[0];
    memset(record, 0, 256);
    record[YMD_LEARNER_ALIVE] = draw_alive(rng);
    put_low_first(record + YMD_LEARNER_LEARNT, YMD_SET_BYTES,
                  draw_set(rng, scans) & draw_set(rng, scans));
    for (uint64_t p = 0; p < proposers; p++) {
        uint8_t *heard = record + YMD_LEARNER_HEARD(p);
        uint64_t number = one_in(rng, 4) ? 0 : draw_proposal_number(rng);
        put_low_first(heard + YMD_HEARD_NUMBER, 2, number);
        put_low_first(heard + YMD_HEARD_SET, YMD_SET_BYTES,
                      draw_set(rng, scans));
        heard[YMD_HEARD_ACCEPTORS] = (uint8_t)draw_set(rng, acceptors);
    }
    damage_bit(rng, record, YMD_LEARNER_BYTES(proposers));
    q->lengths[0] = draw_length(rng, YMD_LEARNER_BYTES(proposers));
}

/* ---- written forms ---- */

/* Changes, removes, inserts or appends bytes, or cuts them. */
static void damage_form(struct rng *rng, uint8_t *bytes, size_t *length)
{
    static const uint8_t odd[] = {0, 1, 0x7f, 0x80, 0x81, 0xff, 3, 4, 64, 65};
    for (uint64_t left = within(rng, 1, 3); left > 0; left--) {
        size_t place = (size_t)below(rng, *length);
        uint8_t byte = one_in(rng, 2) ? odd[below(rng, sizeof odd)]
                                      : (uint8_t)next_number(rng);
        switch (*length == 0 ? 5 : below(rng, 6)) {
        case 0:
            bytes[place] = byte;
            break;
        case 1:
            bytes[place] ^= (uint8_t)(1 << below(rng, 8));
            break;
        case 2:
            memmove(bytes + place + 1, bytes + place, *length - place);
            bytes[place] = byte;
            ++*length;
            break;
        case 3:
            memmove(bytes + place, bytes + place + 1, *length - place - 1);
            --*length;
            break;
        case 4:
            *length = place;
            break;
        default:
            bytes[(*length)++] = byte;
            break;
        }
    }
}

/* A value, or one just outside its range now and then. */
static uint64_t draw_field(struct rng *rng, uint64_t value, uint64_t outside)
{
    return one_in(rng, 400) ? outside : value;
}

/* Memory i is a scan table, or damaged; the number of its scans. */
static uint64_t draw_table(struct rng *rng, struct question *q, int i)
{
    uint8_t *bytes = q->bytes[i];
    uint64_t scans = one_in(rng, 4) ? within(rng, 1, 64) : within(rng, 1, 9);
    size_t length = 0;
    write_number(bytes, &length,
                 draw_field(rng, scans, one_in(rng, 2) ? 0 : 65));
    for (uint64_t scan = 0; scan < scans; scan++) {
        uint64_t tag =
            one_in(rng, 8) ? YMD_MOST_TAG - below(rng, 3) : below(rng, 4);
        uint64_t shelf = one_in(rng, 8) ? YMD_MOST_SHELF : below(rng, 300);
        uint64_t device = within(rng, 1, 255);
        uint64_t time = one_in(rng, 8) ? YMD_MOST_TIME - below(rng, 3)
                                       : below(rng, 5) << below(rng, 45);
        write_number(bytes, &length, draw_field(rng, tag, YMD_MOST_TAG + 1));
        write_number(bytes, &length,
                     draw_field(rng, shelf, YMD_MOST_SHELF + 1));
        write_number(bytes, &length,
                     draw_field(rng, device, one_in(rng, 2) ? 0 : 256));
        write_number(bytes, &length, draw_field(rng, time, YMD_MOST_TIME + 1));
    }
    q->lengths[i] = length;
    if (one_in(rng, 3))
        damage_form(rng, bytes, &q->lengths[i]);
    return scans;
}

struct run_sizes {
    uint64_t proposers, acceptors, learners, slots, scans;
};

static void draw_event(struct rng *rng, const struct run_sizes *z,
                       uint64_t event[3])
{
    static const uint8_t codes[] = {1, 1, 2, 2, 2, 2, 2, 2, 2, 2, 2, 2, 2,
                                    2, 3, 4, 5, 5, 5, 6, 6, 7, 7, 8, 0, 9};
    uint64_t code = codes[below(rng, sizeof codes)];
    if (code == 8 && !one_in(rng, 6))
        code = 2;
    event[0] = code;
    event[1] = below(rng, z->proposers);
    event[2] = 0;
    if (code == 1)
        event[2] = below(rng, z->scans);
    else if (code >= 2 && code <= 4)
        event[1] = below(rng, one_in(rng, 8) ? z->slots : 14);
    else if (code == 8) {
        event[1] = within(rng, 1, 3);
        event[2] = below(rng, 3);
    }
    if (one_in(rng, 60))
        event[below(rng, 3)] = next_number(rng) >> below(rng, 16) & 0xffff;
}

/* Memory i is a schedule, or damaged. */
static void draw_schedule(struct rng *rng, struct question *q, int i)
{
    uint8_t *bytes = q->bytes[i];
    struct run_sizes z = {within(rng, 1, 8), within(rng, 1, 7),
                          within(rng, 1, 8), within(rng, 16, 512),
                          within(rng, 1, 64)};
    if (!one_in(rng, 3)) {
        z.proposers = within(rng, 1, 3);
        z.acceptors = within(rng, 1, 3);
        z.learners = within(rng, 1, 2);
        z.slots = within(rng, 16, 40);
    }
    uint64_t events = below(rng, one_in(rng, 20) ? 600 : 60);
    if (one_in(rng, 300))
        events = YMD_MOST_EVENTS + below(rng, 2);
    uint64_t header[] = {z.proposers, z.acceptors, z.learners,
                         z.slots,     z.scans,     events};
    if (one_in(rng, 12)) {
        static const uint64_t outside[] = {0,   9,  8,     9,    15,
                                           513, 65, 65535, 65536};
        header[below(rng, 5)] =
            outside[below(rng, sizeof outside / sizeof *outside)];
    }
    size_t length = 0;
    for (int n = 0; n < 6; n++)
        write_number(bytes, &length, header[n]);
    for (uint64_t e = 0; e < events; e++) {
        uint64_t event[3];
        draw_event(rng, &z, event);
        for (int n = 0; n < 3; n++)
            write_number(bytes, &length, event[n]);
    }
    q->lengths[i] = length;
    if (one_in(rng, 4))
        damage_form(rng, bytes, &q->lengths[i]);
}

/* Memory 0 is room for the text of the schedule in memory 1: as much as it
   needs, about that much, or any. */
static void draw_text_room(struct rng *rng, struct question *q)
{
    size_t needed = 0;
    (void)second_run_text(q->bytes[0], MOST_BYTES, q->bytes[1], q->lengths[1],
                          &needed);
    switch (below(rng, 8)) {
    case 0:
        q->lengths[0] = needed - 1;
        break;
    case 1:
        q->lengths[0] = needed;
        break;
    case 2:
        q->lengths[0] = (size_t)below(rng, needed);
        break;
    case 3:
        q->lengths[0] = one_in(rng, 4) ? 0 : YMD_MOST_TEXT_BYTES;
        break;
    default:
        q->lengths[0] = needed + (size_t)below(rng, 40);
        break;
    }
    memset(q->bytes[0], (int)below(rng, 256), q->lengths[0]);
}

/* ---- a question ---- */

static void draw_clock(struct rng *rng, struct question *q)
{
    uint32_t dock = (uint32_t)(next_number(rng) >> below(rng, 64));
    uint32_t scan = (uint32_t)(next_number(rng) >> below(rng, 64));
    uint64_t age = (uint32_t)(dock - scan);
    q->numbers[0] = dock;
    q->numbers[1] = scan;
    switch (below(rng, 4)) {
    case 0:
        q->numbers[2] = age + below(rng, 3) - 1;
        break;
    case 1:
        q->numbers[2] = YMD_MOST_TIME + below(rng, 3) - 1;
        break;
    case 2:
        q->numbers[2] = next_number(rng) >> below(rng, 64);
        break;
    default:
        q->numbers[2] = age + below(rng, YMD_MOST_TIME - age);
        break;
    }
}

void draw_question(struct rng *rng, enum call call, struct question *q)
{
    const struct shape *shape = &shapes[call];
    uint64_t proposers = within(rng, 1, YMD_MOST_PROPOSERS);
    uint64_t acceptors = within(rng, 1, YMD_MOST_ACCEPTORS);
    uint64_t scans = within(rng, 1, YMD_MOST_SCANS);
    uint64_t proposer;
    const uint8_t *heard;

    q->call = call;
    q->fault = NULL;
    memset(q->numbers, 0, sizeof q->numbers);
    switch (call) {
    case CLOCK:
        draw_clock(rng, q);
        break;
    case WHERE_IS:
        scans = draw_table(rng, q, 0);
        draw_set_bytes(rng, q, 1, scans);
        q->numbers[0] =
            one_in(rng, 8) ? YMD_MOST_TAG + below(rng, 4) - 2 : below(rng, 5);
        break;
    case ANSWER_PROPOSAL:
        draw_acceptor(rng, q, scans);
        draw_set_bytes(rng, q, 1, scans);
        if (q->lengths[0] == YMD_ACCEPTOR_BYTES && one_in(rng, 2))
            put_low_first(q->bytes[1], YMD_SET_BYTES,
                          low_first(q->bytes[1], YMD_SET_BYTES) |
                              low_first(q->bytes[0] + YMD_ACCEPTOR_ACCEPTED,
                                        YMD_SET_BYTES));
        q->numbers[0] = draw_size(rng, scans, YMD_MOST_SCANS);
        break;
    case HEAR:
        draw_learner(rng, q, proposers, acceptors, scans);
        draw_set_bytes(rng, q, 1, scans);
        proposer = draw_party(rng, proposers);
        heard = q->bytes[0] + YMD_LEARNER_HEARD(proposer % proposers);
        q->numbers[0] = draw_size(rng, proposers, YMD_MOST_PROPOSERS);
        q->numbers[1] = draw_size(rng, acceptors, YMD_MOST_ACCEPTORS);
        q->numbers[2] = draw_size(rng, scans, YMD_MOST_SCANS);
        q->numbers[3] = proposer;
        q->numbers[4] = draw_party(rng, acceptors);
        q->numbers[5] =
            draw_answered(rng, low_first(heard + YMD_HEARD_NUMBER, 2));
        break;
    case CHECK_SCHEDULE:
        draw_schedule(rng, q, 0);
        break;
    case CHECK_TABLE:
        draw_table(rng, q, 0);
        break;
    case RUN_TEXT:
        draw_schedule(rng, q, 1);
        draw_text_room(rng, q);
        break;
    default:
        /* the calls on a proposer's record */
        draw_proposer(rng, q, acceptors, scans);
        q->numbers[0] = draw_size(rng, acceptors, YMD_MOST_ACCEPTORS);
        q->numbers[1] = draw_size(rng, scans, YMD_MOST_SCANS);
        q->numbers[2] = draw_party(rng, acceptors);
        q->numbers[3] =
            draw_answered(rng, low_first(q->bytes[0] + YMD_PROPOSER_NUMBER, 2));
        draw_set_bytes(rng, q, 1, scans);
        break;
    }
    for (int i = 0; i < shape->memories; i++) {
        if (shape->memory[i].fixed == 0)
            continue;
        q->lengths[i] = shape->memory[i].fixed;
        for (size_t k = 0; k < q->lengths[i]; k++)
            q->bytes[i][k] = (uint8_t)next_number(rng);
    }
}
