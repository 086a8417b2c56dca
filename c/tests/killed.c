/*
 * The example killed at every point, and started again on what it stored: what
 * it shows keeps agreement, and it ends as it does without a kill. Then a
 * proposer that begins afresh, which the same check has to find out. One line
 * for each test; the last line is 'N passed, M failed'.
 */
#define _POSIX_C_SOURCE 200809L

#include <fcntl.h>
#include <inttypes.h>
#include <signal.h>
#include <stdbool.h>
#include <stdio.h>
#include <stdlib.h>
#include <string.h>
#include <sys/stat.h>
#include <sys/types.h>
#include <sys/wait.h>
#include <unistd.h>

#include <yazhmandu.h>

#include "draw.h"

/* ---- The example, with a point before whatever it calls ---- */

/* Points until the kill; 0 where there is none. */
static unsigned points_left;

static void point(void)
{
    if (points_left > 0 && --points_left == 0)
        raise(SIGKILL);
}

/* A point before a line is shown or the library is called. */
static void told(void);

/* A killed process loses nothing that it wrote, so nothing is synced here. */
#define fsync(file) (point(), (void)(file), 0)
#define open(...) (point(), open(__VA_ARGS__))
#define write(...) (point(), write(__VA_ARGS__))
#define close(...) (point(), close(__VA_ARGS__))
#define rename(...) (point(), rename(__VA_ARGS__))
#define printf(...) (told(), printf(__VA_ARGS__))
#define ymd_clock(...) (told(), ymd_clock(__VA_ARGS__))
#define ymd_where_is(...) (told(), ymd_where_is(__VA_ARGS__))
#define ymd_answer_proposal(...) (told(), ymd_answer_proposal(__VA_ARGS__))
#define ymd_hear(...) (told(), ymd_hear(__VA_ARGS__))
#define ymd_buffer(...) (told(), ymd_buffer(__VA_ARGS__))
#define ymd_propose(...) (told(), ymd_propose(__VA_ARGS__))
#define ymd_acknowledged(...) (told(), ymd_acknowledged(__VA_ARGS__))
#define ymd_rejected(...) (told(), ymd_rejected(__VA_ARGS__))
#define ymd_refine(...) (told(), ymd_refine(__VA_ARGS__))
#define ymd_decide(...) (told(), ymd_decide(__VA_ARGS__))
#define ymd_check_table(...) (told(), ymd_check_table(__VA_ARGS__))
#define main site

#include "../../examples/site.c"

#undef fsync
#undef open
#undef write
#undef close
#undef rename
#undef printf
#undef main

/* Whether every record has to be stored at such a point. */
static bool watched;

static void hold_to_file(struct party *party)
{
    uint8_t stored[sizeof party->record] = {0};
    FILE *file = fopen(party->file, "rb");
    if (file == NULL ||
        fread(stored, 1, party->length, file) != party->length ||
        memcmp(stored, party->record, party->length) != 0) {
        fprintf(stderr, "%s is not stored\n", party->file);
        exit(EXIT_FAILURE);
    }
    fclose(file);
}

static void told(void)
{
    if (watched)
        prepare_all(hold_to_file);
    point();
}

enum end { DONE, FAILED, KILLED };

/* Runs the example in a process of its own, its output appended to the file
   shown and its complaint in the file said, and kills it at a point, if it
   comes so far. */
static enum end run(int count, char **arguments, unsigned at)
{
    int status;
    fflush(stdout);
    pid_t child = fork();
    if (child < 0)
        fail("fork");
    if (child == 0) {
        points_left = at;
        if (freopen("shown", "a", stdout) == NULL ||
            freopen("said", "w", stderr) == NULL)
            _exit(EXIT_FAILURE);
        setvbuf(stdout, NULL, _IONBF, 0);
        exit(site(count, arguments));
    }
    if (waitpid(child, &status, 0) != child)
        fail("waitpid");
    if (WIFSIGNALED(status) && WTERMSIG(status) == SIGKILL)
        return KILLED;
    return WIFEXITED(status) && WEXITSTATUS(status) == EXIT_SUCCESS ? DONE
                                                                    : FAILED;
}

static enum end begins(unsigned at)
{
    return run(3, (char *[]){"site", "begin", "folder", NULL}, at);
}

static enum end works(unsigned at)
{
    return run(2, (char *[]){"site", "folder", NULL}, at);
}

/* ---- What is shown ---- */

/* A set that somebody learnt or decided. */
struct given {
    bool learnt;
    int party;
    uint64_t set;
};

/* When a crate was seen last; 0 where it was not seen. */
struct seen {
    uint64_t tag, time;
};

enum { MOST_SHOWN = 10000 };
static struct given givens[MOST_SHOWN];
static struct seen seens[MOST_SHOWN];
static int given_count, seen_count;

static void show_nothing(void)
{
    given_count = seen_count = 0;
}

static uint64_t set_in(const char *numbers)
{
    uint64_t set = 0;
    char *end;
    for (unsigned long scan = strtoul(numbers, &end, 10); end != numbers;
         scan = strtoul(numbers, &end, 10)) {
        set |= UINT64_C(1) << scan;
        numbers = end;
    }
    return set;
}

static void give(bool learnt, int party, uint64_t set)
{
    givens[given_count++] = (struct given){learnt, party, set};
}

/* Takes in a line that was shown. */
static void take_line(const char *line)
{
    int party, at = 0;
    uint64_t tag, shelf, time = 0;
    if (given_count == MOST_SHOWN || seen_count == MOST_SHOWN)
        fail("too much is shown");
    if (sscanf(line, "learner %d learnt:%n", &party, &at) == 1 && at > 0)
        give(true, party, set_in(line + at));
    else if (sscanf(line, "proposer %d decided:%n", &party, &at) == 1 && at > 0)
        give(false, party, set_in(line + at));
    else if (sscanf(line,
                    "crate %" SCNu64 ": shelf %" SCNu64 ", seen at %" SCNu64,
                    &tag, &shelf, &time) == 3 ||
             sscanf(line, "crate %" SCNu64 ": not seen", &tag) == 1)
        seens[seen_count++] = (struct seen){tag, time};
}

static bool contains(uint64_t set, uint64_t other)
{
    return (other & ~set) == 0;
}

/* Any two sets are comparable, what a learner learnt never shrinks, and a crate
   that was seen is later seen at a time no earlier. */
static bool is_agreed(void)
{
    for (int i = 0; i < given_count; i++)
        for (int k = i + 1; k < given_count; k++) {
            const struct given *a = &givens[i], *b = &givens[k];
            bool grows = contains(b->set, a->set);
            bool same = a->learnt && b->learnt && a->party == b->party;
            if (!grows && (same || !contains(a->set, b->set)))
                return false;
        }
    for (int i = 0; i < seen_count; i++)
        for (int k = i + 1; k < seen_count; k++)
            if (seens[i].tag == seens[k].tag && seens[i].time > seens[k].time)
                return false;
    return true;
}

/* ---- A day's work with kills ---- */

/* What was shown, and every record as it is stored. */
static char shown[1 << 20];
static uint8_t stored[1024];
static size_t stored_length;

/* The last lines shown, and the records, of a day without a kill. */
static char last_without[sizeof shown];
static uint8_t stored_without[sizeof stored];

static size_t read_file(const char *name, void *bytes, size_t room)
{
    FILE *file = fopen(name, "rb");
    if (file == NULL)
        fail(name);
    size_t length = fread(bytes, 1, room, file);
    fclose(file);
    return length;
}

static const char *path_of(const struct party *party)
{
    static char path[32];
    snprintf(path, sizeof path, "folder/%s", party->file);
    return path;
}

static void take_record(struct party *party)
{
    stored_length += read_file(path_of(party), stored + stored_length,
                               sizeof stored - stored_length);
}

static void remove_record(struct party *party)
{
    unlink(path_of(party));
}

static void take_shown(void)
{
    shown[read_file("shown", shown, sizeof shown - 1)] = '\0';
    show_nothing();
    for (char *line = shown, *end; (end = strchr(line, '\n')); line = end + 1) {
        *end = '\0';
        take_line(line);
        *end = '\n';
    }
    stored_length = 0;
    prepare_all(take_record);
}

/* The last lines of what was shown: the last decision, and where crates are. */
static const char *last_lines(void)
{
    const char *at = shown + strlen(shown);
    for (int line_feeds = 0; at > shown; at--)
        if (at[-1] == '\n' && ++line_feeds == 5)
            break;
    return at;
}

static void start_over(void)
{
    unlink("shown");
    unlink("said");
    prepare_all(remove_record);
    unlink("folder/new");
    rmdir("folder");
}

/* Goes on with the work: whether it comes to its end. */
static bool goes_on(void)
{
    if (works(0) == DONE)
        return true;
    shown[read_file("said", shown, sizeof shown - 1)] = '\0';
    printf("  it does not go on: %s", shown);
    return false;
}

/* Goes on with the work: whether all that was shown agrees, and the end is the
   same as without a kill. */
static bool ends_well(void)
{
    if (!goes_on())
        return false;
    take_shown();
    if (memcmp(stored, stored_without, sizeof stored) != 0 ||
        strcmp(last_lines(), last_without) != 0) {
        printf("  it ends otherwise than without a kill\n");
        return false;
    }
    if (!is_agreed()) {
        printf("  what was shown does not agree\n");
        return false;
    }
    return true;
}

/* At no point. Whatever is sent or shown is stored before. */
static bool not_at_all(void)
{
    start_over();
    begins(0);
    watched = true;
    bool good = goes_on();
    watched = false;
    take_shown();
    memcpy(stored_without, stored, sizeof stored);
    strcpy(last_without, last_lines());
    return good && given_count > 0 && seen_count > 0 && is_agreed();
}

/* At each point of beginning a run. Where not all records were stored nothing
   is shown, and the run is begun in a new folder. */
static bool beginning(unsigned *points)
{
    for (;; ++*points) {
        start_over();
        if (begins(*points + 1) != KILLED)
            return true;
        if (works(0) == FAILED) {
            if (read_file("shown", shown, sizeof shown) > 0)
                return false;
            start_over();
            begins(0);
        }
        if (!ends_well())
            return false;
    }
}

/* At each point of the work. */
static bool working(unsigned *points)
{
    for (;; ++*points) {
        start_over();
        begins(0);
        if (works(*points + 1) != KILLED)
            return true;
        if (!ends_well())
            return false;
    }
}

/* At drawn ones of all points, as often as it takes to come to the end. */
static bool again_and_again(unsigned points, unsigned *kills)
{
    struct rng rng = {14};
    for (int round = 0; round < 200; round++) {
        start_over();
        begins(0);
        while (works(1 + (unsigned)below(&rng, points)) == KILLED)
            ++*kills;
        if (!ends_well())
            return false;
    }
    return true;
}

/* ---- A proposer that begins afresh ---- */

/* A run of one proposer, three acceptors, two learners and two scans. */
static uint8_t accepting[3][YMD_ACCEPTOR_BYTES];
static uint8_t learning[2][YMD_LEARNER_BYTES(1)];

/* An acceptor's reply to a proposal, as it goes to learners. */
struct reply {
    uint64_t acceptor, number;
    uint8_t bytes[YMD_REPLY_BYTES];
};

/* The proposer buffers a scan and proposes. */
static void propose(uint8_t *record, int scan)
{
    const uint8_t set[YMD_SET_BYTES] = {(uint8_t)(1 << scan)};
    must(ymd_buffer(3, 2, record, YMD_PROPOSER_BYTES, set, sizeof set),
         "buffer");
    must(ymd_propose(3, 2, record, YMD_PROPOSER_BYTES), "propose");
}

/* Its proposal at an acceptor, and the acknowledgement at the proposer. */
static struct reply reply_of(uint64_t a, uint8_t *record)
{
    struct reply reply = {a, record[YMD_PROPOSER_NUMBER], {0}};
    must(ymd_answer_proposal(2, accepting[a], YMD_ACCEPTOR_BYTES,
                             record + YMD_PROPOSER_PROPOSED, YMD_SET_BYTES,
                             reply.bytes),
         "proposal");
    if (reply.bytes[YMD_REPLY_ACCEPTED])
        must(ymd_acknowledged(3, 2, record, YMD_PROPOSER_BYTES, a,
                              reply.number),
             "acknowledgement");
    return reply;
}

/* A learner hears a reply, if it is an acknowledgement. */
static void tell(int l, struct reply reply)
{
    uint8_t learns;
    if (!reply.bytes[YMD_REPLY_ACCEPTED])
        return;
    must(ymd_hear(1, 3, 2, learning[l], sizeof learning[l], 0, reply.acceptor,
                  reply.number, reply.bytes + YMD_REPLY_SET, YMD_SET_BYTES,
                  &learns),
         "hear");
    if (learns)
        give(true, l, learning[l][YMD_LEARNER_LEARNT]);
}

/* The proposer has {0} accepted by two acceptors, is killed, and proposes scan
   1: with its record, or as one that has just begun. Learner 1 hears of this
   first, and then what acceptor 0 had replied before. Whether both learn. */
static bool both_learn(bool begins_afresh)
{
    uint8_t record[YMD_PROPOSER_BYTES] = {1};
    memset(accepting, 0, sizeof accepting);
    memset(learning, 0, sizeof learning);
    for (int a = 0; a < 3; a++)
        accepting[a][YMD_ACCEPTOR_ALIVE] = 1;
    for (int l = 0; l < 2; l++)
        learning[l][YMD_LEARNER_ALIVE] = 1;
    show_nothing();

    propose(record, 0);
    struct reply first = reply_of(0, record), other = reply_of(1, record);
    tell(0, first);
    tell(0, other);
    must(ymd_decide(3, 2, record, sizeof record), "decide");
    if (begins_afresh) {
        memset(record, 0, sizeof record);
        record[YMD_PROPOSER_ALIVE] = 1;
    }
    propose(record, 1);
    tell(1, reply_of(2, record));
    tell(1, first);
    tell(1, reply_of(1, record));
    return given_count == 2;
}

static int passed, failed;

static void report(const char *name, bool good)
{
    printf("killed, %s: %s\n", name, good ? "ok" : "failed");
    fflush(stdout);
    if (good)
        passed++;
    else
        failed++;
}

int main(void)
{
    /* in memory, where there is such a folder: it stores some 20,000 times */
    char in_memory[] = "/dev/shm/killed.XXXXXX", other[] = "/tmp/killed.XXXXXX";
    const char *home = mkdtemp(in_memory) ? in_memory : mkdtemp(other);
    char name[64];
    unsigned points = 0, kills = 0;
    bool good;
    if (home == NULL || chdir(home) != 0)
        fail("folder");
    report("not at all, everything stored before", not_at_all());
    good = beginning(&points);
    snprintf(name, sizeof name, "at each of %u points of beginning", points);
    report(name, good);
    points = 0;
    good = working(&points);
    snprintf(name, sizeof name, "at each of %u points of working", points);
    report(name, good);
    good = good && again_and_again(points, &kills);
    snprintf(name, sizeof name, "again and again, %u times", kills);
    report(name, good);
    report("a proposer that goes on from its record",
           both_learn(false) && is_agreed());
    report("a proposer that begins afresh is found out",
           both_learn(true) && !is_agreed());
    start_over();
    if (chdir("/") != 0 || rmdir(home) != 0)
        fail(home);
    printf("%d passed, %d failed\n", passed, failed);
    return failed == 0 ? EXIT_SUCCESS : EXIT_FAILURE;
}
