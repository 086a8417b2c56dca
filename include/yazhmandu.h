/*
 * The calls of Yazhmandu for C programs.
 *
 * Every call returns YMD_OK (0) or the number of the refusal that comes first
 * in the order given with the call. A refusal leaves every lent byte as it was.
 *
 * The calls have no state, keep no pointer and allocate nothing: they may be
 * made from any thread at any time. What the caller keeps:
 *   - a pointer with a length stands for that many bytes; a null pointer is
 *     allowed where the length is 0;
 *   - every other pointer is to what its type says, aligned as C has it;
 *   - nothing lent to one call overlaps anything else lent to it, and no other
 *     thread changes it during the call.
 * A length that a record or a set does not have is answered like any other
 * value outside its range: see each call.
 *
 * Link with -lyazhmandu; the library needs nothing but the C library.
 */
#ifndef YAZHMANDU_H
#define YAZHMANDU_H

#include <stddef.h>
#include <stdint.h>

#ifdef __cplusplus
extern "C" {
#endif

/* ---- What a call returns ------------------------------------------------ */

/* 2 and 4 are given to events alone: they stand in the text of a run. */
#define YMD_OK 0
/* a size, a record's length or a field of a record is outside its range */
#define YMD_OUTSIDE_RANGE 1
/* the event code is not 1 to 8 */
#define YMD_UNKNOWN_CODE 2
/* an argument is outside the run's sizes, a set is not 8 bytes or not within S,
   or a tag, a shelf or a schedule's count of events is above its limit */
#define YMD_OUTSIDE_SIZES 3
/* the message slot is free */
#define YMD_SLOT_FREE 4
/* the party has crashed */
#define YMD_CRASHED 5
/* not enabled */
#define YMD_NOT_ENABLED 6
/* the proposal number is already 1,000 */
#define YMD_NUMBER_SPENT 7
/* too few free slots, or a buffer shorter than what is to be written */
#define YMD_NO_ROOM 8
/* dock time above 2^48-1, or the scan's age above the dock time */
#define YMD_BAD_TIME 9
/* device 0 or above 255 */
#define YMD_BAD_DEVICE 10
/* the input ends before the form does */
#define YMD_INPUT_ENDS 11
/* a number is not in shortest form or is too large */
#define YMD_BAD_NUMBER 12
/* bytes follow the end */
#define YMD_BYTES_FOLLOW 13

/* ---- Limits ------------------------------------------------------------- */

/* Sizes of a run: from 1 to these; slots from YMD_LEAST_SLOTS. A call takes
   those that its rule looks at as numbers of 64 bits, in this order: P, the
   proposers, A, the acceptors, and S, the scans. */
#define YMD_MOST_PROPOSERS 8
#define YMD_MOST_ACCEPTORS 7
#define YMD_MOST_LEARNERS 8
#define YMD_LEAST_SLOTS 16
#define YMD_MOST_SLOTS 512
#define YMD_MOST_SCANS 64

/* Proposal numbers are 1 to this, 0 before the first. */
#define YMD_MOST_NUMBER 1000

/* A scan record: tag, shelf, device (from 1) and time in milliseconds. */
#define YMD_MOST_TAG UINT64_C(0xffffffff)
#define YMD_MOST_SHELF UINT64_C(65535)
#define YMD_MOST_DEVICE UINT64_C(255)
#define YMD_MOST_TIME UINT64_C(0xffffffffffff)

/* The most events of a schedule. */
#define YMD_MOST_EVENTS 4096

/* No schedule, no scan table and no text of a run is longer, in bytes: 8 and 9
   for each event, 1 and 17 for each scan, 40 for each event and 19. */
#define YMD_MOST_SCHEDULE_BYTES 36872
#define YMD_MOST_TABLE_BYTES 1089
#define YMD_MOST_TEXT_BYTES 163859

/* The stack of a thread that calls ymd_run_text: the call takes about 176,000
   bytes of it. */
#define YMD_RUN_TEXT_STACK_BYTES 262144

/* ---- Storing ------------------------------------------------------------ */

/*
 * The parties of a run agree only if none of them forgets what it sent. The
 * same holds for proposers, acceptors and learners:
 *
 *   - The whole record is stored, so that it outlives the process and a power
 *     cut, before anything that a call's result says is sent to another party
 *     or shown to anyone: a message, a learnt or a decided set.
 *   - Then the party may be killed at any point and goes on from its stored
 *     record. To the others it was only slow, and what it did not send any more
 *     was only lost.
 *   - A record that was lost, or is older than what was sent or shown (a copy
 *     from a backup, say), is never used again in this run, and its party does
 *     not begin again. It has crashed for good; the others go on.
 *
 * A party begins once in a run, with a record of 1 (alive), then zeros. One
 * that begins again proposes under numbers that it has used: learners then hear
 * two sets under one number and learn sets that are not comparable.
 *
 * Of servers that keep to this it is proved, whatever the network loses, copies,
 * delays or reorders and whenever they are killed (docs/STATEMENTS.md, `stores`):
 * of any two sets learnt or decided one contains the other; what a learner has
 * learnt never shrinks; each such set holds only scans that a ymd_buffer took
 * and, if it is not empty, a majority of the acceptors acknowledged it; and a
 * tag that ymd_where_is finds by the smaller set it finds by the larger one, at
 * a time no earlier. The conditions: records begin as above and are changed by
 * these calls alone, always with the run's own sizes; a call is given only what
 * another call's result said to send to that party; an acceptor knows its own
 * number. What a learner heard may be lost (its first 9 bytes, then zeros);
 * what it learnt may not.
 *
 * The section PROTOCOL of yazhmandu(3) has the messages: who sends which, when,
 * and what may be sent again.
 */

/* ---- Byte layouts ------------------------------------------------------- */

/*
 * These are fixed for good, so that a record in a file keeps its meaning.
 * Numbers stand low byte first. The fields of a record lie one after the other:
 *
 *   flag              1 byte, 0 or 1
 *   set of scans      8 bytes, scan 0 the lowest bit of the first byte
 *   set of acceptors  1 byte, acceptor 0 the lowest bit
 *   proposal number   2 bytes
 *
 * The record of a party that has just begun is 1 (alive), then zeros; a party
 * begins once (see Storing). One that has crashed for good has 0 in its byte
 * `alive`, and its calls refuse 5.
 */

#define YMD_SET_BYTES 8

/* An acceptor's record: byte 0 alive, bytes 1 to 8 the accepted set. */
#define YMD_ACCEPTOR_BYTES 9
#define YMD_ACCEPTOR_ALIVE 0
#define YMD_ACCEPTOR_ACCEPTED 1

/* A proposer's record: byte 0 alive, byte 1 active, then the sets buffered,
   proposed and gathered, the proposal number, the acceptors that acknowledged
   and those that rejected, and the decided set. */
#define YMD_PROPOSER_BYTES 38
#define YMD_PROPOSER_ALIVE 0
#define YMD_PROPOSER_ACTIVE 1
#define YMD_PROPOSER_BUFFERED 2
#define YMD_PROPOSER_PROPOSED 10
#define YMD_PROPOSER_GATHERED 18
#define YMD_PROPOSER_NUMBER 26
#define YMD_PROPOSER_ACKNOWLEDGED 28
#define YMD_PROPOSER_REJECTED 29
#define YMD_PROPOSER_DECIDED 30

/* A learner's record: byte 0 alive, bytes 1 to 8 the learnt set, then for each
   of the run's P proposers 11 bytes of what it heard: the newest number, its
   set and its acceptors. */
#define YMD_LEARNER_BYTES(proposers) (9 + 11 * (proposers))
#define YMD_LEARNER_ALIVE 0
#define YMD_LEARNER_LEARNT 1
#define YMD_LEARNER_HEARD(proposer) (9 + 11 * (proposer))
#define YMD_HEARD_BYTES 11
#define YMD_HEARD_NUMBER 0
#define YMD_HEARD_SET 2
#define YMD_HEARD_ACCEPTORS 10

/* An acceptor's reply to a proposal: byte 0 whether it is accepted (0 or 1),
   bytes 1 to 8 the set to send. */
#define YMD_REPLY_BYTES 9
#define YMD_REPLY_ACCEPTED 0
#define YMD_REPLY_SET 1

/* What ymd_where_is finds, four numbers: whether a scan is shown (0 or 1), and
   that scan's number, shelf and time. */
#define YMD_FOUND_NUMBERS 4
#define YMD_FOUND_SHOWN 0
#define YMD_FOUND_SCAN 1
#define YMD_FOUND_SHELF 2
#define YMD_FOUND_TIME 3

/* ---- Clock and shelf ---------------------------------------------------- */

/*
 * The clock rule: the time of a scan, from the ticks of the handheld at the
 * dock and at the scan and the dock's time in milliseconds. Ticks wrap at 2^32.
 * Gives: *time = dock_time less the age, which is dock_tick less scan_tick
 * modulo 2^32; the true time if the true age is below 2^32 ms (49.7 days).
 * Refuses: 9 where dock_time is above 2^48-1 or the age above dock_time.
 */
uint8_t ymd_clock(uint32_t dock_tick, uint32_t scan_tick, uint64_t dock_time,
                  uint64_t *time);

/*
 * The shelf question: where the scans of a set saw a tag last.
 * Takes: a scan table in its written form, a set (8 bytes) and the tag.
 * Gives: in found, 1, scan, shelf and time of the scan with the tag that has
 * the greatest time, of equal times the greatest scan number; four times 0
 * where no scan of the set has the tag.
 * Refuses: what ymd_check_table refuses; then 3 for a tag above its limit or a
 * set that is not 8 bytes or not within the table's S.
 */
uint8_t ymd_where_is(const uint8_t *table, size_t table_length,
                     const uint8_t *set, size_t set_length, uint64_t tag,
                     uint64_t found[YMD_FOUND_NUMBERS]);

/* ---- An acceptor, a learner ---------------------------------------------- */

/*
 * The acceptor's rule: takes a proposal's set.
 * Takes: the run's S, the acceptor's record (9 bytes), the set (8 bytes).
 * Gives: the updated record, and in reply 1 and the set to acknowledge to the
 * proposer and every learner, or 0 and the set to reject it with, to the
 * proposer. The record is stored before any of these is sent.
 * Refuses: 1 for S or the record; then 3 for a set that is not 8 bytes or not
 * within S; then 5.
 */
uint8_t ymd_answer_proposal(uint64_t scans, uint8_t *record,
                            size_t record_length, const uint8_t *set,
                            size_t set_length, uint8_t reply[YMD_REPLY_BYTES]);

/*
 * The learner's rule: takes an acceptor's acknowledgement of a proposal.
 * Takes: the run's P, A and S, the learner's record (9 + 11 * P bytes), and the
 * acknowledgement: proposer, acceptor, number and set (8 bytes).
 * Gives: the updated record, and *learns = 1 where the learnt set changed, 0
 * where it did not. The record is stored before the set is shown.
 * Refuses: 1 for P, A, S or the record; then 3 for a proposer not below P, an
 * acceptor not below A, a number that is not 1 to 1,000, or a set that is not 8
 * bytes or not within S; then 5.
 */
uint8_t ymd_hear(uint64_t proposers, uint64_t acceptors, uint64_t scans,
                 uint8_t *record, size_t record_length, uint64_t proposer,
                 uint64_t acceptor, uint64_t number, const uint8_t *set,
                 size_t set_length, uint8_t *learns);

/* ---- A proposer ---------------------------------------------------------- */

/*
 * Each takes the run's A and S and the proposer's record (38 bytes), and gives
 * the updated record. Each refuses 1 for A, S or the record first. The record
 * is stored before a proposal is sent or a decided set is shown.
 */

/*
 * The buffered set gains a set (8 bytes): a received scan's, or an internal
 * message's. To buffer again what is proposed already costs a number.
 * Refuses: 1; then 3 for a set that is not 8 bytes or not within S; then 5.
 */
uint8_t ymd_buffer(uint64_t acceptors, uint64_t scans, uint8_t *record,
                   size_t record_length, const uint8_t *set, size_t set_length);

/*
 * Propose: what was proposed and what is buffered, under the next number. The
 * number and the set to send to every acceptor stand in the record; sent again
 * from there, they are a copy.
 * Refuses: 1; then 5; then 6 where the proposer is active or buffered is empty;
 * then 7.
 */
uint8_t ymd_propose(uint64_t acceptors, uint64_t scans, uint8_t *record,
                    size_t record_length);

/*
 * Takes an acknowledgement from an acceptor. A late one is ok and changes
 * nothing.
 * Refuses: 1; then 3 for an acceptor not below A or a number that is not 1 to
 * 1,000; then 5.
 */
uint8_t ymd_acknowledged(uint64_t acceptors, uint64_t scans, uint8_t *record,
                         size_t record_length, uint64_t acceptor,
                         uint64_t number);

/*
 * Takes a rejection from an acceptor with the set that it carries (8 bytes). A
 * late one is ok and changes nothing.
 * Refuses: 1; then 3 for an acceptor not below A, a number that is not 1 to
 * 1,000, or a set that is not 8 bytes or not within S; then 5.
 */
uint8_t ymd_rejected(uint64_t acceptors, uint64_t scans, uint8_t *record,
                     size_t record_length, uint64_t acceptor, uint64_t number,
                     const uint8_t *set, size_t set_length);

/*
 * Refine: what was proposed and what was gathered, under the next number. The
 * number and the set to send to every acceptor stand in the record.
 * Refuses: 1; then 5; then 6 unless it is active, some acceptor has rejected,
 * and those that acknowledged or rejected, each counted once, are a majority;
 * then 7.
 */
uint8_t ymd_refine(uint64_t acceptors, uint64_t scans, uint8_t *record,
                   size_t record_length);

/*
 * Decide: decided becomes what is proposed, and the proposer is passive.
 * Refuses: 1; then 5; then 6 unless it is active and the acceptors that
 * acknowledged are a majority.
 */
uint8_t ymd_decide(uint64_t acceptors, uint64_t scans, uint8_t *record,
                   size_t record_length);

/* ---- Written forms and whole runs ---------------------------------------- */

/*
 * A written number is groups of seven bits, low group first, the top bit set
 * while more follow, in its shortest form. A schedule is P, A, L, M, S, E, then
 * E events of code, a and b; its numbers are at most 65,535. A scan table is S,
 * then S records of tag, shelf, device and time; its numbers are at most
 * 2^48-1.
 */

/*
 * The schedule reader's verdict on bytes.
 * Refuses: 11 and 12 as the numbers are read; after the first six 1 for a size,
 * then 3 for E; then 11 and 12 for the events; then 13.
 */
uint8_t ymd_check_schedule(const uint8_t *bytes, size_t length);

/*
 * The scan table reader's verdict on bytes.
 * Refuses: 11 and 12 as the numbers are read; with each number read 1 for S, 3
 * for a tag or shelf, 10 for a device, 12 for a time; then 13.
 */
uint8_t ymd_check_table(const uint8_t *bytes, size_t length);

/*
 * The text that the run printer prints for a schedule; a refused schedule is
 * the text "schedule refused", its number and a line feed.
 * Gives: the text in the first *length bytes of text, with no zero byte after
 * it; bytes past them stay. YMD_MOST_TEXT_BYTES are always enough.
 * Refuses: 8 where the text is longer than text_length.
 * The thread needs a stack of YMD_RUN_TEXT_STACK_BYTES.
 */
uint8_t ymd_run_text(uint8_t *text, size_t text_length, const uint8_t *schedule,
                     size_t schedule_length, size_t *length);

#ifdef __cplusplus
}
#endif

#endif
