/* The second program's calls. Each takes what the ymd_ call of the same name
   takes, and gives 0 or the refusal's number. */
#ifndef SECOND_H
#define SECOND_H

#include <stddef.h>
#include <stdint.h>

uint8_t second_clock(uint32_t dock_tick, uint32_t scan_tick, uint64_t dock_time,
                     uint64_t *time);
uint8_t second_where_is(const uint8_t *table, size_t table_length,
                        const uint8_t *set, size_t set_length, uint64_t tag,
                        uint64_t found[4]);
uint8_t second_answer_proposal(uint64_t scans, uint8_t *record,
                               size_t record_length, const uint8_t *set,
                               size_t set_length, uint8_t reply[9]);
uint8_t second_hear(uint64_t proposers, uint64_t acceptors, uint64_t scans,
                    uint8_t *record, size_t record_length, uint64_t proposer,
                    uint64_t acceptor, uint64_t number, const uint8_t *set,
                    size_t set_length, uint8_t *learns);
uint8_t second_buffer(uint64_t acceptors, uint64_t scans, uint8_t *record,
                      size_t record_length, const uint8_t *set,
                      size_t set_length);
uint8_t second_propose(uint64_t acceptors, uint64_t scans, uint8_t *record,
                       size_t record_length);
uint8_t second_acknowledged(uint64_t acceptors, uint64_t scans, uint8_t *record,
                            size_t record_length, uint64_t acceptor,
                            uint64_t number);
uint8_t second_rejected(uint64_t acceptors, uint64_t scans, uint8_t *record,
                        size_t record_length, uint64_t acceptor,
                        uint64_t number, const uint8_t *set, size_t set_length);
uint8_t second_refine(uint64_t acceptors, uint64_t scans, uint8_t *record,
                      size_t record_length);
uint8_t second_decide(uint64_t acceptors, uint64_t scans, uint8_t *record,
                      size_t record_length);
uint8_t second_check_schedule(const uint8_t *bytes, size_t length);
uint8_t second_check_table(const uint8_t *bytes, size_t length);
uint8_t second_run_text(uint8_t *text, size_t text_length,
                        const uint8_t *schedule, size_t schedule_length,
                        size_t *length);

#endif
