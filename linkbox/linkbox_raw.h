/* linkbox_raw.h: the archive's own functions on a box, which take its arrays one by one, for a host
 * that keeps them elsewhere; and what the compiler checks of the structs. Firmware includes
 * linkbox.h, whose calls on a whole box say what each does and refuses.
 *
 * An array is a pointer to its first element, as long as in struct linkbox. Octets are a pointer
 * and a length; the pointer is never NULL: where there is nothing to pass in, pass a pointer to
 * anything, and 0. What a call writes is what is not const, and may overlap nothing else. */
#ifndef LINKBOX_H
#include "linkbox.h" /* which includes this file where its structs are known */
#elif !defined(LINKBOX_RAW_H)
#define LINKBOX_RAW_H

/* The answer to a new setting: the box that the settings start, all zero beside refusal 4. The
 * caller takes it over, or keeps its own where it is refused. */
struct linkbox_raw_new_box {
    uint32_t refusal;
    struct linkbox box;
};

struct linkbox_raw_new_box linkbox_raw_new_setting(const uint32_t *set, const uint8_t *names,
                                                   const uint32_t *ids);

struct linkbox_frame_answer linkbox_raw_frame(const uint32_t *set, const uint8_t *names,
                                              const uint32_t *ids, uint32_t *timers,
                                              uint32_t *rdi, uint32_t *run, int64_t *totals,
                                              uint32_t side, const uint8_t *frame, size_t length,
                                              struct linkbox_stamp receive,
                                              struct linkbox_stamp transmit, uint8_t *out,
                                              size_t room);

struct linkbox_written linkbox_raw_tick(const uint32_t *set, const uint8_t *names,
                                        const uint32_t *ids, uint32_t *timers,
                                        const uint32_t *rdi, uint32_t *run, const int64_t *totals,
                                        uint8_t *out, size_t room);

uint32_t linkbox_raw_ticks_to_next(const uint32_t *set, const uint8_t *names, const uint32_t *ids,
                                   const uint32_t *timers, const uint32_t *rdi,
                                   const uint32_t *run, const int64_t *totals);

uint32_t linkbox_raw_clear(const uint32_t *set, const uint8_t *names, const uint32_t *ids,
                           const uint32_t *timers, const uint32_t *rdi, uint32_t *run,
                           int64_t *totals);

struct linkbox_written linkbox_raw_send_lmm(const uint32_t *set, const uint8_t *names,
                                            const uint32_t *ids, const uint32_t *timers,
                                            const uint32_t *rdi, const uint32_t *run,
                                            const int64_t *totals, uint8_t *out, size_t room);

struct linkbox_written linkbox_raw_send_dmm(const uint32_t *set, const uint8_t *names,
                                            const uint32_t *ids, const uint32_t *timers,
                                            const uint32_t *rdi, const uint32_t *run,
                                            const int64_t *totals, struct linkbox_stamp stamp,
                                            uint8_t *out, size_t room);

struct linkbox_conditions_answer linkbox_raw_conditions(const uint32_t *set, const uint8_t *names,
                                                        const uint32_t *ids,
                                                        const uint32_t *timers,
                                                        const uint32_t *rdi, const uint32_t *run,
                                                        const int64_t *totals);

struct linkbox_written linkbox_raw_loss_line(const uint32_t *set, const uint8_t *names,
                                             const uint32_t *ids, const uint32_t *timers,
                                             const uint32_t *rdi, const uint32_t *run,
                                             const int64_t *totals, uint8_t *into, size_t room);

struct linkbox_written linkbox_raw_write_settings(uint8_t *into, size_t room, const uint32_t *set,
                                                  const uint8_t *names, const uint32_t *ids);

/* Settings as the archive takes them: their four numbers, and their sixty octets of names. Both
 * pointers come from the whole struct, since the arrays reach over its members. */
static inline const uint32_t *linkbox_raw_set(const struct linkbox_settings *settings) {
    return (const uint32_t *)(const void *)settings;
}
static inline const uint8_t *linkbox_raw_names(const struct linkbox_settings *settings) {
    return (const uint8_t *)settings + offsetof(struct linkbox_settings, own_address);
}

/* Octets from one place to another. Where a struct of this size is assigned whole, some compilers
 * call memcpy, which the host may not have. */
static inline void linkbox_raw_copy(void *to, const void *from, size_t octets) {
    size_t i;
    for (i = 0; i < octets; i++) ((uint8_t *)to)[i] = ((const uint8_t *)from)[i];
}

/* A box and its settings have no padding, and the settings are a box's front. */
LINKBOX_HOLDS(offsetof(struct linkbox, set) == 0, "set comes first");
LINKBOX_HOLDS(offsetof(struct linkbox, names) == 16, "names after set");
LINKBOX_HOLDS(offsetof(struct linkbox, ids) == 76, "ids after names");
LINKBOX_HOLDS(offsetof(struct linkbox, timers) == 108, "timers after ids");
LINKBOX_HOLDS(offsetof(struct linkbox, rdi) == 140, "rdi after timers");
LINKBOX_HOLDS(offsetof(struct linkbox, run) == 172, "run after rdi");
LINKBOX_HOLDS(offsetof(struct linkbox, totals) == 232, "totals after run");
LINKBOX_HOLDS(sizeof(struct linkbox) == 248, "a box has no padding");
LINKBOX_HOLDS(offsetof(struct linkbox_settings, level) == 4 * LINKBOX_AT_LEVEL, "level in set");
LINKBOX_HOLDS(offsetof(struct linkbox_settings, mep_id) == 4 * LINKBOX_AT_MEP_ID, "MEP ID in set");
LINKBOX_HOLDS(offsetof(struct linkbox_settings, period) == 4 * LINKBOX_AT_PERIOD, "period in set");
LINKBOX_HOLDS(offsetof(struct linkbox_settings, peers) == 4 * LINKBOX_AT_PEERS, "peers in set");
LINKBOX_HOLDS(offsetof(struct linkbox_settings, own_address) == 16 + LINKBOX_AT_OWN_ADDRESS,
              "own address in names");
LINKBOX_HOLDS(offsetof(struct linkbox_settings, loss_peer) == 16 + LINKBOX_AT_LOSS_PEER,
              "loss peer in names");
LINKBOX_HOLDS(offsetof(struct linkbox_settings, meg_id) == 16 + LINKBOX_AT_MEG_ID,
              "MEG ID in names");
LINKBOX_HOLDS(offsetof(struct linkbox_settings, peer_ids) == 76, "peer IDs as ids");
LINKBOX_HOLDS(sizeof(struct linkbox_settings) == 108, "settings have no padding");

/* The answers. */
#define LINKBOX_WORD sizeof(size_t)
LINKBOX_HOLDS(LINKBOX_WORD == 8 || LINKBOX_WORD == 4, "lengths have 64 bits or 32");
LINKBOX_HOLDS(offsetof(struct linkbox_raw_new_box, box) == 8, "a new setting: the box at 8");
LINKBOX_HOLDS(sizeof(struct linkbox_raw_new_box) == 256, "a new setting has 256 octets");
LINKBOX_HOLDS(sizeof(struct linkbox_stamp) == 8, "a stamp is two words");
LINKBOX_HOLDS(offsetof(struct linkbox_written, length) == LINKBOX_WORD, "written: then the length");
LINKBOX_HOLDS(sizeof(struct linkbox_written) == 2 * LINKBOX_WORD, "written has no more");
LINKBOX_HOLDS(offsetof(struct linkbox_frame_answer, done) == 8, "a frame: three words");
LINKBOX_HOLDS(offsetof(struct linkbox_frame_answer, length) == 8 + LINKBOX_WORD, "the length");
LINKBOX_HOLDS(offsetof(struct linkbox_frame_answer, near_loss) == 8 + 2 * LINKBOX_WORD, "losses");
LINKBOX_HOLDS(sizeof(struct linkbox_frame_answer) == 48 + 2 * LINKBOX_WORD, "and delays");
LINKBOX_HOLDS(offsetof(struct linkbox_conditions_answer, rdi) == 36, "conditions: RDI after lost");
LINKBOX_HOLDS(offsetof(struct linkbox_conditions_answer, lck) == 88, "LCK last");
LINKBOX_HOLDS(sizeof(struct linkbox_conditions_answer) == 92, "conditions have 92 octets");
LINKBOX_HOLDS(offsetof(struct linkbox_settings_answer, settings) == 4, "settings at 4");
LINKBOX_HOLDS(sizeof(struct linkbox_settings_answer) == 112, "settings read have 112 octets");
LINKBOX_HOLDS(offsetof(struct linkbox_line, intervals) == 16, "a line: intervals last");
LINKBOX_HOLDS(sizeof(struct linkbox_line) == 24, "a line has 24 octets");
LINKBOX_HOLDS(offsetof(struct linkbox_line_answer, near_loss) == 8, "a line read: losses at 8");
LINKBOX_HOLDS(sizeof(struct linkbox_line_answer) == 24, "a line read has 24 octets");
LINKBOX_HOLDS(sizeof(struct linkbox_readings) == 16, "four readings are four words");
LINKBOX_HOLDS(offsetof(struct linkbox_session, last) == 8, "a session: the reading at 8");
LINKBOX_HOLDS(offsetof(struct linkbox_session, near_loss) == 24, "its totals at 24");
LINKBOX_HOLDS(sizeof(struct linkbox_session) == 40, "a session has no padding");
LINKBOX_HOLDS(offsetof(struct linkbox_loss_answer, near_loss) == 8, "a reading: losses at 8");
LINKBOX_HOLDS(sizeof(struct linkbox_loss_answer) == 24, "a reading's answer has 24 octets");
LINKBOX_HOLDS(offsetof(struct linkbox_tlv_answer, start) == 8 + LINKBOX_WORD, "a TLV: its start");
LINKBOX_HOLDS(sizeof(struct linkbox_tlv_answer) == 8 + 3 * LINKBOX_WORD, "a TLV has no more");
#undef LINKBOX_WORD

#endif
