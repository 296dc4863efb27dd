/* linkbox.h: a link box for C11 and C++11, over the static library liblinkbox.a, which needs
 * nothing of the host. README.md in share/linkbox takes you from nothing to a ticking box.
 *
 * A box is one struct linkbox, and every call on it takes it whole. The library keeps no memory of
 * its own, allocates nothing and never ends the program. Every content of a box is a value: what
 * the rules refuse is answered by a number, and everything passed in is then as it was.
 *
 * What the caller sees to, and nothing proves:
 *   1. A pointer is to memory of the size that its declaration names, aligned as C asks, and
 *      nothing else writes it during the call.
 *   2. What a call writes overlaps nothing else that is passed in. Each call says what it writes.
 *   3. Two calls at a time need two boxes.
 * The inline calls below take NULL for no octets, whatever length is beside it. The archive's own
 * functions take no NULL: pass a pointer to anything, and 0. */
#ifndef LINKBOX_H
#define LINKBOX_H

#include <stddef.h>
#include <stdint.h>

/* The version of this header. The requests of the firm will add calls, refusals and words of the
 * state; linkbox_fits says whether the archive's box is as long. */
#define LINKBOX_VERSION "1.0.0"

#ifdef __cplusplus
#define LINKBOX_HOLDS(what, says) static_assert(what, says)
extern "C" {
#else
#define LINKBOX_HOLDS(what, says) _Static_assert(what, says)
#endif

/* ── numbers ── */

/* The side that a frame came from. Any number but 0 is the passive side. */
enum { LINKBOX_ACTIVE = 0, LINKBOX_PASSIVE = 1 };

/* Refusals, 0 for none: a frame length outside 14..1,514; a state or session that is not well
 * formed; a buffer shorter than what must be written; a setting, or a value to be stored, that
 * breaks a rule; a good loss reply that would start interval 1,000,000,001; a stamp with too many
 * nanoseconds; a stored record of a wrong length or kind, cut short, or with bad values. */
enum {
    LINKBOX_REFUSED_LENGTH = 1,
    LINKBOX_REFUSED_STATE = 2,
    LINKBOX_REFUSED_ROOM = 3,
    LINKBOX_REFUSED_SETTING = 4,
    LINKBOX_REFUSED_FULL = 5,
    LINKBOX_REFUSED_STAMP = 6,
    LINKBOX_REFUSED_RECORD = 7
};

/* Drops, D1 to D8, 0 for none: an OAM frame shorter than 18; its level; an opcode that is not
 * handled; a TLV offset below the opcode's; the fixed part, a TLV or the End TLV missing; a frame
 * that is not for us, by its addresses; a field's value; a delay that a signed 64-bit number
 * cannot hold, which never comes. */
enum {
    LINKBOX_DROP_SHORT = 1,
    LINKBOX_DROP_LEVEL = 2,
    LINKBOX_DROP_OPCODE = 3,
    LINKBOX_DROP_OFFSET = 4,
    LINKBOX_DROP_CUT_OFF = 5,
    LINKBOX_DROP_DESTINATION = 6,
    LINKBOX_DROP_VALUE = 7,
    LINKBOX_DROP_TOO_LARGE = 8
};

/* What was done with a frame, 0 beside a refusal or a drop: it passes to the other side; a CCM, AIS
 * or LCK was taken in; a request was answered; a loss reply is the first after a clear and only
 * kept; a loss reply gives losses; a delay reply gives the two-way delay; it gives all three. */
enum {
    LINKBOX_DONE_PASSED = 1,
    LINKBOX_DONE_TAKEN = 2,
    LINKBOX_DONE_REPLIED = 3,
    LINKBOX_DONE_FIRST = 4,
    LINKBOX_DONE_LOSS = 5,
    LINKBOX_DONE_TWO_WAY = 6,
    LINKBOX_DONE_ALL_WAYS = 7
};

/* Lengths in octets: the shortest and the longest frame; CCM, LMM and DMM as they are written; the
 * two stored records; an address and a MEG ID. And how many elements the arrays of a box have. */
enum {
    LINKBOX_LEN_FRAME_LEAST = 14,
    LINKBOX_LEN_FRAME_MOST = 1514,
    LINKBOX_LEN_CCM = 89,
    LINKBOX_LEN_LMM = 31,
    LINKBOX_LEN_DMM = 51,
    LINKBOX_LEN_SETTINGS_RECORD = 85,
    LINKBOX_LEN_LINE_RECORD = 24,
    LINKBOX_LEN_ADDRESS = 6,
    LINKBOX_LEN_MEG_ID = 48,
    LINKBOX_LEN_PEERS = 8,
    LINKBOX_LEN_SET = 4,
    LINKBOX_LEN_NAMES = 60,
    LINKBOX_LEN_RUN = 15,
    LINKBOX_LEN_TOTALS = 2
};

/* Places in the arrays of a box. In `set`: the settings' numbers. */
enum { LINKBOX_AT_LEVEL = 0, LINKBOX_AT_MEP_ID = 1, LINKBOX_AT_PERIOD = 2, LINKBOX_AT_PEERS = 3 };

/* In `names`, in wire order. */
enum { LINKBOX_AT_OWN_ADDRESS = 0, LINKBOX_AT_LOSS_PEER = 6, LINKBOX_AT_MEG_ID = 12 };

/* In `run`: six timers in ticks, 0 while the condition is not active; the ticks to the next CCM;
 * the two service counts; the loss session: whether a reading is kept (0 or 1), the reading (TxFCf,
 * RxFCf, TxFCb, our received count), the intervals. */
enum {
    LINKBOX_AT_MISMERGE = 0,
    LINKBOX_AT_UNEXPECTED_LEVEL = 1,
    LINKBOX_AT_UNEXPECTED_MEP = 2,
    LINKBOX_AT_UNEXPECTED_PERIOD = 3,
    LINKBOX_AT_AIS = 4,
    LINKBOX_AT_LCK = 5,
    LINKBOX_AT_NEXT = 6,
    LINKBOX_AT_SENT = 7,
    LINKBOX_AT_RECEIVED = 8,
    LINKBOX_AT_KEPT = 9,
    LINKBOX_AT_TXFCF = 10,
    LINKBOX_AT_RXFCF = 11,
    LINKBOX_AT_TXFCB = 12,
    LINKBOX_AT_OURS = 13,
    LINKBOX_AT_INTERVALS = 14
};

/* In `totals`. */
enum { LINKBOX_AT_NEAR = 0, LINKBOX_AT_FAR = 1 };

/* ── what is passed in and answered; beside a refusal or a drop all other numbers are 0 ── */

/* What a box is set to. Any content is a value; what breaks a rule below is refused with 4. */
struct linkbox_settings {
    uint32_t level;   /* 0 to 7 */
    uint32_t mep_id;  /* 1 to 8,191 */
    uint32_t period;  /* 1 to 7: 3.33 ms, 10 ms, 100 ms, 1 s, 10 s, 1 min, 10 min */
    uint32_t peers;   /* how many of peer_ids are used, 1 to 8 */
    uint8_t own_address[LINKBOX_LEN_ADDRESS]; /* its first octet even, so that it is no group's */
    uint8_t loss_peer[LINKBOX_LEN_ADDRESS];   /* where LMM and DMM go: even too, not own_address */
    uint8_t meg_id[LINKBOX_LEN_MEG_ID];       /* any content; all 48 octets are compared */
    uint32_t peer_ids[LINKBOX_LEN_PEERS];     /* used ones first: 1 to 8,191, all different, not
                                                 mep_id; 0 in unused slots */
};

/* What a box knows: 248 octets without padding, the settings first. All zero is a box that was
 * never set: it is not well formed. A new setting takes no old state; every other call that has a
 * refusal refuses it with 2, and linkbox_ticks_to_next answers 0. */
struct linkbox {
    uint32_t set[LINKBOX_LEN_SET];
    uint8_t names[LINKBOX_LEN_NAMES];
    uint32_t ids[LINKBOX_LEN_PEERS];
    uint32_t timers[LINKBOX_LEN_PEERS]; /* ticks until a peer's continuity is lost, 0 while it is */
    uint32_t rdi[LINKBOX_LEN_PEERS];    /* 1 while a peer's last CCM had RDI */
    uint32_t run[LINKBOX_LEN_RUN];
    int64_t totals[LINKBOX_LEN_TOTALS];
};

/* A time as the wire has it: at most 999,999,999 nanoseconds. All zero means "not given". */
struct linkbox_stamp {
    uint32_t seconds;
    uint32_t nanoseconds;
};

/* The answer to a call that writes: how many octets are in the front of the buffer now. */
struct linkbox_written {
    uint32_t refusal;
    size_t length;
};

/* The answer to a frame: the reply's length in octets, losses in frames, delays in nanoseconds. */
struct linkbox_frame_answer {
    uint32_t refusal;
    uint32_t drop;
    uint32_t done;
    size_t length;
    int64_t near_loss;
    int64_t far_loss;
    int64_t two_way;
    int64_t one_way_far;
    int64_t one_way_near;
};

/* Each condition, 1 while it is active and else 0; `lost` and `rdi` have one for each peer slot. */
struct linkbox_conditions_answer {
    uint32_t refusal;
    uint32_t lost[LINKBOX_LEN_PEERS];
    uint32_t rdi[LINKBOX_LEN_PEERS];
    uint32_t mismerge;
    uint32_t unexpected_mep;
    uint32_t unexpected_period;
    uint32_t unexpected_level;
    uint32_t ais;
    uint32_t lck;
};

/* Settings that were read from a record. */
struct linkbox_settings_answer {
    uint32_t refusal;
    struct linkbox_settings settings;
};

/* The values of a loss line, to be written. */
struct linkbox_line {
    int64_t near_loss;
    int64_t far_loss;
    uint32_t intervals;
};

/* The values of a loss line that was read from a record. */
struct linkbox_line_answer {
    uint32_t refusal;
    uint32_t intervals;
    int64_t near_loss;
    int64_t far_loss;
};

/* The four readings of a loss reply: TxFCf, RxFCf, TxFCb and our own received count. */
struct linkbox_readings {
    uint32_t txf;
    uint32_t rxf;
    uint32_t txb;
    uint32_t ours;
};

/* A loss session apart from a box. All zero is a session after a clear. */
struct linkbox_session {
    uint32_t kept; /* whether a reading is kept, 0 or 1 */
    uint32_t intervals;
    struct linkbox_readings last;
    int64_t near_loss;
    int64_t far_loss;
};

/* The losses of the interval that a reading ends, both 0 for the first one after a clear. */
struct linkbox_loss_answer {
    uint32_t refusal;
    int64_t near_loss;
    int64_t far_loss;
};

/* A TLV of a frame: whether it is there, and which octets of the frame its value is, maybe none. */
struct linkbox_tlv_answer {
    uint32_t refusal;
    uint32_t drop;
    uint32_t found;
    size_t start;
    size_t length;
};

/* ── calls that take no box ── */

/* How many octets a box has in the archive. */
size_t linkbox_abi(void);

/* One more reading of a session apart. The first after a clear is only kept; later, near loss is
 * the growth of txb less that of ours, far loss the growth of txf less that of rxf, each added to
 * its total. Refusals 2 and 5. Writes the session. */
struct linkbox_loss_answer linkbox_measure(struct linkbox_session *session, uint32_t txf,
                                           uint32_t rxf, uint32_t txb, uint32_t ours);

/* The settings of a stored record (kind 1, 85 octets) at the front of `length` octets; the rest is
 * not looked at. Refusal 7. Writes nothing. */
struct linkbox_settings_answer linkbox_read_settings(const uint8_t *from, size_t length);

/* The loss line of a stored record (kind 2, 24 octets) at the front of `length` octets; the rest is
 * not looked at. Refusal 7. Writes nothing. */
struct linkbox_line_answer linkbox_read_line(const uint8_t *from, size_t length);

/* Writes a loss line as a record into the front of `room` octets. Refusals 4 and 3. Writes into. */
struct linkbox_written linkbox_write_line(uint8_t *into, size_t room, struct linkbox_line line);

/* The value of the first TLV of a type in a frame: `length` octets from frame[start] on. Only
 * refusal 1, D1, D3 (a service frame, or an opcode that is not known), D4 and D5 are tested; there
 * is never a TLV of type 0. Writes nothing. */
struct linkbox_tlv_answer linkbox_tlv(const uint8_t *frame, size_t length, uint8_t kind);

#include "linkbox_raw.h"

/* ── calls on a box; each makes at most one call of the archive (linkbox_raw.h) ── */

/* Whether the archive's box has as many octets as this header's: 1, or 0. */
static inline int linkbox_fits(void) {
    return linkbox_abi() == sizeof(struct linkbox);
}

/* A new setting. Answers 0, and the box starts with these settings, whatever it held: both service
 * counts 0, a cleared session, every peer present for a hold time, a full period to the first CCM.
 * Or answers refusal 4, and the box runs on as it was. Writes the box; it may not overlap the
 * settings. */
static inline uint32_t linkbox_new_setting(struct linkbox *box,
                                           const struct linkbox_settings *settings) {
    const struct linkbox_raw_new_box made =
        linkbox_raw_new_setting(linkbox_raw_set(settings), linkbox_raw_names(settings),
                                settings->peer_ids);
    if (made.refusal == 0) linkbox_raw_copy(box, &made.box, sizeof *box);
    return made.refusal;
}

/* What a box is set to, to be changed and set again. */
static inline struct linkbox_settings linkbox_settings_of(const struct linkbox *box) {
    struct linkbox_settings settings;
    linkbox_raw_copy(&settings, box, sizeof settings);
    return settings;
}

/* A frame from a side: `length` octets, destination address first, without the check sequence, and
 * with its padding. `receive` is when it came, `transmit` when a reply will leave. A reply is
 * written into the front of the `room` octets at `out`, and the octets after it stay. Refusals 2,
 * 1, 6, then the frame's rules, then 3 or 5. Writes the box and out; box, frame and out may not
 * overlap. */
static inline struct linkbox_frame_answer linkbox_frame(struct linkbox *box, uint32_t side,
                                                        const uint8_t *frame, size_t length,
                                                        struct linkbox_stamp receive,
                                                        struct linkbox_stamp transmit,
                                                        uint8_t *out, size_t room) {
    uint8_t none = 0;
    return linkbox_raw_frame(box->set, box->names, box->ids, box->timers, box->rdi, box->run,
                             box->totals, side, frame ? frame : &none, frame ? length : 0, receive,
                             transmit, out ? out : &none, out ? room : 0);
}

/* A tick of 1/600 s: lowers every timer above 0 by one. The last tick of a period writes a CCM (89
 * octets) into the front of `out`, and `length` is 0 on any other. Refusals 2 and 3; after 3 the
 * same tick may be called for again. Writes the box and out, which may not overlap. */
static inline struct linkbox_written linkbox_tick(struct linkbox *box, uint8_t *out, size_t room) {
    uint8_t none = 0;
    return linkbox_raw_tick(box->set, box->names, box->ids, box->timers, box->rdi, box->run,
                            box->totals, out ? out : &none, out ? room : 0);
}

/* How many ticks are left to the next CCM, the one that writes it counted: 1 or more. 0 where the
 * box is not well formed. Writes nothing. */
static inline uint32_t linkbox_ticks_to_next(const struct linkbox *box) {
    return linkbox_raw_ticks_to_next(box->set, box->names, box->ids, box->timers, box->rdi,
                                     box->run, box->totals);
}

/* A clear of the loss session: forgets the kept reading, sets both totals and the intervals to 0,
 * and changes nothing else. Answers 0, or refusal 2. Writes the box. */
static inline uint32_t linkbox_clear(struct linkbox *box) {
    return linkbox_raw_clear(box->set, box->names, box->ids, box->timers, box->rdi, box->run,
                             box->totals);
}

/* Writes an LMM (31 octets, to the loss peer, with our sent count). Refusals 2 and 3. Writes out,
 * which may not overlap the box. */
static inline struct linkbox_written linkbox_send_lmm(const struct linkbox *box, uint8_t *out,
                                                      size_t room) {
    uint8_t none = 0;
    return linkbox_raw_send_lmm(box->set, box->names, box->ids, box->timers, box->rdi, box->run,
                                box->totals, out ? out : &none, out ? room : 0);
}

/* Writes a DMM (51 octets, to the loss peer, with the caller's stamp). Refusals 2, 6 and 3. Writes
 * out, which may not overlap the box. */
static inline struct linkbox_written linkbox_send_dmm(const struct linkbox *box,
                                                      struct linkbox_stamp stamp, uint8_t *out,
                                                      size_t room) {
    uint8_t none = 0;
    return linkbox_raw_send_dmm(box->set, box->names, box->ids, box->timers, box->rdi, box->run,
                                box->totals, stamp, out ? out : &none, out ? room : 0);
}

/* Which conditions are active. It tests the whole box, as the reads below do not. Refusal 2. Writes
 * nothing. */
static inline struct linkbox_conditions_answer linkbox_conditions(const struct linkbox *box) {
    return linkbox_raw_conditions(box->set, box->names, box->ids, box->timers, box->rdi, box->run,
                                  box->totals);
}

/* Writes the loss line of the box's session as a record (kind 2, 24 octets), to be stored. Refusals
 * 2 and 3. Writes into, which may not overlap the box. */
static inline struct linkbox_written linkbox_loss_line(const struct linkbox *box, uint8_t *into,
                                                       size_t room) {
    uint8_t none = 0;
    return linkbox_raw_loss_line(box->set, box->names, box->ids, box->timers, box->rdi, box->run,
                                 box->totals, into ? into : &none, into ? room : 0);
}

/* Writes settings as a record (kind 1, 85 octets), to be stored. Refusals 4 and 3. Writes into,
 * which may not overlap the settings. */
static inline struct linkbox_written
linkbox_write_settings(uint8_t *into, size_t room, const struct linkbox_settings *settings) {
    uint8_t none = 0;
    return linkbox_raw_write_settings(into ? into : &none, into ? room : 0,
                                      linkbox_raw_set(settings), linkbox_raw_names(settings),
                                      settings->peer_ids);
}

/* ── reads: each is one word of a box as it lies, and judges nothing; in a box that is not well
 *    formed the words mean nothing. linkbox_conditions is the call that tests. ── */

/* Service frames sent and received, modulo 2^32. */
static inline uint32_t linkbox_sent(const struct linkbox *box) {
    return box->run[LINKBOX_AT_SENT];
}
static inline uint32_t linkbox_received(const struct linkbox *box) {
    return box->run[LINKBOX_AT_RECEIVED];
}

/* The loss session's totals, in frames, and the intervals that they cover. */
static inline int64_t linkbox_near_total(const struct linkbox *box) {
    return box->totals[LINKBOX_AT_NEAR];
}
static inline int64_t linkbox_far_total(const struct linkbox *box) {
    return box->totals[LINKBOX_AT_FAR];
}
static inline uint32_t linkbox_intervals(const struct linkbox *box) {
    return box->run[LINKBOX_AT_INTERVALS];
}

/* The ticks for which a condition stays active if nothing renews it, 0 while it is not active. */
static inline uint32_t linkbox_mismerge(const struct linkbox *box) {
    return box->run[LINKBOX_AT_MISMERGE];
}
static inline uint32_t linkbox_unexpected_level(const struct linkbox *box) {
    return box->run[LINKBOX_AT_UNEXPECTED_LEVEL];
}
static inline uint32_t linkbox_unexpected_mep(const struct linkbox *box) {
    return box->run[LINKBOX_AT_UNEXPECTED_MEP];
}
static inline uint32_t linkbox_unexpected_period(const struct linkbox *box) {
    return box->run[LINKBOX_AT_UNEXPECTED_PERIOD];
}
static inline uint32_t linkbox_ais(const struct linkbox *box) {
    return box->run[LINKBOX_AT_AIS];
}
static inline uint32_t linkbox_lck(const struct linkbox *box) {
    return box->run[LINKBOX_AT_LCK];
}

/* Of a slot, 0 to 7: the ticks until its peer's continuity is lost, 0 while it is or the slot is
 * unused; and 1 while that peer's last CCM had RDI. */
static inline uint32_t linkbox_peer_timer(const struct linkbox *box, size_t slot) {
    return box->timers[slot];
}
static inline uint32_t linkbox_peer_rdi(const struct linkbox *box, size_t slot) {
    return box->rdi[slot];
}

/* ── texts, for a log: each picks a text for a number, one too for a number it does not know ── */

static inline const char *linkbox_refusal_text(uint32_t refusal) {
    switch (refusal) {
    case 0: return "not refused";
    case LINKBOX_REFUSED_LENGTH: return "frame length outside 14..1514";
    case LINKBOX_REFUSED_STATE: return "box or session not well formed";
    case LINKBOX_REFUSED_ROOM: return "buffer too short";
    case LINKBOX_REFUSED_SETTING: return "bad setting or value";
    case LINKBOX_REFUSED_FULL: return "no loss interval left";
    case LINKBOX_REFUSED_STAMP: return "bad stamp";
    case LINKBOX_REFUSED_RECORD: return "bad stored record";
    default: return "a refusal that this header does not know";
    }
}

static inline const char *linkbox_drop_text(uint32_t drop) {
    switch (drop) {
    case 0: return "not dropped";
    case LINKBOX_DROP_SHORT: return "OAM frame too short";
    case LINKBOX_DROP_LEVEL: return "level";
    case LINKBOX_DROP_OPCODE: return "opcode not handled";
    case LINKBOX_DROP_OFFSET: return "TLV offset too small";
    case LINKBOX_DROP_CUT_OFF: return "fixed part or TLVs cut off";
    case LINKBOX_DROP_DESTINATION: return "not for us";
    case LINKBOX_DROP_VALUE: return "bad value of a field";
    case LINKBOX_DROP_TOO_LARGE: return "delay too large";
    default: return "a drop that this header does not know";
    }
}

#ifdef __cplusplus
}
#endif

#endif
