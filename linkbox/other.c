/* other.c: the functions of the headers for another processor than x86-64, over the compiler's own
 * functions in its IR, which linkbox/build --target names inner_NAME and compiles beside this. The
 * compiler's lengths have 64 bits on every processor, and C's have those of the processor: here is
 * where one becomes the other. A length that C passes in fits, and one that is answered is no
 * longer than what was passed in. */
#include "linkbox.h"

/* The answers with a length, as the IR lays them out. */
struct wide_written {
    uint32_t refusal;
    _Alignas(8) uint64_t length;
};
struct wide_frame {
    uint32_t refusal, drop, done;
    _Alignas(8) uint64_t length;
    int64_t near_loss, far_loss, two_way, one_way_far, one_way_near;
};
struct wide_tlv {
    uint32_t refusal, drop, found;
    _Alignas(8) uint64_t start, length;
};

/* The arrays of a box that is only read, by type and by name. */
#define ARRAYS                                                                                     \
    const uint32_t *set, const uint8_t *names, const uint32_t *ids, const uint32_t *timers,        \
        const uint32_t *rdi, const uint32_t *run, const int64_t *totals
#define GIVEN set, names, ids, timers, rdi, run, totals

/* Octets are passed as where they are and how many, a stamp as its two words. */
void inner_raw_new_setting(struct linkbox_raw_new_box *, const uint32_t *, const uint8_t *,
                           const uint32_t *);
uint32_t inner_raw_clear(const uint32_t *, const uint8_t *, const uint32_t *, const uint32_t *,
                         const uint32_t *, uint32_t *, int64_t *);
void inner_raw_conditions(struct linkbox_conditions_answer *, ARRAYS);
uint64_t inner_abi(void);
void inner_raw_frame(struct wide_frame *, const uint32_t *, const uint8_t *, const uint32_t *,
                     uint32_t *, uint32_t *, uint32_t *, int64_t *, uint32_t, const uint8_t *,
                     uint64_t, uint32_t, uint32_t, uint32_t, uint32_t, uint8_t *, uint64_t);
void inner_raw_tick(struct wide_written *, const uint32_t *, const uint8_t *, const uint32_t *,
                    uint32_t *, const uint32_t *, uint32_t *, const int64_t *, uint8_t *, uint64_t);
uint32_t inner_raw_ticks_to_next(ARRAYS);
void inner_raw_send_lmm(struct wide_written *, ARRAYS, uint8_t *, uint64_t);
void inner_raw_send_dmm(struct wide_written *, ARRAYS, uint32_t, uint32_t, uint8_t *, uint64_t);
void inner_raw_loss_line(struct wide_written *, ARRAYS, uint8_t *, uint64_t);
void inner_raw_write_settings(struct wide_written *, uint8_t *, uint64_t, const uint32_t *,
                              const uint8_t *, const uint32_t *);
void inner_read_settings(struct linkbox_settings_answer *, const uint8_t *, uint64_t);
void inner_read_line(struct linkbox_line_answer *, const uint8_t *, uint64_t);
void inner_write_line(struct wide_written *, uint8_t *, uint64_t, const struct linkbox_line *);
void inner_measure(struct linkbox_loss_answer *, struct linkbox_session *, uint32_t, uint32_t,
                   uint32_t, uint32_t);
void inner_tlv(struct wide_tlv *, const uint8_t *, uint64_t, uint8_t);

/* An answer with C's own length. */
static struct linkbox_written narrow(struct wide_written wide) {
    struct linkbox_written written = {wide.refusal, (size_t)wide.length};
    return written;
}

struct linkbox_raw_new_box linkbox_raw_new_setting(const uint32_t *set, const uint8_t *names,
                                                   const uint32_t *ids) {
    struct linkbox_raw_new_box made;
    inner_raw_new_setting(&made, set, names, ids);
    return made;
}

uint32_t linkbox_raw_clear(const uint32_t *set, const uint8_t *names, const uint32_t *ids,
                           const uint32_t *timers, const uint32_t *rdi, uint32_t *run,
                           int64_t *totals) {
    return inner_raw_clear(GIVEN);
}

struct linkbox_conditions_answer linkbox_raw_conditions(ARRAYS) {
    struct linkbox_conditions_answer answer;
    inner_raw_conditions(&answer, GIVEN);
    return answer;
}

size_t linkbox_abi(void) {
    return (size_t)inner_abi();
}

struct linkbox_frame_answer linkbox_raw_frame(const uint32_t *set, const uint8_t *names,
                                              const uint32_t *ids, uint32_t *timers,
                                              uint32_t *rdi, uint32_t *run, int64_t *totals,
                                              uint32_t side, const uint8_t *frame, size_t length,
                                              struct linkbox_stamp receive,
                                              struct linkbox_stamp transmit, uint8_t *out,
                                              size_t room) {
    struct wide_frame w;
    inner_raw_frame(&w, GIVEN, side, frame, length, receive.seconds, receive.nanoseconds,
                    transmit.seconds, transmit.nanoseconds, out, room);
    struct linkbox_frame_answer answer = {w.refusal,  w.drop,    w.done,        (size_t)w.length, w.near_loss,
                                          w.far_loss, w.two_way, w.one_way_far, w.one_way_near};
    return answer;
}

struct linkbox_written linkbox_raw_tick(const uint32_t *set, const uint8_t *names,
                                        const uint32_t *ids, uint32_t *timers,
                                        const uint32_t *rdi, uint32_t *run, const int64_t *totals,
                                        uint8_t *out, size_t room) {
    struct wide_written w;
    inner_raw_tick(&w, GIVEN, out, room);
    return narrow(w);
}

uint32_t linkbox_raw_ticks_to_next(ARRAYS) {
    return inner_raw_ticks_to_next(GIVEN);
}

struct linkbox_written linkbox_raw_send_lmm(ARRAYS, uint8_t *out, size_t room) {
    struct wide_written w;
    inner_raw_send_lmm(&w, GIVEN, out, room);
    return narrow(w);
}

struct linkbox_written linkbox_raw_send_dmm(ARRAYS, struct linkbox_stamp stamp, uint8_t *out,
                                            size_t room) {
    struct wide_written w;
    inner_raw_send_dmm(&w, GIVEN, stamp.seconds, stamp.nanoseconds, out, room);
    return narrow(w);
}

struct linkbox_written linkbox_raw_loss_line(ARRAYS, uint8_t *into, size_t room) {
    struct wide_written w;
    inner_raw_loss_line(&w, GIVEN, into, room);
    return narrow(w);
}

struct linkbox_written linkbox_raw_write_settings(uint8_t *into, size_t room, const uint32_t *set,
                                                  const uint8_t *names, const uint32_t *ids) {
    struct wide_written w;
    inner_raw_write_settings(&w, into, room, set, names, ids);
    return narrow(w);
}

struct linkbox_settings_answer linkbox_read_settings(const uint8_t *from, size_t length) {
    struct linkbox_settings_answer answer;
    inner_read_settings(&answer, from, length);
    return answer;
}

struct linkbox_line_answer linkbox_read_line(const uint8_t *from, size_t length) {
    struct linkbox_line_answer answer;
    inner_read_line(&answer, from, length);
    return answer;
}

struct linkbox_written linkbox_write_line(uint8_t *into, size_t room, struct linkbox_line line) {
    struct wide_written w;
    inner_write_line(&w, into, room, &line);
    return narrow(w);
}

struct linkbox_loss_answer linkbox_measure(struct linkbox_session *session, uint32_t txf,
                                           uint32_t rxf, uint32_t txb, uint32_t ours) {
    struct linkbox_loss_answer answer;
    inner_measure(&answer, session, txf, rxf, txb, ours);
    return answer;
}

struct linkbox_tlv_answer linkbox_tlv(const uint8_t *frame, size_t length, uint8_t kind) {
    struct wide_tlv w;
    inner_tlv(&w, frame, length, kind);
    struct linkbox_tlv_answer answer = {w.refusal, w.drop, w.found, (size_t)w.start,
                                        (size_t)w.length};
    return answer;
}
