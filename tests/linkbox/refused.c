/* refused.c: a setting that is refused leaves a running box running. Two boxes are set and run alike; then settings that break a rule are
 * typed into the first one. It must be, and go on, as the second one, which never saw them. `run`, beside it, makes and runs this; status 1
 * where anything differs. */
#include "said.h"

/* What both boxes have counted when the bad settings come, and where in a period of 6 ticks that is. */
enum { SENT = 4, RECEIVED = 2, TICKS = 4, PERIOD = 6, ROOM = 128 };

/* The two ends of the link. */
enum { QUAY = 7, MILL = 9 };

/* How many settings are typed that break a rule. */
enum { BAD_COUNT = 4 };

static const struct linkbox_stamp NONE = {0, 0};

/* Says what differs; its answer is the program's status. */
static int differs(const char *what) {
    print_text("linkbox: a refused setting: ");
    print_text(what);
    putchar('\n');
    return 1;
}

/* The settings of one end: level 5, a CCM every 10 ms, one peer. The last octet of an address is the end's MEP ID. */
static struct linkbox_settings settings_of(uint32_t own, uint32_t peer) {
    struct linkbox_settings settings = {5, own, 2, 1, {2}, {2}, {0}, {peer}};
    settings.own_address[5] = (uint8_t)own;
    settings.loss_peer[5] = (uint8_t)peer;
    for (size_t i = 0; i < LINKBOX_LEN_MEG_ID; i++) settings.meg_id[i] = (uint8_t)(i + 12);
    return settings;
}

/* The settings with one number that breaks its rule. */
static struct linkbox_settings broken(struct linkbox_settings settings, size_t which) {
    if (which == 0) settings.level = 8;
    if (which == 1) settings.mep_id = 8192;
    if (which == 2) settings.period = 0;
    if (which == 3) settings.peers = 9;
    return settings;
}

/* So many service frames from a side, each of which passes and is counted. */
static int pass(struct linkbox *box, uint32_t side, size_t count) {
    static const uint8_t service[64] = {2};
    for (size_t i = 0; i < count; i++) {
        if (linkbox_frame(box, side, service, sizeof service, NONE, NONE, NULL, 0).done != LINKBOX_DONE_PASSED) return 0;
    }
    return 1;
}

/* An LMM to the other end and its reply back; `done` is what must be done with the reply. */
static int measure(struct linkbox *box, struct linkbox *far, uint32_t done) {
    uint8_t asked[ROOM], reply[ROOM];
    struct linkbox_written lmm = linkbox_send_lmm(box, asked, ROOM);
    struct linkbox_frame_answer told = linkbox_frame(far, LINKBOX_ACTIVE, asked, lmm.length, NONE, NONE, reply, ROOM);
    return linkbox_frame(box, LINKBOX_ACTIVE, reply, told.length, NONE, NONE, NULL, 0).done == done;
}

/* So many ticks on which no CCM is due. */
static int wait_ticks(struct linkbox *box, size_t ticks) {
    for (size_t i = 0; i < ticks; i++) {
        struct linkbox_written told = linkbox_tick(box, NULL, 0);
        if (told.refusal != 0 || told.length != 0) return 0;
    }
    return 1;
}

/* Sets a box and lets it run: service frames both ways, a loss interval in which one frame is lost, and most of a period. */
static int run_up(struct linkbox *box) {
    const struct linkbox_settings quay = settings_of(QUAY, MILL), mill = settings_of(MILL, QUAY);
    struct linkbox far;
    if (linkbox_new_setting(box, &quay) != 0 || linkbox_new_setting(&far, &mill) != 0) return 0;
    if (!pass(box, LINKBOX_PASSIVE, SENT - 1) || !pass(box, LINKBOX_ACTIVE, RECEIVED)) return 0;
    if (!measure(box, &far, LINKBOX_DONE_FIRST) || !pass(box, LINKBOX_PASSIVE, 1) || !measure(box, &far, LINKBOX_DONE_LOSS)) return 0;
    return wait_ticks(box, TICKS);
}

/* Tells whether a box has the counts that it was run up to. */
static int counts_kept(const struct linkbox *box) {
    return linkbox_sent(box) == SENT && linkbox_received(box) == RECEIVED && linkbox_intervals(box) == 1 && linkbox_far_total(box) == 1 &&
           linkbox_near_total(box) == 0;
}

/* Types settings that break a rule into a box: refusal 4, and box and settings are as they were. What the library hands out is all zero and
 * not well formed. Says what is wrong, or NULL. */
static const char *type_bad(struct linkbox *box, struct linkbox_settings typed) {
    const struct linkbox_settings settings_before = typed;
    const struct linkbox before = *box, zeros = {0};
    if (linkbox_new_setting(box, &typed) != LINKBOX_REFUSED_SETTING) return "its answer is not 4";
    if (!same_octets(box, &before, sizeof before)) return "the box is not as it was";
    if (!same_octets(&typed, &settings_before, sizeof typed)) return "the settings are not as they were";
    struct linkbox_raw_new_box made = linkbox_raw_new_setting(linkbox_raw_set(&typed), linkbox_raw_names(&typed), typed.peer_ids);
    if (made.refusal != LINKBOX_REFUSED_SETTING) return "the library's own answer is not 4";
    if (!same_octets(&made.box, &zeros, sizeof zeros)) return "what is handed out is not all zero";
    return linkbox_tick(&made.box, NULL, 0).refusal == LINKBOX_REFUSED_STATE ? NULL : "what is handed out is taken for a box";
}

/* A tick of both boxes. Tells the CCM's length, or 0, where both give the same answer, write the same octets and are the same after it;
 * else -1. */
static int tick_alike(struct linkbox *box, struct linkbox *other) {
    uint8_t out[ROOM] = {0}, wanted[ROOM] = {0};
    struct linkbox_written told = linkbox_tick(box, out, ROOM), asked = linkbox_tick(other, wanted, ROOM);
    if (told.refusal != 0 || asked.refusal != 0 || told.length != asked.length) return -1;
    if (!same_octets(out, wanted, ROOM) || !same_octets(box, other, sizeof *box)) return -1;
    return (int)told.length;
}

/* Both boxes go on for three periods: every tick alike, and a CCM in each period. */
static int go_on(struct linkbox *box, struct linkbox *other) {
    int ccms = 0;
    for (size_t i = 0; i < 3 * PERIOD; i++) {
        int length = tick_alike(box, other);
        if (length != 0 && length != LINKBOX_LEN_CCM) return 0;
        ccms += length == LINKBOX_LEN_CCM;
    }
    return ccms == 3;
}

/* A setting that keeps the rules, read from a record and changed, is taken: the box starts anew with it. */
static int is_taken(struct linkbox *box) {
    uint8_t record[LINKBOX_LEN_SETTINGS_RECORD];
    const struct linkbox_settings now = linkbox_settings_of(box);
    if (linkbox_write_settings(record, sizeof record, &now).refusal != 0) return 0;
    struct linkbox_settings_answer read = linkbox_read_settings(record, sizeof record);
    read.settings.level = 6;
    if (read.refusal != 0 || linkbox_new_setting(box, &read.settings) != 0) return 0;
    return linkbox_settings_of(box).level == 6 && linkbox_sent(box) == 0 && linkbox_far_total(box) == 0 && wait_ticks(box, PERIOD - 1);
}

int main(void) {
    static struct linkbox box, other;
    if (!linkbox_fits()) return differs("the archive's box has another size");
    if (!run_up(&box) || !run_up(&other) || !same_octets(&box, &other, sizeof box)) return differs("two boxes do not run alike before it");
    for (size_t i = 0; i < BAD_COUNT; i++) {
        const char *wrong = type_bad(&box, broken(linkbox_settings_of(&box), i));
        if (wrong != NULL) return differs(wrong);
    }
    if (!counts_kept(&box)) return differs("the counts are not kept");
    if (!go_on(&box, &other)) return differs("the next ticks are not answered as they would have been");
    if (!is_taken(&box)) return differs("the next good one is not taken");
    print_text("linkbox: ");
    print_decimal(BAD_COUNT);
    print_text(" settings refused in mid run leave box, settings, counts and the next ");
    print_decimal(3 * PERIOD);
    print_text(" ticks with 3 CCMs as they were\n");
    return 0;
}
