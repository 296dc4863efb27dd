/* firmware.c: the loop of a link box. It rests until a frame or the next CCM, gives the box every
 * tick that has passed, those it missed too, and hands frames from both sides to it. Every half
 * minute it asks the loss peer for its counts; every minute it stores a loss line, asks for delay
 * and says which peers are lost. */
#include "board.h"

enum { SECOND = 600, HALF_MINUTE = 30 * SECOND, MINUTE = 60 * SECOND, LEAST_ON_WIRE = 60 };

/* What this end of the link is: level 5, a CCM every 10 s, one peer. */
static const struct linkbox_settings SETTINGS = {
    5, 7, 5, 1, {2, 0, 0, 0, 0, 7}, {2, 0, 0, 0, 0, 9}, "grain quay to mill, link 7", {9}};

static struct linkbox box;
static uint8_t out[LINKBOX_LEN_FRAME_MOST];

/* Sends what the box has written into out, padded to what a wire takes. A refusal is logged. */
static void send(uint32_t side, struct linkbox_written written) {
    if (written.refusal != 0) {
        board_say("not sent", linkbox_refusal_text(written.refusal));
        return;
    }
    while (written.length < LEAST_ON_WIRE) out[written.length++] = 0;
    board_send(side, out, written.length);
}

/* The minute's record, and which peers are lost. */
static void report(void) {
    struct linkbox_conditions_answer active = linkbox_conditions(&box);
    struct linkbox_written line = linkbox_loss_line(&box, out, sizeof out);
    if (line.refusal == 0) board_store(out, line.length);
    for (size_t slot = 0; slot < LINKBOX_LEN_PEERS; slot++) {
        if (active.lost[slot] != 0) board_say("a peer", "continuity lost");
    }
}

/* One tick, the so-manieth since the start, and what is due on it. */
static void tick(uint32_t count) {
    struct linkbox_written ccm = linkbox_tick(&box, out, sizeof out);
    if (ccm.refusal != 0 || ccm.length != 0) send(LINKBOX_ACTIVE, ccm);
    if (count % MINUTE == 0) report();
    if (count % HALF_MINUTE == 0) send(LINKBOX_ACTIVE, linkbox_send_lmm(&box, out, sizeof out));
    if (count % MINUTE == 0) {
        send(LINKBOX_ACTIVE, linkbox_send_dmm(&box, board_stamp(), out, sizeof out));
    }
}

/* One frame, and what the box says is to be done with it. */
static void frame(uint32_t side, const uint8_t *octets, size_t length, struct linkbox_stamp when) {
    struct linkbox_frame_answer answer =
        linkbox_frame(&box, side, octets, length, when, board_stamp(), out, sizeof out);
    if (answer.refusal != 0) board_say("frame refused", linkbox_refusal_text(answer.refusal));
    if (answer.drop != 0) board_say("frame dropped", linkbox_drop_text(answer.drop));
    switch (answer.done) {
    case LINKBOX_DONE_PASSED:
        board_send(side == LINKBOX_ACTIVE ? LINKBOX_PASSIVE : LINKBOX_ACTIVE, octets, length);
        break;
    case LINKBOX_DONE_REPLIED: board_send(side, out, answer.length); break;
    case LINKBOX_DONE_LOSS: board_loss(answer.near_loss, answer.far_loss); break;
    case LINKBOX_DONE_TWO_WAY:
    case LINKBOX_DONE_ALL_WAYS:
        board_delay(answer.two_way, answer.one_way_far, answer.one_way_near);
        break;
    default: break; /* taken in, or a first loss reply: nothing is to be done */
    }
}

int main(void) {
    static uint8_t in[LINKBOX_LEN_FRAME_MOST];
    uint32_t refusal, given = 0; /* the ticks that the box was given */
    if (!linkbox_fits()) {
        board_say("linkbox", "the archive has another box than the header");
        return 1;
    }
    refusal = linkbox_new_setting(&box, &SETTINGS);
    if (refusal != 0) {
        board_say("linkbox", linkbox_refusal_text(refusal));
        return 1;
    }
    while (board_wait(linkbox_ticks_to_next(&box))) {
        struct linkbox_stamp when;
        uint32_t side;
        size_t length;
        while (given != board_ticks()) tick(++given);
        while ((length = board_frame(in, sizeof in, &side, &when)) != 0) {
            frame(side, in, length, when);
        }
    }
    return 0;
}
