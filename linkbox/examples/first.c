/* first.c: a box is set, ticks for ten seconds and answers a request. Any C11 compiler takes it. */
#include <linkbox.h>
#include <stdio.h>

enum { LEVEL = 5 }; /* of the box, and of the frame: a higher one passes, a lower one is dropped */

int main(void) {
    static const struct linkbox_settings settings = {
        .level = LEVEL, .mep_id = 7, .period = 5, .peers = 1, /* period code 5: a CCM every 10 s */
        .own_address = {2, 0, 0, 0, 0, 7}, .loss_peer = {2, 0, 0, 0, 0, 9},
        .meg_id = "grain quay to mill, link 7", .peer_ids = {9}};
    static const uint8_t loopback[] = {2, 0, 0, 0, 0, 7, 2, 0, 0, 0, 0, 9, 0x89, 2, /* to us */
                                       LEVEL << 5, 3, 0, 4, 0, 0, 0, 1, 0}; /* LBM, offset 4 */
    static const struct linkbox_stamp not_given = {0, 0};
    static struct linkbox box;
    static uint8_t out[LINKBOX_LEN_FRAME_MOST]; /* room for the longest reply */
    if (!linkbox_fits()) return 2; /* the archive's box has another size than this header's */
    uint32_t refusal = linkbox_new_setting(&box, &settings);
    for (unsigned tick = 1; refusal == 0 && tick <= 6000; tick++) { /* 600 ticks are a second */
        struct linkbox_written ccm = linkbox_tick(&box, out, sizeof out);
        if (ccm.length > 0) printf("tick %u: a CCM of %zu octets\n", tick, ccm.length);
        refusal = ccm.refusal;
    }
    struct linkbox_frame_answer answer = linkbox_frame(
        &box, LINKBOX_ACTIVE, loopback, sizeof loopback, not_given, not_given, out, sizeof out);
    printf("drop %u, done %u, a reply of %zu octets\n", answer.drop, answer.done, answer.length);
    if (refusal == 0) refusal = answer.refusal;
    if (refusal != 0) puts(linkbox_refusal_text(refusal));
    return refusal != 0;
}
