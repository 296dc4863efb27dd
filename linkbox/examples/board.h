/* board.h: what the loop of firmware.c needs of the board that it runs on. */
#ifndef BOARD_H
#define BOARD_H

#include <linkbox.h>

/* Rests until a frame has come or so many ticks of 1/600 s have passed, and maybe longer. Answers 0
 * where the board is switched off. */
int board_wait(uint32_t ticks);

/* The ticks since the board was switched on, and the time of day for stamps. */
uint32_t board_ticks(void);
struct linkbox_stamp board_stamp(void);

/* Takes the next frame that has come: its length, 0 where there is none, its side, and when it came. */
size_t board_frame(uint8_t *into, size_t room, uint32_t *side, struct linkbox_stamp *when);

/* Sends a frame out of a side; the board adds the check sequence. */
void board_send(uint32_t side, const uint8_t *frame, size_t length);

/* Keeps a record. */
void board_store(const uint8_t *record, size_t length);

/* For the log: a text; the losses of an interval; delays in nanoseconds. */
void board_say(const char *what, const char *why);
void board_loss(int64_t near_loss, int64_t far_loss);
void board_delay(int64_t two_way, int64_t one_way_far, int64_t one_way_near);

#endif
