/*
 * What the driver wants of a board: two pins, a wait, sleep, and some memory that outlives sleep.
 * board_model.c has them for the modelled target under qemu; write them anew for yours, a line or two each.
 */
#ifndef BOARD_H
#define BOARD_H

#include <stdbool.h>
#include <stdint.h>

#include "c2.h"

/* C2CK: driven high or low; off, the pull-up on the board keeps it high. */
void board_c2ck(bool high);
void board_c2ck_off(void);

/* C2D: driven high or low, or released, so that the device may drive it; and its level. */
void board_c2d_drive(bool high);
void board_c2d_release(void);
bool board_c2d(void);

/* Waits so long or longer. Keep interrupts off while C2CK is low: from 5 us on a strobe is undefined. */
void board_wait_us(uint32_t us);

/* Sleeps until there is time again, with C2CK high. It may end by a reset: then it does not return. */
void board_sleep(void);

/* What lives over sleep. Its place is in memory that the start-up code leaves as it is. */
typedef struct {
    uint8_t record[C2_RECORD_BYTES]; /* the session */
    uint32_t check;                  /* a sum over it, for memory that may have lost its content */
} board_kept;

extern board_kept kept;

/* Called once, when the session is over. */
void board_done(c2_advanced outcome);

#endif
