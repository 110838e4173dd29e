/* A board that is not there: it turns edges and levels on the two wires into steps of the modelled target. */
#ifndef BOARD_H
#define BOARD_H

#include "c2_target.h"
#include "driver.h"

enum { PAGE = 512, PAGES = 32, FLASH = PAGE * PAGES };

static const c2_settings DEVICE = {0x04, 0xB4, PAGE, PAGES, 20, {0, {0}, {0}}};

typedef struct {
    c2_target target;
    uint8_t flash[FLASH];
    uint64_t now;      /* us since the start */
    uint64_t edge;     /* time of the last edge on C2CK */
    uint64_t ready;    /* no strobe before this time: 2 us after a reset */
    uint64_t quiet;    /* how long both wires have rested with C2D released */
    bool c2ck;         /* level of C2CK */
    bool driven, high; /* C2D: whether the driver drives it, and how */
    bool sent;         /* what the device has on C2D, or the pull-up */
    bool collision;    /* the driver once drove C2D in a strobe of the device's */
    bool cut;          /* the host's power will go, */
    uint32_t power;    /* after so many steps more */
    unsigned faults;   /* times not kept, steps not known */
} board;

/* The whole board gets its power: the device has forgotten everything but its flash. */
void board_power_on(board *b);

/* The host gets its power again, and the device had its own all the time: it is as it was left. */
void board_host_on(board *b);

/* The host's power goes after so many steps more. Whatever the driver does then reaches no wire. */
void board_cut(board *b, uint32_t steps);

/* The five functions, for this board. */
pins board_pins(board *b);

#endif
