/*
 * The modelled target: a device on the other end of the wire, for tests without one. Its whole state is a
 * struct of numbers that is handed in and back by value; its flash and its delays are lent, as c2.h says.
 */
#ifndef C2_TARGET_H
#define C2_TARGET_H

#include "c2.h"

#ifdef __cplusplus
extern "C" {
#endif

/* A target between two steps. Numbers that are not in use are 0. */
typedef struct {
    uint64_t place;    /* place in the delay list */
    uint16_t start;    /* command: address of the next byte, */
    uint16_t rest;     /* and bytes still to come */
    uint16_t next;     /* output: address of the next byte, */
    uint16_t count;    /* and bytes still to be read */
    uint8_t point;     /* the strobe that comes next: 0 START, 1 INS, 2 LENGTH of a Data Write, 3 of a Data
                          Read, 4 a written ADDRESS, 5 DATA of one byte, 6 DATA of more, 7 the first strobe of
                          a WAIT, 8 a later one, 9 a bit that the target sends, 10 STOP */
    uint8_t heard;     /* bits of the field heard so far, */
    uint8_t value;     /* and their value, or the value that is left to be sent */
    uint8_t left;      /* bits still to come */
    uint8_t zeros;     /* zeros before the 1 of a WAIT */
    uint8_t effect;    /* at its STOP the frame: 0 does nothing, 1 sets the address, 2 writes, 3 counts an
                          Address Read, 4 reads */
    uint8_t byte;      /* the address or the byte of 1 and 2 */
    uint8_t collision; /* 1 once a strobe of the target's was driven */
    uint8_t address;   /* address register */
    uint8_t on;        /* 1 when the Programming Interface is on */
    uint8_t keys;      /* key writes in a row, 0 to 3 */
    uint8_t met1;      /* 1 when the last value written to the first wanted register since the reset is the
                          wanted one, */
    uint8_t met2;      /* to the second, */
    uint8_t met3;      /* to the third, */
    uint8_t met4;      /* and to the fourth */
    uint8_t command;   /* the byte that the command waits for: 0 a new command, 1 the page of an erase, 2 its
                          0x00, 3 a block's high byte, 4 its low byte, 5 its length code, 6 a byte to write, 7
                          a byte past the end */
    uint8_t write;     /* 1 for a block write */
    uint8_t page;      /* the page of an erase */
    uint8_t high;      /* the high byte of a block's address */
    uint8_t output;    /* output that waits: 0 none, 1 a status, 2 the status and then a block, 3 a block */
    uint8_t passed;    /* 1 when that status is 0x0D */
    uint8_t busy;      /* what is left of the delay d, */
    uint8_t late;      /* and of e */
} c2_target;

/* The answer to c2_target_step. */
typedef struct {
    uint32_t number;  /* 0; 1, 2, 3, 18, 19, C2_NO_POINT or C2_NO_STEP when refused */
    uint32_t reply;   /* 0 or 1; 1 when refused */
    c2_target target; /* the state after the step; the one given when refused */
} c2_replied;

/* A fresh target: address 0, interface off, no mark, first delay. */
c2_target c2_target_fresh(void);

/*
 * One step of the target. The flash is page_size times page_count bytes; the delays may be none. A WAIT sends
 * as many zeros as its delay modulo wait_limit says.
 *
 * wanted is what this device wants before its flash is touched, whatever the settings' pairs are: until the
 * last value written to each of these registers since the reset is the wanted one, erase and block write
 * answer status 0x00 to their command byte, end there and change no flash. A session with the same settings
 * ends done if its pairs leave these values, else with C2_BAD_STATUS and the flash as it was. A count of 0
 * wants nothing. Lend a target the same settings and the same wanted pairs throughout.
 *
 * Tests, in this order: the settings (1, 2, 3, 18, 19), the wanted pairs (19), the flash's length and the
 * state (17), and the step (16). Refused, it changes no lent byte.
 */
c2_replied c2_target_step(c2_settings settings, c2_pairs wanted, c2_target target, uint8_t *flash,
                          size_t flash_len, const uint8_t *delays, size_t delays_len, uint8_t step);

#ifdef __cplusplus
}
#endif

#endif
