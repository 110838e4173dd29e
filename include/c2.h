/*
 * Flash programming over the two-wire C2 interface: the driver's calls.
 *
 * A session programs one image into a device: it resets the device, compares its ID, turns its Programming
 * Interface on, writes the registers that the device wants first, and then erases, writes and reads back page
 * after page. The session never touches a pin. It names a step, the driver does that step on C2CK and C2D and
 * reads C2D after it, and the reply, 0 or 1, decides the step that follows.
 *
 * The record. Between calls a session is a record of 32 bytes, and nothing else: no call keeps a pointer, and
 * the library has no memory of its own. When a call has returned, the image, the replies and the step buffer
 * may be freed, moved or overwritten; the next call is lent them afresh, wherever they are by then. Keep the
 * 32 bytes as the last call left them (over sleep too) and the image's content, which every call that takes
 * replies must be lent again, unchanged. The step that awaits its reply is named once, by the call that
 * brought it: a driver that sleeps before it has done that step keeps this byte as well. A record that was
 * damaged is refused, as far as the damage shows: one that holds another session within its ranges is that
 * session. Sessions with records of their own don't know of each other.
 *
 * The whole of a driver, with one reply to a call:
 *
 *     uint8_t record[C2_RECORD_BYTES];
 *     c2_opened opened = c2_open(record, sizeof record, image, image_len, settings, first_page);
 *     uint32_t number = opened.number;
 *     uint8_t step = (uint8_t)opened.step;
 *     while (number == C2_RUNNING)
 *         number = c2_next(record, image, image_len, on_the_wire(step), &step).number;
 *     on_the_wire(C2_STEP_OFF);
 *
 * A call may take any number of replies, none too. Only their order counts: the same replies in other calls
 * give the same steps, the same outcome and the same record.
 *
 * What is lent. Each pointer stands for as many bytes as the length after it says; where that is 0 it is not
 * followed. The memory that a call may write (the record, the step buffer) must not overlap anything else
 * that the same call is lent. Within that, every call takes any input and ends: what is wrong comes back as a
 * number.
 *
 * c2_target.h has a modelled device to try a driver on, c2_dump.h compares two dumps of a flash, c2_text.h has
 * the numbers in words.
 */
#ifndef C2_H
#define C2_H

#include <stddef.h>
#include <stdint.h>

#ifdef __cplusplus
extern "C" {
#endif

/*
 * The version of the headers and of the library beside them, one number for #if. They belong together:
 * compile your program anew when you link another version.
 */
#define C2_VERSION_MAJOR 0
#define C2_VERSION_MINOR 3
#define C2_VERSION_PATCH 0
#define C2_VERSION (C2_VERSION_MAJOR * 10000 + C2_VERSION_MINOR * 100 + C2_VERSION_PATCH)

/* The length of a session's record. */
#define C2_RECORD_BYTES 32

/*
 * The steps. Each is one byte; after each of 0 to 5 the driver gives one reply, the line C2D after the step,
 * as 0 or 1. A strobe is a low pulse on C2CK: set C2D up before it, keep it no longer than 5 us (a reset is a
 * longer one), read C2D after it. The maker's note has the times in its section 2.4. There is no step 1.
 */
enum {
    C2_STEP_RELEASED = 0, /* strobe with C2D released: the device may drive it */
    C2_STEP_LOW = 2,      /* strobe with C2D driven low */
    C2_STEP_HIGH = 3,     /* strobe with C2D driven high */
    C2_STEP_RESET = 4,    /* reset: C2CK low for at least 20 us, then high for at least 2 us; C2D released.
                             The reply is not used, but must be 0 or 1 */
    C2_STEP_PAUSE = 5,    /* wait 20 ms with C2D released. The reply is not used, but must be 0 or 1 */
    C2_STEP_OFF = 6       /* the session is over, or was refused: both drivers off, no strobe, no reply */
};

/*
 * The numbers that come back, of every header here but radio.h, which has names of its own. c2_text.h has them
 * in words.
 */
enum {
    /* The session is running: do the step, give its reply. */
    C2_RUNNING = 0,
    /* The session ended done: every page was erased, written, read back and found equal. */
    C2_DONE = 32,

    /* Refused openings. There is no session; correct what is named and open again. */
    C2_BAD_FPDAT = 1,       /* FPDAT address below 3: take it from the device's data sheet */
    C2_BAD_PAGE_SIZE = 2,   /* page size neither 512 nor 1,024 */
    C2_BAD_PAGE_COUNT = 3,  /* page count 0, or size times count above 65,536 */
    C2_BAD_WAIT_LIMIT = 18, /* WAIT limit 0: give 20 for old units, else 1 to 255 */
    C2_BAD_PAIRS = 19,      /* more than four pairs, or a register below 3 or equal to the FPDAT address: take
                               them from docs/DEVICES.md or the maker's note */
    C2_BAD_IMAGE = 4,       /* image empty, or not whole pages: fill it up, with 0xFF for instance */
    C2_PAST_LAST_PAGE = 5,  /* first page plus the image's pages above the page count */

    /* Refused calls. No reply was taken and no lent byte has changed; the session, if there is one, stands
       where it stood. */
    C2_BAD_RECORD = 6,  /* record not 32 bytes long, or not a session within its ranges. Of an opening: lend
                           32 bytes. Later: the record was damaged or never opened; open again, which starts
                           at the first page */
    C2_OTHER_IMAGE = 7, /* the image's length is not the session's: lend the image of the opening */
    C2_NO_ROOM = 8,     /* place plus number of replies above the step buffer's length: lend a longer one, or
                           fewer replies */

    /* Sessions that ended at a reply. The device has had no last reset: reset it or switch it off. The pages
       begun may be erased or written in part; a new session programs them anew. */
    C2_BAD_REPLY = 9,           /* a reply neither 0 nor 1: look for the fault in the driver */
    C2_WAIT_LIMIT_REACHED = 10, /* as many zeros in a WAIT as its limit: no device, or it does not answer;
                                   look at the wiring, or take a higher limit */
    C2_POLL_LIMIT_REACHED = 11, /* the 256th read of InBusy or OutReady in vain: the device hangs, or FPDAT is
                                   wrong */
    C2_OTHER_DEVICE = 12,       /* the device ID is not the one of the settings: another device; nothing was
                                   erased */
    C2_BAD_STATUS = 13,         /* the device answered a command with a status other than 0x0D: it may lack
                                   the page, be locked, or want other pairs */
    C2_COMPARE_DIFFERS = 14,    /* a byte read back differs from the image; the offset says which. Try again,
                                   then suspect the flash, or an image that was changed meanwhile */

    /* Refused steps of the modelled target, c2_target.h. Nothing has changed. */
    C2_NO_STEP = 16,  /* step 1 or above 6 */
    C2_NO_POINT = 17, /* flash length not page size times page count, or a state that is no target's */

    /* Refused HEX files, c2_hex.h. No byte of the buffer to be filled has changed. */
    C2_BAD_LINE = 20,       /* a bad character, digit count or line end: the file is cut off, or no HEX file
                               */
    C2_BAD_CHECKSUM = 21,   /* the record's bytes don't add up to 0: a byte of the line is wrong */
    C2_BAD_HEX_RECORD = 22, /* type neither 00 nor 01, type 01 with length or address not 0, or data past the
                               last flash byte: the file is for another device, or for more than 64 KiB */
    C2_SET_TWICE = 23,      /* a byte set twice: two parts of the program lie over each other */
    C2_NO_END_RECORD = 24,  /* no end record, or anything after it: the file is cut off, or two in one */
    C2_NO_DATA = 25,        /* no data: nothing to program */
    C2_BUFFER_TOO_SMALL = 26, /* the buffer to be filled is too small: lend a longer one */

    /* Refused dumps, c2_dump.h: this one, and 2 before it. Nothing has changed. */
    C2_BAD_DUMPS = 31 /* dumps of different length, or not whole pages: lend two dumps of one device */
};

/*
 * Pairs of register and value, count of them: the first is registers[0] and values[0]. Entries from count on
 * are not looked at.
 */
typedef struct {
    uint8_t count;        /* at most 4 */
    uint8_t registers[4]; /* each 3 to 255, but not the FPDAT address */
    uint8_t values[4];    /* any bytes */
} c2_pairs;

/* The device. */
typedef struct {
    uint8_t device_id;   /* the ID that the device must have; any byte */
    uint8_t fpdat;       /* address of its FPDAT register, 3 to 255 */
    uint32_t page_size;  /* bytes of a flash page, 512 or 1,024 */
    uint32_t page_count; /* pages of the flash, at least 1; size times count at most 65,536 */
    uint8_t wait_limit;  /* so many zeros in a WAIT end a session, and one fewer with a 1 pass; 1 to 255, 20
                            for old units */
    c2_pairs pairs;      /* what the device wants before its flash is touched: each register is written with
                            its value, in their order. docs/DEVICES.md has them for the maker's families */
} c2_settings;

/* The answer of a call that writes a file. */
typedef struct {
    uint32_t number; /* 0, or why it was refused */
    uint64_t length; /* bytes written; 0 when refused */
} c2_written;

/* The answer to c2_open. */
typedef struct {
    uint32_t number; /* C2_RUNNING, or 1 to 6, 18 or 19 when refused */
    uint32_t step;   /* the first step, C2_STEP_RESET; C2_STEP_OFF when refused */
} c2_opened;

/* The answer to c2_advance. */
typedef struct {
    uint32_t number; /* the session's number after the replies taken: C2_RUNNING, C2_DONE or 9 to 14; 6, 7 or
                        8 when refused */
    uint32_t offset; /* with C2_COMPARE_DIFFERS the offset, in the image, of the byte that differs; 0 with
                        every other number */
    uint64_t taken;  /* replies taken, and so steps written; 0 when refused */
} c2_advanced;

/* The answer to c2_steps_left. */
typedef struct {
    uint32_t number; /* the session's number: C2_RUNNING, C2_DONE or 9 to 14; 6 for a record that holds none
                        */
    uint64_t steps;  /* the most steps still to come with a reply; 0 exactly for an ended session, and with
                        number 6 */
} c2_remaining;

/*
 * Opens a session that programs the image from page first_page on.
 *
 * Tests, in this order: the record is 32 bytes long (6); the settings (1, 2, 3, 18, 19); the image's length
 * (4); the pages (5). What the record held before doesn't matter. Only the image's length is looked at.
 *
 * Accepted, it writes all 32 bytes of the record and answers C2_RUNNING with step C2_STEP_RESET: do that step
 * and give its reply to c2_advance or c2_next. Refused, it leaves the record as it was and answers the number
 * with step C2_STEP_OFF.
 */
c2_opened c2_open(uint8_t *record, size_t record_len, const uint8_t *image, size_t image_len,
                  c2_settings settings, uint32_t first_page);

/*
 * Takes replies in a row, each the reply to the step before, the first to the last step that was written (or
 * to the reset of the opening).
 *
 * Tests, in this order: the record (6), the image's length (7), and that place plus replies_len is at most
 * steps_len (8). place may be any size_t: a sum that doesn't fit into one is too large all the same. Refused,
 * it changes no lent byte, takes no reply and gives offset 0.
 *
 * Accepted, it writes for each reply taken the step that follows it: the first to steps[place], the next to
 * steps[place + 1], and so on, answer.taken of them. Every other byte of the step buffer is untouched, before
 * and after. The record is then the session after those replies. Without replies, nothing is written and the
 * record stays as it was; place may then be steps_len.
 *
 * A reply may end the session: a bad one (9), the first that a WAIT, a poll or a compare fails at (10 to 14),
 * or the last one of all (C2_DONE). That reply counts as taken and brings C2_STEP_OFF; the replies behind it
 * are not taken. An ended session takes none and repeats its number, and the offset of C2_COMPARE_DIFFERS; it
 * is tested for 6, 7 and 8 like any other, and 8 counts the replies offered.
 */
c2_advanced c2_advance(uint8_t *record, size_t record_len, const uint8_t *image, size_t image_len,
                       const uint8_t *replies, size_t replies_len, uint8_t *steps, size_t steps_len,
                       size_t place);

/*
 * c2_advance for a live wire, where each step waits for the reply before it: takes one reply and writes the
 * step that follows it. The record is C2_RECORD_BYTES long. Where the reply is not taken (6, 7, or a session
 * that had ended before) no step is written: go on only while the number is C2_RUNNING.
 */
static inline c2_advanced c2_next(uint8_t *record, const uint8_t *image, size_t image_len, uint8_t reply,
                                  uint8_t *step) {
    return c2_advance(record, C2_RECORD_BYTES, image, image_len, &reply, 1, step, 1, 0);
}

/*
 * Tells where a session stands and the most steps still to come, the one that awaits its reply included. It
 * writes nothing and wants nothing but the record; ask whenever you like.
 *
 * Answers 6 and 0 for a record that is not 32 bytes long or holds no session within its ranges. Any other
 * record gives the session's number, 0 while it runs, and the figure.
 *
 * The figure counts every WAIT still to come or under way to its limit L in strobes and every poll to 256
 * reads, less those done. Each reply taken lowers it by at least 1, and no replies take more than it says;
 * most devices answer sooner and take far fewer. It is 0 exactly for an ended session. Just opened, a session
 * of k pages and n pairs has, with B blocks of 256 bytes to a page (2 or 4) and P = 3,086 + L,
 *
 *     16 + 4 * (14 + L) + n * (26 + L) + k * (12 + 6 * P + 2 * B * (12 + 262 * P))
 *
 * steps at most. For L = 20 that is 152 + n * 46 + k * (18,648 + 2 * B * 813,784): 3,273,936 for one page of
 * 512 bytes and no pairs. For L = 255, four pairs and 64 pages of 1,024 bytes it is 449,467,176. The figure
 * at the start divides a progress bar: (start - now) / start.
 */
c2_remaining c2_steps_left(const uint8_t *record, size_t record_len);

#ifdef __cplusplus
}
#endif

#endif
