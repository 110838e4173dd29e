/*
 * The radio module (Dolphin, TCM300 and alike), programmed over its own eight-byte commands.
 *
 * A job programs one image into the module's program area and our data into its configuration page: it
 * reads the configuration, erases and writes the program area, restores the configuration, reads the
 * image's pages back and compares them, and writes the code protection last. The job never touches a pin.
 * It names a message and the length of the reply; the driver sends the one over SPI, reads the other, and
 * gives it back.
 *
 * The record. Between calls a job is a record of 520 bytes, and nothing else: no call keeps a pointer, and
 * the library has no memory of its own. When a call has returned, image, mask, data, reply and message
 * buffer may be freed, moved or overwritten; the next call is lent them afresh. Keep the record as the last
 * call left it, over sleep too, and the image's content, which every later call must be lent again,
 * unchanged. A message stands in the buffer once: a driver that sleeps before it has sent it keeps out,
 * send and expect as well. A damaged record is refused, as far as the damage shows.
 *
 * The whole of a driver:
 *
 *     uint8_t record[RADIO_RECORD_BYTES], out[256], reply[256];
 *     radio_opened opened =
 *         radio_open(record, sizeof record, image, image_len, mask, 256, data, 256, out, sizeof out);
 *     radio_advanced at = {opened.number, 0, 0, opened.send, opened.expect};
 *     while (at.number == RADIO_RUNNING) {
 *         over_spi(out, at.send, reply, at.expect);
 *         at = radio_advance(record, sizeof record, image, image_len, reply, at.expect, out, sizeof out);
 *     }
 *
 * What is lent. Each pointer stands for as many bytes as the length after it says; where that is 0 it is
 * not followed. The memory that a call may write must not overlap anything else that the same call is lent.
 * Within that, every call takes any input and ends: what is wrong comes back as a number. No call
 * allocates, and none takes more than 1 KiB of stack.
 *
 * docs/RADIO.md has reset, SPI and READY, the order of the job, what to keep, and what a cut leaves;
 * radio_text.h has the numbers in words. The library is libradio.a; it links with the others into one
 * program.
 */
#ifndef RADIO_H
#define RADIO_H

#include <stddef.h>
#include <stdint.h>

#ifdef __cplusplus
extern "C" {
#endif

/* The length of a job's record. */
#define RADIO_RECORD_BYTES 520

/* The module's flash: 129 pages of 256 bytes. Page 127 is the configuration, page 128 information. */
#define RADIO_FLASH_BYTES 33024

/* The thirteen commands. Those that begin with INF are the module's answers. */
enum {
    RADIO_RD_SW_VERSION = 0x4B,
    RADIO_INF_SW_VERSION = 0x8C,
    RADIO_RD_FLASH_BYTE = 0x6B,
    RADIO_WR_FLASH_BYTE = 0x6C,
    RADIO_RD_FLASH_PAGE = 0x69,
    RADIO_WR_FLASH_PAGE = 0x6A,
    RADIO_RD_PRG_AREA = 0x6D,
    RADIO_WR_PRG_AREA = 0x6E,
    RADIO_INF_OK = 0x58,
    RADIO_INF_ERROR = 0x99,
    RADIO_WR_BLANK_CHK = 0x70,
    RADIO_WR_BIST = 0x71,
    RADIO_WR_PRG_XRAM = 0x6F
};

/* The numbers that come back. radio_text.h has them in words. */
enum {
    /* The job is running: send the message, give the reply. Of the other calls: done as asked. */
    RADIO_RUNNING = 0,
    /* The job ended done: the image was written, read back and found equal, the configuration restored. */
    RADIO_DONE = 32,

    /* Refused openings. There is no job; correct what is named and open again. */
    RADIO_BAD_MASK = 29,         /* mask or data not 256 bytes, a mask byte neither 0x00 nor 0xFF, or one that
                                    names byte 2 or 3 */
    RADIO_BAD_IMAGE_LENGTH = 30, /* image of 0 or above 32,256 bytes */

    /* Refused calls. No reply was taken and no lent byte has changed; the job, if there is one, stands where
       it stood. */
    RADIO_BAD_RECORD = 6,        /* record not 520 bytes long, or no job's: lend 520 bytes; if it was damaged,
                                    open again */
    RADIO_OTHER_IMAGE = 7,       /* the image's length is not that of the opening: lend that image */
    RADIO_BUFFER_TOO_SMALL = 26, /* buffer to be filled too small: lend 256 bytes, or 8 to radio_build */

    /* Jobs that ended at a reply. The module has had no last reset: reset it. Its program area may be erased
       or written in part; a new job programs it anew. */
    RADIO_BAD_MESSAGE = 28,  /* a reply with a wrong length, head, sum or command: look at SPI and READY. It
                                also refuses a command that is read or built, and a message to the model */
    RADIO_ERROR_ANSWER = 42, /* the module answered by INF_ERROR; the code says why */
    RADIO_PAGE_DIFFERS = 43, /* a byte read back differs from the padded image; the offset says which */

    /* Refused messages to the modelled module. Nothing has changed. */
    RADIO_NO_POINT = 17 /* flash not RADIO_FLASH_BYTES long, or a state that is no module's */
};

/* The module's error codes, which come beside RADIO_ERROR_ANSWER. Another module may have more. */
enum {
    RADIO_ERR_OUT_OF_MEMORY = 0,    /* address, page or page count past the memory */
    RADIO_ERR_READONLY = 1,         /* the page is read-only, or the code protection is set */
    RADIO_ERR_CODEPROTECTION = 2,   /* the code protection is set */
    RADIO_ERR_BYTE_NOT_ERASED = 3,  /* the byte to be written is not 0xFF */
    RADIO_ERR_CHECKSUM = 4,         /* the sum of the command is wrong */
    RADIO_ERR_BLANK_CHECK = 5,      /* program area or configuration is not erased */
    RADIO_ERR_WRITING_FAILED = 6,   /* the flash was not written */
    RADIO_ERR_ERASE_FAILED = 7,     /* the flash was not erased */
    RADIO_ERR_UNKNOW_CMD = 8        /* no command of the host's */
};

/* The answer to radio_read. */
typedef struct {
    uint32_t number; /* 0, or RADIO_BAD_MESSAGE */
    uint8_t command; /* the command byte, */
    uint8_t p0;      /* and the parameters as they stand; all are 0 when refused */
    uint8_t p1;
    uint8_t p2;
} radio_command;

/* Reads one command. Refused by 28 for a wrong length, head, sum or command byte. It writes nothing. */
radio_command radio_read(const uint8_t *bytes, size_t len);

/*
 * Builds one command: writes its eight bytes to the front of the buffer and answers 0. Tests, in this
 * order: the command byte is in the list (28), the buffer has eight bytes (26). Refused, it writes nothing;
 * past the eighth byte it never writes.
 */
uint32_t radio_build(uint8_t command, uint8_t p0, uint8_t p1, uint8_t p2, uint8_t *out, size_t out_len);

/* The answer to radio_open. */
typedef struct {
    uint32_t number; /* RADIO_RUNNING; 29, 30, 6 or 26 when refused */
    uint32_t send;   /* bytes of the first message, 8; 0 when refused */
    uint32_t expect; /* bytes of the reply to it, 8; 0 when refused */
} radio_opened;

/*
 * Opens a job that programs the image, 1 to 32,256 bytes, and the data under the mask: where a byte of the
 * mask is 0xFF the configuration gets our byte, where it is 0x00 it keeps its own. Bytes 2 and 3 can't be
 * named.
 *
 * Tests, in this order: mask and data (29), the image's length (30), the record's length (6), at least 256
 * bytes for the message (26). What the record held before doesn't matter, and of the image only its length
 * is looked at.
 *
 * Accepted, it writes the whole record, which depends on mask, data and image length alone, and the first
 * message: send = 8, expect = 8. The buffer behind the message stays. Refused, it answers the number and
 * zeros and changes no byte.
 */
radio_opened radio_open(uint8_t *record, size_t record_len, const uint8_t *image, size_t image_len,
                        const uint8_t *mask, size_t mask_len, const uint8_t *data, size_t data_len,
                        uint8_t *out, size_t out_len);

/* The answer to radio_advance. */
typedef struct {
    uint32_t number; /* RADIO_RUNNING, RADIO_DONE, 28, 42 or 43; 6, 7 or 26 when refused */
    uint32_t code;   /* with RADIO_ERROR_ANSWER the module's code, any byte; otherwise 0 */
    uint32_t offset; /* with RADIO_PAGE_DIFFERS the offset, in the image padded with 0xFF to whole pages,
                        of the first byte that differs; otherwise 0 */
    uint32_t send;   /* bytes of the next message: 8, 256, or 0 where there is only to be clocked; 0 when
                        the job has ended, and when refused */
    uint32_t expect; /* bytes of the reply to it: 8, 256 or 0; 0 when the job has ended, and when refused */
} radio_advanced;

/*
 * Takes ONE reply, that to the message before, of as many bytes as were expected; where that is 0, after a
 * program page that is not the last, an empty one.
 *
 * Tests, in this order: the record (6), the image's length (7), at least 256 bytes for the message (26).
 * Refused, it answers the number and zeros and changes no byte.
 *
 * Then the reply is judged: a wrong length, and where a command is expected a wrong head, sum or command
 * (28); an error answer (42); a page of the image that differs (43). Each ends the job. With RADIO_RUNNING,
 * send out[0] to out[send - 1], then read `expect` bytes; out behind the message stays. The record is then
 * the job after that reply.
 *
 * An ended job is tested in the same way, takes no reply, and repeats number, code and offset; send and
 * expect are 0, and nothing is written. A job ends with reply 3 n + 7 at the latest, n pages.
 */
radio_advanced radio_advance(uint8_t *record, size_t record_len, const uint8_t *image, size_t image_len,
                             const uint8_t *reply, size_t reply_len, uint8_t *out, size_t out_len);

/* The modelled module, for tests without one. Its whole state is this; its flash is lent. */
typedef struct {
    uint32_t point; /* 0 waits for a command, page and left 0; 1 takes a page's data, page + left at most
                       128; 2 takes XRAM data, page 0, left 1 to 4; 3 sends a page, page + left at most
                       129 */
    uint32_t page;  /* the page that comes next, */
    uint32_t left;  /* and how many are to come, at least 1 */
} radio_target;

/* The answer to radio_target_step. */
typedef struct {
    uint32_t number;     /* 0; 17, 26 or 28 when refused */
    uint32_t reply;      /* the length of the reply, which stands in the buffer; 0 when refused */
    radio_target target; /* the state after the message; the one given when refused */
} radio_replied;

/* A fresh module, as after a reset: 0, 0, 0. */
radio_target radio_target_fresh(void);

/*
 * One message to the module. The flash is RADIO_FLASH_BYTES long.
 *
 * Tests, in this order: the flash's length and the state (17), at least 256 bytes for the reply (26), and
 * that the message is as long as the point takes it, 8, 256, 256 or 0, a command with its head (28).
 * Refused, it changes no byte. Otherwise the reply stands at the front of the buffer, and every byte behind
 * it stays.
 */
radio_replied radio_target_step(radio_target target, uint8_t *flash, size_t flash_len, const uint8_t *message,
                                size_t message_len, uint8_t *reply, size_t reply_len);

#ifdef __cplusplus
}
#endif

#endif
