/*
 * Intel HEX: the build's file into an image, and an image into a file. What is lent goes as in c2.h; the
 * buffer to be filled overlaps nothing else. No call allocates; reading takes 9 KiB of stack, writing less
 * than 1 KiB.
 */
#ifndef C2_HEX_H
#define C2_HEX_H

#include "c2.h"

#ifdef __cplusplus
extern "C" {
#endif

/* The answer to c2_hex_read. */
typedef struct {
    uint32_t number;     /* 0; 1 to 3 or 18 to 26 when refused */
    uint64_t line;       /* the faulty line, from 1, where a line decided the refusal; else 0 */
    uint32_t first_page; /* the page that the image begins with: c2_open's first_page; 0 when refused */
    uint64_t length;     /* bytes of the image, whole pages; 0 when refused */
} c2_hex_image;

/*
 * Reads a file. A line is a colon, the record in hex digits of either case (length, address, type, data,
 * checksum), and LF or CR LF; a file is data records (type 00) and the end record, :00000001FF. Records may
 * have 0 to 255 bytes and come in any order. The image goes from the first page that a byte is set in to the
 * last, 0xFF wherever nothing is set.
 *
 * Tests: the settings (1, 2, 3, 18, 19); then line by line, the first faulty line deciding, and in one line
 * the lowest number: 20 to 23, and 24 for a line after the end record; then a missing end record (24), no
 * data (25) and the image's length (26). Lines are cut at LF: a blank line, blanks, comments, or a last line
 * without its end are 20. A record without data sets nothing, wherever it lies.
 *
 * Accepted, it writes the image to the front of the buffer; every other byte stays. Refused, it changes none.
 * A buffer of page_size times page_count bytes is always long enough.
 */
c2_hex_image c2_hex_read(c2_settings settings, const uint8_t *file, size_t file_len, uint8_t *image,
                         size_t image_len);

/* The length of the file of an image. */
#define C2_HEX_BYTES(image_len) ((image_len) / 16 * 44 + 12)

/*
 * Writes an image from its first page on: rising records of 16 bytes and the end line, upper case, LF.
 * Reading that file gives the same first page and image.
 *
 * Tests as c2_open does (1, 2, 3, 18, 19, 4, 5), then the room for C2_HEX_BYTES (26). Accepted, it writes the
 * file to the front of the buffer; every other byte stays. Refused, it changes none.
 */
c2_written c2_hex_write(c2_settings settings, uint32_t first_page, const uint8_t *image, size_t image_len,
                        uint8_t *file, size_t file_len);

#ifdef __cplusplus
}
#endif

#endif
