/*
 * The numbers of radio.h in words, each with what to do about it: the words of docs/NUMBERS.md. Header only.
 */
#ifndef RADIO_TEXT_H
#define RADIO_TEXT_H

#include "radio.h"

static inline const char *radio_text(uint32_t number) {
    switch (number) {
    case RADIO_RUNNING:
        return "running: send the message and give the reply";
    case RADIO_DONE:
        return "done: the image was written, read back and found equal; reset the module";
    case RADIO_BAD_MASK:
        return "mask or data not 256 bytes, or no mask: give 0x00 or 0xFF for each byte, 0x00 for bytes 2 and 3";
    case RADIO_BAD_IMAGE_LENGTH:
        return "image of 0 or above 32,256 bytes: take the program area's image alone";
    case RADIO_BAD_RECORD:
        return "record not 520 bytes, or no job in it: lend 520 bytes; if it was damaged, open again";
    case RADIO_OTHER_IMAGE:
        return "image of another length than at the opening: lend that one";
    case RADIO_BUFFER_TOO_SMALL:
        return "buffer to be filled too small: lend 256 bytes, or 8 for a command";
    case RADIO_BAD_MESSAGE:
        return "wrong length, head, sum or command: look at SPI, READY and the lengths that were expected";
    case RADIO_ERROR_ANSWER:
        return "module answered with an error, see the code: by the code; 1 at the third reply: the code protection is set";
    case RADIO_PAGE_DIFFERS:
        return "page read back differs from the image, see the offset: open again; if it stays, suspect the flash";
    case RADIO_NO_POINT:
        return "flash not 33,024 bytes, or no module's state: start with a fresh module";
    default:
        return "no number of radio.h: header and library don't belong together, or the number was overwritten";
    }
}

/* The module's error code, which comes beside RADIO_ERROR_ANSWER. */
static inline const char *radio_error_text(uint32_t code) {
    switch (code) {
    case RADIO_ERR_OUT_OF_MEMORY:
        return "address, page or page count past the memory: look at the parameters";
    case RADIO_ERR_READONLY:
        return "page read-only, or code protection set: erase the module by other means first";
    case RADIO_ERR_CODEPROTECTION:
        return "code protection set: erase the module by other means first";
    case RADIO_ERR_BYTE_NOT_ERASED:
        return "byte to be written not 0xFF: erase its page, or the program area, before it is written";
    case RADIO_ERR_CHECKSUM:
        return "sum of the command wrong: look at SPI; the command was damaged on its way";
    case RADIO_ERR_BLANK_CHECK:
        return "program area or configuration not erased: open again; if it stays, suspect the flash";
    case RADIO_ERR_WRITING_FAILED:
        return "flash not written: open again; if it stays, suspect the flash or the supply";
    case RADIO_ERR_ERASE_FAILED:
        return "flash not erased: open again; if it stays, suspect the flash or the supply";
    case RADIO_ERR_UNKNOW_CMD:
        return "no command of the host's: look at SPI, and at the module's boot loader version";
    default:
        return "no code of the maker's note: another boot loader, or a damaged answer";
    }
}

#endif
