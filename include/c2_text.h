/*
 * The numbers of c2.h in words, each with what to do about it: the words of docs/NUMBERS.md. Header only.
 */
#ifndef C2_TEXT_H
#define C2_TEXT_H

#include "c2.h"

static inline const char *c2_text(uint32_t number) {
    switch (number) {
    case C2_RUNNING:
        return "running: do the step and give its reply";
    case C2_DONE:
        return "done: every page was erased, written, read back and found equal";
    case C2_BAD_FPDAT:
        return "FPDAT address below 3: take it from the device's data sheet";
    case C2_BAD_PAGE_SIZE:
        return "page size neither 512 nor 1,024: take it from the device's data sheet";
    case C2_BAD_PAGE_COUNT:
        return "page count 0, or more than 65,536 bytes of flash: correct the settings";
    case C2_BAD_WAIT_LIMIT:
        return "WAIT limit 0: give 20 for old units, else 1 to 255";
    case C2_BAD_PAIRS:
        return "more than four pairs, or a register below 3 or equal to the FPDAT address: take them from docs/DEVICES.md";
    case C2_BAD_IMAGE:
        return "image empty, or not whole pages: fill it up, with 0xFF for instance";
    case C2_PAST_LAST_PAGE:
        return "image reaches past the last page: take a lower first page or a shorter image";
    case C2_BAD_RECORD:
        return "record not 32 bytes, or no session in it: lend 32 bytes; if it was damaged, open again";
    case C2_OTHER_IMAGE:
        return "image of another length than at the opening: lend that one";
    case C2_NO_ROOM:
        return "no room for the steps: lend a longer step buffer, a lower place or fewer replies";
    case C2_BAD_REPLY:
        return "reply neither 0 nor 1: look for the fault in the driver";
    case C2_WAIT_LIMIT_REACHED:
        return "zeros in a WAIT reached its limit: no device, or it does not answer; look at wiring, power and WAIT limit";
    case C2_POLL_LIMIT_REACHED:
        return "256 reads of the status in vain: the device hangs, or FPDAT is wrong";
    case C2_OTHER_DEVICE:
        return "another device ID than in the settings: nothing was erased; check the device and the settings";
    case C2_BAD_STATUS:
        return "device refused a command: it may lack the page, be locked, or want other pairs";
    case C2_COMPARE_DIFFERS:
        return "byte read back differs from the image, see the offset: open again; if it stays, suspect the flash";
    case C2_NO_STEP:
        return "no such step of the modelled target: give 0 or 2 to 6";
    case C2_NO_POINT:
        return "flash length not page size times page count, or no target's state: start with a fresh target";
    case C2_BAD_LINE:
        return "bad character, digit count or line end: take the file from the build again; it is cut off, or no Intel HEX";
    case C2_BAD_CHECKSUM:
        return "record's bytes don't add up to 0: take the file from the build again; a byte of the line is wrong";
    case C2_BAD_HEX_RECORD:
        return "record of another type, or data past the last flash byte: build for this device, within its flash and 64 KiB";
    case C2_SET_TWICE:
        return "byte set twice: correct the build; two parts of it lie over each other";
    case C2_NO_END_RECORD:
        return "no end record, or anything after it: take the file from the build again; it is cut off, or two in one";
    case C2_NO_DATA:
        return "no data: correct the build; there is nothing to program";
    case C2_BUFFER_TOO_SMALL:
        return "buffer to be filled too small: lend a longer one";
    case C2_BAD_DUMPS:
        return "dumps of different length, or not whole pages: lend two dumps of one device";
    default:
        return "no number of c2.h: header and library don't belong together, or the number was overwritten";
    }
}

#endif
