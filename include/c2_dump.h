/*
 * Two dumps of a flash compared: where two units differ.
 *
 * Both dumps are of one device, so they are of one length, a whole number of its pages; how many doesn't
 * matter, and none is a dump as well. Memory is lent as c2.h says; the list buffer is the one that is
 * written. The library is libdump.a; it links with the others into one program.
 */
#ifndef C2_DUMP_H
#define C2_DUMP_H

#include "c2.h"

#ifdef __cplusplus
extern "C" {
#endif

/* The answer to c2_dump_ranges. */
typedef struct {
    uint32_t number; /* 0; C2_BAD_PAGE_SIZE or C2_BAD_DUMPS when refused */
    uint32_t more;   /* 1 exactly if there are more ranges than were held; 0 when refused */
    uint64_t held;   /* ranges that the list buffer holds, two numbers each; 0 when refused */
} c2_ranges;

/* The answer to c2_dump_first. */
typedef struct {
    uint32_t number;  /* 0; C2_BAD_PAGE_SIZE or C2_BAD_DUMPS when refused */
    uint32_t differs; /* 1 where a byte differs, 0 where the dumps are equal; 0 when refused */
    uint64_t page;    /* the page of the first byte that differs, counted from the dumps' beginning, */
    uint32_t offset;  /* and its offset in that page; both are 0 when equal or refused */
} c2_difference;

/*
 * Lists the ranges of bytes that differ: each as long as possible, over the border of a page too, in rising
 * order. list[0] is the start of the first range, counted from the dumps' beginning, list[1] its length in
 * bytes, list[2] the start of the second, and so on.
 *
 * Tests, in this order: the page size, 512 or 1,024 (2); then that the dumps are of one length, and whole
 * pages (31). Refused, it leaves the list buffer as it was.
 *
 * list_len counts numbers of 64 bits, so a list buffer takes list_len / 2 ranges whole. If there are more, it
 * holds the first and answer.more is 1. The numbers behind the answer.held ranges are untouched, and so is the
 * last one of an odd list_len. A list buffer of length 0 holds nothing; answer.more is then 1 exactly if the
 * dumps differ.
 *
 * A page of n bytes has at most n / 2 ranges. So a list buffer of n + 2 numbers always reaches the next page:
 * go on there with the rest of both dumps, from the page in which the last range held ends, and pass over the
 * ranges that end no later. examples/dumps.c does.
 */
c2_ranges c2_dump_ranges(uint32_t page_size, const uint8_t *a, size_t a_len, const uint8_t *b, size_t b_len,
                         uint64_t *list, size_t list_len);

/*
 * The quick form: goes page by page and byte by byte, stops at the first difference and tells its page and
 * the offset in it, or says that the dumps are equal. It tests what c2_dump_ranges does, and writes nothing.
 */
c2_difference c2_dump_first(uint32_t page_size, const uint8_t *a, size_t a_len, const uint8_t *b, size_t b_len);

#ifdef __cplusplus
}
#endif

#endif
