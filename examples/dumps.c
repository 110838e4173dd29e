/*
 * Where two dumps of a flash differ, as a table for people: page, offset and length of each range, and its
 * bytes in both.
 *
 *     dumps OLD NEW [PAGE_SIZE]
 *
 * The page size is 512 or 1,024, 512 if it is not given. The exit status is cmp's: 0 for equal dumps, 1 for
 * dumps that differ, 2 where something is wrong.
 */
#include <inttypes.h>
#include <stdio.h>
#include <stdlib.h>

#include "c2_dump.h"
#include "c2_text.h"

enum {
    EQUAL = 0,
    DIFFER = 1,
    TROUBLE = 2,
    LARGEST_PAGE = 1024,
    /* A page has at most one range for two bytes. Room for one more reaches the page behind it. */
    LIST = 2 * (LARGEST_PAGE / 2 + 1),
    /* bytes of a range that are shown */
    SHOWN = 8
};

typedef struct {
    uint8_t *bytes;
    size_t len;
} dump;

/* What was told so far. */
typedef struct {
    uint64_t ranges;
    uint64_t bytes;
    uint64_t end; /* of the last range told, counted from the dumps' beginning */
} tally;

/* The whole file, or no bytes and a message. */
static dump read_dump(const char *path) {
    dump d = {NULL, 0};
    size_t room = 0;
    FILE *file = fopen(path, "rb");
    if (file == NULL) {
        perror(path);
        return d;
    }
    do {
        room = room == 0 ? 65536 + 1 : 2 * room;
        uint8_t *longer = (uint8_t *)realloc(d.bytes, room);
        if (longer == NULL)
            break;
        d.bytes = longer;
        d.len += fread(d.bytes + d.len, 1, room - d.len, file);
    } while (d.len == room);
    if (ferror(file) || d.len == room) {
        perror(path);
        free(d.bytes);
        d.bytes = NULL;
    }
    fclose(file);
    return d;
}

/* The first bytes of a range; gives how many columns they take. */
static int show_bytes(const uint8_t *bytes, uint64_t count) {
    int columns = 0;
    for (uint64_t i = 0; i < count && i < SHOWN; i++)
        columns += printf(" %02x", bytes[i]);
    return columns + (count > SHOWN ? printf(" ..") : 0);
}

static void tell(const dump *old, const dump *new_one, uint32_t page_size, uint64_t start, uint64_t length) {
    printf("%6" PRIu64 " %6" PRIu64 " %7" PRIu64 " ", start / page_size, start % page_size, length);
    int columns = show_bytes(old->bytes + start, length);
    printf("%*s", 3 * (SHOWN + 1) - columns, "");
    show_bytes(new_one->bytes + start, length);
    printf("\n");
}

/*
 * The ranges from one page on, as many as the list buffer takes; it is lent again for each piece. A range that
 * ends no later than the last one told was told with it. Gives the answer.
 */
static c2_ranges tell_from(const dump *old, const dump *new_one, uint32_t page_size, size_t from, tally *told) {
    static uint64_t list[LIST];
    c2_ranges found = c2_dump_ranges(page_size, old->bytes + from, old->len - from, new_one->bytes + from,
                                     new_one->len - from, list, LIST);
    for (uint64_t i = 0; i < found.held; i++) {
        uint64_t start = from + list[2 * i], length = list[2 * i + 1];
        if (start + length > told->end) {
            tell(old, new_one, page_size, start, length);
            told->ranges++;
            told->bytes += length;
            told->end = start + length;
        }
    }
    return found;
}

/* All ranges, piece by piece: while there are more, on from the page in which the last one told ends. */
static tally tell_all(const dump *old, const dump *new_one, uint32_t page_size) {
    tally told = {0, 0, 0};
    size_t from = 0;
    while (tell_from(old, new_one, page_size, from, &told).more)
        from = (size_t)(told.end / page_size * page_size);
    return told;
}

static int compare(const dump *old, const dump *new_one, uint32_t page_size) {
    c2_difference first = c2_dump_first(page_size, old->bytes, old->len, new_one->bytes, new_one->len);
    if (first.number != 0) {
        fprintf(stderr, "dumps: %s\n", c2_text(first.number));
        return TROUBLE;
    }
    if (!first.differs) {
        printf("equal: %zu bytes\n", old->len);
        return EQUAL;
    }
    printf("  page offset  length  old bytes                  new bytes\n");
    tally told = tell_all(old, new_one, page_size);
    printf("%" PRIu64 " ranges, %" PRIu64 " of %zu bytes, first in page %" PRIu64 " at offset %" PRIu32 "\n",
           told.ranges, told.bytes, old->len, first.page, first.offset);
    return DIFFER;
}

int main(int count, char **arguments) {
    if (count < 3 || count > 4) {
        fprintf(stderr, "usage: dumps OLD NEW [PAGE_SIZE]\n");
        return TROUBLE;
    }
    uint32_t page_size = count == 4 ? (uint32_t)strtoul(arguments[3], NULL, 10) : 512;
    dump old = read_dump(arguments[1]), new_one = read_dump(arguments[2]);
    int status = old.bytes && new_one.bytes ? compare(&old, &new_one, page_size) : TROUBLE;
    free(old.bytes);
    free(new_one.bytes);
    return status;
}
