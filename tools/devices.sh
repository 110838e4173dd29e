#!/bin/sh
# Writes a C program that tries every initialiser of c2_pairs in the table of that page: a row is the family,
# its device ID, its FPDAT address and its page size, and then cells with `{count, {registers}, {values}}`.

cat <<'END'
#include <stdio.h>
#include "c2_target.h"

enum { PAGE = 1024, PAGES = 2 };

/* A session over one page, against a device that wants these pairs. */
static int tried(const char *family, uint8_t id, uint8_t fpdat, uint32_t size, c2_pairs pairs) {
    static uint8_t image[PAGE], flash[PAGE * PAGES];
    c2_settings device = {id, fpdat, size, PAGES, 20, pairs};
    uint8_t record[C2_RECORD_BYTES];
    c2_target target = c2_target_fresh();
    c2_opened opened = c2_open(record, sizeof record, image, size, device, 1);
    uint32_t number = opened.number;
    uint8_t step = (uint8_t)opened.step;
    while (number == C2_RUNNING) {
        c2_replied replied = c2_target_step(device, pairs, target, flash, size * PAGES, NULL, 0, step);
        target = replied.target;
        number = c2_next(record, image, size, (uint8_t)replied.reply, &step).number;
    }
    if (number != C2_DONE)
        printf("WRONG  devices: %s with %u pairs ends with %u\n", family, pairs.count, (unsigned)number);
    return number == C2_DONE;
}

int main(void) {
    int lists = 0, well = 0;
END
awk -F'|' '/^\| .F.*\| 0x/ {
    for (i = 2; i <= NF; i++) gsub(/^ +| +$/, "", $i)
    gsub(/,/, "", $5)
    found = 0
    for (i = 6; i <= NF; i++) if ($i ~ /^`\{.*\}`$/) {
        gsub(/`/, "", $i)
        printf "    lists++, well += tried(\"%s\", %s, %s, %s, (c2_pairs)%s);\n", $2, $3, $4, $5, $i
        found = 1
    }
    served += found
    rows++
} END { printf "    const int served = %d, rows = %d;\n", served, rows }' "$1"
cat <<'END'
    if (well == lists && lists > 0)
        printf("ok     devices: %d lists of pairs, of %d of %d families, each programs a model that wants it\n",
               lists, served, rows);
    return well == lists && lists > 0 ? 0 : 1;
}
END
