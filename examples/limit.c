/*
 * Finds a device's WAIT limit: in a session at the highest limit the driver counts the zeros of each WAIT on the
 * wire, and one more than the most of them is the least limit that passes. Build and run: make examples.
 */
#include <stdio.h>

#include "c2_target.h"

enum { PAGE = 512, PAGES = 2, FLASH = PAGE * PAGES, HIGHEST = 255 };

/* A slow device: one of its WAITs in six has 36 zeros. */
static const uint8_t DELAYS[] = {0, 3, 36, 0, 7, 1};

static c2_settings device(uint8_t wait_limit) {
    c2_settings made = {0x04, 0xB4, PAGE, PAGES, wait_limit, {0, {0}, {0}}};
    return made;
}

/* Strobes that were driven in a row, zeros of the WAIT under way, and the most that one had. */
typedef struct {
    unsigned driven, zeros, most;
} waits;

/*
 * Lend it each step with its reply. A WAIT is the released strobes behind 12 driven ones (INS, LENGTH and DATA of
 * a Data Write) or behind 4 (INS and LENGTH of a Data Read), up to the first 1.
 */
static void note(waits *w, uint8_t step, uint8_t reply) {
    if (step == C2_STEP_LOW || step == C2_STEP_HIGH) {
        w->driven++;
    } else if (step == C2_STEP_RELEASED && reply == 0 && (w->driven == 12 || w->driven == 4)) {
        w->zeros++;
        if (w->zeros > w->most)
            w->most = w->zeros;
    } else {
        w->driven = w->zeros = 0;
    }
}

/* Programs a page at this limit and returns the session's number. The device's own limit is the highest. */
static uint32_t program(uint8_t wait_limit, waits *w) {
    static const uint8_t image[PAGE] = "gain knobs, third try";
    static uint8_t flash[FLASH];
    uint8_t record[C2_RECORD_BYTES];
    c2_target target = c2_target_fresh();
    c2_opened opened = c2_open(record, sizeof record, image, sizeof image, device(wait_limit), 1);
    uint32_t number = opened.number;
    uint8_t step = (uint8_t)opened.step;
    while (number == C2_RUNNING) {
        c2_settings slow = device(HIGHEST);
        c2_replied replied =
            c2_target_step(slow, slow.pairs, target, flash, sizeof flash, DELAYS, sizeof DELAYS, step);
        target = replied.target;
        note(w, step, (uint8_t)replied.reply);
        number = c2_next(record, image, sizeof image, (uint8_t)replied.reply, &step).number;
    }
    return number;
}

int main(void) {
    waits w = {0, 0, 0};
    if (program(HIGHEST, &w) != C2_DONE) {
        printf("WRONG  limit: no session at the highest limit\n");
        return 1;
    }
    unsigned least = w.most + 1;
    uint32_t above = program((uint8_t)least, &w), below = program((uint8_t)w.most, &w);
    int well = above == C2_DONE && below == C2_WAIT_LIMIT_REACHED;
    printf("%s  limit: the longest WAIT had %u zeros; a session at %u ends with %u, at %u with %u\n",
           well ? "ok   " : "WRONG", w.most, least, (unsigned)above, w.most, (unsigned)below);
    return well ? 0 : 1;
}
