/*
 * A chip that wants registers written before its flash is touched, a 'F34x: with its pairs, as
 * docs/DEVICES.md has them, a session programs it; with none, it is turned away before anything is erased.
 * Build and run: make examples.
 */
#include <stdio.h>
#include <string.h>

#include "c2_target.h"
#include "c2_text.h"

enum { PAGE = 512, PAGES = 4, FLASH = PAGE * PAGES };

/* Flash timing, VDD monitor on, VDD monitor a source of resets. */
static const c2_pairs OF_F34X = {3, {0xB6, 0xFF, 0xEF}, {0x90, 0x80, 0x02}};
static const c2_pairs NONE = {0, {0}, {0}};

static uint8_t flash[FLASH];

/* Programs page 1 with these pairs and returns the session's number. The device is the same each time. */
static uint32_t program(const uint8_t *image, c2_pairs pairs) {
    c2_settings device = {0x0F, 0xAD, PAGE, PAGES, 20, pairs};
    uint8_t record[C2_RECORD_BYTES];
    c2_target target = c2_target_fresh();
    c2_opened opened = c2_open(record, sizeof record, image, PAGE, device, 1);
    uint32_t number = opened.number;
    uint8_t step = (uint8_t)opened.step;
    memset(flash, 0x5A, sizeof flash);
    while (number == C2_RUNNING) {
        c2_replied replied = c2_target_step(device, OF_F34X, target, flash, sizeof flash, NULL, 0, step);
        target = replied.target;
        number = c2_next(record, image, PAGE, (uint8_t)replied.reply, &step).number;
    }
    return number;
}

/* Whether page 1 holds these bytes and every other page what it held before. */
static int holds(const uint8_t *page) {
    int same = memcmp(flash + PAGE, page, PAGE) == 0;
    for (size_t i = 0; i < FLASH; i++)
        same &= i / PAGE == 1 || flash[i] == 0x5A;
    return same;
}

static int told(int well, const char *pairs, uint32_t number) {
    printf("%s  pairs: %s, %u, %s\n", well ? "ok   " : "WRONG", pairs, (unsigned)number, c2_text(number));
    return well;
}

int main(void) {
    static const uint8_t image[PAGE] = "gain knobs, third try";
    uint8_t before[PAGE];
    memset(before, 0x5A, sizeof before);
    uint32_t with = program(image, OF_F34X);
    int well = told(with == C2_DONE && holds(image), "three, of a 'F34x", with);
    uint32_t without = program(image, NONE);
    well &= told(without == C2_BAD_STATUS && holds(before), "none, and the flash stays", without);
    return well ? 0 : 1;
}
