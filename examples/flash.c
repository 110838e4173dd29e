/*
 * Programs a fresh modelled target (ID 0x04, FPDAT 0xB4, 32 pages of 512 bytes, flash all 0, no delays) from
 * page 0 with the image on standard input, and writes the pages, the replies that it took, and the outcome. A
 * refused image is none of its pages. Build and run: make flash <image.
 */
#include <stdio.h>

#include "c2_target.h"

enum { PAGE = 512, PAGES = 32, FLASH = PAGE * PAGES };

typedef struct {
    uint32_t number;
    unsigned long replies;
} run;

static const c2_settings DEVICE = {.device_id = 0x04,
                                   .fpdat = 0xB4,
                                   .page_size = PAGE,
                                   .page_count = PAGES,
                                   .wait_limit = 20,
                                   .pairs = {0, {0}, {0}}};

static run program(const uint8_t *image, size_t image_len) {
    static uint8_t flash[FLASH];
    uint8_t record[C2_RECORD_BYTES];
    c2_target target = c2_target_fresh();
    c2_opened opened = c2_open(record, sizeof record, image, image_len, DEVICE, 0);
    run made = {.number = opened.number, .replies = 0};
    uint8_t step = (uint8_t)opened.step;
    while (made.number == C2_RUNNING) {
        c2_replied replied =
            c2_target_step(DEVICE, DEVICE.pairs, target, flash, sizeof flash, NULL, 0, step);
        target = replied.target;
        made.number = c2_next(record, image, image_len, (uint8_t)replied.reply, &step).number;
        made.replies++;
    }
    return made;
}

int main(void) {
    static uint8_t image[FLASH + 1];
    size_t image_len = fread(image, 1, sizeof image, stdin);
    /* an image that is larger than the flash has too many pages, whole ones or not */
    run made = {.number = C2_PAST_LAST_PAGE, .replies = 0};
    if (image_len <= FLASH)
        made = program(image, image_len);
    size_t pages = made.number > C2_RUNNING && made.number <= C2_PAST_LAST_PAGE ? 0 : image_len / PAGE;
    printf("pages %lu\n", (unsigned long)pages);
    printf("replies %lu\n", made.replies);
    printf("outcome %lu\n", (unsigned long)made.number);
    return 0;
}
