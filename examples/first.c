/* The program of README.md, "A first program": a page into the modelled target. Build and run: make examples. */
#include <stdio.h>
#include "c2_target.h"

int main(void) {
    static uint8_t image[512] = "gain knobs, third try", flash[16384];
    uint8_t record[C2_RECORD_BYTES];                 /* the session, between two calls */
    c2_settings device = {.device_id = 0x04, .fpdat = 0xB4, .page_size = 512, .page_count = 32,
                          .wait_limit = 20,          /* of the device; 20 for old units */
                          .pairs = {0, {0}, {0}}};   /* registers that it wants written: none */
    c2_target target = c2_target_fresh();            /* the model; a driver has two pins here */
    c2_opened opened = c2_open(record, sizeof record, image, sizeof image, device, 0);
    uint32_t number = opened.number;
    uint8_t step = (uint8_t)opened.step;
    while (number == C2_RUNNING) {
        c2_replied replied =
            c2_target_step(device, device.pairs, target, flash, sizeof flash, NULL, 0, step);
        target = replied.target;
        number = c2_next(record, image, sizeof image, (uint8_t)replied.reply, &step).number;
    }
    printf("outcome %u, flash: %s\n", (unsigned)number, (const char *)flash);
    return number == C2_DONE ? 0 : 1;
}
