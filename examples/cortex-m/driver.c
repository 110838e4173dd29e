/*
 * A driver to copy, for a processor with no system below it: it programs a page over two pins, some strobes
 * at a time, and sleeps in between. Nothing but the record lives over sleep. main is called at the start and
 * after each sleep that ended by a reset.
 */
#include "board.h"

enum { STEPS_AT_A_TIME = 128, FIRST_PAGE = 1 };

/* The device, from its data sheet, and the image, here in the processor's own flash. */
static const c2_settings DEVICE = {.device_id = 0x0B,
                                   .fpdat = 0xB4,
                                   .page_size = 512,
                                   .page_count = 4,
                                   .wait_limit = 20,
                                   .pairs = {1, {0xB6}, {0x10}}}; /* its flash timing */
static const uint8_t IMAGE[512] = "gain knobs, third try";

static void pulse(uint32_t low_us, uint32_t high_us) {
    board_wait_us(1);
    board_c2ck(false);
    board_wait_us(low_us);
    board_c2ck(true);
    board_wait_us(high_us);
}

/* Does one step and returns its reply: C2D after it. */
static uint8_t do_step(uint8_t step) {
    if (step == C2_STEP_LOW || step == C2_STEP_HIGH)
        board_c2d_drive(step == C2_STEP_HIGH);
    else
        board_c2d_release();
    switch (step) {
    case C2_STEP_RESET:
        pulse(20, 2);
        break;
    case C2_STEP_PAUSE:
        board_wait_us(20000);
        break;
    case C2_STEP_OFF:
        board_c2ck_off();
        return 0;
    default:
        pulse(1, 1);
    }
    return board_c2d() ? 1 : 0;
}

/* FNV-1a. The record is refused where damage shows in its ranges; this shows the rest. */
static uint32_t check_of(const uint8_t *record) {
    uint32_t sum = 2166136261u;
    for (unsigned i = 0; i < C2_RECORD_BYTES; i++)
        sum = (sum ^ record[i]) * 16777619u;
    return sum;
}

/*
 * Steps, from the given one on, until it is time to sleep or the session is over. The record doesn't tell the
 * step that awaits its reply: so the driver sleeps only before a released strobe, and goes on with that.
 */
static c2_advanced go_on(uint8_t step) {
    c2_advanced answer;
    unsigned count = 0;
    do {
        answer = c2_next(kept.record, IMAGE, sizeof IMAGE, do_step(step), &step);
        count++;
    } while (answer.number == C2_RUNNING && (count < STEPS_AT_A_TIME || step != C2_STEP_RELEASED));
    kept.check = check_of(kept.record);
    return answer;
}

/* The session that was kept goes on; where there is none, a new one is opened, which resets the device. */
static c2_advanced some_steps(void) {
    uint32_t number = c2_steps_left(kept.record, sizeof kept.record).number;
    if (kept.check == check_of(kept.record) && number == C2_RUNNING)
        return go_on(C2_STEP_RELEASED);
    c2_opened opened = c2_open(kept.record, sizeof kept.record, IMAGE, sizeof IMAGE, DEVICE, FIRST_PAGE);
    if (opened.number == C2_RUNNING)
        return go_on((uint8_t)opened.step);
    return (c2_advanced){.number = opened.number, .offset = 0, .taken = 0};
}

int main(void) {
    c2_advanced answer = some_steps();
    while (answer.number == C2_RUNNING) {
        board_sleep();
        answer = some_steps();
    }
    do_step(C2_STEP_OFF);
    board_done(answer);
    return 0;
}
