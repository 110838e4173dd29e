#include "driver.h"

/*
 * The record doesn't tell the step that awaits its reply. So a callback ends only before a released strobe,
 * and the next one starts with that. At most 12 strobes in a row are driven (INS 2, LENGTH 2, DATA 8), so a
 * callback does at most 12 steps more than it is meant to. A driver that ends its callbacks anywhere keeps
 * the step beside the record.
 */
enum { STEPS_PER_CALLBACK = 128 };

/*
 * A low pulse on C2CK. C2D is set up 40 ns before it or more; 1 us does. Keep interrupts off while C2CK is
 * low: a strobe that is stretched beyond 5 us is undefined, and from 20 us on it is a reset.
 */
static void pulse(const pins *pin, uint32_t low_us, uint32_t high_us) {
    pin->delay_us(pin->context, 1);
    pin->c2ck_set(pin->context, PIN_LOW);
    pin->delay_us(pin->context, low_us);
    pin->c2ck_set(pin->context, PIN_HIGH);
    pin->delay_us(pin->context, high_us);
}

/* Does one step and returns its reply: C2D after it, 0 or 1. C2_STEP_OFF has no reply; nothing is read then.
   */
static uint8_t do_step(const pins *pin, uint8_t step) {
    bool driven = step == C2_STEP_LOW || step == C2_STEP_HIGH;
    if (driven) /* the level first, so that no other one shows on the line */
        pin->c2d_set(pin->context, step == C2_STEP_HIGH);
    pin->c2d_drive(pin->context, driven);
    switch (step) {
    case C2_STEP_RESET:
        pulse(pin, 20, 2); /* low for at least 20 us, then high for at least 2 us before the next strobe */
        break;
    case C2_STEP_PAUSE:
        pin->delay_us(pin->context, 20000); /* at least 20 ms; a processor may sleep through it */
        break;
    case C2_STEP_OFF:
        pin->c2ck_set(pin->context, PIN_OFF); /* C2D is released already */
        return 0;
    default:
        pulse(pin, 1, 1); /* low for 80 ns to 5 us; the device's bit is on C2D 120 ns after the rising edge */
    }
    return pin->c2d_get(pin->context) ? 1 : 0;
}

/* Does steps, from the given one on, until the callback is full or the session is over. */
static c2_advanced go_on(const pins *pin, uint8_t *record, const uint8_t *image, size_t image_len,
                         uint8_t step) {
    c2_advanced answer = {C2_RUNNING, 0, 0};
    for (int count = 0; answer.number == C2_RUNNING; count++) {
        if (count >= STEPS_PER_CALLBACK && step == C2_STEP_RELEASED)
            return answer;
        answer = c2_next(record, image, image_len, do_step(pin, step), &step);
    }
    do_step(pin, C2_STEP_OFF);
    return answer;
}

c2_advanced driver_begin(const pins *pin, uint8_t *record, const uint8_t *image, size_t image_len,
                         c2_settings device, uint32_t first_page) {
    c2_opened opened = c2_open(record, C2_RECORD_BYTES, image, image_len, device, first_page);
    c2_advanced refused = {opened.number, 0, 0};
    return opened.number == C2_RUNNING ? go_on(pin, record, image, image_len, (uint8_t)opened.step) : refused;
}

/* Before it touches a pin it asks whether the record still holds a running session. */
c2_advanced driver_resume(const pins *pin, uint8_t *record, const uint8_t *image, size_t image_len) {
    c2_advanced answer = {c2_steps_left(record, C2_RECORD_BYTES).number, 0, 0};
    return answer.number == C2_RUNNING ? go_on(pin, record, image, image_len, C2_STEP_RELEASED) : answer;
}
