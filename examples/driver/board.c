#include "board.h"

/* What the device makes the driver wait for: zeros in a WAIT, reads of the status. */
static const uint8_t DELAYS[] = {0, 3, 1, 0, 7, 19, 2};

/* The host drives no wire; pull-ups keep both high. */
void board_host_on(board *b) {
    b->c2ck = b->sent = true;
    b->driven = b->high = false;
    b->edge = b->ready = b->now;
    b->quiet = 0;
    b->cut = false;
}

void board_power_on(board *b) {
    board_host_on(b);
    b->target = c2_target_fresh();
}

void board_cut(board *b, uint32_t steps) {
    b->cut = true;
    b->power = steps;
}

static bool is_dead(const board *b) {
    return b->cut && b->power == 0;
}

static void fault_if(board *b, bool fault) {
    if (fault && !is_dead(b))
        b->faults++;
}

static void target_step(board *b, uint8_t step) {
    if (is_dead(b))
        return;
    c2_replied replied = c2_target_step(DEVICE, DEVICE.pairs, b->target, b->flash, sizeof b->flash, DELAYS,
                                        sizeof DELAYS, step);
    fault_if(b, replied.number != 0);
    b->target = replied.target;
    b->sent = replied.reply == 1;
    b->collision |= replied.target.collision == 1;
    if (b->cut)
        b->power--;
}

/* The length of the pulse tells a strobe from a reset; between the two the device may do anything. */
static void rising_edge(board *b, uint64_t low_us) {
    if (low_us >= 20) {
        fault_if(b, b->driven);
        target_step(b, C2_STEP_RESET);
        b->ready = b->now + 2;
        return;
    }
    fault_if(b, low_us < 1 || low_us > 5);
    if (!b->driven)
        target_step(b, C2_STEP_RELEASED);
    else
        target_step(b, b->high ? C2_STEP_HIGH : C2_STEP_LOW);
}

static void c2ck_set(void *context, pin_level level) {
    board *b = (board *)context;
    bool high = level != PIN_LOW;
    if (high == b->c2ck)
        return;
    uint64_t lasted = b->now - b->edge;
    b->c2ck = high;
    b->edge = b->now;
    b->quiet = 0;
    if (high)
        rising_edge(b, lasted);
    else
        fault_if(b, b->now < b->ready);
}

/* C2D must stand before C2CK falls. */
static void c2d_set(void *context, bool high) {
    board *b = (board *)context;
    fault_if(b, !b->c2ck);
    b->high = high;
}

static void c2d_drive(void *context, bool driven) {
    board *b = (board *)context;
    fault_if(b, !b->c2ck);
    b->driven = driven;
}

/* The bit is there some time after the edge, not at once. */
static bool c2d_get(void *context) {
    board *b = (board *)context;
    fault_if(b, !b->c2ck || b->now == b->edge);
    return b->driven ? b->high : b->sent;
}

static void delay_us(void *context, uint32_t us) {
    board *b = (board *)context;
    b->now += us;
    b->quiet = b->c2ck && !b->driven ? b->quiet + us : 0;
    if (b->quiet >= 20000) {
        b->quiet = 0;
        target_step(b, C2_STEP_PAUSE);
    }
}

pins board_pins(board *b) {
    pins pin = {b, c2ck_set, c2d_set, c2d_drive, c2d_get, delay_us};
    return pin;
}
