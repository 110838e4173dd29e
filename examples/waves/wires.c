/* The levels on C2CK and C2D, with the times of the driver in examples/driver. */
#include "c2.h"
#include "waves.h"

/* In ns. The device's bit is on C2D soon after the rising edge; here, as late as the maker's note has you
   wait. */
enum {
    SETUP = 1000,
    STROBE_LOW = 1000,
    STROBE_HIGH = 1000,
    RESET_LOW = 20000,
    RESET_HIGH = 2000,
    PAUSED = 20000000,
    BIT_VALID = 120
};

/* A low pulse on C2CK. After it the device has its bit on C2D, or lets it go; the master's stays. */
static void pulse(wires *w, const strobe *s, uint64_t low, uint64_t high, look *shown, void *context) {
    w->now += SETUP;
    w->c2ck = LOW;
    shown(context, w);
    w->now += low;
    w->c2ck = HIGH;
    shown(context, w);
    w->now += BIT_VALID;
    if (w->by != MASTER) {
        w->by = s->by;
        w->c2d = s->by == NOBODY ? FLOATING : s->reply == 1 ? HIGH : LOW;
    }
    shown(context, w);
    w->now += high - BIT_VALID;
}

/* Released, C2D keeps what the device has on it; where the master drove it, nobody does now. */
void wires_step(wires *w, const strobe *s, look *shown, void *context) {
    bool driven = s->step == C2_STEP_LOW || s->step == C2_STEP_HIGH;
    w->c2ck = HIGH; /* by the pull-up, where its driver is off */
    if (driven)
        w->c2d = s->step == C2_STEP_HIGH ? HIGH : LOW;
    else if (w->by == MASTER)
        w->c2d = FLOATING;
    w->by = driven ? MASTER : w->by == MASTER ? NOBODY : w->by;
    shown(context, w);
    if (s->step == C2_STEP_RESET)
        pulse(w, s, RESET_LOW, RESET_HIGH, shown, context);
    else if (s->step == C2_STEP_PAUSE)
        w->now += PAUSED;
    else if (s->step == C2_STEP_OFF)
        w->now += SETUP; /* so that it is seen */
    else
        pulse(w, s, STROBE_LOW, STROBE_HIGH, shown, context);
}
