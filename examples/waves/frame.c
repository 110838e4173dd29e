/* The frames, from the steps and their replies. */
#include <stdio.h>
#include <string.h>

#include "c2.h"
#include "waves.h"

/* The fields of each frame, by the code of INS; bit 0 of the code is 1 where the master writes. */
static const field FRAMES[4][6] = {
    {START, INS, LENGTH, WAIT, DATA, STOP}, /* Data Read */
    {START, INS, LENGTH, DATA, WAIT, STOP}, /* Data Write */
    {START, INS, ADDRESS, STOP},            /* Address Read */
    {START, INS, ADDRESS, STOP},            /* Address Write */
};
static const char *const FRAME_NAMES[4] = {"Data_Read", "Data_Write", "Address_Read", "Address_Write"};
static const char *const FIELD_NAMES[] = {"START", "INS",  "LENGTH", "ADDRESS", "DATA",
                                          "WAIT",  "STOP", "RESET",  "PAUSE",   "OFF"};

const char *field_name(field of) {
    return FIELD_NAMES[of];
}

void frame_begin(frame *f) {
    memset(f, 0, sizeof *f);
}

static field field_of(const frame *f, uint8_t step) {
    switch (step) {
    case C2_STEP_RESET:
        return RESET;
    case C2_STEP_PAUSE:
        return PAUSE;
    case C2_STEP_OFF:
        return OFF;
    default:
        return FRAMES[f->ins][f->place];
    }
}

static driver driver_of(const frame *f, field of) {
    bool writes = (f->ins & 1) == 1;
    switch (of) {
    case INS:
    case LENGTH:
        return MASTER;
    case ADDRESS:
    case DATA:
        return writes ? MASTER : DEVICE;
    case WAIT:
        return DEVICE;
    default:
        return NOBODY;
    }
}

static unsigned width(const frame *f, field of) {
    return of == INS || of == LENGTH ? 2 : of == ADDRESS ? 8 : of == DATA ? 8 * (f->length + 1) : 1;
}

/* Takes a strobe's reply, the bit on the line. A 0 in a WAIT stays there. */
static void take_bit(frame *f, field of, unsigned bit) {
    if (of == WAIT && bit == 0)
        return;
    f->value |= bit << f->bits++;
    if (f->bits < width(f, of))
        return;
    if (of == INS)
        f->ins = f->value;
    if (of == LENGTH)
        f->length = f->value;
    if (of == ADDRESS || of == DATA)
        f->byte = f->value;
    f->whole = of == STOP;
    f->place++;
    f->bits = f->value = 0;
}

void frame_take(frame *f, uint8_t step, uint8_t reply) {
    field of = field_of(f, step);
    strobe taken = {step, reply, of, driver_of(f, of)};
    f->strobes[f->count++] = taken;
    if (of == RESET || of == PAUSE || of == OFF || f->count == MOST_STROBES)
        f->whole = true;
    else
        take_bit(f, of, reply);
}

void frame_name(const frame *f, char name[NAME_BYTES]) {
    field first = f->strobes[0].of;
    if (first != START)
        snprintf(name, NAME_BYTES, "%s", field_name(first));
    else if (f->whole)
        snprintf(name, NAME_BYTES, "%s_0x%02X", FRAME_NAMES[f->ins], f->byte & 0xFF);
    else
        snprintf(name, NAME_BYTES, "%s", f->place > 1 ? FRAME_NAMES[f->ins] : "begun");
}
