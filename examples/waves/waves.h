/*
 * A session's steps as frames (frame.c), the frames as levels on the two wires (wires.c), and the levels as a
 * value change dump (vcd.c) or as a picture (svg.c).
 */
#ifndef WAVES_H
#define WAVES_H

#include <stdbool.h>
#include <stddef.h>
#include <stdint.h>

typedef enum { START, INS, LENGTH, ADDRESS, DATA, WAIT, STOP, RESET, PAUSE, OFF } field;

typedef enum { NOBODY, MASTER, DEVICE } driver;

/* A step with its reply, the field that it is a strobe of, and who may drive C2D in it. */
typedef struct {
    uint8_t step, reply;
    field of;
    driver by;
} strobe;

/* The longest frame of the device here has 32 bits of DATA and 20 strobes of WAIT: 58 strobes. */
enum { MOST_STROBES = 64 };

/*
 * A frame so far, or a step outside of frames. place is that of the next strobe's field in the frame; bits
 * and value are that field's; ins, length and byte are what those fields said.
 */
typedef struct {
    strobe strobes[MOST_STROBES];
    size_t count;
    unsigned place, bits, value, ins, length, byte;
    bool whole;
} frame;

/* An empty frame; then each step with its reply, until the frame is whole. */
void frame_begin(frame *f);
void frame_take(frame *f, uint8_t step, uint8_t reply);

/* The longest is "Address_Write_0x02"; a frame that is not whole has no byte. */
enum { NAME_BYTES = 32 };
void frame_name(const frame *f, char name[NAME_BYTES]);
const char *field_name(field of);

typedef enum { LOW, HIGH, FLOATING } level;

/* Both wires at one time, in ns, and who has C2D. */
typedef struct {
    uint64_t now;
    level c2ck, c2d;
    driver by;
} wires;

/* Goes through one step on the wires and shows them after each change. */
typedef void look(void *context, const wires *w);
void wires_step(wires *w, const strobe *s, look *shown, void *context);

/* Both write to standard output: a frame and its steps; the end; one picture of two frames. */
void vcd_header(void);
void vcd_frame(wires *w, const frame *f);
void vcd_end(const wires *w);
void svg_picture(const frame *address_write, const frame *data_write);

#endif
