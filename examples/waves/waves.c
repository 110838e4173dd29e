/*
 * The strobes of a session, to look at: programs one page into the modelled target, as first.c does, and
 * writes both wires to standard output as a value change dump (VCD), which GTKWave and PulseView open. A
 * number limits the steps:
 *
 *     waves 200 >start.vcd
 *
 * With --svg it draws the session's first Address Write and its first Data Write as a picture instead.
 */
#include <stdio.h>
#include <stdlib.h>
#include <string.h>

#include "c2_target.h"
#include "waves.h"

/* The session, frame by frame. */
typedef struct {
    uint8_t image[512], flash[16384], record[C2_RECORD_BYTES], step;
    c2_settings device;
    c2_target target;
    const uint8_t *delays;
    size_t delays_len;
    uint32_t number;
} session;

static void open_session(session *s, const uint8_t *delays, size_t delays_len) {
    c2_settings device = {.device_id = 0x04,
                          .fpdat = 0xB4,
                          .page_size = 512,
                          .page_count = 32,
                          .wait_limit = 20,
                          .pairs = {0, {0}, {0}}};
    memcpy(s->image, "gain knobs, third try", 22);
    s->device = device;
    s->target = c2_target_fresh();
    s->delays = delays;
    s->delays_len = delays_len;
    c2_opened opened = c2_open(s->record, sizeof s->record, s->image, sizeof s->image, device, 0);
    s->number = opened.number;
    s->step = (uint8_t)opened.step;
}

/* The next frame, or as much of it as the limit leaves; the limit falls by its steps. */
static void next_frame(session *s, frame *f, uint64_t *limit) {
    frame_begin(f);
    while (!f->whole && *limit > 0) {
        c2_replied replied = c2_target_step(s->device, s->device.pairs, s->target, s->flash, sizeof s->flash,
                                            s->delays, s->delays_len, s->step);
        uint8_t reply = (uint8_t)replied.reply;
        s->target = replied.target;
        frame_take(f, s->step, reply);
        *limit = s->step == C2_STEP_OFF ? 0 : *limit - 1;
        if (s->step != C2_STEP_OFF)
            s->number = c2_next(s->record, s->image, sizeof s->image, reply, &s->step).number;
    }
}

/* Gives the session's number after the last step written. */
static uint32_t write_dump(uint64_t limit) {
    static session s;
    frame f;
    wires w = {0, HIGH, FLOATING, NOBODY};
    open_session(&s, NULL, 0);
    vcd_header();
    while (limit > 0) {
        next_frame(&s, &f, &limit);
        vcd_frame(&w, &f);
    }
    vcd_end(&w);
    return s.number;
}

/* After a reset, the Data Read of the ID and a reset come the two frames; the Data Write's WAIT has a zero
   here. */
static uint32_t draw_picture(void) {
    static const uint8_t delays[] = {0, 1};
    static session s;
    static frame frames[5];
    uint64_t limit = UINT64_MAX;
    open_session(&s, delays, sizeof delays);
    for (size_t i = 0; i < 5; i++)
        next_frame(&s, &frames[i], &limit);
    svg_picture(&frames[3], &frames[4]);
    return s.number;
}

static bool is_number(const char *text) {
    return *text != '\0' && text[strspn(text, "0123456789")] == '\0';
}

int main(int argc, char **argv) {
    bool picture = argc == 2 && strcmp(argv[1], "--svg") == 0;
    if (argc > 2 || (argc == 2 && !picture && !is_number(argv[1]))) {
        fputs("usage: waves [--svg | number of steps]\n", stderr);
        return 2;
    }
    uint64_t limit = argc == 2 ? strtoull(argv[1], NULL, 10) : UINT64_MAX;
    uint32_t number = picture ? draw_picture() : write_dump(limit);
    bool written = fflush(stdout) == 0 && !ferror(stdout);
    return written && (number == C2_DONE || number == C2_RUNNING) ? 0 : 1;
}
