/* The wires as a value change dump, with frame, field and step as text. */
#include <inttypes.h>
#include <stdio.h>
#include <string.h>

#include "waves.h"

typedef enum { C2CK, C2D, BY_MASTER, STEP, FIELD, FRAME, SIGNALS } signal_name;

/* Strings are an addition of viewers to the standard. The step is one: PulseView takes no vector of bits. */
static const char HEADER[] = "$version examples/waves $end\n$timescale 1 ns $end\n$scope module c2 $end\n"
                             "$var wire 1 k C2CK $end\n$var wire 1 d C2D $end\n$var wire 1 m c2d_master $end\n"
                             "$var string 1 s step $end\n$var string 1 f field $end\n"
                             "$var string 1 n frame $end\n$upscope $end\n$enddefinitions $end\n";
static const char IDS[] = "kdmsfn";
static const char *const LEVELS[] = {"0", "1", "z"};

/* What was written last, so that only changes are; at the start nothing was. */
static uint64_t stamped = UINT64_MAX;
static char last[SIGNALS][NAME_BYTES + 2];

static void stamp(uint64_t now) {
    if (stamped != now)
        printf("#%" PRIu64 "\n", now);
    stamped = now;
}

static void change(uint64_t now, signal_name which, const char *kind, const char *value) {
    char text[sizeof last[0]];
    snprintf(text, sizeof text, "%s%s%s", kind, value, *kind == 's' ? " " : "");
    if (strcmp(last[which], text) == 0)
        return;
    stamp(now);
    printf("%s%c\n", text, IDS[which]);
    strcpy(last[which], text);
}

static void levels(void *context, const wires *w) {
    (void)context;
    change(w->now, C2CK, "", LEVELS[w->c2ck]);
    change(w->now, C2D, "", LEVELS[w->c2d]);
    change(w->now, BY_MASTER, "", w->by == MASTER ? "1" : "0");
}

void vcd_header(void) {
    fputs(HEADER, stdout);
}

void vcd_frame(wires *w, const frame *f) {
    char name[NAME_BYTES];
    frame_name(f, name);
    for (size_t i = 0; i < f->count; i++) {
        const strobe *s = &f->strobes[i];
        const char step[] = {(char)('0' + s->step), '\0'};
        change(w->now, FRAME, "s", name);
        change(w->now, STEP, "s", step);
        change(w->now, FIELD, "s", field_name(s->of));
        wires_step(w, s, levels, NULL);
    }
}

/* The end of the last step. */
void vcd_end(const wires *w) {
    stamp(w->now);
}
