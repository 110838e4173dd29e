/* Two frames as a picture: the fields, both wires, the steps. The colour says who drives C2D. */
#include <stdio.h>

#include "waves.h"

/* Tenths of a pixel to 20 ns, and places in pixels. */
enum { SCALE = 3, LEFT = 58, STROBE = 45, WIDTH = 800, ROW = 152, TOP = 8, HEIGHT = TOP + 2 * ROW + 34 };

static const char *const CLASSES[] = {"nobody", "master", "device"};
static const char *const WORDS[] = {"nobody drives C2D", "the master drives it", "the device drives it"};

static const char HEAD[] =
    "<svg xmlns=\"http://www.w3.org/2000/svg\" width=\"%d\" height=\"%d\" viewBox=\"0 0 %d %d\" role=\"img\">\n"
    "<title>An Address Write and a Data Write on C2CK and C2D</title>\n"
    "<style>\n"
    "text { font: 12px sans-serif; fill: #222 } .name { font-weight: bold } .mid { text-anchor: middle }\n"
    "path { fill: none; stroke-width: 2 } .c2ck { stroke: #222 }\n"
    "path.nobody { stroke: #999; stroke-dasharray: 4 3 }\n"
    "path.master { stroke: #1565c0 } path.device { stroke: #d84315 }\n"
    "rect.nobody { fill: #eee } rect.master { fill: #bbdefb } rect.device { fill: #ffccbc }\n"
    "</style>\n"
    "<rect width=\"100%%\" height=\"100%%\" fill=\"#fff\"/>\n";

/* Where a wire was last, so that a line can be drawn from there. */
typedef struct {
    int top; /* of the row */
    bool begun;
    wires before;
} pen;

static void at(uint64_t ns) {
    uint64_t tenths = ns * SCALE / 20;
    printf("%d.%d", (int)(LEFT + tenths / 10), (int)(tenths % 10));
}

static int height(level l, int high) {
    return l == HIGH ? high : l == LOW ? high + 20 : high + 10;
}

/* A level that has lasted until now, and the edge to the next. */
static void line(const char *kind, uint64_t from, uint64_t to, int y, int next) {
    printf("<path class=\"%s\" d=\"M", kind);
    at(from);
    printf(" %dH", y);
    at(to);
    if (next != y)
        printf("V%d", next);
    printf("\"/>\n");
}

static void draw(void *context, const wires *w) {
    pen *p = (pen *)context;
    const wires *b = &p->before;
    int clock = p->top + 54, data = p->top + 92;
    if (p->begun && w->now > b->now) {
        line("c2ck", b->now, w->now, height(b->c2ck, clock), height(w->c2ck, clock));
        line(CLASSES[b->by], b->now, w->now, height(b->c2d, data), height(w->c2d, data));
    }
    p->begun = true;
    p->before = *w;
}

static void text(int x, int y, const char *kind, const char *words) {
    printf("<text x=\"%d\" y=\"%d\" class=\"%s\">%s</text>\n", x, y, kind, words);
}

/* The fields as boxes over their strobes, and the steps below. */
static void fields(const frame *f, int top) {
    for (size_t i = 0, begun = 0; i < f->count; i++) {
        char step[] = {(char)('0' + f->strobes[i].step), '\0'};
        text(LEFT + (int)i * STROBE + STROBE / 2, top + 132, "mid", step);
        if (i + 1 < f->count && f->strobes[i + 1].of == f->strobes[i].of)
            continue;
        int x = LEFT + (int)begun * STROBE, width = (int)(i + 1 - begun) * STROBE;
        printf("<rect class=\"%s\" x=\"%d\" y=\"%d\" width=\"%d\" height=\"18\"/>\n", CLASSES[f->strobes[i].by],
               x + 1, top + 26, width - 2);
        text(x + width / 2, top + 39, "mid", field_name(f->strobes[i].of));
        begun = i + 1;
    }
}

static void row(const frame *f, const char *words, int top) {
    char name[NAME_BYTES + 24];
    snprintf(name, sizeof name, "%s 0x%02X", words, f->byte & 0xFF);
    text(LEFT, top + 16, "name", name);
    text(8, top + 69, "", "C2CK");
    text(8, top + 107, "", "C2D");
    text(8, top + 132, "", "step");
    fields(f, top);
    wires w = {0, HIGH, FLOATING, NOBODY};
    pen p = {top, false, w};
    for (size_t i = 0; i < f->count; i++)
        wires_step(&w, &f->strobes[i], draw, &p);
    draw(&p, &w);
}

static void legend(int y) {
    for (int i = 0; i < 3; i++) {
        int x = LEFT + i * 180;
        printf("<rect class=\"%s\" x=\"%d\" y=\"%d\" width=\"24\" height=\"12\"/>\n", CLASSES[i], x, y);
        text(x + 30, y + 11, "", WORDS[i]);
    }
}

void svg_picture(const frame *address_write, const frame *data_write) {
    printf(HEAD, WIDTH, HEIGHT, WIDTH, HEIGHT);
    row(address_write, "Address Write of", TOP);
    row(data_write, "Data Write of", TOP + ROW);
    legend(TOP + 2 * ROW + 8);
    printf("</svg>\n");
}
