/* Programs the modelled target with HEX files, or says what is wrong with one. Run: make examples. */
#include <stdio.h>

#include "c2_hex.h"
#include "c2_target.h"
#include "c2_text.h"

enum { PAGE = 512, PAGES = 32, FLASH = PAGE * PAGES, FILE_BYTES = 1 << 20 };

static const c2_settings DEVICE = {0x04, 0xB4, PAGE, PAGES, 20, {0, {0}, {0}}};

/* Plays a session against a fresh target and returns its number. */
static uint32_t program(const uint8_t *image, size_t image_len, uint32_t first_page) {
    static uint8_t flash[FLASH];
    uint8_t record[C2_RECORD_BYTES];
    c2_target target = c2_target_fresh();
    c2_opened opened = c2_open(record, sizeof record, image, image_len, DEVICE, first_page);
    uint32_t number = opened.number;
    uint8_t step = (uint8_t)opened.step;
    while (number == C2_RUNNING) {
        c2_replied replied =
            c2_target_step(DEVICE, DEVICE.pairs, target, flash, sizeof flash, NULL, 0, step);
        target = replied.target;
        number = c2_next(record, image, image_len, (uint8_t)replied.reply, &step).number;
    }
    return number;
}

/* One file: its pages, and the outcome; or the line, and what is wrong with it. */
static int take(const char *name, const uint8_t *file, size_t file_len) {
    static uint8_t image[FLASH];
    c2_hex_image hex = c2_hex_read(DEVICE, file, file_len, image, sizeof image);
    if (hex.number != 0) {
        if (hex.line != 0)
            printf("%s, line %llu: %s\n", name, (unsigned long long)hex.line, c2_text(hex.number));
        else
            printf("%s: %s\n", name, c2_text(hex.number));
        return 1;
    }
    uint32_t outcome = program(image, (size_t)hex.length, hex.first_page);
    printf("%s: page %u to %u, outcome %u\n", name, (unsigned)hex.first_page,
           (unsigned)(hex.first_page + hex.length / PAGE - 1), (unsigned)outcome);
    return outcome == C2_DONE ? 0 : 1;
}

int main(int argc, char **argv) {
    static uint8_t file[FILE_BYTES];
    int wrong = 0;
    if (argc < 2) {
        fprintf(stderr, "usage: hex FILE..\n");
        return 2;
    }
    for (int i = 1; i < argc; i++) {
        FILE *in = fopen(argv[i], "rb");
        if (in == NULL) {
            perror(argv[i]);
            return 2;
        }
        size_t file_len = fread(file, 1, sizeof file, in);
        fclose(in);
        wrong |= take(argv[i], file, file_len);
    }
    return wrong;
}
