/* The exported function of the zoo. */
#ifndef ZOO_H
#define ZOO_H

#include <stdbool.h>
#include <stddef.h>
#include <stdint.h>

typedef struct {
    uint8_t count;
    uint8_t registers[4];
    uint8_t values[4];
    uint32_t words[3];
} zoo_pairs;

typedef struct {
    uint8_t id;
    zoo_pairs pairs;
    uint16_t limit;
} zoo_settings;

typedef struct {
    uint64_t n;
    bool ok;
    zoo_settings settings;
} zoo_answer;

zoo_answer zoo_run(uint8_t n, const uint8_t *x, size_t x_len, const uint8_t *y, size_t y_len, uint64_t *list,
                   size_t list_len, uint16_t *cells, size_t cells_len, uint32_t *words, size_t words_len,
                   size_t size, bool flag, zoo_settings settings);

#endif
