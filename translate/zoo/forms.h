/* The exported functions of the forms. */
#ifndef FORMS_H
#define FORMS_H

#include <stdbool.h>
#include <stddef.h>
#include <stdint.h>

bool is_heavier(uint8_t n, uint8_t m);
uint16_t chunks(const uint8_t *a, size_t a_len);
uint16_t turned(uint16_t a, uint8_t b);
uint32_t number(uint8_t n);
uint32_t sums(uint8_t a, uint8_t b, uint32_t c, uint32_t d);
uint64_t found(const uint8_t *a, size_t a_len, uint8_t n);
uint64_t split(uint8_t *a, size_t a_len, size_t at);
uint8_t captured(uint8_t n, uint8_t k);
uint8_t deeper(uint8_t n, uint8_t m);
uint8_t four(const uint8_t *a, size_t a_len);
uint8_t kept(uint8_t n, size_t i);
uint8_t largest(const uint8_t *a, size_t a_len);
uint8_t longer(const uint8_t *a, size_t a_len, const uint8_t *b, size_t b_len);
uint8_t options(uint8_t n, uint8_t m);
uint8_t ranges(uint8_t n, uint8_t m);
uint8_t replaced(uint8_t *a, size_t a_len, size_t i, uint8_t n);
uint8_t tables(uint8_t n);
void written(uint8_t *a, size_t a_len, uint32_t n);
uint8_t moved_on(uint8_t n);
uint64_t fallen(size_t n, size_t m);

#endif
