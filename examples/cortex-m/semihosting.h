/* What the examples ask of qemu by semihosting, and of the processor itself. */
#ifndef SEMIHOSTING_H
#define SEMIHOSTING_H

#include <stdint.h>

void say(const char *text);
void say_number(const char *text, uint32_t number);
void processor_exit(uint32_t status);
void processor_reset(void);

#endif
