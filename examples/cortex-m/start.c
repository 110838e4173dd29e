/*
 * Start-up for a Cortex-M with no system below it, and qemu's semihosting. The memory between _bss and
 * _bss_end is cleared, .kept is left as it is: that is all that the driver asks of a start-up code.
 */
#include "semihosting.h"

extern uint32_t _stack_top, _bss, _bss_end;

int main(void);
void board_start(void);

enum { SYS_WRITE0 = 0x04, SYS_EXIT_EXTENDED = 0x20, APPLICATION_EXIT = 0x20026 };

static uint32_t semihosted(uint32_t operation, const void *argument) {
    register uint32_t r0 __asm__("r0") = operation;
    register const void *r1 __asm__("r1") = argument;
    __asm__ volatile("bkpt 0xab" : "+r"(r0) : "r"(r1) : "memory");
    return r0;
}

void say(const char *text) {
    semihosted(SYS_WRITE0, text);
}

void say_number(const char *text, uint32_t number) {
    char digits[12];
    unsigned at = sizeof digits;
    digits[--at] = 0;
    digits[--at] = '\n';
    do {
        digits[--at] = (char)('0' + number % 10);
        number /= 10;
    } while (number != 0);
    say(text);
    say(digits + at);
}

void processor_exit(uint32_t status) {
    const uint32_t block[2] = {APPLICATION_EXIT, status};
    semihosted(SYS_EXIT_EXTENDED, block);
    for (;;) {
    }
}

/* The register AIRCR of the processor's system control block: its key, and SYSRESETREQ. */
void processor_reset(void) {
    *(volatile uint32_t *)0xE000ED0C = 0x05FA0004;
    for (;;) {
    }
}

static void reset(void) {
    for (uint32_t *word = &_bss; word != &_bss_end; word++)
        *word = 0;
    board_start();
    main();
    processor_exit(0);
}

static void fault(void) {
    say("WRONG  a fault of the processor\n");
    processor_exit(1);
}

/* The processor's vector table: the stack's top, the reset, and fourteen exceptions. */
typedef struct {
    uint32_t *stack;
    void (*reset)(void);
    void (*exception[14])(void);
} vectors;

__attribute__((section(".vectors"), used)) const vectors VECTORS = {
    &_stack_top,
    reset,
    {fault, fault, fault, fault, fault, fault, fault, fault, fault, fault, fault, fault, fault, fault},
};
