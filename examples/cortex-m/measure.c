/*
 * Instructions of each call over a session of one page against the model, under qemu with -icount: the
 * processor's SysTick then counts instructions, in ticks that the nops below gauge. Each reply is taken
 * twice, by a call of its own and in a call with 64 of them; both must come to the same. make cortex-m makes
 * a table of what this says.
 */
#include "c2_target.h"
#include "semihosting.h"

#define SYST_CSR (*(volatile uint32_t *)0xE000E010)
#define SYST_RVR (*(volatile uint32_t *)0xE000E014)
#define SYST_CVR (*(volatile uint32_t *)0xE000E018)

enum { PAGE = 512, PAGES = 4, FLASH = PAGE * PAGES, MANY = 64, TICKS = 0xFFFFFF };

typedef struct {
    uint32_t calls, most;
    uint64_t ticks;
} meter;

static meter open_meter, one_meter, many_meter, left_meter, target_meter;
static uint8_t image[PAGE], flash[FLASH];
static uint32_t begun, empty;

static void begin(void) {
    begun = SYST_CVR;
}

static uint32_t passed(void) {
    return (begun - SYST_CVR) & TICKS;
}

static void end(meter *m) {
    uint32_t ticks = passed();
    ticks = ticks > empty ? ticks - empty : 0;
    m->calls++;
    m->ticks += ticks;
    m->most = ticks > m->most ? ticks : m->most;
}

static void tell(const char *name, const meter *m) {
    say(name);
    say_number(" calls ", m->calls);
    say(name);
    say_number(" ticks ", (uint32_t)(m->ticks * 16 / m->calls));
    say(name);
    say_number(" most ", m->most * 16);
}

__attribute__((noinline)) static void gauge(void) {
    begin();
    empty = passed();
    begin();
    __asm__ volatile(".rept 100\nnop\n.endr");
    say_number("nops ticks ", (passed() - empty) * 16 / 100);
}

void board_start(void) {
    SYST_RVR = TICKS;
    SYST_CVR = 0;
    SYST_CSR = 5;
}

static void differ(void) {
    say("WRONG  calls of one reply and of many differ\n");
    processor_exit(1);
}

static uint32_t number_after(uint8_t *record, const uint8_t *replies, uint32_t count) {
    uint8_t steps[MANY];
    begin();
    c2_advanced advanced = c2_advance(record, C2_RECORD_BYTES, image, PAGE, replies, count, steps, MANY, 0);
    end(&many_meter);
    if (advanced.taken != count)
        differ();
    return advanced.number;
}

int main(void) {
    const c2_settings settings = {.device_id = 0x04,
                                  .fpdat = 0xB4,
                                  .page_size = PAGE,
                                  .page_count = PAGES,
                                  .wait_limit = 20,
                                  .pairs = {0, {0}, {0}}};
    uint8_t record[C2_RECORD_BYTES], beside[C2_RECORD_BYTES], replies[MANY];
    uint32_t taken = 0, sum = 2166136261u;
    gauge();
    for (uint32_t i = 0; i < PAGE; i++)
        image[i] = (uint8_t)(i * 7 + 3);
    c2_target target = c2_target_fresh();
    begin();
    c2_opened opened = c2_open(record, sizeof record, image, PAGE, settings, 1);
    end(&open_meter);
    for (uint32_t i = 0; i < C2_RECORD_BYTES; i++)
        beside[i] = record[i];
    uint8_t step = (uint8_t)opened.step;
    uint32_t number = opened.number, waiting = 0;
    while (number == C2_RUNNING) {
        begin();
        c2_replied replied = c2_target_step(settings, settings.pairs, target, flash, FLASH, 0, 0, step);
        end(&target_meter);
        target = replied.target;
        uint8_t reply = (uint8_t)replied.reply;
        begin();
        c2_advanced advanced = c2_advance(record, sizeof record, image, PAGE, &reply, 1, &step, 1, 0);
        end(&one_meter);
        number = advanced.number;
        begin();
        c2_remaining remaining = c2_steps_left(record, sizeof record);
        end(&left_meter);
        sum = ((sum ^ step) * 16777619u ^ (uint32_t)remaining.steps) * 16777619u;
        replies[waiting++] = reply;
        taken++;
        if (waiting == MANY || number != C2_RUNNING) {
            if (number_after(beside, replies, waiting) != number)
                differ();
            waiting = 0;
        }
    }
    for (uint32_t i = 0; i < C2_RECORD_BYTES; i++)
        if (record[i] != beside[i])
            differ();
    say_number("outcome is ", number);
    say_number("replies are ", taken);
    say_number("sum is ", sum);
    tell("c2_open", &open_meter);
    tell("c2_advance", &one_meter);
    tell("c2_advance_64", &many_meter);
    tell("c2_steps_left", &left_meter);
    tell("c2_target_step", &target_meter);
    return 0;
}
