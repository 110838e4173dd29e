/*
 * The board under qemu, with the modelled target on its two wires. Sleep ends by a reset, as standby does on
 * many processors: only what stands in .kept is there afterwards. The device has its own power, so its state
 * stands there too.
 */
#include "board.h"
#include "c2_target.h"
#include "semihosting.h"

enum { PAGE = 512, PAGES = 4, FLASH = PAGE * PAGES, OLD = 0x5A };

__attribute__((section(".kept"))) board_kept kept;

/* The device, and the wires as it sees them. */
__attribute__((section(".kept"))) static struct {
    uint32_t powered; /* POWERED once it has been on */
    c2_target target;
    uint8_t flash[FLASH];
    bool c2ck, driven, high, sent;
    uint32_t low_us, quiet_us;
    uint32_t sleeps, strobes, faults;
} device;

static const c2_settings SETTINGS = {.device_id = 0x0B,
                                     .fpdat = 0xB4,
                                     .page_size = PAGE,
                                     .page_count = PAGES,
                                     .wait_limit = 20,
                                     .pairs = {1, {0xB6}, {0x10}}};
static const uint8_t DELAYS[] = {0, 3, 1, 0, 7, 19, 2};
static const uint32_t POWERED = 0x600DF00D;

void board_start(void) {
    if (device.powered == POWERED)
        return;
    for (unsigned i = 0; i < FLASH; i++)
        device.flash[i] = OLD;
    device.target = c2_target_fresh();
    device.c2ck = device.sent = true;
    device.driven = device.high = false;
    device.low_us = device.quiet_us = device.sleeps = device.strobes = device.faults = 0;
    device.powered = POWERED;
}

static void target_step(uint8_t step) {
    c2_replied replied = c2_target_step(SETTINGS, SETTINGS.pairs, device.target, device.flash, FLASH, DELAYS,
                                        sizeof DELAYS, step);
    device.target = replied.target;
    device.sent = replied.reply == 1;
    device.faults += replied.number != 0;
    device.quiet_us = 0;
}

/* The length of the pulse tells a strobe from a reset. */
void board_c2ck(bool high) {
    if (high && !device.c2ck) {
        device.strobes++;
        device.faults += device.low_us == 0 || (device.low_us > 5 && device.low_us < 20);
        if (device.low_us >= 20)
            target_step(C2_STEP_RESET);
        else
            target_step(device.driven ? device.high ? C2_STEP_HIGH : C2_STEP_LOW : C2_STEP_RELEASED);
    }
    device.c2ck = high;
    device.low_us = 0;
}

void board_c2ck_off(void) {
    board_c2ck(true);
}

void board_c2d_drive(bool high) {
    device.faults += !device.c2ck;
    device.driven = true;
    device.high = high;
}

void board_c2d_release(void) {
    device.driven = false;
}

bool board_c2d(void) {
    return device.driven ? device.high : device.sent;
}

void board_wait_us(uint32_t us) {
    device.low_us += device.c2ck ? 0 : us;
    device.quiet_us += us;
    if (device.quiet_us >= 20000)
        target_step(C2_STEP_PAUSE);
}

void board_sleep(void) {
    device.faults += !device.c2ck;
    device.sleeps++;
    processor_reset();
}

void board_done(c2_advanced outcome) {
    static const uint8_t WANTED[PAGE] = "gain knobs, third try";
    bool held = true;
    for (unsigned i = 0; i < FLASH; i++)
        held &= device.flash[i] == (i / PAGE == 1 ? WANTED[i % PAGE] : OLD);
    say_number("outcome ", outcome.number);
    say_number("pulses on C2CK ", device.strobes);
    say_number("sleeps, each ended by a reset ", device.sleeps);
    bool well = held && outcome.number == C2_DONE && device.faults == 0 && device.target.collision == 0;
    say(well ? "ok     the page holds the image, every other byte is unchanged\n" : "WRONG  the flash or the wires\n");
    processor_exit(well ? 0 : 1);
}
