/*
 * Random calls of every kind, all from one seed: openings, sessions against the model in calls of one reply,
 * damaged records, places and lengths of every size, states of the model that are no target's, NULL with no
 * length.
 *
 *     replay [CALLS [SEED]]
 *
 * It writes how often each number came back and one sum over all answers and all lent bytes. Linked with the
 * library, or with dist/ for any processor, it must write the same line.
 */
#include <stdio.h>
#include <stdlib.h>
#include <string.h>

#include "c2_target.h"

enum { IMAGE = 65536, FLASH = 65536, REPLIES = 64, STEPS = 80, DELAYS = 8, RECORD = C2_RECORD_BYTES + 1 };

static uint8_t image[IMAGE], flash[FLASH], replies[REPLIES], steps[STEPS], delays[DELAYS], record[RECORD];
static uint32_t seen[64];
static uint64_t state, sum = 1469598103934665603u;
static long left;

/* ---- Random numbers, and the sum ---- */

static uint32_t any(uint32_t below) {
    state ^= state << 13;
    state ^= state >> 7;
    state ^= state << 17;
    return (uint32_t)((state >> 16) % below);
}

static uint32_t pick(const uint32_t *from, uint32_t count) {
    return from[any(count)];
}

static void fill(uint8_t *to, uint32_t count, uint32_t below) {
    for (uint32_t i = 0; i < count; i++)
        to[i] = (uint8_t)any(below);
}

static void add_bytes(const uint8_t *bytes, size_t count) {
    for (size_t i = 0; i < count; i++)
        sum = (sum ^ bytes[i]) * 1099511628211u;
}

static void add(uint64_t number) {
    for (int i = 0; i < 8; i++, number >>= 8) {
        uint8_t low = (uint8_t)(number & 255);
        add_bytes(&low, 1);
    }
}

/* A call's number counts as a call. */
static void add_call(uint32_t number) {
    seen[number % 64]++;
    add(number);
    left--;
}

/* ---- The model's state, number by number ---- */

enum { BYTES = 23 };

static void bytes_of(c2_target *t, uint8_t *bytes[BYTES]) {
    uint8_t *all[BYTES] = {&t->point,     &t->heard,   &t->value, &t->left, &t->zeros,   &t->effect, &t->byte,
                           &t->collision, &t->address, &t->on,    &t->keys, &t->met1,    &t->met2,   &t->met3,
                           &t->met4,      &t->command, &t->write, &t->page, &t->high,    &t->output, &t->passed,
                           &t->busy,      &t->late};
    memcpy(bytes, all, sizeof all);
}

static void add_target(c2_target t) {
    uint8_t *bytes[BYTES];
    bytes_of(&t, bytes);
    add(t.place);
    add(t.start);
    add(t.rest);
    add(t.next);
    add(t.count);
    for (int i = 0; i < BYTES; i++)
        add_bytes(bytes[i], 1);
}

static c2_target made_up(c2_target t) {
    uint8_t *bytes[BYTES];
    bytes_of(&t, bytes);
    for (uint32_t changes = any(3); changes > 0; changes--) {
        uint8_t value = (uint8_t)(any(3) ? any(12) : any(256));
        *bytes[any(BYTES)] = value;
    }
    if (any(5) == 0)
        t.start = (uint16_t)any(65536);
    if (any(5) == 0) {
        uint32_t up = any(33);
        t.place = (uint64_t)any(0xFFFFFFFF) << up;
    }
    return t;
}

/* ---- Calls ---- */

/* Mostly few registers, so that some come twice; what is not named is any byte. */
static c2_pairs pairs(int accepted, uint8_t fpdat) {
    static const uint32_t registers[] = {3, 4, 0xB2, 0xEF, 255, 0, 2};
    static const uint32_t counts[] = {0, 0, 1, 2, 3, 4, 5, 255};
    c2_pairs made;
    made.count = (uint8_t)pick(counts, accepted || any(9) ? 6 : 8);
    for (int i = 0; i < 4; i++) {
        made.registers[i] = (uint8_t)(i < made.count && (accepted || any(20)) ? pick(registers, 5) : any(256));
        if (i < made.count && accepted && made.registers[i] == fpdat)
            made.registers[i] = 7;
        made.values[i] = (uint8_t)(any(4) ? any(3) : any(256));
    }
    return made;
}

static c2_settings settings(int accepted) {
    static const uint32_t size[] = {512, 1024, 512, 1024, 0, 511, 0xFFFFFFFF};
    static const uint32_t count[] = {1, 2, 3, 64, 65, 128, 129, 0, 0xFFFFFFFF};
    static const uint32_t limit[] = {1, 2, 19, 21, 100, 254, 255, 0};
    c2_settings made;
    made.device_id = (uint8_t)any(256);
    made.fpdat = (uint8_t)(accepted || any(20) ? 3 + any(253) : any(4));
    made.page_size = pick(size, accepted ? 2 : 7);
    made.page_count = pick(count, accepted ? 4 : 9);
    made.wait_limit = (uint8_t)(any(2) ? 20 : pick(limit, accepted ? 7 : 8));
    made.pairs = pairs(accepted, made.fpdat);
    return made;
}

static void open_some(void) {
    uint32_t record_len = any(10) ? C2_RECORD_BYTES : any(RECORD + 1);
    int blank = any(9) == 0;
    uint32_t image_len = any(9) ? 512 * any(20) : any(2000), first = any(9) ? any(20) : 0xFFFFFFFF - any(2);
    c2_settings s = settings(0);
    c2_opened opened = c2_open(record, record_len, blank ? NULL : image, blank ? 0 : image_len, s, first);
    add_call(opened.number);
    add(opened.step);
    add_bytes(record, RECORD);
}

/* Calls beside the session: on a copy of its record, damaged or not, and on a state that is no target's. */
static void beside(c2_settings s, c2_pairs w, c2_target target, uint32_t image_len, uint32_t flash_len,
                   uint32_t delays_len) {
    static const uint32_t places[] = {0, 1, 5, 16, 63, 64, 65, 1000, 0x7FFFFFFF, 0xFFFFFFFF, 0xFFFFFFC0};
    uint8_t other[RECORD];
    memcpy(other, record, RECORD);
    for (uint32_t changes = any(4); changes > 0; changes--) {
        uint32_t at = any(C2_RECORD_BYTES);
        other[at] ^= (uint8_t)(1u << any(8));
    }
    uint32_t record_len = any(20) ? C2_RECORD_BYTES : any(RECORD + 1);
    c2_remaining remaining = c2_steps_left(other, record_len);
    add_call(remaining.number);
    add(remaining.steps);

    fill(replies, REPLIES, any(30) ? 2 : 3);
    uint32_t other_len = any(20) ? image_len : any(3000), replies_len = any(REPLIES + 1), steps_len = any(STEPS + 1);
    uint32_t place = pick(places, sizeof places / sizeof *places);
    c2_advanced advanced = c2_advance(other, record_len, image, other_len, replies, replies_len, steps, steps_len, place);
    add_call(advanced.number);
    add(advanced.offset);
    add(advanced.taken);
    add_bytes(other, RECORD);
    add_bytes(steps, STEPS);

    c2_settings others = any(9) ? s : settings(0);
    c2_pairs wanted = any(9) ? w : pairs(0, s.fpdat);
    uint32_t other_flash = any(9) ? flash_len : any(FLASH + 1);
    c2_target state_of = made_up(target);
    uint8_t step = (uint8_t)any(9);
    c2_replied replied = c2_target_step(others, wanted, state_of, flash, other_flash, delays, delays_len, step);
    add_call(replied.number);
    add(replied.reply);
    add_target(replied.target);
}

static void session(void) {
    c2_settings s = settings(1);
    c2_pairs wanted = any(4) ? s.pairs : pairs(1, s.fpdat);
    uint32_t first = any(s.page_count), rest = s.page_count - first, pages = 1 + any(rest < 4 ? rest : 4);
    uint32_t image_len = pages * s.page_size, flash_len = s.page_size * s.page_count, delays_len = any(DELAYS + 1);
    fill(image, image_len, 256);
    fill(flash, flash_len, 256);
    fill(delays, DELAYS, any(4) ? 25 : 256);
    uint32_t faults = any(3) ? 0xFFFFFFFF : 1 + any(4000);
    c2_target target = c2_target_fresh();
    c2_opened opened = c2_open(record, C2_RECORD_BYTES, image, image_len, s, first);
    add_call(opened.number);
    uint8_t step = (uint8_t)opened.step;
    for (uint32_t turns = 200 + any(60000); turns > 0 && step != C2_STEP_OFF; turns--) {
        c2_replied replied = c2_target_step(s, wanted, target, flash, flash_len, delays, delays_len, step);
        target = replied.target;
        add_call(replied.number);
        add(replied.reply);
        if (any(50) == 0)
            add_target(target);
        uint8_t reply = any(faults) ? (uint8_t)replied.reply : (uint8_t)any(3);
        uint32_t place = 1 + any(3);
        c2_advanced advanced = c2_advance(record, C2_RECORD_BYTES, image, image_len, &reply, 1, steps, STEPS, place);
        step = steps[place];
        add_call(advanced.number);
        add(advanced.offset);
        add(advanced.taken);
        add(step);
        if (any(10) == 0)
            add_bytes(record, RECORD);
        if (any(40) == 0)
            beside(s, wanted, target, image_len, flash_len, delays_len);
    }
    add_bytes(flash, flash_len);
}

/* Lengths and places of more than 32 bits, where size_t has them: none may be cut. None of these is followed. */
static int wide(void) {
    const size_t more = (size_t)UINT64_C(0x100000000);
    const c2_settings s = {.device_id = 0x04,
                           .fpdat = 0xB4,
                           .page_size = 512,
                           .page_count = 4,
                           .wait_limit = 20,
                           .pairs = {0, {0}, {0}}};
    const uint8_t reply = 1;
    int cut = 0;
    if (more == 0)
        return 0;
    cut |= c2_open(record, C2_RECORD_BYTES + more, image, 512, s, 0).number != C2_BAD_RECORD;
    cut |= c2_open(record, C2_RECORD_BYTES, image, 512 + more, s, 0).number != C2_PAST_LAST_PAGE;
    cut |= c2_open(record, C2_RECORD_BYTES, image, 512, s, 0).number != C2_RUNNING;
    cut |= c2_steps_left(record, C2_RECORD_BYTES + more).number != C2_BAD_RECORD;
    cut |= c2_advance(record, C2_RECORD_BYTES + more, image, 512, &reply, 1, steps, 1, 0).number != C2_BAD_RECORD;
    cut |= c2_advance(record, C2_RECORD_BYTES, image, 512 + more, &reply, 1, steps, 1, 0).number != C2_OTHER_IMAGE;
    cut |= c2_advance(record, C2_RECORD_BYTES, image, 512, &reply, 1 + more, steps, 1, 0).number != C2_NO_ROOM;
    cut |= c2_advance(record, C2_RECORD_BYTES, image, 512, &reply, 1, steps, 1, more).number != C2_NO_ROOM;
    cut |= c2_advance(record, C2_RECORD_BYTES, image, 512, &reply, 1, steps, more, 0).number != C2_RUNNING;
    cut |= c2_target_step(s, s.pairs, c2_target_fresh(), flash, 2048 + more, NULL, 0, 6).number != C2_NO_POINT;
    memset(record, 0, sizeof record);
    memset(steps, 0, sizeof steps);
    return cut;
}

int main(int argc, char **argv) {
    left = argc > 1 ? atol(argv[1]) : 100000;
    state = 88172645463325252u + (argc > 2 ? (uint64_t)atol(argv[2]) : 0);
    if (wide()) {
        printf("FAILED: a length of more than 32 bits is cut\n");
        return 1;
    }
    while (left > 0) {
        for (int i = 0; i < 20; i++)
            open_some();
        session();
    }
    for (int i = 0; i < 64; i++)
        if (seen[i] != 0)
            printf("%d:%lu ", i, (unsigned long)seen[i]);
    printf("sum %08lx%08lx\n", (unsigned long)(sum >> 32), (unsigned long)(sum & 0xFFFFFFFF));
    return 0;
}
