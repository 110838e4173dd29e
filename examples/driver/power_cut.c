/*
 * The battery comes out. A session on the board that is not there runs to its end; in each of its callbacks
 * the power goes once, on a copy of the board, and the flash is looked at. From some of these cuts on the
 * driver wakes and finishes.
 */
#include <stdio.h>
#include <string.h>
#include <unistd.h>

#include "board.h"
#include "c2_text.h"

enum { NAMED = 3, IMAGE = NAMED * PAGE, FIRST_PAGE = 5, START = FIRST_PAGE * PAGE };
enum { SLEEP_US = 5000, MOST_STEPS = 140, WAKE_EVERY = 101 };

/* How it is when the driver wakes. */
typedef enum {
    RECORD_KEPT, /* the power went in a sleep; the device had its own and was not reset */
    RECORD_LOST, /* or older than the wire: the power went in a callback; the device had its own and is in the
                    middle of something */
    ALL_LOST,    /* the device had no power either */
    WAYS
} waking;

/* The image as it is stored, and where it was lent last: each callback finds it elsewhere, the old place
   spoilt. */
static uint8_t image[IMAGE], places[2][IMAGE];

/* The whole flash before the first session, and as it must be in the end. */
static uint8_t before[FLASH], after[FLASH];

/* What held so far. */
static unsigned cuts, woken[WAYS];
static bool others_kept = true, over_held = true, waiting_kept = true, one_in_part = true;
static bool lost_refused = true, ended_done = true, programmed = true, no_collision = true, times_kept = true;

static const uint8_t *moved_image(void) {
    static unsigned moves;
    unsigned here = ++moves % 2;
    memcpy(places[here], image, IMAGE);
    memset(places[1 - here], 0xA5, IMAGE);
    return places[here];
}

/* The figure counts every wait at its longest; the bar goes by its share, so it moves evenly all the same. */
static void bar(uint64_t start, uint64_t now) {
    static const char full[] = "##################################################";
    int width = (int)sizeof full - 1;
    if (start == 0 || !isatty(STDOUT_FILENO))
        return;
    int done = (int)((start - now) * (uint64_t)width / start);
    printf("\r[%.*s%*s]%s", done, full, width - done, "", now == 0 ? "\n" : "");
    fflush(stdout);
}

/* A callback; the first one of a session opens it. */
static c2_advanced callback(const pins *pin, uint8_t *record, bool first) {
    if (first)
        return driver_begin(pin, record, moved_image(), IMAGE, DEVICE, FIRST_PAGE);
    return driver_resume(pin, record, moved_image(), IMAGE);
}

/* Pages of the image that are over, read back with no byte differing; of a record whose number, byte 7, is 0.
   docs/RECORD.md has the bytes. */
static unsigned pages_over(const uint8_t *record) {
    switch (record[10]) {
    case 1: /* page erase */
    case 2: /* block write */
    case 3: /* block read */
        return record[11];
    case 4: /* last reset */
        return NAMED;
    default: /* up to the pause, and the pairs */
        return 0;
    }
}

/* The same and the page under way. */
static unsigned pages_begun(const uint8_t *record) {
    bool under_way = record[10] >= 1 && record[10] <= 3;
    return pages_over(record) + (under_way ? 1 : 0);
}

/* The first bytes of the image, however many, and 0xFF behind them. */
static bool is_in_part(const uint8_t *page, const uint8_t *wanted) {
    size_t i = 0;
    while (i < PAGE && page[i] == wanted[i])
        i++;
    while (i < PAGE && page[i] == 0xFF)
        i++;
    return i == PAGE;
}

/*
 * Looks at every page. The record is that of the last sleep; if the power went in the callback after it, one
 * page more may be begun, and one more over.
 */
static void look(const board *b, const uint8_t *record, bool in_sleep) {
    unsigned over = pages_over(record), begun = pages_begun(record) + (in_sleep ? 0 : 1), in_part = 0;
    for (unsigned page = 0; page < PAGES; page++) {
        const uint8_t *now = b->flash + page * PAGE;
        bool kept = memcmp(now, before + page * PAGE, PAGE) == 0;
        unsigned at = page - FIRST_PAGE; /* a page before the first named one is beyond all of them */
        if (at >= NAMED) {
            others_kept &= kept;
            continue;
        }
        bool whole = memcmp(now, image + at * PAGE, PAGE) == 0;
        if (at < over)
            over_held &= whole;
        else if (at >= begun)
            waiting_kept &= kept;
        else if (!kept && !whole)
            one_in_part &= in_part++ == 0 && is_in_part(now, image + at * PAGE);
    }
}

/* The rest of a session, with sleep between its callbacks. */
static uint32_t finish(const pins *pin, uint8_t *record, bool first) {
    c2_advanced answer = callback(pin, record, first);
    while (answer.number == C2_RUNNING) {
        pin->delay_us(pin->context, SLEEP_US);
        answer = callback(pin, record, false);
    }
    return answer.number;
}

/* Goes on if the record was kept and the device not reset; else opens anew over the same pages. */
static void wake(board *b, uint8_t *record, waking how) {
    pins pin = board_pins(b);
    if (how == ALL_LOST)
        board_power_on(b);
    else
        board_host_on(b);
    if (how != RECORD_KEPT) {
        /* an older record would be taken: that it is accepted says nothing of the device */
        memset(record, 0xA5, C2_RECORD_BYTES);
        lost_refused &= callback(&pin, record, false).number == C2_BAD_RECORD;
    }
    ended_done &= finish(&pin, record, how != RECORD_KEPT) == C2_DONE;
    programmed &= memcmp(b->flash, after, FLASH) == 0;
    no_collision &= !b->collision;
    times_kept &= b->faults == 0;
    woken[how]++;
}

/*
 * The power goes after some steps of the next callback, or before them all. What that callback makes of its
 * record is lost; the one before it stands in memory that outlives the power, and now and then it is lost
 * too.
 */
static void cut(board *b, const uint8_t *stored, bool first) {
    uint8_t record[C2_RECORD_BYTES];
    pins pin = board_pins(b);
    bool wakes = cuts % WAKE_EVERY == 0;
    waking how = first ? RECORD_LOST : (waking)(cuts / WAKE_EVERY % WAYS);
    uint32_t steps = wakes && how == RECORD_KEPT ? 0 : cuts * 37 % MOST_STEPS;
    cuts++;
    board_cut(b, steps);
    memcpy(record, stored, sizeof record);
    callback(&pin, record, first);
    look(b, stored, steps == 0);
    memcpy(record, stored, sizeof record);
    if (wakes)
        wake(b, record, how);
}

/* The session that nothing happens to; the cuts are on copies of its board. */
static uint32_t run(board *b, uint8_t *record) {
    static board copy;
    pins pin = board_pins(b);
    c2_advanced answer = {C2_RUNNING, 0, 0};
    uint64_t start = 0;
    for (bool first = true; answer.number == C2_RUNNING; first = false) {
        copy = *b;
        cut(&copy, record, first);
        answer = callback(&pin, record, first);
        uint64_t left = c2_steps_left(record, C2_RECORD_BYTES).steps;
        start = first ? left : start;
        bar(start, left);
        pin.delay_us(pin.context, SLEEP_US);
    }
    return answer.number;
}

/* Says what was expected; the program succeeds only if all of it held. */
static bool expect(bool held, const char *what) {
    printf("%s  %s\n", held ? "ok   " : "WRONG", what);
    return held;
}

static bool report(uint32_t number) {
    printf("outcome: %u, %s\n", (unsigned)number, c2_text(number));
    printf("%u power cuts; %u times the driver woke with its record, %u times without\n", cuts,
           woken[RECORD_KEPT], woken[RECORD_LOST] + woken[ALL_LOST]);
    bool held = expect(others_kept, "at each cut every page not named is as before");
    held &= expect(over_held, "every page whose read-back has ended holds its image");
    held &= expect(waiting_kept, "every page not yet begun is as before");
    held &= expect(one_in_part, "at most one page is neither: its image's first bytes, 0xFF behind them");
    held &= expect(lost_refused, "a record that was lost is refused");
    held &= expect(ended_done && number == C2_DONE, "every session that goes on or opens anew ends done");
    held &= expect(programmed, "the named pages then hold the image, and every other byte is unchanged");
    held &= expect(no_collision, "the driver never drove C2D in a strobe of the device's");
    return expect(times_kept, "the times on the wires were kept") && held;
}

int main(void) {
    static board b;
    for (size_t i = 0; i < IMAGE; i++)
        image[i] = (uint8_t)(i * 7 + i / 256);
    for (size_t i = 0; i < FLASH; i++)
        before[i] = (uint8_t)(i * 31 + 5);
    memcpy(b.flash, before, FLASH);
    memcpy(after, before, FLASH);
    memcpy(after + START, image, IMAGE);
    board_power_on(&b);
    uint8_t record[C2_RECORD_BYTES] = {0}; /* all that lives from one callback to the next */
    uint32_t number = run(&b, record);
    programmed &= memcmp(b.flash, after, FLASH) == 0;
    no_collision &= !b.collision;
    times_kept &= b.faults == 0;
    return report(number) ? 0 : 1;
}
