/*
 * Programs the radio module: a driver to copy, with sleep after every message and a power cut after each of
 * them. The board in the middle of the file is modelled; yours has SPI and READY there. Run: make examples.
 */
#include <stdio.h>
#include <string.h>

#include "radio.h"
#include "radio_text.h"

enum { PAGE = 256, WORD = 4, CONFIGURATION = 127 * PAGE };

/* What your board has. */
static void board_reset(void);
static int board_ready(void);
static void board_spi(const uint8_t out[WORD], uint8_t in[WORD]);

/* ---- The driver ---- */

/* What is programmed. It may lie elsewhere at each call. */
typedef struct {
    const uint8_t *image;
    size_t image_len;
    const uint8_t *mask, *data; /* a page each */
} firmware;

/* What outlives sleep: the record, and a message that is not sent yet. */
typedef struct {
    uint8_t record[RADIO_RECORD_BYTES];
    uint8_t out[PAGE];
    radio_advanced at;
} job_kept;

/* What outlives a power cut: the configuration that the module is to get, once the old one was read. */
typedef struct {
    int known;
    uint8_t page[PAGE];
} page_kept;

/* Four bytes each way in one low pulse of CS#, once READY is high. */
static void transfer(const uint8_t out[WORD], uint8_t in[WORD]) {
    while (!board_ready())
        continue;
    board_spi(out, in);
}

/* A message, then the clock for the reply. What comes in while we send is idle. */
static void exchange(const uint8_t *out, size_t send, uint8_t *reply, size_t expect) {
    static const uint8_t idle[WORD] = {0, 0, 0, 0};
    uint8_t unused[WORD];
    for (size_t i = 0; i < send; i += WORD)
        transfer(out + i, unused);
    for (size_t i = 0; i < expect; i += WORD)
        transfer(idle, reply + i);
}

/* Opens the job. After a cut it writes the page that was kept: the module may have lost it. */
static void begin(job_kept *job, const page_kept *kept, firmware f) {
    static uint8_t all[PAGE];
    memset(all, 0xFF, sizeof all);
    all[2] = all[3] = 0x00;
    const uint8_t *mask = kept->known ? all : f.mask, *data = kept->known ? kept->page : f.data;
    board_reset();
    radio_opened opened = radio_open(job->record, sizeof job->record, f.image, f.image_len, mask, PAGE, data,
                                     PAGE, job->out, sizeof job->out);
    radio_advanced at = {opened.number, 0, 0, opened.send, opened.expect};
    job->at = at;
}

/* One message and its reply; then the processor may sleep. The first page that comes is the old
   configuration: from then on the record begins with the page that the module is to get. */
static void turn(job_kept *job, page_kept *kept, firmware f) {
    uint8_t reply[PAGE];
    size_t came = job->at.expect;
    exchange(job->out, job->at.send, reply, came);
    job->at = radio_advance(job->record, sizeof job->record, f.image, f.image_len, reply, came, job->out,
                            sizeof job->out);
    if (!kept->known && came == PAGE && job->at.number == RADIO_RUNNING) {
        memcpy(kept->page, job->record, PAGE);
        kept->known = 1;
    }
}

/* ---- The board, which is not there: the modelled module, given its message four bytes at a time ---- */

static uint8_t flash[RADIO_FLASH_BYTES], heard[PAGE], answer[PAGE];
static size_t heard_len, answer_len, answer_at;
static radio_target module;

static void board_reset(void) {
    module = radio_target_fresh();
    heard_len = answer_len = answer_at = 0;
}

/* Busy every third time. */
static int board_ready(void) {
    static unsigned asked;
    return asked++ % 3 != 0;
}

/* The bytes of the message that the module waits for; none where it sends. */
static size_t wanted(void) {
    return module.point == 0 ? 8 : module.point == 3 ? 0 : PAGE;
}

static void take_message(void) {
    radio_replied replied =
        radio_target_step(module, flash, sizeof flash, heard, heard_len, answer, sizeof answer);
    module = replied.target;
    heard_len = answer_at = 0;
    answer_len = replied.reply;
}

static void board_spi(const uint8_t out[WORD], uint8_t in[WORD]) {
    memset(in, 0, WORD);
    if (answer_at == answer_len && wanted() == 0)
        take_message();
    if (answer_at < answer_len) {
        memcpy(in, answer + answer_at, WORD);
        answer_at += WORD;
        return;
    }
    memcpy(heard + heard_len, out, WORD);
    heard_len += WORD;
    if (heard_len == wanted())
        take_message();
}

/* ---- A module with an old program and its calibration, and what it shall hold afterwards ---- */

enum { IMAGE = 700, OLD = 0x5A, PAGES = 3 };

static uint8_t image[IMAGE], mask[PAGE], data[PAGE];

static uint8_t old_configuration(unsigned i) {
    return (uint8_t)(i == 1 ? 0xFF : 255 - i);
}

static void old_module(void) {
    memset(flash, OLD, sizeof flash);
    for (unsigned i = 0; i < PAGE; i++)
        flash[CONFIGURATION + i] = old_configuration(i);
}

/* The image, then 0xFF; the configuration merged, but bytes 2 and 3 erased; the information page. */
static int is_programmed(void) {
    static uint8_t holds[RADIO_FLASH_BYTES];
    memset(holds, 0xFF, sizeof holds);
    memcpy(holds, image, sizeof image);
    for (unsigned i = 0; i < PAGE; i++)
        if (i != 2 && i != 3)
            holds[CONFIGURATION + i] = mask[i] == 0xFF ? data[i] : old_configuration(i);
    memset(holds + CONFIGURATION + PAGE, OLD, PAGE);
    return memcmp(flash, holds, sizeof flash) == 0;
}

/* The processor was asleep: the image lies elsewhere, and its old place is spoilt. */
static firmware after_sleep(void) {
    static uint8_t places[2][IMAGE];
    static unsigned moves;
    unsigned here = ++moves % 2;
    memcpy(places[here], image, IMAGE);
    memset(places[1 - here], 0xA5, IMAGE);
    firmware f = {places[here], IMAGE, mask, data};
    return f;
}

/* A whole job; the power goes after so many replies, if that is not 0, and a new job begins. */
static radio_advanced program(unsigned cut, unsigned *replies) {
    job_kept job;
    page_kept kept = {0, {0}};
    old_module();
    begin(&job, &kept, after_sleep());
    for (*replies = 0; job.at.number == RADIO_RUNNING;) {
        turn(&job, &kept, after_sleep());
        if (++*replies == cut)
            begin(&job, &kept, after_sleep());
    }
    return job.at;
}

static int is_done(radio_advanced end) {
    return end.number == RADIO_DONE && is_programmed();
}

int main(void) {
    unsigned replies, more;
    for (unsigned i = 0; i < IMAGE; i++)
        image[i] = (uint8_t)(i * 7);
    mask[0] = 0xFF; /* the number of program pages, which the module's own test asks for */
    data[0] = PAGES;
    radio_advanced end = program(0, &replies);
    int done = is_done(end);
    printf("%s  radio: %d bytes, %u replies: %s\n", done ? "ok   " : "WRONG", IMAGE, replies,
           radio_text(end.number));
    for (unsigned cut = 1; done && cut < replies; cut++) {
        end = program(cut, &more);
        done = is_done(end);
        if (!done)
            printf("WRONG  radio: cut after %u replies: %u, %s, code %u\n", cut, (unsigned)end.number,
                   radio_text(end.number), (unsigned)end.code);
    }
    if (done)
        printf("ok     radio: the power cut after each reply, a new job leaves the same flash\n");
    return !done;
}
