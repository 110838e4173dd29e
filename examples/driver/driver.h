/*
 * A driver to copy: it programs a device over two pins, some steps to a callback, and keeps 32 bytes between
 * callbacks. It allocates nothing.
 */
#ifndef DRIVER_H
#define DRIVER_H

#include <stdbool.h>

#include "c2.h"

typedef enum { PIN_LOW, PIN_HIGH, PIN_OFF } pin_level;

/* Your board's five functions. Each is handed the context. */
typedef struct {
    void *context;
    void (*c2ck_set)(void *context, pin_level level); /* PIN_OFF: not driven; a pull-up keeps it high */
    void (*c2d_set)(void *context, bool high);        /* the level that C2D gets when it is driven */
    void (*c2d_drive)(void *context, bool driven);    /* false: released, so that the device may drive it */
    bool (*c2d_get)(void *context);
    void (*delay_us)(void *context, uint32_t us);     /* at least so long; see pulse in driver.c */
} pins;

/* The first callback of a session: opens it. The record is C2_RECORD_BYTES long. */
c2_advanced driver_begin(const pins *pin, uint8_t *record, const uint8_t *image, size_t image_len,
                         c2_settings device, uint32_t first_page);

/*
 * Every later callback, while the number is C2_RUNNING. The record is as the last callback left it; the image
 * has the content that it had at the opening, and may lie elsewhere.
 */
c2_advanced driver_resume(const pins *pin, uint8_t *record, const uint8_t *image, size_t image_len);

#endif
