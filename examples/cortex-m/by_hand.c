/*
 * A yardstick for dist/c2.c: the driver's three calls in plain C, by hand, with every test of the record.
 * Nothing is proved of it; make cortex-m compares its answers with those of dist/ and measures both.
 */
#include "c2.h"

enum { LEAD, ERASE, WRITE, READ, CLOSE, PAIRS };
enum { RESET, PAUSE, ADDRESS, SEND, INPUT, OUTPUT, IDENT, STATUS, COMPARE };

/* The acts of each stage. */
static const uint16_t acts_in[6] = {8, 13, 525, 525, 1, 2};

typedef struct {
    unsigned size, first, pages, fpdat, id, limit;                         /* the session; its WAITs' limit */
    unsigned pair_count;                                                   /* its pairs, as the record has */
    const uint8_t *pairs;                                                  /* them: register, value, ... */
    unsigned number, offset, stage, page, block, act, strobe, count, bits; /* its point */
    unsigned task, byte;                                                   /* the act's */
} session;

static unsigned task_of(unsigned stage, unsigned act) {
    static const uint8_t lead[8] = {RESET, IDENT, RESET, ADDRESS, SEND, SEND, SEND, PAUSE};
    static const uint8_t erase[4] = {STATUS, SEND, INPUT, OUTPUT};
    switch (stage) {
    case LEAD:
        return lead[act];
    case CLOSE:
        return RESET;
    case PAIRS:
        return act == 0 ? ADDRESS : SEND;
    case ERASE:
        return act == 0 ? ADDRESS : erase[act % 4];
    default:
        if (act == 0)
            return ADDRESS;
        if (act == 3)
            return OUTPUT;
        if (act == 4)
            return STATUS;
        if (act < 11 || (stage == WRITE && act < 523))
            return act % 2 ? SEND : INPUT;
        if (act % 2)
            return OUTPUT;
        return stage == WRITE || act == 12 ? STATUS : COMPARE;
    }
}

static int zeros(const uint8_t *p, int n) {
    unsigned any = 0;
    while (n--)
        any |= *p++;
    return any == 0;
}

/* Whether these registers may be written, so many at every so many bytes. */
static int are_registers(const uint8_t *registers, unsigned count, unsigned apart, unsigned fpdat) {
    if (count > 4)
        return 0;
    for (unsigned i = 0; i < count * apart; i += apart)
        if (registers[i] < 3 || registers[i] == fpdat)
            return 0;
    return 1;
}

static int settings_in_range(unsigned fpdat, unsigned size, unsigned count, unsigned limit, c2_pairs pairs) {
    if (fpdat < 3)
        return C2_BAD_FPDAT;
    if (size != 512 && size != 1024)
        return C2_BAD_PAGE_SIZE;
    if (count == 0 || count > 65536 / size)
        return C2_BAD_PAGE_COUNT;
    if (limit == 0)
        return C2_BAD_WAIT_LIMIT;
    if (!are_registers(pairs.registers, pairs.count, 1, fpdat))
        return C2_BAD_PAIRS;
    return 0;
}

/* Reads a record, if it holds a session in range. */
static int held(const uint8_t *r, size_t len, session *s) {
    if (len != 32)
        return 0;
    s->id = r[0];
    s->fpdat = r[1];
    s->size = r[2] | r[3] << 8;
    s->first = r[5];
    s->pages = r[6];
    s->limit = r[18];
    s->pair_count = r[19];
    s->pairs = r + 20;
    if (s->fpdat < 3 || r[4] == 0 || s->limit == 0)
        return 0;
    if (s->size == 512) {
        if (r[4] > 128)
            return 0;
    } else if (s->size == 1024) {
        if (r[4] > 64)
            return 0;
    } else
        return 0;
    if (s->pages == 0 || s->first + s->pages > r[4])
        return 0;
    if (!are_registers(s->pairs, s->pair_count, 2, s->fpdat) ||
        !zeros(s->pairs + 2 * s->pair_count, 12 - 2 * (int)s->pair_count))
        return 0;
    s->number = r[7];
    s->offset = r[8] | r[9] << 8;
    if (s->number) {
        if (!zeros(r + 10, 8) || (s->number != 32 && (s->number < 9 || s->number > 14)))
            return 0;
        return s->offset < (s->number == 14 ? s->size * s->pages : 1);
    }
    s->stage = r[10];
    s->page = r[11];
    s->block = r[12];
    s->act = r[13] | r[14] << 8;
    s->strobe = r[15];
    s->count = r[16];
    s->bits = r[17];
    if (s->offset || s->stage > PAIRS)
        return 0;
    unsigned block = s->stage == WRITE || s->stage == READ;
    unsigned pages = block || s->stage == ERASE ? s->pages : s->stage == PAIRS ? s->pair_count : 1;
    if (s->page >= pages || s->block >= (block ? s->size / 256 : 1) || s->act >= acts_in[s->stage])
        return 0;
    s->task = task_of(s->stage, s->act);
    unsigned strobes = 15, counts = 1, first = 32;
    switch (s->task) {
    case RESET:
    case PAUSE:
        strobes = 1;
        break;
    case ADDRESS:
        strobes = 12;
        break;
    case SEND:
        if (s->strobe == 13)
            counts = s->limit;
        break;
    case INPUT:
    case OUTPUT:
        strobes = 12;
        counts = 256;
        first = 3;
        break;
    default:
        if (s->strobe == 5)
            counts = s->limit;
        first = 6;
        break;
    }
    unsigned sampled = s->strobe < first ? 0 : s->strobe - first < 8 ? s->strobe - first : 8;
    return s->strobe < strobes && s->count < counts && s->bits >> sampled == 0;
}

static unsigned block_offset(const session *s) {
    return s->page * s->size + s->block * 256;
}

/* The byte that the act sends. */
static unsigned sent(const session *s, const uint8_t *image) {
    unsigned i;
    switch (s->stage) {
    case LEAD:
        return s->act == 3 || s->act == 4 ? 2 : s->act == 5 ? 4 : 1;
    case ERASE:
        return s->act == 0 ? s->fpdat : s->act == 1 ? 8 : s->act == 5 ? (s->first + s->page) & 255 : 0;
    case CLOSE:
        return 0;
    case PAIRS:
        return s->pairs[2 * s->page + s->act];
    default:
        if (s->stage == WRITE && s->act >= 11) {
            i = block_offset(s) + (s->act - 11) / 2;
            return image[i];
        }
        return s->act == 0   ? s->fpdat
               : s->act == 1 ? (s->stage == WRITE ? 7 : 6)
               : s->act == 5 ? ((s->first * s->size + block_offset(s)) >> 8) & 255
                             : 0;
    }
}

static void begin(session *s, const uint8_t *image) {
    s->task = task_of(s->stage, s->act);
    if (s->task == ADDRESS || s->task == SEND)
        s->byte = sent(s, image);
}

static void end(session *s, unsigned number, unsigned offset) {
    s->number = number;
    s->offset = offset;
    s->stage = s->page = s->block = s->act = s->strobe = s->count = s->bits = 0;
}

static void onward(session *s, const uint8_t *image) {
    s->strobe = s->count = s->bits = 0;
    if (++s->act == acts_in[s->stage]) {
        s->act = 0;
        switch (s->stage) {
        case LEAD:
            s->stage = s->pair_count ? PAIRS : ERASE;
            break;
        case PAIRS:
            if (++s->page == s->pair_count) {
                s->page = 0;
                s->stage = ERASE;
            }
            break;
        case ERASE:
            s->stage = WRITE;
            break;
        case WRITE:
            if (++s->block == s->size / 256) {
                s->block = 0;
                s->stage = READ;
            }
            break;
        case READ:
            if (++s->block == s->size / 256) {
                s->block = 0;
                s->stage = ERASE;
                if (++s->page == s->pages) {
                    s->page = 0;
                    s->stage = CLOSE;
                }
            }
            break;
        default:
            end(s, C2_DONE, 0);
            return;
        }
    }
    begin(s, image);
}

static void judged(session *s, const uint8_t *image) {
    unsigned i;
    switch (s->task) {
    case INPUT:
    case OUTPUT:
        if (s->task == INPUT ? !(s->bits & 2) : s->bits & 1)
            break;
        if (s->count + 1 >= 256) {
            end(s, C2_POLL_LIMIT_REACHED, 0);
            return;
        }
        s->count++;
        s->strobe = 0;
        s->bits = 0;
        return;
    case STATUS:
        if (s->bits != 0x0d) {
            end(s, C2_BAD_STATUS, 0);
            return;
        }
        break;
    case IDENT:
        if (s->bits != s->id) {
            end(s, C2_OTHER_DEVICE, 0);
            return;
        }
        break;
    case COMPARE:
        i = block_offset(s) + (s->act - 14) / 2;
        if (image[i] != s->bits) {
            end(s, C2_COMPARE_DIFFERS, i);
            return;
        }
        break;
    default:
        break;
    }
    onward(s, image);
}

static void waits(session *s, unsigned one) {
    if (one) {
        s->count = 0;
        s->strobe++;
    } else if (++s->count == s->limit)
        end(s, C2_WAIT_LIMIT_REACHED, 0);
}

static void take(session *s, unsigned reply, const uint8_t *image) {
    unsigned k = s->strobe;
    if (reply > 1) {
        end(s, C2_BAD_REPLY, 0);
        return;
    }
    switch (s->task) {
    case RESET:
    case PAUSE:
        onward(s, image);
        return;
    case ADDRESS:
        if (k < 11) {
            s->strobe++;
            return;
        }
        break;
    case SEND:
        if (k == 13) {
            waits(s, reply);
            return;
        }
        if (k < 13) {
            s->strobe++;
            return;
        }
        break;
    case INPUT:
    case OUTPUT:
        if (k < 11) {
            if (k >= 3)
                s->bits |= reply << (k - 3);
            s->strobe++;
            return;
        }
        break;
    default:
        if (k == 5) {
            waits(s, reply);
            return;
        }
        if (k < 14) {
            if (k > 5)
                s->bits |= reply << (k - 6);
            s->strobe++;
            return;
        }
        break;
    }
    judged(s, image);
}

static unsigned bit(unsigned byte, unsigned i) {
    return 2 + (byte >> i & 1);
}

static unsigned step(const session *s) {
    unsigned k = s->strobe;
    if (s->number)
        return C2_STEP_OFF;
    switch (s->task) {
    case RESET:
        return C2_STEP_RESET;
    case PAUSE:
        return C2_STEP_PAUSE;
    case ADDRESS:
        return k == 0 ? 0 : k < 3 ? 3 : k < 11 ? bit(s->byte, k - 3) : 0;
    case SEND:
        return k == 0 ? 0 : k < 3 ? bit(1, k - 1) : k < 5 ? 2 : k < 13 ? bit(s->byte, k - 5) : 0;
    case INPUT:
    case OUTPUT:
        return k == 1 ? 2 : k == 2 ? 3 : 0;
    default:
        return k > 0 && k < 5 ? 2 : 0;
    }
}

c2_opened c2_open(uint8_t *r, size_t record_len, const uint8_t *image, size_t image_len, c2_settings t,
                  uint32_t first) {
    c2_opened o = {C2_BAD_RECORD, C2_STEP_OFF};
    (void)image;
    if (record_len != 32)
        return o;
    o.number = (uint32_t)settings_in_range(t.fpdat, t.page_size, t.page_count, t.wait_limit, t.pairs);
    if (o.number)
        return o;
    if (image_len == 0 || image_len % t.page_size) {
        o.number = C2_BAD_IMAGE;
        return o;
    }
    if (image_len / t.page_size > t.page_count || first > t.page_count - image_len / t.page_size) {
        o.number = C2_PAST_LAST_PAGE;
        return o;
    }
    for (int i = 0; i < 32; i++)
        r[i] = 0;
    r[0] = t.device_id;
    r[1] = t.fpdat;
    r[3] = (uint8_t)(t.page_size >> 8);
    r[4] = (uint8_t)t.page_count;
    r[5] = (uint8_t)first;
    r[6] = (uint8_t)(image_len / t.page_size);
    r[18] = t.wait_limit;
    r[19] = t.pairs.count;
    for (unsigned i = 0; i < t.pairs.count; i++) {
        r[20 + 2 * i] = t.pairs.registers[i];
        r[21 + 2 * i] = t.pairs.values[i];
    }
    o.step = C2_STEP_RESET;
    return o;
}

c2_advanced c2_advance(uint8_t *r, size_t record_len, const uint8_t *image, size_t image_len,
                       const uint8_t *replies, size_t replies_len, uint8_t *steps, size_t steps_len,
                       size_t place) {
    session s;
    c2_advanced a = {C2_BAD_RECORD, 0, 0};
    size_t i = 0;
    if (!held(r, record_len, &s))
        return a;
    if (image_len != s.size * s.pages) {
        a.number = C2_OTHER_IMAGE;
        return a;
    }
    if (place > steps_len || steps_len - place < replies_len) {
        a.number = C2_NO_ROOM;
        return a;
    }
    if (s.number == 0) {
        begin(&s, image);
        while (i < replies_len && s.number == 0) {
            take(&s, replies[i], image);
            steps[place + i++] = (uint8_t)step(&s);
        }
        r[7] = (uint8_t)s.number;
        r[8] = (uint8_t)s.offset;
        r[9] = (uint8_t)(s.offset >> 8);
        r[10] = (uint8_t)s.stage;
        r[11] = (uint8_t)s.page;
        r[12] = (uint8_t)s.block;
        r[13] = (uint8_t)s.act;
        r[14] = (uint8_t)(s.act >> 8);
        r[15] = (uint8_t)s.strobe;
        r[16] = (uint8_t)s.count;
        r[17] = (uint8_t)s.bits;
    }
    a.number = s.number;
    a.offset = s.offset;
    a.taken = i;
    return a;
}

static unsigned less(unsigned a, unsigned b) {
    return a < b ? 0 : a - b;
}

/* The most steps of a put or a get: a frame of 14 strobes and its WAIT, and a poll. */
static unsigned put_or_get(unsigned limit) {
    return 14 + limit + 256 * 12;
}

static unsigned cost(const session *s) {
    switch (s->task) {
    case RESET:
    case PAUSE:
        return 1;
    case ADDRESS:
        return 12;
    case INPUT:
    case OUTPUT:
        return 256 * 12;
    default:
        return 14 + s->limit;
    }
}

/* What the lead has after this act: at the first act 70 strobes and four WAITs. */
static unsigned lead_after(const session *s) {
    static const uint8_t strobes[8] = {70, 56, 55, 43, 29, 15, 1, 0}, waits[8] = {4, 3, 3, 3, 2, 1, 0, 0};
    return strobes[s->act] + waits[s->act] * s->limit;
}

c2_remaining c2_steps_left(const uint8_t *r, size_t record_len) {
    session s;
    c2_remaining a = {C2_BAD_RECORD, 0};
    if (!held(r, record_len, &s))
        return a;
    a.number = s.number;
    if (s.number)
        return a;
    unsigned n, w = s.task == SEND ? 13 : 5, B = s.size / 256;
    unsigned both = put_or_get(s.limit), block = 12 + 262 * both, page = 12 + 6 * both + 2 * B * block;
    switch (s.task) {
    case RESET:
    case PAUSE:
        n = 1;
        break;
    case ADDRESS:
        n = 12 - s.strobe;
        break;
    case INPUT:
    case OUTPUT:
        n = 12 - s.strobe + (255 - s.count) * 12;
        break;
    default:
        n = s.strobe <= w ? 14 - s.strobe + s.limit - s.count : 15 - s.strobe;
        break;
    }
    if (s.stage == LEAD)
        n += lead_after(&s) + s.pair_count * (26 + s.limit) + s.pages * page + 1;
    else if (s.stage == PAIRS)
        n += (s.act ? 0 : 14 + s.limit) + (s.pair_count - s.page - 1) * (26 + s.limit) + s.pages * page + 1;
    else if (s.stage != CLOSE) {
        n += less(acts_in[s.stage] - 1u, s.act) / 2 * both;
        if (s.act % 2)
            n += both - cost(&s);
        n += (s.pages - s.page - 1) * page + 1;
        n +=
            s.stage == ERASE ? 2 * B * block : (B - s.block - 1) * block + (s.stage == WRITE ? B * block : 0);
    }
    a.steps = n;
    return a;
}
