/* Made from the MIR of crate c2, sha256 d2f35cd3c24b5b9691007b30d2745e4f4155effadda04b1d35f05a13884b0dce. */
/*
 * Made by `make c`, not to be edited. A function stands under its path in the proved code; one that is generic
 * there, as those of the library are, stands once for each of what it is given, under the end of its path and
 * its types. Its result is called result, its parameters a1, a2 .. and its other locals v.., by their numbers
 * in the MIR, and copies that a call wants c1, c2 .. A statement of the MIR is one statement here, but structs
 * and arrays are assigned member by member. An enum is its tag and the members that its variants share; of
 * what has no bits there is nothing. A length is 64 bits wide, as in the proof, whatever size_t is.
 */
#include <stddef.h>
#include <stdint.h>
#include "c2_target.h"

/* For what is the library's, and for closures: a call of each would cost more than what it does. */
#if defined(__GNUC__)
#define INLINED static inline __attribute__((always_inline))
#else
#define INLINED static inline
#endif

typedef struct {
    uint8_t tag;
    uint64_t u64_0;
    _Bool bool_0;
    uint64_t u64_1;
} c2_target__Command;

typedef struct {
    _Bool f0;
    _Bool f1;
    _Bool f2;
    _Bool f3;
} c2_target__Met;

typedef struct {
    uint8_t tag;
    _Bool bool_0;
    uint64_t u64_0;
    uint64_t u64_1;
} c2_target__Output;

typedef struct {
    uint8_t tag;
    uint64_t u64_0;
} c2_target__Effect;

typedef struct {
    uint8_t tag;
    uint64_t u64_0;
    uint64_t u64_1;
    c2_target__Effect c2_target__Effect_0;
} c2_target__Point;

typedef struct {
    c2_target__Command f0;
    c2_target__Output f1;
    uint64_t f2;
    uint64_t f3;
} c2_target__Link;

typedef struct {
    uint64_t f0;
    _Bool f1;
    uint64_t f2;
    c2_target__Met f3;
    c2_target__Link f4;
} c2_target__Device;

typedef struct {
    c2_target__Point f0;
    uint64_t f1;
    _Bool f2;
    c2_target__Device f3;
} c2_target__Target;

typedef uint8_t numbers__Refusal;

typedef struct {
    uint8_t tag;
    c2_target__Target c2_target__Target_0;
    numbers__Refusal numbers__Refusal_0;
} core__Result_Target_Refusal;

typedef struct {
    uint8_t f0;
    uint8_t f1;
    uint8_t f2;
    uint8_t f3;
    uint8_t f4;
    uint8_t f5;
    uint8_t f6;
} c2_target_state__PointFields;

typedef struct {
    uint8_t f0;
    uint8_t f1;
    uint8_t f2;
    uint8_t f3;
    uint16_t f4;
    uint16_t f5;
} c2_target_state__CommandFields;

typedef struct {
    uint8_t f0;
    uint8_t f1;
    uint16_t f2;
    uint16_t f3;
} c2_target_state__OutputFields;

typedef uint8_t core__cmp__Ordering;

typedef struct {
    uint8_t tag;
    core__cmp__Ordering core__cmp__Ordering_0;
} core__Option_Ordering;

typedef struct {
    uint64_t f0;
    uint64_t f1;
    _Bool f2;
} core__RangeInclusive_u64;

typedef struct {
    const uint8_t *at;
    uint64_t length;
} slice_u8;

typedef struct {
    uint8_t tag;
    numbers__Refusal numbers__Refusal_0;
} core__Result_unit_Refusal;

typedef struct {
    numbers__Refusal f0;
} core__ErrResidual_Refusal;

typedef struct {
    uint8_t tag;
    core__ErrResidual_Refusal core__ErrResidual_Refusal_0;
} core__ControlFlow_ErrResidual_Refusal_unit;

typedef struct {
    uint8_t tag;
    const uint8_t *ref_u8_0;
} core__Option_ref_u8;

typedef struct {
    slice_u8 f0;
} core__Iter_u8;

typedef struct {
    const uint8_t *f0;
} settings__all_Self_ref_u8;

typedef struct {
    _Bool f0;
    c2_target__Target f1;
} c2_target__Turned;

typedef struct {
    uint8_t tag;
    uint8_t u8_0;
} core__Result_u8_AllocError;

typedef struct {
    uint8_t *at;
    uint64_t length;
} slice_mut_u8;

typedef struct {
    c2_settings f0;
    c2_pairs f1;
    slice_u8 f2;
} c2_target_step__Lent;

typedef struct {
    c2_target__Command f0;
    c2_target__Output f1;
} core__tuple_Command_Output;

typedef struct {
    uint64_t f0;
    uint64_t f1;
} core__tuple_u64_u64;

typedef struct {
    uint8_t at[4];
} array_4_u8;

typedef struct {
    uint8_t tag;
    c2_target__Turned c2_target__Turned_0;
    numbers__Refusal numbers__Refusal_0;
} core__Result_Turned_Refusal;

/* c2::target::c2_target_fresh */
static c2_target c2__target__c2_target_fresh(void)
{
    c2_target result;
    result.place = UINT64_C(0);
    result.start = 0u;
    result.rest = 0u;
    result.next = 0u;
    result.count = 0u;
    result.point = 0u;
    result.heard = 0u;
    result.value = 0u;
    result.left = 0u;
    result.zeros = 0u;
    result.effect = 0u;
    result.byte = 0u;
    result.collision = 0u;
    result.address = 0u;
    result.on = 0u;
    result.keys = 0u;
    result.met1 = 0u;
    result.met2 = 0u;
    result.met3 = 0u;
    result.met4 = 0u;
    result.command = 0u;
    result.write = 0u;
    result.page = 0u;
    result.high = 0u;
    result.output = 0u;
    result.passed = 0u;
    result.busy = 0u;
    result.late = 0u;
    return result;
}

/* core::convert::UsizeFromU8::from */
INLINED uint64_t core__convert__UsizeFromU8__from(uint8_t a1)
{
    uint64_t result;
    result = (uint64_t)a1;
    return result;
}

/* core::AnyInto::into_u8_u64 */
INLINED uint64_t core__AnyInto__into_u8_u64(uint8_t a1)
{
    uint64_t result;
    uint8_t v2;
    v2 = a1;
    result = core__convert__UsizeFromU8__from(v2);
    return result;
}

/* core::convert::UsizeFromU16::from */
INLINED uint64_t core__convert__UsizeFromU16__from(uint16_t a1)
{
    uint64_t result;
    result = (uint64_t)a1;
    return result;
}

/* c2_target_state::decode::command_of */
static c2_target__Command c2_target_state__decode__command_of(const c2_target *a1)
{
    c2_target__Command result;
    _Bool v2;
    uint64_t v3;
    uint64_t v4;
    c2_target__Command v5;
    uint64_t v6;
    uint64_t v7;
    v2 = a1->write == 1u;
    v3 = core__convert__UsizeFromU16__from(a1->start);
    v4 = core__convert__UsizeFromU16__from(a1->rest);
    switch (a1->command) {
    case 0u:
        v5.tag = 0u;
        v5.u64_0 = 0;
        v5.bool_0 = 0;
        v5.u64_1 = 0;
        break;
    case 1u:
        v5.tag = 1u;
        v5.u64_0 = 0;
        v5.bool_0 = 0;
        v5.u64_1 = 0;
        break;
    case 2u:
        v6 = core__AnyInto__into_u8_u64(a1->page);
        v5.tag = 2u;
        v5.u64_0 = v6;
        v5.bool_0 = 0;
        v5.u64_1 = 0;
        break;
    case 3u:
        v5.tag = 3u;
        v5.bool_0 = v2;
        v5.u64_0 = 0;
        v5.u64_1 = 0;
        break;
    case 4u:
        v7 = core__AnyInto__into_u8_u64(a1->high);
        v5.tag = 4u;
        v5.bool_0 = v2;
        v5.u64_0 = v7;
        v5.u64_1 = 0;
        break;
    case 5u:
        v5.tag = 5u;
        v5.bool_0 = v2;
        v5.u64_0 = v3;
        v5.u64_1 = 0;
        break;
    case 6u:
        v5.tag = 6u;
        v5.u64_0 = v3;
        v5.u64_1 = v4;
        v5.bool_0 = 0;
        break;
    default:
        v5.tag = 7u;
        v5.u64_0 = v4;
        v5.bool_0 = 0;
        v5.u64_1 = 0;
        break;
    }
    result.tag = v5.tag;
    result.u64_0 = v5.u64_0;
    result.bool_0 = v5.bool_0;
    result.u64_1 = v5.u64_1;
    return result;
}

/* c2_target_state::decode::met_of */
static c2_target__Met c2_target_state__decode__met_of(const c2_target *a1)
{
    c2_target__Met result;
    _Bool v2;
    _Bool v3;
    _Bool v4;
    _Bool v5;
    v2 = a1->met1 == 1u;
    v3 = a1->met2 == 1u;
    v4 = a1->met3 == 1u;
    v5 = a1->met4 == 1u;
    result.f0 = v2;
    result.f1 = v3;
    result.f2 = v4;
    result.f3 = v5;
    return result;
}

/* c2_target_state::decode::output_of */
static c2_target__Output c2_target_state__decode__output_of(const c2_target *a1)
{
    c2_target__Output result;
    _Bool v2;
    uint64_t v3;
    uint64_t v4;
    c2_target__Output v5;
    v2 = a1->passed == 1u;
    v3 = core__convert__UsizeFromU16__from(a1->next);
    v4 = core__convert__UsizeFromU16__from(a1->count);
    switch (a1->output) {
    case 0u:
        v5.tag = 0u;
        v5.bool_0 = 0;
        v5.u64_0 = 0;
        v5.u64_1 = 0;
        break;
    case 1u:
        v5.tag = 1u;
        v5.bool_0 = v2;
        v5.u64_0 = 0;
        v5.u64_1 = 0;
        break;
    case 2u:
        v5.tag = 2u;
        v5.u64_0 = v3;
        v5.u64_1 = v4;
        v5.bool_0 = 0;
        break;
    default:
        v5.tag = 3u;
        v5.u64_0 = v3;
        v5.u64_1 = v4;
        v5.bool_0 = 0;
        break;
    }
    result.tag = v5.tag;
    result.bool_0 = v5.bool_0;
    result.u64_0 = v5.u64_0;
    result.u64_1 = v5.u64_1;
    return result;
}

/* c2_target_state::decode::effect_of */
static c2_target__Effect c2_target_state__decode__effect_of(uint8_t a1, uint8_t a2)
{
    c2_target__Effect result;
    c2_target__Effect v3;
    uint64_t v4;
    uint64_t v5;
    switch (a1) {
    case 0u:
        v3.tag = 0u;
        v3.u64_0 = 0;
        break;
    case 1u:
        v4 = core__AnyInto__into_u8_u64(a2);
        v3.tag = 1u;
        v3.u64_0 = v4;
        break;
    case 2u:
        v5 = core__AnyInto__into_u8_u64(a2);
        v3.tag = 2u;
        v3.u64_0 = v5;
        break;
    case 3u:
        v3.tag = 3u;
        v3.u64_0 = 0;
        break;
    default:
        v3.tag = 4u;
        v3.u64_0 = 0;
        break;
    }
    result.tag = v3.tag;
    result.u64_0 = v3.u64_0;
    return result;
}

/* c2_target_state::decode::point_of */
static c2_target__Point c2_target_state__decode__point_of(const c2_target *a1)
{
    c2_target__Point result;
    uint64_t v2;
    uint64_t v3;
    uint64_t v4;
    uint64_t v5;
    c2_target__Effect v6;
    c2_target__Point v7;
    v2 = core__convert__UsizeFromU8__from(a1->heard);
    v3 = core__convert__UsizeFromU8__from(a1->value);
    v4 = core__convert__UsizeFromU8__from(a1->left);
    v5 = core__convert__UsizeFromU8__from(a1->zeros);
    v6 = c2_target_state__decode__effect_of(a1->effect, a1->byte);
    switch (a1->point) {
    case 0u:
        v7.tag = 0u;
        v7.u64_0 = 0;
        v7.u64_1 = 0;
        v7.c2_target__Effect_0.tag = 0;
        v7.c2_target__Effect_0.u64_0 = 0;
        break;
    case 1u:
        v7.tag = 1u;
        v7.u64_0 = v2;
        v7.u64_1 = v3;
        v7.c2_target__Effect_0.tag = 0;
        v7.c2_target__Effect_0.u64_0 = 0;
        break;
    case 2u:
        v7.tag = 2u;
        v7.u64_0 = v2;
        v7.u64_1 = v3;
        v7.c2_target__Effect_0.tag = 0;
        v7.c2_target__Effect_0.u64_0 = 0;
        break;
    case 3u:
        v7.tag = 3u;
        v7.u64_0 = v2;
        v7.u64_1 = v3;
        v7.c2_target__Effect_0.tag = 0;
        v7.c2_target__Effect_0.u64_0 = 0;
        break;
    case 4u:
        v7.tag = 4u;
        v7.u64_0 = v2;
        v7.u64_1 = v3;
        v7.c2_target__Effect_0.tag = 0;
        v7.c2_target__Effect_0.u64_0 = 0;
        break;
    case 5u:
        v7.tag = 5u;
        v7.u64_0 = v2;
        v7.u64_1 = v3;
        v7.c2_target__Effect_0.tag = 0;
        v7.c2_target__Effect_0.u64_0 = 0;
        break;
    case 6u:
        v7.tag = 6u;
        v7.u64_0 = v4;
        v7.u64_1 = 0;
        v7.c2_target__Effect_0.tag = 0;
        v7.c2_target__Effect_0.u64_0 = 0;
        break;
    case 7u:
        v7.tag = 7u;
        v7.u64_0 = v4;
        v7.c2_target__Effect_0.tag = v6.tag;
        v7.c2_target__Effect_0.u64_0 = v6.u64_0;
        v7.u64_1 = 0;
        break;
    case 8u:
        v7.tag = 8u;
        v7.u64_0 = v5;
        v7.u64_1 = v4;
        v7.c2_target__Effect_0.tag = v6.tag;
        v7.c2_target__Effect_0.u64_0 = v6.u64_0;
        break;
    case 9u:
        v7.tag = 9u;
        v7.u64_0 = v4;
        v7.u64_1 = v3;
        v7.c2_target__Effect_0.tag = v6.tag;
        v7.c2_target__Effect_0.u64_0 = v6.u64_0;
        break;
    default:
        v7.tag = 10u;
        v7.c2_target__Effect_0.tag = v6.tag;
        v7.c2_target__Effect_0.u64_0 = v6.u64_0;
        v7.u64_0 = 0;
        v7.u64_1 = 0;
        break;
    }
    result.tag = v7.tag;
    result.u64_0 = v7.u64_0;
    result.u64_1 = v7.u64_1;
    result.c2_target__Effect_0.tag = v7.c2_target__Effect_0.tag;
    result.c2_target__Effect_0.u64_0 = v7.c2_target__Effect_0.u64_0;
    return result;
}

/* c2_target_state::decode::target_read */
static c2_target__Target c2_target_state__decode__target_read(const c2_target *a1)
{
    c2_target__Target result;
    c2_target__Link v2;
    c2_target__Device v3;
    c2_target__Command v4;
    c2_target__Output v5;
    uint64_t v6;
    uint64_t v7;
    _Bool v8;
    c2_target__Met v9;
    c2_target__Point v10;
    v4 = c2_target_state__decode__command_of(a1);
    v5 = c2_target_state__decode__output_of(a1);
    v6 = core__AnyInto__into_u8_u64(a1->busy);
    v7 = core__AnyInto__into_u8_u64(a1->late);
    v2.f0.tag = v4.tag;
    v2.f0.u64_0 = v4.u64_0;
    v2.f0.bool_0 = v4.bool_0;
    v2.f0.u64_1 = v4.u64_1;
    v2.f1.tag = v5.tag;
    v2.f1.bool_0 = v5.bool_0;
    v2.f1.u64_0 = v5.u64_0;
    v2.f1.u64_1 = v5.u64_1;
    v2.f2 = v6;
    v2.f3 = v7;
    v6 = core__AnyInto__into_u8_u64(a1->address);
    v8 = a1->on == 1u;
    v7 = core__AnyInto__into_u8_u64(a1->keys);
    v9 = c2_target_state__decode__met_of(a1);
    v3.f0 = v6;
    v3.f1 = v8;
    v3.f2 = v7;
    v3.f3.f0 = v9.f0;
    v3.f3.f1 = v9.f1;
    v3.f3.f2 = v9.f2;
    v3.f3.f3 = v9.f3;
    v3.f4.f0.tag = v2.f0.tag;
    v3.f4.f0.u64_0 = v2.f0.u64_0;
    v3.f4.f0.bool_0 = v2.f0.bool_0;
    v3.f4.f0.u64_1 = v2.f0.u64_1;
    v3.f4.f1.tag = v2.f1.tag;
    v3.f4.f1.bool_0 = v2.f1.bool_0;
    v3.f4.f1.u64_0 = v2.f1.u64_0;
    v3.f4.f1.u64_1 = v2.f1.u64_1;
    v3.f4.f2 = v2.f2;
    v3.f4.f3 = v2.f3;
    v10 = c2_target_state__decode__point_of(a1);
    v6 = a1->place;
    v8 = a1->collision == 1u;
    result.f0.tag = v10.tag;
    result.f0.u64_0 = v10.u64_0;
    result.f0.u64_1 = v10.u64_1;
    result.f0.c2_target__Effect_0.tag = v10.c2_target__Effect_0.tag;
    result.f0.c2_target__Effect_0.u64_0 = v10.c2_target__Effect_0.u64_0;
    result.f1 = v6;
    result.f2 = v8;
    result.f3.f0 = v3.f0;
    result.f3.f1 = v3.f1;
    result.f3.f2 = v3.f2;
    result.f3.f3.f0 = v3.f3.f0;
    result.f3.f3.f1 = v3.f3.f1;
    result.f3.f3.f2 = v3.f3.f2;
    result.f3.f3.f3 = v3.f3.f3;
    result.f3.f4.f0.tag = v3.f4.f0.tag;
    result.f3.f4.f0.u64_0 = v3.f4.f0.u64_0;
    result.f3.f4.f0.bool_0 = v3.f4.f0.bool_0;
    result.f3.f4.f0.u64_1 = v3.f4.f0.u64_1;
    result.f3.f4.f1.tag = v3.f4.f1.tag;
    result.f3.f4.f1.bool_0 = v3.f4.f1.bool_0;
    result.f3.f4.f1.u64_0 = v3.f4.f1.u64_0;
    result.f3.f4.f1.u64_1 = v3.f4.f1.u64_1;
    result.f3.f4.f2 = v3.f4.f2;
    result.f3.f4.f3 = v3.f4.f3;
    return result;
}

/* c2_target_state::form::command_in_form */
static _Bool c2_target_state__form__command_in_form(const c2_target *a1)
{
    _Bool result;
    _Bool v2;
    _Bool v3;
    _Bool v4;
    _Bool v5;
    _Bool v6;
    _Bool v7;
    _Bool v8;
    _Bool v9;
    _Bool v10;
    _Bool v11;
    _Bool v12;
    _Bool v13;
    _Bool v14;
    _Bool v15;
    _Bool v16;
    _Bool v17;
    _Bool v18;
    _Bool v19;
    _Bool v20;
    _Bool v21;
    _Bool v22;
    _Bool v23;
    _Bool v24;
    _Bool v25;
    switch (a1->command) {
    case 2u:
        v5 = a1->write == 0u;
        if (v5) {
            v5 = a1->high == 0u;
        }
        v4 = v5;
        if (v4) {
            v4 = a1->start == 0u;
        }
        v3 = v4;
        if (v3) {
            v3 = a1->rest == 0u;
        }
        v2 = v3;
        break;
    case 3u:
        v9 = a1->write < 2u;
        if (v9) {
            v9 = a1->page == 0u;
        }
        v8 = v9;
        if (v8) {
            v8 = a1->high == 0u;
        }
        v7 = v8;
        if (v7) {
            v7 = a1->start == 0u;
        }
        v6 = v7;
        if (v6) {
            v6 = a1->rest == 0u;
        }
        v2 = v6;
        break;
    case 4u:
        v12 = a1->write < 2u;
        if (v12) {
            v12 = a1->page == 0u;
        }
        v11 = v12;
        if (v11) {
            v11 = a1->start == 0u;
        }
        v10 = v11;
        if (v10) {
            v10 = a1->rest == 0u;
        }
        v2 = v10;
        break;
    case 5u:
        v15 = a1->write < 2u;
        if (v15) {
            v15 = a1->page == 0u;
        }
        v14 = v15;
        if (v14) {
            v14 = a1->high == 0u;
        }
        v13 = v14;
        if (v13) {
            v13 = a1->rest == 0u;
        }
        v2 = v13;
        break;
    case 6u:
        v17 = a1->write == 0u;
        if (v17) {
            v17 = a1->page == 0u;
        }
        v16 = v17;
        if (v16) {
            v16 = a1->high == 0u;
        }
        v2 = v16;
        break;
    case 7u:
        v20 = a1->write == 0u;
        if (v20) {
            v20 = a1->page == 0u;
        }
        v19 = v20;
        if (v19) {
            v19 = a1->high == 0u;
        }
        v18 = v19;
        if (v18) {
            v18 = a1->start == 0u;
        }
        v2 = v18;
        break;
    default:
        v21 = a1->command < 2u;
        if (v21) {
            v25 = a1->write == 0u;
            if (v25) {
                v25 = a1->page == 0u;
            }
            v24 = v25;
            if (v24) {
                v24 = a1->high == 0u;
            }
            v23 = v24;
            if (v23) {
                v23 = a1->start == 0u;
            }
            v22 = v23;
            if (v22) {
                v22 = a1->rest == 0u;
            }
            v2 = v22;
            goto end1;
        }
        v2 = 0;
        end1:;
        break;
    }
    result = v2;
    return result;
}

/* c2_target_state::form::flags_in_form */
static _Bool c2_target_state__form__flags_in_form(const c2_target *a1)
{
    _Bool result;
    _Bool v2;
    _Bool v3;
    _Bool v4;
    _Bool v5;
    _Bool v6;
    v6 = a1->collision < 2u;
    if (v6) {
        v6 = a1->on < 2u;
    }
    v5 = v6;
    if (v5) {
        v5 = a1->met1 < 2u;
    }
    v4 = v5;
    if (v4) {
        v4 = a1->met2 < 2u;
    }
    v3 = v4;
    if (v3) {
        v3 = a1->met3 < 2u;
    }
    v2 = v3;
    if (v2) {
        v2 = a1->met4 < 2u;
    }
    result = v2;
    return result;
}

/* c2_target_state::form::output_in_form */
static _Bool c2_target_state__form__output_in_form(const c2_target *a1)
{
    _Bool result;
    _Bool v2;
    _Bool v3;
    _Bool v4;
    _Bool v5;
    v3 = a1->output < 2u;
    if (v3) {
        v5 = a1->passed <= a1->output;
        if (v5) {
            v5 = a1->next == 0u;
        }
        v4 = v5;
        if (v4) {
            v4 = a1->count == 0u;
        }
        v2 = v4;
        goto end1;
    }
    v3 = a1->output < 4u;
    if (v3) {
        v2 = a1->passed == 0u;
        goto end1;
    }
    v2 = 0;
    end1:;
    result = v2;
    return result;
}

/* c2_target_state::form::effect_in_form */
static _Bool c2_target_state__form__effect_in_form(uint8_t a1, uint8_t a2)
{
    _Bool result;
    _Bool v3;
    _Bool v4;
    switch (a1) {
    case 0u:
        goto end2;
    default:
        v4 = a1 < 3u;
        if (v4) {
            v3 = 1;
            goto end1;
        }
        v4 = a1 < 5u;
        if (v4) {
            goto end2;
        }
        v3 = 0;
        goto end1;
    }
    end2:;
    v3 = a2 == 0u;
    end1:;
    result = v3;
    return result;
}

/* c2_target_state::form::point_in_form */
static _Bool c2_target_state__form__point_in_form(const c2_target *a1)
{
    _Bool result;
    _Bool v2;
    _Bool v3;
    _Bool v4;
    _Bool v5;
    _Bool v6;
    _Bool v7;
    _Bool v8;
    _Bool v9;
    _Bool v10;
    _Bool v11;
    _Bool v12;
    _Bool v13;
    _Bool v14;
    _Bool v15;
    _Bool v16;
    _Bool v17;
    _Bool v18;
    _Bool v19;
    _Bool v20;
    _Bool v21;
    _Bool v22;
    _Bool v23;
    _Bool v24;
    _Bool v25;
    _Bool v26;
    _Bool v27;
    v2 = c2_target_state__form__effect_in_form(a1->effect, a1->byte);
    switch (a1->point) {
    case 0u:
        v8 = a1->heard == 0u;
        if (v8) {
            v8 = a1->value == 0u;
        }
        v7 = v8;
        if (v7) {
            v7 = a1->left == 0u;
        }
        v6 = v7;
        if (v6) {
            v6 = a1->zeros == 0u;
        }
        v5 = v6;
        if (v5) {
            v5 = a1->effect == 0u;
        }
        v4 = v5;
        if (v4) {
            v4 = a1->byte == 0u;
        }
        v3 = v4;
        break;
    case 6u:
        v12 = a1->heard == 0u;
        if (v12) {
            v12 = a1->value == 0u;
        }
        v11 = v12;
        if (v11) {
            v11 = a1->zeros == 0u;
        }
        v10 = v11;
        if (v10) {
            v10 = a1->effect == 0u;
        }
        v9 = v10;
        if (v9) {
            v9 = a1->byte == 0u;
        }
        v3 = v9;
        break;
    case 7u:
        v15 = a1->heard == 0u;
        if (v15) {
            v15 = a1->value == 0u;
        }
        v14 = v15;
        if (v14) {
            v14 = a1->zeros == 0u;
        }
        v13 = v14;
        if (v13) {
            v13 = v2;
        }
        v3 = v13;
        break;
    case 8u:
        v17 = a1->heard == 0u;
        if (v17) {
            v17 = a1->value == 0u;
        }
        v16 = v17;
        if (v16) {
            v16 = v2;
        }
        v3 = v16;
        break;
    case 9u:
        v19 = a1->heard == 0u;
        if (v19) {
            v19 = a1->zeros == 0u;
        }
        v18 = v19;
        if (v18) {
            v18 = v2;
        }
        v3 = v18;
        break;
    case 10u:
        v23 = a1->heard == 0u;
        if (v23) {
            v23 = a1->value == 0u;
        }
        v22 = v23;
        if (v22) {
            v22 = a1->left == 0u;
        }
        v21 = v22;
        if (v21) {
            v21 = a1->zeros == 0u;
        }
        v20 = v21;
        if (v20) {
            v20 = v2;
        }
        v3 = v20;
        break;
    default:
        v24 = a1->point < 6u;
        if (v24) {
            v27 = a1->left == 0u;
            if (v27) {
                v27 = a1->zeros == 0u;
            }
            v26 = v27;
            if (v26) {
                v26 = a1->effect == 0u;
            }
            v25 = v26;
            if (v25) {
                v25 = a1->byte == 0u;
            }
            v3 = v25;
            goto end1;
        }
        v3 = 0;
        end1:;
        break;
    }
    result = v3;
    return result;
}

/* c2_target_state::form::in_form */
static _Bool c2_target_state__form__in_form(const c2_target *a1)
{
    _Bool result;
    _Bool v2;
    _Bool v3;
    _Bool v4;
    v4 = c2_target_state__form__point_in_form(a1);
    if (v4) {
        v4 = c2_target_state__form__flags_in_form(a1);
    }
    v3 = v4;
    if (v3) {
        v3 = c2_target_state__form__output_in_form(a1);
    }
    v2 = v3;
    if (v2) {
        v2 = c2_target_state__form__command_in_form(a1);
    }
    result = v2;
    return result;
}

/* c2_target_state::decode::TargetTryFromState::try_from */
static core__Result_Target_Refusal c2_target_state__decode__TargetTryFromState__try_from(const c2_target *a1)
{
    core__Result_Target_Refusal result;
    _Bool v2;
    _Bool v3;
    numbers__Refusal v4;
    c2_target__Target v5;
    v2 = c2_target_state__form__in_form(a1);
    v3 = !v2;
    if (v3) {
        v4 = 9u;
        result.tag = 1u;
        result.numbers__Refusal_0 = v4;
        result.c2_target__Target_0.f0.tag = 0;
        result.c2_target__Target_0.f0.u64_0 = 0;
        result.c2_target__Target_0.f0.u64_1 = 0;
        result.c2_target__Target_0.f0.c2_target__Effect_0.tag = 0;
        result.c2_target__Target_0.f0.c2_target__Effect_0.u64_0 = 0;
        result.c2_target__Target_0.f1 = 0;
        result.c2_target__Target_0.f2 = 0;
        result.c2_target__Target_0.f3.f0 = 0;
        result.c2_target__Target_0.f3.f1 = 0;
        result.c2_target__Target_0.f3.f2 = 0;
        result.c2_target__Target_0.f3.f3.f0 = 0;
        result.c2_target__Target_0.f3.f3.f1 = 0;
        result.c2_target__Target_0.f3.f3.f2 = 0;
        result.c2_target__Target_0.f3.f3.f3 = 0;
        result.c2_target__Target_0.f3.f4.f0.tag = 0;
        result.c2_target__Target_0.f3.f4.f0.u64_0 = 0;
        result.c2_target__Target_0.f3.f4.f0.bool_0 = 0;
        result.c2_target__Target_0.f3.f4.f0.u64_1 = 0;
        result.c2_target__Target_0.f3.f4.f1.tag = 0;
        result.c2_target__Target_0.f3.f4.f1.bool_0 = 0;
        result.c2_target__Target_0.f3.f4.f1.u64_0 = 0;
        result.c2_target__Target_0.f3.f4.f1.u64_1 = 0;
        result.c2_target__Target_0.f3.f4.f2 = 0;
        result.c2_target__Target_0.f3.f4.f3 = 0;
        return result;
    }
    v5 = c2_target_state__decode__target_read(a1);
    result.tag = 0u;
    result.c2_target__Target_0.f0.tag = v5.f0.tag;
    result.c2_target__Target_0.f0.u64_0 = v5.f0.u64_0;
    result.c2_target__Target_0.f0.u64_1 = v5.f0.u64_1;
    result.c2_target__Target_0.f0.c2_target__Effect_0.tag = v5.f0.c2_target__Effect_0.tag;
    result.c2_target__Target_0.f0.c2_target__Effect_0.u64_0 = v5.f0.c2_target__Effect_0.u64_0;
    result.c2_target__Target_0.f1 = v5.f1;
    result.c2_target__Target_0.f2 = v5.f2;
    result.c2_target__Target_0.f3.f0 = v5.f3.f0;
    result.c2_target__Target_0.f3.f1 = v5.f3.f1;
    result.c2_target__Target_0.f3.f2 = v5.f3.f2;
    result.c2_target__Target_0.f3.f3.f0 = v5.f3.f3.f0;
    result.c2_target__Target_0.f3.f3.f1 = v5.f3.f3.f1;
    result.c2_target__Target_0.f3.f3.f2 = v5.f3.f3.f2;
    result.c2_target__Target_0.f3.f3.f3 = v5.f3.f3.f3;
    result.c2_target__Target_0.f3.f4.f0.tag = v5.f3.f4.f0.tag;
    result.c2_target__Target_0.f3.f4.f0.u64_0 = v5.f3.f4.f0.u64_0;
    result.c2_target__Target_0.f3.f4.f0.bool_0 = v5.f3.f4.f0.bool_0;
    result.c2_target__Target_0.f3.f4.f0.u64_1 = v5.f3.f4.f0.u64_1;
    result.c2_target__Target_0.f3.f4.f1.tag = v5.f3.f4.f1.tag;
    result.c2_target__Target_0.f3.f4.f1.bool_0 = v5.f3.f4.f1.bool_0;
    result.c2_target__Target_0.f3.f4.f1.u64_0 = v5.f3.f4.f1.u64_0;
    result.c2_target__Target_0.f3.f4.f1.u64_1 = v5.f3.f4.f1.u64_1;
    result.c2_target__Target_0.f3.f4.f2 = v5.f3.f4.f2;
    result.c2_target__Target_0.f3.f4.f3 = v5.f3.f4.f3;
    result.numbers__Refusal_0 = 0;
    return result;
}

/* core::default::U8Default::default */
INLINED uint8_t core__default__U8Default__default(void)
{
    uint8_t result;
    result = 0u;
    return result;
}

/* c2_target_state::PointFieldsDefault::default */
static c2_target_state__PointFields c2_target_state__PointFieldsDefault__default(void)
{
    c2_target_state__PointFields result;
    uint8_t v1;
    uint8_t v2;
    uint8_t v3;
    uint8_t v4;
    uint8_t v5;
    uint8_t v6;
    uint8_t v7;
    v1 = core__default__U8Default__default();
    v2 = core__default__U8Default__default();
    v3 = core__default__U8Default__default();
    v4 = core__default__U8Default__default();
    v5 = core__default__U8Default__default();
    v6 = core__default__U8Default__default();
    v7 = core__default__U8Default__default();
    result.f0 = v1;
    result.f1 = v2;
    result.f2 = v3;
    result.f3 = v4;
    result.f4 = v5;
    result.f5 = v6;
    result.f6 = v7;
    return result;
}

/* c2_target_state::fields::low */
static uint8_t c2_target_state__fields__low(uint64_t a1)
{
    uint8_t result;
    uint64_t v2;
    v2 = a1 % UINT64_C(256);
    result = (uint8_t)v2;
    return result;
}

/* c2_target_state::encode::hearing */
static c2_target_state__PointFields c2_target_state__encode__hearing(uint8_t a1, uint64_t a2, uint64_t a3)
{
    c2_target_state__PointFields result;
    uint8_t v4;
    uint8_t v5;
    c2_target_state__PointFields v6;
    uint8_t v7;
    uint8_t v8;
    uint8_t v9;
    uint8_t v10;
    v4 = c2_target_state__fields__low(a2);
    v5 = c2_target_state__fields__low(a3);
    v6 = c2_target_state__PointFieldsDefault__default();
    v7 = v6.f3;
    v8 = v6.f4;
    v9 = v6.f5;
    v10 = v6.f6;
    result.f0 = a1;
    result.f1 = v4;
    result.f2 = v5;
    result.f3 = v7;
    result.f4 = v8;
    result.f5 = v9;
    result.f6 = v10;
    return result;
}

/* c2_target_state::encode::effect_byte */
static uint8_t c2_target_state__encode__effect_byte(const c2_target__Effect *a1)
{
    uint8_t result;
    uint64_t v2;
    uint8_t v3;
    switch (a1->tag) {
    case 1u:
        v2 = a1->u64_0;
        goto end2;
    case 2u:
        v2 = a1->u64_0;
        goto end2;
    default: /* 0, 3, 4 */
        v3 = 0u;
        goto end1;
    }
    end2:;
    v3 = c2_target_state__fields__low(v2);
    end1:;
    result = v3;
    return result;
}

/* c2_target_state::encode::effect_code */
static uint8_t c2_target_state__encode__effect_code(const c2_target__Effect *a1)
{
    uint8_t result;
    uint8_t v2;
    switch (a1->tag) {
    case 0u:
        v2 = 0u;
        break;
    case 1u:
        v2 = 1u;
        break;
    case 2u:
        v2 = 2u;
        break;
    case 3u:
        v2 = 3u;
        break;
    default: /* 4 */
        v2 = 4u;
        break;
    }
    result = v2;
    return result;
}

/* c2_target_state::encode::with_effect */
static c2_target_state__PointFields c2_target_state__encode__with_effect(uint8_t a1,
    const c2_target__Effect *a2)
{
    c2_target_state__PointFields result;
    uint8_t v3;
    uint8_t v4;
    c2_target_state__PointFields v5;
    uint8_t v6;
    uint8_t v7;
    uint8_t v8;
    uint8_t v9;
    v3 = c2_target_state__encode__effect_code(a2);
    v4 = c2_target_state__encode__effect_byte(a2);
    v5 = c2_target_state__PointFieldsDefault__default();
    v6 = v5.f1;
    v7 = v5.f2;
    v8 = v5.f3;
    v9 = v5.f4;
    result.f0 = a1;
    result.f1 = v6;
    result.f2 = v7;
    result.f3 = v8;
    result.f4 = v9;
    result.f5 = v3;
    result.f6 = v4;
    return result;
}

/* c2_target_state::encode::PointFieldsFromPoint::from */
static c2_target_state__PointFields c2_target_state__encode__PointFieldsFromPoint__from(
    const c2_target__Point *a1)
{
    c2_target_state__PointFields result;
    uint64_t v2;
    uint64_t v3;
    uint64_t v4;
    uint64_t v5;
    uint64_t v6;
    uint64_t v7;
    uint64_t v8;
    uint64_t v9;
    uint64_t v10;
    uint64_t v11;
    uint64_t v12;
    uint64_t v13;
    c2_target__Effect v14;
    uint64_t v15;
    uint64_t v16;
    c2_target__Effect v17;
    uint64_t v18;
    uint64_t v19;
    c2_target__Effect v20;
    c2_target__Effect v21;
    c2_target_state__PointFields v22;
    uint8_t v23;
    c2_target_state__PointFields v24;
    c2_target__Effect v25;
    uint8_t v26;
    uint8_t v27;
    uint8_t v28;
    uint8_t v29;
    uint8_t v30;
    uint8_t v31;
    uint8_t v32;
    c2_target_state__PointFields v33;
    uint8_t v34;
    uint8_t v35;
    uint8_t v36;
    uint8_t v37;
    uint8_t v38;
    uint8_t v39;
    uint8_t v40;
    uint8_t v41;
    c2_target_state__PointFields v42;
    uint8_t v43;
    uint8_t v44;
    uint8_t v45;
    uint8_t v46;
    uint8_t v47;
    uint8_t v48;
    uint8_t v49;
    c2_target_state__PointFields v50;
    uint8_t v51;
    uint8_t v52;
    uint8_t v53;
    uint8_t v54;
    uint8_t v55;
    switch (a1->tag) {
    case 0u:
        v22 = c2_target_state__PointFieldsDefault__default();
        break;
    case 1u:
        v2 = a1->u64_0;
        v3 = a1->u64_1;
        v22 = c2_target_state__encode__hearing(1u, v2, v3);
        break;
    case 2u:
        v4 = a1->u64_0;
        v5 = a1->u64_1;
        v22 = c2_target_state__encode__hearing(2u, v4, v5);
        break;
    case 3u:
        v6 = a1->u64_0;
        v7 = a1->u64_1;
        v22 = c2_target_state__encode__hearing(3u, v6, v7);
        break;
    case 4u:
        v8 = a1->u64_0;
        v9 = a1->u64_1;
        v22 = c2_target_state__encode__hearing(4u, v8, v9);
        break;
    case 5u:
        v10 = a1->u64_0;
        v11 = a1->u64_1;
        v22 = c2_target_state__encode__hearing(5u, v10, v11);
        break;
    case 6u:
        v12 = a1->u64_0;
        v23 = c2_target_state__fields__low(v12);
        v25.tag = 0u;
        v25.u64_0 = 0;
        v24 = c2_target_state__encode__with_effect(6u, &v25);
        v26 = v24.f0;
        v27 = v24.f1;
        v28 = v24.f2;
        v29 = v24.f4;
        v30 = v24.f5;
        v31 = v24.f6;
        v22.f0 = v26;
        v22.f1 = v27;
        v22.f2 = v28;
        v22.f3 = v23;
        v22.f4 = v29;
        v22.f5 = v30;
        v22.f6 = v31;
        break;
    case 7u:
        v13 = a1->u64_0;
        v14.tag = a1->c2_target__Effect_0.tag;
        v14.u64_0 = a1->c2_target__Effect_0.u64_0;
        v32 = c2_target_state__fields__low(v13);
        v33 = c2_target_state__encode__with_effect(7u, &v14);
        v34 = v33.f0;
        v35 = v33.f1;
        v36 = v33.f2;
        v37 = v33.f4;
        v38 = v33.f5;
        v39 = v33.f6;
        v22.f0 = v34;
        v22.f1 = v35;
        v22.f2 = v36;
        v22.f3 = v32;
        v22.f4 = v37;
        v22.f5 = v38;
        v22.f6 = v39;
        break;
    case 8u:
        v15 = a1->u64_0;
        v16 = a1->u64_1;
        v17.tag = a1->c2_target__Effect_0.tag;
        v17.u64_0 = a1->c2_target__Effect_0.u64_0;
        v40 = c2_target_state__fields__low(v15);
        v41 = c2_target_state__fields__low(v16);
        v42 = c2_target_state__encode__with_effect(8u, &v17);
        v43 = v42.f0;
        v44 = v42.f1;
        v45 = v42.f2;
        v46 = v42.f5;
        v47 = v42.f6;
        v22.f0 = v43;
        v22.f1 = v44;
        v22.f2 = v45;
        v22.f3 = v41;
        v22.f4 = v40;
        v22.f5 = v46;
        v22.f6 = v47;
        break;
    case 9u:
        v18 = a1->u64_0;
        v19 = a1->u64_1;
        v20.tag = a1->c2_target__Effect_0.tag;
        v20.u64_0 = a1->c2_target__Effect_0.u64_0;
        v48 = c2_target_state__fields__low(v18);
        v49 = c2_target_state__fields__low(v19);
        v50 = c2_target_state__encode__with_effect(9u, &v20);
        v51 = v50.f0;
        v52 = v50.f1;
        v53 = v50.f4;
        v54 = v50.f5;
        v55 = v50.f6;
        v22.f0 = v51;
        v22.f1 = v52;
        v22.f2 = v49;
        v22.f3 = v48;
        v22.f4 = v53;
        v22.f5 = v54;
        v22.f6 = v55;
        break;
    default: /* 10 */
        v21.tag = a1->c2_target__Effect_0.tag;
        v21.u64_0 = a1->c2_target__Effect_0.u64_0;
        v22 = c2_target_state__encode__with_effect(10u, &v21);
        break;
    }
    result.f0 = v22.f0;
    result.f1 = v22.f1;
    result.f2 = v22.f2;
    result.f3 = v22.f3;
    result.f4 = v22.f4;
    result.f5 = v22.f5;
    result.f6 = v22.f6;
    return result;
}

/* core::convert::others::U8FromBool::from */
INLINED uint8_t core__convert__others__U8FromBool__from(_Bool a1)
{
    uint8_t result;
    result = (uint8_t)a1;
    return result;
}

/* core::AnyInto::into_bool_u8 */
INLINED uint8_t core__AnyInto__into_bool_u8(_Bool a1)
{
    uint8_t result;
    _Bool v2;
    v2 = a1;
    result = core__convert__others__U8FromBool__from(v2);
    return result;
}

/* c2_target_state::encode::point_moved */
static c2_target c2_target_state__encode__point_moved(const c2_target *a1, const c2_target__Target *a2)
{
    c2_target result;
    c2_target_state__PointFields v3;
    c2_target__Point v4;
    uint64_t v5;
    uint8_t v6;
    uint16_t v7;
    uint16_t v8;
    uint16_t v9;
    uint16_t v10;
    uint8_t v11;
    uint8_t v12;
    uint8_t v13;
    uint8_t v14;
    uint8_t v15;
    uint8_t v16;
    uint8_t v17;
    uint8_t v18;
    uint8_t v19;
    uint8_t v20;
    uint8_t v21;
    uint8_t v22;
    uint8_t v23;
    uint8_t v24;
    uint8_t v25;
    v4.tag = a2->f0.tag;
    v4.u64_0 = a2->f0.u64_0;
    v4.u64_1 = a2->f0.u64_1;
    v4.c2_target__Effect_0.tag = a2->f0.c2_target__Effect_0.tag;
    v4.c2_target__Effect_0.u64_0 = a2->f0.c2_target__Effect_0.u64_0;
    v3 = c2_target_state__encode__PointFieldsFromPoint__from(&v4);
    v5 = a2->f1;
    v6 = core__AnyInto__into_bool_u8(a2->f2);
    v7 = a1->start;
    v8 = a1->rest;
    v9 = a1->next;
    v10 = a1->count;
    v11 = a1->address;
    v12 = a1->on;
    v13 = a1->keys;
    v14 = a1->met1;
    v15 = a1->met2;
    v16 = a1->met3;
    v17 = a1->met4;
    v18 = a1->command;
    v19 = a1->write;
    v20 = a1->page;
    v21 = a1->high;
    v22 = a1->output;
    v23 = a1->passed;
    v24 = a1->busy;
    v25 = a1->late;
    result.place = v5;
    result.start = v7;
    result.rest = v8;
    result.next = v9;
    result.count = v10;
    result.point = v3.f0;
    result.heard = v3.f1;
    result.value = v3.f2;
    result.left = v3.f3;
    result.zeros = v3.f4;
    result.effect = v3.f5;
    result.byte = v3.f6;
    result.collision = v6;
    result.address = v11;
    result.on = v12;
    result.keys = v13;
    result.met1 = v14;
    result.met2 = v15;
    result.met3 = v16;
    result.met4 = v17;
    result.command = v18;
    result.write = v19;
    result.page = v20;
    result.high = v21;
    result.output = v22;
    result.passed = v23;
    result.busy = v24;
    result.late = v25;
    return result;
}

/* c2_target_state::model::is_inside */
static _Bool c2_target_state__model__is_inside(uint8_t a1, uint8_t a2)
{
    _Bool result;
    _Bool v3;
    _Bool v4;
    _Bool v5;
    v3 = a2 < 4u;
    if (v3) {
        v5 = a1 < 1u;
        if (v5) {
            goto end2;
        }
        v5 = a1 < 10u;
        if (v5) {
            v4 = 1;
            goto end1;
        }
        goto end2;
        end2:;
        v4 = 0;
        end1:;
        v3 = v4;
    }
    result = v3;
    return result;
}

/* c2_target_state::encode::state_with */
static c2_target c2_target_state__encode__state_with(const c2_target__Target *a1,
    const c2_target_state__PointFields *a2, const c2_target_state__CommandFields *a3,
    const c2_target_state__OutputFields *a4)
{
    c2_target result;
    c2_target__Device v5;
    c2_target__Met v6;
    uint64_t v7;
    uint8_t v8;
    uint8_t v9;
    uint8_t v10;
    uint8_t v11;
    uint8_t v12;
    uint8_t v13;
    uint8_t v14;
    uint8_t v15;
    uint8_t v16;
    uint8_t v17;
    v5.f0 = a1->f3.f0;
    v5.f1 = a1->f3.f1;
    v5.f2 = a1->f3.f2;
    v5.f3.f0 = a1->f3.f3.f0;
    v5.f3.f1 = a1->f3.f3.f1;
    v5.f3.f2 = a1->f3.f3.f2;
    v5.f3.f3 = a1->f3.f3.f3;
    v5.f4.f0.tag = a1->f3.f4.f0.tag;
    v5.f4.f0.u64_0 = a1->f3.f4.f0.u64_0;
    v5.f4.f0.bool_0 = a1->f3.f4.f0.bool_0;
    v5.f4.f0.u64_1 = a1->f3.f4.f0.u64_1;
    v5.f4.f1.tag = a1->f3.f4.f1.tag;
    v5.f4.f1.bool_0 = a1->f3.f4.f1.bool_0;
    v5.f4.f1.u64_0 = a1->f3.f4.f1.u64_0;
    v5.f4.f1.u64_1 = a1->f3.f4.f1.u64_1;
    v5.f4.f2 = a1->f3.f4.f2;
    v5.f4.f3 = a1->f3.f4.f3;
    v6.f0 = v5.f3.f0;
    v6.f1 = v5.f3.f1;
    v6.f2 = v5.f3.f2;
    v6.f3 = v5.f3.f3;
    v7 = a1->f1;
    v8 = core__AnyInto__into_bool_u8(a1->f2);
    v9 = c2_target_state__fields__low(v5.f0);
    v10 = core__AnyInto__into_bool_u8(v5.f1);
    v11 = c2_target_state__fields__low(v5.f2);
    v12 = core__AnyInto__into_bool_u8(v6.f0);
    v13 = core__AnyInto__into_bool_u8(v6.f1);
    v14 = core__AnyInto__into_bool_u8(v6.f2);
    v15 = core__AnyInto__into_bool_u8(v6.f3);
    v16 = c2_target_state__fields__low(v5.f4.f2);
    v17 = c2_target_state__fields__low(v5.f4.f3);
    result.place = v7;
    result.start = a3->f4;
    result.rest = a3->f5;
    result.next = a4->f2;
    result.count = a4->f3;
    result.point = a2->f0;
    result.heard = a2->f1;
    result.value = a2->f2;
    result.left = a2->f3;
    result.zeros = a2->f4;
    result.effect = a2->f5;
    result.byte = a2->f6;
    result.collision = v8;
    result.address = v9;
    result.on = v10;
    result.keys = v11;
    result.met1 = v12;
    result.met2 = v13;
    result.met3 = v14;
    result.met4 = v15;
    result.command = a3->f0;
    result.write = a3->f1;
    result.page = a3->f2;
    result.high = a3->f3;
    result.output = a4->f0;
    result.passed = a4->f1;
    result.busy = v16;
    result.late = v17;
    return result;
}

/* core::default::U16Default::default */
INLINED uint16_t core__default__U16Default__default(void)
{
    uint16_t result;
    result = 0u;
    return result;
}

/* c2_target_state::CommandFieldsDefault::default */
static c2_target_state__CommandFields c2_target_state__CommandFieldsDefault__default(void)
{
    c2_target_state__CommandFields result;
    uint8_t v1;
    uint8_t v2;
    uint8_t v3;
    uint8_t v4;
    uint16_t v5;
    uint16_t v6;
    v1 = core__default__U8Default__default();
    v2 = core__default__U8Default__default();
    v3 = core__default__U8Default__default();
    v4 = core__default__U8Default__default();
    v5 = core__default__U16Default__default();
    v6 = core__default__U16Default__default();
    result.f0 = v1;
    result.f1 = v2;
    result.f2 = v3;
    result.f3 = v4;
    result.f4 = v5;
    result.f5 = v6;
    return result;
}

/* c2_target_state::encode::of_block */
static c2_target_state__CommandFields c2_target_state__encode__of_block(uint8_t a1, _Bool a2)
{
    c2_target_state__CommandFields result;
    uint8_t v3;
    c2_target_state__CommandFields v4;
    uint8_t v5;
    uint8_t v6;
    uint16_t v7;
    uint16_t v8;
    v3 = core__AnyInto__into_bool_u8(a2);
    v4 = c2_target_state__CommandFieldsDefault__default();
    v5 = v4.f2;
    v6 = v4.f3;
    v7 = v4.f4;
    v8 = v4.f5;
    result.f0 = a1;
    result.f1 = v3;
    result.f2 = v5;
    result.f3 = v6;
    result.f4 = v7;
    result.f5 = v8;
    return result;
}

/* c2_target_state::fields::word */
static uint16_t c2_target_state__fields__word(uint64_t a1)
{
    uint16_t result;
    uint64_t v2;
    v2 = a1 % UINT64_C(65536);
    result = (uint16_t)v2;
    return result;
}

/* c2_target_state::encode::CommandFieldsFromCommand::from */
static c2_target_state__CommandFields c2_target_state__encode__CommandFieldsFromCommand__from(
    const c2_target__Command *a1)
{
    c2_target_state__CommandFields result;
    c2_target_state__CommandFields v2;
    uint64_t v3;
    _Bool v4;
    _Bool v5;
    uint64_t v6;
    _Bool v7;
    uint64_t v8;
    uint64_t v9;
    uint64_t v10;
    uint64_t v11;
    c2_target_state__CommandFields v12;
    uint8_t v13;
    uint8_t v14;
    uint8_t v15;
    uint16_t v16;
    uint16_t v17;
    uint8_t v18;
    uint8_t v19;
    uint8_t v20;
    uint16_t v21;
    uint16_t v22;
    uint8_t v23;
    c2_target_state__CommandFields v24;
    uint8_t v25;
    uint8_t v26;
    uint8_t v27;
    uint16_t v28;
    uint16_t v29;
    uint16_t v30;
    c2_target_state__CommandFields v31;
    uint8_t v32;
    uint8_t v33;
    uint8_t v34;
    uint8_t v35;
    uint16_t v36;
    uint16_t v37;
    uint16_t v38;
    uint8_t v39;
    uint8_t v40;
    uint8_t v41;
    uint16_t v42;
    uint8_t v43;
    uint8_t v44;
    uint8_t v45;
    uint16_t v46;
    v2 = c2_target_state__CommandFieldsDefault__default();
    switch (a1->tag) {
    case 0u:
        v12.f0 = v2.f0;
        v12.f1 = v2.f1;
        v12.f2 = v2.f2;
        v12.f3 = v2.f3;
        v12.f4 = v2.f4;
        v12.f5 = v2.f5;
        break;
    case 1u:
        v13 = v2.f1;
        v14 = v2.f2;
        v15 = v2.f3;
        v16 = v2.f4;
        v17 = v2.f5;
        v12.f0 = 1u;
        v12.f1 = v13;
        v12.f2 = v14;
        v12.f3 = v15;
        v12.f4 = v16;
        v12.f5 = v17;
        break;
    case 2u:
        v3 = a1->u64_0;
        v18 = c2_target_state__fields__low(v3);
        v19 = v2.f1;
        v20 = v2.f3;
        v21 = v2.f4;
        v22 = v2.f5;
        v12.f0 = 2u;
        v12.f1 = v19;
        v12.f2 = v18;
        v12.f3 = v20;
        v12.f4 = v21;
        v12.f5 = v22;
        break;
    case 3u:
        v4 = a1->bool_0;
        v12 = c2_target_state__encode__of_block(3u, v4);
        break;
    case 4u:
        v5 = a1->bool_0;
        v6 = a1->u64_0;
        v23 = c2_target_state__fields__low(v6);
        v24 = c2_target_state__encode__of_block(4u, v5);
        v25 = v24.f0;
        v26 = v24.f1;
        v27 = v24.f2;
        v28 = v24.f4;
        v29 = v24.f5;
        v12.f0 = v25;
        v12.f1 = v26;
        v12.f2 = v27;
        v12.f3 = v23;
        v12.f4 = v28;
        v12.f5 = v29;
        break;
    case 5u:
        v7 = a1->bool_0;
        v8 = a1->u64_0;
        v30 = c2_target_state__fields__word(v8);
        v31 = c2_target_state__encode__of_block(5u, v7);
        v32 = v31.f0;
        v33 = v31.f1;
        v34 = v31.f2;
        v35 = v31.f3;
        v36 = v31.f5;
        v12.f0 = v32;
        v12.f1 = v33;
        v12.f2 = v34;
        v12.f3 = v35;
        v12.f4 = v30;
        v12.f5 = v36;
        break;
    case 6u:
        v9 = a1->u64_0;
        v10 = a1->u64_1;
        v37 = c2_target_state__fields__word(v9);
        v38 = c2_target_state__fields__word(v10);
        v39 = v2.f1;
        v40 = v2.f2;
        v41 = v2.f3;
        v12.f0 = 6u;
        v12.f1 = v39;
        v12.f2 = v40;
        v12.f3 = v41;
        v12.f4 = v37;
        v12.f5 = v38;
        break;
    default: /* 7 */
        v11 = a1->u64_0;
        v42 = c2_target_state__fields__word(v11);
        v43 = v2.f1;
        v44 = v2.f2;
        v45 = v2.f3;
        v46 = v2.f4;
        v12.f0 = 7u;
        v12.f1 = v43;
        v12.f2 = v44;
        v12.f3 = v45;
        v12.f4 = v46;
        v12.f5 = v42;
        break;
    }
    result.f0 = v12.f0;
    result.f1 = v12.f1;
    result.f2 = v12.f2;
    result.f3 = v12.f3;
    result.f4 = v12.f4;
    result.f5 = v12.f5;
    return result;
}

/* core::AnyInto::into_Command_CommandFields */
INLINED c2_target_state__CommandFields core__AnyInto__into_Command_CommandFields(const c2_target__Command *a1)
{
    c2_target_state__CommandFields result;
    c2_target__Command v2;
    v2.tag = a1->tag;
    v2.u64_0 = a1->u64_0;
    v2.bool_0 = a1->bool_0;
    v2.u64_1 = a1->u64_1;
    result = c2_target_state__encode__CommandFieldsFromCommand__from(&v2);
    return result;
}

/* c2_target_state::OutputFieldsDefault::default */
static c2_target_state__OutputFields c2_target_state__OutputFieldsDefault__default(void)
{
    c2_target_state__OutputFields result;
    uint8_t v1;
    uint8_t v2;
    uint16_t v3;
    uint16_t v4;
    v1 = core__default__U8Default__default();
    v2 = core__default__U8Default__default();
    v3 = core__default__U16Default__default();
    v4 = core__default__U16Default__default();
    result.f0 = v1;
    result.f1 = v2;
    result.f2 = v3;
    result.f3 = v4;
    return result;
}

/* c2_target_state::encode::OutputFieldsFromOutput::from */
static c2_target_state__OutputFields c2_target_state__encode__OutputFieldsFromOutput__from(
    const c2_target__Output *a1)
{
    c2_target_state__OutputFields result;
    c2_target_state__OutputFields v2;
    _Bool v3;
    uint64_t v4;
    uint64_t v5;
    uint64_t v6;
    uint64_t v7;
    c2_target_state__OutputFields v8;
    uint8_t v9;
    uint16_t v10;
    uint16_t v11;
    uint16_t v12;
    uint16_t v13;
    uint8_t v14;
    uint16_t v15;
    uint16_t v16;
    uint8_t v17;
    v2 = c2_target_state__OutputFieldsDefault__default();
    switch (a1->tag) {
    case 0u:
        v8.f0 = v2.f0;
        v8.f1 = v2.f1;
        v8.f2 = v2.f2;
        v8.f3 = v2.f3;
        break;
    case 1u:
        v3 = a1->bool_0;
        v9 = core__AnyInto__into_bool_u8(v3);
        v10 = v2.f2;
        v11 = v2.f3;
        v8.f0 = 1u;
        v8.f1 = v9;
        v8.f2 = v10;
        v8.f3 = v11;
        break;
    case 2u:
        v4 = a1->u64_0;
        v5 = a1->u64_1;
        v12 = c2_target_state__fields__word(v4);
        v13 = c2_target_state__fields__word(v5);
        v14 = v2.f1;
        v8.f0 = 2u;
        v8.f1 = v14;
        v8.f2 = v12;
        v8.f3 = v13;
        break;
    default: /* 3 */
        v6 = a1->u64_0;
        v7 = a1->u64_1;
        v15 = c2_target_state__fields__word(v6);
        v16 = c2_target_state__fields__word(v7);
        v17 = v2.f1;
        v8.f0 = 3u;
        v8.f1 = v17;
        v8.f2 = v15;
        v8.f3 = v16;
        break;
    }
    result.f0 = v8.f0;
    result.f1 = v8.f1;
    result.f2 = v8.f2;
    result.f3 = v8.f3;
    return result;
}

/* core::AnyInto::into_Output_OutputFields */
INLINED c2_target_state__OutputFields core__AnyInto__into_Output_OutputFields(const c2_target__Output *a1)
{
    c2_target_state__OutputFields result;
    c2_target__Output v2;
    v2.tag = a1->tag;
    v2.bool_0 = a1->bool_0;
    v2.u64_0 = a1->u64_0;
    v2.u64_1 = a1->u64_1;
    result = c2_target_state__encode__OutputFieldsFromOutput__from(&v2);
    return result;
}

/* core::AnyInto::into_Point_PointFields */
INLINED c2_target_state__PointFields core__AnyInto__into_Point_PointFields(const c2_target__Point *a1)
{
    c2_target_state__PointFields result;
    c2_target__Point v2;
    v2.tag = a1->tag;
    v2.u64_0 = a1->u64_0;
    v2.u64_1 = a1->u64_1;
    v2.c2_target__Effect_0.tag = a1->c2_target__Effect_0.tag;
    v2.c2_target__Effect_0.u64_0 = a1->c2_target__Effect_0.u64_0;
    result = c2_target_state__encode__PointFieldsFromPoint__from(&v2);
    return result;
}

/* c2_target_state::encode::StateFromTarget::from */
static c2_target c2_target_state__encode__StateFromTarget__from(const c2_target__Target *a1)
{
    c2_target result;
    c2_target__Link v2;
    c2_target_state__PointFields v3;
    c2_target__Point v4;
    c2_target_state__CommandFields v5;
    c2_target__Command v6;
    c2_target_state__OutputFields v7;
    c2_target__Output v8;
    v2.f0.tag = a1->f3.f4.f0.tag;
    v2.f0.u64_0 = a1->f3.f4.f0.u64_0;
    v2.f0.bool_0 = a1->f3.f4.f0.bool_0;
    v2.f0.u64_1 = a1->f3.f4.f0.u64_1;
    v2.f1.tag = a1->f3.f4.f1.tag;
    v2.f1.bool_0 = a1->f3.f4.f1.bool_0;
    v2.f1.u64_0 = a1->f3.f4.f1.u64_0;
    v2.f1.u64_1 = a1->f3.f4.f1.u64_1;
    v2.f2 = a1->f3.f4.f2;
    v2.f3 = a1->f3.f4.f3;
    v4.tag = a1->f0.tag;
    v4.u64_0 = a1->f0.u64_0;
    v4.u64_1 = a1->f0.u64_1;
    v4.c2_target__Effect_0.tag = a1->f0.c2_target__Effect_0.tag;
    v4.c2_target__Effect_0.u64_0 = a1->f0.c2_target__Effect_0.u64_0;
    v3 = core__AnyInto__into_Point_PointFields(&v4);
    v6.tag = v2.f0.tag;
    v6.u64_0 = v2.f0.u64_0;
    v6.bool_0 = v2.f0.bool_0;
    v6.u64_1 = v2.f0.u64_1;
    v5 = core__AnyInto__into_Command_CommandFields(&v6);
    v8.tag = v2.f1.tag;
    v8.bool_0 = v2.f1.bool_0;
    v8.u64_0 = v2.f1.u64_0;
    v8.u64_1 = v2.f1.u64_1;
    v7 = core__AnyInto__into_Output_OutputFields(&v8);
    result = c2_target_state__encode__state_with(a1, &v3, &v5, &v7);
    return result;
}

/* core::AnyInto::into_Target_State */
INLINED c2_target core__AnyInto__into_Target_State(const c2_target__Target *a1)
{
    c2_target result;
    c2_target__Target v2;
    v2.f0.tag = a1->f0.tag;
    v2.f0.u64_0 = a1->f0.u64_0;
    v2.f0.u64_1 = a1->f0.u64_1;
    v2.f0.c2_target__Effect_0.tag = a1->f0.c2_target__Effect_0.tag;
    v2.f0.c2_target__Effect_0.u64_0 = a1->f0.c2_target__Effect_0.u64_0;
    v2.f1 = a1->f1;
    v2.f2 = a1->f2;
    v2.f3.f0 = a1->f3.f0;
    v2.f3.f1 = a1->f3.f1;
    v2.f3.f2 = a1->f3.f2;
    v2.f3.f3.f0 = a1->f3.f3.f0;
    v2.f3.f3.f1 = a1->f3.f3.f1;
    v2.f3.f3.f2 = a1->f3.f3.f2;
    v2.f3.f3.f3 = a1->f3.f3.f3;
    v2.f3.f4.f0.tag = a1->f3.f4.f0.tag;
    v2.f3.f4.f0.u64_0 = a1->f3.f4.f0.u64_0;
    v2.f3.f4.f0.bool_0 = a1->f3.f4.f0.bool_0;
    v2.f3.f4.f0.u64_1 = a1->f3.f4.f0.u64_1;
    v2.f3.f4.f1.tag = a1->f3.f4.f1.tag;
    v2.f3.f4.f1.bool_0 = a1->f3.f4.f1.bool_0;
    v2.f3.f4.f1.u64_0 = a1->f3.f4.f1.u64_0;
    v2.f3.f4.f1.u64_1 = a1->f3.f4.f1.u64_1;
    v2.f3.f4.f2 = a1->f3.f4.f2;
    v2.f3.f4.f3 = a1->f3.f4.f3;
    result = c2_target_state__encode__StateFromTarget__from(&v2);
    return result;
}

/* core::convert::others::U32FromBool::from */
INLINED uint32_t core__convert__others__U32FromBool__from(_Bool a1)
{
    uint32_t result;
    result = (uint32_t)a1;
    return result;
}

/* core::AnyInto::into_bool_u32 */
INLINED uint32_t core__AnyInto__into_bool_u32(_Bool a1)
{
    uint32_t result;
    _Bool v2;
    v2 = a1;
    result = core__convert__others__U32FromBool__from(v2);
    return result;
}

/* c2_target_state::model::accepted */
static c2_replied c2_target_state__model__accepted(const c2_target *a1, uint8_t a2, _Bool a3,
    const c2_target__Target *a4)
{
    c2_replied result;
    c2_target v5;
    _Bool v6;
    c2_target v7;
    uint32_t v8;
    v6 = c2_target_state__model__is_inside(a1->point, a2);
    if (v6) {
        v7 = c2_target_state__encode__point_moved(a1, a4);
    } else {
        v7 = core__AnyInto__into_Target_State(a4);
    }
    v5.place = v7.place;
    v5.start = v7.start;
    v5.rest = v7.rest;
    v5.next = v7.next;
    v5.count = v7.count;
    v5.point = v7.point;
    v5.heard = v7.heard;
    v5.value = v7.value;
    v5.left = v7.left;
    v5.zeros = v7.zeros;
    v5.effect = v7.effect;
    v5.byte = v7.byte;
    v5.collision = v7.collision;
    v5.address = v7.address;
    v5.on = v7.on;
    v5.keys = v7.keys;
    v5.met1 = v7.met1;
    v5.met2 = v7.met2;
    v5.met3 = v7.met3;
    v5.met4 = v7.met4;
    v5.command = v7.command;
    v5.write = v7.write;
    v5.page = v7.page;
    v5.high = v7.high;
    v5.output = v7.output;
    v5.passed = v7.passed;
    v5.busy = v7.busy;
    v5.late = v7.late;
    v8 = core__AnyInto__into_bool_u32(a3);
    result.number = UINT32_C(0);
    result.reply = v8;
    result.target.place = v5.place;
    result.target.start = v5.start;
    result.target.rest = v5.rest;
    result.target.next = v5.next;
    result.target.count = v5.count;
    result.target.point = v5.point;
    result.target.heard = v5.heard;
    result.target.value = v5.value;
    result.target.left = v5.left;
    result.target.zeros = v5.zeros;
    result.target.effect = v5.effect;
    result.target.byte = v5.byte;
    result.target.collision = v5.collision;
    result.target.address = v5.address;
    result.target.on = v5.on;
    result.target.keys = v5.keys;
    result.target.met1 = v5.met1;
    result.target.met2 = v5.met2;
    result.target.met3 = v5.met3;
    result.target.met4 = v5.met4;
    result.target.command = v5.command;
    result.target.write = v5.write;
    result.target.page = v5.page;
    result.target.high = v5.high;
    result.target.output = v5.output;
    result.target.passed = v5.passed;
    result.target.busy = v5.busy;
    result.target.late = v5.late;
    return result;
}

/* numbers::U32FromRefusal::from */
static uint32_t numbers__U32FromRefusal__from(numbers__Refusal a1)
{
    uint32_t result;
    uint32_t v2;
    switch (a1) {
    case 0u:
        v2 = UINT32_C(1);
        break;
    case 1u:
        v2 = UINT32_C(2);
        break;
    case 2u:
        v2 = UINT32_C(3);
        break;
    case 3u:
        v2 = UINT32_C(4);
        break;
    case 4u:
        v2 = UINT32_C(5);
        break;
    case 5u:
        v2 = UINT32_C(6);
        break;
    case 6u:
        v2 = UINT32_C(7);
        break;
    case 7u:
        v2 = UINT32_C(8);
        break;
    case 8u:
        v2 = UINT32_C(16);
        break;
    case 9u:
        v2 = UINT32_C(17);
        break;
    case 10u:
        v2 = UINT32_C(18);
        break;
    case 11u:
        v2 = UINT32_C(19);
        break;
    case 12u:
        v2 = UINT32_C(20);
        break;
    case 13u:
        v2 = UINT32_C(21);
        break;
    case 14u:
        v2 = UINT32_C(22);
        break;
    case 15u:
        v2 = UINT32_C(23);
        break;
    case 16u:
        v2 = UINT32_C(24);
        break;
    case 17u:
        v2 = UINT32_C(25);
        break;
    case 18u:
        v2 = UINT32_C(26);
        break;
    case 19u:
        v2 = UINT32_C(28);
        break;
    case 20u:
        v2 = UINT32_C(29);
        break;
    case 21u:
        v2 = UINT32_C(30);
        break;
    default: /* 22 */
        v2 = UINT32_C(31);
        break;
    }
    result = v2;
    return result;
}

/* core::AnyInto::into_Refusal_u32 */
INLINED uint32_t core__AnyInto__into_Refusal_u32(numbers__Refusal a1)
{
    uint32_t result;
    numbers__Refusal v2;
    v2 = a1;
    result = numbers__U32FromRefusal__from(v2);
    return result;
}

/* c2_target_state::model::refused */
static c2_replied c2_target_state__model__refused(numbers__Refusal a1, const c2_target *a2)
{
    c2_replied result;
    uint32_t v3;
    v3 = core__AnyInto__into_Refusal_u32(a1);
    result.number = v3;
    result.reply = UINT32_C(1);
    result.target.place = a2->place;
    result.target.start = a2->start;
    result.target.rest = a2->rest;
    result.target.next = a2->next;
    result.target.count = a2->count;
    result.target.point = a2->point;
    result.target.heard = a2->heard;
    result.target.value = a2->value;
    result.target.left = a2->left;
    result.target.zeros = a2->zeros;
    result.target.effect = a2->effect;
    result.target.byte = a2->byte;
    result.target.collision = a2->collision;
    result.target.address = a2->address;
    result.target.on = a2->on;
    result.target.keys = a2->keys;
    result.target.met1 = a2->met1;
    result.target.met2 = a2->met2;
    result.target.met3 = a2->met3;
    result.target.met4 = a2->met4;
    result.target.command = a2->command;
    result.target.write = a2->write;
    result.target.page = a2->page;
    result.target.high = a2->high;
    result.target.output = a2->output;
    result.target.passed = a2->passed;
    result.target.busy = a2->busy;
    result.target.late = a2->late;
    return result;
}

/* c2_target_known::flash_size */
static uint64_t c2_target_known__flash_size(uint32_t a1, uint32_t a2)
{
    uint64_t result;
    uint64_t v3;
    uint64_t v4;
    v3 = (uint64_t)a1;
    v4 = (uint64_t)a2;
    result = v3 * v4;
    return result;
}

/* core::cmp::Ordering::is_le */
INLINED _Bool core__cmp__Ordering__is_le(core__cmp__Ordering a1)
{
    _Bool result;
    _Bool v2;
    switch (a1) {
    case 0u:
        v2 = 1;
        break;
    case 1u:
        v2 = 1;
        break;
    default: /* 2 */
        v2 = 0;
        break;
    }
    result = v2;
    return result;
}

/* core::cmp::numbers::UsizeOrd::cmp */
INLINED core__cmp__Ordering core__cmp__numbers__UsizeOrd__cmp(const uint64_t *a1, const uint64_t *a2)
{
    core__cmp__Ordering result;
    uint64_t v3;
    uint64_t v4;
    uint64_t v5;
    uint64_t v6;
    _Bool v7;
    core__cmp__Ordering v8;
    _Bool v9;
    core__cmp__Ordering v10;
    v5 = *a1;
    v6 = *a2;
    v3 = v5;
    v4 = v6;
    v7 = v3 == v4;
    if (v7) {
        v8 = 1u;
    } else {
        v9 = v3 < v4;
        if (v9) {
            v10 = 0u;
        } else {
            v10 = 2u;
        }
        v8 = v10;
    }
    result = v8;
    return result;
}

/* core::cmp::numbers::UsizePartialOrd::partial_cmp */
INLINED core__Option_Ordering core__cmp__numbers__UsizePartialOrd__partial_cmp(const uint64_t *a1,
    const uint64_t *a2)
{
    core__Option_Ordering result;
    core__cmp__Ordering v3;
    v3 = core__cmp__numbers__UsizeOrd__cmp(a1, a2);
    result.tag = 1u;
    result.core__cmp__Ordering_0 = v3;
    return result;
}

/* core::PartialOrd::le_u64 */
INLINED _Bool core__PartialOrd__le_u64(const uint64_t *a1, const uint64_t *a2)
{
    _Bool result;
    core__cmp__Ordering v3;
    core__Option_Ordering v4;
    _Bool v5;
    v4 = core__cmp__numbers__UsizePartialOrd__partial_cmp(a1, a2);
    switch (v4.tag) {
    case 1u:
        v3 = v4.core__cmp__Ordering_0;
        v5 = core__cmp__Ordering__is_le(v3);
        break;
    default: /* 0 */
        v5 = 0;
        break;
    }
    result = v5;
    return result;
}

/* core::cmp::Ordering::is_lt */
INLINED _Bool core__cmp__Ordering__is_lt(core__cmp__Ordering a1)
{
    _Bool result;
    _Bool v2;
    switch (a1) {
    case 0u:
        v2 = 1;
        break;
    case 1u:
        v2 = 0;
        break;
    default: /* 2 */
        v2 = 0;
        break;
    }
    result = v2;
    return result;
}

/* core::PartialOrd::lt_u64 */
INLINED _Bool core__PartialOrd__lt_u64(const uint64_t *a1, const uint64_t *a2)
{
    _Bool result;
    core__cmp__Ordering v3;
    core__Option_Ordering v4;
    _Bool v5;
    v4 = core__cmp__numbers__UsizePartialOrd__partial_cmp(a1, a2);
    switch (v4.tag) {
    case 1u:
        v3 = v4.core__cmp__Ordering_0;
        v5 = core__cmp__Ordering__is_lt(v3);
        break;
    default: /* 0 */
        v5 = 0;
        break;
    }
    result = v5;
    return result;
}

/* core::RangeInclusive::contains_u64 */
INLINED _Bool core__RangeInclusive__contains_u64(const core__RangeInclusive_u64 *a1, const uint64_t *a2)
{
    _Bool result;
    _Bool v3;
    const uint64_t *v4;
    _Bool v5;
    _Bool v6;
    const uint64_t *v7;
    const uint64_t *v8;
    v4 = &a1->f0;
    v3 = core__PartialOrd__le_u64(v4, a2);
    v5 = !v3;
    if (v5) {
        result = 0;
        return result;
    }
    v3 = a1->f2;
    if (v3) {
        v7 = &a1->f1;
        v6 = core__PartialOrd__lt_u64(a2, v7);
    } else {
        v8 = &a1->f1;
        v6 = core__PartialOrd__le_u64(a2, v8);
    }
    result = v6;
    return result;
}

/* core::RangeInclusive::new_u64 */
INLINED core__RangeInclusive_u64 core__RangeInclusive__new_u64(uint64_t a1, uint64_t a2)
{
    core__RangeInclusive_u64 result;
    uint64_t v3;
    uint64_t v4;
    v3 = a1;
    v4 = a2;
    result.f0 = v3;
    result.f1 = v4;
    result.f2 = 0;
    return result;
}

/* c2_target_known::is_count */
static _Bool c2_target_known__is_count(uint64_t a1)
{
    _Bool result;
    uint64_t v2;
    core__RangeInclusive_u64 v3;
    core__RangeInclusive_u64 v4;
    const core__RangeInclusive_u64 *v5;
    const uint64_t *v6;
    v2 = a1;
    v3 = core__RangeInclusive__new_u64(UINT64_C(1), UINT64_C(256));
    v4.f0 = v3.f0;
    v4.f1 = v3.f1;
    v4.f2 = v3.f2;
    v5 = &v4;
    v6 = &v2;
    result = core__RangeInclusive__contains_u64(v5, v6);
    return result;
}

/* c2_target_known::known_block */
static _Bool c2_target_known__known_block(uint64_t a1, uint64_t a2, uint64_t a3)
{
    _Bool result;
    _Bool v4;
    _Bool v5;
    uint64_t v6;
    v5 = c2_target_known__is_count(a3);
    if (v5) {
        v5 = a2 <= a1;
    }
    v4 = v5;
    if (v4) {
        v6 = a1 - a2;
        v4 = a3 <= v6;
    }
    result = v4;
    return result;
}

/* c2_target_known::known_command */
static _Bool c2_target_known__known_command(uint64_t a1, uint64_t a2, const c2_target__Command *a3)
{
    _Bool result;
    uint64_t v4;
    uint64_t v5;
    uint64_t v6;
    uint64_t v7;
    uint64_t v8;
    uint64_t v9;
    _Bool v10;
    switch (a3->tag) {
    case 0u:
    case 1u:
    case 3u:
        v10 = 1;
        break;
    case 2u:
        v4 = a3->u64_0;
        v10 = v4 < a1;
        break;
    case 4u:
        v5 = a3->u64_0;
        v10 = v5 < UINT64_C(256);
        break;
    case 5u:
        v6 = a3->u64_0;
        v10 = v6 < UINT64_C(65536);
        break;
    case 6u:
        v7 = a3->u64_0;
        v8 = a3->u64_1;
        v10 = c2_target_known__known_block(a2, v7, v8);
        break;
    default: /* 7 */
        v9 = a3->u64_0;
        v10 = c2_target_known__is_count(v9);
        break;
    }
    result = v10;
    return result;
}

/* c2_target_known::known_output */
static _Bool c2_target_known__known_output(uint64_t a1, const c2_target__Output *a2)
{
    _Bool result;
    uint64_t v3;
    uint64_t v4;
    _Bool v5;
    switch (a2->tag) {
    case 0u:
    case 1u:
        v5 = 1;
        goto end1;
    case 2u:
        v3 = a2->u64_0;
        v4 = a2->u64_1;
        goto end2;
    default: /* 3 */
        v3 = a2->u64_0;
        v4 = a2->u64_1;
        goto end2;
    }
    end2:;
    v5 = c2_target_known__known_block(a1, v3, v4);
    end1:;
    result = v5;
    return result;
}

/* c2_target_known::known_link */
static _Bool c2_target_known__known_link(uint64_t a1, uint64_t a2, const c2_target__Link *a3)
{
    _Bool result;
    _Bool v4;
    _Bool v5;
    _Bool v6;
    c2_target__Command v7;
    c2_target__Output v8;
    v7.tag = a3->f0.tag;
    v7.u64_0 = a3->f0.u64_0;
    v7.bool_0 = a3->f0.bool_0;
    v7.u64_1 = a3->f0.u64_1;
    v6 = c2_target_known__known_command(a1, a2, &v7);
    if (v6) {
        v8.tag = a3->f1.tag;
        v8.bool_0 = a3->f1.bool_0;
        v8.u64_0 = a3->f1.u64_0;
        v8.u64_1 = a3->f1.u64_1;
        v6 = c2_target_known__known_output(a2, &v8);
    }
    v5 = v6;
    if (v5) {
        v5 = a3->f2 < UINT64_C(256);
    }
    v4 = v5;
    if (v4) {
        v4 = a3->f3 < UINT64_C(256);
    }
    result = v4;
    return result;
}

/* c2_target_known::after_its_wait */
static _Bool c2_target_known__after_its_wait(uint64_t a1, const c2_target__Effect *a2)
{
    _Bool result;
    uint64_t v3;
    _Bool v4;
    _Bool v5;
    _Bool v6;
    switch (a2->tag) {
    case 0u:
        switch (a1) {
        case 0u:
        case 16u:
        case 24u:
        case 32u:
            v5 = 1;
            break;
        default:
            v5 = 0;
            break;
        }
        v4 = v5;
        break;
    case 2u:
        v3 = a2->u64_0;
        v6 = a1 == UINT64_C(0);
        if (v6) {
            v6 = v3 < UINT64_C(256);
        }
        v4 = v6;
        break;
    case 4u:
        v4 = a1 == UINT64_C(8);
        break;
    default: /* 1, 3 */
        v4 = 0;
        break;
    }
    result = v4;
    return result;
}

/* c2_target_known::hearing */
static _Bool c2_target_known__hearing(uint64_t a1, uint64_t a2, uint64_t a3)
{
    _Bool result;
    _Bool v4;
    uint64_t v5;
    v4 = a2 < a1;
    if (v4) {
        v5 = UINT64_C(1) << a2;
        v4 = a3 < v5;
    }
    result = v4;
    return result;
}

/* c2_target_known::is_sent */
static _Bool c2_target_known__is_sent(uint64_t a1, uint64_t a2, const c2_target__Effect *a3)
{
    _Bool result;
    _Bool v4;
    _Bool v5;
    _Bool v6;
    uint64_t v7;
    switch (a3->tag) {
    case 0u:
        v5 = a1 <= UINT64_C(32);
        if (v5) {
            v5 = a2 == UINT64_C(0);
        }
        v4 = v5;
        break;
    case 3u:
    case 4u:
        v6 = a1 <= UINT64_C(8);
        if (v6) {
            v7 = UINT64_C(1) << a1;
            v6 = a2 < v7;
        }
        v4 = v6;
        break;
    default: /* 1, 2 */
        v4 = 0;
        break;
    }
    result = v4;
    return result;
}

/* c2_target_known::known_effect */
static _Bool c2_target_known__known_effect(const c2_target__Effect *a1)
{
    _Bool result;
    uint64_t v2;
    _Bool v3;
    switch (a1->tag) {
    case 1u:
        v2 = a1->u64_0;
        goto end2;
    case 2u:
        v2 = a1->u64_0;
        goto end2;
    default: /* 0, 3, 4 */
        v3 = 1;
        goto end1;
    }
    end2:;
    v3 = v2 < UINT64_C(256);
    end1:;
    result = v3;
    return result;
}

/* core::int::usize::saturating_sub */
INLINED uint64_t core__int__usize__saturating_sub(uint64_t a1, uint64_t a2)
{
    uint64_t result;
    _Bool v3;
    uint64_t v4;
    v3 = a2 <= a1;
    if (v3) {
        v4 = a1 - a2;
    } else {
        v4 = UINT64_C(0);
    }
    result = v4;
    return result;
}

/* c2_target_known::known_point */
static _Bool c2_target_known__known_point(uint64_t a1, const c2_target__Point *a2)
{
    _Bool result;
    uint64_t v3;
    uint64_t v4;
    uint64_t v5;
    uint64_t v6;
    uint64_t v7;
    uint64_t v8;
    c2_target__Effect v9;
    uint64_t v10;
    uint64_t v11;
    c2_target__Effect v12;
    uint64_t v13;
    uint64_t v14;
    c2_target__Effect v15;
    c2_target__Effect v16;
    _Bool v17;
    core__RangeInclusive_u64 v18;
    core__RangeInclusive_u64 v19;
    const core__RangeInclusive_u64 *v20;
    const uint64_t *v21;
    _Bool v22;
    uint64_t v23;
    _Bool v24;
    switch (a2->tag) {
    case 0u:
        v17 = 1;
        goto end1;
    case 1u:
        v3 = a2->u64_0;
        v4 = a2->u64_1;
        goto end2;
    case 2u:
        v3 = a2->u64_0;
        v4 = a2->u64_1;
        goto end2;
    case 3u:
        v3 = a2->u64_0;
        v4 = a2->u64_1;
        goto end2;
    case 4u:
        v5 = a2->u64_0;
        v6 = a2->u64_1;
        goto end3;
    case 5u:
        v5 = a2->u64_0;
        v6 = a2->u64_1;
        goto end3;
    case 6u:
        v7 = a2->u64_0;
        v18 = core__RangeInclusive__new_u64(UINT64_C(1), UINT64_C(32));
        v19.f0 = v18.f0;
        v19.f1 = v18.f1;
        v19.f2 = v18.f2;
        v20 = &v19;
        v21 = &v7;
        v17 = core__RangeInclusive__contains_u64(v20, v21);
        goto end1;
    case 7u:
        v8 = a2->u64_0;
        v9.tag = a2->c2_target__Effect_0.tag;
        v9.u64_0 = a2->c2_target__Effect_0.u64_0;
        v17 = c2_target_known__after_its_wait(v8, &v9);
        goto end1;
    case 8u:
        v10 = a2->u64_0;
        v11 = a2->u64_1;
        v12.tag = a2->c2_target__Effect_0.tag;
        v12.u64_0 = a2->c2_target__Effect_0.u64_0;
        v23 = core__int__usize__saturating_sub(a1, UINT64_C(1));
        v22 = v10 < v23;
        if (v22) {
            v22 = c2_target_known__after_its_wait(v11, &v12);
        }
        v17 = v22;
        goto end1;
    case 9u:
        v13 = a2->u64_0;
        v14 = a2->u64_1;
        v15.tag = a2->c2_target__Effect_0.tag;
        v15.u64_0 = a2->c2_target__Effect_0.u64_0;
        v24 = UINT64_C(1) <= v13;
        if (v24) {
            v24 = c2_target_known__is_sent(v13, v14, &v15);
        }
        v17 = v24;
        goto end1;
    default: /* 10 */
        v16.tag = a2->c2_target__Effect_0.tag;
        v16.u64_0 = a2->c2_target__Effect_0.u64_0;
        v17 = c2_target_known__known_effect(&v16);
        goto end1;
    }
    end3:;
    v17 = c2_target_known__hearing(UINT64_C(8), v5, v6);
    goto end1;
    end2:;
    v17 = c2_target_known__hearing(UINT64_C(2), v3, v4);
    end1:;
    result = v17;
    return result;
}

/* c2_target_known::most_keys */
static uint64_t c2_target_known__most_keys(const c2_target__Point *a1)
{
    uint64_t result;
    uint64_t v2;
    switch (a1->tag) {
    case 0u:
        v2 = UINT64_C(3);
        break;
    default: /* 1, 2, 3, 4, 5, 6, 7, 8, 9, 10 */
        v2 = UINT64_C(2);
        break;
    }
    result = v2;
    return result;
}

/* c2_target_known::known */
static _Bool c2_target_known__known(const c2_settings *a1, const c2_target__Target *a2, slice_u8 a3)
{
    _Bool result;
    c2_target__Device v4;
    _Bool v5;
    _Bool v6;
    _Bool v7;
    _Bool v8;
    uint64_t v9;
    uint64_t v10;
    uint64_t v11;
    c2_target__Point v12;
    uint64_t v13;
    c2_target__Point v14;
    uint64_t v15;
    uint64_t v16;
    c2_target__Link v17;
    v4.f0 = a2->f3.f0;
    v4.f1 = a2->f3.f1;
    v4.f2 = a2->f3.f2;
    v4.f3.f0 = a2->f3.f3.f0;
    v4.f3.f1 = a2->f3.f3.f1;
    v4.f3.f2 = a2->f3.f3.f2;
    v4.f3.f3 = a2->f3.f3.f3;
    v4.f4.f0.tag = a2->f3.f4.f0.tag;
    v4.f4.f0.u64_0 = a2->f3.f4.f0.u64_0;
    v4.f4.f0.bool_0 = a2->f3.f4.f0.bool_0;
    v4.f4.f0.u64_1 = a2->f3.f4.f0.u64_1;
    v4.f4.f1.tag = a2->f3.f4.f1.tag;
    v4.f4.f1.bool_0 = a2->f3.f4.f1.bool_0;
    v4.f4.f1.u64_0 = a2->f3.f4.f1.u64_0;
    v4.f4.f1.u64_1 = a2->f3.f4.f1.u64_1;
    v4.f4.f2 = a2->f3.f4.f2;
    v4.f4.f3 = a2->f3.f4.f3;
    v9 = a3.length;
    v10 = c2_target_known__flash_size(a1->page_size, a1->page_count);
    v8 = v9 == v10;
    if (v8) {
        v11 = core__convert__UsizeFromU8__from(a1->wait_limit);
        v12.tag = a2->f0.tag;
        v12.u64_0 = a2->f0.u64_0;
        v12.u64_1 = a2->f0.u64_1;
        v12.c2_target__Effect_0.tag = a2->f0.c2_target__Effect_0.tag;
        v12.c2_target__Effect_0.u64_0 = a2->f0.c2_target__Effect_0.u64_0;
        v8 = c2_target_known__known_point(v11, &v12);
    }
    v7 = v8;
    if (v7) {
        v14.tag = a2->f0.tag;
        v14.u64_0 = a2->f0.u64_0;
        v14.u64_1 = a2->f0.u64_1;
        v14.c2_target__Effect_0.tag = a2->f0.c2_target__Effect_0.tag;
        v14.c2_target__Effect_0.u64_0 = a2->f0.c2_target__Effect_0.u64_0;
        v13 = c2_target_known__most_keys(&v14);
        v7 = v4.f2 <= v13;
    }
    v6 = v7;
    if (v6) {
        v6 = v4.f0 < UINT64_C(256);
    }
    v5 = v6;
    if (v5) {
        v15 = (uint64_t)a1->page_count;
        v16 = a3.length;
        v17.f0.tag = v4.f4.f0.tag;
        v17.f0.u64_0 = v4.f4.f0.u64_0;
        v17.f0.bool_0 = v4.f4.f0.bool_0;
        v17.f0.u64_1 = v4.f4.f0.u64_1;
        v17.f1.tag = v4.f4.f1.tag;
        v17.f1.bool_0 = v4.f4.f1.bool_0;
        v17.f1.u64_0 = v4.f4.f1.u64_0;
        v17.f1.u64_1 = v4.f4.f1.u64_1;
        v17.f2 = v4.f4.f2;
        v17.f3 = v4.f4.f3;
        v5 = c2_target_known__known_link(v15, v16, &v17);
    }
    result = v5;
    return result;
}

/* c2_target_step::steps::is_step */
static _Bool c2_target_step__steps__is_step(uint8_t a1)
{
    _Bool result;
    _Bool v2;
    v2 = a1 <= 6u;
    if (v2) {
        v2 = a1 != 1u;
    }
    result = v2;
    return result;
}

/* core::AnyFrom::from_Refusal */
INLINED numbers__Refusal core__AnyFrom__from_Refusal(numbers__Refusal a1)
{
    numbers__Refusal result;
    result = a1;
    return result;
}

/* core::ResultFromResidualErrResidual::from_residua_45a805 */
INLINED core__Result_unit_Refusal core__ResultFromResidualErrResidual__from_residua_45a805(
    const core__ErrResidual_Refusal *a1)
{
    core__Result_unit_Refusal result;
    numbers__Refusal v2;
    numbers__Refusal v3;
    v3 = a1->f0;
    v2 = core__AnyFrom__from_Refusal(v3);
    result.tag = 1u;
    result.numbers__Refusal_0 = v2;
    return result;
}

/* core::ResultTry::branch_unit_Refusal */
INLINED core__ControlFlow_ErrResidual_Refusal_unit core__ResultTry__branch_unit_Refusal(
    const core__Result_unit_Refusal *a1)
{
    core__ControlFlow_ErrResidual_Refusal_unit result;
    numbers__Refusal v3;
    core__ControlFlow_ErrResidual_Refusal_unit v4;
    numbers__Refusal v6;
    core__ErrResidual_Refusal v7;
    switch (a1->tag) {
    case 0u:
        v4.tag = 0u;
        v4.core__ErrResidual_Refusal_0.f0 = 0;
        break;
    default: /* 1 */
        v3 = a1->numbers__Refusal_0;
        v6 = v3;
        v7.f0 = v6;
        v4.tag = 1u;
        v4.core__ErrResidual_Refusal_0.f0 = v7.f0;
        break;
    }
    result.tag = v4.tag;
    result.core__ErrResidual_Refusal_0.f0 = v4.core__ErrResidual_Refusal_0.f0;
    return result;
}

/* core::slice_T::is_empty_u8 */
INLINED _Bool core__slice_T__is_empty_u8(slice_u8 a1)
{
    _Bool result;
    uint64_t v2;
    v2 = a1.length;
    result = v2 == UINT64_C(0);
    return result;
}

/* core::IterIterator::next_u8 */
INLINED core__Option_ref_u8 core__IterIterator__next_u8(core__Iter_u8 *a1)
{
    core__Option_ref_u8 result;
    slice_u8 v2;
    _Bool v3;
    uint64_t v4;
    const uint8_t *v5;
    uint64_t v6;
    const uint8_t *v7;
    slice_u8 v8;
    const uint8_t *v9;
    const uint8_t *v10;
    v2.at = a1->f0.at;
    v2.length = a1->f0.length;
    v3 = core__slice_T__is_empty_u8(v2);
    if (v3) {
        result.tag = 0u;
        result.ref_u8_0 = 0;
        return result;
    }
    v4 = UINT64_C(1);
    v5 = v2.at + (size_t)v4;
    v6 = v2.length - UINT64_C(1);
    v7 = v5;
    v8.at = v7;
    v8.length = v6;
    a1->f0.at = v8.at;
    a1->f0.length = v8.length;
    v4 = UINT64_C(0);
    v9 = v2.at + (size_t)v4;
    v10 = v9;
    result.tag = 1u;
    result.ref_u8_0 = v10;
    return result;
}

/* settings::registers::fn::are_registers::all */
INLINED _Bool settings__registers__fn__are_registers__all(settings__all_Self_ref_u8 *a1, const uint8_t *a2)
{
    _Bool result;
    const uint8_t *v3;
    _Bool v4;
    uint8_t v5;
    uint8_t v6;
    uint8_t v7;
    v3 = a1->f0;
    v5 = *a2;
    v4 = 3u <= v5;
    if (v4) {
        v6 = *a2;
        v7 = *v3;
        v4 = v6 != v7;
    }
    result = v4;
    return result;
}

/* settings::registers::fn::are_registers::all_FnMut::call_mut */
INLINED _Bool settings__registers__fn__are_registers__all_FnMut__call_mut(settings__all_Self_ref_u8 *a1,
    const uint8_t *a2)
{
    _Bool result;
    settings__all_Self_ref_u8 *v3;
    v3 = a1;
    result = settings__registers__fn__are_registers__all(v3, a2);
    return result;
}

/* core::Iterator::all_Iter_u8_ref_u8_are_registers_f5c56d */
INLINED _Bool core__Iterator__all_Iter_u8_ref_u8_are_registers_f5c56d(core__Iter_u8 *a1,
    const settings__all_Self_ref_u8 *a2)
{
    _Bool result;
    settings__all_Self_ref_u8 v3;
    const uint8_t *v4;
    core__Option_ref_u8 v5;
    core__Iter_u8 *v6;
    _Bool v7;
    settings__all_Self_ref_u8 *v8;
    const uint8_t *v9;
    _Bool v10;
    v3.f0 = a2->f0;
    for (;;) {
        v6 = a1;
        v5 = core__IterIterator__next_u8(v6);
        switch (v5.tag) {
        case 1u:
            v4 = v5.ref_u8_0;
            v8 = &v3;
            v9 = v4;
            v7 = settings__registers__fn__are_registers__all_FnMut__call_mut(v8, v9);
            v10 = !v7;
            if (v10) {
                result = 0;
                return result;
            }
            break;
        default: /* 0 */
            goto end1;
        }
    }
    end1:;
    result = 1;
    return result;
}

/* core::slice_T::iter_u8 */
INLINED core__Iter_u8 core__slice_T__iter_u8(slice_u8 a1)
{
    core__Iter_u8 result;
    result.f0.at = a1.at;
    result.f0.length = a1.length;
    return result;
}

/* settings::registers::are_registers */
static _Bool settings__registers__are_registers(uint8_t a1, slice_u8 a2)
{
    _Bool result;
    uint8_t v3;
    core__Iter_u8 v4;
    core__Iter_u8 v5;
    core__Iter_u8 *v6;
    const uint8_t *v7;
    settings__all_Self_ref_u8 v8;
    v3 = a1;
    v4 = core__slice_T__iter_u8(a2);
    v5.f0.at = v4.f0.at;
    v5.f0.length = v4.f0.length;
    v6 = &v5;
    v7 = &v3;
    v8.f0 = v7;
    result = core__Iterator__all_Iter_u8_ref_u8_are_registers_f5c56d(v6, &v8);
    return result;
}

/* settings::registers::entries_fit */
static _Bool settings__registers__entries_fit(uint8_t a1, const c2_pairs *a2)
{
    _Bool result;
    c2_pairs v3;
    uint64_t v4;
    uint8_t v5;
    _Bool v6;
    const uint8_t *v7;
    slice_u8 v8;
    v3.count = a2->count;
    v3.registers[0] = a2->registers[0];
    v3.registers[1] = a2->registers[1];
    v3.registers[2] = a2->registers[2];
    v3.registers[3] = a2->registers[3];
    v3.values[0] = a2->values[0];
    v3.values[1] = a2->values[1];
    v3.values[2] = a2->values[2];
    v3.values[3] = a2->values[3];
    v5 = v3.count;
    v4 = core__convert__UsizeFromU8__from(v5);
    v6 = v4 <= UINT64_C(4);
    if (v6) {
        v7 = v3.registers;
        v8.at = v7;
        v8.length = v4;
        v6 = settings__registers__are_registers(a1, v8);
    }
    result = v6;
    return result;
}

/* settings::registers::are_pairs */
static _Bool settings__registers__are_pairs(uint8_t a1, const c2_pairs *a2)
{
    _Bool result;
    _Bool v3;
    v3 = a2->count == 0u;
    if (!v3) {
        v3 = settings__registers__entries_fit(a1, a2);
    }
    result = v3;
    return result;
}

/* settings::accepted::wait_refusal */
static core__Result_unit_Refusal settings__accepted__wait_refusal(const c2_settings *a1)
{
    core__Result_unit_Refusal result;
    _Bool v2;
    numbers__Refusal v3;
    c2_pairs v4;
    _Bool v5;
    numbers__Refusal v6;
    v2 = a1->wait_limit == 0u;
    if (v2) {
        v3 = 10u;
        result.tag = 1u;
        result.numbers__Refusal_0 = v3;
        return result;
    }
    v4.count = a1->pairs.count;
    v4.registers[0] = a1->pairs.registers[0];
    v4.registers[1] = a1->pairs.registers[1];
    v4.registers[2] = a1->pairs.registers[2];
    v4.registers[3] = a1->pairs.registers[3];
    v4.values[0] = a1->pairs.values[0];
    v4.values[1] = a1->pairs.values[1];
    v4.values[2] = a1->pairs.values[2];
    v4.values[3] = a1->pairs.values[3];
    v2 = settings__registers__are_pairs(a1->fpdat, &v4);
    v5 = !v2;
    if (v5) {
        v6 = 11u;
        result.tag = 1u;
        result.numbers__Refusal_0 = v6;
        return result;
    }
    result.tag = 0u;
    result.numbers__Refusal_0 = 0;
    return result;
}

/* settings::accepted::count_refusal */
static core__Result_unit_Refusal settings__accepted__count_refusal(const c2_settings *a1, uint32_t a2)
{
    core__Result_unit_Refusal result;
    _Bool v3;
    _Bool v4;
    numbers__Refusal v5;
    v3 = a1->page_count == UINT32_C(0);
    if (!v3) {
        v3 = a2 < a1->page_count;
        v4 = v3;
        if (!v4) {
            goto end2;
        }
    }
    v5 = 2u;
    result.tag = 1u;
    result.numbers__Refusal_0 = v5;
    return result;
    goto end1;
    end2:;
    end1:;
    result = settings__accepted__wait_refusal(a1);
    return result;
}

/* settings::accepted::refusal */
static core__Result_unit_Refusal settings__accepted__refusal(const c2_settings *a1)
{
    core__Result_unit_Refusal result;
    _Bool v2;
    numbers__Refusal v3;
    core__Result_unit_Refusal v4;
    numbers__Refusal v5;
    v2 = a1->fpdat < 3u;
    if (v2) {
        v3 = 0u;
        result.tag = 1u;
        result.numbers__Refusal_0 = v3;
        return result;
    }
    switch (a1->page_size) {
    case 512u:
        v4 = settings__accepted__count_refusal(a1, UINT32_C(128));
        break;
    case 1024u:
        v4 = settings__accepted__count_refusal(a1, UINT32_C(64));
        break;
    default:
        v5 = 1u;
        v4.tag = 1u;
        v4.numbers__Refusal_0 = v5;
        break;
    }
    result.tag = v4.tag;
    result.numbers__Refusal_0 = v4.numbers__Refusal_0;
    return result;
}

/* c2_target_wanted::setup_refusal */
static core__Result_unit_Refusal c2_target_wanted__setup_refusal(const c2_settings *a1, const c2_pairs *a2)
{
    core__Result_unit_Refusal result;
    core__ErrResidual_Refusal v4;
    core__ControlFlow_ErrResidual_Refusal_unit v5;
    core__Result_unit_Refusal v6;
    _Bool v7;
    core__Result_unit_Refusal v8;
    numbers__Refusal v9;
    v6 = settings__accepted__refusal(a1);
    v5 = core__ResultTry__branch_unit_Refusal(&v6);
    switch (v5.tag) {
    case 0u:
        break;
    default: /* 1 */
        v4.f0 = v5.core__ErrResidual_Refusal_0.f0;
        result = core__ResultFromResidualErrResidual__from_residua_45a805(&v4);
        return result;
    }
    v7 = settings__registers__are_pairs(a1->fpdat, a2);
    if (v7) {
        v8.tag = 0u;
        v8.numbers__Refusal_0 = 0;
    } else {
        v9 = 11u;
        v8.tag = 1u;
        v8.numbers__Refusal_0 = v9;
    }
    result.tag = v8.tag;
    result.numbers__Refusal_0 = v8.numbers__Refusal_0;
    return result;
}

/* c2_target_step::steps::refusal */
static core__Result_unit_Refusal c2_target_step__steps__refusal(const c2_settings *a1, const c2_pairs *a2,
    const c2_target__Target *a3, slice_u8 a4, uint8_t a5)
{
    core__Result_unit_Refusal result;
    core__ErrResidual_Refusal v7;
    core__ControlFlow_ErrResidual_Refusal_unit v8;
    core__Result_unit_Refusal v9;
    _Bool v10;
    _Bool v11;
    core__Result_unit_Refusal v12;
    numbers__Refusal v13;
    _Bool v14;
    _Bool v15;
    core__Result_unit_Refusal v16;
    numbers__Refusal v17;
    v9 = c2_target_wanted__setup_refusal(a1, a2);
    v8 = core__ResultTry__branch_unit_Refusal(&v9);
    switch (v8.tag) {
    case 0u:
        break;
    default: /* 1 */
        v7.f0 = v8.core__ErrResidual_Refusal_0.f0;
        result = core__ResultFromResidualErrResidual__from_residua_45a805(&v7);
        return result;
    }
    v10 = c2_target_known__known(a1, a3, a4);
    v11 = !v10;
    if (v11) {
        v13 = 9u;
        v12.tag = 1u;
        v12.numbers__Refusal_0 = v13;
    } else {
        v14 = c2_target_step__steps__is_step(a5);
        v15 = !v14;
        if (v15) {
            v17 = 8u;
            v16.tag = 1u;
            v16.numbers__Refusal_0 = v17;
        } else {
            v16.tag = 0u;
            v16.numbers__Refusal_0 = 0;
        }
        v12.tag = v16.tag;
        v12.numbers__Refusal_0 = v16.numbers__Refusal_0;
    }
    result.tag = v12.tag;
    result.numbers__Refusal_0 = v12.numbers__Refusal_0;
    return result;
}

/* c2_target_step::steps::after_pause */
static c2_target__Target c2_target_step__steps__after_pause(const c2_target__Target *a1)
{
    c2_target__Target result;
    _Bool v2;
    _Bool v3;
    uint64_t v4;
    uint64_t v5;
    c2_target__Met v6;
    c2_target__Link v7;
    c2_target__Device v8;
    c2_target__Point v9;
    uint64_t v10;
    _Bool v11;
    v3 = a1->f3.f2 == UINT64_C(3);
    if (!v3) {
        v3 = a1->f3.f1;
    }
    v2 = v3;
    v4 = a1->f3.f0;
    v5 = a1->f3.f2;
    v6.f0 = a1->f3.f3.f0;
    v6.f1 = a1->f3.f3.f1;
    v6.f2 = a1->f3.f3.f2;
    v6.f3 = a1->f3.f3.f3;
    v7.f0.tag = a1->f3.f4.f0.tag;
    v7.f0.u64_0 = a1->f3.f4.f0.u64_0;
    v7.f0.bool_0 = a1->f3.f4.f0.bool_0;
    v7.f0.u64_1 = a1->f3.f4.f0.u64_1;
    v7.f1.tag = a1->f3.f4.f1.tag;
    v7.f1.bool_0 = a1->f3.f4.f1.bool_0;
    v7.f1.u64_0 = a1->f3.f4.f1.u64_0;
    v7.f1.u64_1 = a1->f3.f4.f1.u64_1;
    v7.f2 = a1->f3.f4.f2;
    v7.f3 = a1->f3.f4.f3;
    v8.f0 = v4;
    v8.f1 = v2;
    v8.f2 = v5;
    v8.f3.f0 = v6.f0;
    v8.f3.f1 = v6.f1;
    v8.f3.f2 = v6.f2;
    v8.f3.f3 = v6.f3;
    v8.f4.f0.tag = v7.f0.tag;
    v8.f4.f0.u64_0 = v7.f0.u64_0;
    v8.f4.f0.bool_0 = v7.f0.bool_0;
    v8.f4.f0.u64_1 = v7.f0.u64_1;
    v8.f4.f1.tag = v7.f1.tag;
    v8.f4.f1.bool_0 = v7.f1.bool_0;
    v8.f4.f1.u64_0 = v7.f1.u64_0;
    v8.f4.f1.u64_1 = v7.f1.u64_1;
    v8.f4.f2 = v7.f2;
    v8.f4.f3 = v7.f3;
    v9.tag = a1->f0.tag;
    v9.u64_0 = a1->f0.u64_0;
    v9.u64_1 = a1->f0.u64_1;
    v9.c2_target__Effect_0.tag = a1->f0.c2_target__Effect_0.tag;
    v9.c2_target__Effect_0.u64_0 = a1->f0.c2_target__Effect_0.u64_0;
    v10 = a1->f1;
    v11 = a1->f2;
    result.f0.tag = v9.tag;
    result.f0.u64_0 = v9.u64_0;
    result.f0.u64_1 = v9.u64_1;
    result.f0.c2_target__Effect_0.tag = v9.c2_target__Effect_0.tag;
    result.f0.c2_target__Effect_0.u64_0 = v9.c2_target__Effect_0.u64_0;
    result.f1 = v10;
    result.f2 = v11;
    result.f3.f0 = v8.f0;
    result.f3.f1 = v8.f1;
    result.f3.f2 = v8.f2;
    result.f3.f3.f0 = v8.f3.f0;
    result.f3.f3.f1 = v8.f3.f1;
    result.f3.f3.f2 = v8.f3.f2;
    result.f3.f3.f3 = v8.f3.f3;
    result.f3.f4.f0.tag = v8.f4.f0.tag;
    result.f3.f4.f0.u64_0 = v8.f4.f0.u64_0;
    result.f3.f4.f0.bool_0 = v8.f4.f0.bool_0;
    result.f3.f4.f0.u64_1 = v8.f4.f0.u64_1;
    result.f3.f4.f1.tag = v8.f4.f1.tag;
    result.f3.f4.f1.bool_0 = v8.f4.f1.bool_0;
    result.f3.f4.f1.u64_0 = v8.f4.f1.u64_0;
    result.f3.f4.f1.u64_1 = v8.f4.f1.u64_1;
    result.f3.f4.f2 = v8.f4.f2;
    result.f3.f4.f3 = v8.f4.f3;
    return result;
}

/* c2_target_step::interface::idle */
static c2_target__Target c2_target_step__interface__idle(const c2_target__Target *a1, uint64_t a2,
    const c2_target__Device *a3)
{
    c2_target__Target result;
    c2_target__Point v4;
    _Bool v5;
    v4.tag = 0u;
    v4.u64_0 = 0;
    v4.u64_1 = 0;
    v4.c2_target__Effect_0.tag = 0;
    v4.c2_target__Effect_0.u64_0 = 0;
    v5 = a1->f2;
    result.f0.tag = v4.tag;
    result.f0.u64_0 = v4.u64_0;
    result.f0.u64_1 = v4.u64_1;
    result.f0.c2_target__Effect_0.tag = v4.c2_target__Effect_0.tag;
    result.f0.c2_target__Effect_0.u64_0 = v4.c2_target__Effect_0.u64_0;
    result.f1 = a2;
    result.f2 = v5;
    result.f3.f0 = a3->f0;
    result.f3.f1 = a3->f1;
    result.f3.f2 = a3->f2;
    result.f3.f3.f0 = a3->f3.f0;
    result.f3.f3.f1 = a3->f3.f1;
    result.f3.f3.f2 = a3->f3.f2;
    result.f3.f3.f3 = a3->f3.f3;
    result.f3.f4.f0.tag = a3->f4.f0.tag;
    result.f3.f4.f0.u64_0 = a3->f4.f0.u64_0;
    result.f3.f4.f0.bool_0 = a3->f4.f0.bool_0;
    result.f3.f4.f0.u64_1 = a3->f4.f0.u64_1;
    result.f3.f4.f1.tag = a3->f4.f1.tag;
    result.f3.f4.f1.bool_0 = a3->f4.f1.bool_0;
    result.f3.f4.f1.u64_0 = a3->f4.f1.u64_0;
    result.f3.f4.f1.u64_1 = a3->f4.f1.u64_1;
    result.f3.f4.f2 = a3->f4.f2;
    result.f3.f4.f3 = a3->f4.f3;
    return result;
}

/* c2_target_step::steps::cleared */
static c2_target__Device c2_target_step__steps__cleared(void)
{
    c2_target__Device result;
    c2_target__Met v1;
    c2_target__Command v2;
    c2_target__Output v3;
    c2_target__Link v4;
    v1.f0 = 0;
    v1.f1 = 0;
    v1.f2 = 0;
    v1.f3 = 0;
    v2.tag = 0u;
    v2.u64_0 = 0;
    v2.bool_0 = 0;
    v2.u64_1 = 0;
    v3.tag = 0u;
    v3.bool_0 = 0;
    v3.u64_0 = 0;
    v3.u64_1 = 0;
    v4.f0.tag = v2.tag;
    v4.f0.u64_0 = v2.u64_0;
    v4.f0.bool_0 = v2.bool_0;
    v4.f0.u64_1 = v2.u64_1;
    v4.f1.tag = v3.tag;
    v4.f1.bool_0 = v3.bool_0;
    v4.f1.u64_0 = v3.u64_0;
    v4.f1.u64_1 = v3.u64_1;
    v4.f2 = UINT64_C(0);
    v4.f3 = UINT64_C(0);
    result.f0 = UINT64_C(0);
    result.f1 = 0;
    result.f2 = UINT64_C(0);
    result.f3.f0 = v1.f0;
    result.f3.f1 = v1.f1;
    result.f3.f2 = v1.f2;
    result.f3.f3 = v1.f3;
    result.f4.f0.tag = v4.f0.tag;
    result.f4.f0.u64_0 = v4.f0.u64_0;
    result.f4.f0.bool_0 = v4.f0.bool_0;
    result.f4.f0.u64_1 = v4.f0.u64_1;
    result.f4.f1.tag = v4.f1.tag;
    result.f4.f1.bool_0 = v4.f1.bool_0;
    result.f4.f1.u64_0 = v4.f1.u64_0;
    result.f4.f1.u64_1 = v4.f1.u64_1;
    result.f4.f2 = v4.f2;
    result.f4.f3 = v4.f3;
    return result;
}

/* c2_target_step::steps::after_reset */
static c2_target__Target c2_target_step__steps__after_reset(const c2_target__Target *a1)
{
    c2_target__Target result;
    c2_target__Device v2;
    v2 = c2_target_step__steps__cleared();
    result = c2_target_step__interface__idle(a1, a1->f1, &v2);
    return result;
}

/* c2_target_step::steps::still */
static c2_target__Turned c2_target_step__steps__still(const c2_target__Target *a1, uint8_t a2)
{
    c2_target__Turned result;
    c2_target__Target v3;
    c2_target__Target v4;
    switch (a2) {
    case 4u:
        v4 = c2_target_step__steps__after_reset(a1);
        break;
    case 5u:
        v4 = c2_target_step__steps__after_pause(a1);
        break;
    default:
        v4.f0.tag = a1->f0.tag;
        v4.f0.u64_0 = a1->f0.u64_0;
        v4.f0.u64_1 = a1->f0.u64_1;
        v4.f0.c2_target__Effect_0.tag = a1->f0.c2_target__Effect_0.tag;
        v4.f0.c2_target__Effect_0.u64_0 = a1->f0.c2_target__Effect_0.u64_0;
        v4.f1 = a1->f1;
        v4.f2 = a1->f2;
        v4.f3.f0 = a1->f3.f0;
        v4.f3.f1 = a1->f3.f1;
        v4.f3.f2 = a1->f3.f2;
        v4.f3.f3.f0 = a1->f3.f3.f0;
        v4.f3.f3.f1 = a1->f3.f3.f1;
        v4.f3.f3.f2 = a1->f3.f3.f2;
        v4.f3.f3.f3 = a1->f3.f3.f3;
        v4.f3.f4.f0.tag = a1->f3.f4.f0.tag;
        v4.f3.f4.f0.u64_0 = a1->f3.f4.f0.u64_0;
        v4.f3.f4.f0.bool_0 = a1->f3.f4.f0.bool_0;
        v4.f3.f4.f0.u64_1 = a1->f3.f4.f0.u64_1;
        v4.f3.f4.f1.tag = a1->f3.f4.f1.tag;
        v4.f3.f4.f1.bool_0 = a1->f3.f4.f1.bool_0;
        v4.f3.f4.f1.u64_0 = a1->f3.f4.f1.u64_0;
        v4.f3.f4.f1.u64_1 = a1->f3.f4.f1.u64_1;
        v4.f3.f4.f2 = a1->f3.f4.f2;
        v4.f3.f4.f3 = a1->f3.f4.f3;
        break;
    }
    v3.f0.tag = v4.f0.tag;
    v3.f0.u64_0 = v4.f0.u64_0;
    v3.f0.u64_1 = v4.f0.u64_1;
    v3.f0.c2_target__Effect_0.tag = v4.f0.c2_target__Effect_0.tag;
    v3.f0.c2_target__Effect_0.u64_0 = v4.f0.c2_target__Effect_0.u64_0;
    v3.f1 = v4.f1;
    v3.f2 = v4.f2;
    v3.f3.f0 = v4.f3.f0;
    v3.f3.f1 = v4.f3.f1;
    v3.f3.f2 = v4.f3.f2;
    v3.f3.f3.f0 = v4.f3.f3.f0;
    v3.f3.f3.f1 = v4.f3.f3.f1;
    v3.f3.f3.f2 = v4.f3.f3.f2;
    v3.f3.f3.f3 = v4.f3.f3.f3;
    v3.f3.f4.f0.tag = v4.f3.f4.f0.tag;
    v3.f3.f4.f0.u64_0 = v4.f3.f4.f0.u64_0;
    v3.f3.f4.f0.bool_0 = v4.f3.f4.f0.bool_0;
    v3.f3.f4.f0.u64_1 = v4.f3.f4.f0.u64_1;
    v3.f3.f4.f1.tag = v4.f3.f4.f1.tag;
    v3.f3.f4.f1.bool_0 = v4.f3.f4.f1.bool_0;
    v3.f3.f4.f1.u64_0 = v4.f3.f4.f1.u64_0;
    v3.f3.f4.f1.u64_1 = v4.f3.f4.f1.u64_1;
    v3.f3.f4.f2 = v4.f3.f4.f2;
    v3.f3.f4.f3 = v4.f3.f4.f3;
    result.f0 = 1;
    result.f1.f0.tag = v3.f0.tag;
    result.f1.f0.u64_0 = v3.f0.u64_0;
    result.f1.f0.u64_1 = v3.f0.u64_1;
    result.f1.f0.c2_target__Effect_0.tag = v3.f0.c2_target__Effect_0.tag;
    result.f1.f0.c2_target__Effect_0.u64_0 = v3.f0.c2_target__Effect_0.u64_0;
    result.f1.f1 = v3.f1;
    result.f1.f2 = v3.f2;
    result.f1.f3.f0 = v3.f3.f0;
    result.f1.f3.f1 = v3.f3.f1;
    result.f1.f3.f2 = v3.f3.f2;
    result.f1.f3.f3.f0 = v3.f3.f3.f0;
    result.f1.f3.f3.f1 = v3.f3.f3.f1;
    result.f1.f3.f3.f2 = v3.f3.f3.f2;
    result.f1.f3.f3.f3 = v3.f3.f3.f3;
    result.f1.f3.f4.f0.tag = v3.f3.f4.f0.tag;
    result.f1.f3.f4.f0.u64_0 = v3.f3.f4.f0.u64_0;
    result.f1.f3.f4.f0.bool_0 = v3.f3.f4.f0.bool_0;
    result.f1.f3.f4.f0.u64_1 = v3.f3.f4.f0.u64_1;
    result.f1.f3.f4.f1.tag = v3.f3.f4.f1.tag;
    result.f1.f3.f4.f1.bool_0 = v3.f3.f4.f1.bool_0;
    result.f1.f3.f4.f1.u64_0 = v3.f3.f4.f1.u64_0;
    result.f1.f3.f4.f1.u64_1 = v3.f3.f4.f1.u64_1;
    result.f1.f3.f4.f2 = v3.f3.f4.f2;
    result.f1.f3.f4.f3 = v3.f3.f4.f3;
    return result;
}

/* core::clone::U8Clone::clone */
INLINED core__Result_u8_AllocError core__clone__U8Clone__clone(const uint8_t *a1)
{
    core__Result_u8_AllocError result;
    uint8_t v2;
    v2 = *a1;
    result.tag = 0u;
    result.u8_0 = v2;
    return result;
}

/* core::clone::surely_u8 */
INLINED uint8_t core__clone__surely_u8(const uint8_t *a1)
{
    uint8_t result;
    uint8_t v2;
    core__Result_u8_AllocError v3;
    uint8_t v4;
    v3 = core__clone__U8Clone__clone(a1);
    switch (v3.tag) {
    default: /* 0 */
        v2 = v3.u8_0;
        v4 = v2;
        break;
    }
    result = v4;
    return result;
}

/* core::slice_T::fill_u8 */
INLINED void core__slice_T__fill_u8(slice_mut_u8 a1, uint8_t a2)
{
    uint8_t v3;
    uint64_t v4;
    uint64_t v5;
    _Bool v6;
    uint64_t v7;
    _Bool v8;
    uint8_t v9;
    const uint8_t *v10;
    uint8_t *v11;
    uint8_t v12;
    uint64_t v13;
    uint64_t v14;
    uint8_t *v15;
    v3 = a2;
    v4 = a1.length;
    v6 = v4 == UINT64_C(0);
    if (v6) {
        return;
    }
    v5 = UINT64_C(0);
    for (;;) {
        v7 = v4 - UINT64_C(1);
        v8 = v5 < v7;
        if (!v8) {
            break;
        }
        v10 = &v3;
        v9 = core__clone__surely_u8(v10);
        v7 = v5;
        v11 = a1.at + (size_t)v7;
        *v11 = v9;
        v5 = v5 + UINT64_C(1);
    }
    v12 = v3;
    v13 = v4 - UINT64_C(1);
    v14 = v13;
    v15 = a1.at + (size_t)v14;
    *v15 = v12;
    return;
}

/* c2_target_step::flash::erase */
static void c2_target_step__flash__erase(slice_mut_u8 a1, uint64_t a2, uint64_t a3)
{
    uint64_t v4;
    uint64_t v5;
    uint8_t *v7;
    uint64_t v8;
    uint8_t *v9;
    slice_mut_u8 v10;
    v4 = a3 * a2;
    v5 = v4 + a2;
    v7 = a1.at + (size_t)v4;
    v8 = v5 - v4;
    v9 = v7;
    v10.at = v9;
    v10.length = v8;
    core__slice_T__fill_u8(v10, 255u);
    return;
}

/* c2_target_step::flash::store */
static void c2_target_step__flash__store(slice_mut_u8 a1, uint64_t a2, uint8_t a3)
{
    uint8_t *v4;
    uint8_t v5;
    uint8_t v6;
    v4 = a1.at + (size_t)a2;
    v5 = *v4;
    v6 = (uint8_t)((unsigned)v5 & a3);
    *v4 = v6;
    return;
}

/* c2_target_step::flash::put_writes */
static void c2_target_step__flash__put_writes(const c2_settings *a1, const c2_target__Command *a2, uint8_t a3,
    slice_mut_u8 a4)
{
    uint64_t v5;
    uint64_t v6;
    _Bool v7;
    uint8_t *v9;
    slice_mut_u8 v10;
    uint64_t v11;
    uint8_t *v13;
    slice_mut_u8 v14;
    switch (a2->tag) {
    case 2u:
        v5 = a2->u64_0;
        v7 = a3 == 0u;
        if (v7) {
            v9 = a4.at;
            v10.at = v9;
            v10.length = a4.length;
            v11 = (uint64_t)a1->page_size;
            c2_target_step__flash__erase(v10, v11, v5);
            goto end1;
        }
        goto end2;
    case 6u:
        v6 = a2->u64_0;
        v13 = a4.at;
        v14.at = v13;
        v14.length = a4.length;
        c2_target_step__flash__store(v14, v6, a3);
        goto end1;
    default: /* 0, 1, 3, 4, 5, 7 */
        goto end2;
    }
    end2:;
    end1:;
    return;
}

/* c2_target_step::interface::linked */
static _Bool c2_target_step__interface__linked(const c2_target__Device *a1, const c2_settings *a2)
{
    _Bool result;
    _Bool v3;
    uint64_t v4;
    v3 = a1->f1;
    if (v3) {
        v4 = core__convert__UsizeFromU8__from(a2->fpdat);
        v3 = a1->f0 == v4;
    }
    result = v3;
    return result;
}

/* c2_target_step::interface::effect_writes */
static void c2_target_step__interface__effect_writes(const c2_settings *a1, const c2_target__Effect *a2,
    const c2_target__Device *a3, slice_mut_u8 a4)
{
    uint64_t v5;
    _Bool v6;
    c2_target__Command v8;
    uint8_t v9;
    uint8_t *v10;
    slice_mut_u8 v11;
    switch (a2->tag) {
    case 2u:
        v5 = a2->u64_0;
        v6 = c2_target_step__interface__linked(a3, a1);
        if (v6) {
            v8.tag = a3->f4.f0.tag;
            v8.u64_0 = a3->f4.f0.u64_0;
            v8.bool_0 = a3->f4.f0.bool_0;
            v8.u64_1 = a3->f4.f0.u64_1;
            v9 = (uint8_t)v5;
            v10 = a4.at;
            v11.at = v10;
            v11.length = a4.length;
            c2_target_step__flash__put_writes(a1, &v8, v9, v11);
            goto end1;
        }
        goto end2;
    default: /* 0, 1, 3, 4 */
        goto end2;
    }
    end2:;
    end1:;
    return;
}

/* c2_target_step::strobes::strobe_writes */
static void c2_target_step__strobes__strobe_writes(const c2_settings *a1, const c2_target__Target *a2,
    slice_mut_u8 a3)
{
    c2_target__Effect v4;
    c2_target__Device v6;
    uint8_t *v7;
    slice_mut_u8 v8;
    switch (a2->f0.tag) {
    case 10u:
        v4.tag = a2->f0.c2_target__Effect_0.tag;
        v4.u64_0 = a2->f0.c2_target__Effect_0.u64_0;
        v6.f0 = a2->f3.f0;
        v6.f1 = a2->f3.f1;
        v6.f2 = a2->f3.f2;
        v6.f3.f0 = a2->f3.f3.f0;
        v6.f3.f1 = a2->f3.f3.f1;
        v6.f3.f2 = a2->f3.f3.f2;
        v6.f3.f3 = a2->f3.f3.f3;
        v6.f4.f0.tag = a2->f3.f4.f0.tag;
        v6.f4.f0.u64_0 = a2->f3.f4.f0.u64_0;
        v6.f4.f0.bool_0 = a2->f3.f4.f0.bool_0;
        v6.f4.f0.u64_1 = a2->f3.f4.f0.u64_1;
        v6.f4.f1.tag = a2->f3.f4.f1.tag;
        v6.f4.f1.bool_0 = a2->f3.f4.f1.bool_0;
        v6.f4.f1.u64_0 = a2->f3.f4.f1.u64_0;
        v6.f4.f1.u64_1 = a2->f3.f4.f1.u64_1;
        v6.f4.f2 = a2->f3.f4.f2;
        v6.f4.f3 = a2->f3.f4.f3;
        v7 = a3.at;
        v8.at = v7;
        v8.length = a3.length;
        c2_target_step__interface__effect_writes(a1, &v4, &v6, v8);
        break;
    default: /* 0, 1, 2, 3, 4, 5, 6, 7, 8, 9 */
        break;
    }
    return;
}

/* c2_target_step::interface::begun */
static c2_target__Device c2_target_step__interface__begun(const c2_target__Device *a1)
{
    c2_target__Device result;
    uint64_t v2;
    _Bool v3;
    uint64_t v4;
    uint64_t v5;
    _Bool v6;
    c2_target__Met v7;
    c2_target__Link v8;
    v3 = a1->f2 == UINT64_C(3);
    if (v3) {
        v4 = UINT64_C(0);
    } else {
        v4 = a1->f2;
    }
    v2 = v4;
    v5 = a1->f0;
    v6 = a1->f1;
    v7.f0 = a1->f3.f0;
    v7.f1 = a1->f3.f1;
    v7.f2 = a1->f3.f2;
    v7.f3 = a1->f3.f3;
    v8.f0.tag = a1->f4.f0.tag;
    v8.f0.u64_0 = a1->f4.f0.u64_0;
    v8.f0.bool_0 = a1->f4.f0.bool_0;
    v8.f0.u64_1 = a1->f4.f0.u64_1;
    v8.f1.tag = a1->f4.f1.tag;
    v8.f1.bool_0 = a1->f4.f1.bool_0;
    v8.f1.u64_0 = a1->f4.f1.u64_0;
    v8.f1.u64_1 = a1->f4.f1.u64_1;
    v8.f2 = a1->f4.f2;
    v8.f3 = a1->f4.f3;
    result.f0 = v5;
    result.f1 = v6;
    result.f2 = v2;
    result.f3.f0 = v7.f0;
    result.f3.f1 = v7.f1;
    result.f3.f2 = v7.f2;
    result.f3.f3 = v7.f3;
    result.f4.f0.tag = v8.f0.tag;
    result.f4.f0.u64_0 = v8.f0.u64_0;
    result.f4.f0.bool_0 = v8.f0.bool_0;
    result.f4.f0.u64_1 = v8.f0.u64_1;
    result.f4.f1.tag = v8.f1.tag;
    result.f4.f1.bool_0 = v8.f1.bool_0;
    result.f4.f1.u64_0 = v8.f1.u64_0;
    result.f4.f1.u64_1 = v8.f1.u64_1;
    result.f4.f2 = v8.f2;
    result.f4.f3 = v8.f3;
    return result;
}

/* c2_target_step::strobes::after_address */
static c2_target__Point c2_target_step__strobes__after_address(uint64_t a1, uint64_t a2)
{
    c2_target__Point result;
    _Bool v3;
    c2_target__Point v4;
    c2_target__Effect v5;
    v3 = a1 < UINT64_C(8);
    if (v3) {
        v4.tag = 4u;
        v4.u64_0 = a1;
        v4.u64_1 = a2;
        v4.c2_target__Effect_0.tag = 0;
        v4.c2_target__Effect_0.u64_0 = 0;
    } else {
        v5.tag = 1u;
        v5.u64_0 = a2;
        v4.tag = 10u;
        v4.c2_target__Effect_0.tag = v5.tag;
        v4.c2_target__Effect_0.u64_0 = v5.u64_0;
        v4.u64_0 = 0;
        v4.u64_1 = 0;
    }
    result.tag = v4.tag;
    result.u64_0 = v4.u64_0;
    result.u64_1 = v4.u64_1;
    result.c2_target__Effect_0.tag = v4.c2_target__Effect_0.tag;
    result.c2_target__Effect_0.u64_0 = v4.c2_target__Effect_0.u64_0;
    return result;
}

/* c2_target_step::strobes::after_data */
static c2_target__Point c2_target_step__strobes__after_data(uint64_t a1, uint64_t a2)
{
    c2_target__Point result;
    _Bool v3;
    c2_target__Point v4;
    c2_target__Effect v5;
    v3 = a1 < UINT64_C(8);
    if (v3) {
        v4.tag = 5u;
        v4.u64_0 = a1;
        v4.u64_1 = a2;
        v4.c2_target__Effect_0.tag = 0;
        v4.c2_target__Effect_0.u64_0 = 0;
    } else {
        v5.tag = 2u;
        v5.u64_0 = a2;
        v4.tag = 7u;
        v4.u64_0 = UINT64_C(0);
        v4.c2_target__Effect_0.tag = v5.tag;
        v4.c2_target__Effect_0.u64_0 = v5.u64_0;
        v4.u64_1 = 0;
    }
    result.tag = v4.tag;
    result.u64_0 = v4.u64_0;
    result.u64_1 = v4.u64_1;
    result.c2_target__Effect_0.tag = v4.c2_target__Effect_0.tag;
    result.c2_target__Effect_0.u64_0 = v4.c2_target__Effect_0.u64_0;
    return result;
}

/* c2_target_step::interface::in_busy */
static _Bool c2_target_step__interface__in_busy(const c2_target__Link *a1)
{
    _Bool result;
    result = UINT64_C(0) < a1->f2;
    return result;
}

/* c2_target_step::commands::some_output */
static _Bool c2_target_step__commands__some_output(const c2_target__Output *a1)
{
    _Bool result;
    _Bool v2;
    _Bool v3;
    switch (a1->tag) {
    case 0u:
        v3 = 1;
        break;
    default: /* 1, 2, 3 */
        v3 = 0;
        break;
    }
    v2 = v3;
    result = !v2;
    return result;
}

/* c2_target_step::interface::out_ready */
static _Bool c2_target_step__interface__out_ready(const c2_target__Link *a1)
{
    _Bool result;
    _Bool v2;
    _Bool v3;
    c2_target__Output v4;
    v3 = a1->f2 == UINT64_C(0);
    if (v3) {
        v3 = a1->f3 == UINT64_C(0);
    }
    v2 = v3;
    if (v2) {
        v4.tag = a1->f1.tag;
        v4.bool_0 = a1->f1.bool_0;
        v4.u64_0 = a1->f1.u64_0;
        v4.u64_1 = a1->f1.u64_1;
        v2 = c2_target_step__commands__some_output(&v4);
    }
    result = v2;
    return result;
}

/* core::convert::others::UsizeFromBool::from */
INLINED uint64_t core__convert__others__UsizeFromBool__from(_Bool a1)
{
    uint64_t result;
    result = (uint64_t)a1;
    return result;
}

/* c2_target_step::interface::status_bits */
static uint64_t c2_target_step__interface__status_bits(const c2_target__Link *a1)
{
    uint64_t result;
    uint64_t v2;
    _Bool v3;
    uint64_t v4;
    _Bool v5;
    uint64_t v6;
    v3 = c2_target_step__interface__out_ready(a1);
    v2 = core__convert__others__UsizeFromBool__from(v3);
    v5 = c2_target_step__interface__in_busy(a1);
    v4 = core__convert__others__UsizeFromBool__from(v5);
    v6 = UINT64_C(2) * v4;
    result = v2 + v6;
    return result;
}

/* c2_target_step::interface::shown */
static uint64_t c2_target_step__interface__shown(const c2_target__Device *a1, const c2_settings *a2)
{
    uint64_t result;
    _Bool v3;
    uint64_t v4;
    c2_target__Link v5;
    v3 = c2_target_step__interface__linked(a1, a2);
    if (v3) {
        v5.f0.tag = a1->f4.f0.tag;
        v5.f0.u64_0 = a1->f4.f0.u64_0;
        v5.f0.bool_0 = a1->f4.f0.bool_0;
        v5.f0.u64_1 = a1->f4.f0.u64_1;
        v5.f1.tag = a1->f4.f1.tag;
        v5.f1.bool_0 = a1->f4.f1.bool_0;
        v5.f1.u64_0 = a1->f4.f1.u64_0;
        v5.f1.u64_1 = a1->f4.f1.u64_1;
        v5.f2 = a1->f4.f2;
        v5.f3 = a1->f4.f3;
        v4 = c2_target_step__interface__status_bits(&v5);
    } else {
        v4 = a1->f0;
    }
    result = v4;
    return result;
}

/* c2_target_step::strobes::sending */
static c2_target__Point c2_target_step__strobes__sending(uint64_t a1, uint64_t a2,
    const c2_target__Effect *a3)
{
    c2_target__Point result;
    _Bool v4;
    c2_target__Point v5;
    v4 = a1 == UINT64_C(0);
    if (v4) {
        v5.tag = 10u;
        v5.c2_target__Effect_0.tag = a3->tag;
        v5.c2_target__Effect_0.u64_0 = a3->u64_0;
        v5.u64_0 = 0;
        v5.u64_1 = 0;
    } else {
        v5.tag = 9u;
        v5.u64_0 = a1;
        v5.u64_1 = a2;
        v5.c2_target__Effect_0.tag = a3->tag;
        v5.c2_target__Effect_0.u64_0 = a3->u64_0;
    }
    result.tag = v5.tag;
    result.u64_0 = v5.u64_0;
    result.u64_1 = v5.u64_1;
    result.c2_target__Effect_0.tag = v5.c2_target__Effect_0.tag;
    result.c2_target__Effect_0.u64_0 = v5.c2_target__Effect_0.u64_0;
    return result;
}

/* c2_target_step::strobes::frame_begins */
static c2_target__Point c2_target_step__strobes__frame_begins(const c2_settings *a1,
    const c2_target__Device *a2, uint64_t a3)
{
    c2_target__Point result;
    c2_target__Point v4;
    uint64_t v5;
    c2_target__Effect v6;
    switch (a3) {
    case 0u:
        v4.tag = 3u;
        v4.u64_0 = UINT64_C(0);
        v4.u64_1 = UINT64_C(0);
        v4.c2_target__Effect_0.tag = 0;
        v4.c2_target__Effect_0.u64_0 = 0;
        break;
    case 1u:
        v4.tag = 2u;
        v4.u64_0 = UINT64_C(0);
        v4.u64_1 = UINT64_C(0);
        v4.c2_target__Effect_0.tag = 0;
        v4.c2_target__Effect_0.u64_0 = 0;
        break;
    case 2u:
        v5 = c2_target_step__interface__shown(a2, a1);
        v6.tag = 3u;
        v6.u64_0 = 0;
        v4 = c2_target_step__strobes__sending(UINT64_C(8), v5, &v6);
        break;
    default:
        v4.tag = 4u;
        v4.u64_0 = UINT64_C(0);
        v4.u64_1 = UINT64_C(0);
        v4.c2_target__Effect_0.tag = 0;
        v4.c2_target__Effect_0.u64_0 = 0;
        break;
    }
    result.tag = v4.tag;
    result.u64_0 = v4.u64_0;
    result.u64_1 = v4.u64_1;
    result.c2_target__Effect_0.tag = v4.c2_target__Effect_0.tag;
    result.c2_target__Effect_0.u64_0 = v4.c2_target__Effect_0.u64_0;
    return result;
}

/* c2_target_step::strobes::after_ins */
static c2_target__Point c2_target_step__strobes__after_ins(const c2_settings *a1, const c2_target__Device *a2,
    uint64_t a3, uint64_t a4)
{
    c2_target__Point result;
    _Bool v5;
    c2_target__Point v6;
    v5 = a3 < UINT64_C(2);
    if (v5) {
        v6.tag = 1u;
        v6.u64_0 = a3;
        v6.u64_1 = a4;
        v6.c2_target__Effect_0.tag = 0;
        v6.c2_target__Effect_0.u64_0 = 0;
    } else {
        v6 = c2_target_step__strobes__frame_begins(a1, a2, a4);
    }
    result.tag = v6.tag;
    result.u64_0 = v6.u64_0;
    result.u64_1 = v6.u64_1;
    result.c2_target__Effect_0.tag = v6.c2_target__Effect_0.tag;
    result.c2_target__Effect_0.u64_0 = v6.c2_target__Effect_0.u64_0;
    return result;
}

/* c2_target_step::strobes::after_long_data */
static c2_target__Point c2_target_step__strobes__after_long_data(uint64_t a1)
{
    c2_target__Point result;
    _Bool v2;
    c2_target__Point v3;
    uint64_t v4;
    c2_target__Effect v5;
    v2 = UINT64_C(1) < a1;
    if (v2) {
        v4 = a1 - UINT64_C(1);
        v3.tag = 6u;
        v3.u64_0 = v4;
        v3.u64_1 = 0;
        v3.c2_target__Effect_0.tag = 0;
        v3.c2_target__Effect_0.u64_0 = 0;
    } else {
        v5.tag = 0u;
        v5.u64_0 = 0;
        v3.tag = 7u;
        v3.u64_0 = UINT64_C(0);
        v3.c2_target__Effect_0.tag = v5.tag;
        v3.c2_target__Effect_0.u64_0 = v5.u64_0;
        v3.u64_1 = 0;
    }
    result.tag = v3.tag;
    result.u64_0 = v3.u64_0;
    result.u64_1 = v3.u64_1;
    result.c2_target__Effect_0.tag = v3.c2_target__Effect_0.tag;
    result.c2_target__Effect_0.u64_0 = v3.c2_target__Effect_0.u64_0;
    return result;
}

/* c2_target_step::strobes::after_read_length */
static c2_target__Point c2_target_step__strobes__after_read_length(uint64_t a1, uint64_t a2)
{
    c2_target__Point result;
    c2_target__Effect v3;
    _Bool v4;
    c2_target__Point v5;
    _Bool v6;
    c2_target__Effect v7;
    uint64_t v8;
    uint64_t v9;
    v4 = a1 < UINT64_C(2);
    if (v4) {
        v5.tag = 3u;
        v5.u64_0 = a1;
        v5.u64_1 = a2;
        v5.c2_target__Effect_0.tag = 0;
        v5.c2_target__Effect_0.u64_0 = 0;
    } else {
        v6 = a2 == UINT64_C(0);
        if (v6) {
            v7.tag = 4u;
            v7.u64_0 = 0;
        } else {
            v7.tag = 0u;
            v7.u64_0 = 0;
        }
        v3.tag = v7.tag;
        v3.u64_0 = v7.u64_0;
        v8 = a2 + UINT64_C(1);
        v9 = UINT64_C(8) * v8;
        v5.tag = 7u;
        v5.u64_0 = v9;
        v5.c2_target__Effect_0.tag = v3.tag;
        v5.c2_target__Effect_0.u64_0 = v3.u64_0;
        v5.u64_1 = 0;
    }
    result.tag = v5.tag;
    result.u64_0 = v5.u64_0;
    result.u64_1 = v5.u64_1;
    result.c2_target__Effect_0.tag = v5.c2_target__Effect_0.tag;
    result.c2_target__Effect_0.u64_0 = v5.c2_target__Effect_0.u64_0;
    return result;
}

/* core::UsizeSliceIndexRefSlice::pick_u8 */
INLINED core__Option_ref_u8 core__UsizeSliceIndexRefSlice__pick_u8(uint64_t a1, slice_u8 a2)
{
    core__Option_ref_u8 result;
    uint64_t v3;
    _Bool v4;
    core__Option_ref_u8 v5;
    uint64_t v6;
    const uint8_t *v7;
    const uint8_t *v8;
    v3 = a2.length;
    v4 = a1 < v3;
    if (v4) {
        v6 = a1;
        v7 = a2.at + (size_t)v6;
        v8 = v7;
        v5.tag = 1u;
        v5.ref_u8_0 = v8;
    } else {
        v5.tag = 0u;
        v5.ref_u8_0 = 0;
    }
    result.tag = v5.tag;
    result.ref_u8_0 = v5.ref_u8_0;
    return result;
}

/* core::slice_T::get_u8_u64_ref_u8 */
INLINED core__Option_ref_u8 core__slice_T__get_u8_u64_ref_u8(slice_u8 a1, uint64_t a2)
{
    core__Option_ref_u8 result;
    uint64_t v3;
    v3 = a2;
    result = core__UsizeSliceIndexRefSlice__pick_u8(v3, a1);
    return result;
}

/* c2_target_step::flash::byte_at */
static uint64_t c2_target_step__flash__byte_at(slice_u8 a1, uint64_t a2)
{
    uint64_t result;
    const uint8_t *v3;
    core__Option_ref_u8 v4;
    uint64_t v5;
    uint8_t v6;
    v4 = core__slice_T__get_u8_u64_ref_u8(a1, a2);
    switch (v4.tag) {
    case 1u:
        v3 = v4.ref_u8_0;
        v6 = *v3;
        v5 = core__convert__UsizeFromU8__from(v6);
        break;
    default: /* 0 */
        v5 = UINT64_C(0);
        break;
    }
    result = v5;
    return result;
}

/* c2_target_step::commands::first_byte */
static uint64_t c2_target_step__commands__first_byte(const c2_target__Output *a1, slice_u8 a2)
{
    uint64_t result;
    uint64_t v3;
    uint64_t v4;
    _Bool v5;
    switch (a1->tag) {
    case 0u:
        v4 = UINT64_C(0);
        goto end1;
    case 1u:
        v5 = a1->bool_0;
        if (v5) {
            goto end2;
        } else {
            v4 = core__convert__UsizeFromU8__from(0u);
            goto end1;
        }
    case 2u:
        goto end2;
    default: /* 3 */
        v3 = a1->u64_0;
        v4 = c2_target_step__flash__byte_at(a2, v3);
        goto end1;
    }
    end2:;
    v4 = core__convert__UsizeFromU8__from(13u);
    end1:;
    result = v4;
    return result;
}

/* c2_target_step::interface::output_given */
static uint64_t c2_target_step__interface__output_given(const c2_target__Device *a1, slice_u8 a2)
{
    uint64_t result;
    _Bool v3;
    c2_target__Link v4;
    uint64_t v5;
    c2_target__Output v6;
    v4.f0.tag = a1->f4.f0.tag;
    v4.f0.u64_0 = a1->f4.f0.u64_0;
    v4.f0.bool_0 = a1->f4.f0.bool_0;
    v4.f0.u64_1 = a1->f4.f0.u64_1;
    v4.f1.tag = a1->f4.f1.tag;
    v4.f1.bool_0 = a1->f4.f1.bool_0;
    v4.f1.u64_0 = a1->f4.f1.u64_0;
    v4.f1.u64_1 = a1->f4.f1.u64_1;
    v4.f2 = a1->f4.f2;
    v4.f3 = a1->f4.f3;
    v3 = c2_target_step__interface__out_ready(&v4);
    if (v3) {
        v6.tag = a1->f4.f1.tag;
        v6.bool_0 = a1->f4.f1.bool_0;
        v6.u64_0 = a1->f4.f1.u64_0;
        v6.u64_1 = a1->f4.f1.u64_1;
        v5 = c2_target_step__commands__first_byte(&v6, a2);
    } else {
        v5 = UINT64_C(0);
    }
    result = v5;
    return result;
}

/* c2_target_step::interface::given */
static uint64_t c2_target_step__interface__given(const c2_target__Device *a1, const c2_settings *a2,
    slice_u8 a3)
{
    uint64_t result;
    _Bool v4;
    uint64_t v5;
    _Bool v6;
    uint64_t v7;
    v4 = c2_target_step__interface__linked(a1, a2);
    if (v4) {
        v5 = c2_target_step__interface__output_given(a1, a3);
    } else {
        v6 = a1->f0 == UINT64_C(0);
        if (v6) {
            v7 = core__convert__UsizeFromU8__from(a2->device_id);
        } else {
            v7 = UINT64_C(0);
        }
        v5 = v7;
    }
    result = v5;
    return result;
}

/* c2_target_step::strobes::value_sent */
static uint64_t c2_target_step__strobes__value_sent(const c2_settings *a1, const c2_target__Effect *a2,
    const c2_target__Device *a3, slice_u8 a4)
{
    uint64_t result;
    uint64_t v5;
    switch (a2->tag) {
    case 4u:
        v5 = c2_target_step__interface__given(a3, a1, a4);
        break;
    default: /* 0, 1, 2, 3 */
        v5 = UINT64_C(0);
        break;
    }
    result = v5;
    return result;
}

/* c2_target_step::strobes::after_wait */
static c2_target__Point c2_target_step__strobes__after_wait(const c2_settings *a1, uint64_t a2, uint64_t a3,
    const c2_target__Effect *a4, const c2_target__Device *a5, slice_u8 a6)
{
    c2_target__Point result;
    _Bool v7;
    c2_target__Point v8;
    uint64_t v9;
    uint64_t v10;
    v7 = a2 == UINT64_C(0);
    if (v7) {
        v9 = c2_target_step__strobes__value_sent(a1, a4, a5, a6);
        v8 = c2_target_step__strobes__sending(a3, v9, a4);
    } else {
        v10 = a2 - UINT64_C(1);
        v8.tag = 8u;
        v8.u64_0 = v10;
        v8.u64_1 = a3;
        v8.c2_target__Effect_0.tag = a4->tag;
        v8.c2_target__Effect_0.u64_0 = a4->u64_0;
    }
    result.tag = v8.tag;
    result.u64_0 = v8.u64_0;
    result.u64_1 = v8.u64_1;
    result.c2_target__Effect_0.tag = v8.c2_target__Effect_0.tag;
    result.c2_target__Effect_0.u64_0 = v8.c2_target__Effect_0.u64_0;
    return result;
}

/* c2_target_step::strobes::after_write_length */
static c2_target__Point c2_target_step__strobes__after_write_length(uint64_t a1, uint64_t a2)
{
    c2_target__Point result;
    _Bool v3;
    c2_target__Point v4;
    _Bool v5;
    c2_target__Point v6;
    uint64_t v7;
    uint64_t v8;
    v3 = a1 < UINT64_C(2);
    if (v3) {
        v4.tag = 2u;
        v4.u64_0 = a1;
        v4.u64_1 = a2;
        v4.c2_target__Effect_0.tag = 0;
        v4.c2_target__Effect_0.u64_0 = 0;
    } else {
        v5 = a2 == UINT64_C(0);
        if (v5) {
            v6.tag = 5u;
            v6.u64_0 = UINT64_C(0);
            v6.u64_1 = UINT64_C(0);
            v6.c2_target__Effect_0.tag = 0;
            v6.c2_target__Effect_0.u64_0 = 0;
        } else {
            v7 = a2 + UINT64_C(1);
            v8 = UINT64_C(8) * v7;
            v6.tag = 6u;
            v6.u64_0 = v8;
            v6.u64_1 = 0;
            v6.c2_target__Effect_0.tag = 0;
            v6.c2_target__Effect_0.u64_0 = 0;
        }
        v4.tag = v6.tag;
        v4.u64_0 = v6.u64_0;
        v4.u64_1 = v6.u64_1;
        v4.c2_target__Effect_0.tag = v6.c2_target__Effect_0.tag;
        v4.c2_target__Effect_0.u64_0 = v6.c2_target__Effect_0.u64_0;
    }
    result.tag = v4.tag;
    result.u64_0 = v4.u64_0;
    result.u64_1 = v4.u64_1;
    result.c2_target__Effect_0.tag = v4.c2_target__Effect_0.tag;
    result.c2_target__Effect_0.u64_0 = v4.c2_target__Effect_0.u64_0;
    return result;
}

/* core::Option::or_ref_u8 */
INLINED core__Option_ref_u8 core__Option__or_ref_u8(const core__Option_ref_u8 *a1,
    const core__Option_ref_u8 *a2)
{
    core__Option_ref_u8 result;
    const uint8_t *v3;
    core__Option_ref_u8 v4;
    const uint8_t *v5;
    switch (a1->tag) {
    case 1u:
        v3 = a1->ref_u8_0;
        v5 = v3;
        v4.tag = 1u;
        v4.ref_u8_0 = v5;
        switch (a2->tag) {
        case 1u:
            break;
        default: /* 0 */
            break;
        }
        break;
    default: /* 0 */
        v4.tag = a2->tag;
        v4.ref_u8_0 = a2->ref_u8_0;
        break;
    }
    result.tag = v4.tag;
    result.ref_u8_0 = v4.ref_u8_0;
    return result;
}

/* core::slice_T::first_u8 */
INLINED core__Option_ref_u8 core__slice_T__first_u8(slice_u8 a1)
{
    core__Option_ref_u8 result;
    result = core__slice_T__get_u8_u64_ref_u8(a1, UINT64_C(0));
    return result;
}

/* c2_target_step::delays::delay */
static uint64_t c2_target_step__delays__delay(slice_u8 a1, uint64_t a2)
{
    uint64_t result;
    const uint8_t *v3;
    core__Option_ref_u8 v4;
    core__Option_ref_u8 v5;
    core__Option_ref_u8 v6;
    uint64_t v7;
    uint8_t v8;
    v5 = core__slice_T__get_u8_u64_ref_u8(a1, a2);
    v6 = core__slice_T__first_u8(a1);
    v4 = core__Option__or_ref_u8(&v5, &v6);
    switch (v4.tag) {
    case 1u:
        v3 = v4.ref_u8_0;
        v8 = *v3;
        v7 = core__convert__UsizeFromU8__from(v8);
        break;
    default: /* 0 */
        v7 = UINT64_C(0);
        break;
    }
    result = v7;
    return result;
}

/* c2_target_step::delays::next_place */
static uint64_t c2_target_step__delays__next_place(slice_u8 a1, uint64_t a2)
{
    uint64_t result;
    uint64_t v3;
    _Bool v4;
    uint64_t v5;
    v3 = a1.length;
    v4 = a2 < v3;
    if (v4) {
        v5 = a2 + UINT64_C(1);
    } else {
        v5 = UINT64_C(1);
    }
    result = v5;
    return result;
}

/* c2_target_step::strobes::marked */
static _Bool c2_target_step__strobes__marked(uint8_t a1, _Bool a2)
{
    _Bool result;
    _Bool v3;
    _Bool v4;
    _Bool v5;
    v5 = a1 < 2u;
    if (v5) {
        goto end2;
    }
    v5 = a1 < 4u;
    if (v5) {
        v4 = 1;
        goto end1;
    }
    goto end2;
    end2:;
    v4 = 0;
    end1:;
    v3 = v4;
    if (!v3) {
        v3 = a2;
    }
    result = v3;
    return result;
}

/* c2_target_step::strobes::shows */
static c2_target__Turned c2_target_step__strobes__shows(const c2_target__Target *a1, _Bool a2, uint8_t a3,
    const c2_target__Point *a4, uint64_t a5, const c2_target__Device *a6)
{
    c2_target__Turned result;
    _Bool v7;
    c2_target__Target v8;
    v7 = c2_target_step__strobes__marked(a3, a1->f2);
    v8.f0.tag = a4->tag;
    v8.f0.u64_0 = a4->u64_0;
    v8.f0.u64_1 = a4->u64_1;
    v8.f0.c2_target__Effect_0.tag = a4->c2_target__Effect_0.tag;
    v8.f0.c2_target__Effect_0.u64_0 = a4->c2_target__Effect_0.u64_0;
    v8.f1 = a5;
    v8.f2 = v7;
    v8.f3.f0 = a6->f0;
    v8.f3.f1 = a6->f1;
    v8.f3.f2 = a6->f2;
    v8.f3.f3.f0 = a6->f3.f0;
    v8.f3.f3.f1 = a6->f3.f1;
    v8.f3.f3.f2 = a6->f3.f2;
    v8.f3.f3.f3 = a6->f3.f3;
    v8.f3.f4.f0.tag = a6->f4.f0.tag;
    v8.f3.f4.f0.u64_0 = a6->f4.f0.u64_0;
    v8.f3.f4.f0.bool_0 = a6->f4.f0.bool_0;
    v8.f3.f4.f0.u64_1 = a6->f4.f0.u64_1;
    v8.f3.f4.f1.tag = a6->f4.f1.tag;
    v8.f3.f4.f1.bool_0 = a6->f4.f1.bool_0;
    v8.f3.f4.f1.u64_0 = a6->f4.f1.u64_0;
    v8.f3.f4.f1.u64_1 = a6->f4.f1.u64_1;
    v8.f3.f4.f2 = a6->f4.f2;
    v8.f3.f4.f3 = a6->f4.f3;
    result.f0 = a2;
    result.f1.f0.tag = v8.f0.tag;
    result.f1.f0.u64_0 = v8.f0.u64_0;
    result.f1.f0.u64_1 = v8.f0.u64_1;
    result.f1.f0.c2_target__Effect_0.tag = v8.f0.c2_target__Effect_0.tag;
    result.f1.f0.c2_target__Effect_0.u64_0 = v8.f0.c2_target__Effect_0.u64_0;
    result.f1.f1 = v8.f1;
    result.f1.f2 = v8.f2;
    result.f1.f3.f0 = v8.f3.f0;
    result.f1.f3.f1 = v8.f3.f1;
    result.f1.f3.f2 = v8.f3.f2;
    result.f1.f3.f3.f0 = v8.f3.f3.f0;
    result.f1.f3.f3.f1 = v8.f3.f3.f1;
    result.f1.f3.f3.f2 = v8.f3.f3.f2;
    result.f1.f3.f3.f3 = v8.f3.f3.f3;
    result.f1.f3.f4.f0.tag = v8.f3.f4.f0.tag;
    result.f1.f3.f4.f0.u64_0 = v8.f3.f4.f0.u64_0;
    result.f1.f3.f4.f0.bool_0 = v8.f3.f4.f0.bool_0;
    result.f1.f3.f4.f0.u64_1 = v8.f3.f4.f0.u64_1;
    result.f1.f3.f4.f1.tag = v8.f3.f4.f1.tag;
    result.f1.f3.f4.f1.bool_0 = v8.f3.f4.f1.bool_0;
    result.f1.f3.f4.f1.u64_0 = v8.f3.f4.f1.u64_0;
    result.f1.f3.f4.f1.u64_1 = v8.f3.f4.f1.u64_1;
    result.f1.f3.f4.f2 = v8.f3.f4.f2;
    result.f1.f3.f4.f3 = v8.f3.f4.f3;
    return result;
}

/* c2_target_step::strobes::zeros_of */
static uint64_t c2_target_step__strobes__zeros_of(uint64_t a1, uint64_t a2)
{
    uint64_t result;
    _Bool v3;
    uint64_t v4;
    v3 = a2 == UINT64_C(0);
    if (v3) {
        v4 = a1;
    } else {
        v4 = a1 % a2;
    }
    result = v4;
    return result;
}

/* c2_target_step::strobes::begins_wait */
static c2_target__Turned c2_target_step__strobes__begins_wait(const c2_target__Target *a1,
    const c2_target_step__Lent *a2, uint64_t a3, const c2_target__Effect *a4, slice_u8 a5, uint8_t a6)
{
    c2_target__Turned result;
    uint64_t v7;
    c2_target__Point v8;
    uint64_t v9;
    slice_u8 v10;
    uint64_t v11;
    uint8_t v12;
    c2_settings v13;
    c2_target__Device v14;
    _Bool v15;
    c2_target__Device v16;
    v10.at = a2->f2.at;
    v10.length = a2->f2.length;
    v9 = c2_target_step__delays__delay(v10, a1->f1);
    v12 = a2->f0.wait_limit;
    v11 = core__convert__UsizeFromU8__from(v12);
    v7 = c2_target_step__strobes__zeros_of(v9, v11);
    v13.device_id = a2->f0.device_id;
    v13.fpdat = a2->f0.fpdat;
    v13.page_size = a2->f0.page_size;
    v13.page_count = a2->f0.page_count;
    v13.wait_limit = a2->f0.wait_limit;
    v13.pairs.count = a2->f0.pairs.count;
    v13.pairs.registers[0] = a2->f0.pairs.registers[0];
    v13.pairs.registers[1] = a2->f0.pairs.registers[1];
    v13.pairs.registers[2] = a2->f0.pairs.registers[2];
    v13.pairs.registers[3] = a2->f0.pairs.registers[3];
    v13.pairs.values[0] = a2->f0.pairs.values[0];
    v13.pairs.values[1] = a2->f0.pairs.values[1];
    v13.pairs.values[2] = a2->f0.pairs.values[2];
    v13.pairs.values[3] = a2->f0.pairs.values[3];
    v14.f0 = a1->f3.f0;
    v14.f1 = a1->f3.f1;
    v14.f2 = a1->f3.f2;
    v14.f3.f0 = a1->f3.f3.f0;
    v14.f3.f1 = a1->f3.f3.f1;
    v14.f3.f2 = a1->f3.f3.f2;
    v14.f3.f3 = a1->f3.f3.f3;
    v14.f4.f0.tag = a1->f3.f4.f0.tag;
    v14.f4.f0.u64_0 = a1->f3.f4.f0.u64_0;
    v14.f4.f0.bool_0 = a1->f3.f4.f0.bool_0;
    v14.f4.f0.u64_1 = a1->f3.f4.f0.u64_1;
    v14.f4.f1.tag = a1->f3.f4.f1.tag;
    v14.f4.f1.bool_0 = a1->f3.f4.f1.bool_0;
    v14.f4.f1.u64_0 = a1->f3.f4.f1.u64_0;
    v14.f4.f1.u64_1 = a1->f3.f4.f1.u64_1;
    v14.f4.f2 = a1->f3.f4.f2;
    v14.f4.f3 = a1->f3.f4.f3;
    v8 = c2_target_step__strobes__after_wait(&v13, v7, a3, a4, &v14, a5);
    v15 = v7 == UINT64_C(0);
    v10.at = a2->f2.at;
    v10.length = a2->f2.length;
    v9 = c2_target_step__delays__next_place(v10, a1->f1);
    v16.f0 = a1->f3.f0;
    v16.f1 = a1->f3.f1;
    v16.f2 = a1->f3.f2;
    v16.f3.f0 = a1->f3.f3.f0;
    v16.f3.f1 = a1->f3.f3.f1;
    v16.f3.f2 = a1->f3.f3.f2;
    v16.f3.f3 = a1->f3.f3.f3;
    v16.f4.f0.tag = a1->f3.f4.f0.tag;
    v16.f4.f0.u64_0 = a1->f3.f4.f0.u64_0;
    v16.f4.f0.bool_0 = a1->f3.f4.f0.bool_0;
    v16.f4.f0.u64_1 = a1->f3.f4.f0.u64_1;
    v16.f4.f1.tag = a1->f3.f4.f1.tag;
    v16.f4.f1.bool_0 = a1->f3.f4.f1.bool_0;
    v16.f4.f1.u64_0 = a1->f3.f4.f1.u64_0;
    v16.f4.f1.u64_1 = a1->f3.f4.f1.u64_1;
    v16.f4.f2 = a1->f3.f4.f2;
    v16.f4.f3 = a1->f3.f4.f3;
    result = c2_target_step__strobes__shows(a1, v15, a6, &v8, v9, &v16);
    return result;
}

/* c2_target_step::strobes::line */
static _Bool c2_target_step__strobes__line(uint8_t a1)
{
    _Bool result;
    result = a1 != 2u;
    return result;
}

/* c2_target_step::strobes::hears */
static c2_target__Turned c2_target_step__strobes__hears(const c2_target__Target *a1, uint8_t a2,
    const c2_target__Point *a3)
{
    c2_target__Turned result;
    _Bool v4;
    uint64_t v5;
    _Bool v6;
    c2_target__Device v7;
    c2_target__Target v8;
    v4 = c2_target_step__strobes__line(a2);
    v5 = a1->f1;
    v6 = a1->f2;
    v7.f0 = a1->f3.f0;
    v7.f1 = a1->f3.f1;
    v7.f2 = a1->f3.f2;
    v7.f3.f0 = a1->f3.f3.f0;
    v7.f3.f1 = a1->f3.f3.f1;
    v7.f3.f2 = a1->f3.f3.f2;
    v7.f3.f3 = a1->f3.f3.f3;
    v7.f4.f0.tag = a1->f3.f4.f0.tag;
    v7.f4.f0.u64_0 = a1->f3.f4.f0.u64_0;
    v7.f4.f0.bool_0 = a1->f3.f4.f0.bool_0;
    v7.f4.f0.u64_1 = a1->f3.f4.f0.u64_1;
    v7.f4.f1.tag = a1->f3.f4.f1.tag;
    v7.f4.f1.bool_0 = a1->f3.f4.f1.bool_0;
    v7.f4.f1.u64_0 = a1->f3.f4.f1.u64_0;
    v7.f4.f1.u64_1 = a1->f3.f4.f1.u64_1;
    v7.f4.f2 = a1->f3.f4.f2;
    v7.f4.f3 = a1->f3.f4.f3;
    v8.f0.tag = a3->tag;
    v8.f0.u64_0 = a3->u64_0;
    v8.f0.u64_1 = a3->u64_1;
    v8.f0.c2_target__Effect_0.tag = a3->c2_target__Effect_0.tag;
    v8.f0.c2_target__Effect_0.u64_0 = a3->c2_target__Effect_0.u64_0;
    v8.f1 = v5;
    v8.f2 = v6;
    v8.f3.f0 = v7.f0;
    v8.f3.f1 = v7.f1;
    v8.f3.f2 = v7.f2;
    v8.f3.f3.f0 = v7.f3.f0;
    v8.f3.f3.f1 = v7.f3.f1;
    v8.f3.f3.f2 = v7.f3.f2;
    v8.f3.f3.f3 = v7.f3.f3;
    v8.f3.f4.f0.tag = v7.f4.f0.tag;
    v8.f3.f4.f0.u64_0 = v7.f4.f0.u64_0;
    v8.f3.f4.f0.bool_0 = v7.f4.f0.bool_0;
    v8.f3.f4.f0.u64_1 = v7.f4.f0.u64_1;
    v8.f3.f4.f1.tag = v7.f4.f1.tag;
    v8.f3.f4.f1.bool_0 = v7.f4.f1.bool_0;
    v8.f3.f4.f1.u64_0 = v7.f4.f1.u64_0;
    v8.f3.f4.f1.u64_1 = v7.f4.f1.u64_1;
    v8.f3.f4.f2 = v7.f4.f2;
    v8.f3.f4.f3 = v7.f4.f3;
    result.f0 = v4;
    result.f1.f0.tag = v8.f0.tag;
    result.f1.f0.u64_0 = v8.f0.u64_0;
    result.f1.f0.u64_1 = v8.f0.u64_1;
    result.f1.f0.c2_target__Effect_0.tag = v8.f0.c2_target__Effect_0.tag;
    result.f1.f0.c2_target__Effect_0.u64_0 = v8.f0.c2_target__Effect_0.u64_0;
    result.f1.f1 = v8.f1;
    result.f1.f2 = v8.f2;
    result.f1.f3.f0 = v8.f3.f0;
    result.f1.f3.f1 = v8.f3.f1;
    result.f1.f3.f2 = v8.f3.f2;
    result.f1.f3.f3.f0 = v8.f3.f3.f0;
    result.f1.f3.f3.f1 = v8.f3.f3.f1;
    result.f1.f3.f3.f2 = v8.f3.f3.f2;
    result.f1.f3.f3.f3 = v8.f3.f3.f3;
    result.f1.f3.f4.f0.tag = v8.f3.f4.f0.tag;
    result.f1.f3.f4.f0.u64_0 = v8.f3.f4.f0.u64_0;
    result.f1.f3.f4.f0.bool_0 = v8.f3.f4.f0.bool_0;
    result.f1.f3.f4.f0.u64_1 = v8.f3.f4.f0.u64_1;
    result.f1.f3.f4.f1.tag = v8.f3.f4.f1.tag;
    result.f1.f3.f4.f1.bool_0 = v8.f3.f4.f1.bool_0;
    result.f1.f3.f4.f1.u64_0 = v8.f3.f4.f1.u64_0;
    result.f1.f3.f4.f1.u64_1 = v8.f3.f4.f1.u64_1;
    result.f1.f3.f4.f2 = v8.f3.f4.f2;
    result.f1.f3.f4.f3 = v8.f3.f4.f3;
    return result;
}

/* c2_target_step::interface::counted */
static c2_target__Link c2_target_step__interface__counted(const c2_target__Link *a1)
{
    c2_target__Link result;
    _Bool v2;
    c2_target__Link v3;
    uint64_t v4;
    c2_target__Command v5;
    c2_target__Output v6;
    uint64_t v7;
    uint64_t v8;
    c2_target__Command v9;
    c2_target__Output v10;
    uint64_t v11;
    v2 = UINT64_C(0) < a1->f2;
    if (v2) {
        v4 = a1->f2 - UINT64_C(1);
        v5.tag = a1->f0.tag;
        v5.u64_0 = a1->f0.u64_0;
        v5.bool_0 = a1->f0.bool_0;
        v5.u64_1 = a1->f0.u64_1;
        v6.tag = a1->f1.tag;
        v6.bool_0 = a1->f1.bool_0;
        v6.u64_0 = a1->f1.u64_0;
        v6.u64_1 = a1->f1.u64_1;
        v7 = a1->f3;
        v3.f0.tag = v5.tag;
        v3.f0.u64_0 = v5.u64_0;
        v3.f0.bool_0 = v5.bool_0;
        v3.f0.u64_1 = v5.u64_1;
        v3.f1.tag = v6.tag;
        v3.f1.bool_0 = v6.bool_0;
        v3.f1.u64_0 = v6.u64_0;
        v3.f1.u64_1 = v6.u64_1;
        v3.f2 = v4;
        v3.f3 = v7;
    } else {
        v8 = core__int__usize__saturating_sub(a1->f3, UINT64_C(1));
        v9.tag = a1->f0.tag;
        v9.u64_0 = a1->f0.u64_0;
        v9.bool_0 = a1->f0.bool_0;
        v9.u64_1 = a1->f0.u64_1;
        v10.tag = a1->f1.tag;
        v10.bool_0 = a1->f1.bool_0;
        v10.u64_0 = a1->f1.u64_0;
        v10.u64_1 = a1->f1.u64_1;
        v11 = a1->f2;
        v3.f0.tag = v9.tag;
        v3.f0.u64_0 = v9.u64_0;
        v3.f0.bool_0 = v9.bool_0;
        v3.f0.u64_1 = v9.u64_1;
        v3.f1.tag = v10.tag;
        v3.f1.bool_0 = v10.bool_0;
        v3.f1.u64_0 = v10.u64_0;
        v3.f1.u64_1 = v10.u64_1;
        v3.f2 = v11;
        v3.f3 = v8;
    }
    result.f0.tag = v3.f0.tag;
    result.f0.u64_0 = v3.f0.u64_0;
    result.f0.bool_0 = v3.f0.bool_0;
    result.f0.u64_1 = v3.f0.u64_1;
    result.f1.tag = v3.f1.tag;
    result.f1.bool_0 = v3.f1.bool_0;
    result.f1.u64_0 = v3.f1.u64_0;
    result.f1.u64_1 = v3.f1.u64_1;
    result.f2 = v3.f2;
    result.f3 = v3.f3;
    return result;
}

/* c2_target_step::interface::served */
static c2_target__Target c2_target_step__interface__served(const c2_target__Target *a1, uint64_t a2,
    const c2_target__Link *a3, uint64_t a4)
{
    c2_target__Target result;
    uint64_t v5;
    _Bool v6;
    c2_target__Met v7;
    c2_target__Device v8;
    v5 = a1->f3.f0;
    v6 = a1->f3.f1;
    v7.f0 = a1->f3.f3.f0;
    v7.f1 = a1->f3.f3.f1;
    v7.f2 = a1->f3.f3.f2;
    v7.f3 = a1->f3.f3.f3;
    v8.f0 = v5;
    v8.f1 = v6;
    v8.f2 = a2;
    v8.f3.f0 = v7.f0;
    v8.f3.f1 = v7.f1;
    v8.f3.f2 = v7.f2;
    v8.f3.f3 = v7.f3;
    v8.f4.f0.tag = a3->f0.tag;
    v8.f4.f0.u64_0 = a3->f0.u64_0;
    v8.f4.f0.bool_0 = a3->f0.bool_0;
    v8.f4.f0.u64_1 = a3->f0.u64_1;
    v8.f4.f1.tag = a3->f1.tag;
    v8.f4.f1.bool_0 = a3->f1.bool_0;
    v8.f4.f1.u64_0 = a3->f1.u64_0;
    v8.f4.f1.u64_1 = a3->f1.u64_1;
    v8.f4.f2 = a3->f2;
    v8.f4.f3 = a3->f3;
    result = c2_target_step__interface__idle(a1, a4, &v8);
    return result;
}

/* c2_target_step::interface::counts_down */
static c2_target__Target c2_target_step__interface__counts_down(const c2_target__Target *a1,
    const c2_settings *a2)
{
    c2_target__Target result;
    c2_target__Device v3;
    c2_target__Link v4;
    _Bool v5;
    c2_target__Link v6;
    c2_target__Link v7;
    v3.f0 = a1->f3.f0;
    v3.f1 = a1->f3.f1;
    v3.f2 = a1->f3.f2;
    v3.f3.f0 = a1->f3.f3.f0;
    v3.f3.f1 = a1->f3.f3.f1;
    v3.f3.f2 = a1->f3.f3.f2;
    v3.f3.f3 = a1->f3.f3.f3;
    v3.f4.f0.tag = a1->f3.f4.f0.tag;
    v3.f4.f0.u64_0 = a1->f3.f4.f0.u64_0;
    v3.f4.f0.bool_0 = a1->f3.f4.f0.bool_0;
    v3.f4.f0.u64_1 = a1->f3.f4.f0.u64_1;
    v3.f4.f1.tag = a1->f3.f4.f1.tag;
    v3.f4.f1.bool_0 = a1->f3.f4.f1.bool_0;
    v3.f4.f1.u64_0 = a1->f3.f4.f1.u64_0;
    v3.f4.f1.u64_1 = a1->f3.f4.f1.u64_1;
    v3.f4.f2 = a1->f3.f4.f2;
    v3.f4.f3 = a1->f3.f4.f3;
    v5 = c2_target_step__interface__linked(&v3, a2);
    if (v5) {
        v7.f0.tag = v3.f4.f0.tag;
        v7.f0.u64_0 = v3.f4.f0.u64_0;
        v7.f0.bool_0 = v3.f4.f0.bool_0;
        v7.f0.u64_1 = v3.f4.f0.u64_1;
        v7.f1.tag = v3.f4.f1.tag;
        v7.f1.bool_0 = v3.f4.f1.bool_0;
        v7.f1.u64_0 = v3.f4.f1.u64_0;
        v7.f1.u64_1 = v3.f4.f1.u64_1;
        v7.f2 = v3.f4.f2;
        v7.f3 = v3.f4.f3;
        v6 = c2_target_step__interface__counted(&v7);
    } else {
        v6.f0.tag = v3.f4.f0.tag;
        v6.f0.u64_0 = v3.f4.f0.u64_0;
        v6.f0.bool_0 = v3.f4.f0.bool_0;
        v6.f0.u64_1 = v3.f4.f0.u64_1;
        v6.f1.tag = v3.f4.f1.tag;
        v6.f1.bool_0 = v3.f4.f1.bool_0;
        v6.f1.u64_0 = v3.f4.f1.u64_0;
        v6.f1.u64_1 = v3.f4.f1.u64_1;
        v6.f2 = v3.f4.f2;
        v6.f3 = v3.f4.f3;
    }
    v4.f0.tag = v6.f0.tag;
    v4.f0.u64_0 = v6.f0.u64_0;
    v4.f0.bool_0 = v6.f0.bool_0;
    v4.f0.u64_1 = v6.f0.u64_1;
    v4.f1.tag = v6.f1.tag;
    v4.f1.bool_0 = v6.f1.bool_0;
    v4.f1.u64_0 = v6.f1.u64_0;
    v4.f1.u64_1 = v6.f1.u64_1;
    v4.f2 = v6.f2;
    v4.f3 = v6.f3;
    result = c2_target_step__interface__served(a1, v3.f2, &v4, a1->f1);
    return result;
}

/* c2_target_step::commands::other_bytes */
static c2_target__Output c2_target_step__commands__other_bytes(const c2_target__Output *a1, slice_u8 a2)
{
    c2_target__Output result;
    uint64_t v3;
    uint64_t v4;
    uint64_t v5;
    uint64_t v6;
    c2_target__Output v7;
    _Bool v8;
    uint64_t v9;
    uint64_t v10;
    (void)a2;
    switch (a1->tag) {
    case 2u:
        v3 = a1->u64_0;
        v4 = a1->u64_1;
        v7.tag = 3u;
        v7.u64_0 = v3;
        v7.u64_1 = v4;
        v7.bool_0 = 0;
        goto end1;
    case 3u:
        v5 = a1->u64_0;
        v6 = a1->u64_1;
        v8 = UINT64_C(1) < v6;
        if (v8) {
            v9 = v5 + UINT64_C(1);
            v10 = v6 - UINT64_C(1);
            v7.tag = 3u;
            v7.u64_0 = v9;
            v7.u64_1 = v10;
            v7.bool_0 = 0;
            goto end1;
        }
        goto end2;
    default: /* 0, 1 */
        goto end2;
    }
    end2:;
    v7.tag = 0u;
    v7.bool_0 = 0;
    v7.u64_0 = 0;
    v7.u64_1 = 0;
    end1:;
    result.tag = v7.tag;
    result.bool_0 = v7.bool_0;
    result.u64_0 = v7.u64_0;
    result.u64_1 = v7.u64_1;
    return result;
}

/* c2_target_step::interface::awaits */
static c2_target__Target c2_target_step__interface__awaits(const c2_target__Target *a1, uint64_t a2,
    const core__tuple_Command_Output *a3, uint64_t a4, uint64_t a5, slice_u8 a6)
{
    c2_target__Target result;
    c2_target__Command v7;
    c2_target__Output v8;
    uint64_t v9;
    uint64_t v10;
    core__tuple_u64_u64 v11;
    _Bool v12;
    core__tuple_u64_u64 v13;
    uint64_t v14;
    uint64_t v15;
    c2_target__Link v16;
    v7.tag = a3->f0.tag;
    v7.u64_0 = a3->f0.u64_0;
    v7.bool_0 = a3->f0.bool_0;
    v7.u64_1 = a3->f0.u64_1;
    v8.tag = a3->f1.tag;
    v8.bool_0 = a3->f1.bool_0;
    v8.u64_0 = a3->f1.u64_0;
    v8.u64_1 = a3->f1.u64_1;
    v12 = c2_target_step__commands__some_output(&v8);
    if (v12) {
        v14 = c2_target_step__delays__delay(a6, a5);
        v15 = c2_target_step__delays__next_place(a6, a5);
        v13.f0 = v14;
        v13.f1 = v15;
    } else {
        v13.f0 = UINT64_C(0);
        v13.f1 = a5;
    }
    v11.f0 = v13.f0;
    v11.f1 = v13.f1;
    v9 = v11.f0;
    v10 = v11.f1;
    v16.f0.tag = v7.tag;
    v16.f0.u64_0 = v7.u64_0;
    v16.f0.bool_0 = v7.bool_0;
    v16.f0.u64_1 = v7.u64_1;
    v16.f1.tag = v8.tag;
    v16.f1.bool_0 = v8.bool_0;
    v16.f1.u64_0 = v8.u64_0;
    v16.f1.u64_1 = v8.u64_1;
    v16.f2 = a4;
    v16.f3 = v9;
    result = c2_target_step__interface__served(a1, a2, &v16, v10);
    return result;
}

/* c2_target_step::interface::gets */
static c2_target__Target c2_target_step__interface__gets(const c2_target__Target *a1, slice_u8 a2,
    slice_u8 a3)
{
    c2_target__Target result;
    c2_target__Device v4;
    c2_target__Link v5;
    core__tuple_Command_Output v6;
    _Bool v7;
    c2_target__Target v8;
    c2_target__Command v9;
    c2_target__Output v10;
    c2_target__Output v11;
    v4.f0 = a1->f3.f0;
    v4.f1 = a1->f3.f1;
    v4.f2 = a1->f3.f2;
    v4.f3.f0 = a1->f3.f3.f0;
    v4.f3.f1 = a1->f3.f3.f1;
    v4.f3.f2 = a1->f3.f3.f2;
    v4.f3.f3 = a1->f3.f3.f3;
    v4.f4.f0.tag = a1->f3.f4.f0.tag;
    v4.f4.f0.u64_0 = a1->f3.f4.f0.u64_0;
    v4.f4.f0.bool_0 = a1->f3.f4.f0.bool_0;
    v4.f4.f0.u64_1 = a1->f3.f4.f0.u64_1;
    v4.f4.f1.tag = a1->f3.f4.f1.tag;
    v4.f4.f1.bool_0 = a1->f3.f4.f1.bool_0;
    v4.f4.f1.u64_0 = a1->f3.f4.f1.u64_0;
    v4.f4.f1.u64_1 = a1->f3.f4.f1.u64_1;
    v4.f4.f2 = a1->f3.f4.f2;
    v4.f4.f3 = a1->f3.f4.f3;
    v5.f0.tag = v4.f4.f0.tag;
    v5.f0.u64_0 = v4.f4.f0.u64_0;
    v5.f0.bool_0 = v4.f4.f0.bool_0;
    v5.f0.u64_1 = v4.f4.f0.u64_1;
    v5.f1.tag = v4.f4.f1.tag;
    v5.f1.bool_0 = v4.f4.f1.bool_0;
    v5.f1.u64_0 = v4.f4.f1.u64_0;
    v5.f1.u64_1 = v4.f4.f1.u64_1;
    v5.f2 = v4.f4.f2;
    v5.f3 = v4.f4.f3;
    v7 = c2_target_step__interface__out_ready(&v5);
    if (v7) {
        v9.tag = v5.f0.tag;
        v9.u64_0 = v5.f0.u64_0;
        v9.bool_0 = v5.f0.bool_0;
        v9.u64_1 = v5.f0.u64_1;
        v11.tag = v5.f1.tag;
        v11.bool_0 = v5.f1.bool_0;
        v11.u64_0 = v5.f1.u64_0;
        v11.u64_1 = v5.f1.u64_1;
        v10 = c2_target_step__commands__other_bytes(&v11, a2);
        v6.f0.tag = v9.tag;
        v6.f0.u64_0 = v9.u64_0;
        v6.f0.bool_0 = v9.bool_0;
        v6.f0.u64_1 = v9.u64_1;
        v6.f1.tag = v10.tag;
        v6.f1.bool_0 = v10.bool_0;
        v6.f1.u64_0 = v10.u64_0;
        v6.f1.u64_1 = v10.u64_1;
        v8 = c2_target_step__interface__awaits(a1, v4.f2, &v6, v5.f2, a1->f1, a3);
    } else {
        v8 = c2_target_step__interface__served(a1, v4.f2, &v5, a1->f1);
    }
    result.f0.tag = v8.f0.tag;
    result.f0.u64_0 = v8.f0.u64_0;
    result.f0.u64_1 = v8.f0.u64_1;
    result.f0.c2_target__Effect_0.tag = v8.f0.c2_target__Effect_0.tag;
    result.f0.c2_target__Effect_0.u64_0 = v8.f0.c2_target__Effect_0.u64_0;
    result.f1 = v8.f1;
    result.f2 = v8.f2;
    result.f3.f0 = v8.f3.f0;
    result.f3.f1 = v8.f3.f1;
    result.f3.f2 = v8.f3.f2;
    result.f3.f3.f0 = v8.f3.f3.f0;
    result.f3.f3.f1 = v8.f3.f3.f1;
    result.f3.f3.f2 = v8.f3.f3.f2;
    result.f3.f3.f3 = v8.f3.f3.f3;
    result.f3.f4.f0.tag = v8.f3.f4.f0.tag;
    result.f3.f4.f0.u64_0 = v8.f3.f4.f0.u64_0;
    result.f3.f4.f0.bool_0 = v8.f3.f4.f0.bool_0;
    result.f3.f4.f0.u64_1 = v8.f3.f4.f0.u64_1;
    result.f3.f4.f1.tag = v8.f3.f4.f1.tag;
    result.f3.f4.f1.bool_0 = v8.f3.f4.f1.bool_0;
    result.f3.f4.f1.u64_0 = v8.f3.f4.f1.u64_0;
    result.f3.f4.f1.u64_1 = v8.f3.f4.f1.u64_1;
    result.f3.f4.f2 = v8.f3.f4.f2;
    result.f3.f4.f3 = v8.f3.f4.f3;
    return result;
}

/* c2_target_step::interface::reads */
static c2_target__Target c2_target_step__interface__reads(const c2_target__Target *a1,
    const c2_target_step__Lent *a2, slice_u8 a3)
{
    c2_target__Target result;
    c2_target__Device v4;
    _Bool v5;
    c2_settings v6;
    c2_target__Target v7;
    slice_u8 v8;
    c2_target__Link v9;
    v4.f0 = a1->f3.f0;
    v4.f1 = a1->f3.f1;
    v4.f2 = a1->f3.f2;
    v4.f3.f0 = a1->f3.f3.f0;
    v4.f3.f1 = a1->f3.f3.f1;
    v4.f3.f2 = a1->f3.f3.f2;
    v4.f3.f3 = a1->f3.f3.f3;
    v4.f4.f0.tag = a1->f3.f4.f0.tag;
    v4.f4.f0.u64_0 = a1->f3.f4.f0.u64_0;
    v4.f4.f0.bool_0 = a1->f3.f4.f0.bool_0;
    v4.f4.f0.u64_1 = a1->f3.f4.f0.u64_1;
    v4.f4.f1.tag = a1->f3.f4.f1.tag;
    v4.f4.f1.bool_0 = a1->f3.f4.f1.bool_0;
    v4.f4.f1.u64_0 = a1->f3.f4.f1.u64_0;
    v4.f4.f1.u64_1 = a1->f3.f4.f1.u64_1;
    v4.f4.f2 = a1->f3.f4.f2;
    v4.f4.f3 = a1->f3.f4.f3;
    v6.device_id = a2->f0.device_id;
    v6.fpdat = a2->f0.fpdat;
    v6.page_size = a2->f0.page_size;
    v6.page_count = a2->f0.page_count;
    v6.wait_limit = a2->f0.wait_limit;
    v6.pairs.count = a2->f0.pairs.count;
    v6.pairs.registers[0] = a2->f0.pairs.registers[0];
    v6.pairs.registers[1] = a2->f0.pairs.registers[1];
    v6.pairs.registers[2] = a2->f0.pairs.registers[2];
    v6.pairs.registers[3] = a2->f0.pairs.registers[3];
    v6.pairs.values[0] = a2->f0.pairs.values[0];
    v6.pairs.values[1] = a2->f0.pairs.values[1];
    v6.pairs.values[2] = a2->f0.pairs.values[2];
    v6.pairs.values[3] = a2->f0.pairs.values[3];
    v5 = c2_target_step__interface__linked(&v4, &v6);
    if (v5) {
        v8.at = a2->f2.at;
        v8.length = a2->f2.length;
        v7 = c2_target_step__interface__gets(a1, a3, v8);
    } else {
        v9.f0.tag = v4.f4.f0.tag;
        v9.f0.u64_0 = v4.f4.f0.u64_0;
        v9.f0.bool_0 = v4.f4.f0.bool_0;
        v9.f0.u64_1 = v4.f4.f0.u64_1;
        v9.f1.tag = v4.f4.f1.tag;
        v9.f1.bool_0 = v4.f4.f1.bool_0;
        v9.f1.u64_0 = v4.f4.f1.u64_0;
        v9.f1.u64_1 = v4.f4.f1.u64_1;
        v9.f2 = v4.f4.f2;
        v9.f3 = v4.f4.f3;
        v7 = c2_target_step__interface__served(a1, v4.f2, &v9, a1->f1);
    }
    result.f0.tag = v7.f0.tag;
    result.f0.u64_0 = v7.f0.u64_0;
    result.f0.u64_1 = v7.f0.u64_1;
    result.f0.c2_target__Effect_0.tag = v7.f0.c2_target__Effect_0.tag;
    result.f0.c2_target__Effect_0.u64_0 = v7.f0.c2_target__Effect_0.u64_0;
    result.f1 = v7.f1;
    result.f2 = v7.f2;
    result.f3.f0 = v7.f3.f0;
    result.f3.f1 = v7.f3.f1;
    result.f3.f2 = v7.f3.f2;
    result.f3.f3.f0 = v7.f3.f3.f0;
    result.f3.f3.f1 = v7.f3.f3.f1;
    result.f3.f3.f2 = v7.f3.f3.f2;
    result.f3.f3.f3 = v7.f3.f3.f3;
    result.f3.f4.f0.tag = v7.f3.f4.f0.tag;
    result.f3.f4.f0.u64_0 = v7.f3.f4.f0.u64_0;
    result.f3.f4.f0.bool_0 = v7.f3.f4.f0.bool_0;
    result.f3.f4.f0.u64_1 = v7.f3.f4.f0.u64_1;
    result.f3.f4.f1.tag = v7.f3.f4.f1.tag;
    result.f3.f4.f1.bool_0 = v7.f3.f4.f1.bool_0;
    result.f3.f4.f1.u64_0 = v7.f3.f4.f1.u64_0;
    result.f3.f4.f1.u64_1 = v7.f3.f4.f1.u64_1;
    result.f3.f4.f2 = v7.f3.f4.f2;
    result.f3.f4.f3 = v7.f3.f4.f3;
    return result;
}

/* c2_target_step::interface::next_keys */
static uint64_t c2_target_step__interface__next_keys(uint64_t a1, uint64_t a2, uint8_t a3)
{
    uint64_t result;
    _Bool v4;
    uint64_t v5;
    uint8_t v6;
    uint64_t v7;
    uint64_t v8;
    v5 = core__convert__UsizeFromU8__from(2u);
    v4 = a1 == v5;
    v6 = a3;
    v7 = a2;
    if (v4) {
        switch (v6) {
        case 2u:
            v8 = UINT64_C(1);
            goto end1;
        case 4u:
            switch (v7) {
            case 1u:
                v8 = UINT64_C(2);
                goto end1;
            default:
                goto end2;
            }
        case 1u:
            switch (v7) {
            case 2u:
                v8 = UINT64_C(3);
                goto end1;
            default:
                goto end2;
            }
        default:
            goto end2;
        }
    } else {
        goto end2;
    }
    end2:;
    v8 = UINT64_C(0);
    end1:;
    result = v8;
    return result;
}

/* c2_target_step::commands::byte_taken */
static core__tuple_Command_Output c2_target_step__commands__byte_taken(uint64_t a1, uint64_t a2, slice_u8 a3)
{
    core__tuple_Command_Output result;
    c2_target__Command v4;
    _Bool v5;
    core__tuple_Command_Output v6;
    uint64_t v7;
    uint64_t v8;
    c2_target__Output v9;
    c2_target__Command v10;
    c2_target__Output v11;
    (void)a3;
    v5 = UINT64_C(1) < a2;
    if (v5) {
        v7 = a1 + UINT64_C(1);
        v8 = a2 - UINT64_C(1);
        v4.tag = 6u;
        v4.u64_0 = v7;
        v4.u64_1 = v8;
        v4.bool_0 = 0;
        v9.tag = 0u;
        v9.bool_0 = 0;
        v9.u64_0 = 0;
        v9.u64_1 = 0;
        v6.f0.tag = v4.tag;
        v6.f0.u64_0 = v4.u64_0;
        v6.f0.bool_0 = v4.bool_0;
        v6.f0.u64_1 = v4.u64_1;
        v6.f1.tag = v9.tag;
        v6.f1.bool_0 = v9.bool_0;
        v6.f1.u64_0 = v9.u64_0;
        v6.f1.u64_1 = v9.u64_1;
    } else {
        v10.tag = 0u;
        v10.u64_0 = 0;
        v10.bool_0 = 0;
        v10.u64_1 = 0;
        v11.tag = 1u;
        v11.bool_0 = 1;
        v11.u64_0 = 0;
        v11.u64_1 = 0;
        v6.f0.tag = v10.tag;
        v6.f0.u64_0 = v10.u64_0;
        v6.f0.bool_0 = v10.bool_0;
        v6.f0.u64_1 = v10.u64_1;
        v6.f1.tag = v11.tag;
        v6.f1.bool_0 = v11.bool_0;
        v6.f1.u64_0 = v11.u64_0;
        v6.f1.u64_1 = v11.u64_1;
    }
    result.f0.tag = v6.f0.tag;
    result.f0.u64_0 = v6.f0.u64_0;
    result.f0.bool_0 = v6.f0.bool_0;
    result.f0.u64_1 = v6.f0.u64_1;
    result.f1.tag = v6.f1.tag;
    result.f1.bool_0 = v6.f1.bool_0;
    result.f1.u64_0 = v6.f1.u64_0;
    result.f1.u64_1 = v6.f1.u64_1;
    return result;
}

/* c2_target_step::commands::goes_on */
static core__tuple_Command_Output c2_target_step__commands__goes_on(_Bool a1, const c2_target__Command *a2)
{
    core__tuple_Command_Output result;
    c2_target__Command v3;
    _Bool v4;
    c2_target__Command v5;
    c2_target__Output v6;
    v4 = a1;
    if (v4) {
        v5.tag = a2->tag;
        v5.u64_0 = a2->u64_0;
        v5.bool_0 = a2->bool_0;
        v5.u64_1 = a2->u64_1;
    } else {
        v5.tag = 0u;
        v5.u64_0 = 0;
        v5.bool_0 = 0;
        v5.u64_1 = 0;
    }
    v3.tag = v5.tag;
    v3.u64_0 = v5.u64_0;
    v3.bool_0 = v5.bool_0;
    v3.u64_1 = v5.u64_1;
    v6.tag = 1u;
    v6.bool_0 = a1;
    v6.u64_0 = 0;
    v6.u64_1 = 0;
    result.f0.tag = v3.tag;
    result.f0.u64_0 = v3.u64_0;
    result.f0.bool_0 = v3.bool_0;
    result.f0.u64_1 = v3.u64_1;
    result.f1.tag = v6.tag;
    result.f1.bool_0 = v6.bool_0;
    result.f1.u64_0 = v6.u64_0;
    result.f1.u64_1 = v6.u64_1;
    return result;
}

/* c2_target_step::commands::coded_length */
static uint64_t c2_target_step__commands__coded_length(uint8_t a1)
{
    uint64_t result;
    _Bool v2;
    uint64_t v3;
    v2 = a1 == 0u;
    if (v2) {
        v3 = UINT64_C(256);
    } else {
        v3 = core__convert__UsizeFromU8__from(a1);
    }
    result = v3;
    return result;
}

/* c2_target_step::flash::in_flash */
static _Bool c2_target_step__flash__in_flash(uint64_t a1, uint64_t a2, slice_u8 a3)
{
    _Bool result;
    _Bool v4;
    uint64_t v5;
    uint64_t v6;
    uint64_t v7;
    v5 = a3.length;
    v4 = a1 <= v5;
    if (v4) {
        v6 = a3.length;
        v7 = v6 - a1;
        v4 = a2 <= v7;
    }
    result = v4;
    return result;
}

/* c2_target_step::commands::length_taken */
static core__tuple_Command_Output c2_target_step__commands__length_taken(_Bool a1, uint64_t a2, uint8_t a3,
    slice_u8 a4)
{
    core__tuple_Command_Output result;
    uint64_t v5;
    _Bool v6;
    _Bool v7;
    core__tuple_Command_Output v8;
    c2_target__Command v9;
    c2_target__Output v10;
    c2_target__Command v11;
    c2_target__Output v12;
    c2_target__Command v13;
    c2_target__Output v14;
    c2_target__Command v15;
    c2_target__Output v16;
    v5 = c2_target_step__commands__coded_length(a3);
    v6 = a1;
    v7 = c2_target_step__flash__in_flash(a2, v5, a4);
    if (v6) {
        if (v7) {
            v9.tag = 6u;
            v9.u64_0 = a2;
            v9.u64_1 = v5;
            v9.bool_0 = 0;
            v10.tag = 0u;
            v10.bool_0 = 0;
            v10.u64_0 = 0;
            v10.u64_1 = 0;
            v8.f0.tag = v9.tag;
            v8.f0.u64_0 = v9.u64_0;
            v8.f0.bool_0 = v9.bool_0;
            v8.f0.u64_1 = v9.u64_1;
            v8.f1.tag = v10.tag;
            v8.f1.bool_0 = v10.bool_0;
            v8.f1.u64_0 = v10.u64_0;
            v8.f1.u64_1 = v10.u64_1;
        } else {
            v11.tag = 7u;
            v11.u64_0 = v5;
            v11.bool_0 = 0;
            v11.u64_1 = 0;
            v12.tag = 0u;
            v12.bool_0 = 0;
            v12.u64_0 = 0;
            v12.u64_1 = 0;
            v8.f0.tag = v11.tag;
            v8.f0.u64_0 = v11.u64_0;
            v8.f0.bool_0 = v11.bool_0;
            v8.f0.u64_1 = v11.u64_1;
            v8.f1.tag = v12.tag;
            v8.f1.bool_0 = v12.bool_0;
            v8.f1.u64_0 = v12.u64_0;
            v8.f1.u64_1 = v12.u64_1;
        }
    } else {
        if (v7) {
            v13.tag = 0u;
            v13.u64_0 = 0;
            v13.bool_0 = 0;
            v13.u64_1 = 0;
            v14.tag = 2u;
            v14.u64_0 = a2;
            v14.u64_1 = v5;
            v14.bool_0 = 0;
            v8.f0.tag = v13.tag;
            v8.f0.u64_0 = v13.u64_0;
            v8.f0.bool_0 = v13.bool_0;
            v8.f0.u64_1 = v13.u64_1;
            v8.f1.tag = v14.tag;
            v8.f1.bool_0 = v14.bool_0;
            v8.f1.u64_0 = v14.u64_0;
            v8.f1.u64_1 = v14.u64_1;
        } else {
            v15.tag = 0u;
            v15.u64_0 = 0;
            v15.bool_0 = 0;
            v15.u64_1 = 0;
            v16.tag = 1u;
            v16.bool_0 = 0;
            v16.u64_0 = 0;
            v16.u64_1 = 0;
            v8.f0.tag = v15.tag;
            v8.f0.u64_0 = v15.u64_0;
            v8.f0.bool_0 = v15.bool_0;
            v8.f0.u64_1 = v15.u64_1;
            v8.f1.tag = v16.tag;
            v8.f1.bool_0 = v16.bool_0;
            v8.f1.u64_0 = v16.u64_0;
            v8.f1.u64_1 = v16.u64_1;
        }
    }
    result.f0.tag = v8.f0.tag;
    result.f0.u64_0 = v8.f0.u64_0;
    result.f0.bool_0 = v8.f0.bool_0;
    result.f0.u64_1 = v8.f0.u64_1;
    result.f1.tag = v8.f1.tag;
    result.f1.bool_0 = v8.f1.bool_0;
    result.f1.u64_0 = v8.f1.u64_0;
    result.f1.u64_1 = v8.f1.u64_1;
    return result;
}

/* c2_target_step::commands::opens */
static core__tuple_Command_Output c2_target_step__commands__opens(_Bool a1, uint8_t a2)
{
    core__tuple_Command_Output result;
    core__tuple_Command_Output v3;
    c2_target__Command v4;
    c2_target__Command v5;
    c2_target__Command v6;
    c2_target__Command v7;
    switch (a2) {
    case 8u:
        v4.tag = 1u;
        v4.u64_0 = 0;
        v4.bool_0 = 0;
        v4.u64_1 = 0;
        v3 = c2_target_step__commands__goes_on(a1, &v4);
        break;
    case 7u:
        v5.tag = 3u;
        v5.bool_0 = 1;
        v5.u64_0 = 0;
        v5.u64_1 = 0;
        v3 = c2_target_step__commands__goes_on(a1, &v5);
        break;
    case 6u:
        v6.tag = 3u;
        v6.bool_0 = 0;
        v6.u64_0 = 0;
        v6.u64_1 = 0;
        v3 = c2_target_step__commands__goes_on(1, &v6);
        break;
    default:
        v7.tag = 0u;
        v7.u64_0 = 0;
        v7.bool_0 = 0;
        v7.u64_1 = 0;
        v3 = c2_target_step__commands__goes_on(0, &v7);
        break;
    }
    result.f0.tag = v3.f0.tag;
    result.f0.u64_0 = v3.f0.u64_0;
    result.f0.bool_0 = v3.f0.bool_0;
    result.f0.u64_1 = v3.f0.u64_1;
    result.f1.tag = v3.f1.tag;
    result.f1.bool_0 = v3.f1.bool_0;
    result.f1.u64_0 = v3.f1.u64_0;
    result.f1.u64_1 = v3.f1.u64_1;
    return result;
}

/* c2_target_step::commands::past_end_taken */
static core__tuple_Command_Output c2_target_step__commands__past_end_taken(uint64_t a1)
{
    core__tuple_Command_Output result;
    _Bool v2;
    core__tuple_Command_Output v3;
    uint64_t v4;
    c2_target__Command v5;
    c2_target__Output v6;
    c2_target__Command v7;
    c2_target__Output v8;
    v2 = UINT64_C(1) < a1;
    if (v2) {
        v4 = a1 - UINT64_C(1);
        v5.tag = 7u;
        v5.u64_0 = v4;
        v5.bool_0 = 0;
        v5.u64_1 = 0;
        v6.tag = 0u;
        v6.bool_0 = 0;
        v6.u64_0 = 0;
        v6.u64_1 = 0;
        v3.f0.tag = v5.tag;
        v3.f0.u64_0 = v5.u64_0;
        v3.f0.bool_0 = v5.bool_0;
        v3.f0.u64_1 = v5.u64_1;
        v3.f1.tag = v6.tag;
        v3.f1.bool_0 = v6.bool_0;
        v3.f1.u64_0 = v6.u64_0;
        v3.f1.u64_1 = v6.u64_1;
    } else {
        v7.tag = 0u;
        v7.u64_0 = 0;
        v7.bool_0 = 0;
        v7.u64_1 = 0;
        v8.tag = 1u;
        v8.bool_0 = 0;
        v8.u64_0 = 0;
        v8.u64_1 = 0;
        v3.f0.tag = v7.tag;
        v3.f0.u64_0 = v7.u64_0;
        v3.f0.bool_0 = v7.bool_0;
        v3.f0.u64_1 = v7.u64_1;
        v3.f1.tag = v8.tag;
        v3.f1.bool_0 = v8.bool_0;
        v3.f1.u64_0 = v8.u64_0;
        v3.f1.u64_1 = v8.u64_1;
    }
    result.f0.tag = v3.f0.tag;
    result.f0.u64_0 = v3.f0.u64_0;
    result.f0.bool_0 = v3.f0.bool_0;
    result.f0.u64_1 = v3.f0.u64_1;
    result.f1.tag = v3.f1.tag;
    result.f1.bool_0 = v3.f1.bool_0;
    result.f1.u64_0 = v3.f1.u64_0;
    result.f1.u64_1 = v3.f1.u64_1;
    return result;
}

/* core::convert::U32FromU8::from */
INLINED uint32_t core__convert__U32FromU8__from(uint8_t a1)
{
    uint32_t result;
    result = (uint32_t)a1;
    return result;
}

/* c2_target_step::commands::takes */
static core__tuple_Command_Output c2_target_step__commands__takes(const c2_settings *a1, _Bool a2,
    const c2_target__Command *a3, uint8_t a4, slice_u8 a5)
{
    core__tuple_Command_Output result;
    uint64_t v6;
    _Bool v7;
    uint64_t v8;
    _Bool v9;
    uint64_t v10;
    uint64_t v11;
    _Bool v12;
    uint64_t v13;
    uint64_t v14;
    uint64_t v15;
    uint64_t v16;
    core__tuple_Command_Output v17;
    uint32_t v18;
    _Bool v19;
    c2_target__Command v20;
    _Bool v21;
    c2_target__Command v22;
    c2_target__Command v23;
    c2_target__Output v24;
    uint64_t v25;
    uint64_t v26;
    c2_target__Command v27;
    c2_target__Output v28;
    switch (a3->tag) {
    case 0u:
        v17 = c2_target_step__commands__opens(a2, a4);
        break;
    case 1u:
        v6 = core__convert__UsizeFromU8__from(a4);
        v18 = core__convert__U32FromU8__from(a4);
        v19 = v18 < a1->page_count;
        v20.tag = 2u;
        v20.u64_0 = v6;
        v20.bool_0 = 0;
        v20.u64_1 = 0;
        v17 = c2_target_step__commands__goes_on(v19, &v20);
        break;
    case 2u:
        v21 = a4 == 0u;
        v22.tag = 0u;
        v22.u64_0 = 0;
        v22.bool_0 = 0;
        v22.u64_1 = 0;
        v17 = c2_target_step__commands__goes_on(v21, &v22);
        break;
    case 3u:
        v7 = a3->bool_0;
        v8 = core__convert__UsizeFromU8__from(a4);
        v23.tag = 4u;
        v23.bool_0 = v7;
        v23.u64_0 = v8;
        v23.u64_1 = 0;
        v24.tag = 0u;
        v24.bool_0 = 0;
        v24.u64_0 = 0;
        v24.u64_1 = 0;
        v17.f0.tag = v23.tag;
        v17.f0.u64_0 = v23.u64_0;
        v17.f0.bool_0 = v23.bool_0;
        v17.f0.u64_1 = v23.u64_1;
        v17.f1.tag = v24.tag;
        v17.f1.bool_0 = v24.bool_0;
        v17.f1.u64_0 = v24.u64_0;
        v17.f1.u64_1 = v24.u64_1;
        break;
    case 4u:
        v9 = a3->bool_0;
        v10 = a3->u64_0;
        v25 = v10 * UINT64_C(256);
        v26 = core__convert__UsizeFromU8__from(a4);
        v11 = v25 + v26;
        v27.tag = 5u;
        v27.bool_0 = v9;
        v27.u64_0 = v11;
        v27.u64_1 = 0;
        v28.tag = 0u;
        v28.bool_0 = 0;
        v28.u64_0 = 0;
        v28.u64_1 = 0;
        v17.f0.tag = v27.tag;
        v17.f0.u64_0 = v27.u64_0;
        v17.f0.bool_0 = v27.bool_0;
        v17.f0.u64_1 = v27.u64_1;
        v17.f1.tag = v28.tag;
        v17.f1.bool_0 = v28.bool_0;
        v17.f1.u64_0 = v28.u64_0;
        v17.f1.u64_1 = v28.u64_1;
        break;
    case 5u:
        v12 = a3->bool_0;
        v13 = a3->u64_0;
        v17 = c2_target_step__commands__length_taken(v12, v13, a4, a5);
        break;
    case 6u:
        v14 = a3->u64_0;
        v15 = a3->u64_1;
        v17 = c2_target_step__commands__byte_taken(v14, v15, a5);
        break;
    default: /* 7 */
        v16 = a3->u64_0;
        v17 = c2_target_step__commands__past_end_taken(v16);
        break;
    }
    result.f0.tag = v17.f0.tag;
    result.f0.u64_0 = v17.f0.u64_0;
    result.f0.bool_0 = v17.f0.bool_0;
    result.f0.u64_1 = v17.f0.u64_1;
    result.f1.tag = v17.f1.tag;
    result.f1.bool_0 = v17.f1.bool_0;
    result.f1.u64_0 = v17.f1.u64_0;
    result.f1.u64_1 = v17.f1.u64_1;
    return result;
}

/* c2_target_wanted::prepared */
static _Bool c2_target_wanted__prepared(const c2_pairs *a1, const c2_target__Met *a2)
{
    _Bool result;
    uint8_t v3;
    _Bool v4;
    _Bool v5;
    _Bool v6;
    _Bool v7;
    _Bool v8;
    _Bool v9;
    _Bool v10;
    v3 = a1->count;
    v7 = v3 == 0u;
    if (!v7) {
        v7 = a2->f0;
    }
    v6 = v7;
    if (v6) {
        v8 = v3 <= 1u;
        if (!v8) {
            v8 = a2->f1;
        }
        v6 = v8;
    }
    v5 = v6;
    if (v5) {
        v9 = v3 <= 2u;
        if (!v9) {
            v9 = a2->f2;
        }
        v5 = v9;
    }
    v4 = v5;
    if (v4) {
        v10 = v3 <= 3u;
        if (!v10) {
            v10 = a2->f3;
        }
        v4 = v10;
    }
    result = v4;
    return result;
}

/* c2_target_step::interface::puts */
static c2_target__Target c2_target_step__interface__puts(const c2_target__Target *a1,
    const c2_target_step__Lent *a2, uint64_t a3, uint8_t a4, slice_u8 a5)
{
    c2_target__Target result;
    _Bool v6;
    core__tuple_Command_Output v7;
    uint64_t v8;
    c2_pairs v9;
    c2_target__Met v10;
    c2_settings v11;
    c2_target__Command v12;
    slice_u8 v13;
    uint64_t v14;
    slice_u8 v15;
    v9.count = a2->f1.count;
    v9.registers[0] = a2->f1.registers[0];
    v9.registers[1] = a2->f1.registers[1];
    v9.registers[2] = a2->f1.registers[2];
    v9.registers[3] = a2->f1.registers[3];
    v9.values[0] = a2->f1.values[0];
    v9.values[1] = a2->f1.values[1];
    v9.values[2] = a2->f1.values[2];
    v9.values[3] = a2->f1.values[3];
    v10.f0 = a1->f3.f3.f0;
    v10.f1 = a1->f3.f3.f1;
    v10.f2 = a1->f3.f3.f2;
    v10.f3 = a1->f3.f3.f3;
    v6 = c2_target_wanted__prepared(&v9, &v10);
    v11.device_id = a2->f0.device_id;
    v11.fpdat = a2->f0.fpdat;
    v11.page_size = a2->f0.page_size;
    v11.page_count = a2->f0.page_count;
    v11.wait_limit = a2->f0.wait_limit;
    v11.pairs.count = a2->f0.pairs.count;
    v11.pairs.registers[0] = a2->f0.pairs.registers[0];
    v11.pairs.registers[1] = a2->f0.pairs.registers[1];
    v11.pairs.registers[2] = a2->f0.pairs.registers[2];
    v11.pairs.registers[3] = a2->f0.pairs.registers[3];
    v11.pairs.values[0] = a2->f0.pairs.values[0];
    v11.pairs.values[1] = a2->f0.pairs.values[1];
    v11.pairs.values[2] = a2->f0.pairs.values[2];
    v11.pairs.values[3] = a2->f0.pairs.values[3];
    v12.tag = a1->f3.f4.f0.tag;
    v12.u64_0 = a1->f3.f4.f0.u64_0;
    v12.bool_0 = a1->f3.f4.f0.bool_0;
    v12.u64_1 = a1->f3.f4.f0.u64_1;
    v7 = c2_target_step__commands__takes(&v11, v6, &v12, a4, a5);
    v13.at = a2->f2.at;
    v13.length = a2->f2.length;
    v8 = c2_target_step__delays__next_place(v13, a1->f1);
    v13.at = a2->f2.at;
    v13.length = a2->f2.length;
    v14 = c2_target_step__delays__delay(v13, a1->f1);
    v15.at = a2->f2.at;
    v15.length = a2->f2.length;
    result = c2_target_step__interface__awaits(a1, a3, &v7, v14, v8, v15);
    return result;
}

/* c2_target_wanted::met_after */
static _Bool c2_target_wanted__met_after(_Bool a1, uint8_t a2, uint8_t a3, uint64_t a4, uint64_t a5, _Bool a6)
{
    _Bool result;
    _Bool v7;
    _Bool v8;
    uint64_t v9;
    _Bool v10;
    uint64_t v11;
    v8 = a1;
    if (v8) {
        v9 = core__convert__UsizeFromU8__from(a2);
        v8 = a4 == v9;
        v10 = v8;
        if (v10) {
            v11 = core__convert__UsizeFromU8__from(a3);
            v7 = a5 == v11;
            goto end1;
        }
    }
    v7 = a6;
    end1:;
    result = v7;
    return result;
}

/* c2_target_wanted::met_written */
static c2_target__Met c2_target_wanted__met_written(const c2_pairs *a1, uint64_t a2, uint64_t a3,
    const c2_target__Met *a4)
{
    c2_target__Met result;
    uint8_t v5;
    array_4_u8 v6;
    array_4_u8 v7;
    _Bool v8;
    _Bool v9;
    const uint8_t *v10;
    const uint8_t *v11;
    uint8_t v12;
    const uint8_t *v13;
    const uint8_t *v14;
    uint8_t v15;
    _Bool v16;
    _Bool v17;
    const uint8_t *v18;
    const uint8_t *v19;
    uint8_t v20;
    const uint8_t *v21;
    const uint8_t *v22;
    uint8_t v23;
    _Bool v24;
    _Bool v25;
    const uint8_t *v26;
    const uint8_t *v27;
    uint8_t v28;
    const uint8_t *v29;
    const uint8_t *v30;
    uint8_t v31;
    _Bool v32;
    _Bool v33;
    const uint8_t *v34;
    const uint8_t *v35;
    uint8_t v36;
    const uint8_t *v37;
    const uint8_t *v38;
    uint8_t v39;
    v5 = a1->count;
    v6.at[0] = a1->registers[0];
    v6.at[1] = a1->registers[1];
    v6.at[2] = a1->registers[2];
    v6.at[3] = a1->registers[3];
    v7.at[0] = a1->values[0];
    v7.at[1] = a1->values[1];
    v7.at[2] = a1->values[2];
    v7.at[3] = a1->values[3];
    v9 = 0u < v5;
    v10 = v6.at;
    v11 = v10 + (size_t)UINT64_C(0);
    v12 = *v11;
    v13 = v7.at;
    v14 = v13 + (size_t)UINT64_C(0);
    v15 = *v14;
    v8 = c2_target_wanted__met_after(v9, v12, v15, a2, a3, a4->f0);
    v17 = 1u < v5;
    v18 = v6.at;
    v19 = v18 + (size_t)UINT64_C(1);
    v20 = *v19;
    v21 = v7.at;
    v22 = v21 + (size_t)UINT64_C(1);
    v23 = *v22;
    v16 = c2_target_wanted__met_after(v17, v20, v23, a2, a3, a4->f1);
    v25 = 2u < v5;
    v26 = v6.at;
    v27 = v26 + (size_t)UINT64_C(2);
    v28 = *v27;
    v29 = v7.at;
    v30 = v29 + (size_t)UINT64_C(2);
    v31 = *v30;
    v24 = c2_target_wanted__met_after(v25, v28, v31, a2, a3, a4->f2);
    v33 = 3u < v5;
    v34 = v6.at;
    v35 = v34 + (size_t)UINT64_C(3);
    v36 = *v35;
    v37 = v7.at;
    v38 = v37 + (size_t)UINT64_C(3);
    v39 = *v38;
    v32 = c2_target_wanted__met_after(v33, v36, v39, a2, a3, a4->f3);
    result.f0 = v8;
    result.f1 = v16;
    result.f2 = v24;
    result.f3 = v32;
    return result;
}

/* c2_target_step::interface::writes */
static c2_target__Target c2_target_step__interface__writes(const c2_target__Target *a1,
    const c2_target_step__Lent *a2, uint8_t a3, slice_u8 a4)
{
    c2_target__Target result;
    c2_target__Device v5;
    uint64_t v6;
    c2_target__Met v7;
    _Bool v8;
    c2_settings v9;
    c2_target__Target v10;
    c2_pairs v11;
    uint64_t v12;
    c2_target__Met v13;
    uint64_t v14;
    _Bool v15;
    c2_target__Link v16;
    c2_target__Device v17;
    v5.f0 = a1->f3.f0;
    v5.f1 = a1->f3.f1;
    v5.f2 = a1->f3.f2;
    v5.f3.f0 = a1->f3.f3.f0;
    v5.f3.f1 = a1->f3.f3.f1;
    v5.f3.f2 = a1->f3.f3.f2;
    v5.f3.f3 = a1->f3.f3.f3;
    v5.f4.f0.tag = a1->f3.f4.f0.tag;
    v5.f4.f0.u64_0 = a1->f3.f4.f0.u64_0;
    v5.f4.f0.bool_0 = a1->f3.f4.f0.bool_0;
    v5.f4.f0.u64_1 = a1->f3.f4.f0.u64_1;
    v5.f4.f1.tag = a1->f3.f4.f1.tag;
    v5.f4.f1.bool_0 = a1->f3.f4.f1.bool_0;
    v5.f4.f1.u64_0 = a1->f3.f4.f1.u64_0;
    v5.f4.f1.u64_1 = a1->f3.f4.f1.u64_1;
    v5.f4.f2 = a1->f3.f4.f2;
    v5.f4.f3 = a1->f3.f4.f3;
    v6 = c2_target_step__interface__next_keys(v5.f0, v5.f2, a3);
    v9.device_id = a2->f0.device_id;
    v9.fpdat = a2->f0.fpdat;
    v9.page_size = a2->f0.page_size;
    v9.page_count = a2->f0.page_count;
    v9.wait_limit = a2->f0.wait_limit;
    v9.pairs.count = a2->f0.pairs.count;
    v9.pairs.registers[0] = a2->f0.pairs.registers[0];
    v9.pairs.registers[1] = a2->f0.pairs.registers[1];
    v9.pairs.registers[2] = a2->f0.pairs.registers[2];
    v9.pairs.registers[3] = a2->f0.pairs.registers[3];
    v9.pairs.values[0] = a2->f0.pairs.values[0];
    v9.pairs.values[1] = a2->f0.pairs.values[1];
    v9.pairs.values[2] = a2->f0.pairs.values[2];
    v9.pairs.values[3] = a2->f0.pairs.values[3];
    v8 = c2_target_step__interface__linked(&v5, &v9);
    if (v8) {
        v10 = c2_target_step__interface__puts(a1, a2, v6, a3, a4);
    } else {
        v11.count = a2->f1.count;
        v11.registers[0] = a2->f1.registers[0];
        v11.registers[1] = a2->f1.registers[1];
        v11.registers[2] = a2->f1.registers[2];
        v11.registers[3] = a2->f1.registers[3];
        v11.values[0] = a2->f1.values[0];
        v11.values[1] = a2->f1.values[1];
        v11.values[2] = a2->f1.values[2];
        v11.values[3] = a2->f1.values[3];
        v12 = core__convert__UsizeFromU8__from(a3);
        v13.f0 = v5.f3.f0;
        v13.f1 = v5.f3.f1;
        v13.f2 = v5.f3.f2;
        v13.f3 = v5.f3.f3;
        v7 = c2_target_wanted__met_written(&v11, v5.f0, v12, &v13);
        v14 = v5.f0;
        v15 = v5.f1;
        v16.f0.tag = v5.f4.f0.tag;
        v16.f0.u64_0 = v5.f4.f0.u64_0;
        v16.f0.bool_0 = v5.f4.f0.bool_0;
        v16.f0.u64_1 = v5.f4.f0.u64_1;
        v16.f1.tag = v5.f4.f1.tag;
        v16.f1.bool_0 = v5.f4.f1.bool_0;
        v16.f1.u64_0 = v5.f4.f1.u64_0;
        v16.f1.u64_1 = v5.f4.f1.u64_1;
        v16.f2 = v5.f4.f2;
        v16.f3 = v5.f4.f3;
        v17.f0 = v14;
        v17.f1 = v15;
        v17.f2 = v6;
        v17.f3.f0 = v7.f0;
        v17.f3.f1 = v7.f1;
        v17.f3.f2 = v7.f2;
        v17.f3.f3 = v7.f3;
        v17.f4.f0.tag = v16.f0.tag;
        v17.f4.f0.u64_0 = v16.f0.u64_0;
        v17.f4.f0.bool_0 = v16.f0.bool_0;
        v17.f4.f0.u64_1 = v16.f0.u64_1;
        v17.f4.f1.tag = v16.f1.tag;
        v17.f4.f1.bool_0 = v16.f1.bool_0;
        v17.f4.f1.u64_0 = v16.f1.u64_0;
        v17.f4.f1.u64_1 = v16.f1.u64_1;
        v17.f4.f2 = v16.f2;
        v17.f4.f3 = v16.f3;
        v10 = c2_target_step__interface__idle(a1, a1->f1, &v17);
    }
    result.f0.tag = v10.f0.tag;
    result.f0.u64_0 = v10.f0.u64_0;
    result.f0.u64_1 = v10.f0.u64_1;
    result.f0.c2_target__Effect_0.tag = v10.f0.c2_target__Effect_0.tag;
    result.f0.c2_target__Effect_0.u64_0 = v10.f0.c2_target__Effect_0.u64_0;
    result.f1 = v10.f1;
    result.f2 = v10.f2;
    result.f3.f0 = v10.f3.f0;
    result.f3.f1 = v10.f3.f1;
    result.f3.f2 = v10.f3.f2;
    result.f3.f3.f0 = v10.f3.f3.f0;
    result.f3.f3.f1 = v10.f3.f3.f1;
    result.f3.f3.f2 = v10.f3.f3.f2;
    result.f3.f3.f3 = v10.f3.f3.f3;
    result.f3.f4.f0.tag = v10.f3.f4.f0.tag;
    result.f3.f4.f0.u64_0 = v10.f3.f4.f0.u64_0;
    result.f3.f4.f0.bool_0 = v10.f3.f4.f0.bool_0;
    result.f3.f4.f0.u64_1 = v10.f3.f4.f0.u64_1;
    result.f3.f4.f1.tag = v10.f3.f4.f1.tag;
    result.f3.f4.f1.bool_0 = v10.f3.f4.f1.bool_0;
    result.f3.f4.f1.u64_0 = v10.f3.f4.f1.u64_0;
    result.f3.f4.f1.u64_1 = v10.f3.f4.f1.u64_1;
    result.f3.f4.f2 = v10.f3.f4.f2;
    result.f3.f4.f3 = v10.f3.f4.f3;
    return result;
}

/* c2_target_step::interface::does */
static c2_target__Target c2_target_step__interface__does(const c2_target__Target *a1,
    const c2_target_step__Lent *a2, const c2_target__Effect *a3, slice_u8 a4)
{
    c2_target__Target result;
    uint64_t v5;
    uint64_t v6;
    c2_target__Target v7;
    c2_target__Device v8;
    _Bool v9;
    uint64_t v10;
    c2_target__Met v11;
    c2_target__Link v12;
    c2_target__Device v13;
    uint8_t v14;
    c2_settings v15;
    switch (a3->tag) {
    case 0u:
        v8.f0 = a1->f3.f0;
        v8.f1 = a1->f3.f1;
        v8.f2 = a1->f3.f2;
        v8.f3.f0 = a1->f3.f3.f0;
        v8.f3.f1 = a1->f3.f3.f1;
        v8.f3.f2 = a1->f3.f3.f2;
        v8.f3.f3 = a1->f3.f3.f3;
        v8.f4.f0.tag = a1->f3.f4.f0.tag;
        v8.f4.f0.u64_0 = a1->f3.f4.f0.u64_0;
        v8.f4.f0.bool_0 = a1->f3.f4.f0.bool_0;
        v8.f4.f0.u64_1 = a1->f3.f4.f0.u64_1;
        v8.f4.f1.tag = a1->f3.f4.f1.tag;
        v8.f4.f1.bool_0 = a1->f3.f4.f1.bool_0;
        v8.f4.f1.u64_0 = a1->f3.f4.f1.u64_0;
        v8.f4.f1.u64_1 = a1->f3.f4.f1.u64_1;
        v8.f4.f2 = a1->f3.f4.f2;
        v8.f4.f3 = a1->f3.f4.f3;
        v7 = c2_target_step__interface__idle(a1, a1->f1, &v8);
        break;
    case 1u:
        v5 = a3->u64_0;
        v9 = a1->f3.f1;
        v10 = a1->f3.f2;
        v11.f0 = a1->f3.f3.f0;
        v11.f1 = a1->f3.f3.f1;
        v11.f2 = a1->f3.f3.f2;
        v11.f3 = a1->f3.f3.f3;
        v12.f0.tag = a1->f3.f4.f0.tag;
        v12.f0.u64_0 = a1->f3.f4.f0.u64_0;
        v12.f0.bool_0 = a1->f3.f4.f0.bool_0;
        v12.f0.u64_1 = a1->f3.f4.f0.u64_1;
        v12.f1.tag = a1->f3.f4.f1.tag;
        v12.f1.bool_0 = a1->f3.f4.f1.bool_0;
        v12.f1.u64_0 = a1->f3.f4.f1.u64_0;
        v12.f1.u64_1 = a1->f3.f4.f1.u64_1;
        v12.f2 = a1->f3.f4.f2;
        v12.f3 = a1->f3.f4.f3;
        v13.f0 = v5;
        v13.f1 = v9;
        v13.f2 = v10;
        v13.f3.f0 = v11.f0;
        v13.f3.f1 = v11.f1;
        v13.f3.f2 = v11.f2;
        v13.f3.f3 = v11.f3;
        v13.f4.f0.tag = v12.f0.tag;
        v13.f4.f0.u64_0 = v12.f0.u64_0;
        v13.f4.f0.bool_0 = v12.f0.bool_0;
        v13.f4.f0.u64_1 = v12.f0.u64_1;
        v13.f4.f1.tag = v12.f1.tag;
        v13.f4.f1.bool_0 = v12.f1.bool_0;
        v13.f4.f1.u64_0 = v12.f1.u64_0;
        v13.f4.f1.u64_1 = v12.f1.u64_1;
        v13.f4.f2 = v12.f2;
        v13.f4.f3 = v12.f3;
        v7 = c2_target_step__interface__idle(a1, a1->f1, &v13);
        break;
    case 2u:
        v6 = a3->u64_0;
        v14 = (uint8_t)v6;
        v7 = c2_target_step__interface__writes(a1, a2, v14, a4);
        break;
    case 3u:
        v15.device_id = a2->f0.device_id;
        v15.fpdat = a2->f0.fpdat;
        v15.page_size = a2->f0.page_size;
        v15.page_count = a2->f0.page_count;
        v15.wait_limit = a2->f0.wait_limit;
        v15.pairs.count = a2->f0.pairs.count;
        v15.pairs.registers[0] = a2->f0.pairs.registers[0];
        v15.pairs.registers[1] = a2->f0.pairs.registers[1];
        v15.pairs.registers[2] = a2->f0.pairs.registers[2];
        v15.pairs.registers[3] = a2->f0.pairs.registers[3];
        v15.pairs.values[0] = a2->f0.pairs.values[0];
        v15.pairs.values[1] = a2->f0.pairs.values[1];
        v15.pairs.values[2] = a2->f0.pairs.values[2];
        v15.pairs.values[3] = a2->f0.pairs.values[3];
        v7 = c2_target_step__interface__counts_down(a1, &v15);
        break;
    default: /* 4 */
        v7 = c2_target_step__interface__reads(a1, a2, a4);
        break;
    }
    result.f0.tag = v7.f0.tag;
    result.f0.u64_0 = v7.f0.u64_0;
    result.f0.u64_1 = v7.f0.u64_1;
    result.f0.c2_target__Effect_0.tag = v7.f0.c2_target__Effect_0.tag;
    result.f0.c2_target__Effect_0.u64_0 = v7.f0.c2_target__Effect_0.u64_0;
    result.f1 = v7.f1;
    result.f2 = v7.f2;
    result.f3.f0 = v7.f3.f0;
    result.f3.f1 = v7.f3.f1;
    result.f3.f2 = v7.f3.f2;
    result.f3.f3.f0 = v7.f3.f3.f0;
    result.f3.f3.f1 = v7.f3.f3.f1;
    result.f3.f3.f2 = v7.f3.f3.f2;
    result.f3.f3.f3 = v7.f3.f3.f3;
    result.f3.f4.f0.tag = v7.f3.f4.f0.tag;
    result.f3.f4.f0.u64_0 = v7.f3.f4.f0.u64_0;
    result.f3.f4.f0.bool_0 = v7.f3.f4.f0.bool_0;
    result.f3.f4.f0.u64_1 = v7.f3.f4.f0.u64_1;
    result.f3.f4.f1.tag = v7.f3.f4.f1.tag;
    result.f3.f4.f1.bool_0 = v7.f3.f4.f1.bool_0;
    result.f3.f4.f1.u64_0 = v7.f3.f4.f1.u64_0;
    result.f3.f4.f1.u64_1 = v7.f3.f4.f1.u64_1;
    result.f3.f4.f2 = v7.f3.f4.f2;
    result.f3.f4.f3 = v7.f3.f4.f3;
    return result;
}

/* c2_target_step::strobes::stops */
static c2_target__Turned c2_target_step__strobes__stops(const c2_target__Target *a1,
    const c2_target_step__Lent *a2, const c2_target__Effect *a3, slice_u8 a4, uint8_t a5)
{
    c2_target__Turned result;
    c2_target__Target v6;
    c2_target__Point v7;
    c2_target__Device v8;
    v6 = c2_target_step__interface__does(a1, a2, a3, a4);
    v7.tag = 0u;
    v7.u64_0 = 0;
    v7.u64_1 = 0;
    v7.c2_target__Effect_0.tag = 0;
    v7.c2_target__Effect_0.u64_0 = 0;
    v8.f0 = v6.f3.f0;
    v8.f1 = v6.f3.f1;
    v8.f2 = v6.f3.f2;
    v8.f3.f0 = v6.f3.f3.f0;
    v8.f3.f1 = v6.f3.f3.f1;
    v8.f3.f2 = v6.f3.f3.f2;
    v8.f3.f3 = v6.f3.f3.f3;
    v8.f4.f0.tag = v6.f3.f4.f0.tag;
    v8.f4.f0.u64_0 = v6.f3.f4.f0.u64_0;
    v8.f4.f0.bool_0 = v6.f3.f4.f0.bool_0;
    v8.f4.f0.u64_1 = v6.f3.f4.f0.u64_1;
    v8.f4.f1.tag = v6.f3.f4.f1.tag;
    v8.f4.f1.bool_0 = v6.f3.f4.f1.bool_0;
    v8.f4.f1.u64_0 = v6.f3.f4.f1.u64_0;
    v8.f4.f1.u64_1 = v6.f3.f4.f1.u64_1;
    v8.f4.f2 = v6.f3.f4.f2;
    v8.f4.f3 = v6.f3.f4.f3;
    result = c2_target_step__strobes__shows(a1, 1, a5, &v7, v6.f1, &v8);
    return result;
}

/* c2_target_step::strobes::with_bit */
static uint64_t c2_target_step__strobes__with_bit(uint64_t a1, uint64_t a2, uint8_t a3)
{
    uint64_t result;
    _Bool v4;
    uint64_t v5;
    uint64_t v6;
    v4 = c2_target_step__strobes__line(a3);
    if (v4) {
        v6 = UINT64_C(1) << a1;
        v5 = a2 + v6;
    } else {
        v5 = a2;
    }
    result = v5;
    return result;
}

/* c2_target_step::strobes::strobed */
static c2_target__Turned c2_target_step__strobes__strobed(const c2_target__Target *a1,
    const c2_target_step__Lent *a2, slice_u8 a3, uint8_t a4)
{
    c2_target__Turned result;
    uint64_t v5;
    uint64_t v6;
    uint64_t v7;
    uint64_t v8;
    uint64_t v9;
    uint64_t v10;
    uint64_t v11;
    uint64_t v12;
    uint64_t v13;
    uint64_t v14;
    uint64_t v15;
    uint64_t v16;
    c2_target__Effect v17;
    uint64_t v18;
    uint64_t v19;
    c2_target__Effect v20;
    c2_target__Point v21;
    uint64_t v22;
    uint64_t v23;
    c2_target__Effect v24;
    c2_target__Point v25;
    c2_target__Effect v26;
    c2_target__Turned v27;
    c2_target__Point v28;
    c2_target__Device v29;
    c2_target__Device v30;
    c2_target__Point v31;
    c2_settings v32;
    c2_target__Device v33;
    uint64_t v34;
    uint64_t v35;
    c2_target__Point v36;
    uint64_t v37;
    uint64_t v38;
    c2_target__Point v39;
    uint64_t v40;
    uint64_t v41;
    c2_target__Point v42;
    uint64_t v43;
    uint64_t v44;
    c2_target__Point v45;
    uint64_t v46;
    uint64_t v47;
    c2_target__Point v48;
    c2_settings v49;
    c2_target__Device v50;
    _Bool v51;
    c2_target__Device v52;
    uint64_t v53;
    uint64_t v54;
    _Bool v55;
    c2_target__Device v56;
    switch (a1->f0.tag) {
    case 0u:
        v28.tag = 1u;
        v28.u64_0 = UINT64_C(0);
        v28.u64_1 = UINT64_C(0);
        v28.c2_target__Effect_0.tag = 0;
        v28.c2_target__Effect_0.u64_0 = 0;
        v30.f0 = a1->f3.f0;
        v30.f1 = a1->f3.f1;
        v30.f2 = a1->f3.f2;
        v30.f3.f0 = a1->f3.f3.f0;
        v30.f3.f1 = a1->f3.f3.f1;
        v30.f3.f2 = a1->f3.f3.f2;
        v30.f3.f3 = a1->f3.f3.f3;
        v30.f4.f0.tag = a1->f3.f4.f0.tag;
        v30.f4.f0.u64_0 = a1->f3.f4.f0.u64_0;
        v30.f4.f0.bool_0 = a1->f3.f4.f0.bool_0;
        v30.f4.f0.u64_1 = a1->f3.f4.f0.u64_1;
        v30.f4.f1.tag = a1->f3.f4.f1.tag;
        v30.f4.f1.bool_0 = a1->f3.f4.f1.bool_0;
        v30.f4.f1.u64_0 = a1->f3.f4.f1.u64_0;
        v30.f4.f1.u64_1 = a1->f3.f4.f1.u64_1;
        v30.f4.f2 = a1->f3.f4.f2;
        v30.f4.f3 = a1->f3.f4.f3;
        v29 = c2_target_step__interface__begun(&v30);
        v27 = c2_target_step__strobes__shows(a1, 1, a4, &v28, a1->f1, &v29);
        break;
    case 1u:
        v5 = a1->f0.u64_0;
        v6 = a1->f0.u64_1;
        v32.device_id = a2->f0.device_id;
        v32.fpdat = a2->f0.fpdat;
        v32.page_size = a2->f0.page_size;
        v32.page_count = a2->f0.page_count;
        v32.wait_limit = a2->f0.wait_limit;
        v32.pairs.count = a2->f0.pairs.count;
        v32.pairs.registers[0] = a2->f0.pairs.registers[0];
        v32.pairs.registers[1] = a2->f0.pairs.registers[1];
        v32.pairs.registers[2] = a2->f0.pairs.registers[2];
        v32.pairs.registers[3] = a2->f0.pairs.registers[3];
        v32.pairs.values[0] = a2->f0.pairs.values[0];
        v32.pairs.values[1] = a2->f0.pairs.values[1];
        v32.pairs.values[2] = a2->f0.pairs.values[2];
        v32.pairs.values[3] = a2->f0.pairs.values[3];
        v33.f0 = a1->f3.f0;
        v33.f1 = a1->f3.f1;
        v33.f2 = a1->f3.f2;
        v33.f3.f0 = a1->f3.f3.f0;
        v33.f3.f1 = a1->f3.f3.f1;
        v33.f3.f2 = a1->f3.f3.f2;
        v33.f3.f3 = a1->f3.f3.f3;
        v33.f4.f0.tag = a1->f3.f4.f0.tag;
        v33.f4.f0.u64_0 = a1->f3.f4.f0.u64_0;
        v33.f4.f0.bool_0 = a1->f3.f4.f0.bool_0;
        v33.f4.f0.u64_1 = a1->f3.f4.f0.u64_1;
        v33.f4.f1.tag = a1->f3.f4.f1.tag;
        v33.f4.f1.bool_0 = a1->f3.f4.f1.bool_0;
        v33.f4.f1.u64_0 = a1->f3.f4.f1.u64_0;
        v33.f4.f1.u64_1 = a1->f3.f4.f1.u64_1;
        v33.f4.f2 = a1->f3.f4.f2;
        v33.f4.f3 = a1->f3.f4.f3;
        v34 = v5 + UINT64_C(1);
        v35 = c2_target_step__strobes__with_bit(v5, v6, a4);
        v31 = c2_target_step__strobes__after_ins(&v32, &v33, v34, v35);
        v27 = c2_target_step__strobes__hears(a1, a4, &v31);
        break;
    case 2u:
        v7 = a1->f0.u64_0;
        v8 = a1->f0.u64_1;
        v37 = v7 + UINT64_C(1);
        v38 = c2_target_step__strobes__with_bit(v7, v8, a4);
        v36 = c2_target_step__strobes__after_write_length(v37, v38);
        v27 = c2_target_step__strobes__hears(a1, a4, &v36);
        break;
    case 3u:
        v9 = a1->f0.u64_0;
        v10 = a1->f0.u64_1;
        v40 = v9 + UINT64_C(1);
        v41 = c2_target_step__strobes__with_bit(v9, v10, a4);
        v39 = c2_target_step__strobes__after_read_length(v40, v41);
        v27 = c2_target_step__strobes__hears(a1, a4, &v39);
        break;
    case 4u:
        v11 = a1->f0.u64_0;
        v12 = a1->f0.u64_1;
        v43 = v11 + UINT64_C(1);
        v44 = c2_target_step__strobes__with_bit(v11, v12, a4);
        v42 = c2_target_step__strobes__after_address(v43, v44);
        v27 = c2_target_step__strobes__hears(a1, a4, &v42);
        break;
    case 5u:
        v13 = a1->f0.u64_0;
        v14 = a1->f0.u64_1;
        v46 = v13 + UINT64_C(1);
        v47 = c2_target_step__strobes__with_bit(v13, v14, a4);
        v45 = c2_target_step__strobes__after_data(v46, v47);
        v27 = c2_target_step__strobes__hears(a1, a4, &v45);
        break;
    case 6u:
        v15 = a1->f0.u64_0;
        v48 = c2_target_step__strobes__after_long_data(v15);
        v27 = c2_target_step__strobes__hears(a1, a4, &v48);
        break;
    case 7u:
        v16 = a1->f0.u64_0;
        v17.tag = a1->f0.c2_target__Effect_0.tag;
        v17.u64_0 = a1->f0.c2_target__Effect_0.u64_0;
        v27 = c2_target_step__strobes__begins_wait(a1, a2, v16, &v17, a3, a4);
        break;
    case 8u:
        v18 = a1->f0.u64_0;
        v19 = a1->f0.u64_1;
        v20.tag = a1->f0.c2_target__Effect_0.tag;
        v20.u64_0 = a1->f0.c2_target__Effect_0.u64_0;
        v49.device_id = a2->f0.device_id;
        v49.fpdat = a2->f0.fpdat;
        v49.page_size = a2->f0.page_size;
        v49.page_count = a2->f0.page_count;
        v49.wait_limit = a2->f0.wait_limit;
        v49.pairs.count = a2->f0.pairs.count;
        v49.pairs.registers[0] = a2->f0.pairs.registers[0];
        v49.pairs.registers[1] = a2->f0.pairs.registers[1];
        v49.pairs.registers[2] = a2->f0.pairs.registers[2];
        v49.pairs.registers[3] = a2->f0.pairs.registers[3];
        v49.pairs.values[0] = a2->f0.pairs.values[0];
        v49.pairs.values[1] = a2->f0.pairs.values[1];
        v49.pairs.values[2] = a2->f0.pairs.values[2];
        v49.pairs.values[3] = a2->f0.pairs.values[3];
        v50.f0 = a1->f3.f0;
        v50.f1 = a1->f3.f1;
        v50.f2 = a1->f3.f2;
        v50.f3.f0 = a1->f3.f3.f0;
        v50.f3.f1 = a1->f3.f3.f1;
        v50.f3.f2 = a1->f3.f3.f2;
        v50.f3.f3 = a1->f3.f3.f3;
        v50.f4.f0.tag = a1->f3.f4.f0.tag;
        v50.f4.f0.u64_0 = a1->f3.f4.f0.u64_0;
        v50.f4.f0.bool_0 = a1->f3.f4.f0.bool_0;
        v50.f4.f0.u64_1 = a1->f3.f4.f0.u64_1;
        v50.f4.f1.tag = a1->f3.f4.f1.tag;
        v50.f4.f1.bool_0 = a1->f3.f4.f1.bool_0;
        v50.f4.f1.u64_0 = a1->f3.f4.f1.u64_0;
        v50.f4.f1.u64_1 = a1->f3.f4.f1.u64_1;
        v50.f4.f2 = a1->f3.f4.f2;
        v50.f4.f3 = a1->f3.f4.f3;
        v21 = c2_target_step__strobes__after_wait(&v49, v18, v19, &v20, &v50, a3);
        v51 = v18 == UINT64_C(0);
        v52.f0 = a1->f3.f0;
        v52.f1 = a1->f3.f1;
        v52.f2 = a1->f3.f2;
        v52.f3.f0 = a1->f3.f3.f0;
        v52.f3.f1 = a1->f3.f3.f1;
        v52.f3.f2 = a1->f3.f3.f2;
        v52.f3.f3 = a1->f3.f3.f3;
        v52.f4.f0.tag = a1->f3.f4.f0.tag;
        v52.f4.f0.u64_0 = a1->f3.f4.f0.u64_0;
        v52.f4.f0.bool_0 = a1->f3.f4.f0.bool_0;
        v52.f4.f0.u64_1 = a1->f3.f4.f0.u64_1;
        v52.f4.f1.tag = a1->f3.f4.f1.tag;
        v52.f4.f1.bool_0 = a1->f3.f4.f1.bool_0;
        v52.f4.f1.u64_0 = a1->f3.f4.f1.u64_0;
        v52.f4.f1.u64_1 = a1->f3.f4.f1.u64_1;
        v52.f4.f2 = a1->f3.f4.f2;
        v52.f4.f3 = a1->f3.f4.f3;
        v27 = c2_target_step__strobes__shows(a1, v51, a4, &v21, a1->f1, &v52);
        break;
    case 9u:
        v22 = a1->f0.u64_0;
        v23 = a1->f0.u64_1;
        v24.tag = a1->f0.c2_target__Effect_0.tag;
        v24.u64_0 = a1->f0.c2_target__Effect_0.u64_0;
        v53 = core__int__usize__saturating_sub(v22, UINT64_C(1));
        v54 = v23 / UINT64_C(2);
        v25 = c2_target_step__strobes__sending(v53, v54, &v24);
        v53 = v23 % UINT64_C(2);
        v55 = v53 == UINT64_C(1);
        v56.f0 = a1->f3.f0;
        v56.f1 = a1->f3.f1;
        v56.f2 = a1->f3.f2;
        v56.f3.f0 = a1->f3.f3.f0;
        v56.f3.f1 = a1->f3.f3.f1;
        v56.f3.f2 = a1->f3.f3.f2;
        v56.f3.f3 = a1->f3.f3.f3;
        v56.f4.f0.tag = a1->f3.f4.f0.tag;
        v56.f4.f0.u64_0 = a1->f3.f4.f0.u64_0;
        v56.f4.f0.bool_0 = a1->f3.f4.f0.bool_0;
        v56.f4.f0.u64_1 = a1->f3.f4.f0.u64_1;
        v56.f4.f1.tag = a1->f3.f4.f1.tag;
        v56.f4.f1.bool_0 = a1->f3.f4.f1.bool_0;
        v56.f4.f1.u64_0 = a1->f3.f4.f1.u64_0;
        v56.f4.f1.u64_1 = a1->f3.f4.f1.u64_1;
        v56.f4.f2 = a1->f3.f4.f2;
        v56.f4.f3 = a1->f3.f4.f3;
        v27 = c2_target_step__strobes__shows(a1, v55, a4, &v25, a1->f1, &v56);
        break;
    default: /* 10 */
        v26.tag = a1->f0.c2_target__Effect_0.tag;
        v26.u64_0 = a1->f0.c2_target__Effect_0.u64_0;
        v27 = c2_target_step__strobes__stops(a1, a2, &v26, a3, a4);
        break;
    }
    result.f0 = v27.f0;
    result.f1.f0.tag = v27.f1.f0.tag;
    result.f1.f0.u64_0 = v27.f1.f0.u64_0;
    result.f1.f0.u64_1 = v27.f1.f0.u64_1;
    result.f1.f0.c2_target__Effect_0.tag = v27.f1.f0.c2_target__Effect_0.tag;
    result.f1.f0.c2_target__Effect_0.u64_0 = v27.f1.f0.c2_target__Effect_0.u64_0;
    result.f1.f1 = v27.f1.f1;
    result.f1.f2 = v27.f1.f2;
    result.f1.f3.f0 = v27.f1.f3.f0;
    result.f1.f3.f1 = v27.f1.f3.f1;
    result.f1.f3.f2 = v27.f1.f3.f2;
    result.f1.f3.f3.f0 = v27.f1.f3.f3.f0;
    result.f1.f3.f3.f1 = v27.f1.f3.f3.f1;
    result.f1.f3.f3.f2 = v27.f1.f3.f3.f2;
    result.f1.f3.f3.f3 = v27.f1.f3.f3.f3;
    result.f1.f3.f4.f0.tag = v27.f1.f3.f4.f0.tag;
    result.f1.f3.f4.f0.u64_0 = v27.f1.f3.f4.f0.u64_0;
    result.f1.f3.f4.f0.bool_0 = v27.f1.f3.f4.f0.bool_0;
    result.f1.f3.f4.f0.u64_1 = v27.f1.f3.f4.f0.u64_1;
    result.f1.f3.f4.f1.tag = v27.f1.f3.f4.f1.tag;
    result.f1.f3.f4.f1.bool_0 = v27.f1.f3.f4.f1.bool_0;
    result.f1.f3.f4.f1.u64_0 = v27.f1.f3.f4.f1.u64_0;
    result.f1.f3.f4.f1.u64_1 = v27.f1.f3.f4.f1.u64_1;
    result.f1.f3.f4.f2 = v27.f1.f3.f4.f2;
    result.f1.f3.f4.f3 = v27.f1.f3.f4.f3;
    return result;
}

/* c2_target_step::steps::stepped */
static c2_target__Turned c2_target_step__steps__stepped(const c2_target_step__Lent *a1,
    const c2_target__Target *a2, slice_mut_u8 a3, uint8_t a4)
{
    c2_target__Turned result;
    c2_target__Turned v5;
    _Bool v6;
    c2_target__Turned v7;
    const uint8_t *v8;
    slice_u8 v9;
    c2_settings v11;
    uint8_t *v12;
    slice_mut_u8 v13;
    v6 = a4 < 4u;
    if (v6) {
        v8 = a3.at;
        v9.at = v8;
        v9.length = a3.length;
        v5 = c2_target_step__strobes__strobed(a2, a1, v9, a4);
        v11.device_id = a1->f0.device_id;
        v11.fpdat = a1->f0.fpdat;
        v11.page_size = a1->f0.page_size;
        v11.page_count = a1->f0.page_count;
        v11.wait_limit = a1->f0.wait_limit;
        v11.pairs.count = a1->f0.pairs.count;
        v11.pairs.registers[0] = a1->f0.pairs.registers[0];
        v11.pairs.registers[1] = a1->f0.pairs.registers[1];
        v11.pairs.registers[2] = a1->f0.pairs.registers[2];
        v11.pairs.registers[3] = a1->f0.pairs.registers[3];
        v11.pairs.values[0] = a1->f0.pairs.values[0];
        v11.pairs.values[1] = a1->f0.pairs.values[1];
        v11.pairs.values[2] = a1->f0.pairs.values[2];
        v11.pairs.values[3] = a1->f0.pairs.values[3];
        v12 = a3.at;
        v13.at = v12;
        v13.length = a3.length;
        c2_target_step__strobes__strobe_writes(&v11, a2, v13);
        v7.f0 = v5.f0;
        v7.f1.f0.tag = v5.f1.f0.tag;
        v7.f1.f0.u64_0 = v5.f1.f0.u64_0;
        v7.f1.f0.u64_1 = v5.f1.f0.u64_1;
        v7.f1.f0.c2_target__Effect_0.tag = v5.f1.f0.c2_target__Effect_0.tag;
        v7.f1.f0.c2_target__Effect_0.u64_0 = v5.f1.f0.c2_target__Effect_0.u64_0;
        v7.f1.f1 = v5.f1.f1;
        v7.f1.f2 = v5.f1.f2;
        v7.f1.f3.f0 = v5.f1.f3.f0;
        v7.f1.f3.f1 = v5.f1.f3.f1;
        v7.f1.f3.f2 = v5.f1.f3.f2;
        v7.f1.f3.f3.f0 = v5.f1.f3.f3.f0;
        v7.f1.f3.f3.f1 = v5.f1.f3.f3.f1;
        v7.f1.f3.f3.f2 = v5.f1.f3.f3.f2;
        v7.f1.f3.f3.f3 = v5.f1.f3.f3.f3;
        v7.f1.f3.f4.f0.tag = v5.f1.f3.f4.f0.tag;
        v7.f1.f3.f4.f0.u64_0 = v5.f1.f3.f4.f0.u64_0;
        v7.f1.f3.f4.f0.bool_0 = v5.f1.f3.f4.f0.bool_0;
        v7.f1.f3.f4.f0.u64_1 = v5.f1.f3.f4.f0.u64_1;
        v7.f1.f3.f4.f1.tag = v5.f1.f3.f4.f1.tag;
        v7.f1.f3.f4.f1.bool_0 = v5.f1.f3.f4.f1.bool_0;
        v7.f1.f3.f4.f1.u64_0 = v5.f1.f3.f4.f1.u64_0;
        v7.f1.f3.f4.f1.u64_1 = v5.f1.f3.f4.f1.u64_1;
        v7.f1.f3.f4.f2 = v5.f1.f3.f4.f2;
        v7.f1.f3.f4.f3 = v5.f1.f3.f4.f3;
    } else {
        v7 = c2_target_step__steps__still(a2, a4);
    }
    result.f0 = v7.f0;
    result.f1.f0.tag = v7.f1.f0.tag;
    result.f1.f0.u64_0 = v7.f1.f0.u64_0;
    result.f1.f0.u64_1 = v7.f1.f0.u64_1;
    result.f1.f0.c2_target__Effect_0.tag = v7.f1.f0.c2_target__Effect_0.tag;
    result.f1.f0.c2_target__Effect_0.u64_0 = v7.f1.f0.c2_target__Effect_0.u64_0;
    result.f1.f1 = v7.f1.f1;
    result.f1.f2 = v7.f1.f2;
    result.f1.f3.f0 = v7.f1.f3.f0;
    result.f1.f3.f1 = v7.f1.f3.f1;
    result.f1.f3.f2 = v7.f1.f3.f2;
    result.f1.f3.f3.f0 = v7.f1.f3.f3.f0;
    result.f1.f3.f3.f1 = v7.f1.f3.f3.f1;
    result.f1.f3.f3.f2 = v7.f1.f3.f3.f2;
    result.f1.f3.f3.f3 = v7.f1.f3.f3.f3;
    result.f1.f3.f4.f0.tag = v7.f1.f3.f4.f0.tag;
    result.f1.f3.f4.f0.u64_0 = v7.f1.f3.f4.f0.u64_0;
    result.f1.f3.f4.f0.bool_0 = v7.f1.f3.f4.f0.bool_0;
    result.f1.f3.f4.f0.u64_1 = v7.f1.f3.f4.f0.u64_1;
    result.f1.f3.f4.f1.tag = v7.f1.f3.f4.f1.tag;
    result.f1.f3.f4.f1.bool_0 = v7.f1.f3.f4.f1.bool_0;
    result.f1.f3.f4.f1.u64_0 = v7.f1.f3.f4.f1.u64_0;
    result.f1.f3.f4.f1.u64_1 = v7.f1.f3.f4.f1.u64_1;
    result.f1.f3.f4.f2 = v7.f1.f3.f4.f2;
    result.f1.f3.f4.f3 = v7.f1.f3.f4.f3;
    return result;
}

/* core::ResultFromResidualErrResidual::from_residua_47cf13 */
INLINED core__Result_Turned_Refusal core__ResultFromResidualErrResidual__from_residua_47cf13(
    const core__ErrResidual_Refusal *a1)
{
    core__Result_Turned_Refusal result;
    numbers__Refusal v2;
    numbers__Refusal v3;
    v3 = a1->f0;
    v2 = core__AnyFrom__from_Refusal(v3);
    result.tag = 1u;
    result.numbers__Refusal_0 = v2;
    result.c2_target__Turned_0.f0 = 0;
    result.c2_target__Turned_0.f1.f0.tag = 0;
    result.c2_target__Turned_0.f1.f0.u64_0 = 0;
    result.c2_target__Turned_0.f1.f0.u64_1 = 0;
    result.c2_target__Turned_0.f1.f0.c2_target__Effect_0.tag = 0;
    result.c2_target__Turned_0.f1.f0.c2_target__Effect_0.u64_0 = 0;
    result.c2_target__Turned_0.f1.f1 = 0;
    result.c2_target__Turned_0.f1.f2 = 0;
    result.c2_target__Turned_0.f1.f3.f0 = 0;
    result.c2_target__Turned_0.f1.f3.f1 = 0;
    result.c2_target__Turned_0.f1.f3.f2 = 0;
    result.c2_target__Turned_0.f1.f3.f3.f0 = 0;
    result.c2_target__Turned_0.f1.f3.f3.f1 = 0;
    result.c2_target__Turned_0.f1.f3.f3.f2 = 0;
    result.c2_target__Turned_0.f1.f3.f3.f3 = 0;
    result.c2_target__Turned_0.f1.f3.f4.f0.tag = 0;
    result.c2_target__Turned_0.f1.f3.f4.f0.u64_0 = 0;
    result.c2_target__Turned_0.f1.f3.f4.f0.bool_0 = 0;
    result.c2_target__Turned_0.f1.f3.f4.f0.u64_1 = 0;
    result.c2_target__Turned_0.f1.f3.f4.f1.tag = 0;
    result.c2_target__Turned_0.f1.f3.f4.f1.bool_0 = 0;
    result.c2_target__Turned_0.f1.f3.f4.f1.u64_0 = 0;
    result.c2_target__Turned_0.f1.f3.f4.f1.u64_1 = 0;
    result.c2_target__Turned_0.f1.f3.f4.f2 = 0;
    result.c2_target__Turned_0.f1.f3.f4.f3 = 0;
    return result;
}

/* c2_target_step::steps::step */
static core__Result_Turned_Refusal c2_target_step__steps__step(const c2_settings *a1, const c2_pairs *a2,
    const c2_target__Target *a3, slice_mut_u8 a4, slice_u8 a5, uint8_t a6)
{
    core__Result_Turned_Refusal result;
    core__ErrResidual_Refusal v8;
    c2_target_step__Lent v9;
    core__ControlFlow_ErrResidual_Refusal_unit v10;
    core__Result_unit_Refusal v11;
    const uint8_t *v12;
    slice_u8 v13;
    c2_target__Turned v14;
    const c2_target_step__Lent *v15;
    uint8_t *v16;
    slice_mut_u8 v17;
    v12 = a4.at;
    v13.at = v12;
    v13.length = a4.length;
    v11 = c2_target_step__steps__refusal(a1, a2, a3, v13, a6);
    v10 = core__ResultTry__branch_unit_Refusal(&v11);
    switch (v10.tag) {
    case 0u:
        break;
    default: /* 1 */
        v8.f0 = v10.core__ErrResidual_Refusal_0.f0;
        result = core__ResultFromResidualErrResidual__from_residua_47cf13(&v8);
        return result;
    }
    v9 = (c2_target_step__Lent){.f0 = *a1, .f1 = *a2, .f2 = a5};
    v15 = &v9;
    v16 = a4.at;
    v17.at = v16;
    v17.length = a4.length;
    v14 = c2_target_step__steps__stepped(v15, a3, v17, a6);
    result.tag = 0u;
    result.c2_target__Turned_0.f0 = v14.f0;
    result.c2_target__Turned_0.f1.f0.tag = v14.f1.f0.tag;
    result.c2_target__Turned_0.f1.f0.u64_0 = v14.f1.f0.u64_0;
    result.c2_target__Turned_0.f1.f0.u64_1 = v14.f1.f0.u64_1;
    result.c2_target__Turned_0.f1.f0.c2_target__Effect_0.tag = v14.f1.f0.c2_target__Effect_0.tag;
    result.c2_target__Turned_0.f1.f0.c2_target__Effect_0.u64_0 = v14.f1.f0.c2_target__Effect_0.u64_0;
    result.c2_target__Turned_0.f1.f1 = v14.f1.f1;
    result.c2_target__Turned_0.f1.f2 = v14.f1.f2;
    result.c2_target__Turned_0.f1.f3.f0 = v14.f1.f3.f0;
    result.c2_target__Turned_0.f1.f3.f1 = v14.f1.f3.f1;
    result.c2_target__Turned_0.f1.f3.f2 = v14.f1.f3.f2;
    result.c2_target__Turned_0.f1.f3.f3.f0 = v14.f1.f3.f3.f0;
    result.c2_target__Turned_0.f1.f3.f3.f1 = v14.f1.f3.f3.f1;
    result.c2_target__Turned_0.f1.f3.f3.f2 = v14.f1.f3.f3.f2;
    result.c2_target__Turned_0.f1.f3.f3.f3 = v14.f1.f3.f3.f3;
    result.c2_target__Turned_0.f1.f3.f4.f0.tag = v14.f1.f3.f4.f0.tag;
    result.c2_target__Turned_0.f1.f3.f4.f0.u64_0 = v14.f1.f3.f4.f0.u64_0;
    result.c2_target__Turned_0.f1.f3.f4.f0.bool_0 = v14.f1.f3.f4.f0.bool_0;
    result.c2_target__Turned_0.f1.f3.f4.f0.u64_1 = v14.f1.f3.f4.f0.u64_1;
    result.c2_target__Turned_0.f1.f3.f4.f1.tag = v14.f1.f3.f4.f1.tag;
    result.c2_target__Turned_0.f1.f3.f4.f1.bool_0 = v14.f1.f3.f4.f1.bool_0;
    result.c2_target__Turned_0.f1.f3.f4.f1.u64_0 = v14.f1.f3.f4.f1.u64_0;
    result.c2_target__Turned_0.f1.f3.f4.f1.u64_1 = v14.f1.f3.f4.f1.u64_1;
    result.c2_target__Turned_0.f1.f3.f4.f2 = v14.f1.f3.f4.f2;
    result.c2_target__Turned_0.f1.f3.f4.f3 = v14.f1.f3.f4.f3;
    result.numbers__Refusal_0 = 0;
    return result;
}

/* c2_target_state::model::step */
static c2_replied c2_target_state__model__step(const c2_settings *a1, const c2_pairs *a2, const c2_target *a3,
    slice_mut_u8 a4, slice_u8 a5, uint8_t a6)
{
    c2_replied result;
    c2_target__Target v7;
    c2_target__Target v8;
    numbers__Refusal v9;
    numbers__Refusal v10;
    c2_target__Turned v11;
    c2_target__Turned v12;
    numbers__Refusal v13;
    core__Result_Target_Refusal v14;
    c2_target__Target v15;
    core__Result_unit_Refusal v16;
    c2_replied v17;
    core__Result_Turned_Refusal v18;
    uint8_t *v19;
    slice_mut_u8 v20;
    c2_target__Turned v21;
    c2_target__Target v22;
    v14 = c2_target_state__decode__TargetTryFromState__try_from(a3);
    switch (v14.tag) {
    case 0u:
        v8.f0.tag = v14.c2_target__Target_0.f0.tag;
        v8.f0.u64_0 = v14.c2_target__Target_0.f0.u64_0;
        v8.f0.u64_1 = v14.c2_target__Target_0.f0.u64_1;
        v8.f0.c2_target__Effect_0.tag = v14.c2_target__Target_0.f0.c2_target__Effect_0.tag;
        v8.f0.c2_target__Effect_0.u64_0 = v14.c2_target__Target_0.f0.c2_target__Effect_0.u64_0;
        v8.f1 = v14.c2_target__Target_0.f1;
        v8.f2 = v14.c2_target__Target_0.f2;
        v8.f3.f0 = v14.c2_target__Target_0.f3.f0;
        v8.f3.f1 = v14.c2_target__Target_0.f3.f1;
        v8.f3.f2 = v14.c2_target__Target_0.f3.f2;
        v8.f3.f3.f0 = v14.c2_target__Target_0.f3.f3.f0;
        v8.f3.f3.f1 = v14.c2_target__Target_0.f3.f3.f1;
        v8.f3.f3.f2 = v14.c2_target__Target_0.f3.f3.f2;
        v8.f3.f3.f3 = v14.c2_target__Target_0.f3.f3.f3;
        v8.f3.f4.f0.tag = v14.c2_target__Target_0.f3.f4.f0.tag;
        v8.f3.f4.f0.u64_0 = v14.c2_target__Target_0.f3.f4.f0.u64_0;
        v8.f3.f4.f0.bool_0 = v14.c2_target__Target_0.f3.f4.f0.bool_0;
        v8.f3.f4.f0.u64_1 = v14.c2_target__Target_0.f3.f4.f0.u64_1;
        v8.f3.f4.f1.tag = v14.c2_target__Target_0.f3.f4.f1.tag;
        v8.f3.f4.f1.bool_0 = v14.c2_target__Target_0.f3.f4.f1.bool_0;
        v8.f3.f4.f1.u64_0 = v14.c2_target__Target_0.f3.f4.f1.u64_0;
        v8.f3.f4.f1.u64_1 = v14.c2_target__Target_0.f3.f4.f1.u64_1;
        v8.f3.f4.f2 = v14.c2_target__Target_0.f3.f4.f2;
        v8.f3.f4.f3 = v14.c2_target__Target_0.f3.f4.f3;
        v15.f0.tag = v8.f0.tag;
        v15.f0.u64_0 = v8.f0.u64_0;
        v15.f0.u64_1 = v8.f0.u64_1;
        v15.f0.c2_target__Effect_0.tag = v8.f0.c2_target__Effect_0.tag;
        v15.f0.c2_target__Effect_0.u64_0 = v8.f0.c2_target__Effect_0.u64_0;
        v15.f1 = v8.f1;
        v15.f2 = v8.f2;
        v15.f3.f0 = v8.f3.f0;
        v15.f3.f1 = v8.f3.f1;
        v15.f3.f2 = v8.f3.f2;
        v15.f3.f3.f0 = v8.f3.f3.f0;
        v15.f3.f3.f1 = v8.f3.f3.f1;
        v15.f3.f3.f2 = v8.f3.f3.f2;
        v15.f3.f3.f3 = v8.f3.f3.f3;
        v15.f3.f4.f0.tag = v8.f3.f4.f0.tag;
        v15.f3.f4.f0.u64_0 = v8.f3.f4.f0.u64_0;
        v15.f3.f4.f0.bool_0 = v8.f3.f4.f0.bool_0;
        v15.f3.f4.f0.u64_1 = v8.f3.f4.f0.u64_1;
        v15.f3.f4.f1.tag = v8.f3.f4.f1.tag;
        v15.f3.f4.f1.bool_0 = v8.f3.f4.f1.bool_0;
        v15.f3.f4.f1.u64_0 = v8.f3.f4.f1.u64_0;
        v15.f3.f4.f1.u64_1 = v8.f3.f4.f1.u64_1;
        v15.f3.f4.f2 = v8.f3.f4.f2;
        v15.f3.f4.f3 = v8.f3.f4.f3;
        break;
    default: /* 1 */
        v9 = v14.numbers__Refusal_0;
        v16 = c2_target_wanted__setup_refusal(a1, a2);
        switch (v16.tag) {
        case 0u:
            v17 = c2_target_state__model__refused(v9, a3);
            break;
        default: /* 1 */
            v10 = v16.numbers__Refusal_0;
            v17 = c2_target_state__model__refused(v10, a3);
            break;
        }
        result.number = v17.number;
        result.reply = v17.reply;
        result.target.place = v17.target.place;
        result.target.start = v17.target.start;
        result.target.rest = v17.target.rest;
        result.target.next = v17.target.next;
        result.target.count = v17.target.count;
        result.target.point = v17.target.point;
        result.target.heard = v17.target.heard;
        result.target.value = v17.target.value;
        result.target.left = v17.target.left;
        result.target.zeros = v17.target.zeros;
        result.target.effect = v17.target.effect;
        result.target.byte = v17.target.byte;
        result.target.collision = v17.target.collision;
        result.target.address = v17.target.address;
        result.target.on = v17.target.on;
        result.target.keys = v17.target.keys;
        result.target.met1 = v17.target.met1;
        result.target.met2 = v17.target.met2;
        result.target.met3 = v17.target.met3;
        result.target.met4 = v17.target.met4;
        result.target.command = v17.target.command;
        result.target.write = v17.target.write;
        result.target.page = v17.target.page;
        result.target.high = v17.target.high;
        result.target.output = v17.target.output;
        result.target.passed = v17.target.passed;
        result.target.busy = v17.target.busy;
        result.target.late = v17.target.late;
        return result;
    }
    v7.f0.tag = v15.f0.tag;
    v7.f0.u64_0 = v15.f0.u64_0;
    v7.f0.u64_1 = v15.f0.u64_1;
    v7.f0.c2_target__Effect_0.tag = v15.f0.c2_target__Effect_0.tag;
    v7.f0.c2_target__Effect_0.u64_0 = v15.f0.c2_target__Effect_0.u64_0;
    v7.f1 = v15.f1;
    v7.f2 = v15.f2;
    v7.f3.f0 = v15.f3.f0;
    v7.f3.f1 = v15.f3.f1;
    v7.f3.f2 = v15.f3.f2;
    v7.f3.f3.f0 = v15.f3.f3.f0;
    v7.f3.f3.f1 = v15.f3.f3.f1;
    v7.f3.f3.f2 = v15.f3.f3.f2;
    v7.f3.f3.f3 = v15.f3.f3.f3;
    v7.f3.f4.f0.tag = v15.f3.f4.f0.tag;
    v7.f3.f4.f0.u64_0 = v15.f3.f4.f0.u64_0;
    v7.f3.f4.f0.bool_0 = v15.f3.f4.f0.bool_0;
    v7.f3.f4.f0.u64_1 = v15.f3.f4.f0.u64_1;
    v7.f3.f4.f1.tag = v15.f3.f4.f1.tag;
    v7.f3.f4.f1.bool_0 = v15.f3.f4.f1.bool_0;
    v7.f3.f4.f1.u64_0 = v15.f3.f4.f1.u64_0;
    v7.f3.f4.f1.u64_1 = v15.f3.f4.f1.u64_1;
    v7.f3.f4.f2 = v15.f3.f4.f2;
    v7.f3.f4.f3 = v15.f3.f4.f3;
    v19 = a4.at;
    v20.at = v19;
    v20.length = a4.length;
    v18 = c2_target_step__steps__step(a1, a2, &v7, v20, a5, a6);
    switch (v18.tag) {
    case 0u:
        v12.f0 = v18.c2_target__Turned_0.f0;
        v12.f1.f0.tag = v18.c2_target__Turned_0.f1.f0.tag;
        v12.f1.f0.u64_0 = v18.c2_target__Turned_0.f1.f0.u64_0;
        v12.f1.f0.u64_1 = v18.c2_target__Turned_0.f1.f0.u64_1;
        v12.f1.f0.c2_target__Effect_0.tag = v18.c2_target__Turned_0.f1.f0.c2_target__Effect_0.tag;
        v12.f1.f0.c2_target__Effect_0.u64_0 = v18.c2_target__Turned_0.f1.f0.c2_target__Effect_0.u64_0;
        v12.f1.f1 = v18.c2_target__Turned_0.f1.f1;
        v12.f1.f2 = v18.c2_target__Turned_0.f1.f2;
        v12.f1.f3.f0 = v18.c2_target__Turned_0.f1.f3.f0;
        v12.f1.f3.f1 = v18.c2_target__Turned_0.f1.f3.f1;
        v12.f1.f3.f2 = v18.c2_target__Turned_0.f1.f3.f2;
        v12.f1.f3.f3.f0 = v18.c2_target__Turned_0.f1.f3.f3.f0;
        v12.f1.f3.f3.f1 = v18.c2_target__Turned_0.f1.f3.f3.f1;
        v12.f1.f3.f3.f2 = v18.c2_target__Turned_0.f1.f3.f3.f2;
        v12.f1.f3.f3.f3 = v18.c2_target__Turned_0.f1.f3.f3.f3;
        v12.f1.f3.f4.f0.tag = v18.c2_target__Turned_0.f1.f3.f4.f0.tag;
        v12.f1.f3.f4.f0.u64_0 = v18.c2_target__Turned_0.f1.f3.f4.f0.u64_0;
        v12.f1.f3.f4.f0.bool_0 = v18.c2_target__Turned_0.f1.f3.f4.f0.bool_0;
        v12.f1.f3.f4.f0.u64_1 = v18.c2_target__Turned_0.f1.f3.f4.f0.u64_1;
        v12.f1.f3.f4.f1.tag = v18.c2_target__Turned_0.f1.f3.f4.f1.tag;
        v12.f1.f3.f4.f1.bool_0 = v18.c2_target__Turned_0.f1.f3.f4.f1.bool_0;
        v12.f1.f3.f4.f1.u64_0 = v18.c2_target__Turned_0.f1.f3.f4.f1.u64_0;
        v12.f1.f3.f4.f1.u64_1 = v18.c2_target__Turned_0.f1.f3.f4.f1.u64_1;
        v12.f1.f3.f4.f2 = v18.c2_target__Turned_0.f1.f3.f4.f2;
        v12.f1.f3.f4.f3 = v18.c2_target__Turned_0.f1.f3.f4.f3;
        v21.f0 = v12.f0;
        v21.f1.f0.tag = v12.f1.f0.tag;
        v21.f1.f0.u64_0 = v12.f1.f0.u64_0;
        v21.f1.f0.u64_1 = v12.f1.f0.u64_1;
        v21.f1.f0.c2_target__Effect_0.tag = v12.f1.f0.c2_target__Effect_0.tag;
        v21.f1.f0.c2_target__Effect_0.u64_0 = v12.f1.f0.c2_target__Effect_0.u64_0;
        v21.f1.f1 = v12.f1.f1;
        v21.f1.f2 = v12.f1.f2;
        v21.f1.f3.f0 = v12.f1.f3.f0;
        v21.f1.f3.f1 = v12.f1.f3.f1;
        v21.f1.f3.f2 = v12.f1.f3.f2;
        v21.f1.f3.f3.f0 = v12.f1.f3.f3.f0;
        v21.f1.f3.f3.f1 = v12.f1.f3.f3.f1;
        v21.f1.f3.f3.f2 = v12.f1.f3.f3.f2;
        v21.f1.f3.f3.f3 = v12.f1.f3.f3.f3;
        v21.f1.f3.f4.f0.tag = v12.f1.f3.f4.f0.tag;
        v21.f1.f3.f4.f0.u64_0 = v12.f1.f3.f4.f0.u64_0;
        v21.f1.f3.f4.f0.bool_0 = v12.f1.f3.f4.f0.bool_0;
        v21.f1.f3.f4.f0.u64_1 = v12.f1.f3.f4.f0.u64_1;
        v21.f1.f3.f4.f1.tag = v12.f1.f3.f4.f1.tag;
        v21.f1.f3.f4.f1.bool_0 = v12.f1.f3.f4.f1.bool_0;
        v21.f1.f3.f4.f1.u64_0 = v12.f1.f3.f4.f1.u64_0;
        v21.f1.f3.f4.f1.u64_1 = v12.f1.f3.f4.f1.u64_1;
        v21.f1.f3.f4.f2 = v12.f1.f3.f4.f2;
        v21.f1.f3.f4.f3 = v12.f1.f3.f4.f3;
        break;
    default: /* 1 */
        v13 = v18.numbers__Refusal_0;
        result = c2_target_state__model__refused(v13, a3);
        return result;
    }
    v11.f0 = v21.f0;
    v11.f1.f0.tag = v21.f1.f0.tag;
    v11.f1.f0.u64_0 = v21.f1.f0.u64_0;
    v11.f1.f0.u64_1 = v21.f1.f0.u64_1;
    v11.f1.f0.c2_target__Effect_0.tag = v21.f1.f0.c2_target__Effect_0.tag;
    v11.f1.f0.c2_target__Effect_0.u64_0 = v21.f1.f0.c2_target__Effect_0.u64_0;
    v11.f1.f1 = v21.f1.f1;
    v11.f1.f2 = v21.f1.f2;
    v11.f1.f3.f0 = v21.f1.f3.f0;
    v11.f1.f3.f1 = v21.f1.f3.f1;
    v11.f1.f3.f2 = v21.f1.f3.f2;
    v11.f1.f3.f3.f0 = v21.f1.f3.f3.f0;
    v11.f1.f3.f3.f1 = v21.f1.f3.f3.f1;
    v11.f1.f3.f3.f2 = v21.f1.f3.f3.f2;
    v11.f1.f3.f3.f3 = v21.f1.f3.f3.f3;
    v11.f1.f3.f4.f0.tag = v21.f1.f3.f4.f0.tag;
    v11.f1.f3.f4.f0.u64_0 = v21.f1.f3.f4.f0.u64_0;
    v11.f1.f3.f4.f0.bool_0 = v21.f1.f3.f4.f0.bool_0;
    v11.f1.f3.f4.f0.u64_1 = v21.f1.f3.f4.f0.u64_1;
    v11.f1.f3.f4.f1.tag = v21.f1.f3.f4.f1.tag;
    v11.f1.f3.f4.f1.bool_0 = v21.f1.f3.f4.f1.bool_0;
    v11.f1.f3.f4.f1.u64_0 = v21.f1.f3.f4.f1.u64_0;
    v11.f1.f3.f4.f1.u64_1 = v21.f1.f3.f4.f1.u64_1;
    v11.f1.f3.f4.f2 = v21.f1.f3.f4.f2;
    v11.f1.f3.f4.f3 = v21.f1.f3.f4.f3;
    v22.f0.tag = v11.f1.f0.tag;
    v22.f0.u64_0 = v11.f1.f0.u64_0;
    v22.f0.u64_1 = v11.f1.f0.u64_1;
    v22.f0.c2_target__Effect_0.tag = v11.f1.f0.c2_target__Effect_0.tag;
    v22.f0.c2_target__Effect_0.u64_0 = v11.f1.f0.c2_target__Effect_0.u64_0;
    v22.f1 = v11.f1.f1;
    v22.f2 = v11.f1.f2;
    v22.f3.f0 = v11.f1.f3.f0;
    v22.f3.f1 = v11.f1.f3.f1;
    v22.f3.f2 = v11.f1.f3.f2;
    v22.f3.f3.f0 = v11.f1.f3.f3.f0;
    v22.f3.f3.f1 = v11.f1.f3.f3.f1;
    v22.f3.f3.f2 = v11.f1.f3.f3.f2;
    v22.f3.f3.f3 = v11.f1.f3.f3.f3;
    v22.f3.f4.f0.tag = v11.f1.f3.f4.f0.tag;
    v22.f3.f4.f0.u64_0 = v11.f1.f3.f4.f0.u64_0;
    v22.f3.f4.f0.bool_0 = v11.f1.f3.f4.f0.bool_0;
    v22.f3.f4.f0.u64_1 = v11.f1.f3.f4.f0.u64_1;
    v22.f3.f4.f1.tag = v11.f1.f3.f4.f1.tag;
    v22.f3.f4.f1.bool_0 = v11.f1.f3.f4.f1.bool_0;
    v22.f3.f4.f1.u64_0 = v11.f1.f3.f4.f1.u64_0;
    v22.f3.f4.f1.u64_1 = v11.f1.f3.f4.f1.u64_1;
    v22.f3.f4.f2 = v11.f1.f3.f4.f2;
    v22.f3.f4.f3 = v11.f1.f3.f4.f3;
    result = c2_target_state__model__accepted(a3, a6, v11.f0, &v22);
    return result;
}

/* c2::target::c2_target_step */
static c2_replied c2__target__c2_target_step(const c2_settings *a1, const c2_pairs *a2, const c2_target *a3,
    slice_mut_u8 a4, slice_u8 a5, uint8_t a6)
{
    c2_replied result;
    uint8_t *v7;
    slice_mut_u8 v8;
    v7 = a4.at;
    v8.at = v7;
    v8.length = a4.length;
    result = c2_target_state__model__step(a1, a2, a3, v8, a5, a6);
    return result;
}

c2_target c2_target_fresh(void)
{
    return c2__target__c2_target_fresh();
}

c2_replied c2_target_step(c2_settings settings, c2_pairs wanted, c2_target target, uint8_t *flash,
    size_t flash_len, const uint8_t *delays, size_t delays_len, uint8_t step)
{
    uint8_t none8 = 0;
    slice_mut_u8 flash_slice;
    flash_slice.at = flash_len != 0 ? flash : &none8;
    flash_slice.length = flash_len;
    slice_u8 delays_slice;
    delays_slice.at = delays_len != 0 ? delays : &none8;
    delays_slice.length = delays_len;
    return c2__target__c2_target_step(&settings, &wanted, &target, flash_slice, delays_slice, step);
}
