/* Made from the MIR of crate hex_calls, sha256 99a24cb9dfb007784781829e7009712870bfa8600a0a12bd263c9fa442ba4abe. */
/*
 * Made by `make c`, not to be edited. A function stands under its path in the proved code; one that is generic
 * there, as those of the library are, stands once for each of what it is given, under the end of its path and
 * its types. Its result is called result, its parameters a1, a2 .. and its other locals v.., by their numbers
 * in the MIR, and copies that a call wants c1, c2 .. A statement of the MIR is one statement here, but structs
 * and arrays are assigned member by member. An enum is its tag and the members that its variants share; of
 * what has no bits there is nothing. A length is 64 bits wide, as in the proof, whatever size_t is.
 */
#include <stddef.h>
#include <stdint.h>
#include "c2_hex.h"

/* For what is the library's, and for closures: a call of each would cost more than what it does. */
#if defined(__GNUC__)
#define INLINED static inline __attribute__((always_inline))
#else
#define INLINED static inline
#endif

typedef uint8_t numbers__Refusal;

typedef struct {
    uint8_t tag;
    uint64_t u64_0;
} core__Option_u64;

typedef struct {
    numbers__Refusal f0;
    core__Option_u64 f1;
} hex_read__walk__Fault;

typedef struct {
    uint32_t f0;
    uint64_t f1;
} hex_read__read__Filled;

typedef struct {
    uint8_t tag;
    hex_read__read__Filled hex_read__read__Filled_0;
    hex_read__walk__Fault hex_read__walk__Fault_0;
} core__Result_Filled_Fault;

typedef struct {
    numbers__Refusal f0;
} core__ErrResidual_Refusal;

typedef struct {
    uint8_t tag;
    core__ErrResidual_Refusal core__ErrResidual_Refusal_0;
} core__ControlFlow_ErrResidual_Refusal_unit;

typedef struct {
    uint8_t tag;
    numbers__Refusal numbers__Refusal_0;
} core__Result_unit_Refusal;

typedef struct {
    hex_read__walk__Fault f0;
} core__ErrResidual_Fault;

typedef struct {
    _Bool f0;
    uint64_t f1;
    uint64_t f2;
} hex_read__walk__Taken;

typedef struct {
    uint8_t tag;
    hex_read__walk__Taken hex_read__walk__Taken_0;
    core__ErrResidual_Fault core__ErrResidual_Fault_0;
} core__ControlFlow_ErrResidual_Fault_Taken;

typedef struct {
    uint8_t tag;
    hex_read__walk__Taken hex_read__walk__Taken_0;
    hex_read__walk__Fault hex_read__walk__Fault_0;
} core__Result_Taken_Fault;

typedef struct {
    uint8_t tag;
    uint8_t u8_0;
} core__Result_u8_AllocError;

typedef struct {
    uint8_t *at;
    uint64_t length;
} slice_mut_u8;

typedef struct {
    uint8_t tag;
    uint8_t u8_0;
} core__Option_u8;

typedef struct {
    const uint8_t *at;
    uint64_t length;
} slice_u8;

typedef struct {
    uint8_t f0;
    uint8_t f1;
} core__tuple_u8_u8;

typedef struct {
    uint64_t f0;
    uint64_t f1;
    uint64_t f2;
} hex_read__fill__Front;

typedef struct {
    uint8_t tag;
    uint64_t u64_0;
    uint64_t u64_1;
} hex_format__Record;

typedef struct {
    uint8_t tag;
    hex_format__Record hex_format__Record_0;
    numbers__Refusal numbers__Refusal_0;
} core__Result_Record_Refusal;

typedef struct {
    uint64_t f0;
    uint64_t f1;
    uint8_t f2;
} hex_line__line__Shape;

typedef struct {
    uint8_t tag;
    hex_line__line__Shape hex_line__line__Shape_0;
} core__Option_Shape;

typedef struct {
    uint8_t tag;
    uint64_t u64_0;
} core__ControlFlow_NoValue_u64;

typedef struct {
    uint8_t tag;
    uint8_t u8_0;
} core__ControlFlow_NoValue_u8;

typedef struct {
    slice_u8 f0;
    slice_u8 f1;
    uint64_t f2;
} core__ChunksExact_u8;

typedef struct {
    uint8_t tag;
    slice_u8 slice_u8_0;
} core__Option_slice_ref_u8;

typedef struct {
    slice_u8 f0;
    slice_u8 f1;
} core__tuple_slice_ref_u8_slice_ref_u8;

typedef struct {
    core__Result_Record_Refusal f0;
    uint64_t f1;
} hex_line__line__Judged;

typedef struct {
    uint8_t tag;
    hex_read__walk__Taken hex_read__walk__Taken_0;
    numbers__Refusal numbers__Refusal_0;
} core__Result_Taken_Refusal;

typedef struct {
    uint8_t tag;
    hex_format__Record hex_format__Record_0;
    core__ErrResidual_Refusal core__ErrResidual_Refusal_0;
} core__ControlFlow_ErrResidual_Refusal_Record;

typedef struct {
    uint8_t tag;
    const uint8_t *ref_u8_0;
} core__Option_ref_u8;

typedef struct {
    slice_u8 f0;
} core__Iter_u8;

typedef struct {
    const uint8_t *f0;
} settings__all_Self_ref_u8;

typedef struct {
    uint8_t at[8192];
} array_8192_u8;

typedef struct {
    uint8_t tag;
    uint64_t u64_0;
    numbers__Refusal numbers__Refusal_0;
} core__Result_u64_Refusal;

typedef struct {
    uint8_t at[21];
} array_21_u8;

typedef struct {
    uint8_t at[12];
} array_12_u8;

/* numbers::U32FromRefusal::from */
static uint32_t numbers__U32FromRefusal__from(numbers__Refusal a1)
{
    uint32_t result;
    uint32_t v2;
    switch (a1) {
    case 0u:
        v2 = UINT32_C(1);
        break;
    case 1u:
        v2 = UINT32_C(2);
        break;
    case 2u:
        v2 = UINT32_C(3);
        break;
    case 3u:
        v2 = UINT32_C(4);
        break;
    case 4u:
        v2 = UINT32_C(5);
        break;
    case 5u:
        v2 = UINT32_C(6);
        break;
    case 6u:
        v2 = UINT32_C(7);
        break;
    case 7u:
        v2 = UINT32_C(8);
        break;
    case 8u:
        v2 = UINT32_C(16);
        break;
    case 9u:
        v2 = UINT32_C(17);
        break;
    case 10u:
        v2 = UINT32_C(18);
        break;
    case 11u:
        v2 = UINT32_C(19);
        break;
    case 12u:
        v2 = UINT32_C(20);
        break;
    case 13u:
        v2 = UINT32_C(21);
        break;
    case 14u:
        v2 = UINT32_C(22);
        break;
    case 15u:
        v2 = UINT32_C(23);
        break;
    case 16u:
        v2 = UINT32_C(24);
        break;
    case 17u:
        v2 = UINT32_C(25);
        break;
    case 18u:
        v2 = UINT32_C(26);
        break;
    case 19u:
        v2 = UINT32_C(28);
        break;
    case 20u:
        v2 = UINT32_C(29);
        break;
    case 21u:
        v2 = UINT32_C(30);
        break;
    default: /* 22 */
        v2 = UINT32_C(31);
        break;
    }
    result = v2;
    return result;
}

/* core::AnyInto::into_Refusal_u32 */
INLINED uint32_t core__AnyInto__into_Refusal_u32(numbers__Refusal a1)
{
    uint32_t result;
    numbers__Refusal v2;
    v2 = a1;
    result = numbers__U32FromRefusal__from(v2);
    return result;
}

/* core::Option::unwrap_or_u64 */
INLINED uint64_t core__Option__unwrap_or_u64(const core__Option_u64 *a1, uint64_t a2)
{
    uint64_t result;
    uint64_t v3;
    uint64_t v4;
    switch (a1->tag) {
    case 1u:
        v3 = a1->u64_0;
        v4 = v3;
        break;
    default: /* 0 */
        v4 = a2;
        break;
    }
    result = v4;
    return result;
}

/* hex_read::walk::FaultFromRefusal::from */
static hex_read__walk__Fault hex_read__walk__FaultFromRefusal__from(numbers__Refusal a1)
{
    hex_read__walk__Fault result;
    core__Option_u64 v2;
    v2.tag = 0u;
    v2.u64_0 = 0;
    result.f0 = a1;
    result.f1.tag = v2.tag;
    result.f1.u64_0 = v2.u64_0;
    return result;
}

/* core::ResultFromResidualErrResidual::from_residua_bde472 */
INLINED core__Result_Filled_Fault core__ResultFromResidualErrResidual__from_residua_bde472(
    const core__ErrResidual_Refusal *a1)
{
    core__Result_Filled_Fault result;
    hex_read__walk__Fault v2;
    numbers__Refusal v3;
    v3 = a1->f0;
    v2 = hex_read__walk__FaultFromRefusal__from(v3);
    result.tag = 1u;
    result.hex_read__walk__Fault_0.f0 = v2.f0;
    result.hex_read__walk__Fault_0.f1.tag = v2.f1.tag;
    result.hex_read__walk__Fault_0.f1.u64_0 = v2.f1.u64_0;
    result.hex_read__read__Filled_0.f0 = 0;
    result.hex_read__read__Filled_0.f1 = 0;
    return result;
}

/* core::ResultTry::branch_unit_Refusal */
INLINED core__ControlFlow_ErrResidual_Refusal_unit core__ResultTry__branch_unit_Refusal(
    const core__Result_unit_Refusal *a1)
{
    core__ControlFlow_ErrResidual_Refusal_unit result;
    numbers__Refusal v3;
    core__ControlFlow_ErrResidual_Refusal_unit v4;
    numbers__Refusal v6;
    core__ErrResidual_Refusal v7;
    switch (a1->tag) {
    case 0u:
        v4.tag = 0u;
        v4.core__ErrResidual_Refusal_0.f0 = 0;
        break;
    default: /* 1 */
        v3 = a1->numbers__Refusal_0;
        v6 = v3;
        v7.f0 = v6;
        v4.tag = 1u;
        v4.core__ErrResidual_Refusal_0.f0 = v7.f0;
        break;
    }
    result.tag = v4.tag;
    result.core__ErrResidual_Refusal_0.f0 = v4.core__ErrResidual_Refusal_0.f0;
    return result;
}

/* core::AnyInto::into_Refusal_Fault */
INLINED hex_read__walk__Fault core__AnyInto__into_Refusal_Fault(numbers__Refusal a1)
{
    hex_read__walk__Fault result;
    numbers__Refusal v2;
    v2 = a1;
    result = hex_read__walk__FaultFromRefusal__from(v2);
    return result;
}

/* core::AnyFrom::from_Fault */
INLINED hex_read__walk__Fault core__AnyFrom__from_Fault(const hex_read__walk__Fault *a1)
{
    hex_read__walk__Fault result;
    result.f0 = a1->f0;
    result.f1.tag = a1->f1.tag;
    result.f1.u64_0 = a1->f1.u64_0;
    return result;
}

/* core::ResultFromResidualErrResidual::from_residua_5dbe91 */
INLINED core__Result_Filled_Fault core__ResultFromResidualErrResidual__from_residua_5dbe91(
    const core__ErrResidual_Fault *a1)
{
    core__Result_Filled_Fault result;
    hex_read__walk__Fault v2;
    hex_read__walk__Fault v3;
    v3.f0 = a1->f0.f0;
    v3.f1.tag = a1->f0.f1.tag;
    v3.f1.u64_0 = a1->f0.f1.u64_0;
    v2 = core__AnyFrom__from_Fault(&v3);
    result.tag = 1u;
    result.hex_read__walk__Fault_0.f0 = v2.f0;
    result.hex_read__walk__Fault_0.f1.tag = v2.f1.tag;
    result.hex_read__walk__Fault_0.f1.u64_0 = v2.f1.u64_0;
    result.hex_read__read__Filled_0.f0 = 0;
    result.hex_read__read__Filled_0.f1 = 0;
    return result;
}

/* core::ResultTry::branch_Taken_Fault */
INLINED core__ControlFlow_ErrResidual_Fault_Taken core__ResultTry__branch_Taken_Fault(
    const core__Result_Taken_Fault *a1)
{
    core__ControlFlow_ErrResidual_Fault_Taken result;
    hex_read__walk__Taken v2;
    hex_read__walk__Fault v3;
    core__ControlFlow_ErrResidual_Fault_Taken v4;
    hex_read__walk__Taken v5;
    hex_read__walk__Fault v6;
    core__ErrResidual_Fault v7;
    switch (a1->tag) {
    case 0u:
        v2.f0 = a1->hex_read__walk__Taken_0.f0;
        v2.f1 = a1->hex_read__walk__Taken_0.f1;
        v2.f2 = a1->hex_read__walk__Taken_0.f2;
        v5.f0 = v2.f0;
        v5.f1 = v2.f1;
        v5.f2 = v2.f2;
        v4.tag = 0u;
        v4.hex_read__walk__Taken_0.f0 = v5.f0;
        v4.hex_read__walk__Taken_0.f1 = v5.f1;
        v4.hex_read__walk__Taken_0.f2 = v5.f2;
        v4.core__ErrResidual_Fault_0.f0.f0 = 0;
        v4.core__ErrResidual_Fault_0.f0.f1.tag = 0;
        v4.core__ErrResidual_Fault_0.f0.f1.u64_0 = 0;
        break;
    default: /* 1 */
        v3.f0 = a1->hex_read__walk__Fault_0.f0;
        v3.f1.tag = a1->hex_read__walk__Fault_0.f1.tag;
        v3.f1.u64_0 = a1->hex_read__walk__Fault_0.f1.u64_0;
        v6.f0 = v3.f0;
        v6.f1.tag = v3.f1.tag;
        v6.f1.u64_0 = v3.f1.u64_0;
        v7.f0.f0 = v6.f0;
        v7.f0.f1.tag = v6.f1.tag;
        v7.f0.f1.u64_0 = v6.f1.u64_0;
        v4.tag = 1u;
        v4.core__ErrResidual_Fault_0.f0.f0 = v7.f0.f0;
        v4.core__ErrResidual_Fault_0.f0.f1.tag = v7.f0.f1.tag;
        v4.core__ErrResidual_Fault_0.f0.f1.u64_0 = v7.f0.f1.u64_0;
        v4.hex_read__walk__Taken_0.f0 = 0;
        v4.hex_read__walk__Taken_0.f1 = 0;
        v4.hex_read__walk__Taken_0.f2 = 0;
        break;
    }
    result.tag = v4.tag;
    result.hex_read__walk__Taken_0.f0 = v4.hex_read__walk__Taken_0.f0;
    result.hex_read__walk__Taken_0.f1 = v4.hex_read__walk__Taken_0.f1;
    result.hex_read__walk__Taken_0.f2 = v4.hex_read__walk__Taken_0.f2;
    result.core__ErrResidual_Fault_0.f0.f0 = v4.core__ErrResidual_Fault_0.f0.f0;
    result.core__ErrResidual_Fault_0.f0.f1.tag = v4.core__ErrResidual_Fault_0.f0.f1.tag;
    result.core__ErrResidual_Fault_0.f0.f1.u64_0 = v4.core__ErrResidual_Fault_0.f0.f1.u64_0;
    return result;
}

/* core::clone::U8Clone::clone */
INLINED core__Result_u8_AllocError core__clone__U8Clone__clone(const uint8_t *a1)
{
    core__Result_u8_AllocError result;
    uint8_t v2;
    v2 = *a1;
    result.tag = 0u;
    result.u8_0 = v2;
    return result;
}

/* core::clone::surely_u8 */
INLINED uint8_t core__clone__surely_u8(const uint8_t *a1)
{
    uint8_t result;
    uint8_t v2;
    core__Result_u8_AllocError v3;
    uint8_t v4;
    v3 = core__clone__U8Clone__clone(a1);
    switch (v3.tag) {
    default: /* 0 */
        v2 = v3.u8_0;
        v4 = v2;
        break;
    }
    result = v4;
    return result;
}

/* core::slice_T::fill_u8 */
INLINED void core__slice_T__fill_u8(slice_mut_u8 a1, uint8_t a2)
{
    uint8_t v3;
    uint64_t v4;
    uint64_t v5;
    _Bool v6;
    uint64_t v7;
    _Bool v8;
    uint8_t v9;
    const uint8_t *v10;
    uint8_t *v11;
    uint8_t v12;
    uint64_t v13;
    uint64_t v14;
    uint8_t *v15;
    v3 = a2;
    v4 = a1.length;
    v6 = v4 == UINT64_C(0);
    if (v6) {
        return;
    }
    v5 = UINT64_C(0);
    for (;;) {
        v7 = v4 - UINT64_C(1);
        v8 = v5 < v7;
        if (!v8) {
            break;
        }
        v10 = &v3;
        v9 = core__clone__surely_u8(v10);
        v7 = v5;
        v11 = a1.at + (size_t)v7;
        *v11 = v9;
        v5 = v5 + UINT64_C(1);
    }
    v12 = v3;
    v13 = v4 - UINT64_C(1);
    v14 = v13;
    v15 = a1.at + (size_t)v14;
    *v15 = v12;
    return;
}

/* core::convert::UsizeFromU8::from */
INLINED uint64_t core__convert__UsizeFromU8__from(uint8_t a1)
{
    uint64_t result;
    result = (uint64_t)a1;
    return result;
}

/* core::Option::unwrap_or_u8 */
INLINED uint8_t core__Option__unwrap_or_u8(const core__Option_u8 *a1, uint8_t a2)
{
    uint8_t result;
    uint8_t v3;
    uint8_t v4;
    switch (a1->tag) {
    case 1u:
        v3 = a1->u8_0;
        v4 = v3;
        break;
    default: /* 0 */
        v4 = a2;
        break;
    }
    result = v4;
    return result;
}

/* hex_line::digit::digit */
static core__Option_u8 hex_line__digit__digit(uint8_t a1)
{
    core__Option_u8 result;
    uint8_t v2;
    uint8_t v3;
    _Bool v4;
    uint8_t v5;
    uint8_t v6;
    v2 = (uint8_t)(256u + a1 - 48u);
    v4 = v2 < 10u;
    if (v4) {
        result.tag = 1u;
        result.u8_0 = v2;
        return result;
    }
    v5 = (uint8_t)((unsigned)a1 | 32u);
    v3 = (uint8_t)(256u + v5 - 97u);
    v4 = v3 < 6u;
    if (v4) {
        v6 = (uint8_t)((unsigned)v3 + 10u);
        result.tag = 1u;
        result.u8_0 = v6;
        return result;
    }
    result.tag = 0u;
    result.u8_0 = 0;
    return result;
}

/* hex_line::digit::octet */
static uint8_t hex_line__digit__octet(uint8_t a1, uint8_t a2)
{
    uint8_t result;
    uint8_t v3;
    core__Option_u8 v4;
    uint8_t v5;
    uint8_t v6;
    core__Option_u8 v7;
    v4 = hex_line__digit__digit(a1);
    v3 = core__Option__unwrap_or_u8(&v4, 0u);
    v5 = (uint8_t)((unsigned)v3 * 16u);
    v7 = hex_line__digit__digit(a2);
    v6 = core__Option__unwrap_or_u8(&v7, 0u);
    result = (uint8_t)((unsigned)v5 + v6);
    return result;
}

/* hex_line::line::count */
static uint64_t hex_line__line__count(slice_u8 a1)
{
    uint64_t result;
    uint8_t v2;
    uint8_t v3;
    const uint8_t *v4;
    const uint8_t *v5;
    const uint8_t *v6;
    core__tuple_u8_u8 v7;
    core__tuple_u8_u8 v8;
    _Bool v9;
    const uint8_t *v10;
    uint8_t v11;
    const uint8_t *v12;
    const uint8_t *v13;
    uint8_t v14;
    uint8_t v15;
    uint8_t v16;
    v9 = a1.length < UINT64_C(2);
    if (v9) {
        v8.f0 = 0u;
        v8.f1 = 0u;
        goto end1;
    }
    v9 = a1.length < UINT64_C(3);
    if (v9) {
        v10 = a1.at + (size_t)UINT64_C(1);
        v6 = v10;
        v11 = *v6;
        v8.f0 = v11;
        v8.f1 = 0u;
        goto end1;
    }
    v12 = a1.at + (size_t)UINT64_C(1);
    v13 = a1.at + (size_t)UINT64_C(2);
    v4 = v12;
    v5 = v13;
    v14 = *v4;
    v15 = *v5;
    v8.f0 = v14;
    v8.f1 = v15;
    end1:;
    v7.f0 = v8.f0;
    v7.f1 = v8.f1;
    v2 = v7.f0;
    v3 = v7.f1;
    v16 = hex_line__digit__octet(v2, v3);
    result = core__convert__UsizeFromU8__from(v16);
    return result;
}

/* hex_line::line::end_bytes */
static core__Option_u64 hex_line__line__end_bytes(slice_u8 a1)
{
    core__Option_u64 result;
    core__Option_u64 v2;
    _Bool v3;
    const uint8_t *v4;
    uint8_t v5;
    const uint8_t *v6;
    uint8_t v7;
    const uint8_t *v8;
    uint8_t v9;
    v3 = a1.length < UINT64_C(1);
    if (v3) {
        goto end2;
    }
    v3 = a1.length < UINT64_C(2);
    if (v3) {
        v4 = a1.at + (size_t)UINT64_C(0);
        v5 = *v4;
        switch (v5) {
        case 10u:
            goto end3;
        default:
            goto end2;
        }
    }
    v6 = a1.at + (size_t)UINT64_C(0);
    v7 = *v6;
    switch (v7) {
    case 10u:
        goto end3;
    case 13u:
        v8 = a1.at + (size_t)UINT64_C(1);
        v9 = *v8;
        switch (v9) {
        case 10u:
            v2.tag = 1u;
            v2.u64_0 = UINT64_C(2);
            goto end1;
        default:
            goto end2;
        }
    default:
        goto end2;
    }
    end3:;
    v2.tag = 1u;
    v2.u64_0 = UINT64_C(1);
    goto end1;
    end2:;
    v2.tag = 0u;
    v2.u64_0 = 0;
    end1:;
    result.tag = v2.tag;
    result.u64_0 = v2.u64_0;
    return result;
}

/* hex_line::line::word */
static uint64_t hex_line__line__word(uint8_t a1, uint8_t a2, uint8_t a3, uint8_t a4)
{
    uint64_t result;
    uint64_t v5;
    uint8_t v6;
    uint64_t v7;
    uint64_t v8;
    uint8_t v9;
    v6 = hex_line__digit__octet(a1, a2);
    v5 = core__convert__UsizeFromU8__from(v6);
    v7 = UINT64_C(256) * v5;
    v9 = hex_line__digit__octet(a3, a4);
    v8 = core__convert__UsizeFromU8__from(v9);
    result = v7 + v8;
    return result;
}

/* hex_read::fill::head */
static hex_read__fill__Front hex_read__fill__head(slice_u8 a1)
{
    hex_read__fill__Front result;
    uint64_t v2;
    uint64_t v3;
    uint64_t v4;
    uint64_t v5;
    const uint8_t *v6;
    uint8_t v7;
    const uint8_t *v8;
    uint8_t v9;
    const uint8_t *v10;
    uint8_t v11;
    const uint8_t *v12;
    uint8_t v13;
    uint64_t v14;
    core__Option_u64 v15;
    const uint8_t *v16;
    uint64_t v17;
    const uint8_t *v18;
    slice_u8 v19;
    v2 = hex_line__line__count(a1);
    v6 = a1.at + (size_t)UINT64_C(3);
    v7 = *v6;
    v8 = a1.at + (size_t)UINT64_C(4);
    v9 = *v8;
    v10 = a1.at + (size_t)UINT64_C(5);
    v11 = *v10;
    v12 = a1.at + (size_t)UINT64_C(6);
    v13 = *v12;
    v3 = hex_line__line__word(v7, v9, v11, v13);
    v14 = UINT64_C(2) * v2;
    v4 = v14 + UINT64_C(11);
    v16 = a1.at + (size_t)v4;
    v17 = a1.length - v4;
    v18 = v16;
    v19.at = v18;
    v19.length = v17;
    v15 = hex_line__line__end_bytes(v19);
    v14 = core__Option__unwrap_or_u64(&v15, UINT64_C(0));
    v5 = v4 + v14;
    result.f0 = v3;
    result.f1 = v2;
    result.f2 = v5;
    return result;
}

/* hex_read::fill::place */
static void hex_read__fill__place(slice_mut_u8 a1, slice_u8 a2)
{
    uint64_t v3;
    uint8_t *v4;
    uint64_t v5;
    _Bool v6;
    uint8_t *v7;
    uint8_t v8;
    uint64_t v9;
    const uint8_t *v10;
    uint8_t v11;
    uint64_t v12;
    uint64_t v13;
    const uint8_t *v14;
    uint8_t v15;
    v3 = UINT64_C(0);
    v5 = a1.length;
    for (;;) {
        v6 = v3 < v5;
        if (!v6) {
            break;
        }
        v7 = a1.at + (size_t)v3;
        v4 = v7;
        v9 = UINT64_C(2) * v3;
        v10 = a2.at + (size_t)v9;
        v11 = *v10;
        v12 = UINT64_C(2) * v3;
        v13 = v12 + UINT64_C(1);
        v14 = a2.at + (size_t)v13;
        v15 = *v14;
        v8 = hex_line__digit__octet(v11, v15);
        *v4 = v8;
        v3 = v3 + UINT64_C(1);
    }
    return;
}

/* hex_read::fill::put */
static void hex_read__fill__put(slice_mut_u8 a1, uint64_t a2, slice_u8 a3, uint64_t a4, uint64_t a5)
{
    uint64_t v6;
    uint64_t v7;
    uint64_t v8;
    _Bool v9;
    uint64_t v10;
    uint8_t *v12;
    uint8_t *v13;
    slice_mut_u8 v14;
    const uint8_t *v15;
    uint64_t v16;
    const uint8_t *v17;
    slice_u8 v18;
    v9 = a5 == UINT64_C(0);
    if (v9) {
        return;
    }
    v6 = a4 - a2;
    v7 = v6 + a5;
    v10 = UINT64_C(2) * a5;
    v8 = v10 + UINT64_C(9);
    v12 = a1.at + (size_t)v6;
    v10 = v7 - v6;
    v13 = v12;
    v14.at = v13;
    v14.length = v10;
    v15 = a3.at + (size_t)UINT64_C(9);
    v16 = v8 - UINT64_C(9);
    v17 = v15;
    v18.at = v17;
    v18.length = v16;
    hex_read__fill__place(v14, v18);
    return;
}

/* hex_read::fill::fill */
static void hex_read__fill__fill(slice_mut_u8 a1, uint64_t a2, slice_u8 a3)
{
    uint64_t v4;
    hex_read__fill__Front v5;
    uint8_t *v7;
    slice_mut_u8 v8;
    uint64_t v9;
    _Bool v10;
    const uint8_t *v11;
    const uint8_t *v12;
    slice_u8 v13;
    uint8_t *v15;
    slice_mut_u8 v16;
    const uint8_t *v17;
    const uint8_t *v18;
    slice_u8 v19;
    v7 = a1.at;
    v8.at = v7;
    v8.length = a1.length;
    core__slice_T__fill_u8(v8, 255u);
    v4 = UINT64_C(0);
    for (;;) {
        v9 = a3.length;
        v10 = v4 < v9;
        if (!v10) {
            break;
        }
        v11 = a3.at + (size_t)v4;
        v9 = a3.length - v4;
        v12 = v11;
        v13.at = v12;
        v13.length = v9;
        v5 = hex_read__fill__head(v13);
        v15 = a1.at;
        v16.at = v15;
        v16.length = a1.length;
        v17 = a3.at + (size_t)v4;
        v9 = a3.length - v4;
        v18 = v17;
        v19.at = v18;
        v19.length = v9;
        hex_read__fill__put(v16, a2, v19, v5.f0, v5.f1);
        v4 = v4 + v5.f2;
    }
    return;
}

/* hex_line::line::judge_kind */
static core__Result_Record_Refusal hex_line__line__judge_kind(uint64_t a1, uint8_t a2, uint64_t a3,
    uint64_t a4)
{
    core__Result_Record_Refusal result;
    core__Result_Record_Refusal v5;
    _Bool v6;
    _Bool v7;
    _Bool v8;
    uint64_t v9;
    hex_format__Record v10;
    _Bool v11;
    _Bool v12;
    hex_format__Record v13;
    numbers__Refusal v14;
    switch (a2) {
    case 0u:
        v7 = a3 == UINT64_C(0);
        if (!v7) {
            v8 = a3 <= a1;
            if (v8) {
                v9 = a1 - a3;
                v8 = a4 <= v9;
            }
            v7 = v8;
        }
        v6 = v7;
        if (v6) {
            v10.tag = 0u;
            v10.u64_0 = a4;
            v10.u64_1 = a3;
            v5.tag = 0u;
            v5.hex_format__Record_0.tag = v10.tag;
            v5.hex_format__Record_0.u64_0 = v10.u64_0;
            v5.hex_format__Record_0.u64_1 = v10.u64_1;
            v5.numbers__Refusal_0 = 0;
            goto end1;
        }
        goto end2;
    case 1u:
        v11 = a3 == UINT64_C(0);
        if (v11) {
            v11 = a4 == UINT64_C(0);
            v12 = v11;
            if (v12) {
                v13.tag = 1u;
                v13.u64_0 = 0;
                v13.u64_1 = 0;
                v5.tag = 0u;
                v5.hex_format__Record_0.tag = v13.tag;
                v5.hex_format__Record_0.u64_0 = v13.u64_0;
                v5.hex_format__Record_0.u64_1 = v13.u64_1;
                v5.numbers__Refusal_0 = 0;
                goto end1;
            }
        }
        goto end2;
    default:
        goto end2;
    }
    end2:;
    v14 = 14u;
    v5.tag = 1u;
    v5.numbers__Refusal_0 = v14;
    v5.hex_format__Record_0.tag = 0;
    v5.hex_format__Record_0.u64_0 = 0;
    v5.hex_format__Record_0.u64_1 = 0;
    end1:;
    result.tag = v5.tag;
    result.hex_format__Record_0.tag = v5.hex_format__Record_0.tag;
    result.hex_format__Record_0.u64_0 = v5.hex_format__Record_0.u64_0;
    result.hex_format__Record_0.u64_1 = v5.hex_format__Record_0.u64_1;
    result.numbers__Refusal_0 = v5.numbers__Refusal_0;
    return result;
}

/* core::OptionFromResidualNoValue::from_residual_Shape */
INLINED core__Option_Shape core__OptionFromResidualNoValue__from_residual_Shape(void)
{
    core__Option_Shape result;
    result.tag = 0u;
    result.hex_line__line__Shape_0.f0 = 0;
    result.hex_line__line__Shape_0.f1 = 0;
    result.hex_line__line__Shape_0.f2 = 0;
    return result;
}

/* core::OptionTry::branch_u64 */
INLINED core__ControlFlow_NoValue_u64 core__OptionTry__branch_u64(const core__Option_u64 *a1)
{
    core__ControlFlow_NoValue_u64 result;
    uint64_t v2;
    core__ControlFlow_NoValue_u64 v3;
    uint64_t v4;
    switch (a1->tag) {
    case 1u:
        v2 = a1->u64_0;
        v4 = v2;
        v3.tag = 0u;
        v3.u64_0 = v4;
        break;
    default: /* 0 */
        v3.tag = 1u;
        v3.u64_0 = 0;
        break;
    }
    result.tag = v3.tag;
    result.u64_0 = v3.u64_0;
    return result;
}

/* core::OptionTry::branch_u8 */
INLINED core__ControlFlow_NoValue_u8 core__OptionTry__branch_u8(const core__Option_u8 *a1)
{
    core__ControlFlow_NoValue_u8 result;
    uint8_t v2;
    core__ControlFlow_NoValue_u8 v3;
    uint8_t v4;
    switch (a1->tag) {
    case 1u:
        v2 = a1->u8_0;
        v4 = v2;
        v3.tag = 0u;
        v3.u8_0 = v4;
        break;
    default: /* 0 */
        v3.tag = 1u;
        v3.u8_0 = 0;
        break;
    }
    result.tag = v3.tag;
    result.u8_0 = v3.u8_0;
    return result;
}

/* core::AnyIntoIterator::into_iter_ChunksExact_u8_s_3f1896 */
INLINED core__ChunksExact_u8 core__AnyIntoIterator__into_iter_ChunksExact_u8_s_3f1896(
    const core__ChunksExact_u8 *a1)
{
    core__ChunksExact_u8 result;
    result.f0.at = a1->f0.at;
    result.f0.length = a1->f0.length;
    result.f1.at = a1->f1.at;
    result.f1.length = a1->f1.length;
    result.f2 = a1->f2;
    return result;
}

/* core::ChunksExactIterator::next_u8 */
INLINED core__Option_slice_ref_u8 core__ChunksExactIterator__next_u8(core__ChunksExact_u8 *a1)
{
    core__Option_slice_ref_u8 result;
    slice_u8 v2;
    uint64_t v3;
    uint64_t v4;
    _Bool v5;
    const uint8_t *v6;
    uint64_t v7;
    const uint8_t *v8;
    slice_u8 v9;
    const uint8_t *v10;
    slice_u8 v11;
    v2.at = a1->f0.at;
    v2.length = a1->f0.length;
    v3 = a1->f2;
    v4 = v2.length;
    v5 = v4 < v3;
    if (v5) {
        result.tag = 0u;
        result.slice_u8_0.at = 0;
        result.slice_u8_0.length = 0;
        return result;
    }
    v4 = v3;
    v6 = v2.at + (size_t)v4;
    v7 = v2.length - v3;
    v8 = v6;
    v9.at = v8;
    v9.length = v7;
    a1->f0.at = v9.at;
    a1->f0.length = v9.length;
    v10 = v2.at;
    v11.at = v10;
    v11.length = v3;
    result.tag = 1u;
    result.slice_u8_0.at = v11.at;
    result.slice_u8_0.length = v11.length;
    return result;
}

/* core::OptionFromResidualNoValue::from_residual_u8 */
INLINED core__Option_u8 core__OptionFromResidualNoValue__from_residual_u8(void)
{
    core__Option_u8 result;
    result.tag = 0u;
    result.u8_0 = 0;
    return result;
}

/* core::slice_T::split_at_u8 */
INLINED core__tuple_slice_ref_u8_slice_ref_u8 core__slice_T__split_at_u8(slice_u8 a1, uint64_t a2)
{
    core__tuple_slice_ref_u8_slice_ref_u8 result;
    const uint8_t *v3;
    slice_u8 v4;
    uint64_t v5;
    const uint8_t *v6;
    uint64_t v7;
    const uint8_t *v8;
    slice_u8 v9;
    v3 = a1.at;
    v4.at = v3;
    v4.length = a2;
    v5 = a2;
    v6 = a1.at + (size_t)v5;
    v7 = a1.length - a2;
    v8 = v6;
    v9.at = v8;
    v9.length = v7;
    result.f0.at = v4.at;
    result.f0.length = v4.length;
    result.f1.at = v9.at;
    result.f1.length = v9.length;
    return result;
}

/* core::slice_T::chunks_exact_u8 */
INLINED core__ChunksExact_u8 core__slice_T__chunks_exact_u8(slice_u8 a1, uint64_t a2)
{
    core__ChunksExact_u8 result;
    slice_u8 v3;
    core__tuple_slice_ref_u8_slice_ref_u8 v4;
    uint64_t v5;
    uint64_t v6;
    uint64_t v7;
    uint64_t v8;
    v5 = a1.length;
    v6 = a1.length;
    v7 = v6 % a2;
    v8 = v5 - v7;
    v4 = core__slice_T__split_at_u8(a1, v8);
    v3.at = v4.f1.at;
    v3.length = v4.f1.length;
    result.f0.at = a1.at;
    result.f0.length = a1.length;
    result.f1.at = v3.at;
    result.f1.length = v3.length;
    result.f2 = a2;
    return result;
}

/* hex_line::line::weigh */
static core__Option_u8 hex_line__line__weigh(slice_u8 a1)
{
    core__Option_u8 result;
    uint8_t v2;
    core__ChunksExact_u8 v3;
    core__ChunksExact_u8 v4;
    slice_u8 v5;
    slice_u8 v6;
    uint8_t v7;
    uint8_t v8;
    uint8_t v10;
    uint8_t v11;
    core__ChunksExact_u8 v13;
    core__ChunksExact_u8 v14;
    core__ChunksExact_u8 v15;
    core__Option_slice_ref_u8 v16;
    core__ChunksExact_u8 *v17;
    slice_u8 v18;
    core__ControlFlow_NoValue_u8 v19;
    core__Option_u8 v20;
    const uint8_t *v21;
    uint8_t v22;
    uint8_t v23;
    core__ControlFlow_NoValue_u8 v24;
    const uint8_t *v25;
    uint8_t v26;
    uint8_t v27;
    v2 = 0u;
    v13 = core__slice_T__chunks_exact_u8(a1, UINT64_C(2));
    v3.f0.at = v13.f0.at;
    v3.f0.length = v13.f0.length;
    v3.f1.at = v13.f1.at;
    v3.f1.length = v13.f1.length;
    v3.f2 = v13.f2;
    v15.f0.at = v3.f0.at;
    v15.f0.length = v3.f0.length;
    v15.f1.at = v3.f1.at;
    v15.f1.length = v3.f1.length;
    v15.f2 = v3.f2;
    v14 = core__AnyIntoIterator__into_iter_ChunksExact_u8_s_3f1896(&v15);
    v4.f0.at = v14.f0.at;
    v4.f0.length = v14.f0.length;
    v4.f1.at = v14.f1.at;
    v4.f1.length = v14.f1.length;
    v4.f2 = v14.f2;
    for (;;) {
        v17 = &v4;
        v16 = core__ChunksExactIterator__next_u8(v17);
        switch (v16.tag) {
        case 1u:
            v5.at = v16.slice_u8_0.at;
            v5.length = v16.slice_u8_0.length;
            v18.at = v5.at;
            v18.length = v5.length;
            break;
        default: /* 0 */
            goto end1;
        }
        v6.at = v18.at;
        v6.length = v18.length;
        v21 = v6.at + (size_t)UINT64_C(0);
        v22 = *v21;
        v20 = hex_line__digit__digit(v22);
        v19 = core__OptionTry__branch_u8(&v20);
        switch (v19.tag) {
        case 0u:
            v8 = v19.u8_0;
            v23 = v8;
            break;
        default: /* 1 */
            result = core__OptionFromResidualNoValue__from_residual_u8();
            return result;
        }
        v7 = v23;
        v25 = v6.at + (size_t)UINT64_C(1);
        v22 = *v25;
        v20 = hex_line__digit__digit(v22);
        v24 = core__OptionTry__branch_u8(&v20);
        switch (v24.tag) {
        case 0u:
            v11 = v24.u8_0;
            v26 = v11;
            break;
        default: /* 1 */
            result = core__OptionFromResidualNoValue__from_residual_u8();
            return result;
        }
        v10 = v26;
        v22 = (uint8_t)((unsigned)v7 * 16u);
        v27 = (uint8_t)((unsigned)v22 + v10);
        v2 = (uint8_t)((unsigned)v2 + v27);
    }
    end1:;
    result.tag = 1u;
    result.u8_0 = v2;
    return result;
}

/* hex_line::line::measure */
static core__Option_Shape hex_line__line__measure(slice_u8 a1)
{
    core__Option_Shape result;
    uint64_t v2;
    uint64_t v3;
    uint8_t v4;
    uint8_t v5;
    uint64_t v7;
    uint64_t v8;
    uint64_t v10;
    _Bool v11;
    slice_u8 v12;
    uint64_t v13;
    uint64_t v14;
    _Bool v15;
    uint64_t v16;
    uint64_t v17;
    const uint8_t *v18;
    uint8_t v19;
    _Bool v20;
    core__ControlFlow_NoValue_u8 v21;
    core__Option_u8 v22;
    uint64_t v23;
    const uint8_t *v24;
    uint64_t v25;
    const uint8_t *v26;
    slice_u8 v27;
    uint8_t v28;
    uint64_t v30;
    uint64_t v31;
    core__ControlFlow_NoValue_u64 v32;
    core__Option_u64 v33;
    uint64_t v34;
    const uint8_t *v35;
    uint64_t v36;
    const uint8_t *v37;
    slice_u8 v38;
    uint64_t v39;
    uint64_t v41;
    uint64_t v42;
    uint8_t v43;
    hex_line__line__Shape v44;
    v10 = a1.length;
    v11 = v10 < UINT64_C(3);
    if (v11) {
        result.tag = 0u;
        result.hex_line__line__Shape_0.f0 = 0;
        result.hex_line__line__Shape_0.f1 = 0;
        result.hex_line__line__Shape_0.f2 = 0;
        return result;
    }
    v12.at = a1.at;
    v12.length = a1.length;
    v2 = hex_line__line__count(v12);
    v13 = v2;
    v14 = UINT64_C(2) * v13;
    v3 = v14 + UINT64_C(11);
    v16 = a1.length;
    v17 = v3;
    v15 = v16 <= v17;
    if (!v15) {
        v18 = a1.at + (size_t)UINT64_C(0);
        v19 = *v18;
        v15 = v19 != 58u;
        v20 = v15;
        if (!v20) {
            goto end2;
        }
    }
    result.tag = 0u;
    result.hex_line__line__Shape_0.f0 = 0;
    result.hex_line__line__Shape_0.f1 = 0;
    result.hex_line__line__Shape_0.f2 = 0;
    return result;
    goto end1;
    end2:;
    end1:;
    v23 = v3;
    v24 = a1.at + (size_t)UINT64_C(1);
    v25 = v23 - UINT64_C(1);
    v26 = v24;
    v27.at = v26;
    v27.length = v25;
    v22 = hex_line__line__weigh(v27);
    v21 = core__OptionTry__branch_u8(&v22);
    switch (v21.tag) {
    case 0u:
        v5 = v21.u8_0;
        v28 = v5;
        break;
    default: /* 1 */
        result = core__OptionFromResidualNoValue__from_residual_Shape();
        return result;
    }
    v4 = v28;
    v30 = v3;
    v34 = v3;
    v35 = a1.at + (size_t)v34;
    v36 = a1.length - v34;
    v37 = v35;
    v38.at = v37;
    v38.length = v36;
    v33 = hex_line__line__end_bytes(v38);
    v32 = core__OptionTry__branch_u64(&v33);
    switch (v32.tag) {
    case 0u:
        v8 = v32.u64_0;
        v39 = v8;
        break;
    default: /* 1 */
        result = core__OptionFromResidualNoValue__from_residual_Shape();
        return result;
    }
    v31 = v39;
    v7 = v30 + v31;
    v41 = v7;
    v42 = v2;
    v43 = v4;
    v44.f0 = v41;
    v44.f1 = v42;
    v44.f2 = v43;
    result.tag = 1u;
    result.hex_line__line__Shape_0.f0 = v44.f0;
    result.hex_line__line__Shape_0.f1 = v44.f1;
    result.hex_line__line__Shape_0.f2 = v44.f2;
    return result;
}

/* hex_line::line::judge */
static hex_line__line__Judged hex_line__line__judge(slice_u8 a1, uint64_t a2)
{
    hex_line__line__Judged result;
    uint64_t v3;
    uint64_t v4;
    uint8_t v5;
    core__Result_Record_Refusal v6;
    core__Option_Shape v7;
    numbers__Refusal v8;
    core__Result_Record_Refusal v9;
    _Bool v10;
    numbers__Refusal v11;
    core__Result_Record_Refusal v12;
    uint8_t v13;
    const uint8_t *v14;
    uint8_t v15;
    const uint8_t *v16;
    uint8_t v17;
    uint64_t v18;
    const uint8_t *v19;
    uint8_t v20;
    const uint8_t *v21;
    uint8_t v22;
    const uint8_t *v23;
    uint8_t v24;
    const uint8_t *v25;
    uint8_t v26;
    v7 = hex_line__line__measure(a1);
    switch (v7.tag) {
    case 1u:
        v3 = v7.hex_line__line__Shape_0.f0;
        v4 = v7.hex_line__line__Shape_0.f1;
        v5 = v7.hex_line__line__Shape_0.f2;
        break;
    default: /* 0 */
        v8 = 12u;
        v9.tag = 1u;
        v9.numbers__Refusal_0 = v8;
        v9.hex_format__Record_0.tag = 0;
        v9.hex_format__Record_0.u64_0 = 0;
        v9.hex_format__Record_0.u64_1 = 0;
        result.f0.tag = v9.tag;
        result.f0.hex_format__Record_0.tag = v9.hex_format__Record_0.tag;
        result.f0.hex_format__Record_0.u64_0 = v9.hex_format__Record_0.u64_0;
        result.f0.hex_format__Record_0.u64_1 = v9.hex_format__Record_0.u64_1;
        result.f0.numbers__Refusal_0 = v9.numbers__Refusal_0;
        result.f1 = UINT64_C(0);
        return result;
    }
    v10 = v5 != 0u;
    if (v10) {
        v11 = 13u;
        v12.tag = 1u;
        v12.numbers__Refusal_0 = v11;
        v12.hex_format__Record_0.tag = 0;
        v12.hex_format__Record_0.u64_0 = 0;
        v12.hex_format__Record_0.u64_1 = 0;
        result.f0.tag = v12.tag;
        result.f0.hex_format__Record_0.tag = v12.hex_format__Record_0.tag;
        result.f0.hex_format__Record_0.u64_0 = v12.hex_format__Record_0.u64_0;
        result.f0.hex_format__Record_0.u64_1 = v12.hex_format__Record_0.u64_1;
        result.f0.numbers__Refusal_0 = v12.numbers__Refusal_0;
        result.f1 = v3;
        return result;
    }
    v14 = a1.at + (size_t)UINT64_C(7);
    v15 = *v14;
    v16 = a1.at + (size_t)UINT64_C(8);
    v17 = *v16;
    v13 = hex_line__digit__octet(v15, v17);
    v19 = a1.at + (size_t)UINT64_C(3);
    v20 = *v19;
    v21 = a1.at + (size_t)UINT64_C(4);
    v22 = *v21;
    v23 = a1.at + (size_t)UINT64_C(5);
    v24 = *v23;
    v25 = a1.at + (size_t)UINT64_C(6);
    v26 = *v25;
    v18 = hex_line__line__word(v20, v22, v24, v26);
    v6 = hex_line__line__judge_kind(a2, v13, v4, v18);
    result.f0.tag = v6.tag;
    result.f0.hex_format__Record_0.tag = v6.hex_format__Record_0.tag;
    result.f0.hex_format__Record_0.u64_0 = v6.hex_format__Record_0.u64_0;
    result.f0.hex_format__Record_0.u64_1 = v6.hex_format__Record_0.u64_1;
    result.f0.numbers__Refusal_0 = v6.numbers__Refusal_0;
    result.f1 = v3;
    return result;
}

/* core::AnyFrom::from_Refusal */
INLINED numbers__Refusal core__AnyFrom__from_Refusal(numbers__Refusal a1)
{
    numbers__Refusal result;
    result = a1;
    return result;
}

/* core::ResultFromResidualErrResidual::from_residua_932db6 */
INLINED core__Result_Taken_Refusal core__ResultFromResidualErrResidual__from_residua_932db6(
    const core__ErrResidual_Refusal *a1)
{
    core__Result_Taken_Refusal result;
    numbers__Refusal v2;
    numbers__Refusal v3;
    v3 = a1->f0;
    v2 = core__AnyFrom__from_Refusal(v3);
    result.tag = 1u;
    result.numbers__Refusal_0 = v2;
    result.hex_read__walk__Taken_0.f0 = 0;
    result.hex_read__walk__Taken_0.f1 = 0;
    result.hex_read__walk__Taken_0.f2 = 0;
    return result;
}

/* core::ResultTry::branch_Record_Refusal */
INLINED core__ControlFlow_ErrResidual_Refusal_Record core__ResultTry__branch_Record_Refusal(
    const core__Result_Record_Refusal *a1)
{
    core__ControlFlow_ErrResidual_Refusal_Record result;
    hex_format__Record v2;
    numbers__Refusal v3;
    core__ControlFlow_ErrResidual_Refusal_Record v4;
    hex_format__Record v5;
    numbers__Refusal v6;
    core__ErrResidual_Refusal v7;
    switch (a1->tag) {
    case 0u:
        v2.tag = a1->hex_format__Record_0.tag;
        v2.u64_0 = a1->hex_format__Record_0.u64_0;
        v2.u64_1 = a1->hex_format__Record_0.u64_1;
        v5.tag = v2.tag;
        v5.u64_0 = v2.u64_0;
        v5.u64_1 = v2.u64_1;
        v4.tag = 0u;
        v4.hex_format__Record_0.tag = v5.tag;
        v4.hex_format__Record_0.u64_0 = v5.u64_0;
        v4.hex_format__Record_0.u64_1 = v5.u64_1;
        v4.core__ErrResidual_Refusal_0.f0 = 0;
        break;
    default: /* 1 */
        v3 = a1->numbers__Refusal_0;
        v6 = v3;
        v7.f0 = v6;
        v4.tag = 1u;
        v4.core__ErrResidual_Refusal_0.f0 = v7.f0;
        v4.hex_format__Record_0.tag = 0;
        v4.hex_format__Record_0.u64_0 = 0;
        v4.hex_format__Record_0.u64_1 = 0;
        break;
    }
    result.tag = v4.tag;
    result.hex_format__Record_0.tag = v4.hex_format__Record_0.tag;
    result.hex_format__Record_0.u64_0 = v4.hex_format__Record_0.u64_0;
    result.hex_format__Record_0.u64_1 = v4.hex_format__Record_0.u64_1;
    result.core__ErrResidual_Refusal_0.f0 = v4.core__ErrResidual_Refusal_0.f0;
    return result;
}

/* hex_read::map::bit */
static uint8_t hex_read__map__bit(uint8_t a1, uint64_t a2)
{
    uint8_t result;
    uint8_t v3;
    uint8_t v4;
    v3 = (uint8_t)a2;
    v4 = (uint8_t)((unsigned)a1 >> v3);
    result = (uint8_t)((unsigned)v4 % 2u);
    return result;
}

/* hex_read::map::with_bit */
static uint8_t hex_read__map__with_bit(uint8_t a1, uint64_t a2)
{
    uint8_t result;
    uint8_t v3;
    uint8_t v4;
    v3 = (uint8_t)a2;
    v4 = (uint8_t)((unsigned)1u << v3);
    result = (uint8_t)((unsigned)a1 + v4);
    return result;
}

/* hex_read::map::mark */
static core__Result_unit_Refusal hex_read__map__mark(uint8_t *a1, uint64_t a2, uint64_t a3)
{
    core__Result_unit_Refusal result;
    uint64_t v4;
    uint64_t v5;
    uint64_t v6;
    uint8_t v7;
    _Bool v8;
    uint64_t v9;
    const uint8_t *v10;
    const uint8_t *v11;
    uint8_t v12;
    numbers__Refusal v13;
    uint8_t *v14;
    uint8_t *v15;
    v4 = UINT64_C(0);
    for (;;) {
        v8 = v4 < a3;
        if (!v8) {
            break;
        }
        v9 = a2 + v4;
        v5 = v9 / UINT64_C(8);
        v9 = a2 + v4;
        v6 = v9 % UINT64_C(8);
        v10 = a1;
        v11 = v10 + (size_t)v5;
        v12 = *v11;
        v7 = v12;
        v12 = hex_read__map__bit(v7, v6);
        v8 = v12 != 0u;
        if (v8) {
            v13 = 15u;
            result.tag = 1u;
            result.numbers__Refusal_0 = v13;
            return result;
        }
        v12 = hex_read__map__with_bit(v7, v6);
        v14 = a1;
        v15 = v14 + (size_t)v5;
        *v15 = v12;
        v4 = v4 + UINT64_C(1);
    }
    result.tag = 0u;
    result.numbers__Refusal_0 = 0;
    return result;
}

/* core::int::usize::max */
INLINED uint64_t core__int__usize__max(uint64_t a1, uint64_t a2)
{
    uint64_t result;
    _Bool v3;
    uint64_t v4;
    v3 = a2 < a1;
    if (v3) {
        v4 = a1;
    } else {
        v4 = a2;
    }
    result = v4;
    return result;
}

/* core::int::usize::min */
INLINED uint64_t core__int__usize__min(uint64_t a1, uint64_t a2)
{
    uint64_t result;
    _Bool v3;
    uint64_t v4;
    v3 = a2 < a1;
    if (v3) {
        v4 = a2;
    } else {
        v4 = a1;
    }
    result = v4;
    return result;
}

/* hex_read::walk::Taken::with_run */
static hex_read__walk__Taken hex_read__walk__Taken__with_run(const hex_read__walk__Taken *a1, uint64_t a2,
    uint64_t a3)
{
    hex_read__walk__Taken result;
    uint64_t v4;
    uint64_t v5;
    uint64_t v6;
    _Bool v7;
    v4 = core__int__usize__min(a1->f1, a2);
    v6 = a2 + a3;
    v5 = core__int__usize__max(a1->f2, v6);
    v7 = a1->f0;
    result.f0 = v7;
    result.f1 = v4;
    result.f2 = v5;
    return result;
}

/* hex_read::walk::take_line */
static core__Result_Taken_Refusal hex_read__walk__take_line(uint8_t *a1,
    const core__Result_Record_Refusal *a2, const hex_read__walk__Taken *a3)
{
    core__Result_Taken_Refusal result;
    hex_read__walk__Taken v4;
    hex_format__Record v5;
    core__ErrResidual_Refusal v6;
    uint64_t v7;
    uint64_t v8;
    core__ErrResidual_Refusal v10;
    hex_format__Record v11;
    core__ControlFlow_ErrResidual_Refusal_Record v12;
    hex_format__Record v13;
    hex_read__walk__Taken v14;
    _Bool v15;
    core__ControlFlow_ErrResidual_Refusal_unit v16;
    core__Result_unit_Refusal v17;
    uint8_t *v18;
    uint64_t v19;
    uint64_t v20;
    _Bool v21;
    numbers__Refusal v22;
    v12 = core__ResultTry__branch_Record_Refusal(a2);
    switch (v12.tag) {
    case 0u:
        v5.tag = v12.hex_format__Record_0.tag;
        v5.u64_0 = v12.hex_format__Record_0.u64_0;
        v5.u64_1 = v12.hex_format__Record_0.u64_1;
        v13.tag = v5.tag;
        v13.u64_0 = v5.u64_0;
        v13.u64_1 = v5.u64_1;
        break;
    default: /* 1 */
        v6.f0 = v12.core__ErrResidual_Refusal_0.f0;
        result = core__ResultFromResidualErrResidual__from_residua_932db6(&v6);
        return result;
    }
    v11.tag = v13.tag;
    v11.u64_0 = v13.u64_0;
    v11.u64_1 = v13.u64_1;
    switch (v11.tag) {
    case 0u:
        v7 = v11.u64_0;
        v8 = v11.u64_1;
        v15 = v8 != UINT64_C(0);
        if (v15) {
            v18 = a1;
            v17 = hex_read__map__mark(v18, v7, v8);
            v16 = core__ResultTry__branch_unit_Refusal(&v17);
            switch (v16.tag) {
            case 0u:
                break;
            default: /* 1 */
                v10.f0 = v16.core__ErrResidual_Refusal_0.f0;
                result = core__ResultFromResidualErrResidual__from_residua_932db6(&v10);
                return result;
            }
            v14 = hex_read__walk__Taken__with_run(a3, v7, v8);
            goto end1;
        }
        v14.f0 = a3->f0;
        v14.f1 = a3->f1;
        v14.f2 = a3->f2;
        end1:;
        break;
    default: /* 1 */
        v19 = a3->f1;
        v20 = a3->f2;
        v14.f0 = 1;
        v14.f1 = v19;
        v14.f2 = v20;
        break;
    }
    v4.f0 = v14.f0;
    v4.f1 = v14.f1;
    v4.f2 = v14.f2;
    v21 = a3->f0;
    if (v21) {
        v22 = 16u;
        result.tag = 1u;
        result.numbers__Refusal_0 = v22;
        result.hex_read__walk__Taken_0.f0 = 0;
        result.hex_read__walk__Taken_0.f1 = 0;
        result.hex_read__walk__Taken_0.f2 = 0;
        return result;
    }
    result.tag = 0u;
    result.hex_read__walk__Taken_0.f0 = v4.f0;
    result.hex_read__walk__Taken_0.f1 = v4.f1;
    result.hex_read__walk__Taken_0.f2 = v4.f2;
    result.numbers__Refusal_0 = 0;
    return result;
}

/* hex_read::walk::walk */
static core__Result_Taken_Fault hex_read__walk__walk(uint8_t *a1, uint64_t a2, slice_u8 a3)
{
    core__Result_Taken_Fault result;
    uint64_t v4;
    uint64_t v5;
    hex_read__walk__Taken v6;
    hex_line__line__Judged v7;
    hex_read__walk__Taken v8;
    numbers__Refusal v9;
    core__Option_u64 v10;
    uint64_t v11;
    _Bool v12;
    const uint8_t *v13;
    const uint8_t *v14;
    slice_u8 v15;
    core__Result_Taken_Refusal v16;
    uint8_t *v17;
    core__Result_Record_Refusal v18;
    hex_read__walk__Fault v19;
    _Bool v20;
    core__Result_Taken_Fault v21;
    hex_read__walk__Fault v22;
    numbers__Refusal v23;
    v4 = UINT64_C(0);
    v5 = UINT64_C(0);
    v6.f0 = 0;
    v6.f1 = a2;
    v6.f2 = UINT64_C(0);
    for (;;) {
        v11 = a3.length;
        v12 = v4 < v11;
        if (!v12) {
            break;
        }
        v13 = a3.at + (size_t)v4;
        v11 = a3.length - v4;
        v14 = v13;
        v15.at = v14;
        v15.length = v11;
        v7 = hex_line__line__judge(v15, a2);
        v5 = v5 + UINT64_C(1);
        v17 = a1;
        v18.tag = v7.f0.tag;
        v18.hex_format__Record_0.tag = v7.f0.hex_format__Record_0.tag;
        v18.hex_format__Record_0.u64_0 = v7.f0.hex_format__Record_0.u64_0;
        v18.hex_format__Record_0.u64_1 = v7.f0.hex_format__Record_0.u64_1;
        v18.numbers__Refusal_0 = v7.f0.numbers__Refusal_0;
        v16 = hex_read__walk__take_line(v17, &v18, &v6);
        switch (v16.tag) {
        case 0u:
            v8.f0 = v16.hex_read__walk__Taken_0.f0;
            v8.f1 = v16.hex_read__walk__Taken_0.f1;
            v8.f2 = v16.hex_read__walk__Taken_0.f2;
            v6.f0 = v8.f0;
            v6.f1 = v8.f1;
            v6.f2 = v8.f2;
            break;
        default: /* 1 */
            v9 = v16.numbers__Refusal_0;
            v10.tag = 1u;
            v10.u64_0 = v5;
            v19.f0 = v9;
            v19.f1.tag = v10.tag;
            v19.f1.u64_0 = v10.u64_0;
            result.tag = 1u;
            result.hex_read__walk__Fault_0.f0 = v19.f0;
            result.hex_read__walk__Fault_0.f1.tag = v19.f1.tag;
            result.hex_read__walk__Fault_0.f1.u64_0 = v19.f1.u64_0;
            result.hex_read__walk__Taken_0.f0 = 0;
            result.hex_read__walk__Taken_0.f1 = 0;
            result.hex_read__walk__Taken_0.f2 = 0;
            return result;
        }
        v4 = v4 + v7.f1;
    }
    v20 = v6.f0;
    if (v20) {
        v21.tag = 0u;
        v21.hex_read__walk__Taken_0.f0 = v6.f0;
        v21.hex_read__walk__Taken_0.f1 = v6.f1;
        v21.hex_read__walk__Taken_0.f2 = v6.f2;
        v21.hex_read__walk__Fault_0.f0 = 0;
        v21.hex_read__walk__Fault_0.f1.tag = 0;
        v21.hex_read__walk__Fault_0.f1.u64_0 = 0;
    } else {
        v23 = 16u;
        v22 = core__AnyInto__into_Refusal_Fault(v23);
        v21.tag = 1u;
        v21.hex_read__walk__Fault_0.f0 = v22.f0;
        v21.hex_read__walk__Fault_0.f1.tag = v22.f1.tag;
        v21.hex_read__walk__Fault_0.f1.u64_0 = v22.f1.u64_0;
        v21.hex_read__walk__Taken_0.f0 = 0;
        v21.hex_read__walk__Taken_0.f1 = 0;
        v21.hex_read__walk__Taken_0.f2 = 0;
    }
    result.tag = v21.tag;
    result.hex_read__walk__Taken_0.f0 = v21.hex_read__walk__Taken_0.f0;
    result.hex_read__walk__Taken_0.f1 = v21.hex_read__walk__Taken_0.f1;
    result.hex_read__walk__Taken_0.f2 = v21.hex_read__walk__Taken_0.f2;
    result.hex_read__walk__Fault_0.f0 = v21.hex_read__walk__Fault_0.f0;
    result.hex_read__walk__Fault_0.f1.tag = v21.hex_read__walk__Fault_0.f1.tag;
    result.hex_read__walk__Fault_0.f1.u64_0 = v21.hex_read__walk__Fault_0.f1.u64_0;
    return result;
}

/* hex_read::read::read_map */
static core__Result_Filled_Fault hex_read__read__read_map(uint8_t *a1, uint64_t a2, uint64_t a3, slice_u8 a4,
    slice_mut_u8 a5)
{
    core__Result_Filled_Fault result;
    hex_read__walk__Taken v6;
    hex_read__walk__Taken v7;
    core__ErrResidual_Fault v8;
    uint64_t v9;
    uint64_t v10;
    uint64_t v11;
    uint8_t *v13;
    slice_mut_u8 v14;
    core__ControlFlow_ErrResidual_Fault_Taken v15;
    core__Result_Taken_Fault v16;
    uint8_t *v17;
    uint64_t v18;
    hex_read__walk__Taken v19;
    _Bool v20;
    hex_read__walk__Fault v21;
    numbers__Refusal v22;
    uint64_t v23;
    uint64_t v24;
    uint64_t v25;
    hex_read__walk__Fault v26;
    numbers__Refusal v27;
    uint8_t *v28;
    slice_mut_u8 v29;
    uint32_t v30;
    hex_read__read__Filled v31;
    v13 = a1;
    v14.at = v13;
    v14.length = UINT64_C(8192);
    core__slice_T__fill_u8(v14, 0u);
    v17 = a1;
    v18 = a2 * a3;
    v16 = hex_read__walk__walk(v17, v18, a4);
    v15 = core__ResultTry__branch_Taken_Fault(&v16);
    switch (v15.tag) {
    case 0u:
        v7.f0 = v15.hex_read__walk__Taken_0.f0;
        v7.f1 = v15.hex_read__walk__Taken_0.f1;
        v7.f2 = v15.hex_read__walk__Taken_0.f2;
        v19.f0 = v7.f0;
        v19.f1 = v7.f1;
        v19.f2 = v7.f2;
        break;
    default: /* 1 */
        v8.f0.f0 = v15.core__ErrResidual_Fault_0.f0.f0;
        v8.f0.f1.tag = v15.core__ErrResidual_Fault_0.f0.f1.tag;
        v8.f0.f1.u64_0 = v15.core__ErrResidual_Fault_0.f0.f1.u64_0;
        result = core__ResultFromResidualErrResidual__from_residua_5dbe91(&v8);
        return result;
    }
    v6.f0 = v19.f0;
    v6.f1 = v19.f1;
    v6.f2 = v19.f2;
    v20 = v6.f2 == UINT64_C(0);
    if (v20) {
        v22 = 17u;
        v21 = core__AnyInto__into_Refusal_Fault(v22);
        result.tag = 1u;
        result.hex_read__walk__Fault_0.f0 = v21.f0;
        result.hex_read__walk__Fault_0.f1.tag = v21.f1.tag;
        result.hex_read__walk__Fault_0.f1.u64_0 = v21.f1.u64_0;
        result.hex_read__read__Filled_0.f0 = 0;
        result.hex_read__read__Filled_0.f1 = 0;
        return result;
    }
    v9 = v6.f1 / a2;
    v10 = v9 * a2;
    v18 = v6.f2 - UINT64_C(1);
    v23 = v18 / a2;
    v24 = v23 * a2;
    v25 = v24 + a2;
    v11 = v25 - v10;
    v18 = a5.length;
    v20 = v18 < v11;
    if (v20) {
        v27 = 18u;
        v26 = core__AnyInto__into_Refusal_Fault(v27);
        result.tag = 1u;
        result.hex_read__walk__Fault_0.f0 = v26.f0;
        result.hex_read__walk__Fault_0.f1.tag = v26.f1.tag;
        result.hex_read__walk__Fault_0.f1.u64_0 = v26.f1.u64_0;
        result.hex_read__read__Filled_0.f0 = 0;
        result.hex_read__read__Filled_0.f1 = 0;
        return result;
    }
    v28 = a5.at;
    v29.at = v28;
    v29.length = v11;
    hex_read__fill__fill(v29, v10, a4);
    v30 = (uint32_t)v9;
    v31.f0 = v30;
    v31.f1 = v11;
    result.tag = 0u;
    result.hex_read__read__Filled_0.f0 = v31.f0;
    result.hex_read__read__Filled_0.f1 = v31.f1;
    result.hex_read__walk__Fault_0.f0 = 0;
    result.hex_read__walk__Fault_0.f1.tag = 0;
    result.hex_read__walk__Fault_0.f1.u64_0 = 0;
    return result;
}

/* core::slice_T::is_empty_u8 */
INLINED _Bool core__slice_T__is_empty_u8(slice_u8 a1)
{
    _Bool result;
    uint64_t v2;
    v2 = a1.length;
    result = v2 == UINT64_C(0);
    return result;
}

/* core::IterIterator::next_u8 */
INLINED core__Option_ref_u8 core__IterIterator__next_u8(core__Iter_u8 *a1)
{
    core__Option_ref_u8 result;
    slice_u8 v2;
    _Bool v3;
    uint64_t v4;
    const uint8_t *v5;
    uint64_t v6;
    const uint8_t *v7;
    slice_u8 v8;
    const uint8_t *v9;
    const uint8_t *v10;
    v2.at = a1->f0.at;
    v2.length = a1->f0.length;
    v3 = core__slice_T__is_empty_u8(v2);
    if (v3) {
        result.tag = 0u;
        result.ref_u8_0 = 0;
        return result;
    }
    v4 = UINT64_C(1);
    v5 = v2.at + (size_t)v4;
    v6 = v2.length - UINT64_C(1);
    v7 = v5;
    v8.at = v7;
    v8.length = v6;
    a1->f0.at = v8.at;
    a1->f0.length = v8.length;
    v4 = UINT64_C(0);
    v9 = v2.at + (size_t)v4;
    v10 = v9;
    result.tag = 1u;
    result.ref_u8_0 = v10;
    return result;
}

/* settings::registers::fn::are_registers::all */
INLINED _Bool settings__registers__fn__are_registers__all(settings__all_Self_ref_u8 *a1, const uint8_t *a2)
{
    _Bool result;
    const uint8_t *v3;
    _Bool v4;
    uint8_t v5;
    uint8_t v6;
    uint8_t v7;
    v3 = a1->f0;
    v5 = *a2;
    v4 = 3u <= v5;
    if (v4) {
        v6 = *a2;
        v7 = *v3;
        v4 = v6 != v7;
    }
    result = v4;
    return result;
}

/* settings::registers::fn::are_registers::all_FnMut::call_mut */
INLINED _Bool settings__registers__fn__are_registers__all_FnMut__call_mut(settings__all_Self_ref_u8 *a1,
    const uint8_t *a2)
{
    _Bool result;
    settings__all_Self_ref_u8 *v3;
    v3 = a1;
    result = settings__registers__fn__are_registers__all(v3, a2);
    return result;
}

/* core::Iterator::all_Iter_u8_ref_u8_are_registers_f5c56d */
INLINED _Bool core__Iterator__all_Iter_u8_ref_u8_are_registers_f5c56d(core__Iter_u8 *a1,
    const settings__all_Self_ref_u8 *a2)
{
    _Bool result;
    settings__all_Self_ref_u8 v3;
    const uint8_t *v4;
    core__Option_ref_u8 v5;
    core__Iter_u8 *v6;
    _Bool v7;
    settings__all_Self_ref_u8 *v8;
    const uint8_t *v9;
    _Bool v10;
    v3.f0 = a2->f0;
    for (;;) {
        v6 = a1;
        v5 = core__IterIterator__next_u8(v6);
        switch (v5.tag) {
        case 1u:
            v4 = v5.ref_u8_0;
            v8 = &v3;
            v9 = v4;
            v7 = settings__registers__fn__are_registers__all_FnMut__call_mut(v8, v9);
            v10 = !v7;
            if (v10) {
                result = 0;
                return result;
            }
            break;
        default: /* 0 */
            goto end1;
        }
    }
    end1:;
    result = 1;
    return result;
}

/* core::slice_T::iter_u8 */
INLINED core__Iter_u8 core__slice_T__iter_u8(slice_u8 a1)
{
    core__Iter_u8 result;
    result.f0.at = a1.at;
    result.f0.length = a1.length;
    return result;
}

/* settings::registers::are_registers */
static _Bool settings__registers__are_registers(uint8_t a1, slice_u8 a2)
{
    _Bool result;
    uint8_t v3;
    core__Iter_u8 v4;
    core__Iter_u8 v5;
    core__Iter_u8 *v6;
    const uint8_t *v7;
    settings__all_Self_ref_u8 v8;
    v3 = a1;
    v4 = core__slice_T__iter_u8(a2);
    v5.f0.at = v4.f0.at;
    v5.f0.length = v4.f0.length;
    v6 = &v5;
    v7 = &v3;
    v8.f0 = v7;
    result = core__Iterator__all_Iter_u8_ref_u8_are_registers_f5c56d(v6, &v8);
    return result;
}

/* settings::registers::entries_fit */
static _Bool settings__registers__entries_fit(uint8_t a1, const c2_pairs *a2)
{
    _Bool result;
    c2_pairs v3;
    uint64_t v4;
    uint8_t v5;
    _Bool v6;
    const uint8_t *v7;
    slice_u8 v8;
    v3.count = a2->count;
    v3.registers[0] = a2->registers[0];
    v3.registers[1] = a2->registers[1];
    v3.registers[2] = a2->registers[2];
    v3.registers[3] = a2->registers[3];
    v3.values[0] = a2->values[0];
    v3.values[1] = a2->values[1];
    v3.values[2] = a2->values[2];
    v3.values[3] = a2->values[3];
    v5 = v3.count;
    v4 = core__convert__UsizeFromU8__from(v5);
    v6 = v4 <= UINT64_C(4);
    if (v6) {
        v7 = v3.registers;
        v8.at = v7;
        v8.length = v4;
        v6 = settings__registers__are_registers(a1, v8);
    }
    result = v6;
    return result;
}

/* settings::registers::are_pairs */
static _Bool settings__registers__are_pairs(uint8_t a1, const c2_pairs *a2)
{
    _Bool result;
    _Bool v3;
    v3 = a2->count == 0u;
    if (!v3) {
        v3 = settings__registers__entries_fit(a1, a2);
    }
    result = v3;
    return result;
}

/* settings::accepted::wait_refusal */
static core__Result_unit_Refusal settings__accepted__wait_refusal(const c2_settings *a1)
{
    core__Result_unit_Refusal result;
    _Bool v2;
    numbers__Refusal v3;
    c2_pairs v4;
    _Bool v5;
    numbers__Refusal v6;
    v2 = a1->wait_limit == 0u;
    if (v2) {
        v3 = 10u;
        result.tag = 1u;
        result.numbers__Refusal_0 = v3;
        return result;
    }
    v4.count = a1->pairs.count;
    v4.registers[0] = a1->pairs.registers[0];
    v4.registers[1] = a1->pairs.registers[1];
    v4.registers[2] = a1->pairs.registers[2];
    v4.registers[3] = a1->pairs.registers[3];
    v4.values[0] = a1->pairs.values[0];
    v4.values[1] = a1->pairs.values[1];
    v4.values[2] = a1->pairs.values[2];
    v4.values[3] = a1->pairs.values[3];
    v2 = settings__registers__are_pairs(a1->fpdat, &v4);
    v5 = !v2;
    if (v5) {
        v6 = 11u;
        result.tag = 1u;
        result.numbers__Refusal_0 = v6;
        return result;
    }
    result.tag = 0u;
    result.numbers__Refusal_0 = 0;
    return result;
}

/* settings::accepted::count_refusal */
static core__Result_unit_Refusal settings__accepted__count_refusal(const c2_settings *a1, uint32_t a2)
{
    core__Result_unit_Refusal result;
    _Bool v3;
    _Bool v4;
    numbers__Refusal v5;
    v3 = a1->page_count == UINT32_C(0);
    if (!v3) {
        v3 = a2 < a1->page_count;
        v4 = v3;
        if (!v4) {
            goto end2;
        }
    }
    v5 = 2u;
    result.tag = 1u;
    result.numbers__Refusal_0 = v5;
    return result;
    goto end1;
    end2:;
    end1:;
    result = settings__accepted__wait_refusal(a1);
    return result;
}

/* settings::accepted::refusal */
static core__Result_unit_Refusal settings__accepted__refusal(const c2_settings *a1)
{
    core__Result_unit_Refusal result;
    _Bool v2;
    numbers__Refusal v3;
    core__Result_unit_Refusal v4;
    numbers__Refusal v5;
    v2 = a1->fpdat < 3u;
    if (v2) {
        v3 = 0u;
        result.tag = 1u;
        result.numbers__Refusal_0 = v3;
        return result;
    }
    switch (a1->page_size) {
    case 512u:
        v4 = settings__accepted__count_refusal(a1, UINT32_C(128));
        break;
    case 1024u:
        v4 = settings__accepted__count_refusal(a1, UINT32_C(64));
        break;
    default:
        v5 = 1u;
        v4.tag = 1u;
        v4.numbers__Refusal_0 = v5;
        break;
    }
    result.tag = v4.tag;
    result.numbers__Refusal_0 = v4.numbers__Refusal_0;
    return result;
}

/* hex_read::read::read_tested */
static core__Result_Filled_Fault hex_read__read__read_tested(const c2_settings *a1, slice_u8 a2,
    slice_mut_u8 a3)
{
    core__Result_Filled_Fault result;
    core__ErrResidual_Refusal v5;
    array_8192_u8 v6;
    core__ControlFlow_ErrResidual_Refusal_unit v7;
    core__Result_unit_Refusal v8;
    uint8_t *v9;
    uint64_t v10;
    uint64_t v11;
    uint8_t *v12;
    slice_mut_u8 v13;
    v8 = settings__accepted__refusal(a1);
    v7 = core__ResultTry__branch_unit_Refusal(&v8);
    switch (v7.tag) {
    case 0u:
        break;
    default: /* 1 */
        v5.f0 = v7.core__ErrResidual_Refusal_0.f0;
        result = core__ResultFromResidualErrResidual__from_residua_bde472(&v5);
        return result;
    }
    for (uint32_t i = 0; i < UINT32_C(8192); i++) {
        v6.at[i] = 0u;
    }
    v9 = v6.at;
    v10 = (uint64_t)a1->page_size;
    v11 = (uint64_t)a1->page_count;
    v12 = a3.at;
    v13.at = v12;
    v13.length = a3.length;
    result = hex_read__read__read_map(v9, v10, v11, a2, v13);
    return result;
}

/* hex_read::read::read */
static c2_hex_image hex_read__read__read(const c2_settings *a1, slice_u8 a2, slice_mut_u8 a3)
{
    c2_hex_image result;
    hex_read__read__Filled v4;
    hex_read__walk__Fault v5;
    core__Result_Filled_Fault v6;
    uint8_t *v7;
    slice_mut_u8 v8;
    c2_hex_image v9;
    uint64_t v10;
    uint32_t v11;
    numbers__Refusal v12;
    uint64_t v13;
    core__Option_u64 v14;
    v7 = a3.at;
    v8.at = v7;
    v8.length = a3.length;
    v6 = hex_read__read__read_tested(a1, a2, v8);
    switch (v6.tag) {
    case 0u:
        v4.f0 = v6.hex_read__read__Filled_0.f0;
        v4.f1 = v6.hex_read__read__Filled_0.f1;
        v10 = v4.f1;
        v9.number = UINT32_C(0);
        v9.line = UINT64_C(0);
        v9.first_page = v4.f0;
        v9.length = v10;
        break;
    default: /* 1 */
        v5.f0 = v6.hex_read__walk__Fault_0.f0;
        v5.f1.tag = v6.hex_read__walk__Fault_0.f1.tag;
        v5.f1.u64_0 = v6.hex_read__walk__Fault_0.f1.u64_0;
        v12 = v5.f0;
        v11 = core__AnyInto__into_Refusal_u32(v12);
        v14.tag = v5.f1.tag;
        v14.u64_0 = v5.f1.u64_0;
        v13 = core__Option__unwrap_or_u64(&v14, UINT64_C(0));
        v9.number = v11;
        v9.line = v13;
        v9.first_page = UINT32_C(0);
        v9.length = UINT64_C(0);
        break;
    }
    result.number = v9.number;
    result.line = v9.line;
    result.first_page = v9.first_page;
    result.length = v9.length;
    return result;
}

/* hex_calls::c2_hex_read */
static c2_hex_image hex_calls__c2_hex_read(const c2_settings *a1, slice_u8 a2, slice_mut_u8 a3)
{
    c2_hex_image result;
    uint8_t *v4;
    slice_mut_u8 v5;
    v4 = a3.at;
    v5.at = v4;
    v5.length = a3.length;
    result = hex_read__read__read(a1, a2, v5);
    return result;
}

/* core::ResultFromResidualErrResidual::from_residua_f6ecb9 */
INLINED core__Result_u64_Refusal core__ResultFromResidualErrResidual__from_residua_f6ecb9(
    const core__ErrResidual_Refusal *a1)
{
    core__Result_u64_Refusal result;
    numbers__Refusal v2;
    numbers__Refusal v3;
    v3 = a1->f0;
    v2 = core__AnyFrom__from_Refusal(v3);
    result.tag = 1u;
    result.numbers__Refusal_0 = v2;
    result.u64_0 = 0;
    return result;
}

/* core::slice::copy_from_slice */
INLINED void core__slice__copy_from_slice(slice_mut_u8 a1, slice_u8 a2)
{
    uint64_t v3;
    uint64_t v4;
    _Bool v5;
    const uint8_t *v6;
    uint8_t v7;
    uint8_t *v8;
    v3 = UINT64_C(0);
    for (;;) {
        v4 = a2.length;
        v5 = v3 < v4;
        if (!v5) {
            break;
        }
        v6 = a2.at + (size_t)v3;
        v7 = *v6;
        v8 = a1.at + (size_t)v3;
        *v8 = v7;
        v3 = v3 + UINT64_C(1);
    }
    return;
}

/* hex_write::digit::upper */
static uint8_t hex_write__digit__upper(uint8_t a1)
{
    uint8_t result;
    _Bool v2;
    uint8_t v3;
    uint8_t v4;
    v2 = a1 < 10u;
    if (v2) {
        v3 = (uint8_t)((unsigned)48u + a1);
    } else {
        v4 = (uint8_t)((unsigned)a1 - 10u);
        v3 = (uint8_t)((unsigned)65u + v4);
    }
    result = v3;
    return result;
}

/* hex_write::digit::put_text */
static void hex_write__digit__put_text(slice_mut_u8 a1, slice_u8 a2)
{
    uint64_t v3;
    const uint8_t *v4;
    uint64_t v5;
    _Bool v6;
    const uint8_t *v7;
    uint8_t v8;
    uint8_t v9;
    uint8_t v10;
    uint64_t v11;
    uint8_t *v12;
    uint64_t v13;
    uint8_t *v14;
    v3 = UINT64_C(0);
    v5 = a2.length;
    for (;;) {
        v6 = v3 < v5;
        if (!v6) {
            break;
        }
        v7 = a2.at + (size_t)v3;
        v4 = v7;
        v9 = *v4;
        v10 = (uint8_t)((unsigned)v9 / 16u);
        v8 = hex_write__digit__upper(v10);
        v11 = UINT64_C(2) * v3;
        v12 = a1.at + (size_t)v11;
        *v12 = v8;
        v9 = *v4;
        v10 = (uint8_t)((unsigned)v9 % 16u);
        v8 = hex_write__digit__upper(v10);
        v11 = UINT64_C(2) * v3;
        v13 = v11 + UINT64_C(1);
        v14 = a1.at + (size_t)v13;
        *v14 = v8;
        v3 = v3 + UINT64_C(1);
    }
    return;
}

/* core::int::u8::wrapping_neg */
INLINED uint8_t core__int__u8__wrapping_neg(uint8_t a1)
{
    uint8_t result;
    result = (uint8_t)(256u + 0u - a1);
    return result;
}

/* hex_write::line::fn::total::fold */
INLINED uint8_t hex_write__line__fn__total__fold(uint8_t a2, const uint8_t *a3)
{
    uint8_t result;
    uint8_t v4;
    v4 = *a3;
    result = (uint8_t)((unsigned)a2 + v4);
    return result;
}

/* hex_write::line::fn::total::fold_FnMut::call_mut */
INLINED uint8_t hex_write__line__fn__total__fold_FnMut__call_mut(uint8_t a2, const uint8_t *a3)
{
    uint8_t result;
    result = hex_write__line__fn__total__fold(a2, a3);
    return result;
}

/* core::Iterator::fold_Iter_u8_ref_u8_u8_total_fold */
INLINED uint8_t core__Iterator__fold_Iter_u8_ref_u8_u8_total_fold(const core__Iter_u8 *a1, uint8_t a2)
{
    uint8_t result;
    core__Iter_u8 v4;
    uint8_t v6;
    const uint8_t *v7;
    core__Option_ref_u8 v8;
    core__Iter_u8 *v9;
    uint8_t v10;
    uint8_t v12;
    const uint8_t *v13;
    v4.f0.at = a1->f0.at;
    v4.f0.length = a1->f0.length;
    v6 = a2;
    for (;;) {
        v9 = &v4;
        v8 = core__IterIterator__next_u8(v9);
        switch (v8.tag) {
        case 1u:
            v7 = v8.ref_u8_0;
            v12 = v6;
            v13 = v7;
            v10 = hex_write__line__fn__total__fold_FnMut__call_mut(v12, v13);
            v6 = v10;
            break;
        default: /* 0 */
            goto end1;
        }
    }
    end1:;
    result = v6;
    return result;
}

/* hex_write::line::total */
static uint8_t hex_write__line__total(slice_u8 a1)
{
    uint8_t result;
    core__Iter_u8 v2;
    v2 = core__slice_T__iter_u8(a1);
    result = core__Iterator__fold_Iter_u8_ref_u8_u8_total_fold(&v2, 0u);
    return result;
}

/* hex_write::line::check */
static uint8_t hex_write__line__check(slice_u8 a1)
{
    uint8_t result;
    uint8_t v2;
    v2 = hex_write__line__total(a1);
    result = core__int__u8__wrapping_neg(v2);
    return result;
}

/* hex_write::line::put_record */
static void hex_write__line__put_record(uint8_t *a1, uint8_t a2, uint8_t a3, slice_u8 a4)
{
    uint8_t v5;
    uint8_t *v6;
    uint8_t *v7;
    uint8_t *v8;
    uint8_t *v9;
    uint8_t *v10;
    uint8_t *v11;
    uint8_t *v12;
    uint8_t *v13;
    uint8_t *v15;
    uint8_t *v16;
    uint64_t v17;
    uint8_t *v18;
    slice_mut_u8 v19;
    const uint8_t *v20;
    slice_u8 v21;
    uint8_t *v22;
    uint8_t *v23;
    v6 = a1;
    v7 = v6 + (size_t)UINT64_C(0);
    *v7 = 16u;
    v8 = a1;
    v9 = v8 + (size_t)UINT64_C(1);
    *v9 = a2;
    v10 = a1;
    v11 = v10 + (size_t)UINT64_C(2);
    *v11 = a3;
    v12 = a1;
    v13 = v12 + (size_t)UINT64_C(3);
    *v13 = 0u;
    v15 = a1;
    v16 = v15 + (size_t)UINT64_C(4);
    v17 = UINT64_C(20) - UINT64_C(4);
    v18 = v16;
    v19.at = v18;
    v19.length = v17;
    core__slice__copy_from_slice(v19, a4);
    v20 = a1;
    v21.at = v20;
    v21.length = UINT64_C(20);
    v5 = hex_write__line__check(v21);
    v22 = a1;
    v23 = v22 + (size_t)UINT64_C(20);
    *v23 = v5;
    return;
}

/* hex_write::line::put_line */
static void hex_write__line__put_line(slice_mut_u8 a1, uint8_t a2, uint8_t a3, slice_u8 a4)
{
    array_21_u8 v5;
    uint8_t *v7;
    uint8_t *v8;
    uint8_t *v9;
    uint64_t v10;
    uint8_t *v11;
    slice_mut_u8 v12;
    const uint8_t *v13;
    slice_u8 v14;
    uint8_t *v15;
    for (uint32_t i = 0; i < UINT32_C(21); i++) {
        v5.at[i] = 0u;
    }
    v7 = v5.at;
    hex_write__line__put_record(v7, a2, a3, a4);
    v8 = a1.at + (size_t)UINT64_C(0);
    *v8 = 58u;
    v9 = a1.at + (size_t)UINT64_C(1);
    v10 = UINT64_C(43) - UINT64_C(1);
    v11 = v9;
    v12.at = v11;
    v12.length = v10;
    v13 = v5.at;
    v14.at = v13;
    v14.length = UINT64_C(21);
    hex_write__digit__put_text(v12, v14);
    v15 = a1.at + (size_t)UINT64_C(43);
    *v15 = 10u;
    return;
}

/* hex_write::write::put_lines */
static void hex_write__write__put_lines(slice_mut_u8 a1, uint64_t a2, slice_u8 a3, uint64_t a4)
{
    uint64_t v5;
    uint64_t v6;
    _Bool v7;
    uint64_t v8;
    uint64_t v10;
    uint64_t v11;
    uint8_t *v12;
    uint64_t v13;
    uint8_t *v14;
    slice_mut_u8 v15;
    uint64_t v16;
    uint8_t v17;
    uint64_t v18;
    uint8_t v19;
    uint64_t v20;
    uint64_t v21;
    uint64_t v22;
    const uint8_t *v23;
    uint64_t v24;
    const uint8_t *v25;
    slice_u8 v26;
    v5 = UINT64_C(0);
    for (;;) {
        v7 = v5 < a4;
        if (!v7) {
            break;
        }
        v8 = UINT64_C(16) * v5;
        v6 = a2 + v8;
        v8 = UINT64_C(44) * v5;
        v10 = UINT64_C(44) * v5;
        v11 = v10 + UINT64_C(44);
        v12 = a1.at + (size_t)v8;
        v13 = v11 - v8;
        v14 = v12;
        v15.at = v14;
        v15.length = v13;
        v16 = v6 / UINT64_C(256);
        v17 = (uint8_t)v16;
        v18 = v6 % UINT64_C(256);
        v19 = (uint8_t)v18;
        v20 = UINT64_C(16) * v5;
        v21 = UINT64_C(16) * v5;
        v22 = v21 + UINT64_C(16);
        v23 = a3.at + (size_t)v20;
        v24 = v22 - v20;
        v25 = v23;
        v26.at = v25;
        v26.length = v24;
        hex_write__line__put_line(v15, v17, v19, v26);
        v5 = v5 + UINT64_C(1);
    }
    return;
}

/* hex_write::write::put_file */
static void hex_write__write__put_file(slice_mut_u8 a1, uint64_t a2, slice_u8 a3, uint64_t a4)
{
    uint8_t *v6;
    slice_mut_u8 v7;
    uint64_t v8;
    uint8_t *v9;
    uint64_t v10;
    uint8_t *v11;
    slice_mut_u8 v12;
    static const array_12_u8 v13 = {{58u, 48u, 48u, 48u, 48u, 48u, 48u, 48u, 49u, 70u, 70u, 10u}};
    const uint8_t *v14;
    slice_u8 v15;
    v6 = a1.at;
    v7.at = v6;
    v7.length = a1.length;
    hex_write__write__put_lines(v7, a2, a3, a4);
    v8 = UINT64_C(44) * a4;
    v9 = a1.at + (size_t)v8;
    v10 = a1.length - v8;
    v11 = v9;
    v12.at = v11;
    v12.length = v10;
    v14 = v13.at;
    v15.at = v14;
    v15.length = UINT64_C(12);
    core__slice__copy_from_slice(v12, v15);
    return;
}

/* core::ResultFromResidualErrResidual::from_residua_45a805 */
INLINED core__Result_unit_Refusal core__ResultFromResidualErrResidual__from_residua_45a805(
    const core__ErrResidual_Refusal *a1)
{
    core__Result_unit_Refusal result;
    numbers__Refusal v2;
    numbers__Refusal v3;
    v3 = a1->f0;
    v2 = core__AnyFrom__from_Refusal(v3);
    result.tag = 1u;
    result.numbers__Refusal_0 = v2;
    return result;
}

/* core::int::checked::usize::checked_sub */
INLINED core__Option_u64 core__int__checked__usize__checked_sub(uint64_t a1, uint64_t a2)
{
    core__Option_u64 result;
    _Bool v3;
    core__Option_u64 v4;
    uint64_t v5;
    v3 = a1 < a2;
    if (v3) {
        v4.tag = 0u;
        v4.u64_0 = 0;
    } else {
        v5 = a1 - a2;
        v4.tag = 1u;
        v4.u64_0 = v5;
    }
    result.tag = v4.tag;
    result.u64_0 = v4.u64_0;
    return result;
}

/* settings::opening::pages_refusal */
static core__Result_unit_Refusal settings__opening__pages_refusal(uint32_t a1, uint32_t a2, uint64_t a3)
{
    core__Result_unit_Refusal result;
    uint64_t v4;
    core__Option_u64 v5;
    uint64_t v6;
    core__Result_unit_Refusal v7;
    uint64_t v8;
    _Bool v9;
    numbers__Refusal v10;
    v6 = (uint64_t)a2;
    v5 = core__int__checked__usize__checked_sub(v6, a3);
    switch (v5.tag) {
    case 1u:
        v4 = v5.u64_0;
        v8 = (uint64_t)a1;
        v9 = v8 <= v4;
        if (v9) {
            v7.tag = 0u;
            v7.numbers__Refusal_0 = 0;
            goto end1;
        }
        goto end2;
    default: /* 0 */
        goto end2;
    }
    end2:;
    v10 = 4u;
    v7.tag = 1u;
    v7.numbers__Refusal_0 = v10;
    end1:;
    result.tag = v7.tag;
    result.numbers__Refusal_0 = v7.numbers__Refusal_0;
    return result;
}

/* settings::opening::image_refusal */
static core__Result_unit_Refusal settings__opening__image_refusal(const c2_settings *a1, uint32_t a2,
    uint64_t a3)
{
    core__Result_unit_Refusal result;
    uint64_t v4;
    _Bool v5;
    uint64_t v6;
    _Bool v7;
    numbers__Refusal v8;
    uint64_t v9;
    v4 = (uint64_t)a1->page_size;
    v5 = a3 == UINT64_C(0);
    if (!v5) {
        v6 = a3 % v4;
        v5 = v6 != UINT64_C(0);
        v7 = v5;
        if (!v7) {
            goto end2;
        }
    }
    v8 = 3u;
    result.tag = 1u;
    result.numbers__Refusal_0 = v8;
    return result;
    goto end1;
    end2:;
    end1:;
    v9 = a3 / v4;
    result = settings__opening__pages_refusal(a2, a1->page_count, v9);
    return result;
}

/* settings::opening::opening_refusal */
static core__Result_unit_Refusal settings__opening__opening_refusal(const c2_settings *a1, uint32_t a2,
    uint64_t a3)
{
    core__Result_unit_Refusal result;
    core__ErrResidual_Refusal v5;
    core__ControlFlow_ErrResidual_Refusal_unit v6;
    core__Result_unit_Refusal v7;
    v7 = settings__accepted__refusal(a1);
    v6 = core__ResultTry__branch_unit_Refusal(&v7);
    switch (v6.tag) {
    case 0u:
        break;
    default: /* 1 */
        v5.f0 = v6.core__ErrResidual_Refusal_0.f0;
        result = core__ResultFromResidualErrResidual__from_residua_45a805(&v5);
        return result;
    }
    result = settings__opening__image_refusal(a1, a2, a3);
    return result;
}

/* hex_write::write::refusal */
static core__Result_unit_Refusal hex_write__write__refusal(const c2_settings *a1, uint32_t a2, uint64_t a3,
    uint64_t a4)
{
    core__Result_unit_Refusal result;
    core__ErrResidual_Refusal v6;
    core__ControlFlow_ErrResidual_Refusal_unit v7;
    core__Result_unit_Refusal v8;
    uint64_t v9;
    uint64_t v10;
    uint64_t v11;
    _Bool v12;
    numbers__Refusal v13;
    v8 = settings__opening__opening_refusal(a1, a2, a3);
    v7 = core__ResultTry__branch_unit_Refusal(&v8);
    switch (v7.tag) {
    case 0u:
        break;
    default: /* 1 */
        v6.f0 = v7.core__ErrResidual_Refusal_0.f0;
        result = core__ResultFromResidualErrResidual__from_residua_45a805(&v6);
        return result;
    }
    v9 = a3 / UINT64_C(16);
    v10 = UINT64_C(44) * v9;
    v11 = v10 + UINT64_C(12);
    v12 = a4 < v11;
    if (v12) {
        v13 = 18u;
        result.tag = 1u;
        result.numbers__Refusal_0 = v13;
        return result;
    }
    result.tag = 0u;
    result.numbers__Refusal_0 = 0;
    return result;
}

/* hex_write::write::write_tested */
static core__Result_u64_Refusal hex_write__write__write_tested(const c2_settings *a1, uint32_t a2,
    slice_u8 a3, slice_mut_u8 a4)
{
    core__Result_u64_Refusal result;
    core__ErrResidual_Refusal v6;
    uint64_t v7;
    uint64_t v8;
    uint64_t v9;
    core__ControlFlow_ErrResidual_Refusal_unit v10;
    core__Result_unit_Refusal v11;
    uint64_t v12;
    uint64_t v13;
    uint8_t *v15;
    slice_mut_u8 v16;
    v12 = a3.length;
    v13 = a4.length;
    v11 = hex_write__write__refusal(a1, a2, v12, v13);
    v10 = core__ResultTry__branch_unit_Refusal(&v11);
    switch (v10.tag) {
    case 0u:
        break;
    default: /* 1 */
        v6.f0 = v10.core__ErrResidual_Refusal_0.f0;
        result = core__ResultFromResidualErrResidual__from_residua_f6ecb9(&v6);
        return result;
    }
    v12 = a3.length;
    v7 = v12 / UINT64_C(16);
    v13 = UINT64_C(44) * v7;
    v8 = v13 + UINT64_C(12);
    v12 = (uint64_t)a2;
    v13 = (uint64_t)a1->page_size;
    v9 = v12 * v13;
    v15 = a4.at;
    v16.at = v15;
    v16.length = v8;
    hex_write__write__put_file(v16, v9, a3, v7);
    result.tag = 0u;
    result.u64_0 = v8;
    result.numbers__Refusal_0 = 0;
    return result;
}

/* hex_write::write::write */
static c2_written hex_write__write__write(const c2_settings *a1, uint32_t a2, slice_u8 a3, slice_mut_u8 a4)
{
    c2_written result;
    uint64_t v5;
    numbers__Refusal v6;
    core__Result_u64_Refusal v7;
    uint8_t *v8;
    slice_mut_u8 v9;
    c2_written v10;
    uint64_t v11;
    uint32_t v12;
    v8 = a4.at;
    v9.at = v8;
    v9.length = a4.length;
    v7 = hex_write__write__write_tested(a1, a2, a3, v9);
    switch (v7.tag) {
    case 0u:
        v5 = v7.u64_0;
        v11 = v5;
        v10.number = UINT32_C(0);
        v10.length = v11;
        break;
    default: /* 1 */
        v6 = v7.numbers__Refusal_0;
        v12 = core__AnyInto__into_Refusal_u32(v6);
        v10.number = v12;
        v10.length = UINT64_C(0);
        break;
    }
    result.number = v10.number;
    result.length = v10.length;
    return result;
}

/* hex_calls::c2_hex_write */
static c2_written hex_calls__c2_hex_write(const c2_settings *a1, uint32_t a2, slice_u8 a3, slice_mut_u8 a4)
{
    c2_written result;
    uint8_t *v5;
    slice_mut_u8 v6;
    v5 = a4.at;
    v6.at = v5;
    v6.length = a4.length;
    result = hex_write__write__write(a1, a2, a3, v6);
    return result;
}

c2_hex_image c2_hex_read(c2_settings settings, const uint8_t *file, size_t file_len, uint8_t *image,
    size_t image_len)
{
    uint8_t none8 = 0;
    slice_u8 file_slice;
    file_slice.at = file_len != 0 ? file : &none8;
    file_slice.length = file_len;
    slice_mut_u8 image_slice;
    image_slice.at = image_len != 0 ? image : &none8;
    image_slice.length = image_len;
    return hex_calls__c2_hex_read(&settings, file_slice, image_slice);
}

c2_written c2_hex_write(c2_settings settings, uint32_t first_page, const uint8_t *image, size_t image_len,
    uint8_t *file, size_t file_len)
{
    uint8_t none8 = 0;
    slice_u8 image_slice;
    image_slice.at = image_len != 0 ? image : &none8;
    image_slice.length = image_len;
    slice_mut_u8 file_slice;
    file_slice.at = file_len != 0 ? file : &none8;
    file_slice.length = file_len;
    return hex_calls__c2_hex_write(&settings, first_page, image_slice, file_slice);
}
