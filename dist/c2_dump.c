/* Made from the MIR of crate dump, sha256 7dc86ad952296d14dd13300b497bbf6c94487338947e6debce68b25cc9507f6f. */
/*
 * Made by `make c`, not to be edited. A function stands under its path in the proved code; one that is generic
 * there, as those of the library are, stands once for each of what it is given, under the end of its path and
 * its types. Its result is called result, its parameters a1, a2 .. and its other locals v.., by their numbers
 * in the MIR, and copies that a call wants c1, c2 .. A statement of the MIR is one statement here, but structs
 * and arrays are assigned member by member. An enum is its tag and the members that its variants share; of
 * what has no bits there is nothing. A length is 64 bits wide, as in the proof, whatever size_t is.
 */
#include <stddef.h>
#include <stdint.h>
#include "c2_dump.h"

/* For what is the library's, and for closures: a call of each would cost more than what it does. */
#if defined(__GNUC__)
#define INLINED static inline __attribute__((always_inline))
#else
#define INLINED static inline
#endif

typedef uint8_t numbers__Refusal;

typedef struct {
    const uint8_t *at;
    uint64_t length;
} slice_u8;

typedef struct {
    slice_u8 f0;
    slice_u8 f1;
} dump__dumps__Dumps;

typedef struct {
    uint8_t tag;
    dump__dumps__Dumps dump__dumps__Dumps_0;
    numbers__Refusal numbers__Refusal_0;
} core__Result_Dumps_Refusal;

typedef struct {
    uint8_t tag;
    uint64_t u64_0;
} core__Option_u64;

typedef struct {
    uint64_t *at;
    uint64_t length;
} slice_mut_u64;

typedef struct {
    uint64_t f0;
    uint64_t f1;
} core__tuple_u64_u64;

typedef struct {
    uint8_t tag;
    core__tuple_u64_u64 core__tuple_u64_u64_0;
} core__Option_tuple_u64_u64;

/* numbers::U32FromRefusal::from */
static uint32_t numbers__U32FromRefusal__from(numbers__Refusal a1)
{
    uint32_t result;
    uint32_t v2;
    switch (a1) {
    case 0u:
        v2 = UINT32_C(1);
        break;
    case 1u:
        v2 = UINT32_C(2);
        break;
    case 2u:
        v2 = UINT32_C(3);
        break;
    case 3u:
        v2 = UINT32_C(4);
        break;
    case 4u:
        v2 = UINT32_C(5);
        break;
    case 5u:
        v2 = UINT32_C(6);
        break;
    case 6u:
        v2 = UINT32_C(7);
        break;
    case 7u:
        v2 = UINT32_C(8);
        break;
    case 8u:
        v2 = UINT32_C(16);
        break;
    case 9u:
        v2 = UINT32_C(17);
        break;
    case 10u:
        v2 = UINT32_C(18);
        break;
    case 11u:
        v2 = UINT32_C(19);
        break;
    case 12u:
        v2 = UINT32_C(20);
        break;
    case 13u:
        v2 = UINT32_C(21);
        break;
    case 14u:
        v2 = UINT32_C(22);
        break;
    case 15u:
        v2 = UINT32_C(23);
        break;
    case 16u:
        v2 = UINT32_C(24);
        break;
    case 17u:
        v2 = UINT32_C(25);
        break;
    case 18u:
        v2 = UINT32_C(26);
        break;
    case 19u:
        v2 = UINT32_C(28);
        break;
    case 20u:
        v2 = UINT32_C(29);
        break;
    case 21u:
        v2 = UINT32_C(30);
        break;
    default: /* 22 */
        v2 = UINT32_C(31);
        break;
    }
    result = v2;
    return result;
}

/* core::AnyInto::into_Refusal_u32 */
INLINED uint32_t core__AnyInto__into_Refusal_u32(numbers__Refusal a1)
{
    uint32_t result;
    numbers__Refusal v2;
    v2 = a1;
    result = numbers__U32FromRefusal__from(v2);
    return result;
}

/* dump::accepted::accepted */
static core__Result_Dumps_Refusal dump__accepted__accepted(uint32_t a1, slice_u8 a2, slice_u8 a3)
{
    core__Result_Dumps_Refusal result;
    _Bool v4;
    _Bool v5;
    numbers__Refusal v6;
    _Bool v7;
    uint64_t v8;
    uint64_t v9;
    uint64_t v10;
    uint64_t v11;
    uint64_t v12;
    _Bool v13;
    numbers__Refusal v14;
    dump__dumps__Dumps v15;
    v4 = a1 != UINT32_C(512);
    if (v4) {
        v4 = a1 != UINT32_C(1024);
        v5 = v4;
        if (v5) {
            v6 = 1u;
            result.tag = 1u;
            result.numbers__Refusal_0 = v6;
            result.dump__dumps__Dumps_0.f0.at = 0;
            result.dump__dumps__Dumps_0.f0.length = 0;
            result.dump__dumps__Dumps_0.f1.at = 0;
            result.dump__dumps__Dumps_0.f1.length = 0;
            return result;
            goto end1;
        }
    }
    end1:;
    v8 = a2.length;
    v9 = a3.length;
    v7 = v8 != v9;
    if (!v7) {
        v10 = a2.length;
        v11 = (uint64_t)a1;
        v12 = v10 % v11;
        v7 = v12 != UINT64_C(0);
        v13 = v7;
        if (!v13) {
            goto end4;
        }
    }
    v14 = 22u;
    result.tag = 1u;
    result.numbers__Refusal_0 = v14;
    result.dump__dumps__Dumps_0.f0.at = 0;
    result.dump__dumps__Dumps_0.f0.length = 0;
    result.dump__dumps__Dumps_0.f1.at = 0;
    result.dump__dumps__Dumps_0.f1.length = 0;
    return result;
    goto end3;
    end4:;
    end3:;
    v15.f0.at = a2.at;
    v15.f0.length = a2.length;
    v15.f1.at = a3.at;
    v15.f1.length = a3.length;
    result.tag = 0u;
    result.dump__dumps__Dumps_0.f0.at = v15.f0.at;
    result.dump__dumps__Dumps_0.f0.length = v15.f0.length;
    result.dump__dumps__Dumps_0.f1.at = v15.f1.at;
    result.dump__dumps__Dumps_0.f1.length = v15.f1.length;
    result.numbers__Refusal_0 = 0;
    return result;
}

/* core::int::usize::min */
INLINED uint64_t core__int__usize__min(uint64_t a1, uint64_t a2)
{
    uint64_t result;
    _Bool v3;
    uint64_t v4;
    v3 = a2 < a1;
    if (v3) {
        v4 = a2;
    } else {
        v4 = a1;
    }
    result = v4;
    return result;
}

/* dump::dumps::Dumps::difference_before */
static core__Option_u64 dump__dumps__Dumps__difference_before(const dump__dumps__Dumps *a1, uint64_t a2,
    uint64_t a3)
{
    core__Option_u64 result;
    uint64_t v4;
    _Bool v5;
    const uint8_t *v6;
    uint8_t v7;
    const uint8_t *v8;
    uint8_t v9;
    v4 = a2;
    for (;;) {
        v5 = v4 < a3;
        if (!v5) {
            break;
        }
        v6 = a1->f0.at + (size_t)v4;
        v7 = *v6;
        v8 = a1->f1.at + (size_t)v4;
        v9 = *v8;
        v5 = v7 != v9;
        if (v5) {
            result.tag = 1u;
            result.u64_0 = v4;
            return result;
        }
        v4 = v4 + UINT64_C(1);
    }
    result.tag = 0u;
    result.u64_0 = 0;
    return result;
}

/* dump::dumps::Dumps::len */
static uint64_t dump__dumps__Dumps__len(const dump__dumps__Dumps *a1)
{
    uint64_t result;
    result = a1->f0.length;
    return result;
}

/* dump::stretch::same */
static _Bool dump__stretch__same(slice_u8 a1, slice_u8 a2)
{
    _Bool result;
    _Bool v3;
    uint64_t v4;
    uint64_t v5;
    _Bool v6;
    const uint8_t *v7;
    uint8_t v8;
    const uint8_t *v9;
    uint8_t v10;
    v3 = 1;
    v4 = UINT64_C(0);
    v5 = a1.length;
    for (;;) {
        v6 = v4 < v5;
        if (!v6) {
            break;
        }
        v7 = a1.at + (size_t)v4;
        v8 = *v7;
        v9 = a2.at + (size_t)v4;
        v10 = *v9;
        v6 = v8 != v10;
        if (v6) {
            v3 = 0;
        }
        v4 = v4 + UINT64_C(1);
    }
    result = v3;
    return result;
}

/* dump::dumps::Dumps::passed */
static uint64_t dump__dumps__Dumps__passed(const dump__dumps__Dumps *a1, uint64_t a2)
{
    uint64_t result;
    uint64_t v3;
    _Bool v4;
    uint64_t v5;
    dump__dumps__Dumps v6;
    uint64_t v7;
    slice_u8 v8;
    uint64_t v9;
    const uint8_t *v10;
    uint64_t v11;
    const uint8_t *v12;
    slice_u8 v13;
    slice_u8 v14;
    uint64_t v15;
    const uint8_t *v16;
    uint64_t v17;
    const uint8_t *v18;
    slice_u8 v19;
    _Bool v20;
    v3 = a2;
    for (;;) {
        v6.f0.at = a1->f0.at;
        v6.f0.length = a1->f0.length;
        v6.f1.at = a1->f1.at;
        v6.f1.length = a1->f1.length;
        v5 = dump__dumps__Dumps__len(&v6);
        v7 = v5 - v3;
        v4 = UINT64_C(64) <= v7;
        if (v4) {
            v8.at = a1->f0.at;
            v8.length = a1->f0.length;
            v9 = v3 + UINT64_C(64);
            v10 = v8.at + (size_t)v3;
            v11 = v9 - v3;
            v12 = v10;
            v13.at = v12;
            v13.length = v11;
            v14.at = a1->f1.at;
            v14.length = a1->f1.length;
            v15 = v3 + UINT64_C(64);
            v16 = v14.at + (size_t)v3;
            v17 = v15 - v3;
            v18 = v16;
            v19.at = v18;
            v19.length = v17;
            v4 = dump__stretch__same(v13, v19);
            v20 = v4;
            if (!v20) {
                break;
            }
        } else {
            break;
        }
        v3 = v3 + UINT64_C(64);
    }
    result = v3;
    return result;
}

/* dump::dumps::Dumps::next_difference */
static core__Option_u64 dump__dumps__Dumps__next_difference(const dump__dumps__Dumps *a1, uint64_t a2)
{
    core__Option_u64 result;
    uint64_t v3;
    core__Option_u64 v4;
    uint64_t v5;
    uint64_t v6;
    dump__dumps__Dumps v7;
    uint64_t v8;
    core__Option_u64 v9;
    dump__dumps__Dumps v10;
    core__Option_u64 v11;
    dump__dumps__Dumps v12;
    uint64_t v13;
    dump__dumps__Dumps v14;
    uint64_t v15;
    dump__dumps__Dumps v16;
    v7.f0.at = a1->f0.at;
    v7.f0.length = a1->f0.length;
    v7.f1.at = a1->f1.at;
    v7.f1.length = a1->f1.length;
    v6 = dump__dumps__Dumps__len(&v7);
    v8 = v6 - a2;
    v5 = core__int__usize__min(UINT64_C(16), v8);
    v3 = a2 + v5;
    v10.f0.at = a1->f0.at;
    v10.f0.length = a1->f0.length;
    v10.f1.at = a1->f1.at;
    v10.f1.length = a1->f1.length;
    v9 = dump__dumps__Dumps__difference_before(&v10, a2, v3);
    switch (v9.tag) {
    case 0u:
        v12.f0.at = a1->f0.at;
        v12.f0.length = a1->f0.length;
        v12.f1.at = a1->f1.at;
        v12.f1.length = a1->f1.length;
        v14.f0.at = a1->f0.at;
        v14.f0.length = a1->f0.length;
        v14.f1.at = a1->f1.at;
        v14.f1.length = a1->f1.length;
        v13 = dump__dumps__Dumps__passed(&v14, v3);
        v16.f0.at = a1->f0.at;
        v16.f0.length = a1->f0.length;
        v16.f1.at = a1->f1.at;
        v16.f1.length = a1->f1.length;
        v15 = dump__dumps__Dumps__len(&v16);
        v11 = dump__dumps__Dumps__difference_before(&v12, v13, v15);
        break;
    default: /* 1 */
        v4.tag = v9.tag;
        v4.u64_0 = v9.u64_0;
        v11.tag = v4.tag;
        v11.u64_0 = v4.u64_0;
        break;
    }
    result.tag = v11.tag;
    result.u64_0 = v11.u64_0;
    return result;
}

/* dump::dumps::Dumps::range_end */
static uint64_t dump__dumps__Dumps__range_end(const dump__dumps__Dumps *a1, uint64_t a2)
{
    uint64_t result;
    uint64_t v3;
    uint64_t v4;
    dump__dumps__Dumps v5;
    _Bool v6;
    const uint8_t *v7;
    uint8_t v8;
    const uint8_t *v9;
    uint8_t v10;
    dump__dumps__Dumps v11;
    v3 = a2 + UINT64_C(1);
    v5.f0.at = a1->f0.at;
    v5.f0.length = a1->f0.length;
    v5.f1.at = a1->f1.at;
    v5.f1.length = a1->f1.length;
    v4 = dump__dumps__Dumps__len(&v5);
    for (;;) {
        v6 = v3 < v4;
        if (!v6) {
            break;
        }
        v7 = a1->f0.at + (size_t)v3;
        v8 = *v7;
        v9 = a1->f1.at + (size_t)v3;
        v10 = *v9;
        v6 = v8 == v10;
        if (v6) {
            result = v3;
            return result;
        }
        v3 = v3 + UINT64_C(1);
    }
    v11.f0.at = a1->f0.at;
    v11.f0.length = a1->f0.length;
    v11.f1.at = a1->f1.at;
    v11.f1.length = a1->f1.length;
    result = dump__dumps__Dumps__len(&v11);
    return result;
}

/* dump::dumps::Dumps::list_ranges */
static c2_ranges dump__dumps__Dumps__list_ranges(const dump__dumps__Dumps *a1, slice_mut_u64 a2)
{
    c2_ranges result;
    uint64_t v3;
    uint64_t v4;
    uint64_t v5;
    uint64_t v6;
    core__Option_u64 v7;
    dump__dumps__Dumps v8;
    uint64_t v9;
    uint64_t v10;
    _Bool v11;
    uint64_t v12;
    dump__dumps__Dumps v13;
    uint64_t v14;
    uint64_t *v15;
    uint64_t v16;
    uint64_t *v17;
    uint64_t v18;
    v3 = UINT64_C(0);
    v4 = UINT64_C(0);
    for (;;) {
        v8.f0.at = a1->f0.at;
        v8.f0.length = a1->f0.length;
        v8.f1.at = a1->f1.at;
        v8.f1.length = a1->f1.length;
        v7 = dump__dumps__Dumps__next_difference(&v8, v4);
        switch (v7.tag) {
        case 1u:
            v5 = v7.u64_0;
            v6 = UINT64_C(2) * v3;
            v9 = a2.length;
            v10 = v9 - v6;
            v11 = v10 < UINT64_C(2);
            if (v11) {
                v12 = v3;
                result.number = UINT32_C(0);
                result.more = UINT32_C(1);
                result.held = v12;
                return result;
            }
            v13.f0.at = a1->f0.at;
            v13.f0.length = a1->f0.length;
            v13.f1.at = a1->f1.at;
            v13.f1.length = a1->f1.length;
            v4 = dump__dumps__Dumps__range_end(&v13, v5);
            v14 = v5;
            v9 = v6 * UINT64_C(8);
            v15 = a2.at + (size_t)(v9 / 8u);
            *v15 = v14;
            v10 = v4 - v5;
            v14 = v10;
            v9 = v6 + UINT64_C(1);
            v16 = v9 * UINT64_C(8);
            v17 = a2.at + (size_t)(v16 / 8u);
            *v17 = v14;
            v3 = v3 + UINT64_C(1);
            break;
        default: /* 0 */
            goto end1;
        }
    }
    end1:;
    v18 = v3;
    result.number = UINT32_C(0);
    result.more = UINT32_C(0);
    result.held = v18;
    return result;
}

/* dump::c2_dump_ranges */
static c2_ranges dump__c2_dump_ranges(uint32_t a1, slice_u8 a2, slice_u8 a3, slice_mut_u64 a4)
{
    c2_ranges result;
    dump__dumps__Dumps v5;
    numbers__Refusal v6;
    core__Result_Dumps_Refusal v7;
    c2_ranges v8;
    dump__dumps__Dumps v9;
    uint64_t *v10;
    slice_mut_u64 v11;
    uint32_t v12;
    v7 = dump__accepted__accepted(a1, a2, a3);
    switch (v7.tag) {
    case 0u:
        v5.f0.at = v7.dump__dumps__Dumps_0.f0.at;
        v5.f0.length = v7.dump__dumps__Dumps_0.f0.length;
        v5.f1.at = v7.dump__dumps__Dumps_0.f1.at;
        v5.f1.length = v7.dump__dumps__Dumps_0.f1.length;
        v9.f0.at = v5.f0.at;
        v9.f0.length = v5.f0.length;
        v9.f1.at = v5.f1.at;
        v9.f1.length = v5.f1.length;
        v10 = a4.at;
        v11.at = v10;
        v11.length = a4.length;
        v8 = dump__dumps__Dumps__list_ranges(&v9, v11);
        break;
    default: /* 1 */
        v6 = v7.numbers__Refusal_0;
        v12 = core__AnyInto__into_Refusal_u32(v6);
        v8.number = v12;
        v8.more = UINT32_C(0);
        v8.held = UINT64_C(0);
        break;
    }
    result.number = v8.number;
    result.more = v8.more;
    result.held = v8.held;
    return result;
}

/* core::slice::slices_equal */
INLINED _Bool core__slice__slices_equal(slice_u8 a1, slice_u8 a2)
{
    _Bool result;
    uint64_t v3;
    uint64_t v4;
    _Bool v5;
    const uint8_t *v6;
    const uint8_t *v7;
    _Bool v8;
    v5 = a1.length == a2.length;
    if (!v5) {
        result = 0;
        return result;
    }
    v8 = 1;
    v3 = UINT64_C(0);
    for (;;) {
        v4 = a2.length;
        v5 = v3 < v4;
        if (!v5) {
            break;
        }
        v6 = a1.at + (size_t)v3;
        v7 = a2.at + (size_t)v3;
        v5 = *v6 == *v7;
        if (!v5) {
            v8 = 0;
        }
        v3 = v3 + UINT64_C(1);
    }
    result = v8;
    return result;
}

/* core::RefSlicePartialEq::eq_u8 */
INLINED _Bool core__RefSlicePartialEq__eq_u8(const slice_u8 *a1, const slice_u8 *a2)
{
    _Bool result;
    slice_u8 v3;
    slice_u8 v4;
    v3.at = a1->at;
    v3.length = a1->length;
    v4.at = a2->at;
    v4.length = a2->length;
    result = core__slice__slices_equal(v3, v4);
    return result;
}

/* dump::dumps::Dumps::first_difference */
static core__Option_tuple_u64_u64 dump__dumps__Dumps__first_difference(const dump__dumps__Dumps *a1,
    uint64_t a2)
{
    core__Option_tuple_u64_u64 result;
    uint64_t v3;
    uint64_t v4;
    uint64_t v5;
    core__Option_tuple_u64_u64 v6;
    uint64_t v7;
    uint64_t v8;
    dump__dumps__Dumps v9;
    _Bool v10;
    _Bool v11;
    slice_u8 v12;
    uint64_t v13;
    const uint8_t *v14;
    uint64_t v15;
    const uint8_t *v16;
    slice_u8 v17;
    slice_u8 v18;
    const slice_u8 *v19;
    slice_u8 v20;
    uint64_t v21;
    const uint8_t *v22;
    uint64_t v23;
    const uint8_t *v24;
    slice_u8 v25;
    slice_u8 v26;
    const slice_u8 *v27;
    _Bool v28;
    uint64_t v29;
    const uint8_t *v30;
    uint8_t v31;
    uint64_t v32;
    const uint8_t *v33;
    uint8_t v34;
    core__tuple_u64_u64 v35;
    v3 = UINT64_C(0);
    v9.f0.at = a1->f0.at;
    v9.f0.length = a1->f0.length;
    v9.f1.at = a1->f1.at;
    v9.f1.length = a1->f1.length;
    v8 = dump__dumps__Dumps__len(&v9);
    v7 = v8 / a2;
    for (;;) {
        v10 = v3 < v7;
        if (!v10) {
            break;
        }
        v4 = v3 * a2;
        v12.at = a1->f0.at;
        v12.length = a1->f0.length;
        v13 = v4 + a2;
        v14 = v12.at + (size_t)v4;
        v15 = v13 - v4;
        v16 = v14;
        v17.at = v16;
        v17.length = v15;
        v18.at = v17.at;
        v18.length = v17.length;
        v19 = &v18;
        v20.at = a1->f1.at;
        v20.length = a1->f1.length;
        v21 = v4 + a2;
        v22 = v20.at + (size_t)v4;
        v23 = v21 - v4;
        v24 = v22;
        v25.at = v24;
        v25.length = v23;
        v26.at = v25.at;
        v26.length = v25.length;
        v27 = &v26;
        v11 = core__RefSlicePartialEq__eq_u8(v19, v27);
        if (v11) {
            v3 = v3 + UINT64_C(1);
            continue;
        }
        v5 = UINT64_C(0);
        for (;;) {
            v28 = v5 < a2;
            if (!v28) {
                break;
            }
            v29 = v4 + v5;
            v30 = a1->f0.at + (size_t)v29;
            v31 = *v30;
            v32 = v4 + v5;
            v33 = a1->f1.at + (size_t)v32;
            v34 = *v33;
            v28 = v31 != v34;
            if (v28) {
                v35.f0 = v3;
                v35.f1 = v5;
                v6.tag = 1u;
                v6.core__tuple_u64_u64_0.f0 = v35.f0;
                v6.core__tuple_u64_u64_0.f1 = v35.f1;
                goto end1;
            }
            v5 = v5 + UINT64_C(1);
        }
        v3 = v3 + UINT64_C(1);
    }
    v6.tag = 0u;
    v6.core__tuple_u64_u64_0.f0 = 0;
    v6.core__tuple_u64_u64_0.f1 = 0;
    end1:;
    result.tag = v6.tag;
    result.core__tuple_u64_u64_0.f0 = v6.core__tuple_u64_u64_0.f0;
    result.core__tuple_u64_u64_0.f1 = v6.core__tuple_u64_u64_0.f1;
    return result;
}

/* dump::c2_dump_first */
static c2_difference dump__c2_dump_first(uint32_t a1, slice_u8 a2, slice_u8 a3)
{
    c2_difference result;
    dump__dumps__Dumps v4;
    uint64_t v5;
    uint64_t v6;
    numbers__Refusal v7;
    core__Result_Dumps_Refusal v8;
    c2_difference v9;
    core__Option_tuple_u64_u64 v10;
    dump__dumps__Dumps v11;
    uint64_t v12;
    c2_difference v13;
    uint64_t v14;
    uint32_t v15;
    uint32_t v16;
    v8 = dump__accepted__accepted(a1, a2, a3);
    switch (v8.tag) {
    case 0u:
        v4.f0.at = v8.dump__dumps__Dumps_0.f0.at;
        v4.f0.length = v8.dump__dumps__Dumps_0.f0.length;
        v4.f1.at = v8.dump__dumps__Dumps_0.f1.at;
        v4.f1.length = v8.dump__dumps__Dumps_0.f1.length;
        v11.f0.at = v4.f0.at;
        v11.f0.length = v4.f0.length;
        v11.f1.at = v4.f1.at;
        v11.f1.length = v4.f1.length;
        v12 = (uint64_t)a1;
        v10 = dump__dumps__Dumps__first_difference(&v11, v12);
        switch (v10.tag) {
        case 1u:
            v5 = v10.core__tuple_u64_u64_0.f0;
            v6 = v10.core__tuple_u64_u64_0.f1;
            v14 = v5;
            v15 = (uint32_t)v6;
            v13.number = UINT32_C(0);
            v13.differs = UINT32_C(1);
            v13.page = v14;
            v13.offset = v15;
            break;
        default: /* 0 */
            v13.number = UINT32_C(0);
            v13.differs = UINT32_C(0);
            v13.page = UINT64_C(0);
            v13.offset = UINT32_C(0);
            break;
        }
        v9.number = v13.number;
        v9.differs = v13.differs;
        v9.page = v13.page;
        v9.offset = v13.offset;
        break;
    default: /* 1 */
        v7 = v8.numbers__Refusal_0;
        v16 = core__AnyInto__into_Refusal_u32(v7);
        v9.number = v16;
        v9.differs = UINT32_C(0);
        v9.page = UINT64_C(0);
        v9.offset = UINT32_C(0);
        break;
    }
    result.number = v9.number;
    result.differs = v9.differs;
    result.page = v9.page;
    result.offset = v9.offset;
    return result;
}

c2_ranges c2_dump_ranges(uint32_t page_size, const uint8_t *a, size_t a_len, const uint8_t *b, size_t b_len,
    uint64_t *list, size_t list_len)
{
    uint8_t none8 = 0;
    uint64_t none64 = 0;
    slice_u8 a_slice;
    a_slice.at = a_len != 0 ? a : &none8;
    a_slice.length = a_len;
    slice_u8 b_slice;
    b_slice.at = b_len != 0 ? b : &none8;
    b_slice.length = b_len;
    slice_mut_u64 list_slice;
    list_slice.at = list_len != 0 ? list : &none64;
    list_slice.length = list_len;
    return dump__c2_dump_ranges(page_size, a_slice, b_slice, list_slice);
}

c2_difference c2_dump_first(uint32_t page_size, const uint8_t *a, size_t a_len, const uint8_t *b,
    size_t b_len)
{
    uint8_t none8 = 0;
    slice_u8 a_slice;
    a_slice.at = a_len != 0 ? a : &none8;
    a_slice.length = a_len;
    slice_u8 b_slice;
    b_slice.at = b_len != 0 ? b : &none8;
    b_slice.length = b_len;
    return dump__c2_dump_first(page_size, a_slice, b_slice);
}
