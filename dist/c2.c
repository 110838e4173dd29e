/* Made from the MIR of crate c2, sha256 d2f35cd3c24b5b9691007b30d2745e4f4155effadda04b1d35f05a13884b0dce. */
/*
 * Made by `make c`, not to be edited. A function stands under its path in the proved code; one that is generic
 * there, as those of the library are, stands once for each of what it is given, under the end of its path and
 * its types. Its result is called result, its parameters a1, a2 .. and its other locals v.., by their numbers
 * in the MIR, and copies that a call wants c1, c2 .. A statement of the MIR is one statement here, but structs
 * and arrays are assigned member by member. An enum is its tag and the members that its variants share; of
 * what has no bits there is nothing. A length is 64 bits wide, as in the proof, whatever size_t is.
 */
#include <stddef.h>
#include <stdint.h>
#include "c2.h"

/* For what is the library's, and for closures: a call of each would cost more than what it does. */
#if defined(__GNUC__)
#define INLINED static inline __attribute__((always_inline))
#else
#define INLINED static inline
#endif

typedef struct {
    uint8_t at[4];
} array_4_u8;

typedef uint8_t c2_acts__Stage;

typedef struct {
    uint8_t tag;
    c2_acts__Stage c2_acts__Stage_0;
    uint32_t u32_0;
    uint32_t u32_1;
    uint32_t u32_2;
    uint32_t u32_3;
    uint32_t u32_4;
    uint32_t u32_5;
} c2_session__Point;

typedef struct {
    c2_settings f0;
    uint16_t f1;
    uint16_t f2;
    c2_session__Point f3;
} c2_session__Session;

typedef struct {
    uint8_t at[32];
} array_32_u8;

typedef struct {
    uint32_t f0;
    uint32_t f1;
    uint8_t f2;
    uint32_t f3;
    uint32_t f4;
    uint32_t f5;
    uint32_t f6;
    uint32_t f7;
    uint32_t f8;
} c2_record__Fields;

typedef uint8_t numbers__Refusal;

typedef struct {
    uint8_t tag;
    numbers__Refusal numbers__Refusal_0;
} core__Result_unit_Refusal;

typedef struct {
    numbers__Refusal f0;
} core__ErrResidual_Refusal;

typedef struct {
    uint8_t tag;
    core__ErrResidual_Refusal core__ErrResidual_Refusal_0;
} core__ControlFlow_ErrResidual_Refusal_unit;

typedef struct {
    uint8_t *at;
    uint64_t length;
} slice_mut_u8;

typedef struct {
    uint8_t tag;
    uint8_t *mut_array_32_u8_0;
} core__Option_mut_array_32_u8;

typedef struct {
    const uint8_t *at;
    uint64_t length;
} slice_u8;

typedef struct {
    uint8_t tag;
    const uint8_t *ref_u8_0;
} core__Option_ref_u8;

typedef struct {
    slice_u8 f0;
} core__Iter_u8;

typedef struct {
    const uint8_t *f0;
} settings__all_Self_ref_u8;

typedef struct {
    uint8_t tag;
    uint64_t u64_0;
} core__Option_u64;

typedef uint8_t c2_acts__Task;

typedef struct {
    c2_acts__Stage f0;
    uint32_t f1;
    uint32_t f2;
    uint32_t f3;
} c2_session__At;

typedef struct {
    uint8_t tag;
    uint8_t u8_0;
} core__Option_u8;

typedef uint8_t c2_wire__Frame;

typedef struct {
    uint8_t at[2048];
} array_2048_u8;

typedef struct {
    c2_session__Point f0;
    c2_acts__Task f1;
    uint64_t f2;
} c2_session__Runner;

typedef struct {
    uint32_t f0;
    uint32_t f1;
    uint32_t f2;
} c2_wire__Place;

typedef struct {
    uint8_t tag;
    c2_wire__Place c2_wire__Place_0;
    uint32_t u32_0;
} c2_wire__Moved;

typedef struct {
    c2_session__Point f0;
    uint64_t f1;
} c2__Ran;

typedef struct {
    uint32_t f0;
    uint32_t f1;
    uint32_t f2;
} c2_range__bounds__Bounds;

typedef struct {
    uint8_t at[2];
} array_2_u8;

typedef struct {
    uint8_t tag;
    c2_session__Point c2_session__Point_0;
} core__Option_Point;

typedef struct {
    uint8_t tag;
    const uint8_t *ref_array_32_u8_0;
} core__ControlFlow_NoValue_ref_array_32_u8;

typedef struct {
    uint8_t tag;
    const uint8_t *ref_array_32_u8_0;
} core__Option_ref_array_32_u8;

typedef struct {
    const uint8_t *at;
    uint64_t length;
} slice_array_32_u8;

typedef struct {
    uint8_t tag;
    c2__Ran c2__Ran_0;
    numbers__Refusal numbers__Refusal_0;
} core__Result_Ran_Refusal;

typedef struct {
    uint32_t f0;
    uint32_t f1;
} c2_outcome__Outcome;

typedef struct {
    c2_session__Session f0;
} c2_figure__Figure;

/* c2_opening::pages_in */
static uint16_t c2_opening__pages_in(uint64_t a1, uint32_t a2)
{
    uint16_t result;
    _Bool v3;
    uint16_t v4;
    uint64_t v5;
    uint64_t v6;
    uint64_t v7;
    v3 = a2 == UINT32_C(0);
    if (v3) {
        v4 = 0u;
    } else {
        v5 = (uint64_t)a2;
        v6 = a1 / v5;
        v7 = v6 % UINT64_C(65536);
        v4 = (uint16_t)v7;
    }
    result = v4;
    return result;
}

/* settings::registers::if_named */
static uint8_t settings__registers__if_named(_Bool a1, uint8_t a2)
{
    uint8_t result;
    _Bool v3;
    uint8_t v4;
    v3 = a1;
    if (v3) {
        v4 = a2;
    } else {
        v4 = 0u;
    }
    result = v4;
    return result;
}

/* settings::registers::named */
static array_4_u8 settings__registers__named(uint8_t a1, array_4_u8 a2)
{
    array_4_u8 result;
    array_4_u8 v3;
    uint8_t v4;
    _Bool v5;
    const uint8_t *v6;
    const uint8_t *v7;
    uint8_t v8;
    uint8_t v9;
    _Bool v10;
    const uint8_t *v11;
    const uint8_t *v12;
    uint8_t v13;
    uint8_t v14;
    _Bool v15;
    const uint8_t *v16;
    const uint8_t *v17;
    uint8_t v18;
    uint8_t v19;
    _Bool v20;
    const uint8_t *v21;
    const uint8_t *v22;
    uint8_t v23;
    v3 = a2;
    v5 = 0u < a1;
    v6 = v3.at;
    v7 = v6 + (size_t)UINT64_C(0);
    v8 = *v7;
    v4 = settings__registers__if_named(v5, v8);
    v10 = 1u < a1;
    v11 = v3.at;
    v12 = v11 + (size_t)UINT64_C(1);
    v13 = *v12;
    v9 = settings__registers__if_named(v10, v13);
    v15 = 2u < a1;
    v16 = v3.at;
    v17 = v16 + (size_t)UINT64_C(2);
    v18 = *v17;
    v14 = settings__registers__if_named(v15, v18);
    v20 = 3u < a1;
    v21 = v3.at;
    v22 = v21 + (size_t)UINT64_C(3);
    v23 = *v22;
    v19 = settings__registers__if_named(v20, v23);
    result.at[0] = v4;
    result.at[1] = v9;
    result.at[2] = v14;
    result.at[3] = v19;
    return result;
}

/* settings::registers::tidy */
static c2_pairs settings__registers__tidy(const c2_pairs *a1)
{
    c2_pairs result;
    array_4_u8 v2;
    array_4_u8 v3;
    array_4_u8 v4;
    array_4_u8 v5;
    v3.at[0] = a1->registers[0];
    v3.at[1] = a1->registers[1];
    v3.at[2] = a1->registers[2];
    v3.at[3] = a1->registers[3];
    v2 = settings__registers__named(a1->count, v3);
    v5.at[0] = a1->values[0];
    v5.at[1] = a1->values[1];
    v5.at[2] = a1->values[2];
    v5.at[3] = a1->values[3];
    v4 = settings__registers__named(a1->count, v5);
    result.count = a1->count;
    result.registers[0] = v2.at[0];
    result.registers[1] = v2.at[1];
    result.registers[2] = v2.at[2];
    result.registers[3] = v2.at[3];
    result.values[0] = v4.at[0];
    result.values[1] = v4.at[1];
    result.values[2] = v4.at[2];
    result.values[3] = v4.at[3];
    return result;
}

/* c2_opening::start */
static c2_session__Session c2_opening__start(const c2_settings *a1, uint32_t a2, uint64_t a3)
{
    c2_session__Session result;
    c2_pairs v4;
    c2_pairs v5;
    uint8_t v6;
    uint8_t v7;
    uint32_t v8;
    uint32_t v9;
    uint8_t v10;
    c2_settings v11;
    uint32_t v12;
    uint16_t v13;
    uint16_t v14;
    c2_acts__Stage v15;
    c2_session__Point v16;
    v5.count = a1->pairs.count;
    v5.registers[0] = a1->pairs.registers[0];
    v5.registers[1] = a1->pairs.registers[1];
    v5.registers[2] = a1->pairs.registers[2];
    v5.registers[3] = a1->pairs.registers[3];
    v5.values[0] = a1->pairs.values[0];
    v5.values[1] = a1->pairs.values[1];
    v5.values[2] = a1->pairs.values[2];
    v5.values[3] = a1->pairs.values[3];
    v4 = settings__registers__tidy(&v5);
    v6 = a1->device_id;
    v7 = a1->fpdat;
    v8 = a1->page_size;
    v9 = a1->page_count;
    v10 = a1->wait_limit;
    v11.device_id = v6;
    v11.fpdat = v7;
    v11.page_size = v8;
    v11.page_count = v9;
    v11.wait_limit = v10;
    v11.pairs.count = v4.count;
    v11.pairs.registers[0] = v4.registers[0];
    v11.pairs.registers[1] = v4.registers[1];
    v11.pairs.registers[2] = v4.registers[2];
    v11.pairs.registers[3] = v4.registers[3];
    v11.pairs.values[0] = v4.values[0];
    v11.pairs.values[1] = v4.values[1];
    v11.pairs.values[2] = v4.values[2];
    v11.pairs.values[3] = v4.values[3];
    v12 = (uint32_t)(a2 % UINT32_C(65536));
    v13 = (uint16_t)v12;
    v14 = c2_opening__pages_in(a3, a1->page_size);
    v15 = 0u;
    v16.tag = 0u;
    v16.c2_acts__Stage_0 = v15;
    v16.u32_0 = UINT32_C(0);
    v16.u32_1 = UINT32_C(0);
    v16.u32_2 = UINT32_C(0);
    v16.u32_3 = UINT32_C(0);
    v16.u32_4 = UINT32_C(0);
    v16.u32_5 = UINT32_C(0);
    result.f0.device_id = v11.device_id;
    result.f0.fpdat = v11.fpdat;
    result.f0.page_size = v11.page_size;
    result.f0.page_count = v11.page_count;
    result.f0.wait_limit = v11.wait_limit;
    result.f0.pairs.count = v11.pairs.count;
    result.f0.pairs.registers[0] = v11.pairs.registers[0];
    result.f0.pairs.registers[1] = v11.pairs.registers[1];
    result.f0.pairs.registers[2] = v11.pairs.registers[2];
    result.f0.pairs.registers[3] = v11.pairs.registers[3];
    result.f0.pairs.values[0] = v11.pairs.values[0];
    result.f0.pairs.values[1] = v11.pairs.values[1];
    result.f0.pairs.values[2] = v11.pairs.values[2];
    result.f0.pairs.values[3] = v11.pairs.values[3];
    result.f1 = v13;
    result.f2 = v14;
    result.f3.tag = v16.tag;
    result.f3.c2_acts__Stage_0 = v16.c2_acts__Stage_0;
    result.f3.u32_0 = v16.u32_0;
    result.f3.u32_1 = v16.u32_1;
    result.f3.u32_2 = v16.u32_2;
    result.f3.u32_3 = v16.u32_3;
    result.f3.u32_4 = v16.u32_4;
    result.f3.u32_5 = v16.u32_5;
    return result;
}

/* c2_record::words::byte */
static uint8_t c2_record__words__byte(uint8_t a1)
{
    uint8_t result;
    result = a1;
    return result;
}

/* core::int::u32::to_le_bytes */
INLINED array_4_u8 core__int__u32__to_le_bytes(uint32_t a1)
{
    array_4_u8 result;
    uint32_t v2;
    uint8_t v3;
    uint32_t v4;
    uint32_t v5;
    uint8_t v6;
    uint32_t v7;
    uint32_t v8;
    uint8_t v9;
    uint32_t v10;
    uint32_t v11;
    uint8_t v12;
    v2 = (uint32_t)(a1 % UINT32_C(256));
    v3 = (uint8_t)v2;
    v4 = (uint32_t)(a1 / UINT32_C(256));
    v5 = (uint32_t)(v4 % UINT32_C(256));
    v6 = (uint8_t)v5;
    v7 = (uint32_t)(a1 / UINT32_C(65536));
    v8 = (uint32_t)(v7 % UINT32_C(256));
    v9 = (uint8_t)v8;
    v10 = (uint32_t)(a1 / UINT32_C(16777216));
    v11 = (uint32_t)(v10 % UINT32_C(256));
    v12 = (uint8_t)v11;
    result.at[0] = v3;
    result.at[1] = v6;
    result.at[2] = v9;
    result.at[3] = v12;
    return result;
}

/* c2_record::words::high */
static uint8_t c2_record__words__high(uint32_t a1)
{
    uint8_t result;
    array_4_u8 v2;
    array_4_u8 v3;
    const uint8_t *v4;
    const uint8_t *v5;
    uint8_t v6;
    v2 = core__int__u32__to_le_bytes(a1);
    v3 = v2;
    v4 = v3.at;
    v5 = v4 + (size_t)UINT64_C(1);
    v6 = *v5;
    result = v6;
    return result;
}

/* c2_record::words::low */
static uint8_t c2_record__words__low(uint32_t a1)
{
    uint8_t result;
    array_4_u8 v2;
    array_4_u8 v3;
    const uint8_t *v4;
    const uint8_t *v5;
    uint8_t v6;
    v2 = core__int__u32__to_le_bytes(a1);
    v3 = v2;
    v4 = v3.at;
    v5 = v4 + (size_t)UINT64_C(0);
    v6 = *v5;
    result = v6;
    return result;
}

/* core::convert::U32FromU16::from */
INLINED uint32_t core__convert__U32FromU16__from(uint16_t a1)
{
    uint32_t result;
    result = (uint32_t)a1;
    return result;
}

/* c2_record::write::lay */
static array_32_u8 c2_record__write__lay(const c2_settings *a1, uint16_t a2, uint16_t a3,
    const c2_record__Fields *a4)
{
    array_32_u8 result;
    uint8_t v5;
    array_4_u8 v6;
    array_4_u8 v7;
    uint8_t v8;
    uint8_t v9;
    uint8_t v10;
    uint8_t v11;
    uint8_t v12;
    uint8_t v13;
    uint32_t v14;
    uint8_t v15;
    uint32_t v16;
    uint8_t v17;
    uint8_t v18;
    uint8_t v19;
    uint8_t v20;
    uint8_t v21;
    uint8_t v22;
    uint8_t v23;
    uint8_t v24;
    uint8_t v25;
    uint8_t v26;
    uint8_t v27;
    uint8_t v28;
    uint8_t v29;
    uint8_t v30;
    const uint8_t *v31;
    const uint8_t *v32;
    uint8_t v33;
    uint8_t v34;
    const uint8_t *v35;
    const uint8_t *v36;
    uint8_t v37;
    uint8_t v38;
    const uint8_t *v39;
    const uint8_t *v40;
    uint8_t v41;
    uint8_t v42;
    const uint8_t *v43;
    const uint8_t *v44;
    uint8_t v45;
    uint8_t v46;
    const uint8_t *v47;
    const uint8_t *v48;
    uint8_t v49;
    uint8_t v50;
    const uint8_t *v51;
    const uint8_t *v52;
    uint8_t v53;
    uint8_t v54;
    const uint8_t *v55;
    const uint8_t *v56;
    uint8_t v57;
    uint8_t v58;
    const uint8_t *v59;
    const uint8_t *v60;
    uint8_t v61;
    v5 = a1->pairs.count;
    v6.at[0] = a1->pairs.registers[0];
    v6.at[1] = a1->pairs.registers[1];
    v6.at[2] = a1->pairs.registers[2];
    v6.at[3] = a1->pairs.registers[3];
    v7.at[0] = a1->pairs.values[0];
    v7.at[1] = a1->pairs.values[1];
    v7.at[2] = a1->pairs.values[2];
    v7.at[3] = a1->pairs.values[3];
    v8 = c2_record__words__byte(a1->device_id);
    v9 = c2_record__words__byte(a1->fpdat);
    v10 = c2_record__words__low(a1->page_size);
    v11 = c2_record__words__high(a1->page_size);
    v12 = c2_record__words__low(a1->page_count);
    v14 = core__convert__U32FromU16__from(a2);
    v13 = c2_record__words__low(v14);
    v16 = core__convert__U32FromU16__from(a3);
    v15 = c2_record__words__low(v16);
    v17 = c2_record__words__low(a4->f0);
    v18 = c2_record__words__low(a4->f1);
    v19 = c2_record__words__high(a4->f1);
    v20 = c2_record__words__byte(a4->f2);
    v21 = c2_record__words__low(a4->f3);
    v22 = c2_record__words__low(a4->f4);
    v23 = c2_record__words__low(a4->f5);
    v24 = c2_record__words__high(a4->f5);
    v25 = c2_record__words__low(a4->f6);
    v26 = c2_record__words__low(a4->f7);
    v27 = c2_record__words__low(a4->f8);
    v28 = c2_record__words__byte(a1->wait_limit);
    v29 = c2_record__words__byte(v5);
    v31 = v6.at;
    v32 = v31 + (size_t)UINT64_C(0);
    v33 = *v32;
    v30 = c2_record__words__byte(v33);
    v35 = v7.at;
    v36 = v35 + (size_t)UINT64_C(0);
    v37 = *v36;
    v34 = c2_record__words__byte(v37);
    v39 = v6.at;
    v40 = v39 + (size_t)UINT64_C(1);
    v41 = *v40;
    v38 = c2_record__words__byte(v41);
    v43 = v7.at;
    v44 = v43 + (size_t)UINT64_C(1);
    v45 = *v44;
    v42 = c2_record__words__byte(v45);
    v47 = v6.at;
    v48 = v47 + (size_t)UINT64_C(2);
    v49 = *v48;
    v46 = c2_record__words__byte(v49);
    v51 = v7.at;
    v52 = v51 + (size_t)UINT64_C(2);
    v53 = *v52;
    v50 = c2_record__words__byte(v53);
    v55 = v6.at;
    v56 = v55 + (size_t)UINT64_C(3);
    v57 = *v56;
    v54 = c2_record__words__byte(v57);
    v59 = v7.at;
    v60 = v59 + (size_t)UINT64_C(3);
    v61 = *v60;
    v58 = c2_record__words__byte(v61);
    result.at[0] = v8;
    result.at[1] = v9;
    result.at[2] = v10;
    result.at[3] = v11;
    result.at[4] = v12;
    result.at[5] = v13;
    result.at[6] = v15;
    result.at[7] = v17;
    result.at[8] = v18;
    result.at[9] = v19;
    result.at[10] = v20;
    result.at[11] = v21;
    result.at[12] = v22;
    result.at[13] = v23;
    result.at[14] = v24;
    result.at[15] = v25;
    result.at[16] = v26;
    result.at[17] = v27;
    result.at[18] = v28;
    result.at[19] = v29;
    result.at[20] = v30;
    result.at[21] = v34;
    result.at[22] = v38;
    result.at[23] = v42;
    result.at[24] = v46;
    result.at[25] = v50;
    result.at[26] = v54;
    result.at[27] = v58;
    result.at[28] = 0u;
    result.at[29] = 0u;
    result.at[30] = 0u;
    result.at[31] = 0u;
    return result;
}

/* core::default::U32Default::default */
INLINED uint32_t core__default__U32Default__default(void)
{
    uint32_t result;
    result = UINT32_C(0);
    return result;
}

/* core::default::U8Default::default */
INLINED uint8_t core__default__U8Default__default(void)
{
    uint8_t result;
    result = 0u;
    return result;
}

/* c2_record::FieldsDefault::default */
static c2_record__Fields c2_record__FieldsDefault__default(void)
{
    c2_record__Fields result;
    uint32_t v1;
    uint32_t v2;
    uint8_t v3;
    uint32_t v4;
    uint32_t v5;
    uint32_t v6;
    uint32_t v7;
    uint32_t v8;
    uint32_t v9;
    v1 = core__default__U32Default__default();
    v2 = core__default__U32Default__default();
    v3 = core__default__U8Default__default();
    v4 = core__default__U32Default__default();
    v5 = core__default__U32Default__default();
    v6 = core__default__U32Default__default();
    v7 = core__default__U32Default__default();
    v8 = core__default__U32Default__default();
    v9 = core__default__U32Default__default();
    result.f0 = v1;
    result.f1 = v2;
    result.f2 = v3;
    result.f3 = v4;
    result.f4 = v5;
    result.f5 = v6;
    result.f6 = v7;
    result.f7 = v8;
    result.f8 = v9;
    return result;
}

/* c2_record::write::stage_code */
static uint8_t c2_record__write__stage_code(c2_acts__Stage a1)
{
    uint8_t result;
    result = a1;
    return result;
}

/* c2_record::write::FieldsFromPoint::from */
static c2_record__Fields c2_record__write__FieldsFromPoint__from(const c2_session__Point *a1)
{
    c2_record__Fields result;
    c2_acts__Stage v2;
    uint32_t v3;
    uint32_t v4;
    uint32_t v5;
    uint32_t v6;
    uint32_t v7;
    uint32_t v8;
    uint32_t v9;
    uint32_t v10;
    c2_record__Fields v11;
    uint8_t v12;
    c2_record__Fields v13;
    uint32_t v14;
    uint32_t v15;
    c2_record__Fields v16;
    uint8_t v17;
    uint32_t v18;
    uint32_t v19;
    uint32_t v20;
    uint32_t v21;
    uint32_t v22;
    uint32_t v23;
    switch (a1->tag) {
    case 0u:
        v2 = a1->c2_acts__Stage_0;
        v3 = a1->u32_0;
        v4 = a1->u32_1;
        v5 = a1->u32_2;
        v6 = a1->u32_3;
        v7 = a1->u32_4;
        v8 = a1->u32_5;
        v12 = c2_record__write__stage_code(v2);
        v13 = c2_record__FieldsDefault__default();
        v14 = v13.f0;
        v15 = v13.f1;
        v11.f0 = v14;
        v11.f1 = v15;
        v11.f2 = v12;
        v11.f3 = v3;
        v11.f4 = v4;
        v11.f5 = v5;
        v11.f6 = v6;
        v11.f7 = v7;
        v11.f8 = v8;
        break;
    default: /* 1 */
        v9 = a1->u32_0;
        v10 = a1->u32_1;
        v16 = c2_record__FieldsDefault__default();
        v17 = v16.f2;
        v18 = v16.f3;
        v19 = v16.f4;
        v20 = v16.f5;
        v21 = v16.f6;
        v22 = v16.f7;
        v23 = v16.f8;
        v11.f0 = v9;
        v11.f1 = v10;
        v11.f2 = v17;
        v11.f3 = v18;
        v11.f4 = v19;
        v11.f5 = v20;
        v11.f6 = v21;
        v11.f7 = v22;
        v11.f8 = v23;
        break;
    }
    result.f0 = v11.f0;
    result.f1 = v11.f1;
    result.f2 = v11.f2;
    result.f3 = v11.f3;
    result.f4 = v11.f4;
    result.f5 = v11.f5;
    result.f6 = v11.f6;
    result.f7 = v11.f7;
    result.f8 = v11.f8;
    return result;
}

/* core::AnyInto::into_Point_Fields */
INLINED c2_record__Fields core__AnyInto__into_Point_Fields(const c2_session__Point *a1)
{
    c2_record__Fields result;
    c2_session__Point v2;
    v2.tag = a1->tag;
    v2.c2_acts__Stage_0 = a1->c2_acts__Stage_0;
    v2.u32_0 = a1->u32_0;
    v2.u32_1 = a1->u32_1;
    v2.u32_2 = a1->u32_2;
    v2.u32_3 = a1->u32_3;
    v2.u32_4 = a1->u32_4;
    v2.u32_5 = a1->u32_5;
    result = c2_record__write__FieldsFromPoint__from(&v2);
    return result;
}

/* c2_record::write::pack */
static array_32_u8 c2_record__write__pack(const c2_session__Session *a1)
{
    array_32_u8 result;
    c2_settings v2;
    c2_record__Fields v3;
    c2_session__Point v4;
    v2.device_id = a1->f0.device_id;
    v2.fpdat = a1->f0.fpdat;
    v2.page_size = a1->f0.page_size;
    v2.page_count = a1->f0.page_count;
    v2.wait_limit = a1->f0.wait_limit;
    v2.pairs.count = a1->f0.pairs.count;
    v2.pairs.registers[0] = a1->f0.pairs.registers[0];
    v2.pairs.registers[1] = a1->f0.pairs.registers[1];
    v2.pairs.registers[2] = a1->f0.pairs.registers[2];
    v2.pairs.registers[3] = a1->f0.pairs.registers[3];
    v2.pairs.values[0] = a1->f0.pairs.values[0];
    v2.pairs.values[1] = a1->f0.pairs.values[1];
    v2.pairs.values[2] = a1->f0.pairs.values[2];
    v2.pairs.values[3] = a1->f0.pairs.values[3];
    v4.tag = a1->f3.tag;
    v4.c2_acts__Stage_0 = a1->f3.c2_acts__Stage_0;
    v4.u32_0 = a1->f3.u32_0;
    v4.u32_1 = a1->f3.u32_1;
    v4.u32_2 = a1->f3.u32_2;
    v4.u32_3 = a1->f3.u32_3;
    v4.u32_4 = a1->f3.u32_4;
    v4.u32_5 = a1->f3.u32_5;
    v3 = core__AnyInto__into_Point_Fields(&v4);
    result = c2_record__write__lay(&v2, a1->f1, a1->f2, &v3);
    return result;
}

/* core::AnyFrom::from_Refusal */
INLINED numbers__Refusal core__AnyFrom__from_Refusal(numbers__Refusal a1)
{
    numbers__Refusal result;
    result = a1;
    return result;
}

/* core::ResultFromResidualErrResidual::from_residua_45a805 */
INLINED core__Result_unit_Refusal core__ResultFromResidualErrResidual__from_residua_45a805(
    const core__ErrResidual_Refusal *a1)
{
    core__Result_unit_Refusal result;
    numbers__Refusal v2;
    numbers__Refusal v3;
    v3 = a1->f0;
    v2 = core__AnyFrom__from_Refusal(v3);
    result.tag = 1u;
    result.numbers__Refusal_0 = v2;
    return result;
}

/* core::ResultTry::branch_unit_Refusal */
INLINED core__ControlFlow_ErrResidual_Refusal_unit core__ResultTry__branch_unit_Refusal(
    const core__Result_unit_Refusal *a1)
{
    core__ControlFlow_ErrResidual_Refusal_unit result;
    numbers__Refusal v3;
    core__ControlFlow_ErrResidual_Refusal_unit v4;
    numbers__Refusal v6;
    core__ErrResidual_Refusal v7;
    switch (a1->tag) {
    case 0u:
        v4.tag = 0u;
        v4.core__ErrResidual_Refusal_0.f0 = 0;
        break;
    default: /* 1 */
        v3 = a1->numbers__Refusal_0;
        v6 = v3;
        v7.f0 = v6;
        v4.tag = 1u;
        v4.core__ErrResidual_Refusal_0.f0 = v7.f0;
        break;
    }
    result.tag = v4.tag;
    result.core__ErrResidual_Refusal_0.f0 = v4.core__ErrResidual_Refusal_0.f0;
    return result;
}

/* core::chunk_mut::as_array_mut_u8_32 */
INLINED uint8_t *core__chunk_mut__as_array_mut_u8_32(slice_mut_u8 a1)
{
    uint8_t *result;
    uint8_t *v2;
    uint8_t *v3;
    v3 = a1.at;
    v2 = v3;
    result = v2;
    return result;
}

/* core::slice_T::as_mut_array_u8_32 */
INLINED core__Option_mut_array_32_u8 core__slice_T__as_mut_array_u8_32(slice_mut_u8 a1)
{
    core__Option_mut_array_32_u8 result;
    uint64_t v2;
    _Bool v3;
    uint8_t *v4;
    uint8_t *v5;
    slice_mut_u8 v6;
    v2 = a1.length;
    v3 = v2 != UINT64_C(32);
    if (v3) {
        result.tag = 0u;
        result.mut_array_32_u8_0 = 0;
        return result;
    }
    v5 = a1.at;
    v6.at = v5;
    v6.length = a1.length;
    v4 = core__chunk_mut__as_array_mut_u8_32(v6);
    result.tag = 1u;
    result.mut_array_32_u8_0 = v4;
    return result;
}

/* core::convert::UsizeFromU8::from */
INLINED uint64_t core__convert__UsizeFromU8__from(uint8_t a1)
{
    uint64_t result;
    result = (uint64_t)a1;
    return result;
}

/* core::slice_T::is_empty_u8 */
INLINED _Bool core__slice_T__is_empty_u8(slice_u8 a1)
{
    _Bool result;
    uint64_t v2;
    v2 = a1.length;
    result = v2 == UINT64_C(0);
    return result;
}

/* core::IterIterator::next_u8 */
INLINED core__Option_ref_u8 core__IterIterator__next_u8(core__Iter_u8 *a1)
{
    core__Option_ref_u8 result;
    slice_u8 v2;
    _Bool v3;
    uint64_t v4;
    const uint8_t *v5;
    uint64_t v6;
    const uint8_t *v7;
    slice_u8 v8;
    const uint8_t *v9;
    const uint8_t *v10;
    v2.at = a1->f0.at;
    v2.length = a1->f0.length;
    v3 = core__slice_T__is_empty_u8(v2);
    if (v3) {
        result.tag = 0u;
        result.ref_u8_0 = 0;
        return result;
    }
    v4 = UINT64_C(1);
    v5 = v2.at + (size_t)v4;
    v6 = v2.length - UINT64_C(1);
    v7 = v5;
    v8.at = v7;
    v8.length = v6;
    a1->f0.at = v8.at;
    a1->f0.length = v8.length;
    v4 = UINT64_C(0);
    v9 = v2.at + (size_t)v4;
    v10 = v9;
    result.tag = 1u;
    result.ref_u8_0 = v10;
    return result;
}

/* settings::registers::fn::are_registers::all */
INLINED _Bool settings__registers__fn__are_registers__all(settings__all_Self_ref_u8 *a1, const uint8_t *a2)
{
    _Bool result;
    const uint8_t *v3;
    _Bool v4;
    uint8_t v5;
    uint8_t v6;
    uint8_t v7;
    v3 = a1->f0;
    v5 = *a2;
    v4 = 3u <= v5;
    if (v4) {
        v6 = *a2;
        v7 = *v3;
        v4 = v6 != v7;
    }
    result = v4;
    return result;
}

/* settings::registers::fn::are_registers::all_FnMut::call_mut */
INLINED _Bool settings__registers__fn__are_registers__all_FnMut__call_mut(settings__all_Self_ref_u8 *a1,
    const uint8_t *a2)
{
    _Bool result;
    settings__all_Self_ref_u8 *v3;
    v3 = a1;
    result = settings__registers__fn__are_registers__all(v3, a2);
    return result;
}

/* core::Iterator::all_Iter_u8_ref_u8_are_registers_f5c56d */
INLINED _Bool core__Iterator__all_Iter_u8_ref_u8_are_registers_f5c56d(core__Iter_u8 *a1,
    const settings__all_Self_ref_u8 *a2)
{
    _Bool result;
    settings__all_Self_ref_u8 v3;
    const uint8_t *v4;
    core__Option_ref_u8 v5;
    core__Iter_u8 *v6;
    _Bool v7;
    settings__all_Self_ref_u8 *v8;
    const uint8_t *v9;
    _Bool v10;
    v3.f0 = a2->f0;
    for (;;) {
        v6 = a1;
        v5 = core__IterIterator__next_u8(v6);
        switch (v5.tag) {
        case 1u:
            v4 = v5.ref_u8_0;
            v8 = &v3;
            v9 = v4;
            v7 = settings__registers__fn__are_registers__all_FnMut__call_mut(v8, v9);
            v10 = !v7;
            if (v10) {
                result = 0;
                return result;
            }
            break;
        default: /* 0 */
            goto end1;
        }
    }
    end1:;
    result = 1;
    return result;
}

/* core::slice_T::iter_u8 */
INLINED core__Iter_u8 core__slice_T__iter_u8(slice_u8 a1)
{
    core__Iter_u8 result;
    result.f0.at = a1.at;
    result.f0.length = a1.length;
    return result;
}

/* settings::registers::are_registers */
static _Bool settings__registers__are_registers(uint8_t a1, slice_u8 a2)
{
    _Bool result;
    uint8_t v3;
    core__Iter_u8 v4;
    core__Iter_u8 v5;
    core__Iter_u8 *v6;
    const uint8_t *v7;
    settings__all_Self_ref_u8 v8;
    v3 = a1;
    v4 = core__slice_T__iter_u8(a2);
    v5.f0.at = v4.f0.at;
    v5.f0.length = v4.f0.length;
    v6 = &v5;
    v7 = &v3;
    v8.f0 = v7;
    result = core__Iterator__all_Iter_u8_ref_u8_are_registers_f5c56d(v6, &v8);
    return result;
}

/* settings::registers::entries_fit */
static _Bool settings__registers__entries_fit(uint8_t a1, const c2_pairs *a2)
{
    _Bool result;
    c2_pairs v3;
    uint64_t v4;
    uint8_t v5;
    _Bool v6;
    const uint8_t *v7;
    slice_u8 v8;
    v3.count = a2->count;
    v3.registers[0] = a2->registers[0];
    v3.registers[1] = a2->registers[1];
    v3.registers[2] = a2->registers[2];
    v3.registers[3] = a2->registers[3];
    v3.values[0] = a2->values[0];
    v3.values[1] = a2->values[1];
    v3.values[2] = a2->values[2];
    v3.values[3] = a2->values[3];
    v5 = v3.count;
    v4 = core__convert__UsizeFromU8__from(v5);
    v6 = v4 <= UINT64_C(4);
    if (v6) {
        v7 = v3.registers;
        v8.at = v7;
        v8.length = v4;
        v6 = settings__registers__are_registers(a1, v8);
    }
    result = v6;
    return result;
}

/* settings::registers::are_pairs */
static _Bool settings__registers__are_pairs(uint8_t a1, const c2_pairs *a2)
{
    _Bool result;
    _Bool v3;
    v3 = a2->count == 0u;
    if (!v3) {
        v3 = settings__registers__entries_fit(a1, a2);
    }
    result = v3;
    return result;
}

/* settings::accepted::wait_refusal */
static core__Result_unit_Refusal settings__accepted__wait_refusal(const c2_settings *a1)
{
    core__Result_unit_Refusal result;
    _Bool v2;
    numbers__Refusal v3;
    c2_pairs v4;
    _Bool v5;
    numbers__Refusal v6;
    v2 = a1->wait_limit == 0u;
    if (v2) {
        v3 = 10u;
        result.tag = 1u;
        result.numbers__Refusal_0 = v3;
        return result;
    }
    v4.count = a1->pairs.count;
    v4.registers[0] = a1->pairs.registers[0];
    v4.registers[1] = a1->pairs.registers[1];
    v4.registers[2] = a1->pairs.registers[2];
    v4.registers[3] = a1->pairs.registers[3];
    v4.values[0] = a1->pairs.values[0];
    v4.values[1] = a1->pairs.values[1];
    v4.values[2] = a1->pairs.values[2];
    v4.values[3] = a1->pairs.values[3];
    v2 = settings__registers__are_pairs(a1->fpdat, &v4);
    v5 = !v2;
    if (v5) {
        v6 = 11u;
        result.tag = 1u;
        result.numbers__Refusal_0 = v6;
        return result;
    }
    result.tag = 0u;
    result.numbers__Refusal_0 = 0;
    return result;
}

/* settings::accepted::count_refusal */
static core__Result_unit_Refusal settings__accepted__count_refusal(const c2_settings *a1, uint32_t a2)
{
    core__Result_unit_Refusal result;
    _Bool v3;
    _Bool v4;
    numbers__Refusal v5;
    v3 = a1->page_count == UINT32_C(0);
    if (!v3) {
        v3 = a2 < a1->page_count;
        v4 = v3;
        if (!v4) {
            goto end2;
        }
    }
    v5 = 2u;
    result.tag = 1u;
    result.numbers__Refusal_0 = v5;
    return result;
    goto end1;
    end2:;
    end1:;
    result = settings__accepted__wait_refusal(a1);
    return result;
}

/* settings::accepted::refusal */
static core__Result_unit_Refusal settings__accepted__refusal(const c2_settings *a1)
{
    core__Result_unit_Refusal result;
    _Bool v2;
    numbers__Refusal v3;
    core__Result_unit_Refusal v4;
    numbers__Refusal v5;
    v2 = a1->fpdat < 3u;
    if (v2) {
        v3 = 0u;
        result.tag = 1u;
        result.numbers__Refusal_0 = v3;
        return result;
    }
    switch (a1->page_size) {
    case 512u:
        v4 = settings__accepted__count_refusal(a1, UINT32_C(128));
        break;
    case 1024u:
        v4 = settings__accepted__count_refusal(a1, UINT32_C(64));
        break;
    default:
        v5 = 1u;
        v4.tag = 1u;
        v4.numbers__Refusal_0 = v5;
        break;
    }
    result.tag = v4.tag;
    result.numbers__Refusal_0 = v4.numbers__Refusal_0;
    return result;
}

/* core::int::checked::usize::checked_sub */
INLINED core__Option_u64 core__int__checked__usize__checked_sub(uint64_t a1, uint64_t a2)
{
    core__Option_u64 result;
    _Bool v3;
    core__Option_u64 v4;
    uint64_t v5;
    v3 = a1 < a2;
    if (v3) {
        v4.tag = 0u;
        v4.u64_0 = 0;
    } else {
        v5 = a1 - a2;
        v4.tag = 1u;
        v4.u64_0 = v5;
    }
    result.tag = v4.tag;
    result.u64_0 = v4.u64_0;
    return result;
}

/* settings::opening::pages_refusal */
static core__Result_unit_Refusal settings__opening__pages_refusal(uint32_t a1, uint32_t a2, uint64_t a3)
{
    core__Result_unit_Refusal result;
    uint64_t v4;
    core__Option_u64 v5;
    uint64_t v6;
    core__Result_unit_Refusal v7;
    uint64_t v8;
    _Bool v9;
    numbers__Refusal v10;
    v6 = (uint64_t)a2;
    v5 = core__int__checked__usize__checked_sub(v6, a3);
    switch (v5.tag) {
    case 1u:
        v4 = v5.u64_0;
        v8 = (uint64_t)a1;
        v9 = v8 <= v4;
        if (v9) {
            v7.tag = 0u;
            v7.numbers__Refusal_0 = 0;
            goto end1;
        }
        goto end2;
    default: /* 0 */
        goto end2;
    }
    end2:;
    v10 = 4u;
    v7.tag = 1u;
    v7.numbers__Refusal_0 = v10;
    end1:;
    result.tag = v7.tag;
    result.numbers__Refusal_0 = v7.numbers__Refusal_0;
    return result;
}

/* settings::opening::image_refusal */
static core__Result_unit_Refusal settings__opening__image_refusal(const c2_settings *a1, uint32_t a2,
    uint64_t a3)
{
    core__Result_unit_Refusal result;
    uint64_t v4;
    _Bool v5;
    uint64_t v6;
    _Bool v7;
    numbers__Refusal v8;
    uint64_t v9;
    v4 = (uint64_t)a1->page_size;
    v5 = a3 == UINT64_C(0);
    if (!v5) {
        v6 = a3 % v4;
        v5 = v6 != UINT64_C(0);
        v7 = v5;
        if (!v7) {
            goto end2;
        }
    }
    v8 = 3u;
    result.tag = 1u;
    result.numbers__Refusal_0 = v8;
    return result;
    goto end1;
    end2:;
    end1:;
    v9 = a3 / v4;
    result = settings__opening__pages_refusal(a2, a1->page_count, v9);
    return result;
}

/* settings::opening::opening_refusal */
static core__Result_unit_Refusal settings__opening__opening_refusal(const c2_settings *a1, uint32_t a2,
    uint64_t a3)
{
    core__Result_unit_Refusal result;
    core__ErrResidual_Refusal v5;
    core__ControlFlow_ErrResidual_Refusal_unit v6;
    core__Result_unit_Refusal v7;
    v7 = settings__accepted__refusal(a1);
    v6 = core__ResultTry__branch_unit_Refusal(&v7);
    switch (v6.tag) {
    case 0u:
        break;
    default: /* 1 */
        v5.f0 = v6.core__ErrResidual_Refusal_0.f0;
        result = core__ResultFromResidualErrResidual__from_residua_45a805(&v5);
        return result;
    }
    result = settings__opening__image_refusal(a1, a2, a3);
    return result;
}

/* c2::open::open */
static core__Result_unit_Refusal c2__open__open(slice_mut_u8 a1, slice_u8 a2, const c2_settings *a3,
    uint32_t a4)
{
    core__Result_unit_Refusal result;
    uint8_t *v5;
    core__ErrResidual_Refusal v7;
    core__Option_mut_array_32_u8 v8;
    uint8_t *v9;
    slice_mut_u8 v10;
    numbers__Refusal v11;
    core__ControlFlow_ErrResidual_Refusal_unit v12;
    core__Result_unit_Refusal v13;
    uint64_t v14;
    array_32_u8 v15;
    c2_session__Session v16;
    v9 = a1.at;
    v10.at = v9;
    v10.length = a1.length;
    v8 = core__slice_T__as_mut_array_u8_32(v10);
    switch (v8.tag) {
    case 1u:
        v5 = v8.mut_array_32_u8_0;
        break;
    default: /* 0 */
        v11 = 5u;
        result.tag = 1u;
        result.numbers__Refusal_0 = v11;
        return result;
    }
    v14 = a2.length;
    v13 = settings__opening__opening_refusal(a3, a4, v14);
    v12 = core__ResultTry__branch_unit_Refusal(&v13);
    switch (v12.tag) {
    case 0u:
        break;
    default: /* 1 */
        v7.f0 = v12.core__ErrResidual_Refusal_0.f0;
        result = core__ResultFromResidualErrResidual__from_residua_45a805(&v7);
        return result;
    }
    v14 = a2.length;
    v16 = c2_opening__start(a3, a4, v14);
    v15 = c2_record__write__pack(&v16);
    v5[0] = v15.at[0];
    v5[1] = v15.at[1];
    v5[2] = v15.at[2];
    v5[3] = v15.at[3];
    v5[4] = v15.at[4];
    v5[5] = v15.at[5];
    v5[6] = v15.at[6];
    v5[7] = v15.at[7];
    v5[8] = v15.at[8];
    v5[9] = v15.at[9];
    v5[10] = v15.at[10];
    v5[11] = v15.at[11];
    v5[12] = v15.at[12];
    v5[13] = v15.at[13];
    v5[14] = v15.at[14];
    v5[15] = v15.at[15];
    v5[16] = v15.at[16];
    v5[17] = v15.at[17];
    v5[18] = v15.at[18];
    v5[19] = v15.at[19];
    v5[20] = v15.at[20];
    v5[21] = v15.at[21];
    v5[22] = v15.at[22];
    v5[23] = v15.at[23];
    v5[24] = v15.at[24];
    v5[25] = v15.at[25];
    v5[26] = v15.at[26];
    v5[27] = v15.at[27];
    v5[28] = v15.at[28];
    v5[29] = v15.at[29];
    v5[30] = v15.at[30];
    v5[31] = v15.at[31];
    result.tag = 0u;
    result.numbers__Refusal_0 = 0;
    return result;
}

/* numbers::U32FromRefusal::from */
static uint32_t numbers__U32FromRefusal__from(numbers__Refusal a1)
{
    uint32_t result;
    uint32_t v2;
    switch (a1) {
    case 0u:
        v2 = UINT32_C(1);
        break;
    case 1u:
        v2 = UINT32_C(2);
        break;
    case 2u:
        v2 = UINT32_C(3);
        break;
    case 3u:
        v2 = UINT32_C(4);
        break;
    case 4u:
        v2 = UINT32_C(5);
        break;
    case 5u:
        v2 = UINT32_C(6);
        break;
    case 6u:
        v2 = UINT32_C(7);
        break;
    case 7u:
        v2 = UINT32_C(8);
        break;
    case 8u:
        v2 = UINT32_C(16);
        break;
    case 9u:
        v2 = UINT32_C(17);
        break;
    case 10u:
        v2 = UINT32_C(18);
        break;
    case 11u:
        v2 = UINT32_C(19);
        break;
    case 12u:
        v2 = UINT32_C(20);
        break;
    case 13u:
        v2 = UINT32_C(21);
        break;
    case 14u:
        v2 = UINT32_C(22);
        break;
    case 15u:
        v2 = UINT32_C(23);
        break;
    case 16u:
        v2 = UINT32_C(24);
        break;
    case 17u:
        v2 = UINT32_C(25);
        break;
    case 18u:
        v2 = UINT32_C(26);
        break;
    case 19u:
        v2 = UINT32_C(28);
        break;
    case 20u:
        v2 = UINT32_C(29);
        break;
    case 21u:
        v2 = UINT32_C(30);
        break;
    default: /* 22 */
        v2 = UINT32_C(31);
        break;
    }
    result = v2;
    return result;
}

/* core::AnyInto::into_Refusal_u32 */
INLINED uint32_t core__AnyInto__into_Refusal_u32(numbers__Refusal a1)
{
    uint32_t result;
    numbers__Refusal v2;
    v2 = a1;
    result = numbers__U32FromRefusal__from(v2);
    return result;
}

/* core::convert::U32FromU8::from */
INLINED uint32_t core__convert__U32FromU8__from(uint8_t a1)
{
    uint32_t result;
    result = (uint32_t)a1;
    return result;
}

/* c2::open::c2_open */
static c2_opened c2__open__c2_open(slice_mut_u8 a1, slice_u8 a2, const c2_settings *a3, uint32_t a4)
{
    c2_opened result;
    numbers__Refusal v5;
    core__Result_unit_Refusal v6;
    uint8_t *v7;
    slice_mut_u8 v8;
    c2_opened v9;
    uint32_t v10;
    uint32_t v11;
    uint32_t v12;
    v7 = a1.at;
    v8.at = v7;
    v8.length = a1.length;
    v6 = c2__open__open(v8, a2, a3, a4);
    switch (v6.tag) {
    case 0u:
        v10 = core__convert__U32FromU8__from(4u);
        v9.number = UINT32_C(0);
        v9.step = v10;
        break;
    default: /* 1 */
        v5 = v6.numbers__Refusal_0;
        v11 = core__AnyInto__into_Refusal_u32(v5);
        v12 = core__convert__U32FromU8__from(6u);
        v9.number = v11;
        v9.step = v12;
        break;
    }
    result.number = v9.number;
    result.step = v9.step;
    return result;
}

/* c2_outcome::is_running */
static _Bool c2_outcome__is_running(const c2_session__Point *a1)
{
    _Bool result;
    _Bool v2;
    switch (a1->tag) {
    case 0u:
        v2 = 1;
        break;
    default: /* 1 */
        v2 = 0;
        break;
    }
    result = v2;
    return result;
}

/* c2_acts::erase_task */
static c2_acts__Task c2_acts__erase_task(uint32_t a1)
{
    c2_acts__Task result;
    _Bool v2;
    uint32_t v3;
    c2_acts__Task v4;
    v2 = a1 == UINT32_C(0);
    if (v2) {
        result = 2u;
        return result;
    }
    v3 = (uint32_t)(a1 % UINT32_C(4));
    switch (v3) {
    case 1u:
        v4 = 3u;
        break;
    case 2u:
        v4 = 4u;
        break;
    case 3u:
        v4 = 5u;
        break;
    default:
        v4 = 7u;
        break;
    }
    result = v4;
    return result;
}

/* c2_acts::lead_task */
static c2_acts__Task c2_acts__lead_task(uint32_t a1)
{
    c2_acts__Task result;
    c2_acts__Task v2;
    _Bool v3;
    switch (a1) {
    case 0u:
    case 2u:
        v2 = 0u;
        break;
    case 1u:
        v2 = 6u;
        break;
    case 3u:
        v2 = 2u;
        break;
    default:
        v3 = a1 < UINT32_C(7);
        if (v3) {
            v2 = 3u;
            goto end1;
        }
        v2 = 1u;
        end1:;
        break;
    }
    result = v2;
    return result;
}

/* c2_acts::put_task */
static c2_acts__Task c2_acts__put_task(uint32_t a1)
{
    c2_acts__Task result;
    uint32_t v2;
    _Bool v3;
    c2_acts__Task v4;
    v2 = (uint32_t)(a1 % UINT32_C(2));
    v3 = v2 == UINT32_C(1);
    if (v3) {
        v4 = 3u;
    } else {
        v4 = 4u;
    }
    result = v4;
    return result;
}

/* c2_acts::read_task */
static c2_acts__Task c2_acts__read_task(uint32_t a1)
{
    c2_acts__Task result;
    c2_acts__Task v2;
    _Bool v3;
    uint32_t v4;
    switch (a1) {
    case 0u:
        v2 = 2u;
        goto end1;
    case 3u:
        v2 = 5u;
        goto end1;
    case 4u:
        goto end2;
    case 12u:
        goto end2;
    default:
        v3 = a1 < UINT32_C(11);
        if (v3) {
            v2 = c2_acts__put_task(a1);
            goto end1;
        }
        v4 = (uint32_t)(a1 % UINT32_C(2));
        v3 = v4 == UINT32_C(1);
        if (v3) {
            v2 = 5u;
            goto end1;
        }
        v2 = 8u;
        goto end1;
    }
    end2:;
    v2 = 7u;
    end1:;
    result = v2;
    return result;
}

/* c2_acts::register_task */
static c2_acts__Task c2_acts__register_task(uint32_t a1)
{
    c2_acts__Task result;
    c2_acts__Task v2;
    switch (a1) {
    case 0u:
        v2 = 2u;
        break;
    default:
        v2 = 3u;
        break;
    }
    result = v2;
    return result;
}

/* c2_acts::write_task */
static c2_acts__Task c2_acts__write_task(uint32_t a1)
{
    c2_acts__Task result;
    c2_acts__Task v2;
    _Bool v3;
    switch (a1) {
    case 0u:
        v2 = 2u;
        goto end1;
    case 3u:
        goto end2;
    case 523u:
        goto end2;
    case 4u:
        v2 = 7u;
        goto end1;
    default:
        v3 = a1 < UINT32_C(523);
        if (v3) {
            v2 = c2_acts__put_task(a1);
            goto end1;
        }
        v2 = 7u;
        goto end1;
    }
    end2:;
    v2 = 5u;
    end1:;
    result = v2;
    return result;
}

/* c2_acts::task_of */
static c2_acts__Task c2_acts__task_of(c2_acts__Stage a1, uint32_t a2)
{
    c2_acts__Task result;
    c2_acts__Task v3;
    switch (a1) {
    case 0u:
        v3 = c2_acts__lead_task(a2);
        break;
    case 1u:
        v3 = c2_acts__erase_task(a2);
        break;
    case 2u:
        v3 = c2_acts__write_task(a2);
        break;
    case 3u:
        v3 = c2_acts__read_task(a2);
        break;
    case 4u:
        v3 = 0u;
        break;
    default: /* 5 */
        v3 = c2_acts__register_task(a2);
        break;
    }
    result = v3;
    return result;
}

/* c2_session::Session::command_byte */
static uint8_t c2_session__Session__command_byte(const c2_session__Session *a1, const c2_session__At *a2,
    uint8_t a3, uint8_t a4)
{
    uint8_t result;
    uint8_t v5;
    switch (a2->f3) {
    case 0u:
        v5 = a1->f0.fpdat;
        break;
    case 1u:
        v5 = a3;
        break;
    case 5u:
        v5 = a4;
        break;
    default:
        v5 = 0u;
        break;
    }
    result = v5;
    return result;
}

/* c2_session::Session::page_number */
static uint32_t c2_session__Session__page_number(const c2_session__Session *a1, uint32_t a2)
{
    uint32_t result;
    uint32_t v3;
    uint32_t v4;
    v3 = core__convert__U32FromU16__from(a1->f1);
    v4 = (uint32_t)(a2 % UINT32_C(65536));
    result = (uint32_t)(v3 + v4);
    return result;
}

/* c2_session::bytes::page_offset */
static uint64_t c2_session__bytes__page_offset(uint32_t a1, uint32_t a2)
{
    uint64_t result;
    uint64_t v3;
    uint64_t v4;
    v3 = (uint64_t)a1;
    v4 = (uint64_t)a2;
    result = v3 * v4;
    return result;
}

/* c2_session::Session::high_byte */
static uint8_t c2_session__Session__high_byte(const c2_session__Session *a1, const c2_session__At *a2)
{
    uint8_t result;
    uint64_t v3;
    uint32_t v4;
    uint64_t v5;
    uint64_t v6;
    uint64_t v7;
    uint64_t v8;
    uint64_t v9;
    v4 = c2_session__Session__page_number(a1, a2->f1);
    v3 = c2_session__bytes__page_offset(v4, a1->f0.page_size);
    v5 = (uint64_t)a2->f2;
    v6 = v5 * UINT64_C(256);
    v7 = v3 + v6;
    v8 = v7 / UINT64_C(256);
    v9 = v8 % UINT64_C(256);
    result = (uint8_t)v9;
    return result;
}

/* c2_session::Session::block_byte */
static uint8_t c2_session__Session__block_byte(const c2_session__Session *a1, const c2_session__At *a2,
    uint8_t a3)
{
    uint8_t result;
    uint8_t v4;
    v4 = c2_session__Session__high_byte(a1, a2);
    result = c2_session__Session__command_byte(a1, a2, a3, v4);
    return result;
}

/* c2_session::Session::erase_byte */
static uint8_t c2_session__Session__erase_byte(const c2_session__Session *a1, const c2_session__At *a2)
{
    uint8_t result;
    uint32_t v3;
    uint32_t v4;
    uint8_t v5;
    v3 = c2_session__Session__page_number(a1, a2->f1);
    v4 = (uint32_t)(v3 % UINT32_C(256));
    v5 = (uint8_t)v4;
    result = c2_session__Session__command_byte(a1, a2, 8u, v5);
    return result;
}

/* c2_session::Session::register_byte */
static uint8_t c2_session__Session__register_byte(const c2_session__Session *a1, const c2_session__At *a2)
{
    uint8_t result;
    c2_pairs v3;
    uint64_t v4;
    uint32_t v5;
    uint8_t v6;
    const uint8_t *v7;
    const uint8_t *v8;
    uint8_t v9;
    const uint8_t *v10;
    const uint8_t *v11;
    uint8_t v12;
    v3.count = a1->f0.pairs.count;
    v3.registers[0] = a1->f0.pairs.registers[0];
    v3.registers[1] = a1->f0.pairs.registers[1];
    v3.registers[2] = a1->f0.pairs.registers[2];
    v3.registers[3] = a1->f0.pairs.registers[3];
    v3.values[0] = a1->f0.pairs.values[0];
    v3.values[1] = a1->f0.pairs.values[1];
    v3.values[2] = a1->f0.pairs.values[2];
    v3.values[3] = a1->f0.pairs.values[3];
    v5 = (uint32_t)(a2->f1 % UINT32_C(4));
    v4 = (uint64_t)v5;
    switch (a2->f3) {
    case 0u:
        v7 = v3.registers;
        v8 = v7 + (size_t)v4;
        v9 = *v8;
        v6 = v9;
        break;
    default:
        v10 = v3.values;
        v11 = v10 + (size_t)v4;
        v12 = *v11;
        v6 = v12;
        break;
    }
    result = v6;
    return result;
}

/* core::int::u32::saturating_sub */
INLINED uint32_t core__int__u32__saturating_sub(uint32_t a1, uint32_t a2)
{
    uint32_t result;
    _Bool v3;
    uint32_t v4;
    v3 = a2 <= a1;
    if (v3) {
        v4 = (uint32_t)(a1 - a2);
    } else {
        v4 = UINT32_C(0);
    }
    result = v4;
    return result;
}

/* c2_session::Session::byte_offset */
static uint64_t c2_session__Session__byte_offset(const c2_session__Session *a1, const c2_session__At *a2,
    uint32_t a3)
{
    uint64_t result;
    uint64_t v4;
    uint64_t v5;
    uint32_t v6;
    uint64_t v7;
    uint64_t v8;
    v6 = (uint32_t)(a2->f1 % UINT32_C(65536));
    v5 = c2_session__bytes__page_offset(v6, a1->f0.page_size);
    v7 = (uint64_t)a2->f2;
    v8 = v7 * UINT64_C(256);
    v4 = v5 + v8;
    v6 = core__int__u32__saturating_sub(a2->f3, a3);
    v5 = (uint64_t)v6;
    v7 = v5 / UINT64_C(2);
    result = v4 + v7;
    return result;
}

/* core::Option::unwrap_or_u8 */
INLINED uint8_t core__Option__unwrap_or_u8(const core__Option_u8 *a1, uint8_t a2)
{
    uint8_t result;
    uint8_t v3;
    uint8_t v4;
    switch (a1->tag) {
    case 1u:
        v3 = a1->u8_0;
        v4 = v3;
        break;
    default: /* 0 */
        v4 = a2;
        break;
    }
    result = v4;
    return result;
}

/* core::Option::unwrap_ref_u8 */
INLINED const uint8_t *core__Option__unwrap_ref_u8(const core__Option_ref_u8 *a1)
{
    const uint8_t *result;
    const uint8_t *v2;
    const uint8_t *v3;
    switch (a1->tag) {
    default: /* 1 */
        v2 = a1->ref_u8_0;
        v3 = v2;
        break;
    }
    result = v3;
    return result;
}

/* core::Option_ref_T::copied_u8 */
INLINED core__Option_u8 core__Option_ref_T__copied_u8(const core__Option_ref_u8 *a1)
{
    core__Option_u8 result;
    core__Option_u8 v2;
    const uint8_t *v3;
    core__Option_ref_u8 v4;
    uint8_t v5;
    switch (a1->tag) {
    case 1u:
        v4.tag = a1->tag;
        v4.ref_u8_0 = a1->ref_u8_0;
        v3 = core__Option__unwrap_ref_u8(&v4);
        v5 = *v3;
        v2.tag = 1u;
        v2.u8_0 = v5;
        break;
    default: /* 0 */
        v2.tag = 0u;
        v2.u8_0 = 0;
        break;
    }
    result.tag = v2.tag;
    result.u8_0 = v2.u8_0;
    return result;
}

/* core::UsizeSliceIndexRefSlice::pick_u8 */
INLINED core__Option_ref_u8 core__UsizeSliceIndexRefSlice__pick_u8(uint64_t a1, slice_u8 a2)
{
    core__Option_ref_u8 result;
    uint64_t v3;
    _Bool v4;
    core__Option_ref_u8 v5;
    uint64_t v6;
    const uint8_t *v7;
    const uint8_t *v8;
    v3 = a2.length;
    v4 = a1 < v3;
    if (v4) {
        v6 = a1;
        v7 = a2.at + (size_t)v6;
        v8 = v7;
        v5.tag = 1u;
        v5.ref_u8_0 = v8;
    } else {
        v5.tag = 0u;
        v5.ref_u8_0 = 0;
    }
    result.tag = v5.tag;
    result.ref_u8_0 = v5.ref_u8_0;
    return result;
}

/* core::slice_T::get_u8_u64_ref_u8 */
INLINED core__Option_ref_u8 core__slice_T__get_u8_u64_ref_u8(slice_u8 a1, uint64_t a2)
{
    core__Option_ref_u8 result;
    uint64_t v3;
    v3 = a2;
    result = core__UsizeSliceIndexRefSlice__pick_u8(v3, a1);
    return result;
}

/* c2_session::bytes::image_byte */
static uint8_t c2_session__bytes__image_byte(slice_u8 a1, uint64_t a2)
{
    uint8_t result;
    core__Option_u8 v3;
    core__Option_ref_u8 v4;
    v4 = core__slice_T__get_u8_u64_ref_u8(a1, a2);
    v3 = core__Option_ref_T__copied_u8(&v4);
    result = core__Option__unwrap_or_u8(&v3, 0u);
    return result;
}

/* c2_session::Session::write_byte */
static uint8_t c2_session__Session__write_byte(const c2_session__Session *a1, const c2_session__At *a2,
    slice_u8 a3)
{
    uint8_t result;
    _Bool v4;
    uint8_t v5;
    uint64_t v6;
    v4 = a2->f3 < UINT32_C(11);
    if (v4) {
        v5 = c2_session__Session__block_byte(a1, a2, 7u);
    } else {
        v6 = c2_session__Session__byte_offset(a1, a2, UINT32_C(11));
        v5 = c2_session__bytes__image_byte(a3, v6);
    }
    result = v5;
    return result;
}

/* c2_session::bytes::lead_byte */
static uint8_t c2_session__bytes__lead_byte(uint32_t a1)
{
    uint8_t result;
    uint8_t v2;
    switch (a1) {
    case 3u:
        v2 = 2u;
        break;
    case 4u:
        v2 = 2u;
        break;
    case 5u:
        v2 = 4u;
        break;
    default:
        v2 = 1u;
        break;
    }
    result = v2;
    return result;
}

/* c2_session::Session::stage_byte */
static uint8_t c2_session__Session__stage_byte(const c2_session__Session *a1, const c2_session__At *a2,
    slice_u8 a3)
{
    uint8_t result;
    uint8_t v4;
    switch (a2->f0) {
    case 0u:
        v4 = c2_session__bytes__lead_byte(a2->f3);
        break;
    case 1u:
        v4 = c2_session__Session__erase_byte(a1, a2);
        break;
    case 2u:
        v4 = c2_session__Session__write_byte(a1, a2, a3);
        break;
    case 3u:
        v4 = c2_session__Session__block_byte(a1, a2, 6u);
        break;
    case 4u:
        v4 = 0u;
        break;
    default: /* 5 */
        v4 = c2_session__Session__register_byte(a1, a2);
        break;
    }
    result = v4;
    return result;
}

/* c2_session::Session::task_byte */
static uint8_t c2_session__Session__task_byte(const c2_session__Session *a1, c2_acts__Task a2,
    const c2_session__At *a3, slice_u8 a4)
{
    uint8_t result;
    _Bool v5;
    _Bool v6;
    uint8_t v7;
    switch (a2) {
    case 2u:
    case 3u:
        v6 = 1;
        break;
    default: /* 0, 1, 4, 5, 6, 7, 8 */
        v6 = 0;
        break;
    }
    v5 = v6;
    if (v5) {
        v7 = c2_session__Session__stage_byte(a1, a3, a4);
    } else {
        v7 = 0u;
    }
    result = v7;
    return result;
}

/* c2_wire::Frame::around */
static uint64_t c2_wire__Frame__around(c2_wire__Frame a1)
{
    uint64_t result;
    uint64_t v2;
    switch (a1) {
    case 0u:
        v2 = UINT64_C(8608472358044304176);
        break;
    case 1u:
        v2 = UINT64_C(8608489872042853152);
        break;
    case 2u:
        v2 = UINT64_C(8601875288277787184);
        break;
    default: /* 3 */
        v2 = UINT64_C(8646591028576526880);
        break;
    }
    result = v2;
    return result;
}

/* c2_wire::Frame::byte_weight */
static core__Option_u64 c2_wire__Frame__byte_weight(c2_wire__Frame a1)
{
    core__Option_u64 result;
    core__Option_u64 v2;
    switch (a1) {
    case 0u:
        v2.tag = 1u;
        v2.u64_0 = UINT64_C(4096);
        break;
    case 2u:
        v2.tag = 1u;
        v2.u64_0 = UINT64_C(1048576);
        break;
    default: /* 1, 3 */
        v2.tag = 0u;
        v2.u64_0 = 0;
        break;
    }
    result.tag = v2.tag;
    result.u64_0 = v2.u64_0;
    return result;
}

/* core::convert::U64FromU8::from */
INLINED uint64_t core__convert__U64FromU8__from(uint8_t a1)
{
    uint64_t result;
    result = (uint64_t)a1;
    return result;
}

/* c2_wire::table::two */
static uint64_t c2_wire__table__two(uint8_t a1, uint8_t a2)
{
    uint64_t result;
    uint64_t v3;
    uint64_t v4;
    uint64_t v5;
    v3 = core__convert__U64FromU8__from(a1);
    v4 = core__convert__U64FromU8__from(a2);
    v5 = v4 * UINT64_C(16);
    result = v3 + v5;
    return result;
}

/* c2_wire::table::word */
static uint64_t c2_wire__table__word(const uint8_t *a1, uint8_t a2)
{
    uint64_t result;
    uint64_t v3;
    uint64_t v4;
    uint64_t v5;
    uint64_t v6;
    const uint8_t *v7;
    const uint8_t *v8;
    uint8_t v9;
    uint64_t v10;
    const uint8_t *v11;
    const uint8_t *v12;
    uint8_t v13;
    uint64_t v14;
    uint64_t v15;
    const uint8_t *v16;
    const uint8_t *v17;
    uint8_t v18;
    uint64_t v19;
    const uint8_t *v20;
    const uint8_t *v21;
    uint8_t v22;
    uint64_t v23;
    const uint8_t *v24;
    const uint8_t *v25;
    const uint8_t *v26;
    const uint8_t *v27;
    const uint8_t *v28;
    const uint8_t *v29;
    uint64_t v30;
    const uint8_t *v31;
    const uint8_t *v32;
    v3 = core__convert__UsizeFromU8__from(a2);
    v7 = a1;
    v8 = v7 + (size_t)v3;
    v9 = *v8;
    v10 = v3 + UINT64_C(256);
    v11 = a1;
    v12 = v11 + (size_t)v10;
    v13 = *v12;
    v6 = c2_wire__table__two(v9, v13);
    v15 = v3 + UINT64_C(512);
    v16 = a1;
    v17 = v16 + (size_t)v15;
    v18 = *v17;
    v19 = v3 + UINT64_C(768);
    v20 = a1;
    v21 = v20 + (size_t)v19;
    v22 = *v21;
    v14 = c2_wire__table__two(v18, v22);
    v23 = v14 * UINT64_C(256);
    v4 = v6 + v23;
    v10 = v3 + UINT64_C(1024);
    v24 = a1;
    v25 = v24 + (size_t)v10;
    v9 = *v25;
    v19 = v3 + UINT64_C(1280);
    v26 = a1;
    v27 = v26 + (size_t)v19;
    v18 = *v27;
    v6 = c2_wire__table__two(v9, v18);
    v15 = v3 + UINT64_C(1536);
    v28 = a1;
    v29 = v28 + (size_t)v15;
    v13 = *v29;
    v30 = v3 + UINT64_C(1792);
    v31 = a1;
    v32 = v31 + (size_t)v30;
    v22 = *v32;
    v23 = c2_wire__table__two(v13, v22);
    v14 = v23 * UINT64_C(256);
    v5 = v6 + v14;
    v6 = v5 * UINT64_C(65536);
    result = v4 + v6;
    return result;
}

/* c2_wire::table::driven */
static uint64_t c2_wire__table__driven(uint8_t a1)
{
    uint64_t result;
    const uint8_t *v2;
    static const array_2048_u8 v3 = {{
        2u, 3u, 2u, 3u, 2u, 3u, 2u, 3u, 2u, 3u, 2u, 3u, 2u, 3u, 2u, 3u, 2u, 3u, 2u, 3u, 2u, 3u, 2u, 3u, 2u,
        3u, 2u, 3u, 2u, 3u, 2u, 3u, 2u, 3u, 2u, 3u, 2u, 3u, 2u, 3u, 2u, 3u, 2u, 3u, 2u, 3u, 2u, 3u, 2u, 3u,
        2u, 3u, 2u, 3u, 2u, 3u, 2u, 3u, 2u, 3u, 2u, 3u, 2u, 3u, 2u, 3u, 2u, 3u, 2u, 3u, 2u, 3u, 2u, 3u, 2u,
        3u, 2u, 3u, 2u, 3u, 2u, 3u, 2u, 3u, 2u, 3u, 2u, 3u, 2u, 3u, 2u, 3u, 2u, 3u, 2u, 3u, 2u, 3u, 2u, 3u,
        2u, 3u, 2u, 3u, 2u, 3u, 2u, 3u, 2u, 3u, 2u, 3u, 2u, 3u, 2u, 3u, 2u, 3u, 2u, 3u, 2u, 3u, 2u, 3u, 2u,
        3u, 2u, 3u, 2u, 3u, 2u, 3u, 2u, 3u, 2u, 3u, 2u, 3u, 2u, 3u, 2u, 3u, 2u, 3u, 2u, 3u, 2u, 3u, 2u, 3u,
        2u, 3u, 2u, 3u, 2u, 3u, 2u, 3u, 2u, 3u, 2u, 3u, 2u, 3u, 2u, 3u, 2u, 3u, 2u, 3u, 2u, 3u, 2u, 3u, 2u,
        3u, 2u, 3u, 2u, 3u, 2u, 3u, 2u, 3u, 2u, 3u, 2u, 3u, 2u, 3u, 2u, 3u, 2u, 3u, 2u, 3u, 2u, 3u, 2u, 3u,
        2u, 3u, 2u, 3u, 2u, 3u, 2u, 3u, 2u, 3u, 2u, 3u, 2u, 3u, 2u, 3u, 2u, 3u, 2u, 3u, 2u, 3u, 2u, 3u, 2u,
        3u, 2u, 3u, 2u, 3u, 2u, 3u, 2u, 3u, 2u, 3u, 2u, 3u, 2u, 3u, 2u, 3u, 2u, 3u, 2u, 3u, 2u, 3u, 2u, 3u,
        2u, 3u, 2u, 3u, 2u, 3u, 2u, 2u, 3u, 3u, 2u, 2u, 3u, 3u, 2u, 2u, 3u, 3u, 2u, 2u, 3u, 3u, 2u, 2u, 3u,
        3u, 2u, 2u, 3u, 3u, 2u, 2u, 3u, 3u, 2u, 2u, 3u, 3u, 2u, 2u, 3u, 3u, 2u, 2u, 3u, 3u, 2u, 2u, 3u, 3u,
        2u, 2u, 3u, 3u, 2u, 2u, 3u, 3u, 2u, 2u, 3u, 3u, 2u, 2u, 3u, 3u, 2u, 2u, 3u, 3u, 2u, 2u, 3u, 3u, 2u,
        2u, 3u, 3u, 2u, 2u, 3u, 3u, 2u, 2u, 3u, 3u, 2u, 2u, 3u, 3u, 2u, 2u, 3u, 3u, 2u, 2u, 3u, 3u, 2u, 2u,
        3u, 3u, 2u, 2u, 3u, 3u, 2u, 2u, 3u, 3u, 2u, 2u, 3u, 3u, 2u, 2u, 3u, 3u, 2u, 2u, 3u, 3u, 2u, 2u, 3u,
        3u, 2u, 2u, 3u, 3u, 2u, 2u, 3u, 3u, 2u, 2u, 3u, 3u, 2u, 2u, 3u, 3u, 2u, 2u, 3u, 3u, 2u, 2u, 3u, 3u,
        2u, 2u, 3u, 3u, 2u, 2u, 3u, 3u, 2u, 2u, 3u, 3u, 2u, 2u, 3u, 3u, 2u, 2u, 3u, 3u, 2u, 2u, 3u, 3u, 2u,
        2u, 3u, 3u, 2u, 2u, 3u, 3u, 2u, 2u, 3u, 3u, 2u, 2u, 3u, 3u, 2u, 2u, 3u, 3u, 2u, 2u, 3u, 3u, 2u, 2u,
        3u, 3u, 2u, 2u, 3u, 3u, 2u, 2u, 3u, 3u, 2u, 2u, 3u, 3u, 2u, 2u, 3u, 3u, 2u, 2u, 3u, 3u, 2u, 2u, 3u,
        3u, 2u, 2u, 3u, 3u, 2u, 2u, 3u, 3u, 2u, 2u, 3u, 3u, 2u, 2u, 3u, 3u, 2u, 2u, 3u, 3u, 2u, 2u, 3u, 3u,
        2u, 2u, 3u, 3u, 2u, 2u, 3u, 3u, 2u, 2u, 3u, 3u, 2u, 2u, 2u, 2u, 3u, 3u, 3u, 3u, 2u, 2u, 2u, 2u, 3u,
        3u, 3u, 3u, 2u, 2u, 2u, 2u, 3u, 3u, 3u, 3u, 2u, 2u, 2u, 2u, 3u, 3u, 3u, 3u, 2u, 2u, 2u, 2u, 3u, 3u,
        3u, 3u, 2u, 2u, 2u, 2u, 3u, 3u, 3u, 3u, 2u, 2u, 2u, 2u, 3u, 3u, 3u, 3u, 2u, 2u, 2u, 2u, 3u, 3u, 3u,
        3u, 2u, 2u, 2u, 2u, 3u, 3u, 3u, 3u, 2u, 2u, 2u, 2u, 3u, 3u, 3u, 3u, 2u, 2u, 2u, 2u, 3u, 3u, 3u, 3u,
        2u, 2u, 2u, 2u, 3u, 3u, 3u, 3u, 2u, 2u, 2u, 2u, 3u, 3u, 3u, 3u, 2u, 2u, 2u, 2u, 3u, 3u, 3u, 3u, 2u,
        2u, 2u, 2u, 3u, 3u, 3u, 3u, 2u, 2u, 2u, 2u, 3u, 3u, 3u, 3u, 2u, 2u, 2u, 2u, 3u, 3u, 3u, 3u, 2u, 2u,
        2u, 2u, 3u, 3u, 3u, 3u, 2u, 2u, 2u, 2u, 3u, 3u, 3u, 3u, 2u, 2u, 2u, 2u, 3u, 3u, 3u, 3u, 2u, 2u, 2u,
        2u, 3u, 3u, 3u, 3u, 2u, 2u, 2u, 2u, 3u, 3u, 3u, 3u, 2u, 2u, 2u, 2u, 3u, 3u, 3u, 3u, 2u, 2u, 2u, 2u,
        3u, 3u, 3u, 3u, 2u, 2u, 2u, 2u, 3u, 3u, 3u, 3u, 2u, 2u, 2u, 2u, 3u, 3u, 3u, 3u, 2u, 2u, 2u, 2u, 3u,
        3u, 3u, 3u, 2u, 2u, 2u, 2u, 3u, 3u, 3u, 3u, 2u, 2u, 2u, 2u, 3u, 3u, 3u, 3u, 2u, 2u, 2u, 2u, 3u, 3u,
        3u, 3u, 2u, 2u, 2u, 2u, 3u, 3u, 3u, 3u, 2u, 2u, 2u, 2u, 3u, 3u, 3u, 3u, 2u, 2u, 2u, 2u, 2u, 2u, 2u,
        2u, 3u, 3u, 3u, 3u, 3u, 3u, 3u, 3u, 2u, 2u, 2u, 2u, 2u, 2u, 2u, 2u, 3u, 3u, 3u, 3u, 3u, 3u, 3u, 3u,
        2u, 2u, 2u, 2u, 2u, 2u, 2u, 2u, 3u, 3u, 3u, 3u, 3u, 3u, 3u, 3u, 2u, 2u, 2u, 2u, 2u, 2u, 2u, 2u, 3u,
        3u, 3u, 3u, 3u, 3u, 3u, 3u, 2u, 2u, 2u, 2u, 2u, 2u, 2u, 2u, 3u, 3u, 3u, 3u, 3u, 3u, 3u, 3u, 2u, 2u,
        2u, 2u, 2u, 2u, 2u, 2u, 3u, 3u, 3u, 3u, 3u, 3u, 3u, 3u, 2u, 2u, 2u, 2u, 2u, 2u, 2u, 2u, 3u, 3u, 3u,
        3u, 3u, 3u, 3u, 3u, 2u, 2u, 2u, 2u, 2u, 2u, 2u, 2u, 3u, 3u, 3u, 3u, 3u, 3u, 3u, 3u, 2u, 2u, 2u, 2u,
        2u, 2u, 2u, 2u, 3u, 3u, 3u, 3u, 3u, 3u, 3u, 3u, 2u, 2u, 2u, 2u, 2u, 2u, 2u, 2u, 3u, 3u, 3u, 3u, 3u,
        3u, 3u, 3u, 2u, 2u, 2u, 2u, 2u, 2u, 2u, 2u, 3u, 3u, 3u, 3u, 3u, 3u, 3u, 3u, 2u, 2u, 2u, 2u, 2u, 2u,
        2u, 2u, 3u, 3u, 3u, 3u, 3u, 3u, 3u, 3u, 2u, 2u, 2u, 2u, 2u, 2u, 2u, 2u, 3u, 3u, 3u, 3u, 3u, 3u, 3u,
        3u, 2u, 2u, 2u, 2u, 2u, 2u, 2u, 2u, 3u, 3u, 3u, 3u, 3u, 3u, 3u, 3u, 2u, 2u, 2u, 2u, 2u, 2u, 2u, 2u,
        3u, 3u, 3u, 3u, 3u, 3u, 3u, 3u, 2u, 2u, 2u, 2u, 2u, 2u, 2u, 2u, 3u, 3u, 3u, 3u, 3u, 3u, 3u, 3u, 2u,
        2u, 2u, 2u, 2u, 2u, 2u, 2u, 2u, 2u, 2u, 2u, 2u, 2u, 2u, 2u, 3u, 3u, 3u, 3u, 3u, 3u, 3u, 3u, 3u, 3u,
        3u, 3u, 3u, 3u, 3u, 3u, 2u, 2u, 2u, 2u, 2u, 2u, 2u, 2u, 2u, 2u, 2u, 2u, 2u, 2u, 2u, 2u, 3u, 3u, 3u,
        3u, 3u, 3u, 3u, 3u, 3u, 3u, 3u, 3u, 3u, 3u, 3u, 3u, 2u, 2u, 2u, 2u, 2u, 2u, 2u, 2u, 2u, 2u, 2u, 2u,
        2u, 2u, 2u, 2u, 3u, 3u, 3u, 3u, 3u, 3u, 3u, 3u, 3u, 3u, 3u, 3u, 3u, 3u, 3u, 3u, 2u, 2u, 2u, 2u, 2u,
        2u, 2u, 2u, 2u, 2u, 2u, 2u, 2u, 2u, 2u, 2u, 3u, 3u, 3u, 3u, 3u, 3u, 3u, 3u, 3u, 3u, 3u, 3u, 3u, 3u,
        3u, 3u, 2u, 2u, 2u, 2u, 2u, 2u, 2u, 2u, 2u, 2u, 2u, 2u, 2u, 2u, 2u, 2u, 3u, 3u, 3u, 3u, 3u, 3u, 3u,
        3u, 3u, 3u, 3u, 3u, 3u, 3u, 3u, 3u, 2u, 2u, 2u, 2u, 2u, 2u, 2u, 2u, 2u, 2u, 2u, 2u, 2u, 2u, 2u, 2u,
        3u, 3u, 3u, 3u, 3u, 3u, 3u, 3u, 3u, 3u, 3u, 3u, 3u, 3u, 3u, 3u, 2u, 2u, 2u, 2u, 2u, 2u, 2u, 2u, 2u,
        2u, 2u, 2u, 2u, 2u, 2u, 2u, 3u, 3u, 3u, 3u, 3u, 3u, 3u, 3u, 3u, 3u, 3u, 3u, 3u, 3u, 3u, 3u, 2u, 2u,
        2u, 2u, 2u, 2u, 2u, 2u, 2u, 2u, 2u, 2u, 2u, 2u, 2u, 2u, 3u, 3u, 3u, 3u, 3u, 3u, 3u, 3u, 3u, 3u, 3u,
        3u, 3u, 3u, 3u, 3u, 2u, 2u, 2u, 2u, 2u, 2u, 2u, 2u, 2u, 2u, 2u, 2u, 2u, 2u, 2u, 2u, 2u, 2u, 2u, 2u,
        2u, 2u, 2u, 2u, 2u, 2u, 2u, 2u, 2u, 2u, 2u, 2u, 3u, 3u, 3u, 3u, 3u, 3u, 3u, 3u, 3u, 3u, 3u, 3u, 3u,
        3u, 3u, 3u, 3u, 3u, 3u, 3u, 3u, 3u, 3u, 3u, 3u, 3u, 3u, 3u, 3u, 3u, 3u, 3u, 2u, 2u, 2u, 2u, 2u, 2u,
        2u, 2u, 2u, 2u, 2u, 2u, 2u, 2u, 2u, 2u, 2u, 2u, 2u, 2u, 2u, 2u, 2u, 2u, 2u, 2u, 2u, 2u, 2u, 2u, 2u,
        2u, 3u, 3u, 3u, 3u, 3u, 3u, 3u, 3u, 3u, 3u, 3u, 3u, 3u, 3u, 3u, 3u, 3u, 3u, 3u, 3u, 3u, 3u, 3u, 3u,
        3u, 3u, 3u, 3u, 3u, 3u, 3u, 3u, 2u, 2u, 2u, 2u, 2u, 2u, 2u, 2u, 2u, 2u, 2u, 2u, 2u, 2u, 2u, 2u, 2u,
        2u, 2u, 2u, 2u, 2u, 2u, 2u, 2u, 2u, 2u, 2u, 2u, 2u, 2u, 2u, 3u, 3u, 3u, 3u, 3u, 3u, 3u, 3u, 3u, 3u,
        3u, 3u, 3u, 3u, 3u, 3u, 3u, 3u, 3u, 3u, 3u, 3u, 3u, 3u, 3u, 3u, 3u, 3u, 3u, 3u, 3u, 3u, 2u, 2u, 2u,
        2u, 2u, 2u, 2u, 2u, 2u, 2u, 2u, 2u, 2u, 2u, 2u, 2u, 2u, 2u, 2u, 2u, 2u, 2u, 2u, 2u, 2u, 2u, 2u, 2u,
        2u, 2u, 2u, 2u, 3u, 3u, 3u, 3u, 3u, 3u, 3u, 3u, 3u, 3u, 3u, 3u, 3u, 3u, 3u, 3u, 3u, 3u, 3u, 3u, 3u,
        3u, 3u, 3u, 3u, 3u, 3u, 3u, 3u, 3u, 3u, 3u, 2u, 2u, 2u, 2u, 2u, 2u, 2u, 2u, 2u, 2u, 2u, 2u, 2u, 2u,
        2u, 2u, 2u, 2u, 2u, 2u, 2u, 2u, 2u, 2u, 2u, 2u, 2u, 2u, 2u, 2u, 2u, 2u, 2u, 2u, 2u, 2u, 2u, 2u, 2u,
        2u, 2u, 2u, 2u, 2u, 2u, 2u, 2u, 2u, 2u, 2u, 2u, 2u, 2u, 2u, 2u, 2u, 2u, 2u, 2u, 2u, 2u, 2u, 2u, 2u,
        3u, 3u, 3u, 3u, 3u, 3u, 3u, 3u, 3u, 3u, 3u, 3u, 3u, 3u, 3u, 3u, 3u, 3u, 3u, 3u, 3u, 3u, 3u, 3u, 3u,
        3u, 3u, 3u, 3u, 3u, 3u, 3u, 3u, 3u, 3u, 3u, 3u, 3u, 3u, 3u, 3u, 3u, 3u, 3u, 3u, 3u, 3u, 3u, 3u, 3u,
        3u, 3u, 3u, 3u, 3u, 3u, 3u, 3u, 3u, 3u, 3u, 3u, 3u, 3u, 2u, 2u, 2u, 2u, 2u, 2u, 2u, 2u, 2u, 2u, 2u,
        2u, 2u, 2u, 2u, 2u, 2u, 2u, 2u, 2u, 2u, 2u, 2u, 2u, 2u, 2u, 2u, 2u, 2u, 2u, 2u, 2u, 2u, 2u, 2u, 2u,
        2u, 2u, 2u, 2u, 2u, 2u, 2u, 2u, 2u, 2u, 2u, 2u, 2u, 2u, 2u, 2u, 2u, 2u, 2u, 2u, 2u, 2u, 2u, 2u, 2u,
        2u, 2u, 2u, 3u, 3u, 3u, 3u, 3u, 3u, 3u, 3u, 3u, 3u, 3u, 3u, 3u, 3u, 3u, 3u, 3u, 3u, 3u, 3u, 3u, 3u,
        3u, 3u, 3u, 3u, 3u, 3u, 3u, 3u, 3u, 3u, 3u, 3u, 3u, 3u, 3u, 3u, 3u, 3u, 3u, 3u, 3u, 3u, 3u, 3u, 3u,
        3u, 3u, 3u, 3u, 3u, 3u, 3u, 3u, 3u, 3u, 3u, 3u, 3u, 3u, 3u, 3u, 3u, 2u, 2u, 2u, 2u, 2u, 2u, 2u, 2u,
        2u, 2u, 2u, 2u, 2u, 2u, 2u, 2u, 2u, 2u, 2u, 2u, 2u, 2u, 2u, 2u, 2u, 2u, 2u, 2u, 2u, 2u, 2u, 2u, 2u,
        2u, 2u, 2u, 2u, 2u, 2u, 2u, 2u, 2u, 2u, 2u, 2u, 2u, 2u, 2u, 2u, 2u, 2u, 2u, 2u, 2u, 2u, 2u, 2u, 2u,
        2u, 2u, 2u, 2u, 2u, 2u, 2u, 2u, 2u, 2u, 2u, 2u, 2u, 2u, 2u, 2u, 2u, 2u, 2u, 2u, 2u, 2u, 2u, 2u, 2u,
        2u, 2u, 2u, 2u, 2u, 2u, 2u, 2u, 2u, 2u, 2u, 2u, 2u, 2u, 2u, 2u, 2u, 2u, 2u, 2u, 2u, 2u, 2u, 2u, 2u,
        2u, 2u, 2u, 2u, 2u, 2u, 2u, 2u, 2u, 2u, 2u, 2u, 2u, 2u, 2u, 2u, 2u, 2u, 2u, 2u, 3u, 3u, 3u, 3u, 3u,
        3u, 3u, 3u, 3u, 3u, 3u, 3u, 3u, 3u, 3u, 3u, 3u, 3u, 3u, 3u, 3u, 3u, 3u, 3u, 3u, 3u, 3u, 3u, 3u, 3u,
        3u, 3u, 3u, 3u, 3u, 3u, 3u, 3u, 3u, 3u, 3u, 3u, 3u, 3u, 3u, 3u, 3u, 3u, 3u, 3u, 3u, 3u, 3u, 3u, 3u,
        3u, 3u, 3u, 3u, 3u, 3u, 3u, 3u, 3u, 3u, 3u, 3u, 3u, 3u, 3u, 3u, 3u, 3u, 3u, 3u, 3u, 3u, 3u, 3u, 3u,
        3u, 3u, 3u, 3u, 3u, 3u, 3u, 3u, 3u, 3u, 3u, 3u, 3u, 3u, 3u, 3u, 3u, 3u, 3u, 3u, 3u, 3u, 3u, 3u, 3u,
        3u, 3u, 3u, 3u, 3u, 3u, 3u, 3u, 3u, 3u, 3u, 3u, 3u, 3u, 3u, 3u, 3u, 3u, 3u, 3u, 3u, 3u, 3u,
    }};
    v2 = v3.at;
    result = c2_wire__table__word(v2, a1);
    return result;
}

/* c2_wire::script::script_of */
static uint64_t c2_wire__script__script_of(c2_wire__Frame a1, uint8_t a2)
{
    uint64_t result;
    uint64_t v3;
    core__Option_u64 v4;
    uint64_t v5;
    uint64_t v6;
    uint64_t v7;
    uint64_t v8;
    v4 = c2_wire__Frame__byte_weight(a1);
    switch (v4.tag) {
    case 1u:
        v3 = v4.u64_0;
        v6 = c2_wire__Frame__around(a1);
        v7 = c2_wire__table__driven(a2);
        v8 = v7 * v3;
        v5 = v6 + v8;
        break;
    default: /* 0 */
        v5 = c2_wire__Frame__around(a1);
        break;
    }
    result = v5;
    return result;
}

/* c2_session::script::act_script */
static uint64_t c2_session__script__act_script(c2_acts__Task a1, uint8_t a2)
{
    uint64_t result;
    c2_wire__Frame v3;
    c2_wire__Frame v4;
    switch (a1) {
    case 0u:
        result = UINT64_C(4919131752989213764);
        return result;
    case 1u:
        result = UINT64_C(6148914691236517205);
        return result;
    case 2u:
        v4 = 0u;
        break;
    case 3u:
        v4 = 2u;
        break;
    case 4u:
    case 5u:
        v4 = 1u;
        break;
    default: /* 6, 7, 8 */
        v4 = 3u;
        break;
    }
    v3 = v4;
    result = c2_wire__script__script_of(v3, a2);
    return result;
}

/* core::int::u32::min */
INLINED uint32_t core__int__u32__min(uint32_t a1, uint32_t a2)
{
    uint32_t result;
    _Bool v3;
    uint32_t v4;
    v3 = a2 < a1;
    if (v3) {
        v4 = a2;
    } else {
        v4 = a1;
    }
    result = v4;
    return result;
}

/* c2_wire::script::script_from */
static uint64_t c2_wire__script__script_from(uint64_t a1, uint32_t a2)
{
    uint64_t result;
    uint32_t v3;
    uint32_t v4;
    uint64_t v5;
    v3 = core__int__u32__min(a2, UINT32_C(15));
    v4 = (uint32_t)(UINT32_C(4) * v3);
    v5 = (uint64_t)v4;
    result = a1 >> v5;
    return result;
}

/* c2_session::Session::script_at */
static uint64_t c2_session__Session__script_at(const c2_session__Session *a1, c2_acts__Task a2,
    const c2_session__At *a3, uint32_t a4, slice_u8 a5)
{
    uint64_t result;
    uint64_t v6;
    uint8_t v7;
    v7 = c2_session__Session__task_byte(a1, a2, a3, a5);
    v6 = c2_session__script__act_script(a2, v7);
    result = c2_wire__script__script_from(v6, a4);
    return result;
}

/* c2_session::Runner::informed */
static c2_session__Runner c2_session__Runner__informed(const c2_session__Runner *a1,
    const c2_session__Session *a2, const c2_session__At *a3, uint32_t a4, slice_u8 a5)
{
    c2_session__Runner result;
    c2_acts__Task v6;
    _Bool v7;
    _Bool v8;
    c2_acts__Stage v9;
    uint64_t v10;
    c2_session__Point v11;
    v7 = a4 != UINT32_C(0);
    if (v7) {
        v7 = a1->f2 != UINT64_C(0);
        v8 = v7;
        if (v8) {
            result.f0.tag = a1->f0.tag;
            result.f0.c2_acts__Stage_0 = a1->f0.c2_acts__Stage_0;
            result.f0.u32_0 = a1->f0.u32_0;
            result.f0.u32_1 = a1->f0.u32_1;
            result.f0.u32_2 = a1->f0.u32_2;
            result.f0.u32_3 = a1->f0.u32_3;
            result.f0.u32_4 = a1->f0.u32_4;
            result.f0.u32_5 = a1->f0.u32_5;
            result.f1 = a1->f1;
            result.f2 = a1->f2;
            return result;
            goto end1;
        }
    }
    end1:;
    v9 = a3->f0;
    v6 = c2_acts__task_of(v9, a3->f3);
    v10 = c2_session__Session__script_at(a2, v6, a3, a4, a5);
    v11.tag = a1->f0.tag;
    v11.c2_acts__Stage_0 = a1->f0.c2_acts__Stage_0;
    v11.u32_0 = a1->f0.u32_0;
    v11.u32_1 = a1->f0.u32_1;
    v11.u32_2 = a1->f0.u32_2;
    v11.u32_3 = a1->f0.u32_3;
    v11.u32_4 = a1->f0.u32_4;
    v11.u32_5 = a1->f0.u32_5;
    result.f0.tag = v11.tag;
    result.f0.c2_acts__Stage_0 = v11.c2_acts__Stage_0;
    result.f0.u32_0 = v11.u32_0;
    result.f0.u32_1 = v11.u32_1;
    result.f0.u32_2 = v11.u32_2;
    result.f0.u32_3 = v11.u32_3;
    result.f0.u32_4 = v11.u32_4;
    result.f0.u32_5 = v11.u32_5;
    result.f1 = v6;
    result.f2 = v10;
    return result;
}

/* c2_acts::acts_in */
static uint32_t c2_acts__acts_in(c2_acts__Stage a1)
{
    uint32_t result;
    uint32_t v2;
    switch (a1) {
    case 0u:
        v2 = UINT32_C(8);
        break;
    case 1u:
        v2 = UINT32_C(13);
        break;
    case 2u:
    case 3u:
        v2 = UINT32_C(525);
        break;
    case 4u:
        v2 = UINT32_C(1);
        break;
    default: /* 5 */
        v2 = UINT32_C(2);
        break;
    }
    result = v2;
    return result;
}

/* c2_session::next::strobe_point */
static c2_session__Point c2_session__next__strobe_point(const c2_session__At *a1, const c2_wire__Place *a2)
{
    c2_session__Point result;
    c2_acts__Stage v3;
    v3 = a1->f0;
    result.tag = 0u;
    result.c2_acts__Stage_0 = v3;
    result.u32_0 = a1->f1;
    result.u32_1 = a1->f2;
    result.u32_2 = a1->f3;
    result.u32_3 = a2->f0;
    result.u32_4 = a2->f1;
    result.u32_5 = a2->f2;
    return result;
}

/* c2_session::next::first_strobe */
static c2_session__Point c2_session__next__first_strobe(const c2_session__At *a1)
{
    c2_session__Point result;
    c2_wire__Place v2;
    v2.f0 = UINT32_C(0);
    v2.f1 = UINT32_C(0);
    v2.f2 = UINT32_C(0);
    result = c2_session__next__strobe_point(a1, &v2);
    return result;
}

/* c2_session::Session::next_block */
static c2_session__Point c2_session__Session__next_block(const c2_session__Session *a1,
    const c2_session__At *a2, const c2_session__Point *a3)
{
    c2_session__Point result;
    uint64_t v4;
    uint64_t v5;
    uint32_t v6;
    uint64_t v7;
    _Bool v8;
    c2_session__Point v9;
    uint32_t v10;
    c2_acts__Stage v11;
    uint32_t v12;
    c2_session__At v13;
    v4 = (uint64_t)a2->f2;
    v5 = v4 + UINT64_C(1);
    v6 = (uint32_t)(a1->f0.page_size / UINT32_C(256));
    v7 = (uint64_t)v6;
    v8 = v5 < v7;
    if (v8) {
        v10 = (uint32_t)(a2->f2 + UINT32_C(1));
        v11 = a2->f0;
        v12 = a2->f1;
        v13.f0 = v11;
        v13.f1 = v12;
        v13.f2 = v10;
        v13.f3 = UINT32_C(0);
        v9 = c2_session__next__first_strobe(&v13);
    } else {
        v9.tag = a3->tag;
        v9.c2_acts__Stage_0 = a3->c2_acts__Stage_0;
        v9.u32_0 = a3->u32_0;
        v9.u32_1 = a3->u32_1;
        v9.u32_2 = a3->u32_2;
        v9.u32_3 = a3->u32_3;
        v9.u32_4 = a3->u32_4;
        v9.u32_5 = a3->u32_5;
    }
    result.tag = v9.tag;
    result.c2_acts__Stage_0 = v9.c2_acts__Stage_0;
    result.u32_0 = v9.u32_0;
    result.u32_1 = v9.u32_1;
    result.u32_2 = v9.u32_2;
    result.u32_3 = v9.u32_3;
    result.u32_4 = v9.u32_4;
    result.u32_5 = v9.u32_5;
    return result;
}

/* c2_session::next::begin */
static c2_session__Point c2_session__next__begin(c2_acts__Stage a1, uint32_t a2)
{
    c2_session__Point result;
    c2_session__At v3;
    v3.f0 = a1;
    v3.f1 = a2;
    v3.f2 = UINT32_C(0);
    v3.f3 = UINT32_C(0);
    result = c2_session__next__first_strobe(&v3);
    return result;
}

/* core::convert::UsizeFromU16::from */
INLINED uint64_t core__convert__UsizeFromU16__from(uint16_t a1)
{
    uint64_t result;
    result = (uint64_t)a1;
    return result;
}

/* c2_session::Session::next_page */
static c2_session__Point c2_session__Session__next_page(const c2_session__Session *a1, uint32_t a2)
{
    c2_session__Point result;
    uint64_t v3;
    uint64_t v4;
    uint64_t v5;
    _Bool v6;
    c2_session__Point v7;
    c2_acts__Stage v8;
    uint32_t v9;
    c2_acts__Stage v10;
    v3 = (uint64_t)a2;
    v4 = v3 + UINT64_C(1);
    v5 = core__convert__UsizeFromU16__from(a1->f2);
    v6 = v4 < v5;
    if (v6) {
        v8 = 1u;
        v9 = (uint32_t)(a2 + UINT32_C(1));
        v7 = c2_session__next__begin(v8, v9);
    } else {
        v10 = 4u;
        v7 = c2_session__next__begin(v10, UINT32_C(0));
    }
    result.tag = v7.tag;
    result.c2_acts__Stage_0 = v7.c2_acts__Stage_0;
    result.u32_0 = v7.u32_0;
    result.u32_1 = v7.u32_1;
    result.u32_2 = v7.u32_2;
    result.u32_3 = v7.u32_3;
    result.u32_4 = v7.u32_4;
    result.u32_5 = v7.u32_5;
    return result;
}

/* c2_session::Session::next_register */
static c2_session__Point c2_session__Session__next_register(const c2_session__Session *a1, uint64_t a2)
{
    c2_session__Point result;
    uint64_t v3;
    _Bool v4;
    c2_session__Point v5;
    c2_acts__Stage v6;
    uint32_t v7;
    c2_acts__Stage v8;
    v3 = core__convert__UsizeFromU8__from(a1->f0.pairs.count);
    v4 = a2 < v3;
    if (v4) {
        v6 = 5u;
        v7 = (uint32_t)a2;
        v5 = c2_session__next__begin(v6, v7);
    } else {
        v8 = 1u;
        v5 = c2_session__next__begin(v8, UINT32_C(0));
    }
    result.tag = v5.tag;
    result.c2_acts__Stage_0 = v5.c2_acts__Stage_0;
    result.u32_0 = v5.u32_0;
    result.u32_1 = v5.u32_1;
    result.u32_2 = v5.u32_2;
    result.u32_3 = v5.u32_3;
    result.u32_4 = v5.u32_4;
    result.u32_5 = v5.u32_5;
    return result;
}

/* c2_session::next::end_with */
static c2_session__Point c2_session__next__end_with(uint32_t a1, uint32_t a2)
{
    c2_session__Point result;
    result.tag = 1u;
    result.u32_0 = a1;
    result.u32_1 = a2;
    result.c2_acts__Stage_0 = 0;
    result.u32_2 = 0;
    result.u32_3 = 0;
    result.u32_4 = 0;
    result.u32_5 = 0;
    return result;
}

/* c2_session::next::end_point */
static c2_session__Point c2_session__next__end_point(uint32_t a1)
{
    c2_session__Point result;
    result = c2_session__next__end_with(a1, UINT32_C(0));
    return result;
}

/* c2_session::Session::next_stage */
static c2_session__Point c2_session__Session__next_stage(const c2_session__Session *a1,
    const c2_session__At *a2)
{
    c2_session__Point result;
    c2_session__Point v3;
    c2_acts__Stage v4;
    c2_session__Point v5;
    c2_acts__Stage v6;
    c2_session__Point v7;
    uint64_t v8;
    uint64_t v9;
    switch (a2->f0) {
    case 0u:
        v3 = c2_session__Session__next_register(a1, UINT64_C(0));
        break;
    case 1u:
        v4 = 2u;
        v3 = c2_session__next__begin(v4, a2->f1);
        break;
    case 2u:
        v6 = 3u;
        v5 = c2_session__next__begin(v6, a2->f1);
        v3 = c2_session__Session__next_block(a1, a2, &v5);
        break;
    case 3u:
        v7 = c2_session__Session__next_page(a1, a2->f1);
        v3 = c2_session__Session__next_block(a1, a2, &v7);
        break;
    case 4u:
        v3 = c2_session__next__end_point(UINT32_C(32));
        break;
    default: /* 5 */
        v8 = (uint64_t)a2->f1;
        v9 = v8 + UINT64_C(1);
        v3 = c2_session__Session__next_register(a1, v9);
        break;
    }
    result.tag = v3.tag;
    result.c2_acts__Stage_0 = v3.c2_acts__Stage_0;
    result.u32_0 = v3.u32_0;
    result.u32_1 = v3.u32_1;
    result.u32_2 = v3.u32_2;
    result.u32_3 = v3.u32_3;
    result.u32_4 = v3.u32_4;
    result.u32_5 = v3.u32_5;
    return result;
}

/* c2_session::Session::next_act */
static c2_session__Point c2_session__Session__next_act(const c2_session__Session *a1,
    const c2_session__At *a2)
{
    c2_session__Point result;
    uint64_t v3;
    uint64_t v4;
    uint32_t v5;
    c2_acts__Stage v6;
    uint64_t v7;
    _Bool v8;
    c2_session__Point v9;
    uint32_t v10;
    c2_acts__Stage v11;
    uint32_t v12;
    uint32_t v13;
    c2_session__At v14;
    v3 = (uint64_t)a2->f3;
    v4 = v3 + UINT64_C(1);
    v6 = a2->f0;
    v5 = c2_acts__acts_in(v6);
    v7 = (uint64_t)v5;
    v8 = v4 < v7;
    if (v8) {
        v10 = (uint32_t)(a2->f3 + UINT32_C(1));
        v11 = a2->f0;
        v12 = a2->f1;
        v13 = a2->f2;
        v14.f0 = v11;
        v14.f1 = v12;
        v14.f2 = v13;
        v14.f3 = v10;
        v9 = c2_session__next__first_strobe(&v14);
    } else {
        v9 = c2_session__Session__next_stage(a1, a2);
    }
    result.tag = v9.tag;
    result.c2_acts__Stage_0 = v9.c2_acts__Stage_0;
    result.u32_0 = v9.u32_0;
    result.u32_1 = v9.u32_1;
    result.u32_2 = v9.u32_2;
    result.u32_3 = v9.u32_3;
    result.u32_4 = v9.u32_4;
    result.u32_5 = v9.u32_5;
    return result;
}

/* c2_session::Session::passed */
static c2_session__Point c2_session__Session__passed(const c2_session__Session *a1, _Bool a2,
    const c2_session__At *a3, const c2_session__Point *a4)
{
    c2_session__Point result;
    _Bool v5;
    c2_session__Point v6;
    v5 = a2;
    if (v5) {
        v6 = c2_session__Session__next_act(a1, a3);
    } else {
        v6.tag = a4->tag;
        v6.c2_acts__Stage_0 = a4->c2_acts__Stage_0;
        v6.u32_0 = a4->u32_0;
        v6.u32_1 = a4->u32_1;
        v6.u32_2 = a4->u32_2;
        v6.u32_3 = a4->u32_3;
        v6.u32_4 = a4->u32_4;
        v6.u32_5 = a4->u32_5;
    }
    result.tag = v6.tag;
    result.c2_acts__Stage_0 = v6.c2_acts__Stage_0;
    result.u32_0 = v6.u32_0;
    result.u32_1 = v6.u32_1;
    result.u32_2 = v6.u32_2;
    result.u32_3 = v6.u32_3;
    result.u32_4 = v6.u32_4;
    result.u32_5 = v6.u32_5;
    return result;
}

/* c2_session::Session::compared */
static c2_session__Point c2_session__Session__compared(const c2_session__Session *a1,
    const c2_session__At *a2, uint32_t a3, slice_u8 a4)
{
    c2_session__Point result;
    uint64_t v5;
    _Bool v6;
    uint32_t v7;
    uint8_t v8;
    c2_session__Point v9;
    uint64_t v10;
    v5 = c2_session__Session__byte_offset(a1, a2, UINT32_C(14));
    v8 = c2_session__bytes__image_byte(a4, v5);
    v7 = core__convert__U32FromU8__from(v8);
    v6 = a3 == v7;
    v10 = v5 % UINT64_C(4294967296);
    v7 = (uint32_t)v10;
    v9 = c2_session__next__end_with(UINT32_C(14), v7);
    result = c2_session__Session__passed(a1, v6, a2, &v9);
    return result;
}

/* c2_session::judge::read_again */
static c2_session__Point c2_session__judge__read_again(const c2_session__At *a1, uint32_t a2)
{
    c2_session__Point result;
    c2_session__Point v3;
    _Bool v4;
    uint32_t v5;
    _Bool v6;
    uint32_t v7;
    c2_wire__Place v8;
    v4 = a2 < UINT32_C(256);
    if (v4) {
        v5 = (uint32_t)(a2 + UINT32_C(1));
        v4 = v5 < UINT32_C(256);
        v6 = v4;
        if (v6) {
            v7 = (uint32_t)(a2 + UINT32_C(1));
            v8.f0 = UINT32_C(0);
            v8.f1 = v7;
            v8.f2 = UINT32_C(0);
            v3 = c2_session__next__strobe_point(a1, &v8);
            goto end1;
        }
    }
    v3 = c2_session__next__end_point(UINT32_C(11));
    end1:;
    result.tag = v3.tag;
    result.c2_acts__Stage_0 = v3.c2_acts__Stage_0;
    result.u32_0 = v3.u32_0;
    result.u32_1 = v3.u32_1;
    result.u32_2 = v3.u32_2;
    result.u32_3 = v3.u32_3;
    result.u32_4 = v3.u32_4;
    result.u32_5 = v3.u32_5;
    return result;
}

/* c2_session::Session::frame_judged */
static c2_session__Point c2_session__Session__frame_judged(const c2_session__Session *a1, c2_acts__Task a2,
    const c2_session__At *a3, uint32_t a4, uint32_t a5, slice_u8 a6)
{
    c2_session__Point result;
    c2_session__Point v7;
    uint32_t v8;
    uint32_t v9;
    _Bool v10;
    c2_session__Point v11;
    uint32_t v12;
    _Bool v13;
    c2_session__Point v14;
    _Bool v15;
    c2_session__Point v16;
    uint32_t v17;
    _Bool v18;
    c2_session__Point v19;
    switch (a2) {
    case 4u:
        v8 = (uint32_t)(a5 / UINT32_C(2));
        v9 = (uint32_t)(v8 % UINT32_C(2));
        v10 = v9 == UINT32_C(0);
        v11 = c2_session__judge__read_again(a3, a4);
        v7 = c2_session__Session__passed(a1, v10, a3, &v11);
        break;
    case 5u:
        v12 = (uint32_t)(a5 % UINT32_C(2));
        v13 = v12 == UINT32_C(1);
        v14 = c2_session__judge__read_again(a3, a4);
        v7 = c2_session__Session__passed(a1, v13, a3, &v14);
        break;
    case 7u:
        v15 = a5 == UINT32_C(13);
        v16 = c2_session__next__end_point(UINT32_C(13));
        v7 = c2_session__Session__passed(a1, v15, a3, &v16);
        break;
    case 6u:
        v17 = core__convert__U32FromU8__from(a1->f0.device_id);
        v18 = a5 == v17;
        v19 = c2_session__next__end_point(UINT32_C(12));
        v7 = c2_session__Session__passed(a1, v18, a3, &v19);
        break;
    case 8u:
        v7 = c2_session__Session__compared(a1, a3, a5, a6);
        break;
    default: /* 0, 1, 2, 3 */
        v7 = c2_session__Session__next_act(a1, a3);
        break;
    }
    result.tag = v7.tag;
    result.c2_acts__Stage_0 = v7.c2_acts__Stage_0;
    result.u32_0 = v7.u32_0;
    result.u32_1 = v7.u32_1;
    result.u32_2 = v7.u32_2;
    result.u32_3 = v7.u32_3;
    result.u32_4 = v7.u32_4;
    result.u32_5 = v7.u32_5;
    return result;
}

/* c2_session::Session::frame_answered */
static c2_session__Point c2_session__Session__frame_answered(const c2_session__Session *a1,
    const c2_wire__Moved *a2, c2_acts__Task a3, const c2_session__At *a4, uint32_t a5, slice_u8 a6)
{
    c2_session__Point result;
    c2_wire__Place v7;
    uint32_t v8;
    c2_session__Point v9;
    switch (a2->tag) {
    case 0u:
        v7.f0 = a2->c2_wire__Place_0.f0;
        v7.f1 = a2->c2_wire__Place_0.f1;
        v7.f2 = a2->c2_wire__Place_0.f2;
        v9 = c2_session__next__strobe_point(a4, &v7);
        break;
    case 1u:
        v8 = a2->u32_0;
        v9 = c2_session__Session__frame_judged(a1, a3, a4, a5, v8, a6);
        break;
    default: /* 2 */
        v9 = c2_session__next__end_point(UINT32_C(10));
        break;
    }
    result.tag = v9.tag;
    result.c2_acts__Stage_0 = v9.c2_acts__Stage_0;
    result.u32_0 = v9.u32_0;
    result.u32_1 = v9.u32_1;
    result.u32_2 = v9.u32_2;
    result.u32_3 = v9.u32_3;
    result.u32_4 = v9.u32_4;
    result.u32_5 = v9.u32_5;
    return result;
}

/* c2_wire::script::script_after */
static uint64_t c2_wire__script__script_after(uint64_t a1, uint32_t a2, uint32_t a3)
{
    uint64_t result;
    _Bool v4;
    uint64_t v5;
    v4 = a3 == a2;
    if (v4) {
        v5 = a1;
    } else {
        v5 = a1 / UINT64_C(16);
    }
    result = v5;
    return result;
}

/* c2_session::run::script_left */
static uint64_t c2_session__run__script_left(const c2_wire__Moved *a1, uint64_t a2, uint32_t a3)
{
    uint64_t result;
    c2_wire__Place v4;
    uint64_t v5;
    switch (a1->tag) {
    case 0u:
        v4.f0 = a1->c2_wire__Place_0.f0;
        v4.f1 = a1->c2_wire__Place_0.f1;
        v4.f2 = a1->c2_wire__Place_0.f2;
        v5 = c2_wire__script__script_after(a2, a3, v4.f0);
        break;
    default: /* 1, 2 */
        v5 = UINT64_C(0);
        break;
    }
    result = v5;
    return result;
}

/* c2_session::Runner::settled */
static c2_session__Runner c2_session__Runner__settled(const c2_session__Runner *a1,
    const c2_session__Session *a2, const c2_wire__Moved *a3, const c2_session__At *a4,
    const c2_wire__Place *a5, slice_u8 a6)
{
    c2_session__Runner result;
    c2_session__Point v7;
    c2_acts__Task v8;
    uint64_t v9;
    c2_acts__Task v10;
    v8 = a1->f1;
    v7 = c2_session__Session__frame_answered(a2, a3, v8, a4, a5->f1, a6);
    v9 = c2_session__run__script_left(a3, a1->f2, a5->f0);
    v10 = a1->f1;
    result.f0.tag = v7.tag;
    result.f0.c2_acts__Stage_0 = v7.c2_acts__Stage_0;
    result.f0.u32_0 = v7.u32_0;
    result.f0.u32_1 = v7.u32_1;
    result.f0.u32_2 = v7.u32_2;
    result.f0.u32_3 = v7.u32_3;
    result.f0.u32_4 = v7.u32_4;
    result.f0.u32_5 = v7.u32_5;
    result.f1 = v10;
    result.f2 = v9;
    return result;
}

/* c2_wire::Place::passed */
static c2_wire__Moved c2_wire__Place__passed(const c2_wire__Place *a1)
{
    c2_wire__Moved result;
    uint32_t v2;
    uint32_t v3;
    uint32_t v4;
    c2_wire__Place v5;
    v2 = (uint32_t)(a1->f0 + UINT32_C(1));
    v3 = a1->f1;
    v4 = a1->f2;
    v5.f0 = v2;
    v5.f1 = v3;
    v5.f2 = v4;
    result.tag = 0u;
    result.c2_wire__Place_0.f0 = v5.f0;
    result.c2_wire__Place_0.f1 = v5.f1;
    result.c2_wire__Place_0.f2 = v5.f2;
    result.u32_0 = 0;
    return result;
}

/* core::convert::others::U32FromBool::from */
INLINED uint32_t core__convert__others__U32FromBool__from(_Bool a1)
{
    uint32_t result;
    result = (uint32_t)a1;
    return result;
}

/* c2_wire::replies::weight */
static uint32_t c2_wire__replies__weight(uint32_t a1, _Bool a2)
{
    uint32_t result;
    uint32_t v3;
    v3 = core__convert__others__U32FromBool__from(a2);
    result = (uint32_t)(v3 << a1);
    return result;
}

/* c2_wire::Place::sampled */
static c2_wire__Moved c2_wire__Place__sampled(const c2_wire__Place *a1, uint32_t a2, _Bool a3)
{
    c2_wire__Moved result;
    uint32_t v4;
    uint32_t v5;
    uint32_t v6;
    uint32_t v7;
    uint32_t v8;
    uint32_t v9;
    c2_wire__Place v10;
    v4 = (uint32_t)(a1->f0 + UINT32_C(1));
    v5 = (uint32_t)(a1->f2 % UINT32_C(256));
    v6 = c2_wire__replies__weight(a2, a3);
    v7 = (uint32_t)(v5 + v6);
    v8 = (uint32_t)(v7 % UINT32_C(256));
    v9 = a1->f1;
    v10.f0 = v4;
    v10.f1 = v9;
    v10.f2 = v8;
    result.tag = 0u;
    result.c2_wire__Place_0.f0 = v10.f0;
    result.c2_wire__Place_0.f1 = v10.f1;
    result.c2_wire__Place_0.f2 = v10.f2;
    result.u32_0 = 0;
    return result;
}

/* c2_wire::Place::waited */
static c2_wire__Moved c2_wire__Place__waited(const c2_wire__Place *a1, uint32_t a2)
{
    c2_wire__Moved result;
    uint32_t v3;
    c2_wire__Moved v4;
    _Bool v5;
    uint32_t v6;
    _Bool v7;
    uint32_t v8;
    uint32_t v9;
    uint32_t v10;
    c2_wire__Place v11;
    v3 = a1->f1;
    v5 = v3 < a2;
    if (v5) {
        v6 = (uint32_t)(v3 + UINT32_C(1));
        v5 = v6 < a2;
        v7 = v5;
        if (v7) {
            v8 = (uint32_t)(v3 + UINT32_C(1));
            v9 = a1->f0;
            v10 = a1->f2;
            v11.f0 = v9;
            v11.f1 = v8;
            v11.f2 = v10;
            v4.tag = 0u;
            v4.c2_wire__Place_0.f0 = v11.f0;
            v4.c2_wire__Place_0.f1 = v11.f1;
            v4.c2_wire__Place_0.f2 = v11.f2;
            v4.u32_0 = 0;
            goto end1;
        }
    }
    v4.tag = 2u;
    v4.c2_wire__Place_0.f0 = 0;
    v4.c2_wire__Place_0.f1 = 0;
    v4.c2_wire__Place_0.f2 = 0;
    v4.u32_0 = 0;
    end1:;
    result.tag = v4.tag;
    result.c2_wire__Place_0.f0 = v4.c2_wire__Place_0.f0;
    result.c2_wire__Place_0.f1 = v4.c2_wire__Place_0.f1;
    result.c2_wire__Place_0.f2 = v4.c2_wire__Place_0.f2;
    result.u32_0 = v4.u32_0;
    return result;
}

/* c2_wire::Place::wait_answered */
static c2_wire__Moved c2_wire__Place__wait_answered(const c2_wire__Place *a1, _Bool a2, uint32_t a3)
{
    c2_wire__Moved result;
    _Bool v4;
    c2_wire__Moved v5;
    uint32_t v6;
    uint32_t v7;
    c2_wire__Place v8;
    v4 = a2;
    if (v4) {
        v6 = (uint32_t)(a1->f0 + UINT32_C(1));
        v7 = a1->f2;
        v8.f0 = v6;
        v8.f1 = UINT32_C(0);
        v8.f2 = v7;
        v5.tag = 0u;
        v5.c2_wire__Place_0.f0 = v8.f0;
        v5.c2_wire__Place_0.f1 = v8.f1;
        v5.c2_wire__Place_0.f2 = v8.f2;
        v5.u32_0 = 0;
    } else {
        v5 = c2_wire__Place__waited(a1, a3);
    }
    result.tag = v5.tag;
    result.c2_wire__Place_0.f0 = v5.c2_wire__Place_0.f0;
    result.c2_wire__Place_0.f1 = v5.c2_wire__Place_0.f1;
    result.c2_wire__Place_0.f2 = v5.c2_wire__Place_0.f2;
    result.u32_0 = v5.u32_0;
    return result;
}

/* c2_wire::replies::follow */
static c2_wire__Moved c2_wire__replies__follow(uint64_t a1, const c2_wire__Place *a2, _Bool a3, uint32_t a4)
{
    c2_wire__Moved result;
    uint64_t v5;
    _Bool v6;
    c2_wire__Moved v7;
    _Bool v8;
    uint64_t v9;
    uint32_t v10;
    v6 = UINT32_C(14) <= a2->f0;
    if (v6) {
        result.tag = 1u;
        result.u32_0 = a2->f2;
        result.c2_wire__Place_0.f0 = 0;
        result.c2_wire__Place_0.f1 = 0;
        result.c2_wire__Place_0.f2 = 0;
        return result;
    }
    v5 = a1 % UINT64_C(16);
    switch (v5) {
    case 6u:
        v7 = c2_wire__Place__wait_answered(a2, a3, a4);
        break;
    default:
        v8 = v5 < UINT64_C(4);
        if (v8) {
            v7 = c2_wire__Place__passed(a2);
            goto end1;
        }
        v8 = v5 < UINT64_C(8);
        if (v8) {
            goto end2;
        }
        v8 = v5 < UINT64_C(16);
        if (v8) {
            v9 = v5 - UINT64_C(8);
            v10 = (uint32_t)v9;
            v7 = c2_wire__Place__sampled(a2, v10, a3);
            goto end1;
        }
        goto end2;
        end2:;
        v7.tag = 1u;
        v7.u32_0 = a2->f2;
        v7.c2_wire__Place_0.f0 = 0;
        v7.c2_wire__Place_0.f1 = 0;
        v7.c2_wire__Place_0.f2 = 0;
        end1:;
        break;
    }
    result.tag = v7.tag;
    result.c2_wire__Place_0.f0 = v7.c2_wire__Place_0.f0;
    result.c2_wire__Place_0.f1 = v7.c2_wire__Place_0.f1;
    result.c2_wire__Place_0.f2 = v7.c2_wire__Place_0.f2;
    result.u32_0 = v7.u32_0;
    return result;
}

/* c2_session::Runner::replied */
static c2_session__Runner c2_session__Runner__replied(const c2_session__Runner *a1,
    const c2_session__Session *a2, const c2_session__At *a3, const c2_wire__Place *a4, uint8_t a5,
    slice_u8 a6)
{
    c2_session__Runner result;
    uint32_t v7;
    c2_wire__Moved v8;
    _Bool v9;
    c2_session__Point v10;
    c2_acts__Task v11;
    v9 = 1u < a5;
    if (v9) {
        v10 = c2_session__next__end_point(UINT32_C(9));
        v11 = a1->f1;
        result.f0.tag = v10.tag;
        result.f0.c2_acts__Stage_0 = v10.c2_acts__Stage_0;
        result.f0.u32_0 = v10.u32_0;
        result.f0.u32_1 = v10.u32_1;
        result.f0.u32_2 = v10.u32_2;
        result.f0.u32_3 = v10.u32_3;
        result.f0.u32_4 = v10.u32_4;
        result.f0.u32_5 = v10.u32_5;
        result.f1 = v11;
        result.f2 = UINT64_C(0);
        return result;
    }
    v7 = core__convert__U32FromU8__from(a2->f0.wait_limit);
    v9 = a5 == 1u;
    v8 = c2_wire__replies__follow(a1->f2, a4, v9, v7);
    result = c2_session__Runner__settled(a1, a2, &v8, a3, a4, a6);
    return result;
}

/* c2_session::Runner::advance */
static c2_session__Runner c2_session__Runner__advance(const c2_session__Runner *a1,
    const c2_session__Session *a2, uint8_t a3, slice_u8 a4)
{
    c2_session__Runner result;
    c2_acts__Stage v5;
    uint32_t v6;
    uint32_t v7;
    uint32_t v8;
    uint32_t v9;
    uint32_t v10;
    uint32_t v11;
    c2_session__At v12;
    c2_wire__Place v13;
    c2_session__Runner v14;
    c2_session__Runner v15;
    c2_session__Point v16;
    c2_acts__Task v17;
    switch (a1->f0.tag) {
    case 0u:
        v5 = a1->f0.c2_acts__Stage_0;
        v6 = a1->f0.u32_0;
        v7 = a1->f0.u32_1;
        v8 = a1->f0.u32_2;
        v9 = a1->f0.u32_3;
        v10 = a1->f0.u32_4;
        v11 = a1->f0.u32_5;
        v12.f0 = v5;
        v12.f1 = v6;
        v12.f2 = v7;
        v12.f3 = v8;
        v13.f0 = v9;
        v13.f1 = v10;
        v13.f2 = v11;
        v15 = c2_session__Runner__informed(a1, a2, &v12, v9, a4);
        v14 = c2_session__Runner__replied(&v15, a2, &v12, &v13, a3, a4);
        break;
    default: /* 1 */
        v16.tag = a1->f0.tag;
        v16.c2_acts__Stage_0 = a1->f0.c2_acts__Stage_0;
        v16.u32_0 = a1->f0.u32_0;
        v16.u32_1 = a1->f0.u32_1;
        v16.u32_2 = a1->f0.u32_2;
        v16.u32_3 = a1->f0.u32_3;
        v16.u32_4 = a1->f0.u32_4;
        v16.u32_5 = a1->f0.u32_5;
        v17 = a1->f1;
        v14.f0.tag = v16.tag;
        v14.f0.c2_acts__Stage_0 = v16.c2_acts__Stage_0;
        v14.f0.u32_0 = v16.u32_0;
        v14.f0.u32_1 = v16.u32_1;
        v14.f0.u32_2 = v16.u32_2;
        v14.f0.u32_3 = v16.u32_3;
        v14.f0.u32_4 = v16.u32_4;
        v14.f0.u32_5 = v16.u32_5;
        v14.f1 = v17;
        v14.f2 = UINT64_C(0);
        break;
    }
    result.f0.tag = v14.f0.tag;
    result.f0.c2_acts__Stage_0 = v14.f0.c2_acts__Stage_0;
    result.f0.u32_0 = v14.f0.u32_0;
    result.f0.u32_1 = v14.f0.u32_1;
    result.f0.u32_2 = v14.f0.u32_2;
    result.f0.u32_3 = v14.f0.u32_3;
    result.f0.u32_4 = v14.f0.u32_4;
    result.f0.u32_5 = v14.f0.u32_5;
    result.f1 = v14.f1;
    result.f2 = v14.f2;
    return result;
}

/* c2_session::script::alone */
static uint8_t c2_session__script__alone(c2_acts__Task a1)
{
    uint8_t result;
    uint8_t v2;
    switch (a1) {
    case 0u:
        v2 = 4u;
        break;
    case 1u:
        v2 = 5u;
        break;
    default: /* 2, 3, 4, 5, 6, 7, 8 */
        v2 = 0u;
        break;
    }
    result = v2;
    return result;
}

/* c2_session::script::first_step */
static uint8_t c2_session__script__first_step(c2_acts__Stage a1, uint32_t a2)
{
    uint8_t result;
    c2_acts__Task v3;
    v3 = c2_acts__task_of(a1, a2);
    result = c2_session__script__alone(v3);
    return result;
}

/* c2_wire::script::step */
static uint8_t c2_wire__script__step(uint64_t a1)
{
    uint8_t result;
    uint64_t v2;
    _Bool v3;
    uint8_t v4;
    v2 = a1 % UINT64_C(16);
    v3 = v2 < UINT64_C(6);
    if (v3) {
        v4 = (uint8_t)v2;
    } else {
        v4 = 0u;
    }
    result = v4;
    return result;
}

/* c2_session::Runner::step */
static uint8_t c2_session__Runner__step(const c2_session__Runner *a1)
{
    uint8_t result;
    c2_acts__Stage v2;
    uint32_t v3;
    uint8_t v4;
    switch (a1->f0.tag) {
    case 0u:
        switch (a1->f0.u32_3) {
        case 0u:
            v2 = a1->f0.c2_acts__Stage_0;
            v3 = a1->f0.u32_2;
            v4 = c2_session__script__first_step(v2, v3);
            break;
        default:
            v4 = c2_wire__script__step(a1->f2);
            break;
        }
        break;
    default: /* 1 */
        v4 = 6u;
        break;
    }
    result = v4;
    return result;
}

/* c2_session::run::set_off */
static c2_session__Runner c2_session__run__set_off(const c2_session__Point *a1)
{
    c2_session__Runner result;
    c2_acts__Task v2;
    v2 = 0u;
    result.f0.tag = a1->tag;
    result.f0.c2_acts__Stage_0 = a1->c2_acts__Stage_0;
    result.f0.u32_0 = a1->u32_0;
    result.f0.u32_1 = a1->u32_1;
    result.f0.u32_2 = a1->u32_2;
    result.f0.u32_3 = a1->u32_3;
    result.f0.u32_4 = a1->u32_4;
    result.f0.u32_5 = a1->u32_5;
    result.f1 = v2;
    result.f2 = UINT64_C(0);
    return result;
}

/* c2::advance::run */
static c2__Ran c2__advance__run(const c2_session__Session *a1, slice_u8 a2, slice_u8 a3, slice_mut_u8 a4)
{
    c2__Ran result;
    c2_session__Runner v5;
    uint64_t v6;
    const uint8_t *v7;
    c2_session__Point v8;
    uint64_t v9;
    _Bool v10;
    const uint8_t *v11;
    _Bool v12;
    c2_session__Point v13;
    _Bool v14;
    c2_session__Point v15;
    uint8_t v16;
    uint8_t *v17;
    c2_session__Point v18;
    uint64_t v19;
    v8.tag = a1->f3.tag;
    v8.c2_acts__Stage_0 = a1->f3.c2_acts__Stage_0;
    v8.u32_0 = a1->f3.u32_0;
    v8.u32_1 = a1->f3.u32_1;
    v8.u32_2 = a1->f3.u32_2;
    v8.u32_3 = a1->f3.u32_3;
    v8.u32_4 = a1->f3.u32_4;
    v8.u32_5 = a1->f3.u32_5;
    v5 = c2_session__run__set_off(&v8);
    v6 = UINT64_C(0);
    v9 = a3.length;
    for (;;) {
        v10 = v6 < v9;
        if (!v10) {
            break;
        }
        v11 = a3.at + (size_t)v6;
        v7 = v11;
        v13.tag = v5.f0.tag;
        v13.c2_acts__Stage_0 = v5.f0.c2_acts__Stage_0;
        v13.u32_0 = v5.f0.u32_0;
        v13.u32_1 = v5.f0.u32_1;
        v13.u32_2 = v5.f0.u32_2;
        v13.u32_3 = v5.f0.u32_3;
        v13.u32_4 = v5.f0.u32_4;
        v13.u32_5 = v5.f0.u32_5;
        v12 = c2_outcome__is_running(&v13);
        v14 = !v12;
        if (v14) {
            v15.tag = v5.f0.tag;
            v15.c2_acts__Stage_0 = v5.f0.c2_acts__Stage_0;
            v15.u32_0 = v5.f0.u32_0;
            v15.u32_1 = v5.f0.u32_1;
            v15.u32_2 = v5.f0.u32_2;
            v15.u32_3 = v5.f0.u32_3;
            v15.u32_4 = v5.f0.u32_4;
            v15.u32_5 = v5.f0.u32_5;
            result.f0.tag = v15.tag;
            result.f0.c2_acts__Stage_0 = v15.c2_acts__Stage_0;
            result.f0.u32_0 = v15.u32_0;
            result.f0.u32_1 = v15.u32_1;
            result.f0.u32_2 = v15.u32_2;
            result.f0.u32_3 = v15.u32_3;
            result.f0.u32_4 = v15.u32_4;
            result.f0.u32_5 = v15.u32_5;
            result.f1 = v6;
            return result;
        }
        v16 = *v7;
        v5 = c2_session__Runner__advance(&v5, a1, v16, a2);
        v16 = c2_session__Runner__step(&v5);
        v17 = a4.at + (size_t)v6;
        *v17 = v16;
        v6 = v6 + UINT64_C(1);
    }
    v18.tag = v5.f0.tag;
    v18.c2_acts__Stage_0 = v5.f0.c2_acts__Stage_0;
    v18.u32_0 = v5.f0.u32_0;
    v18.u32_1 = v5.f0.u32_1;
    v18.u32_2 = v5.f0.u32_2;
    v18.u32_3 = v5.f0.u32_3;
    v18.u32_4 = v5.f0.u32_4;
    v18.u32_5 = v5.f0.u32_5;
    v19 = a3.length;
    result.f0.tag = v18.tag;
    result.f0.c2_acts__Stage_0 = v18.c2_acts__Stage_0;
    result.f0.u32_0 = v18.u32_0;
    result.f0.u32_1 = v18.u32_1;
    result.f0.u32_2 = v18.u32_2;
    result.f0.u32_3 = v18.u32_3;
    result.f0.u32_4 = v18.u32_4;
    result.f0.u32_5 = v18.u32_5;
    result.f1 = v19;
    return result;
}

/* core::Result::is_ok_unit_Refusal */
INLINED _Bool core__Result__is_ok_unit_Refusal(const core__Result_unit_Refusal *a1)
{
    _Bool result;
    _Bool v2;
    switch (a1->tag) {
    case 0u:
        v2 = 1;
        break;
    default: /* 1 */
        v2 = 0;
        break;
    }
    result = v2;
    return result;
}

/* settings::registers::named_or_0 */
static _Bool settings__registers__named_or_0(_Bool a1, uint8_t a2, uint8_t a3)
{
    _Bool result;
    _Bool v4;
    _Bool v5;
    v4 = a1;
    if (!v4) {
        v5 = a2 == 0u;
        if (v5) {
            v5 = a3 == 0u;
        }
        v4 = v5;
    }
    result = v4;
    return result;
}

/* settings::registers::is_tidy */
static _Bool settings__registers__is_tidy(const c2_pairs *a1)
{
    _Bool result;
    c2_pairs v2;
    _Bool v3;
    _Bool v4;
    _Bool v5;
    uint8_t v6;
    _Bool v7;
    const uint8_t *v8;
    const uint8_t *v9;
    uint8_t v10;
    const uint8_t *v11;
    const uint8_t *v12;
    uint8_t v13;
    uint8_t v14;
    _Bool v15;
    const uint8_t *v16;
    const uint8_t *v17;
    uint8_t v18;
    const uint8_t *v19;
    const uint8_t *v20;
    uint8_t v21;
    uint8_t v22;
    _Bool v23;
    const uint8_t *v24;
    const uint8_t *v25;
    uint8_t v26;
    const uint8_t *v27;
    const uint8_t *v28;
    uint8_t v29;
    uint8_t v30;
    _Bool v31;
    const uint8_t *v32;
    const uint8_t *v33;
    uint8_t v34;
    const uint8_t *v35;
    const uint8_t *v36;
    uint8_t v37;
    v2.count = a1->count;
    v2.registers[0] = a1->registers[0];
    v2.registers[1] = a1->registers[1];
    v2.registers[2] = a1->registers[2];
    v2.registers[3] = a1->registers[3];
    v2.values[0] = a1->values[0];
    v2.values[1] = a1->values[1];
    v2.values[2] = a1->values[2];
    v2.values[3] = a1->values[3];
    v6 = v2.count;
    v7 = 0u < v6;
    v8 = v2.registers;
    v9 = v8 + (size_t)UINT64_C(0);
    v10 = *v9;
    v11 = v2.values;
    v12 = v11 + (size_t)UINT64_C(0);
    v13 = *v12;
    v5 = settings__registers__named_or_0(v7, v10, v13);
    if (v5) {
        v14 = v2.count;
        v15 = 1u < v14;
        v16 = v2.registers;
        v17 = v16 + (size_t)UINT64_C(1);
        v18 = *v17;
        v19 = v2.values;
        v20 = v19 + (size_t)UINT64_C(1);
        v21 = *v20;
        v5 = settings__registers__named_or_0(v15, v18, v21);
    }
    v4 = v5;
    if (v4) {
        v22 = v2.count;
        v23 = 2u < v22;
        v24 = v2.registers;
        v25 = v24 + (size_t)UINT64_C(2);
        v26 = *v25;
        v27 = v2.values;
        v28 = v27 + (size_t)UINT64_C(2);
        v29 = *v28;
        v4 = settings__registers__named_or_0(v23, v26, v29);
    }
    v3 = v4;
    if (v3) {
        v30 = v2.count;
        v31 = 3u < v30;
        v32 = v2.registers;
        v33 = v32 + (size_t)UINT64_C(3);
        v34 = *v33;
        v35 = v2.values;
        v36 = v35 + (size_t)UINT64_C(3);
        v37 = *v36;
        v3 = settings__registers__named_or_0(v31, v34, v37);
    }
    result = v3;
    return result;
}

/* c2_range::range::opening_in_range */
static _Bool c2_range__range__opening_in_range(const c2_settings *a1, uint16_t a2, uint16_t a3)
{
    _Bool result;
    _Bool v4;
    _Bool v5;
    _Bool v6;
    uint32_t v7;
    uint32_t v8;
    uint32_t v9;
    core__Result_unit_Refusal v10;
    core__Result_unit_Refusal v11;
    const core__Result_unit_Refusal *v12;
    c2_pairs v13;
    v6 = a3 != 0u;
    if (v6) {
        v7 = core__convert__U32FromU16__from(a2);
        v8 = core__convert__U32FromU16__from(a3);
        v9 = (uint32_t)(v7 + v8);
        v6 = v9 <= a1->page_count;
    }
    v5 = v6;
    if (v5) {
        v10 = settings__accepted__refusal(a1);
        v11.tag = v10.tag;
        v11.numbers__Refusal_0 = v10.numbers__Refusal_0;
        v12 = &v11;
        v5 = core__Result__is_ok_unit_Refusal(v12);
    }
    v4 = v5;
    if (v4) {
        v13.count = a1->pairs.count;
        v13.registers[0] = a1->pairs.registers[0];
        v13.registers[1] = a1->pairs.registers[1];
        v13.registers[2] = a1->pairs.registers[2];
        v13.registers[3] = a1->pairs.registers[3];
        v13.values[0] = a1->pairs.values[0];
        v13.values[1] = a1->pairs.values[1];
        v13.values[2] = a1->pairs.values[2];
        v13.values[3] = a1->pairs.values[3];
        v4 = settings__registers__is_tidy(&v13);
    }
    result = v4;
    return result;
}

/* c2_range::range::ends_session */
static _Bool c2_range__range__ends_session(uint32_t a1)
{
    _Bool result;
    _Bool v2;
    _Bool v3;
    switch (a1) {
    case 32u:
        goto end2;
    default:
        v3 = a1 < UINT32_C(9);
        if (v3) {
            goto end3;
        }
        v3 = a1 < UINT32_C(15);
        if (v3) {
            goto end2;
        }
        goto end3;
        end3:;
        v2 = 0;
        goto end1;
    }
    end2:;
    v2 = 1;
    end1:;
    result = v2;
    return result;
}

/* c2_range::range::offsets_of */
static uint64_t c2_range__range__offsets_of(uint32_t a1, uint64_t a2)
{
    uint64_t result;
    _Bool v3;
    uint64_t v4;
    v3 = a1 == UINT32_C(14);
    if (v3) {
        v4 = a2;
    } else {
        v4 = UINT64_C(1);
    }
    result = v4;
    return result;
}

/* c2_range::range::ended_in_range */
static _Bool c2_range__range__ended_in_range(uint64_t a1, uint32_t a2, uint32_t a3)
{
    _Bool result;
    _Bool v4;
    uint64_t v5;
    uint64_t v6;
    v4 = c2_range__range__ends_session(a2);
    if (v4) {
        v5 = (uint64_t)a3;
        v6 = c2_range__range__offsets_of(a2, a1);
        v4 = v5 < v6;
    }
    result = v4;
    return result;
}

/* c2_range::bounds::Bounds::bits */
static uint32_t c2_range__bounds__Bounds__bits(const c2_range__bounds__Bounds *a1)
{
    uint32_t result;
    result = (uint32_t)(UINT32_C(1) << a1->f2);
    return result;
}

/* c2_range::bounds::limit_from */
static uint32_t c2_range__bounds__limit_from(uint32_t a1, uint32_t a2, uint32_t a3)
{
    uint32_t result;
    _Bool v4;
    uint32_t v5;
    v4 = a3 == a1;
    if (v4) {
        v5 = a2;
    } else {
        v5 = UINT32_C(1);
    }
    result = v5;
    return result;
}

/* c2_range::bounds::sampled_from */
static uint32_t c2_range__bounds__sampled_from(uint32_t a1, uint32_t a2)
{
    uint32_t result;
    uint32_t v3;
    v3 = core__int__u32__saturating_sub(a2, a1);
    result = core__int__u32__min(v3, UINT32_C(8));
    return result;
}

/* c2_range::bounds::bounds_of */
static c2_range__bounds__Bounds c2_range__bounds__bounds_of(uint32_t a1, uint32_t a2, c2_acts__Task a3,
    uint32_t a4)
{
    c2_range__bounds__Bounds result;
    c2_range__bounds__Bounds v5;
    uint32_t v6;
    uint32_t v7;
    uint32_t v8;
    uint32_t v9;
    switch (a3) {
    case 0u:
    case 1u:
        v5.f0 = UINT32_C(1);
        v5.f1 = UINT32_C(1);
        v5.f2 = UINT32_C(0);
        break;
    case 2u:
        v5.f0 = UINT32_C(12);
        v5.f1 = UINT32_C(1);
        v5.f2 = UINT32_C(0);
        break;
    case 3u:
        v6 = c2_range__bounds__limit_from(UINT32_C(13), a1, a4);
        v5.f0 = UINT32_C(15);
        v5.f1 = v6;
        v5.f2 = UINT32_C(0);
        break;
    case 4u:
    case 5u:
        v7 = c2_range__bounds__sampled_from(UINT32_C(3), a4);
        v5.f0 = UINT32_C(12);
        v5.f1 = a2;
        v5.f2 = v7;
        break;
    default: /* 6, 7, 8 */
        v8 = c2_range__bounds__limit_from(UINT32_C(5), a1, a4);
        v9 = c2_range__bounds__sampled_from(UINT32_C(6), a4);
        v5.f0 = UINT32_C(15);
        v5.f1 = v8;
        v5.f2 = v9;
        break;
    }
    result.f0 = v5.f0;
    result.f1 = v5.f1;
    result.f2 = v5.f2;
    return result;
}

/* c2_range::bounds::place_in_range */
static _Bool c2_range__bounds__place_in_range(uint32_t a1, uint32_t a2, c2_acts__Task a3,
    const c2_wire__Place *a4)
{
    _Bool result;
    c2_range__bounds__Bounds v5;
    _Bool v6;
    _Bool v7;
    uint32_t v8;
    v5 = c2_range__bounds__bounds_of(a1, a2, a3, a4->f0);
    v7 = a4->f0 < v5.f0;
    if (v7) {
        v7 = a4->f1 < v5.f1;
    }
    v6 = v7;
    if (v6) {
        v8 = c2_range__bounds__Bounds__bits(&v5);
        v6 = a4->f2 < v8;
    }
    result = v6;
    return result;
}

/* c2_range::bounds::inside */
static _Bool c2_range__bounds__inside(uint16_t a1, uint32_t a2, const c2_session__At *a3)
{
    _Bool result;
    _Bool v4;
    _Bool v5;
    uint32_t v6;
    uint32_t v7;
    c2_acts__Stage v8;
    v6 = core__convert__U32FromU16__from(a1);
    v5 = a3->f1 < v6;
    if (v5) {
        v5 = a3->f2 < a2;
    }
    v4 = v5;
    if (v4) {
        v8 = a3->f0;
        v7 = c2_acts__acts_in(v8);
        v4 = a3->f3 < v7;
    }
    result = v4;
    return result;
}

/* core::convert::U16FromU8::from */
INLINED uint16_t core__convert__U16FromU8__from(uint8_t a1)
{
    uint16_t result;
    result = (uint16_t)a1;
    return result;
}

/* c2_range::range::act_in_range */
static _Bool c2_range__range__act_in_range(uint32_t a1, uint8_t a2, uint16_t a3, const c2_session__At *a4)
{
    _Bool result;
    _Bool v5;
    uint32_t v6;
    uint16_t v7;
    switch (a4->f0) {
    case 0u:
    case 4u:
        v5 = c2_range__bounds__inside(1u, UINT32_C(1), a4);
        break;
    case 1u:
        v5 = c2_range__bounds__inside(a3, UINT32_C(1), a4);
        break;
    case 2u:
    case 3u:
        v6 = (uint32_t)(a1 / UINT32_C(256));
        v5 = c2_range__bounds__inside(a3, v6, a4);
        break;
    default: /* 5 */
        v7 = core__convert__U16FromU8__from(a2);
        v5 = c2_range__bounds__inside(v7, UINT32_C(1), a4);
        break;
    }
    result = v5;
    return result;
}

/* c2_range::range::running_in_range */
static _Bool c2_range__range__running_in_range(uint32_t a1, uint32_t a2, uint32_t a3, uint8_t a4, uint16_t a5,
    const c2_session__At *a6, const c2_wire__Place *a7)
{
    _Bool result;
    _Bool v8;
    c2_acts__Task v9;
    c2_acts__Stage v10;
    v8 = c2_range__range__act_in_range(a3, a4, a5, a6);
    if (v8) {
        v10 = a6->f0;
        v9 = c2_acts__task_of(v10, a6->f3);
        v8 = c2_range__bounds__place_in_range(a1, a2, v9, a7);
    }
    result = v8;
    return result;
}

/* c2_record::read::read_stage */
static c2_acts__Stage c2_record__read__read_stage(uint8_t a1)
{
    c2_acts__Stage result;
    c2_acts__Stage v2;
    switch (a1) {
    case 0u:
        v2 = 0u;
        break;
    case 1u:
        v2 = 1u;
        break;
    case 2u:
        v2 = 2u;
        break;
    case 3u:
        v2 = 3u;
        break;
    case 4u:
        v2 = 4u;
        break;
    default:
        v2 = 5u;
        break;
    }
    result = v2;
    return result;
}

/* core::int::u16::from_le_bytes */
INLINED uint16_t core__int__u16__from_le_bytes(array_2_u8 a1)
{
    uint16_t result;
    array_2_u8 v2;
    const uint8_t *v3;
    const uint8_t *v4;
    uint8_t v5;
    uint16_t v6;
    const uint8_t *v7;
    const uint8_t *v8;
    uint8_t v9;
    uint16_t v10;
    uint16_t v11;
    v2 = a1;
    v3 = v2.at;
    v4 = v3 + (size_t)UINT64_C(0);
    v5 = *v4;
    v6 = (uint16_t)v5;
    v7 = v2.at;
    v8 = v7 + (size_t)UINT64_C(1);
    v9 = *v8;
    v10 = (uint16_t)v9;
    v11 = (uint16_t)((unsigned)v10 * 256u);
    result = (uint16_t)((unsigned)v6 + v11);
    return result;
}

/* c2_record::words::two_bytes */
static uint32_t c2_record__words__two_bytes(uint8_t a1, uint8_t a2)
{
    uint32_t result;
    uint16_t v3;
    array_2_u8 v4;
    v4.at[0] = a1;
    v4.at[1] = a2;
    v3 = core__int__u16__from_le_bytes(v4);
    result = core__convert__U32FromU16__from(v3);
    return result;
}

/* c2_record::read::read_act */
static c2_session__At c2_record__read__read_act(const uint8_t *a1)
{
    c2_session__At result;
    c2_acts__Stage v2;
    const uint8_t *v3;
    const uint8_t *v4;
    uint8_t v5;
    uint32_t v6;
    const uint8_t *v7;
    const uint8_t *v8;
    uint8_t v9;
    uint32_t v10;
    const uint8_t *v11;
    const uint8_t *v12;
    uint8_t v13;
    uint32_t v14;
    const uint8_t *v15;
    const uint8_t *v16;
    uint8_t v17;
    const uint8_t *v18;
    const uint8_t *v19;
    uint8_t v20;
    v3 = a1;
    v4 = v3 + (size_t)UINT64_C(10);
    v5 = *v4;
    v2 = c2_record__read__read_stage(v5);
    v7 = a1;
    v8 = v7 + (size_t)UINT64_C(11);
    v9 = *v8;
    v6 = core__convert__U32FromU8__from(v9);
    v11 = a1;
    v12 = v11 + (size_t)UINT64_C(12);
    v13 = *v12;
    v10 = core__convert__U32FromU8__from(v13);
    v15 = a1;
    v16 = v15 + (size_t)UINT64_C(13);
    v17 = *v16;
    v18 = a1;
    v19 = v18 + (size_t)UINT64_C(14);
    v20 = *v19;
    v14 = c2_record__words__two_bytes(v17, v20);
    result.f0 = v2;
    result.f1 = v6;
    result.f2 = v10;
    result.f3 = v14;
    return result;
}

/* c2_record::read::read_place */
static c2_wire__Place c2_record__read__read_place(const uint8_t *a1)
{
    c2_wire__Place result;
    uint32_t v2;
    const uint8_t *v3;
    const uint8_t *v4;
    uint8_t v5;
    uint32_t v6;
    const uint8_t *v7;
    const uint8_t *v8;
    uint8_t v9;
    uint32_t v10;
    const uint8_t *v11;
    const uint8_t *v12;
    uint8_t v13;
    v3 = a1;
    v4 = v3 + (size_t)UINT64_C(15);
    v5 = *v4;
    v2 = core__convert__U32FromU8__from(v5);
    v7 = a1;
    v8 = v7 + (size_t)UINT64_C(16);
    v9 = *v8;
    v6 = core__convert__U32FromU8__from(v9);
    v11 = a1;
    v12 = v11 + (size_t)UINT64_C(17);
    v13 = *v12;
    v10 = core__convert__U32FromU8__from(v13);
    result.f0 = v2;
    result.f1 = v6;
    result.f2 = v10;
    return result;
}

/* c2_record::held::running_holds */
static _Bool c2_record__held__running_holds(const c2_settings *a1, uint16_t a2, const uint8_t *a3)
{
    _Bool result;
    _Bool v4;
    const uint8_t *v5;
    const uint8_t *v6;
    uint8_t v7;
    uint32_t v8;
    c2_session__At v9;
    c2_wire__Place v10;
    v5 = a3;
    v6 = v5 + (size_t)UINT64_C(10);
    v7 = *v6;
    v4 = v7 < 6u;
    if (v4) {
        v8 = core__convert__U32FromU8__from(a1->wait_limit);
        v9 = c2_record__read__read_act(a3);
        v10 = c2_record__read__read_place(a3);
        v4 = c2_range__range__running_in_range(v8, UINT32_C(256), a1->page_size, a1->pairs.count, a2, &v9, &v10);
    }
    result = v4;
    return result;
}

/* settings::opening::image_bytes */
static uint64_t settings__opening__image_bytes(uint32_t a1, uint16_t a2)
{
    uint64_t result;
    uint64_t v3;
    uint64_t v4;
    v3 = (uint64_t)a1;
    v4 = core__convert__UsizeFromU16__from(a2);
    result = v3 * v4;
    return result;
}

/* c2_record::held::point_holds */
static _Bool c2_record__held__point_holds(const c2_settings *a1, uint16_t a2, const uint8_t *a3)
{
    _Bool result;
    const uint8_t *v4;
    const uint8_t *v5;
    uint8_t v6;
    _Bool v7;
    _Bool v8;
    uint64_t v9;
    uint32_t v10;
    const uint8_t *v11;
    const uint8_t *v12;
    uint8_t v13;
    uint32_t v14;
    const uint8_t *v15;
    const uint8_t *v16;
    uint8_t v17;
    const uint8_t *v18;
    const uint8_t *v19;
    uint8_t v20;
    v4 = a3;
    v5 = v4 + (size_t)UINT64_C(7);
    v6 = *v5;
    v7 = v6 == 0u;
    if (v7) {
        v8 = c2_record__held__running_holds(a1, a2, a3);
    } else {
        v9 = settings__opening__image_bytes(a1->page_size, a2);
        v11 = a3;
        v12 = v11 + (size_t)UINT64_C(7);
        v13 = *v12;
        v10 = core__convert__U32FromU8__from(v13);
        v15 = a3;
        v16 = v15 + (size_t)UINT64_C(8);
        v17 = *v16;
        v18 = a3;
        v19 = v18 + (size_t)UINT64_C(9);
        v20 = *v19;
        v14 = c2_record__words__two_bytes(v17, v20);
        v8 = c2_range__range__ended_in_range(v9, v10, v14);
    }
    result = v8;
    return result;
}

/* c2_record::read::read_pairs */
static c2_pairs c2_record__read__read_pairs(const uint8_t *a1)
{
    c2_pairs result;
    const uint8_t *v2;
    const uint8_t *v3;
    uint8_t v4;
    const uint8_t *v5;
    const uint8_t *v6;
    uint8_t v7;
    const uint8_t *v8;
    const uint8_t *v9;
    uint8_t v10;
    const uint8_t *v11;
    const uint8_t *v12;
    uint8_t v13;
    const uint8_t *v14;
    const uint8_t *v15;
    uint8_t v16;
    array_4_u8 v17;
    const uint8_t *v18;
    const uint8_t *v19;
    uint8_t v20;
    const uint8_t *v21;
    const uint8_t *v22;
    uint8_t v23;
    const uint8_t *v24;
    const uint8_t *v25;
    uint8_t v26;
    const uint8_t *v27;
    const uint8_t *v28;
    uint8_t v29;
    array_4_u8 v30;
    v2 = a1;
    v3 = v2 + (size_t)UINT64_C(19);
    v4 = *v3;
    v5 = a1;
    v6 = v5 + (size_t)UINT64_C(20);
    v7 = *v6;
    v8 = a1;
    v9 = v8 + (size_t)UINT64_C(22);
    v10 = *v9;
    v11 = a1;
    v12 = v11 + (size_t)UINT64_C(24);
    v13 = *v12;
    v14 = a1;
    v15 = v14 + (size_t)UINT64_C(26);
    v16 = *v15;
    v17.at[0] = v7;
    v17.at[1] = v10;
    v17.at[2] = v13;
    v17.at[3] = v16;
    v18 = a1;
    v19 = v18 + (size_t)UINT64_C(21);
    v20 = *v19;
    v21 = a1;
    v22 = v21 + (size_t)UINT64_C(23);
    v23 = *v22;
    v24 = a1;
    v25 = v24 + (size_t)UINT64_C(25);
    v26 = *v25;
    v27 = a1;
    v28 = v27 + (size_t)UINT64_C(27);
    v29 = *v28;
    v30.at[0] = v20;
    v30.at[1] = v23;
    v30.at[2] = v26;
    v30.at[3] = v29;
    result.count = v4;
    result.registers[0] = v17.at[0];
    result.registers[1] = v17.at[1];
    result.registers[2] = v17.at[2];
    result.registers[3] = v17.at[3];
    result.values[0] = v30.at[0];
    result.values[1] = v30.at[1];
    result.values[2] = v30.at[2];
    result.values[3] = v30.at[3];
    return result;
}

/* c2_record::read::read_settings */
static c2_settings c2_record__read__read_settings(const uint8_t *a1)
{
    c2_settings result;
    const uint8_t *v2;
    const uint8_t *v3;
    uint8_t v4;
    const uint8_t *v5;
    const uint8_t *v6;
    uint8_t v7;
    uint32_t v8;
    const uint8_t *v9;
    const uint8_t *v10;
    uint8_t v11;
    const uint8_t *v12;
    const uint8_t *v13;
    uint8_t v14;
    uint32_t v15;
    const uint8_t *v16;
    const uint8_t *v17;
    uint8_t v18;
    const uint8_t *v19;
    const uint8_t *v20;
    uint8_t v21;
    c2_pairs v22;
    v2 = a1;
    v3 = v2 + (size_t)UINT64_C(0);
    v4 = *v3;
    v5 = a1;
    v6 = v5 + (size_t)UINT64_C(1);
    v7 = *v6;
    v9 = a1;
    v10 = v9 + (size_t)UINT64_C(2);
    v11 = *v10;
    v12 = a1;
    v13 = v12 + (size_t)UINT64_C(3);
    v14 = *v13;
    v8 = c2_record__words__two_bytes(v11, v14);
    v16 = a1;
    v17 = v16 + (size_t)UINT64_C(4);
    v18 = *v17;
    v15 = core__convert__U32FromU8__from(v18);
    v19 = a1;
    v20 = v19 + (size_t)UINT64_C(18);
    v21 = *v20;
    v22 = c2_record__read__read_pairs(a1);
    result.device_id = v4;
    result.fpdat = v7;
    result.page_size = v8;
    result.page_count = v15;
    result.wait_limit = v21;
    result.pairs.count = v22.count;
    result.pairs.registers[0] = v22.registers[0];
    result.pairs.registers[1] = v22.registers[1];
    result.pairs.registers[2] = v22.registers[2];
    result.pairs.registers[3] = v22.registers[3];
    result.pairs.values[0] = v22.values[0];
    result.pairs.values[1] = v22.values[1];
    result.pairs.values[2] = v22.values[2];
    result.pairs.values[3] = v22.values[3];
    return result;
}

/* core::int::u32::from_le_bytes */
INLINED uint32_t core__int__u32__from_le_bytes(array_4_u8 a1)
{
    uint32_t result;
    array_4_u8 v2;
    const uint8_t *v3;
    const uint8_t *v4;
    uint8_t v5;
    uint32_t v6;
    const uint8_t *v7;
    const uint8_t *v8;
    uint8_t v9;
    uint32_t v10;
    uint32_t v11;
    uint32_t v12;
    const uint8_t *v13;
    const uint8_t *v14;
    uint8_t v15;
    uint32_t v16;
    uint32_t v17;
    uint32_t v18;
    const uint8_t *v19;
    const uint8_t *v20;
    uint8_t v21;
    uint32_t v22;
    uint32_t v23;
    v2 = a1;
    v3 = v2.at;
    v4 = v3 + (size_t)UINT64_C(0);
    v5 = *v4;
    v6 = (uint32_t)v5;
    v7 = v2.at;
    v8 = v7 + (size_t)UINT64_C(1);
    v9 = *v8;
    v10 = (uint32_t)v9;
    v11 = (uint32_t)(v10 * UINT32_C(256));
    v12 = (uint32_t)(v6 + v11);
    v13 = v2.at;
    v14 = v13 + (size_t)UINT64_C(2);
    v15 = *v14;
    v16 = (uint32_t)v15;
    v17 = (uint32_t)(v16 * UINT32_C(65536));
    v18 = (uint32_t)(v12 + v17);
    v19 = v2.at;
    v20 = v19 + (size_t)UINT64_C(3);
    v21 = *v20;
    v22 = (uint32_t)v21;
    v23 = (uint32_t)(v22 * UINT32_C(16777216));
    result = (uint32_t)(v18 + v23);
    return result;
}

/* c2_record::spare::spare */
static _Bool c2_record__spare__spare(const uint8_t *a1)
{
    _Bool result;
    uint32_t v2;
    const uint8_t *v3;
    const uint8_t *v4;
    uint8_t v5;
    const uint8_t *v6;
    const uint8_t *v7;
    uint8_t v8;
    const uint8_t *v9;
    const uint8_t *v10;
    uint8_t v11;
    const uint8_t *v12;
    const uint8_t *v13;
    uint8_t v14;
    array_4_u8 v15;
    v3 = a1;
    v4 = v3 + (size_t)UINT64_C(28);
    v5 = *v4;
    v6 = a1;
    v7 = v6 + (size_t)UINT64_C(29);
    v8 = *v7;
    v9 = a1;
    v10 = v9 + (size_t)UINT64_C(30);
    v11 = *v10;
    v12 = a1;
    v13 = v12 + (size_t)UINT64_C(31);
    v14 = *v13;
    v15.at[0] = v5;
    v15.at[1] = v8;
    v15.at[2] = v11;
    v15.at[3] = v14;
    v2 = core__int__u32__from_le_bytes(v15);
    result = v2 == UINT32_C(0);
    return result;
}

/* c2_record::spare::no_point */
static _Bool c2_record__spare__no_point(const uint8_t *a1)
{
    _Bool result;
    _Bool v2;
    uint32_t v3;
    const uint8_t *v4;
    const uint8_t *v5;
    uint8_t v6;
    const uint8_t *v7;
    const uint8_t *v8;
    uint8_t v9;
    const uint8_t *v10;
    const uint8_t *v11;
    uint8_t v12;
    const uint8_t *v13;
    const uint8_t *v14;
    uint8_t v15;
    array_4_u8 v16;
    uint32_t v17;
    const uint8_t *v18;
    const uint8_t *v19;
    uint8_t v20;
    const uint8_t *v21;
    const uint8_t *v22;
    uint8_t v23;
    const uint8_t *v24;
    const uint8_t *v25;
    uint8_t v26;
    const uint8_t *v27;
    const uint8_t *v28;
    uint8_t v29;
    array_4_u8 v30;
    v4 = a1;
    v5 = v4 + (size_t)UINT64_C(10);
    v6 = *v5;
    v7 = a1;
    v8 = v7 + (size_t)UINT64_C(11);
    v9 = *v8;
    v10 = a1;
    v11 = v10 + (size_t)UINT64_C(12);
    v12 = *v11;
    v13 = a1;
    v14 = v13 + (size_t)UINT64_C(13);
    v15 = *v14;
    v16.at[0] = v6;
    v16.at[1] = v9;
    v16.at[2] = v12;
    v16.at[3] = v15;
    v3 = core__int__u32__from_le_bytes(v16);
    v2 = v3 == UINT32_C(0);
    if (v2) {
        v18 = a1;
        v19 = v18 + (size_t)UINT64_C(14);
        v20 = *v19;
        v21 = a1;
        v22 = v21 + (size_t)UINT64_C(15);
        v23 = *v22;
        v24 = a1;
        v25 = v24 + (size_t)UINT64_C(16);
        v26 = *v25;
        v27 = a1;
        v28 = v27 + (size_t)UINT64_C(17);
        v29 = *v28;
        v30.at[0] = v20;
        v30.at[1] = v23;
        v30.at[2] = v26;
        v30.at[3] = v29;
        v17 = core__int__u32__from_le_bytes(v30);
        v2 = v17 == UINT32_C(0);
    }
    result = v2;
    return result;
}

/* c2_record::spare::unused */
static _Bool c2_record__spare__unused(const uint8_t *a1)
{
    _Bool result;
    const uint8_t *v2;
    const uint8_t *v3;
    uint8_t v4;
    _Bool v5;
    _Bool v6;
    uint32_t v7;
    const uint8_t *v8;
    const uint8_t *v9;
    uint8_t v10;
    const uint8_t *v11;
    const uint8_t *v12;
    uint8_t v13;
    v2 = a1;
    v3 = v2 + (size_t)UINT64_C(7);
    v4 = *v3;
    v5 = v4 == 0u;
    if (v5) {
        v8 = a1;
        v9 = v8 + (size_t)UINT64_C(8);
        v10 = *v9;
        v11 = a1;
        v12 = v11 + (size_t)UINT64_C(9);
        v13 = *v12;
        v7 = c2_record__words__two_bytes(v10, v13);
        v6 = v7 == UINT32_C(0);
    } else {
        v6 = c2_record__spare__no_point(a1);
    }
    result = v6;
    return result;
}

/* c2_record::held::holds */
static _Bool c2_record__held__holds(const uint8_t *a1)
{
    _Bool result;
    c2_settings v2;
    uint16_t v3;
    const uint8_t *v4;
    const uint8_t *v5;
    uint8_t v6;
    _Bool v7;
    _Bool v8;
    _Bool v9;
    uint16_t v10;
    const uint8_t *v11;
    const uint8_t *v12;
    uint8_t v13;
    v2 = c2_record__read__read_settings(a1);
    v4 = a1;
    v5 = v4 + (size_t)UINT64_C(6);
    v6 = *v5;
    v3 = core__convert__U16FromU8__from(v6);
    v9 = c2_record__spare__spare(a1);
    if (v9) {
        v11 = a1;
        v12 = v11 + (size_t)UINT64_C(5);
        v13 = *v12;
        v10 = core__convert__U16FromU8__from(v13);
        v9 = c2_range__range__opening_in_range(&v2, v10, v3);
    }
    v8 = v9;
    if (v8) {
        v8 = c2_record__spare__unused(a1);
    }
    v7 = v8;
    if (v7) {
        v7 = c2_record__held__point_holds(&v2, v3, a1);
    }
    result = v7;
    return result;
}

/* c2_record::read::read_point */
static c2_session__Point c2_record__read__read_point(const uint8_t *a1)
{
    c2_session__Point result;
    c2_acts__Stage v2;
    uint32_t v3;
    uint32_t v4;
    uint32_t v5;
    uint32_t v6;
    uint32_t v7;
    uint32_t v8;
    const uint8_t *v9;
    const uint8_t *v10;
    uint8_t v11;
    _Bool v12;
    c2_session__Point v13;
    c2_session__At v14;
    c2_wire__Place v15;
    uint32_t v16;
    const uint8_t *v17;
    const uint8_t *v18;
    uint8_t v19;
    uint32_t v20;
    const uint8_t *v21;
    const uint8_t *v22;
    uint8_t v23;
    const uint8_t *v24;
    const uint8_t *v25;
    uint8_t v26;
    v9 = a1;
    v10 = v9 + (size_t)UINT64_C(7);
    v11 = *v10;
    v12 = v11 == 0u;
    if (v12) {
        v14 = c2_record__read__read_act(a1);
        v2 = v14.f0;
        v3 = v14.f1;
        v4 = v14.f2;
        v5 = v14.f3;
        v15 = c2_record__read__read_place(a1);
        v6 = v15.f0;
        v7 = v15.f1;
        v8 = v15.f2;
        v13.tag = 0u;
        v13.c2_acts__Stage_0 = v2;
        v13.u32_0 = v3;
        v13.u32_1 = v4;
        v13.u32_2 = v5;
        v13.u32_3 = v6;
        v13.u32_4 = v7;
        v13.u32_5 = v8;
    } else {
        v17 = a1;
        v18 = v17 + (size_t)UINT64_C(7);
        v19 = *v18;
        v16 = core__convert__U32FromU8__from(v19);
        v21 = a1;
        v22 = v21 + (size_t)UINT64_C(8);
        v23 = *v22;
        v24 = a1;
        v25 = v24 + (size_t)UINT64_C(9);
        v26 = *v25;
        v20 = c2_record__words__two_bytes(v23, v26);
        v13.tag = 1u;
        v13.u32_0 = v16;
        v13.u32_1 = v20;
        v13.c2_acts__Stage_0 = 0;
        v13.u32_2 = 0;
        v13.u32_3 = 0;
        v13.u32_4 = 0;
        v13.u32_5 = 0;
    }
    result.tag = v13.tag;
    result.c2_acts__Stage_0 = v13.c2_acts__Stage_0;
    result.u32_0 = v13.u32_0;
    result.u32_1 = v13.u32_1;
    result.u32_2 = v13.u32_2;
    result.u32_3 = v13.u32_3;
    result.u32_4 = v13.u32_4;
    result.u32_5 = v13.u32_5;
    return result;
}

/* core::OptionFromResidualNoValue::from_residual_Point */
INLINED core__Option_Point core__OptionFromResidualNoValue__from_residual_Point(void)
{
    core__Option_Point result;
    result.tag = 0u;
    result.c2_session__Point_0.tag = 0;
    result.c2_session__Point_0.c2_acts__Stage_0 = 0;
    result.c2_session__Point_0.u32_0 = 0;
    result.c2_session__Point_0.u32_1 = 0;
    result.c2_session__Point_0.u32_2 = 0;
    result.c2_session__Point_0.u32_3 = 0;
    result.c2_session__Point_0.u32_4 = 0;
    result.c2_session__Point_0.u32_5 = 0;
    return result;
}

/* core::OptionTry::branch_ref_array_32_u8 */
INLINED core__ControlFlow_NoValue_ref_array_32_u8 core__OptionTry__branch_ref_array_32_u8(
    const core__Option_ref_array_32_u8 *a1)
{
    core__ControlFlow_NoValue_ref_array_32_u8 result;
    const uint8_t *v2;
    core__ControlFlow_NoValue_ref_array_32_u8 v3;
    const uint8_t *v4;
    switch (a1->tag) {
    case 1u:
        v2 = a1->ref_array_32_u8_0;
        v4 = v2;
        v3.tag = 0u;
        v3.ref_array_32_u8_0 = v4;
        break;
    default: /* 0 */
        v3.tag = 1u;
        v3.ref_array_32_u8_0 = 0;
        break;
    }
    result.tag = v3.tag;
    result.ref_array_32_u8_0 = v3.ref_array_32_u8_0;
    return result;
}

/* core::arrays::first_unchecked_array_32_u8 */
INLINED const uint8_t *core__arrays__first_unchecked_array_32_u8(slice_array_32_u8 a1)
{
    const uint8_t *result;
    uint64_t v2;
    const uint8_t *v3;
    v2 = UINT64_C(0) * UINT64_C(32);
    v3 = a1.at + (size_t)v2;
    result = v3;
    return result;
}

/* core::chunks::arrays_u8_32 */
INLINED slice_array_32_u8 core__chunks__arrays_u8_32(slice_u8 a1, uint64_t a2)
{
    slice_array_32_u8 result;
    slice_array_32_u8 v3;
    const uint8_t *v4;
    v4 = a1.at;
    v3.at = v4;
    v3.length = a2;
    result.at = v3.at;
    result.length = v3.length;
    return result;
}

/* core::arrays::as_array_ref_u8_32 */
INLINED const uint8_t *core__arrays__as_array_ref_u8_32(slice_u8 a1)
{
    const uint8_t *result;
    slice_array_32_u8 v2;
    v2 = core__chunks__arrays_u8_32(a1, UINT64_C(1));
    result = core__arrays__first_unchecked_array_32_u8(v2);
    return result;
}

/* core::arrays::some_ref_array_32_u8 */
INLINED core__Option_ref_array_32_u8 core__arrays__some_ref_array_32_u8(const uint8_t *a1)
{
    core__Option_ref_array_32_u8 result;
    const uint8_t *v2;
    v2 = a1;
    result.tag = 1u;
    result.ref_array_32_u8_0 = v2;
    return result;
}

/* core::slice_T::as_array_u8_32 */
INLINED core__Option_ref_array_32_u8 core__slice_T__as_array_u8_32(slice_u8 a1)
{
    core__Option_ref_array_32_u8 result;
    uint64_t v2;
    _Bool v3;
    const uint8_t *v4;
    v2 = a1.length;
    v3 = v2 != UINT64_C(32);
    if (v3) {
        result.tag = 0u;
        result.ref_array_32_u8_0 = 0;
        return result;
    }
    v4 = core__arrays__as_array_ref_u8_32(a1);
    result = core__arrays__some_ref_array_32_u8(v4);
    return result;
}

/* c2_record::held::point */
static core__Option_Point c2_record__held__point(slice_u8 a1)
{
    core__Option_Point result;
    const uint8_t *v2;
    const uint8_t *v3;
    core__ControlFlow_NoValue_ref_array_32_u8 v5;
    core__Option_ref_array_32_u8 v6;
    const uint8_t *v7;
    _Bool v8;
    core__Option_Point v9;
    c2_session__Point v10;
    v6 = core__slice_T__as_array_u8_32(a1);
    v5 = core__OptionTry__branch_ref_array_32_u8(&v6);
    switch (v5.tag) {
    case 0u:
        v3 = v5.ref_array_32_u8_0;
        v7 = v3;
        break;
    default: /* 1 */
        result = core__OptionFromResidualNoValue__from_residual_Point();
        return result;
    }
    v2 = v7;
    v8 = c2_record__held__holds(v2);
    if (v8) {
        v10 = c2_record__read__read_point(v2);
        v9.tag = 1u;
        v9.c2_session__Point_0.tag = v10.tag;
        v9.c2_session__Point_0.c2_acts__Stage_0 = v10.c2_acts__Stage_0;
        v9.c2_session__Point_0.u32_0 = v10.u32_0;
        v9.c2_session__Point_0.u32_1 = v10.u32_1;
        v9.c2_session__Point_0.u32_2 = v10.u32_2;
        v9.c2_session__Point_0.u32_3 = v10.u32_3;
        v9.c2_session__Point_0.u32_4 = v10.u32_4;
        v9.c2_session__Point_0.u32_5 = v10.u32_5;
    } else {
        v9.tag = 0u;
        v9.c2_session__Point_0.tag = 0;
        v9.c2_session__Point_0.c2_acts__Stage_0 = 0;
        v9.c2_session__Point_0.u32_0 = 0;
        v9.c2_session__Point_0.u32_1 = 0;
        v9.c2_session__Point_0.u32_2 = 0;
        v9.c2_session__Point_0.u32_3 = 0;
        v9.c2_session__Point_0.u32_4 = 0;
        v9.c2_session__Point_0.u32_5 = 0;
    }
    result.tag = v9.tag;
    result.c2_session__Point_0.tag = v9.c2_session__Point_0.tag;
    result.c2_session__Point_0.c2_acts__Stage_0 = v9.c2_session__Point_0.c2_acts__Stage_0;
    result.c2_session__Point_0.u32_0 = v9.c2_session__Point_0.u32_0;
    result.c2_session__Point_0.u32_1 = v9.c2_session__Point_0.u32_1;
    result.c2_session__Point_0.u32_2 = v9.c2_session__Point_0.u32_2;
    result.c2_session__Point_0.u32_3 = v9.c2_session__Point_0.u32_3;
    result.c2_session__Point_0.u32_4 = v9.c2_session__Point_0.u32_4;
    result.c2_session__Point_0.u32_5 = v9.c2_session__Point_0.u32_5;
    return result;
}

/* c2_record::read::no_session */
static c2_session__Session c2_record__read__no_session(void)
{
    c2_session__Session result;
    array_4_u8 v1;
    array_4_u8 v2;
    c2_pairs v3;
    c2_settings v4;
    c2_session__Point v5;
    for (uint32_t i = 0; i < UINT32_C(4); i++) {
        v1.at[i] = 0u;
    }
    for (uint32_t i = 0; i < UINT32_C(4); i++) {
        v2.at[i] = 0u;
    }
    v3.count = 0u;
    v3.registers[0] = v1.at[0];
    v3.registers[1] = v1.at[1];
    v3.registers[2] = v1.at[2];
    v3.registers[3] = v1.at[3];
    v3.values[0] = v2.at[0];
    v3.values[1] = v2.at[1];
    v3.values[2] = v2.at[2];
    v3.values[3] = v2.at[3];
    v4.device_id = 0u;
    v4.fpdat = 0u;
    v4.page_size = UINT32_C(0);
    v4.page_count = UINT32_C(0);
    v4.wait_limit = 0u;
    v4.pairs.count = v3.count;
    v4.pairs.registers[0] = v3.registers[0];
    v4.pairs.registers[1] = v3.registers[1];
    v4.pairs.registers[2] = v3.registers[2];
    v4.pairs.registers[3] = v3.registers[3];
    v4.pairs.values[0] = v3.values[0];
    v4.pairs.values[1] = v3.values[1];
    v4.pairs.values[2] = v3.values[2];
    v4.pairs.values[3] = v3.values[3];
    v5.tag = 1u;
    v5.u32_0 = UINT32_C(0);
    v5.u32_1 = UINT32_C(0);
    v5.c2_acts__Stage_0 = 0;
    v5.u32_2 = 0;
    v5.u32_3 = 0;
    v5.u32_4 = 0;
    v5.u32_5 = 0;
    result.f0.device_id = v4.device_id;
    result.f0.fpdat = v4.fpdat;
    result.f0.page_size = v4.page_size;
    result.f0.page_count = v4.page_count;
    result.f0.wait_limit = v4.wait_limit;
    result.f0.pairs.count = v4.pairs.count;
    result.f0.pairs.registers[0] = v4.pairs.registers[0];
    result.f0.pairs.registers[1] = v4.pairs.registers[1];
    result.f0.pairs.registers[2] = v4.pairs.registers[2];
    result.f0.pairs.registers[3] = v4.pairs.registers[3];
    result.f0.pairs.values[0] = v4.pairs.values[0];
    result.f0.pairs.values[1] = v4.pairs.values[1];
    result.f0.pairs.values[2] = v4.pairs.values[2];
    result.f0.pairs.values[3] = v4.pairs.values[3];
    result.f1 = 0u;
    result.f2 = 0u;
    result.f3.tag = v5.tag;
    result.f3.c2_acts__Stage_0 = v5.c2_acts__Stage_0;
    result.f3.u32_0 = v5.u32_0;
    result.f3.u32_1 = v5.u32_1;
    result.f3.u32_2 = v5.u32_2;
    result.f3.u32_3 = v5.u32_3;
    result.f3.u32_4 = v5.u32_4;
    result.f3.u32_5 = v5.u32_5;
    return result;
}

/* c2_record::read::session */
static c2_session__Session c2_record__read__session(slice_u8 a1, const c2_session__Point *a2)
{
    c2_session__Session result;
    const uint8_t *v3;
    core__Option_ref_array_32_u8 v4;
    c2_settings v5;
    uint16_t v6;
    const uint8_t *v7;
    const uint8_t *v8;
    uint8_t v9;
    uint16_t v10;
    const uint8_t *v11;
    const uint8_t *v12;
    uint8_t v13;
    v4 = core__slice_T__as_array_u8_32(a1);
    switch (v4.tag) {
    case 1u:
        v3 = v4.ref_array_32_u8_0;
        break;
    default: /* 0 */
        result = c2_record__read__no_session();
        return result;
    }
    v5 = c2_record__read__read_settings(v3);
    v7 = v3;
    v8 = v7 + (size_t)UINT64_C(5);
    v9 = *v8;
    v6 = core__convert__U16FromU8__from(v9);
    v11 = v3;
    v12 = v11 + (size_t)UINT64_C(6);
    v13 = *v12;
    v10 = core__convert__U16FromU8__from(v13);
    result.f0.device_id = v5.device_id;
    result.f0.fpdat = v5.fpdat;
    result.f0.page_size = v5.page_size;
    result.f0.page_count = v5.page_count;
    result.f0.wait_limit = v5.wait_limit;
    result.f0.pairs.count = v5.pairs.count;
    result.f0.pairs.registers[0] = v5.pairs.registers[0];
    result.f0.pairs.registers[1] = v5.pairs.registers[1];
    result.f0.pairs.registers[2] = v5.pairs.registers[2];
    result.f0.pairs.registers[3] = v5.pairs.registers[3];
    result.f0.pairs.values[0] = v5.pairs.values[0];
    result.f0.pairs.values[1] = v5.pairs.values[1];
    result.f0.pairs.values[2] = v5.pairs.values[2];
    result.f0.pairs.values[3] = v5.pairs.values[3];
    result.f1 = v6;
    result.f2 = v10;
    result.f3.tag = a2->tag;
    result.f3.c2_acts__Stage_0 = a2->c2_acts__Stage_0;
    result.f3.u32_0 = a2->u32_0;
    result.f3.u32_1 = a2->u32_1;
    result.f3.u32_2 = a2->u32_2;
    result.f3.u32_3 = a2->u32_3;
    result.f3.u32_4 = a2->u32_4;
    result.f3.u32_5 = a2->u32_5;
    return result;
}

/* c2_record::write::put_act */
static void c2_record__write__put_act(const c2_record__Fields *a1, uint8_t *a2)
{
    uint8_t v3;
    uint8_t *v4;
    uint8_t *v5;
    uint8_t *v6;
    uint8_t *v7;
    uint8_t *v8;
    uint8_t *v9;
    uint8_t *v10;
    uint8_t *v11;
    uint8_t *v12;
    uint8_t *v13;
    v3 = c2_record__words__byte(a1->f2);
    v4 = a2;
    v5 = v4 + (size_t)UINT64_C(10);
    *v5 = v3;
    v3 = c2_record__words__low(a1->f3);
    v6 = a2;
    v7 = v6 + (size_t)UINT64_C(11);
    *v7 = v3;
    v3 = c2_record__words__low(a1->f4);
    v8 = a2;
    v9 = v8 + (size_t)UINT64_C(12);
    *v9 = v3;
    v3 = c2_record__words__low(a1->f5);
    v10 = a2;
    v11 = v10 + (size_t)UINT64_C(13);
    *v11 = v3;
    v3 = c2_record__words__high(a1->f5);
    v12 = a2;
    v13 = v12 + (size_t)UINT64_C(14);
    *v13 = v3;
    return;
}

/* c2_record::write::put_outcome */
static void c2_record__write__put_outcome(const c2_record__Fields *a1, uint8_t *a2)
{
    uint8_t v3;
    uint8_t *v4;
    uint8_t *v5;
    uint8_t *v6;
    uint8_t *v7;
    uint8_t *v8;
    uint8_t *v9;
    v3 = c2_record__words__low(a1->f0);
    v4 = a2;
    v5 = v4 + (size_t)UINT64_C(7);
    *v5 = v3;
    v3 = c2_record__words__low(a1->f1);
    v6 = a2;
    v7 = v6 + (size_t)UINT64_C(8);
    *v7 = v3;
    v3 = c2_record__words__high(a1->f1);
    v8 = a2;
    v9 = v8 + (size_t)UINT64_C(9);
    *v9 = v3;
    return;
}

/* c2_record::write::put_place */
static void c2_record__write__put_place(const c2_record__Fields *a1, uint8_t *a2)
{
    uint8_t v3;
    uint8_t *v4;
    uint8_t *v5;
    uint8_t *v6;
    uint8_t *v7;
    uint8_t *v8;
    uint8_t *v9;
    v3 = c2_record__words__low(a1->f6);
    v4 = a2;
    v5 = v4 + (size_t)UINT64_C(15);
    *v5 = v3;
    v3 = c2_record__words__low(a1->f7);
    v6 = a2;
    v7 = v6 + (size_t)UINT64_C(16);
    *v7 = v3;
    v3 = c2_record__words__low(a1->f8);
    v8 = a2;
    v9 = v8 + (size_t)UINT64_C(17);
    *v9 = v3;
    return;
}

/* c2_record::write::put_point */
static void c2_record__write__put_point(const c2_session__Point *a1, slice_mut_u8 a2)
{
    uint8_t *v3;
    c2_record__Fields v4;
    core__Option_mut_array_32_u8 v5;
    uint8_t *v6;
    slice_mut_u8 v7;
    uint8_t *v9;
    uint8_t *v10;
    uint8_t *v11;
    v6 = a2.at;
    v7.at = v6;
    v7.length = a2.length;
    v5 = core__slice_T__as_mut_array_u8_32(v7);
    switch (v5.tag) {
    case 1u:
        v3 = v5.mut_array_32_u8_0;
        break;
    default: /* 0 */
        return;
    }
    v4 = c2_record__write__FieldsFromPoint__from(a1);
    v9 = v3;
    c2_record__write__put_outcome(&v4, v9);
    v10 = v3;
    c2_record__write__put_act(&v4, v10);
    v11 = v3;
    c2_record__write__put_place(&v4, v11);
    return;
}

/* c2::advance::take */
static core__Result_Ran_Refusal c2__advance__take(slice_mut_u8 a1, slice_u8 a2, slice_u8 a3, slice_mut_u8 a4,
    uint64_t a5)
{
    core__Result_Ran_Refusal result;
    c2_session__Point v6;
    c2_session__Session v7;
    c2__Ran v8;
    core__Option_Point v9;
    const uint8_t *v10;
    slice_u8 v11;
    numbers__Refusal v12;
    const uint8_t *v13;
    slice_u8 v14;
    uint64_t v15;
    uint64_t v16;
    _Bool v17;
    numbers__Refusal v18;
    _Bool v19;
    uint64_t v20;
    uint64_t v21;
    uint64_t v22;
    _Bool v23;
    numbers__Refusal v24;
    uint8_t *v25;
    uint8_t *v26;
    slice_mut_u8 v27;
    c2_session__Point v29;
    uint8_t *v30;
    slice_mut_u8 v31;
    v10 = a1.at;
    v11.at = v10;
    v11.length = a1.length;
    v9 = c2_record__held__point(v11);
    switch (v9.tag) {
    case 1u:
        v6.tag = v9.c2_session__Point_0.tag;
        v6.c2_acts__Stage_0 = v9.c2_session__Point_0.c2_acts__Stage_0;
        v6.u32_0 = v9.c2_session__Point_0.u32_0;
        v6.u32_1 = v9.c2_session__Point_0.u32_1;
        v6.u32_2 = v9.c2_session__Point_0.u32_2;
        v6.u32_3 = v9.c2_session__Point_0.u32_3;
        v6.u32_4 = v9.c2_session__Point_0.u32_4;
        v6.u32_5 = v9.c2_session__Point_0.u32_5;
        break;
    default: /* 0 */
        v12 = 5u;
        result.tag = 1u;
        result.numbers__Refusal_0 = v12;
        result.c2__Ran_0.f0.tag = 0;
        result.c2__Ran_0.f0.c2_acts__Stage_0 = 0;
        result.c2__Ran_0.f0.u32_0 = 0;
        result.c2__Ran_0.f0.u32_1 = 0;
        result.c2__Ran_0.f0.u32_2 = 0;
        result.c2__Ran_0.f0.u32_3 = 0;
        result.c2__Ran_0.f0.u32_4 = 0;
        result.c2__Ran_0.f0.u32_5 = 0;
        result.c2__Ran_0.f1 = 0;
        return result;
    }
    v13 = a1.at;
    v14.at = v13;
    v14.length = a1.length;
    v7 = c2_record__read__session(v14, &v6);
    v15 = a2.length;
    v16 = settings__opening__image_bytes(v7.f0.page_size, v7.f2);
    v17 = v15 != v16;
    if (v17) {
        v18 = 6u;
        result.tag = 1u;
        result.numbers__Refusal_0 = v18;
        result.c2__Ran_0.f0.tag = 0;
        result.c2__Ran_0.f0.c2_acts__Stage_0 = 0;
        result.c2__Ran_0.f0.u32_0 = 0;
        result.c2__Ran_0.f0.u32_1 = 0;
        result.c2__Ran_0.f0.u32_2 = 0;
        result.c2__Ran_0.f0.u32_3 = 0;
        result.c2__Ran_0.f0.u32_4 = 0;
        result.c2__Ran_0.f0.u32_5 = 0;
        result.c2__Ran_0.f1 = 0;
        return result;
    }
    v15 = a4.length;
    v19 = v15 < a5;
    if (!v19) {
        v20 = a4.length;
        v21 = v20 - a5;
        v22 = a3.length;
        v19 = v21 < v22;
        v23 = v19;
        if (!v23) {
            goto end2;
        }
    }
    v24 = 7u;
    result.tag = 1u;
    result.numbers__Refusal_0 = v24;
    result.c2__Ran_0.f0.tag = 0;
    result.c2__Ran_0.f0.c2_acts__Stage_0 = 0;
    result.c2__Ran_0.f0.u32_0 = 0;
    result.c2__Ran_0.f0.u32_1 = 0;
    result.c2__Ran_0.f0.u32_2 = 0;
    result.c2__Ran_0.f0.u32_3 = 0;
    result.c2__Ran_0.f0.u32_4 = 0;
    result.c2__Ran_0.f0.u32_5 = 0;
    result.c2__Ran_0.f1 = 0;
    return result;
    goto end1;
    end2:;
    end1:;
    v25 = a4.at + (size_t)a5;
    v16 = a4.length - a5;
    v26 = v25;
    v27.at = v26;
    v27.length = v16;
    v8 = c2__advance__run(&v7, a2, a3, v27);
    v29.tag = v8.f0.tag;
    v29.c2_acts__Stage_0 = v8.f0.c2_acts__Stage_0;
    v29.u32_0 = v8.f0.u32_0;
    v29.u32_1 = v8.f0.u32_1;
    v29.u32_2 = v8.f0.u32_2;
    v29.u32_3 = v8.f0.u32_3;
    v29.u32_4 = v8.f0.u32_4;
    v29.u32_5 = v8.f0.u32_5;
    v30 = a1.at;
    v31.at = v30;
    v31.length = a1.length;
    c2_record__write__put_point(&v29, v31);
    result.tag = 0u;
    result.c2__Ran_0.f0.tag = v8.f0.tag;
    result.c2__Ran_0.f0.c2_acts__Stage_0 = v8.f0.c2_acts__Stage_0;
    result.c2__Ran_0.f0.u32_0 = v8.f0.u32_0;
    result.c2__Ran_0.f0.u32_1 = v8.f0.u32_1;
    result.c2__Ran_0.f0.u32_2 = v8.f0.u32_2;
    result.c2__Ran_0.f0.u32_3 = v8.f0.u32_3;
    result.c2__Ran_0.f0.u32_4 = v8.f0.u32_4;
    result.c2__Ran_0.f0.u32_5 = v8.f0.u32_5;
    result.c2__Ran_0.f1 = v8.f1;
    result.numbers__Refusal_0 = 0;
    return result;
}

/* c2_outcome::OutcomeFromPoint::from */
static c2_outcome__Outcome c2_outcome__OutcomeFromPoint__from(const c2_session__Point *a1)
{
    c2_outcome__Outcome result;
    uint32_t v2;
    uint32_t v3;
    c2_outcome__Outcome v4;
    switch (a1->tag) {
    case 0u:
        v4.f0 = UINT32_C(0);
        v4.f1 = UINT32_C(0);
        break;
    default: /* 1 */
        v2 = a1->u32_0;
        v3 = a1->u32_1;
        v4.f0 = v2;
        v4.f1 = v3;
        break;
    }
    result.f0 = v4.f0;
    result.f1 = v4.f1;
    return result;
}

/* core::AnyInto::into_Point_Outcome */
INLINED c2_outcome__Outcome core__AnyInto__into_Point_Outcome(const c2_session__Point *a1)
{
    c2_outcome__Outcome result;
    c2_session__Point v2;
    v2.tag = a1->tag;
    v2.c2_acts__Stage_0 = a1->c2_acts__Stage_0;
    v2.u32_0 = a1->u32_0;
    v2.u32_1 = a1->u32_1;
    v2.u32_2 = a1->u32_2;
    v2.u32_3 = a1->u32_3;
    v2.u32_4 = a1->u32_4;
    v2.u32_5 = a1->u32_5;
    result = c2_outcome__OutcomeFromPoint__from(&v2);
    return result;
}

/* c2_outcome::outcome_of */
static c2_outcome__Outcome c2_outcome__outcome_of(const c2_session__Point *a1)
{
    c2_outcome__Outcome result;
    result = core__AnyInto__into_Point_Outcome(a1);
    return result;
}

/* c2::advance::c2_advance */
static c2_advanced c2__advance__c2_advance(slice_mut_u8 a1, slice_u8 a2, slice_u8 a3, slice_mut_u8 a4,
    uint64_t a5)
{
    c2_advanced result;
    c2__Ran v6;
    c2_outcome__Outcome v7;
    numbers__Refusal v8;
    core__Result_Ran_Refusal v9;
    uint8_t *v10;
    slice_mut_u8 v11;
    uint8_t *v12;
    slice_mut_u8 v13;
    c2_advanced v14;
    c2_session__Point v15;
    uint64_t v16;
    uint32_t v17;
    v10 = a1.at;
    v11.at = v10;
    v11.length = a1.length;
    v12 = a4.at;
    v13.at = v12;
    v13.length = a4.length;
    v9 = c2__advance__take(v11, a2, a3, v13, a5);
    switch (v9.tag) {
    case 0u:
        v6.f0.tag = v9.c2__Ran_0.f0.tag;
        v6.f0.c2_acts__Stage_0 = v9.c2__Ran_0.f0.c2_acts__Stage_0;
        v6.f0.u32_0 = v9.c2__Ran_0.f0.u32_0;
        v6.f0.u32_1 = v9.c2__Ran_0.f0.u32_1;
        v6.f0.u32_2 = v9.c2__Ran_0.f0.u32_2;
        v6.f0.u32_3 = v9.c2__Ran_0.f0.u32_3;
        v6.f0.u32_4 = v9.c2__Ran_0.f0.u32_4;
        v6.f0.u32_5 = v9.c2__Ran_0.f0.u32_5;
        v6.f1 = v9.c2__Ran_0.f1;
        v15.tag = v6.f0.tag;
        v15.c2_acts__Stage_0 = v6.f0.c2_acts__Stage_0;
        v15.u32_0 = v6.f0.u32_0;
        v15.u32_1 = v6.f0.u32_1;
        v15.u32_2 = v6.f0.u32_2;
        v15.u32_3 = v6.f0.u32_3;
        v15.u32_4 = v6.f0.u32_4;
        v15.u32_5 = v6.f0.u32_5;
        v7 = c2_outcome__outcome_of(&v15);
        v16 = v6.f1;
        v14.number = v7.f0;
        v14.offset = v7.f1;
        v14.taken = v16;
        break;
    default: /* 1 */
        v8 = v9.numbers__Refusal_0;
        v17 = core__AnyInto__into_Refusal_u32(v8);
        v14.number = v17;
        v14.offset = UINT32_C(0);
        v14.taken = UINT64_C(0);
        break;
    }
    result.number = v14.number;
    result.offset = v14.offset;
    result.taken = v14.taken;
    return result;
}

/* c2_figure::Figure::wait */
static uint64_t c2_figure__Figure__wait(const c2_figure__Figure *a1)
{
    uint64_t result;
    result = core__convert__UsizeFromU8__from(a1->f0.f0.wait_limit);
    return result;
}

/* core::int::usize::saturating_sub */
INLINED uint64_t core__int__usize__saturating_sub(uint64_t a1, uint64_t a2)
{
    uint64_t result;
    _Bool v3;
    uint64_t v4;
    v3 = a2 <= a1;
    if (v3) {
        v4 = a1 - a2;
    } else {
        v4 = UINT64_C(0);
    }
    result = v4;
    return result;
}

/* c2_figure::Figure::wait_left */
static uint64_t c2_figure__Figure__wait_left(const c2_figure__Figure *a1, uint32_t a2,
    const c2_wire__Place *a3)
{
    uint64_t result;
    uint64_t v4;
    uint64_t v5;
    _Bool v6;
    uint64_t v7;
    uint64_t v8;
    uint64_t v9;
    _Bool v10;
    uint64_t v11;
    uint64_t v12;
    uint64_t v13;
    v4 = (uint64_t)a3->f0;
    v6 = a3->f0 < a2;
    if (v6) {
        v8 = core__int__usize__saturating_sub(UINT64_C(14), v4);
        v9 = c2_figure__Figure__wait(a1);
        v7 = v8 + v9;
    } else {
        v10 = a3->f0 == a2;
        if (v10) {
            v12 = c2_figure__Figure__wait(a1);
            v13 = (uint64_t)a3->f1;
            v5 = core__int__usize__saturating_sub(v12, v13);
            v12 = core__int__usize__saturating_sub(UINT64_C(14), v4);
            v11 = v12 + v5;
        } else {
            v11 = core__int__usize__saturating_sub(UINT64_C(15), v4);
        }
        v7 = v11;
    }
    result = v7;
    return result;
}

/* c2_figure::left::poll_left */
static uint64_t c2_figure__left__poll_left(const c2_wire__Place *a1)
{
    uint64_t result;
    uint64_t v2;
    uint64_t v3;
    uint64_t v4;
    uint64_t v5;
    v4 = (uint64_t)a1->f1;
    v3 = core__int__usize__saturating_sub(UINT64_C(256), v4);
    v2 = core__int__usize__saturating_sub(v3, UINT64_C(1));
    v4 = (uint64_t)a1->f0;
    v3 = core__int__usize__saturating_sub(UINT64_C(12), v4);
    v5 = v2 * UINT64_C(12);
    result = v3 + v5;
    return result;
}

/* c2_figure::Figure::act_left */
static uint64_t c2_figure__Figure__act_left(const c2_figure__Figure *a1, c2_acts__Task a2,
    const c2_wire__Place *a3)
{
    uint64_t result;
    uint64_t v4;
    uint64_t v5;
    v4 = (uint64_t)a3->f0;
    switch (a2) {
    case 0u:
    case 1u:
        v5 = core__int__usize__saturating_sub(UINT64_C(1), v4);
        break;
    case 2u:
        v5 = core__int__usize__saturating_sub(UINT64_C(12), v4);
        break;
    case 3u:
        v5 = c2_figure__Figure__wait_left(a1, UINT32_C(13), a3);
        break;
    case 4u:
    case 5u:
        v5 = c2_figure__left__poll_left(a3);
        break;
    default: /* 6, 7, 8 */
        v5 = c2_figure__Figure__wait_left(a1, UINT32_C(5), a3);
        break;
    }
    result = v5;
    return result;
}

/* c2_figure::Figure::data_frame */
static uint64_t c2_figure__Figure__data_frame(const c2_figure__Figure *a1)
{
    uint64_t result;
    uint64_t v2;
    v2 = c2_figure__Figure__wait(a1);
    result = UINT64_C(14) + v2;
    return result;
}

/* c2_figure::Figure::byte_cost */
static uint64_t c2_figure__Figure__byte_cost(const c2_figure__Figure *a1)
{
    uint64_t result;
    uint64_t v2;
    uint64_t v3;
    v2 = c2_figure__Figure__data_frame(a1);
    v3 = UINT64_C(256) * UINT64_C(12);
    result = v2 + v3;
    return result;
}

/* c2_figure::Figure::block_cost */
static uint64_t c2_figure__Figure__block_cost(const c2_figure__Figure *a1)
{
    uint64_t result;
    uint64_t v2;
    uint64_t v3;
    v2 = c2_figure__Figure__byte_cost(a1);
    v3 = UINT64_C(262) * v2;
    result = UINT64_C(12) + v3;
    return result;
}

/* c2_figure::Figure::blocks_left */
static uint64_t c2_figure__Figure__blocks_left(const c2_figure__Figure *a1, uint32_t a2)
{
    uint64_t result;
    uint32_t v3;
    uint32_t v4;
    uint32_t v5;
    uint64_t v6;
    uint64_t v7;
    v5 = (uint32_t)(a1->f0.f0.page_size / UINT32_C(256));
    v4 = core__int__u32__saturating_sub(v5, a2);
    v3 = core__int__u32__saturating_sub(v4, UINT32_C(1));
    v6 = (uint64_t)v3;
    v7 = c2_figure__Figure__block_cost(a1);
    result = v6 * v7;
    return result;
}

/* c2_figure::Figure::page_blocks */
static uint64_t c2_figure__Figure__page_blocks(const c2_figure__Figure *a1)
{
    uint64_t result;
    uint32_t v2;
    uint64_t v3;
    uint64_t v4;
    v2 = (uint32_t)(a1->f0.f0.page_size / UINT32_C(256));
    v3 = (uint64_t)v2;
    v4 = c2_figure__Figure__block_cost(a1);
    result = v3 * v4;
    return result;
}

/* c2_figure::Figure::page_cost */
static uint64_t c2_figure__Figure__page_cost(const c2_figure__Figure *a1)
{
    uint64_t result;
    uint64_t v2;
    uint64_t v3;
    uint64_t v4;
    uint64_t v5;
    uint64_t v6;
    v2 = c2_figure__Figure__byte_cost(a1);
    v3 = UINT64_C(6) * v2;
    v4 = UINT64_C(12) + v3;
    v5 = c2_figure__Figure__page_blocks(a1);
    v6 = UINT64_C(2) * v5;
    result = v4 + v6;
    return result;
}

/* c2_figure::Figure::pages_cost */
static uint64_t c2_figure__Figure__pages_cost(const c2_figure__Figure *a1, uint16_t a2)
{
    uint64_t result;
    uint64_t v3;
    uint64_t v4;
    uint64_t v5;
    v3 = core__convert__UsizeFromU16__from(a2);
    v4 = c2_figure__Figure__page_cost(a1);
    v5 = v3 * v4;
    result = v5 + UINT64_C(1);
    return result;
}

/* c2_figure::Figure::pages_left */
static uint64_t c2_figure__Figure__pages_left(const c2_figure__Figure *a1, uint32_t a2)
{
    uint64_t result;
    uint32_t v3;
    uint32_t v4;
    uint32_t v5;
    uint16_t v6;
    v5 = core__convert__U32FromU16__from(a1->f0.f2);
    v4 = core__int__u32__saturating_sub(v5, a2);
    v3 = core__int__u32__saturating_sub(v4, UINT32_C(1));
    v6 = (uint16_t)v3;
    result = c2_figure__Figure__pages_cost(a1, v6);
    return result;
}

/* c2_figure::Figure::pair_cost */
static uint64_t c2_figure__Figure__pair_cost(const c2_figure__Figure *a1)
{
    uint64_t result;
    uint64_t v2;
    v2 = c2_figure__Figure__data_frame(a1);
    result = UINT64_C(12) + v2;
    return result;
}

/* c2_figure::Figure::registers_left */
static uint64_t c2_figure__Figure__registers_left(const c2_figure__Figure *a1, uint64_t a2)
{
    uint64_t result;
    uint64_t v3;
    uint64_t v4;
    uint64_t v5;
    uint64_t v6;
    v4 = core__convert__UsizeFromU8__from(a1->f0.f0.pairs.count);
    v3 = core__int__usize__saturating_sub(v4, a2);
    v4 = c2_figure__Figure__pair_cost(a1);
    v5 = v3 * v4;
    v6 = c2_figure__Figure__pages_cost(a1, a1->f0.f2);
    result = v5 + v6;
    return result;
}

/* c2_figure::Figure::after_left */
static uint64_t c2_figure__Figure__after_left(const c2_figure__Figure *a1, c2_acts__Stage a2, uint32_t a3,
    uint32_t a4)
{
    uint64_t result;
    uint64_t v5;
    uint64_t v6;
    uint64_t v7;
    uint64_t v8;
    uint64_t v9;
    uint64_t v10;
    uint64_t v11;
    uint64_t v12;
    uint64_t v13;
    uint64_t v14;
    uint64_t v15;
    uint64_t v16;
    switch (a2) {
    case 0u:
        v5 = c2_figure__Figure__registers_left(a1, UINT64_C(0));
        break;
    case 1u:
        v6 = c2_figure__Figure__page_blocks(a1);
        v7 = UINT64_C(2) * v6;
        v8 = c2_figure__Figure__pages_left(a1, a3);
        v5 = v7 + v8;
        break;
    case 2u:
        v9 = c2_figure__Figure__blocks_left(a1, a4);
        v10 = c2_figure__Figure__page_blocks(a1);
        v11 = v9 + v10;
        v12 = c2_figure__Figure__pages_left(a1, a3);
        v5 = v11 + v12;
        break;
    case 3u:
        v13 = c2_figure__Figure__blocks_left(a1, a4);
        v14 = c2_figure__Figure__pages_left(a1, a3);
        v5 = v13 + v14;
        break;
    case 4u:
        v5 = UINT64_C(0);
        break;
    default: /* 5 */
        v15 = (uint64_t)a3;
        v16 = v15 + UINT64_C(1);
        v5 = c2_figure__Figure__registers_left(a1, v16);
        break;
    }
    result = v5;
    return result;
}

/* c2_figure::Figure::task_cost */
static uint64_t c2_figure__Figure__task_cost(const c2_figure__Figure *a1, c2_acts__Task a2)
{
    uint64_t result;
    uint64_t v3;
    switch (a2) {
    case 0u:
    case 1u:
        v3 = UINT64_C(1);
        break;
    case 2u:
        v3 = UINT64_C(12);
        break;
    case 4u:
    case 5u:
        v3 = UINT64_C(256) * UINT64_C(12);
        break;
    default: /* 3, 6, 7, 8 */
        v3 = c2_figure__Figure__data_frame(a1);
        break;
    }
    result = v3;
    return result;
}

/* c2_figure::Figure::bytes_left */
static uint64_t c2_figure__Figure__bytes_left(const c2_figure__Figure *a1, uint16_t a2, c2_acts__Task a3,
    uint32_t a4)
{
    uint64_t result;
    uint64_t v5;
    uint64_t v6;
    uint64_t v7;
    uint64_t v8;
    uint64_t v9;
    uint64_t v10;
    uint32_t v11;
    _Bool v12;
    uint64_t v13;
    uint64_t v14;
    uint64_t v15;
    v5 = c2_figure__Figure__byte_cost(a1);
    v8 = core__convert__UsizeFromU16__from(a2);
    v9 = (uint64_t)a4;
    v7 = core__int__usize__saturating_sub(v8, v9);
    v10 = v7 / UINT64_C(2);
    v6 = v10 * v5;
    v11 = (uint32_t)(a4 % UINT32_C(2));
    v12 = v11 == UINT32_C(1);
    if (v12) {
        v14 = c2_figure__Figure__task_cost(a1, a3);
        v15 = v5 - v14;
        v13 = v6 + v15;
    } else {
        v13 = v6;
    }
    result = v13;
    return result;
}

/* c2_figure::Figure::lead_left */
static uint64_t c2_figure__Figure__lead_left(const c2_figure__Figure *a1, uint32_t a2)
{
    uint64_t result;
    uint64_t v3;
    uint64_t v4;
    uint64_t v5;
    uint64_t v6;
    uint64_t v7;
    uint64_t v8;
    uint64_t v9;
    v3 = c2_figure__Figure__wait(a1);
    switch (a2) {
    case 0u:
        v5 = UINT64_C(4) * v3;
        v4 = UINT64_C(70) + v5;
        break;
    case 1u:
        v6 = UINT64_C(3) * v3;
        v4 = UINT64_C(56) + v6;
        break;
    case 2u:
        v7 = UINT64_C(3) * v3;
        v4 = UINT64_C(55) + v7;
        break;
    case 3u:
        v8 = UINT64_C(3) * v3;
        v4 = UINT64_C(43) + v8;
        break;
    case 4u:
        v9 = UINT64_C(2) * v3;
        v4 = UINT64_C(29) + v9;
        break;
    case 5u:
        v4 = UINT64_C(15) + v3;
        break;
    case 6u:
        v4 = UINT64_C(1);
        break;
    default:
        v4 = UINT64_C(0);
        break;
    }
    result = v4;
    return result;
}

/* c2_figure::Figure::register_left */
static uint64_t c2_figure__Figure__register_left(const c2_figure__Figure *a1, uint32_t a2)
{
    uint64_t result;
    uint64_t v3;
    switch (a2) {
    case 0u:
        v3 = c2_figure__Figure__data_frame(a1);
        break;
    default:
        v3 = UINT64_C(0);
        break;
    }
    result = v3;
    return result;
}

/* c2_figure::Figure::stage_left */
static uint64_t c2_figure__Figure__stage_left(const c2_figure__Figure *a1, c2_acts__Stage a2, uint32_t a3)
{
    uint64_t result;
    c2_acts__Task v4;
    uint64_t v5;
    v4 = c2_acts__task_of(a2, a3);
    switch (a2) {
    case 0u:
        v5 = c2_figure__Figure__lead_left(a1, a3);
        break;
    case 1u:
        v5 = c2_figure__Figure__bytes_left(a1, 12u, v4, a3);
        break;
    case 2u:
    case 3u:
        v5 = c2_figure__Figure__bytes_left(a1, 524u, v4, a3);
        break;
    case 4u:
        v5 = UINT64_C(0);
        break;
    default: /* 5 */
        v5 = c2_figure__Figure__register_left(a1, a3);
        break;
    }
    result = v5;
    return result;
}

/* c2_figure::left::steps_left */
static uint64_t c2_figure__left__steps_left(const c2_session__Session *a1)
{
    uint64_t result;
    c2_figure__Figure v2;
    c2_acts__Stage v3;
    uint32_t v4;
    uint32_t v5;
    uint32_t v6;
    uint32_t v7;
    uint32_t v8;
    uint32_t v9;
    c2_wire__Place v10;
    uint64_t v11;
    uint64_t v12;
    c2_acts__Task v13;
    uint64_t v14;
    uint64_t v15;
    uint64_t v16;
    v2.f0.f0.device_id = a1->f0.device_id;
    v2.f0.f0.fpdat = a1->f0.fpdat;
    v2.f0.f0.page_size = a1->f0.page_size;
    v2.f0.f0.page_count = a1->f0.page_count;
    v2.f0.f0.wait_limit = a1->f0.wait_limit;
    v2.f0.f0.pairs.count = a1->f0.pairs.count;
    v2.f0.f0.pairs.registers[0] = a1->f0.pairs.registers[0];
    v2.f0.f0.pairs.registers[1] = a1->f0.pairs.registers[1];
    v2.f0.f0.pairs.registers[2] = a1->f0.pairs.registers[2];
    v2.f0.f0.pairs.registers[3] = a1->f0.pairs.registers[3];
    v2.f0.f0.pairs.values[0] = a1->f0.pairs.values[0];
    v2.f0.f0.pairs.values[1] = a1->f0.pairs.values[1];
    v2.f0.f0.pairs.values[2] = a1->f0.pairs.values[2];
    v2.f0.f0.pairs.values[3] = a1->f0.pairs.values[3];
    v2.f0.f1 = a1->f1;
    v2.f0.f2 = a1->f2;
    v2.f0.f3.tag = a1->f3.tag;
    v2.f0.f3.c2_acts__Stage_0 = a1->f3.c2_acts__Stage_0;
    v2.f0.f3.u32_0 = a1->f3.u32_0;
    v2.f0.f3.u32_1 = a1->f3.u32_1;
    v2.f0.f3.u32_2 = a1->f3.u32_2;
    v2.f0.f3.u32_3 = a1->f3.u32_3;
    v2.f0.f3.u32_4 = a1->f3.u32_4;
    v2.f0.f3.u32_5 = a1->f3.u32_5;
    switch (a1->f3.tag) {
    case 0u:
        v3 = a1->f3.c2_acts__Stage_0;
        v4 = a1->f3.u32_0;
        v5 = a1->f3.u32_1;
        v6 = a1->f3.u32_2;
        v7 = a1->f3.u32_3;
        v8 = a1->f3.u32_4;
        v9 = a1->f3.u32_5;
        v10.f0 = v7;
        v10.f1 = v8;
        v10.f2 = v9;
        v13 = c2_acts__task_of(v3, v6);
        v12 = c2_figure__Figure__act_left(&v2, v13, &v10);
        v14 = c2_figure__Figure__stage_left(&v2, v3, v6);
        v15 = v12 + v14;
        v16 = c2_figure__Figure__after_left(&v2, v3, v4, v5);
        v11 = v15 + v16;
        break;
    default: /* 1 */
        v11 = UINT64_C(0);
        break;
    }
    result = v11;
    return result;
}

/* c2::left::c2_steps_left */
static c2_remaining c2__left__c2_steps_left(slice_u8 a1)
{
    c2_remaining result;
    c2_session__Point v2;
    c2_session__Session v3;
    core__Option_Point v4;
    uint32_t v5;
    numbers__Refusal v6;
    c2_outcome__Outcome v7;
    c2_session__Point v8;
    uint64_t v9;
    uint64_t v10;
    v4 = c2_record__held__point(a1);
    switch (v4.tag) {
    case 1u:
        v2.tag = v4.c2_session__Point_0.tag;
        v2.c2_acts__Stage_0 = v4.c2_session__Point_0.c2_acts__Stage_0;
        v2.u32_0 = v4.c2_session__Point_0.u32_0;
        v2.u32_1 = v4.c2_session__Point_0.u32_1;
        v2.u32_2 = v4.c2_session__Point_0.u32_2;
        v2.u32_3 = v4.c2_session__Point_0.u32_3;
        v2.u32_4 = v4.c2_session__Point_0.u32_4;
        v2.u32_5 = v4.c2_session__Point_0.u32_5;
        break;
    default: /* 0 */
        v6 = 5u;
        v5 = core__AnyInto__into_Refusal_u32(v6);
        result.number = v5;
        result.steps = UINT64_C(0);
        return result;
    }
    v3 = c2_record__read__session(a1, &v2);
    v8.tag = v3.f3.tag;
    v8.c2_acts__Stage_0 = v3.f3.c2_acts__Stage_0;
    v8.u32_0 = v3.f3.u32_0;
    v8.u32_1 = v3.f3.u32_1;
    v8.u32_2 = v3.f3.u32_2;
    v8.u32_3 = v3.f3.u32_3;
    v8.u32_4 = v3.f3.u32_4;
    v8.u32_5 = v3.f3.u32_5;
    v7 = c2_outcome__outcome_of(&v8);
    v9 = c2_figure__left__steps_left(&v3);
    v10 = v9;
    result.number = v7.f0;
    result.steps = v10;
    return result;
}

c2_opened c2_open(uint8_t *record, size_t record_len, const uint8_t *image, size_t image_len,
    c2_settings settings, uint32_t first_page)
{
    uint8_t none8 = 0;
    slice_mut_u8 record_slice;
    record_slice.at = record_len != 0 ? record : &none8;
    record_slice.length = record_len;
    slice_u8 image_slice;
    image_slice.at = image_len != 0 ? image : &none8;
    image_slice.length = image_len;
    return c2__open__c2_open(record_slice, image_slice, &settings, first_page);
}

c2_advanced c2_advance(uint8_t *record, size_t record_len, const uint8_t *image, size_t image_len,
    const uint8_t *replies, size_t replies_len, uint8_t *steps, size_t steps_len, size_t place)
{
    uint8_t none8 = 0;
    slice_mut_u8 record_slice;
    record_slice.at = record_len != 0 ? record : &none8;
    record_slice.length = record_len;
    slice_u8 image_slice;
    image_slice.at = image_len != 0 ? image : &none8;
    image_slice.length = image_len;
    slice_u8 replies_slice;
    replies_slice.at = replies_len != 0 ? replies : &none8;
    replies_slice.length = replies_len;
    slice_mut_u8 steps_slice;
    steps_slice.at = steps_len != 0 ? steps : &none8;
    steps_slice.length = steps_len;
    return c2__advance__c2_advance(record_slice, image_slice, replies_slice, steps_slice, place);
}

c2_remaining c2_steps_left(const uint8_t *record, size_t record_len)
{
    uint8_t none8 = 0;
    slice_u8 record_slice;
    record_slice.at = record_len != 0 ? record : &none8;
    record_slice.length = record_len;
    return c2__left__c2_steps_left(record_slice);
}
