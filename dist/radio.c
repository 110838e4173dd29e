/* Made from the MIR of crate radio, sha256 dcd84ccfaa84cd643ef6e2fd6920ed87785badccd68d2e933e16fd606b682fe6. */
/*
 * Made by `make c`, not to be edited. A function stands under its path in the proved code; one that is generic
 * there, as those of the library are, stands once for each of what it is given, under the end of its path and
 * its types. Its result is called result, its parameters a1, a2 .. and its other locals v.., by their numbers
 * in the MIR, and copies that a call wants c1, c2 .. A statement of the MIR is one statement here, but structs
 * and arrays are assigned member by member. An enum is its tag and the members that its variants share; of
 * what has no bits there is nothing. A length is 64 bits wide, as in the proof, whatever size_t is.
 */
#include <stddef.h>
#include <stdint.h>
#include "radio.h"

/* For what is the library's, and for closures: a call of each would cost more than what it does. */
#if defined(__GNUC__)
#define INLINED static inline __attribute__((always_inline))
#else
#define INLINED static inline
#endif

typedef uint8_t numbers__Refusal;

typedef uint8_t radio_command__CommandName;

typedef struct {
    radio_command__CommandName f0;
    uint8_t f1;
    uint8_t f2;
    uint8_t f3;
} radio_command__RadioCommand;

typedef struct {
    uint8_t tag;
    radio_command__RadioCommand radio_command__RadioCommand_0;
} core__Option_RadioCommand;

typedef struct {
    uint8_t tag;
    radio_command__CommandName radio_command__CommandName_0;
} core__ControlFlow_NoValue_CommandName;

typedef struct {
    uint8_t tag;
    radio_command__CommandName radio_command__CommandName_0;
} core__Option_CommandName;

typedef struct {
    const uint8_t *at;
    uint64_t length;
} slice_u8;

typedef struct {
    uint8_t *at;
    uint64_t length;
} slice_mut_u8;

typedef struct {
    uint8_t at[8];
} array_8_u8;

typedef struct {
    uint8_t tag;
    numbers__Refusal numbers__Refusal_0;
} core__Result_unit_Refusal;

typedef struct {
    uint8_t tag;
    uint8_t *mut_array_520_u8_0;
} core__Option_mut_array_520_u8;

typedef struct {
    uint8_t at[4];
} array_4_u8;

typedef struct {
    uint8_t f0;
    uint8_t f1;
    uint32_t f2;
    uint32_t f3;
    uint32_t f4;
} radio_record__JobFields;

typedef struct {
    uint32_t f0;
    uint32_t f1;
    uint32_t f2;
} radio_job__Ending;

typedef struct {
    uint8_t tag;
    uint64_t u64_0;
    radio_job__Ending radio_job__Ending_0;
} radio_job__JobPoint;

typedef struct {
    const uint8_t *at;
    uint64_t length;
} slice_array_520_u8;

typedef struct {
    uint8_t tag;
    const uint8_t *ref_array_520_u8_0;
} core__Result_ref_array_520_u8_TryFromSliceError;

typedef struct {
    uint8_t tag;
    uint8_t *mut_array_256_u8_0;
} core__Option_mut_array_256_u8;

typedef struct {
    radio_job__JobPoint f0;
    slice_u8 f1;
} radio_point__fits__PointOf;

typedef struct {
    uint8_t tag;
    radio_point__fits__PointOf radio_point__fits__PointOf_0;
} core__Option_PointOf;

typedef struct {
    uint8_t tag;
    uint8_t u8_0;
} core__Result_u8_AllocError;

typedef struct {
    uint8_t tag;
    uint64_t u64_0;
} core__Option_u64;

typedef struct {
    uint8_t tag;
    radio_job__Ending radio_job__Ending_0;
} core__Result_unit_Ending;

typedef struct {
    radio_job__Ending f0;
} core__ErrResidual_Ending;

typedef struct {
    uint8_t tag;
    core__ErrResidual_Ending core__ErrResidual_Ending_0;
} core__ControlFlow_ErrResidual_Ending_unit;

typedef struct {
    uint8_t at[256];
} array_256_u8;

typedef struct {
    uint64_t f0;
    radio_job__JobPoint f1;
} radio_record__JobKept;

typedef struct {
    uint8_t tag;
    radio_record__JobKept radio_record__JobKept_0;
} core__Option_JobKept;

typedef struct {
    uint8_t tag;
    radio_job__JobPoint radio_job__JobPoint_0;
} core__ControlFlow_NoValue_JobPoint;

typedef struct {
    uint8_t tag;
    radio_job__JobPoint radio_job__JobPoint_0;
} core__Option_JobPoint;

typedef struct {
    uint8_t at[2];
} array_2_u8;

typedef struct {
    uint8_t tag;
    uint32_t u32_0;
    uint32_t u32_1;
} radio_target__ModulePoint;

typedef struct {
    uint32_t f0;
    uint32_t f1;
    uint32_t f2;
} core__tuple_u32_u32_u32;

typedef struct {
    uint8_t tag;
    radio_replied radio_target__RadioReplied_0;
    numbers__Refusal numbers__Refusal_0;
} core__Result_RadioReplied_Refusal;

typedef struct {
    numbers__Refusal f0;
} core__ErrResidual_Refusal;

typedef struct {
    uint8_t tag;
    radio_target__ModulePoint radio_target__ModulePoint_0;
    core__ErrResidual_Refusal core__ErrResidual_Refusal_0;
} core__ControlFlow_ErrResidual_Refusal_ModulePoint;

typedef struct {
    uint8_t tag;
    radio_target__ModulePoint radio_target__ModulePoint_0;
    numbers__Refusal numbers__Refusal_0;
} core__Result_ModulePoint_Refusal;

typedef struct {
    uint8_t tag;
    core__ErrResidual_Refusal core__ErrResidual_Refusal_0;
} core__ControlFlow_ErrResidual_Refusal_unit;

typedef uint8_t radio_deeds__ModuleError;

typedef struct {
    uint8_t tag;
    radio_command__CommandName radio_command__CommandName_0;
    radio_deeds__ModuleError radio_deeds__ModuleError_0;
} core__Result_CommandName_ModuleError;

typedef struct {
    uint8_t tag;
    uint64_t u64_0;
    uint8_t u8_0;
} radio_flash__FlashChange;

typedef struct {
    radio_command__RadioCommand f0;
    radio_flash__FlashChange f1;
    radio_target__ModulePoint f2;
} radio_target__Deed;

typedef struct {
    uint8_t tag;
    radio_target__Deed radio_target__Deed_0;
    radio_deeds__ModuleError radio_deeds__ModuleError_0;
} core__Result_Deed_ModuleError;

typedef struct {
    radio_deeds__ModuleError f0;
} core__ErrResidual_ModuleError;

typedef struct {
    uint8_t tag;
    radio_command__CommandName radio_command__CommandName_0;
    core__ErrResidual_ModuleError core__ErrResidual_ModuleError_0;
} core__ControlFlow_ErrResidual_ModuleError_CommandName;

typedef struct {
    uint8_t tag;
    uint8_t u8_0;
} core__Option_u8;

typedef struct {
    uint8_t tag;
    const uint8_t *ref_u8_0;
} core__Option_ref_u8;

/* numbers::U32FromRefusal::from */
static uint32_t numbers__U32FromRefusal__from(numbers__Refusal a1)
{
    uint32_t result;
    uint32_t v2;
    switch (a1) {
    case 0u:
        v2 = UINT32_C(1);
        break;
    case 1u:
        v2 = UINT32_C(2);
        break;
    case 2u:
        v2 = UINT32_C(3);
        break;
    case 3u:
        v2 = UINT32_C(4);
        break;
    case 4u:
        v2 = UINT32_C(5);
        break;
    case 5u:
        v2 = UINT32_C(6);
        break;
    case 6u:
        v2 = UINT32_C(7);
        break;
    case 7u:
        v2 = UINT32_C(8);
        break;
    case 8u:
        v2 = UINT32_C(16);
        break;
    case 9u:
        v2 = UINT32_C(17);
        break;
    case 10u:
        v2 = UINT32_C(18);
        break;
    case 11u:
        v2 = UINT32_C(19);
        break;
    case 12u:
        v2 = UINT32_C(20);
        break;
    case 13u:
        v2 = UINT32_C(21);
        break;
    case 14u:
        v2 = UINT32_C(22);
        break;
    case 15u:
        v2 = UINT32_C(23);
        break;
    case 16u:
        v2 = UINT32_C(24);
        break;
    case 17u:
        v2 = UINT32_C(25);
        break;
    case 18u:
        v2 = UINT32_C(26);
        break;
    case 19u:
        v2 = UINT32_C(28);
        break;
    case 20u:
        v2 = UINT32_C(29);
        break;
    case 21u:
        v2 = UINT32_C(30);
        break;
    default: /* 22 */
        v2 = UINT32_C(31);
        break;
    }
    result = v2;
    return result;
}

/* radio_command::U8FromCommandName::from */
static uint8_t radio_command__U8FromCommandName__from(radio_command__CommandName a1)
{
    uint8_t result;
    uint8_t v2;
    switch (a1) {
    case 0u:
        v2 = 75u;
        break;
    case 1u:
        v2 = 140u;
        break;
    case 2u:
        v2 = 107u;
        break;
    case 3u:
        v2 = 108u;
        break;
    case 4u:
        v2 = 105u;
        break;
    case 5u:
        v2 = 106u;
        break;
    case 6u:
        v2 = 109u;
        break;
    case 7u:
        v2 = 110u;
        break;
    case 8u:
        v2 = 88u;
        break;
    case 9u:
        v2 = 153u;
        break;
    case 10u:
        v2 = 112u;
        break;
    case 11u:
        v2 = 113u;
        break;
    default: /* 12 */
        v2 = 111u;
        break;
    }
    result = v2;
    return result;
}

/* core::OptionFromResidualNoValue::from_residual_Ra_d4af15 */
INLINED core__Option_RadioCommand core__OptionFromResidualNoValue__from_residual_Ra_d4af15(void)
{
    core__Option_RadioCommand result;
    result.tag = 0u;
    result.radio_command__RadioCommand_0.f0 = 0;
    result.radio_command__RadioCommand_0.f1 = 0;
    result.radio_command__RadioCommand_0.f2 = 0;
    result.radio_command__RadioCommand_0.f3 = 0;
    return result;
}

/* core::OptionTry::branch_CommandName */
INLINED core__ControlFlow_NoValue_CommandName core__OptionTry__branch_CommandName(
    const core__Option_CommandName *a1)
{
    core__ControlFlow_NoValue_CommandName result;
    radio_command__CommandName v2;
    core__ControlFlow_NoValue_CommandName v3;
    radio_command__CommandName v4;
    switch (a1->tag) {
    case 1u:
        v2 = a1->radio_command__CommandName_0;
        v4 = v2;
        v3.tag = 0u;
        v3.radio_command__CommandName_0 = v4;
        break;
    default: /* 0 */
        v3.tag = 1u;
        v3.radio_command__CommandName_0 = 0;
        break;
    }
    result.tag = v3.tag;
    result.radio_command__CommandName_0 = v3.radio_command__CommandName_0;
    return result;
}

/* radio_command::command::command_sum */
static uint8_t radio_command__command__command_sum(uint8_t a1, uint8_t a2, uint8_t a3, uint8_t a4, uint8_t a5)
{
    uint8_t result;
    uint8_t v6;
    uint8_t v7;
    uint8_t v8;
    v6 = (uint8_t)((unsigned)a1 + a2);
    v7 = (uint8_t)((unsigned)v6 + a3);
    v8 = (uint8_t)((unsigned)v7 + a4);
    result = (uint8_t)((unsigned)v8 + a5);
    return result;
}

/* radio_command::command::name_of */
static core__Option_CommandName radio_command__command__name_of(uint8_t a1)
{
    core__Option_CommandName result;
    core__Option_CommandName v2;
    radio_command__CommandName v3;
    radio_command__CommandName v4;
    radio_command__CommandName v5;
    radio_command__CommandName v6;
    radio_command__CommandName v7;
    radio_command__CommandName v8;
    radio_command__CommandName v9;
    radio_command__CommandName v10;
    radio_command__CommandName v11;
    radio_command__CommandName v12;
    radio_command__CommandName v13;
    radio_command__CommandName v14;
    radio_command__CommandName v15;
    switch (a1) {
    case 75u:
        v3 = 0u;
        v2.tag = 1u;
        v2.radio_command__CommandName_0 = v3;
        break;
    case 140u:
        v4 = 1u;
        v2.tag = 1u;
        v2.radio_command__CommandName_0 = v4;
        break;
    case 107u:
        v5 = 2u;
        v2.tag = 1u;
        v2.radio_command__CommandName_0 = v5;
        break;
    case 108u:
        v6 = 3u;
        v2.tag = 1u;
        v2.radio_command__CommandName_0 = v6;
        break;
    case 105u:
        v7 = 4u;
        v2.tag = 1u;
        v2.radio_command__CommandName_0 = v7;
        break;
    case 106u:
        v8 = 5u;
        v2.tag = 1u;
        v2.radio_command__CommandName_0 = v8;
        break;
    case 109u:
        v9 = 6u;
        v2.tag = 1u;
        v2.radio_command__CommandName_0 = v9;
        break;
    case 110u:
        v10 = 7u;
        v2.tag = 1u;
        v2.radio_command__CommandName_0 = v10;
        break;
    case 88u:
        v11 = 8u;
        v2.tag = 1u;
        v2.radio_command__CommandName_0 = v11;
        break;
    case 153u:
        v12 = 9u;
        v2.tag = 1u;
        v2.radio_command__CommandName_0 = v12;
        break;
    case 112u:
        v13 = 10u;
        v2.tag = 1u;
        v2.radio_command__CommandName_0 = v13;
        break;
    case 113u:
        v14 = 11u;
        v2.tag = 1u;
        v2.radio_command__CommandName_0 = v14;
        break;
    case 111u:
        v15 = 12u;
        v2.tag = 1u;
        v2.radio_command__CommandName_0 = v15;
        break;
    default:
        v2.tag = 0u;
        v2.radio_command__CommandName_0 = 0;
        break;
    }
    result.tag = v2.tag;
    result.radio_command__CommandName_0 = v2.radio_command__CommandName_0;
    return result;
}

/* radio_command::command::read_command */
static core__Option_RadioCommand radio_command__command__read_command(slice_u8 a1)
{
    core__Option_RadioCommand result;
    uint8_t v2;
    uint8_t v3;
    uint8_t v4;
    uint8_t v5;
    uint8_t v6;
    uint8_t v7;
    uint8_t v8;
    uint8_t v9;
    radio_command__CommandName v10;
    radio_command__CommandName v11;
    _Bool v13;
    const uint8_t *v14;
    const uint8_t *v15;
    const uint8_t *v16;
    const uint8_t *v17;
    const uint8_t *v18;
    const uint8_t *v19;
    const uint8_t *v20;
    const uint8_t *v21;
    core__ControlFlow_NoValue_CommandName v22;
    core__Option_CommandName v23;
    radio_command__CommandName v24;
    core__Option_RadioCommand v25;
    _Bool v26;
    _Bool v27;
    _Bool v28;
    uint8_t v29;
    uint8_t v30;
    _Bool v31;
    radio_command__RadioCommand v32;
    v13 = a1.length < UINT64_C(8);
    if (v13) {
        goto end2;
    }
    v13 = a1.length < UINT64_C(9);
    if (v13) {
        v14 = a1.at + (size_t)UINT64_C(0);
        v15 = a1.at + (size_t)UINT64_C(1);
        v16 = a1.at + (size_t)UINT64_C(2);
        v17 = a1.at + (size_t)UINT64_C(3);
        v18 = a1.at + (size_t)UINT64_C(4);
        v19 = a1.at + (size_t)UINT64_C(5);
        v20 = a1.at + (size_t)UINT64_C(6);
        v21 = a1.at + (size_t)UINT64_C(7);
        v2 = *v14;
        v3 = *v15;
        v4 = *v16;
        v5 = *v17;
        v6 = *v18;
        v7 = *v19;
        v8 = *v20;
        v9 = *v21;
        goto end1;
    }
    goto end2;
    end2:;
    result.tag = 0u;
    result.radio_command__RadioCommand_0.f0 = 0;
    result.radio_command__RadioCommand_0.f1 = 0;
    result.radio_command__RadioCommand_0.f2 = 0;
    result.radio_command__RadioCommand_0.f3 = 0;
    return result;
    end1:;
    v23 = radio_command__command__name_of(v5);
    v22 = core__OptionTry__branch_CommandName(&v23);
    switch (v22.tag) {
    case 0u:
        v11 = v22.radio_command__CommandName_0;
        v24 = v11;
        break;
    default: /* 1 */
        result = core__OptionFromResidualNoValue__from_residual_Ra_d4af15();
        return result;
    }
    v10 = v24;
    v28 = v2 == 165u;
    if (v28) {
        v28 = v3 == 90u;
        v27 = v28;
        if (v27) {
            v27 = v4 == 165u;
            v26 = v27;
            if (v26) {
                v30 = radio_command__U8FromCommandName__from(v10);
                v29 = radio_command__command__command_sum(v4, v30, v6, v7, v8);
                v26 = v9 == v29;
                v31 = v26;
                if (v31) {
                    v32.f0 = v10;
                    v32.f1 = v6;
                    v32.f2 = v7;
                    v32.f3 = v8;
                    v25.tag = 1u;
                    v25.radio_command__RadioCommand_0.f0 = v32.f0;
                    v25.radio_command__RadioCommand_0.f1 = v32.f1;
                    v25.radio_command__RadioCommand_0.f2 = v32.f2;
                    v25.radio_command__RadioCommand_0.f3 = v32.f3;
                    goto end3;
                }
            }
        }
    }
    v25.tag = 0u;
    v25.radio_command__RadioCommand_0.f0 = 0;
    v25.radio_command__RadioCommand_0.f1 = 0;
    v25.radio_command__RadioCommand_0.f2 = 0;
    v25.radio_command__RadioCommand_0.f3 = 0;
    end3:;
    result.tag = v25.tag;
    result.radio_command__RadioCommand_0.f0 = v25.radio_command__RadioCommand_0.f0;
    result.radio_command__RadioCommand_0.f1 = v25.radio_command__RadioCommand_0.f1;
    result.radio_command__RadioCommand_0.f2 = v25.radio_command__RadioCommand_0.f2;
    result.radio_command__RadioCommand_0.f3 = v25.radio_command__RadioCommand_0.f3;
    return result;
}

/* radio::command::radio_read */
static radio_command radio__command__radio_read(slice_u8 a1)
{
    radio_command result;
    radio_command__RadioCommand v2;
    core__Option_RadioCommand v3;
    radio_command v4;
    uint8_t v5;
    radio_command__CommandName v6;
    uint32_t v7;
    numbers__Refusal v8;
    v3 = radio_command__command__read_command(a1);
    switch (v3.tag) {
    case 1u:
        v2.f0 = v3.radio_command__RadioCommand_0.f0;
        v2.f1 = v3.radio_command__RadioCommand_0.f1;
        v2.f2 = v3.radio_command__RadioCommand_0.f2;
        v2.f3 = v3.radio_command__RadioCommand_0.f3;
        v6 = v2.f0;
        v5 = radio_command__U8FromCommandName__from(v6);
        v4.number = UINT32_C(0);
        v4.command = v5;
        v4.p0 = v2.f1;
        v4.p1 = v2.f2;
        v4.p2 = v2.f3;
        break;
    default: /* 0 */
        v8 = 19u;
        v7 = numbers__U32FromRefusal__from(v8);
        v4.number = v7;
        v4.command = 0u;
        v4.p0 = 0u;
        v4.p1 = 0u;
        v4.p2 = 0u;
        break;
    }
    result.number = v4.number;
    result.command = v4.command;
    result.p0 = v4.p0;
    result.p1 = v4.p1;
    result.p2 = v4.p2;
    return result;
}

/* core::slice::copy_from_slice */
INLINED void core__slice__copy_from_slice(slice_mut_u8 a1, slice_u8 a2)
{
    uint64_t v3;
    uint64_t v4;
    _Bool v5;
    const uint8_t *v6;
    uint8_t v7;
    uint8_t *v8;
    v3 = UINT64_C(0);
    for (;;) {
        v4 = a2.length;
        v5 = v3 < v4;
        if (!v5) {
            break;
        }
        v6 = a2.at + (size_t)v3;
        v7 = *v6;
        v8 = a1.at + (size_t)v3;
        *v8 = v7;
        v3 = v3 + UINT64_C(1);
    }
    return;
}

/* radio_command::command::build */
static array_8_u8 radio_command__command__build(const radio_command__RadioCommand *a1)
{
    array_8_u8 result;
    uint8_t v2;
    uint8_t v3;
    radio_command__CommandName v4;
    v4 = a1->f0;
    v2 = radio_command__U8FromCommandName__from(v4);
    v3 = radio_command__command__command_sum(165u, v2, a1->f1, a1->f2, a1->f3);
    result.at[0] = 165u;
    result.at[1] = 90u;
    result.at[2] = 165u;
    result.at[3] = v2;
    result.at[4] = a1->f1;
    result.at[5] = a1->f2;
    result.at[6] = a1->f3;
    result.at[7] = v3;
    return result;
}

/* radio_command::building::build_into */
static core__Result_unit_Refusal radio_command__building__build_into(uint8_t a1, uint8_t a2, uint8_t a3,
    uint8_t a4, slice_mut_u8 a5)
{
    core__Result_unit_Refusal result;
    radio_command__CommandName v6;
    core__Option_CommandName v7;
    numbers__Refusal v8;
    uint64_t v9;
    _Bool v10;
    numbers__Refusal v11;
    uint8_t *v13;
    slice_mut_u8 v14;
    array_8_u8 v15;
    radio_command__RadioCommand v16;
    array_8_u8 v17;
    const uint8_t *v18;
    slice_u8 v19;
    v7 = radio_command__command__name_of(a1);
    switch (v7.tag) {
    case 1u:
        v6 = v7.radio_command__CommandName_0;
        break;
    default: /* 0 */
        v8 = 19u;
        result.tag = 1u;
        result.numbers__Refusal_0 = v8;
        return result;
    }
    v9 = a5.length;
    v10 = v9 < UINT64_C(8);
    if (v10) {
        v11 = 18u;
        result.tag = 1u;
        result.numbers__Refusal_0 = v11;
        return result;
    }
    v13 = a5.at;
    v14.at = v13;
    v14.length = UINT64_C(8);
    v16.f0 = v6;
    v16.f1 = a2;
    v16.f2 = a3;
    v16.f3 = a4;
    v15 = radio_command__command__build(&v16);
    v17 = v15;
    v18 = v17.at;
    v19.at = v18;
    v19.length = UINT64_C(8);
    core__slice__copy_from_slice(v14, v19);
    result.tag = 0u;
    result.numbers__Refusal_0 = 0;
    return result;
}

/* radio::command::radio_build */
static uint32_t radio__command__radio_build(uint8_t a1, uint8_t a2, uint8_t a3, uint8_t a4, slice_mut_u8 a5)
{
    uint32_t result;
    numbers__Refusal v6;
    core__Result_unit_Refusal v7;
    uint8_t *v8;
    slice_mut_u8 v9;
    uint32_t v10;
    v8 = a5.at;
    v9.at = v8;
    v9.length = a5.length;
    v7 = radio_command__building__build_into(a1, a2, a3, a4, v9);
    switch (v7.tag) {
    case 0u:
        v10 = UINT32_C(0);
        break;
    default: /* 1 */
        v6 = v7.numbers__Refusal_0;
        v10 = numbers__U32FromRefusal__from(v6);
        break;
    }
    result = v10;
    return result;
}

/* core::chunk_mut::as_array_mut_u8_520 */
INLINED uint8_t *core__chunk_mut__as_array_mut_u8_520(slice_mut_u8 a1)
{
    uint8_t *result;
    uint8_t *v2;
    uint8_t *v3;
    v3 = a1.at;
    v2 = v3;
    result = v2;
    return result;
}

/* core::slice_T::as_mut_array_u8_520 */
INLINED core__Option_mut_array_520_u8 core__slice_T__as_mut_array_u8_520(slice_mut_u8 a1)
{
    core__Option_mut_array_520_u8 result;
    uint64_t v2;
    _Bool v3;
    uint8_t *v4;
    uint8_t *v5;
    slice_mut_u8 v6;
    v2 = a1.length;
    v3 = v2 != UINT64_C(520);
    if (v3) {
        result.tag = 0u;
        result.mut_array_520_u8_0 = 0;
        return result;
    }
    v5 = a1.at;
    v6.at = v5;
    v6.length = a1.length;
    v4 = core__chunk_mut__as_array_mut_u8_520(v6);
    result.tag = 1u;
    result.mut_array_520_u8_0 = v4;
    return result;
}

/* core::int::u32::to_le_bytes */
INLINED array_4_u8 core__int__u32__to_le_bytes(uint32_t a1)
{
    array_4_u8 result;
    uint32_t v2;
    uint8_t v3;
    uint32_t v4;
    uint32_t v5;
    uint8_t v6;
    uint32_t v7;
    uint32_t v8;
    uint8_t v9;
    uint32_t v10;
    uint32_t v11;
    uint8_t v12;
    v2 = (uint32_t)(a1 % UINT32_C(256));
    v3 = (uint8_t)v2;
    v4 = (uint32_t)(a1 / UINT32_C(256));
    v5 = (uint32_t)(v4 % UINT32_C(256));
    v6 = (uint8_t)v5;
    v7 = (uint32_t)(a1 / UINT32_C(65536));
    v8 = (uint32_t)(v7 % UINT32_C(256));
    v9 = (uint8_t)v8;
    v10 = (uint32_t)(a1 / UINT32_C(16777216));
    v11 = (uint32_t)(v10 % UINT32_C(256));
    v12 = (uint8_t)v11;
    result.at[0] = v3;
    result.at[1] = v6;
    result.at[2] = v9;
    result.at[3] = v12;
    return result;
}

/* core::int::usize::to_le_bytes */
INLINED array_8_u8 core__int__usize__to_le_bytes(uint64_t a1)
{
    array_8_u8 result;
    uint64_t v2;
    uint8_t v3;
    uint64_t v4;
    uint64_t v5;
    uint8_t v6;
    uint64_t v7;
    uint64_t v8;
    uint8_t v9;
    uint64_t v10;
    uint64_t v11;
    uint8_t v12;
    uint64_t v13;
    uint64_t v14;
    uint8_t v15;
    uint64_t v16;
    uint64_t v17;
    uint8_t v18;
    uint64_t v19;
    uint64_t v20;
    uint8_t v21;
    uint64_t v22;
    uint64_t v23;
    uint8_t v24;
    v2 = a1 % UINT64_C(256);
    v3 = (uint8_t)v2;
    v4 = a1 / UINT64_C(256);
    v5 = v4 % UINT64_C(256);
    v6 = (uint8_t)v5;
    v7 = a1 / UINT64_C(65536);
    v8 = v7 % UINT64_C(256);
    v9 = (uint8_t)v8;
    v10 = a1 / UINT64_C(16777216);
    v11 = v10 % UINT64_C(256);
    v12 = (uint8_t)v11;
    v13 = a1 / UINT64_C(4294967296);
    v14 = v13 % UINT64_C(256);
    v15 = (uint8_t)v14;
    v16 = a1 / UINT64_C(1099511627776);
    v17 = v16 % UINT64_C(256);
    v18 = (uint8_t)v17;
    v19 = a1 / UINT64_C(281474976710656);
    v20 = v19 % UINT64_C(256);
    v21 = (uint8_t)v20;
    v22 = a1 / UINT64_C(72057594037927936);
    v23 = v22 % UINT64_C(256);
    v24 = (uint8_t)v23;
    result.at[0] = v3;
    result.at[1] = v6;
    result.at[2] = v9;
    result.at[3] = v12;
    result.at[4] = v15;
    result.at[5] = v18;
    result.at[6] = v21;
    result.at[7] = v24;
    return result;
}

/* radio_record::write::stage_fields */
static radio_record__JobFields radio_record__write__stage_fields(uint8_t a1, uint64_t a2)
{
    radio_record__JobFields result;
    uint8_t v3;
    array_8_u8 v4;
    array_8_u8 v5;
    const uint8_t *v6;
    const uint8_t *v7;
    v4 = core__int__usize__to_le_bytes(a2);
    v5 = v4;
    v6 = v5.at;
    v7 = v6 + (size_t)UINT64_C(0);
    v3 = *v7;
    result.f0 = a1;
    result.f1 = v3;
    result.f2 = UINT32_C(0);
    result.f3 = UINT32_C(0);
    result.f4 = UINT32_C(0);
    return result;
}

/* radio_record::write::JobFieldsFromJobPoint::from */
static radio_record__JobFields radio_record__write__JobFieldsFromJobPoint__from(const radio_job__JobPoint *a1)
{
    radio_record__JobFields result;
    uint64_t v2;
    uint64_t v3;
    uint64_t v4;
    radio_job__Ending v5;
    radio_record__JobFields v6;
    switch (a1->tag) {
    case 0u:
        v6 = radio_record__write__stage_fields(0u, UINT64_C(0));
        break;
    case 1u:
        v6 = radio_record__write__stage_fields(1u, UINT64_C(0));
        break;
    case 2u:
        v6 = radio_record__write__stage_fields(2u, UINT64_C(0));
        break;
    case 3u:
        v2 = a1->u64_0;
        v6 = radio_record__write__stage_fields(3u, v2);
        break;
    case 4u:
        v6 = radio_record__write__stage_fields(4u, UINT64_C(0));
        break;
    case 5u:
        v6 = radio_record__write__stage_fields(5u, UINT64_C(0));
        break;
    case 6u:
        v6 = radio_record__write__stage_fields(6u, UINT64_C(0));
        break;
    case 7u:
        v3 = a1->u64_0;
        v6 = radio_record__write__stage_fields(7u, v3);
        break;
    case 8u:
        v4 = a1->u64_0;
        v6 = radio_record__write__stage_fields(8u, v4);
        break;
    case 9u:
        v6 = radio_record__write__stage_fields(9u, UINT64_C(0));
        break;
    default: /* 10 */
        v5.f0 = a1->radio_job__Ending_0.f0;
        v5.f1 = a1->radio_job__Ending_0.f1;
        v5.f2 = a1->radio_job__Ending_0.f2;
        v6.f0 = 0u;
        v6.f1 = 0u;
        v6.f2 = v5.f0;
        v6.f3 = v5.f1;
        v6.f4 = v5.f2;
        break;
    }
    result.f0 = v6.f0;
    result.f1 = v6.f1;
    result.f2 = v6.f2;
    result.f3 = v6.f3;
    result.f4 = v6.f4;
    return result;
}

/* radio_record::write::point_bytes */
static array_8_u8 radio_record__write__point_bytes(uint64_t a1, const radio_job__JobPoint *a2)
{
    array_8_u8 result;
    radio_record__JobFields v3;
    uint8_t v4;
    uint8_t v5;
    uint8_t v6;
    uint8_t v7;
    uint8_t v8;
    uint8_t v9;
    array_8_u8 v10;
    array_8_u8 v11;
    const uint8_t *v12;
    const uint8_t *v13;
    const uint8_t *v14;
    const uint8_t *v15;
    array_4_u8 v16;
    array_4_u8 v17;
    const uint8_t *v18;
    const uint8_t *v19;
    array_4_u8 v20;
    array_4_u8 v21;
    const uint8_t *v22;
    const uint8_t *v23;
    array_4_u8 v24;
    array_4_u8 v25;
    const uint8_t *v26;
    const uint8_t *v27;
    const uint8_t *v28;
    const uint8_t *v29;
    v3 = radio_record__write__JobFieldsFromJobPoint__from(a2);
    v10 = core__int__usize__to_le_bytes(a1);
    v11 = v10;
    v12 = v11.at;
    v13 = v12 + (size_t)UINT64_C(0);
    v14 = v11.at;
    v15 = v14 + (size_t)UINT64_C(1);
    v4 = *v13;
    v5 = *v15;
    v16 = core__int__u32__to_le_bytes(v3.f2);
    v17 = v16;
    v18 = v17.at;
    v19 = v18 + (size_t)UINT64_C(0);
    v6 = *v19;
    v20 = core__int__u32__to_le_bytes(v3.f3);
    v21 = v20;
    v22 = v21.at;
    v23 = v22 + (size_t)UINT64_C(0);
    v7 = *v23;
    v24 = core__int__u32__to_le_bytes(v3.f4);
    v25 = v24;
    v26 = v25.at;
    v27 = v26 + (size_t)UINT64_C(0);
    v28 = v25.at;
    v29 = v28 + (size_t)UINT64_C(1);
    v8 = *v27;
    v9 = *v29;
    result.at[0] = v4;
    result.at[1] = v5;
    result.at[2] = v3.f0;
    result.at[3] = v3.f1;
    result.at[4] = v6;
    result.at[5] = v7;
    result.at[6] = v8;
    result.at[7] = v9;
    return result;
}

/* radio_advance::keep::keep_point */
static void radio_advance__keep__keep_point(uint64_t a1, const radio_job__JobPoint *a2, uint8_t *a3)
{
    uint8_t *v5;
    uint8_t *v6;
    uint64_t v7;
    uint8_t *v8;
    slice_mut_u8 v9;
    array_8_u8 v10;
    array_8_u8 v11;
    const uint8_t *v12;
    slice_u8 v13;
    v5 = a3;
    v6 = v5 + (size_t)UINT64_C(512);
    v7 = UINT64_C(520) - UINT64_C(512);
    v8 = v6;
    v9.at = v8;
    v9.length = v7;
    v10 = radio_record__write__point_bytes(a1, a2);
    v11 = v10;
    v12 = v11.at;
    v13.at = v12;
    v13.length = UINT64_C(8);
    core__slice__copy_from_slice(v9, v13);
    return;
}

/* radio_calls::RadioOpenedFromRefusal::from */
static radio_opened radio_calls__RadioOpenedFromRefusal__from(numbers__Refusal a1)
{
    radio_opened result;
    uint32_t v2;
    v2 = numbers__U32FromRefusal__from(a1);
    result.number = v2;
    result.send = UINT32_C(0);
    result.expect = UINT32_C(0);
    return result;
}

/* radio_image::image_fits */
static _Bool radio_image__image_fits(uint64_t a1)
{
    _Bool result;
    _Bool v2;
    v2 = UINT64_C(1) <= a1;
    if (v2) {
        v2 = a1 <= UINT64_C(32256);
    }
    result = v2;
    return result;
}

/* radio_image::is_mask */
static _Bool radio_image__is_mask(slice_u8 a1)
{
    _Bool result;
    uint64_t v2;
    const uint8_t *v3;
    uint64_t v4;
    _Bool v5;
    const uint8_t *v6;
    _Bool v7;
    uint8_t v8;
    uint8_t v9;
    _Bool v10;
    v2 = UINT64_C(0);
    v4 = a1.length;
    for (;;) {
        v5 = v2 < v4;
        if (!v5) {
            break;
        }
        v6 = a1.at + (size_t)v2;
        v3 = v6;
        v8 = *v3;
        v7 = v8 != 0u;
        if (v7) {
            v9 = *v3;
            v7 = v9 != 255u;
            v10 = v7;
            if (v10) {
                result = 0;
                return result;
                goto end5;
            }
        }
        end5:;
        v2 = v2 + UINT64_C(1);
    }
    result = 1;
    return result;
}

/* radio_image::mask_fits */
static _Bool radio_image__mask_fits(slice_u8 a1)
{
    _Bool result;
    _Bool v2;
    _Bool v3;
    _Bool v4;
    uint64_t v5;
    const uint8_t *v6;
    uint8_t v7;
    const uint8_t *v8;
    uint8_t v9;
    v5 = a1.length;
    v4 = v5 == UINT64_C(256);
    if (v4) {
        v6 = a1.at + (size_t)UINT64_C(2);
        v7 = *v6;
        v4 = v7 == 0u;
    }
    v3 = v4;
    if (v3) {
        v8 = a1.at + (size_t)UINT64_C(3);
        v9 = *v8;
        v3 = v9 == 0u;
    }
    v2 = v3;
    if (v2) {
        v2 = radio_image__is_mask(a1);
    }
    result = v2;
    return result;
}

/* radio_image::input_refusal */
static core__Result_unit_Refusal radio_image__input_refusal(slice_u8 a1, uint64_t a2, uint64_t a3)
{
    core__Result_unit_Refusal result;
    _Bool v4;
    _Bool v5;
    _Bool v6;
    numbers__Refusal v7;
    _Bool v8;
    numbers__Refusal v9;
    v5 = radio_image__mask_fits(a1);
    v4 = !v5;
    if (!v4) {
        v4 = a2 != UINT64_C(256);
        v6 = v4;
        if (!v6) {
            goto end2;
        }
    }
    v7 = 20u;
    result.tag = 1u;
    result.numbers__Refusal_0 = v7;
    return result;
    goto end1;
    end2:;
    end1:;
    v5 = radio_image__image_fits(a3);
    v8 = !v5;
    if (v8) {
        v9 = 21u;
        result.tag = 1u;
        result.numbers__Refusal_0 = v9;
        return result;
    }
    result.tag = 0u;
    result.numbers__Refusal_0 = 0;
    return result;
}

/* core::arrays::first_unchecked_array_520_u8 */
INLINED const uint8_t *core__arrays__first_unchecked_array_520_u8(slice_array_520_u8 a1)
{
    const uint8_t *result;
    uint64_t v2;
    const uint8_t *v3;
    v2 = UINT64_C(0) * UINT64_C(520);
    v3 = a1.at + (size_t)v2;
    result = v3;
    return result;
}

/* core::chunks::arrays_u8_520 */
INLINED slice_array_520_u8 core__chunks__arrays_u8_520(slice_u8 a1, uint64_t a2)
{
    slice_array_520_u8 result;
    slice_array_520_u8 v3;
    const uint8_t *v4;
    v4 = a1.at;
    v3.at = v4;
    v3.length = a2;
    result.at = v3.at;
    result.length = v3.length;
    return result;
}

/* core::arrays::as_array_ref_u8_520 */
INLINED const uint8_t *core__arrays__as_array_ref_u8_520(slice_u8 a1)
{
    const uint8_t *result;
    slice_array_520_u8 v2;
    v2 = core__chunks__arrays_u8_520(a1, UINT64_C(1));
    result = core__arrays__first_unchecked_array_520_u8(v2);
    return result;
}

/* core::clones::ok_ref_array_520_u8_TryFromSliceError */
INLINED core__Result_ref_array_520_u8_TryFromSliceError core__clones__ok_ref_array_520_u8_TryFromSliceError(
    const uint8_t *a1)
{
    core__Result_ref_array_520_u8_TryFromSliceError result;
    const uint8_t *v2;
    v2 = a1;
    result.tag = 0u;
    result.ref_array_520_u8_0 = v2;
    return result;
}

/* core::RefArrayTryFromRefSlice::try_from_u8_520 */
INLINED core__Result_ref_array_520_u8_TryFromSliceError core__RefArrayTryFromRefSlice__try_from_u8_520(
    slice_u8 a1)
{
    core__Result_ref_array_520_u8_TryFromSliceError result;
    uint64_t v2;
    _Bool v3;
    const uint8_t *v5;
    v2 = a1.length;
    v3 = v2 != UINT64_C(520);
    if (v3) {
        result.tag = 1u;
        result.ref_array_520_u8_0 = 0;
        return result;
    }
    v5 = core__arrays__as_array_ref_u8_520(a1);
    result = core__clones__ok_ref_array_520_u8_TryFromSliceError(v5);
    return result;
}

/* core::chunk_mut::array_at_mut_u8_256 */
INLINED uint8_t *core__chunk_mut__array_at_mut_u8_256(slice_mut_u8 a1, uint64_t a2)
{
    uint8_t *result;
    uint8_t *v3;
    uint8_t *v4;
    uint64_t v5;
    uint8_t *v6;
    uint8_t *v7;
    v4 = a1.at;
    v5 = a2;
    v6 = v4 + (size_t)v5;
    v7 = v6;
    v3 = v7;
    result = v3;
    return result;
}

/* core::slice_T::first_chunk_mut_u8_256 */
INLINED core__Option_mut_array_256_u8 core__slice_T__first_chunk_mut_u8_256(slice_mut_u8 a1)
{
    core__Option_mut_array_256_u8 result;
    uint64_t v2;
    _Bool v3;
    uint8_t *v4;
    uint8_t *v5;
    slice_mut_u8 v6;
    v2 = a1.length;
    v3 = v2 < UINT64_C(256);
    if (v3) {
        result.tag = 0u;
        result.mut_array_256_u8_0 = 0;
        return result;
    }
    v5 = a1.at;
    v6.at = v5;
    v6.length = a1.length;
    v4 = core__chunk_mut__array_at_mut_u8_256(v6, UINT64_C(0));
    result.tag = 1u;
    result.mut_array_256_u8_0 = v4;
    return result;
}

/* core::int::usize::div_ceil */
INLINED uint64_t core__int__usize__div_ceil(uint64_t a1, uint64_t a2)
{
    uint64_t result;
    uint64_t v3;
    uint64_t v4;
    _Bool v5;
    uint64_t v6;
    v3 = a1 / a2;
    v4 = a1 % a2;
    v5 = v4 == UINT64_C(0);
    if (v5) {
        v6 = v3;
    } else {
        v6 = v3 + UINT64_C(1);
    }
    result = v6;
    return result;
}

/* radio_image::pages_for */
static uint64_t radio_image__pages_for(uint64_t a1)
{
    uint64_t result;
    result = core__int__usize__div_ceil(a1, UINT64_C(256));
    return result;
}

/* radio_point::fits::ending_fits */
static _Bool radio_point__fits__ending_fits(uint64_t a1, const radio_job__Ending *a2)
{
    _Bool result;
    _Bool v3;
    _Bool v4;
    _Bool v5;
    uint64_t v6;
    uint64_t v7;
    uint64_t v8;
    _Bool v9;
    switch (a2->f0) {
    case 42u:
        v4 = a2->f1 < UINT32_C(256);
        if (v4) {
            v4 = a2->f2 == UINT32_C(0);
        }
        v3 = v4;
        break;
    case 43u:
        v5 = a2->f1 == UINT32_C(0);
        if (v5) {
            v6 = (uint64_t)a2->f2;
            v7 = v6 / UINT64_C(256);
            v8 = radio_image__pages_for(a1);
            v5 = v7 < v8;
        }
        v3 = v5;
        break;
    case 28u:
    case 32u:
        v9 = a2->f1 == UINT32_C(0);
        if (v9) {
            v9 = a2->f2 == UINT32_C(0);
        }
        v3 = v9;
        break;
    default:
        v3 = 0;
        break;
    }
    result = v3;
    return result;
}

/* radio_point::fits::point_fits */
static _Bool radio_point__fits__point_fits(uint64_t a1, const radio_job__JobPoint *a2)
{
    _Bool result;
    uint64_t v3;
    radio_job__Ending v4;
    _Bool v5;
    uint64_t v6;
    switch (a2->tag) {
    case 3u:
        v3 = a2->u64_0;
        goto end2;
    case 7u:
        v3 = a2->u64_0;
        goto end2;
    case 8u:
        v3 = a2->u64_0;
        goto end2;
    case 10u:
        v4.f0 = a2->radio_job__Ending_0.f0;
        v4.f1 = a2->radio_job__Ending_0.f1;
        v4.f2 = a2->radio_job__Ending_0.f2;
        v5 = radio_point__fits__ending_fits(a1, &v4);
        goto end1;
    default: /* 0, 1, 2, 4, 5, 6, 9 */
        v5 = 1;
        goto end1;
    }
    end2:;
    v6 = radio_image__pages_for(a1);
    v5 = v3 < v6;
    end1:;
    result = v5;
    return result;
}

/* radio_point::fits::point_of */
static core__Option_PointOf radio_point__fits__point_of(const radio_job__JobPoint *a1, slice_u8 a2)
{
    core__Option_PointOf result;
    core__Option_PointOf v3;
    _Bool v4;
    uint64_t v5;
    uint64_t v6;
    _Bool v7;
    radio_point__fits__PointOf v8;
    v5 = a2.length;
    v4 = radio_image__image_fits(v5);
    if (v4) {
        v6 = a2.length;
        v4 = radio_point__fits__point_fits(v6, a1);
        v7 = v4;
        if (v7) {
            v8.f0.tag = a1->tag;
            v8.f0.u64_0 = a1->u64_0;
            v8.f0.radio_job__Ending_0.f0 = a1->radio_job__Ending_0.f0;
            v8.f0.radio_job__Ending_0.f1 = a1->radio_job__Ending_0.f1;
            v8.f0.radio_job__Ending_0.f2 = a1->radio_job__Ending_0.f2;
            v8.f1.at = a2.at;
            v8.f1.length = a2.length;
            v3.tag = 1u;
            v3.radio_point__fits__PointOf_0.f0.tag = v8.f0.tag;
            v3.radio_point__fits__PointOf_0.f0.u64_0 = v8.f0.u64_0;
            v3.radio_point__fits__PointOf_0.f0.radio_job__Ending_0.f0 = v8.f0.radio_job__Ending_0.f0;
            v3.radio_point__fits__PointOf_0.f0.radio_job__Ending_0.f1 = v8.f0.radio_job__Ending_0.f1;
            v3.radio_point__fits__PointOf_0.f0.radio_job__Ending_0.f2 = v8.f0.radio_job__Ending_0.f2;
            v3.radio_point__fits__PointOf_0.f1.at = v8.f1.at;
            v3.radio_point__fits__PointOf_0.f1.length = v8.f1.length;
            goto end1;
        }
    }
    v3.tag = 0u;
    v3.radio_point__fits__PointOf_0.f0.tag = 0;
    v3.radio_point__fits__PointOf_0.f0.u64_0 = 0;
    v3.radio_point__fits__PointOf_0.f0.radio_job__Ending_0.f0 = 0;
    v3.radio_point__fits__PointOf_0.f0.radio_job__Ending_0.f1 = 0;
    v3.radio_point__fits__PointOf_0.f0.radio_job__Ending_0.f2 = 0;
    v3.radio_point__fits__PointOf_0.f1.at = 0;
    v3.radio_point__fits__PointOf_0.f1.length = 0;
    end1:;
    result.tag = v3.tag;
    result.radio_point__fits__PointOf_0.f0.tag = v3.radio_point__fits__PointOf_0.f0.tag;
    result.radio_point__fits__PointOf_0.f0.u64_0 = v3.radio_point__fits__PointOf_0.f0.u64_0;
    result.radio_point__fits__PointOf_0.f0.radio_job__Ending_0.f0 = v3.radio_point__fits__PointOf_0.f0.radio_job__Ending_0.f0;
    result.radio_point__fits__PointOf_0.f0.radio_job__Ending_0.f1 = v3.radio_point__fits__PointOf_0.f0.radio_job__Ending_0.f1;
    result.radio_point__fits__PointOf_0.f0.radio_job__Ending_0.f2 = v3.radio_point__fits__PointOf_0.f0.radio_job__Ending_0.f2;
    result.radio_point__fits__PointOf_0.f1.at = v3.radio_point__fits__PointOf_0.f1.at;
    result.radio_point__fits__PointOf_0.f1.length = v3.radio_point__fits__PointOf_0.f1.length;
    return result;
}

/* radio_say::message::says */
static radio_advanced radio_say__message__says(uint32_t a1, uint32_t a2)
{
    radio_advanced result;
    result.number = UINT32_C(0);
    result.code = UINT32_C(0);
    result.offset = UINT32_C(0);
    result.send = a1;
    result.expect = a2;
    return result;
}

/* radio_calls::RadioAdvancedFromEnding::from */
static radio_advanced radio_calls__RadioAdvancedFromEnding__from(const radio_job__Ending *a1)
{
    radio_advanced result;
    result.number = a1->f0;
    result.code = a1->f1;
    result.offset = a1->f2;
    result.send = UINT32_C(0);
    result.expect = UINT32_C(0);
    return result;
}

/* radio_say::message::command */
static radio_advanced radio_say__message__command(radio_command__CommandName a1, uint8_t a2, uint8_t a3,
    uint8_t a4, uint8_t *a5)
{
    radio_advanced result;
    uint8_t *v7;
    slice_mut_u8 v8;
    array_8_u8 v9;
    radio_command__RadioCommand v10;
    array_8_u8 v11;
    const uint8_t *v12;
    slice_u8 v13;
    v7 = a5;
    v8.at = v7;
    v8.length = UINT64_C(8);
    v10.f0 = a1;
    v10.f1 = a2;
    v10.f2 = a3;
    v10.f3 = a4;
    v9 = radio_command__command__build(&v10);
    v11 = v9;
    v12 = v11.at;
    v13.at = v12;
    v13.length = UINT64_C(8);
    core__slice__copy_from_slice(v8, v13);
    result = radio_say__message__says(UINT32_C(8), UINT32_C(8));
    return result;
}

/* radio_say::message::configuration */
static radio_advanced radio_say__message__configuration(const uint8_t *a1, uint8_t *a2)
{
    radio_advanced result;
    uint8_t *v4;
    slice_mut_u8 v5;
    const uint8_t *v6;
    slice_u8 v7;
    v4 = a2;
    v5.at = v4;
    v5.length = UINT64_C(256);
    v6 = a1;
    v7.at = v6;
    v7.length = UINT64_C(256);
    core__slice__copy_from_slice(v5, v7);
    result = radio_say__message__says(UINT32_C(256), UINT32_C(8));
    return result;
}

/* core::int::usize::min */
INLINED uint64_t core__int__usize__min(uint64_t a1, uint64_t a2)
{
    uint64_t result;
    _Bool v3;
    uint64_t v4;
    v3 = a2 < a1;
    if (v3) {
        v4 = a2;
    } else {
        v4 = a1;
    }
    result = v4;
    return result;
}

/* core::clone::U8Clone::clone */
INLINED core__Result_u8_AllocError core__clone__U8Clone__clone(const uint8_t *a1)
{
    core__Result_u8_AllocError result;
    uint8_t v2;
    v2 = *a1;
    result.tag = 0u;
    result.u8_0 = v2;
    return result;
}

/* core::clone::surely_u8 */
INLINED uint8_t core__clone__surely_u8(const uint8_t *a1)
{
    uint8_t result;
    uint8_t v2;
    core__Result_u8_AllocError v3;
    uint8_t v4;
    v3 = core__clone__U8Clone__clone(a1);
    switch (v3.tag) {
    default: /* 0 */
        v2 = v3.u8_0;
        v4 = v2;
        break;
    }
    result = v4;
    return result;
}

/* core::slice_T::fill_u8 */
INLINED void core__slice_T__fill_u8(slice_mut_u8 a1, uint8_t a2)
{
    uint8_t v3;
    uint64_t v4;
    uint64_t v5;
    _Bool v6;
    uint64_t v7;
    _Bool v8;
    uint8_t v9;
    const uint8_t *v10;
    uint8_t *v11;
    uint8_t v12;
    uint64_t v13;
    uint64_t v14;
    uint8_t *v15;
    v3 = a2;
    v4 = a1.length;
    v6 = v4 == UINT64_C(0);
    if (v6) {
        return;
    }
    v5 = UINT64_C(0);
    for (;;) {
        v7 = v4 - UINT64_C(1);
        v8 = v5 < v7;
        if (!v8) {
            break;
        }
        v10 = &v3;
        v9 = core__clone__surely_u8(v10);
        v7 = v5;
        v11 = a1.at + (size_t)v7;
        *v11 = v9;
        v5 = v5 + UINT64_C(1);
    }
    v12 = v3;
    v13 = v4 - UINT64_C(1);
    v14 = v13;
    v15 = a1.at + (size_t)v14;
    *v15 = v12;
    return;
}

/* radio_image::put_page */
static void radio_image__put_page(slice_u8 a1, uint64_t a2, slice_mut_u8 a3)
{
    uint64_t v4;
    uint64_t v5;
    _Bool v6;
    uint64_t v7;
    uint64_t v8;
    uint64_t v9;
    _Bool v10;
    uint64_t v11;
    uint8_t *v13;
    slice_mut_u8 v14;
    uint8_t *v15;
    slice_mut_u8 v16;
    const uint8_t *v17;
    const uint8_t *v18;
    slice_u8 v19;
    v7 = a3.length;
    v6 = v7 != UINT64_C(256);
    if (!v6) {
        v9 = a1.length;
        v8 = radio_image__pages_for(v9);
        v6 = v8 <= a2;
        v10 = v6;
        if (!v10) {
            goto end2;
        }
    }
    return;
    goto end1;
    end2:;
    end1:;
    v4 = a2 * UINT64_C(256);
    v7 = a1.length;
    v11 = v4 + UINT64_C(256);
    v5 = core__int__usize__min(v7, v11);
    v13 = a3.at;
    v14.at = v13;
    v14.length = a3.length;
    core__slice_T__fill_u8(v14, 255u);
    v7 = v5 - v4;
    v15 = a3.at;
    v16.at = v15;
    v16.length = v7;
    v17 = a1.at + (size_t)v4;
    v11 = v5 - v4;
    v18 = v17;
    v19.at = v18;
    v19.length = v11;
    core__slice__copy_from_slice(v16, v19);
    return;
}

/* core::int::usize::saturating_sub */
INLINED uint64_t core__int__usize__saturating_sub(uint64_t a1, uint64_t a2)
{
    uint64_t result;
    _Bool v3;
    uint64_t v4;
    v3 = a2 <= a1;
    if (v3) {
        v4 = a1 - a2;
    } else {
        v4 = UINT64_C(0);
    }
    result = v4;
    return result;
}

/* radio_point::next::next_page */
static core__Option_u64 radio_point__next__next_page(uint64_t a1, uint64_t a2)
{
    core__Option_u64 result;
    uint64_t v3;
    uint64_t v4;
    _Bool v5;
    core__Option_u64 v6;
    uint64_t v7;
    v4 = radio_image__pages_for(a2);
    v3 = core__int__usize__saturating_sub(v4, UINT64_C(1));
    v5 = a1 < v3;
    if (v5) {
        v7 = a1 + UINT64_C(1);
        v6.tag = 1u;
        v6.u64_0 = v7;
    } else {
        v6.tag = 0u;
        v6.u64_0 = 0;
    }
    result.tag = v6.tag;
    result.u64_0 = v6.u64_0;
    return result;
}

/* radio_say::message::feed */
static radio_advanced radio_say__message__feed(uint64_t a1, slice_u8 a2, uint8_t *a3)
{
    radio_advanced result;
    uint8_t *v5;
    slice_mut_u8 v6;
    core__Option_u64 v7;
    uint64_t v8;
    radio_advanced v9;
    v5 = a3;
    v6.at = v5;
    v6.length = UINT64_C(256);
    radio_image__put_page(a2, a1, v6);
    v8 = a2.length;
    v7 = radio_point__next__next_page(a1, v8);
    switch (v7.tag) {
    case 1u:
        v9 = radio_say__message__says(UINT32_C(256), UINT32_C(0));
        break;
    default: /* 0 */
        v9 = radio_say__message__says(UINT32_C(256), UINT32_C(8));
        break;
    }
    result.number = v9.number;
    result.code = v9.code;
    result.offset = v9.offset;
    result.send = v9.send;
    result.expect = v9.expect;
    return result;
}

/* radio_say::point::say_at */
static radio_advanced radio_say__point__say_at(const radio_point__fits__PointOf *a1, const uint8_t *a2,
    uint8_t *a3)
{
    radio_advanced result;
    uint8_t v4;
    uint64_t v5;
    uint64_t v6;
    radio_job__Ending v7;
    radio_advanced v8;
    radio_command__CommandName v9;
    uint8_t *v10;
    uint64_t v11;
    uint64_t v12;
    radio_command__CommandName v13;
    uint8_t *v14;
    slice_u8 v15;
    uint8_t *v16;
    radio_command__CommandName v17;
    uint8_t *v18;
    uint8_t *v19;
    radio_command__CommandName v20;
    const uint8_t *v21;
    const uint8_t *v22;
    uint8_t v23;
    uint8_t *v24;
    radio_command__CommandName v25;
    uint8_t v26;
    uint8_t *v27;
    radio_command__CommandName v28;
    const uint8_t *v29;
    const uint8_t *v30;
    uint8_t v31;
    uint8_t *v32;
    switch (a1->f0.tag) {
    case 0u:
        v9 = 4u;
        v10 = a3;
        v8 = radio_say__message__command(v9, 127u, 0u, 0u, v10);
        break;
    case 1u:
        v8 = radio_say__message__says(UINT32_C(0), UINT32_C(256));
        break;
    case 2u:
        v12 = a1->f1.length;
        v11 = radio_image__pages_for(v12);
        v4 = (uint8_t)v11;
        v13 = 7u;
        v14 = a3;
        v8 = radio_say__message__command(v13, v4, 0u, 0u, v14);
        break;
    case 3u:
        v5 = a1->f0.u64_0;
        v15.at = a1->f1.at;
        v15.length = a1->f1.length;
        v16 = a3;
        v8 = radio_say__message__feed(v5, v15, v16);
        break;
    case 4u:
        v17 = 5u;
        v18 = a3;
        v8 = radio_say__message__command(v17, 127u, 0u, 0u, v18);
        break;
    case 5u:
        v19 = a3;
        v8 = radio_say__message__configuration(a2, v19);
        break;
    case 6u:
        v20 = 3u;
        v21 = a2;
        v22 = v21 + (size_t)UINT64_C(0);
        v23 = *v22;
        v24 = a3;
        v8 = radio_say__message__command(v20, 127u, 0u, v23, v24);
        break;
    case 7u:
        v6 = a1->f0.u64_0;
        v25 = 4u;
        v26 = (uint8_t)v6;
        v27 = a3;
        v8 = radio_say__message__command(v25, v26, 0u, 0u, v27);
        break;
    case 8u:
        v8 = radio_say__message__says(UINT32_C(0), UINT32_C(256));
        break;
    case 9u:
        v28 = 3u;
        v29 = a2;
        v30 = v29 + (size_t)UINT64_C(1);
        v31 = *v30;
        v32 = a3;
        v8 = radio_say__message__command(v28, 127u, 1u, v31, v32);
        break;
    default: /* 10 */
        v7.f0 = a1->f0.radio_job__Ending_0.f0;
        v7.f1 = a1->f0.radio_job__Ending_0.f1;
        v7.f2 = a1->f0.radio_job__Ending_0.f2;
        v8 = radio_calls__RadioAdvancedFromEnding__from(&v7);
        break;
    }
    result.number = v8.number;
    result.code = v8.code;
    result.offset = v8.offset;
    result.send = v8.send;
    result.expect = v8.expect;
    return result;
}

/* radio_say::point::say */
static radio_advanced radio_say__point__say(const radio_job__JobPoint *a1, slice_u8 a2, slice_u8 a3,
    slice_mut_u8 a4)
{
    radio_advanced result;
    const uint8_t *v5;
    radio_point__fits__PointOf v6;
    uint8_t *v7;
    core__Result_ref_array_520_u8_TryFromSliceError v8;
    core__Option_PointOf v9;
    core__Option_mut_array_256_u8 v10;
    uint8_t *v11;
    slice_mut_u8 v12;
    radio_point__fits__PointOf v13;
    uint8_t *v14;
    v8 = core__RefArrayTryFromRefSlice__try_from_u8_520(a3);
    switch (v8.tag) {
    case 0u:
        v5 = v8.ref_array_520_u8_0;
        break;
    default: /* 1 */
        result = radio_say__message__says(UINT32_C(0), UINT32_C(0));
        return result;
    }
    v9 = radio_point__fits__point_of(a1, a2);
    switch (v9.tag) {
    case 1u:
        v6.f0.tag = v9.radio_point__fits__PointOf_0.f0.tag;
        v6.f0.u64_0 = v9.radio_point__fits__PointOf_0.f0.u64_0;
        v6.f0.radio_job__Ending_0.f0 = v9.radio_point__fits__PointOf_0.f0.radio_job__Ending_0.f0;
        v6.f0.radio_job__Ending_0.f1 = v9.radio_point__fits__PointOf_0.f0.radio_job__Ending_0.f1;
        v6.f0.radio_job__Ending_0.f2 = v9.radio_point__fits__PointOf_0.f0.radio_job__Ending_0.f2;
        v6.f1.at = v9.radio_point__fits__PointOf_0.f1.at;
        v6.f1.length = v9.radio_point__fits__PointOf_0.f1.length;
        break;
    default: /* 0 */
        result = radio_say__message__says(UINT32_C(0), UINT32_C(0));
        return result;
    }
    v11 = a4.at;
    v12.at = v11;
    v12.length = a4.length;
    v10 = core__slice_T__first_chunk_mut_u8_256(v12);
    switch (v10.tag) {
    case 1u:
        v7 = v10.mut_array_256_u8_0;
        break;
    default: /* 0 */
        result = radio_say__message__says(UINT32_C(0), UINT32_C(0));
        return result;
    }
    v13.f0.tag = v6.f0.tag;
    v13.f0.u64_0 = v6.f0.u64_0;
    v13.f0.radio_job__Ending_0.f0 = v6.f0.radio_job__Ending_0.f0;
    v13.f0.radio_job__Ending_0.f1 = v6.f0.radio_job__Ending_0.f1;
    v13.f0.radio_job__Ending_0.f2 = v6.f0.radio_job__Ending_0.f2;
    v13.f1.at = v6.f1.at;
    v13.f1.length = v6.f1.length;
    v14 = v7;
    result = radio_say__point__say_at(&v13, v5, v14);
    return result;
}

/* radio_advance::open::open_job */
static radio_opened radio_advance__open__open_job(slice_mut_u8 a1, slice_u8 a2, slice_u8 a3, slice_u8 a4,
    slice_mut_u8 a5)
{
    radio_opened result;
    numbers__Refusal v6;
    uint8_t *v7;
    radio_advanced v8;
    core__Result_unit_Refusal v9;
    uint64_t v10;
    uint64_t v11;
    core__Option_mut_array_520_u8 v12;
    uint8_t *v13;
    slice_mut_u8 v14;
    numbers__Refusal v15;
    _Bool v16;
    numbers__Refusal v17;
    uint8_t *v19;
    slice_mut_u8 v20;
    uint8_t *v21;
    uint8_t *v22;
    uint8_t *v23;
    slice_mut_u8 v24;
    radio_job__JobPoint v25;
    uint8_t *v26;
    const uint8_t *v27;
    slice_u8 v28;
    uint8_t *v29;
    slice_mut_u8 v30;
    v10 = a4.length;
    v11 = a2.length;
    v9 = radio_image__input_refusal(a3, v10, v11);
    switch (v9.tag) {
    case 1u:
        v6 = v9.numbers__Refusal_0;
        result = radio_calls__RadioOpenedFromRefusal__from(v6);
        return result;
    default: /* 0 */
        break;
    }
    v13 = a1.at;
    v14.at = v13;
    v14.length = a1.length;
    v12 = core__slice_T__as_mut_array_u8_520(v14);
    switch (v12.tag) {
    case 1u:
        v7 = v12.mut_array_520_u8_0;
        break;
    default: /* 0 */
        v15 = 5u;
        result = radio_calls__RadioOpenedFromRefusal__from(v15);
        return result;
    }
    v10 = a5.length;
    v16 = v10 < UINT64_C(256);
    if (v16) {
        v17 = 18u;
        result = radio_calls__RadioOpenedFromRefusal__from(v17);
        return result;
    }
    v19 = v7;
    v20.at = v19;
    v20.length = UINT64_C(256);
    core__slice__copy_from_slice(v20, a4);
    v21 = v7;
    v22 = v21 + (size_t)UINT64_C(256);
    v11 = UINT64_C(512) - UINT64_C(256);
    v23 = v22;
    v24.at = v23;
    v24.length = v11;
    core__slice__copy_from_slice(v24, a3);
    v10 = a2.length;
    v25.tag = 0u;
    v25.u64_0 = 0;
    v25.radio_job__Ending_0.f0 = 0;
    v25.radio_job__Ending_0.f1 = 0;
    v25.radio_job__Ending_0.f2 = 0;
    v26 = v7;
    radio_advance__keep__keep_point(v10, &v25, v26);
    v25.tag = 0u;
    v25.u64_0 = 0;
    v25.radio_job__Ending_0.f0 = 0;
    v25.radio_job__Ending_0.f1 = 0;
    v25.radio_job__Ending_0.f2 = 0;
    v27 = v7;
    v28.at = v27;
    v28.length = UINT64_C(520);
    v29 = a5.at;
    v30.at = v29;
    v30.length = a5.length;
    v8 = radio_say__point__say(&v25, a2, v28, v30);
    result.number = UINT32_C(0);
    result.send = v8.send;
    result.expect = v8.expect;
    return result;
}

/* radio::job::radio_open */
static radio_opened radio__job__radio_open(slice_mut_u8 a1, slice_u8 a2, slice_u8 a3, slice_u8 a4,
    slice_mut_u8 a5)
{
    radio_opened result;
    uint8_t *v6;
    slice_mut_u8 v7;
    uint8_t *v8;
    slice_mut_u8 v9;
    v6 = a1.at;
    v7.at = v6;
    v7.length = a1.length;
    v8 = a5.at;
    v9.at = v8;
    v9.length = a5.length;
    result = radio_advance__open__open_job(v7, a2, a3, a4, v9);
    return result;
}

/* radio_advance::keep::merged_byte */
static uint8_t radio_advance__keep__merged_byte(uint8_t a1, uint8_t a2, uint8_t a3)
{
    uint8_t result;
    _Bool v4;
    uint8_t v5;
    v4 = a1 == 255u;
    if (v4) {
        v5 = a2;
    } else {
        v5 = a3;
    }
    result = v5;
    return result;
}

/* radio_advance::keep::merge */
static void radio_advance__keep__merge(uint8_t *a1, slice_u8 a2)
{
    uint64_t v3;
    const uint8_t *v4;
    uint64_t v5;
    _Bool v6;
    const uint8_t *v7;
    uint8_t v8;
    uint64_t v9;
    const uint8_t *v10;
    const uint8_t *v11;
    uint8_t v12;
    const uint8_t *v13;
    const uint8_t *v14;
    uint8_t v15;
    uint8_t v16;
    uint8_t *v17;
    uint8_t *v18;
    v3 = UINT64_C(0);
    v5 = a2.length;
    for (;;) {
        v6 = v3 < v5;
        if (!v6) {
            break;
        }
        v7 = a2.at + (size_t)v3;
        v4 = v7;
        v9 = UINT64_C(256) + v3;
        v10 = a1;
        v11 = v10 + (size_t)v9;
        v12 = *v11;
        v13 = a1;
        v14 = v13 + (size_t)v3;
        v15 = *v14;
        v16 = *v4;
        v8 = radio_advance__keep__merged_byte(v12, v15, v16);
        v17 = a1;
        v18 = v17 + (size_t)v3;
        *v18 = v8;
        v3 = v3 + UINT64_C(1);
    }
    return;
}

/* radio_advance::keep::keep_page */
static void radio_advance__keep__keep_page(const radio_job__JobPoint *a1, uint8_t *a2, slice_u8 a3)
{
    _Bool v4;
    _Bool v5;
    uint64_t v6;
    _Bool v7;
    uint8_t *v9;
    switch (a1->tag) {
    case 1u:
        v5 = 1;
        break;
    default: /* 0, 2, 3, 4, 5, 6, 7, 8, 9, 10 */
        v5 = 0;
        break;
    }
    v4 = v5;
    if (v4) {
        v6 = a3.length;
        v4 = v6 == UINT64_C(256);
        v7 = v4;
        if (v7) {
            v9 = a2;
            radio_advance__keep__merge(v9, a3);
            goto end1;
        }
    }
    end1:;
    return;
}

/* radio_calls::RadioAdvancedFromRefusal::from */
static radio_advanced radio_calls__RadioAdvancedFromRefusal__from(numbers__Refusal a1)
{
    radio_advanced result;
    uint32_t v2;
    v2 = numbers__U32FromRefusal__from(a1);
    result.number = v2;
    result.code = UINT32_C(0);
    result.offset = UINT32_C(0);
    result.send = UINT32_C(0);
    result.expect = UINT32_C(0);
    return result;
}

/* core::convert::U32FromU8::from */
INLINED uint32_t core__convert__U32FromU8__from(uint8_t a1)
{
    uint32_t result;
    result = (uint32_t)a1;
    return result;
}

/* radio_point::ending::ends */
static radio_job__Ending radio_point__ending__ends(uint32_t a1)
{
    radio_job__Ending result;
    result.f0 = a1;
    result.f1 = UINT32_C(0);
    result.f2 = UINT32_C(0);
    return result;
}

/* radio_point::ending::answer_ending */
static core__Result_unit_Ending radio_point__ending__answer_ending(slice_u8 a1)
{
    core__Result_unit_Ending result;
    radio_command__RadioCommand v2;
    core__Option_RadioCommand v3;
    radio_job__Ending v4;
    core__Result_unit_Ending v5;
    uint32_t v6;
    radio_job__Ending v7;
    radio_job__Ending v8;
    v3 = radio_command__command__read_command(a1);
    switch (v3.tag) {
    case 1u:
        v2.f0 = v3.radio_command__RadioCommand_0.f0;
        v2.f1 = v3.radio_command__RadioCommand_0.f1;
        v2.f2 = v3.radio_command__RadioCommand_0.f2;
        v2.f3 = v3.radio_command__RadioCommand_0.f3;
        break;
    default: /* 0 */
        v4 = radio_point__ending__ends(UINT32_C(28));
        result.tag = 1u;
        result.radio_job__Ending_0.f0 = v4.f0;
        result.radio_job__Ending_0.f1 = v4.f1;
        result.radio_job__Ending_0.f2 = v4.f2;
        return result;
    }
    switch (v2.f0) {
    case 8u:
        v5.tag = 0u;
        v5.radio_job__Ending_0.f0 = 0;
        v5.radio_job__Ending_0.f1 = 0;
        v5.radio_job__Ending_0.f2 = 0;
        break;
    case 9u:
        v6 = core__convert__U32FromU8__from(v2.f1);
        v7.f0 = UINT32_C(42);
        v7.f1 = v6;
        v7.f2 = UINT32_C(0);
        v5.tag = 1u;
        v5.radio_job__Ending_0.f0 = v7.f0;
        v5.radio_job__Ending_0.f1 = v7.f1;
        v5.radio_job__Ending_0.f2 = v7.f2;
        break;
    default: /* 0, 1, 2, 3, 4, 5, 6, 7, 10, 11, 12 */
        v8 = radio_point__ending__ends(UINT32_C(28));
        v5.tag = 1u;
        v5.radio_job__Ending_0.f0 = v8.f0;
        v5.radio_job__Ending_0.f1 = v8.f1;
        v5.radio_job__Ending_0.f2 = v8.f2;
        break;
    }
    result.tag = v5.tag;
    result.radio_job__Ending_0.f0 = v5.radio_job__Ending_0.f0;
    result.radio_job__Ending_0.f1 = v5.radio_job__Ending_0.f1;
    result.radio_job__Ending_0.f2 = v5.radio_job__Ending_0.f2;
    return result;
}

/* radio_point::ending::length_ending */
static core__Result_unit_Ending radio_point__ending__length_ending(uint64_t a1, slice_u8 a2)
{
    core__Result_unit_Ending result;
    uint64_t v3;
    _Bool v4;
    core__Result_unit_Ending v5;
    radio_job__Ending v6;
    v3 = a2.length;
    v4 = v3 == a1;
    if (v4) {
        v5.tag = 0u;
        v5.radio_job__Ending_0.f0 = 0;
        v5.radio_job__Ending_0.f1 = 0;
        v5.radio_job__Ending_0.f2 = 0;
    } else {
        v6 = radio_point__ending__ends(UINT32_C(28));
        v5.tag = 1u;
        v5.radio_job__Ending_0.f0 = v6.f0;
        v5.radio_job__Ending_0.f1 = v6.f1;
        v5.radio_job__Ending_0.f2 = v6.f2;
    }
    result.tag = v5.tag;
    result.radio_job__Ending_0.f0 = v5.radio_job__Ending_0.f0;
    result.radio_job__Ending_0.f1 = v5.radio_job__Ending_0.f1;
    result.radio_job__Ending_0.f2 = v5.radio_job__Ending_0.f2;
    return result;
}

/* radio_point::ending::feed_ending */
static core__Result_unit_Ending radio_point__ending__feed_ending(uint64_t a1, slice_u8 a2, slice_u8 a3)
{
    core__Result_unit_Ending result;
    core__Option_u64 v4;
    uint64_t v5;
    core__Result_unit_Ending v6;
    v5 = a2.length;
    v4 = radio_point__next__next_page(a1, v5);
    switch (v4.tag) {
    case 1u:
        v6 = radio_point__ending__length_ending(UINT64_C(0), a3);
        break;
    default: /* 0 */
        v6 = radio_point__ending__answer_ending(a3);
        break;
    }
    result.tag = v6.tag;
    result.radio_job__Ending_0.f0 = v6.radio_job__Ending_0.f0;
    result.radio_job__Ending_0.f1 = v6.radio_job__Ending_0.f1;
    result.radio_job__Ending_0.f2 = v6.radio_job__Ending_0.f2;
    return result;
}

/* core::AnyFrom::from_Ending */
INLINED radio_job__Ending core__AnyFrom__from_Ending(const radio_job__Ending *a1)
{
    radio_job__Ending result;
    result.f0 = a1->f0;
    result.f1 = a1->f1;
    result.f2 = a1->f2;
    return result;
}

/* core::ResultFromResidualErrResidual::from_residua_7ad5d2 */
INLINED core__Result_unit_Ending core__ResultFromResidualErrResidual__from_residua_7ad5d2(
    const core__ErrResidual_Ending *a1)
{
    core__Result_unit_Ending result;
    radio_job__Ending v2;
    radio_job__Ending v3;
    v3.f0 = a1->f0.f0;
    v3.f1 = a1->f0.f1;
    v3.f2 = a1->f0.f2;
    v2 = core__AnyFrom__from_Ending(&v3);
    result.tag = 1u;
    result.radio_job__Ending_0.f0 = v2.f0;
    result.radio_job__Ending_0.f1 = v2.f1;
    result.radio_job__Ending_0.f2 = v2.f2;
    return result;
}

/* core::ResultTry::branch_unit_Ending */
INLINED core__ControlFlow_ErrResidual_Ending_unit core__ResultTry__branch_unit_Ending(
    const core__Result_unit_Ending *a1)
{
    core__ControlFlow_ErrResidual_Ending_unit result;
    radio_job__Ending v3;
    core__ControlFlow_ErrResidual_Ending_unit v4;
    radio_job__Ending v6;
    core__ErrResidual_Ending v7;
    switch (a1->tag) {
    case 0u:
        v4.tag = 0u;
        v4.core__ErrResidual_Ending_0.f0.f0 = 0;
        v4.core__ErrResidual_Ending_0.f0.f1 = 0;
        v4.core__ErrResidual_Ending_0.f0.f2 = 0;
        break;
    default: /* 1 */
        v3.f0 = a1->radio_job__Ending_0.f0;
        v3.f1 = a1->radio_job__Ending_0.f1;
        v3.f2 = a1->radio_job__Ending_0.f2;
        v6.f0 = v3.f0;
        v6.f1 = v3.f1;
        v6.f2 = v3.f2;
        v7.f0.f0 = v6.f0;
        v7.f0.f1 = v6.f1;
        v7.f0.f2 = v6.f2;
        v4.tag = 1u;
        v4.core__ErrResidual_Ending_0.f0.f0 = v7.f0.f0;
        v4.core__ErrResidual_Ending_0.f0.f1 = v7.f0.f1;
        v4.core__ErrResidual_Ending_0.f0.f2 = v7.f0.f2;
        break;
    }
    result.tag = v4.tag;
    result.core__ErrResidual_Ending_0.f0.f0 = v4.core__ErrResidual_Ending_0.f0.f0;
    result.core__ErrResidual_Ending_0.f0.f1 = v4.core__ErrResidual_Ending_0.f0.f1;
    result.core__ErrResidual_Ending_0.f0.f2 = v4.core__ErrResidual_Ending_0.f0.f2;
    return result;
}

/* radio_point::ending::last_ending */
static core__Result_unit_Ending radio_point__ending__last_ending(slice_u8 a1)
{
    core__Result_unit_Ending result;
    core__ErrResidual_Ending v3;
    core__ControlFlow_ErrResidual_Ending_unit v4;
    core__Result_unit_Ending v5;
    radio_job__Ending v6;
    v5 = radio_point__ending__answer_ending(a1);
    v4 = core__ResultTry__branch_unit_Ending(&v5);
    switch (v4.tag) {
    case 0u:
        break;
    default: /* 1 */
        v3.f0.f0 = v4.core__ErrResidual_Ending_0.f0.f0;
        v3.f0.f1 = v4.core__ErrResidual_Ending_0.f0.f1;
        v3.f0.f2 = v4.core__ErrResidual_Ending_0.f0.f2;
        result = core__ResultFromResidualErrResidual__from_residua_7ad5d2(&v3);
        return result;
    }
    v6 = radio_point__ending__ends(UINT32_C(32));
    result.tag = 1u;
    result.radio_job__Ending_0.f0 = v6.f0;
    result.radio_job__Ending_0.f1 = v6.f1;
    result.radio_job__Ending_0.f2 = v6.f2;
    return result;
}

/* radio_image::shared */
static uint64_t radio_image__shared(slice_u8 a1, slice_u8 a2)
{
    uint64_t result;
    uint64_t v3;
    const uint8_t *v4;
    uint64_t v5;
    _Bool v6;
    const uint8_t *v7;
    _Bool v8;
    uint64_t v9;
    uint8_t v10;
    const uint8_t *v11;
    uint8_t v12;
    _Bool v13;
    v3 = UINT64_C(0);
    v5 = a1.length;
    for (;;) {
        v6 = v3 < v5;
        if (!v6) {
            break;
        }
        v7 = a1.at + (size_t)v3;
        v4 = v7;
        v9 = a2.length;
        v8 = v9 <= v3;
        if (!v8) {
            v10 = *v4;
            v11 = a2.at + (size_t)v3;
            v12 = *v11;
            v8 = v10 != v12;
            v13 = v8;
            if (!v13) {
                goto end6;
            }
        }
        result = v3;
        return result;
        goto end5;
        end6:;
        end5:;
        v3 = v3 + UINT64_C(1);
    }
    result = a1.length;
    return result;
}

/* radio_point::ending::page_ending */
static core__Result_unit_Ending radio_point__ending__page_ending(uint64_t a1, slice_u8 a2, slice_u8 a3)
{
    core__Result_unit_Ending result;
    core__ErrResidual_Ending v5;
    array_256_u8 v6;
    uint64_t v7;
    core__ControlFlow_ErrResidual_Ending_unit v8;
    core__Result_unit_Ending v9;
    uint8_t *v11;
    slice_mut_u8 v12;
    const uint8_t *v13;
    slice_u8 v14;
    _Bool v15;
    uint64_t v16;
    uint64_t v17;
    uint32_t v18;
    radio_job__Ending v19;
    v9 = radio_point__ending__length_ending(UINT64_C(256), a3);
    v8 = core__ResultTry__branch_unit_Ending(&v9);
    switch (v8.tag) {
    case 0u:
        break;
    default: /* 1 */
        v5.f0.f0 = v8.core__ErrResidual_Ending_0.f0.f0;
        v5.f0.f1 = v8.core__ErrResidual_Ending_0.f0.f1;
        v5.f0.f2 = v8.core__ErrResidual_Ending_0.f0.f2;
        result = core__ResultFromResidualErrResidual__from_residua_7ad5d2(&v5);
        return result;
    }
    for (uint32_t i = 0; i < UINT32_C(256); i++) {
        v6.at[i] = 0u;
    }
    v11 = v6.at;
    v12.at = v11;
    v12.length = UINT64_C(256);
    radio_image__put_page(a2, a1, v12);
    v13 = v6.at;
    v14.at = v13;
    v14.length = UINT64_C(256);
    v7 = radio_image__shared(a3, v14);
    v15 = v7 == UINT64_C(256);
    if (v15) {
        result.tag = 0u;
        result.radio_job__Ending_0.f0 = 0;
        result.radio_job__Ending_0.f1 = 0;
        result.radio_job__Ending_0.f2 = 0;
        return result;
    }
    v16 = UINT64_C(256) * a1;
    v17 = v16 + v7;
    v18 = (uint32_t)v17;
    v19.f0 = UINT32_C(43);
    v19.f1 = UINT32_C(0);
    v19.f2 = v18;
    result.tag = 1u;
    result.radio_job__Ending_0.f0 = v19.f0;
    result.radio_job__Ending_0.f1 = v19.f1;
    result.radio_job__Ending_0.f2 = v19.f2;
    return result;
}

/* radio_point::ending::reply_ending */
static core__Result_unit_Ending radio_point__ending__reply_ending(const radio_point__fits__PointOf *a1,
    slice_u8 a2)
{
    core__Result_unit_Ending result;
    uint64_t v3;
    uint64_t v4;
    radio_job__Ending v5;
    core__Result_unit_Ending v6;
    slice_u8 v7;
    slice_u8 v8;
    switch (a1->f0.tag) {
    case 1u:
        v6 = radio_point__ending__length_ending(UINT64_C(256), a2);
        break;
    case 3u:
        v3 = a1->f0.u64_0;
        v7.at = a1->f1.at;
        v7.length = a1->f1.length;
        v6 = radio_point__ending__feed_ending(v3, v7, a2);
        break;
    case 8u:
        v4 = a1->f0.u64_0;
        v8.at = a1->f1.at;
        v8.length = a1->f1.length;
        v6 = radio_point__ending__page_ending(v4, v8, a2);
        break;
    case 9u:
        v6 = radio_point__ending__last_ending(a2);
        break;
    case 10u:
        v5.f0 = a1->f0.radio_job__Ending_0.f0;
        v5.f1 = a1->f0.radio_job__Ending_0.f1;
        v5.f2 = a1->f0.radio_job__Ending_0.f2;
        v6.tag = 1u;
        v6.radio_job__Ending_0.f0 = v5.f0;
        v6.radio_job__Ending_0.f1 = v5.f1;
        v6.radio_job__Ending_0.f2 = v5.f2;
        break;
    default: /* 0, 2, 4, 5, 6, 7 */
        v6 = radio_point__ending__answer_ending(a2);
        break;
    }
    result.tag = v6.tag;
    result.radio_job__Ending_0.f0 = v6.radio_job__Ending_0.f0;
    result.radio_job__Ending_0.f1 = v6.radio_job__Ending_0.f1;
    result.radio_job__Ending_0.f2 = v6.radio_job__Ending_0.f2;
    return result;
}

/* radio_point::next::next_point */
static radio_job__JobPoint radio_point__next__next_point(const radio_job__JobPoint *a1, uint64_t a2)
{
    radio_job__JobPoint result;
    uint64_t v3;
    uint64_t v4;
    uint64_t v5;
    uint64_t v6;
    uint64_t v7;
    radio_job__JobPoint v8;
    core__Option_u64 v9;
    radio_job__JobPoint v10;
    core__Option_u64 v11;
    radio_job__JobPoint v12;
    radio_job__Ending v13;
    switch (a1->tag) {
    case 0u:
        v8.tag = 1u;
        v8.u64_0 = 0;
        v8.radio_job__Ending_0.f0 = 0;
        v8.radio_job__Ending_0.f1 = 0;
        v8.radio_job__Ending_0.f2 = 0;
        break;
    case 1u:
        v8.tag = 2u;
        v8.u64_0 = 0;
        v8.radio_job__Ending_0.f0 = 0;
        v8.radio_job__Ending_0.f1 = 0;
        v8.radio_job__Ending_0.f2 = 0;
        break;
    case 2u:
        v8.tag = 3u;
        v8.u64_0 = UINT64_C(0);
        v8.radio_job__Ending_0.f0 = 0;
        v8.radio_job__Ending_0.f1 = 0;
        v8.radio_job__Ending_0.f2 = 0;
        break;
    case 3u:
        v3 = a1->u64_0;
        v9 = radio_point__next__next_page(v3, a2);
        switch (v9.tag) {
        case 1u:
            v4 = v9.u64_0;
            v10.tag = 3u;
            v10.u64_0 = v4;
            v10.radio_job__Ending_0.f0 = 0;
            v10.radio_job__Ending_0.f1 = 0;
            v10.radio_job__Ending_0.f2 = 0;
            break;
        default: /* 0 */
            v10.tag = 4u;
            v10.u64_0 = 0;
            v10.radio_job__Ending_0.f0 = 0;
            v10.radio_job__Ending_0.f1 = 0;
            v10.radio_job__Ending_0.f2 = 0;
            break;
        }
        v8.tag = v10.tag;
        v8.u64_0 = v10.u64_0;
        v8.radio_job__Ending_0.f0 = v10.radio_job__Ending_0.f0;
        v8.radio_job__Ending_0.f1 = v10.radio_job__Ending_0.f1;
        v8.radio_job__Ending_0.f2 = v10.radio_job__Ending_0.f2;
        break;
    case 4u:
        v8.tag = 5u;
        v8.u64_0 = 0;
        v8.radio_job__Ending_0.f0 = 0;
        v8.radio_job__Ending_0.f1 = 0;
        v8.radio_job__Ending_0.f2 = 0;
        break;
    case 5u:
        v8.tag = 6u;
        v8.u64_0 = 0;
        v8.radio_job__Ending_0.f0 = 0;
        v8.radio_job__Ending_0.f1 = 0;
        v8.radio_job__Ending_0.f2 = 0;
        break;
    case 6u:
        v8.tag = 7u;
        v8.u64_0 = UINT64_C(0);
        v8.radio_job__Ending_0.f0 = 0;
        v8.radio_job__Ending_0.f1 = 0;
        v8.radio_job__Ending_0.f2 = 0;
        break;
    case 7u:
        v5 = a1->u64_0;
        v8.tag = 8u;
        v8.u64_0 = v5;
        v8.radio_job__Ending_0.f0 = 0;
        v8.radio_job__Ending_0.f1 = 0;
        v8.radio_job__Ending_0.f2 = 0;
        break;
    case 8u:
        v6 = a1->u64_0;
        v11 = radio_point__next__next_page(v6, a2);
        switch (v11.tag) {
        case 1u:
            v7 = v11.u64_0;
            v12.tag = 7u;
            v12.u64_0 = v7;
            v12.radio_job__Ending_0.f0 = 0;
            v12.radio_job__Ending_0.f1 = 0;
            v12.radio_job__Ending_0.f2 = 0;
            break;
        default: /* 0 */
            v12.tag = 9u;
            v12.u64_0 = 0;
            v12.radio_job__Ending_0.f0 = 0;
            v12.radio_job__Ending_0.f1 = 0;
            v12.radio_job__Ending_0.f2 = 0;
            break;
        }
        v8.tag = v12.tag;
        v8.u64_0 = v12.u64_0;
        v8.radio_job__Ending_0.f0 = v12.radio_job__Ending_0.f0;
        v8.radio_job__Ending_0.f1 = v12.radio_job__Ending_0.f1;
        v8.radio_job__Ending_0.f2 = v12.radio_job__Ending_0.f2;
        break;
    case 9u:
        v13 = radio_point__ending__ends(UINT32_C(32));
        v8.tag = 10u;
        v8.radio_job__Ending_0.f0 = v13.f0;
        v8.radio_job__Ending_0.f1 = v13.f1;
        v8.radio_job__Ending_0.f2 = v13.f2;
        v8.u64_0 = 0;
        break;
    default: /* 10 */
        v8.tag = a1->tag;
        v8.u64_0 = a1->u64_0;
        v8.radio_job__Ending_0.f0 = a1->radio_job__Ending_0.f0;
        v8.radio_job__Ending_0.f1 = a1->radio_job__Ending_0.f1;
        v8.radio_job__Ending_0.f2 = a1->radio_job__Ending_0.f2;
        break;
    }
    result.tag = v8.tag;
    result.u64_0 = v8.u64_0;
    result.radio_job__Ending_0.f0 = v8.radio_job__Ending_0.f0;
    result.radio_job__Ending_0.f1 = v8.radio_job__Ending_0.f1;
    result.radio_job__Ending_0.f2 = v8.radio_job__Ending_0.f2;
    return result;
}

/* radio_point::next::point_after */
static radio_job__JobPoint radio_point__next__point_after(const radio_job__JobPoint *a1, slice_u8 a2,
    slice_u8 a3)
{
    radio_job__JobPoint result;
    radio_point__fits__PointOf v4;
    radio_job__Ending v5;
    core__Option_PointOf v6;
    core__Result_unit_Ending v7;
    radio_point__fits__PointOf v8;
    radio_job__JobPoint v9;
    uint64_t v10;
    v6 = radio_point__fits__point_of(a1, a2);
    switch (v6.tag) {
    case 1u:
        v4.f0.tag = v6.radio_point__fits__PointOf_0.f0.tag;
        v4.f0.u64_0 = v6.radio_point__fits__PointOf_0.f0.u64_0;
        v4.f0.radio_job__Ending_0.f0 = v6.radio_point__fits__PointOf_0.f0.radio_job__Ending_0.f0;
        v4.f0.radio_job__Ending_0.f1 = v6.radio_point__fits__PointOf_0.f0.radio_job__Ending_0.f1;
        v4.f0.radio_job__Ending_0.f2 = v6.radio_point__fits__PointOf_0.f0.radio_job__Ending_0.f2;
        v4.f1.at = v6.radio_point__fits__PointOf_0.f1.at;
        v4.f1.length = v6.radio_point__fits__PointOf_0.f1.length;
        break;
    default: /* 0 */
        result.tag = a1->tag;
        result.u64_0 = a1->u64_0;
        result.radio_job__Ending_0.f0 = a1->radio_job__Ending_0.f0;
        result.radio_job__Ending_0.f1 = a1->radio_job__Ending_0.f1;
        result.radio_job__Ending_0.f2 = a1->radio_job__Ending_0.f2;
        return result;
    }
    v8.f0.tag = v4.f0.tag;
    v8.f0.u64_0 = v4.f0.u64_0;
    v8.f0.radio_job__Ending_0.f0 = v4.f0.radio_job__Ending_0.f0;
    v8.f0.radio_job__Ending_0.f1 = v4.f0.radio_job__Ending_0.f1;
    v8.f0.radio_job__Ending_0.f2 = v4.f0.radio_job__Ending_0.f2;
    v8.f1.at = v4.f1.at;
    v8.f1.length = v4.f1.length;
    v7 = radio_point__ending__reply_ending(&v8, a3);
    switch (v7.tag) {
    case 0u:
        v10 = a2.length;
        v9 = radio_point__next__next_point(a1, v10);
        break;
    default: /* 1 */
        v5.f0 = v7.radio_job__Ending_0.f0;
        v5.f1 = v7.radio_job__Ending_0.f1;
        v5.f2 = v7.radio_job__Ending_0.f2;
        v9.tag = 10u;
        v9.radio_job__Ending_0.f0 = v5.f0;
        v9.radio_job__Ending_0.f1 = v5.f1;
        v9.radio_job__Ending_0.f2 = v5.f2;
        v9.u64_0 = 0;
        break;
    }
    result.tag = v9.tag;
    result.u64_0 = v9.u64_0;
    result.radio_job__Ending_0.f0 = v9.radio_job__Ending_0.f0;
    result.radio_job__Ending_0.f1 = v9.radio_job__Ending_0.f1;
    result.radio_job__Ending_0.f2 = v9.radio_job__Ending_0.f2;
    return result;
}

/* core::OptionFromResidualNoValue::from_residual_JobKept */
INLINED core__Option_JobKept core__OptionFromResidualNoValue__from_residual_JobKept(void)
{
    core__Option_JobKept result;
    result.tag = 0u;
    result.radio_record__JobKept_0.f0 = 0;
    result.radio_record__JobKept_0.f1.tag = 0;
    result.radio_record__JobKept_0.f1.u64_0 = 0;
    result.radio_record__JobKept_0.f1.radio_job__Ending_0.f0 = 0;
    result.radio_record__JobKept_0.f1.radio_job__Ending_0.f1 = 0;
    result.radio_record__JobKept_0.f1.radio_job__Ending_0.f2 = 0;
    return result;
}

/* core::OptionTry::branch_JobPoint */
INLINED core__ControlFlow_NoValue_JobPoint core__OptionTry__branch_JobPoint(const core__Option_JobPoint *a1)
{
    core__ControlFlow_NoValue_JobPoint result;
    radio_job__JobPoint v2;
    core__ControlFlow_NoValue_JobPoint v3;
    radio_job__JobPoint v4;
    switch (a1->tag) {
    case 1u:
        v2.tag = a1->radio_job__JobPoint_0.tag;
        v2.u64_0 = a1->radio_job__JobPoint_0.u64_0;
        v2.radio_job__Ending_0.f0 = a1->radio_job__JobPoint_0.radio_job__Ending_0.f0;
        v2.radio_job__Ending_0.f1 = a1->radio_job__JobPoint_0.radio_job__Ending_0.f1;
        v2.radio_job__Ending_0.f2 = a1->radio_job__JobPoint_0.radio_job__Ending_0.f2;
        v4.tag = v2.tag;
        v4.u64_0 = v2.u64_0;
        v4.radio_job__Ending_0.f0 = v2.radio_job__Ending_0.f0;
        v4.radio_job__Ending_0.f1 = v2.radio_job__Ending_0.f1;
        v4.radio_job__Ending_0.f2 = v2.radio_job__Ending_0.f2;
        v3.tag = 0u;
        v3.radio_job__JobPoint_0.tag = v4.tag;
        v3.radio_job__JobPoint_0.u64_0 = v4.u64_0;
        v3.radio_job__JobPoint_0.radio_job__Ending_0.f0 = v4.radio_job__Ending_0.f0;
        v3.radio_job__JobPoint_0.radio_job__Ending_0.f1 = v4.radio_job__Ending_0.f1;
        v3.radio_job__JobPoint_0.radio_job__Ending_0.f2 = v4.radio_job__Ending_0.f2;
        break;
    default: /* 0 */
        v3.tag = 1u;
        v3.radio_job__JobPoint_0.tag = 0;
        v3.radio_job__JobPoint_0.u64_0 = 0;
        v3.radio_job__JobPoint_0.radio_job__Ending_0.f0 = 0;
        v3.radio_job__JobPoint_0.radio_job__Ending_0.f1 = 0;
        v3.radio_job__JobPoint_0.radio_job__Ending_0.f2 = 0;
        break;
    }
    result.tag = v3.tag;
    result.radio_job__JobPoint_0.tag = v3.radio_job__JobPoint_0.tag;
    result.radio_job__JobPoint_0.u64_0 = v3.radio_job__JobPoint_0.u64_0;
    result.radio_job__JobPoint_0.radio_job__Ending_0.f0 = v3.radio_job__JobPoint_0.radio_job__Ending_0.f0;
    result.radio_job__JobPoint_0.radio_job__Ending_0.f1 = v3.radio_job__JobPoint_0.radio_job__Ending_0.f1;
    result.radio_job__JobPoint_0.radio_job__Ending_0.f2 = v3.radio_job__JobPoint_0.radio_job__Ending_0.f2;
    return result;
}

/* core::convert::UsizeFromU16::from */
INLINED uint64_t core__convert__UsizeFromU16__from(uint16_t a1)
{
    uint64_t result;
    result = (uint64_t)a1;
    return result;
}

/* core::int::u16::from_le_bytes */
INLINED uint16_t core__int__u16__from_le_bytes(array_2_u8 a1)
{
    uint16_t result;
    array_2_u8 v2;
    const uint8_t *v3;
    const uint8_t *v4;
    uint8_t v5;
    uint16_t v6;
    const uint8_t *v7;
    const uint8_t *v8;
    uint8_t v9;
    uint16_t v10;
    uint16_t v11;
    v2 = a1;
    v3 = v2.at;
    v4 = v3 + (size_t)UINT64_C(0);
    v5 = *v4;
    v6 = (uint16_t)v5;
    v7 = v2.at;
    v8 = v7 + (size_t)UINT64_C(1);
    v9 = *v8;
    v10 = (uint16_t)v9;
    v11 = (uint16_t)((unsigned)v10 * 256u);
    result = (uint16_t)((unsigned)v6 + v11);
    return result;
}

/* core::slice::slices_equal */
INLINED _Bool core__slice__slices_equal(slice_u8 a1, slice_u8 a2)
{
    _Bool result;
    uint64_t v3;
    uint64_t v4;
    _Bool v5;
    const uint8_t *v6;
    const uint8_t *v7;
    _Bool v8;
    v5 = a1.length == a2.length;
    if (!v5) {
        result = 0;
        return result;
    }
    v8 = 1;
    v3 = UINT64_C(0);
    for (;;) {
        v4 = a2.length;
        v5 = v3 < v4;
        if (!v5) {
            break;
        }
        v6 = a1.at + (size_t)v3;
        v7 = a2.at + (size_t)v3;
        v5 = *v6 == *v7;
        if (!v5) {
            v8 = 0;
        }
        v3 = v3 + UINT64_C(1);
    }
    result = v8;
    return result;
}

/* core::RefSlicePartialEq::eq_u8 */
INLINED _Bool core__RefSlicePartialEq__eq_u8(const slice_u8 *a1, const slice_u8 *a2)
{
    _Bool result;
    slice_u8 v3;
    slice_u8 v4;
    v3.at = a1->at;
    v3.length = a1->length;
    v4.at = a2->at;
    v4.length = a2->length;
    result = core__slice__slices_equal(v3, v4);
    return result;
}

/* core::array_N_T::as_slice_u8_8 */
INLINED slice_u8 core__array_N_T__as_slice_u8_8(const uint8_t *a1)
{
    slice_u8 result;
    const uint8_t *v2;
    v2 = a1;
    result.at = v2;
    result.length = UINT64_C(8);
    return result;
}

/* radio_record::held::checked */
static core__Option_JobKept radio_record__held__checked(uint64_t a1, const radio_job__JobPoint *a2,
    slice_u8 a3)
{
    core__Option_JobKept result;
    slice_u8 v4;
    core__Option_JobKept v5;
    _Bool v6;
    _Bool v7;
    const slice_u8 *v8;
    slice_u8 v9;
    array_8_u8 v10;
    array_8_u8 v11;
    const uint8_t *v12;
    slice_u8 v13;
    const slice_u8 *v14;
    _Bool v15;
    radio_record__JobKept v16;
    v4.at = a3.at;
    v4.length = a3.length;
    v7 = radio_image__image_fits(a1);
    if (v7) {
        v7 = radio_point__fits__point_fits(a1, a2);
        v6 = v7;
        if (v6) {
            v8 = &v4;
            v10 = radio_record__write__point_bytes(a1, a2);
            v11 = v10;
            v12 = v11.at;
            v9 = core__array_N_T__as_slice_u8_8(v12);
            v13.at = v9.at;
            v13.length = v9.length;
            v14 = &v13;
            v6 = core__RefSlicePartialEq__eq_u8(v8, v14);
            v15 = v6;
            if (v15) {
                v16.f0 = a1;
                v16.f1.tag = a2->tag;
                v16.f1.u64_0 = a2->u64_0;
                v16.f1.radio_job__Ending_0.f0 = a2->radio_job__Ending_0.f0;
                v16.f1.radio_job__Ending_0.f1 = a2->radio_job__Ending_0.f1;
                v16.f1.radio_job__Ending_0.f2 = a2->radio_job__Ending_0.f2;
                v5.tag = 1u;
                v5.radio_record__JobKept_0.f0 = v16.f0;
                v5.radio_record__JobKept_0.f1.tag = v16.f1.tag;
                v5.radio_record__JobKept_0.f1.u64_0 = v16.f1.u64_0;
                v5.radio_record__JobKept_0.f1.radio_job__Ending_0.f0 = v16.f1.radio_job__Ending_0.f0;
                v5.radio_record__JobKept_0.f1.radio_job__Ending_0.f1 = v16.f1.radio_job__Ending_0.f1;
                v5.radio_record__JobKept_0.f1.radio_job__Ending_0.f2 = v16.f1.radio_job__Ending_0.f2;
                goto end1;
            }
        }
    }
    v5.tag = 0u;
    v5.radio_record__JobKept_0.f0 = 0;
    v5.radio_record__JobKept_0.f1.tag = 0;
    v5.radio_record__JobKept_0.f1.u64_0 = 0;
    v5.radio_record__JobKept_0.f1.radio_job__Ending_0.f0 = 0;
    v5.radio_record__JobKept_0.f1.radio_job__Ending_0.f1 = 0;
    v5.radio_record__JobKept_0.f1.radio_job__Ending_0.f2 = 0;
    end1:;
    result.tag = v5.tag;
    result.radio_record__JobKept_0.f0 = v5.radio_record__JobKept_0.f0;
    result.radio_record__JobKept_0.f1.tag = v5.radio_record__JobKept_0.f1.tag;
    result.radio_record__JobKept_0.f1.u64_0 = v5.radio_record__JobKept_0.f1.u64_0;
    result.radio_record__JobKept_0.f1.radio_job__Ending_0.f0 = v5.radio_record__JobKept_0.f1.radio_job__Ending_0.f0;
    result.radio_record__JobKept_0.f1.radio_job__Ending_0.f1 = v5.radio_record__JobKept_0.f1.radio_job__Ending_0.f1;
    result.radio_record__JobKept_0.f1.radio_job__Ending_0.f2 = v5.radio_record__JobKept_0.f1.radio_job__Ending_0.f2;
    return result;
}

/* core::convert::U32FromU16::from */
INLINED uint32_t core__convert__U32FromU16__from(uint16_t a1)
{
    uint32_t result;
    result = (uint32_t)a1;
    return result;
}

/* radio_record::read::read_fields */
static radio_record__JobFields radio_record__read__read_fields(const uint8_t *a1)
{
    radio_record__JobFields result;
    uint64_t v2;
    const uint8_t *v3;
    const uint8_t *v4;
    uint8_t v5;
    uint64_t v6;
    const uint8_t *v7;
    const uint8_t *v8;
    uint8_t v9;
    uint32_t v10;
    uint64_t v11;
    const uint8_t *v12;
    const uint8_t *v13;
    uint8_t v14;
    uint32_t v15;
    uint64_t v16;
    const uint8_t *v17;
    const uint8_t *v18;
    uint8_t v19;
    uint32_t v20;
    uint16_t v21;
    uint64_t v22;
    const uint8_t *v23;
    const uint8_t *v24;
    uint8_t v25;
    uint64_t v26;
    const uint8_t *v27;
    const uint8_t *v28;
    uint8_t v29;
    array_2_u8 v30;
    v2 = UINT64_C(512) + UINT64_C(2);
    v3 = a1;
    v4 = v3 + (size_t)v2;
    v5 = *v4;
    v6 = UINT64_C(512) + UINT64_C(3);
    v7 = a1;
    v8 = v7 + (size_t)v6;
    v9 = *v8;
    v11 = UINT64_C(512) + UINT64_C(4);
    v12 = a1;
    v13 = v12 + (size_t)v11;
    v14 = *v13;
    v10 = core__convert__U32FromU8__from(v14);
    v16 = UINT64_C(512) + UINT64_C(5);
    v17 = a1;
    v18 = v17 + (size_t)v16;
    v19 = *v18;
    v15 = core__convert__U32FromU8__from(v19);
    v22 = UINT64_C(512) + UINT64_C(6);
    v23 = a1;
    v24 = v23 + (size_t)v22;
    v25 = *v24;
    v26 = UINT64_C(512) + UINT64_C(7);
    v27 = a1;
    v28 = v27 + (size_t)v26;
    v29 = *v28;
    v30.at[0] = v25;
    v30.at[1] = v29;
    v21 = core__int__u16__from_le_bytes(v30);
    v20 = core__convert__U32FromU16__from(v21);
    result.f0 = v5;
    result.f1 = v9;
    result.f2 = v10;
    result.f3 = v15;
    result.f4 = v20;
    return result;
}

/* core::convert::UsizeFromU8::from */
INLINED uint64_t core__convert__UsizeFromU8__from(uint8_t a1)
{
    uint64_t result;
    result = (uint64_t)a1;
    return result;
}

/* radio_record::read::stage_point */
static core__Option_JobPoint radio_record__read__stage_point(uint8_t a1, uint64_t a2)
{
    core__Option_JobPoint result;
    core__Option_JobPoint v3;
    radio_job__JobPoint v4;
    radio_job__JobPoint v5;
    radio_job__JobPoint v6;
    radio_job__JobPoint v7;
    radio_job__JobPoint v8;
    radio_job__JobPoint v9;
    radio_job__JobPoint v10;
    radio_job__JobPoint v11;
    radio_job__JobPoint v12;
    radio_job__JobPoint v13;
    switch (a1) {
    case 0u:
        v4.tag = 0u;
        v4.u64_0 = 0;
        v4.radio_job__Ending_0.f0 = 0;
        v4.radio_job__Ending_0.f1 = 0;
        v4.radio_job__Ending_0.f2 = 0;
        v3.tag = 1u;
        v3.radio_job__JobPoint_0.tag = v4.tag;
        v3.radio_job__JobPoint_0.u64_0 = v4.u64_0;
        v3.radio_job__JobPoint_0.radio_job__Ending_0.f0 = v4.radio_job__Ending_0.f0;
        v3.radio_job__JobPoint_0.radio_job__Ending_0.f1 = v4.radio_job__Ending_0.f1;
        v3.radio_job__JobPoint_0.radio_job__Ending_0.f2 = v4.radio_job__Ending_0.f2;
        break;
    case 1u:
        v5.tag = 1u;
        v5.u64_0 = 0;
        v5.radio_job__Ending_0.f0 = 0;
        v5.radio_job__Ending_0.f1 = 0;
        v5.radio_job__Ending_0.f2 = 0;
        v3.tag = 1u;
        v3.radio_job__JobPoint_0.tag = v5.tag;
        v3.radio_job__JobPoint_0.u64_0 = v5.u64_0;
        v3.radio_job__JobPoint_0.radio_job__Ending_0.f0 = v5.radio_job__Ending_0.f0;
        v3.radio_job__JobPoint_0.radio_job__Ending_0.f1 = v5.radio_job__Ending_0.f1;
        v3.radio_job__JobPoint_0.radio_job__Ending_0.f2 = v5.radio_job__Ending_0.f2;
        break;
    case 2u:
        v6.tag = 2u;
        v6.u64_0 = 0;
        v6.radio_job__Ending_0.f0 = 0;
        v6.radio_job__Ending_0.f1 = 0;
        v6.radio_job__Ending_0.f2 = 0;
        v3.tag = 1u;
        v3.radio_job__JobPoint_0.tag = v6.tag;
        v3.radio_job__JobPoint_0.u64_0 = v6.u64_0;
        v3.radio_job__JobPoint_0.radio_job__Ending_0.f0 = v6.radio_job__Ending_0.f0;
        v3.radio_job__JobPoint_0.radio_job__Ending_0.f1 = v6.radio_job__Ending_0.f1;
        v3.radio_job__JobPoint_0.radio_job__Ending_0.f2 = v6.radio_job__Ending_0.f2;
        break;
    case 3u:
        v7.tag = 3u;
        v7.u64_0 = a2;
        v7.radio_job__Ending_0.f0 = 0;
        v7.radio_job__Ending_0.f1 = 0;
        v7.radio_job__Ending_0.f2 = 0;
        v3.tag = 1u;
        v3.radio_job__JobPoint_0.tag = v7.tag;
        v3.radio_job__JobPoint_0.u64_0 = v7.u64_0;
        v3.radio_job__JobPoint_0.radio_job__Ending_0.f0 = v7.radio_job__Ending_0.f0;
        v3.radio_job__JobPoint_0.radio_job__Ending_0.f1 = v7.radio_job__Ending_0.f1;
        v3.radio_job__JobPoint_0.radio_job__Ending_0.f2 = v7.radio_job__Ending_0.f2;
        break;
    case 4u:
        v8.tag = 4u;
        v8.u64_0 = 0;
        v8.radio_job__Ending_0.f0 = 0;
        v8.radio_job__Ending_0.f1 = 0;
        v8.radio_job__Ending_0.f2 = 0;
        v3.tag = 1u;
        v3.radio_job__JobPoint_0.tag = v8.tag;
        v3.radio_job__JobPoint_0.u64_0 = v8.u64_0;
        v3.radio_job__JobPoint_0.radio_job__Ending_0.f0 = v8.radio_job__Ending_0.f0;
        v3.radio_job__JobPoint_0.radio_job__Ending_0.f1 = v8.radio_job__Ending_0.f1;
        v3.radio_job__JobPoint_0.radio_job__Ending_0.f2 = v8.radio_job__Ending_0.f2;
        break;
    case 5u:
        v9.tag = 5u;
        v9.u64_0 = 0;
        v9.radio_job__Ending_0.f0 = 0;
        v9.radio_job__Ending_0.f1 = 0;
        v9.radio_job__Ending_0.f2 = 0;
        v3.tag = 1u;
        v3.radio_job__JobPoint_0.tag = v9.tag;
        v3.radio_job__JobPoint_0.u64_0 = v9.u64_0;
        v3.radio_job__JobPoint_0.radio_job__Ending_0.f0 = v9.radio_job__Ending_0.f0;
        v3.radio_job__JobPoint_0.radio_job__Ending_0.f1 = v9.radio_job__Ending_0.f1;
        v3.radio_job__JobPoint_0.radio_job__Ending_0.f2 = v9.radio_job__Ending_0.f2;
        break;
    case 6u:
        v10.tag = 6u;
        v10.u64_0 = 0;
        v10.radio_job__Ending_0.f0 = 0;
        v10.radio_job__Ending_0.f1 = 0;
        v10.radio_job__Ending_0.f2 = 0;
        v3.tag = 1u;
        v3.radio_job__JobPoint_0.tag = v10.tag;
        v3.radio_job__JobPoint_0.u64_0 = v10.u64_0;
        v3.radio_job__JobPoint_0.radio_job__Ending_0.f0 = v10.radio_job__Ending_0.f0;
        v3.radio_job__JobPoint_0.radio_job__Ending_0.f1 = v10.radio_job__Ending_0.f1;
        v3.radio_job__JobPoint_0.radio_job__Ending_0.f2 = v10.radio_job__Ending_0.f2;
        break;
    case 7u:
        v11.tag = 7u;
        v11.u64_0 = a2;
        v11.radio_job__Ending_0.f0 = 0;
        v11.radio_job__Ending_0.f1 = 0;
        v11.radio_job__Ending_0.f2 = 0;
        v3.tag = 1u;
        v3.radio_job__JobPoint_0.tag = v11.tag;
        v3.radio_job__JobPoint_0.u64_0 = v11.u64_0;
        v3.radio_job__JobPoint_0.radio_job__Ending_0.f0 = v11.radio_job__Ending_0.f0;
        v3.radio_job__JobPoint_0.radio_job__Ending_0.f1 = v11.radio_job__Ending_0.f1;
        v3.radio_job__JobPoint_0.radio_job__Ending_0.f2 = v11.radio_job__Ending_0.f2;
        break;
    case 8u:
        v12.tag = 8u;
        v12.u64_0 = a2;
        v12.radio_job__Ending_0.f0 = 0;
        v12.radio_job__Ending_0.f1 = 0;
        v12.radio_job__Ending_0.f2 = 0;
        v3.tag = 1u;
        v3.radio_job__JobPoint_0.tag = v12.tag;
        v3.radio_job__JobPoint_0.u64_0 = v12.u64_0;
        v3.radio_job__JobPoint_0.radio_job__Ending_0.f0 = v12.radio_job__Ending_0.f0;
        v3.radio_job__JobPoint_0.radio_job__Ending_0.f1 = v12.radio_job__Ending_0.f1;
        v3.radio_job__JobPoint_0.radio_job__Ending_0.f2 = v12.radio_job__Ending_0.f2;
        break;
    case 9u:
        v13.tag = 9u;
        v13.u64_0 = 0;
        v13.radio_job__Ending_0.f0 = 0;
        v13.radio_job__Ending_0.f1 = 0;
        v13.radio_job__Ending_0.f2 = 0;
        v3.tag = 1u;
        v3.radio_job__JobPoint_0.tag = v13.tag;
        v3.radio_job__JobPoint_0.u64_0 = v13.u64_0;
        v3.radio_job__JobPoint_0.radio_job__Ending_0.f0 = v13.radio_job__Ending_0.f0;
        v3.radio_job__JobPoint_0.radio_job__Ending_0.f1 = v13.radio_job__Ending_0.f1;
        v3.radio_job__JobPoint_0.radio_job__Ending_0.f2 = v13.radio_job__Ending_0.f2;
        break;
    default:
        v3.tag = 0u;
        v3.radio_job__JobPoint_0.tag = 0;
        v3.radio_job__JobPoint_0.u64_0 = 0;
        v3.radio_job__JobPoint_0.radio_job__Ending_0.f0 = 0;
        v3.radio_job__JobPoint_0.radio_job__Ending_0.f1 = 0;
        v3.radio_job__JobPoint_0.radio_job__Ending_0.f2 = 0;
        break;
    }
    result.tag = v3.tag;
    result.radio_job__JobPoint_0.tag = v3.radio_job__JobPoint_0.tag;
    result.radio_job__JobPoint_0.u64_0 = v3.radio_job__JobPoint_0.u64_0;
    result.radio_job__JobPoint_0.radio_job__Ending_0.f0 = v3.radio_job__JobPoint_0.radio_job__Ending_0.f0;
    result.radio_job__JobPoint_0.radio_job__Ending_0.f1 = v3.radio_job__JobPoint_0.radio_job__Ending_0.f1;
    result.radio_job__JobPoint_0.radio_job__Ending_0.f2 = v3.radio_job__JobPoint_0.radio_job__Ending_0.f2;
    return result;
}

/* radio_record::read::read_point */
static core__Option_JobPoint radio_record__read__read_point(const radio_record__JobFields *a1)
{
    core__Option_JobPoint result;
    _Bool v2;
    uint64_t v3;
    radio_job__Ending v4;
    radio_job__JobPoint v5;
    v2 = a1->f2 == UINT32_C(0);
    if (v2) {
        v3 = core__convert__UsizeFromU8__from(a1->f1);
        result = radio_record__read__stage_point(a1->f0, v3);
        return result;
    }
    v4.f0 = a1->f2;
    v4.f1 = a1->f3;
    v4.f2 = a1->f4;
    v5.tag = 10u;
    v5.radio_job__Ending_0.f0 = v4.f0;
    v5.radio_job__Ending_0.f1 = v4.f1;
    v5.radio_job__Ending_0.f2 = v4.f2;
    v5.u64_0 = 0;
    result.tag = 1u;
    result.radio_job__JobPoint_0.tag = v5.tag;
    result.radio_job__JobPoint_0.u64_0 = v5.u64_0;
    result.radio_job__JobPoint_0.radio_job__Ending_0.f0 = v5.radio_job__Ending_0.f0;
    result.radio_job__JobPoint_0.radio_job__Ending_0.f1 = v5.radio_job__Ending_0.f1;
    result.radio_job__JobPoint_0.radio_job__Ending_0.f2 = v5.radio_job__Ending_0.f2;
    return result;
}

/* radio_record::held::unpack */
static core__Option_JobKept radio_record__held__unpack(slice_u8 a1)
{
    core__Option_JobKept result;
    const uint8_t *v2;
    radio_job__JobPoint v3;
    radio_job__JobPoint v4;
    uint64_t v6;
    core__Result_ref_array_520_u8_TryFromSliceError v7;
    core__ControlFlow_NoValue_JobPoint v8;
    core__Option_JobPoint v9;
    radio_record__JobFields v10;
    radio_job__JobPoint v11;
    _Bool v12;
    const uint8_t *v13;
    const uint8_t *v14;
    uint64_t v15;
    const uint8_t *v16;
    slice_u8 v17;
    _Bool v18;
    uint16_t v19;
    const uint8_t *v20;
    const uint8_t *v21;
    uint8_t v22;
    const uint8_t *v23;
    const uint8_t *v24;
    uint8_t v25;
    array_2_u8 v26;
    const uint8_t *v27;
    const uint8_t *v28;
    const uint8_t *v29;
    slice_u8 v30;
    v7 = core__RefArrayTryFromRefSlice__try_from_u8_520(a1);
    switch (v7.tag) {
    case 0u:
        v2 = v7.ref_array_520_u8_0;
        break;
    default: /* 1 */
        result.tag = 0u;
        result.radio_record__JobKept_0.f0 = 0;
        result.radio_record__JobKept_0.f1.tag = 0;
        result.radio_record__JobKept_0.f1.u64_0 = 0;
        result.radio_record__JobKept_0.f1.radio_job__Ending_0.f0 = 0;
        result.radio_record__JobKept_0.f1.radio_job__Ending_0.f1 = 0;
        result.radio_record__JobKept_0.f1.radio_job__Ending_0.f2 = 0;
        return result;
    }
    v10 = radio_record__read__read_fields(v2);
    v9 = radio_record__read__read_point(&v10);
    v8 = core__OptionTry__branch_JobPoint(&v9);
    switch (v8.tag) {
    case 0u:
        v4.tag = v8.radio_job__JobPoint_0.tag;
        v4.u64_0 = v8.radio_job__JobPoint_0.u64_0;
        v4.radio_job__Ending_0.f0 = v8.radio_job__JobPoint_0.radio_job__Ending_0.f0;
        v4.radio_job__Ending_0.f1 = v8.radio_job__JobPoint_0.radio_job__Ending_0.f1;
        v4.radio_job__Ending_0.f2 = v8.radio_job__JobPoint_0.radio_job__Ending_0.f2;
        v11.tag = v4.tag;
        v11.u64_0 = v4.u64_0;
        v11.radio_job__Ending_0.f0 = v4.radio_job__Ending_0.f0;
        v11.radio_job__Ending_0.f1 = v4.radio_job__Ending_0.f1;
        v11.radio_job__Ending_0.f2 = v4.radio_job__Ending_0.f2;
        break;
    default: /* 1 */
        result = core__OptionFromResidualNoValue__from_residual_JobKept();
        return result;
    }
    v3.tag = v11.tag;
    v3.u64_0 = v11.u64_0;
    v3.radio_job__Ending_0.f0 = v11.radio_job__Ending_0.f0;
    v3.radio_job__Ending_0.f1 = v11.radio_job__Ending_0.f1;
    v3.radio_job__Ending_0.f2 = v11.radio_job__Ending_0.f2;
    v13 = v2;
    v14 = v13 + (size_t)UINT64_C(256);
    v15 = UINT64_C(512) - UINT64_C(256);
    v16 = v14;
    v17.at = v16;
    v17.length = v15;
    v12 = radio_image__mask_fits(v17);
    v18 = !v12;
    if (v18) {
        result.tag = 0u;
        result.radio_record__JobKept_0.f0 = 0;
        result.radio_record__JobKept_0.f1.tag = 0;
        result.radio_record__JobKept_0.f1.u64_0 = 0;
        result.radio_record__JobKept_0.f1.radio_job__Ending_0.f0 = 0;
        result.radio_record__JobKept_0.f1.radio_job__Ending_0.f1 = 0;
        result.radio_record__JobKept_0.f1.radio_job__Ending_0.f2 = 0;
        return result;
    }
    v20 = v2;
    v21 = v20 + (size_t)UINT64_C(512);
    v22 = *v21;
    v15 = UINT64_C(512) + UINT64_C(1);
    v23 = v2;
    v24 = v23 + (size_t)v15;
    v25 = *v24;
    v26.at[0] = v22;
    v26.at[1] = v25;
    v19 = core__int__u16__from_le_bytes(v26);
    v6 = core__convert__UsizeFromU16__from(v19);
    v27 = v2;
    v28 = v27 + (size_t)UINT64_C(512);
    v15 = UINT64_C(520) - UINT64_C(512);
    v29 = v28;
    v30.at = v29;
    v30.length = v15;
    result = radio_record__held__checked(v6, &v3, v30);
    return result;
}

/* radio_advance::advance::take_reply */
static radio_advanced radio_advance__advance__take_reply(slice_mut_u8 a1, slice_u8 a2, slice_u8 a3,
    slice_mut_u8 a4)
{
    radio_advanced result;
    uint8_t *v5;
    uint64_t v6;
    radio_job__JobPoint v7;
    radio_job__JobPoint v8;
    core__Option_mut_array_520_u8 v9;
    uint8_t *v10;
    slice_mut_u8 v11;
    numbers__Refusal v12;
    core__Option_JobKept v13;
    const uint8_t *v14;
    slice_u8 v15;
    numbers__Refusal v16;
    uint64_t v17;
    _Bool v18;
    numbers__Refusal v19;
    numbers__Refusal v20;
    uint8_t *v22;
    uint8_t *v23;
    const uint8_t *v24;
    slice_u8 v25;
    uint8_t *v26;
    slice_mut_u8 v27;
    v10 = a1.at;
    v11.at = v10;
    v11.length = a1.length;
    v9 = core__slice_T__as_mut_array_u8_520(v11);
    switch (v9.tag) {
    case 1u:
        v5 = v9.mut_array_520_u8_0;
        break;
    default: /* 0 */
        v12 = 5u;
        result = radio_calls__RadioAdvancedFromRefusal__from(v12);
        return result;
    }
    v14 = v5;
    v15.at = v14;
    v15.length = UINT64_C(520);
    v13 = radio_record__held__unpack(v15);
    switch (v13.tag) {
    case 1u:
        v6 = v13.radio_record__JobKept_0.f0;
        v7.tag = v13.radio_record__JobKept_0.f1.tag;
        v7.u64_0 = v13.radio_record__JobKept_0.f1.u64_0;
        v7.radio_job__Ending_0.f0 = v13.radio_record__JobKept_0.f1.radio_job__Ending_0.f0;
        v7.radio_job__Ending_0.f1 = v13.radio_record__JobKept_0.f1.radio_job__Ending_0.f1;
        v7.radio_job__Ending_0.f2 = v13.radio_record__JobKept_0.f1.radio_job__Ending_0.f2;
        break;
    default: /* 0 */
        v16 = 5u;
        result = radio_calls__RadioAdvancedFromRefusal__from(v16);
        return result;
    }
    v17 = a2.length;
    v18 = v17 != v6;
    if (v18) {
        v19 = 6u;
        result = radio_calls__RadioAdvancedFromRefusal__from(v19);
        return result;
    }
    v17 = a4.length;
    v18 = v17 < UINT64_C(256);
    if (v18) {
        v20 = 18u;
        result = radio_calls__RadioAdvancedFromRefusal__from(v20);
        return result;
    }
    v8 = radio_point__next__point_after(&v7, a2, a3);
    v22 = v5;
    radio_advance__keep__keep_page(&v7, v22, a3);
    v17 = a2.length;
    v23 = v5;
    radio_advance__keep__keep_point(v17, &v8, v23);
    v24 = v5;
    v25.at = v24;
    v25.length = UINT64_C(520);
    v26 = a4.at;
    v27.at = v26;
    v27.length = a4.length;
    result = radio_say__point__say(&v8, a2, v25, v27);
    return result;
}

/* radio::job::radio_advance */
static radio_advanced radio__job__radio_advance(slice_mut_u8 a1, slice_u8 a2, slice_u8 a3, slice_mut_u8 a4)
{
    radio_advanced result;
    uint8_t *v5;
    slice_mut_u8 v6;
    uint8_t *v7;
    slice_mut_u8 v8;
    v5 = a1.at;
    v6.at = v5;
    v6.length = a1.length;
    v7 = a4.at;
    v8.at = v7;
    v8.length = a4.length;
    result = radio_advance__advance__take_reply(v6, a2, a3, v8);
    return result;
}

/* radio_target::RadioTargetFromModulePoint::from */
static radio_target radio_target__RadioTargetFromModulePoint__from(const radio_target__ModulePoint *a1)
{
    radio_target result;
    uint32_t v2;
    uint32_t v3;
    uint32_t v4;
    uint32_t v5;
    uint32_t v6;
    uint32_t v7;
    uint32_t v8;
    uint32_t v9;
    core__tuple_u32_u32_u32 v10;
    core__tuple_u32_u32_u32 v11;
    switch (a1->tag) {
    case 0u:
        v11.f0 = UINT32_C(0);
        v11.f1 = UINT32_C(0);
        v11.f2 = UINT32_C(0);
        break;
    case 1u:
        v5 = a1->u32_0;
        v6 = a1->u32_1;
        v11.f0 = UINT32_C(1);
        v11.f1 = v5;
        v11.f2 = v6;
        break;
    case 2u:
        v7 = a1->u32_0;
        v11.f0 = UINT32_C(2);
        v11.f1 = UINT32_C(0);
        v11.f2 = v7;
        break;
    default: /* 3 */
        v8 = a1->u32_0;
        v9 = a1->u32_1;
        v11.f0 = UINT32_C(3);
        v11.f1 = v8;
        v11.f2 = v9;
        break;
    }
    v10.f0 = v11.f0;
    v10.f1 = v11.f1;
    v10.f2 = v11.f2;
    v2 = v10.f0;
    v3 = v10.f1;
    v4 = v10.f2;
    result.point = v2;
    result.page = v3;
    result.left = v4;
    return result;
}

/* core::AnyInto::into_ModulePoint_RadioTarget */
INLINED radio_target core__AnyInto__into_ModulePoint_RadioTarget(const radio_target__ModulePoint *a1)
{
    radio_target result;
    radio_target__ModulePoint v2;
    v2.tag = a1->tag;
    v2.u32_0 = a1->u32_0;
    v2.u32_1 = a1->u32_1;
    result = radio_target__RadioTargetFromModulePoint__from(&v2);
    return result;
}

/* radio_target_step::steps::fresh */
static radio_target radio_target_step__steps__fresh(void)
{
    radio_target result;
    radio_target__ModulePoint v1;
    v1.tag = 0u;
    v1.u32_0 = 0;
    v1.u32_1 = 0;
    result = core__AnyInto__into_ModulePoint_RadioTarget(&v1);
    return result;
}

/* radio::target::radio_target_fresh */
static radio_target radio__target__radio_target_fresh(void)
{
    radio_target result;
    result = radio_target_step__steps__fresh();
    return result;
}

/* core::AnyInto::into_Refusal_u32 */
INLINED uint32_t core__AnyInto__into_Refusal_u32(numbers__Refusal a1)
{
    uint32_t result;
    numbers__Refusal v2;
    v2 = a1;
    result = numbers__U32FromRefusal__from(v2);
    return result;
}

/* core::AnyFrom::from_Refusal */
INLINED numbers__Refusal core__AnyFrom__from_Refusal(numbers__Refusal a1)
{
    numbers__Refusal result;
    result = a1;
    return result;
}

/* core::ResultFromResidualErrResidual::from_residua_e63956 */
INLINED core__Result_RadioReplied_Refusal core__ResultFromResidualErrResidual__from_residua_e63956(
    const core__ErrResidual_Refusal *a1)
{
    core__Result_RadioReplied_Refusal result;
    numbers__Refusal v2;
    numbers__Refusal v3;
    v3 = a1->f0;
    v2 = core__AnyFrom__from_Refusal(v3);
    result.tag = 1u;
    result.numbers__Refusal_0 = v2;
    result.radio_target__RadioReplied_0.number = 0;
    result.radio_target__RadioReplied_0.reply = 0;
    result.radio_target__RadioReplied_0.target.point = 0;
    result.radio_target__RadioReplied_0.target.page = 0;
    result.radio_target__RadioReplied_0.target.left = 0;
    return result;
}

/* core::ResultTry::branch_ModulePoint_Refusal */
INLINED core__ControlFlow_ErrResidual_Refusal_ModulePoint core__ResultTry__branch_ModulePoint_Refusal(
    const core__Result_ModulePoint_Refusal *a1)
{
    core__ControlFlow_ErrResidual_Refusal_ModulePoint result;
    radio_target__ModulePoint v2;
    numbers__Refusal v3;
    core__ControlFlow_ErrResidual_Refusal_ModulePoint v4;
    radio_target__ModulePoint v5;
    numbers__Refusal v6;
    core__ErrResidual_Refusal v7;
    switch (a1->tag) {
    case 0u:
        v2.tag = a1->radio_target__ModulePoint_0.tag;
        v2.u32_0 = a1->radio_target__ModulePoint_0.u32_0;
        v2.u32_1 = a1->radio_target__ModulePoint_0.u32_1;
        v5.tag = v2.tag;
        v5.u32_0 = v2.u32_0;
        v5.u32_1 = v2.u32_1;
        v4.tag = 0u;
        v4.radio_target__ModulePoint_0.tag = v5.tag;
        v4.radio_target__ModulePoint_0.u32_0 = v5.u32_0;
        v4.radio_target__ModulePoint_0.u32_1 = v5.u32_1;
        v4.core__ErrResidual_Refusal_0.f0 = 0;
        break;
    default: /* 1 */
        v3 = a1->numbers__Refusal_0;
        v6 = v3;
        v7.f0 = v6;
        v4.tag = 1u;
        v4.core__ErrResidual_Refusal_0.f0 = v7.f0;
        v4.radio_target__ModulePoint_0.tag = 0;
        v4.radio_target__ModulePoint_0.u32_0 = 0;
        v4.radio_target__ModulePoint_0.u32_1 = 0;
        break;
    }
    result.tag = v4.tag;
    result.radio_target__ModulePoint_0.tag = v4.radio_target__ModulePoint_0.tag;
    result.radio_target__ModulePoint_0.u32_0 = v4.radio_target__ModulePoint_0.u32_0;
    result.radio_target__ModulePoint_0.u32_1 = v4.radio_target__ModulePoint_0.u32_1;
    result.core__ErrResidual_Refusal_0.f0 = v4.core__ErrResidual_Refusal_0.f0;
    return result;
}

/* core::ResultTry::branch_unit_Refusal */
INLINED core__ControlFlow_ErrResidual_Refusal_unit core__ResultTry__branch_unit_Refusal(
    const core__Result_unit_Refusal *a1)
{
    core__ControlFlow_ErrResidual_Refusal_unit result;
    numbers__Refusal v3;
    core__ControlFlow_ErrResidual_Refusal_unit v4;
    numbers__Refusal v6;
    core__ErrResidual_Refusal v7;
    switch (a1->tag) {
    case 0u:
        v4.tag = 0u;
        v4.core__ErrResidual_Refusal_0.f0 = 0;
        break;
    default: /* 1 */
        v3 = a1->numbers__Refusal_0;
        v6 = v3;
        v7.f0 = v6;
        v4.tag = 1u;
        v4.core__ErrResidual_Refusal_0.f0 = v7.f0;
        break;
    }
    result.tag = v4.tag;
    result.core__ErrResidual_Refusal_0.f0 = v4.core__ErrResidual_Refusal_0.f0;
    return result;
}

/* radio_target::ModulePointTryFromRadioTarget::try_from */
static core__Result_ModulePoint_Refusal radio_target__ModulePointTryFromRadioTarget__try_from(
    const radio_target *a1)
{
    core__Result_ModulePoint_Refusal result;
    uint32_t v2;
    uint32_t v3;
    uint32_t v4;
    uint32_t v5;
    uint32_t v6;
    uint32_t v7;
    uint32_t v8;
    uint32_t v9;
    core__Result_ModulePoint_Refusal v10;
    radio_target__ModulePoint v11;
    radio_target__ModulePoint v12;
    radio_target__ModulePoint v13;
    radio_target__ModulePoint v14;
    numbers__Refusal v15;
    v7 = a1->point;
    v8 = a1->page;
    v9 = a1->left;
    switch (v7) {
    case 0u:
        switch (v8) {
        case 0u:
            switch (v9) {
            case 0u:
                v11.tag = 0u;
                v11.u32_0 = 0;
                v11.u32_1 = 0;
                v10.tag = 0u;
                v10.radio_target__ModulePoint_0.tag = v11.tag;
                v10.radio_target__ModulePoint_0.u32_0 = v11.u32_0;
                v10.radio_target__ModulePoint_0.u32_1 = v11.u32_1;
                v10.numbers__Refusal_0 = 0;
                goto end1;
            default:
                goto end2;
            }
        default:
            goto end2;
        }
    case 1u:
        v2 = v8;
        v3 = v9;
        v12.tag = 1u;
        v12.u32_0 = v2;
        v12.u32_1 = v3;
        v10.tag = 0u;
        v10.radio_target__ModulePoint_0.tag = v12.tag;
        v10.radio_target__ModulePoint_0.u32_0 = v12.u32_0;
        v10.radio_target__ModulePoint_0.u32_1 = v12.u32_1;
        v10.numbers__Refusal_0 = 0;
        goto end1;
    case 2u:
        switch (v8) {
        case 0u:
            v4 = v9;
            v13.tag = 2u;
            v13.u32_0 = v4;
            v13.u32_1 = 0;
            v10.tag = 0u;
            v10.radio_target__ModulePoint_0.tag = v13.tag;
            v10.radio_target__ModulePoint_0.u32_0 = v13.u32_0;
            v10.radio_target__ModulePoint_0.u32_1 = v13.u32_1;
            v10.numbers__Refusal_0 = 0;
            goto end1;
        default:
            goto end2;
        }
    case 3u:
        v5 = v8;
        v6 = v9;
        v14.tag = 3u;
        v14.u32_0 = v5;
        v14.u32_1 = v6;
        v10.tag = 0u;
        v10.radio_target__ModulePoint_0.tag = v14.tag;
        v10.radio_target__ModulePoint_0.u32_0 = v14.u32_0;
        v10.radio_target__ModulePoint_0.u32_1 = v14.u32_1;
        v10.numbers__Refusal_0 = 0;
        goto end1;
    default:
        goto end2;
    }
    end2:;
    v15 = 9u;
    v10.tag = 1u;
    v10.numbers__Refusal_0 = v15;
    v10.radio_target__ModulePoint_0.tag = 0;
    v10.radio_target__ModulePoint_0.u32_0 = 0;
    v10.radio_target__ModulePoint_0.u32_1 = 0;
    end1:;
    result.tag = v10.tag;
    result.radio_target__ModulePoint_0.tag = v10.radio_target__ModulePoint_0.tag;
    result.radio_target__ModulePoint_0.u32_0 = v10.radio_target__ModulePoint_0.u32_0;
    result.radio_target__ModulePoint_0.u32_1 = v10.radio_target__ModulePoint_0.u32_1;
    result.numbers__Refusal_0 = v10.numbers__Refusal_0;
    return result;
}

/* core::Option::ok_or_CommandName_ModuleError */
INLINED core__Result_CommandName_ModuleError core__Option__ok_or_CommandName_ModuleError(
    const core__Option_CommandName *a1, radio_deeds__ModuleError a2)
{
    core__Result_CommandName_ModuleError result;
    radio_command__CommandName v3;
    core__Result_CommandName_ModuleError v4;
    radio_command__CommandName v5;
    radio_deeds__ModuleError v6;
    switch (a1->tag) {
    case 1u:
        v3 = a1->radio_command__CommandName_0;
        v5 = v3;
        v4.tag = 0u;
        v4.radio_command__CommandName_0 = v5;
        v4.radio_deeds__ModuleError_0 = 0;
        break;
    default: /* 0 */
        v6 = a2;
        v4.tag = 1u;
        v4.radio_deeds__ModuleError_0 = v6;
        v4.radio_command__CommandName_0 = 0;
        break;
    }
    result.tag = v4.tag;
    result.radio_command__CommandName_0 = v4.radio_command__CommandName_0;
    result.radio_deeds__ModuleError_0 = v4.radio_deeds__ModuleError_0;
    return result;
}

/* core::AnyFrom::from_ModuleError */
INLINED radio_deeds__ModuleError core__AnyFrom__from_ModuleError(radio_deeds__ModuleError a1)
{
    radio_deeds__ModuleError result;
    result = a1;
    return result;
}

/* core::ResultFromResidualErrResidual::from_residua_4f421e */
INLINED core__Result_Deed_ModuleError core__ResultFromResidualErrResidual__from_residua_4f421e(
    const core__ErrResidual_ModuleError *a1)
{
    core__Result_Deed_ModuleError result;
    radio_deeds__ModuleError v2;
    radio_deeds__ModuleError v3;
    v3 = a1->f0;
    v2 = core__AnyFrom__from_ModuleError(v3);
    result.tag = 1u;
    result.radio_deeds__ModuleError_0 = v2;
    result.radio_target__Deed_0.f0.f0 = 0;
    result.radio_target__Deed_0.f0.f1 = 0;
    result.radio_target__Deed_0.f0.f2 = 0;
    result.radio_target__Deed_0.f0.f3 = 0;
    result.radio_target__Deed_0.f1.tag = 0;
    result.radio_target__Deed_0.f1.u64_0 = 0;
    result.radio_target__Deed_0.f1.u8_0 = 0;
    result.radio_target__Deed_0.f2.tag = 0;
    result.radio_target__Deed_0.f2.u32_0 = 0;
    result.radio_target__Deed_0.f2.u32_1 = 0;
    return result;
}

/* core::ResultTry::branch_CommandName_ModuleError */
INLINED core__ControlFlow_ErrResidual_ModuleError_CommandName core__ResultTry__branch_CommandName_ModuleError(
    const core__Result_CommandName_ModuleError *a1)
{
    core__ControlFlow_ErrResidual_ModuleError_CommandName result;
    radio_command__CommandName v2;
    radio_deeds__ModuleError v3;
    core__ControlFlow_ErrResidual_ModuleError_CommandName v4;
    radio_command__CommandName v5;
    radio_deeds__ModuleError v6;
    core__ErrResidual_ModuleError v7;
    switch (a1->tag) {
    case 0u:
        v2 = a1->radio_command__CommandName_0;
        v5 = v2;
        v4.tag = 0u;
        v4.radio_command__CommandName_0 = v5;
        v4.core__ErrResidual_ModuleError_0.f0 = 0;
        break;
    default: /* 1 */
        v3 = a1->radio_deeds__ModuleError_0;
        v6 = v3;
        v7.f0 = v6;
        v4.tag = 1u;
        v4.core__ErrResidual_ModuleError_0.f0 = v7.f0;
        v4.radio_command__CommandName_0 = 0;
        break;
    }
    result.tag = v4.tag;
    result.radio_command__CommandName_0 = v4.radio_command__CommandName_0;
    result.core__ErrResidual_ModuleError_0.f0 = v4.core__ErrResidual_ModuleError_0.f0;
    return result;
}

/* core::Option::unwrap_or_u8 */
INLINED uint8_t core__Option__unwrap_or_u8(const core__Option_u8 *a1, uint8_t a2)
{
    uint8_t result;
    uint8_t v3;
    uint8_t v4;
    switch (a1->tag) {
    case 1u:
        v3 = a1->u8_0;
        v4 = v3;
        break;
    default: /* 0 */
        v4 = a2;
        break;
    }
    result = v4;
    return result;
}

/* core::Option::unwrap_ref_u8 */
INLINED const uint8_t *core__Option__unwrap_ref_u8(const core__Option_ref_u8 *a1)
{
    const uint8_t *result;
    const uint8_t *v2;
    const uint8_t *v3;
    switch (a1->tag) {
    default: /* 1 */
        v2 = a1->ref_u8_0;
        v3 = v2;
        break;
    }
    result = v3;
    return result;
}

/* core::Option_ref_T::copied_u8 */
INLINED core__Option_u8 core__Option_ref_T__copied_u8(const core__Option_ref_u8 *a1)
{
    core__Option_u8 result;
    core__Option_u8 v2;
    const uint8_t *v3;
    core__Option_ref_u8 v4;
    uint8_t v5;
    switch (a1->tag) {
    case 1u:
        v4.tag = a1->tag;
        v4.ref_u8_0 = a1->ref_u8_0;
        v3 = core__Option__unwrap_ref_u8(&v4);
        v5 = *v3;
        v2.tag = 1u;
        v2.u8_0 = v5;
        break;
    default: /* 0 */
        v2.tag = 0u;
        v2.u8_0 = 0;
        break;
    }
    result.tag = v2.tag;
    result.u8_0 = v2.u8_0;
    return result;
}

/* core::UsizeSliceIndexRefSlice::pick_u8 */
INLINED core__Option_ref_u8 core__UsizeSliceIndexRefSlice__pick_u8(uint64_t a1, slice_u8 a2)
{
    core__Option_ref_u8 result;
    uint64_t v3;
    _Bool v4;
    core__Option_ref_u8 v5;
    uint64_t v6;
    const uint8_t *v7;
    const uint8_t *v8;
    v3 = a2.length;
    v4 = a1 < v3;
    if (v4) {
        v6 = a1;
        v7 = a2.at + (size_t)v6;
        v8 = v7;
        v5.tag = 1u;
        v5.ref_u8_0 = v8;
    } else {
        v5.tag = 0u;
        v5.ref_u8_0 = 0;
    }
    result.tag = v5.tag;
    result.ref_u8_0 = v5.ref_u8_0;
    return result;
}

/* core::slice_T::get_u8_u64_ref_u8 */
INLINED core__Option_ref_u8 core__slice_T__get_u8_u64_ref_u8(slice_u8 a1, uint64_t a2)
{
    core__Option_ref_u8 result;
    uint64_t v3;
    v3 = a2;
    result = core__UsizeSliceIndexRefSlice__pick_u8(v3, a1);
    return result;
}

/* radio_deeds::deeds::byte_at */
static uint8_t radio_deeds__deeds__byte_at(slice_u8 a1, uint64_t a2)
{
    uint8_t result;
    core__Option_u8 v3;
    core__Option_ref_u8 v4;
    v4 = core__slice_T__get_u8_u64_ref_u8(a1, a2);
    v3 = core__Option_ref_T__copied_u8(&v4);
    result = core__Option__unwrap_or_u8(&v3, 0u);
    return result;
}

/* radio_deeds::deeds::answers */
static radio_target__Deed radio_deeds__deeds__answers(radio_command__CommandName a1, uint8_t a2)
{
    radio_target__Deed result;
    radio_command__RadioCommand v3;
    radio_flash__FlashChange v4;
    radio_target__ModulePoint v5;
    v3.f0 = a1;
    v3.f1 = a2;
    v3.f2 = 0u;
    v3.f3 = 0u;
    v4.tag = 0u;
    v4.u64_0 = 0;
    v4.u8_0 = 0;
    v5.tag = 0u;
    v5.u32_0 = 0;
    v5.u32_1 = 0;
    result.f0.f0 = v3.f0;
    result.f0.f1 = v3.f1;
    result.f0.f2 = v3.f2;
    result.f0.f3 = v3.f3;
    result.f1.tag = v4.tag;
    result.f1.u64_0 = v4.u64_0;
    result.f1.u8_0 = v4.u8_0;
    result.f2.tag = v5.tag;
    result.f2.u32_0 = v5.u32_0;
    result.f2.u32_1 = v5.u32_1;
    return result;
}

/* radio_deeds::deeds::answers_ok */
static radio_target__Deed radio_deeds__deeds__answers_ok(uint8_t a1)
{
    radio_target__Deed result;
    radio_command__CommandName v2;
    v2 = 8u;
    result = radio_deeds__deeds__answers(v2, a1);
    return result;
}

/* radio_deeds::deeds::address */
static uint64_t radio_deeds__deeds__address(uint8_t a1, uint8_t a2)
{
    uint64_t result;
    uint64_t v3;
    uint64_t v4;
    uint64_t v5;
    v3 = core__convert__UsizeFromU8__from(a1);
    v4 = UINT64_C(256) * v3;
    v5 = core__convert__UsizeFromU8__from(a2);
    result = v4 + v5;
    return result;
}

/* radio_deeds::deeds::is_protected */
static _Bool radio_deeds__deeds__is_protected(slice_u8 a1)
{
    _Bool result;
    uint8_t v2;
    v2 = radio_deeds__deeds__byte_at(a1, UINT64_C(32513));
    result = v2 == 0u;
    return result;
}

/* radio_deeds::deeds::hidden */
static _Bool radio_deeds__deeds__hidden(uint8_t a1, slice_u8 a2)
{
    _Bool result;
    _Bool v3;
    v3 = a1 < 127u;
    if (v3) {
        v3 = radio_deeds__deeds__is_protected(a2);
    }
    result = v3;
    return result;
}

/* radio_deeds::deeds::rd_flash_byte */
static core__Result_Deed_ModuleError radio_deeds__deeds__rd_flash_byte(uint8_t a1, uint8_t a2, slice_u8 a3)
{
    core__Result_Deed_ModuleError result;
    _Bool v4;
    radio_deeds__ModuleError v5;
    _Bool v6;
    radio_deeds__ModuleError v7;
    radio_target__Deed v8;
    uint8_t v9;
    uint64_t v10;
    v4 = radio_deeds__deeds__hidden(a1, a3);
    if (v4) {
        v5 = 1u;
        result.tag = 1u;
        result.radio_deeds__ModuleError_0 = v5;
        result.radio_target__Deed_0.f0.f0 = 0;
        result.radio_target__Deed_0.f0.f1 = 0;
        result.radio_target__Deed_0.f0.f2 = 0;
        result.radio_target__Deed_0.f0.f3 = 0;
        result.radio_target__Deed_0.f1.tag = 0;
        result.radio_target__Deed_0.f1.u64_0 = 0;
        result.radio_target__Deed_0.f1.u8_0 = 0;
        result.radio_target__Deed_0.f2.tag = 0;
        result.radio_target__Deed_0.f2.u32_0 = 0;
        result.radio_target__Deed_0.f2.u32_1 = 0;
        return result;
    }
    v6 = 128u < a1;
    if (v6) {
        v7 = 0u;
        result.tag = 1u;
        result.radio_deeds__ModuleError_0 = v7;
        result.radio_target__Deed_0.f0.f0 = 0;
        result.radio_target__Deed_0.f0.f1 = 0;
        result.radio_target__Deed_0.f0.f2 = 0;
        result.radio_target__Deed_0.f0.f3 = 0;
        result.radio_target__Deed_0.f1.tag = 0;
        result.radio_target__Deed_0.f1.u64_0 = 0;
        result.radio_target__Deed_0.f1.u8_0 = 0;
        result.radio_target__Deed_0.f2.tag = 0;
        result.radio_target__Deed_0.f2.u32_0 = 0;
        result.radio_target__Deed_0.f2.u32_1 = 0;
        return result;
    }
    v10 = radio_deeds__deeds__address(a1, a2);
    v9 = radio_deeds__deeds__byte_at(a3, v10);
    v8 = radio_deeds__deeds__answers_ok(v9);
    result.tag = 0u;
    result.radio_target__Deed_0.f0.f0 = v8.f0.f0;
    result.radio_target__Deed_0.f0.f1 = v8.f0.f1;
    result.radio_target__Deed_0.f0.f2 = v8.f0.f2;
    result.radio_target__Deed_0.f0.f3 = v8.f0.f3;
    result.radio_target__Deed_0.f1.tag = v8.f1.tag;
    result.radio_target__Deed_0.f1.u64_0 = v8.f1.u64_0;
    result.radio_target__Deed_0.f1.u8_0 = v8.f1.u8_0;
    result.radio_target__Deed_0.f2.tag = v8.f2.tag;
    result.radio_target__Deed_0.f2.u32_0 = v8.f2.u32_0;
    result.radio_target__Deed_0.f2.u32_1 = v8.f2.u32_1;
    result.radio_deeds__ModuleError_0 = 0;
    return result;
}

/* radio_deeds::deeds::performs */
static radio_target__Deed radio_deeds__deeds__performs(const radio_flash__FlashChange *a1,
    const radio_target__ModulePoint *a2)
{
    radio_target__Deed result;
    radio_target__Deed v3;
    radio_command__RadioCommand v4;
    v3 = radio_deeds__deeds__answers_ok(0u);
    v4.f0 = v3.f0.f0;
    v4.f1 = v3.f0.f1;
    v4.f2 = v3.f0.f2;
    v4.f3 = v3.f0.f3;
    result.f0.f0 = v4.f0;
    result.f0.f1 = v4.f1;
    result.f0.f2 = v4.f2;
    result.f0.f3 = v4.f3;
    result.f1.tag = a1->tag;
    result.f1.u64_0 = a1->u64_0;
    result.f1.u8_0 = a1->u8_0;
    result.f2.tag = a2->tag;
    result.f2.u32_0 = a2->u32_0;
    result.f2.u32_1 = a2->u32_1;
    return result;
}

/* radio_deeds::deeds::rd_flash_page */
static core__Result_Deed_ModuleError radio_deeds__deeds__rd_flash_page(uint8_t a1, slice_u8 a2)
{
    core__Result_Deed_ModuleError result;
    uint32_t v3;
    _Bool v4;
    radio_deeds__ModuleError v5;
    _Bool v6;
    radio_deeds__ModuleError v7;
    radio_target__Deed v8;
    radio_flash__FlashChange v9;
    radio_target__ModulePoint v10;
    v4 = radio_deeds__deeds__hidden(a1, a2);
    if (v4) {
        v5 = 1u;
        result.tag = 1u;
        result.radio_deeds__ModuleError_0 = v5;
        result.radio_target__Deed_0.f0.f0 = 0;
        result.radio_target__Deed_0.f0.f1 = 0;
        result.radio_target__Deed_0.f0.f2 = 0;
        result.radio_target__Deed_0.f0.f3 = 0;
        result.radio_target__Deed_0.f1.tag = 0;
        result.radio_target__Deed_0.f1.u64_0 = 0;
        result.radio_target__Deed_0.f1.u8_0 = 0;
        result.radio_target__Deed_0.f2.tag = 0;
        result.radio_target__Deed_0.f2.u32_0 = 0;
        result.radio_target__Deed_0.f2.u32_1 = 0;
        return result;
    }
    v6 = 128u < a1;
    if (v6) {
        v7 = 0u;
        result.tag = 1u;
        result.radio_deeds__ModuleError_0 = v7;
        result.radio_target__Deed_0.f0.f0 = 0;
        result.radio_target__Deed_0.f0.f1 = 0;
        result.radio_target__Deed_0.f0.f2 = 0;
        result.radio_target__Deed_0.f0.f3 = 0;
        result.radio_target__Deed_0.f1.tag = 0;
        result.radio_target__Deed_0.f1.u64_0 = 0;
        result.radio_target__Deed_0.f1.u8_0 = 0;
        result.radio_target__Deed_0.f2.tag = 0;
        result.radio_target__Deed_0.f2.u32_0 = 0;
        result.radio_target__Deed_0.f2.u32_1 = 0;
        return result;
    }
    v3 = core__convert__U32FromU8__from(a1);
    v9.tag = 0u;
    v9.u64_0 = 0;
    v9.u8_0 = 0;
    v10.tag = 3u;
    v10.u32_0 = v3;
    v10.u32_1 = UINT32_C(1);
    v8 = radio_deeds__deeds__performs(&v9, &v10);
    result.tag = 0u;
    result.radio_target__Deed_0.f0.f0 = v8.f0.f0;
    result.radio_target__Deed_0.f0.f1 = v8.f0.f1;
    result.radio_target__Deed_0.f0.f2 = v8.f0.f2;
    result.radio_target__Deed_0.f0.f3 = v8.f0.f3;
    result.radio_target__Deed_0.f1.tag = v8.f1.tag;
    result.radio_target__Deed_0.f1.u64_0 = v8.f1.u64_0;
    result.radio_target__Deed_0.f1.u8_0 = v8.f1.u8_0;
    result.radio_target__Deed_0.f2.tag = v8.f2.tag;
    result.radio_target__Deed_0.f2.u32_0 = v8.f2.u32_0;
    result.radio_target__Deed_0.f2.u32_1 = v8.f2.u32_1;
    result.radio_deeds__ModuleError_0 = 0;
    return result;
}

/* radio_deeds::deeds::too_many */
static _Bool radio_deeds__deeds__too_many(uint8_t a1, uint8_t a2)
{
    _Bool result;
    _Bool v3;
    v3 = a1 == 0u;
    if (!v3) {
        v3 = a2 < a1;
    }
    result = v3;
    return result;
}

/* radio_deeds::deeds::rd_prg_area */
static core__Result_Deed_ModuleError radio_deeds__deeds__rd_prg_area(uint8_t a1, slice_u8 a2)
{
    core__Result_Deed_ModuleError result;
    uint32_t v3;
    _Bool v4;
    radio_deeds__ModuleError v5;
    _Bool v6;
    radio_deeds__ModuleError v7;
    radio_target__Deed v8;
    radio_flash__FlashChange v9;
    radio_target__ModulePoint v10;
    v4 = radio_deeds__deeds__is_protected(a2);
    if (v4) {
        v5 = 2u;
        result.tag = 1u;
        result.radio_deeds__ModuleError_0 = v5;
        result.radio_target__Deed_0.f0.f0 = 0;
        result.radio_target__Deed_0.f0.f1 = 0;
        result.radio_target__Deed_0.f0.f2 = 0;
        result.radio_target__Deed_0.f0.f3 = 0;
        result.radio_target__Deed_0.f1.tag = 0;
        result.radio_target__Deed_0.f1.u64_0 = 0;
        result.radio_target__Deed_0.f1.u8_0 = 0;
        result.radio_target__Deed_0.f2.tag = 0;
        result.radio_target__Deed_0.f2.u32_0 = 0;
        result.radio_target__Deed_0.f2.u32_1 = 0;
        return result;
    }
    v6 = radio_deeds__deeds__too_many(a1, 127u);
    if (v6) {
        v7 = 0u;
        result.tag = 1u;
        result.radio_deeds__ModuleError_0 = v7;
        result.radio_target__Deed_0.f0.f0 = 0;
        result.radio_target__Deed_0.f0.f1 = 0;
        result.radio_target__Deed_0.f0.f2 = 0;
        result.radio_target__Deed_0.f0.f3 = 0;
        result.radio_target__Deed_0.f1.tag = 0;
        result.radio_target__Deed_0.f1.u64_0 = 0;
        result.radio_target__Deed_0.f1.u8_0 = 0;
        result.radio_target__Deed_0.f2.tag = 0;
        result.radio_target__Deed_0.f2.u32_0 = 0;
        result.radio_target__Deed_0.f2.u32_1 = 0;
        return result;
    }
    v3 = core__convert__U32FromU8__from(a1);
    v9.tag = 0u;
    v9.u64_0 = 0;
    v9.u8_0 = 0;
    v10.tag = 3u;
    v10.u32_0 = UINT32_C(0);
    v10.u32_1 = v3;
    v8 = radio_deeds__deeds__performs(&v9, &v10);
    result.tag = 0u;
    result.radio_target__Deed_0.f0.f0 = v8.f0.f0;
    result.radio_target__Deed_0.f0.f1 = v8.f0.f1;
    result.radio_target__Deed_0.f0.f2 = v8.f0.f2;
    result.radio_target__Deed_0.f0.f3 = v8.f0.f3;
    result.radio_target__Deed_0.f1.tag = v8.f1.tag;
    result.radio_target__Deed_0.f1.u64_0 = v8.f1.u64_0;
    result.radio_target__Deed_0.f1.u8_0 = v8.f1.u8_0;
    result.radio_target__Deed_0.f2.tag = v8.f2.tag;
    result.radio_target__Deed_0.f2.u32_0 = v8.f2.u32_0;
    result.radio_target__Deed_0.f2.u32_1 = v8.f2.u32_1;
    result.radio_deeds__ModuleError_0 = 0;
    return result;
}

/* radio_flash::blank::is_blank */
static _Bool radio_flash__blank__is_blank(slice_u8 a1)
{
    _Bool result;
    slice_u8 v2;
    uint64_t v3;
    const uint8_t *v4;
    slice_u8 v5;
    uint64_t v6;
    uint64_t v7;
    const uint8_t *v8;
    uint64_t v9;
    _Bool v10;
    const uint8_t *v11;
    uint8_t v12;
    _Bool v13;
    v7 = a1.length;
    v6 = core__int__usize__min(UINT64_C(32768), v7);
    v8 = a1.at;
    v5.at = v8;
    v5.length = v6;
    v2.at = v5.at;
    v2.length = v5.length;
    v3 = UINT64_C(0);
    v9 = v2.length;
    for (;;) {
        v10 = v3 < v9;
        if (!v10) {
            break;
        }
        v11 = v2.at + (size_t)v3;
        v4 = v11;
        v12 = *v4;
        v13 = v12 != 255u;
        if (v13) {
            result = 0;
            return result;
        }
        v3 = v3 + UINT64_C(1);
    }
    result = 1;
    return result;
}

/* radio_deeds::deeds::wr_blank_chk */
static core__Result_Deed_ModuleError radio_deeds__deeds__wr_blank_chk(slice_u8 a1)
{
    core__Result_Deed_ModuleError result;
    _Bool v2;
    _Bool v3;
    radio_deeds__ModuleError v4;
    radio_target__Deed v5;
    v2 = radio_flash__blank__is_blank(a1);
    v3 = !v2;
    if (v3) {
        v4 = 5u;
        result.tag = 1u;
        result.radio_deeds__ModuleError_0 = v4;
        result.radio_target__Deed_0.f0.f0 = 0;
        result.radio_target__Deed_0.f0.f1 = 0;
        result.radio_target__Deed_0.f0.f2 = 0;
        result.radio_target__Deed_0.f0.f3 = 0;
        result.radio_target__Deed_0.f1.tag = 0;
        result.radio_target__Deed_0.f1.u64_0 = 0;
        result.radio_target__Deed_0.f1.u8_0 = 0;
        result.radio_target__Deed_0.f2.tag = 0;
        result.radio_target__Deed_0.f2.u32_0 = 0;
        result.radio_target__Deed_0.f2.u32_1 = 0;
        return result;
    }
    v5 = radio_deeds__deeds__answers_ok(0u);
    result.tag = 0u;
    result.radio_target__Deed_0.f0.f0 = v5.f0.f0;
    result.radio_target__Deed_0.f0.f1 = v5.f0.f1;
    result.radio_target__Deed_0.f0.f2 = v5.f0.f2;
    result.radio_target__Deed_0.f0.f3 = v5.f0.f3;
    result.radio_target__Deed_0.f1.tag = v5.f1.tag;
    result.radio_target__Deed_0.f1.u64_0 = v5.f1.u64_0;
    result.radio_target__Deed_0.f1.u8_0 = v5.f1.u8_0;
    result.radio_target__Deed_0.f2.tag = v5.f2.tag;
    result.radio_target__Deed_0.f2.u32_0 = v5.f2.u32_0;
    result.radio_target__Deed_0.f2.u32_1 = v5.f2.u32_1;
    result.radio_deeds__ModuleError_0 = 0;
    return result;
}

/* radio_deeds::deeds::wr_flash_byte */
static core__Result_Deed_ModuleError radio_deeds__deeds__wr_flash_byte(uint8_t a1, uint8_t a2, uint8_t a3,
    slice_u8 a4)
{
    core__Result_Deed_ModuleError result;
    uint64_t v5;
    _Bool v6;
    radio_deeds__ModuleError v7;
    radio_deeds__ModuleError v8;
    _Bool v9;
    radio_deeds__ModuleError v10;
    uint8_t v11;
    radio_deeds__ModuleError v12;
    radio_target__Deed v13;
    radio_flash__FlashChange v14;
    radio_target__ModulePoint v15;
    v6 = a1 == 128u;
    if (v6) {
        v7 = 1u;
        result.tag = 1u;
        result.radio_deeds__ModuleError_0 = v7;
        result.radio_target__Deed_0.f0.f0 = 0;
        result.radio_target__Deed_0.f0.f1 = 0;
        result.radio_target__Deed_0.f0.f2 = 0;
        result.radio_target__Deed_0.f0.f3 = 0;
        result.radio_target__Deed_0.f1.tag = 0;
        result.radio_target__Deed_0.f1.u64_0 = 0;
        result.radio_target__Deed_0.f1.u8_0 = 0;
        result.radio_target__Deed_0.f2.tag = 0;
        result.radio_target__Deed_0.f2.u32_0 = 0;
        result.radio_target__Deed_0.f2.u32_1 = 0;
        return result;
    }
    v6 = 128u < a1;
    if (v6) {
        v8 = 0u;
        result.tag = 1u;
        result.radio_deeds__ModuleError_0 = v8;
        result.radio_target__Deed_0.f0.f0 = 0;
        result.radio_target__Deed_0.f0.f1 = 0;
        result.radio_target__Deed_0.f0.f2 = 0;
        result.radio_target__Deed_0.f0.f3 = 0;
        result.radio_target__Deed_0.f1.tag = 0;
        result.radio_target__Deed_0.f1.u64_0 = 0;
        result.radio_target__Deed_0.f1.u8_0 = 0;
        result.radio_target__Deed_0.f2.tag = 0;
        result.radio_target__Deed_0.f2.u32_0 = 0;
        result.radio_target__Deed_0.f2.u32_1 = 0;
        return result;
    }
    v9 = radio_deeds__deeds__hidden(a1, a4);
    if (v9) {
        v10 = 2u;
        result.tag = 1u;
        result.radio_deeds__ModuleError_0 = v10;
        result.radio_target__Deed_0.f0.f0 = 0;
        result.radio_target__Deed_0.f0.f1 = 0;
        result.radio_target__Deed_0.f0.f2 = 0;
        result.radio_target__Deed_0.f0.f3 = 0;
        result.radio_target__Deed_0.f1.tag = 0;
        result.radio_target__Deed_0.f1.u64_0 = 0;
        result.radio_target__Deed_0.f1.u8_0 = 0;
        result.radio_target__Deed_0.f2.tag = 0;
        result.radio_target__Deed_0.f2.u32_0 = 0;
        result.radio_target__Deed_0.f2.u32_1 = 0;
        return result;
    }
    v5 = radio_deeds__deeds__address(a1, a2);
    v11 = radio_deeds__deeds__byte_at(a4, v5);
    v6 = v11 != 255u;
    if (v6) {
        v12 = 3u;
        result.tag = 1u;
        result.radio_deeds__ModuleError_0 = v12;
        result.radio_target__Deed_0.f0.f0 = 0;
        result.radio_target__Deed_0.f0.f1 = 0;
        result.radio_target__Deed_0.f0.f2 = 0;
        result.radio_target__Deed_0.f0.f3 = 0;
        result.radio_target__Deed_0.f1.tag = 0;
        result.radio_target__Deed_0.f1.u64_0 = 0;
        result.radio_target__Deed_0.f1.u8_0 = 0;
        result.radio_target__Deed_0.f2.tag = 0;
        result.radio_target__Deed_0.f2.u32_0 = 0;
        result.radio_target__Deed_0.f2.u32_1 = 0;
        return result;
    }
    v14.tag = 1u;
    v14.u64_0 = v5;
    v14.u8_0 = a3;
    v15.tag = 0u;
    v15.u32_0 = 0;
    v15.u32_1 = 0;
    v13 = radio_deeds__deeds__performs(&v14, &v15);
    result.tag = 0u;
    result.radio_target__Deed_0.f0.f0 = v13.f0.f0;
    result.radio_target__Deed_0.f0.f1 = v13.f0.f1;
    result.radio_target__Deed_0.f0.f2 = v13.f0.f2;
    result.radio_target__Deed_0.f0.f3 = v13.f0.f3;
    result.radio_target__Deed_0.f1.tag = v13.f1.tag;
    result.radio_target__Deed_0.f1.u64_0 = v13.f1.u64_0;
    result.radio_target__Deed_0.f1.u8_0 = v13.f1.u8_0;
    result.radio_target__Deed_0.f2.tag = v13.f2.tag;
    result.radio_target__Deed_0.f2.u32_0 = v13.f2.u32_0;
    result.radio_target__Deed_0.f2.u32_1 = v13.f2.u32_1;
    result.radio_deeds__ModuleError_0 = 0;
    return result;
}

/* radio_deeds::deeds::then_data */
static radio_target__ModulePoint radio_deeds__deeds__then_data(uint8_t a1, uint32_t a2, uint32_t a3)
{
    radio_target__ModulePoint result;
    radio_target__ModulePoint v4;
    switch (a1) {
    case 1u:
        v4.tag = 0u;
        v4.u32_0 = 0;
        v4.u32_1 = 0;
        break;
    default:
        v4.tag = 1u;
        v4.u32_0 = a2;
        v4.u32_1 = a3;
        break;
    }
    result.tag = v4.tag;
    result.u32_0 = v4.u32_0;
    result.u32_1 = v4.u32_1;
    return result;
}

/* radio_deeds::deeds::wr_flash_page */
static core__Result_Deed_ModuleError radio_deeds__deeds__wr_flash_page(uint8_t a1, uint8_t a2, slice_u8 a3)
{
    core__Result_Deed_ModuleError result;
    radio_target__ModulePoint v4;
    uint64_t v5;
    _Bool v6;
    _Bool v7;
    radio_deeds__ModuleError v8;
    _Bool v9;
    radio_deeds__ModuleError v10;
    uint32_t v11;
    radio_target__Deed v12;
    radio_flash__FlashChange v13;
    v6 = radio_deeds__deeds__is_protected(a3);
    if (!v6) {
        v6 = a1 == 128u;
        v7 = v6;
        if (!v7) {
            goto end2;
        }
    }
    v8 = 1u;
    result.tag = 1u;
    result.radio_deeds__ModuleError_0 = v8;
    result.radio_target__Deed_0.f0.f0 = 0;
    result.radio_target__Deed_0.f0.f1 = 0;
    result.radio_target__Deed_0.f0.f2 = 0;
    result.radio_target__Deed_0.f0.f3 = 0;
    result.radio_target__Deed_0.f1.tag = 0;
    result.radio_target__Deed_0.f1.u64_0 = 0;
    result.radio_target__Deed_0.f1.u8_0 = 0;
    result.radio_target__Deed_0.f2.tag = 0;
    result.radio_target__Deed_0.f2.u32_0 = 0;
    result.radio_target__Deed_0.f2.u32_1 = 0;
    return result;
    goto end1;
    end2:;
    end1:;
    v9 = 128u < a1;
    if (v9) {
        v10 = 0u;
        result.tag = 1u;
        result.radio_deeds__ModuleError_0 = v10;
        result.radio_target__Deed_0.f0.f0 = 0;
        result.radio_target__Deed_0.f0.f1 = 0;
        result.radio_target__Deed_0.f0.f2 = 0;
        result.radio_target__Deed_0.f0.f3 = 0;
        result.radio_target__Deed_0.f1.tag = 0;
        result.radio_target__Deed_0.f1.u64_0 = 0;
        result.radio_target__Deed_0.f1.u8_0 = 0;
        result.radio_target__Deed_0.f2.tag = 0;
        result.radio_target__Deed_0.f2.u32_0 = 0;
        result.radio_target__Deed_0.f2.u32_1 = 0;
        return result;
    }
    v11 = core__convert__U32FromU8__from(a1);
    v4 = radio_deeds__deeds__then_data(a2, v11, UINT32_C(1));
    v5 = core__convert__UsizeFromU8__from(a1);
    v13.tag = 2u;
    v13.u64_0 = v5;
    v13.u8_0 = 0;
    v12 = radio_deeds__deeds__performs(&v13, &v4);
    result.tag = 0u;
    result.radio_target__Deed_0.f0.f0 = v12.f0.f0;
    result.radio_target__Deed_0.f0.f1 = v12.f0.f1;
    result.radio_target__Deed_0.f0.f2 = v12.f0.f2;
    result.radio_target__Deed_0.f0.f3 = v12.f0.f3;
    result.radio_target__Deed_0.f1.tag = v12.f1.tag;
    result.radio_target__Deed_0.f1.u64_0 = v12.f1.u64_0;
    result.radio_target__Deed_0.f1.u8_0 = v12.f1.u8_0;
    result.radio_target__Deed_0.f2.tag = v12.f2.tag;
    result.radio_target__Deed_0.f2.u32_0 = v12.f2.u32_0;
    result.radio_target__Deed_0.f2.u32_1 = v12.f2.u32_1;
    result.radio_deeds__ModuleError_0 = 0;
    return result;
}

/* radio_deeds::deeds::wr_prg_area */
static core__Result_Deed_ModuleError radio_deeds__deeds__wr_prg_area(uint8_t a1, uint8_t a2, slice_u8 a3)
{
    core__Result_Deed_ModuleError result;
    _Bool v4;
    radio_deeds__ModuleError v5;
    _Bool v6;
    radio_deeds__ModuleError v7;
    radio_target__Deed v8;
    radio_flash__FlashChange v9;
    radio_target__ModulePoint v10;
    uint32_t v11;
    v4 = radio_deeds__deeds__is_protected(a3);
    if (v4) {
        v5 = 1u;
        result.tag = 1u;
        result.radio_deeds__ModuleError_0 = v5;
        result.radio_target__Deed_0.f0.f0 = 0;
        result.radio_target__Deed_0.f0.f1 = 0;
        result.radio_target__Deed_0.f0.f2 = 0;
        result.radio_target__Deed_0.f0.f3 = 0;
        result.radio_target__Deed_0.f1.tag = 0;
        result.radio_target__Deed_0.f1.u64_0 = 0;
        result.radio_target__Deed_0.f1.u8_0 = 0;
        result.radio_target__Deed_0.f2.tag = 0;
        result.radio_target__Deed_0.f2.u32_0 = 0;
        result.radio_target__Deed_0.f2.u32_1 = 0;
        return result;
    }
    v6 = radio_deeds__deeds__too_many(a1, 127u);
    if (v6) {
        v7 = 0u;
        result.tag = 1u;
        result.radio_deeds__ModuleError_0 = v7;
        result.radio_target__Deed_0.f0.f0 = 0;
        result.radio_target__Deed_0.f0.f1 = 0;
        result.radio_target__Deed_0.f0.f2 = 0;
        result.radio_target__Deed_0.f0.f3 = 0;
        result.radio_target__Deed_0.f1.tag = 0;
        result.radio_target__Deed_0.f1.u64_0 = 0;
        result.radio_target__Deed_0.f1.u8_0 = 0;
        result.radio_target__Deed_0.f2.tag = 0;
        result.radio_target__Deed_0.f2.u32_0 = 0;
        result.radio_target__Deed_0.f2.u32_1 = 0;
        return result;
    }
    v9.tag = 3u;
    v9.u64_0 = 0;
    v9.u8_0 = 0;
    v11 = core__convert__U32FromU8__from(a1);
    v10 = radio_deeds__deeds__then_data(a2, UINT32_C(0), v11);
    v8 = radio_deeds__deeds__performs(&v9, &v10);
    result.tag = 0u;
    result.radio_target__Deed_0.f0.f0 = v8.f0.f0;
    result.radio_target__Deed_0.f0.f1 = v8.f0.f1;
    result.radio_target__Deed_0.f0.f2 = v8.f0.f2;
    result.radio_target__Deed_0.f0.f3 = v8.f0.f3;
    result.radio_target__Deed_0.f1.tag = v8.f1.tag;
    result.radio_target__Deed_0.f1.u64_0 = v8.f1.u64_0;
    result.radio_target__Deed_0.f1.u8_0 = v8.f1.u8_0;
    result.radio_target__Deed_0.f2.tag = v8.f2.tag;
    result.radio_target__Deed_0.f2.u32_0 = v8.f2.u32_0;
    result.radio_target__Deed_0.f2.u32_1 = v8.f2.u32_1;
    result.radio_deeds__ModuleError_0 = 0;
    return result;
}

/* radio_deeds::deeds::wr_prg_xram */
static core__Result_Deed_ModuleError radio_deeds__deeds__wr_prg_xram(uint8_t a1, slice_u8 a2)
{
    core__Result_Deed_ModuleError result;
    uint32_t v3;
    _Bool v4;
    radio_deeds__ModuleError v5;
    _Bool v6;
    radio_deeds__ModuleError v7;
    radio_target__Deed v8;
    radio_flash__FlashChange v9;
    radio_target__ModulePoint v10;
    v4 = radio_deeds__deeds__is_protected(a2);
    if (v4) {
        v5 = 1u;
        result.tag = 1u;
        result.radio_deeds__ModuleError_0 = v5;
        result.radio_target__Deed_0.f0.f0 = 0;
        result.radio_target__Deed_0.f0.f1 = 0;
        result.radio_target__Deed_0.f0.f2 = 0;
        result.radio_target__Deed_0.f0.f3 = 0;
        result.radio_target__Deed_0.f1.tag = 0;
        result.radio_target__Deed_0.f1.u64_0 = 0;
        result.radio_target__Deed_0.f1.u8_0 = 0;
        result.radio_target__Deed_0.f2.tag = 0;
        result.radio_target__Deed_0.f2.u32_0 = 0;
        result.radio_target__Deed_0.f2.u32_1 = 0;
        return result;
    }
    v6 = radio_deeds__deeds__too_many(a1, 4u);
    if (v6) {
        v7 = 0u;
        result.tag = 1u;
        result.radio_deeds__ModuleError_0 = v7;
        result.radio_target__Deed_0.f0.f0 = 0;
        result.radio_target__Deed_0.f0.f1 = 0;
        result.radio_target__Deed_0.f0.f2 = 0;
        result.radio_target__Deed_0.f0.f3 = 0;
        result.radio_target__Deed_0.f1.tag = 0;
        result.radio_target__Deed_0.f1.u64_0 = 0;
        result.radio_target__Deed_0.f1.u8_0 = 0;
        result.radio_target__Deed_0.f2.tag = 0;
        result.radio_target__Deed_0.f2.u32_0 = 0;
        result.radio_target__Deed_0.f2.u32_1 = 0;
        return result;
    }
    v3 = core__convert__U32FromU8__from(a1);
    v9.tag = 0u;
    v9.u64_0 = 0;
    v9.u8_0 = 0;
    v10.tag = 2u;
    v10.u32_0 = v3;
    v10.u32_1 = 0;
    v8 = radio_deeds__deeds__performs(&v9, &v10);
    result.tag = 0u;
    result.radio_target__Deed_0.f0.f0 = v8.f0.f0;
    result.radio_target__Deed_0.f0.f1 = v8.f0.f1;
    result.radio_target__Deed_0.f0.f2 = v8.f0.f2;
    result.radio_target__Deed_0.f0.f3 = v8.f0.f3;
    result.radio_target__Deed_0.f1.tag = v8.f1.tag;
    result.radio_target__Deed_0.f1.u64_0 = v8.f1.u64_0;
    result.radio_target__Deed_0.f1.u8_0 = v8.f1.u8_0;
    result.radio_target__Deed_0.f2.tag = v8.f2.tag;
    result.radio_target__Deed_0.f2.u32_0 = v8.f2.u32_0;
    result.radio_target__Deed_0.f2.u32_1 = v8.f2.u32_1;
    result.radio_deeds__ModuleError_0 = 0;
    return result;
}

/* radio_deeds::deeds::deed */
static core__Result_Deed_ModuleError radio_deeds__deeds__deed(const radio_command__RadioCommand *a1,
    slice_u8 a2)
{
    core__Result_Deed_ModuleError result;
    radio_command__CommandName v3;
    uint8_t v4;
    uint8_t v5;
    uint8_t v6;
    core__Result_Deed_ModuleError v7;
    radio_target__Deed v8;
    radio_command__CommandName v9;
    radio_target__Deed v10;
    radio_deeds__ModuleError v11;
    v3 = a1->f0;
    v4 = a1->f1;
    v5 = a1->f2;
    v6 = a1->f3;
    switch (v3) {
    case 0u:
        v9 = 1u;
        v8 = radio_deeds__deeds__answers(v9, 0u);
        v7.tag = 0u;
        v7.radio_target__Deed_0.f0.f0 = v8.f0.f0;
        v7.radio_target__Deed_0.f0.f1 = v8.f0.f1;
        v7.radio_target__Deed_0.f0.f2 = v8.f0.f2;
        v7.radio_target__Deed_0.f0.f3 = v8.f0.f3;
        v7.radio_target__Deed_0.f1.tag = v8.f1.tag;
        v7.radio_target__Deed_0.f1.u64_0 = v8.f1.u64_0;
        v7.radio_target__Deed_0.f1.u8_0 = v8.f1.u8_0;
        v7.radio_target__Deed_0.f2.tag = v8.f2.tag;
        v7.radio_target__Deed_0.f2.u32_0 = v8.f2.u32_0;
        v7.radio_target__Deed_0.f2.u32_1 = v8.f2.u32_1;
        v7.radio_deeds__ModuleError_0 = 0;
        break;
    case 2u:
        v7 = radio_deeds__deeds__rd_flash_byte(v4, v5, a2);
        break;
    case 3u:
        v7 = radio_deeds__deeds__wr_flash_byte(v4, v5, v6, a2);
        break;
    case 4u:
        v7 = radio_deeds__deeds__rd_flash_page(v4, a2);
        break;
    case 5u:
        v7 = radio_deeds__deeds__wr_flash_page(v4, v5, a2);
        break;
    case 6u:
        v7 = radio_deeds__deeds__rd_prg_area(v4, a2);
        break;
    case 7u:
        v7 = radio_deeds__deeds__wr_prg_area(v4, v5, a2);
        break;
    case 10u:
        v7 = radio_deeds__deeds__wr_blank_chk(a2);
        break;
    case 11u:
        v10 = radio_deeds__deeds__answers_ok(1u);
        v7.tag = 0u;
        v7.radio_target__Deed_0.f0.f0 = v10.f0.f0;
        v7.radio_target__Deed_0.f0.f1 = v10.f0.f1;
        v7.radio_target__Deed_0.f0.f2 = v10.f0.f2;
        v7.radio_target__Deed_0.f0.f3 = v10.f0.f3;
        v7.radio_target__Deed_0.f1.tag = v10.f1.tag;
        v7.radio_target__Deed_0.f1.u64_0 = v10.f1.u64_0;
        v7.radio_target__Deed_0.f1.u8_0 = v10.f1.u8_0;
        v7.radio_target__Deed_0.f2.tag = v10.f2.tag;
        v7.radio_target__Deed_0.f2.u32_0 = v10.f2.u32_0;
        v7.radio_target__Deed_0.f2.u32_1 = v10.f2.u32_1;
        v7.radio_deeds__ModuleError_0 = 0;
        break;
    case 12u:
        v7 = radio_deeds__deeds__wr_prg_xram(v4, a2);
        break;
    default: /* 1, 8, 9 */
        v11 = 6u;
        v7.tag = 1u;
        v7.radio_deeds__ModuleError_0 = v11;
        v7.radio_target__Deed_0.f0.f0 = 0;
        v7.radio_target__Deed_0.f0.f1 = 0;
        v7.radio_target__Deed_0.f0.f2 = 0;
        v7.radio_target__Deed_0.f0.f3 = 0;
        v7.radio_target__Deed_0.f1.tag = 0;
        v7.radio_target__Deed_0.f1.u64_0 = 0;
        v7.radio_target__Deed_0.f1.u8_0 = 0;
        v7.radio_target__Deed_0.f2.tag = 0;
        v7.radio_target__Deed_0.f2.u32_0 = 0;
        v7.radio_target__Deed_0.f2.u32_1 = 0;
        break;
    }
    result.tag = v7.tag;
    result.radio_target__Deed_0.f0.f0 = v7.radio_target__Deed_0.f0.f0;
    result.radio_target__Deed_0.f0.f1 = v7.radio_target__Deed_0.f0.f1;
    result.radio_target__Deed_0.f0.f2 = v7.radio_target__Deed_0.f0.f2;
    result.radio_target__Deed_0.f0.f3 = v7.radio_target__Deed_0.f0.f3;
    result.radio_target__Deed_0.f1.tag = v7.radio_target__Deed_0.f1.tag;
    result.radio_target__Deed_0.f1.u64_0 = v7.radio_target__Deed_0.f1.u64_0;
    result.radio_target__Deed_0.f1.u8_0 = v7.radio_target__Deed_0.f1.u8_0;
    result.radio_target__Deed_0.f2.tag = v7.radio_target__Deed_0.f2.tag;
    result.radio_target__Deed_0.f2.u32_0 = v7.radio_target__Deed_0.f2.u32_0;
    result.radio_target__Deed_0.f2.u32_1 = v7.radio_target__Deed_0.f2.u32_1;
    result.radio_deeds__ModuleError_0 = v7.radio_deeds__ModuleError_0;
    return result;
}

/* radio_deeds::commands::obeyed */
static core__Result_Deed_ModuleError radio_deeds__commands__obeyed(slice_u8 a1, slice_u8 a2)
{
    core__Result_Deed_ModuleError result;
    uint8_t v3;
    uint8_t v4;
    uint8_t v5;
    uint8_t v6;
    radio_command__CommandName v7;
    radio_command__CommandName v8;
    core__ErrResidual_ModuleError v9;
    uint8_t v10;
    uint8_t v11;
    uint8_t v12;
    _Bool v13;
    radio_deeds__ModuleError v14;
    core__ControlFlow_ErrResidual_ModuleError_CommandName v15;
    core__Result_CommandName_ModuleError v16;
    core__Option_CommandName v17;
    radio_deeds__ModuleError v18;
    radio_command__CommandName v19;
    radio_command__RadioCommand v20;
    v3 = radio_deeds__deeds__byte_at(a1, UINT64_C(3));
    v4 = radio_deeds__deeds__byte_at(a1, UINT64_C(4));
    v5 = radio_deeds__deeds__byte_at(a1, UINT64_C(5));
    v6 = radio_deeds__deeds__byte_at(a1, UINT64_C(6));
    v10 = radio_deeds__deeds__byte_at(a1, UINT64_C(7));
    v12 = radio_deeds__deeds__byte_at(a1, UINT64_C(2));
    v11 = radio_command__command__command_sum(v12, v3, v4, v5, v6);
    v13 = v10 != v11;
    if (v13) {
        v14 = 4u;
        result.tag = 1u;
        result.radio_deeds__ModuleError_0 = v14;
        result.radio_target__Deed_0.f0.f0 = 0;
        result.radio_target__Deed_0.f0.f1 = 0;
        result.radio_target__Deed_0.f0.f2 = 0;
        result.radio_target__Deed_0.f0.f3 = 0;
        result.radio_target__Deed_0.f1.tag = 0;
        result.radio_target__Deed_0.f1.u64_0 = 0;
        result.radio_target__Deed_0.f1.u8_0 = 0;
        result.radio_target__Deed_0.f2.tag = 0;
        result.radio_target__Deed_0.f2.u32_0 = 0;
        result.radio_target__Deed_0.f2.u32_1 = 0;
        return result;
    }
    v17 = radio_command__command__name_of(v3);
    v18 = 6u;
    v16 = core__Option__ok_or_CommandName_ModuleError(&v17, v18);
    v15 = core__ResultTry__branch_CommandName_ModuleError(&v16);
    switch (v15.tag) {
    case 0u:
        v8 = v15.radio_command__CommandName_0;
        v19 = v8;
        break;
    default: /* 1 */
        v9.f0 = v15.core__ErrResidual_ModuleError_0.f0;
        result = core__ResultFromResidualErrResidual__from_residua_4f421e(&v9);
        return result;
    }
    v7 = v19;
    v20.f0 = v7;
    v20.f1 = v4;
    v20.f2 = v5;
    v20.f3 = v6;
    result = radio_deeds__deeds__deed(&v20, a2);
    return result;
}

/* radio_deeds::deeds::answers_error */
static radio_target__Deed radio_deeds__deeds__answers_error(radio_deeds__ModuleError a1)
{
    radio_target__Deed result;
    radio_command__CommandName v2;
    uint8_t v3;
    uint8_t v4;
    v2 = 9u;
    switch (a1) {
    case 0u:
        v3 = 0u;
        break;
    case 1u:
        v3 = 1u;
        break;
    case 2u:
        v3 = 2u;
        break;
    case 3u:
        v3 = 3u;
        break;
    case 4u:
        v3 = 4u;
        break;
    case 5u:
        v3 = 5u;
        break;
    default: /* 6 */
        v3 = 8u;
        break;
    }
    v4 = v3;
    result = radio_deeds__deeds__answers(v2, v4);
    return result;
}

/* radio_deeds::commands::commanded */
static radio_target__Deed radio_deeds__commands__commanded(slice_u8 a1, slice_u8 a2)
{
    radio_target__Deed result;
    radio_target__Deed v3;
    radio_deeds__ModuleError v4;
    core__Result_Deed_ModuleError v5;
    radio_target__Deed v6;
    v5 = radio_deeds__commands__obeyed(a1, a2);
    switch (v5.tag) {
    case 0u:
        v3.f0.f0 = v5.radio_target__Deed_0.f0.f0;
        v3.f0.f1 = v5.radio_target__Deed_0.f0.f1;
        v3.f0.f2 = v5.radio_target__Deed_0.f0.f2;
        v3.f0.f3 = v5.radio_target__Deed_0.f0.f3;
        v3.f1.tag = v5.radio_target__Deed_0.f1.tag;
        v3.f1.u64_0 = v5.radio_target__Deed_0.f1.u64_0;
        v3.f1.u8_0 = v5.radio_target__Deed_0.f1.u8_0;
        v3.f2.tag = v5.radio_target__Deed_0.f2.tag;
        v3.f2.u32_0 = v5.radio_target__Deed_0.f2.u32_0;
        v3.f2.u32_1 = v5.radio_target__Deed_0.f2.u32_1;
        v6.f0.f0 = v3.f0.f0;
        v6.f0.f1 = v3.f0.f1;
        v6.f0.f2 = v3.f0.f2;
        v6.f0.f3 = v3.f0.f3;
        v6.f1.tag = v3.f1.tag;
        v6.f1.u64_0 = v3.f1.u64_0;
        v6.f1.u8_0 = v3.f1.u8_0;
        v6.f2.tag = v3.f2.tag;
        v6.f2.u32_0 = v3.f2.u32_0;
        v6.f2.u32_1 = v3.f2.u32_1;
        break;
    default: /* 1 */
        v4 = v5.radio_deeds__ModuleError_0;
        v6 = radio_deeds__deeds__answers_error(v4);
        break;
    }
    result.f0.f0 = v6.f0.f0;
    result.f0.f1 = v6.f0.f1;
    result.f0.f2 = v6.f0.f2;
    result.f0.f3 = v6.f0.f3;
    result.f1.tag = v6.f1.tag;
    result.f1.u64_0 = v6.f1.u64_0;
    result.f1.u8_0 = v6.f1.u8_0;
    result.f2.tag = v6.f2.tag;
    result.f2.u32_0 = v6.f2.u32_0;
    result.f2.u32_1 = v6.f2.u32_1;
    return result;
}

/* radio_flash::pages::put_page */
static void radio_flash__pages__put_page(uint64_t a1, slice_u8 a2, slice_mut_u8 a3)
{
    uint64_t v4;
    uint64_t v5;
    _Bool v6;
    _Bool v7;
    uint64_t v8;
    uint64_t v9;
    _Bool v10;
    _Bool v11;
    uint64_t v12;
    uint64_t v14;
    uint8_t *v15;
    uint64_t v16;
    uint8_t *v17;
    slice_mut_u8 v18;
    const uint8_t *v19;
    uint64_t v20;
    const uint8_t *v21;
    slice_u8 v22;
    v8 = a3.length;
    v7 = v8 != UINT64_C(33024);
    if (!v7) {
        v7 = UINT64_C(127) < a1;
        v6 = v7;
        if (!v6) {
            v9 = a2.length;
            v6 = v9 != UINT64_C(256);
            v10 = v6;
            if (!v10) {
                goto end2;
            }
        }
    }
    return;
    goto end1;
    end2:;
    end1:;
    v4 = UINT64_C(256) * a1;
    v11 = a1 == UINT64_C(127);
    if (v11) {
        v12 = UINT64_C(4);
    } else {
        v12 = UINT64_C(0);
    }
    v5 = v12;
    v8 = v4 + v5;
    v14 = v4 + UINT64_C(256);
    v15 = a3.at + (size_t)v8;
    v16 = v14 - v8;
    v17 = v15;
    v18.at = v17;
    v18.length = v16;
    v19 = a2.at + (size_t)v5;
    v20 = a2.length - v5;
    v21 = v19;
    v22.at = v21;
    v22.length = v20;
    core__slice__copy_from_slice(v18, v22);
    return;
}

/* radio_flash::changes::change */
static void radio_flash__changes__change(const radio_flash__FlashChange *a1, slice_mut_u8 a2)
{
    uint64_t v3;
    uint8_t v4;
    uint64_t v5;
    uint64_t v6;
    _Bool v7;
    _Bool v8;
    uint8_t *v9;
    const uint8_t *v11;
    const uint8_t *v12;
    slice_u8 v13;
    uint8_t *v14;
    slice_mut_u8 v15;
    uint8_t *v17;
    slice_mut_u8 v18;
    static const array_256_u8 v19 = {{
        255u, 255u, 255u, 255u, 255u, 255u, 255u, 255u, 255u, 255u, 255u, 255u, 255u, 255u, 255u, 255u, 255u,
        255u, 255u, 255u, 255u, 255u, 255u, 255u, 255u, 255u, 255u, 255u, 255u, 255u, 255u, 255u, 255u, 255u,
        255u, 255u, 255u, 255u, 255u, 255u, 255u, 255u, 255u, 255u, 255u, 255u, 255u, 255u, 255u, 255u, 255u,
        255u, 255u, 255u, 255u, 255u, 255u, 255u, 255u, 255u, 255u, 255u, 255u, 255u, 255u, 255u, 255u, 255u,
        255u, 255u, 255u, 255u, 255u, 255u, 255u, 255u, 255u, 255u, 255u, 255u, 255u, 255u, 255u, 255u, 255u,
        255u, 255u, 255u, 255u, 255u, 255u, 255u, 255u, 255u, 255u, 255u, 255u, 255u, 255u, 255u, 255u, 255u,
        255u, 255u, 255u, 255u, 255u, 255u, 255u, 255u, 255u, 255u, 255u, 255u, 255u, 255u, 255u, 255u, 255u,
        255u, 255u, 255u, 255u, 255u, 255u, 255u, 255u, 255u, 255u, 255u, 255u, 255u, 255u, 255u, 255u, 255u,
        255u, 255u, 255u, 255u, 255u, 255u, 255u, 255u, 255u, 255u, 255u, 255u, 255u, 255u, 255u, 255u, 255u,
        255u, 255u, 255u, 255u, 255u, 255u, 255u, 255u, 255u, 255u, 255u, 255u, 255u, 255u, 255u, 255u, 255u,
        255u, 255u, 255u, 255u, 255u, 255u, 255u, 255u, 255u, 255u, 255u, 255u, 255u, 255u, 255u, 255u, 255u,
        255u, 255u, 255u, 255u, 255u, 255u, 255u, 255u, 255u, 255u, 255u, 255u, 255u, 255u, 255u, 255u, 255u,
        255u, 255u, 255u, 255u, 255u, 255u, 255u, 255u, 255u, 255u, 255u, 255u, 255u, 255u, 255u, 255u, 255u,
        255u, 255u, 255u, 255u, 255u, 255u, 255u, 255u, 255u, 255u, 255u, 255u, 255u, 255u, 255u, 255u, 255u,
        255u, 255u, 255u, 255u, 255u, 255u, 255u, 255u, 255u, 255u, 255u, 255u, 255u, 255u, 255u, 255u, 255u,
        255u,
    }};
    v6 = a2.length;
    v7 = v6 != UINT64_C(33024);
    if (v7) {
        return;
    }
    switch (a1->tag) {
    case 1u:
        v3 = a1->u64_0;
        v4 = a1->u8_0;
        v8 = v3 < UINT64_C(32768);
        if (v8) {
            v9 = a2.at + (size_t)v3;
            *v9 = v4;
            goto end1;
        }
        goto end2;
    case 2u:
        v5 = a1->u64_0;
        v11 = v19.at;
        v12 = v11;
        v13.at = v12;
        v13.length = UINT64_C(256);
        v14 = a2.at;
        v15.at = v14;
        v15.length = a2.length;
        radio_flash__pages__put_page(v5, v13, v15);
        goto end1;
    case 3u:
        v17 = a2.at;
        v18.at = v17;
        v18.length = UINT64_C(32768);
        core__slice_T__fill_u8(v18, 255u);
        goto end1;
    default: /* 0 */
        goto end2;
    }
    end2:;
    end1:;
    return;
}

/* radio_target_step::messages::answer */
static void radio_target_step__messages__answer(const radio_command__RadioCommand *a1, slice_mut_u8 a2)
{
    uint8_t *v4;
    slice_mut_u8 v5;
    array_8_u8 v6;
    array_8_u8 v7;
    const uint8_t *v8;
    slice_u8 v9;
    v4 = a2.at;
    v5.at = v4;
    v5.length = UINT64_C(8);
    v6 = radio_command__command__build(a1);
    v7 = v6;
    v8 = v7.at;
    v9.at = v8;
    v9.length = UINT64_C(8);
    core__slice__copy_from_slice(v5, v9);
    return;
}

/* radio_target_step::messages::taken */
static radio_replied radio_target_step__messages__taken(uint32_t a1, const radio_target__ModulePoint *a2)
{
    radio_replied result;
    radio_target v3;
    v3 = core__AnyInto__into_ModulePoint_RadioTarget(a2);
    result.number = UINT32_C(0);
    result.reply = a1;
    result.target.point = v3.point;
    result.target.page = v3.page;
    result.target.left = v3.left;
    return result;
}

/* radio_target_step::messages::take */
static radio_replied radio_target_step__messages__take(const radio_target__ModulePoint *a1, slice_mut_u8 a2,
    slice_u8 a3, slice_mut_u8 a4)
{
    radio_replied result;
    radio_target__Deed v5;
    uint32_t v6;
    uint32_t v7;
    uint32_t v8;
    uint32_t v9;
    uint32_t v10;
    uint32_t v11;
    uint32_t v12;
    uint64_t v13;
    uint32_t v14;
    uint32_t v15;
    radio_replied v16;
    const uint8_t *v17;
    slice_u8 v18;
    radio_flash__FlashChange v20;
    uint8_t *v21;
    slice_mut_u8 v22;
    radio_command__RadioCommand v23;
    uint8_t *v24;
    slice_mut_u8 v25;
    radio_target__ModulePoint v26;
    uint64_t v28;
    uint8_t *v29;
    slice_mut_u8 v30;
    uint32_t v31;
    uint32_t v32;
    _Bool v33;
    radio_replied v34;
    radio_command__CommandName v36;
    radio_command__RadioCommand v37;
    uint8_t *v38;
    slice_mut_u8 v39;
    radio_target__ModulePoint v40;
    radio_target__ModulePoint v41;
    radio_target__ModulePoint v42;
    uint32_t v43;
    radio_target__ModulePoint v44;
    uint64_t v45;
    uint8_t *v47;
    slice_mut_u8 v48;
    const uint8_t *v49;
    uint64_t v50;
    const uint8_t *v51;
    slice_u8 v52;
    uint32_t v53;
    uint32_t v54;
    _Bool v55;
    radio_replied v56;
    radio_target__ModulePoint v57;
    radio_target__ModulePoint v58;
    switch (a1->tag) {
    case 0u:
        v17 = a2.at;
        v18.at = v17;
        v18.length = a2.length;
        v5 = radio_deeds__commands__commanded(a3, v18);
        v20.tag = v5.f1.tag;
        v20.u64_0 = v5.f1.u64_0;
        v20.u8_0 = v5.f1.u8_0;
        v21 = a2.at;
        v22.at = v21;
        v22.length = a2.length;
        radio_flash__changes__change(&v20, v22);
        v23.f0 = v5.f0.f0;
        v23.f1 = v5.f0.f1;
        v23.f2 = v5.f0.f2;
        v23.f3 = v5.f0.f3;
        v24 = a4.at;
        v25.at = v24;
        v25.length = a4.length;
        radio_target_step__messages__answer(&v23, v25);
        v26.tag = v5.f2.tag;
        v26.u32_0 = v5.f2.u32_0;
        v26.u32_1 = v5.f2.u32_1;
        v16 = radio_target_step__messages__taken(UINT32_C(8), &v26);
        break;
    case 1u:
        v6 = a1->u32_0;
        v7 = a1->u32_1;
        v28 = (uint64_t)v6;
        v29 = a2.at;
        v30.at = v29;
        v30.length = a2.length;
        radio_flash__pages__put_page(v28, a3, v30);
        v31 = (uint32_t)(v6 + UINT32_C(1));
        v32 = (uint32_t)(v7 - UINT32_C(1));
        v8 = v31;
        v9 = v32;
        v33 = v9 == UINT32_C(0);
        if (v33) {
            v36 = 8u;
            v37.f0 = v36;
            v37.f1 = 0u;
            v37.f2 = 0u;
            v37.f3 = 0u;
            v38 = a4.at;
            v39.at = v38;
            v39.length = a4.length;
            radio_target_step__messages__answer(&v37, v39);
            v40.tag = 0u;
            v40.u32_0 = 0;
            v40.u32_1 = 0;
            v34 = radio_target_step__messages__taken(UINT32_C(8), &v40);
        } else {
            v41.tag = 1u;
            v41.u32_0 = v8;
            v41.u32_1 = v9;
            v34 = radio_target_step__messages__taken(UINT32_C(0), &v41);
        }
        v16.number = v34.number;
        v16.reply = v34.reply;
        v16.target.point = v34.target.point;
        v16.target.page = v34.target.page;
        v16.target.left = v34.target.left;
        break;
    case 2u:
        switch (a1->u32_0) {
        case 1u:
            v42.tag = 0u;
            v42.u32_0 = 0;
            v42.u32_1 = 0;
            v16 = radio_target_step__messages__taken(UINT32_C(0), &v42);
            break;
        default:
            v10 = a1->u32_0;
            v43 = (uint32_t)(v10 - UINT32_C(1));
            v44.tag = 2u;
            v44.u32_0 = v43;
            v44.u32_1 = 0;
            v16 = radio_target_step__messages__taken(UINT32_C(0), &v44);
            break;
        }
        break;
    default: /* 3 */
        v11 = a1->u32_0;
        v12 = a1->u32_1;
        v45 = (uint64_t)v11;
        v13 = UINT64_C(256) * v45;
        v47 = a4.at;
        v48.at = v47;
        v48.length = UINT64_C(256);
        v45 = v13 + UINT64_C(256);
        v49 = a2.at + (size_t)v13;
        v50 = v45 - v13;
        v51 = v49;
        v52.at = v51;
        v52.length = v50;
        core__slice__copy_from_slice(v48, v52);
        v53 = (uint32_t)(v11 + UINT32_C(1));
        v54 = (uint32_t)(v12 - UINT32_C(1));
        v14 = v53;
        v15 = v54;
        v55 = v15 == UINT32_C(0);
        if (v55) {
            v57.tag = 0u;
            v57.u32_0 = 0;
            v57.u32_1 = 0;
            v56 = radio_target_step__messages__taken(UINT32_C(256), &v57);
        } else {
            v58.tag = 3u;
            v58.u32_0 = v14;
            v58.u32_1 = v15;
            v56 = radio_target_step__messages__taken(UINT32_C(256), &v58);
        }
        v16.number = v56.number;
        v16.reply = v56.reply;
        v16.target.point = v56.target.point;
        v16.target.page = v56.target.page;
        v16.target.left = v56.target.left;
        break;
    }
    result.number = v16.number;
    result.reply = v16.reply;
    result.target.point = v16.target.point;
    result.target.page = v16.target.page;
    result.target.left = v16.target.left;
    return result;
}

/* radio_target_step::points::spans */
static _Bool radio_target_step__points__spans(uint32_t a1, uint32_t a2, uint64_t a3)
{
    _Bool result;
    _Bool v4;
    uint64_t v5;
    uint64_t v6;
    uint64_t v7;
    v4 = UINT32_C(1) <= a2;
    if (v4) {
        v5 = (uint64_t)a1;
        v6 = (uint64_t)a2;
        v7 = v5 + v6;
        v4 = v7 <= a3;
    }
    result = v4;
    return result;
}

/* radio_target_step::points::is_point */
static _Bool radio_target_step__points__is_point(const radio_target__ModulePoint *a1)
{
    _Bool result;
    uint32_t v2;
    uint32_t v3;
    uint32_t v4;
    uint32_t v5;
    uint32_t v6;
    _Bool v7;
    switch (a1->tag) {
    case 0u:
        v7 = 1;
        break;
    case 1u:
        v2 = a1->u32_0;
        v3 = a1->u32_1;
        v7 = radio_target_step__points__spans(v2, v3, UINT64_C(128));
        break;
    case 2u:
        v4 = a1->u32_0;
        v7 = radio_target_step__points__spans(UINT32_C(0), v4, UINT64_C(4));
        break;
    default: /* 3 */
        v5 = a1->u32_0;
        v6 = a1->u32_1;
        v7 = radio_target_step__points__spans(v5, v6, UINT64_C(129));
        break;
    }
    result = v7;
    return result;
}

/* core::slice_T::is_empty_u8 */
INLINED _Bool core__slice_T__is_empty_u8(slice_u8 a1)
{
    _Bool result;
    uint64_t v2;
    v2 = a1.length;
    result = v2 == UINT64_C(0);
    return result;
}

/* radio_target_step::points::is_taken */
static _Bool radio_target_step__points__is_taken(const radio_target__ModulePoint *a1, slice_u8 a2)
{
    _Bool result;
    _Bool v3;
    _Bool v4;
    _Bool v5;
    const uint8_t *v6;
    uint8_t v7;
    const uint8_t *v8;
    uint8_t v9;
    const uint8_t *v10;
    uint8_t v11;
    uint64_t v12;
    switch (a1->tag) {
    case 0u:
        v5 = a2.length < UINT64_C(8);
        if (v5) {
            goto end2;
        }
        v5 = a2.length < UINT64_C(9);
        if (v5) {
            v6 = a2.at + (size_t)UINT64_C(0);
            v7 = *v6;
            switch (v7) {
            case 165u:
                v8 = a2.at + (size_t)UINT64_C(1);
                v9 = *v8;
                switch (v9) {
                case 90u:
                    v10 = a2.at + (size_t)UINT64_C(2);
                    v11 = *v10;
                    switch (v11) {
                    case 165u:
                        v4 = 1;
                        goto end1;
                    default:
                        goto end2;
                    }
                default:
                    goto end2;
                }
            default:
                goto end2;
            }
        }
        goto end2;
        end2:;
        v4 = 0;
        end1:;
        v3 = v4;
        break;
    case 1u:
    case 2u:
        v12 = a2.length;
        v3 = v12 == UINT64_C(256);
        break;
    default: /* 3 */
        v3 = core__slice_T__is_empty_u8(a2);
        break;
    }
    result = v3;
    return result;
}

/* radio_target_step::steps::message_refusal */
static core__Result_unit_Refusal radio_target_step__steps__message_refusal(
    const radio_target__ModulePoint *a1, slice_u8 a2, slice_u8 a3, uint64_t a4)
{
    core__Result_unit_Refusal result;
    _Bool v5;
    uint64_t v6;
    _Bool v7;
    _Bool v8;
    numbers__Refusal v9;
    _Bool v10;
    numbers__Refusal v11;
    _Bool v12;
    numbers__Refusal v13;
    v6 = a2.length;
    v5 = v6 != UINT64_C(33024);
    if (!v5) {
        v7 = radio_target_step__points__is_point(a1);
        v5 = !v7;
        v8 = v5;
        if (!v8) {
            goto end2;
        }
    }
    v9 = 9u;
    result.tag = 1u;
    result.numbers__Refusal_0 = v9;
    return result;
    goto end1;
    end2:;
    end1:;
    v10 = a4 < UINT64_C(256);
    if (v10) {
        v11 = 18u;
        result.tag = 1u;
        result.numbers__Refusal_0 = v11;
        return result;
    }
    v10 = radio_target_step__points__is_taken(a1, a3);
    v12 = !v10;
    if (v12) {
        v13 = 19u;
        result.tag = 1u;
        result.numbers__Refusal_0 = v13;
        return result;
    }
    result.tag = 0u;
    result.numbers__Refusal_0 = 0;
    return result;
}

/* radio_target_step::steps::stepped */
static core__Result_RadioReplied_Refusal radio_target_step__steps__stepped(const radio_target *a1,
    slice_mut_u8 a2, slice_u8 a3, slice_mut_u8 a4)
{
    core__Result_RadioReplied_Refusal result;
    radio_target__ModulePoint v5;
    radio_target__ModulePoint v6;
    core__ErrResidual_Refusal v7;
    core__ErrResidual_Refusal v9;
    core__ControlFlow_ErrResidual_Refusal_ModulePoint v10;
    core__Result_ModulePoint_Refusal v11;
    radio_target__ModulePoint v12;
    core__ControlFlow_ErrResidual_Refusal_unit v13;
    core__Result_unit_Refusal v14;
    const uint8_t *v15;
    slice_u8 v16;
    uint64_t v17;
    radio_replied v18;
    uint8_t *v19;
    slice_mut_u8 v20;
    uint8_t *v21;
    slice_mut_u8 v22;
    v11 = radio_target__ModulePointTryFromRadioTarget__try_from(a1);
    v10 = core__ResultTry__branch_ModulePoint_Refusal(&v11);
    switch (v10.tag) {
    case 0u:
        v6.tag = v10.radio_target__ModulePoint_0.tag;
        v6.u32_0 = v10.radio_target__ModulePoint_0.u32_0;
        v6.u32_1 = v10.radio_target__ModulePoint_0.u32_1;
        v12.tag = v6.tag;
        v12.u32_0 = v6.u32_0;
        v12.u32_1 = v6.u32_1;
        break;
    default: /* 1 */
        v7.f0 = v10.core__ErrResidual_Refusal_0.f0;
        result = core__ResultFromResidualErrResidual__from_residua_e63956(&v7);
        return result;
    }
    v5.tag = v12.tag;
    v5.u32_0 = v12.u32_0;
    v5.u32_1 = v12.u32_1;
    v15 = a2.at;
    v16.at = v15;
    v16.length = a2.length;
    v17 = a4.length;
    v14 = radio_target_step__steps__message_refusal(&v5, v16, a3, v17);
    v13 = core__ResultTry__branch_unit_Refusal(&v14);
    switch (v13.tag) {
    case 0u:
        break;
    default: /* 1 */
        v9.f0 = v13.core__ErrResidual_Refusal_0.f0;
        result = core__ResultFromResidualErrResidual__from_residua_e63956(&v9);
        return result;
    }
    v19 = a2.at;
    v20.at = v19;
    v20.length = a2.length;
    v21 = a4.at;
    v22.at = v21;
    v22.length = a4.length;
    v18 = radio_target_step__messages__take(&v5, v20, a3, v22);
    result.tag = 0u;
    result.radio_target__RadioReplied_0.number = v18.number;
    result.radio_target__RadioReplied_0.reply = v18.reply;
    result.radio_target__RadioReplied_0.target.point = v18.target.point;
    result.radio_target__RadioReplied_0.target.page = v18.target.page;
    result.radio_target__RadioReplied_0.target.left = v18.target.left;
    result.numbers__Refusal_0 = 0;
    return result;
}

/* radio_target_step::steps::step */
static radio_replied radio_target_step__steps__step(const radio_target *a1, slice_mut_u8 a2, slice_u8 a3,
    slice_mut_u8 a4)
{
    radio_replied result;
    radio_replied v5;
    numbers__Refusal v6;
    core__Result_RadioReplied_Refusal v7;
    uint8_t *v8;
    slice_mut_u8 v9;
    uint8_t *v10;
    slice_mut_u8 v11;
    radio_replied v12;
    uint32_t v13;
    v8 = a2.at;
    v9.at = v8;
    v9.length = a2.length;
    v10 = a4.at;
    v11.at = v10;
    v11.length = a4.length;
    v7 = radio_target_step__steps__stepped(a1, v9, a3, v11);
    switch (v7.tag) {
    case 0u:
        v5.number = v7.radio_target__RadioReplied_0.number;
        v5.reply = v7.radio_target__RadioReplied_0.reply;
        v5.target.point = v7.radio_target__RadioReplied_0.target.point;
        v5.target.page = v7.radio_target__RadioReplied_0.target.page;
        v5.target.left = v7.radio_target__RadioReplied_0.target.left;
        v12.number = v5.number;
        v12.reply = v5.reply;
        v12.target.point = v5.target.point;
        v12.target.page = v5.target.page;
        v12.target.left = v5.target.left;
        break;
    default: /* 1 */
        v6 = v7.numbers__Refusal_0;
        v13 = core__AnyInto__into_Refusal_u32(v6);
        v12.number = v13;
        v12.reply = UINT32_C(0);
        v12.target.point = a1->point;
        v12.target.page = a1->page;
        v12.target.left = a1->left;
        break;
    }
    result.number = v12.number;
    result.reply = v12.reply;
    result.target.point = v12.target.point;
    result.target.page = v12.target.page;
    result.target.left = v12.target.left;
    return result;
}

/* radio::target::radio_target_step */
static radio_replied radio__target__radio_target_step(const radio_target *a1, slice_mut_u8 a2, slice_u8 a3,
    slice_mut_u8 a4)
{
    radio_replied result;
    uint8_t *v5;
    slice_mut_u8 v6;
    uint8_t *v7;
    slice_mut_u8 v8;
    v5 = a2.at;
    v6.at = v5;
    v6.length = a2.length;
    v7 = a4.at;
    v8.at = v7;
    v8.length = a4.length;
    result = radio_target_step__steps__step(a1, v6, a3, v8);
    return result;
}

radio_command radio_read(const uint8_t *bytes, size_t len)
{
    uint8_t none8 = 0;
    slice_u8 bytes_slice;
    bytes_slice.at = len != 0 ? bytes : &none8;
    bytes_slice.length = len;
    return radio__command__radio_read(bytes_slice);
}

uint32_t radio_build(uint8_t command, uint8_t p0, uint8_t p1, uint8_t p2, uint8_t *out, size_t out_len)
{
    uint8_t none8 = 0;
    slice_mut_u8 out_slice;
    out_slice.at = out_len != 0 ? out : &none8;
    out_slice.length = out_len;
    return radio__command__radio_build(command, p0, p1, p2, out_slice);
}

radio_opened radio_open(uint8_t *record, size_t record_len, const uint8_t *image, size_t image_len,
    const uint8_t *mask, size_t mask_len, const uint8_t *data, size_t data_len, uint8_t *out, size_t out_len)
{
    uint8_t none8 = 0;
    slice_mut_u8 record_slice;
    record_slice.at = record_len != 0 ? record : &none8;
    record_slice.length = record_len;
    slice_u8 image_slice;
    image_slice.at = image_len != 0 ? image : &none8;
    image_slice.length = image_len;
    slice_u8 mask_slice;
    mask_slice.at = mask_len != 0 ? mask : &none8;
    mask_slice.length = mask_len;
    slice_u8 data_slice;
    data_slice.at = data_len != 0 ? data : &none8;
    data_slice.length = data_len;
    slice_mut_u8 out_slice;
    out_slice.at = out_len != 0 ? out : &none8;
    out_slice.length = out_len;
    return radio__job__radio_open(record_slice, image_slice, mask_slice, data_slice, out_slice);
}

radio_advanced radio_advance(uint8_t *record, size_t record_len, const uint8_t *image, size_t image_len,
    const uint8_t *reply, size_t reply_len, uint8_t *out, size_t out_len)
{
    uint8_t none8 = 0;
    slice_mut_u8 record_slice;
    record_slice.at = record_len != 0 ? record : &none8;
    record_slice.length = record_len;
    slice_u8 image_slice;
    image_slice.at = image_len != 0 ? image : &none8;
    image_slice.length = image_len;
    slice_u8 reply_slice;
    reply_slice.at = reply_len != 0 ? reply : &none8;
    reply_slice.length = reply_len;
    slice_mut_u8 out_slice;
    out_slice.at = out_len != 0 ? out : &none8;
    out_slice.length = out_len;
    return radio__job__radio_advance(record_slice, image_slice, reply_slice, out_slice);
}

radio_target radio_target_fresh(void)
{
    return radio__target__radio_target_fresh();
}

radio_replied radio_target_step(radio_target target, uint8_t *flash, size_t flash_len, const uint8_t *message,
    size_t message_len, uint8_t *reply, size_t reply_len)
{
    uint8_t none8 = 0;
    slice_mut_u8 flash_slice;
    flash_slice.at = flash_len != 0 ? flash : &none8;
    flash_slice.length = flash_len;
    slice_u8 message_slice;
    message_slice.at = message_len != 0 ? message : &none8;
    message_slice.length = message_len;
    slice_mut_u8 reply_slice;
    reply_slice.at = reply_len != 0 ? reply : &none8;
    reply_slice.length = reply_len;
    return radio__target__radio_target_step(&target, flash_slice, message_slice, reply_slice);
}
