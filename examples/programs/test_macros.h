// Test cases in the style of riscv-tests. Each has a number, which TESTNUM holds while it runs; at the first
// one that gives another value, the program fails with its number.
// These are lines of assembler.
// clang-format off
#ifndef TEST_MACROS_H
#define TEST_MACROS_H

// Runs the code, and asks that the register then has the value.
#define TEST_CASE(number, register, value, ...) \
test_##number:                                  \
    li      TESTNUM, number;                    \
    __VA_ARGS__;                                \
    li      t2, value;                          \
    bne     register, t2, fail

// An instruction of two registers.
#define TEST_RR_OP(number, instruction, value, left, right) \
    TEST_CASE(number, a4, value,                            \
        li a1, left;                                        \
        li a2, right;                                       \
        instruction a4, a1, a2)

// An instruction of a register and an immediate.
#define TEST_IMM_OP(number, instruction, value, left, immediate) \
    TEST_CASE(number, a4, value,                                 \
        li a1, left;                                             \
        instruction a4, a1, immediate)

// A load of what stands at a label and an offset.
#define TEST_LD_OP(number, instruction, value, offset, label) \
    TEST_CASE(number, a4, value,                              \
        la a1, label;                                         \
        instruction a4, offset(a1))

// A store, and a load of it.
#define TEST_ST_OP(number, load, store, value, offset, label) \
    TEST_CASE(number, a4, value,                              \
        la a1, label;                                         \
        li a2, value;                                         \
        store a2, offset(a1);                                 \
        load a4, offset(a1))

// The end of every test.
#define TEST_PASSFAIL           \
    bnez    TESTNUM, pass;      \
fail:                           \
    RVTEST_FAIL;                \
pass:                           \
    RVTEST_PASS

#define TEST_DATA

#endif
