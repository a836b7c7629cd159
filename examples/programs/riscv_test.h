// The environment of a test that is written as those of riscv-tests are, inside the profile that difftest
// judges: it writes no PMP and no RNMI registers, since there are none. Start-up and end are those of
// start.S. Everything runs in M mode, and a trap is a failure. These are lines of assembler.
// clang-format off
#ifndef RISCV_TEST_H
#define RISCV_TEST_H

#include "platform.h"

#define TESTNUM gp

#define RVTEST_RV64U
#define RVTEST_RV64M

// Only hart 0 runs the test; the others go back to start.S and wait.
#define RVTEST_CODE_BEGIN \
    .text;                \
    .globl main;          \
main:                     \
    beqz    a0, 1f;       \
    ret;                  \
1:  li      TESTNUM, 0

#define RVTEST_CODE_END

// The code of a failure is the number of the test case.
#define RVTEST_PASS      \
    fence;               \
    li      a0, 0;       \
    j       finish
#define RVTEST_FAIL      \
    fence;               \
    mv      a0, TESTNUM; \
    j       finish

#define RVTEST_DATA_BEGIN .balign 16
#define RVTEST_DATA_END

#endif
