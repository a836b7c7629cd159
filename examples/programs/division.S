# A test in the style of riscv-tests: division where the manual has a special answer, and loads and stores that
# extend. The values are those of the unprivileged manual's tables.
#include "riscv_test.h"
#include "test_macros.h"

RVTEST_RV64U
RVTEST_CODE_BEGIN
    TEST_RR_OP(2, div, -3, 20, -6)
    TEST_RR_OP(3, div, -1, 7, 0)
    TEST_RR_OP(4, div, 0x8000000000000000, 0x8000000000000000, -1)
    TEST_RR_OP(5, divu, 0xffffffffffffffff, 7, 0)
    TEST_RR_OP(6, rem, 2, 20, -6)
    TEST_RR_OP(7, rem, 7, 7, 0)
    TEST_RR_OP(8, rem, 0, 0x8000000000000000, -1)
    TEST_RR_OP(9, remu, 7, 7, 0)
    TEST_RR_OP(10, divw, 0xffffffff80000000, 0x80000000, -1)
    TEST_RR_OP(11, divuw, -1, 7, 0)
    TEST_RR_OP(12, mulhsu, -1, -1, 1)
    TEST_IMM_OP(13, sraiw, 0xfffffffff8000000, 0x80000000, 4)
    TEST_LD_OP(14, lb, -1, 1, bytes)
    TEST_LD_OP(15, lbu, 0xff, 1, bytes)
    TEST_LD_OP(16, lw, 0xffffffff8000ff00, 0, bytes)
    TEST_ST_OP(17, ld, sd, 0x0123456789abcdef, 8, bytes)
    TEST_PASSFAIL
RVTEST_CODE_END

    .data
RVTEST_DATA_BEGIN
    TEST_DATA
bytes:
    .word   0x8000ff00, 0
    .dword  0
RVTEST_DATA_END
