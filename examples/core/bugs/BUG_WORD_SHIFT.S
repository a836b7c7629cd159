// SRLW of a register whose upper half is not zero.
#include "bug.h"
    hart_0_alone
    li      x6, 0x100000010
    li      x7, 4
shows:
    srlw    x8, x6, x7
    finish
