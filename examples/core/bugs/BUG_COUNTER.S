// The counter of cycles is read before and after a carry into its second byte.
#include "bug.h"
    hart_0_alone
    li      x6, 240
    csrw    mcycle, x6
    csrr    x7, mcycle
    nop
    nop
    nop
shows:
    csrr    x8, mcycle
    finish
