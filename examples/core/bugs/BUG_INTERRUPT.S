// The timer is due and its interrupt is not enabled.
#include "bug.h"
    hart_0_alone
    la      x10, park
    csrw    mtvec, x10
    li      x10, TIMER
    sd      x0, 0(x10)
shows:
    nop
    finish
