// The timer is due; its interrupt comes as soon as it is enabled, and the handler reads where.
#include "bug.h"
    hart_0_alone
    la      x10, handler
    csrw    mtvec, x10
    li      x10, TIMER
    sd      x0, 0(x10)
    li      x6, 128
    csrw    mie, x6
    csrsi   mstatus, 8
interrupted:
    nop
    finish
    .balign 4
handler:
shows:
    csrr    x7, mepc
    csrw    mie, x0
    mret
