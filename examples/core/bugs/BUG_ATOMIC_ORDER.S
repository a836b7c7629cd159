// An atomic on a line for which a store waits.
#include "bug.h"
    hart_0_alone
    la      x10, place
    li      x6, 3
store:
    sd      x6, 0(x10)
shows:
    amoadd.d x7, x6, (x10)
    finish
    .balign 64
place:
    .zero   64
