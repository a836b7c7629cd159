// Two stores to one line leave in one drain.
#include "bug.h"
    hart_0_alone
    la      x10, place
    li      x6, 5
    sd      x6, 0(x10)
    sd      x6, 8(x10)
shows:
    fence   rw, rw
    finish
    .balign 64
place:
    .zero   64
