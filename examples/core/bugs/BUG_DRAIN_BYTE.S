// Two stores to one line, of its first and its last byte; the fence makes it drain.
#include "bug.h"
    hart_0_alone
    la      x10, place
    li      x6, 5
    sb      x6, 0(x10)
    sb      x6, 63(x10)
shows:
    fence   rw, rw
    finish
    .balign 64
place:
    .zero   64
