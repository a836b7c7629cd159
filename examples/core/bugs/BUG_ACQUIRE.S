// A load behind an acquire, of a line that a load before the acquire read.
#include "bug.h"
    hart_0_alone
    la      x10, place
    la      x11, lock
    li      x6, 1
before:
    ld      x7, 0(x10)
acquire:
    amoswap.d.aq x8, x6, (x11)
shows:
    ld      x9, 8(x10)
    finish
    .balign 64
place:
    .zero   64
lock:
    .zero   64
