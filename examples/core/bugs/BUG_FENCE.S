// A load behind a fence, while a store from before it may still wait.
#include "bug.h"
    hart_0_alone
    la      x10, place
    li      x6, 1
store:
    sd      x6, 0(x10)
    fence   rw, rw
shows:
    ld      x8, 64(x10)
    finish
    .balign 64
place:
    .zero   128
