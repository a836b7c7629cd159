// Stores to two lines, a fence of writes, and a store to the first line again.
#include "bug.h"
    hart_0_alone
    la      x10, place
    li      x6, 5
    sd      x6, 0(x10)
other_line:
    sd      x6, 64(x10)
    fence   w, w
    sd      x6, 8(x10)
shows:
    fence   rw, rw
    finish
    .balign 64
place:
    .zero   128
