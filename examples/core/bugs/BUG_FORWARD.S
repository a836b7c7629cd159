// A load over two waiting stores to its address: the fence keeps them in two entries of the store buffer.
#include "bug.h"
    hart_0_alone
    la      x10, place
    li      x6, 1
    li      x7, 2
    sd      x6, 0(x10)
    fence   w, w
    sd      x7, 0(x10)
shows:
    ld      x8, 0(x10)
    finish
    .balign 64
place:
    .dword  0
