// The unsigned maximum of 1 and the greatest word.
#include "bug.h"
    hart_0_alone
    la      x10, place
    li      x6, -1
shows:
    amomaxu.w x7, x6, (x10)
    finish
    .balign 64
place:
    .dword  1
