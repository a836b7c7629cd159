// A byte with its highest bit set is loaded as signed.
#include "bug.h"
    hart_0_alone
    la      x10, place
shows:
    lb      x6, 0(x10)
    finish
    .balign 64
place:
    .dword  0x80
