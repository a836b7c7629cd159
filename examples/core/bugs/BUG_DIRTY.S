// A store to a page whose entry has D clear: it has to raise a page fault.
#include "bug.h"
    hart_0_alone
    la      x10, handler
    csrw    mtvec, x10
    translate_data
    li      x10, 0x40000000
shows:
    sd      x6, 8(x10)
    .balign 4
handler:
    finish
    tables
    .dword  0x80004000 / 4 + LEAF - 0x80
    .zero   8 * 511
    .zero   4096
