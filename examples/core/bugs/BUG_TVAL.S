// A load from a page that is not mapped.
#include "bug.h"
    hart_0_alone
    la      x10, handler
    csrw    mtvec, x10
    translate_data
    li      x10, 0x40001238
shows:
    ld      x6, 0(x10)
    .balign 4
handler:
    finish
    tables
    .zero   8 * 512
