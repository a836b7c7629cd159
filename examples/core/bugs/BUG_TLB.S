// A page is mapped, used, mapped elsewhere and fenced; then it is used again.
#include "bug.h"
    hart_0_alone
    translate_data
    li      x10, 0x40000000
    la      x11, last
    li      x12, 0x80005000 / 4 + LEAF
    ld      x6, 0(x10)
    sd      x12, 0(x11)
    sfence.vma
shows:
    ld      x7, 0(x10)
    finish
    tables
    .dword  0x80004000 / 4 + LEAF
    .zero   8 * 511
page_4:
    .dword  4
    .zero   8 * 511
page_5:
    .dword  5
    .zero   8 * 511
