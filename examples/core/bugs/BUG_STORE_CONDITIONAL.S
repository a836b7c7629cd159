// Hart 0 reserves a line and tells hart 1, which stores to the line and tells hart 0. Then the SC has to fail.
#include "bug.h"
    csrr    x5, mhartid
    la      x10, place
    la      x11, reserved
    la      x12, stored
    li      x6, 1
    bnez    x5, hart_1
    lr.d    x7, (x10)
    sd      x6, 0(x11)
1:  ld      x7, 0(x12)
    beqz    x7, 1b
shows:
    sc.d    x8, x6, (x10)
    finish
hart_1:
    ld      x7, 0(x11)
    beqz    x7, hart_1
    sd      x6, 8(x10)
    fence   rw, rw
    sd      x6, 0(x12)
    j       park
    .balign 64
place:
    .zero   64
reserved:
    .zero   64
stored:
    .zero   64
