// An instruction is run, written over, fenced and run again. `addi x6, x6, 2` differs from `addi x6, x6, 1` in
// its second halfword alone.
#include "bug.h"
    .option norvc
    hart_0_alone
    la      x10, shows
    li      x11, 0x00230313
    li      x12, 2
shows:
    addi    x6, x6, 1
    sw      x11, 0(x10)
    fence.i
    addi    x12, x12, -1
    bnez    x12, shows
    finish
