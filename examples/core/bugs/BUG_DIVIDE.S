// A division by zero.
#include "bug.h"
    hart_0_alone
    li      x6, 7
shows:
    div     x7, x6, x0
    finish
