# A run of a million records: both harts load from lines that they share, compute, and now and then store and
# add. It ends where both are done.
    .equ ROUNDS, 32000
    .equ END, 0x100000
    .equ HARTS, 2

    .text
    csrr    x5, mhartid
    la      x10, shared
    slli    x6, x5, 11
    add     x11, x10, x6
    li      x20, ROUNDS
round:
    ld      x7, 0(x10)
    add     x21, x21, x7
    mul     x22, x21, x20
    xor     x21, x21, x22
    srli    x23, x21, 7
    add     x21, x21, x23
    andi    x24, x21, 56
    add     x25, x10, x24
    lw      x26, 64(x25)
    addw    x21, x21, x26
    divu    x27, x22, x20
    xor     x21, x21, x27
    addi    x20, x20, -1
    andi    x28, x20, 127
    bnez    x28, 1f
    sd      x21, 128(x11)
    amoadd.d x29, x20, (x10)
1:  bnez    x20, round
    li      x6, 1
    la      x7, done
    amoadd.d.aqrl x0, x6, (x7)
    bnez    x5, park
    li      x8, HARTS
1:  wfi
    ld      x9, 0(x7)
    bne     x9, x8, 1b
    li      x5, END
    sw      x6, 0(x5)
park:
    wfi
    j       park

    .data
    .balign 64
done:
    .zero   64
shared:
    .zero   4096
