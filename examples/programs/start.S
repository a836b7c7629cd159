# Start-up for all harts, inside the profile that difftest judges: each register, and each register of
# control and status that a program may read, is written here before anything reads it. So it does not
# matter what a boot ROM left in them.
#include "platform.h"

    .section .text.start, "ax"
    .globl _start
_start:
    .irp number, 1, 2, 3, 4, 5, 6, 7, 8, 9, 10, 11, 12, 13, 14, 15, 16
    li      x\number, 0
    .endr
    .irp number, 17, 18, 19, 20, 21, 22, 23, 24, 25, 26, 27, 28, 29, 30, 31
    li      x\number, 0
    .endr
    .irp register, mstatus, mie, satp, medeleg, mideleg, mcounteren, mepc, mcause, mtval
    csrw    \register, x0
    .endr
    .irp register, stvec, scounteren, sscratch, sepc, scause, stval
    csrw    \register, x0
    .endr
    la      t0, trap_entry
    csrw    mtvec, t0

    csrr    a0, mhartid
    li      t0, MOST_HARTS
    bgeu    a0, t0, wait_for_ever
    addi    t0, a0, 1
    la      sp, stacks
    slli    t1, t0, STACK_SHIFT
    add     sp, sp, t1
    la      t2, trap_stacks
    slli    t1, t0, TRAP_STACK_SHIFT
    add     t2, t2, t1
    csrw    mscratch, t2
    li      t0, 0
    li      t1, 0
    li      t2, 0

    call    main
    csrr    t0, mhartid
    beqz    t0, finish
wait_for_ever:
    wfi
    j       wait_for_ever

# void finish(uint64_t code)
    .globl finish
finish:
    li      t0, END
    slli    t1, a0, 1
    ori     t1, t1, 1
    sw      t1, 0(t0)
    # The run is over. What follows is for QEMU alone.
    li      t1, QEMU_PASS
    beqz    a0, 1f
    slli    t1, a0, 16
    li      t2, QEMU_FAIL
    or      t1, t1, t2
1:  sw      t1, 0(t0)
    .globl finished
finished:
    j       finished

# Every trap goes to M mode and comes here: the registers that a call may change are kept on the hart's
# own stack for traps, whose top is in mscratch.
    .balign 4
trap_entry:
    csrrw   sp, mscratch, sp
    addi    sp, sp, -128
    sd      ra, 0(sp)
    sd      t0, 8(sp)
    sd      t1, 16(sp)
    sd      t2, 24(sp)
    sd      t3, 32(sp)
    sd      t4, 40(sp)
    sd      t5, 48(sp)
    sd      t6, 56(sp)
    sd      a0, 64(sp)
    sd      a1, 72(sp)
    sd      a2, 80(sp)
    sd      a3, 88(sp)
    sd      a4, 96(sp)
    sd      a5, 104(sp)
    sd      a6, 112(sp)
    sd      a7, 120(sp)
    csrr    a0, mcause
    csrr    a1, mepc
    csrr    a2, mtval
    call    handle_trap
    csrw    mepc, a0
    ld      ra, 0(sp)
    ld      t0, 8(sp)
    ld      t1, 16(sp)
    ld      t2, 24(sp)
    ld      t3, 32(sp)
    ld      t4, 40(sp)
    ld      t5, 48(sp)
    ld      t6, 56(sp)
    ld      a0, 64(sp)
    ld      a1, 72(sp)
    ld      a2, 80(sp)
    ld      a3, 88(sp)
    ld      a4, 96(sp)
    ld      a5, 104(sp)
    ld      a6, 112(sp)
    ld      a7, 120(sp)
    addi    sp, sp, 128
    csrrw   sp, mscratch, sp
    mret

# Where a program has no handle_trap of its own, a trap is a failure.
    .weak handle_trap
handle_trap:
    li      a0, UNEXPECTED_TRAP
    j       finish

    .section .stacks, "aw"
    .balign 16
stacks:
    .zero   MOST_HARTS << STACK_SHIFT
trap_stacks:
    .zero   MOST_HARTS << TRAP_STACK_SHIFT
