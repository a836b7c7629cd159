# What every random program stands on: start-up, the phases of each hart, handlers of traps, page tables.
#
# A hart runs its phases one after the other. Each phase has a mode, a translation and an entry, and ends with
# an ECALL while x27 holds MAGIC. All other exceptions skip their instruction, and a fetch that failed goes on
# at the address in x1. Interrupts are acknowledged.
#
# Code and data stand at their physical addresses in every mode. Where addresses are translated, the handler of
# S mode stands at addresses that are SHIFT higher, in a page that U mode cannot use.

    .equ MAGIC, 0x6d
    .equ HARTS, 2
    .equ SHIFT, 0x80000000
    .equ DEVICE_SHIFT, 0x140000000
    .equ END, 0x100000
    .equ SOFTWARE, 0x2000000
    .equ TIMER, 0x2004000
    .equ TIME, 0x200bff8
    .equ SUPERVISOR_SOFTWARE, 0x2f00000
    .equ SUPERVISOR_TIMER, 0x2f04000

# A phase: entry, mstatus, satp, medeleg, mideleg, mie, mcounteren, scounteren, and the times from its start
# until the two timers are due.
    .equ PHASE_BYTES, 80

# What a handler keeps of its hart: x5, x6, x7, the next phase, and of S mode what to add to an address of code
# and of a device.
    .equ KEPT_PHASE, 24
    .equ KEPT_CODE_SHIFT, 32
    .equ KEPT_DEVICE_SHIFT, 40
    .equ KEPT_BYTES, 64

    .section .text.start, "ax"
    .globl _start
_start:
    csrr    x5, mhartid
    li      x6, HARTS
    bgeu    x5, x6, park
    la      x7, machine_kept
    slli    x6, x5, 6
    add     x7, x7, x6
    csrw    mscratch, x7
    la      x6, phase_lists
    slli    x5, x5, 3
    add     x6, x6, x5
    ld      x6, 0(x6)
    sd      x6, KEPT_PHASE(x7)
    la      x5, machine_vectors + 1
    csrw    mtvec, x5

# The next phase of this hart; x7 is what the handler of M mode keeps.
next_phase:
    ld      x8, KEPT_PHASE(x7)
    addi    x5, x8, PHASE_BYTES
    sd      x5, KEPT_PHASE(x7)
    ld      x5, 0(x8)
    beqz    x5, all_done
    csrw    mepc, x5
    csrw    mie, x0
    csrw    mstatus, x0
    ld      x5, 16(x8)
    csrw    satp, x5
    # The handler of S mode.
    li      x9, 0
    li      x10, 0
    beqz    x5, 1f
    li      x9, SHIFT
    li      x10, DEVICE_SHIFT
1:  csrr    x12, mhartid
    la      x6, supervisor_kept
    slli    x11, x12, 6
    add     x6, x6, x11
    sd      x9, KEPT_CODE_SHIFT(x6)
    sd      x10, KEPT_DEVICE_SHIFT(x6)
    add     x6, x6, x9
    csrw    sscratch, x6
    la      x6, supervisor_trap
    add     x6, x6, x9
    csrw    stvec, x6
    ld      x5, 24(x8)
    csrw    medeleg, x5
    ld      x5, 32(x8)
    csrw    mideleg, x5
    ld      x5, 48(x8)
    csrw    mcounteren, x5
    ld      x5, 56(x8)
    csrw    scounteren, x5
    # The timers.
    li      x5, TIME
    ld      x5, 0(x5)
    slli    x11, x12, 3
    li      x6, TIMER
    add     x6, x6, x11
    ld      x9, 64(x8)
    add     x9, x9, x5
    sd      x9, 0(x6)
    li      x6, SUPERVISOR_TIMER
    add     x6, x6, x11
    ld      x9, 72(x8)
    add     x9, x9, x5
    sd      x9, 0(x6)
    fence
    sfence.vma
    ld      x5, 40(x8)
    csrw    mie, x5
    ld      x5, 8(x8)
    csrw    mstatus, x5
    mret

# Hart 0 waits for the other one, and ends the run.
all_done:
    csrw    mie, x0
    csrw    mstatus, x0
    la      x5, harts_done
    li      x6, 1
    amoadd.d.aqrl x0, x6, (x5)
    csrr    x6, mhartid
    bnez    x6, park
    li      x6, HARTS
1:  wfi
    ld      x7, 0(x5)
    bne     x7, x6, 1b
    fence
    li      x5, END
    li      x6, 1
    sw      x6, 0(x5)
park:
    wfi
    j       park

    .balign 64
machine_vectors:
    .option push
    .option norvc
    .rept 12
    j       machine_trap
    .endr
    .option pop

machine_trap:
    csrrw   x31, mscratch, x31
    sd      x5, 0(x31)
    sd      x6, 8(x31)
    sd      x7, 16(x31)
    csrr    x5, mcause
    bltz    x5, machine_interrupt
    addi    x6, x5, -8
    sltiu   x6, x6, 4
    beqz    x6, 1f
    li      x6, MAGIC
    beq     x27, x6, end_phase
1:  csrr    x7, mepc
    srli    x6, x7, 31
    beqz    x6, 2f
    li      x6, 12
    beq     x5, x6, 2f
    li      x6, 1
    beq     x5, x6, 2f
    lhu     x5, 0(x7)
    andi    x5, x5, 3
    addi    x5, x5, -3
    addi    x7, x7, 2
    bnez    x5, 3f
    addi    x7, x7, 2
    j       3f
2:  mv      x7, x1
3:  csrw    mepc, x7
machine_return:
    ld      x5, 0(x31)
    ld      x6, 8(x31)
    ld      x7, 16(x31)
    csrrw   x31, mscratch, x31
    mret
end_phase:
    csrw    mscratch, x31
    mv      x7, x31
    j       next_phase

machine_interrupt:
    csrr    x6, mhartid
    slli    x7, x6, 2
    slli    x5, x5, 1
    li      x6, 2 * 7
    beq     x5, x6, 1f
    li      x6, 2 * 5
    beq     x5, x6, 2f
    li      x6, 2 * 3
    li      x31, SOFTWARE
    beq     x5, x6, 3f
    li      x31, SUPERVISOR_SOFTWARE
    j       3f
1:  li      x31, TIMER
    j       4f
2:  li      x31, SUPERVISOR_TIMER
4:  add     x31, x31, x7
    add     x31, x31, x7
    li      x5, -1
    sd      x5, 0(x31)
    j       5f
3:  add     x31, x31, x7
    sw      x0, 0(x31)
5:  csrr    x6, mhartid
    slli    x6, x6, 6
    la      x31, machine_kept
    add     x31, x31, x6
    j       machine_return

    .balign 4
supervisor_trap:
    csrrw   x31, sscratch, x31
    sd      x5, 0(x31)
    sd      x6, 8(x31)
    sd      x7, 16(x31)
    csrr    x5, scause
    bltz    x5, supervisor_interrupt
    addi    x6, x5, -8
    sltiu   x6, x6, 4
    beqz    x6, 1f
    li      x6, MAGIC
    bne     x27, x6, 1f
    ecall
1:  csrr    x7, sepc
    srli    x6, x7, 31
    beqz    x6, 2f
    li      x6, 12
    beq     x5, x6, 2f
    li      x6, 1
    beq     x5, x6, 2f
    ld      x6, KEPT_CODE_SHIFT(x31)
    add     x6, x6, x7
    lhu     x5, 0(x6)
    andi    x5, x5, 3
    addi    x5, x5, -3
    addi    x7, x7, 2
    bnez    x5, 3f
    addi    x7, x7, 2
    j       3f
2:  mv      x7, x1
3:  csrw    sepc, x7
supervisor_return:
    ld      x5, 0(x31)
    ld      x6, 8(x31)
    ld      x7, 16(x31)
    csrrw   x31, sscratch, x31
    sret

# It acknowledges both interrupts of S mode for all harts.
supervisor_interrupt:
    ld      x7, KEPT_DEVICE_SHIFT(x31)
    li      x6, SUPERVISOR_SOFTWARE
    add     x6, x6, x7
    .irp hart, 0, 1
    sw      x0, 4*\hart(x6)
    .endr
    li      x6, SUPERVISOR_TIMER
    add     x6, x6, x7
    li      x5, -1
    .irp hart, 0, 1
    sd      x5, 8*\hart(x6)
    .endr
    j       supervisor_return

    .section .data
    .balign 64
machine_kept:
    .zero   KEPT_BYTES * HARTS
    .balign 64
supervisor_kept:
    .zero   KEPT_BYTES * HARTS
    .balign 64
harts_done:
    .dword  0

# Tables and pages stand at fixed addresses, since their entries are made of these; the linker script puts the
# section there.
    .equ TABLES, 0x80010000
    .equ SUPERVISOR_ROOT, TABLES
    .equ USER_ROOT, TABLES + 0x1000
    .equ SUPERVISOR_FINE_ROOT, TABLES + 0x2000
    .equ USER_FINE_ROOT, TABLES + 0x3000
    .equ SUPERVISOR_MIDDLE, TABLES + 0x4000
    .equ USER_MIDDLE, TABLES + 0x5000
    .equ WINDOW_MIDDLE, TABLES + 0x6000
    .equ WINDOW_LAST, TABLES + 0x7000
    .equ PAGE_A, TABLES + 0x8000
    .equ PAGE_B, TABLES + 0x9000
    .equ SHARED, TABLES + 0xa000

# Entries: a leaf with all permissions, the bit of U, and a pointer to a table.
    .equ ALL, 0xcf
    .equ USER, 0x10
    .equ TABLE, 0x01
    .macro entry target, flags
    .dword  \target / 4 + \flags
    .endm

# The first GiB are devices, then the window, and RAM; behind them the same devices and RAM for the handler of
# S mode.
    .macro root ram, ram_flags, flags
    .dword  0xc7 + \flags
    entry   WINDOW_MIDDLE, TABLE
    entry   \ram, \ram_flags
    .dword  0
    entry   0x80000000, ALL
    .dword  0xc7
    .zero   8 * 506
    .endm
# RAM in superpages of 2 MiB.
    .macro middle flags
    .set number, 0
    .rept 32
    .dword  0x20000000 + number * 0x80000 + ALL + \flags
    .set number, number + 1
    .endr
    .zero   8 * 480
    .endm
# A page to run in: it goes back at its start, behind the second half of the instruction that begins at the end
# of such a page.
    .macro page
    .half   0x0012
    .option push
    .option rvc
    jr      x1
    .option pop
    .zero   4090
    .half   0x8293
    .endm

    .section .tables, "aw"
    root    0x80000000, ALL, 0
    root    0x80000000, ALL + USER, USER
    root    SUPERVISOR_MIDDLE, TABLE, 0
    root    USER_MIDDLE, TABLE, USER
    middle  0
    middle  USER
# The window from 0x40000000 on: pages of 4 KiB by the program's own table, a superpage that is read and not
# written, one that is not aligned, a table outside RAM, and an entry that writes and does not read.
    entry   WINDOW_LAST, TABLE
    .dword  0x20000000 + 0xc3 + USER
    .dword  0x20000000 + 0x400 + ALL
    .dword  0x10000000 + TABLE
    .dword  0x20000000 + 0xc5
    .zero   8 * 507
    .section .window, "aw"
    .section .pages, "aw"
    page
    page
    page
