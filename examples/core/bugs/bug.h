// What the programs for planted faults share. They begin at 0x80000000 in M mode with all registers 0.
#define END 0x00100000
#define TIMER 0x02004000

// Only hart 0 goes on; the others wait.
.macro hart_0_alone
    csrr    x5, mhartid
    bnez    x5, park
.endm

// Ends the run, and has the place where harts wait.
.macro finish
    li      x5, END
    li      x6, 1
    sw      x6, 0(x5)
park:
    wfi
    j       park
.endm

// A root table at the start of the data: devices, a window of one table, and RAM, for S mode. It is used from
// M mode with MPRV, so that code is not translated and data is.
#define LEAF 0xcf
.macro tables
    .data
    .balign 4096
root:
    .dword  0x00000000 / 4 + 0xc7
    .dword  0x80002000 / 4 + 0x01
    .dword  0x80000000 / 4 + LEAF
    .zero   8 * 509
middle:
    .dword  0x80003000 / 4 + 0x01
    .zero   8 * 511
last:
.endm

// Data accesses are translated from here on.
.macro translate_data
    li      x5, (8 << 60) | (0x80001000 >> 12)
    csrw    satp, x5
    sfence.vma
    li      x5, (1 << 17) | (1 << 11)
    csrw    mstatus, x5
.endm
