# Boot code for a core that has PMP, where S and U mode may touch nothing before an entry allows it: it lets them
# reach all memory, and goes to 0x80000000. It stands in a boot ROM and not in the image, and what it retires is
# no part of the probe file, since difftest knows no PMP. start.S then writes all registers anew.
    .text
    .globl _boot
_boot:
    # One entry of the kind NAPOT, for reads, writes and instructions of all addresses.
    li      t0, -1
    csrw    pmpaddr0, t0
    li      t0, 0x1f
    csrw    pmpcfg0, t0
    li      t0, 0x80000000
    jr      t0
