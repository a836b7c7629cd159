// Hart 0 runs in supervisor mode under Sv39. One page has no mapping at first: the page fault goes to machine
// mode, which maps it. Then the page is mapped elsewhere, and behind an SFENCE.VMA a load has to come from
// there.
#include "platform.h"

#define PAGE_BYTES 4096
#define ENTRIES 512
#define SV39 (8UL << 60)
#define SUPERVISOR (1UL << 11)
#define MACHINE_PREVIOUS (3UL << 11)

#define VALID 0x01
#define READ 0x02
#define WRITE 0x04
#define EXECUTE 0x08
#define ACCESSED 0x40
#define DIRTY 0x80
#define LEAF (VALID | READ | WRITE | ACCESSED | DIRTY)

#define LOAD_PAGE_FAULT 13
// The second gigabyte of addresses, of which one page is mapped.
#define WINDOW 0x40000000UL

enum { NO_FAULT = 2, FIRST_PAGE = 3, SECOND_PAGE = 4, STORE_WENT_ASTRAY = 5, OTHER_TRAP = 6 };

typedef uint64_t table[ENTRIES] __attribute__((aligned(PAGE_BYTES)));
typedef volatile uint64_t page[PAGE_BYTES / 8] __attribute__((aligned(PAGE_BYTES)));

static volatile table root;
static volatile table middle;
static volatile table last;
static page first = {0x1111};
static page second = {0x2222};
static volatile uint64_t faults;

static uint64_t entry(const volatile void *target, uint64_t bits) {
    return (uint64_t)target >> 12 << 10 | bits;
}

static void fence_translations(void) {
    __asm__ volatile("sfence.vma x0, x0" ::: "memory");
}

uint64_t handle_trap(uint64_t cause, uint64_t pc, uint64_t value) {
    (void)value;
    if (cause != LOAD_PAGE_FAULT || faults != 0)
        finish(OTHER_TRAP);
    faults = 1;
    last[0] = entry(first, LEAF);
    fence_translations();
    return pc;
}

static void supervise(void) {
    volatile uint64_t *window = (volatile uint64_t *)WINDOW;
    if (window[0] != 0x1111)
        finish(FIRST_PAGE);
    if (faults != 1)
        finish(NO_FAULT);
    last[0] = entry(second, LEAF);
    fence_translations();
    if (window[0] != 0x2222)
        finish(SECOND_PAGE);
    window[1] = 0x3333;
    finish(second[1] == 0x3333 && first[1] == 0 ? 0 : STORE_WENT_ASTRAY);
}

int main(uint64_t hart) {
    if (hart != 0)
        return 0;
    root[0] = entry((void *)0, LEAF);
    root[1] = entry(middle, VALID);
    root[2] = entry((void *)0x80000000UL, LEAF | EXECUTE);
    middle[0] = entry(last, VALID);
    __asm__ volatile("csrw satp, %0\n\t"
                     "sfence.vma x0, x0\n\t"
                     "csrc mstatus, %1\n\t"
                     "csrs mstatus, %2\n\t"
                     "csrw mepc, %3\n\t"
                     "mret"
                     :
                     : "r"(SV39 | (uint64_t)root >> 12), "r"(MACHINE_PREVIOUS), "r"(SUPERVISOR),
                       "r"(supervise)
                     : "memory");
    __builtin_unreachable();
}
