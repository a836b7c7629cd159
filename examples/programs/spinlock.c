// Harts 0 and 1 count under one lock. The lock is taken with LR and SC and given back behind a fence; what
// the lock protects is an ordinary counter, so a hart that gets past the lock too early loses a count. How
// many harts are ready is counted by an AMO.
#include "platform.h"

#define HARTS 2
#define ROUNDS 20

// Lock and counters stand on lines of their own.
static volatile uint32_t lock __attribute__((aligned(64)));
static volatile uint64_t counter __attribute__((aligned(64)));
static volatile uint64_t ready __attribute__((aligned(64)));

static void acquire(void) {
    uint32_t old;
    uint32_t failed;
    do {
        __asm__ volatile("lr.w.aq %0, (%2)\n\t"
                         "li      %1, 1\n\t"
                         "bnez    %0, 1f\n\t"
                         "sc.w    %1, %1, (%2)\n"
                         "1:"
                         : "=&r"(old), "=&r"(failed)
                         : "r"(&lock)
                         : "memory");
    } while (old != 0 || failed != 0);
}

static void release(void) {
    __asm__ volatile("fence rw, w" ::: "memory");
    lock = 0;
}

static void say_ready(void) {
    __asm__ volatile("amoadd.d.rl x0, %0, (%1)" : : "r"(1L), "r"(&ready) : "memory");
}

static void wait_for_all(void) {
    while (ready != HARTS) {
    }
    __asm__ volatile("fence r, rw" ::: "memory");
}

int main(uint64_t hart) {
    if (hart >= HARTS)
        return 0;
    for (int round = 0; round < ROUNDS; round++) {
        acquire();
        counter = counter + 1;
        release();
    }
    say_ready();
    wait_for_all();
    return counter == HARTS * ROUNDS ? 0 : 1;
}
