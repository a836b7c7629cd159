// Where the programs find their machine, and how one of them ends. README.md says more.
#ifndef PLATFORM_H
#define PLATFORM_H

// A byte that is stored here is one character of the console.
#define CONSOLE 0x10000000
// The first store to this word ends the run: 1 says that the program passed, and (code << 1) | 1 that it
// failed with this code.
#define END 0x00100000
// QEMU's test device stands at the same address. It ends QEMU at one of these words, and at no other.
#define QEMU_PASS 0x5555
#define QEMU_FAIL 0x3333

// The code of a program whose hart took a trap that it has no use for.
#define UNEXPECTED_TRAP 1337

// Hart h has the stacks of h. A hart beyond these waits for ever.
#define MOST_HARTS 8
#define STACK_SHIFT 13
#define TRAP_STACK_SHIFT 10

#ifndef __ASSEMBLER__
#include <stdint.h>

// Each hart runs it, with its own number. What hart 0 answers is the code of the program, 0 where it passed.
int main(uint64_t hart);

// Ends the run with the code of the program.
_Noreturn void finish(uint64_t code);

// A program that wants traps has a function of this name. It answers the pc at which the hart goes on.
uint64_t handle_trap(uint64_t cause, uint64_t pc, uint64_t value);

static inline void print(const char *text) {
    while (*text != '\0')
        *(volatile uint8_t *)CONSOLE = (uint8_t)*text++;
}
#endif
#endif
