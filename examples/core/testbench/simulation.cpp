// Runs the clock of the testbench until the run is over. `+waves=FILE` writes the waves. The status is 0
// where the program said that it passed, 1 where it said that it failed, and 3 where it did not end.
#include <cstdio>
#include <memory>
#include <string>

#include "Vtestbench.h"
#include "verilated.h"
#include "verilated_vcd_c.h"

namespace {

constexpr int reset_cycles = 2;

// What stands behind `+name=` among the words of the command, or nothing.
std::string word_of(VerilatedContext &context, const char *name) {
    const std::string found = context.commandArgsPlusMatch(name);
    const size_t start = found.find('=');
    return start == std::string::npos ? "" : found.substr(start + 1);
}

int status_of(uint64_t end_value) {
    if (end_value == 1)
        return 0;
    if (end_value == 0) {
        std::fprintf(stderr, "the program did not end\n");
        return 3;
    }
    std::fprintf(stderr, "the program failed with code %llu\n",
                 static_cast<unsigned long long>(end_value >> 1));
    return 1;
}

} // namespace

int main(int argc, char **argv) {
    VerilatedContext context;
    context.commandArgs(argc, argv);
    context.traceEverOn(true);
    Vtestbench top{&context};
    VerilatedVcdC waves;
    const std::string path = word_of(context, "waves=");
    if (!path.empty()) {
        top.trace(&waves, 99);
        waves.open(path.c_str());
    }
    top.clk = 0;
    top.reset = 1;
    for (int half = 0; !context.gotFinish() && !(half > 2 * reset_cycles && top.is_over); half++) {
        top.reset = half < 2 * reset_cycles;
        top.clk = half % 2;
        top.eval();
        if (waves.isOpen())
            waves.dump(static_cast<uint64_t>(half));
        context.timeInc(1);
    }
    top.final();
    return status_of(top.end_value);
}
