// Hart 0 prints a line on the console, byte by byte to one address of a device.
#include "platform.h"

int main(uint64_t hart) {
    if (hart == 0)
        print("hello\n");
    return 0;
}
