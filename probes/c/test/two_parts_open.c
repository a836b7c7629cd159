/* Opens a writer that another part of the program, with its own copy of the header, writes to and closes. */
#include "../difftest_probe.h"

extern int finish(dtp_writer *writer);

int main(int argc, char **argv) {
    dtp_writer *writer = argc == 2 ? dtp_open(argv[1], 1, 0) : NULL;
    if (dtp_beat(writer, 0, 1) != DTP_OK)
        return 1;
    return finish(writer);
}
