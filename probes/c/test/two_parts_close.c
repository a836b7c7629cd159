/* The other part: see two_parts_open.c. */
#include "../difftest_probe.h"

extern int finish(dtp_writer *writer);

int finish(dtp_writer *writer) {
    if (dtp_beat(writer, 0, 2) != DTP_OK || dtp_close(writer) != DTP_OK)
        return 1;
    return dtp_beat(writer, 0, 3) == DTP_CLOSED ? 0 : 1;
}
