/*
 * How many records a second of processor time the writer writes into a file under /dev/shm: Commits of two
 * harts in turn, as many as a file may have, with values of all lengths. The best of five runs counts, since
 * other work on the machine only slows. It ends with 1 where version 1 is slower than 20 million a second.
 */
#include "../difftest_probe.h"
#include <time.h>

#define PATH "/dev/shm/difftest_probe_speed.probes"
#define RUNS 5
#define WANTED 20e6

static double seconds_of_run(unsigned flags) {
    clock_t start = clock();
    dtp_writer *writer = dtp_open(PATH, 2, flags);
    uint64_t value = UINT64_C(0x9E3779B97F4A7C15);
    for (uint64_t record = 0; record < DTP_MOST_RECORDS; record++) {
        value ^= value << 13;
        value ^= value >> 7;
        value ^= value << 17;
        if (dtp_commit(writer, record & 1, record >> 1, DTP_RAM_START + 4 * (record & 1023), 0x00500093,
                       value >> (record & 63)) != DTP_OK)
            break;
    }
    if (dtp_close(writer) != DTP_OK) {
        fprintf(stderr, "speed: %s\n", dtp_problem(writer));
        exit(2);
    }
    return (double)(clock() - start) / CLOCKS_PER_SEC;
}

static double records_a_second(unsigned flags) {
    double least = seconds_of_run(flags);
    for (int run = 1; run < RUNS; run++) {
        double seconds = seconds_of_run(flags);
        least = seconds < least ? seconds : least;
    }
    remove(PATH);
    return DTP_MOST_RECORDS / least;
}

int main(void) {
    double plain = records_a_second(0), brief = records_a_second(DTP_VERSION_2);
    printf("version 1: %.1f million Commits a second\n", plain / 1e6);
    printf("version 2: %.1f million Commits a second\n", brief / 1e6);
    return plain >= WANTED ? 0 : 1;
}
