/* The functions that difftest_probe.svh imports, over the writers of difftest_probe.h and
 * difftest_permissions.h (in ../c). It is C99 and C++11, since some simulators compile it as the one and
 * some as the other. */
#include "difftest_permissions.h"
#include "difftest_probe.h"
#include "svdpi.h"

/* Ends the files of both kinds that are not closed. */
static void dtp_sv_end_files(void) {
    dtp_settle_all();
    dtp_end_permissions();
}

/* Verilator's make files say this to what they compile, which is C++. It ends $fatal, $stop and a failing
 * assertion by abort, which is no exit: there its own callback settles the files. */
#if defined(VM_COVERAGE) && defined(__cplusplus)
#include "verilated.h"

static void dtp_sv_settle(void *) {
    dtp_sv_end_files();
}

static void dtp_sv_settle_at_abort() {
    Verilated::addExitCb(dtp_sv_settle, nullptr);
}
#else
static void dtp_sv_settle_at_abort(void) {
}
#endif

#ifdef __cplusplus
extern "C" {
#endif

/* longint unsigned, as the simulators' headers spell it. */
typedef unsigned long long dtp_sv_number;

/* Numbers of 64 bits from words of 32, the low one first. */
static void dtp_sv_unpack_numbers(uint64_t *numbers, const svBitVecVal *words, size_t count) {
    for (size_t place = 0; place < count; place++)
        numbers[place] = words[2 * place] | (uint64_t)words[2 * place + 1] << 32;
}

/* The bytes of a line from words of 32 bits, the low one first. */
static void dtp_sv_unpack_line(uint8_t bytes[DTP_LINE_BYTES], const svBitVecVal *words) {
    for (size_t place = 0; place < DTP_LINE_BYTES; place++)
        bytes[place] = (uint8_t)(words[place / 4] >> 8 * (place % 4));
}

void *dtp_sv_open(const char *path, unsigned int harts, unsigned int flags) {
    dtp_sv_settle_at_abort();
    return dtp_open(path, harts, flags);
}

int dtp_sv_close(void *writer) {
    return dtp_close((dtp_writer *)writer);
}

void dtp_sv_settle_all(void) {
    dtp_sv_end_files();
}

const char *dtp_sv_problem(void *writer) {
    return dtp_problem((dtp_writer *)writer);
}

dtp_sv_number dtp_sv_count(void *writer) {
    return dtp_count((dtp_writer *)writer);
}

int dtp_sv_commit(void *writer, unsigned int hart, dtp_sv_number stamp, dtp_sv_number pc, unsigned int bits,
                  dtp_sv_number value) {
    return dtp_commit((dtp_writer *)writer, hart, stamp, pc, bits, value);
}

int dtp_sv_trap(void *writer, unsigned int hart, dtp_sv_number stamp, dtp_sv_number pc, unsigned int bits,
                dtp_sv_number cause, dtp_sv_number tval) {
    return dtp_trap((dtp_writer *)writer, hart, stamp, pc, bits, cause, tval);
}

int dtp_sv_regs(void *writer, unsigned int hart, dtp_sv_number stamp, dtp_sv_number pc,
                const svBitVecVal *x) {
    uint64_t numbers[31];
    dtp_sv_unpack_numbers(numbers, x, 31);
    return dtp_regs((dtp_writer *)writer, hart, stamp, pc, numbers);
}

int dtp_sv_csrs(void *writer, unsigned int hart, dtp_sv_number stamp, unsigned int mode,
                const svBitVecVal *values) {
    uint64_t numbers[17];
    dtp_sv_unpack_numbers(numbers, values, 17);
    return dtp_csrs((dtp_writer *)writer, hart, stamp, mode, numbers);
}

int dtp_sv_load(void *writer, unsigned int hart, dtp_sv_number stamp, dtp_sv_number pc, unsigned int bits,
                dtp_sv_number value, dtp_sv_number at, dtp_sv_number paddr) {
    return dtp_load((dtp_writer *)writer, hart, stamp, pc, bits, value, at, paddr);
}

int dtp_sv_store(void *writer, unsigned int hart, dtp_sv_number stamp, dtp_sv_number pc, unsigned int bits,
                 dtp_sv_number paddr, dtp_sv_number value) {
    return dtp_store((dtp_writer *)writer, hart, stamp, pc, bits, paddr, value);
}

int dtp_sv_store_through(void *writer, unsigned int hart, dtp_sv_number stamp, dtp_sv_number pc,
                         unsigned int bits, dtp_sv_number paddr, dtp_sv_number value) {
    return dtp_store_through((dtp_writer *)writer, hart, stamp, pc, bits, paddr, value);
}

int dtp_sv_atomic(void *writer, unsigned int hart, dtp_sv_number stamp, dtp_sv_number pc, unsigned int bits,
                  dtp_sv_number value, dtp_sv_number paddr, unsigned int width, unsigned int wrote,
                  dtp_sv_number new_value) {
    return dtp_atomic((dtp_writer *)writer, hart, stamp, pc, bits, value, paddr, width, wrote, new_value);
}

int dtp_sv_drain(void *writer, unsigned int hart, dtp_sv_number stamp, dtp_sv_number line, dtp_sv_number mask,
                 unsigned int count, const svBitVecVal *bytes) {
    uint8_t line_bytes[DTP_LINE_BYTES];
    dtp_sv_unpack_line(line_bytes, bytes);
    return dtp_drain((dtp_writer *)writer, hart, stamp, line, mask, count, line_bytes);
}

int dtp_sv_refill(void *writer, unsigned int hart, dtp_sv_number stamp, dtp_sv_number line,
                  const svBitVecVal *bytes) {
    uint8_t line_bytes[DTP_LINE_BYTES];
    dtp_sv_unpack_line(line_bytes, bytes);
    return dtp_refill((dtp_writer *)writer, hart, stamp, line, line_bytes);
}

int dtp_sv_beat(void *writer, unsigned int hart, dtp_sv_number stamp) {
    return dtp_beat((dtp_writer *)writer, hart, stamp);
}

int dtp_sv_retire(void *writer, unsigned int hart, dtp_sv_number stamp, dtp_sv_number pc, unsigned int bits,
                  dtp_sv_number value, dtp_sv_number at, dtp_sv_number paddr, unsigned int wrote,
                  dtp_sv_number stored) {
    const dtp_retired retired = {hart, stamp, pc, bits, value, at, paddr, wrote, stored};
    return dtp_retire((dtp_writer *)writer, &retired);
}

void *dtp_sv_open_permissions(const char *path, unsigned int harts) {
    dtp_sv_settle_at_abort();
    return dtp_open_permissions(path, harts);
}

int dtp_sv_close_permissions(void *permissions) {
    return dtp_close_permissions((dtp_permissions *)permissions);
}

const char *dtp_sv_permissions_problem(void *permissions) {
    return dtp_permissions_problem((dtp_permissions *)permissions);
}

dtp_sv_number dtp_sv_permissions_count(void *permissions) {
    return dtp_permissions_count((dtp_permissions *)permissions);
}

int dtp_sv_grant(void *permissions, unsigned int hart, dtp_sv_number stamp, dtp_sv_number line,
                 unsigned int right) {
    return dtp_grant((dtp_permissions *)permissions, hart, stamp, line, right);
}

int dtp_sv_revoke(void *permissions, unsigned int hart, dtp_sv_number stamp, dtp_sv_number line) {
    return dtp_revoke((dtp_permissions *)permissions, hart, stamp, line);
}

#ifdef __cplusplus
}
#endif
