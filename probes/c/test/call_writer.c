/*
 * Calls the probe writer as the lines of standard input say, and answers each with a line: for the tests.
 *
 *     open HARTS FLAGS PATH     PATH - keeps the file in memory; close then prints its bytes
 *     allow BYTES               the memory takes so many bytes more, and then none
 *     no-temporary | no-memory N   no temporary file can be made; the Nth allocation from here on fails
 *     commit HART STAMP PC ..   and so on: a record, with its fields in file order
 *     beats HARTS COUNT | drains COUNT   many records, up to one that is not DTP_OK
 *     form BITS                 what the header makes of an instruction: kind, rd, bytes of a store
 *     sync | settle | close | exit STATUS | abort
 *
 * The answer to a record or an end is "STATUS COUNT PROBLEM".
 */
#include <stdio.h>
#include <stdlib.h>

static int has_temporary = 1;
static long allocations_left = -1;

static FILE *temporary_file(void) {
    return has_temporary ? tmpfile() : NULL;
}

static void *zeroed_memory(size_t count, size_t size) {
    if (allocations_left > 0 && --allocations_left == 0)
        return NULL;
    return calloc(count, size);
}

#define tmpfile temporary_file
#define calloc zeroed_memory
#include "../difftest_probe.h"
#undef tmpfile
#undef calloc

#define MOST_WORDS 40

static dtp_writer *writer;
static uint8_t *memory;
static size_t memory_used, memory_size, memory_allowed = SIZE_MAX;

static int put_in_memory(void *context, const void *bytes, size_t length) {
    (void)context;
    if (length > memory_allowed)
        return -1;
    memory_allowed -= length;
    if (memory_used + length > memory_size) {
        memory_size = 2 * (memory_used + length);
        memory = (uint8_t *)realloc(memory, memory_size);
        if (memory == NULL)
            abort();
    }
    memcpy(memory + memory_used, bytes, length);
    memory_used += length;
    return 0;
}

static void answer(dtp_status status) {
    printf("%d %llu %s\n", (int)status, (unsigned long long)dtp_count(writer), dtp_problem(writer));
}

static void parse_line(uint8_t bytes[DTP_LINE_BYTES], const char *digits) {
    for (size_t place = 0; place < DTP_LINE_BYTES; place++) {
        const char pair[3] = {digits[2 * place], digits[2 * place + 1], '\0'};
        bytes[place] = (uint8_t)strtoul(pair, NULL, 16);
    }
}

static void open_writer(char *const *words) {
    unsigned harts = (unsigned)strtoul(words[1], NULL, 0), flags = (unsigned)strtoul(words[2], NULL, 0);
    memory_used = 0;
    if (strcmp(words[3], "-") == 0)
        writer = dtp_open_put(put_in_memory, NULL, harts, flags);
    else
        writer = dtp_open(words[3], harts, flags);
    answer(writer == NULL ? DTP_CLOSED : DTP_OK);
}

static void close_writer(void) {
    answer(dtp_close(writer));
    for (size_t place = 0; place < memory_used; place++)
        printf("%02x", memory[place]);
    printf("\n");
}

/* n are the numbers of the words: the hart, the stamp, and the fields. */
static dtp_status retired_record(const char *kind, const uint64_t *n) {
    unsigned hart = (unsigned)n[0];
    uint32_t bits = (uint32_t)n[3];
    if (strcmp(kind, "commit") == 0)
        return dtp_commit(writer, hart, n[1], n[2], bits, n[4]);
    if (strcmp(kind, "load") == 0)
        return dtp_load(writer, hart, n[1], n[2], bits, n[4], n[5], n[6]);
    if (strcmp(kind, "store") == 0)
        return dtp_store(writer, hart, n[1], n[2], bits, n[4], n[5]);
    if (strcmp(kind, "store_through") == 0)
        return dtp_store_through(writer, hart, n[1], n[2], bits, n[4], n[5]);
    if (strcmp(kind, "atomic") == 0)
        return dtp_atomic(writer, hart, n[1], n[2], bits, n[4], n[5], (unsigned)n[6], (unsigned)n[7], n[8]);
    if (strcmp(kind, "retire") == 0) {
        const dtp_retired retired = {hart, n[1], n[2], bits, n[4], n[5], n[6], (unsigned)n[7], n[8]};
        return dtp_retire(writer, &retired);
    }
    fprintf(stderr, "call_writer: no command %s\n", kind);
    exit(2);
}

static dtp_status record(const char *kind, char *const *words, size_t count) {
    uint64_t n[MOST_WORDS] = {0};
    uint8_t bytes[DTP_LINE_BYTES];
    unsigned hart;
    for (size_t place = 1; place < count; place++)
        n[place - 1] = strtoull(words[place], NULL, 0);
    hart = (unsigned)n[0];
    if (strcmp(kind, "trap") == 0)
        return dtp_trap(writer, hart, n[1], n[2], (uint32_t)n[3], n[4], n[5]);
    if (strcmp(kind, "regs") == 0)
        return dtp_regs(writer, hart, n[1], n[2], n + 3);
    if (strcmp(kind, "csrs") == 0)
        return dtp_csrs(writer, hart, n[1], (unsigned)n[2], n + 3);
    if (strcmp(kind, "beat") == 0)
        return dtp_beat(writer, hart, n[1]);
    if (strcmp(kind, "drain") == 0) {
        parse_line(bytes, words[6]);
        return dtp_drain(writer, hart, n[1], n[2], n[3], (unsigned)n[4], bytes);
    }
    if (strcmp(kind, "refill") == 0) {
        parse_line(bytes, words[4]);
        return dtp_refill(writer, hart, n[1], n[2], bytes);
    }
    return retired_record(kind, n);
}

static dtp_status many_beats(unsigned harts, uint64_t count) {
    dtp_status status = DTP_OK;
    for (uint64_t place = 0; place < count && status == DTP_OK; place++)
        status = dtp_beat(writer, (unsigned)(place % harts), place / harts);
    return status;
}

static dtp_status many_drains(uint64_t count) {
    const uint8_t bytes[DTP_LINE_BYTES] = {1};
    dtp_status status = DTP_OK;
    for (uint64_t place = 0; place < count && status == DTP_OK; place++)
        status = dtp_drain(writer, 0, place, DTP_RAM_START, 1, 1, bytes);
    return status;
}

static void show_form(uint32_t bits) {
    printf("%d %d %u\n", (int)dtp_kind_of(bits), dtp_has_rd(bits), dtp_store_bytes(bits));
}

/* What is no record. Whether the word is known. */
static int command(char *const *words) {
    if (strcmp(words[0], "open") == 0)
        open_writer(words);
    else if (strcmp(words[0], "allow") == 0)
        memory_allowed = strtoull(words[1], NULL, 0);
    else if (strcmp(words[0], "no-temporary") == 0)
        has_temporary = 0;
    else if (strcmp(words[0], "no-memory") == 0)
        allocations_left = strtol(words[1], NULL, 0);
    else if (strcmp(words[0], "beats") == 0)
        answer(many_beats((unsigned)strtoul(words[1], NULL, 0), strtoull(words[2], NULL, 0)));
    else if (strcmp(words[0], "drains") == 0)
        answer(many_drains(strtoull(words[1], NULL, 0)));
    else if (strcmp(words[0], "form") == 0)
        show_form((uint32_t)strtoul(words[1], NULL, 0));
    else if (strcmp(words[0], "sync") == 0)
        fflush(stdout);
    else if (strcmp(words[0], "settle") == 0)
        dtp_settle_all();
    else if (strcmp(words[0], "close") == 0)
        close_writer();
    else
        return 0;
    return 1;
}

int main(void) {
    static char text[4096];
    while (fgets(text, sizeof text, stdin) != NULL) {
        char *words[MOST_WORDS] = {NULL};
        size_t count = 0;
        for (char *word = strtok(text, " \n"); word != NULL && count < MOST_WORDS; word = strtok(NULL, " \n"))
            words[count++] = word;
        if (count == 0)
            continue;
        if (strcmp(words[0], "exit") == 0)
            exit(atoi(words[1]));
        if (strcmp(words[0], "abort") == 0)
            abort();
        if (!command(words))
            answer(record(words[0], words, count));
    }
    free(memory);
    return 0;
}
