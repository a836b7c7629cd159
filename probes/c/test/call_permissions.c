/*
 * Calls the writer of permission files as the lines of standard input say, and answers each with a line: for
 * the tests.
 *
 *     open HARTS PATH           PATH - keeps the file in memory; close then prints its bytes
 *     allow BYTES               the memory takes so many bytes more, and then none
 *     no-memory                 the next allocation fails
 *     grant HART STAMP LINE RIGHT | revoke HART STAMP LINE
 *     revokes COUNT             many events, of a cycle each, up to one that is not DTP_OK
 *     end | close | exit STATUS | abort
 *
 * The answer to an event or an end is "STATUS COUNT PROBLEM".
 */
#include <stdio.h>
#include <stdlib.h>

static int has_memory = 1;

static void *zeroed_memory(size_t count, size_t size) {
    if (has_memory)
        return calloc(count, size);
    has_memory = 1;
    return NULL;
}

#define calloc zeroed_memory
#include "../difftest_permissions.h"
#undef calloc

static dtp_permissions *writer;
static uint8_t memory[4096];
static size_t memory_used, memory_allowed = SIZE_MAX;

static int put_in_memory(void *context, const void *bytes, size_t length) {
    (void)context;
    if (length > memory_allowed)
        return -1;
    memory_allowed -= length;
    if (memory_used + length > sizeof memory)
        abort();
    memcpy(memory + memory_used, bytes, length);
    memory_used += length;
    return 0;
}

static void answer(dtp_status status) {
    printf("%d %llu %s\n", (int)status, (unsigned long long)dtp_permissions_count(writer),
           dtp_permissions_problem(writer));
}

static void open_writer(char *const *words) {
    unsigned harts = (unsigned)strtoul(words[1], NULL, 0);
    memory_used = 0;
    if (strcmp(words[2], "-") == 0)
        writer = dtp_open_permissions_put(put_in_memory, NULL, harts);
    else
        writer = dtp_open_permissions(words[2], harts);
    answer(writer == NULL ? DTP_CLOSED : DTP_OK);
}

static void close_writer(void) {
    answer(dtp_close_permissions(writer));
    for (size_t place = 0; place < memory_used; place++)
        printf("%02x", memory[place]);
    printf("\n");
}

static dtp_status many_revokes(uint64_t count) {
    dtp_status status = DTP_OK;
    for (uint64_t place = 0; place < count && status == DTP_OK; place++)
        status = dtp_revoke(writer, 0, place, DTP_RAM_START);
    return status;
}

static dtp_status event(char *const *words) {
    uint64_t n[4] = {0};
    for (size_t place = 0; place < 4 && words[place + 1] != NULL; place++)
        n[place] = strtoull(words[place + 1], NULL, 0);
    if (strcmp(words[0], "grant") == 0)
        return dtp_grant(writer, (unsigned)n[0], n[1], n[2], (unsigned)n[3]);
    if (strcmp(words[0], "revoke") == 0)
        return dtp_revoke(writer, (unsigned)n[0], n[1], n[2]);
    fprintf(stderr, "call_permissions: no command %s\n", words[0]);
    exit(2);
}

/* What is no event. Whether the word is known. */
static int command(char *const *words) {
    if (strcmp(words[0], "open") == 0)
        open_writer(words);
    else if (strcmp(words[0], "allow") == 0)
        memory_allowed = strtoull(words[1], NULL, 0);
    else if (strcmp(words[0], "no-memory") == 0)
        has_memory = 0;
    else if (strcmp(words[0], "revokes") == 0)
        answer(many_revokes(strtoull(words[1], NULL, 0)));
    else if (strcmp(words[0], "end") == 0)
        dtp_end_permissions();
    else if (strcmp(words[0], "close") == 0)
        close_writer();
    else if (strcmp(words[0], "exit") == 0)
        exit(atoi(words[1]));
    else if (strcmp(words[0], "abort") == 0)
        abort();
    else
        return 0;
    return 1;
}

int main(void) {
    static char text[4096];
    while (fgets(text, sizeof text, stdin) != NULL) {
        char *words[6] = {NULL};
        size_t count = 0;
        for (char *word = strtok(text, " \n"); word != NULL && count < 5; word = strtok(NULL, " \n"))
            words[count++] = word;
        if (count != 0 && !command(words))
            answer(event(words));
    }
    return 0;
}
