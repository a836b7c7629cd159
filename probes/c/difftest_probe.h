/*
 * difftest_probe.h: writes the probe file of a run, from any testbench in C99 or C++11.
 *
 *     dtp_writer *probes = dtp_open("run.probes", 2, 0);
 *     dtp_commit(probes, hart, cycle, pc, bits, value);
 *     ...
 *     if (dtp_close(probes) != DTP_OK)
 *         fprintf(stderr, "%s\n", dtp_problem(probes));
 *
 * docs/PROBE-FORMAT.md says what each record means and when to write it. A record that the reader would
 * refuse is refused at the call. One writer is for one thread at a time.
 *
 * A file that is cut short may not simply get an End: a load in it may have read what a drain wrote that
 * is not in it. Records are settled where their stamp is below the last stamp of every hart (0 for a hart
 * without a record). Where the run ends without dtp_close, or no record fits any more, all others are
 * dropped before the End is written: the file ends settled. For this the writer keeps records back until
 * they are settled: two buffers of DTP_BUFFER_RECORDS records in memory, and what is more than that, where
 * a hart is so far behind, in a temporary file. Write a Beat now and then for a hart that sleeps.
 */
#ifndef DIFFTEST_PROBE_H
#define DIFFTEST_PROBE_H

#include <stdint.h>
#include <stdio.h>
#include <stdlib.h>
#include <string.h>

/* Flags of dtp_open: the harts may use Sv48 beside Sv39; the file is of version 2, in fewer bytes. */
#define DTP_SV48 1u
#define DTP_VERSION_2 2u

/* The writer has two buffers, each for so many records in so many bytes (no less than 344). */
#ifndef DTP_BUFFER_RECORDS
#define DTP_BUFFER_RECORDS 16384u
#endif
#ifndef DTP_BUFFER_BYTES
#define DTP_BUFFER_BYTES 524288u
#endif

/* The reader's limits, and the RAM that lines and atomics lie in. */
#define DTP_MOST_HARTS 8u
#define DTP_MOST_RECORDS 4194304u
#define DTP_MOST_WRITES 1048576u
#define DTP_RAM_START UINT64_C(0x80000000)
#define DTP_RAM_END UINT64_C(0x84000000)
#define DTP_LINE_BYTES 64u

/* What a call answers. */
typedef enum dtp_status {
    DTP_OK,         /* the record is taken */
    DTP_UNLAWFUL,   /* a field is out of its bound: the record is left out, and the writer goes on */
    DTP_STAMP_FELL, /* the stamp is below that of the hart's last record: the same */
    DTP_FULL,       /* the file is at the limit of records or of writes, and has ended settled */
    DTP_IO,         /* the file cannot be written, or the temporary one: it has no End */
    DTP_CLOSED      /* the file was ended by dtp_close or the program's exit, or there is no writer */
} dtp_status;

/* The kinds of records, by the tags of the file. */
typedef enum dtp_kind {
    DTP_COMMIT = 1,
    DTP_TRAP,
    DTP_REGS,
    DTP_CSRS,
    DTP_LOAD,
    DTP_STORE,
    DTP_ATOMIC,
    DTP_DRAIN,
    DTP_REFILL,
    DTP_BEAT
} dtp_kind;

/* Takes the next bytes of the file; another answer than 0 says that it cannot. */
typedef int (*dtp_put)(void *context, const void *bytes, size_t length);

/* One retired instruction, for dtp_retire. What its kind does not have is not looked at. */
typedef struct dtp_retired {
    unsigned hart;
    uint64_t stamp;
    uint64_t pc;
    uint32_t bits;   /* as fetched: of a 16-bit instruction not the expanded form */
    uint64_t value;  /* what rd is given; of a Commit without rd, or whose rd is x0, not looked at */
    uint64_t at;     /* of a load: the cycle of its read */
    uint64_t paddr;  /* of a load, store or atomic */
    unsigned wrote;  /* of an atomic: 1 where it wrote */
    uint64_t stored; /* what a store or atomic wrote, in its low bytes; what stands above is not looked at */
} dtp_retired;

/* Records that are kept back, in the order of the calls. */
typedef struct dtp_buffer {
    size_t records, used;
    uint64_t greatest_stamp;
    struct {
        uint64_t stamp;
        size_t end;
    } marks[DTP_BUFFER_RECORDS]; /* of each record its stamp, and where its bytes end */
    uint8_t bytes[DTP_BUFFER_BYTES];
} dtp_buffer;

/* A writer. Its fields are its own. It stays until the program's exit, for calls behind dtp_close. */
typedef struct dtp_writer {
    dtp_put put;
    void *context;
    FILE *file; /* that dtp_open opened */
    unsigned harts, flags;
    dtp_status state;   /* DTP_OK while records are taken */
    dtp_status refused; /* what the first record that was left out was answered, or DTP_OK */
    uint64_t last_stamps[DTP_MOST_HARTS];
    uint64_t records, writes; /* that were taken */
    uint64_t records_put;     /* that are in the file; then come those in the spill, in older, in newer */
    FILE *spill;              /* a temporary file of whole buffers */
    size_t first_block, block_end;
    dtp_buffer *older, *newer;
    char problem[200];
    struct dtp_writer *next;
} dtp_writer;

/* A record on its way into the file: its numbers in file order, and the bytes of a line. */
typedef struct dtp_record {
    dtp_kind kind;
    unsigned hart;
    uint64_t stamp;
    const uint64_t *numbers;
    const uint8_t *line_bytes;
} dtp_record;

/* The name of a kind, and the sizes of its numbers in file order, a digit each. */
typedef struct dtp_layout {
    const char *name, *sizes;
} dtp_layout;

static inline const dtp_layout *dtp_layout_of(dtp_kind kind) {
    static const dtp_layout layouts[] = {
        {"Commit", "848"},
        {"Trap", "8488"},
        {"Regs", "88888888888888888888888888888888"},
        {"Csrs", "188888888888888888"},
        {"Load", "84888"},
        {"Store", "8488"},
        {"Atomic", "8488118"},
        {"Drain", "882"},
        {"Refill", "8"},
        {"Beat", ""},
    };
    return &layouts[kind - DTP_COMMIT];
}

/* Leaves a record out, and says which, and which field has to be what. */
static inline dtp_status dtp_refuse(dtp_writer *writer, const dtp_record *record, dtp_status status,
                                    const char *field, uint64_t value, const char *bound) {
    snprintf(writer->problem, sizeof writer->problem,
             "record %llu, hart %u, stamp %llu, %s: %s=%llu (0x%llx), must be %s",
             (unsigned long long)writer->records, record->hart, (unsigned long long)record->stamp,
             dtp_layout_of(record->kind)->name, field, (unsigned long long)value, (unsigned long long)value,
             bound);
    if (writer->refused == DTP_OK)
        writer->refused = status;
    return status;
}

static inline dtp_status dtp_wrong(dtp_writer *writer, const dtp_record *record, const char *field,
                                   uint64_t value, const char *bound) {
    return dtp_refuse(writer, record, DTP_UNLAWFUL, field, value, bound);
}

/* Takes no record from here on. */
static inline dtp_status dtp_stop(dtp_writer *writer, dtp_status state, const char *problem) {
    writer->state = state;
    snprintf(writer->problem, sizeof writer->problem, "%s", problem);
    return state;
}

/* ---- Which records are lawful ---- */

static inline dtp_status dtp_check_bits(dtp_writer *writer, const dtp_record *record) {
    uint64_t bits = record->numbers[1];
    if (record->kind == DTP_TRAP) {
        uint64_t cause = record->numbers[2];
        if (cause >> 63)
            return bits == 0 ? DTP_OK : dtp_wrong(writer, record, "bits", bits, "0 in an interrupt");
        if (cause == 1 || cause == 12)
            return DTP_OK;
    }
    if ((bits & 3) != 3 && bits >= 0x10000)
        return dtp_wrong(writer, record, "bits", bits, "below 0x10000 where the low two are not 11");
    return DTP_OK;
}

static inline dtp_status dtp_check_atomic(dtp_writer *writer, const dtp_record *record) {
    uint64_t paddr = record->numbers[3], width = record->numbers[4];
    uint64_t wrote = record->numbers[5], value = record->numbers[6];
    if (width != 4 && width != 8)
        return dtp_wrong(writer, record, "width", width, "4 or 8");
    if (paddr % width != 0 || paddr < DTP_RAM_START || paddr >= DTP_RAM_END)
        return dtp_wrong(writer, record, "paddr", paddr, "a multiple of the width in RAM");
    if (wrote > 1)
        return dtp_wrong(writer, record, "wrote", wrote, "0 or 1");
    if (wrote == 0 && value != 0)
        return dtp_wrong(writer, record, "new", value, "0 where wrote is 0");
    if (width == 4 && value >> 32 != 0)
        return dtp_wrong(writer, record, "new", value, "below 0x100000000 where width is 4");
    return DTP_OK;
}

static inline dtp_status dtp_check_drain(dtp_writer *writer, const dtp_record *record) {
    uint64_t mask = record->numbers[1], count = record->numbers[2];
    if (mask == 0)
        return dtp_wrong(writer, record, "mask", mask, "another number than 0");
    if (count == 0 || count > 0xffff)
        return dtp_wrong(writer, record, "count", count, "1 to 65535");
    for (unsigned place = 0; place < DTP_LINE_BYTES; place++) {
        if ((mask >> place & 1) == 0 && record->line_bytes[place] != 0) {
            char field[16];
            snprintf(field, sizeof field, "bytes[%u]", place);
            return dtp_wrong(writer, record, field, record->line_bytes[place], "0 where the mask has no bit");
        }
    }
    return DTP_OK;
}

static inline dtp_status dtp_check_line(dtp_writer *writer, const dtp_record *record) {
    uint64_t line = record->numbers[0];
    if (line % DTP_LINE_BYTES != 0 || line < DTP_RAM_START || line >= DTP_RAM_END)
        return dtp_wrong(writer, record, "line", line, "a multiple of 64 in RAM");
    return record->kind == DTP_DRAIN ? dtp_check_drain(writer, record) : DTP_OK;
}

static inline dtp_status dtp_check_fields(dtp_writer *writer, const dtp_record *record) {
    if (record->kind == DTP_CSRS && (record->numbers[0] == 2 || record->numbers[0] > 3))
        return dtp_wrong(writer, record, "mode", record->numbers[0], "0, 1 or 3");
    if (record->kind == DTP_LOAD && record->numbers[3] > record->stamp)
        return dtp_wrong(writer, record, "at", record->numbers[3], "at most the stamp");
    if (record->kind == DTP_ATOMIC && dtp_check_atomic(writer, record) != DTP_OK)
        return DTP_UNLAWFUL;
    if (record->line_bytes != NULL)
        return dtp_check_line(writer, record);
    if (record->kind == DTP_REGS || record->kind == DTP_CSRS || record->kind == DTP_BEAT)
        return DTP_OK;
    return dtp_check_bits(writer, record);
}

static inline dtp_status dtp_check(dtp_writer *writer, const dtp_record *record) {
    if (record->hart >= writer->harts)
        return dtp_wrong(writer, record, "hart", record->hart, "below the harts of the file");
    if (dtp_check_fields(writer, record) != DTP_OK)
        return DTP_UNLAWFUL;
    if (record->stamp < writer->last_stamps[record->hart])
        return dtp_refuse(writer, record, DTP_STAMP_FELL, "stamp", record->stamp,
                          "at least that of the hart's last record");
    return DTP_OK;
}

/* ---- The bytes of a record ---- */

/* The most bytes that a record has (Regs of version 2), and what dtp_put_number writes behind its number. */
#define DTP_RECORD_BYTES 344u

/* Writes the low bytes of a number, and other bytes behind them, eight in all. */
static inline uint8_t *dtp_put_number(uint8_t *to, uint64_t number, size_t size) {
    to[0] = (uint8_t)number;
    to[1] = (uint8_t)(number >> 8);
    to[2] = (uint8_t)(number >> 16);
    to[3] = (uint8_t)(number >> 24);
    to[4] = (uint8_t)(number >> 32);
    to[5] = (uint8_t)(number >> 40);
    to[6] = (uint8_t)(number >> 48);
    to[7] = (uint8_t)(number >> 56);
    return to + size;
}

/* Writes a number of version 2: seven bits a byte, the lowest first, bit 7 where another byte follows. */
static inline uint8_t *dtp_put_varint(uint8_t *to, uint64_t number) {
    while (number >= 0x80) {
        *to++ = (uint8_t)(number | 0x80);
        number >>= 7;
    }
    *to++ = (uint8_t)number;
    return to;
}

static inline uint8_t *dtp_put_plain(uint8_t *to, const dtp_record *record) {
    const uint64_t *number = record->numbers;
    to = dtp_put_number(to, record->stamp, 8);
    for (const char *size = dtp_layout_of(record->kind)->sizes; *size != '\0'; size++)
        to = dtp_put_number(to, *number++, (size_t)(*size - '0'));
    if (record->line_bytes == NULL)
        return to;
    memcpy(to, record->line_bytes, DTP_LINE_BYTES);
    return to + DTP_LINE_BYTES;
}

static inline uint8_t *dtp_put_line_bytes(uint8_t *to, const dtp_record *record) {
    uint64_t mask = record->kind == DTP_DRAIN ? record->numbers[1] : UINT64_MAX;
    for (unsigned place = 0; place < DTP_LINE_BYTES; place++) {
        if (mask >> place & 1)
            *to++ = record->line_bytes[place];
    }
    return to;
}

static inline uint8_t *dtp_put_short(uint8_t *to, const dtp_record *record, uint64_t last_stamp) {
    size_t numbers = strlen(dtp_layout_of(record->kind)->sizes);
    uint8_t *presence;
    to = dtp_put_varint(to, record->stamp - last_stamp);
    presence = to;
    memset(presence, 0, (numbers + 7) / 8);
    to += (numbers + 7) / 8;
    for (size_t place = 0; place < numbers; place++) {
        if (record->numbers[place] != 0) {
            presence[place / 8] |= (uint8_t)(1u << place % 8);
            to = dtp_put_varint(to, record->numbers[place]);
        }
    }
    return record->line_bytes == NULL ? to : dtp_put_line_bytes(to, record);
}

/* ---- What is kept back ---- */

static inline dtp_status dtp_put_bytes(dtp_writer *writer, const void *bytes, size_t length) {
    if (length != 0 && writer->put(writer->context, bytes, length) != 0)
        return dtp_stop(writer, DTP_IO, "the file cannot be written, and has no End");
    return DTP_OK;
}

/* The least last stamp of all harts: a record below it is settled. */
static inline uint64_t dtp_settled_below(const dtp_writer *writer) {
    uint64_t least = writer->last_stamps[0];
    for (unsigned hart = 1; hart < writer->harts; hart++) {
        if (writer->last_stamps[hart] < least)
            least = writer->last_stamps[hart];
    }
    return least;
}

static inline int dtp_is_settled(const dtp_writer *writer, const dtp_buffer *buffer) {
    return buffer->greatest_stamp < dtp_settled_below(writer);
}

static inline void dtp_clear(dtp_buffer *buffer) {
    buffer->records = buffer->used = 0;
    buffer->greatest_stamp = 0;
}

/* Moves a buffer's records into the file. */
static inline dtp_status dtp_put_buffer(dtp_writer *writer, dtp_buffer *buffer) {
    if (dtp_put_bytes(writer, buffer->bytes, buffer->used) != DTP_OK)
        return DTP_IO;
    writer->records_put += buffer->records;
    dtp_clear(buffer);
    return DTP_OK;
}

/* Takes the records that are not settled out of a buffer. */
static inline void dtp_drop_unsettled(const dtp_writer *writer, dtp_buffer *buffer) {
    uint64_t bound = dtp_settled_below(writer);
    size_t records = 0, used = 0, start = 0;
    for (size_t place = 0; place < buffer->records; place++) {
        size_t end = buffer->marks[place].end;
        if (buffer->marks[place].stamp < bound) {
            memmove(buffer->bytes + used, buffer->bytes + start, end - start);
            used += end - start;
            records++;
        }
        start = end;
    }
    buffer->records = records;
    buffer->used = used;
}

/* Writes a buffer into a block of the spill, or reads it from there. */
static inline dtp_status dtp_move_block(dtp_writer *writer, dtp_buffer *buffer, size_t block, int is_write) {
    size_t moved = 0;
    if (writer->spill == NULL)
        writer->spill = tmpfile();
    if (writer->spill != NULL && fseek(writer->spill, (long)(block * sizeof *buffer), SEEK_SET) == 0)
        moved = is_write ? fwrite(buffer, sizeof *buffer, 1, writer->spill)
                         : fread(buffer, sizeof *buffer, 1, writer->spill);
    if (moved != 1)
        return dtp_stop(writer, DTP_IO, "the temporary file for what is kept back failed; there is no End");
    return DTP_OK;
}

/* Moves the older buffer's records behind the spill. */
static inline dtp_status dtp_spill(dtp_writer *writer) {
    if (dtp_move_block(writer, writer->older, writer->block_end, 1) != DTP_OK)
        return DTP_IO;
    writer->block_end++;
    dtp_clear(writer->older);
    return DTP_OK;
}

/* Moves the spill's records into the file by way of the older buffer, up to a block that is not settled. */
static inline dtp_status dtp_put_spill(dtp_writer *writer) {
    dtp_buffer *buffer = writer->older;
    for (; writer->first_block < writer->block_end; writer->first_block++) {
        if (dtp_move_block(writer, buffer, writer->first_block, 0) != DTP_OK)
            return DTP_IO;
        if (!dtp_is_settled(writer, buffer)) {
            dtp_clear(buffer);
            return DTP_OK;
        }
        if (dtp_put_buffer(writer, buffer) != DTP_OK)
            return DTP_IO;
    }
    writer->first_block = writer->block_end = 0;
    return DTP_OK;
}

/* Makes the newer buffer the older one: what was in that goes into the file, or else into the spill. */
static inline dtp_status dtp_make_room(dtp_writer *writer) {
    dtp_buffer *buffer = writer->older;
    dtp_status status = DTP_OK;
    if (writer->block_end == 0 && dtp_is_settled(writer, buffer))
        status = dtp_put_buffer(writer, buffer);
    else if (buffer->records != 0)
        status = dtp_spill(writer) == DTP_OK ? dtp_put_spill(writer) : DTP_IO;
    writer->older = writer->newer;
    writer->newer = buffer;
    return status;
}

/* ---- The end ---- */

static inline dtp_status dtp_put_last(dtp_writer *writer, dtp_buffer *buffer, int all) {
    if (!all)
        dtp_drop_unsettled(writer, buffer);
    return dtp_put_buffer(writer, buffer);
}

/* Writes the records that are not in the file yet, all or those that are settled, and the End. */
static inline dtp_status dtp_put_end(dtp_writer *writer, int all) {
    uint8_t end[1 + 8] = {255};
    if (writer->block_end != 0 && dtp_spill(writer) != DTP_OK)
        return DTP_IO;
    for (size_t block = writer->first_block; block < writer->block_end; block++) {
        if (dtp_move_block(writer, writer->older, block, 0) != DTP_OK ||
            dtp_put_last(writer, writer->older, all) != DTP_OK)
            return DTP_IO;
    }
    if (dtp_put_last(writer, writer->older, all) != DTP_OK ||
        dtp_put_last(writer, writer->newer, all) != DTP_OK)
        return DTP_IO;
    writer->records = writer->records_put;
    dtp_put_number(end + 1, writer->records, 8);
    return dtp_put_bytes(writer, end, sizeof end);
}

/* Gives back what the writer has. */
static inline void dtp_release(dtp_writer *writer) {
    if (writer->spill != NULL)
        fclose(writer->spill);
    if (writer->file != NULL && fclose(writer->file) != 0)
        dtp_stop(writer, DTP_IO, "the file cannot be closed");
    free(writer->older);
    free(writer->newer);
    writer->spill = writer->file = NULL;
    writer->older = writer->newer = NULL;
}

/* Ends the file settled, since the next record is beyond a limit. */
static inline dtp_status dtp_fill(dtp_writer *writer, const char *problem) {
    if (dtp_put_end(writer, 0) == DTP_OK)
        dtp_stop(writer, DTP_FULL, problem);
    dtp_release(writer);
    return writer->state;
}

/* The writers that this part of the program opened, the newest first. */
static inline dtp_writer **dtp_writers(void) {
    static dtp_writer *newest = NULL;
    return &newest;
}

/* Ends each file settled that is not closed. The exit of the program calls it. Where there will be no exit
 * (before abort, in a simulator's hook for fatal errors), call it. */
static inline void dtp_settle_all(void) {
    for (dtp_writer *writer = *dtp_writers(); writer != NULL; writer = writer->next) {
        if (writer->state == DTP_OK && dtp_put_end(writer, 0) == DTP_OK)
            dtp_stop(writer, DTP_CLOSED, "the program ended without dtp_close: the file ended settled");
        dtp_release(writer);
    }
}

/* ---- Taking a record ---- */

static inline int dtp_writes_memory(const dtp_record *record) {
    return record->kind == DTP_DRAIN || (record->kind == DTP_ATOMIC && record->numbers[5] != 0);
}

/* Puts a record into the newer buffer, which has room. */
static inline void dtp_hold(dtp_writer *writer, const dtp_record *record) {
    dtp_buffer *buffer = writer->newer;
    uint8_t *start = buffer->bytes + buffer->used, *end;
    start[0] = (uint8_t)record->kind;
    start[1] = (uint8_t)record->hart;
    if (writer->flags & DTP_VERSION_2)
        end = dtp_put_short(start + 2, record, writer->last_stamps[record->hart]);
    else
        end = dtp_put_plain(start + 2, record);
    buffer->used += (size_t)(end - start);
    buffer->marks[buffer->records].stamp = record->stamp;
    buffer->marks[buffer->records++].end = buffer->used;
    if (record->stamp > buffer->greatest_stamp)
        buffer->greatest_stamp = record->stamp;
}

/* Takes a record into the file, or says why not. */
static inline dtp_status dtp_take(dtp_writer *writer, const dtp_record *record) {
    dtp_status status;
    if (writer == NULL)
        return DTP_CLOSED;
    if (writer->state == DTP_CLOSED)
        dtp_stop(writer, DTP_CLOSED, "the file was ended before, and takes nothing");
    if (writer->state != DTP_OK)
        return writer->state;
    status = dtp_check(writer, record);
    if (status != DTP_OK)
        return status;
    if (writer->records == DTP_MOST_RECORDS)
        return dtp_fill(writer, "the file is at its limit of records, and has ended settled");
    if (dtp_writes_memory(record) && writer->writes == DTP_MOST_WRITES)
        return dtp_fill(writer,
                        "the file is at its limit of drains and writing atomics, and has ended settled");
    if ((writer->newer->records == DTP_BUFFER_RECORDS ||
         DTP_BUFFER_BYTES - writer->newer->used < DTP_RECORD_BYTES) &&
        dtp_make_room(writer) != DTP_OK)
        return DTP_IO;
    dtp_hold(writer, record);
    writer->last_stamps[record->hart] = record->stamp;
    writer->records++;
    writer->writes += (uint64_t)dtp_writes_memory(record);
    return DTP_OK;
}

static inline dtp_status dtp_take_numbers(dtp_writer *writer, dtp_kind kind, unsigned hart, uint64_t stamp,
                                          const uint64_t *numbers, const uint8_t *line_bytes) {
    dtp_record record = {kind, hart, stamp, numbers, line_bytes};
    return dtp_take(writer, &record);
}

/* ---- Opening and closing ---- */

static inline int dtp_can_open(unsigned harts, unsigned flags) {
    return harts >= 1 && harts <= DTP_MOST_HARTS && (flags & ~(DTP_SV48 | DTP_VERSION_2)) == 0 &&
           (*dtp_writers() != NULL || atexit(dtp_settle_all) == 0);
}

static inline dtp_status dtp_put_header(dtp_writer *writer) {
    uint8_t header[16] = {'S', 'M', 'P', 'D', 'I', 'F', 'F', 0};
    header[8] = writer->flags & DTP_VERSION_2 ? 2 : 1;
    header[10] = (uint8_t)writer->harts;
    header[11] = writer->flags & DTP_SV48 ? 1 : 0;
    return dtp_put_bytes(writer, header, sizeof header);
}

/* A writer that hands the bytes of the file to put, which it may call until dtp_close or the program's exit.
 * NULL where there are not 1 to 8 harts, a flag is unknown, memory is wanting, or put does not take the
 * header. */
static inline dtp_writer *dtp_open_put(dtp_put put, void *context, unsigned harts, unsigned flags) {
    dtp_writer *writer = dtp_can_open(harts, flags) ? (dtp_writer *)calloc(1, sizeof *writer) : NULL;
    if (writer == NULL)
        return NULL;
    writer->put = put;
    writer->context = context;
    writer->harts = harts;
    writer->flags = flags;
    writer->older = (dtp_buffer *)calloc(1, sizeof *writer->older);
    writer->newer = (dtp_buffer *)calloc(1, sizeof *writer->newer);
    if (writer->older == NULL || writer->newer == NULL || dtp_put_header(writer) != DTP_OK) {
        dtp_release(writer);
        free(writer);
        return NULL;
    }
    writer->next = *dtp_writers();
    *dtp_writers() = writer;
    return writer;
}

static inline int dtp_put_file(void *file, const void *bytes, size_t length) {
    return fwrite(bytes, 1, length, (FILE *)file) == length ? 0 : 1;
}

/* A writer into a file, or into a pipe by its path. NULL as in dtp_open_put, and where the path cannot be
 * opened: errno says why. */
static inline dtp_writer *dtp_open(const char *path, unsigned harts, unsigned flags) {
    dtp_writer *writer;
    FILE *file = dtp_can_open(harts, flags) ? fopen(path, "wb") : NULL;
    if (file == NULL)
        return NULL;
    /* The writer's own buffer is enough, and nothing stays behind in a second one. */
    setvbuf(file, NULL, _IONBF, 0);
    writer = dtp_open_put(dtp_put_file, file, harts, flags);
    if (writer == NULL)
        fclose(file);
    else
        writer->file = file;
    return writer;
}

/* Ends the file with all its records: the run is over on every hart. DTP_OK says that each record that was
 * handed in is in the file. DTP_IO and DTP_FULL say how the file ended else, and DTP_UNLAWFUL and
 * DTP_STAMP_FELL why the first record was left out of a file that has its End. */
static inline dtp_status dtp_close(dtp_writer *writer) {
    dtp_status status;
    if (writer == NULL || writer->state == DTP_CLOSED)
        return DTP_CLOSED;
    if (writer->state == DTP_OK)
        dtp_put_end(writer, 1);
    dtp_release(writer);
    status = writer->state == DTP_OK ? writer->refused : writer->state;
    writer->state = DTP_CLOSED;
    return status;
}

/* What was wrong with the last call that did not answer DTP_OK: empty where all did. */
static inline const char *dtp_problem(const dtp_writer *writer) {
    return writer == NULL ? "there is no writer: dtp_open gave NULL" : writer->problem;
}

/* How many records were taken; behind the end, how many the file has. */
static inline uint64_t dtp_count(const dtp_writer *writer) {
    return writer == NULL ? 0 : writer->records;
}

/* ---- One call for each kind: its fields in file order ---- */

static inline dtp_status dtp_commit(dtp_writer *writer, unsigned hart, uint64_t stamp, uint64_t pc,
                                    uint32_t bits, uint64_t value) {
    const uint64_t numbers[] = {pc, bits, value};
    return dtp_take_numbers(writer, DTP_COMMIT, hart, stamp, numbers, NULL);
}

static inline dtp_status dtp_trap(dtp_writer *writer, unsigned hart, uint64_t stamp, uint64_t pc,
                                  uint32_t bits, uint64_t cause, uint64_t tval) {
    const uint64_t numbers[] = {pc, bits, cause, tval};
    return dtp_take_numbers(writer, DTP_TRAP, hart, stamp, numbers, NULL);
}

/* The registers x1 to x31. */
static inline dtp_status dtp_regs(dtp_writer *writer, unsigned hart, uint64_t stamp, uint64_t pc,
                                  const uint64_t x[31]) {
    uint64_t numbers[32] = {pc};
    memcpy(numbers + 1, x, 31 * sizeof *x);
    return dtp_take_numbers(writer, DTP_REGS, hart, stamp, numbers, NULL);
}

/* mstatus, medeleg, mideleg, mie, mtvec, mcounteren, mscratch, mepc, mcause, mtval, stvec, scounteren,
 * sscratch, sepc, scause, stval, satp. */
static inline dtp_status dtp_csrs(dtp_writer *writer, unsigned hart, uint64_t stamp, unsigned mode,
                                  const uint64_t values[17]) {
    uint64_t numbers[18] = {mode};
    memcpy(numbers + 1, values, 17 * sizeof *values);
    return dtp_take_numbers(writer, DTP_CSRS, hart, stamp, numbers, NULL);
}

static inline dtp_status dtp_load(dtp_writer *writer, unsigned hart, uint64_t stamp, uint64_t pc,
                                  uint32_t bits, uint64_t value, uint64_t at, uint64_t paddr) {
    const uint64_t numbers[] = {pc, bits, value, at, paddr};
    return dtp_take_numbers(writer, DTP_LOAD, hart, stamp, numbers, NULL);
}

static inline dtp_status dtp_store(dtp_writer *writer, unsigned hart, uint64_t stamp, uint64_t pc,
                                   uint32_t bits, uint64_t paddr, uint64_t value) {
    const uint64_t numbers[] = {pc, bits, paddr, value};
    return dtp_take_numbers(writer, DTP_STORE, hart, stamp, numbers, NULL);
}

/* value is the old value or what SC answers, new_value what was written (0 without a write). */
static inline dtp_status dtp_atomic(dtp_writer *writer, unsigned hart, uint64_t stamp, uint64_t pc,
                                    uint32_t bits, uint64_t value, uint64_t paddr, unsigned width,
                                    unsigned wrote, uint64_t new_value) {
    const uint64_t numbers[] = {pc, bits, value, paddr, width, wrote, new_value};
    return dtp_take_numbers(writer, DTP_ATOMIC, hart, stamp, numbers, NULL);
}

static inline dtp_status dtp_drain(dtp_writer *writer, unsigned hart, uint64_t stamp, uint64_t line,
                                   uint64_t mask, unsigned count, const uint8_t bytes[DTP_LINE_BYTES]) {
    const uint64_t numbers[] = {line, mask, count};
    return dtp_take_numbers(writer, DTP_DRAIN, hart, stamp, numbers, bytes);
}

static inline dtp_status dtp_refill(dtp_writer *writer, unsigned hart, uint64_t stamp, uint64_t line,
                                    const uint8_t bytes[DTP_LINE_BYTES]) {
    return dtp_take_numbers(writer, DTP_REFILL, hart, stamp, &line, bytes);
}

static inline dtp_status dtp_beat(dtp_writer *writer, unsigned hart, uint64_t stamp) {
    return dtp_take_numbers(writer, DTP_BEAT, hart, stamp, NULL, NULL);
}

/* ---- Records by the instruction ---- */

static inline unsigned dtp_bits_of(uint32_t bits, unsigned high, unsigned low) {
    return (unsigned)(bits >> low & ((1u << (high - low + 1)) - 1));
}

/* The bytes that a store writes, by its instruction: 0 where it is none. */
static inline unsigned dtp_store_bytes(uint32_t bits) {
    unsigned short_form = dtp_bits_of(bits, 15, 13);
    if (dtp_bits_of(bits, 6, 0) == 0x23)
        return dtp_bits_of(bits, 14, 12) < 4 ? 1u << dtp_bits_of(bits, 14, 12) : 0;
    if ((bits & 1) != 0 || short_form < 6)
        return 0;
    return short_form == 6 ? 4 : 8;
}

/* The kind of the record of a retired instruction. */
static inline dtp_kind dtp_kind_of(uint32_t bits) {
    unsigned opcode = dtp_bits_of(bits, 6, 0), short_form = dtp_bits_of(bits, 15, 13);
    if (dtp_store_bytes(bits) != 0)
        return DTP_STORE;
    if (opcode == 0x03 || ((bits & 1) == 0 && (short_form == 2 || short_form == 3)))
        return DTP_LOAD;
    return opcode == 0x2f ? DTP_ATOMIC : DTP_COMMIT;
}

/* Whether an instruction of 16 bits that is no load and no store gives a register other than x0 a value. */
static inline int dtp_short_has_rd(uint32_t bits) {
    unsigned short_form = dtp_bits_of(bits, 15, 13), rd = dtp_bits_of(bits, 11, 7);
    switch (bits & 3) {
    case 0:
        return 1;
    case 1:
        return short_form == 4 || (short_form < 4 && rd != 0);
    default:
        if (short_form == 4 && dtp_bits_of(bits, 12, 12) == 0 && dtp_bits_of(bits, 6, 2) == 0)
            return 0; /* C.JR */
        return rd != 0;
    }
}

/* Whether an instruction that is no load, store or atomic gives a register other than x0 a value. */
static inline int dtp_has_rd(uint32_t bits) {
    unsigned opcode = dtp_bits_of(bits, 6, 0);
    if ((bits & 3) != 3)
        return dtp_short_has_rd(bits);
    if (opcode == 0x63 || opcode == 0x0f) /* branches and fences */
        return 0;
    if (opcode == 0x73 && dtp_bits_of(bits, 14, 12) == 0) /* MRET, SRET, WFI, SFENCE.VMA */
        return 0;
    return dtp_bits_of(bits, 11, 7) != 0;
}

static inline uint64_t dtp_low_bytes(uint64_t number, unsigned bytes) {
    return bytes < 8 ? number & ((UINT64_C(1) << 8 * bytes) - 1) : number;
}

/* The record of a retired instruction: Load, Store, Atomic or Commit, as its bits say. */
static inline dtp_status dtp_retire(dtp_writer *writer, const dtp_retired *r) {
    unsigned width = 1u << dtp_bits_of(r->bits, 14, 12);
    switch (dtp_kind_of(r->bits)) {
    case DTP_LOAD:
        return dtp_load(writer, r->hart, r->stamp, r->pc, r->bits, r->value, r->at, r->paddr);
    case DTP_STORE:
        return dtp_store(writer, r->hart, r->stamp, r->pc, r->bits, r->paddr,
                         dtp_low_bytes(r->stored, dtp_store_bytes(r->bits)));
    case DTP_ATOMIC:
        return dtp_atomic(writer, r->hart, r->stamp, r->pc, r->bits, r->value, r->paddr, width, r->wrote,
                          r->wrote == 0 ? 0 : dtp_low_bytes(r->stored, width));
    default:
        return dtp_commit(writer, r->hart, r->stamp, r->pc, r->bits, dtp_has_rd(r->bits) ? r->value : 0);
    }
}

/* The Drain of a store that lies in RAM. */
static inline dtp_status dtp_drain_store(dtp_writer *writer, unsigned hart, uint64_t stamp, uint64_t paddr,
                                         uint64_t value, unsigned bytes) {
    uint8_t line_bytes[DTP_LINE_BYTES + 8] = {0};
    unsigned place = (unsigned)(paddr % DTP_LINE_BYTES);
    dtp_put_number(line_bytes + place, dtp_low_bytes(value, bytes), bytes);
    return dtp_drain(writer, hart, stamp, paddr - place, ((UINT64_C(1) << bytes) - 1) << place, 1,
                     line_bytes);
}

/* The records of a store that is written as it retires, by a hart without a store buffer: the Store, and
 * its Drain with the same stamp. A store that is to no RAM (a device's), or that is not a multiple of its
 * width, has no Drain. */
static inline dtp_status dtp_store_through(dtp_writer *writer, unsigned hart, uint64_t stamp, uint64_t pc,
                                           uint32_t bits, uint64_t paddr, uint64_t value) {
    unsigned bytes = dtp_store_bytes(bits);
    const uint64_t numbers[] = {pc, bits, paddr, dtp_low_bytes(value, bytes)};
    dtp_record store = {DTP_STORE, hart, stamp, numbers, NULL};
    dtp_status status;
    if (bytes == 0 && writer != NULL && writer->state == DTP_OK)
        return dtp_wrong(writer, &store, "bits", bits, "those of a store");
    status = dtp_take(writer, &store);
    if (status != DTP_OK || paddr < DTP_RAM_START || paddr >= DTP_RAM_END || paddr % bytes != 0)
        return status;
    return dtp_drain_store(writer, hart, stamp, paddr, value, bytes);
}

#endif /* DIFFTEST_PROBE_H */
