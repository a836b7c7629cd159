/*
 * difftest_permissions.h: writes the permission file of a run, beside its probe file.
 *
 *     dtp_permissions *permissions = dtp_open_permissions("run.permissions", 2);
 *     dtp_grant(permissions, hart, cycle, line, DTP_WRITE);
 *     dtp_revoke(permissions, hart, cycle, line);
 *     ...
 *     if (dtp_close_permissions(permissions) != DTP_OK)
 *         fprintf(stderr, "%s\n", dtp_permissions_problem(permissions));
 *
 * docs/PERMISSIONS.md says what the events mean and when a cache has to write them. The events of all harts
 * go into one file in the order of the calls, which means something: their stamps never fall, whichever hart
 * an event is of. An event that the reader would refuse is refused at the call. One writer is for one thread
 * at a time.
 *
 * Nothing is kept back. Where the run ends without dtp_close_permissions, or no event fits any more, the file
 * ends behind the events that were taken: what they say of the cycles before the last one stays true.
 */
#ifndef DIFFTEST_PERMISSIONS_H
#define DIFFTEST_PERMISSIONS_H

#include "difftest_probe.h"

/* The reader's limit. */
#define DTP_MOST_EVENTS 4194304u

/* What a grant lets the hart do with the line. */
typedef enum dtp_right {
    DTP_READ = 1, /* read it */
    DTP_WRITE     /* read and write it */
} dtp_right;

/* A writer. Its fields are its own. It stays until the program's exit, for calls behind the close. */
typedef struct dtp_permissions {
    dtp_put put;
    void *context;
    FILE *file; /* that dtp_open_permissions opened */
    unsigned harts;
    dtp_status state;   /* DTP_OK while events are taken */
    dtp_status refused; /* what the first event that was left out was answered, or DTP_OK */
    uint64_t last_stamp, events;
    char problem[200];
    struct dtp_permissions *next;
} dtp_permissions;

/* An event on its way into the file. */
typedef struct dtp_event {
    unsigned op; /* as the file has it: a dtp_right, or DTP_REVOKE_OP */
    unsigned hart;
    uint64_t stamp, line;
} dtp_event;

#define DTP_REVOKE_OP 3u
#define DTP_EVENT_BYTES 18u

/* Takes no event from here on. */
static inline dtp_status dtp_stop_permissions(dtp_permissions *writer, dtp_status state,
                                              const char *problem) {
    writer->state = state;
    snprintf(writer->problem, sizeof writer->problem, "%s", problem);
    return state;
}

/* Leaves an event out, and says which, and which field has to be what. */
static inline dtp_status dtp_refuse_event(dtp_permissions *writer, const dtp_event *event, dtp_status status,
                                          const char *field, uint64_t value, const char *bound) {
    snprintf(writer->problem, sizeof writer->problem,
             "event %llu, hart %u, stamp %llu: %s=%llu (0x%llx), must be %s",
             (unsigned long long)writer->events, event->hart, (unsigned long long)event->stamp, field,
             (unsigned long long)value, (unsigned long long)value, bound);
    if (writer->refused == DTP_OK)
        writer->refused = status;
    return status;
}

static inline dtp_status dtp_check_event(dtp_permissions *writer, const dtp_event *event) {
    if (event->hart >= writer->harts)
        return dtp_refuse_event(writer, event, DTP_UNLAWFUL, "hart", event->hart,
                                "below the harts of the file");
    if (event->stamp < writer->last_stamp)
        return dtp_refuse_event(writer, event, DTP_STAMP_FELL, "stamp", event->stamp,
                                "at least that of the last event, of any hart");
    if (event->line % DTP_LINE_BYTES != 0 || event->line < DTP_RAM_START || event->line >= DTP_RAM_END)
        return dtp_refuse_event(writer, event, DTP_UNLAWFUL, "line", event->line, "a multiple of 64 in RAM");
    return DTP_OK;
}

/* ---- The end ---- */

static inline dtp_status dtp_put_event_bytes(dtp_permissions *writer, const void *bytes, size_t length) {
    if (writer->put(writer->context, bytes, length) != 0)
        return dtp_stop_permissions(writer, DTP_IO, "the file cannot be written, and has no End");
    return DTP_OK;
}

/* Writes the End where the file takes events still, and gives the file back. */
static inline void dtp_finish_permissions(dtp_permissions *writer) {
    uint8_t end[1 + 8] = {255};
    dtp_put_number(end + 1, writer->events, 8);
    if (writer->state == DTP_OK)
        dtp_put_event_bytes(writer, end, sizeof end);
    if (writer->file != NULL && fclose(writer->file) != 0)
        dtp_stop_permissions(writer, DTP_IO, "the file cannot be written to its end");
    writer->file = NULL;
}

/* Ends the file, since the next event is beyond the limit. */
static inline dtp_status dtp_fill_permissions(dtp_permissions *writer, uint64_t stamp) {
    char problem[sizeof writer->problem];
    snprintf(problem, sizeof problem,
             "the file is at its limit of events, and has ended: it is whole for the cycles below %llu",
             (unsigned long long)stamp);
    dtp_finish_permissions(writer);
    return writer->state == DTP_OK ? dtp_stop_permissions(writer, DTP_FULL, problem) : writer->state;
}

/* The writers that this part of the program opened, the newest first. */
static inline dtp_permissions **dtp_permission_writers(void) {
    static dtp_permissions *newest = NULL;
    return &newest;
}

/* Ends each permission file that is not closed. The exit of the program calls it. Where there will be no exit
 * (before abort, in a simulator's hook for fatal errors), call it, beside dtp_settle_all. */
static inline void dtp_end_permissions(void) {
    for (dtp_permissions *writer = *dtp_permission_writers(); writer != NULL; writer = writer->next) {
        dtp_finish_permissions(writer);
        if (writer->state == DTP_OK)
            dtp_stop_permissions(writer, DTP_CLOSED,
                                 "the program ended without dtp_close_permissions: the file has ended there");
    }
}

/* ---- Opening and closing ---- */

static inline int dtp_can_open_permissions(unsigned harts) {
    return harts >= 1 && harts <= DTP_MOST_HARTS &&
           (*dtp_permission_writers() != NULL || atexit(dtp_end_permissions) == 0);
}

/* A writer that hands the bytes of the file to put, which it may call until the close or the program's exit.
 * NULL where there are not 1 to 8 harts, memory is wanting, or put does not take the header. */
static inline dtp_permissions *dtp_open_permissions_put(dtp_put put, void *context, unsigned harts) {
    uint8_t header[16] = {'S', 'M', 'P', 'D', 'P', 'E', 'R', 'M'};
    dtp_permissions *writer = NULL;
    if (dtp_can_open_permissions(harts))
        writer = (dtp_permissions *)calloc(1, sizeof *writer);
    if (writer == NULL)
        return NULL;
    writer->put = put;
    writer->context = context;
    writer->harts = harts;
    header[8] = (uint8_t)harts;
    if (dtp_put_event_bytes(writer, header, sizeof header) != DTP_OK) {
        free(writer);
        return NULL;
    }
    writer->next = *dtp_permission_writers();
    *dtp_permission_writers() = writer;
    return writer;
}

/* A writer into a file, or into a pipe by its path. NULL as in dtp_open_permissions_put, and where the path
 * cannot be opened: errno says why. */
static inline dtp_permissions *dtp_open_permissions(const char *path, unsigned harts) {
    dtp_permissions *writer;
    FILE *file = dtp_can_open_permissions(harts) ? fopen(path, "wb") : NULL;
    if (file == NULL)
        return NULL;
    writer = dtp_open_permissions_put(dtp_put_file, file, harts);
    if (writer == NULL)
        fclose(file);
    else
        writer->file = file;
    return writer;
}

/* Ends the file: the run is over. DTP_OK says that each event that was handed in is in the file. DTP_IO and
 * DTP_FULL say how the file ended else, and DTP_UNLAWFUL and DTP_STAMP_FELL why the first event was left out
 * of a file that has its End. */
static inline dtp_status dtp_close_permissions(dtp_permissions *writer) {
    dtp_status status;
    if (writer == NULL || writer->state == DTP_CLOSED)
        return DTP_CLOSED;
    dtp_finish_permissions(writer);
    status = writer->state == DTP_OK ? writer->refused : writer->state;
    writer->state = DTP_CLOSED;
    return status;
}

/* What was wrong with the last call that did not answer DTP_OK: empty where all did. */
static inline const char *dtp_permissions_problem(const dtp_permissions *writer) {
    return writer == NULL ? "there is no writer: dtp_open_permissions gave NULL" : writer->problem;
}

/* How many events were taken, which is how many the file has. */
static inline uint64_t dtp_permissions_count(const dtp_permissions *writer) {
    return writer == NULL ? 0 : writer->events;
}

/* ---- The events ---- */

/* Takes an event into the file, or says why not. */
static inline dtp_status dtp_take_event(dtp_permissions *writer, const dtp_event *event) {
    uint8_t bytes[DTP_EVENT_BYTES];
    dtp_status status;
    if (writer == NULL)
        return DTP_CLOSED;
    if (writer->state == DTP_CLOSED)
        dtp_stop_permissions(writer, DTP_CLOSED, "the file was ended before, and takes nothing");
    if (writer->state != DTP_OK)
        return writer->state;
    status = dtp_check_event(writer, event);
    if (status != DTP_OK)
        return status;
    if (writer->events == DTP_MOST_EVENTS)
        return dtp_fill_permissions(writer, event->stamp);
    bytes[0] = (uint8_t)event->op;
    bytes[1] = (uint8_t)event->hart;
    dtp_put_number(bytes + 2, event->stamp, 8);
    dtp_put_number(bytes + 10, event->line, 8);
    if (dtp_put_event_bytes(writer, bytes, sizeof bytes) != DTP_OK)
        return DTP_IO;
    writer->last_stamp = event->stamp;
    writer->events++;
    return DTP_OK;
}

/* From here on the hart may read the line, by DTP_READ, or read and write it, by DTP_WRITE. What it held of
 * the line before counts no more. */
static inline dtp_status dtp_grant(dtp_permissions *writer, unsigned hart, uint64_t stamp, uint64_t line,
                                   unsigned right) {
    const dtp_event event = {right, hart, stamp, line};
    if (right != DTP_READ && right != DTP_WRITE && writer != NULL && writer->state == DTP_OK)
        return dtp_refuse_event(writer, &event, DTP_UNLAWFUL, "right", right, "DTP_READ or DTP_WRITE");
    return dtp_take_event(writer, &event);
}

/* From here on the hart holds nothing of the line. */
static inline dtp_status dtp_revoke(dtp_permissions *writer, unsigned hart, uint64_t stamp, uint64_t line) {
    const dtp_event event = {DTP_REVOKE_OP, hart, stamp, line};
    return dtp_take_event(writer, &event);
}

#endif /* DIFFTEST_PERMISSIONS_H */
