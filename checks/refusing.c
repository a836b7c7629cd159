/* Refuses threads and memory to a program under which it is loaded, by LD_PRELOAD.
 *
 * REFUSE_STARTS_FROM=N     so many starts of a thread succeed, and each later one is refused
 * REFUSE_MEMORY_FROM=N     so many calls for memory succeed, and each later one is refused
 * REFUSALS=PATH            one byte is written behind this file for each refused start
 */
#define _GNU_SOURCE
#include <dlfcn.h>
#include <errno.h>
#include <fcntl.h>
#include <pthread.h>
#include <stdatomic.h>
#include <stdlib.h>
#include <unistd.h>

extern void *__libc_malloc(size_t size);
extern void *__libc_realloc(void *old, size_t size);

typedef int start_function(pthread_t *thread, const pthread_attr_t *attributes, void *(*run)(void *), void *argument);

static atomic_long starts, calls;

/* The number under a name of the environment, or -1 where there is none. */
static long limit_of(const char *name) {
    const char *text = getenv(name);
    return text ? atol(text) : -1;
}

static int is_refused(atomic_long *count, const char *name) {
    long limit = limit_of(name);
    return limit >= 0 && atomic_fetch_add(count, 1) >= limit;
}

static void note_refusal(void) {
    const char *path = getenv("REFUSALS");
    int file = path ? open(path, O_WRONLY | O_APPEND | O_CREAT, 0600) : -1;
    if (file >= 0) {
        if (write(file, "r", 1) != 1) {
            abort();
        }
        close(file);
    }
}

int pthread_create(pthread_t *thread, const pthread_attr_t *attributes, void *(*run)(void *), void *argument) {
    if (is_refused(&starts, "REFUSE_STARTS_FROM")) {
        note_refusal();
        return EAGAIN;
    }
    start_function *start = (start_function *)dlsym(RTLD_NEXT, "pthread_create");
    return start(thread, attributes, run, argument);
}

void *malloc(size_t size) {
    return is_refused(&calls, "REFUSE_MEMORY_FROM") ? NULL : __libc_malloc(size);
}

void *realloc(void *old, size_t size) {
    return is_refused(&calls, "REFUSE_MEMORY_FROM") ? NULL : __libc_realloc(old, size);
}
