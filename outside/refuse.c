/* Refuses memory and threads: of the calls that ask for one, that of the number REFUSE_AT, from 0, and with REFUSE_ALL each later one.
   It is put before the C library (LD_PRELOAD). At the first refusal it writes a byte to the descriptor REFUSE_TELL. */
#define _GNU_SOURCE
#include <dlfcn.h>
#include <errno.h>
#include <pthread.h>
#include <stdatomic.h>
#include <stdlib.h>
#include <unistd.h>

void *__libc_malloc(size_t size);
void *__libc_calloc(size_t count, size_t size);
void *__libc_realloc(void *old, size_t size);
void *__libc_memalign(size_t alignment, size_t size);

typedef int (*create_thread)(pthread_t *, const pthread_attr_t *, void *(*)(void *), void *);

static atomic_long calls;
static long at = -1;
static int all, tell = -1;
static create_thread libc_create;

__attribute__((constructor)) static void begin(void) {
    const char *number = getenv("REFUSE_AT"), *descriptor = getenv("REFUSE_TELL");
    libc_create = (create_thread)dlsym(RTLD_NEXT, "pthread_create");
    all = getenv("REFUSE_ALL") != NULL;
    tell = descriptor ? atoi(descriptor) : -1;
    atomic_store(&calls, 0);
    at = number ? atol(number) : -1;
}

static int is_refused(void) {
    long call = atomic_fetch_add(&calls, 1);
    if (at < 0 || call < at || (call > at && !all))
        return 0;
    if (call == at && tell >= 0 && write(tell, "r", 1) != 1)
        _exit(99);
    return 1;
}

static int has_no_memory(void) {
    if (!is_refused())
        return 0;
    errno = ENOMEM;
    return 1;
}

void *malloc(size_t size) { return has_no_memory() ? NULL : __libc_malloc(size); }

void *calloc(size_t count, size_t size) { return has_no_memory() ? NULL : __libc_calloc(count, size); }

void *realloc(void *old, size_t size) { return has_no_memory() ? NULL : __libc_realloc(old, size); }

void *aligned_alloc(size_t alignment, size_t size) { return has_no_memory() ? NULL : __libc_memalign(alignment, size); }

int posix_memalign(void **place, size_t alignment, size_t size) {
    void *made = is_refused() ? NULL : __libc_memalign(alignment, size);
    if (made == NULL)
        return ENOMEM;
    *place = made;
    return 0;
}

int pthread_create(pthread_t *thread, const pthread_attr_t *attributes, void *(*body)(void *), void *given) {
    return is_refused() ? EAGAIN : libc_create(thread, attributes, body, given);
}
