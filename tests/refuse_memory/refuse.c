/* Stands before the C library's allocator: counts the program's calls for memory, and refuses the one whose number is in
   REFUSE_CALL, and with REFUSE_ALL_AFTER each after it too. At the end, by exit or by _exit, the count goes to the file that
   REFUSE_COUNT names. Each thread that begins is noted at once, as a byte in the file that REFUSE_THREADS names.
   Built by refuse_memory.py. Memory that the library itself wants before the program begins is counted too. */
#define _GNU_SOURCE
#include <dlfcn.h>
#include <errno.h>
#include <fcntl.h>
#include <pthread.h>
#include <stddef.h>
#include <stdio.h>
#include <stdlib.h>
#include <sys/syscall.h>
#include <unistd.h>

static unsigned long made;
static unsigned long refused_call;
static int refuses_after;

static void *(*real_malloc)(size_t);
static void *(*real_calloc)(size_t, size_t);
static void *(*real_realloc)(void *, size_t);
static void *(*real_aligned_alloc)(size_t, size_t);
static int (*real_posix_memalign)(void **, size_t, size_t);
static void (*real_free)(void *);
static int (*real_pthread_create)(pthread_t *, const pthread_attr_t *, void *(*)(void *), void *);

/* dlsym itself may ask for a few bytes before the real calls are known. */
static char early[4096];
static size_t early_used;

static void *early_bytes(size_t size) {
    size_t begin = (early_used + 15) & ~(size_t)15;
    if (begin + size > sizeof early) return NULL;
    early_used = begin + size;
    return early + begin;
}

__attribute__((constructor)) static void begin(void) {
    const char *call = getenv("REFUSE_CALL");
    refused_call = call ? strtoul(call, NULL, 10) : 0;
    refuses_after = getenv("REFUSE_ALL_AFTER") != NULL;
    real_calloc = dlsym(RTLD_NEXT, "calloc");
    real_malloc = dlsym(RTLD_NEXT, "malloc");
    real_realloc = dlsym(RTLD_NEXT, "realloc");
    real_aligned_alloc = dlsym(RTLD_NEXT, "aligned_alloc");
    real_posix_memalign = dlsym(RTLD_NEXT, "posix_memalign");
    real_free = dlsym(RTLD_NEXT, "free");
    real_pthread_create = dlsym(RTLD_NEXT, "pthread_create");
    made = 0;
}

__attribute__((destructor)) static void end(void) {
    const char *name = getenv("REFUSE_COUNT");
    unsigned long count = __atomic_load_n(&made, __ATOMIC_SEQ_CST);
    refused_call = 0;
    FILE *file = name ? fopen(name, "w") : NULL;
    if (!file) return;
    fprintf(file, "%lu\n", count);
    fclose(file);
}

void _exit(int status) {
    end();
    syscall(SYS_exit_group, status);
    __builtin_unreachable();
}

static int is_refused(void) {
    unsigned long call = __atomic_add_fetch(&made, 1, __ATOMIC_SEQ_CST);
    if (refused_call == 0) return 0;
    return call == refused_call || (refuses_after && call > refused_call);
}

void *malloc(size_t size) {
    if (!real_malloc) return early_bytes(size);
    if (is_refused()) { errno = ENOMEM; return NULL; }
    return real_malloc(size);
}

void *calloc(size_t count, size_t size) {
    if (!real_calloc) return early_bytes(count * size);
    if (is_refused()) { errno = ENOMEM; return NULL; }
    return real_calloc(count, size);
}

void *realloc(void *old, size_t size) {
    if (!real_realloc) return NULL;
    if (is_refused()) { errno = ENOMEM; return NULL; }
    return real_realloc(old, size);
}

void *aligned_alloc(size_t alignment, size_t size) {
    if (!real_aligned_alloc) return NULL;
    if (is_refused()) { errno = ENOMEM; return NULL; }
    return real_aligned_alloc(alignment, size);
}

void free(void *old) {
    if ((char *)old >= early && (char *)old < early + sizeof early) return;
    if (real_free) real_free(old);
}

int posix_memalign(void **place, size_t alignment, size_t size) {
    if (!real_posix_memalign) return ENOMEM;
    if (is_refused()) return ENOMEM;
    return real_posix_memalign(place, alignment, size);
}

int pthread_create(pthread_t *thread, const pthread_attr_t *kind, void *(*body)(void *), void *given) {
    int error = real_pthread_create(thread, kind, body, given);
    const char *name = getenv("REFUSE_THREADS");
    if (error || !name) return error;
    int file = open(name, O_WRONLY | O_CREAT | O_APPEND, 0600);
    if (file < 0 || write(file, "1", 1) != 1) abort();
    close(file);
    return 0;
}
