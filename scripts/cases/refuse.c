// Refuses a program one of the calls by which it takes memory or makes a thread. It is loaded before the program's own
// libraries (LD_PRELOAD), and counts the calls of malloc and realloc, those of all threads together, and the threads.
//
// REFUSED_CALL=n     the n-th call is answered by no memory
// REFUSED_THREAD=n   the n-th thread isn't made
// REFUSED_AFTER=n    the n-th call is answered by no memory of those after the program began to make its first thread, but
//                    for what pthread_create takes for itself
// COUNTED=FILE       at its end the program's calls, its threads, and the calls of REFUSED_AFTER are told there
#define _GNU_SOURCE
#include <dlfcn.h>
#include <errno.h>
#include <pthread.h>
#include <stdatomic.h>
#include <stdio.h>
#include <stdlib.h>
#include <sys/syscall.h>
#include <unistd.h>

extern void *__libc_malloc(size_t size);
extern void *__libc_realloc(void *old, size_t size);

static atomic_long calls;
static atomic_long threads;
static atomic_long calls_after;
static long refused_call;
static long refused_thread;
static long refused_after;

// Whether this thread is inside pthread_create. The model is one that takes no memory at its first use.
static _Thread_local int makes_thread __attribute__((tls_model("initial-exec")));

// The number that a name tells, or 0.
static long number_of(const char *name) {
    const char *text = getenv(name);
    return text == NULL ? 0 : strtol(text, NULL, 10);
}

__attribute__((constructor)) static void begin(void) {
    refused_call = number_of("REFUSED_CALL");
    refused_thread = number_of("REFUSED_THREAD");
    refused_after = number_of("REFUSED_AFTER");
}

// Counts a call: whether it is the one of this number.
static int is_counted(atomic_long *counted, long number) {
    return atomic_fetch_add(counted, 1) + 1 == number;
}

static int is_refused(void) {
    int refused = is_counted(&calls, refused_call);
    if (atomic_load(&threads) > 0 && !makes_thread) {
        refused |= is_counted(&calls_after, refused_after);
    }
    if (refused) {
        errno = ENOMEM;
    }
    return refused;
}

void *malloc(size_t size) {
    return is_refused() ? NULL : __libc_malloc(size);
}

void *realloc(void *old, size_t size) {
    return is_refused() ? NULL : __libc_realloc(old, size);
}

typedef int create(pthread_t *, const pthread_attr_t *, void *(*)(void *), void *);

int pthread_create(pthread_t *made, const pthread_attr_t *attributes, void *(*start)(void *), void *given) {
    if (is_counted(&threads, refused_thread)) {
        return EAGAIN;
    }
    makes_thread = 1;
    create *next = (create *)dlsym(RTLD_NEXT, "pthread_create");
    int refused = next(made, attributes, start, given);
    makes_thread = 0;
    return refused;
}

static void tell_counts(void) {
    // To tell them takes memory, too, and that isn't refused.
    long calls_made = atomic_load(&calls), made_after = atomic_load(&calls_after);
    refused_call = refused_after = 0;
    const char *path = getenv("COUNTED");
    FILE *file = path == NULL ? NULL : fopen(path, "w");
    if (file != NULL) {
        fprintf(file, "%ld %ld %ld\n", calls_made, atomic_load(&threads), made_after);
        fclose(file);
    }
}

// A program ends by its main's return.
__attribute__((destructor)) static void end(void) {
    tell_counts();
}

// Or so, also where its main returns.
void _exit(int status) {
    tell_counts();
    syscall(SYS_exit_group, status);
    __builtin_unreachable();
}
