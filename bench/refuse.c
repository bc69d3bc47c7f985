// A library to be preloaded into a program whose memory or threads are to be refused.
//
// REFUSED=N refuses the program's allocation number N, from 1: that call of malloc or realloc answers NULL, and all
// others what they would. REFUSED_FROM=N refuses each from that one on. UNTHREADED=1 refuses each thread. COUNTED=FILE
// has the number of allocations and threads that were asked for written there as the program ends.
#define _GNU_SOURCE
#include <dlfcn.h>
#include <errno.h>
#include <pthread.h>
#include <stdatomic.h>
#include <stdio.h>
#include <stdlib.h>
#include <sys/syscall.h>
#include <unistd.h>

extern void *__libc_malloc(size_t);
extern void *__libc_realloc(void *, size_t);

static atomic_ulong asked;
static atomic_ulong threads;
static unsigned long refused;
static unsigned long refused_from;
static int unthreaded;
static const char *counted;
static atomic_int begun;

static unsigned long number(const char *name) {
    const char *word = getenv(name);
    return word ? strtoul(word, NULL, 10) : 0;
}

__attribute__((constructor)) static void begin(void) {
    refused = number("REFUSED");
    refused_from = number("REFUSED_FROM");
    unthreaded = number("UNTHREADED") != 0;
    counted = getenv("COUNTED");
    atomic_store(&begun, 1);
}

// Tells what was asked for, once.
static void tell(void) {
    if (!atomic_exchange(&begun, 0) || !counted) return;
    FILE *file = fopen(counted, "w");
    if (!file) return;
    fprintf(file, "%lu %lu\n", atomic_load(&asked), atomic_load(&threads));
    fclose(file);
}

__attribute__((destructor)) static void end(void) { tell(); }

// Where a program ends by _exit, no destructor tells.
void _exit(int status) {
    tell();
    for (;;) syscall(SYS_exit_group, status);
}

// Whether the allocation that is asked for is to be refused.
static int is_refused(void) {
    if (!atomic_load(&begun)) return 0;
    unsigned long this_one = atomic_fetch_add(&asked, 1) + 1;
    return this_one == refused || (refused_from && this_one >= refused_from);
}

void *malloc(size_t size) {
    if (is_refused()) {
        errno = ENOMEM;
        return NULL;
    }
    return __libc_malloc(size);
}

void *realloc(void *old, size_t size) {
    if (is_refused()) {
        errno = ENOMEM;
        return NULL;
    }
    return __libc_realloc(old, size);
}

typedef int creates(pthread_t *, const pthread_attr_t *, void *(*)(void *), void *);

int pthread_create(pthread_t *thread, const pthread_attr_t *attributes, void *(*body)(void *), void *given) {
    atomic_fetch_add(&threads, 1);
    creates *create = unthreaded ? NULL : (creates *)dlsym(RTLD_NEXT, "pthread_create");
    return create ? create(thread, attributes, body, given) : EAGAIN;
}
